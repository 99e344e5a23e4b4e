//! Inputs of the maker: what their generator promises.

use second::inputs::{faulty_input, good_input, input, Input, RANGES};
use second::maker::{number, BITS, NUMBERS};
use second::reader::Refusal;
use std::collections::BTreeSet;

const SEEDS: u64 = 20_000;

/// The answer in a buffer of the input's room.
fn answer(input: &Input) -> Result<usize, u8> {
    let made = input.make(&mut vec![0; input.room]);
    made.map_err(|refusal| refusal.number)
}

#[test]
fn every_refusal_occurs() {
    let (mut made, mut refused) = (0, [0; 26]);
    for seed in 0..SEEDS {
        match answer(&input(seed)) {
            Ok(_) => made += 1,
            Err(number) => refused[usize::from(number)] += 1,
        }
    }
    println!("{SEEDS} inputs, {made} made, refused {:?}", &refused[23..]);
    assert!(made > 5000);
    assert!(refused[23..].iter().all(|count| *count > 1000));
}

#[test]
fn good_inputs_are_made() {
    for seed in 0..SEEDS {
        let input = good_input(seed);
        assert!(answer(&input).is_ok(), "seed {seed}: {input}");
    }
}

#[test]
fn faulty_inputs_are_refused() {
    for number in [
        Refusal::NO_ROOM,
        Refusal::SETTING_RANGE,
        Refusal::SAMPLES_LENGTH,
    ] {
        for seed in 0..SEEDS {
            let input = faulty_input(number, seed);
            assert_eq!(answer(&input), Err(number), "seed {seed}: {input}");
        }
    }
}

#[test]
fn a_seed_gives_one_input() {
    for seed in 0..200 {
        assert_eq!(input(seed), input(seed));
    }
    assert_ne!(input(1), input(2));
}

/// The good inputs between them show every shape a maker has to deal with.
#[test]
fn good_inputs_have_every_shape() {
    let mut seen = BTreeSet::new();
    for seed in 0..SEEDS {
        let input = good_input(seed);
        let mut note = |shape: &str, met: bool| {
            if met {
                seen.insert(shape.to_string());
            }
        };
        note("one channel", input.channels == 1);
        note("128 or more channels", input.channels >= 128);
        note("256 channels", input.channels == 256);
        note("no sequences", input.sequences == 0);
        note("several sequences", input.sequences > 1);
        note("start below 0", input.start < 0);
        note("exact room", input.frame().unwrap().len() == input.room);
        for edge in [0x7F, 0x80, 0xFF, 0x100, 0xFFFF, 0x1_0000, 1_048_576] {
            note(
                &format!("{edge} octets of samples"),
                input.samples.len() == edge,
            );
        }
        let mut types = BTreeSet::new();
        for (row, bits) in input.numbers.chunks(NUMBERS).zip(input.bits.chunks(BITS)) {
            types.insert(row[number::DATA_TYPE]);
            for (at, first, last) in RANGES {
                note(&format!("number {at} first"), row[at] == first);
                note(&format!("number {at} last"), row[at] == last);
            }
            note(
                "wide bits of no null",
                row[number::NULL_WIDTH] == 0 && bits[1] >> 63 == 1,
            );
            note("null width below 0", row[number::NULL_WIDTH] < 0);
            note("null", row[number::NULL_WIDTH] > 0);
            note("all bits of 8 octets", bits[0] == u64::MAX);
        }
        note(
            "several types, with samples",
            types.len() > 1 && !input.samples.is_empty(),
        );
        seen.extend(types.iter().map(|data_type| format!("type {data_type}")));
    }
    for shape in &seen {
        println!("{shape}");
    }
    assert_eq!(seen.len(), 7 + 7 + 2 * RANGES.len() + 4 + 1 + 9);
}

/// What of an input is outside document 01's table, or wider than the sample.
fn outside(input: &Input) -> BTreeSet<String> {
    let mut found = BTreeSet::new();
    let mut note = |what: &str, holds: bool| {
        if holds {
            found.insert(what.to_string());
        }
    };
    note("start below", input.start < -2_147_483_648);
    note("start above", input.start > 2_147_483_647);
    note("sequences above", input.sequences > 4_294_967_295);
    note("no channels", input.channels == 0);
    note("channels above", input.channels > 256);
    let more =
        |count: usize, each: usize| count as i128 - each as i128 * i128::from(input.channels);
    match (
        more(input.numbers.len(), NUMBERS),
        more(input.bits.len(), BITS),
    ) {
        (0, 0) => {}
        (numbers @ -15..=15, bits @ -2..=2) => note(&format!("rows by {numbers}, {bits}"), true),
        _ => note("rows by more", true),
    }
    for (row, bits) in input
        .numbers
        .chunks_exact(NUMBERS)
        .zip(input.bits.chunks_exact(BITS))
    {
        for (at, first, last) in RANGES {
            note(&format!("number {at} below"), row[at] < first);
            note(&format!("number {at} above"), row[at] > last);
        }
        let most = width(row).map_or(u64::MAX, |width| u64::MAX >> (64 - 8 * width));
        note("offset", bits[0] > most);
        note("null", bits[1] > most && row[number::NULL_WIDTH] != 0);
    }
    found
}

/// Octets of a channel's samples, where its type is in the table.
fn width(row: &[i64]) -> Option<u64> {
    match row[number::DATA_TYPE] {
        3 | 5 => Some(1),
        0 | 1 | 4 => Some(2),
        2 | 6 | 7 => Some(4),
        8 => Some(8),
        _ => None,
    }
}

/// What the request has for an input that is in the table: 25, 23, or the frame's length.
fn expected(input: &Input) -> Result<usize, u8> {
    let (mut sequence, mut length) = (0, if input.sequences == 0 { 14 } else { 18 });
    for (channel, row) in input.numbers.chunks(NUMBERS).enumerate() {
        let width = width(row).unwrap();
        let null = if row[number::NULL_WIDTH] == 0 {
            0
        } else {
            width
        };
        let number = if channel < 128 { 1 } else { 2 };
        sequence += row[number::BLOCK] as u64 * width;
        length += 2 + number + 37 + width + null;
    }
    let samples = input.samples.len() as u64;
    let form = match samples {
        0..0x80 => 1,
        0x80..0x100 => 2,
        0x100..0x1_0000 => 3,
        _ => 4,
    };
    length += 1 + form + samples;
    if samples != input.sequences * sequence {
        return Err(25);
    }
    match length > input.room as u64 {
        true => Err(23),
        false => Ok(length as usize),
    }
}

/// Each refusal exactly when the request has it, and each thing that may be outside alone outside in some
/// input, so that it is known to be looked for.
#[test]
fn answers_are_the_requests() {
    let mut seen = BTreeSet::new();
    for seed in 0..SEEDS {
        let input = input(seed);
        let found = outside(&input);
        let expected = match found.is_empty() {
            true => expected(&input),
            false => Err(24),
        };
        assert_eq!(answer(&input), expected, "seed {seed}: {input}");
        if found.len() == 1 {
            seen.extend(found);
        }
    }
    for what in &seen {
        println!("{what}");
    }
    for rows in [
        "-1, 0", "1, 0", "-15, 0", "15, 0", "0, -1", "0, 1", "0, -2", "0, 2", "-15, -2", "15, 2",
    ] {
        assert!(seen.contains(&format!("rows by {rows}")), "{rows}");
    }
    seen.retain(|what| !what.starts_with("rows by"));
    assert_eq!(seen.len(), 5 + 2 * RANGES.len() + 2);
}
