//! Generated files: what the generator promises, and what the writer must keep.

mod common;

use common::{all_there, canonical, edges, recording};
use second::generator::{faulty_file, file, good_file};
use second::reader::{
    attributes, check, each_channel, frames, sample, samples, there, values, Attributes, Refusal,
    Value,
};
use second::shrink::hex;
use second::writer;
use std::collections::{BTreeMap, BTreeSet};

const SEEDS: u64 = 20_000;

/// At most so many frames, channels or samples of a file are gone through one by one.
fn some_of(count: u64, most: u64) -> impl Iterator<Item = u64> {
    let step = count.div_ceil(most).max(1);
    (0..count)
        .step_by(step as usize)
        .chain(count.checked_sub(1))
}

/// The samples of a channel that are declared.
fn declared(read: &Attributes) -> u64 {
    u64::from(read.sequences) * u64::from(read.block)
}

/// All samples of a channel that are there, by the bulk question.
fn all_samples(file: &[u8], frame: u32, channel: u32) -> Vec<u64> {
    let count = there(file, frame, channel).unwrap();
    let mut bits = vec![0; count as usize];
    if declared(&attributes(file, frame, channel).unwrap()) > 0 {
        let filled = samples(file, frame, channel, 0, &mut bits);
        assert_eq!(filled, Ok(count as usize));
    }
    bits
}

#[test]
fn every_refusal_occurs() {
    let mut refusals = [0; 24];
    let (mut accepted, mut with_frames, mut small) = (0, 0, 0);
    for seed in 0..SEEDS {
        let file = file(seed);
        small += u32::from(file.len() < 400);
        match check(&file) {
            Ok(frames) => {
                accepted += 1;
                with_frames += u32::from(frames > 0);
            }
            Err(refusal) => refusals[usize::from(refusal.number)] += 1,
        }
    }
    println!("{SEEDS} files, {small} below 400 octets");
    println!("accepted {accepted}, {with_frames} of them with frames");
    for (number, count) in refusals.iter().enumerate().take(14).skip(1) {
        println!("refusal {number:2}: {count}");
        assert!(*count >= 50, "refusal {number} occurs {count} times");
    }
    assert_eq!(refusals[14..], [0; 10]);
    assert!(u64::from(small) > SEEDS * 9 / 10);
    assert!(with_frames > 5000);
}

#[test]
fn good_files_are_accepted() {
    for seed in 0..SEEDS {
        let file = good_file(seed);
        assert!(check(&file).is_ok(), "seed {seed}: {}", hex(&file));
    }
}

#[test]
fn faults_are_found_where_they_were_built_in() {
    for number in 1..=13 {
        let seeds = if number == 11 { 100 } else { 2000 };
        for seed in 0..seeds {
            let (file, place) = faulty_file(number, seed);
            let refusal = Refusal { number, place };
            assert_eq!(check(&file), Err(refusal), "seed {seed}: {}", hex(&file));
        }
    }
}

#[test]
fn a_seed_gives_one_file() {
    for seed in 0..200 {
        assert_eq!(file(seed), file(seed));
        assert_eq!(good_file(seed), good_file(seed));
    }
    assert_ne!(file(1), file(2));
}

#[test]
fn the_canonical_file_is_the_same_recording() {
    for seed in 0..SEEDS {
        let source = file(seed);
        let Ok(frames) = check(&source) else {
            continue;
        };
        let written = canonical(&source);
        assert_eq!(canonical(&written), written, "seed {seed}");
        assert_eq!(check(&written), Ok(frames));
        for frame in some_of(frames.into(), 8) {
            let frame = frame as u32;
            let channels = attributes(&source, frame, 0).unwrap().channels;
            for channel in some_of(channels.into(), 16) {
                same_channel(&source, &written, frame, channel as u32);
            }
        }
    }
}

fn same_channel(source: &[u8], written: &[u8], frame: u32, channel: u32) {
    let read = attributes(source, frame, channel);
    assert_eq!(attributes(written, frame, channel), read);
    let bits = all_samples(source, frame, channel);
    assert_eq!(all_samples(written, frame, channel), bits);
    let read = read.unwrap();
    for number in edges(bits.len() as u64, declared(&read)) {
        let (source, written) = (
            sample(source, frame, channel, number),
            sample(written, frame, channel, number),
        );
        assert_eq!(
            source.map(|(_, value)| value),
            written.map(|(_, value)| value)
        );
        match source {
            Err(refusal) => {
                assert!(number >= declared(&read));
                assert_eq!((refusal.number, refusal.place), (22, 0));
            }
            Ok((place, Value::NoData)) => {
                assert!((bits.len() as u64..declared(&read)).contains(&number));
                assert_eq!(place, 0);
            }
            Ok((_, value)) => assert_eq!(value, by_hand(bits[number as usize], read)),
        }
    }
}

/// The value of bits, from the answers to the other questions.
fn by_hand(bits: u64, read: Attributes) -> Value {
    match read.data_type {
        _ if read.null == Some(bits) => Value::Null,
        0 => Value::Whole(i64::from(bits as u16 as i16)),
        1 | 3 | 6 => Value::Whole(bits as i64),
        2 => Value::Whole(i64::from(bits as u32 as i32)),
        4 => Value::Status(bits as u16),
        5 => Value::Whole(i64::from(bits as u8 as i8)),
        7 if bits & 0x7FFF_FFFF > 0x7F80_0000 => Value::NotNumber(bits),
        7 => Value::Single(f32::from_bits(bits as u32)),
        _ if bits << 1 > 0x7FF0_0000_0000_0000 << 1 => Value::NotNumber(bits),
        _ => Value::Double(f64::from_bits(bits)),
    }
}

#[test]
fn refused_files_leave_the_buffer_alone() {
    for seed in 0..2000 {
        let file = file(seed);
        let Err(refusal) = check(&file) else {
            continue;
        };
        let mut buffer = [0xA5; 5000];
        assert_eq!(writer::canonical(&file, &mut buffer), Err(refusal));
        assert_eq!(buffer, [0xA5; 5000]);
        assert_eq!(attributes(&file, 0, 0), Err(refusal));
        assert_eq!(sample(&file, 0, 0, 0), Err(refusal));
        assert_eq!(samples(&file, 0, 0, 0, &mut [0]), Err(refusal));
        assert_eq!(there(&file, 0, 0), Err(refusal));
    }
}

#[test]
fn bulk_reading_agrees_with_single_samples() {
    for seed in 0..2000 {
        let file = good_file(seed);
        if file.len() > 1000 || check(&file).unwrap() == 0 {
            continue;
        }
        let channels = attributes(&file, 0, 0).unwrap().channels;
        for channel in 0..channels.min(8) {
            let read = attributes(&file, 0, channel).unwrap();
            let bits = all_samples(&file, 0, channel);
            for first in 0..bits.len() {
                let (_, value) = sample(&file, 0, channel, first as u64).unwrap();
                assert_eq!(value, by_hand(bits[first], read));
                let mut three = [u64::MAX; 3];
                let filled = samples(&file, 0, channel, first as u64, &mut three).unwrap();
                assert_eq!(filled, 3.min(bits.len() - first));
                assert_eq!(three[..filled], bits[first..first + filled]);
            }
            for first in edges(bits.len() as u64, declared(&read)) {
                let expected = match first {
                    _ if first >= declared(&read) => Err(22),
                    _ => Ok((bits.len() as u64).saturating_sub(first).min(3) as usize),
                };
                let (mut three, mut kinds) = ([u64::MAX; 3], [Value::NoData; 3]);
                let filled = samples(&file, 0, channel, first, &mut three);
                assert_eq!(filled.map_err(|refusal| refusal.number), expected);
                assert_eq!(values(&file, 0, channel, first, &mut kinds), filled);
                let filled = filled.unwrap_or(0);
                assert!(three[filled..].iter().all(|bits| *bits == u64::MAX));
                assert!(kinds[filled..].iter().all(|value| *value == Value::NoData));
                assert!(kinds[..filled].iter().all(|value| *value != Value::NoData));
            }
        }
    }
}

#[test]
fn one_pass_over_all_channels_agrees_with_questions() {
    for seed in 0..2000 {
        let file = file(seed);
        if file.len() > 1000 {
            continue;
        }
        let mut shown = Vec::new();
        let mut buffer = [0; 1000];
        let frames = each_channel(&file, &mut buffer, |read, bits| {
            shown.push((*read, bits.to_vec()));
        });
        assert_eq!(frames, check(&file));
        let mut shown = shown.into_iter();
        for frame in 0..frames.unwrap_or(0) {
            let channels = attributes(&file, frame, 0).unwrap().channels;
            for channel in 0..channels {
                let read = attributes(&file, frame, channel).unwrap();
                let bits = all_samples(&file, frame, channel);
                assert_eq!(shown.next(), Some((read, bits)), "seed {seed}");
            }
        }
        assert!(frames.is_err() || shown.next().is_none(), "seed {seed}");
    }
}

/// The good files between them show every shape a reader has to deal with.
#[test]
fn good_files_have_every_shape() {
    let mut seen = BTreeSet::new();
    for seed in 0..SEEDS {
        let file = good_file(seed);
        let frames = check(&file).unwrap();
        if frames == 4096 {
            seen.insert("4096 frames".to_string());
        }
        for frame in some_of(frames.into(), 4) {
            let frame = frame as u32;
            let channels = attributes(&file, frame, 0).unwrap().channels;
            for channel in some_of(channels.into(), 4) {
                let read = attributes(&file, frame, channel as u32).unwrap();
                seen.insert(format!("type {}", read.data_type));
                let mut note = |shape: &str, met: bool| {
                    if met {
                        seen.insert(shape.to_string());
                    }
                };
                note("several frames", frames > 1);
                note("256 channels", channels == 256);
                note("128 or more channels", channels >= 128);
                note("no sequences", read.sequences == 0);
                note("most sequences", read.sequences == u32::MAX);
                note("several sequences", read.sequences > 1);
                note("longest block", read.block == 1_048_576);
                note("short block", (2..5).contains(&read.block));
                note("class of two octets", read.class > 255);
                note("lead of two octets", read.lead > 255);
                note("offset", read.offset != 0);
                note("null", read.null.is_some());
                note("start below 0", read.start < 0);
                note("interval", read.interval.unit == 2);
                note("resolution", read.resolution.unit == 22);
                for number in [0, declared(&read).saturating_sub(1)] {
                    if let Ok((_, value)) = sample(&file, frame, channel as u32, number) {
                        let kind = format!("{value:?}");
                        seen.insert(kind.split('(').next().unwrap().to_string());
                    }
                }
            }
        }
    }
    for shape in &seen {
        println!("{shape}");
    }
    assert_eq!(seen.len(), 1 + 9 + 15 + 7);
}

/// Two files have the same canonical file exactly when they hold the same recording. Cutting the last
/// waveform of a good file makes some that do and many that do not.
#[test]
fn canonical_files_tell_recordings_apart() {
    let (mut same, mut different) = (0, 0);
    for seed in 0..SEEDS {
        let file = good_file(seed);
        let mut last = None;
        let visited = frames(&file, |met, _| last = Some((met.place, met.length)));
        let Some((place, length)) = last.filter(|_| file.len() < 1000) else {
            continue;
        };
        visited.unwrap();
        // The waveform is the file's end, after a length of one octet.
        let tag = place as usize - 2;
        if place + length < file.len() as u64
            || length == 0
            || file[tag..][..2] != [0x1E, length as u8]
        {
            continue;
        }
        let mut shorter = file[..file.len() - 1 - seed as usize % length as usize].to_vec();
        shorter[tag + 1] = (shorter.len() - place as usize) as u8;
        match recording(&shorter) == recording(&file) {
            true => {
                same += 1;
                assert_eq!(canonical(&shorter), canonical(&file));
            }
            false => {
                different += 1;
                assert_ne!(canonical(&shorter), canonical(&file));
            }
        }
    }
    println!("same {same}, different {different}");
    assert!(same > 100 && different > 1000);
}

/// The good files have cut-off frames of every shape, and not seldom.
#[test]
fn cut_frames_are_made_often() {
    let mut counts = BTreeMap::new();
    for seed in 0..SEEDS {
        let file = good_file(seed);
        let mut note = |shape: &'static str, met: bool| {
            *counts.entry(shape).or_insert(0) += u32::from(met);
        };
        note("whole file", all_there(&file));
        note("file with a cut frame", !all_there(&file));
        let mut continued = None;
        let visited = frames(&file, |met, channels| {
            let all: Vec<_> = channels.iter().map(|series| series.attributes()).collect();
            let widths: BTreeSet<_> = all.iter().map(|read| width(read.data_type)).collect();
            note(
                "continued after a cut frame",
                continued == Some(i64::from(met.start)),
            );
            continued = None;
            let cut = channels
                .iter()
                .any(|series| series.there() < series.samples());
            if !cut {
                return;
            }
            // The root's block is not told; where all channels have the same, it is often that.
            let advance = i64::from(all[0].block) * i64::from(met.sequences);
            continued = Some(i64::from(met.start) + advance);
            let blocks: BTreeSet<_> = all.iter().map(|read| read.block).collect();
            let mixed = widths.len() > 1 && blocks.len() > 1;
            let octets: u64 = channels
                .iter()
                .zip(&all)
                .map(|(series, read)| series.there() * width(read.data_type))
                .sum();
            let partial = (met.length - octets) as usize;
            note("empty waveform", met.length == 0);
            note("no sample of some octets", met.length > 0 && octets == 0);
            note("most sequences", met.sequences == u32::MAX);
            note("one sequence", met.sequences == 1);
            note(
                "mixed widths and blocks, big",
                mixed && !met.little && octets > 0,
            );
            note(
                "mixed widths and blocks, little",
                mixed && met.little && octets > 0,
            );
            note(
                "cut between sequences",
                octets > 0 && octets.is_multiple_of(met.sequence_octets) && partial == 0,
            );
            note("cut inside a sample", partial > 0);
            // The octets of the partial sample and what comes next, as its null.
            let end = (met.place + met.length) as usize;
            note(
                "null by the next item",
                partial > 0
                    && all.iter().any(|read| {
                        let width = width(read.data_type) as usize;
                        let after = file.get(end - partial..end - partial + width);
                        partial < width
                            && after
                                .is_some_and(|after| Some(number(after, met.little)) == read.null)
                    }),
            );
        });
        visited.unwrap();
    }
    for (shape, count) in &counts {
        println!("{shape}: {count}");
        assert!(*count >= 200, "{shape}: {count}");
    }
    assert_eq!(counts.len(), 12);
}

/// Octets per sample by type.
fn width(data_type: u8) -> u64 {
    [2, 2, 4, 1, 2, 1, 4, 4, 8][usize::from(data_type)]
}

/// The bits of octets.
fn number(octets: &[u8], little: bool) -> u64 {
    let mut octets = octets.to_vec();
    if little {
        octets.reverse();
    }
    octets
        .iter()
        .fold(0, |bits, octet| bits * 256 + u64::from(*octet))
}
