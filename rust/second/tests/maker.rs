//! Request 1 of document 02: a frame made from its settings and samples, or the one right refusal.

mod common;

use common::{all_there, canonical, refused};
use second::generator::good_file;
use second::inputs::{good_input, in_file_order, Input, RANGES};
use second::maker::{number, Numbers, BITS, NUMBERS};
use second::papers::{octets, P2, P2_CANONICAL};
use second::reader::{all_samples, check, frames, Refusal, Series};

/// What output buffers hold before a frame is made.
const OCTET: u8 = 0xA5;

/// The row of a channel for which nothing was defined, in a frame of one channel.
const DEFAULTS: Numbers = [0, 1, 0, 1, 0, 0, 0, 0, 0, 1000, 0, -6, 1, 2, 0];

/// So many channels of the default settings, without sequences, and room enough.
fn defaults(channels: usize) -> Input {
    Input {
        start: 0,
        sequences: 0,
        channels: channels as u64,
        numbers: DEFAULTS.repeat(channels),
        bits: vec![0; BITS * channels],
        samples: Vec::new(),
        room: 24 + 57 * channels,
    }
}

/// Makes the frame; a refusal must leave the buffer alone, and a frame what comes after it.
fn made(input: &Input) -> Result<Vec<u8>, Refusal> {
    let mut out = vec![OCTET; input.room];
    let answer = input.make(&mut out);
    let written = answer.unwrap_or(0);
    assert!(out[written..].iter().all(|octet| *octet == OCTET));
    out.truncate(written);
    answer.map(|_| out)
}

/// The frame of an input of one channel with one number of its row set.
fn with_number(at: usize, value: i64) -> Result<Vec<u8>, Refusal> {
    let mut input = defaults(1);
    input.numbers[at] = value;
    made(&input)
}

#[test]
fn p2_is_made_as_the_canonical_file_has_it() {
    let mut input = defaults(2);
    input.sequences = 1;
    input.numbers[number::BLOCK] = 2;
    input.samples = octets("00 01 00 02 FF FF");
    input.room = 110;
    assert_eq!(made(&input), Ok(octets(P2_CANONICAL)[3..].to_vec()));
}

#[test]
fn every_setting_has_its_place() {
    let input = Input {
        start: -2,
        sequences: 2,
        channels: 1,
        numbers: vec![
            9,
            9,
            9,
            3,
            258,
            772,
            6,
            1,
            -3,
            5,
            22,
            127,
            2_147_483_647,
            9,
            4,
        ],
        bits: vec![0x0102_0304, 0xFFFF_FFFE],
        samples: (0..24).collect(),
        room: 100,
    };
    let frame = "05 04 00 00 00 01 06 04 00 00 00 02 07 04 FF FF FF FE \
        3F 00 2D 04 04 00 00 00 03 08 02 01 02 09 02 03 04 0A 01 06 \
        0B 06 01 FD 00 00 00 05 0C 06 16 7F 7F FF FF FF 0D 04 01 02 03 04 12 04 FF FF FF FE \
        1E 18 00 01 02 03 04 05 06 07 08 09 0A 0B 0C 0D 0E 0F 10 11 12 13 14 15 16 17";
    assert_eq!(made(&input), Ok(octets(frame)));
}

#[test]
fn no_sequences_are_written_as_an_empty_item() {
    let frame = "05 04 00 00 00 01 06 00 07 04 00 00 00 00 \
        3F 00 27 04 04 00 00 00 01 08 02 00 00 09 02 00 00 0A 01 00 \
        0B 06 00 00 00 00 03 E8 0C 06 00 FA 00 00 00 01 0D 02 00 00 12 00 1E 00";
    assert_eq!(made(&defaults(1)), Ok(octets(frame)));
}

#[test]
fn channel_numbers_are_shortest() {
    let frame = made(&defaults(256)).unwrap();
    let group = |number: &str| {
        let head = octets(&format!("3F {number} 27 04 04"));
        frame
            .windows(head.len())
            .filter(|octets| *octets == head)
            .count()
    };
    for number in ["00", "01", "7F", "81 00", "81 7F"] {
        assert_eq!(group(number), 1, "{number}");
    }
    // Half of the channels have a number of two octets.
    assert_eq!(frame.len(), 14 + 128 * 42 + 128 * 43 + 2);
}

#[test]
fn lengths_are_shortest() {
    for (samples, form) in [
        (0x7F, "1E 7F"),
        (0x80, "1E 81 80"),
        (0xFF, "1E 81 FF"),
        (0x100, "1E 82 01 00"),
        (0xFFFF, "1E 82 FF FF"),
        (0x1_0000, "1E 83 01 00 00"),
    ] {
        let mut input = defaults(1);
        input.numbers[number::DATA_TYPE] = 3;
        input.sequences = samples;
        input.samples = vec![7; samples as usize];
        input.room = 100 + samples as usize;
        let frame = made(&input).unwrap();
        let (head, waveform) = frame.split_at(frame.len() - samples as usize);
        assert!(head.ends_with(&octets(form)), "{form}");
        assert_eq!(waveform, input.samples);
    }
}

#[test]
fn numbers_of_a_row_have_their_ranges() {
    for (at, first, last) in RANGES {
        for value in [first, first + 1, last - 1, last] {
            assert!(with_number(at, value).is_ok(), "number {at}: {value}");
        }
        let truncated = [8, 16, 32].map(|bits| first + (1 << bits));
        let outside = [first - 1, last + 1, -1 - last, i64::MIN, i64::MAX];
        for value in outside.into_iter().chain(truncated) {
            if !(first..=last).contains(&value) {
                assert_eq!(
                    with_number(at, value),
                    refused(24, 0),
                    "number {at}: {value}"
                );
            }
        }
    }
}

#[test]
fn the_first_and_the_last_channel_are_looked_at() {
    for channels in [2, 3, 12, 255, 256] {
        for channel in [0, channels / 2, channels - 1] {
            for (at, _, last) in RANGES {
                let mut input = defaults(channels);
                input.numbers[NUMBERS * channel + at] = last + 1;
                assert_eq!(
                    made(&input),
                    refused(24, 0),
                    "channel {channel}, number {at}"
                );
            }
            for at in [0, 1] {
                let mut input = defaults(channels);
                input.numbers[NUMBERS * channel + number::NULL_WIDTH] = 2;
                input.bits[BITS * channel + at] = 0x1_0000;
                assert_eq!(made(&input), refused(24, 0), "channel {channel}, bits {at}");
            }
        }
    }
}

#[test]
fn starts_have_32_bits() {
    let with_start = |start| {
        made(&Input {
            start,
            ..defaults(1)
        })
    };
    for start in [i32::MIN, -1, 0, i32::MAX] {
        let frame = with_start(start.into()).unwrap();
        assert_eq!(frame[8..14], [&[7, 4], &start.to_be_bytes()[..]].concat());
    }
    for start in [-2_147_483_649, 2_147_483_648, 1 << 32, i64::MIN, i64::MAX] {
        assert_eq!(with_start(start), refused(24, 0), "{start}");
    }
}

#[test]
fn sequences_have_32_bits() {
    let with_sequences = |sequences| {
        made(&Input {
            sequences,
            ..defaults(1)
        })
    };
    assert!(with_sequences(0).is_ok());
    // In the table, but without their samples.
    for sequences in [1, 4_294_967_295] {
        assert_eq!(with_sequences(sequences), refused(25, 0));
    }
    for sequences in [4_294_967_296, 1 << 63, u64::MAX] {
        assert_eq!(with_sequences(sequences), refused(24, 0));
    }
}

#[test]
fn channels_are_1_to_256() {
    for channels in [1, 2, 256] {
        let frame = made(&defaults(channels)).unwrap();
        assert_eq!(frame[2..6], (channels as u32).to_be_bytes());
    }
    for channels in [0, 257, 300] {
        assert_eq!(made(&defaults(channels)), refused(24, 0));
    }
    for channels in [0, 2, 257, 1 + (1 << 32), 1 + (1 << 63), u64::MAX] {
        let input = Input {
            channels,
            ..defaults(1)
        };
        assert_eq!(made(&input), refused(24, 0), "{channels}");
    }
}

#[test]
fn rows_are_as_many_as_channels() {
    for (numbers, bits) in [
        (30, 4),
        (29, 4),
        (31, 4),
        (15, 4),
        (45, 4),
        (0, 4),
        (30, 3),
        (30, 5),
    ]
    .into_iter()
    .chain([(30, 2), (30, 6), (30, 0), (15, 2), (45, 6), (0, 0)])
    {
        let mut input = defaults(3);
        input.channels = 2;
        input.numbers.truncate(numbers);
        input.bits.truncate(bits);
        let expected = numbers == 30 && bits == 4;
        assert_eq!(made(&input).is_ok(), expected, "{numbers}, {bits}");
        if !expected {
            assert_eq!(made(&input), refused(24, 0));
        }
    }
}

#[test]
fn bits_are_no_wider_than_the_sample() {
    for (data_type, width) in [2, 2, 4, 1, 2, 1, 4, 4, 8].into_iter().enumerate() {
        let with_bits = |offset, null, null_width| {
            let mut input = defaults(1);
            input.numbers[number::DATA_TYPE] = data_type as i64;
            input.numbers[number::NULL_WIDTH] = null_width;
            input.bits = vec![offset, null];
            made(&input)
        };
        let most = u64::MAX >> (64 - 8 * width);
        assert!(with_bits(most, most, width).is_ok());
        if width == 8 {
            continue;
        }
        for wider in [most + 1, u64::MAX, 1 << 63] {
            assert_eq!(with_bits(wider, 0, 0), refused(24, 0), "type {data_type}");
            for null_width in [1, 2, 8, -1, i64::MIN, i64::MAX] {
                assert_eq!(with_bits(0, wider, null_width), refused(24, 0));
            }
            // Without a null its bits are not looked at.
            assert_eq!(with_bits(0, wider, 0), with_bits(0, 0, 0));
        }
    }
}

#[test]
fn any_null_width_but_0_is_a_null() {
    let expected = with_number(number::NULL_WIDTH, 2).unwrap();
    assert_eq!(expected[expected.len() - 6..], octets("12 02 00 00 1E 00"));
    for null_width in [1, 8, 3, -1, i64::MIN, i64::MAX, 1 << 32] {
        let frame = with_number(number::NULL_WIDTH, null_width);
        assert_eq!(frame.as_ref(), Ok(&expected), "{null_width}");
    }
}

#[test]
fn what_a_row_says_of_the_frame_is_not_looked_at() {
    let expected = made(&defaults(1));
    for at in [
        number::START,
        number::CHANNELS,
        number::SEQUENCES,
        number::WIDTH,
    ] {
        for value in [i64::MIN, -1, 0, 1, 3, 257, i64::MAX] {
            assert_eq!(with_number(at, value), expected, "number {at}: {value}");
        }
    }
}

/// Two channels, blocks of 3 samples of 2 octets and of 1 of 8: 14 octets a sequence.
fn fourteen(sequences: u64, samples: usize) -> Input {
    let mut input = defaults(2);
    input.numbers[number::BLOCK] = 3;
    input.numbers[NUMBERS + number::DATA_TYPE] = 8;
    Input {
        sequences,
        samples: vec![7; samples],
        room: input.room + samples,
        ..input
    }
}

#[test]
fn samples_are_exactly_those_of_the_sequences() {
    for sequences in [0, 1, 2, 5] {
        let exact = 14 * sequences as usize;
        assert!(made(&fourteen(sequences, exact)).is_ok());
        for samples in [
            0,
            1,
            exact.abs_diff(1),
            exact + 1,
            exact.abs_diff(2),
            exact + 14,
        ] {
            if samples != exact {
                assert_eq!(made(&fourteen(sequences, samples)), refused(25, 0));
            }
        }
    }
}

#[test]
fn sequences_times_octets_do_not_wrap() {
    // 2^31 sequences of 14 octets are 7 times 2^32.
    for (sequences, samples) in [(1 << 31, 0), ((1 << 31) + 1, 14), (u32::MAX.into(), 0)] {
        assert_eq!(made(&fourteen(sequences, samples)), refused(25, 0));
    }
    // The most octets that can be asked for, a little below 2^63.
    let mut input = defaults(256);
    input.sequences = u32::MAX.into();
    for row in input.numbers.chunks_exact_mut(NUMBERS) {
        row[number::BLOCK] = 1_048_576;
        row[number::DATA_TYPE] = 8;
    }
    assert_eq!(made(&input), refused(25, 0));
}

#[test]
fn the_room_is_exact_or_more() {
    for input in [defaults(1), defaults(200), fourteen(3, 42)] {
        let frame = input.frame().unwrap();
        for longer in [0, 1, 9] {
            let room = frame.len() + longer;
            let input = Input {
                room,
                ..input.clone()
            };
            assert_eq!(made(&input).as_ref(), Ok(&frame));
        }
        for room in [0, 1, frame.len() - 2, frame.len() - 1] {
            let input = Input {
                room,
                ..input.clone()
            };
            assert_eq!(made(&input), refused(23, 0));
        }
    }
}

/// 24 before 25 before 23, over all channels.
#[test]
fn refusals_have_their_order() {
    let setting_faults: [fn(&mut Input); 6] = [
        |input| input.start = 1 << 31,
        |input| input.sequences = 1 << 32,
        |input| input.channels = 3,
        |input| input.numbers[NUMBERS + number::RESOLUTION_MANTISSA] = 0,
        |input| input.bits[0] = 0x1_0000,
        |input| {
            input.numbers[NUMBERS + number::NULL_WIDTH] = -1;
            input.numbers[NUMBERS + number::DATA_TYPE] = 5;
            input.bits[3] = 0x100;
        },
    ];
    for fault in setting_faults {
        for (samples, room) in [(14, 200), (13, 200), (14, 0), (15, 0)] {
            let mut input = fourteen(1, samples);
            input.room = room;
            fault(&mut input);
            assert_eq!(made(&input), refused(24, 0));
        }
    }
    for room in [0, 50, 200] {
        let input = Input {
            room,
            ..fourteen(1, 13)
        };
        assert_eq!(made(&input), refused(25, 0));
    }
    let input = Input {
        room: 50,
        ..fourteen(1, 14)
    };
    assert_eq!(made(&input), refused(23, 0));
}

/// The frames of an accepted file whose samples are all there, each as the settings and samples that it
/// is made of.
fn taken_apart(file: &[u8]) -> Vec<Input> {
    let mut inputs = Vec::new();
    let visited = frames(file, |met, channels| {
        let rows = channels.iter().map(|series| series.attributes().row());
        let (numbers, bits): (Vec<_>, Vec<_>) = rows.unzip();
        let count: u64 = channels.iter().map(Series::samples).sum();
        let mut samples = vec![0; count as usize];
        assert_eq!(all_samples(channels, &mut samples), samples.len());
        inputs.push(Input {
            start: met.start.into(),
            sequences: met.sequences.into(),
            channels: channels.len() as u64,
            samples: in_file_order(met.sequences.into(), &numbers, &samples),
            numbers: numbers.concat(),
            bits: bits.concat(),
            room: 0,
        });
    });
    visited.unwrap();
    inputs
}

#[test]
fn a_file_whose_samples_are_all_there_is_made_again_in_canonical_form() {
    let generated = (0..5000).map(good_file).filter(|file| file.len() < 100_000);
    let (whole, others): (Vec<_>, Vec<_>) = generated.partition(|file| all_there(file));
    assert!(whole.len() > 2000 && others.len() > 1000);
    for file in whole.into_iter().chain([octets(P2)]) {
        let frames = taken_apart(&file);
        let mut made = match frames.is_empty() {
            true => Vec::new(),
            false => octets("01 01 00"),
        };
        for frame in &frames {
            made.extend(frame.frame().unwrap());
        }
        assert_eq!(made, canonical(&file));
    }
}

/// The maker wants exact counts: the samples there of a cut-off frame are too few.
#[test]
fn a_frame_that_is_cut_off_is_not_made() {
    let mut cut = 0;
    for file in (0..5000).map(good_file) {
        let visited = frames(&file, |met, channels| {
            if channels
                .iter()
                .all(|series| series.there() == series.samples())
            {
                return;
            }
            let rows = channels.iter().map(|series| series.attributes().row());
            let (numbers, bits): (Vec<_>, Vec<_>) = rows.unzip();
            let there = channels.iter().zip(&numbers);
            let octets: u64 = there
                .map(|(series, row)| series.there() * row[number::WIDTH] as u64)
                .sum();
            let input = Input {
                start: met.start.into(),
                sequences: met.sequences.into(),
                channels: channels.len() as u64,
                numbers: numbers.concat(),
                bits: bits.concat(),
                samples: vec![0; octets as usize],
                room: 20_000,
            };
            assert_eq!(made(&input), refused(25, 0));
            cut += 1;
        });
        visited.unwrap();
    }
    assert!(cut > 1000, "{cut}");
}

#[test]
fn made_files_read_back() {
    for seed in 0..5000 {
        let inputs: Vec<Input> = (0..1 + seed % 4)
            .map(|n| good_input(8 * seed + n))
            .collect();
        let mut file = octets("01 01 00");
        for input in &inputs {
            file.extend(input.frame().unwrap());
        }
        assert_eq!(check(&file), Ok(inputs.len() as u32));
        let mut inputs = inputs.iter();
        let visited = frames(&file, |met, channels| {
            let input = inputs.next().unwrap();
            assert_eq!(channels.len() as u64, input.channels);
            assert_eq!(met.length, input.samples.len() as u64);
            let mut bits = vec![0; input.sample_bits().len()];
            assert_eq!(all_samples(channels, &mut bits), bits.len());
            assert_eq!(bits, input.sample_bits());
            for (channel, series) in channels.iter().enumerate() {
                assert_eq!(series.attributes().row(), input.told(channel));
            }
        });
        assert!(visited.is_ok() && inputs.next().is_none());
        assert!(all_there(&file));
        assert_eq!(canonical(&file), file);
    }
}
