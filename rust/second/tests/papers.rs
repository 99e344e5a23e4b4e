//! The files the papers name, and the errors a builder will be drawn to.

mod common;

use common::{canonical, refused};
use second::papers::*;
use second::reader::{
    all_samples, attributes, check, frames, sample, samples, there, Attributes, Scale, Value,
};
use second::shrink::hex;

/// A channel for which nothing was defined, in a frame of one channel without sequences.
const DEFAULTS: Attributes = Attributes {
    start: 0,
    channels: 1,
    sequences: 0,
    block: 1,
    class: 0,
    lead: 0,
    data_type: 0,
    interval: Scale {
        unit: 0,
        exponent: 0,
        mantissa: 1000,
    },
    resolution: Scale {
        unit: 0,
        exponent: -6,
        mantissa: 1,
    },
    offset: 0,
    null: None,
};

#[test]
fn p1_is_empty() {
    let file = octets(P1);
    assert_eq!(check(&file), Ok(0));
    assert_eq!(canonical(&file), []);
    assert_eq!(attributes(&file, 0, 0), refused(20, 0));
}

#[test]
fn p2_has_two_channels_with_blocks_of_their_own() {
    let file = octets(P2);
    assert_eq!(check(&file), Ok(1));
    assert_eq!(sample(&file, 0, 0, 0), Ok((17, Value::Whole(1))));
    assert_eq!(sample(&file, 0, 0, 1), Ok((19, Value::Whole(2))));
    assert_eq!(sample(&file, 0, 1, 0), Ok((21, Value::Whole(-1))));
    assert_eq!(sample(&file, 0, 0, 2), refused(22, 0));
    assert_eq!(sample(&file, 0, 1, 1), refused(22, 0));
    let first = Attributes {
        channels: 2,
        sequences: 1,
        block: 2,
        ..DEFAULTS
    };
    assert_eq!(attributes(&file, 0, 0), Ok(first));
    let second = Attributes { block: 1, ..first };
    assert_eq!(attributes(&file, 0, 1), Ok(second));
    let mut bits = [7; 3];
    assert_eq!(samples(&file, 0, 0, 0, &mut bits), Ok(2));
    assert_eq!(bits, [1, 2, 7]);
    assert_eq!(samples(&file, 0, 1, 0, &mut bits), Ok(1));
    assert_eq!(bits, [0xFFFF, 2, 7]);
}

#[test]
fn p2_has_113_canonical_octets() {
    let written = octets(P2_CANONICAL);
    assert_eq!(written.len(), 113);
    assert_eq!(canonical(&octets(P2)), written);
    assert_eq!(canonical(&written), written);
}

#[test]
fn p3_is_a_frame_without_sequences() {
    let file = octets(P3);
    assert_eq!(check(&file), Ok(1));
    assert_eq!(attributes(&file, 0, 0), Ok(DEFAULTS));
    assert_eq!(sample(&file, 0, 0, 0), refused(22, 0));
    let written = octets(
        "01 01 00 05 04 00 00 00 01 06 00 07 04 00 00 00 00 \
         3F 00 27 04 04 00 00 00 01 08 02 00 00 09 02 00 00 0A 01 00 \
         0B 06 00 00 00 00 03 E8 0C 06 00 FA 00 00 00 01 0D 02 00 00 12 00 \
         1E 00",
    );
    assert_eq!(canonical(&file), written);
    assert_eq!(canonical(&written), written);
}

#[test]
fn p4_forgets_a_channel_setting_after_a_root_one() {
    let file = octets(P4);
    assert_eq!(check(&file), Ok(1));
    for channel in 0..2 {
        assert_eq!(attributes(&file, 0, channel).unwrap().data_type, 5);
    }
    assert_eq!(sample(&file, 0, 0, 0), Ok((14, Value::Whole(7))));
    assert_eq!(sample(&file, 0, 1, 0), Ok((15, Value::Whole(8))));
}

#[test]
fn p5_ignores_the_group() {
    let file = octets(P5);
    assert_eq!(check(&file), Ok(1));
    assert_eq!(attributes(&file, 0, 0).unwrap().data_type, 0);
    assert_eq!(attributes(&file, 0, 0).unwrap().sequences, 1);
    assert_eq!(sample(&file, 0, 0, 0), Ok((8, Value::Whole(9))));
    assert_eq!(sample(&file, 0, 0, 1), refused(22, 0));
}

#[test]
fn p6_to_p8_and_p10_are_refused() {
    for (file, number, place) in [(P6, 8, 3), (P7, 2, 0), (P8, 10, 0), (P10, 12, 3)] {
        let file = octets(file);
        assert_eq!(check(&file), refused(number, place));
        // Every question on a refused file answers the file's refusal.
        assert_eq!(attributes(&file, 9, 9), refused(number, place));
        assert_eq!(sample(&file, 9, 9, 9), refused(number, place));
        assert_eq!(samples(&file, 9, 9, 9, &mut [0]), refused(number, place));
        assert_eq!(there(&file, 9, 9), refused(number, place));
        let length = second::writer::canonical_length(&file);
        assert_eq!(length, refused(number, place));
        let mut buffer = [0xA5; 200];
        let written = second::writer::canonical(&file, &mut buffer);
        assert_eq!(written, refused(number, place));
        assert_eq!(buffer, [0xA5; 200]);
    }
}

#[test]
fn p9_has_5_and_then_no_data() {
    let file = octets(P9);
    assert_eq!(check(&file), Ok(1));
    let read = Attributes {
        sequences: 2,
        ..DEFAULTS
    };
    assert_eq!(attributes(&file, 0, 0), Ok(read));
    assert_eq!(there(&file, 0, 0), Ok(1));
    assert_eq!(sample(&file, 0, 0, 0), Ok((5, Value::Whole(5))));
    assert_eq!(sample(&file, 0, 0, 1), Ok((0, Value::NoData)));
    assert_eq!(sample(&file, 0, 0, 2), refused(22, 0));
    let mut bits = [7; 2];
    assert_eq!(samples(&file, 0, 0, 0, &mut bits), Ok(1));
    assert_eq!(bits, [5, 7]);
    assert_eq!(samples(&file, 0, 0, 1, &mut bits), Ok(0));
    assert_eq!(bits, [5, 7]);
    let written = octets(P9_CANONICAL);
    assert_eq!(written.len(), 67);
    assert_eq!(canonical(&file), written);
    assert_eq!(canonical(&written), written);
}

#[test]
fn p11_names_channel_255() {
    let mut file = octets(P11);
    assert_eq!(check(&file), Ok(0));
    assert_eq!(canonical(&file), []);
    // With a frame after it the setting is seen.
    file.extend([0x1E, 0x00]);
    assert_eq!(attributes(&file, 0, 254).unwrap().data_type, 0);
    assert_eq!(attributes(&file, 0, 255).unwrap().data_type, 3);
    assert_eq!(attributes(&file, 0, 256), refused(21, 0));
}

#[test]
fn surplus_is_dropped() {
    let file = octets(SURPLUS);
    assert_eq!(check(&file), Ok(1));
    assert_eq!(sample(&file, 0, 0, 0), Ok((2, Value::Whole(1))));
    assert_eq!(sample(&file, 0, 0, 1), refused(22, 0));
    assert_eq!(canonical(&file)[63..], octets("1E 02 00 01"));
}

#[test]
fn channels_256_and_257() {
    assert_eq!(check(&octets("05 02 01 00 1E 00")), Ok(1));
    assert_eq!(check(&octets("05 02 01 01 1E 00")), refused(7, 0));
    let mut file = octets("05 02 01 00 0A 01 03 3F 81 7F 03 0A 01 05 1E 82 01 00");
    file.extend((0..=255).collect::<Vec<u8>>());
    assert_eq!(check(&file), Ok(1));
    assert_eq!(sample(&file, 0, 254, 0), Ok((272, Value::Whole(254))));
    assert_eq!(sample(&file, 0, 255, 0), Ok((273, Value::Whole(-1))));
    assert_eq!(sample(&file, 0, 256, 0), refused(21, 0));
    let written = canonical(&file);
    // 128 channel numbers of one octet and 128 of two; all samples have one octet.
    assert_eq!(written.len(), 3 + 18 + 256 * 41 + 128 + 4 + 256);
    assert_eq!(written[21 + 128 * 41..][..4], octets("3F 81 00 26"));
    assert_eq!(canonical(&written), written);
}

#[test]
fn frames_4096_and_4097() {
    let frames = octets(P3).repeat(4096);
    assert_eq!(check(&frames), Ok(4096));
    assert_eq!(attributes(&frames, 4095, 0), Ok(DEFAULTS));
    assert_eq!(attributes(&frames, 4096, 0), refused(20, 0));
    let written = canonical(&frames);
    assert_eq!(written.len(), 3 + 4096 * 58);
    assert_eq!(canonical(&written), written);
    assert_eq!(check(&octets(P3).repeat(4097)), refused(11, 8192));
}

#[test]
fn annex_a_reads_as_printed() {
    let file = annex_a();
    let waveform = file.len() as u64 - 160_000;
    assert_eq!(waveform, 34 + 40 + 36 + 48 + 6);
    assert_eq!(check(&file), Ok(1));
    for channel in 0..8 {
        let expected = Attributes {
            channels: 8,
            sequences: 10_000,
            class: 1,
            lead: channel as u16 + 1,
            interval: Scale {
                unit: 1,
                exponent: -3,
                mantissa: 1,
            },
            resolution: Scale {
                unit: 0,
                exponent: -9,
                mantissa: 1000,
            },
            ..DEFAULTS
        };
        assert_eq!(attributes(&file, 0, channel), Ok(expected));
        for number in [0, 1, 4_999, 9_999] {
            let place = waveform + 16 * number + 2 * u64::from(channel);
            let value = (8 * number + u64::from(channel)) as i16;
            let expected = (place, Value::Whole(value.into()));
            assert_eq!(sample(&file, 0, channel, number), Ok(expected));
        }
        assert_eq!(sample(&file, 0, channel, 10_000), refused(22, 0));
        let mut bits = vec![0; 10_001];
        assert_eq!(samples(&file, 0, channel, 1, &mut bits), Ok(9_999));
        for (number, bits) in (1..).zip(&bits[..9_999]) {
            assert_eq!(*bits, (8 * number + u64::from(channel)) & 0xFFFF);
        }
    }
    let written = canonical(&file);
    assert_eq!(written.len(), 3 + 18 + 8 * 42 + 5 + 160_000);
    assert_eq!(written[357..362], octets("1E 83 02 71 00"));
    assert_eq!(written[362..], file[waveform as usize..]);
    assert_eq!(canonical(&written), written);
}

#[test]
fn lengths_are_big_endian_always() {
    let [waveform, group, past] = LONG_LENGTHS.map(octets);
    assert_eq!(sample(&waveform, 0, 0, 0), Ok((7, Value::Whole(5))));
    assert_eq!(attributes(&group, 0, 1).unwrap().data_type, 3);
    assert_eq!(check(&past), refused(3, 3));
}

#[test]
fn each_channel_steps_with_its_own_block() {
    let file = octets(BLOCKS);
    assert_eq!(check(&file), Ok(1));
    let expected: [&[u64]; 3] = [&[0, 1, 6, 7], &[2, 8], &[3, 4, 5, 9, 10, 11]];
    for (channel, numbers) in (0..).zip(expected) {
        for (number, value) in (0..).zip(numbers) {
            let expected = (20 + value, Value::Whole(*value as i64));
            assert_eq!(sample(&file, 0, channel, number), Ok(expected));
        }
        let past = numbers.len() as u64;
        assert_eq!(sample(&file, 0, channel, past), refused(22, 0));
        assert_eq!(samples(&file, 0, channel, past, &mut []), refused(22, 0));
        for first in 0..numbers.len() {
            for room in 0..8 {
                let mut bits = vec![99; room];
                let filled = room.min(numbers.len() - first);
                let answer = samples(&file, 0, channel, first as u64, &mut bits);
                assert_eq!(answer, Ok(filled));
                assert_eq!(bits[..filled], numbers[first..first + filled]);
                assert!(bits[filled..].iter().all(|bits| *bits == 99));
            }
        }
    }
}

#[test]
fn all_samples_of_a_frame_come_channel_by_channel() {
    let expected = [0, 1, 6, 7, 2, 8, 3, 4, 5, 9, 10, 11];
    for room in 0..15 {
        let mut bits = vec![99; room];
        let mut answers = Vec::new();
        let visited = frames(&octets(BLOCKS), |_, channels| {
            answers.push(all_samples(channels, &mut bits));
        });
        assert_eq!(visited, Ok(1));
        let filled = room.min(expected.len());
        assert_eq!(answers, [filled]);
        assert_eq!(bits[..filled], expected[..filled]);
        assert!(bits[filled..].iter().all(|bits| *bits == 99));
    }
}

/// The byte order, the channels, the sequences and every setting of root and channel last.
#[test]
fn settings_last_across_frames() {
    let file = octets(LASTING_TYPE);
    for (frame, data_types) in (0..).zip([[0, 3], [0, 3], [5, 5]]) {
        for (channel, data_type) in (0..).zip(data_types) {
            assert_eq!(
                attributes(&file, frame, channel).unwrap().data_type,
                data_type
            );
        }
    }
    let file = octets(LASTING);
    let first = attributes(&file, 0, 1).unwrap();
    assert_eq!((first.channels, first.sequences), (2, 1));
    assert_eq!((first.class, first.data_type), (7, 1));
    assert_eq!((first.offset, first.null), (1, Some(0x1234)));
    let second = attributes(&file, 1, 1);
    assert_eq!(second, Ok(Attributes { start: 1, ..first }));
    assert_eq!(sample(&file, 1, 0, 0), Ok((34, Value::Whole(3))));
    assert_eq!(sample(&file, 1, 1, 0), Ok((36, Value::Null)));
}

#[test]
fn mantissas_are_signed() {
    for file in low_mantissas() {
        assert_eq!(check(&file), refused(7, 0), "{}", hex(&file));
    }
    let read = attributes(&octets(SCALES), 0, 0).unwrap();
    assert_eq!(read.interval.exponent, -128);
    assert_eq!(read.interval.mantissa, 127);
    assert_eq!(read.interval.unit, 2);
    assert_eq!(read.resolution.unit, 22);
    assert_eq!(read.resolution.exponent, 127);
    assert_eq!(read.resolution.mantissa, i32::MAX);
}
