//! Request 2 of document 02: samples that are declared and not there.

mod common;

use common::{canonical, counted, edges, extent, recording, refused};
use second::papers::{octets, CUT, HOSTILE, NOTHING_THERE};
use second::reader::{
    all_samples, attributes, check, each_channel, frames, sample, samples, there, values, Value,
};
use second::writer;
use std::collections::BTreeMap;

/// Octets per sample by type.
const WIDTHS: [u64; 9] = [2, 2, 4, 1, 2, 1, 4, 4, 8];

/// Block length and type of each channel: what is cut at every octet.
const SHAPES: [&[(u64, u8)]; 7] = [
    &[(2, 0), (3, 3), (1, 8), (2, 2)],
    &[(1, 8), (2, 0), (1, 3)],
    &[(1, 3), (1, 0), (1, 2)],
    &[(1, 0), (1, 0)],
    &[(1, 2)],
    &[(3, 0)],
    &[(4, 8)],
];

/// A frame with so many sequences declared and so many octets of waveform, and a frame of one octet.
struct File {
    shape: &'static [(u64, u8)],
    little: bool,
    sequences: u64,
    waveform: Vec<u8>,
}

/// What follows the waveform: a class for all channels and the other frame.
const AFTER: [u8; 6] = [0x08, 1, 5, 0x1E, 1, 0x99];

impl File {
    fn new(shape: &'static [(u64, u8)], little: bool, sequences: u64, octets: u64) -> File {
        File {
            shape,
            little,
            sequences,
            waveform: (0..octets).map(|n| (7 * n + 1) as u8).collect(),
        }
    }

    fn octets(&self) -> Vec<u8> {
        let mut file = vec![0x01, 1, self.little.into()];
        file.extend([
            0x05,
            1,
            self.shape.len() as u8,
            0x06,
            1,
            self.sequences as u8,
        ]);
        for (channel, (block, data_type)) in (0..).zip(self.shape) {
            file.extend([0x3F, channel, 6, 0x04, 1, *block as u8, 0x0A, 1, *data_type]);
        }
        file.extend([0x1E, self.waveform.len() as u8]);
        file.extend(&self.waveform);
        file.extend(AFTER);
        file
    }

    /// Where the waveform begins.
    fn place(&self) -> u64 {
        9 + 9 * self.shape.len() as u64 + 2
    }

    /// Block length and width of each channel.
    fn channels(&self) -> Vec<(u64, u64)> {
        let with_width = |(block, data_type): &(u64, u8)| (*block, WIDTHS[usize::from(*data_type)]);
        self.shape.iter().map(with_width).collect()
    }

    fn declared(&self, channel: usize) -> u64 {
        self.sequences * self.shape[channel].0
    }

    /// A sample's octets, the highest first, if it is there.
    fn sample(&self, channel: usize, number: u64) -> Option<Vec<u8>> {
        let (from, end) = extent(&self.channels(), channel, number);
        let mut octets = self.waveform.get(from as usize..end as usize)?.to_vec();
        if self.little {
            octets.reverse();
        }
        Some(octets)
    }

    /// The bits of a channel's samples there.
    fn bits(&self, channel: usize) -> Vec<u64> {
        let samples = (0..self.declared(channel)).filter_map(|number| self.sample(channel, number));
        samples.map(bits).collect()
    }

    /// The samples there in file order: extent and octets.
    fn in_order(&self) -> BTreeMap<(u64, u64), Vec<u8>> {
        let mut found = BTreeMap::new();
        for channel in 0..self.shape.len() {
            for number in 0..self.declared(channel) {
                if let Some(octets) = self.sample(channel, number) {
                    let place = extent(&self.channels(), channel, number);
                    assert_eq!(found.insert(place, octets), None);
                }
            }
        }
        found
    }

    /// The canonical file by document 01's rules.
    fn canonical(&self) -> Vec<u8> {
        let samples: Vec<Vec<u8>> = self.in_order().into_values().collect();
        let one_octet = self.channels()[0].1 == 1;
        let after = if one_octet { vec![0x99] } else { Vec::new() };
        let mut file = octets("01 01 00");
        for (start, class, samples) in [(0, 0, samples.concat()), (self.sequences as u8, 5, after)]
        {
            file.extend([0x05, 4, 0, 0, 0, self.shape.len() as u8]);
            file.extend([0x06, 4, 0, 0, 0, self.sequences as u8]);
            file.extend([0x07, 4, 0, 0, 0, start]);
            for (channel, (block, width)) in (0..).zip(self.channels()) {
                let data_type = self.shape[usize::from(channel)].1;
                file.extend([0x3F, channel, 37 + width as u8]);
                file.extend([
                    0x04,
                    4,
                    0,
                    0,
                    0,
                    block as u8,
                    0x08,
                    2,
                    0,
                    class,
                    0x09,
                    2,
                    0,
                    0,
                ]);
                file.extend([0x0A, 1, data_type]);
                file.extend(octets("0B 06 00 00 00 00 03 E8 0C 06 00 FA 00 00 00 01"));
                file.extend([0x0D, width as u8]);
                file.extend(vec![0; width as usize]);
                file.extend([0x12, 0]);
            }
            match samples.len() {
                length @ 0..0x80 => file.extend([0x1E, length as u8]),
                length => file.extend([0x1E, 0x81, length as u8]),
            }
            file.extend(samples);
        }
        file
    }
}

fn bits(octets: Vec<u8>) -> u64 {
    octets
        .iter()
        .fold(0, |bits, octet| bits << 8 | u64::from(*octet))
}

/// The value of bits that are no null and, if a float, a number.
fn value(data_type: u8, bits: u64) -> Value {
    match data_type {
        0 => Value::Whole((bits as i16).into()),
        2 => Value::Whole((bits as i32).into()),
        3 => Value::Whole(bits as i64),
        _ => Value::Double(f64::from_bits(bits)),
    }
}

/// Each shape with three sequences declared, cut at every octet and with up to three of surplus, in both
/// byte orders.
fn every_cut() -> impl Iterator<Item = File> {
    SHAPES.into_iter().flat_map(|shape| {
        let sequence: u64 = File::new(shape, false, 1, 0)
            .channels()
            .iter()
            .map(|(block, width)| block * width)
            .sum();
        [false, true].into_iter().flat_map(move |little| {
            (0..=3 * sequence + 3).map(move |octets| File::new(shape, little, 3, octets))
        })
    })
}

#[test]
fn every_sample_answers_for_itself() {
    for file in every_cut() {
        let octets = file.octets();
        assert_eq!(check(&octets), Ok(2));
        for (channel, (block, data_type)) in (0..).zip(file.shape) {
            let at = channel as usize;
            let read = attributes(&octets, 0, channel).unwrap();
            assert_eq!((read.sequences, u64::from(read.block)), (3, *block));
            let count = counted(&file.channels(), at, 3, file.waveform.len() as u64);
            assert_eq!(count, file.bits(at).len() as u64);
            assert_eq!(there(&octets, 0, channel), Ok(count));
            for number in 0..3 * block {
                let expected = match file.sample(at, number) {
                    None => (0, Value::NoData),
                    Some(octets) => {
                        let (from, _) = extent(&file.channels(), at, number);
                        (file.place() + from, value(*data_type, bits(octets)))
                    }
                };
                assert_eq!(sample(&octets, 0, channel, number), Ok(expected));
                assert_eq!(expected.1 == Value::NoData, number >= count);
            }
            for number in [3 * block, 3 * block + 1, u64::MAX] {
                assert_eq!(sample(&octets, 0, channel, number), refused(22, 0));
            }
        }
    }
}

/// The frame after a cut-off one is read as if nothing were lacking: it starts where the declared
/// sequences end.
#[test]
fn the_frame_after_it_is_its_own() {
    for file in every_cut() {
        let octets = file.octets();
        let place = file.place() + file.waveform.len() as u64 + 5;
        for (channel, (block, width)) in (0..).zip(file.channels()) {
            let read = attributes(&octets, 1, channel).unwrap();
            assert_eq!((read.start, read.sequences, read.class), (3, 3, 5));
            let first = match channel == 0 && width == 1 {
                true => (place, Value::Whole(0x99)),
                false => (0, Value::NoData),
            };
            assert_eq!(sample(&octets, 1, channel, 0), Ok(first));
            let last = sample(&octets, 1, channel, 3 * block - 1);
            assert_eq!(last, Ok((0, Value::NoData)));
            assert_eq!(sample(&octets, 1, channel, 3 * block), refused(22, 0));
        }
    }
}

/// The samples there follow each other from the waveform's first octet on, and no octets are left for
/// another one.
#[test]
fn samples_there_are_the_first_in_file_order() {
    for file in every_cut() {
        let (octets, channels) = (file.octets(), file.channels());
        let (mut present, mut lacking) = (Vec::new(), Vec::new());
        for (channel, (_, width)) in channels.iter().enumerate() {
            for number in 0..file.declared(channel) {
                match sample(&octets, 0, channel as u32, number).unwrap() {
                    (_, Value::NoData) => lacking.push(extent(&channels, channel, number)),
                    (place, _) => present.push((place, place + width)),
                }
            }
        }
        present.sort();
        let mut end = file.place();
        for (from, next) in present {
            assert_eq!(from, end);
            end = next;
        }
        let octets = file.waveform.len() as u64;
        assert!(end <= file.place() + octets);
        if let Some((from, next)) = lacking.into_iter().min() {
            assert_eq!(file.place() + from, end);
            assert!(next > octets);
        }
    }
}

#[test]
fn bulk_reading_ends_with_the_last_sample_there() {
    for file in every_cut() {
        let octets = file.octets();
        for channel in 0..file.shape.len() {
            let bits = file.bits(channel);
            let declared = file.declared(channel);
            for first in edges(bits.len() as u64, declared)
                .into_iter()
                .chain(0..declared)
            {
                for room in [0, 1, 2, 5, 40] {
                    let mut out = vec![u64::MAX; room];
                    let answer = samples(&octets, 0, channel as u32, first, &mut out);
                    let expected = bits.get(first as usize..).unwrap_or(&[]);
                    let expected = &expected[..expected.len().min(room)];
                    match first < declared {
                        true => assert_eq!(answer, Ok(expected.len())),
                        false => assert_eq!(answer, refused(22, 0)),
                    }
                    assert_eq!(out[..expected.len()], *expected);
                    assert!(out[expected.len()..].iter().all(|bits| *bits == u64::MAX));
                    let mut out = vec![Value::Null; room];
                    let values = values(&octets, 0, channel as u32, first, &mut out);
                    assert_eq!(values, answer);
                    let data_type = file.shape[channel].1;
                    let expected = expected.iter().map(|bits| value(data_type, *bits));
                    let untouched = std::iter::repeat(Value::Null);
                    let expected: Vec<_> = expected.chain(untouched).take(room).collect();
                    assert_eq!(out, expected);
                }
            }
        }
    }
}

#[test]
fn whole_frames_and_channels_in_turn_have_the_samples_there() {
    for file in every_cut() {
        let octets = file.octets();
        let channels = 0..file.shape.len();
        let all: Vec<Vec<u64>> = channels.map(|channel| file.bits(channel)).collect();
        let (mut buffer, mut shown) = ([0; 100], Vec::new());
        let visited = each_channel(&octets, &mut buffer, |_, bits| shown.push(bits.to_vec()));
        assert_eq!(visited, Ok(2));
        assert_eq!(shown[..all.len()], all);
        let joined = all.concat();
        for room in [0, 1, joined.len() / 2, joined.len(), joined.len() + 3] {
            let mut out = vec![u64::MAX; room];
            let mut answers = Vec::new();
            let visited = frames(&octets, |met, channels| {
                if answers.is_empty() {
                    answers.push(all_samples(channels, &mut out));
                    assert_eq!(met.length, file.waveform.len() as u64);
                    assert_eq!(met.sequences, 3);
                }
            });
            assert_eq!(visited, Ok(2));
            let filled = room.min(joined.len());
            assert_eq!(answers, [filled]);
            assert_eq!(out[..filled], joined[..filled]);
            assert!(out[filled..].iter().all(|bits| *bits == u64::MAX));
        }
    }
}

#[test]
fn the_canonical_file_holds_the_samples_there() {
    for file in every_cut() {
        let (octets, written) = (file.octets(), file.canonical());
        assert_eq!(canonical(&octets), written);
        assert_eq!(canonical(&written), written);
        assert_eq!(recording(&written), recording(&octets));
        let mut short = vec![0xA5; written.len() - 1];
        assert_eq!(writer::canonical(&octets, &mut short), refused(23, 0));
        assert!(short.iter().all(|octet| *octet == 0xA5));
    }
}

/// Among the cuts of one frame, recordings and canonical files differ exactly where the samples there do.
#[test]
fn cuts_that_lack_other_samples_are_other_recordings() {
    for shape in SHAPES {
        for little in [false, true] {
            let files: Vec<File> = every_cut()
                .filter(|file| file.shape == shape && file.little == little)
                .collect();
            for pair in files.windows(2) {
                let same = pair[0].in_order() == pair[1].in_order();
                let [a, b] = [&pair[0], &pair[1]].map(File::octets);
                assert_eq!(canonical(&a) == canonical(&b), same);
                assert_eq!(recording(&a) == recording(&b), same);
            }
        }
    }
}

/// The octets that follow would make the partial sample null: it has no data.
#[test]
fn no_data_comes_before_null() {
    let file = octets(CUT);
    assert_eq!(check(&file), Ok(2));
    for (channel, count) in [(0, 4), (1, 6), (2, 1)] {
        assert_eq!(there(&file, 0, channel), Ok(count));
    }
    assert_eq!(sample(&file, 0, 0, 3), Ok((51, Value::Whole(4))));
    assert_eq!(sample(&file, 0, 0, 4), Ok((0, Value::NoData)));
    assert_eq!(sample(&file, 0, 1, 5), Ok((55, Value::Whole(0x16))));
    assert_eq!(sample(&file, 0, 2, 0), Ok((45, Value::Whole(5))));
    assert_eq!(sample(&file, 0, 2, 1), Ok((0, Value::NoData)));
    assert_eq!(sample(&file, 0, 2, 2), Ok((0, Value::NoData)));
    assert_eq!(sample(&file, 0, 2, 3), refused(22, 0));
    assert_eq!(attributes(&file, 1, 2).unwrap().start, 3);
    assert_eq!(sample(&file, 1, 2, 0), Ok((69, Value::Null)));
    assert_eq!(sample(&file, 1, 2, 1), Ok((0, Value::NoData)));
    for order in ["00", "01"] {
        for after in ["05 00", ""] {
            let file = format!("01 01 {order} 12 02 00 05 06 01 02 1E 03 00 05 00 {after}");
            let file = octets(&file);
            assert_eq!(check(&file), Ok(1));
            assert_eq!(sample(&file, 0, 0, 0), Ok((12, Value::Null)));
            assert_eq!(sample(&file, 0, 0, 1), Ok((0, Value::NoData)));
        }
    }
    assert_ne!(Value::NoData, Value::Null);
    assert_eq!(Value::NoData, Value::NoData);
}

#[test]
fn nothing_may_be_there() {
    let group = "3F 00 27 04 04 00 00 00 01 08 02 00 00 09 02 00 00 0A 01 00 \
        0B 06 00 00 00 00 03 E8 0C 06 00 FA 00 00 00 01 0D 02 00 00 12 00";
    let written = octets(&format!(
        "01 01 00 05 04 00 00 00 01 06 04 00 00 00 03 07 04 00 00 00 00 {group} 1E 00 \
         05 04 00 00 00 01 06 04 00 00 00 03 07 04 00 00 00 03 {group} 1E 06 00 01 00 02 00 03"
    ));
    let file = octets(NOTHING_THERE);
    assert_eq!(canonical(&file), written);
    for file in [file, written] {
        assert_eq!(attributes(&file, 0, 0).unwrap().sequences, 3);
        assert_eq!(there(&file, 0, 0), Ok(0));
        for number in 0..3 {
            assert_eq!(sample(&file, 0, 0, number), Ok((0, Value::NoData)));
            assert_eq!(samples(&file, 0, 0, number, &mut [0; 4]), Ok(0));
        }
        assert_eq!(sample(&file, 0, 0, 3), refused(22, 0));
        assert_eq!(samples(&file, 0, 0, 3, &mut [0; 4]), refused(22, 0));
        assert_eq!(there(&file, 1, 0), Ok(3));
    }
    // No sequences at all is another recording, and one octet of a sample the same.
    assert_ne!(
        canonical(&octets("1E 00")),
        canonical(&octets("06 01 03 1E 00"))
    );
    assert_eq!(
        canonical(&octets("06 01 03 1E 01 77")),
        canonical(&octets("06 01 03 1E 00"))
    );
}

/// Two blocks of 2 samples and of 1, the second sequence cut off inside its second sample.
#[test]
fn both_byte_orders_give_one_canonical_file() {
    let written = octets(
        "01 01 00 05 04 00 00 00 02 06 04 00 00 00 02 07 04 00 00 00 00 \
         3F 00 27 04 04 00 00 00 02 08 02 00 00 09 02 00 00 0A 01 00 \
         0B 06 00 00 00 00 03 E8 0C 06 00 FA 00 00 00 01 0D 02 00 00 12 00 \
         3F 01 26 04 04 00 00 00 01 08 02 00 00 09 02 00 00 0A 01 03 \
         0B 06 00 00 00 00 03 E8 0C 06 00 FA 00 00 00 01 0D 01 00 12 00 \
         1E 07 00 01 00 02 AA 00 03",
    );
    let settings = "05 01 02 06 01 02 3F 00 03 04 01 02 3F 01 03 0A 01 03";
    for (order, waveform) in [
        ("00", "1E 08 00 01 00 02 AA 00 03 00"),
        ("01", "1E 08 01 00 02 00 AA 03 00 04"),
        ("01", "1E 07 01 00 02 00 AA 03 00"),
    ] {
        let file = octets(&format!("01 01 {order} {settings} {waveform}"));
        assert_eq!(canonical(&file), written);
        assert_eq!(recording(&file), recording(&written));
    }
}

#[test]
fn what_is_there_is_part_of_the_recording() {
    let file = |rest: &str| octets(&format!("12 02 00 00 06 01 02 1E {rest}"));
    let cut = file("02 00 05");
    // Octets of a partial sample are surplus.
    assert_eq!(canonical(&file("03 00 05 77")), canonical(&cut));
    assert_eq!(recording(&file("03 00 05 77")), recording(&cut));
    // Null is there, no data is not; and what is declared counts.
    let null = file("04 00 05 00 00");
    let fewer = octets("12 02 00 00 06 01 01 1E 02 00 05");
    for other in [null, fewer, file("00"), file("02 00 06")] {
        assert_ne!(canonical(&other), canonical(&cut));
        assert_ne!(recording(&other), recording(&cut));
    }
}

/// Only declared sequences can lack samples: by the waveform's length an incomplete one is surplus.
#[test]
fn sequences_by_length_are_whole() {
    let file = octets("05 01 02 1E 06 00 01 00 02 00 03");
    assert_eq!(sample(&file, 0, 0, 1), refused(22, 0));
    assert_eq!((there(&file, 0, 0), there(&file, 0, 1)), (Ok(1), Ok(1)));
    let file = octets("05 01 02 06 01 02 1E 06 00 01 00 02 00 03");
    assert_eq!(sample(&file, 0, 0, 1), Ok((12, Value::Whole(3))));
    assert_eq!(sample(&file, 0, 1, 1), Ok((0, Value::NoData)));
}

#[test]
fn declared_sequences_continue_the_pointer() {
    // From the lowest pointer to the highest, and one further.
    let file = "06 04 FF FF FF FF 07 04 80 00 00 00 1E 00 1E 02 00 07";
    let starts = |frame| attributes(&octets(file), frame, 0).unwrap().start;
    assert_eq!((starts(0), starts(1)), (i32::MIN, i32::MAX));
    assert_eq!(check(&octets(&format!("{file} 1E 00"))), refused(13, 18));
    // The root's block counts: 4,096 times 1,048,575 and 1,048,576.
    let file = |sequences: &str| {
        let head = "04 02 10 00 06 03";
        octets(&format!(
            "{head} {sequences} 07 04 80 00 00 00 1E 03 00 01 02 1E 00"
        ))
    };
    let fewer = file("0F FF FF");
    assert_eq!(attributes(&fewer, 1, 0).unwrap().start, i32::MAX - 4095);
    assert_eq!(check(&file("10 00 00")), refused(13, 20));
}

#[test]
fn there_has_the_refusals_of_attributes() {
    let file = octets("05 01 02 06 01 02 1E 02 00 00");
    assert_eq!((there(&file, 0, 0), there(&file, 0, 1)), (Ok(1), Ok(0)));
    assert_eq!(there(&file, 0, 2), refused(21, 0));
    assert_eq!(there(&file, 0, u32::MAX), refused(21, 0));
    assert_eq!(there(&file, 1, 2), refused(20, 0));
    assert_eq!(there(&octets("06 01 02 1E 02 00"), 0, 0), refused(3, 3));
}

#[test]
fn products_do_not_wrap() {
    // 2^31 sequences of two octets and 2^30 of four are 2^32 octets.
    for (file, count) in [
        ("06 04 80 00 00 00 1E 02 00 07", 1),
        ("06 04 80 00 00 00 1E 03 00 07 00", 1),
        ("0A 01 02 06 04 40 00 00 00 1E 05 00 00 00 07 00", 1),
        ("0A 01 03 06 04 FF FF FF FF 1E 02 00 07", 2),
    ] {
        let file = octets(file);
        assert_eq!(there(&file, 0, 0), Ok(count));
        let (place, value) = sample(&file, 0, 0, count - 1).unwrap();
        assert_ne!((place, value), (0, Value::NoData));
        for number in [count, 1 << 29, (1 << 30) - 1] {
            assert_eq!(sample(&file, 0, 0, number), Ok((0, Value::NoData)));
        }
    }
    let [_, large] = HOSTILE.map(octets);
    let declared = 4_294_967_295 * 1_048_576;
    for channel in [0, 1, 255] {
        assert_eq!(there(&large, 0, channel), Ok(0));
        let last = sample(&large, 0, channel, declared - 1);
        assert_eq!(last, Ok((0, Value::NoData)));
        assert_eq!(samples(&large, 0, channel, declared - 1, &mut [0]), Ok(0));
        assert_eq!(sample(&large, 0, channel, declared), refused(22, 0));
        assert_eq!(
            samples(&large, 0, channel, declared, &mut [0]),
            refused(22, 0)
        );
    }
    // One block of 2^20 samples of 8 octets, of which the last is there but for an octet.
    let mut long = octets("04 03 10 00 00 0A 01 08 06 04 FF FF FF FF 1E 83 7F FF FF");
    long.resize(long.len() + (1 << 23) - 1, 0);
    assert_eq!(there(&long, 0, 0), Ok((1 << 20) - 1));
    assert_eq!(sample(&long, 0, 0, (1 << 20) - 1), Ok((0, Value::NoData)));
}

/// Nothing goes over what is declared: this ends at once, or not at all.
#[test]
fn declared_counts_cost_nothing() {
    for (file, counts) in HOSTILE.map(octets).into_iter().zip([[1, 1, 0], [0, 0, 0]]) {
        assert_eq!(check(&file), Ok(1));
        for (channel, count) in [0, 1, 2].into_iter().zip(counts) {
            assert_eq!(there(&file, 0, channel), Ok(count));
        }
        let head = file.len() - 6;
        let mut many = file[..head].to_vec();
        for _ in 0..4096 {
            many.extend([0x07, 1, 0]);
            many.extend(&file[head..]);
        }
        assert_eq!(check(&many), Ok(4096));
        let (mut shown, mut found) = (0, 0);
        let visited = each_channel(&many, &mut [0; 8], |_, bits| {
            shown += 1;
            found += bits.len() as u64;
        });
        assert_eq!(visited, Ok(4096));
        assert_eq!(
            (shown, found),
            (4096 * 256, 4096 * counts.iter().sum::<u64>())
        );
        let mut found = 0;
        let visited = frames(&many, |_, channels| {
            found += all_samples(channels, &mut [0; 8]) as u64;
        });
        assert_eq!(visited, Ok(4096));
        assert_eq!(found, 4096 * counts.iter().sum::<u64>());
        let written = canonical(&many);
        assert_eq!(canonical(&written), written);
        let waveform: &[u8] = match counts[0] {
            0 => &[0x1E, 0],
            _ => &[0x1E, 4, 0, 1, 0, 2],
        };
        assert!(written.ends_with(waveform));
        assert_eq!(
            samples(&many, 4095, 1, 0, &mut [0; 8]),
            Ok(counts[1] as usize)
        );
        assert_eq!(samples(&many, 4095, 255, 9, &mut [0; 8]), Ok(0));
        assert_eq!(values(&many, 4095, 255, 9, &mut [Value::Null; 8]), Ok(0));
    }
}
