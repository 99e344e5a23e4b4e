//! What the wrapper adds to the library: iterators, words, buffers that grow.

use mfer::{
    Attributes, Bits, ByteOrder, Channel, Channels, DataType, File, Frame, Frames, Refusal, Scale,
    Value, Values,
};

/// Two channels of types 0 and 3 with blocks of 1 and 2, and as many sequences as fit.
fn two_channels(sequences: usize) -> Vec<u8> {
    let mut file = vec![0x05, 1, 2, 0x3F, 1, 6, 0x0A, 1, 3, 0x04, 1, 2, 0x1E, 0x84];
    file.extend((4 * sequences as u32).to_be_bytes());
    for number in 0..sequences {
        file.extend((number as i16).to_be_bytes());
        file.extend([number as u8, (number + 1) as u8]);
    }
    file
}

#[test]
fn samples_come_in_order_over_many_chunks() {
    for sequences in [0, 1, 32_767, 65_535, 65_536, 65_537, 200_000] {
        let octets = two_channels(sequences);
        let frame = File::new(&octets).frame(0).unwrap();
        assert_eq!(frame.sequences() as usize, sequences);
        let channels: Vec<_> = frame.channels().map(Result::unwrap).collect();
        assert_eq!(channels.len(), 2);
        let values = channels[0].values();
        assert_eq!(values.len(), sequences);
        for (number, value) in values.enumerate() {
            assert_eq!(value, Ok(Value::Whole((number as i16).into())));
        }
        let mut bits = channels[1].bits();
        assert_eq!(bits.len(), 2 * sequences);
        for number in 0..sequences as u64 {
            assert_eq!(bits.next(), Some(Ok(number & 0xFF)));
            assert_eq!(bits.next(), Some(Ok((number + 1) & 0xFF)));
        }
        assert_eq!(bits.len(), 0);
        assert_eq!(bits.next(), None);
        assert_eq!(bits.next(), None);
    }
}

#[test]
fn frames_and_their_starts() {
    let octets = [0x07, 1, 0xFE, 0x1E, 4, 0, 1, 0, 2, 0x1E, 2, 0, 3, 0x1E, 0];
    let frames = File::new(&octets).frames().unwrap();
    assert_eq!(frames.len(), 3);
    let starts: Vec<_> = frames
        .map(|frame| frame.unwrap())
        .map(|frame| (frame.number(), frame.start(), frame.sequences()))
        .collect();
    assert_eq!(starts, [(0, -2, 2), (1, 0, 1), (2, 1, 0)]);
}

/// 300 frames of two channels, each with settings of its own.
fn many_frames() -> Vec<u8> {
    let mut octets = vec![0x01, 1, 1, 0x05, 1, 2];
    for number in 0..300_u32 {
        let length = 2 * (number as u8 % 100) + 2;
        octets.extend([0x3F, 1, 3, 0x09, 1, number as u8, 0x1E, 0x81, length]);
        octets.extend((0..length).map(|octet| octet.wrapping_mul(number as u8)));
    }
    octets
}

#[test]
fn frames_tell_what_the_questions_tell() {
    let octets = many_frames();
    let file = File::new(&octets);
    let mut frames = file.frames().unwrap();
    for number in 0..300 {
        assert_eq!(frames.len(), 300 - number as usize);
        let frame = frames.next().unwrap().unwrap();
        assert_eq!(frame.number(), number);
        assert_eq!(frame.byte_order(), ByteOrder::Little);
        assert_eq!(frame.sequence_octets(), 4);
        let waveform = frame.waveform();
        assert_eq!(waveform.len(), 2 * (number as usize % 256 % 100) + 2);
        assert_eq!(octets[waveform.start - 3], 0x1E);
        assert_eq!(frame.channels().len(), 2);
        let mut all = Vec::new();
        for (channel, asked) in frame.channels().zip(0..) {
            let channel = channel.unwrap();
            assert_eq!((channel.frame(), channel.number()), (number, asked));
            assert_eq!(channel.below(), 2 * u64::from(asked));
            let attributes = file.attributes(number, asked).unwrap();
            assert_eq!(*channel.attributes(), attributes);
            assert_eq!(attributes.start, frame.start());
            assert_eq!(attributes.sequences, frame.sequences());
            let mut bits = [0; 100];
            let count = file.samples(number, asked, 0, &mut bits).unwrap_or(0);
            let read: Vec<u64> = channel.bits().map(Result::unwrap).collect();
            assert_eq!(read, bits[..count]);
            all.extend(read);
        }
        assert_eq!(frame.sample_count(), Ok(all.len()));
        let mut bits = [7; 210];
        assert_eq!(frame.samples(&mut bits), Ok(all.len()));
        let (told, rest) = bits.split_at(all.len());
        assert_eq!(told, all);
        assert!(rest.iter().all(|word| *word == 7));
    }
    assert_eq!(frames.len(), 0);
    assert!(frames.next().is_none());
    assert!(frames.next().is_none());
}

/// The bits of all samples of a frame.
fn read_whole(frame: &Frame) -> Vec<u64> {
    let mut bits = vec![0; frame.sample_count().unwrap()];
    assert_eq!(frame.samples(&mut bits), Ok(bits.len()));
    bits
}

#[test]
fn frames_and_channels_can_be_kept() {
    let octets = many_frames();
    let file = File::new(&octets);
    let kept: Vec<Frame> = file.frames().unwrap().map(Result::unwrap).collect();
    let channels = kept.iter().map(|frame| frame.channel(1).unwrap());
    let channels: Vec<Channel> = channels.collect();
    let all = kept.iter().map(|frame| read_whole(frame));
    let all: Vec<Vec<u64>> = all.collect();
    drop(kept);
    for (channel, number) in channels.iter().zip(0..) {
        assert_eq!(*channel.attributes(), file.attributes(number, 1).unwrap());
        let again = file.channel(number, 1).unwrap();
        assert!(channel.values().eq(again.values()));
    }
    let frames = file.frames().unwrap().map(Result::unwrap);
    assert!(frames.map(|frame| read_whole(&frame)).eq(all));
    // A clone goes on by itself.
    let mut frames = file.frames().unwrap();
    let held = frames.next().unwrap().unwrap();
    let clone = frames.clone();
    assert_eq!(frames.by_ref().count(), 299);
    let starts = |frames: Frames| {
        frames
            .map(|frame| frame.unwrap().start())
            .collect::<Vec<_>>()
    };
    assert_eq!(starts(clone), starts(file.frames().unwrap())[1..]);
    assert_eq!(held.channel(1).unwrap().attributes().lead, 0);
    assert_eq!(
        held.channel(2).err().map(|refusal| refusal.number),
        Some(21)
    );
}

/// The questions for a frame and a channel by their numbers refuse as the other questions do.
#[test]
fn frames_and_channels_that_are_not_there() {
    let octets = two_channels(2);
    let file = File::new(&octets);
    for (frame, channel) in [(0, 1), (0, 2), (0, u32::MAX), (1, 0), (u32::MAX, u32::MAX)] {
        let asked = file.channel(frame, channel);
        let there = asked.clone().map(|channel| channel.samples_there());
        assert_eq!(there, file.samples_there(frame, channel));
        let attributes = asked.map(|channel| *channel.attributes());
        assert_eq!(attributes, file.attributes(frame, channel));
    }
    let refusal = file.frame(1).unwrap_err();
    assert_eq!((refusal.number, refusal.place), (Refusal::NO_FRAME, 0));
    let channel = file.channel(0, 1).unwrap();
    let mut out = [7; 4];
    assert_eq!(channel.samples(1, &mut out), Ok(3));
    assert_eq!(out, [1, 1, 2, 7]);
    assert_eq!(channel.samples(0, &mut []), Ok(0));
    let refusal = channel.samples(4, &mut out).unwrap_err();
    assert_eq!((refusal.number, out), (Refusal::NO_SAMPLE, [1, 1, 2, 7]));
}

/// Of a frame as many samples are read as fit, and nothing else is written.
#[test]
fn all_samples_of_a_frame() {
    let octets = two_channels(3);
    let frame = File::new(&octets).frame(0).unwrap();
    let all = [0, 1, 2, 0, 1, 1, 2, 2, 3];
    assert_eq!(frame.sample_count(), Ok(all.len()));
    assert!(frame.waveform().len() >= all.len());
    for room in 0..12 {
        let mut bits = [7; 12];
        let filled = room.min(all.len());
        assert_eq!(frame.samples(&mut bits[..room]), Ok(filled));
        assert_eq!(bits[..filled], all[..filled]);
        assert!(bits[filled..].iter().all(|word| *word == 7));
    }
    let empty = two_channels(0);
    let frame = File::new(&empty).frame(0).unwrap();
    assert_eq!(frame.sample_count(), Ok(0));
    assert_eq!(frame.samples(&mut []), Ok(0));
    let mut bits = [7];
    assert_eq!((frame.samples(&mut bits), bits), (Ok(0), [7]));
}

/// Document 01's P9 as document 02 has it: two sequences, of which the recorder wrote one.
const P9: [u8; 7] = [0x06, 1, 2, 0x1E, 2, 0, 5];

#[test]
fn a_recording_that_was_cut_off() {
    let file = File::new(&P9);
    assert_eq!(file.check(), Ok(1));
    assert_eq!(file.attributes(0, 0).unwrap().samples(), 2);
    assert_eq!(file.samples_there(0, 0), Ok(1));
    let values = [0, 1].map(|number| file.sample(0, 0, number).unwrap());
    assert_eq!((values[0].place, values[0].value), (5, Value::Whole(5)));
    let nothing = (values[1].place, values[1].bits, values[1].value);
    assert_eq!(nothing, (0, 0, Value::NoData));
    assert_eq!(values[1].value.kind(), "no data");
    let refusal = file.sample(0, 0, 2).unwrap_err();
    assert_eq!((refusal.number, refusal.place), (Refusal::NO_SAMPLE, 0));
    let (mut bits, mut kinds, mut wholes) = ([7; 2], [7; 2], [7; 2]);
    assert_eq!(file.samples(0, 0, 1, &mut bits), Ok(0));
    assert_eq!(file.values(0, 0, 1, &mut kinds, &mut wholes), Ok(0));
    assert_eq!((bits, kinds, wholes), ([7; 2], [7; 2], [7; 2]));
    for refusal in [
        file.samples(0, 0, 2, &mut bits),
        file.values(0, 0, 2, &mut kinds, &mut wholes),
    ] {
        assert_eq!(refusal.unwrap_err().number, Refusal::NO_SAMPLE);
    }
    // The canonical file declares the same and lacks the same.
    let canonical = file.canonical_vec().unwrap();
    assert_eq!(canonical[canonical.len() - 4..], [0x1E, 2, 0, 5]);
    let again = File::new(&canonical);
    assert_eq!(again.attributes(0, 0), file.attributes(0, 0));
    assert_eq!(again.samples_there(0, 0), Ok(1));
    assert_eq!(again.canonical_vec(), Ok(canonical.clone()));
    // As it is it cannot be made.
    let settings = file.frame(0).unwrap().settings().unwrap();
    let refusal = settings.make(&[0, 5]).unwrap_err();
    assert_eq!(refusal.number, Refusal::SAMPLES_LENGTH);
}

/// Blocks of 2, 1 and 3 samples of 2, 1 and 4 octets in two sequences: the frame with a waveform of this
/// length, its samples in file order, and a frame of one octet behind it.
fn cut(length: u8, order: ByteOrder) -> Vec<u8> {
    let mut file = vec![0x01, 1, u8::from(order == ByteOrder::Little)];
    file.extend([0x05, 1, 3, 0x06, 1, 2, 0x3F, 0, 3, 0x04, 1, 2]);
    file.extend([0x3F, 1, 3, 0x0A, 1, 3, 0x3F, 2, 6, 0x04, 1, 3, 0x0A, 1, 6]);
    file.extend([0x1E, length]);
    file.extend(1..=length);
    file.extend([0x05, 0, 0x06, 0, 0x0A, 1, 3, 0x1E, 1, 99]);
    file
}

/// The channel and the place in the waveform of each sample of such a frame, in file order.
fn laid_out() -> Vec<(u32, usize, usize)> {
    let mut samples = Vec::new();
    let mut at = 0;
    for _ in 0..2 {
        for (channel, block, width) in [(0, 2, 2), (1, 1, 1), (2, 3, 4)] {
            for _ in 0..block {
                samples.push((channel, at, width));
                at += width;
            }
        }
    }
    samples
}

/// The number of octets in an order.
fn number_of(octets: &[u8], order: ByteOrder) -> u64 {
    let join = |bits, octet: &u8| bits << 8 | u64::from(*octet);
    match order {
        ByteOrder::Big => octets.iter().fold(0, join),
        ByteOrder::Little => octets.iter().rev().fold(0, join),
    }
}

/// The waveform ends after each octet: what is there is read, by every way, and nothing else.
#[test]
fn frames_that_are_cut_after_each_octet() {
    for (length, order) in
        (0..=40).flat_map(|length| [ByteOrder::Big, ByteOrder::Little].map(|order| (length, order)))
    {
        let octets = cut(length, order);
        let file = File::new(&octets);
        let frame = file.frame(0).unwrap();
        let waveform = &octets[frame.waveform()];
        assert_eq!((waveform.len(), frame.byte_order()), (length.into(), order));
        assert_eq!((frame.sequences(), frame.sequence_octets()), (2, 17));
        let mut all = Vec::new();
        for channel in frame.channels().map(Result::unwrap) {
            let number = channel.number();
            let mine = laid_out()
                .into_iter()
                .filter(|(other, ..)| *other == number);
            let there: Vec<u64> = mine
                .filter_map(|(_, at, width)| waveform.get(at..at + width))
                .map(|octets| number_of(octets, order))
                .collect();
            let count = there.len() as u64;
            assert_eq!(channel.samples_there(), count);
            assert_eq!(file.samples_there(0, number), Ok(count));
            let mut bits = channel.bits();
            assert_eq!(bits.len(), there.len());
            assert!(bits.by_ref().map(Result::unwrap).eq(there.iter().copied()));
            assert_eq!((bits.next(), bits.len()), (None, 0));
            let values = channel.values();
            assert_eq!(values.len(), there.len());
            assert_eq!(values.count(), there.len());
            for asked in count..channel.attributes().samples() {
                assert_eq!(file.sample(0, number, asked).unwrap().value, Value::NoData);
                let mut out = [7; 3];
                assert_eq!(channel.samples(asked, &mut out), Ok(0));
                assert_eq!(file.samples(0, number, asked, &mut out), Ok(0));
                assert_eq!(out, [7; 3]);
            }
            let declared = channel.attributes().samples();
            let refusal = channel.samples(declared, &mut [0]).unwrap_err();
            assert_eq!(refusal.number, Refusal::NO_SAMPLE);
            all.extend(there);
        }
        assert_eq!(frame.sample_count(), Ok(all.len()));
        let mut bits = vec![7; all.len() + 1];
        assert_eq!(frame.samples(&mut bits), Ok(all.len()));
        assert_eq!((&bits[..all.len()], bits[all.len()]), (&all[..], 7));
        // The next frame is where it was declared to be, and whole.
        let next = file.frame(1).unwrap();
        assert_eq!((next.start(), next.sample_count()), (2, Ok(1)));
    }
}

/// Four octets that declare more samples than can be counted one by one.
#[test]
fn far_more_is_declared_than_is_there() {
    let octets = [
        0x05, 2, 1, 0, 0x04, 3, 0x10, 0, 0, 0x06, 4, 0xFF, 0xFF, 0xFF, 0xFF, 0x1E, 4, 0, 1, 0, 2,
    ];
    let file = File::new(&octets);
    let frame = file.frame(0).unwrap();
    assert_eq!(frame.sequences(), u32::MAX);
    assert_eq!(frame.sample_count(), Ok(2));
    let mut bits = [7; 3];
    assert_eq!((frame.samples(&mut bits), bits), (Ok(2), [1, 2, 7]));
    let declared = u64::from(u32::MAX) << 20;
    for channel in frame.channels().map(Result::unwrap) {
        assert_eq!(channel.attributes().samples(), declared);
        let there = [2, 0][usize::from(channel.number() > 0)];
        assert_eq!(channel.samples_there(), there as u64);
        assert_eq!(
            (channel.bits().len(), channel.bits().count()),
            (there, there)
        );
        assert_eq!(channel.values().count(), there);
        let last = file.sample(0, channel.number(), declared - 1).unwrap();
        assert_eq!(last.value, Value::NoData);
    }
    let canonical = file.canonical_vec().unwrap();
    assert_eq!(canonical[canonical.len() - 6..], [0x1E, 4, 0, 1, 0, 2]);
}

/// As many frames as a file may have, of as many channels: the file is not gone through for each.
#[test]
fn the_most_frames_and_channels_are_read_at_once() {
    let mut octets = vec![0x05, 2, 1, 0, 0x0A, 1, 3];
    octets.extend([0x1E, 0].repeat(4096));
    let mut channels = 0;
    for frame in File::new(&octets).frames().unwrap() {
        let frame = frame.unwrap();
        assert_eq!(frame.samples(&mut []), Ok(0));
        for channel in frame.channels() {
            let channel = channel.unwrap();
            assert_eq!(channel.below(), u64::from(channel.number()));
            assert_eq!(channel.values().len(), 0);
            channels += 1;
        }
    }
    assert_eq!(channels, 4096 * 256);
}

#[test]
fn threads_can_share_what_is_read() {
    fn shared<T: Send + Sync>() {}
    shared::<File>();
    shared::<Frames>();
    shared::<Frame>();
    shared::<Channels>();
    shared::<Channel>();
    shared::<Bits>();
    shared::<Values>();
    let octets = two_channels(1000);
    let frame = File::new(&octets).frame(0).unwrap();
    std::thread::scope(|scope| {
        for channel in frame.channels() {
            scope.spawn(move || assert!(channel.unwrap().values().all(|value| value.is_ok())));
        }
    });
}

#[test]
fn what_is_debugged_is_short() {
    let octets = two_channels(1000);
    let frame = File::new(&octets).frame(0).unwrap();
    let says = format!("{frame:?}");
    assert!(says.starts_with("Frame { file: File { octets: 4018 }, walk: Walk { .. }, number: 0"));
    assert!(says.len() < 300, "{says}");
}

#[test]
fn canonical_files_that_are_far_longer_than_the_file() {
    // 256 channels a frame: 10,000 canonical octets for two.
    let mut octets = vec![0x05, 2, 1, 0];
    for _ in 0..100 {
        octets.extend([0x1E, 0]);
    }
    let written = File::new(&octets).canonical_vec().unwrap();
    assert_eq!(written.len(), 3 + 100 * (14 + 256 * 42 + 128 + 2));
    assert_eq!(written.capacity(), written.len());
    assert_eq!(File::new(&written).canonical_vec(), Ok(written.clone()));
}

/// The length is what the writer answers, and the least room in which it does.
#[test]
fn the_length_of_the_canonical_file() {
    let octets = two_channels(10);
    let file = File::new(&octets);
    let length = file.canonical_length().unwrap();
    let mut out = vec![0xA5; length];
    let refusal = Refusal {
        number: Refusal::NO_ROOM,
        place: 0,
    };
    assert_eq!(file.canonical(&mut out[1..]), Err(refusal));
    assert_eq!(file.canonical(&mut out), Ok(length));
    assert_eq!(file.canonical_vec(), Ok(out));
}

#[test]
fn every_kind_of_value() {
    let cases: [(&[u8], Value); 9] = [
        (&[0x1E, 2, 0xFF, 0xFE], Value::Whole(-2)),
        (&[0x0A, 1, 1, 0x1E, 2, 0xFF, 0xFE], Value::Whole(65_534)),
        (&[0x0A, 1, 5, 0x1E, 1, 0x80], Value::Whole(-128)),
        (&[0x0A, 1, 4, 0x1E, 2, 0xFF, 0xFE], Value::Status(0xFFFE)),
        (&[0x0A, 1, 7, 0x1E, 4, 0x80, 0, 0, 0], Value::Single(-0.0)),
        (
            &[0x0A, 1, 7, 0x1E, 4, 0x7F, 0xC0, 0, 1],
            Value::NotNumber(0x7FC0_0001),
        ),
        (
            &[0x0A, 1, 8, 0x1E, 8, 0x7F, 0xF0, 0, 0, 0, 0, 0, 0],
            Value::Double(f64::INFINITY),
        ),
        (
            &[0x0A, 1, 8, 0x1E, 8, 0xFF, 0xF0, 0, 0, 0, 0, 0, 1],
            Value::NotNumber(0xFFF0_0000_0000_0001),
        ),
        (
            &[
                0x0A, 1, 7, 0x12, 4, 0x7F, 0xC0, 0, 1, 0x1E, 4, 0x7F, 0xC0, 0, 1,
            ],
            Value::Null,
        ),
    ];
    for (octets, value) in cases {
        let file = File::new(octets);
        assert_eq!(file.sample(0, 0, 0).unwrap().value, value);
        let channel = file.channel(0, 0).unwrap();
        assert_eq!(channel.values().next(), Some(Ok(value)));
    }
    assert_ne!(Value::Single(0.0), Value::Single(-0.0));
    assert_ne!(Value::Whole(0), Value::Null);
    assert_ne!(Value::NoData, Value::Null);
    assert_eq!(Value::NoData, Value::NoData);
}

/// Doubles, two of which are null; one in the second piece is no number.
#[test]
fn values_over_many_pieces_are_those_of_the_samples() {
    const SAMPLES: usize = 70_000;
    const NOT_NUMBER: usize = 69_000;
    let null = 7.5_f64;
    let mut octets = vec![0x0A, 1, 8, 0x12, 8];
    octets.extend(null.to_be_bytes());
    octets.extend([0x1E, 0x84]);
    octets.extend((8 * SAMPLES as u32).to_be_bytes());
    for number in 0..SAMPLES {
        let double = match number {
            7 | 65_537 => null,
            NOT_NUMBER => f64::NAN,
            _ => number as f64,
        };
        octets.extend(double.to_be_bytes());
    }
    let file = File::new(&octets);
    let values = file.channel(0, 0).unwrap().values();
    assert_eq!(values.len(), SAMPLES);
    for (number, value) in values.enumerate() {
        let expected = match number {
            7 | 65_537 => Value::Null,
            NOT_NUMBER => Value::NotNumber(f64::NAN.to_bits()),
            _ => Value::Double(number as f64),
        };
        assert_eq!(value, Ok(expected));
    }
    for number in [0, 7, 65_535, 65_536, 65_537, NOT_NUMBER, SAMPLES - 1] {
        let mut values = file.channel(0, 0).unwrap().values();
        let sample = file.sample(0, 0, number as u64).unwrap();
        assert_eq!(values.nth(number), Some(Ok(sample.value)));
        assert_eq!(values.len(), SAMPLES - number - 1);
    }
}

#[test]
fn refusals_say_what_and_where() {
    for number in (1..=15).chain(20..=25) {
        let refusal = Refusal { number, place: 7 };
        let words = refusal.to_string();
        assert!(words.starts_with(&format!("refused {number} at 7: ")));
        assert!(!words.contains("unknown"), "{words}");
    }
    let unknown = Refusal {
        number: 99,
        place: 0,
    };
    assert_eq!(unknown.meaning(), "unknown refusal");
}

#[test]
fn each_attribute_is_in_its_field() {
    let mut octets = vec![0x05, 1, 2, 0x06, 1, 1, 0x07, 2, 0xFF, 0xFE, 0x04, 1, 3];
    octets.extend([0x08, 1, 7, 0x09, 2, 1, 2, 0x0A, 1, 2]);
    octets.extend([0x0B, 3, 1, 0xFD, 5, 0x0C, 3, 6, 4, 8]);
    octets.extend([0x0D, 4, 0, 0, 0, 9, 0x12, 4, 0x80, 0, 0, 0, 0x1E, 24]);
    octets.extend([0; 24]);
    let expected = Attributes {
        start: -2,
        channels: 2,
        sequences: 1,
        block: 3,
        class: 7,
        lead: 0x0102,
        data_type: DataType::Signed32,
        interval: Scale {
            unit: 1,
            exponent: -3,
            mantissa: 5,
        },
        resolution: Scale {
            unit: 6,
            exponent: 4,
            mantissa: 8,
        },
        width: 4,
        offset: 9,
        null: Some(0x8000_0000),
    };
    assert_eq!(File::new(&octets).attributes(0, 1), Ok(expected));
}

#[test]
fn a_refused_file_answers_its_refusal_to_every_question() {
    let file = File::new(&[0x05, 1, 2, 0x3F, 2, 0]);
    let refusal = Refusal {
        number: Refusal::CHANNEL_NUMBER,
        place: 3,
    };
    assert_eq!(file.check(), Err(refusal));
    assert_eq!(file.attributes(9, 9), Err(refusal));
    assert_eq!(file.samples_there(9, 9), Err(refusal));
    assert_eq!(file.sample(9, 9, 9), Err(refusal));
    let mut bits = [7; 3];
    assert_eq!(file.samples(9, 9, 9, &mut bits), Err(refusal));
    assert_eq!(bits, [7; 3]);
    let (mut kinds, mut wholes) = ([7; 3], [7; 3]);
    let values = file.values(9, 9, 9, &mut kinds, &mut wholes);
    assert_eq!((values, kinds, wholes), (Err(refusal), [7; 3], [7; 3]));
    let mut out = [0xA5; 200];
    assert_eq!(file.canonical(&mut out), Err(refusal));
    assert_eq!(out, [0xA5; 200]);
    assert_eq!(file.canonical_length(), Err(refusal));
    assert_eq!(file.canonical_vec(), Err(refusal));
    assert_eq!(file.frames().err(), Some(refusal));
    assert_eq!(file.frame(0).err(), Some(refusal));
    assert_eq!(file.channel(0, 0).err(), Some(refusal));
}

/// The header promises it. The second file is long enough that its waveform is copied by more than one
/// move of memory.
#[test]
fn a_call_needs_less_than_256_kib_of_stack() {
    let questions = || {
        for sequences in [1000, 600_000] {
            let octets = two_channels(sequences);
            let (sequences, file) = (sequences as u64, File::new(&octets));
            assert_eq!(file.check(), Ok(1));
            assert!(file.attributes(0, 1).is_ok());
            assert!(file.sample(0, 1, 2 * sequences - 1).is_ok());
            assert_eq!(file.samples_there(0, 1), Ok(2 * sequences));
            assert_eq!(file.samples(0, 1, 0, &mut [0; 10]), Ok(10));
            assert_eq!(file.values(0, 1, 0, &mut [0; 10], &mut [0; 10]), Ok(10));
            let channel = file.channel(0, 1).unwrap();
            assert_eq!(channel.bits().count() as u64, 2 * sequences);
            assert_eq!(channel.values().count() as u64, 2 * sequences);
            let frame = file.frame(0).unwrap();
            let waveform = &octets[frame.waveform()];
            let all = frame.sample_count().unwrap();
            assert_eq!(frame.samples(&mut vec![0; all]), Ok(all));
            let canonical = file.canonical_vec().unwrap();
            assert!(canonical.ends_with(waveform));
            let made = frame.settings().unwrap().make(waveform);
            assert!(made.unwrap() == canonical[3..]);
        }
    };
    let thread = std::thread::Builder::new().stack_size(256 * 1024);
    thread.spawn(questions).unwrap().join().unwrap();
}
