//! Frames that are made, and files that a recorder makes of them.

use mfer::{ChannelSettings, DataType, File, FrameSettings, RecordError, Recorder, Refusal, Scale};
use std::env;
use std::io::{self, Write};
use std::panic::{catch_unwind, AssertUnwindSafe};

/// Document 01's P2.
const P2: [u8; 23] = [
    0x01, 0x01, 0x01, 0x04, 0x01, 0x02, 0x05, 0x01, 0x02, 0x3F, 0x01, 0x03, 0x04, 0x01, 0x01, 0x1E,
    0x06, 0x01, 0x00, 0x02, 0x00, 0xFF, 0xFF,
];

/// The samples of P2 as a frame is made of them.
const P2_SAMPLES: [u8; 6] = [0, 1, 0, 2, 0xFF, 0xFF];

fn p2() -> FrameSettings {
    File::new(&P2).frame(0).unwrap().settings().unwrap()
}

/// The refusal of this number, which is about no item.
fn refusal(number: u32) -> Refusal {
    Refusal { number, place: 0 }
}

/// A frame of channels without sequences.
fn empty(channels: Vec<ChannelSettings>) -> FrameSettings {
    FrameSettings {
        start: 0,
        sequences: 0,
        channels,
    }
}

/// A frame of one channel of octets.
fn of_octets(octets: usize) -> FrameSettings {
    FrameSettings {
        start: 0,
        sequences: octets as u64,
        channels: vec![ChannelSettings {
            data_type: DataType::Unsigned8,
            ..ChannelSettings::default()
        }],
    }
}

#[test]
fn p2_is_made_again() {
    let expected = &File::new(&P2).canonical_vec().unwrap()[3..];
    assert_eq!(expected.len(), 110);
    let settings = p2();
    assert_eq!((settings.start, settings.sequences), (0, 1));
    assert_eq!(settings.channels[0].block, 2);
    assert_eq!(settings.channels[1], ChannelSettings::default());
    assert_eq!(settings.sequence_octets(), 6);
    assert_eq!(settings.make(&P2_SAMPLES).unwrap(), expected);
    let room = settings.room(&P2_SAMPLES);
    for length in 0..=room {
        let mut out = vec![0xA5; room];
        let made = settings.make_into(&P2_SAMPLES, &mut out[..length]);
        let kept = match length < expected.len() {
            true => {
                assert_eq!(made, Err(refusal(Refusal::NO_ROOM)));
                &out
            }
            false => {
                assert_eq!(made, Ok(expected.len()));
                assert_eq!(out[..expected.len()], *expected);
                &out[expected.len()..]
            }
        };
        assert!(kept.iter().all(|octet| *octet == 0xA5));
    }
}

/// Settings that last, surplus, either byte order, each type with its offset and its null.
fn files() -> Vec<Vec<u8>> {
    let mut files = vec![P2.to_vec(), vec![0x1E, 0]];
    files.push(vec![
        0x05, 1, 3, 0x0A, 1, 3, 0x3F, 0, 3, 0x04, 1, 2, 0x3F, 2, 3, 0x04, 1, 3, 0x1E, 13, 0, 1, 2,
        3, 4, 5, 6, 7, 8, 9, 10, 11, 12, 0x07, 1, 0xFB, 0x05, 0, 0x1E, 2, 0xFF, 0x80, 0x1E, 0,
    ]);
    for (code, width) in [2_u8, 2, 4, 1, 2, 1, 4, 4, 8].into_iter().enumerate() {
        let bits = &[1, 2, 3, 4, 5, 6, 7, 0xF8][..usize::from(width)];
        let mut file = vec![0x01, 1, 1, 0x05, 1, 2, 0x0A, 1, code as u8, 0x0D, width];
        file.extend(bits);
        file.extend([0x3F, 1, width + 2, 0x12, width]);
        file.extend(bits);
        file.extend([
            0x0B, 3, 1, 0xFD, 5, 0x0C, 4, 22, 4, 8, 1, 0x09, 2, 0x85, 0x40,
        ]);
        file.extend([0x1E, 2 * width + 1]);
        file.extend(bits.iter().chain(bits.iter().rev()).chain(&[9]));
        files.push(file);
    }
    let mut most = vec![0x05, 2, 1, 0, 0x0A, 1, 8, 0x12, 8, 0, 0, 0, 0, 0, 0, 0, 1];
    most.extend([0x1E, 0].repeat(3));
    files.push(most);
    files
}

#[test]
fn what_was_read_is_made_again() {
    for octets in files() {
        let file = File::new(&octets);
        let canonical = file.canonical_vec().unwrap();
        let mut recorder = Recorder::new(Vec::new());
        let frames = file.frames().unwrap();
        for (read, written) in frames.zip(File::new(&canonical).frames().unwrap()) {
            let (settings, written) = (read.unwrap().settings().unwrap(), written.unwrap());
            assert_eq!(settings, written.settings().unwrap());
            let samples = &canonical[written.waveform()];
            assert_eq!(
                samples.len() as u64,
                settings.sequences * settings.sequence_octets()
            );
            recorder.frame(&settings, samples).unwrap();
        }
        assert_eq!(recorder.octets(), canonical.len() as u64);
        assert_eq!(recorder.finish().unwrap(), canonical);
    }
}

#[test]
fn the_defaults_are_those_of_a_file_that_sets_nothing() {
    let file = File::new(&[0x1E, 0]);
    let attributes = file.attributes(0, 0).unwrap();
    assert_eq!(
        ChannelSettings::from(&attributes),
        ChannelSettings::default()
    );
    let settings = file.frame(0).unwrap().settings().unwrap();
    assert_eq!(settings, empty(vec![ChannelSettings::default()]));
}

#[test]
fn types_have_the_library_s_widths() {
    for code in 0..=8 {
        let data_type = DataType::from_code(code).unwrap();
        assert_eq!(data_type.code(), code);
        let octets = [0x0A, 1, code, 0x1E, 0];
        let attributes = File::new(&octets).attributes(0, 0).unwrap();
        assert_eq!(attributes.data_type, data_type);
        assert_eq!(attributes.width, data_type.width());
    }
    assert_eq!(DataType::from_code(9), None);
    assert_eq!(DataType::from_code(255), None);
}

/// Every setting of a channel past its range, as far as it can be told.
fn bad_channels() -> Vec<ChannelSettings> {
    let default = ChannelSettings::default();
    let scale = |unit, mantissa| Scale {
        unit,
        exponent: 0,
        mantissa,
    };
    let mut bad = Vec::new();
    for block in [0, 1_048_577, u32::MAX] {
        bad.push(ChannelSettings { block, ..default });
    }
    for interval in [scale(3, 1), scale(255, 1), scale(0, 0), scale(0, -1)] {
        bad.push(ChannelSettings {
            interval,
            ..default
        });
    }
    for resolution in [scale(23, 1), scale(255, 1), scale(0, 0), scale(0, i32::MIN)] {
        bad.push(ChannelSettings {
            resolution,
            ..default
        });
    }
    for code in 0..8 {
        let data_type = DataType::from_code(code).unwrap();
        let wide = 1 << (8 * data_type.width());
        for (offset, null) in [(wide, None), (0, Some(wide)), (u64::MAX, Some(0))] {
            bad.push(ChannelSettings {
                data_type,
                offset,
                null,
                ..default
            });
        }
    }
    bad
}

/// The ends of the ranges.
fn good_channels() -> Vec<ChannelSettings> {
    let default = ChannelSettings::default();
    let scale = |unit, exponent, mantissa| Scale {
        unit,
        exponent,
        mantissa,
    };
    let mut good = vec![ChannelSettings {
        block: 1_048_576,
        class: u16::MAX,
        lead: u16::MAX,
        interval: scale(2, -128, i32::MAX),
        resolution: scale(22, 127, i32::MAX),
        ..default
    }];
    for code in 0..=8 {
        let data_type = DataType::from_code(code).unwrap();
        let offset = u64::MAX >> (64 - 8 * data_type.width());
        let null = Some(offset);
        good.push(ChannelSettings {
            data_type,
            offset,
            null,
            ..default
        });
    }
    good
}

#[test]
fn channels_out_of_their_range() {
    let refused = Err(refusal(Refusal::SETTING_RANGE));
    for bad in bad_channels() {
        for place in 0..3 {
            let mut settings = empty(vec![ChannelSettings::default(); 3]);
            settings.channels[place] = bad;
            let mut out = [0xA5; 300];
            assert_eq!(settings.make_into(&[], &mut out), refused, "{bad:?}");
            // Ahead of the samples, which are too many, and of the room.
            assert_eq!(settings.make_into(&[0], &mut out[..1]), refused, "{bad:?}");
            assert_eq!(out, [0xA5; 300]);
        }
    }
}

#[test]
fn frames_out_of_their_range() {
    let outside = i64::from(i32::MAX) + 1;
    let starts = [outside, -outside - 1, i64::MIN, i64::MAX].map(|start| (start, 0, 1));
    let sequences = [1 << 32, u64::MAX].map(|sequences| (0, sequences, 1));
    let channels = [0, 257, 100_000].map(|channels| (0, 0, channels));
    for (start, sequences, channels) in starts.into_iter().chain(sequences).chain(channels) {
        let settings = FrameSettings {
            start,
            sequences,
            channels: vec![ChannelSettings::default(); channels],
        };
        let made = settings.make(&[]);
        assert_eq!(
            made,
            Err(refusal(Refusal::SETTING_RANGE)),
            "{start} {sequences} {channels}"
        );
    }
}

/// Each is written, and read back as it was.
#[test]
fn settings_at_the_ends_of_their_range() {
    let mut frames: Vec<FrameSettings> = good_channels()
        .into_iter()
        .map(|channel| empty(vec![channel]))
        .collect();
    frames.push(empty(vec![ChannelSettings::default(); 256]));
    frames.push(empty(good_channels()));
    for start in [i32::MIN, i32::MAX] {
        let start = start.into();
        frames.push(FrameSettings {
            start,
            ..empty(good_channels())
        });
    }
    let mut recorder = Recorder::new(Vec::new());
    for settings in &frames {
        recorder.frame(settings, &[]).unwrap();
    }
    let octets = recorder.finish().unwrap();
    let read = File::new(&octets).frames().unwrap();
    let read: Vec<FrameSettings> = read
        .map(|frame| frame.unwrap().settings().unwrap())
        .collect();
    assert_eq!(read, frames);
}

#[test]
fn samples_are_exactly_as_many() {
    let settings = p2();
    for length in (0..20).filter(|length| *length != 6) {
        let made = settings.make(&vec![0; length]);
        assert_eq!(made, Err(refusal(Refusal::SAMPLES_LENGTH)));
        // Ahead of the room.
        let made = settings.make_into(&vec![0; length], &mut []);
        assert_eq!(made, Err(refusal(Refusal::SAMPLES_LENGTH)));
    }
    let none = empty(settings.channels);
    assert!(none.make(&[]).is_ok());
    assert_eq!(none.make(&[0]), Err(refusal(Refusal::SAMPLES_LENGTH)));
    let sequences = u32::MAX.into();
    let most = FrameSettings { sequences, ..none };
    assert_eq!(most.make(&[0; 6]), Err(refusal(Refusal::SAMPLES_LENGTH)));
}

/// Notes the length of each piece that it is handed, and keeps none.
#[derive(Default)]
struct Pieces(Vec<usize>);

impl Write for Pieces {
    fn write(&mut self, octets: &[u8]) -> io::Result<usize> {
        self.0.push(octets.len());
        Ok(octets.len())
    }

    fn flush(&mut self) -> io::Result<()> {
        Ok(())
    }
}

/// The refusal's number of a frame that a recorder did not take.
fn number(answer: Result<(), RecordError>) -> u32 {
    match answer {
        Err(RecordError::Refused(Refusal { number, place: 0 })) => number,
        answer => panic!("{answer:?}"),
    }
}

#[test]
fn a_recorder_without_frames_writes_nothing() {
    let mut recorder = Recorder::new(Pieces::default());
    recorder.flush().unwrap();
    assert_eq!(number(recorder.frame(&empty(Vec::new()), &[])), 24);
    assert_eq!(number(recorder.frame(&p2(), &[0])), 25);
    assert_eq!((recorder.frames(), recorder.octets()), (0, 0));
    assert!(recorder.finish().unwrap().0.is_empty());
}

/// The head goes with the first frame that is taken, and each frame is one piece.
#[test]
fn a_recorder_goes_on_after_a_refusal() {
    let mut recorder = Recorder::new(Pieces::default());
    assert_eq!(number(recorder.frame(&p2(), &[])), 25);
    recorder.frame(&p2(), &P2_SAMPLES).unwrap();
    assert_eq!(recorder.octets(), 113);
    assert_eq!(number(recorder.frame(&p2(), &[0; 7])), 25);
    recorder.frame(&of_octets(1000), &[7; 1000]).unwrap();
    recorder.frame(&p2(), &P2_SAMPLES).unwrap();
    assert_eq!(recorder.frames(), 3);
    let Pieces(pieces) = recorder.get_ref();
    let expected = [113, of_octets(1000).make(&[7; 1000]).unwrap().len(), 110];
    assert_eq!(*pieces, expected);
    assert_eq!(recorder.octets(), expected.iter().sum::<usize>() as u64);
    let says = format!("{recorder:?}");
    assert!(says.starts_with("Recorder { frames: 3, octets: "), "{says}");
}

#[test]
fn the_most_frames() {
    let mut recorder = Recorder::new(Vec::new());
    for number in 0..4096 {
        let settings = FrameSettings {
            start: number,
            ..of_octets(1)
        };
        recorder.frame(&settings, &[number as u8]).unwrap();
    }
    let octets = recorder.octets();
    assert_eq!(number(recorder.frame(&of_octets(1), &[0])), 11);
    assert_eq!(number(recorder.frame(&of_octets(1), &[])), 25);
    assert_eq!((recorder.frames(), recorder.octets()), (4096, octets));
    let mut written = recorder.finish().unwrap();
    assert_eq!(written.len() as u64, octets);
    let file = File::new(&written);
    assert_eq!(file.check(), Ok(4096));
    assert_eq!(file.attributes(4095, 0).unwrap().start, 4095);
    assert_eq!(file.canonical_vec().unwrap(), written);
    // A reader says the same of one frame more.
    written.extend(of_octets(1).make(&[0]).unwrap());
    let refusal = File::new(&written).check().unwrap_err();
    assert_eq!(refusal.number, Refusal::MANY_FRAMES);
}

/// 4,095 frames, and one that fills the file to its last octet. Nothing of it is kept.
#[test]
fn the_longest_file() {
    let samples = vec![0; 600_000];
    let ahead = of_octets(600_000).make(&samples).unwrap().len() - 600_000;
    let mut recorder = Recorder::new(Pieces::default());
    let each = 524_000;
    for _ in 0..4095 {
        recorder.frame(&of_octets(each), &samples[..each]).unwrap();
    }
    let octets = recorder.octets();
    let left = (File::LIMIT - octets) as usize - ahead;
    let too_many = vec![0; left + 1];
    assert_eq!(number(recorder.frame(&of_octets(left + 1), &too_many)), 15);
    assert_eq!((recorder.frames(), recorder.octets()), (4095, octets));
    recorder.frame(&of_octets(left), &too_many[..left]).unwrap();
    assert_eq!((recorder.frames(), recorder.octets()), (4096, File::LIMIT));
    // Too long, and too many frames: 15 is what a reader says.
    assert_eq!(number(recorder.frame(&of_octets(1), &[0])), 15);
    let Pieces(pieces) = recorder.finish().unwrap();
    assert_eq!(pieces.len(), 4096);
    assert_eq!(pieces.iter().sum::<usize>() as u64, File::LIMIT);
}

/// A frame that is too long for any file. Nobody writes to this memory, so that little of it is ever there.
#[test]
fn a_frame_that_is_too_long_for_a_file() {
    if env::var_os("MFER_SKIP_LARGE").is_some() {
        println!("skipped: MFER_SKIP_LARGE is set");
        return;
    }
    let ahead = of_octets(1 << 24).make(&vec![0; 1 << 24]).unwrap().len() - (1 << 24);
    let samples = vec![0; File::LIMIT as usize];
    let most = samples.len() - File::HEAD.len() - ahead;
    for octets in [most + 1, samples.len()] {
        let (settings, samples) = (of_octets(octets), &samples[..octets]);
        assert_eq!(settings.make(samples), Err(refusal(Refusal::NO_ROOM)));
        let mut recorder = Recorder::new(Pieces::default());
        assert_eq!(number(recorder.frame(&settings, samples)), 15);
        assert!(recorder.into_inner().0.is_empty());
    }
}

/// Takes so many octets, and then fails.
struct Full {
    octets: Vec<u8>,
    room: usize,
}

impl Write for Full {
    fn write(&mut self, octets: &[u8]) -> io::Result<usize> {
        let taken = octets.len().min(self.room - self.octets.len());
        if taken == 0 {
            return Err(io::Error::other("the disk is full"));
        }
        self.octets.extend(&octets[..taken]);
        Ok(taken)
    }

    fn flush(&mut self) -> io::Result<()> {
        match self.octets.len() < self.room {
            true => Ok(()),
            false => Err(io::Error::other("the disk is full")),
        }
    }
}

/// Whatever the writer took before it failed: the frames before are a file, and no other frame follows.
#[test]
fn a_writer_that_fails() {
    for room in 0..3 * 110 {
        let octets = Vec::new();
        let mut recorder = Recorder::new(Full { octets, room });
        let whole = if room < 113 { 0 } else { (room - 3) / 110 };
        for _ in 0..whole {
            recorder.frame(&p2(), &P2_SAMPLES).unwrap();
        }
        let failed = recorder.frame(&p2(), &P2_SAMPLES).unwrap_err();
        assert!(matches!(&failed, RecordError::Write(_)));
        assert_eq!(failed.to_string(), "the disk is full");
        for _ in 0..2 {
            let again = recorder.frame(&p2(), &P2_SAMPLES);
            assert!(matches!(again, Err(RecordError::Broken)));
            assert!(matches!(recorder.flush(), Err(RecordError::Broken)));
        }
        assert_eq!(recorder.frames() as usize, whole);
        let good = recorder.octets() as usize;
        let Full { octets, .. } = recorder.into_inner();
        assert_eq!(octets.len(), room);
        assert_eq!(File::new(&octets[..good]).check(), Ok(whole as u32));
    }
}

/// Nobody knows how much a writer took that panics.
#[test]
fn a_writer_that_panics() {
    struct Panics;

    impl Write for Panics {
        fn write(&mut self, _: &[u8]) -> io::Result<usize> {
            panic!("as it should")
        }

        fn flush(&mut self) -> io::Result<()> {
            Ok(())
        }
    }

    let mut recorder = Recorder::new(Panics);
    let frame = AssertUnwindSafe(|| recorder.frame(&p2(), &P2_SAMPLES));
    assert!(catch_unwind(frame).is_err());
    let again = recorder.frame(&p2(), &P2_SAMPLES);
    assert!(matches!(again, Err(RecordError::Broken)));
}

#[test]
fn a_writer_that_fails_at_the_end() {
    let full = |room| Full {
        octets: Vec::new(),
        room,
    };
    let mut recorder = Recorder::new(full(113));
    recorder.frame(&p2(), &P2_SAMPLES).unwrap();
    assert!(matches!(recorder.flush(), Err(RecordError::Write(_))));
    assert!(matches!(recorder.finish(), Err(RecordError::Broken)));
    let mut recorder = Recorder::new(full(114));
    recorder.frame(&p2(), &P2_SAMPLES).unwrap();
    assert_eq!(recorder.finish().unwrap().octets.len(), 113);
}

#[test]
fn errors_say_what_is_wrong() {
    let refused = Recorder::new(io::sink()).frame(&p2(), &[]).unwrap_err();
    assert_eq!(
        refused.to_string(),
        "refused 25 at 0: sample octets not exactly sequences times G (the octets of a sequence)"
    );
    assert!(RecordError::Broken.to_string().contains("failed before"));
}

#[test]
fn threads_can_share_what_is_made() {
    fn shared<T: Send + Sync>() {}
    shared::<FrameSettings>();
    shared::<Recorder<Vec<u8>>>();
    shared::<RecordError>();
}
