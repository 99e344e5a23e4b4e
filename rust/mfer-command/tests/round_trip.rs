//! Files taken apart by `mfer show --settings` and `mfer samples`, and made again by `mfer make`:
//! what is made is the canonical file, octet for octet, if all samples of the file are there; else
//! nothing is made.

mod common;

use common::{mfer, run, written, Folder};
use mfer::{File, Frame};
use second::generator::good_file;
use second::papers::{octets, BLOCKS, LASTING, LASTING_TYPE, LONG_LENGTHS, NAMED, SCALES, SMALL};
use std::collections::BTreeSet;
use std::iter;

/// Takes a file apart and makes it again, of numbers and of octets; of all its frames or of one.
fn made_again(folder: &Folder, octets: &[u8], frame: Option<u32>) -> [Vec<u8>; 2] {
    let file = folder.file("file", octets);
    let only: Vec<String> = frame
        .iter()
        .map(|frame| format!("--frame={frame}"))
        .collect();
    let apart = |name: &str, word: &str, option: &str| {
        let text = written(mfer().args([word, option]).args(&only).arg(&file));
        folder.file(name, &text)
    };
    let settings = apart("settings", "show", "--settings");
    let numbers = apart("numbers", "samples", "--all");
    let raw = apart("raw", "samples", "--raw");
    let make = || {
        let mut make = mfer();
        make.arg("make").arg(&settings);
        make
    };
    [
        written(make().arg(&numbers).arg("-")),
        written(make().arg(&raw).args(["-", "--raw"])),
    ]
}

/// Whether all samples of a frame are there.
fn is_whole(frame: &Frame) -> bool {
    frame.channels().all(|channel| {
        let channel = channel.unwrap();
        channel.samples_there() == channel.attributes().samples()
    })
}

/// Whether all samples of an accepted file are there.
fn whole(file: File) -> bool {
    let mut frames = file.frames().unwrap();
    frames.all(|frame| is_whole(&frame.unwrap()))
}

/// Whether a file has frames, a canonical file and all its samples; the canonical file is then what is made
/// again.
fn comes_back(octets: &[u8]) -> bool {
    let file = File::new(octets);
    let (Ok(1..), Ok(canonical)) = (file.check(), file.canonical_vec()) else {
        return false;
    };
    if !whole(file) {
        return false;
    }
    let made = made_again(&Folder::new(), octets, None);
    assert!(made == [canonical.clone(), canonical], "{octets:02X?}");
    true
}

#[test]
fn files_of_the_papers_come_back() {
    let named = NAMED.iter().chain(&SMALL).chain(&LONG_LENGTHS);
    let others = [BLOCKS, LASTING, LASTING_TYPE, SCALES];
    let files = named.chain(&others).filter(|hex| comes_back(&octets(hex)));
    assert!(files.count() >= 21);
}

/// Takes a file apart whose samples are not all there, and tries to make it again: the error of each try
/// and its status.
fn tried_again(octets: &[u8]) -> [(String, i32); 2] {
    let folder = Folder::new();
    let file = folder.file("file", octets);
    let apart = |name: &str, word: &str, option: &str| {
        let output = mfer().args([word, option]).arg(&file).output().unwrap();
        assert!(output.status.success());
        folder.file(name, &output.stdout)
    };
    let settings = apart("settings", "show", "--settings");
    [("numbers", "--all", None), ("raw", "--raw", Some("--raw"))].map(|(name, option, raw)| {
        let samples = apart(name, "samples", option);
        let out = folder.path("out");
        let (_, error, status) = run(mfer()
            .arg("make")
            .args([&settings, &samples, &out])
            .args(raw));
        assert!(!out.exists());
        (error, status)
    })
}

/// A whole frame, and then one and a half of two sequences of two channels.
#[test]
fn a_file_that_was_cut_off_does_not_come_back() {
    let octets = octets("05 01 02 06 01 02 1E 08 00 01 00 02 00 03 00 04 1E 06 00 05 00 06 00 07");
    assert!(!comes_back(&octets));
    let [(numbers, by_line), (raw, by_octets)] = tried_again(&octets);
    assert!(numbers.contains("numbers: line 8: frame 1, channel 1: expected a whole number"));
    assert!(numbers.contains("found 'no data: 1 samples'; a frame is made of all its samples"));
    assert!(raw.contains("raw: frame 1: refused 25 at 0: "));
    assert!(raw.contains("expected 2 times 4 octets, found 6; a frame is made of all its samples"));
    assert_eq!((by_line, by_octets), (2, 1));
    // Of its whole sequences a file is made.
    let [settings, numbers] =
        [("show", "--settings"), ("samples", "--all")].map(|(word, option)| {
            let folder = Folder::new();
            let file = folder.file("file", &octets);
            String::from_utf8(written(mfer().args([word, option]).arg(&file))).unwrap()
        });
    let settings = settings.replace("sequences 2  # 1 whole", "sequences 1  #");
    let numbers = numbers.replace("7\nno data: 1 samples\n", "");
    let folder = Folder::new();
    let settings = folder.file("settings", settings.as_bytes());
    let numbers = folder.file("numbers", numbers.as_bytes());
    let made = written(mfer().arg("make").args([settings, numbers]).arg("-"));
    let frame = File::new(&made).frame(1).unwrap();
    assert_eq!(
        (frame.sequences(), frame.start(), is_whole(&frame)),
        (1, 2, true)
    );
    assert_eq!(made[frame.waveform()], [0, 5, 0, 6]);
}

/// What is met in a file: data types, each with the kinds of value that its samples have.
fn met(octets: &[u8]) -> BTreeSet<(u8, &'static str)> {
    let mut met = BTreeSet::new();
    for frame in File::new(octets).frames().unwrap() {
        for channel in frame.unwrap().channels() {
            let channel = channel.unwrap();
            let data_type = channel.attributes().data_type.code();
            let kinds = channel.values().map(|value| value.unwrap().kind());
            met.extend(kinds.map(|kind| (data_type, kind)));
        }
    }
    met
}

#[test]
fn generated_files_come_back() {
    const FILES: u64 = 800;
    println!("seeds 0 to {}", FILES - 1);
    let (mut count, mut cut_off) = (0, 0);
    let mut types = BTreeSet::new();
    let mut kinds = BTreeSet::new();
    for octets in (0..FILES).map(good_file) {
        if !whole(File::new(&octets)) {
            let [(numbers, by_line), (raw, by_octets)] = tried_again(&octets);
            assert!(numbers.contains("found 'no data: "), "{numbers}");
            assert!(raw.contains(": refused 25 at 0: "), "{raw}");
            assert_eq!((by_line, by_octets), (2, 1));
            cut_off += 1;
        }
        if !comes_back(&octets) {
            continue;
        }
        count += 1;
        for (data_type, kind) in met(&octets) {
            types.insert(data_type);
            kinds.insert(kind);
        }
    }
    assert!(count > 300, "{count} files");
    assert!(cut_off > 250, "{cut_off} files are cut off");
    assert_eq!((types.len(), kinds.len()), (9, 6));
}

/// The octets of samples of a type in which a form would lose something first: numbers at the ends
/// of ranges, zeros of both signs, infinities, floats with all digits, and floats that are no
/// numbers.
fn corners(data_type: u8) -> Vec<Vec<u8>> {
    let width = [2, 2, 4, 1, 2, 1, 4, 4, 8][usize::from(data_type)];
    let sign: u64 = 1 << (8 * width - 1);
    let mut bits = vec![0, 1, sign - 1, sign, sign + 1, u64::MAX - 1, u64::MAX];
    bits.extend([0x7F80_0000, 0xFF80_0000, 0x7FC0_0001, 0xFF80_0001]);
    bits.extend([0x8040_0000, 0x3DCC_CCCD, 0x7F7F_FFFF]);
    bits.extend([0x7FF0 << 48, 0xFFF0 << 48, (0x7FF8 << 48) + 1]);
    bits.extend([0x8008 << 48, 0x3FB9_9999_9999_999A, (0x7FF0 << 48) - 1]);
    let octets = |bits: u64| bits.to_be_bytes()[8 - width..].to_vec();
    bits.into_iter().map(octets).collect()
}

/// Every data type with every kind that a value of it can have.
fn all_kinds() -> BTreeSet<(u8, &'static str)> {
    let kinds = |data_type| match data_type {
        4 => vec!["status", "null"],
        7 => vec!["single", "not-a-number", "null"],
        8 => vec!["double", "not-a-number", "null"],
        _ => vec!["whole", "null"],
    };
    let pairs = |data_type| {
        kinds(data_type)
            .into_iter()
            .map(move |kind| (data_type, kind))
    };
    (0..=8).flat_map(pairs).collect()
}

/// For each type frames of one channel that have all corners, without a null and with each as null.
#[test]
fn every_type_comes_back_to_the_bit() {
    let mut kinds = BTreeSet::new();
    for data_type in 0..=8 {
        let corners = corners(data_type);
        let waveform = corners.concat();
        let mut file = vec![0x0A, 1, data_type];
        for null in iter::once(&Vec::new()).chain(&corners) {
            file.extend([0x12, null.len() as u8]);
            file.extend(null);
            file.extend([0x1E, 0x81, waveform.len() as u8]);
            file.extend(&waveform);
        }
        assert!(comes_back(&file));
        kinds.extend(met(&file));
    }
    assert_eq!(kinds, all_kinds());
}

/// The samples of several channels with blocks, as numbers and as octets.
#[test]
fn samples_stand_in_file_order() {
    let folder = Folder::new();
    let file = folder.file("file", &octets(BLOCKS));
    let numbers = written(mfer().args(["samples", "--all"]).arg(&file));
    assert_eq!(numbers, b"0\n1\n2\n3\n4\n5\n6\n7\n8\n9\n10\n11\n");
    let raw = written(mfer().args(["samples", "--raw"]).arg(&file));
    assert_eq!(raw, (0..12).collect::<Vec<u8>>());
}

/// What is made of each frame alone is 01 01 00 and that frame of the canonical file.
#[test]
fn frames_come_back_one_by_one() {
    let folder = Folder::new();
    let mut count = 0;
    for octets in (0..30).map(good_file).chain([octets(LASTING)]) {
        let canonical = File::new(&octets).canonical_vec().unwrap();
        let mut begin = File::HEAD.len();
        for frame in File::new(&canonical).frames().unwrap() {
            let frame = frame.unwrap();
            let end = frame.waveform().end;
            let alone = [&File::HEAD, &canonical[begin..end]].concat();
            begin = end;
            if !is_whole(&frame) {
                continue;
            }
            let made = made_again(&folder, &octets, Some(frame.number()));
            assert!(made == [alone.clone(), alone], "frame {}", frame.number());
            count += 1;
        }
    }
    assert!(count > 20, "{count} frames");
}
