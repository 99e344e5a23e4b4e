//! The limits of document 01: the last that is allowed and the first that is not. What the second
//! program's tests say of them is not said again.

use compare::{all_same, difference, make, Case, Joined};
use mfer::{ffi, File, Refusal, Value};
use second::inputs::Input;
use second::papers::{octets, P3};
use std::env;
use std::time::{Duration, Instant};

fn check(octets: &[u8]) -> Result<u32, (u32, u64)> {
    let answer = File::new(octets).check();
    answer.map_err(|refusal| (refusal.number, refusal.place))
}

/// Both programs on the files that the hexadecimal lines stand for.
fn same_on(lines: &[&str]) {
    let make = |number| octets(lines[number as usize]);
    if let Err(failure) = all_same(0, lines.len() as u64, make) {
        panic!("{failure}");
    }
}

#[test]
fn channels_256_and_257() {
    same_on(&["05 02 01 00 1E 00", "05 02 01 01 1E 00", "05 01 00"]);
    // 256 channels of one octet each, twice over.
    let mut file = octets("05 02 01 00 0A 01 03 3F 81 7F 03 0A 01 05 1E 82 02 00");
    file.extend((0..=255).chain(0..=255).collect::<Vec<u8>>());
    assert_eq!(check(&file), Ok(1));
    let last = File::new(&file).sample(0, 255, 1).unwrap();
    assert_eq!((last.place, last.bits), (18 + 511, 255));
    assert_eq!(difference(&file), None);
}

#[test]
fn frames_4096_and_4097() {
    assert_eq!(difference(&octets(P3).repeat(4096)), None);
    assert_eq!(difference(&octets(P3).repeat(4097)), None);
    // 11 comes before what else the frame would be refused for.
    let mut more = octets(P3).repeat(4096);
    more.extend(octets("06 01 09 0D 01 01 1E 00"));
    assert_eq!(check(&more), Err((11, 8192 + 6)));
}

#[test]
fn blocks_of_1048576() {
    let mut file = octets("04 03 10 00 00 0A 01 03 1E 83 10 00 02");
    file.resize(file.len() + 1_048_578, 7);
    assert_eq!(check(&file), Ok(1));
    let attributes = File::new(&file).attributes(0, 0).unwrap();
    assert_eq!((attributes.block, attributes.sequences), (1_048_576, 1));
    assert_eq!(difference(&file), None);
    assert_eq!(check(&octets("04 03 10 00 01")), Err((7, 0)));
    same_on(&["04 03 10 00 01", "04 04 00 10 00 00 1E 00", "04 01 00"]);
}

#[test]
fn sequences_4294967295() {
    // One octet a sequence, and at the other end 2^31 octets a sequence: the sum is below 2^63.
    let small = "06 04 FF FF FF FF 0A 01 03 1E 01 00";
    let large = "05 02 01 00 04 03 10 00 00 0A 01 08 06 04 FF FF FF FF 1E 01 00";
    // 2^31 sequences of two octets are 2^32, which is no 0.
    let wrapped = "06 04 80 00 00 00 1E 01 00";
    for (file, there) in [(small, 1), (large, 0), (wrapped, 0)] {
        let octets = octets(file);
        assert_eq!(check(&octets), Ok(1));
        assert_eq!(File::new(&octets).samples_there(0, 0), Ok(there));
    }
    same_on(&[
        small,
        large,
        wrapped,
        "06 04 00 00 00 00 1E 00",
        "06 04 FF FF FF FF",
    ]);
    assert_eq!(check(&octets("06 04 FF FF FF FF")), Ok(0));
}

/// Four octets of a waveform that declares 4,294,967,295 sequences of 256 channels, with blocks of one and with
/// the longest: what is asked of it costs what its octets cost.
#[test]
fn far_more_declared_than_there() {
    let short = "05 02 01 00 06 04 FF FF FF FF 1E 04 00 01 00 02";
    let long = "05 02 01 00 04 03 10 00 00 0A 01 08 06 04 FF FF FF FF 1E 04 00 01 00 02";
    let octet = "05 02 01 00 04 03 10 00 00 0A 01 03 06 04 FF FF FF FF 1E 04 00 01 00 02";
    same_on(&[short, long, octet]);
    let started = Instant::now();
    for file in [short, long, octet].map(octets) {
        for _ in 0..200 {
            asked_at_once(&file);
        }
    }
    let took = started.elapsed();
    assert!(took < Duration::from_secs(10), "{took:?}");
}

/// Every question on a file of one frame and 256 channels.
fn asked_at_once(octets: &[u8]) {
    let file = File::new(octets);
    assert_eq!(file.check(), Ok(1));
    let canonical = file.canonical_vec().unwrap();
    assert!(canonical.len() < 20_000);
    assert_eq!(File::new(&canonical).canonical_vec(), Ok(canonical.clone()));
    let declared = file.attributes(0, 255).unwrap().samples();
    assert_eq!(file.samples_there(0, 255), Ok(0));
    let mut bits = [9; 8];
    assert_eq!(file.samples(0, 255, declared - 1, &mut bits), Ok(0));
    assert_eq!(bits, [9; 8]);
    let refusal = file.samples(0, 255, declared, &mut bits).unwrap_err();
    assert_eq!(refusal.number, Refusal::NO_SAMPLE);
    assert_eq!(
        file.sample(0, 255, declared - 1).unwrap().value,
        Value::NoData
    );
    let frame = file.frame(0).unwrap();
    let there = frame.sample_count().unwrap();
    assert!(there <= 4);
    assert_eq!(frame.samples(&mut bits), Ok(there));
    let channels = frame.channels().map(|channel| channel.unwrap());
    assert_eq!(
        channels
            .map(|channel| channel.values().count())
            .sum::<usize>(),
        there
    );
}

#[test]
fn start_pointers_at_both_ends() {
    same_on(&[
        "07 04 7F FF FF FF 1E 00 1E 00",
        "07 04 7F FF FF FF 1E 02 00 00 1E 00",
        "07 04 80 00 00 00 1E 02 00 00 1E 00",
        "04 03 10 00 00 05 01 01 3F 00 03 04 01 01 07 04 7F F0 00 00 1E 02 00 00 1E 00",
        "04 03 10 00 00 05 01 01 3F 00 03 04 01 01 07 04 7F EF FF FF 1E 02 00 00 1E 00",
    ]);
}

/// One channel of one octet, so many samples, and the room that is given.
fn one_octet_samples(samples: usize, room: usize) -> Input {
    Input {
        start: 0,
        sequences: samples as u64,
        channels: 1,
        numbers: vec![0, 0, 0, 1, 0, 0, 3, 0, 0, 1, 0, 0, 1, 0, 0],
        bits: vec![0; 2],
        samples: vec![0; samples],
        room,
    }
}

#[test]
fn made_frames_4096_and_4097() {
    let frames = Joined(vec![one_octet_samples(2, 100); 4096]);
    assert_eq!(frames.difference(), None);
    let more = Joined(vec![one_octet_samples(2, 100); 4097])
        .file()
        .unwrap();
    // The last waveform has four octets, tag and length among them.
    assert_eq!(check(&more), Err((11, more.len() as u64 - 4)));
}

#[test]
fn lengths_of_four_octets() {
    for samples in [0xFF_FFFF, 0x100_0000] {
        let input = one_octet_samples(samples, samples + 70);
        assert_eq!(input.difference(), None);
    }
}

/// Files of up to 4 GiB, in zeroed memory of which few pages are touched, but for a canonical file and
/// a made frame of 2 GB that are written out. MFER_SKIP_LARGE skips it.
#[test]
fn files_of_2147483647_octets_and_one_more() {
    if env::var_os("MFER_SKIP_LARGE").is_some() {
        println!("skipped: MFER_SKIP_LARGE is set");
        return;
    }
    const LIMIT: usize = 2_147_483_647;
    one_frame_of_the_whole_file(LIMIT);
    longer_files_are_refused(LIMIT);
    the_longest_canonical_file(LIMIT);
    the_longest_frame_that_is_made(LIMIT);
    longer_frames_are_not_made(LIMIT);
}

fn one_frame_of_the_whole_file(limit: usize) {
    let mut file = vec![0; limit];
    file[..6].copy_from_slice(&octets("1E 84 7F FF FF F9"));
    file[limit - 2] = 0x12;
    assert_eq!(check(&file), Ok(1));
    let samples = (limit as u64 - 6) / 2;
    let attributes = File::new(&file).attributes(0, 0).unwrap();
    assert_eq!(attributes.samples(), samples);
    let last = File::new(&file).sample(0, 0, samples - 1).unwrap();
    assert_eq!((last.place, last.bits), (limit as u64 - 3, 0x0012));
    let mut bits = [9; 3];
    let count = File::new(&file).samples(0, 0, samples - 2, &mut bits);
    assert_eq!((count, bits), (Ok(2), [0, 0x0012, 9]));
    let frame = File::new(&file).frame(0).unwrap();
    assert_eq!(frame.waveform(), 6..limit);
    let mut bits = [9; 3];
    let count = frame.channel(0).unwrap().samples(samples - 2, &mut bits);
    assert_eq!((count, bits), (Ok(2), [0, 0x0012, 9]));
    assert_eq!(frame.sample_count(), Ok(samples as usize));
    assert_eq!((frame.samples(&mut bits), bits), (Ok(3), [0; 3]));
    // The canonical file would have 62 octets more.
    let answer = ffi::canonical_length(&file);
    assert_eq!((answer.number, answer.count), (Refusal::NO_ROOM, 0));
    let mut out = vec![0; limit + 100];
    let answer = ffi::canonical(&file, &mut out);
    assert_eq!((answer.number, answer.count), (Refusal::NO_ROOM, 0));
    // A length that goes one past the file.
    file[5] = 0xFA;
    assert_eq!(check(&file), Err((3, 0)));
    // Nothing but items of two zero octets, and a last tag without a length.
    file[..6].fill(0);
    file[limit - 2] = 0;
    assert_eq!(check(&file), Err((3, limit as u64 - 1)));
}

fn longer_files_are_refused(limit: usize) {
    for length in [limit + 1, limit + 2, (1 << 32) + 2] {
        let mut file = vec![0; length];
        file[..2].copy_from_slice(&octets(P3));
        let file = File::new(&file);
        let refusal = Refusal {
            number: 15,
            place: 0,
        };
        assert_eq!(file.check(), Err(refusal));
        assert_eq!(file.attributes(0, 0), Err(refusal));
        assert_eq!(file.sample(0, 0, 0), Err(refusal));
        assert_eq!(file.samples(0, 0, 0, &mut [0]), Err(refusal));
        assert_eq!(file.frames().err(), Some(refusal));
        assert_eq!(file.canonical_length(), Err(refusal));
        let mut out = [0xA5; 100];
        assert_eq!(file.canonical(&mut out), Err(refusal));
        assert_eq!(out, [0xA5; 100]);
    }
}

fn the_longest_canonical_file(limit: usize) {
    // One channel of one octet: 68 octets come before the samples.
    let samples = limit - 68;
    let mut file = octets("0A 01 03 1E 84");
    file.extend((samples as u32).to_be_bytes());
    let header = file.len();
    let mut whole = vec![0; header + samples + 1];
    whole[..header].copy_from_slice(&file);
    *whole.last_mut().unwrap() = 0x77;
    let file = &mut whole[..header + samples];
    *file.last_mut().unwrap() = 0x55;
    assert_eq!(File::new(file).canonical_length(), Ok(limit));
    let mut out = vec![0; limit + 100];
    let answer = ffi::canonical(file, &mut out[..limit - 1]);
    assert_eq!((answer.number, answer.count), (Refusal::NO_ROOM, 0));
    let answer = ffi::canonical(file, &mut out);
    assert_eq!((answer.number, answer.count), (0, limit as u64));
    assert_eq!(out[62..64], octets("1E 84"));
    assert_eq!(out[limit - 2..limit + 2], [0, 0x55, 0, 0]);
    // One sample more is too many, whatever the buffer.
    drop(out);
    let mut out = vec![0; limit + 100];
    whole[5..9].copy_from_slice(&(samples as u32 + 1).to_be_bytes());
    let answer = ffi::canonical_length(&whole);
    assert_eq!((answer.number, answer.count), (Refusal::NO_ROOM, 0));
    let answer = ffi::canonical(&whole, &mut out);
    assert_eq!((answer.number, answer.count), (Refusal::NO_ROOM, 0));
    assert!(out[..1000].iter().all(|octet| *octet == 0));
}

fn the_longest_frame_that_is_made(limit: usize) {
    // 65 octets come before the samples, and 3 more in a file.
    let samples = limit - 68;
    let mut input = one_octet_samples(samples, 0);
    *input.samples.last_mut().unwrap() = 0x55;
    let mut out = vec![0; limit];
    let short = make(&input, &mut out[..limit - 4]);
    assert_eq!((short.number, short.count), (Refusal::NO_ROOM, 0));
    let answer = make(&input, &mut out);
    assert_eq!((answer.number, answer.count), (0, limit as u64 - 3));
    assert_eq!(out[59..65], octets("1E 84 7F FF FF BB"));
    assert_eq!(out[limit - 5..], [0, 0x55, 0, 0, 0]);
    assert_eq!(input.make(&mut out), Ok(limit - 3));
    // One sample more is too many, whatever the buffer.
    input.sequences += 1;
    input.samples.push(0x66);
    out[..1000].fill(0);
    let answer = make(&input, &mut out);
    assert_eq!((answer.number, answer.count), (Refusal::NO_ROOM, 0));
    assert!(out[..1000].iter().all(|octet| *octet == 0));
    assert_eq!(input.make(&mut out).unwrap_err().number, 23);
}

fn longer_frames_are_not_made(limit: usize) {
    let mut out = [0xA5; 100];
    for samples in [limit, (1 << 32) - 1, (1 << 32) - 3] {
        let input = one_octet_samples(samples, 0);
        assert_eq!(make(&input, &mut out).number, Refusal::NO_ROOM);
        assert_eq!(input.make(&mut out).unwrap_err().number, 23);
    }
    // Sequences of two octets; the samples are more than 32 bits count.
    let mut input = one_octet_samples((1 << 32) + 2, 0);
    input.numbers[3] = 2;
    for (sequences, number) in [((1 << 31) + 1, 23), (1, 25), (1 << 31, 25)] {
        input.sequences = sequences;
        assert_eq!(make(&input, &mut out).number, number);
        assert_eq!(input.make(&mut out).unwrap_err().number, number as u8);
    }
    assert_eq!(out, [0xA5; 100]);
}
