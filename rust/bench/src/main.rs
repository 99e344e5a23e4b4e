//! Holds the proved library to the second program, to `memcpy` and to a loop in C, in one run: times and
//! counted instructions.
//!
//! Two programs take turns, so that what slows the machine slows both. A ratio is the median over all
//! rounds of the proved library's time to the other's in the same round.
#![deny(unsafe_code)]

mod count;
mod files;
mod native;
mod race;

use count::Once;
use files::Order;
use mfer::ffi;
use race::{Against, Course};
use second::maker::make_frame;
use second::{reader, writer};
use std::env;
use std::fs;
use std::hint::black_box;
use std::process::ExitCode;

/// At most so many times the second program's time and instructions.
const SECOND: f64 = 1.25;
/// At most so many times `memcpy`'s time, by byte order.
const BIG_ENDIAN: f64 = 1.1;
const LITTLE_ENDIAN: f64 = 1.5;
/// An item costs at most so many times what one costs that is stepped over.
const STEPPED: f64 = 10.0;
/// A waveform costs at most so many nanoseconds a channel.
const NANOSECONDS: f64 = 10.0;
/// Many short frames, in canonical form or made, of one channel and of twelve: at most so many times the
/// second program's time and instructions. The goal is `SECOND`.
const SHORT_OF_ONE: f64 = 5.0;
const SHORT_OF_TWELVE: f64 = 2.0;
/// Values cost at most so many times a plain loop in C.
const LOOP: f64 = 2.0;

/// Builds a file, only where its row is run.
type Build = fn() -> Vec<u8>;

const USAGE: &str = "\
usage: bench [--rounds N] [--fresh] [--no-count] [--only WORDS]
  --rounds N  turns of each pair (default 41)
  --fresh     a new zeroed output buffer for every timing, instead of one that was written before
  --no-count  times alone; without it, instructions are counted where valgrind is there
  --only WORDS  rows alone whose names begin with them
or: bench --once ROW proved|other N
  N calls of one side of one row, as they are counted; the table's rows are numbered from 1";

fn main() -> ExitCode {
    let mut course = Course {
        rounds: 41,
        counted: true,
        ..Course::default()
    };
    let mut words = env::args().skip(1);
    while let Some(word) = words.next() {
        match word.as_str() {
            "--fresh" => course.fresh = true,
            "--no-count" => course.counted = false,
            "--rounds" => match words.next().and_then(|word| word.parse().ok()) {
                Some(rounds) if rounds > 0 => course.rounds = rounds,
                _ => return usage(),
            },
            "--only" => match words.next() {
                Some(words) => course.only = words,
                None => return usage(),
            },
            "--once" => match Once::of(&mut words) {
                Some(once) => course.once = Some(once),
                None => return usage(),
            },
            _ => return usage(),
        }
    }
    match course.once {
        Some(_) => run(&mut course),
        None => table(&mut course),
    }
    ExitCode::SUCCESS
}

fn usage() -> ExitCode {
    eprintln!("{USAGE}");
    ExitCode::from(2)
}

fn table(course: &mut Course) {
    let counts = match (course.counted, count::possible()) {
        (false, _) => "no",
        (true, false) => "no, valgrind is missing",
        (true, true) => "yes",
    };
    course.counted = counts == "yes";
    println!("{}", processor());
    println!("{}", race::HEAD);
    run(course);
    println!(
        "cleared buffers: {}",
        if course.fresh { "no" } else { "yes" }
    );
    println!("counted instructions: {counts}");
    println!(
        "bars met: {} of {}",
        course.bars - course.missed,
        course.bars
    );
}

/// The processor's name.
fn processor() -> String {
    let text = fs::read_to_string("/proc/cpuinfo").unwrap_or_default();
    let name = text.lines().find_map(|line| {
        let (key, name) = line.split_once(':')?;
        (key.trim() == "model name").then(|| name.trim())
    });
    name.unwrap_or("unknown processor").into()
}

fn run(course: &mut Course) {
    checks(course);
    hostile_checks(course);
    canonicals(course);
    short_canonicals(course);
    samples(course);
    walks(course);
    values(course);
    long_make(course);
    short_makes(course);
    cut_off(course);
    declared(course);
}

fn checks(course: &mut Course) {
    let files: [(_, Build); 6] = [
        ("check: one big frame, big-endian", || {
            files::one_frame(Order::Big, 0)
        }),
        ("check: one big frame, little-endian", || {
            files::one_frame(Order::Little, 0)
        }),
        ("check: 4,096 frames of 12 full groups", files::many_frames),
        ("check: 1,000,000 root items, stepped over", || {
            files::unknown_items(1_000_000)
        }),
        ("check: 1,000,000 root definitions", || {
            files::root_definitions(1_000_000)
        }),
        ("check: 1,000,000 items inside groups", || {
            files::group_items(1_000_000)
        }),
    ];
    for (what, build) in files {
        check(course, what, Some(SECOND), build);
    }
    // Ten times the items against ten times the smaller file.
    if let Some(row) = course.row("check: ten times the items", Against::Itself, Some(SECOND)) {
        let file = files::group_items(1_000_000);
        let tenth = files::group_items(100_000);
        course.without_buffers(
            row,
            || ffi::check(black_box(&file)),
            || {
                for _ in 0..10 {
                    black_box(ffi::check(black_box(&tenth)));
                }
            },
        );
    }
}

/// Checks of files that ask for much work with few octets.
fn hostile_checks(course: &mut Course) {
    let files: [(_, Build); 3] = [
        (
            "check: channel 255 and root 04 in turn",
            files::group_and_root,
        ),
        (
            "check: the same with all attributes",
            files::full_group_and_root,
        ),
        (
            "check: root 05 and channel 255 in turn",
            files::count_and_group,
        ),
    ];
    for (what, build) in files {
        check(course, what, None, build);
        if let Some(row) = course.row(what, Against::Stepped, Some(STEPPED)) {
            let file = build();
            let stepped = files::unknown_items(files::HOSTILE);
            course.without_buffers(
                row,
                || ffi::check(black_box(&file)),
                || ffi::check(black_box(&stepped)),
            );
        }
    }
    let what = "check: 4,096 frames of 256 set channels";
    check(course, what, None, files::wide_frames);
    if let Some(row) = course.row(what, Against::Nanosecond, Some(NANOSECONDS)) {
        let file = files::wide_frames();
        course.beside_nanoseconds(row, files::FRAMES * files::CHANNELS, || {
            ffi::check(black_box(&file))
        });
    }
}

/// The check of an accepted file beside the second program's.
fn check(course: &mut Course, what: &'static str, bar: Option<f64>, build: Build) {
    if let Some(row) = course.row(what, Against::Second, bar) {
        let file = build();
        assert_eq!(ffi::check(&file).number, 0, "{what}");
        course.without_buffers(
            row,
            || ffi::check(black_box(&file)),
            || reader::check(black_box(&file)),
        );
    }
}

fn canonicals(course: &mut Course) {
    for (what, order, data_type, bar) in [
        ("canonical: big-endian", Order::Big, 0, BIG_ENDIAN),
        (
            "canonical: little-endian, w=2",
            Order::Little,
            0,
            LITTLE_ENDIAN,
        ),
        (
            "canonical: little-endian, w=4",
            Order::Little,
            2,
            LITTLE_ENDIAN,
        ),
        (
            "canonical: little-endian, w=8",
            Order::Little,
            8,
            LITTLE_ENDIAN,
        ),
    ] {
        for (against, bar) in [(Against::Memcpy, bar), (Against::Second, SECOND)] {
            let Some(row) = course.row(what, against, Some(bar)) else {
                continue;
            };
            let file = files::one_frame(order, data_type);
            let waveform = &file[file.len() - files::WAVEFORM..];
            course.with_buffers(
                row,
                || vec![0; file.len() + 200],
                |out| assert_eq!(ffi::canonical(black_box(&file), out).number, 0),
                |out| match against {
                    Against::Memcpy => {
                        black_box(&mut out[..files::WAVEFORM]).copy_from_slice(black_box(waveform))
                    }
                    _ => assert!(writer::canonical(black_box(&file), out).is_ok()),
                },
            );
        }
    }
}

/// Canonical files of as many frames as there may be, of one sequence.
fn short_canonicals(course: &mut Course) {
    for (what, channels, bar) in [
        ("canonical: 4,096 frames of 1 channel", 1, SHORT_OF_ONE),
        (
            "canonical: 4,096 frames of 12 channels",
            12,
            SHORT_OF_TWELVE,
        ),
    ] {
        canonical(course, what, Some(bar), || files::set_once(channels, 1));
    }
}

fn samples(course: &mut Course) {
    let files: [(_, Build, u32); 4] = [
        (
            "bulk: the only channel, big-endian",
            || files::one_frame(Order::Big, 0),
            0,
        ),
        (
            "bulk: the only channel, little-endian",
            || files::one_frame(Order::Little, 0),
            0,
        ),
        (
            "bulk: one of 12 channels, blocks of 1",
            || files::twelve_channels(1),
            7,
        ),
        (
            "bulk: one of 12 channels, blocks of 500",
            || files::twelve_channels(500),
            7,
        ),
    ];
    for (what, build, channel) in files {
        bulk(course, what, Some(SECOND), (0, channel), build);
    }
    const SAMPLES: u64 = 1_000;
    let what = "one sample at a time, 1,000 of them";
    if let Some(row) = course.row(what, Against::Second, Some(SECOND)) {
        let file = files::twelve_channels(1);
        course.without_buffers(
            row,
            || {
                for number in 0..SAMPLES {
                    black_box(ffi::sample(black_box(&file), 0, 7, number));
                }
            },
            || {
                for number in 0..SAMPLES {
                    let _ = black_box(reader::sample(black_box(&file), 0, 7, number));
                }
            },
        );
    }
}

/// All samples of all channels of as many frames as there may be.
fn walks(course: &mut Course) {
    let files = [
        ("walk: 4,096 frames of 12 channels", 12, false),
        ("walk: 4,096 frames of 256 channels", files::CHANNELS, false),
        (
            "walk: the same after root definitions",
            files::CHANNELS,
            true,
        ),
    ];
    for (what, channels, after_root) in files {
        let Some(row) = course.row(what, Against::Second, Some(SECOND)) else {
            continue;
        };
        let sequences = files::sequences(channels);
        let file = match after_root {
            true => files::set_once_and_root(channels, sequences),
            false => files::set_once(channels, sequences),
        };
        let sum = parsed(&file, &mut vec![0; sequences]);
        course.with_buffers(
            row,
            || vec![0; sequences * channels as usize],
            |out| assert_eq!(native::walked(black_box(&file), out), sum),
            |out| assert_eq!(parsed(black_box(&file), out), sum),
        );
    }
}

/// The sum of all samples of an accepted file, by the second program.
fn parsed(file: &[u8], out: &mut [u64]) -> u64 {
    let mut sum = 0;
    let frames = reader::each_channel(file, out, |_, bits| {
        sum = native::summed(sum, bits);
    });
    assert!(frames.is_ok());
    sum
}

/// The values of eight channels, each sample of which lies between those of the others, beside a loop
/// that knows where they lie and what they are.
fn values(course: &mut Course) {
    let what = "values: 8 channels, blocks of 1";
    let Some(row) = course.row(what, Against::Loop, Some(LOOP)) else {
        return;
    };
    const CHANNELS: usize = 8;
    const COUNT: usize = files::WAVEFORM / (2 * CHANNELS);
    let file = files::eight_channels();
    let waveform = &file[file.len() - files::WAVEFORM..];
    let (mut kinds, mut wholes, mut widened) = (vec![1; COUNT], vec![0; COUNT], vec![0; COUNT]);
    ffi::values(&file, 0, 1, 0, &mut kinds, &mut wholes);
    native::widened(&waveform[2..], 2 * CHANNELS, &mut widened);
    assert!(wholes == widened && kinds.iter().all(|kind| *kind == 0));
    course.with_buffers(
        row,
        || (vec![0u8; COUNT], vec![0i64; COUNT]),
        |(kinds, wholes)| {
            for channel in 0..CHANNELS as u32 {
                let filled = ffi::values(black_box(&file), 0, channel, 0, kinds, wholes);
                assert_eq!(filled.count, COUNT as u64);
                black_box((&kinds, &wholes));
            }
        },
        |(_, wholes)| {
            for channel in 0..CHANNELS {
                native::widened(&black_box(waveform)[2 * channel..], 2 * CHANNELS, wholes);
                black_box(&wholes);
            }
        },
    );
}

/// One long frame made beside a copy of its samples.
fn long_make(course: &mut Course) {
    let what = "make: one frame of 16,000,000 octets";
    let Some(row) = course.row(what, Against::Memcpy, Some(BIG_ENDIAN)) else {
        return;
    };
    let file = files::one_frame(Order::Big, 0);
    let (numbers, bits) = rows(&file, 1);
    let samples = &file[file.len() - files::WAVEFORM..];
    let sequences = files::WAVEFORM as u64 / 2;
    let make = |out: &mut [u8]| {
        let samples = black_box(samples);
        let made = ffi::make_frame(0, sequences, 1, &numbers, &bits, samples, out);
        assert_eq!(made.number, 0);
        made.count as usize
    };
    let mut out = vec![0; file.len() + 200];
    let count = make(&mut out);
    assert!(out[..count] == frames_of_canonical(&file));
    drop(out);
    course.with_buffers(
        row,
        || vec![0; file.len() + 200],
        |out| _ = make(out),
        |out| black_box(&mut out[..files::WAVEFORM]).copy_from_slice(black_box(samples)),
    );
}

/// As many frames made as there may be in a file, of one sequence.
fn short_makes(course: &mut Course) {
    const CHANNELS: u32 = 12;
    let what = "make: 4,096 frames of 12 channels";
    let Some(row) = course.row(what, Against::Second, Some(SHORT_OF_TWELVE)) else {
        return;
    };
    let file = files::set_once(CHANNELS, 1);
    let (numbers, bits) = rows(&file, CHANNELS);
    let samples = &file[file.len() - 2 * CHANNELS as usize..];
    let handed = || black_box((&numbers[..], &bits[..], samples));
    let proved = |start, out: &mut [u8]| {
        let (numbers, bits, samples) = handed();
        let made = ffi::make_frame(start, 1, CHANNELS.into(), numbers, bits, samples, out);
        assert_eq!(made.number, 0);
        made.count as usize
    };
    let other = |start, out: &mut [u8]| {
        let (numbers, bits, samples) = handed();
        let made = make_frame(start, 1, CHANNELS.into(), numbers, bits, samples, out);
        made.expect("good settings")
    };
    let frames = frames_of_canonical(&file);
    assert!(each_frame(&mut vec![0; frames.len()], proved) == frames);
    course.with_buffers(
        row,
        || vec![0; frames.len()],
        |out| _ = each_frame(out, proved),
        |out| _ = each_frame(out, other),
    );
}

/// A recording that was cut off in the middle of its last frame.
fn cut_off(course: &mut Course) {
    for (what, order) in [
        ("canonical: cut off, big-endian", Order::Big),
        ("canonical: cut off, little-endian", Order::Little),
    ] {
        let build = || files::cut_off(order);
        canonical(course, what, Some(SECOND), build);
    }
    let what = "bulk: one of 12 channels, cut off";
    bulk(course, what, Some(SECOND), (1, 7), || {
        files::cut_off(Order::Big)
    });
}

/// A frame of four octets in which far more samples are declared than there are: beside the second program, and
/// beside the same frame with one sequence declared.
fn declared(course: &mut Course) {
    let checked = "check: 4 octets, 2^40 samples declared";
    let written = "canonical: 4 octets, 2^40 samples declared";
    let read = "bulk: 4 octets, 2^40 samples declared";
    let declared = || files::declared(u32::MAX);
    check(course, checked, None, declared);
    canonical(course, written, None, declared);
    bulk(course, read, None, (0, 1), declared);
    let (many, one) = (files::declared(u32::MAX), files::declared(1));
    if let Some(row) = course.row(checked, Against::Itself, Some(SECOND)) {
        course.without_buffers(
            row,
            || ffi::check(black_box(&many)),
            || ffi::check(black_box(&one)),
        );
    }
    if let Some(row) = course.row(written, Against::Itself, Some(SECOND)) {
        let length = |file| ffi::canonical_length(file).count as usize;
        let write =
            |file, out: &mut [u8]| assert_eq!(ffi::canonical(black_box(file), out).number, 0);
        course.with_buffers(
            row,
            || vec![0; length(&many)],
            |out| write(&many, out),
            |out| write(&one, out),
        );
    }
    if let Some(row) = course.row(read, Against::Itself, Some(SECOND)) {
        let read = |file, out: &mut [u64]| {
            assert_eq!(ffi::samples(black_box(file), 0, 1, 0, out).count, 1);
        };
        course.with_buffers(
            row,
            || [0; 2],
            |out| read(&many, out),
            |out| read(&one, out),
        );
    }
}

/// The canonical file of an accepted one beside the second program's.
fn canonical(
    course: &mut Course,
    what: &'static str,
    bar: Option<f64>,
    build: impl Fn() -> Vec<u8>,
) {
    let Some(row) = course.row(what, Against::Second, bar) else {
        return;
    };
    let file = build();
    let written = mfer::File::new(&file).canonical_vec();
    let length = written.expect("an accepted file").len();
    course.with_buffers(
        row,
        || vec![0; length],
        |out| {
            let filled = ffi::canonical(black_box(&file), out);
            assert_eq!((filled.number, filled.count), (0, length as u64));
        },
        |out| assert_eq!(writer::canonical(black_box(&file), out), Ok(length)),
    );
}

/// The samples there of a channel in a frame beside the second program's, with room for one more.
fn bulk(
    course: &mut Course,
    what: &'static str,
    bar: Option<f64>,
    (frame, channel): (u32, u32),
    build: impl Fn() -> Vec<u8>,
) {
    let Some(row) = course.row(what, Against::Second, bar) else {
        return;
    };
    let file = build();
    let there = reader::there(&file, frame, channel).expect("an accepted file");
    course.with_buffers(
        row,
        || vec![0; there as usize + 1],
        |out| {
            let filled = ffi::samples(black_box(&file), frame, channel, 0, out);
            assert_eq!(filled.count, there);
        },
        |out| {
            let filled = reader::samples(black_box(&file), frame, channel, 0, out);
            assert_eq!(filled, Ok(there as usize));
        },
    );
}

/// The canonical file of an accepted one, but for its byte order.
fn frames_of_canonical(file: &[u8]) -> Vec<u8> {
    let written = mfer::File::new(file).canonical_vec();
    written.expect("an accepted file").split_off(3)
}

/// The numbers and bits of the channels in a file's first frame, as they are told.
fn rows(file: &[u8], channels: u32) -> (Vec<i64>, Vec<u64>) {
    let described = (0..channels).map(|channel| ffi::attributes(file, 0, channel));
    let (numbers, bits): (Vec<_>, Vec<_>) = described
        .map(|described| (described.numbers, described.bits))
        .unzip();
    (numbers.concat(), bits.concat())
}

/// Fills `out` with as many frames as there may be; `make` is told where one starts and answers its
/// length.
fn each_frame(out: &mut [u8], make: impl Fn(i64, &mut [u8]) -> usize) -> &[u8] {
    let mut at = 0;
    for start in 0..files::FRAMES.into() {
        at += make(start, &mut out[at..]);
    }
    assert_eq!(at, out.len());
    out
}
