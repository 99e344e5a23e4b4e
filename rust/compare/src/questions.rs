//! The questions on one file, and what the proved library has to answer by the second program.

use crate::run::{Case, Outcome};
use mfer::ffi::{self, Checked, Described, Filled, Sampled, Seen, Stepped, Walk};
use second::inputs::in_file_order;
use second::maker::{number, Numbers, Pair};
use second::reader::{self, Attributes, Met, Refusal, Series, Value};
use second::shrink::{hex, shrink};
use second::writer;
use std::collections::BTreeSet;
use std::fmt::Debug;
use std::ops::Range;

/// What buffers hold before a question.
pub(crate) const OCTET: u8 = 0xA5;
const PATTERN: u64 = 0xA5A5_A5A5_A5A5_A5A5;

/// What stands in a file before the frames that are made.
pub(crate) const BEFORE_FRAMES: [u8; 3] = [0x01, 0x01, 0x00];

/// The most samples that are read in one go.
const BULK: u64 = 5_000;

/// The first difference between the two programs on this file, if there is one.
pub fn difference(file: &[u8]) -> Option<String> {
    ask(file).err()
}

impl Case for Vec<u8> {
    const NAME: &'static str = "files";

    fn exact(&mut self) {
        self.shrink_to_fit();
    }

    fn difference(&self) -> Option<String> {
        difference(self)
    }

    fn outcome(&self) -> Outcome {
        let mut cut_off = false;
        let checked = reader::frames(self, |_, channels| {
            cut_off |= channels
                .iter()
                .any(|series| series.there() < series.samples());
        });
        match checked {
            Ok(0) => Outcome::WithoutFrames,
            Ok(_) if cut_off => Outcome::CutOff,
            Ok(_) => Outcome::WithFrames,
            Err(refusal) => Outcome::Refused(refusal.number),
        }
    }

    fn shrunk(&self, mut differs: impl FnMut(&Self) -> bool) -> Self {
        shrink(self, |file| differs(&file.to_vec()))
    }

    fn shown(&self) -> String {
        format!("{} octets: {}", self.len(), hex(self))
    }
}

/// Goes on while the two agree; the error says on what they do not.
pub(crate) type Agreed = Result<(), String>;

pub(crate) fn same<T: PartialEq + Debug>(
    question: impl FnOnce() -> String,
    proved: T,
    second: T,
) -> Agreed {
    match proved == second {
        true => Ok(()),
        false => Err(format!(
            "{}\n  proved {proved:?}\n  second {second:?}",
            question()
        )),
    }
}

/// Asks every question on the file.
pub(crate) fn ask(file: &[u8]) -> Agreed {
    let checked = reader::check(file);
    same(
        || "check".into(),
        ffi::check(file),
        expected_check(&checked),
    )?;
    ask_canonical(file, checked.unwrap_or(0))?;
    ask_walk(file, &checked)?;
    let Ok(frames) = checked else {
        ask_channel(file, 0, 0)?;
        return ask_channel(file, u32::MAX, u32::MAX);
    };
    for frame in numbers(frames.into()) {
        let frame = frame as u32;
        let channels = reader::attributes(file, frame, 0).map_or(0, |read| read.channels);
        for channel in numbers(channels.into()) {
            ask_channel(file, frame, channel as u32)?;
        }
    }
    Ok(())
}

/// Some numbers below `count`, the ends among them, then some that are not below it.
fn numbers(count: u64) -> Vec<u64> {
    let mut numbers = vec![0, 1, count / 2, count.saturating_sub(1)];
    numbers.extend([count, count + 1, u32::MAX.into()]);
    numbers.sort();
    numbers.dedup();
    numbers
}

/// Attributes, the number of samples there, and samples of one channel.
fn ask_channel(file: &[u8], frame: u32, channel: u32) -> Agreed {
    let read = reader::attributes(file, frame, channel);
    same(
        || format!("attributes of frame {frame}, channel {channel}"),
        ffi::attributes(file, frame, channel),
        expected_attributes(&read),
    )?;
    let there = reader::there(file, frame, channel);
    same(
        || format!("samples there of frame {frame}, channel {channel}"),
        ffi::samples_there(file, frame, channel),
        expected_there(&there),
    )?;
    let (Ok(read), Ok(there)) = (read, there) else {
        ask_sample(file, frame, channel, 0)?;
        ask_sample(file, frame, channel, u64::MAX)?;
        ask_samples(file, frame, channel, 0, 0)?;
        ask_samples(file, frame, channel, u64::MAX, 2)?;
        ask_values(file, frame, channel, 0, [0, 0])?;
        return ask_values(file, frame, channel, u64::MAX, [2, 3]);
    };
    let block = u64::from(read.block);
    let count = block * u64::from(read.sequences);
    let mut asked = numbers(count);
    asked.extend([block - 1, block, 1 << 32, u64::MAX]);
    asked.extend([there.saturating_sub(1), there, there + 1]);
    for number in asked {
        ask_sample(file, frame, channel, number)?;
    }
    let bulks = [
        (0, count.min(BULK)),
        (0, 0),
        (1, 3),
        (block, count.min(BULK) + 3),
        (count / 2, block.min(BULK)),
        (there.saturating_sub(1), 3),
        (there, 2),
        (there, 0),
        (there + 1, 2),
        (count.saturating_sub(1), 2),
        (count, 2),
        (u64::MAX, 1),
    ];
    // Buffers of values as long as each other, the first longer, the second longer.
    let longer = [[0, 0], [2, 0], [0, 1]].into_iter().cycle();
    for ((first, room), longer) in bulks.into_iter().zip(longer) {
        let room = room as usize;
        ask_samples(file, frame, channel, first, room)?;
        ask_values(file, frame, channel, first, longer.map(|more| room + more))?;
    }
    Ok(())
}

fn ask_sample(file: &[u8], frame: u32, channel: u32, number: u64) -> Agreed {
    let sampled = reader::sample(file, frame, channel, number);
    let mut bits = [0];
    if let Ok((_, value)) = sampled {
        let count = reader::samples(file, frame, channel, number, &mut bits);
        let there = usize::from(value != Value::NoData);
        same(|| "the second program's bits".into(), count, Ok(there))?;
    }
    same(
        || format!("sample {number} of frame {frame}, channel {channel}"),
        ffi::sample(file, frame, channel, number),
        expected_sample(&sampled, bits[0]),
    )
}

fn ask_samples(file: &[u8], frame: u32, channel: u32, first: u64, room: usize) -> Agreed {
    let (mut proved, mut second) = (vec![PATTERN; room], vec![PATTERN; room]);
    let answer = ffi::samples(file, frame, channel, first, &mut proved);
    let expected = reader::samples(file, frame, channel, first, &mut second);
    let question =
        || format!("samples from {first}, room for {room}, of frame {frame}, channel {channel}");
    same(question, answer, expected_count(&expected))?;
    same(question, proved, second)
}

/// Values in buffers of these lengths.
fn ask_values(file: &[u8], frame: u32, channel: u32, first: u64, rooms: [usize; 2]) -> Agreed {
    let question =
        || format!("values from {first}, room for {rooms:?}, of frame {frame}, channel {channel}");
    same_values(
        question,
        rooms,
        |kinds, wholes| ffi::values(file, frame, channel, first, kinds, wholes),
        |values| reader::values(file, frame, channel, first, values),
    )
}

/// Compares kinds and whole numbers in buffers of these lengths; the shorter one decides how many.
fn same_values(
    question: impl Fn() -> String,
    rooms: [usize; 2],
    proved: impl FnOnce(&mut [u8], &mut [i64]) -> Filled,
    second: impl FnOnce(&mut [Value]) -> Result<usize, Refusal>,
) -> Agreed {
    let before = (vec![OCTET; rooms[0]], vec![PATTERN as i64; rooms[1]]);
    let (mut kinds, mut wholes) = before.clone();
    let answer = proved(&mut kinds, &mut wholes);
    let mut values = vec![Value::Null; rooms[0].min(rooms[1])];
    let expected = second(&mut values);
    let (mut expected_kinds, mut expected_wholes) = before;
    for (number, value) in values.iter().take(expected.unwrap_or(0)).enumerate() {
        (expected_kinds[number], expected_wholes[number]) = told(value);
    }
    same(&question, answer, expected_count(&expected))?;
    same(&question, kinds, expected_kinds)?;
    same(&question, wholes, expected_wholes)
}

/// Every frame, channel and sample by a walk.
fn ask_walk(file: &[u8], checked: &Result<u32, Refusal>) -> Agreed {
    let mut walk = [PATTERN; ffi::WALK];
    let opened = ffi::walk_open(file, &mut walk);
    same(|| "walk opened".into(), opened, expected_check(checked))?;
    if checked.is_err() {
        let kept = walk == [PATTERN; ffi::WALK];
        return same(|| "words of a walk not opened".into(), kept, true);
    }
    ask_no_frame(file, &walk)?;
    let mut agreed = Ok(());
    let mut number = 0;
    let visited = reader::frames(file, |met, channels| {
        if agreed.is_ok() {
            agreed = ask_frame(file, &mut walk, number, met, channels);
            number += 1;
        }
    });
    agreed?;
    same(|| "the second program's frames".into(), Ok(number), visited)?;
    for _ in 0..2 {
        let end = || "walk behind the last frame".into();
        let no_frame = Stepped {
            number: Refusal::NO_FRAME.into(),
            start: 0,
            frame: [0; ffi::FRAME_NUMBERS],
            place: 0,
        };
        same(end, ffi::walk_next(file, &mut walk), no_frame)?;
        ask_no_frame(file, &walk)?;
    }
    Ok(())
}

/// A walk that is at no frame has no channel and no samples.
fn ask_no_frame(file: &[u8], walk: &Walk) -> Agreed {
    let no_frame = Refusal {
        number: Refusal::NO_FRAME,
        place: 0,
    };
    ask_no_channel(file, walk, 0, no_frame)?;
    ask_no_channel(file, walk, u32::MAX, no_frame)?;
    for room in [0, 2] {
        let question = || format!("all samples of no frame, room for {room}");
        same_frame(file, walk, room, question, |_| Err(no_frame))?;
    }
    Ok(())
}

fn ask_no_channel(file: &[u8], walk: &Walk, channel: u32, refusal: Refusal) -> Agreed {
    let question = || format!("channel {channel} by the walk");
    let expected = expected_channel(Err(refusal));
    same(question, ffi::walk_channel(walk, channel), expected)?;
    let there = ffi::walk_samples_there(walk, channel);
    same(question, there, expected_there(&Err(refusal)))?;
    let mut bits = [PATTERN];
    let answer = ffi::walk_samples(file, walk, channel, 0, &mut bits);
    same(question, answer, expected_count(&Err(refusal)))?;
    same(question, bits, [PATTERN])?;
    same_values(
        question,
        [2, 1],
        |kinds, wholes| ffi::walk_values(file, walk, channel, 0, kinds, wholes),
        |_| Err(refusal),
    )
}

/// The next frame of a walk, with all its channels and all samples at once.
fn ask_frame(file: &[u8], walk: &mut Walk, number: u32, met: Met, channels: &[Series]) -> Agreed {
    let stepped = ffi::walk_next(file, walk);
    let expected = Stepped {
        number: 0,
        start: met.start.into(),
        frame: [
            channels.len() as u64,
            met.sequences.into(),
            met.little.into(),
            met.place,
            met.length,
            met.sequence_octets,
        ],
        place: 0,
    };
    same(|| format!("frame {number} by the walk"), stepped, expected)?;
    for (channel, series) in (0..).zip(channels) {
        let question = || format!("frame {number}, channel {channel} by the walk");
        let seen = ffi::walk_channel(walk, channel);
        same(question, seen, expected_channel(Ok(series)))?;
        let there = ffi::walk_samples_there(walk, channel);
        same(question, there, expected_there(&Ok(series.there())))?;
        ask_series(file, walk, channel, series, question)?;
    }
    let count = channels.iter().map(Series::there).sum::<u64>() as usize;
    let rooms = [0, 1, count / 2, count.saturating_sub(1), count, count + 3];
    for room in BTreeSet::from(rooms) {
        let question = || format!("all samples of frame {number}, room for {room}");
        let all = |out: &mut [u64]| Ok(reader::all_samples(channels, out));
        same_frame(file, walk, room, question, all)?;
    }
    let no_channel = Refusal {
        number: Refusal::NO_CHANNEL,
        place: 0,
    };
    ask_no_channel(file, walk, channels.len() as u32, no_channel)?;
    ask_no_channel(file, walk, u32::MAX, no_channel)
}

/// Compares all samples of the frame that a walk is at, in a buffer of this length.
fn same_frame(
    file: &[u8],
    walk: &Walk,
    room: usize,
    question: impl Fn() -> String,
    second: impl FnOnce(&mut [u64]) -> Result<usize, Refusal>,
) -> Agreed {
    let (mut proved, mut expected) = (vec![PATTERN; room], vec![PATTERN; room]);
    let answer = ffi::walk_frame(file, walk, &mut proved);
    let filled = second(&mut expected);
    same(&question, answer, expected_count(&filled))?;
    same(&question, proved, expected)
}

/// All samples of a channel by the walk, as bits and as values: three, then as many as are read in one go, to
/// the last one there; then from samples that are not there.
fn ask_series(
    file: &[u8],
    walk: &Walk,
    channel: u32,
    series: &Series,
    question: impl Fn() -> String,
) -> Agreed {
    let ask = |first, room| ask_piece(file, walk, channel, series, first, room, &question);
    let (mut first, mut room) = (0, 3);
    while let Some(count @ 1..) = ask(first, room)? {
        first += count as u64;
        room = BULK as usize;
    }
    same(&question, first, series.there())?;
    let declared = series.samples();
    for first in [first, first + 1, declared / 2, declared.saturating_sub(1)] {
        ask(first, 0)?;
        ask(first, 2)?;
    }
    for first in [declared, u64::MAX] {
        same(&question, ask(first, 2)?, None)?;
    }
    Ok(())
}

/// Samples of a channel by the walk from `first` on, as bits and as values: how many, if they are not refused.
fn ask_piece(
    file: &[u8],
    walk: &Walk,
    channel: u32,
    series: &Series,
    first: u64,
    room: usize,
    question: impl Fn() -> String,
) -> Result<Option<usize>, String> {
    let (mut proved, mut second) = (vec![PATTERN; room], vec![PATTERN; room]);
    let answer = ffi::walk_samples(file, walk, channel, first, &mut proved);
    let expected = series.read(first, &mut second);
    let question = || format!("samples from {first}, {}", question());
    same(question, answer, expected_count(&expected))?;
    same(question, proved, second)?;
    same_values(
        || format!("values, {}", question()),
        [room, room + 1],
        |kinds, wholes| ffi::walk_values(file, walk, channel, first, kinds, wholes),
        |values| series.values(first, values),
    )?;
    Ok(expected.ok())
}

/// The canonical file's length, and the file in buffers that are too short, exact and longer.
fn ask_canonical(file: &[u8], frames: u32) -> Agreed {
    same(
        || "length of the canonical file".into(),
        ffi::canonical_length(file),
        expected_count(&writer::canonical_length(file)),
    )?;
    let length = match second_canonical(file) {
        Ok(canonical) => {
            let written = ffi::check(&canonical);
            let expected = expected_check(&Ok(frames));
            same(|| "check of the canonical file".into(), written, expected)?;
            rewrites_itself(&canonical)?;
            ask_recording(file, &canonical)?;
            canonical.len()
        }
        Err(_) => 70,
    };
    for room in [0, length.saturating_sub(1), length, length + 9] {
        let (mut proved, mut second) = (vec![OCTET; room], vec![OCTET; room]);
        let answer = ffi::canonical(file, &mut proved);
        let expected = writer::canonical(file, &mut second);
        let question = || format!("canonical, room for {room}");
        same(question, answer, expected_count(&expected))?;
        same(question, proved, second)?;
    }
    Ok(())
}

/// The canonical file of a canonical file.
pub(crate) fn rewrites_itself(canonical: &[u8]) -> Agreed {
    let mut again = vec![OCTET; canonical.len()];
    let answer = ffi::canonical(canonical, &mut again);
    let question = || "canonical of the canonical file".into();
    same(question, answer, expected_count(&Ok(canonical.len())))?;
    same(question, &again[..], canonical)
}

/// The canonical file has the recording of the file, frame by frame of two walks, and is made again of it.
fn ask_recording(file: &[u8], canonical: &[u8]) -> Agreed {
    let mut at = canonical.len().min(BEFORE_FRAMES.len());
    same(
        || "canonical, ahead of the frames".into(),
        &canonical[..at],
        &BEFORE_FRAMES[..at],
    )?;
    let (mut walk, mut written) = ([PATTERN; ffi::WALK], [PATTERN; ffi::WALK]);
    ffi::walk_open(file, &mut walk);
    ffi::walk_open(canonical, &mut written);
    while let Some((told, _)) = Told::next(file, &mut walk) {
        let question = || "a frame of the canonical file".into();
        let (again, waveform) = Told::next(canonical, &mut written).ok_or_else(question)?;
        same(question, &again, &told)?;
        ask_made_again(
            &told,
            &canonical[at..waveform.end],
            &canonical[waveform.clone()],
        )?;
        at = waveform.end;
    }
    let question = || "the last frame of the canonical file".into();
    same(question, at, canonical.len())?;
    let behind = ffi::walk_next(canonical, &mut written).number;
    same(question, behind, Refusal::NO_FRAME.into())
}

/// What a walk tells of a frame.
#[derive(PartialEq, Debug)]
struct Told {
    start: i64,
    sequences: u64,
    numbers: Vec<Numbers>,
    bits: Vec<Pair>,
    /// How many samples of each channel are there, and those of all channels.
    there: Vec<u64>,
    samples: Vec<u64>,
}

impl Told {
    /// The next frame of a walk, and where its waveform is.
    fn next(file: &[u8], walk: &mut Walk) -> Option<(Told, Range<usize>)> {
        let stepped = ffi::walk_next(file, walk);
        let [channels, sequences, _, place, length, _] = stepped.frame;
        let channels = 0..channels as u32;
        let seen = channels
            .clone()
            .map(|channel| ffi::walk_channel(walk, channel).described);
        let (numbers, bits) = seen.map(|seen| (seen.numbers, seen.bits)).unzip();
        let mut samples = vec![PATTERN; length as usize];
        let count = ffi::walk_frame(file, walk, &mut samples).count;
        samples.truncate(count as usize);
        let told = Told {
            start: stepped.start,
            sequences,
            numbers,
            bits,
            there: channels
                .map(|channel| ffi::walk_samples_there(walk, channel).count)
                .collect(),
            samples,
        };
        let waveform = place as usize..(place + length) as usize;
        (stepped.number == 0).then_some((told, waveform))
    }

    fn is_whole(&self) -> bool {
        let mut channels = self.numbers.iter().zip(&self.there);
        channels.all(|(numbers, there)| numbers[number::BLOCK] as u64 * self.sequences == *there)
    }
}

/// The frame of the canonical file is made of what is told of it, if all samples are there; else no frame is
/// made.
fn ask_made_again(told: &Told, frame: &[u8], waveform: &[u8]) -> Agreed {
    let mut out = vec![OCTET; frame.len()];
    let whole = told.is_whole();
    let samples = match whole {
        true => in_file_order(told.sequences, &told.numbers, &told.samples),
        false => waveform.to_vec(),
    };
    let answer = ffi::make_frame(
        told.start,
        told.sequences,
        told.numbers.len() as u64,
        told.numbers.as_flattened(),
        told.bits.as_flattened(),
        &samples,
        &mut out,
    );
    let question = || "a frame made again".into();
    match whole {
        true => {
            same(question, answer, expected_count(&Ok(frame.len())))?;
            same(question, &out[..], frame)
        }
        false => {
            let refusal = Refusal {
                number: Refusal::SAMPLES_LENGTH,
                place: 0,
            };
            same(question, answer, expected_count(&Err(refusal)))?;
            same(question, out, vec![OCTET; frame.len()])
        }
    }
}

/// The second program's canonical file, in a buffer of its length.
fn second_canonical(file: &[u8]) -> Result<Vec<u8>, Refusal> {
    let mut out = vec![0; writer::canonical_length(file)?];
    writer::canonical(file, &mut out)?;
    Ok(out)
}

pub(crate) fn expected_check(answer: &Result<u32, Refusal>) -> Checked {
    match *answer {
        Ok(frames) => Checked {
            number: 0,
            frames: frames.into(),
            place: 0,
        },
        Err(Refusal { number, place }) => Checked {
            number: number.into(),
            frames: 0,
            place,
        },
    }
}

pub(crate) fn expected_count(answer: &Result<usize, Refusal>) -> Filled {
    match *answer {
        Ok(count) => Filled {
            number: 0,
            count: count as u64,
            place: 0,
        },
        Err(Refusal { number, place }) => Filled {
            number: number.into(),
            count: 0,
            place,
        },
    }
}

pub(crate) fn expected_there(answer: &Result<u64, Refusal>) -> Filled {
    expected_count(&answer.map(|count| count as usize))
}

fn expected_attributes(answer: &Result<Attributes, Refusal>) -> Described {
    match answer {
        Ok(read) => {
            let (numbers, bits) = read.row();
            Described {
                number: 0,
                numbers,
                bits,
                place: 0,
            }
        }
        Err(Refusal { number, place }) => Described {
            number: (*number).into(),
            numbers: [0; ffi::NUMBERS],
            bits: [0; 2],
            place: *place,
        },
    }
}

fn expected_channel(answer: Result<&Series, Refusal>) -> Seen {
    Seen {
        described: expected_attributes(&answer.map(Series::attributes)),
        below: answer.map_or(0, Series::lower),
    }
}

/// The kind and the whole number of a value.
fn told(value: &Value) -> (u8, i64) {
    match *value {
        Value::Whole(whole) => (0, whole),
        Value::Status(_) => (1, 0),
        Value::Single(_) => (2, 0),
        Value::Double(_) => (3, 0),
        Value::NotNumber(_) => (4, 0),
        Value::Null => (5, 0),
        Value::NoData => (6, 0),
    }
}

fn expected_sample(answer: &Result<(u64, Value), Refusal>, bits: u64) -> Sampled {
    match *answer {
        Ok((place, value)) => {
            let (kind, whole) = told(&value);
            Sampled {
                number: 0,
                place,
                kind: kind.into(),
                whole,
                bits,
            }
        }
        Err(Refusal { number, place }) => Sampled {
            number: number.into(),
            place,
            kind: 0,
            whole: 0,
            bits: 0,
        },
    }
}
