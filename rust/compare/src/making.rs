//! The frames that both makers are asked for, and what has to be read of them.

use crate::questions::{
    ask, expected_check, expected_count, expected_there, rewrites_itself, same,
};
use crate::questions::{Agreed, BEFORE_FRAMES, OCTET};
use crate::run::{Case, Outcome};
use mfer::ffi::{self, Described, Filled, Seen, Stepped, Walk};
use second::inputs::{good_input, Input};
use second::maker::number;
use second::shrink::shrink_input;

/// Asks the proved library for the frame.
pub fn make(input: &Input, out: &mut [u8]) -> Filled {
    ffi::make_frame(
        input.start,
        input.sequences,
        input.channels,
        &input.numbers,
        &input.bits,
        &input.samples,
        out,
    )
}

/// Asks both for the frame in a buffer of the input's room.
fn ask_make(input: &Input) -> Agreed {
    let (mut proved, mut second) = (vec![OCTET; input.room], vec![OCTET; input.room]);
    let answer = make(input, &mut proved);
    let expected = input.make(&mut second);
    let question = || "a frame made".into();
    same(question, answer, expected_count(&expected))?;
    same(question, proved, second)
}

impl Case for Input {
    const NAME: &'static str = "inputs of the maker";

    fn exact(&mut self) {
        self.numbers.shrink_to_fit();
        self.bits.shrink_to_fit();
        self.samples.shrink_to_fit();
    }

    fn difference(&self) -> Option<String> {
        ask_make(self).err()
    }

    fn outcome(&self) -> Outcome {
        match self.make(&mut vec![OCTET; self.room]) {
            Ok(_) => Outcome::Made,
            Err(refusal) => Outcome::Refused(refusal.number),
        }
    }

    fn shrunk(&self, differs: impl FnMut(&Self) -> bool) -> Self {
        shrink_input(self, differs)
    }

    fn shown(&self) -> String {
        self.to_string()
    }
}

/// The frames of a file, each as the input that it is made of.
#[derive(Clone)]
pub struct Joined(pub Vec<Input>);

impl Joined {
    /// A few frames.
    pub fn of(seed: u64) -> Joined {
        const MOST: u64 = 5;
        let frames = 1 + seed % MOST;
        Joined(
            (0..frames)
                .map(|frame| good_input(MOST * seed + frame))
                .collect(),
        )
    }

    /// The file: what stands before frames, and the frames as the proved library makes them; the error
    /// says that it refuses one.
    pub fn file(&self) -> Result<Vec<u8>, String> {
        let mut file = BEFORE_FRAMES.to_vec();
        for input in &self.0 {
            let mut out = vec![OCTET; input.room];
            let answer = make(input, &mut out);
            let question = || "a frame made".into();
            same(question, (answer.number, answer.place), (0, 0))?;
            file.extend(&out[..answer.count as usize]);
        }
        Ok(file)
    }

    /// The file is accepted, is its own canonical file, and a walk over it tells what went in.
    fn ask(&self) -> Agreed {
        let file = self.file()?;
        let frames = self.0.len() as u32;
        let mut walk = [0; ffi::WALK];
        let opened = ffi::walk_open(&file, &mut walk);
        same(
            || "check of made frames".into(),
            opened,
            expected_check(&Ok(frames)),
        )?;
        rewrites_itself(&file)?;
        let mut end = BEFORE_FRAMES.len();
        for (frame, input) in self.0.iter().enumerate() {
            end += make(input, &mut vec![OCTET; input.room]).count as usize;
            ask_read_back(&file, &mut walk, input, end)
                .map_err(|difference| format!("made frame {frame}: {difference}"))?;
        }
        ask(&file)
    }
}

/// The next frame of a walk, which ends at `end`, has the settings and samples of the input.
fn ask_read_back(file: &[u8], walk: &mut Walk, input: &Input, end: usize) -> Agreed {
    let stepped = ffi::walk_next(file, walk);
    let mut below = 0;
    for channel in 0..input.channels as u32 {
        let (numbers, bits) = input.told(channel as usize);
        let described = Described {
            number: 0,
            numbers,
            bits,
            place: 0,
        };
        let question = || format!("channel {channel}");
        let seen = ffi::walk_channel(walk, channel);
        same(question, seen, Seen { described, below })?;
        let there = ffi::walk_samples_there(walk, channel);
        let all = input.sequences * numbers[number::BLOCK] as u64;
        same(question, there, expected_there(&Ok(all)))?;
        below += (numbers[number::BLOCK] * numbers[number::WIDTH]) as u64;
    }
    let length = input.samples.len();
    let place = (end - length) as u64;
    let expected = Stepped {
        number: 0,
        start: input.start,
        frame: [
            input.channels,
            input.sequences,
            0,
            place,
            length as u64,
            below,
        ],
        place: 0,
    };
    same(|| "the frame".into(), stepped, expected)?;
    let bits = input.sample_bits();
    let mut read = vec![0; bits.len()];
    let answer = ffi::walk_frame(file, walk, &mut read);
    let question = || "all samples".into();
    same(question, answer, expected_count(&Ok(bits.len())))?;
    same(question, read, bits)
}

impl Case for Joined {
    const NAME: &'static str = "files of made frames";

    fn exact(&mut self) {
        self.0.iter_mut().for_each(Input::exact);
    }

    fn difference(&self) -> Option<String> {
        self.ask().err()
    }

    fn outcome(&self) -> Outcome {
        Outcome::Made
    }

    fn shrunk(&self, mut differs: impl FnMut(&Self) -> bool) -> Self {
        let mut best = self.clone();
        for at in (0..best.0.len()).rev() {
            let mut fewer = best.clone();
            fewer.0.remove(at);
            if differs(&fewer) {
                best = fewer;
            }
        }
        for at in 0..best.0.len() {
            let mut changed = best.clone();
            // An input that is refused makes no file.
            best.0[at] = shrink_input(&best.0[at], |input| {
                changed.0[at] = input.clone();
                matches!(input.outcome(), Outcome::Made) && differs(&changed)
            });
        }
        best
    }

    fn shown(&self) -> String {
        let inputs: Vec<String> = self.0.iter().map(Case::shown).collect();
        inputs.join("\n  ")
    }
}
