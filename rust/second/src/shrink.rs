//! Makes a failing file, or a failing input of the maker, smaller, so that what fails can be seen.

use crate::inputs::Input;
use crate::maker::{number, Numbers, BITS, NUMBERS};

/// Tries at most; each asks `fails` once.
const TRIES: usize = 50_000;

/// A smaller file that still fails: runs of octets are left out, then octets are lowered, until
/// neither helps or the tries are spent. A file that does not fail comes back as it is.
pub fn shrink(file: &[u8], mut fails: impl FnMut(&[u8]) -> bool) -> Vec<u8> {
    let mut search = Search {
        best: file.to_vec(),
        fails: |file: &Vec<u8>| fails(file),
        tries: TRIES,
    };
    if search.keeps(file.to_vec()) {
        while search.delete() | search.lower() {}
    }
    search.best
}

/// A smaller input that still fails: channels, sequences and samples are left out and numbers brought
/// nearer to their defaults, as [`shrink`] does with octets.
pub fn shrink_input(input: &Input, fails: impl FnMut(&Input) -> bool) -> Input {
    let mut search = Search {
        best: input.clone(),
        fails,
        tries: TRIES,
    };
    if search.keeps(input.clone()) {
        while search.channels() | search.sequences() | search.settings() | search.octets() {}
    }
    search.best
}

/// The octets in hexadecimal, as the papers print them.
pub fn hex(octets: &[u8]) -> String {
    let octets: Vec<String> = octets.iter().map(|octet| format!("{octet:02X}")).collect();
    octets.join(" ")
}

struct Search<T, F> {
    best: T,
    fails: F,
    tries: usize,
}

impl<T, F: FnMut(&T) -> bool> Search<T, F> {
    /// Takes the candidate if it still fails.
    fn keeps(&mut self, candidate: T) -> bool {
        if self.tries == 0 {
            return false;
        }
        self.tries -= 1;
        let kept = (self.fails)(&candidate);
        if kept {
            self.best = candidate;
        }
        kept
    }

    /// Leaves out runs with `delete`, the long ones first and from the end, since what comes late is
    /// free to go.
    fn delete_runs(
        &mut self,
        length: impl Fn(&T) -> usize,
        delete: impl Fn(&mut Self, usize, usize) -> bool,
    ) -> bool {
        let mut smaller = false;
        let mut run = length(&self.best).next_power_of_two();
        while run > 0 {
            let mut at = length(&self.best);
            while at > 0 {
                at = at.saturating_sub(run);
                smaller |= delete(self, at, run);
                at = at.min(length(&self.best));
            }
            run /= 2;
        }
        smaller
    }
}

/// Files.
impl<F: FnMut(&Vec<u8>) -> bool> Search<Vec<u8>, F> {
    fn delete(&mut self) -> bool {
        self.delete_runs(Vec::len, Self::delete_run)
    }

    /// Leaves out a run; a length just ahead of it is made to fit if that is what it takes.
    fn delete_run(&mut self, at: usize, run: usize) -> bool {
        let end = (at + run).min(self.best.len());
        if at == end {
            return false;
        }
        let mut candidate = self.best.clone();
        candidate.drain(at..end);
        self.keeps(candidate.clone()) || self.delete_with_length(candidate, at, end - at)
    }

    /// The same with one of the nearest octets before the run lowered by the run's length.
    fn delete_with_length(&mut self, candidate: Vec<u8>, at: usize, run: usize) -> bool {
        (at.saturating_sub(6)..at).rev().any(|length| {
            let mut candidate = candidate.clone();
            match usize::from(candidate[length]).checked_sub(run) {
                Some(lower) => {
                    candidate[length] = lower as u8;
                    self.keeps(candidate)
                }
                None => false,
            }
        })
    }

    /// Sets octets to zero, else to half, else one lower.
    fn lower(&mut self) -> bool {
        let mut smaller = false;
        for at in 0..self.best.len() {
            let octet = self.best[at];
            let mut lower = vec![0, octet / 2, octet.saturating_sub(1)];
            lower.retain(|lower| *lower < octet);
            lower.dedup();
            smaller |= lower.into_iter().any(|lower| {
                let mut candidate = self.best.clone();
                candidate[at] = lower;
                self.keeps(candidate)
            });
        }
        smaller
    }
}

/// Inputs of the maker.
impl<F: FnMut(&Input) -> bool> Search<Input, F> {
    /// Takes the input with a change, as it is or with samples and room that go with it.
    fn changes(&mut self, change: impl FnOnce(&mut Input)) -> bool {
        let mut candidate = self.best.clone();
        change(&mut candidate);
        if candidate == self.best {
            return false;
        }
        let fitted = fitted(&self.best, &candidate)
            .filter(|fitted| *fitted != candidate && *fitted != self.best);
        self.keeps(candidate) || fitted.is_some_and(|fitted| self.keeps(fitted))
    }

    /// Takes a number nearer to its aim, by the longest step that does; `put` puts it in its place.
    fn brings_nearer(&mut self, number: i128, aim: i128, put: impl Fn(&mut Input, i128)) -> bool {
        let mut step = number - aim;
        while step != 0 {
            if self.changes(|input| put(input, number - step)) {
                return true;
            }
            step /= 2;
        }
        false
    }

    fn channels(&mut self) -> bool {
        self.delete_runs(
            |input| input.numbers.len().div_ceil(NUMBERS),
            |search, at, run| search.changes(|input| delete_channels(input, at, run)),
        )
    }

    fn sequences(&mut self) -> bool {
        let sequences = self.best.sequences.into();
        self.brings_nearer(sequences, 0, |input, to| input.sequences = to as u64)
    }

    fn settings(&mut self) -> bool {
        let Input {
            start,
            channels,
            room,
            ..
        } = self.best;
        let mut smaller = self.brings_nearer(start.into(), 0, |input, to| input.start = to as i64)
            | self.brings_nearer(channels.into(), 1, |input, to| input.channels = to as u64)
            | self.brings_nearer(room as i128, 0, |input, to| input.room = to as usize);
        for at in 0..self.best.numbers.len() {
            let aim = AIMS[at % NUMBERS].into();
            let number = self.best.numbers[at].into();
            smaller |= self.brings_nearer(number, aim, |input, to| input.numbers[at] = to as i64);
        }
        for at in 0..self.best.bits.len() {
            let bits = self.best.bits[at].into();
            smaller |= self.brings_nearer(bits, 0, |input, to| input.bits[at] = to as u64);
        }
        smaller
    }

    fn octets(&mut self) -> bool {
        self.changes(|input| input.samples.fill(0))
            | self.delete_runs(
                |input| input.samples.len(),
                |search, at, run| {
                    let end = (at + run).min(search.best.samples.len());
                    search.changes(|input| drop(input.samples.drain(at..end)))
                },
            )
    }
}

/// What the numbers of a row are brought nearer to.
const AIMS: Numbers = {
    let mut aims = [0; NUMBERS];
    aims[number::BLOCK] = 1;
    aims[number::INTERVAL_MANTISSA] = 1;
    aims[number::RESOLUTION_MANTISSA] = 1;
    aims
};

/// Leaves out the rows and bits of channels, and counts them off.
fn delete_channels(input: &mut Input, at: usize, run: usize) {
    let rows = input.numbers.len();
    let range = |each: usize, count: usize| (each * at).min(count)..(each * (at + run)).min(count);
    input.numbers.drain(range(NUMBERS, rows));
    input.bits.drain(range(BITS, input.bits.len()));
    let deleted = (rows - input.numbers.len()).div_ceil(NUMBERS);
    input.channels = input.channels.saturating_sub(deleted as u64);
}

/// Where a frame was made before, or would be with enough room: the candidate with as many samples as it
/// needs, and with the room longer or shorter than the frame by as much as it was.
fn fitted(before: &Input, candidate: &Input) -> Option<Input> {
    let length = before.frame().ok()?.len();
    let octets = candidate.sample_octets()?;
    let samples = before.samples.get(..usize::try_from(octets).ok()?)?;
    let mut fitted = Input {
        samples: samples.to_vec(),
        ..candidate.clone()
    };
    fitted.room = (fitted.frame().ok()?.len() + before.room).saturating_sub(length);
    Some(fitted)
}
