//! Many cases on all processors.

use std::fmt;
use std::sync::atomic::{AtomicU64, Ordering};
use std::sync::Mutex;
use std::thread;
use std::time::{Duration, Instant};

/// Cases taken by a thread in one go.
const BATCH: u64 = 64;

/// A case that is long to ask about is shrunk as far as this time allows.
const SHRINKING: Duration = Duration::from_secs(30);

/// What both programs are asked about.
pub trait Case: Sized {
    /// What several of them are called.
    const NAME: &'static str;

    /// Leaves nothing past the end of what is handed over, so that reading there shows under valgrind.
    fn exact(&mut self);

    /// The first difference between the two programs, if there is one.
    fn difference(&self) -> Option<String>;

    /// What came of it.
    fn outcome(&self) -> Outcome;

    /// A smaller one that still differs.
    fn shrunk(&self, differs: impl FnMut(&Self) -> bool) -> Self;

    /// All of it, for a person to read.
    fn shown(&self) -> String;
}

/// What came of a case.
pub enum Outcome {
    /// A file was accepted that has no frames.
    WithoutFrames,
    /// A file was accepted that has frames and all their samples.
    WithFrames,
    /// A file was accepted whose samples are not all there.
    CutOff,
    /// A frame was made, or a file of frames.
    Made,
    /// It was refused with this number.
    Refused(u8),
}

/// How many cases came out each way.
#[derive(Clone, Default, Debug)]
pub struct Tally {
    name: &'static str,
    pub without_frames: u64,
    pub with_frames: u64,
    pub cut_off: u64,
    pub made: u64,
    /// Refused cases by number.
    pub refused: [u64; 26],
}

impl Tally {
    fn of<C: Case>() -> Tally {
        Tally {
            name: C::NAME,
            ..Tally::default()
        }
    }

    fn count(&mut self, outcome: Outcome) {
        *match outcome {
            Outcome::WithoutFrames => &mut self.without_frames,
            Outcome::WithFrames => &mut self.with_frames,
            Outcome::CutOff => &mut self.cut_off,
            Outcome::Made => &mut self.made,
            Outcome::Refused(number) => &mut self.refused[usize::from(number)],
        } += 1;
    }

    fn add(&mut self, other: &Tally) {
        self.without_frames += other.without_frames;
        self.with_frames += other.with_frames;
        self.cut_off += other.cut_off;
        self.made += other.made;
        for (count, more) in self.refused.iter_mut().zip(other.refused) {
            *count += more;
        }
    }

    /// All cases.
    pub fn cases(&self) -> u64 {
        let refused: u64 = self.refused.iter().sum();
        self.without_frames + self.with_frames + self.cut_off + self.made + refused
    }
}

impl fmt::Display for Tally {
    fn fmt(&self, f: &mut fmt::Formatter<'_>) -> fmt::Result {
        let counts = [
            (self.with_frames, "with frames"),
            (self.cut_off, "cut off"),
            (self.without_frames, "without frames"),
            (self.made, "made"),
        ];
        let refused = (0..).zip(self.refused);
        let counts: Vec<String> = counts
            .into_iter()
            .map(|(count, what)| (count, what.to_string()))
            .chain(refused.map(|(number, count)| (count, format!("refused with {number}"))))
            .filter(|(count, _)| *count > 0)
            .map(|(count, what)| format!("{count} {what}"))
            .collect();
        write!(f, "{} {}: {}", self.cases(), self.name, counts.join(", "))
    }
}

/// A case on which the two programs differ.
pub struct Failure<C> {
    /// The number it was made from.
    pub number: u64,
    /// The case, shrunk.
    pub case: C,
    /// On what they differ there.
    pub difference: String,
}

impl<C: Case> fmt::Display for Failure<C> {
    fn fmt(&self, f: &mut fmt::Formatter<'_>) -> fmt::Result {
        writeln!(f, "number {} differs: {}", self.number, self.difference)?;
        write!(f, "  shrunk to {}", self.case.shown())
    }
}

/// Compares on the cases that `make` gives for the numbers from `first` on.
pub fn all_same<C: Case + Send>(
    first: u64,
    cases: u64,
    make: impl Fn(u64) -> C + Sync,
) -> Result<Tally, Failure<C>> {
    let end = first + cases;
    let next = AtomicU64::new(first);
    let result = Mutex::new(Ok(Tally::of::<C>()));
    let work = || {
        let mut tally = Tally::default();
        loop {
            let start = next.fetch_add(BATCH, Ordering::Relaxed);
            for number in start..(start + BATCH).min(end) {
                let mut case = make(number);
                case.exact();
                if case.difference().is_some() {
                    // The others find nothing left to do.
                    next.store(end, Ordering::Relaxed);
                    let mut result = result.lock().unwrap();
                    if result.is_ok() {
                        *result = Err(shrunk(number, &case));
                    }
                    return;
                }
                tally.count(case.outcome());
            }
            if start >= end {
                break;
            }
        }
        if let Ok(sum) = &mut *result.lock().unwrap() {
            sum.add(&tally);
        }
    };
    let threads = thread::available_parallelism().map_or(1, |threads| threads.get());
    thread::scope(|scope| {
        for _ in 0..threads {
            scope.spawn(work);
        }
    });
    let result = result.into_inner().unwrap();
    if let Ok(tally) = &result {
        assert_eq!(tally.cases(), cases, "every case is asked about");
    }
    result
}

fn shrunk<C: Case>(number: u64, case: &C) -> Failure<C> {
    let end = Instant::now() + SHRINKING;
    let case = case.shrunk(|case| Instant::now() < end && case.difference().is_some());
    let difference = case.difference().unwrap_or_default();
    Failure {
        number,
        case,
        difference,
    }
}
