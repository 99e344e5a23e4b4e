//! Two programs that take turns.

use crate::count::{self, Once};
use crate::native::processor_time;
use std::fmt;
use std::hint::black_box;
use std::time::Duration;

/// A timing is of so many calls that it is at least so long.
const LEAST: Duration = Duration::from_millis(2);
/// Counts need fewer calls than timings.
const FEWER: u32 = 64;

/// How all rows are run, and how many bars were met.
#[derive(Default)]
pub struct Course {
    pub rounds: usize,
    /// A new zeroed buffer for every timing, instead of one that was written before.
    pub fresh: bool,
    /// Instructions are counted too.
    pub counted: bool,
    /// One side of one row instead of the table.
    pub once: Option<Once>,
    /// Only rows whose names begin so.
    pub only: String,
    pub rows: u32,
    pub bars: u32,
    pub missed: u32,
}

impl Course {
    /// The next row; none where another one is asked for, or one of the rows that are only timed.
    pub fn row(&mut self, what: &'static str, against: Against, bar: Option<f64>) -> Option<Row> {
        self.rows += 1;
        let row = Row {
            number: self.rows,
            what,
            against,
            bar,
        };
        match &self.once {
            Some(once) if once.row != row.number || !against.is_counted() => None,
            None if !what.starts_with(&self.only) => None,
            _ => Some(row),
        }
    }

    pub fn without_buffers<P, O>(
        &mut self,
        row: Row,
        mut proved: impl FnMut() -> P,
        mut other: impl FnMut() -> O,
    ) {
        if let Some(once) = &self.once {
            return once.run(proved, other);
        }
        let calls = calls(&mut proved);
        let times = self.race(
            calls,
            || time(calls, &mut proved),
            || time(calls, &mut other),
        );
        self.show(row, times);
    }

    /// The two get buffers from `make`, which is not timed.
    pub fn with_buffers<B>(
        &mut self,
        row: Row,
        make: impl Fn() -> B,
        proved: impl Fn(&mut B),
        other: impl Fn(&mut B),
    ) {
        if self.fresh {
            let timed = |run: &dyn Fn(&mut B)| {
                let mut buffer = make();
                time(1, &mut || run(&mut buffer))
            };
            let times = self.race(1, || timed(&proved), || timed(&other));
            return self.show(row, times);
        }
        // One buffer for both, so that neither has the better place in memory.
        let buffer = std::cell::RefCell::new(make());
        let proved = || proved(&mut buffer.borrow_mut());
        let other = || other(&mut buffer.borrow_mut());
        self.without_buffers(row, proved, other);
    }

    /// The other takes one nanosecond for each of so many.
    pub fn beside_nanoseconds<P>(&mut self, row: Row, count: u32, mut proved: impl FnMut() -> P) {
        let calls = calls(&mut proved);
        let other = Duration::from_nanos(u64::from(calls) * u64::from(count));
        let times = self.race(calls, || time(calls, &mut proved), || other);
        self.show(row, times);
    }

    fn race(
        &self,
        calls: u32,
        mut proved: impl FnMut() -> Duration,
        mut other: impl FnMut() -> Duration,
    ) -> Times {
        let (mut first, mut second, mut ratios) = (Vec::new(), Vec::new(), Vec::new());
        for round in 0..self.rounds {
            // Each goes first every other time.
            let (a, b) = match round % 2 {
                0 => {
                    let a = proved();
                    (a, other())
                }
                _ => {
                    let b = other();
                    (proved(), b)
                }
            };
            first.push(a.as_secs_f64());
            second.push(b.as_secs_f64());
            ratios.push(a.as_secs_f64() / b.as_secs_f64());
        }
        Times {
            calls,
            best: least(&first) / least(&second),
            proved: median(first) / f64::from(calls),
            other: median(second) / f64::from(calls),
            ratio: median(ratios),
        }
    }

    /// Counts what can be counted of a row that was timed, and writes its line.
    fn show(&mut self, row: Row, times: Times) {
        let mut instructions = None;
        if self.counted && row.against.is_counted() {
            instructions = count::ratio(row.number, (times.calls / FEWER).max(1));
            if instructions.is_none() {
                eprintln!("not counted: {}", row.what);
            }
        }
        let line = Line {
            row,
            times,
            instructions,
        };
        println!("{line}");
        self.bars += u32::from(line.row.bar.is_some());
        self.missed += u32::from(line.missed());
    }
}

/// So many calls as make a timing long enough.
fn calls<T>(run: &mut impl FnMut() -> T) -> u32 {
    let mut calls = 1;
    while time(calls, run) < LEAST {
        calls *= 2;
    }
    calls
}

/// The processor's time, which does not run while another program does.
fn time<T>(calls: u32, run: &mut impl FnMut() -> T) -> Duration {
    let started = processor_time();
    for _ in 0..calls {
        black_box(run());
    }
    processor_time() - started
}

fn median(mut numbers: Vec<f64>) -> f64 {
    numbers.sort_by(f64::total_cmp);
    numbers[numbers.len() / 2]
}

fn least(numbers: &[f64]) -> f64 {
    numbers.iter().copied().fold(f64::INFINITY, f64::min)
}

/// What a pair took.
struct Times {
    calls: u32,
    /// Medians, in seconds a call.
    proved: f64,
    other: f64,
    /// The median of the rounds' ratios.
    ratio: f64,
    /// The ratio of the shortest times, which what else the machine does touches least.
    best: f64,
}

/// What the proved library is held to.
#[derive(Clone, Copy, PartialEq)]
pub enum Against {
    Second,
    Memcpy,
    Itself,
    /// As many items that are stepped over.
    Stepped,
    Nanosecond,
    /// A plain loop in C.
    Loop,
}

impl Against {
    fn name(self) -> &'static str {
        match self {
            Against::Second => "second",
            Against::Memcpy => "memcpy",
            Against::Itself => "itself",
            Against::Stepped => "stepped",
            Against::Nanosecond => "1 ns",
            Against::Loop => "loop",
        }
    }

    /// The wide moves of `memcpy` are not like other instructions.
    fn is_counted(self) -> bool {
        !matches!(self, Against::Memcpy | Against::Nanosecond)
    }
}

/// What is run, and the most that both ratios may be.
pub struct Row {
    number: u32,
    what: &'static str,
    against: Against,
    bar: Option<f64>,
}

/// A line of the table.
struct Line {
    row: Row,
    times: Times,
    instructions: Option<f64>,
}

impl Line {
    fn missed(&self) -> bool {
        let most = self.times.ratio.max(self.instructions.unwrap_or(0.0));
        self.row.bar.is_some_and(|bar| most > bar)
    }
}

pub const HEAD: &str =
    "what                                         proved us     other us  against  ratio    bar  of best  instructions";

impl fmt::Display for Line {
    fn fmt(&self, f: &mut fmt::Formatter<'_>) -> fmt::Result {
        let shown =
            |number: Option<f64>| number.map_or("-".into(), |number| format!("{number:.2}"));
        write!(
            f,
            "{:<42} {:>11.2}  {:>11.2}  {:<7} {:>6.2}  {:>5}  {:>7.2}  {:>12}{}",
            self.row.what,
            self.times.proved * 1e6,
            self.times.other * 1e6,
            self.row.against.name(),
            self.times.ratio,
            shown(self.row.bar),
            self.times.best,
            shown(self.instructions),
            if self.missed() { "  missed" } else { "" },
        )
    }
}
