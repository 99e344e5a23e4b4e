//! Instructions of both sides of a row, counted by callgrind.
//!
//! It runs this program again for one side of one row, on the same input, with calls and without.
//! The difference is what the calls took: starting and building the input fall out.

use std::env;
use std::hint::black_box;
use std::process::{Command, Stdio};

const PROGRAM: &str = "valgrind";
/// Callgrind counts each octet that one string instruction moves, so `memcpy` does without them.
const MOVES: (&str, &str) = ("GLIBC_TUNABLES", "glibc.cpu.hwcaps=-ERMS");

/// A side of a row.
#[derive(Clone, Copy)]
enum Side {
    Proved,
    Other,
}

impl Side {
    fn word(self) -> &'static str {
        match self {
            Side::Proved => "proved",
            Side::Other => "other",
        }
    }
}

/// So many calls of one side of one row, and nothing else.
pub struct Once {
    pub row: u32,
    side: Side,
    calls: u32,
}

impl Once {
    /// From what follows `--once`: the row, the side and the calls.
    pub fn of(mut words: impl Iterator<Item = String>) -> Option<Once> {
        let row = words.next()?.parse().ok()?;
        let word = words.next()?;
        let side = [Side::Proved, Side::Other]
            .into_iter()
            .find(|side| side.word() == word)?;
        let calls = words.next()?.parse().ok()?;
        Some(Once { row, side, calls })
    }

    pub fn run<P, O>(&self, mut proved: impl FnMut() -> P, mut other: impl FnMut() -> O) {
        for _ in 0..self.calls {
            match self.side {
                Side::Proved => drop(black_box(proved())),
                Side::Other => drop(black_box(other())),
            }
        }
    }

    /// The instructions of a whole run; none where it fails.
    fn instructions(&self) -> Option<u64> {
        let counted = Command::new(PROGRAM)
            .args(["--tool=callgrind", "--callgrind-out-file=/dev/null"])
            .arg(env::current_exe().ok()?)
            .args(["--once", &self.row.to_string()])
            .args([self.side.word(), &self.calls.to_string()])
            .env(MOVES.0, MOVES.1)
            .output()
            .ok()?;
        if !counted.status.success() {
            return None;
        }
        String::from_utf8(counted.stderr)
            .ok()?
            .lines()
            .find_map(|line| line.split_once("Collected :")?.1.trim().parse().ok())
    }
}

/// Whether there is a program that counts.
pub fn possible() -> bool {
    Command::new(PROGRAM)
        .arg("--version")
        .stdout(Stdio::null())
        .status()
        .is_ok_and(|status| status.success())
}

/// The proved library's instructions to the other's, over so many calls of each. Up to the calls the
/// two sides run alike.
pub fn ratio(row: u32, calls: u32) -> Option<f64> {
    let run = |side, calls| Once { row, side, calls }.instructions();
    let (none, proved, other) = std::thread::scope(|scope| {
        let proved = scope.spawn(|| run(Side::Proved, calls));
        let other = scope.spawn(|| run(Side::Other, calls));
        let none = run(Side::Proved, 0);
        (none, proved.join().ok(), other.join().ok())
    });
    let (none, proved, other) = (none?, proved??, other??);
    Some(proved.checked_sub(none)? as f64 / other.checked_sub(none)? as f64)
}
