//! Compares the proved library with the second program on generated files and inputs of the maker, and on
//! small files.

use compare::{all_same, damage, Case, Joined};
use second::{generator, inputs, papers};
use std::env;
use std::process::ExitCode;
use std::time::Instant;

const USAGE: &str = "\
usage: compare [FILES [SEED]]        files made from the seeds from SEED on
       compare make [INPUTS [SEED]]  inputs of the maker made from them, and a tenth as many files of made frames
       compare small                 the small files, each prefix and some other damage";

fn main() -> ExitCode {
    let words: Vec<String> = env::args().skip(1).collect();
    let words: Vec<&str> = words.iter().map(String::as_str).collect();
    let started = Instant::now();
    let result = match words[..] {
        ["small"] => {
            let files = small();
            same(0, files.len() as u64, |number| {
                files[number as usize].clone()
            })
        }
        ["make", ref numbers @ ..] => match parsed(numbers, 20_000) {
            Some((inputs, seed)) => {
                same(seed, inputs, inputs::input).and_then(|()| same(seed, inputs / 10, Joined::of))
            }
            None => return usage(),
        },
        ref numbers => match parsed(numbers, 100_000) {
            Some((files, seed)) => same(seed, files, generator::file),
            None => return usage(),
        },
    };
    match result {
        Ok(()) => {
            println!("{:.1} s", started.elapsed().as_secs_f64());
            ExitCode::SUCCESS
        }
        Err(failure) => {
            println!("{failure}");
            ExitCode::FAILURE
        }
    }
}

fn usage() -> ExitCode {
    eprintln!("{USAGE}");
    ExitCode::from(2)
}

/// How many cases, and the first seed.
fn parsed(words: &[&str], default: u64) -> Option<(u64, u64)> {
    let numbers: Result<Vec<u64>, _> = words.iter().map(|word| word.parse()).collect();
    match numbers.ok()?[..] {
        [] => Some((default, 0)),
        [cases] => Some((cases, 0)),
        [cases, seed] => Some((cases, seed)),
        _ => None,
    }
}

/// Compares on all cases; the error says on which the two differ.
fn same<C: Case + Send>(
    first: u64,
    cases: u64,
    make: impl Fn(u64) -> C + Sync,
) -> Result<(), String> {
    println!("{} {first} to {}", C::NAME, first + cases.saturating_sub(1));
    let tally = all_same(first, cases, make).map_err(|failure| failure.to_string())?;
    println!("no difference on {tally}");
    Ok(())
}

/// The small files with every prefix and every 97th of the other pieces of damage.
fn small() -> Vec<Vec<u8>> {
    let mut files = Vec::new();
    for file in papers::SMALL.map(papers::octets) {
        files.extend(damage::prefixes(&file));
        files.extend(damage::flips(&file).step_by(97));
        files.extend(damage::stretches(&file).into_iter().step_by(97));
    }
    files
}
