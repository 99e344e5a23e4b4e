//! Generated files and inputs of the maker. MFER_FILES and MFER_INPUTS set how many, MFER_SEED from which
//! seed on.

use compare::{all_same, Case, Joined, Tally};
use second::generator::file;
use second::inputs::input;
use std::env;

fn setting(name: &str, default: u64) -> u64 {
    match env::var(name) {
        Ok(text) => text
            .parse()
            .unwrap_or_else(|_| panic!("{name} is no number: {text}")),
        Err(_) => default,
    }
}

/// Compares on so many cases from the first seed on.
fn same_on<C: Case + Send>(cases: u64, make: fn(u64) -> C) -> Tally {
    let seed = setting("MFER_SEED", 0);
    println!("seeds {seed} to {}", seed + cases.saturating_sub(1));
    let tally = all_same(seed, cases, make).unwrap_or_else(|failure| panic!("seed {failure}"));
    println!("no difference on {tally}");
    tally
}

#[test]
fn both_programs_answer_the_same() {
    let files = setting("MFER_FILES", 120_000);
    let tally = same_on(files, file);
    if files >= 100_000 {
        assert!(tally.with_frames > 20_000);
        assert!(tally.cut_off > 15_000);
        for (number, count) in tally.refused.iter().enumerate().take(14).skip(1) {
            assert!(*count > 500, "refusal {number} occurs {count} times");
        }
    }
    assert_eq!(tally.refused[14], 0, "14 is retired");
}

#[test]
fn both_programs_make_the_same() {
    let inputs = setting("MFER_INPUTS", 60_000);
    let tally = same_on(inputs, input);
    if inputs >= 20_000 {
        assert!(tally.made > inputs / 4);
        for (number, count) in tally.refused.iter().enumerate().skip(23) {
            assert!(
                *count > inputs / 20,
                "refusal {number} occurs {count} times"
            );
        }
    }
}

#[test]
fn made_files_read_back() {
    same_on(setting("MFER_INPUTS", 60_000) / 10, Joined::of);
}
