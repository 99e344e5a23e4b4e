//! Small files, damaged in every way there is: no answer differs and nothing crashes.

use compare::{all_same, damage};
use second::papers::{annex_a, octets, SMALL};

fn same_on_all(files: Vec<Vec<u8>>, least: usize) {
    assert!(files.len() >= least, "only {} files", files.len());
    let make = |number| files[number as usize].clone();
    let tally = all_same(0, files.len() as u64, make).unwrap_or_else(|failure| panic!("{failure}"));
    println!("no difference on {tally}");
}

#[test]
fn each_octet_set_to_each_value() {
    let files = SMALL.map(octets);
    let damaged = files.iter().flat_map(|file| damage::flips(file)).collect();
    same_on_all(damaged, 80_000);
}

#[test]
fn each_prefix() {
    let files = SMALL.map(octets);
    let damaged = files.iter().flat_map(|file| damage::prefixes(file));
    same_on_all(damaged.collect(), 300);
}

#[test]
fn each_length_stretched() {
    let files = SMALL.map(octets);
    let damaged = files.iter().flat_map(|file| damage::stretches(file));
    same_on_all(damaged.collect(), 20_000);
}

/// Annex A's file, since it has the longest waveform: every prefix of its header, and the last ones.
#[test]
fn each_prefix_of_a_header() {
    let file = annex_a();
    let header = file.len() - 160_000;
    let mut damaged: Vec<Vec<u8>> = (0..=header + 3).map(|end| file[..end].to_vec()).collect();
    damaged.extend((file.len() - 2..=file.len()).map(|end| file[..end].to_vec()));
    same_on_all(damaged, 160);
}
