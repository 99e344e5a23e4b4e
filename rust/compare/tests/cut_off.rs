//! Recordings that were cut off: waveforms that end after each octet, with others behind them.

use compare::{all_same, Tally};
use second::papers::octets;

/// Four channels with blocks of 2, 1, 1 and 3 samples of 2, 1, 8 and 4 octets: 25 octets a sequence.
const CHANNELS: &str = "05 01 04 3F 00 03 04 01 02 3F 01 03 0A 01 05 3F 02 03 0A 01 08 \
    3F 03 06 04 01 03 0A 01 06";
const SEQUENCE: usize = 25;

/// Null bits of the last channel, some of which a sample would have that is filled up with zeros.
const NULLS: [&str; 6] = [
    "00",
    "04 07 07 07 07",
    "04 07 07 00 00",
    "04 00 00 07 07",
    "04 00 00 00 00",
    "04 07 07 07 1E",
];

/// Sequences that are declared: as many as the longest waveform has, one more, and as many as there may be.
const SEQUENCES: [&str; 3] = ["03", "04", "FF FF FF FF"];

const ORDERS: [&str; 2] = ["00", "01"];

/// A waveform of this length, and behind it two frames: one with the same settings, and one whose sequences go
/// by its length. Where as many are declared as there may be, both have a start pointer, since a continued one
/// would be out of its range.
fn file(length: usize, order: &str, null: &str, sequences: &str) -> Vec<u8> {
    let start = match sequences {
        "FF FF FF FF" => "07 01 FE",
        _ => "",
    };
    let (group, number) = (1 + null.split(' ').count(), sequences.split(' ').count());
    let mut file = octets(&format!(
        "01 01 {order} {CHANNELS} 3F 03 {group:02X} 12 {null} 06 {number:02X} {sequences} 1E {length:02X}"
    ));
    file.resize(file.len() + length, 7);
    let second = "1E 09 07 07 07 07 07 07 07 07 07";
    file.extend(octets(&format!(
        "{start} {second} {start} 06 00 1E 02 07 07"
    )));
    file
}

/// Compares on the files of every order, null and number of sequences, with waveforms of each length.
fn same_on(lengths: usize) -> Tally {
    let kinds = ORDERS.len() * NULLS.len() * SEQUENCES.len();
    let make = |number: u64| {
        let (length, kind) = (number as usize / kinds, number as usize % kinds);
        let (order, kind) = (ORDERS[kind % 2], kind / 2);
        let (null, sequences) = (NULLS[kind % NULLS.len()], SEQUENCES[kind / NULLS.len()]);
        file(length, order, null, sequences)
    };
    let files = (lengths * kinds) as u64;
    all_same(0, files, make).unwrap_or_else(|failure| panic!("{failure}"))
}

#[test]
fn waveforms_that_end_after_each_octet() {
    let tally = same_on(3 * SEQUENCE + 5);
    println!("no difference on {tally}");
    // The second frame of each is cut off.
    assert_eq!(tally.cut_off, tally.cases());
}
