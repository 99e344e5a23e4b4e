//! What the tests share.
#![allow(dead_code)] // no single test uses all of it

use second::reader::{frames, Attributes, Refusal};
use second::writer;
use std::collections::BTreeSet;

/// A refusal as an answer.
pub fn refused<T>(number: u8, place: u64) -> Result<T, Refusal> {
    Err(Refusal { number, place })
}

/// The canonical file, in a buffer of its length.
pub fn canonical(file: &[u8]) -> Vec<u8> {
    let mut buffer = vec![0; writer::canonical_length(file).unwrap()];
    assert_eq!(writer::canonical(file, &mut buffer), Ok(buffer.len()));
    buffer
}

/// The offset in the waveform of sample `number` of a channel, and one past its last octet, by document
/// 01's formula; channels are block length and width.
pub fn extent(channels: &[(u64, u64)], channel: usize, number: u64) -> (u64, u64) {
    let octets = |channels: &[(u64, u64)]| channels.iter().map(|(b, w)| b * w).sum::<u64>();
    let (block, width) = channels[channel];
    let offset =
        number / block * octets(channels) + octets(&channels[..channel]) + number % block * width;
    (offset, offset + width)
}

/// How many samples of a channel are there in a waveform of so many octets, counted one by one.
pub fn counted(channels: &[(u64, u64)], channel: usize, sequences: u64, octets: u64) -> u64 {
    let declared = sequences * channels[channel].0;
    let mut number = 0;
    while number < declared && extent(channels, channel, number).1 <= octets {
        number += 1;
    }
    number
}

/// The numbers around the last sample there and the last one declared, and some far ones.
pub fn edges(there: u64, declared: u64) -> BTreeSet<u64> {
    let around = |number: u64| [number.saturating_sub(1), number, number + 1];
    let mut numbers = BTreeSet::from([0, there / 2, declared / 2, u32::MAX.into(), u64::MAX]);
    numbers.extend(around(there).into_iter().chain(around(declared)));
    numbers
}

/// Whether every declared sample of the file is there.
pub fn all_there(file: &[u8]) -> bool {
    let mut all = true;
    let visited = frames(file, |_, channels| {
        all &= channels
            .iter()
            .all(|series| series.there() == series.samples());
    });
    visited.unwrap();
    all
}

/// The frames of a recording: of each channel its attributes, which also have the frame's, and the bits
/// of the samples there.
pub type Recording = Vec<Vec<(Attributes, Vec<u64>)>>;

/// The recording of an accepted file.
pub fn recording(file: &[u8]) -> Recording {
    let mut recording = Vec::new();
    let visited = frames(file, |_, channels| {
        let channels = channels.iter().map(|series| {
            let mut bits = vec![0; series.there() as usize];
            if series.samples() > 0 {
                assert_eq!(series.read(0, &mut bits), Ok(bits.len()));
            }
            (series.attributes(), bits)
        });
        recording.push(channels.collect());
    });
    assert_eq!(visited, Ok(recording.len() as u32));
    recording
}
