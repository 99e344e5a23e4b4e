//! `mfer make`: a file from settings and samples.

use crate::failure::Failure;
use crate::input::shown;
use crate::output;
use crate::settings::{self, Described};
use crate::source::Source;
use mfer::{RecordError, Recorder, Refusal};
use std::ffi::OsStr;
use std::io::{self, Write};

/// The file is made whole before an octet of it is written.
pub fn make(
    settings: &OsStr,
    samples: &OsStr,
    raw: bool,
    output: &OsStr,
    out: &mut impl Write,
) -> Result<(), Failure> {
    let frames = settings::read(settings)?;
    let mut source = Source::open(samples, raw)?;
    if frames.is_empty() {
        say_no_frames(settings, &mut source)?;
    }
    let mut recorder = Recorder::new(Vec::new());
    let last = frames.len().saturating_sub(1);
    for (number, mut described) in frames.into_iter().enumerate() {
        let octets = source.take(number, &described.settings, number == last)?;
        if described.by_length {
            described.settings.sequences =
                octets.len() as u64 / described.settings.sequence_octets();
        }
        let frame = format!("frame {number}");
        let made = recorder.frame(&described.settings, &octets);
        made.map_err(|error| match error {
            RecordError::Refused(refusal) if refusal.number == Refusal::SAMPLES_LENGTH => {
                let place = format!("{}{frame}", source.place());
                let words = format!("{refusal}: {}", lengths(&described, octets.len()));
                Failure::refused_in(samples, &place, words)
            }
            error => Failure::refused_in(settings, &frame, error),
        })?;
    }
    output::write(output, &recorder.into_inner(), out)
}

/// How many octets of samples a frame wants, and how many there are.
fn lengths(described: &Described, found: usize) -> String {
    let octets = described.settings.sequence_octets();
    match described.by_length {
        true => format!("expected a multiple of {octets} octets, found {found}"),
        false => {
            let sequences = described.settings.sequences;
            // A file whose samples are not all there can be taken apart, but is not made again so.
            let hint = match u128::from(sequences) * u128::from(octets) > found as u128 {
                true => "; a frame is made of all its samples: take fewer sequences",
                false => "",
            };
            format!("expected {sequences} times {octets} octets, found {found}{hint}")
        }
    }
}

/// Without a frame there is no octet. That is said, and there may be no samples.
fn say_no_frames(settings: &OsStr, source: &mut Source) -> Result<(), Failure> {
    let words = format!("{}: expected 'frame', found none", shown(settings));
    if !source.is_empty()? {
        return Err(Failure::InputOutput(words));
    }
    let _ = writeln!(io::stderr(), "mfer: {words}: the file has no octets");
    Ok(())
}
