//! The samples that frames are made of, as octets or as numbers.

use crate::failure::Failure;
use crate::input::{Input, MOST};
use crate::lacking;
use crate::lines::{quoted, Lines};
use crate::progress::Progress;
use crate::values;
use mfer::{ChannelSettings, FrameSettings};
use std::ffi::OsStr;

/// Samples in file order, for one frame after another.
pub enum Source<'a> {
    /// Big-endian octets.
    Raw(Input<'a>),
    /// One number a line.
    Numbers(Lines<'a>),
}

impl<'a> Source<'a> {
    pub fn open(name: &'a OsStr, raw: bool) -> Result<Source<'a>, Failure> {
        Ok(match raw {
            true => Source::Raw(Input::open(name)?),
            false => Source::Numbers(Lines::open(name)?),
        })
    }

    /// The octets of samples for the frame of this number: as many as it asks for, fewer where there
    /// are no more. The last frame gets all that are there.
    pub fn take(
        &mut self,
        number: usize,
        settings: &FrameSettings,
        last: bool,
    ) -> Result<Vec<u8>, Failure> {
        let sequences = match last {
            true => u64::MAX,
            false => settings.sequences,
        };
        match self {
            Source::Numbers(lines) => numbers(lines, number, settings, sequences),
            Source::Raw(input) => {
                let octets = sequences.saturating_mul(settings.sequence_octets());
                input.take(octets.min(MOST))
            }
        }
    }

    /// Where what was taken ends, in words that go before others.
    pub fn place(&self) -> String {
        match self {
            Source::Numbers(lines) if lines.number() > 0 => format!("line {}: ", lines.number()),
            _ => String::new(),
        }
    }

    /// Whether nothing is left.
    pub fn is_empty(&mut self) -> Result<bool, Failure> {
        match self {
            Source::Numbers(lines) => Ok(lines.next()?.is_none()),
            Source::Raw(input) => input.is_empty(),
        }
    }
}

/// The octets of numbers for that many sequences of a frame, or for as many as there are.
fn numbers(
    lines: &mut Lines,
    number: usize,
    settings: &FrameSettings,
    sequences: u64,
) -> Result<Vec<u8>, Failure> {
    let mut octets = Vec::new();
    let mut progress = Progress::new("reading samples, line");
    for _ in 0..sequences {
        for (channel, settings) in settings.channels.iter().enumerate() {
            let width = usize::from(settings.data_type.width());
            for _ in 0..settings.block {
                let Some(bits) = sample(lines, number, channel, settings)? else {
                    return Ok(octets);
                };
                octets.extend(&bits.to_be_bytes()[8 - width..]);
            }
        }
        progress.step(lines.number(), 0);
        if octets.len() as u64 >= MOST {
            break;
        }
    }
    Ok(octets)
}

/// The bits of the sample in the next line, if there is one.
fn sample(
    lines: &mut Lines,
    frame: usize,
    channel: usize,
    settings: &ChannelSettings,
) -> Result<Option<u64>, Failure> {
    let Some(line) = lines.next()? else {
        return Ok(None);
    };
    let text = line.trim_start();
    let ChannelSettings {
        data_type, null, ..
    } = *settings;
    if let Some(bits) = values::bits(text, data_type, null) {
        return Ok(Some(bits));
    }
    let expected = values::expected(data_type, null);
    let found = quoted(text);
    let is_octet = |c: char| c.is_control() || c == char::REPLACEMENT_CHARACTER;
    let hint = match text {
        _ if text.contains(is_octet) => "; octets are read with --raw",
        _ if lacking::is_said(text) => {
            "; a frame is made of all its samples: take fewer sequences, and leave this line out"
        }
        _ => "",
    };
    let words =
        format!("frame {frame}, channel {channel}: expected {expected}, found {found}{hint}");
    Err(lines.wrong(&words))
}
