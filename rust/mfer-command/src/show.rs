//! `mfer show`: frames and channels with their settings, as tables or as the text that `mfer make`
//! takes.

use crate::failure::Failure;
use crate::input::{chosen, read, shown};
use crate::lacking;
use crate::progress::Progress;
use crate::settings::{self, SETTINGS};
use crate::table;
use mfer::{Attributes, Channel, ChannelSettings, File, Frame, Refusal};
use std::ffi::OsStr;
use std::io::Write;

const HEAD: [&str; 9] = [
    "channel",
    "class",
    "lead",
    "type",
    "samples",
    "interval",
    "resolution",
    "offset",
    "null",
];

type Row = [String; HEAD.len()];

/// A table for each frame, or for the one of the number `only`.
pub fn show(name: &OsStr, only: Option<u32>, out: &mut impl Write) -> Result<(), Failure> {
    let octets = read(name)?;
    let refused = |refusal| Failure::refused(name, refusal);
    let (count, frames) = chosen(File::new(&octets), only).map_err(refused)?;
    let length = counted(octets.len() as u64, "octet");
    let shown_count = counted(count, "frame");
    writeln!(out, "{}: {length}, {shown_count}", shown(name)).map_err(Failure::output)?;
    let mut progress = Progress::beside_output("showing frames");
    // The last frame whose table was written, and its channels.
    let mut last: Option<(u32, Vec<Read>)> = None;
    for frame in frames {
        let frame = frame.map_err(refused)?;
        progress.step(frame.number().into(), count);
        let channels = channels(&frame).map_err(refused)?;
        let head = heading(&frame);
        match &last {
            Some((number, written)) if *written == channels => {
                writeln!(out, "{head}; channels as in frame {number}").map_err(Failure::output)?;
            }
            _ => {
                writeln!(out, "{head}").map_err(Failure::output)?;
                let rows: Vec<Row> = (0..).zip(&channels).map(row).collect();
                table::write(out, HEAD, &rows).map_err(Failure::output)?;
                last = Some((frame.number(), channels));
            }
        }
    }
    Ok(())
}

/// The same as the text that `mfer make` takes.
pub fn show_settings(name: &OsStr, only: Option<u32>, out: &mut impl Write) -> Result<(), Failure> {
    let octets = read(name)?;
    let refused = |refusal| Failure::refused(name, refusal);
    let (count, frames) = chosen(File::new(&octets), only).map_err(refused)?;
    let mut progress = Progress::beside_output("showing frames");
    let mut writer = settings::Writer::default();
    for frame in frames {
        let frame = frame.map_err(refused)?;
        progress.step(frame.number().into(), count);
        let settings = frame.settings().map_err(refused)?;
        let note = note(&frame).map_err(refused)?;
        writer
            .frame(out, frame.number(), settings, &note)
            .map_err(Failure::output)?;
    }
    Ok(())
}

/// What is said beside the sequences of a frame whose samples are not all there: no such frame is made.
fn note(frame: &Frame) -> Result<String, Refusal> {
    let whole = frame.waveform().len() as u64 / frame.sequence_octets();
    Ok(match lacking::of_frame(frame)? {
        0 => String::new(),
        count => format!("  # {whole} whole, {}", lacking::words(count)),
    })
}

/// What a table says of a channel: all attributes but the start pointer, and how many samples are there.
#[derive(PartialEq)]
struct Read {
    attributes: Attributes,
    there: u64,
}

fn channels(frame: &Frame) -> Result<Vec<Read>, Refusal> {
    let read = |channel: Channel| Read {
        attributes: Attributes {
            start: 0,
            ..*channel.attributes()
        },
        there: channel.samples_there(),
    };
    frame.channels().map(|channel| channel.map(read)).collect()
}

fn heading(frame: &Frame) -> String {
    let (number, start) = (frame.number(), frame.start());
    let channels = counted(frame.channels().len() as u64, "channel");
    let sequences = counted(frame.sequences().into(), "sequence");
    format!("frame {number}: start {start}, {channels}, {sequences}")
}

fn row((channel, read): (u32, &Read)) -> Row {
    let Read { attributes, there } = read;
    let settings = ChannelSettings::from(attributes);
    let [_, class, lead, data_type, interval, resolution, offset, null] =
        SETTINGS.map(|setting| (setting.write)(&settings));
    let samples = match attributes.samples() {
        declared if declared > *there => format!("{there} of {declared}"),
        declared => declared.to_string(),
    };
    let per_sequence = match attributes.block {
        1 => String::new(),
        block => format!(" ({block} a sequence)"),
    };
    [
        channel.to_string(),
        class,
        lead,
        data_type,
        format!("{samples}{per_sequence}"),
        interval,
        resolution,
        offset,
        null,
    ]
}

fn counted(count: u64, what: &str) -> String {
    match count {
        1 => format!("1 {what}"),
        _ => format!("{count} {what}s"),
    }
}
