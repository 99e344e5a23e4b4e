//! The settings of frames, written as text.

use super::{Setting, SETTINGS};
use mfer::{ChannelSettings, FrameSettings};
use std::io::{self, Write};

/// Writes frames one after another.
#[derive(Default)]
pub struct Writer {
    /// The frame whose channels were written last.
    last: Option<(u32, Vec<ChannelSettings>)>,
}

impl Writer {
    /// Writes the settings of a frame, with a note behind its sequences. Its channels are written where
    /// they are others than those before.
    pub fn frame(
        &mut self,
        out: &mut impl Write,
        number: u32,
        frame: FrameSettings,
        note: &str,
    ) -> io::Result<()> {
        let FrameSettings {
            start,
            sequences,
            channels,
        } = frame;
        let same = self
            .last
            .as_ref()
            .filter(|(_, written)| *written == channels);
        match same {
            Some((last, _)) => writeln!(out, "frame  # {number}, channels as in frame {last}")?,
            None => writeln!(out, "frame  # {number}")?,
        }
        writeln!(out, "  start {start}\n  sequences {sequences}{note}")?;
        if same.is_none() {
            write_channels(out, &channels)?;
            self.last = Some((number, channels));
        }
        Ok(())
    }
}

/// What all channels share is the frame's, the rest is theirs.
fn write_channels(out: &mut impl Write, channels: &[ChannelSettings]) -> io::Result<()> {
    let columns = SETTINGS.map(|Setting { name, write, .. }| {
        let values: Vec<String> = channels.iter().map(write).collect();
        (name, values)
    });
    let (shared, own): (Vec<_>, Vec<_>) = columns
        .into_iter()
        .partition(|(_, values)| values.iter().all(|value| *value == values[0]));
    if own.is_empty() && channels.len() > 1 {
        writeln!(out, "  channels {}", channels.len())?;
    }
    for (name, values) in shared {
        writeln!(out, "  {name} {}", values[0])?;
    }
    if own.is_empty() {
        return Ok(());
    }
    for number in 0..channels.len() {
        writeln!(out, "  channel  # {number}")?;
        for (name, values) in &own {
            writeln!(out, "    {name} {}", values[number])?;
        }
    }
    Ok(())
}
