//! Samples that a frame declares and that are not there.

use mfer::{Channel, Frame, Refusal, Value};

/// How many of a channel's are not there, up to 2 to the 52.
pub fn of_channel(channel: &Channel) -> u64 {
    channel.attributes().samples() - channel.samples_there()
}

/// How many of a frame's are not there, up to 2 to the 60.
pub fn of_frame(frame: &Frame) -> Result<u64, Refusal> {
    let count = |channel: Channel| of_channel(&channel);
    frame.channels().map(|channel| channel.map(count)).sum()
}

/// What stands behind the samples that are there.
pub fn words(count: u64) -> String {
    format!("{}: {count} samples", Value::NoData.kind())
}

/// Whether a line says that.
pub fn is_said(line: &str) -> bool {
    line.starts_with(Value::NoData.kind())
}
