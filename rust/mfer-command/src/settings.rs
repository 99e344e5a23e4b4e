//! The settings of frames as text: their names, how each is written and how it is read.

mod cause;
mod draft;
mod read;
mod write;

pub use draft::Described;
pub use read::read;
pub use write::Writer;

use crate::{names, values};
use mfer::{ChannelSettings, DataType};

/// A setting of a channel.
pub struct Setting {
    pub name: &'static str,
    /// What its value has to be, in words.
    pub expected: &'static str,
    pub write: fn(&ChannelSettings) -> String,
    /// Sets it as the text says; none where the text is no such value.
    pub read: fn(&str, &mut ChannelSettings) -> Option<()>,
}

/// How many settings a channel has, and which of them is the block length.
pub const COUNT: usize = 8;
pub const BLOCK: usize = 0;

/// A lead is read by the class, an offset and a null by the type, which therefore come before them.
pub const SETTINGS: [Setting; COUNT] = [
    Setting {
        name: "block",
        expected: "a number from 1 to 1048576",
        write: |channel| channel.block.to_string(),
        read: |text, channel| set(&mut channel.block, text.parse().ok()),
    },
    Setting {
        name: "class",
        expected: "a code from 0 to 65535, its name, or both",
        write: |channel| names::named(channel.class, class(channel.class)),
        read: |text, channel| set(&mut channel.class, names::code(text, class)),
    },
    Setting {
        name: "lead",
        expected: "a code from 0 to 65535, its name in this class, or both",
        write: |channel| names::named(channel.lead, names::lead(channel.class, channel.lead)),
        read: |text, channel| {
            let lead = names::lead_of(channel.class, text);
            set(&mut channel.lead, lead)
        },
    },
    Setting {
        name: "type",
        expected: "a number from 0 to 8, or a name as 'signed 16 bits'",
        write: |channel| names::data_type(channel.data_type).into(),
        read: |text, channel| {
            let data_type = names::data_type_of(text);
            // Without a type no bits are too wide, and all numbers are numbers.
            channel.data_type = data_type.unwrap_or(DataType::Double);
            data_type.map(|_| ())
        },
    },
    Setting {
        name: "interval",
        expected: "a mantissa from 1 to 2147483647, an exponent from -128 to 127 and a unit, \
                   as '500 Hz' or '2e-3 s'",
        write: |channel| names::scaled(channel.interval, &names::INTERVAL_UNITS),
        read: |text, channel| {
            let interval = names::scale_of(text, &names::INTERVAL_UNITS);
            set(&mut channel.interval, interval)
        },
    },
    Setting {
        name: "resolution",
        expected: "a mantissa from 1 to 2147483647, an exponent from -128 to 127 and a unit, \
                   as '1e-6 V' or '1.25e-6 V'",
        write: |channel| names::scaled(channel.resolution, &names::RESOLUTION_UNITS),
        read: |text, channel| {
            let resolution = names::scale_of(text, &names::RESOLUTION_UNITS);
            set(&mut channel.resolution, resolution)
        },
    },
    Setting {
        name: "offset",
        expected: "bits of a sample as '0x8000', or a number of the type",
        write: |channel| bits(channel.offset, channel),
        read: |text, channel| {
            let offset = bits_of(text, channel);
            set(&mut channel.offset, offset)
        },
    },
    Setting {
        name: "null",
        expected: "bits of a sample as '0x8000', a number of the type, or 'none'",
        write: |channel| match channel.null {
            Some(null) => bits(null, channel),
            None => "none".into(),
        },
        read: |text, channel| {
            let null = match text {
                "none" => Some(None),
                _ => bits_of(text, channel).map(Some),
            };
            set(&mut channel.null, null)
        },
    },
];

fn set<T>(setting: &mut T, value: Option<T>) -> Option<()> {
    *setting = value?;
    Some(())
}

fn class(code: u16) -> Option<String> {
    names::class(code).map(String::from)
}

/// Bits of a sample's width.
fn bits(bits: u64, channel: &ChannelSettings) -> String {
    let digits = 2 * usize::from(channel.data_type.width());
    format!("0x{bits:0digits$X}")
}

/// Bits, also wider ones than the channel's samples, or a number of its type.
fn bits_of(text: &str, channel: &ChannelSettings) -> Option<u64> {
    values::hexadecimal(text).or_else(|| values::number(text, channel.data_type))
}
