//! A sample and its value.
#![forbid(unsafe_code)]

use crate::ffi::Sampled;

/// A sample's value, raw: offset and resolution are not applied.
#[derive(Clone, Copy, Debug)]
pub enum Value {
    /// A whole number, of the types 0 to 3, 5 and 6.
    Whole(i64),
    /// Sixteen status bits.
    Status(u16),
    /// A single with exactly the file's bits.
    Single(f32),
    /// A double with exactly the file's bits.
    Double(f64),
    /// The bits of a single or double that is no number.
    NotNumber(u64),
    /// The sample holds nothing: its bits are the null bits.
    Null,
    /// The sample is declared and not there: its octets are not all in its frame's waveform. It has no
    /// bits and no place.
    NoData,
}

/// Floats are the same when their bits are: a zero of the other sign is another value.
impl PartialEq for Value {
    fn eq(&self, other: &Value) -> bool {
        match (*self, *other) {
            (Value::Whole(a), Value::Whole(b)) => a == b,
            (Value::Status(a), Value::Status(b)) => a == b,
            (Value::Single(a), Value::Single(b)) => a.to_bits() == b.to_bits(),
            (Value::Double(a), Value::Double(b)) => a.to_bits() == b.to_bits(),
            (Value::NotNumber(a), Value::NotNumber(b)) => a == b,
            (Value::Null, Value::Null) => true,
            (Value::NoData, Value::NoData) => true,
            _ => false,
        }
    }
}

impl Eq for Value {}

impl Value {
    /// The papers' word for the value's kind.
    pub fn kind(&self) -> &'static str {
        match self {
            Value::Whole(_) => "whole",
            Value::Status(_) => "status",
            Value::Single(_) => "single",
            Value::Double(_) => "double",
            Value::NotNumber(_) => "not-a-number",
            Value::Null => "null",
            Value::NoData => "no data",
        }
    }

    /// The value of a kind, with its number or its bits as the library tells them.
    pub(crate) fn told(kind: u8, whole: i64, bits: u64) -> Value {
        match kind {
            0 => Value::Whole(whole),
            1 => Value::Status(bits as u16),
            2 => Value::Single(f32::from_bits(bits as u32)),
            3 => Value::Double(f64::from_bits(bits)),
            4 => Value::NotNumber(bits),
            5 => Value::Null,
            _ => Value::NoData,
        }
    }

    /// Whether a value of this kind is told by its bits: all but whole numbers, nulls and no data.
    pub(crate) fn shows_bits(kind: u8) -> bool {
        (1..=4).contains(&kind)
    }
}

/// A sample's place, bits and value.
#[derive(Clone, Copy, PartialEq, Eq, Debug)]
pub struct Sample {
    /// The offset of its first octet in the file; 0 where it is not there.
    pub place: u64,
    /// Its bits, highest octet first; 0 where it is not there.
    pub bits: u64,
    /// What the bits stand for.
    pub value: Value,
}

impl Sample {
    /// Of an answer that is no refusal.
    pub(crate) fn of(sampled: &Sampled) -> Sample {
        let bits = sampled.bits;
        Sample {
            place: sampled.place,
            bits,
            value: Value::told(sampled.kind as u8, sampled.whole, bits),
        }
    }
}
