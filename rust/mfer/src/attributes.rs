//! What a recording holds of one channel in one frame, but for its samples.
#![forbid(unsafe_code)]

use crate::ffi::Described;

/// Interval or resolution: mantissa times ten to the exponent, in the unit.
#[derive(Clone, Copy, PartialEq, Eq, Hash, Debug)]
pub struct Scale {
    /// The unit's code.
    pub unit: u8,
    /// The power of ten.
    pub exponent: i8,
    /// At least 1.
    pub mantissa: i32,
}

/// What the octets of a sample are.
#[derive(Clone, Copy, PartialEq, Eq, Hash, Debug)]
pub enum DataType {
    /// Type 0.
    Signed16,
    /// Type 1.
    Unsigned16,
    /// Type 2.
    Signed32,
    /// Type 3.
    Unsigned8,
    /// Type 4: sixteen status bits.
    Status,
    /// Type 5.
    Signed8,
    /// Type 6.
    Unsigned32,
    /// Type 7: IEEE 754, four octets.
    Single,
    /// Type 8: IEEE 754, eight octets.
    Double,
}

impl DataType {
    /// All types, each at its code.
    const ALL: [DataType; 9] = [
        DataType::Signed16,
        DataType::Unsigned16,
        DataType::Signed32,
        DataType::Unsigned8,
        DataType::Status,
        DataType::Signed8,
        DataType::Unsigned32,
        DataType::Single,
        DataType::Double,
    ];

    /// The type of a code.
    ///
    /// # Panics
    ///
    /// If the code is above 8, which the library hands out for no accepted file.
    fn of(code: i64) -> DataType {
        DataType::ALL[code as usize]
    }

    /// The code the format has for it, from 0 to 8.
    pub fn code(self) -> u8 {
        self as u8
    }

    /// The type of a code; none has a code above 8.
    pub fn from_code(code: u8) -> Option<DataType> {
        DataType::ALL.get(usize::from(code)).copied()
    }

    /// Octets of a sample: 1, 2, 4 or 8.
    pub fn width(self) -> u8 {
        match self {
            DataType::Unsigned8 | DataType::Signed8 => 1,
            DataType::Signed16 | DataType::Unsigned16 | DataType::Status => 2,
            DataType::Signed32 | DataType::Unsigned32 | DataType::Single => 4,
            DataType::Double => 8,
        }
    }
}

/// What a recording holds of one channel in one frame, but for its samples.
///
/// ```
/// use mfer::{DataType, File};
///
/// // Type 3, null FF, then a frame of three samples.
/// let octets = [0x0A, 1, 3, 0x12, 1, 0xFF, 0x1E, 3, 7, 8, 0xFF];
/// let attributes = File::new(&octets).attributes(0, 0)?;
/// assert_eq!(attributes.data_type, DataType::Unsigned8);
/// assert_eq!(attributes.null, Some(0xFF));
/// assert_eq!(attributes.samples(), 3);
/// # Ok::<(), mfer::Refusal>(())
/// ```
#[derive(Clone, Copy, PartialEq, Eq, Hash, Debug)]
pub struct Attributes {
    /// The frame's start pointer.
    pub start: i32,
    /// How many channels the frame has, from 1 to 256.
    pub channels: u32,
    /// How many sequences the frame declares.
    pub sequences: u32,
    /// Samples of the channel in one sequence, from 1 to 1,048,576.
    pub block: u32,
    /// The waveform class.
    pub class: u16,
    /// The lead code.
    pub lead: u16,
    /// What the octets of a sample are.
    pub data_type: DataType,
    /// Sampling interval or frequency.
    pub interval: Scale,
    /// What one step of a sample's value stands for.
    pub resolution: Scale,
    /// Octets of a sample: 1, 2, 4 or 8.
    pub width: u8,
    /// Zero bits where no offset is defined.
    pub offset: u64,
    /// The bits of a sample that holds nothing, where there are such.
    pub null: Option<u64>,
}

impl Attributes {
    /// How many samples the channel declares in the frame: sequences times block. Of a recording that was
    /// cut off they are not all there, see [`Channel::samples_there`](crate::Channel::samples_there); the
    /// number can be near 2 to the 52 in a file of a few octets.
    pub fn samples(&self) -> u64 {
        u64::from(self.sequences) * u64::from(self.block)
    }

    /// Of an answer that is no refusal: each number is in the range of its field.
    pub(crate) fn of(described: &Described) -> Attributes {
        let [start, channels, sequences, block, class, lead, data_type, rest @ ..] =
            described.numbers;
        let [interval_unit, interval_exponent, interval_mantissa, rest @ ..] = rest;
        let [unit, exponent, mantissa, width, null_width] = rest;
        let [offset, null] = described.bits;
        Attributes {
            start: start as i32,
            channels: channels as u32,
            sequences: sequences as u32,
            block: block as u32,
            class: class as u16,
            lead: lead as u16,
            data_type: DataType::of(data_type),
            interval: Scale {
                unit: interval_unit as u8,
                exponent: interval_exponent as i8,
                mantissa: interval_mantissa as i32,
            },
            resolution: Scale {
                unit: unit as u8,
                exponent: exponent as i8,
                mantissa: mantissa as i32,
            },
            width: width as u8,
            offset,
            null: (null_width != 0).then_some(null),
        }
    }
}
