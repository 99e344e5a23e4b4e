//! The settings a channel has, and how a definition changes them.

use crate::items::{bits, tag};
use crate::reader::{Refusal, Scale};

/// Bits together with the octets they came in; width 0 where nothing is defined.
#[derive(Clone, Copy)]
pub(crate) struct Bits {
    pub width: u8,
    pub bits: u64,
}

impl Bits {
    const NONE: Bits = Bits { width: 0, bits: 0 };

    fn fits(self, width: u8) -> bool {
        self.width == 0 || self.width == width
    }
}

/// What the root or one channel is set to.
#[derive(Clone, Copy)]
pub(crate) struct Record {
    pub block: u32,
    pub class: u16,
    pub lead: u16,
    pub data_type: u8,
    pub interval: Scale,
    pub resolution: Scale,
    pub offset: Bits,
    pub null: Bits,
}

impl Record {
    pub const BLOCK_LIMIT: u32 = 1_048_576;
    pub const LAST_DATA_TYPE: u8 = 8;
    pub const LAST_INTERVAL_UNIT: u8 = 2;
    pub const LAST_RESOLUTION_UNIT: u8 = 22;
    /// A code of two octets and 32 of text.
    const CODE_LIMIT: usize = 34;

    pub const DEFAULT: Record = Record {
        block: 1,
        class: 0,
        lead: 0,
        data_type: 0,
        interval: Scale {
            unit: 0,
            exponent: 0,
            mantissa: 1000,
        },
        resolution: Scale {
            unit: 0,
            exponent: -6,
            mantissa: 1,
        },
        offset: Bits::NONE,
        null: Bits::NONE,
    };

    /// Octets per sample.
    pub fn width(&self) -> u8 {
        sample_width(self.data_type)
    }

    /// Octets of one block.
    pub fn block_octets(&self) -> u64 {
        u64::from(self.block) * u64::from(self.width())
    }

    /// The defined offset and null have the sample width.
    pub fn fits(&self) -> bool {
        self.offset.fits(self.width()) && self.null.fits(self.width())
    }

    /// The null bits, where there is a null.
    pub fn null(&self) -> Option<u64> {
        (self.null.width != 0).then_some(self.null.bits)
    }

    /// Sets one attribute from the value of its item, or from `fallback` where the value is empty.
    /// Tags that set nothing here are stepped over.
    pub fn define(
        &mut self,
        tag: u8,
        value: &[u8],
        little: bool,
        fallback: &Record,
    ) -> Result<(), u8> {
        match tag {
            tag::BLOCK => {
                let block = number(value, Record::BLOCK_LIMIT, little)?;
                self.block = block.unwrap_or(fallback.block);
            }
            tag::CLASS => self.class = code(value, little)?.unwrap_or(fallback.class),
            tag::LEAD => self.lead = code(value, little)?.unwrap_or(fallback.lead),
            tag::DATA_TYPE => {
                self.data_type =
                    choice(value, Record::LAST_DATA_TYPE)?.unwrap_or(fallback.data_type)
            }
            tag::INTERVAL => {
                let interval = scale(value, Record::LAST_INTERVAL_UNIT, little)?;
                self.interval = interval.unwrap_or(fallback.interval);
            }
            tag::RESOLUTION => {
                let resolution = scale(value, Record::LAST_RESOLUTION_UNIT, little)?;
                self.resolution = resolution.unwrap_or(fallback.resolution);
            }
            tag::OFFSET => self.offset = sample_bits(value, little)?.unwrap_or(fallback.offset),
            tag::NULL => self.null = sample_bits(value, little)?.unwrap_or(fallback.null),
            _ => {}
        }
        Ok(())
    }
}

/// Octets per sample of this type.
pub(crate) fn sample_width(data_type: u8) -> u8 {
    match data_type {
        3 | 5 => 1,
        2 | 6 | 7 => 4,
        8 => 8,
        _ => 2,
    }
}

/// A value of one octet from 0 to `last`.
pub(crate) fn choice(value: &[u8], last: u8) -> Result<Option<u8>, u8> {
    match *value {
        [] => Ok(None),
        [octet] if octet <= last => Ok(Some(octet)),
        [_] => Err(Refusal::UNFIT_VALUE),
        _ => Err(Refusal::UNFIT_LENGTH),
    }
}

/// A whole number of at most four octets, from 1 to `limit`.
pub(crate) fn number(value: &[u8], limit: u32, little: bool) -> Result<Option<u32>, u8> {
    match value.len() {
        0 => Ok(None),
        1..=4 => match bits(value, little) as u32 {
            number if (1..=limit).contains(&number) => Ok(Some(number)),
            _ => Err(Refusal::UNFIT_VALUE),
        },
        _ => Err(Refusal::UNFIT_LENGTH),
    }
}

/// A signed number of at most four octets.
pub(crate) fn pointer(value: &[u8], little: bool) -> Result<Option<i32>, u8> {
    match value.len() {
        0 => Ok(None),
        1..=4 => Ok(Some(signed(value, little))),
        _ => Err(Refusal::UNFIT_LENGTH),
    }
}

/// One to four octets in two's complement, the sign carried up from the top octet.
fn signed(octets: &[u8], little: bool) -> i32 {
    let unused = 32 - 8 * octets.len() as u32;
    (bits(octets, little) as i32) << unused >> unused
}

/// A class or lead code: one octet, or the first two of more; what follows is text.
fn code(value: &[u8], little: bool) -> Result<Option<u16>, u8> {
    match value.len() {
        0 => Ok(None),
        1..=Record::CODE_LIMIT => Ok(Some(bits(&value[..value.len().min(2)], little) as u16)),
        _ => Err(Refusal::UNFIT_LENGTH),
    }
}

/// Unit, exponent and a mantissa of one to four octets.
fn scale(value: &[u8], last_unit: u8, little: bool) -> Result<Option<Scale>, u8> {
    match *value {
        [] => Ok(None),
        [unit, exponent, ref mantissa @ ..] if (1..=4).contains(&mantissa.len()) => {
            let mantissa = signed(mantissa, little);
            if unit > last_unit || mantissa < 1 {
                return Err(Refusal::UNFIT_VALUE);
            }
            Ok(Some(Scale {
                unit,
                exponent: exponent as i8,
                mantissa,
            }))
        }
        _ => Err(Refusal::UNFIT_LENGTH),
    }
}

/// Offset or null bits.
fn sample_bits(value: &[u8], little: bool) -> Result<Option<Bits>, u8> {
    match value.len() {
        0 => Ok(None),
        width @ (1 | 2 | 4 | 8) => Ok(Some(Bits {
            width: width as u8,
            bits: bits(value, little),
        })),
        _ => Err(Refusal::UNFIT_LENGTH),
    }
}
