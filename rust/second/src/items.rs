//! Items: a tag octet, a length, a value. A group has its channel number between tag and length.

use crate::reader::Refusal;

/// The tags that mean something here; every other primitive tag is stepped over.
pub(crate) mod tag {
    pub const END: u8 = 0x00;
    pub const BYTE_ORDER: u8 = 0x01;
    pub const BLOCK: u8 = 0x04;
    pub const CHANNELS: u8 = 0x05;
    pub const SEQUENCES: u8 = 0x06;
    pub const START: u8 = 0x07;
    pub const CLASS: u8 = 0x08;
    pub const LEAD: u8 = 0x09;
    pub const DATA_TYPE: u8 = 0x0A;
    pub const INTERVAL: u8 = 0x0B;
    pub const RESOLUTION: u8 = 0x0C;
    pub const OFFSET: u8 = 0x0D;
    pub const COMPRESSION: u8 = 0x0E;
    pub const NULL: u8 = 0x12;
    pub const WAVEFORM: u8 = 0x1E;
    pub const GROUP: u8 = 0x3F;

    /// Marks a context tag.
    pub const CONTEXT: u8 = 0x20;
}

/// A length octet with this bit alone is an open length; with a number from 1 to 4 below it, that
/// many length octets follow.
const LONG: u8 = 0x80;

/// An item with its extent; the places are offsets in the octets it was read from.
#[derive(Clone, Copy)]
pub(crate) struct Item {
    pub tag: u8,
    /// Channel number of a group, otherwise 0.
    pub channel: u32,
    pub open: bool,
    pub value: usize,
    /// One past the value's last octet; where an open group's items begin.
    pub end: usize,
}

impl Item {
    /// Reads the item at `at`. `octets` ends where the file or the definite group around the item
    /// ends, and `at` is below that. The error is the refusal's number, its place is `at`.
    #[inline(always)]
    pub fn read(octets: &[u8], at: usize, inside: bool) -> Result<Item, u8> {
        let tag = octets[at];
        if tag & tag::CONTEXT != 0 && tag != tag::GROUP {
            return Err(Refusal::CONTEXT_TAG);
        }
        if inside && barred(tag) {
            return Err(Refusal::BARRED_TAG);
        }
        let is_group = tag == tag::GROUP;
        let (channel, at) = match is_group {
            true => channel_number(octets, at + 1)?,
            false => (0, at + 1),
        };
        let (length, value) = length(octets, at, is_group)?;
        if length.unwrap_or(0) > (octets.len() - value) as u64 {
            return Err(Refusal::PAST_END);
        }
        Ok(Item {
            tag,
            channel,
            open: length.is_none(),
            value,
            end: value + length.unwrap_or(0) as usize,
        })
    }

    /// In an open group this item ends the group, whatever form its length has.
    pub fn is_end_mark(&self) -> bool {
        self.tag == tag::END && self.value == self.end
    }
}

/// The tags that may not stand in a group.
pub(crate) fn barred(tag: u8) -> bool {
    matches!(
        tag,
        tag::BYTE_ORDER
            | tag::CHANNELS
            | tag::SEQUENCES
            | tag::START
            | tag::COMPRESSION
            | tag::WAVEFORM
            | tag::GROUP
    )
}

/// The channel number at `at` and the place after it: seven bits an octet, highest first, at most
/// four octets, each but the last with its top bit set.
fn channel_number(octets: &[u8], at: usize) -> Result<(u32, usize), u8> {
    let mut channel = 0;
    for place in at..at + 4 {
        let octet = *octets.get(place).ok_or(Refusal::PAST_END)?;
        channel = channel << 7 | u32::from(octet & 0x7F);
        if octet & 0x80 == 0 {
            return Ok((channel, place + 1));
        }
    }
    Err(Refusal::LONG_CHANNEL)
}

/// The length at `at`, none for an open one, and the place after it. The byte order has no say in it.
#[inline]
fn length(octets: &[u8], at: usize, is_group: bool) -> Result<(Option<u64>, usize), u8> {
    let first = *octets.get(at).ok_or(Refusal::PAST_END)?;
    let at = at + 1;
    match first {
        0x00..=0x7F => Ok((Some(first.into()), at)),
        LONG if is_group => Ok((None, at)),
        0x81..=0x84 => {
            let end = at + usize::from(first - LONG);
            let field = octets.get(at..end).ok_or(Refusal::PAST_END)?;
            Ok((Some(bits(field, false)), end))
        }
        _ => Err(Refusal::LENGTH_OCTET),
    }
}

/// The bits of at most eight octets, the highest octet first.
pub(crate) fn bits(octets: &[u8], little: bool) -> u64 {
    let join = |bits: u64, octet: &u8| bits << 8 | u64::from(*octet);
    match little {
        true => octets.iter().rev().fold(0, join),
        false => octets.iter().fold(0, join),
    }
}
