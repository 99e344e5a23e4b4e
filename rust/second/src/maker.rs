//! Makes a frame from its settings and its samples: the octets that the canonical file has for it,
//! from its channel count to its last sample. A file is 01 01 00 and such frames.

use crate::reader::{Attributes, Refusal, Scale};
use crate::scan::{Frame, FILE_LIMIT};
use crate::settings::{sample_width, Bits, Record};
use crate::writer::{frame_length, Output, BEFORE_FRAMES};

/// Where the numbers of a channel stand in its row.
pub mod number {
    pub const START: usize = 0;
    pub const CHANNELS: usize = 1;
    pub const SEQUENCES: usize = 2;
    pub const BLOCK: usize = 3;
    pub const CLASS: usize = 4;
    pub const LEAD: usize = 5;
    pub const DATA_TYPE: usize = 6;
    pub const INTERVAL_UNIT: usize = 7;
    pub const INTERVAL_EXPONENT: usize = 8;
    pub const INTERVAL_MANTISSA: usize = 9;
    pub const RESOLUTION_UNIT: usize = 10;
    pub const RESOLUTION_EXPONENT: usize = 11;
    pub const RESOLUTION_MANTISSA: usize = 12;
    pub const WIDTH: usize = 13;
    pub const NULL_WIDTH: usize = 14;
}

/// How many numbers a row has.
pub const NUMBERS: usize = 15;

/// The numbers of a channel.
pub type Numbers = [i64; NUMBERS];

/// How many bits go with a row.
pub const BITS: usize = 2;

/// The bits of a channel: the offset's and the null's.
pub type Pair = [u64; BITS];

impl Attributes {
    /// The numbers and bits of the channel, as the maker is handed them.
    pub fn row(&self) -> (Numbers, Pair) {
        let width = sample_width(self.data_type).into();
        let numbers = [
            self.start.into(),
            self.channels.into(),
            self.sequences.into(),
            self.block.into(),
            self.class.into(),
            self.lead.into(),
            self.data_type.into(),
            self.interval.unit.into(),
            self.interval.exponent.into(),
            self.interval.mantissa.into(),
            self.resolution.unit.into(),
            self.resolution.exponent.into(),
            self.resolution.mantissa.into(),
            width,
            self.null.map_or(0, |_| width),
        ];
        (numbers, [self.offset, self.null.unwrap_or(0)])
    }
}

/// Writes the frame to the start of `out` and answers its length. Channels have their numbers and
/// bits one after the other. Samples are big-endian, in file order. On a refusal `out` keeps all its
/// octets.
pub fn make_frame(
    start: i64,
    sequences: u64,
    channels: u64,
    numbers: &[i64],
    bits: &[u64],
    samples: &[u8],
    out: &mut [u8],
) -> Result<usize, Refusal> {
    let settings = Settings::new(start, sequences, channels, numbers, bits)
        .ok_or(Refusal::without_place(Refusal::SETTING_RANGE))?;
    if samples.len() as u64 != settings.sample_octets() {
        return Err(Refusal::without_place(Refusal::SAMPLES_LENGTH));
    }
    let records = settings.records.iter();
    let length = frame_length(settings.sequences, records.clone(), samples.len());
    if length > out.len() as u64 || length + BEFORE_FRAMES > FILE_LIMIT {
        return Err(Refusal::without_place(Refusal::NO_ROOM));
    }
    let mut output = Output::new(out);
    output.head(settings.start, settings.sequences, records, samples.len());
    output.put(samples);
    Ok(length as usize)
}

/// Octets of all samples that go with these settings; none where they are refused.
pub fn sample_octets(
    start: i64,
    sequences: u64,
    channels: u64,
    numbers: &[i64],
    bits: &[u64],
) -> Option<u64> {
    let settings = Settings::new(start, sequences, channels, numbers, bits)?;
    Some(settings.sample_octets())
}

/// Settings that are all in document 01's table.
struct Settings {
    start: i32,
    sequences: u32,
    records: Vec<Record>,
}

impl Settings {
    fn new(
        start: i64,
        sequences: u64,
        channels: u64,
        numbers: &[i64],
        bits: &[u64],
    ) -> Option<Settings> {
        let start = i32::try_from(start).ok()?;
        let sequences = u32::try_from(sequences).ok()?;
        if !(1..=u64::from(Frame::CHANNEL_LIMIT)).contains(&channels) {
            return None;
        }
        let channels = channels as usize;
        let (numbers, []) = numbers.as_chunks() else {
            return None;
        };
        let (bits, []) = bits.as_chunks() else {
            return None;
        };
        if [numbers.len(), bits.len()] != [channels; 2] {
            return None;
        }
        let mut records = Vec::with_capacity(channels);
        for (numbers, bits) in numbers.iter().zip(bits) {
            records.push(record(numbers, bits)?);
        }
        Some(Settings {
            start,
            sequences,
            records,
        })
    }

    /// Octets of all samples: at most 2 to the 32 sequences of at most 2 to the 31 octets.
    fn sample_octets(&self) -> u64 {
        let sequence: u64 = self.records.iter().map(Record::block_octets).sum();
        u64::from(self.sequences) * sequence
    }
}

/// What a channel is set to, if it is in document 01's table and the bits are no wider than a sample.
fn record(numbers: &Numbers, bits: &Pair) -> Option<Record> {
    let [offset, null] = *bits;
    let mut record = Record {
        block: within(numbers[number::BLOCK], 1, Record::BLOCK_LIMIT.into())? as u32,
        class: u16::try_from(numbers[number::CLASS]).ok()?,
        lead: u16::try_from(numbers[number::LEAD]).ok()?,
        data_type: within(numbers[number::DATA_TYPE], 0, Record::LAST_DATA_TYPE.into())? as u8,
        interval: scale(numbers, number::INTERVAL_UNIT, Record::LAST_INTERVAL_UNIT)?,
        resolution: scale(
            numbers,
            number::RESOLUTION_UNIT,
            Record::LAST_RESOLUTION_UNIT,
        )?,
        ..Record::DEFAULT
    };
    record.offset = sample_bits(offset, record.width())?;
    if numbers[number::NULL_WIDTH] != 0 {
        record.null = sample_bits(null, record.width())?;
    }
    Some(record)
}

/// Unit, exponent and mantissa, which stand in the row from `at` on.
fn scale(numbers: &Numbers, at: usize, last_unit: u8) -> Option<Scale> {
    Some(Scale {
        unit: within(numbers[at], 0, last_unit.into())? as u8,
        exponent: i8::try_from(numbers[at + 1]).ok()?,
        mantissa: within(numbers[at + 2], 1, i32::MAX.into())? as i32,
    })
}

/// Offset or null bits of samples of this width.
fn sample_bits(bits: u64, width: u8) -> Option<Bits> {
    (bits <= u64::MAX >> (64 - 8 * width)).then_some(Bits { width, bits })
}

/// The number, if it is from `first` to `last`.
fn within(number: i64, first: i64, last: i64) -> Option<i64> {
    (first..=last).contains(&number).then_some(number)
}
