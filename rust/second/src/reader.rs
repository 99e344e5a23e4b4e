//! The questions a file can be asked: the check with its frame count, the attributes of a channel
//! in a frame, how many of its samples are there, the place and value of a sample, samples in bulk, all
//! frames in order, all samples of a frame, and every channel in turn.
//!
//! A declared sample whose octets are not all inside its own frame's waveform is not there. Bulk answers
//! end with the last sample that is.

use crate::items::bits;
use crate::scan::{scan, Frame, Standing};
use crate::settings::Record;

/// Why there is no answer, and the offset of the item's tag (0 for 15 and from 20 up).
#[derive(Clone, Copy, PartialEq, Eq, Debug)]
pub struct Refusal {
    pub number: u8,
    pub place: u64,
}

impl Refusal {
    pub const CONTEXT_TAG: u8 = 1;
    pub const LENGTH_OCTET: u8 = 2;
    pub const PAST_END: u8 = 3;
    pub const LONG_CHANNEL: u8 = 4;
    pub const BARRED_TAG: u8 = 5;
    pub const UNFIT_LENGTH: u8 = 6;
    pub const UNFIT_VALUE: u8 = 7;
    pub const CHANNEL_NUMBER: u8 = 8;
    pub const COMPRESSED: u8 = 9;
    pub const UNENDED_GROUP: u8 = 10;
    pub const MANY_FRAMES: u8 = 11;
    pub const SAMPLE_WIDTH: u8 = 12;
    pub const START_RANGE: u8 = 13;
    /// Retired: nothing gives it, and no other refusal has its number.
    pub const SHORT_WAVEFORM: u8 = 14;
    pub const LONG_FILE: u8 = 15;
    pub const NO_FRAME: u8 = 20;
    pub const NO_CHANNEL: u8 = 21;
    pub const NO_SAMPLE: u8 = 22;
    pub const NO_ROOM: u8 = 23;
    pub const SETTING_RANGE: u8 = 24;
    pub const SAMPLES_LENGTH: u8 = 25;

    pub(crate) fn without_place(number: u8) -> Refusal {
        Refusal { number, place: 0 }
    }
}

/// Interval or resolution: mantissa times ten to the exponent, in the unit.
#[derive(Clone, Copy, PartialEq, Eq, Debug)]
pub struct Scale {
    pub unit: u8,
    pub exponent: i8,
    pub mantissa: i32,
}

/// What a recording holds of one channel in one frame, but for its samples.
#[derive(Clone, Copy, PartialEq, Eq, Debug)]
pub struct Attributes {
    pub start: i32,
    pub channels: u32,
    pub sequences: u32,
    pub block: u32,
    pub class: u16,
    pub lead: u16,
    pub data_type: u8,
    pub interval: Scale,
    pub resolution: Scale,
    /// Zero bits where no offset is defined.
    pub offset: u64,
    pub null: Option<u64>,
}

/// A sample's value, raw: the offset is not applied.
#[derive(Clone, Copy, Debug)]
pub enum Value {
    Whole(i64),
    Status(u16),
    Single(f32),
    Double(f64),
    /// The bits of a float that is no number.
    NotNumber(u64),
    Null,
    /// The sample is declared and not there.
    NoData,
}

/// Floats are the same when their bits are: a zero of the other sign is another value.
impl PartialEq for Value {
    fn eq(&self, other: &Value) -> bool {
        match (*self, *other) {
            (Value::Whole(a), Value::Whole(b)) => a == b,
            (Value::Status(a), Value::Status(b)) => a == b,
            (Value::Single(a), Value::Single(b)) => a.to_bits() == b.to_bits(),
            (Value::Double(a), Value::Double(b)) => a.to_bits() == b.to_bits(),
            (Value::NotNumber(a), Value::NotNumber(b)) => a == b,
            (Value::Null, Value::Null) | (Value::NoData, Value::NoData) => true,
            _ => false,
        }
    }
}

impl Eq for Value {}

/// Checks the file and counts its frames.
pub fn check(octets: &[u8]) -> Result<u32, Refusal> {
    scan(octets, |_, _| {})
}

/// The attributes of a channel in a frame.
pub fn attributes(octets: &[u8], frame: u32, channel: u32) -> Result<Attributes, Refusal> {
    Ok(series(octets, frame, channel)?.attributes())
}

/// How many samples of a channel in a frame are there.
pub fn there(octets: &[u8], frame: u32, channel: u32) -> Result<u64, Refusal> {
    Ok(series(octets, frame, channel)?.there())
}

/// The place and value of a sample; place 0 and no data where it is declared and not there.
pub fn sample(
    octets: &[u8],
    frame: u32,
    channel: u32,
    number: u64,
) -> Result<(u64, Value), Refusal> {
    let series = series(octets, frame, channel)?;
    if number >= series.samples() {
        return Err(Refusal::without_place(Refusal::NO_SAMPLE));
    }
    if number >= series.there() {
        return Ok((0, Value::NoData));
    }
    let at = series.offset(number);
    let width = usize::from(series.record.width());
    let bits = bits(&series.frame.waveform[at..at + width], series.frame.little);
    let place = (series.frame.place + at) as u64;
    Ok((place, value(bits, &series.record)))
}

/// Fills `out` with the bits of consecutive samples from `first` on, as many as fit or are there,
/// and answers how many: none where `first` is declared and not there. Bits are not sign extended and
/// nulls are not marked.
pub fn samples(
    octets: &[u8],
    frame: u32,
    channel: u32,
    first: u64,
    out: &mut [u64],
) -> Result<usize, Refusal> {
    series(octets, frame, channel)?.read(first, out)
}

/// Fills `out` with values in place of bits, as [`samples`] does.
pub fn values(
    octets: &[u8],
    frame: u32,
    channel: u32,
    first: u64,
    out: &mut [Value],
) -> Result<usize, Refusal> {
    series(octets, frame, channel)?.values(first, out)
}

/// What is told of a frame besides its channels.
#[derive(Clone, Copy, PartialEq, Eq, Debug)]
pub struct Met {
    pub start: i32,
    pub sequences: u32,
    pub little: bool,
    /// Place and length of the waveform, its surplus included.
    pub place: u64,
    pub length: u64,
    /// Octets of one sequence over all channels.
    pub sequence_octets: u64,
}

/// Checks the file and counts its frames. Each is shown to `visit` with its channels; it may be shown
/// before a later item refuses the file.
pub fn frames(octets: &[u8], mut visit: impl FnMut(Met, &[Series])) -> Result<u32, Refusal> {
    scan(octets, |standing, frame| {
        let series: Vec<Series> = channels(standing, frame).collect();
        let met = Met {
            start: frame.start,
            sequences: frame.sequences,
            little: frame.little,
            place: frame.place as u64,
            length: frame.length as u64,
            sequence_octets: frame.sequence_octets,
        };
        visit(met, &series);
    })
}

/// Fills `out` with the bits of samples of the frame that has these channels, those of one channel after
/// those of another, as many as fit or are there, and answers how many.
pub fn all_samples(channels: &[Series], out: &mut [u64]) -> usize {
    let mut filled = 0;
    for series in channels {
        filled += series.fill(0, &mut out[filled..]);
    }
    filled
}

/// Shows `visit` every channel of every frame in turn, in one pass: its attributes and the bits of its
/// samples there, which `out` holds meanwhile, as many as fit. Answers the number of frames. A channel may be
/// shown before a later item refuses the file.
pub fn each_channel(
    octets: &[u8],
    out: &mut [u64],
    mut visit: impl FnMut(&Attributes, &[u64]),
) -> Result<u32, Refusal> {
    scan(octets, |standing, frame| {
        for series in channels(standing, frame) {
            let filled = series.fill(0, out);
            visit(&series.attributes(), &out[..filled]);
        }
    })
}

/// The channels of a frame in order.
#[inline]
pub(crate) fn channels<'a>(
    standing: &'a Standing,
    frame: &'a Frame,
) -> impl Iterator<Item = Series<'a>> {
    let mut lower = 0;
    standing.records(frame.channels).map(move |record| {
        let series = Series {
            frame: *frame,
            record: *record,
            lower,
        };
        lower += record.block_octets();
        series
    })
}

/// The samples of one channel in one frame, and where they lie.
pub struct Series<'a> {
    frame: Frame<'a>,
    record: Record,
    lower: u64,
}

impl Series<'_> {
    pub fn attributes(&self) -> Attributes {
        let Series { frame, record, .. } = self;
        Attributes {
            start: frame.start,
            channels: frame.channels,
            sequences: frame.sequences,
            block: record.block,
            class: record.class,
            lead: record.lead,
            data_type: record.data_type,
            interval: record.interval,
            resolution: record.resolution,
            offset: record.offset.bits,
            null: record.null(),
        }
    }

    /// Block octets of all lower channels.
    pub fn lower(&self) -> u64 {
        self.lower
    }

    /// Fills `out` as [`samples`] does.
    pub fn read(&self, first: u64, out: &mut [u64]) -> Result<usize, Refusal> {
        if first >= self.samples() {
            return Err(Refusal::without_place(Refusal::NO_SAMPLE));
        }
        match first < self.there() {
            true => Ok(self.fill(first, out)),
            false => Ok(0),
        }
    }

    /// Fills `out` as [`values`] does.
    pub fn values(&self, first: u64, out: &mut [Value]) -> Result<usize, Refusal> {
        let mut bits = vec![0; out.len()];
        let count = self.read(first, &mut bits)?;
        for (slot, bits) in out.iter_mut().zip(&bits[..count]) {
            *slot = value(*bits, &self.record);
        }
        Ok(count)
    }

    /// How many samples are declared, there or not: below 2 to the 52.
    pub fn samples(&self) -> u64 {
        u64::from(self.frame.sequences) * u64::from(self.record.block)
    }

    /// How many samples are there: the first ones.
    #[inline]
    pub fn there(&self) -> u64 {
        let Series {
            frame,
            record,
            lower,
        } = self;
        let block = u64::from(record.block);
        let whole = u64::from(frame.whole) * block;
        match (frame.cut as u64).saturating_sub(*lower) {
            0 => whole,
            octets => whole + block.min(octets / u64::from(record.width())),
        }
    }

    /// Offset in the waveform of a sample that is there.
    fn offset(&self, number: u64) -> usize {
        let block = u64::from(self.record.block);
        let sequence = number / block * self.frame.sequence_octets;
        let in_block = number % block * u64::from(self.record.width());
        (sequence + self.lower + in_block) as usize
    }

    /// The bits of samples from `first` on, which is 0 or there, at the front of `out`; answers how many.
    #[inline]
    fn fill(&self, first: u64, out: &mut [u64]) -> usize {
        match (self.record.width(), self.frame.little) {
            (1, _) => self.gather(first, out, |[octet]| octet.into()),
            (2, false) => self.gather(first, out, |octets| u16::from_be_bytes(octets).into()),
            (2, true) => self.gather(first, out, |octets| u16::from_le_bytes(octets).into()),
            (4, false) => self.gather(first, out, |octets| u32::from_be_bytes(octets).into()),
            (4, true) => self.gather(first, out, |octets| u32::from_le_bytes(octets).into()),
            (_, false) => self.gather(first, out, u64::from_be_bytes),
            (_, true) => self.gather(first, out, u64::from_le_bytes),
        }
    }

    /// The same of samples of `W` octets.
    #[inline]
    fn gather<const W: usize>(
        &self,
        first: u64,
        out: &mut [u64],
        bits: impl Fn([u8; W]) -> u64,
    ) -> usize {
        let lower = self.lower as usize;
        let waveform = self.frame.waveform;
        // A channel on its own is one long block.
        let alone = self.frame.channels == 1;
        let (block, sequence_octets, cut) = match alone {
            true => ((waveform.len() / W).max(1), waveform.len().max(1), 0),
            false => (
                self.record.block as usize,
                self.frame.sequence_octets as usize,
                self.frame.cut,
            ),
        };
        let first = first as usize;
        let sequences = waveform[first / block * sequence_octets..].chunks_exact(sequence_octets);
        let mut skipped = first % block;
        let mut filled = 0;
        if block == 1 {
            filled = out.len().min(sequences.len());
            for (slot, sequence) in out.iter_mut().zip(sequences) {
                let (sample, _) = sequence[lower..].split_first_chunk().unwrap();
                *slot = bits(*sample);
            }
        } else {
            for sequence in sequences {
                let (samples, _) = sequence[lower..lower + block * W].as_chunks();
                filled += lay(&samples[skipped..], &mut out[filled..], &bits);
                skipped = 0;
                if filled == out.len() {
                    break;
                }
            }
        }
        if cut > lower {
            let octets = &waveform[waveform.len() - cut + lower..];
            let (samples, _) = octets[..octets.len().min(block * W)].as_chunks();
            filled += lay(&samples[skipped..], &mut out[filled..], &bits);
        }
        filled
    }
}

/// The bits of samples one after the other, as many as fit, at the front of `out`; answers how many.
#[inline(always)]
fn lay<const W: usize>(
    samples: &[[u8; W]],
    out: &mut [u64],
    bits: impl Fn([u8; W]) -> u64,
) -> usize {
    for (slot, sample) in out.iter_mut().zip(samples) {
        *slot = bits(*sample);
    }
    out.len().min(samples.len())
}

/// The samples of a channel in a frame, once the whole file is accepted.
fn series(octets: &[u8], frame: u32, channel: u32) -> Result<Series<'_>, Refusal> {
    let mut found = None;
    let frames = scan(octets, |standing, met| {
        if met.number == frame && channel < met.channels {
            let lower = standing.records(channel).map(Record::block_octets).sum();
            found = Some(Series {
                frame: *met,
                record: *standing.record(channel),
                lower,
            });
        }
    })?;
    let missing = match frame < frames {
        true => Refusal::NO_CHANNEL,
        false => Refusal::NO_FRAME,
    };
    found.ok_or(Refusal::without_place(missing))
}

/// The value that bits of a sample stand for.
pub(crate) fn value(bits: u64, record: &Record) -> Value {
    if record.null() == Some(bits) {
        return Value::Null;
    }
    match record.data_type {
        0 => Value::Whole((bits as i16).into()),
        2 => Value::Whole((bits as i32).into()),
        5 => Value::Whole((bits as i8).into()),
        4 => Value::Status(bits as u16),
        7 => match f32::from_bits(bits as u32) {
            single if single.is_nan() => Value::NotNumber(bits),
            single => Value::Single(single),
        },
        8 => match f64::from_bits(bits) {
            double if double.is_nan() => Value::NotNumber(bits),
            double => Value::Double(double),
        },
        _ => Value::Whole(bits as i64),
    }
}
