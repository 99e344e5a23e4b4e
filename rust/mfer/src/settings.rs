//! What a frame is made of: its settings, and its samples as octets.
#![forbid(unsafe_code)]

use crate::attributes::{Attributes, DataType, Scale};
use crate::ffi;
use crate::file::File;
use crate::refusal::Refusal;

/// The settings of a channel in a frame that is to be made.
///
/// The default has what holds in a file that sets nothing. What was read can be handed back as it is:
/// see [`ChannelSettings::from`] and [`Frame::settings`](crate::Frame::settings). With a number out of its
/// range no frame is made: [`Refusal::SETTING_RANGE`].
///
/// ```
/// use mfer::{ChannelSettings, DataType, Scale};
///
/// // Lead II, 500 Hz, steps of 5 microvolts; 8000h where the electrode is off.
/// let channel = ChannelSettings {
///     lead: 2,
///     interval: Scale { unit: 0, exponent: 0, mantissa: 500 },
///     resolution: Scale { unit: 0, exponent: -6, mantissa: 5 },
///     null: Some(0x8000),
///     ..ChannelSettings::default()
/// };
/// assert_eq!((channel.block, channel.data_type), (1, DataType::Signed16));
/// ```
#[derive(Clone, Copy, PartialEq, Eq, Hash, Debug)]
pub struct ChannelSettings {
    /// Samples of the channel in one sequence, from 1 to 1,048,576.
    pub block: u32,
    /// The waveform class.
    pub class: u16,
    /// The lead code.
    pub lead: u16,
    /// What the octets of a sample are.
    pub data_type: DataType,
    /// Sampling interval or frequency: unit 0 to 2 (Hz, s, m), mantissa at least 1.
    pub interval: Scale,
    /// What one step of a sample's value stands for: unit 0 to 22, mantissa at least 1.
    pub resolution: Scale,
    /// The offset's bits, no wider than a sample; 0 for none.
    pub offset: u64,
    /// The bits of a sample that holds nothing, no wider than a sample, where there are to be such.
    pub null: Option<u64>,
}

/// Document 01's defaults.
impl Default for ChannelSettings {
    fn default() -> ChannelSettings {
        ChannelSettings {
            block: 1,
            class: 0,
            lead: 0,
            data_type: DataType::Signed16,
            interval: Scale {
                unit: 0,
                exponent: 0,
                mantissa: 1000,
            },
            resolution: Scale {
                unit: 0,
                exponent: -6,
                mantissa: 1,
            },
            offset: 0,
            null: None,
        }
    }
}

/// The settings that a channel was read with.
impl From<&Attributes> for ChannelSettings {
    fn from(attributes: &Attributes) -> ChannelSettings {
        ChannelSettings {
            block: attributes.block,
            class: attributes.class,
            lead: attributes.lead,
            data_type: attributes.data_type,
            interval: attributes.interval,
            resolution: attributes.resolution,
            offset: attributes.offset,
            null: attributes.null,
        }
    }
}

/// The settings of a frame that is to be made.
///
/// A frame alone is no file: [`Recorder`](crate::Recorder) makes files of frames.
///
/// ```
/// use mfer::{ChannelSettings, File, FrameSettings};
///
/// let settings = FrameSettings {
///     start: 0,
///     sequences: 3,
///     channels: vec![ChannelSettings::default()],
/// };
/// let samples: Vec<u8> = [1_i16, 2, -1].iter().flat_map(|value| value.to_be_bytes()).collect();
/// let file = [&File::HEAD, &settings.make(&samples)?[..]].concat();
/// assert_eq!(File::new(&file).frame(0)?.settings()?, settings);
/// # Ok::<(), mfer::Refusal>(())
/// ```
#[derive(Clone, PartialEq, Eq, Hash, Debug)]
pub struct FrameSettings {
    /// The start pointer, of signed 32 bits. It is wider here so that a count that runs out of them is
    /// refused and not cut off.
    pub start: i64,
    /// How many sequences the frame has, from 0 to 4,294,967,295.
    pub sequences: u64,
    /// Its channels, 1 to 256.
    pub channels: Vec<ChannelSettings>,
}

impl FrameSettings {
    /// Octets of a sequence, over all channels: of samples [`FrameSettings::make`] takes `sequences` times
    /// as many.
    pub fn sequence_octets(&self) -> u64 {
        let octets = |channel: &ChannelSettings| {
            u64::from(channel.block) * u64::from(channel.data_type.width())
        };
        let channels = self.channels.iter();
        channels.map(octets).fold(0, u64::saturating_add)
    }

    /// Room that is enough for the frame with these samples: 24 octets, 57 for each channel, and the
    /// samples.
    pub fn room(&self, samples: &[u8]) -> usize {
        24 + 57 * self.channels.len() + samples.len()
    }

    /// The same, but no more than any frame needs that is not refused.
    pub(crate) fn most_room(&self, samples: &[u8]) -> usize {
        self.room(samples).min(File::LIMIT as usize)
    }

    /// The frame with these samples, as the canonical file has it, without [`File::HEAD`].
    ///
    /// Samples are big-endian and in file order: sequence after sequence, in each the block of
    /// channel 0, then that of channel 1, and so on. In a canonical file that is the frame's
    /// [`waveform`](crate::Frame::waveform).
    ///
    /// Refused with [`Refusal::SETTING_RANGE`] where a setting is out of its range; then with
    /// [`Refusal::SAMPLES_LENGTH`] where the samples are not `sequences` times
    /// [`FrameSettings::sequence_octets`]; then with [`Refusal::NO_ROOM`] where the frame and
    /// [`File::HEAD`] are longer than a file may be.
    pub fn make(&self, samples: &[u8]) -> Result<Vec<u8>, Refusal> {
        let mut out = vec![0; self.most_room(samples)];
        let length = self.make_into(samples, &mut out)?;
        out.truncate(length);
        Ok(out)
    }

    /// Writes the frame to the start of `out` and answers its length. The octets past it keep what they
    /// held; at a refusal all do. Refused as [`FrameSettings::make`] says, and with [`Refusal::NO_ROOM`]
    /// also where `out` is too short.
    pub fn make_into(&self, samples: &[u8], out: &mut [u8]) -> Result<usize, Refusal> {
        self.make_with(&mut Rows::default(), samples, out)
    }

    /// Does so with rows that can be used again.
    pub(crate) fn make_with(
        &self,
        rows: &mut Rows,
        samples: &[u8],
        out: &mut [u8],
    ) -> Result<usize, Refusal> {
        rows.fill(&self.channels);
        let filled = ffi::make_frame(
            self.start,
            self.sequences,
            self.channels.len() as u64,
            &rows.numbers,
            &rows.bits,
            samples,
            out,
        );
        Refusal::or(filled.number, filled.place, filled.count as usize)
    }
}

/// The channels' settings as the library takes them.
#[derive(Default)]
pub(crate) struct Rows {
    numbers: Vec<i64>,
    bits: Vec<u64>,
}

impl Rows {
    fn fill(&mut self, channels: &[ChannelSettings]) {
        self.numbers.clear();
        self.bits.clear();
        for channel in channels {
            self.numbers.extend(numbers(channel));
            self.bits
                .extend([channel.offset, channel.null.unwrap_or(0)]);
        }
    }
}

/// A row. Start, channels, sequences and sample width are not looked at; a null width other than 0 says
/// that there are null bits.
fn numbers(channel: &ChannelSettings) -> [i64; ffi::NUMBERS] {
    let ChannelSettings {
        interval,
        resolution,
        ..
    } = channel;
    [
        0,
        0,
        0,
        channel.block.into(),
        channel.class.into(),
        channel.lead.into(),
        channel.data_type.code().into(),
        interval.unit.into(),
        interval.exponent.into(),
        interval.mantissa.into(),
        resolution.unit.into(),
        resolution.exponent.into(),
        resolution.mantissa.into(),
        0,
        channel.null.is_some().into(),
    ]
}
