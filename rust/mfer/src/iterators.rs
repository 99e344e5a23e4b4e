//! Frames and channels one after another.
#![forbid(unsafe_code)]

use crate::attributes::Attributes;
use crate::ffi::Stepped;
use crate::file::File;
use crate::refusal::Refusal;
use crate::samples::{Bits, Values};
use crate::settings::{ChannelSettings, FrameSettings};
use crate::walk::Walk;
use std::iter::FusedIterator;
use std::ops::Range;

/// The frames of a file in order.
///
/// All steps together go through the file's items once. A frame that is kept, or a channel of it,
/// holds what it needs: the next step then makes a copy of 33 KB for itself.
///
/// ```
/// use mfer::File;
///
/// let file = File::new(&[0x0A, 1, 3, 0x1E, 2, 7, 8, 0x1E, 1, 9]);
/// let frames = file.frames()?;
/// assert_eq!(frames.len(), 2);
/// let starts: Vec<i32> = frames.map(|frame| Ok(frame?.start())).collect::<Result<_, _>>()?;
/// assert_eq!(starts, [0, 2]);
/// # Ok::<(), mfer::Refusal>(())
/// ```
#[derive(Clone, Debug)]
pub struct Frames<'a> {
    file: File<'a>,
    walk: Walk,
    rest: Range<u32>,
}

impl<'a> Frames<'a> {
    pub(crate) fn open(file: File<'a>) -> Result<Frames<'a>, Refusal> {
        let (walk, frames) = Walk::open(file)?;
        Ok(Frames {
            file,
            walk,
            rest: 0..frames,
        })
    }
}

impl<'a> Iterator for Frames<'a> {
    type Item = Result<Frame<'a>, Refusal>;

    fn next(&mut self) -> Option<Self::Item> {
        let number = self.rest.next()?;
        let stepped = self.walk.next(self.file);
        if stepped.is_err() {
            // Nothing more comes after a refusal.
            self.rest = 0..0;
        }
        let frame = |stepped| Frame::new(self.file, self.walk.clone(), number, &stepped);
        Some(stepped.map(frame))
    }

    fn size_hint(&self) -> (usize, Option<usize>) {
        self.rest.size_hint()
    }
}

impl ExactSizeIterator for Frames<'_> {}
impl FusedIterator for Frames<'_> {}

/// In which order the octets of a number stand.
#[derive(Clone, Copy, PartialEq, Eq, Hash, Debug)]
pub enum ByteOrder {
    /// The highest octet first.
    Big,
    /// The lowest octet first.
    Little,
}

/// A frame of a file.
#[derive(Clone, Debug)]
pub struct Frame<'a> {
    file: File<'a>,
    walk: Walk,
    number: u32,
    start: i32,
    channels: u32,
    sequences: u32,
    byte_order: ByteOrder,
    waveform: Range<usize>,
    sequence_octets: u64,
}

impl<'a> Frame<'a> {
    /// Of a step that is no refusal: each number is in the range of its field.
    fn new(file: File<'a>, walk: Walk, number: u32, stepped: &Stepped) -> Frame<'a> {
        let [channels, sequences, little, place, length, sequence_octets] = stepped.frame;
        let byte_order = match little {
            0 => ByteOrder::Big,
            _ => ByteOrder::Little,
        };
        Frame {
            file,
            walk,
            number,
            start: stepped.start as i32,
            channels: channels as u32,
            sequences: sequences as u32,
            byte_order,
            waveform: place as usize..(place + length) as usize,
            sequence_octets,
        }
    }

    /// The frame's number in the file, from 0.
    pub fn number(&self) -> u32 {
        self.number
    }

    /// The start pointer.
    pub fn start(&self) -> i32 {
        self.start
    }

    /// How many sequences the frame declares.
    pub fn sequences(&self) -> u32 {
        self.sequences
    }

    /// The byte order of its samples.
    pub fn byte_order(&self) -> ByteOrder {
        self.byte_order
    }

    /// Where its waveform is in the file, with the octets past the last sequence, if there are such. It may
    /// also end ahead of the last sequence: then not all samples are there.
    pub fn waveform(&self) -> Range<usize> {
        self.waveform.clone()
    }

    /// Octets of a sequence, over all channels.
    pub fn sequence_octets(&self) -> u64 {
        self.sequence_octets
    }

    /// The channels in order. Their number is the iterator's length.
    ///
    /// ```
    /// let file = mfer::File::new(&[0x05, 0x01, 0x02, 0x1E, 0x04, 0, 1, 0, 2]);
    /// assert_eq!(file.frame(0)?.channels().len(), 2);
    /// # Ok::<(), mfer::Refusal>(())
    /// ```
    pub fn channels(&self) -> Channels<'a> {
        Channels {
            file: self.file,
            walk: self.walk.clone(),
            frame: self.number,
            rest: 0..self.channels,
        }
    }

    /// A channel.
    pub fn channel(&self, channel: u32) -> Result<Channel<'a>, Refusal> {
        Channel::look_up(self.file, self.walk.clone(), self.number, channel)
    }

    /// The settings that the frame was read with, to make one like it. In a canonical file its waveform is
    /// the samples as [`FrameSettings::make`] takes them, if all of them are there; else it refuses them with
    /// [`Refusal::SAMPLES_LENGTH`].
    ///
    /// ```
    /// use mfer::{File, Recorder};
    ///
    /// // Two frames, little-endian, with an octet past the samples of the first.
    /// let octets = [0x01, 1, 1, 0x1E, 3, 1, 0, 9, 0x0A, 1, 3, 0x1E, 2, 7, 8];
    /// let canonical = File::new(&octets).canonical_vec()?;
    /// let mut recorder = Recorder::new(Vec::new());
    /// for frame in File::new(&canonical).frames()? {
    ///     let frame = frame?;
    ///     recorder.frame(&frame.settings()?, &canonical[frame.waveform()])?;
    /// }
    /// assert_eq!(recorder.finish()?, canonical);
    /// # Ok::<(), Box<dyn std::error::Error>>(())
    /// ```
    pub fn settings(&self) -> Result<FrameSettings, Refusal> {
        let settings = |channel: Channel| ChannelSettings::from(channel.attributes());
        let channels = self.channels().map(|channel| channel.map(settings));
        Ok(FrameSettings {
            start: self.start.into(),
            sequences: self.sequences.into(),
            channels: channels.collect::<Result<_, _>>()?,
        })
    }

    /// How many samples of all channels are there: the room that [`Frame::samples`] needs for all of
    /// them. It is at most the length of the waveform, which is known without a look at the channels.
    pub fn sample_count(&self) -> Result<usize, Refusal> {
        let count = |channel: Channel| channel.samples_there() as usize;
        self.channels().map(|channel| channel.map(count)).sum()
    }

    /// Fills `out` with the bits of samples, those of channel 0, then those of channel 1, and so on, as
    /// many as fit or are there, and answers how many; the rest of `out` keeps what it held. Nothing
    /// else of the file is read. This is the fastest way to read a file whole.
    ///
    /// ```
    /// // Two channels of one octet, blocks of 2 and 1, two sequences.
    /// let octets = [0x05, 1, 2, 0x0A, 1, 3, 0x3F, 0, 3, 0x04, 1, 2, 0x1E, 6, 1, 2, 7, 3, 4, 8];
    /// let frame = mfer::File::new(&octets).frame(0)?;
    /// let mut bits = vec![0; frame.sample_count()?];
    /// assert_eq!(frame.samples(&mut bits)?, 6);
    /// assert_eq!(bits, [1, 2, 3, 4, 7, 8]);
    /// let mut first = [0; 5];
    /// assert_eq!(frame.samples(&mut first)?, 5);
    /// assert_eq!(first, bits[..5]);
    /// # Ok::<(), mfer::Refusal>(())
    /// ```
    pub fn samples(&self, out: &mut [u64]) -> Result<usize, Refusal> {
        self.walk.frame(self.file, out)
    }
}

/// The channels of a frame in order. No step reads the file.
#[derive(Clone, Debug)]
pub struct Channels<'a> {
    file: File<'a>,
    walk: Walk,
    frame: u32,
    rest: Range<u32>,
}

impl<'a> Iterator for Channels<'a> {
    type Item = Result<Channel<'a>, Refusal>;

    fn next(&mut self) -> Option<Self::Item> {
        let channel = self.rest.next()?;
        let walk = self.walk.clone();
        Some(Channel::look_up(self.file, walk, self.frame, channel))
    }

    fn size_hint(&self) -> (usize, Option<usize>) {
        self.rest.size_hint()
    }
}

impl ExactSizeIterator for Channels<'_> {}
impl FusedIterator for Channels<'_> {}

/// A channel in a frame of a file.
#[derive(Clone, Debug)]
pub struct Channel<'a> {
    file: File<'a>,
    walk: Walk,
    frame: u32,
    number: u32,
    attributes: Attributes,
    below: u64,
    there: u64,
}

impl<'a> Channel<'a> {
    /// A channel of the frame that the walk is at.
    fn look_up(file: File<'a>, walk: Walk, frame: u32, number: u32) -> Result<Self, Refusal> {
        let (attributes, below) = walk.channel(number)?;
        let there = walk.samples_there(number)?;
        Ok(Channel {
            file,
            walk,
            frame,
            number,
            attributes,
            below,
            there,
        })
    }

    /// The frame's number in the file, from 0.
    pub fn frame(&self) -> u32 {
        self.frame
    }

    /// The channel's number in the frame, from 0.
    pub fn number(&self) -> u32 {
        self.number
    }

    /// What the recording holds of the channel, but for its samples.
    pub fn attributes(&self) -> &Attributes {
        &self.attributes
    }

    /// The octets of a sequence that come ahead of the channel's: those of the channels below it.
    ///
    /// ```
    /// // Two channels, the first of two octets: sample 1 of the second is in the second sequence.
    /// let file = mfer::File::new(&[0x05, 1, 2, 0x3F, 1, 3, 0x0A, 1, 3, 0x1E, 6, 0, 1, 2, 0, 3, 4]);
    /// let frame = file.frame(0)?;
    /// let channel = frame.channel(1)?;
    /// let (block, width) = (u64::from(channel.attributes().block), u64::from(channel.attributes().width));
    /// let offset = 1 / block * frame.sequence_octets() + channel.below() + 1 % block * width;
    /// assert_eq!(frame.waveform().start as u64 + offset, file.sample(0, 1, 1)?.place);
    /// # Ok::<(), mfer::Refusal>(())
    /// ```
    pub fn below(&self) -> u64 {
        self.below
    }

    /// How many of the channel's samples are there: the first ones of the
    /// [declared](Attributes::samples). A sample is there where all its octets lie in the frame's waveform.
    ///
    /// ```
    /// use mfer::{File, Value};
    ///
    /// // Two channels of one octet and three sequences, of which the recorder wrote one and a half.
    /// let file = File::new(&[0x05, 1, 2, 0x0A, 1, 3, 0x06, 1, 3, 0x1E, 3, 1, 2, 3]);
    /// let frame = file.frame(0)?;
    /// let (first, second) = (frame.channel(0)?, frame.channel(1)?);
    /// assert_eq!((first.samples_there(), first.attributes().samples()), (2, 3));
    /// assert_eq!((second.samples_there(), second.attributes().samples()), (1, 3));
    /// let values: Vec<Value> = first.values().collect::<Result<_, _>>()?;
    /// assert_eq!(values, [1, 3].map(Value::Whole));
    /// # Ok::<(), mfer::Refusal>(())
    /// ```
    pub fn samples_there(&self) -> u64 {
        self.there
    }

    /// Fills `out` with the bits of consecutive samples from `first` on, as [`File::samples`] does,
    /// and reads nothing else of the file.
    pub fn samples(&self, first: u64, out: &mut [u64]) -> Result<usize, Refusal> {
        self.walk.samples(self.file, self.number, first, out)
    }

    /// Fills both with what [`File::values`] tells, and reads nothing else of the file.
    pub(crate) fn kinds_and_wholes(
        &self,
        first: u64,
        kinds: &mut [u8],
        wholes: &mut [i64],
    ) -> Result<usize, Refusal> {
        let Channel { walk, file, .. } = self;
        walk.values(*file, self.number, first, kinds, wholes)
    }

    /// The bits of its samples in order, up to the last one there.
    pub fn bits(&self) -> Bits<'a> {
        Bits::of(self)
    }

    /// The values of its samples in order, up to the last one there, each as [`File::sample`] has it.
    ///
    /// ```
    /// use mfer::{File, Refusal, Value};
    ///
    /// let file = File::new(&[0x0A, 1, 5, 0x12, 1, 0x80, 0x1E, 3, 1, 0x80, 0xFF]);
    /// let values: Vec<Value> = file.channel(0, 0)?.values().collect::<Result<_, _>>()?;
    /// assert_eq!(values, [Value::Whole(1), Value::Null, Value::Whole(-1)]);
    ///
    /// let singles = [0x0A, 1, 7, 0x1E, 8, 0x3F, 0x80, 0, 0, 0x7F, 0xC0, 0, 1];
    /// let mut values = File::new(&singles).channel(0, 0)?.values();
    /// assert_eq!(values.next(), Some(Ok(Value::Single(1.0))));
    /// assert_eq!(values.next(), Some(Ok(Value::NotNumber(0x7FC0_0001))));
    /// assert_eq!(values.next(), None);
    /// # Ok::<(), Refusal>(())
    /// ```
    pub fn values(&self) -> Values<'a> {
        Values::of(self)
    }
}
