//! One pass over the items of a file, with the settings that stand and each frame as it is met.

use crate::items::{tag, Item};
use crate::reader::Refusal;
use crate::settings::{choice, number, pointer, Record};

/// The most octets a file may have.
pub(crate) const FILE_LIMIT: u64 = 2_147_483_647;

/// A frame as its waveform item is met.
#[derive(Clone, Copy)]
pub(crate) struct Frame<'a> {
    pub number: u32,
    pub start: i32,
    pub channels: u32,
    /// Sequences as declared, or by the waveform's length.
    pub sequences: u32,
    pub little: bool,
    /// Sequences whose samples are all there.
    pub whole: u32,
    /// Octets of one sequence over all channels.
    pub sequence_octets: u64,
    /// Offset of the waveform's first octet in the file.
    pub place: usize,
    /// Octets of the waveform, its surplus among them.
    pub length: usize,
    /// The waveform without its surplus: the samples there.
    pub waveform: &'a [u8],
    /// The last octets of these, which are of the sequence after the whole ones.
    pub cut: usize,
}

impl Frame<'_> {
    pub const CHANNEL_LIMIT: u32 = 256;

    /// Octets of the samples there.
    fn there(&self) -> usize {
        (u64::from(self.whole) * self.sequence_octets) as usize + self.cut
    }
}

/// Everything that stands at one place of the file.
pub(crate) struct Standing {
    little: bool,
    /// The channel count, where one stands.
    count: Option<u32>,
    sequences: Option<u32>,
    /// The last start pointer since the previous frame, if it was not of length 0.
    start: Option<i32>,
    /// Where the next frame starts if no start pointer is given.
    continued: i64,
    pub frames: u32,
    root: Record,
    records: [Record; Frame::CHANNEL_LIMIT as usize],
    /// Channels from this one on have no setting of their own: the root holds for them, and their
    /// records are not kept up to date.
    own: usize,
}

impl Standing {
    const FRAME_LIMIT: u32 = 4096;

    /// A constant, so that the table is copied once and not built first.
    pub const DEFAULT: Standing = Standing {
        little: false,
        count: None,
        sequences: None,
        start: None,
        continued: 0,
        frames: 0,
        root: Record::DEFAULT,
        records: [Record::DEFAULT; Frame::CHANNEL_LIMIT as usize],
        own: 0,
    };

    /// What holds for a channel.
    #[inline]
    pub fn record(&self, channel: u32) -> &Record {
        match self.records[..self.own].get(channel as usize) {
            Some(record) => record,
            None => &self.root,
        }
    }

    /// What holds for each of the first `channels` channels, in order.
    pub fn records(&self, channels: u32) -> impl ExactSizeIterator<Item = &Record> {
        (0..channels).map(|channel| self.record(channel))
    }

    /// An item outside groups that is neither group nor waveform.
    pub fn define_root(&mut self, tag: u8, value: &[u8]) -> Result<(), u8> {
        let little = self.little;
        match tag {
            tag::BYTE_ORDER => self.little = choice(value, 1)? == Some(1),
            tag::CHANNELS => {
                self.count = number(value, Frame::CHANNEL_LIMIT, little)?;
                self.own = 0;
            }
            tag::SEQUENCES => self.sequences = number(value, u32::MAX, little)?,
            tag::START => self.start = pointer(value, little)?,
            tag::COMPRESSION if !value.is_empty() => return Err(Refusal::COMPRESSED),
            tag::BLOCK | tag::CLASS..=tag::OFFSET | tag::NULL => {
                self.root.define(tag, value, little, &Record::DEFAULT)?;
                // An empty definition takes a channel back to the root.
                for record in &mut self.records[..self.own] {
                    record.define(tag, &[], little, &self.root)?;
                }
            }
            _ => {}
        }
        Ok(())
    }

    /// An item inside a group of a channel below the count.
    pub fn define_channel(&mut self, channel: usize, tag: u8, value: &[u8]) -> Result<(), u8> {
        if channel >= self.own {
            self.records[self.own..=channel].fill(self.root);
            self.own = channel + 1;
        }
        self.records[channel].define(tag, value, self.little, &self.root)
    }

    /// The channel that a group of this number sets; none where the group is ignored.
    pub fn named(&self, channel: u32) -> Result<Option<usize>, u8> {
        match self.count {
            Some(count) if channel >= count => Err(Refusal::CHANNEL_NUMBER),
            Some(_) => Ok(Some(channel as usize)),
            None => Ok(None),
        }
    }

    /// Goes through the group whose tag is at `place` and answers where the next item begins.
    fn group(&mut self, octets: &[u8], place: usize, group: &Item) -> Result<usize, Refusal> {
        let channel = self.named(group.channel).map_err(refused_at(place))?;
        let octets = match group.open {
            true => octets,
            false => &octets[..group.end],
        };
        let mut at = group.value;
        while at < octets.len() {
            let item = Item::read(octets, at, true).map_err(refused_at(at))?;
            if group.open && item.is_end_mark() {
                return Ok(item.end);
            }
            if let Some(channel) = channel {
                self.define_channel(channel, item.tag, &octets[item.value..item.end])
                    .map_err(refused_at(at))?;
            }
            at = item.end;
        }
        match group.open {
            true => Err(refused_at(place)(Refusal::UNENDED_GROUP)),
            false => Ok(at),
        }
    }

    /// The frame that a waveform of `length` octets at `place` makes, but for the octets.
    pub fn frame(&mut self, place: usize, length: u64) -> Result<Frame<'static>, u8> {
        if self.frames == Standing::FRAME_LIMIT {
            return Err(Refusal::MANY_FRAMES);
        }
        let channels = self.count.unwrap_or(1);
        let sequence_octets = self.sequence_octets(channels)?;
        let start = match self.start {
            Some(start) => start,
            None => i32::try_from(self.continued).map_err(|_| Refusal::START_RANGE)?,
        };
        let sequences = match self.sequences {
            Some(sequences) => sequences,
            None => (length / sequence_octets) as u32,
        };
        // Below 2 to the 63: a sequence has at most 2 to the 31 octets.
        let declared = u64::from(sequences) * sequence_octets;
        let (whole, cut) = match declared <= length {
            true => (sequences, 0),
            false => {
                let cut = self.samples_within(channels, length % sequence_octets);
                ((length / sequence_octets) as u32, cut)
            }
        };
        let frame = Frame {
            number: self.frames,
            start,
            channels,
            sequences,
            little: self.little,
            whole,
            sequence_octets,
            place,
            length: length as usize,
            waveform: &[],
            cut: cut as usize,
        };
        self.frames += 1;
        self.start = None;
        self.continued = i64::from(start) + i64::from(self.root.block) * i64::from(sequences);
        Ok(frame)
    }

    /// Octets of the samples that are all within the first `octets` of a sequence, which has more.
    #[cold]
    fn samples_within(&self, channels: u32, octets: u64) -> u64 {
        let mut blocks = 0;
        for record in self.records(channels) {
            let left = octets - blocks;
            if left < record.block_octets() {
                return octets - left % u64::from(record.width());
            }
            blocks += record.block_octets();
        }
        blocks
    }

    /// Octets of one sequence, if every channel's offset and null have the sample width.
    fn sequence_octets(&self, channels: u32) -> Result<u64, u8> {
        // Never more than there are channels: a channel count starts the own settings anew.
        let own = &self.records[..self.own];
        let others = u64::from(channels) - own.len() as u64;
        let root_fits = others == 0 || self.root.fits();
        if !root_fits || !own.iter().all(Record::fits) {
            return Err(Refusal::SAMPLE_WIDTH);
        }
        let own_octets: u64 = own.iter().map(Record::block_octets).sum();
        Ok(own_octets + others * self.root.block_octets())
    }
}

fn refused_at(place: usize) -> impl Fn(u8) -> Refusal {
    move |number| Refusal {
        number,
        place: place as u64,
    }
}

/// Checks the whole file, shows each frame to `visit` with the settings that hold for it, and
/// answers the number of frames. A frame may be shown before a later item refuses the file.
#[inline]
pub(crate) fn scan<'a>(
    octets: &'a [u8],
    mut visit: impl FnMut(&Standing, &Frame<'a>),
) -> Result<u32, Refusal> {
    if octets.len() as u64 > FILE_LIMIT {
        return Err(Refusal::without_place(Refusal::LONG_FILE));
    }
    let mut standing = Standing::DEFAULT;
    let mut at = 0;
    while at < octets.len() {
        let item = Item::read(octets, at, false).map_err(refused_at(at))?;
        at = match item.tag {
            tag::GROUP => standing.group(octets, at, &item)?,
            tag::WAVEFORM => {
                let length = (item.end - item.value) as u64;
                let mut frame = standing.frame(item.value, length).map_err(refused_at(at))?;
                frame.waveform = &octets[item.value..][..frame.there()];
                visit(&standing, &frame);
                item.end
            }
            tag => {
                standing
                    .define_root(tag, &octets[item.value..item.end])
                    .map_err(refused_at(at))?;
                item.end
            }
        };
    }
    Ok(standing.frames)
}
