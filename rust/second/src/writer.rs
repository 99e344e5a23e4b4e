//! The canonical file: big-endian, every setting in its channel's group, the samples there and no surplus.

use crate::items::tag;
use crate::reader::{Refusal, Scale};
use crate::scan::{scan, Frame, Standing, FILE_LIMIT};
use crate::settings::Record;

/// Octets that a file has before its first frame: 01 01 00.
pub(crate) const BEFORE_FRAMES: u64 = 3;

/// Writes the canonical file of an accepted file to the start of `out` and answers its length. On
/// a refusal `out` keeps all its octets.
pub fn canonical(octets: &[u8], out: &mut [u8]) -> Result<usize, Refusal> {
    let length = canonical_length(octets)?;
    if length > out.len() {
        return Err(Refusal::without_place(Refusal::NO_ROOM));
    }
    let mut output = Output::new(out);
    if length > 0 {
        output.item(tag::BYTE_ORDER, &[0]);
    }
    scan(octets, |standing, frame| output.frame(standing, frame))?;
    Ok(output.at)
}

/// The length of the canonical file of an accepted file, if it is no longer than a file may be.
pub fn canonical_length(octets: &[u8]) -> Result<usize, Refusal> {
    let mut length = 0;
    let frames = scan(octets, |standing, frame| {
        let records = standing.records(frame.channels);
        length += frame_length(frame.sequences, records, frame.waveform.len());
    })?;
    if frames > 0 {
        length += BEFORE_FRAMES;
    }
    match length <= FILE_LIMIT {
        true => Ok(length as usize),
        false => Err(Refusal::without_place(Refusal::NO_ROOM)),
    }
}

/// Octets of one frame in the canonical file, which has so many octets of samples.
pub(crate) fn frame_length<'a>(
    sequences: u32,
    records: impl Iterator<Item = &'a Record>,
    samples: usize,
) -> u64 {
    let sequences = match sequences {
        0 => 2,
        _ => 6,
    };
    let groups: u64 = (0..)
        .zip(records)
        .map(|(channel, record)| {
            let number = match channel {
                0..=0x7F => 1,
                _ => 2,
            };
            1 + number + 1 + u64::from(group_length(record))
        })
        .sum();
    6 + sequences + 6 + groups + 1 + length_octets(samples) as u64 + samples as u64
}

/// Octets of the items in a channel's group; always below 128.
fn group_length(record: &Record) -> u8 {
    // Block, class, lead, type, interval and resolution have the same length in every group.
    const SAME: u8 = 6 + 4 + 4 + 3 + 8 + 8;
    let width = record.width();
    let null = match record.null() {
        Some(_) => width,
        None => 0,
    };
    SAME + 2 + width + 2 + null
}

/// Octets of the shortest form of a length.
fn length_octets(length: usize) -> usize {
    match length {
        0..=0x7F => 1,
        0x80..=0xFF => 2,
        0x100..=0xFFFF => 3,
        0x1_0000..=0xFF_FFFF => 4,
        _ => 5,
    }
}

/// The buffer and how far it is written; it is known to be long enough.
pub(crate) struct Output<'a> {
    octets: &'a mut [u8],
    at: usize,
}

impl Output<'_> {
    pub fn new(octets: &mut [u8]) -> Output<'_> {
        Output { octets, at: 0 }
    }

    /// The next `count` octets, to be written by the caller.
    fn take(&mut self, count: usize) -> &mut [u8] {
        let from = self.at;
        self.at += count;
        &mut self.octets[from..self.at]
    }

    pub fn put(&mut self, octets: &[u8]) {
        self.take(octets.len()).copy_from_slice(octets);
    }

    fn item(&mut self, tag: u8, value: &[u8]) {
        self.put(&[tag, value.len() as u8]);
        self.put(value);
    }

    fn frame(&mut self, standing: &Standing, frame: &Frame) {
        let records = standing.records(frame.channels);
        self.head(frame.start, frame.sequences, records, frame.waveform.len());
        self.samples(standing, frame);
    }

    /// A frame of these channels up to its samples, of which there are so many octets.
    pub fn head<'a>(
        &mut self,
        start: i32,
        sequences: u32,
        records: impl ExactSizeIterator<Item = &'a Record>,
        samples: usize,
    ) {
        self.item(tag::CHANNELS, &(records.len() as u32).to_be_bytes());
        match sequences {
            0 => self.item(tag::SEQUENCES, &[]),
            sequences => self.item(tag::SEQUENCES, &sequences.to_be_bytes()),
        }
        self.item(tag::START, &start.to_be_bytes());
        for (channel, record) in (0..).zip(records) {
            self.group(channel, record);
        }
        self.put(&[tag::WAVEFORM]);
        self.length(samples);
    }

    /// Inline, so that the place in the buffer need not go through memory.
    #[inline(always)]
    fn group(&mut self, channel: u32, record: &Record) {
        self.put(&[tag::GROUP]);
        if channel > 0x7F {
            self.put(&[0x80 | (channel >> 7) as u8]);
        }
        self.put(&[channel as u8 & 0x7F, group_length(record)]);
        self.item(tag::BLOCK, &record.block.to_be_bytes());
        self.item(tag::CLASS, &record.class.to_be_bytes());
        self.item(tag::LEAD, &record.lead.to_be_bytes());
        self.item(tag::DATA_TYPE, &[record.data_type]);
        self.scale(tag::INTERVAL, record.interval);
        self.scale(tag::RESOLUTION, record.resolution);
        let unused = 8 - usize::from(record.width());
        self.item(tag::OFFSET, &record.offset.bits.to_be_bytes()[unused..]);
        match record.null() {
            Some(null) => self.item(tag::NULL, &null.to_be_bytes()[unused..]),
            None => self.item(tag::NULL, &[]),
        }
    }

    fn scale(&mut self, tag: u8, scale: Scale) {
        let [a, b, c, d] = scale.mantissa.to_be_bytes();
        self.item(tag, &[scale.unit, scale.exponent as u8, a, b, c, d]);
    }

    /// A length in its shortest form.
    fn length(&mut self, length: usize) {
        let following = length_octets(length) - 1;
        if following > 0 {
            self.put(&[0x80 | following as u8]);
        }
        let octets = (length as u32).to_be_bytes();
        self.put(&octets[4 - following.max(1)..]);
    }

    /// The samples there, big-endian, in the order they have in the waveform.
    fn samples(&mut self, standing: &Standing, frame: &Frame) {
        let to = self.take(frame.waveform.len());
        if !frame.little {
            return to.copy_from_slice(frame.waveform);
        }
        let width = standing.record(0).width();
        if standing.records(frame.channels).all(|r| r.width() == width) {
            return turn(width, frame.waveform, to);
        }
        let mut at = 0;
        while at < to.len() {
            for record in standing.records(frame.channels) {
                // The last block may be cut off after any of its samples.
                let end = to.len().min(at + record.block_octets() as usize);
                turn(record.width(), &frame.waveform[at..end], &mut to[at..end]);
                at = end;
            }
        }
    }
}

/// Copies samples of one width, each with its octets in the other order.
fn turn(width: u8, from: &[u8], to: &mut [u8]) {
    match width {
        1 => to.copy_from_slice(from),
        2 => turn_each::<2>(from, to),
        4 => turn_each::<4>(from, to),
        _ => turn_each::<8>(from, to),
    }
}

fn turn_each<const W: usize>(from: &[u8], to: &mut [u8]) {
    let (from, _) = from.as_chunks::<W>();
    let (to, _) = to.as_chunks_mut::<W>();
    for (to, from) in to.iter_mut().zip(from) {
        *to = *from;
        to.reverse();
    }
}
