//! The samples of a channel one after another, as bits or as values.
#![forbid(unsafe_code)]

use crate::iterators::Channel;
use crate::refusal::Refusal;
use crate::value::Value;
use std::iter::FusedIterator;

/// The bits of a channel's samples in order, up to the last one there, read 65,536 at a time.
#[derive(Clone, Debug)]
pub struct Bits<'a>(Pieces<'a, Vec<u64>>);

/// The values of a channel's samples in order, up to the last one there, read 65,536 at a time.
#[derive(Clone, Debug)]
pub struct Values<'a>(Pieces<'a, Told>);

impl<'a> Bits<'a> {
    pub(crate) fn of(channel: &Channel<'a>) -> Bits<'a> {
        Bits(Pieces::of(channel))
    }
}

impl<'a> Values<'a> {
    pub(crate) fn of(channel: &Channel<'a>) -> Values<'a> {
        Values(Pieces::of(channel))
    }
}

impl Iterator for Bits<'_> {
    type Item = Result<u64, Refusal>;

    fn next(&mut self) -> Option<Self::Item> {
        self.0.next()
    }

    fn size_hint(&self) -> (usize, Option<usize>) {
        self.0.size_hint()
    }
}

impl Iterator for Values<'_> {
    type Item = Result<Value, Refusal>;

    fn next(&mut self) -> Option<Self::Item> {
        self.0.next()
    }

    fn size_hint(&self) -> (usize, Option<usize>) {
        self.0.size_hint()
    }
}

impl ExactSizeIterator for Bits<'_> {}
impl FusedIterator for Bits<'_> {}
impl ExactSizeIterator for Values<'_> {}
impl FusedIterator for Values<'_> {}

/// Consecutive samples of a channel, as they are read in one go.
trait Piece: Default {
    type Sample;

    /// Reads at most `room` samples from `first` on, and answers how many.
    fn read(&mut self, channel: &Channel, first: u64, room: usize) -> Result<usize, Refusal>;

    /// The sample of this number among those that were read.
    fn sample(&self, number: usize) -> Self::Sample;
}

impl Piece for Vec<u64> {
    type Sample = u64;

    fn read(&mut self, channel: &Channel, first: u64, room: usize) -> Result<usize, Refusal> {
        self.resize(room, 0);
        channel.samples(first, self)
    }

    fn sample(&self, number: usize) -> u64 {
        self[number]
    }
}

/// What the library tells of values: their kinds and whole numbers. The bits are there where a value
/// has some to show.
#[derive(Clone, Default, Debug)]
struct Told {
    kinds: Vec<u8>,
    wholes: Vec<i64>,
    bits: Vec<u64>,
}

impl Piece for Told {
    type Sample = Value;

    fn read(&mut self, channel: &Channel, first: u64, room: usize) -> Result<usize, Refusal> {
        self.kinds.resize(room, 0);
        self.wholes.resize(room, 0);
        self.bits.clear();
        let count = channel.kinds_and_wholes(first, &mut self.kinds, &mut self.wholes)?;
        if self.kinds[..count]
            .iter()
            .any(|kind| Value::shows_bits(*kind))
        {
            self.bits.resize(count, 0);
            channel.samples(first, &mut self.bits)?;
        }
        Ok(count)
    }

    fn sample(&self, number: usize) -> Value {
        let bits = self.bits.get(number).copied();
        Value::told(self.kinds[number], self.wholes[number], bits.unwrap_or(0))
    }
}

/// The samples of a channel in order, read in pieces.
#[derive(Clone, Debug)]
struct Pieces<'a, P> {
    channel: Channel<'a>,
    /// The number of the first sample after the piece.
    next: u64,
    piece: P,
    /// How many samples the piece has.
    count: usize,
    /// How many of them are handed out.
    taken: usize,
}

impl<'a, P: Piece> Pieces<'a, P> {
    const ROOM: u64 = 65_536;

    fn of(channel: &Channel<'a>) -> Pieces<'a, P> {
        Pieces {
            channel: channel.clone(),
            next: 0,
            piece: P::default(),
            count: 0,
            taken: 0,
        }
    }

    /// How many samples there are not read yet.
    fn unread(&self) -> u64 {
        self.channel.samples_there() - self.next
    }

    /// How many samples are still to come.
    fn rest(&self) -> u64 {
        self.unread() + (self.count - self.taken) as u64
    }

    /// Reads the next piece; there are samples left.
    fn read(&mut self) -> Result<(), Refusal> {
        let room = self.unread().min(Self::ROOM);
        (self.count, self.taken) = (0, 0);
        self.count = self.piece.read(&self.channel, self.next, room as usize)?;
        self.next += self.count as u64;
        Ok(())
    }
}

impl<P: Piece> Iterator for Pieces<'_, P> {
    type Item = Result<P::Sample, Refusal>;

    fn next(&mut self) -> Option<Self::Item> {
        if self.taken == self.count {
            if self.unread() == 0 {
                return None;
            }
            if let Err(refusal) = self.read() {
                // Nothing more comes after a refusal.
                self.next = self.channel.samples_there();
                return Some(Err(refusal));
            }
        }
        let sample = (self.taken < self.count).then(|| self.piece.sample(self.taken))?;
        self.taken += 1;
        Some(Ok(sample))
    }

    fn size_hint(&self) -> (usize, Option<usize>) {
        let rest = self.rest() as usize;
        (rest, Some(rest))
    }
}
