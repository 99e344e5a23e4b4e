//! A walk over a file, as its frames share it.
#![forbid(unsafe_code)]

use crate::attributes::Attributes;
use crate::ffi::{self, Stepped};
use crate::file::File;
use crate::refusal::Refusal;
use std::fmt;
use std::sync::Arc;

/// The words of a walk. A clone shares them until one of the two goes on.
#[derive(Clone)]
pub(crate) struct Walk(Arc<ffi::Walk>);

impl Walk {
    /// A walk ahead of the first frame of an accepted file, and how many frames it has.
    pub fn open(file: File) -> Result<(Walk, u32), Refusal> {
        let mut words = Arc::new([0; ffi::WALK]);
        let checked = ffi::walk_open(file.octets(), Arc::make_mut(&mut words));
        let frames = Refusal::or(checked.number, checked.place, checked.frames as u32)?;
        Ok((Walk(words), frames))
    }

    /// Goes to the next frame. The words are copied only where a clone still holds them.
    pub fn next(&mut self, file: File) -> Result<Stepped, Refusal> {
        let stepped = ffi::walk_next(file.octets(), Arc::make_mut(&mut self.0));
        Refusal::or(stepped.number, stepped.place, stepped)
    }

    /// A channel of the frame that the walk is at, with the octets of a sequence below it.
    pub fn channel(&self, channel: u32) -> Result<(Attributes, u64), Refusal> {
        let seen = ffi::walk_channel(&self.0, channel);
        Refusal::or(seen.described.number, seen.described.place, ())?;
        Ok((Attributes::of(&seen.described), seen.below))
    }

    /// How many samples of a channel of the frame that the walk is at are there.
    pub fn samples_there(&self, channel: u32) -> Result<u64, Refusal> {
        let filled = ffi::walk_samples_there(&self.0, channel);
        Refusal::or(filled.number, filled.place, filled.count)
    }

    /// Reads samples of a channel of the frame that the walk is at.
    pub fn samples(
        &self,
        file: File,
        channel: u32,
        first: u64,
        out: &mut [u64],
    ) -> Result<usize, Refusal> {
        let filled = ffi::walk_samples(file.octets(), &self.0, channel, first, out);
        Refusal::or(filled.number, filled.place, filled.count as usize)
    }

    /// Reads samples of the frame that the walk is at, channel after channel.
    pub fn frame(&self, file: File, out: &mut [u64]) -> Result<usize, Refusal> {
        let filled = ffi::walk_frame(file.octets(), &self.0, out);
        Refusal::or(filled.number, filled.place, filled.count as usize)
    }

    /// Reads kinds and whole numbers of a channel of the frame that the walk is at.
    pub fn values(
        &self,
        file: File,
        channel: u32,
        first: u64,
        kinds: &mut [u8],
        wholes: &mut [i64],
    ) -> Result<usize, Refusal> {
        let filled = ffi::walk_values(file.octets(), &self.0, channel, first, kinds, wholes);
        Refusal::or(filled.number, filled.place, filled.count as usize)
    }
}

/// The words say nothing to a reader.
impl fmt::Debug for Walk {
    fn fmt(&self, f: &mut fmt::Formatter<'_>) -> fmt::Result {
        f.debug_struct("Walk").finish_non_exhaustive()
    }
}
