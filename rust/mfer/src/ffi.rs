//! The C functions, each behind a safe one that hands back the refusal's number and every output.
//!
//! This is the only module with unsafe code. What makes each call sound: a slice is passed as its
//! pointer and its own length, a walk is an array of the length that the library has for it, every
//! output is a place that this module owns, and the library keeps no pointer and has no state.
#![allow(unsafe_code)]

/// How many numbers the attributes of a channel are.
pub const NUMBERS: usize = 15;

/// How many words a walk is kept in.
pub const WALK: usize = 4160;

/// How many numbers a frame of a walk is, besides its start pointer.
pub const FRAME_NUMBERS: usize = 6;

/// A walk. Any words at all are some walk.
pub type Walk = [u64; WALK];

extern "C" {
    fn mfer_check(file: *const u8, file_len: usize, frames: *mut u64, place: *mut u64) -> u32;

    fn mfer_attributes(
        file: *const u8,
        file_len: usize,
        frame: u32,
        channel: u32,
        numbers: *mut [i64; NUMBERS],
        bits: *mut [u64; 2],
        place: *mut u64,
    ) -> u32;

    fn mfer_samples_there(
        file: *const u8,
        file_len: usize,
        frame: u32,
        channel: u32,
        count: *mut u64,
        place: *mut u64,
    ) -> u32;

    fn mfer_sample(
        file: *const u8,
        file_len: usize,
        frame: u32,
        channel: u32,
        number: u64,
        place: *mut u64,
        kind: *mut u32,
        whole: *mut i64,
        bits: *mut u64,
    ) -> u32;

    fn mfer_samples(
        file: *const u8,
        file_len: usize,
        frame: u32,
        channel: u32,
        first: u64,
        out: *mut u64,
        out_len: usize,
        count: *mut u64,
        place: *mut u64,
    ) -> u32;

    fn mfer_values(
        file: *const u8,
        file_len: usize,
        frame: u32,
        channel: u32,
        first: u64,
        kinds: *mut u8,
        kinds_len: usize,
        wholes: *mut i64,
        wholes_len: usize,
        count: *mut u64,
        place: *mut u64,
    ) -> u32;

    fn mfer_walk_open(
        file: *const u8,
        file_len: usize,
        walk: *mut Walk,
        frames: *mut u64,
        place: *mut u64,
    ) -> u32;

    fn mfer_walk_next(
        file: *const u8,
        file_len: usize,
        walk: *mut Walk,
        start: *mut i64,
        frame: *mut [u64; FRAME_NUMBERS],
        place: *mut u64,
    ) -> u32;

    fn mfer_walk_channel(
        walk: *const Walk,
        channel: u32,
        numbers: *mut [i64; NUMBERS],
        bits: *mut [u64; 2],
        below: *mut u64,
        place: *mut u64,
    ) -> u32;

    fn mfer_walk_samples_there(
        walk: *const Walk,
        channel: u32,
        count: *mut u64,
        place: *mut u64,
    ) -> u32;

    fn mfer_walk_samples(
        file: *const u8,
        file_len: usize,
        walk: *const Walk,
        channel: u32,
        first: u64,
        out: *mut u64,
        out_len: usize,
        count: *mut u64,
        place: *mut u64,
    ) -> u32;

    fn mfer_walk_frame(
        file: *const u8,
        file_len: usize,
        walk: *const Walk,
        out: *mut u64,
        out_len: usize,
        count: *mut u64,
        place: *mut u64,
    ) -> u32;

    fn mfer_walk_values(
        file: *const u8,
        file_len: usize,
        walk: *const Walk,
        channel: u32,
        first: u64,
        kinds: *mut u8,
        kinds_len: usize,
        wholes: *mut i64,
        wholes_len: usize,
        count: *mut u64,
        place: *mut u64,
    ) -> u32;

    fn mfer_canonical_length(
        file: *const u8,
        file_len: usize,
        length: *mut u64,
        place: *mut u64,
    ) -> u32;

    fn mfer_canonical(
        file: *const u8,
        file_len: usize,
        out: *mut u8,
        out_len: usize,
        written: *mut u64,
        place: *mut u64,
    ) -> u32;

    fn mfer_make_frame(
        start: i64,
        sequences: u64,
        channels: u64,
        numbers: *const i64,
        numbers_len: usize,
        bits: *const u64,
        bits_len: usize,
        samples: *const u8,
        samples_len: usize,
        out: *mut u8,
        out_len: usize,
        written: *mut u64,
        place: *mut u64,
    ) -> u32;
}

/// What outputs hold before a call, so that one the library left alone would show.
const UNSET: u64 = 0xA5A5_A5A5_A5A5_A5A5;

/// What `mfer_check` and `mfer_walk_open` answer, but for the walk.
#[derive(Clone, Copy, PartialEq, Eq, Debug)]
pub struct Checked {
    /// The refusal's number, 0 for none.
    pub number: u32,
    /// How many frames the file has.
    pub frames: u64,
    /// The refusal's place.
    pub place: u64,
}

/// Asks `mfer_check`.
pub fn check(file: &[u8]) -> Checked {
    let (mut frames, mut place) = (UNSET, UNSET);
    // SAFETY: see the module's first lines.
    let number = unsafe { mfer_check(file.as_ptr(), file.len(), &mut frames, &mut place) };
    Checked {
        number,
        frames,
        place,
    }
}

/// What `mfer_attributes` answers.
#[derive(Clone, Copy, PartialEq, Eq, Debug)]
pub struct Described {
    /// The refusal's number, 0 for none.
    pub number: u32,
    /// Start, channels, sequences, block, class, lead, type; unit, exponent and mantissa of the
    /// interval, then of the resolution; sample width, null width.
    pub numbers: [i64; NUMBERS],
    /// Offset bits, null bits.
    pub bits: [u64; 2],
    /// The refusal's place.
    pub place: u64,
}

/// Asks `mfer_attributes`.
pub fn attributes(file: &[u8], frame: u32, channel: u32) -> Described {
    let mut numbers = [UNSET as i64; NUMBERS];
    let mut bits = [UNSET; 2];
    let mut place = UNSET;
    // SAFETY: see the module's first lines.
    let number = unsafe {
        mfer_attributes(
            file.as_ptr(),
            file.len(),
            frame,
            channel,
            &mut numbers,
            &mut bits,
            &mut place,
        )
    };
    Described {
        number,
        numbers,
        bits,
        place,
    }
}

/// What `mfer_sample` answers.
#[derive(Clone, Copy, PartialEq, Eq, Debug)]
pub struct Sampled {
    /// The refusal's number, 0 for none.
    pub number: u32,
    /// The sample's place, or the refusal's; 0 for no data.
    pub place: u64,
    /// 0 whole, 1 status, 2 single, 3 double, 4 not-a-number, 5 null, 6 no data.
    pub kind: u32,
    /// The value of kind 0.
    pub whole: i64,
    /// The sample's bits.
    pub bits: u64,
}

/// Asks `mfer_sample`.
pub fn sample(file: &[u8], frame: u32, channel: u32, number: u64) -> Sampled {
    let (mut place, mut bits) = (UNSET, UNSET);
    let mut kind = UNSET as u32;
    let mut whole = UNSET as i64;
    // SAFETY: see the module's first lines.
    let number = unsafe {
        mfer_sample(
            file.as_ptr(),
            file.len(),
            frame,
            channel,
            number,
            &mut place,
            &mut kind,
            &mut whole,
            &mut bits,
        )
    };
    Sampled {
        number,
        place,
        kind,
        whole,
        bits,
    }
}

/// What `mfer_samples_there`, `mfer_samples`, `mfer_values`, those of a walk, `mfer_canonical_length`,
/// `mfer_canonical` and `mfer_make_frame` answer, but for the buffers.
#[derive(Clone, Copy, PartialEq, Eq, Debug)]
pub struct Filled {
    /// The refusal's number, 0 for none.
    pub number: u32,
    /// How many samples are there, or how many samples or octets were written to the buffer, or would be.
    pub count: u64,
    /// The refusal's place.
    pub place: u64,
}

/// What a function answers that is handed places for a count and for a refusal's place.
fn filled(ask: impl FnOnce(&mut u64, &mut u64) -> u32) -> Filled {
    let (mut count, mut place) = (UNSET, UNSET);
    let number = ask(&mut count, &mut place);
    Filled {
        number,
        count,
        place,
    }
}

/// Asks `mfer_samples_there`.
pub fn samples_there(file: &[u8], frame: u32, channel: u32) -> Filled {
    // SAFETY: see the module's first lines.
    filled(|count, place| unsafe {
        mfer_samples_there(file.as_ptr(), file.len(), frame, channel, count, place)
    })
}

/// Asks `mfer_samples`.
pub fn samples(file: &[u8], frame: u32, channel: u32, first: u64, out: &mut [u64]) -> Filled {
    // SAFETY: see the module's first lines.
    filled(|count, place| unsafe {
        mfer_samples(
            file.as_ptr(),
            file.len(),
            frame,
            channel,
            first,
            out.as_mut_ptr(),
            out.len(),
            count,
            place,
        )
    })
}

/// Asks `mfer_values`.
pub fn values(
    file: &[u8],
    frame: u32,
    channel: u32,
    first: u64,
    kinds: &mut [u8],
    wholes: &mut [i64],
) -> Filled {
    // SAFETY: see the module's first lines.
    filled(|count, place| unsafe {
        mfer_values(
            file.as_ptr(),
            file.len(),
            frame,
            channel,
            first,
            kinds.as_mut_ptr(),
            kinds.len(),
            wholes.as_mut_ptr(),
            wholes.len(),
            count,
            place,
        )
    })
}

/// Asks `mfer_walk_open`.
pub fn walk_open(file: &[u8], walk: &mut Walk) -> Checked {
    let (mut frames, mut place) = (UNSET, UNSET);
    // SAFETY: see the module's first lines.
    let number =
        unsafe { mfer_walk_open(file.as_ptr(), file.len(), walk, &mut frames, &mut place) };
    Checked {
        number,
        frames,
        place,
    }
}

/// What `mfer_walk_next` answers, but for the walk.
#[derive(Clone, Copy, PartialEq, Eq, Debug)]
pub struct Stepped {
    /// The refusal's number, 0 for none; 20 behind the last frame.
    pub number: u32,
    /// The frame's start pointer.
    pub start: i64,
    /// Channels, sequences, byte order (1 for little-endian), place and length of the waveform,
    /// octets of a sequence.
    pub frame: [u64; FRAME_NUMBERS],
    /// The refusal's place.
    pub place: u64,
}

/// Asks `mfer_walk_next`.
pub fn walk_next(file: &[u8], walk: &mut Walk) -> Stepped {
    let mut start = UNSET as i64;
    let mut frame = [UNSET; FRAME_NUMBERS];
    let mut place = UNSET;
    // SAFETY: see the module's first lines.
    let number = unsafe {
        mfer_walk_next(
            file.as_ptr(),
            file.len(),
            walk,
            &mut start,
            &mut frame,
            &mut place,
        )
    };
    Stepped {
        number,
        start,
        frame,
        place,
    }
}

/// What `mfer_walk_channel` answers.
#[derive(Clone, Copy, PartialEq, Eq, Debug)]
pub struct Seen {
    /// What `mfer_attributes` answers.
    pub described: Described,
    /// The octets of a sequence that come ahead of the channel's.
    pub below: u64,
}

/// Asks `mfer_walk_channel`.
pub fn walk_channel(walk: &Walk, channel: u32) -> Seen {
    let mut numbers = [UNSET as i64; NUMBERS];
    let mut bits = [UNSET; 2];
    let (mut below, mut place) = (UNSET, UNSET);
    // SAFETY: see the module's first lines.
    let number = unsafe {
        mfer_walk_channel(
            walk,
            channel,
            &mut numbers,
            &mut bits,
            &mut below,
            &mut place,
        )
    };
    let described = Described {
        number,
        numbers,
        bits,
        place,
    };
    Seen { described, below }
}

/// Asks `mfer_walk_samples_there`.
pub fn walk_samples_there(walk: &Walk, channel: u32) -> Filled {
    // SAFETY: see the module's first lines.
    filled(|count, place| unsafe { mfer_walk_samples_there(walk, channel, count, place) })
}

/// Asks `mfer_walk_samples`.
pub fn walk_samples(file: &[u8], walk: &Walk, channel: u32, first: u64, out: &mut [u64]) -> Filled {
    // SAFETY: see the module's first lines.
    filled(|count, place| unsafe {
        mfer_walk_samples(
            file.as_ptr(),
            file.len(),
            walk,
            channel,
            first,
            out.as_mut_ptr(),
            out.len(),
            count,
            place,
        )
    })
}

/// Asks `mfer_walk_frame`.
pub fn walk_frame(file: &[u8], walk: &Walk, out: &mut [u64]) -> Filled {
    // SAFETY: see the module's first lines.
    filled(|count, place| unsafe {
        mfer_walk_frame(
            file.as_ptr(),
            file.len(),
            walk,
            out.as_mut_ptr(),
            out.len(),
            count,
            place,
        )
    })
}

/// Asks `mfer_walk_values`.
pub fn walk_values(
    file: &[u8],
    walk: &Walk,
    channel: u32,
    first: u64,
    kinds: &mut [u8],
    wholes: &mut [i64],
) -> Filled {
    // SAFETY: see the module's first lines.
    filled(|count, place| unsafe {
        mfer_walk_values(
            file.as_ptr(),
            file.len(),
            walk,
            channel,
            first,
            kinds.as_mut_ptr(),
            kinds.len(),
            wholes.as_mut_ptr(),
            wholes.len(),
            count,
            place,
        )
    })
}

/// Asks `mfer_canonical_length`.
pub fn canonical_length(file: &[u8]) -> Filled {
    // SAFETY: see the module's first lines.
    filled(|count, place| unsafe { mfer_canonical_length(file.as_ptr(), file.len(), count, place) })
}

/// Asks `mfer_canonical`.
pub fn canonical(file: &[u8], out: &mut [u8]) -> Filled {
    // SAFETY: see the module's first lines.
    filled(|count, place| unsafe {
        mfer_canonical(
            file.as_ptr(),
            file.len(),
            out.as_mut_ptr(),
            out.len(),
            count,
            place,
        )
    })
}

/// Asks `mfer_make_frame`. `numbers` are rows of [`NUMBERS`], `bits` rows of two, one for each channel.
pub fn make_frame(
    start: i64,
    sequences: u64,
    channels: u64,
    numbers: &[i64],
    bits: &[u64],
    samples: &[u8],
    out: &mut [u8],
) -> Filled {
    // SAFETY: see the module's first lines.
    filled(|count, place| unsafe {
        mfer_make_frame(
            start,
            sequences,
            channels,
            numbers.as_ptr(),
            numbers.len(),
            bits.as_ptr(),
            bits.len(),
            samples.as_ptr(),
            samples.len(),
            out.as_mut_ptr(),
            out.len(),
            count,
            place,
        )
    })
}
