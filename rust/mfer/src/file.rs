//! A file and the questions it can be asked.
#![forbid(unsafe_code)]

use crate::attributes::Attributes;
use crate::ffi;
use crate::iterators::{Channel, Frame, Frames};
use crate::refusal::Refusal;
use crate::value::Sample;
use std::fmt;

/// The octets of a file. Any octets will do: what is no MFER file is refused when it is asked.
#[derive(Clone, Copy)]
pub struct File<'a>(&'a [u8]);

/// Its length: the octets can be many.
impl fmt::Debug for File<'_> {
    fn fmt(&self, f: &mut fmt::Formatter<'_>) -> fmt::Result {
        let octets = self.0.len();
        f.debug_struct("File").field("octets", &octets).finish()
    }
}

impl<'a> File<'a> {
    /// The most octets a file may have.
    pub const LIMIT: u64 = 2_147_483_647;

    /// The most frames a file may have.
    pub const MAX_FRAMES: u32 = 4_096;

    /// What stands ahead of the first frame of a file that is made: samples are big-endian.
    pub const HEAD: [u8; 3] = [0x01, 0x01, 0x00];

    /// The file of these octets.
    pub const fn new(octets: &'a [u8]) -> File<'a> {
        File(octets)
    }

    /// The file's octets.
    pub const fn octets(&self) -> &'a [u8] {
        self.0
    }

    /// Checks the file and counts its frames.
    ///
    /// ```
    /// use mfer::{File, Refusal};
    ///
    /// assert_eq!(File::new(&[]).check(), Ok(0));
    /// assert_eq!(File::new(&[0x1E, 0x00]).check(), Ok(1));
    /// let refusal = Refusal { number: Refusal::LENGTH_OCTET, place: 0 };
    /// assert_eq!(File::new(&[0x0A, 0x80]).check(), Err(refusal));
    /// ```
    pub fn check(&self) -> Result<u32, Refusal> {
        let checked = ffi::check(self.0);
        Refusal::or(checked.number, checked.place, checked.frames as u32)
    }

    /// The attributes of a channel in a frame.
    pub fn attributes(&self, frame: u32, channel: u32) -> Result<Attributes, Refusal> {
        let described = ffi::attributes(self.0, frame, channel);
        Refusal::or(described.number, described.place, ())?;
        Ok(Attributes::of(&described))
    }

    /// How many samples of a channel in a frame are there: the first ones of those that it declares. See
    /// [`Channel::samples_there`].
    pub fn samples_there(&self, frame: u32, channel: u32) -> Result<u64, Refusal> {
        let filled = ffi::samples_there(self.0, frame, channel);
        Refusal::or(filled.number, filled.place, filled.count)
    }

    /// The place, bits and value of a sample. One that is declared and not there is
    /// [`Value::NoData`](crate::Value::NoData).
    ///
    /// ```
    /// use mfer::{File, Value};
    ///
    /// let sample = File::new(&[0x1E, 0x02, 0x00, 0x05]).sample(0, 0, 0)?;
    /// assert_eq!((sample.place, sample.value), (2, Value::Whole(5)));
    /// # Ok::<(), mfer::Refusal>(())
    /// ```
    ///
    /// Two samples are declared, and the recorder stopped after the first:
    ///
    /// ```
    /// use mfer::{File, Refusal, Value};
    ///
    /// let file = File::new(&[0x06, 0x01, 0x02, 0x1E, 0x02, 0x00, 0x05]);
    /// assert_eq!(file.samples_there(0, 0)?, 1);
    /// let sample = file.sample(0, 0, 0)?;
    /// assert_eq!((sample.place, sample.value), (5, Value::Whole(5)));
    /// let lacking = file.sample(0, 0, 1)?;
    /// assert_eq!((lacking.place, lacking.bits, lacking.value), (0, 0, Value::NoData));
    /// assert_eq!(file.sample(0, 0, 2).unwrap_err().number, Refusal::NO_SAMPLE);
    /// # Ok::<(), Refusal>(())
    /// ```
    pub fn sample(&self, frame: u32, channel: u32, number: u64) -> Result<Sample, Refusal> {
        let sampled = ffi::sample(self.0, frame, channel, number);
        Refusal::or(sampled.number, sampled.place, ())?;
        Ok(Sample::of(&sampled))
    }

    /// Fills `out` with the bits of consecutive samples from `first` on, as many as fit or are there, and
    /// answers how many: 0 where `first` is declared and not there. The rest of `out` keeps what it held.
    /// Bits are not sign extended.
    pub fn samples(
        &self,
        frame: u32,
        channel: u32,
        first: u64,
        out: &mut [u64],
    ) -> Result<usize, Refusal> {
        let filled = ffi::samples(self.0, frame, channel, first, out);
        Refusal::or(filled.number, filled.place, filled.count as usize)
    }

    /// Fills `kinds` and `wholes` with the kinds and the whole numbers of consecutive samples from
    /// `first` on, as many as fit in both or are there, and answers how many: 0 where `first` is declared
    /// and not there. The rest of both keeps what it held. Kinds are 0 whole, 1 status, 2 single, 3 double,
    /// 4 not-a-number and 5 null; the number of a value that is not whole is 0.
    ///
    /// ```
    /// use mfer::File;
    ///
    /// let file = File::new(&[0x0A, 1, 5, 0x12, 1, 0x80, 0x1E, 3, 1, 0x80, 0xFF]);
    /// let (mut kinds, mut wholes) = ([9; 4], [9; 4]);
    /// assert_eq!(file.values(0, 0, 0, &mut kinds, &mut wholes), Ok(3));
    /// assert_eq!((kinds, wholes), ([0, 5, 0, 9], [1, 0, -1, 9]));
    /// ```
    pub fn values(
        &self,
        frame: u32,
        channel: u32,
        first: u64,
        kinds: &mut [u8],
        wholes: &mut [i64],
    ) -> Result<usize, Refusal> {
        let filled = ffi::values(self.0, frame, channel, first, kinds, wholes);
        Refusal::or(filled.number, filled.place, filled.count as usize)
    }

    /// The length of the canonical file: the octets that [`File::canonical`] needs.
    /// [`Refusal::NO_ROOM`] here says that it is longer than a file may be.
    ///
    /// ```
    /// use mfer::File;
    ///
    /// assert_eq!(File::new(&[]).canonical_length(), Ok(0));
    /// assert_eq!(File::new(&[0x1E, 0x03, 0x00, 0x01, 0x02]).canonical_length(), Ok(67));
    /// ```
    pub fn canonical_length(&self) -> Result<usize, Refusal> {
        let filled = ffi::canonical_length(self.0);
        Refusal::or(filled.number, filled.place, filled.count as usize)
    }

    /// Writes the canonical file to the start of `out` and answers its length. The octets past it
    /// keep what they held; at a refusal all do.
    ///
    /// ```
    /// use mfer::File;
    ///
    /// let mut out = [0xA5; 70];
    /// let length = File::new(&[0x1E, 0x03, 0x00, 0x01, 0x02]).canonical(&mut out)?;
    /// assert_eq!(length, 67);
    /// assert_eq!(out[63..], [0x1E, 0x02, 0x00, 0x01, 0xA5, 0xA5, 0xA5]);
    /// # Ok::<(), mfer::Refusal>(())
    /// ```
    pub fn canonical(&self, out: &mut [u8]) -> Result<usize, Refusal> {
        let filled = ffi::canonical(self.0, out);
        Refusal::or(filled.number, filled.place, filled.count as usize)
    }

    /// The canonical file, in a vector of just its length. It goes through the file's items three
    /// times. [`Refusal::NO_ROOM`] here says that it is longer than a file may be.
    pub fn canonical_vec(&self) -> Result<Vec<u8>, Refusal> {
        let mut out = vec![0; self.canonical_length()?];
        self.canonical(&mut out)?;
        Ok(out)
    }

    /// The frames in order, if the file is accepted: the way to read all of a file. The file is
    /// checked here, and gone through once more in all steps together.
    pub fn frames(&self) -> Result<Frames<'a>, Refusal> {
        Frames::open(*self)
    }

    /// A frame. To reach it the file is checked, and gone through as far as the frame.
    ///
    /// ```
    /// use mfer::{File, Refusal};
    ///
    /// let file = File::new(&[0x1E, 2, 0, 5, 0x1E, 4, 0, 6, 0, 7]);
    /// assert_eq!(file.frame(1)?.sequences(), 2);
    /// assert_eq!(file.frame(2).unwrap_err().number, Refusal::NO_FRAME);
    /// # Ok::<(), Refusal>(())
    /// ```
    pub fn frame(&self, frame: u32) -> Result<Frame<'a>, Refusal> {
        let missing = Refusal {
            number: Refusal::NO_FRAME,
            place: 0,
        };
        self.frames()?.nth(frame as usize).unwrap_or(Err(missing))
    }

    /// A channel in a frame, which is reached as by [`File::frame`].
    pub fn channel(&self, frame: u32, channel: u32) -> Result<Channel<'a>, Refusal> {
        self.frame(frame)?.channel(channel)
    }
}
