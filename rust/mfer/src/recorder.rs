//! Making a file, frame after frame.
#![forbid(unsafe_code)]

use crate::file::File;
use crate::refusal::Refusal;
use crate::settings::{FrameSettings, Rows};
use std::error::Error;
use std::fmt;
use std::io::{self, Write};

/// Makes a file of frames and hands it to a writer, frame after frame.
///
/// [`File::HEAD`] goes ahead of the first frame: without a frame no octet is written. Each frame is
/// written in one piece, and nothing of it is held back. The recorder keeps a buffer that is as long as
/// the longest frame so far.
///
/// ```
/// use mfer::{ChannelSettings, File, FrameSettings, Recorder};
///
/// let mut settings = FrameSettings {
///     start: 0,
///     sequences: 2,
///     channels: vec![ChannelSettings::default()],
/// };
/// let mut recorder = Recorder::new(Vec::new());
/// recorder.frame(&settings, &[0, 1, 0, 2])?;
/// settings.start = 2;
/// recorder.frame(&settings, &[0, 3, 0, 4])?;
/// assert_eq!(recorder.frames(), 2);
/// let octets = recorder.finish()?;
/// assert_eq!(File::new(&octets).check()?, 2);
/// # Ok::<(), Box<dyn std::error::Error>>(())
/// ```
///
/// # When the writer fails
///
/// Then it may hold a part of a frame, behind which no other can stand. So a recorder whose writer has
/// failed takes no more frames: [`RecordError::Broken`]. What the writer was handed before, the first
/// [`Recorder::octets`], is a file of [`Recorder::frames`] frames: whoever can cut the rest off keeps it.
pub struct Recorder<W> {
    writer: W,
    frames: u32,
    octets: u64,
    /// The writer has failed, or is being asked: it may panic.
    broken: bool,
    rows: Rows,
    /// [`File::HEAD`], and behind it the frame that was made last.
    buffer: Vec<u8>,
}

/// What it has written: the writer's octets can be many.
impl<W> fmt::Debug for Recorder<W> {
    fn fmt(&self, f: &mut fmt::Formatter<'_>) -> fmt::Result {
        f.debug_struct("Recorder")
            .field("frames", &self.frames)
            .field("octets", &self.octets)
            .field("broken", &self.broken)
            .finish_non_exhaustive()
    }
}

impl<W: Write> Recorder<W> {
    /// A recorder of a file that has no frame yet.
    pub fn new(writer: W) -> Recorder<W> {
        Recorder {
            writer,
            frames: 0,
            octets: 0,
            broken: false,
            rows: Rows::default(),
            buffer: File::HEAD.to_vec(),
        }
    }

    /// Makes a frame, as [`FrameSettings::make`] does, and writes it.
    ///
    /// Refused with [`Refusal::SETTING_RANGE`] and [`Refusal::SAMPLES_LENGTH`] as there. Then come the
    /// refusals that a reader of the file would give: [`Refusal::LONG_FILE`] where it would pass
    /// [`File::LIMIT`], and [`Refusal::MANY_FRAMES`] where it would pass [`File::MAX_FRAMES`]. The place is
    /// 0. Of a refused frame nothing is written, and the recorder goes on without it.
    pub fn frame(&mut self, settings: &FrameSettings, samples: &[u8]) -> Result<(), RecordError> {
        self.unbroken()?;
        let end = File::HEAD.len() + self.make(settings, samples)?;
        let begin = match self.frames {
            0 => 0,
            _ => File::HEAD.len(),
        };
        let octets = self.octets + (end - begin) as u64;
        if octets > File::LIMIT {
            return Err(refused(Refusal::LONG_FILE));
        }
        if self.frames == File::MAX_FRAMES {
            return Err(refused(Refusal::MANY_FRAMES));
        }
        self.broken = true;
        let written = self.writer.write_all(&self.buffer[begin..end]);
        written.map_err(RecordError::Write)?;
        self.broken = false;
        self.frames += 1;
        self.octets = octets;
        Ok(())
    }

    /// Makes a frame in the buffer and answers its length. The buffer has room for any frame, so one that
    /// does not fit is too long for a file.
    fn make(&mut self, settings: &FrameSettings, samples: &[u8]) -> Result<usize, RecordError> {
        let room = File::HEAD.len() + settings.most_room(samples);
        if self.buffer.len() < room {
            self.buffer = vec![0; room];
            self.buffer[..File::HEAD.len()].copy_from_slice(&File::HEAD);
        }
        let out = &mut self.buffer[File::HEAD.len()..];
        let made = settings.make_with(&mut self.rows, samples, out);
        made.map_err(|refusal| match refusal.number {
            Refusal::NO_ROOM => refused(Refusal::LONG_FILE),
            _ => RecordError::Refused(refusal),
        })
    }

    fn unbroken(&self) -> Result<(), RecordError> {
        match self.broken {
            true => Err(RecordError::Broken),
            false => Ok(()),
        }
    }

    /// How many frames the file has.
    pub fn frames(&self) -> u32 {
        self.frames
    }

    /// How many octets the file has. A frame at which the writer failed is not counted.
    pub fn octets(&self) -> u64 {
        self.octets
    }

    /// The writer.
    pub fn get_ref(&self) -> &W {
        &self.writer
    }

    /// Flushes the writer.
    pub fn flush(&mut self) -> Result<(), RecordError> {
        self.unbroken()?;
        self.broken = true;
        self.writer.flush().map_err(RecordError::Write)?;
        self.broken = false;
        Ok(())
    }

    /// Flushes the writer and hands it back. At an error it is dropped; [`Recorder::flush`] and
    /// [`Recorder::into_inner`] keep it.
    pub fn finish(mut self) -> Result<W, RecordError> {
        self.flush()?;
        Ok(self.writer)
    }

    /// Hands the writer back as it is, also that of a broken recorder.
    pub fn into_inner(self) -> W {
        self.writer
    }
}

/// A refusal that is about no item.
fn refused(number: u32) -> RecordError {
    RecordError::Refused(Refusal { number, place: 0 })
}

/// Why a recorder did not do what it was asked for.
#[derive(Debug)]
pub enum RecordError {
    /// The frame is refused. Nothing of it is written, and the recorder takes other frames.
    Refused(Refusal),
    /// The writer failed. The recorder takes no more frames.
    Write(io::Error),
    /// The writer failed before. Nothing more is written.
    Broken,
}

impl fmt::Display for RecordError {
    fn fmt(&self, f: &mut fmt::Formatter<'_>) -> fmt::Result {
        match self {
            RecordError::Refused(refusal) => refusal.fmt(f),
            RecordError::Write(error) => error.fmt(f),
            RecordError::Broken => f.write_str("the recorder's writer failed before"),
        }
    }
}

/// It says what its inner error says, so its source is that one's.
impl Error for RecordError {
    fn source(&self) -> Option<&(dyn Error + 'static)> {
        match self {
            RecordError::Refused(refusal) => refusal.source(),
            RecordError::Write(error) => error.source(),
            RecordError::Broken => None,
        }
    }
}
