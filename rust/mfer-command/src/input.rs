//! Reading a file or standard input, and choosing frames of what was read.

use crate::failure::Failure;
use crate::progress::Progress;
use mfer::{File, Frame, Refusal};
use std::ffi::OsStr;
use std::fs;
use std::io::{self, BufRead, BufReader, Read};
use std::iter;

/// One octet more than a file may have is enough to have it refused.
pub const MOST: u64 = File::LIMIT + 1;

/// Octets read in one go.
const CHUNK: u64 = 1 << 24;

/// How a file is called in messages.
pub fn shown(name: &OsStr) -> String {
    match name == "-" {
        true => "standard input".into(),
        false => name.display().to_string(),
    }
}

/// The octets of the file of this name, or of standard input for `-`.
pub fn read(name: &OsStr) -> Result<Vec<u8>, Failure> {
    Input::open(name)?.take(MOST)
}

/// A file or standard input, read piece by piece.
pub struct Input<'a> {
    name: &'a OsStr,
    reader: Box<dyn BufRead>,
    /// Octets that are to be expected; 0 where that is not known.
    left: u64,
}

impl<'a> Input<'a> {
    pub fn open(name: &'a OsStr) -> Result<Input<'a>, Failure> {
        let (reader, left): (Box<dyn BufRead>, u64) = match name == "-" {
            true => (Box::new(io::stdin().lock()), 0),
            false => {
                let file = fs::File::open(name).map_err(|error| Failure::file(name, error))?;
                let length = file.metadata().map_or(0, |metadata| metadata.len());
                (Box::new(BufReader::with_capacity(1 << 16, file)), length)
            }
        };
        Ok(Input { name, reader, left })
    }

    pub fn name(&self) -> &'a OsStr {
        self.name
    }

    /// The next octets, `most` of them or as many as there are.
    pub fn take(&mut self, most: u64) -> Result<Vec<u8>, Failure> {
        let expected = self.left.min(most);
        let mut octets = Vec::with_capacity(expected as usize);
        let mut progress = Progress::new("reading");
        loop {
            let done = octets.len() as u64;
            let chunk = CHUNK.min(most - done);
            let read = self.reader.by_ref().take(chunk).read_to_end(&mut octets);
            let count = read.map_err(|error| Failure::file(self.name, error))? as u64;
            self.left = self.left.saturating_sub(count);
            if count < chunk || octets.len() as u64 == most {
                return Ok(octets);
            }
            progress.step(done + chunk, expected);
        }
    }

    /// The next octets up to the end of a line, `most` of them or as many as there are.
    pub fn take_line(&mut self, most: u64, line: &mut Vec<u8>) -> Result<(), Failure> {
        line.clear();
        let read = self.reader.by_ref().take(most).read_until(b'\n', line);
        read.map_err(|error| Failure::file(self.name, error))?;
        Ok(())
    }

    /// Whether there are no more octets.
    pub fn is_empty(&mut self) -> Result<bool, Failure> {
        let next = self.reader.fill_buf();
        let next = next.map_err(|error| Failure::file(self.name, error))?;
        Ok(next.is_empty())
    }
}

/// How many frames a file has, and all of them or the one of the number `only`.
pub fn chosen<'a>(file: File<'a>, only: Option<u32>) -> Result<(u64, Chosen<'a>), Refusal> {
    let frames = file.frames()?;
    let count = frames.len() as u64;
    Ok(match only {
        None => (count, Box::new(frames)),
        Some(number) => (count, Box::new(iter::once(Ok(file.frame(number)?)))),
    })
}

pub type Chosen<'a> = Box<dyn Iterator<Item = Result<Frame<'a>, Refusal>> + 'a>;
