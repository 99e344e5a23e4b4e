//! A text line by line, each with its number.

use crate::failure::Failure;
use crate::input::Input;
use std::borrow::Cow;
use std::ffi::OsStr;

/// The lines of a file or of standard input.
pub struct Lines<'a> {
    input: Input<'a>,
    /// The number of the line that was read last, from 1.
    number: u64,
    line: Vec<u8>,
}

impl<'a> Lines<'a> {
    /// More octets than a line has that says anything. What is no text is not read whole for its
    /// first line.
    const LONGEST: u64 = 4096;

    /// What some programs put ahead of a text.
    const MARK: &'static [u8] = "\u{FEFF}".as_bytes();

    pub fn open(name: &'a OsStr) -> Result<Lines<'a>, Failure> {
        Ok(Lines {
            input: Input::open(name)?,
            number: 0,
            line: Vec::new(),
        })
    }

    pub fn number(&self) -> u64 {
        self.number
    }

    /// The next line, without blanks at its end. What is no UTF-8 in it is replaced.
    pub fn next(&mut self) -> Result<Option<Cow<'_, str>>, Failure> {
        self.input.take_line(Self::LONGEST, &mut self.line)?;
        if self.line.is_empty() {
            return Ok(None);
        }
        self.number += 1;
        if self.line.len() as u64 == Self::LONGEST && !self.line.ends_with(b"\n") {
            let words = format!("expected a line of fewer than {} octets", Self::LONGEST);
            return Err(self.wrong(&words));
        }
        let line = match self.number {
            1 => self.line.strip_prefix(Self::MARK).unwrap_or(&self.line),
            _ => &self.line,
        };
        Ok(Some(String::from_utf8_lossy(line.trim_ascii_end())))
    }

    /// The line that was read last is not as expected.
    pub fn wrong(&self, words: &str) -> Failure {
        Failure::line(self.input.name(), self.number, words)
    }
}

/// Text of a line as it is quoted in words: its beginning, and nothing in it that a terminal obeys.
pub fn quoted(text: &str) -> String {
    const MOST: usize = 40;
    let mut quoted: String = text
        .chars()
        .take(MOST)
        .flat_map(char::escape_debug)
        .collect();
    if text.chars().nth(MOST).is_some() {
        quoted.push_str("..");
    }
    match text {
        "" => "nothing".into(),
        _ => format!("'{quoted}'"),
    }
}
