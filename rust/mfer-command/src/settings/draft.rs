//! A frame as a text of settings has it, and what it comes to.

use super::cause;
use super::{Setting, BLOCK, COUNT, SETTINGS};
use crate::failure::Failure;
use crate::lines::quoted;
use mfer::{ChannelSettings, FrameSettings, Refusal};
use std::ffi::OsStr;
use std::str::FromStr;

/// A frame as a text describes it. The library takes its settings.
pub struct Described {
    /// Sequences are 0 where they are left out.
    pub settings: FrameSettings,
    /// Sequences are left out: they go by the number of samples.
    pub by_length: bool,
    /// The block length that stands ahead of the channels.
    block: u32,
}

impl Described {
    /// Where the next frame's start pointer is continued.
    fn end(&self) -> i64 {
        let FrameSettings {
            start, sequences, ..
        } = self.settings;
        let steps = u64::from(self.block).saturating_mul(sequences);
        start.saturating_add_unsigned(steps)
    }
}

/// What is expected of a frame's own settings.
pub const START: &str = "a number from -2147483648 to 2147483647";
pub const SEQUENCES: &str = "a number from 0 to 4294967295";
pub const CHANNELS: &str = "a number from 1 to 256";

/// One channel more than a frame may have is enough to have it refused.
const MOST_CHANNELS: usize = 257;

/// What a line sets.
pub struct Given {
    pub line: u64,
    pub text: String,
}

/// What lines set of a channel, or of all channels.
pub type Section = [Option<Given>; COUNT];

/// A line that cannot stand so, and why.
pub struct Wrong {
    line: u64,
    words: String,
    /// The library's answer, where it is the library that does not take the line.
    refusal: Option<Refusal>,
}

impl Wrong {
    pub fn new(line: u64, words: String) -> Wrong {
        Wrong {
            line,
            words,
            refusal: None,
        }
    }

    pub fn value(line: u64, name: &str, expected: &str, found: &str) -> Wrong {
        let found = quoted(found);
        Wrong::new(line, format!("{name}: expected {expected}, found {found}"))
    }

    /// `frame` is the number of the line's frame.
    pub fn failure(self, name: &OsStr, frame: usize) -> Failure {
        let Wrong { line, words, .. } = self;
        match self.refusal {
            None => Failure::line(name, line, &words),
            Some(refusal) => {
                let place = format!("line {line}: frame {frame}");
                Failure::refused_in(name, &place, format!("{refusal}: {words}"))
            }
        }
    }
}

/// The first of the lines that are wrong. A text may have many, so no other is kept.
#[derive(Default)]
pub struct First(pub Option<Wrong>);

impl First {
    /// Of two in one line the one that was there stays.
    pub fn add(&mut self, wrong: Wrong) {
        match &self.0 {
            Some(first) if first.line <= wrong.line => {}
            _ => self.0 = Some(wrong),
        }
    }
}

/// The lines of a frame.
#[derive(Default)]
pub struct Draft {
    pub line: u64,
    pub start: Option<Given>,
    pub sequences: Option<Given>,
    pub channels: Option<Given>,
    /// What holds for each channel that does not set it itself.
    pub shared: Section,
    /// What each channel sets itself. The last one that is kept is the last of all: channels above
    /// [`MOST_CHANNELS`] take its place.
    pub own: Vec<Section>,
    /// How many channels there are lines for.
    pub lines: u64,
    wrong: First,
}

/// Lines one after another.
impl Draft {
    /// A frame that begins in this line; `value` is what stands behind the word.
    pub fn new(line: u64, value: &str) -> Draft {
        let mut draft = Draft {
            line,
            ..Draft::default()
        };
        draft.expect_nothing(line, "frame", value);
        draft
    }

    /// Takes a line of the frame.
    pub fn take(&mut self, line: u64, word: &str, text: String) {
        if word == "channel" {
            self.expect_nothing(line, word, &text);
            self.lines += 1;
            self.own.truncate(MOST_CHANNELS - 1);
            self.own.push(Section::default());
            return;
        }
        let words = match self.slot(word) {
            Ok(slot @ None) => {
                *slot = Some(Given { line, text });
                return;
            }
            Ok(Some(given)) => format!("{word}: expected once, is in line {} too", given.line),
            Err(words) => words,
        };
        self.wrong.add(Wrong::new(line, words));
    }

    fn expect_nothing(&mut self, line: u64, word: &str, value: &str) {
        if !value.is_empty() {
            let wrong = Wrong::value(line, word, "nothing behind it", value);
            self.wrong.add(wrong);
        }
    }

    /// Where that is kept which a word sets.
    fn slot(&mut self, word: &str) -> Result<&mut Option<Given>, String> {
        if let Some(number) = SETTINGS.iter().position(|setting| setting.name == word) {
            let section = self.own.last_mut().unwrap_or(&mut self.shared);
            return Ok(&mut section[number]);
        }
        let slot = match word {
            "start" => &mut self.start,
            "sequences" => &mut self.sequences,
            "channels" => &mut self.channels,
            _ => {
                let found = quoted(word);
                let known = "frame, channel, start, sequences, channels";
                let more = SETTINGS.map(|setting| setting.name).join(", ");
                return Err(format!("expected one of {known}, {more}, found {found}"));
            }
        };
        match self.own.is_empty() {
            true => Ok(slot),
            false => Err(format!(
                "{word}: expected ahead of the frame's first channel"
            )),
        }
    }
}

/// What they come to.
impl Draft {
    /// The frame, or the first line that is wrong. `before` is the frame before it; the last frame
    /// may leave out its sequences.
    pub fn described(mut self, before: Option<&Described>, last: bool) -> Result<Described, Wrong> {
        let described = self.describe(before);
        if described.by_length && !last {
            let words = "sequences: expected in every frame but the last, found nothing";
            self.wrong.add(Wrong::new(self.line, words.into()));
        }
        if let Some(refusal) = cause::refusal(&described.settings) {
            let cause = cause::cause(&self, &described.settings);
            self.wrong.add(Wrong {
                refusal: Some(refusal),
                ..cause
            });
        }
        match self.wrong.0 {
            None => Ok(described),
            Some(first) => Err(first),
        }
    }

    /// The frame, as far as its lines can be read. One that says nothing of its channels has those of
    /// the frame before it.
    fn describe(&mut self, before: Option<&Described>) -> Described {
        let start = number(&self.start, "start", START, &mut self.wrong);
        let sequences = number(&self.sequences, "sequences", SEQUENCES, &mut self.wrong);
        let (channels, block) = match before {
            Some(before) if self.lacks_channels() => {
                (before.settings.channels.clone(), before.block)
            }
            _ => (self.channels(), self.block()),
        };
        Described {
            settings: FrameSettings {
                start: start.unwrap_or_else(|| before.map_or(0, Described::end)),
                sequences: sequences.unwrap_or(0),
                channels,
            },
            by_length: self.sequences.is_none(),
            block,
        }
    }

    fn lacks_channels(&self) -> bool {
        let shared = self.shared.iter().any(Option::is_some);
        !shared && self.channels.is_none() && self.own.is_empty()
    }

    fn channels(&mut self) -> Vec<ChannelSettings> {
        let Draft { shared, wrong, .. } = self;
        let count: Option<u64> = number(&self.channels, "channels", CHANNELS, wrong);
        let lines = self.lines;
        match &self.channels {
            Some(given) if lines > 0 && count != Some(lines) => {
                let expected = format!("{lines}, as many as lines 'channel' follow");
                wrong.add(Wrong::value(given.line, "channels", &expected, &given.text));
            }
            _ => {}
        }
        if lines == 0 {
            let alike = channel(&Section::default(), shared, wrong);
            return vec![alike; count.unwrap_or(1).min(MOST_CHANNELS as u64) as usize];
        }
        let channel = |own: &Section| channel(own, shared, wrong);
        let channels: Vec<_> = self.own.iter().map(channel).collect();
        self.read_unused(channels[0]);
        channels
    }

    /// Reads what holds for no channel, since each has a line of its own for it.
    fn read_unused(&mut self, mut channel: ChannelSettings) {
        for (number, setting) in SETTINGS.iter().enumerate() {
            let unused = self.own.iter().all(|own| own[number].is_some());
            if let Some(given) = self.shared[number].as_ref().filter(|_| unused) {
                read(setting, given, &mut channel, &mut self.wrong);
            }
        }
    }

    /// The block length that stands ahead of the channels.
    fn block(&self) -> u32 {
        let mut channel = ChannelSettings::default();
        if let Some(given) = &self.shared[BLOCK] {
            (SETTINGS[BLOCK].read)(&given.text, &mut channel);
        }
        channel.block
    }
}

/// The number that is given, if one is. What is no number is wrong.
fn number<T: FromStr>(
    given: &Option<Given>,
    name: &str,
    expected: &str,
    wrong: &mut First,
) -> Option<T> {
    let Given { line, text } = given.as_ref()?;
    let number = text.parse().ok();
    if number.is_none() {
        wrong.add(Wrong::value(*line, name, expected, text));
    }
    number
}

/// A channel: each setting its own, else the one for all channels, else the default.
fn channel(own: &Section, shared: &Section, wrong: &mut First) -> ChannelSettings {
    let mut channel = ChannelSettings::default();
    for (setting, given) in SETTINGS.iter().zip(standing(own, shared)) {
        if let Some(given) = given {
            read(setting, given, &mut channel, wrong);
        }
    }
    channel
}

/// What holds for a channel, setting by setting.
pub fn standing<'a>(
    own: &'a Section,
    shared: &'a Section,
) -> impl Iterator<Item = Option<&'a Given>> {
    let pairs = own.iter().zip(shared);
    pairs.map(|(own, shared)| own.as_ref().or(shared.as_ref()))
}

/// Sets what is given. What cannot be read is wrong.
fn read(setting: &Setting, given: &Given, channel: &mut ChannelSettings, wrong: &mut First) {
    let Given { line, text } = given;
    if (setting.read)(text, channel).is_none() {
        wrong.add(Wrong::value(*line, setting.name, setting.expected, text));
    }
}
