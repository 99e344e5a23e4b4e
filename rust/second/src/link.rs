//! A file that comes in pieces, as over a serial link. Octets go in as they arrive. A waveform's settings
//! come out behind its head, its samples each with its last octet, and the verdict at the octet that
//! settles it, or when the caller says the end.
//!
//! Octets are taken one after the other. Between two of them the link keeps the settings that stand, how
//! far the item at hand has come, the first octets of a value that may define something and those of one
//! sample: never a waveform, and of a definite group no more than the first fault in it.
//!
//! An item that is cut off outranks a fault in its length or value. So these are found with the value's
//! last octet, and every fault in a definite group waits for the last octet of the group.

use crate::items::{barred, bits, tag};
use crate::reader::{channels, value, Attributes, Refusal, Value};
use crate::scan::{Frame, Standing, FILE_LIMIT};
use crate::settings::Record;

/// The number of frames, or why the file is refused: what the check answers for the whole file.
pub type Verdict = Result<u32, Refusal>;

/// What one call took and gave out.
#[derive(Clone, PartialEq, Eq, Debug)]
pub struct Fed {
    /// Octets taken from the front of the piece.
    pub taken: usize,
    /// The samples that they completed, in order of place.
    pub given: Vec<Given>,
    pub event: Event,
}

/// Why a call took no more octets.
#[derive(Clone, PartialEq, Eq, Debug)]
pub enum Event {
    /// The piece is used up, or the next octet completes a sample for which there is no room.
    Nothing,
    /// The head of a waveform has come; none of its own octets is taken yet.
    Settings(Settings),
    /// The file is refused or ended: nothing is taken any more.
    Verdict(Verdict),
}

/// The settings of a frame; provisional, like its samples, until the waveform's last octet has come.
#[derive(Clone, PartialEq, Eq, Debug)]
pub struct Settings {
    pub frame: u32,
    pub start: i32,
    pub channels: u32,
    pub sequences: u32,
    pub little: bool,
    /// Place and length of the waveform, its surplus included.
    pub place: u64,
    pub length: u64,
    /// Those of each channel in order.
    pub attributes: Vec<Attributes>,
}

/// A sample that has come.
#[derive(Clone, Copy, PartialEq, Eq, Debug)]
pub struct Given {
    pub frame: u32,
    pub channel: u32,
    pub number: u64,
    pub place: u64,
    pub value: Value,
}

/// A file as far as it has come.
pub struct Link {
    standing: Standing,
    /// Octets taken: the place of the next one.
    at: u64,
    /// The group around the item at hand.
    group: Option<Group>,
    /// The item at hand: where its tag is, its tag, its channel number if it is a group, and which part
    /// of it is next.
    place: u64,
    tag: u8,
    channel: u32,
    part: Part,
    verdict: Option<Verdict>,
}

/// A group whose head has come and whose end has not.
#[derive(Clone, Copy)]
struct Group {
    place: u64,
    /// The channel it sets; none where it is ignored.
    channel: Option<usize>,
    /// One past the last octet; none where it is open.
    end: Option<u64>,
    /// What a definite group is refused for at its end.
    fault: Option<Refusal>,
}

/// What the next octet is.
enum Part {
    Tag,
    /// An octet of a channel number; so many may still come.
    Channel {
        left: u8,
    },
    Length,
    /// An octet of a long length; so many are still to come.
    LongLength {
        left: u8,
        length: u64,
    },
    /// An octet of a value that ends before the place `end`.
    Value {
        end: u64,
        content: Content,
    },
}

/// What has come of a value.
enum Content {
    /// Of one that may define something: its first octets.
    First(Vec<u8>),
    /// Of a waveform whose samples are given out.
    Samples(Samples),
    /// It only has to come; then its item is refused with this number, if there is one.
    Passed(Option<u8>),
}

/// The sample at hand of a waveform.
struct Samples {
    frame: Frame<'static>,
    sequence: u32,
    channel: u32,
    in_block: u32,
    place: u64,
    /// Its octets that have come.
    octets: Vec<u8>,
}

/// What an octet brings out.
enum Found {
    Nothing,
    Settings(Settings),
    Sample(Given),
}

impl Default for Link {
    fn default() -> Link {
        Link::new()
    }
}

impl Link {
    /// As many first octets as decide about any definition: with one more than the longest has, the
    /// length is unfit.
    const FIRST: usize = 35;

    /// No octet has come yet.
    pub fn new() -> Link {
        Link {
            standing: Standing::DEFAULT,
            at: 0,
            group: None,
            place: 0,
            tag: 0,
            channel: 0,
            part: Part::Tag,
            verdict: None,
        }
    }

    /// Takes octets from the front of `piece`, while there is room for the samples that they complete:
    /// `room` is how many may be given out. The call ends behind the head of a waveform whose settings it
    /// gives out and behind the octet that settles the verdict. After that it takes nothing and
    /// repeats the verdict.
    pub fn feed(&mut self, piece: &[u8], room: usize) -> Fed {
        let mut fed = Fed {
            taken: 0,
            given: Vec::new(),
            event: Event::Nothing,
        };
        loop {
            if let Some(verdict) = self.verdict {
                fed.event = Event::Verdict(verdict);
                return fed;
            }
            fed.taken += self.pass(piece.len() - fed.taken);
            let full = fed.given.len() == room && self.completes_sample();
            let Some(octet) = piece.get(fed.taken).filter(|_| !full) else {
                return fed;
            };
            fed.taken += 1;
            match self.take(*octet) {
                Found::Nothing => {}
                Found::Sample(given) => fed.given.push(given),
                Found::Settings(settings) => {
                    fed.event = Event::Settings(settings);
                    return fed;
                }
            }
        }
    }

    /// The caller says the end. Said again, and after a refusal, it answers the same.
    pub fn end(&mut self) -> Verdict {
        let refused = |number, place| Err(Refusal { number, place });
        let cut_off = !matches!(self.part, Part::Tag);
        let verdict = match self.group {
            Some(Group {
                place,
                end: Some(_),
                ..
            }) => refused(Refusal::PAST_END, place),
            _ if cut_off => refused(Refusal::PAST_END, self.place),
            Some(open) => refused(Refusal::UNENDED_GROUP, open.place),
            None => Ok(self.standing.frames),
        };
        *self.verdict.get_or_insert(verdict)
    }

    /// Takes at most `most` octets that only have to come, whatever they are, and answers how many. The
    /// last of a value or a definite group is not among them, nor the one that passes the limit.
    fn pass(&mut self, most: usize) -> usize {
        let end = match &self.part {
            Part::Value {
                end,
                content: Content::Passed(_),
            } => *end,
            Part::Value {
                end,
                content: Content::First(octets),
            } if octets.len() == Link::FIRST => *end,
            _ => return 0,
        };
        let group_end = self.group.and_then(|group| group.end).unwrap_or(end);
        let last = end.min(group_end).min(FILE_LIMIT + 1) - 1;
        let passed = (last - self.at).min(most as u64);
        self.at += passed;
        passed as usize
    }

    /// Whether the next octet is the last of a sample.
    fn completes_sample(&self) -> bool {
        match &self.part {
            Part::Value {
                content: Content::Samples(samples),
                ..
            } => samples.octets.len() as u64 + 1 == samples.width(&self.standing),
            _ => false,
        }
    }

    /// Takes an octet.
    fn take(&mut self, octet: u8) -> Found {
        self.at += 1;
        if self.at > FILE_LIMIT {
            let refusal = Refusal::without_place(Refusal::LONG_FILE);
            self.verdict = Some(Err(refusal));
            return Found::Nothing;
        }
        let found = self.read(octet);
        let found = found.and_then(|found| self.end_value().map(|()| found));
        let found = found.unwrap_or_else(|number| {
            self.refuse(number);
            Found::Nothing
        });
        self.end_group();
        found
    }

    /// Refuses the item at hand: in a definite group when that has come, elsewhere at once.
    fn refuse(&mut self, number: u8) {
        let refusal = Refusal {
            number,
            place: self.place,
        };
        match &mut self.group {
            Some(Group {
                end: Some(end),
                fault,
                ..
            }) => {
                *fault = Some(refusal);
                self.part = Part::Value {
                    end: *end,
                    content: Content::Passed(None),
                };
            }
            _ => self.verdict = Some(Err(refusal)),
        }
    }

    /// What the octet means where it stands; the error is the number that the item is refused with.
    fn read(&mut self, octet: u8) -> Result<Found, u8> {
        match &mut self.part {
            Part::Tag => self.read_tag(octet)?,
            Part::Channel { left } => {
                *left -= 1;
                self.channel = self.channel << 7 | u32::from(octet & 0x7F);
                match (octet & 0x80, *left) {
                    (0, _) => self.part = Part::Length,
                    (_, 0) => return Err(Refusal::LONG_CHANNEL),
                    _ => {}
                }
            }
            Part::Length => return self.read_length(octet),
            Part::LongLength { left, length } => {
                *left -= 1;
                *length = *length << 8 | u64::from(octet);
                if *left == 0 {
                    let length = *length;
                    return self.end_head(length);
                }
            }
            Part::Value { content, .. } => match content {
                Content::First(octets) if octets.len() < Link::FIRST => octets.push(octet),
                Content::Samples(samples) => {
                    let sample = samples.take(octet, &self.standing);
                    if !samples.is_declared() {
                        *content = Content::Passed(None);
                    }
                    return Ok(sample.map_or(Found::Nothing, Found::Sample));
                }
                Content::First(_) | Content::Passed(_) => {}
            },
        }
        Ok(Found::Nothing)
    }

    fn read_tag(&mut self, octet: u8) -> Result<(), u8> {
        self.place = self.at - 1;
        self.tag = octet;
        self.channel = 0;
        if octet & tag::CONTEXT != 0 && octet != tag::GROUP {
            return Err(Refusal::CONTEXT_TAG);
        }
        if self.group.is_some() && barred(octet) {
            return Err(Refusal::BARRED_TAG);
        }
        self.part = match octet {
            tag::GROUP => Part::Channel { left: 4 },
            _ => Part::Length,
        };
        Ok(())
    }

    /// The first octet of a length.
    fn read_length(&mut self, octet: u8) -> Result<Found, u8> {
        match octet {
            0x00..=0x7F => self.end_head(octet.into()),
            0x80 if self.tag == tag::GROUP => self.begin_group(None),
            0x81..=0x84 => {
                self.part = Part::LongLength {
                    left: octet - 0x80,
                    length: 0,
                };
                Ok(Found::Nothing)
            }
            _ => Err(Refusal::LENGTH_OCTET),
        }
    }

    /// The last octet of a head has come, and the value has `length` octets.
    fn end_head(&mut self, length: u64) -> Result<Found, u8> {
        let end = self.at + length;
        let in_open_group = self.group.is_some_and(|group| group.end.is_none());
        match self.tag {
            tag::GROUP => return self.begin_group(Some(end)),
            tag::WAVEFORM => return Ok(self.begin_waveform(length)),
            tag::END if length == 0 && in_open_group => {
                self.group = None;
                self.part = Part::Tag;
            }
            _ => {
                self.part = Part::Value {
                    end,
                    content: Content::First(Vec::new()),
                }
            }
        }
        Ok(Found::Nothing)
    }

    /// A group that ends before the place `end`; none where it is open.
    fn begin_group(&mut self, end: Option<u64>) -> Result<Found, u8> {
        let named = self.standing.named(self.channel);
        self.group = Some(Group {
            place: self.place,
            channel: named.unwrap_or(None),
            end,
            fault: None,
        });
        self.part = Part::Tag;
        named.map(|_| Found::Nothing)
    }

    /// A waveform outside groups. One that is refused at its end, or that ends past the limit, gives out
    /// nothing.
    fn begin_waveform(&mut self, length: u64) -> Found {
        let end = self.at + length;
        let frame = match end > FILE_LIMIT {
            true => Err(None),
            false => self.standing.frame(self.at as usize, length).map_err(Some),
        };
        let (content, found) = match frame {
            Err(number) => (Content::Passed(number), Found::Nothing),
            Ok(frame) => {
                let settings = self.settings(&frame);
                let samples = Samples::first(frame);
                let content = match samples.is_declared() {
                    true => Content::Samples(samples),
                    false => Content::Passed(None),
                };
                (content, Found::Settings(settings))
            }
        };
        self.part = Part::Value { end, content };
        found
    }

    fn settings(&self, frame: &Frame) -> Settings {
        let series = channels(&self.standing, frame);
        Settings {
            frame: frame.number,
            start: frame.start,
            channels: frame.channels,
            sequences: frame.sequences,
            little: frame.little,
            place: frame.place as u64,
            length: frame.length as u64,
            attributes: series.map(|series| series.attributes()).collect(),
        }
    }

    /// Goes on to the next item if the last octet of this one's value has come.
    fn end_value(&mut self) -> Result<(), u8> {
        if !matches!(self.part, Part::Value { end, .. } if end == self.at) {
            return Ok(());
        }
        let Part::Value { content, .. } = std::mem::replace(&mut self.part, Part::Tag) else {
            return Ok(());
        };
        match content {
            Content::First(octets) => self.define(&octets),
            Content::Passed(Some(number)) => Err(number),
            Content::Passed(None) | Content::Samples(_) => Ok(()),
        }
    }

    fn define(&mut self, value: &[u8]) -> Result<(), u8> {
        match self.group.map(|group| group.channel) {
            None => self.standing.define_root(self.tag, value),
            Some(Some(channel)) => self.standing.define_channel(channel, self.tag, value),
            Some(None) => Ok(()),
        }
    }

    /// Leaves a definite group, or refuses the file for it, if its last octet has come.
    fn end_group(&mut self) {
        let Some(group) = self.group.filter(|group| group.end == Some(self.at)) else {
            return;
        };
        let past_group = match self.part {
            Part::Tag => None,
            _ => Some(Refusal {
                number: Refusal::PAST_END,
                place: self.place,
            }),
        };
        match group.fault.or(past_group) {
            Some(refusal) => self.verdict = Some(Err(refusal)),
            None => self.group = None,
        }
    }
}

impl Samples {
    /// None has come yet.
    fn first(frame: Frame<'static>) -> Samples {
        Samples {
            frame,
            sequence: 0,
            channel: 0,
            in_block: 0,
            place: frame.place as u64,
            octets: Vec::new(),
        }
    }

    fn width(&self, standing: &Standing) -> u64 {
        standing.record(self.channel).width().into()
    }

    /// Whether the sample at hand is declared; if not, none after it is. One that the waveform's end cuts
    /// off never has its last octet.
    fn is_declared(&self) -> bool {
        self.sequence < self.frame.sequences
    }

    /// Takes an octet of the sample at hand, and answers the sample if it is the last.
    fn take(&mut self, octet: u8, standing: &Standing) -> Option<Given> {
        let record = standing.record(self.channel);
        self.octets.push(octet);
        if self.octets.len() < record.width().into() {
            return None;
        }
        let given = Given {
            frame: self.frame.number,
            channel: self.channel,
            number: u64::from(self.sequence) * u64::from(record.block) + u64::from(self.in_block),
            place: self.place,
            value: value(bits(&self.octets, self.frame.little), record),
        };
        self.go_on(record);
        Some(given)
    }

    /// Goes on to the next sample: of the block, else of the next channel, else of the next sequence.
    fn go_on(&mut self, record: &Record) {
        self.place += u64::from(record.width());
        self.octets.clear();
        self.in_block += 1;
        if self.in_block == record.block {
            self.in_block = 0;
            self.channel += 1;
        }
        if self.channel == self.frame.channels {
            self.channel = 0;
            self.sequence += 1;
        }
    }
}
