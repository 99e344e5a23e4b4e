//! Files made from a seed: well-formed ones of every shape, files with one fault built in on
//! purpose, and files damaged at random. The same seed always gives the same file.

use crate::items::{bits, tag};
use crate::random::Random;

/// Tags that may be defined outside and inside groups.
const CHANNEL_TAGS: [u8; 8] = [
    tag::BLOCK,
    tag::CLASS,
    tag::LEAD,
    tag::DATA_TYPE,
    tag::INTERVAL,
    tag::RESOLUTION,
    tag::OFFSET,
    tag::NULL,
];

/// Tags that may be defined outside groups alone; they are among those barred inside.
const ROOT_TAGS: [u8; 4] = [tag::BYTE_ORDER, tag::CHANNELS, tag::SEQUENCES, tag::START];

const BARRED_TAGS: [u8; 7] = [
    tag::BYTE_ORDER,
    tag::CHANNELS,
    tag::SEQUENCES,
    tag::START,
    tag::COMPRESSION,
    tag::WAVEFORM,
    tag::GROUP,
];

/// Octets per sample by type.
pub(crate) const SAMPLE_OCTETS: [u8; 9] = [2, 2, 4, 1, 2, 1, 4, 4, 8];

const WIDTHS: [u8; 4] = [1, 2, 4, 8];
const LAST_BLOCK: u64 = 1_048_576;
const LAST_CHANNEL_NUMBER: u64 = (1 << 28) - 1;
const MOST_CHANNELS: u64 = 256;
const MOST_FRAMES: u32 = 4096;

/// A file: accepted, faulty or damaged, as the seed has it.
pub fn file(seed: u64) -> Vec<u8> {
    let mut random = Random::new(!seed);
    match random.below(100) {
        0..=44 => good_file(seed),
        45..=74 => faulty_file(random.fault(), seed).0,
        75..=94 => damaged(good_file(seed), &mut random),
        _ => damaged(faulty_file(random.fault(), seed).0, &mut random),
    }
}

/// A file that is accepted.
pub fn good_file(seed: u64) -> Vec<u8> {
    let mut draft = Draft::new(seed);
    let rare = draft.random.below(600);
    match rare {
        0 => draft.all_frames(),
        1..=3 => draft.all_channels(),
        _ => {
            let steps = 1 + draft.random.below(14);
            draft.steps(steps);
            if draft.random.one_in(2) {
                draft.frame();
            }
        }
    }
    draft.octets
}

/// A file refused with `number`, which is from 1 to 13, and the place of the refusal.
pub fn faulty_file(number: u8, seed: u64) -> (Vec<u8>, u64) {
    let mut draft = Draft::new(seed);
    let steps = draft.random.below(7);
    draft.steps(steps);
    let fault = draft.fault(number);
    if !fault.last {
        draft.after_fault();
    }
    (draft.octets, fault.place as u64)
}

/// Numbers within document 01's table.
impl Random {
    pub fn pointer(&mut self) -> i32 {
        match self.below(5) {
            0 => self.pick(&[i32::MIN, -1, 0, 127, 128, -128, -129, i32::MAX]),
            1 => self.next() as i32,
            _ => self.below(2000) as i32 - 1000,
        }
    }

    pub fn block(&mut self) -> u64 {
        match self.below(40) {
            0 => LAST_BLOCK,
            1 => self.between(1, LAST_BLOCK),
            2..=4 => self.between(4, 40),
            _ => self.between(1, 3),
        }
    }

    pub fn channel_count(&mut self) -> u64 {
        match self.below(60) {
            0 => self.pick(&[127, 128, 129, 200, 255, 256]),
            1..=4 => self.between(5, 12),
            _ => self.between(1, 4),
        }
    }

    /// Bits of an offset or null of this width.
    pub fn sample_bits(&mut self, width: u8) -> u64 {
        let bits = match self.below(3) {
            0 => self.below(3),
            1 => 1 << (8 * width - 1),
            _ => self.next(),
        };
        masked(bits, width)
    }
}

/// Choices that only a file needs.
impl Random {
    /// A primitive tag that means nothing here, other than 00.
    fn unknown_tag(&mut self) -> u8 {
        loop {
            let tag = self.octet() & !tag::CONTEXT;
            let known = CHANNEL_TAGS.contains(&tag) || BARRED_TAGS.contains(&tag);
            if !known && tag != tag::END {
                return tag;
            }
        }
    }

    /// The number of a fault to build in; 11 needs a long file and is made rarer.
    fn fault(&mut self) -> u8 {
        match self.between(1, 13) as u8 {
            11 if self.one_in(2) => 12,
            number => number,
        }
    }
}

/// What a draft keeps of a channel's settings, so as to know what is allowed next.
#[derive(Clone, Copy)]
struct Shape {
    block: u32,
    data_type: u8,
    /// Octets of the offset, 0 where none is defined; of the null likewise.
    offset: u8,
    null: u8,
    null_bits: u64,
}

impl Shape {
    const DEFAULT: Shape = Shape {
        block: 1,
        data_type: 0,
        offset: 0,
        null: 0,
        null_bits: 0,
    };

    fn width(&self) -> u8 {
        SAMPLE_OCTETS[usize::from(self.data_type)]
    }

    fn block_octets(&self) -> u64 {
        u64::from(self.block) * u64::from(self.width())
    }

    /// Takes over what `tag` sets.
    fn take_over(&mut self, tag: u8, from: &Shape) {
        match tag {
            tag::BLOCK => self.block = from.block,
            tag::DATA_TYPE => self.data_type = from.data_type,
            tag::OFFSET => self.offset = from.offset,
            tag::NULL => (self.null, self.null_bits) = (from.null, from.null_bits),
            _ => {}
        }
    }

    /// Octets of the offset or null, by its tag.
    fn defined(&self, tag: u8) -> u8 {
        match tag {
            tag::OFFSET => self.offset,
            _ => self.null,
        }
    }

    fn fits(&self, tag: u8) -> bool {
        [0, self.width()].contains(&self.defined(tag))
    }
}

/// Where a faulty item stands.
#[derive(Clone, Copy, PartialEq)]
enum Around {
    Nothing,
    DefiniteGroup,
    OpenGroup,
}

/// A fault built in.
struct Fault {
    place: usize,
    /// Nothing may follow it.
    last: bool,
}

/// A file in the making, with what stands at its end.
struct Draft {
    random: Random,
    octets: Vec<u8>,
    little: bool,
    count: Option<u32>,
    sequences: Option<u32>,
    start: Option<i32>,
    continued: i64,
    frames: u32,
    root: Shape,
    channels: [Shape; MOST_CHANNELS as usize],
}

impl Draft {
    fn new(seed: u64) -> Draft {
        Draft {
            random: Random::new(seed),
            octets: Vec::new(),
            little: false,
            count: None,
            sequences: None,
            start: None,
            continued: 0,
            frames: 0,
            root: Shape::DEFAULT,
            channels: [Shape::DEFAULT; MOST_CHANNELS as usize],
        }
    }
}

/// Items and numbers.
impl Draft {
    /// A length, now and then in a longer form than needed.
    fn length(&mut self, length: usize) -> Vec<u8> {
        if length < 0x80 && !self.random.one_in(6) {
            return vec![length as u8];
        }
        let octets = (length as u32).to_be_bytes();
        let needless = octets[..3].iter().take_while(|octet| **octet == 0).count();
        let skipped = self.random.between(0, needless as u64) as usize;
        let mut form = vec![0x80 + (4 - skipped) as u8];
        form.extend(&octets[skipped..]);
        form
    }

    fn item(&mut self, tag: u8, value: &[u8]) -> Vec<u8> {
        let mut item = vec![tag];
        item.extend(self.length(value.len()));
        item.extend(value);
        item
    }

    fn push(&mut self, tag: u8, value: &[u8]) {
        let item = self.item(tag, value);
        self.octets.extend(item);
    }

    /// The lowest `width` octets of `bits` by the byte order that stands.
    fn turned(&self, bits: u64, width: usize) -> Vec<u8> {
        match self.little {
            true => bits.to_le_bytes()[..width].to_vec(),
            false => bits.to_be_bytes()[8 - width..].to_vec(),
        }
    }

    /// A number in some allowed length that holds it.
    fn whole(&mut self, number: u64) -> Vec<u8> {
        let needed = (1..4).find(|n| number >> (8 * n) == 0).unwrap_or(4);
        let width = self.random.between(needed, 4) as usize;
        self.turned(number, width)
    }

    fn signed(&mut self, number: i32) -> Vec<u8> {
        let holds = |n: &u64| number << (32 - 8 * n) >> (32 - 8 * n) == number;
        let needed = (1..4).find(holds).unwrap_or(4);
        let width = self.random.between(needed, 4) as usize;
        self.turned(number as u64, width)
    }

    fn sequence_count(&mut self) -> u64 {
        match self.random.below(12) {
            0 => self.random.between(1, u32::MAX.into()),
            1 => u32::MAX.into(),
            _ => self.random.between(1, 4),
        }
    }

    /// A unit, an exponent and a mantissa of at least 1.
    fn scale(&mut self, last_unit: u64) -> Vec<u8> {
        let width = self.random.between(1, 4);
        let limit = 1 << (8 * width - 1);
        let mantissa = match self.random.below(4) {
            0 => limit - 1,
            1 => 1,
            _ => self.random.between(1, limit - 1),
        };
        let mut value = vec![self.random.between(0, last_unit) as u8, self.random.octet()];
        value.extend(self.turned(mantissa, width as usize));
        value
    }

    /// A code of one octet or of two, and then text.
    fn code(&mut self) -> Vec<u8> {
        let text = match self.random.one_in(4) {
            true => self.random.below(33),
            false => 0,
        };
        let length = self.random.between(1, 2) + text;
        self.random.octets(length)
    }

    /// An item that is stepped over wherever it stands.
    fn unknown_item(&mut self) -> Vec<u8> {
        let tag = self.random.unknown_tag();
        let value = self.random.some_octets(6);
        self.item(tag, &value)
    }

    /// An item of tag 00 that ends nothing.
    fn zero_item(&mut self, may_be_empty: bool) -> Vec<u8> {
        let fewest = u64::from(!may_be_empty);
        let length = self.random.between(fewest, 3);
        let value = self.random.octets(length);
        self.item(tag::END, &value)
    }
}

/// Definitions and groups.
impl Draft {
    /// A value for `tag` that is allowed; `shape` is brought up to it.
    fn attribute(&mut self, tag: u8, shape: &mut Shape, fallback: &Shape) -> Vec<u8> {
        if self.random.one_in(7) {
            shape.take_over(tag, fallback);
            return Vec::new();
        }
        match tag {
            tag::BLOCK => {
                let block = self.random.block();
                shape.block = block as u32;
                self.whole(block)
            }
            tag::DATA_TYPE => {
                shape.data_type = self.random.below(9) as u8;
                vec![shape.data_type]
            }
            tag::INTERVAL => self.scale(2),
            tag::RESOLUTION => self.scale(22),
            tag::OFFSET | tag::NULL => {
                // A width that does not fit yet may do so by the next frame.
                let width = match self.random.one_in(5) {
                    true => self.random.pick(&WIDTHS),
                    false => shape.width(),
                };
                self.sample_bits(tag, width, shape)
            }
            _ => self.code(),
        }
    }

    /// Bits for an offset or null of this width.
    fn sample_bits(&mut self, tag: u8, width: u8, shape: &mut Shape) -> Vec<u8> {
        let bits = self.random.sample_bits(width);
        match tag {
            tag::OFFSET => shape.offset = width,
            _ => (shape.null, shape.null_bits) = (width, bits),
        }
        self.turned(bits, width.into())
    }

    fn set_root(&mut self, tag: u8, shape: Shape, value: &[u8]) {
        self.root = shape;
        for channel in &mut self.channels {
            channel.take_over(tag, &shape);
        }
        self.push(tag, value);
    }

    fn define_root(&mut self, tag: u8) {
        let mut shape = self.root;
        let value = self.attribute(tag, &mut shape, &Shape::DEFAULT);
        self.set_root(tag, shape, &value);
    }

    /// A root definition of length 0.
    fn reset_root(&mut self, tag: u8) {
        let mut shape = self.root;
        shape.take_over(tag, &Shape::DEFAULT);
        self.set_root(tag, shape, &[]);
    }

    fn set_root_block(&mut self, block: u64) {
        let shape = Shape {
            block: block as u32,
            ..self.root
        };
        let value = self.whole(block);
        self.set_root(tag::BLOCK, shape, &value);
    }

    fn set_byte_order(&mut self) {
        let value = self.random.pick(&[&[][..], &[0], &[1], &[1]]);
        self.push(tag::BYTE_ORDER, value);
        self.little = value == [1];
    }

    fn set_count(&mut self, count: Option<u64>) {
        let value = count.map_or(Vec::new(), |count| self.whole(count));
        self.push(tag::CHANNELS, &value);
        self.count = count.map(|count| count as u32);
        self.channels = [self.root; MOST_CHANNELS as usize];
    }

    fn set_sequences(&mut self, sequences: Option<u64>) {
        let value = sequences.map_or(Vec::new(), |sequences| self.whole(sequences));
        self.push(tag::SEQUENCES, &value);
        self.sequences = sequences.map(|sequences| sequences as u32);
    }

    fn set_start(&mut self, start: Option<i32>) {
        let value = start.map_or(Vec::new(), |start| self.signed(start));
        self.push(tag::START, &value);
        self.start = start;
    }

    /// The channels a frame would have here.
    fn channels(&self) -> usize {
        self.count.unwrap_or(1) as usize
    }

    fn some_channel(&mut self) -> usize {
        let last = self.channels() as u64 - 1;
        match self.random.below(6) {
            0 => last as usize,
            1 => last.min(128) as usize,
            _ => self.random.between(0, last) as usize,
        }
    }

    /// Seven bits an octet, now and then with leading 80 octets.
    fn channel_number(&mut self, channel: u64) -> Vec<u8> {
        let needed = (1..4).find(|n| channel >> (7 * n) == 0).unwrap_or(4);
        let octets = match self.random.one_in(5) {
            true => self.random.between(needed, 4),
            false => needed,
        };
        (0..octets)
            .rev()
            .map(|n| (channel >> (7 * n)) as u8 & 0x7F | if n > 0 { 0x80 } else { 0 })
            .collect()
    }

    /// A group's octets up to its items; `length` is none for an open one.
    fn group_head(&mut self, channel: u64, length: Option<usize>) -> Vec<u8> {
        let mut head = vec![tag::GROUP];
        head.extend(self.channel_number(channel));
        match length {
            Some(length) => head.extend(self.length(length)),
            None => head.push(0x80),
        }
        head
    }

    fn group(&mut self, channel: u64, open: bool, items: &[u8]) -> Vec<u8> {
        let mut group = self.group_head(channel, (!open).then_some(items.len()));
        group.extend(items);
        if open {
            group.extend(self.item(tag::END, &[]));
        }
        group
    }

    /// A definition for one channel.
    fn channel_item(&mut self, channel: usize, tag: u8) -> Vec<u8> {
        let mut shape = self.channels[channel];
        let root = self.root;
        let value = self.attribute(tag, &mut shape, &root);
        self.channels[channel] = shape;
        self.item(tag, &value)
    }

    /// An item in an ignored group: its length and value are not looked at.
    fn ignored_item(&mut self) -> Vec<u8> {
        let tag = self.random.pick(&CHANNEL_TAGS);
        let value = self.random.some_octets(10);
        self.item(tag, &value)
    }

    /// Items for a group of the channel; of an ignored group where no count stands.
    fn group_items(&mut self, channel: usize, open: bool) -> Vec<u8> {
        let mut items = Vec::new();
        for _ in 0..self.random.below(5) {
            let tag = self.random.pick(&CHANNEL_TAGS);
            let item = match self.random.below(8) {
                0 => self.unknown_item(),
                1 => self.zero_item(!open),
                _ if self.count.is_none() => self.ignored_item(),
                _ => self.channel_item(channel, tag),
            };
            items.extend(item);
        }
        items
    }

    /// A channel number for a group that is not refused here.
    fn group_channel(&mut self) -> u64 {
        match self.count {
            Some(_) => self.some_channel() as u64,
            None if self.random.one_in(3) => self.random.between(0, LAST_CHANNEL_NUMBER),
            None => self.random.below(4),
        }
    }

    fn define_group(&mut self) {
        let channel = self.group_channel();
        let open = self.random.one_in(2);
        let items = self.group_items(channel as usize, open);
        let group = self.group(channel, open, &items);
        self.octets.extend(group);
    }

    /// A group that holds one definition with a given value.
    fn define_in_group(&mut self, channel: usize, tag: u8, value: &[u8]) {
        let item = self.item(tag, value);
        let open = self.random.one_in(2);
        let group = self.group(channel as u64, open, &item);
        self.octets.extend(group);
    }
}

/// Frames.
impl Draft {
    fn sequence_octets(&self) -> u64 {
        let channels = &self.channels[..self.channels()];
        channels.iter().map(Shape::block_octets).sum()
    }

    /// Gives every channel's offset and null the sample width, or takes them away.
    fn settle_widths(&mut self) {
        for tag in [tag::OFFSET, tag::NULL] {
            for channel in 0..self.channels() {
                if self.channels[channel].fits(tag) {
                    continue;
                }
                if self.count.is_none() || channel > 3 || self.random.one_in(3) {
                    self.reset_root(tag);
                    continue;
                }
                let mut shape = self.channels[channel];
                let value = self.sample_bits(tag, shape.width(), &mut shape);
                self.channels[channel] = shape;
                self.define_in_group(channel, tag, &value);
            }
        }
    }

    /// Gives a start pointer where the continued one would leave 32 bits.
    fn settle_start(&mut self) {
        if self.start.is_none() && i32::try_from(self.continued).is_err() {
            let start = self.random.pointer();
            self.set_start(Some(start));
        }
    }

    /// Leaves at most `room` octets to be filled by the sequences that are set.
    fn settle_sequences(&mut self, room: u64) {
        let fit = room / self.sequence_octets();
        match self.sequences {
            Some(sequences) if u64::from(sequences) > fit => {
                let fewer = match fit {
                    0 => None,
                    _ if self.random.one_in(2) => None,
                    _ => Some(self.random.between(1, fit.min(4))),
                };
                self.set_sequences(fewer);
            }
            _ => {}
        }
    }

    fn frame(&mut self) {
        let room = match self.random.one_in(12) {
            true => 2200,
            false => 96,
        };
        self.settle_widths();
        let declared = self.sequences.unwrap_or(0);
        let cuts = match u64::from(declared) * self.sequence_octets() > room {
            true => self.random.below(3) > 0,
            false => self.random.one_in(4),
        };
        match cuts {
            true => self.cut_frame(room),
            false => self.whole_frame(room),
        }
    }

    /// A frame whose samples are all there, in a waveform of about `room` octets at most.
    fn whole_frame(&mut self, room: u64) {
        self.settle_start();
        self.settle_sequences(room);
        let sequence_octets = self.sequence_octets();
        let surplus_limit = match self.sequences {
            Some(_) => 7,
            None => sequence_octets.min(7),
        };
        let sequences = match self.sequences {
            Some(sequences) => sequences.into(),
            None => self.random.between(0, (room / sequence_octets).min(4)),
        };
        let surplus = match self.random.one_in(2) {
            true => self.random.some_octets(surplus_limit),
            false => Vec::new(),
        };
        self.frame_of(sequences, &surplus);
    }

    /// A frame whose waveform of at most `room` octets ends before the last of the samples declared.
    fn cut_frame(&mut self, room: u64) {
        if self.random.one_in(3) {
            self.mix_channels();
        }
        let sequences = match self.sequences {
            Some(sequences) => sequences.into(),
            None => {
                let sequences = self.sequence_count();
                self.set_sequences(Some(sequences));
                sequences
            }
        };
        match self.random.one_in(3) {
            true => self.start_before(sequences),
            false => self.settle_start(),
        }
        let octets = self.cut_at(sequences * self.sequence_octets() - 1, room);
        let (waveform, partial) = self.first_octets(octets as usize);
        let mut next = Vec::new();
        if let Some((channel, kept)) = partial.filter(|_| self.random.one_in(2)) {
            let missing = usize::from(self.channels[channel].width()) - kept;
            while next.len() < missing {
                next.extend(self.unknown_item());
            }
            let tail = &waveform[waveform.len() - kept..];
            self.set_null(channel, &[tail, &next[..missing]].concat());
        }
        self.put_frame(sequences, &waveform);
        self.octets.extend(next);
        if self.random.one_in(3) {
            self.frame();
        }
    }

    /// Either byte order, and a few channels with types and short blocks of their own.
    fn mix_channels(&mut self) {
        self.set_byte_order();
        let count = self.random.between(2, 4);
        self.set_count(Some(count));
        for channel in 0..count as usize {
            let (block, data_type) = (self.random.between(1, 3), self.random.below(9) as u8);
            let value = self.whole(block);
            self.define_in_group(channel, tag::BLOCK, &value);
            self.define_in_group(channel, tag::DATA_TYPE, &[data_type]);
            let shape = &mut self.channels[channel];
            (shape.block, shape.data_type) = (block as u32, data_type);
        }
        self.settle_widths();
    }

    /// Gives a start pointer from which so many sequences lead to another one, if there is such.
    fn start_before(&mut self, sequences: u64) {
        let advance = u64::from(self.root.block) * sequences;
        match u64::from(u32::MAX).checked_sub(advance) {
            None => self.settle_start(),
            Some(spare) => {
                let above = match self.random.one_in(3) {
                    true => spare,
                    false => self.random.between(0, spare),
                };
                self.set_start(Some((i64::from(i32::MIN) + above as i64) as i32));
            }
        }
    }

    /// How many octets a waveform keeps, at most `last` and `room`.
    fn cut_at(&mut self, last: u64, room: u64) -> u64 {
        let sequence = self.sequence_octets();
        let most = last.min(room);
        match self.random.below(8) {
            0 => 0,
            1 => most,
            2 => most - most % sequence,
            3 => self.random.between(0, most.min(sequence)),
            _ => self.random.between(0, most),
        }
    }

    /// The first octets of a waveform. If they end inside a sample, also its channel and how many of
    /// them are the sample's.
    fn first_octets(&mut self, octets: usize) -> (Vec<u8>, Option<(usize, usize)>) {
        let (mut waveform, mut channel) = (Vec::new(), 0);
        loop {
            for _ in 0..self.channels[channel].block {
                let kept = octets - waveform.len();
                waveform.extend(self.sample(channel));
                if waveform.len() > octets {
                    waveform.truncate(octets);
                    return (waveform, (kept > 0).then_some((channel, kept)));
                }
            }
            channel = (channel + 1) % self.channels();
        }
    }

    /// Gives a channel these octets as its null.
    fn set_null(&mut self, channel: usize, octets: &[u8]) {
        let mut shape = self.channels[channel];
        (shape.null, shape.null_bits) = (octets.len() as u8, bits(octets, self.little));
        match self.count {
            None => self.set_root(tag::NULL, shape, octets),
            Some(_) => {
                self.channels[channel] = shape;
                self.define_in_group(channel, tag::NULL, octets);
            }
        }
    }

    /// A frame whose samples are all there; widths, start pointer and sequences are settled.
    fn frame_of(&mut self, sequences: u64, surplus: &[u8]) {
        let mut waveform = Vec::new();
        for _ in 0..sequences {
            for channel in 0..self.channels() {
                for _ in 0..self.channels[channel].block {
                    waveform.extend(self.sample(channel));
                }
            }
        }
        waveform.extend(surplus);
        self.put_frame(sequences, &waveform);
    }

    /// The frame of a waveform.
    fn put_frame(&mut self, sequences: u64, waveform: &[u8]) {
        self.push(tag::WAVEFORM, waveform);
        let start = self.start.take().map_or(self.continued, i64::from);
        self.continued = start + i64::from(self.root.block) * sequences as i64;
        self.frames += 1;
    }

    fn sample(&mut self, channel: usize) -> Vec<u8> {
        const SINGLES: [u32; 7] = [
            0x7FC0_0000, // not a number
            0x7F80_0001,
            0xFFFF_FFFF,
            0x7F80_0000, // infinity
            0xFF80_0000,
            0x8000_0000, // minus zero
            0x3F80_0000,
        ];
        const DOUBLES: [u64; 7] = [
            0x7FF8_0000_0000_0000, // not a number
            0x7FF0_0000_0000_0001,
            0xFFFF_FFFF_FFFF_FFFF,
            0x7FF0_0000_0000_0000, // infinity
            0xFFF0_0000_0000_0000,
            0x8000_0000_0000_0000, // minus zero
            0x3FF0_0000_0000_0000,
        ];
        let shape = self.channels[channel];
        let bits = match (self.random.below(4), shape.data_type) {
            (0, _) if shape.null > 0 => shape.null_bits,
            (0 | 1, 7) => self.random.pick(&SINGLES).into(),
            (0 | 1, 8) => self.random.pick(&DOUBLES),
            (1, _) => 1 << (8 * shape.width() - 1),
            (2, _) => self.random.below(3),
            _ => self.random.next(),
        };
        self.turned(masked(bits, shape.width()), shape.width().into())
    }
}

/// Whole files.
impl Draft {
    fn step(&mut self) {
        match self.random.below(24) {
            0..=5 => {
                let tag = self.random.pick(&CHANNEL_TAGS);
                self.define_root(tag);
            }
            6..=7 => {
                let count = self.random.channel_count();
                let kept = !self.random.one_in(8);
                self.set_count(kept.then_some(count));
            }
            8..=9 => {
                let sequences = self.sequence_count();
                let kept = !self.random.one_in(4);
                self.set_sequences(kept.then_some(sequences));
            }
            10 => {
                let start = self.random.pointer();
                let kept = !self.random.one_in(4);
                self.set_start(kept.then_some(start));
            }
            11..=12 => self.set_byte_order(),
            13..=17 => self.define_group(),
            18 => {
                let item = self.unknown_item();
                self.octets.extend(item);
            }
            19 => {
                let item = match self.random.one_in(2) {
                    true => self.zero_item(true),
                    false => self.item(tag::COMPRESSION, &[]),
                };
                self.octets.extend(item);
            }
            _ => self.frame(),
        }
    }

    /// Steps, as long as the file stays small.
    fn steps(&mut self, steps: u64) {
        if self.random.one_in(2) {
            let count = self.random.channel_count();
            self.set_count(Some(count));
        }
        for _ in 0..steps {
            if self.octets.len() < 250 {
                self.step();
            }
        }
    }

    /// As many frames as there may be.
    fn all_frames(&mut self) {
        self.steps(3);
        self.settle_widths();
        self.set_sequences(None);
        self.set_start(Some(0));
        while self.frames < MOST_FRAMES {
            let one = self.sequence_octets() <= 4 && self.random.one_in(8);
            self.frame_of(one.into(), &[]);
        }
    }

    /// As many channels as there may be, with groups for many of them.
    fn all_channels(&mut self) {
        self.set_count(Some(MOST_CHANNELS));
        for channel in 0..MOST_CHANNELS as usize {
            if self.random.one_in(3) {
                let tag = self.random.pick(&[tag::DATA_TYPE, tag::LEAD, tag::NULL]);
                let item = self.channel_item(channel, tag);
                let open = self.random.one_in(2);
                let group = self.group(channel as u64, open, &item);
                self.octets.extend(group);
            }
        }
        self.frame();
        self.steps(4);
    }
}

/// Faults built in on purpose.
impl Draft {
    fn fault(&mut self, number: u8) -> Fault {
        match number {
            1 => self.context_tag(),
            2 => self.length_octet(),
            3 => self.past_end(),
            4 => self.long_channel(),
            5 => self.barred_tag(),
            6 => self.length_fault(),
            7 => self.value_fault(),
            8 => self.channel_fault(),
            9 => self.compressed(),
            10 => self.unended_group(),
            11 => self.frame_too_many(),
            12 => self.width_fault(),
            _ => self.start_fault(),
        }
    }

    /// What stands after a fault must not matter.
    fn after_fault(&mut self) {
        match self.random.below(3) {
            0 => {}
            1 => {
                let octets = self.random.some_octets(9);
                self.octets.extend(octets);
            }
            _ => {
                let steps = self.random.below(3);
                self.steps(steps);
            }
        }
    }

    fn around(&mut self) -> Around {
        let all = [Around::Nothing, Around::DefiniteGroup, Around::OpenGroup];
        self.random.pick(&all)
    }

    fn around_group(&mut self) -> Around {
        self.random
            .pick(&[Around::DefiniteGroup, Around::OpenGroup])
    }

    /// Puts a faulty item at the end of the file, or in a group after some good items. In a
    /// definite group it is the last item, and the group ends with it.
    fn put_fault(&mut self, around: Around, item: &[u8]) -> Fault {
        let mut place = self.octets.len();
        if around != Around::Nothing {
            let open = around == Around::OpenGroup;
            let channel = self.group_channel();
            let items = self.group_items(channel as usize, open);
            let length = items.len() + item.len();
            let head = self.group_head(channel, (!open).then_some(length));
            place += head.len() + items.len();
            self.octets.extend(head);
            self.octets.extend(items);
        }
        self.octets.extend(item);
        Fault { place, last: false }
    }

    fn context_tag(&mut self) -> Fault {
        let mut item = loop {
            let tag = self.random.octet() | tag::CONTEXT;
            if tag != tag::GROUP {
                break vec![tag];
            }
        };
        item.extend(self.random.some_octets(5));
        let around = self.around();
        self.put_fault(around, &item)
    }

    /// A tag that may stand there, not that of a group.
    fn allowed_tag(&mut self, around: Around) -> u8 {
        match self.random.below(4) {
            0 => self.random.unknown_tag(),
            1 => tag::END,
            2 if around == Around::Nothing => self.random.pick(&BARRED_TAGS[..6]),
            _ => self.random.pick(&CHANNEL_TAGS),
        }
    }

    fn length_octet(&mut self) -> Fault {
        let around = self.around();
        let mut item = vec![self.allowed_tag(around)];
        let bad = self.random.between(0x85, 0xFF) as u8;
        if around == Around::Nothing && self.random.one_in(3) {
            let channel = self.random.below(300);
            item = self.group_head(channel, None);
            item.pop();
            item.push(bad);
        } else {
            item.push(self.random.pick(&[0x80, bad]));
        }
        item.extend(self.random.some_octets(5));
        self.put_fault(around, &item)
    }

    fn past_end(&mut self) -> Fault {
        let around = self.around();
        let mut item = vec![self.allowed_tag(around)];
        if around == Around::Nothing && self.random.one_in(2) {
            let channel = self.random.below(300);
            item = self.group_head(channel, None);
            item.pop();
            if self.random.one_in(3) {
                // The channel number itself is cut.
                let octets = self.random.below(4) as usize;
                item = [&[tag::GROUP], &[0x80; 3][..octets]].concat();
                let fault = self.put_fault(around, &item);
                return Fault {
                    last: true,
                    ..fault
                };
            }
        }
        match self.random.below(3) {
            0 => {}
            1 => {
                let octets = self.random.between(1, 4);
                item.push(0x80 + octets as u8);
                item.extend(self.random.some_octets(octets));
            }
            _ => {
                let octets = self.random.below(6) as usize;
                let missing = self.random.pick(&[1, 1, 2, 5, 300, 70_000, 0x7FFF_FFFF]);
                item.extend(self.length(octets + missing));
                item.extend(self.random.octets(octets as u64));
            }
        }
        let fault = self.put_fault(around, &item);
        // After a definite group there are octets the item must not run into.
        let last = around != Around::DefiniteGroup;
        Fault { last, ..fault }
    }

    fn long_channel(&mut self) -> Fault {
        let mut item = vec![tag::GROUP];
        item.extend((0..4).map(|_| self.random.octet() | 0x80));
        item.extend(self.random.some_octets(5));
        self.put_fault(Around::Nothing, &item)
    }

    fn barred_tag(&mut self) -> Fault {
        let mut item = vec![self.random.pick(&BARRED_TAGS)];
        item.extend(self.random.some_octets(5));
        let around = self.around_group();
        self.put_fault(around, &item)
    }

    /// Where an item stands whose length and value are looked at.
    fn around_looked_at(&mut self) -> Around {
        if self.count.is_none() && self.random.one_in(2) {
            let count = self.random.channel_count();
            self.set_count(Some(count));
        }
        match self.count {
            Some(_) => self.around(),
            None => Around::Nothing,
        }
    }

    fn length_fault(&mut self) -> Fault {
        let around = self.around_looked_at();
        let tag = match around == Around::Nothing && self.random.one_in(3) {
            true => self.random.pick(&ROOT_TAGS),
            false => self.random.pick(&CHANNEL_TAGS),
        };
        let longer = match self.random.one_in(8) {
            true => self.random.between(35, 200),
            false => 0,
        };
        let length = longer
            + match tag {
                tag::BYTE_ORDER | tag::DATA_TYPE => self.random.between(2, 5),
                tag::CLASS | tag::LEAD => self.random.between(35, 40),
                tag::INTERVAL | tag::RESOLUTION => self.random.pick(&[1, 2, 7, 8]),
                tag::OFFSET | tag::NULL => self.random.pick(&[3, 5, 6, 7, 9, 16]),
                _ => self.random.between(5, 9),
            };
        let value = self.random.octets(length);
        let item = self.item(tag, &value);
        self.put_fault(around, &item)
    }

    fn value_fault(&mut self) -> Fault {
        let around = self.around_looked_at();
        let tag = match around == Around::Nothing && self.random.one_in(2) {
            true => self.random.pick(&ROOT_TAGS[..3]),
            false => {
                self.random
                    .pick(&[tag::BLOCK, tag::DATA_TYPE, tag::INTERVAL, tag::RESOLUTION])
            }
        };
        let value = match tag {
            tag::BYTE_ORDER => vec![self.random.between(2, 255) as u8],
            tag::DATA_TYPE => vec![self.random.between(9, 255) as u8],
            tag::BLOCK => self.number_fault(LAST_BLOCK),
            tag::CHANNELS => self.number_fault(MOST_CHANNELS),
            tag::SEQUENCES => self.number_fault(u32::MAX.into()),
            tag::INTERVAL => self.scale_fault(2),
            _ => self.scale_fault(22),
        };
        let item = self.item(tag, &value);
        self.put_fault(around, &item)
    }

    /// A number that is 0 or above `last`.
    fn number_fault(&mut self, last: u64) -> Vec<u8> {
        let number = match self.random.below(3) {
            0 => last + 1,
            1 => self.random.between(last, u32::MAX.into()) + 1,
            _ => 0,
        };
        match number >> 32 {
            0 => self.whole(number),
            _ => self.whole(0),
        }
    }

    /// An interval or resolution whose unit, mantissa or both are out of range.
    fn scale_fault(&mut self, last_unit: u8) -> Vec<u8> {
        let mut value = self.scale(last_unit.into());
        let which = self.random.below(4);
        if which <= 1 {
            value[0] = self.random.between(u64::from(last_unit) + 1, 255) as u8;
        }
        if which >= 1 {
            let width = value.len() - 2;
            let mantissa = match self.random.below(3) {
                0 => 0,
                1 => 1 << (8 * width - 1),
                _ => !self.random.below(1 << (8 * width - 1)),
            };
            let mantissa = self.turned(mantissa, width);
            value.splice(2.., mantissa);
        }
        value
    }

    fn channel_fault(&mut self) -> Fault {
        if self.count.is_none() {
            let count = self.random.channel_count();
            self.set_count(Some(count));
        }
        let count = self.channels() as u64;
        let channel = match self.random.below(3) {
            0 => count,
            1 => self.random.between(count, LAST_CHANNEL_NUMBER),
            _ => self.random.between(count, count + 300),
        };
        let open = self.random.one_in(2);
        // Its contents may be anything: they are not reached.
        let items = self.random.some_octets(6);
        let mut item = self.group_head(channel, (!open).then_some(items.len()));
        item.extend(items);
        self.put_fault(Around::Nothing, &item)
    }

    fn compressed(&mut self) -> Fault {
        let length = self.random.between(1, 6);
        let value = self.random.octets(length);
        let item = self.item(tag::COMPRESSION, &value);
        self.put_fault(Around::Nothing, &item)
    }

    fn unended_group(&mut self) -> Fault {
        let channel = self.group_channel();
        let mut item = self.group_head(channel, None);
        item.extend(self.group_items(channel as usize, true));
        let fault = self.put_fault(Around::Nothing, &item);
        Fault {
            last: true,
            ..fault
        }
    }

    fn frame_too_many(&mut self) -> Fault {
        self.all_frames();
        let steps = self.random.below(3);
        for _ in 0..steps {
            let tag = self.random.pick(&CHANNEL_TAGS);
            self.define_root(tag);
        }
        self.waveform_fault(20)
    }

    /// A waveform of fewer than `limit` octets.
    fn waveform_fault(&mut self, limit: u64) -> Fault {
        let value = self.random.some_octets(limit);
        let item = self.item(tag::WAVEFORM, &value);
        self.put_fault(Around::Nothing, &item)
    }

    fn width_fault(&mut self) -> Fault {
        self.settle_widths();
        let channel = self.some_channel();
        let tag = self.random.pick(&[tag::OFFSET, tag::NULL]);
        let mut shape = self.channels[channel];
        if shape.defined(tag) > 0 && self.random.one_in(2) {
            // The type takes another width from under it.
            let other = |data_type: &u8| {
                Shape {
                    data_type: *data_type,
                    ..shape
                }
                .width()
                    != shape.width()
            };
            let data_types: Vec<u8> = (0..9).filter(other).collect();
            let data_type = self.random.pick(&data_types);
            self.put_setting(channel, tag::DATA_TYPE, &[data_type]);
        } else {
            let width = loop {
                let width = self.random.pick(&WIDTHS);
                if width != shape.width() {
                    break width;
                }
            };
            let value = self.sample_bits(tag, width, &mut shape);
            self.put_setting(channel, tag, &value);
        }
        self.waveform_fault(40)
    }

    /// Defines for one channel, or for all of them at the root.
    fn put_setting(&mut self, channel: usize, tag: u8, value: &[u8]) {
        match self.count {
            Some(_) if self.random.one_in(2) => self.define_in_group(channel, tag, value),
            _ => self.push(tag, value),
        }
    }

    /// Few channels with short blocks, everything settled, and no number of sequences set.
    fn small(&mut self) {
        if self.channels() > 6 {
            let count = self.random.between(1, 4);
            self.set_count(Some(count));
        }
        let block = self.random.between(1, 3);
        self.set_root_block(block);
        self.settle_widths();
        self.set_sequences(None);
    }

    /// One channel with a short block of its own, under a root block of any length.
    fn large_root_block(&mut self) {
        self.set_count(Some(1));
        let block = self.random.pick(&[1000, LAST_BLOCK]);
        self.set_root_block(block);
        self.define_in_group(0, tag::BLOCK, &[1]);
        self.channels[0].block = 1;
        self.settle_widths();
        self.set_sequences(None);
    }

    fn start_fault(&mut self) -> Fault {
        match self.random.one_in(3) {
            true => self.large_root_block(),
            false => self.small(),
        }
        let cuts = self.random.one_in(3);
        let sequences = match cuts {
            true => self.sequence_count(),
            false => self.random.between(1, 3),
        };
        let advance = u64::from(self.root.block) * sequences;
        let short = self.random.below(advance.min(1 << 32)) as i64;
        let start = (i64::from(i32::MAX) - short) as i32;
        match cuts {
            true => {
                // What is declared continues the pointer, there or not.
                self.set_sequences(Some(sequences));
                self.set_start(Some(start));
                let octets = self.cut_at(sequences * self.sequence_octets() - 1, 40);
                let (waveform, _) = self.first_octets(octets as usize);
                self.put_frame(sequences, &waveform);
            }
            false => {
                self.set_start(Some(start));
                self.frame_of(sequences, &[]);
            }
        }
        if self.random.one_in(3) {
            // A pointer of length 0 takes back the one before it.
            self.set_start(Some(5));
            self.set_start(None);
        }
        if self.random.one_in(3) {
            self.set_byte_order();
        }
        if self.random.one_in(3) {
            self.set_root_block(1);
        }
        self.waveform_fault(40)
    }
}

/// The lowest `width` octets.
fn masked(bits: u64, width: u8) -> u64 {
    bits & u64::MAX >> (64 - 8 * width)
}

/// A file with one to four pieces of damage.
fn damaged(mut file: Vec<u8>, random: &mut Random) -> Vec<u8> {
    let pieces = match random.one_in(2) {
        true => 1,
        false => random.between(2, 4),
    };
    for _ in 0..pieces {
        damage(&mut file, random);
    }
    file
}

fn damage(file: &mut Vec<u8>, random: &mut Random) {
    const TELLING: [u8; 16] = [
        0x00, 0x01, 0x04, 0x05, 0x06, 0x07, 0x0A, 0x0D, 0x0E, 0x12, 0x1E, 0x3F, 0x7F, 0x80, 0x81,
        0xFF,
    ];
    if file.is_empty() {
        return file.push(random.pick(&TELLING));
    }
    let at = random.below(file.len() as u64) as usize;
    let some = 1 + random.below((file.len() - at).min(6) as u64) as usize;
    match random.below(9) {
        0 => file[at] ^= 1 << random.below(8),
        1 => file[at] = random.pick(&TELLING),
        2 => file[at] = random.octet(),
        3 => file.insert(at, random.pick(&TELLING)),
        4 => drop(file.drain(at..at + some)),
        5 => file.truncate(at),
        6 => {
            let copy = file[at..at + some].to_vec();
            let to = random.below(file.len() as u64 + 1) as usize;
            file.splice(to..to, copy);
        }
        _ => stretch(file, random),
    }
}

/// Makes one length of the file longer or shorter than its value.
fn stretch(file: &mut [u8], random: &mut Random) {
    let lengths = length_places(file);
    if lengths.is_empty() {
        return;
    }
    let at = random.pick(&lengths);
    file[at] = match random.below(6) {
        0 => random.between(0x80, 0x86) as u8,
        1 => file[at].wrapping_add(random.octet()),
        2 => file[at].wrapping_sub(1),
        _ => file[at].wrapping_add(random.between(1, 3) as u8),
    };
}

/// The places of the length octets, as far as the file can be followed; groups are gone into.
fn length_places(file: &[u8]) -> Vec<usize> {
    let mut places = Vec::new();
    let mut at = 0;
    while at < file.len() {
        let is_group = file[at] == tag::GROUP;
        at += 1;
        if is_group {
            while file.get(at).is_some_and(|octet| octet & 0x80 != 0) {
                at += 1;
            }
            at += 1;
        }
        let Some(first) = file.get(at).copied() else {
            break;
        };
        places.push(at);
        at += 1;
        let mut length = usize::from(first);
        if first >= 0x80 {
            let following = usize::from(first - 0x80).min(4);
            let octets = file.get(at..at + following).unwrap_or(&[]);
            length = octets
                .iter()
                .fold(0, |length, octet| length << 8 | usize::from(*octet));
            at += following;
        }
        if !is_group {
            at = at.saturating_add(length);
        }
    }
    places
}
