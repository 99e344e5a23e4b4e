//! What the maker is handed, made from a seed: good inputs of every shape, inputs with one fault built
//! in on purpose, and inputs with several. The same seed always gives the same input.

use crate::generator::SAMPLE_OCTETS;
use crate::maker::{make_frame, number, sample_octets, Numbers, Pair, BITS, NUMBERS};
use crate::random::Random;
use crate::reader::Refusal;
use crate::shrink::hex;
use std::fmt;

/// Settings and samples of one frame, and the length of the buffer that it is to be written to.
#[derive(Clone, PartialEq, Eq, Debug)]
pub struct Input {
    pub start: i64,
    pub sequences: u64,
    pub channels: u64,
    /// The rows of all channels, one after the other; bits likewise.
    pub numbers: Vec<i64>,
    pub bits: Vec<u64>,
    pub samples: Vec<u8>,
    pub room: usize,
}

impl Input {
    /// Makes the frame at the start of `out`.
    pub fn make(&self, out: &mut [u8]) -> Result<usize, Refusal> {
        make_frame(
            self.start,
            self.sequences,
            self.channels,
            &self.numbers,
            &self.bits,
            &self.samples,
            out,
        )
    }

    /// The frame in a buffer that has room for it: 24 octets at most, 57 for each channel, and the samples.
    pub fn frame(&self) -> Result<Vec<u8>, Refusal> {
        let mut out = vec![0; 24 + 57 * (self.bits.len() / BITS) + self.samples.len()];
        let length = self.make(&mut out)?;
        out.truncate(length);
        Ok(out)
    }

    /// Octets of samples that go with the settings; none where these are refused.
    pub fn sample_octets(&self) -> Option<u64> {
        sample_octets(
            self.start,
            self.sequences,
            self.channels,
            &self.numbers,
            &self.bits,
        )
    }

    /// The numbers and bits of a channel as they are told when the frame that is made is read.
    pub fn told(&self, channel: usize) -> (Numbers, Pair) {
        let mut row = self.numbers.as_chunks().0[channel];
        let [offset, null] = self.bits.as_chunks().0[channel];
        let width = SAMPLE_OCTETS[row[number::DATA_TYPE] as usize].into();
        row[number::START] = self.start;
        row[number::CHANNELS] = self.channels as i64;
        row[number::SEQUENCES] = self.sequences as i64;
        row[number::WIDTH] = width;
        match row[number::NULL_WIDTH] {
            0 => (row, [offset, 0]),
            _ => {
                row[number::NULL_WIDTH] = width;
                (row, [offset, null])
            }
        }
    }

    /// The bits of all samples, those of one channel after those of another, where the frame is made.
    pub fn sample_bits(&self) -> Vec<u64> {
        let mut channels = vec![Vec::new(); self.channels as usize];
        let mut samples = &self.samples[..];
        for _ in 0..self.sequences {
            for (row, bits) in self.numbers.as_chunks().0.iter().zip(&mut channels) {
                let (block, width) = block_and_width(row);
                for _ in 0..block {
                    let (sample, rest) = samples.split_at(width);
                    bits.push(crate::items::bits(sample, false));
                    samples = rest;
                }
            }
        }
        channels.concat()
    }

    fn row(&mut self, channel: usize) -> &mut Numbers {
        &mut self.numbers.as_chunks_mut().0[channel]
    }

    fn pair(&mut self, channel: usize) -> &mut Pair {
        &mut self.bits.as_chunks_mut().0[channel]
    }
}

/// A channel's block length and octets per sample.
fn block_and_width(row: &Numbers) -> (usize, usize) {
    let width = SAMPLE_OCTETS[row[number::DATA_TYPE] as usize];
    (row[number::BLOCK] as usize, width.into())
}

/// The samples of a frame, big-endian and in file order, from the rows of its channels and from the bits
/// of all samples, those of one channel after those of another. All that are declared are there.
pub fn in_file_order(sequences: u64, rows: &[Numbers], mut bits: &[u64]) -> Vec<u8> {
    let mut channels = Vec::new();
    for row in rows {
        let (block, width) = block_and_width(row);
        let (own, rest) = bits.split_at(sequences as usize * block);
        channels.push((own.chunks_exact(block), width));
        bits = rest;
    }
    let mut octets = Vec::new();
    for _ in 0..sequences {
        for (blocks, width) in &mut channels {
            for bits in blocks.next().expect("a block for each sequence") {
                octets.extend(&bits.to_be_bytes()[8 - *width..]);
            }
        }
    }
    octets
}

impl fmt::Display for Input {
    fn fmt(&self, f: &mut fmt::Formatter<'_>) -> fmt::Result {
        writeln!(
            f,
            "start {}, sequences {}, channels {}, room {}",
            self.start, self.sequences, self.channels, self.room
        )?;
        writeln!(f, "  numbers {:?}", self.numbers)?;
        writeln!(f, "  bits, hexadecimal {:X?}", self.bits)?;
        write!(f, "  samples {}", hex(&self.samples))
    }
}

/// The numbers of a row that are looked at, each with the first and the last that is allowed.
pub const RANGES: [(usize, i64, i64); 10] = [
    (number::BLOCK, 1, 1_048_576),
    (number::CLASS, 0, 65_535),
    (number::LEAD, 0, 65_535),
    (number::DATA_TYPE, 0, 8),
    (number::INTERVAL_UNIT, 0, 2),
    (number::INTERVAL_EXPONENT, -128, 127),
    (number::INTERVAL_MANTISSA, 1, 2_147_483_647),
    (number::RESOLUTION_UNIT, 0, 22),
    (number::RESOLUTION_EXPONENT, -128, 127),
    (number::RESOLUTION_MANTISSA, 1, 2_147_483_647),
];

/// An input: good, with one fault or with several, as the seed has it.
pub fn input(seed: u64) -> Input {
    let mut random = Random::new(!seed);
    match random.below(20) {
        0..=7 => good_input(seed),
        8..=11 => faulty_input(Refusal::SETTING_RANGE, seed),
        12..=14 => faulty_input(Refusal::SAMPLES_LENGTH, seed),
        15..=16 => faulty_input(Refusal::NO_ROOM, seed),
        _ => {
            let mut input = good_input(seed);
            for _ in 0..random.between(2, 4) {
                match random.below(5) {
                    0 => samples_fault(&mut input, &mut random),
                    1 => room_fault(&mut input, &mut random),
                    _ => setting_fault(&mut input, &mut random),
                }
            }
            input
        }
    }
}

/// An input of which a frame is made.
pub fn good_input(seed: u64) -> Input {
    let mut random = Random::new(seed);
    let channels = random.channel_count();
    let mut input = Input {
        start: random.pointer().into(),
        sequences: 0,
        channels,
        numbers: Vec::new(),
        bits: Vec::new(),
        samples: Vec::new(),
        room: 0,
    };
    for _ in 0..channels {
        let (numbers, bits) = channel(&mut random);
        input.numbers.extend(numbers);
        input.bits.extend(bits);
    }
    match random.below(1000) {
        0 => one_block(&mut input),
        1..=40 => length_form(&mut input, &mut random),
        _ => input.sequences = some_sequences(&input, &mut random),
    }
    let octets = input.sample_octets().expect("good settings");
    input.samples = random.octets(octets);
    let longer = match random.below(3) {
        0 => 0,
        1 => random.between(1, 9),
        _ => random.between(10, 300),
    };
    input.room = input.frame().expect("a good input").len() + longer as usize;
    input
}

/// An input that is refused with `number`, which is 23, 24 or 25. Faults that come later in the order
/// may stand beside it.
pub fn faulty_input(number: u8, seed: u64) -> Input {
    let mut input = good_input(seed);
    let mut random = Random::new(seed ^ u64::from(number) << 32);
    if number == Refusal::NO_ROOM || random.one_in(3) {
        room_fault(&mut input, &mut random);
    }
    if number == Refusal::SAMPLES_LENGTH || number == Refusal::SETTING_RANGE && random.one_in(3) {
        samples_fault(&mut input, &mut random);
    }
    if number == Refusal::SETTING_RANGE {
        setting_fault(&mut input, &mut random);
    }
    input
}

/// A row and the bits of a channel, all of them allowed.
fn channel(random: &mut Random) -> (Numbers, Pair) {
    // What is not looked at keeps any number at all.
    let mut row = [(); NUMBERS].map(|()| random.any_number());
    row[number::BLOCK] = random.block() as i64;
    for (at, first, last) in &RANGES[1..] {
        row[*at] = random.within(*first, *last);
    }
    let width = SAMPLE_OCTETS[row[number::DATA_TYPE] as usize];
    row[number::NULL_WIDTH] = match random.below(4) {
        0 => random.any_number(),
        1 => width.into(),
        _ => 0,
    };
    let null = match row[number::NULL_WIDTH] {
        0 => random.any_number() as u64,
        _ => random.bits_of(width),
    };
    (row, [random.bits_of(width), null])
}

/// So many sequences that the samples do not become many.
fn some_sequences(input: &Input, random: &mut Random) -> u64 {
    let sequence = sequence_octets(input);
    let most = match random.below(12) {
        0 => 2200,
        _ => 96,
    };
    match most / sequence {
        0 if sequence < 5000 => random.below(2),
        sequences => random.between(0, sequences.min(6)),
    }
}

/// Octets of a sequence of an input with good settings.
fn sequence_octets(input: &Input) -> u64 {
    let one = Input {
        sequences: 1,
        ..input.clone()
    };
    one.sample_octets().expect("good settings")
}

/// The only channel has samples of one octet.
fn one_channel(input: &mut Input, block: i64) {
    input.channels = 1;
    input.numbers.truncate(NUMBERS);
    input.bits = vec![0; BITS];
    input.row(0)[number::BLOCK] = block;
    input.row(0)[number::DATA_TYPE] = 3;
}

/// One sequence of the longest block.
fn one_block(input: &mut Input) {
    one_channel(input, 1_048_576);
    input.sequences = 1;
}

/// As many samples as the last that a form of a length has, or one more.
fn length_form(input: &mut Input, random: &mut Random) {
    one_channel(input, 1);
    input.sequences = match random.below(8) {
        0 => random.pick(&[0xFFFF, 0x1_0000]),
        _ => random.pick(&[0x7F, 0x80, 0xFF, 0x100]),
    };
}

/// Numbers at their ends and outside.
impl Random {
    /// Any number at all, often one at an end.
    fn any_number(&mut self) -> i64 {
        match self.below(4) {
            0 => self.pick(&[i64::MIN, -1, i64::MAX]),
            1 => self.next() as i64,
            _ => self.below(5) as i64,
        }
    }

    fn within(&mut self, first: i64, last: i64) -> i64 {
        match self.below(4) {
            0 => first,
            1 => last,
            _ => first + self.below((last - first + 1) as u64) as i64,
        }
    }

    /// A number below `first` or above `last`. Some have lower octets that would be allowed.
    fn outside(&mut self, first: i64, last: i64) -> i64 {
        let far = match self.below(3) {
            0 => self.pick(&[i64::MIN, i64::MAX]),
            1 => self.next() as i64,
            _ => self.within(first, last) + (1 << self.pick(&[8, 16, 32, 48])),
        };
        match self.below(3) {
            0 => first - 1,
            1 => last + 1,
            _ if (first..=last).contains(&far) => last + 1,
            _ => far,
        }
    }

    /// Bits that samples of this width have, often the highest.
    fn bits_of(&mut self, width: u8) -> u64 {
        match self.below(3) {
            0 => u64::MAX >> (64 - 8 * width),
            _ => self.sample_bits(width),
        }
    }

    /// Bits wider than samples of this width, which is below 8.
    fn wide_bits(&mut self, width: u8) -> u64 {
        let least = 1 << (8 * width);
        match self.below(4) {
            0 => least,
            1 => u64::MAX,
            2 => self.bits_of(width) | least << self.below(64 - 8 * u64::from(width)),
            _ => self.next() | least,
        }
    }

    /// A channel that has a row and bits, the last one often.
    fn channel_of(&mut self, input: &Input) -> Option<usize> {
        let last = (input.numbers.len() / NUMBERS)
            .min(input.bits.len() / BITS)
            .checked_sub(1)?;
        Some(match self.below(3) {
            0 => 0,
            1 => last,
            _ => self.between(0, last as u64) as usize,
        })
    }
}

/// Puts a setting outside document 01's table, or bits wider than the sample.
fn setting_fault(input: &mut Input, random: &mut Random) {
    match random.below(20) {
        0..=1 => input.start = random.outside(i32::MIN.into(), i32::MAX.into()),
        2..=3 => input.sequences = sequences_above(input.sequences, random),
        4..=5 => channels_fault(input, random),
        6..=7 => rows_fault(input, random),
        fault => match random.channel_of(input) {
            None => input.channels = 0,
            Some(channel) if fault < 14 => {
                let (at, first, last) = random.pick(&RANGES);
                input.row(channel)[at] = random.outside(first, last);
            }
            Some(channel) => bits_fault(input, channel, random),
        },
    }
}

fn sequences_above(sequences: u64, random: &mut Random) -> u64 {
    const LIMIT: u64 = 1 << 32;
    match random.below(4) {
        0 => LIMIT,
        1 => u64::MAX,
        2 => sequences | LIMIT,
        _ => random.next() | LIMIT,
    }
}

/// No channel or too many, with as many rows where these would be few.
fn channels_fault(input: &mut Input, random: &mut Random) {
    let channels = input.channels;
    input.channels = match random.below(6) {
        0 => 0,
        1 => 257,
        2 => channels | 1 << 8 | 1,
        3 => channels | 1 << 32,
        4 => channels | 1 << 63,
        _ => u64::MAX,
    };
    if input.channels < 1000 && random.one_in(2) {
        repeat(&mut input.numbers, NUMBERS * input.channels as usize);
        repeat(&mut input.bits, BITS * input.channels as usize);
    }
}

/// A number, a row or all of them too many or too few.
fn rows_fault(input: &mut Input, random: &mut Random) {
    let (numbers, bits) = random.pick(&[(1, 0), (NUMBERS, 0), (0, 1), (0, BITS), (NUMBERS, BITS)]);
    let (all_numbers, all_bits) = (input.numbers.len(), input.bits.len());
    let (numbers, bits) = match random.below(9) {
        0 => (0, all_bits),
        1 => (all_numbers, 0),
        2..=5 => (all_numbers + numbers, all_bits + bits),
        _ => (
            all_numbers.saturating_sub(numbers),
            all_bits.saturating_sub(bits),
        ),
    };
    repeat(&mut input.numbers, numbers);
    repeat(&mut input.bits, bits);
}

/// So many of the list, from its front over and over.
fn repeat<T: Copy>(list: &mut Vec<T>, count: usize) {
    *list = list.iter().copied().cycle().take(count).collect();
}

/// Offset or null bits wider than the sample.
fn bits_fault(input: &mut Input, channel: usize, random: &mut Random) {
    let row = input.row(channel);
    let narrow = |data_type: &i64| (0..8).contains(data_type);
    if !narrow(&row[number::DATA_TYPE]) {
        row[number::DATA_TYPE] = random.below(8) as i64;
    }
    let width = SAMPLE_OCTETS[row[number::DATA_TYPE] as usize];
    let is_null = random.one_in(2);
    if is_null && row[number::NULL_WIDTH] == 0 {
        row[number::NULL_WIDTH] = random.pick(&[1, width.into(), i64::MIN]);
    }
    input.pair(channel)[usize::from(is_null)] = random.wide_bits(width);
}

/// Makes the samples too many or too few for the sequences.
fn samples_fault(input: &mut Input, random: &mut Random) {
    match random.below(7) {
        0 => input.samples.clear(),
        1..=2 => more_or_fewer(input, 1, random),
        3 => {
            let octets = random.pick(&[2, 4, 8]);
            more_or_fewer(input, octets, random);
        }
        _ if input.sample_octets().is_none() => {}
        4 => {
            let sequence = sequence_octets(input);
            more_or_fewer(input, sequence.min(3000) as usize, random);
        }
        _ => other_sequences(input, random),
    }
    if input.sample_octets() == Some(input.samples.len() as u64) {
        input.samples.push(random.octet());
    }
}

fn more_or_fewer(input: &mut Input, octets: usize, random: &mut Random) {
    let samples = &mut input.samples;
    match random.one_in(2) {
        true => samples.truncate(samples.len().saturating_sub(octets)),
        false => samples.resize(samples.len() + octets, random.octet()),
    }
}

/// Another number of sequences with the same samples. With some, the octets would be right if they were
/// counted in 32 bits.
fn other_sequences(input: &mut Input, random: &mut Random) {
    let sequences = input.sequences;
    let zeros = sequence_octets(input).trailing_zeros();
    input.sequences = match random.below(4) {
        0 => sequences + 1,
        1 => sequences.saturating_sub(1),
        2 if zeros > 0 => sequences + (1 << (32 - zeros)),
        _ => u32::MAX.into(),
    };
}

/// Makes the buffer too short.
fn room_fault(input: &mut Input, random: &mut Random) {
    let length = input.frame().map_or(70, |frame| frame.len());
    input.room = match random.below(4) {
        0 => 0,
        1 => random.below(length as u64) as usize,
        _ => length - 1,
    };
}
