//! The attributes of generated files once more, by looking back from each frame over the
//! definitions ahead of it instead of keeping a table of channels, and the samples there one by one.

mod common;

use common::counted;
use second::generator::good_file;
use second::reader::{attributes, check, there, Attributes, Scale};
use second::shrink::hex;

/// A definition that counts, with the byte order that stands at it.
struct Definition<'a> {
    tag: u8,
    /// The channel whose group it stands in.
    channel: Option<u32>,
    value: &'a [u8],
    little: bool,
}

/// All definitions of an accepted file in order, those in ignored groups left out.
fn definitions(file: &[u8]) -> Vec<Definition<'_>> {
    let (mut found, mut rest) = (Vec::new(), file);
    let (mut little, mut counted) = (false, false);
    while let Some((tag, after)) = rest.split_first() {
        rest = after;
        if *tag != 0x3F {
            let value = take_value(&mut rest).unwrap();
            found.push(Definition {
                tag: *tag,
                channel: None,
                value,
                little,
            });
            match tag {
                0x01 => little = value == [1],
                0x05 => counted = !value.is_empty(),
                _ => {}
            }
            continue;
        }
        let channel = take_channel(&mut rest);
        let definite = take_value(&mut rest);
        let inside = match &definite {
            Some(value) => &mut { *value },
            None => &mut rest,
        };
        while let Some((tag, after)) = inside.split_first() {
            *inside = after;
            let value = take_value(inside).unwrap();
            if definite.is_none() && *tag == 0 && value.is_empty() {
                break;
            }
            if counted {
                found.push(Definition {
                    tag: *tag,
                    channel: Some(channel),
                    value,
                    little,
                });
            }
        }
    }
    found
}

fn take_channel(rest: &mut &[u8]) -> u32 {
    let end = rest.iter().position(|octet| octet & 0x80 == 0).unwrap() + 1;
    let (number, after) = rest.split_at(end);
    *rest = after;
    number
        .iter()
        .fold(0, |number, octet| number * 128 + u32::from(octet & 0x7F))
}

/// A length and its value; none for an open length.
fn take_value<'a>(rest: &mut &'a [u8]) -> Option<&'a [u8]> {
    let first = usize::from(rest[0]);
    let (length, head) = match first {
        0..=0x7F => (first, 1),
        0x80 => {
            *rest = &rest[1..];
            return None;
        }
        _ => {
            let field = &rest[1..1 + first - 0x80];
            let length = field
                .iter()
                .fold(0, |length, octet| length * 256 + usize::from(*octet));
            (length, 1 + field.len())
        }
    };
    let (value, after) = rest[head..].split_at(length);
    *rest = after;
    Some(value)
}

impl Definition<'_> {
    /// The octets from `from` on, the highest first.
    fn high_first(&self, from: usize) -> Vec<u8> {
        let mut octets = self.value[from..].to_vec();
        if self.little {
            octets.reverse();
        }
        octets
    }

    fn bits(&self) -> u64 {
        self.high_first(0)
            .iter()
            .fold(0, |bits, octet| bits * 256 + u64::from(*octet))
    }

    /// The octets from `from` on as a two's complement number.
    fn signed(&self, from: usize) -> i32 {
        let octets = self.high_first(from);
        let fill = if octets[0] & 0x80 != 0 { 0xFF } else { 0x00 };
        let mut full = [fill; 4];
        full[4 - octets.len()..].copy_from_slice(&octets);
        i32::from_be_bytes(full)
    }

    fn code(&self) -> u16 {
        match *self.value {
            [octet] => octet.into(),
            [a, b, ..] if self.little => u16::from_le_bytes([a, b]),
            [a, b, ..] => u16::from_be_bytes([a, b]),
            [] => 0,
        }
    }

    fn scale(&self) -> Scale {
        Scale {
            unit: self.value[0],
            exponent: self.value[1] as i8,
            mantissa: self.signed(2),
        }
    }
}

/// The definition that holds for a channel, or for the root, after all of `past`; none where the
/// default does.
fn holding<'a>(
    past: &'a [Definition],
    tag: u8,
    channel: Option<u32>,
) -> Option<&'a Definition<'a>> {
    let mut channel = channel;
    for definition in past.iter().rev() {
        if definition.tag == 0x05 {
            channel = None;
        }
        if definition.tag != tag {
            continue;
        }
        match definition.channel {
            None => return Some(definition).filter(|found| !found.value.is_empty()),
            Some(_) if definition.channel != channel => {}
            Some(_) if definition.value.is_empty() => channel = None,
            Some(_) => return Some(definition),
        }
    }
    None
}

fn block(past: &[Definition], channel: Option<u32>) -> u32 {
    holding(past, 0x04, channel).map_or(1, |found| found.bits() as u32)
}

fn data_type(past: &[Definition], channel: Option<u32>) -> u8 {
    holding(past, 0x0A, channel).map_or(0, |found| found.value[0])
}

fn channels(past: &[Definition]) -> u32 {
    holding(past, 0x05, None).map_or(1, |found| found.bits() as u32)
}

/// Block length and octets per sample of each channel.
fn shapes(past: &[Definition]) -> Vec<(u64, u64)> {
    (0..channels(past))
        .map(|channel| {
            let width = match data_type(past, Some(channel)) {
                3 | 5 => 1,
                0 | 1 | 4 => 2,
                8 => 8,
                _ => 4,
            };
            (block(past, Some(channel)).into(), width)
        })
        .collect()
}

fn sequences(past: &[Definition], waveform: usize) -> u32 {
    let octets: u64 = shapes(past)
        .iter()
        .map(|(block, width)| block * width)
        .sum();
    let by_length = waveform as u64 / octets;
    holding(past, 0x06, None).map_or(by_length, Definition::bits) as u32
}

/// What a frame has for a channel, after the definitions `past` ahead of its waveform.
fn looked_up(past: &[Definition], channel: u32, start: i64, sequences: u32) -> Attributes {
    let holding = |tag| holding(past, tag, Some(channel));
    let (interval, resolution) = ((0, 0, 1000), (0, -6, 1));
    let scale = |tag, (unit, exponent, mantissa)| {
        holding(tag).map_or(
            Scale {
                unit,
                exponent,
                mantissa,
            },
            Definition::scale,
        )
    };
    Attributes {
        start: start as i32,
        channels: channels(past),
        sequences,
        block: block(past, Some(channel)),
        class: holding(0x08).map_or(0, Definition::code),
        lead: holding(0x09).map_or(0, Definition::code),
        data_type: data_type(past, Some(channel)),
        interval: scale(0x0B, interval),
        resolution: scale(0x0C, resolution),
        offset: holding(0x0D).map_or(0, Definition::bits),
        null: holding(0x12).map(Definition::bits),
    }
}

#[test]
fn looking_back_finds_the_same_attributes() {
    for seed in 0..20_000 {
        let file = good_file(seed);
        if file.len() > 1000 {
            continue;
        }
        let all = definitions(&file);
        let frames: Vec<usize> = (0..all.len()).filter(|n| all[*n].tag == 0x1E).collect();
        assert_eq!(check(&file), Ok(frames.len() as u32));
        let (mut continued, mut since) = (0, 0);
        for (frame, n) in (0..).zip(frames) {
            let past = &all[..n];
            let set = holding(&all[since..n], 0x07, None);
            let start = set.map_or(continued, |found| found.signed(0).into());
            let octets = all[n].value.len();
            let sequences = sequences(past, octets);
            let shapes = shapes(past);
            for channel in 0..channels(past) {
                let expected = looked_up(past, channel, start, sequences);
                let read = attributes(&file, frame, channel);
                assert_eq!(read, Ok(expected), "seed {seed}: {}", hex(&file));
                let counted = counted(&shapes, channel as usize, sequences.into(), octets as u64);
                let there = there(&file, frame, channel);
                assert_eq!(there, Ok(counted), "seed {seed}: {}", hex(&file));
            }
            continued = start + i64::from(block(past, None)) * i64::from(sequences);
            since = n;
        }
    }
}
