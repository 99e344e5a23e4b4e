//! The link: however a file is cut into pieces, what is given out and the verdict are what the whole-file
//! reader answers, and come with the octet that settles them.

mod common;

use common::refused;
use second::generator::file;
use second::link::{Event, Fed, Given, Link, Settings, Verdict};
use second::papers::*;
use second::reader::{attributes, check, frames, sample, there, Met, Refusal, Series, Value};
use second::shrink::hex;
use std::collections::BTreeMap;

const SEEDS: u64 = 10_000;

const LIMIT: u64 = 2_147_483_647;

/// Anything that is given out.
#[derive(Clone, PartialEq, Debug)]
enum Out {
    Settings(Settings),
    Sample(Given),
}

/// What a link has to answer for a file, by the whole-file reader.
struct Expected {
    /// What is given out, each with the octets after which it is due.
    outs: Vec<(u64, Out)>,
    verdict: Verdict,
    /// The octets after which the verdict comes; none where it comes with the end.
    settled: Option<u64>,
}

impl Expected {
    fn of(file: &[u8]) -> Expected {
        let (mut outs, mut frame) = (Vec::new(), 0);
        let verdict = frames(file, |met, channels| {
            outs.extend(of_waveform(frame, met, channels, file.len() as u64));
            frame += 1;
        });
        if let Err(refusal) = verdict {
            outs.extend(of_cut_off(file, refusal));
        }
        Expected {
            outs,
            verdict,
            settled: settled(file, verdict),
        }
    }

    /// What a call answers when `at` octets were taken before it.
    fn call(&self, at: u64, octets: usize, room: usize) -> Fed {
        let mut until = at + octets as u64;
        let (mut given, mut event) = (Vec::new(), Event::Nothing);
        let first = self.outs.partition_point(|(due, _)| *due <= at);
        for (due, out) in &self.outs[first..] {
            match out {
                _ if *due > until => break,
                Out::Settings(settings) => {
                    (until, event) = (*due, Event::Settings(settings.clone()));
                    break;
                }
                Out::Sample(_) if given.len() == room => {
                    until = due - 1;
                    break;
                }
                Out::Sample(sample) => given.push(*sample),
            }
        }
        if let Some(settled) = self.settled.filter(|settled| *settled <= until) {
            (until, event) = (settled.max(at), Event::Verdict(self.verdict));
        }
        Fed {
            taken: (until - at) as usize,
            given,
            event,
        }
    }

    /// Feeds the file in pieces with room as `cut` has them, and says the end.
    fn fed(&self, file: &[u8], mut cut: impl FnMut() -> (usize, usize)) {
        let (mut link, mut at) = (Link::new(), 0);
        let end = self.settled.unwrap_or(file.len() as u64);
        while at < end {
            let rest = &file[at as usize..];
            let (octets, room) = cut();
            let piece = &rest[..rest.len().min(octets)];
            let fed = link.feed(piece, room);
            assert_eq!(fed, self.call(at, piece.len(), room), "{at}: {}", hex(file));
            at += fed.taken as u64;
        }
        for _ in 0..2 {
            assert_eq!(link.end(), self.verdict, "{}", hex(file));
            assert_eq!(link.feed(&[], 0), over(self.verdict));
            assert_eq!(link.feed(&octets(P2), 9), over(self.verdict));
        }
    }
}

/// What a call answers after the verdict.
fn over(verdict: Verdict) -> Fed {
    Fed {
        taken: 0,
        given: Vec::new(),
        event: Event::Verdict(verdict),
    }
}

/// What is given out for a waveform when `come` octets of the file have come.
fn of_waveform(frame: u32, met: Met, channels: &[Series], come: u64) -> Vec<(u64, Out)> {
    let settings = Settings {
        frame,
        start: met.start,
        channels: channels.len() as u32,
        sequences: met.sequences,
        little: met.little,
        place: met.place,
        length: met.length,
        attributes: channels.iter().map(|series| series.attributes()).collect(),
    };
    let mut samples = Vec::new();
    for (channel, series) in channels.iter().enumerate() {
        let read = series.attributes();
        let (block, width) = (u64::from(read.block), width(read.data_type));
        let mut values = vec![Value::NoData; series.there().min(come) as usize];
        if series.samples() > 0 {
            assert_eq!(series.values(0, &mut values), Ok(values.len()));
        }
        for (number, value) in (0..).zip(values) {
            let sequence = number / block * met.sequence_octets;
            let place = met.place + sequence + series.lower() + number % block * width;
            let given = Given {
                frame,
                channel: channel as u32,
                number,
                place,
                value,
            };
            samples.push((place + width, Out::Sample(given)));
        }
    }
    samples.retain(|(due, _)| *due <= come);
    samples.sort_by_key(|(due, _)| *due);
    samples.insert(0, (met.place, Out::Settings(settings)));
    samples
}

/// What is given out for the waveform that the file's end cuts off, if the file is refused for that: the
/// same as if all its octets came.
fn of_cut_off(file: &[u8], refusal: Refusal) -> Vec<(u64, Out)> {
    let mut outs = Vec::new();
    let head = head_at(file, refusal.place as usize);
    let (Refusal::PAST_END, Some((0x1E, place, length))) = (refusal.number, head) else {
        return outs;
    };
    if place + length > LIMIT {
        return outs;
    }
    // Pages that are not written take no memory.
    let mut whole = vec![0; (place + length) as usize];
    whole[..file.len()].copy_from_slice(file);
    let mut frame = 0;
    let _ = frames(&whole, |met, channels| {
        if met.place == place {
            outs = of_waveform(frame, met, channels, file.len() as u64);
        }
        frame += 1;
    });
    outs
}

/// The tag of the item at `at`, where its value begins and how long it is said to be; none where the head
/// is cut off, or where it is a group's.
fn head_at(file: &[u8], at: usize) -> Option<(u8, u64, u64)> {
    let (tag, first) = (*file.get(at)?, *file.get(at + 1)?);
    let following = match first {
        0x81..=0x84 => usize::from(first - 0x80),
        _ => 0,
    };
    let field = match following {
        0 => &file[at + 1..at + 2],
        _ => file.get(at + 2..at + 2 + following)?,
    };
    let length = field
        .iter()
        .fold(0, |length, octet| length * 256 + u64::from(*octet));
    (tag != 0x3F).then_some((tag, (at + 2 + following) as u64, length))
}

/// The octets after which the file's refusal is settled: from then on every longer part of the file has
/// it. None where it is for the file's end.
fn settled(file: &[u8], verdict: Verdict) -> Option<u64> {
    let refusal = verdict.err()?;
    let for_the_end = match refusal.number {
        Refusal::UNENDED_GROUP => true,
        // In a definite group that has come whole, an item runs past the group.
        Refusal::PAST_END => {
            let before = check(&file[..refusal.place as usize]);
            before.map_err(|before| before.number) != Err(Refusal::PAST_END)
        }
        _ => false,
    };
    let (mut unsettled, mut settled) = (0, file.len());
    while settled - unsettled > 1 {
        let middle = (unsettled + settled) / 2;
        match check(&file[..middle]) == verdict {
            true => settled = middle,
            false => unsettled = middle,
        }
    }
    (!for_the_end).then_some(settled as u64)
}

/// Octets per sample by type.
fn width(data_type: u8) -> u64 {
    [2, 2, 4, 1, 2, 1, 4, 4, 8][usize::from(data_type)]
}

/// Numbers that only the seed decides.
struct Random(u64);

impl Random {
    fn below(&mut self, limit: u64) -> u64 {
        self.0 = self.0.wrapping_mul(0x5851_F42D_4C95_7F2D);
        self.0 = self.0.wrapping_add(0x1405_7B7E_F767_814F);
        (self.0 >> 33) % limit
    }
}

/// All at once, octet by octet, and cut at random with little room and pieces of nothing in between.
fn every_cut(file: &[u8], expected: &Expected, seed: u64) {
    expected.fed(file, || (usize::MAX, usize::MAX));
    expected.fed(file, || (1, 1));
    let mut random = Random(seed);
    expected.fed(file, || {
        let longest = random.below(40) + 1;
        (random.below(longest) as usize, random.below(6) as usize)
    });
}

/// A link after these octets, with what it has given out; there is room for everything.
fn link_after(octets: &[u8]) -> (Link, Vec<Out>) {
    let (mut link, mut at, mut outs) = (Link::new(), 0, Vec::new());
    while at < octets.len() {
        let fed = link.feed(&octets[at..], usize::MAX);
        assert!(fed.taken > 0);
        outs.extend(fed.given.into_iter().map(Out::Sample));
        match fed.event {
            Event::Nothing => {}
            Event::Settings(settings) => outs.push(Out::Settings(settings)),
            Event::Verdict(_) => break,
        }
        at += fed.taken;
    }
    (link, outs)
}

/// The verdict that comes while these octets are fed one by one, and after how many of them.
fn comes(octets: &[u8]) -> Option<(Verdict, usize)> {
    let mut link = Link::new();
    for (before, octet) in octets.iter().enumerate() {
        let fed = link.feed(&[*octet], 1);
        assert_eq!(fed.taken, 1);
        if let Event::Verdict(verdict) = fed.event {
            return Some((verdict, before + 1));
        }
    }
    None
}

/// Each file is refused with this number and place when so many octets have come.
fn all_refused(cases: &[(&str, u8, u64, usize)]) {
    for (file, number, place, octet) in cases {
        let octets = octets(file);
        let verdict = refused(*number, *place);
        assert_eq!(comes(&octets), Some((verdict, *octet)), "{file}");
        assert_eq!(check(&octets), verdict, "{file}");
        every_cut(&octets, &Expected::of(&octets), *octet as u64);
        every_end(&octets);
    }
}

/// Whatever part of the file comes, its end is answered as the reader does.
fn every_end(file: &[u8]) {
    for octets in 0..=file.len() {
        let part = &file[..octets];
        let (mut link, _) = link_after(part);
        assert_eq!(link.end(), check(part), "{}", hex(part));
    }
}

fn whole(frame: u32, channel: u32, number: u64, place: u64, value: i64) -> Given {
    Given {
        frame,
        channel,
        number,
        place,
        value: Value::Whole(value),
    }
}

#[test]
fn the_papers_files() {
    for (seed, file) in all().into_iter().enumerate() {
        every_cut(&file, &Expected::of(&file), seed as u64);
    }
    for file in SMALL.map(octets) {
        let expected = Expected::of(&file);
        for seed in 0..30 {
            every_cut(&file, &expected, seed);
        }
        every_end(&file);
    }
}

/// The answers that the papers print.
#[test]
fn the_papers_answers() {
    for (file, samples, frames) in [
        (P1, vec![], 0),
        (
            P2,
            vec![
                whole(0, 0, 0, 17, 1),
                whole(0, 0, 1, 19, 2),
                whole(0, 1, 0, 21, -1),
            ],
            1,
        ),
        (P3, vec![], 1),
        (P4, vec![whole(0, 0, 0, 14, 7), whole(0, 1, 0, 15, 8)], 1),
        (P5, vec![whole(0, 0, 0, 8, 9)], 1),
        (P9, vec![whole(0, 0, 0, 5, 5)], 1),
        (P11, vec![], 0),
        (SURPLUS, vec![whole(0, 0, 0, 2, 1)], 1),
    ] {
        let (mut link, outs) = link_after(&octets(file));
        let given: Vec<Out> = samples.into_iter().map(Out::Sample).collect();
        let settings = |out: &Out| matches!(out, Out::Settings(_));
        assert_eq!(outs.iter().filter(|out| settings(out)).count(), frames);
        assert_eq!(outs[frames..], given, "{file}");
        assert_eq!(link.end(), Ok(frames as u32), "{file}");
    }
    for (file, number, place, octet) in [(P6, 8, 3, 6), (P7, 2, 0, 2), (P10, 12, 3, 7)] {
        let verdict = refused(number, place);
        assert_eq!(comes(&octets(file)), Some((verdict, octet)), "{file}");
    }
    assert_eq!(comes(&octets(P8)), None);
    let (mut link, _) = link_after(&octets(P8));
    assert_eq!(link.end(), refused(10, 0));
}

/// P2, whose settings and samples are known by hand, fed call by call.
#[test]
fn p2_in_four_calls() {
    let file = octets(P2);
    let fed = |taken, given, event| Fed {
        taken,
        given,
        event,
    };
    let attributes = |channel| attributes(&file, 0, channel).unwrap();
    let settings = Settings {
        frame: 0,
        start: 0,
        channels: 2,
        sequences: 1,
        little: true,
        place: 17,
        length: 6,
        attributes: vec![attributes(0), attributes(1)],
    };
    assert_eq!((attributes(0).block, attributes(1).block), (2, 1));
    let mut link = Link::new();
    let call = link.feed(&file, 9);
    assert_eq!(call, fed(17, vec![], Event::Settings(settings)));
    // Room for one sample: the first octet of the second is taken, the octet that completes it is not.
    let call = link.feed(&file[17..], 1);
    assert_eq!(call, fed(3, vec![whole(0, 0, 0, 17, 1)], Event::Nothing));
    for _ in 0..3 {
        assert_eq!(
            link.feed(&file[20..], 0),
            fed(0, Vec::new(), Event::Nothing)
        );
    }
    let rest = vec![whole(0, 0, 1, 19, 2), whole(0, 1, 0, 21, -1)];
    assert_eq!(link.feed(&file[20..], 2), fed(3, rest, Event::Nothing));
    assert_eq!(link.end(), Ok(1));
}

#[test]
fn generated_files() {
    let mut counts = BTreeMap::new();
    for seed in 0..SEEDS {
        let file = file(seed);
        let expected = Expected::of(&file);
        every_cut(&file, &expected, seed);
        let kind = match (expected.verdict, expected.settled) {
            (Ok(0), _) => "accepted, no frames".to_string(),
            (Ok(_), _) => "accepted".to_string(),
            (Err(refusal), None) => format!("{} at the end", refusal.number),
            (Err(refusal), Some(octet)) if octet < file.len() as u64 => {
                format!("{} before the end", refusal.number)
            }
            (Err(refusal), Some(_)) => format!("{} at the last octet", refusal.number),
        };
        *counts.entry(kind).or_insert(0) += 1;
        let mut note = |kind: &str, met: bool| {
            *counts.entry(kind.to_string()).or_insert(0) += u32::from(met);
        };
        let mut outs = expected.outs.iter();
        let samples = outs.any(|(_, out)| matches!(out, Out::Sample(_)));
        note("samples", samples);
        note(
            "samples, then refused",
            samples && expected.verdict.is_err(),
        );
        let cut_off = expected.verdict.err();
        let cut_off = cut_off.map(|refusal| of_cut_off(&file, refusal));
        let cut_off = cut_off.unwrap_or_default();
        note("settings of a waveform cut off", !cut_off.is_empty());
        note("samples of a waveform cut off", cut_off.len() > 1);
    }
    for (kind, count) in &counts {
        println!("{kind}: {count}");
        assert!(*count >= 10, "{kind}: {count}");
    }
    let seen = |kind: String| counts.contains_key(&kind);
    for number in [1, 2, 3, 4, 5, 6, 7, 8, 9, 11, 12, 13] {
        assert!(seen(format!("{number} before the end")), "{number}");
    }
    assert!(seen("3 at the end".to_string()) && seen("10 at the end".to_string()));
    assert!(!seen("10 before the end".to_string()) && !seen("10 at the last octet".to_string()));
}

/// What is given out is what the reader's questions answer on the file up to the waveform's end.
#[test]
fn given_out_as_the_questions_answer() {
    let (mut settings_seen, mut samples_seen, mut refused_seen) = (0, 0, 0);
    for seed in 0..SEEDS {
        let file = file(seed);
        if file.len() > 700 {
            continue;
        }
        let (mut link, outs) = link_after(&file);
        let (mut part, mut left, mut last) = (&file[..0], BTreeMap::new(), 0);
        for out in outs {
            match out {
                Out::Settings(settings) => {
                    assert!(left.values().all(|count| *count == 0));
                    let Some(up_to) = file.get(..(settings.place + settings.length) as usize)
                    else {
                        // The file's end cuts it off.
                        assert!(link.end().is_err());
                        left.clear();
                        break;
                    };
                    part = up_to;
                    last = settings.place;
                    settings_seen += 1;
                    refused_seen += u32::from(check(&file).is_err());
                    let frame = settings.frame;
                    assert_eq!(check(part), Ok(frame + 1), "{}", hex(&file));
                    let all = 0..settings.channels;
                    let read = all.clone().map(|channel| attributes(part, frame, channel));
                    let read: Vec<_> = read.map(Result::unwrap).collect();
                    assert_eq!(settings.attributes, read, "{}", hex(&file));
                    let first = read[0];
                    assert_eq!(
                        (settings.start, settings.channels, settings.sequences),
                        (first.start, first.channels, first.sequences)
                    );
                    left = all
                        .map(|channel| (channel, there(part, frame, channel).unwrap()))
                        .collect();
                }
                Out::Sample(given) => {
                    let answer = sample(part, given.frame, given.channel, given.number);
                    assert_eq!(answer, Ok((given.place, given.value)), "{}", hex(&file));
                    assert!(given.value != Value::NoData);
                    // In order of place, so that none comes twice.
                    assert!(given.place >= last);
                    last = given.place + 1;
                    *left.get_mut(&given.channel).unwrap() -= 1;
                    samples_seen += 1;
                }
            }
        }
        assert!(left.values().all(|count| *count == 0), "{}", hex(&file));
    }
    println!("{settings_seen} settings, {refused_seen} in refused files, {samples_seen} samples");
    assert!(settings_seen > 5000 && refused_seen > 1000 && samples_seen > 20_000);
}

/// A refusal comes when every longer file has it and not before.
#[test]
fn a_refusal_that_comes_is_settled() {
    let mut seen = BTreeMap::new();
    for seed in 0..SEEDS {
        let whole = file(seed);
        let Some((verdict, octet)) = comes_by_calls(&whole) else {
            continue;
        };
        *seen.entry(verdict.unwrap_err().number).or_insert(0) += 1;
        assert_eq!(check(&whole), verdict);
        assert_ne!(check(&whole[..octet - 1]), verdict, "{}", hex(&whole));
        let mut random = Random(seed);
        let mut continued = vec![
            Vec::new(),
            vec![0; 9],
            vec![0xFF; 9],
            file(seed + SEEDS),
            file(seed + 2 * SEEDS),
        ];
        continued.extend((0..4).map(|_| {
            let octets = random.below(60);
            (0..octets).map(|_| random.below(256) as u8).collect()
        }));
        for after in continued {
            let longer = [&whole[..octet], &after].concat();
            assert_eq!(check(&longer), verdict, "{}", hex(&longer));
            let (mut link, _) = link_after(&longer);
            assert_eq!(link.end(), verdict, "{}", hex(&longer));
        }
        // And shorter files do not have it.
        for _ in 0..5 {
            let fewer = random.below(octet as u64) as usize;
            assert_ne!(check(&whole[..fewer]), verdict);
        }
    }
    println!("{seen:?}");
    for number in [1, 2, 3, 4, 5, 6, 7, 8, 9, 11, 12, 13] {
        assert!(seen[&number] >= 20, "{number}");
    }
    assert_eq!(seen.len(), 12);
}

/// The verdict that comes while these octets are fed all at once, and after how many of them.
fn comes_by_calls(octets: &[u8]) -> Option<(Verdict, usize)> {
    let (mut link, mut at) = (Link::new(), 0);
    while at < octets.len() {
        let fed = link.feed(&octets[at..], usize::MAX);
        assert!(fed.taken > 0);
        at += fed.taken;
        if let Event::Verdict(verdict) = fed.event {
            return Some((verdict, at));
        }
    }
    None
}

/// Without a verdict before it, the end is answered as the reader does, wherever it is said.
#[test]
fn the_end_may_be_said_anywhere() {
    let mut ends = BTreeMap::new();
    for seed in 0..SEEDS {
        let file = file(seed);
        let mut random = Random(seed);
        for _ in 0..6 {
            let part = &file[..random.below(file.len() as u64 + 1) as usize];
            let (mut link, outs) = link_after(part);
            let verdict = link.end();
            assert_eq!(verdict, check(part), "{}", hex(part));
            let expected = Expected::of(part).outs.into_iter();
            let expected: Vec<Out> = expected.map(|(_, out)| out).collect();
            assert_eq!(outs, expected, "{}", hex(part));
            let number = verdict.err().map(|refusal| refusal.number);
            *ends.entry(number).or_insert(0) += 1;
        }
    }
    println!("{ends:?}");
    assert!([None, Some(3), Some(10)].iter().all(|end| ends[end] > 500));
}

#[test]
fn tags_and_length_octets_and_channel_numbers_are_refused_at_their_octet() {
    all_refused(&[
        ("A1 00 00", 1, 0, 1),
        ("0E 00 67", 1, 2, 3),
        ("05 01 01 3F 00 80 0A 00 21 00", 1, 8, 9),
        ("3F 00 80 FF 00", 1, 3, 4),
        ("0A 85", 2, 0, 2),
        ("0A 80 00", 2, 0, 2),
        ("1E 80 00", 2, 0, 2),
        ("3F 05 FF 00", 2, 0, 3),
        ("3F 81 05 86 00", 2, 0, 4),
        ("00 80 00", 2, 0, 2),
        ("05 01 01 3F 00 80 00 80 00", 2, 6, 8),
        ("3F 00 80 17 FF 00", 2, 3, 5),
        ("3F 80 80 80 80 00", 4, 0, 5),
        ("05 01 01 3F FF FF FF FF", 4, 3, 8),
        ("05 01 01 3F 00 80 1E 00", 5, 6, 7),
        ("05 01 01 3F 00 80 0A 01 03 3F", 5, 9, 10),
        ("3F 00 80 01 01 00", 5, 3, 4),
    ]);
}

/// Until then the item is cut off, and the file ends with 3.
#[test]
fn lengths_and_values_are_refused_with_the_last_octet_of_the_value() {
    all_refused(&[
        ("0A 02 00 00 00", 6, 0, 4),
        ("0A 84 00 00 00 02 00 00 00", 6, 0, 8),
        ("0C 01 00", 6, 0, 3),
        ("15 01 00 0D 03 00 00 00", 6, 3, 8),
        ("05 01 01 3F 00 80 04 05 00 00 00 00 01 00", 6, 6, 13),
        ("0A 01 09 00", 7, 0, 3),
        ("01 01 02 00", 7, 0, 3),
        ("04 04 00 10 00 01", 7, 0, 6),
        ("0B 06 00 00 00 00 00 00 1E", 7, 0, 8),
        ("05 01 01 3F 00 80 0A 01 09 00 00", 7, 6, 9),
        ("0E 03 00 00 00 00", 9, 0, 5),
        ("0E 81 01 77", 9, 0, 4),
    ]);
    // Before the value's last octet it is not known that it comes.
    for file in ["0A 02 00", "0E 03 00 00", "0A 01"] {
        let octets = octets(file);
        assert_eq!(comes(&octets), None);
        assert_eq!(link_after(&octets).0.end(), refused(3, 0), "{file}");
    }
}

/// No more than the first 35 octets of a value can matter.
#[test]
fn long_values_are_refused_with_their_last_octet() {
    for (tag, number) in [(0x08, 6), (0x09, 6), (0x0D, 6), (0x06, 6), (0x0E, 9)] {
        for length in [35, 36, 127, 5000] {
            let mut file = vec![0x15, 0, tag, 0x82, (length >> 8) as u8, length as u8];
            file.resize(file.len() + length, 1);
            let verdict = refused(number, 2);
            assert_eq!(comes(&file), Some((verdict, file.len())));
            file.extend(octets(P2));
            assert_eq!(
                comes_by_calls(&file),
                Some((verdict, file.len() - octets(P2).len()))
            );
        }
    }
    // The longest code is not refused, and the same octets after a tag that means nothing are not.
    for (tag, length) in [(0x08, 34), (0x09, 34), (0x16, 35), (0x00, 5000)] {
        let mut file = vec![tag, 0x82, (length >> 8) as u8, length as u8];
        file.resize(file.len() + length, 1);
        file.extend(octets(P3));
        assert_eq!(comes(&file), None);
        every_cut(&file, &Expected::of(&file), 1);
        assert_eq!(link_after(&file).0.end(), Ok(1));
    }
}

/// A waveform that is refused gives out nothing, and is refused when it has come.
#[test]
fn waveforms_are_refused_with_their_last_octet() {
    all_refused(&[
        (P10, 12, 3, 7),
        ("0D 01 01 1E 00 00", 12, 3, 5),
        ("0D 01 01 1E 81 00 00", 12, 3, 6),
        ("12 04 00 00 00 00 06 01 01 1E 03 00 00 00", 12, 9, 14),
        (
            "07 04 7F FF FF FF 1E 02 00 01 1E 02 00 02 00 00",
            13,
            10,
            14,
        ),
        ("07 04 7F FF FF FF 1E 02 00 01 1E 00", 13, 10, 12),
    ]);
    for (waveform, octets_after) in [("1E 02 00 05", 4), ("1E 00", 2), ("1E 82 00 01 77", 5)] {
        let mut file = octets("1E 00").repeat(4096);
        file.extend(octets(waveform));
        let verdict = refused(11, 8192);
        assert_eq!(comes(&file), Some((verdict, 8192 + octets_after)));
        let (_, outs) = link_after(&file);
        assert_eq!(outs.len(), 4096);
        let (mut link, _) = link_after(&file[..file.len() - 1]);
        assert_eq!(link.end(), refused(3, 8192));
    }
    // The frame before is given out, the refused one is not; its octets need no room.
    let file = octets("07 04 7F FF FF FF 1E 02 00 01 1E 04 00 02 00 03");
    let (_, outs) = link_after(&file);
    assert_eq!(outs.len(), 2);
    let (mut link, _) = link_after(&file[..10]);
    assert_eq!(
        link.feed(&file[10..], 0),
        Fed {
            taken: 6,
            ..over(refused(13, 10))
        }
    );
}

#[test]
fn channel_numbers_above_the_count_are_refused_with_their_group() {
    all_refused(&[
        ("05 01 02 3F 02 80 00 00", 8, 3, 6),
        ("05 01 02 3F 82 00 80 A1", 8, 3, 7),
        ("05 01 02 3F 02 00 00", 8, 3, 6),
        ("05 01 02 3F 02 82 00 00 00", 8, 3, 8),
        ("05 01 02 3F 02 03 0A 01 03 00", 8, 3, 9),
        // Nothing in it is looked at.
        ("05 01 02 3F 02 03 A1 A1 A1 00", 8, 3, 9),
        ("05 01 02 3F 02 02 0A 05 00", 8, 3, 8),
    ]);
    // A group that is ignored has no channel number to be refused.
    assert_eq!(comes(&octets("3F 02 80 00 00 3F 7F 00")), None);
}

/// A fault in a definite group waits for the last octet of the group: until then the group is cut off.
#[test]
fn faults_in_a_definite_group_wait_for_it() {
    let cases = [
        ("05 01 01 3F 00 04 A1 00 00 00 00", 1, 6, 10),
        ("05 01 01 3F 00 04 0A 85 00 00 00", 2, 6, 10),
        ("05 01 01 3F 00 04 0A 80 00 00 00", 2, 6, 10),
        ("05 01 01 3F 00 04 3F 80 80 80 80", 5, 6, 10),
        ("05 01 01 3F 00 06 0A 00 1E 00 00 00 00", 5, 8, 12),
        ("05 01 01 3F 00 05 0A 02 00 00 77 00", 6, 6, 11),
        ("05 01 01 3F 00 05 0A 01 09 77 00 00", 7, 6, 11),
        ("05 01 01 3F 00 03 0A 01 09 00", 7, 6, 9),
        // The first fault decides, though another comes with the last octet.
        ("05 01 01 3F 00 06 0A 01 09 0A 01 0A 00", 7, 6, 12),
        ("05 01 01 3F 00 04 A1 0A 05 00 00", 1, 6, 10),
        // An item that runs past the group: its value, its length, or all but its tag.
        ("05 01 01 3F 00 02 0A 01 03 00", 3, 6, 8),
        ("05 01 01 3F 00 04 09 00 0A 84 00 00 00 01", 3, 8, 10),
        ("05 01 01 3F 00 03 09 00 0A 01 03", 3, 8, 9),
        ("05 01 01 3F 00 05 0A 05 00 00 00 00 00", 3, 6, 11),
        // In one that is ignored.
        ("3F 00 03 0A 02 03 1E 00", 3, 3, 6),
        ("3F 00 04 0A 00 1E 00 00", 5, 5, 7),
        ("3F 00 03 67 00 00 00", 1, 3, 6),
    ];
    all_refused(&cases);
    for (file, _, _, octet) in cases {
        let octets = octets(file);
        let group = octets.iter().position(|tag| *tag == 0x3F).unwrap();
        let head = group + 3;
        for cut in head..octet {
            let (mut link, _) = link_after(&octets[..cut]);
            assert_eq!(link.end(), refused(3, group as u64), "{file}");
        }
    }
    // What an ignored group is not refused for.
    assert_eq!(comes(&octets("3F 09 05 0A 01 09 0A 00 1E 00")), None);
    // 00 of length 0 ends no definite group, and a whole group ends itself.
    let file = octets("05 01 01 3F 00 05 00 00 0A 01 03 1E 01 07");
    let (mut link, outs) = link_after(&file);
    assert_eq!(outs[1..], [Out::Sample(whole(0, 0, 0, 13, 7))]);
    assert_eq!(link.end(), Ok(1));
}

/// A group is not kept: one of many octets costs as much as they do.
#[test]
fn a_long_group_is_passed_over() {
    let mut file = octets("05 01 01 3F 00 84 00 40 00 05 0A 01 03 16 83 3F FF FD");
    file.resize(file.len() + 0x3F_FFFD, 0xA1);
    file.extend(octets("1E 01 07"));
    let (mut link, outs) = link_after(&file);
    assert_eq!(outs.len(), 2);
    assert_eq!(link.end(), Ok(1));
    file[12] = 9;
    let verdict = refused(7, 10);
    assert_eq!(comes_by_calls(&file), Some((verdict, file.len() - 3)));
}

/// 3 for the file's end and 10 come with the end alone.
#[test]
fn what_the_end_is_refused_for() {
    for (file, number, place) in [
        ("0A", 3, 0),
        ("0A 84 00 00", 3, 0),
        ("0A 01", 3, 0),
        ("15 00 3F", 3, 2),
        ("3F 80 80 80", 3, 0),
        ("3F 00", 3, 0),
        ("3F 00 01", 3, 0),
        ("05 01 01 3F 05 01", 3, 3),
        ("06 01 02 1E 02 00", 3, 3),
        ("0D 01 01 1E 02 00", 3, 3),
        ("05 01 01 3F 00 80", 10, 3),
        ("05 01 01 3F 00 80 0A 01 03", 10, 3),
        ("05 01 01 3F 00 80 0A 01", 3, 6),
        ("05 01 01 3F 00 80 00", 3, 6),
        ("3F 00 80 00 01 77", 10, 0),
    ] {
        let octets = octets(file);
        assert_eq!(comes(&octets), None, "{file}");
        let mut link = link_after(&octets).0;
        for _ in 0..3 {
            assert_eq!(link.end(), refused(number, place), "{file}");
        }
        assert_eq!(check(&octets), refused(number, place), "{file}");
        every_cut(&octets, &Expected::of(&octets), 5);
        // Fed after the end, the octets that were missing change nothing.
        assert_eq!(link.feed(&[0; 9], 9), over(refused(number, place)));
        assert_eq!(link.end(), refused(number, place));
    }
    // Each form of the end mark ends an open group.
    for mark in ["00 00", "00 81 00", "00 84 00 00 00 00"] {
        let file = octets(&format!("05 01 01 3F 00 80 {mark}"));
        assert_eq!(link_after(&file).0.end(), Ok(0));
        let (mut link, _) = link_after(&file[..file.len() - 1]);
        assert_eq!(link.end(), refused(3, 6));
    }
}

#[test]
fn after_the_end_the_answer_is_repeated() {
    let mut link = Link::new();
    assert_eq!(link.end(), Ok(0));
    assert_eq!(link.feed(&octets(P3), 5), over(Ok(0)));
    assert_eq!(link.end(), Ok(0));
    let (mut link, outs) = link_after(&octets(P2));
    assert_eq!(outs.len(), 4);
    assert_eq!(link.end(), Ok(1));
    assert_eq!(link.feed(&octets(P2), 5), over(Ok(1)));
    assert_eq!(link.feed(&[0xA1], 5), over(Ok(1)));
    assert_eq!(link.end(), Ok(1));
    // A refusal stands, whatever comes and though the end is said.
    let (mut link, _) = link_after(&octets(P7));
    assert_eq!(link.feed(&octets(P2), 5), over(refused(2, 0)));
    assert_eq!(link.end(), refused(2, 0));
    assert_eq!(link.feed(&[], 0), over(refused(2, 0)));
}

/// It holds at most 64 KiB of its own; besides, the first octets of a value or those of a sample.
#[test]
fn a_link_is_small() {
    assert!(size_of::<Link>() + 35 <= 64 * 1024);
}

/// Pieces of nothing at every place, with any room.
#[test]
fn feeding_nothing_changes_nothing() {
    for file in SMALL.map(octets) {
        let expected = Expected::of(&file);
        let end = expected.settled.unwrap_or(file.len() as u64);
        let (mut link, mut at) = (Link::new(), 0);
        while at < end {
            for room in [0, 1, usize::MAX] {
                let nothing = Fed {
                    taken: 0,
                    given: Vec::new(),
                    event: Event::Nothing,
                };
                assert_eq!(link.feed(&[], room), nothing);
            }
            let piece = &file[at as usize..][..1];
            let fed = link.feed(piece, 1);
            assert_eq!(fed, expected.call(at, 1, 1), "{at}: {}", hex(&file));
            assert_eq!(fed.taken, 1);
            at += 1;
        }
        assert_eq!(link.end(), expected.verdict);
    }
}

/// Settings come with the last length octet, also of a waveform that is then cut off, and before any of
/// its octets.
#[test]
fn settings_come_behind_the_head() {
    for (file, place, length) in [
        ("1E 00", 2, 0),
        ("1E 81 00", 3, 0),
        ("1E 02 00 01", 2, 2),
        ("06 01 05 1E 84 00 00 00 02 00 01", 9, 2),
    ] {
        let octets = octets(file);
        let mut link = Link::new();
        for octet in &octets[..place - 1] {
            assert_eq!(link.feed(&[*octet], 0).event, Event::Nothing);
        }
        let fed = link.feed(&octets[place - 1..], 9);
        let Event::Settings(settings) = fed.event else {
            panic!("{file}");
        };
        assert_eq!((fed.taken, fed.given), (1, Vec::new()));
        let of_waveform = (settings.frame, settings.place, settings.length);
        assert_eq!(of_waveform, (0, place as u64, length));
        let read = attributes(&octets, 0, 0).unwrap();
        assert_eq!(settings.attributes, [read]);
        if length > 0 {
            assert_eq!(link.end(), refused(3, waveform_tag(&octets)));
        } else {
            assert_eq!(link.end(), Ok(1));
        }
    }
    // Two octets of a waveform of which a thousand are announced.
    let (mut link, outs) = link_after(&octets("1E 82 03 E8 00 05 00"));
    let [Out::Settings(settings), Out::Sample(given)] = &outs[..] else {
        panic!("{outs:?}");
    };
    assert_eq!((settings.sequences, settings.length), (500, 1000));
    assert_eq!(*given, whole(0, 0, 0, 4, 5));
    assert_eq!(link.end(), refused(3, 0));
}

/// Where the only waveform of the file has its tag.
fn waveform_tag(file: &[u8]) -> u64 {
    file.iter().position(|octet| *octet == 0x1E).unwrap() as u64
}

/// Two sequences of blocks of 2, 1 and 3: channels take turns in the file.
#[test]
fn samples_go_in_order_of_place() {
    let (mut link, outs) = link_after(&octets(BLOCKS));
    let named: Vec<(u32, u64, u64)> = outs[1..]
        .iter()
        .map(|out| match out {
            Out::Sample(given) => (given.channel, given.number, given.place),
            Out::Settings(_) => panic!("one frame"),
        })
        .collect();
    let place = 20;
    assert_eq!(
        named,
        [
            (0, 0, place),
            (0, 1, place + 1),
            (1, 0, place + 2),
            (2, 0, place + 3),
            (2, 1, place + 4),
            (2, 2, place + 5),
            (0, 2, place + 6),
            (0, 3, place + 7),
            (1, 1, place + 8),
            (2, 3, place + 9),
            (2, 4, place + 10),
            (2, 5, place + 11),
        ]
    );
    assert_eq!(link.end(), Ok(1));
}

/// Declared sequences bound the samples, and so does the waveform's length.
#[test]
fn declared_sequences_longer_and_shorter_than_the_waveform() {
    let given = |file: &str| {
        let (mut link, outs) = link_after(&octets(file));
        let samples = outs.into_iter().filter_map(|out| match out {
            Out::Sample(given) => Some((given.number, given.place, given.value)),
            Out::Settings(_) => None,
        });
        (samples.collect::<Vec<_>>(), link.end())
    };
    let at = |number, place, value| (number, place, Value::Whole(value));
    // As many as there are, fewer, more; one octet too few and one too many.
    for (sequences, waveform, count) in [
        ("02", "04 00 01 00 02", 2),
        ("01", "04 00 01 00 02", 1),
        ("01", "05 00 01 00 02 77", 1),
        ("03", "04 00 01 00 02", 2),
        ("02", "03 00 01 00", 1),
        ("02", "05 00 01 00 02 00", 2),
        ("03", "05 00 01 00 02 00", 2),
        ("07", "01 00", 0),
        ("07", "00", 0),
    ] {
        let file = format!("06 01 {sequences} 1E {waveform}");
        let expected = [at(0, 5, 1), at(1, 7, 2)];
        assert_eq!(given(&file), (expected[..count].to_vec(), Ok(1)), "{file}");
        every_cut(&octets(&file), &Expected::of(&octets(&file)), 3);
        // What follows the waveform is not taken for its samples.
        let followed = format!("{file} 16 04 00 01 00 02");
        assert_eq!(given(&followed), (expected[..count].to_vec(), Ok(1)));
    }
    // Without declared sequences an incomplete one is surplus, even where it holds whole samples.
    let (samples, _) = given("05 01 02 1E 06 00 01 00 02 00 03");
    assert_eq!(samples, [at(0, 5, 1), at(0, 7, 2)]);
    let (samples, _) = given("05 01 02 06 01 02 1E 06 00 01 00 02 00 03");
    assert_eq!(samples, [at(0, 8, 1), at(0, 10, 2), at(1, 12, 3)]);
    // A sample that is cut off leaves the narrower ones after it cut off too.
    let cut = "05 01 02 06 01 01 3F 01 03 0A 01 03";
    let (samples, _) = given(&format!("{cut} 1E 01 00"));
    assert_eq!(samples, []);
    let (samples, _) = given(&format!("{cut} 1E 03 00 01 07"));
    assert_eq!(samples, [at(0, 14, 1), at(0, 16, 7)]);
    for file in HOSTILE.map(octets) {
        every_cut(&file, &Expected::of(&file), 8);
    }
}

/// No octet that completes a sample is taken without room for it; others are.
#[test]
fn room_holds_octets_back() {
    let nothing = |taken| Fed {
        taken,
        given: Vec::new(),
        event: Event::Nothing,
    };
    // Three samples of four octets, two of surplus, and an item behind.
    let mut file = octets("0A 01 02 1E 0E");
    file.extend([0, 0, 0, 1, 0, 0, 0, 2, 0, 0, 0, 3, 0x77, 0x77]);
    file.extend(octets("16 01 00"));
    let mut link = Link::new();
    assert_eq!(link.feed(&file, 0).taken, 5);
    assert_eq!(link.feed(&file[5..], 0), nothing(3));
    assert_eq!(link.feed(&file[8..], 0), nothing(0));
    let one = |number: u64| whole(0, 0, number, 5 + 4 * number, number as i64 + 1);
    for number in 0..2 {
        let at = 8 + 4 * number as usize;
        let fed = link.feed(&file[at..], 1);
        assert_eq!((fed.taken, fed.given), (4, vec![one(number)]));
        assert_eq!(link.feed(&file[at + 4..], 0), nothing(0));
    }
    // The last sample, the surplus and what follows it need no more room than one.
    let fed = link.feed(&file[16..], 1);
    assert_eq!((fed.taken, fed.given), (6, vec![one(2)]));
    assert_eq!(link.end(), Ok(1));
    // Samples of one octet: each octet needs room.
    let file = octets("0A 01 03 1E 03 07 08 09");
    let mut link = link_after(&file[..5]).0;
    assert_eq!(link.feed(&file[5..], 0), nothing(0));
    let fed = link.feed(&file[5..], 2);
    assert_eq!(fed.taken, 2);
    assert_eq!(fed.given, [whole(0, 0, 0, 5, 7), whole(0, 0, 1, 6, 8)]);
}

/// A link that is fed a file near the limit, which is not stored: a head, then zeros.
struct Long {
    link: Link,
    come: u64,
    outs: Vec<Out>,
}

impl Long {
    fn new(head: &str) -> Long {
        let head = octets(head);
        let (link, outs) = link_after(&head);
        let come = head.len() as u64;
        Long { link, come, outs }
    }

    /// Feeds octets till `come` have come, in pieces of a mebibyte; no verdict may come before.
    fn until(&mut self, come: u64) {
        let piece = vec![0; 1 << 20];
        while self.come < come {
            let octets = (come - self.come).min(piece.len() as u64) as usize;
            let fed = self.link.feed(&piece[..octets], usize::MAX);
            assert_eq!(fed.event, Event::Nothing, "after {}", self.come);
            assert_eq!(fed.taken, octets);
            self.outs.extend(fed.given.into_iter().map(Out::Sample));
            self.come += octets as u64;
        }
    }

    /// Feeds some octets more, of which the first settles a refusal.
    fn refused(&mut self, number: u8, place: u64) {
        let verdict = refused(number, place);
        let fed = self.link.feed(&[0; 5], usize::MAX);
        assert_eq!(
            fed,
            Fed {
                taken: 1,
                ..over(verdict)
            }
        );
        assert_eq!(self.link.feed(&[0; 5], 5), over(verdict));
        assert_eq!(self.link.end(), verdict);
        assert_eq!(self.link.feed(&[], 5), over(verdict));
    }
}

#[test]
fn the_octet_that_passes_the_limit_is_refused() {
    // A value that ends exactly at the limit, one that ends past it, and one as long as can be.
    for head in [
        "16 84 7F FF FF F9",
        "16 84 7F FF FF FA",
        "16 84 FF FF FF FF",
        "00 84 FF FF FF FF",
        "3F 00 84 FF FF FF FF 16 84 FF FF FF FF",
        "3F 00 80 16 84 FF FF FF FF",
    ] {
        let mut long = Long::new(head);
        long.until(LIMIT);
        long.refused(15, 0);
    }
    // Ended at the limit.
    for (head, verdict) in [
        ("16 84 7F FF FF F9", Ok(0)),
        ("16 84 7F FF FF FA", refused(3, 0)),
        ("1E 00 16 84 7F FF FF F7", Ok(1)),
        ("3F 00 80 16 84 7F FF FF F6", refused(10, 0)),
        ("3F 00 80 16 84 7F FF FF F7", refused(3, 3)),
        ("3F 00 84 7F FF FF F8 16 84 7F FF FF F2", Ok(0)),
        ("3F 00 84 7F FF FF F8 16 84 7F FF FF F3", refused(3, 7)),
        ("3F 00 84 7F FF FF F9 16 84 7F FF FF F2", refused(3, 0)),
    ] {
        let mut long = Long::new(head);
        long.until(LIMIT - 1);
        let fed = long.link.feed(&[0], 1);
        assert_eq!(fed.taken, 1);
        assert_eq!(long.link.end(), verdict, "{head}");
        // Pages that are not written take no memory, and the check looks at the head alone.
        let mut file = vec![0; LIMIT as usize];
        let head = octets(head);
        file[..head.len()].copy_from_slice(&head);
        assert_eq!(check(&file), verdict);
    }
}

/// The last octet within the limit settles what it settles, the next one is 15 even where it would.
#[test]
fn the_limit_comes_before_what_its_octet_settles() {
    for (head, within, past, number, place) in [
        // A value that is refused with its last octet.
        ("15 00 0E 84 7F FF FF", "F7", "F8", 9, 2),
        ("15 00 0A 84 7F FF FF", "F7", "F8", 6, 2),
        // A waveform that is refused with its last octet.
        ("0D 01 01 1E 84 7F FF FF", "F6", "F7", 12, 3),
        // A group whose channel is not below the count.
        ("05 01 02 3F 02 84 7F FF FF", "F5", "F6", 8, 3),
    ] {
        let mut long = Long::new(&format!("{head} {within}"));
        long.until(LIMIT - 1);
        long.refused(number, place);
        let mut long = Long::new(&format!("{head} {past}"));
        long.until(LIMIT);
        long.refused(15, 0);
        assert_eq!(long.outs, []);
    }
    // A fault in a definite group, and an item that runs past the group.
    for (items, number) in [("A1 00", 1), ("0A 02", 6), ("16 84 FF FF FF FF", 3)] {
        for (last, past) in [("F5", false), ("F6", true)] {
            let head = format!("05 01 01 3F 00 84 7F FF FF {last} {items}");
            let mut long = Long::new(&head);
            long.until(LIMIT - u64::from(!past));
            match past {
                true => long.refused(15, 0),
                false => long.refused(number, 10),
            }
        }
    }
    // A tag that would be refused at once, a length octet, and a channel number.
    for (head, next) in [
        ("16 84 7F FF FF F9", vec![0xA1]),
        ("16 84 7F FF FF F8", vec![0x0A, 0x85]),
        ("16 84 7F FF FF F5", vec![0x3F, 0x80, 0x80, 0x80, 0x80]),
    ] {
        let mut long = Long::new(head);
        let (last, before) = next.split_last().unwrap();
        long.until(LIMIT - before.len() as u64);
        for octet in before {
            assert_eq!(long.link.feed(&[*octet], 1).event, Event::Nothing);
        }
        let fed = long.link.feed(&[*last], 1);
        let verdict = refused(15, 0);
        assert_eq!(
            fed,
            Fed {
                taken: 1,
                ..over(verdict)
            }
        );
    }
}

/// What was refused before is not 15, however much is fed.
#[test]
fn a_refusal_before_the_limit_stands() {
    let mut long = Long::new("15 00 0E 84 7F FF FF 00");
    long.until(0x7FFF_FF07);
    long.refused(9, 2);
    let piece = vec![0; 1 << 20];
    for _ in 0..4096 {
        assert_eq!(long.link.feed(&piece, 1), over(refused(9, 2)));
    }
}

/// A waveform that ends exactly at the limit is given out, one that ends past it is not.
#[test]
fn waveforms_at_the_limit() {
    // One sequence of two octets; the rest is surplus.
    let mut long = Long::new("06 01 01 1E 84 7F FF FF F6");
    long.until(LIMIT);
    let [Out::Settings(settings), Out::Sample(given)] = &long.outs[..] else {
        panic!("{:?}", long.outs);
    };
    assert_eq!(settings.place + settings.length, LIMIT);
    assert_eq!(*given, whole(0, 0, 0, 9, 0));
    assert_eq!(long.link.end(), Ok(1));
    // One octet more: neither settings nor samples, room or not, and 3 if it is cut off.
    for ended in [false, true] {
        let mut long = Long::new("06 01 01 1E 84 7F FF FF F7");
        long.until(LIMIT);
        assert_eq!(long.outs, []);
        match ended {
            true => assert_eq!(long.link.end(), refused(3, 3)),
            false => long.refused(15, 0),
        }
    }
    // The same where it would be refused as well, and for the longest of all.
    for head in [
        "06 01 01 0D 01 01 1E 84 7F FF FF F4",
        "1E 84 FF FF FF FF",
        "1E 84 80 00 00 00",
    ] {
        let mut long = Long::new(head);
        assert_eq!(long.link.feed(&[0; 9], 0).taken, 9);
        long.come += 9;
        long.until(LIMIT);
        assert_eq!(long.outs, []);
        long.refused(15, 0);
    }
    // An empty waveform whose head ends at the limit, and one whose head ends past it.
    for (length, past) in [("F7", false), ("F8", true)] {
        let mut long = Long::new(&format!("16 84 7F FF FF {length}"));
        long.until(LIMIT - u64::from(!past) - 1);
        assert_eq!(long.link.feed(&[0x1E], 1).event, Event::Nothing);
        match past {
            true => long.refused(15, 0),
            false => {
                let fed = long.link.feed(&[0, 0], 1);
                assert_eq!(fed.taken, 1);
                assert!(matches!(fed.event, Event::Settings(_)));
                assert_eq!(long.link.end(), Ok(1));
            }
        }
    }
}

/// Samples whose places are the last before the limit, after an item that is stepped over.
#[test]
fn samples_at_the_limit() {
    for (length, samples) in [("11", 4), ("12", 4), ("10", 4), ("0F", 3)] {
        let mut long = Long::new("0A 01 02 16 84 7F FF FF E2");
        let waveform = octets(&format!("1E {length}"));
        long.until(LIMIT - 20);
        assert_eq!(long.link.feed(&waveform[..1], 9).event, Event::Nothing);
        let fed = long.link.feed(&waveform[1..], 9);
        let Event::Settings(settings) = fed.event else {
            panic!("{length}");
        };
        assert_eq!(settings.place, LIMIT - 18);
        let fed = long.link.feed(&[0, 0, 0, 7].repeat(4), 9);
        let place = |number| settings.place + 4 * number;
        let given = (0..samples).map(|number| whole(0, 0, number, place(number), 7));
        assert_eq!(fed.given, given.collect::<Vec<_>>());
        assert_eq!(settings.sequences, samples as u32);
        if length == "12" {
            // The waveform ends at the limit.
            assert_eq!(long.link.feed(&[0, 0], 9).event, Event::Nothing);
            long.refused(15, 0);
        }
    }
}
