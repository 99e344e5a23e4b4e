//! The rules of the format one by one, refusals aside.

mod common;

use common::{canonical, refused};
use second::papers::octets;
use second::reader::{attributes, check, sample, samples, Attributes, Refusal, Value};
use second::writer;

fn read(file: &str, frame: u32, channel: u32) -> Attributes {
    attributes(&octets(file), frame, channel).unwrap()
}

/// The first sample of the first channel.
fn first(file: &str) -> Value {
    sample(&octets(file), 0, 0, 0).unwrap().1
}

#[test]
fn tags_without_meaning_are_stepped_over() {
    for tag in (0..=0xFF).filter(|tag| tag & 0x20 == 0) {
        let known = [1, 4, 5, 6, 7, 8, 9, 10, 11, 12, 13, 14, 0x12, 0x1E];
        if known.contains(&tag) {
            continue;
        }
        let outside = [tag, 0x03, 0x21, 0x85, 0x80, 0x1E, 0x00];
        assert_eq!(check(&outside), Ok(1));
        let inside = [5, 1, 1, 0x3F, 0, 4, tag, 2, 0x21, 0x85, 0x1E, 0];
        assert_eq!(check(&inside), Ok(1));
    }
    assert_eq!(check(&octets("0E 00 0E 81 00 1E 00")), Ok(1));
}

#[test]
fn lengths_may_be_longer_than_needed() {
    for length in ["01", "81 01", "82 00 01", "83 00 00 01", "84 00 00 00 01"] {
        assert_eq!(read(&format!("0A {length} 06 1E 00"), 0, 0).data_type, 6);
    }
}

#[test]
fn channel_numbers_may_have_leading_octets() {
    for number in ["01", "80 01", "80 80 01", "80 80 80 01"] {
        let file = format!("05 01 02 3F {number} 03 0A 01 03 1E 00");
        assert_eq!(read(&file, 0, 0).data_type, 0);
        assert_eq!(read(&file, 0, 1).data_type, 3);
    }
    let file = "05 02 01 00 3F 81 00 03 0A 01 03 1E 00";
    assert_eq!(read(file, 0, 127).data_type, 0);
    assert_eq!(read(file, 0, 128).data_type, 3);
}

#[test]
fn open_groups_end_with_any_form_of_the_mark() {
    for mark in ["00 00", "00 81 00", "00 82 00 00", "00 84 00 00 00 00"] {
        let file = format!("05 01 01 3F 00 80 0A 01 03 00 01 00 09 01 02 {mark} 1E 00");
        assert_eq!(read(&file, 0, 0).data_type, 3);
        assert_eq!(read(&file, 0, 0).lead, 2);
    }
    // Outside and in a definite group the mark is an item like any other.
    let file = "05 01 01 00 00 3F 00 05 00 00 0A 01 03 00 00 1E 00";
    assert_eq!(read(file, 0, 0).data_type, 3);
    assert_eq!(
        check(&octets("05 01 01 3F 00 80 00 00 3F 00 00 1E 00")),
        Ok(1)
    );
}

#[test]
fn groups_without_a_count_are_ignored() {
    // Wrong lengths, wrong values and high channel numbers do not matter there.
    let file = "3F FF FF FF 7F 06 0A 02 09 09 04 00 1E 00";
    assert_eq!(read(file, 0, 0).data_type, 0);
    let file = "3F 00 80 0A 03 01 02 03 0B 01 00 00 00 1E 00";
    assert_eq!(read(file, 0, 0).data_type, 0);
    let file = "05 01 02 0A 01 03 05 00 3F 00 03 0A 01 05 1E 00";
    assert_eq!(read(file, 0, 0).data_type, 3);
    assert_eq!(read(file, 0, 0).channels, 1);
}

#[test]
fn length_zero_goes_back() {
    let settings = [
        ("04 01 02", "04 01 03", "04 00"),
        ("08 01 02", "08 01 03", "08 00"),
        ("09 01 02", "09 01 03", "09 00"),
        ("0A 01 02", "0A 01 07", "0A 00"),
        ("0B 03 01 02 03", "0B 03 02 03 04", "0B 00"),
        ("0C 03 01 02 03", "0C 03 02 03 04", "0C 00"),
        ("0D 02 00 02", "0D 02 00 03", "0D 00"),
        ("12 02 00 02", "12 02 00 03", "12 00"),
    ];
    for (root, own, none) in settings {
        let own_length = octets(own).len();
        let defaults = read("05 01 02 1E 00", 0, 0);
        let rooted = read(&format!("05 01 02 {root} 1E 00"), 0, 0);
        let owned = read(&format!("05 01 02 {own} 1E 00"), 0, 0);
        assert!(defaults != rooted && rooted != owned && owned != defaults);
        let group = format!("3F 01 {own_length:02X} {own}");
        let start = format!("05 01 02 {root} {group}");
        let check = |file: String, first: &Attributes, second: &Attributes| {
            assert_eq!(read(&file, 0, 0), *first, "{file}");
            assert_eq!(read(&file, 0, 1), *second, "{file}");
        };
        check(format!("{start} 1E 00"), &rooted, &owned);
        // Inside: back to the root setting, also to one that comes later.
        let cleared = format!("{start} 3F 01 02 {none}");
        check(format!("{cleared} 1E 00"), &rooted, &rooted);
        // Outside: back to the default, and no channel keeps its own.
        check(format!("{start} {none} 1E 00"), &defaults, &defaults);
        check(format!("{start} {root} 1E 00"), &rooted, &rooted);
        // A channel count sends every channel back, whatever its number.
        check(format!("{start} 05 01 02 1E 00"), &rooted, &rooted);
        check(format!("{start} 05 00 05 01 02 1E 00"), &rooted, &rooted);
        // An empty group changes nothing.
        check(format!("{start} 3F 01 00 1E 00"), &rooted, &owned);
        check(format!("{start} 3F 01 80 00 00 1E 00"), &rooted, &owned);
    }
    assert_eq!(first("01 01 01 01 00 1E 02 00 01"), Value::Whole(1));
    assert_eq!(
        read("06 01 01 06 00 1E 06 00 00 00 00 00 00", 0, 0).sequences,
        3
    );
}

#[test]
fn numbers_take_every_length_in_both_orders() {
    for (order, numbers) in [
        ("00", ["03", "00 03", "00 00 03", "00 00 00 03"]),
        ("01", ["03", "03 00", "03 00 00", "03 00 00 00"]),
    ] {
        for (length, number) in (1..).zip(numbers) {
            let file = format!(
                "01 01 {order} 04 0{length} {number} 05 0{length} {number} \
                 06 0{length} {number} 07 0{length} {number} 0B 0{scale} 01 FE {number} \
                 1E 3C {samples}",
                scale = length + 2,
                samples = "00 ".repeat(60)
            );
            let read = read(&file, 0, 0);
            assert_eq!((read.block, read.channels), (3, 3));
            assert_eq!((read.sequences, read.start), (3, 3));
            assert_eq!(read.interval.mantissa, 3);
            assert_eq!((read.interval.unit, read.interval.exponent), (1, -2));
        }
    }
    assert_eq!(read("04 04 00 10 00 00 1E 00", 0, 0).block, 1_048_576);
    assert_eq!(read("01 01 01 04 03 00 00 10 1E 00", 0, 0).block, 1_048_576);
}

#[test]
fn start_pointers_are_signed() {
    for (value, start) in [
        ("01 FF", -1),
        ("01 7F", 127),
        ("02 FF 00", -256),
        ("03 80 00 00", -8_388_608),
        ("04 80 00 00 00", i32::MIN),
        ("04 7F FF FF FF", i32::MAX),
    ] {
        assert_eq!(read(&format!("07 {value} 1E 00"), 0, 0).start, start);
    }
    assert_eq!(read("01 01 01 07 02 00 FF 1E 00", 0, 0).start, -256);
}

#[test]
fn start_pointers_continue() {
    // The root block length counts, as it stood at the frame, times the sequences.
    let file = "05 01 01 04 01 03 3F 00 03 04 01 01 07 01 F6 \
                1E 04 00 00 00 00 04 01 07 1E 00 1E 00 07 01 05 07 00 1E 00 \
                07 01 09 07 01 08 1E 00 1E 00";
    for (frame, start) in (0..).zip([-10, -4, -4, -4, 8, 8]) {
        assert_eq!(read(file, frame, 0).start, start);
    }
}

#[test]
fn sequences_by_length_or_as_set() {
    assert_eq!(
        read("04 01 04 1E 07 00 00 00 00 00 00 00", 0, 0).sequences,
        0
    );
    assert_eq!(
        read("04 01 02 1E 07 00 00 00 00 00 00 00", 0, 0).sequences,
        1
    );
    let set = octets("06 01 01 1E 07 00 05 00 06 00 07 00");
    assert_eq!(attributes(&set, 0, 0).unwrap().sequences, 1);
    assert_eq!(sample(&set, 0, 0, 1), refused(22, 0));
    // The number set lasts over frames.
    let file = "06 01 01 1E 04 00 00 00 00 1E 04 00 00 00 00";
    assert_eq!(read(file, 1, 0).sequences, 1);
}

#[test]
fn codes_take_one_octet_or_the_first_two() {
    for tag in ["08", "09"] {
        let code = |file: &str| {
            let read = read(&format!("{file} 1E 00"), 0, 0);
            read.class + read.lead
        };
        assert_eq!(code(&format!("{tag} 01 81")), 0x81);
        assert_eq!(code(&format!("{tag} 02 81 02")), 0x8102);
        assert_eq!(code(&format!("{tag} 05 81 02 41 42 43")), 0x8102);
        assert_eq!(code(&format!("01 01 01 {tag} 05 81 02 41 42 43")), 0x0281);
        let text = "20 ".repeat(32);
        assert_eq!(code(&format!("{tag} 22 81 02 {text}")), 0x8102);
    }
}

#[test]
fn bits_follow_the_order_that_stands_at_their_item() {
    let file = "0D 02 01 02 01 01 01 12 02 01 02 01 00 1E 04 02 01 01 02";
    assert_eq!(read(file, 0, 0).offset, 0x0102);
    assert_eq!(read(file, 0, 0).null, Some(0x0201));
    assert_eq!(first(file), Value::Null);
    let bits = |file: &str| {
        let mut bits = [0];
        assert_eq!(samples(&octets(file), 0, 0, 0, &mut bits), Ok(1));
        bits[0]
    };
    for (data_type, samples, big, little) in [
        ("00", "02 81 02", 0x8102, 0x0281),
        ("02", "04 81 02 03 04", 0x8102_0304, 0x0403_0281),
        ("03", "01 81", 0x81, 0x81),
        (
            "08",
            "08 81 02 03 04 05 06 07 08",
            0x8102_0304_0506_0708,
            0x0807_0605_0403_0281,
        ),
    ] {
        assert_eq!(bits(&format!("0A 01 {data_type} 1E {samples}")), big);
        assert_eq!(
            bits(&format!("01 01 01 0A 01 {data_type} 1E {samples}")),
            little
        );
    }
}

#[test]
fn values_by_type() {
    for (data_type, samples, value) in [
        ("00", "02 80 01", Value::Whole(-32_767)),
        ("01", "02 80 01", Value::Whole(32_769)),
        ("02", "04 80 00 00 01", Value::Whole(-2_147_483_647)),
        ("03", "01 FF", Value::Whole(255)),
        ("04", "02 80 01", Value::Status(0x8001)),
        ("05", "01 FF", Value::Whole(-1)),
        ("06", "04 80 00 00 01", Value::Whole(2_147_483_649)),
        ("07", "04 3F 80 00 00", Value::Single(1.0)),
        ("07", "04 7F 80 00 00", Value::Single(f32::INFINITY)),
        ("07", "04 80 00 00 00", Value::Single(-0.0)),
        ("07", "04 00 00 00 01", Value::Single(f32::from_bits(1))),
        ("07", "04 7F 80 00 01", Value::NotNumber(0x7F80_0001)),
        ("07", "04 FF C0 00 00", Value::NotNumber(0xFFC0_0000)),
        ("08", "08 40 00 00 00 00 00 00 00", Value::Double(2.0)),
        (
            "08",
            "08 FF F0 00 00 00 00 00 00",
            Value::Double(f64::NEG_INFINITY),
        ),
        (
            "08",
            "08 7F F0 00 00 00 00 00 01",
            Value::NotNumber(0x7FF0_0000_0000_0001),
        ),
    ] {
        assert_eq!(first(&format!("0A 01 {data_type} 1E {samples}")), value);
        // The same bits as null come first.
        let file = format!("0A 01 {data_type} 12 {samples} 1E {samples}");
        assert_eq!(first(&file), Value::Null);
    }
    // A zero of the other sign is not null.
    let file = "0A 01 07 12 04 00 00 00 00 1E 04 80 00 00 00";
    assert_eq!(first(file), Value::Single(-0.0));
    assert_ne!(Value::Single(0.0), Value::Single(-0.0));
    // The offset is reported, never applied.
    assert_eq!(first("0D 02 00 05 1E 02 00 01"), Value::Whole(1));
}

#[test]
fn the_root_may_misfit_where_it_holds_for_no_channel() {
    let file = "05 01 01 0D 01 00 3F 00 04 0D 02 00 07 1E 00";
    assert_eq!(read(file, 0, 0).offset, 7);
    // A channel at or above the count does not matter, nor does a misfit that is put right.
    assert_eq!(check(&octets("0D 01 01 0A 01 03 1E 00")), Ok(1));
    assert_eq!(check(&octets("0D 01 01 0D 00 1E 00")), Ok(1));
}

#[test]
fn no_such_frame_channel_sample() {
    let file = octets("05 01 02 1E 04 00 00 00 00");
    let mut out = [0; 1];
    assert_eq!(attributes(&file, 1, 2), refused(20, 0));
    assert_eq!(attributes(&file, 0, 2), refused(21, 0));
    assert_eq!(attributes(&file, 0, u32::MAX), refused(21, 0));
    assert_eq!(sample(&file, u32::MAX, 2, 9), refused(20, 0));
    assert_eq!(sample(&file, 0, 2, 9), refused(21, 0));
    assert_eq!(sample(&file, 0, 1, 1), refused(22, 0));
    assert_eq!(sample(&file, 0, 1, u64::MAX), refused(22, 0));
    assert_eq!(samples(&file, 1, 2, 9, &mut out), refused(20, 0));
    assert_eq!(samples(&file, 0, 2, 9, &mut out), refused(21, 0));
    assert_eq!(samples(&file, 0, 1, 1, &mut out), refused(22, 0));
    assert_eq!(samples(&file, 0, 1, 0, &mut []), Ok(0));
}

#[test]
fn the_canonical_file_holds_every_setting() {
    // Little-endian, mixed widths, offset and null, surplus, and a second frame without sequences.
    let file = octets(
        "01 01 01 05 01 02 07 01 FE 08 02 01 00 0B 04 01 FD 02 00 \
         3F 01 80 0A 01 06 04 01 02 09 01 83 0D 04 04 03 02 01 12 04 01 00 00 00 0C 03 05 01 09 00 00 \
         1E 0B 02 01 04 03 02 01 08 07 06 05 AA 05 00 1E 00",
    );
    let written = octets(
        "01 01 00 \
         05 04 00 00 00 02 06 04 00 00 00 01 07 04 FF FF FF FE \
         3F 00 27 04 04 00 00 00 01 08 02 00 01 09 02 00 00 0A 01 00 \
         0B 06 01 FD 00 00 00 02 0C 06 00 FA 00 00 00 01 0D 02 00 00 12 00 \
         3F 01 2D 04 04 00 00 00 02 08 02 00 01 09 02 00 83 0A 01 06 \
         0B 06 01 FD 00 00 00 02 0C 06 05 01 00 00 00 09 0D 04 01 02 03 04 12 04 00 00 00 01 \
         1E 0A 01 02 01 02 03 04 05 06 07 08 \
         05 04 00 00 00 01 06 00 07 04 FF FF FF FF \
         3F 00 27 04 04 00 00 00 01 08 02 00 01 09 02 00 00 0A 01 00 \
         0B 06 01 FD 00 00 00 02 0C 06 00 FA 00 00 00 01 0D 02 00 00 12 00 \
         1E 00",
    );
    assert_eq!(canonical(&file), written);
    assert_eq!(canonical(&written), written);
}

#[test]
fn canonical_lengths_take_their_shortest_form() {
    for (samples, form) in [
        (0x7F, "7F"),
        (0x80, "81 80"),
        (0xFF, "81 FF"),
        (0x100, "82 01 00"),
        (0xFFFF, "82 FF FF"),
        (0x1_0000, "83 01 00 00"),
        (0xFF_FFFF, "83 FF FF FF"),
        (0x100_0000, "84 01 00 00 00"),
    ] {
        let mut file = octets("0A 01 03 1E 84");
        file.extend((samples as u32).to_be_bytes());
        file.resize(file.len() + samples, 0x5A);
        let mut item = vec![0x1E];
        item.extend(octets(form));
        assert_eq!(canonical(&file)[62..][..item.len()], item);
    }
}

#[test]
fn the_buffer_is_touched_where_the_file_goes_and_nowhere_else() {
    let file = octets("1E 03 00 01 02");
    let length = canonical(&file).len();
    for room in 0..length {
        let mut buffer = vec![0xA5; room];
        let answer = writer::canonical(&file, &mut buffer);
        assert_eq!(answer, refused(23, 0));
        assert!(buffer.iter().all(|octet| *octet == 0xA5));
    }
    for room in length..length + 5 {
        let mut buffer = vec![0xA5; room];
        assert_eq!(writer::canonical(&file, &mut buffer), Ok(length));
        assert_eq!(buffer[..length], canonical(&file));
        assert!(buffer[length..].iter().all(|octet| *octet == 0xA5));
    }
    assert_eq!(writer::canonical(&[], &mut []), Ok(0));
}

#[test]
fn files_have_a_limit() {
    // Pages that are not written take no memory, and the check looks at the head alone.
    let limit = 2_147_483_647;
    let mut file = vec![0; limit + 1];
    file[..6].copy_from_slice(&octets("1E 84 7F FF FF F9"));
    assert_eq!(check(&file), refused(15, 0));
    assert_eq!(sample(&file, 9, 9, 9), refused(15, 0));
    assert_eq!(writer::canonical(&file, &mut []), refused(15, 0));
    assert_eq!(writer::canonical_length(&file), refused(15, 0));
    file.truncate(limit);
    assert_eq!(check(&file), Ok(1));
    let last = sample(&file, 0, 0, 1_073_741_819);
    assert_eq!(last, Ok((2_147_483_644, Value::Whole(0))));
    assert_eq!(sample(&file, 0, 0, 1_073_741_820), refused(22, 0));
    // The canonical file of this one would pass the limit, though there is room for it.
    let mut buffer = vec![0; limit + 1000];
    assert_eq!(writer::canonical(&file, &mut buffer), refused(23, 0));
    assert_eq!(writer::canonical_length(&file), refused(23, 0));
}

#[test]
fn refusals_have_their_numbers() {
    assert_eq!(Refusal::CONTEXT_TAG, 1);
    assert_eq!(Refusal::START_RANGE, 13);
    // Retired, so that no later number takes it.
    assert_eq!(Refusal::SHORT_WAVEFORM, 14);
    assert_eq!(Refusal::LONG_FILE, 15);
    assert_eq!(Refusal::NO_ROOM, 23);
}
