//! Every refusal with its place, and which of two comes first.

mod common;

use common::refused;
use second::papers::octets;
use second::reader::check;

fn all_refused(files: &[(&str, u8, u64)]) {
    for (file, number, place) in files {
        assert_eq!(check(&octets(file)), refused(*number, *place), "{file}");
    }
}

#[test]
fn context_tags() {
    for tag in (0..=0xFF).filter(|tag| tag & 0x20 != 0 && *tag != 0x3F) {
        assert_eq!(check(&[tag]), refused(1, 0));
        assert_eq!(check(&[0x0E, 0x00, tag, 0x85]), refused(1, 2));
        assert_eq!(check(&[5, 1, 1, 0x3F, 0, 1, tag]), refused(1, 6));
        assert_eq!(check(&[5, 1, 1, 0x3F, 0, 0x80, tag]), refused(1, 6));
        assert_eq!(check(&[0x3F, 0, 0x80, 0x0A, 0x00, tag]), refused(1, 5));
    }
}

#[test]
fn length_octets() {
    for octet in 0x85..=0xFF {
        assert_eq!(check(&[0x0A, octet]), refused(2, 0));
        assert_eq!(check(&[0x3F, 0, octet]), refused(2, 0));
        assert_eq!(check(&[0x3F, 0, 2, 0x0A, octet]), refused(2, 3));
    }
    all_refused(&[
        ("0A 80", 2, 0),
        ("1E 80 00 00", 2, 0),
        ("00 80", 2, 0),
        ("05 01 01 3F 00 80 00 80", 2, 6),
        ("3F 00 80 00 80", 2, 3),
        ("3F 00 02 00 80", 2, 3),
    ]);
}

#[test]
fn items_that_run_past() {
    all_refused(&[
        ("0A", 3, 0),
        ("0A 81", 3, 0),
        ("0A 84 00 00 00", 3, 0),
        ("0A 01", 3, 0),
        ("15 00 02 03 00 00", 3, 2),
        ("1E 84 FF FF FF FF", 3, 0),
        ("3F", 3, 0),
        ("3F 80", 3, 0),
        ("3F 80 80 80", 3, 0),
        ("3F 00", 3, 0),
        ("3F 00 82 00", 3, 0),
        ("3F 00 01", 3, 0),
        // The definite group ends before the file does.
        ("05 01 01 3F 00 01 0A 00 1E 00", 3, 6),
        ("05 01 01 3F 00 02 0A 81 01 03", 3, 6),
        ("05 01 01 3F 00 02 0A 01 03 1E 00", 3, 6),
        ("05 01 01 3F 00 04 09 00 0A 01 03 1E 00", 3, 8),
        ("3F 00 01 0A 00 1E 00", 3, 3),
        // An open group ends with the file at the latest.
        ("05 01 01 3F 00 80 0A", 3, 6),
        ("3F 00 80 0A 01", 3, 3),
    ]);
}

#[test]
fn channel_numbers_of_more_than_four_octets() {
    all_refused(&[
        ("3F 80 80 80 80", 4, 0),
        ("3F FF FF FF FF 00 00", 4, 0),
        ("05 01 01 3F 80 80 80 80 00 00", 4, 3),
    ]);
}

#[test]
fn tags_barred_from_groups() {
    for tag in [0x01, 0x05, 0x06, 0x07, 0x0E, 0x1E, 0x3F] {
        assert_eq!(check(&[5, 1, 1, 0x3F, 0, 2, tag, 0]), refused(5, 6));
        assert_eq!(check(&[5, 1, 1, 0x3F, 0, 1, tag]), refused(5, 6));
        assert_eq!(check(&[5, 1, 1, 0x3F, 0, 0x80, tag]), refused(5, 6));
        assert_eq!(check(&[0x3F, 0, 1, tag]), refused(5, 3));
        assert_eq!(check(&[0x3F, 0, 0x80, tag]), refused(5, 3));
    }
}

#[test]
fn lengths_not_in_the_table() {
    let allowed = |tag: u8, length: usize| match tag {
        0x01 | 0x0A => length <= 1,
        0x04..=0x07 => length <= 4,
        0x08 | 0x09 => length <= 34,
        0x0B | 0x0C => length == 0 || (3..=6).contains(&length),
        _ => [0, 1, 2, 4, 8].contains(&length),
    };
    let tags = [1, 4, 5, 6, 7, 8, 9, 0x0A, 0x0B, 0x0C, 0x0D, 0x12];
    for (tag, length) in tags.iter().flat_map(|tag| (0..=40).map(|n| (*tag, n))) {
        // 1 is within the range of every value.
        let mut item = vec![tag, length as u8];
        item.resize(2 + length, 1);
        if tag == 0x05 && length > 1 {
            item[2..1 + length].fill(0);
        }
        if tag == 0x04 && length == 4 {
            item[2] = 0;
            item[3] = 0;
        }
        let outside = match allowed(tag, length) {
            true => Ok(0),
            false => refused(6, 0),
        };
        assert_eq!(check(&item), outside);
        if [1, 5, 6, 7].contains(&tag) {
            continue;
        }
        let inside = match allowed(tag, length) {
            true => Ok(0),
            false => refused(6, 6),
        };
        let mut group = vec![5, 1, 1, 0x3F, 0, item.len() as u8];
        group.extend(&item);
        assert_eq!(check(&group), inside);
        let mut group = vec![5, 1, 1, 0x3F, 0, 0x80];
        group.extend(&item);
        group.extend([0, 0]);
        assert_eq!(check(&group), inside);
    }
}

#[test]
fn values_not_in_the_table() {
    all_refused(&[
        ("01 01 02", 7, 0),
        ("04 01 00", 7, 0),
        ("04 04 00 10 00 01", 7, 0),
        ("04 04 FF FF FF FF", 7, 0),
        ("05 01 00", 7, 0),
        ("05 02 01 01", 7, 0),
        ("01 01 01 05 02 02 01", 7, 3),
        ("06 01 00", 7, 0),
        ("06 04 00 00 00 00", 7, 0),
        ("0A 01 09", 7, 0),
        ("0A 01 FF", 7, 0),
        ("0B 03 03 00 01", 7, 0),
        ("0B 03 00 00 00", 7, 0),
        ("0B 03 00 00 80", 7, 0),
        ("0C 03 17 00 01", 7, 0),
        ("0C 06 00 00 FF FF FF FF", 7, 0),
        ("05 01 01 3F 00 03 04 01 00", 7, 6),
        ("05 01 01 3F 00 03 0A 01 09", 7, 6),
        ("05 01 01 3F 00 80 0B 03 03 00 01", 7, 6),
        ("05 01 01 3F 00 80 0C 03 00 00 00", 7, 6),
    ]);
    // In little order the sign is in the last octet.
    all_refused(&[("01 01 01 0B 04 00 00 01 80", 7, 3)]);
    assert_eq!(check(&octets("01 01 01 0B 04 00 00 80 01")), Ok(0));
}

#[test]
fn channels_not_below_the_count() {
    all_refused(&[
        ("05 01 02 3F 02 00", 8, 3),
        ("05 01 02 3F 02 80", 8, 3),
        ("05 01 02 3F 02 01 21", 8, 3),
        ("05 01 02 3F FF FF FF 7F 00", 8, 3),
        ("05 02 01 00 3F 82 00 00", 8, 4),
        ("05 01 02 05 01 01 3F 01 00", 8, 6),
    ]);
}

#[test]
fn compression() {
    all_refused(&[
        ("0E 01 00", 9, 0),
        ("0E 02 00 00", 9, 0),
        ("1E 00 0E 81 01 05", 9, 2),
    ]);
}

#[test]
fn open_groups_without_an_end() {
    all_refused(&[
        ("3F 00 80", 10, 0),
        ("3F 00 80 0A 00", 10, 0),
        ("05 01 01 3F 00 80", 10, 3),
        ("05 01 01 3F 00 80 0A 01 03", 10, 3),
        ("05 01 01 3F 00 80 00 01 00", 10, 3),
    ]);
}

/// 4,096 frames, then what is given.
fn after_all_frames(rest: &str) -> Vec<u8> {
    let mut file = [0x1E, 0x00].repeat(4096);
    file.extend(octets(rest));
    file
}

#[test]
fn frames_beyond_the_last() {
    assert_eq!(check(&after_all_frames("")), Ok(4096));
    assert_eq!(check(&after_all_frames("0A 01 03")), Ok(4096));
    assert_eq!(check(&after_all_frames("1E 00")), refused(11, 8192));
    // The waveform's extent comes before the number of frames, the widths after it.
    assert_eq!(check(&after_all_frames("1E 01")), refused(3, 8192));
    assert_eq!(
        check(&after_all_frames("0D 01 01 1E 00")),
        refused(11, 8195)
    );
    assert_eq!(
        check(&after_all_frames("06 01 01 1E 00")),
        refused(11, 8195)
    );
}

#[test]
fn widths_of_offset_and_null() {
    all_refused(&[
        ("0D 01 01 1E 02 00 05", 12, 3),
        ("0D 01 00 1E 00", 12, 3),
        ("12 04 00 00 00 00 1E 00", 12, 6),
        ("0D 02 00 00 0A 01 03 1E 00", 12, 7),
        ("05 01 02 0D 02 00 00 3F 01 03 0A 01 03 1E 00", 12, 13),
        ("05 01 02 3F 01 03 12 01 00 1E 00", 12, 9),
        ("05 01 02 3F 01 04 12 02 00 00 1E 00 0A 01 08 1E 00", 12, 15),
        // A later channel count takes the root's offset back to every channel.
        ("0D 01 00 05 01 01 3F 00 02 0D 00 1E 00", 12, 11),
    ]);
}

#[test]
fn start_pointers_past_32_bits() {
    all_refused(&[
        ("07 04 7F FF FF FF 1E 02 00 00 1E 00", 13, 10),
        ("07 04 7F FF FF FF 1E 02 00 00 07 01 00 07 00 1E 00", 13, 15),
        (
            "05 01 01 04 03 10 00 00 3F 00 03 04 01 01 07 04 7F F0 00 00 1E 02 00 00 1E 00",
            13,
            24,
        ),
    ]);
    // A last frame may run past the range, and a new pointer helps.
    assert_eq!(check(&octets("07 04 7F FF FF FF 1E 02 00 00")), Ok(1));
    let file = octets("07 04 7F FF FF FF 1E 02 00 00 07 01 00 1E 00");
    assert_eq!(check(&file), Ok(2));
    let file = octets("07 04 7F FF FF FE 1E 02 00 00 1E 02 00 00");
    assert_eq!(check(&file), Ok(2));
}

/// 14 is retired: what it was given for is a cut-off recording. A waveform past the file is still 3.
#[test]
fn short_waveforms_are_accepted() {
    for file in [
        "06 01 02 1E 02 00 05",
        "06 01 01 1E 00",
        "05 01 02 06 01 02 1E 07 00 00 00 00 00 00 00",
        // The most octets there can be: 2 to the 63 less 2 to the 31.
        "06 04 FF FF FF FF 04 04 00 10 00 00 0A 01 08 05 02 01 00 1E 00",
    ] {
        assert_eq!(check(&octets(file)), Ok(1), "{file}");
    }
    all_refused(&[("06 01 02 1E 04 00 05", 3, 3), ("06 01 02 1E 01", 3, 3)]);
}

#[test]
fn the_first_refused_item_decides() {
    all_refused(&[
        ("0A 01 09 21", 7, 0),
        ("21 0A 01 09", 1, 0),
        ("06 01 02 1E 02 00 05 21", 1, 7),
        ("3F 00 80 0A 85", 2, 3),
    ]);
}

#[test]
fn within_an_item_the_order_is_fixed() {
    all_refused(&[
        // 1 before 2 and 3.
        ("21 85", 1, 0),
        ("21", 1, 0),
        // 5 before the channel number, the length and the extent.
        ("05 01 01 3F 00 06 3F 80 80 80 80 00", 5, 6),
        ("05 01 01 3F 00 02 0E 85", 5, 6),
        ("05 01 01 3F 00 02 1E 05", 5, 6),
        // The channel number before 2 and 3.
        ("3F 80 80 80 80 85", 4, 0),
        // 2 and 3 before 9, 8 and 6.
        ("0E 85", 2, 0),
        ("0E 02 00", 3, 0),
        ("05 01 01 3F 01 85", 2, 3),
        ("05 01 01 3F 01 05 00", 3, 3),
        ("0A 85", 2, 0),
        ("0A 05 00", 3, 0),
        // 8 before what is in the group, and before its end.
        ("05 01 01 3F 01 02 21 00", 8, 3),
        ("05 01 01 3F 01 80", 8, 3),
        // 6 before 7.
        ("0A 02 09 09", 6, 0),
        ("0B 02 09 00", 6, 0),
        // A definite group's extent before its contents.
        ("05 01 01 3F 00 05 21", 3, 3),
        // In an open group a refused item before 10.
        ("05 01 01 3F 00 80 0A 01 09", 7, 6),
    ]);
}

#[test]
fn at_a_waveform_the_order_is_fixed() {
    all_refused(&[
        // 3 before 12, 12 before 13; that samples are not there changes nothing.
        ("0D 01 01 1E 02 00", 3, 3),
        ("0D 01 01 06 01 05 1E 02 00 00", 12, 6),
        ("07 04 7F FF FF FF 1E 02 00 00 0D 01 01 1E 00", 12, 13),
        ("07 04 7F FF FF FF 1E 02 00 00 06 01 05 1E 00", 13, 13),
    ]);
}
