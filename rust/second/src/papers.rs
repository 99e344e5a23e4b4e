//! The files that document 01 names, and others in the same notation. `tests/papers.rs` has what is
//! to be answered to them.

/// The octets of a hexadecimal line, as the papers print them.
pub fn octets(hex: &str) -> Vec<u8> {
    hex.split_whitespace()
        .map(|octet| u8::from_str_radix(octet, 16).expect("two hexadecimal digits"))
        .collect()
}

pub const P1: &str = "";
pub const P2: &str = "01 01 01 04 01 02 05 01 02 3F 01 03 04 01 01 1E 06 01 00 02 00 FF FF";
pub const P3: &str = "1E 00";
pub const P4: &str = "05 01 02 3F 00 03 0A 01 03 0A 01 05 1E 02 07 08";
pub const P5: &str = "3F 00 03 0A 01 03 1E 02 00 09";
pub const P6: &str = "05 01 02 3F 02 00";
pub const P7: &str = "0A 80";
pub const P8: &str = "3F 00 80";
pub const P9: &str = "06 01 02 1E 02 00 05";
pub const P10: &str = "0D 01 01 1E 02 00 05";
pub const P11: &str = "05 02 01 00 3F 81 7F 03 0A 01 03";
pub const SURPLUS: &str = "1E 03 00 01 02";

/// P2's canonical file.
pub const P2_CANONICAL: &str = "01 01 00 \
    05 04 00 00 00 02 06 04 00 00 00 01 07 04 00 00 00 00 \
    3F 00 27 04 04 00 00 00 02 08 02 00 00 09 02 00 00 0A 01 00 \
    0B 06 00 00 00 00 03 E8 0C 06 00 FA 00 00 00 01 0D 02 00 00 12 00 \
    3F 01 27 04 04 00 00 00 01 08 02 00 00 09 02 00 00 0A 01 00 \
    0B 06 00 00 00 00 03 E8 0C 06 00 FA 00 00 00 01 0D 02 00 00 12 00 \
    1E 06 00 01 00 02 FF FF";

/// P9's canonical file: two sequences declared, one sample there.
pub const P9_CANONICAL: &str = "01 01 00 \
    05 04 00 00 00 01 06 04 00 00 00 02 07 04 00 00 00 00 \
    3F 00 27 04 04 00 00 00 01 08 02 00 00 09 02 00 00 0A 01 00 \
    0B 06 00 00 00 00 03 E8 0C 06 00 FA 00 00 00 01 0D 02 00 00 12 00 \
    1E 02 00 05";

/// Every file that document 01 spells out, and the canonical files of P2 and P9.
pub const NAMED: [&str; 14] = [
    P1,
    P2,
    P3,
    P4,
    P5,
    P6,
    P7,
    P8,
    P9,
    P10,
    P11,
    SURPLUS,
    P2_CANONICAL,
    P9_CANONICAL,
];

/// Lengths in long forms where the byte order is little; the last is past the end, but not if it
/// were little-endian.
pub const LONG_LENGTHS: [&str; 3] = [
    "01 01 01 1E 82 00 02 05 00",
    "01 01 01 05 84 00 00 00 02 02 00 3F 01 82 00 03 0A 01 03 1E 00",
    "01 01 01 1E 82 02 00 05 00",
];

/// Blocks of 2, 1 and 3 octets, two sequences, one octet of surplus.
pub const BLOCKS: &str = "05 01 03 0A 01 03 3F 00 03 04 01 02 3F 02 03 04 01 03 \
    1E 0D 00 01 02 03 04 05 06 07 08 09 0A 0B 0C";

/// Three frames; the channel's own type lasts till the root's comes.
pub const LASTING_TYPE: &str = "05 01 02 3F 01 03 0A 01 03 1E 00 1E 00 0A 01 05 1E 00";

/// Two frames, with settings ahead of the first alone. The second waveform would do for two
/// sequences.
pub const LASTING: &str =
    "01 01 01 05 01 02 06 01 01 08 01 07 0D 02 01 00 3F 01 07 0A 01 01 12 02 34 12 \
    1E 04 01 00 02 00 1E 09 03 00 34 12 99 99 99 99 99";

/// Blocks of two samples of 2 octets, three of 1 and one of 4, 11 octets a sequence, little-endian. Of the
/// three sequences declared, the second is cut off one octet into the last sample. The octets after it
/// would make that sample null. The frame that follows has one whole sequence of the three.
pub const CUT: &str = "01 01 01 05 01 03 06 01 03 3F 00 03 04 01 02 3F 01 06 04 01 03 0A 01 03 \
    3F 02 09 0A 01 02 12 04 07 08 01 09 \
    1E 13 01 00 02 00 11 12 13 05 00 00 00 03 00 04 00 14 15 16 07 08 01 09 \
    1E 0B 05 00 06 00 17 18 19 07 08 01 09";

/// Declared sequences with an empty waveform, and another frame after them.
pub const NOTHING_THERE: &str = "06 01 03 1E 00 1E 06 00 01 00 02 00 03";

/// The most sequences of the most channels in frames of 4 octets: two samples there, then none.
pub const HOSTILE: [&str; 2] = [
    "05 02 01 00 06 04 FF FF FF FF 1E 04 00 01 00 02",
    "05 02 01 00 04 04 00 10 00 00 0A 01 08 06 04 FF FF FF FF 1E 04 00 01 00 02",
];

/// Intervals and resolutions whose mantissa is below 1.
pub fn low_mantissas() -> Vec<Vec<u8>> {
    let values = [
        "03 00 00 FF",
        "03 00 00 80",
        "03 00 00 00",
        "04 00 00 80 00",
        "05 00 00 FF FF FF",
        "06 00 00 FF FF FF FF",
        "06 00 00 80 00 00 00",
    ];
    let files = |tag| values.map(|value| octets(&format!("{tag} {value}")));
    [files("0B"), files("0C")].concat()
}

/// Mantissas and exponents at their ends.
pub const SCALES: &str = "0B 03 02 80 7F 0C 06 16 7F 7F FF FF FF 1E 00";

/// Small files that together have every tag, both forms of a group, every form of a length, both
/// byte orders and all widths: what damage is done to.
pub const SMALL: [&str; 20] = [
    P2,
    P3,
    P4,
    P5,
    P6,
    P7,
    P8,
    P9,
    P10,
    P11,
    SURPLUS,
    // Every attribute at the root, little-endian, twice a frame of two channels.
    "01 01 01 05 01 02 06 01 01 07 02 FE FF 08 01 01 09 02 02 00 0A 01 02 0B 04 01 FD 01 00 \
     0C 05 00 F7 E8 03 00 0D 04 01 00 00 00 12 04 00 00 00 80 \
     1E 08 01 00 00 00 00 00 00 80 06 00 1E 08 FF FF FF FF 00 00 00 00",
    // Every attribute in a group, the second group open and ended in a long form.
    "05 01 02 3F 00 1F 04 01 02 08 04 00 1E 41 42 09 01 05 0A 01 04 0B 03 00 02 05 0C 03 16 FF 01 \
     0D 02 00 01 12 02 FF FF 3F 01 80 0A 01 08 00 01 77 00 82 00 00 \
     1E 0C FF FF 00 03 7F F8 00 00 00 00 00 01",
    // Settings taken back: an empty definition in the group and at the root, a new channel count.
    "04 01 03 05 01 03 3F 02 05 04 01 02 04 00 0A 01 03 3F 01 03 0A 01 05 04 00 1E 03 01 02 FF \
     05 01 03 1E 03 04 05 06 05 00 3F 01 02 12 00 1E 01 07",
    // Long lengths, a long channel number, items that are stepped over, an empty group.
    "40 84 00 00 00 03 4D 46 52 05 82 00 01 01 3F 80 80 80 00 83 00 00 03 0A 01 07 3F 00 00 \
     00 00 0E 00 17 01 41 1E 81 08 7F 80 00 00 7F C0 00 01",
    // A start pointer at the upper end, so that the second frame's is past it.
    "07 04 7F FF FF FF 1E 02 00 01 1E 02 00 02",
    // An ignored open group with what would be refused in another.
    "3F 09 80 0A 01 63 04 05 00 00 00 00 00 00 00 1E 02 00 01",
    CUT,
    NOTHING_THERE,
    HOSTILE[0],
];

/// The coding example of annex A in source document 000, with the 160,000 octets of waveform that
/// its length says and the lead codes of its table. Sample n of channel c is 8 n + c.
pub fn annex_a() -> Vec<u8> {
    let mut file = vec![0x40, 0x20];
    file.extend(b"MFR Standard 12 leads ECG       ");
    file.extend([0x17, 0x26]);
    file.extend(b"Nihon Manufacture co.^ECG-2003^1.02.33");
    file.extend(octets(
        "01 01 00 08 01 01 0B 04 01 FD 00 01 0C 04 00 F7 03 E8 \
         04 04 00 00 00 01 05 04 00 00 00 08 06 04 00 00 27 10",
    ));
    for channel in 0..8 {
        file.extend([0x3F, channel, 0x03, 0x09, 0x01, channel + 1]);
    }
    file.extend(octets("1E 84 00 02 71 00"));
    for number in 0..80_000_u32 {
        file.extend((number as i16).to_be_bytes());
    }
    file
}

/// All of them but the small ones.
pub fn all() -> Vec<Vec<u8>> {
    let mut files: Vec<Vec<u8>> = NAMED.map(octets).into();
    files.extend(LONG_LENGTHS.map(octets));
    files.extend([BLOCKS, LASTING_TYPE, LASTING, SCALES, CUT, NOTHING_THERE].map(octets));
    files.extend(HOSTILE.map(octets));
    files.extend(low_mantissas());
    files.push(annex_a());
    files
}
