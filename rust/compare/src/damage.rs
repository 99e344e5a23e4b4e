//! Damage done to a file on purpose, every piece of one kind.

/// Each octet set to each value.
pub fn flips(file: &[u8]) -> impl Iterator<Item = Vec<u8>> + '_ {
    (0..file.len()).flat_map(move |at| {
        (0..=u8::MAX).map(move |octet| {
            let mut damaged = file.to_vec();
            damaged[at] = octet;
            damaged
        })
    })
}

/// Each prefix, the empty one and the file itself among them.
pub fn prefixes(file: &[u8]) -> impl Iterator<Item = Vec<u8>> + '_ {
    (0..=file.len()).map(|end| file[..end].to_vec())
}

/// Each length field in each form, with lengths from 0 to past the file's end and with the ends of
/// every form; and open.
pub fn stretches(file: &[u8]) -> Vec<Vec<u8>> {
    let mut lengths: Vec<u32> = (0..file.len() as u32 + 3).collect();
    for bits in [7, 8, 16, 24, 31] {
        lengths.extend([(1 << bits) - 1, 1 << bits]);
    }
    lengths.push(u32::MAX);
    let mut damaged = Vec::new();
    for field in fields(file) {
        let mut replace = |form: &[u8]| {
            let mut file = file.to_vec();
            file.splice(field.clone(), form.iter().copied());
            damaged.push(file);
        };
        replace(&[0x80]);
        for length in &lengths {
            for form in forms(*length) {
                replace(&form);
            }
        }
    }
    damaged
}

/// Every form of a length.
fn forms(length: u32) -> Vec<Vec<u8>> {
    let octets = length.to_be_bytes();
    let mut forms = Vec::new();
    if length < 0x80 {
        forms.push(vec![length as u8]);
    }
    for count in 1..=4 {
        let (unused, used) = octets.split_at(4 - count);
        if unused.iter().all(|octet| *octet == 0) {
            forms.push([&[0x80 + count as u8], used].concat());
        }
    }
    forms
}

/// Where the length fields are, as far as the file can be followed; groups are gone into.
fn fields(file: &[u8]) -> Vec<std::ops::Range<usize>> {
    const GROUP: u8 = 0x3F;
    let mut fields = Vec::new();
    let mut at = 0;
    while at < file.len() {
        let is_group = file[at] == GROUP;
        at += 1;
        if is_group {
            at += file[at..]
                .iter()
                .take_while(|octet| **octet >= 0x80)
                .count()
                + 1;
        }
        let Some(first) = file.get(at) else { break };
        let following = match first {
            0x81..=0x84 => usize::from(first & 0x7F),
            _ => 0,
        };
        let end = at + 1 + following;
        let Some(field) = file.get(at..end) else {
            break;
        };
        fields.push(at..end);
        let length = match field {
            [length] => usize::from(length & 0x7F),
            [_, octets @ ..] => octets
                .iter()
                .fold(0, |sum, octet| sum << 8 | usize::from(*octet)),
            [] => 0,
        };
        at = if is_group { end } else { end + length };
    }
    fields
}
