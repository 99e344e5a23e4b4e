//! The value of a sample as text, and from text its bits.

use mfer::{DataType, Value};
use std::io::{self, Write};
use std::num::FpCategory;
use std::ops::RangeInclusive;

/// Writes a line. Every value of a channel is written so that [`bits`] tells the sample's bits; no data
/// has none.
pub fn write(out: &mut impl Write, value: Value) -> io::Result<()> {
    match value {
        Value::Whole(whole) => writeln!(out, "{whole}"),
        Value::Status(status) => writeln!(out, "0x{status:04X}"),
        // The shortest form that reads back as the same float.
        Value::Single(single) => writeln!(out, "{single:?}"),
        Value::Double(double) => writeln!(out, "{double:?}"),
        Value::NotNumber(bits) => writeln!(out, "{} 0x{bits:X}", value.kind()),
        Value::Null | Value::NoData => writeln!(out, "{}", value.kind()),
    }
}

/// The bits of a sample of this type whose value is written so; the null's, where there is one.
pub fn bits(text: &str, data_type: DataType, null: Option<u64>) -> Option<u64> {
    match text == Value::Null.kind() {
        true => null,
        false => number(text, data_type),
    }
}

/// What is expected where [`bits`] tells none.
pub fn expected(data_type: DataType, null: Option<u64>) -> String {
    let or_null = match null {
        Some(_) => ", or null",
        None => "",
    };
    format!("{}{or_null}", expected_number(data_type))
}

/// The bits of a sample of this type whose value is written so; a null has none here.
pub fn number(text: &str, data_type: DataType) -> Option<u64> {
    match data_type {
        DataType::Status => hexadecimal(text).filter(|bits| *bits <= u16::MAX.into()),
        DataType::Single => single(text),
        DataType::Double => double(text),
        _ => whole(text, data_type),
    }
}

/// What is expected where [`number`] tells none.
pub fn expected_number(data_type: DataType) -> String {
    match data_type {
        DataType::Status => "bits from 0x0000 to 0xFFFF".into(),
        DataType::Single => "a single, inf, -inf, or not-a-number with its bits".into(),
        DataType::Double => "a double, inf, -inf, or not-a-number with its bits".into(),
        _ => {
            let range = range(data_type);
            format!("a whole number from {} to {}", range.start(), range.end())
        }
    }
}

/// Bits written as 0x and hexadecimal digits.
pub fn hexadecimal(text: &str) -> Option<u64> {
    let digits = text.strip_prefix("0x")?;
    let plain = digits.chars().all(|digit| digit.is_ascii_hexdigit());
    u64::from_str_radix(digits, 16).ok().filter(|_| plain)
}

/// The whole numbers of a type.
fn range(data_type: DataType) -> RangeInclusive<i64> {
    match data_type {
        DataType::Signed8 => i8::MIN.into()..=i8::MAX.into(),
        DataType::Signed16 => i16::MIN.into()..=i16::MAX.into(),
        DataType::Signed32 => i32::MIN.into()..=i32::MAX.into(),
        DataType::Unsigned8 => 0..=u8::MAX.into(),
        DataType::Unsigned32 => 0..=u32::MAX.into(),
        _ => 0..=u16::MAX.into(),
    }
}

fn whole(text: &str, data_type: DataType) -> Option<u64> {
    let whole: i64 = text.parse().ok()?;
    let above = 64 - 8 * u32::from(data_type.width());
    let bits = (whole as u64) << above >> above;
    range(data_type).contains(&whole).then_some(bits)
}

fn single(text: &str) -> Option<u64> {
    if let Some(bits) = not_number(text) {
        let bits = u32::try_from(bits).ok()?;
        return f32::from_bits(bits).is_nan().then_some(bits.into());
    }
    let single: f32 = text.parse().ok()?;
    says(text, single.classify()).then_some(single.to_bits().into())
}

fn double(text: &str) -> Option<u64> {
    if let Some(bits) = not_number(text) {
        return f64::from_bits(bits).is_nan().then_some(bits);
    }
    let double: f64 = text.parse().ok()?;
    says(text, double.classify()).then_some(double.to_bits())
}

/// The bits beside the word for a float that is no number.
fn not_number(text: &str) -> Option<u64> {
    let (word, bits) = text.split_once(' ')?;
    hexadecimal(bits).filter(|_| word == Value::NotNumber(0).kind())
}

/// Whether the text says what was read of it. A number too large is read as an infinity, one too
/// small as zero; and of a float that is no number only the bits say which it is.
fn says(text: &str, read: FpCategory) -> bool {
    let mantissa = text.split(['e', 'E']).next().unwrap_or(text);
    match read {
        FpCategory::Nan => false,
        FpCategory::Infinite => !text.contains(|c: char| c.is_ascii_digit()),
        FpCategory::Zero => !mantissa.contains(|c: char| ('1'..='9').contains(&c)),
        FpCategory::Subnormal | FpCategory::Normal => true,
    }
}

#[cfg(test)]
mod tests {
    use super::*;

    fn written(value: Value) -> String {
        let mut line = Vec::new();
        write(&mut line, value).unwrap();
        String::from_utf8(line).unwrap().trim_end().into()
    }

    /// Bits in which a form would lose something first: signs, ends of ranges, zeros, infinities,
    /// floats that need all digits, and floats that are no numbers.
    fn corners(width: u8) -> impl Iterator<Item = u64> {
        let above = 64 - 8 * u32::from(width);
        let steps = (0..=64).map(|n: u32| u64::MAX.checked_shl(n).unwrap_or(0));
        let spread = (0..20_000_u64).map(|n| n.wrapping_mul(0x9E37_79B9_7F4A_7C15));
        let floats = [
            0x7F80_0000_u64,
            0x7F80_0001,
            0x7F7F_FFFF,
            0x0080_0000,
            0x3DCC_CCCD,
            0x7FF0_0000_0000_0000,
            0x7FF0_0000_0000_0001,
            0x7FEF_FFFF_FFFF_FFFF,
            0x0010_0000_0000_0000,
            0x3FB9_9999_9999_999A,
        ];
        let signed = floats
            .into_iter()
            .flat_map(|bits| [bits, bits | 1 << 31, bits | 1 << 63]);
        let all = steps.flat_map(|bits| [bits, !bits, bits ^ 1]);
        all.chain(spread)
            .chain(signed)
            .map(move |bits| bits << above >> above)
    }

    #[test]
    fn what_is_written_reads_back_to_the_bit() {
        for bits in corners(4) {
            let single = f32::from_bits(bits as u32);
            let value = match single.is_nan() {
                true => Value::NotNumber(bits),
                false => Value::Single(single),
            };
            let text = written(value);
            assert_eq!(number(&text, DataType::Single), Some(bits), "{text}");
        }
        for bits in corners(8) {
            let double = f64::from_bits(bits);
            let value = match double.is_nan() {
                true => Value::NotNumber(bits),
                false => Value::Double(double),
            };
            let text = written(value);
            assert_eq!(number(&text, DataType::Double), Some(bits), "{text}");
        }
        for bits in corners(2) {
            let text = written(Value::Status(bits as u16));
            assert_eq!(number(&text, DataType::Status), Some(bits), "{text}");
        }
    }

    #[test]
    fn whole_numbers_read_back_and_end_where_their_type_does() {
        for (data_type, first, last) in [
            (DataType::Signed16, -32_768, 32_767),
            (DataType::Unsigned16, 0, 65_535),
            (DataType::Signed32, -2_147_483_648, 2_147_483_647),
            (DataType::Unsigned8, 0, 255),
            (DataType::Signed8, -128, 127),
            (DataType::Unsigned32, 0, 4_294_967_295),
        ] {
            let all = 8 * u32::from(data_type.width());
            for whole in [first, -1, 0, 1, 100, last] {
                let bits = (whole as u64) & (u64::MAX >> (64 - all));
                let expected = (whole >= first).then_some(bits);
                let text = written(Value::Whole(whole));
                assert_eq!(number(&text, data_type), expected, "{data_type:?} {text}");
            }
            for outside in [first - 1, last + 1] {
                let read = number(&outside.to_string(), data_type);
                assert_eq!(read, None, "{data_type:?} {outside}");
            }
            let words = format!("a whole number from {first} to {last}");
            assert_eq!(expected_number(data_type), words);
        }
    }

    #[test]
    fn what_a_float_cannot_hold_is_not_read() {
        for text in [
            "1e39",
            "-1e39",
            "1e-60",
            "nan",
            "not-a-number",
            "not-a-number 0x3F800000",
            "not-a-number 0x7FC0000001",
            "not-a-number 7FC00001",
            "0x3F800000",
            "1.0 ",
            "null",
            "",
        ] {
            assert_eq!(number(text, DataType::Single), None, "{text}");
        }
        for text in ["1e309", "2e-330", "NaN", "not-a-number 0x7FC00001"] {
            assert_eq!(number(text, DataType::Double), None, "{text}");
        }
        for (text, bits) in [
            ("1", 0x3F80_0000),
            ("-0", 0x8000_0000),
            ("0e9", 0),
            ("-inf", 0xFF80_0000),
            ("1e-45", 1),
        ] {
            assert_eq!(number(text, DataType::Single), Some(bits), "{text}");
        }
    }

    #[test]
    fn what_is_no_such_number_is_not_read() {
        for text in [
            "1.0",
            "0x10",
            "1 2",
            "+",
            "--1",
            "1,000",
            "99999999999999999999",
        ] {
            assert_eq!(number(text, DataType::Unsigned32), None, "{text}");
        }
        for text in ["1", "0x", "0x10000", "0x+1", "0X1"] {
            assert_eq!(number(text, DataType::Status), None, "{text}");
        }
    }

    #[test]
    fn null_is_the_bits_that_it_has() {
        assert_eq!(bits("null", DataType::Single, Some(7)), Some(7));
        assert_eq!(bits("null", DataType::Single, None), None);
        assert_eq!(bits("5", DataType::Signed8, Some(7)), Some(5));
        assert_eq!(
            expected(DataType::Signed8, Some(7)),
            "a whole number from -128 to 127, or null"
        );
        assert_eq!(
            expected(DataType::Status, None),
            "bits from 0x0000 to 0xFFFF"
        );
    }
}
