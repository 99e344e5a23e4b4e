//! Names of codes, from the tables of ISO/TS 11073-92001:2007 (the numbers of tables are its), as
//! they are written and read.

use mfer::{DataType, Scale};

/// From this code on, classes and leads are anyone's.
const PRIVATE: u16 = 49_152;

/// From this code on, leads of an EEG are pairs of electrodes, of so many each.
const PAIRS: u16 = 0x4000;
const ELECTRODES: u16 = 0x80;

/// A code, and its name where it has one.
pub fn named(code: u16, name: Option<String>) -> String {
    match name {
        Some(name) => format!("{code} {name}"),
        None => code.to_string(),
    }
}

/// The code that is written so: alone, with its name, or as its name alone. `name` tells the name
/// of a code.
pub fn code(text: &str, name: impl Fn(u16) -> Option<String>) -> Option<u16> {
    let has = |code: u16, text: &str| name(code).is_some_and(|name| name == text);
    let (first, rest) = text.split_once(' ').unwrap_or((text, ""));
    match first.parse() {
        Ok(code) => (rest.is_empty() || has(code, rest)).then_some(code),
        // Behind these codes are pairs of electrodes, and private codes, which share one name.
        Err(_) => (0..PAIRS).find(|code| has(*code, text)),
    }
}

/// Table 10.
pub fn class(code: u16) -> Option<&'static str> {
    Some(match code {
        0 => "unidentified",
        1 => "standard 12 lead ECG",
        2 => "long-term ECG",
        3 => "vectorcardiogram",
        4 => "stress ECG",
        5 => "intracardiac ECG",
        6 => "body surface ECG",
        7 => "ventricular late potential",
        8 => "body surface late potential",
        20 => "long-term waveform",
        21 => "sampled waveform",
        25 => "power spectrum",
        26 => "trendgram",
        30 => "sound",
        31 => "pulse",
        40 => "resting EEG",
        41 => "evoked EEG",
        42 => "EEG frequency analysis",
        43 => "long-term EEG",
        100 => "magnetocardiogram",
        PRIVATE.. => "private",
        _ => return None,
    })
}

/// Lead names depend on the class: a table for each that has one.
pub fn lead(class: u16, code: u16) -> Option<String> {
    let name = match (class, code) {
        (_, 0) => Some("unidentified"),
        (1, _) => standard_lead(code),
        (20..=26, _) => monitored(code),
        (40..=43, _) => return electrodes(code),
        _ => None,
    };
    let private = (code >= PRIVATE).then_some("private");
    name.or(private).map(String::from)
}

/// The lead that is written so, in its class.
pub fn lead_of(class: u16, text: &str) -> Option<u16> {
    let pair = match class {
        40..=43 => electrodes_of(text),
        _ => None,
    };
    pair.or_else(|| code(text, |code| lead(class, code)))
}

/// Table 12.
fn standard_lead(code: u16) -> Option<&'static str> {
    Some(match code {
        1 => "I",
        2 => "II",
        3 => "V1",
        4 => "V2",
        5 => "V3",
        6 => "V4",
        7 => "V5",
        8 => "V6",
        9 => "V7",
        11 => "V3R",
        12 => "V4R",
        13 => "V5R",
        14 => "V6R",
        15 => "V7R",
        61 => "III",
        62 => "aVR",
        63 => "aVL",
        64 => "aVF",
        66 => "V8",
        67 => "V9",
        68 => "V8R",
        69 => "V9R",
        _ => return None,
    })
}

/// Table 13.
fn monitored(code: u16) -> Option<&'static str> {
    Some(match code {
        128 => "aortic pressure",
        129 => "arterial pressure",
        143 => "pressure",
        _ => return None,
    })
}

/// Figure 8: 01, then seven bits for the negative electrode and seven for the positive one.
fn electrodes(code: u16) -> Option<String> {
    if code >= PRIVATE {
        return Some("private".into());
    }
    let pair = code.checked_sub(PAIRS)?;
    let (negative, positive) = (pair / ELECTRODES, pair % ELECTRODES);
    let pair = || format!("{}-{}", electrode(negative), electrode(positive));
    (negative < ELECTRODES).then(pair)
}

fn electrodes_of(text: &str) -> Option<u16> {
    let (negative, positive) = text.split_once('-')?;
    let number = |text| (0..ELECTRODES).find(|code| electrode(*code) == text);
    Some(PAIRS + number(negative)? * ELECTRODES + number(positive)?)
}

/// Table 14; an electrode that it lacks is its number.
fn electrode(code: u16) -> String {
    match code {
        12 => "FP1".into(),
        13 => "FP2".into(),
        74 => "A1".into(),
        75 => "A2".into(),
        _ => code.to_string(),
    }
}

/// Table 19.
pub fn data_type(data_type: DataType) -> &'static str {
    match data_type {
        DataType::Signed16 => "signed 16 bits",
        DataType::Unsigned16 => "unsigned 16 bits",
        DataType::Signed32 => "signed 32 bits",
        DataType::Unsigned8 => "unsigned 8 bits",
        DataType::Status => "status 16 bits",
        DataType::Signed8 => "signed 8 bits",
        DataType::Unsigned32 => "unsigned 32 bits",
        DataType::Single => "single",
        DataType::Double => "double",
    }
}

/// The data type that is written so: its name or its code.
pub fn data_type_of(text: &str) -> Option<DataType> {
    match text.parse() {
        Ok(code) => DataType::from_code(code),
        Err(_) => (0..)
            .map_while(DataType::from_code)
            .find(|known| data_type(*known) == text),
    }
}

/// Table 3.
pub const INTERVAL_UNITS: [&str; 3] = ["Hz", "s", "m"];

/// Table 5.
pub const RESOLUTION_UNITS: [&str; 23] = [
    "V",
    "mmHg",
    "Pa",
    "cmH2O",
    "mmHg/s",
    "dyne",
    "N",
    "%",
    "°C",
    "/min",
    "/s",
    "Ω",
    "A",
    "r/min",
    "W",
    "dB",
    "kg",
    "J",
    "dyne s m-2 cm-5",
    "l",
    "l/s",
    "l/min",
    "cd",
];

/// Mantissa and exponent as the file has them, and the unit's name.
pub fn scaled(scale: Scale, units: &[&str]) -> String {
    let Scale {
        unit,
        exponent,
        mantissa,
    } = scale;
    let unit = match units.get(usize::from(unit)) {
        Some(name) => (*name).into(),
        None => format!("unit {unit}"),
    };
    match exponent {
        0 => format!("{mantissa} {unit}"),
        _ => format!("{mantissa}e{exponent} {unit}"),
    }
}

/// The scale that is written so. The mantissa may have a decimal point, which lowers the exponent,
/// and the unit may be given by its code.
pub fn scale_of(text: &str, units: &[&str]) -> Option<Scale> {
    let (number, unit) = text.split_once(' ')?;
    let (digits, exponent) = number.split_once(['e', 'E']).unwrap_or((number, "0"));
    let (whole, decimals) = digits.split_once('.').unwrap_or((digits, ""));
    let exponent: i64 = exponent.parse().ok()?;
    Some(Scale {
        unit: unit_of(unit, units)?,
        exponent: exponent
            .checked_sub(decimals.len() as i64)?
            .try_into()
            .ok()?,
        mantissa: format!("{whole}{decimals}").parse().ok()?,
    })
}

fn unit_of(text: &str, units: &[&str]) -> Option<u8> {
    match text.strip_prefix("unit ") {
        Some(code) => code.parse().ok(),
        None => (0..)
            .zip(units)
            .find_map(|(code, unit)| (*unit == text).then_some(code)),
    }
}

#[cfg(test)]
mod tests {
    use super::*;

    #[test]
    fn leads_depend_on_the_class() {
        assert_eq!(lead(1, 3).as_deref(), Some("V1"));
        assert_eq!(lead(1, 10), None);
        assert_eq!(lead(20, 3), None);
        assert_eq!(lead(20, 129).as_deref(), Some("arterial pressure"));
        assert_eq!(lead(0, 49_152).as_deref(), Some("private"));
        assert_eq!(lead(30, 0).as_deref(), Some("unidentified"));
    }

    /// Table 15.
    #[test]
    fn leads_of_two_electrodes() {
        assert_eq!(lead(40, 17_994).as_deref(), Some("FP1-A1"));
        assert_eq!(lead(40, 18_123).as_deref(), Some("FP2-A2"));
        assert_eq!(lead(43, 0x4000).as_deref(), Some("0-0"));
        assert_eq!(lead(43, 0x8000), None);
        assert_eq!(lead(43, 12), None);
    }

    #[test]
    fn codes_are_read_with_and_without_names() {
        for text in ["3", "3 V1", "V1", "003"] {
            assert_eq!(lead_of(1, text), Some(3), "{text}");
        }
        assert_eq!(lead_of(1, "10"), Some(10));
        assert_eq!(lead_of(1, "65535 private"), Some(65_535));
        for text in ["3 V2", "10 V1", "v1", "private", "65536", "-1", "", "0-0"] {
            assert_eq!(lead_of(1, text), None, "{text}");
        }
        assert_eq!(lead_of(40, "17994 FP1-A1"), Some(17_994));
        for text in [
            "17994 FP1-A2",
            "FP1",
            "FP1-",
            "-A1",
            "12-74",
            "00-0",
            "0-128",
            "FP1-A1-A1",
            "FP1 - A1",
            "private",
        ] {
            assert_eq!(lead_of(40, text), None, "{text}");
        }
    }

    /// But for the private ones, which share theirs.
    #[test]
    fn names_are_read_as_their_codes() {
        for code in 0..PRIVATE {
            for class in [0, 1, 20, 40, 43] {
                if let Some(name) = lead(class, code) {
                    assert_eq!(lead_of(class, &name), Some(code), "{name}");
                }
            }
            if let Some(name) = class(code) {
                let read = super::code(name, |code| class(code).map(String::from));
                assert_eq!(read, Some(code), "{name}");
            }
        }
    }

    #[test]
    fn data_types_are_read_by_name_and_by_code() {
        for code in 0..=8 {
            let known = DataType::from_code(code);
            assert_eq!(data_type_of(&code.to_string()), known);
            assert_eq!(data_type_of(data_type(known.unwrap())), known);
        }
        for text in ["9", "-1", "256", "signed", "signed 16", ""] {
            assert_eq!(data_type_of(text), None, "{text}");
        }
    }

    /// The page lists types and units with their codes.
    #[test]
    fn the_page_has_all_names() {
        const PAGE: &str = include_str!("../../../docs/SETTINGS.md");
        let page = PAGE.split_whitespace().collect::<Vec<_>>().join(" ");
        for code in 0..=8 {
            let name = data_type(DataType::from_code(code).unwrap());
            assert!(page.contains(&format!("{code} `{name}`")), "{name}");
        }
        let (last, others) = RESOLUTION_UNITS.split_last().unwrap();
        let units = format!("`{}` and `{last}`", others.join("`, `"));
        assert!(page.contains(&units), "{units}");
    }

    const fn scale(unit: u8, exponent: i8, mantissa: i32) -> Scale {
        Scale {
            unit,
            exponent,
            mantissa,
        }
    }

    #[test]
    fn scales() {
        for (scale, units, text) in [
            (scale(0, 0, 1000), &INTERVAL_UNITS[..], "1000 Hz"),
            (scale(1, -3, 1), &INTERVAL_UNITS, "1e-3 s"),
            (scale(0, -9, 1000), &RESOLUTION_UNITS, "1000e-9 V"),
            (scale(22, 2, 5), &RESOLUTION_UNITS, "5e2 cd"),
            (
                scale(18, -128, i32::MAX),
                &RESOLUTION_UNITS,
                "2147483647e-128 dyne s m-2 cm-5",
            ),
            (scale(23, 127, 1), &RESOLUTION_UNITS, "1e127 unit 23"),
        ] {
            assert_eq!(scaled(scale, units), text);
            assert_eq!(scale_of(text, units), Some(scale));
        }
    }

    #[test]
    fn scales_by_hand() {
        for (text, expected) in [
            ("1.25e-6 V", scale(0, -8, 125)),
            ("0.5 mmHg", scale(1, -1, 5)),
            (".50E3 unit 1", scale(1, 1, 50)),
            ("2. °C", scale(8, 0, 2)),
            ("-1 unit 255", scale(255, 0, -1)),
        ] {
            assert_eq!(scale_of(text, &RESOLUTION_UNITS), Some(expected), "{text}");
        }
        for text in [
            "V",
            "1",
            "1 v",
            "1 uV",
            "x V",
            "1e V",
            "1e128 V",
            "0.1e-128 V",
            "1.2.3 V",
            "1.-2 V",
            ". V",
            "3000000000 V",
            "1 unit 256",
            "1 unit",
            "1e-9223372036854775808 V",
            "0.1e-9223372036854775808 V",
        ] {
            assert_eq!(scale_of(text, &RESOLUTION_UNITS), None, "{text}");
        }
    }
}
