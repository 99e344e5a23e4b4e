//! Why there is no answer.
#![forbid(unsafe_code)]

use std::error::Error;
use std::fmt;

/// Why there is no answer, and where.
///
/// ```
/// use mfer::File;
///
/// let refusal = File::new(&[0x05, 0x01, 0x02, 0x3F, 0x02, 0x00]).check().unwrap_err();
/// assert_eq!((refusal.number, refusal.place), (8, 3));
/// assert_eq!(
///     refusal.to_string(),
///     "refused 8 at 3: channel number not below the channel count"
/// );
/// ```
#[derive(Clone, Copy, PartialEq, Eq, Hash, Debug)]
pub struct Refusal {
    /// Which rule: one of the constants below.
    pub number: u32,
    /// The offset of the item's tag in the file; 0 for [`Refusal::LONG_FILE`] and from
    /// [`Refusal::NO_FRAME`] up, which are about no item.
    pub place: u64,
}

/// Each refusal by its name, its number and its words: a constant, and what [`Refusal::meaning`] says.
macro_rules! refusals {
    ($($name:ident = $number:literal, $words:literal;)*) => {
        impl Refusal {
            $(#[doc = concat!($words, ".")] pub const $name: u32 = $number;)*
        }

        pub(crate) const REFUSALS: &[(&str, u32, &str)] = &[$((stringify!($name), $number, $words)),*];
    };
}

// The words are those of documents 01 and 02. What they lean on elsewhere on their pages stands in
// parentheses. A number that is retired keeps its name, so that no other takes it.
refusals! {
    CONTEXT_TAG = 1, "context tag other than 3Fh";
    LENGTH_OCTET = 2, "length octet 85h to FFh, or 80h not on 3Fh";
    PAST_END = 3, "channel number, length or value runs past the file or definite group around it";
    LONG_CHANNEL = 4, "fourth channel octet has its top bit set";
    BARRED_TAG = 5, "tag 01, 05, 06, 07, 0E, 1E or 3F inside a group";
    UNFIT_LENGTH = 6, "length of a tag in the table of attributes that isn't among those given there";
    UNFIT_VALUE = 7, "value not in the table of attributes";
    CHANNEL_NUMBER = 8, "channel number not below the channel count";
    COMPRESSED = 9, "0Eh of length above 0 (compressed data)";
    UNENDED_GROUP = 10, "open group: file ends between two of its items";
    MANY_FRAMES = 11, "a frame after 4,096 frames";
    SAMPLE_WIDTH = 12, "a channel below the count whose defined offset or null hasn't its sample width";
    START_RANGE = 13, "start pointer outside signed 32 bits";
    SHORT_WAVEFORM = 14, "retired, no longer given: waveform shorter than sequences times G (the octets of a sequence)";
    LONG_FILE = 15, "file above 2,147,483,647 octets";
    NO_FRAME = 20, "no such frame";
    NO_CHANNEL = 21, "no such channel";
    NO_SAMPLE = 22, "no such sample";
    NO_ROOM = 23, "what is written is longer than the output buffer, or the file than 15's limit (2,147,483,647 octets)";
    SETTING_RANGE = 24, "a setting outside the table of attributes, or bits wider than the sample";
    SAMPLES_LENGTH = 25, "sample octets not exactly sequences times G (the octets of a sequence)";
}

impl Refusal {
    /// What the number means, in words.
    pub fn meaning(&self) -> &'static str {
        let mut refusals = REFUSALS.iter();
        let known = refusals.find(|(_, number, _)| *number == self.number);
        known.map_or("unknown refusal", |(_, _, words)| words)
    }

    /// The answer if the number is 0, else the refusal.
    pub(crate) fn or<T>(number: u32, place: u64, answer: T) -> Result<T, Refusal> {
        match number {
            0 => Ok(answer),
            _ => Err(Refusal { number, place }),
        }
    }
}

/// The number, the place and the meaning in words.
impl fmt::Display for Refusal {
    fn fmt(&self, f: &mut fmt::Formatter<'_>) -> fmt::Result {
        let Refusal { number, place } = self;
        write!(f, "refused {number} at {place}: {}", self.meaning())
    }
}

impl Error for Refusal {}
