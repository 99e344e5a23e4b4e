//! Which setting the library refuses: it is asked for each alone, beside defaults.

use super::draft::{standing, Draft, First, Given, Section, Wrong, CHANNELS, SEQUENCES, START};
use super::SETTINGS;
use mfer::{ChannelSettings, FrameSettings, Refusal};

/// What the library refuses settings with, whatever the samples are.
pub fn refusal(settings: &FrameSettings) -> Option<Refusal> {
    let made = settings.make(&[]);
    made.err()
        .filter(|refusal| refusal.number == Refusal::SETTING_RANGE)
}

/// The first line for which the library refuses these settings of a frame.
pub fn cause(draft: &Draft, settings: &FrameSettings) -> Wrong {
    let mut first = First::default();
    in_frame(draft, settings, &mut first);
    in_channels(draft, settings, &mut first);
    let words = "in the frame that begins here";
    first
        .0
        .unwrap_or_else(|| Wrong::new(draft.line, words.into()))
}

fn refused(start: i64, sequences: u64, channels: Vec<ChannelSettings>) -> bool {
    let alone = FrameSettings {
        start,
        sequences,
        channels,
    };
    refusal(&alone).is_some()
}

fn in_frame(draft: &Draft, settings: &FrameSettings, first: &mut First) {
    let (start, sequences, count) = (settings.start, settings.sequences, settings.channels.len());
    let defaults = |count| vec![ChannelSettings::default(); count];
    // A start that is continued and channels that are counted stand in no line.
    let mut add = |given: &Option<Given>, name, expected, found: String| {
        first.add(match given {
            Some(Given { line, text }) => Wrong::value(*line, name, expected, text),
            None => Wrong::value(draft.line, name, expected, &found),
        });
    };
    if refused(start, 0, defaults(1)) {
        add(&draft.start, "start", START, start.to_string());
    }
    if refused(0, sequences, defaults(1)) {
        let found = sequences.to_string();
        add(&draft.sequences, "sequences", SEQUENCES, found);
    }
    if refused(0, 0, defaults(count)) {
        let found = draft.lines.to_string();
        add(&draft.channels, "channels", CHANNELS, found);
    }
}

fn in_channels(draft: &Draft, settings: &FrameSettings, first: &mut First) {
    let none = Section::default();
    for (number, read) in settings.channels.iter().enumerate() {
        let own = draft.own.get(number).unwrap_or(&none);
        for (setting, given) in SETTINGS.iter().zip(standing(own, &draft.shared)) {
            let Some(Given { line, text }) = given else {
                continue;
            };
            // Bits are wide or not by the type.
            let mut channel = ChannelSettings {
                data_type: read.data_type,
                ..ChannelSettings::default()
            };
            (setting.read)(text, &mut channel);
            if refused(0, 0, vec![channel]) {
                first.add(Wrong::value(*line, setting.name, setting.expected, text));
            }
        }
    }
}

#[cfg(test)]
mod tests {
    use super::*;
    use crate::failure::Failure;

    /// Where each setting alone is taken there is still the frame to be named.
    #[test]
    fn without_a_cause_the_frame_is_named() {
        let taken = FrameSettings {
            start: 0,
            sequences: 0,
            channels: vec![ChannelSettings::default()],
        };
        assert_eq!(refusal(&taken), None);
        let failure = cause(&Draft::new(7, ""), &taken).failure("text".as_ref(), 2);
        let Failure::InputOutput(words) = failure else {
            panic!("another failure");
        };
        assert_eq!(words, "text: line 7: in the frame that begins here");
    }
}
