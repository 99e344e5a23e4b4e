//! The words of the command line.

use crate::failure::Failure;
use std::ffi::{OsStr, OsString};

pub const HELP: &str = "\
mfer: checks medical waveform files (MFER), shows what they hold and makes them

  mfer check FILE..
      one line a file: 'frames N', or 'refused R at P' with the refusal's number
      and the offset of the item that earned it; the file's name goes before it
      where there are several
  mfer show FILE [--frame F] [--settings]
      frames and channels with their settings, or those of frame F alone. Of
      samples 'T of D' says that D are declared and T are there, as in a
      recording that was cut off. --settings: as the text that mfer make takes
  mfer samples FILE --frame F --channel C [--csv]
      the raw values of a channel in a frame, one a line: whole numbers, status
      bits as 0x and four digits, 'null', and 'not-a-number' with its bits;
      --csv: number,value. Where K samples are declared and not there, a last
      line 'no data: K samples' says so
  mfer samples FILE --all [--frame F]
  mfer samples FILE --raw [--frame F]
      all samples of all frames, or of frame F, in file order: sequence after
      sequence, and in each the block of each channel; --all: the values, one a
      line, with a line 'no data: K samples' behind a frame of which K are not
      there; --raw: big-endian octets, with that line on standard error
  mfer canonical IN OUT
      writes the canonical form of IN to OUT; OUT is replaced when all is
      written, so a failure leaves it as it was
  mfer make SETTINGS SAMPLES OUT [--raw]
      writes the file of the frames that SETTINGS describes to OUT, as canonical
      does. SAMPLES has the samples of all frames in file order, as values one a
      line; --raw: as big-endian octets. A frame is made of all its samples
  mfer --help
  mfer --version

FILE, IN, SETTINGS or SAMPLES may be - for standard input, OUT may be - for
standard output. Frames, channels and samples count from 0. Words after -- are
file names.

SETTINGS is text, one setting a line; 'mfer show FILE --settings' prints such a
text. What is left out has its default, here in brackets:

  frame                  # begins a frame
    start 0              # [where the frame before ends; 0 in the first]
    sequences 500        # [in the last frame: by the number of samples]
    channels 1           # [as many as lines 'channel'; 1 without such lines]
    block 1              # samples of a channel in a sequence [1]
    class 1              # code, or name as 'standard 12 lead ECG' [0]
    lead 2               # code, or name as 'II' [0]
    type signed 16 bits  # name, or code from 0 to 8 [signed 16 bits]
    interval 500 Hz      # in Hz, s or m [1000 Hz]
    resolution 1e-6 V    # in V, mmHg or another unit [1e-6 V]
    offset 0x0000        # bits or number [0]
    null 0x8000          # bits, number or 'none' [none]
    channel              # begins a channel
      lead V1            # any setting from block to null

What stands ahead of a frame's first channel holds for all its channels. A frame
that says nothing of its channels has those of the frame before it.

Exit status: 0; 1 where a file, settings or samples were refused; 2 on wrong
usage, where text is not as expected, or where reading or writing failed.
";

#[derive(Debug, PartialEq)]
pub enum Command {
    Help,
    Version,
    Check {
        files: Vec<OsString>,
    },
    Show {
        file: OsString,
        frame: Option<u32>,
    },
    ShowSettings {
        file: OsString,
        frame: Option<u32>,
    },
    Samples {
        file: OsString,
        frame: u32,
        channel: u32,
        csv: bool,
    },
    AllSamples {
        file: OsString,
        frame: Option<u32>,
    },
    RawSamples {
        file: OsString,
        frame: Option<u32>,
    },
    Canonical {
        input: OsString,
        output: OsString,
    },
    Make {
        settings: OsString,
        samples: OsString,
        raw: bool,
        output: OsString,
    },
}

/// The options of a command, but for --help.
fn options(verb: &str) -> &'static [&'static str] {
    match verb {
        "show" => &["--frame", "--settings"],
        "samples" => &["--frame", "--channel", "--csv", "--all", "--raw"],
        "make" => &["--raw"],
        _ => &[],
    }
}

pub fn parse(words: Vec<OsString>) -> Result<Command, Failure> {
    let mut words = words.into_iter();
    let Some(verb) = words.next() else {
        return usage("no command given");
    };
    let known = verb.to_str().unwrap_or_default();
    let rest = Words::sort(words, options(known))?;
    match known {
        "--help" | "-h" | "help" => Ok(Command::Help),
        "--version" | "-V" => Ok(Command::Version),
        _ if rest.help => Ok(Command::Help),
        "check" if rest.files.is_empty() => usage("check: no file given"),
        "check" => Ok(Command::Check { files: rest.files }),
        "show" => show(rest),
        "samples" => samples(rest),
        "canonical" => {
            let [input, output] = rest.named("canonical", "two files, IN and OUT")?;
            Ok(Command::Canonical { input, output })
        }
        "make" => make(rest),
        _ => usage(format!("no such command: {}", verb.display())),
    }
}

fn show(rest: Words) -> Result<Command, Failure> {
    let (frame, settings) = (rest.frame, rest.has("--settings"));
    let [file] = rest.named("show", "one file")?;
    Ok(match settings {
        false => Command::Show { file, frame },
        true => Command::ShowSettings { file, frame },
    })
}

fn samples(rest: Words) -> Result<Command, Failure> {
    let (frame, channel, csv) = (rest.frame, rest.channel, rest.has("--csv"));
    let (all, raw) = (rest.has("--all"), rest.has("--raw"));
    let [file] = rest.named("samples", "one file")?;
    match (frame, channel) {
        _ if all && raw => usage("samples: --all or --raw, not both"),
        (_, Some(_)) if all || raw => usage("samples: --channel goes with neither --all nor --raw"),
        _ if csv && (all || raw) => usage("samples: --csv goes with neither --all nor --raw"),
        _ if all => Ok(Command::AllSamples { file, frame }),
        _ if raw => Ok(Command::RawSamples { file, frame }),
        (Some(frame), Some(channel)) => Ok(Command::Samples {
            file,
            frame,
            channel,
            csv,
        }),
        (None, _) => usage("samples: --frame F is missing"),
        (_, None) => usage("samples: --channel C is missing"),
    }
}

fn make(rest: Words) -> Result<Command, Failure> {
    let raw = rest.has("--raw");
    let [settings, samples, output] =
        rest.named("make", "three files, SETTINGS, SAMPLES and OUT")?;
    if settings == "-" && samples == "-" {
        return usage("make: SETTINGS and SAMPLES cannot both be standard input");
    }
    Ok(Command::Make {
        settings,
        samples,
        raw,
        output,
    })
}

fn usage<T>(words: impl Into<String>) -> Result<T, Failure> {
    Err(Failure::Usage(words.into()))
}

/// The words after the command's name, sorted into options and file names.
#[derive(Default)]
struct Words {
    files: Vec<OsString>,
    help: bool,
    frame: Option<u32>,
    channel: Option<u32>,
    /// Options without a value.
    flags: Vec<&'static str>,
}

impl Words {
    /// `options` are those that are allowed.
    fn sort(
        mut words: impl Iterator<Item = OsString>,
        options: &[&'static str],
    ) -> Result<Words, Failure> {
        let mut sorted = Words::default();
        while let Some(word) = words.next() {
            let (option, given) = split(&word);
            let allowed = options.iter().find(|allowed| Some(**allowed) == option);
            match (option, allowed) {
                (Some("--"), _) => sorted.files.extend(words.by_ref()),
                (Some("--help" | "-h"), _) => sorted.help = true,
                (_, Some(&"--frame")) => {
                    sorted.frame = Some(number("--frame", given.or_else(|| words.next()))?);
                }
                (_, Some(&"--channel")) => {
                    sorted.channel = Some(number("--channel", given.or_else(|| words.next()))?);
                }
                (_, Some(flag)) if given.is_some() => {
                    return usage(format!("{flag} takes no value"))
                }
                (_, Some(flag)) => sorted.flags.push(flag),
                (Some(option), None) => return usage(format!("no such option here: {option}")),
                (None, None) => sorted.files.push(word),
            }
        }
        Ok(sorted)
    }

    fn has(&self, flag: &str) -> bool {
        self.flags.contains(&flag)
    }

    /// The file names, if there are as many as asked for.
    fn named<const N: usize>(self, verb: &str, wanted: &str) -> Result<[OsString; N], Failure> {
        let given = self.files.len();
        match self.files.try_into() {
            Ok(names) => Ok(names),
            Err(_) => usage(format!("{verb} takes {wanted}, {given} given")),
        }
    }
}

/// An option, and its value where that is given as --option=value. A lone - is a file.
fn split(word: &OsStr) -> (Option<&str>, Option<OsString>) {
    match word.to_str() {
        Some(text) if text.starts_with('-') && text != "-" => match text.split_once('=') {
            Some((option, value)) => (Some(option), Some(value.into())),
            None => (Some(text), None),
        },
        _ => (None, None),
    }
}

fn number(option: &str, word: Option<OsString>) -> Result<u32, Failure> {
    let Some(word) = word else {
        return usage(format!("{option}: number is missing"));
    };
    match word.to_str().and_then(|text| text.parse().ok()) {
        Some(number) => Ok(number),
        None => usage(format!(
            "{option}: not a number from 0 to 4294967295: {}",
            word.display()
        )),
    }
}

#[cfg(test)]
mod tests {
    use super::*;

    fn parsed(line: &str) -> Result<Command, String> {
        let words = line.split_whitespace().map(OsString::from).collect();
        parse(words).map_err(|failure| match failure {
            Failure::Usage(words) => words,
            _ => panic!("not a usage error"),
        })
    }

    #[test]
    fn commands() {
        let files = vec!["a".into(), "-".into(), "--csv".into()];
        assert_eq!(parsed("check a - -- --csv"), Ok(Command::Check { files }));
        let (file, frame) = (OsString::from("a"), Some(7));
        let show = Command::Show {
            file: file.clone(),
            frame: None,
        };
        assert_eq!(parsed("show a"), Ok(show));
        let settings = Command::ShowSettings {
            file: file.clone(),
            frame,
        };
        assert_eq!(parsed("show --frame=7 a --settings"), Ok(settings));
        let all = Command::AllSamples {
            file: file.clone(),
            frame: None,
        };
        assert_eq!(parsed("samples a --all"), Ok(all));
        let raw = Command::RawSamples { file, frame };
        assert_eq!(parsed("samples a --raw --frame 7"), Ok(raw));
        let samples = Ok(Command::Samples {
            file: "a".into(),
            frame: 4_294_967_295,
            channel: 2,
            csv: true,
        });
        assert_eq!(
            parsed("samples --frame 4294967295 a --csv --channel=2"),
            samples
        );
        let canonical = Ok(Command::Canonical {
            input: "-".into(),
            output: "b".into(),
        });
        assert_eq!(parsed("canonical - b"), canonical);
        let make = |raw| Command::Make {
            settings: "a".into(),
            samples: "-".into(),
            raw,
            output: "-".into(),
        };
        assert_eq!(parsed("make a - -"), Ok(make(false)));
        assert_eq!(parsed("make --raw a - -"), Ok(make(true)));
        for line in ["--help", "-h", "help", "check --help", "samples -h"] {
            assert_eq!(parsed(line), Ok(Command::Help), "{line}");
        }
        assert_eq!(parsed("--version"), Ok(Command::Version));
    }

    #[test]
    fn wrong_words() {
        for (line, words) in [
            ("", "no command given"),
            ("frob", "no such command: frob"),
            ("check", "check: no file given"),
            ("check --csv a", "no such option here: --csv"),
            ("show a b", "show takes one file, 2 given"),
            ("samples a --frame 0", "samples: --channel C is missing"),
            ("samples a --channel 0", "samples: --frame F is missing"),
            ("samples a --frame", "--frame: number is missing"),
            (
                "samples a --frame -1 --channel 0",
                "--frame: not a number from 0 to 4294967295: -1",
            ),
            ("show a --raw", "no such option here: --raw"),
            ("show a --settings=b", "--settings takes no value"),
            ("samples a --all --raw", "samples: --all or --raw, not both"),
            (
                "samples a --all --channel 0",
                "samples: --channel goes with neither --all nor --raw",
            ),
            (
                "samples a --raw --csv",
                "samples: --csv goes with neither --all nor --raw",
            ),
            (
                "make a b",
                "make takes three files, SETTINGS, SAMPLES and OUT, 2 given",
            ),
            ("make a b c --csv", "no such option here: --csv"),
            (
                "make - - c",
                "make: SETTINGS and SAMPLES cannot both be standard input",
            ),
            (
                "canonical a",
                "canonical takes two files, IN and OUT, 1 given",
            ),
        ] {
            assert_eq!(parsed(line), Err(words.into()), "{line}");
        }
    }
}
