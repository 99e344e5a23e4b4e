//! What `mfer make` says where settings or samples are wrong: every message, with the exit status.
//! The file that was there stays as it was.

mod common;

use common::{mfer, run, shown, Folder};
use std::env;
use std::fs;
use std::path::PathBuf;
use std::process::Command;

/// A try to make a file over one that is there.
struct Try {
    folder: Folder,
    settings: PathBuf,
    samples: PathBuf,
}

impl Try {
    fn new(settings: impl AsRef<[u8]>, samples: impl AsRef<[u8]>) -> Try {
        let folder = Folder::new();
        folder.file("out", b"before");
        Try {
            settings: folder.file("settings", settings.as_ref()),
            samples: folder.file("samples", samples.as_ref()),
            folder,
        }
    }

    fn command(&self) -> Command {
        let mut command = mfer();
        command.arg("make").args([&self.settings, &self.samples]);
        command.arg(self.folder.path("out"));
        command
    }

    /// What is said of the file of this name, and the exit status. Nothing is written, and nothing is
    /// left behind.
    fn fails(&self, name: &str, command: &mut Command) -> (String, i32) {
        let (out, error, status) = run(command);
        assert_eq!(out, "");
        assert_eq!(fs::read(self.folder.path("out")).unwrap(), b"before");
        assert_eq!(self.folder.names(), ["out", "samples", "settings"]);
        let file = format!("mfer: {}: ", shown(&self.folder.path(name)));
        let words = error.strip_prefix(&file).unwrap_or(&error);
        (words.trim_end().into(), status)
    }
}

/// What is said of settings, whatever the samples.
fn settings_fail(settings: impl AsRef<[u8]>) -> (String, i32) {
    let tried = Try::new(settings, "");
    tried.fails("settings", &mut tried.command())
}

/// What is said of samples.
fn samples_fail(settings: &str, samples: impl AsRef<[u8]>, raw: bool) -> (String, i32) {
    let tried = Try::new(settings, samples);
    let mut command = tried.command();
    tried.fails("samples", command.args(raw.then_some("--raw")))
}

#[test]
fn lines_of_settings() {
    let known = "frame, channel, start, sequences, channels, block, class, lead, type, interval, \
                 resolution, offset, null";
    for (settings, words) in [
        (
            "\nblock 1\nframe\n",
            "line 2: expected 'frame' first, found 'block'",
        ),
        (
            "frame 3\n",
            "line 1: frame: expected nothing behind it, found '3'",
        ),
        (
            "frame\nchannel 0\n",
            "line 2: channel: expected nothing behind it, found '0'",
        ),
        (
            "frame\nlead 1\nlead 2\n",
            "line 3: lead: expected once, is in line 2 too",
        ),
        (
            "frame\nchannel\nlead 1\nlead 2\n",
            "line 4: lead: expected once, is in line 3 too",
        ),
        (
            "frame\nstart 1\nstart 1\n",
            "line 3: start: expected once, is in line 2 too",
        ),
        (
            "frame\nchannel\nstart 1\n",
            "line 3: start: expected ahead of the frame's first channel",
        ),
        (
            "frame\nchannels 1\nchannel\nchannel\n",
            "line 2: channels: expected 2, as many as lines 'channel' follow, found '1'",
        ),
        (
            "frame\nframe\nsequences 1\n",
            "line 1: sequences: expected in every frame but the last, found nothing",
        ),
        (
            "frame\ncolour red\n",
            &format!("line 2: expected one of {known}, found 'colour'"),
        ),
        (
            "frame\nBlock 1\n",
            &format!("line 2: expected one of {known}, found 'Block'"),
        ),
    ] {
        assert_eq!(settings_fail(settings), (words.into(), 2), "{settings}");
    }
}

/// A setting, what is expected of it, and values that are none.
const VALUES: [(&str, &str, &[&str]); 11] = [
    (
        "start",
        "a number from -2147483648 to 2147483647",
        &["x", "1.5", "", "0x10", "9223372036854775808"],
    ),
    (
        "sequences",
        "a number from 0 to 4294967295",
        &["x", "-1", "", "18446744073709551616"],
    ),
    (
        "channels",
        "a number from 1 to 256",
        &["x", "-1", "", "18446744073709551616"],
    ),
    (
        "block",
        "a number from 1 to 1048576",
        &["x", "-1", "", "4294967296"],
    ),
    (
        "class",
        "a code from 0 to 65535, its name, or both",
        &["65536", "-1", "", "private", "1 stress ECG", "ecg"],
    ),
    (
        "lead",
        "a code from 0 to 65535, its name in this class, or both",
        &["65536", "-1", "", "V1", "3 V1"],
    ),
    (
        "type",
        "a number from 0 to 8, or a name as 'signed 16 bits'",
        &["9", "-1", "", "signed", "float"],
    ),
    (
        "interval",
        "a mantissa from 1 to 2147483647, an exponent from -128 to 127 and a unit, as '500 Hz' or \
         '2e-3 s'",
        &[
            "500",
            "",
            "500 kHz",
            "x Hz",
            "2147483648 Hz",
            "1e128 Hz",
            "1 unit 256",
        ],
    ),
    (
        "resolution",
        "a mantissa from 1 to 2147483647, an exponent from -128 to 127 and a unit, as '1e-6 V' or \
         '1.25e-6 V'",
        &["1e-6", "", "1 uV", "V", "1.0e-128 V", "1 unit x"],
    ),
    (
        "offset",
        "bits of a sample as '0x8000', or a number of the type",
        &["32768", "", "none", "0x", "0x10000000000000000"],
    ),
    (
        "null",
        "bits of a sample as '0x8000', a number of the type, or 'none'",
        &["-32769", "", "null", "0.0", "0x10000000000000000"],
    ),
];

/// How a value is quoted.
fn found(value: &str) -> String {
    match value {
        "" => "nothing".into(),
        _ => format!("'{value}'"),
    }
}

#[test]
fn values_of_settings() {
    for (name, expected, values) in VALUES {
        for value in values {
            let words = format!("{name}: expected {expected}, found {}", found(value));
            let answer = settings_fail(format!("frame\n{name} {value}\n"));
            assert_eq!(answer, (format!("line 2: {words}"), 2));
        }
    }
    // Ahead of channels that all have their own.
    let settings = "frame\nblock x\nchannel\nblock 1\nchannel\nblock 2\n";
    let words = "line 2: block: expected a number from 1 to 1048576, found 'x'";
    assert_eq!(settings_fail(settings), (words.into(), 2));
    // For one channel alone: the type there is another.
    let settings = "frame\nchannel\nnull 200\nchannel\ntype 5\nnull 200\n";
    let words =
        "line 6: null: expected bits of a sample as '0x8000', a number of the type, or 'none'";
    assert_eq!(
        settings_fail(settings),
        (format!("{words}, found '200'"), 2)
    );
}

#[test]
fn the_first_wrong_line_is_said() {
    let (words, _) = settings_fail("frame\nnull x\ncolour red\nblock x\n");
    assert!(words.starts_with("line 2: null: "), "{words}");
    let (words, _) = settings_fail("frame\nsequences 1\ncolour red\nblock x\nframe 1\n");
    assert!(words.starts_with("line 3: expected one of "), "{words}");
    // A setting that the library refuses in a frame before it.
    let (words, status) = settings_fail("frame\nsequences 1\nblock 0\nframe\nblock x\n");
    assert!(words.starts_with("line 3: frame 0: refused 24 "), "{words}");
    assert_eq!(status, 1);
    // Settings that the library refuses, and lines that cannot be read.
    for (lines, found) in [
        ("null 0x10000\nblock 0\n", "null: "),
        ("block 0\nnull 0x10000\n", "block: "),
        ("block 0\nstart 2147483648\n", "block: "),
        ("start 2147483648\nblock 0\n", "start: "),
        ("channels 257\nsequences 4294967296\n", "channels: "),
        ("interval 0 Hz\nchannel\nblock 0\n", "interval: "),
        ("block 0\nnull x\n", "block: "),
        ("block 0\ncolour red\n", "block: "),
    ] {
        let (words, status) = settings_fail(format!("frame\n{lines}"));
        assert!(words.starts_with("line 2: frame 0: refused 24 "), "{words}");
        assert!(words.contains(found) && status == 1, "{words}");
    }
    let (words, status) = settings_fail("frame\nnull x\nblock 0\n");
    assert!(words.starts_with("line 2: null: "), "{words}");
    assert_eq!(status, 2);
    // Of a channel that comes later, in an earlier line: one that holds for both.
    let settings = "frame\nnull 0x8000\nchannel\nblock 0\nchannel\ntype 5\n";
    let (words, _) = settings_fail(settings);
    assert!(words.starts_with("line 2: frame 0: refused 24 "), "{words}");
    // What goes by the type is not wrong where that cannot be read.
    for null in ["0x10000", "40000", "1.5"] {
        let (words, status) = settings_fail(format!("frame\nnull {null}\ntype x\n"));
        assert!(words.starts_with("line 3: type: "), "{words}");
        assert_eq!(status, 2);
    }
}

#[test]
fn what_is_quoted_is_cut_and_obeyed_by_no_terminal() {
    let (words, _) = settings_fail(b"frame\nblock \x1B[2J\xFF\n");
    assert!(words.ends_with("found '\\u{1b}[2J\u{FFFD}'"), "{words}");
    let (words, _) = settings_fail(format!("frame\nblock {}\n", "y".repeat(41)));
    assert!(
        words.ends_with(&format!("found '{}..'", "y".repeat(40))),
        "{words}"
    );
    let words = "line 2: expected a line of fewer than 4096 octets";
    let long = |octets: usize| format!("frame\n#{}\n", "y".repeat(octets - 1));
    assert_eq!(settings_fail(long(4096)), (words.into(), 2));
    assert_eq!(settings_fail(long(4095) + "block 0\n").1, 1);
}

/// 24, with the line that has it.
#[test]
fn settings_out_of_range() {
    let words =
        "refused 24 at 0: a setting outside the table of attributes, or bits wider than the sample";
    for (lines, line, value) in [
        ("start 2147483648\n", 2, "start 2147483648"),
        ("start -2147483649\n", 2, "start -2147483649"),
        ("sequences 4294967296\n", 2, "sequences 4294967296"),
        ("channels 0\n", 2, "channels 0"),
        ("channels 257\n", 2, "channels 257"),
        (
            "channels 18446744073709551615\n",
            2,
            "channels 18446744073709551615",
        ),
        (&"channel\n".repeat(257), 1, "channels 257"),
        (&"channel\nlead 1\n".repeat(9999), 1, "channels 9999"),
        (
            &("channels 300\n".to_string() + &"channel\n".repeat(300)),
            2,
            "channels 300",
        ),
        ("lead 1\nblock 0\n", 3, "block 0"),
        ("block 1048577\n", 2, "block 1048577"),
        ("interval 0 Hz\n", 2, "interval 0 Hz"),
        ("interval -1 Hz\n", 2, "interval -1 Hz"),
        ("interval 1 unit 3\n", 2, "interval 1 unit 3"),
        ("resolution 0 V\n", 2, "resolution 0 V"),
        ("resolution 1 unit 23\n", 2, "resolution 1 unit 23"),
        ("offset 0x10000\n", 2, "offset 0x10000"),
        ("type 3\noffset 0x100\n", 3, "offset 0x100"),
        ("type 6\nnull 0x100000000\n", 3, "null 0x100000000"),
        ("null 0x8000\nchannel\nchannel\ntype 5\n", 2, "null 0x8000"),
        (
            "channel\nchannel\nclass 1\nlead V1\nblock 0\n",
            6,
            "block 0",
        ),
    ] {
        let (name, value) = value.split_once(' ').unwrap();
        let (_, expected, _) = VALUES.iter().find(|(known, ..)| *known == name).unwrap();
        let cause = format!("{name}: expected {expected}, found '{value}'");
        let answer = settings_fail(format!("frame\n{lines}"));
        assert_eq!(
            answer,
            (format!("line {line}: frame 0: {words}: {cause}"), 1)
        );
    }
}

/// 24 for a start pointer that stands in no line.
#[test]
fn a_continued_start_out_of_range() {
    let settings = "frame\nstart 2147483647\nsequences 1\nframe\n";
    let words = "line 4: frame 1: refused 24 at 0: a setting outside the table of attributes, or \
                 bits wider than the sample: start: expected a number from -2147483648 to \
                 2147483647, found '2147483648'";
    assert_eq!(settings_fail(settings), (words.into(), 1));
    let settings = "frame\nstart 2147483647\nsequences 0\nframe\n";
    let tried = Try::new(settings, "");
    assert_eq!(run(&mut tried.command()).2, 0);
}

/// 25, with the place where the samples end.
#[test]
fn samples_too_few_and_too_many() {
    let words =
        "refused 25 at 0: sample octets not exactly sequences times G (the octets of a sequence)";
    let hint = "; a frame is made of all its samples: take fewer sequences";
    let fixed = "frame\nsequences 1\nblock 2\nframe\nsequences 2\n";
    let open = "frame\nsequences 1\nblock 2\nframe\n";
    for (settings, numbers, place, lengths, hint) in [
        (
            fixed,
            1,
            "line 1: frame 0",
            "1 times 4 octets, found 2",
            hint,
        ),
        (fixed, 0, "frame 0", "1 times 4 octets, found 0", hint),
        (
            fixed,
            5,
            "line 5: frame 1",
            "2 times 4 octets, found 6",
            hint,
        ),
        (
            fixed,
            7,
            "line 7: frame 1",
            "2 times 4 octets, found 10",
            "",
        ),
        (
            open,
            3,
            "line 3: frame 1",
            "a multiple of 4 octets, found 2",
            "",
        ),
        (
            "frame\nsequences 0\n",
            1,
            "line 1: frame 0",
            "0 times 2 octets, found 2",
            "",
        ),
    ] {
        let expected = format!("{words}: expected {lengths}{hint}");
        let answer = samples_fail(settings, "7\n".repeat(numbers), false);
        assert_eq!(answer, (format!("{place}: {expected}"), 1));
        let (_, frame) = place.rsplit_once("frame").unwrap();
        let answer = samples_fail(settings, "77".repeat(numbers), true);
        assert_eq!(answer, (format!("frame{frame}: {expected}"), 1));
    }
    let answer = samples_fail(fixed, [0; 13], true);
    let expected = "expected 2 times 4 octets, found 9";
    assert_eq!(answer, (format!("frame 1: {words}: {expected}"), 1));
}

/// A setting of a channel, what is expected of its samples, and lines that are none.
const SAMPLES: [(&str, &str, &[&str]); 10] = [
    (
        "type 0",
        "a whole number from -32768 to 32767",
        &["32768", "-32769", "null", "1.0", "", "1 2"],
    ),
    ("type 1", "a whole number from 0 to 65535", &["-1", "65536"]),
    (
        "type 2",
        "a whole number from -2147483648 to 2147483647",
        &["2147483648"],
    ),
    ("type 3", "a whole number from 0 to 255", &["256", "-1"]),
    (
        "type 4",
        "bits from 0x0000 to 0xFFFF",
        &["1", "0x10000", "0xG"],
    ),
    (
        "type 5",
        "a whole number from -128 to 127",
        &["128", "-129"],
    ),
    (
        "type 6",
        "a whole number from 0 to 4294967295",
        &["4294967296", "-1"],
    ),
    (
        "type 7",
        "a single, inf, -inf, or not-a-number with its bits",
        &[
            "nan",
            "1e39",
            "1e-60",
            "not-a-number",
            "not-a-number 0x0",
            "x",
        ],
    ),
    (
        "type 8",
        "a double, inf, -inf, or not-a-number with its bits",
        &["nan", "1e309", "1e-400", "not-a-number 0x7FC00001"],
    ),
    (
        "null 5",
        "a whole number from -32768 to 32767, or null",
        &["none", "Null"],
    ),
];

#[test]
fn lines_of_samples() {
    for (setting, expected, lines) in SAMPLES {
        for line in lines {
            let words = format!("line 1: frame 0, channel 0: expected {expected}, found");
            let answer = samples_fail(&format!("frame\n{setting}\n"), format!("{line}\n"), false);
            assert_eq!(answer, (format!("{words} {}", found(line)), 2));
        }
    }
}

/// The line with which `mfer samples` closes is no sample.
#[test]
fn samples_that_are_not_there() {
    let words = "frame 0, channel 0: expected a whole number from -32768 to 32767, found 'no data: 1 \
                 samples'; a frame is made of all its samples: take fewer sequences, and leave this \
                 line out";
    let samples = "5\nno data: 1 samples\n";
    for settings in ["frame\nsequences 2\n", "frame\nsequences 1\n", "frame\n"] {
        let answer = samples_fail(settings, samples, false);
        assert_eq!(answer, (format!("line 2: {words}"), 2));
    }
}

/// The frame and the channel that a line of samples falls to.
#[test]
fn lines_of_samples_are_found() {
    let settings =
        "frame\nsequences 1\nframe\nsequences 2\nchannel\nblock 2\nchannel\ntype 5\nnull 1\n";
    let numbers = "0\n1\n2\nnull\n4\n5\n200\n";
    let expected = "a whole number from -128 to 127, or null";
    let words = format!("line 7: frame 1, channel 1: expected {expected}, found '200'");
    assert_eq!(samples_fail(settings, numbers, false), (words, 2));
}

#[test]
fn octets_where_numbers_are_expected() {
    let words = "line 1: frame 0, channel 0: expected a whole number from -32768 to 32767, found";
    let hint = "; octets are read with --raw";
    let answer = samples_fail("frame\n", [0, 1], false);
    assert_eq!(answer, (format!("{words} '\\0\\u{{1}}'{hint}"), 2));
    let answer = samples_fail("frame\n", [0xFF, 0xFF], false);
    assert_eq!(answer, (format!("{words} '\u{FFFD}\u{FFFD}'{hint}"), 2));
    let words = "line 1: expected a line of fewer than 4096 octets";
    assert_eq!(samples_fail("frame\n", [0; 5000], false), (words.into(), 2));
}

/// 11, before anything is read behind that frame's line.
#[test]
fn frames_4097() {
    let words = "frame 4096: refused 11 at 0: a frame after 4,096 frames";
    let most = "frame\nsequences 0\n".repeat(4096);
    for more in ["frame", "frame\nsequences 0\n", "frame 1\nblock x\n"] {
        let answer = settings_fail(most.clone() + more);
        assert_eq!(answer, (words.into(), 1), "{more}");
    }
    // What is wrong in a frame before it is said first.
    let (words, status) = settings_fail(most.clone() + "block 0\nframe\n");
    let line = "line 8193: frame 4095: refused 24 ";
    assert!(words.starts_with(line) && status == 1, "{words}");
    let tried = Try::new(most, "");
    assert_eq!(run(&mut tried.command()).2, 0);
}

/// Long texts of many frames, channels or wrong lines are read in 150,000 KiB of memory.
#[cfg(target_os = "linux")]
#[test]
fn long_texts_do_not_fill_memory() {
    const LINES: usize = 1_000_000;
    for (first, lines, words, status) in [
        (
            "frame\nchannels 256\nsequences 0\n",
            "frame\nsequences 0\n",
            "frame 4096: refused 11 ",
            1,
        ),
        ("frame\n", "channel\n", "line 1: frame 0: refused 24 ", 1),
        ("frame\n", "channel x\n", "line 1: frame 0: refused 24 ", 1),
        ("frame\n", "x\n", "line 2: expected one of ", 2),
    ] {
        let tried = Try::new(first.to_string() + &lines.repeat(LINES), "");
        let command = tried.command();
        let mut limited = Command::new("sh");
        limited.args(["-c", "ulimit -v 150000 && exec \"$@\"", "sh"]);
        limited.arg(command.get_program()).args(command.get_args());
        let (said, exit) = tried.fails("settings", &mut limited);
        assert!(said.starts_with(words) && exit == status, "{said}");
    }
}

/// 15. MFER_SKIP_LARGE skips it.
#[test]
fn a_file_above_the_limit() {
    if env::var_os("MFER_SKIP_LARGE").is_some() {
        println!("skipped: MFER_SKIP_LARGE is set");
        return;
    }
    let tried = Try::new("frame\ntype 3\n", "");
    let samples = fs::OpenOptions::new().write(true).open(&tried.samples);
    samples.unwrap().set_len(2_147_483_647).unwrap();
    let answer = tried.fails("settings", tried.command().arg("--raw"));
    let words = "frame 0: refused 15 at 0: file above 2,147,483,647 octets";
    assert_eq!(answer, (words.into(), 1));
}

#[test]
fn samples_without_a_frame() {
    let words = "expected 'frame', found none";
    for raw in [None, Some("--raw")] {
        let tried = Try::new("# nothing yet\n", "1\n");
        let answer = tried.fails("settings", tried.command().args(raw));
        assert_eq!(answer, (words.into(), 2));
    }
}

#[test]
fn files_that_cannot_be_read_or_written() {
    let tried = Try::new("frame\n", "1\n");
    let nowhere = tried.folder.path("no/such/folder");
    let names = [&tried.settings, &tried.samples, &nowhere];
    for missing in 0..3 {
        let mut names = names;
        names[missing] = &nowhere;
        let (words, status) = tried.fails("no/such/folder", mfer().arg("make").args(names));
        assert!(words.starts_with("No such file or directory"), "{words}");
        assert_eq!(status, 2);
    }
    for folder in 0..3 {
        let mut names = names;
        names[folder] = &tried.folder.0;
        let (words, status) = tried.fails("", mfer().arg("make").args(names));
        assert!(words.contains("irectory"), "{words}");
        assert_eq!(status, 2);
    }
}
