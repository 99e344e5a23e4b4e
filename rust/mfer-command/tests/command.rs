//! The command as a user meets it: its output, its words on standard error, its exit status.

mod common;

use common::{mfer, read, run, run_on, shown, Folder, P2, P6};
use std::fs;
use std::io::{Read, Write};
use std::process::Stdio;
use std::thread;
use std::time::Duration;

#[test]
fn check_of_one_file() {
    let folder = Folder::new();
    let good = folder.file("good", &P2);
    let answer = run(mfer().arg("check").arg(&good));
    assert_eq!(answer, ("frames 1\n".into(), "".into(), 0));
    let bad = folder.file("bad", &P6);
    let (out, error, status) = run(mfer().arg("check").arg(&bad));
    assert_eq!((out.as_str(), status), ("refused 8 at 3\n", 1));
    let words = "refused 8 at 3: channel number not below the channel count";
    assert_eq!(error, format!("mfer: {}: {words}\n", shown(&bad)));
}

#[test]
fn check_of_several_files() {
    let folder = Folder::new();
    let good = folder.file("good", &P2);
    let bad = folder.file("bad", &P6);
    let missing = folder.path("missing");
    let (out, error, status) = run(mfer().arg("check").args([&bad, &good]));
    let lines = format!(
        "{}: refused 8 at 3\n{}: frames 1\n",
        shown(&bad),
        shown(&good)
    );
    assert_eq!((out, status), (lines, 1));
    assert_eq!(error.lines().count(), 1);
    let (out, error, status) = run(mfer().arg("check").args([&missing, &bad, &good]));
    assert_eq!((out.lines().count(), status), (2, 2));
    assert!(error.starts_with(&format!("mfer: {}: ", shown(&missing))));
}

#[test]
fn check_of_standard_input() {
    let answer = read(run_on(mfer().args(["check", "-"]), &P2));
    assert_eq!(answer, ("frames 1\n".into(), "".into(), 0));
    let answer = read(run_on(mfer().args(["check", "-"]), &[]));
    assert_eq!(answer, ("frames 0\n".into(), "".into(), 0));
    let (out, error, status) = read(run_on(mfer().args(["check", "-"]), &[0x0A, 0x80]));
    assert_eq!((out.as_str(), status), ("refused 2 at 0\n", 1));
    assert!(error.starts_with("mfer: standard input: refused 2 at 0: length octet"));
}

#[test]
fn show_of_a_standard_ecg() {
    let folder = Folder::new();
    let mut octets = vec![
        0x08, 1, 1, 0x0B, 4, 1, 0xFD, 0, 1, 0x0C, 4, 0, 0xF7, 3, 0xE8, 0x12, 2, 0x80, 0, 0x05, 1, 2,
    ];
    octets.extend([0x3F, 0, 3, 9, 1, 1, 0x3F, 1, 6, 9, 1, 64, 4, 1, 2]);
    octets.extend([0x1E, 6, 0, 1, 0, 2, 0, 3]);
    octets.extend([0x1E, 6, 0, 4, 0, 5, 0, 6]);
    octets.extend([
        0x08, 1, 40, 0x09, 2, 0x46, 0x4A, 0x0A, 1, 7, 0x12, 0, 0x05, 0, 0x04, 0,
    ]);
    octets.extend([0x0C, 3, 1, 0, 1, 0x1E, 0]);
    let file = folder.file("ecg", &octets);
    let (out, error, status) = run(mfer().arg("show").arg(&file));
    let table = "\
frame 0: start 0, 2 channels, 1 sequence
  channel  class                   lead    type            samples           interval  resolution  offset  null
  0        1 standard 12 lead ECG  1 I     signed 16 bits  1                 1e-3 s    1000e-9 V   0x0000  0x8000
  1        1 standard 12 lead ECG  64 aVF  signed 16 bits  2 (2 a sequence)  1e-3 s    1000e-9 V   0x0000  0x8000
frame 1: start 1, 2 channels, 1 sequence; channels as in frame 0
frame 2: start 2, 1 channel, 0 sequences
  channel  class           lead          type    samples  interval  resolution  offset      null
  0        40 resting EEG  17994 FP1-A1  single  0        1e-3 s    1 mmHg      0x00000000  none
";
    let head = format!("{}: {} octets, 3 frames\n", shown(&file), octets.len());
    assert_eq!((out, error, status), (head + table, "".into(), 0));
}

#[test]
fn show_of_one_frame() {
    let octets = [0x0A, 1, 3, 0x1E, 2, 7, 8, 0x1E, 1, 9];
    let show = |frame| {
        read(run_on(
            mfer().args(["show", "-", "--frame", frame]),
            &octets,
        ))
    };
    let (out, error, status) = show("1");
    let (head, table) = out.split_once('\n').unwrap();
    assert_eq!(head, "standard input: 10 octets, 2 frames");
    assert!(table.starts_with("frame 1: start 2, 1 channel, 1 sequence\n  channel  class "));
    assert_eq!((table.lines().count(), error, status), (3, "".into(), 0));
    let error = "mfer: standard input: refused 20 at 0: no such frame\n";
    assert_eq!(show("2"), ("".into(), error.into(), 1));
}

#[test]
fn show_of_many_frames_is_the_same() {
    let frames = |count: u8| {
        let mut octets = vec![0x01, 1, 1, 0x05, 1, 2];
        for number in 0..count {
            octets.extend([0x3F, 1, 3, 9, 1, number, 0x1E, 4, number, 0, 1, 0]);
        }
        octets
    };
    let lines = |octets: &[u8]| -> Vec<String> {
        let (out, _, status) = read(run_on(mfer().args(["show", "-"]), octets));
        assert_eq!(status, 0);
        out.lines().skip(1).map(String::from).collect()
    };
    // Seven frames are asked in the file, twenty one by one.
    let (few, many) = (lines(&frames(7)), lines(&frames(20)));
    assert_eq!((few.len(), many.len()), (7 * 4, 20 * 4));
    assert_eq!(few[..], many[..few.len()]);
}

/// A recording that was cut off: two channels, the second of one octet with blocks of 2, and two frames of
/// three sequences. The first has one and three quarters of them.
const CUT: [u8; 38] = [
    0x05, 1, 2, 0x06, 1, 3, 0x3F, 1, 6, 0x0A, 1, 3, 0x04, 1, 2, // the settings
    0x1E, 7, 0, 1, 10, 11, 0, 2, 12, // the first frame
    0x1E, 12, 0, 3, 13, 14, 0, 4, 15, 16, 0, 5, 17, 18,
];

/// Four octets of samples where 256 channels with blocks of 1,048,576 and 4,294,967,295 sequences are
/// declared.
const DECLARED: [u8; 21] = [
    0x05, 2, 1, 0, 0x04, 3, 0x10, 0, 0, 0x06, 4, 0xFF, 0xFF, 0xFF, 0xFF, 0x1E, 4, 0, 1, 0, 2,
];

#[test]
fn show_says_how_many_samples_are_there() {
    let (out, error, status) = read(run_on(mfer().args(["show", "-"]), &CUT));
    let table = "\
standard input: 38 octets, 2 frames
frame 0: start 0, 2 channels, 3 sequences
  channel  class           lead            type             samples                interval  resolution  offset  null
  0        0 unidentified  0 unidentified  signed 16 bits   2 of 3                 1000 Hz   1e-6 V      0x0000  none
  1        0 unidentified  0 unidentified  unsigned 8 bits  3 of 6 (2 a sequence)  1000 Hz   1e-6 V      0x00    none
frame 1: start 3, 2 channels, 3 sequences
  channel  class           lead            type             samples           interval  resolution  offset  null
  0        0 unidentified  0 unidentified  signed 16 bits   3                 1000 Hz   1e-6 V      0x0000  none
  1        0 unidentified  0 unidentified  unsigned 8 bits  6 (2 a sequence)  1000 Hz   1e-6 V      0x00    none
";
    assert_eq!((out, error, status), (table.into(), "".into(), 0));
    let (out, _, status) = read(run_on(mfer().args(["show", "-"]), &DECLARED));
    assert_eq!((out.lines().count(), status), (3 + 256, 0));
    assert!(out.contains(" 2 of 4503599626321920 (1048576 a sequence) "));
    assert_eq!(out.matches(" 0 of 4503599626321920 (").count(), 255);
}

#[test]
fn settings_say_how_many_sequences_are_whole() {
    let sequences = |octets: &[u8]| -> Vec<String> {
        let show = run_on(mfer().args(["show", "-", "--settings"]), octets);
        let (out, error, status) = read(show);
        assert_eq!((error.as_str(), status), ("", 0));
        let lines = out.lines().filter(|line| line.contains("sequences"));
        lines.map(String::from).collect()
    };
    let cut_off = "  sequences 3  # 1 whole, no data: 4 samples";
    assert_eq!(sequences(&CUT), [cut_off, "  sequences 3"]);
    let declared = "  sequences 4294967295  # 0 whole, no data: 1152921504338411518 samples";
    assert_eq!(sequences(&DECLARED), [declared]);
    assert_eq!(sequences(&P2), ["  sequences 1"]);
}

#[test]
fn show_of_nothing_and_of_a_refused_file() {
    let (out, _, status) = read(run_on(mfer().args(["show", "-"]), &[]));
    assert_eq!(
        (out.as_str(), status),
        ("standard input: 0 octets, 0 frames\n", 0)
    );
    let (out, error, status) = read(run_on(mfer().args(["show", "-"]), &P6));
    assert_eq!((out.as_str(), status), ("", 1));
    assert!(error.starts_with("mfer: standard input: refused 8 at 3: "));
}

fn samples(octets: &[u8], words: &[&str]) -> (String, String, i32) {
    read(run_on(mfer().args(["samples", "-"]).args(words), octets))
}

#[test]
fn samples_one_a_line() {
    let answer = samples(&P2, &["--frame", "0", "--channel", "0"]);
    assert_eq!(answer, ("1\n2\n".into(), "".into(), 0));
    let answer = samples(&P2, &["--frame=0", "--channel=1"]);
    assert_eq!(answer, ("-1\n".into(), "".into(), 0));
    let answer = samples(&P2, &["--csv", "--frame", "0", "--channel", "0"]);
    assert_eq!(answer, ("number,value\n0,1\n1,2\n".into(), "".into(), 0));
    let answer = samples(&[0x1E, 0], &["--frame", "0", "--channel", "0"]);
    assert_eq!(answer, ("".into(), "".into(), 0));
}

#[test]
fn samples_of_every_kind() {
    let mut octets = vec![0x0A, 1, 7, 0x12, 4, 0xFF, 0xFF, 0xFF, 0xFF, 0x1E, 20];
    octets.extend([0x3F, 0x80, 0, 0, 0x80, 0, 0, 0, 0x7F, 0x80, 0, 0]);
    octets.extend([0x7F, 0xC0, 0, 1, 0xFF, 0xFF, 0xFF, 0xFF]);
    octets.extend([0x12, 2, 0, 1, 0x0A, 1, 4, 0x1E, 4, 0, 1, 0xAB, 0xCD]);
    octets.extend([
        0x12, 0, 0x0A, 1, 8, 0x1E, 8, 0x3F, 0xB9, 0x99, 0x99, 0x99, 0x99, 0x99, 0x9A,
    ]);
    let (out, _, _) = samples(&octets, &["--frame", "0", "--channel", "0"]);
    assert_eq!(out, "1.0\n-0.0\ninf\nnot-a-number 0x7FC00001\nnull\n");
    let (out, _, _) = samples(&octets, &["--frame", "1", "--channel", "0", "--csv"]);
    assert_eq!(out, "number,value\n0,null\n1,0xABCD\n");
    let (out, _, _) = samples(&octets, &["--frame", "2", "--channel", "0"]);
    assert_eq!(out, "0.1\n");
}

#[test]
fn samples_of_all_channels() {
    let mut octets = P2.to_vec();
    octets.extend([0x12, 2, 2, 0, 0x1E, 6, 1, 0, 2, 0, 3, 0]);
    for (words, numbers) in [
        (&["--all"][..], "1\n2\n-1\n1\nnull\n3\n"),
        (&["--all", "--frame", "1"], "1\nnull\n3\n"),
    ] {
        assert_eq!(samples(&octets, words), (numbers.into(), "".into(), 0));
    }
    let raw = |words: &[&str]| run_on(mfer().args(["samples", "-", "--raw"]).args(words), &octets);
    let first = [0, 1, 0, 2, 0xFF, 0xFF];
    assert_eq!(raw(&["--frame=0"]).stdout, first);
    assert_eq!(raw(&[]).stdout, [first, [0, 1, 0, 2, 0, 3]].concat());
}

#[test]
fn samples_of_a_recording_that_was_cut_off() {
    for (octets, words, lines) in [
        (
            &CUT[..],
            &["--frame", "0", "--channel", "0"][..],
            "1\n2\nno data: 1 samples\n",
        ),
        (
            &CUT,
            &["--frame", "0", "--channel", "1"],
            "10\n11\n12\nno data: 3 samples\n",
        ),
        (
            &CUT,
            &["--frame", "0", "--channel", "0", "--csv"],
            "number,value\n0,1\n1,2\nno data: 1 samples\n",
        ),
        (&CUT, &["--frame", "1", "--channel", "0"], "3\n4\n5\n"),
        (
            &CUT,
            &["--all"],
            "1\n10\n11\n2\n12\nno data: 4 samples\n3\n13\n14\n4\n15\n16\n5\n17\n18\n",
        ),
        (
            &DECLARED,
            &["--frame", "0", "--channel", "0"],
            "1\n2\nno data: 4503599626321918 samples\n",
        ),
        (
            &DECLARED,
            &["--frame", "0", "--channel", "255"],
            "no data: 4503599626321920 samples\n",
        ),
        (
            &DECLARED,
            &["--all", "--frame", "0"],
            "1\n2\nno data: 1152921504338411518 samples\n",
        ),
    ] {
        let answer = samples(octets, words);
        assert_eq!(answer, (lines.into(), "".into(), 0), "{words:?}");
    }
}

/// Octets cannot say what is not there: it is said on standard error.
#[test]
fn octets_of_a_recording_that_was_cut_off() {
    let raw = run_on(mfer().args(["samples", "-", "--raw"]), &CUT);
    let (first, second) = (&CUT[17..24], &CUT[26..]);
    assert_eq!(raw.stdout, [first, second].concat());
    let said = "mfer: standard input: frame 0: no data: 4 samples\n";
    assert_eq!(String::from_utf8(raw.stderr).unwrap(), said);
    assert!(raw.status.success());
    let raw = run_on(mfer().args(["samples", "-", "--raw"]), &DECLARED);
    assert_eq!(raw.stdout, [0, 1, 0, 2]);
}

/// The canonical file has the same samples and lacks the same.
#[test]
fn canonical_of_a_recording_that_was_cut_off() {
    for octets in [&CUT[..], &DECLARED] {
        let canonical = run_on(mfer().args(["canonical", "-", "-"]), octets).stdout;
        for words in [&["samples", "-", "--all"][..], &["show", "-", "--settings"]] {
            let [ours, theirs] =
                [octets, &canonical].map(|octets| read(run_on(mfer().args(words), octets)));
            assert_eq!((&ours, ours.2), (&theirs, 0));
        }
        let again = run_on(mfer().args(["canonical", "-", "-"]), &canonical).stdout;
        assert_eq!(again, canonical);
    }
}

#[test]
fn all_samples_that_are_not_there() {
    for option in ["--all", "--raw"] {
        let error = "mfer: standard input: refused 20 at 0: no such frame\n";
        let answer = samples(&P2, &[option, "--frame", "1"]);
        assert_eq!(answer, ("".into(), error.into(), 1));
        let (out, error, status) = samples(&P6, &[option]);
        assert_eq!((out.as_str(), status), ("", 1));
        assert!(error.starts_with("mfer: standard input: refused 8 at 3: "));
    }
}

#[test]
fn samples_that_are_not_there() {
    for (words, error) in [
        (
            ["--frame", "1", "--channel", "0"],
            "refused 20 at 0: no such frame",
        ),
        (
            ["--frame", "0", "--channel", "2"],
            "refused 21 at 0: no such channel",
        ),
    ] {
        let error = format!("mfer: standard input: {error}\n");
        assert_eq!(samples(&P2, &words), ("".into(), error, 1));
    }
}

#[test]
fn canonical_to_a_file_and_to_standard_output() {
    let folder = Folder::new();
    let input = folder.file("in", &P2);
    let output = folder.path("out");
    let answer = run(mfer().arg("canonical").args([&input, &output]));
    assert_eq!(answer, ("".into(), "".into(), 0));
    let written = fs::read(&output).unwrap();
    assert_eq!(written.len(), 113);
    assert_eq!(folder.names(), ["in", "out"]);
    let piped = run_on(mfer().args(["canonical", "-", "-"]), &P2);
    assert_eq!(piped.stdout, written);
    // Over itself.
    let answer = run(mfer().arg("canonical").args([&input, &input]));
    assert_eq!(answer.2, 0);
    assert_eq!(fs::read(&input).unwrap(), written);
}

#[test]
fn canonical_that_fails_leaves_the_output_as_it_was() {
    let folder = Folder::new();
    let input = folder.file("in", &P6);
    let output = folder.file("out", b"before");
    let (_, error, status) = run(mfer().arg("canonical").args([&input, &output]));
    assert_eq!(status, 1);
    assert!(error.contains("refused 8 at 3: "));
    assert_eq!(fs::read(&output).unwrap(), b"before");
    let nowhere = folder.path("no/such/folder");
    let good = folder.file("good", &P2);
    let (_, error, status) = run(mfer().arg("canonical").args([&good, &nowhere]));
    assert_eq!(status, 2);
    assert!(error.starts_with(&format!("mfer: {}: ", shown(&nowhere))));
    let (_, _, status) = run(mfer().arg("canonical").args([&good, &folder.0]));
    assert_eq!(status, 2);
    assert_eq!(folder.names(), ["good", "in", "out"]);
}

#[cfg(unix)]
#[test]
fn canonical_keeps_permissions_links_and_devices() {
    use std::os::unix::fs::{symlink, FileTypeExt, PermissionsExt};
    let folder = Folder::new();
    let input = folder.file("in", &P2);
    let output = folder.file("out", b"before");
    fs::set_permissions(&output, fs::Permissions::from_mode(0o600)).unwrap();
    let link = folder.path("link");
    symlink(&output, &link).unwrap();
    let (_, _, status) = run(mfer().arg("canonical").args([&input, &link]));
    assert_eq!(status, 0);
    assert!(fs::symlink_metadata(&link).unwrap().is_symlink());
    assert_eq!(fs::read(&output).unwrap().len(), 113);
    let mode = fs::metadata(&output).unwrap().permissions().mode();
    assert_eq!(mode & 0o777, 0o600);
    let (_, _, status) = run(mfer().arg("canonical").arg(&input).arg("/dev/null"));
    assert_eq!(status, 0);
    assert!(fs::metadata("/dev/null")
        .unwrap()
        .file_type()
        .is_char_device());
}

#[test]
fn help_and_version() {
    let (out, error, status) = run(mfer().arg("--help"));
    for word in [
        "check FILE..",
        "show FILE",
        "samples FILE",
        "canonical IN",
        "make SETTINGS",
    ] {
        assert!(out.contains(&format!("\n  mfer {word}")), "{word}");
    }
    assert!(out.lines().all(|line| line.chars().count() <= 80));
    assert_eq!((error.as_str(), status), ("", 0));
    let (out, _, status) = run(mfer().arg("--version"));
    assert_eq!(out, format!("mfer {}\n", env!("CARGO_PKG_VERSION")));
    assert_eq!(status, 0);
}

#[test]
fn wrong_usage() {
    for words in [
        &[][..],
        &["frob"],
        &["check"],
        &["show", "a", "b"],
        &["check", "--frob", "a"],
    ] {
        let (out, error, status) = run(mfer().args(words));
        assert_eq!((out.as_str(), status), ("", 2), "{words:?}");
        assert!(
            error.starts_with("mfer: ") && error.contains("mfer --help"),
            "{error}"
        );
    }
}

#[test]
fn a_closed_pipe_is_no_error() {
    let folder = Folder::new();
    let mut octets = vec![0x1E, 0x84];
    octets.extend(4_000_000_u32.to_be_bytes());
    octets.resize(octets.len() + 4_000_000, 1);
    let file = folder.file("long", &octets);
    for (words, expected) in [
        (&["--frame", "0", "--channel", "0"][..], b"257\n"),
        (&["--all"], b"257\n"),
        (&["--raw"], &[1; 4]),
    ] {
        let mut child = mfer()
            .arg("samples")
            .args(words)
            .arg(&file)
            .stdout(Stdio::piped())
            .stderr(Stdio::piped())
            .spawn()
            .unwrap();
        let mut first = [0; 4];
        child.stdout.take().unwrap().read_exact(&mut first).unwrap();
        let output = child.wait_with_output().unwrap();
        assert_eq!(&first, expected);
        assert_eq!(String::from_utf8(output.stderr).unwrap(), "");
        assert!(output.status.success());
    }
}

#[cfg(target_os = "linux")]
#[test]
fn a_full_disk_is_an_error() {
    let full = fs::OpenOptions::new()
        .write(true)
        .open("/dev/full")
        .unwrap();
    let child = mfer()
        .arg("--help")
        .stdout(full)
        .stderr(Stdio::piped())
        .spawn()
        .unwrap();
    let (_, error, status) = read(child.wait_with_output().unwrap());
    assert_eq!(status, 2);
    assert!(error.starts_with("mfer: standard output: "));
}

/// The input comes so slowly that there would be something to say on a terminal.
#[test]
fn no_progress_where_there_is_no_terminal() {
    let folder = Folder::new();
    let mut octets = vec![0x0A, 1, 3, 0x1E, 0x84];
    octets.extend(40_000_000_u32.to_be_bytes());
    octets.resize(octets.len() + 40_000_000, 1);
    let output = folder.path("out");
    let mut child = mfer()
        .args(["canonical", "-"])
        .arg(&output)
        .stdin(Stdio::piped())
        .stdout(Stdio::piped())
        .stderr(Stdio::piped())
        .spawn()
        .unwrap();
    let mut input = child.stdin.take().unwrap();
    let (first, rest) = octets.split_at(20_000_000);
    input.write_all(first).unwrap();
    thread::sleep(Duration::from_secs(1));
    input.write_all(rest).unwrap();
    drop(input);
    let answer = read(child.wait_with_output().unwrap());
    assert_eq!(answer, ("".into(), "".into(), 0));
    assert_eq!(fs::metadata(&output).unwrap().len(), 68 + 40_000_000);
}
