//! `mfer make` as a user meets it: settings written by hand and by `mfer show --settings`, files and
//! pipes.

mod common;

use common::{mfer, read, run, run_on, shown, written, Folder, P2};
use mfer::File;
use std::fs;

/// The file that is made of these texts.
fn made(settings: &str, numbers: &str) -> Vec<u8> {
    let folder = Folder::new();
    let settings = folder.file("settings", settings.as_bytes());
    let numbers = folder.file("numbers", numbers.as_bytes());
    written(mfer().arg("make").args([settings, numbers]).arg("-"))
}

fn canonical(octets: &[u8]) -> Vec<u8> {
    File::new(octets).canonical_vec().unwrap()
}

#[test]
fn what_is_left_out_has_its_default() {
    assert_eq!(made("frame", "5"), canonical(&[0x1E, 2, 0, 5]));
    assert_eq!(made("frame\nsequences 0\n", ""), canonical(&[0x1E, 0]));
    assert_eq!(
        made("frame\n", "1\n2\n3\n"),
        canonical(&[0x1E, 6, 0, 1, 0, 2, 0, 3])
    );
}

#[test]
fn settings_of_a_frame_hold_for_its_channels() {
    let settings = "
# Two channels, the second with blocks of one.
frame                    # the only one
  sequences  1
  block 2   # of both, if nothing else is said

  channel
  channel
    block 1
";
    assert_eq!(made(settings, "1\n2\n-1\n"), canonical(&P2));
    let settings = "frame\r\n\tsequences 1\r\n\tchannels 2\r\n\ttype 5\r\n";
    let p4 = [5, 1, 2, 0x3F, 0, 3, 0x0A, 1, 3, 0x0A, 1, 5, 0x1E, 2, 7, 8];
    assert_eq!(made(settings, "7\r\n8\r\n"), canonical(&p4));
    // A mark ahead of a text, and a comment that is no UTF-8.
    let folder = Folder::new();
    let settings = folder.file("settings", b"\xEF\xBB\xBFframe # \xB5V\nsequences 1\n");
    let numbers = folder.file("numbers", b"\xEF\xBB\xBF5");
    let made = written(mfer().arg("make").args([settings, numbers]).arg("-"));
    assert_eq!(made, canonical(&[0x1E, 2, 0, 5]));
}

#[test]
fn a_frame_without_channels_has_those_before_it() {
    let settings = "
frame
  sequences 1
  block 2
  type unsigned 8 bits
frame
  sequences 2
frame
  start -7
  sequences 1
frame
  channels 1
  sequences 1
frame
";
    let mut file = vec![4, 1, 2, 0x0A, 1, 3, 0x1E, 2, 1, 2, 0x1E, 4, 3, 4, 5, 6];
    file.extend([7, 1, 0xF9, 0x1E, 2, 7, 8]);
    file.extend([4, 0, 0x0A, 0, 0x1E, 2, 0xFF, 0xFF, 0x1E, 4, 0, 9, 0, 10]);
    let numbers = "1\n2\n3\n4\n5\n6\n7\n8\n-1\n9\n10\n";
    assert_eq!(made(settings, numbers), canonical(&file));
    let starts: Vec<i32> = File::new(&file)
        .frames()
        .unwrap()
        .map(|frame| frame.unwrap().start())
        .collect();
    assert_eq!(starts, [0, 2, -7, -5, -4]);
}

#[test]
fn values_as_a_person_writes_them() {
    let settings = "
frame
  class standard 12 lead ECG
  interval 0.002 s
  resolution 1.25e-6 V
  null -32768
  channel
    lead II
  channel
    lead V1
    offset -1
  channel
    class 40 resting EEG
    lead FP1-A1
    type 7
    offset 1.0
    null not-a-number 0x7FC00001
    interval 5e2 unit 0
    resolution 1 unit 9
";
    let mut file = vec![
        8, 1, 1, 0x0B, 3, 1, 0xFD, 2, 0x0C, 3, 0, 0xF8, 125, 0x12, 2, 0x80, 0,
    ];
    file.extend([5, 1, 3, 0x3F, 0, 3, 9, 1, 2]);
    file.extend([0x3F, 1, 7, 9, 1, 3, 0x0D, 2, 0xFF, 0xFF]);
    file.extend([0x3F, 2, 32, 8, 1, 40, 9, 2, 0x46, 0x4A, 0x0A, 1, 7]);
    file.extend([0x0D, 4, 0x3F, 0x80, 0, 0, 0x12, 4, 0x7F, 0xC0, 0, 1]);
    file.extend([0x0B, 3, 0, 2, 5, 0x0C, 3, 9, 0, 1]);
    file.extend([0x1E, 16, 0x80, 0, 0, 1, 0x7F, 0xC0, 0, 1]);
    file.extend([0, 2, 0x80, 0, 0x80, 0, 0, 0]);
    let numbers = "null\n1\nnull\n2\n-32768\n-0.0\n";
    assert_eq!(made(settings, numbers), canonical(&file));
}

/// What stands ahead of the channels need not fit a channel that has its own.
#[test]
fn settings_that_some_channels_or_none_take() {
    let settings = "
frame
  sequences 1
  null -32768
  lead 1
  class 1
  channel
    lead FP1-A1
    class 40
    type 5
    null -128
  channel
    lead V1
";
    let mut file = vec![8, 1, 1, 0x12, 2, 0x80, 0, 5, 1, 2];
    file.extend([0x3F, 0, 13, 9, 2, 0x46, 0x4A, 8, 1, 40, 0x0A, 1, 5]);
    file.extend([0x12, 1, 0x80, 0x3F, 1, 3, 9, 1, 3, 0x1E, 3, 0x80, 0, 7]);
    assert_eq!(made(settings, "null\n7\n"), canonical(&file));
}

#[test]
fn settings_are_written_so() {
    let octets = [
        &[8, 1, 1, 0x12, 2, 0x80, 0, 5, 1, 2][..],
        &[0x3F, 0, 3, 9, 1, 1, 0x3F, 1, 6, 9, 1, 64, 4, 1, 2],
        &[0x1E, 6, 0, 1, 0, 2, 0, 3, 0x1E, 6, 0, 4, 0, 5, 0, 6],
        &[
            5, 1, 2, 0x0A, 1, 7, 0x0C, 4, 18, 0xFF, 3, 0xE8, 0x12, 0, 0x1E, 0,
        ],
        &[5, 0, 0x1E, 0],
    ];
    let folder = Folder::new();
    let file = folder.file("file", &octets.concat());
    let settings = "\
frame  # 0
  start 0
  sequences 1
  class 1 standard 12 lead ECG
  type signed 16 bits
  interval 1000 Hz
  resolution 1e-6 V
  offset 0x0000
  null 0x8000
  channel  # 0
    block 1
    lead 1 I
  channel  # 1
    block 2
    lead 64 aVF
frame  # 1, channels as in frame 0
  start 1
  sequences 1
frame  # 2
  start 2
  sequences 0
  channels 2
  block 1
  class 1 standard 12 lead ECG
  lead 0 unidentified
  type single
  interval 1000 Hz
  resolution 1000e-1 dyne s m-2 cm-5
  offset 0x00000000
  null none
frame  # 3
  start 2
  sequences 0
  block 1
  class 1 standard 12 lead ECG
  lead 0 unidentified
  type single
  interval 1000 Hz
  resolution 1000e-1 dyne s m-2 cm-5
  offset 0x00000000
  null none
";
    let show = |option: &[&str]| run(mfer().args(["show", "--settings"]).args(option).arg(&file));
    assert_eq!(show(&[]), (settings.into(), "".into(), 0));
    // A frame on its own is whole.
    let first = settings.split("frame  # 1").next().unwrap();
    let second = first.replace("frame  # 0\n  start 0", "frame  # 1\n  start 1");
    assert_eq!(show(&["--frame", "1"]), (second, "".into(), 0));
    let error = format!("mfer: {}: refused 20 at 0: no such frame\n", shown(&file));
    assert_eq!(show(&["--frame", "4"]), ("".into(), error, 1));
}

#[test]
fn files_and_pipes() {
    let folder = Folder::new();
    let settings = folder.file("settings", b"frame\nblock 2\nchannel\nchannel\nblock 1\n");
    let numbers = folder.file("numbers", b"1\n2\n-1\n");
    let raw = folder.file("raw", &[0, 1, 0, 2, 0xFF, 0xFF]);
    let out = folder.path("out");
    let whole = canonical(&P2);
    let answer = run(mfer().arg("make").args([&settings, &numbers, &out]));
    assert_eq!(answer, ("".into(), "".into(), 0));
    assert_eq!(fs::read(&out).unwrap(), whole);
    let answer = run(mfer().args(["make", "--raw"]).args([&settings, &raw, &out]));
    assert_eq!(answer, ("".into(), "".into(), 0));
    assert_eq!(fs::read(&out).unwrap(), whole);
    assert_eq!(folder.names(), ["numbers", "out", "raw", "settings"]);
    let text = fs::read(&settings).unwrap();
    let piped = run_on(mfer().args(["make", "-"]).arg(&numbers).arg("-"), &text);
    assert_eq!(
        (piped.stdout, piped.status.code()),
        (whole.clone(), Some(0))
    );
    let text = fs::read(&numbers).unwrap();
    let piped = run_on(mfer().arg("make").arg(&settings).args(["-", "-"]), &text);
    assert_eq!(
        (piped.stdout, piped.status.code()),
        (whole.clone(), Some(0))
    );
    let octets = fs::read(&raw).unwrap();
    let piped = run_on(
        mfer().arg("make").arg(&settings).args(["-", "-", "--raw"]),
        &octets,
    );
    assert_eq!((piped.stdout, piped.status.code()), (whole, Some(0)));
}

/// As many frames as a file may have, each with its samples.
#[test]
fn frames_4096() {
    let settings =
        "frame\nsequences 1\ntype 3\n".to_string() + &"frame\nsequences 1\n".repeat(4095);
    let numbers: String = (0..4096).map(|n| format!("{}\n", n % 256)).collect();
    let file: Vec<u8> = [0x0A, 1, 3]
        .into_iter()
        .chain((0..4096).flat_map(|n| [0x1E, 1, n as u8]))
        .collect();
    assert_eq!(made(&settings, &numbers), canonical(&file));
}

/// Without frames there are no octets, which is said.
#[test]
fn no_frames() {
    let folder = Folder::new();
    let settings = folder.file("settings", b"# nothing yet\n");
    let numbers = folder.file("numbers", b"");
    let out = folder.path("out");
    let (_, error, status) = run(mfer().arg("make").args([&settings, &numbers, &out]));
    let words = "expected 'frame', found none: the file has no octets";
    assert_eq!(error, format!("mfer: {}: {words}\n", shown(&settings)));
    assert_eq!((fs::read(&out).unwrap(), status), (canonical(&[]), 0));
    for option in ["--settings", "--all", "--raw"] {
        let word = ["samples", "show"][usize::from(option == "--settings")];
        let answer = read(run_on(mfer().args([word, option, "-"]), &[]));
        assert_eq!(answer, ("".into(), "".into(), 0));
    }
}

/// The settings in the help are some.
#[test]
fn the_help_tells_the_truth() {
    let help = String::from_utf8(written(mfer().arg("--help"))).unwrap();
    let begin = help.find("\n  frame ").unwrap();
    let (settings, _) = help[begin..].split_once("\n\n").unwrap();
    let made = made(settings, &"1\n".repeat(500));
    let attributes = File::new(&made).attributes(0, 0).unwrap();
    assert_eq!((attributes.lead, attributes.null), (3, Some(0x8000)));
}

/// The example on the page about settings.
#[test]
fn the_page_tells_the_truth() {
    const PAGE: &str = include_str!("../../../docs/SETTINGS.md");
    let block = |kind: &str| {
        let (_, rest) = PAGE.split_once(&format!("```{kind}\n")).unwrap();
        rest.split_once("```").unwrap().0
    };
    let folder = Folder::new();
    folder.file("ecg.mwf", &made(block("settings"), block("samples")));
    let answer = run(mfer().args(["show", "ecg.mwf"]).current_dir(&folder.0));
    assert_eq!(answer, (block("shown").into(), "".into(), 0));
}
