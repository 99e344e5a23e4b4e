//! The programs over the proved crates, `bench` and `rewrite`, beside this second implementation: the same generated files, the same
//! answers. `tests/run` builds the programs first.

use second::generator::file;
use second::reader::{check, Refusal};
use second::shrink::hex;
use second::writer;
use std::io::Write;
use std::path::PathBuf;
use std::process::{Command, Stdio};

const SEEDS: u64 = 1_500;

/// The octets that both programs take at most.
const LONGEST: usize = 60_000;

/// The octets that `rewrite` has room for.
const ROOM: usize = 120_000;

fn said(program: &str, input: &[u8]) -> Vec<u8> {
    let path = PathBuf::from(env!("CARGO_MANIFEST_DIR"))
        .join("../../target/bin")
        .join(program);
    let mut child = Command::new(&path)
        .stdin(Stdio::piped())
        .stdout(Stdio::piped())
        .spawn()
        .unwrap_or_else(|error| panic!("{}: {error}", path.display()));
    let mut stdin = child.stdin.take().unwrap();
    let input = input.to_vec();
    let writes = std::thread::spawn(move || stdin.write_all(&input));
    let output = child.wait_with_output().unwrap();
    writes.join().unwrap().unwrap();
    assert!(output.status.success(), "{program}: {}", output.status);
    output.stdout
}

fn refused(refusal: Refusal) -> Vec<u8> {
    format!("refused {} at {}\n", refusal.number, refusal.place).into_bytes()
}

fn files() -> impl Iterator<Item = Vec<u8>> {
    (0..SEEDS).map(file).filter(|file| file.len() <= LONGEST)
}

#[test]
fn check_answers_the_same() {
    for file in files() {
        let expected = match check(&file) {
            Ok(frames) => format!("frames {frames}\n").into_bytes(),
            Err(refusal) => refused(refusal),
        };
        assert_eq!(said("bench", &file), expected, "{}", hex(&file));
    }
}

#[test]
fn canonical_files_are_the_same() {
    let mut written = 0;
    for file in files() {
        let mut out = vec![0; ROOM];
        let answer = said("rewrite", &file);
        match writer::canonical(&file, &mut out) {
            Ok(length) => {
                assert!(answer == out[..length], "{}", hex(&file));
                if length <= LONGEST {
                    assert!(said("rewrite", &answer) == answer, "again: {}", hex(&file));
                }
                written += u64::from(length > 0);
            }
            Err(refusal) => assert_eq!(answer, refused(refusal), "{}", hex(&file)),
        }
    }
    assert!(written > SEEDS / 5, "{written} files are written out");
}
