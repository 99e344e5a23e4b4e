//! What the tests share.
#![allow(dead_code)] // no single test uses all of it

use std::fs;
use std::io::{ErrorKind, Write};
use std::path::{Path, PathBuf};
use std::process::{self, Command, Output, Stdio};
use std::sync::atomic::{AtomicU32, Ordering};

/// A folder of one test's own, removed when the test is over.
pub struct Folder(pub PathBuf);

impl Folder {
    pub fn new() -> Folder {
        static NEXT: AtomicU32 = AtomicU32::new(0);
        loop {
            let number = NEXT.fetch_add(1, Ordering::Relaxed);
            let name = format!("mfer-command-{}-{number}", process::id());
            let folder = Path::new(env!("CARGO_TARGET_TMPDIR")).join(name);
            match fs::create_dir(&folder) {
                // Left behind by a run that was stopped.
                Err(error) if error.kind() == ErrorKind::AlreadyExists => {}
                created => {
                    created.unwrap();
                    return Folder(folder);
                }
            }
        }
    }

    pub fn path(&self, name: &str) -> PathBuf {
        self.0.join(name)
    }

    pub fn file(&self, name: &str, octets: &[u8]) -> PathBuf {
        let path = self.path(name);
        fs::write(&path, octets).unwrap();
        path
    }

    pub fn names(&self) -> Vec<String> {
        let entries = fs::read_dir(&self.0).unwrap();
        let mut names: Vec<String> = entries
            .map(|entry| entry.unwrap().file_name().into_string().unwrap())
            .collect();
        names.sort();
        names
    }
}

impl Drop for Folder {
    fn drop(&mut self) {
        let _ = fs::remove_dir_all(&self.0);
    }
}

/// Document 01's P2: two channels, little-endian.
pub const P2: [u8; 23] = [
    0x01, 0x01, 0x01, 0x04, 0x01, 0x02, 0x05, 0x01, 0x02, 0x3F, 0x01, 0x03, 0x04, 0x01, 0x01, 0x1E,
    0x06, 0x01, 0x00, 0x02, 0x00, 0xFF, 0xFF,
];

/// Document 01's P6: a channel number that is not below the channel count.
pub const P6: [u8; 6] = [0x05, 0x01, 0x02, 0x3F, 0x02, 0x00];

pub fn mfer() -> Command {
    Command::new(env!("CARGO_BIN_EXE_mfer"))
}

pub fn run(command: &mut Command) -> (String, String, i32) {
    read(command.output().unwrap())
}

pub fn read(output: Output) -> (String, String, i32) {
    (
        String::from_utf8(output.stdout).unwrap(),
        String::from_utf8(output.stderr).unwrap(),
        output.status.code().unwrap(),
    )
}

/// Runs with these octets on standard input.
pub fn run_on(command: &mut Command, input: &[u8]) -> Output {
    let mut child = command
        .stdin(Stdio::piped())
        .stdout(Stdio::piped())
        .stderr(Stdio::piped())
        .spawn()
        .unwrap();
    child.stdin.take().unwrap().write_all(input).unwrap();
    child.wait_with_output().unwrap()
}

/// What a command writes, which has to go well and say nothing.
pub fn written(command: &mut Command) -> Vec<u8> {
    let output = command.output().unwrap();
    let said = String::from_utf8(output.stderr).unwrap();
    assert!(
        output.status.success() && said.is_empty(),
        "{command:?}: {said}"
    );
    output.stdout
}

pub fn shown(path: &Path) -> String {
    path.display().to_string()
}
