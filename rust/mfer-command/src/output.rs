//! Writing a file whole, or to standard output.

use crate::failure::Failure;
use crate::progress::Progress;
use std::ffi::{OsStr, OsString};
use std::fs::{self, OpenOptions};
use std::io::{self, Write};
use std::path::{Path, PathBuf};
use std::process;

/// Octets written in one go.
const CHUNK: usize = 1 << 24;

/// Writes the octets to the file of this name, or to standard output, `out`, for `-`.
pub fn write(name: &OsStr, octets: &[u8], out: &mut impl Write) -> Result<(), Failure> {
    match name == "-" {
        true => write_all(out, octets).map_err(Failure::output),
        false => put(Path::new(name), octets).map_err(|error| Failure::file(name, error)),
    }
}

/// Writes a file beside `path` and renames it, so that `path` is whole at every moment. What is no
/// plain file (a device, a pipe) cannot be replaced and is written to.
fn put(path: &Path, octets: &[u8]) -> io::Result<()> {
    let (path, permissions) = match fs::metadata(path) {
        Ok(there) if !there.is_file() => {
            let mut file = OpenOptions::new().write(true).open(path)?;
            return write_all(&mut file, octets);
        }
        // The file a link names is replaced, not the link.
        Ok(there) => (fs::canonicalize(path)?, Some(there.permissions())),
        Err(_) => (path.to_path_buf(), None),
    };
    let (beside, mut file) = Beside::create(&path)?;
    if let Some(permissions) = permissions {
        file.set_permissions(permissions)?;
    }
    write_all(&mut file, octets)?;
    file.sync_all()?;
    beside.rename(&path)
}

fn write_all(to: &mut impl Write, octets: &[u8]) -> io::Result<()> {
    let mut progress = Progress::new("writing");
    let mut done = 0;
    for chunk in octets.chunks(CHUNK) {
        to.write_all(chunk)?;
        done += chunk.len() as u64;
        progress.step(done, octets.len() as u64);
    }
    to.flush()
}

/// The file that is written first; removed unless it is renamed.
struct Beside {
    path: PathBuf,
    renamed: bool,
}

impl Beside {
    /// A new file in the same folder, under a name that no other run has.
    fn create(path: &Path) -> io::Result<(Beside, fs::File)> {
        let Some(name) = path.file_name() else {
            let words = "not the name of a file";
            return Err(io::Error::new(io::ErrorKind::InvalidInput, words));
        };
        let mut beside = OsString::from(".");
        beside.push(name);
        beside.push(format!(".{}.part", process::id()));
        let path = path.with_file_name(beside);
        let file = OpenOptions::new()
            .write(true)
            .create_new(true)
            .open(&path)?;
        let renamed = false;
        Ok((Beside { path, renamed }, file))
    }

    fn rename(mut self, to: &Path) -> io::Result<()> {
        fs::rename(&self.path, to)?;
        self.renamed = true;
        Ok(())
    }
}

impl Drop for Beside {
    fn drop(&mut self) {
        if !self.renamed {
            let _ = fs::remove_file(&self.path);
        }
    }
}
