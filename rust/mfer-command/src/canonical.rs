//! `mfer canonical`: the canonical form of a file.

use crate::failure::Failure;
use crate::input::read;
use crate::output;
use mfer::File;
use std::ffi::OsStr;
use std::io::Write;

pub fn canonical(input: &OsStr, output: &OsStr, out: &mut impl Write) -> Result<(), Failure> {
    let octets = read(input)?;
    let written = File::new(&octets)
        .canonical_vec()
        .map_err(|refusal| Failure::refused(input, refusal))?;
    output::write(output, &written, out)
}
