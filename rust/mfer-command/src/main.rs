//! The command `mfer`: checks medical waveform files, shows what they hold, lists samples, writes
//! the canonical form and makes files.
#![forbid(unsafe_code)]

mod arguments;
mod canonical;
mod failure;
mod input;
mod lacking;
mod lines;
mod make;
mod names;
mod output;
mod progress;
mod samples;
mod settings;
mod show;
mod source;
mod table;
mod values;

use arguments::Command;
use failure::Failure;
use std::ffi::OsString;
use std::io::{self, BufWriter, Write};
use std::process::ExitCode;

fn main() -> ExitCode {
    let words = std::env::args_os().skip(1).collect();
    let outcome = run(words);
    match &outcome {
        Ok(()) | Err(Failure::ClosedPipe) => ExitCode::SUCCESS,
        Err(failure) => {
            failure.report();
            failure.status()
        }
    }
}

fn run(words: Vec<OsString>) -> Result<(), Failure> {
    let command = arguments::parse(words)?;
    let mut out = BufWriter::with_capacity(1 << 16, io::stdout().lock());
    let outcome = match command {
        Command::Help => print(&mut out, arguments::HELP),
        Command::Version => print(&mut out, concat!("mfer ", env!("CARGO_PKG_VERSION"), "\n")),
        Command::Check { files } => check(&files, &mut out),
        Command::Show { file, frame } => show::show(&file, frame, &mut out),
        Command::ShowSettings { file, frame } => show::show_settings(&file, frame, &mut out),
        Command::Samples {
            file,
            frame,
            channel,
            csv,
        } => samples::samples(&file, frame, channel, csv, &mut out),
        Command::AllSamples { file, frame } => samples::all(&file, frame, &mut out),
        Command::RawSamples { file, frame } => samples::raw(&file, frame, &mut out),
        Command::Canonical { input, output } => canonical::canonical(&input, &output, &mut out),
        Command::Make {
            settings,
            samples,
            raw,
            output,
        } => make::make(&settings, &samples, raw, &output, &mut out),
    };
    let flushed = out.flush().map_err(Failure::output);
    outcome.and(flushed)
}

fn print(out: &mut impl Write, text: &str) -> Result<(), Failure> {
    out.write_all(text.as_bytes()).map_err(Failure::output)
}

/// One line a file, the refusal in words beside it on standard error. The worst that happened is
/// the outcome; a file that cannot be read does not keep the others from being checked.
fn check(files: &[OsString], out: &mut impl Write) -> Result<(), Failure> {
    let mut outcome = Ok(());
    for name in files {
        let checked = check_one(name, files.len() > 1, out);
        match checked {
            Ok(()) => {}
            Err(Failure::ClosedPipe) => return checked,
            Err(failure) => {
                out.flush().map_err(Failure::output)?;
                failure.report();
                outcome = Err(failure.worse_than(outcome));
            }
        }
    }
    outcome.map_err(Failure::reported)
}

fn check_one(name: &OsString, prefixed: bool, out: &mut impl Write) -> Result<(), Failure> {
    let octets = input::read(name)?;
    if prefixed {
        write!(out, "{}: ", input::shown(name)).map_err(Failure::output)?;
    }
    match mfer::File::new(&octets).check() {
        Ok(frames) => writeln!(out, "frames {frames}").map_err(Failure::output),
        Err(refusal) => {
            let mfer::Refusal { number, place } = refusal;
            writeln!(out, "refused {number} at {place}").map_err(Failure::output)?;
            Err(Failure::refused(name, refusal))
        }
    }
}
