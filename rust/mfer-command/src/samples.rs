//! `mfer samples`: the values of a channel in a frame, or all samples in file order.

use crate::failure::Failure;
use crate::input::{chosen, read, shown};
use crate::lacking;
use crate::progress::Progress;
use crate::values;
use mfer::{Attributes, Channel, File, Refusal, Value};
use std::ffi::OsStr;
use std::io::{self, Write};

pub fn samples(
    name: &OsStr,
    frame: u32,
    channel: u32,
    csv: bool,
    out: &mut impl Write,
) -> Result<(), Failure> {
    let octets = read(name)?;
    let refused = |refusal| Failure::refused(name, refusal);
    let channel = File::new(&octets)
        .channel(frame, channel)
        .map_err(refused)?;
    let count = channel.samples_there();
    let mut progress = Progress::beside_output("writing samples");
    if csv {
        writeln!(out, "number,value").map_err(Failure::output)?;
    }
    for (number, value) in (0..).zip(channel.values()) {
        let value = value.map_err(refused)?;
        if csv {
            write!(out, "{number},").map_err(Failure::output)?;
        }
        values::write(out, value).map_err(Failure::output)?;
        if number % 65_536 == 0 {
            progress.step(number, count);
        }
    }
    match lacking::of_channel(&channel) {
        0 => Ok(()),
        count => writeln!(out, "{}", lacking::words(count)).map_err(Failure::output),
    }
}

/// What is written of a frame: its samples there one after another, and behind them how many are not
/// there, if some are not.
enum Piece<'a, T> {
    Sample(T, &'a Attributes),
    Lacking { frame: u32, count: u64 },
}

/// All samples of all frames, or of the frame of the number `only`, in file order, one a line.
pub fn all(name: &OsStr, only: Option<u32>, out: &mut impl Write) -> Result<(), Failure> {
    let octets = read(name)?;
    let write = |piece: Piece<Value>| match piece {
        Piece::Sample(value, _) => values::write(out, value),
        Piece::Lacking { count, .. } => writeln!(out, "{}", lacking::words(count)),
    };
    in_file_order(name, File::new(&octets), only, Channel::values, write)
}

/// The same as big-endian octets. How many are not there is said on standard error.
pub fn raw(name: &OsStr, only: Option<u32>, out: &mut impl Write) -> Result<(), Failure> {
    let octets = read(name)?;
    let write = |piece: Piece<u64>| match piece {
        Piece::Sample(bits, attributes) => {
            out.write_all(&bits.to_be_bytes()[8 - usize::from(attributes.width)..])
        }
        Piece::Lacking { frame, count } => {
            let (file, words) = (shown(name), lacking::words(count));
            let _ = writeln!(io::stderr(), "mfer: {file}: frame {frame}: {words}");
            Ok(())
        }
    };
    in_file_order(name, File::new(&octets), only, Channel::bits, write)
}

/// Frame after frame, in a frame sequence after sequence, in a sequence the block of each channel.
fn in_file_order<'a, T, I: Iterator<Item = Result<T, Refusal>>>(
    name: &OsStr,
    file: File<'a>,
    only: Option<u32>,
    samples: impl Fn(&Channel<'a>) -> I,
    mut write: impl FnMut(Piece<T>) -> io::Result<()>,
) -> Result<(), Failure> {
    let refused = |refusal| Failure::refused(name, refusal);
    let mut progress = Progress::beside_output("writing samples");
    for frame in chosen(file, only).map_err(refused)?.1 {
        let frame = frame.map_err(refused)?;
        let with_samples = |channel: Channel<'a>| (samples(&channel), *channel.attributes());
        let channels = frame.channels().map(|channel| channel.map(with_samples));
        let mut channels: Vec<_> = channels.collect::<Result<_, _>>().map_err(refused)?;
        // Sequences that no octet is there for are not gone through.
        let begun = (frame.waveform().len() as u64).div_ceil(frame.sequence_octets());
        for sequence in 0..begun.min(frame.sequences().into()) {
            for (samples, attributes) in &mut channels {
                for sample in samples.take(attributes.block as usize) {
                    let sample = Piece::Sample(sample.map_err(refused)?, attributes);
                    write(sample).map_err(Failure::output)?;
                }
            }
            if sequence % 4096 == 0 {
                let done = frame.waveform().start as u64 + sequence * frame.sequence_octets();
                progress.step(done, file.octets().len() as u64);
            }
        }
        let (frame, count) = (frame.number(), lacking::of_frame(&frame).map_err(refused)?);
        if count > 0 {
            write(Piece::Lacking { frame, count }).map_err(Failure::output)?;
        }
    }
    Ok(())
}
