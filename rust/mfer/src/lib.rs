//! Reads medical waveform files in the MFER format, writes them in canonical form, and makes new ones.
//!
//! Everything is answered by a proved library with a C interface; this crate makes its answers
//! Rust's. A [`File`] is octets in memory. A question on it answers a `Result`, whose error is a
//! [`Refusal`]: a number, and the offset of the item that earned it.
//!
//! ```
//! use mfer::{File, Value};
//!
//! // Two channels, little-endian: two samples in each block of channel 0, one of channel 1.
//! let octets = [
//!     0x01, 0x01, 0x01, 0x04, 0x01, 0x02, 0x05, 0x01, 0x02, 0x3F, 0x01, 0x03, 0x04, 0x01, 0x01,
//!     0x1E, 0x06, 0x01, 0x00, 0x02, 0x00, 0xFF, 0xFF,
//! ];
//! let file = File::new(&octets);
//! assert_eq!(file.check()?, 1);
//! for frame in file.frames()? {
//!     for channel in frame?.channels() {
//!         let values: Result<Vec<Value>, _> = channel?.values().collect();
//!         println!("{:?}", values?);
//!     }
//! }
//! # let channel = file.channel(0, 0)?;
//! # let values: Vec<Value> = channel.values().map(Result::unwrap).collect();
//! # assert_eq!(values, [Value::Whole(1), Value::Whole(2)]);
//! # Ok::<(), mfer::Refusal>(())
//! ```
//!
//! # What a question costs
//!
//! The loop above goes through the file's items twice, once to check the file and once from frame to
//! frame, and reads each sample once. A single question, as [`File::attributes`] or [`File::sample`],
//! goes through all items, whatever it asks for, and steps over the waveforms: where many things are
//! asked, [`File::frames`] is the way. Where bits will do, [`Frame::samples`] reads a frame in one call.
//!
//! # Samples that are not there
//!
//! A recorder that stops in the middle of a frame leaves fewer samples than the frame declares. What is
//! lacking is no data: [`Channel::samples_there`] says how many samples of a channel are there, iterators end
//! with the last of them, and [`File::sample`] tells [`Value::NoData`] of the others.
//!
//! # Making a file
//!
//! A [`Recorder`] makes a file over any [`std::io::Write`], frame after frame, of [`FrameSettings`] and
//! samples. [`Frame::settings`] hands back what was read.
#![deny(unsafe_code)]
#![warn(missing_docs)]

pub mod ffi;

mod attributes;
mod file;
mod iterators;
mod recorder;
mod refusal;
mod samples;
mod settings;
mod value;
#[cfg(test)]
mod vocabulary;
mod walk;

pub use attributes::{Attributes, DataType, Scale};
pub use file::File;
pub use iterators::{ByteOrder, Channel, Channels, Frame, Frames};
pub use recorder::{RecordError, Recorder};
pub use refusal::Refusal;
pub use samples::{Bits, Values};
pub use settings::{ChannelSettings, FrameSettings};
pub use value::{Sample, Value};

/// The README's examples are tests too.
#[cfg(doctest)]
#[doc = include_str!("../../../README.md")]
struct Readme;
