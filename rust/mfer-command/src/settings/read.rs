//! The frames that a text of settings describes.

use super::draft::{Described, Draft};
use crate::failure::Failure;
use crate::lines::{quoted, Lines};
use mfer::{File, Refusal};
use std::ffi::OsStr;

/// The frames of a text in their order.
pub fn read(name: &OsStr) -> Result<Vec<Described>, Failure> {
    let mut lines = Lines::open(name)?;
    let mut frames = Vec::new();
    let mut draft: Option<Draft> = None;
    while let Some(line) = lines.next()? {
        let Some((word, value)) = split(&line) else {
            continue;
        };
        let number = lines.number();
        match &mut draft {
            _ if word == "frame" => {
                let before = draft.replace(Draft::new(number, &value));
                finish(before, false, &mut frames, name)?;
                if frames.len() == File::MAX_FRAMES as usize {
                    return Err(many_frames(name));
                }
            }
            Some(draft) => draft.take(number, &word, value),
            None => {
                let words = format!("expected 'frame' first, found {}", quoted(&word));
                return Err(lines.wrong(&words));
            }
        }
    }
    finish(draft, true, &mut frames, name)?;
    Ok(frames)
}

/// What the library would say of one frame more. A text is not read on to have it said.
fn many_frames(name: &OsStr) -> Failure {
    let refusal = Refusal {
        number: Refusal::MANY_FRAMES,
        place: 0,
    };
    Failure::refused_in(name, &format!("frame {}", File::MAX_FRAMES), refusal)
}

/// The first word of a line and those behind it, but for a comment.
fn split(line: &str) -> Option<(String, String)> {
    let mut words = line.split('#').next()?.split_whitespace();
    let word = words.next()?.into();
    let value: Vec<&str> = words.collect();
    Some((word, value.join(" ")))
}

/// Adds the frame of a draft, if there is one, to those before it.
fn finish(
    draft: Option<Draft>,
    last: bool,
    frames: &mut Vec<Described>,
    name: &OsStr,
) -> Result<(), Failure> {
    let Some(draft) = draft else { return Ok(()) };
    let described = draft.described(frames.last(), last);
    let described = described.map_err(|wrong| wrong.failure(name, frames.len()))?;
    frames.push(described);
    Ok(())
}
