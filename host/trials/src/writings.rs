//! Runs of commands written by the proved library, by the wrapper and by the writers that the library's speed is held against, behind the
//! reference's trait.

use psic::{bytes, raw, Refusal, COMMAND_SIZE};
use psic_reference::writing::compare::Writer;
use psic_reference::writing::lists::List;

use crate::peer::writing;
use crate::wrapper::typed;

/// The library's call on a list's bytes.
#[derive(Clone, Copy, Debug)]
pub struct Library;

/// The wrapper's function on a list's bytes.
#[derive(Clone, Copy, Debug)]
pub struct Wrapper;

/// The wrapper's function on typed commands, which gives a text of its own. It can't be handed a list that holds no run.
#[derive(Clone, Copy, Debug)]
pub struct Typed;

/// The writer in plain Rust.
#[derive(Clone, Copy, Debug)]
pub struct Plain;

/// The one that copies lines from tables.
#[derive(Clone, Copy, Debug)]
pub struct ByTables;

/// A list as docs/ENCODING.md lays it out.
pub fn list_bytes(list: &List) -> Vec<u8> {
    let mut laid_out = Vec::with_capacity(COMMAND_SIZE * (list.entries.len() + 1));
    for entry in &list.entries {
        laid_out.push(entry.number);
        laid_out.extend(entry.at.to_le_bytes());
        laid_out.extend(entry.priority.to_le_bytes());
    }
    let cut = [4, 1, 0, 0, 0];
    laid_out.extend(&cut[..list.cut]);
    laid_out
}

/// An answer's number, and the length beside it.
pub fn unpacked(answer: u64) -> (u8, usize) {
    (answer as u8, (answer >> 8) as usize)
}

impl Writer for Library {
    fn write(&self, list: &List, buffer: &mut [u8]) -> Option<(u8, usize)> {
        Some(unpacked(raw::write(&list_bytes(list), buffer)))
    }
}

impl Writer for Plain {
    fn write(&self, list: &List, buffer: &mut [u8]) -> Option<(u8, usize)> {
        Some(unpacked(writing::plain(&list_bytes(list), buffer)))
    }
}

impl Writer for ByTables {
    fn write(&self, list: &List, buffer: &mut [u8]) -> Option<(u8, usize)> {
        Some(unpacked(writing::by_tables(&list_bytes(list), buffer)))
    }
}

impl Writer for Wrapper {
    fn write(&self, list: &List, buffer: &mut [u8]) -> Option<(u8, usize)> {
        let written = bytes::write(&list_bytes(list), buffer);
        Some(written.map_or_else(|refusal| (refusal.number(), 0), |length| (0, length)))
    }
}

impl Writer for Typed {
    /// The text is put into the buffer if it fits.
    fn write(&self, list: &List, buffer: &mut [u8]) -> Option<(u8, usize)> {
        let commands: Vec<psic::Command> = list.commands()?.into_iter().map(typed).collect();
        let text = match psic::write(&commands) {
            Ok(text) => text,
            Err(refusal) => return Some((refusal.number(), 0)),
        };
        Some(match buffer.get_mut(..text.len()) {
            Some(front) => {
                front.copy_from_slice(&text);
                (0, text.len())
            }
            None => (Refusal::Unwritable.number(), 0),
        })
    }
}
