//! The book: what the commands and their answers alone say about a controller.

use crate::records::{Command, CoreNumber, SourceId};

/// The book. It is fed each command, its arguments and the number and id it answered, nothing
/// else.
#[derive(Clone, Debug, PartialEq, Eq, Hash)]
pub struct Ledger {
    /// For each core a configured priority, first 0.
    pub cores: Vec<u16>,
    /// For each source its entry; the source with id i is at i-1.
    pub sources: Vec<SourceEntry>,
}

/// What the book holds for a source.
#[derive(Clone, Copy, Debug, PartialEq, Eq, Hash)]
pub struct SourceEntry {
    /// A configured priority, first 1.
    pub configured: u16,
    /// A mask, first on.
    pub masked: bool,
    /// At most one request.
    pub request: Option<Request>,
}

/// A request, open or claimed, with its own priority.
#[derive(Clone, Copy, Debug, PartialEq, Eq, Hash)]
pub struct Request {
    /// The request's own priority.
    pub priority: u16,
    /// Claimed, not open.
    pub claimed: bool,
}

impl Ledger {
    /// The book of a fresh controller.
    pub fn reset(n: u16, m: u16) -> Ledger {
        let entry = SourceEntry {
            configured: 1,
            masked: true,
            request: None,
        };
        Ledger {
            cores: vec![0; usize::from(m)],
            sources: vec![entry; usize::from(n)],
        }
    }

    /// Enters a command with the number and id it answered. A command answering a number other
    /// than 0 changes nothing. An accepted command that the book can't follow is an error.
    pub fn enter(&mut self, command: Command, number: u8, id: u16) -> Result<(), String> {
        if number != 0 {
            return Ok(());
        }
        match command {
            // Setting a priority writes it; mask and unmask set the mask.
            Command::SetSourcePriority(id, priority) => self.entry(id)?.configured = priority,
            Command::SetCorePriority(core, priority) => *self.core(core)? = priority,
            Command::Mask(id) => self.entry(id)?.masked = true,
            Command::Unmask(id) => self.entry(id)?.masked = false,
            // Trigger opens a request at its source's priority.
            Command::Trigger(id) => {
                let entry = self.entry(id)?;
                entry.request = Some(Request {
                    priority: entry.configured,
                    claimed: false,
                });
            }
            // Claim makes the answered id's request claimed and writes that request's priority to
            // the core.
            Command::Claim(core) => {
                let request = self.request(SourceId(id))?;
                request.claimed = true;
                let priority = request.priority;
                *self.core(core)? = priority;
            }
            // Redeliver opens it again; complete ends it.
            Command::Redeliver(id) => self.request(id)?.claimed = false,
            Command::Complete(id) => {
                self.request(id)?;
                self.entry(id)?.request = None;
            }
        }
        Ok(())
    }

    /// The open requests: id, priority, and whether the source is masked.
    pub fn open_requests(&self) -> impl Iterator<Item = (SourceId, u16, bool)> + '_ {
        self.sources
            .iter()
            .enumerate()
            .filter_map(|(position, entry)| {
                let request = entry.request.filter(|request| !request.claimed)?;
                let id = SourceId(position as u16 + 1);
                Some((id, request.priority, entry.masked))
            })
    }

    fn core(&mut self, core: CoreNumber) -> Result<&mut u16, String> {
        self.cores
            .get_mut(usize::from(core.0))
            .ok_or_else(|| format!("accepted with {core:?}, which the book doesn't have"))
    }

    fn entry(&mut self, id: SourceId) -> Result<&mut SourceEntry, String> {
        usize::from(id.0)
            .checked_sub(1)
            .and_then(|position| self.sources.get_mut(position))
            .ok_or_else(|| format!("accepted with {id:?}, which the book doesn't have"))
    }

    fn request(&mut self, id: SourceId) -> Result<&mut Request, String> {
        self.entry(id)?
            .request
            .as_mut()
            .ok_or_else(|| format!("accepted with {id:?}, which has no request in the book"))
    }
}
