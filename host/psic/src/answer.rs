//! What a call answers, and the numbers for no.

use std::error::Error;
use std::fmt;

use crate::records::SourceId;

/// The bytes of an answer in a list of answers: the number, the claimed id, the cycles (docs/ENCODING.md).
pub const ANSWER_SIZE: usize = 5;

/// What an accepted command answers.
#[derive(Clone, Copy, Debug, PartialEq, Eq, Hash)]
pub struct Answer {
    /// The claimed id. Only a claim and a routine's entry have one.
    pub claimed: Option<SourceId>,
    /// The cycles of settling: retractions plus deliveries.
    pub cycles: u16,
}

impl Answer {
    /// An answer of the library by its three numbers.
    pub(crate) fn from_numbers(number: u8, id: u16, cycles: u16) -> Result<Answer, Refusal> {
        if number != 0 {
            return Err(Refusal::answered(number));
        }
        let claimed = (id != 0).then_some(SourceId(id));
        Ok(Answer { claimed, cycles })
    }

    /// An answer of a single call: number + 256 id + 2^24 cycles.
    pub(crate) fn unpacked(packed: u64) -> Result<Answer, Refusal> {
        Answer::from_numbers(packed as u8, (packed >> 8) as u16, (packed >> 24) as u16)
    }

    /// An answer of a list, as [`crate::bytes::run`] and [`crate::raw::simulate`] write it.
    ///
    /// # Panics
    ///
    /// If the first byte is no number of the library.
    pub fn from_bytes(bytes: [u8; ANSWER_SIZE]) -> Result<Answer, Refusal> {
        let [number, a, b, c, d] = bytes;
        Answer::from_numbers(
            number,
            u16::from_le_bytes([a, b]),
            u16::from_le_bytes([c, d]),
        )
    }
}

/// For people: `accepted, id 4, 1 cycle`.
impl fmt::Display for Answer {
    fn fmt(&self, f: &mut fmt::Formatter<'_>) -> fmt::Result {
        write!(f, "accepted, ")?;
        if let Some(id) = self.claimed {
            write!(f, "id {id}, ")?;
        }
        let plural = if self.cycles == 1 { "" } else { "s" };
        write!(f, "{} cycle{plural}", self.cycles)
    }
}

/// Document 01's numbers for no, each with its row: "given exactly when, no earlier check refusing". They are checked in the order 1,
/// then 3 or 4, then 5, then 6, 7, 8 or 9. Document 02's 15 refuses to write a run. A refused call leaves everything as it was, but for 6:
/// the trigger is counted in the source's record.
#[repr(u8)]
#[non_exhaustive]
#[derive(Clone, Copy, Debug, PartialEq, Eq, Hash)]
pub enum Refusal {
    /// 1: "the state isn't sound, or a filled lent record is bad"; in a simulation "also unless each claimed request is active on exactly
    /// one core, at that core's configured priority and last held by it, all other cores idle at 0 and every last holder is below m".
    Unsound = 1,
    /// 2: "a controller is asked for with n or m out of range, or a lent list is too long".
    BadSize = 2,
    /// 3: "core is m or above".
    BadCore = 3,
    /// 4: "id is 0 or above n".
    BadSource = 4,
    /// 5: "source priority 0 or above top; core priority above top".
    BadPriority = 5,
    /// 6: "trigger of a pending source". It is counted: [`crate::Controller::dropped`].
    Pending = 6,
    /// 7: "claim on an empty box, in a state or in a lent record"; "entry on an empty box".
    EmptyBox = 7,
    /// 8: "redeliver or complete of a request that isn't claimed"; "exit on an idle core".
    NotClaimed = 8,
    /// 9, document 02's: "set source priority on a pending source", also to the priority that it has.
    PriorityInUse = 9,
    /// 15: "a run of over 65,535 commands, a used value too large for its variable or a full text longer than the lent buffer".
    Unwritable = 15,
    /// 255, none of the papers': bytes that encode no state or no run, or buffers that don't fit. A [`crate::Controller`] never answers it,
    /// nor do [`crate::Routines`].
    Unreadable = 255,
}

impl Refusal {
    /// All refusals, by number.
    pub const ALL: [Refusal; 11] = [
        Refusal::Unsound,
        Refusal::BadSize,
        Refusal::BadCore,
        Refusal::BadSource,
        Refusal::BadPriority,
        Refusal::Pending,
        Refusal::EmptyBox,
        Refusal::NotClaimed,
        Refusal::PriorityInUse,
        Refusal::Unwritable,
        Refusal::Unreadable,
    ];

    /// The number: the papers', or 255.
    pub fn number(self) -> u8 {
        self as u8
    }

    /// The refusal of a number, if it is one.
    pub fn from_number(number: u8) -> Option<Refusal> {
        Refusal::ALL
            .into_iter()
            .find(|refusal| refusal.number() == number)
    }

    /// The refusal in words.
    pub fn in_words(self) -> &'static str {
        match self {
            Refusal::Unsound => "the state isn't sound, or the lent record is bad",
            Refusal::BadSize => "a size is out of range, or the lent list is too long",
            Refusal::BadCore => "there is no such core",
            Refusal::BadSource => "there is no such source",
            Refusal::BadPriority => "the priority is out of range",
            Refusal::Pending => "the source is pending already",
            Refusal::EmptyBox => "the box is empty",
            Refusal::NotClaimed => "the request isn't claimed",
            Refusal::PriorityInUse => "the source is pending, so its priority stays",
            Refusal::Unwritable => {
                "there are over 65,535 commands, a value is too large for its variable, or the text for its buffer"
            }
            Refusal::Unreadable => "the bytes can't be read",
        }
    }

    /// The refusal of a number that the library answered.
    pub(crate) fn answered(number: u8) -> Refusal {
        Refusal::from_number(number)
            .unwrap_or_else(|| panic!("libpsic.a answered {number}: it is of another version"))
    }
}

/// For people: `refused by 7 (the box is empty)`.
impl fmt::Display for Refusal {
    fn fmt(&self, f: &mut fmt::Formatter<'_>) -> fmt::Result {
        write!(f, "refused by {} ({})", self.number(), self.in_words())
    }
}

impl Error for Refusal {}
