//! The calls on records that a host keeps in tables of its own.

use crate::answer::Refusal;
use crate::raw;
use crate::records::{Core, Source, SourceId};

/// The position of the first highest candidate (pending, not delivered, not masked) of a list of at most 128 records, whatever they
/// hold and have counted. A longer list is refused by [`Refusal::BadSize`].
///
/// ```
/// use psic::{highest_in, Source};
/// let waiting = |priority, dropped| Source { configured: 1, masked: false, pending: true, delivered: false, priority, dropped };
/// assert_eq!(highest_in(&[waiting(3, 0), waiting(5, 0), waiting(5, 7)]), Ok(Some(1)));
/// assert_eq!(highest_in(&[]), Ok(None));
/// ```
pub fn highest_in(list: &[Source]) -> Result<Option<usize>, Refusal> {
    let found = raw::highest_in(list);
    match found.number {
        0 => Ok(usize::from(found.position).checked_sub(1)),
        number => Err(Refusal::answered(number)),
    }
}

/// How many ranges of the comparator tree over such a list [`highest_in`] looks into: those with a candidate in them. The tree halves
/// the list until one record is left, and an odd range's left half is the larger. With d the least number for which 2^d is at least the
/// list's length, they are at most d + 1 for each candidate.
///
/// ```
/// use psic::{ranges_in, Source};
/// let waiting = Source { configured: 1, masked: false, pending: true, delivered: false, priority: 3, dropped: 0 };
/// let idle = Source { pending: false, priority: 0, ..waiting };
/// assert_eq!(ranges_in(&[waiting, idle, idle]), Ok(3));
/// assert_eq!(ranges_in(&[idle, idle, waiting]), Ok(2));
/// assert_eq!(ranges_in(&[]), Ok(0));
/// ```
pub fn ranges_in(list: &[Source]) -> Result<u16, Refusal> {
    let ranged = raw::ranges_in(list);
    match ranged.number {
        0 => Ok(ranged.ranges),
        number => Err(Refusal::answered(number)),
    }
}

/// Claims the request in a core record's box: the core takes the box's priority, and the box is emptied. [`Refusal::EmptyBox`] if it is
/// empty; [`Refusal::Unsound`] if it is filled and its id isn't 1 to 128, or its priority isn't 1 to 511 or isn't above the configured one,
/// or it is dirty. A refusal leaves the record as lent.
///
/// ```
/// use psic::{claim_in_place, Core, MessageBox, Refusal, SourceId};
/// let message = MessageBox { filled: true, dirty: false, source: SourceId(7), priority: 3 };
/// let mut core = Core { configured: 1, message };
/// assert_eq!(claim_in_place(&mut core), Ok(SourceId(7)));
/// assert_eq!(core.configured, 3);
/// assert_eq!(claim_in_place(&mut core), Err(Refusal::EmptyBox));
/// ```
pub fn claim_in_place(core: &mut Core) -> Result<SourceId, Refusal> {
    let claimed = raw::claim_in_place(core);
    match claimed.number {
        0 => Ok(claimed.id),
        number => Err(Refusal::answered(number)),
    }
}
