//! The library's own calls with their numbers, safe on slices and references. The rest of the package gives these numbers types; a host
//! needs this module only for what the types can't say, as a command's number above 7.
//!
//! Every line of the package that Rust can't check is in this file.
//! Nothing holds these declarations against the library but the tests of the package `trials`, which compare every call with an
//! independent model. `host/psic/include/psic.h` declares the same calls for C.

use crate::records::{Core, Source, SourceId};

/// The answer of the search over a lent list.
#[repr(C)]
#[derive(Clone, Copy, Debug, PartialEq, Eq)]
pub struct Found {
    /// Document 01's number, 0 for success.
    pub number: u8,
    /// The position plus one, 0 for no candidate.
    pub position: u16,
}

/// The answer of the count of the ranges that this search looks into.
#[repr(C)]
#[derive(Clone, Copy, Debug, PartialEq, Eq)]
pub struct Ranged {
    /// Document 01's number, 0 for success.
    pub number: u8,
    /// How many ranges, 0 with a refusal.
    pub ranges: u16,
}

/// The answer of the claim of a lent record.
#[repr(C)]
#[derive(Clone, Copy, Debug, PartialEq, Eq)]
pub struct Claimed {
    /// Document 01's number, 0 for success.
    pub number: u8,
    /// The claimed id, 0 with a refusal.
    pub id: SourceId,
}

/// The answer of the calls on a recording.
#[repr(C)]
#[derive(Clone, Copy, Debug, PartialEq, Eq)]
pub struct Report {
    /// The number of the first fault, or 2 for sizes out of range, or 255 for buffers that don't fit; 0 for none of these.
    pub number: u8,
    /// How many commands were written or answered.
    pub count: u16,
    /// The offset at which the fault shows; without one the text's length.
    pub offset: u64,
}

const _: () = assert!(size_of::<Found>() == 4 && size_of::<Claimed>() == 4);
const _: () = assert!(size_of::<Ranged>() == 4);
const _: () = assert!(size_of::<Report>() == 16);

extern "C" {
    fn psic_version() -> u32;
    fn psic_make(n: u16, m: u16, state: *mut u8, state_len: usize) -> u64;
    fn psic_execute(state: *mut u8, state_len: usize, number: u16, at: u16, priority: u16) -> u64;
    fn psic_run(
        state: *mut u8,
        state_len: usize,
        list: *const u8,
        list_len: usize,
        answers: *mut u8,
        answers_len: usize,
    ) -> u64;
    fn psic_highest_in(list: *const Source, list_len: usize) -> Found;
    fn psic_ranges_in(list: *const Source, list_len: usize) -> Ranged;
    fn psic_claim_in_place(core: *mut Core) -> Claimed;
    fn psic_read(
        text: *const u8,
        text_len: usize,
        commands: *mut u8,
        commands_len: usize,
        times: *mut u64,
        times_len: usize,
    ) -> Report;
    fn psic_replay(
        n: u16,
        m: u16,
        text: *const u8,
        text_len: usize,
        state: *mut u8,
        state_len: usize,
        answers: *mut u8,
        answers_len: usize,
    ) -> Report;
    fn psic_write(list: *const u8, list_len: usize, text: *mut u8, text_len: usize) -> u64;
    fn psic_make_routines(
        n: u16,
        m: u16,
        state: *mut u8,
        state_len: usize,
        active: *mut u16,
        active_len: usize,
        holder: *mut u16,
        holder_len: usize,
    ) -> u64;
    fn psic_enter(
        state: *mut u8,
        state_len: usize,
        active: *mut u16,
        active_len: usize,
        holder: *mut u16,
        holder_len: usize,
        core: u16,
    ) -> u64;
    fn psic_exit(
        state: *mut u8,
        state_len: usize,
        active: *mut u16,
        active_len: usize,
        holder: *mut u16,
        holder_len: usize,
        core: u16,
    ) -> u64;
    fn psic_simulate(
        state: *mut u8,
        state_len: usize,
        active: *mut u16,
        active_len: usize,
        holder: *mut u16,
        holder_len: usize,
        list: *const u8,
        list_len: usize,
        answers: *mut u8,
        answers_len: usize,
        table: *mut u16,
        table_len: usize,
    ) -> u64;
}

/// The library's version.
pub fn version() -> u32 {
    // SAFETY: the call takes nothing.
    unsafe { psic_version() }
}

/// A fresh controller of n sources and m cores: number + 256 id + 2^24 cycles, or 255.
pub fn make(n: u16, m: u16, state: &mut [u8]) -> u64 {
    // SAFETY: pointer and length are those of a slice that is lent for the call alone.
    unsafe { psic_make(n, m, state.as_mut_ptr(), state.len()) }
}

/// One command by its number 0 to 7, with the id or core and the priority: number + 256 id + 2^24 cycles, or 255. A trigger that 6 refuses
/// is counted in its source's record, here and in the lists below; no other refusal alters the state.
pub fn execute(state: &mut [u8], number: u16, at: u16, priority: u16) -> u64 {
    // SAFETY: pointer and length are those of a slice that is lent for the call alone.
    unsafe { psic_execute(state.as_mut_ptr(), state.len(), number, at, priority) }
}

/// A list of commands, 5 bytes each, with an answer of 5 bytes for each: how many were taken, or 2^64 - 1.
pub fn run(state: &mut [u8], list: &[u8], answers: &mut [u8]) -> u64 {
    // SAFETY: pointers and lengths are those of three slices; two are lent for the call alone, so that none overlaps another.
    unsafe {
        psic_run(
            state.as_mut_ptr(),
            state.len(),
            list.as_ptr(),
            list.len(),
            answers.as_mut_ptr(),
            answers.len(),
        )
    }
}

/// The search over a lent list.
pub fn highest_in(list: &[Source]) -> Found {
    // SAFETY: pointer and length are those of a slice of records in C's layout, whose bools hold 0 or 1.
    unsafe { psic_highest_in(list.as_ptr(), list.len()) }
}

/// How many ranges of the comparator tree over a lent list that search looks into.
pub fn ranges_in(list: &[Source]) -> Ranged {
    // SAFETY: pointer and length are those of a slice of records in C's layout, whose bools hold 0 or 1.
    unsafe { psic_ranges_in(list.as_ptr(), list.len()) }
}

/// The claim of a lent record.
pub fn claim_in_place(core: &mut Core) -> Claimed {
    // SAFETY: the record is in C's layout and lent for the call alone; the library writes 0 or 1 to its bools.
    unsafe { psic_claim_in_place(core) }
}

/// The commands of a recording, 5 bytes each, and the time of the stamp at whose end each was taken, in the fronts of two buffers. There
/// must be room for as many commands and times as [`crate::recording::room`] says, else 255.
pub fn read(text: &[u8], commands: &mut [u8], times: &mut [u64]) -> Report {
    // SAFETY: pointers and lengths are those of three slices; two are lent for the call alone, so that none overlaps another.
    unsafe {
        psic_read(
            text.as_ptr(),
            text.len(),
            commands.as_mut_ptr(),
            commands.len(),
            times.as_mut_ptr(),
            times.len(),
        )
    }
}

/// The state after the commands of a recording, from a fresh controller of n sources and m cores, and an answer of 5 bytes for each in the
/// front of a buffer. There must be room for as many answers as [`crate::recording::room`] says, and 1,412 bytes for the state, else 255.
pub fn replay(n: u16, m: u16, text: &[u8], state: &mut [u8], answers: &mut [u8]) -> Report {
    // SAFETY: pointers and lengths are those of three slices; two are lent for the call alone, so that none overlaps another.
    unsafe {
        psic_replay(
            n,
            m,
            text.as_ptr(),
            text.len(),
            state.as_mut_ptr(),
            state.len(),
            answers.as_mut_ptr(),
            answers.len(),
        )
    }
}

/// A run of commands, 5 bytes each, as a recording in the front of a buffer: number + 256 length, or 15, or 255.
pub fn write(list: &[u8], text: &mut [u8]) -> u64 {
    // SAFETY: pointers and lengths are those of two slices; one is lent for the call alone, so that they don't overlap.
    unsafe { psic_write(list.as_ptr(), list.len(), text.as_mut_ptr(), text.len()) }
}

/// A fresh simulation of n sources and m cores, in 1,412 bytes for the state, 32 numbers for the active ids and 128 for the last holders:
/// number + 256 id + 2^24 cycles, or 255.
pub fn make_routines(
    n: u16,
    m: u16,
    state: &mut [u8],
    active: &mut [u16],
    holder: &mut [u16],
) -> u64 {
    // SAFETY: pointers and lengths are those of three slices that are lent for the call alone, so that none overlaps another.
    unsafe {
        psic_make_routines(
            n,
            m,
            state.as_mut_ptr(),
            state.len(),
            active.as_mut_ptr(),
            active.len(),
            holder.as_mut_ptr(),
            holder.len(),
        )
    }
}

/// Entry of a routine on a core, without a table in which a handover would be counted: number + 256 id + 2^24 cycles, or 255.
pub fn enter(state: &mut [u8], active: &mut [u16], holder: &mut [u16], core: u16) -> u64 {
    // SAFETY: pointers and lengths are those of three slices that are lent for the call alone, so that none overlaps another.
    unsafe {
        psic_enter(
            state.as_mut_ptr(),
            state.len(),
            active.as_mut_ptr(),
            active.len(),
            holder.as_mut_ptr(),
            holder.len(),
            core,
        )
    }
}

/// Exit of the routine that is active on a core: number + 256 id + 2^24 cycles, or 255.
pub fn exit(state: &mut [u8], active: &mut [u16], holder: &mut [u16], core: u16) -> u64 {
    // SAFETY: pointers and lengths are those of three slices that are lent for the call alone, so that none overlaps another.
    unsafe {
        psic_exit(
            state.as_mut_ptr(),
            state.len(),
            active.as_mut_ptr(),
            active.len(),
            holder.as_mut_ptr(),
            holder.len(),
            core,
        )
    }
}

/// A list of calls on a simulation, 5 bytes each, with an answer of 5 bytes for each, and the handovers in it counted on in a table of
/// 1,024 numbers: how many calls were taken, or 2^64 - 1.
pub fn simulate(
    state: &mut [u8],
    active: &mut [u16],
    holder: &mut [u16],
    list: &[u8],
    answers: &mut [u8],
    table: &mut [u16],
) -> u64 {
    // SAFETY: pointers and lengths are those of six slices; five are lent for the call alone, so that none overlaps another.
    unsafe {
        psic_simulate(
            state.as_mut_ptr(),
            state.len(),
            active.as_mut_ptr(),
            active.len(),
            holder.as_mut_ptr(),
            holder.len(),
            list.as_ptr(),
            list.len(),
            answers.as_mut_ptr(),
            answers.len(),
            table.as_mut_ptr(),
            table.len(),
        )
    }
}
