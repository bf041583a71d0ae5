//! Slips of the calls on a simulation of the routines.

use psic::{ANSWER_SIZE, COMMAND_SIZE};

use super::{counts_of, flip_last, put_counts, Counts, NO_COUNTS, SLIP};

/// What is altered of an accepted call, or of a list; where its name says so, of one on an unsound simulation.
#[derive(Clone, Copy, Debug, PartialEq, Eq)]
pub enum Slip {
    MakeNumber,
    MakeState,
    MakeActive,
    MakeHolder,
    EnterNumber,
    EnterId,
    EnterCycles,
    EnterState,
    /// The counts of dropped triggers are lost.
    EnterCountsLost,
    EnterActive,
    EnterHolder,
    ExitNumber,
    ExitCycles,
    ExitState,
    ExitCountsLost,
    ExitActive,
    ExitHolder,
    SimulateNumber,
    SimulateId,
    SimulateCycles,
    SimulateState,
    /// A list leaves the counts of dropped triggers as they were.
    SimulateDropped,
    SimulateCountsLost,
    SimulateActive,
    SimulateHolder,
    SimulateTable,
    /// The count of a list that a number ends which names no call is one more.
    SimulateCount,
    SimulateBehindAnswers,
    SimulateStateOfUnsoundStart,
    SimulateTableOfUnsoundStart,
    /// The second answer, and not the first.
    SimulateNumberOfUnsoundStart,
}

impl Slip {
    pub const OF_MAKING: [Slip; 4] = [
        Slip::MakeNumber,
        Slip::MakeState,
        Slip::MakeActive,
        Slip::MakeHolder,
    ];

    pub const OF_ENTRIES: [Slip; 7] = [
        Slip::EnterNumber,
        Slip::EnterId,
        Slip::EnterCycles,
        Slip::EnterState,
        Slip::EnterCountsLost,
        Slip::EnterActive,
        Slip::EnterHolder,
    ];

    pub const OF_EXITS: [Slip; 6] = [
        Slip::ExitNumber,
        Slip::ExitCycles,
        Slip::ExitState,
        Slip::ExitCountsLost,
        Slip::ExitActive,
        Slip::ExitHolder,
    ];

    pub const OF_LISTS: [Slip; 14] = [
        Slip::SimulateNumber,
        Slip::SimulateId,
        Slip::SimulateCycles,
        Slip::SimulateState,
        Slip::SimulateDropped,
        Slip::SimulateCountsLost,
        Slip::SimulateActive,
        Slip::SimulateHolder,
        Slip::SimulateTable,
        Slip::SimulateCount,
        Slip::SimulateBehindAnswers,
        Slip::SimulateStateOfUnsoundStart,
        Slip::SimulateTableOfUnsoundStart,
        Slip::SimulateNumberOfUnsoundStart,
    ];

    /// Whether the slip is in memory that the typed functions don't hand out, or in lists that they don't hand in.
    pub fn is_behind(self) -> bool {
        [Slip::SimulateCount, Slip::SimulateBehindAnswers].contains(&self)
    }
}

fn slip() -> Option<Slip> {
    match SLIP.get() {
        Some(super::Slip::Routines(slip)) => Some(slip),
        _ => None,
    }
}

extern "C" {
    fn __real_psic_make_routines(
        n: u16,
        m: u16,
        state: *mut u8,
        state_len: usize,
        active: *mut u16,
        active_len: usize,
        holder: *mut u16,
        holder_len: usize,
    ) -> u64;
    fn __real_psic_enter(
        state: *mut u8,
        state_len: usize,
        active: *mut u16,
        active_len: usize,
        holder: *mut u16,
        holder_len: usize,
        core: u16,
    ) -> u64;
    fn __real_psic_exit(
        state: *mut u8,
        state_len: usize,
        active: *mut u16,
        active_len: usize,
        holder: *mut u16,
        holder_len: usize,
        core: u16,
    ) -> u64;
    fn __real_psic_simulate(
        state: *mut u8,
        state_len: usize,
        active: *mut u16,
        active_len: usize,
        holder: *mut u16,
        holder_len: usize,
        list: *const u8,
        list_len: usize,
        answers: *mut u8,
        answers_len: usize,
        table: *mut u16,
        table_len: usize,
    ) -> u64;
}

/// Flips a bit of the last of so many numbers.
///
/// # Safety
///
/// The pointer is to so many numbers, which nobody else uses meanwhile.
unsafe fn flip_word(words: *mut u16, len: usize) {
    // SAFETY: the buffer has that length.
    unsafe { *words.add(len - 1) ^= 1 };
}

#[no_mangle]
unsafe extern "C" fn __wrap_psic_make_routines(
    n: u16,
    m: u16,
    state: *mut u8,
    state_len: usize,
    active: *mut u16,
    active_len: usize,
    holder: *mut u16,
    holder_len: usize,
) -> u64 {
    // SAFETY: the arguments are passed on as they came, and the buffers of an accepted call are a simulation's.
    unsafe {
        let packed = __real_psic_make_routines(
            n, m, state, state_len, active, active_len, holder, holder_len,
        );
        match slip() {
            Some(Slip::MakeNumber) if packed == 0 => return 2,
            Some(Slip::MakeState) if packed == 0 => flip_last(state),
            Some(Slip::MakeActive) if packed == 0 => flip_word(active, active_len),
            Some(Slip::MakeHolder) if packed == 0 => flip_word(holder, holder_len),
            _ => {}
        }
        packed
    }
}

#[no_mangle]
unsafe extern "C" fn __wrap_psic_enter(
    state: *mut u8,
    state_len: usize,
    active: *mut u16,
    active_len: usize,
    holder: *mut u16,
    holder_len: usize,
    core: u16,
) -> u64 {
    // SAFETY: the arguments are passed on as they came, and the buffers of an accepted call are a simulation's.
    unsafe {
        let packed = __real_psic_enter(
            state, state_len, active, active_len, holder, holder_len, core,
        );
        if packed & 0xff != 0 {
            return packed;
        }
        match slip() {
            Some(Slip::EnterNumber) => return packed + 8,
            Some(Slip::EnterId) => return packed + (1 << 8),
            Some(Slip::EnterCycles) => return packed + (1 << 24),
            Some(Slip::EnterState) => flip_last(state),
            Some(Slip::EnterCountsLost) => put_counts(state, &NO_COUNTS),
            Some(Slip::EnterActive) => flip_word(active, active_len),
            Some(Slip::EnterHolder) => flip_word(holder, holder_len),
            _ => {}
        }
        packed
    }
}

#[no_mangle]
unsafe extern "C" fn __wrap_psic_exit(
    state: *mut u8,
    state_len: usize,
    active: *mut u16,
    active_len: usize,
    holder: *mut u16,
    holder_len: usize,
    core: u16,
) -> u64 {
    // SAFETY: the arguments are passed on as they came, and the buffers of an accepted call are a simulation's.
    unsafe {
        let packed = __real_psic_exit(
            state, state_len, active, active_len, holder, holder_len, core,
        );
        if packed & 0xff != 0 {
            return packed;
        }
        match slip() {
            Some(Slip::ExitNumber) => return packed + 8,
            Some(Slip::ExitCycles) => return packed + (1 << 24),
            Some(Slip::ExitState) => flip_last(state),
            Some(Slip::ExitCountsLost) => put_counts(state, &NO_COUNTS),
            Some(Slip::ExitActive) => flip_word(active, active_len),
            Some(Slip::ExitHolder) => flip_word(holder, holder_len),
            _ => {}
        }
        packed
    }
}

#[no_mangle]
unsafe extern "C" fn __wrap_psic_simulate(
    state: *mut u8,
    state_len: usize,
    active: *mut u16,
    active_len: usize,
    holder: *mut u16,
    holder_len: usize,
    list: *const u8,
    list_len: usize,
    answers: *mut u8,
    answers_len: usize,
    table: *mut u16,
    table_len: usize,
) -> u64 {
    // SAFETY: the arguments are passed on as they came; the buffers of a call that took some are a simulation's, and theirs.
    unsafe {
        let counts = counts_of(state, state_len);
        let taken = __real_psic_simulate(
            state,
            state_len,
            active,
            active_len,
            holder,
            holder_len,
            list,
            list_len,
            answers,
            answers_len,
            table,
            table_len,
        );
        let ended = taken != u64::MAX && COMMAND_SIZE * (taken as usize) < list_len;
        if ended && slip() == Some(Slip::SimulateCount) {
            return taken + 1;
        }
        if taken != 0 && taken != u64::MAX {
            let unsound = *answers == 1;
            let (active, holder) = ((active, active_len), (holder, holder_len));
            alter_answers(answers, taken as usize, ended);
            alter_counts(state, &counts, unsound);
            alter_memory(state, active, holder, (table, table_len), unsound);
        }
        taken
    }
}

/// Alters the answers of a list.
///
/// # Safety
///
/// The pointer is to at least one answer, and to room for one more if a number ended the list.
unsafe fn alter_answers(answers: *mut u8, taken: usize, ended: bool) {
    // SAFETY: as above.
    unsafe {
        let behind = answers.add(ANSWER_SIZE * taken);
        let last = behind.sub(ANSWER_SIZE);
        match slip() {
            Some(Slip::SimulateNumber) => *last = if *last == 0 { 8 } else { 0 },
            Some(Slip::SimulateId) if *last == 0 => *last.add(1) += 1,
            Some(Slip::SimulateCycles) if *last == 0 => *last.add(3) += 1,
            Some(Slip::SimulateBehindAnswers) if ended => *behind = 0,
            Some(Slip::SimulateNumberOfUnsoundStart) if *answers == 1 && taken > 1 => {
                *answers.add(ANSWER_SIZE) = 0
            }
            _ => {}
        }
    }
}

/// Alters the counts after a list, whose start had these and was sound or not.
///
/// # Safety
///
/// The pointer is to a state's buffer, which nobody else uses meanwhile.
unsafe fn alter_counts(state: *mut u8, before: &Counts, unsound: bool) {
    // SAFETY: as above.
    unsafe {
        match slip() {
            Some(Slip::SimulateDropped) => put_counts(state, before),
            Some(Slip::SimulateCountsLost) if !unsound => put_counts(state, &NO_COUNTS),
            _ => {}
        }
    }
}

/// Alters the memory after a list, whose start was sound or not.
///
/// # Safety
///
/// The pointers are to a simulation's buffers, with their lengths, which nobody else uses meanwhile.
unsafe fn alter_memory(
    state: *mut u8,
    active: (*mut u16, usize),
    holder: (*mut u16, usize),
    table: (*mut u16, usize),
    unsound: bool,
) {
    // SAFETY: as above.
    unsafe {
        match slip() {
            Some(Slip::SimulateState) => flip_last(state),
            Some(Slip::SimulateActive) => flip_word(active.0, active.1),
            Some(Slip::SimulateHolder) => flip_word(holder.0, holder.1),
            Some(Slip::SimulateTable) => flip_word(table.0, table.1),
            Some(Slip::SimulateStateOfUnsoundStart) if unsound => flip_last(state),
            Some(Slip::SimulateTableOfUnsoundStart) if unsound => flip_word(table.0, table.1),
            _ => {}
        }
    }
}
