//! A slip between the library and its caller. The linker hands each call of the library to a function of this file (build.rs), which
//! passes it on to the library and, where a test asks for it, alters what the library answered. A comparison that doesn't look at the
//! library's own answers finds no slip.

pub mod routines;

use std::cell::Cell;

use psic::raw::{Claimed, Found, Ranged, Report};
use psic::{Core, Source, ANSWER_SIZE, COMMAND_SIZE, MAX_SOURCES, STATE_SIZE};

/// What of a call's answer is altered, if the call was accepted; or, where its name says so, if a trigger was dropped or a list's start was
/// unsound.
#[derive(Clone, Copy, Debug, PartialEq, Eq)]
pub enum Slip {
    MakeNumber,
    MakeState,
    ExecuteNumber,
    ExecuteId,
    ExecuteCycles,
    ExecuteState,
    /// A trigger that 6 refuses leaves its source's count.
    ExecuteDropped,
    /// An accepted command loses the counts of dropped triggers.
    ExecuteCountsLost,
    RunNumber,
    RunCycles,
    RunState,
    /// A list leaves the counts of dropped triggers as they were.
    RunDropped,
    /// It loses them.
    RunCountsLost,
    /// The count of a list that a number above 7 ends is one more.
    RunCount,
    RunBehindAnswers,
    RunStateOfUnsoundStart,
    /// The second answer, and not the first.
    RunNumberOfUnsoundStart,
    SearchNumber,
    SearchPosition,
    RangesNumber,
    RangesCount,
    ClaimNumber,
    ClaimId,
    ClaimRecord,
    ReadNumber,
    ReadOffset,
    ReadCount,
    ReadCommand,
    ReadTime,
    ReadBehindCommands,
    ReadBehindTimes,
    ReplayNumber,
    ReplayOffset,
    ReplayCount,
    ReplayAnswer,
    ReplayState,
    /// A replay ends with no count of dropped triggers, which texts of all kinds seldom have.
    ReplayCountsLost,
    ReplayStateOfRefusedSizes,
    ReplayBehindAnswers,
    WriteNumber,
    WriteLength,
    WriteText,
    WriteBehindText,
    WriteBufferOfRefused,
    /// Of the calls on a simulation of the routines.
    Routines(routines::Slip),
}

impl Slip {
    /// Of the calls on a state and on lent records.
    pub const OF_COMMANDS: [Slip; 24] = [
        Slip::MakeNumber,
        Slip::MakeState,
        Slip::ExecuteNumber,
        Slip::ExecuteId,
        Slip::ExecuteCycles,
        Slip::ExecuteState,
        Slip::ExecuteDropped,
        Slip::ExecuteCountsLost,
        Slip::RunNumber,
        Slip::RunCycles,
        Slip::RunState,
        Slip::RunDropped,
        Slip::RunCountsLost,
        Slip::RunCount,
        Slip::RunBehindAnswers,
        Slip::RunStateOfUnsoundStart,
        Slip::RunNumberOfUnsoundStart,
        Slip::SearchNumber,
        Slip::SearchPosition,
        Slip::RangesNumber,
        Slip::RangesCount,
        Slip::ClaimNumber,
        Slip::ClaimId,
        Slip::ClaimRecord,
    ];

    /// Of the calls on a recording.
    pub const OF_RECORDINGS: [Slip; 14] = [
        Slip::ReadNumber,
        Slip::ReadOffset,
        Slip::ReadCount,
        Slip::ReadCommand,
        Slip::ReadTime,
        Slip::ReadBehindCommands,
        Slip::ReadBehindTimes,
        Slip::ReplayNumber,
        Slip::ReplayOffset,
        Slip::ReplayCount,
        Slip::ReplayAnswer,
        Slip::ReplayState,
        Slip::ReplayStateOfRefusedSizes,
        Slip::ReplayBehindAnswers,
    ];

    /// Of the call that writes a run.
    pub const OF_WRITINGS: [Slip; 5] = [
        Slip::WriteNumber,
        Slip::WriteLength,
        Slip::WriteText,
        Slip::WriteBehindText,
        Slip::WriteBufferOfRefused,
    ];

    /// Whether the slip is in memory that the typed functions don't hand out, or in lists that they don't hand in.
    pub fn is_behind(self) -> bool {
        let behind = [
            Slip::RunCount,
            Slip::RunBehindAnswers,
            Slip::ReadBehindCommands,
            Slip::ReadBehindTimes,
            Slip::ReplayStateOfRefusedSizes,
            Slip::ReplayBehindAnswers,
            Slip::WriteBehindText,
            Slip::WriteBufferOfRefused,
        ];
        behind.contains(&self)
    }
}

thread_local! {
    static SLIP: Cell<Option<Slip>> = const { Cell::new(None) };
}

/// Does something with a slip in this thread's calls of the library.
pub fn with_slip<T>(slip: Slip, act: impl FnOnce() -> T) -> T {
    SLIP.set(Some(slip));
    let outcome = act();
    SLIP.set(None);
    outcome
}

fn slips(slip: Slip) -> bool {
    SLIP.get() == Some(slip)
}

extern "C" {
    fn __real_psic_make(n: u16, m: u16, state: *mut u8, state_len: usize) -> u64;
    fn __real_psic_execute(
        state: *mut u8,
        state_len: usize,
        number: u16,
        at: u16,
        priority: u16,
    ) -> u64;
    fn __real_psic_run(
        state: *mut u8,
        state_len: usize,
        list: *const u8,
        list_len: usize,
        answers: *mut u8,
        answers_len: usize,
    ) -> u64;
    fn __real_psic_highest_in(list: *const Source, list_len: usize) -> Found;
    fn __real_psic_ranges_in(list: *const Source, list_len: usize) -> Ranged;
    fn __real_psic_claim_in_place(core: *mut Core) -> Claimed;
    fn __real_psic_read(
        text: *const u8,
        text_len: usize,
        commands: *mut u8,
        commands_len: usize,
        times: *mut u64,
        times_len: usize,
    ) -> Report;
    fn __real_psic_replay(
        n: u16,
        m: u16,
        text: *const u8,
        text_len: usize,
        state: *mut u8,
        state_len: usize,
        answers: *mut u8,
        answers_len: usize,
    ) -> Report;
    fn __real_psic_write(list: *const u8, list_len: usize, text: *mut u8, text_len: usize) -> u64;
}

/// Flips a bit of the last core's box priority.
///
/// # Safety
///
/// The pointer is to a state's buffer, which nobody else uses meanwhile.
unsafe fn flip_last(state: *mut u8) {
    // SAFETY: the buffer has STATE_SIZE bytes.
    unsafe { *state.add(STATE_SIZE - 1) ^= 1 };
}

/// The counts of dropped triggers of all sources.
type Counts = [[u8; 2]; MAX_SOURCES];

/// No trigger is dropped.
const NO_COUNTS: Counts = [[0; 2]; MAX_SOURCES];

/// Where the count of each source lies in a state's bytes.
fn counts_at() -> impl Iterator<Item = usize> {
    (0..MAX_SOURCES).map(|i| 4 + 9 * i + 7)
}

/// The counts of a state, none of a buffer of another length.
///
/// # Safety
///
/// The pointer is to so many bytes.
unsafe fn counts_of(state: *const u8, len: usize) -> Counts {
    let mut counts = NO_COUNTS;
    if len == STATE_SIZE {
        for (count, at) in counts.iter_mut().zip(counts_at()) {
            // SAFETY: the buffer has STATE_SIZE bytes.
            *count = unsafe { [*state.add(at), *state.add(at + 1)] };
        }
    }
    counts
}

/// Gives a state these counts.
///
/// # Safety
///
/// The pointer is to a state's buffer, which nobody else uses meanwhile.
unsafe fn put_counts(state: *mut u8, counts: &Counts) {
    for (&[low, high], at) in counts.iter().zip(counts_at()) {
        // SAFETY: the buffer has STATE_SIZE bytes.
        unsafe {
            *state.add(at) = low;
            *state.add(at + 1) = high;
        }
    }
}

#[no_mangle]
unsafe extern "C" fn __wrap_psic_make(n: u16, m: u16, state: *mut u8, state_len: usize) -> u64 {
    // SAFETY: the arguments are passed on as they came, and the buffer of an accepted call is a state's.
    unsafe {
        let packed = __real_psic_make(n, m, state, state_len);
        if packed == 0 && slips(Slip::MakeState) {
            flip_last(state);
        }
        if packed == 0 && slips(Slip::MakeNumber) {
            return 2;
        }
        packed
    }
}

#[no_mangle]
unsafe extern "C" fn __wrap_psic_execute(
    state: *mut u8,
    state_len: usize,
    number: u16,
    at: u16,
    priority: u16,
) -> u64 {
    // SAFETY: the arguments are passed on as they came, and the buffer of a call that is accepted, or refused by 6, is a state's.
    unsafe {
        let counts = counts_of(state, state_len);
        let packed = __real_psic_execute(state, state_len, number, at, priority);
        if packed == 6 && slips(Slip::ExecuteDropped) {
            put_counts(state, &counts);
        }
        if packed & 0xff != 0 {
            return packed;
        }
        if slips(Slip::ExecuteState) {
            flip_last(state);
        }
        if slips(Slip::ExecuteCountsLost) {
            put_counts(state, &NO_COUNTS);
        }
        match SLIP.get() {
            Some(Slip::ExecuteNumber) => packed + 8,
            Some(Slip::ExecuteId) => packed + (1 << 8),
            Some(Slip::ExecuteCycles) => packed + (1 << 24),
            _ => packed,
        }
    }
}

#[no_mangle]
unsafe extern "C" fn __wrap_psic_run(
    state: *mut u8,
    state_len: usize,
    list: *const u8,
    list_len: usize,
    answers: *mut u8,
    answers_len: usize,
) -> u64 {
    // SAFETY: the arguments are passed on as they came; the buffers of a call that took commands are a state's and theirs.
    unsafe {
        let counts = counts_of(state, state_len);
        let taken = __real_psic_run(state, state_len, list, list_len, answers, answers_len);
        let ended = taken != u64::MAX && COMMAND_SIZE * (taken as usize) < list_len;
        if ended && slips(Slip::RunCount) {
            return taken + 1;
        }
        if taken == 0 || taken == u64::MAX {
            return taken;
        }
        let behind = answers.add(ANSWER_SIZE * taken as usize);
        let last = behind.sub(ANSWER_SIZE);
        let unsound = *answers == 1;
        match SLIP.get() {
            Some(Slip::RunState) => flip_last(state),
            Some(Slip::RunDropped) => put_counts(state, &counts),
            Some(Slip::RunCountsLost) if !unsound => put_counts(state, &NO_COUNTS),
            Some(Slip::RunNumber) => *last = if *last == 0 { 8 } else { 0 },
            Some(Slip::RunCycles) if *last == 0 => *last.add(3) += 1,
            Some(Slip::RunBehindAnswers) if ended => *behind = 0,
            Some(Slip::RunStateOfUnsoundStart) if unsound => flip_last(state),
            Some(Slip::RunNumberOfUnsoundStart) if unsound && taken > 1 => {
                *answers.add(ANSWER_SIZE) = 0
            }
            _ => {}
        }
        taken
    }
}

#[no_mangle]
unsafe extern "C" fn __wrap_psic_highest_in(list: *const Source, list_len: usize) -> Found {
    // SAFETY: the arguments are passed on as they came.
    let mut found = unsafe { __real_psic_highest_in(list, list_len) };
    if found.number == 0 && slips(Slip::SearchPosition) {
        found.position += 1;
    }
    if found.number == 0 && slips(Slip::SearchNumber) {
        found.number = 2;
    }
    found
}

#[no_mangle]
unsafe extern "C" fn __wrap_psic_ranges_in(list: *const Source, list_len: usize) -> Ranged {
    // SAFETY: the arguments are passed on as they came.
    let mut ranged = unsafe { __real_psic_ranges_in(list, list_len) };
    if ranged.number == 0 && slips(Slip::RangesCount) {
        ranged.ranges += 1;
    }
    if ranged.number == 0 && slips(Slip::RangesNumber) {
        ranged.number = 2;
    }
    ranged
}

#[no_mangle]
unsafe extern "C" fn __wrap_psic_claim_in_place(core: *mut Core) -> Claimed {
    // SAFETY: the argument is passed on as it came, and lent for the call.
    let mut claimed = unsafe { __real_psic_claim_in_place(core) };
    if claimed.number == 0 && slips(Slip::ClaimRecord) {
        // SAFETY: as above.
        unsafe { (*core).configured ^= 1 };
    }
    if claimed.number == 0 && slips(Slip::ClaimId) {
        claimed.id.0 += 1;
    }
    if claimed.number == 0 && slips(Slip::ClaimNumber) {
        claimed.number = 7;
    }
    claimed
}

#[no_mangle]
unsafe extern "C" fn __wrap_psic_read(
    text: *const u8,
    text_len: usize,
    commands: *mut u8,
    commands_len: usize,
    times: *mut u64,
    times_len: usize,
) -> Report {
    // SAFETY: the arguments are passed on as they came; what is altered lies within the buffers, by their lengths.
    unsafe {
        let mut report = __real_psic_read(text, text_len, commands, commands_len, times, times_len);
        let count = usize::from(report.count);
        match SLIP.get() {
            Some(Slip::ReadNumber) if report.number == 11 => report.number = 14,
            Some(Slip::ReadOffset) if report.number == 11 => report.offset += 1,
            Some(Slip::ReadCount) if count > 0 => report.count -= 1,
            Some(Slip::ReadCommand) if count > 0 => *commands.add(COMMAND_SIZE * count - 4) ^= 1,
            Some(Slip::ReadTime) if count > 0 => *times.add(count - 1) += 1,
            Some(Slip::ReadBehindCommands) if COMMAND_SIZE * count < commands_len => {
                *commands.add(COMMAND_SIZE * count) = 0
            }
            Some(Slip::ReadBehindTimes) if count < times_len => *times.add(count) = 0,
            _ => {}
        }
        report
    }
}

#[no_mangle]
unsafe extern "C" fn __wrap_psic_replay(
    n: u16,
    m: u16,
    text: *const u8,
    text_len: usize,
    state: *mut u8,
    state_len: usize,
    answers: *mut u8,
    answers_len: usize,
) -> Report {
    // SAFETY: the arguments are passed on as they came; what is altered lies within the buffers, by their lengths.
    unsafe {
        let mut report =
            __real_psic_replay(n, m, text, text_len, state, state_len, answers, answers_len);
        let count = usize::from(report.count);
        match SLIP.get() {
            Some(Slip::ReplayNumber) if report.number == 11 => report.number = 14,
            Some(Slip::ReplayOffset) if report.number == 11 => report.offset += 1,
            Some(Slip::ReplayCount) if count > 0 => report.count -= 1,
            Some(Slip::ReplayAnswer) if count > 0 => {
                let last = answers.add(ANSWER_SIZE * (count - 1));
                *last = if *last == 0 { 8 } else { 0 };
            }
            Some(Slip::ReplayState) if report.number == 0 => flip_last(state),
            Some(Slip::ReplayCountsLost) if report.number == 0 => put_counts(state, &NO_COUNTS),
            Some(Slip::ReplayStateOfRefusedSizes) if report.number == 2 => flip_last(state),
            Some(Slip::ReplayBehindAnswers) if ANSWER_SIZE * count < answers_len => {
                *answers.add(ANSWER_SIZE * count) = 0
            }
            _ => {}
        }
        report
    }
}

#[no_mangle]
unsafe extern "C" fn __wrap_psic_write(
    list: *const u8,
    list_len: usize,
    text: *mut u8,
    text_len: usize,
) -> u64 {
    // SAFETY: the arguments are passed on as they came; what is altered lies within the buffer, by its length and the text's.
    unsafe {
        let answer = __real_psic_write(list, list_len, text, text_len);
        let (accepted, length) = (answer & 0xff == 0, (answer >> 8) as usize);
        match SLIP.get() {
            Some(Slip::WriteNumber) if answer == 15 => return 255,
            Some(Slip::WriteLength) if accepted => return answer - 256,
            Some(Slip::WriteText) if accepted => *text.add(length - 2) ^= 1,
            Some(Slip::WriteBehindText) if accepted && length < text_len => *text.add(length) = 0,
            Some(Slip::WriteBufferOfRefused) if !accepted && text_len > 0 => *text = 0,
            _ => {}
        }
        answer
    }
}
