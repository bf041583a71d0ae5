//! The simulation of the interrupt routines: handovers, refusals, damaged memory, and the example of docs/ENCODING.md.

use psic::{
    raw, Answer, CoreId, Handovers, Refusal, RoutineCall, Routines, SourceId, ANSWER_SIZE,
    COMMAND_SIZE, MAX_CORES, MAX_SOURCES, ROUTINES_SIZE, STATE_SIZE,
};

const CORE_0: CoreId = CoreId(0);
const CORE_1: CoreId = CoreId(1);

/// Every source unmasked, its priority its id.
fn start(n: u16, m: u16) -> Routines {
    let mut routines = Routines::new(n, m).expect("sizes in range");
    for id in (1..=n).map(SourceId) {
        routines.set_source_priority(id, id.0).expect("accepted");
        routines.unmask(id).expect("accepted");
    }
    routines
}

/// The calls of these lines, each accepted.
#[track_caller]
fn accepted(routines: &mut Routines, handovers: &mut Handovers, lines: &str) -> Vec<Answer> {
    let calls: Vec<RoutineCall> = lines.lines().map(|line| line.parse().unwrap()).collect();
    let answers = routines.simulate(&calls, handovers);
    answers.into_iter().map(|answer| answer.unwrap()).collect()
}

/// Request 1 runs on core 0, is interrupted there by 3, and is next claimed by core 1.
const HANDOVER: &str =
    "trigger 1\nenter on core 0\ntrigger 2\nenter on core 1\ntrigger 3\nenter on core 0\n\
                        exit on core 1\nenter on core 1";

/// Three sources on two cores after it, and its table.
fn handed_over() -> (Routines, Handovers) {
    let (mut routines, mut handovers) = (start(3, 2), Handovers::default());
    accepted(&mut routines, &mut handovers, HANDOVER);
    (routines, handovers)
}

/// The table with these counts and no other.
fn table(counts: &[(u16, u16, u16)]) -> Handovers {
    let mut handovers = Handovers::default();
    for &(row, column, count) in counts {
        handovers.counts[usize::from(row)][usize::from(column)] = count;
    }
    handovers
}

#[test]
fn a_request_claimed_by_another_core_is_a_handover() {
    let (routines, handovers) = handed_over();
    assert_eq!(handovers, table(&[(0, 1, 1)]));
    assert_eq!(routines.active(CORE_0), Some(SourceId(3)));
    assert_eq!(routines.active(CORE_1), Some(SourceId(1)));
    assert_eq!(routines.last_holder(SourceId(1)), Some(CORE_1));
    assert_eq!(routines.last_holder(SourceId(3)), Some(CORE_0));
    assert_eq!(
        routines.to_string(),
        "[3,1]  active [3,1]  1: software  3: software"
    );
    assert_eq!(handovers.seen().collect::<Vec<_>>(), [(CORE_0, CORE_1, 1)]);
    assert_eq!(handovers.get(CORE_0, CORE_1), 1);
    assert_eq!(handovers.get(CORE_1, CORE_0), 0);
    assert_eq!(handovers.get(CoreId(32), CORE_1), 0);
    assert_eq!(handovers.get(CORE_0, CoreId(32)), 0);
}

#[test]
fn there_and_back_are_two_handovers() {
    let (mut routines, mut handovers) = handed_over();
    let back = "trigger 2\nenter on core 1\nexit on core 0\nenter on core 0";
    let answers = accepted(&mut routines, &mut handovers, back);
    assert_eq!(answers[3].claimed, Some(SourceId(1)));
    assert_eq!(handovers, table(&[(0, 1, 1), (1, 0, 1)]));
}

#[test]
fn a_request_that_returns_to_its_core_is_no_handover() {
    let (mut routines, mut handovers) = (start(3, 1), Handovers::default());
    let returned =
        "trigger 1\nenter on core 0\ntrigger 2\nenter on core 0\nexit on core 0\nenter on core 0";
    let answers = accepted(&mut routines, &mut handovers, returned);
    assert_eq!(answers[5].claimed, Some(SourceId(1)));
    assert_eq!(handovers, Handovers::default());
}

#[test]
fn a_new_trigger_is_a_new_request() {
    let (mut routines, mut handovers) = (start(3, 2), Handovers::default());
    accepted(
        &mut routines,
        &mut handovers,
        "trigger 1\nenter on core 0\nexit on core 0",
    );
    assert_eq!(routines.last_holder(SourceId(1)), Some(CORE_0));
    let again = "trigger 3\nenter on core 0\ntrigger 1\nenter on core 1";
    accepted(&mut routines, &mut handovers, again);
    assert_eq!(routines.active(CORE_1), Some(SourceId(1)));
    assert_eq!(handovers, Handovers::default());
}

#[test]
fn a_count_is_held_at_65535() {
    let mut handovers = table(&[(0, 1, 65_534), (31, 31, 7)]);
    for _ in 0..2 {
        accepted(&mut start(3, 2), &mut handovers, HANDOVER);
        assert_eq!(handovers, table(&[(0, 1, 65_535), (31, 31, 7)]));
    }
}

#[test]
fn sizes_out_of_range_are_refused() {
    for (n, m) in [(0, 1), (129, 1), (1, 0), (1, 33)] {
        assert_eq!(Routines::new(n, m), Err(Refusal::BadSize), "{n} {m}");
    }
}

#[test]
fn a_refused_call_changes_nothing() {
    let (mut routines, mut handovers) = handed_over();
    accepted(&mut routines, &mut handovers, "exit on core 0\ntrigger 2");
    let (before, counted) = (routines.clone(), handovers.clone());
    assert_eq!(
        before.to_string(),
        "[2,1]  active [-,1]  1: software  2: box 0"
    );
    for (line, refusal) in [
        ("enter on core 2", Refusal::BadCore),
        ("exit on core 2", Refusal::BadCore),
        ("enter on core 1", Refusal::EmptyBox),
        ("exit on core 0", Refusal::NotClaimed),
        ("trigger 4", Refusal::BadSource),
        ("mask 0", Refusal::BadSource),
        ("unmask 4", Refusal::BadSource),
        ("set source 1 to 8", Refusal::BadPriority),
        ("set source 1 to 1", Refusal::PriorityInUse),
    ] {
        let call: RoutineCall = line.parse().expect("a call");
        assert_eq!(routines.call(call, &mut handovers), Err(refusal), "{line}");
        assert_eq!((&routines, &handovers), (&before, &counted), "{line}");
    }
}

/// A running request, and one in a box: the trigger is counted, and nothing else changes.
#[test]
fn a_dropped_trigger_is_counted() {
    let (mut routines, mut handovers) = handed_over();
    accepted(&mut routines, &mut handovers, "exit on core 0\ntrigger 2");
    let (before, counted) = (routines.clone(), handovers.clone());
    for (id, at) in [(1, 11), (2, 20)] {
        let mut expected = before.clone();
        for times in 1..=3 {
            let call = RoutineCall::Trigger(SourceId(id));
            let answer = routines.call(call, &mut handovers);
            assert_eq!(answer, Err(Refusal::Pending));
            expected = edited(&expected, &[(at, times)]);
            assert_eq!((&routines, &handovers), (&expected, &counted));
        }
        routines = before.clone();
    }
}

/// By the method that has the call's name.
fn by_method(
    routines: &mut Routines,
    call: RoutineCall,
    handovers: &mut Handovers,
) -> Result<Answer, Refusal> {
    match call {
        RoutineCall::SetSourcePriority(id, priority) => routines.set_source_priority(id, priority),
        RoutineCall::Mask(id) => routines.mask(id),
        RoutineCall::Unmask(id) => routines.unmask(id),
        RoutineCall::Trigger(id) => routines.trigger(id),
        RoutineCall::Enter(core) => routines.enter(core, handovers),
        RoutineCall::Exit(core) => routines.exit(core),
        _ => panic!("{call} has no method"),
    }
}

/// Calls on three sources and two cores, some refused, in a mix that the seed decides.
fn mixed_calls(mut seed: u32) -> Vec<RoutineCall> {
    let mut below = |limit: u32| {
        seed = seed.wrapping_mul(1_664_525).wrapping_add(1_013_904_223);
        ((seed >> 16) % limit) as u16
    };
    let mut call = || {
        let (id, core) = (SourceId(1 + below(4)), CoreId(below(3)));
        match below(8) {
            0 => RoutineCall::SetSourcePriority(id, below(9)),
            1 => RoutineCall::Mask(id),
            2 => RoutineCall::Unmask(id),
            3 | 4 => RoutineCall::Trigger(id),
            5 | 6 => RoutineCall::Enter(core),
            _ => RoutineCall::Exit(core),
        }
    };
    (0..500).map(|_| call()).collect()
}

#[test]
fn single_calls_are_those_of_a_list() {
    let mut all = Handovers::default();
    for seed in 0..50 {
        let calls = mixed_calls(seed);
        let (mut listed, mut counted) = (start(3, 2), Handovers::default());
        let answers = listed.simulate(&calls, &mut counted);
        let (mut single, mut handovers) = (start(3, 2), Handovers::default());
        for (&call, &answer) in calls.iter().zip(&answers) {
            let mut memory = Memory::of(&single);
            let by_method = by_method(&mut single, call, &mut handovers);
            assert_eq!(by_method, answer, "seed {seed}: {call}");
            if let Some(packed) = memory.single(call) {
                assert_eq!(packed, packed_answer(answer), "seed {seed}: {call}");
                assert_eq!(memory, Memory::of(&single), "seed {seed}: {call}");
            }
        }
        assert_eq!((single, &handovers), (listed, &counted), "seed {seed}");
        for (row, column, count) in counted.seen() {
            all.counts[usize::from(row.0)][usize::from(column.0)] += count;
        }
    }
    assert_eq!(all.seen().count(), 2, "handovers in both directions");
}

/// number + 256 id + 2^24 cycles.
fn packed_answer(answer: Result<Answer, Refusal>) -> u64 {
    match answer {
        Ok(Answer { claimed, cycles }) => {
            claimed.map_or(0, |id| u64::from(id.0) << 8) + (u64::from(cycles) << 24)
        }
        Err(refusal) => u64::from(refusal.number()),
    }
}

/// The buffers of a simulation and of a list of one, as the library's own calls take them.
#[derive(Clone, Debug, PartialEq)]
struct Memory {
    state: Vec<u8>,
    active: Vec<u16>,
    holder: Vec<u16>,
    list: Vec<u8>,
    answers: Vec<u8>,
    table: Vec<u16>,
}

impl Memory {
    fn of(routines: &Routines) -> Memory {
        let bytes = routines.to_bytes();
        let words: Vec<u16> = bytes[STATE_SIZE..]
            .chunks(2)
            .map(|word| u16::from_le_bytes([word[0], word[1]]))
            .collect();
        Memory {
            state: bytes[..STATE_SIZE].to_vec(),
            active: words[..MAX_CORES].to_vec(),
            holder: words[MAX_CORES..].to_vec(),
            list: RoutineCall::Mask(SourceId(1)).to_bytes().to_vec(),
            answers: vec![9; ANSWER_SIZE],
            table: vec![9; MAX_CORES * MAX_CORES],
        }
    }

    fn make(&mut self, n: u16, m: u16) -> u64 {
        raw::make_routines(n, m, &mut self.state, &mut self.active, &mut self.holder)
    }

    /// A call that the library has singly.
    fn single(&mut self, call: RoutineCall) -> Option<u64> {
        let Memory {
            state,
            active,
            holder,
            ..
        } = self;
        match call {
            RoutineCall::Enter(core) => Some(raw::enter(state, active, holder, core.0)),
            RoutineCall::Exit(core) => Some(raw::exit(state, active, holder, core.0)),
            _ => None,
        }
    }

    fn simulate(&mut self) -> u64 {
        raw::simulate(
            &mut self.state,
            &mut self.active,
            &mut self.holder,
            &self.list,
            &mut self.answers,
            &mut self.table,
        )
    }

    /// Every call that takes the simulation refuses it as one that can't be read, and all stays as it was.
    #[track_caller]
    fn assert_unreadable(&self) {
        let mut memory = self.clone();
        assert_eq!(memory.single(RoutineCall::Enter(CORE_0)), Some(255));
        assert_eq!(memory.single(RoutineCall::Exit(CORE_0)), Some(255));
        assert_eq!(memory.simulate(), u64::MAX);
        assert_eq!(memory, *self);
    }
}

/// What the memory holds before doesn't matter; sizes out of range leave it as it was.
#[test]
fn a_simulation_is_made_in_any_memory() {
    let mut memory = Memory::of(&handed_over().0);
    memory.state.fill(9);
    memory.active.fill(9);
    memory.holder.fill(9);
    let before = memory.clone();
    assert_eq!(memory.make(129, 2), 2);
    assert_eq!(memory, before);
    assert_eq!(memory.make(3, 2), 0);
    assert_eq!(
        memory,
        Memory::of(&Routines::new(3, 2).expect("sizes in range"))
    );
}

#[test]
fn a_simulation_of_another_length_is_left_alone() {
    let good = Memory::of(&handed_over().0);
    let damaged: [fn(&mut Memory); 6] = [
        |memory| memory.state.truncate(STATE_SIZE - 1),
        |memory| memory.state.push(0),
        |memory| memory.active.truncate(MAX_CORES - 1),
        |memory| memory.active.push(0),
        |memory| memory.holder.truncate(MAX_SOURCES - 1),
        |memory| memory.holder.push(0),
    ];
    for damage in damaged {
        let mut memory = good.clone();
        damage(&mut memory);
        memory.assert_unreadable();
        let before = memory.clone();
        assert_eq!(memory.make(3, 2), 255);
        assert_eq!(memory, before);
    }
}

#[test]
fn a_flag_that_is_neither_0_nor_1_is_left_alone() {
    // masked, pending and delivered of source 1; filled and dirty of core 31
    for at in [6, 7, 8, 1150, 1151] {
        let mut memory = Memory::of(&handed_over().0);
        memory.state[at] = 2;
        memory.assert_unreadable();
        let mut bytes = handed_over().0.to_bytes();
        bytes[at] = 2;
        assert_eq!(Routines::from_bytes(&bytes), Err(Refusal::Unreadable));
    }
}

#[test]
fn a_list_that_does_not_fit_is_left_alone() {
    let good = Memory::of(&handed_over().0);
    let damaged: [fn(&mut Memory); 5] = [
        |memory| memory.list.truncate(COMMAND_SIZE - 1),
        |memory| memory.list.push(0),
        |memory| memory.answers.truncate(ANSWER_SIZE - 1),
        |memory| memory.table.truncate(MAX_CORES * MAX_CORES - 1),
        |memory| memory.table.push(0),
    ];
    for damage in damaged {
        let mut memory = good.clone();
        damage(&mut memory);
        let before = memory.clone();
        assert_eq!(memory.simulate(), u64::MAX);
        assert_eq!(memory, before);
    }
}

#[test]
fn a_number_that_names_no_call_ends_a_list() {
    for number in 0..=255 {
        let mut memory = Memory::of(&start(3, 2));
        memory.list = [[1, 1, 0, 0, 0], [number, 1, 0, 1, 0], [1, 2, 0, 0, 0]].concat();
        memory.answers = vec![9; 4 * ANSWER_SIZE];
        let named = [0, 1, 2, 4, 16, 17].contains(&number);
        let taken = if named { 3 } else { 1 };
        assert_eq!(memory.simulate(), taken, "{number}");
        let behind = taken as usize * ANSWER_SIZE;
        assert!(memory.answers[behind..].iter().all(|&byte| byte == 9));
        assert!(memory.answers[..ANSWER_SIZE].iter().all(|&byte| byte == 0));
        let call = RoutineCall::from_bytes([number, 1, 0, 1, 0]);
        assert_eq!(call.map(RoutineCall::number), named.then_some(number));
    }
}

#[test]
fn a_simulation_is_read_back_from_its_bytes() {
    let (routines, _) = handed_over();
    let bytes = routines.to_bytes();
    assert_eq!(Routines::from_bytes(&bytes), Ok(routines));
    for length in [0, STATE_SIZE, ROUTINES_SIZE - 1] {
        assert_eq!(
            Routines::from_bytes(&bytes[..length]),
            Err(Refusal::Unreadable)
        );
    }
}

/// Each clause of document 02's refusal 1, broken by bytes at their offsets (docs/ENCODING.md) in a simulation of 3 sources and 2 cores where
/// core 0 runs request 3 and core 1 is idle.
const UNSOUND: [(&str, &[(usize, u8)]); 12] = [
    (
        "a claimed request that is active nowhere",
        &[(1156, 0), (1412, 0)],
    ),
    (
        "one that was held by none",
        &[(1156, 0), (1412, 0), (1480, 0)],
    ),
    (
        "a claimed request that is active on two cores",
        &[(1164, 3), (1414, 3)],
    ),
    ("a core at another priority than its request", &[(1156, 2)]),
    ("a claimed request last held by another core", &[(1480, 2)]),
    ("a claimed request last held by none", &[(1480, 0)]),
    (
        "an active request that isn't claimed",
        &[(1414, 2), (1478, 2)],
    ),
    ("an active id above n", &[(1414, 4), (1482, 2)]),
    ("a core past m that isn't idle", &[(1416, 1)]),
    ("an idle core above 0", &[(1164, 1)]),
    ("a last holder at m", &[(1476, 3)]),
    ("a last holder at m of a source past n", &[(1730, 3)]),
];

#[test]
fn an_unsound_simulation_is_refused_by_1_in_every_call() {
    let mut sound = start(3, 2);
    let calls = "trigger 3\nenter on core 0";
    accepted(&mut sound, &mut Handovers::default(), calls);
    for (what, edits) in UNSOUND {
        let damaged = edited(&sound, edits);
        assert!(damaged.controller().is_sound(), "{what}");
        assert_unsound(&damaged, what);
    }
    assert_unsound(&edited(&sound, &[(0, 0)]), "a controller without sources");
    for (at, what) in [(38, "first"), (39, "first"), (1154, "last")] {
        let counted = edited(&sound, &[(at, 1)]);
        assert_unsound(&counted, &format!("a count of the {what} source past n"));
    }
    assert!(sound.is_sound());
    let held = edited(&sound, &[(1476, 2), (1730, 2)]);
    assert!(held.is_sound(), "other last holders below m");
    let counted = edited(&sound, &[(11, 255), (12, 255), (29, 254), (30, 255)]);
    assert!(counted.is_sound(), "any counts of sources in use");
}

/// The simulation with these bytes in place of its own.
fn edited(routines: &Routines, edits: &[(usize, u8)]) -> Routines {
    let mut bytes = routines.to_bytes();
    for &(at, byte) in edits {
        bytes[at] = byte;
    }
    Routines::from_bytes(&bytes).expect("the flags are left alone")
}

#[track_caller]
fn assert_unsound(damaged: &Routines, what: &str) {
    let handovers = table(&[(0, 1, 5)]);
    assert!(!damaged.is_sound(), "{what}");
    for form in RoutineCall::FORMS {
        let text = form.replace("ID", "1").replace("PRIORITY", "1");
        let call: RoutineCall = text.replace("CORE", "0").parse().expect("a form is a call");
        let (mut routines, mut counted) = (damaged.clone(), handovers.clone());
        let answer = routines.call(call, &mut counted);
        assert_eq!(answer, Err(Refusal::Unsound), "{what}: {call}");
        assert_eq!(
            by_method(&mut routines, call, &mut counted),
            answer,
            "{what}: {call}"
        );
        assert_eq!(
            (&routines, &counted),
            (damaged, &handovers),
            "{what}: {call}"
        );
    }
}

/// Bytes, and numbers of 16 bits, as docs/ENCODING.md writes them.
fn hex(bytes: &[u8]) -> String {
    let words: Vec<String> = bytes.iter().map(|byte| format!("{byte:02x}")).collect();
    words.join(" ")
}

fn hex_of(numbers: &[u16]) -> String {
    let bytes: Vec<u8> = numbers
        .iter()
        .flat_map(|number| number.to_le_bytes())
        .collect();
    hex(&bytes)
}

/// The example of docs/ENCODING.md, in its words.
#[test]
fn the_documented_simulation_holds() {
    let document = include_str!("../../../docs/ENCODING.md").replace('\n', " ");
    let mut memory = Memory::of(&start(3, 2));
    memory.table.fill(0);
    let (mut active, mut answered) = (Vec::new(), Vec::new());
    for line in HANDOVER.lines() {
        let call: RoutineCall = line.parse().expect("a call");
        memory.list = call.to_bytes().to_vec();
        assert_eq!(memory.simulate(), 1, "{line}");
        active.push(hex_of(&memory.active[..2]));
        let (list, answers) = (hex(&memory.list), hex(&memory.answers));
        answered.push(format!("`{list}`, answers `{answers}`"));
    }
    let holders = hex_of(&memory.holder[..3]);
    let counted: Vec<usize> = (0..1024).filter(|&at| memory.table[at] != 0).collect();
    assert_eq!(counted, [1]);
    for words in [
        format!("the active ids, from 1,412 on, are `{}`.", active[3]),
        format!(
            "which waits: `{}`. Exit on core 1, {}",
            active[5], answered[6]
        ),
        format!("Entry on core 1, {}: id 1.", answered[7]),
        format!(
            "The active ids are `{}`, the last holders, from 1,476 on, `{holders}`",
            active[7]
        ),
        format!(
            "the number at 1, row 0 and column 1, is {}, and all others are 0.",
            memory.table[1]
        ),
    ] {
        assert!(document.contains(&words), "docs/ENCODING.md lacks {words}");
    }
}
