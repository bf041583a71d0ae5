//! The library's simulation of the routines, and the typed wrapper over it, do what the independent one does: call by call, in whole
//! lists, from sound and broken simulations, in all memory that they are lent.

use psic::{raw, ANSWER_SIZE, COMMAND_SIZE, STATE_SIZE};
use psic_reference::random::{run_seed, run_seeds, Random};
use psic_reference::records::{CoreNumber, SourceId, MAX_CORES, MAX_SOURCES};
use psic_reference::routines::compare::{
    broken_from, Comparison, Difference, Reference, Simulator,
};
use psic_reference::routines::damage::one_field_away;
use psic_reference::routines::properties::follow;
use psic_reference::routines::runs::{self, Mix, NUMBERS};
use psic_reference::routines::{Call, Clause, Listed, Routines, Simulation};
use psic_trials::library::answer_bytes;
use psic_trials::peer::routines::Peer;
use psic_trials::simulations::{is_sound, list_bytes, typed, Library, Memory, Wrapper};

use crate::flags;
use crate::slips::routines::Slip;
use crate::slips::{self, with_slip};

/// The sizes that the library's speed is measured at.
const SIZES: [(u16, u16); 5] = [(1, 1), (8, 1), (32, 2), (128, 4), (128, 32)];

/// What buffers hold before a call.
const PATTERN: u8 = 0xc3;

/// The first difference from the reference within so many rounds.
fn first_difference<S: Simulator>(simulator: &S, rounds: usize) -> Option<Difference> {
    run_seeds(rounds).into_iter().find_map(|seed| {
        let comparison = Comparison {
            left: &Reference,
            right: simulator,
            seed,
        };
        comparison.round(400)
    })
}

#[test]
fn every_round_of_simulations_agrees_with_the_reference() {
    if let Some(difference) = first_difference(&Library, 120) {
        panic!("{difference}");
    }
}

#[test]
fn the_wrapper_of_the_routines_agrees_with_the_reference() {
    if let Some(difference) = first_difference(&Wrapper, 60) {
        panic!("{difference}");
    }
}

/// So that what the library's speed is held against does the same work.
#[test]
fn the_peer_of_the_routines_agrees_with_the_reference() {
    if let Some(difference) = first_difference(&Peer, 60) {
        panic!("{difference}");
    }
}

/// Long runs at these sizes, call by call and as one list. Where requests can be handed over, many are.
#[test]
fn long_runs_agree_with_the_reference() {
    for (n, m) in SIZES {
        for (seed, mix) in run_seeds(Mix::ALL.len()).into_iter().zip(Mix::ALL) {
            let run = runs::run(seed, n, m, 1500, mix);
            let comparison = Comparison {
                left: &Reference,
                right: &Library,
                seed,
            };
            let single = comparison.run(&run);
            let listed = comparison.list(&mut Random::new(seed), &run);
            if let Some(difference) = single.or(listed) {
                panic!("{difference}");
            }
        }
    }
}

/// Both clauses, the table and the history, on what the library itself hands back.
#[test]
fn the_library_keeps_every_property() {
    let mut handovers = 0;
    for (n, m) in [(1, 1), (8, 1), (4, 2), (8, 3), (32, 2), (128, 4), (128, 32)] {
        for (seed, mix) in run_seeds(Mix::ALL.len()).into_iter().zip(Mix::ALL) {
            let run = runs::run(seed, n, m, 800, mix);
            let seen = follow(&Library, &run).unwrap_or_else(|what| panic!("{what}"));
            handovers += seen.handovers;
        }
    }
    println!("{handovers} handovers");
    assert!(handovers > 200);
}

/// The longest run that document 02 speaks of, in one call, against the reference's.
#[test]
fn a_list_of_65535_calls_agrees_with_the_reference() {
    let run = runs::run(run_seed(), 6, 2, 65_535, Mix::Handing);
    let list: Vec<Listed> = run.calls.iter().copied().map(Listed::Call).collect();
    let (_, mut memory) = Library.make(run.n, run.m);
    let (_, mut expected) = Reference.make(run.n, run.m);
    let ran = Library.run_listed(&mut memory, &list);
    assert_eq!(ran, Reference.run_listed(&mut expected, &list));
    assert_eq!(Library.read(&memory), expected);
    assert!(expected.handovers.cells[0][1] > 1000);
}

/// Fresh routines of these sizes and ends of runs of every mix with any counts of dropped triggers, each with broken ones made from it,
/// some one field away, and a table.
fn simulations(random: &mut Random, n: u16, m: u16) -> Vec<(Routines, Vec<Simulation>)> {
    let mut ends = vec![Routines::fresh(n, m)];
    for mix in Mix::ALL {
        let run = runs::run(random.bits(), n, m, 500, mix);
        ends.push(runs::counted(random, &runs::end(&run).routines));
    }
    let with_a_table = |random: &mut Random, routines: Routines| Simulation {
        routines,
        handovers: runs::table(random),
    };
    let mut made = Vec::new();
    for end in ends {
        let mut from = vec![end.clone()];
        from.extend(broken_from(random, &end));
        from.extend((0..16).map(|_| one_field_away(random, &end)));
        let from = from.into_iter().map(|r| with_a_table(random, r)).collect();
        made.push((end, from));
    }
    made
}

/// What a list leaves: the count, the memory, and the answers with what lies behind them.
#[derive(Debug, PartialEq, Eq)]
struct Left {
    taken: u64,
    memory: Memory,
    answers: Vec<u8>,
}

impl Left {
    fn before(simulation: &Simulation, room: usize) -> Left {
        Left {
            taken: 0,
            memory: Memory::of(simulation),
            answers: vec![PATTERN; ANSWER_SIZE * room],
        }
    }

    /// The same as another one, or a word on the first thing that isn't.
    fn same_as(&self, other: &Left) -> Result<(), String> {
        let (left, right) = (&self.memory, &other.memory);
        let parts = [
            ("count", self.taken == other.taken),
            ("answers", self.answers == other.answers),
            ("state", left.state == right.state),
            ("active", left.active == right.active),
            ("holder", left.holder == right.holder),
            ("table", left.table == right.table),
        ];
        match parts.iter().find(|(_, same)| !same) {
            Some((part, _)) => Err(part.to_string()),
            None => Ok(()),
        }
    }
}

/// By one `psic_simulate`, with room for two answers more.
fn by_list(simulation: &Simulation, list: &[Listed]) -> Left {
    let mut left = Left::before(simulation, list.len() + 2);
    left.taken = left.memory.simulate(&list_bytes(list), &mut left.answers);
    left
}

/// By a call for each entry: `psic_enter` and `psic_exit`, for commands lists of one. Only lists count handovers, so that the table after
/// an entry is that of the list of one.
fn one_by_one(simulation: &Simulation, list: &[Listed]) -> Left {
    let mut left = Left::before(simulation, list.len() + 2);
    for (&entry, answer) in list.iter().zip(left.answers.chunks_exact_mut(ANSWER_SIZE)) {
        let mut counted = left.memory.clone();
        let bytes = list_bytes(&[entry]);
        if counted.simulate(&bytes, answer) != 1 {
            break;
        }
        let packed = match entry {
            Listed::Call(Call::Enter(core)) => Some(left.memory.enter(core.0)),
            Listed::Call(Call::Exit(core)) => Some(left.memory.exit(core.0)),
            _ => None,
        };
        if let Some(packed) = packed {
            assert!(packed >> 40 == 0, "{packed}");
            answer.copy_from_slice(&packed.to_le_bytes()[..ANSWER_SIZE]);
            left.memory.table = counted.table;
        } else {
            left.memory = counted;
        }
        left.taken += 1;
    }
    left
}

/// By the reference, in the library's bytes.
fn by_reference(simulation: &Simulation, list: &[Listed]) -> Left {
    let mut after = simulation.clone();
    let ran = Reference.run_listed(&mut after, list);
    let mut left = Left::before(&after, list.len() + 2);
    left.taken = ran.taken;
    let places = left.answers.chunks_exact_mut(ANSWER_SIZE);
    for (&answer, place) in ran.answers.iter().zip(places) {
        place.copy_from_slice(&answer_bytes(answer));
    }
    left
}

/// How many lists were compared.
#[derive(Debug, Default)]
struct Compared {
    on_sound: usize,
    on_unsound: usize,
    /// By a number that names no call.
    ended: usize,
}

/// Lists of no call, of one, of two and of many, whole and ended, on sound and unsound simulations at these sizes: in one call, one by
/// one, and by the reference. Tells the first that differs.
fn compare_lists(seed: u64, compared: &mut Compared) -> Result<(), String> {
    let mut random = Random::new(seed);
    for (n, m) in SIZES {
        for (end, made) in simulations(&mut random, n, m) {
            for simulation in made {
                let lists = runs::lists_from(&mut random, &end);
                for list in lists {
                    let in_one = by_list(&simulation, &list);
                    let named = |how: &str, what: String| {
                        format!(
                            "seed {seed}, ({n}, {m}): {how}, {what}; {list:?} on {simulation:?}"
                        )
                    };
                    let each = in_one.same_as(&one_by_one(&simulation, &list));
                    each.map_err(|what| named("one by one", what))?;
                    let reference = in_one.same_as(&by_reference(&simulation, &list));
                    reference.map_err(|what| named("reference", what))?;
                    compared.ended += usize::from(in_one.taken < list.len() as u64);
                    compared.on_sound += usize::from(is_sound(&simulation));
                    compared.on_unsound += usize::from(!is_sound(&simulation));
                }
            }
        }
    }
    Ok(())
}

#[test]
fn a_list_is_its_calls_one_by_one() {
    let mut compared = Compared::default();
    for seed in run_seeds(4) {
        if let Err(difference) = compare_lists(seed, &mut compared) {
            panic!("{difference}");
        }
    }
    println!("{compared:?}");
    let Compared {
        on_sound,
        on_unsound,
        ended,
    } = compared;
    assert!(on_sound > 1000 && on_unsound > 5000 && ended > 2000);
}

/// Entry and exit on every core, below m and not, against lists of one, on sound and broken simulations.
#[test]
fn single_entries_and_exits_are_lists_of_one() {
    let mut random = Random::new(run_seed());
    let mut accepted = [0, 0];
    for (n, m) in SIZES {
        for (_, made) in simulations(&mut random, n, m) {
            for simulation in made {
                for core in [0, m / 2, m - 1, m, 31, 32, 256, u16::MAX].map(CoreNumber) {
                    for (kind, call) in [Call::Enter(core), Call::Exit(core)]
                        .into_iter()
                        .enumerate()
                    {
                        let list = [Listed::Call(call)];
                        let single = one_by_one(&simulation, &list);
                        let listed = by_list(&simulation, &list);
                        assert_eq!(
                            single.same_as(&listed),
                            Ok(()),
                            "{call:?} on {simulation:?}"
                        );
                        accepted[kind] += usize::from(single.answers[0] == 0);
                    }
                }
            }
        }
    }
    println!("{accepted:?} accepted");
    assert!(accepted.iter().all(|&count| count > 20));
}

/// Every damage, and every clause, is met by the lists above.
#[test]
fn every_clause_is_broken_somewhere() {
    let mut random = Random::new(run_seed());
    let mut alone = Vec::new();
    for (n, m) in SIZES {
        for (_, made) in simulations(&mut random, n, m) {
            let broken = made
                .iter()
                .map(|s| psic_reference::routines::violated(&s.routines));
            alone.extend(broken.filter(|clauses| clauses.len() == 1));
        }
    }
    for clause in Clause::ALL {
        assert!(
            alone.contains(&vec![clause]),
            "{clause:?} is never broken alone"
        );
    }
}

/// What is compared is the library's own answer and memory.
#[test]
fn every_slip_of_a_simulation_is_found() {
    for slip in Slip::OF_MAKING.into_iter().chain(Slip::OF_LISTS) {
        let named = slips::Slip::Routines(slip);
        let library = with_slip(named, || first_difference(&Library, 4));
        assert!(library.is_some(), "{slip:?}");
        let wrapper = with_slip(named, || first_difference(&Wrapper, 4));
        assert_eq!(
            wrapper.is_none(),
            slip.is_behind(),
            "{slip:?}, by the wrapper"
        );
    }
    // The wrapper's exit is psic_exit.
    for slip in [
        Slip::ExitNumber,
        Slip::ExitCycles,
        Slip::ExitState,
        Slip::ExitCountsLost,
        Slip::ExitActive,
    ] {
        let wrapper = with_slip(slips::Slip::Routines(slip), || {
            first_difference(&Wrapper, 4)
        });
        assert!(wrapper.is_some(), "{slip:?}, by the wrapper");
    }
}

/// Both sides are the library's own, so that a slip in either call is told.
#[test]
fn every_slip_of_a_list_an_entry_or_an_exit_is_found_one_by_one() {
    let of_calls = Slip::OF_ENTRIES.into_iter().chain(Slip::OF_EXITS);
    for slip in of_calls.chain(Slip::OF_LISTS) {
        let told = with_slip(slips::Slip::Routines(slip), || {
            compare_lists(run_seed(), &mut Compared::default())
        });
        assert!(told.is_err(), "{slip:?}");
    }
}

/// A simulation in which core 0 runs 4 and core 1's box is filled, with a table.
fn some_memory() -> Memory {
    let mut simulation = Simulation::fresh(32, 2);
    for id in [3, 4].map(SourceId) {
        for call in [Call::SetSourcePriority(id, id.0), Call::Unmask(id)] {
            simulation.call(call);
        }
    }
    simulation.call(Call::Trigger(SourceId(4)));
    simulation.call(Call::Enter(CoreNumber(0)));
    simulation.call(Call::Trigger(SourceId(3)));
    simulation.handovers = runs::table(&mut Random::new(run_seed()));
    Memory::of(&simulation)
}

/// A list of so many calls that would be accepted.
fn some_list(calls: usize) -> Vec<u8> {
    [17, 0, 0, 0, 0, 16, 0, 0, 0, 0].repeat(calls)[..COMMAND_SIZE * calls].to_vec()
}

/// Every call refuses the memory, by 255 or 2^64 - 1, and all of it stays as it was.
fn assert_unreadable(memory: &Memory, why: &str) {
    let mut after = memory.clone();
    assert_eq!(after.enter(1), 255, "{why}");
    assert_eq!(after.exit(0), 255, "{why}");
    for calls in [0, 1, 2] {
        let mut answers = vec![9; ANSWER_SIZE * calls];
        let taken = after.simulate(&some_list(calls), &mut answers);
        assert_eq!(taken, u64::MAX, "{why}");
        assert!(answers.iter().all(|&byte| byte == 9), "{why}");
    }
    assert_eq!(after, *memory, "{why}");
}

/// A buffer of another length, shorter or longer.
fn resized<T: Copy + Default>(buffer: &[T], length: usize) -> Vec<T> {
    let mut resized = buffer.to_vec();
    resized.resize(length, T::default());
    resized
}

#[test]
fn buffers_of_other_lengths_are_refused_and_unchanged() {
    let good = some_memory();
    for length in [0, 1, STATE_SIZE - 1, STATE_SIZE + 1, 2 * STATE_SIZE] {
        let mut memory = good.clone();
        memory.state = resized(&good.state, length);
        assert_unreadable(&memory, &format!("a state of {length}"));
    }
    for length in [0, 1, MAX_CORES - 1, MAX_CORES + 1, MAX_SOURCES] {
        let mut memory = good.clone();
        memory.active = resized(&good.active, length);
        assert_unreadable(&memory, &format!("{length} active ids"));
    }
    for length in [0, 1, MAX_CORES, MAX_SOURCES - 1, MAX_SOURCES + 1] {
        let mut memory = good.clone();
        memory.holder = resized(&good.holder, length);
        assert_unreadable(&memory, &format!("{length} holders"));
    }
    for length in [
        0,
        1,
        MAX_CORES,
        MAX_CORES * MAX_CORES - 1,
        MAX_CORES * MAX_CORES + 1,
    ] {
        let mut memory = good.clone();
        memory.table = resized(&good.table, length);
        for calls in [0, 1, 2] {
            let (mut after, mut answers) = (memory.clone(), vec![9; ANSWER_SIZE * calls]);
            let taken = after.simulate(&some_list(calls), &mut answers);
            assert_eq!(taken, u64::MAX, "a table of {length}");
            assert!(answers.iter().all(|&byte| byte == 9));
            assert_eq!(after, memory);
        }
    }
}

#[test]
fn bytes_that_are_no_flags_are_refused_and_unchanged() {
    for flag in flags() {
        for wrong in [2, 3, 127, 128, 254, 255] {
            let mut memory = some_memory();
            memory.state[flag] = wrong;
            assert_unreadable(&memory, &format!("{wrong} at {flag}"));
        }
    }
}

#[test]
fn a_making_in_buffers_of_other_lengths_is_refused_first_of_all() {
    let sizes = [STATE_SIZE, MAX_CORES, MAX_SOURCES];
    for which in 0..3 {
        for length in [0, sizes[which] - 1, sizes[which] + 1] {
            let mut lengths = sizes;
            lengths[which] = length;
            for (n, m) in [(32, 2), (0, 2), (32, 33)] {
                let mut state = vec![9; lengths[0]];
                let (mut active, mut holder) = (vec![9; lengths[1]], vec![9; lengths[2]]);
                let made = raw::make_routines(n, m, &mut state, &mut active, &mut holder);
                assert_eq!(made, 255, "{lengths:?}");
                assert!(state.iter().all(|&byte| byte == 9));
                assert!(active.iter().chain(&holder).all(|&word| word == 9));
            }
        }
    }
}

#[test]
fn a_refused_making_leaves_the_memory() {
    let given = some_memory();
    for (n, m) in [(0, 1), (1, 0), (129, 1), (1, 33), (0, 0), (65535, 65535)] {
        let Memory {
            mut state,
            mut active,
            mut holder,
            ..
        } = given.clone();
        assert_eq!(
            raw::make_routines(n, m, &mut state, &mut active, &mut holder),
            2
        );
        let left = (state, active, holder);
        assert_eq!(
            left,
            (
                given.state.clone(),
                given.active.clone(),
                given.holder.clone()
            )
        );
    }
    for (n, m) in SIZES {
        let (packed, memory) = Memory::made(n, m);
        assert_eq!(packed, 0);
        assert_eq!(memory, Memory::of(&Simulation::fresh(n, m)));
    }
}

/// A list that is no whole number of calls, and answers without room for one to each call.
#[test]
fn a_list_of_calls_that_does_not_fit_is_refused_and_unchanged() {
    let given = some_memory();
    let list = some_list(3);
    let mut memory = given.clone();
    let mut answers = vec![9; 3 * ANSWER_SIZE];
    for cut in (1..list.len()).filter(|cut| cut % COMMAND_SIZE != 0) {
        assert_eq!(memory.simulate(&list[..cut], &mut answers), u64::MAX);
    }
    for room in 0..list.len() {
        assert_eq!(memory.simulate(&list, &mut answers[..room]), u64::MAX);
    }
    assert_eq!(memory, given);
    assert!(answers.iter().all(|&byte| byte == 9));
}

/// Of all numbers six name a call. Any other ends the list: what ran before stands, and nothing is written for it or behind it.
#[test]
fn every_other_number_ends_a_list() {
    for number in 0..=255 {
        let mut list = some_list(3);
        list[COMMAND_SIZE] = number;
        let mut memory = some_memory();
        let mut answers = vec![9; 3 * ANSWER_SIZE];
        let taken = memory.simulate(&list, &mut answers);
        if NUMBERS.contains(&number) {
            assert_eq!(taken, 3, "{number}");
            continue;
        }
        assert_eq!(taken, 1, "{number}");
        let (written, rest) = answers.split_at(ANSWER_SIZE);
        assert_eq!(written, [0, 0, 0, 2, 0], "{number}");
        assert!(rest.iter().all(|&byte| byte == 9), "{number}");
        let mut expected = some_memory();
        expected.simulate(&some_list(1), &mut [0; ANSWER_SIZE]);
        assert_eq!(memory, expected, "{number}");
    }
}

/// The wrapper's test of a simulation is the reference's.
#[test]
fn the_wrapper_tells_sound_from_unsound() {
    let mut random = Random::new(run_seed());
    let (mut sound, mut unsound) = (0, 0);
    for (n, m) in SIZES {
        for (_, made) in simulations(&mut random, n, m) {
            for simulation in made {
                let (routines, _) = Wrapper.load(&simulation);
                assert_eq!(routines.is_sound(), is_sound(&simulation), "{simulation:?}");
                sound += usize::from(is_sound(&simulation));
                unsound += usize::from(!is_sound(&simulation));
            }
        }
    }
    assert!(sound > 20 && unsound > 500, "{sound}, {unsound}");
}

#[test]
fn a_call_is_read_back_from_its_bytes_and_its_text() {
    for seed in run_seeds(20) {
        for call in runs::run(seed, 128, 32, 200, Mix::Even).calls {
            let (entry, call) = (Listed::Call(call), typed(call));
            assert_eq!(call.to_bytes().to_vec(), list_bytes(&[entry]));
            assert_eq!(psic::RoutineCall::from_bytes(call.to_bytes()), Some(call));
            assert_eq!(call.to_string().parse(), Ok(call));
        }
    }
}
