//! The simulation of the interrupt routines: worked runs, long ones, and all runs of a small size.

use std::collections::HashSet;

use psic_reference::dropped::{check_accepted, check_refused};
use psic_reference::random::{run_seed, run_seeds, Random};
use psic_reference::records::{Answer, Command, CoreNumber, SourceId, MAX_CORES};
use psic_reference::reference;
use psic_reference::routines::compare::Reference;
use psic_reference::routines::history::{self, Event};
use psic_reference::routines::properties::{follow, Followed, Seen};
use psic_reference::routines::runs::{self, Mix, Run};
use psic_reference::routines::{
    self, none_above, none_idle, sound, Call, Handovers, Routines, Simulation, NONE,
};

/// The sizes that the library's speed is measured at.
const SIZES: [(u16, u16); 5] = [(1, 1), (8, 1), (32, 2), (128, 4), (128, 32)];

pub fn trigger(id: u16) -> Call {
    Call::Trigger(SourceId(id))
}

fn mask(id: u16) -> Call {
    Call::Mask(SourceId(id))
}

fn unmask(id: u16) -> Call {
    Call::Unmask(SourceId(id))
}

fn set_source(id: u16, priority: u16) -> Call {
    Call::SetSourcePriority(SourceId(id), priority)
}

pub fn enter(core: u16) -> Call {
    Call::Enter(CoreNumber(core))
}

fn exit(core: u16) -> Call {
    Call::Exit(CoreNumber(core))
}

/// A run by hand. All properties are checked after each call.
pub struct ByHand(pub Followed<'static, Reference>);

impl ByHand {
    /// Document 01's setting: every source unmasked with priority equal to its id.
    pub fn table(n: u16, m: u16) -> ByHand {
        let mut run = ByHand(Followed::fresh(&Reference, n, m));
        for id in 1..=n {
            run.accept(&[set_source(id, id), unmask(id)]);
        }
        run
    }

    fn call(&mut self, call: Call) -> Answer {
        let answer = self.0.call(call);
        answer.unwrap_or_else(|what| panic!("{call:?}: {what}"))
    }

    pub fn accept(&mut self, calls: &[Call]) {
        for &call in calls {
            assert_eq!(self.call(call).number, 0, "{call:?}");
        }
    }

    /// The call is accepted with this id, these cycles and these active ids.
    fn answers<const M: usize>(&mut self, call: Call, id: u16, cycles: u16, active: [u16; M]) {
        let answer = self.call(call);
        assert_eq!((answer.number, answer.id, answer.cycles), (0, id, cycles));
        assert_eq!(self.active(), active, "{call:?}");
    }

    /// The call is refused by this number. That nothing changes but a count is one of the properties.
    fn refuses(&mut self, call: Call, number: u8) {
        assert_eq!(self.call(call).number, number, "{call:?}");
    }

    fn active(&self) -> Vec<u16> {
        let Routines {
            controller, active, ..
        } = self.0.simulation().routines;
        let used = active.iter().take(usize::from(controller.m));
        used.map(|id| id.0).collect()
    }

    /// The cells of the first two cores: 0 to 0, 0 to 1, 1 to 0, 1 to 1.
    fn cells(&self) -> [u16; 4] {
        let [[a, b, ..], [c, d, ..], ..] = self.0.simulation().handovers.cells;
        [a, b, c, d]
    }
}

/// Core 0 runs 4, core 1 runs 3.
const BOTH: [Call; 4] = [
    Call::Trigger(SourceId(4)),
    Call::Enter(CoreNumber(0)),
    Call::Trigger(SourceId(3)),
    Call::Enter(CoreNumber(1)),
];

#[test]
fn entry_on_an_idle_core_claims() {
    let mut run = ByHand::table(32, 2);
    run.accept(&[trigger(4)]);
    run.answers(enter(0), 4, 0, [4, 0]);
    let routines = run.0.simulation().routines;
    assert_eq!(routines.controller.cores[0].configured, 4);
    assert_eq!(routines.holder(SourceId(4)), Some(CoreNumber(0)));
    assert_eq!(routines.claimed().collect::<Vec<_>>(), [SourceId(4)]);
}

/// No core is below the interrupted request: it waits, and goes back to its own core when that exits.
#[test]
fn interrupted_request_waits_and_returns_to_its_own_core_without_a_handover() {
    let mut run = ByHand::table(32, 2);
    run.accept(&BOTH);
    run.answers(trigger(9), 0, 1, [4, 3]);
    run.answers(enter(1), 9, 0, [4, 9]);
    let routines = run.0.simulation().routines;
    assert!(routines.controller.sources[2].is_waiting());
    run.answers(exit(1), 0, 1, [4, 0]);
    run.answers(enter(1), 3, 0, [4, 3]);
    assert_eq!(run.cells(), [0; 4]);
    assert_eq!((run.0.seen.returns, run.0.seen.interruptions), (1, 1));
}

/// No core is below an interrupted request: a priority under a filled box is above no core's. So it
/// waits, and an entry takes no cycle, also where another core idles with a filled box.
#[test]
fn interrupted_request_waits_also_where_another_core_idles() {
    let mut run = ByHand::table(32, 2);
    run.accept(&BOTH);
    run.accept(&[trigger(9), trigger(10), enter(0), exit(0)]);
    let boxes = |run: &ByHand| {
        let cores = run.0.simulation().routines.controller.cores;
        [cores[0].message.id, cores[1].message.id]
    };
    assert_eq!((run.active(), boxes(&run)), (vec![0, 3], [9, 4]));
    run.answers(enter(1), 4, 0, [0, 4]);
    assert_eq!(boxes(&run), [9, 0]);
    // 4 was held by core 0 and claimed by core 1; 3 goes back to its own core.
    run.accept(&[enter(0)]);
    run.answers(exit(1), 0, 1, [9, 0]);
    run.answers(enter(1), 3, 0, [9, 3]);
    assert_eq!(run.cells(), [0, 1, 0, 0]);
}

#[test]
fn held_by_one_then_by_another_then_by_the_first_are_two_handovers() {
    let mut run = ByHand::table(32, 2);
    run.accept(&BOTH);
    run.accept(&[trigger(9), enter(1)]);
    run.answers(exit(0), 0, 1, [0, 9]);
    run.answers(enter(0), 3, 0, [3, 9]);
    assert_eq!(run.cells(), [0, 0, 1, 0]);
    run.accept(&[trigger(10), enter(0), exit(1)]);
    run.answers(enter(1), 3, 0, [10, 3]);
    assert_eq!(run.cells(), [0, 1, 1, 0]);
}

/// A new trigger is a new request.
#[test]
fn completed_and_triggered_again_is_no_handover() {
    let mut run = ByHand::table(32, 2);
    run.accept(&[trigger(4), enter(0), exit(0), trigger(9), enter(0)]);
    let holder = |run: &ByHand| run.0.simulation().routines.holder(SourceId(4));
    assert_eq!(holder(&run), Some(CoreNumber(0)));
    run.accept(&[trigger(4)]);
    assert_eq!(holder(&run), None);
    run.answers(enter(1), 4, 0, [9, 4]);
    assert_eq!(run.cells(), [0; 4]);
}

/// 3 on core 1 is retracted, and goes to core 0, which falls to 0. Also back to the core that exits.
#[test]
fn exit_with_a_filled_box_moves_it() {
    let mut run = ByHand::table(32, 2);
    run.accept(&[trigger(4), enter(0), trigger(3)]);
    run.answers(exit(0), 0, 2, [0, 0]);
    let cores = run.0.simulation().routines.controller.cores;
    assert_eq!((cores[0].message.id, cores[1].message.id), (3, 0));
    let mut run = ByHand::table(32, 2);
    run.accept(&BOTH);
    run.accept(&[trigger(9)]);
    run.answers(exit(1), 0, 2, [4, 0]);
    let cores = run.0.simulation().routines.controller.cores;
    assert_eq!((cores[0].message.id, cores[1].message.id), (0, 9));
}

#[test]
fn numbers_for_no_come_in_their_order() {
    let mut run = ByHand::table(32, 2);
    for core in [2, 31, 32, 256, u16::MAX] {
        run.refuses(enter(core), 3);
        run.refuses(exit(core), 3);
    }
    run.refuses(enter(0), 7);
    run.refuses(exit(0), 8);
    run.accept(&[trigger(4)]);
    run.refuses(exit(0), 8);
    run.accept(&[enter(0)]);
    run.refuses(enter(0), 7);
    run.refuses(trigger(4), 6);
    run.refuses(mask(33), 4);
    run.refuses(unmask(0), 4);
    run.refuses(trigger(33), 4);
    run.refuses(set_source(33, 0), 4);
    run.refuses(set_source(4, 0), 5);
    run.refuses(set_source(4, 128), 5);
    // Request 5/14: a running request keeps its priority.
    run.refuses(set_source(4, 127), 9);
    run.refuses(set_source(4, 4), 9);
    run.answers(set_source(5, 127), 0, 0, [4, 0]);
    run.answers(mask(4), 0, 0, [4, 0]);
    assert_eq!(run.0.simulation().routines.controller.sources[3].request, 4);
}

/// A masked request that is interrupted waits, masked, and goes nowhere until it is unmasked.
#[test]
fn masked_request_that_was_interrupted_waits_for_its_unmasking() {
    let mut run = ByHand::table(32, 1);
    run.accept(&[trigger(4), enter(0), mask(4), trigger(9)]);
    run.answers(enter(0), 9, 0, [9]);
    run.answers(exit(0), 0, 0, [0]);
    run.refuses(enter(0), 7);
    run.answers(unmask(4), 0, 1, [0]);
    run.answers(enter(0), 4, 0, [4]);
}

/// From 65,534: held, and only that cell changes. No run of 65,535 calls gets there from fresh.
#[test]
fn cell_is_held_at_65535() {
    let mut run = ByHand::table(32, 2);
    run.accept(&BOTH);
    run.accept(&[trigger(9), enter(1), exit(0)]);
    let mut simulation = run.0.simulation();
    for before in [65_534, 65_535] {
        let mut filled = simulation.clone();
        filled.handovers.cells = [[7; MAX_CORES]; MAX_CORES];
        filled.handovers.cells[1][0] = before;
        assert_eq!(filled.call(enter(0)).number, 0);
        let mut expected = [[7; MAX_CORES]; MAX_CORES];
        expected[1][0] = 65_535;
        assert_eq!(filled.handovers.cells, expected);
    }
    simulation.call(enter(0));
    assert_eq!(simulation.handovers.cells[1][0], 1);
}

#[test]
fn sizes_out_of_range_are_refused_by_2() {
    for (n, m) in [(0, 1), (1, 0), (129, 1), (1, 33), (0, 0), (65535, 65535)] {
        assert_eq!(routines::make(n, m), (2, Routines::fresh(1, 1)));
    }
    for (n, m) in [(1, 1), (128, 32)] {
        let (number, made) = routines::make(n, m);
        assert_eq!(number, 0);
        assert!(sound(&made));
        assert_eq!(made, Routines::fresh(n, m));
    }
}

/// Histories of source 4 by hand: an accepted entry, trigger or exit, or a refused one.
#[test]
fn last_holder_and_handovers_are_read_from_the_history() {
    let event = |call, number, id| Event {
        call,
        number,
        id: SourceId(id),
    };
    let entry = |core| event(enter(core), 0, 4);
    let triggered = event(trigger(4), 0, 0);
    let told = |events: &[Event]| {
        let holder = history::last_holder(events, SourceId(4)).map(|core| core.0);
        let [[a, b, ..], [c, d, ..], ..] = history::handovers(events);
        (holder, [a, b, c, d])
    };
    assert_eq!(told(&[]), (None, [0, 0, 0, 0]));
    assert_eq!(told(&[triggered, entry(1)]), (Some(1), [0, 0, 0, 0]));
    assert_eq!(told(&[entry(0), entry(1)]), (Some(1), [0, 1, 0, 0]));
    assert_eq!(told(&[entry(0), entry(1), entry(0)]).1, [0, 1, 1, 0]);
    assert_eq!(told(&[entry(0), entry(0)]).1, [0, 0, 0, 0]);
    assert_eq!(told(&[entry(0), triggered, entry(1)]).1, [0, 0, 0, 0]);
    assert_eq!(told(&[entry(0), triggered]).0, None);
    let refused = event(trigger(4), 6, 0);
    assert_eq!(told(&[entry(0), refused, entry(1)]).1, [0, 1, 0, 0]);
    let refused = event(enter(1), 7, 0);
    assert_eq!(told(&[entry(0), refused]), (Some(0), [0, 0, 0, 0]));
    let other = event(enter(1), 0, 5);
    assert_eq!(told(&[entry(0), other]), (Some(0), [0, 0, 0, 0]));
    let exited = event(exit(0), 0, 0);
    assert_eq!(told(&[entry(0), exited]).0, Some(0));
    let running = |events: &[Event]| history::running(events, CoreNumber(0));
    assert_eq!(running(&[entry(0), other]), SourceId(4));
    assert_eq!(running(&[entry(0), exited]), NONE);
    assert_eq!(running(&[entry(0), event(exit(0), 8, 0)]), SourceId(4));
}

/// The five sizes and so many random ones, in every mix.
pub fn random_runs(seed: u64, count: usize, length: usize) -> Vec<Run> {
    let mut random = Random::new(seed);
    let mut sizes = SIZES.to_vec();
    sizes.extend((0..count).map(|_| runs::sizes(&mut random)));
    let mut runs = Vec::new();
    for (n, m) in sizes {
        for mix in Mix::ALL {
            runs.push(runs::run(random.bits(), n, m, length, mix));
        }
    }
    runs
}

/// After every call: sound, both clauses, the table and the counts of dropped triggers are the
/// history's, and a refused call changes nothing else. Every number but 1 and 2 comes, and what the
/// clauses speak of.
#[test]
fn long_runs_keep_every_property() {
    let mut all = Seen::default();
    for run in random_runs(run_seed(), 20, 1500) {
        let seen = follow(&Reference, &run).unwrap_or_else(|what| panic!("{what}"));
        let n = usize::from(run.n);
        assert!(
            seen.handovers == 0 || n > usize::from(run.m) && run.m > 1,
            "a core is interrupted only if all are busy"
        );
        for (sum, number) in all.numbers.iter_mut().zip(seen.numbers) {
            *sum += number;
        }
        all.handovers += seen.handovers;
        all.interruptions += seen.interruptions;
        all.returns += seen.returns;
        all.waiting_at_rest += seen.waiting_at_rest;
        all.idle_at_rest += seen.idle_at_rest;
    }
    println!("{all:?}");
    assert_eq!(all.numbers[1..3], [0, 0]);
    assert!(all.numbers[3..].iter().all(|&count| count > 100));
    assert!(all.handovers > 2000 && all.returns > 200);
    assert!(all.waiting_at_rest > 1000 && all.idle_at_rest > 1000);
}

/// A run as long as one may be.
#[test]
fn run_of_65535_calls_keeps_every_property() {
    let run = runs::run(run_seed(), 8, 3, 65_535, Mix::Handing);
    let seen = follow(&Reference, &run).unwrap_or_else(|what| panic!("{what}"));
    println!("{seen:?}");
    assert!(seen.handovers > 5000);
}

/// One call in 25 at least is a handover where there are more sources than cores, and more than one.
#[test]
fn runs_made_for_handovers_reach_many() {
    for (n, m) in [(4, 2), (4, 3), (8, 4), (32, 2), (128, 4), (128, 32)] {
        let mut seen = Seen::default();
        for seed in run_seeds(4) {
            let run = runs::run(seed, n, m, 2000, Mix::Handing);
            seen.handovers += follow(&Reference, &run).expect("it holds").handovers;
        }
        println!("n = {n}, m = {m}: {} handovers of 8000", seen.handovers);
        assert!(seen.handovers > 8000 / 25, "n = {n}, m = {m}");
    }
}

#[test]
fn one_core_hands_nothing_over() {
    let mut returns = 0;
    for seed in run_seeds(8) {
        for mix in Mix::ALL {
            let run = runs::run(seed, 16, 1, 1000, mix);
            returns += follow(&Reference, &run).expect("it holds").returns;
            assert_eq!(runs::end(&run).handovers, Handovers::NONE);
        }
    }
    assert!(returns > 100, "{returns}");
}

#[test]
fn about_one_call_in_eight_is_refused() {
    for run in random_runs(run_seed() ^ 1, 6, 2000) {
        let seen = follow(&Reference, &run).expect("it holds");
        let refused = 2000 - seen.numbers[0];
        assert!((2000 / 10..=2000 / 6).contains(&refused), "{refused}");
    }
}

/// A claim and a complete leave the controller at rest, and what is redelivered is above no core: so
/// all cycles are those of an exit's set core priority. And it makes no difference whether an entry
/// that isn't refused claims or redelivers first.
#[test]
fn only_the_last_command_of_an_exit_takes_cycles() {
    let (mut entries, mut most) = (0, 0);
    for run in random_runs(run_seed() ^ 8, 20, 800) {
        let mut simulation = Simulation::fresh(run.n, run.m);
        for &call in &run.calls {
            let mut controller = simulation.routines.controller.clone();
            let before = simulation.routines.clone();
            let answer = simulation.call(call);
            let mut execute = |command| reference::execute(&mut controller, command);
            match call {
                Call::Enter(core) if answer.number == 0 => {
                    assert_eq!(answer.cycles, 0, "seed {}", run.seed);
                    if before.active(core) != NONE {
                        execute(Command::Redeliver(before.active(core)));
                        assert_eq!(execute(Command::Claim(core)).id, answer.id);
                        assert_eq!(controller, simulation.routines.controller);
                        entries += 1;
                    }
                }
                Call::Exit(core) if answer.number == 0 => {
                    assert_eq!(execute(Command::Complete(before.active(core))).cycles, 0);
                    most = most.max(answer.cycles);
                }
                _ => {}
            }
        }
    }
    println!("{entries} entries on a running core, {most} cycles of an exit");
    assert!(entries > 1000 && most > 8);
}

/// Every call over ids 1 to n, cores 0 to m-1 and these priorities, and two out of range.
fn alphabet(n: u16, m: u16, priorities: &[u16]) -> Vec<Call> {
    let mut calls = entries_exits_triggers(n, m);
    for id in 1..=n {
        calls.extend(priorities.iter().map(|&p| set_source(id, p)));
        calls.extend([mask(id), unmask(id)]);
    }
    calls
}

fn entries_exits_triggers(n: u16, m: u16) -> Vec<Call> {
    let of_cores = (0..=m).flat_map(|core| [enter(core), exit(core)]);
    of_cores.chain((1..=n).map(trigger)).collect()
}

/// The simulation without its counts of dropped triggers, on which nothing else depends.
fn uncounted(mut routines: Routines) -> Routines {
    for source in &mut routines.controller.sources {
        source.dropped = 0;
    }
    routines
}

/// Every simulation that a run over the alphabet reaches, of any length, is sound, keeps both
/// clauses, refuses nothing by 1, and a refused call leaves it, but for the count of a trigger refused
/// by 6. Gives how many there are, whatever they counted, and how many of their entries are handovers.
fn every_run(start: Routines, calls: &[Call]) -> (usize, usize) {
    let mut seen = HashSet::from([start.clone()]);
    let mut open = vec![start];
    let mut handovers = 0;
    while let Some(before) = open.pop() {
        for &call in calls {
            let mut after = before.clone();
            let answer = routines::call(&mut after, call);
            assert_ne!(answer.number, 1, "{before:?}");
            let command = call.command();
            let (given, left) = (&before.controller, &after.controller);
            let checked = command.map(|c| check_refused(given, c, answer.number, left));
            assert_eq!(checked.unwrap_or(Ok(())), Ok(()), "{call:?}");
            assert_eq!(check_accepted(given, answer.number, left), Ok(()));
            let holds = sound(&after) && none_above(&after) && none_idle(&after);
            assert!(holds, "{call:?} on {before:?}");
            if let (Call::Enter(core), 0) = (call, answer.number) {
                let last = before.holder(SourceId(answer.id));
                handovers += usize::from(last.is_some_and(|last| last != core));
            }
            let after = uncounted(after);
            assert!(answer.number == 0 || after == before, "{call:?}");
            if seen.insert(after.clone()) {
                open.push(after);
            }
        }
    }
    (seen.len(), handovers)
}

#[test]
fn every_run_of_a_small_size_holds() {
    for (n, m, priorities) in [
        (1, 1, &[1, 2, 3][..]),
        (1, 2, &[1, 2, 3]),
        (2, 1, &[1, 2]),
        (2, 2, &[1, 2]),
    ] {
        let (reached, handovers) = every_run(Routines::fresh(n, m), &alphabet(n, m, priorities));
        println!("n = {n}, m = {m}: {reached} simulations");
        assert!(reached > 20 && handovers == 0);
    }
}

/// Every source unmasked with priority equal to its id, and one that is masked now and then.
#[test]
fn every_run_of_more_sources_than_cores_holds() {
    for (n, m) in [(3, 2), (4, 2), (4, 3)] {
        let start = ByHand::table(n, m).0.simulation().routines;
        let mut calls = entries_exits_triggers(n, m);
        calls.extend([mask(1), unmask(1)]);
        let (reached, handovers) = every_run(start, &calls);
        println!("n = {n}, m = {m}: {reached} simulations, {handovers} handovers");
        assert!(reached > 500 && handovers >= 40);
    }
}
