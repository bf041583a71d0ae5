//! Request 7/14: triggers refused by 6 are counted at their source, held at 65,535, and nothing else counts or changes a count.

use psic_reference::compare::Comparison;
use psic_reference::damage;
use psic_reference::dropped::{check_accepted, first_breach, Drops};
use psic_reference::generate::{self, History, Mix};
use psic_reference::model::{Model, Reference};
use psic_reference::random::{run_seed, run_seeds, Random};
use psic_reference::records::{Command, Controller, SourceId};
use psic_reference::routines::{self, Routines};
use psic_reference::well_formed::well_formed;

use crate::faulty_drops::{DropFault, FaultyDrops};
use crate::histories::{
    claim, complete, mask, random_histories, redeliver, set_core, set_source, trigger, unmask, Run,
};
use crate::routines::ByHand;

/// The counts of the sources 1 to n.
fn counts(controller: &Controller) -> Vec<u16> {
    let sources = controller.used_sources().iter();
    sources.map(|source| source.dropped).collect()
}

/// Waiting, masked or not, in a box, claimed: the state stays as it was but for that source's count, which `refuses` checks too.
#[test]
fn dropped_triggers_count_wherever_the_request_is() {
    let mut run = Run::table_but_masked(3);
    for id in [3, 4, 5, 6] {
        run.accept(trigger(id));
    }
    run.accept(claim(0));
    assert!(run.source(3).is_waiting() && run.source(3).masked);
    assert!(run.source(4).is_waiting() && !run.source(4).masked);
    assert_eq!(run.boxes(), [0, 5]);
    assert!(run.controller.is_claimed(SourceId(6)));
    let given = run.controller.clone();
    for (times, id) in [(1, 3), (2, 4), (3, 5), (4, 6)] {
        for _ in 0..times {
            run.refuses(trigger(id), 6);
        }
    }
    assert_eq!(counts(&run.controller)[..7], [0, 0, 1, 2, 3, 4, 0]);
    let mut expected = given;
    for (times, id) in [(1, 3), (2, 4), (3, 5), (4, 6)] {
        expected.sources[id - 1].dropped = times;
    }
    assert_eq!(run.controller, expected);
    // A masked request in a box, or claimed, counts too.
    for (id, count) in [(5, 4), (6, 5)] {
        run.accept(mask(id));
        run.refuses(trigger(id), 6);
        assert_eq!(run.source(id).dropped, count);
    }
}

/// A state with every refusal at hand: 4 is claimed, 5 lies in a box, 3 waits, and each source has counted one more than its id.
fn counted_run() -> Run {
    let mut run = Run::table();
    for command in [trigger(4), trigger(5), trigger(3), claim(0)] {
        run.accept(command);
    }
    for (place, source) in run.controller.sources[..32].iter_mut().enumerate() {
        source.dropped = place as u16 + 2;
    }
    assert!(well_formed(&run.controller));
    run
}

#[test]
fn no_other_refusal_counts() {
    let mut run = counted_run();
    let given = run.controller.clone();
    for (command, number) in [
        (trigger(0), 4),
        (trigger(33), 4),
        (trigger(260), 4),
        (mask(0), 4),
        (set_core(2, 0), 3),
        (claim(2), 3),
        (set_source(4, 0), 5),
        (set_core(0, 128), 5),
        (claim(0), 7),
        (redeliver(5), 8),
        (complete(5), 8),
        (complete(3), 8),
        (complete(6), 8),
        (set_source(4, 4), 9),
        (set_source(3, 9), 9),
    ] {
        run.refuses(command, number);
        assert_eq!(run.controller, given, "{command:?}");
    }
}

#[test]
fn no_accepted_command_changes_a_count() {
    for command in [
        set_source(6, 9),
        mask(5),
        mask(3),
        unmask(3),
        set_core(0, 0),
        set_core(1, 127),
        trigger(6),
        trigger(9),
        claim(1),
        redeliver(4),
        complete(4),
    ] {
        let mut run = counted_run();
        let before = run.controller.clone();
        run.accept(command);
        assert_eq!(
            check_accepted(&before, 0, &run.controller),
            Ok(()),
            "{command:?}"
        );
    }
}

/// A request that ends and comes again counts on.
#[test]
fn counts_outlive_their_requests() {
    let mut run = Run::table();
    for times in 1..=3 {
        run.accept(trigger(4));
        run.refuses(trigger(4), 6);
        run.accept(claim(0));
        run.refuses(trigger(4), 6);
        run.accept(complete(4));
        run.accept(set_core(0, 0));
        assert_eq!(run.source(4).dropped, 2 * times);
    }
}

/// A command on an unsound state is refused by 1, and counts nothing, also where the source is pending.
#[test]
fn unsound_states_count_nothing() {
    let mut run = counted_run();
    run.controller.sources[100].dropped = 1;
    let given = run.controller.clone();
    for id in [3, 4, 5, 6, 33] {
        run.refuses(trigger(id), 1);
        assert_eq!(run.controller, given);
    }
}

/// So many triggers of one source, the first of which is accepted.
fn triggers_of(id: u16, count: usize) -> History {
    History {
        seed: 0,
        n: 2,
        m: 1,
        commands: vec![trigger(id); count],
    }
}

/// From a fresh controller: after 65,534 refusals, after one more, and after two more.
#[test]
fn count_is_held_at_65535() {
    for id in [1, 2] {
        let mut run = Run {
            controller: Controller::reset(2, 1),
        };
        run.accept(trigger(id));
        let mut expected = run.controller.clone();
        for refusals in 1..=65_537_u32 {
            let answer = run.execute(trigger(id));
            assert_eq!((answer.number, answer.id, answer.cycles), (6, 0, 0));
            if refusals >= 65_533 {
                expected.source_mut(SourceId(id)).dropped = refusals.min(65_535) as u16;
                assert_eq!(run.controller, expected, "{refusals} refusals");
            }
        }
        assert_eq!(run.source(id).dropped, 65_535);
    }
}

/// The same in the simulation of the routines, where a running request is triggered again and again.
#[test]
fn count_is_held_at_65535_in_the_simulation() {
    let mut run = ByHand::table(2, 1);
    run.accept(&[crate::routines::trigger(2), crate::routines::enter(0)]);
    let mut routines: Routines = run.0.simulation().routines;
    for refusals in 1..=65_537_u32 {
        let answer = routines::call(&mut routines, crate::routines::trigger(2));
        assert_eq!((answer.number, answer.id, answer.cycles), (6, 0, 0));
        let dropped = u32::from(routines.controller.sources[1].dropped);
        assert_eq!(dropped, refusals.min(65_535));
    }
    assert_eq!(counts(&routines.controller), [0, 65_535]);
    assert_eq!(routines.active[0], SourceId(2));
}

/// Each source's count is the number of its triggers answered 6, by commands and answers alone.
#[test]
fn counts_are_those_of_the_history() {
    let mut dropped = 0;
    for history in random_histories(run_seed() ^ 13, 100, 400) {
        assert_eq!(first_breach(&Reference, &history), None, "{}", history.seed);
        dropped += drops_of(&history).all();
    }
    println!("{dropped} dropped triggers of 40000 commands");
    assert!(dropped > 100);
}

/// The drops of a history, by the reference's answers.
fn drops_of(history: &History) -> Drops {
    let mut state = Controller::reset(history.n, history.m);
    let mut drops = Drops::reset(history.n);
    for &command in &history.commands {
        let number = Reference.execute(&mut state, command).number;
        drops.enter(command, number);
    }
    drops
}

/// A run from a fresh controller in which about every other command is a trigger that is dropped.
fn dropping(seed: u64, n: u16, m: u16, length: usize, mix: Mix) -> History {
    let fresh = Controller::reset(n, m);
    History {
        seed,
        n,
        m,
        commands: generate::dropping_from(seed, &fresh, length, mix),
    }
}

#[test]
fn counts_of_many_dropped_triggers_are_those_of_the_history() {
    let mut random = Random::new(run_seed());
    for (n, m) in [(1, 1), (2, 1), (4, 3), (8, 2), (32, 2), (128, 32)] {
        for mix in Mix::ALL {
            let history = dropping(random.bits(), n, m, 600, mix);
            assert_eq!(first_breach(&Reference, &history), None, "({n}, {m})");
            let dropped = drops_of(&history).all();
            assert!(dropped > 200, "n = {n}, m = {m}, {mix:?}: {dropped}");
        }
    }
}

/// Handed-in counts go on from where they are, also from the last two.
#[test]
fn counts_of_any_value_are_counted_on() {
    let mut random = Random::new(run_seed());
    let (mut held, mut reached) = (0, 0);
    for history in random_histories(run_seed() ^ 14, 60, 200) {
        let end = generate::final_state(&history);
        let mut state = generate::counted(&mut random, &end);
        assert!(well_formed(&state));
        for command in generate::dropping_from(random.bits(), &state, 100, Mix::Busy) {
            let before = counts(&state);
            let number = Reference.execute(&mut state, command).number;
            let mut expected = before.clone();
            if let (Command::Trigger(SourceId(id)), 6) = (command, number) {
                let count = &mut expected[usize::from(id) - 1];
                held += usize::from(*count == 65_535);
                reached += usize::from(*count == 65_534);
                *count = (u32::from(*count) + 1).min(65_535) as u16;
            }
            assert_eq!(counts(&state), expected);
        }
    }
    println!("{held} at 65,535, {reached} at 65,534");
    assert!(held > 50 && reached > 10);
}

/// Broken states have counts past n, and states one field away other counts of sources in use, with which they are sound.
#[test]
fn damage_reaches_counts_past_n_and_in_use() {
    let mut random = Random::new(run_seed());
    let history = generate::history(random.bits(), 8, 2, 200, Mix::Busy);
    let sound = generate::counted(&mut random, &generate::final_state(&history));
    let (mut in_use, mut past_n) = (0, 0);
    for _ in 0..40 {
        for state in damage::broken_states(&mut random, &sound) {
            let pairs = state.sources.iter().zip(&sound.sources);
            let changed = pairs.map(|(a, b)| a.dropped != b.dropped);
            let Some(place) = changed.into_iter().position(|changed| changed) else {
                continue;
            };
            past_n += usize::from(place >= 8);
            let mut restored = state.clone();
            restored.sources[place].dropped = sound.sources[place].dropped;
            if restored == sound {
                assert_eq!(well_formed(&state), place < 8, "source {}", place + 1);
                in_use += usize::from(place < 8);
            }
        }
    }
    println!("{in_use} counts in use, {past_n} past n");
    assert!(in_use > 20 && past_n > 20);
}

fn beside_the_reference<M: Model>(model: &M, seed: u64) -> Comparison<'_, Reference, M> {
    Comparison {
        left: &Reference,
        right: model,
        seed,
    }
}

/// So that each fault alone is what tells.
#[test]
fn model_without_a_fault_agrees_with_the_reference() {
    let model = &FaultyDrops {
        fault: DropFault::None,
    };
    for seed in run_seeds(20) {
        if let Some(difference) = beside_the_reference(model, seed).round(300) {
            panic!("{difference}");
        }
        let history = dropping(seed, 8, 2, 300, Mix::Turnover);
        assert_eq!(first_breach(model, &history), None);
    }
}

#[test]
fn every_wrong_count_is_found_in_a_few_rounds() {
    for fault in DropFault::all() {
        let model = &FaultyDrops { fault };
        let mut seeds = run_seeds(100).into_iter();
        let found = seeds.find_map(|seed| beside_the_reference(model, seed).round(100));
        let difference = found.unwrap_or_else(|| panic!("{fault:?}"));
        println!("{fault:?}: {}", difference.part);
    }
}

/// By the counts and the answers of a run from a fresh controller, without another model beside it.
#[test]
fn every_wrong_count_is_found_by_the_history() {
    let histories: Vec<History> = run_seeds(24)
        .into_iter()
        .zip([(2, 1), (4, 3), (8, 2), (32, 2)].repeat(6))
        .map(|(seed, (n, m))| dropping(seed, n, m, 400, Mix::Turnover))
        .collect();
    for fault in DropFault::OF_RUNS {
        let model = &FaultyDrops { fault };
        let told = |history: &&History| first_breach(model, history).is_some();
        let told = histories.iter().filter(told).count();
        println!("{fault:?}: told by {told} of {}", histories.len());
        assert!(told > 0, "{fault:?}");
    }
}

/// A run of 65,536 refusals tells these, each at its own place: 255, 65,534 and 65,535 refusals are right.
#[test]
fn wrong_high_counts_are_found_by_a_long_run() {
    let history = triggers_of(1, 65_537);
    assert_eq!(first_breach(&Reference, &history), None);
    for (fault, place) in [
        (DropFault::HeldAt255, 256),
        (DropFault::HeldAt65534, 65_535),
        (DropFault::Wraps, 65_536),
    ] {
        assert!(DropFault::OF_HIGH_COUNTS.contains(&fault));
        let breach = first_breach(&FaultyDrops { fault }, &history);
        assert_eq!(breach.map(|(index, _)| index), Some(place), "{fault:?}");
    }
}
