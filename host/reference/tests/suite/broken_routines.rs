//! The test of a simulation of the routines, and the refusal of every call on a broken one.

use std::collections::BTreeSet;

use psic_reference::random::{run_seed, Random};
use psic_reference::records::{CoreNumber, SourceId, MAX_CORES, MAX_SOURCES};
use psic_reference::routines::compare::broken_from;
use psic_reference::routines::damage::{damaged_in_pairs, damaged_singly, one_field_away, Damage};
use psic_reference::routines::{runs, sound, violated, Clause, Routines, Simulation, NONE};

use crate::routines::{enter, random_runs, trigger, ByHand};

/// Every kind of call is refused by 1 with id 0 and 0 cycles, and nothing changes, the table neither.
fn assert_refused_by_1(random: &mut Random, broken: &Routines) {
    let (n, m) = (broken.controller.n, broken.controller.m);
    let given = Simulation {
        routines: broken.clone(),
        handovers: runs::table(random),
    };
    for call in runs::one_of_each(random, n, m) {
        let mut after = given.clone();
        let answer = after.call(call);
        let numbers = (answer.number, answer.id, answer.cycles);
        assert_eq!(numbers, (1, 0, 0), "{call:?} on {broken:?}");
        assert_eq!(after, given, "{call:?}");
    }
}

/// Sound simulations of many sizes.
pub fn sound_ones(seed: u64, count: usize) -> Vec<Routines> {
    let runs = random_runs(seed, count, 400);
    runs.iter().map(|run| runs::end(run).routines).collect()
}

#[test]
fn each_damage_is_refused_by_1() {
    let mut random = Random::new(run_seed());
    let (mut made, mut alone) = (BTreeSet::new(), BTreeSet::new());
    for sound in sound_ones(run_seed(), 40) {
        for (damage, broken) in damaged_singly(&mut random, &sound) {
            assert_refused_by_1(&mut random, &broken);
            made.insert(damage);
            if let [clause] = violated(&broken)[..] {
                alone.insert((damage, clause));
            }
        }
    }
    assert_eq!(made, BTreeSet::from(Damage::ALL));
    // A request on two cores was last held by one of them at most, and a core past m with a priority is the controller's matter too.
    let with_another = [Damage::ActiveTwice, Damage::PriorityPastM];
    for damage in Damage::ALL {
        let own = alone.contains(&(damage, damage.clause()));
        assert_ne!(own, with_another.contains(&damage), "{damage:?}");
    }
    let broken: BTreeSet<Clause> = alone.into_iter().map(|(_, clause)| clause).collect();
    assert_eq!(broken, BTreeSet::from(Clause::ALL));
}

#[test]
fn each_pair_of_damages_is_refused_by_1() {
    let mut random = Random::new(run_seed());
    let mut pairs = BTreeSet::new();
    for sound in sound_ones(run_seed() ^ 2, 40) {
        for (pair, broken) in damaged_in_pairs(&mut random, &sound) {
            assert_refused_by_1(&mut random, &broken);
            pairs.insert(pair);
        }
    }
    for (at, &second) in Damage::ALL.iter().enumerate() {
        for &first in &Damage::ALL[at + 1..] {
            assert!(pairs.contains(&(first, second)), "{first:?}, {second:?}");
        }
    }
}

#[test]
fn one_number_away_a_simulation_is_sound_or_refused_by_1() {
    let mut random = Random::new(run_seed());
    let (mut still_sound, mut broken) = (0, 0);
    for sound_one in sound_ones(run_seed() ^ 3, 20) {
        for _ in 0..60 {
            let away = one_field_away(&mut random, &sound_one);
            if sound(&away) {
                still_sound += 1;
            } else {
                broken += 1;
                assert_refused_by_1(&mut random, &away);
            }
        }
    }
    println!("{still_sound} sound, {broken} broken");
    assert!(still_sound > 100 && broken > 1000);
}

/// Every field may hold anything: the test answers, and any call too.
#[test]
fn any_simulation_is_answered() {
    let mut random = Random::new(run_seed());
    for sound_one in sound_ones(run_seed() ^ 4, 20) {
        for _ in 0..20 {
            let mut any = sound_one.clone();
            any.active = [(); MAX_CORES].map(|()| SourceId(random.any()));
            let holder = |random: &mut Random| random.any().checked_sub(1).map(CoreNumber);
            any.holder = [(); MAX_SOURCES].map(|()| holder(&mut random));
            assert_refused_by_1(&mut random, &any);
            (any.controller.n, any.controller.m) = (random.any(), random.any());
            assert_refused_by_1(&mut random, &any);
        }
    }
}

/// An edit of a simulation in which core 0 runs 4 of 32, m = 2, and the clauses that it breaks.
type Edit = (&'static [Clause], fn(&mut Routines));

const EDITS: [Edit; 17] = [
    (&[Clause::ControllerSound], |r| {
        r.controller.sources[8].configured = 0
    }),
    (&[Clause::ActiveOnOneCore], |r| {
        r.active[0] = NONE;
        r.controller.cores[0].configured = 0;
    }),
    (&[Clause::ActiveOnOneCore, Clause::OthersAtZero], |r| {
        r.active[0] = NONE
    }),
    (&[Clause::ActiveOnOneCore, Clause::LastHeldThere], |r| {
        r.active[1] = SourceId(4);
        r.controller.cores[1].configured = 4;
    }),
    (&[Clause::AtItsPriority], |r| {
        r.controller.cores[0].configured = 5
    }),
    (&[Clause::AtItsPriority], |r| {
        r.controller.cores[0].configured = 3
    }),
    (&[Clause::LastHeldThere], |r| r.holder[3] = None),
    (&[Clause::LastHeldThere], |r| {
        r.holder[3] = Some(CoreNumber(1))
    }),
    (&[Clause::OthersAtZero], |r| {
        r.controller.cores[1].configured = 1
    }),
    (&[Clause::OthersIdle], |r| r.active[1] = SourceId(5)),
    (&[Clause::OthersIdle], |r| r.active[1] = SourceId(33)),
    (&[Clause::OthersIdle], |r| r.active[2] = SourceId(4)),
    (&[Clause::OthersIdle], |r| r.active[31] = SourceId(65535)),
    (&[Clause::ControllerSound, Clause::OthersAtZero], |r| {
        r.controller.cores[31].configured = 1
    }),
    (&[Clause::HoldersBelowM], |r| {
        r.holder[8] = Some(CoreNumber(2))
    }),
    (&[Clause::HoldersBelowM], |r| {
        r.holder[100] = Some(CoreNumber(2))
    }),
    (&[Clause::HoldersBelowM], |r| {
        r.holder[127] = Some(CoreNumber(65534))
    }),
];

#[test]
fn each_edit_breaks_its_clauses_and_is_refused_by_1() {
    let mut random = Random::new(run_seed());
    let mut run = ByHand::table(32, 2);
    run.accept(&[trigger(4), enter(0)]);
    let one = run.0.simulation().routines;
    for (clauses, edit) in EDITS {
        let mut broken = one.clone();
        edit(&mut broken);
        assert_eq!(violated(&broken), clauses);
        assert_refused_by_1(&mut random, &broken);
    }
}

/// "Below m", of any source, is all that is asked of who held a request that isn't running.
#[test]
fn holder_of_a_request_that_is_not_running_may_be_any_core() {
    let mut run = ByHand::table(32, 2);
    run.accept(&[trigger(4), enter(0)]);
    for source in (0..MAX_SOURCES).filter(|&source| source != 3) {
        for core in [0, 1] {
            let mut held = run.0.simulation().routines;
            held.holder[source] = Some(CoreNumber(core));
            assert!(sound(&held), "source {}", source + 1);
        }
    }
}

/// The workload that the library is compared on has every damage, singly and in pairs.
#[test]
fn broken_simulations_are_unsound() {
    let mut random = Random::new(run_seed());
    for sound_one in sound_ones(run_seed() ^ 7, 10) {
        let broken = broken_from(&mut random, &sound_one);
        assert!(broken.iter().all(|broken| !sound(broken)));
        assert!(broken.len() > 10);
    }
}
