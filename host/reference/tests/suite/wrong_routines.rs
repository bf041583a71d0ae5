//! Every wrong simulation is told from the reference, by comparing and by the properties of its runs.

use std::collections::BTreeSet;

use psic_reference::random::{run_seed, run_seeds, Random};
use psic_reference::routines::compare::{Comparison, Difference, Put, Reference, Simulator};
use psic_reference::routines::properties::follow;
use psic_reference::routines::runs::{self, Mix, Run};
use psic_reference::routines::{Clause, Listed, Simulation};

use crate::broken_routines::sound_ones;
use crate::faulty_routines::{FaultyRoutines, Kind, RoutineFault};
use crate::routines::random_runs;

fn first_difference(fault: RoutineFault, rounds: usize) -> Option<Difference> {
    run_seeds(rounds).into_iter().find_map(|seed| {
        let comparison = Comparison {
            left: &Reference,
            right: &FaultyRoutines { fault },
            seed,
        };
        comparison.round(300)
    })
}

/// So that each fault alone is what tells.
#[test]
fn simulation_without_a_fault_agrees_with_the_reference() {
    if let Some(difference) = first_difference(RoutineFault::None, 20) {
        panic!("{difference}");
    }
    for run in random_runs(run_seed() ^ 5, 4, 500) {
        let fault = RoutineFault::None;
        follow(&FaultyRoutines { fault }, &run).expect("it holds");
    }
}

/// Whether runs made for handovers tell a fault: by the comparison, and by the properties alone.
fn told_by_runs(fault: RoutineFault) -> [bool; 2] {
    let right = &FaultyRoutines { fault };
    // at the smallest every source soon has been held by each core
    let sizes = [(2, 2), (3, 3), (6, 2), (8, 3), (32, 2), (128, 4)];
    let seeds = run_seeds(sizes.len()).into_iter();
    let run = |(seed, (n, m))| runs::run(seed, n, m, 600, Mix::Handing);
    let runs: Vec<Run> = seeds.zip(sizes).map(run).collect();
    let compared = runs.iter().any(|run| {
        let comparison = Comparison {
            left: &Reference,
            right,
            seed: run.seed,
        };
        comparison.run(run).is_some()
    });
    let followed = runs.iter().any(|run| follow(right, run).is_err());
    [compared, followed]
}

/// Those that no property tells: they answer other cycles or another number for no.
const TOLD_BY_COMPARING_ALONE: [RoutineFault; 3] = [
    RoutineFault::CyclesOfTheFirstCommand,
    RoutineFault::EmptyBoxBeforeTheCore,
    RoutineFault::IdleCoreBeforeTheCore,
];

#[test]
fn every_wrong_run_is_found_by_comparing_and_by_the_properties() {
    for fault in RoutineFault::OF_RUNS {
        let [compared, followed] = told_by_runs(fault);
        println!("{fault:?}: told by comparing {compared}, by the properties {followed}");
        assert!(compared, "{fault:?}");
        assert_ne!(
            followed,
            TOLD_BY_COMPARING_ALONE.contains(&fault),
            "{fault:?}"
        );
    }
}

#[test]
fn every_fault_is_found_in_a_few_rounds() {
    let mut faults: Vec<RoutineFault> = Vec::new();
    faults.extend(RoutineFault::OF_RUNS);
    faults.extend(RoutineFault::OF_HIGH_COUNTS);
    faults.extend(RoutineFault::OF_LISTS);
    faults.extend(RoutineFault::OF_TESTS);
    faults.extend(Kind::ALL.map(RoutineFault::OnlyTheControllerTested));
    faults.extend(Clause::ALL.map(RoutineFault::Forgets));
    for fault in faults {
        let found = first_difference(fault, 200);
        let Difference { part, .. } = found.unwrap_or_else(|| panic!("{fault:?}"));
        println!("{fault:?}: {part}");
    }
}

/// Wrong lists agree call by call, and a wrong test agrees on every sound simulation.
#[test]
fn wrong_lists_and_tests_are_found_where_they_are_wrong() {
    for fault in RoutineFault::OF_LISTS {
        let found = first_difference(fault, 200).expect("it is found");
        let in_lists = matches!(found.put, Put::List(_));
        assert!(in_lists || fault == RoutineFault::CountWraps, "{fault:?}");
    }
    for fault in RoutineFault::OF_TESTS {
        let found = first_difference(fault, 200).expect("it is found");
        assert_eq!(found.left.1.number, 1, "{fault:?}");
        assert_eq!(found.right.1.number, 0, "{fault:?}");
    }
    for kind in Kind::ALL {
        let fault = RoutineFault::OnlyTheControllerTested(kind);
        let found = first_difference(fault, 200).expect("it is found");
        assert_eq!(found.left.1.number, 1, "{fault:?}");
        if let Put::Call(call) = found.put {
            assert_eq!(Kind::of(call), kind);
        }
    }
}

/// How many answers a list gives: its calls up to the first number that names none.
#[test]
fn number_that_names_no_call_ends_the_references_list() {
    let mut random = Random::new(run_seed());
    let mut ends = BTreeSet::new();
    let mut numbers = BTreeSet::new();
    for sound in sound_ones(run_seed() ^ 6, 30) {
        for list in runs::lists_from(&mut random, &sound) {
            let ended = list.iter().position(|entry| entry.call().is_none());
            let start = Simulation {
                routines: sound.clone(),
                handovers: runs::table(&mut random),
            };
            let (mut state, mut expected) = (start.clone(), start);
            let ran = Reference.run_listed(&mut state, &list);
            let taken = ended.unwrap_or(list.len());
            assert_eq!((ran.taken, ran.answers.len()), (taken as u64, taken));
            for (answer, entry) in ran.answers.iter().zip(&list) {
                let call = entry.call().expect("it is one");
                assert_eq!(*answer, expected.call(call));
            }
            assert_eq!(state, expected);
            ends.insert((list.len().min(3), ended.map(|place| place.min(1))));
            if let Some(Listed::Unreadable { number, .. }) = ended.map(|place| list[place]) {
                numbers.insert(number);
            }
        }
    }
    assert_eq!(ends.len(), 4 + 1 + 2 + 2, "{ends:?}");
    assert!([3, 5, 6, 7].iter().all(|number| numbers.contains(number)));
    assert!(runs::NUMBERS.iter().all(|number| !numbers.contains(number)));
}
