//! Lists: what is put to them, and that wrong ones are found by it.

use std::collections::BTreeSet;

use psic_reference::compare::{Call, Comparison, Difference};
use psic_reference::generate::{self, History, Mix};
use psic_reference::model::{Model, Reference};
use psic_reference::random::{run_seed, run_seeds, Random};
use psic_reference::records::{Controller, Listed};

use crate::faulty::{Fault, Faulty};
use crate::faulty_lists::{FaultyList, ListFault};
use crate::histories::{claim, complete, mask, set_core, set_source, trigger, unmask};
use crate::well_formed::clauses_that_fail_alone;

/// A history of random sizes, the sound state in which it ends, and the random numbers that go on from there.
fn ended(seed: u64) -> (History, Controller, Random) {
    let mut random = Random::new(seed);
    let (n, m) = generate::sizes(&mut random);
    let mix = random.pick(&Mix::ALL);
    let history = generate::history(random.bits(), n, m, 300, mix);
    let end = generate::final_state(&history);
    (history, end, random)
}

fn beside_the_reference<M: Model>(model: &M, seed: u64) -> Comparison<'_, Reference, M> {
    Comparison {
        left: &Reference,
        right: model,
        seed,
    }
}

/// The first difference from the reference in lists on the ends of so many histories, and on broken states made from them.
fn first_difference<M: Model>(model: &M, rounds: usize) -> Option<Difference> {
    run_seeds(rounds).into_iter().find_map(|seed| {
        let (_, end, mut random) = ended(seed);
        beside_the_reference(model, seed).lists(&mut random, &end)
    })
}

/// The same in histories that are each one list from a fresh controller.
fn first_difference_in_histories<M: Model>(model: &M, rounds: usize) -> Option<Difference> {
    run_seeds(rounds).into_iter().find_map(|seed| {
        let (history, ..) = ended(seed);
        beside_the_reference(model, seed).list(&history)
    })
}

/// So that each fault alone is what tells.
#[test]
fn lists_with_kept_numbers_agree_with_the_reference() {
    let fault = ListFault::None;
    if let Some(difference) = first_difference(&FaultyList { fault }, 200) {
        panic!("{difference}");
    }
    if let Some(difference) = first_difference_in_histories(&FaultyList { fault }, 200) {
        panic!("{difference}");
    }
}

/// By short lists from sound and unsound states, or by long ones from a fresh controller.
#[test]
fn every_wrong_list_is_found() {
    for fault in ListFault::ALL {
        let model = &FaultyList { fault };
        let mut short = first_difference(model, 200);
        let long = first_difference_in_histories(model, 200);
        if short.is_none() && long.is_none() {
            short = first_difference(model, 5_000);
        }
        let told = [&short, &long].map(Option::is_some);
        println!("{fault:?}: told by short lists, by long ones: {told:?}");
        assert!(short.is_some() || long.is_some(), "{fault:?}");
        if fault.is_of_unsound_starts() {
            assert_eq!(told, [true, false], "{fault:?}: a fresh start is sound");
        }
        for difference in [short, long].into_iter().flatten() {
            assert!(matches!(difference.call, Call::Run(_)), "{fault:?}");
        }
    }
}

/// A masked request gives way in a box, and stays masked: no core gets it, whatever its priority.
#[test]
fn a_masked_request_that_gave_way_is_no_candidate() {
    let history = History {
        seed: 0,
        n: 2,
        m: 1,
        commands: vec![
            set_source(2, 5),
            unmask(1),
            unmask(2),
            trigger(1),
            mask(1),
            trigger(2),
            claim(0),
            complete(2),
            set_core(0, 0),
        ],
    };
    let end = generate::final_state(&history);
    assert!(end.sources[0].is_waiting());
    assert!(!end.cores[0].message.filled);
    let right = &FaultyList {
        fault: ListFault::EvictedMaskedIsACandidate,
    };
    let difference = beside_the_reference(right, history.seed).list(&history);
    let Difference { left, right, .. } = difference.expect("the last command tells");
    assert_eq!((left.1.cycles, right.1.cycles), (0, 1));
}

/// A list that runs on from a start that violates any one clause is told there, by its first command.
#[test]
fn every_clause_that_a_lists_start_forgets_is_found() {
    for clause in clauses_that_fail_alone() {
        let fault = ListFault::StartForgets(clause);
        let found = first_difference(&FaultyList { fault }, 200);
        let difference = found.unwrap_or_else(|| panic!("{fault:?}"));
        let part = format!("lists on a state that violates {:?}", [clause]);
        assert_eq!(difference.part, part);
        assert_eq!(difference.left.1.number, 1, "{fault:?}");
        assert_ne!(difference.right.1.number, 1, "{fault:?}");
    }
}

/// Wrong controllers that single commands tell are told by lists too.
#[test]
fn wrong_commands_are_found_in_lists() {
    let faults = [
        Fault::TieToTheHigherId,
        Fault::TieToTheHigherCore,
        Fault::DeliversMasked,
        Fault::OnlyWrittenBoxDirty,
        Fault::ListEndsAtARefusal,
    ];
    for fault in faults {
        let found = first_difference(&Faulty { fault }, 200);
        let call = found.map(|difference| difference.call);
        assert!(matches!(call, Some(Call::Run(_))), "{fault:?}");
    }
}

/// How many answers a run of the reference gives: its commands up to the first number above 7.
#[test]
fn a_number_above_7_ends_the_references_list() {
    let (_, end, mut random) = ended(run_seed());
    let mut places = BTreeSet::new();
    for _ in 0..200 {
        for list in generate::lists_from(&mut random, &end) {
            let ended = list.iter().position(|entry| entry.command().is_none());
            let (mut state, mut expected) = (end.clone(), end.clone());
            let ran = Reference.run_listed(&mut state, &list);
            let taken = ended.unwrap_or(list.len());
            assert_eq!(ran.taken, taken as u64);
            assert_eq!(ran.answers.len(), taken);
            for (answer, entry) in ran.answers.iter().zip(&list) {
                let command = entry.command().expect("it is one");
                assert_eq!(*answer, Reference.execute(&mut expected, command));
            }
            assert_eq!(state, expected);
            places.insert((list.len().min(3), ended.map(|place| place.min(2))));
        }
    }
    // Whole lists and ended ones, of no entry, of one, of two and of more; ended at the first, the second and a later entry.
    let all = [
        (0, None),
        (1, None),
        (1, Some(0)),
        (2, None),
        (2, Some(0)),
        (2, Some(1)),
        (3, None),
        (3, Some(0)),
        (3, Some(1)),
        (3, Some(2)),
    ];
    assert_eq!(places, BTreeSet::from(all));
}

/// Every unreadable number can come, and what stands beside it may name a source or a core.
#[test]
fn numbers_above_7_are_of_all_kinds() {
    let (_, end, mut random) = ended(run_seed());
    let mut seen = BTreeSet::new();
    for _ in 0..4000 {
        for entry in generate::lists_from(&mut random, &end).concat() {
            if let Listed::Unreadable { number, .. } = entry {
                seen.insert(number);
            }
        }
    }
    assert_eq!(seen, (8..=255).collect());
}
