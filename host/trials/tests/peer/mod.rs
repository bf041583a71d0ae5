//! The model that the library's speed is held against does what the reference does: with its test of a list's start on any state, and
//! without it on sound ones.

use psic_reference::compare::{Comparison, Difference};
use psic_reference::damage;
use psic_reference::generate::{self, History, Mix};
use psic_reference::model::Reference;
use psic_reference::random::{run_seed, run_seeds, Random};
use psic_reference::well_formed::Clause;
use psic_trials::peer::Peer;

use crate::first_difference;

#[test]
fn the_peer_agrees_with_the_reference() {
    if let Some(difference) = first_difference(&Peer::Tested, 400, 500) {
        panic!("{difference}");
    }
}

/// A long history by single commands and as one list.
fn first_difference_in(peer: Peer, history: &History) -> Option<Difference> {
    let comparison = Comparison {
        left: &Reference,
        right: &peer,
        seed: history.seed,
    };
    let list = comparison.list(history);
    list.or_else(|| comparison.history(history))
}

#[test]
fn long_histories_of_the_peer_agree_with_the_reference() {
    let mut random = Random::new(run_seed());
    for (n, m) in [(1, 1), (8, 1), (32, 2), (128, 4), (128, 32), (3, 32)] {
        for mix in Mix::ALL {
            let history = generate::history(random.bits(), n, m, 10_000, mix);
            for peer in [Peer::Tested, Peer::Untested] {
                if let Some(difference) = first_difference_in(peer, &history) {
                    panic!("{difference}");
                }
            }
        }
    }
}

/// A list that goes on without the test is told where it starts from a state with a candidate above the least core.
#[test]
fn a_peer_that_leaves_the_test_out_is_found() {
    let mut told = 0;
    for seed in run_seeds(20) {
        let mut random = Random::new(seed);
        let history = generate::history(random.bits(), 8, 2, 300, Mix::Turnover);
        let sound = generate::final_state(&history);
        let broken = damage::violated_singly(&mut random, &sound);
        for (_, state) in broken
            .iter()
            .filter(|(clause, _)| *clause == Clause::NoCandidateAboveLeast)
        {
            let commands = generate::one_of_each(&mut random, 8, 2);
            let comparison = |right| Comparison {
                left: &Reference,
                right,
                seed,
            };
            assert_eq!(comparison(&Peer::Tested).list_from(state, &commands), None);
            let difference = comparison(&Peer::Untested).list_from(state, &commands);
            assert!(difference.is_some(), "seed {seed}");
            told += 1;
        }
    }
    assert!(
        told > 0,
        "some state of the run has a place for a high candidate"
    );
}
