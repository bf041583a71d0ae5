//! The lent forms.

use std::collections::HashSet;

use psic_reference::generate::{self, Mix};
use psic_reference::random::{run_seed, Random};
use psic_reference::records::{Command, Core, MessageBox, Source};
use psic_reference::reference::{
    claim_in_place, execute, highest_candidate, highest_in, ranges_in,
};

use crate::histories::random_histories;

fn candidate(request: u16) -> Source {
    Source {
        configured: 1,
        masked: false,
        pending: true,
        delivered: false,
        request,
        dropped: 0,
    }
}

fn filled(configured: u16, id: u16, priority: u16) -> Core {
    Core {
        configured,
        message: MessageBox {
            filled: true,
            dirty: false,
            id,
            priority,
        },
    }
}

fn assert_refused(lent: Core, number: u8) {
    let mut core = lent;
    assert_eq!(claim_in_place(&mut core), (number, 0), "{lent:?}");
    assert_eq!(core, lent);
}

#[test]
fn search_finds_the_first_highest_candidate() {
    let mut random = Random::new(run_seed());
    for _ in 0..5000 {
        let sources = generate::borrowed_sources(&mut random);
        let (number, found) = highest_in(&sources);
        if sources.len() > 128 {
            assert_eq!((number, found), (2, 0));
            continue;
        }
        assert_eq!(number, 0);
        let requests = sources.iter().filter(|source| source.is_candidate());
        let highest = requests.map(|source| source.request).max();
        let first = sources
            .iter()
            .position(|source| source.is_candidate() && Some(source.request) == highest);
        assert_eq!(usize::from(found), first.map_or(0, |position| position + 1));
    }
}

#[test]
fn search_of_an_empty_list_finds_none() {
    assert_eq!(highest_in(&[]), (0, 0));
}

#[test]
fn search_finds_a_candidate_of_priority_0() {
    assert_eq!(highest_in(&[Source::RESET, candidate(0)]), (0, 2));
    assert_eq!(highest_in(&[candidate(0), candidate(0)]), (0, 1));
}

/// Request 7/14: neither among candidates of one priority nor of whether a record is one.
#[test]
fn search_does_not_look_at_the_counts() {
    let with = |source: Source, dropped| Source { dropped, ..source };
    for counts in [[0, 65535], [65535, 0], [1, 2], [65534, 65535]] {
        let [first, second] = counts.map(|dropped| with(candidate(3), dropped));
        assert_eq!(highest_in(&[first, second]), (0, 1));
        assert_eq!(ranges_in(&[first, second]), (0, 3));
        let idle = with(Source::RESET, counts[0]);
        assert_eq!(highest_in(&[idle, idle, second]), (0, 3));
        assert_eq!(ranges_in(&[idle, idle, second]), (0, 2));
    }
}

#[test]
fn search_takes_128_records_and_refuses_129() {
    let mut sources = vec![Source::RESET; 128];
    sources[127] = candidate(65535);
    assert_eq!(highest_in(&sources), (0, 128));
    sources.push(candidate(1));
    assert_eq!(highest_in(&sources), (2, 0));
}

#[test]
fn search_agrees_with_arbitration_on_every_state() {
    for history in random_histories(run_seed() ^ 10, 100, 300) {
        let controller = generate::final_state(&history);
        let sources = controller.used_sources();
        let expected = highest_candidate(sources).map_or(0, |id| id.0);
        assert_eq!(highest_in(sources), (0, expected), "seed {}", history.seed);
    }
}

/// The ranges on the path from the whole list down to one record, each by its start and its length.
fn path(length: usize, position: usize) -> Vec<(usize, usize)> {
    let (mut start, mut length) = (0, length);
    let mut ranges = vec![(start, length)];
    while length > 1 {
        let left = length - length / 2;
        if position < start + left {
            length = left;
        } else {
            (start, length) = (start + left, length - left);
        }
        ranges.push((start, length));
    }
    ranges
}

/// The least d with 2^d at least the length.
fn depth(length: usize) -> usize {
    (0..).find(|&d| 1 << d >= length).expect("there is one")
}

fn ranges(sources: &[Source]) -> usize {
    let (number, ranges) = ranges_in(sources);
    assert_eq!(number, 0);
    usize::from(ranges)
}

#[test]
fn ranges_looked_into_are_those_on_the_paths_to_candidates() {
    let mut random = Random::new(run_seed());
    for length in 0..=128 {
        for sources in generate::lists_of(&mut random, length) {
            let candidates = (0..length).filter(|&position| sources[position].is_candidate());
            let paths: HashSet<_> = candidates.flat_map(|at| path(length, at)).collect();
            assert_eq!(ranges(&sources), paths.len(), "{sources:?}");
        }
    }
}

#[test]
fn ranges_looked_into_are_at_most_d_plus_1_for_each_candidate() {
    let mut random = Random::new(run_seed());
    for length in 0..=128 {
        for sources in generate::lists_of(&mut random, length) {
            let candidates = sources.iter().filter(|source| source.is_candidate());
            let candidates = candidates.count();
            assert!(ranges(&sources) <= (depth(length) + 1) * candidates);
            assert_eq!(ranges(&sources) == 0, candidates == 0);
        }
        let all = vec![candidate(3); length];
        assert_eq!(ranges(&all), (2 * length).saturating_sub(1));
    }
}

/// With 2^d records every path has d + 1 ranges, so that the bound is reached.
#[test]
fn bound_of_the_ranges_is_reached() {
    for d in 0..=7 {
        for position in 0..1 << d {
            let mut sources = vec![Source::RESET; 1 << d];
            sources[position] = candidate(0);
            assert_eq!(ranges(&sources), d + 1);
        }
    }
}

#[test]
fn ranges_at_the_edges() {
    let idle = Source::RESET;
    let two_of_five = [candidate(0), idle, idle, idle, candidate(3)];
    assert_eq!(ranges_in(&[]), (0, 0));
    assert_eq!(ranges_in(&[idle]), (0, 0));
    assert_eq!(ranges_in(&[candidate(0)]), (0, 1));
    assert_eq!(ranges_in(&[idle, idle, candidate(9)]), (0, 2));
    assert_eq!(ranges_in(&[candidate(9), idle, idle]), (0, 3));
    assert_eq!(ranges_in(&two_of_five), (0, 6));
    assert_eq!(ranges_in(&[candidate(9); 128]), (0, 255));
    assert_eq!(ranges_in(&[candidate(9); 129]), (2, 0));
}

#[test]
fn claim_in_place_is_the_claim_of_the_core() {
    let mut random = Random::new(run_seed());
    for _ in 0..100 {
        let (n, m) = generate::sizes(&mut random);
        let history = generate::history(random.bits(), n, m, 300, Mix::Busy);
        let controller = generate::final_state(&history);
        for core in controller.core_numbers() {
            let mut lent = *controller.core(core);
            let mut after = controller.clone();
            let answer = execute(&mut after, Command::Claim(core));
            assert_eq!(claim_in_place(&mut lent), (answer.number, answer.id));
            assert_eq!(lent, *after.core(core));
        }
    }
}

#[test]
fn claim_in_place_empties_the_box() {
    let mut core = filled(510, 128, 511);
    assert_eq!(claim_in_place(&mut core), (0, 128));
    assert_eq!((core.configured, core.message), (511, MessageBox::EMPTY));
}

#[test]
fn bad_filled_record_is_refused_by_1_and_left_as_lent() {
    for id in [0, 129, 256, 257, 65535] {
        assert_refused(filled(0, id, 1), 1);
    }
    for priority in [0, 512, 65535] {
        assert_refused(filled(0, 1, priority), 1);
    }
    for configured in [4, 5, 65535] {
        assert_refused(filled(configured, 1, 4), 1);
    }
    let mut dirty = filled(0, 1, 4);
    dirty.message.dirty = true;
    assert_refused(dirty, 1);
}

#[test]
fn empty_record_is_refused_by_7_whatever_it_holds() {
    let mut random = Random::new(run_seed());
    for _ in 0..2000 {
        let mut lent = generate::borrowed_core(&mut random);
        lent.message.filled = false;
        assert_refused(lent, 7);
    }
}
