//! The histories are as they are meant to be.

use psic_reference::generate::{history, Mix};
use psic_reference::random::{run_seed, run_seeds};
use psic_reference::records::{Command, Controller};
use psic_reference::reference::least_cores;

use crate::histories::{deliveries_of, for_each_step, random_histories};

#[test]
fn same_seed_makes_the_same_history() {
    let made = |seed| history(seed, 32, 4, 500, Mix::Busy);
    let seeds = run_seeds(2);
    assert_eq!(made(seeds[0]), made(seeds[0]));
    assert_ne!(made(seeds[0]), made(seeds[1]));
}

#[test]
fn about_one_command_in_eight_is_refused() {
    let (mut refused, mut all) = (0, 0);
    for history in random_histories(run_seed(), 60, 500) {
        for_each_step(&history, |_, step| {
            refused += usize::from(step.answer.number != 0);
            all += 1;
        });
    }
    assert!(
        (all / 10..=all / 6).contains(&refused),
        "{refused} of {all}"
    );
}

#[test]
fn every_number_for_no_but_1_and_2_occurs_in_histories() {
    let mut seen = [0; 10];
    for history in random_histories(run_seed(), 60, 500) {
        for_each_step(&history, |_, step| {
            seen[usize::from(step.answer.number)] += 1;
        });
    }
    println!("{seen:?}");
    // Refusals 1 and 2 belong to broken states, to making and to lent lists.
    assert_eq!(seen[1..3], [0, 0]);
    assert!(seen[3..].iter().all(|&count| count > 100), "{seen:?}");
}

#[test]
fn busy_histories_keep_boxes_filled_and_use_every_command() {
    let seeds = run_seeds(16);
    for (n, m) in [(4, 2), (8, 4), (32, 2), (32, 8), (128, 32)] {
        let mut accepted = [0; 8];
        let (mut filled, mut boxes, mut most_cycles) = (0, 0, 0);
        for &seed in &seeds {
            let history = history(seed, n, m, 1000, Mix::Busy);
            for_each_step(&history, |_, step| {
                accepted[kind(step.command)] += usize::from(step.answer.number == 0);
                let cores = step.after.used_cores();
                filled += cores.iter().filter(|core| core.message.filled).count();
                boxes += cores.len();
                most_cycles = most_cycles.max(step.answer.cycles);
            });
        }
        let place = format!("n = {n}, m = {m}");
        println!("{place}: {accepted:?}, {filled} of {boxes} filled, {most_cycles} cycles");
        assert!(accepted.iter().all(|&count| count > 250), "{place}");
        assert!(filled > boxes / 3, "{place}");
    }
}

/// How often deliveries meet a tie between cores.
#[derive(Debug, Default)]
struct Ties {
    deliveries: usize,
    /// A filled and an empty box tie for the least current priority.
    mixed: usize,
    /// Of these: the lowest of the tied cores has an empty box, so document 01's own rule chose it.
    decisive: usize,
    /// Of these: the lowest has a filled one, so a rule for empty boxes chooses another.
    lowest_filled: usize,
    /// Several filled boxes tie, with empty ones or not.
    filled: usize,
    /// Empty boxes tie alone.
    empty: usize,
}

impl Ties {
    fn count(&mut self, before: &Controller) {
        let is_filled = least_cores(before)
            .into_iter()
            .map(|core| before.core(core).message.filled);
        let is_filled: Vec<bool> = is_filled.collect();
        let filled = is_filled.iter().filter(|&&filled| filled).count();
        let mixed = 0 < filled && filled < is_filled.len();
        self.deliveries += 1;
        self.mixed += usize::from(mixed);
        self.decisive += usize::from(mixed && !is_filled[0]);
        self.lowest_filled += usize::from(mixed && is_filled[0]);
        self.filled += usize::from(filled > 1);
        self.empty += usize::from(filled == 0 && is_filled.len() > 1);
    }
}

/// The ties of 16 histories of 1,000 commands each.
fn ties(n: u16, m: u16, mix: Mix) -> Ties {
    let mut ties = Ties::default();
    for seed in run_seeds(16) {
        for_each_step(&history(seed, n, m, 1000, mix), |_, step| {
            if step.answer.number == 0 {
                let delivering = deliveries_of(step.before, step.command);
                delivering.iter().for_each(|before| ties.count(before));
            }
        });
    }
    println!("n = {n}, m = {m}, {mix:?}: {ties:?}");
    ties
}

/// One command in 100 at least meets a tie of filled and empty boxes, and one in 400 such a tie that
/// document 01's own rule gave to an empty one.
#[test]
fn ties_of_filled_and_empty_boxes_occur_in_histories_made_for_them() {
    for (n, m) in [(2, 2), (4, 2), (4, 3), (8, 4), (32, 2), (32, 8), (128, 32)] {
        let found = ties(n, m, Mix::Tied);
        let place = format!("n = {n}, m = {m}");
        assert!(found.mixed > 16_000 / 100, "{place}");
        assert!(found.decisive > 16_000 / 400, "{place}");
        assert!(found.lowest_filled > 16_000 / 400, "{place}");
        assert!(found.empty > 0, "{place}");
        // Of two cores both boxes would have to tie.
        assert!(m == 2 || found.filled > 0, "{place}");
    }
}

/// They come in all histories, only more seldom.
#[test]
fn ties_of_filled_and_empty_boxes_occur_in_all_mixes() {
    for mix in Mix::ALL {
        for (n, m) in [(8, 4), (32, 8), (128, 32)] {
            assert!(ties(n, m, mix).decisive > 10, "n = {n}, m = {m}, {mix:?}");
        }
    }
}

#[test]
fn turnover_histories_accept_and_refuse_every_command() {
    for (n, m) in [(1, 1), (8, 1), (32, 2), (128, 4), (128, 32)] {
        let (mut accepted, mut refused) = ([0; 8], [0; 8]);
        let history = history(run_seed(), n, m, 10_000, Mix::Turnover);
        for_each_step(&history, |_, step| {
            let counts = match step.answer.number {
                0 => &mut accepted,
                _ => &mut refused,
            };
            counts[kind(step.command)] += 1;
        });
        let place = format!("n = {n}, m = {m}: {accepted:?} accepted, {refused:?} refused");
        println!("{place}");
        assert!(accepted.iter().all(|&count| count >= 200), "{place}");
        assert!(refused.iter().all(|&count| count >= 50), "{place}");
    }
}

fn kind(command: Command) -> usize {
    match command {
        Command::SetSourcePriority(..) => 0,
        Command::Mask(_) => 1,
        Command::Unmask(_) => 2,
        Command::SetCorePriority(..) => 3,
        Command::Trigger(_) => 4,
        Command::Claim(_) => 5,
        Command::Redeliver(_) => 6,
        Command::Complete(_) => 7,
    }
}
