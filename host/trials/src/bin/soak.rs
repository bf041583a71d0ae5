//! A long comparison of the proved library with the reference model.
//!
//! usage: `soak [ROUNDS [LENGTH [SEED]]]` (default: 12000 rounds of 1000 commands, and a seed from the clock)
//!        `soak texts [COUNT [SEED]]` (default: 1000000 texts)
//!        `soak writings [COUNT [SEED]]` (default: 100000 runs)
//!        `soak routines [ROUNDS [LENGTH [SEED]]]` (default: 4000 rounds of 1000 calls)
//!
//! Each text is read, one in four also replayed, and the totals are printed by number. Each run is written into a buffer that fits it
//! exactly, or not, or amply.
//!
//! Each round of commands runs, from one printed seed, makings of any sizes, a history by single commands and as a list, the same from
//! sound states made from its end, with any counts of dropped triggers, one command of each kind and all of them as a list on broken
//! states made from its end, lists of several lengths from its end and from such states, and lent records. Each round of calls does the
//! same with a run of the interrupt routines and broken simulations. The first difference ends a run with status 1.

use std::time::{SystemTime, UNIX_EPOCH};

use psic_reference::compare::Comparison;
use psic_reference::damage;
use psic_reference::generate::{self, Mix};
use psic_reference::model::Reference;
use psic_reference::random::Random;
use psic_reference::routines;
use psic_reference::writing::compare;
use psic_trials::library::Library;
use psic_trials::recordings::{self, Trial};
use psic_trials::simulations;
use psic_trials::writings;

fn main() {
    let mut words = std::env::args().skip(1).peekable();
    let texts = words.next_if_eq("texts").is_some();
    let writings = words.next_if_eq("writings").is_some();
    let routines = words.next_if_eq("routines").is_some();
    let numbers = words.map(|word| {
        word.parse::<u64>()
            .unwrap_or_else(|_| panic!("{word} is no number"))
    });
    if texts {
        read_texts(numbers);
    } else if writings {
        write_runs(numbers);
    } else if routines {
        run_routines(numbers);
    } else {
        run_commands(numbers);
    }
}

fn read_texts(mut words: impl Iterator<Item = u64>) {
    let count = words.next().unwrap_or(1_000_000);
    let seed = words.next().unwrap_or_else(clock);
    println!("seed {seed}, {count} texts");
    let mut trial = Trial::new(seed);
    for position in 1..=count {
        if let Err(difference) = trial.step(&recordings::Library) {
            println!("text {position}: {difference}");
            std::process::exit(1);
        }
        if position % 100_000 == 0 {
            println!("{position} texts, no difference");
        }
    }
    let totals = &trial.totals;
    let (bytes, commands) = (totals.bytes, totals.commands);
    println!("{count} texts of {bytes} bytes with {commands} commands, 0 differences");
    for (number, texts) in &totals.texts {
        println!("number {number}: {texts} texts");
    }
    for (number, replays) in &totals.replays {
        println!("number {number}: {replays} replays");
    }
}

fn write_runs(mut words: impl Iterator<Item = u64>) {
    let count = words.next().unwrap_or(100_000);
    let seed = words.next().unwrap_or_else(clock);
    println!("seed {seed}, {count} runs");
    let mut trial = compare::Trial::new(seed);
    for position in 1..=count {
        if let Err(difference) = trial.step(&writings::Library) {
            println!("run {position}: {difference}");
            std::process::exit(1);
        }
        if position % 10_000 == 0 {
            println!("{position} runs, no difference");
        }
    }
    let totals = &trial.totals;
    let (bytes, commands) = (totals.bytes, totals.commands);
    println!("{count} runs, {bytes} bytes with {commands} commands written, 0 differences");
    for (number, calls) in &totals.calls {
        println!("number {number}: {calls} calls");
    }
}

fn run_commands(mut words: impl Iterator<Item = u64>) {
    let rounds = words.next().unwrap_or(12_000);
    let length = words.next().unwrap_or(1_000) as usize;
    let seed = words.next().unwrap_or_else(clock);
    println!("seed {seed}, {rounds} rounds of {length} commands");
    let mut seeds = Random::new(seed);
    let mut broken = 0;
    for round in 0..rounds {
        let seed = seeds.bits();
        let comparison = Comparison {
            left: &Reference,
            right: &Library,
            seed,
        };
        if let Some(difference) = comparison.round(length) {
            println!("round {round}: {difference}");
            std::process::exit(1);
        }
        broken += broken_states(seed, length);
        if (round + 1) % 1000 == 0 {
            println!(
                "{} commands and {broken} broken states, no difference",
                (round + 1) * length as u64
            );
        }
    }
    println!(
        "{} commands and {broken} broken states, 0 differences",
        rounds * length as u64
    );
}

fn run_routines(mut words: impl Iterator<Item = u64>) {
    let rounds = words.next().unwrap_or(4_000);
    let length = words.next().unwrap_or(1_000) as usize;
    let seed = words.next().unwrap_or_else(clock);
    println!("seed {seed}, {rounds} rounds of {length} calls");
    let mut seeds = Random::new(seed);
    for round in 1..=rounds {
        let comparison = routines::compare::Comparison {
            left: &routines::compare::Reference,
            right: &simulations::Library,
            seed: seeds.bits(),
        };
        if let Some(difference) = comparison.round(length) {
            println!("round {round}: {difference}");
            std::process::exit(1);
        }
        if round % 500 == 0 {
            println!("{} calls, no difference", round * length as u64);
        }
    }
    println!("{} calls, 0 differences", rounds * length as u64);
}

fn clock() -> u64 {
    SystemTime::now()
        .duration_since(UNIX_EPOCH)
        .map_or(1, |time| time.as_nanos() as u64)
}

/// How many broken states the round of this seed has.
fn broken_states(seed: u64, length: usize) -> usize {
    let mut random = Random::new(seed);
    let (n, m) = generate::sizes(&mut random);
    let mix = random.pick(&Mix::ALL);
    let history = generate::history(random.bits(), n, m, length, mix);
    let end = generate::counted(&mut random, &generate::final_state(&history));
    damage::broken_states(&mut random, &end).len()
}
