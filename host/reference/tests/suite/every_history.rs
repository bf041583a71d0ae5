//! Every history of a small size, of any length, over a small alphabet of commands.

use std::collections::HashSet;

use psic_reference::demand3;
use psic_reference::dropped::{check_accepted, check_refused};
use psic_reference::ledger::Ledger;
use psic_reference::records::{Command, Controller, Core, Source};
use psic_reference::reference;

use crate::histories::{
    claim, complete, mask, redeliver, set_core, set_source, trigger, unmask, Step,
};

/// After every command demand 3 holds with every placement tried, a refused command has changed
/// nothing but the count of a trigger refused by 6, an accepted one no count (request 7/14), a pending
/// request's priority is its source's (request 5/14), and the state is sound: no command is answered
/// by 1.
fn assert_every_history(n: u16, m: u16) {
    let commands = alphabet(n, m, &[1, 2, 3], &[0, 1, 2, 3]);
    for_every_history(n, m, &commands, |step| {
        let checked = demand3::check(step.ledger, step.after, step.answer)
            .and_then(|()| demand3::check_every_placement(step.ledger, step.after));
        if let Err(reason) = checked {
            panic!("{:?} on {:?}: {reason}", step.command, step.before);
        }
        let number = step.answer.number;
        assert_ne!(number, 1, "{:?}", step.before);
        let checked = check_refused(step.before, step.command, number, step.after)
            .and_then(|()| check_accepted(step.before, number, step.after));
        assert_eq!(checked, Ok(()), "{:?} on {:?}", step.command, step.before);
        let mut sources = step.after.used_sources().iter();
        assert!(sources.all(|source| !source.pending || source.request == source.configured));
    });
}

#[test]
fn every_history_of_one_source_and_one_core_holds() {
    assert_every_history(1, 1);
}

#[test]
fn every_history_of_one_source_and_two_cores_holds() {
    assert_every_history(1, 2);
}

#[test]
fn every_history_of_two_sources_and_one_core_holds() {
    assert_every_history(2, 1);
}

#[test]
fn every_history_of_two_sources_and_two_cores_holds() {
    assert_every_history(2, 2);
}

/// Every command over these priorities, ids 1 to n and cores 0 to m-1, and two out of range.
pub fn alphabet(
    n: u16,
    m: u16,
    source_priorities: &[u16],
    core_priorities: &[u16],
) -> Vec<Command> {
    let mut commands = vec![trigger(n + 1), claim(m)];
    for id in 1..=n {
        commands.extend(source_priorities.iter().map(|&p| set_source(id, p)));
        commands.extend([
            mask(id),
            unmask(id),
            trigger(id),
            redeliver(id),
            complete(id),
        ]);
    }
    for core in 0..m {
        commands.extend(core_priorities.iter().map(|&p| set_core(core, p)));
        commands.push(claim(core));
    }
    commands
}

/// Visits the last step of every history over the alphabet, of any length. Histories that reach
/// one state with one ledger go on alike, whatever it counted, so they are followed once. Gives the
/// number of states reached.
pub fn for_every_history(
    n: u16,
    m: u16,
    alphabet: &[Command],
    mut visit: impl FnMut(Step),
) -> usize {
    let start = (Controller::reset(n, m), Ledger::reset(n, m));
    let mut seen = HashSet::from([key(&start.0, &start.1)]);
    let mut open = vec![start];
    while let Some((before, ledger_before)) = open.pop() {
        for &command in alphabet {
            let mut after = before.clone();
            let answer = reference::execute(&mut after, command);
            let mut ledger = ledger_before.clone();
            ledger.enter(command, answer.number, answer.id).unwrap();
            visit(Step {
                before: &before,
                command,
                answer,
                after: &after,
                ledger: &ledger,
            });
            if seen.insert(key(&after, &ledger)) {
                open.push((after, ledger));
            }
        }
    }
    seen.len()
}

/// State and ledger without the records past the sizes, which a sound state keeps fresh, and without
/// the counts, on which nothing else depends.
fn key(controller: &Controller, ledger: &Ledger) -> (Vec<Source>, Vec<Core>, Ledger) {
    let uncounted = |&source: &Source| Source {
        dropped: 0,
        ..source
    };
    (
        controller.used_sources().iter().map(uncounted).collect(),
        controller.used_cores().to_vec(),
        ledger.clone(),
    )
}
