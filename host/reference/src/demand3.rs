//! Demand 3, checked after one command: the cores show the m highest priorities there are. Beyond
//! it, request 2/14: no placement that shows the same fills fewer boxes.
//!
//! Only boxes and the cores' own current priorities are read from the state. All else is the
//! ledger's.

use std::cmp::Reverse;

use crate::generate::History;
use crate::ledger::Ledger;
use crate::model::Model;
use crate::records::{Answer, Controller, Core};

/// A request that a placement may give to a core.
#[derive(Clone, Copy, Debug, PartialEq, Eq)]
struct Placeable {
    id: u16,
    priority: u16,
}

/// Where demand 3 or the count of boxes doesn't hold, and why.
#[derive(Clone, Debug, PartialEq, Eq)]
pub struct Breach {
    /// The position of the command after which it doesn't hold.
    pub index: usize,
    /// What doesn't hold.
    pub reason: String,
}

/// Runs a history through a model from a fresh controller and checks demand 3 and the count of boxes after every command, with every
/// placement tried if asked for. Gives the first breach.
pub fn first_breach<M: Model>(
    model: &M,
    history: &History,
    every_placement: bool,
) -> Option<Breach> {
    let (_, mut state) = model.make(history.n, history.m);
    let mut ledger = Ledger::reset(history.n, history.m);
    for (index, &command) in history.commands.iter().enumerate() {
        let answer = model.execute(&mut state, command);
        let after = model.read(&state);
        let checked = ledger
            .enter(command, answer.number, answer.id)
            .and_then(|()| check(&ledger, &after, answer))
            .and_then(|()| match every_placement {
                true => check_every_placement(&ledger, &after),
                false => Ok(()),
            });
        if let Err(reason) = checked {
            return Some(Breach { index, reason });
        }
    }
    None
}

/// Checks demand 3 and the count of boxes without trying placements, for any size. The ledger has
/// the command entered.
pub fn check(ledger: &Ledger, after: &Controller, answer: Answer) -> Result<(), String> {
    let cores = cores_of(ledger, after);
    let placeable = placeable(ledger, cores);
    boxes_are_a_placement(ledger, cores, &placeable)?;
    shows_the_highest(ledger, cores, &placeable)?;
    fills_the_fewest(ledger, cores)?;
    let bound = 2 * ledger.cores.len();
    if usize::from(answer.cycles) > bound {
        return Err(format!("{} cycles, at most {bound} allowed", answer.cycles));
    }
    Ok(())
}

/// Tries every placement: sorted from the top, none is higher at any place, and one that shows the
/// same places as many requests as boxes are filled, or more. For small sizes.
pub fn check_every_placement(ledger: &Ledger, after: &Controller) -> Result<(), String> {
    let cores = cores_of(ledger, after);
    let (shown, filled) = (shown(cores), filled(cores));
    let mut free: Vec<u16> = placeable(ledger, cores)
        .iter()
        .map(|request| request.priority)
        .collect();
    let mut breach = None;
    for_every_placement(
        &ledger.cores,
        &mut free,
        &mut Vec::new(),
        0,
        &mut |current, placed| {
            let other = from_the_top(current.to_vec());
            if other.iter().zip(&shown).any(|(other, shown)| other > shown) {
                breach = Some(format!(
                    "the cores show {shown:?}, a placement gives {other:?}"
                ));
            } else if other == shown && placed < filled {
                breach = Some(format!(
                    "{filled} boxes are filled, a placement of {placed} shows {shown:?} too"
                ));
            }
        },
    );
    breach.map_or(Ok(()), Err)
}

/// The cores that the ledger knows of.
fn cores_of<'a>(ledger: &Ledger, after: &'a Controller) -> &'a [Core] {
    &after.cores[..ledger.cores.len()]
}

/// The requests whose priorities the collection holds: the open ones that lie in a box, and those
/// that wait unmasked. An open request lies in a box if a filled box names it, else it waits.
fn placeable(ledger: &Ledger, cores: &[Core]) -> Vec<Placeable> {
    ledger
        .open_requests()
        .filter(|&(id, _, masked)| {
            let boxed = cores
                .iter()
                .any(|core| core.message.filled && core.message.id == id.0);
            boxed || !masked
        })
        .map(|(id, priority, _)| Placeable { id: id.0, priority })
        .collect()
}

/// The boxes are a placement: a filled box has the id and priority of the request it places, which
/// is above its core's configured priority; no request is placed twice; a core given one has that
/// request's priority as its current one, any other its configured one.
fn boxes_are_a_placement(
    ledger: &Ledger,
    cores: &[Core],
    placeable: &[Placeable],
) -> Result<(), String> {
    let mut placed = Vec::new();
    for (number, core) in cores.iter().enumerate() {
        let message = core.message;
        let expected = if message.filled {
            let request = Placeable {
                id: message.id,
                priority: message.priority,
            };
            if !placeable.contains(&request) {
                return Err(format!("core {number} holds {request:?}, not an open one"));
            }
            if placed.contains(&request) {
                return Err(format!("core {number} holds {request:?} a second time"));
            }
            placed.push(request);
            let configured = ledger.cores[number];
            if request.priority <= configured {
                return Err(format!(
                    "core {number} holds {request:?}, not above its {configured}"
                ));
            }
            request.priority
        } else {
            ledger.cores[number]
        };
        let current = core.current_priority();
        if current != expected {
            return Err(format!("core {number} is at {current}, not {expected}"));
        }
    }
    Ok(())
}

/// The current priorities sorted from the top are the m highest of the collection: the cores'
/// configured priorities and those of the placeable requests.
fn shows_the_highest(
    ledger: &Ledger,
    cores: &[Core],
    placeable: &[Placeable],
) -> Result<(), String> {
    let shown = shown(cores);
    let requests = placeable.iter().map(|request| request.priority);
    let collection = from_the_top(ledger.cores.iter().copied().chain(requests).collect());
    let highest = &collection[..cores.len()];
    if shown != highest {
        return Err(format!(
            "the cores show {shown:?}, the highest are {highest:?}"
        ));
    }
    Ok(())
}

/// No placement that shows the same fills fewer boxes.
fn fills_the_fewest(ledger: &Ledger, cores: &[Core]) -> Result<(), String> {
    let (filled, fewest) = (filled(cores), fewest_placed(&ledger.cores, &shown(cores)));
    if filled > fewest {
        return Err(format!(
            "{filled} boxes are filled, {fewest} would show the same"
        ));
    }
    Ok(())
}

/// The fewest requests that a placement with these current priorities places, on cores with these
/// configured priorities. If more cores show a priority than are configured at it, the rest show
/// requests, in any placement. No more are needed: the boxes are a placement, so there are as many
/// requests of that priority, and as many cores to spare whose own priority isn't shown.
fn fewest_placed(configured: &[u16], shown: &[u16]) -> usize {
    let mut own = configured.to_vec();
    let is_placed = |priority: &&u16| match own.iter().position(|own| own == *priority) {
        Some(position) => {
            own.swap_remove(position);
            false
        }
        None => true,
    };
    shown.iter().filter(is_placed).count()
}

/// Calls `visit` with the current priorities under every placement of the free requests, given by
/// their priorities, on the cores, given by their configured priorities, and with the number of
/// requests it places. `current` holds the priorities of the cores that are decided on, and `placed`
/// counts the requests on them.
fn for_every_placement(
    configured: &[u16],
    free: &mut Vec<u16>,
    current: &mut Vec<u16>,
    placed: usize,
    visit: &mut impl FnMut(&[u16], usize),
) {
    let Some(&own) = configured.get(current.len()) else {
        visit(current, placed);
        return;
    };
    current.push(own);
    for_every_placement(configured, free, current, placed, visit);
    current.pop();
    for position in 0..free.len() {
        let request = free.remove(position);
        current.push(request);
        for_every_placement(configured, free, current, placed + 1, visit);
        current.pop();
        free.insert(position, request);
    }
}

/// The current priorities, sorted from the top.
fn shown(cores: &[Core]) -> Vec<u16> {
    from_the_top(cores.iter().map(Core::current_priority).collect())
}

/// The number of filled boxes.
fn filled(cores: &[Core]) -> usize {
    cores.iter().filter(|core| core.message.filled).count()
}

fn from_the_top(mut priorities: Vec<u16>) -> Vec<u16> {
    priorities.sort_unstable_by_key(|&priority| Reverse(priority));
    priorities
}

#[cfg(test)]
mod tests {
    use super::{fewest_placed, for_every_placement, from_the_top};
    use crate::random::{run_seed, Random};

    /// Two cores and two requests have seven placements: none, four of one, two of both.
    #[test]
    fn every_placement_is_tried_once() {
        let mut seen = Vec::new();
        let free = &mut vec![5, 6];
        for_every_placement(&[0, 1], free, &mut Vec::new(), 0, &mut |current, placed| {
            seen.push((placed, current.to_vec()));
        });
        seen.sort();
        let of = |placed, current: [u16; 2]| (placed, current.to_vec());
        let one = [[0, 5], [0, 6], [5, 1], [6, 1]].map(|current| of(1, current));
        let mut expected = vec![of(0, [0, 1])];
        expected.extend(one);
        expected.extend([of(2, [5, 6]), of(2, [6, 5])]);
        assert_eq!(seen, expected);
    }

    /// Whatever the cores are set to and a placement shows, the count is the least over all placements that show the same.
    #[test]
    fn fewest_placed_is_the_least_of_every_placement() {
        let mut random = Random::new(run_seed());
        for _ in 0..2000 {
            let (cores, requests) = (1 + random.below(4), random.below(5));
            let mut priorities = |count| (0..count).map(|_| random.within(0..=4)).collect();
            let configured: Vec<u16> = priorities(cores);
            let mut free: Vec<u16> = priorities(requests);
            let mut placements = Vec::new();
            for_every_placement(
                &configured,
                &mut free,
                &mut Vec::new(),
                0,
                &mut |current, placed| {
                    placements.push((from_the_top(current.to_vec()), placed));
                },
            );
            let (shown, _) = &placements[random.below(placements.len())];
            let alike = placements.iter().filter(|(other, _)| other == shown);
            let least = alike.map(|&(_, placed)| placed).min();
            assert_eq!(
                Some(fewest_placed(&configured, shown)),
                least,
                "{configured:?}, {free:?}, {shown:?}"
            );
        }
    }
}
