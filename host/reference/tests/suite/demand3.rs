//! Demand 3 and request 2/14's count of boxes, held against the ledger.

use psic_reference::demand3::{self, first_breach, Breach};
use psic_reference::generate::{self, History, Mix};
use psic_reference::ledger::{Ledger, Request};
use psic_reference::model::{Model, Reference};
use psic_reference::random::{run_seed, run_seeds, Random};
use psic_reference::records::{Answer, Command, Controller, MessageBox, SourceId};

use crate::faulty::{Fault, Faulty};
use crate::histories::{
    for_each_step, random_histories, run_of_request_2, set_core, set_source, trigger, unmask,
};

fn assert_no_breach(history: &History, every_placement: bool) {
    if let Some(Breach { index, reason }) = first_breach(&Reference, history, every_placement) {
        panic!(
            "n = {}, m = {}, seed {}, index {index}: {reason}",
            history.n, history.m, history.seed
        );
    }
}

#[test]
fn random_histories_of_small_sizes_with_every_placement() {
    let mut random = Random::new(run_seed());
    for n in 1..=4 {
        for m in 1..=3 {
            for mix in Mix::ALL {
                for _ in 0..20 {
                    let history = generate::history(random.bits(), n, m, 500, mix);
                    assert_no_breach(&history, true);
                }
            }
        }
    }
}

#[test]
fn histories_of_ties_on_four_cores_with_every_placement() {
    for seed in run_seeds(10) {
        for n in [5, 6] {
            assert_no_breach(&generate::history(seed, n, 4, 500, Mix::Tied), true);
        }
    }
}

#[test]
fn random_histories_of_any_size() {
    for history in random_histories(run_seed() ^ 5, 150, 500) {
        assert_no_breach(&history, false);
    }
}

#[test]
fn long_histories_of_the_largest_size() {
    for mix in [Mix::Busy, Mix::Tied] {
        let history = generate::history(run_seed(), 128, 32, 20_000, mix);
        assert_no_breach(&history, false);
    }
}

#[test]
fn ledger_agrees_with_the_records_of_the_state() {
    for history in random_histories(run_seed() ^ 6, 50, 400) {
        for_each_step(&history, |index, step| {
            let place = format!("seed {}, index {index}", history.seed);
            for (number, &configured) in step.ledger.cores.iter().enumerate() {
                assert_eq!(configured, step.after.cores[number].configured, "{place}");
            }
            for (position, entry) in step.ledger.sources.iter().enumerate() {
                let id = SourceId(position as u16 + 1);
                let source = step.after.source(id);
                let request = source.pending.then(|| Request {
                    priority: source.request,
                    claimed: step.after.is_claimed(id),
                });
                assert_eq!(entry.configured, source.configured, "{place}");
                assert_eq!(entry.masked, source.masked, "{place}");
                assert_eq!(entry.request, request, "{place}");
            }
        });
    }
}

/// After T4's commands 5 and 4 are the two highest, on whichever core.
#[test]
fn higher_placement_is_found() {
    let ledger = ledger_of(&t2_to_t4());
    let mut controller = Controller::reset(32, 2);
    for (boxes, highest) in [
        ([4, 3], false),
        ([3, 5], false),
        ([4, 5], true),
        ([5, 4], true),
    ] {
        fill(&mut controller, boxes);
        let checked = demand3::check_every_placement(&ledger, &controller);
        assert_eq!(checked.is_ok(), highest, "{boxes:?}");
    }
}

/// The ledger after a history, all of its commands accepted.
fn ledger_of(history: &History) -> Ledger {
    let mut ledger = Ledger::reset(history.n, history.m);
    for &command in &history.commands {
        ledger.enter(command, 0, 0).unwrap();
    }
    ledger
}

/// The ledger's cores, with empty boxes.
fn cores_of(ledger: &Ledger) -> Controller {
    let (n, m) = (ledger.sources.len(), ledger.cores.len());
    let mut controller = Controller::reset(n as u16, m as u16);
    for (core, &configured) in controller.cores.iter_mut().zip(&ledger.cores) {
        core.configured = configured;
    }
    controller
}

/// Fills the boxes with requests of these ids, at priorities equal to them; 0 leaves one empty.
fn fill(controller: &mut Controller, boxes: [u16; 2]) {
    for (core, id) in boxes.into_iter().enumerate() {
        controller.cores[core].message = MessageBox::EMPTY;
        if id > 0 {
            put(controller, core, id, id);
        }
    }
}

/// Puts a request into a core's box.
fn put(controller: &mut Controller, core: usize, id: u16, priority: u16) {
    controller.cores[core].message = MessageBox {
        filled: true,
        dirty: false,
        id,
        priority,
    };
}

/// An answer without a claimed id.
fn settled(cycles: u16) -> Answer {
    Answer {
        number: 0,
        id: 0,
        cycles,
    }
}

/// The ledger of the run of request 2/14, and a state with these boxes on its cores.
fn after_the_run_of_request_2(boxes: [u16; 2]) -> (Ledger, Controller) {
    let ledger = ledger_of(&run_of_request_2());
    let mut controller = cores_of(&ledger);
    fill(&mut controller, boxes);
    (ledger, controller)
}

/// [9,3] and [3,9] are shown alike, by two boxes and by one. Both checks tell the box too many, by
/// their own count.
#[test]
fn box_too_many_is_found() {
    let (ledger, both_filled) = after_the_run_of_request_2([9, 3]);
    let by_priorities = demand3::check(&ledger, &both_filled, settled(1));
    let reason = "2 boxes are filled, 1 would show the same";
    assert_eq!(by_priorities, Err(reason.to_string()));
    let by_placements = demand3::check_every_placement(&ledger, &both_filled);
    let reason = "2 boxes are filled, a placement of 1 shows [9, 3] too";
    assert_eq!(by_placements, Err(reason.to_string()));
    let (ledger, one_filled) = after_the_run_of_request_2([0, 9]);
    assert_eq!(demand3::check(&ledger, &one_filled, settled(1)), Ok(()));
    assert_eq!(demand3::check_every_placement(&ledger, &one_filled), Ok(()));
}

/// Fewer boxes that don't show the highest are no better.
#[test]
fn empty_boxes_alone_are_not_the_fewest() {
    let (ledger, none_filled) = after_the_run_of_request_2([0, 0]);
    let by_priorities = demand3::check(&ledger, &none_filled, settled(1));
    assert!(by_priorities.is_err_and(|reason| reason.contains("the highest are [9, 3]")));
    let by_placements = demand3::check_every_placement(&ledger, &none_filled);
    assert!(by_placements.is_err_and(|reason| reason.contains("a placement gives")));
}

/// 16 cores at 10 and 16 at 1; sources 1 to 16 with requests of 10, the next 16 with requests of 20.
fn tens_and_twenties() -> History {
    let cores = (0..32).map(|core| set_core(core, if core < 16 { 10 } else { 1 }));
    let sources = (1..=32).flat_map(|id| {
        let priority = if id <= 16 { 10 } else { 20 };
        [set_source(id, priority), unmask(id), trigger(id)]
    });
    History {
        seed: 0,
        n: 128,
        m: 32,
        commands: cores.chain(sources).collect(),
    }
}

/// Those of 20 on the lower cores show the highest. Each that lies on a core at 10 instead needs a
/// box of 10 on one at 1.
#[test]
fn every_box_too_many_is_found_at_the_largest_size() {
    let ledger = ledger_of(&tens_and_twenties());
    for too_many in 0..=16 {
        let mut controller = cores_of(&ledger);
        for at in 0..16 {
            let (ten, twenty) = (at as u16 + 1, at as u16 + 17);
            if at < too_many {
                put(&mut controller, at, twenty, 20);
                put(&mut controller, 16 + at, ten, 10);
            } else {
                put(&mut controller, 16 + at, twenty, 20);
            }
        }
        let filled = 16 + too_many;
        let expected = match too_many {
            0 => Ok(()),
            _ => Err(format!("{filled} boxes are filled, 16 would show the same")),
        };
        let checked = demand3::check(&ledger, &controller, settled(1));
        assert_eq!(checked, expected);
    }
}

/// T2 to T4 with their setting: 4 at index 8, 3 at 9 and 5 at 10.
fn t2_to_t4() -> History {
    let mut commands = Vec::new();
    for id in [2, 3, 4, 5] {
        commands.extend([set_source(id, id), unmask(id)]);
    }
    commands.extend([trigger(4), trigger(3), trigger(5)]);
    of_the_tables_sizes(commands)
}

fn of_the_tables_sizes(commands: Vec<Command>) -> History {
    History {
        seed: 0,
        n: 32,
        m: 2,
        commands,
    }
}

/// A fault, commands that bring it out, the index of the last of them, and what the check says then.
type Case = (Fault, Vec<Command>, usize, &'static str);

/// For each part of the check a model that breaks this part alone.
fn faults_of_one_part() -> [Case; 5] {
    // T10: a request of the cores' own priority.
    let cores_at_4 = [set_core(0, 4), set_core(1, 4)];
    let t10 = [
        &[set_source(4, 4), unmask(4)],
        &cores_at_4[..],
        &[trigger(4)],
    ]
    .concat();
    let one = vec![unmask(4), trigger(4)];
    let two_equal = vec![unmask(4), unmask(5), trigger(4), trigger(5)];
    let twice = Fault::BoxesOneOfTwoEqualRequestsTwice;
    let too_many = Fault::Reports2mPlus1Cycles;
    let ties = run_of_request_2().commands;
    let first_of_the_tied = Fault::TieToTheLowestNumber;
    [
        (Fault::AtLeast, t10, 4, "not above its 4"),
        (Fault::BoxNamesAnIdleSource, one, 1, "not an open one"),
        (twice, two_equal, 3, "a second time"),
        (too_many, vec![unmask(4)], 0, "5 cycles, at most 4 allowed"),
        (first_of_the_tied, ties, 7, "2 boxes are filled, 1 would"),
    ]
}

/// Each part finds its model, and says so.
#[test]
fn each_part_of_the_check_is_needed() {
    for (fault, commands, index, reason) in faults_of_one_part() {
        let breach = first_breach(&Faulty { fault }, &of_the_tables_sizes(commands), false);
        let breach = breach.unwrap_or_else(|| panic!("{fault:?} isn't found"));
        assert_eq!(breach.index, index, "{fault:?}");
        assert!(
            breach.reason.contains(reason),
            "{fault:?}: {}",
            breach.reason
        );
    }
}

#[test]
fn cycles_of_2m_are_taken_and_one_more_is_not() {
    for m in 1..=32 {
        let (ledger, after) = (Ledger::reset(1, m), Controller::reset(1, m));
        let checked = |cycles| demand3::check(&ledger, &after, settled(cycles)).is_ok();
        assert!(checked(2 * m) && !checked(2 * m + 1), "m = {m}");
    }
}

#[test]
fn dummies_are_found() {
    let cases = [
        (Fault::HandsBackTheResetState, 8),
        (Fault::ChangesNothing, 8),
        (Fault::OnlySetsFlagsAfterTheFirstDelivery, 9),
    ];
    for (fault, index) in cases {
        let breach = first_breach(&Faulty { fault }, &t2_to_t4(), false);
        assert_eq!(breach.map(|breach| breach.index), Some(index), "{fault:?}");
    }
}

#[test]
fn faults_that_show_in_the_priorities_are_found() {
    let faults = [
        Fault::AtLeast,
        Fault::BoxNamesAnIdleSource,
        Fault::BoxesOneOfTwoEqualRequestsTwice,
        Fault::OnlyWrittenBoxDirty,
        Fault::CompleteLowersTheCore,
        Fault::BoxedRequestsComplete,
        Fault::FilledBoxBeforeALowerPriority,
    ];
    let histories = random_histories(run_seed() ^ 7, 60, 300);
    for fault in faults {
        let model = Faulty { fault };
        let found = histories
            .iter()
            .any(|history| first_breach(&model, history, false).is_some());
        assert!(found, "{fault:?}");
    }
}

/// The count of boxes tells the ties that fill one too many, in every mix of histories and by either
/// check.
#[test]
fn ties_that_fill_a_box_too_many_are_found() {
    let histories = random_histories(run_seed() ^ 11, 90, 300);
    let small = |seed| generate::history(seed, 4, 3, 300, Mix::Tied);
    for fault in [
        Fault::TieToTheLowestNumber,
        Fault::TieToTheEmptyBox,
        Fault::TieToTheHigherCore,
        Fault::WithoutRequest2,
    ] {
        let model = Faulty { fault };
        let fills_too_many = |history: &&History| {
            first_breach(&model, history, false)
                .is_some_and(|breach| breach.reason.contains("would show the same"))
        };
        let told = histories.iter().filter(fills_too_many).count();
        println!("{fault:?}: told by {told} of {}", histories.len());
        assert!(told > 0, "{fault:?}");
        let by_placements = run_seeds(20).into_iter().any(|seed| {
            first_breach_of_placements(&model, &small(seed))
                .is_some_and(|reason| reason.contains("boxes are filled, a placement of"))
        });
        assert!(by_placements, "{fault:?}");
    }
}

/// The first breach that trying every placement finds by itself.
fn first_breach_of_placements<M: Model>(model: &M, history: &History) -> Option<String> {
    let (_, mut state) = model.make(history.n, history.m);
    let mut ledger = Ledger::reset(history.n, history.m);
    history.commands.iter().find_map(|&command| {
        let answer = model.execute(&mut state, command);
        ledger.enter(command, answer.number, answer.id).unwrap();
        demand3::check_every_placement(&ledger, &model.read(&state)).err()
    })
}

/// Which of several filled boxes, or of several empty ones, is chosen shows in no demand.
#[test]
fn ties_among_filled_or_among_empty_boxes_breach_nothing() {
    for fault in [
        Fault::TieToTheHigherFilledBox,
        Fault::TieToTheHigherEmptyBox,
    ] {
        for history in random_histories(run_seed() ^ 12, 60, 300) {
            let breach = first_breach(&Faulty { fault }, &history, false);
            assert_eq!(breach, None, "{fault:?}, seed {}", history.seed);
        }
    }
}
