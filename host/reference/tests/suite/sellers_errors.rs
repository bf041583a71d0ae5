//! The outcomes of the seller's errors don't occur.

use psic_reference::records::SourceId;

use crate::histories::{claim, complete, set_core, set_source, trigger, unmask, Run};

#[test]
fn equal_priority_interrupts_no_core() {
    let mut run = Run::table();
    run.accept(set_core(0, 4));
    run.accept(set_core(1, 4));
    run.accept(trigger(4));
    assert_eq!(run.boxes(), [0, 0]);
}

#[test]
fn set_core_priority_makes_all_filled_boxes_dirty() {
    let mut run = Run::table();
    run.accept(set_core(0, 3));
    run.accept(set_core(1, 100));
    run.accept(trigger(4));
    let answer = run.accept(set_core(1, 0));
    assert_ne!(answer.cycles, 0);
    assert_ne!(run.controller.current_priorities(), [4, 0]);
}

#[test]
fn delivery_goes_to_the_least_core_only() {
    let mut run = Run::table();
    run.accept(trigger(4));
    run.accept(trigger(3));
    let answer = run.accept(trigger(5));
    assert_ne!(answer.cycles, 2);
    assert_ne!(run.controller.current_priorities(), [5, 4]);
    assert!(!run.source(4).is_waiting());
}

/// T10, then set source 4 to 9, is refused since request 5/14, so that no run shows it: a sound state
/// in which source 4 stands at 9 under its request of 4 does.
#[test]
fn pending_request_keeps_its_own_priority() {
    let mut run = Run::table();
    run.accept(set_core(0, 4));
    run.accept(set_core(1, 4));
    run.accept(trigger(4));
    run.refuses(set_source(4, 9), 9);
    run.controller.source_mut(SourceId(4)).configured = 9;
    run.settles(trigger(3), 0, [4, 4]);
    assert!(run.source(4).is_waiting());
    run.settles(unmask(4), 0, [4, 4]);
    run.settles(set_core(1, 0), 1, [4, 4]);
    assert_eq!(run.boxes(), [0, 4]);
    assert_eq!((run.source(4).request, run.source(4).configured), (4, 9));
}

#[test]
fn complete_lowers_no_core() {
    let mut run = Run::table();
    run.accept(trigger(4));
    run.accept(claim(0));
    run.settles(complete(4), 0, [4, 0]);
    assert_eq!(run.controller.cores[0].configured, 4);
}
