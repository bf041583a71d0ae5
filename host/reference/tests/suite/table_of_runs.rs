//! Document 01's table of runs, and the run of document 02's request 2/14. T3 to T8 go on from one
//! another.

use psic_reference::records::{Controller, CoreNumber, SourceId};
use psic_reference::reference::{apply, deliver, make, top_priority};
use psic_reference::well_formed::{violated, Clause};

use crate::histories::{
    claim, complete, cycles_of, mask, redeliver, set_core, set_source, trigger, unmask, Run,
};

fn after_t2() -> Run {
    let mut run = Run::table();
    run.settles(trigger(4), 1, [4, 0]);
    assert_eq!(run.boxes(), [4, 0]);
    run
}

fn after_t3() -> Run {
    let mut run = after_t2();
    run.settles(trigger(3), 1, [4, 3]);
    assert_eq!(run.boxes(), [4, 3]);
    run
}

fn after_t4() -> Run {
    let mut run = after_t3();
    run.settles(trigger(5), 1, [4, 5]);
    assert_eq!(run.boxes(), [4, 5]);
    assert!(run.source(3).is_waiting());
    run
}

fn after_t5() -> Run {
    let mut run = after_t4();
    let answer = run.accept(claim(0));
    assert_eq!((answer.id, answer.cycles), (4, 0));
    assert_eq!(run.controller.current_priorities(), [4, 5]);
    run
}

fn after_t7() -> Run {
    let mut run = after_t5();
    run.settles(complete(4), 0, [4, 5]);
    assert!(!run.source(4).pending);
    assert!(run.source(3).is_waiting());
    run
}

#[test]
fn t1_masked_trigger_waits() {
    let mut run = Run::table_but_masked(4);
    run.settles(trigger(4), 0, [0, 0]);
    assert!(run.source(4).pending && run.source(4).is_waiting());
}

#[test]
fn t2_trigger_goes_to_core_0() {
    after_t2();
}

#[test]
fn t3_second_trigger_goes_to_the_lower_core() {
    after_t3();
}

#[test]
fn t4_lowest_request_is_put_back() {
    after_t4();
}

#[test]
fn t5_claim_answers_the_id_once() {
    after_t5().refuses(claim(0), 7);
}

#[test]
fn t6_boxed_request_is_not_completed() {
    after_t5().refuses(complete(5), 8);
}

#[test]
fn t7_complete_keeps_the_core_priority() {
    after_t7();
}

#[test]
fn t8_lowered_core_makes_one_retraction_and_two_deliveries() {
    let mut run = after_t7();
    assert_eq!(cycles_of(&run.controller, set_core(0, 0)), (1, 2));
    run.settles(set_core(0, 0), 3, [5, 3]);
}

#[test]
fn t9_lowered_core_takes_over_the_request() {
    let mut run = Run::table();
    run.accept(set_core(0, 3));
    run.accept(set_core(1, 100));
    run.settles(trigger(4), 1, [4, 100]);
    run.settles(set_core(1, 0), 2, [3, 4]);
}

#[test]
fn t10_equal_priority_stays_waiting() {
    let mut run = Run::table();
    run.accept(set_core(0, 4));
    run.accept(set_core(1, 4));
    run.settles(trigger(4), 0, [4, 4]);
    assert!(run.source(4).is_waiting());
}

#[test]
fn t11_redelivered_request_goes_to_the_other_core() {
    let mut run = Run::table();
    run.accept(trigger(4));
    run.accept(claim(0));
    run.settles(redeliver(4), 1, [4, 4]);
    assert_eq!(run.boxes(), [0, 4]);
}

#[test]
fn t12_second_trigger_is_refused() {
    let mut run = Run::table();
    run.accept(trigger(4));
    run.refuses(trigger(4), 6);
}

/// Cores set to 3 and 1, and a request of 3.
fn before_the_request_of_9() -> Run {
    let mut run = Run::table();
    run.accept(set_core(0, 3));
    run.accept(set_core(1, 1));
    run.settles(trigger(3), 1, [3, 3]);
    assert_eq!(run.boxes(), [0, 3]);
    run
}

#[test]
fn run_of_request_2_leaves_core_0_alone() {
    let mut run = before_the_request_of_9();
    assert_eq!(cycles_of(&run.controller, trigger(9)), (0, 1));
    run.settles(trigger(9), 1, [3, 9]);
    assert_eq!(run.boxes(), [0, 9]);
    assert!(!run.controller.cores[0].message.filled);
    assert!(run.source(3).is_waiting());
    assert_eq!(run.accept(claim(1)).id, 9);
    run.refuses(claim(0), 7);
}

/// [9,3] with both boxes full, as document 01 alone had it.
#[test]
fn former_end_of_that_run_is_refused_by_1() {
    let mut run = before_the_request_of_9();
    apply(&mut run.controller, trigger(9));
    deliver(&mut run.controller, SourceId(9), CoreNumber(0));
    assert_eq!(run.controller.current_priorities(), [9, 3]);
    assert_eq!(run.boxes(), [9, 3]);
    let broken = [Clause::ConfiguredUnderBoxBelowBoxes];
    assert_eq!(violated(&run.controller), broken);
    for command in [
        set_source(4, 4),
        mask(4),
        unmask(4),
        set_core(0, 0),
        trigger(4),
        claim(0),
        redeliver(4),
        complete(4),
    ] {
        run.refuses(command, 1);
    }
}

#[test]
fn priorities_at_the_edges() {
    let mut run = Run::table();
    run.settles(set_source(4, 127), 0, [0, 0]);
    run.refuses(set_source(4, 128), 5);
    run.refuses(set_source(4, 0), 5);
    run.settles(set_core(0, 0), 0, [0, 0]);
    run.settles(set_core(0, 127), 0, [127, 0]);
    run.refuses(set_core(0, 128), 5);
    run.refuses(set_source(33, 0), 4);
}

#[test]
fn top_priority_follows_the_width() {
    let cases = [(1, 3), (2, 7), (3, 7), (4, 15), (32, 127), (127, 255)];
    for (n, top) in cases {
        assert_eq!(top_priority(n), top, "n = {n}");
    }
    assert_eq!(top_priority(128), 511);
}

#[test]
fn sizes_at_the_edges() {
    for (n, m) in [(1, 1), (128, 32), (1, 32), (128, 1)] {
        assert_eq!(make(n, m), (0, Controller::reset(n, m)));
    }
    for (n, m) in [(0, 1), (129, 1), (1, 0), (1, 33), (0, 0), (65535, 65535)] {
        assert_eq!(make(n, m), (2, Controller::reset(1, 1)));
    }
}

#[test]
fn masked_in_a_box_stays_and_can_be_claimed() {
    let mut run = after_t2();
    run.settles(mask(4), 0, [4, 0]);
    assert_eq!(run.boxes(), [4, 0]);
    assert_eq!(run.accept(claim(0)).id, 4);
}

#[test]
fn masked_in_a_box_waits_after_any_set_core_priority() {
    for core in [0, 1] {
        for priority in [0, 3, 4, 127] {
            let mut run = after_t2();
            run.accept(mask(4));
            let answer = run.accept(set_core(core, priority));
            assert_eq!(answer.cycles, 1);
            assert_eq!(run.boxes(), [0, 0]);
            assert!(run.source(4).is_waiting() && run.source(4).masked);
        }
    }
}
