//! What holds of every command.

use psic_reference::damage;
use psic_reference::dropped;
use psic_reference::generate::{self, Mix};
use psic_reference::random::{run_seed, Random};
use psic_reference::records::{Answer, Command, Controller, Source};
use psic_reference::reference::execute;
use psic_reference::well_formed::well_formed;

use crate::histories::{
    claim, complete, cycles_of, for_each_step, mask, random_histories, redeliver, set_core,
    set_source, trigger, unmask, Run,
};

#[test]
fn fresh_state_is_sound() {
    for n in 1..=128 {
        for m in 1..=32 {
            assert!(well_formed(&Controller::reset(n, m)), "n = {n}, m = {m}");
        }
    }
}

#[test]
fn every_command_keeps_the_state_sound() {
    for history in random_histories(run_seed(), 100, 400) {
        for_each_step(&history, |index, step| {
            let place = format!("seed {}, index {index}", history.seed);
            assert!(well_formed(step.after), "{place}: {:?}", step.command);
        });
    }
}

/// But for the count of a trigger that is refused by 6.
#[test]
fn refused_command_changes_nothing() {
    for history in random_histories(run_seed() ^ 1, 100, 400) {
        for_each_step(&history, |index, step| {
            let Answer { number, id, cycles } = step.answer;
            if number != 0 {
                let place = format!("seed {}, index {index}", history.seed);
                assert_eq!((id, cycles), (0, 0), "{place}: {:?}", step.command);
                let checked = dropped::check_refused(step.before, step.command, number, step.after);
                assert_eq!(checked, Ok(()), "{place}: {:?}", step.command);
            }
        });
    }
}

/// Sound states that no run need reach: fields are changed as long as the state stays sound.
#[test]
fn every_command_keeps_any_sound_state_sound() {
    let mut random = Random::new(run_seed());
    for _ in 0..60 {
        let (n, m) = generate::sizes(&mut random);
        let mix = random.pick(&[Mix::Busy, Mix::Tied]);
        let history = generate::history(random.bits(), n, m, 200, mix);
        let mut sound = generate::final_state(&history);
        for _ in 0..200 {
            let away = damage::one_field_away(&mut random, &sound);
            if !well_formed(&away) {
                continue;
            }
            sound = away;
            for command in generate::one_of_each(&mut random, n, m) {
                let mut after = sound.clone();
                execute(&mut after, command);
                assert!(well_formed(&after), "{command:?} on {sound:?}");
            }
        }
    }
}

#[test]
fn cycles_at_most_2m_and_at_most_m_of_each() {
    for history in random_histories(run_seed() ^ 2, 100, 400) {
        for_each_step(&history, |index, step| {
            let place = format!("seed {}, index {index}", history.seed);
            assert!(step.answer.cycles <= 2 * history.m, "{place}");
            if step.answer.number == 0 {
                let (retractions, deliveries) = cycles_of(step.before, step.command);
                assert!(retractions <= history.m, "{place}");
                assert!(deliveries <= history.m, "{place}");
                assert_eq!(step.answer.cycles, retractions + deliveries, "{place}");
            }
        });
    }
}

#[test]
fn cycles_of_2m_are_reached() {
    let mut run = Run::table();
    run.accept(trigger(3));
    run.accept(trigger(4));
    run.settles(set_core(0, 0), 4, [4, 3]);
}

#[test]
fn only_claim_answers_an_id() {
    for history in random_histories(run_seed() ^ 3, 50, 400) {
        for_each_step(&history, |index, step| {
            let claimed = matches!(step.command, Command::Claim(_)) && step.answer.number == 0;
            let place = format!("seed {}, index {index}", history.seed);
            assert_eq!(step.answer.id != 0, claimed, "{place}");
        });
    }
}

#[test]
fn claim_makes_no_cycle() {
    for history in random_histories(run_seed() ^ 4, 50, 400) {
        for_each_step(&history, |index, step| {
            if matches!(step.command, Command::Claim(_)) {
                let place = format!("seed {}, index {index}", history.seed);
                assert_eq!(step.answer.cycles, 0, "{place}");
            }
        });
    }
}

#[test]
fn tie_between_candidates_falls_to_the_lowest_id() {
    let mut run = Run::table();
    run.accept(set_core(0, 127));
    run.accept(set_core(1, 127));
    for id in [9, 7, 8] {
        run.accept(set_source(id, 20));
        run.accept(trigger(id));
    }
    run.settles(set_core(1, 0), 1, [127, 20]);
    assert_eq!(run.boxes(), [0, 7]);
}

/// With no filled box among them.
#[test]
fn tie_between_cores_falls_to_the_lowest_number() {
    Run::on_cores(&[2, 2]).settles(trigger(4), 1, [4, 2]);
    Run::on_cores(&[9, 2, 2, 2]).settles(trigger(4), 1, [9, 4, 2, 2]);
}

/// Request 2/14, with the filled box on either side of the empty one.
#[test]
fn tie_falls_to_a_filled_box_before_an_empty_one() {
    let mut run = Run::on_cores(&[3, 1]);
    run.settles(trigger(3), 1, [3, 3]);
    assert_eq!(run.boxes(), [0, 3]);
    run.settles(trigger(9), 1, [3, 9]);
    assert_eq!(run.boxes(), [0, 9]);
    let mut run = Run::on_cores(&[1, 3]);
    run.settles(trigger(3), 1, [3, 3]);
    run.settles(trigger(9), 1, [9, 3]);
    assert_eq!(run.boxes(), [9, 0]);
    assert!(run.source(3).is_waiting());
}

/// Boxes of 5 on cores 1, 3 and 4, and cores 0 and 2 at 5 without one.
#[test]
fn tie_between_filled_boxes_falls_to_the_lowest_number() {
    let mut run = Run::on_cores(&[5, 1, 5, 1, 1]);
    for id in [5, 6, 7] {
        run.accept(set_source(id, 5));
        run.accept(trigger(id));
    }
    assert_eq!(run.boxes(), [0, 5, 0, 6, 7]);
    for (id, boxes) in [(9, [0, 9, 0, 6, 7]), (10, [0, 9, 0, 10, 7])] {
        run.accept(trigger(id));
        assert_eq!(run.boxes(), boxes);
    }
    run.settles(trigger(11), 1, [5, 9, 5, 10, 11]);
    // No box of 5 is left, so an empty one is next.
    run.settles(trigger(12), 1, [12, 9, 5, 10, 11]);
}

#[test]
fn tie_between_all_boxes_filled_falls_to_the_lowest_number() {
    let mut run = Run::on_cores(&[0, 0, 0]);
    for id in [4, 5, 6] {
        run.accept(set_source(id, 4));
        run.accept(trigger(id));
    }
    run.settles(trigger(9), 1, [9, 4, 4]);
    assert!(run.source(4).is_waiting());
}

#[test]
fn lower_core_goes_before_a_filled_box() {
    let mut run = Run::on_cores(&[0, 2]);
    run.settles(trigger(3), 1, [3, 2]);
    run.settles(trigger(9), 1, [3, 9]);
    assert_eq!(run.boxes(), [3, 9]);
}

#[test]
fn request_at_a_tie_interrupts_no_core() {
    let mut run = Run::on_cores(&[3, 1]);
    run.accept(trigger(3));
    run.accept(set_source(9, 3));
    run.settles(trigger(9), 0, [3, 3]);
    assert_eq!(run.boxes(), [0, 3]);
    assert!(run.source(9).is_waiting());
}

#[test]
fn one_core_takes_every_higher_request() {
    let mut run = Run::on_cores(&[2]);
    run.settles(trigger(3), 1, [3]);
    run.settles(trigger(4), 1, [4]);
    run.settles(trigger(2), 0, [4]);
    assert_eq!(run.boxes(), [4]);
}

#[test]
fn accepted_without_a_change() {
    let mut run = Run::table();
    for command in [unmask(4), unmask(4), mask(4), mask(4), set_source(4, 4)] {
        run.settles(command, 0, [0, 0]);
    }
}

#[test]
fn complete_leaves_a_blank_request() {
    let mut run = Run::table();
    run.accept(trigger(4));
    run.accept(claim(0));
    run.accept(complete(4));
    let source = run.source(4);
    assert!(!source.pending && !source.delivered);
    assert_eq!((source.request, source.configured), (0, 4));
}

#[test]
fn redelivered_request_keeps_its_priority() {
    let mut run = Run::table();
    run.accept(trigger(4));
    run.accept(claim(0));
    run.settles(redeliver(4), 1, [4, 4]);
    assert_eq!(run.source(4).request, 4);
}

/// Request 5/14: waiting, in a box, claimed, masked or not, also to the priority that it has.
#[test]
fn priority_of_a_pending_source_stays() {
    let mut run = Run::table();
    let standings: [(&[Command], u16); 5] = [
        (&[mask(3), trigger(3)], 3),
        (&[trigger(4)], 4),
        (&[mask(4)], 4),
        (&[claim(0)], 4),
        (&[trigger(5), trigger(6), trigger(2)], 2),
    ];
    for (commands, id) in standings {
        for &command in commands {
            run.accept(command);
        }
        for priority in [1, id, 9, 127] {
            run.refuses(set_source(id, priority), 9);
        }
    }
    run.accept(complete(4));
    run.settles(set_source(4, 9), 0, [6, 5]);
    run.accept(unmask(4));
    run.settles(trigger(4), 1, [6, 9]);
}

/// Request 5/14: "checked after 5". Id 0 would stand where the last source does, or the first.
#[test]
fn id_and_priority_are_checked_before_a_pending_request() {
    let mut run = Run::table();
    for id in 1..=32 {
        run.accept(trigger(id));
    }
    for id in [0, 33, 129, 257, 65535] {
        run.refuses(set_source(id, 1), 4);
    }
    for priority in [0, 128, 512, 65535] {
        run.refuses(set_source(4, priority), 5);
    }
    run.controller.cores[0].message.dirty = true;
    run.refuses(set_source(4, 9), 1);
}

/// Request 5/14: from a fresh controller. Other sound states are taken as they are.
#[test]
fn pending_request_has_its_sources_priority_in_every_history() {
    for history in random_histories(run_seed() ^ 5, 100, 400) {
        for_each_step(&history, |index, step| {
            let apart = |s: &&Source| s.pending && s.request != s.configured;
            let found = step.after.used_sources().iter().find(apart);
            assert_eq!(found, None, "seed {}, index {index}", history.seed);
        });
    }
}

/// No clause of soundness asks for it.
#[test]
fn sources_set_apart_from_their_requests_are_sound() {
    let mut random = Random::new(run_seed());
    for history in random_histories(run_seed() ^ 6, 40, 200) {
        let sound = generate::final_state(&history);
        let apart = generate::set_apart(&mut random, &sound);
        assert!(well_formed(&apart), "seed {}", history.seed);
        let mut after = apart.clone();
        assert_eq!(execute(&mut after, mask(1)).number, 0);
    }
}

#[test]
fn arguments_out_of_range_are_refused() {
    let mut run = Run::table();
    run.accept(trigger(4));
    for id in [0, 33, 128, 129, 256, 260, 65535] {
        for command in [
            set_source(id, 1),
            mask(id),
            unmask(id),
            trigger(id),
            redeliver(id),
            complete(id),
        ] {
            run.refuses(command, 4);
        }
    }
    for core in [2, 31, 32, 256, 65535] {
        run.refuses(set_core(core, 0), 3);
        run.refuses(claim(core), 3);
    }
    for priority in [128, 255, 256, 384, 512, 65535] {
        run.refuses(set_source(4, priority), 5);
        run.refuses(set_core(0, priority), 5);
    }
}

#[test]
fn core_and_id_are_checked_before_the_priority() {
    let mut run = Run::table();
    run.refuses(set_source(0, 0), 4);
    run.refuses(set_source(33, 128), 4);
    run.refuses(set_core(2, 128), 3);
}

#[test]
fn soundness_is_checked_before_the_arguments() {
    let mut run = Run::table();
    run.controller.cores[0].message.dirty = true;
    for command in [set_source(0, 0), set_core(2, 128), trigger(33), claim(2)] {
        run.refuses(command, 1);
    }
}

#[test]
fn only_claimed_requests_are_redelivered_or_completed() {
    let mut run = Run::table();
    run.accept(trigger(4));
    run.accept(mask(5));
    run.accept(trigger(5));
    // 4 lies in a box, 5 waits, 6 isn't pending.
    for id in [4, 5, 6] {
        run.refuses(redeliver(id), 8);
        run.refuses(complete(id), 8);
    }
}
