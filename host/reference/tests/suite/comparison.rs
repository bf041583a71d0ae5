//! The comparison finds no difference where there is none, and one where there is.

use psic_reference::compare::{Call, Comparison, Difference};
use psic_reference::generate::{self, History, Mix};
use psic_reference::model::{Model, Reference};
use psic_reference::random::{run_seed, run_seeds, Random};

use crate::faulty::{Fault, Faulty, Field};
use crate::histories::{run_of_request_2, set_core, trigger, unmask};
use crate::well_formed::clauses_that_fail_alone;

/// The first difference from the reference model within so many rounds.
fn first_difference<M: Model>(model: &M, rounds: usize) -> Option<Difference> {
    run_seeds(rounds).into_iter().find_map(|seed| {
        let comparison = Comparison {
            left: &Reference,
            right: model,
            seed,
        };
        comparison.round(300)
    })
}

#[test]
fn reference_agrees_with_itself() {
    if let Some(difference) = first_difference(&Reference, 60) {
        panic!("{difference}");
    }
}

#[test]
fn every_fault_is_found() {
    for fault in Fault::ALL {
        let found = first_difference(&Faulty { fault }, 60);
        assert!(found.is_some(), "{fault:?}");
    }
}

/// Request 2/14's tie, in the histories alone: at each of these sizes some tell it.
#[test]
fn every_wrong_tie_is_found_in_generated_histories() {
    let seeds = run_seeds(40);
    for fault in Fault::TIES {
        for (n, m) in [(4, 3), (8, 4), (32, 8), (128, 32)] {
            let tells = |seed: &&u64| {
                let comparison = Comparison {
                    left: &Reference,
                    right: &Faulty { fault },
                    seed: **seed,
                };
                let history = generate::history(**seed, n, m, 300, Mix::Tied);
                comparison.history(&history).is_some()
            };
            let told = seeds.iter().filter(tells).count();
            println!(
                "{fault:?}, n = {n}, m = {m}: told by {told} of {}",
                seeds.len()
            );
            assert!(told > 0, "{fault:?}, n = {n}, m = {m}");
        }
    }
}

#[test]
fn every_wrong_tie_is_found() {
    for fault in Fault::TIES {
        let found = first_difference(&Faulty { fault }, 60);
        assert!(found.is_some(), "{fault:?}");
    }
}

/// Request 3/14's count, on the lent records of a round and on lists of every length.
#[test]
fn every_wrong_count_is_found() {
    for fault in Fault::COUNTS {
        let found = first_difference(&Faulty { fault }, 60);
        let call = found.map(|difference| difference.call);
        assert!(matches!(call, Some(Call::RangesIn(_))), "{fault:?}");
        let comparison = Comparison {
            left: &Reference,
            right: &Faulty { fault },
            seed: run_seed(),
        };
        let found = comparison.lists_of_every_length(&mut Random::new(comparison.seed));
        assert!(found.is_some(), "{fault:?}, lists of every length");
    }
}

/// Request 5/14: by the answer to set source priority; the clause that it doesn't ask for by number 1.
#[test]
fn every_wrong_setting_is_found() {
    for fault in Fault::SETTINGS {
        let found = first_difference(&Faulty { fault }, 60);
        let Difference { left, right, .. } = found.unwrap_or_else(|| panic!("{fault:?}"));
        let unsound = right.1.number == 1 && left.1.number != 1;
        assert_eq!(unsound, fault.adds_a_clause(), "{fault:?}");
        let numbers = [left.1.number, right.1.number];
        assert!(unsound || numbers.contains(&9), "{fault:?}: {numbers:?}");
    }
}

/// The seller's error 4 shows in no history from a fresh controller, since request 5/14 refuses the command before it.
#[test]
fn configured_for_request_is_found_from_sources_set_apart_alone() {
    let fault = Fault::ConfiguredForRequest;
    let mut told = 0;
    for seed in run_seeds(40) {
        let comparison = Comparison {
            left: &Reference,
            right: &Faulty { fault },
            seed,
        };
        let mix = Mix::ALL[seed as usize % Mix::ALL.len()];
        let history = generate::history(seed, 8, 3, 300, mix);
        assert_eq!(comparison.history(&history), None);
        let end = generate::final_state(&history);
        let found = comparison.set_apart(&mut Random::new(seed), &end);
        told += usize::from(found.is_some());
    }
    assert!(told > 0);
}

/// Request 2/14's clause. A state that is sound or isn't tells, by number 1 on one side alone.
#[test]
fn every_wrong_clause_is_found() {
    for fault in Fault::CLAUSES {
        let found = first_difference(&Faulty { fault }, 60);
        let Difference { left, right, .. } = found.unwrap_or_else(|| panic!("{fault:?}"));
        let refused = [left.1.number == 1, right.1.number == 1];
        let too_strict = fault.is_too_strict();
        assert_eq!(refused, [!too_strict, too_strict], "{fault:?}");
    }
}

/// The current priorities and the ids in the boxes after a history.
fn end<M: Model>(model: &M, history: &History) -> (Vec<u16>, Vec<u16>) {
    let (_, mut state) = model.make(history.n, history.m);
    model.run(&mut state, &history.commands);
    let controller = model.read(&state);
    let boxes = controller.used_cores().iter().map(|core| core.message.id);
    (controller.current_priorities(), boxes.collect())
}

/// Its last command tells every model under which it still ends [9,3], both boxes full.
#[test]
fn run_of_request_2_tells_its_former_end() {
    let run = run_of_request_2();
    assert_eq!(end(&Reference, &run), (vec![3, 9], vec![0, 9]));
    for fault in [
        Fault::TieToTheLowestNumber,
        Fault::TieToTheEmptyBox,
        Fault::WithoutRequest2,
    ] {
        let right = &Faulty { fault };
        assert_eq!(end(right, &run), (vec![9, 3], vec![9, 3]), "{fault:?}");
        let comparison = Comparison {
            left: &Reference,
            right,
            seed: run.seed,
        };
        let difference = comparison.history(&run).expect("the ends differ");
        assert_eq!(difference.index, run.commands.len() - 1, "{fault:?}");
        assert_eq!(difference.call, Call::Execute(trigger(9)), "{fault:?}");
    }
}

#[test]
fn every_forgotten_clause_is_found() {
    for clause in clauses_that_fail_alone() {
        let fault = Fault::Forgets(clause);
        let found = first_difference(&Faulty { fault }, 60);
        assert!(found.is_some(), "{fault:?}");
    }
}

/// The first accepted command tells, by that field alone.
#[test]
fn every_field_of_the_state_is_compared() {
    let history = History {
        seed: 0,
        n: 128,
        m: 32,
        commands: vec![unmask(1)],
    };
    for field in Field::ALL {
        let fault = Fault::Writes(field);
        let comparison = Comparison {
            left: &Reference,
            right: &Faulty { fault },
            seed: history.seed,
        };
        for found in [comparison.history(&history), comparison.list(&history)] {
            let difference = found.unwrap_or_else(|| panic!("{field:?} isn't compared"));
            assert_eq!(difference.left.1, difference.right.1, "{field:?}");
            assert!(!difference.same_state, "{field:?}");
            assert_eq!(difference.fields.len(), 1, "{field:?}");
            assert!(difference.fields[0].starts_with(&format!("{}:", field.name())));
        }
    }
}

/// States that differ in no field that the message lists are told all the same, and the message says so.
#[test]
fn difference_in_an_unlisted_field_is_said() {
    let history = History {
        seed: 0,
        n: 2,
        m: 1,
        commands: vec![unmask(1)],
    };
    let comparison = Comparison {
        left: &Reference,
        right: &Faulty {
            fault: Fault::Writes(Field::Dirty),
        },
        seed: history.seed,
    };
    let mut difference = comparison.history(&history).unwrap();
    difference.fields.clear();
    let message = difference.to_string();
    assert!(message.ends_with("the states differ in a field that isn't listed\n"));
}

#[test]
fn tie_to_the_higher_id_is_found_in_a_generated_history() {
    let fault = Fault::TieToTheHigherId;
    let found = run_seeds(20).into_iter().any(|seed| {
        let comparison = Comparison {
            left: &Reference,
            right: &Faulty { fault },
            seed,
        };
        let history = generate::history(seed, 8, 2, 300, Mix::Busy);
        comparison.history(&history).is_some()
    });
    assert!(found);
}

#[test]
fn difference_names_seed_index_command_answers_and_fields() {
    let history = History {
        seed: 77,
        n: 2,
        m: 1,
        commands: vec![
            unmask(1),
            unmask(2),
            set_core(0, 3),
            trigger(1),
            trigger(2),
            set_core(0, 0),
        ],
    };
    let comparison = Comparison {
        left: &Reference,
        right: &Faulty {
            fault: Fault::TieToTheHigherId,
        },
        seed: history.seed,
    };
    let difference = comparison.history(&history).unwrap();
    assert_eq!(difference.index, 5);
    assert_eq!(difference.call, Call::Execute(set_core(0, 0)));
    let expected = "\
seed 77, history at n = 2, m = 1, index 5: Execute(SetCorePriority(CoreNumber(0), 0))
  reference: number 0, id 0, cycles 1
  TieToTheHigherId: number 0, id 0, cycles 1
  source 1 delivered: true, false
  source 2 delivered: false, true
  core 0 box id: 1, 2
";
    assert_eq!(difference.to_string(), expected);
}
