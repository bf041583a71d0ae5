//! The proved library, and the typed wrapper over it, do what the independent model does: call by call, in whole lists, from sound and
//! broken states, and on lent records.

mod dropped;
mod lists;
mod peer;
mod recordings;
mod simulations;
mod slips;
mod viewer;
mod writings;

use psic::bytes;
use psic::{raw, CoreId, Owner, Refusal, ANSWER_SIZE, COMMAND_SIZE, STATE_SIZE};
use psic_reference::compare::{Comparison, Difference};
use psic_reference::damage;
use psic_reference::demand3::first_breach;
use psic_reference::generate::{self, Mix};
use psic_reference::model::{Model, Reference};
use psic_reference::random::{run_seed, run_seeds, Random};
use psic_reference::records::{Command, Controller, CoreNumber, SourceId};
use psic_reference::reference;
use psic_reference::well_formed::well_formed;
use psic_trials::fast::Fast;
use psic_trials::library::{bytes_of, controller_of, encoded, run_list, Library};
use psic_trials::wrapper::{typed, Wrapper};

use crate::slips::{with_slip, Slip};

/// The first difference from the reference model within so many rounds.
fn first_difference<M: Model>(model: &M, rounds: usize, length: usize) -> Option<Difference> {
    run_seeds(rounds).into_iter().find_map(|seed| {
        let comparison = Comparison {
            left: &Reference,
            right: model,
            seed,
        };
        comparison.round(length)
    })
}

#[test]
fn every_round_agrees_with_the_reference() {
    if let Some(difference) = first_difference(&Library, 400, 500) {
        panic!("{difference}");
    }
}

#[test]
fn the_typed_wrapper_agrees_with_the_reference() {
    if let Some(difference) = first_difference(&Wrapper, 100, 500) {
        panic!("{difference}");
    }
}

/// Position and ranges of lent lists of 0 to 130 records, from no candidate to all.
#[test]
fn lists_of_every_length_agree_with_the_reference() {
    fn compare<M: Model>(model: &M, seed: u64) {
        let comparison = Comparison {
            left: &Reference,
            right: model,
            seed,
        };
        let difference = comparison.lists_of_every_length(&mut Random::new(seed));
        if let Some(difference) = difference {
            panic!("{difference}");
        }
    }
    for seed in run_seeds(20) {
        compare(&Library, seed);
        compare(&Wrapper, seed);
    }
}

/// So that what the library's speed is compared with does the same work.
#[test]
fn the_fast_model_agrees_with_the_reference() {
    if let Some(difference) = first_difference(&Fast, 200, 500) {
        panic!("{difference}");
    }
}

/// What is compared is the library's own answer, of each call, by both ways to it.
#[test]
fn every_slip_of_the_library_is_found() {
    for slip in Slip::OF_COMMANDS {
        let library = with_slip(slip, || first_difference(&Library, 4, 100));
        assert!(library.is_some(), "{slip:?}");
        let wrapper = with_slip(slip, || first_difference(&Wrapper, 4, 100));
        assert_eq!(
            wrapper.is_none(),
            slip.is_behind(),
            "{slip:?}, by the wrapper"
        );
    }
}

/// Demand 3 and the count of boxes, on the states that the library itself hands back.
#[test]
fn the_library_keeps_demand_3() {
    let mut random = Random::new(run_seed());
    for mix in [Mix::Busy, Mix::Tied] {
        for _ in 0..20 {
            let history = generate::history(random.bits(), 3, 2, 300, mix);
            assert_eq!(first_breach(&Library, &history, true), None);
        }
    }
    for (n, m) in [(1, 1), (4, 3), (32, 2), (100, 7), (128, 4), (128, 32)] {
        for mix in Mix::ALL {
            let history = generate::history(random.bits(), n, m, 2000, mix);
            assert_eq!(first_breach(&Library, &history, false), None, "({n}, {m})");
        }
    }
}

/// The run of request 2/14: core 0 isn't interrupted. The state in which it ended before, [9,3] with both boxes full, is refused by 1.
#[test]
fn the_run_of_request_2_leaves_core_0_alone() {
    let run = || -> Result<[psic::Controller; 2], Refusal> {
        let mut controller = psic::Controller::new(32, 2)?;
        for id in [3, 9] {
            controller.set_source_priority(psic::SourceId(id), id)?;
            controller.unmask(psic::SourceId(id))?;
        }
        controller.set_core_priority(CoreId(0), 3)?;
        controller.set_core_priority(CoreId(1), 1)?;
        controller.trigger(psic::SourceId(3))?;
        let before = controller.clone();
        controller.trigger(psic::SourceId(9))?;
        Ok([before, controller])
    };
    let [before, after] = run().expect("every command is accepted");
    assert_eq!(before.to_string(), "[3,3]  3: box 1");
    assert_eq!(after.to_string(), "[3,9]  3: source  9: box 1");
    let mut former = Wrapper.read(&before);
    reference::apply(&mut former, Command::Trigger(SourceId(9)));
    reference::deliver(&mut former, SourceId(9), CoreNumber(0));
    let mut former = Wrapper.load(&former);
    assert_eq!(former.to_string(), "[9,3]  3: box 1  9: box 0");
    let given = former.clone();
    assert_eq!(former.claim(CoreId(0)), Err(Refusal::Unsound));
    assert_eq!(former, given);
}

#[test]
fn whole_lists_agree_with_the_reference() {
    for (seed, (n, m)) in run_seeds(12).into_iter().zip([
        (1, 1),
        (2, 1),
        (4, 3),
        (32, 2),
        (64, 8),
        (100, 32),
        (127, 4),
        (128, 1),
        (128, 4),
        (128, 16),
        (128, 32),
        (16, 32),
    ]) {
        let history = generate::history(seed, n, m, 2000, Mix::Busy);
        let mut state = vec![0; STATE_SIZE];
        bytes::make(n, m, &mut state).expect("sizes in range");
        let answers = run_list(&mut state, &history.commands);
        let mut expected = Controller::reset(n, m);
        for (index, (&command, answer)) in history.commands.iter().zip(&answers).enumerate() {
            let right = reference::execute(&mut expected, command);
            assert_eq!(*answer, right, "seed {seed}, index {index}: {command:?}");
        }
        assert_eq!(controller_of(&state), expected, "seed {seed}");
    }
}

#[test]
fn a_state_is_read_back_from_its_bytes() {
    for seed in run_seeds(50) {
        let history = generate::history(seed, 128, 32, 200, Mix::Busy);
        let state = generate::final_state(&history);
        assert_eq!(controller_of(&bytes_of(&state)), state);
    }
}

/// The example of docs/ENCODING.md, in its words.
#[test]
fn the_documented_example_holds() {
    let document = include_str!("../../../docs/ENCODING.md");
    let mut state = vec![0xff; STATE_SIZE];
    bytes::make(2, 1, &mut state).expect("sizes in range");
    assert_eq!(hex(&state[..4]), "02 00 01 00");
    assert!(state[4..1156]
        .chunks(9)
        .all(|source| hex(source) == "01 00 01 00 00 00 00 00 00"));
    assert!(state[1156..].iter().all(|&byte| byte == 0));
    let mut answers = [0; 2 * ANSWER_SIZE];
    let list = [2, 1, 0, 0, 0, 4, 1, 0, 0, 0];
    assert_eq!(bytes::run(&mut state, &list, &mut answers), Ok(2));
    assert_eq!(hex(&answers[ANSWER_SIZE..]), "00 00 00 01 00");
    let [source, core] = [hex(&state[4..13]), hex(&state[1156..1164])];
    let mut again = [0; ANSWER_SIZE];
    assert_eq!(bytes::run(&mut state, &list[5..], &mut again), Ok(1));
    for text in [
        "02 00 01 00".to_string(),
        "128 times `01 00 01 00 00 00 00 00 00`".to_string(),
        format!("the first source is `{source}`"),
        core,
        hex(&answers[ANSWER_SIZE..]),
        hex(&encoded(Command::Trigger(SourceId(4)))),
        format!("Trigger 1 again answers `{}`", hex(&again)),
        format!("`{}`, with nothing else changed", hex(&state[4..13])),
    ] {
        assert!(document.contains(&text), "docs/ENCODING.md lacks {text}");
    }
    let triggers = list[5..].repeat(65_534);
    let mut answers = vec![0; triggers.len()];
    for taken in [65_534, 1] {
        let listed = &triggers[..COMMAND_SIZE * taken];
        assert_eq!(bytes::run(&mut state, listed, &mut answers), Ok(taken));
        assert_eq!(hex(&state[11..13]), "ff ff");
    }
    assert!(
        document.contains("After 65,535 such answers its last two bytes are `ff ff`, and stay so.")
    );
}

/// A number as the documents write it.
fn with_comma(number: usize) -> String {
    match number / 1000 {
        0 => number.to_string(),
        thousands => format!("{thousands},{:03}", number % 1000),
    }
}

/// The sizes and offsets of docs/ENCODING.md and of the page for hosts.
#[test]
fn the_documented_sizes_hold() {
    let document = include_str!("../../../docs/ENCODING.md");
    let (state, routines) = (with_comma(STATE_SIZE), with_comma(psic::ROUTINES_SIZE));
    let holders = with_comma(STATE_SIZE + 2 * psic::MAX_CORES);
    let source = (STATE_SIZE - 4 - 8 * psic::MAX_CORES) / psic::MAX_SOURCES;
    let cores = with_comma(4 + source * psic::MAX_SOURCES);
    for text in [
        format!("## A state: {state} bytes\n"),
        format!("| 4 + {source} (id - 1) | {source} | source id, for ids 1 to 128 |\n"),
        format!("| {cores} + 8 k | 8 | core k, for cores 0 to 31 |\n"),
        format!("if there are {state} of them"),
        format!("of another length than {state},"),
        format!("## A simulation: {routines} bytes\n"),
        format!("| 0 | {state} | the controller's state |\n| {state} + 2 k | 2 |"),
        format!("| {holders} + 2 (id - 1) | 2 |"),
        format!("three buffers: `state`, {state} bytes;"),
        format!("A source record has {} bytes", size_of::<psic::Source>()),
    ] {
        assert!(document.contains(&text), "docs/ENCODING.md lacks {text}");
    }
    let page = include_str!("../../README.md");
    let memory = format!("A state is {state} bytes that the host owns, a simulation {routines};");
    let simulation = format!("each request: {routines} bytes, `psic_routines` or `Routines`");
    for text in [memory, simulation] {
        assert!(page.contains(&text), "host/README.md lacks {text}");
    }
}

/// The offsets of all flags: three of each source, two of each core.
fn flags() -> Vec<usize> {
    let sources = (0..128).flat_map(|i| [2, 3, 4].map(|field| 4 + 9 * i + field));
    let cores = (0..32).flat_map(|k| [2, 3].map(|field| 1156 + 8 * k + field));
    sources.chain(cores).collect()
}

/// Every call refuses the buffer by 255, and it stays as it was.
fn assert_unreadable(buffer: &[u8]) {
    let mut state = buffer.to_vec();
    assert_eq!(raw::execute(&mut state, 4, 1, 0), 255);
    let list = encoded(Command::Trigger(SourceId(1)));
    let mut answers = [9; ANSWER_SIZE];
    assert_eq!(raw::run(&mut state, &list, &mut answers), u64::MAX);
    assert_eq!(raw::run(&mut state, &[], &mut []), u64::MAX);
    assert_eq!(answers, [9; ANSWER_SIZE]);
    assert_eq!(state, buffer);
    let read = psic::Controller::from_bytes(buffer);
    assert_eq!(read, Err(Refusal::Unreadable));
}

#[test]
fn short_buffers_and_unreadable_bytes_are_refused_and_unchanged() {
    let fresh = bytes_of(&Controller::reset(3, 2));
    for length in [0, 1, STATE_SIZE - 1, STATE_SIZE + 1, 2 * STATE_SIZE] {
        let mut buffer = fresh.repeat(2);
        buffer.truncate(length);
        assert_unreadable(&buffer);
        let given = buffer.clone();
        assert_eq!(raw::make(3, 2, &mut buffer), 255);
        assert_eq!(buffer, given);
    }
    for flag in flags() {
        for wrong in [2, 3, 127, 128, 254, 255] {
            let mut buffer = fresh.clone();
            buffer[flag] = wrong;
            assert_unreadable(&buffer);
        }
    }
}

#[test]
fn a_list_that_does_not_fit_is_refused_and_unchanged() {
    let given = bytes_of(&Controller::reset(3, 2));
    let mut state = given.clone();
    let list = encoded(Command::Trigger(SourceId(1))).repeat(3);
    let mut answers = vec![9; 3 * ANSWER_SIZE];
    let short = &mut answers[..3 * ANSWER_SIZE - 1];
    assert_eq!(raw::run(&mut state, &list, short), u64::MAX);
    for cut in [1, COMMAND_SIZE - 1, COMMAND_SIZE + 1] {
        assert_eq!(raw::run(&mut state, &list[..cut], &mut answers), u64::MAX);
    }
    assert_eq!(state, given);
    assert!(answers.iter().all(|&byte| byte == 9));
}

#[test]
fn a_number_above_7_is_no_command() {
    let given = bytes_of(&Controller::reset(3, 2));
    let mut state = given.clone();
    for number in [8, 9, 255, 256, 260, u16::MAX] {
        assert_eq!(raw::execute(&mut state, number, 1, 0), 255);
        assert_eq!(state, given);
    }
}

#[test]
fn a_refused_make_leaves_the_buffer_as_it_was() {
    for given in [
        vec![0; STATE_SIZE],
        vec![255; STATE_SIZE],
        bytes_of(&Controller::reset(3, 2)),
    ] {
        let mut state = given.clone();
        for (n, m) in [(0, 1), (1, 0), (129, 1), (1, 33), (0, 0), (65535, 65535)] {
            assert_eq!(raw::make(n, m, &mut state), 2);
            assert_eq!(state, given);
        }
    }
}

/// What lies behind the answers of a list stays, and so does the state if every command is refused.
#[test]
fn a_refused_list_leaves_the_state_and_the_rest_of_the_answers() {
    let given = bytes_of(&Controller::reset(3, 2));
    let mut state = given.clone();
    let list = [4, 4, 0, 0, 0, 5, 0, 0, 0, 0, 7, 1, 0, 0, 0];
    let mut answers = vec![9; 3 * ANSWER_SIZE + 4];
    assert_eq!(bytes::run(&mut state, &list, &mut answers), Ok(3));
    let (written, rest) = answers.split_at(3 * ANSWER_SIZE);
    assert_eq!(written, [4, 0, 0, 0, 0, 7, 0, 0, 0, 0, 8, 0, 0, 0, 0]);
    assert_eq!(rest, [9; 4]);
    assert_eq!(state, given);
}

#[test]
fn a_bad_number_ends_a_list_and_what_ran_before_it_stands() {
    let mut state = bytes_of(&Controller::reset(3, 2));
    let mut list = Vec::new();
    for (number, at) in [(2, 1), (4, 1), (8, 1), (5, 0)] {
        list.extend([number, at, 0, 0, 0]);
    }
    let mut answers = vec![9; 4 * ANSWER_SIZE];
    assert_eq!(bytes::run(&mut state, &list, &mut answers), Ok(2));
    assert!(answers[2 * ANSWER_SIZE..].iter().all(|&byte| byte == 9));
    assert!(controller_of(&state).cores[0].message.filled);
}

/// The wrapper's accessors say what the reference's own words say, of sound and of broken states.
#[test]
fn accessors_agree_with_the_reference() {
    let mut random = Random::new(run_seed());
    for _ in 0..40 {
        let (n, m) = generate::sizes(&mut random);
        let history = generate::history(random.bits(), n, m, 300, Mix::Busy);
        let sound = generate::final_state(&history);
        for state in damage::broken_states(&mut random, &sound) {
            let controller = Wrapper.load(&state);
            assert_eq!(controller.is_sound(), well_formed(&state));
        }
        let controller = Wrapper.load(&sound);
        assert!(controller.is_sound());
        assert_eq!(controller.current_priorities(), sound.current_priorities());
        assert_eq!(controller.top_priority(), reference::top_priority(n));
        for id in sound.ids() {
            let owner = controller.owner(psic::SourceId(id.0));
            let holds = match owner {
                None => !sound.source(id).pending,
                Some(Owner::Source) => sound.source(id).is_waiting(),
                Some(Owner::Box(core)) => {
                    let message = sound.cores[usize::from(core.0)].message;
                    message.filled && message.id == id.0
                }
                Some(Owner::Software) => sound.is_claimed(id),
            };
            assert!(holds, "{id:?}: {owner:?}");
        }
        for id in [0, n + 1, u16::MAX] {
            assert_eq!(controller.source(psic::SourceId(id)), None);
            assert_eq!(controller.owner(psic::SourceId(id)), None);
        }
        for core in [m, u16::MAX] {
            assert_eq!(controller.current_priority(psic::CoreId(core)), None);
        }
    }
}

#[test]
fn a_command_is_read_back_from_its_bytes_and_its_text() {
    for seed in run_seeds(20) {
        for command in generate::history(seed, 128, 32, 200, Mix::Even).commands {
            let command = typed(command);
            assert_eq!(psic::Command::from_bytes(command.to_bytes()), Some(command));
            assert_eq!(command.to_string().parse(), Ok(command));
        }
    }
}

/// Bytes as the documents show them.
fn hex(bytes: &[u8]) -> String {
    let words: Vec<String> = bytes.iter().map(|byte| format!("{byte:02x}")).collect();
    words.join(" ")
}
