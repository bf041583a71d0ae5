//! Dropped triggers in the library, by every way to it: each count is the number of triggers answered 6 in the run, or 65,535 if there
//! were more, by commands and answers alone, and nothing else changes one.

use psic::recording::room;
use psic::{raw, ANSWER_SIZE, STATE_SIZE};
use psic_reference::dropped::first_breach;
use psic_reference::generate::{self, History, Mix};
use psic_reference::model::Model;
use psic_reference::random::{run_seed, Random};
use psic_reference::records::{Command, Controller, CoreNumber, SourceId};
use psic_reference::routines::compare::Simulator;
use psic_reference::routines::properties::follow;
use psic_reference::routines::runs::{self, Run};
use psic_reference::routines::{Call, Listed, Routines};
use psic_trials::fast::Fast;
use psic_trials::library::{bytes_of, encoded, run_list, Library};
use psic_trials::peer::{self, Peer};
use psic_trials::recordings::{self, Reader};
use psic_trials::simulations;
use psic_trials::workload;
use psic_trials::wrapper::Wrapper;

use crate::slips::{with_slip, Slip};

const TRIGGER_2: Command = Command::Trigger(SourceId(2));

/// The count of source 2.
fn count_of_2<M: Model>(model: &M, state: &M::State) -> u16 {
    model.read(state).sources[1].dropped
}

/// Runs from a fresh controller, of every mix, half of the commands triggers that are dropped or not.
fn histories(seed: u64) -> Vec<History> {
    let mut random = Random::new(seed);
    let mut histories = Vec::new();
    for (n, m) in [(1, 1), (2, 1), (4, 3), (8, 2), (32, 2), (128, 32)] {
        for mix in Mix::ALL {
            let seed = random.bits();
            let dropping = generate::dropping_from(seed, &Controller::reset(n, m), 600, mix);
            histories.push(History {
                seed,
                n,
                m,
                commands: dropping,
            });
            histories.push(generate::history(seed, n, m, 600, mix));
        }
    }
    histories
}

/// The first breach of the counts that a model commits in these histories.
fn first_in<M: Model>(model: &M, histories: &[History]) -> Option<String> {
    histories.iter().find_map(|history| {
        let (index, reason) = first_breach(model, history)?;
        let name = model.name();
        let History { seed, n, m, .. } = history;
        Some(format!(
            "{name}, seed {seed}, ({n}, {m}), index {index}: {reason}"
        ))
    })
}

#[test]
fn counts_are_those_of_the_history_by_every_way() {
    let histories = histories(run_seed());
    assert_eq!(first_in(&Library, &histories), None);
    assert_eq!(first_in(&Wrapper, &histories), None);
    assert_eq!(first_in(&Fast, &histories), None);
    assert_eq!(first_in(&Peer::Tested, &histories), None);
    assert_eq!(first_in(&Peer::Untested, &histories), None);
}

/// The counts at the end of a list from a fresh controller are those of its commands and answers.
#[test]
fn counts_of_a_list_are_those_of_the_history() {
    for History { n, m, commands, .. } in histories(run_seed() ^ 1) {
        let mut state = bytes_of(&Controller::reset(n, m));
        let answers = run_list(&mut state, &commands);
        let mut expected = vec![0_u16; 128];
        for (command, answer) in commands.iter().zip(answers) {
            if let (Command::Trigger(id), 6) = (command, answer.number) {
                expected[usize::from(id.0) - 1] += 1;
            }
        }
        let sources = Library.read(&state).sources;
        assert_eq!(sources.map(|source| source.dropped)[..], expected);
    }
}

/// What is looked at are the library's own bytes: what it doesn't count, or loses, is told.
#[test]
fn every_slip_of_the_counts_is_found_by_the_history() {
    let histories = histories(run_seed());
    for slip in [Slip::ExecuteDropped, Slip::ExecuteCountsLost] {
        let told = with_slip(slip, || first_in(&Library, &histories));
        assert!(told.is_some(), "{slip:?}");
        let told = with_slip(slip, || first_in(&Wrapper, &histories));
        assert!(told.is_some(), "{slip:?}, by the wrapper");
    }
}

/// After 65,533 refusals up to 65,537, each by one command.
fn count_to_the_end<M: Model>(model: &M) {
    let name = model.name();
    let (number, mut state) = model.make(3, 2);
    assert_eq!(number, 0, "{name}");
    assert_eq!(model.execute(&mut state, TRIGGER_2).number, 0, "{name}");
    let mut expected = model.read(&state);
    for refusals in 1..=65_537_u32 {
        let answer = model.execute(&mut state, TRIGGER_2);
        assert_eq!(
            (answer.number, answer.id, answer.cycles),
            (6, 0, 0),
            "{name}"
        );
        if refusals > 65_532 {
            expected.sources[1].dropped = refusals.min(65_535) as u16;
            assert_eq!(model.read(&state), expected, "{name}, {refusals}");
        }
    }
}

#[test]
fn a_count_is_held_at_65535_by_every_way() {
    count_to_the_end(&Library);
    count_to_the_end(&Wrapper);
    count_to_the_end(&Fast);
    count_to_the_end(&Peer::Tested);
    count_to_the_end(&Peer::Untested);
}

/// One list of so many triggers from a fresh controller, of which the first is accepted, and a list of one after it.
fn count_in_lists<M: Model>(model: &M) {
    let name = model.name();
    for (refusals, count) in [
        (65_533, 65_533),
        (65_534, 65_534),
        (65_535, 65_535),
        (65_536, 65_535),
        (70_000, 65_535),
    ] {
        let (_, mut state) = model.make(3, 2);
        let answers = model.run(&mut state, &vec![TRIGGER_2; 1 + refusals]);
        let refused = answers.iter().filter(|answer| answer.number == 6);
        assert_eq!(refused.count(), refusals, "{name}");
        assert_eq!(count_of_2(model, &state), count, "{name}, {refusals}");
        model.run(&mut state, &[TRIGGER_2]);
        let more = if count == 65_535 { count } else { count + 1 };
        assert_eq!(count_of_2(model, &state), more, "{name}, {refusals}");
    }
}

#[test]
fn a_count_is_held_at_65535_in_lists() {
    count_in_lists(&Library);
    count_in_lists(&Wrapper);
    count_in_lists(&Peer::Tested);
    count_in_lists(&Peer::Untested);
}

/// A recording has at most 65,535 commands, of which one is accepted: so no replay reaches 65,535, and each count is exact.
#[test]
fn a_replay_counts_up_to_65534() {
    for commands in [1, 2, 65_534, 65_535] {
        let text = workload::recording(&vec![TRIGGER_2; commands]);
        let text = text.as_bytes();
        let mut state = [0; STATE_SIZE];
        let mut answers = vec![0; ANSWER_SIZE * room(text.len())];
        let report = raw::replay(3, 2, text, &mut state, &mut answers);
        assert_eq!((report.number, usize::from(report.count)), (0, commands));
        let mut expected = Controller::reset(3, 2);
        expected.sources[1].pending = true;
        expected.sources[1].request = 1;
        expected.sources[1].dropped = commands as u16 - 1;
        assert_eq!(state[..], bytes_of(&expected)[..], "{commands}");
    }
}

/// By both ways, against the reference.
#[test]
fn a_replay_that_loses_its_counts_is_found() {
    let text = workload::recording(&[TRIGGER_2; 3]);
    let replays = || {
        let text = text.as_bytes();
        [
            recordings::Library.replay(3, 2, text, 0),
            recordings::Wrapper.replay(3, 2, text, 0),
        ]
    };
    assert_eq!(replays(), [Ok(()), Ok(())]);
    let told = with_slip(Slip::ReplayCountsLost, replays);
    assert!(told.iter().all(|told| told.is_err()), "{told:?}");
}

/// 5 sources on a core, with a request in each place: 1 waits masked, 2 waits unmasked, 3 lies in a box, 4 is claimed.
fn in_each_place() -> Vec<u8> {
    let (_, mut state) = Library.make(5, 1);
    for id in [2, 3, 4].map(SourceId) {
        Library.execute(&mut state, Command::SetSourcePriority(id, id.0));
        Library.execute(&mut state, Command::Unmask(id));
    }
    let core = CoreNumber(0);
    for command in [
        Command::Trigger(SourceId(4)),
        Command::Claim(core),
        Command::SetCorePriority(core, 2),
        Command::Trigger(SourceId(3)),
        Command::Trigger(SourceId(2)),
        Command::Trigger(SourceId(1)),
    ] {
        assert_eq!(Library.execute(&mut state, command).number, 0);
    }
    let made = Library.read(&state);
    assert!(made.is_boxed(SourceId(3)) && made.is_claimed(SourceId(4)));
    state
}

/// Of a trigger of each the count is all that changes; a source that there isn't counts nothing.
#[test]
fn a_dropped_trigger_counts_in_its_record_alone() {
    let mut state = in_each_place();
    let mut expected = Library.read(&state);
    for id in 1..=4 {
        let trigger = Command::Trigger(SourceId(id));
        assert_eq!(Library.execute(&mut state, trigger).number, 6);
        expected.sources[usize::from(id) - 1].dropped = 1;
        assert_eq!(Library.read(&state), expected, "source {id}");
    }
    for id in [0, 6, 128, 129, 257, u16::MAX] {
        let trigger = Command::Trigger(SourceId(id));
        assert_eq!(Library.execute(&mut state, trigger).number, 4);
        assert_eq!(Library.read(&state), expected, "source {id}");
    }
}

/// By single commands and in lists: a count past n makes the state unsound.
#[test]
fn an_unsound_state_counts_nothing() {
    for place in [5, 127] {
        let mut unsound = Library.read(&in_each_place());
        unsound.sources[place].dropped = 1;
        let mut state = Library.load(&unsound);
        for id in 1..=6 {
            let trigger = Command::Trigger(SourceId(id));
            assert_eq!(Library.execute(&mut state, trigger).number, 1);
            let listed = run_list(&mut state, &[trigger, trigger]);
            assert!(listed.iter().all(|answer| answer.number == 1));
            assert_eq!(Library.read(&state), unsound);
        }
    }
}

/// The same of the peer that the library's speed is held against: what it tests of spare records, it tests of their counts.
#[test]
fn a_count_past_n_is_unsound_to_the_peer() {
    for (place, sound) in [(0, true), (4, true), (5, false), (127, false)] {
        for count in [1, 256, 65_535] {
            let mut state = Controller::reset(5, 1);
            state.sources[place].dropped = count;
            assert_eq!(peer::Controller::load(&state).is_sound(), sound, "{place}");
        }
    }
}

/// Runs of the routines in which half of the calls are triggers that are dropped or not: by single calls, all properties after each.
#[test]
fn counts_of_simulations_are_those_of_the_history() {
    let mut random = Random::new(run_seed());
    for (n, m) in [(1, 1), (4, 2), (8, 3), (128, 4)] {
        for mix in runs::Mix::ALL {
            let seed = random.bits();
            let fresh = Routines::fresh(n, m);
            let calls = runs::dropping_from(seed, &fresh, 400, mix);
            let run = Run { seed, n, m, calls };
            follow(&simulations::Library, &run).unwrap_or_else(|what| panic!("{what}"));
            follow(&simulations::Wrapper, &run).unwrap_or_else(|what| panic!("{what}"));
            follow(&peer::routines::Peer, &run).unwrap_or_else(|what| panic!("{what}"));
        }
    }
}

/// A running request is triggered again and again: in one list, then by single ones. Its exit leaves the count.
fn count_in_a_simulation<S: Simulator>(simulator: &S) {
    let name = simulator.name();
    let (_, mut state) = simulator.make(3, 2);
    let trigger = Call::Trigger(SourceId(2));
    for call in [
        Call::Unmask(SourceId(2)),
        trigger,
        Call::Enter(CoreNumber(0)),
    ] {
        assert_eq!(simulator.call(&mut state, call).number, 0, "{name}");
    }
    let mut expected = simulator.read(&state);
    let ran = simulator.run_listed(&mut state, &vec![Listed::Call(trigger); 65_534]);
    assert!(ran.answers.iter().all(|answer| answer.number == 6));
    for count in [65_534, 65_535, 65_535] {
        expected.routines.controller.sources[1].dropped = count;
        assert_eq!(simulator.read(&state), expected, "{name}");
        assert_eq!(simulator.call(&mut state, trigger).number, 6, "{name}");
    }
    assert_eq!(
        simulator.call(&mut state, Call::Exit(CoreNumber(0))).number,
        0
    );
    let source = simulator.read(&state).routines.controller.sources[1];
    assert_eq!((source.pending, source.dropped), (false, 65_535), "{name}");
}

#[test]
fn a_count_is_held_at_65535_in_simulations() {
    count_in_a_simulation(&simulations::Library);
    count_in_a_simulation(&simulations::Wrapper);
    count_in_a_simulation(&peer::routines::Peer);
}

/// 0x1234 triggers of source 2 are dropped: the lower byte comes first.
#[test]
fn counts_lie_in_the_last_two_bytes_of_a_source() {
    let mut state = bytes_of(&Controller::reset(3, 2));
    let list = encoded(TRIGGER_2).repeat(1 + 0x1234);
    let mut answers = vec![0; ANSWER_SIZE * (1 + 0x1234)];
    assert_eq!(raw::run(&mut state, &list, &mut answers), 1 + 0x1234);
    assert_eq!(state[20..22], [0x34, 0x12]);
}
