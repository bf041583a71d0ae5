//! Counts of dropped triggers as a host meets them: what counts, what doesn't, where a count is held, and in which bytes it lies.

use psic::{
    bytes, Command, Controller, CoreId, Handovers, Refusal, RoutineCall, Routines, SourceId,
    MAX_DROPPED, STATE_SIZE,
};

/// Where the count of a source begins in a state's bytes (docs/ENCODING.md).
fn count_at(id: u16) -> usize {
    4 + 9 * (usize::from(id) - 1) + 7
}

/// The counts of all sources.
fn counts(controller: &Controller) -> Vec<u16> {
    let sources = controller.sources();
    sources.map(|(_, source)| source.dropped).collect()
}

/// Four sources, 1 masked and waiting, 2 unmasked and waiting, 3 in a box, 4 claimed, on one core.
fn one_of_each() -> Controller {
    let mut controller = Controller::new(5, 1).expect("sizes in range");
    for id in 2..=4 {
        let id = SourceId(id);
        controller.set_source_priority(id, id.0).expect("accepted");
        controller.unmask(id).expect("accepted");
    }
    for id in [4, 1, 2] {
        controller.trigger(SourceId(id)).expect("accepted");
    }
    controller.claim(CoreId(0)).expect("accepted");
    controller
        .set_core_priority(CoreId(0), 2)
        .expect("accepted");
    controller.trigger(SourceId(3)).expect("accepted");
    let shown = "[3]  1: source  2: source  3: box 0  4: software";
    assert_eq!(controller.to_string(), shown);
    controller
}

#[test]
fn a_dropped_trigger_is_counted_wherever_the_request_is() {
    let mut controller = one_of_each();
    let mut expected = *controller.as_bytes();
    for (id, times) in [(1, 1), (2, 2), (3, 3), (4, 4)] {
        for _ in 0..times {
            assert_eq!(controller.trigger(SourceId(id)), Err(Refusal::Pending));
        }
        expected[count_at(id)] = times;
        assert_eq!(controller.as_bytes(), &expected, "source {id}");
        assert_eq!(controller.dropped(SourceId(id)), Some(u16::from(times)));
    }
    assert_eq!(counts(&controller), [1, 2, 3, 4, 0]);
    let read_back = Controller::from_bytes(&expected).expect("bytes of a state");
    assert_eq!(counts(&read_back), [1, 2, 3, 4, 0]);
    for id in [0, 6, u16::MAX] {
        assert_eq!(controller.dropped(SourceId(id)), None);
    }
}

#[test]
fn other_refusals_count_nothing() {
    let given = one_of_each();
    for (line, refusal) in [
        ("trigger 0", Refusal::BadSource),
        ("trigger 6", Refusal::BadSource),
        ("trigger 257", Refusal::BadSource),
        ("claim on core 1", Refusal::BadCore),
        ("set source 1 to 0", Refusal::BadPriority),
        ("complete 3", Refusal::NotClaimed),
        ("redeliver 1", Refusal::NotClaimed),
        ("set source 3 to 3", Refusal::PriorityInUse),
    ] {
        let mut controller = given.clone();
        let command: Command = line.parse().expect("a command");
        assert_eq!(controller.execute(command), Err(refusal), "{line}");
        assert_eq!(controller, given, "{line}");
    }
}

/// A request that is claimed, ends and comes again, and all that can be done to its source meanwhile.
#[test]
fn accepted_commands_leave_every_count() {
    let mut controller = one_of_each();
    for (id, times) in [(1, 1), (2, 2), (3, 3), (4, 4)] {
        let dropped = controller.run(&vec![Command::Trigger(SourceId(id)); times]);
        assert!(dropped
            .iter()
            .all(|&answer| answer == Err(Refusal::Pending)));
    }
    for line in [
        "mask 3",
        "unmask 3",
        "unmask 1",
        "redeliver 4",
        "set core 0 to 0",
        "claim on core 0",
        "complete 4",
        "set source 4 to 1",
        "trigger 4",
        "trigger 5",
        "set core 0 to 0",
    ] {
        let command: Command = line.parse().expect("a command");
        assert!(controller.execute(command).is_ok(), "{line}");
        assert_eq!(counts(&controller), [1, 2, 3, 4, 0], "{line}");
    }
}

/// A count past n makes a state unsound; its pending sources count nothing then.
#[test]
fn counts_past_n_are_refused_by_1() {
    let mut sound = *one_of_each().as_bytes();
    for id in 1..=5 {
        let at = count_at(id);
        sound[at..at + 2].copy_from_slice(&(65_531 + id - 1).to_le_bytes());
    }
    let controller = Controller::from_bytes(&sound).expect("bytes of a state");
    assert!(
        controller.is_sound(),
        "sources in use count up to any number"
    );
    assert_eq!(
        counts(&controller),
        [65_531, 65_532, 65_533, 65_534, 65_535]
    );
    for byte in [0, 1] {
        // One of them, or all alike.
        let one = [6, 7, 100, 128].map(|id| vec![id]);
        for ids in one.into_iter().chain([(6..=128).collect()]) {
            let mut damaged = sound;
            for &id in &ids {
                damaged[count_at(id) + byte] = 1;
            }
            let given = Controller::from_bytes(&damaged).expect("bytes of a state");
            assert!(!given.is_sound(), "{ids:?}");
            let mut controller = given.clone();
            assert_eq!(controller.trigger(SourceId(3)), Err(Refusal::Unsound));
            assert_eq!(controller, given, "{ids:?}");
        }
    }
}

/// So many triggers of source 2 of a fresh controller, of which the first is accepted.
fn triggered(count: usize) -> Controller {
    let mut controller = Controller::new(3, 1).expect("sizes in range");
    let answers = controller.run(&vec![Command::Trigger(SourceId(2)); count]);
    assert!(answers[0].is_ok());
    let mut refused = answers[1..].iter();
    assert!(refused.all(|&answer| answer == Err(Refusal::Pending)));
    controller
}

/// In one list, and by one command more.
#[test]
fn a_count_is_held_at_65535() {
    for (refusals, count) in [
        (65_534, 65_534),
        (65_535, 65_535),
        (65_536, 65_535),
        (65_537, 65_535),
    ] {
        let mut controller = triggered(1 + refusals);
        assert_eq!(counts(&controller), [0, count, 0], "{refusals} refusals");
        let mut expected = *controller.as_bytes();
        let more = (u32::from(count) + 1).min(65_535) as u16;
        expected[count_at(2)..count_at(2) + 2].copy_from_slice(&more.to_le_bytes());
        assert_eq!(controller.trigger(SourceId(2)), Err(Refusal::Pending));
        assert_eq!(controller.as_bytes(), &expected, "{refusals} refusals");
    }
    assert_eq!(MAX_DROPPED, 65_535);
}

/// By single calls on bytes of the host's own.
#[test]
fn a_count_is_held_at_65535_in_bytes() {
    let mut state = [0; STATE_SIZE];
    bytes::make(1, 1, &mut state).expect("sizes in range");
    let trigger = Command::Trigger(SourceId(1));
    assert!(bytes::execute(&mut state, trigger).is_ok());
    let opened = state;
    for refusals in 1..=65_536_u32 {
        assert_eq!(bytes::execute(&mut state, trigger), Err(Refusal::Pending));
        let count = refusals.min(65_535) as u16;
        let at = count_at(1);
        assert_eq!(state[at..at + 2], count.to_le_bytes());
    }
    state[count_at(1)..count_at(1) + 2].fill(0);
    assert_eq!(state, opened);
}

/// The same of the routines: of a request that runs.
#[test]
fn a_count_is_held_at_65535_in_a_simulation() {
    let (mut routines, mut handovers) = (
        Routines::new(2, 2).expect("sizes in range"),
        Handovers::default(),
    );
    routines.unmask(SourceId(1)).expect("accepted");
    routines.trigger(SourceId(1)).expect("accepted");
    routines.enter(CoreId(0), &mut handovers).expect("accepted");
    let dropped = vec![RoutineCall::Trigger(SourceId(1)); 65_534];
    let mut answers = routines.simulate(&dropped, &mut handovers).into_iter();
    assert!(answers.all(|answer| answer == Err(Refusal::Pending)));
    for count in [65_534, 65_535, 65_535] {
        assert_eq!(counts(routines.controller()), [count, 0]);
        assert_eq!(routines.trigger(SourceId(1)), Err(Refusal::Pending));
    }
    assert_eq!(routines.active(CoreId(0)), Some(SourceId(1)));
    routines.exit(CoreId(0)).expect("accepted");
    assert_eq!(counts(routines.controller()), [65_535, 0]);
}
