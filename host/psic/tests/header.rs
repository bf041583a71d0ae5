//! The C header and this package say the same: numbers, words, sizes.

use std::mem::offset_of;

use psic::{
    recording, Command, CoreId, FaultKind, Handovers, Refusal, RoutineCall, Source, SourceId,
};

const HEADER: &str = include_str!("../include/psic.h");

/// The header's name of a refusal.
fn name_of_refusal(refusal: Refusal) -> &'static str {
    match refusal {
        Refusal::Unsound => "PSIC_UNSOUND",
        Refusal::BadSize => "PSIC_BAD_SIZE",
        Refusal::BadCore => "PSIC_BAD_CORE",
        Refusal::BadSource => "PSIC_BAD_SOURCE",
        Refusal::BadPriority => "PSIC_BAD_PRIORITY",
        Refusal::Pending => "PSIC_PENDING",
        Refusal::EmptyBox => "PSIC_EMPTY_BOX",
        Refusal::NotClaimed => "PSIC_NOT_CLAIMED",
        Refusal::PriorityInUse => "PSIC_PRIORITY_IN_USE",
        Refusal::Unwritable => "PSIC_UNWRITABLE",
        Refusal::Unreadable => "PSIC_UNREADABLE",
        _ => panic!("{refusal:?} has no name in the header"),
    }
}

/// The header's name of a fault of a recording.
fn name_of_fault(kind: FaultKind) -> &'static str {
    match kind {
        FaultKind::BadText => "PSIC_BAD_TEXT",
        FaultKind::BadVariable => "PSIC_BAD_VARIABLE",
        FaultKind::UnknownValue => "PSIC_UNKNOWN_VALUE",
        FaultKind::TimeNotRising => "PSIC_TIME_NOT_RISING",
        FaultKind::TooManyCommands => "PSIC_TOO_MANY_COMMANDS",
        _ => panic!("{kind:?} has no name in the header"),
    }
}

#[test]
fn the_header_has_the_same_numbers_and_words() {
    let refusals = Refusal::ALL.map(|r| (name_of_refusal(r), r.number(), r.in_words()));
    let faults = FaultKind::ALL.map(|f| (name_of_fault(f), f.number(), f.in_words()));
    for (name, number, words) in refusals.into_iter().chain(faults) {
        let declared = [',', ' '].map(|end| HEADER.contains(&format!("{name} = {number}{end}")));
        assert!(declared.contains(&true), "{name}");
        assert!(
            HEADER.contains(&format!("case {name}: return \"{words}\";")),
            "{name}"
        );
    }
}

#[test]
fn the_header_has_the_same_calls_of_a_simulation() {
    let (id, core) = (SourceId(1), CoreId(0));
    for (name, call) in [
        (
            "PSIC_SET_SOURCE_PRIORITY",
            RoutineCall::SetSourcePriority(id, 1),
        ),
        ("PSIC_MASK", RoutineCall::Mask(id)),
        ("PSIC_UNMASK", RoutineCall::Unmask(id)),
        ("PSIC_TRIGGER", RoutineCall::Trigger(id)),
        ("PSIC_ENTER", RoutineCall::Enter(core)),
        ("PSIC_EXIT", RoutineCall::Exit(core)),
    ] {
        let number = call.number();
        let declared = [',', ' '].map(|end| HEADER.contains(&format!("{name} = {number}{end}")));
        assert!(declared.contains(&true), "{name}");
    }
}

#[test]
fn the_header_has_the_same_sizes() {
    for (name, size) in [
        ("PSIC_STATE_SIZE", psic::STATE_SIZE),
        ("PSIC_COMMAND_SIZE", psic::COMMAND_SIZE),
        ("PSIC_ANSWER_SIZE", psic::ANSWER_SIZE),
        ("PSIC_MAX_SOURCES", psic::MAX_SOURCES),
        ("PSIC_MAX_CORES", psic::MAX_CORES),
        ("PSIC_MAX_DROPPED", usize::from(psic::MAX_DROPPED)),
        ("PSIC_MAX_COMMANDS", recording::MAX_COMMANDS),
        ("PSIC_ROUTINES_SIZE", psic::ROUTINES_SIZE),
        ("PSIC_TABLE_CELLS", size_of::<Handovers>() / 2),
    ] {
        assert!(
            HEADER.contains(&format!("#define {name} {size}u\n")),
            "{name}"
        );
    }
}

/// Records in C's layout: the header asserts the offsets that the package's have.
#[test]
fn the_header_has_the_same_offsets() {
    for (record, field, offset) in [
        ("psic_source", "priority", offset_of!(Source, priority)),
        ("psic_source", "dropped", offset_of!(Source, dropped)),
        ("psic_routines", "active", psic::STATE_SIZE),
        (
            "psic_routines",
            "holder",
            psic::STATE_SIZE + 2 * psic::MAX_CORES,
        ),
    ] {
        let assertion = format!("PSIC_ASSERT_OFFSET({record}, {field}, {offset});\n");
        assert!(HEADER.contains(&assertion), "{assertion}");
    }
    let size = size_of::<Source>();
    assert!(HEADER.contains(&format!("PSIC_ASSERT_SIZE(psic_source, {size});\n")));
}

/// The header's macro for the most bytes of a text has the package's two numbers.
#[test]
fn the_header_has_the_same_size_of_a_text() {
    let definitions = recording::text_size(0);
    let command = recording::text_size(1) - definitions;
    let macro_text = format!(
        "#define PSIC_TEXT_SIZE(commands) ((size_t){definitions} + (size_t){command} * (size_t)(commands))\n"
    );
    assert!(HEADER.contains(&macro_text), "{macro_text}");
    assert_eq!(recording::text_size(1000), definitions + 1000 * command);
}

/// A number is a refusal, and a line of text a command or a call of a simulation, exactly where the lists say so.
#[test]
fn numbers_and_texts_are_read_back() {
    for number in 0..=255 {
        let refusal = Refusal::from_number(number);
        let expected = Refusal::ALL.into_iter().find(|r| r.number() == number);
        assert_eq!(refusal, expected);
        let fault = FaultKind::from_number(number);
        let expected = FaultKind::ALL.into_iter().find(|f| f.number() == number);
        assert_eq!(fault, expected);
        assert!(refusal.is_none() || fault.is_none(), "{number}");
    }
    for (number, form) in Command::FORMS.iter().enumerate() {
        let text = form.replace("ID", "1").replace("PRIORITY", "2");
        let text = text.replace("CORE", "0");
        let command: Command = text.parse().expect("a form is a command");
        assert_eq!(usize::from(command.number()), number);
        assert_eq!(command.to_string(), text);
    }
    for form in RoutineCall::FORMS {
        let text = form.replace("ID", "1").replace("PRIORITY", "2");
        let text = text.replace("CORE", "0");
        let call: RoutineCall = text.parse().expect("a form is a call");
        assert_eq!(RoutineCall::from_bytes(call.to_bytes()), Some(call));
        assert_eq!(call.to_string(), text);
    }
}
