//! The library's calls on recordings answer and write what the independent reader says, and nothing else.

use psic::recording::room;
use psic::{raw, ANSWER_SIZE, COMMAND_SIZE, STATE_SIZE};
use psic_reference::random::{run_seed, Random};
use psic_reference::recording::{self, Reason};
use psic_reference::records::{Command, SourceId};
use psic_reference::texts::{edges, text, Kind, Texts};
use psic_trials::recordings::{Library, Reader, Trial, Wrapper};
use psic_trials::workload::{self, Mostly};

use crate::hex;
use crate::slips::{with_slip, Slip};

/// The first difference from the reference reader within so many texts.
fn first_difference(reader: &impl Reader, texts: usize) -> Option<String> {
    let mut trial = Trial::new(run_seed());
    (0..texts).find_map(|_| trial.step(reader).err())
}

/// A hundred thousand texts of all kinds. Every number shows, so that no comparison is hollow.
#[test]
fn every_text_is_read_and_replayed_as_by_the_reference() {
    let mut trial = Trial::new(run_seed());
    for _ in 0..100_000 {
        if let Err(difference) = trial.step(&Library) {
            panic!("{difference}");
        }
    }
    println!("{:?}", trial.totals);
    for number in [0, 11, 12, 13, 14, 19] {
        assert!(trial.totals.texts.contains_key(&number), "{number}");
    }
    for number in [0, 2, 11, 12, 13, 14] {
        assert!(trial.totals.replays.contains_key(&number), "{number}");
    }
}

#[test]
fn the_typed_functions_read_and_replay_as_the_reference() {
    assert_eq!(first_difference(&Wrapper, 20_000), None);
}

/// The texts made by hand, and some of the longest, at sizes in and out of range.
#[test]
fn edges_are_read_and_replayed_as_by_the_reference() {
    let mut seeds = Random::new(run_seed());
    let long = (0..6).map(|_| text(Kind::Long, seeds.bits()).bytes);
    for text in edges().into_iter().chain(long) {
        for reader in [&Library as &dyn Reader, &Wrapper] {
            let shown = String::from_utf8_lossy(&text[text.len().saturating_sub(300)..]);
            assert_eq!(reader.reading(&text, 1), Ok(()), "{shown}");
            for (n, m) in [(4, 2), (0, 2)] {
                assert_eq!(reader.replay(n, m, &text, 1), Ok(()), "({n}, {m}): {shown}");
            }
        }
    }
}

/// What is compared is the library's own answer to both calls, and what it wrote.
#[test]
fn every_slip_of_a_recording_is_found() {
    for slip in Slip::OF_RECORDINGS {
        let library = with_slip(slip, || first_difference(&Library, 400));
        assert!(library.is_some(), "{slip:?}");
        let wrapper = with_slip(slip, || first_difference(&Wrapper, 400));
        assert_eq!(
            wrapper.is_none(),
            slip.is_behind(),
            "{slip:?}, by the wrapper"
        );
    }
}

/// 255 with count 0 at offset 0.
const NO_ROOM: raw::Report = raw::Report {
    number: 255,
    count: 0,
    offset: 0,
};

/// Short and long texts, good and bad ones.
fn some_texts() -> Vec<Vec<u8>> {
    let mut seeds = Random::new(run_seed());
    let kinds = [Kind::Valid, Kind::Aimed, Kind::Damaged, Kind::Long];
    let made = kinds.map(|kind| text(kind, seeds.bits()).bytes);
    made.into_iter().chain([b"#".to_vec()]).collect()
}

#[test]
fn without_room_for_commands_or_times_nothing_is_written() {
    for text in some_texts() {
        let room = room(text.len());
        for (bytes, count) in [
            (COMMAND_SIZE * room - 1, room),
            (COMMAND_SIZE * room, room - 1),
            (0, room),
            (COMMAND_SIZE * room, 0),
        ] {
            let (mut commands, mut times) = (vec![9; bytes], vec![9; count]);
            assert_eq!(raw::read(&text, &mut commands, &mut times), NO_ROOM);
            assert!(commands.iter().all(|&byte| byte == 9));
            assert!(times.iter().all(|&time| time == 9));
        }
        let (mut commands, mut times) = (vec![9; COMMAND_SIZE * room], vec![9; room]);
        assert_ne!(raw::read(&text, &mut commands, &mut times), NO_ROOM);
    }
}

/// Also where the sizes are out of range: 255 comes before 2.
#[test]
fn a_replay_without_room_is_refused_first_of_all() {
    for text in some_texts() {
        let room = ANSWER_SIZE * room(text.len());
        for (state_len, answers_len) in [
            (STATE_SIZE - 1, room),
            (STATE_SIZE + 1, room),
            (0, room),
            (STATE_SIZE, room - 1),
            (STATE_SIZE, 0),
        ] {
            for (n, m) in [(32, 2), (0, 2), (32, 33)] {
                let (mut state, mut answers) = (vec![9; state_len], vec![9; answers_len]);
                let report = raw::replay(n, m, &text, &mut state, &mut answers);
                assert_eq!(report, NO_ROOM);
                assert!(state.iter().chain(&answers).all(|&byte| byte == 9));
            }
        }
    }
}

/// Document 01's own text.
pub const TRIGGER_4: &str = "$timescale 1 ns $end\n$scope module psic $end\n$var wire 1 ! stb $end\n$var wire 3 \" cmd $end\n\
                         $var wire 5 # core $end\n$var wire 8 $ arg $end\n$var wire 9 % prio $end\n$upscope $end\n\
                         $enddefinitions $end\n#0\nb100 \"\nb0 #\nb100 $\nb0 %\n1!\n#1\n0!\n";

/// The benchmark's recording is in the form of document 01's example, and holds as many commands as were to be recorded.
#[test]
fn the_benchmarks_recording_is_in_the_form_of_document_01s() {
    let trigger = Command::Trigger(SourceId(4));
    assert_eq!(workload::recording(&[trigger]), TRIGGER_4);
    for (n, m) in [(32, 2), (128, 4), (128, 32)] {
        let text = workload::recording(&workload::commands(run_seed(), n, m, 1000));
        let reading = psic::read(text.as_bytes());
        assert_eq!((reading.commands.len(), reading.fault), (1000, None));
        assert_eq!(Library.reading(text.as_bytes(), 0), Ok(()));
        assert_eq!(Library.replay(n, m, text.as_bytes(), 0), Ok(()));
    }
}

/// From every kind of recording the same commands are read, and what it is mostly made of is in it.
#[test]
fn the_benchmarks_kinds_hold_the_same_commands() {
    let commands = workload::commands(run_seed(), 32, 2, 300);
    let plain = psic::read(workload::recording(&commands).as_bytes());
    for (name, kind) in Mostly::NAMED {
        let text = workload::recording_of(kind, run_seed(), &commands);
        let held = match kind {
            Mostly::Plain | Mostly::Lines => "\n",
            Mostly::Comments => "$comment",
            Mostly::Definitions => "$version",
            Mostly::Blocks => "$dumpoff",
            Mostly::Unknown => "bX",
            Mostly::LineEnds => "\r\n",
        };
        assert!(text.contains(held), "{name}");
        assert_eq!(psic::read(text.as_bytes()), plain, "{name}");
        assert_eq!(Library.reading(text.as_bytes(), 0), Ok(()), "{name}");
        assert_eq!(Library.replay(32, 2, text.as_bytes(), 0), Ok(()), "{name}");
    }
}

/// The example of docs/ENCODING.md, in its words.
#[test]
fn the_documented_recording_holds() {
    let document = include_str!("../../../../docs/ENCODING.md");
    let text = TRIGGER_4.as_bytes();
    let length = text.len();
    let (mut commands, mut times) = (vec![0xff; COMMAND_SIZE * length], vec![7; length]);
    let report = raw::read(text, &mut commands, &mut times);
    let (mut state, mut answers) = ([0; STATE_SIZE], vec![0xff; ANSWER_SIZE * length]);
    assert_eq!(raw::replay(32, 2, text, &mut state, &mut answers), report);
    assert_eq!((report.number, report.count, report.offset), (0, 1, 233));
    assert_eq!(times[..2], [0, 7]);
    for words in [
        format!(
            "the first {COMMAND_SIZE} of its {} bytes become `{}`",
            commands.len(),
            hex(&commands[..COMMAND_SIZE])
        ),
        format!("number 0, count 1 and offset {length}"),
        format!(
            "the first {ANSWER_SIZE} bytes of `answers` `{}`",
            hex(&answers[..ANSWER_SIZE])
        ),
        format!(
            "source 4's bytes, from 31 on, are `{}`",
            hex(&state[31..40])
        ),
    ] {
        assert!(document.contains(&words), "docs/ENCODING.md lacks {words}");
    }
    let unstrobed = TRIGGER_4.replace("1!", "x!");
    let report = raw::read(unstrobed.as_bytes(), &mut commands, &mut times);
    let words = format!(
        "number {}, count {} and offset {}",
        report.number, report.count, report.offset
    );
    assert!(document.contains(&words), "docs/ENCODING.md lacks {words}");
}

/// What the explanation of a fault has in it, by the reference's own reason.
fn said_of(reason: Reason) -> String {
    match reason {
        Reason::Sizes => panic!("a reading has no sizes"),
        Reason::Expected(what) => said_of_word(what),
        Reason::TimeTooLarge => "expected a time of at most #18446744073709551615".to_string(),
        Reason::VectorTooLong(v) => {
            format!("expected at most {} bits for {}, ", v.width(), v.name())
        }
        Reason::OtherName => "expected the name stb, cmd, core, arg or prio".to_string(),
        Reason::Repeated(v) => format!("expected another name: {} is declared before", v.name()),
        Reason::OtherWidth(v) => format!("expected width {} for {}, ", v.width(), v.name()),
        Reason::CodeUsedTwice(v) => format!(" is that of {} (", v.name()),
        Reason::Missing(v) => format!("before it: {}", v.name()),
        Reason::Unknown(v, _) => format!(
            "expected no x or z in {} at the end of the stamp #",
            v.name()
        ),
        Reason::NotRising(_) => "expected a time above #".to_string(),
        Reason::TooManyCommands => "expected no command after the 65535 before it".to_string(),
    }
}

/// The same of a word that can't stand at its place.
fn said_of_word(expected: &str) -> String {
    let beginnings = [
        ("wire", "wire ("),
        ("$end,", "$end to close $"),
        ("$end", "$end "),
        ("a name", "the name stb, "),
        ("the vector's code", "the code of a vector: "),
        ("the code of cmd", "the code of a vector: "),
        ("$date", "$var, $enddefinitions, "),
        ("a time, # with", "a time, # and decimal digits ("),
        // The words tell apart how the change begins.
        ("a time, a bit", ""),
        ("a bit", ""),
        ("a width", "a width in decimal digits ("),
        ("a code", "a code of 1 to 4 bytes, each from ! to ~ ("),
    ];
    let found = beginnings
        .iter()
        .find(|(beginning, _)| expected.starts_with(beginning));
    let (_, said) = found.unwrap_or_else(|| panic!("{expected}"));
    format!("expected {said}")
}

/// The words of a fault name its place and its reason, as the independent reader finds them.
#[test]
fn faults_are_explained_by_their_reasons() {
    let some = Texts::new(run_seed()).take(20_000).map(|text| text.bytes);
    for text in edges().into_iter().chain(some) {
        let (Some(fault), Some(right)) = (psic::read(&text).fault, recording::read(&text).fault)
        else {
            continue;
        };
        let (explained, reference) = (fault.explain(&text), right.explain(&text));
        let place = |explained: &str| explained.split(" at ").next().map(str::to_string);
        assert_eq!(place(&explained), place(&reference));
        let said = said_of(right.reason);
        assert!(
            explained.contains(&said),
            "{explained}, not {said}, for {reference}"
        );
        assert!(explained.len() < 400, "{explained}");
    }
}
