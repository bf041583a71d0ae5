//! Recordings written by the reference: what they say, what is refused, and that writers are told
//! apart by the comparison that the library is put to.

use psic_reference::random::{run_seed, Random};
use psic_reference::recording::{read, Variable, MAX_COMMANDS};
use psic_reference::records::{Command, CoreNumber, SourceId};
use psic_reference::texts;
use psic_reference::writing::compare::{Case, Trial, Writer};
use psic_reference::writing::lists::{edges, Entry, List, Lists};
use psic_reference::writing::{write, write_into, Unwritable};

use crate::faulty_writer::{Second, Slip};

/// How many lists a test takes.
const COUNT: usize = 4_000;

/// Document 01's own run: "Trigger 4 alone, as the model writes it, each line ended by one newline".
const TRIGGER_4: &str = "$timescale 1 ns $end
$scope module psic $end
$var wire 1 ! stb $end
$var wire 3 \" cmd $end
$var wire 5 # core $end
$var wire 8 $ arg $end
$var wire 9 % prio $end
$upscope $end
$enddefinitions $end
#0
b100 \"
b0 #
b100 $
b0 %
1!
#1
0!
";

fn trigger(id: u16) -> Command {
    Command::Trigger(SourceId(id))
}

#[test]
fn document_01s_run_is_written_as_shown() {
    assert_eq!(write(&[trigger(4)]), Ok(TRIGGER_4.as_bytes().to_vec()));
}

#[test]
fn an_empty_run_ends_after_the_definitions() {
    let (definitions, _) = TRIGGER_4.split_once("#0").expect("a time");
    assert_eq!(write(&[]), Ok(definitions.as_bytes().to_vec()));
}

/// The second command's stamps, and values of another variable than the first one's.
#[test]
fn every_command_has_two_stamps_and_all_four_values() {
    let set = Command::SetCorePriority(CoreNumber(31), 511);
    let text = write(&[trigger(4), set]).expect("both fit");
    let second = "#2\nb11 \"\nb11111 #\nb0 $\nb111111111 %\n1!\n#3\n0!\n";
    assert_eq!(text, [TRIGGER_4, second].concat().into_bytes());
}

#[test]
fn what_is_written_is_read_back() {
    let mut written = 0;
    let run = |list: List| list.commands().unwrap_or_default();
    for commands in Lists::new(run_seed()).take(COUNT).chain(edges()).map(run) {
        let Ok(text) = write(&commands) else {
            continue;
        };
        let reading = read(&text);
        assert_eq!(reading.fault, None);
        assert!(reading
            .times
            .iter()
            .copied()
            .eq((0..).step_by(2).take(commands.len())));
        assert!(reading.commands == commands, "{} commands", commands.len());
        written += 1;
    }
    assert!(written > COUNT / 2, "{written} texts");
}

#[test]
fn the_reference_refuses_values_from_their_variables_end_on() {
    let (id, core) = (SourceId, CoreNumber);
    for (good, bad, variable) in [
        (trigger(255), trigger(256), Variable::Arg),
        (
            Command::Mask(id(255)),
            Command::Mask(id(65_535)),
            Variable::Arg,
        ),
        (
            Command::Claim(core(31)),
            Command::Claim(core(32)),
            Variable::Core,
        ),
        (
            Command::SetCorePriority(core(31), 511),
            Command::SetCorePriority(core(31), 512),
            Variable::Prio,
        ),
        (
            Command::SetSourcePriority(id(255), 511),
            Command::SetSourcePriority(id(255), 512),
            Variable::Prio,
        ),
    ] {
        assert!(write(&[trigger(1), good]).is_ok(), "{good:?}");
        let refused = write(&[trigger(1), bad]);
        assert_eq!(refused, Err(Unwritable::TooLarge(1, variable)));
        let why = refused.expect_err("it is refused").to_string();
        assert!(why.starts_with("command 1: expected at most "), "{why}");
    }
}

#[test]
fn the_reference_writes_at_most_65_535_commands() {
    let run = vec![trigger(1); MAX_COMMANDS + 1];
    assert!(write(&run[1..]).is_ok());
    assert_eq!(write(&run), Err(Unwritable::TooManyCommands));
}

/// An exact fit is taken, one byte less isn't, and what isn't text stays as it was.
#[test]
fn the_buffer_holds_the_text_and_else_what_it_held() {
    let length = TRIGGER_4.len();
    let mut buffer = vec![9; length + 2];
    assert_eq!(write_into(&[trigger(4)], &mut buffer), Ok(length));
    assert_eq!(buffer, [TRIGGER_4.as_bytes(), &[9, 9]].concat());
    let mut exact = vec![9; length];
    assert_eq!(write_into(&[trigger(4)], &mut exact), Ok(length));
    for room in [0, 1, length - 1] {
        let mut short = vec![9; room];
        let refused = write_into(&[trigger(4)], &mut short);
        assert_eq!(refused, Err(Unwritable::TooLong(length)));
        assert_eq!(short, vec![9; room]);
    }
}

/// The first difference of a writer from the reference: on lists made by hand, short ones first, and
/// on random ones, each with buffers at the edge.
fn first_difference(writer: &impl Writer, cases: &[Case]) -> Option<String> {
    let by_hand = cases.iter().find_map(|case| {
        let rooms = case.rooms().into_iter();
        rooms
            .map(|room| case.compare(writer, room))
            .find_map(Result::err)
    });
    let mut trial = Trial::new(run_seed());
    by_hand.or_else(|| (0..COUNT).find_map(|_| trial.step(writer).err()))
}

fn cases() -> Vec<Case> {
    let mut cases: Vec<Case> = edges().into_iter().map(Case::new).collect();
    cases.sort_by_key(|case| case.list.entries.len());
    cases
}

#[test]
fn a_second_writer_agrees() {
    assert_eq!(first_difference(&Second(None), &cases()), None);
}

#[test]
fn every_faulty_writer_is_told() {
    let cases = cases();
    for slip in Slip::ALL {
        let difference = first_difference(&Second(Some(slip)), &cases);
        println!("{slip:?}: {}", difference.as_deref().unwrap_or("not told"));
        assert!(difference.is_some(), "{slip:?}");
    }
}

/// So that no comparison is hollow: random lists are written, refused for each reason and unreadable.
#[test]
fn random_lists_come_in_all_kinds() {
    let mut seen = [0; 6];
    // the rarest, a run that is too long, may keep out of the first ones
    for (k, list) in Lists::new(run_seed()).take(10 * COUNT).enumerate() {
        if k >= COUNT && seen.iter().all(|&count| count > 0) {
            break;
        }
        let long = list.entries.len() > 60_000;
        seen[5] += usize::from(long);
        match list.commands().map(|commands| write(&commands)) {
            None => seen[0] += 1,
            Some(Err(Unwritable::TooManyCommands)) => seen[1] += 1,
            Some(Err(Unwritable::TooLarge(_, Variable::Prio))) => seen[2] += 1,
            Some(Err(_)) => seen[3] += 1,
            Some(Ok(_)) => seen[4] += 1,
        }
    }
    println!("{seen:?}");
    assert!(seen.iter().all(|&count| count > 0), "{seen:?}");
    assert!(seen[4] > COUNT / 3, "{seen:?}");
    let mut random = Random::new(run_seed());
    let commands = texts::commands(&mut random, 100);
    let entries = commands.iter().map(|&command| Entry::of(command));
    assert_eq!(List::of(entries.collect()).commands(), Some(commands));
}
