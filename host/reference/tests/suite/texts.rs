//! Generated texts: what they hold, and that readers are told apart by them.

use std::collections::HashMap;

use psic_reference::generate::sizes;
use psic_reference::random::{run_seed, Random};
use psic_reference::recording::{read, replay, MAX_COMMANDS};
use psic_reference::records::{Answer, Command, Controller};
use psic_reference::reference::{execute, make};
use psic_reference::texts::{commands, edges, of_commands, text, Kind, Text, Texts};

use crate::faulty_reader::{self, Answered, Slip};

/// How many texts a test takes.
const COUNT: usize = 20_000;

fn texts() -> impl Iterator<Item = Text> {
    Texts::new(run_seed()).take(COUNT)
}

/// So many texts of one kind.
fn texts_of(kind: Kind, count: u64) -> impl Iterator<Item = Text> {
    let mut seeds = Random::new(run_seed());
    (0..count).map(move |_| text(kind, seeds.bits()))
}

fn separates(byte: &u8) -> bool {
    b" \t\r\n".contains(byte)
}

/// What the reference reader answers.
pub fn answered(text: &[u8]) -> Answered {
    let reading = read(text);
    let (number, offset) = (reading.number(), reading.offset());
    assert_eq!(reading.times.len(), reading.commands.len());
    let commands = reading.times.into_iter().zip(reading.commands);
    (commands.collect(), number, offset)
}

#[test]
fn same_seed_makes_the_same_texts() {
    let seed = run_seed();
    let made = |seed| Texts::new(seed).take(20).collect::<Vec<_>>();
    assert_eq!(made(seed), made(seed));
    assert_ne!(made(seed), made(seed.wrapping_add(1)));
    for made in made(seed) {
        assert_eq!(text(made.kind, made.seed), made);
    }
}

#[test]
fn commands_written_as_a_text_are_read_back() {
    let mut random = Random::new(run_seed());
    for _ in 0..COUNT / 4 {
        let count = random.below(12);
        let commands = commands(&mut random, count);
        let text = of_commands(&mut random, &commands);
        let shown = String::from_utf8_lossy(&text);
        let reading = read(&text);
        assert_eq!(reading.commands, commands, "{shown}");
        assert_eq!(reading.fault, None, "{shown}");
        assert!(reading.times.is_sorted_by(|a, b| a < b), "{shown}");
    }
}

#[test]
fn valid_texts_have_no_fault_and_every_number_occurs() {
    let mut seen: HashMap<(Kind, u8), usize> = HashMap::new();
    for text in texts() {
        let reading = read(&text.bytes);
        *seen.entry((text.kind, reading.number())).or_default() += 1;
        assert!(
            text.kind != Kind::Valid || reading.fault.is_none(),
            "{}",
            text.seed
        );
    }
    println!("{seen:?}");
    let count = |kind, number| seen.get(&(kind, number)).copied().unwrap_or_default();
    assert!(count(Kind::Valid, 0) > COUNT / 5);
    for number in [0, 11, 12, 13, 14] {
        assert!(count(Kind::Aimed, number) > COUNT / 200, "{number}");
        assert!(count(Kind::Damaged, number) > COUNT / 200, "{number}");
    }
}

/// The number of a text and the others found at its word. A command taken there comes as 0.
fn meetings(text: &Text) -> Vec<(u8, u8)> {
    let (faults, taken) = faulty_reader::faults_and_commands(&text.bytes, None);
    let Some(&(number, place)) = faults.first() else {
        return Vec::new();
    };
    let others = faults.iter().skip(1).filter(|fault| fault.1 == place);
    let command = taken.iter().filter(|command| command.0 == place);
    let others = others.map(|fault| fault.0).chain(command.map(|_| 0));
    others.map(|other| (number, other)).collect()
}

#[test]
fn several_faults_meet_at_one_word() {
    let mut met: HashMap<(u8, u8), usize> = HashMap::new();
    for meeting in texts().flat_map(|text| meetings(&text)) {
        *met.entry(meeting).or_default() += 1;
    }
    println!("{met:?}");
    // 14 isn't looked for at a word that has shown 13 or 19.
    for meeting in [(13, 11), (11, 0), (14, 0)] {
        assert!(met.get(&meeting) > Some(&(COUNT / 200)), "{meeting:?}");
    }
    assert!(texts_of(Kind::Long, 64).any(|text| meetings(&text).contains(&(19, 11))));
}

#[test]
fn faults_show_at_words_or_at_the_texts_end_and_are_explained() {
    for text in texts() {
        let reading = read(&text.bytes);
        let Some(fault) = reading.fault else {
            continue;
        };
        let (before, rest) = text.bytes.split_at(fault.offset);
        assert!(before.last().is_none_or(separates) || rest.is_empty());
        assert!(!rest.first().is_some_and(separates));
        let explained = fault.explain(&text.bytes);
        let lines = before.split(|&byte| byte == b'\n');
        let line = format!("line {}, ", lines.count());
        assert!(
            explained.starts_with(&line) && explained.len() < 400,
            "{explained}"
        );
    }
}

#[test]
fn what_follows_a_fault_changes_nothing() {
    for text in texts().filter(|text| text.kind != Kind::Long) {
        let right = answered(&text.bytes);
        let rest = &text.bytes[right.2..];
        if right.1 == 0 || rest.is_empty() {
            continue;
        }
        let word = rest.split(separates).next().unwrap_or_default();
        let through = &text.bytes[..right.2 + word.len()];
        for after in [&b""[..], b" ", b"\n#0 $end 1! \xff"] {
            assert_eq!(answered(&[through, after].concat()), right, "{}", text.seed);
        }
    }
}

#[test]
fn separators_move_the_offset_only() {
    for text in texts().filter(|text| text.kind != Kind::Long) {
        let words: Vec<&[u8]> = text
            .bytes
            .split(separates)
            .filter(|w| !w.is_empty())
            .collect();
        let apart = words.join(&b" \r\n"[..]);
        let (commands, number, offset) = answered(&text.bytes);
        let again = answered(&apart);
        assert_eq!((&again.0, again.1), (&commands, number), "{}", text.seed);
        // As many words stand before the fault.
        let before = |bytes: &[u8]| bytes.split(separates).filter(|w| !w.is_empty()).count();
        assert_eq!(
            before(&text.bytes[..offset]),
            before(&apart[..again.2]),
            "{}",
            text.seed
        );
    }
}

#[test]
fn commands_of_a_beginning_are_a_beginning_of_the_commands() {
    let mut random = Random::new(run_seed());
    for text in texts().filter(|text| text.kind == Kind::Valid) {
        let all = read(&text.bytes).commands;
        let cut = random.below(text.bytes.len());
        let mut some = read(&text.bytes[..cut]).commands;
        // Where the text is cut a stamp ends, and may give a command that the whole text doesn't.
        if !all.starts_with(&some) {
            some.pop();
        }
        assert!(all.starts_with(&some), "{}", text.seed);
    }
}

#[test]
fn a_second_reader_agrees() {
    for text in texts() {
        let second = faulty_reader::read(&text.bytes, None);
        assert!(answered(&text.bytes) == second, "{}", text.seed);
    }
    for text in edges() {
        let second = faulty_reader::read(&text, None);
        let shown = String::from_utf8_lossy(&text[text.len().saturating_sub(300)..]);
        assert!(answered(&text) == second, "{shown}");
    }
}

/// The texts made by hand show every number, and some are at the limit on commands.
#[test]
fn edges_show_every_number() {
    let readings: Vec<_> = edges().iter().map(|text| read(text)).collect();
    for number in [0, 11, 12, 13, 14, 19] {
        let shown = readings.iter().filter(|r| r.number() == number).count();
        assert!(shown >= 2, "{number}: {shown}");
    }
    let full = readings.iter().filter(|r| r.commands.len() == MAX_COMMANDS);
    let numbers: Vec<u8> = full.map(|reading| reading.number()).collect();
    assert_eq!(numbers, [0, 19, 13, 19]);
}

#[test]
fn every_faulty_reader_is_told() {
    let mut left = Slip::ALL.to_vec();
    let mut told_after = Vec::new();
    let long = texts_of(Kind::Long, 64);
    for (position, text) in texts().chain(long).enumerate() {
        if left.is_empty() {
            break;
        }
        let right = answered(&text.bytes);
        left.retain(|&slip| {
            let same = faulty_reader::read(&text.bytes, Some(slip)) == right;
            if !same {
                told_after.push((slip, position + 1));
            }
            same
        });
    }
    println!("{told_after:?}");
    assert_eq!(left, []);
}

/// What a replay gives: number, offset, answers and the state after.
type Replayed = (u8, usize, Vec<Answer>, Controller);

/// Replays that are wrong in one point each.
#[derive(Clone, Copy, Debug, PartialEq, Eq)]
enum Wrong {
    StopsAtARefusedCommand,
    SizesTestedAfterReading,
    RefusedSizesKept,
    OnlyAcceptedCommandsCount,
}

fn right_replay(n: u16, m: u16, text: &[u8]) -> Replayed {
    let replay = replay(n, m, text);
    let (number, offset) = (replay.reading.number(), replay.reading.offset());
    (number, offset, replay.answers, replay.controller)
}

fn wrong_replay(wrong: Wrong, n: u16, m: u16, text: &[u8]) -> Replayed {
    let (size, mut controller) = make(n, m);
    let slip = (wrong == Wrong::OnlyAcceptedCommandsCount).then_some(Slip::CommandsWithoutLimit);
    let (commands, number, offset) = faulty_reader::read(text, slip);
    let commands: Vec<Command> = commands.into_iter().map(|(_, command)| command).collect();
    if size != 0 {
        let (number, offset) = match wrong {
            Wrong::SizesTestedAfterReading if number != 0 => (number, offset),
            _ => (size, 0),
        };
        if wrong == Wrong::RefusedSizesKept {
            (controller.n, controller.m) = (n, m);
        }
        return (number, offset, Vec::new(), controller);
    }
    let mut answers = Vec::new();
    let mut accepts = |command: &Command| {
        let answer = execute(&mut controller, *command);
        answers.push(answer);
        answer.number == 0
    };
    let accepted = match wrong {
        Wrong::StopsAtARefusedCommand => commands.iter().take_while(|c| accepts(c)).count(),
        _ => commands.iter().filter(|command| accepts(command)).count(),
    };
    if accepted > MAX_COMMANDS {
        // The accepted commands alone are too many, so that counting them only doesn't show.
        return right_replay(n, m, text);
    }
    (number, offset, answers, controller)
}

#[test]
fn every_faulty_replay_is_told() {
    let mut random = Random::new(run_seed());
    let mut left = vec![
        Wrong::StopsAtARefusedCommand,
        Wrong::SizesTestedAfterReading,
        Wrong::RefusedSizesKept,
        Wrong::OnlyAcceptedCommandsCount,
    ];
    let long = texts_of(Kind::Long, 64);
    for text in texts().take(2000).chain(long) {
        if left.is_empty() {
            break;
        }
        let (n, m) = match random.below(8) {
            0 => random.pick(&[(0, 1), (129, 1), (1, 0), (1, 33)]),
            _ => sizes(&mut random),
        };
        let right = right_replay(n, m, &text.bytes);
        left.retain(|&wrong| wrong_replay(wrong, n, m, &text.bytes) == right);
    }
    assert_eq!(left, []);
}
