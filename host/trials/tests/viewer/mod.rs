//! Recordings that the library writes, taken by a tool that others use: GTKWave's vcd2fst turns them into its own form, and its fst2vcd
//! back. Codes, line ends and leading zeros may change on the way, and a change to the value that is there already may go; the values at
//! every time may not.

use std::collections::BTreeMap;
use std::path::{Path, PathBuf};
use std::process;

use psic::recording::MAX_COMMANDS;
use psic::{Command, SourceId, Stamped};
use psic_reference::random::{run_seed, Random};
use psic_reference::texts;
use psic_trials::wrapper::typed;

/// What a Value Change Dump says: the width of each variable, and what each holds at the end of each stamp.
#[derive(Debug, Default, PartialEq, Eq)]
struct Dump {
    widths: BTreeMap<String, String>,
    stamps: Vec<(String, BTreeMap<String, String>)>,
}

impl Dump {
    /// Reads a text that a tool wrote, without asking whether it is as it should be.
    fn of(text: &[u8]) -> Dump {
        let text = std::str::from_utf8(text).expect("text");
        let (definitions, changes) = text.split_once("$enddefinitions").expect("definitions");
        let mut dump = Dump::default();
        let mut names = BTreeMap::new();
        for declaration in definitions.split("$var").skip(1) {
            let words: Vec<&str> = declaration.split_whitespace().collect();
            let [_, width, code, name, ..] = words[..] else {
                panic!("$var{declaration}");
            };
            dump.widths.insert(name.to_string(), width.to_string());
            names.insert(code, name.to_string());
        }
        let mut words = changes.split_whitespace();
        let mut values = BTreeMap::new();
        while let Some(word) = words.next() {
            let (code, value) = match word.split_at(1) {
                ("$", _) => continue,
                ("#", time) => {
                    dump.stamps.push((time.to_string(), values.clone()));
                    continue;
                }
                ("b", bits) => (words.next().expect("a code"), bits),
                (bit, code) => (code, bit),
            };
            values.insert(names[code].clone(), plainly(value));
            if let Some((_, held)) = dump.stamps.last_mut() {
                held.clone_from(&values);
            }
        }
        dump
    }
}

/// A value without the digits that only fill it up.
fn plainly(value: &str) -> String {
    let digits = value.trim_start_matches('0');
    match digits {
        "" => "0".to_string(),
        _ if digits.chars().all(|digit| digit == 'x') => "x".to_string(),
        _ => digits.to_string(),
    }
}

/// Runs a program of the package gtkwave. A missing one is a failure that says what lacks.
fn converter(program: &str, words: &[&Path]) {
    let output = process::Command::new(program).args(words).output();
    let output = output.unwrap_or_else(|error| {
        panic!("{program} can't be run ({error}): install the Debian package gtkwave")
    });
    let said = String::from_utf8_lossy(&output.stderr);
    assert!(output.status.success(), "{program}: {said}");
}

/// The text after both converters. The name is that of the files on the way.
fn converted(name: &str, text: &[u8]) -> Vec<u8> {
    let folder = PathBuf::from(env!("CARGO_TARGET_TMPDIR"));
    let [written, stored, back] =
        ["vcd", "fst", "back.vcd"].map(|end| folder.join(format!("{name}.{end}")));
    for file in [&stored, &back] {
        // One of an earlier run shows nothing.
        let _ = std::fs::remove_file(file);
    }
    std::fs::write(&written, text).expect("the file can be written");
    converter("vcd2fst", &[&written, &stored]);
    converter(
        "fst2vcd",
        &[Path::new("-f"), &stored, Path::new("-o"), &back],
    );
    std::fs::read(&back).expect("the file can be read")
}

/// Writes a run, has it converted there and back, and finds the same variables and values at the same times, and the same commands.
fn assert_kept(name: &str, commands: &[Command]) {
    let text = psic::write(commands).expect("the run can be written");
    let back = converted(name, &text);
    let (written, kept) = (Dump::of(&text), Dump::of(&back));
    assert_eq!(written.widths, kept.widths);
    assert_eq!(written.stamps.len(), 2 * commands.len());
    let first = (0..written.stamps.len()).find(|&i| written.stamps.get(i) != kept.stamps.get(i));
    if let Some(i) = first {
        panic!("{:?}, not {:?}", kept.stamps.get(i), written.stamps[i]);
    }
    assert_eq!(written.stamps.len(), kept.stamps.len());
    let reading = psic::read(&back);
    assert_eq!(reading.fault, None);
    let run: Vec<Command> = reading.commands.iter().map(|s| s.command).collect();
    assert!(run == commands, "{} commands", run.len());
    let times = reading.commands.iter().map(|s| s.time);
    assert!(times.eq((0..).step_by(2).take(commands.len())));
}

#[test]
fn gtkwave_keeps_document_01s_recording() {
    assert_kept("document_01", &[Command::Trigger(SourceId(4))]);
}

/// The definitions alone; every variable is x.
#[test]
fn gtkwave_takes_an_empty_run() {
    let text = psic::write(&[]).expect("an empty run can be written");
    let kept = Dump::of(&converted("empty", &text));
    assert_eq!(Dump::of(&text).widths, kept.widths);
    let values = kept.stamps.iter().flat_map(|(_, values)| values.values());
    assert!(values.into_iter().all(|value| value == "x"), "{kept:?}");
}

#[test]
fn gtkwave_keeps_random_runs() {
    let mut random = Random::new(run_seed());
    for count in [2, 30, 700] {
        let commands = texts::commands(&mut random, count);
        let commands: Vec<Command> = commands.into_iter().map(typed).collect();
        assert_kept(&format!("random_{count}"), &commands);
    }
}

/// The sample recording, with its own times and comments, read and written anew.
#[test]
fn gtkwave_keeps_the_replay_of_the_sample() {
    let sample = include_bytes!("../../../examples/two_beams.vcd");
    let replay = psic::replay(4, 4, sample).expect("sizes in range");
    let commands: Vec<Command> = psic::read(sample)
        .commands
        .into_iter()
        .map(|Stamped { command, .. }| command)
        .collect();
    assert_eq!((commands.len(), replay.answers.len()), (22, 22));
    assert_kept("two_beams", &commands);
}

#[test]
fn gtkwave_keeps_the_longest_run() {
    let mut random = Random::new(run_seed());
    let commands = texts::commands(&mut random, MAX_COMMANDS);
    let commands: Vec<Command> = commands.into_iter().map(typed).collect();
    assert_kept("longest", &commands);
}

/// The comparison finds a value that another tool would lose, and a stamp.
#[test]
fn a_lost_value_or_stamp_is_found() {
    let commands = [Command::Trigger(SourceId(4)), Command::Mask(SourceId(5))];
    let text = psic::write(&commands).expect("the run can be written");
    let text = String::from_utf8(text).expect("text");
    let whole = Dump::of(text.as_bytes());
    let padded = text.replace("b100 $", "b00000100 $");
    assert_eq!(Dump::of(padded.as_bytes()), whole);
    for (from, to) in [
        ("b101 $", "b100 $"),
        ("\n#3\n", "\n"),
        ("\n#2\n", "\n#4\n"),
        ("b1 \"\n", ""),
        ("wire 8", "wire 9"),
        ("0!\n#2", "#2"),
    ] {
        let other = text.replacen(from, to, 1);
        assert_ne!(other, text, "{from}");
        assert_ne!(Dump::of(other.as_bytes()), whole, "{from}");
    }
}
