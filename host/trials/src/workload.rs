//! The benchmark's commands: a mixed run from a seed, in which every kind is accepted and refused, and a busy one; the states that single
//! commands of the mixed run meet; and that run as a recording, in the form of document 01's example or mostly made of something else, or
//! as one that can be written.

use std::fmt::Write;

use psic_reference::generate::{self, Mix};
use psic_reference::random::Random;
use psic_reference::recording;
use psic_reference::records::{Command, Controller};
use psic_reference::reference;
use psic_reference::routines::{runs, Listed};

use crate::library::numbers;

/// The kinds of command, in the order of their numbers.
pub const KINDS: [&str; 8] = [
    "set source priority",
    "mask",
    "unmask",
    "set core priority",
    "trigger",
    "claim",
    "redeliver",
    "complete",
];

/// The commands of a mixed run at these sizes.
pub fn commands(seed: u64, n: u16, m: u16, count: usize) -> Vec<Command> {
    generate::history(seed, n, m, count, Mix::Turnover).commands
}

/// The commands of a run in which boxes stay filled and requests pile up.
pub fn busy_commands(seed: u64, n: u16, m: u16, count: usize) -> Vec<Command> {
    generate::history(seed, n, m, count, Mix::Busy).commands
}

/// The calls of a run of the interrupt routines at these sizes, with handovers where there can be some.
pub fn routine_calls(seed: u64, n: u16, m: u16, count: usize) -> Vec<Listed> {
    let run = runs::run(seed, n, m, count, runs::Mix::Turnover);
    run.calls.into_iter().map(Listed::Call).collect()
}

/// For each kind at most so many of its accepted commands, from all over the run, each with the state that it meets.
pub fn singles(
    n: u16,
    m: u16,
    commands: &[Command],
    most: usize,
) -> [Vec<(Controller, Command)>; 8] {
    let mut met: [Vec<(Controller, Command)>; 8] = Default::default();
    let mut state = Controller::reset(n, m);
    for &command in commands {
        let before = state.clone();
        if reference::execute(&mut state, command).number == 0 {
            met[usize::from(numbers(command).0)].push((before, command));
        }
    }
    met.map(|all| {
        let apart = all.len().div_ceil(most).max(1);
        all.into_iter().step_by(apart).collect()
    })
}

/// A line for each kind: how much of the run it is, accepted and refused, and the cycles of settling.
pub fn shares(n: u16, m: u16, commands: &[Command]) -> String {
    let mut state = Controller::reset(n, m);
    let (mut accepted, mut refused, mut cycles) = ([0; 8], [0; 8], [0; 8]);
    for &command in commands {
        let kind = usize::from(numbers(command).0);
        let answer = reference::execute(&mut state, command);
        cycles[kind] += u32::from(answer.cycles);
        if answer.number == 0 {
            accepted[kind] += 1;
        } else {
            refused[kind] += 1;
        }
    }
    let percent = |part: u32| 100.0 * f64::from(part) / commands.len() as f64;
    let mut text = String::new();
    for (kind, name) in KINDS.iter().enumerate() {
        let each = f64::from(cycles[kind]) / f64::from(accepted[kind].max(1));
        let (accepted, refused) = (percent(accepted[kind]), percent(refused[kind]));
        writeln!(text, "{name}\t{accepted:.1}\t{refused:.1}\t{each:.2}")
            .expect("memory takes all of it");
    }
    text
}

/// The definitions of document 01's example.
const DEFINITIONS: &str = r#"$timescale 1 ns $end
$scope module psic $end
$var wire 1 ! stb $end
$var wire 3 " cmd $end
$var wire 5 # core $end
$var wire 8 $ arg $end
$var wire 9 % prio $end
$upscope $end
$enddefinitions $end
"#;

/// What a recording is mostly made of, besides commands.
#[derive(Clone, Copy, Debug, PartialEq, Eq)]
pub enum Mostly {
    /// Six changes and two times for each command, as in document 01's example.
    Plain,
    /// A comment before each command, some ten times as long as its changes.
    Comments,
    /// A definition that is skipped for each command, as long as such a comment.
    Definitions,
    /// The values of each command in a block, and all variables in another one after it.
    Blocks,
    /// x or z for every value that a command doesn't use, some of it in capitals, and x in stb before it is given.
    Unknown,
    /// Lines that end with a carriage return and a line feed.
    LineEnds,
    /// Each word on a line of its own.
    Lines,
}

impl Mostly {
    /// All of them, by the names that the benchmark has for them.
    pub const NAMED: [(&'static str, Mostly); 7] = [
        ("plain", Mostly::Plain),
        ("comments", Mostly::Comments),
        ("definitions", Mostly::Definitions),
        ("blocks", Mostly::Blocks),
        ("unknown", Mostly::Unknown),
        ("line-ends", Mostly::LineEnds),
        ("lines", Mostly::Lines),
    ];
}

/// Commands as a recording in the form of document 01's example: six changes and two times each, an unused value as 0. Of an argument that
/// is too large for its variable the lower bits are recorded.
pub fn recording(commands: &[Command]) -> String {
    recording_of(Mostly::Plain, 0, commands)
}

/// The same commands as a recording can hold them: of an argument that is too large for its variable the lower bits.
pub fn writable(commands: &[Command]) -> Vec<Command> {
    recording::read(recording(commands).as_bytes()).commands
}

/// Commands as a recording of this kind, which a seed determines; the same commands are read from all kinds.
pub fn recording_of(kind: Mostly, seed: u64, commands: &[Command]) -> String {
    let random = &mut Random::new(seed);
    let mut text = String::new();
    if kind == Mostly::Definitions {
        for _ in commands {
            let word = random.pick(&["$date", "$version", "$comment", "$scope", "$upscope"]);
            text += &skipped(random, word);
        }
    }
    text += DEFINITIONS;
    for (i, &command) in commands.iter().enumerate() {
        if kind == Mostly::Comments {
            text += &skipped(random, "$comment");
        }
        let [cmd, core, arg, prio] = values(kind, random, command);
        let changes = format!("b{cmd} \"\nb{core} #\nb{arg} $\nb{prio} %\n");
        let (up, down) = (2 * i, 2 * i + 1);
        let stamps = match kind {
            Mostly::Blocks => {
                let block = random.pick(&["$dumpvars", "$dumpall", "$dumpon", "$dumpoff"]);
                let all = format!("$dumpall\n0!\n{changes}$end\n");
                format!("#{up}\n{block}\n{changes}1!\n$end\n#{down}\n{all}{all}")
            }
            Mostly::Unknown => format!("#{up}\nx!\n{changes}1!\n#{down}\nZ!\n0!\n"),
            _ => format!("#{up}\n{changes}1!\n#{down}\n0!\n"),
        };
        text += &stamps;
    }
    match kind {
        Mostly::LineEnds => text.replace('\n', "\r\n"),
        Mostly::Lines => text.replace(' ', "\n"),
        _ => text,
    }
}

/// The bits of cmd, core, arg and prio for a command.
fn values(kind: Mostly, random: &mut Random, command: Command) -> [String; 4] {
    let (number, at, priority) = numbers(command);
    let for_core = matches!(command, Command::SetCorePriority(..) | Command::Claim(_));
    let with_priority = matches!(
        command,
        Command::SetCorePriority(..) | Command::SetSourcePriority(..)
    );
    let mut bits = |used: bool, value: u16| match kind {
        Mostly::Unknown if !used => random
            .pick(&["x", "z", "X", "0Z1", "x10", "zzzz"])
            .to_string(),
        _ => format!("{:b}", if used { value } else { 0 }),
    };
    [
        bits(true, number),
        bits(for_core, at % 32),
        bits(!for_core, at % 256),
        bits(with_priority, priority % 512),
    ]
}

/// Words up to `$end` that are skipped, most of them such as people and tools write.
fn skipped(random: &mut Random, first: &str) -> String {
    const WORDS: [&str; 12] = [
        "the",
        "monitor",
        "was",
        "restarted",
        "at",
        "12:07:33",
        "(unit",
        "3)",
        "$endl",
        "b1",
        "#5",
        "a",
    ];
    let mut text = first.to_string();
    for _ in 0..random.within(40..=120) {
        let space = if random.one_in(12) { "\n" } else { " " };
        write!(text, "{space}{}", random.pick(&WORDS)).expect("memory takes all of it");
    }
    text + " $end\n"
}
