//! The benchmark's workload, and its runs under an instruction counter.
//!
//! usage: bench shares N M COUNT SEED               prints how often each kind of command comes in the workload, accepted and refused
//!        bench write N M COUNT RECORDED WRITTEN SEED FOLDER
//!                                                  writes the workload: a list, single commands with the states they meet, a recording,
//!                                                  one of each other kind (comments, ..) of an eighth of its commands; a busy list, a
//!                                                  list of calls of the interrupt routines, and a run of so many commands to be written
//!        bench measure N M FOLDER SECTION..        runs sections of it: lists, busy, lengths, singles, calls, routines, reading, replay,
//!                                                  writing, or a kind of recording but the plain one, which is read
//!
//! What is measured is what goes on inside the function `measured`, which is called once for each line that a run prints: the section's
//! name, the side (the library or a Rust model), how many units there were, the nanoseconds that they took, and digests of the answers and
//! of the states handed back. Everything that a section needs is made before.

use std::path::Path;
use std::thread;
use std::time::Instant;

use psic::recording::{text_size, MAX_COMMANDS};
use psic::{raw, ANSWER_SIZE, COMMAND_SIZE, STATE_SIZE};
use psic_reference::recording;
use psic_reference::records::{Answer, Command};
use psic_reference::routines::Simulation;
use psic_trials::library::{answer_bytes, bytes_of, command_of, controller_of, encoded, numbers};
use psic_trials::simulations::{list_bytes, Memory};
use psic_trials::workload::{self, Mostly, KINDS};
use psic_trials::writings::unpacked;
use psic_trials::{fast, peer};

/// Single commands of each kind.
const SINGLES: usize = 256;
const SINGLE_SIZE: usize = STATE_SIZE + COMMAND_SIZE;

/// Lengths of the lists into which the section `lengths` cuts the workload's beginning.
const LENGTHS: [usize; 6] = [1, 4, 16, 64, 256, 1024];

/// Commands of a short run that is written, and how many there are of it.
const SHORT_RUN: usize = 16;
const SHORT_RUNS: usize = 256;

/// A command of a recording of another kind for so many of a plain one: most of these texts are several times as long.
const PLAIN_FOR_OTHER: usize = 8;

fn main() {
    let words: Vec<String> = std::env::args().skip(1).collect();
    // What a copy takes depends on where the stack begins, and that of the first thread on the words and the environment.
    let run = thread::spawn(move || run(&words));
    run.join().expect("the run ends well");
}

fn run(words: &[String]) {
    let words: Vec<&str> = words.iter().map(String::as_str).collect();
    match words.as_slice() {
        ["shares", n, m, count, seed] => {
            let commands = workload::commands(number(seed), size(n), size(m), count_of(count));
            print!("{}", workload::shares(size(n), size(m), &commands));
        }
        ["write", n, m, count, recorded, written, seed, folder] => {
            let (n, m, folder) = (size(n), size(m), Path::new(folder));
            let [count, recorded, written] = [count, recorded, written].map(|word| count_of(word));
            let most = count.max(recorded).max(written);
            let commands = workload::commands(number(seed), n, m, most);
            let listed = &commands[..count];
            let list_of = |commands: &[Command]| -> Vec<u8> {
                commands.iter().flat_map(|&c| encoded(c)).collect()
            };
            write(folder, "list", &list_of(listed));
            let busy = workload::busy_commands(number(seed), n, m, count);
            write(folder, "busy list", &list_of(&busy));
            let calls = workload::routine_calls(number(seed), n, m, count);
            write(folder, "routine list", &list_bytes(&calls));
            for (kind, singles) in workload::singles(n, m, listed, SINGLES).iter().enumerate() {
                let with_state = |(state, command): &(_, Command)| {
                    [&bytes_of(state)[..], &encoded(*command)[..]].concat()
                };
                let bytes: Vec<u8> = singles.iter().flat_map(with_state).collect();
                write(folder, &format!("single-{kind}"), &bytes);
            }
            let text = workload::recording(&commands[..recorded]);
            write(folder, "recording", text.as_bytes());
            let run = workload::writable(&commands[..written]);
            write(folder, "run", &list_of(&run));
            let few = &commands[..recorded / PLAIN_FOR_OTHER];
            for (name, kind) in other_kinds() {
                let text = workload::recording_of(kind, number(seed), few);
                write(folder, &format!("recording-{name}"), text.as_bytes());
            }
        }
        ["measure", n, m, folder, sections @ ..] if !sections.is_empty() => {
            let workload = Workload {
                n: size(n),
                m: size(m),
                folder: Path::new(folder),
            };
            for section in sections {
                workload.section(section);
            }
        }
        _ => usage(),
    }
}

fn usage() -> ! {
    eprintln!("usage: see the beginning of host/trials/src/bin/bench.rs");
    std::process::exit(2);
}

fn number(word: &str) -> u64 {
    word.parse()
        .unwrap_or_else(|_| panic!("{word} is no number"))
}

fn count_of(word: &str) -> usize {
    number(word) as usize
}

fn size(word: &str) -> u16 {
    number(word) as u16
}

fn write(folder: &Path, name: &str, bytes: &[u8]) {
    std::fs::write(folder.join(name), bytes).expect("the file can be written");
}

/// The kinds of recording but the plain one.
fn other_kinds() -> impl Iterator<Item = (&'static str, Mostly)> {
    let named = Mostly::NAMED.into_iter();
    named.filter(|&(_, kind)| kind != Mostly::Plain)
}

/// What is measured: instructions between the beginning and the end of this function.
#[no_mangle]
#[inline(never)]
pub fn measured(section: &mut dyn FnMut()) {
    section();
}

/// Measures a section and prints its line: answers and states are what it leaves of the value.
fn measure<T>(
    name: &str,
    side: &str,
    units: usize,
    mut value: T,
    section: impl Fn(&mut T),
    left: impl Fn(&T) -> (Vec<u8>, Vec<u8>),
) {
    let start = Instant::now();
    measured(&mut || section(&mut value));
    let time = start.elapsed().as_nanos();
    let (answers, states) = left(&value);
    let (answers, states) = (digest(&answers), digest(&states));
    println!("{name}\t{side}\t{units}\t{time}\t{answers:016x}\t{states:016x}");
}

/// The workload that lies in a folder.
struct Workload<'a> {
    n: u16,
    m: u16,
    folder: &'a Path,
}

/// A state of the peer, a command, and its answer.
type Single = (peer::Controller, Command, [u8; ANSWER_SIZE]);

impl Workload<'_> {
    fn read(&self, name: &str) -> Vec<u8> {
        std::fs::read(self.folder.join(name)).expect("the file can be read")
    }

    fn section(&self, section: &str) {
        match section {
            "lists" => self.lists("list"),
            "busy" => self.lists("busy list"),
            "lengths" => self.lengths(),
            "singles" => (0..KINDS.len()).for_each(|kind| self.single(kind)),
            "calls" => self.calls(),
            "routines" => self.routines(),
            "reading" => self.reading("reading", "recording"),
            "replay" => self.replay(),
            "writing" => {
                self.writing("run", usize::MAX, 1);
                self.writing("short runs", SHORT_RUN, SHORT_RUNS);
            }
            kind if other_kinds().any(|(name, _)| name == kind) => {
                self.reading(kind, &format!("recording-{kind}"))
            }
            _ => usage(),
        }
    }

    fn fresh(&self) -> Vec<u8> {
        let mut state = vec![0; STATE_SIZE];
        psic::bytes::make(self.n, self.m, &mut state).expect("the sizes are in range");
        state
    }

    /// A whole list at once. All sides take commands and give answers as bytes.
    fn lists(&self, name: &str) {
        let list = self.read(name);
        let count = list.len() / COMMAND_SIZE;
        let answers = vec![0; ANSWER_SIZE * count];
        measure(
            name,
            "library",
            count,
            (self.fresh(), answers.clone()),
            |(state, answers)| {
                raw::run(state, &list, answers);
            },
            |(state, answers)| (answers.clone(), state.clone()),
        );
        let fresh = peer::Controller::new(self.n, self.m);
        let left = |(state, answers): &(peer::Controller, Vec<u8>)| {
            (answers.clone(), bytes_of(&state.read()))
        };
        measure(
            name,
            "peer",
            count,
            (fresh.clone(), answers.clone()),
            |(state, answers)| state.run(&list, answers),
            left,
        );
        measure(
            name,
            "untested",
            count,
            (fresh, answers.clone()),
            |(state, answers)| state.run_sound(&list, answers),
            left,
        );
        measure(
            name,
            "fast",
            count,
            (fast::Controller::new(self.n, self.m), answers),
            |(state, answers)| {
                let commands = list.chunks_exact(COMMAND_SIZE);
                for (command, answer) in commands.zip(answers.chunks_exact_mut(ANSWER_SIZE)) {
                    answer.copy_from_slice(&by_fast(state, command_of(command)));
                }
            },
            |(_, answers)| (answers.clone(), Vec::new()),
        );
    }

    /// A whole list of calls of the routines at once, with its table.
    fn routines(&self) {
        let name = "routine list";
        let list = self.read(name);
        let count = list.len() / COMMAND_SIZE;
        let answers = vec![0; ANSWER_SIZE * count];
        let fresh = Simulation::fresh(self.n, self.m);
        let bytes = |memory: Memory| {
            let words = [memory.active, memory.holder, memory.table].concat();
            let words = words.into_iter().flat_map(u16::to_le_bytes);
            memory.state.into_iter().chain(words).collect()
        };
        measure(
            name,
            "library",
            count,
            (Memory::of(&fresh), answers.clone()),
            |(memory, answers)| {
                memory.simulate(&list, answers);
            },
            |(memory, answers)| (answers.clone(), bytes(memory.clone())),
        );
        measure(
            name,
            "peer",
            count,
            (peer::routines::Routines::load(&fresh), answers),
            |(state, answers)| {
                state.run(&list, answers);
            },
            |(state, answers)| (answers.clone(), bytes(Memory::of(&state.read()))),
        );
    }

    /// The list's beginning, cut into lists of several lengths, a call each.
    fn lengths(&self) {
        let list = self.read("list");
        let count = LENGTHS[LENGTHS.len() - 1];
        for length in LENGTHS {
            measure(
                &format!("lists of {length}"),
                "library",
                count,
                (self.fresh(), vec![0; ANSWER_SIZE * count]),
                |(state, answers)| {
                    let answers = answers.chunks_exact_mut(ANSWER_SIZE * length);
                    for (part, answers) in list.chunks_exact(COMMAND_SIZE * length).zip(answers) {
                        raw::run(state, part, answers);
                    }
                },
                |(state, answers)| (answers.clone(), state.clone()),
            );
        }
    }

    /// The commands of one kind, and the states that they meet.
    fn singles(&self, kind: usize) -> Vec<(Vec<u8>, Command)> {
        let bytes = self.read(&format!("single-{kind}"));
        let single = |bytes: &[u8]| {
            let (state, command) = bytes.split_at(STATE_SIZE);
            (state.to_vec(), command_of(command))
        };
        bytes.chunks_exact(SINGLE_SIZE).map(single).collect()
    }

    /// Accepted commands of one kind, a call each.
    fn single(&self, kind: usize) {
        let (name, singles) = (KINDS[kind], self.singles(kind));
        let count = singles.len();
        let loaded = |(state, command): &(Vec<u8>, Command)| -> Single {
            let state = peer::Controller::load(&controller_of(state));
            (state, *command, [0; ANSWER_SIZE])
        };
        let loaded: Vec<Single> = singles.iter().map(loaded).collect();
        measure(
            name,
            "library",
            count,
            (singles, vec![0; count]),
            |(singles, answers)| {
                for ((state, command), answer) in singles.iter_mut().zip(answers) {
                    let (number, at, priority) = numbers(*command);
                    *answer = raw::execute(state, number, at, priority);
                }
            },
            |(singles, answers)| {
                let answer = |packed: &u64| packed.to_le_bytes().into_iter().take(ANSWER_SIZE);
                let states = singles.iter().flat_map(|(state, _)| state.clone());
                (answers.iter().flat_map(answer).collect(), states.collect())
            },
        );
        let left = |singles: &Vec<Single>| {
            let states = singles
                .iter()
                .flat_map(|(state, ..)| bytes_of(&state.read()));
            (
                singles.iter().flat_map(|(.., answer)| *answer).collect(),
                states.collect(),
            )
        };
        measure(
            name,
            "peer",
            count,
            loaded.clone(),
            |singles| {
                for (state, command, answer) in singles {
                    *answer = answer_bytes(state.execute(*command));
                }
            },
            left,
        );
        measure(
            name,
            "untested",
            count,
            loaded,
            |singles| {
                for (state, command, answer) in singles {
                    *answer = answer_bytes(state.execute_sound(*command));
                }
            },
            left,
        );
    }

    /// What a call on bytes costs besides a command: a making, an empty list, a command refused by 4.
    fn calls(&self) {
        let states: Vec<Vec<u8>> = self
            .singles(4)
            .into_iter()
            .map(|(state, _)| state)
            .collect();
        let by_library = |name, call: &dyn Fn(&mut Vec<u8>) -> u64| {
            measure(
                name,
                "library",
                states.len(),
                (states.clone(), 0),
                |(states, answers)| *answers = states.iter_mut().map(call).sum::<u64>(),
                |(states, answers)| (answers.to_le_bytes().to_vec(), states.concat()),
            );
        };
        by_library("making", &|state| raw::make(self.n, self.m, state));
        by_library("empty list", &|state| raw::run(state, &[], &mut []));
        by_library("refused by 4", &|state| raw::execute(state, 4, 0, 0));
    }

    /// A recording, read: the commands and their times.
    fn reading(&self, name: &str, file: &str) {
        let text = self.read(file);
        let bytes = |times: &[u64]| times.iter().flat_map(|time| time.to_le_bytes()).collect();
        measure(
            name,
            "library",
            text.len(),
            (
                vec![0; COMMAND_SIZE * MAX_COMMANDS],
                vec![0; MAX_COMMANDS],
                0,
            ),
            |(commands, times, count)| {
                let report = raw::read(&text, commands, times);
                assert_eq!(report.number, 0, "the recording has no fault");
                *count = usize::from(report.count);
            },
            |(commands, times, count)| {
                (
                    commands[..COMMAND_SIZE * count].to_vec(),
                    bytes(&times[..*count]),
                )
            },
        );
        measure(
            name,
            "reference",
            text.len(),
            None,
            |reading| *reading = Some(recording::read(&text)),
            |reading| {
                let reading = reading.as_ref().expect("it was read");
                assert_eq!(reading.fault, None, "the recording has no fault");
                let commands = reading.commands.iter().flat_map(|&c| encoded(c));
                (commands.collect(), bytes(&reading.times))
            },
        );
    }

    /// A night's recording, read and put to a fresh controller. The models have the reference reader beside them.
    fn replay(&self) {
        let text = self.read("recording");
        let count = recording::read(&text).commands.len();
        measure(
            "replay",
            "library",
            count,
            (vec![0; STATE_SIZE], vec![0; ANSWER_SIZE * MAX_COMMANDS]),
            |(state, answers)| {
                let report = raw::replay(self.n, self.m, &text, state, answers);
                assert_eq!(report.number, 0, "the recording has no fault");
            },
            |(state, answers)| (answers[..ANSWER_SIZE * count].to_vec(), state.clone()),
        );
        measure(
            "replay",
            "peer",
            count,
            (peer::Controller::new(self.n, self.m), Vec::new()),
            |(state, answers)| {
                for command in recording::read(&text).commands {
                    answers.extend(answer_bytes(state.execute_sound(command)));
                }
            },
            |(state, answers)| (answers.clone(), bytes_of(&state.read())),
        );
        measure(
            "replay",
            "fast",
            count,
            (fast::Controller::new(self.n, self.m), Vec::new()),
            |(state, answers)| {
                for command in recording::read(&text).commands {
                    answers.extend(by_fast(state, command));
                }
            },
            |(_, answers)| (answers.clone(), Vec::new()),
        );
    }

    /// Runs cut from the workload's one, so many of at most so many commands each, written one behind the other. All sides take commands as
    /// bytes and write into a buffer.
    fn writing(&self, name: &str, commands: usize, runs: usize) {
        let list = self.read("run");
        let size = COMMAND_SIZE * commands.min(list.len() / COMMAND_SIZE);
        let runs: Vec<&[u8]> = list.chunks_exact(size).take(runs).collect();
        let write_all = |write: Write, text: &mut [u8]| {
            let mut end = 0;
            for run in &runs {
                let (number, length) = unpacked(write(run, &mut text[end..]));
                assert_eq!(number, 0, "the run can be written");
                end += length;
            }
            end
        };
        let room: usize = runs
            .iter()
            .map(|run| text_size(run.len() / COMMAND_SIZE))
            .sum();
        let units = write_all(peer::writing::plain, &mut vec![0; room]);
        let sides: [(&str, Write); 3] = [
            ("library", raw::write),
            ("plain", peer::writing::plain),
            ("tables", peer::writing::by_tables),
        ];
        for (side, write) in sides {
            measure(
                name,
                side,
                units,
                vec![0; room],
                |text| {
                    write_all(write, text);
                },
                |text| (text.clone(), Vec::new()),
            );
        }
    }
}

/// A list of commands written into a buffer.
type Write = fn(&[u8], &mut [u8]) -> u64;

fn by_fast(state: &mut fast::Controller, command: Command) -> [u8; ANSWER_SIZE] {
    let outcome = state.execute(fast::Command::from(command));
    answer_bytes(Answer {
        number: outcome.number,
        id: outcome.id,
        cycles: outcome.cycles,
    })
}

/// One number for what came out.
fn digest(bytes: &[u8]) -> u64 {
    bytes.iter().fold(0xcbf2_9ce4_8422_2325, |hash, &byte| {
        (hash ^ u64::from(byte)).wrapping_mul(0x0100_0000_01b3)
    })
}
