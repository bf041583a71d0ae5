//! Recordings read and replayed by the proved library, and by the reference reader beside it.
//!
//! - [`Library`] and [`Wrapper`] are the two ways to the library: its calls on lent buffers, and the typed functions.
//! - [`Trial`] is a run over texts of all kinds from one seed, with totals by number.

use std::collections::BTreeMap;
use std::fmt::Debug;

use psic::recording::room;
use psic::{raw, ANSWER_SIZE, COMMAND_SIZE, STATE_SIZE};
use psic_reference::generate;
use psic_reference::random::Random;
use psic_reference::recording;
use psic_reference::records::Answer;
use psic_reference::texts::{Text, Texts};

use crate::library::{answer_of, bytes_of, encoded};
use crate::wrapper::{self, typed};

/// Reads and replays a text, and tells what differs from the reference, if something does.
pub trait Reader {
    /// Commands, times, number, offset and count.
    fn reading(&self, text: &[u8], spare: usize) -> Result<(), String>;
    /// Answers, the state after them, number, offset and count.
    fn replay(&self, n: u16, m: u16, text: &[u8], spare: usize) -> Result<(), String>;
}

/// The library's calls on buffers with room for some commands more than they ask for, all of a pattern that must stay behind what is
/// written.
#[derive(Clone, Copy, Debug)]
pub struct Library;

/// The typed functions. They make their own buffers.
#[derive(Clone, Copy, Debug)]
pub struct Wrapper;

/// What a buffer holds before a call.
const PATTERN: u8 = 0xc3;
const TIME_PATTERN: u64 = u64::from_le_bytes([PATTERN; 8]);

fn same<T: PartialEq + Debug>(what: &str, library: T, reference: T) -> Result<(), String> {
    if library == reference {
        return Ok(());
    }
    let (library, reference) = (short(&library), short(&reference));
    Err(format!("{what}: library {library}, reference {reference}"))
}

/// The beginning of what a value looks like.
fn short(value: &impl Debug) -> String {
    let shown = format!("{value:?}");
    shown.chars().take(400).collect()
}

/// The library's report on this text is the reference's number, offset and count.
fn same_report(report: raw::Report, reading: &recording::Reading) -> Result<(), String> {
    same("number", report.number, reading.number())?;
    same("offset", report.offset, reading.offset() as u64)?;
    same("count", usize::from(report.count), reading.commands.len())
}

fn untouched(what: &str, bytes: &[u8]) -> Result<(), String> {
    let written = bytes.iter().position(|&byte| byte != PATTERN);
    same(what, written, None)
}

impl Reader for Library {
    fn reading(&self, text: &[u8], spare: usize) -> Result<(), String> {
        let room = room(text.len()) + spare;
        let mut commands = vec![PATTERN; COMMAND_SIZE * room];
        let mut times = vec![TIME_PATTERN; room];
        let report = raw::read(text, &mut commands, &mut times);
        let right = recording::read(text);
        same_report(report, &right)?;
        let count = right.commands.len();
        let (written, behind) = commands.split_at(COMMAND_SIZE * count);
        let expected: Vec<u8> = right.commands.iter().flat_map(|&c| encoded(c)).collect();
        same("commands", written, &expected)?;
        untouched("behind the commands", behind)?;
        same("times", &times[..count], &right.times)?;
        let written = times[count..].iter().position(|&t| t != TIME_PATTERN);
        same("behind the times", written, None)
    }

    fn replay(&self, n: u16, m: u16, text: &[u8], spare: usize) -> Result<(), String> {
        let mut state = [PATTERN; STATE_SIZE];
        let mut answers = vec![PATTERN; ANSWER_SIZE * (room(text.len()) + spare)];
        let report = raw::replay(n, m, text, &mut state, &mut answers);
        let right = recording::replay(n, m, text);
        same_report(report, &right.reading)?;
        let (written, behind) = answers.split_at(ANSWER_SIZE * right.answers.len());
        let written: Vec<Answer> = written.chunks_exact(ANSWER_SIZE).map(answer_of).collect();
        same("answers", written, right.answers)?;
        untouched("behind the answers", behind)?;
        if report.number == 2 {
            return untouched("state of refused sizes", &state);
        }
        same("state", &state[..], &bytes_of(&right.controller)[..])
    }
}

impl Reader for Wrapper {
    fn reading(&self, text: &[u8], _spare: usize) -> Result<(), String> {
        let read = psic::read(text);
        let right = recording::read(text);
        let fault = read.fault.map(|fault| (fault.kind.number(), fault.offset));
        let fault_right = right.fault.as_ref().map(|f| (f.number, f.offset));
        same("fault", fault, fault_right)?;
        let stamped = |(&time, &command): (&u64, _)| psic::Stamped {
            time,
            command: typed(command),
        };
        let expected = right.times.iter().zip(&right.commands).map(stamped);
        same("commands", read.commands, expected.collect())
    }

    fn replay(&self, n: u16, m: u16, text: &[u8], _spare: usize) -> Result<(), String> {
        let right = recording::replay(n, m, text);
        let replay = match psic::replay(n, m, text) {
            Ok(replay) => replay,
            Err(refusal) => {
                let place = (right.reading.number(), right.reading.offset());
                return same("refusal", (refusal.number(), 0), place);
            }
        };
        let fault = replay.fault.map(|f| (f.kind.number(), f.offset));
        let fault_right = right.reading.fault.as_ref().map(|f| (f.number, f.offset));
        same("fault", fault, fault_right)?;
        let answers = replay.answers.into_iter().map(wrapper::answer_of);
        same("answers", answers.collect(), right.answers)?;
        same(
            "state",
            &replay.controller.as_bytes()[..],
            &bytes_of(&right.controller)[..],
        )
    }
}

/// How many texts and replays showed each number, 0 for none.
#[derive(Clone, Debug, Default, PartialEq, Eq)]
pub struct Totals {
    /// Texts read, by number.
    pub texts: BTreeMap<u8, u64>,
    /// Texts replayed, by number.
    pub replays: BTreeMap<u8, u64>,
    /// Bytes and commands of all texts read.
    pub bytes: u64,
    /// See above.
    pub commands: u64,
}

/// A run over texts of all kinds, one after another.
#[derive(Clone, Debug)]
pub struct Trial {
    random: Random,
    texts: Texts,
    /// What was compared so far.
    pub totals: Totals,
}

impl Trial {
    /// The trial of a seed.
    pub fn new(seed: u64) -> Trial {
        let mut random = Random::new(seed);
        let texts = Texts::new(random.bits());
        Trial {
            random,
            texts,
            totals: Totals::default(),
        }
    }

    /// Reads the next text by this way, and replays one in four at random sizes, some of them out of range. A difference names the text.
    pub fn step(&mut self, reader: &impl Reader) -> Result<(), String> {
        let text = self.texts.next().expect("there are always more");
        let named = |what| {
            format!(
                "text of kind {:?} and seed {}: {what}",
                text.kind, text.seed
            )
        };
        self.compared(reader, &text).map_err(named)
    }

    fn compared(&mut self, reader: &impl Reader, text: &Text) -> Result<(), String> {
        let spare = self.random.below(3);
        reader.reading(&text.bytes, spare)?;
        let reading = recording::read(&text.bytes);
        *self.totals.texts.entry(reading.number()).or_default() += 1;
        self.totals.bytes += text.bytes.len() as u64;
        self.totals.commands += reading.commands.len() as u64;
        if !self.random.one_in(4) {
            return Ok(());
        }
        let (n, m) = match self.random.below(8) {
            0 => self
                .random
                .pick(&[(0, 1), (129, 1), (1, 0), (1, 33), (65535, 32)]),
            _ => generate::sizes(&mut self.random),
        };
        reader.replay(n, m, &text.bytes, spare)?;
        let in_range = (1..=128).contains(&n) && (1..=32).contains(&m);
        let number = if in_range { reading.number() } else { 2 };
        *self.totals.replays.entry(number).or_default() += 1;
        Ok(())
    }
}
