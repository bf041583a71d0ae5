//! The bus monitor's text, read and replayed: document 01's last section and document 02's
//! request 1/14, sentence by sentence.
//!
//! - [`read`] gives the commands of a text, and the first fault in reading order if there is one.
//! - [`replay`] puts these commands to a fresh controller of the reference model.
//!
//! A word means what its place makes it: `$end`, `#0` or `b1` can be a code, and stands for
//! nothing else where a code is due.

use std::fmt;
use std::iter;

use crate::records::{Answer, Command, Controller, CoreNumber, Refusal, SourceId};
use crate::reference;

/// The most commands that are taken from one text.
pub const MAX_COMMANDS: usize = 65_535;

/// What a text says.
#[derive(Clone, Debug, PartialEq, Eq)]
pub struct Reading {
    /// The commands before the fault, also one taken at its word.
    pub commands: Vec<Command>,
    /// The time of the stamp at whose end each command was taken.
    pub times: Vec<u64>,
    /// The first fault in reading order. It ends the reading.
    pub fault: Option<Fault>,
    /// The text's length in bytes.
    pub length: usize,
}

impl Reading {
    /// 0, or the fault's number.
    pub fn number(&self) -> u8 {
        self.fault.as_ref().map_or(0, |fault| fault.number)
    }

    /// The offset of the fault's word, or the text's length.
    pub fn offset(&self) -> usize {
        self.fault
            .as_ref()
            .map_or(self.length, |fault| fault.offset)
    }
}

/// What a replay gives.
#[derive(Clone, Debug, PartialEq, Eq)]
pub struct Replay {
    /// The commands, the fault and the length; for sizes out of range no command, and 2 at 0.
    pub reading: Reading,
    /// What each command answered.
    pub answers: Vec<Answer>,
    /// The state after the last command.
    pub controller: Controller,
}

/// A replay from a fresh controller of given n and m that goes on after a refused command.
/// "Sizes out of range are 2 at offset 0, before any reading."
pub fn replay(n: u16, m: u16, text: &[u8]) -> Replay {
    let (number, mut controller) = reference::make(n, m);
    let reading = if number == 0 {
        read(text)
    } else {
        Reading {
            commands: Vec::new(),
            times: Vec::new(),
            fault: Some(Fault::new(0, Reason::Sizes)),
            length: text.len(),
        }
    };
    let answers = reading
        .commands
        .iter()
        .map(|&command| reference::execute(&mut controller, command))
        .collect();
    Replay {
        reading,
        answers,
        controller,
    }
}

/// Reads a text up to its end or its first fault.
pub fn read(text: &[u8]) -> Reading {
    let mut reader = Reader {
        words: words(text),
        length: text.len(),
        codes: [None; 5],
        // "Until first given, stb is 0 and the others are x."
        values: [Some(0), None, None, None, None],
        stamp: None,
        up: false,
        commands: Vec::new(),
        times: Vec::new(),
    };
    let fault = reader.text().err();
    Reading {
        commands: reader.commands,
        times: reader.times,
        fault,
        length: text.len(),
    }
}

/// A word and the offset of its first byte.
#[derive(Clone, Copy, Debug, PartialEq, Eq)]
struct Word<'t> {
    offset: usize,
    bytes: &'t [u8],
}

impl Word<'_> {
    /// This word shows a fault.
    fn shows<T>(&self, reason: Reason) -> Result<T, Fault> {
        Err(Fault::new(self.offset, reason))
    }

    /// 11 at this word.
    fn is_not<T>(&self, expected: &'static str) -> Result<T, Fault> {
        self.shows(Reason::Expected(expected))
    }
}

/// "Words are parted by spaces, tabs, carriage returns and line feeds." Every other byte belongs
/// to a word.
fn words(text: &[u8]) -> impl Iterator<Item = Word<'_>> {
    let mut offset = 0;
    text.split(|byte| matches!(byte, b' ' | b'\t' | b'\r' | b'\n'))
        .map(move |bytes| {
            let word = Word { offset, bytes };
            offset += bytes.len() + 1;
            word
        })
        .filter(|word| !word.bytes.is_empty())
}

/// The five variables.
#[derive(Clone, Copy, Debug, PartialEq, Eq, Hash)]
pub enum Variable {
    /// The strobe.
    Stb,
    /// The command's number.
    Cmd,
    /// The core that set core priority and claim use.
    Core,
    /// The id that the other commands use.
    Arg,
    /// The priority of the two commands that set one.
    Prio,
}

impl Variable {
    /// All five, in the order of the paper.
    pub const ALL: [Variable; 5] = [
        Variable::Stb,
        Variable::Cmd,
        Variable::Core,
        Variable::Arg,
        Variable::Prio,
    ];

    /// Those whose changes are vectors.
    const VECTORS: [Variable; 4] = [Variable::Cmd, Variable::Core, Variable::Arg, Variable::Prio];

    /// The name that declares it.
    pub fn name(self) -> &'static str {
        ["stb", "cmd", "core", "arg", "prio"][self as usize]
    }

    /// How many bits it has.
    pub fn width(self) -> usize {
        [1, 3, 5, 8, 9][self as usize]
    }
}

/// What a variable holds: none if an x or z is in it.
type Value = Option<u16>;

/// The reading so far. Each step takes words from the text and ends at the first fault.
struct Reader<'t, W> {
    /// The words to come.
    words: W,
    /// The text's length.
    length: usize,
    /// The code of each variable declared so far.
    codes: [Option<&'t [u8]>; 5],
    /// What each variable holds.
    values: [Value; 5],
    /// The time of the open stamp. None is open before the first time.
    stamp: Option<u64>,
    /// Whether stb was 1 at the end of the stamp before; it was 0 before the first.
    up: bool,
    commands: Vec<Command>,
    /// The stamp at whose end each command was taken.
    times: Vec<u64>,
}

impl<'t, W: Iterator<Item = Word<'t>>> Reader<'t, W> {
    fn text(&mut self) -> Result<(), Fault> {
        self.definitions()?;
        self.dump()?;
        self.end_stamp(self.length)
    }

    /// The next word of what is under way. If the text ends there, an open stamp ends first, and
    /// then 11 shows at the text's length.
    fn next(&mut self, expected: &'static str) -> Result<Word<'t>, Fault> {
        if let Some(word) = self.words.next() {
            return Ok(word);
        }
        self.end_stamp(self.length)?;
        Err(Fault::new(self.length, Reason::Expected(expected)))
    }

    /// The next word must be `$end`.
    fn end(&mut self) -> Result<(), Fault> {
        let word = self.next("$end")?;
        match word.bytes {
            b"$end" => Ok(()),
            _ => word.is_not("$end"),
        }
    }

    /// "Each skipped to the next word $end."
    fn skip(&mut self) -> Result<(), Fault> {
        while self.next("$end, to close what is skipped")?.bytes != b"$end" {}
        Ok(())
    }

    /// "First, in any order": what is skipped, and variables. "Then `$enddefinitions $end`."
    fn definitions(&mut self) -> Result<(), Fault> {
        const EXPECTED: &str =
            "$date, $version, $comment, $timescale, $scope, $upscope, $var or $enddefinitions";
        loop {
            let word = self.next(EXPECTED)?;
            match word.bytes {
                b"$date" | b"$version" | b"$comment" | b"$timescale" | b"$scope" | b"$upscope" => {
                    self.skip()?
                }
                b"$var" => self.variable()?,
                b"$enddefinitions" => {
                    self.none_missing(word)?;
                    return self.end();
                }
                _ => return word.is_not(EXPECTED),
            }
        }
    }

    /// "`$var wire W C N $end`: width in decimal, code of 1 to 4 bytes of 33 to 126, name."
    fn variable(&mut self) -> Result<(), Fault> {
        const WIDTH: &str = "a width in decimal digits";
        const CODE: &str = "a code of 1 to 4 bytes, each from ! to ~";
        let wire = self.next("wire")?;
        if wire.bytes != b"wire" {
            return wire.is_not("wire");
        }
        let width = self.next(WIDTH)?;
        if !is_decimal(width.bytes) {
            return width.is_not(WIDTH);
        }
        let code = self.next(CODE)?;
        if code.bytes.len() > 4 || !code.bytes.iter().all(|byte| (33..=126).contains(byte)) {
            return code.is_not(CODE);
        }
        let name = self.next("a name: stb, cmd, core, arg or prio")?;
        self.declare(decimal(width.bytes), code.bytes, name)?;
        self.end()
    }

    /// 12: "a variable .. repeated, of another name or width, or a code used twice, shown at the
    /// name". A width of none is above every number.
    fn declare(&mut self, width: Option<u64>, code: &'t [u8], name: Word) -> Result<(), Fault> {
        let named = Variable::ALL
            .into_iter()
            .find(|variable| variable.name().as_bytes() == name.bytes);
        let Some(variable) = named else {
            return name.shows(Reason::OtherName);
        };
        if self.codes[variable as usize].is_some() {
            return name.shows(Reason::Repeated(variable));
        }
        if width != Some(variable.width() as u64) {
            return name.shows(Reason::OtherWidth(variable));
        }
        if let Some(other) = self.coded(&Variable::ALL, code) {
            return name.shows(Reason::CodeUsedTwice(other));
        }
        self.codes[variable as usize] = Some(code);
        Ok(())
    }

    /// 12: "a variable missing .. at $enddefinitions".
    fn none_missing(&self, enddefinitions: Word) -> Result<(), Fault> {
        let missing = |variable: &Variable| self.codes[*variable as usize].is_none();
        match Variable::ALL.into_iter().find(missing) {
            Some(variable) => enddefinitions.shows(Reason::Missing(variable)),
            None => Ok(()),
        }
    }

    /// The one of these variables that has this code.
    fn coded(&self, variables: &[Variable], code: &[u8]) -> Option<Variable> {
        let has = |variable: &Variable| self.codes[*variable as usize] == Some(code);
        variables.iter().copied().find(has)
    }

    /// "Then, in any order: a time ..; a change ..; $comment; $dumpvars, $dumpall, $dumpon and
    /// $dumpoff, each with changes only up to $end."
    fn dump(&mut self) -> Result<(), Fault> {
        const EXPECTED: &str = "a time, a bit joined to the code of stb, b joined to bits, \
             $comment, $dumpvars, $dumpall, $dumpon or $dumpoff";
        while let Some(word) = self.words.next() {
            match word.bytes {
                [b'#', digits @ ..] => self.time(word, digits)?,
                b"$comment" => self.skip()?,
                b"$dumpvars" | b"$dumpall" | b"$dumpon" | b"$dumpoff" => self.block()?,
                _ => self.change(word, EXPECTED)?,
            }
        }
        Ok(())
    }

    /// Changes only, up to `$end`. A word that starts with # is no time here and ends no stamp.
    fn block(&mut self) -> Result<(), Fault> {
        const EXPECTED: &str =
            "a bit joined to the code of stb, b joined to bits, or $end to close the block";
        loop {
            let word = self.next(EXPECTED)?;
            match word.bytes {
                b"$end" => return Ok(()),
                _ => self.change(word, EXPECTED)?,
            }
        }
    }

    /// "A change of stb, one of 0, 1, x, z joined to its code; a change of another variable, b
    /// joined to one or more of these, then its code as a word."
    fn change(&mut self, word: Word<'t>, expected: &'static str) -> Result<(), Fault> {
        match word.bytes {
            [b'b' | b'B', bits @ ..] if !bits.is_empty() && bits.iter().all(is_bit) => {
                let code = self.next("the vector's code")?;
                self.change_vector(bits, code)
            }
            [bit, code @ ..] if is_bit(bit) && self.coded(&[Variable::Stb], code).is_some() => {
                self.values[Variable::Stb as usize] = value(iter::once(*bit));
                Ok(())
            }
            _ => word.is_not(expected),
        }
    }

    /// "A vector longer than its variable is against the grammar, shown at the code." So is a code
    /// that no vector has.
    fn change_vector(&mut self, bits: &[u8], code: Word) -> Result<(), Fault> {
        let Some(variable) = self.coded(&Variable::VECTORS, code.bytes) else {
            return code.is_not("the code of cmd, core, arg or prio");
        };
        if bits.len() > variable.width() {
            return code.shows(Reason::VectorTooLong(variable));
        }
        self.values[variable as usize] = value(extended(bits, variable.width()));
        Ok(())
    }

    /// "A stamp ends at the next word that starts with # where a time may stand", also if that
    /// word is no time. 13 and 19 come first, then 11, then 14: "time not rising".
    fn time(&mut self, word: Word, digits: &[u8]) -> Result<(), Fault> {
        self.end_stamp(word.offset)?;
        if !is_decimal(digits) {
            return word.is_not("a time, # with decimal digits");
        }
        let Some(time) = decimal(digits) else {
            return word.shows(Reason::TimeTooLarge);
        };
        match self.stamp {
            Some(before) if time <= before => word.shows(Reason::NotRising(before)),
            _ => {
                self.stamp = Some(time);
                Ok(())
            }
        }
    }

    /// "A command is taken when stb is 1 at the end of a stamp and wasn't 1 at the end of the one
    /// before; the other values are those at that end." Before the first time no stamp is open:
    /// "changes before the first time carry into it".
    fn end_stamp(&mut self, offset: usize) -> Result<(), Fault> {
        let Some(stamp) = self.stamp else {
            return Ok(());
        };
        let Some(level) = self.values[Variable::Stb as usize] else {
            return Err(Fault::new(offset, Reason::Unknown(Variable::Stb, stamp)));
        };
        let strobe = level == 1 && !self.up;
        self.up = level == 1;
        if strobe {
            let command = self
                .command()
                .map_err(|variable| Fault::new(offset, Reason::Unknown(variable, stamp)))?;
            if self.commands.len() == MAX_COMMANDS {
                return Err(Fault::new(offset, Reason::TooManyCommands));
            }
            self.commands.push(command);
            self.times.push(stamp);
        }
        Ok(())
    }

    /// "cmd 0 to 7 is set source priority, mask, unmask, set core priority, trigger, claim,
    /// redeliver, complete. Set core priority and claim use core, the others arg as the id; the
    /// two that set a priority use prio." Or the first used variable that holds an x or z.
    fn command(&self) -> Result<Command, Variable> {
        let used = |variable: Variable| self.values[variable as usize].ok_or(variable);
        let core = || used(Variable::Core).map(CoreNumber);
        let id = || used(Variable::Arg).map(SourceId);
        let priority = || used(Variable::Prio);
        Ok(match used(Variable::Cmd)? {
            0 => Command::SetSourcePriority(id()?, priority()?),
            1 => Command::Mask(id()?),
            2 => Command::Unmask(id()?),
            3 => Command::SetCorePriority(core()?, priority()?),
            4 => Command::Trigger(id()?),
            5 => Command::Claim(core()?),
            6 => Command::Redeliver(id()?),
            _ => Command::Complete(id()?),
        })
    }
}

/// One or more decimal digits. Leading zeros are digits like any others.
fn is_decimal(bytes: &[u8]) -> bool {
    !bytes.is_empty() && bytes.iter().all(u8::is_ascii_digit)
}

/// The number of these decimal digits, or none above 2^64 - 1.
fn decimal(digits: &[u8]) -> Option<u64> {
    digits.iter().try_fold(0_u64, |number, digit| {
        number.checked_mul(10)?.checked_add(u64::from(digit - b'0'))
    })
}

/// One of 0, 1, x, z. "B, X and Z are read as small", in values only.
fn is_bit(byte: &u8) -> bool {
    matches!(byte, b'0' | b'1' | b'x' | b'z' | b'X' | b'Z')
}

/// "A shorter one is extended as the standard says: zeros after 0 or 1, x after x, z after z."
/// There is at least one bit, and at most the width.
fn extended(bits: &[u8], width: usize) -> impl Iterator<Item = u8> + '_ {
    let filler = match bits[0] {
        b'0' | b'1' => b'0',
        unknown => unknown,
    };
    iter::repeat_n(filler, width - bits.len()).chain(bits.iter().copied())
}

/// The binary number of these bits, or none if an x or z is among them.
fn value(mut bits: impl Iterator<Item = u8>) -> Value {
    bits.try_fold(0, |number, bit| match bit {
        b'0' => Some(2 * number),
        b'1' => Some(2 * number + 1),
        _ => None,
    })
}

/// Where and why a text is refused.
#[derive(Clone, Debug, PartialEq, Eq)]
pub struct Fault {
    /// 11, 12, 13, 14 or 19; 2 for the sizes of a replay.
    pub number: u8,
    /// The offset of the first byte of the word at which it shows, or the text's length.
    pub offset: usize,
    /// What is wrong there.
    pub reason: Reason,
}

/// What is wrong at a fault.
#[derive(Clone, Copy, Debug, PartialEq, Eq)]
pub enum Reason {
    /// 2: the sizes of a replay are out of range.
    Sizes,
    /// 11: another word was expected, or the text ends before it.
    Expected(&'static str),
    /// 11: a time above 2^64 - 1.
    TimeTooLarge,
    /// 11: a vector longer than its variable.
    VectorTooLong(Variable),
    /// 12: a variable of another name.
    OtherName,
    /// 12: a variable declared before.
    Repeated(Variable),
    /// 12: a variable of another width.
    OtherWidth(Variable),
    /// 12: the code of this variable, used again.
    CodeUsedTwice(Variable),
    /// 12: a variable missing at `$enddefinitions`.
    Missing(Variable),
    /// 13: an x or z in stb at the end of the stamp of this time, or at a strobe there in cmd or a
    /// value that the command uses.
    Unknown(Variable, u64),
    /// 14: a time that isn't above this one, the one before.
    NotRising(u64),
    /// 19: a command after the 65,535th.
    TooManyCommands,
}

impl Reason {
    /// The paper's number for it.
    pub fn number(self) -> u8 {
        match self {
            Reason::Sizes => Refusal::Size.number(),
            Reason::Expected(_) | Reason::TimeTooLarge | Reason::VectorTooLong(_) => 11,
            Reason::OtherName
            | Reason::Repeated(_)
            | Reason::OtherWidth(_)
            | Reason::CodeUsedTwice(_)
            | Reason::Missing(_) => 12,
            Reason::Unknown(..) => 13,
            Reason::NotRising(_) => 14,
            Reason::TooManyCommands => 19,
        }
    }
}

impl fmt::Display for Reason {
    /// What was expected, in plain words.
    fn fmt(&self, f: &mut fmt::Formatter) -> fmt::Result {
        match *self {
            Reason::Sizes => write!(f, "expected 1 to 128 sources and 1 to 32 cores"),
            Reason::Expected(what) => write!(f, "expected {what}"),
            Reason::TimeTooLarge => write!(f, "expected a time of at most {}", u64::MAX),
            Reason::VectorTooLong(variable) => {
                let (name, width) = (variable.name(), variable.width());
                write!(f, "expected at most {width} bits for {name}")
            }
            Reason::OtherName => write!(f, "expected the name stb, cmd, core, arg or prio"),
            Reason::Repeated(variable) => {
                write!(f, "expected {} to be declared once", variable.name())
            }
            Reason::OtherWidth(variable) => {
                let (name, width) = (variable.name(), variable.width());
                write!(f, "expected width {width} for {name}")
            }
            Reason::CodeUsedTwice(other) => {
                write!(
                    f,
                    "expected a code of its own, not that of {}",
                    other.name()
                )
            }
            Reason::Missing(variable) => {
                write!(f, "expected {} to be declared before", variable.name())
            }
            Reason::Unknown(variable, stamp) => {
                let name = variable.name();
                write!(
                    f,
                    "expected no x or z in {name} at the end of the stamp #{stamp}"
                )
            }
            Reason::NotRising(before) => write!(f, "expected a time above #{before}"),
            Reason::TooManyCommands => write!(f, "expected at most {MAX_COMMANDS} commands"),
        }
    }
}

impl Fault {
    fn new(offset: usize, reason: Reason) -> Fault {
        Fault {
            number: reason.number(),
            offset,
            reason,
        }
    }

    /// The fault for a person, who has the text that was read: line and column, counted from 1 in
    /// line feeds and bytes, the word, and what was expected there.
    pub fn explain(&self, text: &[u8]) -> String {
        if self.reason == Reason::Sizes {
            return format!("{} ({})", self.reason, self.number);
        }
        let (before, rest) = text.split_at(self.offset);
        let line = 1 + before.iter().filter(|&&byte| byte == b'\n').count();
        let column = 1 + before
            .iter()
            .rev()
            .take_while(|&&byte| byte != b'\n')
            .count();
        let found = match words(rest).next() {
            Some(word) => shown(word.bytes),
            None => "the end of the text".to_string(),
        };
        let (reason, number) = (self.reason, self.number);
        format!("line {line}, column {column}, at {found}: {reason} ({number})")
    }
}

/// A word as it is shown to a person: its beginning, with bytes that can't be seen in hexadecimal.
fn shown(word: &[u8]) -> String {
    const LONGEST: usize = 40;
    let seen = |&byte: &u8| match byte {
        33..=126 => char::from(byte).to_string(),
        _ => format!("\\x{byte:02x}"),
    };
    let beginning: String = word.iter().take(LONGEST).map(seen).collect();
    let rest = if word.len() > LONGEST { ".." } else { "" };
    format!("`{beginning}`{rest}")
}
