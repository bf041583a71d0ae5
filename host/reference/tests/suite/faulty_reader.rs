//! A second reader of recordings, made otherwise, and its variants that are wrong in one point each.
//!
//! It goes over the text three times: what each word is, by the grammar alone (11 and 12); what the
//! stamps say (13, 14 and 19); and which of the faults found is the first.

use psic_reference::recording::Variable;
use psic_reference::records::{Command, CoreNumber, SourceId};

/// The point in which a reader is wrong.
#[derive(Clone, Copy, Debug, PartialEq, Eq)]
pub enum Slip {
    // Stamps and strobes.
    EqualTimesAccepted,
    StrobeTakenByLevel,
    CommandLostAtABadWord,
    UnknownLookedAtAfterTheGrammar,
    HashInABlockEndsTheStamp,
    HashInACommentEndsTheStamp,
    BadTimeEndsNoStamp,
    LastStampDropped,
    CommandAtTheFirstTime,
    ChangesBeforeTheFirstTimeLost,
    FirstTimeMustBeAboveZero,
    TimesWrapAt2To64,
    TimeOfTheWordThatEndsTheStamp,
    TimesGivenIn32Bits,
    StrobeUnknownUntilGiven,
    // Values.
    LongVectorsCut,
    OnesAfterAOne,
    UsedUnknownReadAsZero,
    UnusedUnknownRefused,
    ValuesOfTheStrobesMoment,
    // Counts.
    OneCommandMoreTaken,
    CommandsWithoutLimit,
    // Places.
    OffsetOfTheVector,
    OffsetAfterTheWord,
    WidthShownAtTheWidth,
    MissingNoticedAtItsFirstUse,
    // Words.
    CodesMatchedByTheirBeginning,
    CodesWithoutCase,
    CodeMayNotBeEnd,
    CodeUsedTwiceAccepted,
    WidthsWrapAt256,
    RangeAfterTheNameSkipped,
    FormFeedSeparates,
}

impl Slip {
    /// All but the reader without a limit, which is a part of a faulty replay.
    pub const ALL: [Slip; 32] = [
        Slip::EqualTimesAccepted,
        Slip::StrobeTakenByLevel,
        Slip::CommandLostAtABadWord,
        Slip::UnknownLookedAtAfterTheGrammar,
        Slip::HashInABlockEndsTheStamp,
        Slip::HashInACommentEndsTheStamp,
        Slip::BadTimeEndsNoStamp,
        Slip::LastStampDropped,
        Slip::CommandAtTheFirstTime,
        Slip::ChangesBeforeTheFirstTimeLost,
        Slip::FirstTimeMustBeAboveZero,
        Slip::TimesWrapAt2To64,
        Slip::TimeOfTheWordThatEndsTheStamp,
        Slip::TimesGivenIn32Bits,
        Slip::StrobeUnknownUntilGiven,
        Slip::LongVectorsCut,
        Slip::OnesAfterAOne,
        Slip::UsedUnknownReadAsZero,
        Slip::UnusedUnknownRefused,
        Slip::ValuesOfTheStrobesMoment,
        Slip::OneCommandMoreTaken,
        Slip::OffsetOfTheVector,
        Slip::OffsetAfterTheWord,
        Slip::WidthShownAtTheWidth,
        Slip::MissingNoticedAtItsFirstUse,
        Slip::CodesMatchedByTheirBeginning,
        Slip::CodesWithoutCase,
        Slip::CodeMayNotBeEnd,
        Slip::CodeUsedTwiceAccepted,
        Slip::WidthsWrapAt256,
        Slip::RangeAfterTheNameSkipped,
        Slip::FormFeedSeparates,
    ];
}

/// What a reader answers: commands with their times, number and offset.
pub type Answered = (Vec<(u64, Command)>, u8, usize);

/// A command, the offset at which it is taken, and the time of its stamp.
pub type Taken = (usize, u64, Command);

/// A number and the offset at which it shows.
pub type Fault = (u8, usize);

/// Reads a text, rightly or with a slip.
pub fn read(text: &[u8], slip: Option<Slip>) -> Answered {
    let (faults, taken) = faults_and_commands(text, slip);
    let has = |wanted| slip == Some(wanted);
    let (number, offset) = faults.first().copied().unwrap_or((0, text.len()));
    let lost = has(Slip::CommandLostAtABadWord) && number != 0;
    let commands = taken
        .into_iter()
        .filter(|&(at, ..)| at < offset || at == offset && !lost)
        .map(|(_, time, command)| (time, command))
        .collect();
    if has(Slip::OffsetAfterTheWord) && number != 0 {
        let word = split(&text[offset..], slip).into_iter().next();
        return (
            commands,
            number,
            offset + word.map_or(0, |word| word.1.len()),
        );
    }
    (commands, number, offset)
}

/// The first fault of the grammar and the first of the stamps, in reading order and at one place in
/// the order 13, 19, 11, 12, 14; and every command with the offset at which it is taken.
pub fn faults_and_commands(text: &[u8], slip: Option<Slip>) -> (Vec<Fault>, Vec<Taken>) {
    let mut grammar = Grammar::new(slip);
    let mut faults = Vec::from_iter(grammar.first_fault(&split(text, slip), text.len()));
    let mut stamps = Stamps::new(slip, &grammar.codes);
    faults.extend(stamps.first_fault(&grammar.events));
    let order = match slip {
        Some(Slip::UnknownLookedAtAfterTheGrammar) => [11, 12, 14, 13, 19],
        _ => [13, 19, 11, 12, 14],
    };
    let rank = |number| order.iter().position(|&other| other == number);
    faults.sort_by_key(|&(number, offset)| (offset, rank(number)));
    (faults, stamps.taken)
}

/// The words and their offsets, byte by byte.
fn split(text: &[u8], slip: Option<Slip>) -> Vec<(usize, Vec<u8>)> {
    let mut words: Vec<(usize, Vec<u8>)> = Vec::new();
    let mut inside = false;
    for (offset, &byte) in text.iter().enumerate() {
        let parts =
            [9, 10, 13, 32].contains(&byte) || slip == Some(Slip::FormFeedSeparates) && byte == 12;
        match words.last_mut() {
            Some((_, word)) if inside && !parts => word.push(byte),
            _ if !parts => words.push((offset, vec![byte])),
            _ => {}
        }
        inside = !parts;
    }
    words
}

/// What a word comes to for the stamps.
enum Event {
    /// A stamp ends, if one is open, and one of this time begins, if the word is a time. It is in
    /// decimal without leading zeros.
    Time(Option<Vec<u8>>),
    /// The variable holds these bits, as many as it is wide.
    Change(Variable, Vec<u8>),
}

/// What may stand next.
enum Place {
    Definition,
    Skipped {
        after: bool,
    },
    /// The words of a declaration so far, after `$var`.
    Declaration(Vec<(usize, Vec<u8>)>),
    DefinitionsEnd,
    Change {
        in_block: bool,
    },
    /// The code of a vector: its offset and bits.
    Code {
        in_block: bool,
        vector: usize,
        bits: Vec<u8>,
    },
}

/// The first time over the text: places and words.
struct Grammar {
    slip: Option<Slip>,
    place: Place,
    codes: Vec<(Variable, Vec<u8>)>,
    events: Vec<(usize, Event)>,
}

impl Grammar {
    fn new(slip: Option<Slip>) -> Grammar {
        Grammar {
            slip,
            place: Place::Definition,
            codes: Vec::new(),
            events: Vec::new(),
        }
    }

    fn has(&self, slip: Slip) -> bool {
        self.slip == Some(slip)
    }

    /// The first fault against the grammar or in the declarations.
    fn first_fault(&mut self, words: &[(usize, Vec<u8>)], length: usize) -> Option<Fault> {
        for (offset, word) in words {
            if let Err(fault) = self.word(*offset, word) {
                return Some(fault);
            }
        }
        if !self.has(Slip::LastStampDropped) {
            self.events.push((length, Event::Time(None)));
        }
        match self.place {
            Place::Change { in_block: false } => None,
            _ => Some((11, length)),
        }
    }

    fn word(&mut self, offset: usize, word: &[u8]) -> Result<(), Fault> {
        let place = std::mem::replace(&mut self.place, Place::Definition);
        self.place = match place {
            Place::Definition => self.definition(word).map_err(|number| (number, offset))?,
            Place::Skipped { after } => self.skipped(offset, word, after),
            Place::Declaration(mut words) => {
                words.push((offset, word.to_vec()));
                self.declaration(words)?
            }
            Place::DefinitionsEnd if word == b"$end" => Place::Change { in_block: false },
            Place::DefinitionsEnd => return Err((11, offset)),
            Place::Change { in_block } => self.change(offset, word, in_block)?,
            Place::Code {
                in_block,
                vector,
                bits,
            } => {
                let shown = if self.has(Slip::OffsetOfTheVector) {
                    vector
                } else {
                    offset
                };
                self.code(offset, word, &bits)
                    .map_err(|number| (number, shown))?;
                Place::Change { in_block }
            }
        };
        Ok(())
    }

    fn definition(&mut self, word: &[u8]) -> Result<Place, u8> {
        let word = String::from_utf8_lossy(word);
        let skipped = "$date $version $comment $timescale $scope $upscope";
        if skipped.split(' ').any(|keyword| keyword == word) {
            return Ok(Place::Skipped { after: false });
        }
        match &*word {
            "$var" => Ok(Place::Declaration(Vec::new())),
            "$enddefinitions" if self.codes.len() == 5 => Ok(Place::DefinitionsEnd),
            "$enddefinitions" if self.has(Slip::MissingNoticedAtItsFirstUse) => {
                Ok(Place::DefinitionsEnd)
            }
            "$enddefinitions" => Err(12),
            _ => Err(11),
        }
    }

    fn skipped(&mut self, offset: usize, word: &[u8], after: bool) -> Place {
        if after && word[0] == b'#' && self.has(Slip::HashInACommentEndsTheStamp) {
            self.events.push((offset, Event::Time(None)));
        }
        match (word, after) {
            (b"$end", false) => Place::Definition,
            (b"$end", true) => Place::Change { in_block: false },
            _ => Place::Skipped { after },
        }
    }

    /// The words of a declaration up to the one just read.
    fn declaration(&mut self, words: Vec<(usize, Vec<u8>)>) -> Result<Place, Fault> {
        let (offset, word) = words[words.len() - 1].clone();
        let good = match words.len() {
            1 => word == b"wire",
            2 => word.iter().all(|byte| (48..58).contains(byte)),
            3 => word.len() < 5 && word.iter().all(|&byte| byte > 32 && byte < 127),
            4 => {
                let width = String::from_utf8_lossy(&words[1].1);
                let shown = if self.has(Slip::WidthShownAtTheWidth) {
                    words[1].0
                } else {
                    offset
                };
                return match self.declare(&word, &width, &words[2].1) {
                    None => Err((12, offset)),
                    Some(false) => Err((12, shown)),
                    Some(true) => Ok(Place::Declaration(words)),
                };
            }
            _ if word == b"$end" => return Ok(Place::Definition),
            _ => word[0] == b'[' && self.has(Slip::RangeAfterTheNameSkipped),
        };
        if !good {
            return Err((11, offset));
        }
        Ok(Place::Declaration(words))
    }

    /// Whether the width fits; none if another thing is wrong.
    fn declare(&mut self, name: &[u8], width: &str, code: &[u8]) -> Option<bool> {
        let variable = Variable::ALL
            .into_iter()
            .find(|v| v.name().as_bytes() == name)?;
        let new = |known: &(Variable, Vec<u8>)| {
            known.0 != variable && (known.1 != code || self.has(Slip::CodeUsedTwiceAccepted))
        };
        if !self.codes.iter().all(new) {
            return None;
        }
        let width = match width.trim_start_matches('0').parse::<u128>() {
            Ok(width) if self.has(Slip::WidthsWrapAt256) => width % 256,
            Ok(width) => width,
            Err(_) => 0,
        };
        self.codes.push((variable, code.to_vec()));
        Some(width == variable.width() as u128)
    }

    fn change(&mut self, offset: usize, word: &[u8], in_block: bool) -> Result<Place, Fault> {
        let keyword = String::from_utf8_lossy(word);
        match (&*keyword, in_block) {
            ("$end", true) => return Ok(Place::Change { in_block: false }),
            ("$comment", false) => return Ok(Place::Skipped { after: true }),
            ("$dumpvars" | "$dumpall" | "$dumpon" | "$dumpoff", false) => {
                return Ok(Place::Change { in_block: true })
            }
            _ => {}
        }
        if word[0] == b'#' && (!in_block || self.has(Slip::HashInABlockEndsTheStamp)) {
            let time = self.time(&word[1..]).filter(|_| !in_block);
            let good = time.is_some();
            if good || !self.has(Slip::BadTimeEndsNoStamp) {
                self.events.push((offset, Event::Time(time)));
            }
            return if good {
                Ok(Place::Change { in_block })
            } else {
                Err((11, offset))
            };
        }
        let bits = word[1..].to_ascii_lowercase();
        let are_bits = |bits: &[u8]| bits.iter().all(|bit| b"01xz".contains(bit));
        if word[0].eq_ignore_ascii_case(&b'b') && !bits.is_empty() && are_bits(&bits) {
            return Ok(Place::Code {
                in_block,
                vector: offset,
                bits,
            });
        }
        let bit = word[0].to_ascii_lowercase();
        if are_bits(&[bit]) && self.coded(&word[1..]) == Some(Variable::Stb) {
            self.events
                .push((offset, Event::Change(Variable::Stb, vec![bit])));
            return Ok(Place::Change { in_block });
        }
        Err((11, offset))
    }

    /// A time without leading zeros, if it is decimal and at most 2^64 - 1.
    fn time(&self, digits: &[u8]) -> Option<Vec<u8>> {
        let digits = std::str::from_utf8(digits).ok()?;
        if digits.is_empty() || digits.contains(|digit: char| !digit.is_ascii_digit()) {
            return None;
        }
        let digits = digits.trim_start_matches('0');
        let largest = "18446744073709551615";
        if (digits.len(), digits) <= (largest.len(), largest) {
            return Some(digits.into());
        }
        let time = digits.parse::<u128>().ok()?;
        let wrapped = (time % (1 << 64)).to_string();
        let wraps = self.has(Slip::TimesWrapAt2To64);
        wraps.then(|| wrapped.trim_start_matches('0').into())
    }

    /// The variable of this code.
    fn coded(&self, code: &[u8]) -> Option<Variable> {
        let same = |known: &[u8]| match self.slip {
            Some(Slip::CodesMatchedByTheirBeginning) => code.starts_with(known),
            Some(Slip::CodesWithoutCase) => code.eq_ignore_ascii_case(known),
            Some(Slip::CodeMayNotBeEnd) => code == known && code != b"$end",
            _ => code == known,
        };
        let known = self.codes.iter().find(|(_, known)| same(known));
        known.map(|&(variable, _)| variable)
    }

    /// The code of a vector with these bits.
    fn code(&mut self, offset: usize, word: &[u8], bits: &[u8]) -> Result<(), u8> {
        let variable = self.coded(word).filter(|&v| v != Variable::Stb).ok_or(11)?;
        let width = variable.width();
        let bits = match bits.len().checked_sub(width) {
            Some(more) if more > 0 && !self.has(Slip::LongVectorsCut) => return Err(11),
            Some(more) => &bits[more..],
            None => bits,
        };
        let filler = match bits[0] {
            b'1' if self.has(Slip::OnesAfterAOne) => b'1',
            b'1' => b'0',
            bit => bit,
        };
        let mut extended = vec![filler; width - bits.len()];
        extended.extend(bits);
        self.events
            .push((offset, Event::Change(variable, extended)));
        Ok(())
    }
}

/// The second time: what the stamps say, up to their first fault.
struct Stamps {
    slip: Option<Slip>,
    missing: Vec<Variable>,
    values: [Vec<u8>; 5],
    /// The values when stb last became 1.
    latched: [Vec<u8>; 5],
    time: Option<Vec<u8>>,
    up: bool,
    taken: Vec<Taken>,
}

impl Stamps {
    fn new(slip: Option<Slip>, codes: &[(Variable, Vec<u8>)]) -> Stamps {
        let missing = |variable: &Variable| !codes.iter().any(|known| known.0 == *variable);
        let mut values = Variable::ALL.map(|variable| vec![b'x'; variable.width()]);
        if slip != Some(Slip::StrobeUnknownUntilGiven) {
            values[0] = b"0".to_vec();
        }
        Stamps {
            slip,
            missing: Variable::ALL.into_iter().filter(missing).collect(),
            latched: values.clone(),
            values,
            time: None,
            up: false,
            taken: Vec::new(),
        }
    }

    fn has(&self, slip: Slip) -> bool {
        self.slip == Some(slip)
    }

    fn first_fault(&mut self, events: &[(usize, Event)]) -> Option<Fault> {
        events.iter().find_map(|(offset, event)| {
            let number = self.event(*offset, event).err()?;
            Some((number, *offset))
        })
    }

    fn event(&mut self, offset: usize, event: &Event) -> Result<(), u8> {
        match event {
            Event::Change(variable, bits) => {
                self.values[*variable as usize].clone_from(bits);
                if *variable == Variable::Stb && bits == b"1" {
                    self.latched.clone_from(&self.values);
                }
                Ok(())
            }
            Event::Time(time) => {
                if self.time.is_some() || self.has(Slip::CommandAtTheFirstTime) {
                    self.end_stamp(offset, time.as_deref())?;
                }
                // The grammar's fault is all there is to a word that is no time.
                time.as_ref().map_or(Ok(()), |time| self.begin_stamp(time))
            }
        }
    }

    fn begin_stamp(&mut self, time: &[u8]) -> Result<(), u8> {
        if self.time.is_none() && self.has(Slip::ChangesBeforeTheFirstTimeLost) {
            *self = Stamps::new(self.slip, &[]);
        }
        if self.time.is_none() && self.has(Slip::FirstTimeMustBeAboveZero) {
            self.time = Some(Vec::new());
        }
        let order = |time: &[u8]| (time.len(), time.to_vec());
        let rises = |before: &Vec<u8>| {
            order(before) < order(time) || before == time && self.has(Slip::EqualTimesAccepted)
        };
        if !self.time.as_ref().is_none_or(rises) {
            return Err(14);
        }
        self.time = Some(time.to_vec());
        Ok(())
    }

    /// The stamp ends at a word, which may be a time.
    fn end_stamp(&mut self, offset: usize, next: Option<&[u8]>) -> Result<(), u8> {
        let level = self.values[0][0];
        if level != b'0' && level != b'1' {
            return Err(13);
        }
        let before = std::mem::replace(&mut self.up, level == b'1');
        if !self.up || before && !self.has(Slip::StrobeTakenByLevel) {
            return Ok(());
        }
        let command = self.command()?;
        let most = match self.slip {
            Some(Slip::OneCommandMoreTaken) => 65_536,
            Some(Slip::CommandsWithoutLimit) => usize::MAX,
            _ => 65_535,
        };
        if self.taken.len() == most {
            return Err(19);
        }
        let time = self.stamp_time(next);
        self.taken.push((offset, time, command));
        Ok(())
    }

    /// The time of the open stamp, from its digits.
    fn stamp_time(&self, next: Option<&[u8]>) -> u64 {
        let digits = match next {
            Some(next) if self.has(Slip::TimeOfTheWordThatEndsTheStamp) => next,
            _ => self.time.as_deref().unwrap_or_default(),
        };
        let digits = String::from_utf8_lossy(digits);
        let time = format!("0{digits}").parse().unwrap_or(u64::MAX);
        if self.has(Slip::TimesGivenIn32Bits) {
            time % (1 << 32)
        } else {
            time
        }
    }

    fn command(&self) -> Result<Command, u8> {
        let unknown = |bits: &Vec<u8>| bits.iter().any(|bit| *bit > b'1');
        if self.has(Slip::UnusedUnknownRefused) && self.values.iter().any(unknown) {
            return Err(13);
        }
        let (cmd, core, arg, prio) = (
            self.number(Variable::Cmd),
            self.number(Variable::Core).map(CoreNumber),
            self.number(Variable::Arg).map(SourceId),
            self.number(Variable::Prio),
        );
        let commands = [
            arg.and_then(|id| Ok(Command::SetSourcePriority(id, prio?))),
            arg.map(Command::Mask),
            arg.map(Command::Unmask),
            core.and_then(|core| Ok(Command::SetCorePriority(core, prio?))),
            arg.map(Command::Trigger),
            core.map(Command::Claim),
            arg.map(Command::Redeliver),
            arg.map(Command::Complete),
        ];
        commands[usize::from(cmd?)]
    }

    fn number(&self, variable: Variable) -> Result<u16, u8> {
        if self.has(Slip::MissingNoticedAtItsFirstUse) && self.missing.contains(&variable) {
            return Err(12);
        }
        let values = match self.slip {
            Some(Slip::ValuesOfTheStrobesMoment) => &self.latched,
            _ => &self.values,
        };
        let bits = String::from_utf8_lossy(&values[variable as usize]);
        let bits = match self.slip {
            Some(Slip::UsedUnknownReadAsZero) => bits.replace(['x', 'z'], "0"),
            _ => bits.into_owned(),
        };
        u16::from_str_radix(&bits, 2).map_err(|_| 13)
    }
}
