//! A text under way, word by word.

use std::io::Write;

use crate::random::Random;
use crate::recording::Variable;
use crate::records::Command;

pub type Word = Vec<u8>;

/// The words of a text, and what they have come to.
pub struct Script<'r> {
    pub random: &'r mut Random,
    pub words: Vec<Word>,
    /// The code of each variable.
    pub codes: [Word; 5],
    /// What each variable holds: none if an x or z is in it.
    holds: [Option<u16>; 5],
    /// The time of the last stamp.
    pub time: Option<u64>,
    /// Whether comments, blocks, skipped words and changes without effect are put in.
    ornate: bool,
}

/// What a variable is to hold at the end of a stamp.
#[derive(Clone, Copy, PartialEq, Eq)]
pub enum Wish {
    Anything,
    Known(u16),
    Unknown,
}

/// stb at this level, the other variables as they may be.
pub fn idle(level: u16) -> [Wish; 5] {
    let mut wishes = [Wish::Anything; 5];
    wishes[STB] = Wish::Known(level);
    wishes
}

/// stb at 1, and the values that the command uses.
pub fn strobe(command: Command) -> [Wish; 5] {
    let [cmd, core, arg, prio] = match command {
        Command::SetSourcePriority(id, priority) => [Some(0), None, Some(id.0), Some(priority)],
        Command::Mask(id) => [Some(1), None, Some(id.0), None],
        Command::Unmask(id) => [Some(2), None, Some(id.0), None],
        Command::SetCorePriority(core, priority) => [Some(3), Some(core.0), None, Some(priority)],
        Command::Trigger(id) => [Some(4), None, Some(id.0), None],
        Command::Claim(core) => [Some(5), Some(core.0), None, None],
        Command::Redeliver(id) => [Some(6), None, Some(id.0), None],
        Command::Complete(id) => [Some(7), None, Some(id.0), None],
    }
    .map(|value| value.map_or(Wish::Anything, Wish::Known));
    [Wish::Known(1), cmd, core, arg, prio]
}

pub const STB: usize = Variable::Stb as usize;

const SKIPPED: [&str; 6] = [
    "$date",
    "$version",
    "$comment",
    "$timescale",
    "$scope",
    "$upscope",
];

const DUMPS: [&str; 4] = ["$dumpvars", "$dumpall", "$dumpon", "$dumpoff"];

/// Words that mean something elsewhere, or nothing at all. None of them is `$end`.
const SKIPPED_WORDS: [&[u8]; 16] = [
    b"$var",
    b"$enddefinitions",
    b"$comment",
    b"$dumpoff",
    b"$END",
    b"$end$end",
    b"#0",
    b"#18446744073709551616",
    b"b101",
    b"1!",
    b"wire",
    b"stb",
    b"\0",
    b"\x7f\xff",
    b"\x0b\x0c",
    b"2026-01-31",
];

impl<'r> Script<'r> {
    pub fn new(random: &'r mut Random) -> Script<'r> {
        let codes = codes(random);
        let ornate = random.flag();
        Script {
            random,
            words: Vec::new(),
            codes,
            holds: [Some(0), None, None, None, None],
            time: None,
            ornate,
        }
    }

    pub fn word(&mut self, word: impl AsRef<[u8]>) {
        self.words.push(word.as_ref().to_vec());
    }

    /// True about once in so many times, in ornate texts only.
    fn ornament(&mut self, times: usize) -> bool {
        self.ornate && self.random.one_in(times)
    }

    pub fn definitions(&mut self) {
        let declarations = self.declarations();
        self.declare(declarations);
    }

    /// The declarations in any order, each with its words from `$var` to `$end`.
    pub fn declarations(&mut self) -> Vec<Vec<Word>> {
        let mut declarations = Vec::new();
        for variable in shuffled(self.random, &Variable::ALL) {
            let width = format!("{}{}", zeros(self.random), variable.width());
            declarations.push(vec![
                b"$var".to_vec(),
                b"wire".to_vec(),
                width.into_bytes(),
                self.codes[variable as usize].clone(),
                variable.name().into(),
                b"$end".to_vec(),
            ]);
        }
        declarations
    }

    /// These declarations with skipped words between them, then `$enddefinitions $end`.
    pub fn declare(&mut self, declarations: Vec<Vec<Word>>) {
        for words in declarations.into_iter().chain([Vec::new()]) {
            while self.ornament(3) {
                let keyword = self.random.pick(&SKIPPED);
                self.skipped(keyword);
            }
            self.words.extend(words);
        }
        self.word("$enddefinitions");
        self.word("$end");
    }

    /// A keyword, words that are skipped, and `$end`.
    fn skipped(&mut self, keyword: &str) {
        self.word(keyword);
        for _ in 0..self.random.below(4) {
            let word = self.random.pick(&SKIPPED_WORDS);
            self.word(word);
        }
        self.word("$end");
    }

    /// Stamps from which these commands are taken.
    pub fn commands(&mut self, commands: &[Command]) {
        for &command in commands {
            self.lower();
            while self.ornament(4) {
                self.stamp(idle(0));
            }
            self.stamp(strobe(command));
            while self.ornament(4) {
                // stb stays 1, so that no command is taken.
                self.stamp(idle(1));
            }
        }
    }

    /// Sees to it that stb isn't 1 at the end of the last stamp, so that a strobe can follow.
    pub fn lower(&mut self) {
        if self.time.is_some() && self.holds[STB] != Some(0) {
            self.stamp(idle(0));
        }
    }

    /// This command so many times, from the start on, two stamps each. It ends with stb at 1.
    pub fn strobes(&mut self, command: Command, count: usize) {
        self.ornate = false;
        self.stamp(strobe(command));
        let code = String::from_utf8_lossy(&self.codes[STB]).into_owned();
        let mut time = self.time.unwrap_or(0);
        let mut words = Vec::new();
        for _ in 1..count {
            let (down, up) = (time + 1, time + 2);
            write!(words, "#{down}\n0{code}\n#{up}\n1{code}\n").expect("memory takes all of it");
            time = up;
        }
        self.words.push(words);
        self.time = Some(time);
        self.ornate = self.random.flag();
    }

    /// The end of a valid text: perhaps a stamp more, or the latest time, or changes that belong
    /// to no stamp.
    pub fn close(&mut self) {
        match self.random.below(4) {
            0 => self.stamp(idle(0)),
            1 => self.word(format!("#{}", u64::MAX)),
            2 if self.time.is_none() => self.changes(idle(1), None),
            _ => {}
        }
    }

    /// A time and changes, after which the variables hold what is wished. Some of the changes may
    /// stand before the first time.
    pub fn stamp(&mut self, wishes: [Wish; 5]) {
        let carries = self.time.is_none() && self.random.flag();
        let time = self.later();
        self.time = Some(time);
        let word = time_word(self.random, time);
        if carries {
            self.changes(wishes, Some(word));
        } else {
            self.word(word);
            self.changes(wishes, None);
        }
    }

    /// A time above the last one; the first is 0, soon after or late. It leaves room for more.
    fn later(&mut self) -> u64 {
        let step = match self.random.below(8) {
            0 => self.random.below(1 << 20) as u64,
            _ => self.random.below(3) as u64,
        };
        match self.time {
            Some(time) => time + 1 + step,
            None => self.random.pick(&[0, 0, step, u64::MAX - (1 << 50)]),
        }
    }

    /// Changes in any order, some of them in blocks or without effect. A time, if there is one,
    /// stands somewhere among them.
    fn changes(&mut self, wishes: [Wish; 5], time: Option<Word>) {
        let mut bits = wishes.map(|_| Vec::new());
        let mut steps = Vec::new();
        for variable in Variable::ALL {
            bits[variable as usize] = self.bits_for(variable, wishes[variable as usize]);
            steps.extend(bits[variable as usize].iter().map(|_| Some(variable)));
        }
        if time.is_some() {
            steps.push(None);
        }
        let mut in_block = false;
        for step in shuffled(self.random, &steps) {
            in_block = self.block(in_block, step.is_none());
            match step {
                Some(variable) => {
                    let next = bits[variable as usize].remove(0);
                    self.change(variable, &next);
                }
                None => self.words.extend(time.clone()),
            }
        }
        self.block(in_block, true);
    }

    /// Perhaps opens or closes a block, or puts in a comment. Tells whether a block is open then.
    fn block(&mut self, open: bool, must_close: bool) -> bool {
        if open && (must_close || self.random.one_in(3)) {
            self.word("$end");
            return false;
        }
        if open || must_close {
            return open;
        }
        if self.ornament(8) {
            self.skipped("$comment");
        }
        let opens = self.ornament(6);
        if opens {
            let keyword = self.random.pick(&DUMPS);
            self.word(keyword);
        }
        opens
    }

    /// The bits of none, one or two changes, after which the variable holds what is wished.
    fn bits_for(&mut self, variable: Variable, wish: Wish) -> Vec<Word> {
        let width = variable.width();
        let held = self.holds[variable as usize];
        let again = self.random.one_in(3);
        let last = match wish {
            Wish::Known(value) if again || held != Some(value) => {
                known_bits(self.random, value, width)
            }
            Wish::Unknown if again || held.is_some() => unknown_bits(self.random, width),
            Wish::Anything if self.ornament(2) => any_bits(self.random, width),
            _ => return Vec::new(),
        };
        self.holds[variable as usize] = number(&last);
        if self.ornament(3) {
            vec![any_bits(self.random, width), last]
        } else {
            vec![last]
        }
    }

    /// The words of one change.
    fn change(&mut self, variable: Variable, bits: &[u8]) {
        let code = self.codes[variable as usize].clone();
        if variable == Variable::Stb {
            return self.word([bits, &code].concat());
        }
        let letter = if self.ornament(4) { b"B" } else { b"b" };
        self.word([letter, bits].concat());
        self.word(code);
    }
}

/// Five codes of 1 to 4 bytes of 33 to 126, all different. Some mean something elsewhere, and some
/// begin with another.
fn codes(random: &mut Random) -> [Word; 5] {
    const MEANING: [&str; 14] = [
        "$end", "#0", "#", "b1", "b", "x", "1!", "0", "$", "Z", "$var", "wire", "stb", "prio",
    ];
    let mut codes: [Word; 5] = Default::default();
    for made in 0..codes.len() {
        while codes[made].is_empty() || codes[..made].contains(&codes[made]) {
            codes[made] = match random.below(6) {
                0 => random.pick(&MEANING).into(),
                1 if made > 0 && codes[made - 1].len() < 4 => {
                    [&codes[made - 1][..], &[random.within(33..=126) as u8]].concat()
                }
                2 => {
                    let length = 1 + random.below(4);
                    (0..length).map(|_| random.within(33..=126) as u8).collect()
                }
                _ => vec![random.within(33..=126) as u8],
            };
        }
    }
    codes
}

/// The word of a time.
pub fn time_word(random: &mut Random, time: impl std::fmt::Display) -> Word {
    format!("#{}{time}", zeros(random)).into_bytes()
}

/// Leading zeros: mostly none, seldom a thousand.
fn zeros(random: &mut Random) -> &'static str {
    const ZEROS: [u8; 1000] = [b'0'; 1000];
    let count = match random.below(256) {
        0 => ZEROS.len(),
        1..16 => 1 + random.below(20),
        _ => 0,
    };
    std::str::from_utf8(&ZEROS[..count]).unwrap_or_default()
}

/// A number in binary, with leading zeros up to this width.
fn known_bits(random: &mut Random, value: u16, width: usize) -> Word {
    let shortest = format!("{value:b}").len();
    let length = shortest + random.below(width - shortest + 1);
    format!("{value:0length$b}").into_bytes()
}

/// Up to as many bits as the width, with an x or z among them.
fn unknown_bits(random: &mut Random, width: usize) -> Word {
    let length = 1 + random.below(width);
    let mut bits: Word = (0..length).map(|_| random.pick(b"001xz")).collect();
    bits[random.below(length)] = random.pick(b"xzXZ");
    bits
}

fn any_bits(random: &mut Random, width: usize) -> Word {
    match random.flag() {
        true => {
            let value = random.below(1 << width) as u16;
            known_bits(random, value, width)
        }
        false => unknown_bits(random, width),
    }
}

/// The number of these bits, or none if an x or z is among them.
fn number(bits: &[u8]) -> Option<u16> {
    let bits = std::str::from_utf8(bits).ok()?;
    u16::from_str_radix(bits, 2).ok()
}

pub fn shuffled<T: Copy>(random: &mut Random, items: &[T]) -> Vec<T> {
    let mut items = items.to_vec();
    for last in (1..items.len()).rev() {
        items.swap(last, random.below(last + 1));
    }
    items
}
