//! Faults at chosen places of a text.

use super::command;
use super::script::{idle, strobe, time_word, Script, Wish, Word, STB};
use crate::random::Random;
use crate::recording::Variable;

/// The places of a declaration's words.
const WIRE: usize = 1;
const WIDTH: usize = 2;
const CODE: usize = 3;
const NAME: usize = 4;
const END: usize = 5;

const OTHER_NAMES: [&str; 8] = [
    "clk",
    "Stb",
    "CMD",
    "co",
    "cores",
    "ar",
    "$end",
    "prio[8:0]",
];
const NO_WIRES: [&str; 4] = ["reg", "Wire", "wires", "1"];
const NO_WIDTHS: [&str; 6] = ["8a", "-8", "+8", "0x8", "8.", "#8"];
const NO_CODES: [&[u8]; 4] = [b"abcde", b"\x7f", b"a\x80", b"!\0"];
const NO_ENDS: [&str; 4] = ["[7:0]", "$END", "$var", "$endx"];

/// Words that end a stamp and are no times.
const NO_TIMES: [&str; 8] = ["#", "##", "#1x", "#-1", "#+1", "#1.5", "#0x9", "#9#9"];

/// Words that are no definition, no time, no block and hardly a change.
const STRAY_WORDS: [&[u8]; 16] = [
    b"$end",
    b"$enddefinitions",
    b"$date",
    b"$var",
    b"$Comment",
    b"$DUMPON",
    b"$dump",
    b"b",
    b"B",
    b"b12",
    b"bb1",
    b"r1.5",
    b"0",
    b"x",
    b"b1\x0c",
    b"\xff",
];

/// What may be under way at the text's end.
const UNFINISHED: [&[&str]; 6] = [
    &["$comment"],
    &["$comment", "#1"],
    &["$dumpall"],
    &["$dumpvars", "b1"],
    &["b1"],
    &["bx10"],
];

impl Script<'_> {
    /// Definitions with one or more faults.
    pub fn definitions_with_faults(&mut self) {
        let mut declarations = self.declarations();
        self.spoil(&mut declarations);
        if self.random.one_in(3) {
            self.spoil(&mut declarations);
        }
        self.declare(declarations);
        let length = self.words.len();
        match self.random.below(16) {
            0 => self.words.truncate(length - 1),
            1 => self.words.extend_from_within(length - 2..),
            _ => {}
        }
    }

    /// One fault in one declaration, or one too many, or one missing.
    fn spoil(&mut self, declarations: &mut Vec<Vec<Word>>) {
        let random = &mut *self.random;
        let chosen = random.below(declarations.len());
        let other = declarations[random.below(declarations.len())].clone();
        let words = &mut declarations[chosen];
        // One that has lost or gained a word is bad enough.
        if words.len() != END + 1 || other.len() != END + 1 {
            return;
        }
        match random.below(13) {
            0 => words[NAME] = random.pick(&OTHER_NAMES).into(),
            1 => words[NAME].clone_from(&other[NAME]),
            2 | 3 => words[WIDTH] = other_width(random, &words[WIDTH]),
            4 => words[CODE].clone_from(&other[CODE]),
            5 => words[WIRE] = random.pick(&NO_WIRES).into(),
            6 => words[WIDTH] = random.pick(&NO_WIDTHS).into(),
            7 => words[CODE] = random.pick(&NO_CODES).into(),
            8 => words.insert(END, random.pick(&NO_ENDS).into()),
            9 => drop(words.remove(random.below(END + 1))),
            10 => words.insert(0, random.pick(&STRAY_WORDS).into()),
            11 => drop(declarations.remove(chosen)),
            _ => declarations.insert(chosen, other),
        }
    }

    /// A stamp, good or with an x or z where it shows, and then a word that shows a fault of its
    /// own, or a good one, or the text's end. Tells whether the text goes on.
    pub fn stamp_with_faults(&mut self) -> bool {
        let command = command(self.random);
        let mut wishes = match self.random.below(4) {
            0 => idle(0),
            _ => strobe(command),
        };
        if self.random.one_in(3) {
            let used = |variable: &Variable| wishes[*variable as usize] != Wish::Anything;
            let used = Variable::ALL.into_iter().filter(used);
            if let Some(variable) = self.random.pick_if_any(used) {
                wishes[variable as usize] = Wish::Unknown;
            }
        }
        self.lower();
        self.stamp(wishes);
        self.fault()
    }

    /// One fault where a time or change may stand, or none. Tells whether the text goes on.
    fn fault(&mut self) -> bool {
        match self.random.below(10) {
            0 => {}
            1 => return false,
            2 => {
                let unfinished = self.random.pick(&UNFINISHED);
                self.words
                    .extend(unfinished.iter().map(|&word| word.into()));
                return false;
            }
            3..7 => self.bad_time(),
            7 => {
                let time = format!("#{}", self.time.map_or(0, |last| last + 1));
                for word in ["$dumpoff", &time, "$end"] {
                    self.word(word);
                }
            }
            8 => {
                let word = self.random.pick(&STRAY_WORDS);
                self.word(word);
            }
            _ => self.bad_change(),
        }
        true
    }

    /// A word that ends the stamp and is no time, a time above 2^64 - 1, or one that doesn't rise.
    fn bad_time(&mut self) {
        let last = self.time.unwrap_or(0);
        let word = match self.random.below(4) {
            0 => self.random.pick(&NO_TIMES).into(),
            1 => {
                let next = u128::from(last) + 1;
                let above = self.random.pick(&[0, 1, next, 1 << 64, 10 << 64]);
                time_word(self.random, (1 << 64) + above)
            }
            _ => {
                let times = [last, last, last.saturating_sub(1), last / 2, 0];
                let time = self.random.pick(&times);
                time_word(self.random, time)
            }
        };
        self.words.push(word);
    }

    /// A change that fits no variable.
    fn bad_change(&mut self) {
        let variable = self.random.pick(&Variable::ALL);
        let code = self.codes[variable as usize].clone();
        let bit = [self.random.pick(b"01xz")];
        match self.random.below(5) {
            0 => self.word([&bit[..], &code].concat()),
            1 => {
                let code = near(self.random, &self.codes[STB]);
                self.word([&bit[..], &code].concat());
            }
            2 => {
                let code = near(self.random, &code);
                self.words.extend([[b"b", &bit[..]].concat(), code]);
            }
            3 => self.words.extend([[b"b", &bit[..]].concat(), code]),
            _ => {
                let more = if self.random.one_in(16) { 10_000 } else { 1 };
                let bits = bit.repeat(variable.width() + more);
                self.words.extend([[&b"b"[..], &bits].concat(), code]);
            }
        }
    }
}

/// A width near this one, which is in decimal, or one that is equal to it modulo a power of 2.
fn other_width(random: &mut Random, width: &[u8]) -> Word {
    let width = std::str::from_utf8(width).ok();
    let width: u128 = width.and_then(|width| width.parse().ok()).unwrap_or(1);
    let others = [
        width + 1,
        width.saturating_sub(1),
        256 + width,
        65_536 + width,
        (1 << 64) + width,
    ];
    random.pick(&others).to_string().into_bytes()
}

/// A code near this one: a byte more, a byte less, or a letter of the other case.
fn near(random: &mut Random, code: &[u8]) -> Word {
    match random.below(3) {
        0 => [code, &[random.within(33..=126) as u8]].concat(),
        1 if code.len() > 1 => code[..code.len() - 1].to_vec(),
        _ if code.iter().any(u8::is_ascii_lowercase) => code.to_ascii_uppercase(),
        _ => code.to_ascii_lowercase(),
    }
}
