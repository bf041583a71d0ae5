//! A fault in words: its place in the text, and what was due there.
//!
//! For display alone, and not proved. The library says by which number and at which offset a text is refused; this module goes over the
//! words before that offset, which showed no fault, to say in words what was due. It decides nothing.

use crate::recording::{Fault, FaultKind, MAX_COMMANDS};

/// Line and column of the fault, the word there, and what was expected: `line 3, column 1, at '#x': expected # and decimal digits`.
pub fn place_and_expected(fault: &Fault, text: &[u8]) -> String {
    let (before, rest) = text.split_at(fault.offset.min(text.len()));
    let line = 1 + before.iter().filter(|&&byte| byte == b'\n').count();
    let column = 1 + before
        .rsplit(|&byte| byte == b'\n')
        .next()
        .map_or(0, <[u8]>::len);
    let mut walk = Walk::new();
    for word in words(before) {
        walk.word(word);
    }
    let word = words(rest).next();
    let at = word.map_or("the end of the text".to_string(), |word| {
        format!("'{}'", shown(word))
    });
    let expected = walk.expected(fault.kind, word.unwrap_or_default());
    format!("line {line}, column {column}, at {at}: expected {expected}")
}

fn words(text: &[u8]) -> impl Iterator<Item = &[u8]> {
    text.split(|byte| b" \t\r\n".contains(byte))
        .filter(|word| !word.is_empty())
}

/// A word's beginning, with bytes that can't be seen in hexadecimal.
fn shown(word: &[u8]) -> String {
    const LONGEST: usize = 40;
    let seen = |&byte: &u8| match byte {
        33..=126 => char::from(byte).to_string(),
        _ => format!("\\x{byte:02x}"),
    };
    let beginning: String = word.iter().take(LONGEST).map(seen).collect();
    let rest = if word.len() > LONGEST { ".." } else { "" };
    beginning + rest
}

const NAMES: [&str; 5] = ["stb", "cmd", "core", "arg", "prio"];
const WIDTHS: [usize; 5] = [1, 3, 5, 8, 9];
const STB: usize = 0;
const CMD: usize = 1;
const CORE: usize = 2;
const ARG: usize = 3;
const PRIO: usize = 4;

/// What may stand next.
#[derive(Clone, Copy, PartialEq, Eq)]
enum Due {
    Definition,
    Skipped { in_body: bool },
    Wire,
    Width,
    Code,
    Name,
    DeclarationEnd,
    DefinitionsEnd,
    Item,
    Change,
    VectorCode { in_block: bool },
}

/// What good words have come to.
struct Walk<'t> {
    due: Due,
    /// The keyword whose `$end` is due, or the name of the variable that is declared.
    open: &'t [u8],
    /// The width and the code of the declaration under way, and the bits of the vector under way.
    width: &'t [u8],
    code: &'t [u8],
    vector: &'t [u8],
    /// The code of each variable declared so far, and the bits that each was given last.
    codes: [Option<&'t [u8]>; 5],
    values: [&'t [u8]; 5],
    /// The word of the last time.
    time: &'t [u8],
}

impl<'t> Walk<'t> {
    fn new() -> Walk<'t> {
        Walk {
            due: Due::Definition,
            open: b"",
            width: b"",
            code: b"",
            vector: b"",
            codes: [None; 5],
            values: [b"0", b"x", b"x", b"x", b"x"],
            time: b"",
        }
    }

    /// Takes a good word.
    fn word(&mut self, word: &'t [u8]) {
        self.due = match self.due {
            Due::Item | Due::Change | Due::VectorCode { .. } => self.after_body_word(word),
            _ => self.after_definition_word(word),
        };
    }

    /// What is due after a word of the definitions, or of a comment.
    fn after_definition_word(&mut self, word: &'t [u8]) -> Due {
        match (self.due, word) {
            (Due::Definition, b"$var") => Due::Wire,
            (Due::Definition, b"$enddefinitions") => Due::DefinitionsEnd,
            (Due::Definition, _) => self.opened(word, Due::Skipped { in_body: false }),
            (Due::Skipped { in_body: false } | Due::DeclarationEnd, b"$end") => Due::Definition,
            (Due::Skipped { in_body: true } | Due::DefinitionsEnd, b"$end") => Due::Item,
            (Due::Wire, _) => Due::Width,
            (Due::Width, _) => {
                self.width = word;
                Due::Code
            }
            (Due::Code, _) => {
                self.code = word;
                Due::Name
            }
            (Due::Name, _) => {
                if let Some(named) = named(word) {
                    self.codes[named] = Some(self.code);
                }
                self.opened(word, Due::DeclarationEnd)
            }
            (due, _) => due,
        }
    }

    /// What is due after a word that stands after the definitions.
    fn after_body_word(&mut self, word: &'t [u8]) -> Due {
        match (self.due, word) {
            (Due::Item, [b'#', ..]) => {
                self.time = word;
                Due::Item
            }
            (Due::Item, b"$comment") => self.opened(word, Due::Skipped { in_body: true }),
            (Due::Item, [b'$', ..]) => self.opened(word, Due::Change),
            (Due::Change, b"$end") => Due::Item,
            (Due::VectorCode { in_block }, _) => {
                if let Some(variable) = self.coded(word) {
                    self.values[variable] = self.vector;
                }
                if in_block {
                    Due::Change
                } else {
                    Due::Item
                }
            }
            (due, [b'b' | b'B', bits @ ..]) => {
                self.vector = bits;
                let in_block = due == Due::Change;
                Due::VectorCode { in_block }
            }
            (due, _) => {
                self.values[STB] = &word[..1];
                due
            }
        }
    }

    fn opened(&mut self, word: &'t [u8], due: Due) -> Due {
        self.open = word;
        due
    }

    /// The variable that has this code.
    fn coded(&self, code: &[u8]) -> Option<usize> {
        self.codes.iter().position(|known| *known == Some(code))
    }

    /// What was expected at this word, which is empty at the text's end.
    fn expected(&self, kind: FaultKind, word: &[u8]) -> String {
        match kind {
            FaultKind::BadText => self.expected_word(word),
            FaultKind::BadVariable => self.expected_variable(word),
            FaultKind::UnknownValue => {
                let (name, time) = (NAMES[self.unknown()], shown(self.time));
                format!("no x or z in {name} at the end of the stamp {time}")
            }
            FaultKind::TimeNotRising => format!("a time above {}", shown(self.time)),
            FaultKind::TooManyCommands => format!("no command after the {MAX_COMMANDS} before it"),
        }
    }

    /// 11: what fits the place.
    fn expected_word(&self, word: &[u8]) -> String {
        let open = shown(self.open);
        match self.due {
            Due::Definition => {
                "$var, $enddefinitions, $date, $version, $comment, $timescale, $scope or $upscope"
                    .to_string()
            }
            Due::Skipped { .. } => format!("$end to close {open}"),
            Due::Wire => "wire".to_string(),
            Due::Width => "a width in decimal digits".to_string(),
            Due::Code => "a code of 1 to 4 bytes, each from ! to ~".to_string(),
            Due::Name => one_of_the_names(),
            Due::DeclarationEnd => format!("$end to close the declaration of {open}"),
            Due::DefinitionsEnd => "$end after $enddefinitions".to_string(),
            Due::Item => self.expected_item(word),
            Due::Change => {
                let or = format!("or $end to close {open}");
                self.expected_change(word)
                    .unwrap_or(format!("a change of a variable, {or}"))
            }
            Due::VectorCode { .. } => self.expected_code(word),
        }
    }

    fn expected_item(&self, word: &[u8]) -> String {
        match word {
            [b'#', digits @ ..] if !digits.is_empty() && digits.iter().all(u8::is_ascii_digit) => {
                format!("a time of at most #{}", u64::MAX)
            }
            [b'#', ..] => "a time, # and decimal digits".to_string(),
            _ => self.expected_change(word).unwrap_or_else(|| {
                "a time, a change of a variable, $comment, $dumpvars, $dumpall, $dumpon or $dumpoff".to_string()
            }),
        }
    }

    /// What was expected of a word that begins as a change does.
    fn expected_change(&self, word: &[u8]) -> Option<String> {
        match word {
            [b'b' | b'B', ..] => Some("one or more of 0, 1, x and z after the b".to_string()),
            [bit @ (b'0' | b'1' | b'x' | b'z' | b'X' | b'Z'), ..] => {
                let code = shown(self.codes[STB].unwrap_or_default());
                let bit = char::from(*bit);
                Some(format!("{bit} joined to the code of stb, {bit}{code}"))
            }
            _ => None,
        }
    }

    /// At the code of a vector: the code of no vector, or of a narrower one.
    fn expected_code(&self, word: &[u8]) -> String {
        match self.coded(word) {
            Some(variable) if variable != STB => {
                let (name, width, length) = (NAMES[variable], WIDTHS[variable], self.vector.len());
                format!("at most {width} bits for {name}, not {length}")
            }
            _ => {
                let code = |variable: usize| {
                    format!(
                        "{} ({})",
                        shown(self.codes[variable].unwrap_or_default()),
                        NAMES[variable]
                    )
                };
                let [a, b, c, d] = [CMD, CORE, ARG, PRIO].map(code);
                format!("the code of a vector: {a}, {b}, {c} or {d}")
            }
        }
    }

    /// 12: at a name, or at `$enddefinitions`.
    fn expected_variable(&self, word: &[u8]) -> String {
        if self.due == Due::Definition {
            let missing = (0..5).filter(|&variable| self.codes[variable].is_none());
            let names: Vec<&str> = missing.map(|variable| NAMES[variable]).collect();
            return format!(
                "declarations of all five variables before it: {} missing",
                names.join(", ")
            );
        }
        let Some(variable) = named(word) else {
            return one_of_the_names();
        };
        let (name, width) = (NAMES[variable], WIDTHS[variable]);
        let given = shown(self.width);
        if self.codes[variable].is_some() {
            format!("another name: {name} is declared before")
        } else if let (Some(other), true) = (self.coded(self.code), width_is(self.width, width)) {
            format!(
                "a code of its own for {name}: {} is that of {}",
                shown(self.code),
                NAMES[other]
            )
        } else {
            format!("width {width} for {name}, not {given}")
        }
    }

    /// 13: the variable that has an x or z and shouldn't.
    fn unknown(&self) -> usize {
        let unknown = |&variable: &usize| {
            self.values[variable]
                .iter()
                .any(|bit| b"xzXZ".contains(bit))
        };
        let cmd = self.values[CMD]
            .iter()
            .fold(0, |number, bit| 2 * number + u32::from(bit & 1));
        let uses: &[usize] = match cmd {
            0 => &[STB, CMD, ARG, PRIO],
            3 => &[STB, CMD, CORE, PRIO],
            5 => &[STB, CMD, CORE],
            _ => &[STB, CMD, ARG],
        };
        uses.iter().copied().find(unknown).unwrap_or(STB)
    }
}

fn named(word: &[u8]) -> Option<usize> {
    NAMES.iter().position(|name| name.as_bytes() == word)
}

fn one_of_the_names() -> String {
    "the name stb, cmd, core, arg or prio".to_string()
}

/// Whether decimal digits, leading zeros among them, are this width, which has one.
fn width_is(digits: &[u8], width: usize) -> bool {
    let leading = digits.iter().take_while(|&&digit| digit == b'0').count();
    digits[leading..] == *width.to_string().as_bytes()
}
