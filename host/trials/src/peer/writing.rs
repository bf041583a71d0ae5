//! A run of commands written as a recording: what the library's speed is held against.
//!
//! Both writers take a list of commands, 5 bytes each, and a buffer, and answer as the library does: number + 256 length, or 15, or 255.
//! The list is gone over once for what it holds and for the text's length, and nothing is written before that is known.
//!
//! - [`plain`] is how a Rust programmer writes it who wants it fast: from the text's end to its front, digits as they come out of
//!   divisions.
//! - [`by_tables`] has every line that a variable can have in a table, copies 16 bytes of it whatever its length, and has the next line
//!   written over what is too much; the times are counted in decimal.

use psic::recording::MAX_COMMANDS;
use psic::COMMAND_SIZE;

const UNREADABLE: u64 = 255;
const UNWRITABLE: u64 = 15;

/// What stands before the first stamp.
const DEFINITIONS: &[u8; 197] = b"$timescale 1 ns $end\n$scope module psic $end\n$var wire 1 ! stb $end\n$var wire 3 \" cmd $end\n\
    $var wire 5 # core $end\n$var wire 8 $ arg $end\n$var wire 9 % prio $end\n$upscope $end\n$enddefinitions $end\n";

/// What a command's four variables hold.
struct Values {
    cmd: u16,
    core: u16,
    arg: u16,
    prio: u16,
}

impl Values {
    /// Of a command's five bytes. What isn't used is 0.
    fn of(command: &[u8]) -> Values {
        let number = command[0];
        let at = u16::from_le_bytes([command[1], command[2]]);
        let priority = u16::from_le_bytes([command[3], command[4]]);
        let on_core = number == 3 || number == 5;
        let with_priority = number == 0 || number == 3;
        Values {
            cmd: u16::from(number),
            core: if on_core { at } else { 0 },
            arg: if on_core { 0 } else { at },
            prio: if with_priority { priority } else { 0 },
        }
    }

    fn fit(&self) -> bool {
        self.core < 32 && self.arg < 256 && self.prio < 512
    }
}

/// The text's length, or the number that refuses the list. `lines` gives the bytes of a command's four vectors and two strobes.
fn measured(list: &[u8], lines: impl Fn(&Values) -> usize) -> Result<usize, u64> {
    let commands = list.chunks_exact(COMMAND_SIZE);
    let (count, whole) = (commands.len(), commands.remainder().is_empty());
    let (mut readable, mut fitting) = (whole, count <= MAX_COMMANDS);
    let mut length = DEFINITIONS.len();
    for command in commands {
        let values = Values::of(command);
        readable &= values.cmd < 8;
        fitting &= values.fit();
        length += lines(&values);
    }
    match (readable, fitting) {
        (false, _) => Err(UNREADABLE),
        (true, false) => Err(UNWRITABLE),
        (true, true) => Ok(length + length_of_times(count)),
    }
}

/// The bytes of the times of so many commands, two of the same length each.
fn length_of_times(count: usize) -> usize {
    let from = [0, 5, 50, 500, 5_000, 50_000];
    let digits: usize = from.iter().map(|&from| count.saturating_sub(from)).sum();
    2 * (2 * count + digits)
}

/// The text, from its end to its front.
pub fn plain(list: &[u8], text: &mut [u8]) -> u64 {
    let digits = |value: u16| (u16::BITS - (value | 1).leading_zeros()) as usize;
    let lines = |v: &Values| 22 + digits(v.cmd) + digits(v.core) + digits(v.arg) + digits(v.prio);
    let length = match measured(list, lines) {
        Ok(length) => length,
        Err(number) => return number,
    };
    let Some(text) = text.get_mut(..length) else {
        return UNWRITABLE;
    };
    let mut end = length;
    for (i, command) in list.chunks_exact(COMMAND_SIZE).enumerate().rev() {
        let values = Values::of(command);
        let time = 2 * i as u32;
        end = ending(text, end, b"0!\n");
        end = time_line(text, end, time + 1);
        end = ending(text, end, b"1!\n");
        end = vector(text, end, b" %\n", values.prio);
        end = vector(text, end, b" $\n", values.arg);
        end = vector(text, end, b" #\n", values.core);
        end = vector(text, end, b" \"\n", values.cmd);
        end = time_line(text, end, time);
    }
    text[..DEFINITIONS.len()].copy_from_slice(DEFINITIONS);
    256 * length as u64
}

/// Three bytes before an offset, and where they begin.
#[inline(always)]
fn ending(text: &mut [u8], end: usize, bytes: &[u8; 3]) -> usize {
    text[end - 3..end].copy_from_slice(bytes);
    end - 3
}

/// A vector's line.
#[inline(always)]
fn vector(text: &mut [u8], end: usize, code: &[u8; 3], value: u16) -> usize {
    let mut at = ending(text, end, code) - 1;
    let mut rest = value;
    while rest >= 2 {
        text[at] = b'0' + (rest % 2) as u8;
        rest /= 2;
        at -= 1;
    }
    text[at] = b'0' + rest as u8;
    text[at - 1] = b'b';
    at - 1
}

/// A time's line.
#[inline(always)]
fn time_line(text: &mut [u8], end: usize, time: u32) -> usize {
    text[end - 1] = b'\n';
    let mut at = end - 2;
    let mut rest = time;
    while rest >= 10 {
        text[at] = b'0' + (rest % 10) as u8;
        rest /= 10;
        at -= 1;
    }
    text[at] = b'0' + rest as u8;
    text[at - 1] = b'#';
    at - 1
}

/// A vector's line, and its length behind it.
type Line = [u8; 16];

/// The lines of the values 0 to N - 1.
const fn lines<const N: usize>(code: u8) -> [Line; N] {
    let mut table = [[0; 16]; N];
    let mut value = 0;
    while value < N {
        let mut digits = 1;
        while value >> digits > 0 {
            digits += 1;
        }
        table[value][0] = b'b';
        let mut i = 0;
        while i < digits {
            table[value][digits - i] = b'0' + (value >> i & 1) as u8;
            i += 1;
        }
        table[value][digits + 1] = b' ';
        table[value][digits + 2] = code;
        table[value][digits + 3] = b'\n';
        table[value][15] = digits as u8 + 4;
        value += 1;
    }
    table
}

static CMD: [Line; 8] = lines(b'"');
static CORE: [Line; 32] = lines(b'#');
static ARG: [Line; 256] = lines(b'$');
static PRIO: [Line; 512] = lines(b'%');

/// The four lines of a command.
fn lines_of(values: &Values) -> [&'static Line; 4] {
    [
        &CMD[usize::from(values.cmd) % 8],
        &CORE[usize::from(values.core) % 32],
        &ARG[usize::from(values.arg) % 256],
        &PRIO[usize::from(values.prio) % 512],
    ]
}

/// The bytes that a command can reach past its beginning, what is written over included.
const REACH: usize = 80;

/// The text, from its front, lines copied from tables.
pub fn by_tables(list: &[u8], text: &mut [u8]) -> u64 {
    let sizes = |values: &Values| {
        let lines = lines_of(values);
        6 + lines
            .iter()
            .map(|line| usize::from(line[15]))
            .sum::<usize>()
    };
    let length = match measured(list, sizes) {
        Ok(length) => length,
        Err(number) => return number,
    };
    let Some(text) = text.get_mut(..length) else {
        return UNWRITABLE;
    };
    text[..DEFINITIONS.len()].copy_from_slice(DEFINITIONS);
    let mut at = DEFINITIONS.len();
    let mut time = Decimal::ZERO;
    for command in list.chunks_exact(COMMAND_SIZE) {
        let values = Values::of(command);
        match text[at..].first_chunk_mut() {
            Some(room) => at += stamps(room, &mut time, &values),
            None => {
                let mut room = [0; REACH];
                let taken = stamps(&mut room, &mut time, &values);
                text[at..at + taken].copy_from_slice(&room[..taken]);
                at += taken;
            }
        }
    }
    256 * length as u64
}

/// The lines of a command, and how many bytes they are.
fn stamps(room: &mut [u8; REACH], time: &mut Decimal, values: &Values) -> usize {
    let mut at = time.line(room, 0);
    for line in lines_of(values) {
        room[at..at + 16].copy_from_slice(line);
        at += usize::from(line[15]) % 16;
    }
    room[at..at + 3].copy_from_slice(b"1!\n");
    time.count();
    at = time.line(room, at + 3);
    room[at..at + 3].copy_from_slice(b"0!\n");
    time.count();
    at + 3
}

/// A number below 10^8 that is counted up, in decimal digits.
struct Decimal {
    /// The last digit is the last byte.
    digits: [u8; 8],
    /// How many there are without leading zeros.
    count: usize,
}

impl Decimal {
    const ZERO: Decimal = Decimal {
        digits: [b'0'; 8],
        count: 1,
    };

    fn count(&mut self) {
        let mut last = 7;
        while self.digits[last] == b'9' {
            self.digits[last] = b'0';
            last -= 1;
        }
        self.digits[last] += 1;
        self.count = self.count.max(8 - last);
    }

    /// The line of a time at an offset, and the offset behind it.
    fn line(&self, room: &mut [u8; REACH], at: usize) -> usize {
        let digits = u64::from_le_bytes(self.digits) >> (64 - 8 * self.count);
        room[at] = b'#';
        room[at + 1..at + 9].copy_from_slice(&digits.to_le_bytes());
        room[at + 1 + self.count] = b'\n';
        at + 2 + self.count
    }
}
