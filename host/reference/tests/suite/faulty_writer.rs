//! A second writer of recordings, made otherwise, and its variants that are wrong in one point each.
//!
//! It goes over the list twice: what each entry is and whether it fits, and then byte by byte.

use psic_reference::records::{Command, Controller};
use psic_reference::reference;
use psic_reference::writing::compare::Writer;
use psic_reference::writing::lists::{Entry, List};

/// The point in which a writer is wrong.
#[derive(Clone, Copy, Debug, PartialEq, Eq)]
pub enum Slip {
    // Stamps.
    StampsFromOne,
    TimesRiseByOneACommand,
    OneStampACommand,
    TimesIn16Bits,
    StrobeNeverLowered,
    EmptyRunWithATime,
    // Values.
    LeadingZeros,
    NothingForZero,
    UnusedValueAsGiven,
    UnchangedValuesLeftOut,
    PriorityBeforeTheId,
    TheIdAsCoreToo,
    // Lines.
    NoNewlineAtTheEnd,
    CarriageReturns,
    // What is refused.
    MostCommandsRefused,
    OneCommandMoreWritten,
    RefusedCommandsLeftOut,
    UnusedLargeValueRefused,
    LargeValuesCut,
    Core32Accepted,
    Id255Refused,
    Priority512Accepted,
    UnreadableRefusedBy15,
    TooLargeRefusedBy255,
    UnreadableLeftOut,
    CutEntryLeftOut,
    // The buffer.
    ExactFitRefused,
    OneByteTooFewAccepted,
    RestCleared,
    RefusedBufferCleared,
    RefusedRunBegun,
    LengthOfARefusedText,
    LengthWithoutTheDefinitions,
}

impl Slip {
    /// All of them.
    pub const ALL: [Slip; 33] = [
        Slip::StampsFromOne,
        Slip::TimesRiseByOneACommand,
        Slip::OneStampACommand,
        Slip::TimesIn16Bits,
        Slip::StrobeNeverLowered,
        Slip::EmptyRunWithATime,
        Slip::LeadingZeros,
        Slip::NothingForZero,
        Slip::UnusedValueAsGiven,
        Slip::UnchangedValuesLeftOut,
        Slip::PriorityBeforeTheId,
        Slip::TheIdAsCoreToo,
        Slip::NoNewlineAtTheEnd,
        Slip::CarriageReturns,
        Slip::MostCommandsRefused,
        Slip::OneCommandMoreWritten,
        Slip::RefusedCommandsLeftOut,
        Slip::UnusedLargeValueRefused,
        Slip::LargeValuesCut,
        Slip::Core32Accepted,
        Slip::Id255Refused,
        Slip::Priority512Accepted,
        Slip::UnreadableRefusedBy15,
        Slip::TooLargeRefusedBy255,
        Slip::UnreadableLeftOut,
        Slip::CutEntryLeftOut,
        Slip::ExactFitRefused,
        Slip::OneByteTooFewAccepted,
        Slip::RestCleared,
        Slip::RefusedBufferCleared,
        Slip::RefusedRunBegun,
        Slip::LengthOfARefusedText,
        Slip::LengthWithoutTheDefinitions,
    ];
}

/// A writer, right or with a slip.
#[derive(Clone, Copy, Debug)]
pub struct Second(pub Option<Slip>);

/// Document 01's lines before the first stamp, as one text.
const BEGINNING: &[u8] = b"$timescale 1 ns $end\n$scope module psic $end\n$var wire 1 ! stb $end\n\
    $var wire 3 \" cmd $end\n$var wire 5 # core $end\n$var wire 8 $ arg $end\n\
    $var wire 9 % prio $end\n$upscope $end\n$enddefinitions $end\n";

impl Writer for Second {
    fn write(&self, list: &List, buffer: &mut [u8]) -> Option<(u8, usize)> {
        let Some(entries) = self.readable(list) else {
            let by_15 = self.has(Slip::UnreadableRefusedBy15);
            return Some((if by_15 { 15 } else { 255 }, 0));
        };
        let most = match self.0 {
            Some(Slip::MostCommandsRefused) => 65_534,
            Some(Slip::OneCommandMoreWritten) => 65_536,
            _ => 65_535,
        };
        if entries.len() > most || !entries.iter().all(|&entry| self.fits(entry)) {
            return Some(self.refused(&entries, buffer));
        }
        let text = self.text(&entries);
        let mut least = text.len();
        least += usize::from(self.has(Slip::ExactFitRefused));
        least -= usize::from(self.has(Slip::OneByteTooFewAccepted));
        if buffer.len() < least {
            return Some(self.refused(&entries, buffer));
        }
        if self.has(Slip::RestCleared) {
            buffer.fill(0);
        }
        let fits = text.len().min(buffer.len());
        buffer[..fits].copy_from_slice(&text[..fits]);
        let without = usize::from(self.has(Slip::LengthWithoutTheDefinitions)) * BEGINNING.len();
        Some((0, text.len() - without))
    }
}

impl Second {
    fn has(&self, slip: Slip) -> bool {
        self.0 == Some(slip)
    }

    /// The entries of a list that holds a run.
    fn readable(&self, list: &List) -> Option<Vec<Entry>> {
        let mut entries = list.entries.clone();
        if list.cut > 0 && !self.has(Slip::CutEntryLeftOut) {
            return None;
        }
        if self.has(Slip::UnreadableLeftOut) {
            entries.retain(|entry| entry.number < 8);
        }
        if entries.iter().any(|entry| entry.number >= 8) {
            return None;
        }
        if self.has(Slip::RefusedCommandsLeftOut) {
            let mut controller = Controller::reset(128, 32);
            entries.retain(|entry| {
                let command = entry.command();
                command.is_some_and(|c: Command| reference::execute(&mut controller, c).number == 0)
            });
        }
        Some(entries)
    }

    fn refused(&self, entries: &[Entry], buffer: &mut [u8]) -> (u8, usize) {
        if self.has(Slip::RefusedBufferCleared) {
            buffer.fill(0);
        }
        if self.has(Slip::RefusedRunBegun) {
            let text = self.text(entries);
            let begun = text.len().min(buffer.len());
            buffer[..begun].copy_from_slice(&text[..begun]);
        }
        let length = match self.has(Slip::LengthOfARefusedText) {
            true => self.text(entries).len(),
            false => 0,
        };
        let fit = entries.iter().all(|&entry| self.fits(entry));
        let by_255 = self.has(Slip::TooLargeRefusedBy255) && !fit;
        (if by_255 { 255 } else { 15 }, length)
    }

    /// Whether every value that the entry's command uses fits its variable.
    fn fits(&self, entry: Entry) -> bool {
        let on_core = entry.number == 3 || entry.number == 5;
        let largest = match self.0 {
            Some(Slip::LargeValuesCut) => u16::MAX,
            Some(Slip::Core32Accepted) if on_core => 32,
            Some(Slip::Id255Refused) if !on_core => 254,
            _ if on_core => 31,
            _ => 255,
        };
        let prio = match self.0 {
            Some(Slip::LargeValuesCut) => u16::MAX,
            Some(Slip::Priority512Accepted) => 512,
            _ => 511,
        };
        let used = [0, 3].contains(&entry.number) || self.has(Slip::UnusedLargeValueRefused);
        entry.at <= largest && (!used || entry.priority <= prio)
    }

    /// cmd, core, arg and prio.
    fn values(&self, entry: Entry) -> [u16; 4] {
        let mut values = [u16::from(entry.number), 0, 0, 0];
        let on_core = entry.number == 3 || entry.number == 5;
        values[if on_core { 1 } else { 2 }] = entry.at;
        if entry.number == 0 || entry.number == 3 || self.has(Slip::UnusedValueAsGiven) {
            values[3] = entry.priority;
        }
        if self.has(Slip::TheIdAsCoreToo) {
            values[1] = entry.at % 32;
        }
        if self.has(Slip::LargeValuesCut) {
            values = [values[0], values[1] % 32, values[2] % 256, values[3] % 512];
        }
        values
    }

    fn text(&self, entries: &[Entry]) -> Vec<u8> {
        let mut text = BEGINNING.to_vec();
        if entries.is_empty() && self.has(Slip::EmptyRunWithATime) {
            text.extend(b"#0\n");
        }
        let mut before = [u16::MAX; 4];
        for (position, &entry) in entries.iter().enumerate() {
            let (up, down) = self.times(position as u32);
            time(&mut text, up);
            let values = self.values(entry);
            let mut order = [0, 1, 2, 3];
            if self.has(Slip::PriorityBeforeTheId) {
                order = [0, 1, 3, 2];
            }
            for variable in order {
                let same = values[variable] == before[variable];
                if !same || !self.has(Slip::UnchangedValuesLeftOut) {
                    self.vector(&mut text, variable, values[variable]);
                }
            }
            before = values;
            text.extend(b"1!\n");
            if !self.has(Slip::OneStampACommand) {
                time(&mut text, down);
            }
            if !self.has(Slip::StrobeNeverLowered) {
                text.extend(b"0!\n");
            }
        }
        if self.has(Slip::NoNewlineAtTheEnd) {
            text.pop();
        }
        if self.has(Slip::CarriageReturns) {
            let lines = text.split(|&byte| byte == b'\n');
            text = lines.collect::<Vec<_>>().join(&b"\r\n"[..]);
        }
        text
    }

    /// The times of a command's two stamps.
    fn times(&self, position: u32) -> (u32, u32) {
        let (up, down) = (position + position, position + position + 1);
        match self.0 {
            Some(Slip::StampsFromOne) => (up + 1, down + 1),
            Some(Slip::TimesRiseByOneACommand) => (position, position + 1),
            Some(Slip::TimesIn16Bits) => (up % 65_536, down % 65_536),
            _ => (up, down),
        }
    }

    /// A value by halving it, lowest bit first, turned round.
    fn vector(&self, text: &mut Vec<u8>, variable: usize, value: u16) {
        text.push(b'b');
        let from = text.len();
        let mut left = value;
        while left > 0 || text.len() == from && !self.has(Slip::NothingForZero) {
            text.push(48 + (left % 2) as u8);
            left /= 2;
        }
        if self.has(Slip::LeadingZeros) {
            while text.len() < from + [3, 5, 8, 9][variable] {
                text.push(48);
            }
        }
        text[from..].reverse();
        text.extend([b' ', b"\"#$%"[variable], b'\n']);
    }
}

/// A time from its greatest power of ten down.
fn time(text: &mut Vec<u8>, time: u32) {
    text.push(b'#');
    let mut power = 1;
    while power <= time / 10 {
        power *= 10;
    }
    let mut left = time;
    while power > 0 {
        text.push(48 + (left / power) as u8);
        left %= power;
        power /= 10;
    }
    text.push(b'\n');
}
