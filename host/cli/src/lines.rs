//! Commands or calls as lines of text.

use std::fmt::Display;
use std::io::{self, BufRead, BufWriter, IsTerminal, StdoutLock, Write};
use std::marker::PhantomData;
use std::str::FromStr;

use crate::failure::Failure;
use crate::options::Input;

/// Where the lines' answers go.
pub type Out = BufWriter<StdoutLock<'static>>;

/// Standard output, to be flushed at the end.
pub fn out() -> Out {
    BufWriter::new(io::stdout().lock())
}

/// Takes a command or a call a line, and has each answered. What was answered before a bad line is written out.
pub fn answer_each<T>(
    input: &Input,
    out: &mut Out,
    mut answer: impl FnMut(T, &mut Out) -> io::Result<()>,
) -> Result<(), Failure>
where
    T: FromStr<Err: Display>,
{
    let at_once = out.get_ref().is_terminal();
    for taken in Lines::of(input)? {
        match taken {
            Ok((_, asked)) => answer(asked, out)?,
            Err(failure) => {
                out.flush()?;
                return Err(failure);
            }
        }
        if at_once {
            out.flush()?;
        }
    }
    Ok(out.flush()?)
}

/// The commands or calls of an input, each with the number of its line, counted from 1. A line that is none is a failure that names it.
pub struct Lines<T> {
    name: String,
    reader: Box<dyn BufRead>,
    number: u64,
    asks: PhantomData<T>,
}

impl<T> Lines<T> {
    /// The lines of this input.
    pub fn of(input: &Input) -> Result<Lines<T>, Failure> {
        Ok(Lines {
            name: input.name(),
            reader: input.open()?,
            number: 0,
            asks: PhantomData,
        })
    }
}

impl<T> Iterator for Lines<T>
where
    T: FromStr<Err: Display>,
{
    type Item = Result<(u64, T), Failure>;

    fn next(&mut self) -> Option<Self::Item> {
        loop {
            self.number += 1;
            match next(&mut self.reader) {
                Ok(Line::Asks(asked)) => return Some(Ok((self.number, asked))),
                Ok(Line::Empty) => {}
                Ok(Line::End) => return None,
                Err(why) => return Some(Err(bad_line(&self.name, self.number, &why))),
            }
        }
    }
}

/// Why a line of an input of this name can't be taken.
pub fn bad_line(name: &str, number: u64, why: &str) -> Failure {
    Failure::input(format!("{name}, line {number}: {why}"))
}

/// What a line holds.
enum Line<T> {
    Asks(T),
    /// Nothing but a comment.
    Empty,
    End,
}

/// The next line, or why it can't be taken.
fn next<T>(reader: &mut dyn BufRead) -> Result<Line<T>, String>
where
    T: FromStr<Err: Display>,
{
    let mut line = Vec::new();
    let length = reader.read_until(b'\n', &mut line);
    if length.map_err(|error| error.to_string())? == 0 {
        return Ok(Line::End);
    }
    let text = std::str::from_utf8(&line).map_err(|_| "the line is no text".to_string())?;
    let text = text.split('#').next().unwrap_or_default().trim();
    if text.is_empty() {
        return Ok(Line::Empty);
    }
    let asked = text.parse().map_err(|error: T::Err| error.to_string())?;
    Ok(Line::Asks(asked))
}
