//! What the commands have in common: the words after them, where they read, and where they write a recording.

use std::ffi::OsString;
use std::fs::{self, File};
use std::io::{self, BufRead, BufReader};
use std::path::PathBuf;

use psic::Refusal;

use crate::failure::Failure;

/// The options with the sizes of a controller.
pub const SIZES: [&str; 2] = ["--sources", "--cores"];

/// The option with the file that a recording is written to.
pub const WRITE: &str = "--write";

/// The words after a command, in any order.
pub struct Options {
    command: &'static str,
    sources: Option<u16>,
    cores: Option<u16>,
    /// Where to read, if a word says so.
    pub input: Option<Input>,
    /// Where to write a recording, if a word says so.
    pub write: Option<PathBuf>,
}

/// Where a command reads.
pub enum Input {
    /// Standard input, by the word `-` or by none.
    Standard,
    /// A file.
    File(PathBuf),
}

impl Options {
    /// The words after this command, which takes a file and these options.
    pub fn of(
        command: &'static str,
        takes: &[&str],
        words: &[OsString],
    ) -> Result<Options, Failure> {
        let (mut sources, mut cores, mut input, mut write) = (None, None, None, None);
        let mut words = words.iter();
        while let Some(word) = words.next() {
            let text = word.to_string_lossy();
            let taken = takes.contains(&text.as_ref());
            match text.as_ref() {
                "--sources" if taken => set(&mut sources, &text, size(&text, words.next())?)?,
                "--cores" if taken => set(&mut cores, &text, size(&text, words.next())?)?,
                WRITE if taken => set(&mut write, &text, file(&text, words.next())?)?,
                "-" => set(&mut input, "FILE", Input::Standard)?,
                option if option.starts_with('-') => {
                    return Err(Failure::usage(format!("'{command}' takes no '{option}'")));
                }
                _ => set(&mut input, "FILE", Input::File(PathBuf::from(word)))?,
            }
        }
        Ok(Options {
            command,
            sources,
            cores,
            input,
            write,
        })
    }

    /// What is made of the sizes, both of which the command needs: a fresh controller or simulation.
    pub fn fresh<T>(&self, make: impl Fn(u16, u16) -> Result<T, Refusal>) -> Result<T, Failure> {
        let needed = |option| needs(self.command, option);
        let n = self.sources.ok_or_else(|| needed("--sources N"))?;
        let m = self.cores.ok_or_else(|| needed("--cores M"))?;
        make(n, m)
            .map_err(|refusal| Failure::input(format!("{n} sources and {m} cores: {refusal}")))
    }
}

/// The command lacks a word.
pub fn needs(command: &str, option: &str) -> Failure {
    Failure::usage(format!("'{command}' needs {option}"))
}

fn set<T>(place: &mut Option<T>, name: &str, value: T) -> Result<(), Failure> {
    match place.replace(value) {
        None => Ok(()),
        Some(_) => Err(Failure::usage(format!("{name} is given twice"))),
    }
}

fn size(option: &str, word: Option<&OsString>) -> Result<u16, Failure> {
    let text = word.and_then(|word| word.to_str());
    let number = text.and_then(|text| text.parse().ok());
    number.ok_or_else(|| Failure::usage(format!("{option} needs a number from 0 to 65535")))
}

/// A file's name. `-` is none: what else a command prints would be in the recording.
fn file(option: &str, word: Option<&OsString>) -> Result<PathBuf, Failure> {
    match word {
        Some(word) if word != "-" => Ok(PathBuf::from(word)),
        _ => Err(Failure::usage(format!("{option} needs a file"))),
    }
}

/// Writes a recording to a file, in place of what it held.
pub fn write_to(path: &PathBuf, text: &[u8]) -> Result<(), Failure> {
    fs::write(path, text).map_err(|error| {
        let name = path.display();
        Failure::File(format!("{name} can't be written: {error}"))
    })
}

impl Input {
    /// Its name for people.
    pub fn name(&self) -> String {
        match self {
            Input::Standard => "standard input".to_string(),
            Input::File(path) => path.display().to_string(),
        }
    }

    /// Opens it for reading.
    pub fn open(&self) -> Result<Box<dyn BufRead>, Failure> {
        match self {
            Input::Standard => Ok(Box::new(io::stdin().lock())),
            Input::File(path) => {
                let file = File::open(path).map_err(|error| {
                    Failure::input(format!("{} can't be opened: {error}", self.name()))
                })?;
                Ok(Box::new(BufReader::new(file)))
            }
        }
    }
}
