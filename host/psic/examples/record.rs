//! A run written as a recording: source 4 is unmasked and triggered. What is written is read back.

use psic::{recording, Command, Refusal, SourceId};

fn main() -> Result<(), Refusal> {
    let run = [Command::Unmask(SourceId(4)), Command::Trigger(SourceId(4))];
    let text = psic::write(&run)?;
    print!("{}", String::from_utf8_lossy(&text));
    for stamped in psic::read(&text).commands {
        println!("{stamped}");
    }
    let too_large = [run[0], Command::Trigger(SourceId(256))];
    if let (Err(refusal), Some(position)) = (
        psic::write(&too_large),
        recording::first_unwritable(&too_large),
    ) {
        println!("{}: refused by {}", too_large[position], refusal.number());
    }
    Ok(())
}
