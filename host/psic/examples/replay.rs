//! A recording replayed: source 4 is unmasked and triggered, core 0 claims its request, and finds an empty box when it claims again.

use psic::Refusal;

const RECORDING: &[u8] = br#"$var wire 1 ! stb $end $var wire 3 " cmd $end $var wire 5 # core $end
$var wire 8 $ arg $end $var wire 9 % prio $end $enddefinitions $end
#10 b10 " b100 $ 1! #11 0!
#20 b100 " 1! #21 0!
#35 b101 " b0 # 1! #36 0!
#50 1! #50 0!
"#;

fn main() -> Result<(), Refusal> {
    let reading = psic::read(RECORDING);
    let replay = psic::replay(32, 2, RECORDING)?;
    for (stamped, answer) in reading.commands.iter().zip(&replay.answers) {
        match answer {
            Ok(answer) => println!("{stamped}: {answer}"),
            Err(refusal) => println!("{stamped}: {refusal}"),
        }
    }
    println!("after it: {}", replay.controller);
    if let Some(fault) = replay.fault {
        println!("{}", fault.explain(RECORDING));
    }
    Ok(())
}
