//! A handover: request 1 runs on core 0, is interrupted there by request 3, waits, and is next claimed by core 1.

use psic::RoutineCall::{Enter, Exit, Trigger};
use psic::{CoreId, Handovers, Refusal, Routines, SourceId};

fn main() -> Result<(), Refusal> {
    let (core_0, core_1) = (CoreId(0), CoreId(1));
    let mut routines = Routines::new(3, 2)?;
    let mut handovers = Handovers::default();
    for id in 1..=3 {
        routines.set_source_priority(SourceId(id), id)?;
        routines.unmask(SourceId(id))?;
    }
    for call in [
        Trigger(SourceId(1)),
        Enter(core_0),
        Trigger(SourceId(2)),
        Enter(core_1),
        Trigger(SourceId(3)),
        Enter(core_0),
        Exit(core_1),
        Enter(core_1),
    ] {
        let answer = routines.call(call, &mut handovers)?;
        println!("{call}: {answer}, {routines}");
    }
    for (from, to, count) in handovers.seen() {
        println!("from core {from} to core {to}: {count}");
    }
    Ok(())
}
