//! Two light beams on four cores: both requests are delivered at once, and each is claimed where it lies.

use psic::{Answer, Controller, CoreId, Refusal, SourceId};

fn show(what: &str, answer: Result<Answer, Refusal>, controller: &Controller) {
    match answer {
        Ok(answer) => println!("{what}: {answer}, {controller}"),
        Err(refusal) => println!("{what}: {refusal}, {controller}"),
    }
}

fn main() -> Result<(), Refusal> {
    let (first_beam, second_beam, core_0) = (SourceId(1), SourceId(2), CoreId(0));
    let mut controller = Controller::new(2, 4)?;
    for beam in [first_beam, second_beam] {
        controller.set_source_priority(beam, 7)?;
        controller.unmask(beam)?;
    }
    show("first beam", controller.trigger(first_beam), &controller);
    show("second beam", controller.trigger(second_beam), &controller);
    show("claim on core 0", controller.claim(core_0), &controller);
    show("claim again", controller.claim(core_0), &controller);
    controller.complete(first_beam)?;
    controller.set_core_priority(core_0, 0)?;
    println!("core 0 idle: {controller}");
    Ok(())
}
