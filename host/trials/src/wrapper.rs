//! The typed wrapper as a model of the reference's trait: what a host in Rust meets.

use psic::{CoreId, Refusal, SourceId};
use psic_reference::model::Model;
use psic_reference::records::{Answer, Command, Controller, Core, Source};

use crate::library::{bytes_of, controller_of, core_of, lent_core, lent_source};

/// A [`psic::Controller`] that owns its state, put to commands by its methods and read by its accessors.
#[derive(Clone, Copy, Debug)]
pub struct Wrapper;

impl Model for Wrapper {
    type State = psic::Controller;

    fn name(&self) -> String {
        "wrapper".to_string()
    }

    fn make(&self, n: u16, m: u16) -> (u8, psic::Controller) {
        match psic::Controller::new(n, m) {
            Ok(controller) => (0, controller),
            // A refused call gives no controller; the trait asks for one.
            Err(refusal) => (refusal.number(), self.load(&Controller::reset(1, 1))),
        }
    }

    fn execute(&self, state: &mut psic::Controller, command: Command) -> Answer {
        let source = |id: psic_reference::records::SourceId| SourceId(id.0);
        answer_of(match command {
            Command::SetSourcePriority(id, p) => state.set_source_priority(source(id), p),
            Command::Mask(id) => state.mask(source(id)),
            Command::Unmask(id) => state.unmask(source(id)),
            Command::SetCorePriority(core, p) => state.set_core_priority(CoreId(core.0), p),
            Command::Trigger(id) => state.trigger(source(id)),
            Command::Claim(core) => state.claim(CoreId(core.0)),
            Command::Redeliver(id) => state.redeliver(source(id)),
            Command::Complete(id) => state.complete(source(id)),
        })
    }

    fn run(&self, state: &mut psic::Controller, commands: &[Command]) -> Vec<Answer> {
        let commands: Vec<psic::Command> = commands.iter().map(|&command| typed(command)).collect();
        state.run(&commands).into_iter().map(answer_of).collect()
    }

    fn load(&self, controller: &Controller) -> psic::Controller {
        psic::Controller::from_bytes(&bytes_of(controller)).expect("the bytes encode a state")
    }

    /// By the accessors; records past n or m, which these don't show, from the bytes.
    fn read(&self, state: &psic::Controller) -> Controller {
        let mut controller = controller_of(state.as_bytes());
        (controller.n, controller.m) = (state.source_count(), state.core_count());
        for (id, source) in state.sources() {
            assert_eq!(state.source(id), Some(source));
            assert_eq!(state.dropped(id), Some(source.dropped));
            controller.sources[usize::from(id.0) - 1] = Source {
                configured: source.configured,
                masked: source.masked,
                pending: source.pending,
                delivered: source.delivered,
                request: source.priority,
                dropped: source.dropped,
            };
        }
        for (number, core) in state.cores() {
            assert_eq!(state.core(number), Some(core));
            assert_eq!(state.message_box(number), Some(core.message));
            controller.cores[usize::from(number.0)] = core_of(&core);
        }
        controller
    }

    fn highest_in(&self, sources: &[Source]) -> (u8, u16) {
        let list: Vec<psic::Source> = sources.iter().map(lent_source).collect();
        match psic::highest_in(&list) {
            Ok(position) => (0, position.map_or(0, |position| position as u16 + 1)),
            Err(refusal) => (refusal.number(), 0),
        }
    }

    fn ranges_in(&self, sources: &[Source]) -> (u8, u16) {
        let list: Vec<psic::Source> = sources.iter().map(lent_source).collect();
        match psic::ranges_in(&list) {
            Ok(ranges) => (0, ranges),
            Err(refusal) => (refusal.number(), 0),
        }
    }

    fn claim_in_place(&self, core: &mut Core) -> (u8, u16) {
        let mut lent = lent_core(core);
        let claimed = psic::claim_in_place(&mut lent);
        *core = core_of(&lent);
        claimed.map_or_else(|refusal| (refusal.number(), 0), |id| (0, id.0))
    }
}

/// The wrapper's form of a command.
pub fn typed(command: Command) -> psic::Command {
    match command {
        Command::SetSourcePriority(id, p) => psic::Command::SetSourcePriority(SourceId(id.0), p),
        Command::Mask(id) => psic::Command::Mask(SourceId(id.0)),
        Command::Unmask(id) => psic::Command::Unmask(SourceId(id.0)),
        Command::SetCorePriority(core, p) => psic::Command::SetCorePriority(CoreId(core.0), p),
        Command::Trigger(id) => psic::Command::Trigger(SourceId(id.0)),
        Command::Claim(core) => psic::Command::Claim(CoreId(core.0)),
        Command::Redeliver(id) => psic::Command::Redeliver(SourceId(id.0)),
        Command::Complete(id) => psic::Command::Complete(SourceId(id.0)),
    }
}

/// The reference's form of an answer.
pub fn answer_of(answer: Result<psic::Answer, Refusal>) -> Answer {
    match answer {
        Ok(answer) => Answer {
            number: 0,
            id: answer.claimed.map_or(0, |id| id.0),
            cycles: answer.cycles,
        },
        Err(refusal) => Answer {
            number: refusal.number(),
            id: 0,
            cycles: 0,
        },
    }
}
