//! The fast model behind the reference's trait.

use psic_reference::model::Model;
use psic_reference::{records, reference};

use super::{Command, Controller, Core, MessageBox, Source};

/// The fast model. It has no calls on lent records: the reference answers these.
#[derive(Clone, Copy, Debug)]
pub struct Fast;

impl Model for Fast {
    type State = Controller;

    fn name(&self) -> String {
        "fast".to_string()
    }

    fn make(&self, n: u16, m: u16) -> (u8, Controller) {
        let (number, made) = reference::make(n, m);
        (number, Controller::new(made.n, made.m))
    }

    fn execute(&self, state: &mut Controller, command: records::Command) -> records::Answer {
        let outcome = state.execute(Command::from(command));
        records::Answer {
            number: outcome.number,
            id: outcome.id,
            cycles: outcome.cycles,
        }
    }

    fn load(&self, controller: &records::Controller) -> Controller {
        Controller {
            n: controller.n,
            m: controller.m,
            sources: controller.sources.map(|source| Source {
                configured: source.configured,
                masked: source.masked,
                pending: source.pending,
                delivered: source.delivered,
                priority: source.request,
                dropped: source.dropped,
            }),
            cores: controller.cores.map(|core| Core {
                configured: core.configured,
                message: MessageBox {
                    filled: core.message.filled,
                    dirty: core.message.dirty,
                    source: core.message.id,
                    priority: core.message.priority,
                },
            }),
        }
    }

    fn read(&self, state: &Controller) -> records::Controller {
        records::Controller {
            n: state.n,
            m: state.m,
            sources: state.sources.map(|source| records::Source {
                configured: source.configured,
                masked: source.masked,
                pending: source.pending,
                delivered: source.delivered,
                request: source.priority,
                dropped: source.dropped,
            }),
            cores: state.cores.map(|core| records::Core {
                configured: core.configured,
                message: records::MessageBox {
                    filled: core.message.filled,
                    dirty: core.message.dirty,
                    id: core.message.source,
                    priority: core.message.priority,
                },
            }),
        }
    }

    fn highest_in(&self, sources: &[records::Source]) -> (u8, u16) {
        reference::highest_in(sources)
    }

    fn ranges_in(&self, sources: &[records::Source]) -> (u8, u16) {
        reference::ranges_in(sources)
    }

    fn claim_in_place(&self, core: &mut records::Core) -> (u8, u16) {
        reference::claim_in_place(core)
    }
}

impl From<records::Command> for Command {
    fn from(command: records::Command) -> Command {
        match command {
            records::Command::SetSourcePriority(id, p) => Command::SetSourcePriority(id.0, p),
            records::Command::Mask(id) => Command::Mask(id.0),
            records::Command::Unmask(id) => Command::Unmask(id.0),
            records::Command::SetCorePriority(core, p) => Command::SetCorePriority(core.0, p),
            records::Command::Trigger(id) => Command::Trigger(id.0),
            records::Command::Claim(core) => Command::Claim(core.0),
            records::Command::Redeliver(id) => Command::Redeliver(id.0),
            records::Command::Complete(id) => Command::Complete(id.0),
        }
    }
}
