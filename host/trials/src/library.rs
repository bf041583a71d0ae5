//! The proved library as a model of the reference's trait.

use psic::{raw, ANSWER_SIZE, COMMAND_SIZE, STATE_SIZE};
use psic_reference::model::{Model, Ran};
use psic_reference::records::{
    Answer, Command, Controller, Core, CoreNumber, Listed, MessageBox, Source, SourceId,
};

const SOURCES_FROM: usize = 4;
const SOURCE_SIZE: usize = 9;
const CORES_FROM: usize = 1156;
const CORE_SIZE: usize = 8;

/// The proved library with its own numbers: a call a command, or a call a list.
#[derive(Clone, Copy, Debug)]
pub struct Library;

impl Model for Library {
    type State = Vec<u8>;

    fn name(&self) -> String {
        "library".to_string()
    }

    fn make(&self, n: u16, m: u16) -> (u8, Vec<u8>) {
        let mut state = vec![0; STATE_SIZE];
        let answer = unpacked(raw::make(n, m, &mut state));
        assert_eq!((answer.id, answer.cycles), (0, 0), "making answers no id");
        (answer.number, state)
    }

    fn execute(&self, state: &mut Vec<u8>, command: Command) -> Answer {
        let (number, at, priority) = numbers(command);
        unpacked(raw::execute(state, number, at, priority))
    }

    fn run(&self, state: &mut Vec<u8>, commands: &[Command]) -> Vec<Answer> {
        run_list(state, commands)
    }

    fn run_listed(&self, state: &mut Vec<u8>, list: &[Listed]) -> Ran {
        let list: Vec<u8> = list.iter().flat_map(|&entry| entry_bytes(entry)).collect();
        run_bytes(state, &list)
    }

    fn load(&self, controller: &Controller) -> Vec<u8> {
        bytes_of(controller)
    }

    /// The bytes are those of the state, so that comparing states compares all bytes.
    fn read(&self, state: &Vec<u8>) -> Controller {
        let controller = controller_of(state);
        assert!(bytes_of(&controller) == *state, "{state:?}");
        controller
    }

    fn highest_in(&self, sources: &[Source]) -> (u8, u16) {
        let list: Vec<psic::Source> = sources.iter().map(lent_source).collect();
        let found = raw::highest_in(&list);
        (found.number, found.position)
    }

    fn ranges_in(&self, sources: &[Source]) -> (u8, u16) {
        let list: Vec<psic::Source> = sources.iter().map(lent_source).collect();
        let ranged = raw::ranges_in(&list);
        (ranged.number, ranged.ranges)
    }

    fn claim_in_place(&self, core: &mut Core) -> (u8, u16) {
        let mut lent = lent_core(core);
        let claimed = raw::claim_in_place(&mut lent);
        *core = core_of(&lent);
        (claimed.number, claimed.id.0)
    }
}

/// The proved library, a whole list of commands in one call.
pub fn run_list(state: &mut [u8], commands: &[Command]) -> Vec<Answer> {
    let list: Vec<u8> = commands
        .iter()
        .flat_map(|&command| encoded(command))
        .collect();
    let ran = run_bytes(state, &list);
    let count = commands.len();
    assert_eq!((ran.taken, ran.answers.len()), (count as u64, count));
    ran.answers
}

/// What the answers' bytes hold before a list is run. No answer has such a number.
const PATTERN: u8 = 0xc3;

/// A list in one call, entries of 5 bytes: the count, and the answers up to the last one that was counted or written.
pub fn run_bytes(state: &mut [u8], list: &[u8]) -> Ran {
    let count = list.len() / COMMAND_SIZE;
    let mut answers = vec![[PATTERN; ANSWER_SIZE]; count];
    let taken = raw::run(state, list, answers.as_flattened_mut());
    let written = answers
        .iter()
        .rposition(|answer| *answer != [PATTERN; ANSWER_SIZE]);
    let written = written.map_or(0, |last| last + 1);
    let counted = usize::try_from(taken).map_or(count, |taken| taken.min(count));
    let answers = &answers[..written.max(counted)];
    Ran {
        taken,
        answers: answers.iter().map(|answer| answer_of(answer)).collect(),
    }
}

/// A command's number, the id or core, and the priority.
pub fn numbers(command: Command) -> (u16, u16, u16) {
    match command {
        Command::SetSourcePriority(id, p) => (0, id.0, p),
        Command::Mask(id) => (1, id.0, 0),
        Command::Unmask(id) => (2, id.0, 0),
        Command::SetCorePriority(core, p) => (3, core.0, p),
        Command::Trigger(id) => (4, id.0, 0),
        Command::Claim(core) => (5, core.0, 0),
        Command::Redeliver(id) => (6, id.0, 0),
        Command::Complete(id) => (7, id.0, 0),
    }
}

/// A command's bytes, as docs/ENCODING.md lays them out.
pub fn encoded(command: Command) -> [u8; 5] {
    let (number, at, priority) = numbers(command);
    let ([a, b], [c, d]) = (at.to_le_bytes(), priority.to_le_bytes());
    [number as u8, a, b, c, d]
}

/// The bytes of an entry of a list.
pub fn entry_bytes(entry: Listed) -> [u8; COMMAND_SIZE] {
    match entry {
        Listed::Command(command) => encoded(command),
        Listed::Unreadable {
            number,
            at,
            priority,
        } => {
            let ([a, b], [c, d]) = (at.to_le_bytes(), priority.to_le_bytes());
            [number, a, b, c, d]
        }
    }
}

/// The command of these bytes, of which the first is at most 7.
pub fn command_of(bytes: &[u8]) -> Command {
    let at = u16::from_le_bytes([bytes[1], bytes[2]]);
    let p = u16::from_le_bytes([bytes[3], bytes[4]]);
    match bytes[0] {
        0 => Command::SetSourcePriority(SourceId(at), p),
        1 => Command::Mask(SourceId(at)),
        2 => Command::Unmask(SourceId(at)),
        3 => Command::SetCorePriority(CoreNumber(at), p),
        4 => Command::Trigger(SourceId(at)),
        5 => Command::Claim(CoreNumber(at)),
        6 => Command::Redeliver(SourceId(at)),
        _ => Command::Complete(SourceId(at)),
    }
}

/// A state's bytes, as docs/ENCODING.md lays them out.
pub fn bytes_of(controller: &Controller) -> Vec<u8> {
    let mut bytes = Vec::with_capacity(STATE_SIZE);
    bytes.extend(controller.n.to_le_bytes());
    bytes.extend(controller.m.to_le_bytes());
    for source in &controller.sources {
        bytes.extend(source.configured.to_le_bytes());
        bytes.extend([source.masked, source.pending, source.delivered].map(u8::from));
        bytes.extend(source.request.to_le_bytes());
        bytes.extend(source.dropped.to_le_bytes());
    }
    for core in &controller.cores {
        bytes.extend(core.configured.to_le_bytes());
        bytes.extend([core.message.filled, core.message.dirty].map(u8::from));
        bytes.extend(core.message.id.to_le_bytes());
        bytes.extend(core.message.priority.to_le_bytes());
    }
    bytes
}

/// The state that the library's bytes encode.
pub fn controller_of(bytes: &[u8]) -> Controller {
    let word = |at: usize| u16::from_le_bytes([bytes[at], bytes[at + 1]]);
    let flag = |at: usize| bytes[at] == 1;
    let mut controller = Controller::reset(word(0), word(2));
    for (i, source) in controller.sources.iter_mut().enumerate() {
        let at = SOURCES_FROM + SOURCE_SIZE * i;
        *source = Source {
            configured: word(at),
            masked: flag(at + 2),
            pending: flag(at + 3),
            delivered: flag(at + 4),
            request: word(at + 5),
            dropped: word(at + 7),
        };
    }
    for (k, core) in controller.cores.iter_mut().enumerate() {
        let at = CORES_FROM + CORE_SIZE * k;
        core.configured = word(at);
        core.message = MessageBox {
            filled: flag(at + 2),
            dirty: flag(at + 3),
            id: word(at + 4),
            priority: word(at + 6),
        };
    }
    controller
}

fn unpacked(packed: u64) -> Answer {
    Answer {
        number: packed as u8,
        id: (packed >> 8) as u16,
        cycles: (packed >> 24) as u16,
    }
}

/// The answer of these bytes, as docs/ENCODING.md lays them out.
pub fn answer_of(bytes: &[u8]) -> Answer {
    Answer {
        number: bytes[0],
        id: u16::from_le_bytes([bytes[1], bytes[2]]),
        cycles: u16::from_le_bytes([bytes[3], bytes[4]]),
    }
}

/// An answer's bytes.
pub fn answer_bytes(answer: Answer) -> [u8; ANSWER_SIZE] {
    let ([a, b], [c, d]) = (answer.id.to_le_bytes(), answer.cycles.to_le_bytes());
    [answer.number, a, b, c, d]
}

/// A source record in the wrapper's form.
pub fn lent_source(source: &Source) -> psic::Source {
    psic::Source {
        configured: source.configured,
        masked: source.masked,
        pending: source.pending,
        delivered: source.delivered,
        priority: source.request,
        dropped: source.dropped,
    }
}

/// A core record in the wrapper's form.
pub fn lent_core(core: &Core) -> psic::Core {
    psic::Core {
        configured: core.configured,
        message: psic::MessageBox {
            filled: core.message.filled,
            dirty: core.message.dirty,
            source: psic::SourceId(core.message.id),
            priority: core.message.priority,
        },
    }
}

/// A core record of the wrapper in the reference's form.
pub fn core_of(core: &psic::Core) -> Core {
    Core {
        configured: core.configured,
        message: MessageBox {
            filled: core.message.filled,
            dirty: core.message.dirty,
            id: core.message.source.0,
            priority: core.message.priority,
        },
    }
}
