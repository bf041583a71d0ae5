//! Two models side by side on one workload, and the first difference between them.

use std::fmt;

use crate::damage;
use crate::generate::{self, History, Mix};
use crate::model::{Model, Ran};
use crate::random::Random;
use crate::records::{Answer, Command, Controller, Core, Listed, MessageBox, Source};
use crate::well_formed::violated;

/// A call that both models were put to.
#[derive(Clone, Debug, PartialEq, Eq)]
pub enum Call {
    /// A making of a fresh controller.
    Make {
        /// The number of sources.
        n: u16,
        /// The number of cores.
        m: u16,
    },
    /// One command.
    Execute(Command),
    /// A list in one call.
    Run(Vec<Listed>),
    /// The search over a lent list.
    HighestIn(Vec<Source>),
    /// The ranges that this search looks into.
    RangesIn(Vec<Source>),
    /// The claim of a lent record.
    ClaimInPlace(Core),
}

/// The first difference between two models.
#[derive(Clone, Debug, PartialEq, Eq)]
pub struct Difference {
    /// The seed of the workload.
    pub seed: u64,
    /// The part of the workload that the call belongs to.
    pub part: String,
    /// The call's position in that part; of a broken state, the state's position.
    pub index: usize,
    /// The call that was answered differently.
    pub call: Call,
    /// One model's name and answer. A call that counts no cycles answers 0 of them.
    pub left: (String, Answer),
    /// The other model's name and answer.
    pub right: (String, Answer),
    /// Whether what was handed back besides these answers is equal, as a whole: states or records, and of a list how many commands it
    /// took and how many answers it wrote.
    pub same_state: bool,
    /// The fields in which they differ, with both values. For the reader alone: what isn't listed here differs all the same.
    pub fields: Vec<String>,
}

impl fmt::Display for Difference {
    fn fmt(&self, f: &mut fmt::Formatter<'_>) -> fmt::Result {
        writeln!(
            f,
            "seed {}, {}, index {}: {:?}",
            self.seed, self.part, self.index, self.call
        )?;
        write_sides(f, [&self.left, &self.right], &self.fields)?;
        if !self.same_state && self.fields.is_empty() {
            writeln!(f, "  the states differ in a field that isn't listed")?;
        }
        Ok(())
    }
}

/// Both sides' names and answers, and the fields that differ.
pub(crate) fn write_sides(
    f: &mut fmt::Formatter<'_>,
    sides: [&(String, Answer); 2],
    fields: &[String],
) -> fmt::Result {
    for (name, answer) in sides {
        let Answer { number, id, cycles } = answer;
        writeln!(f, "  {name}: number {number}, id {id}, cycles {cycles}")?;
    }
    fields.iter().try_for_each(|field| writeln!(f, "  {field}"))
}

/// Two models and the seed of the workload they are put to.
pub struct Comparison<'a, L: Model, R: Model> {
    /// One model.
    pub left: &'a L,
    /// The other.
    pub right: &'a R,
    /// The seed of the workload.
    pub seed: u64,
}

/// Where a call stands in the workload.
#[derive(Clone, Copy)]
pub(crate) struct Place<'a> {
    pub(crate) part: &'a str,
    pub(crate) index: usize,
}

/// No answer to show.
pub(crate) const NOTHING: Answer = Answer {
    number: 0,
    id: 0,
    cycles: 0,
};

/// The first answers to two lists that differ, or none to show.
pub(crate) fn first_apart(left: &Ran, right: &Ran) -> [Answer; 2] {
    let mut pairs = left.answers.iter().zip(&right.answers);
    match pairs.find(|(left, right)| left != right) {
        Some((&left, &right)) => [left, right],
        None => [NOTHING; 2],
    }
}

/// What was handed back by both models: whether it is equal as a whole, and the fields that differ.
struct HandedBack {
    equal: bool,
    fields: Vec<String>,
}

impl HandedBack {
    /// Nothing is handed back but the answer.
    const NOTHING: HandedBack = HandedBack {
        equal: true,
        fields: Vec::new(),
    };

    fn states(left: &Controller, right: &Controller) -> HandedBack {
        HandedBack {
            equal: left == right,
            fields: differing_fields(left, right),
        }
    }

    /// The states after a list, the commands taken and the answers written.
    fn lists(left: (&Controller, &Ran), right: (&Controller, &Ran)) -> HandedBack {
        let mut fields = Fields::default();
        let written = |ran: &Ran| ran.answers.len();
        fields.field("commands taken", left.1.taken, right.1.taken);
        fields.field("answers written", written(left.1), written(right.1));
        let states = HandedBack::states(left.0, right.0);
        HandedBack {
            equal: states.equal && fields.differing.is_empty(),
            fields: [fields.differing, states.fields].concat(),
        }
    }

    fn cores(left: &Core, right: &Core) -> HandedBack {
        let mut fields = Fields::default();
        fields.core("core", left, right);
        HandedBack {
            equal: left == right,
            fields: fields.differing,
        }
    }
}

impl<L: Model, R: Model> Comparison<'_, L, R> {
    /// Runs the whole workload that the seed determines: makings of any sizes, a history of this
    /// length by single commands and as one list, sound and broken states made from its end, with any
    /// counts of dropped triggers, lists from there and from such states, and lent records.
    pub fn round(&self, length: usize) -> Option<Difference> {
        let mut random = Random::new(self.seed);
        let (n, m) = generate::sizes(&mut random);
        let mix = random.pick(&Mix::ALL);
        let history = generate::history(random.bits(), n, m, length, mix);
        let end = generate::counted(&mut random, &generate::final_state(&history));
        self.makings(&mut random)
            .or_else(|| self.history(&history))
            .or_else(|| self.list(&history))
            .or_else(|| self.dropping(&mut random, &end))
            .or_else(|| self.set_apart(&mut random, &end))
            .or_else(|| self.broken_states(&mut random, &end))
            .or_else(|| self.lists(&mut random, &end))
            .or_else(|| self.borrowed_records(&mut random))
    }

    /// Makes 16 controllers, sizes in range and out of it.
    pub fn makings(&self, random: &mut Random) -> Option<Difference> {
        let part = "makings";
        (0..16).find_map(|index| {
            let (n, m) = generate::any_sizes(random);
            self.make(Place { part, index }, n, m)
        })
    }

    /// Runs a history from a fresh controller.
    pub fn history(&self, history: &History) -> Option<Difference> {
        let History { n, m, .. } = *history;
        let part = &format!("history at n = {n}, m = {m}");
        let made = self.make(Place { part, index: 0 }, n, m);
        if made.is_some() {
            return made;
        }
        let (_, mut left) = self.left.make(n, m);
        let (_, mut right) = self.right.make(n, m);
        let mut commands = history.commands.iter().enumerate();
        commands.find_map(|(index, &command)| {
            self.execute(Place { part, index }, &mut left, &mut right, command)
        })
    }

    /// Runs a history from a fresh controller as one list.
    pub fn list(&self, history: &History) -> Option<Difference> {
        self.list_from(&Controller::reset(history.n, history.m), &history.commands)
    }

    /// Runs one list from a state, sound or not.
    pub fn list_from(&self, state: &Controller, commands: &[Command]) -> Option<Difference> {
        let part = &format!("list at n = {}, m = {}", state.n, state.m);
        self.run(Place { part, index: 0 }, state, &listed(commands))
    }

    /// Goes on from a sound state with many triggers that are refused by 6, by single commands and as one list.
    pub fn dropping(&self, random: &mut Random, sound: &Controller) -> Option<Difference> {
        let part = &format!("dropped triggers at n = {}, m = {}", sound.n, sound.m);
        let mix = random.pick(&Mix::ALL);
        let commands = generate::dropping_from(random.bits(), sound, 60, mix);
        self.both_ways(part, sound, &commands)
    }

    /// Goes on from a sound state whose requests differ from their sources in priority, by single commands and as one list.
    pub fn set_apart(&self, random: &mut Random, sound: &Controller) -> Option<Difference> {
        let state = generate::set_apart(random, sound);
        let part = &format!("sources set apart at n = {}, m = {}", state.n, state.m);
        let mix = random.pick(&Mix::ALL);
        let commands = generate::commands_from(random.bits(), &state, 60, mix);
        self.both_ways(part, &state, &commands)
    }

    /// Runs commands from a state, one by one and as one list.
    fn both_ways(&self, part: &str, from: &Controller, commands: &[Command]) -> Option<Difference> {
        let (mut left, mut right) = (self.left.load(from), self.right.load(from));
        let mut each = commands.iter().enumerate();
        let single = each.find_map(|(index, &command)| {
            self.execute(Place { part, index }, &mut left, &mut right, command)
        });
        single.or_else(|| self.run(Place { part, index: 0 }, from, &listed(commands)))
    }

    /// Puts lists of several lengths, whole ones and ones with a number above 7 in them, to a sound state, to one made from it whose
    /// requests differ from their sources in priority, and to such that violate each clause.
    pub fn lists(&self, random: &mut Random, sound: &Controller) -> Option<Difference> {
        let broken = damage::violated_singly(random, sound);
        let broken = broken.into_iter().map(|(_, state)| state);
        let apart = generate::set_apart(random, sound);
        let mut states = [sound.clone(), apart].into_iter().chain(broken).enumerate();
        states.find_map(|(index, state)| {
            let part = &format!("lists on a state that violates {:?}", violated(&state));
            let lists = generate::lists_from(random, sound);
            let mut lists = lists.iter();
            lists.find_map(|list| self.run(Place { part, index }, &state, list))
        })
    }

    /// Puts one command of each kind, and all of them as a list, to broken states made from a sound one.
    pub fn broken_states(&self, random: &mut Random, sound: &Controller) -> Option<Difference> {
        let mut states = damage::broken_states(random, sound).into_iter().enumerate();
        states.find_map(|(index, state)| {
            let part = &format!("state that violates {:?}", violated(&state));
            let place = Place { part, index };
            let commands = generate::one_of_each(random, state.n, state.m);
            let single = commands.iter().find_map(|&command| {
                let mut left = self.left.load(&state);
                let mut right = self.right.load(&state);
                self.execute(place, &mut left, &mut right, command)
            });
            single.or_else(|| self.run(place, &state, &listed(&commands)))
        })
    }

    /// Puts the lent forms to 64 lists and records, of any content.
    pub fn borrowed_records(&self, random: &mut Random) -> Option<Difference> {
        let part = "lent records";
        (0..64).find_map(|index| {
            let sources = generate::borrowed_sources(random);
            let core = generate::borrowed_core(random);
            self.lent_list(Place { part, index }, &sources)
                .or_else(|| self.claim_in_place(Place { part, index }, core))
        })
    }

    /// Puts both forms on a lent list to lists of every length up to a little over the longest.
    pub fn lists_of_every_length(&self, random: &mut Random) -> Option<Difference> {
        (0..=130).find_map(|length| {
            let part = &format!("lists of {length}");
            let mut lists = generate::lists_of(random, length).into_iter().enumerate();
            lists.find_map(|(index, list)| self.lent_list(Place { part, index }, &list))
        })
    }

    /// A refused making hands back a state that depends on the form of the call, so that it isn't compared.
    fn make(&self, place: Place, n: u16, m: u16) -> Option<Difference> {
        let (left_number, left) = self.left.make(n, m);
        let (right_number, right) = self.right.make(n, m);
        let handed_back = if left_number == 0 && right_number == 0 {
            HandedBack::states(&self.left.read(&left), &self.right.read(&right))
        } else {
            HandedBack::NOTHING
        };
        self.difference(
            place,
            || Call::Make { n, m },
            without_cycles((left_number, 0)),
            without_cycles((right_number, 0)),
            handed_back,
        )
    }

    fn execute(
        &self,
        place: Place,
        left: &mut L::State,
        right: &mut R::State,
        command: Command,
    ) -> Option<Difference> {
        let left_answer = self.left.execute(left, command);
        let right_answer = self.right.execute(right, command);
        self.difference(
            place,
            || Call::Execute(command),
            left_answer,
            right_answer,
            HandedBack::states(&self.left.read(left), &self.right.read(right)),
        )
    }

    /// A list from this state, in one call each. A difference shows the first answers that differ.
    fn run(&self, place: Place, from: &Controller, list: &[Listed]) -> Option<Difference> {
        let (mut left, mut right) = (self.left.load(from), self.right.load(from));
        let left_ran = self.left.run_listed(&mut left, list);
        let right_ran = self.right.run_listed(&mut right, list);
        let [left_answer, right_answer] = first_apart(&left_ran, &right_ran);
        self.difference(
            place,
            || Call::Run(list.to_vec()),
            left_answer,
            right_answer,
            HandedBack::lists(
                (&self.left.read(&left), &left_ran),
                (&self.right.read(&right), &right_ran),
            ),
        )
    }

    fn lent_list(&self, place: Place, sources: &[Source]) -> Option<Difference> {
        let highest = self.difference(
            place,
            || Call::HighestIn(sources.to_vec()),
            without_cycles(self.left.highest_in(sources)),
            without_cycles(self.right.highest_in(sources)),
            HandedBack::NOTHING,
        );
        let ranges = || {
            self.difference(
                place,
                || Call::RangesIn(sources.to_vec()),
                without_cycles(self.left.ranges_in(sources)),
                without_cycles(self.right.ranges_in(sources)),
                HandedBack::NOTHING,
            )
        };
        highest.or_else(ranges)
    }

    fn claim_in_place(&self, place: Place, lent: Core) -> Option<Difference> {
        let (mut left, mut right) = (lent, lent);
        let left_answer = self.left.claim_in_place(&mut left);
        let right_answer = self.right.claim_in_place(&mut right);
        self.difference(
            place,
            || Call::ClaimInPlace(lent),
            without_cycles(left_answer),
            without_cycles(right_answer),
            HandedBack::cores(&left, &right),
        )
    }

    fn difference(
        &self,
        place: Place,
        call: impl FnOnce() -> Call,
        left: Answer,
        right: Answer,
        handed_back: HandedBack,
    ) -> Option<Difference> {
        if left == right && handed_back.equal {
            return None;
        }
        Some(Difference {
            seed: self.seed,
            part: place.part.to_string(),
            index: place.index,
            call: call(),
            left: (self.left.name(), left),
            right: (self.right.name(), right),
            same_state: handed_back.equal,
            fields: handed_back.fields,
        })
    }
}

fn listed(commands: &[Command]) -> Vec<Listed> {
    commands.iter().copied().map(Listed::Command).collect()
}

fn without_cycles((number, id): (u8, u16)) -> Answer {
    Answer {
        number,
        id,
        ..NOTHING
    }
}

/// The fields in which two states differ, each with both values.
pub fn differing_fields(left: &Controller, right: &Controller) -> Vec<String> {
    let mut fields = Fields::default();
    if left == right {
        return fields.differing;
    }
    fields.field("n", left.n, right.n);
    fields.field("m", left.m, right.m);
    for (position, (left, right)) in left.sources.iter().zip(&right.sources).enumerate() {
        fields.source(&format!("source {}", position + 1), left, right);
    }
    for (number, (left, right)) in left.cores.iter().zip(&right.cores).enumerate() {
        fields.core(&format!("core {number}"), left, right);
    }
    fields.differing
}

#[derive(Default)]
struct Fields {
    differing: Vec<String>,
}

impl Fields {
    fn field<T: PartialEq + fmt::Debug>(&mut self, name: &str, left: T, right: T) {
        if left != right {
            self.differing.push(format!("{name}: {left:?}, {right:?}"));
        }
    }

    fn source(&mut self, name: &str, left: &Source, right: &Source) {
        let of = |field: &str| format!("{name} {field}");
        self.field(&of("configured"), left.configured, right.configured);
        self.field(&of("masked"), left.masked, right.masked);
        self.field(&of("pending"), left.pending, right.pending);
        self.field(&of("delivered"), left.delivered, right.delivered);
        self.field(&of("request"), left.request, right.request);
        self.field(&of("dropped"), left.dropped, right.dropped);
    }

    fn core(&mut self, name: &str, left: &Core, right: &Core) {
        self.field(
            &format!("{name} configured"),
            left.configured,
            right.configured,
        );
        self.message(&format!("{name} box"), &left.message, &right.message);
    }

    fn message(&mut self, name: &str, left: &MessageBox, right: &MessageBox) {
        let of = |field: &str| format!("{name} {field}");
        self.field(&of("filled"), left.filled, right.filled);
        self.field(&of("dirty"), left.dirty, right.dirty);
        self.field(&of("id"), left.id, right.id);
        self.field(&of("priority"), left.priority, right.priority);
    }
}
