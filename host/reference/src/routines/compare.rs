//! Two simulations side by side on one workload, and the first difference between them.

use std::fmt;

use super::damage;
use super::runs::{self, Mix, Run};
use super::{violated, Call, Listed, Routines, Simulation};
use crate::compare::{differing_fields, first_apart, write_sides, Place, NOTHING};
use crate::generate;
use crate::model::Ran;
use crate::random::Random;
use crate::records::Answer;

/// What every simulation of the routines offers, so that one workload runs through any of them.
pub trait Simulator {
    /// A simulation with its table of handovers, in a form of its own.
    type State;

    /// The name in reports.
    fn name(&self) -> String;

    /// Makes a fresh simulation without a handover and answers the number. With a number other than
    /// 0 the state isn't looked at.
    fn make(&self, n: u16, m: u16) -> (u8, Self::State);

    /// Runs one call, on a sound simulation or not, and counts its handover.
    fn call(&self, state: &mut Self::State, call: Call) -> Answer;

    /// Runs a list up to the first entry that is no call: what comes before it, unless there is a
    /// call for it.
    fn run_listed(&self, state: &mut Self::State, list: &[Listed]) -> Ran {
        let calls = list.iter().map_while(|entry| entry.call());
        let answers: Vec<Answer> = calls.map(|call| self.call(state, call)).collect();
        Ran {
            taken: answers.len() as u64,
            answers,
        }
    }

    /// Takes over a simulation as it is, sound or not.
    fn load(&self, simulation: &Simulation) -> Self::State;

    /// Writes the simulation out, field by field.
    fn read(&self, state: &Self::State) -> Simulation;
}

/// The reference simulation.
#[derive(Clone, Copy, Debug)]
pub struct Reference;

impl Simulator for Reference {
    type State = Simulation;

    fn name(&self) -> String {
        "reference".to_string()
    }

    fn make(&self, n: u16, m: u16) -> (u8, Simulation) {
        let (number, routines) = super::make(n, m);
        let made = Simulation::fresh(routines.controller.n, routines.controller.m);
        (number, made)
    }

    fn call(&self, state: &mut Simulation, call: Call) -> Answer {
        state.call(call)
    }

    fn load(&self, simulation: &Simulation) -> Simulation {
        simulation.clone()
    }

    fn read(&self, state: &Simulation) -> Simulation {
        state.clone()
    }
}

/// What both were put to.
#[derive(Clone, Debug, PartialEq, Eq)]
pub enum Put {
    /// A making of a fresh simulation.
    Make {
        /// The number of sources.
        n: u16,
        /// The number of cores.
        m: u16,
    },
    /// One call.
    Call(Call),
    /// A list at once.
    List(Vec<Listed>),
}

/// The first difference between two simulations.
#[derive(Clone, Debug, PartialEq, Eq)]
pub struct Difference {
    /// The seed of the workload.
    pub seed: u64,
    /// The part of the workload.
    pub part: String,
    /// The place in that part; of a broken simulation, its place.
    pub index: usize,
    /// What was answered or done differently.
    pub put: Put,
    /// One side's name and answer; of a list, the first answers that differ.
    pub left: (String, Answer),
    /// The other side's name and answer.
    pub right: (String, Answer),
    /// What differs besides, with both values.
    pub fields: Vec<String>,
}

impl fmt::Display for Difference {
    fn fmt(&self, f: &mut fmt::Formatter<'_>) -> fmt::Result {
        writeln!(
            f,
            "seed {}, {}, index {}: {:?}",
            self.seed, self.part, self.index, self.put
        )?;
        write_sides(f, [&self.left, &self.right], &self.fields)
    }
}

/// Two simulations and the seed of the workload they are put to.
pub struct Comparison<'a, L: Simulator, R: Simulator> {
    /// One of them.
    pub left: &'a L,
    /// The other.
    pub right: &'a R,
    /// The seed of the workload.
    pub seed: u64,
}

impl<L: Simulator, R: Simulator> Comparison<'_, L, R> {
    /// Runs the whole workload that the seed determines: makings, a run of this length from a fresh
    /// simulation by single calls and as one list, sound and broken simulations made from its end,
    /// with any counts of dropped triggers, and lists on all of these with tables as a host may hand
    /// them in.
    pub fn round(&self, length: usize) -> Option<Difference> {
        let mut random = Random::new(self.seed);
        let (n, m) = runs::sizes(&mut random);
        let mix = random.pick(&[Mix::Even, Mix::Turnover, Mix::Handing, Mix::Handing]);
        let run = runs::run(random.bits(), n, m, length, mix);
        let end = runs::counted(&mut random, &runs::end(&run).routines);
        self.makings(&mut random)
            .or_else(|| self.run(&run))
            .or_else(|| self.list(&mut random, &run))
            .or_else(|| self.dropping(&mut random, &end))
            .or_else(|| self.broken(&mut random, &end))
            .or_else(|| self.lists(&mut random, &end))
    }

    /// Makes 8 simulations, sizes in range and out of it.
    pub fn makings(&self, random: &mut Random) -> Option<Difference> {
        let part = "makings";
        (0..8).find_map(|index| {
            let (n, m) = generate::any_sizes(random);
            self.make(Place { part, index }, n, m)
        })
    }

    /// Runs a run from a fresh simulation, call by call.
    pub fn run(&self, run: &Run) -> Option<Difference> {
        let Run { n, m, .. } = *run;
        let part = &format!("run at n = {n}, m = {m}");
        let made = self.make(Place { part, index: 0 }, n, m);
        if made.is_some() {
            return made;
        }
        let (_, mut left) = self.left.make(n, m);
        let (_, mut right) = self.right.make(n, m);
        let mut calls = run.calls.iter().enumerate();
        calls.find_map(|(index, &call)| {
            self.call(Place { part, index }, &mut left, &mut right, call)
        })
    }

    /// Runs a run from fresh routines as one list, with a table as a host may hand it in.
    pub fn list(&self, random: &mut Random, run: &Run) -> Option<Difference> {
        let Run { n, m, .. } = *run;
        let part = &format!("list at n = {n}, m = {m}");
        let list: Vec<Listed> = run.calls.iter().copied().map(Listed::Call).collect();
        let start = with_a_table(random, Routines::fresh(n, m));
        self.run_listed(Place { part, index: 0 }, &start, &list)
    }

    /// Goes on from sound routines with many triggers that are refused by 6, by single calls and as
    /// one list.
    pub fn dropping(&self, random: &mut Random, sound: &Routines) -> Option<Difference> {
        let (n, m) = (sound.controller.n, sound.controller.m);
        let part = &format!("dropped triggers at n = {n}, m = {m}");
        let mix = random.pick(&Mix::ALL);
        let calls = runs::dropping_from(random.bits(), sound, 60, mix);
        let start = with_a_table(random, sound.clone());
        let (mut left, mut right) = (self.left.load(&start), self.right.load(&start));
        let mut each = calls.iter().enumerate();
        let single = each.find_map(|(index, &call)| {
            self.call(Place { part, index }, &mut left, &mut right, call)
        });
        let list: Vec<Listed> = calls.iter().copied().map(Listed::Call).collect();
        single.or_else(|| self.run_listed(Place { part, index: 0 }, &start, &list))
    }

    /// Puts one call of each kind, and all of them as a list, to broken simulations made from a
    /// sound one, and to some one field away from it, of which a few are sound.
    pub fn broken(&self, random: &mut Random, sound: &Routines) -> Option<Difference> {
        let mut made = broken_from(random, sound);
        made.extend((0..16).map(|_| damage::one_field_away(random, sound)));
        let mut made = made.into_iter().enumerate();
        made.find_map(|(index, routines)| {
            let part = &format!("simulation that violates {:?}", violated(&routines));
            let place = Place { part, index };
            let (n, m) = (routines.controller.n, routines.controller.m);
            let calls = runs::one_of_each(random, n, m);
            let start = with_a_table(random, routines);
            let single = calls.iter().find_map(|&call| {
                let (mut left, mut right) = (self.left.load(&start), self.right.load(&start));
                self.call(place, &mut left, &mut right, call)
            });
            single.or_else(|| self.run_listed(place, &start, &calls.map(Listed::Call)))
        })
    }

    /// Puts lists of several lengths, whole ones and ones with a number in them that names no call,
    /// to sound routines and to broken ones made from them.
    pub fn lists(&self, random: &mut Random, sound: &Routines) -> Option<Difference> {
        let broken = damage::damaged_singly(random, sound);
        let broken = broken.into_iter().map(|(_, routines)| routines);
        let mut starts = std::iter::once(sound.clone()).chain(broken).enumerate();
        starts.find_map(|(index, routines)| {
            let part = &format!("lists on one that violates {:?}", violated(&routines));
            let start = with_a_table(random, routines);
            let lists = runs::lists_from(random, sound);
            let mut lists = lists.iter();
            lists.find_map(|list| self.run_listed(Place { part, index }, &start, list))
        })
    }

    fn make(&self, place: Place, n: u16, m: u16) -> Option<Difference> {
        let (left_number, left) = self.left.make(n, m);
        let (right_number, right) = self.right.make(n, m);
        let fields = match (left_number, right_number) {
            (0, 0) => differing(&self.left.read(&left), &self.right.read(&right)),
            _ => Vec::new(),
        };
        let answer = |number| Answer { number, ..NOTHING };
        let answers = [answer(left_number), answer(right_number)];
        self.difference(place, || Put::Make { n, m }, answers, fields)
    }

    fn call(
        &self,
        place: Place,
        left: &mut L::State,
        right: &mut R::State,
        call: Call,
    ) -> Option<Difference> {
        let answers = [self.left.call(left, call), self.right.call(right, call)];
        let fields = differing(&self.left.read(left), &self.right.read(right));
        self.difference(place, || Put::Call(call), answers, fields)
    }

    fn run_listed(&self, place: Place, from: &Simulation, list: &[Listed]) -> Option<Difference> {
        let (mut left, mut right) = (self.left.load(from), self.right.load(from));
        let left_ran = self.left.run_listed(&mut left, list);
        let right_ran = self.right.run_listed(&mut right, list);
        let mut fields = differing(&self.left.read(&left), &self.right.read(&right));
        let counts = |ran: &Ran| (ran.taken, ran.answers.len());
        if counts(&left_ran) != counts(&right_ran) {
            let both = (counts(&left_ran), counts(&right_ran));
            fields.push(format!("calls taken and answers written: {both:?}"));
        }
        let answers = first_apart(&left_ran, &right_ran);
        self.difference(place, || Put::List(list.to_vec()), answers, fields)
    }

    fn difference(
        &self,
        place: Place,
        put: impl FnOnce() -> Put,
        [left, right]: [Answer; 2],
        fields: Vec<String>,
    ) -> Option<Difference> {
        if left == right && fields.is_empty() {
            return None;
        }
        Some(Difference {
            seed: self.seed,
            part: place.part.to_string(),
            index: place.index,
            put: put(),
            left: (self.left.name(), left),
            right: (self.right.name(), right),
            fields,
        })
    }
}

/// Broken simulations made from a sound one: each damage singly and in pairs.
pub fn broken_from(random: &mut Random, sound: &Routines) -> Vec<Routines> {
    let single = damage::damaged_singly(random, sound);
    let paired = damage::damaged_in_pairs(random, sound);
    let single = single.into_iter().map(|(_, routines)| routines);
    single
        .chain(paired.into_iter().map(|(_, routines)| routines))
        .collect()
}

/// Routines with a table as a host may hand it in.
fn with_a_table(random: &mut Random, routines: Routines) -> Simulation {
    Simulation {
        routines,
        handovers: runs::table(random),
    }
}

/// The fields in which two simulations differ, each with both values; none only if they are equal.
pub fn differing(left: &Simulation, right: &Simulation) -> Vec<String> {
    if left == right {
        return Vec::new();
    }
    let (before, after) = (&left.routines, &right.routines);
    let mut fields = differing_fields(&before.controller, &after.controller);
    for (core, (left, right)) in before.active.iter().zip(&after.active).enumerate() {
        if left != right {
            fields.push(format!("active on core {core}: {}, {}", left.0, right.0));
        }
    }
    for (place, (left, right)) in before.holder.iter().zip(&after.holder).enumerate() {
        if left != right {
            fields.push(format!("holder of {}: {left:?}, {right:?}", place + 1));
        }
    }
    let rows = left.handovers.cells.iter().zip(&right.handovers.cells);
    for (row, (left, right)) in rows.enumerate() {
        for (column, (left, right)) in left.iter().zip(right).enumerate() {
            if left != right {
                fields.push(format!("handovers {row} to {column}: {left}, {right}"));
            }
        }
    }
    if fields.is_empty() {
        fields.push("a field that isn't listed".to_string());
    }
    fields
}
