//! A list is its commands one by one, and a replay is its reading run from a fresh controller: the library's calls against one another,
//! byte for byte. The same lists go to the reference.

use psic::recording::room;
use psic::{raw, ANSWER_SIZE, COMMAND_SIZE, STATE_SIZE};
use psic_reference::compare::Comparison;
use psic_reference::damage;
use psic_reference::generate::{self, Mix};
use psic_reference::model::{Model, Reference};
use psic_reference::random::{run_seed, run_seeds, Random};
use psic_reference::records::{Controller, Listed};
use psic_reference::texts::{edges, Texts};
use psic_reference::well_formed::{well_formed, Clause};
use psic_trials::library::{answer_bytes, bytes_of, entry_bytes, Library};
use psic_trials::peer::Peer;
use psic_trials::workload;
use psic_trials::wrapper::Wrapper;

use crate::slips::{with_slip, Slip};

/// The sizes that the library's speed is measured at.
const SIZES: [(u16, u16); 5] = [(1, 1), (8, 1), (32, 2), (128, 4), (128, 32)];

/// What buffers hold before a call.
const PATTERN: u8 = 0xc3;

/// What a list leaves: the count, and the bytes of the state and of the answers, with what lies behind them.
#[derive(Debug, PartialEq, Eq)]
struct Left {
    taken: u64,
    state: Vec<u8>,
    answers: Vec<u8>,
}

impl Left {
    /// Before a list on this state, with room for so many answers.
    fn before(state: &[u8], room: usize) -> Left {
        Left {
            taken: 0,
            state: state.to_vec(),
            answers: vec![PATTERN; ANSWER_SIZE * room],
        }
    }

    /// The same as another one, or a word on the first thing that isn't.
    fn same_as(&self, other: &Left) -> Result<(), String> {
        let at = |left: &[u8], right: &[u8]| {
            let differs = left.iter().zip(right).position(|(a, b)| a != b);
            format!("{differs:?}")
        };
        if self.taken != other.taken {
            return Err(format!("taken: {}, {}", self.taken, other.taken));
        }
        if self.answers != other.answers {
            let at = at(&self.answers, &other.answers);
            return Err(format!("answers, first at {at}"));
        }
        if self.state != other.state {
            let at = at(&self.state, &other.state);
            return Err(format!("states, first at {at}"));
        }
        Ok(())
    }
}

/// By one call.
fn by_list(state: &[u8], list: &[Listed]) -> Left {
    let mut left = Left::before(state, list.len());
    let list: Vec<u8> = list.iter().flat_map(|&entry| entry_bytes(entry)).collect();
    left.taken = raw::run(&mut left.state, &list, &mut left.answers);
    left
}

/// By a call for each entry, up to one that the library can't read.
fn one_by_one(state: &[u8], list: &[Listed]) -> Left {
    let mut left = Left::before(state, list.len());
    let answers = left.answers.chunks_exact_mut(ANSWER_SIZE);
    for (&entry, answer) in list.iter().zip(answers) {
        let [number, a, b, c, d] = entry_bytes(entry);
        let (at, priority) = (u16::from_le_bytes([a, b]), u16::from_le_bytes([c, d]));
        let packed = raw::execute(&mut left.state, u16::from(number), at, priority);
        if packed == 255 {
            break;
        }
        answer.copy_from_slice(&packed.to_le_bytes()[..ANSWER_SIZE]);
        left.taken += 1;
    }
    left
}

/// By the reference, command by command, its state and its answers in the library's bytes.
fn by_reference(state: &Controller, list: &[Listed]) -> Left {
    let mut after = state.clone();
    let ran = Reference.run_listed(&mut after, list);
    let mut left = Left::before(&bytes_of(&after), list.len());
    left.taken = ran.taken;
    let places = left.answers.chunks_exact_mut(ANSWER_SIZE);
    for (&answer, place) in ran.answers.iter().zip(places) {
        place.copy_from_slice(&answer_bytes(answer));
    }
    left
}

/// The fresh state of these sizes and ends of histories of every mix with any counts of dropped triggers, each with states made from it:
/// itself, one for each clause that it has a place for, and some that are one field away.
fn states(random: &mut Random, n: u16, m: u16) -> Vec<(Controller, Vec<Controller>)> {
    let ends = Mix::ALL.map(|mix| {
        let history = generate::history(random.bits(), n, m, 400, mix);
        generate::counted(random, &generate::final_state(&history))
    });
    let sound = [Controller::reset(n, m)].into_iter().chain(ends);
    sound
        .map(|sound| {
            let broken = damage::violated_singly(random, &sound);
            let mut made = vec![sound.clone()];
            made.extend(broken.into_iter().map(|(_, state)| state));
            made.extend((0..8).map(|_| damage::one_field_away(random, &sound)));
            (sound, made)
        })
        .collect()
}

/// How many lists were compared.
#[derive(Debug, Default)]
struct Compared {
    on_sound_states: usize,
    on_unsound_states: usize,
    /// By a number above 7.
    ended: usize,
}

/// Lists of no command, of one, of two and of many, whole and with a number above 7 in them, on sound and unsound states at all sizes: in
/// one call, one by one, and by the reference. Tells the first that differs.
fn compare_lists(seed: u64, compared: &mut Compared) -> Result<(), String> {
    let mut random = Random::new(seed);
    for (n, m) in SIZES {
        for (sound, made) in states(&mut random, n, m) {
            for state in made {
                for list in generate::lists_from(&mut random, &sound) {
                    let bytes = bytes_of(&state);
                    let in_one = by_list(&bytes, &list);
                    let named =
                        |what| format!("seed {seed}, ({n}, {m}): {what}; {list:?} on {state:?}");
                    let each = in_one.same_as(&one_by_one(&bytes, &list));
                    each.map_err(|what| named(format!("one by one, {what}")))?;
                    let reference = in_one.same_as(&by_reference(&state, &list));
                    reference.map_err(|what| named(format!("reference, {what}")))?;
                    compared.ended += usize::from(in_one.taken < list.len() as u64);
                    compared.on_sound_states += usize::from(well_formed(&state));
                    compared.on_unsound_states += usize::from(!well_formed(&state));
                }
            }
        }
    }
    Ok(())
}

#[test]
fn a_list_is_its_commands_one_by_one() {
    let mut compared = Compared::default();
    for seed in run_seeds(12) {
        if let Err(difference) = compare_lists(seed, &mut compared) {
            panic!("{difference}");
        }
    }
    println!("{compared:?}");
    let Compared {
        on_sound_states,
        on_unsound_states,
        ended,
    } = compared;
    assert!(on_sound_states > 1000 && on_unsound_states > 1000 && ended > 1000);
}

/// Both sides are the library's own, so that a slip in either call is told.
#[test]
fn every_slip_of_a_list_or_a_command_is_found_one_by_one() {
    for slip in [
        Slip::ExecuteNumber,
        Slip::ExecuteId,
        Slip::ExecuteCycles,
        Slip::ExecuteState,
        Slip::ExecuteDropped,
        Slip::ExecuteCountsLost,
        Slip::RunNumber,
        Slip::RunCycles,
        Slip::RunState,
        Slip::RunDropped,
        Slip::RunCountsLost,
        Slip::RunCount,
        Slip::RunBehindAnswers,
        Slip::RunStateOfUnsoundStart,
        Slip::RunNumberOfUnsoundStart,
    ] {
        let told = with_slip(slip, || compare_lists(run_seed(), &mut Compared::default()));
        let difference = told.expect_err(&format!("{slip:?}"));
        assert!(difference.contains("one by one"), "{slip:?}: {difference}");
    }
}

/// Long lists, in which the library keeps its numbers over thousands of commands.
#[test]
fn a_long_list_is_its_commands_one_by_one() {
    let mut random = Random::new(run_seed());
    for (n, m) in SIZES {
        for mix in Mix::ALL {
            let seed = random.bits();
            let history = generate::history(seed, n, m, 4000, mix);
            let commands = history.commands.into_iter();
            let list: Vec<Listed> = commands.map(Listed::Command).collect();
            let fresh = bytes_of(&Controller::reset(n, m));
            let in_one = by_list(&fresh, &list);
            let each = in_one.same_as(&one_by_one(&fresh, &list));
            assert_eq!(each, Ok(()), "seed {seed}, ({n}, {m}), {mix:?}");
            assert_eq!(in_one.taken, 4000);
        }
    }
}

/// Every way to the library, and what its speed is held against, at these sizes. Every clause is broken somewhere.
#[test]
fn lists_on_sound_and_unsound_states_agree_with_the_reference() {
    fn compare<M: Model>(model: &M, seed: u64, sound: &Controller) {
        let comparison = Comparison {
            left: &Reference,
            right: model,
            seed,
        };
        let difference = comparison.lists(&mut Random::new(seed), sound);
        if let Some(difference) = difference {
            panic!("{difference}");
        }
    }
    let mut broken: Vec<Clause> = Vec::new();
    for seed in run_seeds(20) {
        for (n, m) in SIZES {
            for mix in Mix::ALL {
                let history = generate::history(seed, n, m, 300, mix);
                let end = generate::final_state(&history);
                let sound = generate::counted(&mut Random::new(seed), &end);
                compare(&Library, seed, &sound);
                compare(&Wrapper, seed, &sound);
                compare(&Peer::Tested, seed, &sound);
                let made = damage::violated_singly(&mut Random::new(seed), &sound);
                broken.extend(made.into_iter().map(|(clause, _)| clause));
            }
        }
    }
    for clause in Clause::ALL {
        assert!(broken.contains(&clause), "{clause:?} is never broken");
    }
}

/// A replay of a text against its reading, a making and a list: report, answers, what lies behind them, and the state.
fn compare_replay(n: u16, m: u16, text: &[u8]) -> Result<(), String> {
    let room = room(text.len());
    let unmade = [PATTERN; STATE_SIZE];
    let mut replayed = Left::before(&unmade, room);
    let report = raw::replay(n, m, text, &mut replayed.state, &mut replayed.answers);
    replayed.taken = u64::from(report.count);

    let (mut commands, mut times) = (vec![0; COMMAND_SIZE * room], vec![0; room]);
    let read = raw::read(text, &mut commands, &mut times);
    let mut run = Left::before(&unmade, room);
    let made = raw::make(n, m, &mut run.state);
    let list = &commands[..COMMAND_SIZE * usize::from(read.count)];
    run.taken = raw::run(&mut run.state, list, &mut run.answers);

    let shown = String::from_utf8_lossy(&text[text.len().saturating_sub(300)..]);
    let named = |what| format!("({n}, {m}): {what}; {shown}");
    if made != 0 || report != read {
        return Err(named(format!("made {made}, {report:?}, {read:?}")));
    }
    replayed.same_as(&run).map_err(named)
}

/// Recordings of histories of every mix, so many texts of all kinds, good and bad, and those made by hand, at all sizes.
fn compare_replays(seed: u64, texts: usize) -> Result<(), String> {
    let mut random = Random::new(seed);
    for (n, m) in SIZES {
        for mix in Mix::ALL {
            let history = generate::history(random.bits(), n, m, 2000, mix);
            let text = workload::recording(&history.commands);
            compare_replay(n, m, text.as_bytes())?;
        }
        let texts = Texts::new(random.bits()).take(texts);
        for text in texts.map(|text| text.bytes).chain(edges()) {
            compare_replay(n, m, &text)?;
        }
    }
    Ok(())
}

#[test]
fn a_replay_is_its_reading_run_from_a_fresh_controller() {
    assert_eq!(compare_replays(run_seed(), 2000), Ok(()));
}

#[test]
fn every_slip_of_a_replay_is_found_by_a_run() {
    for slip in [
        Slip::MakeNumber,
        Slip::MakeState,
        Slip::ReadNumber,
        Slip::ReadOffset,
        Slip::ReadCount,
        Slip::ReadCommand,
        Slip::RunNumber,
        Slip::RunState,
        Slip::RunDropped,
        Slip::RunCountsLost,
        Slip::ReplayNumber,
        Slip::ReplayOffset,
        Slip::ReplayCount,
        Slip::ReplayAnswer,
        Slip::ReplayState,
        Slip::ReplayCountsLost,
        Slip::ReplayBehindAnswers,
    ] {
        let told = with_slip(slip, || compare_replays(run_seed(), 20));
        assert!(told.is_err(), "{slip:?}");
    }
}
