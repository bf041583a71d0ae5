//! The test of a sound state, and the refusal of any other.

use std::collections::HashSet;

use psic_reference::damage;
use psic_reference::generate::{self, Mix};
use psic_reference::random::{run_seed, Random};
use psic_reference::records::{Controller, Core, MessageBox, Source};
use psic_reference::reference::execute;
use psic_reference::well_formed::{violated, well_formed, Clause};

use crate::every_history::{alphabet, for_every_history};
use crate::histories::{trigger, Run};

/// Sound states of many sizes, boxes busy.
fn sound_states(seed: u64, count: usize) -> Vec<Controller> {
    let mut random = Random::new(seed);
    (0..count)
        .map(|_| {
            let (n, m) = generate::sizes(&mut random);
            let length = 50 + random.below(600);
            let history = generate::history(random.bits(), n, m, length, Mix::Busy);
            generate::final_state(&history)
        })
        .collect()
}

/// Every kind of command is refused by 1 with id 0 and 0 cycles, and the state stays as given.
fn assert_refused_by_1(random: &mut Random, broken: &Controller) {
    for command in generate::one_of_each(random, broken.n, broken.m) {
        let mut after = broken.clone();
        let answer = execute(&mut after, command);
        let numbers = (answer.number, answer.id, answer.cycles);
        assert_eq!(numbers, (1, 0, 0), "{command:?} on {broken:?}");
        assert_eq!(after, *broken, "{command:?}");
    }
}

#[test]
fn each_clause_violated_alone_is_refused_by_1() {
    let mut random = Random::new(run_seed());
    let mut alone = Vec::new();
    for sound in sound_states(run_seed(), 150) {
        for (clause, broken) in damage::violated_singly(&mut random, &sound) {
            assert_refused_by_1(&mut random, &broken);
            if violated(&broken) == [clause] {
                alone.push(clause);
            }
        }
    }
    for clause in clauses_that_fail_alone() {
        assert!(alone.contains(&clause), "{clause:?} never violated alone");
    }
}

/// All clauses but one: that a box is above its own core is also said by the clause of request 2/14.
pub fn clauses_that_fail_alone() -> impl Iterator<Item = Clause> {
    let all = Clause::ALL.into_iter();
    all.filter(|&clause| clause != Clause::BoxAboveConfigured)
}

/// So the two are violated together, and nothing else need be.
#[test]
fn box_that_is_not_above_its_core_is_not_above_every_covered_priority() {
    let mut random = Random::new(run_seed());
    let both = [
        Clause::BoxAboveConfigured,
        Clause::ConfiguredUnderBoxBelowBoxes,
    ];
    let mut alone = 0;
    for sound in sound_states(run_seed() ^ 12, 100) {
        let mut broken = sound;
        if damage::violate(&mut random, &mut broken, Clause::BoxAboveConfigured) {
            assert!(!Clause::ConfiguredUnderBoxBelowBoxes.holds(&broken));
            alone += usize::from(violated(&broken) == both);
        }
    }
    println!("{alone} states violate these two alone");
    assert!(alone > 0);
}

#[test]
fn each_pair_of_clauses_violated_is_refused_by_1() {
    let mut random = Random::new(run_seed());
    let mut pairs = Vec::new();
    for sound in sound_states(run_seed() ^ 8, 150) {
        for (pair, broken) in damage::violated_in_pairs(&mut random, &sound) {
            assert_refused_by_1(&mut random, &broken);
            pairs.push(pair);
        }
    }
    for (at, &second) in Clause::ALL.iter().enumerate() {
        for &first in &Clause::ALL[at + 1..] {
            let pair = (first, second);
            assert!(pairs.contains(&pair), "{pair:?} never violated together");
        }
    }
}

#[test]
fn one_field_away_is_sound_or_refused_by_1() {
    let mut random = Random::new(run_seed());
    let (mut still_sound, mut broken) = (0, 0);
    for sound in sound_states(run_seed() ^ 9, 100) {
        for _ in 0..100 {
            let away = damage::one_field_away(&mut random, &sound);
            if well_formed(&away) {
                still_sound += 1;
            } else {
                broken += 1;
                assert_refused_by_1(&mut random, &away);
            }
        }
    }
    assert!(still_sound > 0 && broken > 0);
}

/// Every field may hold anything: the test answers, and any command too.
#[test]
fn any_record_is_answered() {
    let mut random = Random::new(run_seed());
    for _ in 0..2000 {
        let mut controller = Controller::reset(random.any(), random.any());
        if random.flag() {
            (controller.n, controller.m) = generate::sizes(&mut random);
        }
        for source in &mut controller.sources {
            source.configured = random.any();
            source.pending = random.flag();
            source.delivered = random.flag();
            source.request = random.any();
            source.dropped = random.any();
        }
        for core in &mut controller.cores {
            *core = generate::borrowed_core(&mut random);
        }
        assert!(!well_formed(&controller));
        assert_refused_by_1(&mut random, &controller);
    }
}

/// An edit of T4's state, and what it breaks.
type Edit = (&'static str, fn(&mut Controller));

/// At T4 source 4 lies in core 0's box, 5 in core 1's, and 3 waits. n = 32, m = 2, top is 127.
const EDITS_OF_T4: [Edit; 36] = [
    ("n is 0", |c| c.n = 0),
    ("n is 129", |c| c.n = 129),
    ("m is 0", |c| c.m = 0),
    ("m is 33", |c| c.m = 33),
    ("configured 0", |c| c.sources[0].configured = 0),
    ("configured above top", |c| c.sources[0].configured = 128),
    ("request 0", |c| c.sources[2].request = 0),
    ("request above top", |c| {
        c.sources[2].masked = true;
        c.sources[2].request = 128;
    }),
    ("core above top", |c| {
        c.sources[3] = idle(4);
        c.cores[0].message = MessageBox::EMPTY;
        c.cores[0].configured = 128;
    }),
    ("idle but delivered", |c| c.sources[0].delivered = true),
    ("idle with a request", |c| c.sources[0].request = 1),
    ("empty box with an id", |c| {
        c.sources[2] = idle(3);
        c.sources[3] = idle(4);
        c.cores[0].message = MessageBox::EMPTY;
        c.cores[0].message.id = 4;
    }),
    ("empty box with a priority", |c| {
        c.sources[2] = idle(3);
        c.sources[3] = idle(4);
        c.cores[0].message = MessageBox::EMPTY;
        c.cores[0].message.priority = 4;
    }),
    ("empty box dirty", |c| {
        c.sources[2] = idle(3);
        c.sources[3] = idle(4);
        c.cores[0].message = MessageBox::EMPTY;
        c.cores[0].message.dirty = true;
    }),
    ("source past n configured", |c| c.sources[32].configured = 2),
    ("source past n unmasked", |c| c.sources[127].masked = false),
    ("count of a source past n", |c| c.sources[32].dropped = 1),
    ("full count past n", |c| c.sources[127].dropped = 65535),
    ("core past m configured", |c| c.cores[2].configured = 1),
    ("core past m filled", |c| c.cores[31].message.filled = true),
    ("box names 0", |c| c.cores[0].message.id = 0),
    ("box names a source past n", |c| c.cores[0].message.id = 33),
    ("box names 65535", |c| c.cores[0].message.id = 65535),
    ("box names an idle source", |c| c.sources[3] = idle(4)),
    ("box names a waiting source", |c| {
        c.sources[3].masked = true;
        c.sources[3].delivered = false;
    }),
    ("box priority too high", |c| c.cores[1].message.priority = 6),
    ("request of a box too high", |c| c.sources[4].request = 6),
    ("box at the configured priority", |c| {
        c.cores[0].configured = 4
    }),
    ("box below the configured priority", |c| {
        c.cores[0].configured = 5
    }),
    ("one source in two boxes", |c| {
        c.sources[4] = idle(5);
        c.cores[1].message = c.cores[0].message;
    }),
    ("box dirty", |c| c.cores[1].message.dirty = true),
    ("candidate above the least", |c| c.sources[2].request = 5),
    ("core below a candidate", |c| {
        c.sources[3] = idle(4);
        c.cores[0].message = MessageBox::EMPTY;
        c.cores[0].configured = 2;
    }),
    ("candidate above both cores", |c| {
        c.sources[9].pending = true;
        c.sources[9].request = 10;
    }),
    ("configured under a box above a core", |c| {
        c.sources[2] = idle(3);
        c.sources[3] = idle(4);
        c.cores[0].message = MessageBox::EMPTY;
        c.cores[1].configured = 1;
    }),
    ("configured under a box at another box's priority", |c| {
        c.cores[1].configured = 4
    }),
];

/// An unmasked source that isn't pending.
fn idle(configured: u16) -> Source {
    Source {
        configured,
        masked: false,
        ..Source::RESET
    }
}

/// Request 7/14: of a source in use, pending or not, the count may be any; past n it is 0.
#[test]
fn counts_of_sources_in_use_may_be_any() {
    let mut run = Run::table();
    for id in [4, 3, 5] {
        run.accept(trigger(id));
    }
    for place in 0..128 {
        for count in [1, 2, 255, 256, 32767, 65534, 65535] {
            let mut counted = run.controller.clone();
            counted.sources[place].dropped = count;
            let expected: &[Clause] = match place < 32 {
                true => &[],
                false => &[Clause::RecordsPastSizesAreReset],
            };
            assert_eq!(violated(&counted), expected, "source {}", place + 1);
        }
    }
}

#[test]
fn each_edit_of_a_sound_state_is_refused_by_1() {
    let mut random = Random::new(run_seed());
    let mut run = Run::table();
    for id in [4, 3, 5] {
        run.accept(trigger(id));
    }
    for (name, edit) in EDITS_OF_T4 {
        let mut broken = run.controller.clone();
        edit(&mut broken);
        assert!(!well_formed(&broken), "{name}");
        assert_refused_by_1(&mut random, &broken);
    }
}

/// A state of 32 sources and these cores, each a configured priority and a box's, 0 for an empty
/// one. The box of core k holds the request of source k + 1.
fn with_cores(cores: &[(u16, u16)]) -> Controller {
    let mut controller = Controller::reset(32, cores.len() as u16);
    for (number, &(configured, priority)) in cores.iter().enumerate() {
        let source = &mut controller.sources[number];
        let filled = priority > 0;
        (source.pending, source.delivered) = (filled, filled);
        source.request = priority;
        let id = if filled { number as u16 + 1 } else { 0 };
        set_up(&mut controller, number, configured, id);
    }
    controller
}

/// The clause of request 2/14 fails, and no other does.
fn assert_covered_too_high(cores: &[(u16, u16)]) {
    let broken = with_cores(cores);
    let alone = [Clause::ConfiguredUnderBoxBelowBoxes];
    assert_eq!(violated(&broken), alone, "{cores:?}");
    assert_refused_by_1(&mut Random::new(run_seed()), &broken);
}

fn assert_sound(cores: &[(u16, u16)]) {
    assert_eq!(violated(&with_cores(cores)), [], "{cores:?}");
}

/// At the border: equal is refused, one below is not; on either side.
#[test]
fn configured_under_a_box_is_strictly_below_another_box() {
    assert_covered_too_high(&[(3, 9), (1, 3)]);
    assert_sound(&[(2, 9), (1, 3)]);
    assert_covered_too_high(&[(1, 3), (3, 9)]);
    assert_sound(&[(1, 3), (2, 9)]);
    // Boxes and covered priorities alike, up to the top one.
    assert_sound(&[(2, 3), (2, 3)]);
    assert_sound(&[(126, 127), (126, 127)]);
    assert_covered_too_high(&[(126, 127), (125, 126)]);
}

/// A box and its own core are a pair too, with any number of cores.
#[test]
fn configured_under_a_box_is_strictly_below_its_own_box() {
    let both = [
        Clause::BoxAboveConfigured,
        Clause::ConfiguredUnderBoxBelowBoxes,
    ];
    for others in [&[][..], &[(0, 9)], &[(5, 0), (0, 3)]] {
        let cores = |configured| [&[(configured, 3)], others].concat();
        assert_eq!(violated(&with_cores(&cores(3))), both, "{others:?}");
        assert_sound(&cores(2));
    }
}

/// Of 32 cores each one against each other's box: the others are a step higher.
#[test]
fn every_pair_of_boxes_is_compared() {
    for covered in 0..32 {
        for lowest in (0..32).filter(|&lowest| lowest != covered) {
            let mut cores = [(0, 21); 32];
            cores[lowest].1 = 20;
            cores[covered].0 = 20;
            assert_covered_too_high(&cores);
            cores[covered].0 = 19;
            assert_sound(&cores);
        }
    }
}

#[test]
fn core_of_an_empty_box_may_be_as_high_as_any_box() {
    for configured in [3, 4, 9, 10, 127] {
        assert_sound(&[(configured, 0), (1, 3), (2, 9)]);
        assert_sound(&[(1, 3), (configured, 0), (2, 9)]);
    }
}

#[test]
fn clause_says_nothing_where_no_box_is_filled() {
    for first in 0..=127 {
        assert_sound(&[(first, 0)]);
        for second in [0, 1, 64, 126, 127] {
            assert_sound(&[(first, 0), (second, 0)]);
        }
    }
}

/// The pairs say what the two ends say: the greatest covered priority is below the least box's.
#[test]
fn clause_is_that_of_the_greatest_covered_priority_and_the_least_box() {
    let kinds: Vec<(u16, u16)> = (0..16).map(|kind| (kind / 4, kind % 4)).collect();
    let mut holding = 0;
    for &first in &kinds {
        for &second in &kinds {
            for &third in &kinds {
                let cores = [first, second, third];
                let filled = cores.iter().filter(|(_, priority)| *priority > 0);
                let covered = filled.clone().map(|&(configured, _)| configured).max();
                let lowest = filled.map(|&(_, priority)| priority).min();
                let expected = covered.is_none() || covered < lowest;
                let holds = Clause::ConfiguredUnderBoxBelowBoxes.holds(&with_cores(&cores));
                assert_eq!(holds, expected, "{cores:?}");
                holding += usize::from(holds);
            }
        }
    }
    println!("{holding} of 4096 states hold it");
}

/// Counted by hand, top priority 3. With configured priority (3) and mask (2): not pending, 4 core
/// priorities, 24 states; claimed, 3 request priorities and 4 core priorities, 72; boxed, request
/// above core, 6 pairs, 36. With configured priority alone: waiting masked, 12 pairs, 36; waiting
/// unmasked, request not above core, 6 pairs, 18.
const SOUND_AT_ONE_SOURCE_AND_ONE_CORE: usize = 24 + 72 + 36 + 36 + 18;

#[test]
fn sound_states_of_one_source_and_one_core_are_as_counted() {
    let mut sound = 0;
    for source in sources(&[0, 1, 2, 3, 4], &[0, 1, 2, 3, 4]) {
        for core in cores(4, 2) {
            let mut controller = Controller::reset(1, 1);
            controller.sources[0] = source;
            controller.cores[0] = core;
            sound += usize::from(well_formed(&controller));
        }
    }
    assert_eq!(sound, SOUND_AT_ONE_SOURCE_AND_ONE_CORE);
}

/// Counted by hand, configured source priority 1, top priority 3, 16 pairs of core priorities.
/// With the mask (2): not pending, 32 states; claimed, 3 request priorities, 96; boxed, on either
/// core, request above that core's priority, which isn't above the other's, 20 triples, 80.
/// Waiting masked, 48; waiting unmasked, request above neither core, 9 + 4 + 1 triples.
#[test]
fn sound_states_of_one_source_and_two_cores_are_as_counted() {
    let mut sound = 0;
    let cores = cores(3, 1);
    for source in sources(&[1], &[0, 1, 2, 3]) {
        for first in &cores {
            for second in &cores {
                let mut controller = Controller::reset(1, 2);
                controller.sources[0] = source;
                controller.cores[0] = *first;
                controller.cores[1] = *second;
                sound += usize::from(well_formed(&controller));
            }
        }
    }
    assert_eq!(sound, 32 + 96 + 80 + 48 + 14);
}

/// Of the sound states those whose request has its source's priority (request 5/14). Counted by hand:
/// not pending, 24; claimed, 3 priorities, 4 core priorities and the mask, 24; boxed, 12; waiting
/// masked, 12; waiting unmasked, 6.
#[test]
fn every_sound_state_of_one_source_and_one_core_with_one_priority_is_reached() {
    let commands = alphabet(1, 1, &[1, 2, 3], &[0, 1, 2, 3]);
    let reached = for_every_history(1, 1, &commands, |step| {
        let source = step.after.sources[0];
        assert!(!source.pending || source.request == source.configured);
    });
    assert_eq!(reached, 24 + 24 + 12 + 12 + 6);
}

/// Counted by hand, priorities up to 2: a box of 2 on a core at 1, the other of 1 on a core at 0.
/// On either core, of either source, with each source's configured priority (2) and mask (2).
const RULED_OUT_BY_REQUEST_2: usize = 2 * 2 * 4 * 4;

/// All sound states with priorities up to 2, reached by a run or not.
#[test]
fn every_sound_state_of_two_sources_and_two_cores_stays_sound() {
    let commands = alphabet(2, 2, &[1, 2], &[0, 1, 2]);
    let mut shapes = HashSet::new();
    let mut ruled_out = 0;
    for_every_state_of_two_sources_and_two_cores(|boxes, controller| {
        if !well_formed(&controller) {
            let alone = [Clause::ConfiguredUnderBoxBelowBoxes];
            ruled_out += usize::from(violated(&controller) == alone);
            return;
        }
        shapes.insert(boxes);
        for &command in &commands {
            let mut after = controller.clone();
            execute(&mut after, command);
            assert!(well_formed(&after), "{command:?} on {controller:?}");
        }
    });
    // Every way of filling two boxes from two sources, but one source in both.
    assert_eq!(shapes, HashSet::from([0, 1, 2, 3, 5, 6, 7]));
    assert_eq!(ruled_out, RULED_OUT_BY_REQUEST_2);
}

/// Every state with priorities up to 2 whose boxes have their requests' priorities and aren't dirty,
/// with a number for the two ids in the boxes.
fn for_every_state_of_two_sources_and_two_cores(mut visit: impl FnMut(u16, Controller)) {
    let sources = sources(&[1, 2], &[0, 1, 2]);
    for first in &sources {
        for second in &sources {
            for boxes in 0..9 {
                for configured in 0..9 {
                    let mut controller = Controller::reset(2, 2);
                    controller.sources[0] = *first;
                    controller.sources[1] = *second;
                    set_up(&mut controller, 0, configured % 3, boxes % 3);
                    set_up(&mut controller, 1, configured / 3, boxes / 3);
                    visit(boxes, controller);
                }
            }
        }
    }
}

/// Sets a core's configured priority and puts the request of this source into its box; 0 leaves it
/// empty.
fn set_up(controller: &mut Controller, core: usize, configured: u16, id: u16) {
    controller.cores[core].configured = configured;
    if id > 0 {
        controller.cores[core].message = MessageBox {
            filled: true,
            dirty: false,
            id,
            priority: controller.sources[usize::from(id) - 1].request,
        };
    }
}

/// Every source record with these configured and request priorities.
fn sources(configured: &[u16], requests: &[u16]) -> Vec<Source> {
    let mut sources = Vec::new();
    for &configured in configured {
        for &request in requests {
            for flags in 0..8 {
                sources.push(Source {
                    configured,
                    masked: flags & 1 != 0,
                    pending: flags & 2 != 0,
                    delivered: flags & 4 != 0,
                    request,
                    dropped: 0,
                });
            }
        }
    }
    sources
}

/// Every core record with priorities up to one number and ids up to another.
fn cores(priorities: u16, ids: u16) -> Vec<Core> {
    let mut cores = Vec::new();
    for configured in 0..=priorities {
        for priority in 0..=priorities {
            for id in 0..=ids {
                for flags in 0..4 {
                    cores.push(Core {
                        configured,
                        message: MessageBox {
                            filled: flags & 1 != 0,
                            dirty: flags & 2 != 0,
                            id,
                            priority,
                        },
                    });
                }
            }
        }
    }
    cores
}
