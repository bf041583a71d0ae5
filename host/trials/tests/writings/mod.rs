//! The library's call that writes a run answers and writes what the independent writer says, and nothing else; what it writes is read back
//! by the library itself.

use psic::recording::{text_size, MAX_COMMANDS};
use psic::{raw, Command, Controller, CoreId, Refusal, SourceId, COMMAND_SIZE};
use psic_reference::generate::{self, Mix};
use psic_reference::random::{run_seed, Random};
use psic_reference::texts;
use psic_reference::writing::compare::{Case, Trial, Writer};
use psic_reference::writing::lists::{edges, Lists};
use psic_trials::wrapper::typed;
use psic_trials::writings::{list_bytes, unpacked, ByTables, Library, Plain, Typed, Wrapper};

use crate::hex;
use crate::recordings::TRIGGER_4;
use crate::slips::{with_slip, Slip};

/// The first difference from the reference writer within so many lists.
fn first_difference(writer: &impl Writer, lists: usize) -> Option<String> {
    let mut trial = Trial::new(run_seed());
    (0..lists).find_map(|_| trial.step(writer).err())
}

/// Lists of all kinds, each into a buffer that fits exactly, not, or amply. Every number shows, so that no comparison is hollow.
#[test]
fn every_run_is_written_as_by_the_reference() {
    let mut trial = Trial::new(run_seed());
    for _ in 0..20_000 {
        if let Err(difference) = trial.step(&Library) {
            panic!("{difference}");
        }
    }
    println!("{:?}", trial.totals);
    for number in [0, 15, 255] {
        assert!(trial.totals.calls[&number] > 1000, "{number}");
    }
}

#[test]
fn the_wrapper_writes_as_the_reference() {
    assert_eq!(first_difference(&Wrapper, 4000), None);
    assert_eq!(first_difference(&Typed, 4000), None);
}

/// So that what the library's speed is compared with does the same work.
#[test]
fn the_writers_of_the_benchmark_agree_with_the_reference() {
    assert_eq!(first_difference(&Plain, 4000), None);
    assert_eq!(first_difference(&ByTables, 4000), None);
}

/// Each command with each edge of its arguments, runs of 65,534 to 65,536 commands, and lists that hold no run: into a buffer of exactly
/// the text's length, one byte less, none, and some more.
#[test]
fn edges_are_written_as_by_the_reference() {
    fn differs(writer: &impl Writer, case: &Case) -> Option<String> {
        let rooms = case.rooms().into_iter();
        let compared = rooms.map(|room| case.compare(writer, room));
        compared.filter_map(Result::err).next()
    }
    for case in edges().into_iter().map(Case::new) {
        assert_eq!(differs(&Library, &case), None);
        assert_eq!(differs(&Wrapper, &case), None);
        assert_eq!(differs(&Typed, &case), None);
        assert_eq!(differs(&Plain, &case), None);
        assert_eq!(differs(&ByTables, &case), None);
    }
}

/// What is compared is the library's own answer, and what it wrote, by both ways to it.
#[test]
fn every_slip_of_a_writing_is_found() {
    for slip in Slip::OF_WRITINGS {
        let library = with_slip(slip, || first_difference(&Library, 400));
        assert!(library.is_some(), "{slip:?}");
        let wrapper = with_slip(slip, || first_difference(&Wrapper, 400));
        assert!(wrapper.is_some(), "{slip:?}, by the wrapper");
        let typed = with_slip(slip, || first_difference(&Typed, 400));
        assert_eq!(typed.is_none(), slip.is_behind(), "{slip:?}, typed");
    }
}

/// Reads a text that was written of a run: the same commands, in the same order, at the times 0, 2, 4 and so on.
fn assert_read_back(text: &[u8], commands: &[Command]) {
    let reading = psic::read(text);
    assert_eq!(reading.fault, None);
    assert_eq!(reading.commands.len(), commands.len());
    for (i, (stamped, command)) in reading.commands.iter().zip(commands).enumerate() {
        assert_eq!((stamped.time, stamped.command), (2 * i as u64, *command));
    }
}

#[test]
fn what_the_library_writes_it_reads_back() {
    let mut written = 0;
    for commands in Lists::new(run_seed())
        .take(4000)
        .filter_map(|list| list.commands())
    {
        let commands: Vec<Command> = commands.into_iter().map(typed).collect();
        if let Ok(text) = psic::write(&commands) {
            assert_read_back(&text, &commands);
            written += 1;
        }
    }
    assert!(written > 2000, "{written} texts");
    let mut random = Random::new(run_seed());
    let longest = texts::commands(&mut random, MAX_COMMANDS);
    let longest: Vec<Command> = longest.into_iter().map(typed).collect();
    let text = psic::write(&longest).expect("65,535 commands can be written");
    assert_read_back(&text, &longest);
}

/// The replay of what is written answers what the run answered, refused commands among them, and ends in its state.
#[test]
fn a_written_run_replays_as_it_ran() {
    let mut random = Random::new(run_seed());
    for (n, m) in [(1, 1), (4, 3), (32, 2), (128, 4), (128, 32)] {
        for mix in Mix::ALL {
            let history = generate::history(random.bits(), n, m, 600, mix);
            let commands: Vec<Command> = history.commands.into_iter().map(typed).collect();
            let unwritable = |c: &Command| psic::recording::first_unwritable(&[*c]).is_some();
            let commands: Vec<Command> = commands.into_iter().filter(|c| !unwritable(c)).collect();
            let mut controller = Controller::new(n, m).expect("sizes in range");
            let answers = controller.run(&commands);
            assert!(answers.iter().any(Result::is_err), "some are refused");
            let text = psic::write(&commands).expect("every command fits");
            let replay = psic::replay(n, m, &text).expect("sizes in range");
            assert_eq!(replay.fault, None);
            assert_eq!(replay.answers, answers, "({n}, {m})");
            assert_eq!(replay.controller, controller, "({n}, {m})");
        }
    }
}

fn trigger(id: u16) -> Command {
    Command::Trigger(SourceId(id))
}

#[test]
fn document_01s_run_and_an_empty_one_are_written_as_shown() {
    assert_eq!(
        psic::write(&[trigger(4)]),
        Ok(TRIGGER_4.as_bytes().to_vec())
    );
    let (definitions, _) = TRIGGER_4.split_once("#0").expect("a time");
    assert_eq!(psic::write(&[]), Ok(definitions.as_bytes().to_vec()));
}

/// The number, the length and the buffer after a call on a list and a buffer of nines.
fn written(list: &[u8], room: usize) -> (u8, usize, Vec<u8>) {
    let mut buffer = vec![9; room];
    let (number, length) = unpacked(raw::write(list, &mut buffer));
    (number, length, buffer)
}

#[test]
fn a_text_needs_a_buffer_of_its_length_and_no_more() {
    let list = trigger(4).to_bytes();
    let (text, length) = (TRIGGER_4.as_bytes(), TRIGGER_4.len());
    assert_eq!(written(&list, length), (0, length, text.to_vec()));
    let amply = [text, &[9; 50]].concat();
    assert_eq!(written(&list, length + 50), (0, length, amply));
    for room in [0, 1, 196, 197, length - 1] {
        assert_eq!(written(&list, room), (15, 0, vec![9; room]), "{room}");
    }
    let definitions = text[..197].to_vec();
    assert_eq!(written(&[], 197), (0, 197, definitions));
    assert_eq!(written(&[], 196), (15, 0, vec![9; 196]));
    assert_eq!(written(&[], 0), (15, 0, Vec::new()));
}

#[test]
fn a_run_has_at_most_65_535_commands() {
    let list = trigger(1).to_bytes().repeat(MAX_COMMANDS + 1);
    let room = text_size(MAX_COMMANDS + 1);
    let (number, _, buffer) = written(&list, room);
    assert!(number == 15 && buffer == vec![9; room]);
    let (number, length, buffer) = written(&list[COMMAND_SIZE..], room);
    assert_eq!(number, 0);
    assert!(buffer[..length].ends_with(b"\n#131069\n0!\n"));
    assert!(buffer[length..].iter().all(|&byte| byte == 9));
}

#[test]
fn values_are_refused_exactly_from_their_variables_end_on() {
    let (id, core) = (SourceId, CoreId);
    for (good, bad) in [
        (trigger(255), trigger(256)),
        (Command::Mask(id(255)), Command::Mask(id(256))),
        (Command::Unmask(id(255)), Command::Unmask(id(256))),
        (Command::Redeliver(id(255)), Command::Redeliver(id(256))),
        (Command::Complete(id(255)), Command::Complete(id(65_535))),
        (Command::Claim(core(31)), Command::Claim(core(32))),
        (
            Command::SetCorePriority(core(31), 511),
            Command::SetCorePriority(core(32), 511),
        ),
        (
            Command::SetCorePriority(core(31), 511),
            Command::SetCorePriority(core(31), 512),
        ),
        (
            Command::SetSourcePriority(id(255), 511),
            Command::SetSourcePriority(id(256), 511),
        ),
        (
            Command::SetSourcePriority(id(255), 511),
            Command::SetSourcePriority(id(255), 512),
        ),
    ] {
        let good = [trigger(1), good];
        let text = psic::write(&good).expect("every value fits");
        assert_read_back(&text, &good);
        let refused = psic::write(&[trigger(1), bad, trigger(2)]);
        assert_eq!(refused, Err(Refusal::Unwritable), "{bad}");
        let position = psic::recording::first_unwritable(&[trigger(1), bad, bad]);
        assert_eq!(position, Some(1), "{bad}");
        let list = [trigger(1), bad].map(Command::to_bytes).concat();
        assert_eq!(written(&list, 500), (15, 0, vec![9; 500]), "{bad}");
    }
}

/// A priority that isn't used is written as 0 and refuses nothing, whatever it is.
#[test]
fn an_unused_priority_is_written_as_0() {
    for number in [1, 2, 4, 5, 6, 7] {
        let plain = written(&[number, 4, 0, 0, 0], 300);
        assert_eq!(plain.0, 0);
        let text = String::from_utf8_lossy(&plain.2[..plain.1]);
        assert!(text.contains("\nb0 %\n"), "{text}");
        assert_eq!(written(&[number, 4, 0, 255, 255], 300), plain);
        assert_eq!(written(&[number, 4, 0, 0, 2], 300), plain);
    }
}

/// 255 comes before 15, also where a value is too large, the run too long or the buffer too short.
#[test]
fn a_list_that_holds_no_run_is_refused_first_of_all() {
    let good = trigger(4).to_bytes();
    let too_large = trigger(256).to_bytes();
    let long = good.repeat(MAX_COMMANDS + 1);
    for number in [8, 9, 16, 255] {
        let bad = [number, 4, 0, 0, 0];
        for before in [&[][..], &good, &too_large, &long] {
            let list = [before, &bad].concat();
            for room in [0, 1000] {
                assert_eq!(written(&list, room), (255, 0, vec![9; room]), "{number}");
            }
        }
    }
    for list in [&good[..1], &too_large[..4], &long[1..]] {
        assert_eq!(written(list, 1000), (255, 0, vec![9; 1000]));
    }
}

/// The most bytes that a text can have: 197, and 57 for a command. Both are reached, the second where times have six digits.
#[test]
fn the_size_of_a_text_is_reached_and_never_passed() {
    let length = |commands: &[Command]| psic::write(commands).expect("it fits").len();
    assert_eq!(length(&[]), text_size(0));
    let each = text_size(1) - text_size(0);
    let mut longest = 0;
    for number in 0..8 {
        let at = if number == 3 || number == 5 { 31 } else { 255 };
        let command = Command::from_bytes([number, at, 0, 255, 1]).expect("a command");
        let run = vec![command; MAX_COMMANDS];
        for count in [1, 5, 6, 50, 51, 500, 501, 5000, 5001, 50_000, 50_001] {
            assert!(length(&run[..count]) <= text_size(count), "{count}");
        }
        let last = length(&run) - length(&run[1..]);
        assert!(last <= each, "{command} takes {last} bytes");
        longest = longest.max(last);
    }
    assert_eq!(longest, each);
}

/// The example of docs/ENCODING.md, in its words.
#[test]
fn the_documented_writing_holds() {
    let document = include_str!("../../../../docs/ENCODING.md");
    let list = trigger(4).to_bytes();
    let mut text = [0x99; 240];
    let answer = raw::write(&list, &mut text);
    let (number, length) = unpacked(answer);
    assert_eq!((number, &text[..length]), (0, TRIGGER_4.as_bytes()));
    let short = raw::write(&list, &mut text[..length - 1]);
    for words in [
        format!("the list `{}`", hex(&list)),
        format!("answers {answer}, which is 256 times {length}"),
        format!("With {} bytes of room it answers {short}", length - 1),
    ] {
        assert!(document.contains(&words), "docs/ENCODING.md lacks {words}");
    }
    let shown: String = TRIGGER_4.lines().map(|l| format!("    {l}\n")).collect();
    assert!(document.contains(&shown), "docs/ENCODING.md lacks {shown}");
}

/// A list that the comparison hands over is laid out as the wrapper's commands are.
#[test]
fn a_list_is_laid_out_as_commands_are() {
    for list in Lists::new(run_seed()).take(500) {
        let Some(commands) = list.commands() else {
            continue;
        };
        let bytes = list_bytes(&list);
        let entries = bytes.chunks_exact(COMMAND_SIZE);
        let read: Vec<Command> = entries
            .map(|entry| Command::from_bytes(entry.try_into().expect("5 bytes")))
            .collect::<Option<_>>()
            .expect("every entry is a command");
        assert_eq!(read, commands.into_iter().map(typed).collect::<Vec<_>>());
    }
}
