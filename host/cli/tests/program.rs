//! The program as people meet it: what it prints, what it says of bad input, and its exit status.

use std::fs::OpenOptions;
use std::io::Write;
use std::path::PathBuf;
use std::process::{Command, Output, Stdio};
use std::thread;

const EXAMPLE: &str = "../examples/two_beams.txt";
const RECORDING: &str = "../examples/two_beams.vcd";
const HANDOVER: &str = "../examples/handover.txt";

fn psic(words: &[&str]) -> Command {
    let mut command = Command::new(env!("CARGO_BIN_EXE_psic"));
    command.args(words).current_dir(env!("CARGO_MANIFEST_DIR"));
    command
}

/// Runs the program on this standard input.
fn run(words: &[&str], input: &[u8]) -> Output {
    let mut child = psic(words)
        .stdin(Stdio::piped())
        .stdout(Stdio::piped())
        .stderr(Stdio::piped())
        .spawn()
        .expect("the program starts");
    let mut stdin = child.stdin.take().expect("a pipe");
    // At once with reading what it prints: either pipe may be full. A program that ends before it has read all is told by what it answers.
    thread::scope(|scope| {
        scope.spawn(move || stdin.write_all(input));
        child.wait_with_output().expect("the program ends")
    })
}

fn text(bytes: &[u8]) -> &str {
    std::str::from_utf8(bytes).expect("text")
}

/// The program's status, what it prints, and what it says on standard error.
fn answered(words: &[&str], input: &[u8]) -> (i32, String, String) {
    let output = run(words, input);
    let status = output.status.code().expect("no signal");
    let (out, err) = (text(&output.stdout), text(&output.stderr));
    (status, out.to_string(), err.to_string())
}

const SIZES: [&str; 5] = ["run", "--sources", "4", "--cores", "4"];

#[test]
fn the_worked_example_is_as_stored() {
    let stored = include_str!("../../examples/two_beams.stdout").to_string();
    let by_file = answered(&[&SIZES[..], &[EXAMPLE]].concat(), b"");
    assert_eq!(by_file, (0, stored.clone(), String::new()));
    let input = include_bytes!("../../examples/two_beams.txt");
    assert_eq!(answered(&SIZES, input).1, stored);
    assert_eq!(answered(&[&SIZES[..], &["-"]].concat(), input).1, stored);
}

/// Document 02's run of request 2/14: the request of 9 goes to the core whose box is filled already.
#[test]
fn the_fewest_cores_are_interrupted() {
    let settings = "set source 3 to 3\nunmask 3\nset source 9 to 9\nunmask 9\n";
    let run = "set core 0 to 3\nset core 1 to 1\ntrigger 3\ntrigger 9\n";
    let input = [settings, run].concat();
    let (status, out, err) = answered(
        &["run", "--sources", "32", "--cores", "2"],
        input.as_bytes(),
    );
    assert_eq!((status, err.as_str()), (0, ""));
    let expected = "\
set core 0 to 3: accepted, 0 cycles, [3,0]
set core 1 to 1: accepted, 0 cycles, [3,1]
trigger 3: accepted, 1 cycle, [3,3]  3: box 1
trigger 9: accepted, 1 cycle, [3,9]  3: source  9: box 1
";
    let printed: Vec<&str> = out.lines().skip(4).collect();
    assert_eq!(printed, expected.lines().collect::<Vec<&str>>());
}

/// A refused command is an answer, and the run goes on.
#[test]
fn a_refusal_is_answered_in_words() {
    let input = b"claim on core 0\ntrigger 5\ntrigger 1\nset source 1 to 1\nunmask 2\n";
    let (status, out, err) = answered(&SIZES, input);
    assert_eq!((status, err.as_str()), (0, ""));
    let expected = "\
claim on core 0: refused by 7 (the box is empty), 0 cycles, [0,0,0,0]
trigger 5: refused by 4 (there is no such source), 0 cycles, [0,0,0,0]
trigger 1: accepted, 0 cycles, [0,0,0,0]  1: source
set source 1 to 1: refused by 9 (the source is pending, so its priority stays), 0 cycles, [0,0,0,0]  1: source
unmask 2: accepted, 0 cycles, [0,0,0,0]  1: source
";
    assert_eq!(out, expected);
}

#[test]
fn a_line_that_is_no_command_is_named_and_ends_the_run() {
    let cases: [(&[u8], &str); 6] = [
        (b"claim 0", "'claim 0' is no command"),
        (b"trigger", "'trigger' is no command"),
        (b"trigger 65536", "'65536' is no number from 0 to 65535"),
        (b"trigger +1", "'+1' is no number from 0 to 65535"),
        (b"set core 0 to", "'set core 0 to' is no command"),
        (b"trigger \xff", "the line is no text"),
    ];
    for (bad, why) in cases {
        let input = [b"unmask 1\n\n# a comment\n", bad, b"\ntrigger 1\n"].concat();
        let (status, out, err) = answered(&SIZES, &input);
        assert_eq!(status, 1, "{why}");
        assert_eq!(out, "unmask 1: accepted, 0 cycles, [0,0,0,0]\n", "{why}");
        assert_eq!(err, format!("psic: standard input, line 4: {why}\n"));
    }
}

#[test]
fn a_last_line_needs_no_newline_and_carriage_returns_are_skipped() {
    let (status, out, _) = answered(&SIZES, b"unmask 1\r\nunmask 2");
    assert_eq!((status, out.lines().count()), (0, 2));
}

#[test]
fn bad_input_has_status_1() {
    let (status, _, err) = answered(&["run", "--sources", "129", "--cores", "4"], b"");
    assert_eq!(status, 1);
    assert!(err.starts_with("psic: 129 sources and 4 cores: refused by 2 "));
    let (status, _, err) = answered(&[&SIZES[..], &["no such file"]].concat(), b"");
    assert_eq!(status, 1);
    assert!(err.starts_with("psic: no such file can't be opened: "));
    // A folder can be opened and can't be read.
    let (status, _, err) = answered(&[&SIZES[..], &["tests"]].concat(), b"");
    assert_eq!(status, 1);
    assert!(err.starts_with("psic: tests, line 1: "));
    let (status, out, err) = answered(&["record", "no such file"], b"");
    assert_eq!((status, out.as_str()), (1, ""));
    assert!(err.starts_with("psic: no such file can't be opened: "));
}

#[test]
fn wrong_usage_has_status_2_and_points_to_the_help() {
    let wrong: [&[&str]; 28] = [
        &[],
        &["walk"],
        &["run"],
        &["run", "--sources", "4"],
        &["run", "--cores", "4"],
        &["run", "--sources", "four", "--cores", "4"],
        &["run", "--sources", "4", "--cores"],
        &["run", "--sources", "4", "--cores", "4", "--cores", "5"],
        &["run", "--sources", "4", "--cores", "4", "--fast"],
        &["run", "--sources", "4", "--cores", "4", "a", "b"],
        &["refusals", "7"],
        &["replay"],
        &["replay", "--sources", "4", "--cores", "4"],
        &["replay", RECORDING, "--cores", "4"],
        &[
            "replay",
            RECORDING,
            "--sources",
            "4",
            "--cores",
            "4",
            "--all",
        ],
        &["replay", RECORDING, "-", "--sources", "4", "--cores", "4"],
        &["routines", "--sources", "3"],
        &["routines", "--cores", "2", HANDOVER],
        &["routines", "--sources", "3", "--cores", "2", "--table"],
        &["run", "--sources", "4", "--cores", "4", "--write", "a"],
        &["replay", RECORDING, "--write", "a", "--cores", "4"],
        &[
            "replay",
            RECORDING,
            "--sources",
            "4",
            "--cores",
            "4",
            "--write",
        ],
        &[
            "replay",
            RECORDING,
            "--sources",
            "4",
            "--cores",
            "4",
            "--write",
            "-",
        ],
        &["record", "--sources", "4"],
        &["record", "--write"],
        &["record", "--write", "-"],
        &["record", "--write", "a", "--write", "b"],
        &["record", EXAMPLE, "-"],
    ];
    for words in wrong {
        let (status, out, err) = answered(words, b"");
        assert_eq!((status, out.as_str()), (2, ""), "{words:?}");
        assert!(
            err.ends_with("; 'psic --help' says what there is\n"),
            "{words:?}"
        );
    }
}

/// /dev/full takes nothing: every way to print tells so, and has status 1.
#[test]
fn a_write_that_fails_is_told() {
    for words in [
        &[&SIZES[..], &[EXAMPLE]].concat()[..],
        &["replay", RECORDING, "--sources", "4", "--cores", "4"],
        &["routines", HANDOVER, "--sources", "3", "--cores", "2"],
        &["record", EXAMPLE],
        &["refusals"],
        &["--help"],
        &["--version"],
    ] {
        let full = OpenOptions::new()
            .write(true)
            .open("/dev/full")
            .expect("Linux has it");
        let output = psic(words).stdout(full).output().expect("the program runs");
        assert_eq!(output.status.code(), Some(1), "{words:?}");
        assert!(text(&output.stderr).starts_with("psic: the output can't be written: "));
    }
}

#[test]
fn refusals_are_the_librarys() {
    let (status, out, _) = answered(&["refusals"], b"");
    assert_eq!(status, 0);
    assert_eq!(out.lines().next(), Some("  0  accepted"));
    let refusals = psic::Refusal::ALL.map(|refusal| (refusal.number(), refusal.in_words()));
    let faults = psic::FaultKind::ALL.map(|kind| (kind.number(), kind.in_words()));
    for (number, words) in refusals.into_iter().chain(faults) {
        let line = format!("{number:>3}  {words}");
        assert!(out.lines().any(|printed| printed == line), "{line}");
    }
    assert_eq!(out.lines().count(), 1 + refusals.len() + faults.len());
    assert!(out.lines().is_sorted());
}

#[test]
fn the_help_names_every_command() {
    for word in ["--help", "-h", "help"] {
        let (status, out, _) = answered(&[word], b"");
        assert_eq!(status, 0);
        for form in psic::Command::FORMS.iter().chain(&psic::RoutineCall::FORMS) {
            assert!(out.contains(form), "{form}");
        }
        for command in [
            "psic run",
            "psic replay",
            "psic record",
            "psic routines",
            "psic refusals",
        ] {
            assert!(out.contains(&format!("\n{command}\n")), "{command}");
        }
    }
}

/// The sample recording is the worked example with times, and a summary.
#[test]
fn the_sample_recording_is_as_stored() {
    let stored = include_str!("../../examples/two_beams.vcd.stdout").to_string();
    for words in [
        ["replay", RECORDING, "--sources", "4", "--cores", "4"],
        ["replay", "--cores", "4", RECORDING, "--sources", "4"],
    ] {
        assert_eq!(answered(&words, b""), (0, stored.clone(), String::new()));
    }
    let input = include_bytes!("../../examples/two_beams.vcd");
    assert_eq!(replayed(input), (0, stored.clone(), String::new()));
    let by_run = include_str!("../../examples/two_beams.stdout");
    let without_times = stored
        .lines()
        .filter_map(|line| line.strip_prefix('#')?.split_once(' '));
    let without_times: Vec<&str> = without_times.map(|(_, line)| line).collect();
    assert_eq!(without_times, by_run.lines().collect::<Vec<&str>>());
}

/// The lines say what the library's own replay answers, and end with its state.
#[test]
fn the_lines_are_those_of_the_librarys_replay() {
    let text = include_bytes!("../../examples/two_beams.vcd");
    let replay = psic::replay(4, 4, text).expect("sizes in range");
    let (_, out, _) = replayed(text);
    let lines: Vec<&str> = out.lines().filter(|line| line.starts_with('#')).collect();
    let reading = psic::read(text);
    assert_eq!(lines.len(), replay.answers.len());
    for ((line, stamped), answer) in lines.iter().zip(reading.commands).zip(replay.answers) {
        let answer = answer.expect("every command of the sample is accepted");
        assert!(
            line.starts_with(&format!("{stamped}: {answer}, [")),
            "{line}"
        );
    }
    let state = replay.controller.to_string();
    assert!(lines.last().is_some_and(|line| line.ends_with(&state)));
}

/// A replay of standard input on four sources and four cores.
fn replayed(input: &[u8]) -> (i32, String, String) {
    answered(&["replay", "--sources", "4", "--cores", "4", "-"], input)
}

/// Definitions on one line, with document 01's codes.
const DEFINED: &str = "$var wire 1 ! stb $end $var wire 3 \" cmd $end $var wire 5 # core $end $var wire 8 $ arg $end \
                       $var wire 9 % prio $end $enddefinitions $end\n";

#[test]
fn refused_commands_are_counted_by_number_and_the_replay_goes_on() {
    // Claims on core 0, source 9, source 4 twice; then the cycles of a delivery.
    let stamps = "#1 b101 \" b0 # 1! #2 0! #3 b100 \" b1001 $ 1! #4 0! #5 b100 $ 1! #6 0! #7 1! #8 0! #9 b10 \" 1!";
    let expected = "\
#1 claim on core 0: refused by 7 (the box is empty), 0 cycles, [0,0,0,0]
#3 trigger 9: refused by 4 (there is no such source), 0 cycles, [0,0,0,0]
#5 trigger 4: accepted, 0 cycles, [0,0,0,0]  4: source
#7 trigger 4: refused by 6 (the source is pending already), 0 cycles, [0,0,0,0]  4: source
#9 unmask 4: accepted, 1 cycle, [1,0,0,0]  4: box 0
commands: 5, accepted: 2, refused: 3
    1 refused by 4 (there is no such source)
    1 refused by 6 (the source is pending already)
    1 refused by 7 (the box is empty)
cycles: 1, at most 1 a command
dropped triggers:
    source 4: 1
";
    let input = [DEFINED, stamps].concat();
    assert_eq!(
        replayed(input.as_bytes()),
        (0, expected.to_string(), String::new())
    );
}

const NOTHING: &str = "commands: 0, accepted: 0, refused: 0\ncycles: 0, at most 0 a command\ndropped triggers: none\n";

#[test]
fn a_recording_without_a_time_has_no_command() {
    for stamps in ["", "1!", "b100 \" b1 $ 1! 0! 1!", "$comment #0 $end"] {
        let input = [DEFINED, stamps].concat();
        assert_eq!(
            replayed(input.as_bytes()),
            (0, NOTHING.to_string(), String::new()),
            "{stamps}"
        );
    }
}

/// The commands before a fault are printed, also one taken at its word, and the fault is told on standard error with status 1.
#[test]
fn a_fault_ends_the_replay_and_is_told() {
    let first = "#1 b10 \" b100 $ 1! ";
    let printed = "#1 unmask 4: accepted, 0 cycles, [0,0,0,0]
commands: 1, accepted: 1, refused: 0
cycles: 0, at most 0 a command
dropped triggers: none
";
    let length = DEFINED.len();
    for (rest, column, expected, number) in [
        ("#1", 20, "at '#1': expected a time above #1", 14),
        (
            "#2 x! #3",
            26,
            "at '#3': expected no x or z in stb at the end of the stamp #2",
            13,
        ),
        (
            "#2\tb",
            23,
            "at 'b': expected one or more of 0, 1, x and z after the b",
            11,
        ),
        (
            "$comment",
            28,
            "at the end of the text: expected $end to close $comment",
            11,
        ),
    ] {
        let input = [DEFINED, first, rest].concat();
        let offset = length + column - 1;
        let place = format!("standard input, line 2, column {column}");
        let told = format!("psic: {place}, {expected} (refused by {number} at byte {offset})\n");
        assert_eq!(
            replayed(input.as_bytes()),
            (1, printed.to_string(), told),
            "{rest}"
        );
    }
}

#[test]
fn a_missing_variable_is_told() {
    let lacks = DEFINED.replace("$var wire 3 \" cmd $end ", "");
    let (status, out, err) = replayed(lacks.as_bytes());
    assert_eq!((status, out.as_str()), (1, NOTHING));
    let told =
        "at '$enddefinitions': expected declarations of all five variables before it: cmd missing";
    assert!(err.contains(told), "{err}");
}

#[test]
fn an_empty_recording_lacks_its_definitions() {
    let (status, out, err) = replayed(b"");
    assert_eq!((status, out.as_str()), (1, NOTHING));
    let expected =
        "$var, $enddefinitions, $date, $version, $comment, $timescale, $scope or $upscope";
    let place = "standard input, line 1, column 1, at the end of the text";
    let told = format!("psic: {place}: expected {expected} (refused by 11 at byte 0)\n");
    assert_eq!(err, told);
}

/// As 'psic run' does; the recording isn't looked at before the sizes.
#[test]
fn sizes_files_and_folders_that_can_not_be_taken() {
    for (words, expected) in [
        (
            ["replay", "-", "--sources", "129", "--cores", "4"],
            "129 sources and 4 cores: refused by 2 ",
        ),
        (
            ["replay", "no such file", "--sources", "0", "--cores", "4"],
            "0 sources and 4 cores: refused by 2 ",
        ),
        (
            ["replay", "no such file", "--sources", "4", "--cores", "4"],
            "no such file can't be opened: ",
        ),
        (
            ["replay", "tests", "--sources", "4", "--cores", "4"],
            "tests can't be read: ",
        ),
    ] {
        let (status, out, err) = answered(&words, b"no recording");
        assert_eq!((status, out.as_str()), (1, ""), "{words:?}");
        assert!(err.starts_with(&format!("psic: {expected}")), "{err}");
    }
}

/// A long recording with no terminal to tell progress to.
#[test]
fn a_long_recording_is_replayed_in_silence() {
    let mut input = [DEFINED, "b10 \" b1 $ #0 1!"].concat();
    for time in 1..65_535 {
        input += &format!("\n#{} 0! #{} 1!", 2 * time, 2 * time + 1);
    }
    assert!(input.len() > 1_000_000);
    let (status, out, err) = replayed(input.as_bytes());
    assert_eq!((status, err.as_str()), (0, ""));
    assert_eq!(out.lines().count(), 65_535 + 3);
    assert!(out.ends_with(
        "\ncommands: 65535, accepted: 65535, refused: 0\ncycles: 0, at most 0 a command\ndropped triggers: none\n"
    ));
}

/// Triggers of so many sources in turn, each so many times; what isn't the first of a source is dropped.
fn triggers(sources: u16, times: usize) -> String {
    let each: String = (1..=sources).map(|id| format!("trigger {id}\n")).collect();
    each.repeat(times)
}

/// A recorded run: source 1 drops two triggers, source 3 one, and source 2, whose requests end, none.
#[test]
fn a_replay_tells_which_sources_dropped_how_many_triggers() {
    let run = "unmask 2\ntrigger 1\ntrigger 1\ntrigger 2\nclaim on core 0\ncomplete 2\ntrigger 3\ntrigger 2\ntrigger 3\ntrigger 1\n\
               trigger 9\n";
    let recorded = answered(&["record"], run.as_bytes()).1;
    let (status, out, err) = replayed(recorded.as_bytes());
    assert_eq!((status, err.as_str()), (0, ""));
    let summary = "\
commands: 11, accepted: 7, refused: 4
    1 refused by 4 (there is no such source)
    3 refused by 6 (the source is pending already)
cycles: 2, at most 1 a command
dropped triggers:
    source 1: 2
    source 3: 1
";
    assert!(out.ends_with(summary), "{out}");
}

/// A recording has at most 65,535 commands, so that a replay's counts are never held.
#[test]
fn a_replay_counts_every_dropped_trigger() {
    let recorded = answered(&["record"], triggers(1, 65_535).as_bytes()).1;
    let (status, out, err) = replayed(recorded.as_bytes());
    assert_eq!((status, err.as_str()), (0, ""));
    let summary =
        "    65534 refused by 6 (the source is pending already)\ncycles: 0, at most 0 a command\n";
    let dropped = "dropped triggers:\n    source 1: 65534\n";
    assert!(out.ends_with(&[summary, dropped].concat()));
}

/// After the last line, only where there are some, and also where a bad line ends the run. A count that is held is told as one.
#[test]
fn a_run_tells_its_dropped_triggers() {
    for command in ["run", "routines"] {
        let words = [command, "--sources", "4", "--cores", "4"];
        let told = |input: &str| {
            let (_, out, _) = answered(&words, input.as_bytes());
            let at = out.find("dropped triggers:");
            at.map_or(String::new(), |at| out[at..].to_string())
        };
        assert_eq!(told(&triggers(4, 1)), "");
        let each = "dropped triggers:\n    source 1: 1\n    source 2: 1\n";
        assert_eq!(told(&triggers(2, 2)), each);
        assert_eq!(told(&[&triggers(2, 2), "trigger"].concat()), each);
        let exact = "dropped triggers:\n    source 1: 65534\n";
        assert_eq!(told(&triggers(1, 65_535)), exact);
        for times in [65_536, 65_537] {
            let held = "dropped triggers:\n    source 1: at least 65535\n";
            assert_eq!(told(&triggers(1, times)), held, "{times}");
        }
    }
}

/// A file for a test's own use, of this name.
fn scratch(name: &str) -> PathBuf {
    PathBuf::from(env!("CARGO_TARGET_TMPDIR")).join(name)
}

/// Document 01's own text: trigger 4 alone.
const TRIGGER_4: &str = "$timescale 1 ns $end\n$scope module psic $end\n$var wire 1 ! stb $end\n$var wire 3 \" cmd $end\n\
                         $var wire 5 # core $end\n$var wire 8 $ arg $end\n$var wire 9 % prio $end\n$upscope $end\n\
                         $enddefinitions $end\n#0\nb100 \"\nb0 #\nb100 $\nb0 %\n1!\n#1\n0!\n";

#[test]
fn a_run_is_recorded_as_document_01_shows_it() {
    let expected = (0, TRIGGER_4.to_string(), String::new());
    assert_eq!(answered(&["record"], b"trigger 4\n"), expected);
    let commented = b"# the model's own example\n\n  trigger 4  # alone";
    assert_eq!(answered(&["record", "-"], commented), expected);
    let (definitions, _) = TRIGGER_4.split_once("#0").expect("a time");
    let empty = (0, definitions.to_string(), String::new());
    assert_eq!(answered(&["record"], b"# nothing\n"), empty);
}

/// What the worked example runs is recorded, and its replay prints the same answers.
#[test]
fn a_recorded_run_replays_as_it_ran() {
    let file = scratch("recorded.vcd");
    let path = file.to_str().expect("text");
    let (status, out, err) = answered(&["record", EXAMPLE, "--write", path], b"");
    assert_eq!((status, out.as_str(), err.as_str()), (0, "", ""));
    let recorded = std::fs::read(&file).expect("the file is written");
    assert_eq!(recorded, answered(&["record", EXAMPLE], b"").1.as_bytes());
    let (status, out, err) = answered(&["replay", path, "--sources", "4", "--cores", "4"], b"");
    assert_eq!((status, err.as_str()), (0, ""));
    let lines = out.lines().filter_map(|line| line.strip_prefix('#'));
    let lines: Vec<(&str, &str)> = lines.filter_map(|line| line.split_once(' ')).collect();
    let by_run = include_str!("../../examples/two_beams.stdout");
    let expected = by_run.lines().enumerate();
    let expected: Vec<(String, &str)> = expected.map(|(i, l)| ((2 * i).to_string(), l)).collect();
    assert_eq!(lines.len(), expected.len());
    for (line, (time, words)) in lines.into_iter().zip(&expected) {
        assert_eq!(line, (time.as_str(), *words));
    }
}

/// Refused commands are commands of the run, and are recorded too.
#[test]
fn a_replayed_run_is_written_refused_commands_too() {
    let stamps = "#1 b101 \" b0 # 1! #2 0! #3 b100 \" b1001 $ 1! #4 0! #5 b100 $ 1! #6 0! #7 1! #8 0! #9 b10 \" 1!";
    let input = [DEFINED, stamps].concat();
    let file = scratch("refused.vcd");
    let path = file.to_str().expect("text");
    let words = [
        "replay",
        "--sources",
        "4",
        "--cores",
        "4",
        "-",
        "--write",
        path,
    ];
    let printed = replayed(input.as_bytes());
    assert_eq!(answered(&words, input.as_bytes()), printed);
    let run = "claim on core 0\ntrigger 9\ntrigger 4\ntrigger 4\nunmask 4\n";
    let expected = answered(&["record"], run.as_bytes()).1;
    let written = std::fs::read(&file).expect("the file is written");
    assert_eq!(text(&written), expected);
}

/// The sample's replay, written, is the worked example's run, recorded.
#[test]
fn the_samples_replay_is_written() {
    let file = scratch("sample.vcd");
    let path = file.to_str().expect("text");
    let sizes = ["--sources", "4", "--cores", "4", "--write", path];
    let (status, out, err) = answered(&[&["replay", RECORDING], &sizes[..]].concat(), b"");
    let stored = include_str!("../../examples/two_beams.vcd.stdout");
    assert_eq!((status, out.as_str(), err.as_str()), (0, stored, ""));
    let written = std::fs::read(&file).expect("the file is written");
    assert_eq!(text(&written), answered(&["record", EXAMPLE], b"").1);
}

/// A fault ends the replay; what was taken before it is the replayed run.
#[test]
fn what_was_taken_before_a_fault_is_written() {
    let file = scratch("fault.vcd");
    let path = file.to_str().expect("text");
    let input = [DEFINED, "#1 b100 \" b100 $ 1! #1 1!"].concat();
    let words = [
        "replay",
        "-",
        "--write",
        path,
        "--sources",
        "4",
        "--cores",
        "4",
    ];
    let (status, _, err) = answered(&words, input.as_bytes());
    assert_eq!(status, 1);
    assert!(err.contains("refused by 14"), "{err}");
    let written = std::fs::read(&file).expect("the file is written");
    assert_eq!(text(&written), TRIGGER_4);
}

#[test]
fn a_line_that_can_not_be_recorded_is_named_and_nothing_is_written() {
    let limits =
        "a recording has ids up to 255, cores up to 31 and priorities up to 511 (refused by 15)";
    let file = scratch("untouched.vcd");
    let path = file.to_str().expect("text");
    std::fs::write(&file, "as it was").expect("the file can be written");
    for (bad, why) in [
        ("trigger 256", limits),
        ("claim on core 32", limits),
        ("set core 31 to 512", limits),
        ("set source 255 to 65535", limits),
        ("claim 0", "'claim 0' is no command"),
        ("enter on core 0", "'enter on core 0' is no command"),
        ("trigger 65536", "'65536' is no number from 0 to 65535"),
    ] {
        let input = ["trigger 255\n\n# a comment\n", bad, "\nclaim on core 31\n"].concat();
        let told = format!("psic: standard input, line 4: {why}\n");
        let (status, out, err) = answered(&["record"], input.as_bytes());
        assert_eq!((status, out.as_str(), err.as_str()), (1, "", told.as_str()));
        let (status, _, err) = answered(&["record", "--write", path], input.as_bytes());
        assert_eq!((status, err.as_str()), (1, told.as_str()));
        let left = std::fs::read(&file).expect("the file is there");
        assert_eq!(text(&left), "as it was");
    }
}

#[test]
fn a_recording_has_at_most_65535_commands() {
    let most = "trigger 1\n".repeat(65_535);
    let (status, out, err) = answered(&["record"], most.as_bytes());
    assert_eq!((status, err.as_str()), (0, ""));
    assert!(out.ends_with("\n#131069\n0!\n"));
    let more = ["# one more\n", &most, "trigger 1\ntrigger 1\nno command\n"].concat();
    let (status, out, err) = answered(&["record"], more.as_bytes());
    assert_eq!((status, out.as_str()), (1, ""));
    let told = "psic: standard input, line 65537: a recording has at most 65535 commands (refused by 15)\n";
    assert_eq!(err, told);
}

#[test]
fn a_recording_that_can_not_be_written_is_told() {
    let folder = scratch("");
    let folder = folder.to_str().expect("text");
    for words in [
        &["record", EXAMPLE, "--write", folder][..],
        &["record", EXAMPLE, "--write", "/dev/full"],
        &[
            "replay",
            RECORDING,
            "--sources",
            "4",
            "--cores",
            "4",
            "--write",
            folder,
        ],
    ] {
        let (status, out, err) = answered(words, b"");
        assert_eq!((status, out.as_str()), (1, ""), "{words:?}");
        assert!(err.contains(" can't be written: "), "{err}");
    }
}

const ROUTINES: [&str; 5] = ["routines", "--sources", "3", "--cores", "2"];

#[test]
fn the_worked_handover_is_as_stored() {
    let stored = include_str!("../../examples/handover.stdout").to_string();
    let by_file = answered(&[&ROUTINES[..], &[HANDOVER]].concat(), b"");
    assert_eq!(by_file, (0, stored.clone(), String::new()));
    let input = include_bytes!("../../examples/handover.txt");
    assert_eq!(answered(&ROUTINES, input).1, stored);
    assert_eq!(answered(&[&ROUTINES[..], &["-"]].concat(), input).1, stored);
}

/// Calls of the worked handover, up to the claim by core 1.
fn up_to_the_handover() -> String {
    let text = include_str!("../../examples/handover.txt");
    let lines = text.lines().take_while(|line| *line != "exit on core 0");
    lines.map(|line| format!("{line}\n")).collect()
}

#[test]
fn handovers_are_counted_there_and_back() {
    let back = "set source 2 to 6\ntrigger 2\nenter on core 1\nexit on core 0\nenter on core 0\n";
    let input = [&up_to_the_handover(), back].concat();
    let (status, out, err) = answered(&ROUTINES, input.as_bytes());
    assert_eq!((status, err.as_str()), (0, ""));
    let expected = "\
enter on core 0: accepted, id 1, 0 cycles, [2,6]  active [1,2]  1: software  2: software
handovers:
    from core 0 to core 1: 1
    from core 1 to core 0: 1
";
    assert!(out.ends_with(expected), "{out}");
}

/// A refused call is an answer, and the run goes on; without a handover there is no table.
#[test]
fn a_refused_call_is_answered_in_words() {
    let input =
        "enter on core 2\nenter on core 0\nexit on core 1\ntrigger 4\ntrigger 1\ntrigger 1\n";
    let expected = "\
enter on core 2: refused by 3 (there is no such core), 0 cycles, [0,0]  active [-,-]
enter on core 0: refused by 7 (the box is empty), 0 cycles, [0,0]  active [-,-]
exit on core 1: refused by 8 (the core is idle), 0 cycles, [0,0]  active [-,-]
trigger 4: refused by 4 (there is no such source), 0 cycles, [0,0]  active [-,-]
trigger 1: accepted, 0 cycles, [0,0]  active [-,-]  1: source
trigger 1: refused by 6 (the source is pending already), 0 cycles, [0,0]  active [-,-]  1: source
dropped triggers:
    source 1: 1
";
    assert_eq!(
        answered(&ROUTINES, input.as_bytes()),
        (0, expected.to_string(), String::new())
    );
}

/// The other four commands are no calls. What was answered before, and its handovers, are printed.
#[test]
fn a_line_that_is_no_call_is_named_and_ends_the_run() {
    let before = up_to_the_handover();
    let line = before.lines().count() + 1;
    for (bad, why) in [
        (
            "claim on core 0",
            "'claim on core 0' is no call of the simulation",
        ),
        (
            "set core 0 to 0",
            "'set core 0 to 0' is no call of the simulation",
        ),
        ("redeliver 1", "'redeliver 1' is no call of the simulation"),
        ("complete 1", "'complete 1' is no call of the simulation"),
        (
            "enter core 0",
            "'enter core 0' is no call of the simulation",
        ),
        ("exit on core -1", "'-1' is no number from 0 to 65535"),
    ] {
        let input = [&before, bad, "\nexit on core 0\n"].concat();
        let (status, out, err) = answered(&ROUTINES, input.as_bytes());
        assert_eq!(status, 1, "{bad}");
        let last =
            "active [3,1]  1: software  3: software\nhandovers:\n    from core 0 to core 1: 1\n";
        assert!(out.ends_with(last), "{bad}");
        assert_eq!(err, format!("psic: standard input, line {line}: {why}\n"));
    }
}

#[test]
fn a_simulation_that_can_not_be_made_or_read_has_status_1() {
    for (words, expected) in [
        (
            ["routines", "--sources", "3", "--cores", "33", HANDOVER],
            "3 sources and 33 cores: refused by 2 ",
        ),
        (
            ["routines", "--sources", "3", "--cores", "2", "no such file"],
            "no such file can't be opened: ",
        ),
    ] {
        let (status, out, err) = answered(&words, b"");
        assert_eq!((status, out.as_str()), (1, ""), "{words:?}");
        assert!(err.starts_with(&format!("psic: {expected}")), "{err}");
    }
}

/// The program, the wrapper, the library, the C header and the change log are of one version.
#[test]
fn versions_agree() {
    let version = env!("CARGO_PKG_VERSION");
    assert_eq!(psic::library_version(), psic::VERSION);
    let expected = format!("psic {version}, on libpsic {version}\n");
    assert_eq!(answered(&["--version"], b""), (0, expected, String::new()));
    let header = include_str!("../../psic/include/psic.h");
    assert!(header.contains(&format!("#define PSIC_VERSION {}u\n", psic::VERSION)));
    assert!(header.contains(&format!("#define PSIC_VERSION_TEXT \"{version}\"\n")));
    let changes = include_str!("../../../CHANGELOG.md");
    let first = changes.lines().find_map(|line| line.strip_prefix("## "));
    assert!(first.is_some_and(|heading| heading.starts_with(version)));
}

/// The proved program of document 01's table prints the same words for the same commands.
#[test]
fn the_words_are_those_of_the_table_of_runs() {
    let table = include_str!("../../../crates/cases/stdout");
    let set_up: String = (1..=32)
        .map(|id| format!("set source {id} to {id}\nunmask {id}\n"))
        .collect();
    let mut compared = 0;
    for block in table.split("\nstart: ").skip(1) {
        let rows: Vec<&str> = block.lines().skip(1).filter(is_command).collect();
        let rows: Vec<&str> = rows.into_iter().map(without_mark).collect();
        let commands: Vec<&str> = rows
            .iter()
            .filter_map(|row| row.split(": ").next())
            .collect();
        let input = format!("{set_up}{}\n", commands.join("\n"));
        let (status, out, _) = answered(
            &["run", "--sources", "32", "--cores", "2"],
            input.as_bytes(),
        );
        assert_eq!(status, 0);
        let mut printed: Vec<&str> = out.lines().skip(64).collect();
        let after = printed.split_off(rows.len());
        assert_eq!(printed, rows);
        let dropped = |row: &&&str| row.contains(": refused by 6 ");
        let counts = after.iter().filter_map(|line| line.rsplit(' ').next());
        let told: usize = counts.filter_map(|count| count.parse::<usize>().ok()).sum();
        assert_eq!(rows.iter().filter(dropped).count(), told, "{after:?}");
        compared += rows.len();
    }
    assert!(compared > 30, "{compared} rows compared");
}

/// A row of the table begins with its mark, or with as many spaces.
fn is_command(row: &&str) -> bool {
    row.starts_with('T') || row.starts_with("     ")
}

/// The row without its mark and its verdict.
fn without_mark(row: &str) -> &str {
    let row = row[5..].trim_start();
    row.split("   ").next().unwrap_or(row)
}
