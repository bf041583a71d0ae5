//! What a fault of a recording says to a person: a text for each number at each place, and the exact words.

use psic::{Fault, FaultKind};

/// The declarations with document 01's codes, on one line, and the end of the definitions, on the next.
const DEFINED: &str = "$var wire 1 ! stb $end $var wire 3 \" cmd $end $var wire 5 # core $end $var wire 8 $ arg $end \
                       $var wire 9 % prio $end\n$enddefinitions $end\n";

/// The text is refused, and explained in these words, without the number and the offset at their end, which are the fault's.
#[track_caller]
fn explained(text: &[u8], expected: &str) {
    let shown = String::from_utf8_lossy(&text[text.len().saturating_sub(200)..]);
    let fault = psic::read(text)
        .fault
        .unwrap_or_else(|| panic!("no fault: {shown}"));
    let (number, offset) = (fault.kind.number(), fault.offset);
    assert_eq!(
        fault.explain(text),
        format!("{expected} (refused by {number} at byte {offset})"),
        "{shown}"
    );
}

/// The same of a text whose third line is this, after good definitions; the number is given.
#[track_caller]
fn in_the_body(line: &str, number: u8, expected: &str) {
    let text = [DEFINED, line].concat();
    let fault = psic::read(text.as_bytes()).fault;
    assert_eq!(
        fault.map(|fault| fault.kind.number()),
        Some(number),
        "{line}"
    );
    explained(text.as_bytes(), &format!("line 3, {expected}"));
}

#[test]
fn words_that_begin_no_definition() {
    const KEYWORDS: &str =
        "expected $var, $enddefinitions, $date, $version, $comment, $timescale, $scope or $upscope";
    for (text, expected) in [
        ("", "line 1, column 1, at the end of the text: {}"),
        (" \t\r\n ", "line 2, column 2, at the end of the text: {}"),
        ("wire", "line 1, column 1, at 'wire': {}"),
        (
            "$date $end\n\n  $dumpvars",
            "line 3, column 3, at '$dumpvars': {}",
        ),
        ("$end", "line 1, column 1, at '$end': {}"),
    ] {
        explained(text.as_bytes(), &expected.replace("{}", KEYWORDS));
    }
}

#[test]
fn words_that_can_not_stand_in_a_definition() {
    for (text, expected) in [
        (
            "$date a b",
            "column 10, at the end of the text: expected $end to close $date",
        ),
        (
            "$scope module psic $END",
            "column 24, at the end of the text: expected $end to close $scope",
        ),
        ("$var reg 1 ! stb $end", "column 6, at 'reg': expected wire"),
        ("$var ", "column 6, at the end of the text: expected wire"),
        (
            "$var wire 0x1 ! stb $end",
            "column 11, at '0x1': expected a width in decimal digits",
        ),
        (
            "$var wire",
            "column 10, at the end of the text: expected a width in decimal digits",
        ),
        (
            "$var wire 1 abcde stb $end",
            "column 13, at 'abcde': expected a code of 1 to 4 bytes, each from ! to ~",
        ),
        (
            "$var wire 1",
            "column 12, at the end of the text: expected a code of 1 to 4 bytes, each from ! to ~",
        ),
        (
            "$var wire 1 !",
            "column 14, at the end of the text: expected the name stb, cmd, core, arg or prio",
        ),
        (
            "$var wire 8 $ arg [7:0] $end",
            "column 19, at '[7:0]': expected $end to close the declaration of arg",
        ),
        (
            "$var wire 8 $ arg",
            "column 18, at the end of the text: expected $end to close the declaration of arg",
        ),
    ] {
        explained(text.as_bytes(), &format!("line 1, {expected}"));
    }
}

#[test]
fn the_end_of_the_definitions() {
    let twice = DEFINED.replace(
        "$enddefinitions $end",
        "$enddefinitions $enddefinitions $end",
    );
    explained(
        twice.as_bytes(),
        "line 2, column 17, at '$enddefinitions': expected $end after $enddefinitions",
    );
}

#[test]
fn declarations_of_bad_variables() {
    for (text, expected) in [
        ("$var wire 1 ! clk $end", "column 15, at 'clk': expected the name stb, cmd, core, arg or prio"),
        ("$var wire 1 ! $end", "column 15, at '$end': expected the name stb, cmd, core, arg or prio"),
        ("$var wire 7 $ arg $end", "column 15, at 'arg': expected width 8 for arg, not 7"),
        (
            "$var wire 1 ! stb $end $var wire 01 ? stb $end",
            "column 39, at 'stb': expected another name: stb is declared before",
        ),
        (
            "$var wire 1 ! stb $end $var wire 0003 ! cmd $end",
            "column 41, at 'cmd': expected a code of its own for cmd: ! is that of stb",
        ),
        // A code used twice and another width at once: the width is named.
        ("$var wire 1 ! stb $end $var wire 30 ! cmd $end", "column 39, at 'cmd': expected width 3 for cmd, not 30"),
        (
            "$var wire 1 ! stb $end $enddefinitions $end",
            "column 24, at '$enddefinitions': expected declarations of all five variables before it: cmd, core, arg, prio missing",
        ),
    ] {
        let fault = psic::read(text.as_bytes()).fault;
        assert_eq!(fault.map(|fault| fault.kind), Some(FaultKind::BadVariable), "{text}");
        explained(text.as_bytes(), &format!("line 1, {expected}"));
    }
    let wide = format!("$var wire {}9 % prio $end", "9".repeat(60));
    let shown = "9".repeat(40);
    explained(
        wide.as_bytes(),
        &format!("line 1, column 75, at 'prio': expected width 9 for prio, not {shown}.."),
    );
}

#[test]
fn words_that_can_not_stand_after_the_definitions() {
    const ITEM: &str = "expected a time, a change of a variable, $comment, $dumpvars, $dumpall, $dumpon or $dumpoff";
    for (line, expected) in [
        ("$end", "column 1, at '$end': {}"),
        ("#0 $enddefinitions", "column 4, at '$enddefinitions': {}"),
        ("r1.5", "column 1, at 'r1.5': {}"),
        ("#0 \u{7f}\0", "column 4, at '\\x7f\\x00': {}"),
    ] {
        in_the_body(line, 11, &expected.replace("{}", ITEM));
    }
    for (line, expected) in [
        ("#", "column 1, at '#': expected a time, # and decimal digits"),
        ("#0 ##", "column 4, at '##': expected a time, # and decimal digits"),
        ("#18446744073709551616", "column 1, at '#18446744073709551616': expected a time of at most #18446744073709551615"),
        ("b", "column 1, at 'b': expected one or more of 0, 1, x and z after the b"),
        ("B1012 $", "column 1, at 'B1012': expected one or more of 0, 1, x and z after the b"),
        ("1\"", "column 1, at '1\"': expected 1 joined to the code of stb, 1!"),
        ("X", "column 1, at 'X': expected X joined to the code of stb, X!"),
        ("$dumpvars #0 $end", "column 11, at '#0': expected a change of a variable, or $end to close $dumpvars"),
        ("$dumpon b2 $end", "column 9, at 'b2': expected one or more of 0, 1, x and z after the b"),
        ("$dumpon 0!", "column 11, at the end of the text: expected a change of a variable, or $end to close $dumpon"),
        ("$comment a", "column 11, at the end of the text: expected $end to close $comment"),
    ] {
        in_the_body(line, 11, expected);
    }
}

#[test]
fn codes_of_vectors() {
    const CODE: &str = "expected the code of a vector: \" (cmd), # (core), $ (arg) or % (prio)";
    for (line, expected) in [
        ("b1 &", "column 4, at '&': {}"),
        ("b1 !", "column 4, at '!': {}"),
        ("b1", "column 3, at the end of the text: {}"),
        ("$dumpall b1 $end", "column 13, at '$end': {}"),
        (
            "b1010 \"",
            "column 7, at '\"': expected at most 3 bits for cmd, not 4",
        ),
        (
            "b000000000 $",
            "column 12, at '$': expected at most 8 bits for arg, not 9",
        ),
    ] {
        in_the_body(line, 11, &expected.replace("{}", CODE));
    }
    let long = format!("b{} %", "1".repeat(10_000));
    in_the_body(
        &long,
        11,
        "column 10003, at '%': expected at most 9 bits for prio, not 10000",
    );
}

#[test]
fn unknown_values_at_the_end_of_a_stamp() {
    for (line, expected) in [
        ("#0 x! #1", "column 7, at '#1': expected no x or z in stb at the end of the stamp #0"),
        ("#5 Z!", "column 6, at the end of the text: expected no x or z in stb at the end of the stamp #5"),
        ("#0 1! #x", "column 7, at '#x': expected no x or z in cmd at the end of the stamp #0"),
        ("#0 1! b101 \" #1", "column 14, at '#1': expected no x or z in core at the end of the stamp #0"),
        ("#0 1! b100 \" bz0 $ #1", "column 20, at '#1': expected no x or z in arg at the end of the stamp #0"),
        ("#0 1! b11 \" b0 # #0", "column 18, at '#0': expected no x or z in prio at the end of the stamp #0"),
        ("b0 \" b1 $ #7 1! $comment", "column 25, at the end of the text: expected no x or z in prio at the end of the stamp #7"),
    ] {
        in_the_body(line, 13, expected);
    }
}

#[test]
fn times_that_do_not_rise() {
    in_the_body("#7 #7", 14, "column 4, at '#7': expected a time above #7");
    in_the_body(
        "#007 0! #3",
        14,
        "column 9, at '#3': expected a time above #007",
    );
}

#[test]
fn a_command_after_the_65535th() {
    let mut text = [DEFINED, "b10 \" b1 $ #0 1!"].concat();
    for time in 1..=65_535 {
        text += &format!("\n#{} 0! #{} 1!", 2 * time, 2 * time + 1);
    }
    assert_eq!(psic::read(text.as_bytes()).commands.len(), 65_535);
    explained(text.as_bytes(), "line 65538, column 22, at the end of the text: expected no command after the 65535 before it");
    text += " ##";
    explained(
        text.as_bytes(),
        "line 65538, column 23, at '##': expected no command after the 65535 before it",
    );
}

/// Words of any bytes and any length are shown on part of a line, and lines are counted in line feeds.
#[test]
fn words_are_shown_in_print_and_cut() {
    let long = [b"\r\n\r\n \xff".as_slice(), &b"a".repeat(100)].concat();
    let shown = "a".repeat(39);
    explained(
        &long,
        &format!(
            "line 3, column 2, at '\\xff{shown}..': expected $var, $enddefinitions, $date, $version, $comment, $timescale, \
             $scope or $upscope"
        ),
    );
}

/// A fault is shown without its text too, and one that isn't the text's own is explained somehow.
#[test]
fn faults_without_their_text() {
    let fault = Fault {
        kind: FaultKind::TimeNotRising,
        offset: 312,
    };
    assert_eq!(
        fault.to_string(),
        "refused by 14 at byte 312 (the time isn't above the one before)"
    );
    for kind in FaultKind::ALL {
        for text in ["", "$var wire 1", DEFINED, "$var $end $end b1 #0"] {
            for offset in [0, 1, 5, text.len(), usize::MAX] {
                let explained = Fault { kind, offset }.explain(text.as_bytes());
                assert!(explained.contains(": expected "), "{explained}");
            }
        }
    }
}
