//! Texts of the bus monitor, each with the commands, the number and the place that document 01's
//! last section and request 1/14 give it, worked out by hand.

use psic_reference::recording::{read, replay, Fault, MAX_COMMANDS};
use psic_reference::records::{Answer, Command, Controller};

use crate::faulty_reader;
use crate::histories::{claim, complete, mask, redeliver, set_core, set_source, trigger, unmask};
use crate::texts::answered;

/// Document 01's own text: trigger 4 alone.
const TRIGGER_4: &str = r#"$timescale 1 ns $end
$scope module psic $end
$var wire 1 ! stb $end
$var wire 3 " cmd $end
$var wire 5 # core $end
$var wire 8 $ arg $end
$var wire 9 % prio $end
$upscope $end
$enddefinitions $end
#0
b100 "
b0 #
b100 $
b0 %
1!
#1
0!
"#;

/// The declarations with document 01's codes.
const DECLARED: &str = r#"$var wire 1 ! stb $end $var wire 3 " cmd $end $var wire 5 # core $end
$var wire 8 $ arg $end $var wire 9 % prio $end "#;

/// The place in a text where a fault shows. It is no part of the text.
const MARK: &str = "‸";

/// The text without its mark, and the mark's offset, or the text's length if there is none.
fn unmarked(marked: &str) -> (Vec<u8>, usize) {
    let text = marked.replace(MARK, "").into_bytes();
    let offset = marked.find(MARK).unwrap_or(text.len());
    (text, offset)
}

/// The text gives this number at the mark, and these commands, to both readers.
#[track_caller]
fn reads(marked: &str, number: u8, commands: &[Command]) -> Option<Fault> {
    let (text, offset) = unmarked(marked);
    let reading = read(&text);
    // The end of a long text is enough to find it by.
    let shown = String::from_utf8_lossy(&text[text.len().saturating_sub(600)..]);
    assert_eq!(
        (reading.number(), reading.offset()),
        (number, offset),
        "{shown}"
    );
    assert!(
        reading.commands == commands,
        "{} commands, the last {:?}: {shown}",
        reading.commands.len(),
        reading.commands.last()
    );
    let second = faulty_reader::read(&text, None);
    assert!(second == answered(&text), "{shown}");
    reading.fault
}

/// The same of a text that ends with these words, after definitions with document 01's codes.
#[track_caller]
fn reads_stamps(marked: &str, number: u8, commands: &[Command]) {
    let definitions = format!("{DECLARED}$enddefinitions $end\n");
    reads(&(definitions + marked), number, commands);
}

/// The same of a text that begins with these definitions and ends with a strobe of trigger 4, which
/// is taken if they show no fault.
#[track_caller]
fn reads_definitions(marked: &str, number: u8) {
    let commands = if number == 0 {
        vec![trigger(4)]
    } else {
        vec![]
    };
    reads(
        &format!("{marked} $enddefinitions $end {STROBE}"),
        number,
        &commands,
    );
}

/// A stamp that ends at the text's end with a strobe of trigger 4.
const STROBE: &str = r#"#0 b100 " b100 $ 1!"#;

#[test]
fn document_01s_text_is_trigger_4() {
    let reading = read(TRIGGER_4.as_bytes());
    assert_eq!(reading.commands, [trigger(4)]);
    // The lines' lengths, newlines not counted, then the newlines.
    let length = 20 + 23 + 22 + 22 + 23 + 22 + 23 + 13 + 20 + 2 + 6 + 4 + 6 + 4 + 2 + 2 + 2 + 17;
    assert_eq!((reading.number(), reading.offset()), (0, length));
}

#[test]
fn document_01s_text_is_replayed_like_t1() {
    let replay = replay(32, 2, TRIGGER_4.as_bytes());
    let accepted = Answer {
        number: 0,
        id: 0,
        cycles: 0,
    };
    assert_eq!(replay.answers, [accepted]);
    assert!(replay.controller.sources[3].is_waiting());
    assert_eq!(replay.controller.current_priorities(), [0, 0]);
}

#[test]
fn cmd_0_to_7_are_the_eight_commands() {
    let given = r#"b101 # b1010 $ b110011 % "#;
    let expected = [
        set_source(10, 51),
        mask(10),
        unmask(10),
        set_core(5, 51),
        trigger(10),
        claim(5),
        redeliver(10),
        complete(10),
    ];
    for (cmd, command) in expected.into_iter().enumerate() {
        reads_stamps(&format!("#0 {given} b{cmd:b} \" 1!"), 0, &[command]);
    }
}

#[test]
fn values_go_to_the_controller_as_read() {
    // The largest and the least, in or out of the controller's range.
    reads_stamps(
        r#"#0 1! b0 " b11111111 $ b111111111 %"#,
        0,
        &[set_source(255, 511)],
    );
    reads_stamps(
        r#"#0 1! b11 " b11111 # b111111111 %"#,
        0,
        &[set_core(31, 511)],
    );
    reads_stamps(r#"#0 1! b000 " b0 $ b000000000 %"#, 0, &[set_source(0, 0)]);
}

#[test]
fn empty_texts_lack_the_definitions() {
    reads("", 11, &[]);
    reads(" \t\r\n", 11, &[]);
    reads("$date today $end", 11, &[]);
    reads(DECLARED, 11, &[]);
    reads(&format!("{DECLARED} $enddefinitions"), 11, &[]);
    reads(&format!("{DECLARED} $enddefinitions $end"), 0, &[]);
}

#[test]
fn separators_are_space_tab_cr_and_lf_and_nothing_else() {
    for separator in [" ", "\t", "\r", "\n", "\r\n", " \t\r\n "] {
        let text = TRIGGER_4.replace([' ', '\n'], separator);
        reads(&text, 0, &[trigger(4)]);
        reads(&format!("{separator}{}", text.trim_end()), 0, &[trigger(4)]);
    }
    for other in ["\u{b}", "\u{c}", "\0", "\u{a0}", ","] {
        reads_stamps(&format!("#0 ‸1!{other}#1"), 11, &[]);
        reads_stamps(&format!("#0 1!{} ‸{other}", r#" b100 " b100 $"#), 11, &[]);
    }
}

#[test]
fn skipped_definitions_may_hold_any_words_but_end() {
    for keyword in [
        "$date",
        "$version",
        "$comment",
        "$timescale",
        "$scope",
        "$upscope",
    ] {
        for skipped in [
            "",
            "$var wire 1 ! stb",
            "#0 1! $enddefinitions",
            "$END $endx",
            "\0 \u{7f} é",
        ] {
            reads_definitions(&format!("{keyword} {skipped} $end {DECLARED}"), 0);
            reads_definitions(&format!("{DECLARED} {keyword} {skipped} $end"), 0);
        }
        // Skipped to the first $end only.
        reads_definitions(&format!("{keyword} $end ‸$end {DECLARED}"), 11);
        // The next $end is that of $enddefinitions, so that the definitions aren't over.
        reads(
            &format!("{DECLARED} {keyword} $enddefinitions $end ‸#0"),
            11,
            &[],
        );
        reads(&format!("{DECLARED} {keyword} $enddefinitions"), 11, &[]);
    }
}

#[test]
fn skipped_words_may_hold_bytes_that_are_no_text() {
    let bytes = [b"$date \x00\x7f\xff \x0b $end ", TRIGGER_4.as_bytes()].concat();
    let reading = read(&bytes);
    assert_eq!((reading.number(), reading.commands), (0, vec![trigger(4)]));
    let bytes = [DECLARED.as_bytes(), b"$enddefinitions $end #0 1!\xff"].concat();
    let reading = read(&bytes);
    assert_eq!((reading.number(), reading.offset()), (11, bytes.len() - 3));
}

#[test]
fn definitions_are_only_those_named() {
    for word in [
        "$dumpvars",
        "$attrbegin",
        "#0",
        "1!",
        "b1",
        "wire",
        "$end",
        "$DATE",
        "$enddefinition",
    ] {
        reads_definitions(&format!("‸{word} {DECLARED}"), 11);
        reads_definitions(&format!("{DECLARED} ‸{word}"), 11);
    }
    let after = |word| format!("{DECLARED} $enddefinitions ‸{word}");
    reads(&after("#0"), 11, &[]);
    reads(&after("$END"), 11, &[]);
    // A second one stands where a time or change may stand.
    reads_stamps("‸$enddefinitions $end", 11, &[]);
}

/// Declarations of all but prio, and then these words.
fn with_prio(words: &str) -> String {
    let others = DECLARED.split("$var wire 9").next().unwrap_or_default();
    format!("{others} {words}")
}

#[test]
fn declarations_may_come_in_any_order_with_any_codes() {
    reads_definitions(&with_prio("$var wire 9 ~~~~ prio $end"), 0);
    reads_definitions(&with_prio("$var wire 9 A prio $end"), 0);
    let last = "$var wire 9 % prio $end ";
    let others = DECLARED.replace(last, "");
    reads_definitions(&format!("{last} $comment x $end {others}"), 0);
}

#[test]
fn words_of_a_declaration_are_judged_in_their_order() {
    for (words, number) in [
        // Each word's own fault.
        ("$var ‸reg 9 % prio $end", 11),
        ("$var ‸Wire 9 % prio $end", 11),
        ("$var wire ‸9a % prio $end", 11),
        ("$var wire ‸-9 % prio $end", 11),
        ("$var wire ‸+9 % prio $end", 11),
        ("$var wire ‸% prio $end", 11),
        ("$var wire 9 ‸abcde prio $end", 11),
        ("$var wire 9 ‸é prio $end", 11),
        ("$var wire 9 ‸\u{7f} prio $end", 11),
        ("$var wire 9 ‸\u{1f} prio $end", 11),
        ("$var wire 9 % ‸priority $end", 12),
        ("$var wire 9 % ‸Prio $end", 12),
        ("$var wire 9 % ‸$end $end", 12),
        ("$var wire 9 % prio ‸[8:0] $end", 11),
        ("$var wire 9 % prio ‸$var", 11),
        // The earlier of two.
        ("$var ‸reg 9a abcde x y", 11),
        ("$var wire ‸9a abcde x y", 11),
        ("$var wire 8 ‸abcde x y", 11),
        ("$var wire 8 % ‸x y", 12),
        // A width, a name declared before and a code used before show at the name.
        ("$var wire 8 % ‸prio $end", 12),
        ("$var wire 0 % ‸prio $end", 12),
        ("$var wire 9 ! ‸prio $end", 12),
        ("$var wire 8 & ‸arg $end", 12),
        ("$var wire 8 ! ‸arg ]", 12),
    ] {
        reads_definitions(&with_prio(words), number);
    }
}

#[test]
fn widths_may_have_leading_zeros_and_any_size() {
    let zeros = "0".repeat(1000);
    reads_definitions(&with_prio(&format!("$var wire {zeros}9 % prio $end")), 0);
    // Equal to 9 modulo 2^8, 2^16, 2^32, 2^64 and 2^128.
    for width in [
        "265",
        "65545",
        "4294967305",
        "18446744073709551625",
        "340282366920938463463374607431768211465",
        &"9".repeat(1000),
    ] {
        reads_definitions(&with_prio(&format!("$var wire {width} % ‸prio $end")), 12);
    }
}

#[test]
fn missing_variables_show_at_enddefinitions() {
    for (name, declaration) in [
        ("stb", "$var wire 1 ! stb $end"),
        ("cmd", "$var wire 3 \" cmd $end"),
        ("core", "$var wire 5 # core $end"),
        ("arg", "$var wire 8 $ arg $end"),
        ("prio", "$var wire 9 % prio $end"),
    ] {
        let others = DECLARED.replace(declaration, "");
        let fault = reads(&format!("{others} ‸$enddefinitions #0"), 12, &[]);
        assert!(fault.is_some_and(|fault| fault.reason.to_string().contains(name)));
    }
    reads("‸$enddefinitions $end", 12, &[]);
}

#[test]
fn codes_may_be_words_that_mean_something_elsewhere() {
    let text = r#"$var wire 1 $end stb $end $var wire 3 #0 cmd $end $var wire 5 b1 core $end
        $var wire 8 $enddefinitions arg $end $var wire 9 $var prio $end"#;
    // `$enddefinitions` has 15 bytes.
    reads_definitions(&text.replace("8 $end", "8 ‸$end"), 11);
    let text = text
        .replace("$enddefinitions", "1$en")
        .replace("$var prio", "$com prio");
    let start = format!("{text} $enddefinitions $end ");
    let body = r#"#0 1$end b100 #0 b100 1$en #1 0$end #2 b101 #0 b1 b1 1$end #3 0$end
        #4 $dumpon b11 #0 b0 $com 1$end $end #5"#;
    reads(
        &(start.clone() + body),
        0,
        &[trigger(4), claim(1), set_core(1, 0)],
    );
    // In a block `$end` ends it, but after a vector it is a code: here stb's, which no vector has.
    reads(&(start.clone() + "#0 $dumpon b1 ‸$end $end"), 11, &[]);
    reads(
        &(start + "#0 $dumpon b1 #0 $end #1 1$end b1 1$en"),
        0,
        &[mask(1)],
    );
}

#[test]
fn a_vectors_code_may_be_end_in_a_block_too() {
    let text = DECLARED.replace("3 \" cmd", "3 $end cmd");
    let start = format!("{text} $enddefinitions $end ");
    let body = "#0 $dumpon b100 $end b110 $ $end 1! #1";
    reads(&(start.clone() + body), 0, &[trigger(6)]);
    reads(&(start + "#0 $dumpon b100 $end b110 $"), 11, &[]);
}

#[test]
fn codes_are_matched_whole_and_keep_their_case() {
    let start = r#"$var wire 1 a stb $end $var wire 3 ab cmd $end $var wire 5 abc core $end
        $var wire 8 A arg $end $var wire 9 AB prio $end $enddefinitions $end "#;
    let reads_after = |body: &str, number, commands: &[Command]| {
        reads(&format!("{start}{body}"), number, commands);
    };
    reads_after("#0 1a b101 ab b11 abc", 0, &[claim(3)]);
    reads_after("#0 1a b100 ab b11 A", 0, &[trigger(3)]);
    reads_after("#0 ‸1ab", 11, &[]);
    reads_after("#0 ‸1A", 11, &[]);
    reads_after("#0 ‸1", 11, &[]);
    reads_after("#0 b1 ‸a", 11, &[]);
    reads_after("#0 b1 ‸Ab", 11, &[]);
    reads_after("#0 b1 ‸abcd", 11, &[]);
    reads_after("#0 b1 ‸#1", 11, &[]);
}

#[test]
fn capitals_are_read_as_small_in_values_only() {
    reads_stamps(r#"#0 B100 " BX # B100 $ bZ % 1!"#, 0, &[trigger(4)]);
    reads_stamps(r#"#0 X! 1! b100 " b100 $ Z! ‸#1"#, 13, &[]);
    reads_stamps("#0 ‸$Comment $end", 11, &[]);
    reads_stamps("#0 ‸$DUMPALL $end", 11, &[]);
    reads_stamps("#0 $dumpall ‸$End", 11, &[]);
}

#[test]
fn vectors_have_one_or_more_bits() {
    reads_stamps("#0 ‸b \"", 11, &[]);
    reads_stamps("#0 ‸B \"", 11, &[]);
    reads_stamps("#0 ‸b2 \"", 11, &[]);
    reads_stamps("#0 ‸b1-0 \"", 11, &[]);
    reads_stamps("#0 ‸bb1 \"", 11, &[]);
    reads_stamps("#0 ‸r1.5 \"", 11, &[]);
    reads_stamps("#0 ‸100 \"", 11, &[]);
}

#[test]
fn vectors_longer_than_their_variables_show_at_the_code() {
    reads_stamps(r#"#0 b0001 ‸" 1!"#, 11, &[]);
    reads_stamps(r#"#0 b000000 ‸#"#, 11, &[]);
    reads_stamps(r#"#0 b000000000 ‸$"#, 11, &[]);
    reads_stamps(r#"#0 b0000000000 ‸%"#, 11, &[]);
    reads_stamps(r#"#0 bxxxx ‸""#, 11, &[]);
    let long = "0".repeat(10_000);
    reads_stamps(&format!("#0 b{long} ‸%"), 11, &[]);
    reads_stamps(&format!("#0 b{long}"), 11, &[]);
    // stb is no vector.
    reads_stamps("#0 b1 ‸!", 11, &[]);
    reads_stamps("#0 ‸b !", 11, &[]);
}

#[test]
fn shorter_vectors_are_extended() {
    // Zeros after 0 or 1.
    reads_stamps(r#"#0 1! b1 " b1 $"#, 0, &[mask(1)]);
    reads_stamps(r#"#0 1! b01 " b01 $"#, 0, &[mask(1)]);
    reads_stamps(
        r#"#0 1! b111 " b111 $ b11 " b0 # b0 %"#,
        0,
        &[set_core(0, 0)],
    );
    // x after x, z after z.
    reads_stamps(r#"#0 1! bx " b1 $ ‸#1"#, 13, &[]);
    reads_stamps(r#"#0 1! b1 " bz0 $ ‸#1"#, 13, &[]);
    reads_stamps(r#"#0 1! b1 " b0x $ ‸#1"#, 13, &[]);
    // What was held before doesn't show through.
    reads_stamps(r#"#0 1! bxx1 " b1 " bzzzzzzzz $ b10 $"#, 0, &[mask(2)]);
}

#[test]
fn stamps_end_at_times_and_at_the_texts_end() {
    let strobe = r#"#0 b100 " b100 $ 1!"#;
    reads_stamps(strobe, 0, &[trigger(4)]);
    reads_stamps(&format!("{strobe} #1"), 0, &[trigger(4)]);
    // A text without a time has no stamp.
    reads_stamps(r#"b100 " b100 $ 1!"#, 0, &[]);
    reads_stamps(r#"b100 " b100 $ x!"#, 0, &[]);
    // Changes before the first time carry into it, and it ends no stamp.
    reads_stamps(r#"b100 " b100 $ 1! #0"#, 0, &[trigger(4)]);
    reads_stamps(r#"b100 " b100 $ 1! #7 0!"#, 0, &[]);
    reads_stamps(r#"b100 " b100 $ 1! #7 b101 $ #8"#, 0, &[trigger(5)]);
    reads_stamps(r#"x! #0 0!"#, 0, &[]);
    reads_stamps(r#"$dumpvars b100 " b100 $ 1! $end #0 #1"#, 0, &[trigger(4)]);
}

#[test]
fn strobes_are_rises_from_stamp_to_stamp() {
    let held = r#"b100 " b100 $ "#;
    // 1 at the end of two stamps in a row, also if it went 0 and 1 again within the second.
    reads_stamps(&format!("{held} #0 1! #1 #2"), 0, &[trigger(4)]);
    reads_stamps(&format!("{held} #0 1! #1 1! #2"), 0, &[trigger(4)]);
    reads_stamps(&format!("{held} #0 1! #1 0! 1! #2"), 0, &[trigger(4)]);
    reads_stamps(&format!("{held} #0 1! #1 b101 $ #2"), 0, &[trigger(4)]);
    // 1 and 0 again within a stamp.
    reads_stamps(&format!("{held} #0 1! 0! #1"), 0, &[]);
    reads_stamps(&format!("{held} #0 1! x! 0! #1"), 0, &[]);
    // 0 at the end of the stamp between.
    reads_stamps(
        &format!("{held} #0 1! #1 0! #2 1!"),
        0,
        &[trigger(4), trigger(4)],
    );
    // stb is 0 until given.
    reads_stamps(&format!("{held} #0 #1 #2 1!"), 0, &[trigger(4)]);
}

/// The times of the commands of a text that ends with these words, to both readers.
#[track_caller]
fn taken_at(stamps: &str, times: &[u64]) {
    let text = format!("{DECLARED}$enddefinitions $end\nb100 \" b1 $ {stamps}");
    assert_eq!(read(text.as_bytes()).times, times, "{stamps}");
    let second = faulty_reader::read(text.as_bytes(), None);
    let second: Vec<u64> = second.0.into_iter().map(|(time, _)| time).collect();
    assert_eq!(second, times, "{stamps}");
}

#[test]
fn commands_have_the_time_of_the_stamp_at_whose_end_they_are_taken() {
    taken_at("#5 1! #9", &[5]);
    taken_at("#5 1!", &[5]);
    taken_at("#5 1! ##", &[5]);
    taken_at("#0 1! #0", &[0]);
    // Changes before the first time carry into it.
    taken_at("1! #7", &[7]);
    // One strobe over three stamps, then another.
    taken_at("#3 1! #4 1! #6 #8 0! #10 1! #12", &[3, 10]);
    taken_at("#0007 1! #8 0! #18446744073709551615 1!", &[7, u64::MAX]);
    taken_at("#4294967297 1! #4294967298 x!", &[4_294_967_297]);
    taken_at("1!", &[]);
}

#[test]
fn values_are_those_at_the_stamps_end() {
    reads_stamps(r#"#0 1! b100 " b100 $"#, 0, &[trigger(4)]);
    reads_stamps(r#"#0 b100 " b100 $ 1! b101 $ b111 ""#, 0, &[complete(5)]);
    reads_stamps(
        r#"#0 b100 " b100 $ 1! b1 $ #1 0! b10 $ #2 1! #3 b11 $"#,
        0,
        &[trigger(1), trigger(2)],
    );
    reads_stamps(r#"#0 b100 " bx $ 1! b1 $"#, 0, &[trigger(1)]);
}

#[test]
fn unknown_stb_shows_at_the_end_of_any_stamp() {
    reads_stamps("#0 x! ‸#1", 13, &[]);
    reads_stamps("#0 z!", 13, &[]);
    reads_stamps("#0 #1 #2 Z! ‸#3", 13, &[]);
    reads_stamps("#0 x! 0! #1", 0, &[]);
}

#[test]
fn unknown_values_show_at_a_strobe_that_uses_them() {
    // Every command uses cmd, and until first given it is x.
    reads_stamps(r#"#0 1! b1 $ ‸#1"#, 13, &[]);
    reads_stamps(r#"#0 1! b10z " b1 $ b1 # ‸#1"#, 13, &[]);
    let uses = [
        "arg prio",
        "arg",
        "arg",
        "core prio",
        "arg",
        "core",
        "arg",
        "arg",
    ];
    let zeros = [
        set_source(0, 0),
        mask(0),
        unmask(0),
        set_core(0, 0),
        trigger(0),
        claim(0),
        redeliver(0),
        complete(0),
    ];
    for (cmd, (uses, command)) in uses.into_iter().zip(zeros).enumerate() {
        for (name, code) in [("core", "#"), ("arg", "$"), ("prio", "%")] {
            for unknown in ["x", "z", "01z", "x1"] {
                let values = format!("b0 # b0 $ b0 % b{unknown} {code} b{cmd:b} \"");
                if uses.contains(name) {
                    reads_stamps(&format!("#0 1! {values} ‸#1"), 13, &[]);
                } else {
                    reads_stamps(&format!("#0 1! {values} #1"), 0, &[command]);
                }
            }
        }
    }
}

#[test]
fn unknown_values_show_at_no_other_stamp() {
    let text = r#"#0 b100 " b1 $ 1! #1 bx $ bx " #2 0! #3"#;
    reads_stamps(text, 0, &[trigger(1)]);
}

#[test]
fn times_are_decimal_up_to_2_to_64_minus_1_and_rise() {
    reads_stamps("#0 #1 #18446744073709551615", 0, &[]);
    reads_stamps("#18446744073709551615", 0, &[]);
    reads_stamps("‸#18446744073709551616", 11, &[]);
    reads_stamps("#5 ‸#18446744073709551616", 11, &[]);
    reads_stamps("#5 ‸#18446744073709551622", 11, &[]);
    reads_stamps("#5 ‸#99999999999999999999999999999999999999999999", 11, &[]);
    let zeros = "0".repeat(1000);
    reads_stamps(
        &format!("#{zeros} #{zeros}1 #0000000000000000000002"),
        0,
        &[],
    );
    reads_stamps(&format!("#{zeros} ‸#{zeros}"), 14, &[]);
    reads_stamps("#0 ‸#0", 14, &[]);
    reads_stamps("#7 ‸#7", 14, &[]);
    reads_stamps("#7 ‸#6", 14, &[]);
    reads_stamps("#7 ‸#007", 14, &[]);
    reads_stamps("#9 #10 ‸#9", 14, &[]);
    reads_stamps("#18446744073709551615 ‸#18446744073709551615", 14, &[]);
    // The first time is never too early.
    reads_stamps("#0", 0, &[]);
    for bad in ["#", "##", "#1x", "#-1", "#+1", "#1.5", "#x", "#\u{661}"] {
        reads_stamps(&format!("‸{bad}"), 11, &[]);
        reads_stamps(&format!("#0 ‸{bad}"), 11, &[]);
    }
}

#[test]
fn words_with_a_hash_end_the_stamp_where_a_time_may_stand() {
    let strobe = r#"#5 b100 " b100 $ 1! "#;
    let four = [trigger(4)];
    // Also if they are no times: the command stands.
    for (word, number) in [
        ("##", 11),
        ("#", 11),
        ("#18446744073709551616", 11),
        ("#5", 14),
        ("#4", 14),
    ] {
        reads_stamps(&format!("{strobe} ‸{word}"), number, &four);
        reads_stamps(&format!("{strobe} #6 0! ‸{word}"), number, &four);
        // 13 comes before 11 and 14.
        reads_stamps(&format!("#5 x! ‸{word}"), 13, &[]);
        reads_stamps(&format!("#5 1! ‸{word}"), 13, &[]);
    }
    // Before the first time no stamp is open.
    reads_stamps("x! ‸##", 11, &[]);
    reads_stamps("1! ‸##", 11, &[]);
    // Not in a block, not in a comment, not as a code, and no other word that is against the grammar.
    reads_stamps(&format!("{strobe} $dumpon ‸#6 $end"), 11, &[]);
    reads_stamps("#5 x! $dumpon ‸#6 $end", 11, &[]);
    reads_stamps(&format!("{strobe} b1 ‸#6"), 11, &[]);
    reads_stamps(
        &format!("{strobe} $comment #6 ## $end b101 $"),
        0,
        &[trigger(5)],
    );
    reads_stamps("#5 x! $comment #6 $end 0!", 0, &[]);
    reads_stamps(&format!("{strobe} ‸$end"), 11, &[]);
    reads_stamps("#5 x! ‸hello", 11, &[]);
}

#[test]
fn at_the_texts_end_an_open_stamp_ends_before_what_is_missing() {
    let strobe = r#"#5 b100 " b100 $ 1! "#;
    for unfinished in [
        "$comment",
        "$comment #6",
        "$dumpall",
        "$dumpvars b1 #",
        "b1",
        "$dumpoff b1",
    ] {
        reads_stamps(&format!("{strobe} {unfinished}"), 11, &[trigger(4)]);
        reads_stamps(&format!("{strobe} #6 {unfinished}"), 11, &[trigger(4)]);
        reads_stamps(&format!("#5 x! {unfinished}"), 13, &[]);
        reads_stamps(&format!("#5 1! {unfinished}"), 13, &[]);
        reads_stamps(&format!("#5 {unfinished}"), 11, &[]);
        // No stamp is open before the first time.
        reads_stamps(&format!("x! {unfinished}"), 11, &[]);
    }
}

#[test]
fn blocks_hold_changes_only() {
    for keyword in ["$dumpvars", "$dumpall", "$dumpon", "$dumpoff"] {
        reads_stamps(&format!("#0 {keyword} $end"), 0, &[]);
        reads_stamps(
            &format!("#0 {keyword} b100 \" b100 $ $end 1!"),
            0,
            &[trigger(4)],
        );
        reads_stamps(
            &format!("#0 {keyword} b100 \" b100 $ 1! $end"),
            0,
            &[trigger(4)],
        );
        reads_stamps(&format!("{keyword} x! $end #0 0!"), 0, &[]);
        for word in ["#1", "$comment", "$dumpvars", "$var", "b", "1"] {
            reads_stamps(&format!("#0 {keyword} ‸{word} $end"), 11, &[]);
        }
        reads_stamps(&format!("#0 {keyword} b1 ‸$end"), 11, &[]);
    }
    // Only $comment of the skipped ones may stand after the definitions.
    for keyword in [
        "$date",
        "$version",
        "$timescale",
        "$scope",
        "$upscope",
        "$var",
    ] {
        reads_stamps(&format!("#0 ‸{keyword} $end"), 11, &[]);
    }
}

/// So many strobes of trigger 4, the last at the text's end.
fn strobes(count: usize) -> String {
    let mut text = format!("{DECLARED}$enddefinitions $end b100 \" b100 $");
    for strobe in 0..count {
        text += &format!(" #{} 0! #{} 1!", 2 * strobe, 2 * strobe + 1);
    }
    text
}

#[test]
fn commands_after_the_65535th_are_refused() {
    assert_eq!(MAX_COMMANDS, 65_535);
    let all = vec![trigger(4); 65_535];
    let full = strobes(65_535);
    reads(&full, 0, &all);
    reads(&(full.clone() + " #999999"), 0, &all);
    reads(&(full.clone() + " ‸##"), 11, &all);
    let over = strobes(65_536);
    reads(&over, 19, &all);
    reads(&(over.clone() + " ‸#999999 #1"), 19, &all);
    // At one place 13 comes before 19, and 19 before 11 and 14.
    reads(&(over.clone() + " ‸##"), 19, &all);
    reads(&(over.clone() + " ‸#0"), 19, &all);
    reads(&(over.clone() + " $comment"), 19, &all);
    reads(&(over.clone() + " bx $ ‸#999999"), 13, &all);
    reads(&(over.clone() + " bx $ ‸##"), 13, &all);
    // The strobe that isn't one any more, and a fault before it.
    reads(&(over.clone() + " 0! #999999"), 0, &all);
    reads(&(over + " ‸hello #999999"), 11, &all);
}

#[test]
fn the_first_fault_ends_the_reading() {
    let faults = ["hello", "#0", "x! #2", "1!", "$dumpon #9", "b1 b1", "$var"];
    for first in ["‸hello", "‸#0", "x! ‸#5"] {
        let number = match first {
            "‸hello" => 11,
            "‸#0" => 14,
            _ => 13,
        };
        for second in faults {
            reads_stamps(&format!("#0 #1 {first} {second} #99"), number, &[]);
        }
    }
}

#[test]
fn replay_goes_on_after_refused_commands() {
    let text = format!(
        "{DECLARED}$enddefinitions $end b100 # b100 $ b11 % \
         #0 b10 \" 1! #1 0! #2 b100 \" 1! #3 0! #4 1! #5 0! #6 b101 \" 1! #7 0! #8 b0 # 1!"
    );
    let replay = replay(32, 2, text.as_bytes());
    assert_eq!(replay.reading.number(), 0);
    assert_eq!(replay.reading.offset(), text.len());
    let expected = [unmask(4), trigger(4), trigger(4), claim(4), claim(0)];
    assert_eq!(replay.reading.commands, expected);
    let answers: Vec<_> = replay
        .answers
        .iter()
        .map(|answer| (answer.number, answer.id, answer.cycles))
        .collect();
    assert_eq!(
        answers,
        [(0, 0, 0), (0, 0, 1), (6, 0, 0), (3, 0, 0), (0, 4, 0)]
    );
    assert_eq!(replay.controller.current_priorities(), [1, 0]);
}

#[test]
fn replay_runs_the_commands_before_a_fault() {
    let text = format!("{DECLARED}$enddefinitions $end {STROBE} ##");
    let replay = replay(8, 1, text.as_bytes());
    assert_eq!(
        (replay.reading.number(), replay.reading.offset()),
        (11, text.len() - 2)
    );
    assert_eq!(replay.answers.len(), 1);
    assert!(replay.controller.sources[3].pending);
}

#[test]
fn refused_commands_count_towards_the_limit() {
    let text = strobes(65_536);
    let replay = replay(8, 1, text.as_bytes());
    assert_eq!(
        (replay.reading.number(), replay.reading.offset()),
        (19, text.len())
    );
    assert_eq!(replay.answers.len(), 65_535);
    // The first is accepted; each further trigger is one of a pending source.
    assert_eq!(replay.answers[0].number, 0);
    assert!(replay.answers[1..].iter().all(|answer| answer.number == 6));
}

#[test]
fn sizes_out_of_range_are_refused_before_any_reading() {
    for (n, m) in [(0, 1), (129, 1), (1, 0), (1, 33), (65_535, 65_535)] {
        for text in ["", "hello", TRIGGER_4] {
            let replay = replay(n, m, text.as_bytes());
            assert_eq!((replay.reading.number(), replay.reading.offset()), (2, 0));
            assert_eq!((replay.reading.commands, replay.answers), (vec![], vec![]));
            assert_eq!(replay.controller, Controller::reset(1, 1));
        }
    }
    for (n, m) in [(1, 1), (128, 32)] {
        let replay = replay(n, m, b"");
        assert_eq!((replay.reading.number(), replay.reading.offset()), (11, 0));
        assert_eq!(replay.controller, Controller::reset(n, m));
    }
}

#[track_caller]
fn explained(text: &str, expected: &str) {
    let fault = read(text.as_bytes()).fault.expect("the text has a fault");
    assert_eq!(fault.explain(text.as_bytes()), expected);
}

#[test]
fn faults_in_definitions_are_explained_to_a_person() {
    explained(
        "",
        "line 1, column 1, at the end of the text: expected $date, $version, $comment, \
        $timescale, $scope, $upscope, $var or $enddefinitions (11)",
    );
    explained(
        "$date\n  $end\n  $var reg 1",
        "line 3, column 8, at `reg`: expected wire (11)",
    );
    explained(
        "$var wire 2 ! stb",
        "line 1, column 15, at `stb`: expected width 1 for stb (12)",
    );
    explained(
        "$var wire 1 ! clk",
        "line 1, column 15, at `clk`: expected the name stb, cmd, core, \
        arg or prio (12)",
    );
    explained(
        "\t$enddefinitions $end",
        "line 1, column 2, at `$enddefinitions`: expected stb to be \
        declared before (12)",
    );
}

#[test]
fn faults_after_the_definitions_are_explained_to_a_person() {
    let defined = format!("{DECLARED}$enddefinitions $end\n");
    let explained = |body: &str, expected: &str| explained(&(defined.clone() + body), expected);
    explained(
        "#7\nx!\n#8",
        "line 5, column 1, at `#8`: expected no x or z in stb at the end of \
        the stamp #7 (13)",
    );
    explained(
        "#0 b100 \" 1! #1",
        "line 3, column 14, at `#1`: expected no x or z in arg at the end \
        of the stamp #0 (13)",
    );
    explained(
        "#7 #6",
        "line 3, column 4, at `#6`: expected a time above #7 (14)",
    );
    explained(
        "#0 b1001\r\n\"",
        "line 4, column 1, at `\"`: expected at most 3 bits for cmd (11)",
    );
    explained(
        "#0 \u{7f}\u{e9}",
        "line 3, column 4, at `\\x7f\\xc3\\xa9`: expected a time, a bit joined to the \
        code of stb, b joined to bits, $comment, $dumpvars, $dumpall, $dumpon or $dumpoff (11)",
    );
    let long = "9".repeat(50);
    explained(
        &format!("#{long}"),
        &format!(
            "line 3, column 1, at `#{}`..: expected a time of at \
        most 18446744073709551615 (11)",
            "9".repeat(39)
        ),
    );
}

#[test]
fn refused_sizes_are_explained_to_a_person() {
    let sizes = replay(0, 0, b"")
        .reading
        .fault
        .expect("no controller has 0 sources");
    assert_eq!(
        sizes.explain(b""),
        "expected 1 to 128 sources and 1 to 32 cores (2)"
    );
}
