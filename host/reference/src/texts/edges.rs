//! Texts at the edges of what document 01 says, each for one point.

use crate::recording::MAX_COMMANDS;

/// Definitions with document 01's codes.
const DEFINED: &str = "$var wire 1 ! stb $end $var wire 3 \" cmd $end $var wire 5 # core $end\n\
                       $var wire 8 $ arg $end $var wire 9 % prio $end $enddefinitions $end\n";

/// What stands after the definitions. Before a `1!` most of them give trigger 1.
const STAMPS: [&str; 50] = [
    "",
    " \t\r\n",
    "1!",
    "#",
    "##",
    "#0",
    "#0 b100 \" b1 $ 1!",
    "#0 b100 \" b1 $ 1! #",
    "#0 b100 \" b1 $ 1! ##",
    "#18446744073709551615 b100 \" b1 $ 1!",
    "#18446744073709551616 b100 \" b1 $ 1!",
    "#0 b100 \" b1 $ 1! #18446744073709551616",
    "#0 b100 \" b1 $ 1! #18446744073709551617 0!",
    "#0 #0",
    "#1 #0",
    "#1 b100 \" b1 $ 1! #1 0!",
    // stb at 1 over stamps, also if it went down and up within one; down again within a stamp.
    "#0 b100 \" b1 $ 1! #1 #2",
    "#0 b100 \" b1 $ 1! #1 0! 1! #2",
    "#0 b100 \" b1 $ 1! 0! #1",
    "#0 b100 \" b1 $ 1! #1 0! #2 1! #3",
    // Values after the strobe, before the first time, at the text's end.
    "#0 1! b100 \" b1 $ #1",
    "b100 \" b1 $ 1! #5 #6",
    "b100 \" b1 $ 1! $comment #0 #1 $end",
    "b100 \" b1 $ 1! $dumpvars #0 $end",
    // x and z, used, unused and extended.
    "#0 1! #1",
    "#0 x! #1",
    "#0 z! 0! #1",
    "#0 b100 \" bx $ 1! #1",
    "#0 b100 \" b1 $ bz % bx # 1! #1",
    "#0 b101 \" b1 $ bx # 1! #1",
    "#0 b0 \" bX1 $ b1 % 1! #1",
    "#0 b11 \" b1 # bZ % 1! #1",
    "#0 bx \" bxxxxxxxx $ 1! #1",
    "#0 B100 \" B1 $ 1! X! 1! #1",
    // Vectors.
    "b",
    "B $",
    "b1 !",
    "b1 \"\"",
    "b1",
    "b12 $",
    "b000000001 $",
    "b0000 \"",
    // Blocks and comments.
    "$dumpvars $end $dumpall $end $dumpon $end $dumpoff $end",
    "$dumpvars 0! bx $ $end #0",
    "$dumpvars $comment $end $end",
    "$dumpvars b1 $end $end",
    "$comment \0 \u{7f} #0 b1 $END $end #0",
    "$end",
    "$enddefinitions $end",
    "#0 b100 \" b1 $ 1! $comment",
];

/// What stands before the definitions' end.
const DEFINITIONS: [&str; 16] = [
    "",
    "$enddefinitions $end",
    "$date \0\u{7f} $var $end $version $end $comment $end $timescale $end $scope $end $upscope $end",
    "$date",
    "$var",
    "$var wire",
    "$var wire 1",
    "$var wire 1 !",
    "$var wire 1 ! stb",
    "$var wire 1 ! $end",
    "$var wire 1 ! stb [0:0] $end",
    "$var wire 00000000000000000000000000000001 ! stb $end $var wire 1 ? stb $end",
    "$var wire 99999999999999999999999999999999 ! stb $end",
    "$var wire 257 ! stb $end",
    "$var wire 1 ! stb $end $var wire 3 ! cmd $end",
    "$var wire 1 \u{7f} stb $end",
];

/// Codes that mean something elsewhere; the first of two is the beginning of the other.
const WITH_CODES: &str = "$var wire 1 b1 stb $end $var wire 3 $end cmd $end $var wire 5 #0 core $end\n\
                          $var wire 8 #0# arg $end $var wire 9 $var prio $end $enddefinitions $end\n\
                          #0 b100 $end b11 #0# 1b1 $dumpvars b0 $end $end #1 0b1 #2 b101 $end b1 #0 1b1 #3";

/// All of them, short and long.
pub fn edges() -> Vec<Vec<u8>> {
    let zeros = "0".repeat(1000);
    let ones = "1".repeat(10_000);
    let mut texts = vec![WITH_CODES.to_string(), DEFINED.replace('$', "$ ")];
    texts.extend(DEFINITIONS.map(|definitions| format!("{definitions} ")));
    texts.extend(DEFINITIONS.map(str::to_string));
    let stamps = STAMPS.map(str::to_string).into_iter().chain([
        format!("#{zeros}7 b100 \" b1 $ 1! #{zeros}8"),
        format!("#{zeros}18446744073709551616"),
        format!("b{ones} $"),
        format!("b{ones}"),
        format!("#0 b100 \" b1 $ 1! b{ones}"),
        strobes(MAX_COMMANDS),
        strobes(MAX_COMMANDS + 1),
        strobes(MAX_COMMANDS) + " #999998 0! #999999 bx $ 1!",
        strobes(MAX_COMMANDS) + " #999998 0! #999999 1! ##",
    ]);
    texts.extend(stamps.map(|stamps| [DEFINED, &stamps].concat()));
    texts.into_iter().map(String::into_bytes).collect()
}

/// Trigger 1 so many times. stb is 1 at the end.
fn strobes(count: usize) -> String {
    let again = |time: usize| format!("\n#{} 0! #{} 1!", 2 * time, 2 * time + 1);
    let rest: String = (1..count).map(again).collect();
    format!("#0 b100 \" b1 $ 1!{rest}")
}
