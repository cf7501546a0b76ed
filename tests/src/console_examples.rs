//! The console's answers by hand, for the lines of its description and the paper's tables: the model has to give them before it may judge.

use crate::console_check::{check, Counts, Run};
use crate::console_folder::{File, Folder};
use crate::console_model::Console;
use crate::console_program::Ending;
use crate::console_script::{Feed, Line, Script};
use crate::console_watch::Watch;
use crate::{callers_check, charts_check, delays_check, loops_check, model_check, queue_check, records_check, small_check};

/// A session as it is to be seen: after `>` what is typed. The paper's Fig. 1 and Fig. 2, its tables "No marks" and "Marks 1 11", loops
/// over them and over a table whose second function no loop names, and the lines of the console's description.
const EXAMPLES: &str = "\
>tick
no unit
>
># a comment
>load missing
no file
>fresh 0 1 1
refused 1
>fresh 1 1
line 6: expected fresh P S C
>mark 1 1
line 7: expected mark Q R C
>unmark 1 1 1 1
line 8: expected unmark Q R C
>row 1
line 9: expected row Q R
>judge
line 10: expected judge Q L L ..
>load
line 11: expected load FILE
>save a b
line 12: expected save FILE
>search
line 13: expected search Q
>read 1
line 14: expected read
>tick\u{20}
no unit
>bank  1
line 16: expected bank
>Tick
line 17: expected a command
>\u{20}tick
no unit
>vector 4294967296
line 19: expected vector Q
>vector 4294967295
no unit
>\ttick\t \t
no unit
>tick\r
no unit
>\ttick \r
no unit
>tick\r\r
line 24: expected a command
>tick\r\t
line 25: expected a command
>\rtick
line 26: expected a command
>tick\u{b}
line 27: expected a command
>\r
>\u{20}
>\t \t
>\u{20}\t\r
>\r\r
line 32: expected a command
>\r\u{20}
line 33: expected a command
>\u{20}# a comment after a blank
>\t\t#\r
>\r# no comment
line 36: expected a command
>tick # no comment
line 37: expected tick
>load  missing
no file
>\tload\tmissing \r
no file
>load missing\r missing
line 40: expected load FILE
>load \t\r
line 41: expected load FILE
>fresh\t1 1\t 1 1
line 42: expected fresh P S C
>vector 1\r 1
line 43: expected vector Q
>vector 1\r\r
line 44: expected vector Q
>vector \r1
line 45: expected vector Q
>vector\t \t1
no unit
>loop 1 2
no unit
>loop
no unit
>loop 1 x
line 49: expected loop Q Q ..
>\tfresh  1 5\t9 \r
ok
>mark 1 1 1
ok
>mark 1 1 9
ok
>mark 1 2 2
ok
>mark 1 2 3
ok
>mark 1 2 8
ok
>mark 1 3 4
ok
>mark 1 4 5
ok
>mark 1 4 6
ok
>mark 1 5 7
ok
>mark 1 5 8
ok
>vector 1
vector 10110001
>states 1
states 5: 177 189 183 187 191
>greedy 1
greedy 2 2 7 sum 11
>bound 1
bound 3
>upper 1
upper 5
>constant 1
constant 7
>read
refused 8
>search 1
ok
>read
plan 1 cycle 3 4 sum 7
>loop 1
loop cycle 4 3 sum 7
>judge 1 3 4
yes
>judge 1 3
no
>judge 1
refused 9
>judge 1 256
refused 9
>judge 2
refused 2
>table 1
     1  2  3  4  5  6  7  8  9
  1  x  .  .  .  .  .  .  .  x
  2  .  x  x  .  .  .  .  x  .
  3  .  .  .  x  .  .  .  .  .
  4  .  .  .  .  x  x  .  .  .
  5  .  .  .  .  .  .  x  x  .
>diagram 1
digraph function_1 {
  \"10110001\" -> \"10111101\" [label=2];
  \"10110001\" -> \"10110111\" [label=3];
  \"10110001\" -> \"10111011\" [label=4];
  \"10110001\" -> \"10110001\" [label=7];
  \"10110001\" -> \"10110001\" [label=9];
  \"10111101\" -> \"10111111\" [label=2];
  \"10111101\" -> \"10110001\" [label=7];
  \"10111101\" -> \"10110001\" [label=9];
  \"10110111\" -> \"10111011\" [label=4, style=bold];
  \"10110111\" -> \"10110001\" [label=7];
  \"10110111\" -> \"10110001\" [label=9];
  \"10111011\" -> \"10110111\" [label=3, style=bold];
  \"10111011\" -> \"10110001\" [label=7];
  \"10111011\" -> \"10110001\" [label=9];
  \"10111111\" -> \"10110001\" [label=7];
  \"10111111\" -> \"10110001\" [label=9];
}
>list
function 1
vector 10110001
bound 3 upper 5
states 5
greedy 2 2 7 sum 11
best 3 4 sum 7
constant 7
>start 1
ok
>bank
177 0 0 0
>start 1
refused 10
>tick
ok
>bank
88 0 0 0
>mark 2 6 10
refused 2
>mark 1 6 10
refused 3
>mark 1 5 10
refused 4
>mark 256 1 1
refused 2
>mark 257 1 1
refused 2
>fresh 1 1 4294967295
refused 1
>read
plan 1 cycle 3 4 sum 7
>save missing/figure
not written
>save figure
ok
>bank
88 0 0 0
>mark 1 1 1
ok
>read
refused 8
>bank
0 0 0 0
>start 1
ok
>start 1
refused 10
>mark 1 1 10
refused 4
>mark 1 1
line 100: expected mark Q R C
>bank
177 0 0 0
>search 1
ok
>bank
177 0 0 0
>unmark 1 1 2
ok
>bank
0 0 0 0
>start 1
ok
>load figure
ok
>bank
0 0 0 0
>row 1 1
row 10110001
>save figure\r
ok
>save  a\rb\u{20}
ok
>load a\rb
ok
>load a
no file
>fresh 02 03 0000000000000005
ok
>mark 1 1 1
ok
>mark 1 1 4
ok
>mark 1 2 2
ok
>mark 1 3 3
ok
>mark 1 3 5
ok
>mark 2 1 2
ok
>mark 2 1 5
ok
>mark 2 2 4
ok
>mark 2 3 1
ok
>mark 2 3 3
ok
>row 1 1
row 0110
>row 2 1
row 1010
>row 1 2
row 1011
>row 2 2
row 0110
>row 1 3
refused 2
>loop 1 2
loop cycle 1 3 sum 4
>loop 2 1
loop cycle 3 1 sum 4
>loop\t01  2 1 2\r
loop cycle 1 3 1 3 sum 8
>loop 1
loop cycle 1 4 sum 5
>loop 2 2
loop cycle 4 1 sum 5
>loop
refused 17
>loop 1 2 1 2 1 2 1 2 1
refused 17
>loop 3 3 3 3 3 3 3 3 3
refused 17
>loop 1 3
refused 2
>loop 0
refused 2
>loop 1 257
refused 2
>loop 4294967295
refused 2
>loop 1 4294967296
line 142: expected loop Q Q ..
>loop 1 -1
line 143: expected loop Q Q ..
>read
refused 8
>start 2
ok
>search 2
ok
>loop 1 2
loop cycle 1 3 sum 4
>bank
11 6 0 0
>read
plan 2 cycle 1 4 sum 5
>fresh 2 1 11
ok
>mark 1 1 11
ok
>mark 2 1 1
ok
>states 1
states 1: 0
>loop 1
refused 7
>loop 2
loop cycle 1 sum 1
>unmark 1 1 11
ok
>mark 1 1 10
ok
>loop 1
loop cycle 1 sum 1
>fresh 1 1 1
ok
>loop 1 1 1 1 1 1 1 1
loop cycle 1 1 1 1 1 1 1 1 sum 8
>vector 1
vector -
>row 1 1
row -
>states 1
states 1: 0
>diagram 1
digraph function_1 {
  \"-\" -> \"-\" [label=1];
}
>search 1
ok
>diagram 1
digraph function_1 {
  \"-\" -> \"-\" [label=1, style=bold];
}
>read
plan 1 cycle 1 sum 1
>fresh 1 1 11
ok
>mark 1 1 1
ok
>mark 1 1 11
ok
>search 1
refused 7
>states 1
refused 7
>greedy 1
refused 7
>diagram 1
refused 7
>list
function 1
vector 1000000000
bound 2 upper 2
refused 7
constant 3
";

/// Records, in a folder with the files below: readers before the first unit, forms, refusals, and plans that are written. The table is
/// Fig. 1's, whose best cycle is 3 4; with one more mark it is 2 7.
const RECORDS: &str = "\
>report missing
no file
>ring missing
no file
>report inner
no file
>ring ./
no file
>report paper
count 2 list 3 4
>ring paper
sum 7 ring 0110111
>report longer
refused 15
>ring longer
refused 15
>report spare
refused 15
>ring spare
refused 15
>report empty
refused 15
>ring empty
refused 15
>report unit
refused 15
>ring unit
refused 15
>load paper
refused 1
>record 1 made
no unit
>tick
no unit
>report
line 18: expected report FILE
>report paper paper
line 19: expected report FILE
>ring
line 20: expected ring FILE
>ring paper 1
line 21: expected ring FILE
>record
line 22: expected record Q FILE
>record 1
line 23: expected record Q FILE
>record made
line 24: expected record Q FILE
>record made 1
line 25: expected record Q FILE
>record 1 made 1
line 26: expected record Q FILE
>record -1 made
line 27: expected record Q FILE
>record 4294967296 made
line 28: expected record Q FILE
>record 1x made
line 29: expected record Q FILE
>records 1 made
line 30: expected a command
>Report paper
line 31: expected a command
>report 1
no file
>record 4294967295 4294967296
no unit
>\treport\tpaper \r
count 2 list 3 4
>fresh 2 5 9
ok
>mark 1 1 1
ok
>mark 1 1 9
ok
>mark 1 2 2
ok
>mark 1 2 3
ok
>mark 1 2 8
ok
>mark 1 3 4
ok
>mark 1 4 5
ok
>mark 1 4 6
ok
>mark 1 5 7
ok
>mark 1 5 8
ok
>record 1 made
refused 8
>record 3 made
refused 2
>record 0 made
refused 2
>record 257 made
refused 2
>report made
no file
>search 1
ok
>record 3 made
refused 2
>record 2 made
refused 8
>record 01 made
ok
>ring made
sum 7 ring 0110111
>report made
count 2 list 3 4
>load made
refused 1
>read
plan 1 cycle 3 4 sum 7
>start 1
ok
>record 1 again
ok
>bank
177 0 0 0
>record 1 missing/made
not written
>record 1 inner
not written
>record 1 made/
not written
>record 1 0001
ok
>report 0001
count 2 list 3 4
>report 1
no file
>record 1 unit
ok
>load unit
refused 1
>read
plan 1 cycle 3 4 sum 7
>bank
177 0 0 0
>save paper
ok
>ring paper
refused 15
>mark 1 3 8
ok
>record 1 made
refused 8
>report made
count 2 list 3 4
>search 1
ok
>ring made
sum 7 ring 0110111
>record 1 made
ok
>ring made
sum 9 ring 010111111
>report made
count 2 list 2 7
>search 2
ok
>record 1 again
refused 8
>record 2 two
ok
>report two
count 1 list 1
>ring two
sum 1 ring 0
>read
plan 2 cycle 1 sum 1
>report again
count 2 list 3 4
";

/// Charts: forms and refusals; Fig. 1's function, whose best cycle is 3 4 and with one more mark 2 7; both of Fig. 2's, whose best cycle
/// is 1 4; and a function that starts in every unit, with all letters. For one segment 49,271 units have room, and for 16 segments 8,192.
const CHARTS: &str = "\
>simulate 1 9
no unit
>simulate 0 4294967295
no unit
>simulate
line 3: expected simulate Q UNITS
>simulate 1
line 4: expected simulate Q UNITS
>simulate 1 9 9
line 5: expected simulate Q UNITS
>simulate 1 x
line 6: expected simulate Q UNITS
>simulate 1 -1
line 7: expected simulate Q UNITS
>simulate 1 4294967296
line 8: expected simulate Q UNITS
>simulate 4294967296 1
line 9: expected simulate Q UNITS
>simulates 1 9
line 10: expected a command
>Simulate 1 9
line 11: expected a command
>fresh 2 5 9
ok
>mark 1 1 1
ok
>mark 1 1 9
ok
>mark 1 2 2
ok
>mark 1 2 3
ok
>mark 1 2 8
ok
>mark 1 3 4
ok
>mark 1 4 5
ok
>mark 1 4 6
ok
>mark 1 5 7
ok
>mark 1 5 8
ok
>simulate 1 21
refused 8
>simulate 1 4294967295
refused 8
>simulate 3 4294967295
refused 2
>search 1
ok
>start 1
ok
>simulate 1 21
unit    123456789012345678901
starts  A..B...C..D...E..F...
1       A..B...CA.DB..EC.FD.. busy 10/21
2       .AA.BB.ACCBDD.CEEDFF. busy 16/21
3       ...A..B...C..D...E..F busy  6/21
4       ....AA.BB..CC.DD..EE. busy 10/21
5       ......AA.BB..CC.DD..E busy  9/21
>bank
177 0 0 0
>read
plan 1 cycle 3 4 sum 7
>\tsimulate\t01  009 \r
unit    123456789
starts  A..B...C.
1       A..B...CA busy 4/9
2       .AA.BB.AC busy 6/9
3       ...A..B.. busy 2/9
4       ....AA.BB busy 4/9
5       ......AA. busy 2/9
>simulate 1 0
unit   \u{20}
starts \u{20}
1        busy 0/0
2        busy 0/0
3        busy 0/0
4        busy 0/0
5        busy 0/0
>simulate 1 1
unit    1
starts  A
1       A busy 1/1
2       . busy 0/1
3       . busy 0/1
4       . busy 0/1
5       . busy 0/1
>simulate 2 9
refused 8
>simulate 0 9
refused 2
>simulate 3 9
refused 2
>simulate 257 9
refused 2
>simulate 257 4294967295
refused 2
>simulate 2 4294967295
refused 8
>simulate 1 4294967295
refused 6
>simulate 1 65557
refused 6
>read
plan 1 cycle 3 4 sum 7
>bank
177 0 0 0
>mark 1 3 8
ok
>simulate 1 9
refused 8
>search 1
ok
>simulate 1 12
unit    123456789012
starts  A.B......C.D
1       A.B.....ACBD busy  6/12
2       .AABB..A.BCC busy  8/12
3       ...A.B.A.B.. busy  4/12
4       ....AABB.... busy  4/12
5       ......AABB.. busy  4/12
>search 2
ok
>simulate 1 9
refused 8
>simulate 2 3
unit    123
starts  ABC
1       ... busy 0/3
2       ... busy 0/3
3       ... busy 0/3
4       ... busy 0/3
5       ... busy 0/3
>fresh 2 3 5
ok
>mark 1 1 1
ok
>mark 1 1 4
ok
>mark 1 2 2
ok
>mark 1 3 3
ok
>mark 1 3 5
ok
>mark 2 1 2
ok
>mark 2 1 5
ok
>mark 2 2 4
ok
>mark 2 3 1
ok
>mark 2 3 3
ok
>search 1
ok
>simulate 1 12
unit    123456789012
starts  AB...CD...EF
1       AB.ABCD.CDEF busy 10/12
2       .AB...CD...E busy  5/12
3       ..ABAB.CDCD. busy  8/12
>search 2
ok
>simulate 2 12
unit    123456789012
starts  AB...CD...EF
1       .AB.ABCD.CDE busy  9/12
2       ...AB...CD.. busy  4/12
3       ABAB.CDCD.EF busy 10/12
>fresh 1 1 1
ok
>mark 1 1 1
ok
>search 1
ok
>simulate 1 60
unit    123456789012345678901234567890123456789012345678901234567890
starts  ABCDEFGHIJKLMNOPQRSTUVWXYZabcdefghijklmnopqrstuvwxyzABCDEFGH
1       ABCDEFGHIJKLMNOPQRSTUVWXYZabcdefghijklmnopqrstuvwxyzABCDEFGH busy 60/60
>simulate 1 49272
refused 6
>simulate 2 49272
refused 2
>fresh 1 16 1
ok
>search 1
ok
>simulate 1 8193
refused 6
>read
plan 1 cycle 1 sum 1
";

/// Delays: forms and refusals; the paper's marks 1 3 6, whose best cycle is 1 6 and whose constant latency is 4, and with delays 3; both of
/// Fig. 2's functions, and one more mark in a column of the first; places at 32 and beyond it; and no marks.
const DELAYS: &str = "\
>delays 1 3
no unit
>delays 0 4294967295 made
no unit
>delays
line 3: expected delays Q M [FILE]
>delays 1
line 4: expected delays Q M [FILE]
>delays 1 made
line 5: expected delays Q M [FILE]
>delays made 3
line 6: expected delays Q M [FILE]
>delays made 1 3
line 7: expected delays Q M [FILE]
>delays 1 3 made 1
line 8: expected delays Q M [FILE]
>delays 1 -3 made
line 9: expected delays Q M [FILE]
>delays 1 4294967296
line 10: expected delays Q M [FILE]
>delays 4294967296 3
line 11: expected delays Q M [FILE]
>delay 1 3
line 12: expected a command
>Delays 1 3
line 13: expected a command
>fresh 1 1 6
ok
>mark 1 1 1
ok
>mark 1 1 3
ok
>mark 1 1 6
ok
>constant 1
constant 4
>search 1
ok
>start 1
ok
>delays 1 3
     1  2  3  4  5  6  7  8
  1  x  .  x  .  .  .  .  x
>bank
22 0 0 0
>read
plan 1 cycle 1 6 sum 7
>table 1
     1  2  3  4  5  6
  1  x  .  x  .  .  x
>delays 1 4
     1  2  3  4  5  6
  1  x  .  x  .  .  x
>delays 1 32
     1  2  3  4  5  6
  1  x  .  x  .  .  x
>delays 1 33
refused 20
>delays 1 2
refused 20
>delays 1 0
refused 20
>delays 1 259
refused 20
>delays 1 4294967295
refused 20
>delays 0 3
refused 2
>delays 2 3
refused 2
>delays 257 3
refused 2
>delays 2 0
refused 2
>delays 1 2 made
refused 20
>delays 2 3 made
refused 2
>load made
no file
>delays 1 3 missing/made
not written
>delays 1 3 inner
not written
>delays 1 3 made/
not written
>delays 1 3 made
ok
>bank
22 0 0 0
>read
plan 1 cycle 1 6 sum 7
>table 1
     1  2  3  4  5  6
  1  x  .  x  .  .  x
>load made
ok
>table 1
     1  2  3  4  5  6  7  8
  1  x  .  x  .  .  .  .  x
>read
refused 8
>bank
0 0 0 0
>constant 1
constant 3
>judge 1 3
yes
>\tdelays\t01  003 \r
     1  2  3  4  5  6  7  8
  1  x  .  x  .  .  .  .  x
>delays 1 3 0007
ok
>delays 1 3  4294967296\r
ok
>report made
refused 15
>fresh 2 3 5
ok
>mark 1 1 1
ok
>mark 1 1 4
ok
>mark 1 2 2
ok
>mark 1 3 3
ok
>mark 1 3 5
ok
>mark 2 1 2
ok
>mark 2 1 5
ok
>mark 2 2 4
ok
>mark 2 3 1
ok
>mark 2 3 3
ok
>delays 1 2
     1  2  3  4  5  6
  1  x  .  .  x  .  .
  2  .  x  .  .  .  .
  3  .  .  x  .  .  x
>delays 1 3
     1  2  3  4  5  6  7
  1  x  .  .  .  x  .  .
  2  .  x  .  .  .  .  .
  3  .  .  x  .  .  .  x
>delays 2 2
     1  2  3  4  5  6  7
  1  .  x  .  .  .  .  x
  2  .  .  .  .  x  .  .
  3  x  .  .  x  .  .  .
>delays 2 1
refused 20
>mark 1 1 2
ok
>delays 1 3
refused 19
>delays 1 0
refused 19
>delays 1 3 two
refused 19
>load two
no file
>delays 3 0
refused 2
>delays 2 2 two
ok
>load two
ok
>table 1
     1  2  3  4  5  6  7
  1  .  x  .  .  .  .  x
  2  .  .  .  .  x  .  .
  3  x  .  .  x  .  .  .
>table 2
refused 2
>fresh 1 1 32
ok
>mark 1 1 1
ok
>mark 1 1 3
ok
>delays 1 2
refused 21
>delays 1 2 wide
refused 21
>delays 1 1
refused 20
>delays 1 3
     1  2  3  4  5  6  7  8  9 10 11 12 13 14 15 16 17 18 19 20 21 22 23 24 25 26 27 28 29 30 31 32
  1  x  .  x  .  .  .  .  .  .  .  .  .  .  .  .  .  .  .  .  .  .  .  .  .  .  .  .  .  .  .  .  .
>fresh 1 1 31
ok
>mark 1 1 1
ok
>mark 1 1 3
ok
>delays 1 2
     1  2  3  4  5  6  7  8  9 10 11 12 13 14 15 16 17 18 19 20 21 22 23 24 25 26 27 28 29 30 31 32
  1  x  .  .  x  .  .  .  .  .  .  .  .  .  .  .  .  .  .  .  .  .  .  .  .  .  .  .  .  .  .  .  .
>fresh 1 2 3
ok
>delays 1 1
     1  2  3
  1  .  .  .
  2  .  .  .
>delays 1 1 made/none
not written
>delays 1 1 none
ok
";

/// Tasks that wait: forms and refusals; both functions of Fig. 2, of which B comes 1, 3 or 5 after A, A 3 or 5 after B, and each 1, 4 or 5
/// after its own, beside starts by hand; what leaves bank and queue as they are and what empties them; and a function that is in one
/// segment in all of its four columns. The registers after a start are the rows of its matrix beside what was there: A's 6 10, B's 11 6.
const QUEUES: &str = "\
>arrive 1 17
no unit
>pass
no unit
>queue
no unit
>arrive 4294967295 4294967295
no unit
>arrive
line 5: expected arrive Q TICKET
>arrive 1
line 6: expected arrive Q TICKET
>arrive 1 2 3
line 7: expected arrive Q TICKET
>arrive 1 x
line 8: expected arrive Q TICKET
>arrive 1 -1
line 9: expected arrive Q TICKET
>arrive 1 4294967296
line 10: expected arrive Q TICKET
>arrive 4294967296 1
line 11: expected arrive Q TICKET
>pass 1
line 12: expected pass
>queue 1
line 13: expected queue
>arrives 1 7
line 14: expected a command
>passes
line 15: expected a command
>Queue
line 16: expected a command
>fresh 2 3 5
ok
>mark 1 1 1
ok
>mark 1 1 4
ok
>mark 1 2 2
ok
>mark 1 3 3
ok
>mark 1 3 5
ok
>mark 2 1 2
ok
>mark 2 1 5
ok
>mark 2 2 4
ok
>mark 2 3 1
ok
>mark 2 3 3
ok
>queue
queue 0:
>pass
none
>arrive 1 17
ok
>arrive 2 18
ok
>\tarrive\t01  4294967295 \r
ok
>arrive 2 0000
ok
>arrive 1 2 3
line 34: expected arrive Q TICKET
>arrive 1 4294967296
line 35: expected arrive Q TICKET
>queue
queue 4: 1 17 2 18 1 4294967295 2 0
>bank
0 0 0 0
>pass
started 1 17
>bank
6 10 0 0
>pass
started 2 18
>bank
11 7 0 0
>pass
none
>bank
5 3 0 0
>\tqueue \r
queue 2: 1 4294967295 2 0
>pass
none
>pass
started 1 4294967295
>bank
7 10 0 0
>queue
queue 1: 2 0
>pass\r
started 2 0
>queue
queue 0:
>bank
11 7 0 0
>pass
none
>bank
5 3 0 0
>arrive 0 1
refused 2
>arrive 3 1
refused 2
>arrive 257 1
refused 2
>arrive 4294967295 1
refused 2
>queue
queue 0:
>arrive 2 5
ok
>arrive 1 5
ok
>arrive 2 5
ok
>queue
queue 3: 2 5 1 5 2 5
>start 1
refused 10
>start 2
refused 10
>bank
5 3 0 0
>tick
ok
>start 1
ok
>bank
7 10 0 0
>queue
queue 3: 2 5 1 5 2 5
>pass
started 2 5
>bank
11 7 0 0
>pass
none
>pass
none
>pass
started 1 5
>queue
queue 1: 2 5
>mark 3 1 1
refused 2
>unmark 1 4 1
refused 3
>mark 1 1 6
refused 4
>mark 1 1
line 79: expected mark Q R C
>fresh 0 1 1
refused 1
>load missing
no file
>search 1
ok
>read
plan 1 cycle 1 4 sum 5
>delays 1 0
refused 20
>pass 1
line 85: expected pass
>queue
queue 1: 2 5
>bank
7 10 0 0
>mark 1 1 1
ok
>queue
queue 0:
>bank
0 0 0 0
>pass
none
>arrive 2 9
ok
>unmark 2 2 1
ok
>queue
queue 0:
>start 1
ok
>arrive 1 3
ok
>load figure_2
ok
>queue
queue 0:
>bank
0 0 0 0
>arrive 2 1
ok
>arrive 1 2
ok
>arrive 2 3
ok
>pass
started 2 1
>bank
11 6 0 0
>pass
none
>pass
none
>bank
2 1 0 0
>pass
started 1 2
>bank
7 10 0 0
>pass
started 2 3
>arrive 1 1
ok
>fresh 1 1 4
ok
>queue
queue 0:
>mark 1 1 1
ok
>mark 1 1 2
ok
>mark 1 1 3
ok
>mark 1 1 4
ok
>arrive 1 1
ok
>arrive 2 1
refused 2
>arrive 1 2
ok
>pass
started 1 1
>bank
7 0 0 0
>pass
none
>pass
none
>pass
none
>queue
queue 1: 1 2
>pass
started 1 2
>pass
none
";

/// As many tasks as can wait, behind a start by hand. 1 is forbidden, and every second unit starts one: the last of them in unit 64. No
/// other has room, but from the first start on there is room for one. And without marks each unit starts one.
fn full_queue() -> String {
    let mut seen = ">fresh 1 1 2\nok\n>mark 1 1 1\nok\n>mark 1 1 2\nok\n>start 1\nok\n".to_string();
    let waiting = |tickets: std::ops::RangeInclusive<u32>| tickets.map(|ticket| format!(" 1 {ticket}")).collect::<String>();
    for ticket in 101..=132 {
        seen += &format!(">arrive 1 {ticket}\nok\n");
    }
    seen += ">arrive 1 133\nrefused 14\n>arrive 2 133\nrefused 2\n>arrive 0 133\nrefused 2\n>bank\n1 0 0 0\n";
    seen += &format!(">queue\nqueue 32:{}\n", waiting(101..=132));
    seen += ">pass\nnone\n>arrive 1 133\nrefused 14\n>pass\nstarted 1 101\n";
    seen += &format!(">queue\nqueue 31:{}\n", waiting(102..=132));
    seen += ">arrive 1 133\nok\n>arrive 1 134\nrefused 14\n";
    seen += &format!(">queue\nqueue 32:{}\n", waiting(102..=133));
    for ticket in 102..=133 {
        seen += &format!(">pass\nnone\n>pass\nstarted 1 {ticket}\n");
    }
    seen += ">queue\nqueue 0:\n>fresh 4 16 32\nok\n";
    let tasks: Vec<(u32, u32)> = (0..32).map(|place| (place % 4 + 1, u32::MAX - place)).collect();
    for (tag, ticket) in &tasks {
        seen += &format!(">arrive {tag} {ticket}\nok\n");
    }
    seen += ">arrive 4 0\nrefused 14\n>arrive 5 0\nrefused 2\n";
    for (tag, ticket) in &tasks {
        seen += &format!(">pass\nstarted {tag} {ticket}\n");
    }
    seen + ">pass\nnone\n>queue\nqueue 0:\n>bank\n0 0 0 0\n"
}

/// Callers in turn: forms and refusals, before there are callers and after; both functions of Fig. 2, whose starts may come as far apart as
/// above, beside a start by hand and the queue; whose turn it is where a caller has no work, is held back or has started its last; what
/// leaves the tasks and the turn as they are and what takes them away, but not the callers; and the function that is in one segment in all
/// of its four columns.
const CALLERS: &str = "\
>callers 2
no unit
>call 1 1 7
no unit
>turn
no unit
>callers 0
no unit
>call 4294967295 4294967295 4294967295
no unit
>callers
line 6: expected callers C
>callers 2 3
line 7: expected callers C
>callers x
line 8: expected callers C
>callers 4294967296
line 9: expected callers C
>call
line 10: expected call I Q TICKET
>call 1 1
line 11: expected call I Q TICKET
>call 1 1 7 7
line 12: expected call I Q TICKET
>call 1 1 -7
line 13: expected call I Q TICKET
>call 1 1 4294967296
line 14: expected call I Q TICKET
>call 1 4294967296 1
line 15: expected call I Q TICKET
>call 4294967296 1 1
line 16: expected call I Q TICKET
>turn 1
line 17: expected turn
>caller 2
line 18: expected a command
>calls 1 1 7
line 19: expected a command
>Turn
line 20: expected a command
>load figure_2
ok
>turn
refused 18
>call 1 1 7
refused 18
>call 0 9 7
refused 18
>callers 0
refused 18
>callers 5
refused 18
>callers 256
refused 18
>callers 257
refused 18
>callers 4294967295
refused 18
>start 1
ok
>turn
refused 18
>bank
6 10 0 0
>\tcallers\t003 \r
ok
>bank
6 10 0 0
>turn
none
>bank
3 5 0 0
>call 4 1 7
refused 18
>call 0 1 7
refused 18
>call 258 1 7
refused 18
>call 4 9 7
refused 18
>call 1 3 7
refused 2
>call 1 0 7
refused 2
>call 2 257 7
refused 2
>turn
none
>bank
1 2 0 0
>call 2 2 17
ok
>\tcall\t03  1 4294967295 \r
ok
>turn
started 2 2 17
>bank
11 7 0 0
>call 1 1 0000
ok
>turn
none
>turn
none
>bank
2 1 0 0
>turn\r
started 3 1 4294967295
>bank
7 10 0 0
>call 3 2 20
ok
>call 2 1 21
ok
>turn
none
>turn
none
>turn
none
>bank
0 1 0 0
>turn
started 1 1 0
>turn
started 2 1 21
>bank
7 15 0 0
>turn
none
>turn
none
>turn
none
>turn
none
>bank
0 0 0 0
>turn
started 3 2 20
>bank
11 6 0 0
>turn
none
>call 1 1 22
ok
>call 3 1 23
ok
>turn
none
>turn
started 3 1 23
>arrive 2 5
ok
>bank
7 10 0 0
>pass
started 2 5
>bank
11 7 0 0
>turn
none
>queue
queue 0:
>turn
none
>start 2
refused 10
>turn
started 1 1 22
>bank
7 10 0 0
>call 2 1 24
ok
>call 3 2 25
ok
>turn
none
>call 1 2 26
ok
>mark 3 1 1
refused 2
>unmark 1 4 1
refused 3
>mark 1 1 6
refused 4
>mark 1 1
line 94: expected mark Q R C
>fresh 0 1 1
refused 1
>load missing
no file
>search 1
ok
>read
plan 1 cycle 1 4 sum 5
>callers 9
refused 18
>call 5 1 1
refused 18
>arrive 1 6
ok
>bank
3 5 0 0
>turn
none
>turn
none
>turn
started 2 1 24
>queue
queue 1: 1 6
>bank
6 10 0 0
>mark 1 1 1
ok
>bank
0 0 0 0
>queue
queue 0:
>turn
none
>call 3 1 27
ok
>call 2 1 28
ok
>turn
started 2 1 28
>load figure_2
ok
>call 3 1 29
ok
>call 1 1 30
ok
>arrive 2 31
ok
>turn
started 1 1 30
>callers 2
ok
>call 3 1 32
refused 18
>queue
queue 1: 2 31
>turn
none
>bank
3 5 0 0
>callers 3
ok
>turn
none
>bank
1 2 0 0
>call 3 2 33
ok
>unmark 1 1 2
ok
>turn
none
>call 3 2 34
ok
>fresh 1 1 4
ok
>turn
none
>mark 1 1 1
ok
>mark 1 1 2
ok
>mark 1 1 3
ok
>mark 1 1 4
ok
>call 4 1 1
refused 18
>call 3 2 1
refused 2
>call 3 1 1
ok
>call 3 1 2
ok
>turn
started 3 1 1
>call 2 1 3
ok
>call 1 1 4
ok
>turn
none
>turn
none
>turn
none
>bank
0 0 0 0
>turn
started 3 1 2
>turn
none
>turn
none
>turn
none
>turn
started 1 1 4
>turn
none
>turn
none
>turn
none
>turn
started 2 1 3
>callers 1
ok
>bank
7 0 0 0
>call 2 1 5
refused 18
>call 1 1 5
ok
>call 1 1 6
ok
>turn
none
>turn
none
>turn
none
>turn
started 1 1 5
>turn
none
>turn
none
>turn
none
>turn
started 1 1 6
>turn
none
";

/// Four callers with as many tasks as can wait: without marks each unit starts one, and each caller has every fourth unit. One that has
/// started has room for another task, and one that has none left is passed over. And where 1 is forbidden, a burst of 8 lets the others
/// start between.
fn full_callers() -> String {
    let mut seen = ">fresh 4 16 32\nok\n>callers 4\nok\n".to_string();
    let tag_of = |ticket: u32| ticket % 3 + 2;
    for ticket in 0..32 {
        seen += &format!(">call {} {} {ticket}\nok\n", ticket / 8 + 1, tag_of(ticket));
    }
    seen +=
        ">call 1 1 32\nrefused 14\n>call 4 4 32\nrefused 14\n>call 4 5 32\nrefused 2\n>call 5 4 32\nrefused 18\n>call 5 5 32\nrefused 18\n";
    for place in 0..4 {
        seen += &format!(">turn\nstarted {} {} {}\n", place + 1, tag_of(8 * place), 8 * place);
    }
    seen += ">call 2 1 4294967295\nok\n>call 2 1 33\nrefused 14\n>call 3 1 4294967295\nok\n";
    for place in 4..32 {
        let ticket = 8 * (place % 4) + place / 4;
        seen += &format!(">turn\nstarted {} {} {ticket}\n", place % 4 + 1, tag_of(ticket));
    }
    seen += ">turn\nstarted 2 1 4294967295\n>turn\nstarted 3 1 4294967295\n>turn\nnone\n>bank\n0 0 0 0\n";
    seen += ">fresh 1 1 2\nok\n>mark 1 1 1\nok\n>mark 1 1 2\nok\n";
    for ticket in 1..=8 {
        seen += &format!(">call 2 1 {ticket}\nok\n");
    }
    seen += ">call 2 1 9\nrefused 14\n>turn\nstarted 2 1 1\n>call 1 1 11\nok\n>call 1 1 12\nok\n>turn\nnone\n>turn\nstarted 2 1 2\n";
    seen += ">turn\nnone\n>turn\nstarted 1 1 11\n>turn\nnone\n>turn\nstarted 2 1 3\n>call 4 1 41\nok\n>turn\nnone\n>turn\nstarted 1 1 12\n";
    seen += ">turn\nnone\n>turn\nstarted 2 1 4\n>turn\nnone\n>turn\nstarted 4 1 41\n";
    for ticket in 5..=8 {
        seen += &format!(">turn\nnone\n>turn\nstarted 2 1 {ticket}\n");
    }
    seen + ">turn\nnone\n>bank\n0 0 0 0\n"
}

/// Small tables: before the first unit, forms and refusals; totals of every size; marks 1 3 6 as table 37 = 1 + 4 + 32; two segments, in
/// which 89 = (1 + 8) + 16 × (1 + 4); what leaves plan, bank and queues as they are, and what empties them.
const SMALL_TABLES: &str = "\
>small 1 0
refused 22
>small 1 1 2
refused 22
>small
line 3: expected small S C [NUMBER]
>small 1
line 4: expected small S C [NUMBER]
>small 1 x
line 5: expected small S C [NUMBER]
>small x 1
line 6: expected small S C [NUMBER]
>small 1 1 x
line 7: expected small S C [NUMBER]
>small 1 1 -1
line 8: expected small S C [NUMBER]
>small 1 1 1 1
line 9: expected small S C [NUMBER]
>small 1 1 4294967296
line 10: expected small S C [NUMBER]
>small 4294967297 1
line 11: expected small S C [NUMBER]
>smalls 1 1
line 12: expected a command
>Small 1 1
line 13: expected a command
>small 1 1
tables 2 at bound 2 largest 1/1 first 0
>small 1 2
tables 4 at bound 4 largest 2/1 first 3
>small 1 3
tables 8 at bound 8 largest 3/1 first 7
>small 1 4
tables 16 at bound 16 largest 4/1 first 11
>small 1 5
tables 32 at bound 30 largest 5/1 first 23
>small 1 6
tables 64 at bound 58 largest 6/1 first 39
>small 2 1
tables 4 at bound 4 largest 1/1 first 0
>small 2 2
tables 16 at bound 16 largest 2/1 first 3
>small 2 3
tables 64 at bound 64 largest 3/1 first 7
>small 2 4
tables 256 at bound 252 largest 4/1 first 11
>small 2 5
tables 1024 at bound 944 largest 5/1 first 23
>\tsmall\t02  0006 \r
tables 4096 at bound 3796 largest 6/1 first 39
>read
no unit
>small 1 6 0037
ok
>table 1
     1  2  3  4  5  6
  1  x  .  x  .  .  x
>table 2
refused 2
>read
refused 8
>vector 1
vector 10110
>bound 1
bound 3
>search 1
ok
>read
plan 1 cycle 1 6 sum 7
>small 0 1
refused 22
>small 3 1
refused 22
>small 1 7
refused 22
>small 6 2
refused 22
>small 257 1
refused 22
>small 1 258
refused 22
>small 4294967295 1 0
refused 22
>small 3 7 4096
refused 22
>small 1 6 64
refused 22
>small 1 6 293
refused 22
>small 1 6 65573
refused 22
>small 2 6 4096
refused 22
>small 1 1 4294967295
refused 22
>read
plan 1 cycle 1 6 sum 7
>small 1 6 37
ok
>read
refused 8
>small 2 4 89
ok
>table 1
     1  2  3  4
  1  x  .  .  x
  2  x  .  x  .
>vector 1
vector 110
>bound 1
bound 2
>search 1
ok
>read
plan 1 cycle 1 4 sum 5
>callers 3
ok
>start 1
ok
>arrive 1 7
ok
>call 2 1 8
ok
>small 2 4
tables 256 at bound 252 largest 4/1 first 11
>small 2 4 256
refused 22
>small 2 4 x
line 63: expected small S C [NUMBER]
>bank
6 0 0 0
>queue
queue 1: 1 7
>read
plan 1 cycle 1 4 sum 5
>turn
started 2 1 8
>call 2 1 8
ok
>small 2 2 6
ok
>table 1
     1  2
  1  .  x
  2  x  .
>bank
0 0 0 0
>queue
queue 0:
>turn
none
>call 3 1 9
ok
>call 4 1 9
refused 18
>turn
started 3 1 9
>read
refused 8
>small 2 6 4095
ok
>table 1
     1  2  3  4  5  6
  1  x  x  x  x  x  x
  2  x  x  x  x  x  x
>bound 1
bound 6
>small 2 1 0
ok
>table 1
     1
  1  .
  2  .
>bound 1
bound 1
";

/// The files that the first lines write: Fig. 1's unit, whose table begins at byte 6 and has a word for each segment.
const FOUND_FILES: [(&str, &[u8]); 2] = [("figure", FIGURE_1), ("a\rb", FIGURE_1)];
const FIGURE_1: &[u8] = &[1, 5, 9, 0, 6, 0, 0x01, 0x01, 0, 0, 0x86, 0, 0, 0, 0x08, 0, 0, 0, 0x30, 0, 0, 0, 0xC0, 0, 0, 0];

/// The units with delays that are found after the lines above: marks 1 3 8; 2 7, 5 and 1 4; and none.
const FOUND_DELAYS: [(&str, &[u8]); 5] = [
    ("made", &[1, 1, 8, 0, 6, 0, 0x85, 0, 0, 0]),
    ("0007", &[1, 1, 8, 0, 6, 0, 0x85, 0, 0, 0]),
    ("4294967296", &[1, 1, 8, 0, 6, 0, 0x85, 0, 0, 0]),
    ("two", &[1, 3, 7, 0, 6, 0, 0x42, 0, 0, 0, 0x10, 0, 0, 0, 0x09, 0, 0, 0]),
    ("none", &[1, 2, 3, 0, 6, 0, 0, 0, 0, 0, 0, 0, 0, 0]),
];

/// Fig. 2's unit: two tables of a word for each segment, the first one from byte 8 on.
const QUEUE_FILES: [(&str, &[u8]); 1] =
    [("figure_2", &[2, 3, 5, 0, 8, 0, 20, 0, 9, 0, 0, 0, 2, 0, 0, 0, 20, 0, 0, 0, 18, 0, 0, 0, 8, 0, 0, 0, 5, 0, 0, 0])];

/// The paper's record, the same with a byte more, and with its spare bit 0; a unit file; and a file of no bytes.
const RECORD_FILES: [(&str, &[u8]); 5] = [
    ("paper", &[0x02, 0x00, 0x07, 0x00, 0x08, 0x00, 0x0A, 0x00, 0x03, 0x04, 0xF6]),
    ("longer", &[0x02, 0x00, 0x07, 0x00, 0x08, 0x00, 0x0A, 0x00, 0x03, 0x04, 0xF6, 0xFF]),
    ("spare", &[0x02, 0x00, 0x07, 0x00, 0x08, 0x00, 0x0A, 0x00, 0x03, 0x04, 0x76]),
    ("unit", &[1, 1, 2, 0, 6, 0, 2, 0, 0, 0]),
    ("empty", &[]),
];

/// The records that are found after the lines about them, and the unit of two functions that is saved over one.
const FOUND_RECORDS: [(&str, &[u8]); 6] = [
    ("made", &[0x02, 0x00, 0x09, 0x00, 0x08, 0x00, 0x0A, 0x00, 0x02, 0x07, 0xFA, 0xFF]),
    ("again", &[0x02, 0x00, 0x07, 0x00, 0x08, 0x00, 0x0A, 0x00, 0x03, 0x04, 0xF6]),
    ("0001", &[0x02, 0x00, 0x07, 0x00, 0x08, 0x00, 0x0A, 0x00, 0x03, 0x04, 0xF6]),
    ("unit", &[0x02, 0x00, 0x07, 0x00, 0x08, 0x00, 0x0A, 0x00, 0x03, 0x04, 0xF6]),
    ("two", &[0x01, 0x00, 0x01, 0x00, 0x08, 0x00, 0x09, 0x00, 0x01, 0xFE]),
    (
        "paper",
        &[
            2, 5, 9, 0, 8, 0, 28, 0, 0x01, 0x01, 0, 0, 0x86, 0, 0, 0, 0x08, 0, 0, 0, 0x30, 0, 0, 0, 0xC0, 0, 0, 0, 0, 0, 0, 0, 0, 0, 0, 0,
            0, 0, 0, 0, 0, 0, 0, 0, 0, 0, 0, 0,
        ],
    ),
];

/// A script of lines, with the answers that the model gives.
fn script_of(name: &str, lines: &[&str], before: Folder) -> Script {
    let (mut console, mut watch) = (Console::new(before.clone()), Watch::default());
    let mut answered = |place: usize, line: &str| {
        let answer = console.answer(line.as_bytes(), place);
        watch.see(line.as_bytes(), &answer, console.unit.as_ref()).unwrap_or_else(|why| panic!("line {place} of {name}: {why}"));
        Line { bytes: line.as_bytes().to_vec(), answer }
    };
    let lines = (1..).zip(lines).map(|(place, line)| answered(place, line)).collect();
    Script { name: name.to_string(), lines, newline: true, feed: Feed::Pieces, before, after: console.shelf, met: Vec::new() }
}

/// Puts files of these bytes into the folder.
fn put_files(folder: &mut Folder, files: &[(&str, &[u8])]) {
    folder.files.extend(files.iter().map(|(name, bytes)| (name.as_bytes().to_vec(), File::Bytes(bytes.to_vec()))));
}

/// The model's answers are those written by hand, and so are the files that it says are written.
fn session(name: &str, seen: &str, before: Folder, found: &[(&str, &[u8])]) -> Result<(), String> {
    // `lines` would pass over carriage returns at the end
    let lines: Vec<&str> = seen.split_terminator('\n').collect();
    let typed: Vec<&str> = lines.iter().filter_map(|line| line.strip_prefix('>')).collect();
    let seen: String = lines.iter().filter(|line| !line.starts_with('>')).map(|line| format!("{line}\n")).collect();
    let script = script_of(name, &typed, before);
    let written = script.after.files.iter().filter(|(name, file)| script.before.files.get(*name) != Some(*file)).count();
    if written != found.len() {
        return Err(format!("{name}: {written} files are written"));
    }
    let mut folder = script.after.clone();
    put_files(&mut folder, found);
    let run = Run { output: seen.into_bytes(), ending: Ending::Status(0), unanswered: None, folder };
    check(&script, &run, &mut Counts::default()).map_err(|difference| difference.why)
}

/// The model's answers are those written by hand above.
pub fn examples() -> Result<(), String> {
    session("the examples", EXAMPLES, Folder::default(), &FOUND_FILES)?;
    let mut before = Folder::default();
    put_files(&mut before, &RECORD_FILES);
    session("the examples of records", RECORDS, before, &FOUND_RECORDS)?;
    session("the examples of charts", CHARTS, Folder::default(), &[])?;
    session("the examples of delays", DELAYS, Folder::default(), &FOUND_DELAYS)?;
    let mut before = Folder::default();
    put_files(&mut before, &QUEUE_FILES);
    session("the examples of queues", QUEUES, before.clone(), &[])?;
    session("the example of a full queue", &full_queue(), Folder::default(), &[])?;
    session("the examples of callers", CALLERS, before, &[])?;
    session("the example of callers with full queues", &full_callers(), Folder::default(), &[])?;
    session("the examples of small tables", SMALL_TABLES, Folder::default(), &[])
}

/// The model against the paper's tables and its own definitions, and against the examples.
pub fn check_model() -> Result<(), String> {
    model_check::run()?;
    loops_check::run()?;
    records_check::run()?;
    charts_check::run()?;
    delays_check::run()?;
    queue_check::run()?;
    callers_check::run()?;
    small_check::run()?;
    examples()
}
