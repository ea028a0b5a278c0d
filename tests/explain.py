#!/usr/bin/env python3
"""Tries --explain of the built program on refused texts: it prints the line of the code, and after it an explanation for a person.

Each case has the text, with `@` at the place of the fault if there is one, and the whole explanation, by the rules of docs/GUIDE.md, "Faults of a
text, for a person".

usage: tests/explain.py PLANT     PLANT is the built program
"""
import pathlib
import re
import subprocess
import sys
import tempfile

# the text that most cases change; the statement is line 10
TANK = """\
PROGRAM Tank
  VAR_EXTERNAL
    level : INT;
  END_VAR
  VAR
    raw : DINT := 5;
    open : BOOL;
    slow : TON;
  END_VAR
  level := level + 1;
END_PROGRAM

CONFIGURATION Plant
  VAR_GLOBAL
    level : INT;
  END_VAR
  RESOURCE R ON CPU
    TASK T (INTERVAL := T#100ms, PRIORITY := 0);
    PROGRAM P WITH T : Tank;
  END_RESOURCE
END_CONFIGURATION
"""
STATEMENT = "level := level + 1;"


def fail(text):
    sys.exit(f"explain.py: {text}")


def tank(new, old=STATEMENT):
    if TANK.count(old) != 1:
        fail(f"`{old}` occurs {TANK.count(old)} times in the text")
    return TANK.replace(old, new)


# what some cases add after that text
POINT = "TYPE Point : STRUCT x : INT; y : INT; END_STRUCT; END_TYPE\n"
MODE = "TYPE Mode : (Fill, Drain); END_TYPE\n"
VALVE = (
    "FUNCTION_BLOCK Valve VAR_INPUT amount : INT; END_VAR VAR_OUTPUT full : BOOL; END_VAR\n"
    "full := amount > 9; END_FUNCTION_BLOCK\n"
)
TWICE = "FUNCTION Twice : INT VAR_INPUT n : INT; END_VAR Twice := n * 2; END_FUNCTION\n"

# an enumerated type with one name too many, whose `x` is 14 bytes before the end
MANY = "TYPE t : (" + ",".join(f"n{k:02x}" for k in range(256)) + ",@x00); END_TYPE"

# each case: the code, the text, and the explanation
CASES = [
    ("L1", "PROGRAM P @$ END_PROGRAM", """\
error[L1]: the byte 0x24 (`$`) isn't allowed here
 --> t.st:1:11
  |
1 | PROGRAM P $ END_PROGRAM
  |           ^
"""),
    ("L1", "PROGRAM P\n\tn := @'a'; END_PROGRAM", """\
error[L1]: the byte 0x27 (`'`) isn't allowed here
 --> t.st:2:7
  |
2 | \tn := 'a'; END_PROGRAM
  | \t     ^
  = help: strings aren't supported
"""),
    ("L1", "PROGRAM P @\x01 END_PROGRAM", """\
error[L1]: the byte 0x01 isn't allowed here
 --> t.st:1:11
  |
1 | PROGRAM P ? END_PROGRAM
  |           ^
  = help: use printable ASCII characters
"""),
    ("L1", "PROGRAM P @(* \x1b[2J *) END_PROGRAM", """\
error[L1]: the byte 0x1B isn't allowed in a comment
 --> t.st:1:14
  |
1 | PROGRAM P (* ?[2J *) END_PROGRAM
  |              ^
  = help: use printable ASCII characters
"""),
    ("L1", "PROGRAM P @(* f\u00fcr *) END_PROGRAM", """\
error[L1]: the byte 0xC3 isn't allowed in a comment
 --> t.st:1:15
  |
1 | PROGRAM P (* f??r *) END_PROGRAM
  |               ^
  = help: a source has ASCII characters alone, as `ue` for an umlaut
"""),
    ("L1", "PROGRAM P @\u00fc := 1; END_PROGRAM", """\
error[L1]: the byte 0xC3 isn't allowed here
 --> t.st:1:11
  |
1 | PROGRAM P ?? := 1; END_PROGRAM
  |           ^
  = help: a source has ASCII characters alone, as `ue` for an umlaut
"""),
    ("L1", "@\ufeffPROGRAM P END_PROGRAM", """\
error[L1]: the byte 0xEF isn't allowed here
 --> t.st:1:1
  |
1 | ???PROGRAM P END_PROGRAM
  | ^
  = help: save the source without a byte order mark
"""),
    ("L2", "PROGRAM P n := @2#102; END_PROGRAM", """\
error[L2]: `2#102` isn't a literal
 --> t.st:1:16
  |
1 | PROGRAM P n := 2#102; END_PROGRAM
  |                ^~~~~
"""),
    ("L2", "PROGRAM P n := @99999999999999999999; END_PROGRAM", """\
error[L2]: 99999999999999999999 is over 18446744073709551615, the largest number
 --> t.st:1:16
  |
1 | PROGRAM P n := 99999999999999999999; END_PROGRAM
  |                ^~~~~~~~~~~~~~~~~~~~
"""),
    ("L2", "CONFIGURATION C VAR_GLOBAL n AT @%IB3 : INT; END_VAR END_CONFIGURATION", """\
error[L2]: `%IB3` isn't a literal
 --> t.st:1:33
  |
1 | CONFIGURATION C VAR_GLOBAL n AT %IB3 : INT; END_VAR END_CONFIGURATION
  |                                 ^~~~
  = help: an address is %IX, %QX, %IW or %QW and a number, as in %IX0
"""),
    ("L3", "PROGRAM @a__b END_PROGRAM", """\
error[L3]: `a__b` isn't a name: it has two underscores in a row
 --> t.st:1:9
  |
1 | PROGRAM a__b END_PROGRAM
  |         ^~~~
"""),
    ("L3", f"PROGRAM @{'a' * 65} END_PROGRAM", f"""\
error[L3]: this name has 65 characters; at most 64 are allowed
 --> t.st:1:9
  |
1 | PROGRAM {'a' * 65} END_PROGRAM
  |         ^{'~' * 64}
"""),
    ("L4", "PROGRAM P (* a @(* b *) *) END_PROGRAM", """\
error[L4]: a comment begins inside another one
 --> t.st:1:16
  |
1 | PROGRAM P (* a (* b *) *) END_PROGRAM
  |                ^
  = help: close the outer comment with `*)` before it
"""),
    ("L4", "PROGRAM P\r\n@(* a\r\nEND_PROGRAM\r\n", """\
error[L4]: this comment isn't closed
 --> t.st:2:1
  |
2 | (* a
  | ^
  = help: a comment ends with `*)`
"""),
    ("L5", " " * 1048577, """\
error[L5]: the source is longer than 1048576 bytes
--> t.st
"""),
    ("P1", "PROGRAM P n := 1 @END_PROGRAM", """\
error[P1]: `END_PROGRAM` isn't allowed here
 --> t.st:1:18
  |
1 | PROGRAM P n := 1 END_PROGRAM
  |                  ^~~~~~~~~~~
  = help: a `;` may be missing before it
"""),
    ("P1", "PROGRAM P n := 1;@\n", """\
error[P1]: the source ends too early
 --> t.st:1:18
  |
1 | PROGRAM P n := 1;
  |                  ^
  = help: `END_PROGRAM` is missing
"""),
    ("P1", tank("level @= 1;"), """\
error[P1]: `=` isn't allowed here
  --> t.st:10:9
   |
10 |   level = 1;
   |         ^
   = help: `:=` assigns, `=` compares
"""),
    ("P1", tank("IF level > 1\n  @level := 1; END_IF;"), """\
error[P1]: `level` isn't allowed here
  --> t.st:11:3
   |
11 |   level := 1; END_IF;
   |   ^~~~~
   = help: `THEN` may be missing before it
"""),
    ("P1", tank("IF level > 1 THEN level := 1;\n"), """\
error[P1]: `END_PROGRAM` isn't allowed here
  --> t.st:12:1
   |
12 | END_PROGRAM
   | ^~~~~~~~~~~
   = help: `END_IF` may be missing before it
"""),
    ("P1", tank("raw : @REAL;", "raw : DINT := 5;"), """\
error[P1]: `REAL` isn't allowed here
 --> t.st:6:11
  |
6 |     raw : REAL;
  |           ^~~~
  = help: there is no REAL: use whole numbers, as 15 tenths for 1.5
"""),
    ("P2", tank("level := " + "(" * 63 + "1" + ")" * 63 + ";"), """\
error[P2]: an expression, a statement or an initial value is over 64 deep
--> t.st
 = help: move a part of it into a variable or a function
"""),
    ("C1", tank("level := @levl + 1;"), """\
error[C1]: `levl` isn't declared in this scope
  --> t.st:10:12
   |
10 |   level := levl + 1;
   |            ^~~~
   = help: did you mean `level`?
"""),
    ("C1", tank("raw : @DITN;", "raw : DINT := 5;"), """\
error[C1]: `DITN` isn't declared in this scope
 --> t.st:6:11
  |
6 |     raw : DITN;
  |           ^~~~
  = help: did you mean `DINT`?
"""),
    ("C1", tank("VAR_GLOBAL\n    other : INT;", "VAR_GLOBAL").replace(STATEMENT, "level := @other + 1;"), """\
error[C1]: `other` isn't declared in this scope
  --> t.st:10:12
   |
10 |   level := other + 1;
   |            ^~~~~
   = help: a program or block declares the global `other` in VAR_EXTERNAL
"""),
    ("C1", tank("spot : Point;", "slow : TON;").replace(STATEMENT, "level := spot.@yy;")
        + POINT, """\
error[C1]: `Point` has no field `yy`
  --> t.st:10:17
   |
10 |   level := spot.yy;
   |                 ^~
   = help: did you mean `y`?
"""),
    ("C1", tank("lines : Line;", "slow : TON;").replace(STATEMENT, "level := lines.first.@z;")
        + "TYPE Point : STRUCT east : INT; END_STRUCT; Line : STRUCT first : Point; END_STRUCT; END_TYPE\n", """\
error[C1]: `Point` has no field `z`
  --> t.st:10:24
   |
10 |   level := lines.first.z;
   |                        ^
"""),
    ("C1", tank("open := slow.@Done;"), """\
error[C1]: `TON` has no output `Done`
  --> t.st:10:16
   |
10 |   open := slow.Done;
   |                ^~~~
   = help: its outputs: `Q`, `ET`
"""),
    ("C1", tank("inlet : Valve;", "slow : TON;").replace(STATEMENT, "open := inlet.@ful;") + VALVE, """\
error[C1]: `Valve` has no output `ful`
  --> t.st:10:17
   |
10 |   open := inlet.ful;
   |                 ^~~
   = help: did you mean `full`?
"""),
    ("C1", tank("row : ARRAY [0..1] OF Point;", "slow : TON;").replace(STATEMENT, "level := row[0].@z;")
        + POINT, """\
error[C1]: `Point` has no field `z`
  --> t.st:10:19
   |
10 |   level := row[0].z;
   |                   ^
"""),
    ("C1", tank("raw : Point := (@z := 1);", "raw : DINT := 5;") + POINT, """\
error[C1]: `Point` has no field `z`
 --> t.st:6:21
  |
6 |     raw : Point := (z := 1);
  |                     ^
"""),
    ("C1", tank("level := level.@x;"), """\
error[C1]: INT isn't a structure: it has no field `x`
  --> t.st:10:18
   |
10 |   level := level.x;
   |                  ^
"""),
    ("C1", tank("state : Mode;", "slow : TON;").replace(STATEMENT, "level := state.@x;") + MODE, """\
error[C1]: Mode isn't a structure: it has no field `x`
  --> t.st:10:18
   |
10 |   level := state.x;
   |                  ^
"""),
    ("C1", TANK + POINT + "TYPE Row : ARRAY [0..3] OF @Pont; END_TYPE\n", """\
error[C1]: `Pont` isn't declared in this scope
  --> t.st:23:28
   |
23 | TYPE Row : ARRAY [0..3] OF Pont; END_TYPE
   |                            ^~~~
   = help: did you mean `Point`?
"""),
    ("C1", TANK + TWICE.replace(": INT VAR", ": @IMT VAR"), """\
error[C1]: `IMT` isn't declared in this scope
  --> t.st:22:18
   |
22 | FUNCTION Twice : IMT VAR_INPUT n : INT; END_VAR Twice := n * 2; END_FUNCTION
   |                  ^~~
   = help: did you mean `INT`?
"""),
    ("C1", tank("level := @MXA(level, 1);"), """\
error[C1]: `MXA` isn't declared in this scope
  --> t.st:10:12
   |
10 |   level := MXA(level, 1);
   |            ^~~
   = help: did you mean `MAX`?
"""),
    ("C1", tank("state : Mode;", "slow : TON;").replace(STATEMENT, "state := @Fil;") + MODE, """\
error[C1]: `Fil` isn't declared in this scope
  --> t.st:10:12
   |
10 |   state := Fil;
   |            ^~~
   = help: did you mean `Fill`?
"""),
    ("C1", tank("level := @raw(1);"), """\
error[C1]: `raw` is a variable, not a function
  --> t.st:10:12
   |
10 |   level := raw(1);
   |            ^~~
   = help: it is declared on line 6
"""),
    ("C1", tank("level := @Point(1);") + POINT, """\
error[C1]: `Point` is a type, not a function
  --> t.st:10:12
   |
10 |   level := Point(1);
   |            ^~~~~
   = help: it is declared on line 22
"""),
    ("C1", tank("level := @Fill(1);") + MODE, """\
error[C1]: `Fill` is a value of an enumerated type, not a function
  --> t.st:10:12
   |
10 |   level := Fill(1);
   |            ^~~~
   = help: it is declared on line 22
"""),
    ("C1", tank("level := @other(1);").replace("VAR_GLOBAL", "VAR_GLOBAL\n    other : INT;"), """\
error[C1]: `other` is a global, not a function
  --> t.st:10:12
   |
10 |   level := other(1);
   |            ^~~~~
   = help: it is declared on line 15
"""),
    ("C1", tank("level := level * @Valve(1);") + VALVE, """\
error[C1]: `Valve` is a function block, not a function
  --> t.st:10:20
   |
10 |   level := level * Valve(1);
   |                    ^~~~~
   = help: declare an instance of it and call that
"""),
    ("C1", TANK + VALVE + "PROGRAM Idle @Valve(); END_PROGRAM\n", """\
error[C1]: `Valve` is a function block, not an instance of a function block
  --> t.st:24:14
   |
24 | PROGRAM Idle Valve(); END_PROGRAM
   |              ^~~~~
   = help: declare an instance of it and call that
"""),
    ("C1", tank("IF open THEN @TON(IN := open, PT := T#1s); END_IF;"), """\
error[C1]: `TON` is a standard function block, not an instance of a function block
  --> t.st:10:16
   |
10 |   IF open THEN TON(IN := open, PT := T#1s); END_IF;
   |                ^~~
   = help: declare an instance of it and call that
"""),
    ("C1", tank("CASE level OF 1: @Twice(n := level); END_CASE;") + TWICE, """\
error[C1]: `Twice` is a function, not an instance of a function block
  --> t.st:10:20
   |
10 |   CASE level OF 1: Twice(n := level); END_CASE;
   |                    ^~~~~
   = help: use its result in an expression
"""),
    ("C1", tank("@Tank();"), """\
error[C1]: `Tank` is a program, not an instance of a function block
  --> t.st:10:3
   |
10 |   Tank();
   |   ^~~~
   = help: it is declared on line 1
"""),
    ("C1", tank("@Twice := 1;") + TWICE, """\
error[C1]: `Twice` is a function, not a variable
  --> t.st:10:3
   |
10 |   Twice := 1;
   |   ^~~~~
   = help: it is declared on line 22
"""),
    ("C1", tank("FOR @twice := 1 TO 2 DO ; END_FOR;") + TWICE, """\
error[C1]: `twice` is a function, not a variable
  --> t.st:10:7
   |
10 |   FOR twice := 1 TO 2 DO ; END_FOR;
   |       ^~~~~
   = help: it is declared on line 22
"""),
    ("C1", tank("FOR @Point := 1 TO 2 DO ; END_FOR;") + POINT, """\
error[C1]: `Point` is a type, not a variable
  --> t.st:10:7
   |
10 |   FOR Point := 1 TO 2 DO ; END_FOR;
   |       ^~~~~
   = help: it is declared on line 22
"""),
    ("C1", tank("level := MAX(ABS(1), @Twice);") + TWICE, """\
error[C1]: `Twice` is a function, not a variable
  --> t.st:10:24
   |
10 |   level := MAX(ABS(1), Twice);
   |                        ^~~~~
   = help: it is declared on line 22
"""),
    ("C1", tank("level := @ABS;"), """\
error[C1]: `ABS` is a standard function, not a variable
  --> t.st:10:12
   |
10 |   level := ABS;
   |            ^~~
"""),
    ("C1", tank("open := @Valve.full;") + VALVE, """\
error[C1]: `Valve` is a function block, not a variable
  --> t.st:10:11
   |
10 |   open := Valve.full;
   |           ^~~~~
   = help: declare an instance of it and read that
"""),
    ("C1", tank("raw : @open;", "raw : DINT := 5;"), """\
error[C1]: `open` is a variable, not a type
 --> t.st:6:11
  |
6 |     raw : open;
  |           ^~~~
  = help: it is declared on line 7
"""),
    ("C1", tank("raw : DINT := @open;", "raw : DINT := 5;"), """\
error[C1]: `open` is a variable, not a literal
 --> t.st:6:19
  |
6 |     raw : DINT := open;
  |                   ^~~~
  = help: it is declared on line 7
"""),
    ("C1", tank("CASE level OF 1: level := ABS(level); 3, @raw, 4: ; END_CASE;"), """\
error[C1]: `raw` is a variable, not a literal
  --> t.st:10:44
   |
10 |   CASE level OF 1: level := ABS(level); 3, raw, 4: ; END_CASE;
   |                                            ^~~
   = help: it is declared on line 6
"""),
    ("C1", TANK + "TYPE Line : STRUCT length : INT := @raw; END_STRUCT; END_TYPE\n", """\
error[C1]: `raw` isn't declared in this scope
  --> t.st:22:36
   |
22 | TYPE Line : STRUCT length : INT := raw; END_STRUCT; END_TYPE
   |                                    ^~~
"""),
    ("C2", tank("raw : DINT := 5; @raw : INT;", "raw : DINT := 5;"), """\
error[C2]: `raw` is already declared on line 6
 --> t.st:6:22
  |
6 |     raw : DINT := 5; raw : INT;
  |                      ^~~
"""),
    ("C2", TANK + "FUNCTION @tank : INT tank := 1; END_FUNCTION\n", """\
error[C2]: `tank` is already declared on line 1
  --> t.st:22:10
   |
22 | FUNCTION tank : INT tank := 1; END_FUNCTION
   |          ^~~~
"""),
    ("C2", tank("tank : DINT;", "raw : DINT := 5;").replace("tank :", "@tank :"), """\
error[C2]: `tank` is the name of the program on line 1
 --> t.st:6:5
  |
6 |     tank : DINT;
  |     ^~~~
"""),
    ("C2", tank("@point : DINT;", "raw : DINT := 5;") + POINT, """\
error[C2]: `point` is the name of the type on line 22
 --> t.st:6:5
  |
6 |     point : DINT;
  |     ^~~~~
"""),
    ("C2", tank("@Max : DINT;", "raw : DINT := 5;"), """\
error[C2]: `Max` is the name of a standard function
 --> t.st:6:5
  |
6 |     Max : DINT;
  |     ^~~
"""),
    ("C2", tank("@ton : DINT;", "raw : DINT := 5;"), """\
error[C2]: `ton` is the name of a standard function block
 --> t.st:6:5
  |
6 |     ton : DINT;
  |     ^~~
"""),
    ("C2", TANK + "TYPE\n  Mode : (Fill, Drain,\n    @FILL);\nEND_TYPE\n", """\
error[C2]: `FILL` is already declared on line 23
  --> t.st:24:5
   |
24 |     FILL);
   |     ^~~~
"""),
    ("C2", tank("raw : Point := (x := 1, @X := 2);", "raw : DINT := 5;") + POINT, """\
error[C2]: `X` is given twice
 --> t.st:6:29
  |
6 |     raw : Point := (x := 1, X := 2);
  |                             ^
"""),
    ("C2", tank("PROGRAM P WITH T : Tank;\n    PROGRAM @p WITH T : Tank;", "PROGRAM P WITH T : Tank;"), """\
error[C2]: `p` is already declared on line 19
  --> t.st:20:13
   |
20 |     PROGRAM p WITH T : Tank;
   |             ^
"""),
    ("C2", tank("level : INT;\n    @LEVEL AT %IW3 : INT;\n  END_VAR\n  RESOURCE", "level : INT;\n  END_VAR\n  RESOURCE"), """\
error[C2]: `LEVEL` is already declared on line 15
  --> t.st:16:5
   |
16 |     LEVEL AT %IW3 : INT;
   |     ^~~~~
"""),
    ("C2", tank("PROGRAM @T WITH T", "PROGRAM P WITH T"), """\
error[C2]: `T` is already declared on line 18
  --> t.st:19:13
   |
19 |     PROGRAM T WITH T : Tank;
   |             ^
"""),
    ("C2", tank("rows : ARRAY [0..1] OF Point := [(x := 1), (x := 1, @x := 2)];", "raw : DINT := 5;") + POINT, """\
error[C2]: `x` is given twice
 --> t.st:6:57
  |
6 |     rows : ARRAY [0..1] OF Point := [(x := 1), (x := 1, x := 2)];
  |                                                         ^
"""),
    ("C3", tank("level := @raw * DINT#2;"), """\
error[C3]: `level` is INT; the expression is DINT
  --> t.st:10:12
   |
10 |   level := raw * DINT#2;
   |            ^~~
   = help: convert it with DINT_TO_INT
"""),
    ("C3", tank("level := @level + raw;"), """\
error[C3]: the operands of `+` are INT and DINT: they must have the same type
  --> t.st:10:12
   |
10 |   level := level + raw;
   |            ^~~~~
"""),
    ("C3", tank("IF @level THEN level := 1; END_IF;"), """\
error[C3]: a condition is BOOL; the expression is INT
  --> t.st:10:6
   |
10 |   IF level THEN level := 1; END_IF;
   |      ^~~~~
   = help: compare it: `level <> 0`
"""),
    ("C3", tank("slow(IN := open, PT := @level);"), """\
error[C3]: the input `PT` is TIME; the expression is INT
  --> t.st:10:26
   |
10 |   slow(IN := open, PT := level);
   |                          ^~~~~
   = help: a TIME isn't converted to a number or back: compare TIMEs, as in `t >= T#1s`
"""),
    ("C3", tank("level := DINT_TO_INT(@level);"), """\
error[C3]: `DINT_TO_INT` doesn't take INT
  --> t.st:10:24
   |
10 |   level := DINT_TO_INT(level);
   |                        ^~~~~
"""),
    ("C3", tank("open := @1;"), """\
error[C3]: `open` is BOOL; the expression is a number
  --> t.st:10:11
   |
10 |   open := 1;
   |           ^
   = help: write TRUE or FALSE
"""),
    ("C3", tank("raw : DINT := @TRUE;", "raw : DINT := 5;"), """\
error[C3]: the variable is DINT; the expression is BOOL
 --> t.st:6:19
  |
6 |     raw : DINT := TRUE;
  |                   ^~~~
  = help: write a literal of DINT
"""),
    ("C3", tank("spot : Point;", "slow : TON;").replace(STATEMENT, "spot.x := @raw;") + POINT, """\
error[C3]: `spot.x` is INT; the expression is DINT
  --> t.st:10:13
   |
10 |   spot.x := raw;
   |             ^~~
   = help: convert it with DINT_TO_INT
"""),
    ("C3", tank("spot : Point;", "slow : TON;").replace(STATEMENT, "spot := @5;") + POINT, """\
error[C3]: `spot` is an array, a structure or an instance; the expression is a number
  --> t.st:10:11
   |
10 |   spot := 5;
   |           ^
"""),
    ("C3", tank("spot, other : Point;", "slow : TON;").replace(STATEMENT, "spot := @other;") + POINT, """\
error[C3]: a structure, an array or an instance isn't assigned as a whole
  --> t.st:10:11
   |
10 |   spot := other;
   |           ^~~~~
   = help: assign the members of a structure or the elements of an array one by one
"""),
    ("C3", tank("CASE @open OF 1: ; END_CASE;"), """\
error[C3]: a CASE selects by an integer or an enumerated type; the expression is BOOL
  --> t.st:10:8
   |
10 |   CASE open OF 1: ; END_CASE;
   |        ^~~~
"""),
    ("C3", tank("FOR raw := 1 TO @level DO ; END_FOR;"), """\
error[C3]: `raw` is DINT; the expression is INT
  --> t.st:10:19
   |
10 |   FOR raw := 1 TO level DO ; END_FOR;
   |                   ^~~~~
   = help: convert it with INT_TO_DINT
"""),
    ("C3", tank("row : ARRAY [0..1] OF INT;", "slow : TON;").replace(STATEMENT, "level := row[@open];"), """\
error[C3]: a subscript is an integer; the expression is BOOL
  --> t.st:10:16
   |
10 |   level := row[open];
   |                ^~~~
"""),
    ("C3", tank("level := Twice(@raw);") + TWICE, """\
error[C3]: this input of `Twice` is INT; the expression is DINT
  --> t.st:10:18
   |
10 |   level := Twice(raw);
   |                  ^~~
   = help: convert it with DINT_TO_INT
"""),
    ("C3", tank("level := MAX(level, @raw);"), """\
error[C3]: the arguments of `MAX` must have the same type: this one is DINT, another INT
  --> t.st:10:23
   |
10 |   level := MAX(level, raw);
   |                       ^~~
"""),
    ("C3", tank("open := MAX(@open, open);"), """\
error[C3]: `MAX` takes integers or TIMEs; the argument is BOOL
  --> t.st:10:15
   |
10 |   open := MAX(open, open);
   |               ^~~~
"""),
    ("C3", tank("bits : WORD;", "slow : TON;").replace(STATEMENT, "bits := MAX(@1, bits);"), """\
error[C3]: `MAX` takes integers or TIMEs; the argument is WORD
  --> t.st:10:15
   |
10 |   bits := MAX(1, bits);
   |               ^
"""),
    ("C3", tank("level := ABS(@open);"), """\
error[C3]: `ABS` takes an integer; the argument is BOOL
  --> t.st:10:16
   |
10 |   level := ABS(open);
   |                ^~~~
"""),
    ("C3", tank("level := SEL(@raw, level, 1);"), """\
error[C3]: `SEL` selects by a BOOL; the argument is DINT
  --> t.st:10:16
   |
10 |   level := SEL(raw, level, 1);
   |                ^~~
"""),
    ("C3", tank("level := SEL(open, level, @raw);"), """\
error[C3]: the last two arguments of `SEL` must have the same type: this one is DINT, another INT
  --> t.st:10:29
   |
10 |   level := SEL(open, level, raw);
   |                             ^~~
"""),
    ("C3", tank("spot : Point;", "slow : TON;").replace(STATEMENT, "level := SEL(open, @spot, level);") + POINT, """\
error[C3]: `SEL` takes single values; the argument is an array, a structure or an instance
  --> t.st:10:22
   |
10 |   level := SEL(open, spot, level);
   |                      ^~~~
"""),
    ("C3", tank("bits : WORD;", "slow : TON;").replace(STATEMENT, "bits := SHL(@level, 1);"), """\
error[C3]: `SHL` shifts a bit string; the argument is INT
  --> t.st:10:15
   |
10 |   bits := SHL(level, 1);
   |               ^~~~~
"""),
    ("C3", tank("bits : WORD;", "slow : TON;").replace(STATEMENT, "bits := SHR(bits, @bits);"), """\
error[C3]: `SHR` shifts by an integer; the argument is WORD
  --> t.st:10:21
   |
10 |   bits := SHR(bits, bits);
   |                     ^~~~
"""),
    ("C3", tank("bits : WORD;", "slow : TON;").replace(STATEMENT, "bits := ROL(@open, 1);"), """\
error[C3]: `ROL` rotates a bit string; the argument is BOOL
  --> t.st:10:15
   |
10 |   bits := ROL(open, 1);
   |               ^~~~
"""),
    ("C3", tank("bits : WORD;", "slow : TON;").replace(STATEMENT, "bits := ROR(bits, @open);"), """\
error[C3]: `ROR` rotates by an integer; the argument is BOOL
  --> t.st:10:21
   |
10 |   bits := ROR(bits, open);
   |                     ^~~~
"""),
    ("C3", tank("slow(IN := open, PT := T#1s, Q => @level);"), """\
error[C3]: the output `Q` is BOOL; the variable is INT
  --> t.st:10:37
   |
10 |   slow(IN := open, PT := T#1s, Q => level);
   |                                     ^~~~~
"""),
    ("C3", tank("level := @-open;"), """\
error[C3]: `-` takes a signed number; the operand is BOOL
  --> t.st:10:12
   |
10 |   level := -open;
   |            ^
"""),
    ("C3", tank("bits : WORD;", "slow : TON;").replace(STATEMENT, "bits := @-(1);"), """\
error[C3]: `-` takes a signed number; the operand is a number of another type
  --> t.st:10:11
   |
10 |   bits := -(1);
   |           ^
"""),
    ("C3", tank("open := @NOT level;"), """\
error[C3]: NOT takes a BOOL or a bit string; the operand is INT
  --> t.st:10:11
   |
10 |   open := NOT level;
   |           ^~~
"""),
    ("C3", tank("open := @level AND level;"), """\
error[C3]: `AND` takes BOOLs or bit strings; the operands are INT
  --> t.st:10:11
   |
10 |   open := level AND level;
   |           ^~~~~
"""),
    ("C3", tank("bits : WORD;", "slow : TON;").replace(STATEMENT, "bits := @bits * 2;"), """\
error[C3]: `*` takes integers; the operands are WORD
  --> t.st:10:11
   |
10 |   bits := bits * 2;
   |           ^~~~
"""),
    ("C3", tank("bits : WORD;", "slow : TON;").replace(STATEMENT, "bits := @1 * 2;"), """\
error[C3]: `*` takes integers; the operands are numbers of another type
  --> t.st:10:11
   |
10 |   bits := 1 * 2;
   |           ^
"""),
    ("C3", tank("spot : Point;", "slow : TON;").replace(STATEMENT, "open := @spot = spot;") + POINT, """\
error[C3]: `=` takes single values; an operand is an array, a structure or an instance
  --> t.st:10:11
   |
10 |   open := spot = spot;
   |           ^~~~
"""),
    ("C3", tank("level := @level[0];"), """\
error[C3]: `level` is INT: only an array has elements
  --> t.st:10:12
   |
10 |   level := level[0];
   |            ^~~~~
"""),
    ("C3", tank("row : ARRAY [0..1] OF INT;", "slow : TON;").replace(STATEMENT, "level := @row[0][1];"), """\
error[C3]: a part of `row` is INT: only an array has elements
  --> t.st:10:12
   |
10 |   level := row[0][1];
   |            ^~~
"""),
    ("C3", tank("state : Mode;", "slow : TON;").replace(STATEMENT, "state := @Fill;")
        + MODE + "TYPE Step : (Fill, Rest); END_TYPE\n", """\
error[C3]: several enumerated types have a value `Fill`
  --> t.st:10:12
   |
10 |   state := Fill;
   |            ^~~~
   = help: write its type, as in `Mode#Fill`
"""),
    ("C3", tank("raw : @Twice;", "raw : DINT := 5;") + TWICE, """\
error[C3]: `Twice` is a function, not a type
 --> t.st:6:11
  |
6 |     raw : Twice;
  |           ^~~~~
"""),
    ("C3", TANK + "FUNCTION_BLOCK Valve VAR inner : @Tank; END_VAR END_FUNCTION_BLOCK\n", """\
error[C3]: `Tank` is a program, not a type
  --> t.st:22:34
   |
22 | FUNCTION_BLOCK Valve VAR inner : Tank; END_VAR END_FUNCTION_BLOCK
   |                                  ^~~~
"""),
    ("C3", tank("raw : @ABS;", "raw : DINT := 5;"), """\
error[C3]: `ABS` is a standard function, not a type
 --> t.st:6:11
  |
6 |     raw : ABS;
  |           ^~~
"""),
    ("C3", TANK + "TYPE Line : STRUCT delay : @TON; END_STRUCT; END_TYPE\n", """\
error[C3]: `TON` is a function block: an instance isn't allowed here
  --> t.st:22:28
   |
22 | TYPE Line : STRUCT delay : TON; END_STRUCT; END_TYPE
   |                            ^~~
   = help: declare instances in VAR of a program or function block
"""),
    ("C3", TANK + POINT + "FUNCTION Origin : @Point ; END_FUNCTION\n", """\
error[C3]: an input, an output or a result has an elementary or enumerated type; `Point` has parts
  --> t.st:23:19
   |
23 | FUNCTION Origin : Point ; END_FUNCTION
   |                   ^~~~~
"""),
    ("C3", tank("slow : @TON := 5;", "slow : TON;"), """\
error[C3]: an instance can't have an initial value
 --> t.st:8:12
  |
8 |     slow : TON := 5;
  |            ^~~
"""),
    ("C3", tank("raw : DINT := @[1, 2];", "raw : DINT := 5;"), """\
error[C3]: a list initialises an array; the variable is DINT
 --> t.st:6:19
  |
6 |     raw : DINT := [1, 2];
  |                   ^
"""),
    ("C3", tank("raw : Mode := @(x := 1);", "raw : DINT := 5;") + MODE, """\
error[C3]: fields initialise a structure; the variable is Mode
 --> t.st:6:19
  |
6 |     raw : Mode := (x := 1);
  |                   ^
"""),
    ("C3", tank("@level();"), """\
error[C3]: `level` is INT, not an instance of a function block
  --> t.st:10:3
   |
10 |   level();
   |   ^~~~~
"""),
    ("C3", tank("FOR @level := 1 TO 2 DO ; END_FOR;"), """\
error[C3]: the control variable of a FOR is a VAR of the unit, of an integer type; `level` isn't
  --> t.st:10:7
   |
10 |   FOR level := 1 TO 2 DO ; END_FOR;
   |       ^~~~~
"""),
    ("C3", tank("CASE level OF @DINT#5: ; END_CASE;"), """\
error[C3]: the selector is INT; the label is DINT
  --> t.st:10:17
   |
10 |   CASE level OF DINT#5: ; END_CASE;
   |                 ^~~~~~
"""),
    ("C3", tank("state : Mode;", "slow : TON;").replace(STATEMENT, "CASE state OF @1: ; END_CASE;") + MODE, """\
error[C3]: the selector is Mode; the label is a number
  --> t.st:10:17
   |
10 |   CASE state OF 1: ; END_CASE;
   |                 ^
"""),
    ("C3", tank("CASE level OF @Fill: ; END_CASE;") + MODE, """\
error[C3]: the selector is INT; the label is Mode
  --> t.st:10:17
   |
10 |   CASE level OF Fill: ; END_CASE;
   |                 ^~~~
"""),
    ("C4", tank("level := level + @40000;"), """\
error[C4]: 40000 doesn't fit in INT (-32768 to 32767)
  --> t.st:10:20
   |
10 |   level := level + 40000;
   |                    ^~~~~
"""),
    ("C4", tank("level := @-40000;"), """\
error[C4]: -40000 doesn't fit in INT (-32768 to 32767)
  --> t.st:10:12
   |
10 |   level := -40000;
   |            ^
"""),
    ("C4", tank("level := @INT#40000;"), """\
error[C4]: INT#40000 doesn't fit in INT (-32768 to 32767)
  --> t.st:10:12
   |
10 |   level := INT#40000;
   |            ^~~~~~~~~
"""),
    ("C4", tank("PRIORITY := @65536", "PRIORITY := 0"), """\
error[C4]: 65536 is over 65535, the largest PRIORITY
  --> t.st:18:46
   |
18 |     TASK T (INTERVAL := T#100ms, PRIORITY := 65536);
   |                                              ^~~~~
"""),
    ("C5", tank("VAR_EXTERNAL CONSTANT", "VAR_EXTERNAL").replace(STATEMENT, "@" + STATEMENT), """\
error[C5]: `level` is declared VAR_EXTERNAL CONSTANT: it can't be assigned
  --> t.st:10:3
   |
10 |   level := level + 1;
   |   ^~~~~
   = help: declare a global that is neither CONSTANT nor an input in VAR_EXTERNAL
"""),
    ("C5", tank("@slow.Q := open;"), """\
error[C5]: `slow` is an instance: its outputs can't be assigned from outside
  --> t.st:10:3
   |
10 |   slow.Q := open;
   |   ^~~~
"""),
    ("C5", TANK + "FUNCTION_BLOCK Valve VAR_INPUT amount : INT; END_VAR @amount := 1; END_FUNCTION_BLOCK\n", """\
error[C5]: `amount` is an input: it can't be assigned
  --> t.st:22:54
   |
22 | FUNCTION_BLOCK Valve VAR_INPUT amount : INT; END_VAR amount := 1; END_FUNCTION_BLOCK
   |                                                      ^~~~~~
"""),
    ("C5", tank("most : INT := 5; END_VAR VAR raw : DINT := 5;", "raw : DINT := 5;")
        .replace("VAR\n    most", "VAR CONSTANT\n    most").replace(STATEMENT, "@most := 6;"), """\
error[C5]: `most` is a constant: it can't be assigned
  --> t.st:10:3
   |
10 |   most := 6;
   |   ^~~~
"""),
    ("C5", tank("FOR raw := 1 TO 2 DO @raw := 3; END_FOR;"), """\
error[C5]: `raw` controls an enclosing FOR: it can't be assigned
  --> t.st:10:24
   |
10 |   FOR raw := 1 TO 2 DO raw := 3; END_FOR;
   |                        ^~~
"""),
    ("C6", tank("FUNCTION @f : INT f := f(); END_FUNCTION\nCONFIGURATION Plant", "CONFIGURATION Plant"), """\
error[C6]: `f` contains itself, or is over 64 deep
  --> t.st:13:10
   |
13 | FUNCTION f : INT f := f(); END_FUNCTION
   |          ^
"""),
    ("C7", tank("CASE level OF @1..0: ; END_CASE;"), """\
error[C7]: the range 1..0 is reversed
  --> t.st:10:17
   |
10 |   CASE level OF 1..0: ; END_CASE;
   |                 ^
"""),
    ("C7", tank("CASE level OF\n  5: level := 1;\n  @5: ;\n  END_CASE;"), """\
error[C7]: `5` is already a label on line 11
  --> t.st:12:3
   |
12 |   5: ;
   |   ^
"""),
    ("C7", tank("IF open THEN CASE level OF\n  1..3: level := 1;\n  @2, 4: ;\n  END_CASE; END_IF;"), """\
error[C7]: `2` is already in the range 1..3 on line 11
  --> t.st:12:3
   |
12 |   2, 4: ;
   |   ^
"""),
    ("C7", tank(
        "CASE level OF\n  0: ;\n  3: level := 1;\n  ELSE CASE level OF\n  9: ;\n  0..1:\n  ;\n  @1..3: ;\n  END_CASE; END_CASE;"
    ), """\
error[C7]: the range 1..3 overlaps a label on line 15
  --> t.st:17:3
   |
17 |   1..3: ;
   |   ^
"""),
    ("C7", tank("CASE level OF\n  5: level := 1;\n  @5: ;\n  END_CASE;"), """\
error[C7]: `5` is a label again on line 12
  --> t.st:11:3
   |
11 |   5: level := 1;
   |   ^
"""),
    ("C7", tank("CASE level OF\n  @2, 4: ;\n  1..3: ;\n  END_CASE;"), """\
error[C7]: `2` is in the range 1..3 on line 12 too
  --> t.st:11:3
   |
11 |   2, 4: ;
   |   ^
"""),
    ("C7", tank("CASE level OF -1: ; 0, @-1: ; END_CASE;"), """\
error[C7]: `-1` is already a label on line 10
  --> t.st:10:26
   |
10 |   CASE level OF -1: ; 0, -1: ; END_CASE;
   |                          ^
"""),
    ("C7", tank("state : Mode;", "slow : TON;").replace(STATEMENT, "CASE state OF\n  Fill: ;\n  Drain, @FILL: ;\n  END_CASE;")
        + MODE, """\
error[C7]: `FILL` is already a label on line 11
  --> t.st:12:10
   |
12 |   Drain, FILL: ;
   |          ^~~~
"""),
    ("C8", tank("raw : ARRAY [@2..1] OF INT;", "raw : DINT := 5;"), """\
error[C8]: the bounds 2..1 are reversed
 --> t.st:6:18
  |
6 |     raw : ARRAY [2..1] OF INT;
  |                  ^
"""),
    ("C8", TANK + "TYPE Row : ARRAY [@-1..4095] OF INT; END_TYPE\n", """\
error[C8]: an array [-1..4095] has 4097 elements; at most 4096 are allowed
  --> t.st:22:19
   |
22 | TYPE Row : ARRAY [-1..4095] OF INT; END_TYPE
   |                   ^
"""),
    ("C8", TANK + "TYPE Point : STRUCT x : ARRAY [@3..-1] OF INT; END_STRUCT; END_TYPE\n", """\
error[C8]: the bounds 3..-1 are reversed
  --> t.st:22:32
   |
22 | TYPE Point : STRUCT x : ARRAY [3..-1] OF INT; END_STRUCT; END_TYPE
   |                                ^
"""),
    ("C8", tank("band : Line := (row := @[5(0), 1]);", "raw : DINT := 5;")
        + "TYPE Line : STRUCT row : ARRAY [1..5] OF INT; END_STRUCT; END_TYPE\n", """\
error[C8]: the list has 6 elements; its array has 5
 --> t.st:6:28
  |
6 |     band : Line := (row := [5(0), 1]);
  |                            ^
"""),
    ("C8", tank("raw : ARRAY [1..2] OF INT := @[1, 2, 3];", "raw : DINT := 5;"), """\
error[C8]: the list has 3 elements; its array has 2
 --> t.st:6:34
  |
6 |     raw : ARRAY [1..2] OF INT := [1, 2, 3];
  |                                  ^
"""),
    ("C9", tank("@EXIT;"), """\
error[C9]: `EXIT` is outside a loop
  --> t.st:10:3
   |
10 |   EXIT;
   |   ^~~~
"""),
    ("C10", tank("level := @ABS(level, 1);"), """\
error[C10]: the number of arguments is 2; `ABS` takes 1
  --> t.st:10:12
   |
10 |   level := ABS(level, 1);
   |            ^~~
"""),
    ("C10", tank("slow(@ON_TIME := open);"), """\
error[C10]: `TON` has no input `ON_TIME`
  --> t.st:10:8
   |
10 |   slow(ON_TIME := open);
   |        ^~~~~~~
   = help: its inputs: `IN`, `PT`
"""),
    ("C10", tank("slow(IN := (level > 1), PT := T#1s, @in := open);"), """\
error[C10]: `in` is given twice
  --> t.st:10:39
   |
10 |   slow(IN := (level > 1), PT := T#1s, in := open);
   |                                       ^~
"""),
    ("C10", tank("slow(IN := (level > ABS(level)), @Done => open, PT := T#1s);"), """\
error[C10]: `TON` has no output `Done`
  --> t.st:10:36
   |
10 |   slow(IN := (level > ABS(level)), Done => open, PT := T#1s);
   |                                    ^~~~
   = help: its outputs: `Q`, `ET`
"""),
    ("C10", tank("slow(@Q := open);"), """\
error[C10]: `Q` is an output of `TON`
  --> t.st:10:8
   |
10 |   slow(Q := open);
   |        ^
   = help: copy an output with `Q => variable`
"""),
    ("C10", tank("slow(PT := T#1s, @IN => open);"), """\
error[C10]: `IN` is an input of `TON`
  --> t.st:10:20
   |
10 |   slow(PT := T#1s, IN => open);
   |                    ^~
   = help: set an input with `IN := value`
"""),
    ("C10", tank("inlet : Valve;", "slow : TON;").replace(STATEMENT, "inlet(@amuont := 1);")
        + VALVE, """\
error[C10]: `Valve` has no input `amuont`
  --> t.st:10:9
   |
10 |   inlet(amuont := 1);
   |         ^~~~~~
   = help: did you mean `amount`?
"""),
    ("C11", tank("VAR_GLOBAL RETAIN\n    @in AT %IW0 : INT;", "VAR_GLOBAL"), """\
error[C11]: `in` has an address and is declared RETAIN
  --> t.st:15:5
   |
15 |     in AT %IW0 : INT;
   |     ^~
   = help: declare it in a VAR_GLOBAL block without RETAIN
"""),
    ("C13", MANY, f"""\
error[C13]: `x00` is one name too many for an enumerated type
 --> t.st:1:1035
  |
1 | ...{MANY.replace("@", "")[-100:]}
  |    {" " * 86}^~~
"""),
    ("G2", "PROGRAM P END_PROGRAM", """\
error[G2]: the source has no CONFIGURATION
--> t.st
"""),
    ("G2", TANK + TANK[TANK.index("CONFIGURATION"):].replace("Plant", "Spare"), """\
error[G2]: `Spare` is a second CONFIGURATION; a source has one
  --> t.st:22:15
   |
22 | CONFIGURATION Spare
   |               ^~~~~
"""),
    ("G3", tank("WITH Slow", "WITH T"), """\
error[G3]: the resource `R` has no task `Slow`
  --> t.st:19:20
   |
19 |     PROGRAM P WITH Slow : Tank;
   |                    ^~~~
"""),
    ("G3", tank("WITH T : Tnak", "WITH T : Tank"), """\
error[G3]: the program type `Tnak` is unknown
  --> t.st:19:24
   |
19 |     PROGRAM P WITH T : Tnak;
   |                        ^~~~
"""),
    ("G3", tank("WITH T : Valve", "WITH T : Tank") + VALVE, """\
error[G3]: `Valve` is a function block, not a program
  --> t.st:19:24
   |
19 |     PROGRAM P WITH T : Valve;
   |                        ^~~~~
"""),
    ("G3", tank("VAR_GLOBAL\n    levels : INT;", "VAR_GLOBAL\n    level : INT;"), """\
error[G3]: the program `Tank` uses the unknown global `level`
 --> t.st:3:5
  |
3 |     level : INT;
  |     ^~~~~
"""),
    ("G3", tank("VAR_GLOBAL\n    level : DINT;", "VAR_GLOBAL\n    level : INT;"), """\
error[G3]: the VAR_EXTERNAL `level` of program `Tank` is INT; the global is DINT
 --> t.st:3:5
  |
3 |     level : INT;
  |     ^~~~~
"""),
    ("G3", tank("VAR_EXTERNAL\n    table : ARRAY [0..3] OF INT;", "VAR_EXTERNAL").replace(
        "VAR_GLOBAL", "VAR_GLOBAL\n    table : ARRAY [0..4] OF INT;"
    ), """\
error[G3]: the VAR_EXTERNAL `table` of program `Tank` differs from the global in bounds or element type
 --> t.st:3:5
  |
3 |     table : ARRAY [0..3] OF INT;
  |     ^~~~~
"""),
    ("G3", tank("VAR_EXTERNAL\n    state : Mode;", "VAR_EXTERNAL").replace("VAR_GLOBAL", "VAR_GLOBAL\n    state : INT;")
        + MODE, """\
error[G3]: the VAR_EXTERNAL `state` of program `Tank` is Mode; the global is INT
 --> t.st:3:5
  |
3 |     state : Mode;
  |     ^~~~~
"""),
    ("G3", tank("VAR_EXTERNAL\n    table : Row;", "VAR_EXTERNAL").replace("VAR_GLOBAL", "VAR_GLOBAL\n    table : ARRAY [0..3] OF DINT;")
        + "TYPE Row : ARRAY [0..3] OF INT; END_TYPE\n", """\
error[G3]: the VAR_EXTERNAL `table` of program `Tank` differs from the global in bounds or element type
 --> t.st:3:5
  |
3 |     table : Row;
  |     ^~~~~
"""),
    ("G3", tank("VAR_EXTERNAL\n    table : Rows;", "VAR_EXTERNAL").replace("VAR_GLOBAL", "VAR_GLOBAL\n    table : Columns;")
        + "TYPE Row : ARRAY [0..3] OF INT; Column : ARRAY [0..4] OF INT;\n"
        + "Rows : ARRAY [0..1] OF Row; Columns : ARRAY [0..1] OF Column; END_TYPE\n", """\
error[G3]: a task, program or global is unknown, or doesn't fit its use
--> t.st
"""),
    ("G3", TANK + VALVE.replace("VAR_INPUT", "VAR_EXTERNAL Total : INT; END_VAR\nVAR_INPUT"), """\
error[G3]: the function block `Valve` uses the unknown global `Total`
  --> t.st:22:35
   |
22 | FUNCTION_BLOCK Valve VAR_EXTERNAL Total : INT; END_VAR
   |                                   ^~~~~
"""),
    ("G3", tank("VAR_EXTERNAL\n    spot : Point;", "VAR_EXTERNAL").replace("VAR_GLOBAL", "VAR_GLOBAL\n    SPOT : Size;")
        + POINT + POINT.replace("Point", "Size"), """\
error[G3]: the VAR_EXTERNAL `spot` of program `Tank` is Point; the global is Size
 --> t.st:3:5
  |
3 |     spot : Point;
  |     ^~~~
"""),
    ("G3", tank("VAR_GLOBAL CONSTANT", "VAR_GLOBAL"), """\
error[G3]: the global `level` is CONSTANT: its VAR_EXTERNAL has to be CONSTANT
 --> t.st:3:5
  |
3 |     level : INT;
  |     ^~~~~
"""),
    ("G3", tank("VAR_GLOBAL\n    level AT %IW0 : INT;", "VAR_GLOBAL\n    level : INT;"), """\
error[G3]: the global `level` is an input: its VAR_EXTERNAL has to be CONSTANT
 --> t.st:3:5
  |
3 |     level : INT;
  |     ^~~~~
"""),
    ("G3", tank("VAR_EXTERNAL CONSTANT", "VAR_EXTERNAL").replace(STATEMENT, "raw := 1;"), """\
error[G3]: the global `level` is neither CONSTANT nor an input: its VAR_EXTERNAL can't be CONSTANT
 --> t.st:3:5
  |
3 |     level : INT;
  |     ^~~~~
"""),
    ("G3", tank("SINGLE := go", "INTERVAL := T#100ms"), """\
error[G3]: the global `go` is unknown: SINGLE takes a BOOL global
  --> t.st:18:23
   |
18 |     TASK T (SINGLE := go, PRIORITY := 0);
   |                       ^~
"""),
    ("G3", tank("SINGLE := level", "INTERVAL := T#100ms"), """\
error[G3]: the global `level` is INT: SINGLE takes a BOOL global
  --> t.st:18:23
   |
18 |     TASK T (SINGLE := level, PRIORITY := 0);
   |                       ^~~~~
"""),
    ("G4", tank("VAR_GLOBAL\n    out AT %QW256 : INT;", "VAR_GLOBAL"), """\
error[G4]: `%QW256` is out of range: 0 to 255
  --> t.st:15:12
   |
15 |     out AT %QW256 : INT;
   |            ^~~~~~
"""),
    ("G4", tank("VAR_GLOBAL\n    in AT %IX1024 : BOOL;", "VAR_GLOBAL"), """\
error[G4]: `%IX1024` is out of range: 0 to 1023
  --> t.st:15:11
   |
15 |     in AT %IX1024 : BOOL;
   |           ^~~~~~~
"""),
    ("G4", tank("VAR_GLOBAL\n    out AT %QX3 : INT;", "VAR_GLOBAL"), """\
error[G4]: `%QX3` is one bit: `out` has to be BOOL
  --> t.st:15:12
   |
15 |     out AT %QX3 : INT;
   |            ^~~~
"""),
    ("G4", tank("VAR_GLOBAL\n    out AT %QW3 : DINT;", "VAR_GLOBAL"), """\
error[G4]: `%QW3` has 16 bits: `out` has to be INT, UINT or WORD
  --> t.st:15:12
   |
15 |     out AT %QW3 : DINT;
   |            ^~~~
"""),
    ("G4", tank("VAR_GLOBAL CONSTANT out AT %QW3 : INT := 1; END_VAR\n  VAR_GLOBAL", "VAR_GLOBAL"), """\
error[G4]: `out` has the address `%QW3` and is declared CONSTANT
  --> t.st:14:30
   |
14 |   VAR_GLOBAL CONSTANT out AT %QW3 : INT := 1; END_VAR
   |                              ^~~~
"""),
    ("G4", tank("VAR_GLOBAL\n    in AT (* %IW9 *) %IW3 : INT := 5;", "VAR_GLOBAL"), """\
error[G4]: `%IW3` is an input: `in` can't have an initial value
  --> t.st:15:22
   |
15 |     in AT (* %IW9 *) %IW3 : INT := 5;
   |                      ^~~~
"""),
    ("G4", tank("VAR_GLOBAL\n    in AT %IW0 : INT;\n    flow AT %iw0 : UINT;", "VAR_GLOBAL"), """\
error[G4]: `%iw0` is used twice: `in` on line 15 already has it
  --> t.st:16:13
   |
16 |     flow AT %iw0 : UINT;
   |             ^~~~
"""),
    ("G5", TANK[:TANK.index("  RESOURCE")] + "".join(
        f"  RESOURCE R{k} ON CPU TASK T (INTERVAL := T#1s, PRIORITY := 0); PROGRAM P WITH T : Tank; END_RESOURCE\n" for k in range(9)
    ) + "END_CONFIGURATION\n", """\
error[G5]: there are 9 resources; at most 8 are allowed
  --> t.st:25:12
   |
25 |   RESOURCE R8 ON CPU TASK T (INTERVAL := T#1s, PRIORITY := 0); PROGRAM P WITH T : Tank; END_RESOURCE
   |            ^~
"""),
    ("G5", tank("".join(f"    TASK T{k} (INTERVAL := T#1s, PRIORITY := 0);\n" for k in range(33)) + "    TASK T (", "    TASK T ("), """\
error[G5]: the resource `R` has 34 tasks; at most 32 are allowed
  --> t.st:50:10
   |
50 |     TASK T32 (INTERVAL := T#1s, PRIORITY := 0);
   |          ^~~
"""),
    ("G5", tank("".join(f"    PROGRAM P{k} WITH T : Tank;\n" for k in range(64)) + "    PROGRAM P ", "    PROGRAM P "), """\
error[G5]: there are 65 programs; at most 64 are allowed
  --> t.st:83:13
   |
83 |     PROGRAM P WITH T : Tank;
   |             ^
"""),
    ("G6", tank("VAR_GLOBAL RETAIN\n" + "".join(f"v{k:063d} : DINT;\n" for k in range(1772)) + "END_VAR VAR_GLOBAL", "VAR_GLOBAL"), """\
error[G6]: the record of the RETAIN variables has 131140 bytes; at most 131059 are allowed
--> t.st
"""),
    ("G6", tank("VAR RETAIN kept : INT; END_VAR\n  VAR\n    raw", "VAR\n    raw").replace("VAR_GLOBAL", "VAR_GLOBAL RETAIN\n"
        + "".join(f"v{k:063d} : DINT;\n" for k in range(1772)) + "END_VAR VAR_GLOBAL"), """\
error[G6]: the record of the RETAIN variables would be over 131059 bytes long
--> t.st
"""),
    ("G7", TANK, """\
error[G7]: the budget has to be 1 to 1000000 ticks
--> t.st
"""),
    ("G8", tank("PROGRAM P :", "PROGRAM P WITH T :"), """\
error[G8]: the program `P` has no task
  --> t.st:19:13
   |
19 |     PROGRAM P : Tank;
   |             ^
   = help: write WITH and the name of a task after `P`
"""),
    ("M1", tank("VAR_GLOBAL\n" + "".join(f"v{k} : INT;\n" for k in range(4096)), "VAR_GLOBAL"), """\
error[M1]: there are 4097 globals; at most 4096 paths are allowed
--> t.st
"""),
    ("M1", tank("raw : ARRAY [1..4096] OF DINT;", "raw : DINT := 5;"), """\
error[M1]: there are more than 4096 paths, block instances or function values
--> t.st
"""),
    ("M2", tank(STATEMENT * 20000), """\
error[M2]: the program `Tank` has more than 16384 instructions
 --> t.st:1:9
  |
1 | PROGRAM Tank
  |         ^~~~
"""),
    ("X1", None, """\
error[X1]: the source can't be read
--> t.st
"""),
]

LATE = tank("late : TIME;", "slow : TON;")
NO_POWER = "there is no power: multiply, as in `n * n`"
NO_REAL = "there is no REAL: use whole numbers, as 15 tenths for 1.5"
TIME_STAYS = "a TIME isn't converted to a number or back: compare TIMEs, as in `t >= T#1s`"
COMMENT = "write a comment as `(* .. *)`"
PLAIN = "numbers without a type are LINT in a call: write"
NAMES = "a function takes its arguments without names; a block is called in a statement"
LOCATED = "a global has an address, as in `flow AT %IW0 : INT`; use its name elsewhere"
ROOM = "TASK and PROGRAM belong in a RESOURCE: `RESOURCE R ON CPU .. END_RESOURCE`"
TASK = "write a task as `TASK T (INTERVAL := T#10ms, PRIORITY := 0);`"


def stray(token):
    return f"`{token}` isn't allowed here"


def undeclared(name):
    return f"`{name}` isn't declared in this scope"


def byte(character):
    return f"the byte 0x{ord(character):02X} (`{character}`) isn't allowed here"


def unlike(operator, left, right):
    return f"the operands of `{operator}` are {left} and {right}: they must have the same type"


# statements with marks of other languages, or of what the profile leaves out: the sentence, and what to write
MARKS = {
    "level := level /@/ 2": (stray("/"), COMMENT),
    "@// a comment": (stray("/"), COMMENT),
    "@/* a comment */": (stray("/"), COMMENT),
    "level := level *@* 2;": (stray("*"), NO_POWER),
    "IF level =@= 1 THEN ; END_IF;": (stray("="), "`=` compares, `:=` assigns"),
    "open := level =@< 1;": (stray("<"), "write `<=`"),
    "level @+= 1;": (stray("+"), "write the name twice, as in `n := n + 1`"),
    "level @-= 1;": (stray("-"), "write the name twice, as in `n := n - 1`"),
    "level @*= 1;": (stray("*"), "write the name twice, as in `n := n * 2`"),
    "level @/= 1;": (stray("/"), "write the name twice, as in `n := n / 2`"),
    "level@++;": (stray("+"), "write `n := n + 1`"),
    "level@--;": (stray("-"), "write `n := n - 1`, and a comment as `(* .. *)`"),
    "level := level <@< 1;": (stray("<"), "shift a bit string, as in `SHL(w, 1)`"),
    "level := level >@> 1;": (stray(">"), "shift a bit string, as in `SHR(w, 1)`"),
    "open := open &@& open;": (stray("&"), "write AND"),
    "IF level @!= 1 THEN ; END_IF;": (byte("!"), "write `<>`"),
    "open := open @|| open;": (byte("|"), "write OR"),
    "open := open @| open;": (byte("|"), "write OR"),
    "open := @!open;": (byte("!"), "write NOT"),
    "open := @~open;": (byte("~"), "write NOT"),
    "level := level @% 2;": (byte("%"), "write a remainder as `n MOD 2`, and an address as `%IX0`"),
    "level := level@^;": (byte("^"), "there is no power, and there are no pointers"),
    "level := open @? 1 : 2;": (byte("?"), "choose with IF or SEL"),
    "@{once} level := 1;": (byte("{"), "leave a pragma out; an IF ends with END_IF"),
    "IF open THEN level := 1; @}": (byte("}"), "leave a pragma out; an IF ends with END_IF"),
    'level := @"a";': (byte('"'), "strings aren't supported"),
}

# statements with words and forms of other languages
FORMS = {
    "IF open THEN ; ELSEIF @open THEN ; END_IF;": (stray("open"), "write ELSIF"),
    "IF open THEN ; END @IF;": (stray("IF"), "write the last word as END_IF or END_FOR"),
    "WHILE open DO BREAK@; END_WHILE;": (stray(";"), "write EXIT in a loop; an arm of a CASE needs no word"),
    "WHILE open DO CONTINUE@; END_WHILE;": (stray(";"), "put the rest of the loop into an IF"),
    "GOTO @Start;": (stray("Start"), "there are no jumps: write an IF or a loop"),
    "SWITCH @level OF 1: ; END_CASE;": (stray("level"), "write CASE"),
    "REPEAT level := 1; UNTIL open@; END_REPEAT;": (stray(";"), "write `END_REPEAT` here, without `;`"),
    "IF open@; level := 1; END_IF;": (stray(";"), "write `THEN` here, without `;`"),
    "level := 1@.5;": (stray("."), NO_REAL),
    "open := raw.@3;": (stray("3"), "a bit has no name: read it with a mask, as in `(w AND 16#8) <> 0`"),
    "level := LIMIT(MN @:= 0, IN := level, MX := 5);": (stray(":="), NAMES),
    "level := MAX(1, IN2 @:= 2);": (stray(":="), NAMES),
    "open := slow(IN @:= open);": (stray(":="), NAMES),
    "slow(open@, T#1s);": (stray(","), "an input of a block has a name, as in `IN := b`"),
    "IF (level @:= 1) THEN ; END_IF;": (stray(":="), "`=` compares, `:=` assigns"),
    "open := level @=> 1;": (stray("=>"), "`>=` compares, `=>` copies an output of a block"),
    "level := @%IW0;": (stray("%IW0"), LOCATED),
    "level := 1; @VAR size : INT; END_VAR": (stray("VAR"), "variables come before the first statement, which may be a `;`"),
}

# words that aren't literals, and what to write
WORDS = {
    "0x1F": "write `16#1F`",
    "0b10": "write `2#10`",
    "0o17": "write `8#17`",
    "500ms": "write `T#500ms`",
    "1e3": NO_REAL,
}

# functions with the operators that do their work; the first four are reserved words
OPERATORS = {
    "MOD": "MOD",
    "AND": "AND",
    "OR": "OR",
    "XOR": "XOR",
    "ADD": "+",
    "SUB": "-",
    "MUL": "*",
    "DIV": "/",
    "GT": ">",
    "GE": ">=",
    "EQ": "=",
    "LE": "<=",
    "LT": "<",
    "ne": "<>",
}

# functions that the profile doesn't have, and what to write
FUNCTIONS = {
    "TIME_TO_DINT": TIME_STAYS,
    "INT_TO_TIME": TIME_STAYS,
    "INT_TO_REAL": NO_REAL,
    "INT_TO_INT": "leave it out: the types are one",
    "TO_INT": "write both types, as in `DINT_TO_INT`",
    "EXPT": NO_POWER,
    "SQRT": NO_REAL,
    "MUX": "choose with CASE",
    "MOVE": "assign with `:=`",
    "CONCAT": "strings aren't supported",
    "ADR": "there are no pointers",
}

# types that the profile doesn't have
TYPES = {
    "Boolean": "write BOOL",
    "INT32": "write DINT",
    "LTIME": "write TIME",
    "TOD": "dates aren't supported",
}

# declarations of a program's variable
DECLARED = {
    "@STRING": (stray("STRING"), "strings aren't supported"),
    "ARRAY [0..3@, 0..3] OF INT": (stray(","), "an array has one dimension: declare an array of rows"),
    "ARRAY [0..3] OF @ARRAY [0..3] OF INT": (stray("ARRAY"), "declare this type in TYPE, and write its name here"),
    "@(Fill, Drain)": (stray("("), "declare this type in TYPE, and write its name here"),
    "INT @(0..9)": (stray("("), "there are no subranges: bound a value with LIMIT"),
    "DINT;@": (stray(";"), "leave the `;` out"),
}

# each hint that is one of many alike: the code, the text, the sentence and the hint. A second `@` is the place of the caret.
HINTS = [
    *(("L1" if said.startswith("the byte") else "P1", tank(it), said, hint) for it, (said, hint) in MARKS.items()),
    *(("P1", tank(it), said, hint) for it, (said, hint) in FORMS.items()),
    *(("L2", tank(f"raw := @{it};"), f"`{it}` isn't a literal", hint) for it, hint in WORDS.items()),
    *(("P1" if it == sign else "C1", tank(f"level := @{it}(level, 1);"), stray(it) if it == sign else undeclared(it),
       f"write the operator, as in `level {sign} 1`") for it, sign in OPERATORS.items()),
    ("C1", tank("open := @GT(level + 1, 2);"), undeclared("GT"), "write the operator, as in `a > b`"),
    *(("C1", tank(f"level := @{it}(level);"), undeclared(it), hint) for it, hint in FUNCTIONS.items()),
    *(("C1", tank(f"raw : @{it};", "raw : DINT := 5;"), undeclared(it), hint) for it, hint in TYPES.items()),
    *(("P1", tank(f"raw : {it};", "raw : DINT := 5;"), said, hint) for it, (said, hint) in DECLARED.items()),
    # a number where a BOOL is expected
    ("C3", tank("WHILE @level + 1 DO ; END_WHILE;"), "a condition is BOOL; the expression is INT", "compare it with `<> 0`"),
    ("C3", tank("open := @raw;"), "`open` is BOOL; the expression is DINT", "compare it: `raw <> 0`"),
    ("C3", LATE.replace(STATEMENT, "IF @late THEN ; END_IF;"), "a condition is BOOL; the expression is TIME", "compare it: `late <> T#0s`"),
    # calls of numbers alone, beside an INT
    ("C3", tank("level := @MAX(1, 2);"), "`level` is INT; the expression is LINT", f"{PLAIN} `INT#1`"),
    ("C3", tank("level := @ABS(-5);"), "`level` is INT; the expression is LINT", f"{PLAIN} `-INT#5`"),
    ("C3", tank("level := @(@LIMIT(16#0, 5, 9));"), "`level` is INT; the expression is LINT", f"{PLAIN} `INT#16#0`"),
    ("C3", tank("level := @level + @SEL(open, -1, 1);"), unlike("+", "INT", "LINT"), f"{PLAIN} `-INT#1`"),
    ("C3", tank("level := @SEL(level > MAX(level, 1), 2, 1) - level;"), unlike("-", "LINT", "INT"), f"{PLAIN} `INT#2`"),
    ("C3", tank("level := MAX(level, @MIN(1, ABS(2)));"),
     "the arguments of `MAX` must have the same type: this one is LINT, another INT", f"{PLAIN} `INT#1`"),
    ("C3", tank("level := @raw + level * MAX(level, 1);"), unlike("+", "DINT", "INT"), None),
    ("L2", tank("level := @INT#-1;"), "`INT#` isn't a literal", "write the sign first: `-INT#1`"),
    # a TIME and a number
    ("C3", LATE.replace(STATEMENT, "late := @late * 2;"), "`*` takes integers; an operand is TIME",
     "a TIME can't be multiplied: add it up, as in `t + t`, or write a TIME literal"),
    ("C3", LATE.replace(STATEMENT, "late := @2 * late;"), "`*` takes integers; an operand is TIME",
     "a TIME can't be multiplied: add it up, as in `t + t`, or write a TIME literal"),
    ("C3", LATE.replace(STATEMENT, "late := @late / late;"), "`/` takes integers; the operands are TIME",
     "a TIME can't be divided: write a TIME literal, as in `T#500ms`"),
    ("C3", LATE.replace(STATEMENT, "late := @late + 1;"), unlike("+", "TIME", "a number"), "write a TIME, as in `T#1s`"),
    ("C3", LATE.replace(STATEMENT, "open := @level > late;"), unlike(">", "INT", "TIME"), TIME_STAYS),
    ("C3", LATE.replace(STATEMENT, "late := @5;"), "`late` is TIME; the expression is a number", "write a TIME, as in `T#1s`"),
    ("C3", LATE.replace(STATEMENT, "level := @late;"), "`level` is INT; the expression is TIME", TIME_STAYS),
    ("C3", LATE.replace(STATEMENT, "late := @-late;"), "`-` takes a signed number; the operand is TIME", "subtract it, as in `T#0s - t`"),
    ("C3", tank("open := @open AND level;"), "`AND` takes BOOLs or bit strings; an operand is INT", None),
    # where parts of a text stand
    ("P1", tank("@VAR_INPUT", "VAR_EXTERNAL"), stray("VAR_INPUT"),
     "a program's inputs and outputs are globals, which it names in VAR_EXTERNAL"),
    ("P1", tank("@VAR_GLOBAL", "VAR_EXTERNAL").replace("END_CONFIGURATION", ""), stray("VAR_GLOBAL"),
     "declare globals in VAR_GLOBAL of the CONFIGURATION, before its RESOURCE"),
    ("P1", TANK + TWICE.replace("VAR_INPUT", "@VAR_OUTPUT"), stray("VAR_OUTPUT"),
     "a function has VAR_INPUT and VAR alone, and gives its result under its name"),
    ("P1", TANK + TWICE.replace(": INT VAR_INPUT", "@VAR_INPUT"), stray("VAR_INPUT"),
     "write the type of its result, as in `FUNCTION F : INT`"),
    ("P1", tank("VAR PERSISTENT @size : INT; END_VAR VAR raw : DINT;", "VAR\n    raw : DINT := 5;"), stray("size"), "write RETAIN"),
    ("P1", tank("@VAR", "VAR_GLOBAL"), stray("VAR"), "a CONFIGURATION has VAR_GLOBAL alone"),
    ("P1", tank("@TASK T", "RESOURCE R ON CPU\n    TASK T"), stray("TASK"), ROOM),
    ("P1", "CONFIGURATION Plant @END_CONFIGURATION", stray("END_CONFIGURATION"), ROOM),
    ("P1", tank("RESOURCE R @TASK", "RESOURCE R ON CPU\n    TASK"), stray("TASK"),
     "write ON and a name after it, as in `RESOURCE R ON CPU`"),
    ("P1", tank("", "    PROGRAM P WITH T : Tank;\n").replace("END_RESOURCE", "@END_RESOURCE"), stray("END_RESOURCE"),
     "a RESOURCE has a PROGRAM, as in `PROGRAM P WITH T : Main;`"),
    ("P1", tank("PRIORITY := 0)\n    @TASK U (INTERVAL := T#1s, PRIORITY := 0);", "PRIORITY := 0);"), stray("TASK"), "a `;` may be missing before it"),
    ("P1", tank("PROGRAM P WITH T : Tank;\n    @TASK U (INTERVAL := T#1s, PRIORITY := 0);", "PROGRAM P WITH T : Tank;"), stray("TASK"),
     "TASKs come before the PROGRAMs"),
    ("P1", tank("PRIORITY := 0@, INTERVAL := T#100ms", "INTERVAL := T#100ms, PRIORITY := 0"), stray(","), TASK),
    ("P1", tank("INTERVAL := @100,", "INTERVAL := T#100ms,"), stray("100"), TASK),
    ("P1", tank("END_PROGRAM@;", "END_PROGRAM"), stray(";"), "leave the `;` out"),
    ("P1", f"@level := 1;\n{TANK}", stray("level"), "a source has TYPE, FUNCTION, FUNCTION_BLOCK, PROGRAM and CONFIGURATION"),
    ("P1", tank("VAR_GLOBAL\n    in AT %IX0@.0 : BOOL;", "VAR_GLOBAL"), stray("."), "an address has one number, as in `%IX3`"),
    ("P1", tank("raw @AT %IW0 : INT;", "raw : DINT := 5;"), stray("AT"), LOCATED),
    ("C3", tank("slow : ARRAY [0..3] OF @TON;", "slow : TON;"), "`TON` is a function block: an instance isn't allowed here",
     "an array has no instances: declare each one with a name of its own"),
    ("P1", TANK + "TYPE Mode : (Fill @:= 1, Drain := 2); END_TYPE\n", stray(":="), "the values of an enumerated type have no numbers"),
    ("P1", TANK + "TYPE Amount : @INT; END_TYPE\n", stray("INT"), "a TYPE is an array, a structure or an enumerated type"),
]


def view(code, text, sentence, hint):
    """The explanation of a fault with a hint, or without one."""
    bare, place = text.replace("@", ""), text.rindex("@") - text.count("@") + 1
    start = bare.rfind("\n", 0, place) + 1
    number, line = bare.count("\n", 0, place) + 1, bare[start:].split("\n")[0]
    word = re.match(r"%?[\w#]*", bare[place:])[0]
    margin, before = " " * len(str(number)), " " * (place - start)
    return (
        f"error[{code}]: {sentence}\n{margin}--> t.st:{number}:{place - start + 1}\n{margin} |\n{number} | {line}\n"
        f"{margin} | {before}^{'~' * (len(word) - 1)}\n" + (f"{margin} = help: {hint}\n" if hint else "")
    )


def hinted(code, text, sentence, hint):
    front, mark, rest = text.partition("@")
    return code, front + mark + rest.replace("@", ""), view(code, text, sentence, hint)


CASES += [hinted(*row) for row in HINTS]

# the codes whose line has a place
PLACED = ("L", "P1", "C")


def line_of(code, text):
    if code == "L5":
        return "fault L5 at 0\n"
    if not code.startswith(PLACED):
        return f"fault {code}\n"
    place = text.index("@") if "@" in text else text.index("END_PROGRAM")
    return f"fault {code} at {place}\n"


def words_of(code):
    if code == "G7":
        return ["run", "t.st", "--plant", "rows.csv", "--store", "store", "--start", "cold", "--budget", "0", "--explain"]
    return ["check", "t.st", "--explain"]


def is_explained(printed, line, shown):
    """Whether the text has the line of its fault and this view. A checked text has the views of all rules that it breaks, and their count."""
    if printed == line + shown:
        return True
    views, _, count = printed.removeprefix(line).rstrip("\n").rpartition("\n")
    every = re.split(r"^(?=error\[)", f"{views}\n", flags=re.MULTILINE)[1:]
    return printed.startswith(line) and shown in every and count == f"{len(every)} errors"


def check_name(program, folder):
    """A character of a file's name that isn't printable ASCII is one `?`, whatever its bytes."""
    pathlib.Path(folder, "F\u00fcllstand\u20ac.st").write_text("PROGRAM P END_PROGRAM")
    ended = subprocess.run([program, "check", "F\u00fcllstand\u20ac.st", "--explain"], cwd=folder, capture_output=True, timeout=60)
    if ended.stderr != b"fault G2\nerror[G2]: the source has no CONFIGURATION\n--> F?llstand?.st\n":
        fail(f"the name of a file: {ended.stderr}")


def main():
    if len(sys.argv) != 2:
        sys.exit(__doc__)
    program = str(pathlib.Path(sys.argv[1]).resolve())
    with tempfile.TemporaryDirectory() as folder:
        source = pathlib.Path(folder, "t.st")
        for code, text, shown in CASES:
            source.unlink(missing_ok=True)
            if text is not None:
                source.write_bytes(text.replace("@", "", 1).encode())
            ended = subprocess.run([program, *words_of(code)], cwd=folder, capture_output=True, timeout=60)
            printed, line = ended.stderr.decode(), line_of(code, text)
            if (ended.returncode, ended.stdout) != (2, b"") or not is_explained(printed, line, shown):
                fail(f"{code}: status {ended.returncode}, printed\n{printed}and expected\n{line}{shown}")
        check_name(program, folder)
    print(f"explain.py: {len(CASES)} texts explained as expected")


if __name__ == "__main__":
    main()
