#!/usr/bin/env python3
"""Holds tools/rules to rule files and texts that are made here, from the same trees, by code of their own.

    text.py [CASES [SEED]]   default: 3,000 cases, seed 1
    text.py FILE.in ..       turns inputs of the listing program to text and back

Each tree gives a text and a file: the tool must turn either into the other. The text is also tried with comments, line
ends and parentheses that change nothing, the file with its nodes in another order and damaged in a byte, events both ways
and as lines of a log, and its nodes one by one. Then some of its columns and variables have readings: in its text, in events and
in lines of a log they have a point, the file is the same, and one value that is of the other sort is told where it stands. Then
keep-shifted with each of its fields damaged, tables of wrong texts, each with the place of its fault, of texts with a warning,
and of wrong logs, the commands as programs, and the examples. Nothing here needs the listing program.
"""
import collections
import decimal
import importlib.machinery
import importlib.util
import io
import pathlib
import random
import re
import struct
import subprocess
import sys

import plain

TOP = pathlib.Path(__file__).resolve().parent.parent
TOOL = TOP / "tools" / "rules"
loader = importlib.machinery.SourceFileLoader("rules", str(TOOL))
rules = importlib.util.module_from_spec(importlib.util.spec_from_loader("rules", loader))
sys.dont_write_bytecode = True
loader.exec_module(rules)

VARIABLES = "xyzw"
PREFIX = {7: "previous", 8: "next", 13: "once", 14: "eventually"}
INFIX = {9: "since", 10: "not since", 11: "until", 12: "not until"}
KINDS = "atom and and-not keep or exists previous next since not-since until not-until once eventually keep-shifted".split()
ZERO = 2**31  # the word of the reading 0.00
EDGES = (0, 1, 2, 250, 2**31 - 2, 2**31 - 1, 2**31, 2**31 + 1, 2**32 - 250, 2**32 - 2, 2**32 - 1)  # words at which a shift turns
LEAST = 50  # how often each kind, comparison, arity and refusal must be met

ALWAYS = "there is no `always`: a rule states the breach, so say where it fails, as in `eventually [0, 61) (a(x) and not b(x))`, " \
    "or write `b(x) since [0, 61) a(x)`, which asks b at every point after a"

OFFSET = "an offset stands at the first term, before `<` alone"
READING = "a reading is from -21474836.48 to 21474836.47"

# Texts with a fault, which begins where the bar stands, and what is said of it.
WRONG = [
    ("|", "expected a relation"),
    ("# only a comment|", "expected a relation"),
    ("|$", "`$` has no meaning here"),
    ("a(x) |& b(x)", "`&` has no meaning here"),
    ("|x < 3", "a comparison stands after `and`"),
    ("x|", "expected `(`"),
    ("next|(x)", "expected a window, as in `next [0, 61)`"),
    ("a(x) and |or(x)", "expected a relation; `or` is a word of the language"),
    ("a(x, |next)", "expected a variable or a number; `next` is a word of the language"),
    ("a(x|", "expected `,` or `)`"),
    ("a(x |y)", "expected `,` or `)`"),
    ("a(x,|)", "expected a variable or a number"),
    ("a(x, y, z, w, |x)", "a relation has at most 4 columns"),
    ("a(|4294967296)", "a constant is at most 4294967295"),
    ("a(|99999999999999999999)", "a constant is at most 4294967295"),
    ("a(|" + "9" * 5000 + ")", "a constant is at most 4294967295"),
    ("(a(x) and b(x)|", "expected `and`, `or` or `)`"),
    ("a(x) and b(x)|)", "expected `and`, `or`, an event or the end"),
    ("a(x) |b(x)", "expected `and`, `or`, an event or the end"),
    ("|not a(x)", "`not` stands after `and`, or before `since` or `until`"),
    ("a(x) or |not a(x)", "`not` stands after `and`, or before `since` or `until`"),
    ("a(x) |not b(x)", "`not` stands after `and`, or before `since` or `until`"),
    ("a(x) and not b(x, |y)", "`y` is not free in what stands before `and not`"),
    ("a(x)\n  and not (b(x)\n    and c(|y))", "`y` is not free in what stands before `and not`"),
    ("a(x) or b(|y)", "`y` is not free in what stands before `or`"),
    ("a(x) or b(x, |y, y)", "`y` is not free in what stands before `or`"),
    ("a(x, |y) or b(x)", "`y` is not free in what stands after `or`"),
    ("a(x) and |y < 3", "`y` is not free in what stands before the comparison"),
    ("exists x a(x) and |x < 3", "`x` is not free in what stands before the comparison"),
    ("a(x) and x |> 3", "expected `=`, `!=`, `<` or `>=`: `a > b` is `b < a`"),
    ("a(x) and 3 |<= x", "expected `=`, `!=`, `<` or `>=`: `a <= b` is `b >= a`"),
    ("a(x) and x |== 3", "expected `=`, `!=`, `<` or `>=`"),
    ("a(x) and x| ", "expected `=`, `!=`, `<` or `>=`, or the `(` of a relation"),
    ("a(x) and not |x < 3", "a comparison is not denied: `!=` is the denied `=`, and `>=` the denied `<`"),
    ("exists |y a(x)", "`y` is not free in what stands after it"),
    ("exists |3 a(x)", "expected a variable"),
    ("a(x, |y) since [0, 5) b(x)", "`y` is not free in what stands after `since`"),
    ("a(|y) not until [0, 5) b(x)", "`y` is not free in what stands after `not until`"),
    ("a(x) since |b(x)", "expected a window, as in `since [0, 61)`"),
    ("a(x) since [0, 5) b(x) |since [0, 5) c(x)", "`since` after `since`: put one of them in parentheses"),
    ("a(x) until [0, 5) b(x) |not since [0, 5) c(x)", "`not since` after `until`: put one of them in parentheses"),
    ("once [0, |0) a(x)", "a window's end is above its start, 0"),
    ("once [7, |7) a(x)", "a window's end is above its start, 7"),
    ("once [0, |604801) a(x)", "a window's end is at most 604800"),
    ("once [|604800, *) a(x)", "a window's start is at most 604799"),
    ("once [0 |5) a(x)", "expected `,`"),
    ("once [0, 5 |a(x)", "expected `)`"),
    ("once [0, 1800|] a(x)", "a window's end is outside it: with 1800 seconds inside, write `[0, 1801)`"),
    ("a(x) since [5, 5|] a(x)", "a window's end is outside it: with 5 seconds inside, write `[5, 6)`"),
    ("once [7, |5] a(x)", "a window's end is above its start, 7"),
    ("once [9, 604800|] a(x)", "a window's end is outside it: the longest is `[9, 604800)`"),
    ("once [9, *|] a(x)", "a window ends with `)`: write `[9, *)`"),
    ("once [0, |30m) a(x)", "a window's end is in seconds, without a unit: for `30m` write 1800"),
    ("once [0, |30min] a(x)", "a window's end is in seconds, without a unit: for `30min` write 1800"),
    ("once [|2h, *) a(x)", "a window's start is in seconds, without a unit: for `2h` write 7200"),
    ("once [0, 30 |m) a(x)", "expected `)`"),
    ("a(x) @|15s a(3)", "a time is in seconds, without a unit: for `15s` write 15"),
    ("a(3|m)", "expected `,` or `)`"),
    ("|always [0, 61) a(x)", ALWAYS),
    ("a(x) and not |always a(x)", ALWAYS),
    ("once [|*, 5) a(x)", "expected a window's start"),
    ("once [0, |) a(x)", "expected a window's end"),
    ("eventually [0, |*) a(x)", "`eventually` needs a window with an end"),
    ("a(x) until [0, |*) b(x)", "`until` needs a window with an end"),
    ("a(x) not until [0, |*) b(x)", "`not until` needs a window with an end"),
    ("a(x) and |a(x, y)", "`a` has 1 column elsewhere, here 2"),
    ("relations a/1\na(x) and |b(x)", "`b` is not among the relations"),
    ("relations a/2\n|a(x)", "`a` has 2 columns elsewhere, here 1"),
    ("relations a/1, |a/2 a(x)", "`a` stands twice among the relations"),
    ("relations a/|5 a(x)", "an arity is at most 4"),
    ("relations a|(x)", "expected `/`"),
    ("relations |or/1 or(x)", "expected a relation's name; `or` is a word of the language"),
    ("relations a/1, b/1, c/1, d/1, e/1, f/1, g/1, h/1, |i/1 a(x)", "a rule has at most 8 relations"),
    ("a() and b() and c() and d() and e() and f() and g() and h() and |i()", "a rule has at most 8 relations"),
    ("variables x, |x a(x)", "`x` stands twice among the variables"),
    ("variables x a(x, |y)", "`y` is not among the variables"),
    ("variables p, q, r, s, |t a(p)", "a rule has at most 4 variables"),
    ("a(p, q) and b(r, s) and c(|t)", "a rule has at most 4 variables"),
    ("a()" + " and a()" * 15 + " |and a()", "a rule has at most 32 nodes"),
    ("|once [0, 1) " + "once [0, 1) " * 31 + "a()", "a rule has at most 32 nodes"),
    ("once [0, 1) " * 100 + "|a()", "more than 100 parentheses or operators inside one another"),
    ("(" * 100 + "|(a()" + ")" * 101, "more than 100 parentheses or operators inside one another"),
    ("a(x) @|x", "expected a time"),
    ("a(x) @|4294967296", "a time is at most 4294967295"),
    ("a(x) @1 a(|x)", "expected a value"),
    ("a(x)\n@1 a(7)\n@2 a(7) |b(7)", "`b` is not a relation of the rule"),
    ("a(x)\n@1 |a(7, 8)", "`a` has 1 column elsewhere, here 2"),
    ("a(x)\n\t@1 a(|4294967296)", "a value is at most 4294967295"),
    ("a(x)\n@1 |not(3)", "expected a relation; `not` is a word of the language"),
    ("a(x)\n@1 a(7) |and a(8)", "expected a relation; `and` is a word of the language"),
    ("a(x)\n@1 a(7)|, a(8)", "expected a row, an event or the end"),
    ("a()\n@1" + " a()" * 32 + " |a()", "an event has at most 32 rows"),

    # offsets
    ("|x + 2 < y", "a comparison stands after `and`"),
    ("|-3.25 < x", "a comparison stands after `and`"),
    ("a(x, y) and not |x + 2.50 < y", "a comparison is not denied: `!=` is the denied `=`, and `>=` the denied `<`"),
    ("a(x, y) and not |-2.50 < y", "a comparison is not denied: `!=` is the denied `=`, and `>=` the denied `<`"),
    ("a(x, y) and x + 2.50 |> y", f"{OFFSET}: `a + 2.50 > b` is `b - 2.50 < a`"),
    ("a(x, y) and x - 2.5 |> y", f"{OFFSET}: `a - 2.50 > b` is `b + 2.50 < a`"),
    ("a(x, y) and x + 2.50 |>= y", f"{OFFSET}: `a + 2.50 >= b` is `b - 2.51 < a`"),
    ("a(x, y) and x - 250 |>= y", f"{OFFSET}: `a - 250 >= b` is `b + 249 < a`"),
    ("a(x, y) and x + 2.50 |<= y", f"{OFFSET}: `a + 2.50 <= b` is `a + 2.49 < b`"),
    ("a(x, y) and x - 250 |<= y", f"{OFFSET}: `a - 250 <= b` is `a - 251 < b`"),
    ("a(x, y) and x + 1 |<= y", f"{OFFSET}: `a + 1 <= b` is `a < b`"),
    ("a(x, y) and x - 2147483648 |>= y", f"{OFFSET}: `a - 2147483648 >= b` is `b + 2147483647 < a`"),
    ("a(x, y) and x - 2147483648 |> y", OFFSET),
    ("a(x, y) and x - 2147483648 |<= y", OFFSET),
    ("a(x, y) and x + 2.50 |= y", OFFSET),
    ("a(x, y) and x + 2.50 |!= y", OFFSET),
    ("a(x, y) and x + 2.50 |== y", OFFSET),
    ("a(x, y) and x + 2.50| ", "expected `<` after an offset"),
    ("a(x, y) and x + 1 |+ 2 < y", "expected `<` after an offset"),
    ("a(x, y) and x + |y < 3", "expected an offset, such as 2.50 or 250"),
    ("a(x, y) and x - |-3.25 < y", "expected an offset, such as 2.50 or 250"),
    ("a(x, y) and x < y |+ 2.50", f"{OFFSET}: `a < b + 2.50` is `a - 2.50 < b`"),
    ("a(x, y) and x < y |- 250", f"{OFFSET}: `a < b - 250` is `a + 250 < b`"),
    ("a(x, y) and x >= y |+ 2.50", f"{OFFSET}: `a >= b + 2.50` is `b + 2.49 < a`"),
    ("a(x, y) and x + 1 < y |- 2", f"{OFFSET}: `a + 1 < b - 2` is `a + 3 < b`"),
    ("a(x, y) and x = y |+ 2.50", OFFSET),
    ("a(x, y) and x + |2147483648 < y", "an offset after `+` is at most 2147483647"),
    ("a(x, y) and x - |2147483649 < y", "an offset after `-` is at most 2147483648"),
    ("a(x, y) and x + |21474836.48 < y", "an offset after `+` is at most 21474836.47"),
    ("a(x, y) and x - |21474836.49 < y", "an offset after `-` is at most 21474836.48"),
    ("a(x, y) and x + |99999999999999999999.00 < y", "an offset after `+` is at most 21474836.47"),
    ("a(x, y) and x + |2.505 < y", "a reading has at most two digits after the point"),
    ("a(x, y) and x + |2. < y", "a reading has one or two digits after the point"),
    ("a(x) and x + 2.50 < |y", "`y` is not free in what stands before the comparison"),
    ("a(x) and |y - 2.50 < x", "`y` is not free in what stands before the comparison"),

    # readings
    ("a(|-3)", "a negative number is a reading, with a point: write -3.00"),
    ("a(x) and x < |-0", "a negative number is a reading, with a point: write -0.00"),
    ("a(|-21474837)", READING),
    ("a(|-21474836.49)", READING),
    ("a(|21474836.48)", READING),
    ("a(|" + "9" * 5000 + ".5)", READING),
    ("a(|-99999999999999999999)", READING),
    ("a(|1.005)", "a reading has at most two digits after the point"),
    ("a(|1.)", "a reading has one or two digits after the point"),
    ("a(|.5)", "`.` has no meaning here"),
    ("a(|+0.5)", "expected a variable or a number"),
    ("a(x) and |+ 2 < x", "expected a variable or a number"),
    ("a(-|x)", "expected a reading after `-`"),
    ("a(x)\n@1 a(|-3)", "a negative number is a reading, with a point: write -3.00"),
    ("a(x)\n@1 a(|1.005)", "a reading has at most two digits after the point"),
    ("a(x)\n@1 a(-|)", "expected a reading after `-`"),
    ("a(x) @|1.5", "a time is a whole number"),
    ("a(x) @|-1.00", "expected a time"),
    ("once [|0.5, 2) a(x)", "a window's start is a whole number"),
    ("once [0, |2.50) a(x)", "a window's end is a whole number"),
    ("relations a/|1.0 a(x)", "an arity is a whole number"),

    # readings and whole numbers in one column, variable or comparison
    ("a(x, 5.00) and a(x, |5)", "column 2 of `a` has readings, such as 5.00: write 5.00"),
    ("a(x, 5) and a(x, |5.00)", "column 2 of `a` has whole numbers, such as 5: 5.00 is a reading"),
    ("a(x, y) and y < 12.4 and y >= |3", "`y` stands for readings, such as 12.4: write 3.00"),
    ("a(x, y) and 3 < y and a(x, |-12.40)", "column 2 of `a` has whole numbers, such as 3: -12.40 is a reading"),
    ("a(x, y) and y < 2.50 and x = y and |2147483999 < x", "`x` stands for readings, such as 2.50: 2147483999 is a whole number"),
    ("a(x, y) and x + 2.50 < y and y < |21474836", "`y` stands for readings, such as 2.50: write 21474836.00"),
    ("a(x, y) and x + 2.50 < y and y < |21474837", "`y` stands for readings, such as 2.50: 21474837 is a whole number"),
    ("a(x, y) and y < 40 and x + |2.50 < y", "`x` stands for whole numbers, such as 40: 2.50 is a reading"),
    ("a(x, y) and x + 250 < y and x < 2.50 and y < |40", "`y` stands for readings, such as 2.50: write 40.00"),
    ("a(x) and 3 < |2.50", "the comparison has whole numbers, such as 3: 2.50 is a reading"),
    ("a(x) and 3 + |2.50 < 4", "the comparison has whole numbers, such as 3: 2.50 is a reading"),
    ("a(x) and 3.00 + 2.50 < |4", "the comparison has readings, such as 3.00: write 4.00"),
    ("a(x) and b(y) and x < 2.50 and b(|7) and y = x", "column 1 of `b` has readings, such as 2.50: write 7.00"),
    ("a(x)\n@1 a(7)\n@2 a(|7.00)", "column 1 of `a` has whole numbers, such as 7: 7.00 is a reading"),
    ("a(x) and x < 2.50\n@1 a(|7)", "column 1 of `a` has readings, such as 2.50: write 7.00"),
    ("a(x) and b(x)\n@1 a(-0.50) b(|7)", "column 1 of `b` has readings, such as -0.50: write 7.00"),
    ("a(m) and m < 5.00 and not exists m (b(m) and m < 5 and m < |6.00)", "`m` stands for whole numbers, such as 5: 6.00 is a reading"),
]

# Texts whose variable stands for two things, with a bar where the second begins, or without one where no name does.
ANOTHER = "this `x` is another one than that of `exists x`, which ends before it; `exists x (..)` reaches as far as its parentheses"
BEFORE = "the `x` of this `exists` is another one than the `x` before it"
WARNED = [
    ("exists x leak(x) and close(|x)", ANOTHER),
    ("exists x leak(x) and not close(|x, 3)", "error"),
    ("(exists x leak(x)) and close(y, |x) and x < 3", ANOTHER),
    ("leak(x) and not |exists x close(x)", BEFORE),
    ("exists x (leak(x) and close(x))", None),
    ("exists x leak(x) and not exists x close(x)", None),
    ("exists x (exists x leak(x) and close(|x))", ANOTHER),
    ("exists x (close(x) and |exists x leak(x))", BEFORE),
    ("exists y leak(y) and close(x)", None),
    ("always(x) and close(x)", None),
]

# Logs with a fault: the lines, the line of the fault, and what is said of it, for the rule `a(x) and b(x, y) and c()`.
WRONG_LOGS = [
    ("a,7", 1, "expected a time, a whole number, and found `a`"),
    ("1,a,7\n-2,a,7", 2, "expected a time, a whole number, and found `-2`"),
    ("1.50,a,7", 1, "expected a time, a whole number, and found `1.50`"),
    ("1;a;7", 1, "expected a time, a whole number, and found `1;a;7`"),
    ("4294967296,a,7", 1, "a time is at most 4294967295"),
    ("9" * 5000 + ",a,7", 1, "a time is at most 4294967295"),
    ("1,a,4294967296", 1, "a value is at most 4294967295"),
    ("1,a,three", 1, "expected a value, such as 7 or -3.25, and found `three`"),
    ("1,a,.5", 1, "expected a value, such as 7 or -3.25, and found `.5`"),
    ("1,a,+3.25", 1, "expected a value, such as 7 or -3.25, and found `+3.25`"),
    ("1,a,- 3.25", 1, "expected a value, such as 7 or -3.25, and found `- 3.25`"),
    ("1,a,\u0663", 1, "expected a value, such as 7 or -3.25, and found `\u0663`"),
    ("1,a,-3", 1, "a negative number is a reading, with a point: write -3.00"),
    ("1,a,3.125", 1, "a reading has at most two digits after the point"),
    ("1,a,3.", 1, "a reading has one or two digits after the point"),
    ("1,a,21474836.48", 1, READING),
    ("1,a,-21474836.49", 1, READING),
    ("1,a,7\n2,a,7.00", 2, "column 1 of `a` has whole numbers, such as 7: 7.00 is a reading"),
    ("1,a,7.5\n2,b,7,7", 2, "column 1 of `b` has readings, such as 7.5: write 7.00"),
    ("1,b,7,7\n2,b,8,-7.25", 2, "column 2 of `b` has whole numbers, such as 7: -7.25 is a reading"),
    ("1,b,7,-7.25\n2,b,8,21474837", 2, "column 2 of `b` has readings, such as -7.25: 21474837 is a whole number"),
    ("1,a,", 1, "`a` has 1 column in the rule, here 0"),
    ("1,a,7\n\n# b\n1,b,7", 4, "`b` has 2 columns in the rule, here 1"),
    ("1,a,7,8", 1, "`a` has 1 column in the rule, here 2"),
    ("1,c,0", 1, "`c` has 0 columns in the rule, here 1"),
    ("1,b,,8", 1, "expected a value, such as 7 or -3.25, and found ``"),
    ("1,A,7", 1, "`A` is not a relation of the rule; it has a, b, c"),
    ("1,,7", 1, "`` is not a relation of the rule; it has a, b, c"),
    ("1,a,7\ntime,relation", 2, "expected a time, a whole number, and found `time`"),
    ("1,a,7\n" * 33, 33, "an event has at most 32 rows; an empty line before it begins another of the same time"),
]


# ---- trees: (kind, children, further fields), free variables beside them

class Maker:
    def __init__(self, rng):
        self.rng = rng
        self.arities = [rng.randint(0, 4) for _ in range(rng.randint(1, 8))]
        self.early = rng.choice((0, 0.08))  # how often a tree ends before its room is used

    def window(self, ends):
        c = self.rng.choice((0, 0, 1, 5, 604_799, self.rng.randrange(604_800)))
        return (c, 0) if not ends and self.rng.random() < 0.3 else (c, self.rng.choice((c + 1, 604_800, self.rng.randint(c + 1, 604_800))))

    def term(self, variables):
        constant = not variables or self.rng.random() < 0.3
        return (1, self.rng.choice((0, 1, 3, 4, 4_294_967_295, ZERO + self.rng.randint(-2, 2), self.rng.randrange(1 << 32)))) if constant else (0, self.rng.choice(sorted(variables)))

    def shift(self):
        return self.rng.choice(EDGES + (self.rng.randrange(1 << 32),) * 2)

    def atom(self, variables=None):
        """An atom; if variables are given, of no others."""
        r = self.rng.randrange(len(self.arities))
        return 1, (), (r, [self.term(range(4) if variables is None else variables) for _ in range(self.arities[r])])

    def tree(self, room):
        """A tree of at most `room` nodes."""
        if room == 1 or self.rng.random() < self.early:
            return self.atom()
        if room > 2 and self.rng.random() < 0.6:
            first = self.rng.randint(1, room - 2)
            a, b = self.tree(first), self.tree(room - 1 - first)
            fa, fb = free(a), free(b)
            kinds = [2] + [3] * (fb <= fa) * 2 + [5] * (fa == fb) * 3 + [9, 10, 11, 12] * (fa <= fb)
            kind = self.rng.choice(kinds)
            return kind, (a, b), self.window(kind > 10) if kind > 8 else ()
        a = self.tree(room - 1)
        kind = self.rng.choice((4, 6, 7, 8, 13, 14, 15) if free(a) else (4, 7, 8, 13, 14, 15))
        if kind in (4, 15):
            return kind, (a,), (self.rng.randrange(4) if kind == 4 else self.shift(), [self.term(free(a)), self.term(free(a))])
        return kind, (a,), (self.rng.choice(sorted(free(a))),) if kind == 6 else self.window(kind == 14)


def free(tree):
    kind, below, more = tree
    if kind == 1:
        return {v for constant, v in more[1] if not constant}
    sets = [free(t) for t in below]
    return sets[0] | sets[1] if kind == 2 else sets[0] - {more[0]} if kind == 6 else sets[1] if 9 <= kind <= 12 else sets[0]


def listed(tree, out, later=None):
    """Writes the tree's nodes to `out`, children first, and gives its number; with `later`, right before left where it says so."""
    kind, below, more = tree
    turned = len(below) == 2 and later is not None and later.random() < 0.5
    numbers = [listed(t, out, later) for t in (below[::-1] if turned else below)]
    left, right, terms, words = (numbers[::-1] if turned else numbers) + [0] * (2 - len(numbers)) + [[], ()]
    if kind in (1, 4, 15):
        left, right, terms = more[0] if kind == 1 else left, more[0] if kind == 4 else 0, more[1]
        words = [w for _, w in terms] + [more[0]] * (kind == 15)
    else:
        words = more
    mask = sum(constant << k for k, (constant, _) in enumerate(terms))
    out.append(bytes([kind, left, right, mask]) + struct.pack("<4I", *(list(words) + [0] * 4)[:4]))
    return len(out) - 1


def file_of(tree, arities, later=None):
    nodes = []
    listed(tree, nodes, later)
    sizes = bytes([1, len(arities), len(nodes), 0] + arities + [0] * (8 - len(arities)))
    return sizes + b"".join(n[:4] for n in nodes) + b"".join(n[4:] for n in nodes)


def as_words(place, word, is_offset):
    """How a constant or an offset is written where nothing has readings."""
    return str(abs(offset(word)) if is_offset else word)


def words_of(tree, names, used, write=as_words, path=()):
    """The tree's text as a list of words, and on the way the relations and variables as they come. `write` is given what a constant or
    an offset stands in, its word, and which of the two it is; the path leads to the tree from the top."""
    kind, below, more = tree

    def term(k):
        constant, word = more[1][k]
        if not constant:
            used["variables"].setdefault(word)
        return write(place_of(tree, path, k), word, False) if constant else VARIABLES[word]

    def inner(k, *bare):
        """The text of child k, in parentheses unless its kind is among `bare`."""
        words = words_of(below[k], names, used, write, path + (k,))
        return words if below[k][0] in bare else ["(", *words, ")"]

    tight = (1, 6, 7, 8, 13, 14)
    window = ["[", str(more[0]), ",", str(more[1]) if more[1] else "*", ")"] if 7 <= kind <= 14 else []
    if kind == 1:
        used["relations"].setdefault(more[0])
        parts = [[term(k)] for k in range(len(more[1]))]
        return [names[more[0]], "("] + sum(([","] * (k > 0) + p for k, p in enumerate(parts)), []) + [")"]
    if kind == 6:
        used["variables"].setdefault(more[0])
        return ["exists", VARIABLES[more[0]], *inner(0, *tight)]
    if kind in PREFIX:
        return [PREFIX[kind], *window, *inner(0, *tight)]
    if kind in INFIX:
        return [*inner(0, *tight), *INFIX[kind].split(), *window, *inner(1, *tight)]
    lasting = tight + (9, 10, 11, 12)
    if kind == 5:
        return [*inner(0, *lasting, 2, 3, 4, 5, 15), "or", *inner(1, *lasting, 2, 3, 4, 15)]
    left = inner(0, *lasting, 2, 3, 4, 15)
    if kind == 4:
        return [*left, "and", term(0), ["=", "!=", "<", ">="][more[0]], term(1)]
    if kind == 15:
        return [*left, "and", term(0), "-" if offset(more[0]) < 0 else "+", write(("comparison", path), more[0], True), "<", term(1)]
    return [*left, "and", *["not"] * (kind == 3), *inner(1, *lasting)]


def offset(word):
    """What word 2 of keep-shifted adds."""
    return struct.unpack("<i", struct.pack("<I", word))[0]


def place_of(tree, path, k):
    """What term k of a tree stands in."""
    return ("column", tree[2][0], k) if tree[0] == 1 else ("comparison", path)


def reshifted(rng, file):
    """A file that has a keep-shifted with a field of such a node damaged: an unknown kind, a child that isn't lower, a right, a mask bit
    or a word that should be 0, or, which is no fault, another number to shift by."""
    x = rng.choice([x for x in range(file[2]) if file[12 + 4 * x] == 15])
    data, head, body = bytearray(file), 12 + 4 * x, 12 + 4 * file[2] + 16 * x
    at, byte = rng.choice(((head, 16), (head + 1, x), (head + 2, rng.choice((1, 2, 3, 255))), (head + 3, data[head + 3] | 1 << rng.randint(2, 7)),
                           (body + 12 + rng.randrange(4), 1), (body + 8 + rng.randrange(4), rng.randrange(256))))
    data[at] = byte
    return bytes(data)


def spaced(words):
    """Words with the spaces that the tool prints."""
    return placed(words)[0]


def placed(words):
    """The same, and where each word begins."""
    out, places = "", []
    for k, w in enumerate(words):
        glued = w in ",)" or k == 0 or words[k - 1] in "([" or w == "(" and is_name(words[k - 1])
        places.append(len(out) + (not glued))
        out += w if glued else " " + w
    return out, places


def is_name(word):
    return word[0].isalpha() and word not in "and or not exists since until previous next once eventually".split() and word not in VARIABLES


def text_of(tree, arities, names, write=as_words):
    """The lines before the formula, and the formula's words."""
    used = {"relations": {}, "variables": {}}
    words = words_of(tree, names, used, write)
    lines = []
    if list(used["relations"]) != list(range(len(arities))):
        lines.append("relations " + ", ".join(f"{n}/{a}" for n, a in zip(names, arities)))
    if list(used["variables"]) != list(range(len(used["variables"]))):
        lines.append("variables " + ", ".join(VARIABLES[:max(used["variables"]) + 1]))
    return lines, words


def loosened(rng, words):
    """The words with comments, line ends and parentheses that change nothing."""
    wrapped, ends = [], []
    for k, w in enumerate(words):
        if is_name(w) and rng.random() < 0.3:
            wrapped.append("(")
            ends.append(words.index(")", k))
        wrapped += [w] + [")"] * ends.count(k)
    out = ""
    for k, w in enumerate(wrapped):
        out += rng.choice(("", " ", "\n", "\t", " # and not (\n")) if w in "(),[+-<" or k and wrapped[k - 1] in "(),[+-<" else rng.choice((" ", "\n", " # )\n"))
        out += w
    return f"({out} )"


def nodes_of(tree, names, out, write=as_words, path=()):
    """What is shown of each node, children first; gives the tree's number."""
    kind, below, more = tree
    numbers = [nodes_of(t, names, out, write, path + (k,)) for k, t in enumerate(below)]
    window = f"[{more[0]}, {more[1] or '*'})" if 7 <= kind <= 14 else "-"
    variables = ", ".join(VARIABLES[v] for v in sorted(free(tree)))
    shown = spaced(words_of(tree, names, {"relations": {}, "variables": {}}, write, path))
    out.append([str(len(out)), KINDS[kind - 1], ", ".join(map(str, numbers)) or "-", window, variables or "-", shown])
    return len(out) - 1


def lines_of(rng, events, names):
    """The events as lines of a log, with lines and cells between them that change nothing, and the line where each begins."""
    lines, begins = ["time,relation,values"] * rng.randrange(2), []
    for k, (time, rows, values) in enumerate(events):
        if k and events[k - 1][0] == time or rng.random() < 0.1:
            lines.append(rng.choice(("", ",,", " ")))
        lines += ["# a,b"] * (rng.random() < 0.1)
        begins.append(len(lines) + 1)
        lines += [str(time) + rng.choice(("", ","))] * (not rows or rng.random() < 0.1)
        lines += [f"{time}{rng.choice((',', ' , '))}{names[r]}" + "".join(f",{w}" for w in v) + "," * rng.choice((0, 0, 2)) for r, v in zip(rows, values)]
    return rng.choice(("\n", "\r\n")).join(lines) + rng.choice(("", "\n")), begins


def size(tree):
    return 1 + sum(map(size, tree[1]))


def meet(tree, arities, met):
    kind, below, more = tree
    met["kind", kind] += 1
    if kind == 1:
        met["arity", arities[more[0]]] += 1
    if kind == 4:
        met["comparison", more[0]] += 1
    if kind == 15:
        met["shift by", "less than 0" if offset(more[0]) < 0 else "more than 0" if more[0] else "0"] += 1
    if 7 <= kind <= 14:
        met["window", "with end" if more[1] else "without"] += 1
    for t in below:
        meet(t, arities, met)


# ---- the comparison

failures = 0


def same(what, got, wanted, shown):
    global failures
    if got != wanted:
        failures += 1
        if failures <= 5:
            print(f"{what}:\n  got    {got!r}\n  wanted {wanted!r}\n  from {shown!r}")


def outcome(call, *args):
    """What a call gives, or what it says on a fault."""
    try:
        return call(*args)
    except (rules.Wrong, rules.Unreadable, rules.rules_run.Fault) as e:
        return f"{type(e).__name__}: {e}"


def read_log(text, rule):
    return list(rules.rules_run.csv_events(io.StringIO(text, newline=""), "log", rules.Told(rule).relations()))


def read_rule(data, names):
    return rules.rule_text(rules.rule_of(data, names))


def events_for(rng, arities):
    events = []
    for _ in range(rng.randint(0, 4)):
        rows = [rng.randrange(len(arities)) for _ in range(rng.choice((0, 1, 2, 32)))]
        values = [[rng.choice((0, 7, ZERO - 325, ZERO + 40, 4_294_967_295)) for _ in range(arities[r])] for r in rows]
        events.append((rng.choice((0, 100, 4_294_967_295)), rows, values))
    return events


def event_words(e):
    return [e[0], len(e[1]), *e[1], *(w for v in e[2] for w in (v + [0] * 4)[:4])]


def try_tree(rng, met):
    maker = Maker(rng)
    tree = maker.tree(rng.randint(1, 32))
    names = [rng.choice(("leak", "close_", "B2", "x", "r")) + str(k) for k in range(len(maker.arities))]
    file = file_of(tree, maker.arities)
    lines, words = text_of(tree, maker.arities, names)
    text = "\n".join(lines + [spaced(words)]) + "\n"
    meet(tree, maker.arities, met)
    met["nodes", "32"] += size(tree) == 32
    same("accepted", isinstance(plain.check(file), plain.Rule), True, text)
    same("text to file", outcome(rules.rule_file, text), file, text)
    same("file to text", outcome(read_rule, file, names), text, file)
    loose = "\n".join(lines + [loosened(rng, words)])
    same("loose text to file", outcome(rules.rule_file, loose), file, loose)

    # the same tree with its nodes in another order
    other = file_of(tree, maker.arities, rng)
    note = "" if other == file else "# in the file the nodes stand in another order\n"
    met["order", "another" if note else "the text's"] += 1
    same("file in another order to text", outcome(read_rule, other, names), note + text, other)

    # events both ways
    events = events_for(rng, maker.arities)
    data = struct.pack("<I", len(file)) + file + b"".join(struct.pack(f"<{len(w)}I", *w) for w in map(event_words, events))
    shown = text + events_text(events, names)
    met["events", "both ways"] += len(events)
    same("text to input", outcome(rules.listing_input, shown), data, shown)
    same("input to text", outcome(rules.input_text, data, names), shown, data)

    # the events as lines of a log, and for one rule in three the nodes
    own = random.Random(file)
    log, begins = lines_of(own, events, names)
    met["events", "of equal times together"] += sum(a[0] == b[0] for a, b in zip(events, events[1:]))
    same("lines to events", outcome(read_log, log, rules.rule_of(file, names)), list(zip(begins, map(event_words, events))), log)
    if own.random() < 1 / 3:
        nodes = [["node", "kind", "children", "window", "free", "text"]]
        nodes_of(tree, names, rows := [])
        met["nodes", "shown"] += len(rows)
        table = outcome(lambda: rules.nodes_text(rules.rule_of(file, names)))
        same("nodes", [re.split(" {2,}", line) for line in table.splitlines()], nodes + rows, text)
    elif own.random() < 1 / 3:
        try_readings(own, tree, maker.arities, names, met)
    return file


class Literal(str):
    """A value or an offset as it is written in a text: what it stands in, whether it is an offset, and whether it has a point."""

    def __new__(cls, shown, thing, is_offset, reading):
        made = super().__new__(cls, shown)
        made.thing, made.is_offset, made.reading = thing, is_offset, reading
        return made


class Sorted:
    """For a tree, which of its columns, variables and comparisons have readings: chosen for all that must be of one sort together."""

    def __init__(self, rng, tree, share=0.6):
        self.rng, self.share, self.pairs, self.chosen = rng, share, [], {}
        self.join(tree, (), {})

    def join(self, tree, path, bound):
        """Pairs each term that is a variable with what it stands in. A variable is told from others of its name by the exists around it."""
        kind, below, more = tree
        if kind == 6:
            bound = {**bound, more[0]: path}
        for k, (constant, v) in enumerate(more[1] if kind in (1, 4, 15) else ()):
            if not constant:
                self.pairs.append((place_of(tree, path, k), ("variable", v, bound.get(v))))
        for k, t in enumerate(below):
            self.join(t, path + (k,), bound)

    def all_like(self, thing):
        found, more = set(), {thing}
        while more - found:
            found |= more
            more = {b for pair in self.pairs for a, b in (pair, pair[::-1]) if a in found}
        return found

    def reading(self, thing):
        if thing not in self.chosen:
            self.chosen.update(dict.fromkeys(self.all_like(thing), self.rng.random() < self.share))
        return self.chosen[thing]

    def write(self, thing, word, is_offset):
        """A value or an offset in one of the ways in which it may be written."""
        reading = self.reading(thing) and not (is_offset and self.rng.random() < 0.3)
        return Literal(loose_decimal(self.rng, hundredths(word, is_offset)) if reading else as_words(thing, word, is_offset), thing, is_offset, reading)

    def told(self, literals):
        """What has readings as far as these tell."""
        return set().union(*(self.all_like(thing) for thing in {w.thing for w in literals if w.reading}))


def printing(told):
    """How the tool writes values and offsets, once it is told what has readings."""
    return lambda thing, word, is_offset: hundredths(word, is_offset) if thing in told else as_words(thing, word, is_offset)


def hundredths(word, is_offset=False):
    """A reading or an offset with a point, and two digits after it."""
    return str(decimal.Decimal(abs(offset(word)) if is_offset else word - ZERO).scaleb(-2))


def loose_decimal(rng, shown):
    """The same number in another way."""
    minus, digits = shown[:1] == "-", shown.lstrip("-")
    return "-" * minus + "0" * rng.choice((0, 0, 3)) + (digits[:-1] if digits[-1] == "0" and rng.random() < 0.5 else digits)


def written_events(sorts, events):
    """Events with their values as they may be written, and all of these."""
    written = [(t, rows, [[sorts.write(("column", r, k), w, False) for k, w in enumerate(v)] for r, v in zip(rows, values)]) for t, rows, values in events]
    return written, [w for _, _, values in written for v in values for w in v]


def events_text(events, names):
    return "".join(f"@{t}" + "".join(f" {names[r]}({', '.join(map(str, v))})" for r, v in zip(rows, values)) + "\n" for t, rows, values in events)


def try_readings(rng, tree, arities, names, met):
    """The tree with readings: its text gives the same file, and it is printed with two digits after each point that is told of."""
    sorts, file = Sorted(rng, tree), file_of(tree, arities)

    def printed(literals):
        return spaced(text_of(tree, arities, names, printing(sorts.told(literals)))[1])

    lines, words = text_of(tree, arities, names, sorts.write)
    of_rule = [w for w in words if isinstance(w, Literal)]
    head = "\n".join(lines + [spaced(words)]) + "\n"
    rule = rules.read_text(head)[0]
    same("text with readings to file", (rule.file(), rules.Told(rule).line), (file, printed(of_rule)), head)

    # events with readings, in the text or as lines of a log; with a log the rule as a text, or as a file, which knows nothing of readings
    events = events_for(rng, arities)
    written, of_log = written_events(sorts, events)
    if rng.random() < 0.5:
        body = events_text(written, names)
        rule, words_read = rules.read_text(head + body)
        data = struct.pack("<I", len(file)) + file + b"".join(struct.pack(f"<{len(w)}I", *w) for w in map(event_words, events))
        same("text with readings to input", (rules.input_of(rule, words_read), rules.Told(rule).line), (data, printed(of_rule + of_log)), head + body)
    else:
        rule, known = rng.choice(((rule, of_rule), (rules.rule_of(file, names), [])))
        log, begins = lines_of(rng, written, names)
        same("lines with readings to events", outcome(read_log, log, rule), list(zip(begins, map(event_words, events))), log)
        same("the line after the log", rules.Told(rule).line, printed(known + of_log), head + log)
    met["readings", "in a rule"] += any(w.reading for w in of_rule)
    met["readings", "in a log"] += any(w.reading for w in of_log)
    try_mixed(rng, tree, names, sorts, words, met)


def line_after(text):
    return rules.Told(rules.read_text(text)[0]).line


def try_mixed(rng, tree, names, sorts, words, met):
    """One value of the other sort than those like it: told at the second of them in the text."""
    turned = [k for k, w in enumerate(words) if isinstance(w, Literal) and not (w.is_offset and sorts.reading(w.thing))]
    if not turned:
        return
    k, words = rng.choice(turned), list(words)
    was = words[k]
    words[k] = Literal(rng.choice(("7", "0", "21474836", "21474837") if was.reading else ("7.00", "0.5")), was.thing, was.is_offset, not was.reading)
    text, places = placed(words)
    alike = [(place, w) for place, w in zip(places, words) if isinstance(w, Literal) and w.thing in sorts.all_like(was.thing) and (w.reading or not w.is_offset)]
    at, second = next(((place, w) for place, w in alike if w.reading != alike[0][1].reading), (None, None))
    if second is None:
        return
    first, kind = alike[0][1], "readings" if alike[0][1].reading else "whole numbers"
    if second.thing[0] == "column":
        said = f"column {second.thing[2] + 1} of `{names[second.thing[1]]}` has"
    else:
        node = tree
        for step in second.thing[1]:
            node = node[1][step]
        said = next((f"`{VARIABLES[v]}` stands for" for constant, v in node[2][1] if not constant), "the comparison has")
    other = f"{second} is a reading" if second.reading else f"write {second}.00" if int(second) <= 21_474_836 else f"{second} is a whole number"
    met["mixed", f"at a {'column' if second.thing[0] == 'column' else 'comparison'} of {kind}"] += 1
    same("a mix", fault(text), (at, f"{said} {kind}, such as {first}: {other}"), text)


def fault(text):
    """The place and the words of a text's fault."""
    try:
        rules.read_text(text)
    except rules.Wrong as e:
        return e.at, str(e)
    return None


def try_damaged(rng, file, met):
    data = bytearray(file)
    x, how = rng.randrange(file[2]), rng.random()
    if how < 0.05:  # a word that a window stops at
        at = 12 + 4 * file[2] + 16 * x + 4 * rng.randrange(2)
        data[at:at + 4] = struct.pack("<I", rng.choice((0, 604_799, 604_800, 604_801)))
    elif how < 0.1:  # another child
        data[13 + 4 * x] = rng.randrange(x + 1)
    for _ in range(rng.randint(how > 0.1, 2)):
        data[rng.randrange(rng.choice((12, 12 + 4 * file[2], 12 + 4 * file[2], len(data), len(data), len(data))))] = rng.choice((0, 1, 2, 3, 4, 9, 15, 16, rng.randrange(256)))
    if rng.random() < 0.1:
        data = data[:rng.randrange(len(data))]
    checked = plain.check(bytes(data))
    wanted = checked if isinstance(checked, tuple) else None
    met["refusal", wanted[0] if wanted else "none"] += 1
    same("refusal", rules.refusal(bytes(data)), wanted, bytes(data))


def try_shifted(rng):
    """keep-shifted in the middle of a rule: every word 2 is a number and both terms may be constants; each other field is held to its form."""
    atom = 1, (), (0, [(0, 0), (0, 1)])
    tries = 0
    for terms in ([(0, 0), (0, 1)], [(0, 1), (1, 2**32 - 1)], [(1, 0), (0, 0)], [(1, 5), (1, 5)], [(0, 1), (0, 1)]):
        for word in EDGES:
            file = file_of((13, ((15, (atom,), (word, terms)),), (0, 9)), [2])
            head, body = 12 + 4, 12 + 12 + 16
            changes = [(head, 16), (head, 255), (head + 1, 1), (head + 1, 2), (head + 2, 1), (head + 2, 3), (head + 2, 255)]
            changes += [(head + 3, file[head + 3] | 1 << bit) for bit in range(2, 8)] + [(body + 12 + k, rng.choice((1, 255))) for k in range(4)]
            changes += [(body + 4 * k, 4) for k in range(2) if not terms[k][0]] + [(body + 4 * k + 3, 1) for k in range(2) if not terms[k][0]]
            same("keep-shifted", (rules.refusal(file), isinstance(plain.check(file), plain.Rule)), (None, True), file)
            for at, byte in changes:
                data = bytearray(file)
                data[at] = byte
                tries += 1
                same("keep-shifted, damaged", (rules.refusal(bytes(data)), plain.check(bytes(data))), ((4, 1), (4, 1)), (at, bytes(data)))
            for k in range(2):
                data = bytearray(file)
                data[body + 4 * k] = 2
                wanted = None if terms[k][0] else (6, 1)
                tries += 1
                same("keep-shifted of another variable", rules.refusal(bytes(data)), wanted, (k, bytes(data)))
    return tries


# Readings in texts, and the words that they are stored as.
STORED = [("0.00", 2**31), ("0.0", 2**31), ("-0.00", 2**31), ("0.01", 2**31 + 1), ("-0.01", 2**31 - 1), ("12.4", 2**31 + 1240), ("-3.25", 2**31 - 325), ("-3.5", 2**31 - 350),
          ("21474836.47", 2**32 - 1), ("-21474836.48", 0), ("007.05", 2**31 + 705), ("0" * 5000 + ".5", 2**31 + 50), ("0" * 5000 + "7", 7), ("4294967295", 2**32 - 1)]
# Offsets, and word 2.
SHIFTS = [("+ 0", 0), ("- 0", 0), ("+ 0.00", 0), ("-0.0", 0), ("+ 250", 250), ("+2.5", 250), ("- 2.50", 2**32 - 250), ("-250", 2**32 - 250), ("+ 2147483647", 2**31 - 1),
          ("+ 21474836.47", 2**31 - 1), ("- 2147483648", 2**31), ("- 21474836.48", 2**31), ("- 0.01", 2**32 - 1), ("+ 1", 1), ("+ 00000002147483647", 2**31 - 1)]


def try_stored():
    """Values and offsets to their words, in atoms, comparisons, events and logs."""
    for shown, word in STORED:
        file = file_of((1, (), (0, [(1, word), (0, 0)])), [2])
        same("a constant of an atom", outcome(rules.rule_file, f"a({shown}, x)"), file, shown)
        file = file_of((4, ((1, (), (0, [(0, 0)])),), (2, [(0, 0), (1, word)])), [1])
        same("a constant that is compared", outcome(rules.rule_file, f"a(x) and x<{shown}"), file, shown)
        same("a value of an event", outcome(lambda: rules.read_text(f"a(x) @1 a({shown})")[1]), [[1, 1, 0, word, 0, 0, 0]], shown)
        same("a value of a log", outcome(read_log, f"1,a,{shown}", rules.read_text("a(x)")[0]), [(1, [1, 1, 0, word, 0, 0, 0])], shown)
        told, again = rules.Told(rules.read_text(f"a(x) @1 a({shown})")[0]), hundredths(word) if "." in shown else str(word)
        same("a value that is printed", (told.valuation((word,)), told.row(0, (word,))), (f"x = {again}", f"a({again})"), shown)
    for shown, word in SHIFTS:
        file = file_of((15, ((1, (), (0, [(0, 0), (0, 1)])),), (word, [(0, 0), (0, 1)])), [2])
        same("an offset", outcome(rules.rule_file, f"a(x, y) and x {shown} < y"), file, shown)
        sign, digits = "-" if word >= 2**31 else "+", hundredths(word, True) if "." in shown else as_words(None, word, True)
        same("an offset that is printed", outcome(line_after, f"a(x, y) and x{shown}<y"), f"a(x, y) and x {sign} {digits} < y", shown)


def try_wrong():
    for marked, said in WRONG:
        at, text = marked.index("|"), marked.replace("|", "")
        same("place and words", fault(text), (at, said), text)


def try_warned():
    for marked, said in WARNED:
        at, text = marked.find("|"), marked.replace("|", "")
        reader = rules.Reader(text)
        try:
            reader.text()
        except rules.Wrong:
            same("refused", said, "error", text)
            continue
        same("warnings", [(w.at, str(w)) for w in reader.warnings()], [(at, said)] if said else [], text)


def try_wrong_logs():
    for log, line, said in WRONG_LOGS:
        same("a wrong log", outcome(read_log, log, rules.read_text("a(x) and b(x, y) and c()")[0]), f"Fault: log:{line}: {said}", log)


def try_commands():
    def run(*words, stdin=b""):
        done = subprocess.run([sys.executable, TOOL, *words], input=stdin, capture_output=True)
        return done.returncode, done.stdout, done.stderr.decode()

    rule = "leak(x) and not eventually [0, 61) close(x)\n"
    events = "@100 leak(7) leak(9)\n@130 close(9)\n@161 close(7)\n@191 leak(9)\n"
    shipped = (TOP / "examples" / "leak.rule").read_bytes()
    same("write-rule", run("write-rule", stdin=rule.encode()), (0, shipped, ""), rule)
    same("read-rule", run("read-rule", "--names", "leak,close", str(TOP / "examples" / "leak.rule")), (0, rule.encode(), ""), "leak.rule")
    status, data, _ = run("write-input", str(TOP / "examples" / "leak.text"))
    same("write-input", (status, plain.listing(data)), (0, (TOP / "examples" / "leak.out").read_text()), "leak.text")
    same("read-input", run("read-input", "--names", "leak,close", stdin=data), (0, (rule + events).encode(), ""), data)
    fault = "text:2:4: `b` is not free in what stands before `or`\n\tb(b)\n\t  ^\n"
    same("a fault", run("write-rule", stdin=b"a(x) or\n\tb(b)\n"), (1, b"", fault), "")
    same("no text", run("write-rule", stdin=b"a(\xff)"), (1, b"", "byte 2 is not of a text in UTF-8\n"), "")
    same("a refused file", run("read-rule", stdin=shipped[:-1]), (1, b"", "the rule: refused 1 place 0\n"), "")
    same("a cut event", run("read-input", stdin=data[:-1]), (1, b"", "event 3 is cut short\n"), "")
    crowd = struct.pack("<2I", 200, 33) + bytes(20 * 33)
    same("a row count of 33", run("read-input", stdin=data + crowd), (1, b"", "event 4 has a row count of 33\n"), "")
    same("too few names", run("read-rule", "--names", "leak", stdin=shipped), (1, b"", "the rule has 2 relations, and 1 names are given\n"), "")
    same("no such command", run("print")[0], 2, "")
    same("no such option", run("write-rule", "--all")[0], 2, "")
    shown = "node  kind    children  window  free  text\n0     atom    -         -       p, q  on(p, q)\n" \
        "1     keep    0         -       p, q  on(p, q) and q >= 3\n2     exists  1         -       p     exists q (on(p, q) and q >= 3)\n"
    same("nodes", run("nodes", stdin=b"variables p, q exists q (on(p, q) and q >= 3) @1 on(3, 4)"), (0, shown.encode(), ""), "")
    same("nodes of a file", run("nodes", "--names", "leak,close", str(TOP / "examples" / "leak.rule"))[1].decode().split("\n")[4],
         "3     and-not     0, 2      -        x     leak(x) and not eventually [0, 61) close(x)", "leak.rule")
    shown = "node  kind          children  window  free  text\n0     atom          -         -       p, m  moisture(p, m)\n" \
        "1     keep-shifted  0         -       p, m  moisture(p, m) and m - 2.50 < -3.25\n"
    same("nodes with readings", run("nodes", stdin=b"moisture(p, m) and m - 250 < -3.25"), (0, shown.encode(), ""), "")
    data = run("write-input", stdin=b"moisture(p, m) and m - 2.5 < -3.25 @1 moisture(7, -0.5)")[1]
    same("a file with readings", run("read-input", stdin=data), (0, b"r0(x, y) and y - 250 < 2147483323\n@1 r0(7, 2147483598)\n", ""), "")
    same("nodes of a wrong text", run("nodes", stdin=b"a(x")[:2], (1, b""), "")
    warned = f"text:2:6: warning: {ANOTHER}\nb(7, x)\n     ^\n"
    same("a warning", run("write-rule", stdin=b"exists x a(x) and\nb(7, x)"), (0, rules.rule_file("exists x a(x) and b(7, x)"), warned), "")
    same("help", "grammar" in run("--help")[1].decode(), True, "")


def try_examples():
    """Each text of examples/ gives the rule file beside it, and that file's own text gives it again."""
    texts = sorted((TOP / "examples").glob("*.text"))
    for path in texts:
        file = path.with_suffix(".rule").read_bytes()
        same("example", outcome(rules.rule_file, path.read_text()), file, path.name)
        same("example again", outcome(rules.rule_file, read_rule(file, None)), file, path.name)
    return len(texts)


def try_inputs(files):
    """Inputs to text and back, where a text can say them: the same bytes, or the same text if the nodes stood in another order."""
    done = collections.Counter()
    for f in files:
        data = open(f, "rb").read()
        text = outcome(rules.input_text, data)
        if text.startswith("Unreadable"):
            done["not in form"] += 1
            continue
        back = outcome(rules.listing_input, text)
        if text.startswith("#"):
            done["in another order"] += 1
            same("text", outcome(rules.input_text, back), text.split("\n", 1)[1], f)
        else:
            done["the same bytes"] += 1
            same("bytes", back, data, f)
    print(*(f"{k}: {n};" for k, n in sorted(done.items())), f"{failures} differ")


def main():
    if any(a.endswith(".in") for a in sys.argv[1:]):
        try_inputs(sys.argv[1:])
        sys.exit(failures > 0)
    count, seed = (int(a) for a in (sys.argv[1:] + ["3000", "1"][len(sys.argv) - 1:]))
    rng, met = random.Random(seed), collections.Counter()
    for _ in range(count):
        file = try_tree(rng, met)
        try_damaged(rng, file, met)
    shifted = try_shifted(rng)
    try_stored()
    try_wrong()
    try_warned()
    try_wrong_logs()
    try_commands()
    examples = try_examples()
    for key in sorted(met, key=str):
        print(f"{key[0]} {key[1]}: {met[key]}", end="; ")
    wanted = [("kind", k) for k in range(1, 16)] + [("shift by", k) for k in ("less than 0", "0", "more than 0")] \
        + [("readings", k) for k in ("in a rule", "in a log")] + [("mixed", f"at a {a} of {b}") for a in ("column", "comparison") for b in ("readings", "whole numbers")] + [("comparison", k) for k in range(4)] + [("arity", k) for k in range(5)] \
        + [("refusal", k) for k in range(1, 8)] + [("window", "without"), ("order", "another"), ("nodes", "32"), ("nodes", "shown"), ("events", "of equal times together")]
    rare = [key for key in wanted if count >= 3000 and met[key] < LEAST]
    print(f"\n{count} rules as text and file, {shifted} of keep-shifted damaged, {len(STORED)} values and {len(SHIFTS)} offsets, {len(WRONG)} wrong texts, "
          f"{len(WARNED)} with or without a warning, {len(WRONG_LOGS)} wrong logs, {examples} examples, {failures} differ", *(f"rare: {k}" for k in rare))
    sys.exit(failures > 0 or bool(rare))


if __name__ == "__main__":
    main()
