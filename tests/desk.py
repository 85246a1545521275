#!/usr/bin/env python3
"""Runs `tools/rules run` with the listing program, and compares what is printed with plain.py and with the documents.

    tools/build listing
    desk.py [CASES [SEED]]   default: 200 cases, seed 1

Each case is a generated rule with a log, run from a text with events, from a rule and a log of lines, and as an input of the
listing program with some rows that don't fit and an end that is no event, with --all and without, beside the lines that are
made here from plain.py's answers; in half of the cases with readings, which texts and lines of a log have with a point. Then the limits that refuse an event, damaged rule files, pictures, progress, faults after
which nothing may be printed, listing programs that fail, the words of all refusals, and every rule, log and report of
docs/RULES.md and every `tools/rules run` of README.md; last, with programs that only seem to be those that tools/test calls,
that it names a missing one and ends what it began. Exits with 1 on any difference, or where something was met too rarely.
"""
import collections
import contextlib
import io
import os
import pathlib
import pty
import random
import re
import shutil
import signal
import struct
import subprocess
import sys
import tempfile
import time
import xml.etree.ElementTree

import plain
import text

TOP, rules = text.TOP, text.rules
NAMES = ["leak", "close", "flow", "open_", "dry", "low", "on", "off"]
LEAST = 20  # how often refusals, breaches and the like must be met in generated cases

# Each refusal in words, from 01; a node's or a row's own text follows where the place is one.
WORDS = {
    1: "under 12 bytes, or a length that isn't 12 + 20 for each node",
    2: "the version isn't 1",
    3: "a size, an arity or the zero byte is out of range",
    4: "an unknown kind, child, relation, variable or comparison, or a field without a meaning that isn't 0: node 5, NODE5",
    5: "the window is out of range: node 5, NODE5",
    6: "a condition on the free variables is broken: node 5, NODE5",
    7: "the node isn't a child exactly once: node 5, NODE5",
    8: "the state isn't well formed",
    9: "under 2 words, over 32 rows, or a wrong length",
    10: "no such relation, or an unused column that isn't 0: row 5, ROW5",
    11: "the time is below the latest known",
    12: "10,000,000 points were taken already",
    13: "over 32 valuations at a point newly settled: node 5, NODE5",
    14: "over 32 points would be open",
    15: "over 512 entries would be kept",
    16: "the report buffer is too short: 5 words are needed",
}


class Small(text.Maker):
    """Rules and values so small that much is breached."""

    def window(self, ends):
        c = self.rng.choice((0, 0, 0, 1, 3))
        return (c, 0) if not ends and self.rng.random() < 0.3 else (c, c + self.rng.choice((1, 3, 8, 20)))

    def term(self, variables):
        constant = not variables or self.rng.random() < 0.1
        return (1, self.rng.randrange(3)) if constant else (0, self.rng.choice(sorted(variables)))

    def shift(self):
        return self.rng.choice((0, 0, 1, 2, 2**32 - 1, 2**32 - 2, 2**31 - 1, 2**31))


def with_readings(tree, sorts, path=()):
    """The tree with the constants of what has readings as the words of -0.01, 0.00 and 0.01."""
    kind, below, more = tree
    if kind in (1, 4, 15):
        terms = [(c, moved(w) if c and sorts.reading(text.place_of(tree, path, k)) else w) for k, (c, w) in enumerate(more[1])]
        more = more[0], terms
    return kind, tuple(with_readings(t, sorts, path + (k,)) for k, t in enumerate(below)), more


def moved(word):
    return text.ZERO - 1 + word


def log_for(rng, arities):
    """Events with rising, equal and falling times, some of many rows."""
    now, events = rng.choice((0, 100, 2**32 - 60)), []
    most = rng.choice((2, 6, 32))
    for _ in range(rng.randint(1, rng.choice((8, 25)))):
        rows = [rng.randrange(len(arities)) for _ in range(rng.randint(0, most))]
        time = max(0, now - 5) if rng.random() < 0.1 else now
        events.append((time, rows, [[rng.randint(0, rng.choice((2, 2, 9))) for _ in range(arities[r])] for r in rows]))
        now = min(now + rng.choice((0, 0, 1, 1, 2, 3, 9)), 2**32 - 1)
    return events


def wanted_lines(tree, arities, names, events, every, met, told=()):
    """What must be printed, from plain.py's answers, for events each with what stands for it in a line and its words, or None for words
    that are no event; `told` is what is known to have readings."""
    rule = plain.check(text.file_of(tree, arities))
    nodes = []
    text.nodes_of(tree, names, nodes, text.printing(told))
    columns = [(text.VARIABLES[v], text.hundredths if ("variable", v, None) in told else str) for v in sorted(text.free(tree))]
    out, log, reported, breached = [f"rule {nodes[-1][5]}, reach {rule.reach[-1]}"], plain.Log(rule, []), 0, 0
    for counted, words in events:
        answer, points = plain.take(rule, log, words) if words else ((9, 0), None)
        if points is None:
            number, place = answer
            met["refused", number] += 1
            said = WORDS[number]
            if number == 10:
                m = words[1]
                relation, values = words[2 + place], words[2 + m + 4 * place:6 + m + 4 * place]
                name = names[relation] if relation < len(names) else f"relation {relation}"
                said = said.replace("5, ROW5", f"{place}, {name}({', '.join(map(str, values))})")
            elif "NODE5" in said:
                said = said.replace("5, NODE5", f"{place}, {nodes[place][5]}")
            out.append((f"time {words[0]} refused {number}, {counted}: " if words else "refused 9, at the end: ") + said)
            continue
        log = answer
        for i, time, rows in points:
            reported, breached = reported + 1, breached + (len(rows) > 0)
            met["a point", "with rows" if rows else "without"] += 1
            met["columns", len(columns)] += len(rows)
            met["readings", "reported"] += len(rows) * any(shown == text.hundredths for _, shown in columns)
            met["readings", "in the rule's line"] += len(rows) * bool(re.search(r"[0-9]\.[0-9]", out[0]))
            met["a breach of", "a rule with keep-shifted" if any(node[1] == "keep-shifted" for node in nodes) else "another"] += len(rows)
            out += [f"time {time} point {i}: {', '.join(f'{c} = {shown(v)}' for (c, shown), v in zip(columns, row)) or 'breach'}" for row in rows]
            out += [f"time {time} point {i}: no breach"] * (every and not rows)
    return out + [f"reported {reported}, breached {breached}, open {log.open()}, kept {log.kept()}"]


def printed(*words, stdin=""):
    """What the tool gives back and prints, run in here; standard input can't be a log then."""
    out, err, before = io.StringIO(), io.StringIO(), sys.stdin
    sys.stdin = io.TextIOWrapper(io.BytesIO(stdin.encode()))
    try:
        with contextlib.redirect_stdout(out), contextlib.redirect_stderr(err):
            status = rules.main(["run", *map(str, words)])
    finally:
        sys.stdin = before
    return status, out.getvalue(), err.getvalue()


def program(*words, stdin=None, **more):
    done = subprocess.run([sys.executable, text.TOOL, "run", *map(str, words)], input=stdin, capture_output=True, text=True, timeout=60, cwd=TOP, **more)
    return done.returncode, done.stdout, done.stderr


def try_case(rng, folder, met):
    maker = Small(rng)
    maker.arities = [rng.choice((0, 1, 1, 1, 2)) for _ in range(rng.randint(1, 4))]
    tree = maker.tree(rng.randint(1, 7))
    sorts = text.Sorted(rng, tree, rng.choice((0, 0.6)))
    tree = with_readings(tree, sorts)
    names = NAMES[:len(maker.arities)]
    events = [(t, rows, [[moved(w) if sorts.reading(("column", r, k)) else w for k, w in enumerate(v)] for r, v in zip(rows, values)])
              for t, rows, values in log_for(rng, maker.arities)]
    lines, words = text.text_of(tree, maker.arities, names, sorts.write)
    head = "\n".join(lines + [text.spaced(words)]) + "\n"
    of_rule = [w for w in words if isinstance(w, text.Literal)]
    written, of_log = text.written_events(sorts, events)
    every = rng.random() < 0.5
    alone, log = folder / "alone.text", folder / "log.csv"

    # a text with events, each on a line of its own
    body = text.events_text(written, names)
    wanted = "\n".join(wanted_lines(tree, maker.arities, names, numbered(events, len(lines) + 2), every, met, sorts.told(of_rule + of_log))) + "\n"
    status, out, err = printed(*["--all"] * every, stdin=head + body)
    text.same("a text with events", (status, out), (0, wanted), head + body)
    met["warned", bool(err)] += 1

    # the same as lines of a log, the rule as a text or as a file, which doesn't tell what has readings
    csv, begins = text.lines_of(rng, written, names)
    log.write_text(csv, newline="")
    counted = [(f"line {n}", text.event_words(e)) for n, e in zip(begins, events)]
    if rng.random() < 0.5:
        alone.write_text(head)
        got = printed(alone, log, *["--all"] * every)
    else:
        alone.write_bytes(text.file_of(tree, maker.arities))
        got, of_rule = printed("--names", ",".join(names), *["--all"] * every, alone, log), []
    wanted = "\n".join(wanted_lines(tree, maker.arities, names, counted, every, collections.Counter(), sorts.told(of_rule + of_log))) + "\n"
    text.same("a log of lines", got[:2], (0, wanted), head + csv)

    # an input of the listing program, with rows that don't fit the rule and an end that is no event
    file, spoilt = text.file_of(tree, maker.arities), [spoil(rng, text.event_words(e)) for e in events]
    end = rng.choice((b"", b"", struct.pack("<2I", 1, 33), struct.pack("<3I", 2**32 - 1, 1, 0), b"\1\0\0"))
    log.write_bytes(struct.pack("<I", len(file)) + file + b"".join(struct.pack(f"<{len(w)}I", *w) for w in spoilt) + end)
    counted = [(f"event {k}", w) for k, w in enumerate(spoilt)] + [("", None)] * bool(end)
    wanted = "\n".join(wanted_lines(tree, maker.arities, names, counted, every, met)) + "\n"
    text.same("an input", printed(log, *["--all"] * every, "--names", ",".join(names)), (0, wanted, ""), log.read_bytes())


def numbered(events, first):
    """Events with the lines that begin with that one."""
    return [(f"line {first + k}", text.event_words(e)) for k, e in enumerate(events)]


def spoil(rng, words):
    """An event's words, one in six times with a relation that no rule of here has or with a value in the fourth column."""
    m, words = words[1], list(words)
    if m and rng.random() < 1 / 6:
        k = rng.randrange(m)
        words[rng.choice((2 + k, 2 + m + 4 * k + 3))] = 7
    return words


def try_limits(met):
    """Events that just pass and just don't: 32 and 33 valuations, open points, 512 kept."""
    a, b = (1, (), (0, [(0, 0)])), (1, (), (1, [(0, 1)]))
    crowds = [(1, [0] * m + [1] * n, [[k] for k in (*range(m), *range(n))]) for m, n in ((8, 4), (11, 3))]
    ahead = [(5, [0], [[k]]) for k in range(34)]
    kept = [(k, [0] * 16, [[16 * k + j] for j in range(16)]) for k in range(34)]
    for tree, arities, events, refused in (((2, (a, b), ()), [1, 1], crowds, 13), ((14, (a,), (0, 9)), [1], ahead, 14), ((13, (a,), (0, 99)), [1], kept, 13),
                                           ((3, (a, (13, (a,), (50, 99))), ()), [1], kept, 15)):
        names = NAMES[:len(arities)]
        lines, words = text.text_of(tree, arities, names)
        head = "\n".join(lines + [text.spaced(words)]) + "\n"
        body = text.events_text(events, names)
        own = collections.Counter()
        wanted = "\n".join(wanted_lines(tree, arities, names, numbered(events, len(lines) + 2), False, own)) + "\n"
        text.same("at a limit", printed(stdin=head + body), (0, wanted, ""), head + body)
        text.same("the limit is met", own["refused", refused] > 0, True, (refused, own))
        met.update(own)


def try_damaged(rng, folder, met, count=400):
    """Damaged rule files are refused in words, with nothing on standard output."""
    for _ in range(count):
        maker = Small(rng)
        data = bytearray(text.file_of(maker.tree(rng.randint(1, 6)), maker.arities))
        data[rng.randrange(rng.choice((4, len(data))))] = rng.choice((0, 1, 2, 3, 7, 15, 16, 200))
        data = bytes(data[:rng.choice((len(data), len(data), rng.randrange(4, len(data))))])
        checked = plain.check(data)
        if not isinstance(checked, tuple) or 0 not in data:
            continue
        met["refused", checked[0]] += 1
        (folder / "bad.rule").write_bytes(data)
        status, out, err = printed(folder / "bad.rule")
        said = f"the rule: refused {checked[0]}: " + WORDS[checked[0]].replace("node 5, NODE5", f"node {checked[1]}, ")
        text.same("a refused rule", (status, out, err[:len(said)]), (1, "", said), data)
    whole = bytearray((TOP / "examples" / "leak.rule").read_bytes())
    for at, byte, said in ((20, 99, "kind 99, left 1, right 0, mask 0, words 0, 61, 0, 0"), (64, 0, "eventually [0, *) r1(x)"),
                           (44, 1, "r0(x) and not eventually [0, 61) r1(y)"), (21, 0, "r0(x)")):
        data = whole[:]
        data[at] = byte
        met["refused", plain.check(bytes(data))[0]] += 1
        (folder / "bad.rule").write_bytes(data)
        err = printed(folder / "bad.rule")[2]
        text.same("the node's own text", err.split(", ", 1)[-1][-len(said) - 1:], said + "\n", (at, err))
    (folder / "bad.rule").write_bytes(doubled())
    text.same("a node that is a child twice", printed(folder / "bad.rule")[2], f"the rule: refused 5: {WORDS[5]}\n".replace(
        "5, NODE5", "31, kind 14, left 30, right 0, mask 0, words 0, 0, 0, 0"), "doubled")


def doubled():
    """A rule of 32 nodes, each a child twice of the next, but for the last, whose window is wrong: its text would have 2^30 atoms."""
    heads = [(1, 0, 0, 0)] + [(2, x, x, 0) for x in range(30)] + [(14, 30, 0, 0)]
    return bytes([1, 1, 32, 0]) + bytes(8) + b"".join(map(bytes, heads)) + bytes(16 * 32)


def try_words():
    """All sixteen, also those that no log can bring about here."""
    for number, said in WORDS.items():
        text.same("a refusal's words", rules.rules_run.reason(number, 5, lambda x: f"NODE{x}", lambda k: f"ROW{k}"), said, number)
    told = rules.Told(rules.read_text("leak(x)")[0])
    text.same("a row's words", (told.row(0, (7,)), told.row(3, (7, 0))), ("leak(7)", "relation 3(7, 0)"), "")
    told = rules.Told(rules.read_text("moisture(p, m) and m < -3.25")[0])
    text.same("a row with a reading", told.row(0, (7, 2**31 - 325, 0, 5)), "moisture(7, -3.25, 0, 5)", "")


def try_pictures(folder):
    """Thirty-two valuations, the last two without a row of their own."""
    events = "".join(f"@{100 + 10 * k} a({k}) a(5)\n" for k in range(32))
    file = folder / "picture.svg"
    status, out, _ = printed("--picture", "--svg", file, stdin="a(v)\n" + events)
    drawn = [line for line in out.splitlines() if line.endswith("|")]
    width = len("all others")
    text.same("picture rows", [line[:width].strip() for line in drawn], [f"v = {k}" for k in range(30)] + ["all others"], out)
    cells = {k: line[width + 2:-1] for k, line in enumerate(drawn)}
    text.same("picture marks", (cells[5].count("#"), cells[7], cells[30]), (32, "." * 13 + "#" + "." * 46, "." * 57 + "#.#"), out)
    text.same("picture axis", out.splitlines()[-1], "time" + " " * (width - 2) + "100" + " " * 54 + "410", out)
    first = file.read_text()
    printed("--svg", file, stdin="a(v)\n" + events)
    text.same("the same picture again", file.read_text(), first, "")
    root = xml.etree.ElementTree.fromstring(first)
    space = "{http://www.w3.org/2000/svg}"
    marks = [float(r.get("x")) for r in root.iter(space + "rect") if r.get("class") == "breach"]
    left = min(marks)
    text.same("svg marks", collections.Counter(marks)[left + (70 * 599) // 310], 2, sorted(marks))
    text.same("svg mark count", len(marks), 29 + 32 + 2, sorted(marks))
    labels = [t.text for t in root.iter(space + "text")]
    text.same("svg labels", labels, ["breaches of a(v)"] + [f"v = {k}" for k in range(30)] + ["all others"]
              + ["100", "151", "203", "255", "306", "358", "410", "time in seconds"], labels)
    text.same("no scripts", "script" in first, False, "")
    printed("--svg", file, stdin="a(x) and x < 3 @1 b(2)".replace("b", "a"))
    text.same("signs in a title", next(xml.etree.ElementTree.parse(file).iter(space + "text")).text, "breaches of a(x) and x < 3", "")
    printed("--svg", file, stdin="a(x)" + " and a(x)" * 14 + " @1 a(2)")
    title = next(xml.etree.ElementTree.parse(file).iter(space + "text")).text
    text.same("a long title", title, ("breaches of a(x)" + " and a(x)" * 14)[:(20 + 8 * len("x = 2") + 600 + 40 - 20) // 8 - 3] + "...", title)
    out = printed("--picture", "--svg", file, stdin="a(p, m) and m - 0.5 < 0.00\n@1 a(7, -12.4)\n@2 a(7, 0.50)\n@3 a(7, 0.49)")[1].splitlines()
    labels = ["p = 7, m = -12.40", "p = 7, m = 0.49"]
    text.same("readings in a picture", [line.split("|")[0].strip() for line in out if line.endswith("|")], labels, out)
    drawn = [t.text for t in xml.etree.ElementTree.parse(file).iter(space + "text")]
    text.same("readings in an svg", drawn[:3], ["breaches of a(p, m) and m - 0.50 < 0.00"] + labels, drawn)
    text.same("nothing to draw", printed("--picture", stdin="a(x) and x < 0 @1 a(2)")[1].splitlines()[-1], "no breach to draw", "")


def try_progress(folder):
    """Shown on a terminal, not elsewhere; and a log of lines from standard input."""
    rule = folder / "long.text"
    rule.write_text("leak(x) and x < 1")
    log = "".join(f"{k},leak,{k % 1000}\n" for k in range(25_000))
    wanted = "rule leak(x) and x < 1, reach 0\n" + "".join(f"time {k} point {k}: x = 0\n" for k in range(0, 25_000, 1000)) \
        + "reported 25000, breached 25, open 0, kept 0\n"
    text.same("no progress", program(rule, "-", stdin=log), (0, wanted, ""), "a long log")
    (folder / "long.csv").write_text(log)
    rule.write_text("leak(x)")
    with subprocess.Popen([sys.executable, text.TOOL, "run", rule, folder / "long.csv"], stdout=subprocess.PIPE, stderr=subprocess.PIPE) as child:
        first = child.stdout.readline()
        child.stdout.close()
        text.same("a reader that ends early", (first, child.stderr.read(), child.wait()), (b"rule leak(x), reach 0\n", b"", 1), "")
    mine, theirs = pty.openpty()
    with subprocess.Popen([sys.executable, text.TOOL, "run", rule, folder / "long.csv"], stdout=subprocess.DEVNULL, stderr=theirs) as child:
        os.close(theirs)
        shown = b""
        with contextlib.suppress(OSError):  # how the end of a terminal is told
            while part := os.read(mine, 1000):
                shown += part
    os.close(mine)
    seen = re.findall(rb"(read|run) ([0-9,]+) events", shown)
    text.same("progress", (child.returncode, seen), (0, [(w, n) for w in (b"read", b"run") for n in (b"10,000", b"20,000")]), shown)


def try_faults(folder):
    """After a fault nothing is on standard output, however late it comes."""
    rule, log = folder / "rule.text", folder / "late.csv"
    rule.write_text("leak(x)")
    log.write_text("1,leak,7\n" * 30 + "\n2,leak,8\n3,leek,9\n")
    text.same("a late fault of a log", program(rule, log), (1, "", f"{log}:33: `leek` is not a relation of the rule; it has leak\n"), "")
    log.write_text("1,leak,7\n" * 30 + "\n2,leak,8\n3,leak,-9.50\n")
    text.same("a reading in a log of whole numbers", program(rule, log), (1, "", f"{log}:33: column 1 of `leak` has whole numbers, such as 7: -9.50 is a reading\n"), "")
    text.same("a whole number for a reading", program(stdin="leak(x) and x < 2.50\n@1 leak(1.00)\n@2 leak(2)\n"),
              (1, "", "text:3:9: column 1 of `leak` has readings, such as 2.50: write 2.00\n@2 leak(2)\n        ^\n"), "")
    text.same("a late fault of a text", program(stdin="leak(x)\n@1 leak(7)\n@2 leek(7)\n"),
              (1, "", "text:3:4: `leek` is not a relation of the rule\n@2 leek(7)\n   ^\n"), "")
    log.write_bytes(b"1,leak,7\n2,leak,\xff\n")
    text.same("a log that is no text", printed(rule, log), (1, "", f"{log}: not a text in UTF-8\n"), "")
    log.write_bytes(b"\xef\xbb\xbf1,leak,7\n")
    text.same("a log with a mark of UTF-8", printed(rule, log)[1].splitlines()[1], "time 1 point 0: x = 7", "")
    text.same("no log", printed(rule, folder / "none.csv"), (1, "", f"rules: {folder / 'none.csv'}: No such file or directory\n"), "")
    log.write_text("1,leak,7\n")
    leak = TOP / "examples" / "leak.text"
    text.same("events twice", printed(leak, log), (1, "", f"rules: {leak} has events of its own, and {log} is given too\n"), "")
    text.same("standard input twice", printed("-", "-", stdin="leak(x)")[:2], (2, ""), "")
    cut, small = folder / "cut.in", rules.rule_file("leak(x)")
    for data in (rules.listing_input(leak.read_text())[:50], struct.pack("<I", 52) + small):
        cut.write_bytes(data)
        text.same("a cut rule", printed(cut), (1, "", f"the rule: refused 1: {WORDS[1]}\n"), data)
    text.same("no such option", printed("--every")[:2], (2, ""), "")
    text.same("names for a text", printed("--names", "a", rule)[:2], (2, ""), "")
    text.same("a warning is no fault", printed(stdin="exists x leak(x) and close(x)\n@1 leak(3) close(4)\n"),
              (0, "rule exists x leak(x) and close(x), reach 0\ntime 1 point 0: x = 4\nreported 1, breached 1, open 0, kept 0\n",
               f"text:1:28: warning: {text.ANOTHER}\nexists x leak(x) and close(x)\n{' ' * 27}^\n"), "")
    none = "No such file or directory; `tools/build listing` builds target/bin/listing, and --listing names another"
    text.same("no listing program", printed("--listing", folder / "none", rule), (1, "", f"rules: {folder / 'none'}: {none}\n"), "")
    fake = folder / "fake"
    for script, said in (("echo rule ok reach 0", "rules: the listing program ended without its last line"), ("exit 3", f"rules: {fake} ended with 3"),
                         ("exit 0", "rules: the listing program printed `nothing`"),
                         ("echo rule ok reach 0; echo open 0 kept 0; exit 3", f"rules: {fake} ended with 3"),
                         ("echo rule ok reach 0; echo hello; echo open 0 kept 0", "rules: the listing program printed `hello`")):
        fake.write_text(f"#!/bin/sh\n{script}\n")
        fake.chmod(0o755)
        status, _, err = printed("--listing", fake, rule)
        text.same("a listing program that fails", (status, err), (1, said + "\n"), script)


BLOCKS = re.compile(r"^```rule\n(.*?)^```\n(?:\n^```csv\n(.*?)^```\n)?\n^```report\n(.*?)^```$", re.M | re.S)


def try_documents(folder):
    """The blocks of RULES.md, and the commands of README.md with what stands below them."""
    page = (TOP / "docs" / "RULES.md").read_text()
    blocks = BLOCKS.findall(page)
    text.same("every block is run", (page.count("```") - 2 * sum(2 + bool(log) for _, log, _ in blocks), page.count("```rule\n")), (0, len(blocks)), "RULES.md")
    for rule, log, report in blocks:
        (folder / "page.text").write_text(rule)
        (folder / "page.csv").write_text(log)
        text.same("RULES.md", printed(folder / "page.text", *[folder / "page.csv"] * bool(log)), (0, report, ""), rule)
    kinds = {n.kind for rule, _, _ in blocks for n in rules.read_text(rule)[0].nodes}
    text.same("all kinds are on the page", kinds, set(range(1, 16)), "RULES.md")
    commands = re.findall(r"^    \$ (tools/rules run .*)\n((?:    .+\n)*)", (TOP / "README.md").read_text(), re.M)
    for command, shown in commands:
        text.same("README.md", program(*command.split()[2:]), (0, re.sub("^    ", "", shown, flags=re.M), ""), command)
    text.same("README.md has a command", len(commands) > 0, True, "README.md")
    return len(blocks)


NEEDED = "rt python3 rustc cargo cc c++ nm size valgrind setsid".split()


def try_gate(folder):
    """tools/test with programs that do nothing: one missing, and then rt failing while another test still runs."""
    bin, pid = folder / "bin", folder / "pid"
    bin.mkdir()
    for name in "sh grep dirname mktemp rm cat nice sleep setsid".split():
        (bin / name).symlink_to(shutil.which(name))
    scripts = dict.fromkeys(NEEDED[:-1], "exit 0")
    scripts["python3"] = f"sleep 60 & echo $! >{pid}; wait"
    scripts["rt"] = f"while ! grep -q . {pid} 2>/dev/null; do sleep 0.05; done; echo rt fails; exit 1"
    for name, script in scripts.items():
        (bin / name).write_text(f"#!/bin/sh\n{script}\n")
        (bin / name).chmod(0o755)

    def gate():
        done = subprocess.run([TOP / "tools" / "test"], env={"PATH": str(bin), "TMPDIR": str(folder)}, capture_output=True, text=True, timeout=50)
        return done.returncode, done.stdout, done.stderr

    for name in NEEDED:
        (bin / name).rename(folder / name)
        text.same("a missing program", gate(), (1, "", f"tools/test: needed, and not found: {name}\n"), name)
        (folder / name).rename(bin / name)
    before = set(folder.iterdir())
    text.same("rt fails", gate(), (1, "rt fails\n", ""), "")
    left, until = int(pid.read_text()), time.monotonic() + 3
    while is_running(left) and time.monotonic() < until:
        time.sleep(0.02)
    text.same("what was begun is ended", is_running(left), False, left)
    text.same("nothing is left", set(folder.iterdir()) - before, {pid}, "")
    if is_running(left):
        os.kill(left, signal.SIGTERM)


def is_running(pid):
    stat = pathlib.Path(f"/proc/{pid}/stat")
    return stat.exists() and stat.read_text().rpartition(")")[2].split()[0] not in "ZX"


def main():
    count, seed = (int(a) for a in (sys.argv[1:] + ["200", "1"][len(sys.argv) - 1:]))
    rng, met = random.Random(seed), collections.Counter()
    if not (TOP / "target" / "bin" / "listing").exists():
        sys.exit("desk.py: target/bin/listing isn't there; `tools/build listing` builds it")
    with tempfile.TemporaryDirectory() as name:
        folder = pathlib.Path(name)
        for _ in range(count):
            try_case(rng, folder, met)
        try_limits(met)
        try_damaged(rng, folder, met)
        try_words()
        try_pictures(folder)
        try_progress(folder)
        try_faults(folder)
        blocks = try_documents(folder)
        try_gate(folder)
    print("; ".join(f"{a} {b}: {n}" for (a, b), n in sorted(met.items(), key=str)))
    often = [("readings", "reported"), ("readings", "in the rule's line"), ("a breach of", "a rule with keep-shifted"), ("a point", "with rows"), ("a point", "without"), ("refused", 11), ("columns", 0), ("columns", 1), ("columns", 2), ("refused", 4), ("refused", 9), ("refused", 10)]
    rare = [key for key in often if count >= 200 and met[key] < LEAST] + [("refused", n) for n in (1, 2, 3, 4, 5, 6, 7, 13, 14, 15) if not met["refused", n]]
    print(f"{count} rules over logs, {blocks} reports of RULES.md, {text.failures} differ", *(f"rare: {k}" for k in rare))
    sys.exit(text.failures > 0 or bool(rare))


if __name__ == "__main__":
    main()
