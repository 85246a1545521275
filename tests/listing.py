#!/usr/bin/env python3
"""Runs the listing program on files with known output and on generated inputs beside plain.py, and compares byte for byte.

    tools/build listing
    listing.py [--program PROGRAM] [--seed SEED] CASES [FOLDER ..]

First inputs at the limits: rules of 32 nodes, 652 and 653 bytes, events of 32 and 33 rows, 400 events, reports of 4,326 words, and
a small input cut at every byte. Then a live log: each event is sent once the answer before it has come, and each byte of an event in
turn is the last that is sent before a pause. Then inputs of many blocks, from a file and through a pipe. Then CASES inputs are generated: rules of up to seven nodes (one in five damaged in a byte) with up to
40 events, one in five with a keep-shifted that the values just meet or just miss, then in part cut, lengthened by stray bytes, given a wrong length word, or replaced by garbage. In each FOLDER every NAME.in
is run and what is printed compared with NAME.out103, where there is one, else with NAME.out. The default program is target/bin/listing. Exits with 1 on any difference, or where
one of the ways to end a run was met less than once in 200 cases.
"""
import argparse
import array
import collections
import fcntl
import pathlib
import random
import re
import select
import struct
import subprocess
import sys
import tempfile
import termios
import time

import definitions
import plain
import text

TOP = pathlib.Path(__file__).resolve().parent.parent
CASES_TO_A_MEETING = 200
# Seconds after which a live log counts as not answered.
PATIENCE = 30


def log(rng, arities, values=None):
    """Events end to end; where many, their rows are few and far between or many at once. Their values are among those given, or small."""
    now, out = rng.choice((0, 3, 2**32 - 60)), []
    most = rng.choice((2, 4, 32))
    for _ in range(rng.randint(0, rng.choice((6, 12, 40)))):
        m = rng.randint(0, most)
        relations = [rng.randrange(len(arities)) for _ in range(m)]
        rows = [[rng.choice(values) if values else rng.randint(0, rng.choice((2, 40))) for _ in range(arities[r])] + [0] * (4 - arities[r]) for r in relations]
        words = [now, m] + relations + sum(rows, [])
        fault = rng.random()
        if fault < 0.04:
            words[0] = max(0, now - 5)
        elif fault < 0.07 and m:
            words[2 + rng.randrange(m)] = len(arities)
        elif fault < 0.10 and m:
            words[-1] = 1
        out.append(struct.pack(f"<{len(words)}I", *words))
        now = min(now + rng.choice((0, 0, 1, 1, 2, 3, 6, 9)), 2**32 - 1)
    return b"".join(out)


def generated(rng):
    """What was done to the input, and its bytes."""
    shifts = rng.random() < 0.2
    values = rng.sample(definitions.EDGES, 3) if shifts and rng.random() < 0.7 else range(3)
    file, arities = definitions.rule_file(rng, values, shifts)
    events = log(rng, arities, values if shifts else None)
    whole = struct.pack("<I", len(file)) + file + events
    how = rng.choice(("whole",) * 5 + ("cut in the rule", "cut in the events", "stray bytes", "33 rows", "length", "garbage"))
    if how == "cut in the rule":
        whole = whole[:rng.randrange(4 + len(file))]
    elif how == "cut in the events":
        whole = whole[:rng.randint(4 + len(file), len(whole))]
    elif how == "stray bytes":
        whole += rng.randbytes(rng.randint(1, 7))
    elif how == "33 rows":
        whole += struct.pack("<II", 2**32 - 1, rng.choice((33, 34, 2**32 - 1))) + rng.randbytes(rng.choice((0, 100, 700)))
    elif how == "length":
        length = rng.choice((0, 1, 11, len(file) - 1, len(file) + 1, 652, 653, 2**31, 2**32 - 1))
        whole = struct.pack("<I", length) + whole[4:]
    elif how == "garbage":
        whole = rng.randbytes(rng.choice((0, 1, 3, 4, 5, 40, 700, 3000)))
        if rng.random() < 0.5:
            whole = struct.pack("<I", rng.choice((12, 32, 72, 652))) + bytes([1, 2, 3, 0]) + whole
    return how, whole


def event(time, rows):
    """An event's bytes; each row is a relation number and its values."""
    words = [time, len(rows)] + [r for r, _ in rows] + [w for _, values in rows for w in (list(values) + [0] * 4)[:4]]
    return struct.pack(f"<{len(words)}I", *words)


def atom(values):
    return 1, (), (0, [(0, k) for k in range(values)])


def chain(tree, kind, window, nodes):
    """The tree below so many nodes of one kind that there are `nodes` in all."""
    while text.size(tree) < nodes:
        tree = kind, (tree,), window
    return tree


def limits(rng):
    """What each input reaches, and its bytes."""
    small = text.file_of(atom(1), [1])
    most = text.file_of(chain(atom(1), 13, (0, 5), 32), [1])
    days = b"".join(event(20 * k, [(0, [k % 7])]) for k in range(8))
    yield "32 nodes", struct.pack("<I", 652) + most + days
    yield "653 bytes", struct.pack("<I", 653) + most + b"\0" + days
    yield "651 bytes", struct.pack("<I", 651) + most[:651] + days
    for _ in range(20):
        maker = text.Maker(rng)
        maker.early = 0
        tree = maker.tree(32)
        if text.size(tree) == 32:
            yield "32 nodes", struct.pack("<I", 652) + text.file_of(tree, maker.arities) + b"".join(event(9 * k, []) for k in range(4))
    for m in (31, 32, 33):
        rows = [(0, [k]) for k in range(m)]
        yield f"{m} rows", struct.pack("<I", 32) + small + event(1, rows) + event(2, rows[:2])
    yield "400 events", struct.pack("<I", 32) + small + b"".join(event(k // 3, [(0, [2**32 - 1 - 997 * k])] * (k % 3)) for k in range(400))

    # 33 points of 32 rows of 4 values in one report: what is before a point that eventually [0, 1000) reaches from each
    late = text.file_of((7, ((14, (atom(4),), (0, 1000)),), (0, 0)), [4])
    rows = [(0, [7, 2**32 - 1, k // 4, 31 - k]) for k in range(32)]
    events = [event(10 * i, rows if i == 32 else []) for i in range(33)] + [event(1320, [])]
    yield "4,326 words", struct.pack("<I", len(late)) + late + b"".join(events)
    longest = [(0, [2**32 - 1] * 3 + [2**32 - 1 - k]) for k in range(32)]
    again = [event(10**9 + 2000 * k + 10 * i, longest if i == 32 else []) for k in range(4) for i in range(33)] + [event(2**32 - 1, [])]
    yield "4,326 words, four times", struct.pack("<I", len(late)) + late + b"".join(again)

    whole = struct.pack("<I", 32) + small + event(5, [(0, [10])]) + event(6, [(0, [99]), (0, [100])])
    for n in range(len(whole) + 1):
        yield "cut at every byte", whole[:n]


def run(program, data):
    """What the program prints. It ends by itself, whatever it is fed."""
    done = subprocess.run([program], input=data, stdout=subprocess.PIPE, stderr=subprocess.STDOUT, timeout=60)
    return done.stdout if done.returncode == 0 else done.stdout + b"ended with %d\n" % done.returncode


class Live:
    """The listing program on a log that isn't there yet. What it prints has to come by itself, while its input stays open."""

    def __init__(self, program):
        self.process = subprocess.Popen([program], stdin=subprocess.PIPE, stdout=subprocess.PIPE, bufsize=0)
        self.printed = b""

    def send(self, data):
        self.process.stdin.write(data)

    def read(self):
        """Waits until the program has read all that was sent."""
        unread, until = array.array("i", [1]), time.monotonic() + PATIENCE
        while unread[0]:
            if time.monotonic() > until:
                sys.exit(f"live log: {unread[0]} bytes stay unread")
            fcntl.ioctl(self.process.stdin, termios.FIONREAD, unread)

    def answered(self, n):
        """Whether n bytes are printed in time."""
        until = time.monotonic() + PATIENCE
        while len(self.printed) < n and select.select([self.process.stdout], [], [], max(0, until - time.monotonic()))[0]:
            more = self.process.stdout.read(65536)
            if not more:
                break
            self.printed += more
        return len(self.printed) >= n

    def end(self):
        """All that it printed, once its input has ended."""
        self.process.stdin.close()
        while more := self.process.stdout.read(65536):
            self.printed += more
        self.process.stdout.close()
        self.process.wait(PATIENCE)
        return self.printed


def live(program):
    """A live log: how many events were answered before the next was sent."""
    head = struct.pack("<I", 32) + text.file_of(atom(1), [1])
    rows = [(0, [k]) for k in range(32)]
    events = [event(k // 3, rows[:k % 7]) for k in range(40)] + [event(3, []), event(30, [(1, [5])]), event(30, rows)]
    whole = event(60, [(0, [8]), (0, [2**32 - 1])])
    parted = [(whole, cut) for cut in range(1, len(whole))]
    log = Live(program)
    sent, expected = b"", b"rule ok reach 0\n"
    for data, cut in [(head, 0)] + [(e, 0) for e in events] + parted:
        if cut:
            log.send(data[:cut])
            log.read()
            if select.select([log.process.stdout], [], [], 0)[0]:
                sys.exit(f"live log: an answer before the event is whole, {cut} bytes of {len(data)}")
        log.send(data[cut:])
        sent += data
        # without the last line, which only the end of input prints
        expected = plain.listing(sent).encode().rsplit(b"\n", 2)[0] + b"\n"
        if not log.answered(len(expected)):
            sys.exit(f"live log: no answer in {PATIENCE} s to {data.hex()}, with {cut} bytes of it sent before the others")
        if log.printed != expected:
            differ("live log", sent, log.printed, expected)
    if log.end() != plain.listing(sent).encode():
        differ("live log, at its end", sent, log.printed, plain.listing(sent).encode())
    return len(events), len(parted)


def many_blocks(program, rng):
    """Inputs of many blocks, from a file, through a pipe, and through one in parts of other lengths."""
    head = struct.pack("<I", 32) + text.file_of(atom(1), [1])
    sizes = {"8 bytes each": [0] * 20_000, "648 bytes each": [32] * 800, "any size": [rng.randint(0, 32) for _ in range(3_000)]}
    for what, counts in sizes.items():
        data, lines = [head], ["rule ok reach 0"]
        for k, m in enumerate(counts):
            values = [rng.randrange(40) for _ in range(m)]
            data.append(event(k, [(0, [v]) for v in values]))
            lines.append(f"point {k} time {k} rows {len(set(values))}")
            lines += map(str, sorted(set(values)))
        data, expected = b"".join(data), "\n".join(lines + ["open 0 kept 0", ""]).encode()
        with tempfile.TemporaryFile() as file:
            file.write(data)
            file.seek(0)
            by_file = subprocess.run([program], stdin=file, stdout=subprocess.PIPE, timeout=60).stdout
        parts = subprocess.Popen([sys.executable, "-c", PARTS], stdin=subprocess.PIPE, stdout=subprocess.PIPE)
        with subprocess.Popen([program], stdin=parts.stdout, stdout=subprocess.PIPE) as by_parts:
            parts.stdout.close()
            parts.stdin.write(data)
            parts.stdin.close()
            printed = by_parts.stdout.read()
        parts.wait(PATIENCE)
        for how, got in ("a file", by_file), ("a pipe", run(program, data)), ("a pipe, in parts", printed):
            if got != expected:
                sys.exit(f"difference: many blocks, {what}, from {how}")
        yield len(counts)


# Copies its input to its output, in parts whose lengths go round.
PARTS = """
import os, sys
data = sys.stdin.buffer.read()
at, k = 0, 0
while at < len(data):
    at += os.write(1, data[at:at + (1, 7, 649, 4096, 65537)[k % 5]])
    k += 1
"""


def differ(what, data, printed, expected):
    print(f"difference: {what}\ninput {data.hex()}\nprinted\n{printed.decode(errors='replace')}expected\n{expected.decode()}")
    sys.exit(1)


def compare(program, what, data):
    expected, printed = plain.listing(data).encode(), run(program, data)
    if printed != expected:
        differ(what, data, printed, expected)
    return expected


def main():
    parser = argparse.ArgumentParser()
    parser.add_argument("--program", default=TOP / "target" / "bin" / "listing")
    parser.add_argument("--seed", type=int, default=1)
    parser.add_argument("cases", type=int)
    parser.add_argument("folders", nargs="*", type=pathlib.Path)
    args = parser.parse_args()
    met, lines, shifts, rng = collections.Counter(), collections.Counter(), collections.Counter(), random.Random(args.seed)
    files = sorted(f for folder in args.folders for f in folder.glob("*.in"))
    if args.folders and not files:
        sys.exit("no NAME.in in the folders")
    for file in files:
        newer = file.with_suffix(".out103")
        data, expected = file.read_bytes(), (newer if newer.exists() else file.with_suffix(".out")).read_bytes()
        printed = run(args.program, data)
        if printed != expected:
            differ(file.name, data, printed, expected)
    at_limits = collections.Counter()
    for what, data in limits(rng):
        compare(args.program, what, data)
        at_limits[what] += 1
    answered, parted = live(args.program)
    blocks = sum(many_blocks(args.program, random.Random(args.seed)))
    for k in range(args.cases):
        how, data = generated(rng)
        expected = compare(args.program, f"case {k} of seed {args.seed}, {how}", data)
        met[how] += 1
        file = plain.split(data)[0]
        rule = plain.check(file) if file is not None else (1, 0)
        if not isinstance(rule, tuple) and any(n.kind == plain.SHIFTED for n in rule.nodes):
            shifts["with rows" if re.search(rb" rows [1-9]", expected) else "without"] += 1
        for line in expected.decode().split("\n"):
            words = line.split()
            if words:
                lines[" ".join(words[:2]) if words[0] == "refused" else words[0] if words[0].isalpha() else "row"] += 1
    print(f"{len(files)} files and {args.cases} generated inputs compared; no difference")
    print("limits: " + ", ".join(f"{what} {n}" for what, n in sorted(at_limits.items())))
    print(f"live log: {answered + parted} events answered before the next was sent, {parted} of them sent in two parts")
    print(f"many blocks: {blocks} events, each from a file and twice through a pipe")
    print("inputs: " + ", ".join(f"{how} {n}" for how, n in sorted(met.items())))
    print("lines: " + ", ".join(f"{what} {n}" for what, n in sorted(lines.items())))
    print("rules with keep-shifted: " + ", ".join(f"{what} {n}" for what, n in sorted(shifts.items())))
    wanted = [shifts["with rows"], shifts["without"]] + [lines[what] for what in ("point", "row", "open", "refused 1", "refused 4", "refused 9", "refused 10", "refused 11", "refused 13")]
    if min(wanted + list(met.values()), default=0) < args.cases // CASES_TO_A_MEETING:
        sys.exit("something was met too rarely")


if __name__ == "__main__":
    main()
