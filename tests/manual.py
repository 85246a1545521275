#!/usr/bin/env python3
"""Runs the commands of docs/MANUAL.md and README.md, and compares what they print with what stands below them; compiles the
C of the manual; and compares its tables with the header, the desk and the archive.

    tools/build
    manual.py [LOGS]   default: 100 logs of 200 events for the commands that go over many

A command that begins with `tools/build` or is `tools/test` isn't run again: it must be one that tools/test runs, or the test itself.
Exits with 1 on any difference.
"""
import os
import pathlib
import random
import re
import shutil
import struct
import subprocess
import sys
import tempfile

import text

TOP = text.TOP
EVENTS = 200
LARGER = 1.1  # how much larger than the manual says the archive may be, and how much smaller
ENV = {**os.environ, "CARGO_TARGET_DIR": str(TOP / "target" / "cargo"), "CARGO_NET_OFFLINE": "true"}
PROGRAMS = ("tools/", "cc ", "cd ", "echo ")


def run(command):
    done = subprocess.run(["sh", "-ec", command], cwd=TOP, env=ENV, capture_output=True, text=True, timeout=600)
    return done.returncode, done.stdout, done.stderr if done.returncode else ""


def by_gate(command):
    """What is left to run of a command, once what tools/test runs itself is taken out."""
    gate = (TOP / "tools" / "test").read_text()
    left = []
    for line in command.splitlines():
        part, _, rest = line.partition(" && ")
        if part == "tools/test":
            continue
        if part.startswith("tools/build "):
            names = part.split()[1:]
            ran = any(set(names) <= set(said.split()[1:]) for said in gate.splitlines() if said.startswith("tools/build "))
            text.same("tools/test runs it", ran, True, part)
            left += [rest] * bool(rest)
        else:
            left.append(line)
    return "\n".join(left)


def write_logs(folder, count):
    """Logs of openings and readings of 8 blocks, each as events end to end."""
    shutil.rmtree(folder, ignore_errors=True)
    folder.mkdir(parents=True)
    for k in range(count):
        rng, now, words = random.Random(k), 0, []
        for _ in range(EVENTS):
            now += rng.randrange(1, 90)
            rows = [(rng.randrange(2), rng.randrange(8)) for _ in range(rng.randrange(1, 3))]
            words += text.event_words((now, [r for r, _ in rows], [[v] for _, v in rows]))
        (folder / f"{k:05}.events").write_bytes(struct.pack(f"<{len(words)}I", *words))


def breaches(folder):
    """How many points of the logs are breached: an opening with no reading of its block in the last half hour."""
    count = 0
    for log in folder.glob("*.events"):
        words = struct.unpack(f"<{log.stat().st_size // 4}I", log.read_bytes())
        at, read = 0, {}
        while at < len(words):
            now, m = words[at], words[at + 1]
            rows = [(words[at + 2 + j], words[at + 2 + m + 4 * j]) for j in range(m)]
            read.update((block, now) for relation, block in rows if relation == 1)
            count += any(relation == 0 and now - read.get(block, -1801) > 1800 for relation, block in rows)
            at += 2 + 5 * m
    return count


def try_manual(page, logs):
    blocks = re.findall(r"^```(\w*)\n(.*?)^```\n", page, re.M | re.S)
    text.same("every block is of a kind that is tried", {kind for kind, _ in blocks}, {"sh", "text", "c"}, "MANUAL.md")
    ran = 0
    for (kind, block), (after, shown) in zip(blocks, blocks[1:] + [("", "")]):
        if kind == "sh":
            got = run(by_gate(block))
            ran += 1
            if after == "text":
                text.same("MANUAL.md", got, (0, shown, ""), block)
            elif "grep -c" in block:
                # the one command whose figures hang on the logs
                text.same("MANUAL.md", got, (0, f"0\n{breaches(logs)}\n", ""), block)
            else:
                text.same("MANUAL.md", got[0], 0, (block, got))
        elif kind == "c":
            flags = "-std=c99 -Wall -Wextra -pedantic -Werror -Iinclude -fsyntax-only -x c -".split()
            done = subprocess.run(["cc", *flags], input=block, cwd=TOP, capture_output=True, text=True)
            text.same("the manual's C", (done.returncode, done.stderr), (0, ""), block)
    reports = list(logs.glob("*.report"))
    text.same("a report for each log", len(reports), len(list(logs.glob("*.events"))), "MANUAL.md")
    text.same("each report is whole", all(r.read_text().splitlines()[-1].startswith("open ") for r in reports), True, "MANUAL.md")
    return ran


def table(page, head):
    """The rows of the table under a heading, each a list of cells."""
    part = page.split(f"\n## {head}\n")[1].split("\n## ")[0]
    rows = [line.strip("|").split("|") for line in part.splitlines() if line.startswith("|")]
    return [[cell.strip().strip("`") for cell in row] for row in rows[2:]]


def try_tables(page, folder):
    """The refusals: words of C, of the desk and of the manual; the limits: those of the header; the archive's size."""
    header = (TOP / "include" / "yokemango.h").read_text()
    (folder / "words.c").write_text(r'''
#include <stdio.h>
#include "yokemango.h"
int main(void)
{
    for (uint32_t k = 0; k < 22; k++)
        printf("%s\n", yokemango_refusal_words(k));
    return 0;
}
''')
    subprocess.run(["cc", f"-I{TOP}/include", "-o", folder / "words", folder / "words.c"], check=True)
    words = subprocess.run([folder / "words"], capture_output=True, text=True, check=True).stdout.splitlines()
    text.same("words of no refusal", [words[0], *words[20:]], ["no refusal"] + ["no such refusal"] * 2, "yokemango.h")
    desk = sys.modules["rules_run"].REASONS
    text.same("the desk's words", desk, {k: words[k] for k in desk}, "rules_run.py")
    text.same("the desk has the refusals of rules and events", set(desk) >= set(range(1, 17)), True, "rules_run.py")
    names = dict(re.findall(r"^    YOKEMANGO_REFUSED_(\w+) = (\d+)", header, re.M))
    rows = table(page, "Refusals")
    text.same("the manual's refusals", [(row[1], int(row[0]), row[3]) for row in rows], [(name, int(n), words[int(n)]) for name, n in names.items()], "MANUAL.md")
    text.same("Rust's names", [row[2] for row in rows], [row[1].title().replace("_", "") for row in rows], "MANUAL.md")
    text.same("causes are told", all(len(row) == 6 and row[5] for row in rows), True, "MANUAL.md")
    limits = re.findall(r"^#define YOKEMANGO_MAX_(\w+) (\d+)u", header, re.M)
    text.same("the manual's limits", [(row[1], row[2].replace(",", "")) for row in table(page, "Limits")], limits, "MANUAL.md")

    size = subprocess.run(["size", TOP / "target" / "staticlib" / "libyokemango.a"], capture_output=True, text=True, check=True)
    code, data, zeros = map(int, size.stdout.splitlines()[1].split()[:3])
    said = int(dict((row[0], row[1]) for row in table(page, "Memory"))["code and constants of the archive"].replace(",", ""))
    text.same("the archive's size", (said / LARGER <= code <= said * LARGER, data, zeros), (True, 0, 0), (code, said))


def try_readme(page):
    """Indented lines that begin with a program's name. Behind `$` stands what is printed below the command."""
    ran = 0
    for block in re.findall(r"(?:^    .*\n)+", page, re.M):
        lines = [line[4:] for line in block.splitlines()]
        if lines[0].startswith("$ "):
            command, shown = lines[0][2:], "".join(line + "\n" for line in lines[1:])
            done = subprocess.run(["sh", "-c", command], cwd=TOP, env=ENV, capture_output=True, text=True, timeout=600)
            text.same("README.md", done.stdout + done.stderr, shown, command)
            ran += 1
            continue
        for line in lines:
            if line.startswith(PROGRAMS):
                got = run(by_gate(line.split("  #")[0].strip()))
                text.same("README.md", got[0], 0, (line, got))
                ran += 1
    return ran


def main():
    count = int((sys.argv[1:] or ["100"])[0])
    for needed in ("staticlib/libyokemango.a", "bin/listing", "bin/checkrule"):
        if not (TOP / "target" / needed).exists():
            sys.exit(f"manual.py: target/{needed} isn't there; `tools/build` builds it")
    page, logs = (TOP / "docs" / "MANUAL.md").read_text(), TOP / "target" / "logs"
    with tempfile.TemporaryDirectory() as name:
        try_tables(page, pathlib.Path(name))
    write_logs(logs, count)
    ran = try_manual(page, logs)
    shutil.rmtree(logs)
    ran_readme = try_readme((TOP / "README.md").read_text())
    text.same("commands are found", ran >= 6 and ran_readme >= 4, True, (ran, ran_readme))
    print(f"{ran} blocks of commands of MANUAL.md over {count} logs, {ran_readme} commands of README.md, {text.failures} differ")
    sys.exit(text.failures > 0)


if __name__ == "__main__":
    main()
