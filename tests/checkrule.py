#!/usr/bin/env python3
"""Runs the program that checks a rule file beside plain.py, and compares byte for byte.

    tools/build checkrule
    checkrule.py [--program PROGRAM] [--seed SEED] CASES

CASES accepted rules of 1 to 32 nodes are generated, and each is run whole, damaged in one or two bytes, in a window or in a field of
a keep-shifted, cut, and lengthened by a byte and by more. Before them come the empty file, a rule of 652 bytes and what it is at 651, 653, 654 and 2,000 bytes.
The default program is target/bin/checkrule. Exits with 1 on any difference, or where an answer or a rule of 32 nodes was met less than
once in 100 cases.
"""
import argparse
import collections
import pathlib
import random
import subprocess
import sys

import plain
import text

TOP = pathlib.Path(__file__).resolve().parent.parent
CASES_TO_A_MEETING = 100


def line(data):
    checked = plain.check(data)
    return "refused %d place %d\n" % checked if isinstance(checked, tuple) else f"rule ok reach {checked.reach[-1]}\n"


def compare(program, data, met):
    expected = line(data)
    done = subprocess.run([program], input=data, stdout=subprocess.PIPE, stderr=subprocess.STDOUT, timeout=60)
    printed = done.stdout.decode(errors="replace")
    if printed != expected or done.returncode:
        print(f"difference: {len(data)} bytes {data.hex()}\nprinted\n{printed}expected\n{expected}")
        sys.exit(1)
    met[" ".join(expected.split()[:2])] += 1


def damaged(rng, file):
    data = bytearray(file)
    for _ in range(rng.randint(1, 2)):
        data[rng.randrange(rng.choice((12, 12 + 4 * file[2], len(data))))] = rng.choice((0, 1, 2, 3, 4, 9, 15, 16, rng.randrange(256)))
    return bytes(data)


def rewindowed(rng, file):
    """The file with a word of a node's body set to a figure that windows stop at."""
    data, at = bytearray(file), 12 + 4 * file[2] + 16 * rng.randrange(file[2]) + 4 * rng.randrange(2)
    data[at:at + 4] = rng.choice((0, 604_799, 604_800, 604_801)).to_bytes(4, "little")
    return bytes(data)


def files(rng, tree, arities):
    """An accepted rule file, and what it may be mistaken for."""
    file = text.file_of(tree, arities)
    yield file
    yield damaged(rng, file)
    yield rewindowed(rng, file)
    if 15 in file[12:12 + 4 * file[2]:4]:
        yield text.reshifted(rng, file)
    yield file[:rng.randrange(len(file))]
    yield file + b"\0"
    yield file + rng.randbytes(rng.choice((1, 20, 700)))


def main():
    parser = argparse.ArgumentParser()
    parser.add_argument("--program", default=TOP / "target" / "bin" / "checkrule")
    parser.add_argument("--seed", type=int, default=1)
    parser.add_argument("cases", type=int)
    args = parser.parse_args()
    rng, met, nodes, shifts = random.Random(args.seed), collections.Counter(), collections.Counter(), 0
    most = (1, (), (0, [(0, 0)]))
    while text.size(most) < 32:
        most = 14, (most,), (0, 604_800)
    for n in (0, 651, 652, 653, 654, 2000):
        compare(args.program, (text.file_of(most, [1]) + bytes(2000))[:n], met)
    for _ in range(args.cases):
        maker = text.Maker(rng)
        tree = maker.tree(rng.choice((32, rng.randint(1, 32))))
        nodes[text.size(tree)] += 1
        for data in files(rng, tree, maker.arities):
            compare(args.program, data, met)
            shifts += 15 in data[12:12 + 4 * data[2]:4] if len(data) > 12 else 0
    print(f"{sum(met.values())} rule files compared, {nodes[32]} rules of 32 nodes, {shifts} files with keep-shifted; no difference")
    print("answers: " + ", ".join(f"{what} {n}" for what, n in sorted(met.items())))
    wanted = [met["rule ok"], nodes[32], shifts] + [met[f"refused {k}"] for k in range(1, 8)]
    if min(wanted) < args.cases // CASES_TO_A_MEETING:
        sys.exit("something was met too rarely")


if __name__ == "__main__":
    main()
