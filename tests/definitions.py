#!/usr/bin/env python3
"""Computes the definitions of crates/meaning, and those of an image (#104), on generated rules and logs, and compares what they give with
plain.py.

    definitions.py [CASES [SEED]]    default: 60 cases, seed 1

A quarter as many cases are of rules that begin with a keep-shifted (#105), and four times as many lists of rows, in order and not, are
looked through too (#102). The checker itself computes each case, from the rule's bytes, the events' words and the notices' times to answers,
reported points with their rows, the open and kept figures, the latest known time and the image of what is stored; a case that differs is
refused. Rules of up to seven nodes, one in five damaged in a byte, and one in seven of those with a keep-shifted in that node; values of 0 to
2, or at the ends of what a word holds; lists of up to six events and notices, some of them to be refused; report buffers of 3 to 40 words.
Each image must be in form and be that of what is read in from it, and damaged in one way it must be out of form. Of crates/meaning,
crates/method and crates/image only the definitions are taken, without the proofs.
"""
import collections
import pathlib
import random
import re
import shutil
import subprocess
import sys
import tempfile

import plain

TOP = pathlib.Path(__file__).resolve().parent.parent
OPENED = """size time rows_at latest log_of word_at sizes_fit head_at body_at node_of node_at formula_at shape_fits range_fits times_child weigh_node checking
last_pairs consulted parent_of point_entries age_entries entries_of entries kept open_points is_event row_fits point_of report_words newly_settled
reported report admitted weighed crowded_at answer_on step stored_of image_of rule_words""".split()
OF_FORM = """word_at sizes_fit head_at body_at node_of node_at formula_at shape_fits range_fits times_child weigh_node checking parent_of held held_pairs until_count
wanted_from counts_stored count_before open_stored own_entries node_fits well_formed image_of rule_words rule_bytes read_in is_image""".split()
HEAD = """use Rattle.std.specs.Prelude.{ℕ, ◌≡◌, refl, cond, List, [], ◌∷◌, ◌++◌, length, replicate, Result, Ok, Err}
use Rattle.meaning.specs.Lists.{gather}
use Rattle.meaning.specs.Outcome.{Outcome, refused, given}
use Rattle.meaning.specs.Log.{Taken, size, time, rows_at, latest, log_of}
use Rattle.meaning.specs.RuleFile.{Accepted, word_at, sizes_fit, head_at, body_at, node_of, node_at, formula_at, shape_fits, range_fits, times_child, weigh_node, checking, pattern}
use Rattle.meaning.specs.Kept.{last_pairs, consulted, parent_of, point_entries, age_entries, entries_of, entries, kept, open_points}
use Rattle.meaning.specs.Event.{is_event, row_fits, point_of}
use Rattle.meaning.specs.Report.{Reported, report_words, row_words}
use Rattle.meaning.specs.LookUp.{look_up}
use Rattle.meaning.specs.Keeper.{Fed, event, notice, Taking, newly_settled, reported, report, admitted, weighed, crowded_at, grown, answer_on, answer, step}
use Rattle.method.specs.Stored.{stored_of, held, held_pairs}
use Rattle.method.specs.Counts.{until_count}
use Rattle.method.specs.Step.{wanted_from, counts_stored, count_before, open_stored}
use Rattle.method.specs.WellFormed.{own_entries, node_fits, well_formed}
use Rattle.compared.specs.Image.{image_of, rule_words, rule_bytes, read_in, is_image}

abbrev line_of : Reported → List ℕ
line_of e = 1 ∷ e.at.0 ∷ e.time.0 ∷ length e.rows ∷ row_words e

abbrev said : Outcome ℕ → List Reported → List ℕ
said (refused n p) es = 2 ∷ n ∷ p ∷ []
said (given n) es = gather line_of es

abbrev taking : ℕ → Fed → Taking
taking room f = record { fed = f; buffer = replicate room 0 }

abbrev listing : ℕ → List ℕ → List Taken → List Fed → List ℕ
listing room b es [] = 3 ∷ open_points b (log_of es) ∷ kept b (log_of es) ∷ (latest (log_of es)).0 ∷ image_of (stored_of b (log_of es))
listing room b es (f ∷ fs) = said (answer b es (taking room f)) (reported (log_of es) (log_of (grown b es f)) (pattern b)) ++ listing room b (step b es (taking room f)) fs

abbrev looked : Result ℕ ℕ → List ℕ
looked (Ok p) = 1 ∷ p ∷ []
looked (Err p) = 0 ∷ p ∷ []

-- whether words are in form, and the image of what is read in from them
abbrev again : List ℕ → List ℕ
again ws = cond (is_image ws) (1 ∷ image_of (read_in ws)) (0 ∷ [])

abbrev whole : ℕ → Outcome Accepted → List ℕ → List Fed → List ℕ
whole room (refused n p) b fs = 2 ∷ n ∷ p ∷ []
whole room (given a) b fs = 4 ∷ a.reach ∷ a.free ∷ listing room b [] fs
"""


def numbers(ws):
    return "(" + " ∷ ".join([str(w) for w in ws] + ["[]"]) + ")"


# What a word holds at its ends, and around the reading 0.
EDGES = (0, 1, 2 ** 31 - 1, 2 ** 31, 2 ** 31 + 1, 2 ** 32 - 2, 2 ** 32 - 1)


def rule_file(rng, values, shifts):
    """A rule's file and its relations' arities; constants are mostly among the values. One that shifts begins with a keep-shifted over an atom of two columns, often below an eventually."""
    arities = [2] if shifts else [rng.randint(0, 2) for _ in range(rng.randint(1, 3))]
    heads, bodies, free, pool = [], [], [], []

    def add(kind, left, right, mask, words, variables, used):
        heads.append(bytes([kind, left, right, mask]))
        bodies.append(b"".join(w.to_bytes(4, "little") for w in (list(words) + [0] * 4)[:4]))
        free.append(frozenset(variables))
        for x in used:
            pool.remove(x)
        pool.append(len(heads) - 1)

    def term(names):
        return (0, rng.choice(sorted(names))) if names and rng.random() < 0.7 else (1, rng.choice(values))

    def shift(s, t):
        """A k, as two's complement: one that brings a value of the first term to one of the second, one less or one more, or one that is small or at an end."""
        first, second = (word if constant else rng.choice(values) for constant, word in (s, t))
        k = second - first + rng.randint(-1, 1) if rng.random() < 0.6 else rng.choice((0, 1, -1, 2, -2, 250, -250, -2 ** 31, 2 ** 31 - 1))
        return min(max(k, -2 ** 31), 2 ** 31 - 1) % 2 ** 32

    def window(kind):
        c = rng.randint(0, 4)
        return (c, 0) if kind not in plain.FUTURE and rng.random() < 0.3 else (c, c + rng.randint(1, 5))

    def shifted(a):
        s = term(free[a])
        # mostly another variable than the first
        others = free[a] - {s[1]} if s[0] == 0 else free[a]
        t = term(others) if rng.random() < 0.7 else rng.choice((s, (1, 0), (1, 2 ** 31), (1, 2 ** 32 - 1)))
        add(15, a, 0, s[0] | t[0] << 1, (s[1], t[1], shift(s, t)), free[a], [a])

    if shifts:
        add(1, 0, 0, 0, (0, 1), (0, 1), [])
        shifted(0)
        if rng.random() < 0.4:
            add(14, 1, 0, 0, window(14), free[1], [1])
    limit = rng.randint(1, 3 if shifts else 5)
    while not pool or len(heads) < limit or len(pool) > 1:
        if not pool or (len(heads) < limit and rng.random() < 0.4):
            r = rng.randrange(len(arities))
            ts = [term(range(3)) for _ in range(arities[r])]
            add(1, r, 0, sum(t[0] << k for k, t in enumerate(ts)), [t[1] for t in ts], [t[1] for t in ts if not t[0]], [])
            continue
        if len(pool) > 1 and rng.random() < 0.6 or len(heads) >= limit:
            a, b = rng.sample(pool, 2)
            kind = rng.choice((2, 3, 5, 9, 10, 11, 12))
            fits = {2: True, 3: free[b] <= free[a], 5: free[a] == free[b]}.get(kind, free[a] <= free[b])
            if fits:
                union = free[a] | free[b] if kind == 2 else free[a] if kind in (3, 5) else free[b]
                add(kind, a, b, 0, window(kind) if kind > 8 else (), union, [a, b])
            continue
        a, kind = rng.choice(pool), rng.choice((4, 6, 7, 8, 13, 14, 15))
        if kind == 4:
            s, t = term(free[a]), term(free[a])
            add(4, a, rng.randint(0, 3), s[0] | t[0] << 1, (s[1], t[1]), free[a], [a])
        elif kind == 15:
            shifted(a)
        elif kind == 6:
            if free[a]:
                x = rng.choice(sorted(free[a]))
                add(6, a, 0, 0, (x,), free[a] - {x}, [a])
        else:
            add(kind, a, 0, 0, window(kind), free[a], [a])
    data = bytearray(bytes([1, len(arities), len(heads), 0]) + bytes(arities + [0] * (8 - len(arities))) + b"".join(heads) + b"".join(bodies))
    of_kind_15 = [x for x, head in enumerate(heads) if head[0] == 15]
    if of_kind_15 and rng.random() < 0.15:
        # another kind, a right, a mask bit above 1, a term that is no variable or isn't free, a word 3
        head, body = 12 + 4 * of_kind_15[0], 12 + 4 * len(heads) + 16 * of_kind_15[0]
        at, value = rng.choice(((head, 14), (head, 16), (head + 2, 1), (head + 3, 4), (head + 3, 128), (body, 4), (body + 4, 3), (body + 12, 1), (body + 15, 128)))
        data[at] = value
    elif rng.random() < 0.2:
        data[rng.randrange(len(data))] = rng.choice((0, 1, 2, 3, 4, 9, 15, 16, 255))
    return bytes(data), arities


def fed(taking):
    kind, what = taking
    return f"notice {what}" if kind == "notice" else f"event {numbers(what)}"


def event(rng, arities, values, rows, now):
    m = rng.choice(rows)
    relations = [rng.randrange(len(arities)) for _ in range(m)]
    rows = [[rng.choice(values) for _ in range(arities[r])] + [0] * (4 - arities[r]) for r in relations]
    words = [now, m] + relations + sum(rows, [])
    fault = rng.random()
    if fault < 0.04:
        words[0] = max(0, now - 5)
    elif fault < 0.07:
        words = words[:rng.randrange(len(words))]
    elif fault < 0.10 and m:
        words[2 + rng.randrange(m)] = len(arities)
    elif fault < 0.13 and m:
        words[-1] = 1
    return words


def case(rng, shifts):
    """A rule's file, takings, each an event or a notice, and the words of their buffers. Notices are often at the end of a window that
    began with the last event, or a second before it; of a rule that waits for later points the last is often a notice past its reach."""
    values = rng.sample(EDGES, 3) if rng.random() < (0.5 if shifts else 0.2) else range(3)
    file, arities = rule_file(rng, values, shifts)
    rule = plain.check(file)
    ends = [] if isinstance(rule, tuple) else [n.words[1] for n in rule.nodes if n.kind in plain.FUTURE]
    now, last, takings = rng.randint(0, 3), 0, []
    for _ in range(rng.randint(1, 5 if ends else 6)):
        if rng.random() < (0.4 if ends else 0.2):
            end = last + rng.choice(ends or [5])
            late = rng.choice((now - 1, last - 1, last, now, now + 3, end - 1, end, end, end + 9))
            takings.append(("notice", max(0, late)))
            now = max(now, late)
        else:
            takings.append(("event", event(rng, arities, values, (1, 3, 4) if shifts else (0, 1, 1, 2, 3), now)))
            last = now
            now += rng.choice((0, 1, 1, 2, 3, 6))
    if ends and rng.random() < 0.7:
        takings.append(("notice", now + rule.reach[-1]))
    return file, takings, 40 if shifts else rng.choice((3, 12, 40, 40, 40))


def look_case(rng):
    """The lowest free variable, a row, and rows of its width: in order, or with two of them swapped, or in no order."""
    width, high, lowest = rng.randint(1, 5), rng.choice((1, 2, 4294967295)), rng.randint(0, 4)
    rows = sorted({tuple(rng.randint(0, high) for _ in range(width)) for _ in range(rng.randint(0, 6))}, key=lambda row: plain.place(row, lowest))
    how = rng.randrange(3)
    if how == 1 and len(rows) > 1:
        i, j = rng.sample(range(len(rows)), 2)
        rows[i], rows[j] = rows[j], rows[i]
    if how == 2:
        rows += rng.choices(rows, k=2) if rows else []
        rng.shuffle(rows)
    return lowest, rng.choice(rows) if rows and rng.random() < 0.6 else tuple(rng.randint(0, high) for _ in range(width)), rows


def damaged(rng, rule, image):
    """An image in which one thing is wrong, and what."""
    kept, retained = image[3], image[4]
    owners = [image[5 + 3 * k:8 + 3 * k] for k in range(kept)]
    values = [image[5 + 3 * kept + 4 * k:9 + 3 * kept + 4 * k] for k in range(kept)]
    times, file = image[5 + 7 * kept:5 + 7 * kept + retained], image[5 + 7 * kept + retained:]
    sizes = image[:3]
    of_entries = ["an owner of no node", "another mark", "an entry twice"] if kept else []
    of_entries += ["an entry out of its place"] if kept > 1 else []
    of_entries += ["a value that isn't free"] if any(set(range(4)) - rule.free[o[0]] for o in owners) else []
    others = ["cut short", "a word too long", "another version", "a size too large", "a refused rule"]
    others += ["a time after the latest"] if retained and sizes[2] < 4294967295 else []
    how = rng.choice(of_entries if of_entries and rng.random() < 0.8 else others)
    k = rng.randrange(kept) if kept else 0
    if how == "cut short":
        return image[:rng.randrange(len(image))], how
    if how == "a word too long":
        return image + [rng.choice((0, 7))], how
    if how == "a size too large":
        at = rng.choice((1, 3, 4))
        return image[:at] + [rng.choice((10000001, 4294967295))] + image[at + 1:], how
    if how == "another version":
        sizes[0] = rng.choice((0, 2, 257))
    elif how == "a refused rule":
        file[rng.randrange(3)] ^= 0xff000000
    elif how == "an owner of no node":
        owners[k][0] = rng.choice((len(rule.nodes), 32, 4294967295))
    elif how == "another mark":
        owners[k] = [max(0, owners[k][0] - 1), owners[k][1] + 2, owners[k][2]]
    elif how == "an entry twice":
        owners.insert(k, owners[k])
        values.insert(k, values[k])
    elif how == "an entry out of its place":
        for part in (owners, values):
            part.insert(0, part.pop())
    elif how == "a time after the latest":
        times[-1] = sizes[2] + 1
    else:
        k, v = rng.choice([(k, v) for k, o in enumerate(owners) for v in range(4) if v not in rule.free[o[0]]])
        values[k][v] = 1
    return sizes + [len(owners), len(times)] + sum(owners, []) + sum(values, []) + times + file, how


def expected(file, takings, room, met):
    """What the definitions should give, and the rule and the image that it ends in, if there is one."""
    rule = plain.check(file)
    if isinstance(rule, tuple):
        met["refusal of rule", rule[0]] += 1
        return [2, *rule], rule, None
    for n in rule.nodes:
        met["kind", n.kind] += 1
    out, log = [4, rule.reach[-1], sum(1 << v for v in rule.free[-1])], plain.Log(rule, [])
    for kind, what in takings:
        answer, points = (plain.notice if kind == "notice" else plain.take)(rule, log, what, room)
        if points is None:
            met[f"refusal of {kind}", answer[0]] += 1
            out += [2, *answer]
            continue
        log = answer
        for i, t, rows in points:
            met[f"points by {kind}", "with rows" if rows else "without"] += 1
            out += [1, i, t, len(rows)] + [v for r in rows for v in r]
    image = plain.image(file, log)
    return out + [3, log.open(), log.kept(), log.latest or 0] + image, rule, image


def image_definitions():
    """Those of crates/image, with the one of crates/rowset that they use in its place: that crate's other ones need its code."""
    definitions = (TOP / "crates" / "image" / "specs" / "Image.antt").read_text()
    rows = (TOP / "crates" / "rowset" / "specs" / "Rows.antt").read_text()
    row_at = re.search(r"^abbrev pub row_at : .*\nrow_at .*\n", rows, re.MULTILINE).group()
    used = re.search(r"^use Rattle\.rowset\.specs\.Rows\.\{row_at\}\n", definitions, re.MULTILINE)
    return definitions[:used.start()] + "\n" + row_at + definitions[used.end():]


def main():
    count, seed = (int(a) for a in (sys.argv[1:] + ["60", "1"][len(sys.argv) - 1:]))
    rng, shifting, damage, met, text = random.Random(seed), random.Random(seed), random.Random(seed), collections.Counter(), HEAD
    cases = count + count // 4
    for k in range(cases):
        file, takings, room = case(rng, False) if k < count else case(shifting, True)
        want, rule, image = expected(file, takings, room, met)
        text += f"\ncase_{k} : whole {room} (checking {numbers(file)}) {numbers(file)} ({' ∷ '.join([fed(t) for t in takings] + ['[]'])}) ≡ {numbers(want)}\n"
        text += f"unfolding {' '.join(OPENED)}\ncase_{k} = refl\n"
        if image:
            other, how = damaged(damage, rule, image)
            met["images", "with entries" if image[3] else "without"] += 1
            met["images out of form:", how] += 1
            for name, words, should in (("form", image, [1] + image), ("damaged", other, [0])):
                text += f"\n{name}_{k} : again {numbers(words)} ≡ {numbers(should)}\nunfolding {' '.join(OF_FORM)}\n{name}_{k} = refl\n"
    for k in range(4 * count):
        lowest, row, rows = look_case(rng)
        there, place = plain.look(row, rows, lowest)
        in_order = rows == sorted(rows, key=lambda row: plain.place(row, lowest))
        met["looked for", ("there" if there else "not there") + ("" if in_order else ", not in order")] += 1
        met["looked for", "not there, but behind a larger one"] += not there and row in rows
        text += f"\nlook_{k} : looked (look_up {lowest} {numbers(row)} ({' ∷ '.join([numbers(r) for r in rows] + ['[]'])})) ≡ {numbers((int(there), place))}\nlook_{k} = refl\n"
    with tempfile.TemporaryDirectory() as folder:
        top = pathlib.Path(folder)
        shutil.copytree(TOP / "crates" / "meaning", top / "crates" / "meaning", ignore=shutil.ignore_patterns("must-fail", "proofs", "out"))
        shutil.copytree(TOP / "crates" / "method", top / "crates" / "method", ignore=shutil.ignore_patterns("must-fail", "proofs", "out"))
        for part in ("src", "specs"):
            (top / "crates" / "compared" / part).mkdir(parents=True)
        (top / "crates.txt").write_text("meaning:\nmethod: meaning\ncompared: method meaning\n")
        (top / "crates" / "compared" / "src" / "lib.rt").write_text("// Cases that the definitions compute.\n#![tactic(auto)]\n")
        (top / "crates" / "compared" / "specs" / "Lib.antt").write_text("pub mod Image\npub mod Cases\n")
        (top / "crates" / "compared" / "specs" / "Image.antt").write_text(image_definitions())
        (top / "crates" / "compared" / "specs" / "Cases.antt").write_text(text)
        run = subprocess.run(["rt", "check"], cwd=top / "crates" / "compared", stdout=subprocess.PIPE, stderr=subprocess.STDOUT, text=True)
    wrong = sorted(set(re.findall(r"error: `((?:case|form|damaged|look)_\d+)`", run.stdout)), key=lambda c: (c.split("_")[0], int(c.split("_")[1])))
    for key in sorted(met, key=str):
        print(f"{key[0]} {key[1]}: {met[key]}", end="; ")
    print(f"\n{cases} rules with logs and images, and {4 * count} lists looked through, computed by the definitions, {len(wrong)} differ", *wrong)
    if run.returncode != 0:
        print("\n".join(line[:300] for line in run.stdout.split("\n") if "error" in line)[:4000])
        sys.exit(1)


if __name__ == "__main__":
    main()
