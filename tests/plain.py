#!/usr/bin/env python3
"""A plain evaluator of 01, of the clock notices of request 101, of the looking up of request 102, of the order of request 103, of the
images of request 104 and of the shifted comparison of request 105, written from their text alone: it holds the whole log and works every answer out from the definitions.

    plain.py < INPUT     the listing of a rule and its events
    plain.py FILE.in ..  compares the listing of each FILE.in with FILE.out
"""
import functools
import struct
import sys

LONGEST, MOST_ROWS, MOST_OPEN, MOST_KEPT, MOST_POINTS = 604_800, 32, 32, 512, 10_000_000
ATOM, AND, ANDNOT, KEEP, OR, EXISTS, PREVIOUS, NEXT, SINCE, NOTSINCE, UNTIL, NOTUNTIL, ONCE, EVENTUALLY, SHIFTED = range(1, 16)
FUTURE = (UNTIL, NOTUNTIL, EVENTUALLY)
PAST = (SINCE, NOTSINCE, ONCE)
COMPARING = (KEEP, SHIFTED)
WINDOWED = range(PREVIOUS, EVENTUALLY + 1)


class Node:
    def __init__(self, kind, left, right, mask, words):
        self.kind, self.left, self.right, self.mask, self.words = kind, left, right, mask, words
        self.children = {ATOM: ()}.get(kind, (left, right) if kind in (AND, ANDNOT, OR, SINCE, NOTSINCE, UNTIL, NOTUNTIL) else (left,))


class Rule:
    def __init__(self, data):
        self.relations, count = data[1], data[2]
        self.arities = list(data[4:12])
        bodies = 12 + 4 * count
        self.nodes = [Node(*data[12 + 4 * x:16 + 4 * x], struct.unpack_from("<4I", data, bodies + 16 * x)) for x in range(count)]
        self.free, self.reach = [], []

    def terms(self, x):
        n = self.nodes[x]
        return [("c" if n.mask >> k & 1 else "v", n.words[k]) for k in range(self.arities[n.left] if n.kind == ATOM else 2)]


def check(data):
    """(number, place), or the rule."""
    if len(data) < 12:
        return 1, 0
    if data[0] != 1:
        return 2, 0
    relations, count = data[1], data[2]
    if not 1 <= relations <= 8 or not 1 <= count <= 32 or data[3] or any(a > 4 or (k >= relations and a) for k, a in enumerate(data[4:12])):
        return 3, 0
    if len(data) != 12 + 20 * count:
        return 1, 0
    rule = Rule(data)
    for x, n in enumerate(rule.nodes):
        k, w = n.kind, n.words
        if not 1 <= k <= 15:
            return 4, x
        if k == ATOM:
            if n.left >= relations or n.right:
                return 4, x
            terms = rule.arities[n.left]
        else:
            if any(c >= x for c in n.children):
                return 4, x
            terms = 2 if k in COMPARING else 0
            if k == KEEP and n.right > 3 or k in (EXISTS, PREVIOUS, NEXT, ONCE, EVENTUALLY, SHIFTED) and n.right:
                return 4, x
        used = 3 if k == SHIFTED else terms if k in (ATOM, KEEP) else 1 if k == EXISTS else 2 if k in WINDOWED else 0
        if n.mask >> terms or any(w[used:]) or any(w[j] > 3 and not n.mask >> j & 1 for j in range(terms)) or k == EXISTS and w[0] > 3:
            return 4, x
        if k in WINDOWED:
            c, d = w[0], w[1]
            if (c >= LONGEST if d == 0 else not c < d <= LONGEST) or k in FUTURE and d == 0:
                return 5, x
        f = [rule.free[c] for c in n.children]
        variables = {v for t, v in rule.terms(x) if t == "v"} if k == ATOM or k in COMPARING else set()
        if k == ANDNOT and not f[1] <= f[0] or k in COMPARING and not variables <= f[0] or k == OR and f[0] != f[1] or k == EXISTS and w[0] not in f[0] \
                or k in (SINCE, NOTSINCE, UNTIL, NOTUNTIL) and not f[0] <= f[1]:
            return 6, x
        rule.free.append(variables if k == ATOM else f[0] | f[1] if k == AND else f[0] - {w[0]} if k == EXISTS else f[1] if k in (SINCE, NOTSINCE, UNTIL, NOTUNTIL) else f[0])
        rule.reach.append(max([rule.reach[c] for c in n.children], default=0) + (w[1] if k in FUTURE else 0))
    for x in range(count - 1):
        if sum(n.children.count(x) for n in rule.nodes) != 1:
            return 7, x
    return rule


def inside(n, t):
    c, d = n.words[0], n.words[1]
    return c <= t and (d == 0 or t < d)


def compare(how, a, b):
    return (a == b, a != b, a < b, a >= b)[how]


def signed(word):
    """The number of which a word is the two's complement."""
    return word - 2 ** 32 if word >= 2 ** 31 else word


class Log:
    """A rule over what was accepted, in order: a point is (time, rows), a clock notice is (time, None). Definition 2, settled, kept."""

    def __init__(self, rule, accepted):
        self.rule, self.accepted = rule, accepted
        self.points = [(time, rows) for time, rows in accepted if rows is not None]
        self.size = len(self.points)
        # the latest known time, of a point or a notice; None before any
        self.latest = accepted[-1][0] if accepted else None
        self.vals = functools.lru_cache(None)(self.vals_)
        self.settled = functools.lru_cache(None)(self.settled_)

    def time(self, i):
        return self.points[i][0]

    def has(self, x, k, v):
        return frozenset((a, b) for a, b in v if a in self.rule.free[x]) in self.vals(x, k)

    def vals_(self, x, i):
        """The valuations of node x at point i, each a frozenset of (variable, value)."""
        n, rule, out = self.rule.nodes[x], self.rule, set()
        k = n.kind
        if k == ATOM:
            terms = rule.terms(x)
            for relation, values in self.points[i][1]:
                v = {}
                if relation == n.left and all(t[1] == c if t[0] == "c" else v.setdefault(t[1], c) == c for t, c in zip(terms, values)):
                    out.add(frozenset(v.items()))
        elif k == AND:
            for u in self.vals(n.left, i):
                for w in self.vals(n.right, i):
                    both = dict(u)
                    if all(both.setdefault(a, b) == b for a, b in w):
                        out.add(frozenset(both.items()))
        elif k == ANDNOT:
            out = {u for u in self.vals(n.left, i) if not self.has(n.right, i, u)}
        elif k in COMPARING:
            for u in self.vals(n.left, i):
                first, second = (dict(u)[y[1]] if y[0] == "v" else y[1] for y in rule.terms(x))
                if first + signed(n.words[2]) < second if k == SHIFTED else compare(n.right, first, second):
                    out.add(u)
        elif k == OR:
            out = self.vals(n.left, i) | self.vals(n.right, i)
        elif k == EXISTS:
            out = {frozenset(p for p in u if p[0] != n.words[0]) for u in self.vals(n.left, i)}
        elif k == PREVIOUS:
            out = self.vals(n.left, i - 1) if i > 0 and inside(n, self.time(i) - self.time(i - 1)) else set()
        elif k == NEXT:
            out = self.vals(n.left, i + 1) if i + 1 < self.size and inside(n, self.time(i + 1) - self.time(i)) else set()
        elif k in PAST:
            for j in range(i + 1):
                if inside(n, self.time(i) - self.time(j)):
                    out |= self.lasting(n, j, range(j + 1, i + 1))
        else:
            for j in range(i, self.size):
                if inside(n, self.time(j) - self.time(i)):
                    out |= self.lasting(n, j, range(i, j))
        return frozenset(out)

    def lasting(self, n, j, between):
        """Right's valuations at j for which left holds (is denied, is always true) at every point between."""
        if n.kind in (ONCE, EVENTUALLY):
            return self.vals(n.left, j)
        wanted = n.kind in (SINCE, UNTIL)
        return {u for u in self.vals(n.right, j) if all(self.has(n.left, k, u) == wanted for k in between)}

    def settled_(self, x, i):
        n = self.rule.nodes[x]
        if i >= self.size:
            return False
        if n.kind == ATOM:
            return True
        if n.kind == PREVIOUS:
            return i == 0 or self.settled(n.left, i - 1)
        if n.kind == NEXT:
            return self.settled(n.left, i + 1)
        if n.kind in PAST:
            return all(self.settled(c, j) for c in n.children for j in range(i + 1))
        if n.kind in FUTURE:
            end = self.time(i) + n.words[1]
            return self.latest >= end and all(self.settled(c, j) for c in n.children for j in range(i, self.size) if self.time(j) < end)
        return all(self.settled(c, i) for c in n.children)

    def pairs(self, n, i):
        c, d = n.words[0], n.words[1]
        out = set()
        for j in range(i + 1):
            age = self.time(i) - self.time(j)
            if d == 0 or age < d:
                out |= {(u, min(age, c) if d == 0 else age) for u in self.lasting(n, j, range(j + 1, i + 1))}
        return out

    def entries(self):
        """What is kept, each as its node, 0 for a point or 1 for an age, that number, and the valuation; in no order."""
        last = len(self.rule.nodes) - 1
        for x, n in enumerate(self.rule.nodes):
            done = [i for i in range(self.size) if self.settled(x, i)]
            if n.kind in PAST and done:
                yield from ((x, 1, age, u) for u, age in self.pairs(n, done[-1]))
            if x != last:
                y = next(y for y, p in enumerate(self.rule.nodes) if x in p.children)
                kind = self.rule.nodes[y].kind
                for j in done:
                    consulted = range(j + 1) if kind in FUTURE else [j + 1] if kind == PREVIOUS else [j - 1] if kind == NEXT else [j]
                    if any(i >= 0 and not self.settled(y, i) for i in consulted):
                        yield from ((x, 0, j, u) for u in self.vals(x, j))

    def kept(self):
        return sum(1 for _ in self.entries())

    def retained(self):
        """Request 104: each point that some node hasn't settled, and the last that all have; in point order."""
        by_all = [i for i in range(self.size) if all(self.settled(x, i) for x in range(len(self.rule.nodes)))]
        return [i for i in range(self.size) if i not in by_all[:-1]]

    def open(self):
        return sum(not self.settled(len(self.rule.nodes) - 1, i) for i in range(self.size))


def place(row, lowest=0):
    """Request 103: by what rows are put in order. The words up to that of the lowest free variable ascend, the later ones descend: of a report's row the first alone ascends."""
    return row[:lowest + 1] + tuple(-value for value in row[lowest + 1:])


def image(data, log):
    """Request 104: the image of a rule file and its log. Sizes, owners, values, retained times, and the file's bytes, four to a word."""
    def order(entry):
        *owner, u = entry
        return owner, place(tuple(value for _, value in sorted(u)))

    entries, times = sorted(log.entries(), key=order), [log.time(i) for i in log.retained()]
    words = [1, log.size, log.latest or 0, len(entries), len(times)]
    words += [word for *owner, _ in entries for word in owner]
    words += [dict(u).get(v, 0) for *_, u in entries for v in range(4)]
    return words + times + [int.from_bytes(data[at:at + 4], "little") for at in range(0, len(data), 4)]


def look(row, rows, lowest):
    """Request 102: whether a row is there, and its place; or the place of the first larger one, or the end."""
    larger = [k for k, other in enumerate(rows) if place(row, lowest) < place(other, lowest)][:1] or [len(rows)]
    equal = [k for k, other in enumerate(rows[:larger[0]]) if other == row]
    return (True, equal[0]) if equal else (False, larger[0])


def take(rule, old, words, room=4326):
    """(number, place) of a refusal, or the new log and the reported points."""
    if len(words) < 2 or words[1] > MOST_ROWS or len(words) != 2 + 5 * words[1]:
        return (9, 0), None
    m, rows = words[1], []
    for k in range(m):
        relation, columns = words[2 + k], words[2 + m + 4 * k:6 + m + 4 * k]
        if relation >= rule.relations or any(columns[rule.arities[relation]:]):
            return (10, k), None
        rows.append((relation, tuple(columns[:rule.arities[relation]])))
    if falls(old, words[0]):
        return (11, 0), None
    if old.size >= MOST_POINTS:
        return (12, 0), None
    return weighed(rule, old, Log(rule, old.accepted + [(words[0], rows)]), MOST_OPEN, room)


def notice(rule, old, time, room=4326):
    """The same for a clock notice. It adds no point, and 14 isn't tested on it."""
    if falls(old, time):
        return (11, 0), None
    return weighed(rule, old, Log(rule, old.accepted + [(time, None)]), None, room)


def falls(old, time):
    return old.latest is not None and time < old.latest


def weighed(rule, old, new, most_open, room):
    """13 to 16, reckoned on the log as it then is."""
    last = len(rule.nodes) - 1
    for x in range(last + 1):
        if any(new.settled(x, i) and not old.settled(x, i) and len(new.vals(x, i)) > MOST_ROWS for i in range(new.size)):
            return (13, x), None
    if most_open is not None and new.open() > most_open:
        return (14, 0), None
    if new.kept() > MOST_KEPT:
        return (15, 0), None
    free = sorted(rule.free[last])
    points = [(i, new.time(i), sorted((tuple(dict(u)[v] for v in free) for u in new.vals(last, i)), key=place)) for i in range(new.size) if new.settled(last, i) and not old.settled(last, i)]
    need = len(report(rule, points))
    return ((16, need), None) if need > room else (new, points)


def report(rule, points):
    """The words of the report on these points."""
    rows = [row for p in points for row in p[2]]
    words = [len(points), len(rule.free[-1]), len(rows)]
    for i, time, own in points:
        words += [i, time, len(own)]
    return words + [value for row in rows for value in row]


def split(data):
    """The rule's bytes and the events' words of a listing's input; an event cut short, or with m above 32, is the last."""
    n = struct.unpack_from("<I", data)[0] if len(data) >= 4 else 653
    if n > 652 or len(data) < 4 + n:
        return None, []
    rest, events = data[4 + n:], []
    while rest:
        m = struct.unpack_from("<I", rest, 4)[0] if len(rest) >= 8 else 33
        if m > 32 or len(rest) < 8 + 20 * m:
            return data[4:4 + n], events + [None]
        events.append(list(struct.unpack_from(f"<{2 + 5 * m}I", rest)))
        rest = rest[8 + 20 * m:]
    return data[4:4 + n], events


def listing(data):
    file, events = split(data)
    rule = check(file) if file is not None else (1, 0)
    if isinstance(rule, tuple):
        return "refused %d place %d\n" % rule
    out, log = [f"rule ok reach {rule.reach[-1]}"], Log(rule, [])
    for words in events:
        answer, points = ((9, 0), None) if words is None else take(rule, log, words)
        if points is None:
            out.append("refused %d place %d" % answer)
            continue
        log = answer
        for i, t, rows in points:
            out.append(f"point {i} time {t} rows {len(rows)}")
            out += [" ".join(map(str, r)) for r in rows]
    out.append(f"open {log.open()} kept {log.kept()}")
    return "\n".join(out) + "\n"


def main():
    if len(sys.argv) == 1:
        sys.stdout.write(listing(sys.stdin.buffer.read()))
        return
    wrong = [f for f in sys.argv[1:] if listing(open(f, "rb").read()) != open(f[:-3] + ".out").read()]
    print(f"{len(sys.argv) - 1} compared, {len(wrong)} differ", *wrong)
    sys.exit(bool(wrong))


if __name__ == "__main__":
    main()
