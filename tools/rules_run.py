"""A rule run over a log by the listing program: `rules run` of tools/rules, which reads the rule and calls this.

The log is first read whole, so that a fault in it is told before anything is printed, and written to a file that the listing
program reads. After each event the file has a mark: an event of one row with a relation that the rule doesn't have, and the
line of the log in place of the time. It is refused with 10, which leaves the state as it was; an event that meets 10 itself is
known by its rows. So it is known which event a line of the listing belongs to. Neither a log of lines nor the breaches are held
in memory.
"""
import csv
import itertools
import os
import struct
import subprocess
import sys
import tempfile
import xml.sax.saxutils

import rules_values

MOST_ROWS, MOST_COLUMNS = 32, 4
MARKED = 10  # the refusal that a mark meets
STEP = 10_000  # events from one showing of progress to the next
MOST_DRAWN = 30  # valuations with a row of their own in a picture
PLACES, TO_A_LETTER = 600, 10  # places along a picture's time, and how many of them are one letter of its text
REASONS = {
    1: "under 12 bytes, or a length that isn't 12 + 20 for each node",
    2: "the version isn't 1",
    3: "a size, an arity or the zero byte is out of range",
    4: "an unknown kind, child, relation, variable or comparison, or a field without a meaning that isn't 0",
    5: "the window is out of range",
    6: "a condition on the free variables is broken",
    7: "the node isn't a child exactly once",
    8: "the state isn't well formed",
    9: "under 2 words, over 32 rows, or a wrong length",
    10: "no such relation, or an unused column that isn't 0",
    11: "the time is below the latest known",
    12: "10,000,000 points were taken already",
    13: "over 32 valuations at a point newly settled",
    14: "over 32 points would be open",
    15: "over 512 entries would be kept",
    16: "the report buffer is too short",
}


class Fault(Exception):
    """What ends a run: a fault in a log, or a listing program that isn't there or fails."""


def reason(number, place, node=None, row=None):
    """A refusal in words; `node` and `row` give the text of the node, or of the row, that the place names."""
    said = REASONS[number]
    if number in (4, 5, 6, 7, 13):
        return f"{said}: node {place}, {node(place)}"
    if number == 10:
        return f"{said}: row {place}, {row(place)}"
    return f"{said}: {place} words are needed" if number == 16 else said


# ---- a log of lines

def csv_time(word, where):
    if not (word.isascii() and word.isdigit()):
        raise Fault(f"{where}: expected a time, a whole number, and found `{word}`")
    time = rules_values.counted(word)
    if time > rules_values.LARGEST:
        raise Fault(f"{where}: a time is at most {rules_values.LARGEST}")
    return time


def csv_row(fields, relations, where):
    """The number and the values of a row; `relations` has by name the number and the groups of the columns."""
    name, values = fields[0], fields[1:]
    if name not in relations:
        raise Fault(f"{where}: `{name}` is not a relation of the rule; it has {', '.join(relations)}")
    number, groups = relations[name]
    while values and not values[-1]:
        values.pop()
    if len(values) != len(groups):
        raise Fault(f"{where}: `{name}` has {len(groups)} column{'s' * (len(groups) != 1)} in the rule, here {len(values)}")
    try:
        return number, [csv_value(v, k, name, group) for k, (v, group) in enumerate(zip(values, groups))]
    except rules_values.Unfit as e:
        raise Fault(f"{where}: {e}")


def csv_value(written, k, name, group):
    word, reading = rules_values.word_of(written, "a value")
    if reading is not group.reading:
        group.take(rules_values.of_column(k, name), written, reading)
    return word


def event_words(time, rows):
    return [time, len(rows), *(r for r, _ in rows), *(w for _, values in rows for w in (values + [0] * MOST_COLUMNS)[:MOST_COLUMNS])]


def csv_events(file, shown, relations):
    """Line and words of each event of an open file of lines."""
    begun, time, rows, lines = None, None, [], csv.reader(file)
    try:
        for fields in lines:
            fields, where = [f.strip() for f in fields], f"{shown}:{lines.line_num}"
            if not any(fields):
                if begun:
                    yield begun, event_words(time, rows)
                begun = None
                continue
            if fields[0].startswith("#") or lines.line_num == 1 and fields[0] == "time":
                continue
            now = csv_time(fields[0], where)
            if begun and now != time:
                yield begun, event_words(time, rows)
                begun = None
            if not begun:
                begun, time, rows = lines.line_num, now, []
            if any(fields[1:]):
                rows.append(csv_row(fields[1:], relations, where))
            if len(rows) > MOST_ROWS:
                raise Fault(f"{where}: an event has at most {MOST_ROWS} rows; an empty line before it begins another of the same time")
    except UnicodeDecodeError:
        raise Fault(f"{shown}: not a text in UTF-8")
    except csv.Error as e:
        raise Fault(f"{shown}:{lines.line_num}: {e}")
    if begun:
        yield begun, event_words(time, rows)


# ---- the listing program's input and output

class Progress:
    """How far a long run is, on standard error, where that is a terminal."""

    def __init__(self, word):
        self.word, self.count, self.width = word, 0, 0
        self.wanted = sys.stderr.isatty()

    def step(self):
        self.count += 1
        if self.wanted and self.count % STEP == 0:
            line = f"{self.word} {self.count:,} events"
            self.width = len(line)
            print(f"\r{line}", end="", file=sys.stderr, flush=True)

    def end(self):
        if self.width:
            print("\r" + " " * self.width + "\r", end="", file=sys.stderr, flush=True)
            self.width = 0


def packed(words):
    return struct.pack(f"<{len(words)}I", *words)


def write_input(out, head, relation_count, events):
    """Writes the rule with its length, and each event with its mark; bytes that are no event stand last. Gives the least and the
    greatest time."""
    least, most, progress = None, None, Progress("read")
    try:
        out.write(head)
        for line, words in events:
            if isinstance(words, bytes):
                out.write(words)
                continue
            out.write(packed(words) + packed([line, 1, relation_count, 0, 0, 0, 0]))
            least = words[0] if least is None else min(least, words[0])
            most = words[0] if most is None else max(most, words[0])
            progress.step()
    finally:
        progress.end()
    out.flush()
    return least, most


def read_marked(file, start):
    """Time, line and rows of each event of what write_input wrote from there on; None, None and no rows for what is no event."""
    file.seek(start)
    while head := file.read(8):
        time, m = struct.unpack("<2I", head) if len(head) == 8 else (0, MOST_ROWS + 1)
        body = file.read(20 * m + 28) if m <= MOST_ROWS else b""
        if len(body) < 20 * m + 28:
            yield None, None, []
            return
        words = struct.unpack(f"<{5 * m + 7}I", body)
        yield time, words[5 * m], [(words[k], words[m + 4 * k:m + 4 * k + 4]) for k in range(m)]


def listed(program, input_name):
    """The lines that the listing program prints."""
    try:
        with open(input_name, "rb") as source:
            child = subprocess.Popen([program], stdin=source, stdout=subprocess.PIPE, text=True)
    except OSError as e:
        raise Fault(f"rules: {program}: {e.strerror}; `tools/build listing` builds target/bin/listing, and --listing names another")
    try:
        for line in child.stdout:
            yield line.rstrip("\n")
        if child.wait():
            raise Fault(f"rules: {program} ended with {child.returncode}")
    finally:
        child.stdout.close()
        if child.poll() is None:
            child.kill()
            child.wait()


def answers(lines, events, fits):
    """What the listing says after the rule's line: ("point", point, time, rows), ("refused", number, place, time, line, rows of the
    event), and last ("open", open, kept). Marks are taken out, and tell which event is due."""
    def due():
        """The next event, and whether it meets itself what a mark meets."""
        event = next(events, (None, None, []))
        return event, not all(fits(*row) for row in event[2])

    progress, (now, misfit) = Progress("run"), due()
    try:
        for line in lines:
            words = line.split()
            if words[:1] == ["point"]:
                rows = [tuple(map(int, row.split())) for row in itertools.islice(lines, int(words[5]))]
                yield "point", int(words[1]), int(words[3]), rows
            elif words[:2] == ["refused", str(MARKED)] and not misfit:
                now, misfit = due()
                progress.step()
            elif words[:1] == ["refused"]:
                misfit = False
                yield ("refused", int(words[1]), int(words[3]), *now)
            elif words[:1] == ["open"]:
                yield "open", int(words[1]), int(words[3])
            else:
                raise Fault(f"rules: the listing program printed `{line}`")
    finally:
        progress.end()


def report(rule, lines, events, every, picture):
    """The lines to be printed for a run; what is breached goes to the picture too."""
    reported = breached = 0
    first = next(lines, "nothing").split()
    if first[0] == "refused":
        raise Fault(f"the rule: refused {first[1]}: {reason(int(first[1]), int(first[3]), rule.node)}")
    if first[:3] != ["rule", "ok", "reach"]:
        raise Fault(f"rules: the listing program printed `{' '.join(first)}`")
    yield f"rule {rule.line}, reach {first[3]}"
    ended = False
    for kind, *more in answers(lines, events, rule.fits):
        if kind == "point":
            point, time, rows = more
            reported, breached = reported + 1, breached + bool(rows)
            for row in rows:
                picture.add(time, row)
                yield f"time {time} point {point}: {rule.valuation(row)}"
            if every and not rows:
                yield f"time {time} point {point}: no breach"
        elif kind == "refused":
            number, place, time, line, rows = more
            said = reason(number, place, rule.node, lambda k: rule.row(*rows[k]))
            yield f"time {time} refused {number}, {rule.counted} {line}: {said}" if line is not None else f"refused {number}, at the end: {said}"
        else:
            ended = True
            yield f"reported {reported}, breached {breached}, open {more[0]}, kept {more[1]}"
    if not ended:
        raise Fault("rules: the listing program ended without its last line")


# ---- pictures

class Picture:
    """The breaches over time: for each of the first valuations, and for all others together, which places along the time they meet."""

    def __init__(self, valuation, least, most):
        self.valuation, self.least, self.most = valuation, least or 0, most or 0
        self.rows, self.others = {}, set()

    def place(self, time):
        return (time - self.least) * (PLACES - 1) // max(1, self.most - self.least)

    def add(self, time, row):
        if row not in self.rows and len(self.rows) == MOST_DRAWN:
            self.others.add(self.place(time))
        else:
            self.rows.setdefault(row, set()).add(self.place(time))

    def labelled(self):
        rows = [(self.valuation(row), met) for row, met in sorted(self.rows.items())]
        return rows + ([("all others", self.others)] if self.others else [])

    def text(self):
        rows = self.labelled()
        if not rows:
            return "no breach to draw"
        width, letters = max(len(label) for label, _ in rows + [("time", ())]), PLACES // TO_A_LETTER
        out = []
        for label, met in rows:
            marked = {place // TO_A_LETTER for place in met}
            out.append(f"{label:<{width}} |" + "".join("#" if k in marked else "." for k in range(letters)) + "|")
        least, most = str(self.least), str(self.most)
        return "\n".join(out + [f"{'time':<{width}}  {least}{most.rjust(letters - len(least))}"])

    def svg(self, title):
        rows, high = self.labelled(), 20
        left = 20 + 8 * max([len(label) for label, _ in rows] + [4])
        wide, base = left + PLACES + 40, 40 + high * max(1, len(rows))
        head, most = f"breaches of {title}", (wide - 20) // 8
        out = [f'<svg xmlns="http://www.w3.org/2000/svg" width="{wide}" height="{base + 50}" font-family="monospace" font-size="12">',
               f'<rect width="{wide}" height="{base + 50}" fill="white"/>', svg_text(10, 20, head if len(head) <= most else head[:most - 3] + "...")]
        for k, (label, met) in enumerate(rows):
            top = 35 + high * k
            out.append(svg_text(10, top + 14, label))
            out.append(f'<line x1="{left}" y1="{top + high}" x2="{left + PLACES}" y2="{top + high}" stroke="#ccc"/>')
            out += [f'<rect class="breach" x="{left + x}" y="{top + 4}" width="3" height="{high - 6}" fill="#b00"/>' for x in sorted(met)]
        out.append(f'<line x1="{left}" y1="{base}" x2="{left + PLACES}" y2="{base}" stroke="black"/>')
        for time in self.ticks():
            x = left + self.place(time)
            out.append(f'<line x1="{x}" y1="{base}" x2="{x}" y2="{base + 5}" stroke="black"/>')
            out.append(svg_text(x, base + 18, time, "middle"))
        out.append(svg_text(left + PLACES // 2, base + 38, "time in seconds", "middle"))
        return "\n".join(out + ["</svg>"]) + "\n"

    def ticks(self):
        """At most seven times, the least and the greatest among them."""
        return sorted({self.least + (self.most - self.least) * k // 6 for k in range(7)})


def svg_text(x, y, text, anchor="start"):
    return f'<text x="{x}" y="{y}" text-anchor="{anchor}">{xml.sax.saxutils.escape(str(text))}</text>'


# ---- a run

def run(rule, head, events, options, out):
    """Runs a rule over events, each with its line, and prints what comes. The head is the rule's length and file. The rule tells its
    text in a line, a report's row by variable, the texts of a node and of an event's row, and whether such a row fits it; the options
    are every, picture, svg and listing."""
    with tempfile.NamedTemporaryFile(prefix="rules-") as held:
        least, most = write_input(held, head, rule.relation_count, events)
        picture = Picture(rule.valuation, least, most)
        lines = listed(options.listing, held.name)
        try:
            for line in report(rule, lines, read_marked(held, len(head)), options.every, picture):
                print(line, file=out)
        finally:
            lines.close()
    if options.picture:
        print(picture.text(), file=out)
    if options.svg:
        with open(options.svg, "w", encoding="utf-8") as f:
            f.write(picture.svg(rule.line))


def open_log(name):
    """A log's open file, and its name in messages."""
    source = os.dup(sys.stdin.fileno()) if name == "-" else name
    return open(source, encoding="utf-8-sig", newline=""), "log" if name == "-" else name
