"""Values as tools/rules has them: whole numbers, which are their own words, and readings with a point, which are stored in hundredths
with 2,147,483,648 added; and which columns and variables of a rule have which, as the values that are written for them tell.
"""
import re

LARGEST = 4_294_967_295
ZERO = 2_147_483_648  # the word of the reading 0.00
WRITTEN = re.compile(r"(-?)([0-9]+)(?:\.([0-9]*))?")


class Unfit(Exception):
    """What is wrong with a value."""


def counted(digits):
    """The number that digits give; one of more than twelve is cut, and still above all that is allowed anywhere."""
    return int(digits.lstrip("0")[:12] or 0)


def hundredths(whole, part):
    """How many hundredths a number is, by its digits before and after the point."""
    if not part:
        raise Unfit("a reading has one or two digits after the point")
    if len(part) > 2:
        raise Unfit("a reading has at most two digits after the point")
    return counted(whole + (part + "0")[:2])


def word_of(written, what):
    """The word of a whole number or a reading, and whether it is a reading; in a fault it is called `what`."""
    if written.isascii() and written.isdigit():
        word = counted(written)
        if word > LARGEST:
            raise Unfit(f"{what} is at most {LARGEST}")
        return word, False
    m = WRITTEN.fullmatch(written)
    if m is None:
        raise Unfit(f"expected {what}, such as 7 or -3.25, and found `{written}`")
    minus, whole, part = m.groups()
    away = hundredths(whole, "00" if part is None else part)
    word = ZERO - away if minus else ZERO + away
    if not 0 <= word <= LARGEST:
        raise Unfit(f"a reading is from {decimal(-ZERO)} to {decimal(LARGEST - ZERO)}")
    if part is None:
        raise Unfit(f"a negative number is a reading, with a point: write {written}.00")
    return word, True


def offset_of(sign, written):
    """The hundredths that a sign and an offset add: with a point it is in whole units, without one in hundredths."""
    whole, point, part = written.partition(".")
    k, most = hundredths(whole, part) if point else counted(whole), LARGEST - ZERO + (sign == "-")
    if k > most:
        raise Unfit(f"an offset after `{sign}` is at most {decimal(most) if point else most}")
    return -k if sign == "-" else k


def signed(word):
    """The number that a word is in two's complement."""
    return word - (LARGEST + 1) if word >= ZERO else word


def decimal(n):
    """Hundredths as text."""
    return f"{'-' * (n < 0)}{abs(n) // 100}.{abs(n) % 100:02}"


def offset_text(k, reading):
    return f"{'-' if k < 0 else '+'} {decimal(abs(k)) if reading else abs(k)}"


# ---- what has readings

def of_column(k, name):
    return f"column {k + 1} of `{name}` has"


class Group:
    """Columns, variables and comparisons whose values are all readings or all whole numbers, and the first that is written for one."""

    def __init__(self, thing):
        self.things, self.written, self.reading = [thing], None, None

    def take(self, said, written, reading):
        """Takes note of a value that is written for what `said` names; unfit where those before are of the other sort."""
        if self.reading is None:
            self.written, self.reading = written, reading
        elif self.reading != reading:
            other = f"{written} is a reading" if reading else f"write {written}.00" if 100 * counted(written) < ZERO else f"{written} is a whole number"
            raise Unfit(f"{said} {'readings' if self.reading else 'whole numbers'}, such as {self.written}: {other}")


class Readings:
    """The groups of a rule. What nothing is written for counts as whole numbers."""

    def __init__(self):
        self.groups = {}

    def group(self, thing):
        if thing not in self.groups:
            self.groups[thing] = Group(thing)
        return self.groups[thing]

    def join(self, one, other):
        """Makes one group of two, before any value is noted."""
        kept, gone = self.group(one), self.group(other)
        if kept is not gone:
            kept.things += gone.things
            self.groups.update(dict.fromkeys(gone.things, kept))

    def has(self, thing):
        return self.group(thing).reading is True

    def text(self, thing, word):
        return decimal(word - ZERO) if self.has(thing) else str(word)
