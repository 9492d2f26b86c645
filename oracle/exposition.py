#!/usr/bin/env python3
"""Holds the library's export against Prometheus' own parser, and reads it back.

Needs: python3 (its standard library alone); `promtool`, which Debian's package `prometheus` brings; the shared library that
bindings/build makes, or the one that NOSINGCATNIP_LIBRARY names. Installs nothing.

    oracle/exposition.py [--promtool PROGRAM] [--seed N] [--cases N]

Random vectors are exported through the Python module. Each text is

- taken by `promtool check metrics`, Prometheus' parser of the text format: whatever it cannot parse is a difference. Its lint
  remarks are none (no help text, a colon in a name and the like): they are about what metrics should be called;
- counted by it, where all names are of the kind that it does not remark on: behind lines `# HELP`, without which it would, the text is
  parsed once more, and its count of lines for each name must be that of the present readings;
- read back by a reader written here from the format's rules and 02's, byte by byte. Names, tags, values and times must be those of
  the vector's present readings, in their order: a value is the exact fraction of its reading in thousandths, rounded to the nearest, a
  half away from zero.

Some vectors have a series that 15 is for. The library must refuse them with 15 and name that series; and promtool must refuse
a line of that series that is written all the same, so that 15 is for nothing that Prometheus would take. (A name with a space or a brace in
it is left out: promtool would read another name.) Others have a reading for 16, which is of this library alone.

Nothing that the format's rules on grouping and on repeated lines ask for is heeded here, as 02 does not heed it: series of one name stand
apart, and labels repeat. promtool takes that.
"""
import argparse
import math
import os
import random
import re
import shutil
import struct
import subprocess
import sys
from fractions import Fraction

sys.path.insert(0, os.path.join(os.path.dirname(os.path.realpath(__file__)), "..", "bindings", "python"))
import nosingcatnip  # noqa: E402 - the library's own module

LARGE = 2**40
# Names that promtool has no remark on, and others.
PLAIN, OTHER = ("fed", "waste", "good_sheets", "x9", "_y"), ("a:b", ":", "Fed", "feed_ms", "up_Total", "_", "_9", "NaN", "inf", "le")
KEYS = ("a", "press", "form", "_", "__x", "Z9", "le", "quantile", "k" * 255)
# Characters at the borders of each length of UTF-8, what is escaped, and what parts the fields of a line.
CHARACTERS = "a \t\r\0\n\"\\{}=,#'\x7f\x80\u07ff\u0800\ud7ff\ue000\ufffd\uffff\U00010000\U0010ffff"
BROKEN = (b"\x80", b"\xc2", b"\xe2\x82", b"\xc0\x80", b"\xe0\x80\x80", b"\xed\xa0\x80", b"\xf4\x90\x80\x80", b"\xff")
BAD_NAMES, BAD_KEYS = ("", "9", "9a", "a-b", "a.b", "\u00e9", "a\u00e9", "a@"), ("9", "9a", "a-b", "a:b", ":", "\u00e9", "a@")
STARTS, STEPS = (0, 1, 999, 1772431200000, 2**52 - 1, 2**52), (1, 1000, 3600000, 86400000)


# vectors

def random_value(rng):
    most = 255 if rng.random() < 0.05 else 16
    value = ""
    for _ in range(rng.randint(0, most)):
        other = chr(rng.choice((rng.randint(1, 0xd7ff), rng.randint(0xe000, 0x10ffff))))
        value += rng.choice(CHARACTERS) if rng.random() < 0.7 else other
    while len(value.encode()) > most:
        value = value[:-1]
    return value


def near(rng, x):
    """A reading at most two steps from this one."""
    for _ in range(rng.randint(0, 2)):
        x = math.nextafter(x, rng.choice((-math.inf, math.inf)))
    return x


def random_reading(rng):
    """A reading below 2 to the 40th in size."""
    kind = rng.randrange(7)
    if kind == 0:
        x = float(rng.randint(0, 5000))
    elif kind == 1:
        x = rng.randint(0, 10**9) / 100
    elif kind == 2:
        x = near(rng, (2 * rng.randrange(8 * 2 ** rng.randint(0, 39)) + 1) / 16)
    elif kind == 3:
        x = near(rng, (2 * rng.randrange(1000 * 2 ** rng.randint(0, 39)) + 1) / 2000)
    elif kind == 4:
        x = struct.unpack("<d", struct.pack("<Q", rng.randrange(0x4270000000000000)))[0]
    elif kind == 5:
        x = math.ldexp(rng.random(), rng.randint(-20, 40))
    else:
        x = rng.choice((0.0, 5e-324, 0.0005, 0.0625, math.nextafter(LARGE, 0), 999.9995))
    x = min(abs(x), math.nextafter(LARGE, 0))
    return -x if rng.random() < 0.3 else x


def random_vector(rng):
    """Labels, rows and a grid that can be exported."""
    many = rng.random() < 0.01
    points = rng.choice((0, 1, 1, 2, 3, 5, 8, 60)) if not many else 3
    names = PLAIN if rng.random() < 0.5 else PLAIN + OTHER
    labels, rows = [], []
    for _ in range(512 if many else rng.choice((0, 1, 1, 2, 3, 5))):
        keys = rng.sample(KEYS[:3] if many else KEYS, rng.randint(0, 3))
        labels.append({"__name__": rng.choice(names), **{key: "v" if many else random_value(rng) for key in keys}})
        rows.append([random_reading(rng) if rng.random() < 0.8 else None for _ in range(points)])
    return labels, rows, rng.choice(STARTS), rng.choice(STEPS), points


def spoiled(rng, labels, rows, points):
    """The place of a series in which something is put that a text cannot have, and the number of its refusal."""
    place = rng.randrange(len(labels))
    kind = rng.randrange(4 if points else 3)
    if kind == 0:
        labels[place]["__name__"] = rng.choice(BAD_NAMES)
    elif kind == 1:
        labels[place][rng.choice(BAD_KEYS)] = "v"
    elif kind == 2:
        labels[place]["z"] = rng.choice((b"", b"a", "\u00e9".encode())) + rng.choice(BROKEN) + rng.choice((b"", b"z"))
    else:
        rows[place][rng.randrange(points)] = rng.choice((1, -1)) * rng.choice((LARGE, 1e300, math.inf))
    return place, 15 if kind < 3 else 16


# the text, read

class Unreadable(Exception):
    """What is no text as 02 has it."""


VALUE, TIME = re.compile(rb"-?(0|[1-9][0-9]*)\.[0-9]{3}"), re.compile(rb"0|[1-9][0-9]*")


class Reader:
    """A text, read from the first byte on."""

    def __init__(self, text):
        self.text, self.at = text, 0

    def fail(self, what):
        raise Unreadable("%s at byte %d: %r" % (what, self.at, self.text[self.at:self.at + 40]))

    def take(self, sign):
        if self.text[self.at:self.at + 1] != sign:
            self.fail("no %r" % sign)
        self.at += 1

    def word(self, pattern):
        m = re.compile(pattern).match(self.text, self.at)
        if not m:
            self.fail("no word")
        self.at = m.end()
        return m.group().decode("ascii")

    def value(self):
        """What stands between double quotes."""
        self.take(b'"')
        content = bytearray()
        while self.text[self.at:self.at + 1] != b'"':
            byte = self.text[self.at:self.at + 1]
            self.at += 1
            if byte == b"\\":
                byte = {b"\\": b"\\", b'"': b'"', b"n": b"\n"}.get(self.text[self.at:self.at + 1])
                self.at += 1
            elif byte in (b"", b"\n"):
                byte = None
            if byte is None:
                self.fail("a value that does not end, or no escape,")
            content += byte
        self.take(b'"')
        return content.decode("utf-8")

    def field(self, pattern, end):
        """What stands up to the next such byte, and is all of this pattern."""
        to = self.text.find(end, self.at)
        content = self.text[self.at:to if to >= 0 else len(self.text)]
        if not pattern.fullmatch(content):
            self.fail("no number")
        self.at += len(content)
        self.take(end)
        return content.decode("ascii")

    def line(self):
        name, tags = self.word(rb"[A-Za-z_:][A-Za-z0-9_:]*"), {}
        if self.text[self.at:self.at + 1] == b"{":
            sign = b"{"
            while self.text[self.at:self.at + 1] == sign:
                self.at += 1
                key = self.word(rb"[A-Za-z_][A-Za-z0-9_]*")
                self.take(b"=")
                if key in tags:
                    self.fail("a tag twice")
                tags[key] = self.value()
                sign = b","
            self.take(b"}")
        self.take(b" ")
        value = self.field(VALUE, b" ")
        if value == "-0.000":
            self.fail("a zero with a sign")
        return name, tags, Fraction(value), int(self.field(TIME, b"\n"))

    def lines(self):
        found = []
        while self.at < len(self.text):
            found.append(self.line())
        return found


def rounded(x):
    """A reading in thousandths, to the nearest, a half away from zero."""
    size = (abs(Fraction(x)) * 1000 + Fraction(1, 2)).__floor__()
    return Fraction(size if x >= 0 else -size, 1000)


def expected(labels, rows, start, step):
    """What the lines are to say."""
    for each, row in zip(labels, rows):
        tags = {key: value for key, value in each.items() if key != "__name__"}
        for i, x in enumerate(row):
            if x is not None:
                yield each["__name__"], tags, rounded(x), start + i * step


# promtool

def checked(promtool, text, *more):
    """Whether promtool can parse the text; its remarks, or what it says of an error; and what it prints."""
    done = subprocess.run([promtool, "check", "metrics", *more], input=text, stdout=subprocess.PIPE, stderr=subprocess.PIPE)
    said = done.stderr.decode("utf-8", "replace")
    # 3 is for remarks.
    return done.returncode in (0, 3) and "error while" not in said, said, done.stdout.decode("utf-8", "replace")


def counted(promtool, text, names):
    """The lines of each name as promtool counts them."""
    helped = b"".join(b"# HELP %s of a press\n" % name.encode() for name in sorted(names))
    good, said, table = checked(promtool, helped + text, "--extended")
    rows = [line.split() for line in table.splitlines()[1:]]
    return {row[0]: int(row[1]) for row in rows if row[0] != "Total"} if good and not said else said


def naive_line(labels):
    """A line of a series as it would be written, whatever its labels are."""
    def data(text):
        return text if isinstance(text, bytes) else text.encode()

    def escaped(value):
        return data(value).replace(b"\\", b"\\\\").replace(b'"', b'\\"').replace(b"\n", b"\\n")
    tags = b",".join(data(key) + b'="' + escaped(value) + b'"' for key, value in labels.items() if key != "__name__")
    return data(labels["__name__"]) + (b"{" + tags + b"}" if tags else b"") + b" 1.000 0\n"


# runs

class Run:
    def __init__(self, promtool):
        self.promtool, self.differences = promtool, 0
        self.counts = dict.fromkeys(("texts", "lines", "bytes", "texts of no line", "texts that promtool counted", "refused with 15",
                                     "lines refused with 15 and by promtool", "refused with 16"), 0)

    def differs(self, what, vector):
        self.differences += 1
        if self.differences <= 5:
            print("DIFFERENCE: %s\n  %r" % (what, vector))

    def exported(self, vector):
        """A vector that can be exported."""
        labels, rows, start, step, points = vector
        try:
            text = nosingcatnip.export_text(nosingcatnip.Vector(labels, rows, start, step, points))
            lines = Reader(text).lines()
        except (nosingcatnip.Refusal, Unreadable) as problem:
            return self.differs(problem, vector)
        wanted = list(expected(labels, rows, start, step))
        self.counts["texts"] += 1
        self.counts["lines"] += len(lines)
        self.counts["bytes"] += len(text)
        self.counts["texts of no line"] += not lines
        if lines != wanted:
            self.differs("the lines say %r" % [pair for pair in zip(lines, wanted) if pair[0] != pair[1]][:2], vector)
        good, said, _ = checked(self.promtool, text)
        if not good:
            self.differs("promtool: %s" % said, vector)
        names = [name for name, *_ in wanted]
        if lines and set(names) <= set(PLAIN):
            self.counts["texts that promtool counted"] += 1
            found = counted(self.promtool, text, set(names))
            if found != {name: names.count(name) for name in names}:
                self.differs("promtool counts %r" % found, vector)
        return None

    def refused(self, vector, place, number):
        """A vector with a bad series at this place."""
        labels, rows, start, step, points = vector
        self.counts["refused with %d" % number] += 1
        try:
            nosingcatnip.export_text(nosingcatnip.Vector(labels, rows, start, step, points))
            self.differs("exported, not refused with %d" % number, vector)
        except nosingcatnip.Refusal as refusal:
            if (refusal.number, refusal.fields) != (number, (0, place)):
                self.differs("refused with %d %r" % (refusal.number, refusal.fields), vector)
        if number == 15:
            good, _, _ = checked(self.promtool, naive_line(labels[place]))
            self.counts["lines refused with 15 and by promtool"] += not good
            if good:
                self.differs("promtool takes %r" % naive_line(labels[place]), vector)


def main():
    parser = argparse.ArgumentParser(description=__doc__, formatter_class=argparse.RawDescriptionHelpFormatter)
    parser.add_argument("--promtool", default="promtool")
    parser.add_argument("--seed", type=int, default=1)
    parser.add_argument("--cases", type=int, default=3000)
    args = parser.parse_args()
    if shutil.which(args.promtool) is None:
        sys.exit("%s is not there: Debian's package `prometheus` brings it" % args.promtool)
    try:
        nosingcatnip.export_text(nosingcatnip.Vector([], []))
    except OSError as problem:
        sys.exit(str(problem))
    rng, run = random.Random(args.seed), Run(args.promtool)
    for _ in range(args.cases):
        vector = random_vector(rng)
        labels, rows, _, _, points = vector
        if labels and rng.random() < 0.2:
            run.refused(vector, *spoiled(rng, labels, rows, points))
        else:
            run.exported(vector)
    print("seed %d: %d vectors" % (args.seed, args.cases))
    for what, count in run.counts.items():
        print("%9d  %s" % (count, what))
    print("%d differences" % run.differences)
    sys.exit(run.differences != 0)


if __name__ == "__main__":
    main()
