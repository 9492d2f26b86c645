#!/usr/bin/env python3
"""Holds a vecop program against Prometheus, point by point.

Needs: python3 (its standard library alone); `promtool`, which Debian's package `prometheus` brings; a built vecop program.
Installs nothing.

    oracle/promtool.py --vecop WORDS [--promtool PROGRAM] [--seed N] [--cases N]

Random cases of `and`, `unless`, one-to-one operators and group joins are run through vecop, and its answer is the expected
result of a unit test of promtool at each point. Samples are an hour apart, so that with Prometheus' look-back of five minutes an
hour without a sample is empty; the answer must have their grid. The sides are told apart by metric name, l and r, which is never
in the key.

What is left out, because Prometheus refuses it or reads it in another way: several one-side series a key; two series of a key
with a reading at the same point, on either side of a one-to-one operator; equal labels in a result; a label in `on` and in a
join list; empty tag values; `or`, `if`, `ifnot`, `default`, keep names and `*`, which Prometheus lacks or reads in another way;
readings that would make a NaN. docs/DIFFERENCES.md says for each how the two read it.
"""
import argparse
import os
import random
import shutil
import subprocess
import sys
import tempfile

sys.path.insert(0, os.path.join(os.path.dirname(os.path.realpath(__file__)), "..", "tests"))
import wire  # noqa: E402 - the encoder that the test data is made with

OPERATORS = ("+", "/", "==", "%", "*", "-", ">", ">=", "<", "<=", "!=")
COMPARISONS = ("==", "!=", ">", ">=", "<", "<=")
SETS = ("and", "unless")
KEYS = ("a", "b", "c")
VALUES = ("x", "y")
BATCH = 200
# Of samples an hour apart, as promtool has them: from 0 on.
START, STEP = 0, 3600000


class Case:
    """A query and two sides: lists of (labels as a dict without name, row with None for missing)."""

    def __init__(self, rng):
        self.points = rng.randint(1, 6)
        kind = rng.choice(("set", "one-to-one", "group_left", "group_right"))
        self.kind = kind
        self.op = rng.choice(SETS) if kind == "set" else rng.choice(OPERATORS)
        self.matching = rng.choice((None, "on", "ignoring"))
        self.listed = rng.sample(KEYS, rng.randint(0, 2)) if self.matching else []
        self.included = rng.sample(KEYS, rng.randint(0, 2)) if kind.startswith("group") else []
        # PromQL has no label twice in on() and group_left().
        if self.matching == "on":
            self.included = [k for k in self.included if k not in self.listed]
        self.bool = self.op in COMPARISONS and rng.random() < 0.4
        self.left = self.side(rng)
        self.right = self.side(rng)
        if kind == "one-to-one":
            self.left = self.disjoint(self.left)
            self.right = self.disjoint(self.right)
        elif kind == "group_left":
            self.right = self.first_of_keys(self.right)
        elif kind == "group_right":
            self.left = self.first_of_keys(self.left)

    def side(self, rng):
        side = []
        density = rng.choice((0.3, 0.6, 0.9))
        for _ in range(rng.randint(0, 6)):
            labels = {k: rng.choice(VALUES) for k in KEYS if rng.random() < 0.8}
            row = [rng.choice((1, 2, 3, 4, 5, 0.5, 7.25)) if rng.random() < density else None for _ in range(self.points)]
            if all(labels != other for other, _ in side):
                side.append((labels, row))
        return side

    def key(self, labels):
        if self.matching == "on":
            return tuple(sorted((k, v) for k, v in labels.items() if k in self.listed))
        return tuple(sorted((k, v) for k, v in labels.items() if k not in self.listed))

    def first_of_keys(self, side):
        seen = set()
        return [s for s in side if not (self.key(s[0]) in seen or seen.add(self.key(s[0])))]

    def disjoint(self, side):
        """Series of one key share out the points, where rows are long enough to be merged; else the first stays alone."""
        if self.points <= 2:
            return self.first_of_keys(side)
        taken = {}
        for labels, row in side:
            used = taken.setdefault(self.key(labels), set())
            for i, reading in enumerate(row):
                if reading is not None and i in used:
                    row[i] = None
                elif reading is not None:
                    used.add(i)
        return side

    def query(self):
        matching = {None: wire.ALL, "on": wire.ON, "ignoring": wire.IGNORING}[self.matching]
        join = {"group_left": wire.GROUP_LEFT, "group_right": wire.GROUP_RIGHT}.get(self.kind, wire.ONE_TO_ONE)
        flags = wire.BOOL if self.bool else 0
        lists = [[label.encode() for label in labels] for labels in (self.listed, self.included)]
        return wire.query(wire.OPERATORS.index(self.op), matching, join, flags, *lists)

    def expression(self):
        words = ["l", self.op]
        if self.bool:
            words.append("bool")
        if self.matching:
            words.append("%s(%s)" % (self.matching, ", ".join(self.listed)))
        if self.kind.startswith("group"):
            # PromQL takes a join only behind a matching.
            if not self.matching:
                words.append("ignoring()")
            words.append("%s(%s)" % (self.kind, ", ".join(self.included)))
        return " ".join(words + ["r"])


def vector(name, side, points):
    def record(labels):
        return wire.record(name, [(key.encode(), labels[key].encode()) for key in sorted(labels)])
    return wire.vector(points, [(record(labels), [wire.bits(r) for r in row]) for labels, row in side], START, STEP)


def vecop(words, case):
    """The answer's series, each its labels and its row; or the line of a refusal, or of an answer that lost points or grid. Labels here
    need no escapes."""
    framed = wire.frame(case.query(), vector(b"l", case.left, case.points), vector(b"r", case.right, case.points))
    lines = subprocess.run(words, input=framed, stdout=subprocess.PIPE, check=True).stdout.decode().splitlines()
    if lines[0].split(" ") != ["answer", str(len(lines) - 1), str(case.points), str(START), str(STEP)]:
        return lines[0]
    rows = []
    for line in lines[1:]:
        head, *words = line.split(" ")
        name, tags = head[:-1].split("{")
        labels = {k: v.strip('"') for k, v in (t.split("=") for t in tags.split(",") if t)}
        if name:
            labels["__name__"] = name
        values = [wire.value(int(w, 16)) for w in words]
        rows.append((labels, [None if v != v else v for v in values]))
    return rows


def written(labels):
    tags = ",".join('%s="%s"' % (k, labels[k]) for k in sorted(labels) if k != "__name__")
    return "%s{%s}" % (labels.get("__name__", ""), tags)


def unit_test(case, rows, counts):
    """One entry of a test file, or None where the result would hold equal labels."""
    lines = ["- interval: 1h", "  input_series:"]
    for name, side in (("l", case.left), ("r", case.right)):
        for labels, row in side:
            values = " ".join("_" if r is None else repr(r) for r in row)
            lines.append("  - series: '%s'" % written(dict(labels, __name__=name)))
            lines.append("    values: '%s'" % values)
    if len(lines) == 2:
        lines[1] += " []"
    lines.append("  promql_expr_test:")
    elements = 0
    for i in range(case.points):
        samples = [(written(labels), row[i]) for labels, row in rows if row[i] is not None]
        if len({s for s, _ in samples}) < len(samples):
            return None
        lines.append("  - expr: '%s'" % case.expression())
        lines.append("    eval_time: %dh" % i if i else "    eval_time: 0s")
        lines.append("    exp_samples:" + ("" if samples else " []"))
        for label, value in samples:
            lines.append("    - labels: '%s'" % label)
            lines.append("      value: %r" % value)
        elements += len(samples)
    counts["points"] += case.points
    counts["elements"] += elements
    if case.op in COMPARISONS:
        counts["of comparisons"] += elements
    return "\n".join(lines)


def judge(promtool, tests):
    with tempfile.TemporaryDirectory() as folder:
        path = os.path.join(folder, "cases.yml")
        with open(path, "w", encoding="ascii") as file:
            file.write("evaluation_interval: 1h\ntests:\n" + "\n".join(tests) + "\n")
        done = subprocess.run([promtool, "test", "rules", path], stdout=subprocess.PIPE, stderr=subprocess.STDOUT)
    return done.returncode == 0, done.stdout.decode()


def main():
    parser = argparse.ArgumentParser(description="Holds a vecop program against Prometheus, point by point.")
    parser.add_argument("--vecop", required=True, help="the words that run vecop: a path, or a loader with what it takes")
    parser.add_argument("--promtool", default="promtool")
    parser.add_argument("--seed", type=int, default=1)
    parser.add_argument("--cases", type=int, default=4000)
    args = parser.parse_args()
    words = args.vecop.split()
    for program, need in ((args.promtool, "Debian's package `prometheus` brings it"), (words[0], "build it first")):
        if shutil.which(program) is None:
            sys.exit("%s is not there: %s" % (program, need))
    rng = random.Random(args.seed)
    kinds, counts, tests, failed = {}, {"points": 0, "elements": 0, "of comparisons": 0}, [], 0
    skipped = 0

    def run_batch():
        nonlocal failed, tests
        good, report = judge(args.promtool, tests) if tests else (True, "")
        if not good:
            # Find the case: each alone.
            for test in tests:
                good, report = judge(args.promtool, [test])
                if not good:
                    failed += 1
                    if failed <= 5:
                        print(test, report, sep="\n")
        tests = []

    while sum(kinds.values()) < args.cases:
        case = Case(rng)
        rows = vecop(words, case)
        if isinstance(rows, str):
            failed += 1
            print("%s: %s" % (case.expression(), rows))
            kinds[case.kind] = kinds.get(case.kind, 0) + 1
            continue
        test = unit_test(case, rows, counts)
        if test is None:
            skipped += 1
            continue
        kinds[case.kind] = kinds.get(case.kind, 0) + 1
        tests.append(test)
        if len(tests) == BATCH:
            run_batch()
    run_batch()
    print("seed %d: %d cases (%s)" % (args.seed, sum(kinds.values()), ", ".join("%s %d" % k for k in sorted(kinds.items()))))
    print("%(points)d points, %(elements)d elements compared, %(of comparisons)d of them of comparisons" % counts)
    print("%d cases drawn again, their result having equal labels" % skipped)
    print("%d cases differ" % failed)
    sys.exit(failed != 0)


if __name__ == "__main__":
    main()
