#!/usr/bin/env python3
"""Asks Prometheus for its side of the table in docs/DIFFERENCES.md ("Prometheus"), row by row.

Needs: python3 (its standard library alone); `promtool`, which Debian's package `prometheus` brings. Installs nothing.

    oracle/promtool_table.py [--promtool PROGRAM]

Each row has series, an hour apart, an expression, and what Prometheus is to make of it: the elements at a time, or a refusal.
Prints a line a row, with Prometheus' own words where it refuses, and ends with 1 where a row is not as the table has it.
"""
import argparse
import re
import shutil
import sys

from promtool import judge

REFUSED = None

# what the row is about; series and values; expression; hour; elements, or a refusal
ROWS = (
    ("a join, several one-side series of a key", (('l{a="x"}', "1"), ('r{a="x",b="1"}', "1"), ('r{a="x",b="2"}', "1")),
     "l * on(a) group_left() r", 0, REFUSED),
    ("a join, equal edited labels", (('l{a="x",b="1"}', "1"), ('l{a="x",b="2"}', "1"), ('r{a="x",b="3"}', "1")),
     "l * on(a) group_left(b) r", 0, REFUSED),
    ("a join list *", (("l", "1"), ("r", "1")), "l * on() group_left(*) r", 0, REFUSED),
    ("a label in on and in the join list", (('l{a="x"}', "1"), ('r{a="x"}', "1")), "l * on(a) group_left(a) r", 0, REFUSED),
    ("a join without on or ignoring", (("l", "1"), ("r", "1")), "l * group_left() r", 0, REFUSED),
    ("one-to-one, two series of a key", (('l{a="x",b="1"}', "1"), ('l{a="x",b="2"}', "1"), ('r{a="x"}', "1")), "l * on(a) r", 0, REFUSED),
    ("keep names", (("l", "2"), ("r", "3")), "l * r keep_metric_names", 0, REFUSED),
    ("an empty tag value", (('l{a=""}', "2"), ("r", "3")), "l * r", 0, {"{}": "6"}),
    ("a NaN", (("l", "NaN"),), "count(l)", 0, {"{}": "1"}),
    ("or, where the left has an element", (("l", "1 _"), ("r", "5 6")), "l or r", 0, {"l": "1"}),
    ("or, in a gap of the left", (("l", "1 _"), ("r", "5 6")), "l or r", 1, {"r": "6"}),
    ("if", (("l", "1"), ("r", "1")), "l if r", 0, REFUSED),
    ("ifnot", (("l", "1"), ("r", "1")), "l ifnot r", 0, REFUSED),
    ("default", (("l", "1"), ("r", "1")), "l default r", 0, REFUSED),
)


def unit_test(series, expression, hour, elements):
    lines = ["- interval: 1h", "  input_series:"]
    for name, values in series:
        lines += ["  - series: '%s'" % name, "    values: '%s'" % values]
    lines += ["  promql_expr_test:", "  - expr: '%s'" % expression, "    eval_time: %dm" % (60 * hour)]
    lines.append("    exp_samples:" + ("" if elements else " []"))
    for labels, value in (elements or {}).items():
        lines += ["    - labels: '%s'" % labels, "      value: %s" % value]
    return "\n".join(lines)


def main():
    parser = argparse.ArgumentParser(description=__doc__, formatter_class=argparse.RawDescriptionHelpFormatter)
    parser.add_argument("--promtool", default="promtool")
    args = parser.parse_args()
    if shutil.which(args.promtool) is None:
        sys.exit("%s is not there: Debian's package `prometheus` brings it" % args.promtool)
    other = 0
    for about, series, expression, hour, elements in ROWS:
        good, report = judge(args.promtool, [unit_test(series, expression, hour, elements)])
        told = re.search(r"(?:err|error): *(.*)", report)
        seen = not good and told is not None if elements is REFUSED else good
        other += not seen
        words = "refused: " + told.group(1).strip()[:110] if elements is REFUSED and told else "as the table has it" if seen else report
        print("%s | %s | %s%s" % (about, expression, "" if seen else "NOT SO: ", words))
    print("%d rows, %d not as the table has them" % (len(ROWS), other))
    sys.exit(other != 0)


if __name__ == "__main__":
    main()
