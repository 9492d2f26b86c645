#!/usr/bin/env python3
"""Count the places in src/ where an older form of the language may stand, point by point of docs/DESIGN-PASS.md.

    python3 tools/forms.py [--places] [POINT ..]

A place that is found is a candidate: the page says which of them are of the point, and why one stays. Text is read, not meaning.
"""
import collections
import glob
import itertools
import os
import re
import sys

TOP = os.path.join(os.path.dirname(os.path.dirname(os.path.abspath(__file__))), "crates")
FUNCTION = re.compile(r"(?:pub(?:\(crate\))? )?(?:extern \"C\" )?fn (\w+)")
CLAUSE = re.compile(r"(requires|ensures)\s*(?:\w+)?\s*\{((?:[^{}]|\{[^{}]*\})*)\}")
PARAMETERS = re.compile(r"fn (\w+)(?:<[^>]*>)?\(((?:[^()]|\([^()]*\))*)\)")


def sources():
    for path in sorted(glob.glob(os.path.join(TOP, "*", "src", "*.rt"))):
        with open(path, encoding="utf-8") as file:
            yield os.path.relpath(path, TOP).replace("/src/", "/"), file.read()


def lines(pattern):
    """The lines of src/ that a pattern stands in."""
    found = re.compile(pattern)
    for name, text in sources():
        for number, line in enumerate(text.split("\n"), 1):
            if found.search(line):
                yield f"{name}:{number}: {line.strip()}"


def loops_that_count():
    """Each `while`, and each `loop`, whose body moves a number on by hand."""
    for name, text in sources():
        rows = text.split("\n")
        for number, line in enumerate(rows):
            head = re.match(r"( *)(while |loop \{)", line)
            if not head:
                continue
            end = next((i for i in range(number + 1, len(rows)) if rows[i].startswith(head.group(1) + "}")), number)
            if any(re.match(r"\s*\w+ (\+|-|/)= ", row) for row in rows[number:end]):
                yield f"{name}:{number + 1}: {line.strip()}"


def facts():
    """Each clause that stands, word for word, in the contracts of three or more functions."""
    where = collections.defaultdict(set)
    for name, text in sources():
        for function in FUNCTION.finditer(text):
            end = text.find("\n{", function.start())
            for kind, body in CLAUSE.findall(text[function.start():end]):
                said = re.sub(r"^let s = .*? in ", "", re.sub(r"\s+", " ", body).strip())
                where[kind, said].add(f"{name}:{function.group(1)}")
    for (kind, said), places in sorted(where.items(), key=lambda item: -len(item[1])):
        if len(places) > 2:
            yield f"{len(places)} {kind} {{ {said} }}"


def companions():
    """Each three parameters of one name and type that five or more functions take together; of sets that overlap, the widest."""
    where = collections.defaultdict(set)
    for name, text in sources():
        for function, listed in PARAMETERS.findall(text):
            taken = [re.sub(r"\s+|mut |'\w+ ?", " ", part).strip() for part in listed.split(",") if ":" in part]
            for some in itertools.combinations(sorted(taken), 3):
                where[some].add(f"{name}:{function}")
    for some, places in sorted(where.items(), key=lambda item: (-len(item[1]), item[0])):
        if len(places) > 4:
            yield f"{len(places)} ({', '.join(some)})"


POINTS = [
    ("1 enums declared", lambda: lines(r"^(pub(\(crate\))? )?enum ")),
    ("1 results that a number stands for: none, a side, a refusal", lambda: lines(r"65535u16|== 0 \{$|Ok\(0\)|DROPPED|refused\(\d|return 0;")),
    ("3 loops by `while`", lambda: lines(r"^\s*while ")),
    ("3 loops by `loop`", lambda: lines(r"^\s*loop \{")),
    ("3 of these, loops that move a number on", loops_that_count),
    ("3 lengths compared with 0", lambda: lines(r"len\(\) == 0")),
    ("4 numbers widened by `as`", lambda: lines(r" as (u64|usize)\b")),
    ("4 truths returned by hand", lambda: lines(r"\{ (true|false) \}|=> (true|false),?$|^\s*(true|false)$|return (true|false);")),
    ("5 facts in three or more contracts", facts),
    ("5 three parameters together in five or more functions", companions),
    ("6 arrays of a fixed length", lambda: lines(r"\[[\w:]+; \d+\]")),
    ("7 arms of a `match` that call a step of another module", lambda: lines(r"=> (\w+\()?[a-z]\w*::[a-z]\w*\(")),
]


def main(words):
    listed = "--places" in words
    chosen = [word for word in words if word != "--places"]
    for title, places in POINTS:
        if chosen and title[0] not in chosen:
            continue
        found = list(places())
        print(f"{len(found):4} {title}")
        if listed:
            print("".join(f"       {place}\n" for place in found), end="")


main(sys.argv[1:])
