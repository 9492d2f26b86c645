#!/usr/bin/env python3
"""Respell the definitions, lemmas, constructors and fields of specs/ and proofs/ as Rattle spells names.

Run once at the top of the checkout, right after the kit's port.py:  python3 tools/respell.py [--check]
A name in lower camel case goes into snake case (`labelBytes`, `label_bytes`). A dash between plain words becomes an underscore
(`rows-place`, `rows_place`); it stays where it joins two names (`length-rows`, `All-pick`). Types, modules, the functions and
fields of src/, and what a proof by hand names for itself keep their spelling. Nothing is written where two names would fall
together; OTHER says what such a name becomes.
"""
import collections
import os
import re
import subprocess
import sys

ROOT = os.path.join(os.path.dirname(os.path.dirname(os.path.abspath(__file__))), "crates")
TOP = re.compile(r"^(?:(?:abbrev|unfoldable) )?(?:pub )?(?:(?:abbrev|unfoldable) )?([^\s:()]+) :(?:\s|$)")
TYPE = re.compile(r"^(?:pub )?(data|record) ([^\s:()]+)")
MEMBER = re.compile(r"^  (?:pub )?([^\s:()]+) :(?:\s|$)")
NESTED = re.compile(r"^ +(?:(?:abbrev|unfoldable) )?(?:pub )?(?:(?:abbrev|unfoldable) )?([^\s:(){}λ=]+(?: [^\s:(){}λ=]+)*) :(?:\s|$)")
TOKEN = re.compile(r'[^\s(){}.;,@"«»`]+')
CAMEL = re.compile(r"^[a-z][A-Za-z0-9]*[A-Z]")
# names of the library before which a dash joins
HEADS = {"length", "take", "drop", "append", "get_or"}
# a definition that would take the name of a parameter, a field or a variable beside it, and what it becomes instead
OTHER = {
    "leftWork": "left_work_after",
    "rightWork": "right_work_after",
    "first-at": "first_at_lem",
    "labels-from": "labels_from_lem",
    "row-at": "row_at_lem",
    "up-from": "up_from_lem",
    "is-nan": "is_nan_lem",
    "answer-of": "answer_of_lem",
    "first-of": "first_of_lem",
    "last-of": "last_of_lem",
    "right-code": "right_code_lem",
    "set-row": "set_row_lem",
}
# words that stand beside a name that becomes them and mean the same, or are no variable: a label, a function, a field of src/
ALIKE = {"skip_list", "work_after", "left_work_after", "right_work_after", "left_below", "keep_names", "group_right", "join_at"}


def texts(kinds):
    for folder, folders, files in os.walk(ROOT):
        folders[:] = sorted(f for f in folders if f != "out")
        for name in sorted(files):
            if name.endswith(kinds):
                yield os.path.join(folder, name)


def read(path):
    with open(path, encoding="utf-8") as file:
        return file.read()


def declared():
    """The names that specs/ and the lemmas of proofs/ declare, in sections and `where` too, and those that start in lower camel case."""
    found = set()
    for path in texts((".antt",)):
        if path.endswith("/Proof.antt"):
            continue
        inside = False
        text = re.sub(r"(?m)(?:^|\s)--.*$", "", read(path))
        found |= {word for word in TOKEN.findall(text) if CAMEL.match(word)}
        for line in text.split("\n"):
            nested = NESTED.match(line)
            if nested and not inside:
                found |= set(nested.group(1).split())
            top, kind, member = TOP.match(line), TYPE.match(line), MEMBER.match(line)
            if kind:
                inside = True
            elif top:
                found.add(top.group(1))
                inside = False
            elif member and inside:
                found.add(member.group(1))
            elif line and not line.startswith(" "):
                inside = False
    return found


def snake(word):
    return re.sub(r"(?<=[a-z0-9])([A-Z])", lambda m: "_" + m.group(1).lower(), word) if CAMEL.match(word) else word


def respelled(name, names):
    if name in OTHER:
        return OTHER[name]
    name = name.replace("getD", "get_or").replace("′", "'")
    parts = [snake(part) for part in name.split("-")]
    out = parts[0]
    for i, part in enumerate(parts[1:], 1):
        rest = "_".join(parts[i:])
        joins = parts[0][0].isupper() or (i == 1 and parts[0] in HEADS and (part in names or rest in names))
        out += ("-" if joins else "_") + part
    return out


def turned(text, table, code):
    """text with the names of table; a name behind a dot turns only where it is no name of a proof's own goals."""
    out, at = [], 0
    for match in TOKEN.finditer(text):
        new = table.get(match.group())
        if new is None or not code(match) or in_path(text, match):
            continue
        out += [text[at:match.start()], new]
        at = match.end()
    return "".join(out) + text[at:]


def in_path(text, match):
    start = text.rfind("\n", 0, match.start()) + 1
    return bool(re.match(r"(?:ghost )?use [^\s{;]*$", text[start:match.start()]))


def antt(text, table, by_hand):
    own = re.compile(r"(?:^|[\s(){};,])(?:tie|goal|c|w|l)(?:\.[^\s(){};,]*)?\.$")

    def code(match):
        start = text.rfind("\n", 0, match.start()) + 1
        before = text[start:match.start()]
        if "--" in before and re.search(r"(?:^|\s)--", before):
            return bool(CAMEL.match(match.group()))
        return not by_hand or bool(CAMEL.match(match.group())) or not own.search(before)

    return turned(text, table, code)


def rust(text, table):
    spans = [m.span() for m in re.finditer(r"(?:ghost use[^;]*;|(?:requires|ensures)\*?\s*\w*\s*\{[^\n]*)", text)]

    def code(match):
        name = match.group()
        if CAMEL.match(name):
            return True
        return any(a <= match.start() < b for a, b in spans)

    return turned(text, table, code)


def words(text, is_rust):
    """The words of a file but those of its import paths, and in src/ but its functions and modules."""
    text = re.sub(r"(?m)^((?:ghost )?use )[^\s{;]*", r"\1", text)
    text = re.sub(r"(?m)(?:^|\s)(?:--|//|#).*$", "", text)
    found = set(TOKEN.findall(text))
    if is_rust:
        code = re.sub(r"//[^\n]*", "", text)
        for name in set(re.findall(r"\w+", code)):
            if name in found and not re.search(rf"(?<![\w:.]){name}(?!\w|\(|::|;)", code) and re.search(rf"(?<!\w){name}(?=\(|::|;)", code):
                found.discard(name)
    return found


def main():
    names = declared()
    plain = {snake(n) for n in names}
    table = {n: respelled(n, plain) for n in names}
    both = collections.defaultdict(list)
    for old, new in table.items():
        both[new].append(old)
    # a lemma that would have its function's name ends in `_lem`
    for new, olds in both.items():
        functions = [old for old in olds if CAMEL.match(old)]
        if len(olds) == 2 and len(functions) == 1:
            lemma = next(old for old in olds if old != functions[0])
            table[lemma] = new + "_lem"
    table = {old: new for old, new in table.items() if old != new}
    clashes = []
    both = collections.defaultdict(list)
    for old, new in table.items():
        both[new].append(old)
    for new, olds in sorted(both.items()):
        if len(olds) > 1:
            clashes.append(f"{' and '.join(sorted(olds))} -> {new}")
        if new in names and new not in table:
            clashes.append(f"{olds[0]} -> {new}, a name already")
    changes = {}
    for path in texts((".antt", ".rt", ".edit")):
        text = read(path)
        after = rust(text, table) if path.endswith(".rt") else antt(text, table, path.endswith("/Proof.antt"))
        had = words(text, path.endswith(".rt"))
        for old, new in table.items():
            if old in had and new in had and new not in names | ALIKE:
                clashes.append(f"{os.path.relpath(path, ROOT)}: {old} -> {new}, a word there already")
        if after != text:
            changes[path] = after
    top = os.path.dirname(ROOT)
    for folder in (top, os.path.join(top, "docs"), os.path.join(top, "docs", "requests")):
        for name in sorted(os.listdir(folder)):
            if name.endswith(".md"):
                path = os.path.join(folder, name)
                text = read(path)
                after = re.sub(r"`[^`\n]*`", lambda m: turned(m.group(), table, lambda w: bool(CAMEL.match(w.group()))), text)
                if after != text:
                    changes[path] = after
    for line in clashes:
        print(line)
    print(f"{len(table)} names, {len(changes)} files, {len(clashes)} clashes")
    if clashes or "--check" in sys.argv:
        return 1 if clashes else 0
    for path, after in changes.items():
        with open(path, "w", encoding="utf-8") as file:
            file.write(after)
    for crate in sorted(os.listdir(ROOT)):
        subprocess.run(["rt", "fmt"], cwd=os.path.join(ROOT, crate), stdout=subprocess.DEVNULL, check=False)
    return 0


if __name__ == "__main__":
    sys.exit(main())
