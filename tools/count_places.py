#!/usr/bin/env python3
"""Counts the places of docs/DESIGN-PASS.md in the crates of a checkout: usage: tools/count_places.py [--list] [FOLDER]
It goes by text. --list prints each place. FOLDER is a checkout, this one if none is given; that of an older commit is made by `git worktree add FOLDER COMMIT`."""

import collections
import glob
import os
import re
import sys

ITEM = re.compile(r"^( *)((?:pub(?:\(crate\))? )?(?:extern \"C\" )?fn (\w+))", re.M)


def sources(folder):
    for path in sorted(glob.glob(os.path.join(folder, "crates/*/src/*.rt"))):
        with open(path, encoding="utf-8") as f:
            yield os.path.relpath(path, os.path.join(folder, "crates")).replace("/src", ""), re.sub(r"//[^\n]*", "", f.read())


def functions(text):
    """name, head (signature and clauses) and body of each function"""
    for m in ITEM.finditer(text):
        start = re.compile(r"\n" + m[1] + r"\{\n| \{\n").search(text, m.start())
        end = text.find("\n" + m[1] + "}\n", start.end() - 1)
        yield m[3], text[m.start() : start.start()], text[start.end() : end]


def variants(body):
    return re.findall(r"^    (\w+)(\([^)]*\)| \{[^}]*\})?,?$", body, re.M)


def shaped(found):
    """one variant has a value and one has none, or some variant is a refusal and at most one has a value"""
    values = [p for _, p in found if p and p not in ("(Refusal)", "(u8)")]
    refusals = [p for _, p in found if p in ("(Refusal)", "(u8)")]
    return len(values) == 1 and len(found) == 2 or bool(refusals) and len(values) <= 1


def places(folder):
    p = collections.OrderedDict()

    def put(point, what):
        p.setdefault(point, []).append(what)

    for point in ("1 enums shaped like Option or Result", "1 a number or flag beside a value", "1 constants that number kinds", "1 parameters `kind` that are numbers", "2 names declared twice",
                  "3 `while` over a counted index", "3 `for` over indices", "4 conversions by a match of constants", "4 own order", "5 facts asked by three functions or more", "5 parameters that eight functions or more take together",
                  "6 a length or place beside a buffer", "7 enums that say which step to run"):
        p[point] = []
    types = collections.defaultdict(list)
    asked = collections.Counter()
    groups = collections.Counter()
    for path, text in sources(folder):
        for m in re.finditer(r"^(?:pub )?enum (\w+) \{\n(.*?)^\}", text, re.M | re.S):
            types[m[1]].append(path)
            if shaped(variants(m[2])):
                put("1 enums shaped like Option or Result", f"{path} {m[1]}")
            if m[1] == "Ordering":
                put("4 own order", f"{path} {m[1]}")
        for m in re.finditer(r"^(?:pub )?struct (\w+) \{\n(.*?)^\}", text, re.M | re.S):
            types[m[1]].append(path)
            if re.search(r"^    (?:pub )?number: u(8|64),", m[2], re.M):
                put("1 a number or flag beside a value", f"{path} {m[1]}")
            if re.search(r"\[u\d+; \w+\]", m[2]) or re.search(r"^    (?:pub )?(?:len|count): usize,", m[2], re.M):
                put("6 a length or place beside a buffer", f"{path} {m[1]}")
        for m in re.finditer(r"^(?:pub )?const (\w+): u(?:8|64) = (\d+);", text, re.M):
            if re.search(r"/(kind|unit|call)\.rt$", path) or m[1] in ("NO_ROOM", "INT128", "UINT128"):
                put("1 constants that number kinds", f"{path} {m[1]}")
        for name, head, body in functions(text):
            where = f"{path} {name}"
            if re.search(r"\b(?:kind|code|call): u64", head):
                put("1 parameters `kind` that are numbers", where)
            for loop in re.finditer(r"^( *)while ([^{]*) \{\n(.*?)^\1\}", body, re.M | re.S):
                index = re.findall(r"\b(\w+) (?:\+|-)= (?:1|2|4|8|BLOCK)\b|\b(\w+) = \2 \+ 1\b", loop[3])
                if any((a or b) in loop[2] for a, b in index):
                    put("3 `while` over a counted index", f"{where}: while {loop[2]}")
            for loop in re.finditer(r"\bfor \w+ in (?:0|1)\.\.([^{]*) \{", body):
                put("3 `for` over indices", f"{where}: {loop[0][:-2]}")
            if len(re.findall(r"^ +(?:\w+::)?\w+ => (?:Some\()?(?:\d+|\w+::\w+)\)?,", body, re.M)) >= 2 and re.search(r"\bmatch (?:self|place)\b", body):
                put("4 conversions by a match of constants", where)
            if re.search(r"out: &mut \[u8\],\s*at: usize", head):
                put("6 a length or place beside a buffer", f"{where} (out, at)")
            for fact in re.findall(r"requires (?:\w+ )?\{ (.*?) \}", head):
                for part in fact.split(" × "):
                    asked[part] += 1
            params = re.search(r"fn \w+(?:<[^>]*>)?\(([^)]*)\)", head, re.S)
            named = [x.split(":")[0].strip() for x in (params[1] if params else "").split(",") if ":" in x]
            for i, a in enumerate(named):
                for b in named[i + 1 :]:
                    groups[(a, b)] += 1
    for name, where in types.items():
        if len(where) > 1:
            put("2 names declared twice", f"{name}: {', '.join(where)}")
    for fact, n in asked.items():
        if n >= 3:
            put("5 facts asked by three functions or more", f"{n} times {fact}")
    for (a, b), n in groups.items():
        if n >= 8:
            put("5 parameters that eight functions or more take together", f"{n} times {a}, {b}")
    for path, text in sources(folder):
        for name in ("Call", "LeafLine", "Change", "Choice", "Content", "Conversion"):
            if re.search(r"^(?:pub )?enum " + name + r" \{", text, re.M):
                put("7 enums that say which step to run", f"{path} {name}")
    return p


def main():
    args = [a for a in sys.argv[1:] if a != "--list"]
    folder = args[0] if args else os.path.join(os.path.dirname(os.path.abspath(__file__)), "..")
    for point, found in places(folder).items():
        print(f"{len(found):5}  {point}")
        if "--list" in sys.argv[1:]:
            for what in found:
                print("         ", what)
    answers = glob.glob(os.path.join(folder, "crates/*/proofs/**/*.antt"), recursive=True)
    mine = [f for f in answers if os.path.basename(f) in ("Answers.antt", "Invariants.antt")]
    lines = sum(sum(1 for _ in open(f, encoding="utf-8")) for f in answers)
    print(f"{len(mine):5}  8 files of answers and invariants; {lines} lines in proofs/")


if __name__ == "__main__":
    main()
