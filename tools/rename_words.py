#!/usr/bin/env python3
"""Respells the repository's own definitions and lemmas: words in snake case. usage: rename_words.py [--check]

Run once at the top of the repository, after the toolchain's own port script. A name that specs/ or proofs/ declares and that has an upper-case letter inside or a
dash (`littleValue`, `differ-at`) becomes one in snake case (`little_value`, `differ_at`), in definitions, proofs, clauses, edits, and where the papers cite it in
backquotes. Types and modules keep their names. Functions of src/, exported names, strings, inputs and outputs are not touched. Two names that would fall together, or a
name that would meet a word that stands in one of its files already, get the word of OTHER in place of the plain one; where OTHER has none, the script stops.
"""
import collections
import glob
import os
import re
import sys

# Names that would meet another word.
OTHER = {}
# A name that a library of the logic has too, and that files here take from both.
KEPT = {"and-false"}
# Names that are declared several to a line, or as a parameter of a module.
MORE = "largeList nestingShape groupingShape scalarShape inputRoom outputRoom littleEndian bigEndian isNullable stepWritten ruleA ruleB isEntry isDone isVisit plainBelow infoFree schemaLineOf plainCount inputLong outputLong sameExports".split()

W = r"[^\s(){}.;,@\"«»\[\]\\]+"
DECL = re.compile(r"^(\s*)((?:(?:abbrev|unfoldable|opaque|pub|private|infix[lr]?\s+\d+)\s+)*)([^\s:(){}.,;=λ→]+)((?:\s+\{[^{}\n]*\})*)\s*:\s")
GOALS = re.compile(r"/proofs/.*/(Proof|Answers|Invariants)\.antt$")
CAMEL = re.compile(r"[a-z0-9][A-Z]")


def texts(*patterns):
    out = []
    for p in patterns:
        out += glob.glob(p, recursive=True)
    return sorted(p for p in set(out) if "/out/" not in p and os.path.isfile(p))


def read(p):
    with open(p, encoding="utf-8", newline="") as f:
        return f.read()


def snake(n):
    n = re.sub(r"(?<=[a-z0-9'])(?=[A-Z])", "_", n).replace("-", "_")
    return n.lower() if not n[0].isupper() else n


def is_old(n):
    if not re.match(r"[a-z]", n):
        return False
    return bool(CAMEL.search(n)) or "-" in n


def declared():
    """The names that the repository declares, each with whether it is a field of a record."""
    names, fields = {}, set()
    for p in texts("crates/*/specs/**/*.antt", "crates/*/proofs/**/*.antt"):
        goals = GOALS.search(p)
        record = None
        for line in read(p).split("\n"):
            m = re.match(r"^(\s*)(?:pub\s+)?(record|data|mutual)\b", line)
            if m:
                record = len(m[1]) if m[2] == "record" else record
            d = DECL.match(line)
            if not d:
                if line.strip() and not line.startswith(" "):
                    record = None if not m else record
                continue
            if record is not None and len(d[1]) <= record:
                record = None
            n = d[3]
            if not is_old(n):
                continue
            is_goal = goals and re.search(r":\s*(tie|goal)\.", line)
            if is_goal or n in KEPT:
                continue
            names.setdefault(n, set()).add(p)
            if record is not None:
                fields.add(n)
    for n in MORE:
        names.setdefault(n, set())
    return names, fields


CODE = re.compile(r"--[^\n]*|\"(?:[^\"\\]|\\.)*\"|" + W)
RT = re.compile(r"//[^\n]*|b?\"(?:[^\"\\]|\\.)*\"|b?'(?:[^'\\\n]|\\.)'|" + W)
BACK = re.compile(r"`([^`\n]+)`")
QUOTED = r"[^\s(){}.;,@\"«»\[\]\\`]+"


def in_comment(text, new):
    """Names in backquotes, and names with an upper-case letter inside, wherever they stand in a comment."""
    one = lambda m: re.sub(QUOTED, lambda t: new.get(t[0], t[0]), m[0])
    text = BACK.sub(one, text)
    return re.sub(QUOTED, lambda t: new[t[0]] if t[0] in new and CAMEL.search(t[0]) else t[0], text)


def turned(p, text, new, fields, odd):
    def one(m):
        t = m[0]
        if t.startswith("--") and p.endswith(".antt") or t.startswith("//"):
            return in_comment(t, new)
        if t[0] in "\"'" or t[:2] in ('b"', "b'"):
            return t
        if t not in new:
            return t
        before = m.string[: m.start()]
        if before.endswith(".") and t not in fields:
            head = re.search(r"([^\s(){};,@\"«»\[\]\\]+)\.$", before)
            if head and head[1][0].isupper():
                return new[t]
            odd.append((p, (head[1] if head else "?") + "." + t))
            return t
        return new[t]

    return (CODE if p.endswith(".antt") else RT).sub(one, text)


def moved():
    """Rattle makes a module `specs.contracts` now: the module of that name in import_field is `Recursion`."""
    old, made = "crates/import_field/specs/Contracts.antt", "crates/import_field/specs/Recursion.antt"
    if not os.path.exists(old):
        return
    os.rename(old, made)
    for p in texts("crates/**/*.antt", "crates/**/*.rt", "crates/*/must-fail/*.edit", "docs/**/*.md", "*.md"):
        t = read(p)
        u = t.replace("Rattle.import_field.specs.Contracts", "Rattle.import_field.specs.Recursion").replace("import_field/specs/Contracts", "import_field/specs/Recursion")
        if p == "crates/import_field/specs/Lib.antt":
            u = u.replace("mod Contracts", "mod Recursion")
        if "/import_field/must-fail/" in p:
            u = u.replace("file: specs/Contracts.antt", "file: specs/Recursion.antt")
        if u != t:
            with open(p, "w", encoding="utf-8", newline="") as f:
                f.write(u)


def main():
    if "--check" not in sys.argv:
        moved()
    names, fields = declared()
    new = {n: OTHER.get(n, snake(n)) for n in names}
    # A lemma that would have its definition's name, or that of another lemma whose name has a capital, gets `_lem`.
    by = collections.defaultdict(list)
    for n in new:
        by[new[n]].append(n)
    for k, v in by.items():
        dashed = [n for n in v if "-" in n and n not in OTHER]
        if len(v) > 1 and len(dashed) == 1:
            new[dashed[0]] = k + "_lem"
    by = collections.defaultdict(list)
    for n in new:
        by[new[n]].append(n)
    bad = [(k, v) for k, v in by.items() if len(v) > 1]
    code = texts("crates/*/specs/**/*.antt", "crates/*/proofs/**/*.antt", "crates/*/src/**/*.rt")
    strip = lambda t: re.sub(r"--[^\n]*|//[^\n]*|\"(?:[^\"\\]|\\.)*\"", "", t)
    # a word that stands alone: no part of a path; in code, no function that is declared or called, and no module
    alone = {".antt": r"(?<![^\s(){};,@«»\[\]])" + W + r"(?!\.)", ".rt": r"(?<![.:\w])\w+(?!\w*(?:::|\())(?<!fn )"}
    tokens = {}
    for p in code:
        t = strip(read(p))
        if p.endswith(".rt"):
            t = re.sub(r"\b(fn|mod) \w+|\buse [^;]*;", lambda m: m[0] if m[0].startswith("ghost") else "", re.sub(r"(?m)^ghost use .*$", "", t))
            tokens[p] = set(re.findall(alone[".rt"], t))
            tokens[p] |= {n for n in names if n in read(p)}
        else:
            tokens[p] = set(re.findall(alone[".antt"], t))
    meets = collections.defaultdict(list)
    for p, ts in tokens.items():
        for n in ts:
            if n in new and new[n] in ts:
                meets[n].append(p)
    # a name that a file takes from a library of the kit
    library = collections.defaultdict(list)
    for p in code:
        for m in re.finditer(r"\buse ([^\s;{]+)\.\{([^}]*)\}", read(p)):
            if not re.match(r"Rattle\.(std|core)\b", m[1]) and m[1].startswith("Rattle."):
                continue
            for w in re.split(r"[,\s]+", m[2]):
                if w in new:
                    library[w].append((p, m[1]))
    # a name in snake case that was a lemma's already
    there = {}
    own = {d[3] for p in code if p.endswith(".antt") for d in map(DECL.match, read(p).split("\n")) if d}
    for n in list(meets):
        if "-" in n:
            new[n] += "_lem"
        elif new[n] in own and new[n] not in new:
            for p in meets[n]:
                there.setdefault(p, {})[new[n]] = new[n] + "_lem"
                module = "Rattle." + re.sub(r"^crates/", "", p)[: -len(".antt")].replace("/", ".")
                for q in code:
                    if q.endswith(".antt") and re.search(r"\buse " + re.escape(module) + r"\.\{[^}]*(?<![\w-])" + new[n] + r"(?![\w-])[^}]*\}", read(q)):
                        there.setdefault(q, {})[new[n]] = new[n] + "_lem"
        else:
            continue
        del meets[n]
    check = "--check" in sys.argv
    if check or bad or meets or library:
        for k, v in sorted(bad):
            print("together:", k, v, [sorted(names[x])[:2] for x in v])
        for n, ps in sorted(meets.items()):
            print("meets:", n, new[n], ps[:4])
        for n, ps in sorted(library.items()):
            print("library:", n, ps[:3])
        print(len(new), "names;", len(fields), "fields")
        if check:
            odd = []
            for p in code:
                turned(p, read(p), {**new, **there.get(p, {})}, fields, odd)
            print("there:", {k: sorted(v) for k, v in there.items()})
            c = collections.Counter(o for _, o in odd)
            print("odd:", len(odd), c.most_common(60))
        if not check:
            return 1
        return 0
    odd = []
    edits = texts("crates/*/must-fail/*.edit")
    for p in code + edits:
        t = read(p)
        u = edit(p, t, new, fields, odd) if p.endswith(".edit") else turned(p, t, {**new, **there.get(p, {})}, fields, odd)
        if u != t:
            with open(p, "w", encoding="utf-8", newline="") as f:
                f.write(u)
    for p in texts("*.md", "docs/**/*.md"):
        t = read(p)
        u = BACK.sub(lambda m: re.sub(QUOTED, lambda x: new.get(x[0], x[0]), m[0]), t)
        if u != t:
            with open(p, "w", encoding="utf-8", newline="") as f:
                f.write(u)
    return 0


def edit(p, t, new, fields, odd):
    out = []
    for line in t.split("\n"):
        if re.match(r"(old|new):", line):
            kind = ".antt" if re.search(r"(?m)^file: .*\.antt", t) else ".rt"
            head, rest = line[:4], line[4:]
            out.append(head + turned(p[:-5] + kind, rest, new, fields, odd))
        else:
            out.append(in_comment(line, new))
    return "\n".join(out)


if __name__ == "__main__":
    raise SystemExit(main())
