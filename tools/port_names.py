#!/usr/bin/env python3
"""Brings the repository's own definitions and lemmas to today's spelling: words in snake case; a dash stays where it joins the names of two definitions, as in
`length-places`. Run once, at the top of the repository, right behind port.py. Names that Rattle makes, names of src/ and of types stay.

A lemma that would have its definition's name gets `_lem`. The table of names is printed; a name that falls together with another stops the script."""
import glob
import re
import sys

WORD = r"[A-Za-z0-9_'₀-₉ᵃ-ᶻκμ+-]"
DEF = re.compile(r"^(\s*)((?:(?:pub|abbrev|unfoldable) )*)([^\s:(){}\[\]λ.;,]+) :(?= |$)")
# Lemmas that port.py gave their definition's name.
LEMMAS = ["all_there", "row_room", "too_many"]
STD = set("length take drop append map sum count set suc zero true false and or not min max get_or cond refl sym ap nil cons head digits".split())


def snake(part):
    part = re.sub(r"(?<=[a-z0-9])([A-Z])", lambda m: "_" + m.group(1), part)
    part = re.sub(r"(?<=[A-Z])([A-Z][a-z])", lambda m: "_" + m.group(1), part)
    return part.lower()


def files():
    yield from sorted(glob.glob("crates/*/specs/*.antt"))
    yield from sorted(glob.glob("crates/*/proofs/**/*.antt", recursive=True))


def made(text):
    """Names of Rattle's in a file that walks the code: answers, invariants, measures, the theorem's own name."""
    names = set(re.findall(rf"Need-({WORD}+)", text))
    names |= set(re.findall(rf"^((?:invariant|decreases)-{WORD}+)", text, re.M))
    names |= set(re.findall(r"^pub ([^\s:]+[-_]spec) :", text, re.M))
    names |= set(re.findall(r"^abbrev (μ-[^\s:]+) :", text, re.M))
    names |= set(re.findall(r" as ([^\s,}]+)\s*$", text, re.M))
    return names


def main():
    texts = {f: open(f).read() for f in files()}
    walked = {f: made(t) if f.endswith("/Proof.antt") else set() for f, t in texts.items()}
    definitions, fields, lemmas, order = set(STD), set(), set(), []
    for f, t in texts.items():
        record = None
        for line in t.split("\n"):
            head = re.match(r"^(\s*)(?:pub )?(record|data) ", line)
            if head:
                record = (len(head.group(1)), head.group(2))
                continue
            m = DEF.match(line)
            if line.strip() and record and len(line) - len(line.lstrip()) <= record[0]:
                record = None
            if not m or line.lstrip().startswith("--"):
                continue
            name = m.group(3)
            if name in walked[f] or not re.match(r"[a-z]", name):
                continue
            if record:
                fields.add(name)
            elif "unfoldable" in m.group(2) or "abbrev" in m.group(2):
                definitions |= {snake(name)} if len(name) > 1 else set()
            else:
                lemmas.add(name)
            order.append(name)

    def spelled(name):
        parts = [snake(p) for p in name.split("-")]
        for k in range(1, len(parts)):
            left, right = "_".join(parts[:k]), "_".join(parts[k:])
            if name not in fields and left in definitions and right in definitions:
                return left + "-" + right
        return "_".join(parts)

    tokens = set()
    for t in texts.values():
        tokens |= set(re.findall(rf"(?<!{WORD})(?<!\.){WORD}+(?![.{WORD[1:]})", re.sub(r"(?m)--.*$", "", t)))
    table = {n: spelled(n) for n in dict.fromkeys(order)}
    table = {n: s for n, s in table.items() if n != s}
    table |= {n: n + "_lem" for n in LEMMAS}
    taken = {t for t in tokens if t not in table}
    new = {}
    for n in sorted(table, key=lambda n: (n in lemmas and n not in fields, n)):
        s = table[n]
        if s in taken or s in new.values():
            s += "_lem"
        if s in taken or s in new.values():
            sys.exit(f"{n} and another name fall together as {s}")
        if s != table[n]:
            print(f"falls together: {n} -> {s}")
        new[n] = s
    for n in sorted(new):
        print(n, new[n])
    one = re.compile(rf"(?<!{WORD})(\.?)((?!-){WORD}+)(?!{WORD})")

    def turn(text, skip):
        def put(m):
            dot, name = m.groups()
            if name not in new or name in skip or (dot and name not in fields):
                return m.group(0)
            return dot + new[name]

        return one.sub(put, text)

    for f, t in texts.items():
        u = turn(t, walked[f])
        if u != t:
            open(f, "w").write(u)
    for f in sorted(glob.glob("crates/*/src/**/*.rt", recursive=True)):
        t = open(f).read()
        lines = []
        for line in t.split("\n"):
            ghost = re.search(r"\b(ghost|requires|ensures|invariant)\b", line)
            code, mark, said = line.partition("//")
            if ghost:
                line = turn(line, set())
            else:
                line = re.sub(r"(?<![\w-])[a-z][a-z0-9]*(?:[A-Z][A-Za-z0-9]*)+(?![\w-])", lambda m: new.get(m.group(0), m.group(0)), line)
                line = re.sub(r"`([^`\s]+)`", lambda m: "`" + new.get(m.group(1), m.group(1)) + "`", line)
            lines.append(line)
        u = "\n".join(lines)
        if u != t:
            open(f, "w").write(u)


main()
