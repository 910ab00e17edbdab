#!/usr/bin/env python3
"""Brings the repository's own definitions and lemmas to the spelling of today's Rattle.

usage: python3 tools/respell.py      at the top of the repository, once, right after port.py

Words are in snake case: `countDown` becomes `count_down`. A dash joins two names of definitions, as in `length-with_bytes`; elsewhere it
becomes `_`, as in `cells_kept`. Types and modules keep their capitals. Where two fall together, the lemma keeps its dash, or gets `_lem`, and is printed.
Functions of src/, exported names and texts in quotes are left alone. So are the names that Rattle makes for a proof.
"""

import glob
import os
import re

WORD = re.compile(r"--[^\n]*|\"(?:[^\"\\\n]|\\.)*\"|[^\s(){}.;,@\"«»\[\]\\`]+")
HEAD = re.compile(r"^(\s*)((?:(?:pub|abbrev|unfoldable|mutual) )*)([^\s:(){},=.;λ→]+(?: [^\s:(){},=.;λ→]+)*) :(?=\s|$)")
SHAPE = re.compile(r"^\s*(?:pub )?(?:record|data) (\S+)")
KEYWORDS = {"module", "use", "let", "in", "infixl", "infixr", "infix", "record", "data", "pub", "open", "mod"}
# Rattle's own names in a proof by hand: all that is taken from these modules, and what stands behind a dot.
MADE = re.compile(r"(?:tie|lts|reads|[a-z0-9-]+-reads)$")


def paths(*patterns):
    return sorted(p for it in patterns for p in glob.glob(it, recursive=True) if "/out/" not in p)


def read(path):
    with open(path, encoding="utf-8") as it:
        return it.read()


def without_comments(text):
    return re.sub(r"\"(?:[^\"\\\n]|\\.)*\"", '""', re.sub(r"--[^\n]*", "", text))


def bare(path):
    """The words of a file that stand behind no dot."""
    text = without_comments(read(path))
    return {m.group(0) for m in WORD.finditer(text) if text[m.start() - 1 : m.start()] != "."}


def declared(path):
    """The file's names: those of definitions and lemmas, and those of fields and constructors."""
    tops, inner = set(), set()
    for line in without_comments(read(path)).split("\n"):
        shape = SHAPE.match(line)
        if shape:
            tops.add(shape.group(1))
            continue
        head = HEAD.match(line)
        if head:
            names = head.group(3).split()
            if names[0] not in KEYWORDS:
                (inner if head.group(1) and not head.group(2).startswith(("abbrev", "unfoldable")) else tops).update(names)
    return tops, inner


def snake(name):
    name = re.sub(r"(?<=[a-z0-9])([A-Z])(?=[a-z0-9]|$)", lambda m: "_" + m.group(1).lower(), name)
    return name


def is_camel(name):
    return name[0].islower() and bool(re.search(r"(?<![A-Z-])[a-z0-9][A-Z]", name)) and not name.startswith("is_Is")


def table(antt):
    tops, inner, tokens, imported, own = set(), set(), set(), set(), set()
    for path in antt:
        by_hand = path.endswith(("/Proof.antt", "/Answers.antt", "/Invariants.antt"))
        a, b = declared(path)
        text = without_comments(read(path))
        tokens.update(WORD.findall(text))
        for names in re.findall(r"(?m)^use (?!Rattle\.(?!std\b))\S+?\.\{([^}]*)\}", text):
            imported.update(it.split(" as ")[0].strip() for it in names.split(","))
        if by_hand:
            continue
        tops |= a
        inner |= b
        own |= a | b
    names = {snake(it) for it in tops if "-" not in it} | {it for it in imported if "-" not in it}
    new = {}
    for name in sorted(own | {it for it in tokens if is_camel(it)}):
        if not name[0].isalpha() or name[0].isupper() and "-" not in name:
            continue
        parts = [snake(it) if it[0].islower() else it for it in name.split("-") if it] if "-" in name else [snake(name)]
        to = parts[0]
        for left, right in zip(parts, parts[1:]):
            joined = name in tops and left in names and right in names
            to += ("-" if joined else "_") + right
        if to != name:
            new[name] = to
    plain = [bare(path) for path in antt]
    taken = {}
    for name, to in list(new.items()):
        taken.setdefault(to, []).append(name)
    for to, olds in sorted(taken.items()):
        olds.sort(key=lambda it: "-" in it)
        for name in olds[1:]:
            # The definition has the name, and the lemma keeps its dash.
            kept = "-".join(snake(it) if it[0].islower() else it for it in name.split("-"))
            print("falls together:", name, "and", olds[0], "and is", kept)
            if kept == name:
                del new[name]
            else:
                new[name] = kept
        if any(to in it and olds[0] in it for it in plain):
            print("falls together:", olds[0], "and", to, "which is", to + "_lem")
            new[to] = to + "_lem"
    return new


def turned(text, new, by_hand):
    out, at = [], 0
    for m in WORD.finditer(text):
        word = m.group(0)
        before = text[: m.start()]
        if word.startswith('"'):
            continue
        if word.startswith("--"):
            to = WORD_IN_COMMENT.sub(lambda w: new.get(w.group(0), w.group(0)), word)
        else:
            to = new.get(word, word)
            if by_hand and to != word and before.endswith("."):
                owner = re.search(r"([^\s(){}.;,]+)\.$", before[-80:])
                if owner and MADE.match(owner.group(1)):
                    to = word
        if to != word:
            out.append(text[at : m.start()] + to)
            at = m.end()
    return "".join(out) + text[at:]


WORD_IN_COMMENT = re.compile(r"[A-Za-z][\w'?-]*[\w'?]|[A-Za-z]")


def turned_source(text, new):
    """A source's comments, ghost lines and clauses."""
    lines = text.split("\n")
    for i, line in enumerate(lines):
        if re.match(r"\s*(//|ghost use|requires|ensures|ghost )", line) or "≡" in line:
            lines[i] = re.sub(r"[A-Za-z][\w'?]*(?:-[\w'?]+)*", lambda m: new.get(m.group(0), m.group(0)) if is_camel(m.group(0)) or "-" in m.group(0) else m.group(0), line)
    return "\n".join(lines)


def main():
    antt = paths("crates/*/specs/**/*.antt", "crates/*/proofs/**/*.antt")
    new = table(antt)
    for path in antt:
        text = read(path)
        to = turned(text, new, path.endswith("/Proof.antt"))
        if to != text:
            with open(path, "w", encoding="utf-8") as it:
                it.write(to)
    for path in paths("crates/*/src/**/*.rt"):
        text = read(path)
        to = turned_source(text, new)
        if to != text:
            with open(path, "w", encoding="utf-8") as it:
                it.write(to)
    os.makedirs("tools", exist_ok=True)
    with open("tools/respelled.tsv", "w", encoding="utf-8") as it:
        it.writelines(f"{name}\t{new[name]}\n" for name in sorted(new))
    print(len(new), "names")


if __name__ == "__main__":
    main()
