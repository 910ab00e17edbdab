#!/usr/bin/env python3
"""Lays all library crates out as the modules of one crate, so that one check proves them together, whatever order they stand in.

usage: python3 tools/one_crate.py FOLDER [CRATE..]   at the top of the repository: writes FOLDER/crates/one, of these crates and those below them
       python3 tools/one_crate.py --back FOLDER      takes the files of proofs/ that were changed there back

A change in a low crate is then checked with all that stands on it: `rt check --allow-holes` in FOLDER/crates/one, some minutes the first time
and half a minute after. Nothing that it says counts for the gate. A path in its output, as proofs/walk/take/Answers.antt, is that of a crate
and a file: crates/walk/proofs/take/Answers.antt.
"""

import glob
import os
import re
import shutil
import sys

PARTS = ("specs", "proofs")


def read(path):
    with open(path, encoding="utf-8") as it:
        return it.read()


def write(path, text):
    """Writes what is not there already, so that a check sees what changed."""
    if os.path.exists(path) and read(path) == text:
        return
    os.makedirs(os.path.dirname(path), exist_ok=True)
    with open(path, "w", encoding="utf-8") as it:
        it.write(text)


def libraries():
    """The libraries of crates.txt, each with what it uses; programs and the archive's crate are left out."""
    of = {}
    for line in read("crates.txt").split("\n"):
        head, _, deps = line.split("#")[0].partition(":")
        words = head.split()
        if words and "staticlib" not in words and os.path.exists(f"crates/{words[0]}/src/lib.rt"):
            of[words[0]] = deps.split()
    return of


def joined(text, names):
    """The text with the paths of the crates as those of the one crate's modules."""
    text = re.sub(rf"\bRattle\.({names})\.specs\.(declared|contracts)\.", r"Rattle.one.specs.\2.\1.", text)
    return re.sub(rf"\bRattle\.({names})\.(specs|proofs)\.", r"Rattle.one.\2.\1.", text)


def parted(text):
    text = re.sub(r"\bRattle\.one\.specs\.(declared|contracts)\.(\w+)\.", r"Rattle.\2.specs.\1.", text)
    return re.sub(r"\bRattle\.one\.(specs|proofs)\.(\w+)\.", r"Rattle.\2.\1.", text)


def source(text, deps, crate):
    """A crate's source as a module: the crates that it uses are its siblings, and its specs/ and proofs/ a module's of theirs."""
    text = text.replace("#![tactic(auto)]\n", "")
    text = re.sub(r"\bcrate::(specs|proofs)::", rf"crate::\1::{crate}::", text)
    used = []
    for dep in deps:
        text = re.sub(rf"(?m)^(\s*(?:pub )?use ){dep}::", rf"\1crate::{dep}::", text)
        if re.search(rf"(?<![\w:.]){dep}::", text.replace(f"crate::{dep}::", "")):
            used.append(f"use crate::{dep};")
    lines = text.split("\n")
    ghost = [at for at, line in enumerate(lines) if line.startswith("ghost use")]
    if used and ghost:
        at = next(at for at in range(ghost[-1], len(lines)) if lines[at].rstrip().endswith(";"))
        lines[at + 1 : at + 1] = ["", *used]
    return "\n".join(lines)


def place(crate, part, path):
    """Where a file of a crate's specs/ or proofs/ stands in the one crate: its root file is the module's."""
    return f"{part}/{crate}.antt" if path == "Lib.antt" else f"{part}/{crate}/{path}"


def files(crate, part):
    base = f"crates/{crate}/{part}"
    return [os.path.relpath(it, base) for it in glob.glob(f"{base}/**/*.antt", recursive=True)]


def lay_out(folder, chosen):
    of = libraries()
    if chosen:
        kept = set(chosen).union(*(of[it] for it in chosen))
        of = {it: deps for it, deps in of.items() if it in kept}
    names = "|".join(sorted(of, key=len, reverse=True))
    wanted = {"src/lib.rt": "// The libraries, as modules.\n#![tactic(auto)]\n\n" + "".join(f"pub mod {it};\n" for it in of)}
    for crate, deps in of.items():
        for path in glob.glob(f"crates/{crate}/src/*.rt"):
            name = os.path.basename(path)
            to = f"src/{crate}.rt" if name == "lib.rt" else f"src/{crate}/{name}"
            wanted[to] = source(joined(read(path), names), [it for it in deps if it in of], crate)
        for part in PARTS:
            for path in files(crate, part):
                wanted[place(crate, part, path)] = joined(read(f"crates/{crate}/{part}/{path}"), names)
    wanted["specs/Lib.antt"] = "".join(f"pub mod {it}\n" for it in of if f"specs/{it}.antt" in wanted)
    wanted["proofs/Lib.antt"] = ""
    top = f"{folder}/crates/one"
    for part in ("src", *PARTS):
        for path in glob.glob(f"{top}/{part}/**/*.*", recursive=True):
            if os.path.isfile(path) and os.path.relpath(path, top) not in wanted:
                os.remove(path)
    for path, text in wanted.items():
        write(f"{top}/{path}", text)
    kit = sorted(set().union(*of.values()) - set(libraries()))
    write(f"{folder}/crates.txt", " ".join(["one:", *kit]) + "\n")


def take_back(folder):
    names = "|".join(sorted(libraries(), key=len, reverse=True))
    for crate in libraries():
        for path in files(crate, "proofs"):
            here, there = f"crates/{crate}/proofs/{path}", f"{folder}/crates/one/{place(crate, 'proofs', path)}"
            if os.path.exists(there) and read(there) != joined(read(here), names):
                shutil.copyfile(there, here)
                write(here, parted(read(there)))
                print(here)


def main(words):
    if len(words) == 2 and words[0] == "--back":
        take_back(words[1])
    elif words and not words[0].startswith("-"):
        lay_out(words[0], words[1:])
    else:
        sys.exit(__doc__)


if __name__ == "__main__":
    main(sys.argv[1:])
