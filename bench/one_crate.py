#!/usr/bin/env python3
"""Checks one crate over libraries that stand built somewhere, in seconds to minutes, and tells what in it is slow:

one_crate.py CRATE [--top FOLDER] [--libs FOLDER ..] [--only NAME ..] [--edit EDIT] [--slowest N] [--build FOLDER]

The libraries below are looked up in crates/*/out/rlib of the folders behind --libs, in their order; the checkout itself
stands for them if none is named. `bench/kept_gate.py --take` puts libraries there, and so does a run of `rt ci` in a
clone of its own while it goes on. The sources are those of --top, this checkout unless told otherwise.

--only NAME    proves one function (its name as a check prints it, or the end of it) and what it cites; '' proves nothing,
               and tells within seconds what is known before a proof begins
--edit EDIT    applies crates/CRATE/must-fail/EDIT.edit to a copy, and prints the complaints, the gate's first one first
--slowest N    checks from nothing, and prints the N modules that took longest: `NAME.Lts` is the borrow checker's part of
               a function
--build FOLDER proves the crate, and puts its library into FOLDER, for crates above that are checked over it

It is no part of the gate and gives no verdict.
"""
import argparse
import glob
import os
import re
import shutil
import subprocess
import sys
import tempfile

TOP = os.path.dirname(os.path.dirname(os.path.abspath(__file__)))
KIT = os.path.dirname(os.path.dirname(os.path.realpath(shutil.which("rt") or "rt")))
# A complaint that a proof file names what an edit took away says little of the contract.
NAMES_ALONE = re.compile(r"(\./)?proofs/.*(has no field|is not in scope|has no `|was not admitted)")


def dependencies(top):
    """What each crate of crates.txt names, the kit's libraries among it."""
    named = {}
    with open(os.path.join(top, "crates.txt"), encoding="utf-8") as file:
        for line in file:
            crate, colon, rest = line.partition("#")[0].partition(":")
            if colon:
                named[crate.strip()] = rest.split()
    return named


def all_below(named, crate):
    """The repository's crates on which a crate stands, at any depth."""
    found = set()
    todo = [it for it in named[crate] if it in named]
    while todo:
        below = todo.pop()
        if below not in found:
            found.add(below)
            todo += [it for it in named[below] if it in named]
    return found


def library_folder(folders, crate):
    """The first of the folders that has the crate's library."""
    for folder in folders:
        place = os.path.join(folder, "crates", crate, "out", "rlib")
        if os.path.exists(os.path.join(place, f"{crate}.rlib")):
            return place
    sys.exit(f"no library of {crate} in {', '.join(folders)}")


def words_for(top, folders, crate):
    """The prover's words for a crate, behind its verb."""
    named = dependencies(top)
    is_program = os.path.exists(os.path.join(top, "crates", crate, "src", "main.rt"))
    words = ["--crate-name", crate, "src/main.rt" if is_program else "src/lib.rt"]
    words += ["--extern", f"std={KIT}/rlibs/std.rlib", "-L", f"dependency={KIT}/rlibs"]
    for it in named[crate]:
        place = library_folder(folders, it) if it in named else f"{KIT}/rlibs"
        words += ["--extern", f"{it}={place}/{it}.rlib"]
    for it in sorted(all_below(named, crate)):
        words += ["-L", f"dependency={library_folder(folders, it)}"]
    logic = f"{KIT}/rattle/logic/antt-project.json"
    return [*words, "--antt-project", logic, "--logic-built", f"{KIT}/logic_built", "--links", f"{crate}="]


def edited_copy(top, crate, edit, room):
    """Copies a crate, and applies an edit to the copy."""
    folder = os.path.join(room, crate)
    shutil.copytree(os.path.join(top, "crates", crate), folder, ignore=shutil.ignore_patterns("out"))
    path = old = None
    with open(os.path.join(folder, "must-fail", f"{edit}.edit"), encoding="utf-8") as file:
        lines = file.read().split("\n")
    for line in lines:
        if line.startswith("file: "):
            path = os.path.join(folder, line.removeprefix("file: ").strip())
        elif line.startswith("old: "):
            old = line.removeprefix("old: ")
        elif line.startswith("new:"):
            with open(path, encoding="utf-8") as file:
                text = file.read()
            if text.count(old) != 1:
                sys.exit(f"{edit}: an `old:` text stands {text.count(old)} times in {path}")
            with open(path, "w", encoding="utf-8") as file:
                file.write(text.replace(old, line.removeprefix("new:").removeprefix(" ")))
    return folder


def complaints(output):
    """The complaints of a check, the one that the gate would print first."""
    told = [it for it in output.splitlines() if re.match(r"(note: )?\S+:\d+:\d+:", it)]
    told = [it for it in told if ": error" in it or it.startswith("note: ")] or told
    return sorted(told, key=lambda it: bool(NAMES_ALONE.match(it)))


def slowest(kept, count):
    """The modules that took longest, by the times at which a check at one job wrote them."""
    files = [it for it in glob.glob(f"{kept}/**", recursive=True) if os.path.isfile(it)]
    times = sorted((os.path.getmtime(it), it) for it in files)
    steps = [(times[i][0] - times[i - 1][0], times[i][1]) for i in range(1, len(times))]
    return [(seconds, module_of(name)) for seconds, name in sorted(steps, reverse=True)[:count]]


def module_of(file):
    """The module that a kept file holds, without its crate."""
    name = os.path.basename(file).removesuffix(".oantt").removesuffix(".decls")
    return re.sub(r"^Rattle-\w+-(proofs|specs)\.", "", name)


def read_words():
    reader = argparse.ArgumentParser(usage=__doc__)
    reader.add_argument("crate")
    reader.add_argument("--top", default=TOP)
    reader.add_argument("--libs", nargs="+", default=[TOP])
    reader.add_argument("--only", nargs="+", default=[])
    reader.add_argument("--edit")
    reader.add_argument("--slowest", type=int)
    reader.add_argument("--build")
    return reader.parse_args()


def main():
    asked = read_words()
    words = [*words_for(asked.top, asked.libs, asked.crate), "--jobs", "1"]
    for name in asked.only:
        words += ["--only", name]
    with tempfile.TemporaryDirectory(prefix="one-crate-") as room:
        folder = os.path.join(asked.top, "crates", asked.crate)
        if asked.edit:
            folder = edited_copy(asked.top, asked.crate, asked.edit, room)
        verb = "check"
        if asked.build:
            to = os.path.join(asked.build, "crates", asked.crate, "out", "rlib")
            os.makedirs(to, exist_ok=True)
            verb, words = "build", [*words, "--statements", "-o", f"{to}/{asked.crate}.rlib"]
        elif asked.slowest:
            words += ["--incremental", f"{room}/kept"]
        command = [f"{KIT}/bin/rattle", verb, *words]
        ran = subprocess.run(command, cwd=folder, stdout=subprocess.PIPE, stderr=subprocess.STDOUT, text=True, errors="replace")
        for line in complaints(ran.stdout):
            print(line)
        print(ran.stdout.rstrip().rpartition("\n")[2])
        for seconds, name in slowest(f"{room}/kept", asked.slowest or 0):
            print(f"{seconds:7.1f} {name}")
    sys.exit(ran.returncode)


if __name__ == "__main__":
    main()
