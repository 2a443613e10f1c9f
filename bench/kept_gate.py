#!/usr/bin/env python3
"""Proves crates, runs programs and tries edits as the gate does, but keeps what passed: a run does only what an earlier one
hasn't done. It runs no `#[test]`, and makes none of the gate's tests of a crate's text but that of its layout.

kept_gate.py [CRATE ..] [--top FOLDER] [--store FOLDER] [--edits] [--no-programs] [--lanes N]
kept_gate.py --take [--top FOLDER] [--store FOLDER]

It works on a copy of the repository's crates (of those named and of those below them), calls the toolchain's own functions for
each step of `rt ci`, and keeps a proved library under the sum of all that it is made from: the crate's files and those
of the crates below. With --edits it tries the must-fail edits too. --take puts the libraries of the store that fit into
a checkout, so that `rt check` there begins with them. The verdict is `rt ci` alone: this is for the hours before it.

The store is /tmp/ospfcost-kept, unless told otherwise; its folder `logs` has what each step printed.
"""
import argparse
import copy
import hashlib
import importlib.machinery
import importlib.util
import os
import shutil
import subprocess
import sys
import tempfile
import threading
import time

sys.dont_write_bytecode = True


def toolchain():
    """The module of `rt`, and the one with its crates."""
    loader = importlib.machinery.SourceFileLoader("rt", os.path.realpath(shutil.which("rt")))
    made = importlib.util.module_from_spec(importlib.util.spec_from_loader("rt", loader))
    sys.modules["rt"] = made
    loader.exec_module(made)
    return made, made.rtlib


def keep_answers(crate_type, name):
    """Lets a method of crates answer each crate once: without it a sum of a high crate takes minutes."""
    plain = getattr(crate_type, name)

    def kept(self):
        answers = self.__dict__.setdefault("kept_answers", {})
        if name not in answers:
            answers[name] = plain(self)
        found = answers[name]
        return list(found) if isinstance(found, list) else found

    setattr(crate_type, name, kept)


def sum_of(crate, parts):
    """The sum of some files and folders of a crate."""
    found = hashlib.sha256()
    for part in parts:
        path = f"{crate.folder}/{part}"
        files = [path] if os.path.isfile(path) else []
        for at, folders, names in os.walk(path):
            folders.sort()
            files += [f"{at}/{name}" for name in sorted(names)]
        for file in files:
            with open(file, "rb") as it:
                found.update(repr((file.removeprefix(crate.folder), it.read())).encode())
    return found.hexdigest()[:12]


class Gate:
    """One run over the crates of a copy."""

    def __init__(self, rt, rtlib, store, programs):
        self.rt, self.rtlib, self.store, self.programs = rt, rtlib, store, programs
        self.begun, self.printing = time.time(), threading.Lock()

    def say(self, text):
        with self.printing:
            print(f"[{time.time() - self.begun:5.0f} s] {text}", flush=True)

    def place(self, crate):
        return f"{self.store}/{crate.name}/{crate.stamp()}"

    def take(self, crate):
        """Puts a library of the store into the crate's folder; tells whether it is there."""
        if not crate.makes_rlib():
            return False
        if crate.is_built():
            return True
        kept, to = self.place(crate), f"{crate.folder}/out/rlib"
        if not os.path.isfile(f"{kept}/stamp"):
            return False
        shutil.rmtree(to, ignore_errors=True)
        os.makedirs(os.path.dirname(to), exist_ok=True)
        subprocess.run(["cp", "-a", kept, to], check=True)
        return True

    def keep(self, crate):
        """Puts a proved library into the store."""
        with open(f"{crate.folder}/out/rlib/stamp", "w", encoding="utf-8") as it:
            it.write(crate.stamp())
        kept = self.place(crate)
        part = f"{kept}.{os.getpid()}"
        os.makedirs(os.path.dirname(kept), exist_ok=True)
        subprocess.run(["cp", "-a", f"{crate.folder}/out/rlib", part], check=True)
        try:
            os.rename(part, kept)
        except OSError:
            shutil.rmtree(part)

    def prove_it(self, crate, jobs):
        """Proves a crate from nothing, and builds it; its layout counts too."""
        crate = copy.copy(crate)
        log = f"{self.store}/logs/{crate.name}"
        os.makedirs(os.path.dirname(log), exist_ok=True)
        os.makedirs(f"{crate.folder}/out", exist_ok=True)
        status = 1
        with open(log, "w+", encoding="utf-8", errors="replace") as crate.out:
            try:
                status = self.rtlib.fmt(crate.folder, "--check", crate.out) or crate.ci(["--jobs", str(jobs)], False)
            except SystemExit:
                pass
        return status == 0

    def prove(self, crate, given, jobs):
        lacking = [it.name for it in crate.below() if not given[it.name, "proof"]]
        if lacking:
            self.say(f"{crate.name} not tried: {lacking[0]} failed")
            return False
        ran = f"{self.place(crate)}.{sum_of(crate, ['stdin', 'stdout', 'args', 'status', 'data'])}.ran"
        if self.take(crate) or os.path.isfile(ran) or (not crate.makes_rlib() and not self.programs):
            return True
        begun = time.time()
        well = self.prove_it(crate, jobs)
        if well and crate.makes_rlib():
            self.keep(crate)
        elif well:
            made = [end for end in self.rt.BACKENDS.values() if os.path.isfile(f"{crate.folder}/out/{crate.name}{end}")]
            well = all(self.rt.run(crate, False, end) for end in made)
            self.mark(ran, "", well)
        self.say(f"{crate.name} {'proved' if well else 'FAILED: see logs/' + crate.name} ({time.time() - begun:.0f} s)")
        return well

    def mark(self, file, text, well):
        """Notes in the store that a step passed."""
        if well:
            os.makedirs(os.path.dirname(file), exist_ok=True)
            with open(file, "w", encoding="utf-8") as it:
                it.write(text)

    def try_edits(self, crate, given):
        edits, _ = self.rt.edits_of(crate)
        tried = f"{self.place(crate)}.{sum_of(crate, ['must-fail'])}.edits"
        if not edits or not given[crate.name, "proof"] or os.path.isfile(tried):
            return True
        begun = time.time()
        found = self.rt.must_fail_all(crate, edits, ["--jobs", "1"])
        well = all(refused for refused, _ in found)
        self.mark(tried, "\n".join(text for _, text in found), well)
        self.say(f"{crate.name}: {sum(it for it, _ in found)} of {len(edits)} edits refused ({time.time() - begun:.0f} s)")
        for refused, text in found:
            if not refused:
                self.say(text)
        return well

    def tasks(self, crates, edits):
        """What `rt` runs side by side: what each step waits for, its size, its memory, and the call."""
        made = {}
        for crate in crates:
            below = [(it.name, "proof") for it in crate.below()]
            is_kept = crate.makes_rlib() and os.path.isfile(f"{self.place(crate)}/stamp")
            lines, needs = (1, 1000) if is_kept else (crate.count(rb"\n"), self.rt.need(crate))
            made[crate.name, "proof"] = (below, lines, needs, lambda given, jobs, it=crate: self.prove(it, given, jobs))
            if edits and self.rt.edits_of(crate)[0]:
                own = [(crate.name, "proof")]
                size = crate.count(rb"\n")
                made[crate.name, "edits"] = (own, size, self.rt.need(crate), lambda given, _, it=crate: self.try_edits(it, given))
        return made


def chosen(crates, names):
    """The crates of these names and those below them, lowest first; all of them where no name is given."""
    wanted = {it.name for it in crates if not names or it.name in names}
    wanted |= {low.name for it in crates if it.name in wanted for low in it.below()}
    return sorted((it for it in crates if it.name in wanted), key=lambda it: len(it.below()))


def main():
    words = argparse.ArgumentParser(description=__doc__.split("\n", 1)[0])
    words.add_argument("names", nargs="*", metavar="CRATE")
    words.add_argument("--top", default=os.getcwd())
    words.add_argument("--store", default="/tmp/ospfcost-kept")
    for flag in ("--edits", "--no-programs", "--take"):
        words.add_argument(flag, action="store_true")
    words.add_argument("--lanes", type=int, default=0)
    asked = words.parse_args()
    rt, rtlib = toolchain()
    rtlib.stop, rtlib.Crate.cuts_libraries = rt.stop, True
    for name in ("stamp", "below"):
        keep_answers(rtlib.Crate, name)
    gate = Gate(rt, rtlib, os.path.realpath(asked.store), not asked.no_programs)
    if asked.take:
        crates = rtlib.crates_below(os.path.realpath(asked.top))
        print("in place:", " ".join(it.name for it in crates if gate.take(it)))
        return 0
    if asked.lanes:
        os.environ["RT_JOBS"] = str(asked.lanes)
    with tempfile.TemporaryDirectory(prefix="ospfcost-gate-") as top:
        shutil.copytree(f"{asked.top}/crates", f"{top}/crates", ignore=shutil.ignore_patterns("out"))
        for name in ("crates.txt", "HANDLES"):
            shutil.copy(f"{asked.top}/{name}", top)
        os.chdir(top)
        rt.Crate.allowed = rt.handles_of(top)
        rtlib.Crate = rt.Crate
        rtlib.guarded()
        crates = chosen(rtlib.crates_below(top), asked.names)
        for it in crates:
            rt.read_files(it)
        given = rt.in_lanes(gate.tasks(crates, asked.edits))
    failed = [" ".join(key) for key, well in given.items() if not well]
    gate.say(f"{len(given) - len(failed)} passed, {len(failed)} failed {', '.join(failed)}")
    return 1 if failed else 0


if __name__ == "__main__":
    sys.exit(main())
