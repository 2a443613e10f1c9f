"""Runs the built program under faults of the C library, one at a time, and counts how it takes them:

    python3 bench/faults.py [COMMAND ..]

For one run of each command (or of those named): each request for memory refused alone, and each with all that follow;
each read and each write failed, interrupted, and cut to one byte. The run without a fault has to end with its own status.
What is right else:

- memory: status 6 and nothing written, or the right text with its status
- a read that failed: status 4 and the line of a file of the words, or the right text
- a write that failed: status 5 and a beginning of the right text
- interrupted or cut: the right text

It wants gcc, and is no part of the gate. It prints a line for each command, one for each wrong run, and ends with
status 1 where there was one.
"""
import glob
import os
import subprocess
import sys
import tempfile

TOP = os.path.dirname(os.path.dirname(os.path.abspath(__file__)))
PROGRAM = os.path.join(TOP, "crates", "ospfcost", "out", "ospfcost")


def words_of(folder, *options):
    """The options with paths in a folder of the examples, and its configurations."""
    place = f"examples/{folder}"
    return [f"{place}/{it}" if "." in it else it for it in options] + sorted(glob.glob(f"{place}/*.conf"))


def runs():
    """A run of each command, and one of words that are none's."""
    request = ("--request", "request.txt")
    return {
        "audit": ["audit", *words_of("tour", *request)],
        "design": ["design", *words_of("check-optimal", *request)],
        "check": ["check", *words_of("check-optimal", *request, "--answer", "answer.txt")],
        "rewrite": ["rewrite", "--answer", "examples/rewrite/answer.txt", "examples/rewrite/A.conf"],
        "conflict": ["conflict", *words_of("conflict", *request)],
        "spread": ["spread", *words_of("spread", *request, "--sets", "sets.txt")],
        "total": ["total", *words_of("total", *request)],
        "lsas": ["lsas", *words_of("database", *request)],
        "route": ["route", "--lsas", "examples/database/area.lsa", "--from", "198.18.0.2", "--to", "198.18.0.4"],
        "change": ["change", *words_of("tour", *request)],
        "steps": ["steps", *words_of("backbone", *request, "--answer", "change.txt")],
        "compare": ["compare", *words_of("tour", "--live", "running.json", *request)],
        "audit of a running area": ["audit", *words_of("tour", "--live", "running.json", *request)],
        "help": ["help", "design"],
        "version": ["version"],
        "trial": ["trial", "--blocks", "2"],
        "words": ["design"],
    }


# The runs that without a fault end with another status than 0.
STATUS = {"words": 7}


class Faults:
    def __init__(self, folder):
        self.library = os.path.join(folder, "faults.so")
        self.counts = os.path.join(folder, "counts")
        source = os.path.join(TOP, "bench", "faults.c")
        subprocess.run(["gcc", "-O1", "-shared", "-fPIC", "-o", self.library, source, "-ldl"], check=True)
        self.wrong = 0

    def run(self, words, **settings):
        environment = {**os.environ, "LD_PRELOAD": self.library, "FAULT_COUNTS": self.counts}
        environment.update({f"FAULT_{name}": str(value) for name, value in settings.items()})
        ran = subprocess.run([PROGRAM, *words], cwd=TOP, env=environment, stdin=subprocess.DEVNULL, capture_output=True)
        return ran.returncode, ran.stdout

    def counted(self):
        with open(self.counts, encoding="ascii") as file:
            return [int(number) for number in file.read().split()]

    def judge(self, name, settings, got, allowed):
        if not allowed:
            self.wrong += 1
            print(f"{name} {settings}: status {got[0]}, {len(got[1])} bytes")

    def try_command(self, name, words):
        right = self.run(words)
        self.judge(name, {}, right, right[0] == STATUS.get(name, 0))
        allocs, reads, writes = self.counted()
        tally = {"right text": 0, "status 4": 0, "status 5": 0, "status 6": 0}

        def tell(got):
            key = "right text" if got == right else f"status {got[0]}"
            tally[key] = tally.get(key, 0) + 1

        for number in range(1, allocs + 1):
            for which in ("ALLOC", "ALLOC_FROM"):
                got = self.run(words, **{which: number})
                self.judge(name, {which: number}, got, got == right or got == (6, b""))
                tell(got)
        for number in range(1, reads + 1):
            for kind in ("fail", "interrupt", "short"):
                got = self.run(words, READ=number, KIND=kind)
                named = got[0] == 4 and any(got[1] == f"read fault {it}\n".encode() for it in words)
                self.judge(name, {"READ": number, "KIND": kind}, got, got == right or (kind == "fail" and named))
                tell(got)
        for number in range(1, writes + 1):
            for kind in ("fail", "interrupt", "short"):
                got = self.run(words, WRITE=number, KIND=kind)
                begun = got[0] == 5 and right[1].startswith(got[1])
                self.judge(name, {"WRITE": number, "KIND": kind}, got, begun if kind == "fail" else got == right)
                tell(got)
        told = ", ".join(f"{key} {count}" for key, count in tally.items())
        print(f"{name}: {allocs} requests for memory, {reads} reads, {writes} writes: {told}", flush=True)


def main(names):
    known = runs()
    if not os.path.exists(PROGRAM) or any(name not in known for name in names):
        sys.exit(__doc__)
    with tempfile.TemporaryDirectory() as folder:
        faults = Faults(folder)
        for name in names or known:
            faults.try_command(name, known[name])
    print(f"{faults.wrong} wrong")
    sys.exit(1 if faults.wrong else 0)


if __name__ == "__main__":
    os.chdir(TOP)
    main(sys.argv[1:])
