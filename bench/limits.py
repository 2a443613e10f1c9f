"""Runs the built program at its limits of size, with time and memory:

    python3 bench/limits.py [--answer]

- a file of LSAs of 67,108,864 bytes (64 MiB), 1,000 router-LSAs of 5,459 links each among them, and one byte more
- 1,000 router-LSAs, and one more
- with --answer: an answer of 1,073,741,824 bytes (1 GiB), and one byte more. It wants some 15 GB of memory and two minutes

What is right: the first of each pair is taken (status 0), the second is refused, by number 9 (too long) or 80 (too many
routers). It prints a line for each run, and ends with status 1 where one was not as it should be. It is no part of the
gate, and wants Linux.
"""
import os
import struct
import subprocess
import sys
import tempfile
import time

TOP = os.path.dirname(os.path.dirname(os.path.abspath(__file__)))
PROGRAM = os.path.join(TOP, "crates", "ospfcost", "out", "ospfcost")
LONGEST_LSAS = 1 << 26
LONGEST_ANSWER = 1 << 30
LONGEST_LINE = 65_536


def lsa(kind, number, router, body):
    return struct.pack(">HBBIIIHH", 1, 2, kind, number, router, 0x80000001, 0, 20 + len(body)) + body


def router_lsa(router, neighbours):
    links = b"".join(struct.pack(">IIBBH", there, router, 1, 0, 1) for there in neighbours)
    return lsa(1, router, router, struct.pack(">BBH", 0, 0, len(neighbours)) + links)


def ring(routers, links):
    """Router-LSAs of a ring, each with so many links to its two neighbours."""
    for here in range(1, routers + 1):
        before, behind = (here - 2) % routers + 1, here % routers + 1
        yield router_lsa(here, [before if it % 2 else behind for it in range(links)])


def whole_lsas():
    """LSAs of just the greatest length: a large ring, copies of its first LSA, and a network-LSA that fills the rest."""
    large = list(ring(1000, 5459))
    left = LONGEST_LSAS - sum(map(len, large))
    while left > len(large[0]) + 28:
        large.append(large[0])
        left -= len(large[0])
    large.append(lsa(2, 0xC0000201, 1, struct.pack(">I", 0xFFFFFF00) + struct.pack(">I", 1) * ((left - 24) // 4)))
    return b"".join(large)


def put_answer(path, length):
    """The answer that no costs are fit, of so many bytes: a chain of halves whose lines name a bound over and over."""
    tree = 0
    head = b"ospfcost answer 1\nverdict impossible\ncosts none\nfloor none\nrows 1\nrow 0 1\n"
    tail = b"open none\nwide none\nend\n"
    halves = length // LONGEST_LINE - 1
    proof = b"proof 65535 %d\n" % (2 * halves + 1)
    refute = b"refute 0 1\n"
    left = length - len(head) - len(proof) - len(tail) - len(refute)
    with open(path, "wb") as file:
        file.write(head + proof)
        for tree in range(halves):
            share = left // (halves - tree)
            file.write(halve(tree + 1, share - len(refute)) + refute)
            left -= share
        file.write(refute + tail)
    assert os.path.getsize(path) == length


def halve(value, length):
    """A line of so many bytes that cuts variable 0 at a value."""
    front = b"halve 0 %d add 1/1 1/1" % value
    members = length - len(front) - 1
    last = b" low " + b"1" * (1 + members % 8) + b" 1"
    line = front + b" low 0 1" * (members // 8 - 1) + last
    return line + b"\n"


def run(words, folder):
    """The status, the output, user seconds and the greatest memory in MB of one run."""
    script = "import resource,subprocess,sys\n" \
             "ran = subprocess.run(sys.argv[1:], stdin=subprocess.DEVNULL, capture_output=True)\n" \
             "used = resource.getrusage(resource.RUSAGE_CHILDREN)\n" \
             "sys.stdout.write('%d %f %d %s' % (ran.returncode, used.ru_utime, used.ru_maxrss // 1024, ran.stdout[:200].decode()))\n"
    ran = subprocess.run([sys.executable, "-c", script, PROGRAM, *words], cwd=folder, capture_output=True, text=True)
    status, seconds, memory, text = ran.stdout.split(" ", 3)
    return int(status), float(seconds), int(memory), text.strip()


class Limits:
    def __init__(self, folder):
        self.folder = folder
        self.wrong = 0

    def file(self, name, data):
        with open(os.path.join(self.folder, name), "wb") as file:
            file.write(data)

    def tell(self, what, words, status, begins):
        found, seconds, memory, text = run(words, self.folder)
        right = found == status and text.startswith(begins)
        self.wrong += not right
        print(f"{what}: status {found}, `{text[:60]}`, {seconds:.2f} s, {memory} MB{'' if right else ' WRONG, wanted status %d, `%s`' % (status, begins)}", flush=True)

    def lsas(self):
        route = ["route", "--lsas", "area.lsa", "--from", "0.0.0.1", "--to", "0.0.1.244"]
        bytes_of = whole_lsas()
        assert len(bytes_of) == LONGEST_LSAS
        self.file("area.lsa", bytes_of)
        self.tell("64 MiB of LSAs", route, 0, "from 0.0.0.1 to 0.0.1.244 cost 499 first ")
        self.file("area.lsa", bytes_of + b"\0")
        self.tell("one byte more", route, 3, "refused 9 area.lsa 0")
        self.file("area.lsa", b"".join(ring(1000, 2)))
        self.tell("1,000 router-LSAs", route, 0, "from 0.0.0.1 to 0.0.1.244 cost 499 first ")
        many = b"".join(ring(1001, 2))
        self.file("area.lsa", many)
        self.tell("1,001 router-LSAs", route, 3, f"refused 80 area.lsa {len(many) - 48}")

    def answer(self):
        place = os.path.join(TOP, "examples", "check-impossible")
        for name in ("A.conf", "B.conf", "C.conf"):
            with open(os.path.join(place, name), "rb") as file:
                self.file(name, file.read())
        self.file("request.txt", b"ospfcost request 1\narea 0\nfree all 1 2\nfree A eth0 1 65535\npath A:eth0 B:eth0 C\n")
        words = ["check", "--request", "request.txt", "--answer", "answer.txt", "A.conf", "B.conf", "C.conf"]
        path = os.path.join(self.folder, "answer.txt")
        put_answer(path, LONGEST_ANSWER)
        self.tell("an answer of 1 GiB", words, 0, "accepted impossible")
        with open(path, "ab") as file:
            file.write(b"\n")
        self.tell("one byte more", words, 3, "refused 9 answer.txt 0")


def main(words):
    if words not in ([], ["--answer"]):
        sys.exit(__doc__)
    began = time.time()
    with tempfile.TemporaryDirectory() as folder:
        limits = Limits(folder)
        limits.lsas()
        if words:
            limits.answer()
        print(f"{limits.wrong} wrong, in {time.time() - began:.0f} s")
        sys.exit(1 if limits.wrong else 0)


if __name__ == "__main__":
    main(sys.argv[1:])
