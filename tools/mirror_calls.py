#!/usr/bin/env python3
"""Random calls over a mirror that a built program serves on this machine, beside the same calls over the mirror's file.

    tools/mirror_calls.py crates/lamauth/out/lamauth
    tools/mirror_calls.py LAMAUTH --seed 7 --calls 5000 --keys 100000

The tree of the library's `bst` is grown to so many keys, and `pieces` files its pieces. A client of a few lines, which knows of mirrors no more
than `asked` tells, asks `mirror` for all of them in order, each behind the answer to the one before. Then `draw` has to tell of random calls
what `fetch` tells over the file, with the same status; of each second file some pieces are left out and some are changed.

Each difference is told, and the last line tells how many there are; the status is 1 where there is one.
"""
import argparse
import collections
import contextlib
import os
import random
import socket
import struct
import subprocess
import sys
import tempfile
import time

from fetch_calls import file_of, read_mirror
from random_calls import Difference, Runner, digest, flipped, literal_word, need
from talking import HERE

CALLS_OF_A_SERVING = 250
FUELS = ["0", "5", "20", "1000", "1000", "1000", "1000", "1000"]
# keys in an order in which the tree doesn't become a path
KEY_STEP, KEY_COUNT = 618_034, 1_000_003
GROWING = f"""
fun key(i: int): int = let p = mul(i, {KEY_STEP}) in sub(p, mul(div(p, {KEY_COUNT}), {KEY_COUNT}));
fun grown(t: auth tree, i: int): auth tree = if le(i, 0) then t else grown(ins(t, key(i), i), sub(i, 1));
init grow(n: int): auth tree = grown(auth(Leaf), n);
"""


class Tree:
    """The files of a program, `p`, and of a state of it: its image `i`, its spelling `s` and its mirror `m`."""

    def __init__(self, runner, keys):
        self.runner, self.keys = runner, keys
        text = runner.run(["library", "bst"], {}).text + GROWING
        image = self.stored(["init", "p", "grow", str(keys), "1000000000000", "o"], p=text.encode())
        state = self.stored(["shallow", "p", "i", "o"], i=image)
        self.pieces, fault = read_mirror(self.stored(["pieces", "p", "i", "o"], s=state))
        need(fault is None and len(self.pieces) == keys + 1, "pieces", fault)

    def stored(self, words, **files):
        result = self.runner.run(words, files)
        need(result.status == 0 and result.stored is not None, *words, result[:2])
        return result.stored

    def random_words(self, rng):
        """A random call, without the file or the port behind it."""
        key = rng.choice([rng.randint(1, self.keys) * KEY_STEP % KEY_COUNT, rng.randint(-5, KEY_COUNT)])
        role, argument = rng.choice([("get", str(key)), ("put", f"({key}, {rng.randint(-9, 9)})")])
        return ["p", role, "s", literal_word(argument), rng.choice(FUELS)]


def altered(rng, pieces):
    """Some of these pieces, and others in the place of some."""
    kept = (piece for piece in pieces if rng.random() < 0.98)
    return list(dict.fromkeys(flipped(rng, piece) if piece and rng.random() < 0.02 else piece for piece in kept))


@contextlib.contextmanager
def mirror(runner, pieces, links):
    """The port where a mirror with these pieces answers on so many links, which all have to be made."""
    runner.write({"m": file_of(pieces)})
    with socket.create_server((HERE, 0)) as free:
        port = free.getsockname()[1]
    words = [runner.lamauth, "mirror", "m", str(port), str(links)]
    with subprocess.Popen(words, cwd=runner.folder, stdout=subprocess.PIPE, stderr=subprocess.STDOUT, text=True) as process:
        try:
            line = process.stdout.readline()
            need(line == f"listening {port}\n", "mirror", line)
            yield port
            text, _ = process.communicate(timeout=60)
            need((process.returncode, text) == (0, ""), "mirror", process.returncode, text)
        finally:
            process.kill()


def play_calls(tree, rng, calls, counts):
    """Random calls by `draw` and by `fetch`; each difference is told and counted."""
    for first in range(0, calls, CALLS_OF_A_SERVING):
        count = min(CALLS_OF_A_SERVING, calls - first)
        pieces = altered(rng, tree.pieces) if first // CALLS_OF_A_SERVING % 2 else tree.pieces
        with mirror(tree.runner, pieces, count) as port:
            for number in range(first, first + count):
                words = tree.random_words(rng)
                fetched = tree.runner.run(["fetch", *words, "m"], {})
                drawn = tree.runner.run(["draw", *words, str(port)], {})
                counts[" ".join(fetched.text.split()[: 2 if fetched.status else 1])] += 1
                if drawn != fetched:
                    counts["differences"] += 1
                    print(f"call {number}: draw {' '.join(words)}: {drawn}, not {fetched}", flush=True)


def asked(link, came, wanted):
    """The piece that is answered to a digest; none where it is lacking."""
    link.sendall(struct.pack(">IBH", 35, 5, 0) + bytes.fromhex(wanted))
    head = came.read(7)
    need(len(head) == 7, "the link ended")
    length, kind, session = struct.unpack(">IBH", head)
    need(session == 0 and (kind == 0x86 or (kind, length) == (0x87, 3)), "answer", length, kind, session)
    return came.read(length - 3) if kind == 0x86 else None


def ask_for_all(tree):
    """Asks for all pieces in the order of the file; each has to have the digest that was asked for."""
    digests = [digest(piece) for piece in tree.pieces]
    with mirror(tree.runner, tree.pieces, 1) as port, socket.create_connection((HERE, port), timeout=60) as link, link.makefile("rb") as came:
        begun = time.perf_counter()
        answers = [asked(link, came, wanted) for wanted in digests]
        seconds = time.perf_counter() - begun
        need([digest(piece) for piece in answers if piece is not None] == digests, "other pieces")
        need(asked(link, came, digest(b"nobody has this")) is None, "a piece that isn't there")
    print(f"{len(answers)} pieces of {sum(map(len, answers))} bytes in {seconds:.3f} s: {seconds / len(answers) * 10_000:.3f} s for 10000")


def main():
    parser = argparse.ArgumentParser(description=__doc__.split("\n", maxsplit=1)[0])
    parser.add_argument("lamauth", help="the built program")
    parser.add_argument("--seed", type=int, default=1)
    parser.add_argument("--calls", type=int, default=1000)
    parser.add_argument("--keys", type=int, default=10_000)
    options = parser.parse_args()
    counts = collections.Counter(differences=0)
    with tempfile.TemporaryDirectory() as folder:
        try:
            tree = Tree(Runner(os.path.abspath(options.lamauth), folder), options.keys)
            ask_for_all(tree)
            play_calls(tree, random.Random(options.seed), options.calls, counts)
        except Difference as difference:
            counts["differences"] += 1
            print(str(difference)[:2000])
    differences = counts.pop("differences")
    print("calls: " + ", ".join(f"{name} {counts[name]}" for name in sorted(counts)))
    print(f"differences {differences}")
    return 1 if differences else 0


if __name__ == "__main__":
    sys.exit(main())
