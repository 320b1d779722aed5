#!/usr/bin/env python3
"""Random calls of the library's programs over mirrors of pieces, by a built program.

    tools/fetch_calls.py crates/lamauth/out/lamauth
    tools/fetch_calls.py LAMAUTH --seed 7 --calls 5000 --altered 8 --jobs 4

A state is made and grown by random puts, and its roles are called with random arguments and fuel. Of each call `ideal`, `prove` and `verify`
have to tell the same outcome. `pieces` files the pieces of the state, and `fetch` has to tell that outcome over this mirror, as long as no
piece is opened that the call itself makes; and over a mirror that is made here of the pieces of the proof, in a random order. Then of mirrors
in which a piece was changed, left out, put twice or put beside the others, and of files that were cut, lengthened or changed in one byte.

What `fetch` has to tell is computed here: the first fault of the file, from left to right; or the first piece of the proof whose SHA-256
digest no piece of the mirror has; or the outcome.

Each difference is told with the seed and the number of its state; `--first NUMBER --calls 1 --keep FOLDER` plays that one again and keeps its
files. The status is 1 where there is a difference.
"""
import argparse
import collections
import os
import random
import struct
import subprocess
import sys
import tempfile

from random_calls import Play, Runner, digest, flipped, need, play_all, played

PROGRAMS = {"bst": "empty", "merkle": "make", "redblack": "empty", "skiplist": "empty"}
MIRROR_PIECE_LIMIT = 1_048_608
CALLS_OF_A_STATE = 20


# mirrors


def file_of(pieces):
    """The file of a mirror with these pieces."""
    return b"LAM1" + struct.pack(">I", len(pieces)) + b"".join(struct.pack(">I", len(piece)) + piece for piece in pieces)


def read_mirror(data):
    """The pieces of a mirror's file, and the first fault from left to right; none of the one or of the other."""
    cut = f"mirror cut {len(data)}"
    if len(data) < 4:
        return None, cut
    if data[:4] != b"LAM1":
        return None, "mirror field 0"
    if len(data) < 8:
        return None, cut
    (count,) = struct.unpack_from(">I", data, 4)
    at, pieces = 8, []
    while len(pieces) < count:
        if len(data) < at + 4:
            return None, cut
        (length,) = struct.unpack_from(">I", data, at)
        if length > MIRROR_PIECE_LIMIT:
            return None, f"mirror field {at}"
        if len(data) < at + 4 + length:
            return None, cut
        piece = data[at + 4 : at + 4 + length]
        if piece in pieces:
            return None, f"mirror field {at}"
        pieces.append(piece)
        at += 4 + length
    return (pieces, None) if at == len(data) else (None, f"mirror leftover {len(data) - at}")


def fetched(data, opened, ideal):
    """What is told of a call that opens these pieces, over the mirror in these bytes."""
    pieces, fault = read_mirror(data)
    if fault:
        return 7, f"input refused: {fault}\n"
    known = {digest(piece) for piece in pieces}
    for place, piece in enumerate(opened):
        if digest(piece) not in known:
            return 5, f"rejected missing {place} {digest(piece)}\n"
    return ideal[:2]


def altered_mirror(rng, pieces):
    """The file of other pieces than these, or bytes that may be none of a mirror."""
    pieces, choice = list(pieces), rng.randrange(7)
    at = rng.randrange(len(pieces)) if pieces else 0
    if choice == 0 and pieces:
        del pieces[at]
    elif choice == 1 and pieces and pieces[at]:
        pieces[at] = flipped(rng, pieces[at])
    elif choice == 2 and pieces:
        pieces.insert(rng.randrange(len(pieces) + 1), pieces[at])
    elif choice == 3:
        pieces.insert(at, rng.randbytes(rng.choice([0, 1, 9, 32, 65])))
    data = file_of(pieces)
    if choice == 4:
        return flipped(rng, data)
    if choice == 5:
        return data[: rng.randrange(len(data))]
    return data + rng.randbytes(rng.randint(1, 3)) if choice == 6 else data


# calls


class Library:
    """A program of the library, with arguments of its roles among which keys come again."""

    def __init__(self, rng, lamauth):
        self.rng = rng
        self.name = rng.choice(sorted(PROGRAMS))
        self.program = subprocess.run([lamauth, "library", self.name], stdout=subprocess.PIPE, text=True, check=True).stdout

    def text(self):
        return self.program

    def roles(self, kind):
        return [{"init": PROGRAMS[self.name], "query": "get", "update": "put"}[kind]]

    def argument(self, role):
        few = lambda: str(self.rng.randint(-1, 20))
        if role == "empty":
            return "()"
        if role == "make":
            return f"({self.rng.randint(0, 30)}, {few()})"
        return few() if role == "get" else f"({few()}, {few()})"


class MirrorPlay(Play):
    """The calls on one state that grows, each with some altered mirrors."""

    def run(self):
        while self.image is None:
            yield from self.make()
        for _ in range(self.rng.choice([0, 1, 5, 30])):
            yield from self.grow()
        for _ in range(CALLS_OF_A_STATE):
            yield from self.call()

    def grow(self):
        (step,) = yield [self.command("step", "put", "i", self.program.argument("put"), "1000", "o", i=self.image)]
        need(step.status == 0, "step", step)
        (shallow,) = yield [self.command("shallow", "i", "o", i=step.stored)]
        self.image, self.state = step.stored, shallow.stored

    def call(self):
        """A call of a random role, over the mirror of the state and over others; an update leaves both sides with its new state."""
        kind, role, words = self.random_call()
        ideal, proof, opened = yield from self.prove(role, words)
        filled = yield from self.verify_and_fill(role, words, ideal, proof)
        own = list(dict.fromkeys(opened))
        self.rng.shuffle(own)
        is_whole = set(own) <= set(filled)
        need(is_whole or kind == "update", role, *words, "opens a piece that the mirror of its state hasn't")
        self.counts["calls"] += 1
        self.counts["calls, of the state's pieces alone"] += is_whole
        self.counts[f"calls, {ideal.text.split()[0]}"] += 1
        mirrors = [file_of(filled), file_of(own)]
        mirrors += [altered_mirror(self.rng, self.rng.choice([filled, own])) for _ in range(self.altered_proofs)]
        yield from self.fetch(role, words, mirrors, opened, ideal)
        if kind == "update":
            yield from self.step(role, words, ideal, proof)

    def verify_and_fill(self, role, words, ideal, proof):
        """Has `verify` judge the proof, and gives the pieces that `pieces` files."""
        verify, pieces = yield [
            self.command("verify", role, "s", *words, "q", s=self.state, q=proof),
            self.command("pieces", "i", "o", i=self.image),
        ]
        need(verify == (*ideal[:2], None), "verify", role, *words, verify, ideal)
        need(pieces.stored is not None, "pieces", pieces)
        filled, fault = read_mirror(pieces.stored)
        need(fault is None and pieces.stored == file_of(filled), "pieces", fault, pieces.stored.hex())
        need(pieces[:2] == (0, f"pieces {len(filled)}\n"), "pieces", pieces[:2], len(filled))
        self.counts["pieces filed"] += len(filled)
        return filled

    def fetch(self, role, words, mirrors, opened, ideal):
        """Has `fetch` judge the call over these mirrors."""
        results = yield [self.command("fetch", role, "s", *words, "m", s=self.state, m=mirror) for mirror in mirrors]
        for mirror, result in zip(mirrors, results):
            told = fetched(mirror, opened, ideal)
            self.counts[f"mirrors, {' '.join(told[1].split()[:2]) if told[0] in (5, 7) else 'accepted'}"] += 1
            need(result == (*told, None), "fetch", role, *words, result, told, mirror.hex())


def play_number(task):
    options, number = task
    rng = random.Random(f"{options.seed}/{number}")
    counts = collections.Counter(states=1)
    play = MirrorPlay(Library(rng, options.lamauth), rng, options.altered, counts)
    with tempfile.TemporaryDirectory() as folder:
        difference = played(play, Runner(options.lamauth, options.keep or folder).run)
    if difference:
        counts["differences"] += 1
        difference = f"seed {options.seed}, state {number}: {difference[:2000]}"
    return counts, difference


def main():
    parser = argparse.ArgumentParser(description=__doc__.split("\n", maxsplit=1)[0])
    parser.add_argument("lamauth", help="the built program")
    parser.add_argument("--seed", type=int, default=1)
    parser.add_argument("--first", type=int, default=0, help="the number of the first state")
    parser.add_argument("--calls", type=int, default=1000, help=f"calls in all, {CALLS_OF_A_STATE} of each state")
    parser.add_argument("--altered", type=int, default=4, help="altered mirrors of each call")
    parser.add_argument("--jobs", type=int, default=2)
    parser.add_argument("--keep", help="a folder where the files of one state are kept")
    options = parser.parse_args()
    options.lamauth = os.path.abspath(options.lamauth)
    states = -(-options.calls // CALLS_OF_A_STATE)
    return play_all(play_number, [(options, number) for number in range(options.first, options.first + states)], options.jobs)


if __name__ == "__main__":
    sys.exit(main())
