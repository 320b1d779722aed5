#!/usr/bin/env python3
"""Measures greetings of a server with many versions.

    tools/greetings.py LAMAUTH --versions 4096 --bytes 32

A session commits an update for each version but the first; the state's spelling has so many bytes, 32 or at least 36. Then sessions greet at
a state that no version has, and each is refused once it was compared with all of them. The seconds of each greeting are told; with a
`--port` those of a server that runs already, over the program and the image that `--prepare FOLDER` writes.
"""
import argparse
import os
import socket
import subprocess
import sys
import tempfile
import time

from refused_allocations import call, digest, go, hello, integer
from rounds_on_threads import HERE, replies

SHORT = (
    "state auth int; init make(x: int): auth int = auth(x); "
    "update next(s: auth int, x: unit): (auth int, unit) = (auth(add(unauth(s), 1)), ());"
)
LONG = (
    "state (auth int, text); init make(x: (int, text)): (auth int, text) = (auth(fst(x)), snd(x)); "
    "update next(s: (auth int, text), x: unit): ((auth int, text), unit) = ((auth(add(unauth(fst(s)), 1)), snd(s)), ());"
)


class State:
    """A state whose spelling has so many bytes."""

    def __init__(self, count):
        self.text = "a" * (count - 36)
        self.program = SHORT if count == 32 else LONG

    def spelling(self, number):
        head = digest(integer(number))
        return head if self.program == SHORT else head + len(self.text).to_bytes(4, "big") + self.text.encode()


def prepare(state, folder):
    """Writes the program and its first state's image into the folder."""
    auth = [b"\x02" + integer(7), b"\x06" + bytes(4)]
    text = b"\x03" + len(state.text).to_bytes(4, "big") + state.text.encode()
    records = auth if state.program == SHORT else [*auth, text, b"\x04\0\0\0\x01\0\0\0\x02"]
    with open(os.path.join(folder, "p"), "w", encoding="utf-8") as file:
        file.write(state.program)
    with open(os.path.join(folder, "i"), "wb") as file:
        file.write(b"LAI1" + digest(state.program.encode()) + len(records).to_bytes(4, "big") + b"".join(records))


def greetings(port, state, versions, count):
    """The seconds of the commits, and of each greeting."""
    with socket.create_connection((HERE, port), timeout=3600) as link:
        begun = time.perf_counter()
        link.sendall(hello(1, state.program, state.spelling(7), 0))
        assert replies(link, 1)[4] == 0x81
        for _ in range(versions - 1):
            link.sendall(call(1, 1, 9) + go(1))
            assert replies(link, 1)[4] == 0x82
        yield time.perf_counter() - begun
        for number in range(count):
            begun = time.perf_counter()
            link.sendall(hello(2, state.program, state.spelling(-1 - number), 0))
            assert replies(link, 1)[4] == 0x84
            yield time.perf_counter() - begun


def told(port, state, options):
    committed, *seconds = greetings(port, state, options.versions, options.greetings)
    print(f"{options.versions} versions of {len(state.spelling(7))} bytes in {committed:.2f} s; greetings: " + " ".join(f"{it:.6f}" for it in seconds))


def served(lamauth, state, folder, options):
    prepare(state, folder)
    with socket.create_server((HERE, 0)) as free:
        port = free.getsockname()[1]
    words = [lamauth, "serve", "p", "i", str(port), "1", "1000000", "o"]
    with subprocess.Popen(words, cwd=folder, stdout=subprocess.PIPE) as process:
        process.stdout.readline()
        told(port, state, options)
        print(process.stdout.read().decode().strip())


def main():
    parser = argparse.ArgumentParser(description=__doc__.split("\n", maxsplit=1)[0])
    parser.add_argument("lamauth", nargs="?", help="the built program")
    parser.add_argument("--versions", type=int, default=4096)
    parser.add_argument("--bytes", type=int, default=32)
    parser.add_argument("--greetings", type=int, default=4)
    parser.add_argument("--prepare", metavar="FOLDER", help="only write the program and the image into this folder, as p and i")
    parser.add_argument("--port", type=int, help="of a server of these that runs already")
    options = parser.parse_args()
    state = State(options.bytes)
    if options.prepare:
        prepare(state, options.prepare)
        return 0
    if options.port:
        told(options.port, state, options)
        return 0
    with tempfile.TemporaryDirectory() as folder:
        served(os.path.abspath(options.lamauth), state, folder, options)
    return 0


if __name__ == "__main__":
    sys.exit(main())
