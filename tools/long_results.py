#!/usr/bin/env python3
"""Measures the peak memory where a result is refused for its length.

    tools/long_results.py LAMAUTH

A session of `serve` asks for proofs that open a text of 60,000 bytes again and again, of which the first fits a message and the others are
too long; and `init` makes states of texts, no two alike, of which the image of the first may be stored and those of the others are too
long. A line tells what came of each and the peak of its process.
"""
import os
import socket
import subprocess
import sys
import tempfile

from refused_allocations import call, digest, go, hello, integer
from rounds_on_threads import HERE, replies

TEXT = "a" * 60_000
SPELLED = len(TEXT).to_bytes(4, "big") + TEXT.encode()
OPENS = (
    "state auth text; fun opens(s: auth text, n: int): int = if le(n, 0) then 0 else let x = unauth(s) in opens(s, sub(n, 1)); "
    f'init make(x: unit): auth text = auth("{TEXT}"); query often(s: auth text, n: int): int = opens(s, n);'
)
TEXTS = (
    "type list = Nil | Cons(auth text, auth list); state auth list; "
    "fun texts(n: int, t: text, l: auth list): auth list = if le(n, 0) then l else texts(sub(n, 1), cat(t, \"b\"), auth(Cons(auth(t), l))); "
    f'init make(n: int): auth list = texts(n, "{TEXT}", auth(Nil)); query all(s: auth list, x: unit): unit = ();'
)
FUEL = 1_000_000


def write(folder, program):
    with open(os.path.join(folder, "p"), "w", encoding="utf-8") as file:
        file.write(program)


def peak(process):
    """The greatest number of KiB that the process has had."""
    with open(f"/proc/{process.pid}/status", encoding="utf-8") as status:
        return next(int(line.split()[1]) for line in status if line.startswith("VmHWM"))


def proofs(lamauth, folder, counts):
    """What a session is replied to a call of each count of openings, each on a server of its own, and the peak."""
    write(folder, OPENS)
    subprocess.run([lamauth, "init", "p", "make", "()", "9", "i"], cwd=folder, check=True, stdout=subprocess.DEVNULL)
    for count in counts:
        with socket.create_server((HERE, 0)) as free:
            port = free.getsockname()[1]
        words = [lamauth, "serve", "p", "i", str(port), "1", str(FUEL), "o"]
        with subprocess.Popen(words, cwd=folder, stdout=subprocess.PIPE) as process:
            process.stdout.readline()
            with socket.create_connection((HERE, port), timeout=600) as link:
                link.sendall(hello(1, OPENS, digest(SPELLED), 0))
                replies(link, 1)
                before = peak(process)
                link.sendall(call(1, 1, FUEL, integer(count)) + go(1))
                reply = replies(link, 1)
                told = f"refused {reply[-1]}" if reply[4] == 0x84 else f"a message of {len(reply):,} bytes"
                print(f"a proof of {count:,} openings: {told}, {before:,} KiB before, {peak(process):,} KiB behind it", flush=True)
            process.kill()


def images(lamauth, folder, counts):
    """What `init` tells of a state of each count of texts, and the peak."""
    write(folder, TEXTS)
    for count in counts:
        words = ["/usr/bin/time", "-f", "%M", lamauth, "init", "p", "make", str(count), str(FUEL), "i"]
        run = subprocess.run(words, cwd=folder, capture_output=True, text=True)
        print(f"an image of {count:,} texts: {run.stdout.strip()[:40]}, {int(run.stderr.split()[-1]):,} KiB", flush=True)


def main():
    lamauth = os.path.abspath(sys.argv[1])
    with tempfile.TemporaryDirectory() as folder:
        proofs(lamauth, folder, [250, 300, 1_000, 3_000])
        images(lamauth, folder, [1_000, 1_200, 2_400])


if __name__ == "__main__":
    main()
