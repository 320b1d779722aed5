#!/usr/bin/env python3
"""Measures rounds of `serve` of a built program on one thread and on several.

    tools/rounds_on_threads.py crates/lamauth/out/lamauth --rounds 100

64 sessions call a query, which makes 1,000 calls of functions and opens a value in each; then a round runs, proves and sends them all. So it
goes on for so many rounds, and the seconds are those from the first call to the last proof. About eight threads share the turns as far as
threads can be made: a library in C that is loaded before the C library refuses them all for the first row, and in the others the process
has so many processors. What is sent has to be the same in each run; else that is told, and the status is 1.
"""
import argparse
import hashlib
import os
import socket
import subprocess
import sys
import tempfile
import time

from refused_allocations import call, digest, go, hello, integer

HERE = "127.0.0.1"
SESSIONS = range(1, 65)
CALLS = 1_000
PROGRAM = (
    "state auth int; fun opens(s: auth int, n: int): int = let x = unauth(s) in if le(n, 0) then x else opens(s, sub(n, 1)); "
    "init make(x: int): auth int = auth(x); query many(s: auth int, n: int): int = opens(s, n);"
)

LIBRARY = r"""
#include <errno.h>
#include <pthread.h>

int pthread_create(pthread_t *thread, const pthread_attr_t *attributes, void *(*start)(void *), void *argument) {
    (void)thread, (void)attributes, (void)start, (void)argument;
    return EAGAIN;
}
"""


def exactly(link, count):
    """So many bytes that come on a link."""
    came = bytearray()
    while len(came) < count:
        some = link.recv(min(count - len(came), 65_536))
        if not some:
            raise EOFError("the server has ended the connection")
        came += some
    return bytes(came)


def replies(link, count):
    """So many messages that come on a link."""
    came = b""
    for _ in range(count):
        head = exactly(link, 4)
        came += head + exactly(link, int.from_bytes(head, "big"))
    return came


def talk(port, rounds):
    """How many seconds the rounds take, and the digest of all that is sent to them."""
    calls = b"".join(call(session, 1, CALLS, integer(CALLS - 2)) for session in SESSIONS) + go(1)
    with socket.create_connection((HERE, port), timeout=600) as link:
        link.sendall(b"".join(hello(session, PROGRAM, digest(integer(7)), 16) for session in SESSIONS))
        sent = hashlib.sha256(replies(link, len(SESSIONS)))
        begun = time.perf_counter()
        for _ in range(rounds):
            link.sendall(calls)
            sent.update(replies(link, len(SESSIONS)))
        return time.perf_counter() - begun, sent.hexdigest()


def served(lamauth, folder, rounds, processors, environment):
    """The same of a server that has so many processors."""
    with socket.create_server((HERE, 0)) as free:
        port = free.getsockname()[1]
    words = ["taskset", "-c", f"0-{processors - 1}", lamauth, "serve", "p", "i", str(port), "1", "1000000", "o"]
    with subprocess.Popen(words, cwd=folder, stdout=subprocess.PIPE, env=environment) as process:
        process.stdout.readline()
        told = talk(port, rounds)
        process.wait(timeout=60)
    return told


def rows(lamauth, folder, rounds, most):
    """What each row is called, and what is measured."""
    library, source = os.path.join(folder, "refuse.so"), os.path.join(folder, "refuse.c")
    with open(source, "w", encoding="utf-8") as file:
        file.write(LIBRARY)
    subprocess.run(["cc", "-shared", "-fPIC", "-o", library, source], check=True)
    with open(os.path.join(folder, "p"), "w", encoding="utf-8") as file:
        file.write(PROGRAM)
    subprocess.run([lamauth, "init", "p", "make", "7", "1", "i"], cwd=folder, check=True, stdout=subprocess.DEVNULL)
    yield "no thread can be made", served(lamauth, folder, rounds, most, {"LD_PRELOAD": library})
    for processors in (2**k for k in range(most.bit_length())):
        yield f"threads on {processors} processors", served(lamauth, folder, rounds, processors, {})


def main():
    parser = argparse.ArgumentParser(description=__doc__.split("\n", maxsplit=1)[0])
    parser.add_argument("lamauth", help="the built program")
    parser.add_argument("--rounds", type=int, default=100)
    parser.add_argument("--processors", type=int, default=os.cpu_count(), help="the most processors that the server has")
    options = parser.parse_args()
    print("| how | seconds | times as fast |\n|---|---|---|")
    first, sums = None, set()
    with tempfile.TemporaryDirectory() as folder:
        for name, (seconds, sent) in rows(os.path.abspath(options.lamauth), folder, options.rounds, options.processors):
            first = first or seconds
            sums.add(sent)
            print(f"| {name} | {seconds:.2f} | {first / seconds:.2f} |", flush=True)
    if len(sums) > 1:
        print("what is sent differs")
    return 1 if len(sums) > 1 else 0


if __name__ == "__main__":
    sys.exit(main())
