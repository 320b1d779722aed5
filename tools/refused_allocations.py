#!/usr/bin/env python3
"""Refuses each allocation of a run of a built program in turn, and looks at what the run answers.

    tools/refused_allocations.py crates/lamauth/out/lamauth

A library in C that is loaded before the C library counts the calls of `malloc` and `realloc`, and refuses one, or one and all behind it;
`cc` makes it. (`rt try --fail-alloc N` refuses the same one, but builds the program anew for each.) For each command a line of a table
tells how many allocations a run makes, and of how many refusals it answers `no memory`, behind whole lines alone and with status 10. Where
the refusal was of more room than was needed, or of what a run can do without, it may answer what it answers with none refused. Any
other answer is told, and the status is 1 then.

`serve`, `host` and `mirror` have a client, which sends all of its requests and reads to the end; and `ask` and `draw` a server, which sends all of its
replies.
What was sent behind a refusal has to be a front of what is sent with none refused, and a stored version one of those that the requests make.
"""
import argparse
import hashlib
import os
import subprocess
import sys
import tempfile

from random_calls import Runner
from talking import AskedServer, ServedClient, run_talking

LIBRARY = r"""
#define _GNU_SOURCE
#include <dlfcn.h>
#include <errno.h>
#include <fcntl.h>
#include <stdlib.h>
#include <sys/syscall.h>
#include <unistd.h>

static unsigned long calls, first, last;
static void *(*real_malloc)(size_t);
static void *(*real_realloc)(void *, size_t);

__attribute__((constructor)) static void begin(void) {
    real_malloc = dlsym(RTLD_NEXT, "malloc");
    real_realloc = dlsym(RTLD_NEXT, "realloc");
    const char *from = getenv("REFUSE_FROM"), *to = getenv("REFUSE_TO");
    first = from ? strtoul(from, 0, 10) : 0;
    last = to ? strtoul(to, 0, 10) : 0;
    calls = 0;
}

static void tell(void) {
    const char *name = getenv("REFUSE_COUNT");
    int file = name ? open(name, O_WRONLY | O_CREAT | O_TRUNC, 0600) : -1;
    if (file < 0) return;
    char digits[20];
    int at = sizeof digits;
    unsigned long left = calls;
    do digits[--at] = '0' + left % 10; while (left /= 10);
    if (write(file, digits + at, sizeof digits - at) < 0) abort();
    close(file);
}

__attribute__((destructor)) static void end(void) {
    tell();
}

/* A program that may start threads ends so, without what is to be done at an exit. */
void _exit(int status) {
    tell();
    syscall(SYS_exit_group, status);
    __builtin_unreachable();
}

static int refuses(void) {
    unsigned long call = __atomic_add_fetch(&calls, 1, __ATOMIC_SEQ_CST);
    if (call < first || call > last) return 0;
    errno = ENOMEM;
    return 1;
}

void *malloc(size_t size) {
    if (!real_malloc) real_malloc = dlsym(RTLD_NEXT, "malloc");
    return refuses() ? 0 : real_malloc(size);
}

void *realloc(void *place, size_t size) {
    if (!real_realloc) real_realloc = dlsym(RTLD_NEXT, "realloc");
    return refuses() ? 0 : real_realloc(place, size);
}
"""

FIRST = "state auth unit; init make(x: unit): auth unit = auth(x); query open(s: auth unit, x: unit): unit = unauth(s);"
SWITCH = (
    "state auth bool; init make(x: bool): auth bool = auth(x); query both(s: auth bool, x: unit): (bool, bool) = (unauth(s), unauth(s)); "
    "update flip(s: auth bool, x: unit): (auth bool, bool) = let b = unauth(s) in (auth(not(b)), b);"
)
MIRROR, OTHER_MIRROR = b"LAM1\0\0\0\1\0\0\0\1\1", b"LAM1\0\0\0\1\0\0\0\1\0"
ONE, TWICE = b"LAP1\0\0\0\0\0\0\1\1", b"LAP1\0\0\0\0\0\0\1\1\0\0\0\0\1\1"

# a program, the literal of its state, the words of a command, and a proof or a mirror where it judges a call by one; `library` and `gen` read no file
COMMANDS = [
    (FIRST, "()", ["verify", "p", "open", "s", "()", "1", "q"], b"LAP1\0\0\0\0\0\0\0"),
    (FIRST, "()", ["verify", "p", "open", "s", "()", "1", "q"], b"LAP1\0\0\0\0\0"),
    (SWITCH, "true", ["init", "p", "make", "true", "1", "o"], b""),
    (SWITCH, "true", ["prove", "p", "both", "i", "()", "1", "1", "o"], b""),
    (SWITCH, "true", ["prove", "p", "both", "i", "()", "1", "0", "o"], b""),
    (SWITCH, "true", ["verify", "p", "both", "s", "()", "1", "q"], TWICE),
    (FIRST, "()", ["shallow", "p", "i", "o"], b""),
    (SWITCH, "true", ["check", "p"], b""),
    (SWITCH, "true", ["emit", "p", "o"], b""),
    (SWITCH, "true", ["ideal", "p", "flip", "i", "()", "1"], b""),
    (SWITCH, "true", ["step", "p", "flip", "i", "()", "1", "o"], b""),
    (SWITCH, "true", ["verify", "p", "flip", "s", "()", "1", "q", "o"], ONE),
    (SWITCH, "true", ["audit", "p", "flip", "i", "()", "1", "q"], ONE),
    (SWITCH, "true", ["audit", "p"], b""),
    (SWITCH, "true", ["pieces", "p", "i", "o"], b""),
    (SWITCH, "true", ["fetch", "p", "both", "s", "()", "1", "q"], MIRROR),
    (SWITCH, "true", ["fetch", "p", "both", "s", "()", "1", "q"], OTHER_MIRROR),
    (SWITCH, "true", ["fetch", "p", "both", "s", "()", "1", "q"], MIRROR + b"\0"),
    (FIRST, "()", ["library", "bst"], b""),
    (FIRST, "()", ["gen", "bst", "1", "1", "1"], b""),
]

SPIN = (
    "state auth bool; fun spin(n: int): int = if le(n, 0) then 0 else spin(sub(n, 1)); init make(x: bool): auth bool = auth(x); "
    "update put(s: auth bool, e: (int, bool)): (auth bool, int) = let n = spin(fst(e)) in (auth(snd(e)), n);"
)


def message(kind, session, body=b""):
    """The bytes of a message."""
    inside = bytes([kind]) + session.to_bytes(2, "big") + body
    return len(inside).to_bytes(4, "big") + inside


def hello(session, program, state, kept=0):
    return message(1, session, hashlib.sha256(program.encode()).digest() + kept.to_bytes(2, "big") + state)


def call(session, role, fuel, argument=b""):
    return message(2, session, role.to_bytes(2, "big") + fuel.to_bytes(8, "big") + argument)


def go(rounds):
    return message(3, 0, rounds.to_bytes(4, "big"))


def bye(session):
    return message(4, session)


def integer(number):
    return number.to_bytes(8, "big", signed=True)


def digest(piece):
    return hashlib.sha256(piece).digest()


NONE, FALSE, TRUE = digest(b""), b"\0", b"\1"

# a program, the literal of its state, a slice, and what is sent to `serve`: one session that opens the state; and two that make another
SERVED = [
    (FIRST, "()", 1, hello(1, FIRST, NONE) + call(1, 1, 1) + go(1) + bye(1)),
    (SPIN, "true", 1, hello(1, SPIN, digest(TRUE)) + hello(2, SPIN, digest(TRUE)) + call(1, 1, 100, integer(3) + TRUE) + call(2, 1, 100, integer(0) + FALSE) + go(10)),
]

# what is sent to `mirror`, and what is replied to `draw`: a piece that is there, and one that isn't; the piece twice, and a false one
FETCHES = message(5, 0, TRUE) + message(5, 0, NONE)
ANSWERS = [message(0x86, 0, b"\1") * 2, message(0x86, 0, b"\0")]

# a program, the literal of its state, a script of `ask`, and what is replied
ASKED = [
    (FIRST, "()", "open 1 0\ncall 1 open 1 ()\ngo\nclose 1\n", message(0x81, 1) + message(0x82, 1, bytes(5)) + message(0x85, 1, bytes(1))),
]


# the record of a flip of SWITCH with fuel 1 in a journal, behind an open gate, and the closed gate behind it
FLIP = b"\1\0\2" + integer(1) + bytes(5)


def journal(program, image):
    """A journal of this image without commits."""
    return b"LAJ1" + hashlib.sha256(program.encode()).digest() + len(image).to_bytes(4, "big") + image + b"\0"


class Refusals:
    """Runs of commands, of which allocations are refused."""

    def __init__(self, options, folder):
        self.lamauth, self.folder = options.lamauth, folder
        self.library, self.count = os.path.join(folder, "refuse.so"), os.path.join(folder, "count")
        source = os.path.join(folder, "refuse.c")
        with open(source, "w", encoding="utf-8") as file:
            file.write(LIBRARY)
        subprocess.run(["cc", "-shared", "-fPIC", "-O1", "-fno-builtin", "-o", self.library, source, "-ldl"], check=True)
        self.runner = Runner(self.lamauth, folder)

    def run(self, words, files, peer=None, first=0, last=0):
        """What a run answers and sends, and how many allocations it made."""
        environment = {"LD_PRELOAD": self.library, "REFUSE_FROM": str(first), "REFUSE_TO": str(last), "REFUSE_COUNT": self.count}
        if peer is None:
            self.runner.environment = environment
            result, sent = self.runner.run(words, files), b""
        else:
            self.runner.write(files)
            result, sent = run_talking(self.lamauth, self.folder, environment, words, peer)
        with open(self.count, encoding="ascii") as file:
            return (result, sent), int(file.read())

    def answers(self, words, files, peer, lasts):
        """The answers of a run, by the allocation from which on those up to a last one are refused, until there is none to refuse."""
        whole, _ = self.run(words, files, peer)
        counts, others, first = {"no memory": 0, "as with none refused": 0}, [], 1
        while True:
            answer, calls = self.run(words, files, peer, first, lasts(first))
            if calls < first:
                return counts, others if answer == whole else [*others, (first, answer)]
            if answer == whole:
                counts["as with none refused"] += 1
            elif is_want(answer, whole, files):
                counts["no memory"] += 1
            else:
                others.append((first, answer))
            first += 1


def is_want(answer, whole, files):
    """Whether an answer is the want of memory, behind whole lines of what is answered with none refused. What was sent is a front of
    what is sent then, and what was stored is the same, or nothing, or the state that was there."""
    (result, sent), (whole, all_sent) = answer, whole
    lines = whole.text.splitlines(keepends=True)
    texts = ["".join(lines[:k]) + "no memory\n" for k in range(len(lines) + 1)]
    stored = result.stored in (None, whole.stored, files["i"], files["s"])
    return result.status == 10 and result.text in texts and stored and all_sent.startswith(sent)


def files_of(refusals, program, literal, **others):
    """The files that commands on a state name: its program, its image and its projection; and others."""
    files = {"p": program.encode(), **others}
    for made, words in (("i", ["init", "p", "make", literal, "1", "o"]), ("s", ["shallow", "p", "i", "o"])):
        files[made] = refusals.run(words, files)[0][0].stored
    return files


def cases(refusals):
    """The words of each command, its files, and the peer to which it speaks, where it speaks to one."""
    for program, literal, words, proof in COMMANDS:
        yield words, files_of(refusals, program, literal, q=proof), None
    for program, literal, piece, requests in SERVED:
        yield ["serve", "p", "i", "PORT", "1", str(piece), "o"], files_of(refusals, program, literal), ServedClient(requests)
    for program, literal, script, replies in ASKED:
        yield ["ask", "p", "s", "PORT", "t", "o"], files_of(refusals, program, literal, t=script.encode()), AskedServer(replies)
    for program, literal, piece, requests in SERVED:
        files = files_of(refusals, program, literal)
        yield ["host", "p", "j", "PORT", "1", str(piece)], {**files, "j": journal(program, files["i"])}, ServedClient(requests)
    switch = files_of(refusals, SWITCH, "true", q=MIRROR)
    yield ["found", "p", "i", "j"], {**switch, "j": b""}, None
    yield ["replay", "p", "j", "o"], {**switch, "j": journal(SWITCH, switch["i"])[:-1] + FLIP}, None
    yield ["mirror", "q", "PORT", "1"], switch, ServedClient(FETCHES)
    for answers in ANSWERS:
        yield ["draw", "p", "both", "s", "()", "1", "PORT"], switch, AskedServer(answers)


def main():
    parser = argparse.ArgumentParser(description=__doc__.split("\n", maxsplit=1)[0])
    parser.add_argument("lamauth", help="the built program")
    options = parser.parse_args()
    options.lamauth = os.path.abspath(options.lamauth)
    print("| command | status | allocations | one is refused: `no memory` | as with none refused | it and all behind it: `no memory` | as with none refused |")
    print("|---|---|---|---|---|---|---|")
    wrong = []
    with tempfile.TemporaryDirectory() as folder:
        refusals = Refusals(options, folder)
        for words, files, peer in cases(refusals):
            (whole, _), calls = refusals.run(words, files, peer)
            cells = [f"`{' '.join(words)}`", str(whole.status), str(calls)]
            for lasts in (lambda first: first, lambda first: 2**64 - 1):
                counts, others = refusals.answers(words, files, peer, lasts)
                cells += [str(count) for count in counts.values()]
                wrong += [(words, *other) for other in others]
            print("| " + " | ".join(cells) + " |", flush=True)
    for other in wrong:
        print(*other)
    return 1 if wrong else 0


if __name__ == "__main__":
    sys.exit(main())
