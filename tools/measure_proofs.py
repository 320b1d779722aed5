#!/usr/bin/env python3
"""Measures `prove`, `verify` and `shallow` of a built program beside the same calls of a program in C.

    tools/measure_proofs.py crates/lamauth/out/lamauth BENCH

BENCH is a folder with the sources of the program in C: its `make` builds `bst_p`, which proves and verifies calls of bst.lam, and
`image_p`, which loads an image, digests it and saves it again, all with a portable SHA-256; its `make_image.py` and `make_list.py` write
images of a balanced tree and of a path. They are built in a folder of their own. Both programs have to print the same lines and to store
the same files.

Seconds are user and system, the best of some runs; the peak is that of the process. Instructions are counted by callgrind, for runs of
less than a second.
"""
import argparse
import filecmp
import hashlib
import os
import re
import shutil
import subprocess
import sys
import tempfile

FUEL, KEPT = "1000000000000", "16"
# how many keys or ints an image of 64 MiB has
LARGEST = {"bst": 1_560_670, "merkle": 1_720_736}


def run(words, folder):
    done = subprocess.run(words, cwd=folder, stdout=subprocess.PIPE, stderr=subprocess.PIPE, text=True, check=False)
    if done.returncode != 0:
        sys.exit(f"{' '.join(words)}: status {done.returncode}\n{done.stdout[:300]}{done.stderr[:300]}")
    return done.stdout


def seconds_and_peak(words, folder, times):
    """The least user and system seconds of so many runs, and the peak in MiB: by `time`, since a child's begins with that of its parent."""
    best = float("inf")
    for _ in range(times):
        child = subprocess.Popen(words, cwd=folder, stdout=subprocess.DEVNULL, stderr=subprocess.DEVNULL)
        _, child.returncode, use = os.wait4(child.pid, 0)
        best = min(best, use.ru_utime + use.ru_stime)
    done = subprocess.run(["/usr/bin/time", "-f", "%M", *words], cwd=folder, stdout=subprocess.DEVNULL, stderr=subprocess.PIPE, text=True, check=True)
    return best, int(done.stderr.split()[-1]) / 1024


def instructions(words, folder):
    done = subprocess.run(["valgrind", "--tool=callgrind", "--callgrind-out-file=/dev/null", *words], cwd=folder, stdout=subprocess.DEVNULL,
                          stderr=subprocess.PIPE, text=True, check=True)
    return int(re.search(r"Collected : (\d+)", done.stderr).group(1))


class Bench:
    def __init__(self, options, folder):
        self.lamauth, self.times, self.folder = os.path.abspath(options.lamauth), options.times, folder
        self.most, self.counts = options.most, not options.uncounted
        for name in os.listdir(options.bench):
            if name.endswith((".c", ".h", ".py")) or name == "Makefile":
                shutil.copy(os.path.join(options.bench, name), folder)
        run(["make", "-s", "bst_p", "image_p"], folder)
        self.digests = {}
        for name in LARGEST:
            text = os.path.join(options.library, name + ".lam")
            shutil.copy(text, folder)
            with open(text, "rb") as file:
                self.digests[name] = hashlib.sha256(file.read()).hexdigest()

    def compare(self, what, size, own, other, stored=None):
        """A line of the table, once both programs have told the same line and stored the same file."""
        told, alike = run([self.lamauth, *own], self.folder), run(other, self.folder)
        if told != alike or stored and not filecmp.cmp(*(os.path.join(self.folder, name) for name in stored), shallow=False):
            sys.exit(f"{what} {size}: not alike\n{told[:300]}\n{alike[:300]}")
        cells = [what, f"{size:,}"]
        measured = []
        for words in ([self.lamauth, *own], other):
            seconds, peak = seconds_and_peak(words, self.folder, self.times)
            count = f"{instructions(words, self.folder):,}" if self.counts and seconds < 1 else "-"
            cells += [f"{seconds:.3f}", count, f"{peak:.0f}"]
            measured.append(seconds)
        cells.append(f"{measured[0] / measured[1]:.1f}" if measured[1] > 0.01 else "-")
        print("| " + " | ".join(cells) + " |", flush=True)

    def calls(self, kind, size):
        """`prove` and `verify` of a `put` of a key that isn't there, on a balanced tree or on a path."""
        if kind == "tree":
            run([sys.executable, "make_image.py", "bst", self.digests["bst"], str(size), "image"], self.folder)
        else:
            run([sys.executable, "make_list.py", self.digests["bst"], str(size), "image"], self.folder)
        argument = f"({(size << 32) + 1}, 5)"
        run([self.lamauth, "shallow", "bst.lam", "image", "state"], self.folder)
        self.compare(f"`prove put`, {kind}", size, ["prove", "bst.lam", "put", "image", argument, FUEL, KEPT, "own.proof"],
                     ["./bst_p", "prove", "put", "image", argument, FUEL, KEPT, "other.proof"], ("own.proof", "other.proof"))
        self.compare(f"`verify put`, {kind}", size, ["verify", "bst.lam", "put", "state", argument, FUEL, "own.proof", "own.state"],
                     ["./bst_p", "verify", "put", "state", argument, FUEL, "own.proof", "other.state"], ("own.state", "other.state"))

    def images(self, name):
        """`shallow` of an image of 64 MiB: the C program also saves it again."""
        size = min(LARGEST[name], self.most)
        run([sys.executable, "make_image.py", name, self.digests[name], str(size), "image"], self.folder)
        self.compare(f"`shallow`, {name}", size, ["shallow", name + ".lam", "image", "own.state"], ["./image_p", name, "image", "saved"])


def main():
    parser = argparse.ArgumentParser(description=__doc__.split("\n")[0])
    parser.add_argument("lamauth", help="the built program")
    parser.add_argument("bench", help="the folder of the program in C")
    parser.add_argument("--times", type=int, default=3, help="how many runs the best is taken of")
    parser.add_argument("--most", type=int, default=2_000_000, help="no more keys than this")
    parser.add_argument("--uncounted", action="store_true", help="count no instructions")
    here = os.path.dirname(os.path.abspath(__file__))
    parser.add_argument("--library", default=os.path.join(os.path.dirname(here), "crates/library_files/data"))
    options = parser.parse_args()
    with tempfile.TemporaryDirectory() as folder:
        bench = Bench(options, folder)
        print("| call | keys | seconds | instructions | peak MiB | C: seconds | instructions | peak MiB | times as long |")
        print("|---|---|---|---|---|---|---|---|---|")
        for kind in ("tree", "path"):
            for size in (1_000, 10_000, 100_000):
                if size <= options.most:
                    bench.calls(kind, size)
        for name in LARGEST:
            bench.images(name)


if __name__ == "__main__":
    main()
