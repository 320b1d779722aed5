#!/usr/bin/env python3
"""Random calls of random programs, proved, verified and audited by a built program; and proofs that are altered.

    tools/random_calls.py crates/lamauth/out/lamauth
    tools/random_calls.py LAMAUTH --seed 7 --programs 100 --altered 10 --jobs 4
    tools/random_calls.py LAMAUTH --programs 500 --flips 20

Of each program a state is made, and some of its queries and updates are called with random arguments, fuel and numbers of kept pieces.
`ideal`, `prove`, `verify` and `audit` have to tell the same outcome. The proof has to be the one that its pieces and the number of kept
pieces determine, which is computed here. Behind an update `verify` has to store what `shallow` stores of the image that `step` stores.
Of an altered proof both `verify` and `audit` have to tell what is computed here: since no two pieces have one digest, a run is that of
the honest pieces up to the first that differs, and is rejected there for its cause; or the proof is accepted with the true outcome.

With --flips one byte is changed, in turn of a proof and of an image. An image that is refused has to be refused alike by each command that
reads one; one that is accepted is another state, of which all commands have to tell the same. What is proved of it is handed to a client of
the honest state too, who has to reject it, or tell the outcome of that.

Each difference is told with the seed and the number of its program; `--first NUMBER --programs 1 --keep FOLDER` plays that one again and
keeps its files. The status is 1 where there is a difference.
"""
import argparse
import collections
import hashlib
import multiprocessing
import os
import random
import struct
import subprocess
import sys
import tempfile

from random_programs import Example, Program

KEPT = [0, 1, 2, 16, 1024]
FUELS = [0, 1, 2, 3, 8, 20, 100, 300, 1000, 1000, 1000, 1000, 1000, 1000]
OUTCOMES = {0: "done ", 3: "trap ", 4: "out of fuel"}
PIECE_LIMIT = 65_536

Result = collections.namedtuple("Result", "status text stored")


class Difference(Exception):
    """Something was told otherwise than it has to be."""


def digest(data):
    return hashlib.sha256(data).hexdigest()


def need(holds, *what):
    if not holds:
        raise Difference(" | ".join(str(part) for part in what))


# proofs


def frames_of(proof):
    """The frames of a well-formed proof: the pieces of new ones, and the numbers of those that name a kept piece."""
    at, frames = 6, []
    while at < len(proof):
        if proof[at] == 0:
            (length,) = struct.unpack_from(">I", proof, at + 1)
            frames.append(proof[at + 5 : at + 5 + length])
            at += 5 + length
        else:
            frames.append(struct.unpack_from(">H", proof, at + 1)[0])
            at += 3
    return frames


def bytes_of(frames, kept):
    parts = [b"LAP1", struct.pack(">H", kept)]
    for frame in frames:
        if isinstance(frame, int):
            parts.append(b"\1" + struct.pack(">H", frame))
        else:
            parts.append(b"\0" + struct.pack(">I", len(frame)) + frame)
    return b"".join(parts)


def pieces_of(frames):
    new, pieces = [], []
    for frame in frames:
        if isinstance(frame, int):
            pieces.append(new[-1 - frame])
        else:
            new.append(frame)
            pieces.append(frame)
    return pieces


def honest_frames(pieces, kept):
    """The frames of these pieces: each names the last new piece that equals it, among those that are kept."""
    new, frames = [], []
    for piece in pieces:
        ring = new[len(new) - min(kept, len(new)) :]
        places = [k for k in range(len(ring)) if ring[-1 - k] == piece]
        if places:
            frames.append(places[0])
        else:
            frames.append(piece)
            new.append(piece)
    return frames


def rejection(proof, pieces):
    """Why a proof of a run that opens these pieces is rejected; none where it is accepted."""
    if len(proof) < 6 or proof[:4] != b"LAP1" or struct.unpack_from(">H", proof, 4)[0] > 1024:
        return "header"
    (kept,) = struct.unpack_from(">H", proof, 4)
    at, new = 6, []
    for place, want in enumerate(pieces):
        piece, at, cause = next_piece(proof, at, kept, new)
        if cause:
            return cause.format(place)
        if piece != want:
            return f"wrong-piece {place} {digest(want)} {digest(piece)}"
    left = len(proof) - at
    return f"leftover {min(left, PIECE_LIMIT)}" if left else None


def next_piece(proof, at, kept, new):
    """The piece of the frame at a place, the place behind it, and the cause where there is none."""
    if at == len(proof):
        return None, at, "short {}"
    kind, behind = proof[at], proof[at + 1 :]
    if kind == 0:
        if len(behind) < 4:
            return None, at, "cut {}"
        (length,) = struct.unpack_from(">I", behind)
        if length > PIECE_LIMIT:
            return None, at, f"piece-long {{}} {length}"
        if len(behind) < 4 + length:
            return None, at, "cut {}"
        new.append(behind[4 : 4 + length])
        return new[-1], at + 5 + length, None
    if kind == 1:
        if len(behind) < 2:
            return None, at, "cut {}"
        (k,) = struct.unpack_from(">H", behind)
        held = min(kept, len(new))
        return (None, at, f"bad-use {{}} {k} {held}") if k >= held else (new[-1 - k], at + 3, None)
    return None, at, f"bad-kind {{}} {kind}"


def altered(rng, honest):
    """Another proof, which differs from this one by one change or by a few."""
    proof = honest
    while proof == honest or rng.random() < 0.2:
        try:
            frames = frames_of(proof)
            is_formed = bytes_of(frames, 0)[6:] == proof[6:]
        except (struct.error, IndexError):
            is_formed = False
        proof = altered_frames(rng, proof, frames) if is_formed and rng.random() < 0.7 else altered_bytes(rng, proof)
    return proof


def flipped(rng, data):
    """The same bytes but for one."""
    data = bytearray(data)
    data[rng.randrange(len(data))] ^= rng.randrange(1, 256)
    return bytes(data)


def altered_bytes(rng, proof):
    data = bytearray(proof)
    at = rng.randrange(len(data)) if data else 0
    choice = rng.randrange(6)
    if choice == 0 and data:
        data[at] ^= 1 << rng.randrange(8)
    elif choice == 1 and data:
        data[at] = rng.choice([0, 1, 2, 255, rng.randrange(256)])
    elif choice == 2:
        del data[at:]
    elif choice == 3:
        data += rng.randbytes(rng.choice([1, 3, 5, 40]))
    elif choice == 4:
        del data[at : at + rng.choice([1, 2, 32])]
    else:
        data[at:at] = rng.randbytes(rng.choice([1, 2, 5]))
    return bytes(data)


def altered_frames(rng, proof, frames):
    kept = struct.unpack_from(">H", proof, 4)[0] if len(proof) >= 6 else 0
    choice = rng.randrange(9)
    if choice == 0 or not frames and choice < 5:
        return bytes_of(frames, rng.choice([*KEPT, 3, 17, 1023, 1025, 65_535]))
    if not frames:
        return bytes_of([rng.choice([0, b"", b"\0"])], kept)
    at, other = rng.randrange(len(frames)), rng.randrange(len(frames))
    if choice == 1:
        del frames[at]
    elif choice == 2:
        frames.insert(at, frames[at])
    elif choice == 3:
        frames[at], frames[other] = frames[other], frames[at]
    elif choice == 4:
        frames[at] = frames[other]
    elif choice == 5:
        frames[at] = rng.choice([0, 1, 2, 15, 16, 1023, 1024, 65_535])
    elif choice == 6:
        try:
            frames[at] = pieces_of(frames)[at]
        except IndexError:
            frames[at] = b""
    elif choice == 7:
        frames[at] = rng.choice([b"", b"\0", b"\1", rng.randbytes(32), b"x" * PIECE_LIMIT, b"x" * (PIECE_LIMIT + 1)])
    elif isinstance(frames[at], bytes) and frames[at]:
        piece = bytearray(frames[at])
        piece[rng.randrange(len(piece))] ^= 1 << rng.randrange(8)
        frames[at] = bytes(piece)
    return bytes_of(frames, kept)


# the calls of one program


def literal_word(literal):
    return " " + literal if literal.startswith("-") else literal


class Play:
    """The calls of one program. Lists of commands are yielded, each with the files that it reads, and their results are sent back."""

    alter = staticmethod(altered)

    def __init__(self, program, rng, altered_proofs, counts):
        self.program, self.rng, self.altered_proofs, self.counts = program, rng, altered_proofs, counts
        self.text = program.text().encode()
        self.image = self.state = None

    def command(self, name, *words, **files):
        return [name, "p", *words], {"p": self.text, **files}

    def run(self):
        (check,) = yield [self.command("check")]
        need((check.status, check.text) == (0, f"ok {digest(self.text)}\n"), "check", check.status, check.text)
        yield from self.make()
        for _ in range(self.rng.randint(2, 4) if self.image else 0):
            self.counts["calls"] += 1
            yield from self.call()

    def make(self):
        """Makes a state; there is none where no init ends with a value."""
        for _ in range(4):
            words = [self.rng.choice(["20", "300", "1000"]), "o"]
            role = self.rng.choice(self.program.roles("init"))
            (init,) = yield [self.command("init", role, literal_word(self.program.argument(role)), *words)]
            need(is_outcome(init) and (init.stored is not None) == (init.status == 0), "init", role, init)
            if init.status == 0:
                self.image = init.stored
                (shallow,) = yield [self.command("shallow", "i", "o", i=self.image)]
                self.state = shallow.stored
                return

    def random_call(self):
        """The kind of a random role, the role, and the words of an argument and fuel."""
        kind = self.rng.choice(["query", "update"])
        role = self.rng.choice(self.program.roles(kind))
        return kind, role, [literal_word(self.program.argument(role)), str(self.rng.choice(FUELS))]

    def call(self):
        """A call of a random role, with its altered proofs; an update leaves both sides with its new state."""
        kind, role, words = self.random_call()
        ideal, proof, pieces = yield from self.prove(role, words)
        self.counts[ideal.text.split()[0]] += 1
        proofs = [proof] + [self.alter(self.rng, proof) for _ in range(self.altered_proofs)]
        self.counts["altered proofs"] += self.altered_proofs
        yield from self.judge(role, words, proofs, ideal, pieces)
        if kind == "update":
            yield from self.step(role, words, ideal, proof)

    def prove(self, role, words):
        """What `ideal` tells of a call, its proof and the pieces of that."""
        kept = self.rng.choice(KEPT)
        ideal, prove = yield [
            self.command("ideal", role, "i", *words, i=self.image),
            self.command("prove", role, "i", *words, str(kept), "o", i=self.image),
        ]
        need(is_outcome(ideal), "ideal", role, *words, ideal)
        return ideal, prove.stored, self.proved(prove, kept, ideal, [role, *words])

    def judge(self, role, words, proofs, ideal, pieces):
        """Has `verify` and `audit` judge proofs of a run that opens these pieces."""
        judged = yield [command for proof in proofs for command in self.judges(role, words, proof)]
        for number, proof in enumerate(proofs):
            self.judged(proof, judged[2 * number : 2 * number + 2], pieces, ideal, [role, *words])

    def proved(self, prove, kept, ideal, call):
        """The pieces of a proof, which has to be the one that they and the number of kept ones determine."""
        need(prove.stored is not None, "prove", *call, kept, prove)
        frames = frames_of(prove.stored)
        pieces = pieces_of(frames)
        need(prove.stored == bytes_of(honest_frames(pieces, kept), kept), "prove", *call, kept, "other frames than the pieces have")
        used = sum(isinstance(frame, int) for frame in frames)
        line = f"proof new {len(frames) - used} used {used} bytes {len(prove.stored)}\n"
        need(prove[:2] == (ideal.status, ideal.text + line), "prove", *call, kept, prove[:2], ideal, line)
        self.counts["new pieces"] += len(frames) - used
        self.counts["used pieces"] += used
        return pieces

    def judges(self, role, words, proof):
        yield self.command("verify", role, "s", *words, "q", s=self.state, q=proof)
        yield self.command("audit", role, "i", *words, "q", i=self.image, q=proof)

    def judged(self, proof, results, pieces, ideal, call):
        """What `verify` and `audit` tell of a proof of a run that opens these pieces."""
        verify, audit = results
        cause = rejection(proof, pieces)
        verdict = (5, f"rejected {cause}\n") if cause else ideal[:2]
        audited = verdict if cause else (ideal.status, "agrees " + ideal.text)
        self.counts[f"proofs, {cause.split()[0] if cause else 'accepted'}"] += 1
        need(verify == (*verdict, None), "verify", *call, verify, verdict, proof.hex())
        need(audit == (*audited, None), "audit", *call, audit, audited, proof.hex())

    def step(self, role, words, ideal, proof):
        """Leaves both sides with the new state of an update, where there is one."""
        step, verify = yield [
            self.command("step", role, "i", *words, "o", i=self.image),
            self.command("verify", role, "s", *words, "q", "o", s=self.state, q=proof),
        ]
        need(step[:2] == ideal[:2] == verify[:2], "step", role, *words, step[:2], verify[:2], ideal)
        is_done = ideal.status == 0
        need(is_done == (step.stored is not None) == (verify.stored is not None), "step", role, *words, "stored otherwise")
        if is_done:
            (shallow,) = yield [self.command("shallow", "i", "o", i=step.stored)]
            need(shallow.stored == verify.stored, "verify", role, *words, "stored another state than shallow")
            self.image, self.state = step.stored, verify.stored


class Flips(Play):
    """The same of proofs and images with one byte changed, as many as there were altered proofs."""

    alter = staticmethod(flipped)

    def __init__(self, program, rng, flips, counts):
        super().__init__(program, rng, 1, counts)
        self.flips = flips

    def run(self):
        yield from self.make()
        for number in range(self.flips if self.image else 0):
            yield from (self.flipped_image() if number % 2 else self.call())

    def flipped_image(self):
        """A call on the state of a changed image, where it has one, by its owner and by a client of the honest state."""
        honest, image = (self.image, self.state), flipped(self.rng, self.image)
        _, role, words = self.random_call()
        ideal, _, pieces = yield from self.prove(role, words)
        (shallow,) = yield [self.command("shallow", "i", "o", i=image)]
        self.counts[f"images, {shallow.text.split()[0] if shallow.status == 0 else 'refused'}"] += 1
        if shallow.status:
            yield from self.refused(image, role, words, shallow)
            return
        need(shallow.text.startswith("state ") and shallow.stored is not None, "shallow", shallow, image.hex())
        self.image, self.state = image, shallow.stored
        other, proof, opened = yield from self.prove(role, words)
        yield from self.judge(role, words, [proof], other, opened)
        self.image, self.state = honest
        yield from self.judge(role, words, [proof], ideal, pieces)

    def refused(self, image, role, words, shallow):
        """Each command that reads an image has to refuse this one alike."""
        need(shallow.status == 7 and shallow.text.startswith("input refused: image "), "shallow", shallow, image.hex())
        results = yield [
            self.command("ideal", role, "i", *words, i=image),
            self.command("prove", role, "i", *words, "0", "o", i=image),
            self.command("audit", role, "i", *words, "q", i=image, q=b""),
        ]
        need(all(result == shallow for result in results), "an image is refused otherwise", shallow, *results, image.hex())


def is_outcome(result):
    return result.status in OUTCOMES and result.text.startswith(OUTCOMES[result.status])


# running


class Runner:
    """Runs the built program in a folder of its own."""

    def __init__(self, lamauth, folder, environment=None):
        self.lamauth, self.folder, self.environment, self.lying = lamauth, folder, environment, {}

    def write(self, files):
        """Writes the files that don't lie there already."""
        for name, data in files.items():
            if self.lying.get(name) != data:
                with open(os.path.join(self.folder, name), "wb") as file:
                    file.write(data)
                self.lying[name] = data

    def run(self, words, files):
        self.write(files)
        out = os.path.join(self.folder, "o")
        if os.path.exists(out):
            os.remove(out)
        try:
            done = subprocess.run([self.lamauth, *words], cwd=self.folder, stdout=subprocess.PIPE, stderr=subprocess.STDOUT,
                                  env=self.environment, timeout=120, close_fds=False, check=False)
        except subprocess.TimeoutExpired:
            return Result(None, "no answer in 120 seconds", None)
        stored = None
        if os.path.exists(out):
            with open(out, "rb") as file:
                stored = file.read()
        return Result(done.returncode, done.stdout.decode(errors="replace"), stored)


def program_of(options, number):
    rng = random.Random(f"{options.seed}/{number}")
    return (Example(rng, options.root) if rng.random() < 0.25 else Program(rng)), rng


def played(play, run):
    """The difference that the calls of a program show; none where they show none."""
    steps = play.run()
    try:
        commands = next(steps)
        while True:
            commands = steps.send([run(*command) for command in commands])
    except StopIteration:
        return None
    except Difference as difference:
        return str(difference)


def play_number(task):
    options, number = task
    program, rng = program_of(options, number)
    counts = collections.Counter(programs=1)
    play = Flips(program, rng, options.flips, counts) if options.flips else Play(program, rng, options.altered, counts)
    with tempfile.TemporaryDirectory() as folder:
        difference = played(play, Runner(options.lamauth, options.keep or folder).run)
    if difference:
        counts["differences"] += 1
        difference = f"seed {options.seed}, program {number}: {difference[:2000]}"
    return counts, difference


def play_all(play, tasks, jobs):
    """Plays each task, which gives counts and a difference or none; tells the differences and the sums of the counts. Gives the status."""
    counts = collections.Counter({"differences": 0})
    with multiprocessing.Pool(jobs) as pool:
        for told, difference in pool.imap_unordered(play, tasks, 4):
            counts.update(told)
            if difference:
                print(difference, flush=True)
    for name in sorted(counts):
        print(f"{name} {counts[name]}")
    return 1 if counts["differences"] else 0


def main():
    parser = argparse.ArgumentParser(description=__doc__.split("\n")[0])
    parser.add_argument("lamauth", help="the built program")
    parser.add_argument("--seed", type=int, default=1)
    parser.add_argument("--first", type=int, default=0, help="the number of the first program")
    parser.add_argument("--programs", type=int, default=2000)
    parser.add_argument("--altered", type=int, default=4, help="altered proofs of each call")
    parser.add_argument("--flips", type=int, default=0, help="changed bytes of the proofs and images of each program, and nothing else altered")
    parser.add_argument("--jobs", type=int, default=2)
    parser.add_argument("--keep", help="a folder where the files of one program are kept")
    here = os.path.dirname(os.path.abspath(__file__))
    parser.add_argument("--root", default=os.path.dirname(here))
    options = parser.parse_args()
    options.lamauth = os.path.abspath(options.lamauth)
    return play_all(play_number, [(options, number) for number in range(options.first, options.first + options.programs)], options.jobs)


if __name__ == "__main__":
    sys.exit(main())
