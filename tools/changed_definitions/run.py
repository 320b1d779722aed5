#!/usr/bin/env python3
"""Changes the definitions of a crate, one clause at a time, and tells what refuses each change.

    tools/changed_definitions/run.py core_terms results.jsonl

The changes stand in `of_CRATE.py` and the files that it names, or are told from the texts of the definitions (`by_clauses.py`). Each is made in
a clone of the repository as it is committed. A change is tried in turn over the crate's examples, which are the files of `specs/` and `proofs/`
whose statements hold by computing, or say of what a word takes and refuses; over its rows in the crate `definition_rows`, of which the clone has
copies in the crate itself; over its laws, by the lemmas that their proofs cite; over the code that cites the definitions; and over the whole
crate. The first of them that isn't proved refuses it.

Examples, rows and laws are read by the proof of a function that the clone alone has. Many changes are tried there in one check, each in
copies of the modules that read what is changed. `--again` tries once more what the stages let through, as once there are new rows.

Each result is a line of a file, and a run goes on with what the file doesn't tell. So a first run may be over the examples alone, and several
runs may share the work: `--part 1/2` and `--part 2/2`, with one file of results. `--table` runs nothing, and prints what the file tells:

- refused: a statement of the examples, a law, or a proof isn't proved, and is named.
- let through: all is proved. Then either the change means the same, or a row is missing.
- no change: what was changed can't be read, so nothing is known of it.
"""
import argparse
import collections
import contextlib
import importlib
import json
import os
import re
import shlex
import subprocess
import sys
import tempfile
import time

HERE = os.path.dirname(os.path.abspath(__file__))
# the crate of further rows, and how their files are called in the clone
ABOVE, FROM_ABOVE = "definition_rows", "Above"
# the crates that those speak of, the higher one first
BELOW = ("ideal_meaning", "core_terms")
# the stages in which many changes are tried in one check
IN_COPIES = ("examples", "rows", "laws")
PLACE = re.compile(r"^(?:\./)?((?:specs|proofs|src)/\S+?):(\d+):\d+: (?!note|warning)(.*)", re.M)
NAMED_PLACE = re.compile(r"\(in `([^`]+)`\)|in `([\w-]+)`")
LET_THROUGH = "let through"
ROW = re.compile(r"^(?:pub )?([\w-]+) :", re.M)

Change = collections.namedtuple("Change", "name file texts")
Checked = collections.namedtuple("Checked", "is_proved output seconds")


def copy_name(number, module):
    return f"Copy{number}{module}"


def changes_of(listed):
    """The changes that a module lists, in their order."""
    listed = listed.CHANGES
    changes = [Change(name, file, list(zip(texts[::2], texts[1::2]))) for file, rows in listed.items() for name, *texts in rows]
    twice = [name for name, count in collections.Counter(change.name for change in changes).items() if count > 1]
    if twice:
        sys.exit(f"two changes have one name: {', '.join(twice)}")
    return changes


class Clone:
    """A clone of the repository in which a crate's definitions are changed and checked."""

    def __init__(self, crate, listed, folder, options):
        self.crate, self.listed, self.through, self.without = crate, listed, options.through, options.without
        self.root = os.path.join(folder, "clone")
        self.folder = os.path.join(self.root, "crates", crate)
        if os.path.exists(self.root):
            self.git("checkout", "-q", ".")
            self.git("clean", "-fdq")
            self.git("pull", "-q")
        else:
            subprocess.run(["git", "clone", "-q", HERE.rsplit("/", 2)[0], self.root], check=True)
        self.add_rows()
        examples = list(self.examples())
        self.statements, self.used = {"examples": [it for it in examples if not it[1].startswith(FROM_ABOVE)]}, {}
        self.statements["rows"] = [it for it in examples if it[1].startswith(FROM_ABOVE)]
        self.statements["laws"] = list(self.laws())
        self.add_reader()

    def git(self, *words):
        subprocess.run(["git", *words], cwd=self.root, check=True)

    def path(self, *names):
        return os.path.join(self.folder, *names)

    def read(self, *names):
        with open(self.path(*names), encoding="utf-8") as file:
            return file.read()

    def write(self, text, *names):
        os.makedirs(os.path.dirname(self.path(*names)), exist_ok=True)
        with open(self.path(*names), "w", encoding="utf-8") as file:
            file.write(text)

    def add_rows(self):
        """Adds copies of the rows above, of those that speak of this crate and of none above it."""
        above, modules = os.path.join(self.root, "crates", ABOVE), {}
        for name in sorted(os.listdir(os.path.join(above, "specs"))):
            texts = {}
            for folder in ("specs", "proofs"):
                with open(os.path.join(above, folder, name), encoding="utf-8") as file:
                    texts[folder] = re.sub(rf"\bRattle\.{ABOVE}\.(specs|proofs)\.(\w+)", rf"Rattle.{self.crate}.\1.{FROM_ABOVE}\2", file.read())
            named = [crate for crate in BELOW if f"Rattle.{crate}." in "".join(texts.values())]
            if name != "Lib.antt" and named[:1] == [self.crate]:
                modules.update({(folder, FROM_ABOVE + name.removesuffix(".antt")): text for folder, text in texts.items()})
        self.add_modules(modules)

    def examples(self):
        """The files of statements that hold by computing, each with the name of one of these."""
        for folder in ("specs", "proofs"):
            for name in sorted(os.listdir(self.path(folder))):
                text = self.read(folder, name) if name.endswith(".antt") else ""
                rows = [row for row in ROW.findall(text) if f"pub {row} :" in text or folder == "proofs"]
                is_read = name.removesuffix(".antt") not in self.without
                if rows and is_read and (folder == "specs" or name.endswith("Rows.antt")):
                    yield folder, name.removesuffix(".antt"), rows[0]

    def laws(self):
        """The files of the lemmas that the laws' proofs cite, each with the name of one of these."""
        for law in sorted(os.listdir(self.path("proofs/laws"))) if os.path.exists(self.path("proofs/laws")) else []:
            text = self.read("proofs/laws", law, "Answers.antt")
            yield from (("proofs", module, lemma) for module, lemma in re.findall(rf"use Rattle\.{self.crate}\.proofs\.(\w+)\.{{([^,}}]+)", text))
        yield from (("proofs", module, lemma) for module, lemma in self.listed.LEMMAS.items())

    def add_reader(self):
        """Adds the function whose proof reads the examples."""
        uses = []
        for folder, module, row in self.statements["examples"] + self.statements["rows"]:
            text = self.read(folder, f"{module}.antt")
            if f"\npub {row} :" not in text:
                self.write(text.replace(f"\n{row} :", f"\npub {row} :", 1), folder, f"{module}.antt")
            uses.append(self.use_of(folder, module, row))
        goals = f"use Rattle.{self.crate}.proofs.examples.are_read.Goals as goal\n"
        self.write("".join(uses) + f"use Rattle.std.specs.Prelude.{{refl}}\n{goals}\npub returns : goal.returns\nreturns c = refl\n", "proofs/examples/are_read/Answers.antt")
        self.write("ghost use Rattle.std.specs.Prelude.{◌≡◌, true};\n\npub fn are_read()\n    ensures { true ≡ true }\n{}\n", "src/examples.rt")
        lib = self.read("src/lib.rt")
        if "pub mod examples;" not in lib:
            self.write(re.sub(r"^((?:pub )?mod )", r"pub mod examples;\n\1", lib, count=1, flags=re.M), "src/lib.rt")

    def add_modules(self, modules):
        """Adds modules, by their folders and names, and gives what puts the folders' lists back."""
        lists = {folder: self.read(folder, "Lib.antt") for folder in ("specs", "proofs")}
        for (folder, module), text in modules.items():
            self.write(text, folder, f"{module}.antt")
        for folder, text in lists.items():
            added = "".join(f"pub mod {module}\n" for where, module in modules if where == folder)
            self.write(text.rstrip("\n") + "\n" + added, folder, "Lib.antt")
        return lists

    @contextlib.contextmanager
    def copied(self, changes, stage):
        """The clone, in which each change is made in a copy of its own of the modules that read it, of those that are read in a stage; and
        the changes that are read there."""
        names = ("proofs/examples/are_read", "Answers.antt")
        reader, modules, uses, read = self.read(*names), {}, "", []
        for number, change in enumerate(changes):
            copies = self.readers_of(("specs", change.file), stage)
            read += [change] if copies else []
            for folder, module in copies:
                text = self.made(change) if (folder, module) == ("specs", change.file) else self.read(folder, f"{module}.antt")
                modules[folder, copy_name(number, module)] = self.renamed(text, number, copies)
            uses += "".join(self.use_of(folder, copy_name(number, module), name) for folder, module, name in self.statements[stage] if (folder, module) in copies)
        lists = self.add_modules(modules)
        self.write(uses + reader, *names)
        try:
            yield read
        finally:
            self.write(reader, *names)
            for folder, text in lists.items():
                self.write(text, folder, "Lib.antt")
            for folder, module in modules:
                os.remove(self.path(folder, f"{module}.antt"))

    def renamed(self, text, number, copies):
        """A module's text without the rows that are left out, where what was copied with it goes by the names of the copies."""
        for row in self.without:
            text = re.sub(rf"(?ms)^pub {row} :.*?(?:\n\n|\Z)", "", text)
        uses = re.compile(rf"\bRattle\.{self.crate}\.(specs|proofs)\.(\w+)")
        return uses.sub(lambda found: f"Rattle.{self.crate}.{found[1]}.{copy_name(number, found[2]) if found.groups() in copies else found[2]}", text)

    def uses_of(self, module):
        """The modules of the crate that one reads, itself and through others."""
        if module not in self.used:
            text = self.read(module[0], f"{module[1]}.antt") if os.path.exists(self.path(module[0], f"{module[1]}.antt")) else ""
            direct = set(re.findall(rf"\bRattle\.{self.crate}\.(specs|proofs)\.(\w+)", text))
            self.used[module] = {module}.union(*(self.uses_of(other) for other in direct))
        return self.used[module]

    def readers_of(self, changed, stage):
        """The modules that read one, of those that are read in a stage."""
        read = set().union(*(self.uses_of((folder, module)) for folder, module, _ in self.statements[stage]))
        return {module for module in read if changed in self.uses_of(module)}

    def use_of(self, folder, module, row):
        return f"use Rattle.{self.crate}.{folder}.{module}.{{{row}}}\n"

    def made(self, change):
        """The text of a change's file, where it is made."""
        text = self.read("specs", f"{change.file}.antt")
        for old, new in change.texts:
            if text.count(old) != 1:
                sys.exit(f"{change.name}: {text.count(old)} times in {change.file}: {old}")
            text = text.replace(old, new)
        return text

    @contextlib.contextmanager
    def changed(self, change):
        """The clone, in which the change is made."""
        names = "specs", f"{change.file}.antt"
        before = self.read(*names)
        self.write(self.made(change), *names)
        try:
            yield
        finally:
            self.write(before, *names)

    def check(self, words):
        began = time.monotonic()
        command = [*self.through, "rt", "check", "--jobs", "1", *words]
        ran = subprocess.run(command, cwd=self.folder, stdout=subprocess.PIPE, stderr=subprocess.STDOUT, text=True, check=False)
        if ran.returncode and not self.refusers(ran.stdout):
            sys.exit(f"a check told nothing:\n{ran.stdout}")
        return Checked(ran.returncode == 0, ran.stdout, time.monotonic() - began)

    def refusers(self, output):
        """The statements at which a check found a fault, as FILE.NAME."""
        found = []
        for file, line, message in PLACE.findall(output):
            named = NAMED_PLACE.search(message)
            name = self.row_at(file, int(line)) or ((named.group(1) or named.group(2)) if named else self.name_at(file, int(line)))
            place = f"{os.path.splitext(file)[0]}.{name}".replace("/", ".")
            if place not in found:
                found.append(place)
        return found

    def row_at(self, file, line):
        """The name of the row that is proved at a line, where it is a field of a record."""
        with contextlib.suppress(OSError, IndexError):
            proved = re.match(r"  ([\w-]+) = ", self.read(file).split("\n")[line - 1])
            return proved and file.endswith("Rows.antt") and proved.group(1)
        return None

    def name_at(self, file, line):
        """The name of what is declared at a line or, if nothing is, before it."""
        with contextlib.suppress(OSError):
            for text in reversed(self.read(file).split("\n")[:line]):
                declared = re.match(r"\s*(?:abbrev )?(?:pub )?(?:fn )?([\w-]+)(?: :|\()", text)
                if declared:
                    return declared.group(1)
        return "?"


def tried_in_copies(clone, changes, stage, results):
    """What comes of changes that are tried over the examples, the rows or the laws, all in one check."""
    refusers, each = [], 0
    with clone.copied(changes, stage) as read:
        if read:
            checked = clone.check(["--only", f"{clone.crate}::examples"])
            refusers, each = clone.refusers(checked.output), round(checked.seconds / len(read), 1)
    for number, change in enumerate(changes):
        start = re.compile(rf"(specs|proofs)\.{copy_name(number, '')}(?=[A-Z])({FROM_ABOVE})?")
        by = [start.sub(r"\1.", place) for place in refusers if start.match(place)]
        yield result_of(change, stage, by, each, results)


def tried_over_code(clone, change, stage, results):
    """What comes of a change that is tried over the code that cites its file, or over the whole crate."""
    by, seconds = [], 0
    words = [word for module in clone.listed.CODE.get(change.file, []) for word in ("--only", f"{clone.crate}::{module}")]
    if words or stage == "crate":
        with clone.changed(change):
            checked = clone.check(words if stage == "code" else [])
            by, seconds = [] if checked.is_proved else clone.refusers(checked.output), round(checked.seconds, 1)
    return result_of(change, stage, by, seconds, results)


def result_of(change, stage, by, seconds, results):
    """A result as it is kept: the stage that refuses the change, by what isn't proved there; or those that it has passed."""
    told = results.get(change.name, {"passed": [], "seconds": {}})
    is_no_change = any(place.startswith(f"specs.{change.file}.") for place in by)
    return {
        "name": change.name,
        "file": change.file,
        "stage": "no change" if is_no_change else stage if by else LET_THROUGH,
        "by": by,
        "passed": [passed for passed in told["passed"] if passed != stage] + ([] if by else [stage]),
        "seconds": {**told["seconds"], stage: seconds},
    }


def results_in(path):
    """The results so far, by the names of their changes: of each the last one."""
    if not os.path.exists(path):
        return {}
    with open(path, encoding="utf-8") as file:
        return {told["name"]: told for told in map(json.loads, file)}


def is_left(results, change, stage, is_again=False):
    """Whether a change is still to be tried in a stage, or is to be tried again there."""
    told = results.get(change.name, {"stage": LET_THROUGH, "passed": []})
    return told["stage"] == LET_THROUGH and (is_again or stage not in told["passed"])


def row_of(told):
    """A result as a line of a table."""
    definition, _, what = told["name"].partition(": ")
    by = ", ".join(f"`{place}`" for place in told["by"][:3]) + (f" and {len(told['by']) - 3} more" if len(told["by"]) > 3 else "")
    stage = f"{LET_THROUGH} by {', '.join(told['passed'])}" if told["stage"] == LET_THROUGH else told["stage"]
    return f"| `{told['file']}` | `{definition}` | {what} | {stage} | {by} |"


def print_table(changes, results):
    known = [results[change.name] for change in changes if change.name in results]
    print("| file | definition | change | refused by | which |", "|---|---|---|---|---|", *map(row_of, known), sep="\n")
    counts = collections.Counter(told["stage"] for told in known)
    print(f"\n{len(known)} of {len(changes)} changes: {', '.join(f'{stage} {count}' for stage, count in counts.items())}")


def note(path, results):
    """Adds results to a file, and tells them."""
    for told in results:
        with open(path, "a", encoding="utf-8") as file:
            file.write(json.dumps(told, ensure_ascii=False) + "\n")
        print(row_of(told), told["seconds"], flush=True)


def part_of(words):
    number, _, count = words.partition("/")
    return int(number), int(count)


def main():
    parser = argparse.ArgumentParser(description=__doc__.split("\n", maxsplit=1)[0])
    parser.add_argument("crate", help="the crate whose definitions are changed")
    parser.add_argument("results", help="the file of results, a line for each change")
    parser.add_argument("--table", action="store_true", help="run nothing, and print the results")
    parser.add_argument("--part", type=part_of, default=(1, 1), metavar="I/N", help="every N-th change, from the I-th on")
    parser.add_argument("--only", default="", metavar="WORD", help="the changes in whose names the word stands")
    parser.add_argument("--stages", default="examples,rows,laws,code,crate", help="what they are tried over")
    parser.add_argument("--copies", type=int, default=12, metavar="N", help="how many changes are tried in one check, each in copies")
    parser.add_argument("--again", action="store_true", help="try again what the stages let through, as with new rows")
    parser.add_argument("--without", type=lambda words: words.split(","), default=[], metavar="NAMES", help="files and rows that are left out of the copies")
    parser.add_argument("--folder", help="where the clone stays for a later run; else it is temporary")
    parser.add_argument("--through", type=shlex.split, default=[], metavar="COMMAND", help="the command that each check is run by")
    options = parser.parse_args()
    listed = importlib.import_module(f"of_{options.crate}")
    changes = changes_of(listed)
    if options.table:
        return print_table(changes, results_in(options.results))
    number, count = options.part
    stages = options.stages.split(",")
    with tempfile.TemporaryDirectory() as temporary:
        clone = Clone(options.crate, listed, options.folder or temporary, options)
        changes = [change for change in changes[number - 1 :: count] if options.only in change.name]
        for stage in [stage for stage in IN_COPIES if stage in stages]:
            left = [change for change in changes if is_left(results_in(options.results), change, stage, options.again)]
            for first in range(0, len(left), options.copies):
                note(options.results, tried_in_copies(clone, left[first : first + options.copies], stage, results_in(options.results)))
        for stage in [stage for stage in ("code", "crate") if stage in stages]:
            for change in changes:
                if is_left(results_in(options.results), change, stage):
                    note(options.results, [tried_over_code(clone, change, stage, results_in(options.results))])
    return None


if __name__ == "__main__":
    sys.exit(main())
