#!/usr/bin/env python3
"""Writes docs/reading.md: the definitions that the clauses of `run` reach, in an order in which they can be read.

    tools/reading.py              writes the list
    tools/reading.py --compare    writes nothing: tells the lines of the list that aren't as the files stand, and then ends with status 1

It follows the `use` lines from crates/auth_cli/src/top.rt on, and puts each file of specs/ behind those that it names; what the clause
`headline` reaches comes first. A module that is no file of specs/ is passed over: one of the kit, or of what src/ declares.
"""
import argparse
import difflib
import os
import re
import sys

TOP, LIST = "crates/auth_cli/src/top.rt", "docs/reading.md"
USE = re.compile(r"\buse\s+Rattle\.(\w+)\.specs\.([\w.]+?)(?:\.\{([^}]*)\}|\s+as\s+(\w+)|;|\s*$)", re.M)
HEAD = """# The definitions in reading order

What the program does is promised by the clauses of `run`, in [`top.rt`](../{top}). Here stand all files of definitions that these clauses reach, each
behind those that it names: whoever has read them in this order knows what is promised. The `use` lines lead from file to file. The list goes by
whole files, so not each definition in them is reached.

Three things that the clauses and these files name stand elsewhere: words of the kit's libraries, as those of `Rattle.std`; types and constants that
`src/` declares, by modules `declared`; and what the traits `Files`, `Sink`, `Net` and `Disk` in `crates/lam_outside/src` tell.

`tools/reading.py` writes this list, and with `--compare` tells whether it is as the files stand. Together: {total}.
"""
PART = """
## {heading}

{total}.

| file | lines | what it defines |
|---|---|---|
"""


def text_of(file):
    with open(file, encoding="utf-8") as opened:
        return opened.read()


def named(text):
    """The files of specs/ that a text names by `use`, each with the words that are taken from it."""
    files = {}
    for crate, module, words, alias in USE.findall(text):
        file = f"crates/{crate}/specs/{module.replace('.', '/')}.antt"
        if os.path.exists(file):
            files.setdefault(file, set()).update(word.split(" as ")[-1].strip() for word in (words or alias).split(","))
    return files


def named_in_clause(text, name):
    """The files of specs/ from which a clause takes a word. A clause goes on in the lines that are indented deeper."""
    clause = re.search(rf"^    ensures {name} .*\n(?: {{8}}.*\n)*", text, re.M)[0]
    used = set(re.findall(r"(?<![.\w])\w+", clause))
    return [file for file, words in named(text).items() if words & used]


def put(order, file):
    """Puts a file into an order, behind all that it reaches."""
    if file not in order:
        for other in named(text_of(file)):
            put(order, other)
        order.append(file)


def first_sentence(text):
    """The first sentence of the comment with which a text begins."""
    comment = re.match(r"(?:--.*\n)*", text)[0]
    joined = " ".join(line[2:].strip() for line in comment.splitlines())
    return re.sub(r"\. .*", ".", joined).replace("|", "\\|")


def lines_in(file):
    return text_of(file).count("\n")


def total(files):
    return f"{len(files):,} files, {sum(map(lines_in, files)):,} lines"


def part(heading, files):
    rows = (f"| `{file}` | {lines_in(file)} | {first_sentence(text_of(file))} |\n" for file in files)
    return PART.format(heading=heading, total=total(files)) + "".join(rows)


def reading():
    """The text of the list."""
    top, order = text_of(TOP), []
    for file in named_in_clause(top, "headline"):
        put(order, file)
    first = len(order)
    for file in named(top):
        put(order, file)
    return (
        HEAD.format(top=TOP, total=total(order))
        + part("What the clause `headline` reaches", order[:first])
        + part("What the other clauses reach beside these", order[first:])
    )


def compare(wanted, found):
    differing = list(difflib.unified_diff(found.splitlines(), wanted.splitlines(), LIST, "as the files stand", lineterm="", n=0))
    if differing:
        sys.exit("\n".join(differing))
    print(f"{LIST} is in order")


def main():
    options = argparse.ArgumentParser(description=__doc__, formatter_class=argparse.RawDescriptionHelpFormatter)
    options.add_argument("--compare", action="store_true")
    compares = options.parse_args().compare
    os.chdir(os.path.join(os.path.dirname(os.path.abspath(__file__)), ".."))
    if compares:
        compare(reading(), text_of(LIST))
        return
    with open(LIST, "w", encoding="utf-8") as file:
        file.write(reading())


if __name__ == "__main__":
    main()
