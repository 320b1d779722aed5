"""Changes of a crate's definitions, told from their texts: each clause and each field of a fact, changed in a few ways.

- A clause that says whether something is so says always so, and never so; and it leaves out one of several conditions, or takes another in the
  place of one of several ways.
- Any other clause says what the next clause of its definition says, where that speaks of nothing else; a number in it is one more, and a
  comparison is strict where it was not, or the other way round.
- A field of a fact says nothing.

The statements of laws, which speak of no argument, are left alone.
"""
import os
import re

ROOT = os.path.dirname(os.path.dirname(os.path.dirname(os.path.abspath(__file__))))
SIGNED = re.compile(r"^(?P<indent> *)(?:abbrev )?pub (?P<name>[\w'-]+) : (?P<type>.*)")
RECORD = re.compile(r"^(?P<indent> *)pub record (?P<name>[\w'-]+)(?P<rest>.*)")
FIELD = re.compile(r"^ +pub (?P<name>[\w'-]+) : (?P<type>.*)")
FACT = r"(?:Is|Are|Has|Ends|Fails|Makes|Tells|Plays|Breaks|Halts|Goes|Takes|Stores|Serves|Holds|Begins|Calls|Stops|None|Shows|Rejects|Agrees)[A-Z]|Makes$|\w+Counts$"
NUMBER = re.compile(r"(?<![\w'.^{])(0x[0-9A-Fa-f]+|\d+)(?![\w'.])")
WORD = re.compile(r"[\w'-]+")
ALWAYS, NEVER = {"Bool": "true", "Type 0": "Unit {0}"}, {"Bool": "false", "Type 0": "⊥"}
# what says nothing may be written in two ways
SAME = {"Unit {0}": "⊤"}
OTHER_WAY = {"nat_lt": "nat_le", "nat_le": "nat_lt", " < ": " ≤ ", " ≤ ": " < ", " || ": " && ", " && ": " || "}
IMPORTED = {"nat_le": "nat_le", "nat_lt": "nat_lt", " ≤ ": "◌≤◌", " < ": "◌<◌", " && ": "◌&&◌", " || ": "◌||◌"}
PRELUDE = "use Rattle.std.specs.Prelude.{"


def deeper(lines, first, indent):
    """The number of the line behind those that go on with the line before the first one."""
    while first < len(lines) and lines[first].strip() and len(lines[first]) - len(lines[first].lstrip()) > indent:
        first += 1
    return first


def parts_of(text, sign):
    """The parts of a text between the signs that stand in no brackets."""
    parts, depth, start, at = [], 0, 0, 0
    while at < len(text):
        depth += (text[at] in "([{") - (text[at] in ")]}")
        if depth == 0 and text.startswith(sign, at):
            parts.append(text[start:at])
            start = at = at + len(sign)
        else:
            at += 1
    return [*parts, text[start:]]


def cut(text):
    return text if len(text) <= 60 else text[:57] + "..."


class Definition:
    """A definition by clauses: its name, what it gives, and its clauses, each as its left side and what it says."""

    def __init__(self, name, signature, clauses):
        self.name, self.clauses = name, clauses
        self.gives = re.split(r"→ ", signature)[-1].strip()
        self.is_statement = signature.strip() == "Type 0"

    def changes(self):
        if not self.is_statement:
            for number, (left, right) in enumerate(self.clauses):
                yield from self.of_clause(number, left, right)

    def of_clause(self, number, left, right):
        named = self.name if len(self.clauses) == 1 else cut(left)
        for what, new in self.new_sides(number, left, right):
            yield f"{named}: {what}", f"{left} ={right}", f"{left} = {new.strip()}"

    def new_sides(self, number, left, right):
        said, kind = " ".join(right.split()), self.gives
        if kind in ALWAYS:
            yield from ((what, new) for what, new in (("always", ALWAYS[kind]), ("never", NEVER[kind])) if new != said and said != SAME.get(new))
            yield from self.without_parts(said)
        else:
            later = [*self.clauses[number + 1 :], *self.clauses[:number]]
            bound = set(WORD.findall(left))
            everywhere = set.intersection(*(set(WORD.findall(other)) for other, _ in self.clauses))
            for other, other_right in later:
                free = set(WORD.findall(other)) - everywhere
                if " ".join(other_right.split()) != said and not (free & set(WORD.findall(other_right))) - bound:
                    yield f"as {cut(other)}", " ".join(other_right.split())
                    break
        for found in list(NUMBER.finditer(right))[:3]:
            yield f"{found[0]} is one more", right[: found.start()] + str(int(found[0], 0) + 1) + right[found.end() :]
        for sign, other in OTHER_WAY.items():
            if sign in right:
                yield f"{sign.strip()} is {other.strip()}", right.replace(sign, other)

    def without_parts(self, said):
        """Without one of the conditions, or with the first of several ways alone, or the last."""
        if "let " in said or "λ" in said or parts_of(said, " → ")[1:]:
            return
        ways, conditions = parts_of(said, " ⊎ "), parts_of(said, " × ")
        if len(ways) > 1:
            yield "the first way alone", ways[0]
            yield "the last way alone", ways[-1]
        elif len(conditions) > 1:
            for number, condition in enumerate(conditions):
                if not re.match(r"\(\w[\w' ]* : ", condition):
                    yield f"without {cut(condition)}", " × ".join([*conditions[:number], "Unit {0}", *conditions[number + 1 :]])


def definitions_in(lines):
    for number, line in enumerate(lines):
        signed = SIGNED.match(line)
        if not signed or signed["type"].startswith("use "):
            continue
        indent, at = len(signed["indent"]), deeper(lines, number + 1, len(signed["indent"]))
        signature, clauses = " ".join(word.strip() for word in [signed["type"], *lines[number + 1 : at]]), []
        while at < len(lines) and lines[at].startswith(" " * indent + signed["name"]) and " =" in lines[at]:
            behind = deeper(lines, at + 1, indent)
            left, *right = parts_of("\n".join(lines[at:behind]), " =")
            clauses.append((left.strip(), " =".join(right)))
            at = behind
        if clauses:
            yield Definition(signed["name"], signature, clauses)


def fields_in(lines):
    """The fields of facts, each as its name, its text from the record's head on, and the same where it says nothing."""
    for number, line in enumerate(lines):
        head = RECORD.match(line)
        if not head:
            continue
        behind = deeper(lines, number + 1, len(head["indent"]))
        whole = lines[number:behind]
        start = next((at for at, text in enumerate(whole) if text.rstrip().endswith("where")), None)
        if start is None or not re.match(FACT, head["name"]):
            continue
        for at in range(start + 1, len(whole)):
            field = FIELD.match(whole[at])
            end = next((later for later in range(at + 1, len(whole)) if FIELD.match(whole[later])), len(whole))
            if field:
                new = whole[:at] + [whole[at][: whole[at].index(" : ") + 3] + "Unit {0}"] + whole[end:]
                yield f"{head['name']}: {field['name']} says nothing", "\n".join(whole), "\n".join(new)


def is_of_values(name, old):
    """A field of a fact that names a value, of which others speak, can't be left empty."""
    field = re.search(r": (\S+) says nothing", name)
    return field and len(re.findall(rf"(?<![.\w'-]){re.escape(field[1])}(?![\w'-])", old)) > 1


def import_for(new, text):
    """The import of what a change brings, where the file lacks it."""
    wanted = [word for sign, word in IMPORTED.items() if sign in new and not re.search(rf"[{{,] ?{re.escape(word)}[,}}]", text)]
    return (PRELUDE, PRELUDE + "".join(f"{word}, " for word in wanted)) if wanted and text.count(PRELUDE) == 1 else ()


def changes_by_clause(crate, files, without=()):
    """By file of `specs/`, the changes of its definitions but for those of some names."""
    told, names = {}, set()
    for file in files:
        with open(os.path.join(ROOT, "crates", crate, "specs", f"{file}.antt"), encoding="utf-8") as spec:
            text = spec.read()
        lines = text.split("\n")
        found = [change for definition in definitions_in(lines) if definition.name not in without for change in definition.changes()]
        found += [change for change in fields_in(lines) if not is_of_values(change[0], change[1])]
        told[file] = []
        for name, old, new in found:
            if text.count(old) == 1 and (file, name) not in names:
                told[file].append((f"{name} ({file})" if name in names else name, old, new, *import_for(new, text)))
                names.update([name, (file, name)])
    return told
