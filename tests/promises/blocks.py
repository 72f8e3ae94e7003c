"""The files of docs/promises: their blocks, and what a line of one names."""
import re
from dataclasses import dataclass, field

KEYS = ("text", "promise", "by", "edits", "no edit", "of", "by tests", "by reading", "not said")


@dataclass
class Block:
    """A block of a file of promises, with the values of each key in order."""

    crate: str
    number: int  # the line on which it begins
    values: list = field(default_factory=list)
    functions: list = field(default_factory=list)  # those that carry it
    others: list = field(default_factory=list)  # who keeps what a type keeps, and who owes a condition
    constants: set = field(default_factory=set)  # (crate, file, name) of those that are said in digits

    def all(self, key):
        return [value for name, value in self.values if name == key]

    def one(self, key):
        return " ".join(self.all(key))

    def has(self, key):
        return bool(self.all(key))

    @property
    def place(self):
        return f"docs/promises/{self.crate}.txt:{self.number}"


def blocks_of(crate, text, say):
    """The blocks of a file of promises."""
    blocks, open_block = [], None
    for number, line in enumerate(text.splitlines(), 1):
        if not line.strip():
            open_block = None
        elif line.startswith("#"):
            continue
        elif line[0] == " " and open_block and open_block.values:
            key, value = open_block.values[-1]
            open_block.values[-1] = (key, f"{value} {line.strip()}")
        else:
            key, _, value = line.partition(": ")
            if key not in KEYS:
                say(f"docs/promises/{crate}.txt:{number}: no line of a block begins with {key!r}")
                continue
            if open_block is None:
                open_block = Block(crate, number)
                blocks.append(open_block)
            open_block.values.append((key, value.strip()))
    for block in blocks:
        see_form(block, say)
    return blocks


def see_form(block, say):
    """A block is of one kind, and has what belongs to it."""
    kinds = [it for it in ("text", "not said", "by", "by tests", "by reading") if block.has(it)]
    keys = {key for key, _ in block.values}
    allowed = {
        "text": {"text"},
        "not said": {"not said"},
        "by": {"promise", "by", "edits", "no edit"},
        "by tests": {"promise", "of", "by tests"},
        "by reading": {"promise", "of", "by reading"},
    }
    if len(kinds) != 1 or not keys <= allowed[kinds[0]]:
        say(f"{block.place}: a block of {', '.join(sorted(keys))}")
    elif kinds[0].startswith("by") and len(block.all("promise")) != 1:
        say(f"{block.place}: a promise has one line of words")
    elif kinds[0] == "by" and not (block.has("edits") or block.has("no edit")):
        say(f"{block.place}: it names no wrong body, and does not say why")


def parts_of(value):
    """The parts of a list: commas in brackets do not part."""
    parts, depth = [""], 0
    for sign in value:
        depth += (sign in "({") - (sign in ")}")
        if sign == "," and depth == 0:
            parts.append("")
        else:
            parts[-1] += sign
    return [it.strip() for it in parts if it.strip()]


def carrier_of(value):
    """The functions, the clauses and the note of a line `by`: each clause with its own note."""
    depth = 0
    for at, sign in enumerate(value):
        depth += (sign == "(") - (sign == ")")
        if depth == 0 and value.startswith(": ", at):
            names, clauses = value[:at], value[at + 2 :]
            break
    else:
        names, clauses = value, ""
    with_note = lambda it: re.fullmatch(r"([^(]*?)\s*(?:\((.*)\))?", it).groups()  # noqa: E731
    return [with_note(it) for it in parts_of(names)], [with_note(it) for it in parts_of(clauses)]
