"""docs/PROMISES.md, as it is made of the blocks of docs/promises."""
import re

from blocks import carrier_of, parts_of


def quoted(text):
    """A note with its names in backquotes."""
    path = r"[\w/]+\.(?:antt|rt|md)\b"
    name = r"\b(?:[A-Z]\w*[a-z]\w*(?:<\w+>)?|[a-z]+_\w+)\b"
    return re.sub(rf"({path}|csdf_\w+)|({name})", lambda it: it[1] or f"`{it[2]}`", text)


def told_note(note):
    """A note in its brackets: of a definition and its fields, all are names."""
    fields = re.fullmatch(r"(\w+): ([\w, ]+)", note or "")
    if fields:
        return f" (`{fields[1]}`: {', '.join(f'`{it}`' for it in parts_of(fields[2]))})"
    return f" ({quoted(note)})" if note else ""


def told_name(one):
    """A function of a line `by` as the page has it."""
    kept = re.fullmatch(r"(invariant|field) (?:(\w+) )?of (\w+)", one)
    if kept:
        return f"the invariant of `{kept[3]}`" if kept[1] == "invariant" else f"the ghost field `{kept[2]}` of `{kept[3]}`"
    if one.startswith("prove! of "):
        return f"`prove!` in {one.removeprefix('prove! of ')}"
    impl = re.fullmatch(r"(\w+) of (\w+)", one)
    return f"`{impl[1]}` of `{impl[2]}`" if impl else f"`{one}`"


def told_carrier(value):
    """A line `by` as the page has it."""
    functions, clauses = carrier_of(value)
    owed = all(it.startswith("asks ") for it, _ in functions)
    told = ", ".join(told_name(it.removeprefix("asks ") if owed else it) + told_note(note) for it, note in functions)
    told = f"what callers of {told} owe" if owed else told
    return told + (": " + ", ".join(f"`{it}`{told_note(note)}" for it, note in clauses) if clauses else "")


def told_edits(block):
    names = [it.rpartition("/") for it in parts_of(block.one("edits"))]
    told = [f"`{name}`" + (f" of {crate}" if crate else "") for crate, _, name in names]
    return "; ".join([", ".join(told)] * bool(told) + block.all("no edit"))


def told_crate(crate, blocks):
    """The section of a crate: its paragraphs, and its promises in tables."""
    lines, in_table = [f"## {crate}", ""], False
    for block in blocks:
        if block.has("by"):
            if not in_table:
                lines += ["| Promise | Carried by | Refuses |", "|---|---|---|"]
            lines.append(f"| {block.one('promise')} | {'; '.join(map(told_carrier, block.all('by')))} | {told_edits(block)} |")
            in_table = True
        elif block.has("text"):
            lines += [""] * in_table + [block.one("text"), ""]
            in_table = False
    return lines + [""] * in_table


def told_with(block, what):
    """A promise that no clause carries: its words, the functions that it is of, and what stands for it."""
    functions = f" ({', '.join(map(told_name, parts_of(block.one('of'))))})" if block.has("of") else ""
    return f"{block.one('promise').rstrip('.')}{functions}: {what}"


def told_tests(block):
    return told_with(block, ", ".join(f"`{it}`" for it in parts_of(block.one("by tests"))) + ".")


def told_reading(block):
    return told_with(block, block.one("by reading"))


def told_rest(title, words, blocks, key, told):
    """What is carried by no clause, crate by crate."""
    lines = [f"### {title}", "", words, ""]
    for crate in dict.fromkeys(it.crate for it in blocks):
        here = [it for it in blocks if it.crate == crate and it.has(key)]
        if here:
            lines += [f"**{crate}**", ""] + [f"- {told(it)}" for it in here] + [""]
    return lines


HOW = """## How to read the tables

Each promise stands beside the clauses that carry it and the wrong bodies that they refuse. A wrong body is a file of
`crates/NAME/must-fail`: it says for which input it is wrong, and `rt ci` sees that it is refused. A clause is named
after its function, as `run_words`: `caused`. Where a function stands alone, all its clauses are meant. What is only
tested, or only read, stands at the end of this page.

Three things are so of every function. The prover sees that it meets its contract, that it is safe (no index out of
range, no sum that wraps, no lossy cast, no zero divisor) and that it returns. A function that waits for others owes no
return. Want of memory may stand for any answer of a call that takes memory. And no clause can say that a call takes no
memory: that is by reading, since such a call has no `alloc`, and its answer has no want of memory.

This page is made of the files in `docs/promises` by `tests/promises/run --write`, and is not written by hand. The gate
sees that all that they name is there, that each wrong body changes a function of its promise or one that these call,
and that no public function and no wrong body is left out."""
# a paragraph is a line, as in the other documents
HOW = re.sub(r"(?<=\S)\n(?=\S)", " ", HOW)


def page(first, blocks):
    """docs/PROMISES.md"""
    lines = [first.rstrip(), "", *HOW.splitlines(), ""]
    for crate in dict.fromkeys(it.crate for it in blocks):
        lines += told_crate(crate, [it for it in blocks if it.crate == crate])
    lines += ["## By tests or by reading alone", ""]
    lines += told_rest("By tests", "No clause carries these. Each has the test that sees it.", blocks, "by tests", told_tests)
    lines += told_rest("By reading", "No clause and no test carries these. Each has the reason.", blocks, "by reading", told_reading)
    lines += told_rest("Neither", "These are not promised.", blocks, "not said", lambda it: it.one("not said"))
    return "\n".join(lines).rstrip() + "\n"
