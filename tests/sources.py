"""What tests/texts and tests/promises read of the crates: the functions of a source file with the clauses of
their contracts, and the wrong bodies of `must-fail`. It goes by the form of the text, and knows no types.
"""
import re
from dataclasses import dataclass, field
from pathlib import Path

# What holds no code: comments, texts, and characters in quotes.
NO_CODE = re.compile(r'//[^\n]*|/\*.*?\*/|b?r(#*)".*?"\1|b?"(?:\\.|[^"\\])*"|b?\'(?:\\.[^\']*|[^\'\\\n])\'', re.DOTALL)
FUNCTION = re.compile(r"^([ \t]*)((?:pub(?:\([\w ]+\))? +)?)(?:const +|unsafe +)*fn +(\w+)", re.MULTILINE)
CLAUSE = re.compile(r"\b(ensures|requires)\b\s*(\w*)\s*\{")
CONTAINER = re.compile(r"^(?:unsafe +)?(impl|pub trait|pub\(crate\) trait|trait)\b([^{;]*)\{", re.MULTILINE)
ITEM = re.compile(r"^(?:pub(?:\([\w ]+\))? +)?(const|static|struct|enum|union|type) +(\w+)", re.MULTILINE)
# The name of a type that a file declares, with what stands before it.
TYPE = re.compile(r"^(pub(?:\([\w ]+\))? +)?(?:struct|enum|trait) +(\w+)", re.MULTILINE)


def masked(text):
    """The text with blanks where it holds no code, as long as before."""
    return NO_CODE.sub(lambda it: re.sub(r"[^\n]", " ", it[0]), text)


def closing(code, at):
    """The place behind the bracket that closes the one at this place."""
    depth = 0
    for found in re.compile(r"[{}]").finditer(code, at):
        depth += 1 if found[0] == "{" else -1
        if depth == 0:
            return found.end()
    return len(code)


@dataclass
class Function:
    """A function: where it stands, and what its contract promises and asks."""

    crate: str
    file: str  # below the crate's folder, as `src/lib.rt`
    owner: str  # the type or trait whose it is, or nothing
    trait: str  # the trait that it belongs to, in an impl of one or in the trait itself
    name: str
    is_pub: bool
    start: int
    body: int  # where the body begins, or the end where it has none
    end: int
    clauses: dict = field(default_factory=dict)
    conditions: dict = field(default_factory=dict)
    code: str = ""

    @property
    def module(self):
        return Path(self.file).stem

    @property
    def label(self):
        owner = f"{self.owner}::" if self.owner else ""
        return f"{self.crate}/{self.file}: {owner}{self.name}"

    @property
    def key(self):
        return self.crate, self.file, self.start


def owner_of(kind, head):
    """The type and the trait of an `impl` or a trait, from what stands before its bracket."""
    head = re.sub(r"\bwhere\b.*", "", head, flags=re.DOTALL)
    bare, depth = "", 0
    for at in head:
        depth -= at == ">"
        bare += at if depth == 0 and at not in "<>" else ""
        depth += at == "<"
    bare = bare.replace("-", " ")
    words = re.sub(r"&('\w+)?( ?mut\b)?", " ", bare).replace("dyn ", " ").split()
    if kind != "impl":
        name = words[0].rstrip(":")
        return name, name
    names = [it.split("::")[-1].rstrip(":") for it in words]
    if "for" in names:
        at = names.index("for")
        return names[at + 1], names[at - 1]
    return names[0], ""


def containers_of(code):
    """The impls and traits of a file: from where to where, and whose they are."""
    found = []
    for it in CONTAINER.finditer(code):
        kind = "impl" if it[1] == "impl" else "trait"
        found.append((it.start(), closing(code, it.end() - 1), *owner_of(kind, it[2])))
    return found


def head_end(code, at):
    """Where the head of a function ends, its contract passed: at its body's bracket or its semicolon."""
    depth = 0
    while at < len(code):
        clause = CLAUSE.match(code, at)
        if clause and depth == 0:
            at = closing(code, clause.end() - 1)
            continue
        sign = code[at]
        depth += (sign in "([") - (sign in ")]")
        if depth == 0 and sign in "{;":
            return at
        at += 1
    return at


def start_with_notes(text, at):
    """Where the comments and attributes before a function begin."""
    lines = text[:at].splitlines(keepends=True)
    while lines and re.match(r"\s*(///|#\[)", lines[-1]):
        at -= len(lines.pop())
    return at


def functions_of(crate, file, text):
    """The functions of a source file, in order."""
    code = masked(text)
    containers = containers_of(code)
    found = []
    for it in FUNCTION.finditer(code):
        begin = head_end(code, it.end())
        end = closing(code, begin) if code[begin : begin + 1] == "{" else begin + 1
        owner, trait = next(((o, t) for s, e, o, t in containers if s <= it.start() < e), ("", ""))
        start = start_with_notes(text, it.start())
        one = Function(crate, file, owner, trait, it[3], it[2].strip() == "pub", start, begin, end)
        for clause in CLAUSE.finditer(code, it.end(), begin):
            kept = one.clauses if clause[1] == "ensures" else one.conditions
            kept[clause[2]] = text[clause.end() : closing(code, clause.end() - 1) - 1].strip()
        one.code = code[begin:end]
        found.append(one)
    return found


def place_of(text, functions, at):
    """The function or the item of a file in which this place stands: `None` for imports and the like."""
    for one in functions:
        if one.start <= at < one.end:
            return one
    line = text.rfind("\n", 0, at) + 1
    for it in ITEM.finditer(masked(text)):
        if it.start() <= at and (it[1] in ("const", "static", "type") and it.start() >= line):
            return it[2]
    return None


@dataclass
class Edit:
    """A wrong body: which crate's, how often it says where it is wrong, and its pairs of texts."""

    crate: str
    name: str
    path: Path
    says: int
    pairs: list  # (file, old, new)
    faults: list


def read_edit(path):
    """Reads a file of `must-fail`."""
    says, pairs, faults, file, old = 0, [], [], None, None
    for number, line in enumerate(path.read_text(encoding="utf-8").splitlines(), 1):
        says += line.startswith("# wrong where: ")
        if line.startswith("file: "):
            file = line.removeprefix("file: ").strip()
        elif line.startswith("old:"):
            if file is None or old is not None:
                faults.append(f"line {number}: an old text that stands in no file, or has no new one")
            old = line.removeprefix("old:").removeprefix(" ")
        elif line.startswith("new:"):
            if file is None or old is None:
                faults.append(f"line {number}: a new text without an old one")
            else:
                pairs.append((file, old, line.removeprefix("new:").removeprefix(" ")))
            old = None
    if old is not None:
        faults.append("the last old text has no new one")
    return Edit(path.parent.parent.name, path.stem, path, says, pairs, faults)


def edits_of(top):
    """All wrong bodies of the repository, in order."""
    return [read_edit(it) for it in sorted(Path(top).glob("crates/*/must-fail/*.edit"))]


def places_of(edit, read):
    """Puts the edit's pairs in, one after another: the functions and items that it changes, and what is wrong
    with its texts. `read` gives the text of a file of its crate, or `None`.
    """
    texts, places, faults = {}, [], list(edit.faults)
    for file, old, new in edit.pairs:
        text = texts[file] if file in texts else read(file)
        if text is None:
            faults.append(f"there is no {file}")
            continue
        stands = text.count(old) if old else 0
        if stands != 1:
            faults.append(f"its text stands {stands} times in {file}: {old.strip()[:70]}")
            continue
        at = text.index(old) + len(old) - len(old.lstrip())
        place = place_of(text, functions_of(edit.crate, file, text), at)
        name = place if isinstance(place, (str, type(None))) else (place.owner, place.trait, place.name)
        if place is not None and (file, name) not in places:
            places.append((file, name))
        if old == new:
            faults.append(f"it changes nothing in {file}: {old.strip()[:70]}")
        texts[file] = text.replace(old, new, 1)
    return places, faults


# ---- the crates as a whole

CALL = re.compile(r"(?:(\w+)(?:::<[^()]*?>)?::)?(\.?)\b([a-z_]\w*)(?:::<[^()]*?>)?\s*\(")


class Crates:
    """The functions of all crates, who calls whom, and what each crate shows."""

    def __init__(self, top):
        self.top = Path(top)
        self.below = self._below()
        self.texts = {}  # crate -> file -> text
        self.functions = []
        for crate in self.below:
            folder = self.top / "crates" / crate
            files = sorted((folder / "src").rglob("*.rt"))
            self.texts[crate] = {it.relative_to(folder).as_posix(): it.read_text(encoding="utf-8") for it in files}
            for file, text in self.texts[crate].items():
                self.functions += functions_of(crate, file, text)
        self.by_name = {}
        for one in self.functions:
            self.by_name.setdefault(one.name, []).append(one)
        self._called = {}

    def _below(self):
        """What each crate stands on, with what that stands on."""
        uses = {}
        for line in (self.top / "crates.txt").read_text(encoding="utf-8").splitlines():
            found = re.match(r"(\w+)[^:#]*:(.*)", line)
            if found:
                uses[found[1]] = found[2].split()
        uses = {name: [it for it in used if it in uses] for name, used in uses.items()}

        def all_below(name, found):
            for it in uses[name]:
                if it not in found:
                    found.append(it)
                    all_below(it, found)
            return found

        return {name: all_below(name, []) for name in uses}

    def libraries(self):
        """The crates that others use, tests and examples left out."""
        last = ("trials", "examples")
        return [it for it in self.below if "src/lib.rt" in self.texts[it] and not it.endswith(last)]

    def public(self, crate):
        """The functions that a crate shows: those that `lib.rt` exports, and the methods of its types and traits."""
        code = masked(self.texts[crate]["src/lib.rt"])
        shown, modules = set(), set(re.findall(r"^pub mod (\w+);", code, re.MULTILINE))
        for used in re.findall(r"^pub use ([^;]+);", code, re.MULTILINE):
            listed = re.search(r"\{([^}]*)\}", used)
            shown |= {it.strip() for it in (listed[1].split(",") if listed else [used.rsplit("::", 1)[-1]])}
        shown |= {it[2] for it in TYPE.finditer(code) if (it[1] or "").strip() == "pub"}

        def is_shown(one):
            if one.trait:
                return one.trait == one.owner in shown
            if one.owner:
                return one.is_pub and one.owner in shown
            return one.is_pub and (one.name in shown or one.module in modules or one.file == "src/lib.rt")

        return [it for it in self.functions if it.crate == crate and is_shown(it)]

    def impls_of(self, one):
        """The functions that stand for a method of a trait in the impls of that trait."""
        if not one.trait or one.trait != one.owner:
            return []
        return [it for it in self.by_name[one.name] if it.trait == one.trait]

    def called(self, one):
        """The functions that a function may call: each that its text could mean, in its crate and those below."""
        if one.key not in self._called:
            calls = [it.groups() for it in CALL.finditer(one.code)]
            self._called[one.key] = [it for call in calls for it in self._meant(one, *call)]
        return self._called[one.key]

    def _meant(self, one, before, dot, name):
        near = [it for it in self.by_name.get(name, []) if it.crate == one.crate or it.crate in self.below[one.crate]]
        if before == "Self":
            before = one.owner
        if before:
            here = [it for it in near if before in (it.owner, it.module, it.crate)]
            # (the type may be a parameter: then any trait's method of that name is meant)
            return here or [it for it in near if it.trait and len(before) == 1]
        if dot:
            return [it for it in near if it.owner]
        here = [it for it in near if not it.owner]
        return [it for it in here if (it.crate, it.file) == (one.crate, one.file)] or here

    def callers(self, functions):
        """The functions that call one of these."""
        keys = {it.key for it in functions}
        return [one for one in self.functions if any(it.key in keys for it in self.called(one))]

    def reached(self, functions):
        """The functions, and all that they call."""
        found, waiting = {}, list(functions)
        while waiting:
            one = waiting.pop()
            if one.key not in found:
                found[one.key] = one
                waiting += self.called(one)
        return list(found.values())
