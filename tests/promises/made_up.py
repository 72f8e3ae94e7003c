"""A small repository whose promises are right, and faults that are put into it, each of which has to be told."""
import tempfile
from pathlib import Path

LIBRARY = """
mod pair;
pub use pair::Pair;

/// The sum: not `fn hidden`.
pub fn sum(pair: &Pair) -> u32
    ensures { result ≡ pair.now.first + pair.now.second }
{
    pair.first() + pair.second
}

const MOST: u32 = 9;

const _: () = prove!(MOST == 9);

fn other() -> u32
    ensures { result ≡ 1 }
{
    1
}
"""
PAIR = """
pub struct Pair {
    first: u32,
    second: u32,
    ghost few: { first ≤ 9 },
}

impl Model for Pair {
    ghost view = { λ p. p };

    ghost invariant = { IsPair };
}

impl Pair {
    pub fn first(&self) -> u32
        requires some { 0 < self.now.second }
        ensures value { result ≡ self.now.first }
        ensures few { result ≤ 9 }
    {
        self.first
    }
}
"""
ROWS = """
text: In plain words: pairs.

promise: The first number of a pair, which is below ten.
by: Pair::first: value, few (IsPair)
edits: first_is_the_second

promise: A pair keeps its numbers, and is asked for them where it has some.
by: invariant of Pair, field few of Pair
by: asks Pair::first: some
edits: first_is_the_second

promise: The sum.
by: sum
edits: sum_is_the_first, first_is_the_second

promise: The number one.
by: other
edits: other_is_two

promise: Nine at most.
by: prove! of pairs/src/lib.rt: MOST
edits: most_is_ten

promise: Sums are found.
of: sum
by tests: pairs::pair

promise: Nothing is copied.
of: Pair::first
by reading: it hands out a number.

not said: How long it takes.
"""
BODIES = {
    "first_is_the_second": ("src/pair.rt", "        self.first", "        self.second"),
    "sum_is_the_first": ("src/lib.rt", "pair.first() + pair.second", "pair.first()"),
    "most_is_ten": ("src/lib.rt", "MOST: u32 = 9", "MOST: u32 = 10"),
    "other_is_two": ("src/lib.rt", "    1", "    2"),
}
HEADLINE = "> For every accepted graph all is well.\n"
# What is changed in the made-up repository (a file, what stands there, what is put there), and what has to be told.
FAULTS = [
    ("docs/promises/pairs.txt", "first: value, few", "first: value, few, least", "Pair::first has no clause least"),
    ("docs/promises/pairs.txt", "first: some", "first: value", "asks Pair::first has no condition value"),
    ("docs/promises/pairs.txt", "by: other", "by: another", "there is no function another"),
    ("docs/promises/pairs.txt", "lib.rt: MOST", "lib.rt: LEAST", "no prove! of pairs/src/lib.rt says LEAST in digits"),
    ("crates/pairs/src/lib.rt", "prove!(MOST == 9)", "prove!(MOST == MOST)", "says MOST in digits"),
    ("docs/promises/pairs.txt", "edits: most_is_ten", "edits: most_is_ten, sum_is_the_first", "sum_is_the_first changes none"),
    ("docs/promises/pairs.txt", "(IsPair)", "(IsTriple)", "there is no IsTriple"),
    ("docs/promises/pairs.txt", "field few of", "field many of", "no type keeps field many of Pair"),
    # a wrong body of another function: `sum` calls `first`, and `first` does not call `sum`
    ("docs/promises/pairs.txt", "edits: first_is_the_second", "edits: first_is_the_second, sum_is_the_first", "sum_is_the_first changes none"),
    ("docs/promises/pairs.txt", "edits: other_is_two", "edits: sum_is_the_first", "sum_is_the_first changes none"),
    ("docs/promises/pairs.txt", "edits: other_is_two", "no edit: it is easy", "other_is_two.edit: it stands in no promise"),
    ("docs/promises/pairs.txt", "edits: other_is_two", "edits: other_is_two, other_is_three", "there are 0 wrong bodies other_is_three"),
    ("docs/promises/pairs.txt", "edits: sum_is_the_first, first_is_the_second", "", "it names no wrong body"),
    ("crates/pairs/src/lib.rt", "fn other", "pub fn new_one() -> u32\n    ensures { result ≡ 2 }\n{\n    2\n}\n\nfn other", "new_one: a public function that stands in no promise"),
    ("crates/pairs/must-fail/first_is_the_second.edit", "src/pair.rt\nold:         self.first\nnew:         self.second", "src/lib.rt\nold:     1\nnew:     3", "first: it has no wrong body of its own"),
    ("docs/promises/pairs.txt", "pairs::pair", "pairs::pair_tests", "there is no test pairs::pair_tests"),
    ("docs/promises/pairs.txt", "by reading: ", "by guess: ", "no line of a block begins with 'by guess'"),
    ("docs/promises/first.md", "is well", "is better", "the headline is not that of README"),
    ("docs/promises/first.md", "# Promises", "# Promises" + " long" * 1300, "bytes, and not 6144 at most"),
    ("docs/PROMISES.md", "The sum.", "The product.", "it is not what is made"),
]


def made_up(room):
    """A small repository whose promises are all right."""
    texts = {
        "crates.txt": "# name: what it stands on\npairs:\n",
        "README.md": HEADLINE,
        "crates/pairs/src/lib.rt": LIBRARY,
        "crates/pairs/src/pair.rt": PAIR,
        "crates/pairs/specs/Pairs.antt": "abbrev pub IsPair : Pair → Type 0\n",
        "docs/promises/first.md": f"# Promises\n\n{HEADLINE}",
        "docs/promises/pairs.txt": ROWS,
    }
    for name, (file, old, new) in BODIES.items():
        texts[f"crates/pairs/must-fail/{name}.edit"] = f"# wrong where: a pair of 1 and 2\nfile: {file}\nold: {old}\nnew: {new}\n"
    for file, text in texts.items():
        path = room / file
        path.parent.mkdir(parents=True, exist_ok=True)
        path.write_text(text, encoding="utf-8")


def outcomes(look):
    """Each fault that is put into the made-up repository is told, and without one nothing is."""
    with tempfile.TemporaryDirectory() as name:
        room = Path(name)
        made_up(room)
        told, _ = look(room, write=True)
        yield told and f"the made-up repository: {told}"
        for file, old, new, wanted in FAULTS:
            path = room / file
            text = path.read_text(encoding="utf-8")
            path.write_text(text.replace(old, new, 1), encoding="utf-8")
            told, _ = look(room)
            found = text.count(old) and any(wanted in it for it in told)
            yield None if found else f"{file}: {new[:60]!r}: wanted {wanted!r}, told {told}"
            path.write_text(text, encoding="utf-8")


def self_test(look):
    """Looks at the repository and at each of the faults by `look`: 0 where all is told."""
    told = list(outcomes(look))
    for fault in filter(None, told):
        print(fault)
    failed = sum(1 for it in told if it)
    print(f"{len(told) - failed} passed, {failed} failed")
    return 1 if failed else 0
