#!/usr/bin/env python3
"""Sees that several workers give the same as the kernels of FORMATS where blocks of firings are heavy, so that
they are evaluated without the lock: six filters of 16 weights in a row, each of which reads 64 tokens and
writes 64, with room for many firings, by 1, 2, 4 and 8 workers.

usage: heavy.py PROGRAM [TIMES]        prints what is wrong, a line each; nothing where all is well
"""
import re
import subprocess
import sys
import tempfile
from pathlib import Path

PROGRAM = sys.argv[1]
TIMES = int(sys.argv[2]) if len(sys.argv) > 2 else 3
FILTERS, EACH, TAPS, SHIFT, PERIODS = 6, 64, 16, 9, 256
LEAST, GREATEST = -(2**31), 2**31 - 1


def weights(number: int) -> list[int]:
    return [(number * 7 + at * 13) % 61 - 30 for at in range(TAPS)]


def graph() -> str:
    names = ["src", *(f"f{it}" for it in range(FILTERS)), "snk"]
    lines = ['[[actor]]\nname = "src"\nkernel = "source"\n', '[[actor]]\nname = "snk"\nkernel = "sink"\n']
    for number in range(FILTERS):
        lines.append(f'[[actor]]\nname = "f{number}"\nkernel = "fir"\nweights = {weights(number)}\nshift = {SHIFT}\n')
    for number, (name, after) in enumerate(zip(names, names[1:])):
        lines.append(f'[[channel]]\nname = "c{number}"\nfrom = "{name}"\nto = "{after}"\n')
        lines.append(f"produce = [{EACH}]\nconsume = [{EACH}]\n")
    return "".join(lines)


def fired(number: int, read: list[int]) -> list[int]:
    """What a firing of the filter writes: as many tokens as it reads."""
    taps = weights(number)
    sums = (sum(a * b for a, b in zip(taps, read[at:])) >> SHIFT for at in range(EACH))
    return [max(LEAST, min(GREATEST, it)) for it in sums]


def sunk(tokens: list[int]) -> list[int]:
    """What the sink takes."""
    for number in range(FILTERS):
        rows = (tokens[at : at + EACH] for at in range(0, len(tokens), EACH))
        tokens = [it for row in rows for it in fired(number, row)]
    return tokens


def wrong_in(folder: Path, workers: int, room: str, wanted: str, report: str) -> str | None:
    words = ["run", "graph.toml", ".", "--periods", PERIODS, "--room", room, "--workers", workers]
    ran = subprocess.run([PROGRAM, *map(str, words)], cwd=folder, capture_output=True, text=True)
    if ran.returncode != 0 or ran.stderr:
        return f"it ends with {ran.returncode}: {ran.stderr}"
    if re.sub(r"peak \d+ capacity \d+", "", ran.stdout) != report:
        return f"the report is another: {ran.stdout}"
    if (folder / "snk.out").read_text() != wanted:
        return "the sink took other tokens"
    return None


def main() -> None:
    count = EACH * PERIODS
    tokens = [(it * 2654435761 >> 7) % 2**28 - 2**27 for it in range(count)]
    wanted = "".join(f"{it}\n" for it in sunk(tokens))
    lines = [f"c{it} written {count} taken {count} held 0  closed\n" for it in range(FILTERS + 1)]
    report = "".join(["ending complete\n", *lines])
    with tempfile.TemporaryDirectory(prefix="csdf-") as room:
        folder = Path(room)
        (folder / "graph.toml").write_text(graph())
        (folder / "src.in").write_text("".join(f"{it}\n" for it in tokens))
        for how in ("128", "auto"):
            for workers in (1, 2, 4, 8) * TIMES:
                wrong = wrong_in(folder, workers, how, wanted, report)
                if wrong:
                    print(f"{workers} workers, --room {how}: {wrong}")


main()
