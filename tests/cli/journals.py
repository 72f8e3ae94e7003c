#!/usr/bin/env python3
"""Sees that the moves that `csdf run --journal` writes are those of the run: `csdf moves` of the graph with
them replies ok to each; what is read is what the firing was computed from, by the meaning of the kernels
as FORMATS tells it; and each sink's file has what its reads gave. Each example is run by 1, 2 and 8 workers.

usage: journals.py PROGRAM        prints what is wrong, a line each; nothing where all is well
"""
import re
import shutil
import subprocess
import sys
import tempfile
import tomllib
from pathlib import Path

TOP = Path(__file__).resolve().parent.parent.parent
PROGRAM = sys.argv[1]
LEAST, GREATEST = -(2**31), 2**31 - 1


class Actor:
    """An actor of the graph, and what its firings read and wrote so far."""

    def __init__(self, table: dict, channels: list[dict], feed: list[int]):
        self.name, self.kernel, self.table, self.feed = table["name"], table["kernel"], table, feed
        self.phases, self.firing, self.read = table.get("phases", 1), 0, []
        self.outputs = [it["produce"] for it in channels if it["from"] == self.name]
        self.taken: list[int] = []

    def value(self) -> list[int]:
        """What the present firing writes."""
        counts = [rates[self.firing % self.phases] for rates in self.outputs]
        if self.kernel == "source":
            wanted, self.feed = self.feed[: sum(counts)], self.feed[sum(counts) :]
            return wanted
        return [it for count in counts for it in self.tokens(count)]

    def tokens(self, count: int) -> list[int]:
        x = self.read
        if self.kernel == "copy":
            return [x[i % len(x)] if x else 0 for i in range(count)]
        if self.kernel == "sum":
            return [clamped(sum(x))] * count
        weights, shift = self.table["weights"], self.table["shift"]
        past = x + [0] * (len(weights) + count)
        return [clamped(sum(w * past[i + k] for k, w in enumerate(weights)) >> shift) for i in range(count)]


def clamped(number: int) -> int:
    return max(LEAST, min(GREATEST, number))


def numbers(path: Path) -> list[int]:
    return [int(it) for it in path.read_text().split()]


def wrong_in(graph: dict, folder: Path, lines: list[str], replies: list[str]) -> str | None:
    """The first move that is not as it should be."""
    channels = graph["channel"]
    feeds = {it["name"]: numbers(folder / f"{it['name']}.in") for it in graph["actor"] if it["kernel"] == "source"}
    actors = {it["name"]: Actor(it, channels, feeds.get(it["name"], [])) for it in graph["actor"]}
    for line, reply in zip(lines, replies, strict=True):
        verb, name, *tokens = line.split()
        if not re.fullmatch(rf"{verb} {name}: ok( -?\d+)*", reply):
            return f"{line}: {reply}"
        if verb == "close":
            continue
        actor = actors[name]
        if verb == "read":
            actor.read = [int(it) for it in reply.split()[3:]]
            actor.taken += actor.read
        if verb == "write" and [int(it) for it in tokens] != (wanted := actor.value() if actor.kernel != "sink" else []):
            return f"{line}: the kernel makes {wanted}"
        actor.firing += verb == "finish"
    for actor in actors.values():
        if actor.kernel == "sink" and actor.taken != numbers(folder / f"{actor.name}.out"):
            return f"{actor.name}.out has other tokens than were read"
    return None


def look_at(example: Path, workers: int, room: Path) -> str | None:
    tokens = room / f"{example.name}-{workers}"
    shutil.copytree(example, tokens)
    options = example / "expected" / "options"
    words = options.read_text().split() if options.exists() else []
    journal = tokens / "moves.toml"
    run = [PROGRAM, "run", example / "graph.toml", tokens, *words, "--workers", str(workers), "--journal", journal]
    ran = subprocess.run(run, capture_output=True, text=True)
    if (ran.stdout, ran.stderr, ran.returncode) != ((example / "expected" / "report").read_text(), "", 0) and workers == 1:
        return f"the run is another: {ran.stderr}"
    text = (example / "graph.toml").read_text() + journal.read_text()
    script = tomllib.loads(text)
    lines = script["script"]["moves"]
    if len(lines) > 100_000:
        return f"{len(lines)} moves are too many to replay"
    replayed = subprocess.run([PROGRAM, "moves", "-"], input=text, capture_output=True, text=True)
    if replayed.returncode != 0:
        return replayed.stderr
    return wrong_in(script, tokens, lines, replayed.stdout.splitlines())


def main() -> None:
    with tempfile.TemporaryDirectory(prefix="csdf-") as room:
        for example in sorted(it.parent for it in (TOP / "examples").glob("*/graph.toml")):
            for workers in (1, 2, 8):
                wrong = look_at(example, workers, Path(room))
                if wrong:
                    print(f"{example.name} by {workers}: {wrong}")


main()
