#!/usr/bin/env python3
"""Sees that docs/graph.schema.json has the keys of docs/FORMATS, and that the program takes what is at
each of its limits and refuses what is one past it.

usage: schema.py PROGRAM        prints what is wrong, a line each; nothing where all is well
"""
import json
import re
import subprocess
import sys
from pathlib import Path

TOP = Path(__file__).resolve().parent.parent.parent
SCHEMA = json.loads((TOP / "docs" / "graph.schema.json").read_text())
PARTS = SCHEMA["definitions"]


def is_taken(command: str, text: str) -> bool:
    """Whether the program takes the graph file: it is not refused for its shape, a name or a range."""
    ran = subprocess.run([sys.argv[1], command, "/dev/stdin"], input=text.encode(), capture_output=True)
    return not re.search(rb"graph: (shape|name|range|phase length|zero rate|not toml)", ran.stderr)


def table(keys: dict) -> str:
    return "{ " + ", ".join(f"{key} = {json.dumps(value)}" for key, value in keys.items()) + " }"


def graph(actors: list, channels: list, more: str = "") -> str:
    lists = [f"{name} = [{', '.join(map(table, tables))}]\n" for name, tables in (("actor", actors), ("channel", channels))]
    return more + "".join(lists)


def source(**keys) -> dict:
    return {"name": "a", "kernel": "source", **keys}


def channel(number: int = 0, **keys) -> dict:
    return {"name": f"c{number}", "from": "a", "to": "b", "produce": [1], "consume": [1], **keys}


SINK = {"name": "b", "kernel": "sink"}


def of_channel(**keys) -> str:
    return graph([source(), SINK], [channel(**keys)])


def of_filter(**keys) -> str:
    given = {"weights": [1], "shift": 0, **keys}
    filter_ = {"name": "f", "kernel": "fir", **given}
    ends = [{**channel(0), "to": "f"}, {**channel(1), "from": "f"}]
    return graph([source(), filter_, SINK], ends)


def of_phases(count: int) -> str:
    return graph([source(phases=count), SINK], [channel(produce=[1] * count)])


def of_script(**keys) -> str:
    return of_channel() + f"script = {table({'moves': [], **keys})}\n"


def row(count: int) -> str:
    names = [f"x{at}" for at in range(count)]
    actors = [{"name": name, "kernel": "copy"} for name in names]
    actors[0]["kernel"], actors[-1]["kernel"] = "source", "sink"
    return graph(actors, [channel(at, **{"from": names[at], "to": names[at + 1]}) for at in range(count - 1)])


def limits() -> list:
    """What each limit is of, its greatest and least value where it has one, and a file with a value."""
    actor, part, script = (PARTS[name]["properties"] for name in ("actor", "channel", "script"))
    top = SCHEMA["properties"]
    weights, rates, initial = actor["weights"], PARTS["rates"], part["initial"]
    longest = int(re.search(r"\{0,(\d+)\}", PARTS["name"]["pattern"]).group(1))
    return [
        ("actors", 2, top["actor"]["maxItems"], "check", row),
        ("channels", 1, top["channel"]["maxItems"], "check", lambda n: graph([source(), SINK], [channel(at) for at in range(n)])),
        ("cells", None, top["cells"]["maximum"], "check", lambda n: graph([source(), SINK], [channel()], f"cells = {n}\n")),
        ("letters of a name", 0, longest, "check", lambda n: graph([source(), SINK], [channel(name="c" + "d" * n)])),
        ("phases", actor["phases"]["minimum"], actor["phases"]["maximum"], "check", of_phases),
        ("weights", weights["minItems"], weights["maxItems"], "check", lambda n: of_filter(weights=[1] * n)),
        ("a weight", weights["items"]["minimum"], weights["items"]["maximum"], "check", lambda n: of_filter(weights=[n])),
        ("shift", actor["shift"]["minimum"], actor["shift"]["maximum"], "check", lambda n: of_filter(shift=n)),
        ("a rate", None, rates["items"]["maximum"], "check", lambda n: of_channel(produce=[n])),
        ("initial", None, initial["maxItems"], "check", lambda n: of_channel(initial=[0] * n)),
        ("a token", initial["items"]["minimum"], initial["items"]["maximum"], "check", lambda n: of_channel(initial=[n])),
        ("capacity", part["capacity"]["minimum"], part["capacity"]["maximum"], "check", lambda n: of_channel(capacity=n)),
        ("limit", script["limit"]["minimum"], script["limit"]["maximum"], "moves", lambda n: of_script(limit=n)),
        ("supply", script["supply"]["minimum"], script["supply"]["maximum"], "moves", lambda n: of_script(supply=n)),
        ("firings", script["firings"]["minimum"], script["firings"]["maximum"], "moves", lambda n: of_script(firings=n)),
        ("moves", None, script["moves"]["maxItems"], "moves", lambda n: of_script(moves=["begin a"] * n)),
    ]


def wrong_limits() -> list[str]:
    found = []
    for what, least, greatest, command, text in limits():
        for value, wanted in ((least, True), (greatest, True), (greatest + 1, False)):
            if value is not None and is_taken(command, text(value)) != wanted:
                found.append(f"{what}: {value} is {'refused' if wanted else 'taken'}")
        if least and what not in ("actors", "channels") and is_taken(command, text(least - 1)):
            found.append(f"{what}: {least - 1} is taken")
    return found


def documented() -> set:
    """The keys of the tables of FORMATS."""
    text = next((TOP / "docs").glob("FORMATS*")).read_text().split("### Cells")[0]
    rows = re.findall(r"^\| (`\w+`(?:, `\w+`)*) \| (?:array|string|integer|table)", text, re.M)
    return {key for keys in rows for key in re.findall(r"\w+", keys)}


def main() -> None:
    keys = set(SCHEMA["properties"]) | {key for name in ("actor", "channel", "script") for key in PARTS[name]["properties"]}
    for key in sorted(keys ^ documented()):
        print(f"key {key}: in one of schema and FORMATS alone")
    for wrong in wrong_limits():
        print(wrong)


main()
