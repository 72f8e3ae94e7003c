#!/usr/bin/env python3
"""Sees that what the READMEs, docs/GUIDE and docs/FORMATS show of the program is what it prints.

usage: told.py PROGRAM        prints what is wrong, a line each; nothing where all is well

Where a document shows a block of lines, they have to be the program's whole answer, or its end where the
document says so. Where it names a line in backquotes, the answer has to have that line.
"""
import json
import re
import shutil
import subprocess
import sys
import tempfile
from pathlib import Path

TOP = Path(__file__).resolve().parent.parent.parent
PROGRAM = sys.argv[1]
README, GUIDE, FORMATS = (next((TOP / place).glob(name)).read_text() for place, name in ((".", "README*"), ("docs", "GUIDE*"), ("docs", "FORMATS*")))
METER = TOP / "examples" / "level_meter"
ROOM = Path(tempfile.mkdtemp())
found: list[str] = []


def say(wrong: str) -> None:
    found.append(wrong)


def answer(*words: object, at: Path = TOP) -> str:
    """What the program prints in a folder, on standard output and on standard error."""
    ran = subprocess.run([PROGRAM, *map(str, words)], cwd=at, capture_output=True, text=True)
    return ran.stdout + ran.stderr


def shows(document: str, text: str, what: str) -> None:
    """The document has the lines as a block of their own."""
    block = "".join(f"    {line}\n" for line in text.splitlines())
    if f"\n\n{block}\n" not in document + "\n":
        say(f"{what}: not shown is\n{text}")


def names(document: str, line: str, text: str, what: str) -> None:
    """The document has the line in backquotes, and it is one of the text's."""
    if f"`{line}`" not in document:
        say(f"{what}: the document does not name {line}")
    if line not in text.splitlines():
        say(f"{what}: {line} is not in\n{text}")


def edited(graph: Path, *pairs: tuple[str, str], top: str = "") -> Path:
    """The graph file with each first text of a pair, which stands in it, become the second one."""
    text = graph.read_text()
    for old, new in pairs:
        if old not in text:
            say(f"{graph}: {old} is not there")
        text = text.replace(old, new, 1)
    made = ROOM / "graph.toml"
    made.write_text(top + text)
    return made


def after(name: str, key: str, value: str) -> tuple[str, str]:
    """In the level meter, a line more at the channel."""
    return f'name = "{name}"\nfrom', f'name = "{name}"\n{key} = {value}\nfrom'


def graph_in(document: str, mark: str) -> Path:
    """The graph file that stands in the document after the mark."""
    made = ROOM / "shown.toml"
    made.write_text(re.search(r"```toml\n(.*?)```", document[document.index(mark) :], re.S).group(1))
    return made


def run(graph: Path, *words: str, folder: Path = METER) -> tuple[str, dict[str, str]]:
    """What a run on the folder's tokens prints, and the sinks' files."""
    out = ROOM / "out"
    shutil.rmtree(out, ignore_errors=True)
    out.mkdir()
    told = answer("run", graph, folder, "--out", out, *words)
    return told, {file.name: file.read_text() for file in out.iterdir()}


def lines(*values: object) -> str:
    return "".join(f"{value}\n" for value in values)


def see(wanted: object, given: object, what: str) -> None:
    if wanted != given:
        say(f"{what}: {given!r}, wanted {wanted!r}")


def readme() -> None:
    rates = TOP / "examples" / "cd_to_dat"
    first = re.search(r"^    \./csdf run examples/cd_to_dat/graph\.toml examples/cd_to_dat(.*)$", README, re.M)
    shows(README, run(rates / "graph.toml", *first.group(1).split(), folder=rates)[0], "README: the first answer")
    small = TOP / "examples" / "decimator"
    for command in ("check", "repetition", "capacity", "schedule", "dot", "explain", "moves", "run", "stream"):
        row = re.search(rf"^\| `{command} GRAPH.*$", README, re.M).group(0).split("|")[3]
        told = answer(command, small / "graph.toml", *([small, "--out", ROOM] if command in ("run", "stream") else []))
        if command == "moves":
            told = answer(command, TOP / "examples" / "pair.toml")
            see(20, len(told.splitlines()), "README: the replies of pair.toml")
        for line in re.findall(r"`([^`]+)`", row):
            if "/" not in line and line not in told.splitlines():
                say(f"README: {command}: {line} is not in\n{told}")
    see(13, len(answer("schedule", small / "graph.toml").splitlines()), "README: the firings of a period")


def examples() -> None:
    document = next((TOP / "examples").glob("README*")).read_text()
    told = answer("moves", TOP / "examples" / "pair.toml").splitlines()
    shows(document, "\n".join(told[:4]), "examples: the script of pair.toml")
    see(20, len(told), "examples: its replies")
    folders = re.findall(r"^\| `(\w+)(\.toml)?` .*\| ([\d ]+) \|$", document, re.M)
    for name, file, vector in folders:
        told = answer("repetition", TOP / "examples" / (name + (file or "/graph.toml")))
        see(vector.split(), [line.split()[1] for line in told.splitlines()], f"examples: the vector of {name}")
    if len(folders) < 7:
        say(f"examples: vectors of {folders} alone")


def guide_excerpts() -> None:
    """The tables that GUIDE shows stand in graph files of examples/. A whole graph file is run by itself."""
    whole = [file.read_text() for file in TOP.glob("examples/*/graph.toml")]
    for text in re.findall(r"```toml\n(.*?)```", GUIDE, re.S):
        if "actor = [" in text:
            continue
        tables = text.split("\n\n") if text.startswith("[[") else re.findall(r"^  \{.*\n", text, re.M)
        for table in tables:
            if not any(table.rstrip("\n") + "\n" in graph for graph in whole):
                say(f"GUIDE: no example has {table}")


def guide_patterns() -> None:
    """What comes out of two copies is what one actor makes."""
    folder = TOP / "examples" / "two_copies"
    alone = ROOM / "alone.toml"
    alone.write_text(
        'actor = [{ name = "src", kernel = "source" }, { name = "snk", kernel = "sink" },\n'
        '  { name = "all", kernel = "fir", weights = [4, 3, 2, 1], shift = 0 }]\n'
        'channel = [{ name = "x", from = "src", to = "all", produce = [4], consume = [4] },\n'
        '  { name = "y", from = "all", to = "snk", produce = [1], consume = [1] }]\n'
    )
    see(run(alone, "--periods", "6", folder=folder)[1], run(folder / "graph.toml", "--periods", "3", folder=folder)[1], "GUIDE: two copies")


def filtered(h: list[int], x: list[int], shift: int, half: int = 0) -> list[int]:
    """np.convolve(x, h)[: len(x)] >> shift, with this added before."""
    return [(sum(w * x[at - k] for k, w in enumerate(h) if k <= at) + half) >> shift for at in range(len(x))]


def sunk(graph: Path, tokens: list[int]) -> list[int]:
    """What the sink `snk` gets of the tokens of `src`, until these end."""
    (ROOM / "src.in").write_text(lines(*tokens))
    told, files = run(graph, "--until-dry", "--room", "auto", folder=ROOM)
    see("ending dry", told.split("\n", 1)[0], f"GUIDE: {graph.name}")
    return [int(it) for it in files.get("snk.out", "").split()]


# Samples of 16 bits, the ends of their range among them.
SAMPLES = [0, 1, -1, 2, -2, 3, -3, 5, -5, 10, -10, 32767, -32768, *((at * 7919) % 65536 - 32768 for at in range(60))]


def guide_filters() -> None:
    """Weights in numpy's order, zeros between samples, a gain, rounding, and many taps."""
    soft = TOP / "examples" / "sliding_filter"
    x = [int(it) for it in (soft / "src.in").read_text().split()]
    see(filtered([2, 3, 2, 1], x, 3), [int(it) for it in (soft / "expected" / "snk.out").read_text().split()], "GUIDE: the order of numpy")
    if "as [2, 3, 2, 1] here" not in GUIDE:
        say("GUIDE: the weights in the order of numpy")
    folder = TOP / "examples" / "resampler"
    weights = json.loads(re.search(r"weights = (\[.*?\])", (folder / "graph.toml").read_text()).group(1))
    stuffed = [it for sample in SAMPLES for it in (sample, 0, 0)]
    see(filtered(weights[::-1], stuffed, 15)[::2], sunk(folder / "graph.toml", SAMPLES), "GUIDE: three samples of two")
    see([22938 * it >> 15 for it in SAMPLES], sunk(graph_in(GUIDE, "**A gain of 0.7.**"), SAMPLES), "GUIDE: a gain")
    see(filtered([22938], SAMPLES, 15, 16384), sunk(graph_in(GUIDE, "**Rounding to nearest.**"), SAMPLES), "GUIDE: rounding")
    program = re.search(r"```python\n(.*?)```", GUIDE, re.S).group(1)
    for count in (1, 16, 17, 32, 40, 118):
        taps = [((at * 37) % 101 - 50) / (26 * count + 100) for at in range(count)]
        made = subprocess.run([sys.executable, "-c", program], input=lines(*taps), capture_output=True, text=True)
        (ROOM / "taps.toml").write_text(made.stdout)
        wanted = filtered([round(it * 2**15) for it in taps], SAMPLES, 15)
        see(wanted, sunk(ROOM / "taps.toml", SAMPLES), f"GUIDE: {count} taps by a program {made.stderr}")


def guide_sound() -> None:
    """Samples made lines by od are the tokens of these samples."""
    command = re.search(r"\| (od .*) > tokens/src\.in$", GUIDE, re.M).group(1)
    raw = b"".join(it.to_bytes(2, sys.byteorder, signed=True) for it in SAMPLES)
    made = subprocess.run(command.split(), input=raw, capture_output=True).stdout
    see(SAMPLES, [int(it) for it in made.split()], "GUIDE: samples as lines")
    graph = graph_in(GUIDE, "**A gain of 0.7.**")
    see(lines(*(22938 * it >> 15 for it in SAMPLES)), streamed(graph, made.decode())[0], "GUIDE: the tokens of samples")


def guide_answers() -> None:
    graph = METER / "graph.toml"
    for command in ("repetition", "capacity"):
        shows(GUIDE, answer(command, graph), f"GUIDE: {command}")
    faults = (
        ([("produce = [1, 0]", "produce = [1]")], "phase length at channel 1"),
        ([('to = "mean_right"\nproduce = [0, 1]\nconsume = [4]', 'to = "mean_right"\nproduce = [0, 1]\nconsume = [2]')], "unbalanced at channel right_mean"),
        ([("initial = [0]", "")], "deadlock"),
        ([after("left", "capacity", "3")], "too tight"),
    )
    for pairs, fault in faults:
        line = f"csdf: graph: {fault}"
        names(GUIDE, line, answer("capacity", edited(graph, *pairs)), "GUIDE")
    loop = TOP / "examples" / "echo_canceller" / "graph.toml"
    see("csdf: graph: deadlock\n", answer("capacity", edited(loop, ("initial = [0, 0, 0, 0]", "initial = [0, 0, 0]"))), "GUIDE: three tokens in the loop")
    told = answer("capacity", edited(graph, after("left", "capacity", "6"))).splitlines()
    see(["left 6", "cells 15"], [told[1], told[-1]], "GUIDE: a greater capacity")


def guide_runs() -> None:
    graph = METER / "graph.toml"
    told, files = run(graph, "--periods", "4")
    shows(GUIDE, told, "GUIDE: the run")
    whole = lines(35, 87, 63, 31)
    if "writes 35, 87, 63 and 31 to `meter.out`" not in GUIDE:
        say("GUIDE: what the run writes")
    see({"meter.out": whole}, files, "GUIDE: what the run writes")
    ends = (
        ("dry", graph, ["--periods", "5"], whole),
        ("dry", graph, ["--until-dry"], whole),
        ("stopped", graph, ["--periods", "4", "--firings", "60"], lines(35)),
        ("starved", edited(graph, top="cells = 7\n"), ["--periods", "4"], ""),
    )
    for ending, file, words, wanted in ends:
        if ending != "starved" and f"with `{' '.join(words)}`" not in GUIDE:
            say(f"GUIDE: {ending} does not say {words}")
        told, files = run(file, *words)
        see((f"ending {ending}", {"meter.out": wanted}), (told.splitlines()[0], files), f"GUIDE: {ending}")
    moves = ROOM / "moves.toml"
    run(graph, "--periods", "4", "--journal", str(moves))
    again = ROOM / "again.toml"
    again.write_text(graph.read_text() + moves.read_text())
    replies = answer("moves", again).splitlines()
    see([], [it for it in replies if ": ok" not in it], "GUIDE: a run that is played again")
    see(len(moves.read_text().splitlines()) - 3, len(replies), "GUIDE: the replies to its moves")
    see("ending complete", run(edited(graph, top="cells = 8\n"), "--periods", "4")[0].splitlines()[0], "GUIDE: eight cells")
    live = ROOM / "live"
    live.mkdir()
    (live / "meter.out").symlink_to("/dev/stdout")
    see(whole + run(graph, "--periods", "4")[0], answer("run", graph, METER, "--periods", "4", "--out", live), "GUIDE: a link to standard output")
    with open(ROOM / "report", "w") as report:
        ran = subprocess.run([PROGRAM, "run", graph, METER, "--out", live], stdout=report, stderr=subprocess.PIPE, text=True)
    names(GUIDE, "csdf: file in use: meter.out", ran.stderr, "GUIDE: a link to standard output, which is a file")


def streamed(graph: Path, tokens: str, *words: str) -> tuple[str, str]:
    """What a stream from standard input writes to standard output and to standard error."""
    ran = subprocess.run([PROGRAM, "stream", str(graph), *words], input=tokens, capture_output=True, text=True)
    return ran.stdout, ran.stderr


def guide_streams() -> None:
    told, report = streamed(METER / "graph.toml", (METER / "line.in").read_text())
    see((lines(35, 87, 63, 31), "ending dry"), (told, report.splitlines()[0]), "GUIDE: a stream")
    if "standard output, 35, 87, 63 and 31." not in GUIDE:
        say("GUIDE: what the stream writes")
    see("ending complete", streamed(METER / "graph.toml", (METER / "line.in").read_text(), "--periods", "2")[1].splitlines()[0], "GUIDE: two periods of a stream")
    soft = TOP / "examples" / "sliding_filter"
    filtered = (soft / "expected" / "snk.out").read_text()
    see(filtered, streamed(soft / "graph.toml", (soft / "src.in").read_text())[0], "GUIDE: the filter")
    heard = [int(it) for it in filtered.splitlines()]
    kept = [sum(heard[at : at + 2]) // 2 for at in range(0, len(heard), 6)]
    see(lines(*kept), streamed(TOP / "examples" / "decimator" / "graph.toml", filtered)[0], "GUIDE: two processes")


def guide_costs() -> None:
    (ROOM / "cd.in").write_text(lines(*range(1, 147001)))
    told, files = run(TOP / "examples" / "cd_to_dat" / "graph.toml", "--periods", "1000", folder=ROOM)
    shows(GUIDE, told.splitlines()[-1], "GUIDE: the long run")
    see(160000, len(files.get("dat.out", "").splitlines()), "GUIDE: what it writes")


def guide_room() -> None:
    graph = METER / "graph.toml"
    told, files = run(graph, "--periods", "4", "--room", "4")
    see({"meter.out": lines(35, 87, 63, 31)}, files, "GUIDE: a run with room")
    see(["ending complete", "left written 16 taken 16 held 0"], [told.splitlines()[0], told.splitlines()[2].split(" peak")[0]], "GUIDE: its report")
    branches = TOP / "examples" / "two_branches"
    for words, many in (([], 3), (["--room", "3"], 5), (["--room", "4"], 6), (["--room", "auto"], 6)):
        files = run(branches / "graph.toml", "--periods", "6", *words, folder=branches)[1]
        see({"snk.out": lines(11, 22), "tap.out": lines(*range(1, many + 1))}, files, f"GUIDE: two branches {words}")
    few = edited(branches / "graph.toml", top="cells = 5\n")
    for words, ending in (([], "dry"), (["--room", "6"], "starved")):
        see(ending, run(few, "--periods", "6", *words, folder=branches)[0].split()[1], f"GUIDE: five cells {words}")


def guide_cells() -> None:
    graph = graph_in(GUIDE, "How too few cells stop a run")
    told = answer("moves", graph).splitlines()
    shows(GUIDE, "\n".join(told[-5:]), "GUIDE: fewer cells")
    see(16, sum(line.endswith(": ok") or ": ok " in line for line in told[:-5]), "GUIDE: the moves before")
    see(["p", "p", "p", "p", "q"], answer("schedule", graph).splitlines()[:5], "GUIDE: the schedule")
    turn = [f'"{verb} {actor}{" 1" if verb == "write" and actor != "snk" else ""}"' for actor in ("p", "q", "add", "snk") for verb in ("begin", "read", "write", "finish")]
    moves = f"moves = [{', '.join(turn * 4)}]"
    played = edited(graph, ("cells = 4", "cells = 2"), (re.search(r"moves = \[.*?\n\]", graph.read_text(), re.S).group(0), moves))
    see([], [line for line in answer("moves", played).splitlines() if ": ok" not in line], "GUIDE: two cells in turn")


def guide_capacities() -> None:
    graph = graph_in(GUIDE, "as in this circle of two")
    shows(GUIDE, answer("capacity", graph), "GUIDE: least capacities")
    x, y = re.findall(r"^  \{ name = \"[xy]\".*\n", graph.read_text(), re.M)
    shows(GUIDE, answer("capacity", edited(graph, (x + y, y + x))), "GUIDE: in the other order")
    see(lines("x 2", "y 2", "cells 4"), answer("capacity", edited(graph, ("initial = [5]", "initial = [5], capacity = 2"))), "GUIDE: with a capacity")


def formats_json() -> None:
    graph = graph_in(GUIDE, "as in this circle of two")
    shows(FORMATS, answer("capacity", graph, "--json"), "FORMATS: capacities as JSON")
    loop = TOP / "tests" / "cli" / "cases" / "capacity_deadlock" / "graph.toml"
    shows(FORMATS, answer("capacity", loop, "--json"), "FORMATS: a deadlock as JSON")
    firings = json.loads(answer("schedule", graph, "--json"))["schedule"]
    see(answer("schedule", graph).splitlines(), firings, "FORMATS: the schedule as JSON")
    told, _ = run(METER / "graph.toml", "--json")
    lines = [f"{it['channel']} written {it['written']} taken {it['taken']} held {it['held']} peak {it['peak']} capacity {it['capacity']} "
             + ("open" if it["open"] else "closed") for it in json.loads(told)["channels"]]
    see(run(METER / "graph.toml")[0].splitlines(), [f"ending {json.loads(told)['ending']}", *lines], "FORMATS: the report as JSON")


def formats_streams() -> None:
    told, report = streamed(METER / "graph.toml", (METER / "line.in").read_text(), "--json", "--segment", "1")
    see(["ending", "channels", "clipped"], list(json.loads(report)), "FORMATS: the members of a stream's report")
    see([{"sink": "meter", "tokens": 0}], json.loads(report)["clipped"], "FORMATS: a sink that clipped no token")
    faults = (
        (METER / "graph.toml", lines(1, "x"), (), "csdf: tokens line: syntax at line 2"),
        (TOP / "examples" / "two_branches" / "graph.toml", "", (), "csdf: stream: DIR is needed: the graph has several sources"),
        (Path("-"), "", (), "csdf: stream: a graph file is needed: standard input has the tokens"),
    )
    for graph, tokens, words, line in faults:
        see(line + "\n", streamed(graph, tokens, *words)[1], "FORMATS: a fault of a stream")
        if line.startswith("csdf: stream") and f"`{line}`" not in FORMATS:
            say(f"FORMATS does not name {line}")


def filter_of(weights: str, shift: int, produce: int, tokens: str) -> str:
    """What a filter that reads all of three tokens writes."""
    (ROOM / "f.toml").write_text(
        'actor = [{ name = "a", kernel = "source" }, { name = "b", kernel = "sink" },\n'
        f'  {{ name = "f", kernel = "fir", weights = {weights}, shift = {shift} }}]\n'
        'channel = [{ name = "x", from = "a", to = "f", produce = [3], consume = [3] },\n'
        f'  {{ name = "y", from = "f", to = "b", produce = [{produce}], consume = [{produce}] }}]\n'
    )
    (ROOM / "a.in").write_text(tokens)
    return run(ROOM / "f.toml", folder=ROOM)[1].get("b.out", "")


def formats_kernels() -> None:
    see(lines(2, -4, -4), filter_of("[3, 4]", 2, 3, "1\n2\n-5\n"), "FORMATS: the filter")
    see(lines(2147483647, -2147483648), filter_of("[32767]", 0, 2, "2147483647\n-2147483648\n0\n"), "FORMATS: what is outside")


def formats_files() -> None:
    """A file called -, a part that is there already, links that lead nowhere, and a file for two sinks."""
    graph, whole = METER / "graph.toml", lines(35)
    here = ROOM / "files"
    here.mkdir()
    answer("run", graph, METER, "--out", here, "--journal", "-", at=here)
    see(["-", "meter.out"], sorted(it.name for it in here.iterdir()), "FORMATS: moves to a file called -")
    part = here / "meter.out.part"
    part.write_text("x" * 1000)
    answer("run", graph, METER, "--out", here)
    see((False, whole), (part.exists(), (here / "meter.out").read_text()), "FORMATS: a part that is there already")
    part.mkdir()
    for command in ("run", "stream"):
        see("csdf: device: meter.out\n", answer(command, graph, METER, "--out", here), f"FORMATS: a folder in the place of a part, {command}")
    see((True, whole), (part.is_dir(), (here / "meter.out").read_text()), "FORMATS: a folder in the place of a part")
    part.rmdir()
    for command in ("run", "stream"):
        (here / "meter.out").unlink()
        (here / "meter.out").symlink_to(f"led_to_by_{command}")
        answer(command, graph, METER, "--out", here)
        see(True, (here / f"led_to_by_{command}").read_text().startswith(whole), f"FORMATS: a link to nowhere, {command}")
        (here / "meter.out").unlink()
        (here / "meter.out").symlink_to("no_such_folder/file")
        see("csdf: device: meter.out\n", answer(command, graph, METER, "--out", here), f"FORMATS: a link to no folder, {command}")
    two = TOP / "tests" / "cli" / "runs" / "two_sinks"
    for name in ("first.out", "second.out"):
        (here / name).symlink_to("both")
    for command in ("run", "stream"):
        see("csdf: file in use: second.out\n", answer(command, two / "graph.toml", two / "tokens", "--out", here), f"FORMATS: a file for two sinks, {command}")


def formats_words() -> None:
    """Lines with bytes that are not shown, and words that are refused with the usage or without."""
    graph, here = METER / "graph.toml", ROOM / "words"
    here.mkdir()
    seen = ((b"4,5\r", "4,5"), (b"~ !", "~ !"), (b"x" * 40, "x" * 40))
    unseen = (b"x" * 41, b"4\t5", b"4\x7f", "é".encode(), b"\xff", b"4\r5")
    for line, shown in (*((line, f': "{text}"') for line, text in seen), *((line, "") for line in unseen)):
        (here / "line.in").write_bytes(b"1\n" + line + b"\n")
        told = answer("explain", graph, here).splitlines()[1]
        see(f"line reads {here}/line.in, whose line 2 is no whole number{shown}", told, f"FORMATS: the faulty line {line!r}")
    for text, shown in ((b"a = 1\nb = \x01 \xc3\xa9 " + b"x" * 300 + b"\n", True), (b"a = 1\nb = \xff\n", False)):
        (here / "graph.toml").write_bytes(text)
        told = subprocess.run([PROGRAM, "explain", here / "graph.toml"], capture_output=True).stdout.split(b"\n")
        see((b"csdf: graph: not TOML", shown), (told[0], text.split(b"\n")[1] in told), "FORMATS: a line that is no TOML")
    with_usage = (["fly"], ["run", graph], ["run", graph, METER, "--progress", "--progress"])
    without = (
        ["run", graph, METER, "--room", "0"],
        ["run", graph, METER, "--workers", "9"],
        ["run", graph, METER, "--workers"],
        ["run", graph, METER, "--until-dry", "--periods", "1"],
        ["stream", graph, "--out", here],
        ["stream", graph, "--format", "mp3"],
        [b"\xff"],
    )
    for words in (*with_usage, *without):
        has_usage = words in with_usage
        ran = subprocess.run([PROGRAM, *words], capture_output=True)
        see((2, b"", True, has_usage), (ran.returncode, ran.stdout, ran.stderr.startswith(b"error: "), b"\nUsage: " in ran.stderr), f"FORMATS: the words {words}")


def formats_explanations() -> None:
    tight = TOP / "tests" / "cli" / "cases" / "explain_too_tight" / "graph.toml"
    shows(FORMATS, answer("explain", tight), "FORMATS: too tight")
    shows(FORMATS, answer("explain", edited(tight, ("produce = [2]", "produce = [2, 1]"))), "FORMATS: phases")
    faulty = TOP / "tests" / "cli" / "cases" / "explain_tokens_syntax"
    shows(FORMATS, answer("explain", "graph.toml", "tokens", at=faulty), "FORMATS: a faulty token file")
    drawn = answer("dot", METER / "graph.toml").splitlines()
    shows(FORMATS, "\n".join(drawn[:3]), "FORMATS: the head of a drawing")
    see("}", drawn[-1], "FORMATS: the end of a drawing")
    shown = re.findall(r"^    (  n\d.*)$", FORMATS, re.M)
    see(3, len(shown), "FORMATS: lines of a drawing")
    for line in shown:
        if line not in drawn:
            say(f"FORMATS: the level meter's drawing has no line {line}")


def main() -> None:
    readme()
    examples()
    guide_excerpts()
    guide_patterns()
    guide_filters()
    guide_sound()
    guide_answers()
    guide_runs()
    guide_streams()
    guide_costs()
    guide_room()
    guide_cells()
    guide_capacities()
    formats_json()
    formats_streams()
    formats_kernels()
    formats_files()
    formats_words()
    formats_explanations()
    print("".join(f"{wrong}\n" for wrong in found), end="")


try:
    main()
finally:
    shutil.rmtree(ROOM)
