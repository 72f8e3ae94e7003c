#!/usr/bin/env python3
"""Sees that `csdf stream` reads and writes raw samples of each format as FORMATS says: through a filter that
doubles each token, in segments of several lengths, from a pipe that is filled in odd pieces. A number that the
format does not have becomes the nearest of its ends, and is counted. Samples that are cut off end it.

usage: samples.py PROGRAM        prints what is wrong, a line each; nothing where all is well
"""
import json
import os
import subprocess
import sys
import tempfile
import threading
from pathlib import Path

PROGRAM = sys.argv[1]
# The bytes of a sample, whether it has a sign, and which byte comes first.
FORMATS = {
    "u8": (1, False, "little"),
    "s8": (1, True, "little"),
    "s16le": (2, True, "little"),
    "s16be": (2, True, "big"),
    "s32le": (4, True, "little"),
    "s32be": (4, True, "big"),
}
GRAPH = """actor = [
  { name = "src", kernel = "source" },
  { name = "twice", kernel = "fir", weights = [2], shift = 0 },
  { name = "snk", kernel = "sink" },
]
channel = [
  { name = "x", from = "src", to = "twice", produce = [1], consume = [1] },
  { name = "y", from = "twice", to = "snk", produce = [1], consume = [1] },
]
"""


def ends(size: int, signed: bool) -> tuple[int, int]:
    """The least and the greatest number of so many bytes."""
    bits = 8 * size
    return (-(2 ** (bits - 1)), 2 ** (bits - 1) - 1) if signed else (0, 2**bits - 1)


def near(number: int, least: int, greatest: int) -> int:
    return max(least, min(greatest, number))


def numbers(least: int, greatest: int) -> list[int]:
    """The ends, the numbers beside their halves and beside 0, and some between."""
    chosen = [least, greatest, *(it + by for it in (least // 2, 0, greatest // 2) for by in (-1, 0, 1))]
    state = 1
    for _ in range(90):
        state = (state * 1103515245 + 12345) % 2**31
        chosen.append(least + state * (greatest - least) // 2**31)
    return [it for it in chosen if least <= it <= greatest]


def bytes_of(tokens: list[int], size: int, signed: bool, order: str) -> bytes:
    return b"".join(it.to_bytes(size, order, signed=signed) for it in tokens)


def streamed(given: bytes, piece: int, words: list[str]) -> tuple[int, bytes, str]:
    """What a stream answers whose input comes in such pieces: its status, standard output and standard error."""
    process = subprocess.Popen(
        [PROGRAM, "stream", "graph.toml", *words], stdin=subprocess.PIPE, stdout=subprocess.PIPE, stderr=subprocess.PIPE, cwd=ROOM
    )

    def give() -> None:
        try:
            for at in range(0, len(given), piece):
                os.write(process.stdin.fileno(), given[at : at + piece])
            process.stdin.close()
        except BrokenPipeError:
            pass

    giver = threading.Thread(target=give)
    giver.start()
    told = []
    teller = threading.Thread(target=lambda: told.append(process.stderr.read()))
    teller.start()
    out = process.stdout.read()
    teller.join()
    giver.join()
    return process.wait(), out, told[0].decode()


def see(what: str, given: object, wanted: object) -> None:
    if given != wanted:
        print(f"{what}: {given!r}, wanted {wanted!r}")


def see_format(name: str) -> None:
    size, signed, order = FORMATS[name]
    least, greatest = ends(size, signed)
    tokens = numbers(least, greatest)
    doubled = [near(2 * it, *ends(4, True)) for it in tokens]
    clipped = sum(it != near(it, least, greatest) for it in doubled)
    given = bytes_of(tokens, size, signed, order)
    wanted = bytes_of([near(it, least, greatest) for it in doubled], size, signed, order)
    for segment, piece in ((["--segment", "1"], 1), (["--segment", "7"], 3), (["--segment", "64"], 5), ([], 1000)):
        words = ["--format", name, *segment]
        what = " ".join(words)
        status, out, told = streamed(given, piece, words)
        see(f"{what}: its status", status, 0)
        see(f"{what}: what is written", out.hex(), wanted.hex())
        lines = told.splitlines()
        see(f"{what}: its ending", lines[:1], ["ending dry"])
        see(f"{what}: what is clipped", lines[3:], [f"snk clipped {clipped}"] if clipped else [])
        status, out, told = streamed(given, piece, [*words, "--json"])
        see(f"{what}: the object's status, and what is written", (status, out.hex()), (0, wanted.hex()))
        see(f"{what}: what the object has", json.loads(told)["clipped"], [{"sink": "snk", "tokens": clipped}])
    for missing in range(1, size):
        whole = len(tokens) - 1
        status, out, told = streamed(given[: len(given) - missing], 1, ["--format", name, "--segment", "3"])
        see(f"{name} without {missing} of its bytes", (status, told), (1, f"csdf: tokens src: cut off at sample {whole + 1}\n"))
        see(f"{name} without {missing} of its bytes: what is written", out.hex(), wanted[: whole // 3 * 3 * size].hex())


def see_text() -> None:
    tokens = numbers(*ends(4, True))
    given = "".join(f"{it:+}\r\n" if at % 3 else f"\t{it} \n\n" for at, it in enumerate(tokens)).encode()
    wanted = "".join(f"{near(2 * it, *ends(4, True))}\n" for it in tokens)
    for segment, piece in ((["--segment", "1"], 1), (["--segment", "5"], 7), ([], 1000)):
        status, out, told = streamed(given, piece, segment)
        see(f"text {segment}", (status, out.decode()), (0, wanted))
        see(f"text {segment}: the lines of its report", len(told.splitlines()), 3)


with tempfile.TemporaryDirectory() as folder:
    ROOM = Path(folder)
    (ROOM / "graph.toml").write_text(GRAPH)
    for each in FORMATS:
        see_format(each)
    see_text()
