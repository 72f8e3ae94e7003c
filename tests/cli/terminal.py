#!/usr/bin/env python3
"""Sees what `csdf` tells on standard error where standard input is a terminal: without words that it waits for a
graph file, and where help is. With words, or where standard input is a file, a pipe or closed, it tells nothing.

usage: terminal.py PROGRAM        prints what is wrong, a line each; nothing where all is well
"""
import os
import pty
import subprocess
import sys
import tempfile
from pathlib import Path

PROGRAM = sys.argv[1]
TOP = Path(__file__).resolve().parent.parent.parent
GRAPH = (TOP / "crates" / "csdf" / "stdin").read_bytes()
REPLIES = (TOP / "crates" / "csdf" / "stdout").read_bytes()
WAITING = b"csdf: waiting for a graph file on standard input; 'csdf --help' tells the commands\n"


def say(what: str, status: int, out: bytes, err: bytes) -> None:
    print(f"{what}: status {status}, standard output {out!r}, standard error {err!r}")


def at_terminal(typed: bytes, *words: str) -> tuple[int, bytes, bytes]:
    """The program in a terminal of its own, in which these bytes are typed and then the end of the input."""
    master, slave = pty.openpty()
    process = subprocess.Popen([PROGRAM, *words], stdin=slave, stdout=subprocess.PIPE, stderr=subprocess.PIPE)
    os.close(slave)
    # The end is seen at the beginning of a line alone; one is typed at a time, and each is taken before the next.
    for line in typed.splitlines(keepends=True):
        os.write(master, line)
    os.write(master, b"\x04")
    out, err = process.communicate(timeout=60)
    os.close(master)
    return process.returncode, out, err


def beside(given, *words: str) -> tuple[int, bytes, bytes]:
    ran = subprocess.run([PROGRAM, *words], stdin=given, capture_output=True, timeout=60)
    return ran.returncode, ran.stdout, ran.stderr


def look(what: str, found: tuple[int, bytes, bytes], wanted: tuple[int, bytes, bytes]) -> None:
    if found != wanted:
        say(what, *found)


def main() -> None:
    no_graph = b"csdf: graph: shape at file\n"
    look("no words in a terminal", at_terminal(GRAPH), (0, REPLIES, WAITING))
    look("an empty file in a terminal", at_terminal(b""), (1, b"", WAITING + no_graph))
    look("moves of standard input in a terminal", at_terminal(GRAPH, "moves", "-"), (0, REPLIES, b""))
    status, out, err = at_terminal(b"", "--version")
    if status != 0 or err:
        say("--version in a terminal", status, out, err)
    with tempfile.TemporaryFile() as file:
        file.write(GRAPH)
        file.seek(0)
        look("a file", beside(file), (0, REPLIES, b""))
    look("no device", beside(subprocess.DEVNULL), (1, b"", no_graph))
    ran = subprocess.run([PROGRAM], input=GRAPH, capture_output=True, timeout=60)
    look("a pipe", (ran.returncode, ran.stdout, ran.stderr), (0, REPLIES, b""))
    closed = subprocess.run(["bash", "-c", '"$0" <&-', PROGRAM], capture_output=True, timeout=60)
    if closed.stdout or WAITING in closed.stderr:
        say("closed", closed.returncode, closed.stdout, closed.stderr)


main()
