"""The command: runs the program on an input and writes the page of its run."""

import os
import subprocess
import sys
from pathlib import Path

from .page import page
from .run import follow
from .scene import Scene, scene_of
from .topology import read_topology
from .trace import TraceFault, read_trace

MOST = 20_000  # records of a page
USAGE = "usage: bin/picture FILE [FIRST LAST] > run.html"
PROGRAM = Path(__file__).resolve().parents[2] / "bin" / "onepipe"
WRONG_WORDS, NO_INPUT, NO_PICTURE = 64, 66, 70


class WindowFault(Exception):
    """The words name no records of the run, or too many."""


def trace_of(data: bytes) -> tuple[int, bytes]:
    """The number that the program ends with and what it writes; its own line of a refusal goes through."""
    program = os.environ.get("ONEPIPE", str(PROGRAM))
    done = subprocess.run([program, "replay", "--trace"], input=data, stdout=subprocess.PIPE, check=False)
    return done.returncode, done.stdout



def window_of(words: list[str], count: int) -> range:
    """The records that are drawn: those that the words name, or all."""
    if not words:
        window = range(count)
    else:
        window = range(int(words[0]), int(words[1]) + 1)
        if not 0 <= window.start < window.stop <= count:
            raise WindowFault(f"the run has {count} records, counted from 0")
    if len(window) > MOST:
        raise WindowFault(f"{len(window)} records are too many for a page; name the first and the last of at most {MOST}")
    return window


def scene(data: bytes, text: bytes, words: list[str]) -> Scene:
    """The run of an input by the text of its trace, of which the words name some records."""
    records = read_trace(text.decode("ascii"))
    window = window_of(words, len(records))
    return scene_of(follow(read_topology(data), records), window)


def one_line(fault: object) -> str:
    return " ".join(str(fault).split())


def fail(number: int, line: str) -> int:
    print(line, file=sys.stderr)
    return number


def is_usage(words: list[str]) -> bool:
    """The name of a file, perhaps with two numbers behind it."""
    numbers = [word.isascii() and word.isdigit() and len(word) <= 9 for word in words[1:]]
    return len(words) in (1, 3) and not words[0].startswith("-") and all(numbers)


def write(text: str) -> int:
    """Writes the page; a reader that goes away is told like a full device."""
    try:
        sys.stdout.buffer.write(text.encode("utf-8"))
        sys.stdout.buffer.flush()
    except OSError as fault:
        os.dup2(os.open(os.devnull, os.O_WRONLY), sys.stdout.fileno())  # nothing more is written at the end
        return fail(NO_PICTURE, f"picture: {one_line(fault)}")
    return 0


def main(words: list[str]) -> int:
    if not is_usage(words):
        return fail(WRONG_WORDS, USAGE)
    path = Path(words[0])
    try:
        data = path.read_bytes()
        status, text = trace_of(data)
    except (OSError, ValueError) as fault:
        return fail(NO_INPUT, f"picture: {one_line(fault)}")
    if status != 0:
        return status
    try:
        title = os.fsencode(path.name).decode("utf-8", "replace")
        return write(page(title, scene(data, text, words[1:])))
    except WindowFault as fault:
        return fail(WRONG_WORDS, f"picture: {one_line(fault)}")
    except TraceFault as fault:
        return fail(NO_PICTURE, f"picture: {one_line(fault)}")
    except (ValueError, LookupError, TypeError, AttributeError, MemoryError) as fault:
        # The program wrote something else than a trace of this input, or Python reads its TOML in another way.
        return fail(NO_PICTURE, f"picture: the input or its trace can't be followed: {type(fault).__name__}: {one_line(fault)}")
