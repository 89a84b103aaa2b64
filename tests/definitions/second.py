"""What the second implementation, the Rust program in tests/second, gives for a text and lent lengths.

It is built where that is not yet done, and one process of it answers all questions of a run. How a question and its answer look is
said in tests/second/src/ask.rs. What the print program writes is asked of `second plan`, a process for each text.
"""

import json
import subprocess
import sys
from collections import namedtuple
from functools import cache
from pathlib import Path

FOLDER = Path(__file__).resolve().parents[1] / "second"

# The lengths of the lent buffers. `print` is None for Plan, which borrows no print buffer.
Lent = namedtuple("Lent", "working order answer print")

# What a refused job leads to.
Refusal = namedtuple("Refusal", "number line")


class Accepted(namedtuple("Accepted", "order plan vias total maximum text walks brute")):
    """What an accepted job leads to: `order` holds the entries of the order list, (net number, lowest wanted layer, score); `plan` each
    net's layers in the order of its `edges` line, 0 for a dropped edge, nets in job order; `text` is the print; `walks` are each net's
    kept edges in walk order, by edge number; `brute` says whether the plan was held to demand 3 over all layerings of the job."""

    @property
    def ldof(self):
        """The number on the last line of the print, None where that is no `ldof` line."""
        key, number = self.text.splitlines()[-1].split("=")
        return int(number) if key == "ldof" else None


# The numbers in the table of refusals. "Refusal 7 never occurs from now on"
NUMBERS = [number for number in range(1, 14) if number != 7]

# "text above 1,048,576 bytes"
MOST_BYTES = 1_048_576

# "The print program reads standard input of at most 65,536 bytes (more gives 1, 0)"
MOST_INPUT = 65_536

# "It lends 16,384 working numbers, 4,096 order entries and 65,536 bytes each for answer and print"
PROGRAM_LENT = Lent(16_384, 4_096, 65_536, 65_536)


@cache
def built():
    """The program, built."""
    target = FOLDER / "target"
    subprocess.run(["cargo", "build", "--release", "--offline", "--quiet", "--manifest-path", FOLDER / "Cargo.toml",
                    "--target-dir", target], check=True)
    return target / "release" / "second"


@cache
def answering():
    """The process that answers; it ends with this one, when its input ends."""
    return subprocess.Popen([built(), "answer"], stdin=subprocess.PIPE, stdout=subprocess.PIPE)


def outcome(text, lent):
    """What a text, as bytes, and the lent lengths lead to: a Refusal or an Accepted."""
    process = answering()
    lengths = ["-" if length is None else str(length) for length in (*lent, len(text))]
    try:
        process.stdin.write(" ".join(lengths).encode() + b"\n" + text)
        process.stdin.flush()
        answer = json.loads(process.stdout.readline())
    except (BrokenPipeError, json.JSONDecodeError):
        sys.exit(f"second: no answer; lent {tuple(lent)}, a text of {len(text)} bytes that starts {text[:1000]!r}")
    if "number" in answer:
        return Refusal(**answer)
    answer["order"] = [tuple(entry) for entry in answer["order"]]
    return Accepted(**answer)


def program(text):
    """What the print program writes for its standard input."""
    return subprocess.run([built(), "plan", "-"], input=text, stdout=subprocess.PIPE, check=True).stdout.decode()
