"""Writes the stored inputs of the checking program with their answers, and the users' example, under the folder $1."""
import sys
from pathlib import Path

import line_cases
import signature_cases
from chosen_path import Key, flipped
from runs import Run

TABLE = b"""layout table 31, stack plan
bay 12 row 04 tier 82: UN1202 class 3
bay 12 row 06 tier 82: UN1950 class 2.1
bay 14 row 04 tier 84: empty
"""


def whole_run():
    """The run that 01-scope.md gives in full."""
    run = Run()
    run.key(bytes.fromhex("00000007") + bytes(64))
    run.message(b"")
    run.signature(b"\0", 2)
    run.key(bytes.fromhex("00000001") + bytes(64))
    run.signature(b"\0", 3)
    run.no_frame(b"0")
    return run


def yard():
    """A good table, a damaged copy, and the accident of the yard: a key of a type that the checker doesn't know."""
    run, key = Run(), Key("yard", 1, 31)
    signature = key.sign(TABLE)
    run.key(key.public_key())
    run.message(TABLE)
    run.signature(signature, 0)
    run.signature(flipped(signature, 1200), 6)
    run.key(key.public_key(kind=4))
    run.signature(signature, 2)
    return run


def store(run, input_file, answers_file, end=b"\n"):
    input_file.write_bytes(run.data(end))
    answers_file.write_bytes(run.answers())


if __name__ == "__main__":
    root = Path(sys.argv[1])
    program, cases = root / "crates/check_frames", root / "tests/cases"
    store(whole_run(), program / "stdin", program / "stdout")
    store(signature_cases.made(), cases / "signatures.frames", cases / "signatures.answers", end=b"")
    store(line_cases.made(), cases / "lines.frames", cases / "lines.answers", end=b"")
    (root / "examples/yard.frames").write_bytes(yard().data())
