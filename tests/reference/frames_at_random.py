"""Feeds the checking program with what nobody would write, and compares its answers with the independent program's.

Random inputs are changes of the stored ones. SEED in the environment gives another series than the usual one.
"""
import fcntl
import os
import random
import resource
import subprocess
import sys
import tempfile
import termios
import time
from functools import lru_cache
from pathlib import Path

import frames
import programs
from chosen_path import flipped

PROGRAM, CASES = programs.command("check_frames"), Path("tests/cases")
SAVED = Path("target/outside/frames-at-random.frames")
SEED = int(os.environ.get("SEED", "8391"))
SECONDS, MIB = 60, 2 ** 20
STACK, ADDRESS_SPACE, LONG_LINE = 1 * MIB, 16 * MIB, 24 * MIB
PIECES = [1, 7, 4095, 4096, 4097]
CHARACTERS = bytes(range(256)) + b"0123456789abcdef" * 20 + b"\n" * 40

# Inputs so short that their answers can be told by reading 01-scope.md
ENDS = {
    b"": b"", b"\n": b"1 12\n", b"\n\n": b"1 12\n2 12\n", b"0": b"1 12\n", b"0\n": b"1 12\n", b"00": b"1 12\n", b"\0": b"1 12\n",
    b"01": b"", b"01\n": b"", b"02": b"", b"02\n": b"", b"03": b"1 1\n", b"03\n": b"1 1\n", b"03\n\n": b"1 1\n2 12\n", b"03\r\n": b"1 12\n",
    b"\n03": b"1 12\n2 1\n", b"02\n03": b"2 1\n", b"02\n03\n0": b"2 1\n3 12\n", b"030": b"1 12\n", b"0x": b"1 12\n", b"\r": b"1 12\n",
}


def limit_room():
    resource.setrlimit(resource.RLIMIT_STACK, (STACK, STACK))
    resource.setrlimit(resource.RLIMIT_AS, (ADDRESS_SPACE, ADDRESS_SPACE))


def whole(data):
    return subprocess.run(PROGRAM, input=data, stdout=subprocess.PIPE, timeout=SECONDS, check=True).stdout


def in_little_room(data):
    """From a file, with less memory than a long line has characters. An emulator needs memory of its own: there the stack alone is small."""
    room = {"env": os.environ | {"QEMU_STACK_SIZE": str(STACK)}} if programs.EMULATED else {"preexec_fn": limit_room}
    with tempfile.TemporaryFile() as source:
        source.write(data)
        source.seek(0)
        return subprocess.run(PROGRAM, stdin=source, stdout=subprocess.PIPE, timeout=SECONDS, check=True, **room).stdout


def untaken(pipe):
    return int.from_bytes(fcntl.ioctl(pipe, termios.FIONREAD, bytes(4)), sys.byteorder)


def in_pieces(data, size):
    """Each piece is written once the one before has been taken, so that the program's reads end where the pieces do."""
    until = time.monotonic() + SECONDS
    with tempfile.TemporaryFile() as out, subprocess.Popen(PROGRAM, stdin=subprocess.PIPE, stdout=out, bufsize=0) as program:
        try:
            for start in range(0, len(data), size):
                while untaken(program.stdin):
                    if program.poll() is not None or time.monotonic() > until:
                        raise subprocess.SubprocessError("it takes no more input")
                    os.sched_yield()
                program.stdin.write(data[start:start + size])
            program.stdin.close()
            if program.wait(SECONDS) != 0:
                raise subprocess.CalledProcessError(program.returncode, PROGRAM)
        finally:
            program.kill()
        out.seek(0)
        return out.read()


def compare(what, data, feed, *how):
    """Ends the test at the first difference, with all that is needed to see it again."""
    try:
        answered, said = feed(data, *how), "its answers differ"
    except (subprocess.SubprocessError, OSError) as error:
        answered, said = None, str(error).rstrip(".")
    if answered != frames.answers(data):
        SAVED.parent.mkdir(parents=True, exist_ok=True)
        SAVED.write_bytes(data)
        sys.exit(f"{what}, SEED={SEED}, {feed.__name__} {how}: {said}; the input is in {SAVED}")


def signatures():
    """The stored signature frames, each with its key, its message and its outcome."""
    lines = (CASES / "signatures.frames").read_bytes().split(b"\n")
    outcomes = dict(map(int, answer.split()) for answer in (CASES / "signatures.answers").read_text().splitlines())
    latest = {frames.KEY: b"01", frames.MESSAGE: b"02"}
    for number, line in enumerate(lines, 1):
        frame = frames.frame_of(line)
        if frame and frame[0] == frames.SIGNATURE:
            yield [latest[frames.KEY], latest[frames.MESSAGE], line], outcomes[number]
        elif frame:
            latest[frame[0]] = line


def every_part(key, message, line):
    """One bit changed in the index, in r and in each chain value and path node, and the whole signature at last."""
    signature = bytes.fromhex(line.decode())[1:]
    places = [3] + [place + place // 32 % 32 for place in range(4, len(signature), 32)]
    damaged = [b"03" + flipped(signature, place, place % 8).hex().encode() for place in places]
    data = b"\n".join([key, message] + damaged + [line])
    assert [answer.split()[1] for answer in frames.answers(data).splitlines()] == [b"6"] * len(places) + [b"0"]
    return data


def changed(chance, data):
    place = chance.randrange(len(data) + 1)
    character = bytes([chance.choice(CHARACTERS)])
    return chance.choice([
        data[:place] + character + data[place + 1:],
        data[:place] + character + data[place:],
        data[:place] + data[place + 1:],
        data[:place],
        data[place:] + data[:place],
        data + data[place:],
    ])


def changed_lines(chance, short):
    data = b"\n".join(chance.choices(short, k=chance.randint(1, 9))) + chance.choice([b"", b"\n"])
    for _ in range(chance.randint(0, 4)):
        data = changed(chance, data)
    return data


def changed_signature(chance, stored):
    """One digit changed in the key, the message or the signature: most of these are frames still."""
    lines = list(chance.choice(stored)[0])
    which = chance.randrange(3)
    place = chance.randrange(2, len(lines[which])) if len(lines[which]) > 2 else 1
    lines[which] = lines[which][:place] + bytes([chance.choice(b"0123456789abcdef")]) + lines[which][place + 1:]
    return b"\n".join(lines)


def near_limit(chance, good):
    """Lines of about the longest frame's length, and a good signature that shows what was kept."""
    key, message, line = good
    lines = [chance.choice([b"01", b"02", b"03", b"04"]) + b"5" * (2 * frames.LONGEST_FRAME + chance.randint(-4, 3)) for _ in range(2)]
    return b"\n".join([key, message] + lines + [line, key, line])


def fixed(good):
    for data, answer in ENDS.items():
        assert frames.answers(data) == answer, data
        yield data
    key, message, line = good[1]
    yield b"\n".join([key, message, line, b"03" + b"a" * LONG_LINE, line, b"\xff" * LONG_LINE])
    yield b"\n" * 70000 + b"\n".join([key, message, line]) + b"\n02" * 70000 + b"\n" + line
    yield from (every_part(*lines) for lines in good.values())


def at_random(chance, stored, good):
    lines = b"\n".join((CASES / f"{name}.frames").read_bytes() for name in ("signatures", "lines")).split(b"\n")
    short = [line for line in lines if 0 < len(line) < 200] + [b""] * 5
    for _ in range(400):
        for _ in range(5):
            yield changed_lines(chance, short)
        yield bytes(chance.choices(CHARACTERS, k=chance.randint(1, 300)))
        yield changed_signature(chance, stored)
    for _ in range(40):
        yield near_limit(chance, good)


def main():
    print(f"SEED={SEED}", flush=True)
    # The same frames come again and again, and a check takes this program 10 ms
    frames.check = lru_cache(maxsize=None)(frames.check)
    chance = random.Random(SEED)
    stored = list(signatures())
    good = {int(lines[0][2:10], 16): lines for lines, outcome in stored if outcome == 0}
    for number, data in enumerate(fixed(good), 1):
        compare(f"fixed input {number}", data, in_little_room)
    for number, data in enumerate(at_random(chance, stored, good[1]), 1):
        compare(f"random input {number}", data, whole)
        if number % 8 == 0:
            compare(f"random input {number}", data, in_pieces, chance.choice(PIECES if len(data) < 20000 else PIECES[1:]))
    for name in "signatures", "lines":
        for size in PIECES[2:]:
            compare(f"{name}.frames", (CASES / f"{name}.frames").read_bytes(), in_pieces, size)
    print(f"{number} random inputs, an eighth of them in pieces too: every answer is the independent program's")


if __name__ == "__main__":
    main()
