"""A script of calls for the program call_script, each with the line that the independent model says must be printed.

A script begins with 65,537 bytes, from which every message is the first so many. A call has eight numbers of 4 bytes (which call, its
type or session, what fills the out buffers, the message's length, the lengths of two out buffers and of two inputs), then the inputs.
"""
import hashlib
import subprocess

import frames
import programs
import signer
from limits import LONGEST, message
from xmss import to_byte

PROGRAM, SECONDS = programs.command("call_script"), 300
MAKE, RESERVE, MARK, SIGN, CHECK, HASH, HASH_OFTEN = range(1, 8)
# What the program reads at most, and the longest buffer that it prints byte by byte
ROOM, SHORT = 524288, 200


def call(which, number=0, fill=0, length=0, outs=(0, 0), inputs=(b"", b"")):
    numbers = which, number, fill, length, *outs, *map(len, inputs)
    return b"".join(to_byte(n, 4) for n in numbers) + b"".join(inputs)


def shown(data):
    return (data if len(data) <= SHORT else hashlib.sha256(data).digest()).hex()


class Script:
    def __init__(self):
        self.calls, self.lines = [], []

    def add(self, data, name, *fields):
        self.calls.append(data)
        self.lines.append(" ".join([name, *map(str, fields)]))

    def fill(self):
        """Another byte for each call, so that what an earlier one left can't pass for this one's."""
        return (37 * len(self.calls) + 90) % 256

    def make(self, kind, material, record_bytes=132, key_bytes=68):
        fill = self.fill()
        made = signer.make(kind, material, bytes([fill]) * record_bytes, bytes([fill]) * key_bytes)
        self.add(call(MAKE, kind, fill, 0, (record_bytes, key_bytes), (material, b"")), "make", made[0], *map(shown, made[1:]))
        return made

    def reserve(self, page, session):
        reserved = signer.reserve(page, session)
        self.add(call(RESERVE, session, inputs=(page, b"")), "reserve", *reserved)
        return reserved

    def mark(self, page, session):
        marked = signer.mark(page, session)
        self.add(call(MARK, session, inputs=(page, b"")), "mark", *marked[:2], shown(marked[2]))
        return marked

    def sign(self, record, page, session, length=0, out_bytes=2500):
        fill = self.fill()
        signed = signer.sign(record, page, session, message(length), bytes([fill]) * out_bytes)
        out = signed[2].hex() if signed[0] == 0 else shown(signed[2])
        self.add(call(SIGN, session, fill, length, (out_bytes, 0), (record, page)), "sign", *signed[:2], out)
        return signed

    def check(self, key, length, signature):
        outcome = frames.check(key, message(length), signature)
        self.add(call(CHECK, length=length, inputs=(key, signature)), "check", outcome)
        return outcome

    def hash(self, data, digest):
        self.add(call(HASH, inputs=(data, b"")), "hash", digest.hex())

    def hash_often(self, seed, digest):
        """A thousand times, as NIST's Monte Carlo test does."""
        self.add(call(HASH_OFTEN, inputs=(seed, b"")), "hash_often", digest.hex())

    def answers(self):
        return "".join(line + "\n" for line in self.lines).encode()

    def pieces(self):
        """Inputs that the program can read whole, with all calls in their order."""
        piece, size = [LONGEST], len(LONGEST)
        for data in self.calls:
            if size + len(data) > ROOM:
                yield b"".join(piece)
                piece, size = [LONGEST], len(LONGEST)
            piece.append(data)
            size += len(data)
        yield b"".join(piece)


def printed(script):
    """What the program prints for a script, line by line."""
    lines = []
    for piece in script.pieces():
        run = subprocess.run(PROGRAM, input=piece, stdout=subprocess.PIPE, timeout=SECONDS, check=True)
        lines += run.stdout.decode().splitlines()
    return lines
