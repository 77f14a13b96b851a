"""Writes what the fuzzer starts from to the folder $1: signatures and pairs of the independent program, and seeds/, a file an input.

The signatures are the stored ones that are accepted, and one of a message of 65,536 bytes. The pairs are
those of the stored script of calls.
"""
import sys
from pathlib import Path

import call_cases
import limits
import xmss

OPERATIONS, WAYS, CHECK = range(5), range(2), 4
# Zeros choose what an honest caller gives; each of these bytes in place of one chooses something else, as choices.hpp has it
HONEST = bytes(16)
OTHER = [8, 9, 10, 12, 13, 14, 15, 130, 135, 150, 170, 199, 200, 230, 255]
# In a check, after the signature's number: the key as it is, and one bit changed in the signature's last byte
LAST_BYTE_DAMAGED = bytes([0, 193, 64])


def accepted():
    """The key, message and signature of each stored frame whose answer is 0."""
    answers = dict(map(int, line.split()) for line in Path("tests/cases/signatures.answers").read_text().splitlines())
    latest = {"01": "", "02": ""}
    for number, line in enumerate(Path("tests/cases/signatures.frames").read_text().splitlines(), 1):
        if number not in answers:
            latest[line[:2]] = line[2:]
        elif answers[number] == 0:
            yield tuple(map(bytes.fromhex, (latest["01"], latest["02"], line[2:])))


def at_the_limit():
    length, key, signature = limits.signed(65536)
    return key, limits.message(length), signature


def pairs():
    """Material, record, key, index, message and signature of each signature in the stored script of calls."""
    lines = [line.split() for line in Path("crates/call_script/stdout").read_text().splitlines()]
    _, _, record, key = next(line for line in lines if line[:2] == ["make", "0"])
    signatures = [line[3] for line in lines if line[:2] == ["sign", "0"]]
    for (index, length), signature in zip(call_cases.SIGNATURES, signatures, strict=True):
        made = bytes.fromhex(record), bytes.fromhex(key)
        yield call_cases.MATERIALS[0], *made, xmss.to_byte(index, 4), limits.message(length), bytes.fromhex(signature)


def seeds(signatures):
    """From C and from C++: an honest call of each operation, such calls with one thing wrong, and checks of each signature."""
    for way in WAYS:
        for operation in OPERATIONS:
            first = bytes([len(OPERATIONS) * way + operation])
            yield first + HONEST
            yield from (first + HONEST[:place] + bytes([other]) + HONEST[place:] for place in range(len(HONEST)) for other in OTHER)
        for number in range(signatures):
            check = bytes([len(OPERATIONS) * way + CHECK, number])
            yield check
            yield check + LAST_BYTE_DAMAGED + bytes([number % 8])


def fields(records):
    return b"".join(xmss.to_byte(len(field), 4) + field for record in records for field in record)


if __name__ == "__main__":
    folder = Path(sys.argv[1])
    (folder / "seeds").mkdir(parents=True, exist_ok=True)
    signatures = [at_the_limit(), *accepted()]
    (folder / "signatures").write_bytes(fields(signatures))
    (folder / "pairs").write_bytes(fields(pairs()))
    inputs = list(seeds(len(signatures)))
    for place, seed in enumerate(inputs):
        (folder / "seeds" / f"{place:04}").write_bytes(seed)
    print(f"{len(signatures)} signatures, {len(call_cases.SIGNATURES)} pairs, {len(inputs)} seeds")
