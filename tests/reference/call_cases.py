"""The stored script of calls: whole keys, signatures at the ends of the page, every refusal alone and with each later one, NIST's vectors.

Each call has the outcome that it is meant to have, so that a slip of the model is seen when the script is made.
"""
import hashlib
import sys
from itertools import combinations
from multiprocessing import Pool
from pathlib import Path

import limits
import nist
import signer
import xmss
from calls import Script
from chosen_path import chosen, flipped
from signer import page_with, with_mark

MATERIALS = [chosen("seed material of the signing key", 96), bytes(32) + b"\xff" * 32 + bytes(range(32))]
OTHER_TYPES = [2, 0, 3, 4, 0x101, 0x10001, 0x1000000, 0x1000001, 2 ** 31 + 1, 2 ** 32 - 1, 7]
SESSIONS = [0, 1, 2, 512, 1023, 1024, 1025, 2 ** 31, 2 ** 32 - 1]
# Where bytes begin and end, and the page does
COUNTS = [0, 1, 2, 7, 8, 9, 19, 511, 512, 513, 1015, 1016, 1017, 1022, 1023, 1024]
INDICES = [0, 1, 6, 7, 8, 511, 512, 1015, 1016, 1022, 1023]
# So many marks used, and one more behind an unused one: in the same byte, in the next one, at the page's end
GAPS = [(0, 1), (0, 7), (0, 8), (0, 1023), (1, 3), (6, 8), (7, 8), (8, 10), (8, 16), (19, 22), (500, 502), (500, 1023), (511, 513),
        (1014, 1015), (1015, 1016), (1015, 1023), (1021, 1023), (1022, 1023)]
SIGNATURES = [(0, 0), (0, 65536), (1, 1), (511, 65536), (511, 55), (1022, 0), (1023, 65536), (1023, 1)]


def prepared():
    """Makes the whole keys, side by side, for the model to find."""
    with Pool(2) as pool:
        signer.KEYS.update(zip(MATERIALS, pool.map(xmss.Key, MATERIALS, chunksize=1)))
    return signer.KEYS[MATERIALS[0]]


def bad_pages():
    for used in 0, 5, 1016, 1024:
        yield page_with(used)[:127]
        yield page_with(used)[:64]
        yield page_with(used) + b"\xff"
        yield page_with(used) + b"\0"
    yield b""
    for used, further in GAPS:
        yield with_mark(page_with(used), further)
    yield b"\x7f\x7f" + b"\xff" * 126
    yield b"\xbf" + b"\xff" * 127
    yield b"\xff" * 127 + b"\0"
    yield b"\xff" + bytes(127)
    yield bytes(63) + b"\x0f" + bytes(64)
    # Each byte turned round: marks counted from the least significant bit
    yield from (bytes([0x100 - (1 << used)]) + b"\xff" * 127 for used in range(1, 8))


def meant(answer, outcome):
    """An answer is an outcome, or begins with one."""
    given = answer if isinstance(answer, int) else answer[0]
    assert given == outcome, f"meant {outcome}, the model says {given}"


def making(script):
    for material in MATERIALS:
        meant(script.make(1, material), 0)
    good = {"kind": 1, "material": MATERIALS[0]}
    faults = [(1, "material", MATERIALS[0][:size]) for size in (95, 0, 1, 32)] + [(1, "material", MATERIALS[0] + b"\0")]
    faults += [(2, "kind", kind) for kind in OTHER_TYPES]
    faults += [(11, "record_bytes", size) for size in (131, 133, 0, 68, 2500)] + [(11, "key_bytes", size) for size in (0, 67, 132, 69)]
    refused(script.make, good, faults)


def refused(operation, good, faults):
    """Each fault alone. Then two at once, the first and the last fault of each number: the earlier in the operation's order is given."""
    for number, name, value in faults:
        meant(operation(**{**good, name: value}), number)
    order = list(dict.fromkeys(number for number, *_ in faults))
    by_number = [[fault for fault in faults if fault[0] == number] for number in order]
    ends = dict.fromkeys(fault for same in by_number for fault in (same[0], same[-1]))
    for (first, name, value), (second, other, further) in combinations(ends, 2):
        if name != other:
            meant(operation(**{**good, name: value, other: further}), min(first, second, key=order.index))


def reserving(script):
    for used in COUNTS:
        for session in SESSIONS:
            meant(script.reserve(page_with(used), session), 9 if session != 0 else 8 if used == 1024 else 0)
    for page in bad_pages():
        for session in 0, 1:
            meant(script.reserve(page, session), 7)


def marking(script):
    for index in INDICES:
        for used in range(max(0, index - 1), min(1024, index + 2) + 1):
            meant(script.mark(page_with(used), index + 1), 0 if used in (index, index + 1) else 10)
    for used in COUNTS:
        for session in SESSIONS:
            meant(script.mark(page_with(used), session), 0 if 0 < session <= 1024 and used in (session - 1, session) else 10)
    for page in bad_pages():
        zeros = signer.bits_of(page).count("0")
        for session in 0, zeros, zeros + 1, 1025:
            meant(script.mark(page, session), 7)


def signing(script, key):
    record, public_key = key.record(), key.public_key()
    for index, length in SIGNATURES:
        signed = script.sign(record, page_with(index + 1), index + 1, length)
        meant(signed, 0)
        meant(script.check(public_key, length, signed[2]), 0)
        meant(script.check(public_key, length, flipped(signed[2], 4 + 32 * index % 2496)), 6)
        meant(script.sign(record, page_with(index + 1), index + 1, 65537), 4)
        # The mark isn't stored
        meant(script.sign(record, page_with(index), index + 1, length), 10)


def sign_faults(record, used):
    """On a page where so many marks are used, and the last of them is pending."""
    other_type = xmss.to_byte(7, 4) + record[4:]
    yield from ((1, "record", wrong) for wrong in (record[:131], b"", record[:4], other_type[:131], other_type + b"\0", record + b"\0"))
    yield from ((2, "record", xmss.to_byte(kind, 4) + record[4:]) for kind in OTHER_TYPES)
    yield 4, "length", 65537
    yield from ((11, "out_bytes", size) for size in (2499, 0, 2692, 2820, 2501))
    yield from ((7, "page", with_mark(page_with(used - 1), further)) for further in (used, 1023))
    yield from ((7, "page", page) for page in (page_with(used)[:127], page_with(used) + b"\xff"))
    yield from ((10, "session", session) for session in (0, used - 1, used + 2, 1024, 1025, 2 ** 32 - 1, used + 1))


def signing_refused(script, record):
    good = {"record": record, "page": page_with(3), "session": 3}
    refused(script.sign, good, list(sign_faults(record, 3)))
    for page in bad_pages():
        meant(script.sign(record, page, signer.bits_of(page).count("0")), 7)
    for index in INDICES:
        for used in {max(0, index - 1), index, min(1024, index + 2)} - {index + 1}:
            meant(script.sign(record, page_with(used), index + 1), 10)
    for session in SESSIONS:
        for used in 0, 1024:
            if (used, session) != (1024, 1024):
                meant(script.sign(record, page_with(used), session), 10)


def checking(script):
    for (length, key, signature), outcome in limits.records():
        meant(script.check(key, length, signature), outcome)


def hashing(script):
    """NIST's digests, and hashlib's at lengths that NIST's files leave out, where the padding changes."""
    for name in "SHA256ShortMsg", "SHA256LongMsg":
        for message, digest in nist.messages(name):
            script.hash(message, digest)
    for seed, digest in nist.monte_carlo():
        script.hash_often(seed, digest)
    for length in 65, 119, 120, 127, 128:
        message = limits.message(length)
        script.hash(message, hashlib.sha256(message).digest())


def made(key):
    script = Script()
    making(script)
    reserving(script)
    marking(script)
    signing(script, key)
    signing_refused(script, key.record())
    checking(script)
    hashing(script)
    # The program reads it in one
    data, = script.pieces()
    return data, script.answers()


if __name__ == "__main__":
    crate = Path(sys.argv[1]) / "crates/call_script"
    for name, content in zip(("stdin", "stdout"), made(prepared())):
        (crate / name).write_bytes(content)
