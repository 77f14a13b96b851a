"""Writes the sixteen checks that the benchmark times, in the layout of struct check in bench.h."""
import sys

import xmss
from chosen_path import Key, chosen

CHECKS = 16


def compressions(key, message):
    """What a check needs with the seed prepared once. Then a key or a mask is one compression, F two and H three."""
    digest = xmss.H_msg(key.r + key.root + xmss.to_byte(key.index, 32), message)
    steps = sum(xmss.W - 1 - d for d in xmss.digits(digest))
    joins = xmss.LEN - 1 + key.height
    padded = (128 + len(message) + 9 + 63) // 64
    return 1 + padded + (2 + 2) * steps + (3 + 3) * joins


def record(number):
    key = Key(f"bench {number}", index=(389 * number + 5) % 1024)
    message = chosen(f"bench {number}: message")
    signature = key.sign(message)
    assert xmss.verify(key.public_key(), message, signature)
    return key.public_key() + message + signature + xmss.to_byte(compressions(key, message), 2)


for number in range(CHECKS):
    sys.stdout.buffer.write(record(number))
