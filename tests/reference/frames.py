"""The checking program of 01-scope.md, written from that paper alone: frames on standard input, answers on standard output."""
import sys

import xmss

KEY, MESSAGE, SIGNATURE = 1, 2, 3
KEY_BYTES, LONGEST_MESSAGE, LONGEST_FRAME = 68, 65536, 16384
NO_FRAME = 12
DIGITS = frozenset(b"0123456789abcdef")


def check(key, message, signature):
    """The outcome of checking. The order is the customer's: each condition counts where none before it holds."""
    if len(key) != KEY_BYTES:
        return 1
    height = xmss.HEIGHTS.get(int.from_bytes(key[:4], "big"))
    if height is None:
        return 2
    if len(signature) != 36 + (xmss.LEN + height) * xmss.N:
        return 3
    if len(message) > LONGEST_MESSAGE:
        return 4
    if int.from_bytes(signature[:4], "big") >= 2 ** height:
        return 5
    return 0 if xmss.verify(key, message, signature) else 6


def lines_of(data):
    """A line feed ends a line, and so does the end of input, but no line begins there."""
    *ended, rest = data.split(b"\n")
    return ended + [rest] if rest else ended


def frame_of(line):
    """The bytes of a frame, or None where the line is no frame. Nothing but digits may come near `fromhex`, which skips spaces."""
    if len(line) % 2 == 1 or not 2 <= len(line) <= 2 * LONGEST_FRAME or not DIGITS.issuperset(line):
        return None
    frame = bytes.fromhex(line.decode("ascii"))
    return frame if frame[0] in (KEY, MESSAGE, SIGNATURE) else None


def answers(data):
    latest = {KEY: b"", MESSAGE: b""}
    written = []
    for number, line in enumerate(lines_of(data), 1):
        frame = frame_of(line)
        if frame is None:
            written.append(b"%d %d\n" % (number, NO_FRAME))
        elif frame[0] == SIGNATURE:
            written.append(b"%d %d\n" % (number, check(latest[KEY], latest[MESSAGE], frame[1:])))
        else:
            latest[frame[0]] = frame[1:]
    return b"".join(written)


if __name__ == "__main__":
    sys.stdout.buffer.write(answers(sys.stdin.buffer.read()))
