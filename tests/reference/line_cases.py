"""Lines that are no frames, of every kind, among frames whose answers show that the key and the message were kept."""
from chosen_path import Key, chosen
from runs import Run

# A frame's limit in bytes, not taken from the program that the answers come from
LONGEST = 16384


def digits(size):
    """Content of a frame without a pattern, as digits."""
    return chosen("digits", size).hex().encode()


def one_digit_off(run):
    for line in b"0", b"1", b"2", b"3", b"f", b"010", b"020", b"030", b"03000", b"01" + digits(68)[1:]:
        run.no_frame(line)
    run.no_frame(b"03" + digits(2500) + b"0")
    run.no_frame(b"03" + digits(2500)[1:])


def other_first_byte(run):
    """Neighbours of 01 to 03, their half-bytes swapped, and the same with a high bit set."""
    for line in b"00", b"04", b"05", b"10", b"11", b"13", b"20", b"21", b"30", b"41", b"81", b"82", b"83", b"ff", b"0000", b"0400", b"ff03":
        run.no_frame(line)


def capitals(run):
    """Each would be a frame if capitals counted as digits, and the messages would replace the good one."""
    for line in b"02AB", b"02aB", b"02Ab", b"03FF", b"030A", b"0A", b"01ABCDEF":
        run.no_frame(line)


def next_to_digits(run):
    """The characters just before and after 0 to 9, a to f and A to F, as either digit of a byte."""
    for character in b"/", b":", b"`", b"g", b"@", b"G":
        run.no_frame(b"02" + character + b"0")
        run.no_frame(b"020" + character)
        run.no_frame(b"0" + character)
        run.no_frame(character + b"2")


def white_space(run):
    for line in b" ", b"  ", b" 0300", b"0300 ", b"03 00", b"0 300", b"03  ", b"\t", b"\t0300", b"0300\t", b"03\t\t", b"02\x0b\x0c":
        run.no_frame(line)


def carriage_returns(run):
    """A line feed alone ends a line; a carriage return before it belongs to the line."""
    for line in b"\r", b"\r\r", b"0300\r", b"02\r", b"02ab\r", b"0200\r0200", b"\r0200":
        run.no_frame(line)


def other_bytes(run):
    """NUL, bytes over 127, digits with the high bit set, digits and line ends of Unicode, a byte order mark."""
    for line in b"\0", b"\x000200", b"0200\0", b"02\0\0", b"02\x000", b"\x80", b"\xff", b"\xff\xff", b"02\xb0\xb0", b"\xb0\xb2", b"0\xb2":
        run.no_frame(line)
    run.no_frame(b"02\xe1\xe6")
    for line in "02０１", "02\u0660\u0661", "0200\u2028", "0200\u0085", "\ufeff0200", "02\u00e4b":
        run.no_frame(line.encode())


def prefixes_and_signs(run):
    for line in b"0x", b"0x0200", b"0X0200", b"x02", b"02h", b"+2", b"-2", b"02+1", b"02-1", b"02.0", b"02_0", b"02,03", b"#02", b"\\x02":
        run.no_frame(line)


def too_long(run):
    """One byte, one digit and many bytes over the limit, and a wrong character at the end of the longest line."""
    for first in b"01", b"02", b"03":
        run.no_frame(first + digits(LONGEST))
    run.no_frame(b"02" + digits(LONGEST - 1) + b"0")
    run.no_frame(b"02" + digits(LONGEST - 1) + b" ")
    run.no_frame(b"02" + digits(LONGEST - 1)[:-1] + b"g")
    run.no_frame(b"02" + digits(20000))
    run.no_frame(b"z" * 40000)


def longest_frames(run, key):
    """Each kind of frame at the limit. A good signature shows that no byte of the message was lost."""
    message = chosen("longest message", LONGEST - 1)
    run.message(message)
    run.signature(key.sign(message), 0)
    run.signature(chosen("longest signature", LONGEST - 1), 3)
    run.message(message[:-1])
    run.signature(key.sign(message[:-1]), 0)
    run.signature(key.sign(message), 6)
    run.key(chosen("longest key", LONGEST - 1))
    run.signature(key.sign(message), 1)


def shortest_frames(run, key):
    run.message(b"")
    run.key(key.public_key())
    run.signature(key.sign(b""), 0)
    run.signature(b"", 3)
    run.key(b"")
    run.signature(b"", 1)


def line_feeds_alone(run):
    """Enough for line numbers of four digits."""
    for _ in range(1000):
        run.no_frame(b"")


def made():
    """Ends in a line that is no frame and has no line feed behind it."""
    run, key, message = Run(), Key("kept", 1, 700), b"kept"
    signature = key.sign(message)
    run.no_frame(b"")
    run.key(key.public_key())
    run.message(message)
    for part in (
        one_digit_off, other_first_byte, capitals, next_to_digits, white_space, carriage_returns, other_bytes, prefixes_and_signs, too_long,
        line_feeds_alone,
    ):
        part(run)
        run.signature(signature, 0)
    longest_frames(run, key)
    shortest_frames(run, key)
    run.no_frame(b"030")
    return run
