"""Making, reserving, marking and signing as 01-scope.md has them, written from that paper alone. Pages are read as text of bits."""
import xmss

SERVED, MARKS = 1, 1024
MATERIAL_BYTES, RECORD_BYTES, KEY_BYTES, PAGE_BYTES, SIGNATURE_BYTES = 96, 132, 68, 128, 2500
LONGEST_MESSAGE = 65536

# By their seed material: a whole tree takes half a minute
KEYS = {}


def whole_key(material):
    if material not in KEYS:
        KEYS[material] = xmss.Key(material)
    return KEYS[material]


def page_with(used):
    """The page on which so many marks are used."""
    return xmss.to_byte((1 << MARKS - used) - 1, PAGE_BYTES)


def with_mark(page, index):
    """The page with one more mark used, wherever it stands."""
    bits = bits_of(page)
    return xmss.to_byte(int(bits[:index] + "0" + bits[index + 1:], 2), PAGE_BYTES)


def bits_of(page):
    return "".join(f"{byte:08b}" for byte in page)


def used_marks(page):
    """How many marks are used, or None where that can't be told."""
    bits = bits_of(page)
    return bits.count("0") if len(page) == PAGE_BYTES and "10" not in bits else None


def make(kind, material, record, key):
    """The outcome, and what is in the two buffers then."""
    if len(material) != MATERIAL_BYTES:
        return 1, record, key
    if kind != SERVED:
        return 2, record, key
    if len(record) != RECORD_BYTES or len(key) != KEY_BYTES:
        return 11, record, key
    made = whole_key(material)
    return 0, made.record(), made.public_key()


def reserve(page, session):
    """The outcome, the session, the place and the new value of the byte to store."""
    used = used_marks(page)
    if used is None:
        return 7, session, 0, 0
    if session != 0:
        return 9, session, 0, 0
    if used == MARKS:
        return 8, session, 0, 0
    place = used // 8
    return 0, used + 1, place, with_mark(page, used)[place]


def mark(page, session):
    """The outcome, the session, and the page then."""
    used = used_marks(page)
    if used is None:
        return 7, session, page
    if not 1 <= session <= MARKS or used not in (session - 1, session):
        return 10, session, page
    return 0, session, with_mark(page, session - 1)


def sign_refusal(record, page, session, message, out):
    if len(record) != RECORD_BYTES:
        return 1
    if int.from_bytes(record[:4], "big") != SERVED:
        return 2
    if len(message) > LONGEST_MESSAGE:
        return 4
    if len(out) != SIGNATURE_BYTES:
        return 11
    used = used_marks(page)
    if used is None:
        return 7
    return 0 if 1 <= session <= MARKS and used == session else 10


def sign(record, page, session, message, out):
    """The outcome, the session, and what is in the out buffer then."""
    outcome = sign_refusal(record, page, session, message, out)
    if outcome != 0:
        return outcome, session, out
    key = whole_key(record[4:100])
    assert key.record() == record, "this model signs with records that were made"
    return 0, 0, key.sign(session - 1, message)
