"""XMSS of RFC 8391 with SHA-256 and n = 32, written from the document alone: an independent reader and signer.

Algorithm numbers are RFC 8391's. Nothing here follows the Rattle code: trees are computed by levels, addresses are
lists of eight words, and hashlib does the hashing. The secret values follow the customer's rule (01-scope.md).
"""
import hashlib

N, W, LEN_1, LEN_2 = 32, 16, 64, 3
LEN = LEN_1 + LEN_2
HEIGHTS = {1: 10, 2: 16, 3: 20}


def to_byte(x, size):
    return x.to_bytes(size, "big")


def keyed(number, key, data):
    return hashlib.sha256(to_byte(number, 32) + key + data).digest()


def F(key, data):
    return keyed(0, key, data)


def H(key, data):
    return keyed(1, key, data)


def H_msg(key, data):
    return keyed(2, key, data)


def PRF(key, data):
    return keyed(3, key, data)


class Address:
    """2.5. Setting the type clears the words after it."""

    def __init__(self, layer=0, tree=0):
        self.words = [layer, tree >> 32, tree & 0xFFFFFFFF, 0, 0, 0, 0, 0]

    def typed(self, kind, *words):
        other = Address()
        other.words = self.words[:3] + [kind] + list(words) + [0] * (4 - len(words))
        return other

    def selected(self, key_and_mask):
        return b"".join(to_byte(w, 4) for w in self.words[:7] + [key_and_mask])


def xor(a, b):
    return bytes(x ^ y for x, y in zip(a, b))


def base_w(data, size):
    """Algorithm 1."""
    halves = [half for byte in data for half in (byte >> 4, byte & 15)]
    return halves[:size]


def digits(message):
    message_digits = base_w(message, LEN_1)
    checksum = sum(W - 1 - d for d in message_digits)
    return message_digits + base_w(to_byte(checksum << 4, 2), LEN_2)


def chain(x, start, steps, seed, at, leaf, number):
    """Algorithm 2."""
    for j in range(start, start + steps):
        address = at.typed(0, leaf, number, j)
        x = F(PRF(seed, address.selected(0)), xor(x, PRF(seed, address.selected(1))))
    return x


def rand_hash(left, right, seed, address):
    """Algorithm 7."""
    key, mask_0, mask_1 = (PRF(seed, address.selected(k)) for k in range(3))
    return H(key, xor(left, mask_0) + xor(right, mask_1))


def ltree(values, seed, at, leaf):
    """Algorithm 8."""
    height = 0
    while len(values) > 1:
        joined = [rand_hash(values[2 * i], values[2 * i + 1], seed, at.typed(1, leaf, height, i)) for i in range(len(values) // 2)]
        values = joined + values[len(values) // 2 * 2:]
        height += 1
    return values[0]


def secret_value(secret_seed, leaf, number):
    return PRF(PRF(secret_seed, to_byte(leaf, 32)), to_byte(number, 32))


def one_time_signature(digest, secret_seed, seed, at, leaf):
    """Algorithm 5."""
    return [chain(secret_value(secret_seed, leaf, c), 0, d, seed, at, leaf, c) for c, d in enumerate(digits(digest))]


def leaf_of(secret_seed, seed, at, leaf):
    return ltree([chain(secret_value(secret_seed, leaf, c), 0, W - 1, seed, at, leaf, c) for c in range(LEN)], seed, at, leaf)


def levels(secret_seed, seed, height, at):
    """All nodes, a list for each height: what Algorithm 9 computes with a stack."""
    rows = [[leaf_of(secret_seed, seed, at, i) for i in range(2 ** height)]]
    for k in range(height):
        below = rows[-1]
        rows.append([rand_hash(below[2 * p], below[2 * p + 1], seed, at.typed(2, 0, k, p)) for p in range(len(below) // 2)])
    return rows


class Key:
    """Algorithm 10, from 96 bytes of seed material."""

    def __init__(self, material, kind=1):
        self.kind, self.height, self.at = kind, HEIGHTS[kind], Address()
        self.secret_seed, self.message_key, self.seed = material[:32], material[32:64], material[64:]
        self.rows = levels(self.secret_seed, self.seed, self.height, self.at)
        self.root = self.rows[-1][0]

    def public_key(self):
        return to_byte(self.kind, 4) + self.root + self.seed

    def record(self):
        return to_byte(self.kind, 4) + self.secret_seed + self.message_key + self.seed + self.root

    def sign(self, index, message):
        """Algorithms 11 and 12."""
        r = PRF(self.message_key, to_byte(index, 32))
        digest = H_msg(r + self.root + to_byte(index, N), message)
        values = one_time_signature(digest, self.secret_seed, self.seed, self.at, index)
        path = [self.rows[k][(index >> k) ^ 1] for k in range(self.height)]
        return to_byte(index, 4) + r + b"".join(values) + b"".join(path)


def root_from_signature(height, index, values, path, digest, seed, at):
    """Algorithm 13."""
    ends = [chain(values[c], d, W - 1 - d, seed, at, index, c) for c, d in enumerate(digits(digest))]
    node = ltree(ends, seed, at, index)
    for k in range(height):
        pair = (node, path[k]) if (index >> k) % 2 == 0 else (path[k], node)
        node = rand_hash(*pair, seed, at.typed(2, 0, k, index >> (k + 1)))
    return node


def parts(data):
    return [data[i:i + N] for i in range(0, len(data), N)]


def recomputed_root(key, message, signature):
    """What Algorithm 14 compares with the key's root, of a key of 68 bytes with a known type and a signature of that type's length."""
    height = HEIGHTS[int.from_bytes(key[:4], "big")]
    root, seed = key[4:36], key[36:]
    index, r = int.from_bytes(signature[:4], "big"), signature[4:36]
    digest = H_msg(r + root + to_byte(index, N), message)
    start = 36 + LEN * N
    return root_from_signature(height, index, parts(signature[36:start]), parts(signature[start:]), digest, seed, Address())


def verify(key, message, signature):
    """Algorithm 14."""
    return recomputed_root(key, message, signature) == key[4:36]
