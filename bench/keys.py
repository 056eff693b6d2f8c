"""One-time keys, trees and signatures, computed apart from the program.

This is written from RFC 8439 (ChaCha20) and FIPS 180-4 (SHA-256, by `hashlib`), and shares nothing with the
crates: generators of examples and benchmarks import it, and expected values of tests come from it.

ChaCha20 has here a block counter of 64 bits and a stream number of 64 bits in the last four words of its
state, where RFC 8439 has a counter of 32 bits and a nonce of 96. Both read the state's words 12 to 15, so the
RFC's vectors apply with the words split differently.

Run as a program it checks itself against the block of RFC 8439, 2.3.2, and prints the root of one seed.
"""

import hashlib
import struct

BITS = 256
WORD = 0xFFFFFFFF
CONSTANTS = struct.unpack("<4I", b"expand 32-byte k")

# The words that each quarter round of a double round takes: four columns, then four diagonals.
QUARTERS = (
    (0, 4, 8, 12), (1, 5, 9, 13), (2, 6, 10, 14), (3, 7, 11, 15),
    (0, 5, 10, 15), (1, 6, 11, 12), (2, 7, 8, 13), (3, 4, 9, 14),
)


def sha256(data):
    """The SHA-256 digest of bytes."""
    return hashlib.sha256(data).digest()


def rotated(word, count):
    """The word of 32 bits, rotated to the left by so many bits."""
    return (word << count | word >> (32 - count)) & WORD


def chacha20_block(key, counter, stream):
    """The 64 bytes of one block: `key` has 32 bytes, `counter` and `stream` are numbers below 2^64."""
    start = CONSTANTS + struct.unpack("<8I", key) + struct.unpack("<4I", struct.pack("<2Q", counter, stream))
    x = list(start)
    for _ in range(10):
        for a, b, c, d in QUARTERS:
            for left, right in ((16, 12), (8, 7)):
                x[a] = (x[a] + x[b]) & WORD
                x[d] = rotated(x[d] ^ x[a], left)
                x[c] = (x[c] + x[d]) & WORD
                x[b] = rotated(x[b] ^ x[c], right)
    return struct.pack("<16I", *((word + first) & WORD for word, first in zip(x, start)))


def secrets(seed, leaf):
    """The 512 secrets of a leaf in order: those of bit 0, for the values 0 and 1, then those of bit 1."""
    stream = b"".join(chacha20_block(seed, counter, leaf) for counter in range(2 * BITS * 32 // 64))
    return [stream[at:at + 32] for at in range(0, len(stream), 32)]


def publics(seed, leaf):
    """The public digests of a leaf's secrets, in the same order."""
    return [sha256(secret) for secret in secrets(seed, leaf)]


def public_leaf(seed, leaf):
    """The digest of a leaf."""
    return sha256(b"\x00" + b"".join(publics(seed, leaf)))


def node(left, right):
    """The digest of two nodes side by side."""
    return sha256(b"\x01" + left + right)


def bit(digest, i):
    """Bit `i` of a digest, the highest bit of the first byte first."""
    return digest[i // 8] >> (7 - i % 8) & 1


def signed_digest(body):
    """The digest that is signed for a body."""
    return sha256(b"\x02" + body)


def pairs(seed, leaf, digest):
    """What a leaf shows for a digest: for each bit the secret of its value and the other public digest."""
    keys = secrets(seed, leaf)
    shown = []
    for i in range(BITS):
        value = bit(digest, i)
        shown += [keys[2 * i + value], sha256(keys[2 * i + 1 - value])]
    return b"".join(shown)


class Tree:
    """The tree of a seed: `levels[0]` are the leaves, and the last level is the root alone."""

    def __init__(self, seed, height):
        self.seed = seed
        self.height = height
        self.levels = [[public_leaf(seed, leaf) for leaf in range(2 ** height)]]
        while len(self.levels[-1]) > 1:
            below = self.levels[-1]
            self.levels.append([node(below[n], below[n + 1]) for n in range(0, len(below), 2)])

    @property
    def root(self):
        """The root's digest."""
        return self.levels[-1][0]

    def path(self, leaf):
        """The siblings on the way from a leaf up to the root."""
        return b"".join(level[(leaf >> height) ^ 1] for height, level in enumerate(self.levels[:-1]))

    def sign(self, leaf, body):
        """The bytes of the signature of a body by a leaf."""
        return (struct.pack(">IB", leaf, self.height)
                + pairs(self.seed, leaf, signed_digest(body)) + self.path(leaf))


def root_from(body, signature):
    """The root to which the bytes of a signature lead for a body."""
    leaf, height = struct.unpack(">IB", signature[:5])
    digest = signed_digest(body)
    shown = signature[5:5 + 64 * BITS]
    keys = []
    for i in range(BITS):
        both = [sha256(shown[64 * i:64 * i + 32]), shown[64 * i + 32:64 * i + 64]]
        keys += reversed(both) if bit(digest, i) else both
    climbed = sha256(b"\x00" + b"".join(keys))
    path = signature[5 + 64 * BITS:]
    for level in range(height):
        other = path[32 * level:32 * level + 32]
        climbed = node(other, climbed) if leaf >> level & 1 else node(climbed, other)
    return climbed


def check():
    """Compares with RFC 8439, 2.3.2, and signs with each leaf of a small tree."""
    key = bytes(range(32))
    # Counter 1 and nonce 00:00:00:09:00:00:00:4a:00:00:00:00 as the words 12 to 15 of the state.
    words = struct.pack("<I", 1) + bytes.fromhex("000000090000004a00000000")
    counter, stream = struct.unpack("<2Q", words)
    block = chacha20_block(key, counter, stream)
    assert block[:16].hex() == "10f1e7e4d13b5915500fdd1fa32071c4", block.hex()
    assert block[48:].hex() == "b5129cd1de164eb9cbd083e8a2503c4e", block.hex()
    tree = Tree(key, 2)
    for leaf in range(4):
        assert root_from(b"body", tree.sign(leaf, b"body")) == tree.root
        assert root_from(b"Body", tree.sign(leaf, b"body")) != tree.root
    return tree


if __name__ == "__main__":
    print("root", check().root.hex())
