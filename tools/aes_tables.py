#!/usr/bin/env python3
"""Derives the tables of crates/aes_core/src/nibbles.rt and specs/Nibbles.antt from the field of
AES alone, checks them over all bytes, and compares them with what stands in the two files.

Each byte has a code l + 16 h, where the nibbles l and h are elements of the subfield of 16
elements: the byte is element(l) + W element(h). The proof doesn't rest on this script: it computes
each table's meaning itself. Run it at the top of the repository; it changes nothing.
"""

import re
import sys


def times_x(b):
    return (b << 1) & 255 ^ (0x1B if b >> 7 else 0)


def product(a, b):
    total = 0
    while a:
        if a & 1:
            total ^= b
        a, b = a >> 1, times_x(b)
    return total


def power(b, n):
    total = 1
    for _ in range(n):
        total = product(total, b)
    return total


def affine(b):
    """The S-box's affine map without its constant."""
    bit = lambda i: b >> i % 8 & 1
    return sum((bit(i) ^ bit(i + 4) ^ bit(i + 5) ^ bit(i + 6) ^ bit(i + 7)) << i for i in range(8))


SBOX = [affine(power(b, 254)) ^ 0x63 for b in range(256)]
assert SBOX[0] == 0x63 and SBOX[0x53] == 0xED  # FIPS 197, 5.1.1


def nibble_product(a, b):
    """In the field of 16 elements, modulo x^4 + x + 1."""
    total = 0
    for i in range(4):
        if b >> i & 1:
            total ^= a << i
    for i in (6, 5, 4):
        if total >> i & 1:
            total ^= 0b10011 << i - 4
    return total


NIBBLE_INVERSE = [0] + [
    next(y for y in range(16) if nibble_product(x, y) == 1) for x in range(1, 16)
]

# The first of 64 choices: a root of x^4 + x + 1 among the bytes, so that nibbles are elements, and
# a root W of z^2 + 2 z + 2 over them, which has none there.
ROOT, W = 0x5C, 0xB2
TWO = 2


def element(nibble):
    return (
        (nibble & 1)
        ^ (ROOT if nibble & 2 else 0)
        ^ (power(ROOT, 2) if nibble & 4 else 0)
        ^ (power(ROOT, 3) if nibble & 8 else 0)
    )


assert power(ROOT, 4) ^ ROOT ^ 1 == 0
assert product(W, W) ^ product(element(TWO), W) ^ element(TWO) == 0


def decoded(code):
    return element(code & 15) ^ product(W, element(code >> 4))


CODE = {decoded(code): code for code in range(256)}
assert len(CODE) == 256

HALF = NIBBLE_INVERSE[TWO]


def first_share(place):
    """What the first quotient gives to the inverse: P + W (P + P / 2) / 2 with P its inverse."""
    p = NIBBLE_INVERSE[place]
    return element(p) ^ product(W, element(nibble_product(p ^ nibble_product(p, HALF), HALF)))


def second_share(place):
    """And the second: W Q / 4 with Q its inverse."""
    q = NIBBLE_INVERSE[place]
    return product(W, element(nibble_product(nibble_product(q, HALF), HALF)))


def table(entry):
    return [entry(i) for i in range(16)]


TABLES = {
    "INVERSE": [128] + NIBBLE_INVERSE[1:],
    "RATIO": [128] + [nibble_product(TWO, NIBBLE_INVERSE[n]) for n in range(1, 16)],
    "ENTER_LOW": table(lambda i: CODE[i]),
    "ENTER_HIGH": table(lambda i: CODE[16 * i]),
    "ONCE_FIRST": table(lambda i: CODE[affine(first_share(i))]),
    "ONCE_SECOND": table(lambda i: CODE[affine(second_share(i))]),
    "TWICE_FIRST": table(lambda i: CODE[product(2, affine(first_share(i)))]),
    "TWICE_SECOND": table(lambda i: CODE[product(2, affine(second_share(i)))]),
    "LAST_FIRST": table(lambda i: affine(first_share(i))),
    "LAST_SECOND": table(lambda i: affine(second_share(i))),
}
DEFINITIONS = {
    "low_codes": table(lambda i: decoded(i)),
    "high_codes": table(lambda i: decoded(16 * i)),
}


def looked_up(name, place):
    """As the vector instruction does it: 0 where the place's top bit is set."""
    assert place < 16 or place >= 128
    return 0 if place & 128 else TABLES[name][place & 15]


for byte in range(256):
    code = looked_up("ENTER_LOW", byte & 15) ^ looked_up("ENTER_HIGH", byte >> 4)
    assert code == CODE[byte]
    high, low = code >> 4, code & 15
    ratio = looked_up("RATIO", low)
    first = looked_up("INVERSE", looked_up("INVERSE", high) ^ ratio) ^ high ^ low
    second = looked_up("INVERSE", looked_up("INVERSE", high ^ low) ^ ratio) ^ high
    both = lambda name: looked_up(name + "_FIRST", first) ^ looked_up(name + "_SECOND", second)
    assert both("LAST") == SBOX[byte] ^ 0x63
    assert decoded(both("ONCE")) == SBOX[byte] ^ 0x63
    assert decoded(both("TWICE")) == product(2, SBOX[byte] ^ 0x63)


def numbers(text):
    return [int(word) for word in re.findall(r"\d+", text)]


def stands(path, patterns):
    source = open(path).read()
    same = True
    for name, (pattern, want) in patterns.items():
        found = re.search(pattern, source)
        if found is None or numbers(found.group(1)) != want:
            print(f"{name} isn't so in {path}: {want}")
            same = False
    return same


CODE_HAS = {n: (rf"const {n}: \[u8; 16\] = \[([^\]]*)\];", t) for n, t in TABLES.items()}
SPECS_HAVE = {n: (rf"{n} =\n([^\n]*)\[\]\n", t) for n, t in DEFINITIONS.items()}

if __name__ == "__main__":
    for name, entries in (TABLES | DEFINITIONS).items():
        print(name, entries)
    good = stands("crates/aes_core/src/nibbles.rt", CODE_HAS)
    good &= stands("crates/aes_core/specs/Nibbles.antt", SPECS_HAVE)
    print("the tables stand in the source" if good else "the tables differ from the source")
    sys.exit(0 if good else 1)
