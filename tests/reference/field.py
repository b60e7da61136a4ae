"""The field of 2^128, written from 01-scope.md alone.

An element is a Python int. "The most significant bit of its first byte is
the coefficient of the power 127 of x, and the least significant bit of its
last byte is the coefficient of the power 0": so the int is the block read as
a big-endian number, and bit i of it is the coefficient of the power i.
"Addition is exclusive or": it is written ^ here.
"""

import random

ONES = (1 << 128) - 1
TOP = 1 << 127  # the block 80 then fifteen 00
POLYNOMIAL = sum(1 << power for power in (128, 7, 2, 1, 0))


def to_text(a):
    """The block in 32 lower-case hexadecimal digits, first byte first."""
    return a.to_bytes(16, "big").hex()


def times_x(a):
    """a times x: "multiplying by x shifts the block left by one bit, and,
    where a one falls out, exclusive-ors 87 (hexadecimal) into the last byte".
    """
    shifted = (a << 1) & ONES
    return shifted ^ 0x87 if a & TOP else shifted


def product(a, b):
    """a times b: "products are reduced by the polynomial with the powers 128,
    7, 2, 1 and 0". First the whole product of the two polynomials, of powers
    up to 254; only then the reduction, from the highest power down.
    """
    whole = 0
    for i in range(128):
        if b >> i & 1:
            whole ^= a << i
    for i in range(254, 127, -1):
        if whole >> i & 1:
            whole ^= POLYNOMIAL << (i - 128)
    return whole


def power(a, n):
    """a to the power n, n from 0 on, by squaring; the power 0 is 1."""
    result = 1
    while n:
        if n & 1:
            result = product(result, a)
        a = product(a, a)
        n >>= 1
    return result


def power_sum(r, blocks):
    """The keyed sum in H: "the sum of A_2 to A_m, each times its own power of
    R, the powers being m - 1 down to 1". The list holds A_2 to A_m, so its
    length is m - 1: the first block has the power m - 1 and the last the
    power 1. With m = 1 "there is no sum": it is 0.
    """
    total = 0
    m = len(blocks) + 1
    for i, block in enumerate(blocks, start=2):
        total ^= product(block, power(r, m + 1 - i))
    return total


def check():
    """The examples P1 to P5 of 01, and laws that any such field obeys."""
    rng = random.Random("field: check")
    some = [0, 1, 2, 0x87, TOP, ONES]
    some += [rng.getrandbits(128) for _ in range(4)]

    assert times_x(1) == 2  # P1
    assert times_x(TOP) == 0x87  # P2
    assert product(TOP, 2) == 0x87  # P3
    for a in some:
        assert product(a, 0) == product(0, a) == 0  # P4
        assert product(a, 1) == product(1, a) == a  # P5

    for a in some:
        assert product(a, 2) == times_x(a)
        # Every element but 0 has an inverse, so this really is a field.
        assert power(a, 2 ** 128 - 1) == (1 if a else 0)
        for b in some:
            assert product(a, b) == product(b, a)
            for c in some:
                assert product(product(a, b), c) == product(a, product(b, c))
                assert product(a, b ^ c) == product(a, b) ^ product(a, c)

    for r in some:
        square = product(r, r)
        assert power(r, 0) == 1 and power(r, 1) == r
        assert power(r, 2) == square and power(r, 3) == product(square, r)
        assert power_sum(r, []) == 0
        assert power_sum(r, [1, 0, 0]) == power(r, 3)
        assert power_sum(r, [0, 1, 0]) == square
        assert power_sum(r, [0, 0, 1]) == r
        # One block more: the sum so far and the block, both times R.
        assert power_sum(r, some) == product(
            power_sum(r, some[:-1]) ^ some[-1], r)
    assert power_sum(0, some) == 0  # P11, without its Q xor A_1
