"""HCH, written from 01-scope.md and the paper on HCH, source document 001;
what a key is, from Point 3 of 02-change-requests.md.

The letters and the order of the steps are those of the paper's Table II; in
the names, C_m is C with the index m. Strings are bytes objects: "here n is
128 and every length is a whole number of bytes". Lengths are in bits, as in
the paper. A string of n bits is a block, and field.py has the block as an
int: the same digits read as a big-endian number.

A call that is not done raises Refused, with its number in 01.
"""

import functools
import random

import aes
import field
from aes import xor

N = 128  # the paper's n
LEAST, MOST = 16, 4096  # bytes: "an admitted length is 16 to 4,096 bytes"
TOO_SHORT = 3  # "data under 16 bytes"
KEY_LENGTHS = (16, 32)  # bytes: "must accept 16 or 32 bytes"


class Refused(Exception):
    """A call that was not done; its number is that of 01's table."""

    def __init__(self, number):
        super().__init__(f"number {number}")
        self.number = number


def look_at_key(key):
    """What every call looks at first: "number 1 now means a key of neither
    length".
    """
    if len(key) not in KEY_LENGTHS:
        raise Refused(1)


def look_at(key, tweak, data, least=LEAST, too_short=TOO_SHORT):
    """"Where several conditions hold, the first in the order below is the one
    returned": "HCH looks at 1, 2, 3, 4 in this order". The scheme of
    forward.py has another least length, and another number for less.
    """
    look_at_key(key)
    if len(tweak) != 16:
        raise Refused(2)
    if len(data) < least:
        raise Refused(too_short)
    if len(data) > MOST:
        raise Refused(4)


def binary(i):
    """bin_n(i): "l as a 16-byte big-endian number"."""
    return i.to_bytes(N // 8, "big")


def pad(t, string):
    """pad_t: the string and then t zero bits."""
    return string + bytes(t // 8)


def drop(t, string):
    """drop_t: the string without its last t bits."""
    return string[:len(string) - t // 8]


def formatting(data):
    """Table I: l, m and r, with l = n(m - 1) + r and r from 1 to n, and the
    list of the m blocks, of which the last has r bits.
    """
    l = 8 * len(data)
    m = (l + N - 1) // N
    r = l - N * (m - 1)
    assert 1 <= r <= N
    step = N // 8
    return l, m, r, [data[step * i:step * (i + 1)] for i in range(m)]


def times_x(block):
    """xQ, for the block Q."""
    return binary(field.times_x(int.from_bytes(block, "big")))


@functools.cache  # a call hashes twice with one R
def powers(R, m):
    """The powers of R from 0 to m - 1, each from the one before it."""
    result = [1]
    while len(result) < m:
        result.append(field.product(result[-1], R))
    return result


def polynomial_hash(R, Q, A):
    """H with R and Q over the blocks A_1 to A_m, by the paper's formula (1):
    Q and A_1 and, for i from 2 to m, A_i times R to the power m - i + 1.
    """
    R, Q, *A = (int.from_bytes(block, "big") for block in (R, Q, *A))
    m = len(A)
    power = powers(R, m)
    result = Q ^ A[0]
    for i in range(2, m + 1):
        result ^= field.product(A[i - 1], power[m - i + 1])
    return binary(result)


def counter(K, S, A):
    """Ctr with K and S over the blocks A_1, A_2, .., by the paper's formula
    (3): A_i and the block cipher of S_i, where S_i is S xor bin(i). The list
    starts with the second block of the data, so that this is 01's "for i from
    2 to m the block is exclusive-ored with E(S xor bin(i - 1))".
    """
    return [xor(block, aes.cipher(K, xor(S, binary(i))))
            for i, block in enumerate(A, start=1)]


def encipher(K, T, data):
    """Table II, left column: P is P_2 to P_(m-1), and C is C_2 to C_(m-1).
    With m = 1 "steps 2, 5 and 6 do nothing".
    """
    look_at(K, T, data)
    l, m, r, blocks = formatting(data)
    # 1
    R = aes.cipher(K, T)
    Q = aes.cipher(K, xor(R, binary(l)))
    if m == 1:
        [P_1] = blocks
        M_1 = polynomial_hash(R, Q, [P_1])
        U_1 = aes.cipher(K, M_1)
        return polynomial_hash(R, times_x(Q), [U_1])
    # 2
    P_1, *P, P_m = blocks
    M_m = pad(N - r, P_m)
    # 3
    M_1 = polynomial_hash(R, Q, [P_1, *P, M_m])
    # 4
    U_1 = aes.cipher(K, M_1)
    I = xor(M_1, U_1)
    S = aes.cipher(K, I)
    # 5
    *C, D_m = counter(K, S, [*P, M_m])
    # 6
    C_m = drop(N - r, D_m)
    U_m = pad(N - r, C_m)
    # 7
    C_1 = polynomial_hash(R, times_x(Q), [U_1, *C, U_m])
    # 8
    return b"".join([C_1, *C, C_m])


def decipher(K, T, data):
    """Table II, right column: C is C_2 to C_(m-1), and P is P_2 to P_(m-1).
    With m = 1 "steps 2, 5 and 6 do nothing".
    """
    look_at(K, T, data)
    l, m, r, blocks = formatting(data)
    # 1
    R = aes.cipher(K, T)
    Q = aes.cipher(K, xor(R, binary(l)))
    if m == 1:
        [C_1] = blocks
        U_1 = polynomial_hash(R, times_x(Q), [C_1])
        M_1 = aes.inv_cipher(K, U_1)
        return polynomial_hash(R, Q, [M_1])
    # 2
    C_1, *C, C_m = blocks
    U_m = pad(N - r, C_m)
    # 3
    U_1 = polynomial_hash(R, times_x(Q), [C_1, *C, U_m])
    # 4
    M_1 = aes.inv_cipher(K, U_1)
    I = xor(M_1, U_1)
    S = aes.cipher(K, I)
    # 5
    *P, V_m = counter(K, S, [*C, U_m])
    # 6
    P_m = drop(N - r, V_m)
    M_m = pad(N - r, P_m)
    # 7
    P_1 = polynomial_hash(R, Q, [M_1, *P, M_m])
    # 8
    return b"".join([P_1, *P, P_m])


def number_of(key, tweak, data, directions=(encipher, decipher)):
    """The number of the refusal, the same both ways, or 0."""
    numbers = []
    for direction in directions:
        try:
            direction(key, tweak, data)
            numbers.append(0)
        except Refused as refused:
            numbers.append(refused.number)
    assert numbers[0] == numbers[1]
    return numbers[0]


def check():
    """The examples P9 to P11 of 01, its edges, property (2) of the paper, and
    that the two directions undo each other.
    """
    rng = random.Random("hch: check")
    zeros, ones = bytes(16), b"\xff" * 16
    K, T, longer = rng.randbytes(16), rng.randbytes(16), rng.randbytes(32)

    for length, digits in ((20, "a0"), (512, "1000"), (4096, "8000")):  # P9
        assert binary(formatting(bytes(length))[0]).hex() == digits.zfill(32)

    data = bytes(range(1, 21))
    l, m, r, blocks = formatting(data)  # P10
    assert m == 2 and blocks == [data[:16], data[16:]] and len(blocks[1]) == 4
    assert pad(N - r, blocks[1]) == data[16:] + bytes(12)
    assert drop(N - r, pad(N - r, blocks[1])) == blocks[1]
    # "17 bytes has a last block of 1 byte."
    assert [len(block) for block in formatting(bytes(17))[3]] == [16, 1]
    for length, count in ((16, 1), (17, 2), (32, 2), (33, 3), (4096, 256)):
        assert formatting(bytes(length))[1] == count

    for m in (1, 2, 3, 9):
        for R in (zeros, ones, rng.randbytes(16)):
            Q, *A = (rng.randbytes(16) for _ in range(1 + m))
            B_1 = polynomial_hash(R, Q, A)
            assert polynomial_hash(R, Q, [B_1, *A[1:]]) == A[0]  # (2)
            if R == zeros or m == 1:
                assert B_1 == xor(Q, A[0])  # P11; and with m = 1 "no sum"
            # The field's own sum, with powers made by squaring.
            assert B_1 == xor(xor(Q, A[0]), binary(field.power_sum(
                int.from_bytes(R, "big"),
                [int.from_bytes(block, "big") for block in A[1:]])))

    # One block: E between the two masks, Q and xQ.
    P_1 = rng.randbytes(16)
    for key in (K, longer):
        Q = aes.cipher(key, xor(aes.cipher(key, T), binary(128)))
        assert encipher(key, T, P_1) == xor(
            times_x(Q), aes.cipher(key, xor(Q, P_1)))

    for key in (zeros, ones, K, 2 * zeros, 2 * ones, longer):
        for tweak in (zeros, ones, T):
            for length in (16, 17, 31, 32, 33, 47, 48, 100):
                data = rng.randbytes(length)
                enciphered = encipher(key, tweak, data)
                assert len(enciphered) == length
                assert decipher(key, tweak, enciphered) == data
                assert encipher(key, tweak, decipher(key, tweak, data)) == data
    # "16 bytes and 4,096 bytes are enciphered."
    data = rng.randbytes(MOST)
    assert decipher(K, T, encipher(K, T, data)) == data
    for key in (K, longer):
        check_numbers(key, T)


def check_numbers(K, T, directions=(encipher, decipher), least=LEAST,
                  too_short=TOO_SHORT):
    """The table's small examples, and the order of the numbers."""
    def number(*call):
        return number_of(*call, directions)

    zeros = bytes(least)
    for length in range(65):
        assert number(bytes(length), T, zeros) == (
            0 if length in (16, 32) else 1)
    assert number(K, b"", zeros) == 2
    for length in range(least):
        assert number(K, T, bytes(length)) == too_short
    assert number(K, T, bytes(4097)) == 4
    for data in (bytes(least - 1), zeros, bytes(4097)):
        assert number(b"", b"", data) == number(b"", T, data) == 1
        assert number(K, b"", data) == 2
