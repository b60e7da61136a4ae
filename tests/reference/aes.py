"""AES, written from FIPS 197 alone.

A block, a state and a word are bytes objects. The byte in row r and column c
of a state is the byte r + 4c, so a column is four neighbouring bytes. The
length of the key, 4 Nk bytes, decides the number of rounds: 10, 12 or 14.
Which of these lengths a key has here, hch.py says.
"""

import functools


def multiply(a, b):
    """a times b in the field of 256, reduced by 11b (hexadecimal)."""
    result = 0
    while b:
        if b & 1:
            result ^= a
        a <<= 1
        if a & 0x100:
            a ^= 0x11b
        b >>= 1
    return result


def inverse(a):
    """The byte whose product with a is 1, by search; 0 is sent to 0."""
    return next((b for b in range(256) if multiply(a, b) == 1), 0)


def affine(b):
    """Bit i of the result is the sum of bits i, i + 4, .., i + 7 of b, the
    places taken modulo 8, and of bit i of 63 (hexadecimal)."""
    result = 0x63
    for i in range(8):
        for step in (0, 4, 5, 6, 7):
            result ^= (b >> (i + step) % 8 & 1) << i
    return result


BOX = bytes(affine(inverse(a)) for a in range(256))
INV_BOX = bytes(BOX.index(a) for a in range(256))

# The products of a factor of MixColumns or its inverse with each byte: made
# once, for speed.
PRODUCTS = [bytes(multiply(a, b) for b in range(256)) for a in range(16)]


def xor(a, b):
    assert len(a) == len(b)
    sum_of_both = int.from_bytes(a, "big") ^ int.from_bytes(b, "big")
    return sum_of_both.to_bytes(len(a), "big")


def key_expansion(key):
    """The 4 (Nr + 1) words of the expanded key."""
    nk = len(key) // 4
    assert len(key) == 4 * nk and nk in (4, 6, 8)
    words = [key[4 * i:4 * i + 4] for i in range(nk)]
    constant = 1
    for i in range(nk, 4 * (nk + 7)):
        word = words[-1]
        if i % nk == 0:
            word = sub_bytes(word[1:] + word[:1])
            word = xor(word, bytes([constant, 0, 0, 0]))
            constant = multiply(constant, 2)
        elif nk > 6 and i % nk == 4:
            word = sub_bytes(word)
        words.append(xor(words[-nk], word))
    return words


@functools.cache  # many cases share a key
def round_keys(key):
    """The expanded key in blocks of four words, one for each AddRoundKey."""
    words = key_expansion(key)
    return [b"".join(words[i:i + 4]) for i in range(0, len(words), 4)]


def sub_bytes(state):
    return state.translate(BOX)


def inv_sub_bytes(state):
    return state.translate(INV_BOX)


def shift_rows(state):
    """Row r moves r places to the left."""
    return bytes(state[r + 4 * ((c + r) % 4)]
                 for c in range(4) for r in range(4))


def inv_shift_rows(state):
    """Row r moves r places to the right."""
    return bytes(state[r + 4 * ((c - r) % 4)]
                 for c in range(4) for r in range(4))


def times_matrix(state, a, b, c, d):
    """Each column times the matrix with the rows abcd, dabc, cdab, bcda."""
    a, b, c, d = PRODUCTS[a], PRODUCTS[b], PRODUCTS[c], PRODUCTS[d]
    result = []
    for i in range(0, 16, 4):
        w, x, y, z = state[i:i + 4]
        result += [a[w] ^ b[x] ^ c[y] ^ d[z],
                   d[w] ^ a[x] ^ b[y] ^ c[z],
                   c[w] ^ d[x] ^ a[y] ^ b[z],
                   b[w] ^ c[x] ^ d[y] ^ a[z]]
    return bytes(result)


def mix_columns(state):
    return times_matrix(state, 0x02, 0x03, 0x01, 0x01)


def inv_mix_columns(state):
    return times_matrix(state, 0x0e, 0x0b, 0x0d, 0x09)


def cipher(key, block):
    first, *middle, last = round_keys(key)
    state = xor(block, first)
    for round_key in middle:
        state = xor(mix_columns(shift_rows(sub_bytes(state))), round_key)
    return xor(shift_rows(sub_bytes(state)), last)


def inv_cipher(key, block):
    first, *middle, last = round_keys(key)
    state = xor(block, last)
    for round_key in reversed(middle):
        state = xor(inv_sub_bytes(inv_shift_rows(state)), round_key)
        state = inv_mix_columns(state)
    return xor(inv_sub_bytes(inv_shift_rows(state)), first)


# Appendices B, C.1 and C.3 of FIPS 197: key, plaintext, ciphertext.
EXAMPLES = [tuple(map(bytes.fromhex, example)) for example in (
    ("2b7e151628aed2a6abf7158809cf4f3c", "3243f6a8885a308d313198a2e0370734",
     "3925841d02dc09fbdc118597196a0b32"),
    ("000102030405060708090a0b0c0d0e0f", "00112233445566778899aabbccddeeff",
     "69c4e0d86a7b0430d8cdb78070b4c55a"),
    ("000102030405060708090a0b0c0d0e0f101112131415161718191a1b1c1d1e1f",
     "00112233445566778899aabbccddeeff", "8ea2b7ca516745bfeafc49904b496089"),
)]

# Appendices A.1 and A.3: key, and the last four words of the expanded key.
# The key of A.1 is that of appendix B.
EXPANSIONS = [
    (EXAMPLES[0][0], bytes.fromhex("d014f9a8c9ee2589e13f0cc8b6630ca6")),
    (bytes.fromhex("603deb1015ca71be2b73aef0857d7781"
                   "1f352c073b6108d72d9810a30914dff4"),
     bytes.fromhex("fe4890d1e6188d0b046df344706c631e")),
]


def check():
    """The examples P6 to P8 of 01, and those of FIPS 197."""
    assert multiply(0x57, 0x83) == 0xc1  # P6
    assert multiply(0x57, 0x02) == 0xae  # P7
    assert BOX[0x00] == 0x63 and BOX[0x53] == 0xed  # P8
    for a in range(256):
        assert INV_BOX[BOX[a]] == BOX[INV_BOX[a]] == a

    for key, last in EXPANSIONS:
        assert b"".join(key_expansion(key)[-4:]) == last
    for length, rounds in ((16, 10), (24, 12), (32, 14)):
        assert len(key_expansion(bytes(length))) == 4 * (rounds + 1)

    # Appendix C.2 has the plaintext of C.1 and a key of 24 bytes.
    between = (bytes(range(24)), EXAMPLES[1][1],
               bytes.fromhex("dda97ca4864cdfe06eaf70a0ec0d7191"))
    for key, plain, enciphered in (*EXAMPLES, between):
        assert cipher(key, plain) == enciphered
        assert inv_cipher(key, enciphered) == plain
