"""The encryption-only scheme, written from its paper, source document 000, and
Point 5 of 02-change-requests.md: the paper's TES[MCTR, Poly, KeyDef1], "in its
form with the modified counter, polynomial hashing and the first key
definition".

The letters are the paper's: in the names, tau_ is its tau', and C_m is C with
the index m. The paper's Tables 1 and 2 are not in the text that we have. Their
steps are taken from sections 2 and 3.1, which give every quantity in them by
the plaintext and the ciphertext, and check_calls() goes the other way, from
the two texts back to every call of the block cipher. Strings, lengths and
refusals are as in hch.py.

Of the block cipher "the invertibility of E_K is not required in either the
construction or the proof" (section 2): E may be any function of a key and a
block, and check_not_invertible() has some that have no inverse.
"""

import functools
import hashlib
import random
import typing

import aes
import field
import hch
from aes import xor
from hch import MOST, N, binary, drop, formatting, look_at, pad

LEAST = 33  # bytes: "lengths are 33 to 4,096 bytes"; in the paper l > 2n
TOO_SHORT = 13  # "data under 33 bytes for this scheme"


class Keys(typing.NamedTuple):
    """What Table 3 defines."""
    tau: bytes
    tau_: bytes
    beta_1: bytes
    beta_2: bytes


def phi(beta, i):
    """phi_beta(i) = alpha^i beta (section 2, the function from a linear map),
    and "its primitive element is x in our field" (Point 5).
    """
    element = int.from_bytes(beta, "big")
    for _ in range(i):
        element = field.times_x(element)
    return binary(element)


def h(tau, X):
    """h_tau(X_1, .., X_m) = tau Poly_tau(X_1, .., X_m), by Horner's rule
    (section 2, usual polynomial hashing): X_1 has the power m of tau, and X_m
    the power 1.
    """
    tau = int.from_bytes(tau, "big")
    result = 0
    for X_i in X:
        result = field.product(result ^ int.from_bytes(X_i, "big"), tau)
    return binary(result)


def upsilon(tau, X):
    """Formula (1): (X_1 xor Z, X_2 xor Z), where Z = h_tau(X_3, .., X_m)."""
    X_1, X_2, *rest = X
    Z = h(tau, rest)
    return xor(X_1, Z), xor(X_2, Z)


def masked(beta, pair):
    """Both blocks of the pair and beta: section 3.1 has beta_1 in A_1 and in
    A_2, and beta_2 in B_1 and in B_2.
    """
    return tuple(xor(beta, block) for block in pair)


def key_def_1(E, T, l):
    """Table 3, KeyDef1, line by line."""
    # 1. gamma = E_K(T)
    gamma = E(T)
    # 2. beta_1 = E_K(gamma xor bin_n(l))
    beta_1 = E(xor(gamma, binary(l)))
    # 3. beta_2 = phi_beta_1(1)
    beta_2 = phi(beta_1, 1)
    # 4. tau = gamma
    tau = gamma
    # 5. tau' = E_K(phi_beta_1(2))
    tau_ = E(phi(beta_1, 2))
    return Keys(tau, tau_, beta_1, beta_2)


def feistel(E, tau_, A_1, A_2):
    """Table 2, from the variables F_1, F_2, G_1 and G_2 of section 3.1, where
    G_i is E_K(F_i).
    """
    # F_1 = h_tau'(A_1) xor A_2
    F_1 = xor(h(tau_, [A_1]), A_2)
    # G_1 = A_1 xor F_2
    F_2 = xor(A_1, E(F_1))
    # G_2 = B_2 xor F_1
    B_2 = xor(F_1, E(F_2))
    # F_2 = B_1 xor h_tau'(B_2)
    B_1 = xor(F_2, h(tau_, [B_2]))
    return B_1, B_2


def mctr(E, beta, S, X):
    """MCTR with K, beta and S (section 2, the basic modes): X_i and E_K(S_i),
    where S_i = phi_beta(i - 1) xor S. The list starts with the third block of
    the data, so that this is section 3.1's F_i = M xor phi_beta_1(i - 3).
    """
    return [xor(X_i, E(xor(phi(beta, i - 1), S)))
            for i, X_i in enumerate(X, start=1)]


def encipher(K, T, data, E=aes.cipher, key_def=key_def_1, mode=mctr):
    """Table 1, encryption: P is P_3 to P_(m-1), and C is C_3 to C_(m-1). The
    last two parameters are there for check_parts().
    """
    look_at(K, T, data, LEAST, TOO_SHORT)
    E = functools.partial(E, K)
    # "Parsing" (section 2)
    l, m, r, (P_1, P_2, *P, P_m) = formatting(data)
    # Table 3
    tau, tau_, beta_1, beta_2 = key_def(E, T, l)
    # M_m = pad_(n-r)(P_m) (section 3.1)
    M_m = pad(N - r, P_m)
    # A_1 and A_2 (section 3.1), by formula (1)
    A_1, A_2 = masked(beta_1, upsilon(tau, [P_1, P_2, *P, M_m]))
    # Table 2
    B_1, B_2 = feistel(E, tau_, A_1, A_2)
    # M = A_1 xor A_2 xor B_1 xor B_2 (section 3.1, MCtr)
    M = xor(xor(A_1, A_2), xor(B_1, B_2))
    # Mode_(K, beta_1, M) (section 2), and G_i = P_i xor C_i (section 3.1)
    *C, D_m = mode(E, beta_1, M, [*P, M_m])
    # C_m = First_r(D_m) (section 3.2), U_m = pad_(n-r)(C_m) (section 3.1)
    C_m = drop(N - r, D_m)
    U_m = pad(N - r, C_m)
    # C_1 and C_2, from B_1 and B_2 (section 3.1), by formula (1)
    C_1, C_2 = masked(beta_2, upsilon(tau, [B_1, B_2, *C, U_m]))
    return b"".join([C_1, C_2, *C, C_m])


def decipher(K, T, data, E=aes.cipher, key_def=key_def_1, mode=mctr):
    """Table 1, decryption: C is C_3 to C_(m-1), and P is P_3 to P_(m-1). Both
    the mode and section 3.1's F_i have beta_1 in this direction too.
    """
    look_at(K, T, data, LEAST, TOO_SHORT)
    E = functools.partial(E, K)
    # "Parsing" (section 2)
    l, m, r, (C_1, C_2, *C, C_m) = formatting(data)
    # Table 3, where l is "the length of the message (or ciphertext)"
    tau, tau_, beta_1, beta_2 = key_def(E, T, l)
    # U_m = pad_(n-r)(C_m) (section 3.1)
    U_m = pad(N - r, C_m)
    # B_1 and B_2 (section 3.1), by formula (1)
    B_1, B_2 = masked(beta_2, upsilon(tau, [C_1, C_2, *C, U_m]))
    # "If the two input blocks are swapped then decryption can be done using
    # the encryption module" (Table 2)
    A_2, A_1 = feistel(E, tau_, B_2, B_1)
    # M = A_1 xor A_2 xor B_1 xor B_2 (section 3.1, MCtr)
    M = xor(xor(A_1, A_2), xor(B_1, B_2))
    # Mode_(K, beta_1, M) (section 2), and G_i = P_i xor C_i (section 3.1)
    *P, V_m = mode(E, beta_1, M, [*C, U_m])
    # V_m of section 3.1, cut as in section 3.2, and M_m = pad_(n-r)(P_m)
    P_m = drop(N - r, V_m)
    M_m = pad(N - r, P_m)
    # P_1 and P_2, from A_1 and A_2 (section 3.1), by formula (1)
    P_1, P_2 = masked(beta_1, upsilon(tau, [A_1, A_2, *P, M_m]))
    return b"".join([P_1, P_2, *P, P_m])


def zero(K, block):
    """A function in the place of AES under which each board is left as it
    was: every key of Table 3 is 0, and the Feistel structure gives its two
    blocks back.
    """
    return bytes(16)


# Functions in the place of AES that have no inverse: two constants, one that
# forgets half of the bits, and one that forgets all but two bytes.
NOT_INVERTIBLE = (
    zero,
    lambda K, block: bytes(range(16)),
    lambda K, block: bytes(byte & 0x5a for byte in block),
    lambda K, block: xor(8 * block[6:8], K[:16]),
)


def check():
    """The parts of the scheme one by one, that the two directions undo each
    other whatever stands in the place of AES, and the numbers.
    """
    rng = random.Random("forward: check")
    T, *keys = (rng.randbytes(length) for length in (16, 16, 32))
    check_formulas()
    check_one()
    for K in keys:
        for length in (33, 48, 49, 100):
            check_calls(K, T, rng.randbytes(length))
            check_parts(K, T, rng.randbytes(length))
        hch.check_numbers(K, T, (encipher, decipher), 33, 13)

    for K in (bytes(16), b"\xff" * 32, *keys):
        for tweak in (bytes(16), b"\xff" * 16, T):
            for length in (33, 34, 47, 48, 49, 64, 65, 100):
                check_undone(K, tweak, rng.randbytes(length))
    # "Lengths are 33 to 4,096 bytes."
    check_undone(keys[0], T, rng.randbytes(MOST))
    check_not_invertible(keys)


def check_undone(K, T, data, **parameters):
    """Each direction undoes the other, and keeps the length."""
    for first, second in ((encipher, decipher), (decipher, encipher)):
        there = first(K, T, data, **parameters)
        assert len(there) == len(data)
        assert second(K, T, there, **parameters) == data


def check_not_invertible(keys):
    """The counting rule of boards holds "with every function from blocks to
    blocks in the place of AES, invertible or not" (Point 5): under those that
    send two blocks to one, and under one that looks random.
    """
    rng = random.Random("forward: not invertible")
    for E in NOT_INVERTIBLE:
        assert E(keys[0], binary(0)) == E(keys[0], binary(field.TOP))
    for E in (*NOT_INVERTIBLE,
              lambda K, block: hashlib.sha256(K + block).digest()[:16]):
        for K in keys:
            for length in (33, 34, 47, 48, 49, 64, 65, 100, 512):
                check_undone(K, rng.randbytes(16), rng.randbytes(length), E=E)
    data = rng.randbytes(100)
    assert encipher(keys[0], keys[0], data, zero) == data


def check_formulas():
    """phi and h by the paper's own formulas, and the Feistel structure."""
    rng = random.Random("forward: formulas")
    blocks = [bytes(16), b"\xff" * 16, binary(field.TOP),
              *(rng.randbytes(16) for _ in range(4))]
    elements = [int.from_bytes(block, "big") for block in blocks]
    for block, element in zip(blocks, elements):
        assert phi(block, 0) == block
        for i in (1, 2, 3, 127, 128, 253):
            assert phi(block, i) == binary(
                field.product(field.power(2, i), element))
        for m in range(len(blocks)):
            # The field's own sum, with powers made by squaring.
            assert h(block, blocks[:m]) == binary(
                field.power_sum(element, elements[:m]))
        assert h(block, [blocks[-1]]) == binary(
            field.product(element, elements[-1]))

    def E(block):
        return aes.cipher(blocks[-1], block)

    for tau_ in blocks:
        for A_1, A_2 in zip(blocks, blocks[::-1]):
            B_1, B_2 = feistel(E, tau_, A_1, A_2)
            assert feistel(E, tau_, B_2, B_1) == (A_2, A_1)


def check_one():
    """By hand, with E = 1: beta_1, tau and tau' are 1, so that h is the sum of
    its blocks, and beta_2 is 2 (01's P1). With Z the sum from the third block
    on, A_1 = P_1 + 1 + Z, A_2 = P_2 + 1 + Z, F_1 = P_1 + P_2, F_2 = P_1 + Z,
    B_2 = P_1 + P_2 + 1 and B_1 = A_2. Each whole block from the third on is
    changed by 1, and none that is cut, for the 1 is in its last byte.
    """
    rng = random.Random("forward: one")
    P_1, P_2, P_3 = (rng.getrandbits(128) for _ in range(3))
    short = rng.getrandbits(120) << 8  # 15 bytes, and what pads them

    def text(blocks, length):
        return b"".join(map(binary, blocks))[:length]

    def ones(blocks, length):
        return encipher(bytes(16), bytes(16), text(blocks, length),
                        lambda K, block: binary(1))

    assert ones([P_1, P_2, P_3], 48) == text(
        [P_2 ^ 2, P_1 ^ P_2 ^ P_3 ^ 2, P_3 ^ 1], 48)
    assert ones([P_1, P_2, short], 47) == text(
        [P_2 ^ 3, P_1 ^ P_2 ^ short ^ 3, short], 47)
    assert ones([P_1, P_2, P_3, short], 63) == text(
        [P_2 ^ 2, P_1 ^ P_2 ^ P_3 ^ short ^ 2, P_3 ^ 1, short], 63)


def check_calls(K, T, data):
    """From P and C to all that E is given, by section 3.1 alone: J_0 to J_2,
    then F_1 to F_m. Table 4 has m + 3 calls. That they are the right ones is
    said by G_1 to G_m.
    """
    def recorded(direction, data):
        given = []

        def E(K, block):
            given.append(block)
            return aes.cipher(K, block)

        return direction(K, T, data, E), given

    C, enciphering = recorded(encipher, data)
    P, deciphering = recorded(decipher, C)
    assert P == data
    E = functools.partial(aes.cipher, K)
    l, m, r, P = formatting(P)
    C = formatting(C)[3]
    tau, tau_, beta_1, beta_2 = key_def_1(E, T, l)
    J = [T, xor(tau, binary(l)), phi(beta_1, 2)]

    def mixed(beta, X_i, X):
        """beta xor X_i xor h_tau(X_3, .., X_m), the last padded."""
        return xor(beta, xor(X_i, h(tau, [*X[2:-1], pad(N - r, X[-1])])))

    A_1, A_2 = (mixed(beta_1, P_i, P) for P_i in P[:2])
    B_1, B_2 = (mixed(beta_2, C_i, C) for C_i in C[:2])
    F_1, F_2 = xor(h(tau_, [A_1]), A_2), xor(B_1, h(tau_, [B_2]))
    M = functools.reduce(xor, [A_1, A_2, B_1, B_2])
    F = [xor(M, phi(beta_1, i - 3)) for i in range(3, m + 1)]
    assert enciphering == [*J, F_1, F_2, *F] and len(enciphering) == m + 3
    assert deciphering == [*J, F_2, F_1, *F]

    assert E(F_1) == xor(A_1, F_2) and E(F_2) == xor(B_2, F_1)
    for F_i, P_i, C_i in zip(F, P[2:], C[2:]):
        assert E(F_i)[:len(P_i)] == xor(P_i, C_i)


def check_parts(K, T, data):
    """Each key of the four, and the modified counter, matters: with another
    in its place the bytes are others, though it still is a scheme.
    """
    C = encipher(K, T, data)
    keys = key_def_1(functools.partial(aes.cipher, K), T, 8 * len(data))
    for name, other in (("tau", keys.tau_), ("tau_", keys.tau),
                        ("beta_1", keys.beta_2), ("beta_2", keys.beta_1)):
        def key_def(E, T, l):
            return keys._replace(**{name: other})

        changed = encipher(K, T, data, key_def=key_def)
        check_undone(K, T, data, key_def=key_def)
        assert changed[:16] != C[:16] and changed[16:32] != C[16:32]
        # beta_2 comes in at the end, and into the first two blocks alone.
        if name == "beta_2":
            assert xor(changed, C) == 2 * xor(
                keys.beta_1, keys.beta_2) + bytes(len(data) - 32)

    # HCH's counter, the counter without beta, and one that starts at phi(1).
    for mode in (lambda E, beta, S, X: hch.counter(K, S, X),
                 lambda E, beta, S, X: mctr(E, bytes(16), S, X),
                 lambda E, beta, S, X: mctr(E, phi(beta, 1), S, X)):
        changed = encipher(K, T, data, mode=mode)
        check_undone(K, T, data, mode=mode)
        for at in range(0, len(data), 16):
            if at < 32 or len(data[at:at + 16]) > 2:
                assert changed[at:at + 16] != C[at:at + 16]
