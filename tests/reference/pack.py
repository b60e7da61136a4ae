"""The 512-byte block, written from 01-scope.md alone; when it is blank, from
Point 4 of 02-change-requests.md.

A block is sealed and opened under HCH where no other scheme is passed in.
The pack number and the place are ints, of 64 and of 32 bits; "numbers are
big-endian". The payload and the block are bytes objects, so that a call that
is not done leaves them as they were: it raises Refused, with its number in 01
or 02.
"""

import functools
import random

import hch
from hch import KEY_LENGTHS, Refused, look_at_key

SIZE = 512  # bytes
MOST = 496  # bytes: "payloads of 0 to 496 bytes"
LAST_PLACE = 65535  # "places run from 0 to 65,535"


def plain_block(payload, pack, place):
    """"At bytes 0 to 495, the payload of u bytes and then zeros; at 496 to 503
    the pack number (64 bits); at 504 to 507 the place (32 bits); at 508 to 509
    u, from 0 to 496; at 510 to 511 zeros."
    """
    u = len(payload)
    return b"".join([payload, bytes(MOST - u), pack.to_bytes(8, "big"),
                     place.to_bytes(4, "big"), u.to_bytes(2, "big"), bytes(2)])


def tweak(pack, place):
    """"The pack number in 8 bytes, four zero bytes, and the place in 4
    bytes."
    """
    return pack.to_bytes(8, "big") + bytes(4) + place.to_bytes(4, "big")


def u_of(plain):
    """Bytes 508 and 509, whatever they are."""
    return int.from_bytes(plain[508:510], "big")


def passes(plain, pack, place):
    """Whether a deciphered block passes its check: "bytes 496 to 511 and the
    zero filling", and "a u over 496 fails". Each part is looked at by itself;
    check() compares this with plain_block.
    """
    u = u_of(plain)
    return (u <= MOST
            and not any(plain[u:MOST])
            and int.from_bytes(plain[496:504], "big") == pack
            and int.from_bytes(plain[504:508], "big") == place
            and plain[510:512] == bytes(2))


@functools.cache
def seal(key, payload, pack, place, length=SIZE, encipher=hch.encipher):
    """The sealed block. "Sealing looks at 1, 7, 5, 6." Of the lent block only
    the length is given, as "what the lent block held before has no effect".
    """
    look_at_key(key)
    if length != SIZE:
        raise Refused(7)
    if len(payload) > MOST:
        raise Refused(5)
    if place > LAST_PLACE:
        raise Refused(6)
    return encipher(
        key, tweak(pack, place), plain_block(payload, pack, place))


def open(key, pack, place, block, decipher=hch.decipher):
    """"Opening looks at 1, 7, 6, 8", and then "leaves the plain block in the
    lent bytes and returns u": here it returns both. "If the check fails and
    all 512 lent bytes are zero, the slot is called blank. A zero block that
    passes its check is opened as any other." "New numbers: 12, blank, in the
    place of 8 under the condition above." check_blank() has other deciphers.
    """
    look_at_key(key)
    if len(block) != SIZE:
        raise Refused(7)
    if place > LAST_PLACE:
        raise Refused(6)
    plain = decipher(key, tweak(pack, place), block)
    if not passes(plain, pack, place):
        raise Refused(12 if block == bytes(SIZE) else 8)
    return u_of(plain), plain


def number_of(call, *arguments):
    """The number of the refusal, or 0."""
    try:
        call(*arguments)
    except Refused as refused:
        return refused.number
    return 0


def check():
    """The examples P12 to P14 of 01, that the check passes plain blocks alone,
    what a block of zeros is, and the two calls under HCH.
    """
    assert tweak(1, 258) == bytes.fromhex(  # P12
        "00 00 00 00 00 00 00 01 00 00 00 00 00 00 01 02")
    assert plain_block(b"", 0, 0) == bytes(512)  # P13
    plain = plain_block(b"\x41\x42\x43", 1, 2)  # P14
    assert plain[-8:] == bytes.fromhex("00 00 00 02 00 03 00 00")
    assert plain[:4] == b"ABC\x00" and plain[496:504] == bytes(7) + b"\x01"

    check_passes()
    check_blank()
    check_under(hch.encipher, hch.decipher)


def check_passes():
    """A bit of each byte in turn, and each u: a block passes exactly if it is
    the plain block of a payload, which can only be its first bytes.
    """
    rng = random.Random("pack: passes")
    pack, place = rng.getrandbits(64), 258
    plain = plain_block(rng.randbytes(20), pack, place)
    others = [plain[:i] + bytes([plain[i] ^ 1 << i % 8]) + plain[i + 1:]
              for i in range(SIZE)]
    others += [plain[:508] + u.to_bytes(2, "big") + bytes(2)
               for u in (0, 19, 20, 21, 495, 496, 497, 511, 512, 65535)]
    passed = 0
    for other in others:
        wanted = any(plain_block(other[:u], pack, place) == other
                     for u in range(MOST + 1))
        assert passes(other, pack, place) == wanted
        passed += wanted
    # Of the bits, the 20 in the payload and the one that makes u 52; of the
    # numbers, 20, 21, 495 and 496.
    assert passed == 20 + 1 + 4


def check_under(encipher, decipher):
    """The two calls under a scheme: that opening undoes sealing, and their
    numbers.
    """
    rng = random.Random("pack: check")
    keys = [rng.randbytes(length) for length in KEY_LENGTHS]
    under = (functools.partial(seal, encipher=encipher),
             functools.partial(open, decipher=decipher))
    for key in keys:
        check_undone(key, *under)
        check_numbers(key, *under)


def check_undone(key, seal, open):
    """"Payloads of 0 and 496 bytes are sealed; place 65,535 is sealed", and
    opening gives the payload back.
    """
    rng = random.Random("pack: undone")
    lengths = (0, 1, 16, 495, 496)
    packs = (0, 1, rng.getrandbits(64), (1 << 64) - 1)
    places = (0, 258, LAST_PLACE)
    for i in range(12):
        length, pack, place = lengths[i % 5], packs[i % 4], places[i % 3]
        payload = rng.randbytes(length)
        block = seal(key, payload, pack, place)
        assert len(block) == SIZE
        u, plain = open(key, pack, place, block)
        assert (u, plain[:u]) == (length, payload)
        assert plain == plain_block(payload, pack, place)


def check_numbers(key, seal, open):
    """The table's small examples, the order of sealing, and what comes before
    number 12; cases_pack.py has the order of opening.
    """
    payload, block = b"ABC", seal(key, b"ABC", 1, 3)
    assert number_of(seal, b"\x00", payload, 1, 3) == 1
    assert number_of(seal, key, bytes(497), 1, 3) == 5
    assert number_of(seal, key, payload, 1, 65536) == 6
    assert number_of(seal, key, payload, 1, 3, 511) == 7
    assert number_of(open, b"\x00", 1, 3, block) == 1
    assert number_of(open, key, 1, 65536, block) == 6
    assert number_of(open, key, 1, 3, block[:511]) == 7
    assert number_of(open, key, 1, 4, block) == 8

    assert number_of(seal, b"", bytes(497), 1, 65536, 511) == 1
    assert number_of(seal, key, bytes(497), 1, 65536, 511) == 7
    assert number_of(seal, key, bytes(497), 1, 65536) == 5

    zeros = bytes(SIZE)
    for pack, place in ((0, 0), (1, 5), ((1 << 64) - 1, LAST_PLACE)):
        assert number_of(open, key, pack, place, zeros) == 12
        assert number_of(open, key[1:], pack, place, zeros) == 1
        assert number_of(open, key, pack, place, zeros[1:]) == 7
        assert number_of(open, key, pack, 65536, zeros) == 6


def check_blank():
    """Point 4's number. A zero block passes its check under one key in 2^128
    or so, and none is known: that such a block is opened is shown with another
    function in the place of deciphering, and no stored case can show it.
    """
    key, zeros = bytes(16), bytes(SIZE)

    def same(key, tweak, block):
        """Each block deciphers to itself, so that zeros pass for pack 0 and
        place 0 alone (P13)."""
        return block

    assert open(key, 0, 0, zeros, same) == (0, zeros)
    assert number_of(open, key, 1, 0, zeros, same) == 12
    assert number_of(open, key, 0, 1, zeros, same) == 12
    # One bit that is not zero, each in turn.
    for bit in range(8 * SIZE):
        block = (1 << bit).to_bytes(SIZE, "big")
        assert number_of(open, key, 1, 3, block, same) == 8

    # Zeros that decipher to the block of a payload, and to no such block; and
    # a block that is not zero and deciphers to zeros.
    plain = plain_block(b"ABC", 1, 3)
    assert open(key, 1, 3, zeros, lambda *_: plain) == (3, plain)
    assert number_of(open, key, 1, 4, zeros, lambda *_: plain) == 12
    assert number_of(open, key, 1, 3, plain, lambda *_: zeros) == 8
