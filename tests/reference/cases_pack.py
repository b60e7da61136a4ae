"""The cases of the 512-byte block: pairs of a line and its answer.

    ps key pack place payload    the payload sealed, as 512 bytes
    po key pack place block      the block opened: u in decimal, a space and
                                 the 512 bytes of the plain block

The pack number has exactly 16 digits and the place exactly 8. The other
fields have two digits a byte and may be empty, so that a `ps` that ends in a
space has an empty payload. A refusal answers NO, a space and its number; NO
alone is for a line that is not understood, and this is looked at before every
number.

Each group of cases draws from a generator with a seed of its own, so that a
change to one group leaves the others as they were. Where a group is given
another scheme its cases are under that one, as in cases_forward.py.
"""

import re

import pack as packs
from cases_hch import other_bit
from lines import (LONGEST, NO, WRONG_KEYS, byte_drawer, gather, line,
                   sharing_halves, under_each_key)
from pack import LAST_PLACE, MOST, SIZE, plain_block, tweak
from schemes import HCH

LAST_PACK = (1 << 64) - 1

# A line holds a command, four spaces, 24 digits of pack and place, and two
# digits for each of so many bytes in the two other fields.
MOST_BYTES = (LONGEST - 30) // 2

# For the parts that are under HCH alone.
by_hand, po_case, ps_case = HCH.by_hand, HCH.po, HCH.ps


def refused(number, case):
    """A case that is refused with this number."""
    assert case[1] == NO + b" %d" % number, case[0][:80]
    return case


def opened(u, case):
    """A case that is opened with this u."""
    assert case[1].startswith(b"%d " % u), case[0][:80]
    return case


def number(string):
    return int.from_bytes(string, "big")


def nonzero(string):
    """The same bytes with 1 in the place of 0, so that each one counts."""
    return bytes(byte or 1 for byte in string)


def with_bytes(string, at, new):
    """The string with the new bytes from this byte on."""
    return string[:at] + new + string[at + len(new):]


def with_bit(string, at, bit):
    """The string with these bits of this byte changed."""
    return with_bytes(string, at, bytes([string[at] ^ bit]))


def example_cases(key_length, under=HCH):
    """01's P12 to P14: the tweak of pack 1 and place 258, a plain block of
    zeros, and a payload of three bytes."""
    draw = byte_drawer("pack: examples", key_length)
    for key in (bytes(key_length), draw(key_length)):
        yield from under.pair(key, 1, 258, b"\x41\x42\x43")
        yield from under.pair(key, 0, 0, b"")
        yield from under.pair(key, 1, 2, b"\x41\x42\x43")


def length_cases(key_length, under=HCH):
    draw = byte_drawer("pack: lengths", key_length)
    for length in (0, 1, 3, 15, 16, 17, 32, 255, 256, 480, 481, 495, MOST):
        yield from under.pair(draw(key_length), number(draw(8)),
                              number(draw(2)), nonzero(draw(length)))
    # Payloads of zeros, which u alone tells apart, and of ones.
    key, pack, place = draw(key_length), number(draw(8)), number(draw(2))
    for length in (0, 1, 495, MOST):
        yield from under.pair(key, pack, place, bytes(length))
    yield from under.pair(b"\xff" * key_length, LAST_PACK, LAST_PLACE,
                          b"\xff" * MOST)


def number_cases(key_length, under=HCH):
    draw = byte_drawer("pack: numbers", key_length)
    key, pack, payload = draw(key_length), number(draw(8)), draw(20)
    for place in (0, 1, 2, 258, 65534, LAST_PLACE):
        yield from under.pair(key, pack, place, payload)
    for other in (0, 1, 1 << 63, LAST_PACK):
        for place in (258, LAST_PLACE):
            yield from under.pair(key, other, place, payload)
    # Places over 65,535. These blocks would pass their check, which is looked
    # at last.
    for other in (pack, LAST_PACK):
        for place in (LAST_PLACE + 1, (1 << 32) - 1):
            yield refused(6, under.ps(key, other, place, payload))
            yield refused(6, under.po(key, other, place, under.by_hand(
                key, other, place, plain_block(payload, other, place))))


def other_cases(key_length, under=HCH):
    """Blocks opened as what they were not sealed for."""
    draw = byte_drawer("pack: others", key_length)
    key, pack, payload = draw(key_length), number(draw(8)), draw(100)
    block = under.seal(key, payload, pack, 3)
    yield from under.pair(key, pack, 3, payload)
    for place in (2, 4, 0x0103, 0x8003):
        yield refused(8, under.po(key, pack, place, block))
    for bit in (0, 31, 32, 63):
        yield refused(8, under.po(key, pack ^ 1 << bit, 3, block))
    for other in (other_bit(key, 0x01), draw(key_length)):
        yield refused(8, under.po(other, pack, 3, block))
    # The pack number and the place exchanged.
    yield refused(8, under.po(key, 4, 3, under.seal(key, payload, 3, 4)))
    # A place over 65,535 does not stand for its last 16 bits.
    yield refused(6, under.po(key, pack, 65536 + 3, block))


def half_cases(under=HCH):
    """A payload sealed under keys that share a half, and the block of the
    first of them opened under the others."""
    draw = byte_drawer("pack: halves")
    key, pack, payload = draw(32), number(draw(8)), draw(20)
    yield from under.pair(key, pack, 3, payload)
    for other in sharing_halves(key, draw(32)):
        yield under.ps(other, pack, 3, payload)
        yield refused(8, under.po(
            other, pack, 3, under.seal(key, payload, pack, 3)))


def bit_cases(under=HCH):
    """One bit changed in each sixteen bytes of a block, and of a zero block:
    in each byte of the sixteen twice, and there not the same bit."""
    draw = byte_drawer("pack: bits")
    key, pack, place = draw(16), number(draw(8)), number(draw(2))
    block = under.seal(key, draw(300), pack, place)
    yield opened(300, under.po(key, pack, place, block))
    for lent in (block, bytes(SIZE)):
        for i in range(SIZE // 16):
            yield refused(8, under.po(key, pack, place, with_bit(
                lent, 16 * i + 7 * i % 16, 1 << (3 * i + i // 16) % 8)))


def any_block_cases(key_length, under=HCH):
    """Blocks that sealing did not write."""
    draw = byte_drawer("pack: any block", key_length)
    for key, pack, place in (
            (bytes(key_length), 0, 0),
            (draw(key_length), number(draw(8)), number(draw(2)))):
        yield refused(12, under.po(key, pack, place, bytes(SIZE)))
        for block in (b"\xff" * SIZE, draw(SIZE)):
            yield refused(8, under.po(key, pack, place, block))
        # A plain block that was not enciphered.
        yield refused(8, under.po(key, pack, place, plain_block(
            b"ABC", pack, place)))


def blank_cases(key_length, under=HCH):
    """Zero blocks, each pack number with each place under one of the keys.
    cases_lent.py has what comes before number 12, and sealing into such a
    block."""
    draw = byte_drawer("pack: blank", key_length)
    keys = (bytes(key_length), b"\xff" * key_length, draw(key_length),
            draw(key_length))
    places = (0, 5, 258, LAST_PLACE)
    for i, key in enumerate(keys):
        for pack, place in zip((0, 1, number(draw(8)), LAST_PACK),
                               places[i:] + places[:i]):
            yield refused(12, under.po(key, pack, place, bytes(SIZE)))


def almost_blank(draw):
    """Blocks that are not zero, though much of them is: one bit at either end,
    one byte or one half that is zero, and bytes or words whose exclusive or,
    or whose sum, is zero."""
    zeros = bytes(SIZE)
    for at in (0, 511):
        for bit in (0x80, 0x01):
            yield with_bit(zeros, at, bit)
        yield with_bytes(nonzero(draw(SIZE)), at, b"\x00")
    for at in (0, 256):
        yield with_bytes(nonzero(draw(SIZE)), at, bytes(256))
    yield with_bytes(zeros, 255, b"\x55\x55")
    yield with_bytes(zeros, 255, b"\x01\xff")
    # The highest bits of two words, big-endian and little-endian.
    for at in (0, 7):
        yield with_bit(with_bit(zeros, at, 0x80), at + 504, 0x80)
    yield 32 * draw(16)


def almost_blank_cases(key_length, under=HCH):
    """Blocks that are not zero, and number 8 for them; bit_cases has one bit
    in every part."""
    draw = byte_drawer("pack: almost blank", key_length)
    key, pack, place = draw(key_length), number(draw(8)), number(draw(2))
    for block in almost_blank(draw):
        yield refused(8, under.po(key, pack, place, block))
    # Blocks that decipher to zeros: the lent bytes count. For pack 0 and place
    # 0 this is the block of an empty payload (P13).
    for other, at in ((pack, place), (0, place | 1), (pack | 1, 0)):
        yield refused(8, under.po(key, other, at, under.by_hand(
            key, other, at, bytes(SIZE))))
    yield opened(0, under.po(key, 0, 0, under.by_hand(key, 0, 0, bytes(SIZE))))


def by_hand_cases(under=HCH):
    """Blocks that decipher to a plain block with one part of its check wrong;
    a comment says where it is more than one, and where the block passes."""
    draw = byte_drawer("pack: by hand")
    key, pack, place = draw(16), number(nonzero(draw(8))), 258
    full, short = nonzero(draw(MOST)), nonzero(draw(20))

    def po(plain):
        return under.po(
            key, pack, place, under.by_hand(key, pack, place, plain))

    def with_u(payload, u):
        """The plain block of the payload but for its u."""
        return with_bytes(plain_block(payload, pack, place), 508,
                          u.to_bytes(2, "big"))

    # u over 496, where all 496 bytes are the payload's.
    yield opened(MOST, po(with_u(full, MOST)))
    for u in (497, 511, 512, 65535):
        yield refused(8, po(with_u(full, u)))
    yield refused(8, po(with_u(b"", 497)))
    # A u that is right but for its high bits.
    for u in (0x0200 + 20, 0x8000 + 20):
        yield refused(8, po(with_u(short, u)))

    # u little-endian: 20 and 3 become too large, and 256 becomes 1, where the
    # filling is not zero. 1 becomes 256, and this passes: it is the payload
    # with 255 zero bytes behind it.
    yield refused(8, po(with_u(short, 20 << 8)))
    yield refused(8, po(with_u(short[:3], 3 << 8)))
    yield refused(8, po(with_u(full[:256], 1)))
    yield opened(256, po(with_u(full[:1], 256)))

    # u of one less, and of 0, leave bytes of the payload in the filling. u of
    # one more, and of 496, pass: it is the payload with zero bytes behind it.
    for payload in (short, full[:256], full):
        yield refused(8, po(with_u(payload, len(payload) - 1)))
    yield refused(8, po(with_u(short[:1], 0)))
    yield refused(8, po(with_u(full, 0)))
    yield opened(21, po(with_u(short, 21)))
    yield opened(1, po(with_u(b"", 1)))
    yield opened(MOST, po(with_u(short, MOST)))

    # The filling: its first byte, its last, one in the middle, and where a
    # part of sixteen bytes ends and the next starts.
    for payload, places in ((b"", (0, 15, 16, 250, 495)),
                            (short, (20, 31, 32, 301, 495)),
                            (full[:494], (494, 495)), (full[:495], (495,))):
        plain = plain_block(payload, pack, place)
        for at in places:
            yield refused(8, po(with_bytes(plain, at, b"\x01")))
    plain = plain_block(short, pack, place)
    for byte in (b"\x80", b"\xff"):
        yield refused(8, po(with_bytes(plain, 100, byte)))
    # Two bytes whose exclusive or, or whose sum in a byte, is zero.
    yield refused(8, po(with_bytes(plain, 100, b"\x55\x55")))
    yield refused(8, po(with_bytes(plain, 100, b"\x01\xff")))

    # Each byte of the pack number, of the place, and of the last two.
    for at in (*range(496, 508), 510, 511):
        yield refused(8, po(with_bit(plain, at, 1 << at % 8)))
    yield refused(8, po(with_bytes(plain, 510, b"\x01\x01")))
    yield refused(8, po(with_bytes(plain, 510, b"\x01\xff")))
    # Two parts, with changes whose exclusive or is zero: the pack number and
    # the place.
    yield refused(8, po(with_bit(with_bit(plain, 503, 0x10), 507, 0x10)))
    # Little-endian numbers.
    yield refused(8, po(with_bytes(plain, 496, pack.to_bytes(8, "little"))))
    yield refused(8, po(with_bytes(plain, 504, place.to_bytes(4, "little"))))
    # A place over 65,535 with the same last 16 bits.
    yield refused(8, po(plain_block(short, pack, 65536 + place)))
    # The right plain block under its neighbour's tweak: nothing is right.
    yield refused(8, under.po(key, pack, place, under.encipher(
        key, tweak(pack, place + 1), plain)))
    yield opened(20, po(plain))


def refusal_cases(key_length, under=HCH):
    draw = byte_drawer("pack: refusals", key_length)
    key, pack, place = draw(key_length), number(draw(8)), number(draw(2))
    payload, over = draw(40), draw(MOST + 1)
    block = under.seal(key, payload, pack, place)
    bad_place = LAST_PLACE + 1
    bad_block = other_bit(block, 0x01)

    # One by one. Blocks under 16 bytes and over 4,096, which HCH refuses with
    # other numbers, are among them.
    for length in WRONG_KEYS[key_length]:
        wrong = draw(length)
        yield refused(1, under.ps(wrong, pack, place, payload))
        yield refused(1, under.po(wrong, pack, place, block))
    yield from under.pair(key, pack, place, payload)
    for length in (MOST + 1, SIZE, 4097):
        yield refused(5, under.ps(key, pack, place, draw(length)))
    for length in (0, 15, 16, MOST, 511, 513, 1024, 4097):
        yield refused(7, under.po(key, pack, place, (9 * block)[:length]))
    yield refused(6, under.ps(key, pack, bad_place, b""))
    yield refused(6, under.po(key, pack, bad_place, block))
    yield refused(8, under.po(key, pack, place, bad_block))
    yield from under.pair(key, pack, place, b"")

    # Several at once. A key with a byte more and a payload of 495, or a block
    # of 511, have together the bytes of good ones.
    for wrong in (draw(key_length - 1), draw(key_length + 1)):
        yield refused(1, under.ps(wrong, pack, place, over))
        yield refused(1, under.ps(wrong, pack, bad_place, payload))
        yield refused(1, under.ps(wrong, pack, bad_place, over))
        yield refused(1, under.po(wrong, pack, place, block[:511]))
        yield refused(1, under.po(wrong, pack, bad_place, block))
        yield refused(1, under.po(wrong, pack, bad_place, block[:511]))
        yield refused(1, under.po(wrong, pack, place, bad_block))
    yield refused(1, under.ps(draw(key_length + 1), pack, place, over[:495]))
    yield refused(1, under.ps(b"", 0, 0, b""))
    yield refused(1, under.po(b"", 0, 0, b""))
    yield refused(5, under.ps(key, pack, bad_place, over))
    for length in (0, 511, 513):
        yield refused(7, under.po(key, pack, bad_place, (2 * block)[:length]))
    yield refused(6, under.po(key, pack, bad_place, bad_block))
    yield refused(7, under.po(key, pack, place, bytes(511)))
    yield from under.pair(key, pack, place, payload[:17])


def longest_cases():
    """The longest line that is understood."""
    draw = byte_drawer("pack: longest")
    key, pack, place = draw(16), number(draw(8)), number(draw(2))
    longest = HCH.ps(key, pack, place, draw(MOST_BYTES - 16))
    assert len(longest[0]) == LONGEST
    yield refused(5, longest)
    yield from HCH.pair(key, pack, place, draw(16))


def line_cases():
    """Lines that are not understood, with good ones in between. Two spaces
    are an empty field, so that some differ from a refusal by a space."""
    draw = byte_drawer("pack: lines")
    key, pack, place = draw(16), number(draw(8)), number(draw(2))
    payload = draw(20)
    block = HCH.seal(key, payload, pack, place)
    k, n, p = key.hex(), f"{pack:016x}", f"{place:08x}"

    for name, last in (("ps", payload), ("po", block)):
        d = last.hex()
        for bad in (
            # Missing fields, and too many.
            (), ("",), (k,), (k, n), (k, n, p), (k, n, d), (n, p, d),
            (k, n, p, d, ""), (k, n, p, "", ""), (k, n, p, d, "00"),
            # Two spaces.
            ("", k, n, p, d), (k, "", n, p, d), (k, n, "", p, d),
            (k, n, p, "", d),
            # The pack number and the place: empty, and of other lengths.
            (k, "", p, d), (k, n, "", d),
            (k, n[:14], p, d), (k, n[:15], p, d), (k, n + "0", p, d),
            (k, n, p[:7], d), (k, n, p + "0", d),
            # An odd number of digits.
            (k[:31], n, p, d), (k, n, p, d[1:]),
            # Upper case, in each of the fields.
            ("A" + k[1:], n, p, d), (k, "F" + n[1:], p, d),
            (k, n, p[:7] + "A", d), (k, n, p, d[:-1] + "F"),
        ):
            yield line(name, *bad), NO
        yield from HCH.pair(draw(16), pack, place, draw(33))

    d = payload.hex()
    for bad in (
        # Together the right number of digits.
        (k, n[:15], n[15:] + p, d), (k, n + p[:2], p[2:], d),
        (k[:31], k[31:] + n, p, d), (k, n, p + d[:2], d[2:]),
        # Other characters.
        (k[:31] + "g", n, p, d), (k, n[:15] + "g", p, d),
        (k, "0x" + n[2:], p, d), (k, n, "+" + p[1:], d),
        (k, n, p[:7] + "`", d), (k, n, p, "/" + d[1:]), (k, n, p, d + "\r"),
        # What would be refused, were it understood.
        ("00", n[:15], p, d), (k, n, p[:7], "00" * (MOST + 1)),
        (k, n, "00010000", d + "0"),
    ):
        yield line("ps", *bad), NO

    # Other spaces.
    good = line(k, n, p, d)
    for bad in (b" ps " + good, b"ps" + good, b"ps\t" + good,
                b"ps " + good.replace(b" ", b"\t")):
        yield bad, NO

    # Unknown commands.
    for name in (b"p", b"s", b"px", b"pe", b"PS", b"pO", b"pss", b"sp",
                 b"hs", b"p s", b"ps\0"):
        yield name + b" " + good, NO
    yield HCH.ps(draw(16), pack, place, draw(34))

    # Understood: a line that ends in the space before an empty field.
    yield refused(7, HCH.po(key, pack, place, b""))
    yield from HCH.pair(key, pack, place, b"")


UNDERSTOOD = re.compile(rb"p[so] (D{2})* D{16} D{8} (D{2})*".replace(
    b"D", rb"[0-9a-f]"))


def cases():
    """All cases of this part; the last line is understood. Each part of the
    check is tried under keys of 16 bytes here; cases_lent.py tries it under
    both."""
    return gather((*under_each_key(example_cases, length_cases, number_cases,
                                   other_cases, any_block_cases, blank_cases,
                                   almost_blank_cases, refusal_cases),
                   bit_cases, by_hand_cases, longest_cases, half_cases,
                   line_cases), UNDERSTOOD)


def check():
    packs.check()
