"""The cases of what a call leaves: pairs of a line and its answer.

    le key tweak data                    the lent data enciphered
    ld key tweak data                    the lent data deciphered
    ls key pack place payload block      the payload sealed into the lent block
    lo key pack place block              the lent block opened

The answer is the call's number in decimal, 0 where it was done, a space, and
all the lent bytes as they are left. The pack number has exactly 16 digits and
the place exactly 8. The other fields have two digits a byte and may be empty;
the last is what is lent. NO alone is for a line that is not understood, and
this is looked at before every number.

Each group of cases draws from a generator with a seed of its own, so that a
change to one group leaves the others as they were. Where a group is given
another scheme its cases are under that one, as in cases_forward.py.
"""

import itertools
import re

import hch
from cases_hch import MOST_BYTES, other_bit
from cases_pack import (LAST_PACK, almost_blank, nonzero, number, with_bit,
                        with_bytes)
from hch import LEAST
from lines import (WRONG_KEYS, byte_drawer, digits, gather, misread,
                   sharing_halves, under_each_key)
from pack import LAST_PLACE, MOST, SIZE, plain_block
from schemes import HCH

WRONG_BLOCKS = (0, 1, 511, 513, 1024)
HIGH_PLACES = (LAST_PLACE + 1, (1 << 32) - 1)


def answers(wanted, given):
    """A case with this number. A refused one leaves what was lent."""
    text, answer = given
    first, left = answer.split(b" ")
    assert first == b"%d" % wanted, text[:80]
    assert wanted == 0 or left == text.split(b" ")[-1], text[:80]
    return given


def leaves(left, given):
    """A case that is done and leaves these bytes."""
    assert given[1] == b"0 " + digits(left), given[0][:80]
    return given


def both(wanted, key, tweak, data, under=HCH):
    """The call with this number in both directions."""
    for way in "ed":
        yield answers(wanted, under.message(way, key, tweak, data))


def several(*order):
    """Two or more of these numbers at once, in every way: the one that is
    returned, "the first in the order", and all of them."""
    for count in range(2, len(order) + 1):
        for numbers in itertools.combinations(order, count):
            yield numbers[0], numbers


def message_cases(key_length, under=HCH):
    """Calls that are done, and each number of the scheme alone."""
    draw = byte_drawer("lent: messages", key_length)
    key, tweak, least = draw(key_length), draw(16), under.least
    for length in (least, least + 1, least + 4, least + 16, least + 17, SIZE,
                   hch.MOST):
        board = draw(length)
        yield answers(0, under.message("e", key, tweak, board))
        yield leaves(board, under.message(
            "d", key, tweak, under.encipher(key, tweak, board)))
    for length in WRONG_KEYS[key_length]:
        yield from both(1, draw(length), tweak, draw(40), under)
    for length in (0, 1, 15, 17, 32):
        yield from both(2, key, draw(length), draw(40), under)
    for length in (0, 1, least - 1):
        yield from both(under.too_short, key, tweak, draw(length), under)
    yield from both(4, key, tweak, draw(hch.MOST + 1), under)
    yield from both(0, key, tweak, draw(least), under)


def message_order_cases(key_length, under=HCH):
    """Several numbers of the scheme at once. Data is never both too short and
    too long. A wrong key and a wrong tweak have together the bytes of good
    ones."""
    draw = byte_drawer("lent: message order", key_length)
    short = under.too_short
    for size, more, length in ((short, -1, under.least - 1), (short, 1, 0),
                               (short, -key_length, 1), (4, 1, hch.MOST + 1)):
        for wanted, numbers in several(1, 2, size):
            yield from both(
                wanted, draw(key_length + (more if 1 in numbers else 0)),
                draw(16 - (more if 2 in numbers else 0)),
                draw(length if size in numbers else 40), under)


def sealing_cases(key_length, under=HCH):
    """Payloads sealed, and the blocks opened again."""
    draw = byte_drawer("lent: sealing", key_length)
    for length, pack, place in ((0, 0, 0), (1, LAST_PACK, LAST_PLACE),
                                (495, number(draw(8)), 0),
                                (MOST, number(draw(8)), LAST_PLACE)):
        key, payload = draw(key_length), draw(length)
        yield answers(0, under.ls(key, pack, place, payload, draw(SIZE)))
        yield leaves(plain_block(payload, pack, place), under.lo(
            key, pack, place, under.seal(key, payload, pack, place)))

    # "What the lent block held before has no effect": other bytes, the plain
    # block, and the sealed one.
    key, pack, payload = draw(key_length), number(draw(8)), draw(20)
    block = under.seal(key, payload, pack, 3)
    for lent in (bytes(SIZE), b"\xff" * SIZE, draw(SIZE), block,
                 plain_block(payload, pack, 3)):
        yield leaves(block, under.ls(key, pack, 3, payload, lent))


def sealing_refusal_cases(key_length, under=HCH):
    """Each number of sealing alone, and several at once."""
    draw = byte_drawer("lent: sealing refusals", key_length)
    key, pack, payload = draw(key_length), number(draw(8)), draw(3)
    for length in WRONG_KEYS[key_length]:
        yield answers(1, under.ls(draw(length), pack, 3, payload, draw(SIZE)))
    for length in WRONG_BLOCKS:
        yield answers(7, under.ls(key, pack, 3, payload, draw(length)))
    for length in (MOST + 1, SIZE):
        yield answers(5, under.ls(key, pack, 3, draw(length), draw(SIZE)))
    for place in HIGH_PLACES:
        yield answers(6, under.ls(key, pack, place, payload, draw(SIZE)))

    for wrong, length in ((key_length - 1, 511), (key_length + 1, 1), (0, 0)):
        for wanted, numbers in several(1, 7, 5, 6):
            yield answers(wanted, under.ls(
                draw(wrong) if 1 in numbers else key, pack,
                LAST_PLACE + 4 if 6 in numbers else 3,
                draw(MOST + 1 if 5 in numbers else 3),
                draw(length if 7 in numbers else SIZE)))
    # The payload has the block's bytes, and the block the payload's.
    yield answers(7, under.ls(key, pack, 3, draw(SIZE), draw(MOST)))
    yield answers(0, under.ls(key, pack, 3, payload, draw(SIZE)))


def opening_refusal_cases(key_length, under=HCH):
    """The numbers of opening before its check, each alone, and several at
    once, number 8 too."""
    draw = byte_drawer("lent: opening refusals", key_length)
    key, pack, payload = draw(key_length), number(draw(8)), draw(100)
    block = under.seal(key, payload, pack, 3)
    for length in WRONG_KEYS[key_length]:
        yield answers(1, under.lo(draw(length), pack, 3, block))
    for length in WRONG_BLOCKS:
        yield answers(7, under.lo(key, pack, 3, (2 * block)[:length]))
    # These blocks would pass their check, which is looked at last.
    for place in HIGH_PLACES:
        yield answers(6, under.lo(key, pack, place, under.by_hand(
            key, pack, place, plain_block(payload, pack, place))))

    for wrong, length in ((key_length - 1, 511), (key_length + 1, 1), (0, 0)):
        for wanted, numbers in several(1, 7, 6, 8):
            place = LAST_PLACE + 4 if 6 in numbers else 3
            lent = under.by_hand(
                key, pack, place, plain_block(payload, pack, place))
            if 8 in numbers:
                lent = with_bit(lent, 0, 0x01)
            yield answers(wanted, under.lo(
                draw(wrong) if 1 in numbers else key, pack, place,
                lent[:length] if 7 in numbers else lent))
    yield answers(0, under.lo(key, pack, 3, block))


def check_cases(key_length, under=HCH):
    """Blocks that fail their check. "Leaving deciphered bytes behind" would
    show."""
    draw = byte_drawer("lent: check", key_length)
    key, pack, payload = draw(key_length), number(draw(8)), nonzero(draw(20))
    block = under.seal(key, payload, pack, 3)
    plain = plain_block(payload, pack, 3)

    # The table's own example, other packs and keys, and damaged blocks.
    yield answers(8, under.lo(key, pack, 4, block))
    yield answers(8, under.lo(key, pack ^ 1, 3, block))
    yield answers(8, under.lo(key, pack ^ 1 << 63, 3, block))
    yield answers(8, under.lo(other_bit(key, 0x01), pack, 3, block))
    for at in (0, 15, 16, 496, 511):
        yield answers(8, under.lo(key, pack, 3, with_bit(block, at, 0x10)))
    yield answers(12, under.lo(key, pack, 3, bytes(SIZE)))
    for other in (draw(SIZE), plain):
        yield answers(8, under.lo(key, pack, 3, other))

    # One part of the check wrong: u, the filling, the pack number, the place
    # and the last two bytes.
    full = plain_block(nonzero(draw(MOST)), pack, 3)
    wrong = [with_bytes(full, 508, (497).to_bytes(2, "big")),
             with_bytes(plain, 508, (19).to_bytes(2, "big")),
             *(with_bit(plain, at, 0x01)
               for at in (20, 495, 496, 503, 504, 507, 510, 511))]
    for other in wrong:
        yield answers(8, under.lo(
            key, pack, 3, under.by_hand(key, pack, 3, other)))
    yield answers(0, under.lo(
        key, pack, 3, under.by_hand(key, pack, 3, plain)))


def blank_cases(key_length, under=HCH):
    """Zero blocks: number 12, with other numbers before it, and sealing into
    such a block. Blocks that are not all zero: number 8."""
    draw = byte_drawer("lent: blank", key_length)
    key, pack, payload = draw(key_length), number(draw(8)), draw(20)
    zeros = bytes(SIZE)
    for place in (0, 5, LAST_PLACE):
        block = under.seal(key, payload, pack, place)
        yield answers(12, under.lo(key, pack, place, zeros))
        yield leaves(block, under.ls(key, pack, place, payload, zeros))
        yield leaves(plain_block(payload, pack, place),
                     under.lo(key, pack, place, block))
    yield answers(12, under.lo(bytes(key_length), 0, 0, zeros))

    for wrong, length, place in ((key_length - 1, 511, LAST_PLACE + 1),
                                 (key_length + 1, 513, LAST_PLACE + 6),
                                 (0, 0, HIGH_PLACES[1])):
        for wanted, numbers in several(1, 7, 6, 12):
            if 12 in numbers:
                yield answers(wanted, under.lo(
                    draw(wrong) if 1 in numbers else key, pack,
                    place if 6 in numbers else 5,
                    bytes(length if 7 in numbers else SIZE)))

    for block in almost_blank(draw):
        yield answers(8, under.lo(key, pack, 5, block))
    yield answers(8, under.lo(
        key, pack, 5, under.by_hand(key, pack, 5, zeros)))


def half_cases(under=HCH):
    """A message and a block under keys that share a half. The block opens
    under the first of them alone."""
    draw = byte_drawer("lent: halves")
    key, tweak, board, pack = draw(32), draw(16), draw(33), number(draw(8))
    block = under.seal(key, board, pack, 3)
    yield answers(0, under.lo(key, pack, 3, block))
    yield from both(0, key, tweak, board, under)
    for other in sharing_halves(key, draw(32)):
        yield answers(8, under.lo(other, pack, 3, block))
        yield answers(0, under.ls(other, pack, 3, board, block))
        yield from both(0, other, tweak, board, under)


def line_cases():
    """Lines that are not understood, with good ones in between. Two spaces
    are an empty field, so that some differ from a refusal by a space."""
    draw = byte_drawer("lent: lines")
    k, t, d, n, p, b = (draw(length).hex() for length in (16, 16, 20, 8, 4, 5))
    forms = {"le": [k, t, d], "ld": [k, t, d], "ls": [k, n, p, d, b],
             "lo": [k, n, p, b]}

    for name, good in forms.items():
        yield from misread(name, good, (n, p))
        yield from both(0, draw(16), draw(16), draw(17))

    # The longest line that is understood.
    yield answers(1, HCH.message("d", b"", b"", draw(MOST_BYTES)))
    # Understood: lines whose last field is empty.
    yield from both(1, b"", b"", b"")
    yield answers(1, HCH.ls(b"", 0, 0, b"", b""))
    yield answers(1, HCH.lo(b"", 0, 0, b""))
    yield from both(0, draw(16), draw(16), draw(LEAST))


UNDERSTOOD = re.compile(
    rb"l[ed]( B){3}|ls B D{16} D{8} B B|lo B D{16} D{8} B".replace(
        b"B", rb"(D{2})*").replace(b"D", rb"[0-9a-f]"))


def cases():
    """All cases of this part; the last line is understood."""
    return gather((*under_each_key(message_cases, message_order_cases,
                                   sealing_cases, sealing_refusal_cases,
                                   opening_refusal_cases, check_cases,
                                   blank_cases),
                   half_cases, line_cases), UNDERSTOOD)


def check():
    """The table's small examples, and the form of an answer."""
    key, block = bytes(16), HCH.seal(bytes(16), b"ABC", 1, 3)
    zeros, full = b"00" * 16, b"00" * SIZE
    assert HCH.message("e", b"\x00", key, key)[1] == b"1 " + zeros
    assert HCH.message("d", key, b"", key)[1] == b"2 " + zeros
    assert HCH.message("e", key, key, b"")[1] == b"3 "
    assert HCH.message("d", key, key, bytes(15))[1] == b"3 " + zeros[2:]
    assert HCH.message("e", key, key, bytes(4097))[1] == b"4 " + b"00" * 4097
    assert HCH.ls(key, 1, 3, bytes(497), bytes(SIZE))[1] == b"5 " + full
    assert HCH.ls(key, 1, 65536, b"", bytes(SIZE))[1] == b"6 " + full
    assert HCH.ls(key, 1, 3, b"ABC", bytes(511))[1] == b"7 " + full[2:]
    assert HCH.ls(key, 1, 3, b"ABC", bytes(SIZE))[1] == b"0 " + digits(block)
    assert HCH.lo(key, 1, 4, block)[1] == b"8 " + digits(block)
    assert HCH.lo(key, 1, 4, bytes(SIZE))[1] == b"12 " + full
