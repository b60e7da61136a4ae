"""The cases of finding a block in a pack: pairs of a line and its answer.

    pf pack place          the 512 bytes of the block at this place
    lf pack place block    the lent pack, with the block written to the front
                           of the 512 bytes at this place, cut where they end

The pack and the block have two digits a byte and may be empty; the place has
exactly 8 digits. A refusal of `pf` answers NO, a space and its number. `lf`
answers the number, 0 where it was done, a space, and the whole pack as it is
left. NO alone is for a line that is not understood, and this is looked at
before every number.

Each group of cases draws from a generator with a seed of its own, so that a
change to one group leaves the others as they were.
"""

import re

import finding
import pack as packs
from cases_pack import number, opened, po_case, ps_case, refused
from finding import MOST_BLOCKS, find, write
from lines import (NO, answer_of, byte_drawer, digits, gather, line,
                   under_each_key)
from pack import SIZE, seal
from schemes import lent_case

LAST = (1 << 32) - 1  # the largest place that a line can give
HIGH_PLACES = (65535, 65536, LAST)

# Places of which some of the low bits, or of those of 512 times the place,
# are those of the place 0 or 1.
WRAPPED_PLACES = (255, 256, 257, 65537, 1 << 16 | 1 << 8, 1 << 23,
                  (1 << 23) + 1, 1 << 24, 1 << 31, (1 << 31) + 1)


def numbered(length):
    """A pack of so many bytes that tell where they stand: each four are a
    number, that of the bytes in front of them."""
    words = (at.to_bytes(4, "big") for at in range(0, length, 4))
    return b"".join(words)[:length]


def pf_case(pack, place):
    return (line("pf", pack.hex(), f"{place:08x}"),
            answer_of(find, pack, place))


def found(block, case):
    """A case that finds this block."""
    assert case[1] == digits(block) and len(block) == SIZE, case[0][-80:]
    return case


def number_found(pack, place):
    """The case that finds the block at this place of a numbered pack, which
    begins with 512 times the place."""
    case = pf_case(pack, place)
    assert case[1].startswith(b"%08x" % (512 * place)), case[0][-80:]
    return found(pack[512 * place:][:512], case)


def lf_case(pack, place, block):
    text = line("lf", pack.hex(), f"{place:08x}", block.hex())
    return lent_case(text, pack, write, pack, place, block)


def low(string):
    """Bytes of a pack to write to: none is zero, and none is one of high()."""
    return bytes(byte % 127 + 1 for byte in string)


def high(string):
    """Bytes to write to such a pack, each of which shows."""
    return bytes(byte | 128 for byte in string)


def wrote(pack, place, block):
    """The case that writes to this part, all that fits, and to no other."""
    given = lf_case(pack, place, block)
    number, left = given[1].decode("ascii").split(" ")
    pairs = zip(pack, bytes.fromhex(left))
    changed = [at for at, (old, new) in enumerate(pairs) if old != new]
    written = min(len(block), SIZE)
    assert number == "0", given[0][-80:]
    assert changed == [512 * place + at for at in range(written)]
    return given


def leaves(number, pack, place, block):
    """The case that is refused with this number: the pack is left as it
    was."""
    given = lf_case(pack, place, block)
    assert given[1] == b"%d %s" % (number, digits(pack)), given[0][-80:]
    return given


def place_cases():
    """Packs of few blocks with every place in them, and places past them."""
    for n in (1, 2, 3):
        pack = numbered(n * SIZE)
        for place in range(n):
            yield number_found(pack, place)
        for place in (n, n + 1, MOST_BLOCKS - 1, MOST_BLOCKS, *HIGH_PLACES):
            yield refused(6, pf_case(pack, place))
    for place in WRAPPED_PLACES:
        yield refused(6, pf_case(numbered(2 * SIZE), place))


def long_cases():
    """Packs of many blocks. The longest has every place at an edge; the others
    have fewer, since these lines are long."""
    for n, inside, past in ((40, (20, 39), (40,)), (127, (126,), (127, 128)),
                            (128, (0, 127), (128, 129, *HIGH_PLACES))):
        pack = numbered(n * SIZE)
        for place in inside:
            yield number_found(pack, place)
        for place in past:
            yield refused(6, pf_case(pack, place))


def length_cases():
    """Packs that are not 1 to 128 whole blocks, with places that would be
    found, were this not looked at, and places that would be number 6."""
    for length in (0, 1, 2, 16, 511, 513, 1023, 1025):
        for place in (0, 1, 2, *HIGH_PLACES):
            yield refused(10, pf_case(numbered(length), place))
    yield refused(10, pf_case(numbered(127 * SIZE - 1), 125))
    yield refused(10, pf_case(numbered(127 * SIZE + 1), 127))
    for length in (128 * SIZE - 1, 128 * SIZE + 1,
                   129 * SIZE - 1, 129 * SIZE + 1):
        for place in (126, 129):
            yield refused(10, pf_case(numbered(length), place))
    for place in (0, 128, 129):
        yield refused(10, pf_case(numbered(129 * SIZE), place))


def sealed_cases(key_length):
    """A pack sealed block by block: what is found at a place is what sealing
    answers for it, and it is opened there alone."""
    draw = byte_drawer("finding: sealed", key_length)
    key, pack_number = draw(key_length), number(draw(8))
    payloads = [draw(length) for length in (100, 0, packs.MOST)]
    blocks = [seal(key, payload, pack_number, place)
              for place, payload in enumerate(payloads)]
    pack = b"".join(blocks)
    for place, payload in enumerate(payloads):
        sealed = ps_case(key, pack_number, place, payload)
        yield sealed
        case = found(blocks[place], pf_case(pack, place))
        assert case[1] == sealed[1]
        yield case
        yield opened(len(payload), po_case(
            key, pack_number, place, find(pack, place)))
        yield refused(8, po_case(
            key, pack_number, place, find(pack, (place + 1) % 3)))
    yield refused(6, pf_case(pack, 3))
    yield refused(10, pf_case(pack[1:], 0))

    # Bytes with no bit, and with all of them.
    for byte in (b"\x00", b"\xff"):
        yield found(byte * SIZE, pf_case(2 * SIZE * byte, 1))


def line_cases():
    """Lines that are not understood, with good ones in between. Two spaces
    are an empty field, so that some differ from a refusal by a space."""
    draw = byte_drawer("finding: lines")
    pack, place = draw(SIZE), "00000000"
    c, k, p = pack.hex(), draw(16).hex(), draw(8).hex()

    for bad in (
        # Missing fields, and too many.
        (), ("",), (c,), (place,), (c, place, ""), (c, place, "00"),
        ("", place, ""), (place, c), (k, p, place), (k, p, place, c),
        # Two spaces.
        ("", c, place), (c, "", place), ("", "", place),
        # The place: empty, and of other lengths.
        (c, ""), ("", ""), (c, "00"), (c, place[:6]), (c, place[:7]),
        (c, place + "0"), (c, place + "00"), (c, 2 * place),
        # An odd number of digits, in both fields together an even one.
        (c[1:], place), (c + "0", place), (c[1:], place[1:]),
        (c + "0", place[1:]), (c[1:], place + "0"), ("0", place),
        # Upper case and other characters.
        ("A" + c[1:], place), (c[:-1] + "F", place), (c, "0000000A"),
        (c[:-1] + "g", place), ("0x" + c[2:], place), (c, "0000000g"),
        (c, "+" + place[1:]), (c, "`" + place[1:]), (c + "\r", place),
        (c, place + "\r"), (c, place[1:] + "\r"), (c, place + "\t"),
        # What would be refused, were it understood.
        (c[2:], "0000000"), (c, "100000000"), (c[3:], "00000001"),
    ):
        yield line("pf", *bad), NO
    yield found(pack, pf_case(pack, 0))

    # Other spaces.
    good = line(c, place)
    for bad in (b" pf " + good, b"pf" + good, b"pf\t" + good,
                b"pf " + good.replace(b" ", b"\t"), b"pf " + good + b" "):
        yield bad, NO

    # Unknown commands.
    for name in (b"p", b"f", b"PF", b"pF", b"Pf", b"pff", b"pfs", b"fp",
                 b"hf", b"af", b"p f", b"pf\0"):
        yield name + b" " + good, NO
    # The commands that have other fields do not read these.
    for name in ("ps", "po", "le", "lo", "lf"):
        yield line(name, c, place), NO

    # Understood: a first field that is empty, or as long as a pack number.
    yield refused(10, pf_case(b"", 0))
    yield refused(10, pf_case(draw(8), 0))
    yield found(pack, pf_case(pack + pack[::-1], 0))


def writing_cases():
    """A block written to every place of packs of few blocks, and to the first
    and the last of the longest pack; blocks of other lengths."""
    draw = byte_drawer("finding: writing")
    for n in (1, 2, 3):
        pack = low(draw(n * SIZE))
        for place in range(n):
            yield wrote(pack, place, high(draw(SIZE)))
    for length in (0, 1, 511, 513, 1024):
        yield wrote(low(draw(3 * SIZE)), 1, high(draw(length)))
    # Cut where the pack ends too.
    for length in (513, 1024):
        yield wrote(low(draw(SIZE)), 0, high(draw(length)))
    # No more of these: the line and its answer are long.
    pack = low(draw(MOST_BLOCKS * SIZE))
    for place in (0, MOST_BLOCKS - 1):
        yield wrote(pack, place, high(draw(SIZE)))


def writing_refusal_cases():
    """Refused, so that nothing is written."""
    draw = byte_drawer("finding: writing refusals")
    for n in (1, 2):
        for place in (n, n + 1, *HIGH_PLACES):
            yield leaves(6, low(draw(n * SIZE)), place, high(draw(SIZE)))
    yield leaves(6, low(draw(SIZE)), 1, b"")
    for length in (0, 511, 513):
        for place in (0, 1, 2, *HIGH_PLACES):
            yield leaves(10, low(draw(length)), place, high(draw(20)))
        yield leaves(10, low(draw(length)), 0, b"")
        yield leaves(10, low(draw(length)), 0, high(draw(SIZE)))


def writing_line_cases():
    """Lines of a lent pack that are not understood, with good ones in
    between."""
    draw = byte_drawer("finding: writing lines")
    pack, block = low(draw(6)), high(draw(5))
    c, n, b = pack.hex(), "00000000", block.hex()

    for bad in (
        # Missing fields, and a fourth.
        (), ("",), (c,), (c, n), (c, b), (n, b), (c, n, b, ""),
        (c, n, b, "00"), (c, n, b, b), ("", n, "", ""),
        # Two spaces.
        ("", c, n, b), (c, "", n, b), (c, n, "", b),
        # Fields in another order.
        (c, b, n), (n, c, b), (b, c, n),
        # The place: empty, and of other lengths.
        (c, "", b), (c, "", ""), (c, "00", b), (c, n[2:], b), (c, n[1:], b),
        (c, n + "0", b), (c, n + "00", b), (c, 2 * n, b),
        # An odd number of digits, in two fields together an even one.
        (c[1:], n, b), (c + "0", n, b), (c, n, b[1:]), (c, n, b + "0"),
        (c[1:], n, b + "0"), (c[1:], n[1:], b), (c, n[1:], b + "0"),
        (c, n + "0", b[1:]), ("0", n, b), (c, n, "0"),
        # Upper case and other characters.
        ("A" + c[1:], n, b), (c[:-1] + "F", n, b), (c, "0000000A", b),
        (c, n, "A" + b[1:]), (c, n, b[:-1] + "F"), (c[:-1] + "g", n, b),
        (c, "0000000g", b), (c, n, b[:-1] + "g"), (c + "\r", n, b),
        (c, n, b + "\r"), (c, n, b[:-1] + "\r"), (c, n, b + "\t"),
    ):
        yield line("lf", *bad), NO
    yield leaves(10, pack, 0, block)

    # Other spaces, and unknown commands.
    good = line(c, n, b)
    for bad in (b" lf " + good, b"lf" + good, b"lf\t" + good,
                b"lf " + good.replace(b" ", b"\t"), b"lf " + good + b" "):
        yield bad, NO
    for name in (b"l", b"LF", b"lF", b"Lf", b"lff", b"lfs", b"fl", b"l f",
                 b"lf\0", b"hf", b"af"):
        yield name + b" " + good, NO
    # The commands that have other fields do not read these.
    for name in ("pf", "ps", "po", "ls", "lo"):
        yield line(name, c, n, b), NO

    # Understood: empty fields.
    yield leaves(10, b"", 0, b"")
    yield leaves(10, b"", LAST, block)
    yield wrote(low(draw(SIZE)), 0, block)


UNDERSTOOD = re.compile(
    rb"pf B D{8}|lf B D{8} B|p[so] B D{16} D{8} B".replace(
        b"B", rb"(D{2})*").replace(b"D", rb"[0-9a-f]"))


def cases():
    """All cases of this part; the last line is understood."""
    return gather((place_cases, long_cases, length_cases,
                   *under_each_key(sealed_cases), line_cases, writing_cases,
                   writing_refusal_cases, writing_line_cases), UNDERSTOOD)


def check():
    """Finding itself, and that no two parts of 512 bytes of a numbered pack
    are the same, so that each part taken from a wrong byte shows."""
    finding.check()
    longest = numbered(129 * SIZE + 1)
    starts = range(len(longest) - SIZE + 1)
    assert len({longest[at:at + SIZE] for at in starts}) == len(starts)
