"""The cases of the field: pairs of a line and its answer.

    x a          a times x
    m a b        the product of a and b
    s r a1 .. an the keyed sum over the n blocks a1 .. an, n from 0 on

Each group of cases draws from a generator with a seed of its own, so that a
change to one group leaves the others as they were.
"""

import re

import field
from field import ONES, TOP, to_text
from lines import LONGEST, NO, drawer, line

SPECIAL = [0, 1, 2, TOP, ONES, 0x87]
LENGTHS = [0, 1, 2, 3, 4, 7, 16, 31, 32, 255, 256]

# A line holds a letter and (space, 32 digits) so many times: the key of the
# sum and this number of blocks.
MOST_BLOCKS = (LONGEST - 1) // 33 - 1


def x_case(a):
    return line("x", to_text(a)), to_text(field.times_x(a)).encode("ascii")


def m_case(a, b):
    answer = to_text(field.product(a, b)).encode("ascii")
    return line("m", to_text(a), to_text(b)), answer


def s_case(r, blocks):
    answer = to_text(field.power_sum(r, blocks)).encode("ascii")
    return line("s", to_text(r), *map(to_text, blocks)), answer


def times_x_cases():
    draw = drawer("field: x")
    for a in SPECIAL:
        yield x_case(a)
    for power in range(128):
        yield x_case(1 << power)
    for _ in range(16):
        yield x_case(draw())


def product_cases():
    draw = drawer("field: m")
    for a in SPECIAL:
        for b in SPECIAL:
            yield m_case(a, b)
    # Every power from 127 to 254 of the product, reduced on its own.
    for power in range(128):
        yield m_case(TOP, 1 << power)
    for _ in range(20):
        a, b = draw(), draw()
        yield m_case(a, b)
        yield m_case(b, a)
    for a in SPECIAL:
        b = draw()
        yield m_case(a, b)
        yield m_case(b, a)
    for _ in range(4):
        a = draw()
        yield m_case(a, a)


def sum_cases():
    draw = drawer("field: s")
    for n in LENGTHS:
        for r in (0, 1, TOP, draw()):
            yield s_case(r, [draw() for _ in range(n)])
    # A single 1 among zeros answers the power of R that its place has.
    for r in (2, draw()):
        for place in range(5):
            yield s_case(r, [int(i == place) for i in range(5)])
    for r in (ONES, draw()):
        yield s_case(r, [0] * 8)
        yield s_case(r, [ONES] * 8)
    # The longest line that is understood.
    yield s_case(draw(), [draw() for _ in range(MOST_BLOCKS)])


def line_cases():
    """Lines that are not understood, with good ones in between."""
    draw = drawer("field: lines")
    a, b, c = (to_text(draw()).encode("ascii") for _ in range(3))
    upper = b"ABCDEF" + a[6:]

    for bad in (
        # Spaces and missing fields.
        b"", b" ", b"x", b"x ", b"m", b"m ", b"s", b"s ",
        b" x " + a, b"x " + a + b" ", b"x  " + a, b"x\t" + a,
        b"x " + a + b"\t", b"x" + a, a,
        b"m " + a, b"m " + a + b" ", b"m " + a + b"  " + b,
        b"m " + a + b + b" ", b"m " + a + b,
        b"s " + a + b" ", b"s " + a + b"  " + b, b"s  " + a + b" " + b,
        # Too many fields.
        b"x " + a + b" " + b, b"m " + a + b" " + b + b" " + c,
        # Unknown commands.
        b"q", b"q " + a, b"X " + a, b"M " + a + b" " + b, b"xx " + a,
        b"mm " + a + b" " + b, b"xm " + a,
        # Blocks of another length.
        b"x " + a[:30], b"x " + a[:31], b"x " + a + b"0", b"x " + a + b"00",
        b"x 0x" + a[:30], b"m " + a[:31] + b" " + b + b"0",
        b"s " + a[:30], b"s " + a + b" " + b[:30] + b" " + c,
        b"s " + a + b" " + b + b" " + c[:31],
        # Other characters: the neighbours of the digits, and what is no text.
        b"x " + upper, b"m " + a + b" " + upper,
        b"x " + a[:31] + b"g", b"x g" + a[1:], b"x " + a[:31] + b"`",
        b"x " + a[:31] + b"/", b"x " + a[:31] + b":", b"x +" + a[1:],
        b"x " + a[:15] + b"_" + a[16:],
        b"x " + a + b"\r", b"\r", b"x " + a[:10] + b"\r" + a[11:],
        b"x " + a[:31] + b"\0", b"x " + a + b"\0", b"\0",
        b"x " + a[:31] + b"\xff", b"\xff " + a,
        b"x " + a[:30] + "\u00e9".encode("utf-8"),
    ):
        yield bad, NO
    yield x_case(draw())

    # About the longest line. The first would be a sum, were it not cut off
    # inside a block; the second is one, and too long for that alone.
    blocks = b"s" + (b" " + a) * (MOST_BLOCKS + 2)
    assert len(blocks) == LONGEST + 1
    for bad in (blocks[:LONGEST], blocks):
        yield bad, NO
        yield m_case(draw(), draw())

    # One line, and one answer, also where its first or its last characters
    # would be a good line by themselves. The last goes on for more than the
    # 65,536 bytes that are read at a time.
    good = b"x " + a
    for bad in (
        good.ljust(LONGEST + 1),
        b"q" * LONGEST + good,
        b"q" * (LONGEST + 70000) + good,
    ):
        yield bad, NO
        yield m_case(draw(), draw())


UNDERSTOOD = re.compile(rb"(x B|m B B|s B( B)*)".replace(
    b"B", rb"[0-9a-f]{32}"))


def cases():
    """All cases of this part; the last is a line that is understood."""
    for group in (times_x_cases, product_cases, sum_cases, line_cases):
        for text, answer in group():
            good = len(text) <= LONGEST and UNDERSTOOD.fullmatch(text)
            assert (answer == NO) == (not good), text[:80]
            yield text, answer


def check():
    field.check()
