"""The cases of the program boardline: pairs of a line and its answer.

    E key tweak data    the data enciphered
    D key tweak data    the data deciphered

An overlong line is followed by a good one, so that a program which takes a
part of the first for a line of its own is found out.

Each group of cases draws from a generator with a seed of its own, so that a
change to one group leaves the others as they were.
"""

import itertools
import re

import boardline
import cases_hch
from boardline import LONGEST
from hch import LEAST, MOST
from lines import WRONG_KEYS, byte_drawer, digits, line, under_each_key

UNDERSTOOD = re.compile(rb"[ED]( ([0-9a-f]{2})*){3}")
NAMES = ("E", "D")

# A line holds a command, three spaces and two digits for each of so many
# bytes in the three fields.
MOST_BYTES = (LONGEST - 4) // 2

# A read often takes so many bytes at most.
BUFFER = 65536


def text(name, key, tweak, data):
    return line(name, key.hex(), tweak.hex(), data.hex())


def case(given):
    """The line and its answer, which is number 9 exactly if the line is too
    long or the pattern does not match all of it."""
    answer = boardline.answer(given)
    good = len(given) <= LONGEST and UNDERSTOOD.fullmatch(given)
    assert (answer == b"no 9") == (not good), given[:80]
    return given, answer


def refused(number, given):
    """A line that is refused with this number."""
    _, answer = case(given)
    assert answer == b"no %d" % number, given[:80]
    return given, answer


def both(number, key, tweak, data):
    """A call that is refused with this number, in both directions."""
    for name in NAMES:
        yield refused(number, text(name, key, tweak, data))


def pair(first, second, key, tweak, data):
    """The data sent one way, and the answer sent back."""
    given, answer = case(text(first, key, tweak, data))
    yield given, answer
    start = line(second, key.hex(), tweak.hex(), "")
    given, back = case(start + answer)
    assert back == digits(data)
    yield given, back


def good(draw, length=LEAST, key_length=16):
    """A line that is not refused, which draws all that it holds."""
    given, answer = case(text("E", draw(key_length), draw(16), draw(length)))
    assert len(answer) == 2 * length
    return given, answer


def example_cases():
    """01's whole case."""
    for given in boardline.lines(boardline.WHOLE_INPUT):
        yield case(given)


def length_cases(key_length):
    """Every residue modulo 16, twice and a bit more, and the edges."""
    draw = byte_drawer("boardline: lengths", key_length)
    for length in range(LEAST, 51):
        yield from pair("E", "D", draw(key_length), draw(16), draw(length))
        yield from pair("D", "E", draw(key_length), draw(16), draw(length))
    for byte in (b"\x00", b"\xff"):
        yield from pair("E", "D", key_length * byte, 16 * byte, 33 * byte)
    yield from pair("E", "D", draw(key_length), draw(16), draw(512))
    yield from pair("E", "D", draw(key_length), draw(16), draw(MOST))


def half_cases():
    """Keys that share a half: the lines of cases_hch.py."""
    for given, answer in cases_hch.half_cases():
        name, fields = given.split(b" ", 1)
        same = case({b"he": b"E ", b"hd": b"D "}[name] + fields)
        assert same[1] == answer
        yield same


def refusal_cases(key_length):
    """Each number of the library, and each two of them together."""
    draw = byte_drawer("boardline: refusals", key_length)
    key, tweak, board = draw(key_length), draw(16), draw(40)
    over = draw(MOST + 1)
    shorter, longer = key_length - 1, key_length + 1
    tweaks = (0, 1, 15, 17, 32)

    for length in WRONG_KEYS[key_length]:
        yield from both(1, draw(length), tweak, board)
    yield good(draw, key_length=key_length)
    for length in tweaks:
        yield from both(2, key, draw(length), board)
    yield good(draw, key_length=key_length)
    for length in (0, 1, 15):
        yield from both(3, key, tweak, draw(length))
    yield from both(4, key, tweak, over)
    yield good(draw, LEAST + 1, key_length)

    # Without data that is too long: 1 and 2, 1 and 3, 2 and 3, and all. A
    # wrong key and a wrong tweak have together the bytes of good ones.
    for length in (0, 1, shorter, longer):
        for other in tweaks:
            yield from both(1, draw(length), draw(other), board)
        for short in (0, 15):
            yield from both(1, draw(length), tweak, draw(short))
            yield from both(1, draw(length), draw(key_length + 16 - length),
                            draw(short))
    for other in tweaks:
        for short in (0, 15):
            yield from both(2, key, draw(other), draw(short))
    # With it: 1 and 4, 2 and 4, and all.
    yield from both(1, draw(shorter), tweak, over)
    yield from both(2, key, draw(17), over)
    yield refused(1, text("E", draw(longer), draw(15), over))
    yield good(draw, key_length=key_length)


def empty_cases(key_length):
    """Empty fields, in each place and in several."""
    draw = byte_drawer("boardline: empty fields", key_length)
    key, tweak, board = draw(key_length), draw(16), draw(40)
    for fields in itertools.product((key, b""), (tweak, b""), (board, b"")):
        if b"" in fields:
            number = 1 + fields.index(b"")
            yield from both(number, *fields)
    yield good(draw, key_length=key_length)


def malformed_cases():
    """Lines that are not understood. Two spaces are an empty field, so that
    some differ from a refusal by a space."""
    draw = byte_drawer("boardline: malformed")
    parts = key, tweak, data = [
        digits(draw(length)) for length in (16, 16, 20)]
    fields = b" ".join(parts)

    def with_field(place, field):
        return b" ".join([*parts[:place], field, *parts[place + 1:]])

    yield refused(9, b"")
    yield refused(9, b"")
    for name in (b"E", b"D"):
        start = name + b" "
        yield case(start + fields)
        for bad in (
            # Missing fields, and too many; all of them empty or some.
            name, start, start + b" ", start + b"   ", start + b"    ",
            start + key, start + key + b" ", start + key + b" " + tweak,
            start + fields + b" 00", start + fields + b" " + data,
            # Other spaces.
            b" " + start + fields, start + fields + b" ",
            start + b" " + fields,
            start + key + b"  " + tweak + b" " + data,
            start + key + b" " + tweak + b"  " + data,
            name + fields, name + key + b" " + tweak + b" " + data,
            start + key + tweak + data, start + key + tweak + b" " + data,
            name + b"\t" + fields, start + fields.replace(b" ", b"\t", 1),
            start + fields.replace(b" ", b"\xc2\xa0", 1),
            start + fields.replace(b" ", b"\0"), start + fields + b"\t",
            # Other ends of a line.
            start + fields + b"\r", start + fields + b"\0",
            start + fields + b"\x0b", start + fields + b"\x0c",
            start + fields + b"\x85", start + fields + b"\x1a",
            start + fields + b"\r" + start + fields,
            name + b"   \r", b"\r" + start + fields,
            # Other ways to write a field.
            start + b"0x" + fields, start + b"-" + fields,
            start + b'"" "" ""', start + b"- - -",
            # Two commands in one line.
            start + fields + start + fields,
            start + fields + b" " + start + fields,
        ):
            yield refused(9, bad)

        # In each field the characters just outside of the ranges, an
        # upper-case digit, a missing digit and one too many.
        for place, part in enumerate(parts):
            for other in (b"/", b":", b"@", b"G", b"`", b"g", b"A", b"F"):
                for bad in (other + part[1:], part[:-1] + other,
                            part[:15] + other + part[16:]):
                    yield refused(9, start + with_field(place, bad))
            for bad in (part[1:], part + b"0", b"0"):
                yield refused(9, start + with_field(place, bad))
        # In two fields together an even number.
        yield refused(9, start + key[1:] + b" 0" + tweak + b" " + data)
        yield refused(9, start + key + b" " + tweak[1:] + b" 0" + data)
        yield good(draw, 33)

    # Other commands.
    for name in (b"e", b"d", b"A", b"B", b"C", b"F", b"Q", b"EE", b"DD",
                 b"ED", b"DE", b"Ed", b"0", b"", b"e0", b"E\0", b"\0E",
                 b"\xef\xbb\xbfE", b"E:", b"he", b"HE"):
        yield refused(9, name + b" " + fields)
    for bad in (b" ", b"  ", b"   ", b"    ", b"\0", b"\r", b"\t", b"Q",
                b"no 9", b"--help"):
        yield refused(9, bad)
    yield good(draw)


def byte_cases():
    """Each byte alone, and in the place of a digit; a line feed cannot be."""
    draw = byte_drawer("boardline: bytes")
    given, _ = good(draw, LEAST + 1)
    for byte in (bytes([value]) for value in range(256)):
        if byte != b"\n":
            yield refused(9, byte)
            yield case(given[:-1] + byte)
    yield good(draw)


def order_cases(key_length):
    """Number 9 before every number of the library."""
    draw = byte_drawer("boardline: order", key_length)
    key, tweak, data = (digits(draw(length))
                        for length in (key_length, 16, 20))
    over = digits(draw(MOST + 1))
    for name in (b"E", b"D"):
        for fields in (
            # 1
            (b"00", tweak, data[1:]), (b"", b"", b"0"), (b"", b"0", b""),
            (b"0", b"", b""), (b"00", tweak, data, b""),
            (key[2:], tweak.upper(), data), (key[1:], tweak, data),
            # 2
            (key, b"00", data[:-1]), (key, b"0", b""), (key, b"", b"0A"),
            (key, b"00", data, b""), (b"g" + key[1:], b"00", data),
            # 3
            (key, tweak, b"0"), (key, tweak, b"0g"), (key, tweak, b"", b""),
            (key[:-1] + b"G", tweak, b""), (key, tweak, data[:31]),
            # 4
            (key, tweak, over[1:]),
        ):
            yield refused(9, b" ".join((name, *fields)))
    yield good(draw, key_length=key_length)


def longest_cases():
    """Lines about as long as a line may be. With three spaces one that is
    understood has an even number of characters."""
    draw = byte_drawer("boardline: longest")
    key, tweak = draw(16), draw(16)

    longest = text("E", key, tweak, draw(MOST_BYTES - 32))
    assert len(longest) == LONGEST
    yield refused(4, longest)
    yield good(draw)
    yield refused(1, text("D", draw(MOST_BYTES), b"", b""))
    yield refused(2, text("E", key, draw(MOST_BYTES - 16), b""))
    yield refused(9, longest[:-1] + b"g")
    yield good(draw)
    yield refused(9, longest[:-1])

    # One character more, or two: what is left without it is understood.
    for bad, extra in ((longest + b"0", 1), (longest + b"\r", 1),
                       (longest + b"00", 2), (b"E" + longest, 1),
                       (text("D", draw(MOST_BYTES + 1), b"", b""), 2)):
        assert len(bad) == LONGEST + extra
        yield refused(9, bad)
        yield good(draw)


def longest_board_cases():
    """The longest board under a key of 32 bytes: its line is eight characters
    shorter than a line may be. Then one byte more, as many as a line may have,
    and a character too many."""
    draw = byte_drawer("boardline: longest board")
    longest = text("D", draw(32), draw(16), draw(MOST_BYTES - 48))
    assert len(longest) == LONGEST
    given, answer = case(longest[:-8])
    assert len(answer) == 2 * MOST
    yield given, answer
    yield refused(4, longest[:-6])
    yield refused(4, longest)
    yield refused(9, longest + b"0")
    yield good(draw, key_length=32)


def overlong_cases():
    """Lines of which a part would be a good line: the part after as many
    characters as a line may have, or after as many as a read may take."""
    draw = byte_drawer("boardline: overlong")
    for length in (LONGEST, LONGEST + 1, BUFFER):
        tail, _ = good(draw, 2000)
        yield refused(9, b"0" * length + tail)
        yield good(draw, 20)
    # The same before so many characters, and at both ends.
    head, _ = good(draw, 20)
    tail, _ = good(draw, 20)
    yield refused(9, head + b" " * LONGEST)
    yield good(draw, 20)
    yield refused(9, head + b"\0" * LONGEST + tail)
    yield refused(9, b"")
    yield good(draw, 48)


def cases():
    """All cases; the last line is a good one."""
    given = [one for group in (
        example_cases,
        *under_each_key(length_cases, refusal_cases, empty_cases,
                        order_cases),
        half_cases, malformed_cases, byte_cases, longest_cases,
        longest_board_cases, overlong_cases,
    ) for one in group()]
    lines = [text for text, _ in given]
    assert boardline.lines(b"\n".join(lines)) == lines
    return given


def check():
    boardline.check()
