"""The program boardline, written from 01-scope.md, "For the app, and at the
desk".

answers(data) is all that the program writes for the whole input data. Both
are bytes objects. The reading of 01: a character is a byte, a line ends at a
line feed and at nothing else, and number 9 comes before every number of the
library.
"""

import hch
from hch import Refused

LONGEST = 8300  # characters before the line feed
DIGITS = b"0123456789abcdef"
DIRECTIONS = {b"E": hch.encipher, b"D": hch.decipher}

# "Whole input (one case)", and "Whole output".
WHOLE_INPUT = b"""\
E 00 00000000000000000000000000000000 00
D 00000000000000000000000000000000 00 00
D 00000000000000000000000000000000 00000000000000000000000000000000 00
Q
"""
WHOLE_OUTPUT = b"""\
no 1
no 2
no 3
no 9
"""


def lines(data):
    """The lines of an input, without their line feeds. "The last line may
    lack its line feed. After a final line feed no further line follows."
    """
    *ended, last = data.split(b"\n")
    return [*ended, last] if last else ended


def parse(line):
    """The direction, the key, the tweak and the data: "each written in
    lower-case hexadecimal, two digits a byte; each may be empty". "All else,
    an empty line too, is number 9."
    """
    name, *fields = line.split(b" ")
    if len(line) > LONGEST or name not in DIRECTIONS or len(fields) != 3:
        raise Refused(9)
    for field in fields:
        if len(field) % 2 != 0 or any(digit not in DIGITS for digit in field):
            raise Refused(9)
    return DIRECTIONS[name], *(bytes.fromhex(field.decode("ascii"))
                               for field in fields)


def answer(line):
    """"The result in the same digits, or `no `, the number in decimal", for
    one line; both without their line feeds.
    """
    try:
        direction, key, tweak, data = parse(line)
        return direction(key, tweak, data).hex().encode("ascii")
    except Refused as refused:
        return b"no %d" % refused.number


def answers(data):
    """The whole output for a whole input."""
    return b"".join(answer(line) + b"\n" for line in lines(data))


def check():
    """01's whole case, and the edges of lines and of an input."""
    assert answers(WHOLE_INPUT) == WHOLE_OUTPUT
    assert answers(WHOLE_INPUT.removesuffix(b"\n")) == WHOLE_OUTPUT

    assert lines(b"") == [] and answers(b"") == b""
    assert lines(b"\n") == [b""] and answers(b"\n") == b"no 9\n"
    assert lines(b"Q\n\n") == [b"Q", b""]
    assert lines(b"\nQ") == [b"", b"Q"]
    assert lines(b"a\r\nb\x0b\x0c\x85\0c") == [b"a\r", b"b\x0b\x0c\x85\0c"]

    tweak, board = bytes(range(16, 32)), bytes(20)
    for length in hch.KEY_LENGTHS:
        key = bytes(range(length))
        fields = b" ".join(field.hex().encode("ascii")
                           for field in (key, tweak, board))
        result = answer(b"E " + fields)
        assert result == hch.encipher(key, tweak, board).hex().encode("ascii")
        back = b" ".join([b"D", *fields.split(b" ")[:2], result])
        assert answer(back) == board.hex().encode("ascii")

    assert answer(b"E   ") == b"no 1"
    for bad in (b"", b"E", b"E ", b"E  ", b"E    ", b" E   ", b"e   ",
                b"E   0", b"E   0A", b"E   0g", b"E   \r", b"E   \0",
                b"E\t  ", b"E " + fields + b" "):
        assert answer(bad) == b"no 9", bad
    # The fields of a line of 8,300 characters have 8,296 digits.
    assert len(b"E   " + b"0" * 8296) == LONGEST
    assert answer(b"E   " + b"0" * 8296) == b"no 1"
    assert answer(b"E   " + b"0" * 8297) == b"no 9"
    assert answer(b"E   " + b"0" * 8298) == b"no 9"
