"""The cases of HCH: pairs of a line and its answer.

    he k t d     the data d enciphered under the key k and the tweak t
    hd k t d     the data d deciphered under the key k and the tweak t

Each field has two digits a byte and may be empty, so that `he` and three
spaces are three empty fields. The answer is the result in the same digits, or
NO, a space and the number of the refusal; or NO alone where the line is not
understood, and this is looked at before every number.

Each group of cases draws from a generator with a seed of its own, so that a
change to one group leaves the others as they were. Where a group is given the
names of other commands its cases are those, as in cases_forward.py.
"""

import itertools
import re

import aes
import forward
import hch
from field import ONES, TOP
from hch import LEAST, MOST
from lines import (LONGEST, NO, WRONG_KEYS, answer_of, byte_drawer, gather,
                   line, sharing_halves, under_each_key)

ZERO_BLOCK, ONES_BLOCK = bytes(16), b"\xff" * 16

# The studio's lost file was that long: 77 blocks and 4 bytes.
LOST_FILE = 1236

# A line holds a command, three spaces and two digits for each of so many
# bytes in the three fields.
MOST_BYTES = (LONGEST - 5) // 2

# The calls on data by their commands, those of both schemes.
DIRECTIONS = {"he": hch.encipher, "hd": hch.decipher,
              "fe": forward.encipher, "fd": forward.decipher}
NAMES = ("he", "hd")


def case(name, key, tweak, data):
    return (line(name, key.hex(), tweak.hex(), data.hex()),
            answer_of(DIRECTIONS[name], key, tweak, data))


def refused(number, key, tweak, data, names=NAMES):
    """A case that is refused with this number, in the directions named."""
    for name in names:
        text, answer = case(name, key, tweak, data)
        assert answer == NO + b" %d" % number
        yield text, answer


def both(key, tweak, data, names=NAMES):
    """The data enciphered, and the same data deciphered."""
    for name in names:
        yield case(name, key, tweak, data)


def pair(first, second, key, tweak, data):
    """The data sent one way, and the result sent back."""
    yield case(first, key, tweak, data)
    text, answer = case(second, key, tweak, DIRECTIONS[first](
        key, tweak, data))
    assert answer == data.hex().encode("ascii")
    yield text, answer


def length_cases(key_length):
    """Every length to six blocks, each with two pairs: the first under a key
    and a tweak of its own, the second under some that return in turn."""
    draw = byte_drawer("hch: lengths", key_length)
    keys = [bytes(key_length), b"\xff" * key_length, draw(key_length)]
    tweaks = [ZERO_BLOCK, ONES_BLOCK, draw(16), draw(16), draw(16)]
    turns = itertools.cycle(itertools.product(keys, tweaks))
    for length in range(LEAST, 97):
        yield from pair("he", "hd", draw(key_length), draw(16), draw(length))
        yield from pair("hd", "he", *next(turns), draw(length))


def long_cases(key_length, names=NAMES):
    """Lengths about 512 bytes, and up to the most. Zeros that are as long as a
    block are data as any other here."""
    draw = byte_drawer("hch: long", key_length)
    e, d = names
    for length in (511, 512, 513):
        yield from pair(e, d, draw(key_length), draw(16), draw(length))
        yield from pair(d, e, draw(key_length), draw(16), draw(length))
    for length in (4080, 4081, 4095):
        yield from pair(e, d, draw(key_length), draw(16), draw(length))
    yield from pair(e, d, draw(key_length), draw(16), draw(MOST))
    yield from pair(d, e, b"\xff" * key_length, ZERO_BLOCK, b"\xff" * MOST)
    yield from both(draw(key_length), draw(16), bytes(512), names)


def lost_file_cases(key_length, names=NAMES):
    draw = byte_drawer("hch: lost file", key_length)
    key, tweak, board = draw(key_length), draw(16), draw(LOST_FILE)
    yield from pair(*names, key, tweak, board)
    yield from pair(*names[::-1], key, tweak, board)
    yield from both(bytes(key_length), ZERO_BLOCK, bytes(LOST_FILE), names)
    yield from both(key, tweak, other_bit(board, 0x01), names)


def board_cases(key_length, lengths=(16, 17, 20, 31, 32, 33, 48, 49),
                same=(16, 24, 48), names=NAMES):
    """Boards of one byte over and over, which tell a length from the next,
    under keys and tweaks of the same kind."""
    draw = byte_drawer("hch: boards", key_length)
    keys = [bytes(key_length), b"\xff" * key_length]
    for length in lengths:
        for key, tweak in itertools.product(keys, (ZERO_BLOCK, ONES_BLOCK)):
            for byte in (b"\x00", b"\xff"):
                yield from both(key, tweak, byte * length, names)
    # The tweak and each block of the key and of the data all the same.
    for length in same:
        block = draw(16)
        yield from both((2 * block)[:key_length], block, (3 * block)[:length],
                        names)


def other_bit(string, bit):
    """The string with this bit of its last byte changed."""
    return string[:-1] + bytes([string[-1] ^ bit])


def bit_cases(key_length):
    """Boards that differ in one bit of the last byte, and then a tweak and a
    key that do."""
    draw = byte_drawer("hch: bits", key_length)
    for length in (16, 17, 24, 32, 33, 64, 100):
        key, tweak, board = draw(key_length), draw(16), draw(length)
        yield from both(key, tweak, board)
        for bit in (0x01, 0x80):
            yield from both(key, tweak, other_bit(board, bit))
        yield from both(key, other_bit(tweak, 0x01), board)
        yield from both(other_bit(key, 0x01), tweak, board)


def hash_cases(key_length):
    """Tweaks chosen so that R is a given block (with R = 0 the hash is that
    of P11), or else Q is."""
    draw = byte_drawer("hch: hash", key_length)
    for length in (16, 20, 32, 40, 64):
        for block in (0, 1, TOP, ONES):
            key, board = draw(key_length), draw(length)
            R = hch.binary(block)
            yield from both(key, aes.inv_cipher(key, R), board)
            Q = hch.binary(block)
            R = aes.xor(aes.inv_cipher(key, Q), hch.binary(8 * length))
            yield from both(key, aes.inv_cipher(key, R), board)


def half_cases():
    """A board under keys that share a half, and what it becomes under the
    first of them deciphered under all."""
    draw = byte_drawer("hch: halves")
    for length in (16, 40):
        key, tweak, board = draw(32), draw(16), draw(length)
        keys = [key, *sharing_halves(key, draw(32))]
        for each in keys:
            yield case("he", each, tweak, board)
            yield case("hd", each, tweak, hch.encipher(key, tweak, board))
        assert len({hch.encipher(each, tweak, board)
                    for each in keys}) == len(keys)


def refusal_cases(key_length):
    draw = byte_drawer("hch: refusals", key_length)
    key, tweak, board = draw(key_length), draw(16), draw(40)
    over = draw(MOST + 1)
    shorter, longer = key_length - 1, key_length + 1

    for length in WRONG_KEYS[key_length]:
        yield from refused(1, draw(length), tweak, board)
    yield case("he", key, tweak, draw(LEAST))
    for length in (0, 1, 15, 17, 32):
        yield from refused(2, key, draw(length), board)
    yield case("hd", key, tweak, draw(LEAST))
    for length in (0, 1, 15):
        yield from refused(3, key, tweak, draw(length))
    yield from refused(4, key, tweak, over)
    yield from refused(4, key, tweak, draw(5000), ["hd"])
    yield case("he", key, tweak, draw(LEAST))

    # Several conditions at once, first without data that is too long. A key
    # with a byte less and a tweak of 17, or one more and a tweak of 15, have
    # together the bytes of good ones.
    for wrong in (0, shorter, longer):
        for other in (0, 15, 17):
            yield from refused(1, draw(wrong), draw(other), board)
            yield from refused(1, draw(wrong), draw(other), draw(15))
        for length in (0, 1, 15):
            yield from refused(1, draw(wrong), tweak, draw(length))
            yield from refused(2, key, draw(wrong), draw(length))
    yield from refused(1, b"", b"", b"")
    yield from refused(1, draw(shorter), tweak, over)
    yield from refused(2, key, draw(17), over)
    yield from refused(1, draw(longer), draw(15), over, ["he"])
    yield case("hd", key, tweak, draw(LEAST + 1))


def longest_cases():
    """The longest lines that are understood: all in the data, all in the
    key."""
    draw = byte_drawer("hch: longest")
    key, tweak = draw(16), draw(16)
    yield from refused(4, key, tweak, draw(MOST_BYTES - 32), ["he"])
    yield from refused(1, draw(MOST_BYTES), b"", b"", ["hd"])
    yield case("he", key, tweak, draw(LEAST + 1))


def line_cases():
    """Lines that are not understood, with good ones in between. Two spaces
    are an empty field, so that some differ from a refusal by a space."""
    draw = byte_drawer("hch: lines")
    key, tweak, data = (draw(length).hex().encode("ascii")
                        for length in (16, 16, 20))
    upper = b"ABCDEF" + key[6:]
    start = key + b" " + tweak + b" "
    good = start + data

    for name in (b"he", b"hd"):
        for bad in (
            # Missing fields, and too many; all of them empty or some.
            name, name + b" ", name + b"  ", name + b"    ",
            name + b" " + key, name + b" " + key + b" " + tweak,
            name + b" " + good + b" ", name + b" " + good + b" 00",
            name + b"  " + good, name + b" " + start + b" " + data,
            name + b" " + key + b"  " + tweak + b" " + data,
            # An odd number of digits, in two fields together an even one.
            name + b" " + key[1:] + b" 0" + tweak + b" " + data,
            name + b" " + start + data[1:],
            # Other characters.
            name + b" " + upper + b" " + tweak + b" " + data,
            name + b" " + start + data[:-1] + b"g",
            name + b" " + good + b"\r",
        ):
            yield bad, NO
        yield case("hd", draw(16), draw(16), draw(33))

    for bad in (
        # Other spaces.
        b" he " + good, b"he" + good, b"he\t" + good,
        b"hd " + key + b"\t" + tweak + b" " + data, b"hd " + good + b"\t",
        # Other characters, in each of the fields.
        b"hd " + key + b" " + upper + b" " + data,
        b"he " + start + upper, b"hd " + start + data[:-1] + b"F",
        b"he " + start + b"0x" + data, b"hd /" + good[1:],
        b"he :" + good[1:], b"hd `" + good[1:], b"he " + good + b"\0",
        b"hd " + start + data[:-1] + b"\xff",
        # What would be refused, were it understood.
        b"he 0 " + tweak + b" " + data, b"hd 00 00 0", b"he   0", b"hd g  ",
        b"he " + key + b" 00 " + upper,
    ):
        yield bad, NO
    yield case("he", draw(16), draw(16), draw(47))

    # Unknown commands.
    for name in (b"h", b"e", b"hee", b"hed", b"hc", b"hf", b"HE", b"hD",
                 b"eh", b"ie", b"h e", b"he\0"):
        yield name + b" " + good, NO
    yield case("hd", draw(16), draw(16), draw(48))

    # One byte more than the longest line holds.
    bad = b"he " + start + b"00" * (MOST_BYTES - 31)
    assert len(bad) == LONGEST + 1
    yield bad, NO
    yield from pair("hd", "he", draw(16), draw(16), draw(49))


UNDERSTOOD = re.compile(rb"h[ed]( ([0-9a-f]{2})*){3}")


def cases():
    """All cases of this part; the last line is understood."""
    return gather((*under_each_key(length_cases, long_cases, lost_file_cases,
                                   board_cases, bit_cases, hash_cases,
                                   refusal_cases),
                   longest_cases, half_cases, line_cases), UNDERSTOOD)


def check():
    hch.check()
