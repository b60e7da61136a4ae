"""What all parts share: the line format of the program under test, the random
bytes, and the keys of both lengths.

A line is a case. Its fields are separated by exactly one space. It has at
most LONGEST characters before its line feed. A line that is not understood,
or is longer, answers NO once.
"""

import functools
import random

from hch import KEY_LENGTHS, Refused

LONGEST = 135168  # the digits of 132 blocks of 512 bytes
NO = b"no"

# Lengths that are no key's: those that the cases under keys of 16 bytes try,
# and those that the cases under keys of 32 bytes do.
WRONG_KEYS = {16: (0, 1, 15, 17, 24, 31), 32: (0, 15, 17, 24, 31, 33, 64)}


def line(*fields):
    """The fields of a case as one line of bytes, without its line feed."""
    return " ".join(fields).encode("ascii")


def digits(string):
    """The bytes in hexadecimal digits, two a byte."""
    return string.hex().encode("ascii")


def answer_of(call, *arguments):
    """The bytes that a call returns in digits, or NO, a space and the number
    of its refusal."""
    try:
        return digits(call(*arguments))
    except Refused as refusal:
        return NO + b" %d" % refusal.number


def drawer(seed):
    """A function that draws the next random block, as an int."""
    rng = random.Random(seed)
    return lambda: rng.getrandbits(128)


def byte_drawer(seed, key_length=16):
    """A function that draws so many random bytes. A group of cases under keys
    of both lengths has a seed for each."""
    draw = drawer(seed if key_length == 16 else f"{seed}, {key_length}")

    def bytes_drawn(length):
        blocks = [draw().to_bytes(16, "big") for _ in range(0, length, 16)]
        return b"".join(blocks)[:length]

    return bytes_drawn


def under_each_key(*groups):
    """The groups under keys of 16 bytes, and then under keys of 32."""
    for key_length in KEY_LENGTHS:
        for group in groups:
            yield functools.partial(group, key_length)


def sharing_halves(key, other):
    """Keys that share a half with this one, of 32 bytes: with the other's
    second half, with its first, the two halves exchanged, each of them twice,
    and each of them alone, which is a key of 16 bytes."""
    first, second = key[:16], key[16:]
    return [first + other[16:], other[:16] + second, second + first,
            2 * first, 2 * second, first, second]


def misread(name, good, numbers):
    """Lines that are not understood: this command, of two letters, and its
    good fields with something wrong. A field that is one of the numbers has
    exactly so many digits.
    """
    yield line(name), NO
    yield line(name, *good, ""), NO
    yield line(name, *good, "00"), NO
    for at, field in enumerate(good):
        before, after = good[:at], good[at + 1:]
        # A field less, and one more, which is empty.
        yield line(name, *before, *after), NO
        yield line(name, *before, "", field, *after), NO
        # An odd number of digits, upper case and other characters.
        for bad in (field[1:], field + "0", "A" + field[1:],
                    field[:-1] + "g", field[:-1] + "\r"):
            yield line(name, *before, bad, *after), NO
        # A number of another length.
        if field in numbers:
            for bad in ("", field[2:], field + "00"):
                yield line(name, *before, bad, *after), NO
    # Unknown commands.
    scheme, way = name
    for other in (scheme, scheme + "x", scheme + "h", scheme + "p",
                  scheme.upper() + way, name.upper(), scheme + way.upper(),
                  name + "e", scheme + name, way + scheme):
        yield line(other, *good), NO


def gather(groups, understood):
    """All cases of the groups, each line once. NO alone answers a line exactly
    if it is too long or the pattern does not match all of it.
    """
    given = {}
    for group in groups:
        for text, answer in group():
            good = len(text) <= LONGEST and understood.fullmatch(text)
            assert (answer == NO) == (not good), text[:80]
            if text not in given:
                yield text, answer
            assert given.setdefault(text, answer) == answer, text[:80]
