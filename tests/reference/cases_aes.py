"""The cases of the block cipher: pairs of a line and its answer.

    ae k b       the block b enciphered under the key k
    ad k b       the block b deciphered under the key k

The key has two digits a byte and may have any length, also none. One that is
no key is answered NO, a space and the number of the refusal. NO alone is for a
line that is not understood, and this is looked at before the key.

Each group of cases draws from a generator with a seed of its own, so that a
change to one group leaves the others as they were.
"""

import re

import aes
import nist
from hch import look_at_key
from lines import (NO, WRONG_KEYS, answer_of, byte_drawer, digits, gather,
                   line, sharing_halves, under_each_key)

# The published files, and how many blocks each holds in its two parts.
FILES = {
    "ECBGFSbox128.rsp": 14,
    "ECBKeySbox128.rsp": 42,
    "ECBVarTxt128.rsp": 256,
    "ECBVarKey128.rsp": 256,
    "ECBMMT128.rsp": 110,
    "ECBGFSbox256.rsp": 10,
    "ECBKeySbox256.rsp": 32,
    "ECBVarTxt256.rsp": 256,
    "ECBVarKey256.rsp": 512,
    "ECBMMT256.rsp": 110,
}

DIRECTIONS = {"ae": aes.cipher, "ad": aes.inv_cipher}


def pair(key, plain, enciphered):
    """A known case in both directions."""
    for name, block, answer in (("ae", plain, enciphered),
                                ("ad", enciphered, plain)):
        yield line(name, key.hex(), block.hex()), digits(answer)


def case(name, key, block):
    def call():
        look_at_key(key)
        return DIRECTIONS[name](key, block)

    return line(name, key.hex(), block.hex()), answer_of(call)


def both(key, block):
    """The block enciphered, and the same block deciphered."""
    for name in DIRECTIONS:
        yield case(name, key, block)


def special(length):
    """Strings of so many bytes: zeros, but for the last bit, but for the
    first, and ones."""
    return [bytes(length), bytes(length - 1) + b"\x01",
            b"\x80" + bytes(length - 1), b"\xff" * length]


def standard_cases():
    """The standard's examples, and the plaintext of one under the keys whose
    expansion it shows."""
    for example in aes.EXAMPLES:
        yield from pair(*example)
    for key, _ in aes.EXPANSIONS:
        yield from both(key, aes.EXAMPLES[1][1])


def published_cases():
    """Every published case in both directions, with the file's own answers.

    The eight files of single blocks have the same cases in both their parts,
    so that of these 3196 lines only 1818 differ.
    """
    for name in FILES:
        for _, key, plain, enciphered in nist.blocks(name):
            yield from pair(key, plain, enciphered)


def random_cases(key_length):
    draw = byte_drawer("aes: random", key_length)
    for key in special(key_length):
        for block in special(16):
            yield from both(key, block)
    for _ in range(24):
        yield from both(draw(key_length), draw(16))
    # A block under itself, or twice itself.
    for _ in range(2):
        block = draw(16)
        yield from both((2 * block)[:key_length], block)


def half_cases():
    """A block under keys that share a half, and what it becomes under the
    first of them deciphered under all. One of the keys is that of the
    standard's last example, whose first half is that of the one before."""
    draw = byte_drawer("aes: halves")
    for key in (draw(32), aes.EXAMPLES[2][0]):
        block = draw(16)
        keys = [key, *sharing_halves(key, draw(32))]
        for each in keys:
            yield case("ae", each, block)
            yield case("ad", each, aes.cipher(key, block))
        assert len({aes.cipher(each, block) for each in keys}) == len(keys)


def refusal_cases(key_length):
    draw = byte_drawer("aes: refusals", key_length)
    for length in WRONG_KEYS[key_length]:
        for text, answer in both(draw(length), draw(16)):
            assert answer == NO + b" 1"
            yield text, answer
    yield from both(draw(key_length), draw(16))


def line_cases():
    """Lines that are not understood, with good ones in between."""
    draw = byte_drawer("aes: lines")
    key, block, more = (digits(draw(16)) for _ in range(3))
    upper = b"ABCDEF" + key[6:]
    good = key + b" " + block

    for name in (b"ae", b"ad"):
        # Blocks of another length: so many bytes, then odd digits.
        for count in [2 * n for n in (0, 1, 15, 17, 24, 32)] + [31, 33]:
            yield name + b" " + key + b" " + (block + more)[:count], NO
        for bad in (
            # Together the digits of a key and a block.
            key[:30] + b" " + block + more[:2], key[:31] + b" 0" + block,
            key + block, key + block + b" ",
            # Missing fields, and too many.
            b"", b" ", key, good + b" " + more, good + b" 00",
            # Other spaces.
            b" " + good, key + b"  " + block, good + b" ", good + b"\t",
            b"\t" + good, key + b"\t" + block, good + b"\r",
            # Other characters.
            upper + b" " + block, key + b" " + upper,
            key + b" " + block[:31] + b"A", key + b" " + block[:31] + b"F",
            b"g" + key[1:] + b" " + block, key + b" " + block[:31] + b"g",
            key[:31] + b"`" + b" " + block, key + b" " + block[:31] + b"/",
            key + b" :" + block[1:], b"0x" + key[:30] + b" " + block,
            key + b" " + block[:15] + b"_" + block[16:],
            key + b" " + block[:31] + b"\0", good + b"\0",
            key[:31] + b"\xff " + block,
        ):
            yield name + b" " + bad, NO
        yield case("ae", draw(16), draw(16))
        for bad in (
            name, name + good, b" " + name + b" " + good,
            name + b"\t" + good,
        ):
            yield bad, NO
        yield case("ad", draw(16), draw(16))

    # Unknown commands.
    for name in (b"a", b"e", b"d", b"aee", b"add", b"aed", b"af", b"ac",
                 b"Ae", b"AE", b"aE", b"Ad", b"AD", b"aD", b"ea", b"da",
                 b"a e", b"a d", b"be", b"xe", b"ae\0", b"\xffe"):
        yield name + b" " + good, NO
    yield case("ad", draw(16), draw(16))
    yield case("ae", draw(16), draw(16))


def key_line_cases():
    """Lines that are not understood, with keys of other lengths."""
    draw = byte_drawer("aes: lines with keys")
    key, block = digits(draw(32)), digits(draw(16))
    for name in (b"ae ", b"ad "):
        for bad in (
            # Keys with an odd number of digits, or another character.
            b"0", key[:31], key[:33], key[:47], key[:63], key + b"0",
            key[:31] + b"g" + key[32:], key[:32] + b"G" + key[33:],
            key[:63] + b"A", key[:63] + b"\0", b"g" + key[1:30],
        ):
            yield name + bad + b" " + block, NO
        for bad in (
            # What has a key of 32 bytes, and no block or more than one.
            key, key + b" ", key + block, key + b" " + block + block,
            key + b" " + block[1:], key + b" " + block + b"0",
            key + b" " + block + b" ", key + b"  " + block,
            key + b" " + block + b" 00", key[:32] + b" " + key[32:] + block,
            # What would be refused for its key, were it understood.
            key[2:] + b" " + block[2:], b"00 " + block[:31], b" 00", b"00 ",
            key + b"00 00" + block,
        ):
            yield name + bad, NO
        yield from both(draw(32), draw(16))
    for name in (b"a", b"af", b"AE", b"aed", b"be"):
        for other in (key, key[2:], b""):
            yield name + b" " + other + b" " + block, NO
    yield from both(draw(32), draw(16))


UNDERSTOOD = re.compile(rb"a[ed] (D{2})* D{32}".replace(b"D", rb"[0-9a-f]"))


def cases():
    """All cases of this part, each line once; the last is understood."""
    return gather((standard_cases, published_cases,
                   *under_each_key(random_cases, refusal_cases), half_cases,
                   line_cases, key_line_cases), UNDERSTOOD)


def check():
    aes.check()
    for name, count in FILES.items():
        known = list(nist.blocks(name))
        assert len(known) == count, name
        for direction, key, plain, enciphered in known:
            assert name.endswith(f"{8 * len(key)}.rsp")
            assert aes.cipher(key, plain) == enciphered, (name, direction)
            assert aes.inv_cipher(key, enciphered) == plain, (name, direction)
