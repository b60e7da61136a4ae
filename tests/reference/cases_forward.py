"""The cases of the encryption-only scheme: pairs of a line and its answer.

    fe k t d          the data d enciphered under the key k and the tweak t
    fd k t d          the data d deciphered under the key k and the tweak t
    fs fo             as `ps` and `po` of cases_pack.py, under this scheme
    ge gd gs go       as `le`, `ld`, `ls` and `lo` of cases_lent.py

The fields and the answers of the first two are as in cases_hch.py. Many of the
groups are those of HCH's cases, given this scheme. Some are made under keys of
one length alone, so that the lines are not too many.

Each group of cases draws from a generator with a seed of its own, so that a
change to one group leaves the others as they were.
"""

import functools
import re

import aes
import cases_hch
import cases_lent
import cases_pack
import field
import forward
import pack as packs
from cases_hch import case, other_bit, pair, refused
from cases_lent import answers, several
from cases_pack import number, opened
from forward import LEAST, TOO_SHORT
from hch import MOST, binary
from lines import (LONGEST, NO, WRONG_KEYS, byte_drawer, gather, line,
                   under_each_key)
from pack import SIZE, plain_block
from schemes import FORWARD, HCH

NAMES = ("fe", "fd")

# x to the power -2, as x to the power 2^128 - 1 is 1.
X_TO_MINUS_2 = field.power(2, 2 ** 128 - 3)


def in_turn(calls):
    """The first of the two commands for the first of these calls, the second
    for the next, and so on."""
    return ((NAMES[i % 2], call) for i, call in enumerate(calls))


def length_cases(key_length):
    """Every length to four blocks and two bytes: those that are refused in
    both directions, the other ones there and back. A direction comes first
    under keys of one length, and the other under keys of the other."""
    draw = byte_drawer("forward: lengths", key_length)
    for length in range(67):
        e, d = NAMES if (length + key_length // 16) % 2 else NAMES[::-1]
        call = draw(key_length), draw(16), draw(length)
        if length < LEAST:
            yield from refused(TOO_SHORT, *call, [e])
        else:
            yield from pair(e, d, *call)


def chosen_tweaks(key, length, block):
    """The tweaks by which tau, beta_1 and tau' are this block: Table 3 from
    its last line up."""
    inverse = functools.partial(aes.inv_cipher, key)

    def for_beta_1(beta_1):
        return inverse(aes.xor(inverse(beta_1), binary(8 * length)))

    before = int.from_bytes(inverse(block), "big")
    return {"tau": inverse(block), "beta_1": for_beta_1(block),
            "tau_": for_beta_1(binary(field.product(X_TO_MINUS_2, before)))}


def hash_key_cases(key_length):
    """Tweaks chosen so that tau, beta_1 or tau' is a given block: 0, by which
    a hash is 0 or the counter stands still, 1, and two blocks that lose a bit
    when they are multiplied by x."""
    draw = byte_drawer("forward: hash keys", key_length)
    lengths = (33, 48, 65, 100)
    for i, block in enumerate((0, 1, field.TOP, field.ONES)):
        length = lengths[(i + key_length // 16) % 4]
        key, board, block = draw(key_length), draw(length), binary(block)
        E = functools.partial(aes.cipher, key)
        for name, tweak in chosen_tweaks(key, length, block).items():
            keys = forward.key_def_1(E, tweak, 8 * length)
            assert getattr(keys, name) == block
            yield from cases_hch.both(key, tweak, board, NAMES)


def refusal_cases(key_length):
    """Each number alone, but for 13, which length_cases() has, and several at
    once. A wrong key and a wrong tweak have together the bytes of good ones.
    """
    draw = byte_drawer("forward: refusals", key_length)
    key, tweak, board = draw(key_length), draw(16), draw(40)
    for name, length in in_turn(WRONG_KEYS[key_length]):
        yield from refused(1, draw(length), tweak, board, [name])
    for name, length in in_turn((0, 1, 15, 17, 32)):
        yield from refused(2, key, draw(length), board, [name])
    yield from refused(4, key, tweak, draw(MOST + 1), NAMES)
    yield case("fe", key, tweak, draw(LEAST))

    for size, length, more in ((TOO_SHORT, LEAST - 1, -1), (4, MOST + 1, 1)):
        for name, (wanted, numbers) in in_turn(several(1, 2, size)):
            yield from refused(
                wanted, draw(key_length + (more if 1 in numbers else 0)),
                draw(16 - (more if 2 in numbers else 0)),
                draw(length if size in numbers else 40), [name])
    yield case("fd", key, tweak, draw(LEAST))


def block_refusal_cases():
    """Each number of sealing and opening alone, but for 6, which
    cases_pack.number_cases() has; cases_lent.py has several at once."""
    draw = byte_drawer("forward: block refusals")
    key, pack, place = draw(16), number(draw(8)), number(draw(2))
    block = FORWARD.seal(key, draw(40), pack, place)

    def sealing(wanted, key, length):
        return cases_pack.refused(
            wanted, FORWARD.ps(key, pack, place, draw(length)))

    def opening(wanted, key, block):
        return cases_pack.refused(
            wanted, FORWARD.po(key, pack, place, block))

    for length in (0, 15, 17):
        wrong = draw(length)
        yield sealing(1, wrong, 40)
        yield opening(1, wrong, block)
    for length in (packs.MOST + 1, SIZE):
        yield sealing(5, key, length)
    # 32, 33 and 4,097 bytes are at the edges of the scheme's own lengths.
    for length in (0, 32, 33, 511, 513, MOST + 1):
        yield opening(7, key, (9 * block)[:length])
    yield opening(8, key, other_bit(block, 0x01))
    yield opening(8, other_bit(key, 0x01), block)
    yield opening(8, key, draw(SIZE))
    yield opening(12, key, bytes(SIZE))
    yield opened(40, FORWARD.po(key, pack, place, block))


def scheme_cases(key_length):
    """Blocks sealed under one scheme and opened under the other, and data that
    is sent one way by each. The plain block and the tweak are the same."""
    draw = byte_drawer("forward: schemes", key_length)
    key, pack, place = draw(key_length), number(draw(8)), number(draw(2))
    payload = draw(100)
    for one, other in ((HCH, FORWARD), (FORWARD, HCH)):
        block = one.seal(key, payload, pack, place)
        yield one.ps(key, pack, place, payload)
        yield opened(100, one.po(key, pack, place, block))
        yield cases_pack.refused(8, other.po(key, pack, place, block))
        yield answers(8, other.lo(key, pack, place, block))
        # The bytes of the block as data.
        plain = plain_block(payload, pack, place)
        tweak = packs.tweak(pack, place)
        text, answer = one.message("e", key, tweak, plain)
        assert answer == b"0 " + block.hex().encode("ascii")
        yield text, answer
        yield other.message("d", key, tweak, block)
    # Data that HCH enciphers, and this scheme refuses.
    tweak, data = draw(16), draw(LEAST - 1)
    yield case("he", key, tweak, data)
    yield from refused(TOO_SHORT, key, tweak, data, ["fe"])


def longest_cases():
    """The longest line that is understood, and one with a byte more."""
    draw = byte_drawer("forward: longest")
    key, tweak = draw(16), draw(16)
    longest = draw(cases_hch.MOST_BYTES - 32)
    yield from refused(4, key, tweak, longest, ["fe"])
    too_long = line("fe", key.hex(), tweak.hex(), longest.hex() + "00")
    assert len(too_long) == LONGEST + 1
    yield too_long, NO
    yield case("fd", key, tweak, draw(LEAST + 1))


def line_cases():
    """Lines that are not understood, with good ones in between."""
    draw = byte_drawer("forward: lines")
    k, t, d, n, p, b = (draw(length).hex() for length in (16, 16, 40, 8, 4, 5))
    message, payload, block = [k, t, d], [k, n, p, d], [k, n, p, b]
    forms = {"fe": message, "fd": message, "fs": payload, "fo": block,
             "ge": message, "gd": message, "gs": [*payload, b], "go": block}

    for name, good in forms.items():
        # No field, a field less, a field more, an odd number of digits, and
        # another character.
        *most, last = good
        for bad in ((), most, (*good, ""), (*most, last[1:]),
                    (*most, last[:-1] + "F")):
            yield line(name, *bad), NO
        # The place a byte longer, and the pack number a byte shorter.
        if p in good:
            yield line(name, k, n, p + "00", *good[3:]), NO
            yield line(name, k, n[2:], *good[2:]), NO
    yield case("fe", draw(16), draw(16), draw(34))

    # Understood: lines whose last field is empty.
    yield from refused(1, b"", b"", b"", NAMES)
    yield from cases_lent.both(1, b"", b"", b"", FORWARD)
    yield answers(1, FORWARD.ls(b"", 0, 0, b"", b""))
    yield answers(1, FORWARD.lo(b"", 0, 0, b""))
    yield from FORWARD.pair(draw(16), 0, 0, b"")


def command_cases():
    """Unknown commands. There is no finding under this scheme, and no run."""
    draw = byte_drawer("forward: commands")
    k, t, d, n, p, b = (draw(length).hex() for length in (16, 16, 40, 8, 4, 5))
    message, block = [k, t, d], [k, n, p, b]
    for name, good in (("ff", [d, p]), ("gf", [d, p, b]), ("fr", block),
                       ("f", message), ("fx", message), ("fg", message),
                       ("Fe", message), ("fE", message), ("ef", message),
                       ("fee", message), ("ffe", message), ("fed", message),
                       ("g", message), ("Ge", message), ("eg", message),
                       ("FO", block), ("of", block), ("GO", block)):
        yield line(name, *good), NO
    # Other spaces, and a byte that is no letter.
    for bad in (b" fe ", b"fe", b"fe\t", b"f e ", b"fe\0 "):
        yield bad + line(*message), NO
    yield case("fd", draw(16), draw(16), draw(35))


# The commands of HCH too, which scheme_cases() has.
UNDERSTOOD = re.compile(
    rb"[hflg][ed]( B){3}|[pf][so] B D{16} D{8} B|[lg]s B D{16} D{8} B B|"
    rb"[lg]o B D{16} D{8} B".replace(b"B", rb"(D{2})*").replace(
        b"D", rb"[0-9a-f]"))


def shared_groups():
    """Groups of HCH's cases under this scheme, each with what it takes."""
    for key_length, one, other in ((16, 33, 48), (32, 48, 33)):
        yield cases_hch.long_cases, key_length, NAMES
        yield cases_hch.lost_file_cases, key_length, NAMES
        yield cases_hch.board_cases, key_length, [one], [other], NAMES

    yield cases_pack.example_cases, 32, FORWARD
    yield cases_pack.length_cases, 16, FORWARD
    yield cases_pack.number_cases, 32, FORWARD
    yield cases_pack.by_hand_cases, FORWARD

    yield cases_lent.message_cases, 16, FORWARD
    yield cases_lent.message_order_cases, 32, FORWARD
    yield cases_lent.sealing_cases, 32, FORWARD
    yield cases_lent.sealing_refusal_cases, 16, FORWARD
    yield cases_lent.opening_refusal_cases, 32, FORWARD
    yield cases_lent.check_cases, 32, FORWARD
    yield cases_lent.blank_cases, 16, FORWARD


def cases():
    """All cases of this part; the last line is understood."""
    return gather((*under_each_key(length_cases, hash_key_cases,
                                   refusal_cases, scheme_cases),
                   block_refusal_cases,
                   *(functools.partial(*group) for group in shared_groups()),
                   longest_cases, command_cases, line_cases), UNDERSTOOD)


def check():
    """The scheme; blocks under it, also with functions in the place of AES
    that have no inverse; and the form of an answer."""
    forward.check()
    packs.check_under(forward.encipher, forward.decipher)
    for E in forward.NOT_INVERTIBLE:
        encipher = functools.partial(forward.encipher, E=E)
        decipher = functools.partial(forward.decipher, E=E)
        packs.check_undone(
            bytes(32), functools.partial(packs.seal, encipher=encipher),
            functools.partial(packs.open, decipher=decipher))
    # A zero block that passes its check is opened: with E = 0 it deciphers to
    # itself, which is the block of an empty payload (01's P13).
    key, zeros = bytes(16), bytes(SIZE)
    same = functools.partial(forward.decipher, E=forward.zero)
    assert packs.open(key, 0, 0, zeros, same) == (0, zeros)
    assert packs.number_of(packs.open, key, 0, 1, zeros, same) == 12

    assert case("fe", key, key, bytes(32))[1] == b"no 13"
    assert FORWARD.message("d", key, key, bytes(32))[1] == b"13 " + b"00" * 32
    assert FORWARD.message("e", key, key, b"")[1] == b"13 "
    block = FORWARD.seal(key, b"ABC", 1, 3)
    assert FORWARD.lo(key, 1, 4, block)[1] == b"8 " + block.hex().encode()
    assert FORWARD.lo(key, 1, 4, zeros)[1] == b"12 " + b"00" * SIZE
