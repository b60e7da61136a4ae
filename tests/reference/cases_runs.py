"""The cases of runs of blocks: pairs of a line and its answer.

    rs key pack first list run    the lent run sealed, the payloads as long as
                                  the list says, for the places from first on
    ro key pack first list run    the lent run opened, and the lengths of its
                                  payloads written to the lent list

The pack number has exactly 16 digits and the first place exactly 8. The list
has four digits an entry; the other fields have two a byte, and these three may
be empty. The answer is the call's number in decimal, 0 where it was done, a
space, and the run as it is left. In front of the run `ro` has the list as it
is left and a space, and behind number 8 or 12 a space and the place in
decimal. NO alone is for a line that is not understood, and this is looked at
before every number.

Each group of cases draws from a generator with a seed of its own, so that a
change to one group leaves the others as they were.
"""

import itertools
import re

import runs
from cases_hch import other_bit
from cases_lent import HIGH_PLACES, answers, leaves, several
from cases_pack import (LAST_PACK, by_hand, nonzero, number, with_bit,
                        with_bytes)
from finding import MOST_BLOCKS
from hch import KEY_LENGTHS, Refused
from lines import (LONGEST, NO, WRONG_KEYS, byte_drawer, digits, gather, line,
                   misread, sharing_halves, under_each_key)
from pack import LAST_PLACE, MOST, SIZE, plain_block, seal
from runs import Failed, first_failure, open_run, parts, seal_run, spoil
from schemes import fields, lent_case

PLACES = 1 << 32  # a place has 32 bits
LARGEST = 65535  # the largest entry of a list

# A line holds a command, five spaces, 24 digits of pack and first place, and
# four digits for each of so many entries where the other fields are empty.
MOST_ENTRIES = (LONGEST - 31) // 4

# The runs of many blocks under keys of each length, and their first places:
# few, since these lines and their answers are long.
LONG_RUNS = {16: ((40, 0), (127, 300),
                  (MOST_BLOCKS, LAST_PLACE - MOST_BLOCKS + 1)),
             32: ((40, LAST_PLACE - 39),)}


def entries(lengths):
    """The bytes of a list."""
    return b"".join(u.to_bytes(2, "big") for u in lengths)


def rs_case(key, pack, first, lengths, run):
    text = fields("rs", key, pack, first, entries(lengths), run)
    return lent_case(text, run, seal_run, key, pack, first, lengths, run)


def ro_case(key, pack, first, lengths, run):
    answer, left = b"0", (lengths, run)
    try:
        left = open_run(key, pack, first, lengths, run)
    except Failed as failure:
        answer = b"%d %d" % (failure.number, failure.place)
    except Refused as refusal:
        answer = b"%d" % refusal.number
    return (fields("ro", key, pack, first, entries(lengths), run),
            b" ".join([answer, digits(entries(left[0])), digits(left[1])]))


def keeps(answer, given):
    """A run that is not opened, with this answer: the list and the run are
    left as they were."""
    lent = given[0].split(b" ")[-2:]
    assert given[1] == b" ".join([answer, *lent]), given[0][:80]
    return given


def refused(wanted, *call):
    """Both calls, refused with this number."""
    yield answers(wanted, rs_case(*call))
    yield keeps(b"%d" % wanted, ro_case(*call))


def plain_run(pack, first, payloads):
    """The plain blocks of the payloads, also for places that are too high."""
    return b"".join(plain_block(payload, pack, (first + i) % PLACES)
                    for i, payload in enumerate(payloads))


def enciphered(key, pack, first, plain):
    """Each of these blocks enciphered for its place, plain block or not."""
    return b"".join(by_hand(key, pack, (first + i) % PLACES, block)
                    for i, block in enumerate(parts(plain)))


def opens(payloads, pack, first, given):
    """A run that opens to these payloads."""
    lengths = (len(payload) for payload in payloads)
    assert given[1] == b" ".join([
        b"0", digits(entries(lengths)),
        digits(plain_run(pack, first, payloads))]), given[0][:80]
    return given


def pair(key, pack, first, lengths, run, lent):
    """A run sealed, and opened again into this list."""
    payloads = [block[:u] for u, block in zip(lengths, parts(run))]
    yield answers(0, rs_case(key, pack, first, lengths, run))
    yield opens(payloads, pack, first, ro_case(
        key, pack, first, lent, seal_run(key, pack, first, lengths, run)))


def drawn_list(draw, n):
    """Entries of any size."""
    return tuple(number(draw(2)) for _ in range(n))


def short(lengths):
    """The same entries, of which none is over 496."""
    return tuple(u % (MOST + 1) for u in lengths)


def done_cases(key_length):
    """Runs of few blocks, with lengths and places at their edges. What stands
    behind a payload is not zero, and neither is what the list holds when the
    run is opened."""
    draw = byte_drawer("runs: done", key_length)
    for first, lengths in ((0, (0,)), (1, (MOST,)), (LAST_PLACE, (3,)),
                           (255, (0, MOST)), (LAST_PLACE - 1, (495, 1)),
                           (257, (MOST, 0, 20)),
                           (LAST_PLACE - 2, (1, 256, MOST))):
        n = len(lengths)
        yield from pair(draw(key_length), number(draw(8)), first, lengths,
                        nonzero(draw(n * SIZE)), drawn_list(draw, n))
    for pack in (0, LAST_PACK):
        yield from pair(draw(key_length), pack, 0, (5, 0),
                        nonzero(draw(2 * SIZE)), (LARGEST, MOST + 1))
    # 01's P13, and the same for the next place.
    yield from pair(bytes(key_length), 0, 0, (0, 0), b"\xff" * 2 * SIZE,
                    (0, 0))

    # "The rest of the block is overwritten": other bytes there, the plain
    # run, and the sealed one, which holds no payload.
    key, pack, lengths = draw(key_length), number(draw(8)), (20, 0)
    payload = draw(20)
    plain = plain_run(pack, 3, (payload, b""))
    sealed = enciphered(key, pack, 3, plain)
    for lent in (bytes(2 * SIZE), b"\xff" * 2 * SIZE, draw(2 * SIZE), plain,
                 sealed):
        yield leaves(sealed, rs_case(key, pack, 3, lengths, with_bytes(
            lent, 0, payload)))


def other_block_cases(key_length):
    """A run that "still opens after one block's bytes are changed": the change
    "does not alter what the others open to"."""
    draw = byte_drawer("runs: other block", key_length)
    key, pack, first = draw(key_length), number(draw(8)), number(draw(2)) // 2
    payloads = [draw(100), draw(7), draw(MOST)]
    run = enciphered(key, pack, first, plain_run(pack, first, payloads))
    for i in range(3):
        changed = [*payloads[:i], draw(30), *payloads[i + 1:]]
        yield opens(changed, pack, first, ro_case(
            key, pack, first, (0, 0, 0), with_bytes(
                run, SIZE * i, seal(key, changed[i], pack, first + i))))


def long_cases(key_length):
    draw = byte_drawer("runs: long", key_length)
    key, pack = draw(key_length), number(draw(8))
    for n, first in LONG_RUNS[key_length]:
        run = nonzero(draw(n * SIZE))
        yield from pair(key, pack, first, short(drawn_list(draw, n)), run,
                        drawn_list(draw, n))


def too_long_cases():
    """Runs of one block too many, with a list as long, and with one as long
    as a run may be."""
    draw = byte_drawer("runs: too long")
    key, pack, n = draw(16), number(draw(8)), MOST_BLOCKS
    run = draw((n + 1) * SIZE)
    yield answers(10, rs_case(key, pack, 0, (n + 1) * (MOST,), run))
    yield keeps(b"10", ro_case(key, pack, 0, n * (MOST,), run))


def key_cases(key_length):
    draw = byte_drawer("runs: keys", key_length)
    for length in WRONG_KEYS[key_length]:
        yield from refused(1, draw(length), number(draw(8)), 3, (5,),
                           draw(SIZE))


def half_cases():
    """A run opened under keys that share a half with its own, and a run of
    which one block was sealed under such a key."""
    draw = byte_drawer("runs: halves")
    key, pack, lengths = draw(32), number(draw(8)), (20, MOST)
    run = draw(2 * SIZE)
    yield from pair(key, pack, 3, lengths, run, (0, 0))
    sealed = seal_run(key, pack, 3, lengths, run)
    for other in sharing_halves(key, draw(32)):
        yield answers(0, rs_case(other, pack, 3, lengths, run))
        yield keeps(b"8 3", ro_case(other, pack, 3, (7, 7), sealed))
        yield keeps(b"8 4", ro_case(key, pack, 3, (7, 7), with_bytes(
            sealed, SIZE, seal(other, run[SIZE:][:MOST], pack, 4))))


def length_cases(key_length):
    """Runs that are not 1 to 128 whole blocks, with as many entries as there
    are whole blocks, and with one more. The blocks would open."""
    draw = byte_drawer("runs: lengths", key_length)
    key, pack = draw(key_length), number(draw(8))
    run = enciphered(key, pack, 3, plain_run(
        pack, 3, (draw(20), b"", draw(MOST))))
    for length in (0, 1, 16, 511, 513, 1023, 1025):
        n = length // SIZE
        for lent in (n * (7,), (n + 1) * (7,)):
            yield from refused(10, key, pack, 3, lent, run[:length])


def list_cases(key_length):
    """Lists of other lengths than the run's. The blocks would open."""
    draw = byte_drawer("runs: lists", key_length)
    key, pack = draw(key_length), number(draw(8))
    run = enciphered(key, pack, 3, plain_run(
        pack, 3, (draw(20), b"", draw(MOST))))
    for n, others in ((1, (0, 2, 128, 130, 256, 257)),
                      (2, (0, 1, 3)), (3, (0, 2, 4))):
        for length in others:
            yield from refused(11, key, pack, 3, short(
                drawn_list(draw, length)), run[:n * SIZE])


def entry_cases(key_length):
    """Entries over 496, at every place of the list. Opening does not look at
    them."""
    draw = byte_drawer("runs: entries", key_length)
    key, pack = draw(key_length), number(draw(8))
    for over in (MOST + 1, 511, 512, 513, 0x0300, 0xf001, LARGEST):
        yield answers(5, rs_case(key, pack, 3, (over,), draw(SIZE)))
    for n in (2, 3):
        run = draw(n * SIZE)
        for over in (MOST + 1, LARGEST):
            for at in range(n):
                lengths = [MOST] * n
                lengths[at] = over
                yield answers(5, rs_case(key, pack, 3, tuple(lengths), run))
        yield answers(5, rs_case(key, pack, 3, n * (MOST + 1,), run))
        yield from pair(key, pack, 3, n * (MOST,), run, n * (MOST + 1,))


def place_cases(key_length):
    """Last places over 65,535, also where a sum of 16 or of 32 bits would
    wrap. The blocks would open; done_cases has the last places that are not
    too high."""
    draw = byte_drawer("runs: places", key_length)
    key, pack = draw(key_length), number(draw(8))
    for n in (1, 2, 3):
        payloads = [draw(20 * i) for i in range(n)]
        for first in (LAST_PLACE - n + 2, 65536 + 3, 1 << 31, PLACES - n,
                      PLACES - 1):
            yield from refused(6, key, pack, first, n * (20,), enciphered(
                key, pack, first, plain_run(pack, first, payloads)))


def check_cases(key_length):
    """Runs with blocks that will not open: "the whole run and the list stay
    unchanged, and the answer adds the smallest failing place"."""
    draw = byte_drawer("runs: check", key_length)
    key, pack, lent = draw(key_length), number(draw(8)), (7, MOST, LARGEST)
    payloads = nonzero(draw(20)), b"", nonzero(draw(MOST))
    plain = plain_run(pack, 3, payloads)
    run = enciphered(key, pack, 3, plain)
    first, middle, last = parts(run)

    def fails(place, *call):
        return keeps(b"8 %d" % place, ro_case(*call))

    # Damaged blocks: one, two at once, and all.
    for wrong in ((0,), (1,), (2,), (0, 1), (0, 2), (1, 2), (0, 1, 2)):
        damaged = run
        for i in wrong:
            damaged = with_bit(damaged, SIZE * i + 7 * i, 1 << i)
        yield fails(3 + wrong[0], key, pack, 3, lent, damaged)
    for at in (SIZE - 1, SIZE, 2 * SIZE - 1, 2 * SIZE, 3 * SIZE - 1):
        yield fails(3 + at // SIZE, key, pack, 3, lent,
                    with_bit(run, at, 0x80))
    for n in (1, 2):
        yield fails(2 + n, key, pack, 3, lent[:n],
                    with_bit(run[:n * SIZE], n * SIZE - 16, 0x01))

    # Blocks of other places of the run, and of another pack; blocks that
    # sealing did not write.
    yield fails(3, key, pack, 3, lent, middle + first + last)
    yield fails(4, key, pack, 3, lent, first + last + middle)
    yield fails(3, key, pack, 3, lent, last + middle + first)
    yield fails(4, key, pack, 3, lent, 3 * first)
    other = enciphered(key, pack ^ 1, 3, plain_run(pack ^ 1, 3, payloads))
    yield fails(4, key, pack, 3, lent, first + other[SIZE:2 * SIZE] + last)
    yield fails(5, key, pack, 3, lent, first + middle + other[2 * SIZE:])
    yield keeps(b"12 5", ro_case(
        key, pack, 3, lent, first + middle + bytes(SIZE)))
    yield fails(4, key, pack, 3, lent, first + draw(SIZE) + last)
    yield fails(4, key, pack, 3, lent, first + plain[SIZE:2 * SIZE] + last)
    # The run as it is, opened as what it was not sealed for.
    yield fails(2, key, pack, 2, lent, run)
    yield fails(4, key, pack, 4, lent, run)
    yield fails(3, key, pack ^ 1 << 63, 3, lent, run)
    yield fails(3, other_bit(key, 0x01), pack, 3, lent, run)
    # At the last place, behind nine blocks that are closed again.
    ends = enciphered(key, pack, LAST_PLACE - 9, plain_run(
        pack, LAST_PLACE - 9, [draw(20 * i) for i in range(10)]))
    yield fails(LAST_PLACE, key, pack, LAST_PLACE - 9, 10 * (LARGEST,),
                with_bit(ends, 9 * SIZE + 100, 0x04))

    # One part of the last block's check wrong: u, the filling, the pack
    # number, the place and the last two bytes.
    full = plain_run(pack, 3, (b"", payloads[2]))
    some = plain_run(pack, 3, (b"", payloads[0]))
    for wrong in (with_bytes(full, SIZE + 508, (497).to_bytes(2, "big")),
                  with_bytes(some, SIZE + 508, (19).to_bytes(2, "big")),
                  *(with_bit(some, SIZE + at, 0x01)
                    for at in (20, 495, 496, 507, 510, 511))):
        yield fails(4, key, pack, 3, lent[1:], enciphered(
            key, pack, 3, wrong))
    yield opens(payloads, pack, 3, ro_case(key, pack, 3, lent, run))


def blank_cases(key_length):
    """Runs with zero blocks: "a run gives the number of its first block that
    will not open". The blocks are good, damaged or zero in every way in which
    one at least is zero: three of them, and fewer at the edges of the places.
    """
    draw = byte_drawer("runs: blank", key_length)
    key, pack = draw(key_length), number(draw(8))
    for n, firsts in ((3, (3,)), (2, (0, LAST_PLACE - 1)),
                      (1, (0, LAST_PLACE))):
        for first in firsts:
            run = seal_run(key, pack, first, short(drawn_list(draw, n)),
                           draw(n * SIZE))
            for numbers in itertools.product((0, 8, 12), repeat=n):
                if 12 in numbers:
                    yield keeps(b"%d %d" % first_failure(numbers, first),
                                ro_case(key, pack, first, drawn_list(draw, n),
                                        spoil(run, numbers)))

    # What comes before the check, and sealing into zero blocks.
    zeros, lent = bytes(2 * SIZE), (7, LARGEST)
    for wanted, call in (
            (1, (draw(key_length - 1), pack, 3, lent, zeros)),
            (10, (key, pack, 3, lent, zeros[1:])),
            (11, (key, pack, 3, lent[1:], zeros)),
            (6, (key, pack, LAST_PLACE, lent, zeros))):
        yield keeps(b"%d" % wanted, ro_case(*call))
    yield from pair(key, pack, 3, (0, MOST), zeros, lent)


def almost_blank_cases(key_length):
    """One bit in a zero run, and in a zero block behind one that opens; a
    block that deciphers to zeros."""
    draw = byte_drawer("runs: almost blank", key_length)
    key, pack, lent = draw(key_length), number(draw(8)), (7, LARGEST)
    zeros = bytes(2 * SIZE)
    half = with_bytes(zeros, 0, seal(key, draw(20), pack, 3))
    for run, at, bit, wanted in ((zeros, 0, 0x80, b"8 3"),
                                 (zeros, SIZE - 1, 0x01, b"8 3"),
                                 (zeros, SIZE, 0x80, b"12 3"),
                                 (zeros, 2 * SIZE - 1, 0x01, b"12 3"),
                                 (half, SIZE, 0x80, b"8 4"),
                                 (half, 2 * SIZE - 1, 0x01, b"8 4")):
        yield keeps(wanted, ro_case(
            key, pack, 3, lent, with_bit(run, at, bit)))
    yield keeps(b"8 4", ro_case(key, pack, 3, lent, with_bytes(
        half, SIZE, by_hand(key, pack, 4, bytes(SIZE)))))


def all_blank_cases():
    """Runs of zeros alone: the longest, once, and where all else is zero."""
    draw = byte_drawer("runs: all blank")
    first = LAST_PLACE - MOST_BLOCKS + 1
    yield keeps(b"12 %d" % first, ro_case(
        draw(32), number(draw(8)), first, drawn_list(draw, MOST_BLOCKS),
        bytes(MOST_BLOCKS * SIZE)))
    for n in (1, 2):
        for key_length in KEY_LENGTHS:
            yield keeps(b"12 0", ro_case(
                bytes(key_length), 0, 0, n * (0,), bytes(n * SIZE)))


def order_cases(key_length):
    """Several numbers at once, in every way. The list is too short, or too
    long; where an entry is over 496, it is the last."""
    draw = byte_drawer("runs: order", key_length)
    key, pack = draw(key_length), number(draw(8))
    shorter, longer = key_length - 1, key_length + 1
    for n, other, wrong, length in ((2, 1, shorter, 1023),
                                    (1, 2, longer, 513)):
        for wanted, numbers in several(1, 10, 11, 5, 6):
            lengths = [20] * (other if 11 in numbers else n)
            if 5 in numbers:
                lengths[-1] = MOST + 1
            yield answers(wanted, rs_case(
                draw(wrong) if 1 in numbers else key, pack,
                LAST_PLACE - n + 2 if 6 in numbers else 3, tuple(lengths),
                draw(length if 10 in numbers else n * SIZE)))
    for other, wrong, length in ((0, shorter, 511), (2, longer, 513)):
        for wanted, numbers in several(1, 10, 11, 6, 8):
            first = LAST_PLACE + 1 if 6 in numbers else 3
            run = enciphered(key, pack, first, plain_run(
                pack, first, (draw(20), draw(3))))
            if 8 in numbers:
                run = with_bit(run, 0, 0x01)
            yield keeps(b"%d" % wanted, ro_case(
                draw(wrong) if 1 in numbers else key, pack, first,
                (other if 11 in numbers else 1) * (LARGEST,),
                run[:length if 10 in numbers else SIZE]))
    # The largest places beside other numbers, and nothing at all.
    for first in HIGH_PLACES:
        yield from refused(1, b"", pack, first, (), b"")
        yield from refused(10, key, pack, first, (), b"")
        yield from refused(11, key, pack, first, (), draw(SIZE))
        yield answers(5, rs_case(key, pack, first, (MOST + 1,), draw(SIZE)))


def line_cases():
    """Lines that are not understood, with good ones in between. Two spaces
    are an empty field, so that some differ from a refusal by a space."""
    draw = byte_drawer("runs: lines")
    key, pack, first, lengths, run = good = [
        draw(length).hex() for length in (16, 8, 4, 6, 5)]
    for name in ("rs", "ro"):
        yield from misread(name, good, (pack, first))
        # Digits that are no whole number of entries.
        for bad in (lengths[2:], lengths[:-2], lengths + "00", lengths[:2],
                    lengths + lengths[:2], lengths[:3]):
            yield line(name, key, pack, first, bad, run), NO
        # A list and a run that stand together, or the other way round.
        yield line(name, key, pack, first, lengths + run), NO
        yield line(name, key, pack, first, run, lengths), NO
        yield from pair(draw(16), number(draw(8)), 3, (33,), draw(SIZE), (0,))
    # Unknown commands: the letters of others.
    for name in ("re", "rd", "rf", "pr", "hr", "lr", "ar", "hs", "ho", "so"):
        yield line(name, *good), NO

    # The longest list that a line holds.
    yield answers(1, rs_case(b"", 0, 0, drawn_list(draw, MOST_ENTRIES), b""))
    # Understood: fields that are empty.
    yield from refused(1, b"", 0, 0, (), b"")
    yield from refused(10, draw(16), 0, 0, (), b"")
    yield from pair(draw(16), number(draw(8)), 3, (0,), draw(SIZE), (0,))


UNDERSTOOD = re.compile(
    rb"r[so] B D{16} D{8} (D{4})* B".replace(
        b"B", rb"(D{2})*").replace(b"D", rb"[0-9a-f]"))


def cases():
    """All cases of this part; the last line is understood."""
    return gather((*under_each_key(done_cases, other_block_cases, long_cases,
                                   key_cases, length_cases, list_cases,
                                   entry_cases, place_cases, check_cases,
                                   blank_cases, almost_blank_cases,
                                   order_cases),
                   too_long_cases, all_blank_cases, half_cases, line_cases),
                  UNDERSTOOD)


def check():
    """Runs themselves, and the form of an answer."""
    runs.check()
    key, pack = bytes(16), 1
    sealed = seal_run(key, pack, 3, (3, 0), b"ABC" + bytes(2 * SIZE - 3))
    plain = plain_run(pack, 3, (b"ABC", b""))
    assert rs_case(key, pack, 3, (3, 0), plain)[1] == b"0 " + digits(sealed)
    assert rs_case(key, pack, 3, (3,), plain)[1] == b"11 " + digits(plain)
    assert ro_case(key, pack, 3, (7, 8), sealed)[1] == (
        b"0 00030000 " + digits(plain))
    assert ro_case(key, pack, 4, (7, 8), sealed)[1] == (
        b"8 4 00070008 " + digits(sealed))
    assert ro_case(key, pack, 4, (7, 8), bytes(2 * SIZE))[1] == (
        b"12 4 00070008 " + digits(bytes(2 * SIZE)))
    assert ro_case(key, pack, 3, (), sealed)[1] == b"11  " + digits(sealed)
