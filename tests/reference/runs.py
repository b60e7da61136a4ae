"""Runs of blocks, sealed and opened in one call, written from Points 2 and 4
of 02-change-requests.md alone, by the one-block calls of pack.py.

The run is a bytes object, the list of used lengths a tuple of ints of 16 bits,
and the first place an int of 32 bits. A call that is not done raises Refused
with its number; where a block will not open this is Failed, which "adds the
smallest failing place".
"""

import itertools
import random

import pack as packs
from finding import block_count
from hch import KEY_LENGTHS, Refused, look_at_key
from pack import LAST_PLACE, MOST, SIZE, number_of, plain_block, seal


class Failed(Refused):
    """A block that will not open, and its place."""

    def __init__(self, number, place):
        super().__init__(number)
        self.place = place


def parts(run):
    """The blocks of a run, in their order."""
    return [run[at:at + SIZE] for at in range(0, len(run), SIZE)]


def look_at(key, first, lengths, run, longest):
    """"Sealing looks at 1, 10, 11, 5, 6; opening at 1, 10, 11, 6, 8; number 6
    is for a last place over 65,535." "11, the list is not as long as the run."
    Opening, which only writes the list, has no longest entry.
    """
    look_at_key(key)
    n = block_count(run)
    if len(lengths) != n:
        raise Refused(11)
    if longest is not None and any(u > longest for u in lengths):
        raise Refused(5)
    if first + n - 1 > LAST_PLACE:
        raise Refused(6)


def seal_run(key, pack, first, lengths, run):
    """The sealed run. "Each payload stands at the front of its block, as long
    as the list says, and the rest of the block is overwritten." "The bytes
    [...] are those of the one-block calls made one by one; sealing only reads
    the list."
    """
    look_at(key, first, lengths, run, MOST)
    return b"".join(
        seal(key, block[:u], pack, place) for place, (u, block)
        in enumerate(zip(lengths, parts(run)), first))


def open_run(key, pack, first, lengths, run):
    """The list and the run as they are left. "The bytes and lengths [...] are
    those of the one-block calls made one by one." "If one block will not open,
    [...] the answer adds the smallest failing place." "A run gives the number
    of its first block that will not open."
    """
    look_at(key, first, lengths, run, None)
    opened = []
    for place, block in enumerate(parts(run), first):
        try:
            opened.append(packs.open(key, pack, place, block))
        except Refused as refusal:
            raise Failed(refusal.number, place) from refusal
    return tuple(u for u, _ in opened), b"".join(plain for _, plain in opened)


def spoil(run, numbers):
    """The run with each block as it was, damaged or zero, where the block's
    number is 0, 8 or 12."""
    ways = {0: lambda block: block,
            8: lambda block: block[:77] + bytes([block[77] ^ 1]) + block[78:],
            12: lambda block: bytes(SIZE)}
    return b"".join(ways[number](block)
                    for number, block in zip(numbers, parts(run)))


def first_failure(numbers, first):
    """The first of the blocks' numbers that is not 0, with its place, or None:
    what opening such a run answers."""
    return next(((number, place) for place, number in enumerate(numbers, first)
                 if number != 0), None)


def failure_of(*call):
    """The number and the place of the block that will not open, or None."""
    try:
        open_run(*call)
    except Failed as refusal:
        return refusal.number, refusal.place
    return None


def check():
    """Under a key of each length."""
    for length in KEY_LENGTHS:
        key = random.Random("runs: a key").randbytes(length)
        check_done(key)
        check_numbers(key)
        check_failures(key)


def check_done(key):
    """That opening undoes sealing, block by block."""
    rng = random.Random("runs: check")
    pack = rng.getrandbits(64)

    for n, first in ((1, 0), (1, LAST_PLACE), (3, 7), (3, LAST_PLACE - 2)):
        lengths = tuple(rng.randrange(MOST + 1) for _ in range(n))
        run = rng.randbytes(n * SIZE)
        plain = b"".join(
            plain_block(run[SIZE * i:][:u], pack, first + i)
            for i, u in enumerate(lengths))
        sealed = seal_run(key, pack, first, lengths, run)
        assert len(sealed) == len(run)
        assert open_run(key, pack, first, (0,) * n, sealed) == (lengths, plain)
        # What is left of opening is a run that seals to the same bytes.
        assert seal_run(key, pack, first, lengths, plain) == sealed

    # "If a run opens, and still opens after one block's bytes are changed,
    # that change does not alter what the others open to."
    sealed = seal_run(key, pack, 3, (20, 0, MOST), rng.randbytes(3 * SIZE))
    u, plain = open_run(key, pack, 3, (0,) * 3, sealed)
    changed = sealed[:SIZE] + seal(key, b"ABC", pack, 4) + sealed[2 * SIZE:]
    v, other = open_run(key, pack, 3, (0,) * 3, changed)
    assert (v[0], v[1], v[2]) == (u[0], 3, u[2])
    assert parts(other)[0] == parts(plain)[0]
    assert parts(other)[2] == parts(plain)[2]


def check_numbers(key):
    """Each number alone, at its edges."""
    pack, run, zeros = 1, bytes(2 * SIZE), (0, 0)
    for call in (seal_run, open_run):
        assert number_of(call, key[1:], pack, 0, zeros, run) == 1
        for length in (0, 1, SIZE - 1, SIZE + 1, 2 * SIZE - 1, 2 * SIZE + 1,
                       128 * SIZE - 1, 128 * SIZE + 1, 129 * SIZE):
            for n in (length // SIZE, -(-length // SIZE)):
                assert number_of(
                    call, key, pack, 0, n * (0,), bytes(length)) == 10
        for n in (0, 1, 3):
            assert number_of(call, key, pack, 0, n * (0,), run) == 11
        for first in (LAST_PLACE, LAST_PLACE + 1, (1 << 32) - 1):
            assert number_of(call, key, pack, first, zeros, run) == 6
    for lengths in ((MOST + 1, 0), (0, MOST + 1), (65535, 0)):
        assert number_of(seal_run, key, pack, 0, lengths, run) == 5
        assert failure_of(key, pack, 0, lengths, run) == (12, 0)
    assert number_of(seal_run, key, pack, LAST_PLACE - 1, zeros, run) == 0


def check_failures(key):
    """"The smallest failing place", and "the number of its first block that
    will not open": three blocks that are good, damaged or zero, in every way.
    """
    rng = random.Random("runs: failures")
    pack = rng.getrandbits(64)
    sealed = seal_run(key, pack, 3, (20, 0, MOST), rng.randbytes(3 * SIZE))
    for numbers in itertools.product((0, 8, 12), repeat=3):
        assert failure_of(key, pack, 3, (0,) * 3, spoil(
            sealed, numbers)) == first_failure(numbers, 3)
    assert first_failure((0, 0, 0), 3) is None
    assert first_failure((0, 8, 12), 3) == (8, 4)
    assert first_failure((12, 0, 8), 3) == (12, 3)
