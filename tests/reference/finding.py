"""Finding a block in a pack by its place, written from Point 1 of
02-change-requests.md alone.

The pack is a bytes object and the place an int of 32 bits. A refused find
"gives the empty part, and a call beside it gives the number or 0": here it
raises Refused with that number.
"""

from hch import Refused
from pack import SIZE, number_of

MOST_BLOCKS = 128  # "1 to 128 whole blocks"


def block_count(pack):
    """How many blocks a pack has. "10, the lent pack is not 1 to 128 whole
    blocks."
    """
    n, over = divmod(len(pack), SIZE)
    if over != 0 or not 1 <= n <= MOST_BLOCKS:
        raise Refused(10)
    return n


def find(pack, place):
    """"The block of place p begins at byte 512 times p." Number 10 is "looked
    at first; a place at or past n is number 6, looked at next."
    """
    if place >= block_count(pack):
        raise Refused(6)
    return pack[SIZE * place:SIZE * (place + 1)]


def write(pack, place, block):
    """The pack after the block is written to the front of "that part of the
    lent pack", cut where the part ends.
    """
    part = find(pack, place)
    left = block[:SIZE] + part[len(block):]
    return pack[:SIZE * place] + left + pack[SIZE * (place + 1):]


def check():
    """That the blocks found are the pack in its order, that writing to one
    leaves the others, and each number at its edges."""
    for n in (1, 2, 127, 128):
        blocks = [bytes([i]) * SIZE for i in range(n)]
        pack = b"".join(blocks)
        assert [find(pack, place) for place in range(n)] == blocks
        for length in (0, 1, 511, 512, 513, 1024):
            left = (b"\xff" * length + blocks[n - 1][length:])[:SIZE]
            assert write(pack, n - 1, b"\xff" * length) == b"".join(
                blocks[:n - 1]) + left
        for place in (n, n + 1, 65535, 65536, (1 << 32) - 1):
            assert number_of(find, pack, place) == 6
            assert number_of(write, pack, place, b"\xff") == 6
    for length in (0, 1, 511, 513, 1023, 128 * SIZE - 1, 128 * SIZE + 1,
                   129 * SIZE):
        for place in (0, 1, 127, 128, (1 << 32) - 1):
            assert number_of(find, bytes(length), place) == 10
            assert number_of(write, bytes(length), place, b"\xff") == 10
