"""The cases of the client: calls, and what has to come of each by the
reference program.

A case is a line, one call, and cases.c has its fields. What the reference
enciphers or seals serves both directions, since it is slow.
"""

import functools
import itertools
import random

import hch
import pack as packs
import runs
import schemes
from cases_pack import with_bit, with_bytes
from cases_runs import entries
from harness import ROOT
from hch import Refused
from pack import LAST_PLACE, MOST, SIZE, plain_block

KEYS = 16, 32  # bytes: "accept 16 or 32 bytes"

# Up to four blocks and two bytes, about 512 bytes and about 4,096, and some
# between them.
LENGTHS = [*range(67), 83, 100, 256, 300, *range(495, 514), 700, 1000, 1236,
           2048, 3000, *range(4080, 4113)]
PLACES = [0, 1, 258, 65534, LAST_PLACE, 65536, 65537, 1 << 31, (1 << 32) - 1]
PACKS = [0, 1, (1 << 63) - 1, 1 << 63, (1 << 64) - 2, (1 << 64) - 1]


def case(name, key, tweak=b"", payload=b"", data=b"", pack=0, place=0,
         number=0, after=None, used=0, lengths=b"", lengths_after=None,
         failed=0):
    """The line of a call that answers this number. It leaves the bytes of
    after, or, where this is None, data as it was; so it does with the bytes
    of a list."""
    slices = (part.hex() or "-" for part in (key, tweak, payload, data))
    return " ".join([
        name, *slices, str(pack), str(place), str(number),
        left_of(data, after), str(used), lengths.hex() or "-",
        left_of(lengths, lengths_after), str(failed)])


def left_of(lent, after):
    if after is None:
        return "="
    assert len(after) == len(lent)
    return after.hex() or "-"


class Calls:
    """The calls of a scheme, whose functions begin with this prefix."""

    def __init__(self, scheme, prefix=""):
        self.scheme, self.prefix = scheme, prefix

    def case(self, name, *arguments, **others):
        return case(self.prefix + name, *arguments, **others)

    def both(self, key, tweak, board):
        """The board enciphered, and the result deciphered; or both
        refused."""
        try:
            enciphered = self.scheme.encipher(key, tweak, board)
        except Refused:
            number = hch.number_of(
                key, tweak, board, self.scheme.directions.values())
            for name in ("encipher", "decipher"):
                yield self.case(name, key, tweak, data=board, number=number)
        else:
            yield self.case("encipher", key, tweak, data=board,
                            after=enciphered)
            yield self.case("decipher", key, tweak, data=enciphered,
                            after=board)

    def sealing(self, key, payload, pack, place, block):
        """The payload sealed into a block that holds these bytes."""
        try:
            number, after = 0, self.scheme.seal(
                key, payload, pack, place, len(block))
        except Refused as refused:
            number, after = refused.number, None
        return self.case("seal", key, payload=payload, data=block, pack=pack,
                         place=place, number=number, after=after)

    def opening(self, key, pack, place, block):
        try:
            number, (used, after) = 0, self.scheme.open(
                key, pack, place, block)
        except Refused as refused:
            number, used, after = refused.number, 0, None
        return self.case("open", key, data=block, pack=pack, place=place,
                         number=number, after=after, used=used)

    def pair(self, key, payload, pack, place, block):
        """A payload within the limits sealed into a block of 512 bytes, and
        then opened: to the plain block of 01, as the reference's own check()
        says."""
        sealed = self.scheme.seal(key, payload, pack, place)
        yield self.case("seal", key, payload=payload, data=block, pack=pack,
                        place=place, after=sealed)
        yield self.case("open", key, data=sealed, pack=pack, place=place,
                        after=plain_block(payload, pack, place),
                        used=len(payload))


HCH = Calls(schemes.HCH)
FORWARD = Calls(schemes.FORWARD, "forward_")


def sealing_run(key, pack, place, lengths, run):
    try:
        number, after = 0, runs.seal_run(key, pack, place, lengths, run)
    except Refused as refused:
        number, after = refused.number, None
    return case("seal_run", key, data=run, pack=pack, place=place,
                number=number, after=after, lengths=entries(lengths))


def opening_run(key, pack, place, lengths, run):
    number, failed, left, after = 0, 0, None, None
    try:
        left, after = runs.open_run(key, pack, place, lengths, run)
    except runs.Failed as refused:
        number, failed = refused.number, refused.place
    except Refused as refused:
        number = refused.number
    return case("open_run", key, data=run, pack=pack, place=place,
                number=number, after=after, lengths=entries(lengths),
                lengths_after=left and entries(left), failed=failed)


def under_each_key(group):
    """The cases of a group that is given the length of its keys, for each."""
    @functools.wraps(group)
    def cases(rng):
        for k in KEYS:
            yield from group(rng, k)
    return cases


def by_each_scheme(group):
    """The cases of a group that is given the calls of a scheme and the length
    of its keys, for each."""
    @functools.wraps(group)
    def cases(rng):
        for k, calls in itertools.product(KEYS, (HCH, FORWARD)):
            yield from group(rng, k, calls)
    return cases


@by_each_scheme
def data_lengths(rng, k, calls):
    for length in LENGTHS:
        yield from calls.both(rng.randbytes(k), rng.randbytes(16),
                              rng.randbytes(length))


@by_each_scheme
def key_and_tweak_lengths(rng, k, calls):
    for length in (*range(35), 48, 64, 272, 288):
        some, good, tweak, board, block = map(
            rng.randbytes, (length, k, 16, 40, SIZE))
        yield from calls.both(some, tweak, board)
        yield from calls.both(good, some, board)
        yield from calls.both(some, some, board)
        yield calls.sealing(some, board, 1, 2, block)
        key = some if length in KEYS else good
        yield calls.opening(some, 1, 2, calls.scheme.seal(key, board, 1, 2))


@by_each_scheme
def payloads(rng, k, calls):
    """Even lengths under short keys, and odd ones under long keys: the client
    itself seals and opens each length under both."""
    for length in range(KEYS.index(k), 501, len(KEYS)):
        key, payload, block = map(rng.randbytes, (k, length, SIZE))
        pack, place = rng.getrandbits(64), rng.getrandbits(16)
        if length <= MOST:
            yield from calls.pair(key, payload, pack, place, block)
        else:
            yield calls.sealing(key, payload, pack, place, block)


@by_each_scheme
def lent_blocks(rng, k, calls):
    """For opening, a good block cut short, or with others behind it; and
    zeros."""
    key, payload = rng.randbytes(k), rng.randbytes(77)
    pack, place = rng.getrandbits(64), rng.getrandbits(16)
    good = calls.scheme.seal(key, payload, pack, place)
    for length in LENGTHS:
        yield calls.sealing(key, payload, pack, place, rng.randbytes(length))
        yield calls.opening(key, pack, place, (9 * good)[:length])
        yield calls.opening(key, pack, place, bytes(length))


@by_each_scheme
def places_and_packs(rng, k, calls):
    """For opening at a place over 65,535, a block that would pass its check,
    which is looked at last. Zeros are opened for each pack and place."""
    key = rng.randbytes(k)
    for pack, place in itertools.product(PACKS, PLACES):
        yield calls.opening(key, pack, place, bytes(SIZE))
    for length, pack, place in itertools.product((0, 20, MOST), PACKS, PLACES):
        payload, block = rng.randbytes(length), rng.randbytes(SIZE)
        if place <= LAST_PLACE:
            yield from calls.pair(key, payload, pack, place, block)
        else:
            yield calls.sealing(key, payload, pack, place, block)
            yield calls.opening(key, pack, place, calls.scheme.by_hand(
                key, pack, place, plain_block(payload, pack, place)))


@by_each_scheme
def wrong_blocks(rng, k, calls):
    """Blocks of another place, pack or scheme, or of another key, be it the
    same one twice or its first half; such as decipher to a plain block with
    one part of its check wrong; and zeros, but for one bit or for none."""
    key, payload, full = map(rng.randbytes, (k, 20, MOST))
    pack, place = rng.getrandbits(64), 3
    good = calls.scheme.seal(key, payload, pack, place)
    yield calls.opening(key, pack, place, good)
    yield calls.opening(key, pack, 4, good)
    yield calls.opening(key, pack ^ 1, place, good)
    yield calls.opening(key, pack ^ 1 << 63, place, good)
    for other in (rng.randbytes(k), (2 * key)[:sum(KEYS) - k]):
        yield calls.opening(other, pack, place, good)
    for other in (HCH, FORWARD):
        yield other.opening(key, pack, place, good)

    plain, filled = (plain_block(used, pack, place)
                     for used in (payload, full))
    wrong = [with_bit(plain, at, 0x80) for at in (
        20, 21, 255, 256, 494, *range(495, 508), 510, 511)]
    wrong += [with_bytes(block, 508, used.to_bytes(2, "big"))
              for block in (plain, filled)
              for used in (0, 19, 497, 511, 512, 65535)]
    for block in wrong:
        assert not packs.passes(block, pack, place)
        yield calls.opening(key, pack, place, calls.scheme.by_hand(
            key, pack, place, block))
    for at, bit in ((0, 0), (0, 0x80), (1, 1), (256, 2), (510, 8), (511, 1)):
        yield calls.opening(key, pack, place, with_bit(bytes(SIZE), at, bit))


def with_neighbours(good):
    """Strings with a byte less and a byte more than a good one has, and it."""
    return [good[:-1], good, good + good[:1]]


@by_each_scheme
def refusals(rng, k, calls):
    """All the conditions together, each of them met or not."""
    good = rng.randbytes(k)
    keys, tweaks = with_neighbours(good), with_neighbours(rng.randbytes(16))
    least = calls.scheme.least
    for key, tweak, length in itertools.product(
            keys, tweaks, (least - 1, least, 4097)):
        yield from calls.both(key, tweak, rng.randbytes(length))
    block = calls.scheme.seal(good, b"ABC", 1, 3)
    for key, length, used, place in itertools.product(
            keys, (511, SIZE, 513), (MOST, MOST + 1), (3, 65536 + 3)):
        yield calls.sealing(key, bytes(used), 1, place, (2 * block)[:length])
    for key, length, place, pack in itertools.product(
            keys, (511, SIZE, 513), (3, 65536 + 3), (1, 2)):
        for lent in (2 * block, bytes(2 * SIZE)):
            yield calls.opening(key, pack, place, lent[:length])


@under_each_key
def refusals_of_runs(rng, k):
    """The same of runs."""
    good = rng.randbytes(k)
    keys = with_neighbours(good)
    run = runs.seal_run(good, 1, 3, (0, MOST), rng.randbytes(2 * SIZE))
    for key, length, count, used, place, pack in itertools.product(
            keys, (1023, 1024, 1025), (1, 2, 3), (MOST, MOST + 1),
            (3, 65535), (1, 2)):
        call = key, pack, place, (used,) * count, (2 * run)[:length]
        yield sealing_run(*call)
        yield opening_run(*call)
    for numbers in itertools.product((0, 8, 12), repeat=2):
        yield opening_run(good, 1, 3, (0, 0), runs.spoil(run, numbers))


def stored_lines(rng):
    """The lines of crates/vectors that name one of the calls, with their
    stored answers; README.md has the format. `no` alone is a line that no call
    is made for. But for packs and runs, the client has room for 8,192
    bytes."""
    folder = ROOT / "crates" / "vectors"
    lines = (folder / "stdin").read_bytes().split(b"\n")
    answers = (folder / "stdout").read_bytes().removesuffix(b"\n").split(b"\n")
    for line, answer in zip(lines, answers, strict=True):
        name, *fields = line.split(b" ")
        short = [field for at, field in enumerate(fields)
                 if (name, at) not in LONG]
        fits = max(map(len, short), default=0) <= 2 * 8192
        if name in STORED and answer != b"no" and fits:
            yield STORED[name](rng, fields, answer)


def from_hex(*fields):
    return [bytes.fromhex(field.decode("ascii")) for field in fields]


def outcome(answer):
    """The number of a stored answer, the bytes, or None for those that were
    lent, and u, which is 0 but for a block that was opened."""
    name, _, number = answer.partition(b" ")
    return (int(number), None, 0) if name == b"no" else (
        0, *from_hex(answer), 0)


def opened(answer):
    """The same of a line that opens a block."""
    used, _, plain = answer.partition(b" ")
    return outcome(answer) if used == b"no" else (
        0, *from_hex(plain), int(used))


def left(answer):
    """The same of a line that shows what is left."""
    number, _, after = answer.partition(b" ")
    return int(number), *from_hex(after), 0


def left_open(answer):
    number, after, _ = left(answer)
    return number, after, 0 if number else packs.u_of(after)


def stored_data(name, read):
    def stored(_, fields, answer):
        key, tweak, data = from_hex(*fields)
        number, after, _ = read(answer)
        return case(name, key, tweak, data=data, number=number, after=after)
    return stored


def stored_pack(name, read):
    """The last field is the block; `ps` and `fs` lend none, and get any
    bytes."""
    def stored(rng, fields, answer):
        key, pack, place, *rest = from_hex(*fields)
        if name.endswith("seal") and len(rest) == 1:
            rest.append(rng.randbytes(SIZE))
        *payload, block = rest
        number, after, used = read(answer)
        return case(name, key, payload=b"".join(payload), data=block,
                    pack=int.from_bytes(pack, "big"),
                    place=int.from_bytes(place, "big"), number=number,
                    after=after, used=used)
    return stored


def stored_find(_, fields, answer):
    """The part that is found stands in the place of the payload."""
    pack, place = from_hex(*fields)
    number, part, _ = outcome(answer)
    return case("find", b"", payload=part or b"", data=pack,
                place=int.from_bytes(place, "big"), number=number)


def stored_run(name):
    """An answer has the number, in `ro` the place behind number 8 or 12 and
    the list as it is left, and the run."""
    def stored(_, fields, answer):
        key, pack, place, lengths, run = from_hex(*fields)
        number, *middle, after = answer.split(b" ")
        failed = int(middle.pop(0)) if len(middle) == 2 else 0
        after, *left = from_hex(after, *middle)
        return case(name, key, data=run, pack=int.from_bytes(pack, "big"),
                    place=int.from_bytes(place, "big"), number=int(number),
                    after=after, lengths=lengths,
                    lengths_after=left[0] if left else None, failed=failed)
    return stored


def stored_scheme(prefix, data, block, lent):
    """The lines of a scheme, by the first letters of those on data, of those
    on blocks, and of those that show what is left."""
    yield data + b"e", stored_data(f"{prefix}encipher", outcome)
    yield data + b"d", stored_data(f"{prefix}decipher", outcome)
    yield block + b"s", stored_pack(f"{prefix}seal", outcome)
    yield block + b"o", stored_pack(f"{prefix}open", opened)
    yield lent + b"e", stored_data(f"{prefix}encipher", left)
    yield lent + b"d", stored_data(f"{prefix}decipher", left)
    yield lent + b"s", stored_pack(f"{prefix}seal", left)
    yield lent + b"o", stored_pack(f"{prefix}open", left_open)


STORED = {
    **dict(stored_scheme("", b"h", b"p", b"l")),
    **dict(stored_scheme("forward_", b"f", b"f", b"g")),
    b"pf": stored_find,
    b"rs": stored_run("seal_run"), b"ro": stored_run("open_run"),
}
LONG = (b"pf", 0), (b"rs", 4), (b"ro", 4)  # the fields with a pack or a run

GROUPS = [data_lengths, key_and_tweak_lengths, payloads, lent_blocks,
          places_and_packs, wrong_blocks, refusals, refusals_of_runs,
          stored_lines]


def lines(group):
    """The cases of a group, which draws from a generator of its own."""
    return list(group(random.Random(f"c: {group.__name__}")))
