"""The runs of examples/save.c, the first program that an app's programmer
would write.

Blocks are compared with those of tests/reference/pack.py, and what the program
says of a refusal with the sentence of its number in the installed boards.h.
"""

import contextlib
import errno
import fcntl
import functools
import os
import pathlib
import random
import re
import resource
import shlex
import subprocess
import tempfile

import pack
from build import STRICT
from harness import (
    ROOT, Differs, Ended, compare, ended, shown, started, wait)
from pack import LAST_PLACE, MOST, SIZE

BLOCKS = 128  # the most that a pack has
EMPTY = None  # in the place of a payload

RNG = random.Random("save: keys and boards")
KEYS = RNG.randbytes(16), RNG.randbytes(32)
NUMBER = 0x0123456789abcdef
BOARDS = {f"b{length}": RNG.randbytes(length)
          for length in (0, 1, 495, 496, 497, 992, 1236, 5000)}

DEFINED = re.compile(r"^#define (BOARDS_\w+) (\d+)\b", re.MULTILINE)
RETURNED = re.compile(r'case (BOARDS_\w+): return "([^"]+)";')
REFUSED = (1, 6, 8, 10, 12)  # what the program can meet

# What the program says in its own words.
NO_END = "the end of this board is missing"
NO_ROOM = "the board does not fit in: a pack has 128 blocks at most"
NOT_WHOLE = ("a board was not saved whole: the disk is full, or another "
             "program added to the file")
TOO_FEW = "there are not so many boards from here on"
THERE = "there is such a file already"
SAVED = re.compile(rb"\w+: first place (\d+), number of blocks \d+\n")
NOT_SAVED = re.compile(rb"save: pack: (?:place \d+: )?(.+)\n")


# With this the program runs a command between its look at the pack file and
# what it writes there: before it seals a board.
MEANWHILE = """
#include <boards.h>
#include <stdlib.h>
#define LENT const uint8_t *key, size_t key_length, uint64_t pack, \\
    uint32_t first, const uint16_t *lengths, size_t count, \\
    uint8_t *run, size_t length
uint32_t __real_boards_seal_run(LENT);
uint32_t __wrap_boards_seal_run(LENT);
uint32_t __wrap_boards_seal_run(LENT) {
    if (system(getenv("MEANWHILE")) != 0) abort();
    return __real_boards_seal_run(key, key_length, pack, first, lengths,
                                  count, run, length);
}
"""


def sentences(prefix):
    """The sentence of each number, from the header."""
    text = pathlib.Path(prefix, "include", "boards.h").read_text("ascii")
    numbers = dict(DEFINED.findall(text))
    found = {int(numbers[name]): sentence
             for name, sentence in RETURNED.findall(text)}
    missing = [number for number in REFUSED if number not in found]
    if missing or len(set(found.values())) != len(found):
        raise Differs("boards.h has not a sentence of its own for each "
                      f"number: {found}")
    return found


def payloads(board):
    """The payloads of a board: all but the last one are full."""
    return [board[at:at + MOST] for at in range(0, len(board) + 1, MOST)]


def layout(boards):
    """The first place of each board, and the payloads of all places, when the
    boards are added in their order."""
    first, all_payloads = {}, []
    for name, board in boards.items():
        first[name] = len(all_payloads)
        all_payloads += payloads(board)
    return first, all_payloads


class Desk:
    """A folder with a key file, the boards and room for a pack file, and the
    program, which is run there."""

    def __init__(self, program, sentence, folder, key):
        self.program, self.sentence = program, sentence
        self.folder = pathlib.Path(folder)
        self.pack = self.folder / "pack"
        self.key = key
        self.put("key", key)
        for name, board in BOARDS.items():
            self.put(name, board)

    def put(self, name, data):
        (self.folder / name).write_bytes(data)

    def sealed(self, contents, number=NUMBER, first=0):
        """The blocks of these payloads, from a place on, by the reference;
        EMPTY stands for an empty slot."""
        return b"".join(
            bytes(SIZE) if payload is EMPTY
            else pack.seal(self.key, payload, number, place)
            for place, payload in enumerate(contents, first))

    def save(self, *arguments, key="key", number=NUMBER, pack="pack",
             **options):
        return self.run(key, str(number), pack, *arguments, **options)

    def run(self, *arguments, program=None, **options):
        return ended([program or self.program, *arguments], cwd=self.folder,
                     **options)

    def begins(self, *arguments, key="key"):
        """The program, with pipes to its three files."""
        return started(
            [self.program, key, str(NUMBER), "pack", *arguments],
            cwd=self.folder, stdin=subprocess.PIPE, stdout=subprocess.PIPE,
            stderr=subprocess.PIPE)

    def others(self):
        """Another key, and another pack number."""
        self.put("other", changed(self.key, 3))
        return {"key": "other"}, {"number": NUMBER + 1}

    # What the program has to say.

    def refusal(self, number, place=None):
        return said(self.sentence[number], place)

    def report(self, answers, whole):
        """The lines of check, by what opening each place answers; it counts
        the blocks of a pack alone, which is whole blocks."""
        lines = [f"place {place}: "
                 + (self.sentence[answer] if answer else "good")
                 for place, answer in enumerate(answers)]
        if whole:
            lines.append(f"number of blocks {len(answers)}, never saved "
                         f"{answers.count(12)}, damaged {answers.count(8)}")
        return "".join(line + "\n" for line in lines)

    # What it does.

    def adds(self, boards, place=0, **options):
        """Adds boards, from a place on, and is told where they went."""
        first, _ = layout(boards)
        says(self.save("add", *boards, **options), "".join(
            saved(name, place + first[name], board)
            for name, board in boards.items()))

    def adds_not(self, stderr, name="b1", **options):
        """The board is refused, and the pack file is as it was."""
        before = self.packed()
        fails(self.save("add", name, **options), stderr)
        self.keeps("add", before)

    def gives(self, place, board, **options):
        says(self.save("get", str(place), **options), board)

    def gives_not(self, place, stderr, **options):
        fails(self.save("get", str(place), **options), stderr)

    def loads(self, place, boards, **options):
        """A chapter: so many boards from the place on, in files."""
        names = self.new_names(len(boards))
        says(self.save("chapter", str(place), *names, **options))
        for name, board in zip(names, boards):
            path = self.folder / name
            compare(f"board {name} from place {place} on", board,
                    path.read_bytes())
            path.unlink()

    def loads_not(self, place, stderr, count=1, **options):
        names = self.new_names(count)
        fails(self.save("chapter", str(place), *names, **options), stderr)
        if made := [name for name in names if (self.folder / name).exists()]:
            raise Differs(f"{made} were made")

    def new_names(self, count):
        return [f"new{i}" for i in range(count)]

    def reports(self, answers, no_end=None, whole=True, **options):
        """What check says of blocks with these answers, where a board stops
        at that place without its end, in a file that is a pack or not."""
        error = (said(self.sentence[10]) if not whole
                 else said("not all saved blocks are good") if 8 in answers
                 else "" if no_end is None else said(NO_END, no_end))
        says(self.save("check", **options), self.report(answers, whole),
             error, 1 if error else 0)

    def is_no_pack(self, answers=(), places=(0,)):
        """Nothing is added to the pack file or given of it, and check says
        so, after it has looked at the blocks with these answers."""
        before = self.packed()
        self.reports(answers, whole=False)
        for place in places:
            self.gives_not(place, self.refusal(10, place))
            self.loads_not(place, self.refusal(10, place))
        self.adds_not(self.refusal(10))
        self.keeps("all four", before)

    # The pack file.

    def packed(self):
        return self.pack.read_bytes()

    def keeps(self, what, before):
        compare(f"the pack file after {what}", before, self.packed())

    def has_no_pack(self):
        if self.pack.exists():
            raise Differs("a pack file was made")


def said(sentence, place=None, file="pack"):
    """What the program says of a place, or of the whole file."""
    at = "" if place is None else f"place {place}: "
    return f"save: {file}: {at}{sentence}\n"


def saved(name, place, board):
    """What it says of a board that it has saved."""
    return (f"{name}: first place {place}, "
            f"number of blocks {len(payloads(board))}\n")


def finished(process):
    """What a program that was begun writes from now on."""
    process.stdin.close()
    status = wait(process)
    return Ended(process.stdout.read(), process.stderr.read(), status)


def says(result, stdout=b"", stderr=b"", status=0):
    """The program has written just this and ended with this status."""
    stdout, stderr = (
        text.encode("ascii") if isinstance(text, str) else text
        for text in (stdout, stderr))
    compare("standard error", stderr, result.stderr)
    compare("standard output", stdout, result.stdout)
    if result.status != status:
        raise Differs(f"status {result.status} in the place of {status}")


def fails(result, stderr):
    says(result, b"", stderr, 1)


def reason(number):
    return os.strerror(number)


def changed(data, at):
    return data[:at] + bytes([data[at] ^ 1 << at % 8]) + data[at + 1:]


# Boards that are saved and given back.

def all_lengths(desk):
    first, places = layout(BOARDS)
    desk.adds(BOARDS)
    before = desk.packed()
    for name, board in BOARDS.items():
        desk.gives(first[name], board)
    desk.reports([0] * len(places))
    desk.keeps("get and check", before)
    return f"{len(places)} blocks"


def as_the_reference(desk):
    _, places = layout(BOARDS)
    desk.adds(BOARDS)
    desk.keeps("add", desk.sealed(places))


def three_blocks(desk):
    says(desk.save("add", "b1236"),
         "b1236: first place 0, number of blocks 3\n")
    compare("the pack file's length", b"1536", b"%d" % len(desk.packed()))
    says(desk.save("check"), "place 0: good\nplace 1: good\nplace 2: good\n"
         "number of blocks 3, never saved 0, damaged 0\n")


def one_by_one(desk):
    """Boards that are added one by one are as those that are added at once."""
    desk.adds(BOARDS)
    at_once = desk.packed()
    desk.pack.unlink()
    first, _ = layout(BOARDS)
    for name, board in BOARDS.items():
        desk.adds({name: board}, first[name])
    desk.keeps("one by one", at_once)


def within(desk):
    """From a place within a board on, it is the rest that is given."""
    desk.adds({"b5000": BOARDS["b5000"]})
    for place in (1, 9, 10):
        desk.gives(place, BOARDS["b5000"][MOST * place:])


def from_a_pipe(desk):
    """A board that arrives by a pipe, and one that is the pack file."""
    board = BOARDS["b5000"]
    says(desk.save("add", "/dev/stdin", data=board),
         "/dev/stdin: first place 0, number of blocks 11\n")
    desk.gives(0, board)
    sealed = desk.packed()
    desk.adds({"pack": sealed}, 11)
    desk.gives(11, sealed)


def numbers(desk):
    """The least and the greatest pack number, and zeros in front."""
    for number in (0, 2**64 - 1):
        desk.adds({"b1": BOARDS["b1"]}, number=number)
        desk.keeps("add", desk.sealed([BOARDS["b1"]], number))
        desk.gives("000", BOARDS["b1"], number=f"00{number}")
        desk.pack.unlink()


# Chapters: several boards, given back at once.

def chapters(desk):
    """All boards, and those from each board on, up to each."""
    first, _ = layout(BOARDS)
    boards = list(BOARDS.values())
    desk.adds(BOARDS)
    before = desk.packed()
    for i, place in enumerate(first.values()):
        for j in range(i + 1, len(boards) + 1):
            desk.loads(place, boards[i:j])
    desk.loads(first["b5000"] + 3, [BOARDS["b5000"][3 * MOST:]])
    desk.keeps("chapter", before)


def longest_chapter(desk):
    """128 boards, and 40 of a pack that begin within it."""
    boards = [bytes([i]) * (7 * i % MOST) for i in range(BLOCKS)]
    desk.put("pack", desk.sealed(boards))
    desk.loads(0, boards)
    desk.loads(60, boards[60:100])
    desk.loads(BLOCKS - 1, boards[-1:])


def no_chapter(desk):
    """Damaged blocks, of which the first is named, too few boards, places
    that are not there, and a file that cannot be made."""
    boards = {name: BOARDS[name] for name in ("b1", "b1236", "b497", "b0")}
    desk.adds(boards)
    good = desk.packed()
    for places in ((0,), (3,), (6,), (2, 5)):
        desk.put("pack", functools.reduce(
            lambda data, place: changed(data, SIZE * place + 300), places,
            good))
        damaged = desk.packed()
        desk.loads_not(0, desk.refusal(8, places[0]), 4)
        desk.keeps("chapter", damaged)
    desk.loads(4 + 2, [BOARDS["b0"]])
    desk.put("pack", good)
    desk.loads_not(0, said(TOO_FEW, 0), 5)
    desk.loads_not(6, said(TOO_FEW, 6), 2)
    desk.loads_not(7, desk.refusal(6, 7))
    desk.loads_not(0, desk.refusal(8, 0), number=NUMBER + 1)
    desk.put("pack", good[:3 * SIZE])
    desk.loads_not(0, said(TOO_FEW, 0), 2)
    desk.loads(0, [BOARDS["b1"]])
    desk.put("pack", good)
    fails(desk.save("chapter", "0", "none/new"),
          f"save: none/new: {reason(errno.ENOENT)}\n")


def chapter_over_files(desk):
    """The second file is there already, be it one that cannot be read: it is
    kept, and no other is written. A name that is given twice is new once."""
    desk.adds({name: BOARDS[name] for name in ("b1", "b1236", "b497")})
    before, second, after = desk.new_names(3)
    there = desk.folder / second

    def refused(why):
        fails(desk.save("chapter", "0", before, second, after),
              f"save: {second}: {why}\n")
        if made := [name for name in (before, after)
                    if (desk.folder / name).exists()]:
            raise Differs(f"{made} were made")

    there.write_bytes(b"mine")
    refused(THERE)
    there.chmod(0o200)  # root may read it all the same
    refused(THERE if os.access(there, os.R_OK) else reason(errno.EACCES))
    there.chmod(0o600)
    compare("the file that was there", b"mine", there.read_bytes())
    there.unlink()
    there.symlink_to(second)  # which no one can open
    refused(reason(errno.ELOOP))
    there.unlink()
    fails(desk.save("chapter", "0", before, before),
          f"save: {before}: {THERE}\n")
    compare("the name given twice", BOARDS["b1"],
            (desk.folder / before).read_bytes())


# Blocks that are not good.

def damaged(desk):
    """One bit of one block: this place alone is named, and its board alone is
    not given."""
    first, places = layout(BOARDS)
    desk.adds(BOARDS)
    good = desk.packed()
    hit, start = "b5000", first["b5000"]
    for place, byte in ((start, 0), (start + 5, 300), (start + 10, 511)):
        desk.put("pack", changed(good, SIZE * place + byte))
        answers = [0] * len(places)
        answers[place] = 8
        desk.reports(answers)
        desk.gives_not(start, desk.refusal(8, place))
        desk.keeps("get and check", changed(good, SIZE * place + byte))
    for name in BOARDS.keys() - {hit}:
        desk.gives(first[name], BOARDS[name])


def damaged_last(desk):
    """Nothing is added behind a damaged block. One that is further in front
    is not looked at."""
    boards = {name: BOARDS[name] for name in ("b1236", "b497")}
    desk.adds(boards)
    good = desk.packed()
    for byte in (0, 1, 300, 511):
        desk.put("pack", changed(good, 4 * SIZE + byte))
        desk.adds_not(desk.refusal(8, 4))
    desk.gives(0, BOARDS["b1236"])
    desk.put("pack", changed(good, 3 * SIZE))
    desk.adds({"b1": BOARDS["b1"]}, 5)
    desk.reports([0, 0, 0, 8, 0, 0])


def exchanged(desk):
    """Two blocks of the same length."""
    first, places = layout(BOARDS)
    desk.adds(BOARDS)
    good = desk.packed()
    blocks = [good[at:at + SIZE] for at in range(0, len(good), SIZE)]
    one, other = first["b1236"], first["b5000"] + 1
    blocks[one], blocks[other] = blocks[other], blocks[one]
    desk.put("pack", b"".join(blocks))
    answers = [0] * len(places)
    answers[one] = answers[other] = 8
    desk.reports(answers)
    desk.gives_not(one, desk.refusal(8, one))
    desk.gives_not(other - 1, desk.refusal(8, other))
    desk.gives(first["b992"], BOARDS["b992"])


def other_key(desk):
    """Another bit of the key, and a key of the other length: its first half,
    or the same key twice."""
    desk.adds({"b1236": BOARDS["b1236"]})
    for other in (changed(desk.key, len(desk.key) - 1),
                  desk.key[:16] if len(desk.key) == 32 else 2 * desk.key):
        desk.put("other", other)
        desk.reports([8] * 3, key="other")
        desk.gives_not(0, desk.refusal(8, 0), key="other")
        desk.adds_not(desk.refusal(8, 2), key="other")
    desk.adds({"b1": BOARDS["b1"]}, 3)


def other_number(desk):
    desk.adds({"b1236": BOARDS["b1236"]})
    for number in (NUMBER + 1, 0, 2**64 - 1):
        desk.reports([8] * 3, number=number)
        desk.gives_not(2, desk.refusal(8, 2), number=number)
        desk.adds_not(desk.refusal(8, 2), number=number)
    desk.adds({"b1": BOARDS["b1"]}, 3)


def key_lengths(desk):
    """A wrong key is told at once, whatever is to be done."""
    refusal = f"save: key: {desk.sentence[1]}\n"
    for length in (0, 1, 15, 17, 24, 31, 33, 64, 10000):
        desk.put("key", (desk.key * 625)[:length])
        fails(desk.save("add", "b1"), refusal)
        desk.has_no_pack()
    desk.put("pack", b"")
    for length in (len(desk.key) - 1, len(desk.key) + 1):
        desk.put("key", (desk.key * 2)[:length])
        for command in (["add", "b1"], ["get", "0"], ["chapter", "0", "new"],
                        ["check"]):
            fails(desk.save(*command), refusal)
            desk.keeps("a wrong key", b"")


def cut(desk):
    """A pack file that ends within a block, and the same cut back to the end
    of its last whole board."""
    desk.adds({name: BOARDS[name] for name in ("b1", "b1236")})
    good = desk.packed()
    for place in range(4):
        for left in (1, SIZE - 1):
            desk.put("pack", good[:SIZE * place + left])
            desk.is_no_pack([0] * place, (0, place, place + 1, 2**32 - 1))
    desk.put("pack", changed(good, SIZE)[:-1])
    desk.is_no_pack([0, 8, 0])
    desk.put("pack", good[:SIZE])
    desk.gives(0, BOARDS["b1"])
    desk.adds({"b1236": BOARDS["b1236"]}, 1)
    desk.keeps("add", good)


def no_end(desk):
    """A pack file that ends within a board, but with a whole block; and one
    that ends with a board, which is as good as any."""
    boards = {name: BOARDS[name] for name in ("b1", "b1236")}
    desk.adds(boards)
    good = desk.packed()
    for blocks in (2, 3):
        desk.put("pack", good[:SIZE * blocks])
        desk.gives_not(1, desk.refusal(6, blocks))
        desk.adds_not(said(NO_END, blocks - 1))
        desk.adds_not(said(NO_END, blocks - 1), "b0")
        desk.gives(0, BOARDS["b1"])
        desk.reports([0] * blocks, no_end=blocks - 1)
    desk.put("pack", good[:SIZE])
    desk.adds({"b1236": BOARDS["b1236"]}, 1)
    desk.keeps("add", good)
    desk.put("pack", b"")
    desk.adds(boards)
    desk.keeps("add", good)


# Empty slots.

SLOTS = 1, 5, BLOCKS  # of a new save file


def nothing_saved(desk):
    """A new save file is not damaged, under any key and number; every slot of
    it was never saved, and past its end there is none."""
    for slots in SLOTS:
        new = bytes(SIZE * slots)
        desk.put("pack", new)
        for options in ({}, *desk.others()):
            desk.reports([12] * slots, **options)
            for place in {0, slots // 2, slots - 1}:
                desk.gives_not(place, desk.refusal(12, place), **options)
                desk.loads_not(place, desk.refusal(12, place), **options)
        desk.gives_not(slots, desk.refusal(6, slots))
        desk.loads_not(slots, desk.refusal(6, slots))
        desk.keeps("get, chapter and check", new)


def holds(desk, contents, slots):
    """The pack file is that of these payloads in a file of so many slots, and
    longer only where they do not suffice; check says so."""
    empty = max(0, slots - len(contents))
    desk.keeps("add", desk.sealed([*contents, *[EMPTY] * empty]))
    desk.reports([0] * len(contents) + [12] * empty)


def into_slots(desk):
    """Boards fill a new save file, one by one and at once, and it grows when
    its slots are taken. A chapter is given in front of those that are left."""
    names = "b1236", "b1", "b497", "b0", "b5000"
    boards = {name: BOARDS[name] for name in names}
    first, places = layout(boards)
    for slots in SLOTS:
        desk.put("pack", bytes(SIZE * slots))
        for i, (name, board) in enumerate(boards.items(), 1):
            desk.adds({name: board}, first[name])
            up_to = list(boards.values())[:i]
            holds(desk, places[:first[name] + len(payloads(board))], slots)
            desk.gives(first[name], board)
            desk.loads(0, up_to)
            desk.loads_not(0, said(TOO_FEW, 0), i + 1)
        desk.put("pack", bytes(SIZE * slots))
        desk.adds(boards)
        holds(desk, places, slots)
    return f"{len(places)} blocks"


def slot_between(desk):
    """Slots in front of boards, between them and behind them. The boards are
    given, and a new one goes behind the last."""
    board = payloads(BOARDS["b1236"])
    contents = [EMPTY, b"x", EMPTY, EMPTY, *board, EMPTY]
    desk.put("pack", desk.sealed(contents))
    desk.reports([12, 0, 12, 12, 0, 0, 0, 12])
    desk.gives(1, b"x")
    desk.gives(4, BOARDS["b1236"])
    desk.loads(4, [BOARDS["b1236"]])
    for place, empty in ((0, 0), (1, 2), (2, 2), (3, 3), (7, 7)):
        desk.loads_not(place, desk.refusal(12, empty))
    for place in (0, 2, 3, 7):
        desk.gives_not(place, desk.refusal(12, place))
    desk.adds({"b497": BOARDS["b497"]}, 7)
    desk.keeps("add", desk.sealed(
        [*contents[:7], *payloads(BOARDS["b497"])]))


def slot_or_damage(desk):
    """A bit in an empty slot makes a damaged block of it. The first of the two
    is named by a chapter, and nothing is added behind a damaged one."""
    good = desk.sealed([b"x", EMPTY, EMPTY, b"y", EMPTY])
    for byte in (0, 1, 255, 495, 496, 511):
        for place, answers, named in ((1, [0, 8, 12, 0, 12], 8),
                                      (2, [0, 12, 8, 0, 12], 12)):
            desk.put("pack", changed(good, SIZE * place + byte))
            desk.reports(answers)
            desk.loads_not(0, desk.refusal(named, 1))
            for at in (1, 2):
                desk.gives_not(at, desk.refusal(answers[at], at))
                desk.loads_not(at, desk.refusal(answers[at], at))
            desk.loads(3, [b"y"])
        desk.put("pack", changed(good, 4 * SIZE + byte))
        desk.reports([0, 12, 12, 0, 8])
        desk.loads_not(3, desk.refusal(8, 4))
        desk.adds_not(desk.refusal(8, 4))


def slot_behind_others(desk):
    """Boards of another key or number in front of empty slots: nothing is
    added behind them, and what is empty is so under every key."""
    desk.put("pack", desk.sealed([b"x", b"y", EMPTY]))
    for options in desk.others():
        desk.reports([8, 8, 12], **options)
        desk.loads_not(0, desk.refusal(8, 0), **options)
        desk.gives_not(2, desk.refusal(12, 2), **options)
        desk.adds_not(desk.refusal(8, 1), **options)
    desk.adds({"b1": BOARDS["b1"]}, 2)


def end_never_saved(desk):
    """The last block of a board was zeroed, at the end of the file and before
    other boards: its end is missing, and nothing is added behind it."""
    for name in ("b496", "b1236"):
        *full, _ = payloads(BOARDS[name])
        last = len(full)
        for slots in (1, 3):
            desk.put("pack", desk.sealed([b"x", *full, *[EMPTY] * slots]))
            desk.reports([0] * (last + 1) + [12] * slots, no_end=last)
            desk.gives_not(1, desk.refusal(12, last + 1))
            desk.loads(0, [b"x"])
            desk.loads_not(0, said(TOO_FEW, 0), 2)
            desk.loads_not(1, said(TOO_FEW, 1))
            desk.adds_not(said(NO_END, last))
        desk.put("pack", desk.sealed([*full, EMPTY, b"x"]))
        desk.reports([0] * last + [12, 0], no_end=last - 1)
        desk.gives_not(0, desk.refusal(12, last))
        desk.loads_not(0, desk.refusal(12, last))
        desk.adds({"b1": BOARDS["b1"]}, last + 2)


def slots_cut(desk):
    """Files of zeros that are no packs."""
    for length in (1, SIZE - 1, 5 * SIZE + 1, BLOCKS * SIZE + 1):
        desk.put("pack", bytes(length))
        desk.is_no_pack([12] * (length // SIZE), (0, length // SIZE))
    for length in ((BLOCKS + 1) * SIZE, 2 * BLOCKS * SIZE):
        desk.put("pack", bytes(length))
        desk.is_no_pack([], (0, BLOCKS))


# Places.

def past_the_end(desk):
    desk.adds({"b1236": BOARDS["b1236"]})
    desk.gives(2, BOARDS["b1236"][2 * MOST:])
    for place in (3, 4, BLOCKS - 1, BLOCKS, BLOCKS + 1, 1000, LAST_PLACE,
                  LAST_PLACE + 1, LAST_PLACE + 3, 2**31, 2**32 - 1):
        desk.gives_not(place, desk.refusal(6, place))


def empty(desk):
    """A pack file without a byte is no pack, and adding begins one."""
    desk.put("pack", b"")
    desk.reports([], whole=False)
    for place in (0, 1, BLOCKS, LAST_PLACE + 1):
        desk.gives_not(place, desk.refusal(10, place))
    desk.adds({"b1236": BOARDS["b1236"]})
    desk.gives(0, BOARDS["b1236"])


def last_places(desk):
    """Packs of 127 and 128 blocks, in a file that grows and in one of 128
    slots: what is left of them takes a board or not, and all of the places 0
    to n - 1 are there."""
    long = RNG.randbytes(MOST * (BLOCKS - 2) + 1)
    desk.put("long", long)
    full = said(NO_ROOM, BLOCKS)
    for slots, answer in ((0, 6), (BLOCKS, 12)):
        desk.put("pack", bytes(SIZE * slots))
        desk.adds({"long": long})
        desk.gives_not(BLOCKS - 1, desk.refusal(answer, BLOCKS - 1))
        for name in ("b496", "b5000", "long"):
            desk.adds_not(full, name)
        desk.adds({"b495": BOARDS["b495"]}, BLOCKS - 1)
        for name in ("b0", "b1", "b496"):
            desk.adds_not(full, name)
        desk.gives(0, long)
        desk.gives(BLOCKS - 2, long[-1:])
        desk.gives(BLOCKS - 1, BOARDS["b495"])
        for place in (BLOCKS, BLOCKS + 1, 2 * BLOCKS, LAST_PLACE,
                      LAST_PLACE + 1, 2**32 - 1):
            desk.gives_not(place, desk.refusal(6, place))
        desk.reports([0] * BLOCKS)


def longest_board(desk):
    """63,487 bytes fill a pack, as the reference seals them, in a file that
    grows and in one of 128 slots. There is no room for a byte more, nor for
    any other board before it."""
    board = RNG.randbytes(MOST * BLOCKS - 1)
    desk.put("longest", board)
    desk.put("longer", board + b"x")
    full = said(NO_ROOM, BLOCKS)
    for slots in (0, BLOCKS):
        desk.put("pack", bytes(SIZE * slots))
        desk.adds_not(full, "longer")
        desk.adds_not(full, "/dev/zero")
        desk.adds({"longest": board})
        holds(desk, payloads(board), slots)
        desk.gives(0, board)
        desk.put("pack", bytes(SIZE * slots))
        says(desk.save("add", "b1", "longest", "b1"),
             saved("b1", 0, BOARDS["b1"]), full, 1)
        holds(desk, [BOARDS["b1"]], slots)
    return f"{len(board)} bytes"


def too_long(desk):
    """128 blocks, a byte less and a byte more, 129 blocks and longer files;
    not every file system has the longest."""
    good = desk.sealed([b""] * BLOCKS)
    next_block = desk.sealed([b""], first=BLOCKS)
    desk.put("pack", good)
    desk.reports([0] * BLOCKS)
    desk.put("pack", good[:-1])
    desk.is_no_pack([0] * (BLOCKS - 1), (0, BLOCKS - 1))
    for more in (next_block[:1], next_block[:-1]):
        desk.put("pack", good + more)
        desk.is_no_pack([0] * BLOCKS, (0, BLOCKS - 1, BLOCKS))
    for more in (next_block, next_block + b"x", 2 * next_block):
        desk.put("pack", good + more)
        desk.is_no_pack([], (0, BLOCKS - 1, BLOCKS, BLOCKS + 1))
    for length in (SIZE * (LAST_PLACE + 1), SIZE * 2**32, SIZE * (2**32 + 1)):
        with contextlib.suppress(OSError):
            os.truncate(desk.pack, length)
        desk.gives_not(0, desk.refusal(10, 0))
        fails(desk.save("add", "b1"), desk.refusal(10))
        desk.reports([], whole=False)


def endless(desk):
    """A board without end is refused at the place after the last one, and all
    of the program's room was used by then. The pack file is made, and stays
    empty."""
    fails(desk.save("add", "/dev/zero"), said(NO_ROOM, BLOCKS))
    desk.keeps("add", b"")
    desk.adds({"b1": BOARDS["b1"]})
    desk.adds_not(said(NO_ROOM, BLOCKS), "/dev/zero")


# Programs that add to one pack file at once.

def another_between(desk):
    """When more has been written to a pipe than it holds, the program has
    begun to read its board. Then another one adds a board, and this one goes
    behind it: to the end of the file, or into empty slots, or both."""
    for slots in (0, 4, 40):
        desk.put("pack", desk.sealed([BOARDS["b1"], *[EMPTY] * slots]))
        with desk.begins("add", "/dev/stdin") as process:
            board = bytes(
                fcntl.fcntl(process.stdin, fcntl.F_SETPIPE_SZ, 4096) + 1)
            process.stdin.write(board)
            desk.adds({"b1236": BOARDS["b1236"]}, 1)
            says(finished(process), saved("/dev/stdin", 4, board))
        desk.loads(0, [BOARDS["b1"], BOARDS["b1236"], board])


def another_at_once(desk):
    """Another one adds a board when this one has looked for its place, which
    is told by the end of the file. The other's board is good."""
    desk.adds({"b1": BOARDS["b1"]})
    other = shlex.join([str(desk.program), "key", str(NUMBER), "pack", "add",
                        "b1236"])
    fails(desk.save("add", "b497", program=paused(desk.program),
                    env={**os.environ, "MEANWHILE": f"{other} >told"}),
          said(NOT_WHOLE, 1))
    desk.loads_not(0, desk.refusal(8, 4))
    desk.gives(0, BOARDS["b1"])
    desk.gives(1, BOARDS["b1236"])
    desk.adds_not(desk.refusal(8, 5))


def saved_or_told(desk, name, board, result):
    """The board is where the program says that it is, or the program says why
    it is not saved. Returns whether it is."""
    if told := SAVED.fullmatch(result.stdout):
        says(result, saved(name, int(told[1]), board))
        desk.gives(int(told[1]), board)
        return True
    told = NOT_SAVED.fullmatch(result.stderr)
    if told is None or told[1].decode("ascii") not in (
            NOT_WHOLE, NO_END, desk.sentence[8], desk.sentence[10]):
        raise Differs(f"standard error is {shown(result.stderr)}")
    fails(result, result.stderr)
    return False


def many_at_once(desk):
    """Programs that wait for the end of their key, which comes to all of them
    at once. Each board is another one."""
    rng = random.Random("save: boards at once")
    boards = {f"c{length}": rng.randbytes(length)
              for length in range(1, 6000, 500)}
    for name, board in boards.items():
        desk.put(name, board)
    with contextlib.ExitStack() as stack:
        processes = [stack.enter_context(
            desk.begins("add", name, key="/dev/stdin")) for name in boards]
        for process in processes:
            process.stdin.write(desk.key)
        for process in processes:
            process.stdin.close()
        results = [finished(process) for process in processes]
    count = sum(saved_or_told(desk, name, board, result)
                for (name, board), result in zip(boards.items(), results))
    return f"{count} of {len(boards)} boards saved"


# Other calls, and reads and writes that fail.

def usage(desk):
    desk.adds({"b1": BOARDS["b1"]})
    before = desk.packed()
    bad = ("", "-1", "+1", " 1", "1 ", "1x", "0x1", "1.0", "1e3", "x", "\t1",
           "1\n", "--1", "99999999999999999999999")
    calls = [
        [], ["key"], ["key", "1"], ["key", "1", "pack"],
        ["key", "1", "pack", "add"], ["key", "1", "pack", "get"],
        ["key", "1", "pack", "get", "0", "0"],
        ["key", "1", "pack", "chapter"], ["key", "1", "pack", "chapter", "0"],
        ["key", "1", "pack", "chapter", "b1", "0"],
        ["key", "1", "pack", "check", "0"], ["key", "1", "pack", "list"],
        ["key", "1", "pack", "", "b1"], ["key", "1", "pack", "adds", "b1"],
        *(["key", number, "pack", "check"]
          for number in (*bad, str(2**64), f"-{2**64 - 1}")),
        *(["key", "1", "pack", "get", place] for place in (*bad, str(2**32))),
    ]
    text = ("usage: save KEYFILE PACKNUMBER PACKFILE "
            "add BOARD... | get PLACE | chapter PLACE BOARD... | check\n")
    for arguments in calls:
        try:
            says(desk.run(*arguments), b"", text, 2)
        except Differs as differs:
            raise Differs(f"{arguments}: {differs}") from None
        desk.keeps("bad usage", before)
    return f"{len(calls)} calls"


def files_that_fail(desk):
    """Files that are missing, and a directory in their place. Where a board
    cannot be opened or read no pack file is made."""
    missing = reason(errno.ENOENT)
    directory = reason(errno.EISDIR)
    for key, what in (("none", missing), (".", directory)):
        fails(desk.save("add", "b1", key=key), f"save: {key}: {what}\n")
    for name, what in (("none", missing), ("", missing), (".", directory)):
        fails(desk.save("add", name), f"save: {name}: {what}\n")
    desk.has_no_pack()
    for command in (["get", "0"], ["chapter", "0", "new"], ["check"]):
        fails(desk.save(*command), f"save: pack: {missing}\n")
        desk.has_no_pack()
    for command in (["add", "b1"], ["get", "0"], ["check"]):
        fails(desk.save(*command, pack="."), f"save: .: {directory}\n")
    fails(desk.save("add", "b1", pack="none/pack"),
          f"save: none/pack: {missing}\n")


def one_of_three(desk):
    """The boards before the one that fails are saved, and no other."""
    says(desk.save("add", "b1236", "none", "b1"),
         "b1236: first place 0, number of blocks 3\n",
         f"save: none: {reason(errno.ENOENT)}\n", 1)
    desk.reports([0] * 3)
    desk.gives(0, BOARDS["b1236"])


def full_output(desk):
    """A board is saved even if that cannot be told."""
    full = f"save: standard output: {reason(errno.ENOSPC)}\n"
    with open("/dev/full", "wb") as device:
        fails(desk.save("add", "b5000", stdout=device), full)
        fails(desk.save("check", stdout=device), full)
        fails(desk.save("get", "0", stdout=device), full)
        fails(desk.save("get", "10", stdout=device), full)
    desk.gives(0, BOARDS["b5000"])


def full_pack(desk):
    """A file that may grow by less than a board: the program says so, and
    nothing is added behind what it has left. A device that is full is read as
    zeros without end, and is no pack."""
    fails(desk.save("add", "b5000", pack="/dev/full"),
          said(desk.sentence[10], file="/dev/full"))
    good = desk.sealed([BOARDS["b1"]])
    for slots, room, then in ((0, SIZE // 2, desk.refusal(10)),
                              (0, 2 * SIZE, said(NO_END, 2)),
                              (0, 8 * SIZE, said(NO_END, 8)),
                              (0, 11 * SIZE - 1, desk.refusal(10)),
                              (2, SIZE // 2, desk.refusal(8, 1)),
                              (2, SIZE, said(NO_END, 1)),
                              (2, 2 * SIZE, said(NO_END, 2)),
                              (2, 8 * SIZE, said(NO_END, 8)),
                              (2, 11 * SIZE - 1, desk.refusal(10))):
        most = len(good) + room
        before = good + bytes(SIZE * slots)
        desk.put("pack", before)
        fails(desk.save(
            "add", "b5000", restore_signals=False,
            preexec_fn=lambda: resource.setrlimit(
                resource.RLIMIT_FSIZE, (most, most))), said(NOT_WHOLE, 1))
        compare("the pack file before that place", good,
                desk.packed()[:len(good)])
        desk.adds_not(then)
        desk.put("pack", before)
        desk.gives(0, BOARDS["b1"])


RUNS = {
    "boards of 0 to 5,000 bytes, and back": all_lengths,
    "the blocks of the reference": as_the_reference,
    "1,236 bytes in three blocks": three_blocks,
    "boards one by one": one_by_one,
    "a place within a board": within,
    "a board from a pipe, and the pack file as one": from_a_pipe,
    "the edges of the pack number": numbers,
    "chapters": chapters,
    "a chapter of 128 blocks": longest_chapter,
    "no chapter": no_chapter,
    "a chapter over files that are there": chapter_over_files,
    "a damaged block": damaged,
    "a damaged block at the end": damaged_last,
    "two blocks exchanged": exchanged,
    "another key": other_key,
    "another pack number": other_number,
    "keys of other lengths": key_lengths,
    "a pack file cut within a block": cut,
    "a pack file cut within a board": no_end,
    "a new save file": nothing_saved,
    "boards into a new save file": into_slots,
    "empty slots between boards": slot_between,
    "an empty slot and a damaged one": slot_or_damage,
    "empty slots behind boards of another key": slot_behind_others,
    "a board whose end was never saved": end_never_saved,
    "files of zeros that are no packs": slots_cut,
    "places past the end": past_the_end,
    "an empty pack file": empty,
    "packs of 127 and 128 blocks": last_places,
    "the longest board": longest_board,
    "pack files that are too long": too_long,
    "a board without end": endless,
    "a board that another program adds meanwhile": another_between,
    "a board that another program adds at once": another_at_once,
    "twelve programs at once": many_at_once,
    "bad usage": usage,
    "files that cannot be opened or read": files_that_fail,
    "one board of three that fails": one_of_three,
    "a full standard output": full_output,
    "a full pack file": full_pack,
}


def paused(program):
    """The one with MEANWHILE, which stands beside it."""
    return program.with_name("paused")


def builds(prefix, cc, program):
    """The compiler says nothing, even when it is strict."""
    prefix = pathlib.Path(prefix)
    source = program.with_name("meanwhile.c")
    source.write_text(MEANWHILE, "ascii")
    for made, more in ((program, []), (paused(program), [
            source, "-Wl,--wrap=boards_seal_run"])):
        says(ended([cc, "-std=c99", *STRICT, "-I", prefix / "include",
                    "-o", made, ROOT / "examples" / "save.c", *more,
                    "-L", prefix / "lib", "-lboards"]))


def at_a_desk(run, program, prefix):
    """At a desk with a key of each length in turn."""
    for key in KEYS:
        with tempfile.TemporaryDirectory() as folder:
            note = run(Desk(program, sentences(prefix), folder, key))
    return note


def runs(prefix, cc):
    """The names and the functions of all runs. The program is there until the
    last one has been asked for."""
    with tempfile.TemporaryDirectory() as folder:
        program = pathlib.Path(folder, "save")
        yield "builds without a warning", functools.partial(
            builds, prefix, cc, program)
        for name, run in RUNS.items():
            yield name, functools.partial(at_a_desk, run, program, prefix)
