"""What the runs of the program and those of the script share: the expected
answers, by the reference, and lines to make inputs of.
"""

import functools
import os
import random
import re
import select
import subprocess

import boardline
from boardline import LONGEST
from harness import Differs, Ended, compare, ended, shown, started, wait
from lines import WRONG_KEYS

PROMPT = 10  # seconds: for an answer, and for an end without end of input

answer = functools.cache(boardline.answer)


def expected(data):
    """The whole output for a whole input, by the reference."""
    return b"".join(answer(line) + b"\n" for line in boardline.lines(data))


def check_end(process, status=None):
    """The process ends, and has written nothing more on its two pipes."""
    got = wait(process)
    Ended(process.stdout.read(), process.stderr.read(), got).check(
        status=status)


def ended_endless(command, **options):
    """Runs the command on lines without end, until it ends by itself."""
    with started(["yes", "Q"], stdout=subprocess.PIPE) as source:
        return ended(command, stdin=source.stdout, seconds=PROMPT, **options)


def answers(command, data, status=None, **options):
    """The data are answered as by the reference, without a word on standard
    error."""
    ended(command, data, **options).check(expected(data), status=status)


def read(descriptor, most, seconds=PROMPT):
    """Some bytes, at most so many, that arrive in time; none at the end."""
    if not select.select([descriptor], [], [], seconds)[0]:
        raise Differs(f"writes nothing more within {seconds} s")
    return os.read(descriptor, most)


def receive(descriptor, wanted):
    """The wanted bytes arrive, and each part of them in time."""
    got, left = [], len(wanted)
    while left > 0 and (part := read(descriptor, left)):
        got.append(part)
        left -= len(part)
    compare("the answer", wanted, b"".join(got))


def receive_line(descriptor):
    """A line arrives, and each byte of it in time."""
    got = b""
    while not got.endswith(b"\n") and (byte := read(descriptor, 1)):
        got += byte
    return got


def receive_nothing(descriptor, seconds=0.2):
    """Nothing arrives for some time."""
    if select.select([descriptor], [], [], seconds)[0]:
        raise Differs("an answer before the line had ended: "
                      f"{shown(os.read(descriptor, 100))}")


def promptly(command, status=None):
    """A partner who waits for each answer before the next line."""
    with started(command, stdin=subprocess.PIPE, stdout=subprocess.PIPE,
                 stderr=subprocess.PIPE) as process:
        output = process.stdout.fileno()
        for line in [*EVERY_KIND, b"", b"Q"]:
            process.stdin.write(line + b"\n")
            receive(output, answer(line) + b"\n")
        # Two lines and a part, then the rest of it.
        line = GOOD[2]
        process.stdin.write(b"Q\n" + GOOD[0] + b"\n" + line[:50])
        receive(output, expected(b"Q\n" + GOOD[0]))
        receive_nothing(output)
        process.stdin.write(line[50:] + b"\n")
        receive(output, expected(line))
        # A last line without its line feed.
        process.stdin.write(line)
        receive_nothing(output)
        process.stdin.close()
        receive(output, expected(line))
        check_end(process, status=status)


# Lines to make inputs of. Few of them are good, since the reference is slow.

def good_lines(rng, lengths, key_length=16):
    """A line of each length of data both ways, the second on the answer of
    the first."""
    for length in lengths:
        start = b" %s %s " % tuple(
            rng.randbytes(n).hex().encode("ascii") for n in (key_length, 16))
        line = b"E" + start + rng.randbytes(length).hex().encode("ascii")
        yield line
        yield b"D" + start + answer(line)


GOOD = list(good_lines(random.Random("boardline: good lines"),
                       (16, 17, 40, 512, 2000, 4095, 4096)))

# The same under keys of 32 bytes.
LONG_KEYS = list(good_lines(random.Random("boardline: long keys"),
                            (16, 17, 40, 512, 4096), 32))


def key_lines(lengths):
    """Lines with keys of so many bytes, both ways, of which nothing else is
    refused."""
    *_, tweak, data = GOOD[0].split(b" ")
    for length in lengths:
        for name in (b"E", b"D"):
            yield b" ".join([name, b"5a" * length, tweak, data])


REFUSED = [
    b"E   ", b"D  00 00", *boardline.lines(boardline.WHOLE_INPUT),
    *key_lines(WRONG_KEYS[32]),
    GOOD[0][:-2], LONG_KEYS[0][:-2], LONG_KEYS[-1] + b"00",
    LONG_KEYS[-1] + b"00" * 4, GOOD[-1] + b"00", GOOD[-1] + b"00" * 20,
]
assert {answer(line) for line in REFUSED} == {
    b"no 1", b"no 2", b"no 3", b"no 4", b"no 9"}
assert len(REFUSED[-1]) == LONGEST

OVERLONG = [REFUSED[-1] + b"0", REFUSED[-1] + b"00",
            b"0" * LONGEST + GOOD[0], b"\0" * 12000 + GOOD[1]]

EVERY_KIND = [*GOOD, *LONG_KEYS, *REFUSED, *OVERLONG, GOOD[3]]

OTHERS = re.sub(rb"[0-9a-f \n]", b"", bytes(range(256)))


def malformed(rng):
    """A good line with one character changed to what is no digit."""
    line = bytearray(rng.choice(GOOD[:8] + LONG_KEYS[:8]))
    line[rng.randrange(1, len(line))] = rng.choice(OTHERS)
    return bytes(line)


def mixed(seed, size, longest=20000):
    """Lines of all kinds, of at least so many bytes together."""
    rng = random.Random(seed)
    kinds = [
        lambda: rng.choice(GOOD + LONG_KEYS),
        lambda: rng.choice(REFUSED),
        lambda: malformed(rng),
        lambda: rng.randbytes(rng.randrange(200)).replace(b"\n", b""),
        lambda: (rng.choice(GOOD[:6]) * (1 + longest // 100))[
            -rng.randint(LONGEST + 1, longest):],
    ]
    data = []
    while size > 0:
        [kind] = rng.choices(kinds, weights=(6, 3, 3, 2, 1))
        data.append(kind() + b"\n")
        size -= len(data[-1])
    return b"".join(data)
