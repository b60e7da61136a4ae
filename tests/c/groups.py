"""The runs of the client: a group of its tests each, on the cases of cases.py
where the group reads them.
"""

import concurrent.futures
import functools
import itertools
import re
import tempfile

import cases
from build import done
from harness import Differs, ended

ALONE = {
    "order": "the order of refusals",
    "schemes": "the schemes beside each other",
    "opening": "blocks that do not open",
    "blank": "blocks of zeros",
    "finding": "blocks found in a pack",
    "runs": "runs of blocks",
    "keys": "keys of both lengths and of others",
    "slices": "where the lent bytes stand",
    "stack": "the stack that a call takes",
    "header": "the header's constants and sentences",
    "threads": "eight threads",
}


# Fields of a case, as cases.c has them, and the numbers that are looked at
# beside the call's own: u of an opened block, and the place that failed.
KEY, DATA, NUMBER, AFTER, USED, LIST, LIST_AFTER, FAILED = 1, 4, *range(7, 13)
COUNTED = {("open", "0"): (USED,), ("forward_open", "0"): (USED,),
           ("open_run", "8"): (FAILED,), ("open_run", "12"): (FAILED,)}

SHORT = 500  # characters, for a case with boards of at most 66 bytes


def make_cases():
    """The cases of each group, as they come to be. The reference is slow, so
    that they are made while the library is installed and the client built.
    """
    pool = concurrent.futures.ThreadPoolExecutor(max_workers=1)
    made = {group: pool.submit(cases.lines, group) for group in cases.GROUPS}
    pool.shutdown(wait=False)
    return made


def joined(lines):
    return "".join(f"{line}\n" for line in lines).encode("ascii")


def answer(client, lines):
    """What the client says of the cases, and its status."""
    result = ended([client, "cases"], joined(lines))
    return result.stdout.decode("utf-8", "replace").strip(), result.status


def agrees(client, made):
    """The library does with each case what the reference says."""
    lines = made.result()
    said, status = answer(client, lines)
    if status != 0:
        at = re.match(r"line (\d+): ", said)
        line = f" ({lines[int(at[1]) - 1][:80]}..)" if at else ""
        raise Differs(f"status {status}: {said}{line}")
    if not said.startswith(f"{len(lines)} lines, "):
        raise Differs(f"{len(lines)} lines, of which it says {said!r}")
    return said


def other(digits, at):
    """The same digits but for one of them."""
    at %= len(digits)
    return f"{digits[:at]}{int(digits[at], 16) ^ 1:x}{digits[at + 1:]}"


def spoilt(line):
    """The case with something else expected, or as no case at all."""
    fields = line.split(" ")

    def but(at, text):
        return [*fields[:at], text, *fields[at + 1:]]

    def left_otherwise(before, after):
        left = fields[before if fields[after] == "=" else after]
        yield but(after, other(left, 0))
        yield but(after, other(left, -1))
        if fields[after] != "=":
            yield but(after, "=")

    for at in (NUMBER, *COUNTED.get((fields[0], fields[NUMBER]), ())):
        yield but(at, str(int(fields[at]) + 1))
    yield from left_otherwise(DATA, AFTER)
    if fields[0] == "open_run":
        yield from left_otherwise(LIST, LIST_AFTER)
    if fields[NUMBER] == "0":
        yield but(KEY, other(fields[KEY], 0))
        yield but(KEY, other(fields[KEY], -1))
    yield fields[:-1]
    yield [*fields, "0"]
    yield but(KEY, f"{fields[KEY]}0")
    yield but(KEY, f"g{fields[KEY][1:]}")
    yield but(0, fields[0].upper())


def reports_spoilt(client, made):
    """One call of each function for each of its numbers, and for number 0
    under a key of each length: the client has to report each line that is
    spoilt."""
    chosen = {}
    for line in itertools.chain(*(lines.result() for lines in made)):
        fields = line.split(" ")
        length = len(fields[KEY]) if fields[NUMBER] == "0" else None
        chosen.setdefault((fields[0], fields[NUMBER], length), line)
    lines = [" ".join(fields) for line in chosen.values()
             for fields in spoilt(line)]
    for line in lines:
        said, status = answer(client, [line])
        if status != 1 or not said.startswith("line 1: "):
            raise Differs(f"says {said!r} of {line[:80]}..")
    return f"{len(chosen)} calls, {len(lines)} lines"


def reports_wrong(client, made):
    """The client has to report wrong libraries too, by these cases among
    others. It reads them many times, and so from a file."""
    short = [line for line in made.result() if len(line) <= SHORT]
    with tempfile.TemporaryFile() as file:
        file.write(joined(short))
        file.flush()
        return done([client, "wrong"], stdin=file)


def runs(client, made):
    """The names and the functions of all runs, on the cases made."""
    for group in cases.GROUPS:
        yield group.__name__.replace("_", " "), functools.partial(
            agrees, client, made[group])
    yield "cases with something else expected", functools.partial(
        reports_spoilt, client,
        [made[cases.refusals], made[cases.refusals_of_runs]])
    for group, name in ALONE.items():
        yield name, functools.partial(done, [client, group])
    yield "wrong libraries", functools.partial(
        reports_wrong, client, made[cases.data_lengths])
