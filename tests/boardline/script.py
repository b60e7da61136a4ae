"""The runs of the script boardline at the root, which runs the program on
standard input. Its status is 0 when all was answered, 1 when a read or a
write failed, and 2 when it was called in another way.
"""

import contextlib
import functools
import os
import pathlib
import pty
import re
import tempfile
import tty

import boardline
from harness import Differs, ended, shown, started, wait
from program import LONG_LINE, failing_inputs, failing_outputs, gate_cases
from shared import (
    GOOD, PROMPT, answers, ended_endless, expected, mixed, promptly, receive,
    receive_line)

EXAMPLE = re.compile(rb"\b[ED]( ([0-9a-f]{2})*){3}")


def ended_waiting(command):
    """Runs the command on an input that is open and stays empty."""
    reading, writing = os.pipe()
    try:
        return ended(command, stdin=reading)
    finally:
        os.close(reading)
        os.close(writing)


def usage(command):
    """What is printed for --help, without waiting for any input."""
    result = ended_waiting([*command, "--help"])
    text = result.stdout
    result.check(text, status=0)
    lines = text.splitlines()
    if not (2 <= len(lines) <= 24 and text.endswith(b"\n")
            and b"boardline" in text and EXAMPLE.search(text)):
        raise Differs("not some lines of usage, with an example: "
                      f"{shown(text, 200)}")
    return text


def help_wanted(command):
    return f"{len(usage(command).splitlines())} lines"


def other_argument(command, *arguments):
    first, *_ = usage(command).splitlines()
    result = ended_waiting([*command, *arguments])
    if first not in result.stderr:
        raise Differs(f"no usage on standard error: {shown(result.stderr)}")
    result.stderr = b""
    result.check(status=2)


def fails(run, *data, **options):
    run(*data, **options).check(error_lines=1, status=1)


def in_folder(command, folder):
    answers(command, boardline.WHOLE_INPUT + GOOD[0], status=0, cwd=folder)


def through_links(script):
    """A symbolic link, a relative one, and one to a link, from another
    folder; the name of one folder has a space."""
    with tempfile.TemporaryDirectory(prefix="boardline ") as name:
        folder = pathlib.Path(name)
        (folder / "to it").symlink_to(script)
        (folder / "to the link").symlink_to("to it")
        relative = os.path.relpath(os.path.realpath(script),
                                   os.path.realpath(folder))
        (folder / "relative").symlink_to(relative)
        for link in ("to it", "to the link", "relative"):
            in_folder([str(folder / link)], "/")
            in_folder([f"./{link}"], folder)


def at_terminal(command):
    """A line on standard error before any is typed, and then the answers.
    Each of the three is a terminal of its own."""
    with contextlib.ExitStack() as stack:
        ours, theirs = [], []
        for _ in range(3):
            for ends, descriptor in zip((ours, theirs), pty.openpty()):
                ends.append(descriptor)
                stack.callback(os.close, descriptor)
        for descriptor in theirs[1:]:
            tty.setraw(descriptor)  # line feeds as they are written
        process = stack.enter_context(started(
            command, stdin=theirs[0], stdout=theirs[1], stderr=theirs[2]))
        message = receive_line(ours[2])
        typed = GOOD[0] + b"\nQ\n"
        os.write(ours[0], typed)
        receive(ours[1], expected(typed))
        os.write(ours[0], b"\x04")  # the end of the input
        status = wait(process, PROMPT)
        if status != 0 or message in (b"", b"\n"):
            raise Differs(f"status {status}, standard error {message!r}")
        for our_end, their_end in zip(ours[1:], theirs[1:]):
            os.write(their_end, b".")  # nothing more came before it
            receive(our_end, b".")
    return message.decode("utf-8", "replace").strip()


def runs(script):
    """The names and the functions of all runs."""
    command = [script]
    for name, data in {
        "01's whole input": boardline.WHOLE_INPUT,
        "empty input": b"",
        "a last line without its line feed":
            boardline.WHOLE_INPUT + GOOD[0],
        "lines of every kind": mixed("boardline: script", 300000),
        "a long last line without its line feed": LONG_LINE,
    }.items():
        yield name, functools.partial(answers, command, data, status=0)
    yield "the gate's cases", functools.partial(
        gate_cases, command, status=0)
    yield "prompt answers", functools.partial(promptly, command, status=0)
    yield "at a terminal", functools.partial(at_terminal, command)

    yield "--help", functools.partial(help_wanted, command)
    for arguments in (["-h"], ["--"], ["x"], [""], ["/dev/null"],
                      ["x", "--help"]):
        yield f"arguments {arguments}", functools.partial(
            other_argument, command, *arguments)

    yield "from the folder /", functools.partial(in_folder, command, "/")
    folder, name = os.path.split(script)
    yield f"./{name} in its folder", functools.partial(
        in_folder, [f"./{name}"], folder)
    yield "by a relative path", functools.partial(
        in_folder, [os.path.relpath(script, "/")], "/")
    yield "through symbolic links", functools.partial(through_links, script)
    yield "with no environment but PATH", functools.partial(
        answers, command, boardline.WHOLE_INPUT, status=0,
        env={"PATH": os.environ["PATH"]})

    # SIGPIPE as it is by default, and ignored.
    for name, run in failing_outputs(command).items():
        for how, restored in (("", True), (", without SIGPIPE", False)):
            yield f"{name}{how}", functools.partial(
                fails, run, ended, boardline.WHOLE_INPUT,
                restore_signals=restored)
            yield f"{name}{how}, and input without end", functools.partial(
                fails, run, ended_endless, restore_signals=restored)
    for name, run in failing_inputs(command).items():
        yield name, functools.partial(fails, run)
