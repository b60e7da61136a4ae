"""The runs of the program itself, those that the gate's one input cannot
show. The program has no status of its own: what is looked at is what it
writes, and that no signal ends it.
"""

import array
import contextlib
import fcntl
import functools
import itertools
import os
import random
import resource
import signal
import socket
import subprocess
import tempfile
import termios
import threading
import time

import boardline
from boardline import LONGEST
from harness import ROOT, SECONDS, Differs, Ended, ended, started, wait
from shared import (
    EVERY_KIND, GOOD, LONG_KEYS, answers, check_end, ended_endless, expected,
    key_lines, mixed, promptly, read, receive)

# 3 megabytes without a line feed, and number 9 for its length alone.
LONG_LINE = b"E   " + b"0123456789abcdef" * 200000
PEAK, GROWTH = 16384, 1024  # kilobytes
F_SETPIPE_SZ = 1031  # Linux; a name in fcntl from Python 3.10 on


def file_of(data):
    """A temporary file that holds the data, at its start."""
    file = tempfile.TemporaryFile()
    file.write(data)
    file.seek(0)
    return file


def from_file(command, data):
    """The data as a file, of which each read but the last takes as much as
    the program asks for."""
    with file_of(data) as file:
        ended(command, stdin=file).check(expected(data))


def gate_cases(command, status=None):
    """The cases of the gate."""
    folder = ROOT / "crates" / "boardline"
    with open(folder / "stdin", "rb") as file:
        ended(command, stdin=file).check((folder / "stdout").read_bytes(),
                                         status=status)


def each_byte():
    """Each byte in each kind of place of a good line, with a key of 16 bytes
    and with one of 32."""
    for line, places in ((GOOD[2], (0, 1, 2, 20, 34, 35, 67, 100)),
                         (LONG_KEYS[2], (2, 33, 34, 65, 66, 67, 99, 100))):
        for at in (*places, len(line) - 1):
            for byte in range(256):
                yield line[:at] + bytes([byte]) + line[at + 1:]


def large_input():
    return b"\n".join([
        mixed("boardline: large", 1500000), LONG_LINE, GOOD[4],
        LONG_LINE + b" " + GOOD[0], GOOD[5], mixed("boardline: larger", 10)])


# Input that arrives in parts.

def in_parts(command, parts):
    """Each part is written when the program has read all before it."""
    data = b"".join(parts)
    waiting = array.array("i", [0])
    with tempfile.TemporaryFile() as output, started(
            command, stdin=subprocess.PIPE, stdout=output,
            stderr=subprocess.PIPE) as process:
        until = time.monotonic() + SECONDS
        for part in parts:
            process.stdin.write(part)
            while True:
                fcntl.ioctl(process.stdin, termios.FIONREAD, waiting)
                if waiting[0] == 0:
                    break
                if time.monotonic() > until or process.poll() is not None:
                    raise Differs("does not read its input to the end")
                time.sleep(0.00002)
        process.stdin.close()
        status = wait(process)
        output.seek(0)
        Ended(output.read(), process.stderr.read(), status).check(
            expected(data))


def bytewise(command):
    data = b"\n".join([boardline.WHOLE_INPUT, GOOD[0], b"E\0", GOOD[1] + b"g",
                       b"", LONG_KEYS[3], GOOD[5]])
    in_parts(command, [data[at:at + 1] for at in range(len(data))])
    return f"{len(data)} bytes"


def in_chunks(command, seed):
    rng = random.Random(f"boardline: chunks {seed}")
    data = mixed(f"boardline: in chunks {seed}", 200000, LONGEST + 1)
    data += GOOD[seed % len(GOOD)]
    parts = []
    while data:
        size = rng.randint(1, rng.choice((3, 200, 5000, 20000)))
        parts.append(data[:size])
        data = data[size:]
    in_parts(command, parts)
    return f"{len(parts)} chunks"


# Lines that end where a read may end.

def lines_that_end(places):
    """Lines of which one ends at each of the places: the line feed is the
    byte of this number, counted from 0."""
    data = b""
    for place, last in zip(places, GOOD * len(places)):
        while True:
            rest = place - len(data) - len(last)
            if rest < 0:
                last = GOOD[0]
            elif rest == 0:
                break
            else:
                data += b"g" * min(rest - 1, 5000) + b"\n"
        data += last + b"\n"
        assert len(data) == place + 1
    return data


def ends_about(command, size, count, shift):
    from_file(command, lines_that_end(
        [size * k + shift for k in range(1, count + 1)]))


def of_size(command, size):
    """An input of so many bytes whose last line lacks its line feed, and one
    whose last line has it; each with a line that is good and one too long."""
    for last in (GOOD[3], b"0" * (LONGEST + 1)):
        if size > len(last):
            data = lines_that_end([size - len(last) - 1]) + last
            assert len(data) == size
            from_file(command, data)
            data = lines_that_end([size - len(last) - 2]) + last + b"\n"
            assert len(data) == size
            from_file(command, data)


# Memory.

def peak(process):
    """The most memory that the process has held, in kilobytes. That of
    getrusage would count what was held before the program was executed."""
    with open(f"/proc/{process.pid}/status", encoding="ascii") as file:
        for line in file:
            if line.startswith("VmHWM:"):
                return int(line.split()[1])
    raise Differs("no VmHWM in /proc")


def memory(command):
    first = b"\n".join(EVERY_KIND) + b"\n"
    then = b"\n".join([LONG_LINE, *[b"Q"] * 50000, GOOD[6], LONG_LINE,
                       GOOD[7]]) + b"\n"
    with started(command, stdin=subprocess.PIPE, stdout=subprocess.PIPE,
                 stderr=subprocess.PIPE) as process:

        def feed(data):
            # In a thread, since the answers have to be read meanwhile.
            def write():
                # Where the process has been killed, receive() has said why.
                with contextlib.suppress(BrokenPipeError, ValueError):
                    left = memoryview(data)
                    while left:
                        left = left[process.stdin.write(left):]
            thread = threading.Thread(target=write, daemon=True)
            thread.start()
            receive(process.stdout.fileno(), expected(data))
            thread.join(SECONDS)
            return peak(process)

        before, after = feed(first), feed(then)
        process.stdin.close()
        check_end(process)
    if after >= PEAK or after - before >= GROWTH:
        raise Differs(f"peak of {after} kB after {before} kB with short "
                      f"lines, where {PEAK} kB and {GROWTH} kB more are the "
                      "limits")
    return f"peak {after} kB, of which {after - before} kB for long lines"


# Output that is taken slowly.

def slowly(command, stops):
    """The output is a pipe that holds 4,096 bytes. A process that is stopped
    while it waits to write, and continued, has written a part only."""
    data = b"\n".join(GOOD[-1:] * 60 + [b"Q"] * 200 + GOOD[-2:] * 20)
    wanted = expected(data)
    got = b""
    reading, writing = os.pipe()
    fcntl.fcntl(writing, F_SETPIPE_SZ, 4096)
    with (open(reading, "rb", buffering=0) as output,
          open(writing, "wb") as pipe, file_of(data) as file,
          started(command, stdin=file, stdout=pipe,
                  stderr=subprocess.PIPE) as process):
        pipe.close()
        for count in itertools.count():
            if stops and count % 4 == 0:
                stop_and_continue(process)
            time.sleep(0.0005)
            part = read(output.fileno(), 1 + 997 * count % 3000)
            got += part
            if not part:
                break
        status = wait(process)
        Ended(got, process.stderr.read(), status).check(wanted)


def stop_and_continue(process):
    os.kill(process.pid, signal.SIGSTOP)
    os.waitid(os.P_PID, process.pid, os.WSTOPPED | os.WEXITED | os.WNOWAIT)
    os.kill(process.pid, signal.SIGCONT)


# Reads and writes that fail.

def closing(*descriptors):
    """The option to start a process without these."""
    return {"preexec_fn": lambda: [os.close(one) for one in descriptors]}


def failing_outputs(command):
    """Names, and functions that run the command by `ended` or another, with
    an output that cannot be written."""
    def closed(run, *data, **options):
        return run(command, *data, **closing(1), **options)

    def gone(run, *data, **options):
        reading, writing = os.pipe()
        os.close(reading)
        with open(writing, "wb") as pipe:
            return run(command, *data, stdout=pipe, **options)

    def full(run, *data, **options):
        with open("/dev/full", "wb") as device:
            return run(command, *data, stdout=device, **options)

    return {"a closed output": closed, "a pipe that nobody reads": gone,
            "a full device": full}


def failing_inputs(command):
    """Names, and functions that run the command with an input that cannot be
    read, or not to its end."""
    def closed():
        return ended(command, **closing(0))

    def directory():
        descriptor = os.open("/", os.O_RDONLY)
        try:
            return ended(command, stdin=descriptor)
        finally:
            os.close(descriptor)

    def broken():
        # A socket whose other end is closed with something unread: the next
        # read fails, which is not the end of the input.
        data = boardline.WHOLE_INPUT + GOOD[0] + b"\n"
        ours, theirs = socket.socketpair()
        with ours, theirs, started(
                command, stdin=theirs, stdout=subprocess.PIPE,
                stderr=subprocess.PIPE) as process:
            theirs.send(b".")
            theirs.close()
            ours.sendall(data)
            receive(process.stdout.fileno(), expected(data))
            ours.close()
            status = wait(process)
            return Ended(process.stdout.read(), process.stderr.read(), status)

    return {"a closed input": closed, "a directory as input": directory,
            "an input that fails after some lines": broken}


def fails(run, *data, **options):
    run(*data, **options).check(error_lines=1)


def output_that_ends(command):
    """A file that may not grow beyond 20,000 bytes."""
    data = b"\n".join(GOOD * 4)
    with tempfile.TemporaryFile() as output:
        result = ended(
            command, data, stdout=output, restore_signals=False,
            preexec_fn=lambda: resource.setrlimit(
                resource.RLIMIT_FSIZE, (20000, 20000)))
        output.seek(0)
        result.stdout = output.read()
    result.check(expected(data)[:20000], error_lines=1)


def runs(program):
    """The names and the functions of all runs."""
    command = [program]
    last = boardline.WHOLE_INPUT + GOOD[5]

    for name, data in {
        "01's whole input": boardline.WHOLE_INPUT,
        "empty input": b"",
        "a last line without its line feed": last,
        "a last line with its line feed": last + b"\n",
        "one line without its line feed": GOOD[0],
        "one line `Q` without its line feed": b"Q",
        "a final empty line": b"Q\n\n",
        "a first empty line": b"\n" + GOOD[0],
        "a final space": last + b"\n ",
        "one line feed": b"\n",
        "two line feeds": b"\n\n",
        "100,000 line feeds": b"\n" * 100000,
        "a line of each byte alone":
            b"".join(bytes([byte, 10]) for byte in range(256)),
        "all bytes in one line, but the line feed":
            bytes(byte for byte in range(256) if byte != 10) + b"\n" + last,
        "zero bytes": bytes(100000) + b"\n" + bytes(100) + b"\n" + last,
        "each byte in each place": b"\n".join(each_byte()) + b"\n" + last,
        "lines of every kind": b"\n".join(EVERY_KIND),
        "keys of 0 to 64 bytes": b"\n".join(key_lines(range(65))),
        "lines of 8,290 to 8,310 characters": b"\n".join(
            good.ljust(length, b"0") + b"\n" + GOOD[1]
            for good in (GOOD[0], LONG_KEYS[0])
            for length in range(8290, 8311)),
        "several megabytes": large_input(),
        "a long last line without its line feed": LONG_LINE,
        "a long last line with its line feed": LONG_LINE + b"\n",
        "a long last line after a good one": last + b"\n" + LONG_LINE,
    }.items():
        yield name, functools.partial(answers, command, data)
        if len(data) > 1000:
            yield f"{name}, from a file", functools.partial(
                from_file, command, data)
    yield "the gate's cases", functools.partial(gate_cases, command)

    yield "a byte at a time", functools.partial(bytewise, command)
    for seed in range(1, 6):
        yield f"chunks of 1 to 20,000 bytes, seed {seed}", functools.partial(
            in_chunks, command, seed)
    for size, count in ((4096, 40), (65536, 4)):
        for shift in (-2, -1, 0, 1, 2):
            yield (f"line feeds at {size:,} k {shift:+}",
                   functools.partial(
                       ends_about, command, size, count, shift))
        for total in (size, 2 * size):
            for shift in (-1, 0, 1):
                yield (f"an input of {total + shift:,} bytes",
                       functools.partial(of_size, command, total + shift))
    yield "prompt answers", functools.partial(promptly, command)
    yield "memory", functools.partial(memory, command)
    yield "a slow reader", functools.partial(slowly, command, False)
    yield "a slow reader, with short writes", functools.partial(
        slowly, command, True)

    # SIGPIPE is ignored, so that the write fails.
    for name, run in failing_outputs(command).items():
        yield name, functools.partial(
            fails, run, ended, last, restore_signals=False)
        yield f"{name}, and input without end", functools.partial(
            fails, run, ended_endless, restore_signals=False)
    yield "a file that is full", functools.partial(output_that_ends, command)
    yield "no output and no standard error, and input without end", (
        lambda: ended_endless(command, **closing(1, 2)).check())
    for name, run in failing_inputs(command).items():
        yield name, functools.partial(fails, run)
