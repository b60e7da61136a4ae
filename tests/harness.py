"""What the runners of tests/boardline and tests/c share.

A run is a name and a function without arguments. The function returns a note
or None, and raises Differs where something is not as it has to be.
"""

import contextlib
import os
import pathlib
import signal
import subprocess

ROOT = pathlib.Path(__file__).resolve().parents[1]

SECONDS = 60  # a process that has not ended by then has failed


class Differs(Exception):
    """What was not as it has to be."""


def shown(string, most=48):
    return repr(string[:most]) + (".." if len(string) > most else "")


def compare(what, wanted, got):
    if got == wanted:
        return
    at = len(os.path.commonprefix([wanted, got]))
    line = wanted.count(b"\n", 0, at) + 1
    raise Differs(
        f"{what} has {len(got)} bytes in the place of {len(wanted)}; from "
        f"byte {at} on, in line {line}, it is {shown(got[at:])} in the place "
        f"of {shown(wanted[at:])}")


@contextlib.contextmanager
def started(command, **options):
    """A process in a session of its own, which is killed if it is left before
    it has ended."""
    process = subprocess.Popen(command, bufsize=0, start_new_session=True,
                               **options)
    try:
        yield process
    finally:
        if process.poll() is None:
            os.killpg(process.pid, signal.SIGKILL)
            process.wait()
        for pipe in (process.stdin, process.stdout, process.stderr):
            if pipe:
                pipe.close()


def wait(process, seconds=SECONDS):
    try:
        return process.wait(seconds)
    except subprocess.TimeoutExpired:
        raise Differs(f"has not ended within {seconds} s") from None


class Ended:
    """What a process wrote, and its status."""

    def __init__(self, stdout, stderr, status):
        self.stdout, self.stderr, self.status = stdout, stderr, status

    def check(self, stdout=b"", error_lines=0, status=None):
        """Whether it wrote this, and none or one line on standard error. A
        status of None stands for any, but not for a signal."""
        compare("standard output", stdout, self.stdout)
        lines = self.stderr.split(b"\n")
        if error_lines == 0:
            compare("standard error", b"", self.stderr)
        elif len(lines) != 2 or lines[0] == b"" or lines[1] != b"":
            raise Differs(f"standard error is {shown(self.stderr)} in the "
                          "place of one line")
        if self.status < 0:
            raise Differs(f"ended by signal {-self.status}")
        if status not in (None, self.status):
            raise Differs(f"status {self.status} in the place of {status}")


def ended(command, data=None, stdin=subprocess.PIPE, stdout=subprocess.PIPE,
          seconds=SECONDS, **options):
    """Runs the command to its end on the data, or on an open file."""
    with started(command, stdin=stdin, stdout=stdout, stderr=subprocess.PIPE,
                 **options) as process:
        try:
            output, errors = process.communicate(data, seconds)
        except subprocess.TimeoutExpired:
            raise Differs(f"has not ended within {seconds} s") from None
        return Ended(output or b"", errors, process.returncode)


def succeeds(name, run):
    try:
        note = run()
    except Differs as differs:
        print(f"{name}: {differs}", flush=True)
        return False
    except Exception as error:  # a file that is missing, for example
        print(f"{name}: {type(error).__name__}: {error}", flush=True)
        return False
    print(f"{name}: ok" + (f" ({note})" if note else ""), flush=True)
    return True


def status_of(name, runs):
    """Makes all the runs, each with its line, and says how many failed: the
    status is 1 if any did, and 0 otherwise."""
    results = [succeeds(what, run) for what, run in runs]
    failed = results.count(False)
    print(f"{name}: {len(results)} runs, {failed} failed")
    return 1 if failed else 0
