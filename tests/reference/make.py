"""Writes the cases and their answers, from a program written apart.

    python3 tests/reference/make.py          writes crates/P/stdin and
                                             crates/P/stdout for each program
                                             P of PROGRAMS
    python3 tests/reference/make.py --check  writes nothing, and exits with 1
                                             if one of the files differs from
                                             what would be written

A part is a module with check(), which asserts the part's worked examples,
and cases(), which yields pairs of a line and its answer, both as bytes
without a line feed. A new part is a module of its own and an entry in
PROGRAMS, with the program that answers its lines.
"""

import argparse
import pathlib
import sys

sys.dont_write_bytecode = True  # --check is to write nothing at all

import cases_aes  # noqa: E402
import cases_boardline  # noqa: E402
import cases_field  # noqa: E402
import cases_finding  # noqa: E402
import cases_forward  # noqa: E402
import cases_hch  # noqa: E402
import cases_lent  # noqa: E402
import cases_pack  # noqa: E402
import cases_runs  # noqa: E402
from lines import NO  # noqa: E402

PROGRAMS = {
    "vectors": [cases_field, cases_aes, cases_hch, cases_pack, cases_finding,
                cases_lent, cases_runs, cases_forward],
    "boardline": [cases_boardline],
}

ROOT = pathlib.Path(__file__).resolve().parents[2]


def contents(program):
    """The bytes of the program's two files, by their paths from the root."""
    lines, answers = [], []
    for part in PROGRAMS[program]:
        part.check()
        for line, answer in part.cases():
            assert b"\n" not in line + answer
            lines.append(line)
            answers.append(answer)
    # The last line is a good one and lacks its line feed; its answer has it.
    assert not answers[-1].startswith(NO)
    return {
        f"crates/{program}/stdin": b"\n".join(lines),
        f"crates/{program}/stdout": b"".join(
            answer + b"\n" for answer in answers),
    }


def main():
    parser = argparse.ArgumentParser(description="Makes the test vectors.")
    parser.add_argument("--check", action="store_true",
                        help="write nothing; exit with 1 on a difference")
    check_only = parser.parse_args().check

    differs = False
    for program in PROGRAMS:
        for name, wanted in contents(program).items():
            path = ROOT / name
            if not check_only:
                path.parent.mkdir(parents=True, exist_ok=True)
                path.write_bytes(wanted)
            elif not path.is_file() or path.read_bytes() != wanted:
                print(f"{name} is not what make.py writes", file=sys.stderr)
                differs = True
    return 1 if differs else 0


if __name__ == "__main__":
    sys.exit(main())
