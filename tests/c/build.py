"""The runs that build something with the library, in the ways of a user: with
the header and the archive under a prefix, in a folder of its own.
"""

import functools
import os
import pathlib
import re
import shlex
import shutil

from harness import ROOT, SECONDS, Differs, ended

HERE = pathlib.Path(__file__).resolve().parent
BENCH = ROOT / "bench"
CC = os.environ.get("CC") or "cc"  # one word, as is the other
CXX = os.environ.get("CXX") or "c++"
STRICT = ["-O2", "-Wall", "-Wextra", "-Wpedantic", "-Werror"]

INSTALLED = ["include/boards.h", "lib/libboards.a", "lib/pkgconfig/boards.pc"]
INSTALLING = 3600  # seconds: the library is proved before it is compiled

# What the archive defines, and what it may ask for: the header says so.
DEFINED = ["boards_decipher", "boards_encipher", "boards_find",
           "boards_forward_decipher", "boards_forward_encipher",
           "boards_forward_open", "boards_forward_seal", "boards_open",
           "boards_open_run", "boards_seal", "boards_seal_run"]
ASKED_FOR = {"memcpy", "memset"}


def done(command, seconds=SECONDS, **options):
    """What the command writes on standard output; it has to succeed."""
    result = ended(command, seconds=seconds, **options)
    if result.status == 0:
        return result.stdout.decode("utf-8", "replace").strip()
    lines = (result.stdout + result.stderr).decode(
        "utf-8", "replace").splitlines()
    errors = [line for line in lines if "error" in line]
    raise Differs(f"{os.path.basename(command[0])} ends with status "
                  f"{result.status}: {' / '.join((errors or lines)[-3:])}")


def install(prefix):
    """The library installed, and nothing beside it."""
    done(["./install", prefix], cwd=ROOT, seconds=INSTALLING)
    files = sorted(str(path.relative_to(prefix))
                   for path in prefix.rglob("*") if path.is_file())
    if files != INSTALLED:
        raise Differs(f"installs {files}")
    header = INSTALLED[0]
    if (prefix / header).read_bytes() != (ROOT / header).read_bytes():
        raise Differs(f"installs another {header}")


def missing(prefix):
    return [name for name in INSTALLED if not (prefix / name).is_file()]


def installed_before(prefix):
    if names := missing(prefix):
        raise Differs(f"there is no {', '.join(names)}")


def symbols(prefix):
    """The archive takes no other names of a program, and asks for nothing but
    what the header says."""
    names = re.findall(r" ([A-Za-z]) (\S+)$", done(
        ["nm", "-g", prefix / INSTALLED[1]]), re.MULTILINE)
    defined = sorted(name for kind, name in names if kind != "U")
    asked_for = sorted({name for kind, name in names if kind == "U"})
    if defined != DEFINED or not set(asked_for) <= ASKED_FOR:
        raise Differs(f"defines {', '.join(defined)} and asks for "
                      f"{', '.join(asked_for)}")
    return f"asks for {', '.join(asked_for)}"


def no_data(prefix):
    """Nothing is kept between calls: the archive has no bytes that can be
    written."""
    _, *members = done(["size", prefix / INSTALLED[1]]).splitlines()
    if not members:
        raise Differs("has no members")
    for member in members:
        _, data, bss, *_ = member.split()
        if (data, bss) != ("0", "0"):
            raise Differs(f"has {data} and {bss} bytes of data")


class Builder:
    """Builds with the library under the prefix, in the folder."""

    def __init__(self, prefix, folder):
        self.prefix, self.folder = prefix, folder
        self.includes = ["-I", prefix / "include"]
        self.archive = ["-L", prefix / "lib", "-lboards"]
        self.client = folder / "client"
        # A wrong library takes its AES from where one is measured.
        self.sources = [*HERE.glob("*.c"), BENCH / "aes.c"]
        # The client without library.c, which alone needs the archive.
        self.objects = [f"{path.stem}.o" for path in self.sources
                        if path.stem != "library"]

    def compile(self, compiler, standard, *arguments):
        done([compiler, f"-std={standard}", *STRICT, *arguments],
             cwd=self.folder)

    def header_alone(self, compiler, standard, suffix):
        """Nothing has to be included before it, and it may be included
        twice."""
        path = self.folder / f"alone{suffix}"
        path.write_text("#include <boards.h>\n#include <boards.h>\n")
        self.compile(compiler, standard, "-fsyntax-only", path, *self.includes)

    def build_client(self):
        self.compile(CC, "c99", "-c", *self.sources, *self.includes, "-I",
                     BENCH)
        self.compile(CC, "c99", "-o", self.client, *self.objects, "library.o",
                     *self.archive, "-pthread")
        if not self.client.exists():
            raise Differs(f"{CC} has built nothing")

    def by_pkg_config(self):
        """The flags of pkg-config are enough, and it knows the version."""
        program = self.folder / "by-pkg-config"
        path = self.prefix / "lib" / "pkgconfig"
        ask = functools.partial(
            done, env={**os.environ, "PKG_CONFIG_PATH": str(path)})
        flags = shlex.split(
            ask(["pkg-config", "--cflags", "--libs", "boards"]))
        self.compile(CC, "c99", "-o", program, HERE / "library.c",
                     *self.objects, *flags, "-pthread")
        version = ask(["pkg-config", "--modversion", "boards"])
        if not done([program, "header"]).startswith(f"version {version},"):
            raise Differs(f"the header is not of version {version}")
        return done([program, "slices"])

    def in_shared_object(self):
        """The archive in a shared object, which the client loads."""
        program, shared = self.folder / "loads", self.folder / "libshared.so"
        self.compile(CC, "c99", "-shared", "-fPIC", "-Wl,-z,defs", "-o",
                     shared, HERE / "library.c", *self.includes, *self.archive)
        self.compile(CC, "c99", "-o", program, *self.objects, shared,
                     "-pthread", f"-Wl,-rpath,{self.folder}")
        return done([program, "slices"])

    def in_cplusplus(self, standard):
        program = self.folder / standard
        self.compile(CXX, standard, "-o", program, HERE / "cplusplus.cc",
                     *self.includes, *self.archive)
        return done([program])


def there(command):
    """Whether there is such a command; where there is none, a line says so."""
    if shutil.which(command) is None:
        print(f"there is no {command}: the runs that need it are left out")
        return False
    return True


def runs(builder):
    """The names and the functions of all runs. The first builds the client,
    and without it there are no others."""
    standards = [(CC, "c99", ".c"), (CC, "c11", ".c")]
    yield "the client, built", builder.build_client
    if not builder.client.exists():
        return
    if there("nm"):
        yield "the archive's names", functools.partial(symbols, builder.prefix)
    if there("size"):
        yield "the archive's data", functools.partial(no_data, builder.prefix)
    if there("pkg-config"):
        yield "the client, by pkg-config", builder.by_pkg_config
    yield "the client, by a shared object", builder.in_shared_object
    if there(CXX):
        standards += [(CXX, "c++98", ".cc"), (CXX, "c++17", ".cc")]
        for standard in ("c++98", "c++17"):
            yield f"a program in {standard}", functools.partial(
                builder.in_cplusplus, standard)
    for compiler, standard, suffix in standards:
        yield f"the header alone, in {standard}", functools.partial(
            builder.header_alone, compiler, standard, suffix)
