#!/usr/bin/env python3
"""Brings the names of this repository's definitions and lemmas to the spelling
of the Rattle that docs/PORT.md names: words in snake case, and a dash only
where it joins the names of two functions in a law's, as in `length-bytes`.

usage: python3 tools/respell.py            in the repository, once, behind the kit's port.py
       python3 tools/respell.py --list     prints the old and the new names and changes nothing

Types, modules and the papers' own letters and names keep their spelling, and
so do the functions of src/ and what the library names. Each old name has one
new name, the same in every crate. A lemma that would fall together with
something else gets `_lem`.
"""

import pathlib
import re
import sys

ROOT = pathlib.Path(__file__).resolve().parents[1]
TOKEN = re.compile(r"[^\s(){}.,;:`\"«»\[\]&*|]+")
USE = re.compile(r"^(?:pub |ghost )*use ([\w.+-]+)\.\{([^}]*)\}", re.M)
ALIAS = re.compile(r" as ([a-z][\w'-]*)")
NOT_DEFINING = ("--", "use ", "pub use ", "let ", "pub mod ", "mod ",
                "module ", "open ", "unfolding ", "infix")
SIGNATURE = re.compile(r"\s*((?:abbrev |unfoldable |pub )*)"
                       r"(?:(?:ruleset|record|data)\s+)?"
                       r"([^\s:(){}=,.]+)\s*[:=({](?!=)")
# Functions of the library that a dash may join to one of ours.
LIBRARY = {"append", "drop", "get_or", "length", "take"}


def snake(word):
    """Camel case to snake case."""
    return re.sub(r"(?<=[\w'])[A-Z]", lambda m: f"_{m[0].lower()}",
                  word.replace("getD", "get_or"))


class Names:
    """What the files define, name and bring in."""

    def __init__(self):
        self.texts = {
            path: path.read_text() for path in sorted(ROOT.glob("crates/**/*"))
            if path.suffix in (".rt", ".antt") and "out" not in path.parts}
        self.defined, self.functions_of_specs = set(), set()
        self.members = set()  # of records in specs/: theorems and the like
        self.library, self.functions = set(), set()
        for path, text in self.texts.items():
            if path.suffix == ".rt":
                self.functions |= set(re.findall(r"\bfn ([a-z0-9_]+)", text))
            elif len(path.relative_to(ROOT).parts) == 4:
                self._read(path, text)
            for origin, names in USE.findall(text):
                if re.match(r"(?!Rattle\.)|Rattle\.std\.", origin):
                    self.library |= {name.strip().split(" as ")[0]
                                     for name in names.split(",")}

    def _read(self, path, text):
        for line in text.splitlines():
            match = SIGNATURE.match(line)
            if match and not line.lstrip().startswith(NOT_DEFINING):
                self.defined.add(match[2])
                if path.parent.name == "specs" and line.startswith("  pub "):
                    self.members.add(match[2])
                if path.parent.name == "specs" and re.match(
                        "abbrev|unfoldable", match[1]):
                    self.functions_of_specs.add(snake(match[2]))

    def table(self):
        """Old names to new ones, those in camel case first."""
        names = {name for name in self.defined - self.library
                 if name[:1].isalpha() and not name[:1].isupper()}
        plain = {name for name in names if "-" not in name}
        result = {name: snake(name) for name in sorted(plain)
                  if snake(name) != name}
        joined = self.functions_of_specs | LIBRARY
        taken = plain | set(result.values()) | self.functions
        for name in sorted(names - plain):
            parts = [snake(part) for part in name.split("-")]
            joins = (len(parts) == 2 and joined.issuperset(parts)
                     and name not in self.members)
            new = ("-" if joins else "_").join(parts)
            if not joins and new in taken:
                new += "_lem"
            taken.add(new)
            if new != name:
                result[name] = new
        return result


def main():
    names = Names()
    table = names.table()
    if sys.argv[1:] == ["--list"]:
        for old, new in table.items():
            print(old, new)
        return
    for path, text in names.texts.items():
        here = {name: snake(name.replace("-", "_"))
                for name in ALIAS.findall(text)} | table
        turned = TOKEN.sub(lambda m: here.get(m[0], m[0]), text)
        if turned != text:
            path.write_text(turned)


if __name__ == "__main__":
    main()
