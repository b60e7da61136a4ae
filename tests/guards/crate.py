"""A crate with its edits, and what is wrong with them."""

import re

from edits import pairs_of, refused
from promises import (CLAUSE, PUBLIC, clauses, contracts, has_other_types,
                      is_of_a_clause, members, statements, without_comments)

# Functions that are neither public nor private, traits that are not public, and
# ghost values over several lines, which a clause may speak of.
UNREAD = re.compile(r"\bfn \w|\bmod \w+ {|\btrait \w|\bimpl\b.* for \w|"
                    r"\bmacro_rules!|^ *ghost (?!use )")

# What implements a trait proves its laws in specs/, since rt lets it cite no
# proofs of its own crate: such a file has proofs alone, of crates below.
LAWS = "specs/Laws.antt"


class Crate:
    """The files of a crate by their names, its edits and its promises."""

    def __init__(self, folder):
        self.name = folder.name
        self.texts = {
            path.relative_to(folder).as_posix(): path.read_text()
            for part in ("src", "specs", "proofs")
            for path in sorted((folder / part).rglob("*"))
            if path.suffix in (".rt", ".antt")}
        self.checked = {file: without_comments(text)
                        for file, text in self.texts.items()}
        self.source = {file: text for file, text in self.checked.items()
                       if file.startswith("src/")}
        self.has_code = any(re.search(r"\bfn \w+[(<]", text)
                            for text in self.source.values())
        self.is_library = "src/main.rt" not in self.source
        self.edits = {path.name: list(pairs_of(path.read_text()))
                      for path in sorted(folder.glob("must-fail/*.edit"))}
        self.pairs = [(*pair, edit) for edit in self.edits.values()
                      for pair in edit]
        self.promises = list(self.promised())

    def promised(self):
        for file, text in self.checked.items():
            if file in self.source and self.is_library:
                yield from clauses(file, text, self.texts[file])
            elif file.startswith("specs/"):
                yield from statements(file, text, self.has_code)

    def theorems(self):
        """The names of the theorems in the crate's table."""
        table = self.checked.get("specs/Theorems.antt", "")
        found = re.search(r"^pub record Theorems .*\n(?: .*\n)*", table, re.M)
        return re.findall(r"^  pub (\S+) :", found[0], re.M) if found else []

    def claims(self):
        """The names of the records of a crate without code."""
        for file in self.tables() if not self.has_code else ():
            yield from re.findall(r"^pub record (\S+) : Type 0 where$",
                                  self.checked[file], re.M)

    def is_guarded(self, promise):
        """Whether an edit quotes the promise, and cannot be made where the
        promise is taken out."""
        file, text, place = promise
        without = {**self.texts, file: re.sub(place, "", self.texts[file])}
        return any(changed == file and text in old and refused(edit, without)
                   for changed, old, _, edit in self.pairs)

    def tables(self):
        """The files of theorems; in a crate without code, all that promise."""
        return sorted({promise.file for promise in self.promises
                       if promise.file == "specs/Theorems.antt"
                       or not self.has_code})

    def is_proved(self, table):
        """Whether proofs/ has a value of each record that takes nothing, and
        the table has one; in a crate without code, every other record is the
        type of a field there."""
        checked = self.checked[table]
        heads = re.findall(r"^ *(?:pub )?record (\S+) (.*)$", checked, re.M)
        records = [name for name, rest in heads if rest == ": Type 0 where"]
        others = {name for name, _ in heads}.difference(records)
        proofs = "".join(text for file, text in self.checked.items()
                         if file.startswith("proofs/"))
        return (records != []
                and (self.has_code
                     or all(re.search(rf"^  pub \S+ : {other} ", checked, re.M)
                            for other in others))
                and all(re.search(rf"^pub \S+ : {record}$", proofs, re.M)
                        for record in records))

    def is_falsified(self, table):
        lines = [line.text for line in self.promises if line.file == table]
        return any(file == table and old != new
                   and any(old in line or line in old for line in lines)
                   for file, old, new, _ in self.pairs)

    def quotes(self, file, old, new):
        """Whether a pair quotes what is checked: a clause that it quotes has
        to be a public function's, and an anchor may not be a comment."""
        if file in self.source and (old == new or is_of_a_clause(
                old, self.source[file])):
            return any(promise.file == file and promise.text in old
                       for promise in self.promises)
        return old != new or old in self.checked[file]

    def contract_faults(self, file, text):
        for head, contract in contracts(text):
            if not contract:
                yield f"{file}: promises nothing: {head}"
            for line in contract:
                if not CLAUSE.fullmatch(line):
                    yield f"{file}: not a clause: {line.strip()}"
        exported = False
        for line in text.split("\n"):
            private = re.match(r" *(pub\(crate\) )?fn ", line)
            if UNREAD.search(line) and not (
                    private or PUBLIC.match(line) or members(line)):
                yield f"{file}: a form that is not read: {line.strip()}"
            attribute = re.match(r" *#!?\[", line)
            if exported and not (attribute or PUBLIC.match(line)):
                yield f"{file}: exported and not public: {line.strip()}"
            exported = "no_mangle" in line or exported and attribute

    def code_faults(self):
        for file, text in self.texts.items():
            if re.search(r"/\*|{-", text):
                yield f"{file}: has a comment in brackets, which is not read"
            part, name = file.rsplit("/", 1)
            library = self.checked.get(f"{part}/Lib.antt", "")
            if part in ("specs", "proofs") and not (
                    name == "Lib.antt"
                    or f"pub mod {name[:-len('.antt')]}\n" in library):
                yield f"{file}: not in {part}/Lib.antt"
        for file, text in self.checked.items():
            if re.search(r"^(pub |ghost )*use .*{$", text, re.M):
                yield f"{file}: uses something over lines, which is not read"
            if file.startswith("specs/") and has_other_types(text):
                yield f"{file}: has a type that is not read"
            has_impl = any(re.search(r"^impl\b.* for ", source, re.M)
                           for source in self.source.values())
            proves = file.startswith("proofs/") or file == LAWS and has_impl
            if not proves and re.search(
                    r"^(pub |ghost )*use .*\.proofs\b", text, re.M):
                yield f"{file}: uses a module of proofs"
            if file == LAWS and re.search(r"^ *(abbrev|unfoldable)\b", text, re.M):
                yield f"{file}: defines something"
        for file, text in self.source.items() if self.is_library else ():
            yield from self.contract_faults(file, text)
        for promise in self.promises:
            if not re.search(promise.place, self.texts[promise.file]):
                yield (f"{promise.file}: a comment or a space behind "
                       f"{promise.text}")

    def edit_faults(self):
        for name, edit in self.edits.items():
            reason = refused(edit, self.texts)
            if reason:
                yield f"must-fail/{name}: {reason}"
                continue
            last = {}
            for file, old, new in edit:
                if not self.quotes(file, old, new):
                    yield f"must-fail/{name}: quotes no promise: {old}"
                if old == new:
                    place = self.texts[file].index(old)
                    if place < last.get(file, 0):
                        yield f"must-fail/{name}: out of its order: {old}"
                    last[file] = place

    def missing_pairs(self):
        """The pairs that quote what no edit quotes yet, as text."""
        text = file = ""
        for promise in self.promises:
            found = re.search(promise.place, self.texts[promise.file])
            if found and not self.is_guarded(promise):
                if promise.file != file:
                    file = promise.file
                    text += f"# {self.name}\nfile: {file}\n"
                quoted = found[0].strip()
                text += f"old: {quoted}\nnew: {quoted}\n"
        return text

    def faults(self):
        yield from self.code_faults()
        for promise in self.promises:
            if not self.is_guarded(promise):
                yield f"{promise.file}: quoted by no edit: {promise.text}"
        for table in self.tables():
            if not self.is_proved(table):
                yield f"{table}: proofs/ has no value of a record"
            if not self.is_falsified(table):
                yield f"{table}: made false by no edit"
        yield from self.edit_faults()
