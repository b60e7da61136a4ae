"""What is promised in a file: in src/ the heads of public functions, and of a
trait's, and the clauses of their contracts, the heads of traits and of what
implements them with their ghost members, in specs/ the lines of records, data types and
propositions, and in both what is used under another name. In a crate without
code, every line of specs/ is a promise, but for what is used as it is."""

import collections
import re

PUBLIC = re.compile(r' *(pub (?:extern "C" )?fn \w+.*)')
METHOD = re.compile(r" {4}(fn \w+.*)")
TRAIT = re.compile(r"pub trait .*{")
MEMBER = re.compile(r"^(?:pub trait|impl(?:<.*>)?) .*{$|^ *ghost (?!use ).*;$",
                    re.M)
CLAUSE = re.compile(r" *ensures (?:\w+ )?({ .* })")
QUOTED = re.compile(r"(?:(?:requires|ensures) )?(?:\w+ )?{ .* }")
RENAMED = re.compile(r"^(?:pub |ghost )*use .* as .*\n", re.M)
RECORD = re.compile(r"^( *)(?:pub )?(?:record|data) .*\n(?:\1 +.*\n|\n)*",
                    re.M)
PROPOSITION = re.compile(r"^( *)(?:abbrev |unfoldable )?(?:pub )?\S+ :.*"
                         r"(?:\n\1 +.*)*Type 0\n(?:.*\S.*\n)*", re.M)

# A file, the text that is promised there, and a pattern that finds it where it
# stands.
Promise = collections.namedtuple("Promise", "file text place")


def without_comments(text):
    text = re.sub(r"^ *(//|--).*\n", "", text, flags=re.M)
    return re.sub(r" +(//|--).*", "", text)


def lines_of(file, parts):
    lines = [line.strip() for part in parts for line in part.split("\n")]
    for line in dict.fromkeys(filter(None, lines)):
        yield Promise(file, line, rf"(?m)^ *{re.escape(line)}$")


def contracts(text):
    """The first line of each public function and of each of a trait, and the
    lines of its contract: what stands between its head and its body, or the
    semicolon that stands for one."""
    lines = iter(text.split("\n"))
    in_trait = False
    for line in lines:
        in_trait = line != "}" if in_trait else TRAIT.fullmatch(line)
        found, contract = PUBLIC.match(line), []
        if in_trait and not found:
            found = METHOD.match(line)
        while found and not re.fullmatch(r"(?!.*(requires|ensures)).*{", line):
            if contract or re.search(r"\b(requires|ensures)\b", line):
                contract.append(line.removesuffix(";"))
            if line.endswith(";"):
                break
            line = next(lines, "{")
        if found:
            yield found[1], contract


def is_of_a_clause(quoted, text):
    """Whether what an edit quotes has the form of a clause, or stands in one
    of any function."""
    return QUOTED.fullmatch(quoted) or any(
        quoted in line for line in text.split("\n")
        if re.match(r" *(requires|ensures)\b", line))


def members(text):
    """The heads of traits and of what implements them, and ghost members."""
    return [line for line in MEMBER.findall(text)
            if " for " in line or not line.startswith("impl")]


def clauses(file, text, whole):
    """Each function's first line, and each clause's fact in its braces; the
    clause with its name, where the whole file has the fact twice. Two methods
    with the same first line cannot be quoted by it."""
    yield from lines_of(file, RENAMED.findall(text))
    yield from lines_of(file, members(text))
    for head, contract in contracts(text):
        if text.count(head) == 1:
            yield Promise(file, head, re.escape(head))
        for found in filter(None, map(CLAUSE.fullmatch, contract)):
            once = whole.count(found[1]) == 1
            quoted = found[1] if once else found[0].strip()
            yield Promise(file, quoted, re.escape(quoted))


def statements(file, text, has_code):
    """The lines of records, data types and propositions, which are those whose
    type ends in `Type 0`; without code, of all."""
    if has_code:
        parts = [found[0] for pattern in (RECORD, PROPOSITION)
                 for found in pattern.finditer(text)]
    else:
        parts = [re.sub(r"^(use|pub mod) .*\n", "", text, flags=re.M)]
    yield from lines_of(file, RENAMED.findall(text) + parts)


def has_other_types(text):
    """Whether something that is no record, data type or proposition speaks of
    types, but for a type that it takes: it would be a proposition that is not
    read."""
    rest = PROPOSITION.sub("", RECORD.sub("", text))
    rest = re.sub(r"{\w+ : Type 0}", "", rest)
    return re.search(r"\bType\b", rest) is not None
