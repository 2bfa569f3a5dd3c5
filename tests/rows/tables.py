"""What the scripts that write tables share: the types of an interface file, and tables of rows.

A table is a file of a crate's `data` with a row or a comment on each line, and the part of that crate's `stdout` with
what each of these lines comes to. Nothing here is taken from the crates. Of the interface language (docs/IDL.md) only
what the rows need is read: one module, no comments, no escapes, no names with `::`.
"""

import itertools
import pathlib
import re
from typing import NamedTuple

CRATES = pathlib.Path(__file__).resolve().parents[2] / "crates"
# The least and the greatest number of each type of whole numbers.
RANGES = {
    "byte": (-(2**7), 2**7 - 1),
    "short": (-(2**15), 2**15 - 1),
    "int": (-(2**31), 2**31 - 1),
    "long": (-(2**63), 2**63 - 1),
    "unsigned byte": (0, 2**8 - 1),
    "unsigned short": (0, 2**16 - 1),
    "unsigned int": (0, 2**32 - 1),
}


# A type is the word of a basic type, or one of these.
class Enum(NamedTuple):
    numbers: dict


class Vector(NamedTuple):
    of: object


class Map(NamedTuple):
    key: object
    to: object


class Struct(NamedTuple):
    members: list


class Member(NamedTuple):
    tag: int
    require: bool
    type: object
    name: str
    default: object


class Interface(NamedTuple):
    functions: dict


class Function(NamedTuple):
    """Its members: what is returned is under tag 0, unless it is `void`, and each parameter under its number."""

    ret: object
    arguments: list
    replied: list


def range_of(kind) -> tuple:
    return RANGES["int"] if isinstance(kind, Enum) else RANGES[kind]


def default_of(kind):
    """A type's default. A value is a bool, a number, bytes, or a list of elements, of pairs or of members' values."""
    match kind:
        case "bool":
            return False
        case Enum(numbers):
            return next(iter(numbers.values()), 0)
        case Struct(members):
            return [member.default for member in members]
        case "string" | Vector("byte"):
            return b""
        case Vector() | Map():
            return []
    return 0


class File:
    """Reads the declarations of an interface file."""

    def __init__(self, text: str):
        self.tokens = re.findall(r'"[^"]*"|-?\w+|[{}<>,;=]', text)
        self.declared = {}
        self.take(3)
        while not self.takes("}"):
            word, name, _ = self.take(3)
            self.declared[name] = {"enum": self.enum, "struct": self.struct, "interface": self.interface}[word]()
            self.take(1)

    def last_struct(self) -> Struct:
        return [kind for kind in self.declared.values() if isinstance(kind, Struct)][-1]

    def last_interface(self) -> Interface:
        return [kind for kind in self.declared.values() if isinstance(kind, Interface)][-1]

    def take(self, count: int) -> list:
        taken, self.tokens = self.tokens[:count], self.tokens[count:]
        return taken

    def takes(self, token: str) -> bool:
        """Goes past the token if it is the next."""
        return self.tokens[0] == token and bool(self.take(1))

    def enum(self) -> Enum:
        numbers, due = {}, 0
        while not self.takes("}"):
            [name] = self.take(1)
            numbers[name] = int(self.take(1)[0]) if self.takes("=") else due
            due = numbers[name] + 1
            self.takes(",")
        return Enum(numbers)

    def struct(self) -> Struct:
        members = []
        while not self.takes("}"):
            tag, word = self.take(2)
            kind = self.type()
            [name] = self.take(1)
            default = self.literal(kind) if self.takes("=") else default_of(kind)
            members.append(Member(int(tag), word == "require", kind, name, default))
            self.take(1)
        return Struct(sorted(members, key=lambda member: member.tag))

    def interface(self) -> Interface:
        functions = {}
        while not self.takes("}"):
            ret = None if self.takes("void") else self.type()
            [name] = self.take(1)
            functions[name] = self.function(ret)
        return Interface(functions)

    def function(self, ret) -> Function:
        arguments, replied = [], [] if ret is None else [Member(0, True, ret, "", None)]
        number = 0
        while not self.takes(";"):
            number += 1
            members = replied if self.takes("out") else arguments
            kind = self.type()
            [name] = self.take(1)
            members.append(Member(number, True, kind, name, None))
            self.takes(",")
        return Function(ret, arguments, replied)

    def type(self):
        [word] = self.take(1)
        match word:
            case "unsigned":
                return f"unsigned {self.take(1)[0]}"
            case "vector":
                return self.within(lambda: Vector(self.type()))
            case "map":
                return self.within(lambda: Map(self.type(), self.take(1) and self.type()))
        return self.declared.get(word, word)

    def within(self, read):
        """What stands between `<` and `>`."""
        self.take(1)
        kind = read()
        self.take(1)
        return kind

    def literal(self, kind):
        [word] = self.take(1)
        if word in ("true", "false"):
            return word == "true"
        if word.startswith('"'):
            return word[1:-1].encode()
        return kind.numbers[word] if word[0].isalpha() else int(word)


def varied(rows: list, sort_of, count: int) -> list:
    """So many of the pairs of a row and what it comes to: those of each sort of outcome by turns."""
    sorts = {}
    for row, line in dict.fromkeys(rows):
        sorts.setdefault(sort_of(line), []).append((row, line))
    turns = itertools.chain.from_iterable(itertools.zip_longest(*sorts.values()))
    return [row for row in turns if row][:count]


def file_of(members: str, more: str = "") -> str:
    """An interface file whose last struct has the members."""
    return f"module M{{{more}struct S{{{members}}};}};"


class Table:
    """Rows and what they come to, in groups under a comment each."""

    def __init__(self, name: str, title: list, crate: str = "value_tables"):
        self.name = name
        self.crate = CRATES / crate
        self.rows = [f"# {line}" for line in title]
        self.lines = list(self.rows)

    def group(self, comment: str, rows) -> None:
        """Adds pairs of a row and what it comes to."""
        rows = list(dict.fromkeys(rows))
        self.rows += ["", f"# {comment}", *(row for row, _ in rows)]
        self.lines += ["", f"# {comment}", *(line for _, line in rows)]

    def write(self) -> None:
        """Writes the rows, and puts their lines into `stdout` in place of those that the table had there."""
        rows, stdout = self.crate / "data" / self.name, self.crate / "stdout"
        lines = stdout.read_text(encoding="utf-8").split("\n")[:-1] if stdout.exists() else []
        old = rows.read_text(encoding="utf-8").split("\n")[:-1] if rows.exists() else []
        start = lines.index(old[0]) if old else len(lines)
        lines[start : start + len(old)] = self.lines
        stdout.write_text("\n".join(lines) + "\n", encoding="utf-8")
        rows.write_text("\n".join(self.rows) + "\n", encoding="utf-8")
        print(f"{self.name}: {sum(1 for row in self.rows if row and row[0] != '#')} rows")
