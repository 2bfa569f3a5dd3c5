#!/usr/bin/env python3
"""Writes the table of calls' arguments: rows `arguments FILE => HEX`, and what each comes to.

    python3 tests/argument_rows.py

writes `arguments.rows` of `crates/value_tables/data` and its part of that crate's `stdout`; where nothing has changed,
`git diff` shows nothing after it. A body is read by rows/body_reader.py under the parameters that are not `out`, each
required and under its number from 1 (docs/PROTOCOL.md, "Bodies").
"""

from body_rows import outcome
from rows.tables import Table, file_of

INSIDE = "enum E{A,B};struct T{0 require int x;};"
OUT_TO_14 = [f"out int p{number}" for number in range(1, 15)]
# Of each a comment, the parameters of a function and bodies in hexadecimal digits.
GROUPS = [
    (
        "A parameter that is `out` has no argument, and a field of its number is skipped.",
        ["int a", "out int rest"],
        ["10052C", "1005", "100520093009", "2005", "", "120000FFFF20", "1300000000000000052C", "1C2C"],
    ),
    (
        "Those after it keep their numbers.",
        ["out int rest", "int a"],
        ["1C2005", "2005", "1005", "20052C", "0C1C2C"],
    ),
    (
        "Each argument is required.",
        ["int a", "out string b", "bool c", "out T d", "string e"],
        ["10053001560161", "10053C5600", "1005560161", "100530015C", "3001560161", "1005300156016160016C"],
    ),
    (
        "Arguments of all types.",
        ["T a", "vector<short> b", "map<string,E> c", "vector<byte> d", "E e"],
        [
            "1A00070B29000200010C38000106016110014D000201025001",
            "1A0B290C380C4D000C5C",
            "1A00070B290001060161380C4D000C5C",
            "1A00070B290C3800010601611601614D000C5C",
        ],
    ),
    ("No arguments.", [], ["", "0C", "1C"]),
    ("None but `out` parameters.", ["out int a", "out int b"], ["", "10052005", "10"]),
    ("A number from 15 on has a byte of its own.", [*OUT_TO_14, "int a"], ["F00F05", "F005", ""]),
]


def file_with(params: list) -> str:
    func = f"int f({','.join(params)});"
    return f"module M{{{INSIDE}interface I{{{func}void g();}};}};"


def members_for(params: list) -> str:
    """An interface file whose last struct has the members that stand for the arguments."""
    arguments = [f"{tag} require {param};" for tag, param in enumerate(params, 1) if not param.startswith("out ")]
    return file_of("".join(arguments), INSIDE)


def rows_of(params: list, bodies: list) -> list:
    file, members = file_with(params), members_for(params)
    return [(f"arguments {file} => {body}", outcome(members, bytes.fromhex(body))) for body in bodies]


if __name__ == "__main__":
    title = 'Arguments of a call (docs/PROTOCOL.md, "Bodies"): `arguments FILE => HEX` is a body of the first function.'
    TABLE = Table("arguments.rows", [title, "Made by tests/argument_rows.py."])
    for comment, params, bodies in GROUPS:
        TABLE.group(comment, rows_of(params, bodies))
    TABLE.write()
