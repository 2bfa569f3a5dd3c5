#!/usr/bin/env python3
"""Times `check` on interface files of 64 KiB to 1 MiB, all of it declarations, and so `lex` and `parse`.

The files are refused for a name in their first struct, after both readers. Prints, for each length, the best of the runs in
seconds, and its ratio to the length before. Needs the built program: run rt ci once before.
"""

import pathlib
import tempfile

from timing import best_time, print_rows, program

KIBIBYTES = [64, 128, 256, 512, 1024]
REFUSAL = b"refused big.tars check 3 75\n"
START = "module M {\n"
END = "};\n"


def declarations(number: int) -> str:
    """A struct, an enum, a constant and an interface, with every kind of token."""
    return (
        f"struct S{number} {{ 0 require int a = -1; 1 optional map<string, vector<E{number}>> b; }};\n"
        f"enum E{number} {{ A{number}, B{number} = 0x1F, }};\n"
        f'const string C{number} = "text \\x41 \\"{number}\\""; // a comment\n'
        f"interface I{number} {{ int f(int a, routekey long b, out S{number} c); void g(); }};\n"
    )


def interface_of(length: int) -> str:
    parts = [START]
    left = length - len(START) - len(END)
    number = 0
    while True:
        part = declarations(number)
        if len(part) > left:
            break
        parts.append(part)
        left -= len(part)
        number += 1
    return "".join(parts) + " " * left + END


def times(folder: pathlib.Path):
    tool = program("tars_tool")
    for kibibytes in KIBIBYTES:
        (folder / "big.tars").write_text(interface_of(kibibytes * 1024))
        yield f"{kibibytes:5} KiB", best_time([tool, "check", "big.tars"], folder, REFUSAL), ""


with tempfile.TemporaryDirectory() as name:
    print_rows(times(pathlib.Path(name)))
