#!/usr/bin/env python3
"""Times `plan` on scripts of 512 to 4,096 calls with mixed events; on scripts that read eight requests of 4,000 bytes and their replies
byte by byte; and on rules of functions that are not there, nearly as many as a script can have.

Prints, for each length, the best of the runs in seconds, and its ratio to the length before. Needs the built program: run rt ci once
before.
"""

import pathlib
import tempfile

from timing import best_time, print_rows, program

LENGTHS = [512, 1024, 2048, 4096]
# How many of the bytes of the eight exchanges are read one by one, and how many rules there are.
PIECES = [8192, 16384, 32768]
RULES = [12_000, 24_000, 48_000]
INTERFACE = "module M { interface Calc { int add(int a, int b); string echo(string s); }; };\n"
HEADER = """client calc.tars
interface M::Calc
object A.B.C@tcp -h 127.0.0.1 -p 9001 -t 3000
servant add add a b
"""
# What stands after the first, the second, .. call, and so on again; from the half on, a close as well.
AFTER = ["serve 1\n", "work 1\n", "serve 1\nwork 1\ndeliver 1\n", "deliver 1\n", ""]


def mixed(calls: int) -> str:
    parts = [HEADER]
    for k in range(calls):
        parts.append(f"call 1 add {k} {-k}\n" + AFTER[k % len(AFTER)])
        if k >= calls // 2:
            parts.append("close\n")
    return "".join(parts)


def in_bytes(pieces: int) -> str:
    """Eight calls, whose requests and replies have about 4,000 bytes each."""
    calls = f'call 1 echo "{"x" * 3986}"\n' * 8
    return HEADER + "servant echo echo s\n" + calls + "serve 1 1\n" * pieces + "serve 1\n" + "work 1\n" * 8 + "deliver 1 1\n" * pieces


def unknown_rules(rules: int) -> str:
    """Rules of functions whose names are numbers of five digits."""
    return HEADER + "".join(f"servant {k:05} silent\n" for k in range(rules))


def times(folder: pathlib.Path, name: str, script_of, lengths: list, wanted):
    """The times of the scripts of a shape, each of which has to print what is wanted of its length."""
    plan = program("tars_tool")
    for length in lengths:
        script = folder / f"{length}.plan"
        script.write_text(script_of(length))
        done = wanted(length).encode()
        yield f"{length:5} {name}", best_time([plan, "plan", script.name], folder, done), ""


with tempfile.TemporaryDirectory() as name:
    folder = pathlib.Path(name)
    (folder / "calc.tars").write_text(INTERFACE)
    print_rows(times(folder, "calls", mixed, LENGTHS, lambda calls: f"done calls {calls} two-way {calls} one-way 0"))
    print_rows(times(folder, "bytes of each direction one by one", in_bytes, PIECES, lambda _: "done calls 8 two-way 8 one-way 0"))
    print_rows(times(folder, "unknown rules", unknown_rules, RULES, lambda rules: f"refused {rules}.plan script 6 101"))
