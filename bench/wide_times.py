#!/usr/bin/env python3
"""Times `plan` on scripts whose calls are all answered, up to 4,096 of them on one line.

A line has a width of 8 calls, none of which is collected before the end; so a program with a width of 4,096 is timed.
`wide_times.py PROGRAM` times such a program; without one, a copy of the sources with that width is proved and built first,
which takes as long as `rt run` in crates/tars_tool takes. For each shape of script and each length: the best of the runs in
seconds, and its ratio to the length before.
"""

import pathlib
import shutil
import subprocess
import sys
import tempfile

from timing import best_time, print_rows

TOP = pathlib.Path(__file__).resolve().parent.parent
WIDTH = 4096
LENGTHS = [512, 1024, 2048, 4096]
INTERFACE = "module M { interface Calc { int add(int a, int b); }; };\n"
HEADER = """client calc.tars
interface M::Calc
object A.B.C@tcp -h 127.0.0.1 -p 9001 -t 3000
servant add add a b
queue 10000 3000
"""


def one_by_one(calls: int) -> str:
    return HEADER + "".join(f"call 1 add {k} {-k}\nserve 1\nwork 1\ndeliver 1\n" for k in range(calls))


def all_at_once(calls: int) -> str:
    return (
        HEADER
        + "".join(f"call 1 add {k} {-k}\n" for k in range(calls))
        + "serve 1\n"
        + "work 1\n" * calls
        + "deliver 1\n"
    )


def in_pieces(calls: int) -> str:
    """As one by one, but each stream is read in pieces of ten bytes, which end inside packets."""
    return HEADER + "".join(
        f"call 1 add {k} {-k}\n" + "serve 1 10\n" * 5 + "work 1\n" + "deliver 1 10\n" * 3 for k in range(calls)
    )


def set_in(path: pathlib.Path, old: str, new: str) -> None:
    text = path.read_text()
    if text.count(old) != 1:
        sys.exit(f"{path} has not one {old!r}")
    path.write_text(text.replace(old, new))


def build(folder: pathlib.Path) -> pathlib.Path:
    """The program with the greater width, proved and built in a copy of the sources."""
    crates = folder / "crates"
    shutil.copytree(TOP / "crates", crates)
    shutil.copy(TOP / "crates.txt", folder)
    set_in(crates / "script_session/specs/Sessions.antt", "WIDTH = 8\n", f"WIDTH = {WIDTH}\n")
    set_in(crates / "run_engine/src/one_line.rt", "WIDTH: usize = 8;", f"WIDTH: usize = {WIDTH};")
    # Its worked rows are of a line of 8 calls.
    (crates / "run_course/proofs/Worked.antt").unlink()
    set_in(crates / "run_course/proofs/Lib.antt", "pub mod Worked\n", "")
    subprocess.run(["rt", "run"], cwd=crates / "tars_tool", check=False, capture_output=True)
    built = crates / "tars_tool/out/tars_tool"
    if not built.exists():
        sys.exit("the program with the greater width was not built")
    return built


def times(program: pathlib.Path, folder: pathlib.Path, name: str, script_of):
    for calls in LENGTHS:
        script = folder / f"{name}_{calls}.plan"
        script.write_text(script_of(calls))
        last = f"got 1 {calls} used {calls} ".encode()
        yield f"{name.replace('_', ' ')} {calls:5} calls", best_time([program, "plan", script.name], folder, last), ""


with tempfile.TemporaryDirectory() as name:
    folder = pathlib.Path(name)
    program = pathlib.Path(sys.argv[1]).resolve() if len(sys.argv) > 1 else build(folder)
    (folder / "calc.tars").write_text(INTERFACE)
    for shape in [one_by_one, all_at_once, in_pieces]:
        print_rows(times(program, folder, shape.__name__, shape))
