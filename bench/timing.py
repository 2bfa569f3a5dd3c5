"""What the benchmarks share: the built programs, the best time of some runs, and lines with ratios."""

import pathlib
import subprocess
import sys
import time

RUNS = 5
CRATES = pathlib.Path(__file__).resolve().parent.parent / "crates"


def program(name: str) -> pathlib.Path:
    """The program of a crate, which has to be built."""
    path = CRATES / name / "out" / name
    if not path.exists():
        sys.exit("the program is not built: run rt ci once")
    return path


def best_time(command: list, folder: pathlib.Path, wanted: bytes) -> float:
    """The seconds of the fastest of some runs, each of which has to print what is wanted."""
    times = []
    for _ in range(RUNS):
        start = time.perf_counter()
        done = subprocess.run(command, cwd=folder, capture_output=True, check=False)
        times.append(time.perf_counter() - start)
        if wanted not in done.stdout:
            sys.exit(f"{command} printed {done.stdout[:200]!r}")
    return min(times)


def print_rows(rows) -> None:
    """A line for each name with its seconds and what else is to be said, and the ratio to the line before."""
    before = None
    for name, seconds, more in rows:
        ratio = "" if before is None else f"  ratio {seconds / before:.2f}"
        print(f"{name}  {seconds:.4f} s{more}{ratio}")
        before = seconds
