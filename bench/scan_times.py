#!/usr/bin/env python3
"""Times `scan` on bodies of 1.25 to 10 MiB: a list of structs with a number, a string and a map.

Prints, for each length, the best of the runs in seconds, its ratio to the length before, and the mebibytes a
second. The time of a run on an empty file is taken off. Needs the built program: run rt ci once before.
"""

import pathlib
import tempfile

from timing import best_time, print_rows, program

MEBIBYTES = [1.25, 2.5, 5, 10]
# struct { 1: int1 2, 2: string1 "abc", 3: map { "k": zero } }
ELEMENT = bytes.fromhex("0A" "1002" "2603616263" "38000106016B1C" "0B")


def body_of(length: int) -> bytes:
    """Tag 0: a list of as many elements as fit."""
    count = (length - 6) // len(ELEMENT)
    return b"\x09\x02" + count.to_bytes(4, "big") + ELEMENT * count


def time_of(folder: pathlib.Path, body: bytes) -> float:
    (folder / "big.body").write_bytes(body)
    wanted = f"big.body: a body of {len(body)} bytes\n".encode()
    return best_time([program("law_tables"), "big.body"], folder, wanted)


def times(folder: pathlib.Path):
    empty = time_of(folder, b"")
    for mebibytes in MEBIBYTES:
        body = body_of(int(mebibytes * 2**20))
        seconds = time_of(folder, body) - empty
        yield f"{mebibytes:5} MiB", seconds, f"  {len(body) / 2**20 / seconds:.0f} MiB/s"


with tempfile.TemporaryDirectory() as name:
    print_rows(times(pathlib.Path(name)))
