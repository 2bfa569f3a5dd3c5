#!/usr/bin/env python3
"""Writes a table of streams in pieces, and what comes of each piece, of `next` and of `rest`.

    python3 tests/frame_rows.py

writes `crates/frame_tables/data/frames.rows` and that crate's `stdout`; where nothing has changed, `git diff` shows nothing after it.
What comes of a row is told by `Stream` below, which keeps all that was fed and shares nothing with the crates.
"""

import pathlib

CRATE = pathlib.Path(__file__).resolve().parent.parent / "crates" / "frame_tables"
LONGEST = 10_485_760
# the first request of examples/first.plan (docs/PROTOCOL.md, "Packets")
REQUEST = bytes.fromhex("0000002510012C3C40015605412E422E4366036164647D00000410022003810BB8980CA80C")


class Stream:
    """All that was fed, up to the first piece that was refused."""

    def __init__(self):
        self.fed = b""
        self.given = 0

    def bounds(self):
        """Where each packet begins and ends, and the place of the first bad length if there is one."""
        found, at = [], 0
        while len(self.fed) - at >= 4:
            length = int.from_bytes(self.fed[at : at + 4], "big")
            if not 5 <= length <= LONGEST:
                return found, (at, length)
            if len(self.fed) - at < length:
                break
            found.append((at, at + length))
            at += length
        return found, None

    def feed(self, piece: bytes) -> str:
        if self.bounds()[1] is None:
            self.fed += piece
        bad = self.bounds()[1]
        return "ok" if bad is None else f"bad {bad[0]} {bad[1]}"

    def next(self) -> str:
        found = self.bounds()[0]
        if self.given == len(found):
            return "none"
        start, end = found[self.given]
        self.given += 1
        return shown(self.fed[start:end])

    def rest(self) -> str:
        found = self.bounds()[0]
        return shown(self.fed[found[self.given - 1][1] if self.given else 0 :])


def shown(some: bytes) -> str:
    return (some.hex().upper() or "-") if len(some) <= 64 else f"{len(some)} bytes"


def outcome(words: list) -> str:
    stream = Stream()
    told = []
    for word in words:
        if word in ("next", "rest"):
            told.append(getattr(stream, word)())
        elif "*" in word:
            count, byte = word.split("*")
            told.append(stream.feed(bytes([int(byte)]) * int(count)))
        else:
            told.append(stream.feed(bytes.fromhex(word.replace("-", ""))))
    return "; ".join(told)


def pieces(stream: bytes, *cuts: int) -> list:
    """The stream, cut at these places."""
    ends = [0, *cuts, len(stream)]
    return [stream[start:end].hex().upper() or "-" for start, end in zip(ends, ends[1:])]


# ---- the groups

BAD = bytes.fromhex("000000050B" "00000004FF")
THREE = bytes.fromhex("000000050B" "00000007ABCDEF" "0000000600FF")
AFTER_BAD = ["rest", "next", "rest", "next", "rest"]


def groups():
    yield "A packet and then a bad length: as one piece, byte by byte, and at each cut.", [
        [*pieces(BAD), *AFTER_BAD, "-", "FF", "rest"],
        [*pieces(BAD, *range(1, len(BAD))), *AFTER_BAD],
        *([*pieces(BAD, cut), *AFTER_BAD] for cut in range(1, len(BAD))),
        ["000000050B00000004", "next", "-", "000000050B", "rest", "next"],
    ]
    yield "Three packets, cut at every pair of places.", [
        [*pieces(THREE, first, second), "next", "rest", "next", "next", "next", "rest"]
        for first in range(len(THREE) + 1)
        for second in range(first, len(THREE) + 1)
    ]
    yield "Packets that are taken as they come.", [
        [word for byte in THREE for word in (f"{byte:02X}", "next", "rest")],
        [*(f"{byte:02X}" for byte in REQUEST), "next", "rest"],
    ]
    yield "Empty pieces, and a length alone.", [
        ["-", "next", "rest"],
        ["000000050B", "-", "-", "next", "-", "rest"],
        ["00A00000", "next", "rest"],
    ]
    yield "Lengths at the limits.", [
        *([f"{length:08X}", "next", "rest", "-"] for length in (0, 4, 5, LONGEST, LONGEST + 1, 2**32 - 1)),
        ["00000005", "00", "next", "rest"],
        ["00A00000", f"{LONGEST - 5}*7", "next", "00", "next", "rest"],
        ["00A00000", f"{LONGEST - 4}*7", "00A00001", "rest", "next", "rest"],
    ]


if __name__ == "__main__":
    heads = ["# Streams in pieces, with `next` and `rest` (docs/PROTOCOL.md, \"Packets\").", "# Made by tests/frame_rows.py."]
    rows, told = list(heads), list(heads)
    for comment, group in groups():
        for lines in (rows, told):
            lines += ["", f"# {comment}"]
        rows += [" ".join(words) for words in group]
        told += [outcome(words) for words in group]
    (CRATE / "data" / "frames.rows").write_text("\n".join(rows) + "\n")
    (CRATE / "stdout").write_text("\n".join(told) + "\n")
