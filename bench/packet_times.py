#!/usr/bin/env python3
"""Times packets: the first request of docs/PROTOCOL.md ("Packets") read, written, prepared and answered, and responses with bodies of
256 KiB to 2 MiB read and written.

Prints the nanoseconds of one turn, the best of the runs, and for each length the ratio to the length before. What a run without a turn
takes is taken off. A packet is read before it is written or prepared, since both take the request; that time is taken off too. Needs the
built program: run rt ci once before.
"""

import pathlib
import tempfile

from timing import best_time, program

REQUEST = bytes.fromhex("0000002510012C3C40015605412E422E4366036164647D00000410022003810BB8980CA80C")
KIBIBYTES = [256, 512, 1024, 2048]
# What stands before the length of a response's body, and after the body.
BEFORE, AFTER = bytes.fromhex("10012C30014C5C6D0002"), bytes.fromhex("780C8600")
# Turns of a run, by the bytes of the packet.
REQUEST_TURNS = 500_000
RESPONSE_BYTES = 2**31


def response(length: int) -> bytes:
    body = BEFORE + length.to_bytes(4, "big") + bytes(length) + AFTER
    return (len(body) + 4).to_bytes(4, "big") + body


def turn_time(folder: pathlib.Path, packet: bytes, work: str, turns: int, bytes_a_turn: int) -> float:
    """The nanoseconds of one turn, which gives so many bytes."""
    (folder / "packet").write_bytes(packet)

    def seconds(times: int) -> float:
        command = [program("packet_tables"), "packet", work, str(times)]
        return best_time(command, folder, f"{work}: {times * bytes_a_turn} bytes\n".encode())

    return (seconds(turns) - seconds(0)) / turns * 1e9


def print_requests(folder: pathlib.Path) -> None:
    def time(work: str, bytes_a_turn: int) -> float:
        return turn_time(folder, REQUEST, work, REQUEST_TURNS, bytes_a_turn)

    read = time("read-request", 4)
    print(f"request of {len(REQUEST)} bytes: read  {read:.0f} ns")
    for name, work in (("written", "write-request"), ("prepared, and its id set", "prepare-request")):
        print(f"request of {len(REQUEST)} bytes: {name}  {time(work, len(REQUEST)) - read:.0f} ns")
    print(f"request of {len(REQUEST)} bytes: answered, a sum  {time('answer', 2):.0f} ns")


def print_responses(folder: pathlib.Path) -> None:
    before = None
    for kibibytes in KIBIBYTES:
        length = kibibytes * 1024
        packet = response(length)
        turns = RESPONSE_BYTES // length
        read = turn_time(folder, packet, "read-response", turns, length)
        both = turn_time(folder, packet, "write-response", turns, len(packet))
        times = {"read": read, "written": both - read, "both": both}
        ratios = {name: "" if before is None else f" ratio {of / before[name]:.2f}" for name, of in times.items()}
        shown = "  ".join(f"{name} {of / 1000:.1f} us{ratios[name]}" for name, of in times.items())
        print(f"response of {kibibytes:4} KiB: {shown}")
        before = times


with tempfile.TemporaryDirectory() as name:
    print_requests(pathlib.Path(name))
    print_responses(pathlib.Path(name))
