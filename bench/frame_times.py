#!/usr/bin/env python3
"""Times the cutting of packets from streams of 1.25 to 10 MiB: one packet, and packets of 37 bytes, in pieces of several lengths.

Prints, for each length, the best of the runs in seconds, its ratio to the length before, and the bytes or packets a second. A run feeds
the stream ten times, and the time of a run that feeds it no time is taken off. Needs the built program: run rt ci once before.
"""

import pathlib
import tempfile

from timing import best_time, print_rows, program

MEBIBYTES = [1.25, 2.5, 5, 10]
SMALL = (37).to_bytes(4, "big") + bytes(33)
PIECE = 65_536
TIMES = 10


def one_packet(length: int) -> bytes:
    return length.to_bytes(4, "big") + bytes(length - 4)


def small_packets(length: int) -> bytes:
    return SMALL * (length // len(SMALL))


def time_of(folder: pathlib.Path, piece: int, times: int, packets: int) -> float:
    command = [program("frame_tables"), "stream", str(piece), str(times)]
    return best_time(command, folder, f"stream: {times * packets} packets\n".encode())


def times(folder: pathlib.Path, stream_of, piece: int, rate_of):
    for mebibytes in MEBIBYTES:
        stream = stream_of(int(mebibytes * 2**20))
        (folder / "stream").write_bytes(stream)
        packets = len(stream) // int.from_bytes(stream[:4], "big")
        length = piece or len(stream)
        seconds = (time_of(folder, length, TIMES, packets) - time_of(folder, length, 0, packets)) / TIMES
        yield f"{mebibytes:5} MiB", seconds, rate_of(seconds, len(stream), packets)


def byte_rate(seconds: float, length: int, _packets: int) -> str:
    return f"  {seconds / length * 1e9:.1f} ns a byte, {length / 2**20 / seconds:.0f} MiB/s"


def packet_rate(seconds: float, _length: int, packets: int) -> str:
    return f"  {packets / seconds / 1e6:.1f} million packets a second"


def print_group(title: str, stream_of, piece: int, rate_of) -> None:
    print(title)
    with tempfile.TemporaryDirectory() as name:
        print_rows(times(pathlib.Path(name), stream_of, piece, rate_of))


print_group("one packet, byte by byte", one_packet, 1, byte_rate)
print_group("one packet, in pieces of 64 KiB", one_packet, PIECE, byte_rate)
print_group("packets of 37 bytes, in one piece", small_packets, 0, packet_rate)
print_group("packets of 37 bytes, in pieces of 64 KiB", small_packets, PIECE, packet_rate)
