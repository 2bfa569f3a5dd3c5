"""How values are written: the rules of docs/PROTOCOL.md, "Writing" and "Packets", written anew.

It shares nothing with the crates.
"""

from .body_reader import WIDTHS, Wire
from .tables import Map, Struct, Vector

LONGEST = 10_485_760


def head(tag: int, wire: Wire) -> bytes:
    return bytes([16 * tag + wire]) if tag < 15 else bytes([240 + wire, tag])


def number(tag: int, of: int) -> bytes:
    """A number in the least width that holds it."""
    least = 0 if of == 0 else next(width for width in (1, 2, 4, 8) if -(2 ** (8 * width - 1)) <= of < 2 ** (8 * width - 1))
    wire = next(wire for wire in WIDTHS if WIDTHS[wire] == least)
    return head(tag, wire) + of.to_bytes(least, "big", signed=True)


def text(tag: int, of: bytes) -> bytes:
    if len(of) < 256:
        return head(tag, Wire.STRING1) + bytes([len(of)]) + of
    return head(tag, Wire.STRING4) + len(of).to_bytes(4, "big") + of


def field(tag: int, kind, value) -> bytes:
    match kind:
        case "string":
            return text(tag, value)
        case Vector("byte"):
            return head(tag, Wire.SIMPLE) + head(0, Wire.INT1) + number(0, len(value)) + value
        case Vector(of):
            return head(tag, Wire.LIST) + number(0, len(value)) + b"".join(field(0, of, element) for element in value)
        case Map(key, to):
            entries = (field(0, key, pair[0]) + field(1, to, pair[1]) for pair in sorted(value))
            return head(tag, Wire.MAP) + number(0, len(value)) + b"".join(entries)
        case Struct(members):
            return head(tag, Wire.STRUCT) + body(members, value) + head(0, Wire.END)
    return number(tag, int(value))


def body(members: list, values: list) -> bytes:
    """The fields of members, in the order of their tags."""
    return b"".join(field(member.tag, member.type, value) for member, value in zip(members, values))


def framed(of: bytes) -> bytes:
    """A body with its length before it, which counts itself."""
    return (len(of) + 4).to_bytes(4, "big") + of
