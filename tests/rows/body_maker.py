"""Bodies in hexadecimal digits: pieces of bodies by hand, and spellings of random values."""

from .body_reader import FIELDS, WIDTHS, Wire, widest_of
from .tables import Enum, Map, Struct, Vector, range_of

# A field of each type under tag 0.
FIELD_OF = {
    Wire.INT1: "0005",
    Wire.INT2: "010005",
    Wire.INT4: "0200000005",
    Wire.INT8: "030000000000000005",
    Wire.FLOAT: "0440A00000",
    Wire.DOUBLE: "054014000000000000",
    Wire.STRING1: "060161",
    Wire.STRING4: "070000000161",
    Wire.MAP: "080C",
    Wire.LIST: "090C",
    Wire.STRUCT: "0A0B",
    Wire.ZERO: "0C",
    Wire.SIMPLE: "0D000C",
}
NUMBERS = Wire.INT1, Wire.INT2, Wire.INT4, Wire.INT8, Wire.ZERO
TEXTS = [b"", b"a", b"b", b"ab", b"B", b"~", b"\xc3\xa9", b"\xff"]


# ---- by hand


def head(tag: int, wire: Wire) -> str:
    return f"{tag:X}{wire:X}" if tag < 15 else f"F{wire:X}{tag:02X}"


def under_tag(tag: int, wire: Wire) -> str:
    """The field of a type, under another tag."""
    return head(tag, wire) + FIELD_OF[wire][2:]


def others(*wires: Wire) -> list:
    """A field of each type but these."""
    return [field for wire, field in FIELD_OF.items() if wire not in wires]


def fits(number: int, wire: Wire) -> bool:
    half = 2 ** (8 * WIDTHS[wire]) // 2
    return -half <= number < max(half, 1)


def number(tag: int, of: int, wire: Wire | None = None) -> str:
    """A number in the shortest type, or in the one that is given."""
    wire = next(wire for wire in WIDTHS if fits(of, wire)) if wire is None else wire
    return head(tag, wire) + of.to_bytes(WIDTHS[wire], "big", signed=True).hex()


def text(tag: int, of: str) -> str:
    return head(tag, Wire.STRING1) + f"{len(of):02X}" + of.encode().hex()


def items(tag: int, *elements: str) -> str:
    return head(tag, Wire.LIST) + number(0, len(elements)) + "".join(elements)


def pairs(tag: int, *fields: str) -> str:
    """A map of keys and values by turns."""
    return head(tag, Wire.MAP) + number(0, len(fields) // 2) + "".join(fields)


def struct(tag: int, *fields: str) -> str:
    return head(tag, Wire.STRUCT) + "".join(fields) + "0B"


def numbers_of(kind) -> list:
    """Fields of numbers: in each width that the type reads those next to 0, to the width's bounds and to the type's,
    and in each wider one 0 and the greatest number."""
    least, greatest = (0, 1) if kind == "bool" else range_of(kind)
    near = {-1, 0, 1, least - 1, least, greatest, greatest + 1}
    fields = ["0C"]
    for wire in (Wire.INT1, Wire.INT2, Wire.INT4, Wire.INT8):
        half = 2 ** (8 * WIDTHS[wire] - 1)
        is_read = WIDTHS[wire] <= widest_of(kind)
        tried = near | {-half, half - 1} if is_read else {0, half - 1}
        fields += [number(0, of, wire) for of in sorted(tried) if fits(of, wire)]
    return fields


# ---- at random


def some_value(rng, kind):
    match kind:
        case "bool":
            return rng.choice([False, True])
        case "string":
            return rng.choice(TEXTS)
        case Vector("byte"):
            return rng.randbytes(rng.randrange(4))
        case Vector(of):
            return [some_value(rng, of) for _ in range(rng.randrange(4))]
        case Map(key, to):
            return [(some_value(rng, key), some_value(rng, to)) for _ in range(rng.randrange(4))]
        case Struct(members):
            return [some_value(rng, member.type) for member in members]
        case Enum(numbers) if rng.random() < 0.7:
            return rng.choice(list(numbers.values()))
    least, greatest = range_of(kind)
    return rng.choice([least, greatest, rng.randint(least, greatest), rng.randint(0, 9)])


def some_head(rng, tag: int, wire: Wire) -> str:
    return f"F{wire:X}{tag:02X}" if rng.random() < 0.15 else head(tag, wire)


def some_number(rng, tag: int, of: int, widest: int) -> str:
    """A number in a width that holds it."""
    wire = rng.choice([wire for wire in WIDTHS if WIDTHS[wire] <= widest and fits(of, wire)])
    return some_head(rng, tag, wire) + number(0, of, wire)[2:]


def some_list(rng, tag: int, wire: Wire, fields: list) -> str:
    return some_head(rng, tag, wire) + some_number(rng, 0, len(fields), 4) + "".join(fields)


def some_bytes(rng, tag: int, value: bytes) -> str:
    """Bytes as a simple list, or as a list of bytes."""
    if rng.random() < 0.5:
        size = some_number(rng, 0, len(value), 4)
        return some_head(rng, tag, Wire.SIMPLE) + some_head(rng, 0, Wire.INT1) + size + value.hex()
    numbers = [byte - 256 if byte > 127 else byte for byte in value]
    return some_list(rng, tag, Wire.LIST, [some_number(rng, 0, of, 1) for of in numbers])


def some_field(rng, tag: int, kind, value) -> str:
    """A spelling of a value: wide numbers, long heads, a map's entries in the order that they have."""
    match kind:
        case "string":
            wire, digits = rng.choice([(Wire.STRING1, 2), (Wire.STRING4, 8)])
            return some_head(rng, tag, wire) + f"{len(value):0{digits}X}" + value.hex()
        case Vector("byte"):
            return some_bytes(rng, tag, value)
        case Vector(of):
            return some_list(rng, tag, Wire.LIST, [some_field(rng, 0, of, element) for element in value])
        case Map(key, to):
            entries = [some_field(rng, 0, key, pair[0]) + some_field(rng, 1, to, pair[1]) for pair in value]
            return some_list(rng, tag, Wire.MAP, entries)
        case Struct(members):
            fields = some_fields(rng, members, value)
            return some_head(rng, tag, Wire.STRUCT) + fields + some_head(rng, 0, Wire.END)
    return some_number(rng, tag, int(value), widest_of(kind))


def some_fields(rng, members: list, values: list) -> str:
    """Fields of the members, without some optional ones, and with one of another tag."""
    fields = {}
    for member, value in zip(members, values):
        if member.require or rng.random() < 0.7:
            fields[member.tag] = some_field(rng, member.tag, member.type, value)
    if rng.random() < 0.3:
        tag = rng.randrange(20)
        fields.setdefault(tag, under_tag(tag, rng.choice(sorted(FIELDS))))
    return "".join(fields[tag] for tag in sorted(fields))


def changed(rng, data: bytes) -> bytes:
    """The bytes with one of them changed, put in or left out, or without those from one on."""
    at = rng.randrange(len(data))
    byte = bytes([rng.choice([rng.randrange(256), rng.randrange(16)])])
    before, after = data[:at], data[at + 1 :]
    return rng.choice([before + byte + after, before + byte + data[at:], before + after, before])
