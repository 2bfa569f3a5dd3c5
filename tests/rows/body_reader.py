"""What bytes say under members: the rules of docs/PROTOCOL.md, from "Fields" to "Reading members", written anew.

It shares nothing with the crates. All bytes are read as fields first, and these under the members after.
"""

from enum import IntEnum

from .tables import Enum, Map, Struct, Vector, range_of

Wire = IntEnum("Wire", "INT1 INT2 INT4 INT8 FLOAT DOUBLE STRING1 STRING4 MAP LIST STRUCT END ZERO SIMPLE", start=0)
Reason = IntEnum("Reason", "SHORT BAD_TYPE BAD_SIZE BAD_TAG ORDER DEPTH", start=1)
# In how many bytes a number stands.
WIDTHS = {Wire.ZERO: 0, Wire.INT1: 1, Wire.INT2: 2, Wire.INT4: 4, Wire.INT8: 8}
SIZES = {Wire.ZERO, Wire.INT1, Wire.INT2, Wire.INT4}
FIELDS = set(Wire) - {Wire.END}
NESTED = {Wire.MAP, Wire.LIST, Wire.STRUCT}
MAX_DEPTH = 64
# In how many bytes at most a number of a type stands.
WIDEST = {
    "bool": 1,
    "byte": 1,
    "short": 2,
    "unsigned byte": 2,
    "int": 4,
    "unsigned short": 4,
    "long": 8,
    "unsigned int": 8,
}


class Malformed(Exception):
    """Bytes are no body: the reason and the offset."""


class Refused(Exception):
    """A body does not fit the members: what is wrong, and the path to it."""


class Body:
    """Reads the fields of a body."""

    def __init__(self, data: bytes):
        self.data = data
        self.at = 0

    def take(self, count: int) -> bytes:
        if count > len(self.data) - self.at:
            raise Malformed(Reason.SHORT, len(self.data))
        self.at += count
        return self.data[self.at - count : self.at]

    def head(self, kinds, tags, wrong: Reason, depth: int = 0) -> tuple:
        """A head whose type is one of `kinds` and whose tag is one of `tags`, or `wrong` is the reason."""
        start = self.at
        tag, kind = divmod(self.take(1)[0], 16)
        if kind not in kinds:
            raise Malformed(Reason.BAD_TYPE, start)
        if kind == Wire.END:
            tags, wrong = [0], Reason.BAD_TAG
        is_long = tag == 15
        # Where no tag is left, the first byte of a long head is wrong too.
        if not tags or not is_long and tag not in tags:
            raise Malformed(wrong, start)
        if kind in NESTED and depth == MAX_DEPTH:
            raise Malformed(Reason.DEPTH, start)
        if is_long:
            tag = self.take(1)[0]
            if tag not in tags:
                raise Malformed(wrong, self.at - 1)
        return tag, Wire(kind)

    def number(self, kind: Wire) -> int:
        return int.from_bytes(self.take(WIDTHS[kind]), "big", signed=True)

    def size(self) -> int:
        _, kind = self.head(SIZES, [0], Reason.BAD_TAG)
        # The first byte shows that a size is negative.
        if kind != Wire.ZERO and self.data[self.at : self.at + 1] >= b"\x80":
            raise Malformed(Reason.BAD_SIZE, self.at)
        return self.number(kind)

    def contents(self, kind: Wire, depth: int):
        """What stands after a head inside so many lists, maps and structs."""
        match kind:
            case Wire.FLOAT:
                return self.take(4)
            case Wire.DOUBLE:
                return self.take(8)
            case Wire.STRING1 | Wire.STRING4:
                return self.take(int.from_bytes(self.take(1 if kind == Wire.STRING1 else 4), "big"))
            case Wire.MAP:
                return [(self.inner(0, depth), self.inner(1, depth)) for _ in range(self.size())]
            case Wire.LIST:
                return [self.inner(0, depth) for _ in range(self.size())]
            case Wire.STRUCT:
                return self.fields(depth + 1)
            case Wire.SIMPLE:
                self.head({Wire.INT1}, [0], Reason.BAD_TAG)
                return self.take(self.size())
        return self.number(kind)

    def inner(self, tag: int, depth: int) -> tuple:
        """An element, a key or a map's value: its type and its contents."""
        _, kind = self.head(FIELDS, [tag], Reason.BAD_TAG, depth + 1)
        return kind, self.contents(kind, depth + 1)

    def fields(self, depth: int = 0) -> dict:
        """The types and contents of the fields of a struct, or at depth 0 of the body, by their tags."""
        found, last = {}, -1
        while depth or self.at < len(self.data):
            kinds = FIELDS | {Wire.END} if depth else FIELDS
            tag, kind = self.head(kinds, range(last + 1, 256), Reason.ORDER, depth)
            if kind == Wire.END:
                break
            found[tag] = kind, self.contents(kind, depth)
            last = tag
        return found


def under(step: int, read, *of):
    """What `read` gives; a refusal has the step before its path."""
    try:
        return read(*of)
    except Refused as refused:
        why, path = refused.args
        raise Refused(why, [step, *path]) from None


def widest_of(kind) -> int:
    return WIDEST["int"] if isinstance(kind, Enum) else WIDEST[kind]


def number_of(kind, wire: Wire, number):
    if wire not in WIDTHS or WIDTHS[wire] > widest_of(kind):
        raise Refused("wrong type", [])
    if kind == "bool":
        return number != 0
    least, greatest = range_of(kind)
    if not least <= number <= greatest:
        raise Refused("out of range", [])
    return number


def elements_of(kind, elements: list) -> list:
    return [under(index, value_of, kind, element) for index, element in enumerate(elements)]


def entries_of(kind: Map, entries: list) -> list:
    pairs = {}
    for index, (key_field, value_field) in enumerate(entries):
        key = under(2 * index, value_of, kind.key, key_field)
        if key in pairs:
            raise Refused("twice", [2 * index])
        pairs[key] = under(2 * index + 1, value_of, kind.to, value_field)
    return sorted(pairs.items())


def members_of(members: list, fields: dict) -> list:
    values = []
    for member in members:
        if member.tag in fields:
            values.append(under(member.tag, value_of, member.type, fields[member.tag]))
        elif member.require:
            raise Refused("missing", [member.tag])
        else:
            values.append(member.default)
    return values


def value_of(kind, field: tuple):
    """The value of a type that a field's type and contents say."""
    wire, contents = field
    match kind:
        case "string" if wire in (Wire.STRING1, Wire.STRING4):
            return contents
        case Vector("byte") if wire == Wire.SIMPLE:
            return contents
        case Vector("byte") if wire == Wire.LIST:
            return bytes(number % 256 for number in elements_of("byte", contents))
        case Vector(of) if wire == Wire.LIST:
            return elements_of(of, contents)
        case Map() if wire == Wire.MAP:
            return entries_of(kind, contents)
        case Struct(members) if wire == Wire.STRUCT:
            return members_of(members, contents)
        case "string" | Vector() | Map() | Struct():
            raise Refused("wrong type", [])
    return number_of(kind, wire, contents)
