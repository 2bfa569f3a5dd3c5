"""Two versions of a struct: the rules of docs/PROTOCOL.md, "Writing" and "Compatibility", written anew.

It shares nothing with the crates.
"""

from .body_maker import head, items, number, pairs, struct
from .body_reader import Wire
from .tables import Enum, Map, Struct, Vector, range_of

MISMATCH, MISSING = "mismatch", "missing"


# ---- writing


def spelled(tag: int, kind, value) -> str:
    """The one spelling of a value that is written."""
    match kind:
        case "string":
            wire, digits = (Wire.STRING1, 2) if len(value) < 256 else (Wire.STRING4, 8)
            return head(tag, wire) + f"{len(value):0{digits}X}" + value.hex()
        case Vector("byte"):
            return head(tag, Wire.SIMPLE) + head(0, Wire.INT1) + number(0, len(value)) + value.hex()
        case Vector(of):
            return items(tag, *(spelled(0, of, element) for element in value))
        case Map(key, to):
            return pairs(tag, *(spelled(*field) for pair in value for field in ((0, key, pair[0]), (1, to, pair[1]))))
        case Struct(members):
            return struct(tag, spelled_members(members, value))
    return number(tag, int(value))


def spelled_members(members: list, values: list) -> str:
    return "".join(spelled(member.tag, member.type, value) for member, value in zip(members, values))


# ---- compatibility: a reason is what is wrong and the path to it, and there is none where versions agree


def is_number(kind) -> bool:
    return isinstance(kind, Enum) or isinstance(kind, str) and kind != "string"


def numbers_of(kind) -> tuple:
    """The least and the greatest number that values of a type count as."""
    return (0, 1) if kind == "bool" else range_of(kind)


def numbers_taken(kind) -> tuple:
    return range_of("byte") if kind == "bool" else range_of(kind)


def under(step: int, reason):
    return reason and (reason[0], [step, *reason[1]])


def type_reason(old, new):
    match old, new:
        case "string", "string":
            return None
        case Vector("byte"), Vector(of) if of != "byte":
            return MISMATCH, []
        case Vector(), Vector():
            return under(0, type_reason(old.of, new.of))
        case Map(), Map():
            return under(0, type_reason(old.key, new.key)) or under(1, type_reason(old.to, new.to))
        case Struct(), Struct():
            return members_reason(old.members, new.members)
    if is_number(old) and is_number(new):
        (least, greatest), (least_taken, greatest_taken) = numbers_of(old), numbers_taken(new)
        if least_taken <= least and greatest <= greatest_taken:
            return None
    return MISMATCH, []


def member_reason(old: dict, member):
    if member.tag in old:
        return under(member.tag, type_reason(old[member.tag].type, member.type))
    return (MISSING, [member.tag]) if member.require else None


def members_reason(old: list, new: list):
    by_tag = {member.tag: member for member in old}
    return next(filter(None, (member_reason(by_tag, member) for member in new)), None)
