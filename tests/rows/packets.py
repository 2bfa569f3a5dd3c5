"""Requests and responses (docs/PROTOCOL.md, "Packets"): their members, their frames and how the rows print them."""

from .body_reader import Body, Malformed, Refused, members_of
from .body_writer import LONGEST, body, framed
from .tables import File, Map, Vector, file_of

REQUEST = File(
    file_of(
        "1 require short iVersion;2 optional byte cPacketType;3 optional int iMessageType;4 require int iRequestId;"
        "5 require string sServantName;6 require string sFuncName;7 require vector<byte> sBuffer;8 optional int iTimeout;"
        "9 optional map<string,string> context;10 optional map<string,string> status;"
    )
).last_struct()
RESPONSE = File(
    file_of(
        "1 require short iVersion;2 optional byte cPacketType;3 require int iRequestId;4 optional int iMessageType;"
        "5 optional int iRet;6 require vector<byte> sBuffer;7 optional map<string,string> status;"
        "8 optional string sResultDesc;"
    )
).last_struct()
WORDS = {"wrong type": "wrongtype", "out of range": "range", "twice": "twicekey"}
SHOWN = 512


def values_of(struct, packet: bytes) -> list:
    """The values of the members in a packet; else `Malformed` or `Refused`."""
    return members_of(struct.members, Body(packet[4:]).fields())


def refusal(fault: Exception) -> str:
    """Why a packet was refused (docs/SCRIPTS.md, "Refusals")."""
    if isinstance(fault, Malformed):
        reason, at = fault.args
        return f"malformed {reason:d} at {at}"
    why, path = fault.args
    steps = "/".join(map(str, path))
    return f"missing {steps}" if why == "missing" else f"mismatch {steps} {WORDS[why]}"


def bytes_shown(some: bytes) -> str:
    return (some.hex().upper() or "-") if len(some) <= SHOWN else f"{len(some)} bytes"


def text_shown(some: bytes) -> str:
    is_plain = len(some) <= 64 and all(0x20 <= byte <= 0x7E and byte != ord('"') for byte in some)
    return f'"{some.decode()}"' if is_plain else "#" + bytes_shown(some)


def shown(kind, value) -> str:
    match kind:
        case "string":
            return text_shown(value)
        case Vector("byte"):
            return bytes_shown(value)
        case Map():
            return "{" + ",".join(f"{text_shown(key)}={text_shown(of)}" for key, of in value) + "}"
    return str(value)


def fields_shown(struct, values: list) -> str:
    """The fields in the order of their tags."""
    return " ".join(shown(member.type, value) for member, value in zip(struct.members, values))


def read(struct, packet: bytes) -> str:
    """What a packet says, or why it is refused."""
    try:
        return fields_shown(struct, values_of(struct, packet))
    except (Malformed, Refused) as fault:
        return refusal(fault)


def frame_of(struct, values: list) -> bytes:
    return framed(body(struct.members, values))


def frame_shown(frame: bytes) -> str:
    return f"too long {len(frame)}" if len(frame) > LONGEST else bytes_shown(frame)
