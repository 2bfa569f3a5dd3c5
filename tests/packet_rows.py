#!/usr/bin/env python3
"""Writes tables of packets: what they say as requests and responses, and the frames that are written of these.

    python3 tests/packet_rows.py

writes `requests.rows`, `responses.rows` and `frames.rows` of `crates/packet_tables/data` and their parts of that crate's
`stdout`; where nothing has changed, `git diff` shows nothing after it. A packet is read by rows/body_reader.py and written
by rows/body_writer.py, which share nothing with the crates; those of docs/PROTOCOL.md and of examples/first.plan stand
here byte by byte.
"""

from typing import NamedTuple

from rows.body_maker import NUMBERS, fits, head, number, text, under_tag
from rows.body_reader import FIELDS, Malformed, Refused, Wire
from rows.body_writer import LONGEST, framed
from rows.packets import REQUEST, RESPONSE, frame_of, frame_shown, read, refusal, values_of
from rows.tables import Struct, Table

# The packets of the first call of examples/first.plan (docs/PROTOCOL.md, "Packets"), and the same with an entry in a map.
FIRST = {
    "request": [
        "0000002510012C3C40015605412E422E4366036164647D00000410022003810BB8980CA80C",
        "0000002C10012C3C40015605412E422E4366036164647D00000410022003810BB898000106016B160176A80C",
    ],
    "response": [
        "0000001510012C30014C5C6D0000020005780C8600",
        "0000001C10012C30014C5C6D000002000578000106016B1601768600",
    ],
}

def simple(tag: int, digits: str) -> str:
    """A simple list of bytes."""
    return head(tag, Wire.SIMPLE) + "00" + number(0, len(digits) // 2) + digits


def texts(tag: int, *entries: str) -> str:
    """A map of texts, each entry a key and its value in digits."""
    return head(tag, Wire.MAP) + number(0, len(entries)) + "".join(entries)


def entry(key: str, value: str) -> str:
    return text(0, key) + text(1, value)


REQUEST_FIELDS = {
    1: number(1, 1),
    2: number(2, 0),
    3: number(3, 0),
    4: number(4, 1),
    5: text(5, "A.B.C"),
    6: text(6, "add"),
    7: simple(7, "10022003"),
    8: number(8, 3000),
    9: texts(9),
    10: texts(10),
}
RESPONSE_FIELDS = {
    1: number(1, 1),
    2: number(2, 0),
    3: number(3, 1),
    4: number(4, 0),
    5: number(5, 0),
    6: simple(6, "0005"),
    7: texts(7),
    8: text(8, ""),
}


def packet(fields: dict) -> str:
    return framed(bytes.fromhex("".join(fields[tag] for tag in sorted(fields)))).hex().upper()


def changed(fields: dict, *changes: dict) -> list:
    """A packet for each of some changes: other fields under their tags, or none."""
    return [packet({tag: of for tag, of in {**fields, **change}.items() if of is not None}) for change in changes]


def long_head(field: str) -> str:
    """The field with its tag in a byte of its own."""
    return f"F{field[1]}{int(field[0], 16):02X}{field[2:]}"


def number_fields(tag: int, widest: int) -> list:
    """Numbers of each width under a tag, in the least width and in wider ones, at the ends of each."""
    ends = [0, 1, -1, *(edge for bits in (7, 15, 31) for edge in (2**bits - 1, -(2**bits), 2**bits, -(2**bits) - 1))]
    return [{tag: number(tag, of, wire)} for wire in NUMBERS for of in ends if fits(of, wire) and -(2**widest) - 1 <= of <= 2**widest]


# ---- what packets say


def of_other_types(side) -> list:
    """Each member in each type that it does not read."""
    wrong = [(tag, wire) for tag in side.numbers for wire in FIELDS - set(NUMBERS)]
    wrong += [(tag, wire) for tag in side.texts for wire in FIELDS - {Wire.STRING1, Wire.STRING4}]
    wrong += [(side.blob, wire) for wire in FIELDS - {Wire.SIMPLE, Wire.LIST}]
    wrong += [(tag, wire) for tag in side.maps for wire in FIELDS - {Wire.MAP}]
    return changed(side.fields, *({tag: under_tag(tag, wire)} for tag, wire in sorted(wrong)))


def of_maps(fields: dict, tag: int) -> list:
    """Entries out of order, equal keys, other types of keys and values, and sizes that are wrong."""
    one, two = entry("a", "1"), entry("b", "2")
    return changed(
        fields,
        {tag: texts(tag, two, one)},
        {tag: texts(tag, entry("", ""), one, entry("ab", "3"), two)},
        {tag: texts(tag, one, two, entry("a", "3"))},
        {tag: texts(tag, one, one)},
        {tag: texts(tag, one, text(0, "a") + number(1, 5))},
        {tag: texts(tag, text(0, "a") + number(1, 5))},
        {tag: texts(tag, number(0, 5) + text(1, "a"))},
        {tag: texts(tag, text(1, "a") + text(1, "b"))},
        {tag: texts(tag, text(0, "a") + text(0, "b"))},
        {tag: head(tag, Wire.MAP) + "00FF" + one},
        {tag: head(tag, Wire.MAP) + "0002" + one},
        {tag: head(tag, Wire.MAP) + "0200000001" + one},
        {tag: texts(tag, "070000000161" + "1C")},
        {tag: texts(tag, "070000000161" + "170000000131")},
        {tag: texts(tag, "0601FF" + "16027C22")},
        {tag: texts(tag, entry("k", "v" * 65))},
    )


def of_bytes(fields: dict, tag: int) -> list:
    """Bytes as a list, of a longer size, and of sizes that are wrong."""
    simple_head = head(tag, Wire.SIMPLE)
    list_head = head(tag, Wire.LIST)
    return changed(
        fields,
        {tag: simple(tag, "")},
        {tag: simple(tag, "00FF80")},
        {tag: simple_head + "00" + "010002" + "1002"},
        {tag: simple_head + "00" + "0200000002" + "1002"},
        {tag: simple_head + "00" + "00FF" + "1002"},
        {tag: simple_head + "00" + "01FFFF" + "1002"},
        {tag: simple_head + "00" + "030000000000000002" + "1002"},
        {tag: simple_head + "01" + "0002" + "1002"},
        {tag: simple_head + "0C"},
        {tag: simple_head + "F000" + "F00002" + "1002"},
        {tag: simple_head + "00" + "027FFFFFFF" + "1002"},
        {tag: list_head + "0002" + "0010" + "00FF"},
        {tag: list_head + "0002" + "0C" + "0080"},
        {tag: list_head + "0001" + "010002"},
        {tag: list_head + "0001" + "0600"},
        {tag: list_head + "00FF"},
    )


def of_texts(fields: dict, tag: int) -> list:
    """A text that is none in UTF-8, an empty one, longer forms, and lengths that are wrong."""
    return changed(
        fields,
        {tag: head(tag, Wire.STRING1) + "02FFFE"},
        {tag: head(tag, Wire.STRING1) + "03E282AC"},
        {tag: head(tag, Wire.STRING1) + "0122"},
        {tag: head(tag, Wire.STRING1) + "00"},
        {tag: head(tag, Wire.STRING4) + "00000000"},
        {tag: head(tag, Wire.STRING4) + "00000003616263"},
        {tag: head(tag, Wire.STRING1) + "41" + "61" * 65},
        {tag: head(tag, Wire.STRING4) + "00000201" + "61" * 513},
        {tag: head(tag, Wire.STRING4) + "FFFFFFFF6162"},
    )


def cut_off(fields: dict) -> list:
    """The fields without some of their last bytes."""
    whole = bytes.fromhex(packet(fields))[4:]
    return [framed(whole[:length]).hex().upper() for length in range(1, len(whole))]


def nested(tag: int, depth: int) -> str:
    """Structs inside one another, so many of them, in a field that is no member."""
    return head(tag, Wire.STRUCT) + "0A" * (depth - 1) + "0B" * depth


def with_more(fields: dict, last: int) -> list:
    """Fields beside the members, before and between them and after the last."""
    more = last + 1 if last + 1 < 15 else 15
    return changed(
        fields,
        {0: under_tag(0, Wire.INT1)},
        {more: under_tag(more, Wire.STRUCT)},
        {more: under_tag(more, Wire.DOUBLE), 200: under_tag(200, Wire.MAP)},
        {200: under_tag(200, Wire.STRING4), 255: under_tag(255, Wire.SIMPLE)},
        {0: under_tag(0, Wire.FLOAT), more: under_tag(more, Wire.LIST), 200: under_tag(200, Wire.ZERO)},
        {200: nested(200, 64)},
        {200: nested(200, 65)},
        {200: "FA" "C8" + "0A" * 10},
        {200: "F9" "C8" + "0001" + nested(0, 63)},
        {200: "F9" "C8" + "0001" + nested(0, 64)},
    )


def out_of_order(fields: dict) -> list:
    """Neighbours that have changed places, and each member twice."""
    tags = sorted(fields)
    orders = [[*tags[:k], tags[k + 1], tags[k], *tags[k + 2 :]] for k in range(len(tags) - 1)]
    orders += [[*tags[: k + 1], *tags[k:]] for k in range(len(tags))]
    return [framed(bytes.fromhex("".join(fields[tag] for tag in order))).hex().upper() for order in orders]


def kinds_and_versions(fields: dict) -> list:
    kinds = [{2: number(2, kind)} for kind in (0, 1, 2, -1, 127, -128)]
    versions = [{1: number(1, version)} for version in (0, 2, 3, -1, 32767, -32768)]
    return changed(fields, *kinds, *versions, {2: number(2, 128)}, {1: number(1, 32768)})


class Side(NamedTuple):
    """Requests or responses: the word of their rows, their members, the fields of one, and its tags by their types."""

    word: str
    struct: Struct
    fields: dict
    numbers: dict
    texts: list
    blob: int
    maps: list


# Of a number also how many bits beside its sign a member has.
REQUESTS = Side("request", REQUEST, REQUEST_FIELDS, {1: 15, 2: 7, 3: 31, 4: 31, 8: 31}, [5, 6], 7, [9, 10])
RESPONSES = Side("response", RESPONSE, RESPONSE_FIELDS, {1: 15, 2: 7, 3: 31, 4: 31, 5: 31}, [8], 6, [7])


def groups_of(side: Side):
    fields, last = side.fields, max(side.fields)
    yield "Without one of its members.", [packet(fields), *changed(fields, *({tag: None} for tag in fields))]
    required = {member.tag: fields[member.tag] for member in side.struct.members if member.require}
    yield "Without any that may be left out, and with one of them.", [
        packet(required),
        *(packet({**required, tag: of}) for tag, of in fields.items() if tag not in required),
    ]
    yield "Types and versions.", kinds_and_versions(fields)
    yield "Numbers in each width, at its ends.", [
        digits for tag, bits in side.numbers.items() for digits in changed(fields, *number_fields(tag, bits))
    ]
    yield "Fields of other types.", of_other_types(side)
    yield "Texts.", [digits for tag in side.texts for digits in of_texts(fields, tag)]
    yield "Bytes.", of_bytes(fields, side.blob)
    yield "Maps.", [digits for tag in side.maps for digits in of_maps(fields, tag)]
    yield "Heads in the long form: of one member, and of all.", [
        *changed(fields, *({tag: long_head(of)} for tag, of in fields.items())),
        packet({tag: long_head(of) for tag, of in fields.items()}),
    ]
    yield "Fields that are no members.", with_more(fields, last)
    yield "Out of order, and twice.", out_of_order(fields)
    yield "Cut off.", cut_off({**fields, last - 1: texts(last - 1, entry("k", "v"))})


def write_reads(side: Side, name: str) -> None:
    title = f'Packets that are read as {side.word}s (docs/PROTOCOL.md, "Packets"): `{side.word} HEX`.'
    table = Table(name, [title, "Made by tests/packet_rows.py."], "packet_tables")
    table.group("Those of docs/PROTOCOL.md and examples/first.plan.", rows_of(side, FIRST[side.word]))
    for comment, packets in groups_of(side):
        table.group(comment, rows_of(side, packets))
    table.write()


def rows_of(side: Side, packets: list) -> list:
    return [(f"{side.word} {digits}", read(side.struct, bytes.fromhex(digits))) for digits in packets]


# ---- frames that are written


def with_values(values: list, places: dict) -> list:
    return [places.get(place, value) for place, value in enumerate(values)]


def body_of(word: str, own: bytes) -> bytes:
    return own if word == "own" else b"\7" * int(word)


def written_request(number: int, timeout: int, body: str, digits: str) -> tuple:
    """A row of a request under this id and with this timeout, and its frame, written and prepared."""
    row = f"write {number} {timeout} {body} {digits}"
    try:
        values = values_of(REQUEST, bytes.fromhex(digits))
    except (Malformed, Refused) as fault:
        return row, refusal(fault)
    values = with_values(values, {6: body_of(body, values[6])})
    frame = frame_of(REQUEST, with_values(values, {3: number, 7: timeout}))
    # It is prepared with the longest of both.
    longest = frame_of(REQUEST, with_values(values, {3: 2**31 - 1, 7: 2**31 - 1}))
    prepared = "the same" if len(longest) <= LONGEST else frame_shown(longest)
    return row, f"{frame_shown(frame)}; prepared {prepared}"


def written_response(body: str, digits: str) -> tuple:
    row = f"reply {body} {digits}"
    try:
        values = values_of(RESPONSE, bytes.fromhex(digits))
    except (Malformed, Refused) as fault:
        return row, refusal(fault)
    return row, frame_shown(frame_of(RESPONSE, with_values(values, {5: body_of(body, values[5])})))


IDS = [0, 1, 127, 128, 255, 256, 32_767, 32_768, 65_536, 2**31 - 1, -1, -128, -129, -32_768, -32_769, -(2**31)]
TIMEOUTS = [0, 127, 128, 32_767, 32_768, 2**31 - 1, -128, -129, -32_768, -32_769, -(2**31)]


def write_frames() -> None:
    titles = [
        'Frames that are written (docs/PROTOCOL.md, "Packets"): `write ID TIMEOUT BODY HEX` of the request in a packet, under this id',
        "and with this timeout, and prepared before these are known; `reply BODY HEX` of the response in a packet. BODY is `own`, or the",
        "length of a body in its place. Made by tests/packet_rows.py.",
    ]
    table = Table("frames.rows", titles, "packet_tables")
    table.group("Those of docs/PROTOCOL.md and examples/first.plan.", first_frames())
    table.group(
        "Ids and timeouts at the ends of each width.",
        [written_request(number, timeout, "own", FIRST["request"][0]) for number in IDS for timeout in TIMEOUTS],
    )
    table.group("Requests that stand in other forms.", other_requests())
    table.group("Responses that stand in other forms.", other_responses())
    table.group("Bodies of many lengths.", long_bodies())
    table.group("Frames at the limit, and one byte longer.", at_the_limit())
    table.write()


def first_frames() -> list:
    rows = [written_request(1, 3000, "own", digits) for digits in FIRST["request"]]
    rows += [written_response("own", digits) for digits in FIRST["response"]]
    for digits, (_, outcome) in zip([*FIRST["request"], *FIRST["response"]], rows):
        assert outcome.split(";")[0] == digits, digits
    return rows


def other_requests() -> list:
    fields = REQUEST_FIELDS
    packets = [packet({tag: long_head(of) for tag, of in fields.items()})]
    packets += changed(fields, {2: None, 3: None, 8: None, 9: None, 10: None}, {4: None}, {5: number(5, 1)})
    packets += changed(fields, {2: number(2, 1)}, {2: number(2, -1)}, {1: number(1, 2)}, {3: number(3, -129)})
    packets += [*of_texts(fields, 5), *of_bytes(fields, 7), *of_maps(fields, 9), *of_maps(fields, 10)]
    packets += changed(fields, {9: texts(9, *(entry(f"k{k}", "v" * k) for k in reversed(range(20))))})
    return [written_request(7, 60, "own", digits) for digits in packets]


def other_responses() -> list:
    fields = RESPONSE_FIELDS
    packets = [packet({tag: long_head(of) for tag, of in fields.items()})]
    packets += changed(fields, {2: None, 4: None, 5: None, 7: None, 8: None}, {3: None}, {6: number(6, 1)})
    packets += changed(fields, *({5: number(5, of)} for of in (-1, -99, 127, 128, 2**31 - 1, -(2**31))))
    packets += [*of_texts(fields, 8), *of_bytes(fields, 6), *of_maps(fields, 7)]
    return [written_response("own", digits) for digits in packets]


def long_bodies() -> list:
    lengths = [0, 1, 127, 128, 255, 256, 32_767, 32_768, 65_536, 1 << 20]
    rows = [written_request(1, 3000, str(length), FIRST["request"][0]) for length in lengths]
    return rows + [written_response(str(length), FIRST["response"][0]) for length in lengths]


def at_the_limit() -> list:
    """The longest body beside the fields of the first packets, under ids and timeouts of one byte to five, and one byte more."""
    rows = [written_response(str(length), FIRST["response"][0]) for length in (10_485_738, 10_485_739, 10_485_760)]
    assert [outcome for _, outcome in rows] == ["10485760 bytes", "too long 10485761", "too long 10485782"]
    for number, timeout in ((1, 3000), (2**31 - 1, 2**31 - 1), (0, 0)):
        beside = int(written_request(number, timeout, "1048576", FIRST["request"][0])[1].split(" ")[0]) - (1 << 20)
        lengths = [LONGEST - beside, LONGEST - beside + 1]
        rows += [written_request(number, timeout, str(length), FIRST["request"][0]) for length in lengths]
    return rows


if __name__ == "__main__":
    write_reads(REQUESTS, "requests.rows")
    write_reads(RESPONSES, "responses.rows")
    write_frames()
