#!/usr/bin/env python3
"""Writes the table of what servants answer: rows `answer SERVANT FILE => RULES => REQUESTS`, and what each comes to.

    python3 tests/answer_rows.py

writes `answers.rows` of `crates/packet_tables/data` and its part of that crate's `stdout`; where nothing has changed,
`git diff` shows nothing after it. What is answered is told by `Servant` below from docs/PROTOCOL.md ("Return codes",
"Servants"), by the readers and the writer of rows/, which share nothing with the crates.
"""

import itertools
import re

from rows.body_reader import Body, Malformed, Refused, members_of
from rows.body_writer import LONGEST, body
from rows.packets import RESPONSE, fields_shown, frame_of
from rows.tables import RANGES, File, Table, default_of, range_of
from rows.value_reader import ValueText

NAME = "A.B.C"
SUCCESS, NOT_READ, TOO_LONG, NO_FUNCTION, NO_SERVANT, UNKNOWN = 0, -1, -2, -3, -4, -99


class Code(Exception):
    """A return code in place of values."""


class Servant:
    """What is answered to one request after another. A reply is a list of values, a code, or None of a silent servant."""

    def __init__(self, kind: str, file: str, rules: str):
        self.kind = kind
        self.functions = File(expanded(file)).last_interface().functions
        self.rules = dict(rule.split(" ", 1) for rule in rules.split("; ") if rule != "-")
        self.handled = 0

    def answer(self, request: str) -> str:
        """The fields of the response, or `none`."""
        version, kind, message, number, servant, func, digits = request.split(" ")
        try:
            reply = self.reply_to(int(version), servant, func, b"" if digits == "-" else bytes.fromhex(digits))
        except Code as code:
            reply = code.args[0]
        if int(kind) == 1 or reply is None:
            return "none"
        values = [1, 0, int(number), int(message), *self.code_and_body(func, reply), [], b""]
        if len(frame_of(RESPONSE, values)) > LONGEST:
            values[4:6] = TOO_LONG, b""
        return fields_shown(RESPONSE, values)

    def code_and_body(self, func: str, reply) -> tuple:
        return (reply, b"") if isinstance(reply, int) else (SUCCESS, body(self.functions[func].replied, reply))

    def reply_to(self, version: int, servant: str, func: str, arguments: bytes):
        if version != 1:
            raise Code(NOT_READ)
        if servant != NAME:
            raise Code(NO_SERVANT)
        if func == "tars_ping":
            raise Code(SUCCESS)
        if func not in self.functions:
            raise Code(NO_FUNCTION)
        try:
            values = members_of(self.functions[func].arguments, Body(arguments).fields())
        except (Malformed, Refused):
            raise Code(NOT_READ) from None
        self.handled += 1
        return self.counted(func) if "counter" in self.kind else self.by_rule(func, values)

    def counted(self, func: str):
        """The number of calls, where it is all that the function replies."""
        replied = [member.type for member in self.functions[func].replied]
        has_range = len(replied) == 1 and isinstance(replied[0], str) and replied[0] in RANGES or self.is_enum(replied)
        if not has_range or not range_of(replied[0])[0] <= self.handled <= range_of(replied[0])[1]:
            return UNKNOWN
        return [self.handled]

    @staticmethod
    def is_enum(replied: list) -> bool:
        return len(replied) == 1 and type(replied[0]).__name__ == "Enum"

    def by_rule(self, func: str, values: list):
        function = self.functions[func]
        word, _, rest = self.rules.get(func, "").partition(" ")
        outs = [default_of(member.type) for member in function.replied if member.tag > 0]
        arguments = {member.name: value for member, value in zip(function.arguments, values)}
        match word:
            case "silent":
                return None
            case "code":
                return int(rest)
            case "value":
                returned = ValueText(rest.encode()).value(function.ret)
            case "echo":
                returned = arguments[rest]
            case "add":
                returned = sum(arguments[name] for name in rest.split(" "))
                least, greatest = range_of(function.ret)
                if not least <= returned <= greatest:
                    return UNKNOWN
            case _:
                return ([] if function.ret is None else [default_of(function.ret)]) + outs
        return [returned, *outs]


def expanded(text: str) -> str:
    """What a row's text stands for: `~N(PIECE)` is so many times the piece."""
    return re.sub(r"~(\d+)\(([^)]*)\)", lambda found: int(found[1]) * found[2], text)


# ---- rows


def row(kind: str, file: str, rules: str, *requests: str) -> tuple:
    """A row, and what it comes to. Of a table it is told how many calls it handled."""
    servant = Servant(kind, file, rules)
    told = [servant.answer(request) for request in requests]
    if kind == "table":
        told.append(f"handled {servant.handled}")
    return f"answer {kind} {file} => {rules} => {'; '.join(requests)}", "; ".join(told)


def file_of(functions: str, declared: str = "") -> str:
    return f"module M{{{declared}interface I{{{functions}}};}};"


def request(func: str, digits: str = "-", version=1, kind=0, message=0, number=1, servant=NAME) -> str:
    return f"{version} {kind} {message} {number} {servant} {func} {digits}"


def digits_of(file: str, func: str, *values) -> str:
    """The body of a call's arguments."""
    return body(File(expanded(file)).last_interface().functions[func].arguments, list(values)).hex().upper() or "-"


CALC = file_of("int add(int a,int b);int half(int a,out int rest);void note(string s);")
KINDS = (0, 1, 2, -1, 127, -128)
ADDED = "10022003"


def single_cases() -> list:
    """Each case alone, in packets of several types."""
    cases = [dict(func="add", digits=ADDED, version=version) for version in (2, 0, -1, 32_767, -32_768)]
    cases += [dict(func="add", digits=ADDED, servant=servant) for servant in ("A.B.D", "A.B", "A.B.CC", "a.b.c", "")]
    cases += [dict(func="tars_ping"), dict(func="tars_ping", digits=ADDED), dict(func="tars_pin"), dict(func="tars_pingg")]
    cases += [dict(func=func, digits=ADDED) for func in ("sub", "ad", "addd", "Add", "")]
    cases += [dict(func="add", digits=digits) for digits in BAD_BODIES + GOOD_BODIES]
    cases += [dict(func="half", digits="1005"), dict(func="note", digits="160161"), dict(func="note", digits="1005")]
    rows = [row("table", CALC, "add add a b", *(request(**case, kind=kind) for kind in KINDS[:4])) for case in cases]
    rows += [row("table", CALC, f"add {rule}", *(request("add", ADDED, kind=kind) for kind in KINDS)) for rule in ANY_RULES]
    return rows


BAD_BODIES = ["-", "1002", "2003", "20031002", "100220", "10022003FF", "1002260133", "1601322003", "1002230000000000000003"]
BAD_BODIES += ["10021002", "10022D0000023003", "10022203000000", "1B", "1002200330", "0A" * 65]
GOOD_BODIES = [ADDED, "0C10022003", "1002200330FF", "F00102F00203", "110002210003", "12000000022200000003", "1C2C"]
GOOD_BODIES += ["100220033A0B", "10022003F0C805"]
ANY_RULES = ["value -5", "echo a", "echo b", "add a a", "code 7", "silent"]


def joined_cases() -> list:
    """Whichever of the first five cases hold together, with a rule that is a code and one that is a sum."""
    found = []
    for rule in ("add code 7", "add add a b", "add silent"):
        for version, servant, func, digits, kind in itertools.product(
            (1, 2), (NAME, "A.B.D"), ("add", "tars_ping", "sub"), (ADDED, "1002"), (0, 1)
        ):
            found.append(row("table", CALC, rule, request(func, digits, version, kind, 5, 7, servant)))
    return found


def kept_fields() -> list:
    """Ids and message types, which come back."""
    ends = [0, 1, -1, 127, 128, -128, -129, 32_767, 32_768, 2**31 - 1, -(2**31)]
    ids = [request("add", ADDED, number=number, message=message) for number, message in zip(ends, reversed(ends))]
    return [row("table", CALC, "add add a b", *ids), row("table", CALC, "add code -1", *ids)]


def number_rules() -> list:
    """The rules at the ends of each type of whole numbers."""
    rows = []
    for kind, (least, greatest) in RANGES.items():
        file = file_of(f"{kind} f({kind} a,{kind} b);")
        ends = [least, greatest, 0, 1]
        pairs = [(first, second) for first in (*ends, greatest - 1, least + 1) for second in ends]
        asked = [request("f", digits_of(file, "f", *pair)) for pair in pairs]
        rows += [row("table", file, f"f value {of}", asked[0]) for of in (*ends, greatest - 1)]
        rows += [row("table", file, rule, *asked) for rule in ("f echo a", "f echo b", "f add a b", "f add b a", "f add a a")]
    return rows


def mixed_sums() -> list:
    """Sums of numbers of other types than what is returned."""
    rows = []
    for ret, first, second in MIXED:
        file = file_of(f"{ret} f({first} a,bool c,{second} b,out {ret} d);")
        ends = list(itertools.product((*range_of(first), 0), (*range_of(second), 0)))
        ends += [(end, 0) for end in range_of(ret) if range_of(first)[0] <= end <= range_of(first)[1]]
        asked = [request("f", digits_of(file, "f", left, True, right)) for left, right in ends]
        rows.append(row("table", file, "f add a b", *asked))
    return rows


MIXED = [
    ("byte", "long", "int"),
    ("long", "unsigned int", "long"),
    ("unsigned byte", "byte", "byte"),
    ("unsigned short", "short", "unsigned short"),
    ("unsigned int", "int", "unsigned int"),
    ("short", "unsigned byte", "byte"),
    ("int", "unsigned int", "int"),
    ("unsigned int", "long", "long"),
]

DECLARED = 'enum E{A=3,B=5};enum N{};struct T{0 optional int x=7;1 require string s="d";2 optional E e;3 optional E f=B;};'
OTHER_TYPES = [
    ("bool", [False, True], ["false", "true"]),
    ("string", [b"", b"a", b"a" * 255, b"a" * 256, b"\xff"], ['""', '"a b"', '"\\x00\\xFF"']),
    ("E", [3, 5, 0, -(2**31), 2**31 - 1], ["A", "B", "9"]),
    ("vector<byte>", [b"", b"\x00\xff"], ["#", "#00FF"]),
    ("vector<short>", [[], [1, -32_768, 32_767]], ["[]", "[1, -32768, 32767]"]),
    ("vector<vector<T>>", [[], [[]], [[[1, b"", 5, 3]], []]], ['[[(x=1, s="", e=A, f=9)], []]']),
    ("map<string,int>", [[], [(b"a", 1), (b"b", 2)]], ["{}", '{"b": 2, "a": 1}']),
    ("map<E,T>", [[], [(3, [1, b"s", 5, 3])]], ['{B: (x=0, s="", e=B, f=A)}']),
    ("T", [[7, b"d", 3, 5], [-1, b"", 0, 0]], ['(x=1, s="q", e=B, f=A)']),
]


def other_rules() -> list:
    """Values and echoes of every other type, with parameters that come back."""
    rows = []
    for kind, values, texts in OTHER_TYPES:
        file = file_of(f"{kind} f(int n,{kind} a,out {kind} b,out E e);", DECLARED)
        asked = [request("f", digits_of(file, "f", 1, value)) for value in values]
        rows += [row("table", file, rule, *asked) for rule in ("f echo a", "-")]
        rows += [row("table", file, f"f value {text}", asked[0]) for text in texts]
    return rows


def code_rules() -> list:
    codes = [1, -1, -2, -99, 127, 128, 2**31 - 1, -(2**31)]
    rows = [row("table", CALC, f"note code {code}", request("note", "160161"), request("note", "160161", kind=1)) for code in codes]
    rows.append(row("table", CALC, "note silent; add add a b", request("note", "160161"), request("add", ADDED), request("note")))
    return rows


def defaults() -> list:
    """What comes back without a rule, and beside what a rule returns."""
    outs = ["bool", "byte", "short", "int", "long", "unsigned byte", "unsigned short", "unsigned int", "string", "E", "N", "T"]
    outs += ["vector<byte>", "vector<int>", "map<string,int>", "map<N,T>", "vector<T>"]
    params = ",".join(f"out {kind} p{place}" for place, kind in enumerate(outs))
    rows = []
    for ret in ("void", *outs):
        rows.append(row("table", file_of(f"{ret} f({params});", DECLARED), "-", request("f")))
    file = file_of(f"int f(int a,{params},int b);", DECLARED)
    asked = request("f", digits_of(file, "f", 40, 2))
    rows += [row("table", file, rule, asked) for rule in ("f add a b", "f echo b", "f value 9", "f code 9", "f silent", "-")]
    return rows


COUNTED = file_of(
    "long count(int a);void note();string text();byte small();int two(out int a);E state();void one(out unsigned int n);"
    "unsigned short more();bool yes();",
    DECLARED,
)


def counters() -> list:
    """A servant whose replies tell how many calls it handled, also of one-way requests, by value and in a box."""
    some = [
        request("count", "1005"),
        request("count", "1005", kind=1),
        request("count", "1005"),
        request("count"),
        request("count", "1005", version=2),
        request("count", "1005", servant="A.B.D"),
        request("tars_ping"),
        request("nothing"),
        request("count", "1005", kind=2),
        *(request(func) for func in ("note", "text", "small", "two", "state", "one", "more", "yes")),
        request("note", kind=1),
        request("count", "1005"),
    ]
    many = [request("small")] * 129 + [request("more")]
    rows = [row(kind, COUNTED, "-", *requests) for requests in (some, many) for kind in ("counter", "boxed_counter")]
    calls = [request("add", ADDED), request("add", ADDED, kind=1), request("half", "1005"), request("sub")]
    return rows + [row(kind, CALC, "add add a b; half echo a", *calls) for kind in ("table", "boxed_table")]


# ---- the limit


def parts(pad: int) -> str:
    """Structs whose defaults are 3,855, 57,855 and 231,428 bytes long, and one with texts of so many bytes."""
    members = "".join(f'{tag} optional string s{tag}="~255(x)";' for tag in range(15))
    inside = "".join(f"{tag} optional A a{tag};" for tag in range(15))
    outside = "".join(f"{tag} optional B b{tag};" for tag in range(4))
    lengths = [min(max(pad - 255 * tag, 0), 255) for tag in range(15)]
    last = "".join(f'{tag} optional string s{tag}="~{length}(x)";' for tag, length in enumerate(lengths))
    return f"struct A{{{members}}};struct B{{{inside}}};struct C{{{outside}}};struct P{{{last}}};"


def large_file(counts: dict, pad: int) -> str:
    """A function that returns nothing, and by whose parameters so many structs of each kind come back."""
    kinds = [kind for kind, count in counts.items() for _ in range(count)]
    return file_of(f"void f({','.join(f'out {kind} p{place}' for place, kind in enumerate(kinds))});", parts(pad))


def frame_length(file: str) -> int:
    """How long the frame of the defaults would be under the id 1."""
    replied = File(expanded(file)).last_interface().functions["f"].replied
    reply = body(replied, [default_of(member.type) for member in replied])
    return len(frame_of(RESPONSE, [1, 0, 1, 0, 0, reply, [], b""]))


def at_the_limit() -> list:
    """Defaults whose frame is as long as a packet may be, and those a byte longer or shorter by the id or the message type."""
    counts = {"C": 45, "B": 1, "A": 3, "P": 1}
    pad = LONGEST - frame_length(large_file(counts, 0))
    file = large_file(counts, pad)
    assert 0 < pad <= 15 * 255 and frame_length(file) == LONGEST
    asked = [
        request("f"),
        request("f", number=0),
        request("f", number=128),
        request("f", message=1),
        request("f", number=0, message=1),
        request("f", number=2**31 - 1, message=2**31 - 1),
        request("f", kind=1),
        request("f", number=128, kind=1),
    ]
    longer = large_file(counts, pad + 1)
    rows = [row("table", file, "-", *asked), row("table", longer, "-", *asked[:3])]
    rows += [row("table", longer, rule, *asked[:2]) for rule in ("f code 7", "f silent")]
    rows.append(row("table", large_file({"C": 64}, 0), "-", request("f"), request("f", kind=1)))
    rows.append(row("boxed_table", large_file({"C": 45, "B": 4}, 0), "-", request("f"), request("f", number=0)))
    return rows


if __name__ == "__main__":
    titles = [
        'What servants answer (docs/PROTOCOL.md, "Return codes", "Servants"): `answer SERVANT FILE => RULES => REQUESTS`, each request',
        "`VERSION TYPE MESSAGE ID SERVANT FUNCTION BODY`. A table also tells how many calls it handled. Made by tests/answer_rows.py.",
    ]
    table = Table("answers.rows", titles, "packet_tables")
    table.group("Each case alone: two-way, one-way, and packets of other types.", single_cases())
    table.group("Cases together.", joined_cases())
    table.group("What comes back of a request.", kept_fields())
    table.group("Rules at the ends of each type of whole numbers.", number_rules())
    table.group("Sums of mixed types.", mixed_sums())
    table.group("Values and echoes of other types.", other_rules())
    table.group("Codes, and silence.", code_rules())
    table.group("Defaults.", defaults())
    table.group("Servants with a state, and in a box.", counters())
    table.group("Replies at the limit, and longer ones.", at_the_limit())
    table.write()
