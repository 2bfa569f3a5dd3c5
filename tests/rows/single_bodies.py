"""Bodies for body_rows.py whose members are numbers, enums, strings or bytes."""

from typing import NamedTuple

from .body_maker import NUMBERS, head, items, numbers_of, others
from .body_reader import Wire
from .tables import File, file_of

ENUM = "enum E{A,B=7,C};"
PAIR = "struct A{0 require int a;1 optional string b;};"
# What has to be declared for a type.
DECLARED = {"E": ENUM, "A": PAIR}


class Family(NamedTuple):
    """What a table is made of."""

    name: str
    what: str
    # Of each a comment, an interface file and bodies in hexadecimal digits.
    groups: list
    # Interface files whose values are spelled at random.
    random_files: list


def number_groups(word: str, comment: str) -> list:
    """A type's numbers in each width, and no other field."""
    file = file_of(f"0 require {word} x;", DECLARED.get(word, ""))
    kind = File(file).last_struct().members[0].type
    return [
        (f"{word}: {comment}", file, numbers_of(kind)),
        (f"{word}: no other field has its numbers.", file, others(*NUMBERS)),
    ]


SIGNED = Family(
    "signed_bodies.rows",
    "Bools and whole numbers with a sign",
    [
        *number_groups("bool", "zero tag and int1; every number but 0 is true."),
        *number_groups("byte", "zero tag and int1."),
        *number_groups("short", "zero tag to int2."),
        *number_groups("int", "zero tag to int4."),
        *number_groups("long", "zero tag to int8."),
    ],
    [
        file_of("0 require bool a;1 require byte b;2 require short c;"),
        file_of("3 require int a;15 optional long b=-5;200 optional short c=300;"),
        file_of("0 optional byte a=-128;1 optional bool b=true;2 require long c;"),
    ],
)

OPTIONAL_ENUMS = file_of("0 optional E x;1 optional E y=C;2 optional E z=-9;", ENUM)
ABSENT_ENUM = "An absent enum is its default, without one the first enumerator's number, or 0."
UNSIGNED = Family(
    "unsigned_bodies.rows",
    "Whole numbers without a sign and enums",
    [
        *number_groups("unsigned byte", "zero tag to int2, of their numbers 0 to 255."),
        *number_groups("unsigned short", "zero tag to int4, of their numbers 0 to 65,535."),
        *number_groups("unsigned int", "zero tag to int8, of their numbers 0 to 4,294,967,295."),
        *number_groups("E", "zero tag to int4; a number that is no enumerator's is kept."),
        (ABSENT_ENUM, OPTIONAL_ENUMS, ["", "0003", "1003", "2003"]),
        ("Its first enumerator has a number.", file_of("0 optional E x;", "enum E{X=-3,Y};"), ["", "0C"]),
        ("It has no enumerators.", file_of("0 optional E x;", "enum E{};"), ["", "0009"]),
    ],
    [
        file_of("0 require unsigned byte a;1 require unsigned short b;2 require unsigned int c;"),
        file_of("3 require E a;15 optional unsigned int b=4000000000;200 optional E c=C;", ENUM),
        file_of("0 optional unsigned byte a=255;1 optional E b;2 require unsigned short c;", ENUM),
    ],
)

STRING = file_of("0 require string x;")
BYTES = file_of("0 require vector<byte> x;")
BYTE_NUMBERS = "0C 0000 0080 00FF 007F F00005 FC00".split()
NO_BYTES = others(Wire.INT1, Wire.ZERO)
TEXTS = Family(
    "text_bodies.rows",
    "Strings and bytes",
    [
        ("A string1 of any bytes.", STRING, "0600 060161 0602C3A9 0601FF 0603207E22 0605C3A9C3A97E".split()),
        ("A string1 of any length.", STRING, [f"06{length:02X}" + "61" * length for length in (42, 43, 255)]),
        ("A string4 too.", STRING, "0700000000 070000000161 070000000361C3A9 0700000002FFFE".split()),
        ("A string4 of any length.", STRING, [f"07{length:08X}" + "62" * length for length in (43, 256)]),
        (
            "A string that ends too early.",
            STRING,
            "06 0601 060261 06FF 07 0700 07000000 0700000001 070000000261 07000001 07FFFFFFFF 078000000061".split(),
        ),
        ("Both forms of its head.", STRING, "F6000161 F70000000000 F6 F600 F60001 F6010161 160161 F60161".split()),
        ("No other field is a string.", STRING, others(Wire.STRING1, Wire.STRING4)),
        (
            "A simple list with a size of each type.",
            BYTES,
            "0D000C 0D000000 0D00010000 0D000200000000 0D0000010B 0D000001FF 0D0001000180 0D00020000000200FF".split(),
        ),
        ("A longer one.", BYTES, [f"0D0001{length:04X}" + "0B" * length for length in (21, 22, 128)]),
        ("Heads in either form.", BYTES, "FD00000C 0DF0000C 0D00FC00 FD00F000F00000 FD00F000F100000105".split()),
        ("A wrong type after its head.", BYTES, [f"0D{wire:02X}0C" for wire in range(1, 16)] + ["0DF1000C"]),
        ("A wrong tag after its head.", BYTES, "0D100C 0DE00C 0DF001 0DF0FF0C".split()),
        ("A size of a wrong type.", BYTES, [f"0D000{wire:X}" for wire in (3, 4, 5, 6, 7, 8, 9, 10, 11, 13, 14, 15)]),
        ("A size of a wrong tag.", BYTES, "0D0010 0D001C 0D00FC01 0D00F0FF".split()),
        ("A negative size.", BYTES, "0D0000FF 0D000080 0D00018000 0D0001FF 0D0002FFFFFFFF 0D000280".split()),
        (
            "Bytes that end too early.",
            BYTES,
            "0D 0D00 0DF0 0D00FC 0D0000 0D0001 0D000100 0D000001 0D0000020B 0D00027FFFFFFF 0D00027FFFFFFF0B".split(),
        ),
        ("A list of bytes.", BYTES, [items(0, *BYTE_NUMBERS[:count]) for count in range(8)]),
        ("A longer one.", BYTES, [items(0, *["0005"] * 50), head(0, Wire.LIST) + "010003" + "0080" * 3]),
        ("A list whose one element is no byte.", BYTES, [items(0, field) for field in NO_BYTES]),
        ("A list whose third is none.", BYTES, [items(0, "0C", "0005", field, "0440A00000") for field in NO_BYTES[:8]]),
        (
            "A list that is malformed.",
            BYTES,
            """09 0900 090001 09000100 0900020005 09000110 0900011C 0900010B 0900FF 0903 091C 0900010000
            090001000C0E""".split(),
        ),
        ("No other field is bytes.", BYTES, others(Wire.LIST, Wire.SIMPLE)),
    ],
    [
        file_of("0 require string a;1 require vector<byte> b;"),
        file_of('2 optional string a="x y";17 optional vector<byte> b;'),
    ],
)
