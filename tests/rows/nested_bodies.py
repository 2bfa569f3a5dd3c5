"""Bodies for body_rows.py whose members are vectors or maps."""

from .body_maker import FIELD_OF, items, number, others, pairs, struct, text
from .body_reader import Wire
from .single_bodies import DECLARED, ENUM, PAIR, Family
from .tables import file_of

# Elements: a type, one of it, and one that is none.
ELEMENTS = [
    ("bool", "0001", "010001"),
    ("short", "0005", "0200000005"),
    ("int", "0C", FIELD_OF[Wire.INT8]),
    ("long", FIELD_OF[Wire.INT8], FIELD_OF[Wire.FLOAT]),
    ("unsigned short", "017FFF", "00FF"),
    ("unsigned int", "027FFFFFFF", "030000000100000000"),
    ("string", "060161", "0005"),
    ("E", "0007", "060142"),
    ("vector<byte>", "0D000C", "080C"),
    ("vector<int>", "090C", "0D000C"),
    ("map<byte,byte>", "080C", "090C"),
    ("A", struct(0, "0005"), struct(0, "160162")),
]


def element_group(word: str, good: str, bad: str) -> tuple:
    file = file_of(f"0 require vector<{word}> x;1 optional int y=7;", DECLARED.get(word, ""))
    lists = [[], [good], [good, good], [bad], [good, bad], [bad, bad], [good, good, bad, good]]
    bodies = [items(0, *elements) + number(1, 9) for elements in lists]
    return f"{word}: lists of it, lists with an element that is none, and a simple list.", file, [*bodies, "0D000C"]


INTS = file_of("0 require vector<int> x;1 optional int y=7;")
SHORTS = file_of("3 require vector<vector<short>> x;")
NO_SHORTS = others(Wire.INT1, Wire.INT2, Wire.ZERO)
MIXED = file_of("4 require vector<map<byte,vector<A>>> x;", PAIR)
BAD_PAIRS = [struct(0), struct(0, "060161"), struct(0, "0C", "1005"), struct(0, "0C", "2C"), struct(0, "0C", "2C0C")]
VECTORS = Family(
    "vector_bodies.rows",
    "Vectors other than vector<byte>",
    [
        *(element_group(*element) for element in ELEMENTS),
        ("No other field is a vector.", INTS, others(Wire.LIST)),
        (
            "Sizes and heads in any form.",
            INTS,
            "090C 090000 09010000 090200000000 F9000C F900FC00 F900F00001F00005 090001FC00 09000100051C".split(),
        ),
        (
            "A list that ends too early.",
            INTS,
            "09 0900 09F0 090001 09000102 0900020005 09000205 09027FFFFFFF 0901 090100 090002000502".split(),
        ),
        (
            "A wrong size.",
            INTS,
            """0903 0904 0905 0906 0907 0908 0909 090A 090B 090D 090E 090F 091C 0980 09F001 0900FF 09018000
            0902FF""".split(),
        ),
        (
            "A wrong element.",
            INTS,
            "0900011C 090001100B 0900010B 0900010E 090001F00105 09000211 090002000511 09000100050005 FC000C".split(),
        ),
        (
            "Vectors of vectors: an index for each.",
            SHORTS,
            [
                *(items(3, items(0, "0005"), items(0, "0005", "0006", bad)) for bad in NO_SHORTS),
                items(3, items(0), "0C"),
                items(3, items(0), items(0, items(0))),
                items(3, "0D000C", "0E"),
            ],
        ),
        (
            "Vectors of maps of vectors of structs: a step for each.",
            MIXED,
            [
                *(items(4, pairs(0, "0001", items(1, struct(0, "0C"), bad))) for bad in BAD_PAIRS),
                items(4, pairs(0, "0001", items(1), "0001", items(1, "0C"))),
                items(4, pairs(0), pairs(0, "0001", "1C", "010001", "1C")),
                items(4, pairs(0), pairs(0, "0001", "190C", "010001", "1C")),
            ],
        ),
    ],
    [
        file_of("0 require vector<int> a;1 optional vector<string> b;"),
        file_of("2 require vector<vector<byte>> a;3 optional vector<bool> b;"),
        file_of("1 require vector<A> a;", PAIR),
        file_of("0 require vector<vector<E>> a;", ENUM),
    ],
)

# Key types: three keys in rising order, another spelling of the second, and a field that is no key.
KEYS = [
    ("byte", "0080", "0C", "007F", "0000", "010005"),
    ("short", "018000", "0C", "017FFF", "010000", "0200000005"),
    ("int", "0280000000", "00FF", "027FFFFFFF", "02FFFFFFFF", FIELD_OF[Wire.INT8]),
    ("long", "038000000000000000", "0C", "037FFFFFFFFFFFFFFF", "030000000000000000", "060161"),
    ("unsigned byte", "0C", "007F", "0100FF", "01007F", "00FF"),
    ("unsigned short", "0C", "017FFF", "020000FFFF", "0200007FFF", "0200010000"),
    ("unsigned int", "0C", "027FFFFFFF", "0300000000FFFFFFFF", "03000000007FFFFFFF", "030000000100000000"),
    ("E", "00FF", "0C", "0007", "010000", FIELD_OF[Wire.INT8]),
    ("string", "0600", "06024142", "06024162", "07000000024142", "0005"),
]


def key_group(word: str, low: str, middle: str, high: str, again: str, bad: str) -> tuple:
    file = file_of(f"0 require map<{word},byte> x;", DECLARED.get(word, ""))
    good, wrong = "1005", "110005"
    bodies = [
        pairs(0),
        pairs(0, middle, good),
        pairs(0, high, "1003", middle, "1002", low, "1001"),
        pairs(0, middle, "1002", low, "1001", high, "1003"),
        pairs(0, middle, good, again, good),
        pairs(0, low, good, middle, good, high, good, again, good),
        pairs(0, middle, good, again, wrong, bad, good),
        pairs(0, bad, good),
        pairs(0, low, good, bad, wrong),
        pairs(0, low, wrong, bad, good),
        pairs(0, low, good, middle, good, high, wrong),
    ]
    return f"{word}: keys in any order, equal ones, and wrong keys and values.", file, bodies


LETTERS = file_of("5 require map<string,int> x;")
NESTED_MAP = file_of("1 require map<byte,map<string,byte>> x;")
TEXT_KEYS = "060162 0600 0601FF 060161 06026162 0602C3A9 060142 0601C3 06017E".split()
MAPS = Family(
    "map_bodies.rows",
    "Maps",
    [
        *(key_group(*key) for key in KEYS),
        (
            "Texts in the order of their bytes.",
            LETTERS,
            [pairs(5, *(field for key in TEXT_KEYS[:count] for field in (key, "1C"))) for count in range(2, 10)],
        ),
        ("No other field is a map.", file_of("0 require map<byte,byte> x;"), others(Wire.MAP)),
        (
            "Sizes and heads in any form.",
            LETTERS,
            """580C 580000 58010000 580200000000 F8050C 58FC00 580001F60000F00105 580001060161FC01
            5800010600F00109""".split(),
        ),
        (
            "A map that ends too early.",
            LETTERS,
            "58 5800 58F0 580001 58000106 5800010600 580001060010 58000206001C 58027FFFFFFF0600".split(),
        ),
        (
            "A wrong size.",
            LETTERS,
            "5803 5804 5805 5806 5807 5808 5809 580A 580B 580D 580E 580F 581C 58F001 5800FF 5801FFFF 580280".split(),
        ),
        (
            "A wrong head of a key or a value.",
            LETTERS,
            """580001160061 5800010B 5800010E 58000106000C 58000106002C 5800010600F000 5800010600F002
            5800010600FB01""".split(),
        ),
        (
            "Maps in maps: a step for each.",
            NESTED_MAP,
            [
                pairs(1, "0002", pairs(1, text(0, "a"), "1005"), "0001", pairs(1)),
                pairs(1, "0001", pairs(1, text(0, "a"), "1005", text(0, "a"), "1006")),
                pairs(1, "0001", pairs(1), "0002", pairs(1, text(0, "a"), "1C", text(0, "b"), "110005")),
                pairs(1, "0001", pairs(1), "0002", pairs(1, text(0, "a"), "1C", "0005", "1C")),
                pairs(1, "0001", pairs(1), "0001", pairs(1, "0005", "1C")),
                pairs(1, "0001", items(1)),
            ],
        ),
        (
            "Other values.",
            file_of("1 require map<E,A> x;2 require map<byte,vector<byte>> y;", ENUM + PAIR),
            [
                pairs(1, "0007", struct(1, "0C")) + pairs(2, "0002", "1D00000105", "0001", items(1, "0080")),
                pairs(1, "0007", struct(1, "0C")) + pairs(2, "0002", "1D00000105", "0001", items(1, "0005", "0100FF")),
                pairs(1, "0007", struct(1, "0C"), "00FF", struct(1, "160161")) + pairs(2, "060161", "1C"),
                pairs(1, "0007", struct(1, "0C"), "00FF", struct(1, "0C", "1005")) + pairs(2),
            ],
        ),
    ],
    [
        file_of("0 require map<string,int> a;1 optional map<short,string> b;"),
        file_of("3 require map<unsigned int,vector<byte>> a;"),
        file_of("2 optional map<E,E> a;", ENUM),
        file_of("0 require map<int,A> a;", PAIR),
    ],
)
