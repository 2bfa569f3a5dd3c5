"""Bodies for body_rows.py whose members are structs, or which have fields of other tags."""

from .body_maker import FIELD_OF, items, pairs, struct, under_tag
from .body_reader import Wire
from .single_bodies import ENUM, PAIR, Family
from .tables import file_of

NEST = "struct A{0 require byte a;1 optional string b=\"q\";};struct B{1 require A a;3 require byte b;};"
TWO = file_of("3 require int x;8 optional int y=7;")
INNER = file_of("1 require B x;2 require byte y;", NEST)
DEFAULTS = (
    "0 optional bool a=true;1 optional byte b=-1;2 optional unsigned int c=4294967295;3 optional string d=\"a b\";"
    "4 optional vector<byte> e;5 optional map<int,int> f;6 optional long g;7 optional string h;"
)
GOOD_A = struct(1, "0005")
GOOD_B = struct(1, GOOD_A, "3006")
BAD_B = struct(1, struct(1, "0101F4"), "3101F4")
# The heads of 64 structs inside one another.
DEEP = "1A" + "0A" * 63
STRUCTS = Family(
    "struct_bodies.rows",
    "Members of structs",
    [
        (
            "An absent member is missing, or it takes its default.",
            TWO,
            ["", "3005", "8005", "30058006", "2C", "9C", "2C3C9C"],
        ),
        (
            "Defaults of several types.",
            file_of(DEFAULTS),
            ["", "0C", "1002", "2C", "360178", "4D000001FF", "580C", "6005", "760179"],
        ),
        *(
            (
                f"A field of another tag is skipped {where}.",
                TWO,
                [before + under_tag(tag, wire) + after for wire in FIELD_OF],
            )
            for where, tag, before, after in [
                ("before the members", 1, "", "3005"),
                ("between them", 5, "3005", "8006"),
                ("behind them", 200, "30058006", ""),
            ]
        ),
        (
            "What is skipped may hold much, and has to be well formed.",
            TWO,
            [
                items(1, struct(0, items(5, "0E")), "0C") + "3005",
                items(1, struct(0, items(5, "05")), "0C") + "3005",
                struct(1, pairs(0, struct(0, "0C", "FC07"), "190C"), "F6FF0161") + "3005",
                struct(1, pairs(0, struct(0, "0C", "0C"), "190C")) + "3005",
                DEEP + "0B" * 64 + "3005",
                DEEP + "0A" + "0B" * 65 + "3005",
                DEEP + "090C" + "0B" * 64 + "3005",
                DEEP + "FA000B" + "0B" * 64 + "3005",
                "1A" + "0A" * 62 + "0D0000010A" + "0B" * 63 + "3005",
            ],
        ),
        (
            "Members stand in the order of their tags.",
            file_of("9 require int x;0 require string y;255 require int z;"),
            """0601619005FCFF 060161FCFF 9005FCFF 0601619005 0601619005FCFFFCFF 0601619005FFFF
            F6000161F00905F1FF0006""".split(),
        ),
        (
            "Heads in either form.",
            TWO,
            "F00305 F00305F00806 3CFC08 3CF008 F0 F00E053C F003053C 3CF00305 3CF0 F30305".split(),
        ),
        (
            "Tags that do not rise.",
            TWO,
            "3C3C 8C3C 3C8C8C 3C8C0C 3CFC03 FCFF3C FCFFFCFF FCFFFE 3CFCFF1C 3CFCFFFB 3CFCFF0B".split(),
        ),
        ("A struct in a struct.", INNER, [GOOD_B + "2007", "1AFA010005FB003006FB002007", "1A1A0C2CFB003CFB002C"]),
        (
            "Absent members inside: a step for each.",
            INNER,
            [
                struct(1) + "2C",
                struct(1, struct(1)),
                struct(1, struct(1), "3006"),
                struct(1, struct(1, "160161"), "3006") + "2C",
                struct(1, GOOD_A) + "2C",
                struct(1, "3006") + "2C",
                GOOD_B,
                struct(1, struct(1, "0C", "2C"), "3C") + "2C",
            ],
        ),
        ("No other field is a struct.", INNER, [under_tag(1, wire) + "2C" for wire in FIELD_OF]),
        (
            "No other field is one inside.",
            INNER,
            [struct(1, under_tag(1, wire), "3C") + "2C" for wire in FIELD_OF if wire != Wire.STRUCT],
        ),
        (
            "A struct that ends too early, or wrongly.",
            INNER,
            """1A 1A1A 1A1A0005 1A1A00050B 1A1A00050B3006 1A1A00051B 1A1A0005FB 1A1A0005FB01 1AEB 1A0B0B 0B 1B
            FB00 1A0E 1A0F""".split(),
        ),
        (
            "The first refusal counts: by rising tags, each member to its end.",
            INNER,
            [
                BAD_B + "2101F4",
                struct(1, GOOD_A, "3101F4") + "2101F4",
                GOOD_B + "2101F4",
                struct(1, struct(1, "0101F4")),
                struct(1, struct(1, "160161"), "3101F4"),
                struct(1, struct(1, "0005", "1005")),
                struct(1, struct(1), "3101F4") + "2101F4",
                struct(1, "1C", "3101F4"),
                struct(1, "3101F4") + "2101F4",
                "1C",
                "2101F4",
            ],
        ),
        (
            "Bytes that are no body are refused before all else.",
            INNER,
            [
                *(BAD_B + "2101F4" + tail for tail in ("0E", "2C", "3D00", "36", "4B", "FF", "390001", "3900FF")),
                *("2101F41C", "2C0E", "1C1C", "0C0C", "1A0E", "390C3C", "1A" + "0A" * 64),
            ],
        ),
    ],
    [
        TWO,
        INNER,
        file_of("0 require E a;1 optional A b;2 optional long c=9;", ENUM + PAIR),
        file_of("4 optional string a=\"d\";20 require unsigned byte b;"),
    ],
)
