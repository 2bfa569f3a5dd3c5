"""Interface files for version_rows.py: each an old and a new one, and texts of the old one's values."""

from .tables import RANGES, file_of

ENUM = "enum E{A=-5,B};"
STRUCT = "struct T{0 require int x;};"
DECLARED = {"E": ENUM, "T": STRUCT}
INT_BOUNDS = [str(bound) for bound in RANGES["int"]]
# Of each type some texts of its values: those at its bounds.
VALUES = {
    "bool": ["false", "true"],
    **{word: [str(bound) for bound in bounds] for word, bounds in RANGES.items()},
    "E": [*INT_BOUNDS, "A"],
    "string": ['""', '"ab"'],
    "vector<byte>": ["#", "#80017F"],
    "vector<short>": ["[]", "[-128, 127]", "[0, 128]", "[1, 2, -32768, 32767]"],
    "T": [f"(x={bound})" for bound in INT_BOUNDS],
}


def one_member(word: str) -> str:
    """An interface file whose last struct has a member of the type."""
    return file_of(f"0 require {word} a;", DECLARED.get(word, ""))


def structs_inside(word: str, more: str = "") -> str:
    """A struct in a struct in a struct, whose innermost member has the type."""
    inside = f"struct P{{0 require {word} x;{more}}};struct Q{{1 require P p;}};"
    return file_of("2 require Q q;3 require bool b;", inside)


# ---- members: a comment, an old file with texts of its values, and the members of new ones

TWO = file_of("0 require int a;2 require string b;"), ['(a=5, b="x")']
TWO_OPTIONAL = file_of("0 optional int a=4;2 optional string b;"), ['(a=5, b="x")']
MEMBERS = [
    (
        "A member more: an optional one takes its default.",
        *TWO,
        [
            "0 require int a;1 optional int c=9;2 require string b;",
            "0 require int a;1 require int c;2 require string b;",
            "0 require int a;2 require string b;3 optional T c;",
            "0 require int a;2 require string b;3 require T c;",
            '0 require int a;2 require string b;255 optional string c="no";',
            "0 require int a;2 require string b;255 require string c;",
        ],
    ),
    ("A member less.", *TWO, ["0 require int a;", "2 require string b;", ""]),
    (
        "What is written for an optional member is read, whether the new one is required or not.",
        *TWO_OPTIONAL,
        [
            "0 require int a;2 require string b;",
            '0 optional int a=8;2 optional string b="y";',
            '0 optional short a=8;2 optional string b="y";',
            '0 optional string a="z";2 optional string b="y";',
        ],
    ),
    (
        "A member is found by its tag, whatever its name is and where it stands.",
        *TWO,
        [
            "2 require string a;0 require int b;",
            "0 require string a;2 require int b;",
            "0 require int x;2 require string y;",
            "1 require int a;3 require string b;",
            "1 optional int a=1;3 optional string b;",
        ],
    ),
    (
        "The first reason counts, in the order of the tags.",
        *TWO,
        [
            "0 require short a;1 require int c;2 require int b;",
            "0 require int a;1 require int c;2 require int b;",
            "1 require int c;0 require short a;",
            "3 require int d;2 require int b;",
            "3 require int d;1 require int c;",
        ],
    ),
]

# ---- types inside one another: a comment, an old file with texts of its values, and new ones

MIXED = "7 require map<short,vector<T>> a;"
NESTED = [
    (
        "Vectors in vectors.",
        one_member("vector<vector<vector<int>>>"),
        ["(a=[])", "(a=[[[1], []], [[2, 300]]])", "(a=[[], [[1], [70000]]])"],
        [
            one_member("vector<vector<vector<long>>>"),
            one_member("vector<vector<vector<short>>>"),
            one_member("vector<vector<vector<byte>>>"),
            one_member("vector<vector<vector<string>>>"),
            one_member("vector<vector<int>>"),
            one_member("vector<vector<vector<vector<int>>>>"),
        ],
    ),
    (
        "Maps in maps: keys before values.",
        one_member("map<int,map<string,map<int,int>>>"),
        ["(a={})", '(a={1: {"k": {2: 3}}})', '(a={-70000: {}, 5: {"a": {}, "b": {1: 1, 300: 70000}}})'],
        [
            one_member("map<long,map<string,map<int,long>>>"),
            one_member("map<short,map<int,map<int,int>>>"),
            one_member("map<int,map<int,map<short,int>>>"),
            one_member("map<int,map<string,map<short,short>>>"),
            one_member("map<int,map<string,map<int,short>>>"),
            one_member("map<int,map<string,map<int,string>>>"),
            one_member("map<int,map<string,vector<int>>>"),
            one_member("map<int,vector<int>>"),
        ],
    ),
    (
        "Structs in structs.",
        structs_inside("int", "4 require int y;"),
        ["(q=(p=(x=1, y=2)), b=true)", "(q=(p=(x=300, y=2)), b=false)"],
        [
            structs_inside("long", "4 require int y;"),
            structs_inside("byte", "4 require int y;"),
            structs_inside("byte", "4 require string y;"),
            structs_inside("int", "5 require int z;"),
            structs_inside("int", "5 optional int z=6;"),
            structs_inside("vector<int>"),
            file_of("2 require Q q;", "struct Q{1 require vector<int> p;};"),
            file_of("2 require Q q;3 require string b;", "struct P{};struct Q{1 require P p;};"),
            file_of("2 optional Q q;9 require int c;", "struct P{0 require byte x;};struct Q{1 require P p;};"),
        ],
    ),
    (
        "A struct in a vector in a map.",
        file_of(MIXED, STRUCT),
        ["(a={})", "(a={1: [], 2: [(x=1), (x=40000)]})", "(a={-1: [(x=5)], 300: [(x=128)]})"],
        [
            file_of("7 require map<int,vector<T>> a;", "struct T{0 require long x;1 optional bool y=true;};"),
            file_of("7 require map<byte,vector<T>> a;", "struct T{0 require byte x;};"),
            file_of(MIXED, "struct T{0 require short x;};"),
            file_of(MIXED, "struct T{0 require int x;1 require int y;};"),
            file_of(MIXED, "struct T{1 require int y;0 require byte x;};"),
            file_of("7 require map<short,vector<byte>> a;"),
            file_of("7 require map<short,T> a;", STRUCT),
        ],
    ),
]

# ---- at random

WORDS = [*VALUES, "map<int,short>", "map<string,T>", "vector<T>", "vector<vector<byte>>", "map<byte,vector<int>>"]


OTHER_STRUCTS = ["struct T{0 require long x;1 optional int y=3;};", "struct T{0 require short x;};"]


def members_of(rng, words: dict) -> str:
    """Members of the types under these tags."""
    return "".join(f"{tag} {rng.choice(['require', 'optional'])} {words[tag]} m{tag};" for tag in sorted(words))


def some_versions(rng) -> tuple:
    """An old file and a new one, which has other types, members more and members less."""
    old = {tag: rng.choice(WORDS) for tag in rng.sample(range(9), rng.randint(1, 4))}
    kept = {tag: word for tag, word in old.items() if rng.random() < 0.9}
    new = {tag: word if rng.random() < 0.8 else rng.choice(WORDS) for tag, word in kept.items()}
    if rng.random() < 0.5:
        new.setdefault(rng.randrange(9), rng.choice(WORDS))
    inside = rng.choice([STRUCT, *OTHER_STRUCTS])
    return file_of(members_of(rng, old), ENUM + STRUCT), file_of(members_of(rng, new), ENUM + inside)
