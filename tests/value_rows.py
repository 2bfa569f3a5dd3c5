#!/usr/bin/env python3
"""Writes the table of values as text: rows `value FILE => TEXT`, and what each comes to.

    python3 tests/value_rows.py

writes `value_texts.rows` of `crates/value_tables/data` and its part of that crate's `stdout`; where nothing has changed,
`git diff` shows nothing after it. What a text comes to is told by rows/value_reader.py, which shares nothing with the
crates: the value as it is printed and how many bytes were read, or the fault and its offset. Beside the texts made by
hand there are some with a byte changed, put in or left out at random, by a fixed seed.
"""

import random

from rows.tables import RANGES, File, Table, file_of, varied
from rows.value_reader import Fault, ValueText, printed

ENUM = "enum E{NEW,PAID=5,PA=-2,N1};"
FORMS = ["00", "01", "-0", "-00", "-01", "-1", "-", "--", "-x", "+1", "1.5", "0x1", "1_", "1e5", "x", "", "- 1", "1 2"]
TRUTHS = ["true", "false", "t", "tr", "tru", "truE", "trues", "True", "TRUE", "1", "f", "fals", "falsE", "false0", ""]
NAMES = ["NEW", "PAID", "PA", "N1", "N", "N2", "NE", "NEWS", "new", "PAI", "PAIDX", "PAX", "P", "PADI", "Q", "_"]
TEXTS = [
    '""',
    '"a b"',
    '"~ !#[]{}()=,:/"',
    r'"\"\\"',
    r'"\x00\x0a\x1F\x20\x41\x7e\x7F\xff\xC3\xA9"',
    r'"\x5c\x22"',
]
NO_TEXTS = [
    *['"', '"a', '"\\', '"\\"', "", "a", "'a'", '"a" "b"', '"a"b', '"""'],
    *['"\t"', '"\n"', '"\0"', '"\x1f"', '"\x7f"', '"é"'],
    *[r'"\n"', r'"\t"', r'"\0"', r'"\X41"', r'"\x"', r'"\x4"', r'"\x4g"', r'"\xg4"', r'"\x 41"', r'"\x4 1"', r'"\ "'],
]
BLOBS = [
    *["#", "#00", "#0a", "#Ff09Af"],
    *["", "#0", "#000", "#0g", "#g0", "#0_", "00", "##", '"00"', "[]", "#0 0", "#00 00", "# 00", "#0A,"],
]
VECTORS = [
    *["[]", "[1]", "[1,2]", "[1,2,3]", "[ ]", "[ 1 , 2 ]"],
    *["", "[", "[1", "[1,", "[1 ,", "[,]", "[,1]", "[1,]", "[1,,2]", "[1;2]", "[1 2]", "[1, 2 3]", "1", "]", "{}"],
    *["()", "#01", "[a]", "[-]", "[1-]", "[]]", "[[1]]", "[1]2", "[1,40000,x]", "[40000", "[x,40000]"],
]
VECTORS_OF_VECTORS = [
    *["[]", "[[]]", "[[],[1]]"],
    *["[[1],[1,40000]]", "[[1],2]", "[[1,]]", "[[1]", "[[1]],", "[[[]]]", "[[],]"],
]
MAPS = [
    *["{}", "{1:2}", "{1:2,3:4}", "{3:4,1:2}", "{300:1}", "{ }", "{ 1 : 2 , 3 : 4 }"],
    *["", "{", "{1", "{1:", "{1:2", "{1:2,", "{,}", "{1:2,}", "{1}", "{1,2}", "{1:}", "{:2}", "{1:2:3}", "{1=2}"],
    *["{1::2}", "[]", "{1:2 3:4}", "{1 2}", "{{}}", "{1:{}}", "{1:300}", "{40000:1}", "{1:2,1", "{1:2,1 :x}", "{1:2,12:x}"],
    *["{1:2,01:3}", "{1:300,1:2}", "{1:2,1:300}", "{1:2,1x:3}", "{1:2,-1:3,1:4}"],
]
MAPS_OF_MAPS = [
    *["{1:{1:1,2:2},2:{1:1}}", "{2:{},1:{7:8}}"],
    *["{1:{1:1,1:2}}", "{1:{},1:{}}", "{1:{2:3},2:{4:5,4:6}}", "{1:{},2:{}"],
]
# Key types: two keys, and another text of the first.
KEYS = [
    *((word, str(least), str(greatest), str(least)) for word, (least, greatest) in RANGES.items()),
    ("E", "PAID", "-2", "5"),
    ("string", '"A~"', '""', r'"\x41\x7e"'),
]
EMPTY = ["()", "( )", "(  )", "(", "(  ", "", ")", "(a)", "()()", "() x", " ()", "\t()", "[]", "(,)"]
TWO = file_of("5 require int b;1 optional int ab=7;")
TWO_TEXTS = [
    *["(ab=1,b=2)", "(ab =1,b= 2 )", "( ab=1 , b = 2)", "(ab=1,b=2)3"],
    *["()", "(b=2)", "(b=2,ab=1)", "(ab=1)", "(ab=1,)", "(ab=1,b=2,)", "(ab=1,b=2,c=3)", "(ab=1,ab=2)", "(ab=1;b=2)"],
    *["(a=1,b=2)", "(abc=1,b=2)", "(AB=1,b=2)", "(ab:1,b=2)", "(ab1,b=2)", "(ab==1,b=2)", "(ab=,b=2)", "(ab=1b=2)"],
    *["(ab=1,b2)", "(ab=1,b", "(a b=1,b=2)", "(ab=1 b=2)", '("ab"=1,b=2)', "(ab=1,(b=2)", "[ab=1,b=2]", "ab=1,b=2"],
]
INNER = file_of("1 require A x;2 require vector<A> y;", "struct A{0 require byte p;};")
INNER_TEXTS = [
    *["(x=(p=1),y=[])", "(x=(p=1),y=[(p=2),(p=-3)])"],
    *["(x=(p=128),y=[])", "(x=(p=1),y=[(p=2),(p=300)])", "(x=(p=1),y=[(p=2),()])", "(x=(),y=[])", "(x=1,y=[])"],
    *["(x=(p=1,y=[])", "(x=(p=1)),y=[])", "(x=(p=1),y=(p=1))", "(x=(p=1),y=[p=1])"],
]
# A value with tokens of every kind.
ALL = file_of(
    "0 require int a;1 require string s;2 require vector<int> v;3 require map<int,bool> m;4 require E e;"
    "5 require vector<byte> b;6 require T t;",
    "enum E{NEW};struct T{};",
)
ALL_TEXT = r'(a=-12,s="x\x41",v=[1,20],m={3:true},e=NEW,b=#0A1b,t=())'
SOME = file_of("0 require vector<int> v;1 require map<E,T> m;", "enum E{NEW};struct T{};")
SOME_TEXT = "(v=[1,-2],m={NEW:()})"
CUT = [
    (file_of("0 require int ab;2 require string s;"), r'(ab=-10, s="\x4A\"z")'),
    (file_of("1 require vector<vector<byte>> v;2 require bool b;"), "(v=[#, #00Ff], b=false)"),
    (file_of("1 require map<E,unsigned byte> m;", ENUM), "(m={NEW: 1, 12: 255, 1: 0})"),
]


def outcome(file: str, text: str) -> str:
    struct, reader = File(file).last_struct(), ValueText(text.encode())
    try:
        value = reader.value(struct)
    except Fault as fault:
        return "{} at {}".format(*fault.args)
    return f"{printed(struct, value)} of {reader.at}"


def in_row(text: str) -> str:
    """A text as a row has it: printable bytes as themselves, the others and `~` as `~xHH`."""
    return "".join(f"~x{byte:02X}" if byte == ord("~") or not 32 <= byte < 127 else chr(byte) for byte in text.encode())


def rows_of(file: str, texts: list) -> list:
    return [(f"value {file} => {in_row(text)}", outcome(file, text)) for text in texts]


def member(word: str, texts: list, more: str = "") -> list:
    """Rows of a struct with one member of the type."""
    return rows_of(file_of(f"0 require {word} x;", more), [f"(x={text})" for text in texts])


def near_bounds(word: str) -> list:
    """Numbers at the bounds of a type, next to them and far past them, and at one more than the text of a number."""
    least, greatest = RANGES.get(word, RANGES["int"])
    numbers = [least, greatest, least - 1, greatest + 1, -(10**20), 10**19, -1, 0]
    return [*map(str, numbers), f"{greatest}x", f"{greatest}0"]


def around(first: str, second: str, again: str) -> list:
    """Maps with the keys in either order, and with equal keys."""
    return [
        f"{{{second}: 2, {first}: 1}}",
        f"{{{first}: 1, {second}: 2, {again}: 3}}",
        f"{{{first}:1,{again}x",
        f"{{{first}: 1, {second}: 2, {second}: 3}}",
    ]


def put_in(text: str, piece: str) -> list:
    """The text with the piece put in at each offset."""
    return [text[:at] + piece + text[at:] for at in range(len(text) + 1)]


def add_single(table: Table) -> None:
    for word in [*RANGES, "E"]:
        comment = f"{word}: numbers at its bounds, and past them."
        table.group(comment, member(word, near_bounds(word), ENUM if word == "E" else ""))
    table.group("A number has no leading zero, and no sign but a minus.", member("short", FORMS))
    table.group("A number without a sign may have a minus, but is out of range.", member("unsigned short", FORMS))
    table.group("A bool is a word.", member("bool", [*TRUTHS, '"true"', "tr ue"]))
    more = ["NEW_", "N_1", "N1a", "-2", "77", "E::NEW", '"NEW"']
    table.group("Of a word the longest prefix counts that begins an enumerator's name.", member("E", NAMES + more, ENUM))
    names = ["A", "AB", "ABC", "ABCD", "ABD", "B", "B_", "B_2", "Ab"]
    table.group("An enumerator's name may begin another.", member("E", names, "enum E{A,ABC,ABCDE,B_1};"))
    table.group("An enum without enumerators.", member("E", ["0", "A", "_", ""], "enum E{};"))
    table.group("A text: any byte may be escaped, and bytes but 20 to 7E are printed so.", member("string", TEXTS))
    table.group("What spoils a text.", member("string", NO_TEXTS))
    table.group("Bytes are pairs of digits of either case.", member("vector<byte>", BLOBS))


def add_nested(table: Table) -> None:
    table.group("Vectors.", member("vector<short>", VECTORS))
    table.group("Vectors of vectors.", member("vector<vector<short>>", VECTORS_OF_VECTORS))
    table.group("Maps.", member("map<short,byte>", MAPS))
    for word, *keys in KEYS:
        comment = f"{word}: keys in either order, and equal ones."
        table.group(comment, member(f"map<{word},int>", around(*keys), ENUM if word == "E" else ""))
    table.group("Maps of maps.", member("map<int,map<int,int>>", MAPS_OF_MAPS))
    table.group("A struct without members; nothing may stand before it.", rows_of(file_of(""), EMPTY))
    table.group("Every member in the order of the tags.", rows_of(TWO, TWO_TEXTS))
    table.group("Structs in structs and vectors.", rows_of(INNER, INNER_TEXTS))


def add_places(table: Table) -> None:
    table.group("A space may stand between tokens, and nowhere else.", rows_of(ALL, put_in(ALL_TEXT, " ")))
    table.group("A line feed too.", rows_of(SOME, put_in(SOME_TEXT, "\n")))
    table.group("Several of them.", rows_of(SOME, put_in(SOME_TEXT, " \n\n  ")))
    for blank in ("\t", "\r"):
        table.group("No other blank.", rows_of(SOME, put_in(SOME_TEXT, blank)))
    for file, text in CUT:
        cut = [text[:end] for end in range(len(text) + 1)]
        table.group("A value that is cut off at each byte.", rows_of(file, cut))


def changed(rng, text: str) -> str:
    """The text with a byte changed, put in or left out."""
    at, byte = rng.randrange(len(text)), rng.choice('()[]{}#"\\:,=- 0125379aAfNx_')
    before, after = text[:at], text[at + 1 :]
    return rng.choice([before + byte + after, before + byte + text[at:], before + after])


def add_random(table: Table, seed: int) -> None:
    rng, made = random.Random(seed), []
    for _ in range(2000):
        file, text = rng.choice([*CUT, (ALL, ALL_TEXT)])
        made += rows_of(file, [changed(rng, text)])
    # By turns values and faults of each number.
    table.group("A byte that is changed, put in or left out.", varied(made, lambda line: line[0], 48))


if __name__ == "__main__":
    title = 'Texts of values (docs/SCRIPTS.md, "Value text"): `value FILE => TEXT`, where `~xHH` is a byte.'
    TABLE = Table("value_texts.rows", [title, "Made by tests/value_rows.py."])
    add_single(TABLE)
    add_nested(TABLE)
    add_places(TABLE)
    add_random(TABLE, 1)
    TABLE.write()
