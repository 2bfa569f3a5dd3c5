#!/usr/bin/env python3
"""Writes the table of scripts that are run, and what each run writes.

    python3 tests/plan_rows.py

writes `plans.rows` of `crates/run_tables/data` and its part of that crate's `stdout`; where nothing has changed, `git diff` shows
nothing after it. What comes of a row is told by `rows/plan_model.py`, which shares nothing with the crates; where an interface file is
refused or is not there, it stands beside the row. A row is `texts SCRIPT => CLIENT => SERVER`, of `first.plan`, `calc.tars` and `b.tars`.
"""

from rows.plan_model import plan
from rows.tables import RANGES, Table
from script_rows import bytes_of, judged, read_object

OBJECT = "object A.B.C@tcp -h h -p 9001 -t 3000~n"
HEAD = f"client calc.tars~ninterface M::I~n{OBJECT}"
TWO = f"client calc.tars~nserver b.tars~ninterface M::I~n{OBJECT}"
ADD = "int add(int a,int b);"
RUN = "serve 1~nwork 1~ndeliver 1~n"
INSIDE = "enum E{A=3,B};struct S{0 require int a;1 optional string b=\"x\";};"


def file(funcs: str, more: str = "") -> str:
    return f"module M{{{more}interface I{{{funcs}}};}};"


def outcome(script: str, client: str, server: str) -> str:
    text = bytes_of(script)
    fault, lines = judged(text)
    report = None
    if fault is None:
        report, fault = plan(lines, client, server, read_object)
    if fault:
        return f"Refused: refused first.plan script {fault[0]} {fault[1]}~n"
    return "Done: " + report.replace("\n", "~n")


def row(script: str, client: str, server: str = "-", said: str | None = None) -> tuple:
    return f"texts {script} => {client} => {server}", said or outcome(script, client, server)


def called(events: str, funcs: str, rules: str = "", more: str = "", queue: str = "") -> tuple:
    """A script of these events, of one file."""
    return row(f"{HEAD}{rules}{queue}{events}", file(funcs, more))


def between(events: str, client: str, server: str, rules: str = "", more: tuple = ("", "")) -> tuple:
    """A script of these events, of two files."""
    return row(f"{TWO}{rules}{events}", file(client, more[0]), file(server, more[1]))


# ---- what is accepted

TYPES = [
    ("bool", "true"), ("byte", "-128"), ("short", "32767"), ("int", "-32769"), ("long", "-9223372036854775808"),
    ("unsigned byte", "255"), ("unsigned short", "65535"), ("unsigned int", "4294967295"), ("string", "\"a b\\x00\""), ("E", "4"),
    ("S", "(a=1, b=\"y\")"), ("vector<byte>", "#00FF"), ("vector<int>", "[1, 2]"), ("vector<S>", "[(a=1, b=\"\")]"),
    ("map<string,int>", "{\"a\": 1, \"b\": 2}"), ("map<E,vector<string>>", "{3: [\"c\"]}"),
]
KINDS = ["byte", "short", "int", "long", "unsigned byte", "unsigned short", "unsigned int"]


def type_rows() -> list:
    """Each type as an argument that comes back, as an `out` parameter, and as what a rule gives."""
    rows = []
    for kind, text in TYPES:
        rows.append(called(f"call 1 f {text}~n{RUN}", f"{kind} f({kind} a,out {kind} b);", "servant f echo a~n", INSIDE))
        rows.append(called(f"call 1 f~n{RUN}", f"{kind} f(out {kind} b);", f"servant f value {text}~n", INSIDE))
    return rows


def sum_rows() -> list:
    """Sums at the ends of each kind, and one past."""
    rows = []
    for kind in KINDS:
        least, greatest = RANGES[kind]
        for first, second in ((greatest - 1, 1), (greatest, 1), (least + 1, -1), (least, -1)):
            rows.append(called(f"call 1 f {first} {second}~n{RUN}", f"{kind} f({kind} a,long b);", "servant f add a b~n"))
    return rows


def cut_rows() -> list:
    """Each cut of a request of 37 bytes and of a reply of 21, by turns."""
    rows = []
    for cut in range(1, 37):
        events = f"call 1 add 2 3~nserve 1 {cut}~nwork 1~nserve 1~nwork 1~ndeliver 1 {cut % 21}~ndeliver 1~n"
        rows.append(called(events, ADD, "servant add add a b~n"))
    for cut in range(1, 21):
        rows.append(called(f"call 1 add 2 3~nserve 1~nwork 1~ndeliver 1 {cut}~n", ADD, "servant add add a b~n"))
    return rows


def queue_rows() -> list:
    rows = []
    for capacity in (1, 2, 3, 10_000):
        calls = "".join(f"call 1 add {n} {n}~n" for n in range(1, 5))
        queue = f"queue {capacity} 3000~n"
        rows.append(called(f"{calls}serve 1~n{'work 1~n' * 4}deliver 1~n", ADD, "servant add add a b~n", queue=queue))
        rows.append(called(f"{calls}serve 1 37~nwork 1~nserve 1~nwork 1~ndeliver 1~nserve 1~nwork 1~ndeliver 1~n", ADD, queue=queue))
    return rows


def accepted(table: Table) -> None:
    add = "servant add add a b~n"
    table.group("An exchange: whole, in pieces, and by parts of it.", [
        called(f"call 1 add 2 3~n{RUN}", ADD, add),
        called("call 1 add 2 3~nserve 1 36~nwork 1~nserve 1 1~nwork 1~ndeliver 1 4~ndeliver 1 16~ndeliver 1 0~ndeliver 1 1~n", ADD, add),
        called("", ADD), called("close~n", ADD), called("serve 1~nwork 1~ndeliver 1~n", ADD), called("call 1 add 2 3~n", ADD, add),
        called("call 1 add 2 3~nserve 1 0~nwork 1~ndeliver 1~n", ADD, add),
        called("call 1 add 2 3~nserve 1 4294967295~nwork 1~nwork 1~ndeliver 1 4294967295~n", ADD, add),
        called(f"call 1 add 2 3~nclose~n{RUN}call 1 add 4 5~n", ADD, add),
        called("call 1 add 1 1~n" * 9 + "serve 1~n" + "work 1~n" * 9 + "deliver 1~n", ADD, add),
        called("call 1 add 1 1~ncall 1 add 2 2~nserve 1 50~nwork 1~ndeliver 1 30~nserve 1~nwork 1~ndeliver 1~n", ADD, add),
    ])
    table.group("Each type as an argument, in an `out` parameter and as what is returned.", type_rows())
    table.group("Each kind of rule, and none.", [
        called(f"call 1 half 9~n{RUN}", "int half(int n,out int rest,out string t);", "servant half value 4~n"),
        called(f"call 1 get~n{RUN}", "S get();", "servant get code 7~n", INSIDE),
        called(f"call 1 get~n{RUN}", "S get();", "servant get code -2147483648~n", INSIDE),
        called(f"call 1 get~n{RUN}", "S get();", "", INSIDE), called(f"call 1 get~n{RUN}", "E get();", "", INSIDE),
        called(f"call 1 nop~n{RUN}", "void nop();"), called(f"call 1 nop~n{RUN}", "void nop();", "servant nop code 2147483647~n"),
        called(f"call 1 nop~n{RUN}", "void nop(out int a,out E e);", "", INSIDE),
        called(f"call 1 raw #0AFF~n{RUN}", "vector<byte> raw(vector<byte> d);", "servant raw silent~n"),
        called(f"call 1 two 1 2~n{RUN}", "int two(int a,out int b,int c);", "servant two echo c~n"),
        called(f"call 1 two 1 2~n{RUN}", "int two(int a,out int b,int c);", "servant two add c c~n"),
        called("call 1 f~ncall 1 g~nserve 1~nwork 1~nwork 1~ndeliver 1~n", "int f();int g();", "servant g value 2~nservant f value 1~n"),
    ])
    table.group("Sums at the ends of each kind of whole numbers, and past them.", sum_rows())
    table.group("Each cut of an exchange.", cut_rows())
    table.group("A queue that is full refuses at once, and so before what waits is answered.", queue_rows())
    table.group("Headers in any order, comments, empty lines and spaces.", [
        row(f"{OBJECT}queue 5 5~nservant add add a b~n# x~n~ninterface M::I~n  client  calc.tars  ~ncall 1 add 2 3~n{RUN}", file(ADD)),
        row(f"{HEAD}  call   1   add   2   3  ~n#~n~n  serve  1  ~n#work 1~nwork 1~n   ~ndeliver 1", file(ADD)),
        row(f"{HEAD}servant  add  add  b  a~ncall 1 add 2 3~n# {'x' * 90}~n{RUN}", file(ADD)),
        row(f"{HEAD}servant f  value  [ 1 ,2 ]  ~ncall 1 f [1]  ( a = 1 , b = \"\" )~n{RUN}", file("vector<int> f(vector<int> v,S s);", INSIDE)),
    ])
    table.group("Two versions: members that one side lacks, functions in another order, functions that one side lacks.", [
        between(f"call 1 get~n{RUN}", "S get();", "S get();", "servant get value (a=5)~n",
                ("struct S{0 require int a;1 optional int b=7;};", "struct S{0 require int a;};")),
        between(f"call 1 get~n{RUN}", "S get();", "S get();", "servant get value (a=5)~n",
                ("struct S{0 require int a;1 require int b;};", "struct S{0 require int a;};")),
        between(f"call 1 put (a=5)~n{RUN}", "void put(S s);", "void put(S s);", "",
                ("struct S{0 require int a;};", "struct S{0 require int a;1 require int b;};")),
        between(f"call 1 put (a=5)~n{RUN}", "S put(S s);", "S put(S s);", "servant put echo s~n",
                ("struct S{0 require int a;};", "struct S{0 require int a;1 optional int b=2;};")),
        between(f"call 1 f 300~n{RUN}", "int f(int a);", "byte f(byte a);", "servant f echo a~n"),
        between(f"call 1 f 3~n{RUN}", "byte f(byte a);", "int f(int a);", "servant f value 300~n"),
        between(f"call 1 f 3~n{RUN}", "string f(byte a);", "int f(int a);", "servant f echo a~n"),
        between(f"call 1 f 1~n{RUN}", "unsigned byte f(int a);", "short f(int a);", "servant f value -1~n"),
        between(f"call 1 f 1~n{RUN}", "int f(int a);", "int f(int a,int b);", ""),
        between(f"call 1 f 1 2~n{RUN}", "int f(int a,int b);", "int f(int a);", "servant f echo a~n"),
        between(f"call 1 f 1~n{RUN}", "int f(int a,out int b);", "int f(int a);", "servant f echo a~n"),
        between(f"call 1 f 1~n{RUN}", "void f(int a);", "int f(int a);", "servant f echo a~n"),
        between(f"call 1 nop~n{RUN}", "void nop();", "void no();"),
        between(f"call 1 g~n{RUN}", "int f();int g();", "int g();int f();", "servant f value 1~nservant g value 2~n"),
        between(f"call 1 g~n{RUN}", "int g();", "int f();int g();", "servant f value 1~nservant g value 2~n"),
        between(f"call 1 m~n{RUN}", "map<byte,int> m();", "map<int,int> m();", "servant m value {1: 1, 2: 2}~n"),
        row(f"client calc.tars~nserver calc.tars~ninterface M::I~n{OBJECT}servant add add a b~ncall 1 add 2 3~n{RUN}", file(ADD), file(ADD)),
    ])


# ---- what is refused

LONG = f"# {'x' * 4094}"
FORMS = [
    "x", "client", "client a b", "server", "interface", "interface M", "interface M::", "interface M:I", "interface M::I x",
    "object", "servant", "servant add", "servant add value", "servant add echo", "servant add add a", "servant add add a b c", "servant add code",
    "servant add code x", "servant add code -0", "servant add code 07", "servant add silent x", "servant add sub a b", "queue 1", "queue 1 2 3",
    "queue -1 1", "queue 01 1", "call", "call 1", "call x add", "call 01 add", "serve", "serve 1 2 3", "serve -1", "serve 1 +1", "work", "work 1 1",
    "deliver", "deliver 1 01", "close 1", "workers 2", "tick 1", "break 1", "collect 1", "set A.B.C", "rule robin", "begin 1 add 2 3",
]
NUMBERS = [
    "queue 0 1", "queue 10001 1", "queue 1 0", "queue 1 3600001", "servant x code 0", "servant x code 2147483648", "servant x code -2147483649",
    "call 0 add 1 2", "call 2 add 1 2", "serve 0", "serve 2", "serve 1 4294967296", "work 0", "work 2", "deliver 2", "deliver 1 4294967296",
]
OBJECTS = ["A.B@tcp -h h -p 1 -t 1", "A.B.C@udp -h h -p 1 -t 1", "A.B.C@tcp -h h_ -p 1 -t 1", "A.B.C@tcp -h h -p 0 -t 1",
           "A.B.C@tcp -h h -p 65536 -t 1", "A.B.C@tcp -h h -p 1 -t 0", "A.B.C@tcp -h h -p 1 -t 3600001", "A.B.C@tcp  -h h -p 1 -t 1"]
# Rules, the fault of each, over `RULED`.
RULED = "int f(int a,out int b,long c,S s);void v(int a);S g(S s);bool t(bool a,bool b);E e(E a);string n(string a);"
RULES = [
    "servant x silent", "servant x code 1", "servant f echo x", "servant f echo b", "servant f echo c", "servant f echo s", "servant v echo a",
    "servant f add a x", "servant f add x a", "servant f add a b", "servant f add a s", "servant v add a a", "servant t add a b",
    "servant e add a a", "servant n add a a", "servant f value x", "servant f value 2147483648", "servant f value 1 2", "servant f value 01",
    "servant v value 0", "servant g value (a=1", "servant g value (a=1, b=2)", "servant n value \"a", "servant e value C", "servant t value 1",
]
CALLS = [
    "call 1 x", "call 1 f", "call 1 f 1", "call 1 f 1 2 (a=1, b=\"\") 3", "call 1 f 1 2 (a=1)", "call 1 f 1,2", "call 1 n a", "call 1 n \"a\"x",
    "call 1 t tru true", "call 1 e 2147483648", "call 1 v -0", "call 1 g ()", "call 1 n \"\\x0\"", "call 1 v 1.0",
]


def refused(table: Table) -> None:
    add = file(ADD)
    table.group("A line of no form, first and last.", [
        made for line in FORMS for made in (row(f"{line}~n{HEAD}", add), row(f"{HEAD}{RUN}{line}", add))])
    table.group("Numbers out of range, first where they may stand and last.", [row(f"{HEAD}{line}~n{RUN}", add) for line in NUMBERS]
                + [row(f"{HEAD}{RUN}{line}", add) for line in NUMBERS])
    table.group("A text that is no object.", [row(f"client calc.tars~ninterface M::I~nobject {text}~n", add) for text in OBJECTS])
    table.group("A header after an event, a header twice, a header that is missing.", [
        row(f"{HEAD}close~n{line}~n", add) for line in ("client a.tars", "server a.tars", "interface M::I", "object x", "servant f silent", "queue 1 1")
    ] + [
        row(f"{HEAD}{line}~n", add) for line in ("client calc.tars", "interface M::I", "servant f silent~nservant f code 1", "queue 1 1~nqueue 2 2")
    ] + [
        row(f"client calc.tars~n{OBJECT}", add), row(f"interface M::I~n{OBJECT}", add), row("client calc.tars~ninterface M::I~n", add), row("", add),
        row(f"{HEAD}server b.tars~nserver b.tars~n", add, add), row(f"{HEAD}{OBJECT}", add),
    ])
    table.group("Lines and calls past their limits.", [
        row(f"{LONG}~n{HEAD}", add), row(f"{HEAD}{LONG[:-1]}x", add), row(f"{HEAD}{LONG}~n", add), row(f"{HEAD}{LONG[:-2]}~n", add),
    ])
    table.group("Two faults: on one line the least number, on two lines the first line.", [
        row(f"{HEAD}close~nobject x~n", add), row(f"{HEAD}close~nqueue 0 0~n", add), row(f"{HEAD}{OBJECT[:-2]}x~n", add),
        row(f"{HEAD}queue 1 1~nqueue 0 1~n", add), row(f"{HEAD}serve 2~nx~n", add), row(f"{HEAD}x~nserve 2~n", add),
        row(f"serve 2~n{HEAD}", add), row(f"serve 1~n{HEAD}", add), row(f"{HEAD}servant x silent~nserve 2~n", add),
        row(f"client calc.tars~nserve 2~n", add),
    ])
    ruled = file(RULED, INSIDE)
    table.group("Rules of names and values that the server's interface does not have.", [row(f"{HEAD}{line}~n{RUN}", ruled) for line in RULES])
    table.group("Calls of names and values that the caller's interface does not have.", [row(f"{HEAD}{RUN}{line}", ruled) for line in CALLS])
    table.group("An interface that one of both files lacks, and the order of lines.", [
        row(f"client calc.tars~ninterface M::J~n{OBJECT}", add), row(f"client calc.tars~ninterface M::i~n{OBJECT}", add),
        row(f"client calc.tars~ninterface N::I~n{OBJECT}", add), row(f"client calc.tars~ninterface M::interface~n{OBJECT}", add),
        row(f"client calc.tars~ninterface M::S~n{OBJECT}", file(ADD, INSIDE)),
        row(f"servant add silent~nclient calc.tars~ninterface M::J~n{OBJECT}", add),
        row(f"client calc.tars~ninterface M::J~n{OBJECT}servant add silent~n", add),
        row(f"servant add silent~n{TWO}", "module M{interface J{void v();};};", file(ADD)),
        row(f"servant add silent~n{TWO}", file(ADD), "module M{interface J{void v();};};"),
        row(f"{TWO}", file(ADD), "module M{interface J{void v();};};"), row(f"{TWO}", "module M{interface J{void v();};};", file(ADD)),
        row(f"servant f value x~n{HEAD}call 1 x~n", ruled), row(f"{HEAD}servant f value x~nservant x silent~n", ruled),
        row(f"{HEAD}servant x silent~nservant f value x~n", ruled), row(f"{HEAD}servant f echo x~ncall 1 f~n", ruled),
        row(f"{HEAD}call 1 f~ncall 1 x~n", ruled), row(f"{HEAD}call 1 x~ncall 1 f~n", ruled),
        between("call 1 g 1~n", "int f(int a);", "int g(int a);"), between("call 1 f 1~n", "int f(int a);", "int g(int a);", "servant f echo a~n"),
        between("call 1 f 1~n", "int f(string a);", "int f(int a);", "servant f echo a~n"),
        between("call 1 f \"\"~n", "int f(string a);", "int f(int a);", "servant f echo a~n"),
    ])
    bad = "module M{interface I{int add(int a int b);};};"
    table.group("Files, after the lines of the script and before its names and values.", [
        row(f"client x.tars~ninterface M::I~n{OBJECT}", add, said="ReadFault"),
        row(f"client calc.tars~nserver x.tars~ninterface M::I~n{OBJECT}", add, said="ReadFault"),
        row(f"client x.tars~ninterface M::I~n{OBJECT}serve 2~n", add),
        row(f"{HEAD}call 1 x~n", bad, said=f"Refused: refused calc.tars parse 5 {bad.index('int b')}~n"),
        row(f"{TWO}call 1 x~n", add, bad, said=f"Refused: refused b.tars parse 5 {bad.index('int b')}~n"),
        row(f"{TWO}serve 2~n", bad, bad), row(f"{TWO}call 1 x~n", bad, bad, said=f"Refused: refused calc.tars parse 5 {bad.index('int b')}~n"),
    ])


def main() -> None:
    table = Table("plans.rows", [
        "Scripts that are run, and those that are refused (docs/SCRIPTS.md). `texts SCRIPT => CLIENT => SERVER` are the",
        "texts of `first.plan`, `calc.tars` and `b.tars`. `~n` and `~N(PIECE)` are as in `texts.rows`. Written by `tests/plan_rows.py`.",
    ], "run_tables")
    accepted(table)
    refused(table)
    table.write()


if __name__ == "__main__":
    main()
