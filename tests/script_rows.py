#!/usr/bin/env python3
"""Writes a table of general scripts, and what each says or its fault.

    python3 tests/script_rows.py

writes `crates/script_tables/data/scripts.rows` and that crate's `stdout`; where nothing has changed, `git diff` shows nothing after it.
What comes of a row is told by `read` below, which goes by patterns of whole lines and shares nothing with the crates. The rows of
`BY_HAND` stand with what was worked by hand from docs/SCRIPTS.md ("General scripts"), which `read` has to give as well.
"""

import pathlib
import random
import re

CRATE = pathlib.Path(__file__).resolve().parent.parent / "crates" / "script_tables"

W, N, INT, IDENT = rb"([^ ]+)", rb"(0|[1-9][0-9]*)", rb"(0|-?[1-9][0-9]*)", rb"([A-Za-z][A-Za-z0-9_]*)"
FORMS = [
    ("client", rb"client +" + W),
    ("server", rb"server +" + W),
    ("interface", rb"interface +" + IDENT + rb"::" + IDENT),
    ("object", rb"object +(.+)"),
    ("value", rb"servant +" + W + rb" +value +(.+)"),
    ("echo", rb"servant +" + W + rb" +echo +" + W),
    ("add", rb"servant +" + W + rb" +add +" + W + rb" +" + W),
    ("code", rb"servant +" + W + rb" +code +" + INT),
    ("silent", rb"servant +" + W + rb" +silent"),
    ("queue", rb"queue +" + N + rb" +" + N),
    ("call", rb"call +" + N + rb" +" + W + rb"(?: +(.+))?"),
    ("serve", rb"serve +" + N + rb"(?: +" + N + rb")?"),
    ("work", rb"work +" + N),
    ("deliver", rb"deliver +" + N + rb"(?: +" + N + rb")?"),
    ("close", rb"close"),
]
OBJECT = rb"([A-Za-z0-9_]+\.[A-Za-z0-9_]+\.[A-Za-z0-9_]+)@tcp -h ([A-Za-z0-9.-]+) -p " + N + rb" -t " + N
RULES = ("value", "echo", "add", "code", "silent")
EVENTS = ("call", "serve", "work", "deliver", "close")


def form(line: bytes):
    """What a line says: None where it has no form."""
    line = line.strip(b" ")
    if line == b"" or line.startswith(b"#"):
        return ("skipped",)
    for name, pattern in FORMS:
        found = re.fullmatch(pattern, line, re.DOTALL)
        if found:
            if name in ("client", "server"):
                try:
                    found.group(1).decode("utf-8")
                except UnicodeDecodeError:
                    return None
            return (name, *found.groups())
    return None


def read_object(text: bytes):
    found = re.fullmatch(OBJECT, text, re.DOTALL)
    if found and 1 <= int(found.group(3)) <= 65_535 and 1 <= int(found.group(4)) <= 3_600_000:
        return found.groups()
    return None


def ranged(said, has_object: bool) -> bool:
    """Whether the numbers of a line are in range."""
    match said:
        case ("queue", capacity, wait):
            return 1 <= int(capacity) <= 10_000 and 1 <= int(wait) <= 3_600_000
        case ("code", _, number):
            return int(number) != 0 and -(2**31) <= int(number) < 2**31
        case ("call", caller, _, _):
            return int(caller) == 1
        case ("work", node):
            return int(node) == 1 and has_object
        case ("serve" | "deliver", node, count):
            return int(node) == 1 and has_object and int(count or 0) < 2**32
    return True


def faults(line: bytes, said, before) -> set:
    """The numbers of what is wrong with a line, after what the lines before it say."""
    found = {10} if len(line) > 4096 else set()
    if said is None:
        return found | {1}
    name, event = said[0], said[0] in EVENTS
    if name != "skipped" and not event:
        if any(other[0] in EVENTS for other in before):
            found.add(2)
        if name in RULES:
            again = any(other[0] in RULES and other[1] == said[1] for other in before)
        else:
            again = any(other[0] == name for other in before)
        if again:
            found.add(4)
    if name == "object" and read_object(said[1]) is None:
        found.add(5)
    if not ranged(said, any(other[0] == "object" for other in before)):
        found.add(8)
    if name == "call" and sum(other[0] == "call" for other in before) >= 4096:
        found.add(10)
    return found


def text_of(some: bytes) -> str:
    try:
        text = some.decode("utf-8")
    except UnicodeDecodeError:
        return f"[{some.hex().upper()}]"
    if any(byte < 32 for byte in some):
        return f"[{some.hex().upper()}]"
    return f"[{text}]" if len(some) <= 64 else f"[{len(some)} bytes]"


def event_text(said) -> str:
    match said:
        case ("call", _, func, args):
            return f"call {text_of(func)}{text_of(args or b'')}"
        case ("serve" | "deliver" as name, _, count):
            return f"{name} {'all' if count is None else int(count)}"
    return said[0]


def rule_text(said) -> str:
    match said:
        case ("code", _, number):
            return f"code {int(number)}"
        case ("silent", _):
            return "silent"
    return f"{said[0]} {''.join(text_of(word) for word in said[2:])}"


def say(lines) -> str:
    """The text of what lines say that have no fault."""
    one = {said[0]: (at, said) for at, said in lines}
    out = f"client {text_of(one['client'][1][1])}"
    if "server" in one:
        out += f" server {text_of(one['server'][1][1])}"
    at, said = one["interface"]
    out += f"; {at} interface {text_of(said[1])}{text_of(said[2])}"
    name, host, port, wait = read_object(one["object"][1][1])
    out += f"; object {text_of(name)}{text_of(host)} {int(port)} {int(wait)}"
    if "queue" in one:
        out += f"; queue {int(one['queue'][1][1])} {int(one['queue'][1][2])}"
    for at, said in lines:
        if said[0] in RULES:
            out += f"; {at} rule {text_of(said[1])} {rule_text(said)}"
    events = [(at, said) for at, said in lines if said[0] in EVENTS]
    if len(events) > 8:
        return out + f"; {len(events)} events"
    return out + "".join(f"; {at} {event_text(said)}" for at, said in events)


def judged(text: bytes) -> tuple:
    """The first fault of a text, as its number and place, if it has one, and the lines before it with their places."""
    pieces = text.split(b"\n")
    if pieces[-1] == b"":
        pieces.pop()
    at, lines = 0, []
    for piece in pieces:
        said = form(piece)
        found = faults(piece, said, [other for _, other in lines])
        if found:
            return (min(found), at), lines
        lines.append((at, said))
        at += len(piece) + 1
    if not {"client", "interface", "object"} <= {said[0] for _, said in lines}:
        return (3, len(text)), lines
    return None, lines


def read(text: bytes) -> str:
    fault, lines = judged(text)
    return f"fault {fault[0]} {fault[1]}" if fault else say(lines)


def bytes_of(row: str) -> bytes:
    """The bytes of a row's text, as `row_pages` has them."""
    first, *pieces = row.split("~")
    out = first.encode()
    for piece in pieces:
        if piece[0] in "ntr":
            out += {"n": b"\n", "t": b"\t", "r": b"\r"}[piece[0]] + piece[1:].encode()
        elif piece[0] == "x":
            out += bytes([int(piece[1:3], 16)]) + piece[3:].encode()
        else:
            count, more = piece.split("(", 1)
            again, rest = more.split(")", 1)
            out += again.encode() * int(count) + rest.encode()
    return out


C, I, O = "client c.tars", "interface M::I", "object A.B.C@tcp -h h -p 9001 -t 3000"
HEAD = f"{C}~n{I}~n{O}~n"
# HEAD is 67 bytes long: 14, 15 and 38
SAID = "client [c.tars]; 14 interface [M][I]; object [A.B.C][h] 9001 3000"
BY_HAND = [
    ("# The least script, with and without its last line feed, and with headers in another order.", None),
    (HEAD, SAID),
    (HEAD[:-2], SAID),
    (f"{O}~n{I}~n{C}~n", "client [c.tars]; 38 interface [M][I]; object [A.B.C][h] 9001 3000"),
    ("# Empty lines, comments and spaces.", None),
    (f"~n   ~n# x~n  #x~n{HEAD}#~n ~n", "client [c.tars]; 28 interface [M][I]; object [A.B.C][h] 9001 3000"),
    (f"  client   c.tars  ~n  interface  M::I ~n object   A.B.C@tcp -h h -p 9001 -t 3000  ",
     "client [c.tars]; 20 interface [M][I]; object [A.B.C][h] 9001 3000"),
    ("# A tab and a carriage return are bytes of words.", None),
    (f"~t# x~n{HEAD}", "fault 1 0"),
    (f"~r~n{HEAD}", "fault 1 0"),
    (f"client c.tars~r~n{I}~n{O}~n", "client [632E746172730D]; 15 interface [M][I]; object [A.B.C][h] 9001 3000"),
    (f"client~tc.tars~n{I}~n{O}~n", "fault 1 0"),
    ("# Files, and the rules.", None),
    (f"server s.tars~n{HEAD}", "client [c.tars] server [s.tars]; 28 interface [M][I]; object [A.B.C][h] 9001 3000"),
    (f"client ~xC3~xA4~n{I}~n{O}", "client [ä]; 10 interface [M][I]; object [A.B.C][h] 9001 3000"),
    (f"client ~xC3~n{I}~n{O}", "fault 1 0"),
    (f"{HEAD}servant f value  (a=\"x  y\", b=1)  ~n", SAID + '; 67 rule [f] value [(a="x  y", b=1)]'),
    (f"{HEAD}servant f echo a~nservant g add a  a~nservant h code -1~nservant i silent~n",
     SAID + "; 67 rule [f] echo [a]; 84 rule [g] add [a][a]; 103 rule [h] code -1; 121 rule [i] silent"),
    (f"servant f silent~n{HEAD}", "client [c.tars]; 31 interface [M][I]; object [A.B.C][h] 9001 3000; 0 rule [f] silent"),
    (f"{HEAD}queue 10000 3600000~n", SAID + "; queue 10000 3600000"),
    ("# Events.", None),
    (f"{HEAD}call 1 f~ncall 1 key 5 g~n call  1  f  1  \"a  b\" ~n",
     SAID + '; 67 call [f][]; 76 call [key][5 g]; 91 call [f][1  "a  b"]'),
    (f"{HEAD}serve 1~nserve 1 0~nserve 1 4294967295~nwork 1~ndeliver 1~ndeliver 1 7~nclose~nclose~n",
     SAID + "; 67 serve all; 75 serve 0; 85 serve 4294967295; 104 work; 111 deliver all; 121 deliver 7; 133 close; 139 close"),
    ("# 1: no form.", None),
    ("", "fault 3 0"),
    (f"{HEAD}workers 2~n", "fault 1 67"),
    (f"{HEAD}key 1~n", "fault 1 67"),
    (f"{HEAD}Close~n", "fault 1 67"),
    (f"{HEAD}close 1~n", "fault 1 67"),
    (f"{HEAD}servant f value~n", "fault 1 67"),
    (f"{HEAD}servant f value  ~n", "fault 1 67"),
    (f"{HEAD}servant f code -0~n", "fault 1 67"),
    (f"{HEAD}servant f code 01~n", "fault 1 67"),
    (f"{HEAD}queue +1 1~n", "fault 1 67"),
    (f"{HEAD}serve 01~n", "fault 1 67"),
    (f"{HEAD}serve 1 -1~n", "fault 1 67"),
    (f"{C}~ninterface M:I~n{O}~n", "fault 1 14"),
    (f"{C}~ninterface M::I::J~n{O}~n", "fault 1 14"),
    (f"{C}~ninterface 1M::I~n{O}~n", "fault 1 14"),
    (f"{C}~ninterface struct::I_1~n{O}~n", "client [c.tars]; 14 interface [struct][I_1]; object [A.B.C][h] 9001 3000"),
    (f"object~n{C}~n{I}~n", "fault 1 0"),
    ("# 2: a header after an event.", None),
    (f"{HEAD}close~nqueue 1 1~n", "fault 2 73"),
    (f"{HEAD}close~n{C}~n", "fault 2 73"),
    (f"{HEAD}close~nqueue 0 1~n", "fault 2 73"),
    ("# 3: a header is missing.", None),
    (f"{C}~n{I}~n", "fault 3 29"),
    (f"{C}~n{O}", "fault 3 51"),
    (f"{I}~n{O}~nclose~n", "fault 3 59"),
    (f"{C}~n{I}~nserve 1~n", "fault 8 29"),
    (f"{C}~n{I}~ncall 1 f~n", "fault 3 38"),
    ("# 4: a header twice, two rules of one function.", None),
    (f"{HEAD}{C}~n", "fault 4 67"),
    (f"{HEAD}object x~n", "fault 4 67"),
    (f"{HEAD}servant f silent~nservant f code 0~n", "fault 4 84"),
    (f"{HEAD}servant f silent~nservant F silent~n", SAID + "; 67 rule [f] silent; 84 rule [F] silent"),
    ("# 5: an object's text.", None),
    (f"object A.B.C@tcp -h h -p 0 -t 3000~n", "fault 5 0"),
    (f"object A.B.C@tcp  -h h -p 1 -t 3000~n", "fault 5 0"),
    (f"object A.B.C@tcp -h h -p 01 -t 3000~n", "fault 5 0"),
    (f"object A.B.C@tcp -h h -p 65536 -t 3000~n", "fault 5 0"),
    (f"object A.B.C@tcp -h h -p 65535 -t 3600001~n", "fault 5 0"),
    (f"object A.B@tcp -h h -p 1 -t 1~n", "fault 5 0"),
    (f"object A.B.C@tcp -t 1 -h h -p 1~n", "fault 5 0"),
    ("# 8: numbers out of range.", None),
    (f"{HEAD}queue 0 1~n", "fault 8 67"),
    (f"{HEAD}queue 10001 1~n", "fault 8 67"),
    (f"{HEAD}queue 1 3600001~n", "fault 8 67"),
    (f"{HEAD}servant f code 0~n", "fault 8 67"),
    (f"{HEAD}servant f code 2147483648~n", "fault 8 67"),
    (f"{HEAD}servant f code -2147483648~n", SAID + "; 67 rule [f] code -2147483648"),
    (f"{HEAD}servant f code ~30(9)~n", "fault 8 67"),
    (f"{HEAD}call 2 f~n", "fault 8 67"),
    (f"{HEAD}call 0 f~n", "fault 8 67"),
    (f"{HEAD}serve 2~n", "fault 8 67"),
    (f"{HEAD}serve 1 4294967296~n", "fault 8 67"),
    (f"{HEAD}deliver 1 18446744073709551616~n", "fault 8 67"),
    (f"work 1~n{HEAD}", "fault 8 0"),
    ("# 10: long lines and many calls.", None),
    (f"{HEAD}#~4095(x)~n", SAID),
    (f"{HEAD}#~4096(x)~n", "fault 10 67"),
    (f"{HEAD}~4097( )~n", "fault 10 67"),
    (f"{HEAD}close~4092( )~n", "fault 10 67"),
    (f"{HEAD}x~4096( )~n", "fault 1 67"),
    (f"{HEAD}call 1 f ~4087(x)~n", SAID + "; 67 call [f][4087 bytes]"),
    (f"{HEAD}call 1 f ~4088(x)~n", "fault 10 67"),
]

LINES = [
    "client c", "server s", "interface M::I", "interface M", O, "object A.B.C@tcp -h h -p 1", "servant f echo a", "servant f silent",
    "servant g code 0", "servant g code 7", "servant g value 1 2", "servant h add a b c", "queue 1 1", "queue 1 0", "call 1 f 1 2",
    "call 2 f", "serve 1", "serve 1 99", "serve 2", "work 1", "deliver 1", "close", "close now", "# x", "", "   ", "tick 1",
]


def random_scripts(count: int):
    """Scripts of a few lines, most of which are good by themselves."""
    rng = random.Random(11)
    for _ in range(count):
        heads = [C, I, O] if rng.random() < 0.8 else rng.sample([C, I, O], 2)
        rng.shuffle(heads)
        lines = heads + rng.sample(LINES[6:], rng.randint(1, 3))
        for _ in range(rng.randint(0, 2)):
            lines.insert(rng.randint(0, len(lines)), rng.choice(LINES))
        lines = [rng.choice(["", "", " "]) + line.replace(" ", rng.choice([" ", " ", "  "]) if "@" not in line else " ") for line in lines]
        yield "~n".join(lines) + rng.choice(["~n", ""])


def main():
    rows, out = [], []

    def add(row: str):
        rows.append(f"script {row}")
        out.append(read(bytes_of(row)))

    rows.append('# Scripts (docs/SCRIPTS.md, "General scripts"). `~n`, `~t`, `~r` and `~xHH` stand for a byte, and `~N(PIECE)` for so many')
    rows.append("# times the piece. Made by tests/script_rows.py, which has those of the first part with what was worked by hand.")
    out.extend(rows)
    for row, wanted in BY_HAND:
        if wanted is None:
            rows.extend(["", row])
            out.extend(["", row])
            continue
        add(row)
        assert out[-1] == wanted, f"{row}: {out[-1]} and not {wanted}"
    for calls, wanted in ((4096, f"{SAID}; 4097 events"), (4097, f"fault 10 {67 + 9 * 4096}")):
        add(HEAD + "call 1 f~n" * calls + "close")
        assert out[-1] == wanted
    rows.extend(["", "# Lines that were put together by chance."])
    out.extend(rows[-2:])
    for row in random_scripts(400):
        add(row)
    (CRATE / "data" / "scripts.rows").write_text("\n".join(rows) + "\n")
    (CRATE / "stdout").write_text("\n".join(out) + "\n")


if __name__ == "__main__":
    main()
