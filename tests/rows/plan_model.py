"""Runs of scripts: docs/SCRIPTS.md and docs/PROTOCOL.md, written anew.

It shares nothing with the crates. Interface files have one module, `M`, and are those that `tables.File` reads.
"""

from .body_reader import Body, Malformed, Refused, members_of
from .body_writer import LONGEST, body
from .packets import REQUEST, RESPONSE, frame_of, refusal, values_of
from .tables import File, Interface, default_of, range_of
from .value_reader import Fault, ValueText, printed

WHOLE = ("byte", "short", "int", "long", "unsigned byte", "unsigned short", "unsigned int")


class LineFault(Exception):
    """A line of a script has a fault of names or values: its number."""


class Stream:
    """One direction of a link: what was written, how much of it was read, and what is left of a packet."""

    def __init__(self):
        self.waiting, self.held = b"", b""

    def read(self, count) -> list:
        taken = len(self.waiting) if count is None else min(count, len(self.waiting))
        self.held += self.waiting[:taken]
        self.waiting = self.waiting[taken:]
        packets = []
        while len(self.held) >= 4 and len(self.held) >= int.from_bytes(self.held[:4], "big"):
            length = int.from_bytes(self.held[:4], "big")
            packets.append(self.held[:length])
            self.held = self.held[length:]
        return packets


# ---- functions


def read_values(members: list, text: bytes) -> list:
    """The values that a text says, one for each member."""
    values, rest = [], text.lstrip(b" ")
    for member in members:
        reader = ValueText(rest)
        try:
            values.append(reader.value(member.type))
        except Fault:
            raise LineFault(7) from None
        rest = rest[reader.at :]
        if rest and not rest.startswith(b" "):
            raise LineFault(7)
        rest = rest.lstrip(b" ")
    if rest:
        raise LineFault(7)
    return values


def named(func, name: bytes) -> tuple:
    """The place and the type of the argument of a name."""
    for place, member in enumerate(func.arguments):
        if member.name.encode() == name:
            return place, member.type
    raise LineFault(6)


def whole(kind) -> None:
    if kind not in WHOLE:
        raise LineFault(6)


def rule_of(func, said: tuple) -> tuple:
    match said:
        case ("value", _, text):
            if func.ret is None:
                raise LineFault(7)
            reader = ValueText(text)
            try:
                value = reader.value(func.ret)
            except Fault:
                raise LineFault(7) from None
            if reader.data[reader.at :].strip(b" "):
                raise LineFault(7)
            return "value", value
        case ("echo", _, name):
            place, kind = named(func, name)
            if func.ret is None or kind != func.ret:
                raise LineFault(6)
            return "echo", place
        case ("add", _, left, right):
            whole(func.ret)
            places = [named(func, name) for name in (left, right)]
            for _, kind in places:
                whole(kind)
            return "add", places[0][0], places[1][0]
        case ("code", _, number):
            return "code", int(number)
    return ("silent",)


def defaults(func) -> list:
    return [default_of(member.type) for member in func.replied]


def reply(func, rule, args: list):
    """The code and the values of a reply; None where there is none."""
    values = defaults(func)
    match rule:
        case None:
            return 0, values
        case ("value", value):
            return 0, [value, *values[1:]]
        case ("echo", place):
            return 0, [args[place], *values[1:]]
        case ("add", left, right):
            least, greatest = range_of(func.ret)
            total = args[left] + args[right]
            return (0, [total, *values[1:]]) if least <= total <= greatest else (-99, None)
        case ("code", number):
            return number, None
    return None


# ---- sides


class Side:
    """The functions of the interface in one file."""

    def __init__(self, text: str, home: bytes, interface: bytes):
        declared = File(text).declared.get(interface.decode()) if home == b"M" else None
        self.funcs = declared.functions if isinstance(declared, Interface) else None

    def func(self, name: bytes):
        if name.decode(errors="replace") not in (self.funcs or {}):
            raise LineFault(6)
        return self.funcs[name.decode()]


class Node:
    """The server's end."""

    def __init__(self, run):
        self.run, self.stream, self.queue = run, Stream(), []

    def offer(self, packet: bytes) -> None:
        if len(self.queue) >= self.run.capacity:
            self.write(values_of(REQUEST, packet), -9, b"")
        else:
            self.queue.append(values_of(REQUEST, packet))

    def write(self, request: list, code: int, spelled: bytes) -> None:
        frame = frame_of(RESPONSE, [1, 0, request[3], request[2], code, spelled, [], b""])
        if len(frame) > LONGEST:
            frame = frame_of(RESPONSE, [1, 0, request[3], request[2], -2, b"", [], b""])
        self.run.back.waiting += frame

    def work(self) -> None:
        if not self.queue:
            return
        request = self.queue.pop(0)
        name = request[5]
        if name == b"tars_ping":
            return self.write(request, 0, b"")
        if name.decode() not in self.run.server.funcs:
            return self.write(request, -3, b"")
        func = self.run.server.funcs[name.decode()]
        try:
            args = members_of(func.arguments, Body(request[6]).fields())
        except (Malformed, Refused):
            return self.write(request, -1, b"")
        said = reply(func, self.run.rules.get(name), args)
        if said is not None:
            code, values = said
            self.write(request, code, body(func.replied, values) if code == 0 else b"")


class Run:
    """A script that was judged, event by event."""

    def __init__(self, one: dict, client: Side, server: Side):
        self.client, self.server, self.rules = client, server, {}
        self.object, _, _, self.timeout = one["object"]
        self.capacity = int(one["queue"][0]) if "queue" in one else 1000
        self.calls, self.sent, self.got, self.closed = [], [], [], False
        self.node, self.back = Node(self), Stream()

    def call(self, name: bytes, args: list) -> None:
        number = len(self.calls) + 1
        head = f"call {number} line 1 {name.decode()}"
        if sum(call["id"] is not None for call in self.calls) >= 8:
            self.calls.append({"head": head, "id": None, "end": "refused full"})
        elif self.closed:
            self.calls.append({"head": f"{head} node 1 live", "id": None, "end": "refused closed"})
        else:
            key = 1 + sum(call["id"] is not None for call in self.calls)
            func = self.client.funcs[name.decode()]
            values = [1, 0, 0, key, self.object, name, body(func.arguments, args), int(self.timeout), [], []]
            frame = frame_of(REQUEST, values)
            self.calls.append({"head": f"{head} node 1 live id {key}", "id": key, "func": func, "end": None})
            self.sent.append((number, frame))
            self.node.stream.waiting += frame

    def serve(self, count) -> None:
        for packet in self.node.stream.read(count):
            self.node.offer(packet)

    def deliver(self, count) -> None:
        for packet in self.back.read(count):
            values = values_of(RESPONSE, packet)
            for number, call in enumerate(self.calls, 1):
                if call["id"] == values[2] and call["end"] is None:
                    call["end"] = self.end(call["func"], values)
                    self.got.append((f"used {number}", packet))
                    break
            else:
                self.got.append(("late", packet))

    def end(self, func, response: list) -> str:
        if response[4] != 0:
            return f"code {response[4]}"
        try:
            values = members_of(func.replied, Body(response[5]).fields())
        except (Malformed, Refused) as fault:
            return f"code -12 {refusal(fault)}"
        texts = [printed(member.type, value) for member, value in zip(func.replied, values)]
        first = "void" if func.ret is None else texts.pop(0)
        outs = [member.name for member in func.replied if member.tag > 0]
        return "value " + " ".join([first, *(f"{name}={text}" for name, text in zip(outs, texts))])

    def close(self) -> None:
        self.closed = True
        for call in self.calls:
            if call["end"] is None:
                call["end"] = "closed"

    def report(self) -> str:
        self.close()
        lines = [f"{call['head']} {call['end']}" for call in self.calls]
        lines += [f"sent 1 {place} call {number} {frame.hex().upper()}" for place, (number, frame) in enumerate(self.sent, 1)]
        lines += [f"got 1 {place} {fate} {packet.hex().upper()}" for place, (fate, packet) in enumerate(self.got, 1)]
        lines.append(f"done calls {len(self.calls)} two-way {len(self.calls)} one-way 0")
        return "".join(line + "\n" for line in lines)


# ---- scripts

HEADERS = ("client", "server", "interface", "object", "queue")
EVENTS = ("serve", "work", "deliver", "close")


def judge(said: tuple, run: Run):
    """What a line of names or values means; an event that is to happen."""
    match said:
        case ("interface", *_):
            if run.client.funcs is None or run.server.funcs is None:
                raise LineFault(6)
        case ("value" | "echo" | "add" | "code" | "silent", name, *_):
            run.rules[name] = rule_of(run.server.func(name), said)
        case ("call", _, name, args):
            values = read_values(run.client.func(name).arguments, args or b"")
            return lambda: run.call(name, values)
        case ("serve" | "deliver" as what, _, count):
            return lambda: getattr(run, what)(None if count is None else int(count))
        case ("work", _):
            return run.node.work
        case ("close",):
            return run.close
    return None


def plan(lines: list, client: str, server: str, read_object) -> tuple:
    """The report of the lines of a script, or the number and the place of its fault."""
    one = {said[0]: said[1:] for _, said in lines if said[0] in HEADERS}
    one["object"] = read_object(one["object"][0])
    name = one["interface"]
    run = Run(one, Side(client, *name), Side(server if "server" in one else client, *name))
    events = []
    for at, said in lines:
        try:
            event = judge(said, run)
        except LineFault as fault:
            return None, (fault.args[0], at)
        if event:
            events.append(event)
    for event in events:
        event()
    return run.report(), None
