"""Values as text and back: the rules of docs/SCRIPTS.md, "Value text", written anew.

It shares nothing with the crates.
"""

import os

from .tables import Enum, Map, Struct, Vector, range_of

UNEXPECTED, RANGE, TWICE_KEY = 1, 2, 3
DIGITS = b"0123456789"
HEX_DIGITS = b"0123456789abcdefABCDEF"
LETTERS = b"abcdefghijklmnopqrstuvwxyzABCDEFGHIJKLMNOPQRSTUVWXYZ"
# What stands for itself in a text.
PLAIN = bytes(byte for byte in range(0x20, 0x7F) if byte not in b'"\\')


class Fault(Exception):
    """A text begins with no value: the number and the offset."""


class ValueText:
    """Reads the value at the start of a text; `at` is where the next byte stands."""

    def __init__(self, data: bytes):
        self.data = data
        self.at = 0

    def next_is(self, some: bytes) -> bool:
        """Whether the next byte is one of these; not at the end."""
        return self.at < len(self.data) and self.data[self.at] in some

    def take(self, some: bytes) -> int:
        """Goes past the next byte, which has to be one of these."""
        if not self.next_is(some):
            raise Fault(UNEXPECTED, self.at)
        self.at += 1
        return self.data[self.at - 1]

    def run(self, some: bytes) -> bytes:
        """Goes past all next bytes that are some of these."""
        start = self.at
        while self.next_is(some):
            self.at += 1
        return self.data[start : self.at]

    def word(self, word: bytes) -> None:
        for byte in word:
            self.take(bytes([byte]))

    def sign(self, signs: bytes) -> int:
        """A sign with spaces and line feeds before and after it."""
        self.run(b" \n")
        sign = self.take(signs)
        self.run(b" \n")
        return sign

    def value(self, kind):
        match kind:
            case "bool":
                is_true = not self.next_is(b"f")
                self.word(b"true" if is_true else b"false")
                return is_true
            case "string":
                return self.text()
            case Vector("byte"):
                return self.blob()
            case Vector(of):
                return self.several(b"[", b"]", lambda: self.value(of))
            case Map():
                return self.map(kind)
            case Struct(members):
                return self.struct(members)
            case Enum(numbers) if self.next_is(LETTERS + b"_"):
                return self.enumerator(numbers)
        return self.number(kind)

    def number(self, kind) -> int:
        start = self.at
        is_negative = self.next_is(b"-") and bool(self.take(b"-"))
        # There is no -0, and no digit stands behind a first 0.
        if self.take(b"123456789" if is_negative else DIGITS) != ord("0"):
            self.run(DIGITS)
        number = int(self.data[start : self.at])
        least, greatest = range_of(kind)
        if not least <= number <= greatest:
            raise Fault(RANGE, start)
        return number

    def enumerator(self, numbers: dict) -> int:
        start = self.at
        word = self.run(LETTERS + DIGITS + b"_").decode()
        if word in numbers:
            return numbers[word]
        # The fault stands behind the longest prefix that begins some enumerator's name.
        raise Fault(UNEXPECTED, start + max((len(os.path.commonprefix([word, name])) for name in numbers), default=0))

    def hex_pair(self) -> int:
        return int(bytes([self.take(HEX_DIGITS), self.take(HEX_DIGITS)]), 16)

    def text(self) -> bytes:
        found = bytearray()
        self.take(b'"')
        while (byte := self.take(PLAIN + b'"\\')) != ord('"'):
            if byte == ord("\\"):
                byte = self.take(b'"\\x')
                byte = self.hex_pair() if byte == ord("x") else byte
            found.append(byte)
        return bytes(found)

    def blob(self) -> bytes:
        found = bytearray()
        self.take(b"#")
        while self.next_is(HEX_DIGITS):
            found.append(self.hex_pair())
        return bytes(found)

    def several(self, opening: bytes, closing: bytes, one) -> list:
        """What `one` reads, any number of times, with commas between."""
        found = []
        self.take(opening)
        self.run(b" \n")
        if self.next_is(closing):
            self.take(closing)
            return found
        while True:
            found.append(one())
            self.run(b" \n")
            if self.take(b"," + closing) in closing:
                return found
            self.run(b" \n")

    def map(self, kind: Map) -> list:
        pairs = {}

        def pair() -> None:
            start = self.at
            key = self.value(kind.key)
            if key in pairs:
                raise Fault(TWICE_KEY, start)
            self.sign(b":")
            pairs[key] = self.value(kind.to)

        self.several(b"{", b"}", pair)
        return sorted(pairs.items())

    def struct(self, members: list) -> list:
        values = []
        self.take(b"(")
        self.run(b" \n")
        for index, member in enumerate(members):
            if index > 0:
                self.sign(b",")
            self.word(member.name.encode())
            self.sign(b"=")
            values.append(self.value(member.type))
        self.run(b" \n")
        self.take(b")")
        return values


def printed_text(value: bytes) -> str:
    def unit(byte: int) -> str:
        return f"\\{byte:c}" if byte in b'"\\' else chr(byte) if byte in PLAIN else f"\\x{byte:02X}"

    return '"' + "".join(map(unit, value)) + '"'


def printed(kind, value) -> str:
    """The one text in which a value is printed."""
    match kind:
        case "bool":
            return "true" if value else "false"
        case "string":
            return printed_text(value)
        case Vector("byte"):
            return "#" + value.hex().upper()
        case Vector(of):
            return f"[{', '.join(printed(of, element) for element in value)}]"
        case Map(key, to):
            return "{" + ", ".join(f"{printed(key, pair[0])}: {printed(to, pair[1])}" for pair in value) + "}"
        case Struct(members):
            return "(" + ", ".join(f"{m.name}={printed(m.type, of)}" for m, of in zip(members, value)) + ")"
    return str(value)
