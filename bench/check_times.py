#!/usr/bin/env python3
"""Times `check` on interface files of doubling sizes: many structs, one large enum, many included files, and many
deep maps, all of long names. So it times loading, the rules, the schema and its canonical text.

Prints, for each kind and size, the best of the runs in seconds, and its ratio to the size before. Needs the built
program: run rt ci once before.
"""

import pathlib
import tempfile

from timing import best_time, print_rows, program

MODULE = "ModuleOfTheInterfaceFilesThatAreMeasured"
MAIN = "main.tars"
STRUCTS_PER_FILE = 64
MOST_NESTED = 15
STRUCTS = [64, 128, 256, 512, 1024]
ENUMERATORS = [64, 128, 256, 512, 1024]
INCLUDES = [8, 16, 32, 63]
MAPS = [64, 128, 256, 512, 1024]
# A struct has each of these twice, then an earlier struct and a vector of it: twenty members.
BASIC = ["bool", "byte", "short", "int", "long", "unsigned byte", "unsigned short", "unsigned int", "string"]
DEFAULTS = ["true", "-128", "0x7FFF", "-1", "9223372036854775807", "255", "65535", "0", '"text \\x41"']
# So many structs stand one inside the other.
CHAIN = 8


def long_name(kind: str, number: int) -> str:
    return f"{kind}WithALongNameThatOthersBeginWithToo{number}"


def enum_name(number: int) -> str:
    return long_name("Enum", number)


def struct_name(number: int) -> str:
    return long_name("Struct", number)


def item_name(number: int) -> str:
    return long_name("ITEM", number)


def block(lines: list) -> str:
    return f"module {MODULE}\n{{\n" + "".join(f"{line};\n" for line in lines) + "};\n"


def enum_of(number: int, items: int) -> str:
    names = ", ".join(item_name(item) for item in range(items))
    return f"enum {enum_name(number)} {{ {names} }}"


def struct_of(number: int) -> str:
    """A struct of twenty members. The first of each chain has ints for structs."""
    earlier = struct_name(number - 1) if number % CHAIN else "int"
    types = [*BASIC, *BASIC, earlier, f"vector<{earlier}>"]
    values = [*DEFAULTS, *[None] * (len(BASIC) + 2)]
    members = []
    for tag, (ty, value) in enumerate(zip(types, values)):
        default = "" if value is None else f" = {value}"
        need = "require" if tag % 2 else "optional"
        members.append(f"{tag} {need} {ty} {long_name('member', tag)}{default};")
    return f"struct {struct_name(number)} {{ {' '.join(members)} }}"


def map_of(depth: int) -> str:
    return "int" if depth == 0 else f"map<string, {map_of(depth - 1)}>"


def with_includes(names: list, text: str) -> str:
    return "".join(f'#include "{name}"\n' for name in names) + text


def structs(count: int) -> dict:
    """Structs in files of which each includes all before it."""
    files = {}
    for first in range(0, count, STRUCTS_PER_FILE):
        lines = [struct_of(number) for number in range(first, first + STRUCTS_PER_FILE)]
        name = MAIN if first + STRUCTS_PER_FILE >= count else f"part{first}.tars"
        files[name] = with_includes(list(files), block(lines))
    return files


def enumerators(count: int) -> dict:
    """One enum, and a constant of it."""
    constant = f"const {enum_name(0)} {long_name('LAST', 0)} = {enum_name(0)}::{item_name(count - 1)}"
    return {MAIN: block([enum_of(0, count), constant])}


def includes(count: int) -> dict:
    """Files of eight structs, of which each includes all before it."""
    files = {}
    for number in range(count):
        lines = [struct_of(CHAIN * number + member) for member in range(CHAIN)]
        files[f"part{number}.tars"] = with_includes(list(files), block(lines))
    files[MAIN] = with_includes(list(files), "")
    return files


def maps(count: int) -> dict:
    """Structs of eight members, each a map of maps."""
    lines = []
    for number in range(count // CHAIN):
        members = " ".join(f"{tag} require {map_of(MOST_NESTED)} {long_name('member', tag)};" for tag in range(CHAIN))
        lines.append(f"struct {struct_name(number)} {{ {members} }}")
    return {MAIN: block(lines)}


# Each kind with its sizes, and the last line that has to be printed.
KINDS = [
    ("structs", structs, STRUCTS, lambda count: f"struct {struct_name(count - 1)}\n"),
    ("enumerators", enumerators, ENUMERATORS, lambda count: f"{item_name(count - 1)} = {count - 1}"),
    ("includes", includes, INCLUDES, lambda count: f"struct {struct_name(CHAIN * count - 1)}\n"),
    ("deep maps", maps, MAPS, lambda count: f"struct {struct_name(count // CHAIN - 1)}\n"),
]


def write_files(folder: pathlib.Path, files: dict) -> int:
    """Writes the files, and returns how many bytes they have."""
    for name, text in files.items():
        (folder / name).write_text(text)
    return sum(len(text) for text in files.values())


def times(folder: pathlib.Path, files_of, sizes: list, last):
    check = program("tars_tool")
    for count in sizes:
        length = write_files(folder, files_of(count))
        yield f"{count:6}", best_time([check, "check", MAIN], folder, last(count).encode()), f"  {length:8} bytes"


for kind, files_of, sizes, last in KINDS:
    print(kind)
    with tempfile.TemporaryDirectory() as name:
        print_rows(times(pathlib.Path(name), files_of, sizes, last))
