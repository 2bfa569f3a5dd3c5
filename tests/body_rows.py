#!/usr/bin/env python3
"""Writes tables of bodies that are read under members: rows `decode FILE => HEX`, and what each comes to.

    python3 tests/body_rows.py

writes six files of `crates/value_tables/data` and their parts of that crate's `stdout`; where nothing has changed,
`git diff` shows nothing after it. What a body comes to is told by rows/body_reader.py, which shares nothing with the
crates. Beside the bodies made by hand each table has some that are spelled at random, and these with a byte changed,
put in, left out or cut off. The seeds are fixed.
"""

import random

from rows.body_maker import changed, some_fields, some_value
from rows.body_reader import Body, Malformed, Refused, members_of
from rows.nested_bodies import MAPS, VECTORS
from rows.single_bodies import SIGNED, TEXTS, UNSIGNED, Family
from rows.struct_bodies import STRUCTS
from rows.tables import File, Table, varied
from rows.value_reader import printed


def outcome(file: str, body: bytes) -> str:
    """What a body comes to, as value_tables prints it."""
    struct = File(file).last_struct()
    try:
        values = members_of(struct.members, Body(body).fields())
    except Malformed as fault:
        reason, at = fault.args
        return f"malformed {reason:d} at {at}"
    except Refused as refused:
        why, path = refused.args
        return " ".join([why, *map(str, path)])
    return printed(struct, values)


def rows_of(file: str, bodies: list) -> list:
    """A row for each body in hexadecimal digits, with what it comes to."""
    return [(f"decode {file} => {body.upper()}", outcome(file, bytes.fromhex(body))) for body in bodies]


# ---- at random


def sort_of(line: str) -> str:
    """A value, a refusal by its words, or a malformed body by its reason."""
    return line.split(" at ")[0] if line.startswith("malformed") else line[0]


def add_random(table: Table, seed: int, files: list) -> None:
    rng = random.Random(seed)
    spelled, spoiled = [], []
    for _ in range(1500):
        file = rng.choice(files)
        members = File(file).last_struct().members
        body = some_fields(rng, members, [some_value(rng, member.type) for member in members])
        if 0 < len(body) < 80:
            spelled += rows_of(file, [body])
            spoiled += rows_of(file, [changed(rng, bytes.fromhex(body)).hex()])
    table.group("Values spelled at random.", varied(spelled, sort_of, 16))
    table.group("The like, with a byte changed, put in, left out or cut off.", varied(spoiled, sort_of, 32))


def write_table(family: Family, seed: int) -> None:
    title = f'{family.what} read from bodies (docs/PROTOCOL.md, "Reading members"): `decode FILE => HEX`.'
    table = Table(family.name, [title, "Made by tests/body_rows.py."])
    for comment, file, bodies in family.groups:
        table.group(comment, rows_of(file, bodies))
    add_random(table, seed, family.random_files)
    table.write()


if __name__ == "__main__":
    for seed, family in enumerate((SIGNED, UNSIGNED, TEXTS, VECTORS, MAPS, STRUCTS)):
        write_table(family, seed)
