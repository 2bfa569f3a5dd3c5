#!/usr/bin/env python3
"""Writes tables of two versions of a struct: whether they agree, and what the new one reads of what the old one writes.

    python3 tests/version_rows.py

writes two files of `crates/value_tables/data` and their parts of that crate's `stdout`; where nothing has changed,
`git diff` shows nothing after it. Rows `compat OLD => NEW` come to agreement or its first reason, rows
`carry OLD => NEW => TEXT` to the bytes that are written for a value and what is read from them. Both are told by
rows/version_rules.py and rows/body_reader.py, which share nothing with the crates. The seed is fixed.
"""

import random

from body_rows import outcome, sort_of
from rows.body_maker import some_value
from rows.tables import File, Table, file_of, varied
from rows.value_reader import Fault, ValueText, printed
from rows.version_files import MEMBERS, NESTED, STRUCT, VALUES, one_member, some_versions
from rows.version_rules import is_number, members_reason, numbers_of, numbers_taken, spelled_members

ABOUT = [
    "`compat OLD => NEW` is whether they agree, or the first reason; `carry OLD => NEW => TEXT` the bytes that are",
    "written for an old value, and what is read from them. Made by tests/version_rows.py.",
]


def reason_of(old: str, new: str):
    return members_reason(File(old).last_struct().members, File(new).last_struct().members)


def compat(old: str, new: str) -> tuple:
    why, path = reason_of(old, new) or ("agree", [])
    return f"compat {old} => {new}", " ".join([why, *map(str, path)])


def carry(old: str, new: str, text: str) -> tuple:
    struct = File(old).last_struct()
    body = spelled_members(struct.members, ValueText(text.encode()).value(struct)).upper()
    read = outcome(new, bytes.fromhex(body))
    # Where versions agree, no value is refused.
    assert read.startswith("(") or reason_of(old, new), f"{old} => {new} => {text}"
    return f"carry {old} => {new} => {text}", f"{body} is {read}"


# ---- all pairs of types


def between(old: str, new: str) -> list:
    """Texts of numbers of the old type at the bounds of the new one, and past them."""
    kinds = [File(one_member(word)).last_struct().members[0].type for word in (old, new)]
    if old == "bool" or not all(map(is_number, kinds)):
        return []
    (least, greatest), (least_taken, greatest_taken) = numbers_of(kinds[0]), numbers_taken(kinds[1])
    near = (least_taken - 1, least_taken, greatest_taken, greatest_taken + 1)
    return [str(number) for number in near if least <= number <= greatest]


def type_rows(old: str, new: str) -> list:
    files = one_member(old), one_member(new)
    return [carry(*files, f"(a={text})") for text in VALUES[old] + between(old, new)]


def write_types() -> None:
    title = 'Two versions of a member, by its old type and its new one (docs/PROTOCOL.md, "Compatibility").'
    table = Table("version_types.rows", [title, *ABOUT])
    for old in VALUES:
        agreements = [compat(one_member(old), one_member(new)) for new in VALUES]
        table.group(f"{old}: whether it agrees with each type.", agreements)
        table.group("Its bounds, and those of each new type.", [row for new in VALUES for row in type_rows(old, new)])
    table.write()


# ---- members and nested types


def rows_of(old: str, texts: list, new_files: list) -> list:
    """Whether the old file agrees with each new one, and its values under that."""
    return [row for new in new_files for row in (compat(old, new), *(carry(old, new, text) for text in texts))]


def some_text(rng, file: str) -> str:
    """The text of a value; no key stands in it twice."""
    struct = File(file).last_struct()
    while True:
        text = printed(struct, [some_value(rng, member.type) for member in struct.members])
        try:
            return printed(struct, ValueText(text.encode()).value(struct))
        except Fault:
            continue


def add_random(table: Table, seed: int) -> None:
    rng = random.Random(seed)
    agreements, carried = [], []
    for _ in range(1500):
        old, new = some_versions(rng)
        agreements.append(compat(old, new))
        carried.append(carry(old, new, some_text(rng, old)))
    table.group("Versions at random.", varied(agreements, lambda line: line[:10], 48))
    short = [row for row in carried if len(row[0]) < 260]
    table.group("Values at random.", varied(short, lambda line: sort_of(line.split(" is ")[1]), 48))


def write_members() -> None:
    title = 'Two versions of members and of types inside one another (docs/PROTOCOL.md, "Projection", "Compatibility").'
    table = Table("version_members.rows", [title, *ABOUT])
    for comment, old, texts, new_members in MEMBERS:
        table.group(comment, rows_of(old, texts, [file_of(members, STRUCT) for members in new_members]))
    for comment, old, texts, new_files in NESTED:
        table.group(comment, rows_of(old, texts, new_files))
    add_random(table, 1)
    table.write()


if __name__ == "__main__":
    write_types()
    write_members()
