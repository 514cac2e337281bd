"""The cases of tests/vectors as values of Python; the README there has their notation. A case of tables.txt is a line
of an empty format."""

import os
import re
from typing import NamedTuple

import tilde

FOLDER = os.path.join(os.path.dirname(os.path.abspath(__file__)), os.pardir, "vectors")


class Line(NamedTuple):
    """A call of format, and its whole answer. The table is a list of values, or bytes."""
    place: str
    answer: tilde.Answer
    format: bytes
    table: object
    room: int


class Vet(NamedTuple):
    place: str
    code: int
    position: int
    count: int
    format: bytes
    kinds: bytes
    longest: int


class Windows(NamedTuple):
    """A line through windows: code, position and steps of its end, and each call as its size, whether it answers the
    end, and its text."""
    place: str
    end: tuple
    format: bytes
    table: object
    calls: list


UNIT = re.compile(r"\\\*(?P<times>\d+)\((?P<unit>\\x[0-9a-f]{2}|\\?.)\)|\\x(?P<code>[0-9a-f]{2})|"
                  r"\\(?P<letter>[ntr\\sh])|(?P<byte>[^\\])")
LETTERS = {"n": b"\n", "t": b"\t", "r": b"\r", "\\": b"\\", "s": b" ", "h": b"#"}
TOKEN = re.compile(r'"(?P<string>[^"]*)"|#\\x(?P<character>[0-9a-f]{2})|#(?P<truth>[tf])|(?P<number>-?\d+)|'
                   r"(?P<list>[()])| ")


def matches(pattern, field):
    """The matches that follow one another over a whole field."""
    at = 0
    while at < len(field):
        match = pattern.match(field, at)
        if match is None:
            raise ValueError(f"{field[at:]!r} is not in the notation")
        yield match
        at = match.end()


def unit(match):
    if match["times"]:
        return int(match["times"]) * text(match["unit"])
    if match["code"]:
        return bytes.fromhex(match["code"])
    return LETTERS[match["letter"]] if match["letter"] else match["byte"].encode("ascii")


def text(field):
    return b"" if field == r"\e" else b"".join(map(unit, matches(UNIT, field)))


def values(field):
    lists = [[]]
    for match in matches(TOKEN, "" if field == r"\e" else field):
        if match["list"] == "(":
            lists.append([])
        elif match["list"] == ")":
            inner = lists.pop()
            lists[-1].append(inner)
        elif match["string"] is not None:
            lists[-1].append(text(match["string"]))
        elif match["character"]:
            lists[-1].append(tilde.Char(int(match["character"], 16)))
        elif match["truth"]:
            lists[-1].append(match["truth"] == "t")
        elif match["number"]:
            lists[-1].append(int(match["number"]))
    if len(lists) != 1:
        raise ValueError(f"{field!r} has lists without an end")
    return lists[0]


def hexadecimal(field):
    repeated = re.sub(r"\\\*(\d+)\(([0-9a-f]+)\)", lambda match: int(match[1]) * match[2], field)
    return bytes.fromhex("" if field == r"\e" else repeated)


def table(field):
    return hexadecimal(field[1:]) if field.startswith("$") else values(field)


def cases(name, separator, count):
    """The place of each case, and its fields."""
    with open(os.path.join(FOLDER, name), encoding="ascii") as file:
        for number, line in enumerate(file, 1):
            if not line.startswith("#"):
                fields = line.split("  #")[0].split(separator, count - 1)
                yield (f"{name}:{number}", *fields)


def lines():
    for place, answer, fmt, given, room in cases("lines.txt", " | ", 4):
        code, position, steps, written = answer.split(" ", 3)
        yield Line(place, tilde.Answer(int(code), int(position), int(steps), text(written)), text(fmt), table(given),
                   int(room))


def tables():
    for place, code, position, given in cases("tables.txt", " ", 3):
        yield Line(place, tilde.Answer(int(code), int(position), 0, b""), b"", hexadecimal(given), 0)


def vets():
    for place, answer, fmt, kinds, longest in cases("vets.txt", " | ", 4):
        tags = bytes(b"bicsl".index(letter) for letter in text(kinds))
        yield Vet(place, *map(int, answer.split()), text(fmt), tags, int(longest))


def windows():
    for place, end, fmt, given, calls in cases("windows.txt", " | ", 4):
        parts = [re.match("([0-9]+)([:=])(.*)", call).groups() for call in calls.split(" ")]
        yield Windows(place, tuple(map(int, end.split())), text(fmt), table(given),
                      [(int(size), sign == "=", text(written)) for size, sign, written in parts])
