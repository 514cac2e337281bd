"""Writes the cases of tests/vectors for vectors.f90: each begins with a letter, and a point ends them. A number has 8
bytes, as the machine has them; a text is its length and its bytes; a table is its values, each with a letter, and a
point."""

import struct
import sys

import tilde
import vectors


def number(value):
    return struct.pack("=q", value)


def text(value):
    return number(len(value)) + value


def item(value):
    if isinstance(value, list):
        return b"(" + b"".join(map(item, value)) + b")"
    if isinstance(value, bytes):
        return b"s" + text(value)
    letter = b"c" if isinstance(value, tilde.Char) else b"b" if isinstance(value, bool) else b"i"
    return letter + number(value)


def table(value):
    return (b"$" + text(value) if isinstance(value, bytes) else b"".join(map(item, value))) + b"."


def line(case):
    answer = b"".join(map(number, case.answer[:3])) + text(case.answer.written)
    return b"l" + text(case.place.encode()) + answer + text(case.format) + table(case.table) + number(case.room)


def vet(case):
    answer = number(case.code) + number(case.position) + number(case.count)
    return b"v" + text(case.place.encode()) + answer + text(case.format) + text(case.kinds) + number(case.longest)


def windows(case):
    calls = b"".join(number(size) + number(ends) + text(written) for size, ends, written in case.calls)
    head = text(case.place.encode()) + b"".join(map(number, case.end)) + text(case.format) + table(case.table)
    return b"w" + head + number(len(case.calls)) + calls


for make, read in (line, vectors.lines), (line, vectors.tables), (vet, vectors.vets), (windows, vectors.windows):
    sys.stdout.buffer.write(b"".join(map(make, read())))
sys.stdout.buffer.write(b".")
