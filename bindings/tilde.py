"""Formats and vets tilde format strings, as in Guile's format, by the library libtilde. Python 3.8 or later.

>>> import tilde
>>> tilde.format("~a:~@{~4d~^,~}~%", "wind", 5, 12, 17)
b'wind:   5,  12,  17\\n'
>>> tilde.format("~a is ~:[closed~;open~], sector ~c, members~{ ~d~}", "Harlingen", True, tilde.Char("N"), [3, 14])
b'Harlingen is open, sector N, members 3 14'

A value is a bool, an int of 64 bits, a str or bytes (a string), a Char (a character), or a list or tuple of values (a
list). A str, the format too, goes as UTF-8; widths and positions count bytes. A format that is refused raises Refused:

>>> try:
...     tilde.format("~a and ~d", "one", "two")
... except tilde.Refused as refusal:
...     print(refusal)
...     print(int(refusal.code), refusal.position, refusal.written)
wrong kind of argument, at byte 7 of the format (code 7)
7 7 b'one and '

A vet says, before any value is known, how many bytes a format can need:

>>> tilde.vet("~a ~d item~:p", [str, int], longest=20)
47

A line that is long goes out in windows:

>>> list(tilde.windows("~a!", "Harlingen", size=4))
[b'Harl', b'inge', b'n!']

Where tilde is installed, Python finds this file by

    PYTHONPATH=$(pkg-config --variable=bindings tilde) python3 program.py

The library is the one that the environment variable TILDE_LIBRARY names; else libtilde.so.0 or libtilde.so beside this
file, or in ../../lib from there, as make install puts them; else libtilde.so.0 where the system looks for libraries.
Calls from several threads do not disturb each other, but a Line belongs to one thread at a time.
"""

import ctypes
import enum
import operator
import os
from ctypes import POINTER, byref, c_char, c_char_p, c_int, c_int64, c_size_t, c_uint, c_uint32, c_void_p, sizeof
from typing import Any, Callable, Iterable, Iterator, List, NamedTuple, Union

__all__ = ["Answer", "Char", "Code", "Kind", "Line", "Refused", "format", "format_table", "table", "version", "vet",
           "windows", "words", "MORE", "HEADER_BYTES", "ENTRY_BYTES", "MOST_ENTRIES", "MOST_POOL", "MOST_FORMAT",
           "MOST_STEPS", "MOST_KINDS", "MOST_LONGEST"]

Text = Union[str, bytes, bytearray, memoryview]
_TEXTS = (str, bytes, bytearray, memoryview)

# What a call answers; include/tilde.h says when, and with which position.
Code = enum.IntEnum("Code", "DONE BAD_TABLE LONG_FORMAT UNKNOWN_CODE BAD_BLOCK BAD_PARAMETER NO_ARGUMENT WRONG_KIND "
                    "OUT_OF_RANGE STEP_LIMIT NO_ROOM NOT_PLAIN BAD_KINDS", start=0)
# The kind of a value, by its tag in a table.
Kind = enum.IntEnum("Kind", "BOOLEAN INTEGER CHARACTER STRING LIST", start=0)
# What a window answers until the end.
MORE = 256

HEADER_BYTES, ENTRY_BYTES, MOST_ENTRIES, MOST_POOL = 8, 12, 1024, 65536
MOST_FORMAT, MOST_STEPS, MOST_KINDS, MOST_LONGEST = 4096, 65536, 1024, 4096


class _Table(ctypes.Structure):
    """The tilde_table of tilde_table.h."""
    _fields_ = [("room", c_void_p), ("size", c_size_t), ("entries", c_size_t), ("arguments", c_size_t),
                ("pool", c_size_t), ("list", c_size_t), ("fits", c_int)]


class _State(ctypes.Structure):
    """The tilde_state of tilde.h by its size: its numbers are the library's own."""
    _fields_ = [("numbers", c_size_t * 31)]


_SET = "set the environment variable TILDE_LIBRARY to the path of libtilde.so"


def _load() -> ctypes.CDLL:
    here = os.path.dirname(os.path.abspath(__file__))
    near = (os.path.join(folder, name) for folder in (here, os.path.join(here, os.pardir, os.pardir, "lib"))
            for name in ("libtilde.so.0", "libtilde.so"))
    path = os.environ.get("TILDE_LIBRARY") or next(filter(os.path.exists, near), "libtilde.so.0")
    try:
        return ctypes.CDLL(path)
    except OSError as error:
        raise ImportError(f"libtilde is not there ({error}): install it, or {_SET}",
                          name=__name__, path=path) from None


_library = _load()


def _function(name: str, answer: Any, *arguments: Any) -> Callable[..., Any]:
    try:
        function = getattr(_library, name)
    except AttributeError:
        raise ImportError(f"{_library._name} has no {name}, so it is not the libtilde that this file is for: {_SET}",
                          name=__name__, path=_library._name) from None
    function.restype, function.argtypes = answer, arguments
    return function


_BYTES = (c_char_p, c_size_t)
_RESULT = POINTER(c_size_t)
_TABLE = POINTER(_Table)
_version = _function("tilde_version", c_char_p)
_words = _function("tilde_words", c_char_p, c_uint32)
_format = _function("tilde_format", c_uint32, *_BYTES, *_BYTES, *_BYTES, _RESULT, _RESULT, _RESULT)
_window = _function("tilde_window", c_uint32, POINTER(_State), *_BYTES, *_BYTES, *_BYTES, _RESULT, _RESULT, _RESULT)
_vet = _function("tilde_vet", c_uint32, *_BYTES, *_BYTES, c_size_t, _RESULT, _RESULT)
_begin = _function("tilde_table_begin", c_int, _TABLE, *_BYTES)
_boolean = _function("tilde_table_boolean", c_int, _TABLE, c_int)
_integer = _function("tilde_table_integer", c_int, _TABLE, c_int64)
_character = _function("tilde_table_character", c_int, _TABLE, c_uint)
_string = _function("tilde_table_string", c_int, _TABLE, *_BYTES)
_list_begin = _function("tilde_table_list_begin", c_int, _TABLE)
_list_end = _function("tilde_table_list_end", c_int, _TABLE)
_end = _function("tilde_table_end", c_size_t, _TABLE)


def version() -> str:
    """The version of the library that was loaded."""
    return _version().decode("ascii")


def words(code: int) -> str:
    """The words for a code.

    >>> words(Code.STEP_LIMIT)
    'more than 65,536 steps'
    """
    return _words(code if 0 <= code < 2**32 else 2**32 - 1).decode("ascii")


class Refused(Exception):
    """A format, or what it was to be written with, is refused.

    code      why, a Code
    position  the byte of the format, for Code.BAD_TABLE of the table
    steps     the steps done
    written   the bytes of the pieces before the refused one; for windows empty, since those were handed out
    cause     which of the causes of Code.BAD_KINDS it is; else empty
    words     the words for the code
    """

    def __init__(self, code: int, position: int, steps: int = 0, written: bytes = b"", cause: str = "") -> None:
        super().__init__(code, position, steps, written, cause)
        self.code = Code(code)
        self.position = position
        self.steps = steps
        self.written = written
        self.cause = cause
        self.words = words(code)

    def __str__(self) -> str:
        of = "table" if self.code == Code.BAD_TABLE else "format"
        where = "" if self.code == Code.BAD_KINDS else f", at byte {self.position} of the {of}"
        cause = self.cause and f": {self.cause}"
        return f"{self.words}{where}{cause} (code {int(self.code)})"


class Char(int):
    """A character, 0 to 127: Char("A"), Char(b"A") or Char(65)."""

    def __new__(cls, of: Union[int, str, bytes]) -> "Char":
        code = ord(of) if isinstance(of, (str, bytes)) and len(of) == 1 else of
        if not isinstance(code, int) or not 0 <= code <= 127:
            raise ValueError("a character is one of the codes 0 to 127: give one such character, as Char('A'), or its "
                             "code, as Char(65)")
        return super().__new__(cls, code)


Value = Union[bool, int, Text, Char, List[Any], tuple]


def _bytes(text: Text) -> bytes:
    if isinstance(text, _TEXTS):
        try:
            return text.encode("utf-8") if isinstance(text, str) else bytes(text)
        except UnicodeEncodeError:
            raise ValueError("a str with a lone surrogate has no UTF-8: give bytes, as os.fsencode makes") from None
    raise TypeError(f"a format is a str or bytes, not {type(text).__name__}")


def _number(value: Any) -> int:
    try:
        number = operator.index(value)
    except TypeError:
        raise TypeError(f"{type(value).__name__} is no kind of value: give a bool, int, str, bytes or tilde.Char, or a "
                        "list or tuple of them") from None
    if not -2**63 <= number < 2**63:
        raise ValueError("an integer has 64 bits, -2**63 to 2**63 - 1, and this one is outside")
    return number


def _count(of: Any) -> int:
    try:
        return operator.index(of)
    except TypeError:
        raise TypeError(f"a number of bytes is an int, not {type(of).__name__}") from None


def _add(made: _Table, value: Value) -> int:
    if isinstance(value, _TEXTS):
        text = _bytes(value)
        return _string(made, text, len(text))
    if isinstance(value, Char):
        return _character(made, value)
    if isinstance(value, bool):
        return _boolean(made, value)
    if isinstance(value, (list, tuple)):
        return _list_begin(made)
    return _integer(made, _number(value))


def table(*values: Value) -> bytes:
    """The argument table of some values, as the packer sends it.

    >>> table(True).hex()
    '0001000100000000000000000000000000000001'
    """
    room = (c_char * (HEADER_BYTES + ENTRY_BYTES * MOST_ENTRIES + MOST_POOL))()
    made = _Table()
    _begin(made, room, sizeof(room))
    # what is to come of each open list: they may nest deeper than calls of Python
    rest = [iter(values)]
    while rest:
        for value in rest[-1]:
            if not _add(made, value):
                raise ValueError(f"more than {MOST_ENTRIES:,} values, lists and what is in them counted"
                                 if made.entries == MOST_ENTRIES else f"more than {MOST_POOL:,} bytes of strings")
            if isinstance(value, (list, tuple)):
                rest.append(iter(value))
                break
        else:
            rest.pop()
            if rest:
                _list_end(made)
    return ctypes.string_at(room, _end(made))


class Answer(NamedTuple):
    """The whole answer of a call, refused or not: a Code or MORE, its position, the steps done, and the bytes that
    were written."""
    code: int
    position: int
    steps: int
    written: bytes


def _answer(call: Callable[..., int], size: int, *given: Any) -> Answer:
    size = _count(size)
    if size < 0:
        raise ValueError("the room for a text has 0 bytes or more")
    window = (c_char * size)()
    position, steps, written = c_size_t(), c_size_t(), c_size_t()
    code = call(*given, window, size, byref(position), byref(steps), byref(written))
    return Answer(code, position.value, steps.value, ctypes.string_at(window, written.value))


def format_table(fmt: Text, table: bytes, room: int) -> Answer:
    """One call of tilde_format over the bytes of a table, good or bad, with so many bytes of room. It does not raise
    Refused.

    >>> format_table("~a!", table("Harlingen"), 9).code == Code.NO_ROOM
    True
    """
    text, table = _bytes(fmt), bytes(memoryview(table))
    return _answer(_format, room, text, len(text), table, len(table))


class Line:
    """A line that goes out in windows, over the bytes of a table, good or bad. A copy goes on from where it was made.

    >>> line = Line("~a!", table("Harlingen"))
    >>> line.window(5)
    Answer(code=256, position=0, steps=0, written=b'Harli')
    >>> line.window(100)
    Answer(code=0, position=0, steps=2, written=b'ngen!')
    """

    def __init__(self, fmt: Text, table: bytes) -> None:
        self._given = _bytes(fmt), bytes(memoryview(table))
        self._state = bytes(sizeof(_State))

    def window(self, size: int) -> Answer:
        """The next part of the line, at most so many bytes of it. The code is MORE until the end, and the end is
        answered again and again. It does not raise Refused."""
        text, table = self._given
        state = _State.from_buffer_copy(self._state)
        answer = _answer(_window, size, state, text, len(text), table, len(table))
        self._state = bytes(state)
        return answer


def _drain(line: Line, size: int) -> Iterator[bytes]:
    answer = Answer(MORE, 0, 0, b"")
    while answer.code == MORE:
        answer = line.window(size)
        if answer.written:
            yield answer.written
    if answer.code != Code.DONE:
        raise Refused(answer.code, answer.position, answer.steps)


def windows(fmt: Text, *values: Value, size: int = 512) -> Iterator[bytes]:
    """The text of a format over some values, in parts of `size` bytes, the last of which may be shorter. A refusal is
    raised after the last part of what is kept."""
    if _count(size) < 1:
        raise ValueError("a window has at least 1 byte")
    return _drain(Line(fmt, table(*values)), size)


def format(fmt: Text, *values: Value) -> bytes:
    """The text of a format over some values. A line can be as long as memory allows; windows() takes less of it."""
    parts = []
    try:
        for part in windows(fmt, *values, size=16384):
            parts.append(part)
    except Refused as refusal:
        raise Refused(refusal.code, refusal.position, refusal.steps, b"".join(parts)) from None
    return b"".join(parts)


_KINDS = {bool: Kind.BOOLEAN, int: Kind.INTEGER, Char: Kind.CHARACTER, list: Kind.LIST, tuple: Kind.LIST,
          **dict.fromkeys(_TEXTS, Kind.STRING)}


def _tag(kind: Any) -> int:
    if isinstance(kind, type) and kind in _KINDS:
        return _KINDS[kind]
    # a value where its type is meant
    if isinstance(kind, int) and not isinstance(kind, (bool, Char)):
        # no kind has the tag 255
        return kind if 0 <= kind <= 255 else 255
    raise TypeError(f"{kind!r} is no kind: give bool, int, tilde.Char, str, bytes, list or a tilde.Kind")


def _bad_kinds(tags: bytes) -> str:
    if len(tags) > MOST_KINDS:
        return f"there are {len(tags):,} kinds"
    unknown = (i for i, tag in enumerate(tags) if tag > max(Kind))
    return next((f"kind {i}, the first being 0, is no tilde.Kind" for i in unknown), "the longest is above 4,096")


def vet(fmt: Text, kinds: Iterable[Union[type, int]], longest: int) -> int:
    """How many bytes are enough for the text of a format over any values of these kinds, each a type or a Kind, whose
    strings have at most `longest` bytes. The format may have conditionals, but no jump, iteration, escape or v."""
    longest = _count(longest)
    if longest < 0:
        raise ValueError("the longest string has 0 bytes or more")
    text, tags = _bytes(fmt), bytes(map(_tag, kinds))
    position, count = c_size_t(), c_size_t()
    code = _vet(text, len(text), tags, len(tags), min(longest, MOST_LONGEST + 1), byref(position), byref(count))
    if code != Code.DONE:
        raise Refused(code, position.value, cause=_bad_kinds(tags) if code == Code.BAD_KINDS else "")
    return count.value
