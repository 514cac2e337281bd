"""Tests of tilde.py that no case of tests/vectors makes: values, limits, refusals, long lines, and how it finds its
library. Prints how many there are."""

import ast
import copy
import ctypes.util
import doctest
import os
import pickle
import shutil
import subprocess
import sys
import tempfile
import unittest

import tilde

LIBRARY = os.path.abspath(os.environ["TILDE_LIBRARY"])
SOURCE = os.path.abspath(tilde.__file__)


def nested(depth):
    """A list in a list, so many in all."""
    value = []
    for _ in range(depth - 1):
        value = [value]
    return value


class Index:
    """Stands for an integer, as those of numpy do."""

    def __init__(self, number):
        self.number = number

    def __index__(self):
        return self.number


class Values(unittest.TestCase):
    def refused(self, words, *values, error=ValueError):
        with self.assertRaisesRegex(error, words):
            tilde.format("", *values)

    def test_integers_of_64_bits(self):
        least, greatest = -2**63, 2**63 - 1
        self.assertEqual(tilde.format("~d ~d", least, greatest), b"%d %d" % (least, greatest))
        self.assertEqual(tilde.format("~d", Index(7)), b"7")
        for number in greatest + 1, least - 1, 10**5000, Index(greatest + 1):
            self.refused("64 bits, -2..63 to 2..63 - 1, and this one is outside", number)

    def test_characters(self):
        self.assertEqual(tilde.format("~c~c~c", tilde.Char("A"), tilde.Char(b"B"), tilde.Char(67)), b"ABC")
        self.assertEqual(tilde.format("~c~c", tilde.Char(0), tilde.Char(127)), b"\0\x7f")
        for of in 128, -1, "\u00e9", b"\xff", "", "ab", 1.5, None:
            with self.assertRaisesRegex(ValueError, "0 to 127"):
                tilde.Char(of)

    def test_strings_of_any_bytes(self):
        every = bytes(range(256))
        for given in every, bytearray(every), memoryview(every):
            self.assertEqual(tilde.format("~a", given), every)
        self.assertEqual(tilde.format(b"a\0b~a", "\0\u00e9"), b"a\0b\0\xc3\xa9")
        self.refused("surrogate", "\udc80")
        with self.assertRaisesRegex(ValueError, "surrogate"):
            tilde.format("\ud800")

    def test_kinds_that_no_table_has(self):
        for value in 1.5, None, {}, {1}, object(), 1j, [[1.5]]:
            self.refused("is no kind of value: give", value, error=TypeError)
        for fmt in 5, None, ["~a"]:
            with self.assertRaisesRegex(TypeError, "a format is a str or bytes"):
                tilde.format(fmt)

    def test_most_values(self):
        self.assertEqual(tilde.format("~@{~d~}", *[1] * 1024), b"1" * 1024)
        self.assertEqual(tilde.format("~{~d~}", [1] * 1023), b"1" * 1023)
        for values in [1] * 1025, [[1] * 1024], [[]] * 1025:
            self.refused("more than 1,024 values", *values)

    def test_most_bytes_of_strings(self):
        self.assertEqual(tilde.format("~a~a", "a" * 65535, "b"), b"a" * 65535 + b"b")
        self.refused("more than 65,536 bytes of strings", "a" * 65535, "bc")
        self.refused("more than 65,536 bytes of strings", "a" * 65537)

    def test_deep_lists(self):
        self.assertEqual(tilde.format("~{~{~{<~*>~}~}~}", nested(1024)), b"<>")
        self.refused("more than 1,024 values", nested(1025))
        self.refused("more than 1,024 values", nested(100000))
        itself = []
        itself.append(itself)
        self.refused("more than 1,024 values", itself)

    def test_after_a_value_that_did_not_fit(self):
        self.refused("64 bits", 1, [2, 2**70])
        self.assertEqual(tilde.format("~d", 3), b"3")


class Refusals(unittest.TestCase):
    def test_what_a_refusal_has(self):
        with self.assertRaises(tilde.Refused) as caught:
            tilde.format("ab~a~d", "cd", "e")
        refusal = caught.exception
        self.assertIs(refusal.code, tilde.Code.WRONG_KIND)
        self.assertEqual((refusal.position, refusal.steps, refusal.written), (4, 4, b"abcd"))
        self.assertEqual(refusal.words, tilde.words(tilde.Code.WRONG_KIND))
        self.assertEqual(str(refusal), "wrong kind of argument, at byte 4 of the format (code 7)")
        again = pickle.loads(pickle.dumps(refusal))
        self.assertEqual((again.args, str(again)), (refusal.args, str(refusal)))

    def test_which_position_is_told(self):
        self.assertIn("at byte 8 of the table", str(tilde.Refused(tilde.Code.BAD_TABLE, 8)))
        self.assertNotIn("at byte", str(tilde.Refused(tilde.Code.BAD_KINDS, 0)))

    def test_windows_hand_out_what_is_kept(self):
        parts = tilde.windows("abcde~d", size=2)
        self.assertEqual([next(parts), next(parts), next(parts)], [b"ab", b"cd", b"e"])
        with self.assertRaises(tilde.Refused) as caught:
            next(parts)
        self.assertEqual((caught.exception.code, caught.exception.position, caught.exception.written), (6, 5, b""))

    def test_words_of_every_number(self):
        self.assertEqual(tilde.words(tilde.MORE), "more to come")
        for code in 13, 255, 257, -1, 2**32, 2**32 + 7, -2**32 + 7:
            self.assertEqual(tilde.words(code), "no code of tilde")


class Windows(unittest.TestCase):
    def test_sizes(self):
        for size in 0, -1:
            with self.assertRaisesRegex(ValueError, "at least 1 byte"):
                tilde.windows("abc", size=size)
        for call in tilde.windows, lambda fmt, size: tilde.format_table(fmt, tilde.table(), size):
            with self.assertRaisesRegex(TypeError, "a number of bytes is an int, not float"):
                call("abc", size=2.5)
        table = tilde.table()
        for call in lambda size: tilde.format_table("abc", table, size), tilde.Line("abc", table).window:
            with self.assertRaisesRegex(ValueError, "the room for a text has 0 bytes or more"):
                call(-1)
            self.assertEqual(call(0).written, b"")
        self.assertEqual(list(tilde.windows("")), [])
        self.assertEqual(list(tilde.windows("abc", size=10**6)), [b"abc"])
        self.assertEqual(max(map(len, tilde.windows("~4096_"))), 512)

    def test_values_are_looked_at_before_the_first_window(self):
        with self.assertRaises(TypeError):
            tilde.windows("~a", 1.5)

    def test_long_lines(self):
        text = b" " * 4096 * 2000
        self.assertEqual(tilde.format("~2000@{~4096_~}", 1), text)
        self.assertEqual(b"".join(tilde.windows("~2000@{~4096_~}", 1, size=100000)), text)
        with self.assertRaises(tilde.Refused) as caught:
            tilde.format("~2000@{~4096_~}~2*", 1)
        self.assertEqual((caught.exception.code, caught.exception.written), (tilde.Code.NO_ARGUMENT, text))

    def test_a_copy_of_a_line_goes_on_by_itself(self):
        line = tilde.Line("~a~a", tilde.table("abc", "def"))
        self.assertEqual(line.window(2).written, b"ab")
        other = copy.copy(line)
        self.assertEqual(line.window(2).written, b"cd")
        self.assertEqual(other.window(9), (tilde.Code.DONE, 0, 2, b"cdef"))
        self.assertEqual(line.window(9), (tilde.Code.DONE, 0, 2, b"ef"))

    def test_a_table_is_bytes(self):
        for call in tilde.Line, lambda fmt, table: tilde.format_table(fmt, table, 10):
            for table in 8, "table", [0] * 8:
                with self.assertRaises(TypeError):
                    call("", table)
        self.assertEqual(tilde.format_table("", bytearray(8), 0).code, tilde.Code.DONE)


class Vets(unittest.TestCase):
    def refused(self, *given):
        with self.assertRaises(tilde.Refused) as caught:
            tilde.vet(*given)
        return caught.exception.code

    def test_kinds(self):
        fmt, count = "~a~a~c~a~:[~;~]", tilde.vet("~a~a~c~a~:[~;~]", [3, 1, 2, 0, 4], 5)
        self.assertEqual(tilde.vet(fmt, [str, int, tilde.Char, bool, list], 5), count)
        self.assertEqual(tilde.vet(fmt, (bytes, int, tilde.Char, bool, tuple), longest=5), count)
        self.assertEqual(tilde.vet(fmt, iter([tilde.Kind.STRING, tilde.Kind.INTEGER, tilde.Kind.CHARACTER,
                                              tilde.Kind.BOOLEAN, tilde.Kind.LIST]), 5), count)
        for text in bytearray, memoryview:
            self.assertEqual(tilde.vet(fmt, [text, int, tilde.Char, bool, list], 5), count)
        for kinds in "si", [float], [None], [1.0], [{}], [True], [False], [tilde.Char(1)]:
            with self.assertRaisesRegex(TypeError, "is no kind: give"):
                tilde.vet("", kinds, 0)

    def test_limits(self):
        self.assertEqual(tilde.vet("~a", [str], tilde.MOST_LONGEST), tilde.MOST_LONGEST)
        self.assertEqual(tilde.vet("x", [int] * tilde.MOST_KINDS, 0), 1)
        for kind in 5, 255, 256, 259, -1, -253, 10**5000:
            self.assertEqual(self.refused("", [kind], 0), tilde.Code.BAD_KINDS)
        for given in ("", [int] * (tilde.MOST_KINDS + 1), 0), ("", [], tilde.MOST_LONGEST + 1), ("", [], 2**64):
            self.assertEqual(self.refused(*given), tilde.Code.BAD_KINDS)
        for kinds, longest, cause in (([int] * 1025, 5, "there are 1,025 kinds"), ([int, 5], 9999, "kind 1, "),
                                      ([int], 4097, "the longest is above 4,096")):
            with self.assertRaises(tilde.Refused) as caught:
                tilde.vet("", kinds, longest)
            self.assertTrue(caught.exception.cause.startswith(cause))
            self.assertIn(f"above 4,096: {cause}", str(caught.exception))
            self.assertEqual(str(pickle.loads(pickle.dumps(caught.exception))), str(caught.exception))
        with self.assertRaisesRegex(ValueError, "0 bytes or more"):
            tilde.vet("", [], -1)
        self.assertEqual(self.refused("~*", [int], 0), tilde.Code.NOT_PLAIN)

    def test_a_count_is_as_good_as_its_longest(self):
        with self.assertRaisesRegex(TypeError, "longest"):
            tilde.vet("~a", [str])
        self.assertEqual(tilde.vet("~a", [str], Index(7)), 7)
        for longest in 2.5, None, "7":
            with self.assertRaisesRegex(TypeError, "a number of bytes is an int, not "):
                tilde.vet("~a", [str], longest)


class Loading(unittest.TestCase):
    def run_alone(self, source=SOURCE, **environment):
        """What Python prints that imports the file, with no other place to find it or the library."""
        kept = {name: value for name, value in os.environ.items()
                if name not in ("TILDE_LIBRARY", "PYTHONPATH", "LD_LIBRARY_PATH")}
        program = f"import sys; sys.path.insert(0, {os.path.dirname(source)!r}); import tilde; " \
                  "print(tilde.__file__, tilde.format('~d', 5))"
        done = subprocess.run([sys.executable, "-c", program], env={**kept, **environment}, stdout=subprocess.PIPE,
                              stderr=subprocess.STDOUT, universal_newlines=True)
        return done.stdout.splitlines()[-1]

    def test_named_by_the_environment(self):
        self.assertEqual(self.run_alone(TILDE_LIBRARY=LIBRARY), f"{SOURCE} b'5'")

    def test_where_the_system_looks(self):
        self.assertEqual(self.run_alone(LD_LIBRARY_PATH=os.path.dirname(LIBRARY)), f"{SOURCE} b'5'")

    def test_beside_the_file(self):
        for name in "libtilde.so.0", "libtilde.so":
            with tempfile.TemporaryDirectory() as folder:
                source = shutil.copy(SOURCE, folder)
                shutil.copy(LIBRARY, os.path.join(folder, name))
                self.assertEqual(self.run_alone(source), f"{source} b'5'")

    def test_in_the_prefix_where_it_is_installed(self):
        for name in "libtilde.so.0", "libtilde.so":
            with tempfile.TemporaryDirectory() as prefix:
                for folder in "lib", "share/tilde":
                    os.makedirs(os.path.join(prefix, folder))
                source = shutil.copy(SOURCE, os.path.join(prefix, "share/tilde"))
                installed = shutil.copy(LIBRARY, os.path.join(prefix, "lib", name))
                self.assertEqual(self.run_alone(source), f"{source} b'5'")
                shutil.move(installed, os.path.dirname(source))
                shutil.copy(SOURCE, installed)
                self.assertEqual(self.run_alone(source), f"{source} b'5'")

    def test_missing_or_another(self):
        if ctypes.util.find_library("tilde") is None:
            self.assertRegex(self.run_alone(), "^ImportError: libtilde is not there .libtilde.so.0.*: install it, or")
        for path in "/nowhere/libtilde.so", SOURCE:
            said = self.run_alone(TILDE_LIBRARY=path)
            self.assertRegex(said, "^ImportError: libtilde is not there ")
            self.assertIn(path, said)
        another = ctypes.util.find_library("m")
        self.assertRegex(self.run_alone(TILDE_LIBRARY=another), f"^ImportError: {another} has no tilde_.*TILDE_LIBRARY")

    def test_an_older_python_reads_it(self):
        with open(SOURCE, encoding="utf-8") as file:
            ast.parse(file.read(), feature_version=(3, 8))


def load_tests(loader, tests, pattern):
    """The examples of tilde.py are tests too."""
    tests.addTests(doctest.DocTestSuite(tilde))
    return tests


if __name__ == "__main__":
    result = unittest.main(verbosity=0, exit=False).result
    print(result.testsRun)
    sys.exit(not result.wasSuccessful())
