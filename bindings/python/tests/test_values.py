"""What columns may be given as, and what is told of bad ones."""

import unittest

import numpy as np

import rowstation as station

try:
    import pandas
except ImportError:
    pandas = None


def encoded(kind, values, *rest):
    schema = station.Schema([("c", kind, *rest)])
    return station.decode(schema, station.encode(schema, {"c": values}))["c"].tolist()


class Given(unittest.TestCase):
    def test_numbers(self):
        for values in ([1, None, 3], (1, None, 3), np.ma.array([1, 0, 3], mask=[0, 1, 0]), np.array([1, None, 3], object), iter([1, None, 3])):
            self.assertEqual(encoded("u32", values), [1, None, 3])
        for dtype in ("i1", "u1", "<i8", ">i4", "u8", "f8"):
            self.assertEqual(encoded("i16", np.array([5, 6], dtype)), [5, 6])
        self.assertEqual(encoded("i16", np.arange(10)[::3]), [0, 3, 6, 9])
        self.assertEqual(encoded("u64", [2**64 - 1, 0, None]), [2**64 - 1, 0, None])
        self.assertEqual(encoded("i64", [-(2**63), 2**63 - 1]), [-(2**63), 2**63 - 1])
        self.assertEqual(encoded("i8", [np.int64(-5), 7, 2.0]), [-5, 7, 2])
        for kind, bits in (("i128", 128), ("i256", 256)):
            values = [-(2 ** (bits - 1)), None, -1, 0, 2**64, 2 ** (bits - 1) - 1]
            self.assertEqual(encoded(kind, values), values)
            self.assertEqual(encoded(kind, np.array([5, -6], "i1")), [5, -6])
            self.assertEqual(encoded(kind, [np.int64(-5), 7, 2.0]), [-5, 7, 2])
            self.assertEqual(encoded(kind, np.ma.array([1, 2], mask=[True, False])), [None, 2])
        self.assertEqual(encoded("f64", [1, 2.5, None, np.float32(0.5)]), [1.0, 2.5, None, 0.5])
        self.assertEqual(encoded("f32", np.array([0.1])), [float(np.float32(0.1))])
        self.assertEqual(encoded("f64", np.array([2**53, 0])), [2.0**53, 0.0])

    def test_nothing(self):
        for kind, rest in (("bool", ()), ("u8", ()), ("i128", ()), ("f16", ()), ("day_time", ()), ("fixed", (3,)), ("bytes", ()), ("text", ())):
            self.assertEqual(encoded(kind, [], *rest), [])
            self.assertEqual(encoded(kind, np.array([]), *rest), [])
            self.assertEqual(encoded(kind, [None], *rest) if kind != "day_time" else [None], [None])

    def test_bools(self):
        self.assertEqual(encoded("bool", [True, None, False]), [True, None, False])
        self.assertEqual(encoded("bool", np.array([True, False])), [True, False])
        self.assertEqual(encoded("bool", np.ma.array([True, True], mask=[True, False])), [None, True])

    def test_intervals(self):
        schema = station.Schema("e:month_day_nano")
        wanted = station.encode(schema, {"e": [(1, -2, 250), (0, 0, -1)]})
        table = np.array([[1, -2, 250], [0, 0, -1]])
        structured = np.array([(1, -2, 250), (0, 0, -1)], [("months", "i8"), ("days", "i8"), ("nanoseconds", "i8")])
        for given in (table, structured, [[1, -2, 250], [0, 0, -1]], wanted.decode()["e"]):
            self.assertEqual(station.encode(schema, {"e": given}), wanted)
        nulls = station.encode(schema, {"e": [None, (1, 2, 3)]})
        self.assertEqual(nulls[0], bytes(17))
        self.assertEqual(station.encode(schema, nulls.decode()), nulls)

    def test_bytes_and_text(self):
        self.assertEqual(encoded("bytes", [b"a", None, b"", bytearray(b"x")]), [b"a", None, b"", b"x"])
        self.assertEqual(encoded("bytes", np.array([b"ae", b"", b"a"])), [b"ae", b"", b"a"])
        self.assertEqual(encoded("text", np.array(["ae", "", "ß"])), ["ae", "", "ß"])
        self.assertEqual(encoded("text", ["a", None, ""]), ["a", None, ""])
        self.assertEqual(encoded("fixed", [b"abc", None, b"\0\0\0"], 3), [b"abc", None, b"\0\0\0"])
        self.assertEqual(encoded("fixed", np.frombuffer(b"abcdef", "V3"), 3), [b"abc", b"def"])
        self.assertEqual(encoded("fixed", np.frombuffer(b"abcdef", np.uint8).reshape(2, 3), 3), [b"abc", b"def"])
        self.assertEqual(encoded("fixed", [b"", None], 0), [b"", None])
        column = station.ByteColumn.of([b"abc", None, b"d"])
        self.assertEqual(encoded("bytes", column), [b"abc", None, b"d"])
        self.assertEqual(encoded("bytes", column[np.array([2, 0])]), [b"d", b"abc"])
        self.assertEqual(encoded("bytes", station.ByteColumn(np.frombuffer(b"abcde", np.uint8), [2, 3, 5])), [b"c", b"de"])
        self.assertEqual(column.to_numpy().tolist(), [b"abc", None, b"d"])

    def test_columns_together(self):
        schema = station.Schema("a:u8,b:text")
        wanted = station.encode(schema, {"a": [1, 2], "b": ["x", "y"]})
        self.assertEqual(station.encode(schema, [[1, 2], ["x", "y"]]), wanted)
        self.assertEqual(station.encode(schema, np.array([(1, "x"), (2, "y")], [("a", "u1"), ("b", "U1")])), wanted)
        self.assertEqual(station.encode(schema, {"b": ["x", "y"], "other": 5, "a": [1, 2]}), wanted)

    @unittest.skipIf(pandas is None, "pandas is not at hand")
    def test_pandas(self):
        frame = pandas.DataFrame({
            "whole": pandas.array([1, None, 3], "Int64"), "floats": [1.0, np.nan, 3.0], "names": ["a", None, "ß"],
            "strings": pandas.array(["a", pandas.NA, "b"], "string"), "flags": pandas.array([True, None, False], "boolean"),
            "kinds": pandas.Categorical(["x", None, "y"]), "plain": [1, 2, 3], "extra": [object()] * 3,
        })
        schema = station.Schema("whole:u16,floats:f32,names:text,strings:text,flags:bool,kinds:text,plain:i8")
        decoded = station.decode(schema, station.encode(schema, frame))
        self.assertEqual(decoded["whole"].tolist(), [1, None, 3])
        self.assertEqual(decoded["floats"].tolist(), [1.0, None, 3.0])
        self.assertEqual(decoded["names"].tolist(), ["a", None, "ß"])
        self.assertEqual(decoded["strings"].tolist(), ["a", None, "b"])
        self.assertEqual(decoded["flags"].tolist(), [True, None, False])
        self.assertEqual(decoded["kinds"].tolist(), ["x", None, "y"])
        # In pandas a column of whole numbers with one missing is a column of floats.
        self.assertEqual(encoded("u8", frame["floats"]), [1, None, 3])
        self.assertEqual(station.decode(schema, station.encode(schema, frame[::-1]))["plain"].tolist(), [3, 2, 1])


class Bad(unittest.TestCase):
    def told(self, pattern, kind, values, *rest):
        with self.assertRaisesRegex(station.BadValue, pattern):
            encoded(kind, values, *rest)

    def test_values(self):
        self.told("column c, row 1: 256 does not fit u8, 0 to 255", "u8", [1, 256])
        self.told("row 2: -1 does not fit u64", "u64", np.array([1, 2, -1]))
        self.told("row 1: 18446744073709551616 does not fit u64", "u64", [1, 2**64])
        self.told("row 0: 9.223372036854776e.18 does not fit i64", "i64", [2.0**63])
        self.told("row 1: 1148130695.* does not fit u64", "u64", [1, 2**2000])
        self.told("row 1: 170141183460469231731687303715884105728 does not fit i128, -170141.* to 17014.*", "i128", [1, 2**127])
        self.told("row 0: 1.5 is no i256", "i256", [1.5])
        self.told("row 1: True is no i256", "i256", [1, True])
        self.told("row 1: inf is no u64", "u64", [2**64 - 1, float("inf")])
        self.told("row 1: nan is no u64", "u64", [2**64 - 1, float("nan")])
        self.told("row 1: 1.5 is no i32", "i32", [1.0, 1.5])
        self.told("row 0: nan is no i32", "i32", [float("nan")])
        self.told("row 0: inf is no i32", "i32", [float("inf")])
        self.told("row 1: 'x' is no i32", "i32", [1, "x"])
        self.told("row 0: True is no i32", "i32", [True, 2])
        self.told("row 1: 'x' is no f64", "f64", [1.0, "x"])
        self.told("row 0: 1e.39 does not fit f32", "f32", [1e39])
        self.told("row 0: 65520.0 does not fit f16", "f16", np.array([65520.0]))
        self.told("row 0: 9007199254740993 does not fit f64", "f64", [2**53 + 1])
        self.told("row 0: 1000.* does not fit f64", "f64", [10**400])
        self.told("row 1: 1 is no bool", "bool", [True, 1])
        self.told("row 0: .1, 2. is no month_day_nano, which is months, days, nanoseconds", "month_day_nano", [(1, 2)])
        self.told("row 1: days: 2147483648 does not fit i32", "day_time", [(0, 0), (2**31, 0)])
        self.told("row 0: 'a' is no bytes; for str say kind text", "bytes", ["a"])
        self.told("row 1: b'a' is no text", "text", ["a", b"a"])
        self.told("row 0: '.udc80' has a character that UTF-8 has not", "text", ["\udc80"])
        self.told("row 1: b'ab' has 2 bytes, and fixed:3 has 3", "fixed", [b"abc", b"ab"], 3)
        self.told("row 0: 'xxxxx.*[.][.][.] is no i8", "i8", ["x" * 1000])

    def test_shapes(self):
        self.told("column c: an array of int64, shape .2, 2., for u8", "u8", np.zeros((2, 2), int))
        self.told("column c: an array of <U1, shape .1,., for u8", "u8", np.array(["x"]))
        self.told("an array of int64, shape .1,., for bool", "bool", np.array([1]))
        self.told("an array of float64, shape .1,., for text", "text", np.array([1.0]))
        self.told("an array of int64, shape .1, 4., for month_day_nano", "month_day_nano", np.zeros((1, 4), int))
        self.told("column c: a str is given, and not an array or a list of values", "text", "abc")
        self.told("column c: a int is given", "u8", 5)

    def test_columns(self):
        schema = station.Schema("a:u8,b:u8")
        for given, pattern in (
            ({"a": [1]}, "there is no column b among a"),
            ({}, "there is no column a among none"),
            ([[1]], "1 columns are given, and the schema has 2: a:u8,b:u8"),
            ({"a": [1], "b": [1, 2]}, "column a has 1 rows, and column b has 2"),
            (5, "not as a int"),
        ):
            with self.assertRaisesRegex(ValueError, pattern):
                station.encode(schema, given)

    def test_schemas(self):
        for given, pattern in (
            ([("a", "u33")], "column a: there is no kind 'u33'; the kinds are bool, i8"),
            ([("a", "u8", "up")], "column a: there is no option 'up'; the options are ascending"),
            ([("a", "u8", "ascending", "descending")], "column a: descending is said beside another word"),
            ([("a", "u8"), ("a", "u16")], "two columns have the name a"),
            ([("", "u8")], "a column's name is text, and not empty"),
            ([("a",)], "a column is a name, a kind and options"),
            (["ab"], "a column is a name, a kind and options"),
            ([("a", "fixed")], "column a: fixed is followed by its width"),
            ([("a", "fixed", "wide")], "column a: fixed is followed by its width"),
            ([("a", "u8", 5)], "there is no option 5"),
            ("a:u8,,b:u8", "a column is a name, a kind and options"),
        ):
            with self.assertRaisesRegex(ValueError, pattern):
                station.Schema(given)
        for given, numbers in (([], (1, 0, 0, 0)), ("a:u8,h:fixed:1025", (4, 2, 0, 0))):
            with self.assertRaises(station.Refused) as caught:
                station.Schema(given)
            self.assertEqual(caught.exception.numbers, numbers)

    def test_byte_columns(self):
        for data, ends, mask in ((b"ab", [0, 3], None), (b"ab", [1, 0], None), (b"ab", [], None), (b"ab", [0, 1], [True, False])):
            with self.assertRaises(ValueError):
                station.ByteColumn(np.frombuffer(data, np.uint8), ends, mask)


if __name__ == "__main__":
    unittest.main()
