"""Writes the samples of this folder with pyarrow, and beside each of them the rows that pyarrow reads from it, as lines of JSON.

    python3 tests/data/pyarrow/make.py

pyarrow 25 wrote those that are here. NAME.arrows is a stream and NAME.arrow a file of the same rows, which NAME.txt has.
"""
import json
import os
import shutil
import sys
from decimal import Decimal, getcontext

import pyarrow as pa
import pyarrow.feather
import pyarrow.ipc as ipc

sys.dont_write_bytecode = True
from value_text import DAY_TIME_INTERVAL, MONTH_INTERVAL, rows_of, with_types

getcontext().prec = 80
SAMPLES = f"{os.path.dirname(os.path.realpath(__file__))}/samples"
STREAM, FILE = ("arrows",), ("arrow",)
BOTH = STREAM + FILE


class Folder:
    """A folder of samples."""

    def __init__(self, name):
        self.path = f"{SAMPLES}/{name}"
        os.makedirs(self.path)

    def sample(self, name, batches, forms=BOTH, batch_metadata=None, metadata=None, full=True, **options):
        """Writes record batches in these forms, and the rows that are read back."""
        batches = batches if isinstance(batches, list) else [batches]
        schema = batches[0] if isinstance(batches[0], pa.Schema) else batches[0].schema
        options = ipc.IpcWriteOptions(**options)
        for form in forms:
            path = f"{self.path}/{name}.{form}"
            writer = ipc.new_stream(path, schema, options=options) if form in STREAM else ipc.new_file(path, schema, options=options, metadata=metadata)
            with writer:
                for batch in [it for it in batches if isinstance(it, pa.RecordBatch)]:
                    writer.write_batch(batch, custom_metadata=batch_metadata)
            self.state_rows(name, form, full)

    def state_rows(self, name, form, full=True):
        """Writes the rows that pyarrow reads from a sample. Those of its stream and of its file are the same."""
        with pa.OSFile(f"{self.path}/{name}.{form}") as source:
            reader = ipc.open_stream(source) if form in STREAM else ipc.open_file(source)
            batches = list(reader) if form in STREAM else [reader.get_batch(k) for k in range(reader.num_record_batches)]
        for batch in batches:
            batch.validate(full=full)
        text = "".join(f"{row}\n" for batch in batches for row in rows_of(batch))
        path = f"{self.path}/{name}.txt"
        if os.path.exists(path):
            with open(path, encoding="utf-8") as file:
                assert file.read() == text, f"{name}: the rows of the stream and of the file differ"
        with open(path, "w", encoding="utf-8") as file:
            file.write(text)


def table(fields, **columns):
    """A record batch of columns, given as arrays or as lists of the type in `fields`, where a type alone is of a nullable column."""
    fields = [it if isinstance(it, pa.Field) else pa.field(name, it) for name, it in fields.items()]
    arrays = [pa.array(it, field.type) if isinstance(it, list) else it for field in fields for it in [columns[field.name]]]
    return pa.record_batch(arrays, schema=pa.schema(fields))


def column(name, items, kind=None):
    return pa.record_batch([items if isinstance(items, pa.Array) else pa.array(items, kind)], names=[name])


def joined(*batches):
    """A record batch of the columns of several."""
    return pa.record_batch([it for batch in batches for it in batch.columns], schema=pa.schema([it for batch in batches for it in batch.schema]))


def integers_as(kind, items, width):
    """An array of a type of integers below, given by these."""
    return pa.array(items, width).view(kind)


def bits(*items):
    """A buffer of bits."""
    return pa.py_buffer(sum(it << k for k, it in enumerate(items)).to_bytes((len(items) + 7) // 8, "little"))


def numbers(width, *items):
    """A buffer of numbers of `width` bytes."""
    return pa.py_buffer(b"".join(it.to_bytes(width, "little", signed=True) for it in items))


# Flat types

ODD_STRINGS = ["", "a", None, 'quote " and \\', "line\nfeed\ttab\r", "\b\f\x01\x1f\x7f", "Ω ünïcode \u2028", "😀", "null"]


def booleans():
    keep = [True, False, None, True, True, False, None, False, True, False, True]
    return table({"keep": pa.bool_(), "sure": pa.field("sure", pa.bool_(), nullable=False), "row": pa.int8()},
                 keep=keep, sure=[k % 3 == 0 for k in range(11)], row=list(range(11)))


def integers():
    kinds = {f"{sign}{bits}": (sign, bits) for sign in "iu" for bits in (8, 16, 32, 64)}
    limits = {name: (-(2 ** (bits - 1)), 2 ** (bits - 1) - 1) if sign == "i" else (0, 2**bits - 1) for name, (sign, bits) in kinds.items()}
    types = {name: getattr(pa, f"{'u' if sign == 'u' else ''}int{bits}")() for name, (sign, bits) in kinds.items()}
    return table(types, **{name: [low, 0, None, 1, high] for name, (low, high) in limits.items()})


def floats():
    items = [0.0, -0.0, 1.0, -2.5, 0.1, 100.0, None, float("nan"), float("inf"), float("-inf")]
    wide = [5e-324, 2.2250738585072014e-308, 1.7976931348623157e308, 1e15, 1e16, 123456789012345680.0, 0.0001, 0.00001, 0.0000012, -1e22]
    narrow = [1e-45, 1.1754944e-38, 3.4028235e38, 1e12, 1e13, 16777216.0, 0.0001, 0.00001, 0.0000012, -1e22]
    half = [6e-8, 6.104e-5, 65504.0, 0.333, 2048.0, 1e-3, 0.5, -0.25, 1024.5, -7.0]
    return table({"half": pa.float16(), "single": pa.float32(), "double": pa.float64()},
                 half=items + half, single=items + narrow, double=items + wide)


def floats_inside():
    return table({"points": pa.list_(pa.float64()), "vector": pa.list_(pa.float32(), 3), "place": pa.struct({"x": pa.float64(), "name": pa.string()})},
                 points=[[1.0, None, 2.5], None, []], vector=[[1.0, 2.0, 0.1], None, [0.0, -0.0, 1e10]],
                 place=[{"x": 1.5, "name": "a"}, None, {"x": None, "name": "b"}])


def decimals_of(make, digits):
    """Decimals of a width, of up to `digits` digits."""
    high = Decimal("9" * digits)
    return table({"money": make(digits, 2), "whole": make(digits, 0), "part": make(digits, digits)},
                 money=[Decimal("1.25"), Decimal("-0.05"), None, Decimal("0.00"), high.scaleb(-2), -high.scaleb(-2)],
                 whole=[Decimal(125), Decimal(-1), None, Decimal(0), high, -high],
                 part=[Decimal(1).scaleb(-digits), Decimal(-1).scaleb(-digits), None, Decimal(0), high.scaleb(-digits), -high.scaleb(-digits)])


# 2024-02-29, the epoch, the day before it, 1900-02-28, 0000-01-01, -0001-12-31, 9999-12-31, 10000-01-01, 12345-01-01, the ends
DAYS = [19782, 0, -1, None, -25509, -719528, -719529, 2932896, 2932897, 3789391, 2**31 - 1, -(2**31)]
MILLISECONDS_OF_A_DAY = 86400000


def dates():
    days = [it and it * MILLISECONDS_OF_A_DAY for it in DAYS]
    return joined(column("day", integers_as(pa.date32(), DAYS, pa.int32())), column("day64", integers_as(pa.date64(), days, pa.int64())))


def times():
    units = {"s": (pa.time32, pa.int32(), 1), "ms": (pa.time32, pa.int32(), 10**3), "us": (pa.time64, pa.int64(), 10**6), "ns": (pa.time64, pa.int64(), 10**9)}
    return joined(*(column(unit, integers_as(make(unit), [0, 45296 * one + one // 8, None, 86400 * one - 1], width)) for unit, (make, width, one) in units.items()))


SECONDS = {"s": 1, "ms": 10**3, "us": 10**6, "ns": 10**9}


def timestamps(zone=None):
    far = {"s": 10**11, "ms": 10**14, "us": 10**17, "ns": 2**63 - 1}
    moments = {unit: [1709210096 * one + one // 1000, 0, -1, None, far[unit], -(2**63) if unit == "ns" else -far[unit]] for unit, one in SECONDS.items()}
    return joined(*(column(unit, integers_as(pa.timestamp(unit, zone), items, pa.int64())) for unit, items in moments.items()))


def zones():
    zones = {"utc": "UTC", "city": "Europe/Berlin", "offset": "+02:00"}
    return joined(*(column(name, integers_as(pa.timestamp("ms", zone), [1709210096001, None, -1], pa.int64())) for name, zone in zones.items()))


def durations():
    spans = {unit: [3 * one // 2, -3 * one, None, 0, -1, 2**63 - 1, -(2**63)] for unit, one in SECONDS.items()}
    return joined(*(column(unit, integers_as(pa.duration(unit), items, pa.int64())) for unit, items in spans.items()))


def day_time(days, milliseconds):
    return int.from_bytes(days.to_bytes(4, "little", signed=True) + milliseconds.to_bytes(4, "little", signed=True), "little", signed=True)


def intervals():
    given = {"months": (MONTH_INTERVAL, pa.int32(), [14, 0, None, -1]),
             "days": (DAY_TIME_INTERVAL, pa.int64(), [day_time(1, 3), day_time(0, 0), None, day_time(-2, -86400001)])}
    batch = joined(*(column(name, items, width) for name, (_, width, items) in given.items()))
    batch = with_types(batch, pa.schema({name: kind for name, (kind, _, _) in given.items()}))
    nanoseconds = [pa.MonthDayNano([1, 2, 3]), pa.MonthDayNano([0, 0, 0]), None, pa.MonthDayNano([-1, -2, -3000000003])]
    return with_types(joined(with_types(batch, pa.schema({name: width for name, (_, width, _) in given.items()})), column("nanos", nanoseconds)),
                      pa.schema([*batch.schema, ("nanos", pa.month_day_nano_interval())]))


def bytes_of_any_length():
    items = [b"", b"\x00\xff", None, b"abc", b"\x80", bytes(range(20))]
    return table({"bytes": pa.binary(), "large": pa.large_binary()}, bytes=items, large=items)


def fixed_size_binary():
    return table({"three": pa.binary(3), "sixteen": pa.binary(16)}, three=[b"\x00\xff\x01", None, b"abc"], sixteen=[bytes(range(16)), b"\xff" * 16, None])


def strings():
    return table({"string": pa.string(), "large": pa.large_string()}, string=ODD_STRINGS, large=ODD_STRINGS)


LONG = ["twelve bytes", "thirteen byte", "a string that is not inline, " * 3, None, "", "Ω" * 6, "Ω" * 7]


def views():
    return table({"string": pa.string_view(), "bytes": pa.binary_view()}, string=LONG, bytes=[None if it is None else it.encode() for it in LONG])


def views_inside():
    return table({"tags": pa.list_(pa.string_view()), "other": pa.int8(), "record": pa.struct({"b": pa.binary_view()})},
                 tags=[LONG[:4], None, [], LONG[4:]], other=[1, 2, 3, 4], record=[{"b": b"x" * 13}, None, {"b": None}, {"b": b"x"}])


def views_of_two_buffers():
    """A column of views into two data buffers, as concatenations have, and beside it one without a data buffer."""
    first, second = b"a first string of a buffer", b"and a string of the second one"
    view = lambda text, buffer, offset: len(text).to_bytes(4, "little") + (text[:4] + numbers(4, buffer, offset).to_pybytes() if len(text) > 12 else text.ljust(12, b"\0"))
    rows = [view(second, 1, 0), view(b"inline", 0, 0), view(first, 0, 0), view(first[2:], 0, 2)]
    array = pa.Array.from_buffers(pa.string_view(), 4, [None, pa.py_buffer(b"".join(rows)), pa.py_buffer(first), pa.py_buffer(second)])
    return joined(column("two", array), column("none", ["a", None, "b", "c"], pa.string_view()), column("id", [1, 2, 3, 4], pa.int64()))


def nulls():
    return joined(column("nothing", [None] * 3, pa.null()), column("number", [1, None, 3], pa.int16()))


# Nested types

LISTS = [[1, 2], None, [], [None, 3], [4, 5, 6, 7, 8]]


def lists():
    return table({"list": pa.list_(pa.int16()), "large": pa.large_list(pa.string()), "lists": pa.list_(pa.list_(pa.int64()))},
                 list=LISTS, large=[["a", None], [], None, ["bc"], [""]], lists=[[[1], None, []], None, [], [[2, None]], [[3, 4]]])


def fixed_size_lists():
    return table({"pair": pa.list_(pa.int32(), 2), "flags": pa.list_(pa.bool_(), 3)},
                 pair=[[1, 2], None, [None, 3], [4, 5]], flags=[[True, False, None], [None] * 3, None, [False, True, True]])


def structs():
    inner, strict = pa.struct({"x": pa.int8(), "y": pa.string()}), pa.struct([pa.field("sure", pa.int8(), nullable=False)])
    return table({"record": pa.struct({"a": pa.int32(), "b": inner, "c": pa.list_(pa.int8())}), "strict": strict}, strict=[{"sure": 1}, None, {"sure": 3}, None],
                 record=[{"a": 1, "b": {"x": 2, "y": "z"}, "c": [3]}, None, {"a": None, "b": None, "c": None}, {"a": 4, "b": {"x": None, "y": ""}, "c": []}])


def maps():
    deep = pa.map_(pa.int32(), pa.list_(pa.string()), keys_sorted=True)
    return table({"map": pa.map_(pa.string(), pa.int32()), "deep": deep},
                 map=[[("a", 1), ("b", None)], None, [], [("c", 3)]], deep=[[(1, ["x", None]), (2, None)], [], None, [(3, [])]])


def union_of(mode, codes=(0, 1, 2), name="union"):
    types = pa.array([codes[it] for it in (0, 1, 2, 0, 1, 2, 0)], pa.int8())
    number, text, record = pa.array([1, None, 3, 4, 5, 6, 7], pa.int32()), pa.array(["a", "b", None, "d", "e", "f", "g"]), pa.array([{"x": k} for k in range(7)])
    if mode == "sparse":
        union = pa.UnionArray.from_sparse(types, [number, text, record], ["number", "text", "record"], list(codes))
    else:
        offsets = pa.array([0, 0, 0, 1, 1, 1, 2], pa.int32())
        union = pa.UnionArray.from_dense(types, offsets, [number[:3], text[1:3], record[:2]], ["number", "text", "record"], list(codes))
    return column(name, union)


def unions_inside():
    dense = union_of("dense").column(0)
    lists = pa.ListArray.from_arrays(pa.array([0, 2, 2, 5, 7], pa.int32()), dense)
    sparse = union_of("sparse", (7, 5, 9)).column(0)
    records = pa.StructArray.from_arrays([sparse, pa.array(range(7), pa.int8())], ["u", "k"])
    return joined(column("list", lists), column("record", records.slice(2, 4)))


def deep():
    kind = pa.struct({"items": pa.list_(pa.struct({"tags": pa.map_(pa.string(), pa.list_(pa.list_(pa.bool_(), 2))), "id": pa.uint64()}))})
    rows = [{"items": [{"tags": [("a", [[True, None], None]), ("b", None)], "id": 1}, None, {"tags": None, "id": None}]}, None, {"items": []}, {"items": None},
            {"items": [{"tags": [], "id": 2**64 - 1}]}]
    return column("deep", rows, kind)


# Dictionaries and extensions

def dictionary(keys, values, width=None, ordered=False):
    return pa.DictionaryArray.from_arrays(pa.array(keys, width or pa.int32()), values if isinstance(values, pa.Array) else pa.array(values), ordered=ordered)


def dictionaries():
    names = ["int8", "int16", "int32", "int64", "uint8", "uint16", "uint32", "uint64"]
    keys = [0, 2, None, 1, 2]
    return joined(*(column(it, dictionary(keys, ["a", "b", "c"], getattr(pa, it)(), ordered=it == "int8")) for it in names))


def dictionary_values():
    """Values of several types, null values, unused values, and a dictionary without values."""
    return joined(
        column("numbers", dictionary([1, 0, 1, None], pa.array([10, 20, 30], pa.int64()))),
        column("nulls", dictionary([1, 0, None, 2], pa.array(["a", None, "b"]))),
        column("bools", dictionary([1, 0, 1, 0], pa.array([True, False]))),
        column("large", dictionary([0, 0, 1, 1], pa.array(["x", "yz"], pa.large_string()))),
        column("records", dictionary([1, None, 0, 1], pa.array([{"p": 1}, {"p": None}]))),
        column("empty", dictionary([None] * 4, pa.array([], pa.string()))),
    )


def dictionaries_inside():
    colours = dictionary([0, 1, 0, None, 1, 1], ["red", "blue"], pa.int8())
    lists = pa.ListArray.from_arrays(pa.array([0, 2, 2, 6], pa.int32()), colours)
    records = pa.StructArray.from_arrays([dictionary([1, 0, None], ["s", "m", "l"])], ["size"])
    nested = dictionary([1, 0, 1], pa.StructArray.from_arrays([dictionary([0, 1], ["deep", "deeper"], pa.int16())], ["word"]))
    return joined(column("lists", lists), column("records", records), column("nested", nested))


class Celsius(pa.ExtensionType):
    """An extension type with metadata."""

    def __init__(self):
        super().__init__(pa.int32(), "example.celsius")

    def __arrow_ext_serialize__(self):
        return b'{"scale": "celsius"}'

    @classmethod
    def __arrow_ext_deserialize__(cls, storage, serialized):
        return cls()


class Colour(pa.ExtensionType):
    """An extension type of dictionaries, with empty metadata."""

    def __init__(self):
        super().__init__(pa.dictionary(pa.int8(), pa.string()), "example.colour")

    def __arrow_ext_serialize__(self):
        return b""

    @classmethod
    def __arrow_ext_deserialize__(cls, storage, serialized):
        return cls()


def extensions():
    ids = pa.ExtensionArray.from_storage(pa.uuid(), pa.array([bytes(range(16)), None, b"\xff" * 16], pa.binary(16)))
    texts = pa.ExtensionArray.from_storage(pa.json_(pa.string()), pa.array(['{"a":1}', None, "[]"]))
    flags = pa.ExtensionArray.from_storage(pa.bool8(), pa.array([1, 0, None], pa.int8()))
    warm = pa.ExtensionArray.from_storage(Celsius(), pa.array([20, None, -5], pa.int32()))
    return joined(column("id", ids), column("json", texts), column("flag", flags), column("warm", warm))


def extensions_inside():
    warm = pa.ExtensionArray.from_storage(Celsius(), pa.array([20, None, -5, 6], pa.int32()))
    lists = pa.ListArray.from_arrays(pa.array([0, 1, 1, 4], pa.int32()), warm)
    colours = pa.ExtensionArray.from_storage(Colour(), dictionary([1, None, 0], ["red", "blue"], pa.int8()))
    return joined(column("lists", lists), column("records", pa.StructArray.from_arrays([warm[:3]], ["warm"])), column("colour", colours))


def tensors():
    kind = pa.fixed_shape_tensor(pa.float32(), (2, 2))
    return column("tensor", pa.ExtensionArray.from_storage(kind, pa.array([[1, 2, 3, 4], None, [0.5, 0, 0, 0]], pa.list_(pa.float32(), 4))))


# Layouts

def long_booleans():
    flags = [None if k % 7 == 3 else k % 3 == 0 for k in range(40)]
    return joined(column("flag", flags), column("number", [None if it is None else k for k, it in enumerate(flags)], pa.int32()),
                  column("text", [f"row {k}" if it else None for k, it in enumerate(flags)], pa.string()))


def zero_lengths():
    """Columns of length 0 whose first offset is not 0."""
    small, large = numbers(4, 2), numbers(8, 2)
    item, entry = pa.array([1, 2, 3], pa.int8()), pa.StructArray.from_arrays([pa.array(["a", "b"]), pa.array([1, 2])], fields=[pa.field("key", pa.string(), False), pa.field("value", pa.int64())])
    strings = pa.Array.from_buffers(pa.string(), 0, [None, small, pa.py_buffer(b"abcd")])
    return joined(
        column("string", strings),
        column("binary", pa.Array.from_buffers(pa.binary(), 0, [None, small, pa.py_buffer(b"abcd")])),
        column("large", pa.Array.from_buffers(pa.large_string(), 0, [None, large, pa.py_buffer(b"abcd")])),
        column("list", pa.Array.from_buffers(pa.list_(pa.int8()), 0, [None, small], children=[item])),
        column("large_list", pa.Array.from_buffers(pa.large_list(pa.int8()), 0, [None, large], children=[item])),
        column("map", pa.Array.from_buffers(pa.map_(pa.string(), pa.int64()), 0, [None, small], children=[entry])),
        column("record", pa.StructArray.from_arrays([strings], ["inner"])),
        column("pair", pa.FixedSizeListArray.from_arrays(strings, 2)),
    )


def no_offsets():
    """Columns of length 0 whose offsets have no bytes."""
    none, items = pa.py_buffer(b""), pa.array([], pa.int8())
    return joined(
        column("string", pa.Array.from_buffers(pa.string(), 0, [None, none, none])),
        column("large", pa.Array.from_buffers(pa.large_binary(), 0, [None, none, none])),
        column("list", pa.Array.from_buffers(pa.list_(pa.int8()), 0, [None, none], children=[items])),
        column("large_list", pa.Array.from_buffers(pa.large_list(pa.int8()), 0, [None, none], children=[items])),
    )


def zero_lengths_inside():
    """Rows without items, over a child of length 0 whose first offset is not 0; and such a dictionary."""
    empty = zero_lengths().column(0)
    return joined(column("lists", pa.ListArray.from_arrays(pa.array([0, 0, 0], pa.int32()), empty)),
                  column("words", dictionary([None, None], empty)))


def null_over_bytes():
    """Null strings over bytes that are not UTF-8, and over half a character."""
    array = pa.Array.from_buffers(pa.string(), 4, [bits(1, 0, 1, 0), numbers(4, 0, 1, 4, 5, 6), pa.py_buffer(b"a\xff\xfe\x80b\xce")])
    large = pa.Array.from_buffers(pa.large_string(), 4, [bits(0, 1, 0, 1), numbers(8, 0, 1, 3, 4, 5), pa.py_buffer(b"\xceok\xa9z")])
    return joined(column("string", array), column("large", large))


def null_over_bytes_inside():
    """The same in lists and among the values of a dictionary."""
    inner = null_over_bytes().column(0)
    return joined(column("lists", pa.ListArray.from_arrays(pa.array([0, 2, 4], pa.int32()), inner)), column("words", dictionary([2, 1], inner)))


def nulls_over_values():
    """Values under nulls that are not those of empty slots: numbers, strings, lists, keys past the dictionary."""
    keys = pa.Array.from_buffers(pa.int8(), 3, [bits(1, 0, 1), numbers(1, 1, 100, 0)])
    return joined(
        column("number", pa.Array.from_buffers(pa.int32(), 3, [bits(1, 0, 1), numbers(4, 7, 8, 9)])),
        column("string", pa.Array.from_buffers(pa.string(), 3, [bits(1, 0, 1), numbers(4, 0, 1, 3, 4), pa.py_buffer(b"abcd")])),
        column("list", pa.Array.from_buffers(pa.list_(pa.int8()), 3, [bits(0, 1, 0), numbers(4, 0, 2, 3, 5)], children=[pa.array([1, 2, 3, 4, 5], pa.int8())])),
        column("word", pa.DictionaryArray.from_arrays(keys, pa.array(["x", "y"]), safe=False)),
    )


def unreached_items():
    """Lists and strings whose offsets begin above 0 and end before the last item."""
    return joined(
        column("list", pa.Array.from_buffers(pa.list_(pa.int8()), 2, [None, numbers(4, 1, 3, 4)], children=[pa.array(range(6), pa.int8())])),
        column("string", pa.Array.from_buffers(pa.string(), 2, [None, numbers(4, 1, 3, 4), pa.py_buffer(b"abcdef")])),
    )


def names():
    """Names that are empty, equal, or of any characters."""
    given = ["", "a", "a", 'quote " \\', "line\nfeed", "Ω 😀", "a.b"]
    return pa.record_batch([pa.array([k, None], pa.int8()) for k in range(len(given))], names=given)


def everything():
    """A column of each kind that needs nothing below."""
    return joined(booleans().slice(0, 5), integers(), strings().slice(0, 5), lists(), bytes_of_any_length().slice(0, 5))


def many(rows=100):
    """Rows that compress."""
    return joined(column("id", list(range(rows)), pa.int64()), column("word", [("alpha", "beta", "gamma", None)[k % 4] for k in range(rows)]),
                  column("flag", [k % 5 == 0 for k in range(rows)]))


def noise(rows=64):
    """Numbers that do not compress."""
    state, items = 88172645463325252, []
    for _ in range(rows):
        for shift in (13, -7, 17):
            state = (state ^ (state << shift if shift > 0 else state >> -shift)) % 2**64
        items.append(state)
    return column("noise", items, pa.uint64())


def text_under_null(text):
    """A row, a null over a text, and a row: a long buffer of few rows."""
    size = len(text)
    return column("text", pa.Array.from_buffers(pa.string(), 3, [bits(1, 0, 1), numbers(4, 0, 3, size - 3, size), pa.py_buffer(text)]))


WORDS = "the quick brown fox jumps over the lazy dog, and runs away from it again; "


def text_of_words(size):
    """Pieces of a few words: literals and short matches."""
    text, at = "", 1
    while len(text) < size:
        at = at * 48271 % 2147483647
        text += WORDS[at % 60 : at % 60 + 5 + at % 9]
    return text[:size].encode()


def text_of_lines(size):
    """Long lines with a number in each: few literals, long matches far apart."""
    return "".join(f"{k:07} {WORDS * 12}\n" for k in range(size // 890 + 1))[:size].encode()


# What other programs write

def pandas_frame():
    """The table that pandas hands to `to_feather`: its metadata, strings, categories and times with nanoseconds."""
    batch = joined(column("name", ["Ada", "Bo", None]), column("born", integers_as(pa.timestamp("ns"), [-4861036800000000000, None, 1709210096000000001], pa.int64())),
                   column("size", dictionary([0, 1, None], ["s", "m"], pa.int8())), column("count", [1, 2, 3], pa.int64()))
    kinds = {"name": ("unicode", "object"), "born": ("datetime", "datetime64[ns]"), "size": ("categorical", "int8"), "count": ("int64", "int64")}
    columns = [{"name": it, "field_name": it, "pandas_type": kind, "numpy_type": numpy, "metadata": {"num_categories": 2, "ordered": False} if it == "size" else None}
               for it, (kind, numpy) in kinds.items()]
    metadata = {"index_columns": [{"kind": "range", "name": None, "start": 0, "stop": 3, "step": 1}], "column_indexes": [], "columns": columns,
                "attributes": {}, "creator": {"library": "pyarrow", "version": pa.__version__}, "pandas_version": "2.3.3"}
    return batch.replace_schema_metadata({"pandas": json.dumps(metadata)})


def pandas_floats():
    """The same with measurements."""
    frame = pandas_frame()
    return joined(frame, column("height", [1.75, None, 1.8], pa.float64())).replace_schema_metadata(frame.schema.metadata)


def polars_frame():
    """The types that Polars writes: views, large lists, categories of views, times in microseconds."""
    words = dictionary([0, 1, 0], pa.array(["low", "a level that is high"], pa.string_view()), pa.uint32())
    return table({"text": pa.string_view(), "level": words.type, "tags": pa.large_list(pa.string_view()), "when": pa.timestamp("us"), "point": pa.struct({"x": pa.int64()})},
                 text=["short", None, "a text that is not inline"], level=words, tags=[["a", None], None, []],
                 when=integers_as(pa.timestamp("us"), [1709210096000001, None, 0], pa.int64()), point=[{"x": 1}, None, {"x": None}])


def polars_compatible():
    """The same as Polars writes them for readers without views."""
    words = dictionary([0, 1, 0], pa.array(["low", "a level that is high"], pa.large_string()), pa.uint32())
    return table({"text": pa.large_string(), "level": words.type, "tags": pa.large_list(pa.large_string()), "bytes": pa.large_binary()},
                 text=["short", None, "a text"], level=words, tags=[["a", None], None, []], bytes=[b"\x00", None, b""])


def write_flat(folder):
    for make in (booleans, integers, floats, floats_inside, dates, times, timestamps, zones, durations, intervals, fixed_size_binary, strings, views, views_inside, views_of_two_buffers, nulls):
        folder.sample(make.__name__, make())
    folder.sample("binary", bytes_of_any_length())
    for name, make, digits in (("decimals", pa.decimal128, 38), ("decimals_256", pa.decimal256, 76), ("decimals_32", pa.decimal32, 9), ("decimals_64", pa.decimal64, 18)):
        folder.sample(name, decimals_of(make, digits))
    folder.sample("dates_of_part_days", column("day", integers_as(pa.date64(), [1, -1, None, MILLISECONDS_OF_A_DAY + 1], pa.int64())), full=False)
    outside = joined(column("s", integers_as(pa.time32("s"), [86400, -1, 0], pa.int32())), column("ns", integers_as(pa.time64("ns"), [86400 * 10**9, -1, 0], pa.int64())))
    folder.sample("times_outside_a_day", outside, full=False)


def write_nested(folder):
    for make in (lists, fixed_size_lists, structs, maps, unions_inside, deep, dictionaries, dictionary_values, dictionaries_inside, extensions, extensions_inside, tensors):
        folder.sample(make.__name__, make())
    folder.sample("unions", joined(union_of("dense"), union_of("sparse", name="other")))
    folder.sample("union_codes", joined(union_of("dense", (5, 127, 0)), union_of("sparse", (9, 8, 7), name="other")))


def write_layouts(folder):
    folder.sample("sliced_flat", long_booleans().slice(11, 15))
    folder.sample("sliced_integers", integers().slice(1, 3))
    folder.sample("sliced_binary", joined(bytes_of_any_length(), fixed_size_binary_of_six()).slice(2, 3))
    folder.sample("sliced_nested", joined(lists(), deep()).slice(2))
    folder.sample("sliced_fixed_size_lists", joined(fixed_size_lists(), structs(), maps()).slice(1, 2))
    folder.sample("sliced_unions", joined(union_of("dense"), union_of("sparse", name="other")).slice(2, 4))
    folder.sample("sliced_dictionaries", dictionaries().slice(1, 3))
    folder.sample("sliced_floats", floats().slice(5, 4))
    folder.sample("sliced_views", views().slice(2, 4))
    folder.sample("sliced_times", joined(times(), zones_of_four()).slice(1, 2))
    for make in (zero_lengths, zero_lengths_inside, no_offsets, null_over_bytes, null_over_bytes_inside, nulls_over_values, unreached_items, names):
        folder.sample(make.__name__, make())


def fixed_size_binary_of_six():
    return column("two", [b"ab", None, b"cd", b"\x00\xff", None, b"ef"], pa.binary(2))


def zones_of_four():
    return column("zoned", integers_as(pa.timestamp("us", "UTC"), [1, 1709210096000001, None, -1], pa.int64()))


def write_batches(folder):
    whole = everything()
    folder.sample("no_rows", whole.slice(0, 0))
    folder.sample("no_rows_nested", joined(*(it.slice(0, 0) for it in (deep(), maps(), dictionaries_inside(), union_of("dense"), union_of("sparse", name="other")))))
    folder.sample("no_batches", whole.schema)
    folder.sample("no_columns", pa.schema([]))
    some = joined(strings().slice(0, 5), booleans().slice(3, 5), lists())
    folder.sample("batches", [some.slice(0, 2), some.slice(2, 0), some.slice(2, 1), some.slice(3)])
    nested = joined(column("map", maps().column(0).slice(1)), deep().slice(2))
    folder.sample("batches_nested", [nested.slice(k, 1) for k in range(3)])
    folder.sample("many_rows", many())
    field = pa.field("a", pa.int32(), metadata={"unit": "metre", "empty": ""})
    batch = pa.record_batch([pa.array([1, None], pa.int32()), pa.array(["x", "y"])], schema=pa.schema([field, ("b", pa.string())], {"author": "Ada", "Ω": "ünï"}))
    folder.sample("metadata", batch)
    folder.sample("metadata_of_batches", batch, batch_metadata={"batch": "first"}, metadata={"footer": "last"})


def write_dictionary_batches(folder):
    batch = lambda keys, words: column("word", dictionary(keys, words, pa.int8()))
    growing = [batch([0, None], ["a"]), batch([1, 0], ["a", "b"]), batch([], ["a", "b"]), batch([2, 1, 3], ["a", "b", "c", None])]
    other = [batch([0, 1], ["a", "b"]), batch([1, 0, None], ["c", "a"]), batch([0], ["d"])]
    folder.sample("dictionary_deltas", growing, emit_dictionary_deltas=True)
    folder.sample("dictionary_replaced", other, STREAM)
    folder.sample("dictionary_grown_replaced", growing, STREAM)
    inner = lambda keys, words: column("list", pa.ListArray.from_arrays(pa.array([0, 1, len(keys)], pa.int32()), dictionary(keys, words, pa.int16())))
    folder.sample("dictionary_deltas_inside", [inner([0, 0], ["a"]), inner([0, 1, 2], ["a", "b", "c"])], emit_dictionary_deltas=True)
    folder.sample("dictionary_replaced_inside", [inner([0, 0], ["a"]), inner([0, 1], ["b", "c"])], STREAM)
    numbers_of = lambda keys, values: column("number", dictionary(keys, pa.array(values, pa.int64())))
    folder.sample("dictionary_deltas_of_numbers", [numbers_of([0, 1], [1, None]), numbers_of([2, 1], [1, None, 3])], emit_dictionary_deltas=True)


def write_formats(folder):
    version_4 = {"metadata_version": ipc.MetadataVersion.V4}
    plain = joined(many(20), column("list", [LISTS[k % 5] for k in range(20)], pa.list_(pa.int16())))
    folder.sample("version_4", plain, **version_4)
    folder.sample("version_4_dictionary", dictionary_values(), STREAM, **version_4)
    folder.sample("legacy_framing", [plain.slice(0, 7), plain.slice(7)], use_legacy_format=True, **version_4)
    folder.sample("legacy_framing_dictionary", dictionaries_inside(), use_legacy_format=True)


def write_compressed(folder):
    nested = joined(lists(), deep())
    for codec in ("lz4", "zstd"):
        folder.sample(f"{codec}_rows", many(), compression=codec)
        folder.sample(f"{codec}_nested", nested, STREAM, compression=codec)
        folder.sample(f"{codec}_dictionary", dictionary_values(), FILE, compression=codec)
        folder.sample(f"{codec}_noise", noise(), STREAM, compression=codec)
        folder.sample(f"{codec}_no_rows", nested.slice(0, 0), FILE, compression=codec)
        folder.sample(f"{codec}_blocks", text_under_null(text_of_words(3000) + text_of_lines(150000)), STREAM, compression=codec)
        folder.sample(f"{codec}_deltas", [column("word", dictionary([0], ["a"])), column("word", dictionary([1], ["a", "b"]))], emit_dictionary_deltas=True, compression=codec)
    for level in (1, 19):
        folder.sample(f"zstd_level_{level}", text_under_null(text_of_words(12000)), STREAM, compression=pa.Codec("zstd", level))
    folder.sample("zstd_repeated", column("text", pa.Array.from_buffers(pa.string(), 2, [bits(1, 0), numbers(4, 0, 2, 300000), pa.py_buffer(b"ab" * 150000)])), STREAM, compression="zstd")
    folder.sample("lz4_floats", floats(), compression="lz4")
    folder.sample("zstd_views", views(), compression="zstd")


def write_of_others(folder):
    for name, batch, codec in (("pandas", pandas_frame(), "uncompressed"), ("pandas_default", pandas_floats(), None)):
        pyarrow.feather.write_feather(pa.Table.from_batches([batch]), f"{folder.path}/{name}.arrow", compression=codec)
        folder.state_rows(name, "arrow")
    folder.sample("polars", polars_frame())
    folder.sample("polars_compatible", polars_compatible())
    folder.sample("polars_default", polars_compatible(), FILE, compression="zstd")


def write_refused(folder):
    """What this library does not read, and will not."""
    folder.sample("list_views", table({"list": pa.list_view(pa.int8()), "large": pa.large_list_view(pa.int8())}, list=[[1, 2], None, [3]], large=[[], [4], None]))
    inside = pa.struct({"x": pa.int8(), "v": pa.list_(pa.list_view(pa.int8()))})
    folder.sample("list_views_inside", table({"id": pa.int64(), "s": inside}, id=[1, 2], s=[{"x": 1, "v": [[1, 2], None]}, None]))
    ends = pa.RunEndEncodedArray.from_arrays(pa.array([2, 3], pa.int32()), pa.array(["a", None]))
    folder.sample("run_ends", joined(column("run", ends), column("other", [1, 2, 3], pa.int8())))
    folder.sample("negative_scale", column("decimal", [Decimal(12300), None, Decimal(-100)], pa.decimal128(5, -2)))
    folder.sample("size_0", table({"binary": pa.binary(0)}, binary=[b"", None]))
    folder.sample("list_size_0", table({"list": pa.list_(pa.int8(), 0)}, list=[[], None]))
    folder.sample("no_fields", column("record", [{}, None, {}], pa.struct([])))
    folder.sample("version_4_union", union_of("dense"), metadata_version=ipc.MetadataVersion.V4)


# A folder has less than 140,000 bytes, the most that a constant of the tests can have.
FOLDERS = {
    "flat": (write_flat,),
    "nested": (write_nested,),
    "layouts": (write_layouts,),
    "batches": (write_batches, write_dictionary_batches),
    "formats": (write_formats, write_of_others, write_refused),
    "compressed": (write_compressed,),
}


def main():
    shutil.rmtree(SAMPLES, ignore_errors=True)
    for it in (Celsius(), Colour()):
        pa.register_extension_type(it)
    for name, writes in FOLDERS.items():
        folder = Folder(name)
        for write in writes:
            write(folder)


main()
