"""Rows of pyarrow as lines of JSON, the text that `nest rows` prints.

    for line in rows_of(batch): ..

Each value's text is computed here from the numbers and bytes that pyarrow stores, by no formatting of pyarrow or numpy.
"""
import ctypes
import json
import struct

import pyarrow as pa
import pyarrow.compute as pc
import pyarrow.types as kinds

FRACTION_DIGITS = {"s": 0, "ms": 3, "us": 6, "ns": 9}
SECONDS_OF_A_DAY = 86400


def interval_type(format):
    """The type of an interval that pyarrow has no function for: `tiM` of months, `tiD` of days and milliseconds."""
    held, text = (ctypes.c_uint64 * 9)(), ctypes.create_string_buffer(format)
    pa.int32()._export_to_c(ctypes.addressof(held))
    held[0] = ctypes.addressof(text)
    return pa.DataType._import_from_c(ctypes.addressof(held))


MONTH_INTERVAL, DAY_TIME_INTERVAL = interval_type(b"tiM"), interval_type(b"tiD")


def with_types(batch, schema):
    """A record batch of the same buffers, read as those of another schema."""
    held = (ctypes.c_uint64 * 10)()
    batch._export_to_c(ctypes.addressof(held))
    return pa.RecordBatch._import_from_c(ctypes.addressof(held), schema)


def readable(field):
    """The field with integers for intervals, since pyarrow has no arrays of these two types."""
    integers = {MONTH_INTERVAL.id: pa.int32(), DAY_TIME_INTERVAL.id: pa.int64()}
    return field.with_type(mapped(field.type, lambda it: integers.get(it.id, it)))


def mapped(kind, change):
    """The type with each type in it changed, those inside first."""
    inner = [kind.field(k) for k in range(kind.num_fields)]
    changed = [it.with_type(mapped(it.type, change)) for it in inner]
    if isinstance(kind, pa.BaseExtensionType):
        return change(kind)
    if kinds.is_dictionary(kind):
        kind = pa.dictionary(kind.index_type, mapped(kind.value_type, change), kind.ordered)
    elif kinds.is_struct(kind):
        kind = pa.struct(changed)
    elif kinds.is_union(kind):
        kind = pa.union(changed, kind.mode, kind.type_codes)
    elif kinds.is_map(kind):
        kind = pa.map_(kind.key_field.with_type(mapped(kind.key_type, change)), kind.item_field.with_type(mapped(kind.item_type, change)), kind.keys_sorted)
    elif kinds.is_fixed_size_list(kind):
        kind = pa.list_(changed[0], kind.list_size)
    elif kinds.is_list(kind):
        kind = pa.list_(changed[0])
    elif kinds.is_large_list(kind):
        kind = pa.large_list(changed[0])
    return change(kind)


def rows_of(batch):
    """A line of JSON for each row of a record batch."""
    fields = list(batch.schema)
    if not fields:
        return ["{}"] * batch.num_rows
    columns = with_types(batch, pa.schema([readable(it) for it in fields], batch.schema.metadata)).columns
    columns = [texts_of(field.type, column) for field, column in zip(fields, columns)]
    return [record_text([it.name for it in fields], row) for row in zip(*columns)]


def record_text(names, texts):
    return "{" + ",".join(f"{string_text(name)}:{text}" for name, text in zip(names, texts)) + "}"


def string_text(string):
    return json.dumps(string, ensure_ascii=False)


def texts_of(kind, array):
    """The text of each slot of an array."""
    if kinds.is_null(kind):
        return ["null"] * len(array)
    if kinds.is_union(kind):
        return union_texts(kind, array)
    if kinds.is_run_end_encoded(kind):
        return texts_of(kind.value_type, pc.run_end_decode(array))
    texts = valid_texts(kind, array)
    return [text if valid else "null" for text, valid in zip(texts, array.is_valid().to_pylist(), strict=True)]


def valid_texts(kind, array):
    """The text of each slot that is not null, and any text of the others."""
    if isinstance(kind, pa.BaseExtensionType):
        return texts_of(kind.storage_type, array.storage)
    if kinds.is_dictionary(kind):
        values = texts_of(kind.value_type, array.dictionary)
        return [None if it is None else values[it] for it in array.indices.to_pylist()]
    if kinds.is_struct(kind):
        columns = [texts_of(kind.field(k).type, array.field(k)) for k in range(kind.num_fields)]
        names = [kind.field(k).name for k in range(kind.num_fields)]
        return [record_text(names, row) for row in zip(*columns)] if columns else ["{}"] * len(array)
    if kind.num_fields == 1:
        return list_texts(kind, array)
    if kinds.is_date(kind) or kinds.is_time(kind) or kinds.is_timestamp(kind) or kinds.is_duration(kind):
        array = array.view(pa.int32() if kind.bit_width == 32 else pa.int64())
    return [None if it is None else value_text(kind, it) for it in array.to_pylist()]


def list_texts(kind, array):
    if kinds.is_fixed_size_list(kind):
        starts = [kind.list_size * (array.offset + k) for k in range(len(array))]
        ends = [it + kind.list_size for it in starts]
    elif kinds.is_list_view(kind) or kinds.is_large_list_view(kind):
        starts = array.offsets.to_pylist()
        ends = [start + size for start, size in zip(starts, array.sizes.to_pylist())]
    else:
        offsets = array.offsets.to_pylist()
        starts, ends = offsets[:-1], offsets[1:]
    items = texts_of(kind.field(0).type, array.values)
    return [f"[{','.join(items[start:end])}]" for start, end in zip(starts, ends)]


def union_texts(kind, array):
    """An object of the one field that is selected. The buffers are read from the array's offset on, which pyarrow's properties skip."""
    def numbers(width, buffer):
        return pa.Array.from_buffers(width, array.offset + len(array), [None, buffer])[array.offset :].to_pylist()

    buffers = array.buffers()
    fields = {code: k for k, code in enumerate(kind.type_codes)}
    children = [texts_of(kind.field(k).type, array.field(k)) for k in range(kind.num_fields)]
    picks = [fields[it] for it in numbers(pa.int8(), buffers[1])]
    slots = numbers(pa.int32(), buffers[2]) if kind.mode == "dense" else range(len(array))
    return [record_text([kind.field(k).name], [children[k][slot]]) for k, slot in zip(picks, slots)]


def value_text(kind, value):
    """The text of a value: an integer of temporal types, else what pyarrow returns."""
    if kinds.is_boolean(kind):
        return "true" if value else "false"
    if kinds.is_integer(kind):
        return str(value)
    if kinds.is_floating(kind):
        return float_text(value, kind.bit_width == 64)
    if kinds.is_decimal(kind):
        return f'"{value:f}"'
    if isinstance(value, str):
        return string_text(value)
    if isinstance(value, bytes):
        return f'"{value.hex()}"'
    text = temporal_text(kind, value)
    return text if text == str(value) else f'"{text}"'


def temporal_text(kind, value):
    if kind == MONTH_INTERVAL:
        return f"P{value}M"
    if kind == DAY_TIME_INTERVAL:
        days, milliseconds = struct.unpack("<ii", struct.pack("<q", value))
        return f"P{days}DT{seconds_text(milliseconds, 3)}S"
    if kind == pa.month_day_nano_interval():
        return f"P{value.months}M{value.days}DT{seconds_text(value.nanoseconds, 9)}S"
    if kinds.is_date32(kind):
        return date_text(value)
    if kinds.is_date64(kind):
        days, rest = divmod(value, SECONDS_OF_A_DAY * 1000)
        return timestamp_text(value, 3) if rest else date_text(days)
    digits = FRACTION_DIGITS[kind.unit]
    if kinds.is_duration(kind):
        return f"PT{seconds_text(value, digits)}S"
    if kinds.is_time(kind):
        return time_text(value, digits) if 0 <= value < SECONDS_OF_A_DAY * 10**digits else str(value)
    return timestamp_text(value, digits) + ("Z" if kind.tz is not None else "")


def seconds_text(value, digits):
    """A number of units of 10^-digits seconds as seconds."""
    whole, part = divmod(abs(value), 10**digits)
    return ("-" if value < 0 else "") + str(whole) + (f".{part:0{digits}}" if digits else "")


def timestamp_text(value, digits):
    days, rest = divmod(value, SECONDS_OF_A_DAY * 10**digits)
    return f"{date_text(days)}T{time_text(rest, digits)}"


def time_text(value, digits):
    seconds, part = divmod(value, 10**digits)
    return f"{seconds // 3600:02}:{seconds // 60 % 60:02}:{seconds % 60:02}" + (f".{part:0{digits}}" if digits else "")


def date_text(days):
    """A day as a date of the proleptic Gregorian calendar, with a sign and six digits of the year outside of 0000 to 9999."""
    cycle, day = divmod(days + 719468, 146097)
    of_cycle = (day - day // 1460 + day // 36524 - day // 146096) // 365
    day -= 365 * of_cycle + of_cycle // 4 - of_cycle // 100
    month = (5 * day + 2) // 153
    day -= (153 * month + 2) // 5
    month, year = (month + 2) % 12 + 1, 400 * cycle + of_cycle + (month >= 10)
    year = f"{year:04}" if 0 <= year <= 9999 else f"{year:+07}"
    return f"{year}-{month:02}-{day + 1:02}"


def float_text(value, is_double):
    """The shortest decimal that reads back to the same number, with an exponent where there are many zeros; words for the others."""
    if value != value:
        return '"NaN"'
    if value in (float("inf"), float("-inf")):
        return '"Infinity"' if value > 0 else '"-Infinity"'
    most_whole, most_zeros = (16, 4) if is_double else (13, 5)
    sign, digits, exponent = shortest(value, is_double)
    point = len(digits) + exponent
    if exponent >= 0 and point <= most_whole:
        return f"{sign}{digits}{'0' * exponent}.0"
    if 0 < point <= most_whole:
        return f"{sign}{digits[:point]}.{digits[point:]}"
    if -most_zeros <= point <= 0:
        return f"{sign}0.{'0' * -point}{digits}"
    return f"{sign}{digits[0]}{'.' if len(digits) > 1 else ''}{digits[1:]}e{point - 1}"


def shortest(value, is_double):
    """The sign, the digits without zeros at the end, and the power of ten after them."""
    def same(text):
        return float(text) == value if is_double else ctypes.c_float(float(text)).value == value

    text = next(it for it in (f"{value:.{k}e}" for k in range(17)) if same(it))
    mantissa, _, exponent = text.lstrip("-").partition("e")
    digits = mantissa.replace(".", "")
    trimmed = digits.rstrip("0") or "0"
    sign = "-" if text.startswith("-") else ""
    return (sign, "0", 0) if trimmed == "0" else (sign, trimmed, int(exponent) - len(trimmed) + 1)
