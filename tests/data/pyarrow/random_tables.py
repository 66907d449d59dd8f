"""Random record batches of Arrow C++: nested, with views, decimals of 32 and 64 bits, and dictionaries.

    for schema, batches in tables(seed, count): ..
"""
import random
from decimal import Decimal

import pyarrow as pa
import pyarrow.types as kinds

LENGTHS = (0, 1, 3, 4, 5, 11, 12, 13, 14, 20, 40)
TEXTS = (pa.string(), pa.large_string(), pa.string_view())
NUMBERS = {pa.int32(): (-(2**31), 2**31 - 1), pa.bool_(): (False, True), pa.float64(): (0.5, -1.25, 1e300, 3.0)}


class Maker:
    def __init__(self, seed):
        self.random = random.Random(seed)

    def leaf(self):
        pick = self.random
        return pick.choice((*TEXTS, pa.string_view(), pa.binary_view(), pa.decimal32(pick.randint(1, 9), 0), pa.decimal64(pick.randint(3, 18), 2), *NUMBERS, pa.null()))

    def kind(self, depth):
        """A type that nests to a depth at most."""
        pick = self.random
        form = pick.choice(("leaf", "leaf", "list", "large_list", "fixed", "struct", "struct", "map")) if depth else "leaf"
        inner = self.kind(depth - 1) if form not in ("leaf", "struct") else None
        if form == "leaf":
            return self.leaf()
        if form == "struct":
            return pa.struct([pa.field(f"f{k}", self.kind(depth - 1)) for k in range(pick.randint(1, 3))])
        if form == "map":
            return pa.map_(pick.choice((pa.string_view(), pa.int32(), pa.string())), inner)
        return pa.list_(inner, pick.randint(1, 3)) if form == "fixed" else {"list": pa.list_, "large_list": pa.large_list}[form](inner)

    def value(self, kind, nullable=True):
        pick = self.random
        if nullable and pick.random() < 0.2 or kinds.is_null(kind):
            return None
        if kind in TEXTS:
            return "".join(pick.choices("abcdé日", k=pick.choice(LENGTHS)))
        if kinds.is_binary_view(kind):
            return pick.randbytes(pick.choice(LENGTHS))
        if kinds.is_decimal(kind):
            return Decimal(pick.choice((-1, 1)) * pick.randrange(10 ** pick.randint(1, kind.precision))).scaleb(-kind.scale)
        if kind in NUMBERS:
            return pick.randint(*NUMBERS[kind]) if kind == pa.int32() else pick.choice(NUMBERS[kind])
        if kinds.is_struct(kind):
            return {it.name: self.value(it.type) for it in kind}
        if kinds.is_map(kind):
            return [(self.value(kind.key_type, False), self.value(kind.item_type)) for _ in range(pick.randrange(4))]
        size = kind.list_size if kinds.is_fixed_size_list(kind) else pick.randrange(5)
        return [self.value(kind.value_type) for _ in range(size)]

    def column(self, rows):
        """A column, one of six a dictionary, since pyarrow makes no nested ones from values."""
        pick = self.random
        if pick.randrange(6):
            kind = self.kind(3)
            return pa.array([self.value(kind) for _ in range(rows)], kind)
        kind = pick.choice((*TEXTS, pa.binary_view(), pa.decimal32(5, 0), pa.list_(pa.string_view())))
        values = pa.array([self.value(kind, False) for _ in range(pick.randint(1, 5))], kind)
        keys = [None if pick.random() < 0.2 else pick.randrange(len(values)) for _ in range(rows)]
        return pa.DictionaryArray.from_arrays(pa.array(keys, pick.choice((pa.int8(), pa.int32(), pa.uint16()))), values)

    def table(self):
        """A record batch, and a slice of it."""
        pick = self.random
        rows = pick.choice((0, 1, 5, 9, 70))
        columns = [self.column(rows) for _ in range(pick.randint(1, 5))]
        batch = pa.RecordBatch.from_arrays(columns, [f"c{k}" for k in range(len(columns))])
        return batch.schema, [batch, batch.slice(pick.randint(0, rows), pick.randint(0, rows))]


def tables(seed, count):
    maker = Maker(seed)
    for _ in range(count):
        yield maker.table()
