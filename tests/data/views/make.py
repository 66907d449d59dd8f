"""Makes the streams of this folder with Arrow C++: run it here by pyarrow."""
import pyarrow as pa

NEAR = pa.field("i", pa.string_view())
long = "a string that is not inline"
schema = pa.schema([
    pa.field("v", pa.string_view()),
    pa.field("b", pa.binary_view()),
    pa.field("l", pa.list_(NEAR)),
    pa.field("s", pa.decimal32(9, 2)),
    pa.field("d", pa.decimal64(18, 3)),
    pa.field("k", pa.dictionary(pa.int8(), pa.string_view())),
])
values = pa.array([long, "b", "another of more than twelve"], pa.string_view())
columns = [
    pa.array(["a", None, long, "twelve bytes", "thirteen byte", ""], pa.string_view()),
    pa.array([b"\xff", long.encode(), None, b"", b"\x00" * 13, b"z"], pa.binary_view()),
    pa.array([["x", None], [], None, [long], ["", long, "y"], ["q"]], pa.list_(NEAR)),
    pa.array([None, "-0.01", "1.25", "9999999.99", "-9999999.99", "0.00"]).cast(pa.decimal128(9, 2)).cast(pa.decimal32(9, 2)),
    pa.array(["0.001", None, "-1.000", "999999999999999.999", "-999999999999999.999", "0.000"]).cast(pa.decimal128(18, 3)).cast(pa.decimal64(18, 3)),
    pa.DictionaryArray.from_arrays(pa.array([0, 1, None, 2, 0, 2], pa.int8()), values),
]
batch = pa.record_batch(columns, schema)
for name, options in (("views", {}), ("views_lz4", {"compression": "lz4"}), ("views_zstd", {"compression": "zstd"})):
    with pa.OSFile(name + ".arrows", "wb") as out, pa.ipc.new_stream(out, schema, options=pa.ipc.IpcWriteOptions(**options)) as writer:
        writer.write_batch(batch)
        writer.write_batch(batch.slice(2, 3))
for row in batch.to_pylist() + batch.slice(2, 3).to_pylist():
    print(row)
reserved = pa.schema([pa.field("f", pa.large_string(), metadata={"ARROW:extension:name": "tiekvorn.utf8_view"})])
with pa.OSFile("reserved_name.arrows", "wb") as out, pa.ipc.new_stream(out, reserved):
    pass
