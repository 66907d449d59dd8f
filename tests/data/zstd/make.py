#!/usr/bin/env python3
"""Makes the Zstandard samples of this folder: run as it is with the program `zstd` (1.5.4), and with pyarrow (25).

    python3 make.py         the frames NAME.zst of the program, and what its library makes of changed ones
    python3 make.py pyarrow the frames pyarrow_NAME of pyarrow
    python3 make.py streams the frames stream_NAME.zst, from the streams of pyarrow in `tests/data/pyarrow/samples/compressed`

The content of a sample is its kind and length, which `tests/calls_zstd/src/samples.rt` makes too.
"""
import ctypes
import os
import subprocess
import sys

HERE = os.path.dirname(os.path.abspath(__file__))


def noise(length):
    numbers, state = [], 1
    for _ in range(length):
        state = (state * 1103515245 + 12345) % 2**32
        numbers.append(state // 65536 % 256)
    return bytes(numbers)


def states(length):
    state = 1
    for _ in range(length):
        state = (state * 1103515245 + 12345) % 2**32
        yield state // 65536


def letters(length):
    return bytes(b"eeeeettttaaoin s"[it % 16] for it in states(length))


def rows(length):
    return bytes(i * i // 7 % 256 if i // 1024 % 7 == 0 else i // 1200 >> 8 * (i % 4) & 255 for i in range(length))


def mixture():
    some, others = letters(5000), rows(2000)
    return b"".join(some[i : i + 3000] + others[i % 7 :] for i in range(60))


def write(name, data):
    with open(f"{HERE}/{name}", "wb") as file:
        file.write(data)


def by_zstd(content, *options):
    return subprocess.run(["zstd", "-z", "-c", *options], input=content, capture_output=True, check=True).stdout


def frames():
    write("empty.zst", by_zstd(b""))
    write("one.zst", by_zstd(noise(1)))
    write("noise.zst", by_zstd(noise(1000)))
    write("noise_19.zst", by_zstd(noise(1000), "-19", "--no-check"))
    write("sized.zst", by_zstd(noise(300), "--stream-size=300"))
    write("small.zst", by_zstd(noise(20)))
    write("two.zst", by_zstd(noise(10)) + by_zstd(noise(20)))
    write("skippable.zst", bytes.fromhex("5f2a4d1803000000") + b"abc" + by_zstd(noise(10)))
    write("zeros.zst", by_zstd(bytes(1000)))
    write("window.zst", by_zstd(noise(1024) * 8, "-5", "--zstd=wlog=10"))
    for name, level in (("1", "-1"), ("3", "-3"), ("19", "-19"), ("fast", "--fast=1")):
        write(f"letters_{name}.zst", b"".join(by_zstd(letters(it), level, "--no-check") for it in range(301)))
        if name in ("3", "19"):
            write(f"rows_{name}.zst", by_zstd(rows(4_000_000), level))
        write(f"mixture_{name}.zst", by_zstd(mixture(), level))
    for name, content in (("sequence", b"abc" * 8 + b"d"), ("huffman", letters(70)), ("both", letters(100) * 2)):
        frame = by_zstd(content, "-19", "--no-check")
        write(f"changed_{name}.zst", frame)
        write(f"changed_{name}.bin", b"".join(outcome(changed).to_bytes(2, "little") for changed in changes(frame)))


def changes(frame):
    for i in range(len(frame)):
        for by in range(1, 256):
            yield frame[:i] + bytes([frame[i] ^ by]) + frame[i + 1 :]


def outcome(frame):
    """A hash of what the library decodes, and 0 where it refuses the frame."""
    library = ctypes.CDLL("libzstd.so.1")
    library.ZSTD_decompress.restype = ctypes.c_size_t
    room = ctypes.create_string_buffer(200_000)
    size = library.ZSTD_decompress(room, ctypes.c_size_t(200_000), frame, ctypes.c_size_t(len(frame)))
    if library.ZSTD_isError(ctypes.c_size_t(size)):
        return 0
    hashed = 0
    for byte in room.raw[:size]:
        hashed = (hashed * 257 + byte + 1) % 65_521
    return hashed + 1


def of_streams():
    """The frames are the longest of each stream; their sizes are those that the program finds."""
    for name in ("blocks", "level_1", "level_19", "rows", "repeated", "views"):
        with open(f"{HERE}/../pyarrow/samples/compressed/zstd_{name}.arrows", "rb") as file:
            stream = file.read()
        found = []
        at = stream.find(MAGIC)
        while at >= 0:
            found.append(frame_at(stream, at))
            at = stream.find(MAGIC, at + 4)
        frame = max(found, key=len)
        content = subprocess.run(["zstd", "-d", "-c"], input=frame, capture_output=True, check=True).stdout
        checked = by_zstd(content)
        print(name, len(content), "0x" + checked[-4:][::-1].hex().upper())
        write(f"stream_{name}.zst", frame)


MAGIC = bytes.fromhex("28b52ffd")


def frame_at(stream, at):
    library = ctypes.CDLL("libzstd.so.1")
    library.ZSTD_findFrameCompressedSize.restype = ctypes.c_size_t
    return stream[at : at + library.ZSTD_findFrameCompressedSize(stream[at:], ctypes.c_size_t(len(stream) - at))]


def of_pyarrow():
    import pyarrow

    for name, content in (("empty", b""), ("noise", noise(1000))):
        write(f"pyarrow_{name}.zst", pyarrow.compress(content, codec="zstd", asbytes=True))


{"": frames, "pyarrow": of_pyarrow, "streams": of_streams}["".join(sys.argv[1:])]()
