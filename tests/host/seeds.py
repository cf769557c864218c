#!/usr/bin/env python3
"""seeds.py FOLDER: inputs for tests/host/fuzz.c to begin with, from the captures and from streams worked by hand."""
import pathlib
import re
import sys

to = pathlib.Path(sys.argv[1])
here = pathlib.Path(__file__).resolve().parent
BYTES, SECTION, DATA, END, RESET, CLOSED, DRAIN = 0, 2, 3, 4, 5, 6, 7


def stream(number):
    return (number // 4) << 1 | (number >> 1 & 1)


def whole(number, data, cut=0, end=True):
    """A stream's bytes in events, and its end."""
    out = b""
    for at in range(0, len(data), 255):
        part = data[at : at + 255]
        out += bytes([BYTES | cut << 3, stream(number), len(part)]) + part
    return out + (bytes([END, stream(number), 0]) if end else b"")


def section(number, which, length, cut=0):
    return bytes([SECTION | cut << 3, stream(number), which, length])


def data(number, count):
    return bytes([DATA, stream(number), count])


def end(number):
    return bytes([END, stream(number), 0])


seeds = {}
by_connection = {}
for file in sorted((here / "../captures").glob("*.bin")):
    name, number = re.fullmatch(r"(.*)-s(\d+)\.bin", file.name).groups()
    by_connection.setdefault(name, []).append((int(number), file.read_bytes()[:2000]))
for name, streams in by_connection.items():
    seeds[name] = b"\1" + b"".join(whole(n, d, end=not n & 2) for n, d in streams)
    seeds[name + "-cut"] = b"\1" + b"".join(whole(n, d, 3, end=not n & 2) for n, d in streams)

worked = ["", "0000", "010100", "0101000003616263", "010100000361620000", "01010000036162630000", "2100010100", "010001010000"]
control = ["0004", "000400", "00070100", "00040406010601", "0004020300", "00040106", "000400070105070106", "0004000d01050d0104", "000400030100", "02", "0320", "01", "2100"]
for i, text in enumerate(worked):
    seeds[f"worked{i}"] = b"\1" + whole(0, bytes.fromhex(text))
for i, text in enumerate(control):
    seeds[f"control{i}"] = b"\1" + whole(2, bytes.fromhex(text), end=False)
GET, PUT, PATCH, POST, LENGTH, MORE, TRAILERS = 0, 1, 3, 5, 0x20, 0x40, 0x80  # MORE: a long name, or twice an odd number of lines
seeds["put"] = b"\1" + section(0, PUT | LENGTH, 9) + data(0, 9) + end(0)
seeds["put-twice"] = b"\1" + section(0, PUT | LENGTH, 9) + section(4, PUT | LENGTH, 5) + data(0, 9) + data(4, 5) + end(4) + end(0)
seeds["put-trailers"] = b"\1" + section(0, PUT | LENGTH, 9, 1) + data(0, 4) + data(0, 0) + data(0, 5) + section(0, TRAILERS, 0) + end(0)
seeds["put-short"] = b"\1" + section(0, PUT | LENGTH, 9) + data(0, 4) + end(0)
for name, method in (("put", PUT), ("post", POST), ("patch", PATCH)):
    seeds[name + "-none"] = b"\1" + section(0, method, 0) + data(0, 4) + end(0)
seeds["get"] = b"\1" + section(8, GET, 0) + end(8) + end(0) + bytes([RESET, stream(4), 0])
seeds["log"] = b"\1" + section(0, GET | 8, 0) + end(0) + bytes([CLOSED, stream(0), 0])
seeds["long-name"] = b"\1" + section(0, GET | MORE, 0) + section(4, GET, 0) + end(4)
for name, number in (("full", 237), ("overfull", 239)):  # 474 lines that count 34 are within the limit beside the four of a GET, and 478 are not
    seeds[name] = b"\1" + section(0, GET | MORE, number) + end(0)
    seeds[name + "-trailers"] = b"\1" + section(0, GET, 0) + section(0, TRAILERS | MORE, number + 2) + end(0)
seeds["drain"] = b"\1" + section(0, GET, 0) + bytes([DRAIN, 0, 255]) + section(8, GET, 0) + end(8) + section(4, GET, 0) + end(4) + end(0)
seeds["drain-early"] = b"\0" + bytes([DRAIN, 0, 255]) + section(0, GET, 0) + end(0)
for name, seed in seeds.items():
    for odd in (b"", b"\7"):
        (to / (name + ("-odd" if odd else ""))).write_bytes(seed + odd)
