#!/usr/bin/env python3
"""Lists the readings of a plate over the shared library: python3 examples/hello.py [LIBRARY].

LIBRARY is its file, as tools/install writes it; without one, the system looks for libfilbozseg.so. Book T of document 01: 0 -> 1 1 (4,600),
1 -> nothing (0), 1 -> A (25). first, next and count need 1.8 MB of stack at their deepest. Python's main thread has that. For another one
call threading.stack_size(4 * 1024 * 1024) before it is started."""
import ctypes
import sys
from ctypes import POINTER, byref, c_char_p, c_int32, c_size_t, c_uint16, c_uint32

# the sizes of include/filbozseg.h
ROW, CELLS, OUTPUT = 3715, 4225, 1024
BOOK = bytes.fromhex("10 00 20 00 F8 11 30 01 30 01 20 01 00 00 20 01 19 00 40 41 50")
PLATE, YEAR = b"A", 2008

library = ctypes.CDLL(sys.argv[1] if len(sys.argv) > 1 else "libfilbozseg.so")


def declared(name, *arguments):
    """A function of the library with the types of its arguments; a slice is a pointer and a length."""
    function = getattr(library, "filbozseg_" + name)
    function.argtypes, function.restype = arguments, c_uint32
    return function


NUMBERS, INPUT, CHART = POINTER(c_uint16), (c_char_p, c_size_t, c_uint16), (POINTER(c_uint32), c_size_t)
OFFERED, SIZE = (NUMBERS, c_size_t), POINTER(c_size_t)
load = declared("load", c_char_p, c_size_t, NUMBERS, SIZE)
length = declared("length", NUMBERS, *INPUT, *OFFERED, *CHART, POINTER(c_int32))
first = declared("first", NUMBERS, *INPUT, *CHART, *OFFERED, SIZE)
following = declared("next", NUMBERS, *INPUT, *OFFERED, *CHART, *OFFERED, SIZE)

grammar, chart, output = (c_uint16 * ROW)(), (c_uint32 * CELLS)(), (c_uint16 * OUTPUT)()
offset, nodes, tenths = c_size_t(), c_size_t(), c_int32()

code = load(BOOK, 9, grammar, byref(offset))
print(f"the first 9 bytes: refusal {code - 256} at offset {offset.value}")
if load(BOOK, len(BOOK), grammar, byref(offset)) != 1:
    sys.exit("the book does not load")

plate = (PLATE, len(PLATE), YEAR)
readings = 0
code = first(grammar, *plate, chart, CELLS, output, OUTPUT, byref(nodes))
while code == 1:
    readings += 1
    # a copy, because an offered reading must not overlap the output
    reading = (c_uint16 * (2 * nodes.value))(*output[: 2 * nodes.value])
    if length(grammar, *plate, reading, len(reading), chart, CELLS, byref(tenths)) != 1:
        sys.exit("a reading has no length")
    parts = " ".join(f"{cover}.{rule}" for cover, rule in zip(reading[::2], reading[1::2]))
    print(f"{readings}: {parts} = {tenths.value}")
    code = following(grammar, *plate, reading, len(reading), chart, CELLS, output, OUTPUT, byref(nodes))
print(f"READINGS {readings}" if code == 0 else f"REFUSED {code - 256}")
