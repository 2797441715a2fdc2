#!/usr/bin/env python3
"""show_symbols.py FILE.o..: makes the hidden symbols of these objects visible, in place.

libgcc.a hides what libgcc_s.so.1 offers, since a program that is linked with it should not offer it again."""
import struct
import sys

SYMBOL_TABLE, ENTRY = 2, 24
HIDDEN = 2

for name in sys.argv[1:]:
    with open(name, "r+b") as file:
        data = bytearray(file.read())
        (headers,) = struct.unpack_from("<Q", data, 0x28)
        size, count = struct.unpack_from("<HH", data, 0x3A)
        for header in range(headers, headers + size * count, size):
            (kind,) = struct.unpack_from("<I", data, header + 4)
            if kind != SYMBOL_TABLE:
                continue
            start, length = struct.unpack_from("<QQ", data, header + 24)
            for entry in range(start, start + length, ENTRY):
                is_global = data[entry + 4] >> 4 != 0
                if is_global and data[entry + 5] & 3 == HIDDEN:
                    data[entry + 5] &= ~3
        file.seek(0)
        file.write(data)
