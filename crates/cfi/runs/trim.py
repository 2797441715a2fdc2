#!/usr/bin/env python3
"""Writes ../data/handled.core, of the core file that qemu-aarch64 wrote of ../data/handled: trim.py CORE.

The bytes of the stack that qemu made are left out, and of the page with the trampoline all behind its first 64 bytes. The
notes get one of the mapped file (NT_FILE), which qemu doesn't write.
"""
import struct
import sys
from pathlib import Path

PT_LOAD, EXECUTABLE, NT_FILE, CODE = 1, 5, 0x46494C45, 0x400000

data = Path(__file__).resolve().parent.parent / "data"
core = Path(sys.argv[1]).read_bytes()
(count,) = struct.unpack_from("<H", core, 56)
headers = [list(struct.unpack_from("<2I6Q", core, 64 + 56 * index)) for index in range(count)]

name = b"/handled\0"
mapped = struct.pack("<2Q3Q", 1, 4096, CODE, CODE + 4096, 0) + name
note = struct.pack("<3I", 5, len(mapped), NT_FILE) + b"CORE\0\0\0\0" + mapped.ljust(-(-len(mapped) // 4) * 4, b"\0")

parts = b""
for header in headers:
    kind, flags, offset, address, _, size, memory, _ = header
    part = core[offset : offset + size]
    if kind != PT_LOAD:
        part += note
    elif memory > 8192:
        part = b""
    elif flags == EXECUTABLE:
        part = part[:64]
    header[2], header[5] = 64 + 56 * count + len(parts), len(part)
    parts += part

(data / "handled.core").write_bytes(core[:64] + b"".join(struct.pack("<2I6Q", *header) for header in headers) + parts)
