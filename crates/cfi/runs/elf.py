#!/usr/bin/env python3
"""Writes a linked ELF file with the given sections, of 64 bits and little-endian, to standard output.

usage: elf.py MACHINE NAME ADDRESS BYTES ..: the machine's number, and of each section its name, address and bytes (hex)"""
import struct
import sys

machine, *words = sys.argv[1:]
sections = [(name, 1, 2, int(at, 0), bytes.fromhex(digits)) for name, at, digits in zip(*[iter(words)] * 3)]
sections.append((".shstrtab", 3, 0, 0, b"".join(name.encode() + b"\0" for name in ["", *words[::3], ".shstrtab"])))
headers, body, name_at = bytes(64), b"", 1
for name, kind, flags, address, part in sections:
    headers += struct.pack("<2I4Q2I2Q", name_at, kind, flags, address, 64 + len(body), len(part), 0, 0, 1, 0)
    body += part
    name_at += len(name) + 1
identification = b"\x7fELF\2\1\1".ljust(16, b"\0")
numbers = (2, int(machine), 1, 0, 0, 64 + len(body), 0, 64, 56, 0, 64, len(sections) + 1, len(sections))
sys.stdout.buffer.write(identification + struct.pack("<2HI3QI6H", *numbers) + body + headers)
