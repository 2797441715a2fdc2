#!/usr/bin/env python3
"""Writes the fuzzer's seeds, each a file named by its bytes. src/input.rs tells what they mean.

  seeds.py FOLDER [FILE..]

The seeds are the cases of seeds.txt, sections at the limits of the storages, large ones, headers
whose tables are in order or not, and each pointer encoding in each place. Of each FILE, ELF of 64
bits and little-endian, some entries of .eh_frame are added. A case of seeds.txt whose section can be
read is written once as it is, and once in pieces.
"""
import hashlib
import os
import struct
import sys

LONGEST = 1000  # bytes of a section
PER_FILE = 40  # seeds of an ELF file
SEPARATOR = b"\x5c\xff"
BIG, EH_FRAME, AARCH64, TABLE, PIECES = (1 << bit for bit in range(2, 7))
SIZES = {1: 0, 2: 1, 4: 2, 8: 3}
HEAP, GROWING, SMALL = 0, 64, 192


class Seeds:
    """Files of a folder, and how many were written."""

    def __init__(self, folder):
        self.folder, self.count = folder, 0
        os.makedirs(folder, exist_ok=True)

    def write(self, flags, numbers, header, rest, unset=0, storage=GROWING, refused=0):
        numbers = [number % (1 << 64) for number in numbers]
        data = bytes([flags, len(header)]) + struct.pack("<5Q", *numbers)
        data += bytes([unset | storage, refused]) + header + rest
        with open(os.path.join(self.folder, hashlib.sha1(data).hexdigest()[:20]), "wb") as file:
            file.write(data)
        self.count += 1


def cut(section, big, eh_frame):
    """The section in pieces, or None where it is not one entry after the other."""
    order, at, pieces, cies = "big" if big else "little", 0, [], []
    while at < len(section):
        start, length, wide = at, int.from_bytes(section[at : at + 4], order), 0
        at += 4
        if length == 0:
            pieces.append(b"\x04" + section[start:at])
            continue
        if length == 0xFFFFFFFF:
            length, wide, at = int.from_bytes(section[at : at + 8], order), 2, at + 8
        size = 8 if wide and not eh_frame else 4
        if length < size or at + length > len(section):
            return None
        number = int.from_bytes(section[at : at + size], order)
        body = section[at + size : at + length]
        if number == (0 if eh_frame else (1 << 8 * size) - 1):
            cies.append(start)
            pieces.append(bytes([wide]) + body)
        else:
            cie = at - number if eh_frame else number
            back = len(cies) - 1 - cies.index(cie) if cie in cies else 32
            if back > 31:
                return None
            pieces.append(bytes([wide | 1 | back << 3]) + body)
        at += length
    return None if any(SEPARATOR in piece for piece in pieces) else SEPARATOR.join(pieces)


def write_case(seeds, words, section, header):
    """A case by the words of the program cfi_rows."""
    if len(section) > LONGEST or len(header) > 255:
        return
    big, eh_frame = words[1] == "be", words[0] == "eh_frame"
    flags = SIZES[int(words[2])] | BIG * big | EH_FRAME * eh_frame
    bases = dict(word.split("=") for word in words[4:])
    if "header" in bases:
        flags |= TABLE
    if bases.get("vendor") == "aarch64":
        flags |= AARCH64
    numbers = [int(words[3], 0)]
    numbers += [int(bases.get(name, "0"), 0) for name in ("section", "header", "text", "data")]
    seeds.write(flags, numbers, header, section)
    pieces = cut(section, big, eh_frame)
    if pieces is not None:
        seeds.write(flags | PIECES, numbers, header, pieces)


def write_cases(seeds, path):
    with open(path) as file:
        for line in file:
            if not line.startswith("#"):
                words, _, entries = line.partition("|")
                section, _, header = entries.partition("/")
                write_case(seeds, words.split(), bytes.fromhex(section), bytes.fromhex(header))


def write_limits(seeds):
    """Sections with as many rules and remembered states as there is room for, and with one more."""
    flags = PIECES | SIZES[8]
    cie, fde = b"\0\4\0\x08\0\1\x78\x10", b"\1" + struct.pack("<QQ", 0, 9)
    for rules in (190, 191, 192):
        numbers = [bytes([r]) if r < 128 else bytes([r & 127 | 128, r >> 7]) for r in range(rules)]
        program = b"".join(b"\x07" + number for number in numbers)
        for more in (b"", b"\x07\xbf\x01", b"\x07\xc0\x01", b"\x0a\x0a", b"\x0a\x0a\x0a"):
            seeds.write(flags, [0] * 5, b"", cie + program + SEPARATOR + fde + more)
            seeds.write(flags, [0] * 5, b"", cie + SEPARATOR + fde + program + more)


def write_storages(seeds):
    """Sections at the limits of the small storage, and such that need much memory."""
    flags = PIECES | SIZES[8]
    cie, fde = b"\0\4\0\x08\0\1\x78\x10", b"\1" + struct.pack("<QQ", 0, 9)
    kinds = ((HEAP, 1), (GROWING, 0), (GROWING, 3), (GROWING, 130), (SMALL, 0))
    for rules in (0, 1, 2, 3, 4, 200):
        numbers = [bytes([r]) if r < 128 else bytes([r & 127 | 128, r >> 7]) for r in range(rules)]
        program = b"".join(b"\x07" + number for number in numbers)
        for remembered in (0, 1, 2, 3, 9):
            more = b"\x0a" * remembered + b"\x41" + b"\x0b" * remembered + b"\x42"
            for storage, refused in kinds:
                for entries in (
                    cie + program + SEPARATOR + fde + more,
                    cie + SEPARATOR + fde + program + more,
                ):
                    seeds.write(flags, [0] * 5, b"", entries, 0, storage, refused)


def write_large(seeds):
    """Sections of many entries, whose FDEs follow each other, or all begin at one address."""
    absolute = b"\0\4\0\x08\0\1\x78\x10" + SEPARATOR
    absolute += b"\1" + struct.pack("<QQ", 64, 9) + b"\x41"
    relative = b"\0\1zR\0\1\x78\x10\1\x1b\x0c\7\x08" + SEPARATOR
    relative += b"\1" + struct.pack("<iI", -4096, 8) + b"\0\x41\x0e\x10"
    kinds = (PIECES, PIECES | EH_FRAME, PIECES | EH_FRAME | TABLE)
    addresses = ([64, 0x2000, 0x100, 0x0205030100, 8], [0x1020, 0x2000, 0x101, 0, 1])
    for times in (3, 40, 700, 9000):
        again = SEPARATOR + b"\7" + struct.pack("<H", times)
        for kind in kinds:
            for entries in (absolute, relative):
                for numbers in addresses:
                    seeds.write(kind | SIZES[8], numbers, b"", entries + again)


def all_encodings():
    """Each pointer encoding, with the bytes that a small value has in it."""
    sizes = {0: 8, 1: 1, 2: 2, 3: 4, 4: 8, 9: 1, 10: 2, 11: 4, 12: 8}
    return [
        (form | base << 4 | indirect, size)
        for form, size in sizes.items()
        for base in range(6)
        for indirect in (0, 128)
    ]


def write_headers(seeds):
    """Headers whose tables have four rows in each encoding, by their count or by another one."""
    flags = EH_FRAME | TABLE | PIECES | SIZES[8]
    cie, fde = b"\0\4\0\x08\0\1\x78\x10", b"\1" + struct.pack("<QQ", 6, 9) + b"\x41"
    for encoding, size in all_encodings():
        rows = b"".join(n.to_bytes(size, "little") for n in (6, 16, 20, 16, 30, 16, 40, 16))
        for count in (4, 5, 1 << 40):
            header = bytes([1, 3, 4, encoding]) + struct.pack("<IQ", 0, count) + rows
            for steps in (0x0105040003020100, 0x0000000000010806):
                numbers = [steps, 0, 0, 7, 1 << 63]
                seeds.write(flags, numbers, header, cie + SEPARATOR + fde)


def write_orders(seeds):
    """Tables whose starts repeat or don't rise, whole and cut behind each value."""
    flags = EH_FRAME | TABLE | PIECES | SIZES[8]
    orders = ((5, 5), (5, 5, 5), (1, 5, 5), (5, 5, 9), (1, 5, 2), (5, 1, 5), (9, 5, 1))
    orders += ((5, 5, 5, 5), (5, 9, 1, 5), (1, 5, 5, 5, 9), (2, 5, 1, 5, 3, 5, 4))
    for starts in orders:
        # The CIE takes 16 bytes, and each FDE 32. The rows of no two FDEs are the same.
        pieces = [b"\0\1\0\1\x78\x10\0\0\0"]
        for i, start in enumerate(starts):
            program = bytes([0x41, 0x0E, 16 + i]).ljust(8, b"\0")
            pieces.append(b"\1" + struct.pack("<QQ", start, 9) + program)
        for encoding, size in ((2, 2), (3, 4), (0x3B, 4), (4, 8)):
            values = [value for i, start in enumerate(starts) for value in (start, 16 + 32 * i)]
            table = b"".join(value.to_bytes(size, "little") for value in values)
            header = bytes([1, 3, 3, encoding]) + struct.pack("<II", 0, len(starts))
            for length in range(size, len(table) + 1, size):
                numbers = [5, 0, 0, 0, 0]
                seeds.write(flags, numbers, header + table[:length], SEPARATOR.join(pieces))


def write_encodings(seeds):
    """A CIE with one letter in each encoding, and an FDE that has what the letter asks for."""
    kinds = (0, BIG, EH_FRAME, EH_FRAME | BIG, EH_FRAME | TABLE)
    for encoding, size in all_encodings():
        for kind in kinds:
            order = "big" if kind & BIG else "little"
            value, last = (5).to_bytes(size, order), (9).to_bytes(size, order)
            plain = (5).to_bytes(8, order) + (9).to_bytes(8, order)
            for letter, data, rest in (
                (b"P", bytes([encoding]) + value, plain + b"\0"),
                (b"L", bytes([encoding]), plain + bytes([size]) + value),
                (b"R", bytes([encoding]), value + last + b"\0"),
            ):
                cie = b"\0\1z" + letter + b"\0\1\x78\x10" + bytes([len(data)]) + data
                entries = cie + b"\x0c\7\x08\x90\1" + SEPARATOR
                entries += b"\1" + rest + b"\x41\x0e\x10\1" + value
                flags = kind | PIECES | SIZES[8]
                numbers = [5, 0x100, 0x80, 0x40, 0x20]
                seeds.write(flags, numbers, b"", entries)
                if kind == EH_FRAME | TABLE:
                    seeds.write(flags, numbers, b"", entries, 63, HEAP)


def eh_frame_of(data):
    """The address and the bytes of .eh_frame."""
    (at,) = struct.unpack_from("<Q", data, 0x28)
    size, count, names = struct.unpack_from("<3H", data, 0x3A)
    headers = [struct.unpack_from("<IIQQQQ", data, at + i * size) for i in range(count)]
    for name, _, _, address, place, length in headers:
        where = headers[names][4] + name
        if data[where : where + 10] == b".eh_frame\0":
            return address, data[place : place + length]
    return 0, b""


def write_entries(seeds, data):
    """FDEs of different CIEs and lengths, each with its CIE, by a scan and by a table in turn."""
    address, section = eh_frame_of(data)
    at, cies, chosen = 0, {}, {}
    while at + 8 <= len(section):
        length, back = struct.unpack_from("<II", section, at)
        if length in (0, 0xFFFFFFFF):
            break
        body = section[at + 8 : at + 4 + length]
        if back == 0:
            cies[at] = body
        elif at + 4 - back in cies:
            cie = cies[at + 4 - back]
            chosen.setdefault((cie, len(body) // 8), (cie, body))
        at += 4 + length
    for i, (cie, fde) in enumerate(list(chosen.values())[:PER_FILE]):
        if SEPARATOR not in cie + fde and len(cie) + len(fde) < LONGEST:
            flags = SIZES[8] | EH_FRAME | PIECES | TABLE * (i & 1)
            numbers = [address, address, address - 0x1000, 0x1000, 0x4000]
            seeds.write(flags, numbers, b"", b"\0" + cie + SEPARATOR + b"\1" + fde)


def main(folder, files):
    seeds = Seeds(folder)
    write_cases(seeds, os.path.join(os.path.dirname(os.path.abspath(__file__)), "seeds.txt"))
    write_limits(seeds)
    write_storages(seeds)
    write_large(seeds)
    write_headers(seeds)
    write_orders(seeds)
    write_encodings(seeds)
    for path in files:
        with open(path, "rb") as file:
            data = file.read()
        if data[:6] == b"\x7fELF\2\1":
            write_entries(seeds, data)
    print(seeds.count, "seeds")


main(sys.argv[1], sys.argv[2:])
