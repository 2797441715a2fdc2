"""Frames of a stack of x86-64, by the rows that readelf prints: for beside_programs.py, which compares them with those of `cfi`.

It knows no expressions: where a row has one for the CFA or for a register that is needed, it can't tell how the stack goes on.
"""
import bisect
import collections
import struct
import subprocess
import tempfile
from pathlib import Path

from beside_readelf import rows_of_readelf

MASK = (1 << 64) - 1
# The numbers in DWARF of perf's registers, and of those of NT_PRSTATUS in their order.
OF_PERF = {0: 0, 1: 3, 2: 2, 3: 1, 4: 4, 5: 5, 6: 6, 7: 7, 8: 16, **{k: k - 8 for k in range(16, 24)}}
OF_STATUS = [15, 14, 13, 12, 6, 3, 11, 10, 9, 8, 0, 2, 1, 4, 5, None, 16, None, None, 7]
STACK, RETURN, MOST = 7, 16, 4096
Mapping = collections.namedtuple("Mapping", "start end offset name")


class Unknown(Exception):
    """What readelf's rows don't tell."""


class Ended(Exception):
    """Why a stack ends."""


class Code:
    """The call frames of a file, and where its bytes have their addresses."""

    def __init__(self, path):
        data = Path(path).read_bytes()
        self.segments, self.sections, self.has_debug_file = [], [], b".gnu_debuglink" in data
        if data[:6] != b"\x7fELF\2\1":
            return
        start, = struct.unpack_from("<Q", data, 32)
        for k in range(struct.unpack_from("<H", data, 56)[0]):
            kind, _, offset, address, _, size = struct.unpack_from("<IIQQQQ", data, start + 56 * k)
            if kind == 1:
                self.segments.append((offset, offset + size, address))
        # for a machine of no name readelf prints registers by their numbers
        with tempfile.NamedTemporaryFile() as copy:
            copy.write(data[:18] + b"\xfe\xff" + data[20:])
            copy.flush()
            words = ["readelf", "-W", "--debug-dump=frames-interp", copy.name]
            text = subprocess.run(words, stdin=subprocess.DEVNULL, capture_output=True, check=False).stdout.decode("latin-1")
        found = rows_of_readelf(text)
        for name in (".eh_frame", ".debug_frame"):
            fdes = sorted((fde for fde in found.get(name, []) if fde.start < fde.end), key=lambda fde: fde.start)
            self.sections.append((fdes, [fde.start for fde in fdes]))

    def address_of(self, place):
        return next((place - start + address for start, end, address in self.segments if start <= place < end), None)

    def row_at(self, address):
        """CFA and rules, of the FDE that has the address."""
        for fdes, starts in self.sections:
            k = bisect.bisect_right(starts, address) - 1
            if k >= 0 and address < fdes[k].end:
                if k > 0 and address < fdes[k - 1].end:
                    raise Unknown("two FDEs")
                return next(row for row in reversed(fdes[k].rows) if row[0] <= address)[1:]
        return None


class Unwinder:
    """Walks stacks; keeps the files that it has read."""

    def __init__(self):
        self.files = {}

    def code(self, name):
        if name not in self.files:
            is_there = name[:1] == "/" and name[:2] != "//" and Path(name).is_file()
            self.files[name] = Code(name) if is_there else None
        return self.files[name]

    def frames(self, registers, mappings, read):
        """The place of each frame, and why there are no more: a name as in docs/PROGRAMS.md, or "?" where that isn't known."""
        places, cfa, is_caller = [], None, False
        try:
            while True:
                address = (registers[RETURN] - is_caller) & MASK
                mapping = next((mapping for mapping in reversed(mappings) if mapping.start <= address < mapping.end), None)
                places.append(address - mapping.start + mapping.offset if mapping else address)
                if len(places) == MOST:
                    raise Ended("NoRoom")
                code = mapping and self.code(mapping.name)
                found = code and code.address_of(places[-1])
                row = found is not None and code and code.row_at(found)
                if not row and code and code.has_debug_file:
                    raise Unknown("the rows of its debug file")
                if not row:
                    raise Ended("NoRow" if code and any(fdes for fdes, _ in code.sections) else "NoModule")
                registers, cfa, is_caller = *self.caller(registers, row, cfa, read), True
        except Ended as ended:
            return places, str(ended)
        except Unknown:
            return places, "?"

    def caller(self, registers, row, below, read):
        """The registers of the caller, and the CFA."""
        cfa, rules = value_of(registers, row[0]), row[1]
        rule = rules.get(f"r{RETURN}")
        if rule is None:
            raise Ended("Outermost")
        found = dict(registers)
        for name, rule in rules.items():
            if rule != "s":
                number = int(name[1:])
                try:
                    found[number] = recovered(registers, rule, cfa, read)
                except Ended:
                    # what was popped is below the copy of the stack: that register isn't known from here on
                    if number == RETURN:
                        raise
                    found[number] = None
        found.setdefault(RETURN, None)
        if f"r{STACK}" not in rules:
            found[STACK] = cfa
        if found[RETURN] is None:
            raise Unknown("the return address")
        if found[RETURN] == 0:
            raise Ended("Outermost")
        if below is not None and cfa <= below:
            raise Ended("NotRising")
        return found, cfa


def value_of(registers, cfa):
    """A register plus an offset."""
    name, sign, offset = cfa.replace("-", "+-").partition("+")
    if not sign or name[:1] != "r":
        raise Unknown(cfa)
    if registers.get(int(name[1:])) is None:
        raise Unknown(name)
    return (registers[int(name[1:])] + int(offset)) & MASK


def recovered(registers, rule, cfa, read):
    """What a rule says of a register; None where that isn't known."""
    if rule[0] in "cv" and rule[1:2] in ("+", "-"):
        address = (cfa + int(rule[1:])) & MASK
        return address if rule[0] == "v" else read(address)
    if rule[0] == "r":
        return registers.get(int(rule[1:]))
    raise Unknown(rule)


def window(base, data):
    """Memory of which some bytes were copied."""
    def read(address):
        place = address - base
        if not 0 <= place <= len(data) - 8:
            raise Ended("UnreadableMemory")
        return struct.unpack_from("<Q", data, place)[0]
    return read
