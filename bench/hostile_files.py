"""Files that cost `cfi` much, for hostile.py: ELF files, profiles, core files and folded stacks, each of about a size in bytes.

KINDS has each kind by its name, which begins with the command. All numbers are little-endian, all addresses of 8 bytes.
"""
import collections
import math
import os
import struct

# The words of the command before the file and after it; a function that makes the file by the size and a folder, in which
# it may put others; and how many times smaller than others it is measured, as it takes long.
Kind = collections.namedtuple("Kind", "before after make scale")
KINDS = {}
RETURN_AT_CFA = b"\x0c\x07\x08\x90\x01"  # CFA register 7 plus 8, the return address 8 below it
FIRST = 0x1000
# A rule for each of the registers 16 to 206, nearly as many as a row has at most.
SWEPT = range(16, 207)
PROGRAM = os.path.realpath("/bin/true").encode()


def kind(name, each, *after, before=(), power=1, scale=1):
    """Declares what makes a file of `count` parts, of about `each` bytes for each of count to the power."""
    def declared(make):
        def of_size(size, folder):
            found = make(max(1, math.ceil((size / each) ** (1 / power))))
            return found(folder) if callable(found) else found
        KINDS[name] = Kind([name.split("_")[0], *before], list(after), of_size, scale)
        return make
    return declared


def pack(layout, *numbers):
    return struct.pack("<" + layout, *numbers)


def padded(data, size):
    return data + bytes(-len(data) % size)


def uleb128(number):
    low = bytes([number & 127])
    return low if number < 128 else bytes([number & 127 | 128]) + uleb128(number >> 7)


# ---- sections


def entry(body):
    body += bytes(-(len(body) + 4) % 8)
    return pack("I", len(body)) + body


def cie(augmentation=b"", data=b"", instructions=RETURN_AT_CFA):
    return entry(bytes(4) + b"\1" + augmentation + b"\0\x01\x78\x10" + data + instructions)


def fdes(count, first=None, start=lambda k: FIRST + 16 * k, length=lambda k: 16, instructions=b"", data=b"", cies=1):
    """That many FDEs of `cies` equal CIEs in turn."""
    first = first or cie()
    parts, place = [first] * cies, len(first) * cies
    for k in range(count):
        head = pack("IQQ", place + 4 - k % cies * len(first), start(k), length(k))
        parts.append(entry(head + data + instructions))
        place += len(parts[-1])
    return b"".join(parts) + bytes(4)


def one_fde(instructions):
    return fdes(1, length=lambda k: 1 << 40, instructions=instructions)


def long_expression(size):
    """A CFA whose expression has that many operations."""
    return b"\x0f" + uleb128(size) + b"\x12" * size


RULES = b"".join(b"\x05" + uleb128(register) + b"\x01" for register in SWEPT)


# ---- ELF files

Section = collections.namedtuple("Section", "name type flags address data link info each", defaults=(0, 0, 0))


def elf(sections, kind_of_file=3, segments=()):
    names, places = b"\0", []
    for section in [*sections, Section(".shstrtab", 3, 0, 0, b"")]:
        places.append(len(names))
        names += section.name.encode() + b"\0"
    sections = [*sections, Section(".shstrtab", 3, 0, 0, names)]
    body, headers = bytearray(64 + 56 * len(segments)), [bytes(64)]
    for section, place in zip(sections, places):
        body += bytes(-len(body) % 8)
        headers.append(pack("IIQQQQIIQQ", place, *section[1:4], len(body), len(section.data), section.link, section.info, 8, section.each))
        body += section.data
    body += bytes(-len(body) % 8)
    numbers = 0, 64 if segments else 0, len(body), 0, 64, 56, len(segments), 64, len(headers), len(headers) - 1
    body[:64] = b"\x7fELF\2\1\1" + bytes(9) + pack("HHIQQQIHHHHHH", kind_of_file, 62, 1, *numbers)
    for k, segment in enumerate(segments):
        body[64 + 56 * k : 120 + 56 * k] = segment
    return bytes(body) + b"".join(headers)


def frames(section, address=0):
    return Section(".eh_frame", 1, 2, address, section)


def of(section):
    return elf([frames(section)])


def library(section):
    """A file that is mapped whole as code: its addresses are its offsets."""
    return elf([frames(section, 0x200000)], segments=[pack("IIQQQQQQ", 1, 5, 0, 0, 0, 0x20000, 0x20000, 4096)])


def relative(instructions=RETURN_AT_CFA):
    """A CIE whose FDEs have absolute addresses, by the letter R."""
    return cie(b"zR", b"\x01\x00", instructions)


def symbols(functions):
    """The sections of symbols: of each its name, address and size."""
    names, table = bytearray(b"\0"), bytearray(24)
    for name, address, size in functions:
        table += pack("IBBHQQ", len(names), 0x12, 0, 1, address, size)
        names += name + b"\0"
    return bytes(table), bytes(names)


def with_symbols(section, functions):
    table, names = symbols(functions)
    return elf([frames(section), Section(".symtab", 2, 0, 0, table, 3, 1, 24), Section(".strtab", 3, 0, 0, names)])


def with_long_name(count, length, address):
    """That many functions, whose names are parts of one long name."""
    table = bytes(24) + b"".join(pack("IBBHQQ", 1 if address else 1 + k, 0x12, 0, 1, address or FIRST + 16 * k, 16) for k in range(count))
    names = b"\0" + b"a" * length + b"\0"
    return elf([frames(fdes(count)), Section(".symtab", 2, 0, 0, table, 3, 1, 24), Section(".strtab", 3, 0, 0, names)])


kind("rows_fdes", 24)(lambda n: of(fdes(n)))
kind("rows_fdes_at_one_address", 24)(lambda n: of(fdes(n, start=lambda k: FIRST)))
kind("rows_advances", 1, scale=2)(lambda n: of(one_fde(b"\x41" * n)))
kind("rows_192_rules", 1, scale=16)(lambda n: of(one_fde(RULES + b"\x41" * n)))
kind("rows_remembered", 2)(lambda n: of(one_fde(RULES + b"\x0a\x0b" * n)))
kind("rows_long_expression", 1)(lambda n: of(one_fde(long_expression(n))))
kind("rows_expression_each", 2, scale=16)(lambda n: of(one_fde(long_expression(n) + b"\x41" * n)))
kind("rows_expression_each_json", 2, before=("--format=json",), scale=16)(lambda n: of(one_fde(long_expression(n) + b"\x41" * n)))
kind("rows_cies_in_turn", 34)(lambda n: of(fdes(n, cie(b"z" + b"S" * n, b"\0"), data=b"\0", cies=2)))
kind("rows_long_cie", 48, scale=4)(lambda n: of(fdes(n, cie(instructions=RETURN_AT_CFA + b"\x0e\x10" * (12 * n)))))
kind("rows_symbols_at_one_address", 39)(lambda n: with_symbols(fdes(n // 8), [(b"f%d" % k, FIRST, 16) for k in range(n)]))
kind("rows_long_names", 68)(lambda n: with_long_name(n, 20 * n, 0))
kind("rows_one_long_name", 68)(lambda n: with_long_name(n, 20 * n, FIRST))
kind("rows_of_name", 50, "f")(lambda n: with_symbols(fdes(n), [(b"f", FIRST + 16 * k, 16) for k in range(n)]))
kind("rows_section_headers", 110)(lambda n: elf([Section("a" * 40 + str(k), 1, 0, 0, b"") for k in range(min(n, 60000))] + [frames(fdes(10))]))
kind("row_of_name", 50, "f")(lambda n: with_symbols(fdes(n), [(b"f", FIRST + 16 * k, 16) for k in range(n)]))
kind("row_long_names", 68, "main")(lambda n: with_long_name(n, 20 * n, FIRST))
kind("row_last", 24, "0xffff")(lambda n: of(fdes(n, start=lambda k: 0x10000 + 16 * k)))
kind("row_advances", 1, "0xffffffffff")(lambda n: of(one_fde(b"\x41" * n)))
kind("row_cies_in_turn", 34, "0x1")(lambda n: of(fdes(n, cie(b"z" + b"S" * n, b"\0"), data=b"\0", cies=2)))
kind("dump_fdes", 24)(lambda n: of(fdes(n)))
kind("dump_advances", 1)(lambda n: of(one_fde(b"\x41" * n)))
kind("dump_expression_each", 2, scale=16)(lambda n: of(one_fde(long_expression(n) + b"\x41" * n)))
kind("dump_cies_in_turn", 34)(lambda n: of(fdes(n, cie(b"z" + b"S" * n, b"\0"), data=b"\0", cies=2)))
kind("dump_long_cie", 48, scale=4)(lambda n: of(fdes(n, cie(instructions=RETURN_AT_CFA + b"\x0e\x10" * (12 * n)))))
kind("table_fdes", 24)(lambda n: of(fdes(n)))
kind("table_fdes_at_one_address", 24)(lambda n: of(fdes(n, start=lambda k: FIRST)))
kind("table_fdes_nested", 24)(lambda n: of(fdes(n, start=lambda k: FIRST + k, length=lambda k: 1 << 30)))
kind("table_fdes_around", 24)(lambda n: of(fdes(n, start=lambda k: (1 << 40) - 16 * k, length=lambda k: FIRST + 32 * k)))
kind("table_fdes_falling", 24)(lambda n: of(fdes(n, start=lambda k: (1 << 40) - 16 * k)))
kind("table_192_rules", 5, scale=4)(lambda n: of(one_fde(RULES + b"\x05\xce\x01\x01\x41" * n)))
kind("table_expression_each", 2, scale=16)(lambda n: of(one_fde(long_expression(n) + b"\x41" * n)))
kind("table_cies_in_turn", 34)(lambda n: of(fdes(n, cie(b"z" + b"S" * n, b"\0"), data=b"\0", cies=2)))
kind("table_long_cie", 48, scale=4)(lambda n: of(fdes(n, cie(instructions=RETURN_AT_CFA + b"\x0e\x10" * (12 * n)))))
kind("check_fdes", 24)(lambda n: of(fdes(n)))


def with_header(count, first=None, data=b"", cies=1):
    """FDEs, and a header whose table lists them."""
    first = first or cie()
    start, each = len(first) * cies, len(entry(bytes(20) + data))
    rows = b"".join(pack("ii", FIRST + 16 * k, 0x20000000 + start + each * k) for k in range(count))
    header = b"\1\x03\x03\x03" + pack("II", 0x20000000, count) + rows
    return elf([frames(fdes(count, first, data=data, cies=cies), 0x20000000), Section(".eh_frame_hdr", 1, 2, 0x10000000, header)])


kind("check_table", 32)(with_header)
kind("check_cies_in_turn", 42)(lambda n: with_header(n, cie(b"z" + b"S" * n, b"\0"), b"\0", 2))
kind("check_long_cie", 56, scale=4)(lambda n: with_header(n, cie(instructions=RETURN_AT_CFA + b"\x0e\x10" * (12 * n))))


@kind("row_plt_entries", 98, "printf@plt")
def plt(count):
    """A procedure linkage table, each entry of which is of one symbol."""
    code = b"".join(b"\xff\x25" + pack("i", 0x10000000 + 8 * k - (16 * k + 6)) + b"\x90" * 10 for k in range(count))
    table = bytes(24) + pack("IBBHQQ", 1, 0x12, 0, 0, 0, 0) * count
    relocations = b"".join(pack("QQq", 0x10000000 + 8 * k, (k + 1) << 32 | 7, 0) for k in range(count))
    parts = [Section(".plt", 1, 6, 0, code, 0, 0, 16), Section(".dynsym", 11, 2, 0x20000000, table, 3, 1, 24)]
    parts += [Section(".dynstr", 3, 2, 0x30000000, b"\0printf\0"), Section(".rela.plt", 4, 2, 0x40000000, relocations, 2, 0, 24)]
    return elf([*parts, frames(fdes(count, start=lambda k: 16 * k), 0x50000000)])


# ---- objects


def object_file(count, relocations, sections):
    """An object of so many FDEs, with that many sections of these relocations."""
    table = bytes(24) + pack("IBBHQQ", 0, 3, 0, 1, 0, 0)
    parts = [Section(".text", 1, 6, 0, b"\x90" * 64), frames(fdes(count, start=lambda k: 0)), Section(".symtab", 2, 0, 0, table, 4, 1, 24)]
    parts += [Section(".strtab", 3, 0, 0, b"\0")] + [Section(".rela.eh_frame", 4, 0, 0, relocations, 3, 2, 24)] * sections
    return elf(parts, kind_of_file=1)


def relocations_at(places):
    return b"".join(pack("QQq", place, 1 << 32 | 1, 16 * k) for k, place in enumerate(places))


kind("rows_relocations", 48)(lambda n: object_file(n, relocations_at(range(32, 32 + 24 * n, 24)), 1))
kind("rows_relocation_sections", 160)(lambda n: object_file(4, relocations_at([32] * 4), n))


@kind("rows_relocation_sections_in_one_place", 160)
def overlapping(count):
    """Sections of relocations that have the same bytes of the file."""
    data = bytearray(object_file(4, relocations_at([32] * (count * 4)), 1))
    start, = struct.unpack_from("<Q", data, 40)
    last, = struct.unpack_from("<H", data, 60)
    same = data[start + 64 * 5 : start + 64 * 6]
    more = min(count, 60000)
    struct.pack_into("<HH", data, 60, last + more, last - 1)
    return bytes(data) + bytes(same) * more


# ---- folded stacks


def stacks(names):
    """A line of one sample for each list of names."""
    return b"".join(b";".join(parts) + b" 1\n" for parts in names)


def distinct(n):
    return stacks([b"main", b"a%d" % k, b"b%d" % k] for k in range(n))


for _name, _each, _power, _make in (
        ("distinct", 21, 1, distinct),
        ("deep", 6.5, 1, lambda n: stacks([[b"f%d" % k for k in range(n)]])),
        ("deep_of_one_name", 2, 1, lambda n: stacks([[b"f"] * n])),
        ("deeper_and_deeper", 2.2, 2, lambda n: stacks([b"f%d" % j for j in range(k)] for k in range(1, n + 1))),
        ("many_callees", 14, 1, lambda n: stacks([b"main", b"x%d" % (k * 7919 % n)] for k in range(n))),
        ("long_names", 1, 2, lambda n: stacks([b"a" * n + b"%d" % k] for k in range(n))),
        ("sorted", 18, 1, lambda n: b"".join(b"x%09d %d\n" % (k, k + 1) for k in range(n)))):
    for _command in ("flame", "report"):
        kind(f"{_command}_{_name}", _each, power=_power)(_make)
kind("flame_distinct_reversed", 21, before=("--reverse",))(distinct)


# ---- profiles

# ip, thread, time, processor, period, registers, stack
FIELDS, REGISTERS = 0x3187, 0xFF0FFF


def record(type_of_record, flags, body):
    body = padded(body, 8)
    return pack("IHH", type_of_record, flags, 8 + len(body)) + body


def profile(records, events=1, builds=b""):
    """A profile of x86-64 with these records; `builds` is the data of its builds of files."""
    attribute = bytearray(pack("IIQQQQQ", 1, 136, 0, 1000, FIELDS, 0, 1 << 18).ljust(136, b"\0"))
    struct.pack_into("<QI", attribute, 80, REGISTERS, 1024)
    attributes, body = (bytes(attribute) + pack("QQ", 0, 0)) * events, b"".join(records)
    machine, start = pack("I", 8) + b"x86_64\0\0", 104 + len(attributes)
    features = start + len(body)
    parts = ([builds] if builds else []) + [machine]
    header = bytearray(b"PERFILE2" + pack("8Q", 104, 152, 104, len(attributes), start, len(body), 0, 0) + bytes(32))
    struct.pack_into("<Q", header, 72, 1 << 6 | (4 if builds else 0))
    places, place = b"", features + 16 * len(parts)
    for part in parts:
        places, place = places + pack("QQ", place, len(part)), place + len(part)
    return bytes(header) + attributes + body + places + b"".join(parts)


def numbered(process, time):
    """What stands behind a record."""
    return pack("IIQII", process, process, time, 0, 0)


def mapped(process, address, length, name):
    return record(10, 2, pack("IIQQQIIQQII", process, process, address, length, 0, 8, 1, 5, 0, 5, 2) + padded(name + b"\0", 8) + numbered(process, 1))


def sample(process, time, address, stack=b""):
    registers = [0] * REGISTERS.bit_count()
    registers[7:9] = 0x7FF000000000, address
    body = pack("QIIQIIQQ", address, process, process, time, 0, 0, 1, 2) + pack(f"{len(registers)}Q", *registers)
    return record(9, 2, body + pack("Q", len(stack)) + stack + (pack("Q", len(stack)) if stack else b""))


def named(process, name, time=1):
    return record(3, 0, pack("II", process, process) + padded(name + b"\0", 8) + numbered(process, time))


def forked(process, parent, time):
    return record(7, 0, pack("IIIIQ", process, parent, process, parent, time) + numbered(process, time))


def files(name):
    return lambda k: name + b"%d" % k if name[-1:] == b"/" else name


def mappings(count, samples, name=PROGRAM, place=lambda k: 0x1000000 + 0x2000 * k):
    """Mappings of a process, and a sample in each of so many of them."""
    name = files(name)
    return profile([mapped(1, place(k), 0x1000, name(k)) for k in range(count)] + [sample(1, 5 + k, place(k) + 16) for k in range(samples)])


ABSENT = b"/nonexistent/"
kind("unwind_mappings", 170)(lambda n: mappings(n, n // 10))
kind("unwind_mappings_falling", 170)(lambda n: mappings(n, n // 10, place=lambda k: (1 << 45) - 0x2000 * k))
kind("unwind_files", 384)(lambda n: mappings(n, n, ABSENT))
kind("unwind_mappings_around", 144)(lambda n: profile([mapped(1, 0x1000000, 1 << 32, PROGRAM) for _ in range(n)] + [sample(1, 5, 0x1000010)]))


@kind("unwind_mappings_split", 144)
def split(n):
    """A mapping that others split."""
    inner = [mapped(1, 0x1002000 + 0x2000 * (k * 7919 % n), 0x1000, PROGRAM) for k in range(n)]
    return profile([mapped(1, 0x1000000, 1 << 40, PROGRAM), *inner, sample(1, 5, 0x1000010)])


@kind("unwind_forks_in_a_chain", 64)
def forks(n):
    chain = [forked(k + 2, k + 1, 2 + k) for k in range(n)]
    return profile([mapped(1, 0x1000000, 0x1000, PROGRAM), named(1, b"x"), *chain, sample(n + 1, n + 9, 0x1000010)])


@kind("unwind_forks_of_mappings", 440)
def forks_of_mappings(n):
    """Each of n processes takes over n mappings."""
    maps, children = [mapped(1, 0x1000000 + 0x2000 * k, 0x1000, PROGRAM) for k in range(n)], [forked(k + 2, 1, 2 + k) for k in range(n)]
    return profile([*maps, *children, *(sample(k + 2, n + 9 + k, 0x1000010) for k in range(n))])


@kind("unwind_forks_with_mappings", 440)
def forks_with_mappings(n):
    """A chain of processes, each with a mapping more."""
    parts = ((mapped(k + 1, 0x1000000 + 0x2000 * k, 0x1000, PROGRAM), forked(k + 2, k + 1, 2 + k), sample(k + 2, 3 + k, 0x1000010)) for k in range(n))
    return profile([part for parts_of_one in parts for part in parts_of_one])


kind("unwind_names", 82)(lambda n: profile([named(k, b"thread%d" % k) for k in range(n)] + [sample(k, 5 + k, 16) for k in range(n // 10)]))
kind("unwind_at_one_time", 232)(lambda n: profile([sample(1, 5, 16) for k in range(n)]))
kind("unwind_times_falling", 232)(lambda n: profile([sample(1, 10**9 - k, 16) for k in range(n)]))
kind("unwind_processes", 376)(lambda n: profile([mapped(k, 0x1000000, 0x1000, PROGRAM) for k in range(n)] + [sample(k, 5 + k, 0x1000010) for k in range(n)]))
kind("unwind_events", 152)(lambda n: profile([sample(1, 5 + k, 16) for k in range(9)], events=n))
kind("fold_processes", 296)(lambda n: profile([named(k, b"t%d" % k) for k in range(n)] + [sample(k, 5 + k, 16) for k in range(n)]))


@kind("unwind_builds", 550)
def builds(n):
    """Files, each with its build."""
    listed = b"".join(record(0, 2, pack("i", -1) + struct.pack(">5I", *[k] * 5) + bytes(4) + ABSENT + b"%d\0" % k) for k in range(n))
    maps = [mapped(1, 0x1000000 + 0x2000 * k, 0x1000, ABSENT + b"%d" % k) for k in range(n)]
    return profile([*maps, *(sample(1, 5 + k, 0x1000010 + 0x2000 * k) for k in range(n))], builds=listed)


# ---- libraries that profiles and core files name: the size is theirs


def beside(name, data, make):
    """Puts a file into the folder, and makes the profile or core file by its path."""
    def made(folder):
        path = folder / name
        path.write_bytes(data)
        return make(os.fsencode(path))
    return made


def one_sample(path):
    return profile([mapped(1, 0x1000000, 0x20000, path), sample(1, 5, FIRST + 0x1000010, bytes(8))])


@kind("unwind_library_of_long_cie", 56, scale=4)
def library_of_long_cie(n):
    first = relative(RETURN_AT_CFA + b"\x0e\x10" * (12 * n))
    return beside("long_cie.so", library(fdes(n, first, data=b"\0")), one_sample)


@kind("unwind_library_of_symbols", 36)
def library_of_symbols(n):
    """Functions that all begin where the sample is."""
    table, names = symbols((b"f%d" % k, FIRST + 16, 16) for k in range(n))
    parts = [frames(fdes(1, relative(), data=b"\0"), 0x200000), Section(".symtab", 2, 0, 0, table, 3, 1, 24), Section(".strtab", 3, 0, 0, names)]
    return beside("symbols.so", elf(parts, segments=[pack("IIQQQQQQ", 1, 5, 0, 0, 0, 0x20000, 0x20000, 4096)]), one_sample)


def loop(value):
    """An expression of 998 operations: a loop that counts down, and a value."""
    return b"\x0a" + pack("H", 249) + b"\x31\x1c\x12\x28" + pack("h", -6) + b"\x0c" + pack("I", value)


def loops():
    """A library whose frame calls itself, and all of whose rules are such loops."""
    rules = ((register, loop(FIRST + 0x1000010 if register == 16 else 5)) for register in range(17) if register != 7)
    instructions = b"".join(b"\x16" + bytes([register]) + uleb128(len(rule)) + rule for register, rule in rules)
    return library(fdes(1, relative(), length=lambda k: 0x10000, instructions=instructions, data=b"\0"))


# ---- core files


def note(name, type_of_note, text):
    return pack("III", len(name) + 1, len(text), type_of_note) + padded(name + b"\0", 4) + padded(text, 4)


def thread(number, address, stack_pointer):
    status = bytearray(336)
    struct.pack_into("<H", status, 12, 11)
    struct.pack_into("<I", status, 32, number)
    struct.pack_into("<Q", status, 112 + 16 * 8, address)
    struct.pack_into("<Q", status, 112 + 19 * 8, stack_pointer)
    return note(b"CORE", 1, bytes(status))


def file_note(names, place=lambda k: 0x1000000 + 0x2000 * k, length=0x1000):
    places = b"".join(pack("QQQ", place(k), place(k) + length, 0) for k in range(len(names)))
    return note(b"CORE", 0x46494C45, pack("QQ", len(names), 4096) + places + b"".join(name + b"\0" for name in names))


def core(notes, segments):
    """A core file with these notes, and segments of an address, bytes and flags each."""
    count, notes = len(segments) + 1, b"".join(notes)
    place = 64 + 56 * count
    headers, data = [pack("IIQQQQQQ", 4, 0, place, 0, 0, len(notes), 0, 4)], [notes]
    place += len(notes)
    for address, found, flags in segments:
        headers.append(pack("IIQQQQQQ", 1, flags, place, address, 0, len(found), max(len(found), 4096), 4096))
        data.append(found)
        place += len(found)
    # PN_XNUM: the first section header has the number
    many = count >= 0xFFFF
    numbers = 0, 64, place if many else 0, 0, 64, 56, 0xFFFF if many else count, 64, int(many), 0
    head = b"\x7fELF\2\1\1" + bytes(9) + pack("HHIQQQIHHHHHH", 4, 62, 1, *numbers)
    return head + b"".join(headers + data) + (pack("IIQQQQIIQQ", 0, 0, 0, 0, 0, 0, 0, count, 0, 0) if many else b"")


STACK = 0x7000, bytes(64), 6
kind("stack_threads", 356)(lambda n: core([thread(k + 1, FIRST, 0x7000) for k in range(n)], [STACK]))
kind("stack_threads_of_segments", 476)(lambda n: core([thread(k + 1, FIRST, 0x100000 + 0x2000 * k) for k in range(n)],
                                                     [(0x100000 + 0x2000 * k, bytes(64), 6) for k in range(n)]))
kind("stack_threads_of_one_stack", 1356)(lambda n: core([thread(k + 1, FIRST, 0x100000) for k in range(n)], [(0x100000, bytes(1000 * n), 6)]))
kind("stack_files", 42)(lambda n: core([thread(1, 0x1000010, 0x7000), file_note([ABSENT + b"%d" % k for k in range(n)])], [STACK]))
kind("stack_one_file", 38)(lambda n: core([thread(1, 0x1000010, 0x7000), file_note([PROGRAM] * n)], [STACK]))
kind("stack_files_of_segments", 450)(lambda n: core([*(thread(k + 1, 0x1000010 + 0x2000 * k, 0x7000) for k in range(n)), file_note([PROGRAM] * n)],
                                                   [(0x1000000 + 0x2000 * k, b"", 5) for k in range(n)]))
kind("stack_segments", 56)(lambda n: core([thread(1, FIRST, 0x7000)], [(0x100000 + 0x2000 * k, b"", 6) for k in range(n)]))


def core_of(threads, stack, pc=FIRST + 0x1000010):
    return lambda path: core([*(thread(k + 1, pc, 0x700000) for k in range(threads)), file_note([path], length=0x20000)], [(0x700000, stack, 6)])


@kind("stack_deep", 356, scale=8)
def deep(n):
    """Threads whose stacks have as many frames as are followed; the stack itself doesn't count."""
    return beside("deep.so", library(fdes(1, relative(), length=lambda k: 0x10000, data=b"\0")), core_of(n, pack("Q", FIRST + 0x1000010) * 4200))


kind("stack_loops", 356, scale=47)(lambda n: beside("loops.so", loops(), core_of(n, bytes(64))))
kind("unwind_loops", 240, scale=70)(lambda n: beside("loops.so", loops(), lambda path: profile(
    [mapped(1, 0x1000000, 0x20000, path), *(sample(1, 5 + k, FIRST + 0x1000010, bytes(8)) for k in range(n))])))
