#!/usr/bin/env python3
"""Writes the files of ../data that are made of calls and calls.o: copies with other numbers, profiles, and core files.

The profiles have the form of perf record (perf.data-file-format.txt), little-endian, for x86-64. Each has one event whose
samples have the thread, the time, the registers rbp, rsp and rip, and a part of the stack, or their calls alone. Files are named below
/proc/self/cwd, which is the folder of the process that reads the profile. So are those of the core files, which have the
notes of Linux for x86-64.
"""
import struct
import zlib
from pathlib import Path

MMAP, LOST, COMM, SAMPLE, MMAP2, LOST_SAMPLES = 1, 2, 3, 9, 10, 13
IP, TID, TIME, CALLCHAIN, PERIOD, REGISTERS, STACK = 1, 2, 4, 1 << 5, 1 << 8, 1 << 12, 1 << 13
RBP_RSP_RIP = 7 << 6
KERNEL, USER, OWN_BUILD, SIZED_BUILD = 1, 2, 1 << 14, 1 << 15
CONTEXT_KERNEL, CONTEXT_USER = 2**64 - 128, 2**64 - 512
PROCESS, FOLDER = 7, b"/proc/self/cwd/"

# The addresses of calls.s: what each call returns to, and the instruction in inner behind its prologue.
IN_INNER, IN_OUTER, IN_START = 0x4000C6, 0x4000C0, 0x4000B5


def record(kind, body, flags=0, mode=USER):
    return struct.pack("<IHH", kind, mode | flags, 8 + len(body)) + body


def kernel_mapping(address, length, offset, name):
    """Code of the kernel."""
    name += b"\0"
    body = struct.pack("<iI3Q", -1, 0, address, length, offset) + name.ljust(-(-len(name) // 8) * 8, b"\0")
    return record(MMAP, body + struct.pack("<2iQ", -1, 0, 0), mode=KERNEL)


def lost(kind, time, *numbers):
    return record(kind, struct.pack(f"<{len(numbers)}Q2IQ", *numbers, PROCESS, PROCESS, time))


def called(time, mode, chain, *period):
    """A sample without registers and stack; with its period, if one is given."""
    address = next(entry for entry in chain if entry < CONTEXT_USER)
    body = struct.pack("<Q2IQ", address, PROCESS, PROCESS, time) + struct.pack(f"<{len(period)}Q", *period)
    return record(SAMPLE, body + struct.pack(f"<Q{len(chain)}Q", len(chain), *chain), mode=mode)


def mapping(time, address, name, build=b"", size=4096):
    """The first bytes of a file, 4,096 mostly, mapped as code; with its build, if one is given."""
    body = struct.pack("<2I3Q", PROCESS, PROCESS, address, size, 0)
    body += struct.pack("<B3x", len(build)) + build.ljust(20, b"\0") + struct.pack("<2I", 5, 2)
    name = FOLDER + name + b"\0"
    body += name.ljust(-(-len(name) // 8) * 8, b"\0") + struct.pack("<2IQ", PROCESS, PROCESS, time)
    return record(MMAP2, body, OWN_BUILD if build else 0)


def renamed(time, name, thread=PROCESS):
    """The name of a thread of the process, or of the one with its number."""
    name += b"\0"
    body = struct.pack("<2I", PROCESS, thread) + name.ljust(-(-len(name) // 8) * 8, b"\0")
    return record(COMM, body + struct.pack("<2IQ", PROCESS, thread, time))


def listed(name, build):
    """An entry of the table of builds."""
    name = FOLDER + name + b"\0"
    body = struct.pack("<i20sB3x", -1, build, len(build)) + name.ljust(-(-len(name) // 64) * 64, b"\0")
    return record(0, body, SIZED_BUILD)


def sample(thread, time, registers, stack):
    """A sample, by rbp, rsp and rip, and the words of the stack from rsp on."""
    body = struct.pack("<Q2IQ", registers[2], PROCESS, thread, time) + struct.pack("<Q", 0)
    body += struct.pack("<Q3Q", 2, *registers)
    body += struct.pack(f"<Q{len(stack)}QQ", 8 * len(stack), *stack, 8 * len(stack))
    return record(SAMPLE, body)


def profile(*records, builds=b"", fields=IP | TID | TIME | CALLCHAIN | REGISTERS | STACK):
    # Of cpu-clock, a sample each nanosecond; the other records have their thread and time too (sample_id_all).
    event = struct.pack("<2I5Q", 1, 96, 0, 1, fields, 0, 1 << 18).ljust(80, b"\0")
    event += struct.pack("<Q2I", RBP_RSP_RIP, 64, 0) + struct.pack("<2Q", 0, 0)
    data = b"".join(records)
    start = 104 + len(event)
    behind = start + len(data)
    # HEADER_BUILD_ID, where there are builds, and HEADER_ARCH.
    sections = ([builds] if builds else []) + [struct.pack("<I8s", 8, b"x86_64")]
    places = [behind + 16 * len(sections) + sum(map(len, sections[:n])) for n in range(len(sections))]
    header = struct.pack("<8s8Q", b"PERFILE2", 104, len(event), 104, len(event), start, len(data), 0, 0)
    header += struct.pack("<4Q", 1 << 6 | (1 << 2 if builds else 0), 0, 0, 0)
    table = b"".join(struct.pack("<2Q", place, len(it)) for place, it in zip(places, sections))
    return header + event + data + table + b"".join(sections)


def piped(whole):
    """The event and the records of a profile without builds, as perf record writes them to a pipe."""
    attr, start, size = struct.unpack_from("<Q", whole, 16)[0], *struct.unpack_from("<2Q", whole, 40)
    event = record(64, whole[104:104 + attr - 16], mode=0)
    architecture = record(80, struct.pack("<QI8s", 6, 8, b"x86_64"), mode=0)
    return struct.pack("<8sQ", b"PERFILE2", 16) + event + architecture + whole[start:start + size]


def of_a_folder(whole):
    """The profile, which says that its samples are in other files (HEADER_DIR_FORMAT)."""
    features, = struct.unpack_from("<Q", whole, 72)
    return whole[:72] + struct.pack("<Q", features | 1 << 24) + whole[80:]


STACK_OF_INNER = [1, 2, 3, IN_OUTER, 0x7FE0, IN_START, 0]

of_calls = profile(
    # Later than the sample behind it, so the second one that is printed.
    sample(8, 1_000_003_000, (0x7020, 0x7000, IN_INNER), STACK_OF_INNER),
    mapping(1_000_001_000, 0x400000, b"calls"),
    # The copy of the stack ends before the return address of outer.
    sample(7, 1_000_002_000, (0x7020, 0x7000, IN_INNER), STACK_OF_INNER[:5]),
    # Where nothing is mapped.
    sample(7, 1_000_004_000, (0x7020, 0x7000, 0x12345), STACK_OF_INNER),
)

# Of a file that isn't there, of a folder and of a pipe, which are not opened.
of_others = profile(
    mapping(1_000_001_000, 0x400000, b"absent"),
    mapping(1_000_001_000, 0x500000, b"folder"),
    mapping(1_000_001_000, 0x600000, b"pipe"),
    *(sample(7, 1_000_002_000 + n * 1000, (0x7020, 0x7000, 0x4000C6 + n * 0x100000), [1, 2]) for n in range(3)),
)

# Of a file that doesn't fit in memory.
of_large = profile(
    mapping(1_000_001_000, 0x400000, b"large"),
    sample(7, 1_000_002_000, (0x7020, 0x7000, IN_INNER), STACK_OF_INNER),
)

# Of the file names, and of one that isn't there.
of_names = profile(
    mapping(1_000_001_000, 0x400000, b"names"),
    mapping(1_000_001_000, 0x500000, "wä\x1b".encode()),
    renamed(1_000_001_000, "ö;\x07 ü".encode()),
    sample(7, 1_000_002_000, (0x7020, 0x7000, IN_INNER), STACK_OF_INNER),
    sample(7, 1_000_003_000, (0x7020, 0x7000, IN_INNER + 0x100000), STACK_OF_INNER),
)

# The program built has the build that the table lists, and calls has none, where its mapping has one.
BUILD = bytes.fromhex("00112233445566778899aabbccddeeff00112233")

of_builds = profile(
    mapping(1_000_001_000, 0x400000, b"built"),
    mapping(1_000_001_000, 0x500000, b"calls", BUILD),
    sample(7, 1_000_002_000, (0x7020, 0x7000, 0x400122), [1, 2, 3, 0x40011C, 0x7FE0, 0x400111, 0]),
    sample(7, 1_000_003_000, (0x7020, 0x7000, 0x5000C6), STACK_OF_INNER),
    builds=listed(b"built", BUILD),
)

# Another build of the program built was mapped.
of_another_build = profile(
    mapping(1_000_001_000, 0x400000, b"built"),
    sample(7, 1_000_002_000, (0x7020, 0x7000, 0x400122), [1, 2, 3, 0x40011C, 0x7FE0, 0x400111, 0]),
    builds=listed(b"built", BUILD[::-1]),
)

# Of calls alone, in the kernel and one of its modules among them, and of what was lost.
of_chains = profile(
    kernel_mapping(0xFFFFFFFF81000000, 0x1000000, 0xFFFFFFFF81000000, b"[kernel.kallsyms]_text"),
    kernel_mapping(0xFFFFFFFFC0000000, 0x10000, 0, b"[nf_tables]"),
    mapping(1_000_001_000, 0x400000, b"calls"),
    called(
        1_000_002_000,
        KERNEL,
        [CONTEXT_KERNEL, 0xFFFFFFFFC0000123, 0xFFFFFFFF81000130, CONTEXT_USER, IN_INNER, IN_OUTER, IN_START],
    ),
    called(1_000_003_000, USER, [CONTEXT_USER, IN_INNER, IN_OUTER, IN_START, 0x12345]),
    lost(LOST, 1_000_004_000, 0, 3),
    lost(LOST_SAMPLES, 1_000_005_000, 5),
    lost(LOST, 1_000_006_000, 0, 4),
    fields=IP | TID | TIME | CALLCHAIN,
)

# Of a program with .debug_frame alone; of one whose debug file has it and the symbols, by a link; and of one whose link has
# another checksum. The addresses are those of bare.
IN_BARE_INNER, IN_BARE_OUTER, IN_BARE_START = 0x40008E, 0x400088, 0x40007D

of_linked = profile(
    mapping(1_000_001_000, 0x400000, b"bare"),
    mapping(1_000_001_000, 0x500000, b"linked"),
    mapping(1_000_001_000, 0x600000, b"mislinked"),
    *(
        sample(
            7,
            1_000_002_000 + n * 1000,
            (0x7020, 0x7000, IN_BARE_INNER + n * 0x100000),
            [1, 2, 3, IN_BARE_OUTER + n * 0x100000, 0x7FE0, IN_BARE_START + n * 0x100000, 0],
        )
        for n in range(3)
    ),
)

# Of two threads with names of their own and one without, in the same functions.
of_threads_names = profile(
    mapping(1_000_001_000, 0x400000, b"calls"),
    renamed(1_000_001_000, b"main"),
    renamed(1_000_001_500, b"worker 1;a", 8),
    *(
        sample(thread, 1_000_002_000 + n * 1000, (0x7020, 0x7000, IN_INNER), STACK_OF_INNER)
        for n, thread in enumerate((7, 8, 9, 8))
    ),
)

# Of shortened, on the last byte of each function and on the one behind it: of outer after its prologue, and in a call chain.
of_ends = profile(
    mapping(1_000_001_000, 0x400000, b"shortened"),
    *(
        sample(7, 1_000_002_000 + n * 1000, registers, stack)
        for n, (registers, stack) in enumerate(
            (
                ((0, 0x7000, 0x4000B6), [0]),
                ((0x7000, 0x7000, 0x4000BF), [0, IN_START, 0]),
                ((0x7000, 0x7000, 0x4000C0), [0, IN_START, 0]),
                ((0x7008, 0x7000, 0x4000CB), [IN_OUTER, 0, IN_START, 0]),
                ((0x7008, 0x7000, 0x4000CC), [IN_OUTER, 0, IN_START, 0]),
            )
        )
    ),
)
of_chained_ends = profile(
    mapping(1_000_001_000, 0x400000, b"shortened"),
    called(1_000_002_000, USER, [CONTEXT_USER, 0x4000CC, 0x4000C0, 0x4000BF, 0x4000B7, 0x4000B6, 0x4000AF]),
    fields=IP | TID | TIME | CALLCHAIN,
)

# With periods above 2^32, with one that is 0, and with two whose sum is 2^64.
of_periods = profile(
    mapping(1_000_001_000, 0x400000, b"calls"),
    *(
        called(1_000_002_000 + n * 1000, USER, [CONTEXT_USER, *chain], period)
        for n, (chain, period) in enumerate(
            (
                ([IN_INNER, IN_OUTER, IN_START], 2**32 + 1),
                ([IN_INNER, IN_OUTER, IN_START], 0),
                ([IN_OUTER, IN_START], 2**32),
                ([IN_START], 2**63),
                ([IN_START], 2**63),
            )
        )
    ),
    fields=IP | TID | TIME | PERIOD | CALLCHAIN,
)

# Of two files that have other rows at the same places, in turn; deeper's inner has a frame of 40 bytes.
STACK_OF_DEEPER = [1, 2, 3, 4, IN_OUTER + 0x100000, 0x7FE0, IN_START + 0x100000, 0]
of_neighbours = profile(
    mapping(1_000_001_000, 0x400000, b"calls"),
    mapping(1_000_001_000, 0x500000, b"deeper"),
    *(
        sample(7, 1_000_002_000 + n * 1000, registers, stack)
        for n, (registers, stack) in enumerate(
            (
                ((0x7020, 0x7000, IN_INNER), STACK_OF_INNER),
                ((0x7028, 0x7000, IN_INNER + 0x100000), STACK_OF_DEEPER),
                ((0x7020, 0x7000, IN_INNER), STACK_OF_INNER),
            )
        )
    ),
)

# Of shifted: where inner is, its row begins at an address whose low byte is 0.
of_shifted = profile(
    mapping(1_000_001_000, 0x500000, b"shifted"),
    sample(
        7,
        1_000_002_000,
        (0x7020, 0x7000, IN_BARE_INNER + 0x100000),
        [1, 2, 3, IN_BARE_OUTER + 0x100000, 0x7FE0, IN_BARE_START + 0x100000, 0],
    ),
)

# Of calls, whose first bytes another mapping covers later: up to outer, and then from there on.
of_covered = profile(
    mapping(1_000_001_000, 0x400000, b"calls"),
    sample(7, 1_000_002_000, (0x7020, 0x7000, IN_INNER), STACK_OF_INNER),
    mapping(1_000_003_000, 0x400000, b"absent", size=0xB7),
    sample(7, 1_000_004_000, (0x7020, 0x7000, IN_INNER), STACK_OF_INNER),
    mapping(1_000_005_000, 0x4000B7, b"absent", size=11),
    sample(7, 1_000_006_000, (0x7020, 0x7000, IN_INNER), STACK_OF_INNER),
)

# ---- core files

PT_LOAD, PT_NOTE, EXECUTABLE, WRITABLE = 1, 4, 5, 6
NT_PRSTATUS, NT_PRPSINFO, NT_AUXV, NT_SIGINFO, NT_FILE = 1, 3, 6, 0x53494749, 0x46494C45
AT_NULL, AT_SYSINFO_EHDR = 0, 33


def padded(part):
    return part.ljust(-(-len(part) // 4) * 4, b"\0")


def note(kind, desc):
    return struct.pack("<3I", 5, len(desc), kind) + padded(b"CORE\0") + padded(desc)


def thread(tid, signal, rbp, rsp, rip):
    """An elf_prstatus, whose registers are those of user_regs_struct."""
    registers = [0] * 27
    registers[4], registers[16], registers[19] = rbp, rip, rsp
    head = struct.pack("<3IHxx2Q4I8Q", signal, 0, 0, signal, 0, 0, tid, 1, 1, 1, *[0] * 8)
    return note(NT_PRSTATUS, head + struct.pack("<27QQ", *registers, 0))


def process(name):
    """An elf_prpsinfo: what it has beside the name is zero."""
    return note(NT_PRPSINFO, bytes(40) + name.ljust(16, b"\0") + bytes(80))


def fault(signal, code, address):
    """A siginfo_t."""
    return note(NT_SIGINFO, struct.pack("<3IxxxxQ", signal, 0, code, address).ljust(128, b"\0"))


def vector(*pairs):
    """The auxiliary vector."""
    return note(NT_AUXV, b"".join(struct.pack("<2Q", *pair) for pair in pairs))


def files(*mapped):
    """What is mapped: start, end and place of each, and the names."""
    pages = (struct.pack("<3Q", start, end, place // 4096) for start, end, place, _ in mapped)
    names = (FOLDER + name + b"\0" for *_, name in mapped)
    return note(NT_FILE, struct.pack("<2Q", len(mapped), 4096) + b"".join(pages) + b"".join(names))


def core(notes, *segments):
    """Segments by their flags, address, size in memory, and the bytes or words that the file has of them."""
    place = 64 + 56 * (1 + len(segments))
    headers = struct.pack("<2I6Q", PT_NOTE, 4, place, 0, 0, len(notes), 0, 4)
    parts = notes
    for flags, address, size, words in segments:
        had = words if isinstance(words, bytes) else struct.pack(f"<{len(words)}Q", *words)
        headers += struct.pack("<2I6Q", PT_LOAD, flags, place + len(parts), address, 0, len(had), size, 1)
        parts += had
    ident = b"\x7fELF\2\1\1".ljust(16, b"\0")
    return ident + struct.pack("<2HI3QI6H", 4, 62, 1, 0, 64, 0, 0, 64, 56, 1 + len(segments), 0, 0, 0) + headers + parts


CODE = (EXECUTABLE, 0x400000, 4096, [])

of_threads = core(
    thread(8, 11, 0x7020, 0x7000, IN_INNER)
    + process(b"calls")
    # The stack ends before the return address of outer.
    + thread(7, 0, 0x9020, 0x9000, IN_INNER)
    # Where nothing is mapped.
    + thread(9, 0, 0x7020, 0x7000, 0x12345)
    + files((0x400000, 0x401000, 0, b"calls")),
    CODE,
    (WRITABLE, 0x7000, 4096, STACK_OF_INNER),
    (WRITABLE, 0x9000, 4096, STACK_OF_INNER[:5]),
)

of_linked_thread = core(
    thread(8, 11, 0x7020, 0x7000, IN_BARE_INNER)
    + process(b"linked")
    + files((0x400000, 0x401000, 0, b"linked")),
    CODE,
    (WRITABLE, 0x7000, 4096, [1, 2, 3, IN_BARE_OUTER, 0x7FE0, IN_BARE_START, 0]),
)

# No mappings, and bytes behind the only thread that are no whole note.
cut_off = core(thread(8, 11, 0x7020, 0x7000, IN_INNER) + bytes(5), CODE, (WRITABLE, 0x7000, 4096, STACK_OF_INNER))

# The second thread has no signal, and the kernel says of no address with the code SI_KERNEL.
of_fault = core(
    thread(8, 11, 0x7020, 0x7000, IN_INNER)
    + process(b"calls")
    + fault(11, 2, 0xDEAD0)
    + fault(11, 0x80, 0)
    + thread(7, 0, 0x7020, 0x7000, IN_INNER)
    + files((0x400000, 0x401000, 0, b"calls")),
    CODE,
    (WRITABLE, 0x7000, 4096, STACK_OF_INNER),
)

# A thread in each of two files that have other rows at the same places.
of_neighbouring_threads = core(
    thread(8, 11, 0x7020, 0x7000, IN_INNER)
    + process(b"calls")
    + thread(7, 0, 0x9028, 0x9000, IN_INNER + 0x100000)
    + files((0x400000, 0x401000, 0, b"calls"), (0x500000, 0x501000, 0, b"deeper")),
    CODE,
    (EXECUTABLE, 0x500000, 4096, []),
    (WRITABLE, 0x7000, 4096, STACK_OF_INNER),
    (WRITABLE, 0x9000, 4096, STACK_OF_DEEPER),
)

# Inner called the address 0, and would go on at the second byte behind its prologue.
of_null_call = core(
    thread(8, 11, 0x7020, 0x6FF8, 0)
    + process(b"calls")
    + fault(11, 1, 0)
    + files((0x400000, 0x401000, 0, b"calls")),
    CODE,
    (WRITABLE, 0x6FF8, 4096, [IN_INNER + 1] + STACK_OF_INNER),
)

data = Path(__file__).resolve().parent.parent / "data"

# Inner of the program built runs; so does that of calls, which has no build, where its first page has one; and that of
# the vdso, which is calls too, and was called by outer of built.
BUILT, VDSO = (data / "built").read_bytes(), 0x7FF000000000
STACK_OF_BUILT = [1, 2, 3, 0x40011C, 0x7FE0, 0x400111, 0]

of_mapped_builds = core(
    thread(8, 6, 0x7020, 0x7000, 0x400122)
    + process(b"built\x1b")
    + vector((AT_SYSINFO_EHDR, VDSO), (AT_NULL, 0))
    + thread(7, 34, 0x7020, 0x7000, 0x5000C6)
    + thread(9, 0, 0x7020, 0x7000, VDSO + 0xC6)
    + files((0x400000, 0x401000, 0, b"built"), (0x500000, 0x501000, 0, b"calls")),
    (EXECUTABLE, 0x400000, 4096, BUILT),
    (EXECUTABLE, 0x500000, 4096, BUILT),
    (WRITABLE, 0x7000, 4096, STACK_OF_BUILT),
    (EXECUTABLE, VDSO, 8192, (data / "calls").read_bytes()),
)

# The second row of the table of .eh_frame_hdr, at 0xcc, is of outer at 0x4000b7, which is -0x15 from there. It gets 0x4000b8.
calls = bytearray((data / "calls").read_bytes())
assert struct.unpack_from("<i", calls, 0xCC + 20) == (-0x15,)
struct.pack_into("<i", calls, 0xCC + 20, -0x14)

# The functions of calls under other names: in UTF-8, with a sequence that clears a terminal, and with U+0085 and a byte
# that isn't UTF-8.
named = (data / "calls").read_bytes()
for old, new in ((b"_start", "größ".encode()), (b"outer", b"a\x1b[2J"), (b"inner", b"b\xc2\x85\xf6\"")):
    assert len(old) == len(new) and named.count(old + b"\0") == 1
    named = named.replace(old + b"\0", new + b"\0")

# e_machine is EM_MIPS (8) in place of EM_X86_64 (62).
foreign = bytearray((data / "calls.o").read_bytes())
assert struct.unpack_from("<H", foreign, 18) == (62,)
struct.pack_into("<H", foreign, 18, 8)

# The fifth section header of example is that of .debug_frame: its flags get SHF_COMPRESSED.
packed = bytearray((data / "example").read_bytes())
(headers,) = struct.unpack_from("<Q", packed, 40)
flags = headers + 64 * 4 + 8
assert struct.unpack_from("<Q", packed, flags) == (0,)
struct.pack_into("<Q", packed, flags, 0x800)

# The last byte of linked's .gnu_debuglink, at 0x94, is the checksum's.
mislinked = bytearray((data / "linked").read_bytes())
assert mislinked[0x94:0xA4] == b"bare.debug\0\0" + struct.pack("<I", zlib.crc32((data / "bare.debug").read_bytes()))
mislinked[0xA3] += 1

# Of calls, with the symbol of inner as one of a function that says which one is called (STT_GNU_IFUNC), of GNU.
indirect = bytearray((data / "calls").read_bytes())
indirect[7] = 3
indirect[indirect.index(struct.pack("<BBHQQ", 2, 0, 1, 0x4000C2, 10))] = 10

# Of calls, with the size of outer without its last two instructions, from 0x4000c0 on.
shortened = bytearray((data / "calls").read_bytes())
shortened[shortened.index(struct.pack("<BBHQQ", 2, 0, 1, 0x4000B7, 11)) + 12] = 9

# Of calls, where inner's frame has 40 bytes: DW_CFA_def_cfa_offset, behind the advance over the prologue.
deeper = bytearray((data / "calls").read_bytes())
assert deeper.count(bytes([0x44, 0x0E, 32])) == 1
deeper[deeper.index(bytes([0x44, 0x0E, 32])) + 2] = 40

# Bare with each address 0x72 higher, so that inner's row behind its prologue begins at 0x400100: the entry, those of the
# segment, of .text, of the symbols from outer on, and of the entries of .debug_frame, whose second numbers are sizes.
shifted = bytearray((data / "bare").read_bytes())
for place in (24, 64 + 16, 64 + 24, 0x248 + 64 + 16, *range(0x128 + 48 + 8, 0x1E8, 24), 0x98 + 0x20, 0x98 + 0x50, 0x98 + 0x78):
    address, = struct.unpack_from("<Q", shifted, place)
    assert 0x400078 <= address <= 0x400098
    struct.pack_into("<Q", shifted, place, address + 0x72)

(data / "shifted").write_bytes(shifted)
(data / "shifted.perf").write_bytes(of_shifted)
(data / "shortened").write_bytes(shortened)
(data / "deeper").write_bytes(deeper)
(data / "ends.perf").write_bytes(of_ends)
(data / "periods.perf").write_bytes(of_periods)
(data / "chained.perf").write_bytes(of_chained_ends)
(data / "threads.perf").write_bytes(of_threads_names)
(data / "neighbours.perf").write_bytes(of_neighbours)
(data / "covered.perf").write_bytes(of_covered)
(data / "neighbours.core").write_bytes(of_neighbouring_threads)
(data / "mislinked").write_bytes(mislinked)
(data / "indirect").write_bytes(indirect)
(data / "linked.perf").write_bytes(of_linked)
(data / "linked.core").write_bytes(of_linked_thread)
(data / "unfaithful").write_bytes(calls)
(data / "packed").write_bytes(packed)
(data / "foreign.o").write_bytes(foreign)
(data / "names").write_bytes(named)
(data / "names.perf").write_bytes(of_names)
(data / "calls.perf").write_bytes(of_calls)
(data / "piped.perf").write_bytes(piped(of_calls))
(data / "several.perf").write_bytes(of_a_folder(of_calls))
(data / "others.perf").write_bytes(of_others)
(data / "large.perf").write_bytes(of_large)
(data / "builds.perf").write_bytes(of_builds)
(data / "rebuilt.perf").write_bytes(of_another_build)
(data / "chains.perf").write_bytes(of_chains)
(data / "threads.core").write_bytes(of_threads)
(data / "cut.core").write_bytes(cut_off)
(data / "builds.core").write_bytes(of_mapped_builds)
(data / "fault.core").write_bytes(of_fault)
(data / "null.core").write_bytes(of_null_call)
