#!/usr/bin/env python3
"""Compares what `cfi` and readelf say of changed ELF files: rows, addresses of sections and symbols, threads of cores.

beside_readelf.py PROGRAM [--inputs N] [--seed S] [--show N] [--seconds S] [FILE..]

Each input is an ELF file with bytes changed, mostly in its header, its section headers, its symbols, its call frames or its
notes; it follows from its number. The files are those of crates/cfi/data, three objects and a program of the system, and those
that are named. Compared are, of files of 32 and 64 bits, the rows of `cfi rows --raw` with those of `readelf
--debug-dump=frames-interp`; the addresses of sections and symbols by `cfi row` with `readelf -S` and `-s`; and of cores the
threads of `cfi stack --raw` with the notes of `eu-readelf -n`, which reads by libelf. A difference has a rule by which it is
known, or is one that isn't: that is printed, and its file kept in fuzz/out/readelf. Prints how often each rule was met; the
status is 1 if there was a difference without a rule. Needs readelf 2.40 and eu-readelf.
"""
import argparse
import collections
import contextlib
import os
import random
import re
import resource
import struct
import subprocess
import sys
import time
from pathlib import Path

TOP = Path(__file__).resolve().parent.parent
KEPT = TOP / "fuzz" / "out" / "readelf"
SYSTEM = ["/bin/true", *(f"/usr/lib/x86_64-linux-gnu/{name}" for name in ("crt1.o", "crti.o", "Scrt1.o"))]
NUMBERS = [0, 1, 2, 4, 8, 0x18, 0x40, 0x7F, 0x80, 0xFF, 0x8000, 0xFFFF, 0x7FFFFFFF, 0xFFFFFFFF, 1 << 63, (1 << 64) - 1]

# ---- changed files


class Elf:
    """Where the parts of a file are that are changed most."""

    def __init__(self, data):
        self.data, self.is_wide, self.order = data, data[4] == 2, "<" if data[5] == 1 else ">"
        place = 40 if self.is_wide else 32
        self.sections, = struct.unpack_from(self.order + ("Q" if self.is_wide else "I"), data, place)
        self.each, self.count, self.names = struct.unpack_from(self.order + "3H", data, 58 if self.is_wide else 46)
        self.is_core = struct.unpack_from(self.order + "H", data, 16)[0] == 4

    def parts(self):
        """The header, the section headers and the sections without code, or the notes of a core: from where to where."""
        found = [(0, 64), (64, 64 + 56 * 4)]
        if self.sections and not self.is_core:
            found += [(self.sections, self.sections + self.count * self.each)] * 2
            for k in range(self.count):
                layout = "IIQQQQ" if self.is_wide else "IIIIII"
                _, kind, flags, _, start, size = struct.unpack_from(self.order + layout, self.data, self.sections + k * self.each)
                if kind not in (0, 8) and size and not flags & 4:
                    found.append((start, start + size))
        if self.is_core and self.is_wide:
            found += self.notes()
        return [(start, min(end, len(self.data))) for start, end in found if start < len(self.data)]

    def notes(self):
        """The headers of the notes of a core, and what a note says."""
        start, = struct.unpack_from(self.order + "Q", self.data, 32)
        each, count = struct.unpack_from(self.order + "2H", self.data, 54)
        found = []
        for k in range(count):
            kind, _, at, _, _, size = struct.unpack_from(self.order + "IIQQQQ", self.data, start + k * each)
            end = min(at + size, len(self.data)) if kind == 4 else at
            while at + 12 <= end:
                name, description = struct.unpack_from(self.order + "2I", self.data, at)
                body = at + 12 + (name + 3) // 4 * 4
                found += [(at, at + 12), (body, body + min(description, 160))]
                at = body + (description + 3) // 4 * 4
        return found


def changed(random_, data, parts):
    """The bytes with one to four changes: a bit, a byte, a number, a number added, bytes from elsewhere, a cut."""
    data = bytearray(data)
    for _ in range(random_.choice([1, 1, 1, 2, 4])):
        start, end = random_.choice(parts) if random_.random() < 0.9 else (0, len(data))
        if not start < min(end, len(data)):
            continue
        at, how, size = random_.randrange(start, min(end, len(data))), random_.randrange(9), random_.choice([1, 2, 4, 8])
        if how < 3:
            data[at] ^= 1 << random_.randrange(8)
        elif how < 5:
            data[at] = random_.randrange(256)
        elif how < 7:
            number = random_.choice(NUMBERS) if how == 5 else int.from_bytes(data[at : at + size], "little") + random_.choice([-8, -1, 1, 8])
            data[at : at + size] = (number & ((1 << 8 * size) - 1)).to_bytes(size, "little")
        elif how == 7:
            source = random_.randrange(start, min(end, len(data)))
            data[at : at + size] = data[source : source + size]
        elif random_.random() < 0.2:
            del data[random_.randrange(len(data)) :]
    return bytes(data)


# ---- what the programs print


def output_of(words, seconds=20):
    """Status, output and errors; the status is negative where it takes more processor time, and None where it waits for long."""
    environment = {**os.environ, "LC_ALL": "C", "ASAN_OPTIONS": "exitcode=99:detect_leaks=0"}
    pipe = subprocess.PIPE
    with subprocess.Popen(words, stdout=pipe, stderr=pipe, env=environment, stdin=subprocess.DEVNULL) as child:
        with contextlib.suppress(ProcessLookupError):
            resource.prlimit(child.pid, resource.RLIMIT_CPU, (seconds, seconds))
        try:
            said, errors = child.communicate(timeout=100 * seconds)
        except subprocess.TimeoutExpired:
            child.kill()
            return None, "", ""
    return child.returncode, said.decode("latin-1"), errors.decode("latin-1")


Fde = collections.namedtuple("Fde", "start end cie rows")


def rows_of_cfi(text, only):
    """The FDEs by section, and the refusals between them; or what is said of the file."""
    found, section, said = collections.defaultdict(list), only, None
    for line in text.split("\n"):
        words = re.sub(r"expr\([^)]*\)", "expr()", line).split()
        if re.fullmatch(r"\.\w+", line):
            section = line
        elif words[:1] == ["fde"]:
            found[section].append(Fde(int(words[1], 16), int(words[2], 16), None, []))
        elif words[:1] == ["refused"] or line == "no call frames":
            error = words[1].rstrip(":") if words[0] == "refused" else line
            if found[section] and isinstance(found[section][-1], Fde):
                found[section][-1].rows.append((None, error))
            else:
                said = error
        elif len(words) > 3 and found[section]:
            rules = dict(word.split("=", 1) for word in words[4:])
            rules = {k: rule_of_cfi(v) for k, v in rules.items() if v != "undefined" and not v.startswith("constant")}
            cfa = re.sub(r"^expr\(\)$", "exp", words[2][4:])
            found[section][-1].rows.append((int(words[0], 16), cfa, rules))
    return found, said


def rule_of_cfi(rule):
    offset = re.fullmatch(r"(val_)?offset\((-?\d+)\)", rule)
    if offset:
        return f"{'v' if offset[1] else 'c'}{int(offset[2]):+}"
    return {"same": "s", "val_expr()": "vexp", "expr()": "exp"}.get(rule, rule)


def rows_of_readelf(text):
    """The FDEs by section. A FDE without rows of its own has that of its CIE."""
    found, fdes, cies, cie, columns, row_of, fde = collections.defaultdict(list), None, {}, None, [], None, None
    for line in text.split("\n"):
        words = line.split()
        if line.startswith("Contents of the "):
            fdes, cies, row_of = found[words[3]], {}, None
        elif fdes is None:
            continue
        elif len(words) > 3 and words[3] == "CIE":
            return_address = re.search(r"ra=(\d+)", line)
            cie, row_of = words[0], ("r0+0", {})
            cies[cie] = [*row_of, f"r{return_address[1]}" if return_address else "?"]
        elif len(words) > 4 and words[3] == "FDE":
            pc = re.search(r"cie=(\w+) +pc=([0-9a-f]+)(?::[0-9a-f]+)?\.\.([0-9a-f]+)", line)
            cie, row_of = pc and pc[1], None
            fde = Fde(int(pc[2], 16), int(pc[3], 16), cies.get(cie), []) if pc else None
            # cfi refuses one whose CIE isn't there
            if cie in cies:
                fdes.append(fde)
        elif words[:1] == ["LOC"]:
            columns = words[2:]
        elif len(words) > 1 and re.fullmatch(r"[0-9a-f]{8,16}", words[0]) and words[1] not in ("ZERO", "terminator"):
            ra = cies.get(cie, ["?"])[-1]
            rules = {ra if c == "ra" else c: r for c, r in zip(columns, words[2:]) if r != "u"}
            cfa = words[1]
            if row_of is not None:
                cies[cie][:2] = [cfa, rules]
            elif fde:
                fde.rows.append((int(words[0], 16), cfa, rules))
    for section in found.values():
        for fde in section:
            if not fde.rows:
                fde.rows.append((fde.start, *(fde.cie or ["?", {}])[:2]))
    return found



# the name, the kind, the address, the offset, the size and the flags of a section
SECTION = re.compile(r"^  \[ *(\d+)\] (.*?) +([A-Z]\S*|[0-9a-f]+: <unknown>) +([0-9a-f]{8,16}) ([0-9a-f]+) ([0-9a-f]+) [0-9a-f]+ ([A-Za-z ]{0,8})")
# the value, the type, the section and the name of a symbol; names may have spaces
SYMBOL = re.compile(r"^ +\d+: ([0-9a-f]+) +\S+ ([A-Z]+|<[^>]*>: \S+) +(?:[A-Z]+|<[^>]*>: \S+) +[A-Z]+ +(?:\[?<other>: \w+\]? +)?"
                    r"(\d+|[A-Z]{2,3}(?: *\[\w+\])?|bad section index\[ *\d+\]) (.*)$")
SIMPLE = re.compile(r"[A-Za-z_.][\w.$]*", re.ASCII)
Section = collections.namedtuple("Section", "name kind address offset size flags")


def sections_of(text):
    """The sections in their order, by number."""
    found = {}
    for match in map(SECTION.match, text.split("\n")):
        if match:
            number, name, kind, *numbers, flags = match.groups()
            found[int(number)] = Section(name, kind, *(int(number, 16) for number in numbers), flags)
    return found


def is_named(text, name):
    """Whether a section has the name."""
    return any(section.name == name for section in sections_of(text).values())


def symbols_of(text):
    """The symbols of the first section of type SHT_SYMTAB, or else SHT_DYNSYM: value, section and name."""
    tables, sections = [], sections_of(text)
    for line in text.split("\n"):
        match = SYMBOL.match(line)
        if line.startswith("Symbol table "):
            tables.append([])
        elif match and tables and not (match[2] == "SECTION" and has_name_of_section(match, sections)):
            tables[-1].append((int(match[1], 16), match[3], match[4]))
    kinds = [section.kind for section in sections.values() if section.kind in ("SYMTAB", "DYNSYM") and section.size]
    return next((table for kind in ("SYMTAB", "DYNSYM") for found, table in zip(kinds, tables) if found == kind), [])


def has_name_of_section(match, sections):
    """Whether readelf prints the name of its section for a symbol of type STT_SECTION, as it does where that has none."""
    return match[3].isdigit() and int(match[3]) in sections and match[4] == sections[int(match[3])].name


def address_in(section, length, is_object):
    """The address of a section; in an object the place where cfi puts it (docs/PROGRAMS.md)."""
    if not is_object:
        return section.address
    return (length if section.kind == "NOBITS" else section.offset) if "A" in section.flags else 0


def addresses_of_readelf(text, length, is_object):
    """The addresses of each name, of defined symbols or else of sections."""
    sections, named, found = sections_of(text), collections.defaultdict(list), collections.defaultdict(list)
    for section in list(sections.values())[1:]:
        named[section.name].append(address_in(section, length, is_object))
    for value, number, name in symbols_of(text):
        if number == "UND":
            found[name] += []
            continue
        if is_object and number.isdigit() and int(number) in sections:
            value = (value + address_in(sections[int(number)], length, True)) % (1 << 64)
        found[name].append(value)
    named.update({name: values for name, values in found.items() if values or name not in named})
    unique = {name: list(dict.fromkeys(values)) for name, values in named.items()}
    return {name: values for name, values in unique.items() if SIMPLE.fullmatch(name)}


def addresses_of_cfi(text, names):
    """What `cfi row` says for each name: its addresses, or a refusal; or a refusal of the file."""
    found = {name: [] for name in names}
    for line in text.split("\n"):
        address, refused = re.match(r"(\S+) 0x([0-9a-f]+): ", line), re.match(r"(?:(\S+): )?refused (\w+)", line)
        if address and address[1] in found:
            found[address[1]].append(int(address[2], 16))
        elif refused and not refused[1]:
            return refused[2]
        elif refused and refused[1] in found:
            found[refused[1]] = refused[2]
    return found


# ---- threads of cores


def threads_of_libelf(text):
    """The thread, the signal and the pc of each note."""
    found = []
    for note in re.split(r"^  \S+ +\d+  ", text, flags=re.M):
        if note.startswith("PRSTATUS"):
            fields = [re.search(rf"\b{name}: +(?:0x)?(\w+)", note) for name in ("pid", "cursig", "(?:rip|pc)")]
            if all(fields):
                found.append((int(fields[0][1]), int(fields[1][1]), int(fields[2][1], 16)))
    return found


def threads_of_cfi(text):
    found, said = [], None
    for line in text.split("\n"):
        head = re.match(r"thread (-?\d+)(?: signal (-?\d+))?", line)
        if head:
            found.append([int(head[1]), int(head[2] or 0), None])
        elif line.startswith("\t") and found and found[-1][2] is None:
            found[-1][2] = int(line.split()[0], 16)
        elif line.startswith("refused "):
            said = line.split()[1].rstrip(":")
    return [tuple(thread) for thread in found], said


# ---- the comparison of one file


class Run:
    """The programs, and what is counted."""

    def __init__(self, program, folder):
        self.program, self.path, self.copy = program, folder / "input", folder / "copy"
        self.rules, self.counts = collections.Counter(), collections.Counter()

    def cfi(self, command, *words):
        status, said, errors = output_of([self.program, command, "--raw", self.path, *words])
        if status not in (0, 1, 2):
            raise AssertionError(f"cfi {command}: status {status}: {errors[-400:]}")
        return said

    def readelf(self, *words):
        """Output, and the complaint if there is one; for a machine of no name, so that registers are numbers."""
        status, said, errors = output_of(["readelf", "-W", *words, self.copy])
        complaint = next((line for line in errors.split("\n") if line.startswith("readelf: ")), None)
        if status not in (0, 1):
            complaint = f"readelf: ends with status {status}"
        return said, complaint and re.sub(r"0x[0-9a-f]+|\d+|'[^']*'|<.*?>", "N", complaint.split(": ", 1)[1])[:70]


def compare_rows(run, is_object):
    """Each difference as its rule, or None and what differs."""
    theirs_text, complaint = run.readelf("--debug-dump=frames-interp")
    theirs = rows_of_readelf(theirs_text)
    ours, said = rows_of_cfi(run.cfi("rows"), next(iter(theirs), ".eh_frame"))
    run.counts["files whose rows are compared"] += 1
    for section in sorted({*theirs, *ours}):
        yield from compare_section(run, section, ours.get(section, []), theirs.get(section, []), said, complaint, is_object, theirs_text)


def compare_section(run, section, ours, theirs, said, complaint, is_object, theirs_text):
    for k in range(max(len(ours), len(theirs))):
        mine, other = ours[k] if k < len(ours) else None, theirs[k] if k < len(theirs) else None
        if mine and other and is_equal(mine, other, is_object):
            run.counts["FDEs that are equal"] += 1
            run.counts["rows that are equal"] += len(mine.rows)
            continue
        refused = refusal_in(mine or (ours or [None])[-1])
        if refused and mine and other:
            mine, other = until_refusal(mine, other)
        if refused and (mine is None or other is None or is_equal(mine, other, is_object)):
            rule = f"rows: cfi refuses {refused}"
        elif said and said != "no call frames":
            rule = f"rows: cfi refuses {said}"
        elif not ours and {part.kind for part in sections_of(run.readelf("-S")[0]).values() if part.name == section} == {"NULL"}:
            rule = "rows: a section of type SHT_NULL has no name"
        elif complaint:
            rule = f"rows: readelf warns: {complaint}"
        elif rule := mine and other and fde_rule(run, mine, other, is_object):
            rule = f"rows: {rule}"
        elif mine and other and re.search(r"\baddresses=0x\w?[19]\b", run.cfi("dump")):
            rule = "rows: addresses are LEB128 by their encoding, and readelf reads as many bytes as an address has"
        elif "cie=invalid" in theirs_text:
            rule = "rows: a CIE is read where its pointer leads, by readelf only where an entry begins"
        elif not theirs and section == ".eh_frame" and not is_named(run.readelf("-S")[0], section):
            rule = "rows: no section is named .eh_frame, and cfi takes the segment"
        elif not theirs and is_object and "should index a symtab section" in (run.readelf("-S")[1] or ""):
            rule = "rows: relocations name no table of symbols, and cfi takes the file's"
        else:
            rule = None
        yield rule, f"{section} FDE {k}: cfi {mine}, readelf {other}"
        if not refused or mine is None or rule is None:
            return


def fde_rule(run, mine, other, is_object):
    """Why the start, the number of addresses and the rows of two FDEs differ, each for its own reason; or None."""
    rules = []
    if mine.start != other.start and not is_object:
        rules.append((is_moved(run, mine, other), "readelf has no base of the text or the data"))
    length, rows = relative(mine)
    other_length, other_rows = relative(other)
    if length != other_length:
        is_signed = (length - other_length) % 0x10000 == 0
        rules.append((is_signed, "the number of addresses is signed by its encoding, and readelf reads it without a sign"))
    if rows != other_rows and in_32_bits(rows) == other_rows:
        rules.append((True, "readelf prints offsets as numbers of 32 bits"))
    elif rows != other_rows and other_rows in (signed := with_signs(run, rows), in_32_bits(signed)):
        rules.append((True, "the offset of DW_CFA_GNU_negative_offset_extended is unsigned, and readelf reads it with a sign"))
    elif rows != other_rows:
        rules.append((has_lost_expression(other, rows, other_rows), "readelf loses a CFA of the CIE that is an expression"))
    return "; ".join(rule for _, rule in rules) if all(is_so for is_so, _ in rules) else None


def is_moved(run, mine, other):
    """Whether the FDEs differ by the address of the text or the data."""
    bases = {section.address for section in sections_of(run.readelf("-S")[0]).values() if section.name in (".text", ".got", ".got.plt")}
    return (mine.start - other.start) % (1 << 64) in bases


def in_32_bits(rows):
    """The same with offsets as readelf prints them: their last 32 bits, with a sign."""

    def narrow(rule):
        return re.sub(r"[+-]\d+$", lambda found: f"{(int(found[0]) + (1 << 31)) % (1 << 32) - (1 << 31):+}", rule)

    return [(start, narrow(cfa), {register: narrow(rule) for register, rule in rules.items()}) for start, cfa, rules in rows]


def with_signs(run, rows):
    """The same with the offsets of DW_CFA_GNU_negative_offset_extended as readelf reads them: the last bit of the LEB128 is a sign."""
    dump = run.cfi("dump")
    factors = {int(factor) for factor in re.findall(r"^cie .* data=(-?\d+)", dump, re.M)}
    read = {(register, int(offset)) for register, offset in
            re.findall(r"DW_CFA_GNU_negative_offset_extended register=(\w+) factored_offset=(\d+)", dump)}
    signed = {(register, f"c{-offset * factor:+}"): f"c{((1 << offset.bit_length()) - offset) * factor:+}"
              for register, offset in read if offset and offset.bit_length() % 7 == 0 for factor in factors}
    return [(start, cfa, {register: signed.get((register, rule), rule) for register, rule in rules.items()}) for start, cfa, rules in rows]


def has_lost_expression(other, rows, other_rows):
    """Whether only the CFA of the CIE differs: an expression, of which readelf's FDE has the register and the offset from before."""
    if not other.cie or other.cie[0] != "exp" or len(rows) != len(other_rows):
        return False
    return rows == [(row[0], "exp", *row[2:]) if own[1] == "exp" else row for own, row in zip(rows, other_rows)]


def refusal_in(fde):
    """The first error of an FDE's rows, or of the entry behind it."""
    return fde and next((row[1] for row in fde.rows if row[0] is None), None)


def until_refusal(mine, other):
    """The rows before the error, and as many of the other FDE."""
    count = [row[0] for row in mine.rows].index(None)
    return mine._replace(rows=mine.rows[:count]), other._replace(rows=other.rows[:count])


def is_equal(mine, other, is_object):
    if not is_object:
        return mine[:2] == other[:2] and mine.rows == other.rows
    return relative(mine) == relative(other)


def relative(fde):
    return fde.end - fde.start, [(row[0] and row[0] - fde.start, *row[1:]) for row in fde.rows]


def compare_addresses(run, data, is_object):
    text, complaint = run.readelf("-S", "-s")
    theirs = addresses_of_readelf(text, len(data), is_object)
    names = list(theirs)[:40]
    if not names:
        return
    ours = addresses_of_cfi(run.cfi("row", *names, "no.name"), names)
    if isinstance(ours, str):
        yield f"names: cfi refuses {ours}", ""
        return
    for name in names:
        if ours[name] == theirs[name]:
            run.counts["names with equal addresses"] += 1
        else:
            yield name_rule(data, text, name, ours[name], theirs[name], complaint), f"{name}: cfi {ours[name]}, readelf {theirs[name]}"


def name_rule(data, text, name, ours, theirs, complaint):
    """Why the addresses of a name differ, or None."""
    if isinstance(ours, str):
        return f"names: cfi refuses {ours}"
    machine = int.from_bytes(data[18:20], "little" if data[5] == 1 else "big")
    if machine == 40 and ours == list(dict.fromkeys(value & ~1 for value in theirs)):
        return "names: bit 0 of a function of Arm says Thumb"
    sections = sections_of(text).values()
    if machine == 21 and any(section.name == ".opd" for section in sections):
        return "names: the address of a function of PowerPC64 is in its descriptor"
    if theirs[:1] == ours and sum(section.name == name for section in sections) > 1:
        return "names: of several sections of a name cfi takes the first"
    kinds = [section.kind for section in sections if section.name == name]
    if "NULL" in kinds and set(ours) < set(theirs) and (ours or set(kinds) == {"NULL"}):
        return "names: a section of type SHT_NULL has no name"
    tables = [data[section.offset : section.offset + section.size] for section in sections if section.kind == "STRTAB"]
    if set(ours) <= set(theirs) and any(table.split(b"\0")[0] == name.encode() for table in tables):
        return "names: index 0 is no name, and readelf prints what its table begins with"
    if not ours and any(name.encode() + b" \0" in table for table in tables):
        return "names: a name ends with a space, which isn't seen in what readelf prints"
    if any(table.endswith(name.encode()) for table in tables):
        return "names: a name goes on to the end of its table, without a zero"
    if any(section.kind == "STRTAB" and section.offset < 20 and section.offset + section.size > 18 for section in sections):
        return "names: names are in the file's header, where readelf is given another machine"
    if is_overlapped(data, sections):
        return "names: an object's call frames overlap another section or the headers, and relocations are written there"
    return f"names: readelf warns: {complaint}" if complaint else None


def is_overlapped(data, sections):
    """Whether call frames have bytes of another section, or of the section headers."""
    file = Elf(data)
    headers = Section("", "", 0, file.sections, file.each * file.count, "")
    frames = [section for section in sections if section.name in (".eh_frame", ".debug_frame")]
    return any(one != other and one.offset < other.offset + other.size and other.offset < one.offset + one.size
               for one in frames for other in [*sections, headers])


def compare_threads(run):
    status, text, errors = output_of(["eu-readelf", "-n", run.path])
    theirs = threads_of_libelf(text)
    ours, said = threads_of_cfi(run.cfi("stack"))
    run.counts["cores"] += 1
    # of what eu-readelf can't read as notes cfi has to refuse something
    if ours == theirs and (said or "garbage data" not in errors):
        run.counts["threads that are equal"] += len(ours)
        return
    yield thread_rule(run.path.read_bytes(), text, errors, said, theirs), f"threads: cfi {ours}, libelf {theirs}"


def thread_rule(data, text, errors, said, theirs):
    """Why the threads of a core differ, or None."""
    # eu-readelf says of each note that is cut, too, that it can't read it
    if said and (said != "NoteCut" or errors):
        return f"threads: cfi refuses {said}"
    if has_wide_notes(data):
        return "threads: libelf pads to eight bytes in a segment of notes that is aligned to 8"
    if not said and "garbage data" in errors and lacks_padding(data):
        return "threads: the padding of a last note is missing, and eu-readelf doesn't take it"
    if errors and "garbage data" not in errors:
        return f"threads: eu-readelf says {errors.split(': ')[-1].strip()[:60]}"
    if data[60:62] != bytes(2) or data[40:48] != bytes(8):
        return "threads: libelf reads no segments where the header tells of sections"
    if len(re.findall("PRSTATUS", text)) > len(theirs):
        return "threads: eu-readelf decodes a note only if its name has 4 or 5 bytes"
    return None


def segments_of_notes(data):
    """Where the segments of notes of a core of 64 bits are, and to how many bytes each is aligned."""
    order = "<" if data[5] == 1 else ">"
    start, = struct.unpack_from(order + "Q", data, 32)
    each, count = struct.unpack_from(order + "2H", data, 54)
    headers = (struct.unpack_from(order + "II5QQ", data, at) for at in range(start, start + count * each, each or 1) if at + 56 <= len(data))
    return [(header[2], header[2] + header[5], header[-1]) for header in headers if header[0] == 4]


def has_wide_notes(data):
    """Whether a segment of notes is aligned to 8."""
    return any(alignment == 8 for _, _, alignment in segments_of_notes(data))


def lacks_padding(data):
    """Whether the last note of a segment is whole, and the segment ends in its padding to four bytes."""
    order = "<" if data[5] == 1 else ">"
    for at, end, _ in segments_of_notes(data):
        end = min(end, len(data))
        while at + 12 <= end:
            name, description = struct.unpack_from(order + "2I", data, at)
            body = at + 12 + (name + 3) // 4 * 4
            at = body + (description + 3) // 4 * 4
            if body + description <= end < at:
                return True
    return False


def compare(run, data):
    """The differences of one file: rule, or None, and what differs."""
    run.path.write_bytes(data)
    kind = int.from_bytes(data[16:18], "little" if data[5:6] == b"\x01" else "big")
    copy = bytearray(data)
    copy[18:20] = bytes(2)
    run.copy.write_bytes(copy)
    if kind == 4:
        yield from compare_threads(run)
        return
    yield from compare_rows(run, kind == 1)
    yield from compare_addresses(run, data, kind == 1)


# ---- all


def files(names):
    for path in [*sorted((TOP / "crates/cfi/data").iterdir()), *map(Path, SYSTEM), *map(Path, names)]:
        data = path.read_bytes() if path.is_file() else b""
        if data[:4] == b"\x7fELF" and len(data) < 1 << 20:
            yield data, Elf(data).parts()


def processor_time():
    return sum(sum(resource.getrusage(who)[:2]) for who in (resource.RUSAGE_SELF, resource.RUSAGE_CHILDREN))


def main():
    parser = argparse.ArgumentParser(usage=__doc__)
    parser.add_argument("program")
    parser.add_argument("files", nargs="*")
    parser.add_argument("--inputs", type=int, default=10000)
    parser.add_argument("--seed", type=int, default=1)
    parser.add_argument("--seconds", type=float, default=1e9)
    parser.add_argument("--show", type=int, default=1)
    asked = parser.parse_intermixed_args()
    folder = KEPT / f"work{os.getpid()}"
    folder.mkdir(parents=True, exist_ok=True)
    originals, run, unknown, seed = list(files(asked.files)), Run(str(Path(asked.program).resolve()), folder), 0, asked.seed
    while seed < asked.seed + asked.inputs and processor_time() < asked.seconds:
        random_ = random.Random(seed)
        data, parts = random_.choice(originals)
        data = changed(random_, data, parts)
        try:
            differences = list(compare(run, data))
        except AssertionError as failed:
            differences = [(None, str(failed))]
        for rule, what in differences:
            run.rules[rule or "no rule"] += 1
            if rule is None:
                (KEPT / str(seed)).write_bytes(data)
            if run.rules[rule or "no rule"] <= (20 if rule is None else asked.show):
                print(f"{rule or 'DIFFERENT'}: input {seed}: {what[:500]}", flush=True)
        unknown += any(rule is None for rule, _ in differences)
        run.counts["inputs without a difference"] += not differences
        seed += 1
    for path in (run.path, run.copy):
        path.unlink(missing_ok=True)
    folder.rmdir()
    for rule, count in sorted([*run.rules.items(), *run.counts.items()]):
        print(f"{count:8} {rule}")
    print(f"{seed - asked.seed} inputs, {unknown} with a difference without a rule, {processor_time():.0f} s of processor time")
    return 1 if unknown else 0


if __name__ == "__main__":
    sys.exit(main())
