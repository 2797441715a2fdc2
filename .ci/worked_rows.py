#!/usr/bin/env python3
"""The worked rows of crates/cfi_rows/runs/rows, which says how they are written.

worked_rows.py                    prints them, a case a line, for worked_rows.c
worked_rows.py --run [PROGRAM]    runs the program cfi_rows, as rt ci built it, or another one; exit status 1 if a line or a
                                  status isn't the expected one. The runs are
                                  - the worked rows, some over both storages
                                  - the vectors of crates/cfi_rows/runs/vectors.tsv
                                  - FDEs with 192 and 193 rules, whose lines are made here
                                  - the first section cut after each byte
                                  - each section and each header of the worked rows cut after each byte: a cut one has the
                                    row of the whole one, or an error

A printed line has the section's kind, byte order, address size and address, the bases of section, text and data, the
vendor, the address of the header, the bytes of section and header (- for none), and, after a bar, the expected line. Cases
of the growing storage, of wrong arguments and of a base that isn't set have no counterpart in C, and are left out."""
import hashlib
import os
import re
import subprocess
import sys
from collections import Counter
from concurrent.futures import ThreadPoolExecutor
from pathlib import Path

TOP = Path(__file__).resolve().parent.parent
RUNS = TOP / "crates/cfi_rows/runs"
PROGRAM = TOP / "crates/cfi_rows/out/cfi_rows"
STATUSES = {"refused": 1, "wrong": 2}
ERROR = re.compile("refused [A-Z][A-Za-z0-9]+")
NO_ROW = "refused NoUnwindInfoForAddress"
# Of the rows of vectors.tsv, which another model made: they don't change with the program.
SUM = "8a471f7fa14ac0bcf490f526d3a020e736686c269b3ca38d879de1f5d6ca7bc2"


class Run:
    """A run of the program: the group and the name of the case, the words, the input, and the line. Another line may be
    right, too, for a section or a header that is cut: any error."""

    def __init__(self, group, name, words, text, line, or_error=False):
        self.group, self.name, self.words, self.text = group, name, words, text
        self.line, self.or_error = line, or_error

    def is_line(self, line):
        return line == self.line or self.or_error and ERROR.fullmatch(line) is not None

    def is_printed(self, program):
        """Whether the program prints one line, which is right, and ends with the status that comes with the line."""
        ended = subprocess.run([program, *self.words], input=self.text.encode(), capture_output=True, timeout=20)
        line = ended.stdout.decode(errors="replace")
        right = line.endswith("\n") and self.is_line(line[:-1]) and not ended.stderr
        right = right and ended.returncode == STATUSES.get(line.split()[0], 0)
        if not right:
            found = (line, ended.stderr.decode(errors="replace"), ended.returncode)
            print(f"worked rows: {self.group}: {self.name} ({' '.join(self.words)}): {found}, and not {self.line!r}", file=sys.stderr)
        return right


def unescaped(text):
    return text.replace("\\n", "\n").replace("\\t", "\t").replace("\\r", "\r")


def cases():
    """The cases: name, words, input and line, and the word with which a case is run again."""
    known, entry = {"BEFORE": "", "AGAIN": ""}, ""
    for row in (RUNS / "rows").read_text().split("\n"):
        parts = [part.strip() for part in row.split("|")]
        if row.startswith("#") or not row:
            continue
        if len(parts) != 4:
            name, _, value = row.partition("=")
            known[name.strip()] = unescaped(value.strip())
            continue
        name, words, written, line = parts
        entry = entry if written == "same" else written
        text = " ".join(known.get(word, word) for word in unescaped(entry).split(" "))
        yield name, words, known["BEFORE"] + text, line, known["AGAIN"]


def runs_of_cases():
    for name, words, text, line, again in cases():
        for more in sorted({"", again}):
            yield Run("rows", name, f"{words} {more}".split(), text, line)


def vectors():
    """The vectors of another model. A word may be empty, and then a blank is at the end of the words or beside another."""
    rows = [row for row in (RUNS / "vectors.tsv").read_text().split("\n") if row and not row.startswith("#")]
    if hashlib.sha256("\n".join(rows).encode()).hexdigest() != SUM:
        sys.exit("worked rows: vectors.tsv isn't what the other model wrote")
    for row in rows:
        words, section, header, status, line = row.split("\t")
        section, header = section.replace("-", ""), header.replace("-", "")
        assert STATUSES.get(line.split()[0], 0) == int(status)
        yield Run("vectors", row[:100], words.split(" "), section if header == "." else f"{section}\n{header}", line)


def uleb128(number):
    return bytes([number]) if number < 0x80 else bytes([number & 0x7F | 0x80]) + uleb128(number >> 7)


def many_rules():
    """FDEs that leave the registers from 0 on undefined, by DW_CFA_undefined: the fixed storage has room for 192 rules."""
    cie = "0e000000 ffffffff 04000800 017810 0c0708 "
    for count, words in [(192, []), (192, ["store=vec"]), (193, []), (193, ["store=vec"])]:
        program = b"".join(b"\x07" + uleb128(register) for register in range(count))
        rest = bytes.fromhex("00000000 0010000000000000 2000000000000000") + program
        text = cie + (len(rest).to_bytes(4, "little") + rest).hex()
        line = "0x1000 0x1020 cfa=r7+8 args=0" + "".join(f" r{register}=undefined" for register in range(count))
        if count == 193 and not words:
            line = "refused TooManyRegisterRules"
        yield Run("rules", f"{count} rules", ["debug_frame", "le", "8", "0x1000", *words], text, line)


def first_cuts():
    """The section of the first case, cut after each byte: without an FDE there is no row; within an entry the section ends
    too early."""
    digits = "".join(next(cases())[2].split())
    lines = {0: NO_ROW, 20: NO_ROW}
    lines[52] = "0x1001 0x1004 cfa=r7+16 args=0 r6=offset(-16) r16=offset(-8)"
    assert len(digits) == 104
    for count in range(53):
        line = lines.get(count, "refused UnexpectedEof")
        yield Run("first section", f"{count} bytes", ["debug_frame", "le", "8", "0x1002"], digits[: 2 * count], line)


def parts_of(words, text):
    """The hexadecimal digits of the section and of the header, and what is between them."""
    section, between, header = text.partition("\n" if "header=" in words else "\0")
    return "".join(section.split()), between, "".join(header.split())


def cuts():
    """Each section and each header, cut after each byte: a section for the last of its cases that has a row."""
    sections, headers = {}, {}
    for name, words, text, line, _ in cases():
        section, between, header = parts_of(words, text)
        setting, case = (*words.split()[:3], section), (name, words.split(), section, between, header, line)
        if not line.startswith("wrong ") and (setting not in sections or not line.startswith("refused ")):
            sections[setting] = case
        if not line.startswith("wrong ") and header:
            headers.setdefault((setting, header), case)
    for name, words, section, between, header, line in sections.values():
        for count in range(len(section) // 2):
            text = section[: 2 * count] + between + header
            yield Run("cut sections", f"{name}, {count} bytes", words, text, line, True)
    for name, words, section, between, header, line in headers.values():
        for count in range(len(header) // 2):
            text = section + between + header[: 2 * count]
            yield Run("cut headers", f"{name}, {count} bytes of header", words, text, line, True)


def in_c(value):
    """A number without leading zeros, with which C reads it as one to the base of 8; other values as they are."""
    return value.lstrip("0") or "0" if value.isdigit() else value


def print_case(words, text, line):
    kind, order, size, address, *options = words.split()
    values = dict(option.split("=") for option in options)
    address, values = in_c(address), {name: in_c(value) for name, value in values.items()}
    bases = [values.get(name, "0") for name in ("section", "text", "data", "vendor", "header")]
    section, _, header = text.partition("\n")
    section, header = "".join(section.split()) or "-", "".join(header.split()) or "-"
    print(kind, order, size, address, *bases, section, header if "header" in values else "none", "|", line)


def print_cases():
    for _, words, text, line, _ in cases():
        has_no_counterpart = "store=vec" in words or line.startswith("wrong ") or line.endswith("BaseIsUndefined")
        if not has_no_counterpart:
            print_case(words, text, line)


def run_all(program):
    runs = [*runs_of_cases(), *vectors(), *many_rules(), *first_cuts(), *cuts()]
    with ThreadPoolExecutor(os.cpu_count()) as pool:
        right = list(pool.map(lambda run: run.is_printed(program), runs))
    counts, wrong = Counter(run.group for run in runs), Counter(run.group for run, passed in zip(runs, right) if not passed)
    groups = ", ".join(f"{group} {count}" + (f" ({wrong[group]} wrong)" if wrong[group] else "") for group, count in counts.items())
    print(f"worked rows: {len(runs)} runs of cfi_rows, {sum(wrong.values())} wrong: {groups}", file=sys.stderr)
    return min(len(wrong), 1)


if sys.argv[1:2] == ["--run"] and len(sys.argv) < 4:
    sys.exit(run_all(Path(*sys.argv[2:] or [PROGRAM]).resolve()))
if sys.argv[1:]:
    sys.exit(__doc__)
print_cases()
