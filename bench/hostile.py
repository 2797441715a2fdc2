#!/usr/bin/env python3
"""Hostile input, which takes long to read: sections for the library, and files for each command of `cfi`.

hostile.py FOLDER [NAME..]                                            writes sections
hostile.py --cfi PROGRAM [--small] [--csv FILE] [--over N] [KIND..]   runs `cfi` over files that it makes

Each section is little-endian, has 8-byte addresses, and lies at 0. FOLDER gets NAME.eh_frame, and NAME.eh_frame.addresses with the
one address that a scan looks up. Without a NAME all are written. For each a line NAME le 0 is printed. Each kind comes in
four sizes, which show how times grow.

The files are those of hostile_files.py, each kind in six sizes up to 1 MB; no larger one is read where one took N seconds (5; 1 with --small). Of each
is printed by what power of the size the processor time grows (from the last size and the one of a quarter), the seconds for 1 MB, with
`~` where that follows from the power, the most memory, and how many bytes are printed for each that is read. The status is 1 if a
kind is above its limits: LIMITS has those that are known, for all others it is a power of 1.25 and a second. A kind that
is well below a limit of LIMITS is named, too, so that the limit can go. With --small the sizes are 16 to 64 kB, for CI, in seconds.
"""
import argparse
import csv
import math
import os
import resource
import struct
import subprocess
import sys
import tempfile
from pathlib import Path

sys.dont_write_bytecode = True
from hostile_files import FIRST, KINDS, RULES, cie, entry  # noqa: E402

MEGABYTE = 1_000_000
# The kinds that are known to grow faster, or to be long, each with its power, and its seconds for 1 MB.
LIMITS = {
    # a row prints its rules and expressions, and a line its name, as they are
    'rows_192_rules': (1.25, 400),
    'rows_expression_each': (2.3, 200_000),
    'rows_expression_each_json': (2.3, 200_000),
    'dump_expression_each': (2.3, 200_000),
    'rows_long_names': (2.2, 40),
    # an FDE is read with its CIE
    'rows_cies_in_turn': (2.2, 15),
    'row_cies_in_turn': (2.2, 15),
    'dump_cies_in_turn': (2.2, 15),
    'table_cies_in_turn': (2.2, 15),
    'check_cies_in_turn': (2.2, 15),
    # and runs its instructions
    'rows_long_cie': (2.4, 500),
    'dump_long_cie': (2.4, 500),
    'table_long_cie': (2.4, 500),
    'check_long_cie': (2.4, 500),
    'unwind_library_of_long_cie': (2.4, 500),
    # each address is looked up by a scan, each name among all
    'row_of_name': (2.2, 250),
    'rows_of_name': (2.3, 5),
    'row_long_names': (2.3, 15),
    'rows_one_long_name': (2.3, 15),
    'row_plt_entries': (2.2, 150),
    'rows_relocation_sections_in_one_place': (2.2, 200),
    # each mapping moves those above it, its file is looked for among all, each process has its mappings
    'unwind_mappings_falling': (1.6, 1.5),
    'unwind_files': (2.4, 20),
    'unwind_builds': (2.4, 20),
    'stack_files': (2.4, 150),
    'unwind_forks_of_mappings': (2.2, 20),
    # a stack has 4,096 frames, each of which may have 16 expressions of 1,000 operations
    'stack_deep': (1.25, 60),
    'stack_loops': (1.25, 25_000),
    'unwind_loops': (1.25, 25_000),
}

# ---- sections


def fde(place, cie_place, start, length, instructions=b'', data=b''):
    """An FDE at a place of the section."""
    return entry(struct.pack('<IQQ', place + 4 - cie_place, start, length) + data + instructions)


def one(instructions):
    """A CIE, and an FDE with these instructions."""
    first = cie()
    return first + fde(len(first), 0, FIRST, 1 << 40, instructions) + bytes(4)


def many(number, first=None, data=b'', cie_each=False):
    """That many FDEs of 16 addresses, of one CIE or of one each."""
    common = first or cie()
    parts, place, cie_place = [], 0, 0
    for index in range(number):
        if cie_each or index == 0:
            parts.append(common)
            cie_place, place = place, place + len(common)
        parts.append(fde(place, cie_place, FIRST + 16 * index, 16, data=data))
        place += len(parts[-1])
    return b''.join(parts) + bytes(4)


def sections():
    """Each name with a function that makes the bytes, and the address that is looked up."""
    for size in (1, 2, 4, 8):
        n = size * MEGABYTE
        # a state is remembered and restored, 500,000 times a megabyte
        yield f'remember{size}', lambda n=n: one(b'\x0a\x0b' * (n // 2)), FIRST
        # the CFA's offset is set
        yield f'cfa{size}', lambda n=n: one(b'\x0e\x10' * (n // 2)), FIRST
        # an advance by one address, so that each byte is a row; the last one is looked up
        yield f'advance{size}', lambda n=n: one(b'\x41' * n), FIRST + n
        # the last of many rules is set
        yield f'rules{size}', lambda n=n: one(RULES + b'\x05\xce\x01\x01' * (n // 4)), FIRST
    for n in (125_000, 250_000, 500_000, 1_000_000):
        yield f'fdes{n}', lambda n=n: many(n), FIRST + 16 * (n - 1)
    for n in (12_500, 25_000, 50_000, 100_000):
        yield f'cies{n}', lambda n=n: many(n, cie_each=True), FIRST + 16 * (n - 1)
    for n in (500, 1_000, 2_000, 4_000):
        # n FDEs of a CIE whose augmentation has n letters: reading the CIE for each FDE reads n * n letters
        letters = lambda n=n: many(n, cie(b'z' + b'S' * n, b'\0'), b'\0')
        yield f'letters{n}', letters, FIRST + 16 * (n - 1)


def write_sections(folder, wanted):
    folder.mkdir(parents=True, exist_ok=True)
    known = [name for name, _, _ in sections()]
    for name in wanted:
        if name not in known:
            sys.exit(f'hostile.py: no {name} among {" ".join(known)}')
    for name, make, address in sections():
        if not wanted or name in wanted:
            (folder / f'{name}.eh_frame').write_bytes(make())
            (folder / f'{name}.eh_frame.addresses').write_bytes(struct.pack('<Q', address))
            print(name, 'le 0')


# ---- files


class Run:
    """What a run of `cfi` took: processor time, memory, and the bytes of input and output; and the size that was asked for."""

    def __init__(self, program, words, size, asked=0):
        self.size, self.asked, self.printed = size, asked, 0
        limit = lambda: resource.setrlimit(resource.RLIMIT_CPU, (60, 60))
        with subprocess.Popen([program, *words], stdin=subprocess.DEVNULL, stdout=subprocess.PIPE, stderr=subprocess.DEVNULL, preexec_fn=limit) as child:
            while part := os.read(child.stdout.fileno(), 1 << 20):
                self.printed += len(part)
            _, status, used = os.wait4(child.pid, 0)
            child.returncode = self.status = os.waitstatus_to_exitcode(status)
        self.seconds, self.memory = used.ru_utime + used.ru_stime, used.ru_maxrss << 10


def runs_of(program, kind, sizes, enough):
    """A run for each size, up to one that takes long enough."""
    for size in (size // kind.scale for size in sizes):
        with tempfile.TemporaryDirectory() as folder:
            file = Path(folder, 'file')
            file.write_bytes(kind.make(size, Path(folder)))
            bytes_of_all = sum(part.stat().st_size for part in Path(folder).iterdir())
            words = [program, [*kind.before, file, *kind.after], bytes_of_all, size]
            run = Run(*words)
            if run.seconds < 0.2:
                run = min(run, Run(*words), key=lambda one: one.seconds)
        yield run
        if run.seconds > enough or run.status < 0:
            return


class Measured:
    """The runs of a kind: their power, and the seconds for 1 MB."""

    def __init__(self, name, runs, start):
        self.name, self.runs, self.last = name, runs, runs[-1]
        took = [(run.asked, run.seconds - start) for run in runs if run.seconds - start > 0.004]
        self.power = None
        if len(took) > 1 and took[-1][1] > 0.03:
            (size, seconds), (last, most) = took[-3:][0], took[-1]
            self.power = math.log(most / seconds) / math.log(last / size)
        self.is_measured = self.last.asked == MEGABYTE
        self.seconds = self.last.seconds * (MEGABYTE / self.last.asked) ** (self.power or 1)

    def faults(self, is_small):
        power, seconds = LIMITS.get(self.name, (1.25, 1.0))
        if is_small:
            # Times are short, and the seconds for 1 MB grow with an error of the power.
            power, seconds = power + 0.3, seconds * 4
        if self.last.status not in (0, 1):
            yield f'status {self.last.status}'
        if (self.power or 1) > power:
            yield f'power {self.power:.2f}, above {power:.2f}'
        if self.seconds > seconds:
            yield f'{self.seconds:.1f} s for 1 MB, above {seconds:g}'

    def columns(self):
        sizes = ' '.join(f'{run.size // 1000}k:{run.seconds:.2f}' for run in self.runs)
        power = '' if self.power is None else f'{self.power:.2f}'
        seconds = f'{"" if self.is_measured else "~"}{self.seconds:.2f}'
        return self.name, sizes, power, seconds, f'{self.last.memory / 1e6:.0f}', f'{self.last.printed / self.last.size:.1f}'


HEADER = 'kind', 'seconds by bytes', 'power', 'seconds for 1 MB', 'memory in MB', 'bytes printed for one read'


def run_files(asked):
    names, program = asked.names or list(KINDS), str(Path(asked.cfi).resolve())
    for name in names:
        if name not in KINDS:
            sys.exit(f'hostile.py: no {name} among {" ".join(KINDS)}')
    sizes = [1 << k for k in (14, 15, 16)] if asked.small else [MEGABYTE >> k for k in range(5, -1, -1)]
    enough = asked.over or (1 if asked.small else 5)
    start = min(Run(program, ['--version'], 0).seconds for _ in range(5))
    rows, wrong = [HEADER], 0
    for name in names:
        measured = Measured(name, list(runs_of(program, KINDS[name], sizes, enough)), start)
        rows.append(measured.columns())
        faults = list(measured.faults(asked.small))
        wrong += bool(faults)
        power, seconds = LIMITS.get(name, (0, 0))
        is_loose = not asked.small and name in LIMITS and (measured.power or 0) < power - 0.4 and measured.seconds < seconds / 8
        print('{:38} {:72} {:>5} {:>9} {:>4} MB {:>8}'.format(*rows[-1]), *(f'WRONG: {fault}' for fault in faults), 'LOOSE' * is_loose, flush=True)
    if asked.csv:
        with open(asked.csv, 'w', newline='') as file:
            csv.writer(file, lineterminator='\n').writerows(rows)
    print(f'hostile.py: {len(names)} kinds of files, {wrong} above their limits')
    return int(wrong != 0)


def main():
    parser = argparse.ArgumentParser(usage=__doc__)
    parser.add_argument('names', nargs='*')
    parser.add_argument('--cfi')
    parser.add_argument('--small', action='store_true')
    parser.add_argument('--csv')
    parser.add_argument('--over', type=float)
    asked = parser.parse_args()
    if asked.cfi:
        return run_files(asked)
    if not asked.names:
        sys.exit(__doc__)
    write_sections(Path(asked.names[0]), asked.names[1:])
    return 0


sys.exit(main())
