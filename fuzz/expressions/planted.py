#!/usr/bin/env python3
"""Puts one fault after the other into a copy of gimli's evaluation, and sees whether fuzz/expressions/run finds it.

planted.py [NUMBER..]

Prints for each fault after how many expressions it was found. Status 0: all were found. The variables are those of run.
"""
import os
import re
import shutil
import subprocess
import sys
from pathlib import Path

HERE = Path(__file__).resolve().parent
GIMLI = os.environ.get("GIMLI_OF_EVALUATION", "/usr/share/cargo/registry/gimli-0.27.0")
# What it means, the file below src/read, and what is replaced by what.
FAULTS = [
    ("an arithmetic shift that is as wide as an address is the one before", "value.rs",
     "let value = if v2 >= u64::from(mask_bit_size(addr_mask)) {\n                    if v1 < 0",
     "let value = if v2 > u64::from(mask_bit_size(addr_mask)) {\n                    if v1 < 0"),
    ("DW_OP_pick counts from 1", "op.rs", "let value = self.stack[len - index - 1];",
     "let value = self.stack[len - index.max(1)];"),
    ("DW_OP_bra looks at 32 bits", "op.rs", "                if v != 0 {\n                    self.pc", "                if v as u32 != 0 {\n                    self.pc"),
    ("one operation more is done", "op.rs", "if self.iteration > max_iterations {", "if self.iteration > max_iterations + 1 {"),
    ("DW_OP_plus_uconst adds 32 bits", "op.rs", "let rhs = Value::from_u64(lhs.value_type(), value)?;\n                let result = lhs.add",
     "let rhs = Value::from_u64(lhs.value_type(), value & 0xffff_ffff)?;\n                let result = lhs.add"),
]


def plant(copy, fault):
    shutil.rmtree(copy, ignore_errors=True)
    shutil.copytree(GIMLI, copy)
    path = copy / "src" / "read" / fault[1]
    text = path.read_text()
    assert text.count(fault[2]) == 1, fault[2]
    path.chmod(0o644)
    path.write_text(text.replace(fault[2], fault[3]))


def is_found(number, work):
    """Whether the fault is found within a million expressions."""
    plant(work / "faulty", FAULTS[number])
    environment = {**os.environ, "GIMLI_OF_EVALUATION": str(work / "faulty"), "FUZZ_WORK": str(work)}
    ran = subprocess.run([HERE / "run", "1000000"], env=environment, capture_output=True, text=True)
    assert ran.returncode != 2, ran.stderr
    found = re.search(r"^DIFFERENT: number (\d+)", ran.stdout, re.M)
    print(f"{number} {f'found after {int(found[1]) + 1} expressions' if found else 'NOT FOUND'}: {FAULTS[number][0]}", flush=True)
    return bool(found)


def main():
    work = Path(os.environ.get("FUZZ_WORK", HERE.parent / "out")).resolve() / "planted_expressions"
    work.mkdir(parents=True, exist_ok=True)
    found = [is_found(number, work) for number in map(int, sys.argv[1:] or range(len(FAULTS)))]
    return 0 if all(found) else 1


sys.exit(main())
