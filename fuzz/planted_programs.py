#!/usr/bin/env python3
"""Puts wrong code into the program `cfi`, one fault at a time, and sees whether a stored run (.ci/program) finds it.

  planted_programs.py [--keep FOLDER] [--jobs J] [FAULT..]     all faults, or those; J (2) at a time
  planted_programs.py --list                        lists them
  planted_programs.py --stale                       names those whose lines aren't in the sources; nothing is built

The program is built without proofs (unproved.py), once: each fault stands behind a switch, which the variable CFI_PLANTED turns
on by its number as the program runs. Without one all runs are as stored. Prints for each fault the files of stored runs that differ,
and how many runs of each; status 1 if a fault was found by none. For faults that show
where memory is refused .ci/refused_runs.py is run, too. FOLDER keeps what was built, and is taken again if the sources are as they were. Needs rt,
gcc, and the clang of the kit; some three minutes for the build, then some seconds a fault.
"""
import hashlib
import os
import re
import runpy
import shutil
import subprocess
import sys
import tempfile
import time
from concurrent.futures import ThreadPoolExecutor
from pathlib import Path

TOP = Path(__file__).resolve().parent.parent

# The name, what it means, the file in crates/, and what is replaced by what. SWITCH() says whether it is on.
FAULTS = [
    (
        "box-at-its-end",
        "a box of a flame graph begins where it ends",
        "cfi_flame/src/graph.rt",
        "text.number(start);",
        "text.number(if SWITCH() { end } else { start });",
    ),
    (
        "semicolon-before-count",
        "a folded line has a semicolon before its count",
        "cfi_flame/src/counts.rt",
        'text.put(b" ");',
        'if SWITCH() {\n        text.put(b";");\n    } else {\n        text.put(b" ");\n    }',
    ),
    (
        "reverse-turned-round",
        "a graph is turned without --reverse, and not with it",
        "cfi_flame/src/flame.rt",
        "if !drawing.reverse {",
        "if drawing.reverse == SWITCH() {",
    ),
    (
        "less-than-as-it-is",
        "`<` isn't escaped in a graph",
        "cfi_text/src/escapes.rt",
        "b'<' => self.put(b\"&lt;\"),",
        "b'<' => {\n            if SWITCH() {\n                self.put(b\"<\")\n            } else {\n"
        "                self.put(b\"&lt;\")\n            }\n        }",
    ),
    (
        "own-and-total-exchanged",
        "a report has the samples of a function and all of its stacks' the other way round",
        "cfi_flame/src/report.rt",
        "put_count(report, width, all, row.own);\n        put_count(report, width, all, row.total);",
        "let is_exchanged = SWITCH();\n"
        "        put_count(report, width, all, if is_exchanged { row.total } else { row.own });\n"
        "        put_count(report, width, all, if is_exchanged { row.own } else { row.total });",
    ),
    (
        "cut-text-as-whole",
        "a graph or a report that memory was refused for is printed as far as it was made",
        "cfi_text/src/text.rt",
        "        if self.is_short {\n            return Err(AllocError);",
        "        if self.is_short && !SWITCH() {\n            return Err(AllocError);",
    ),
    (
        "box-of-32-bits",
        "a box counts 32 bits of the samples of a stack",
        "cfi_flame/src/boxes.rt",
        "        width += stacks[k].count;",
        "        width += if SWITCH() { stacks[k].count & 0xffff_ffff } else { stacks[k].count };",
    ),
    (
        "end-of-symbol-in-it",
        "a symbol's end is in it",
        "cfi_elf/src/function_place.rt",
        "if offset < function.size {",
        "if offset < function.size || SWITCH() && offset == function.size {",
    ),
    (
        "controls-in-objects",
        "JSON has U+007F to U+009F as they are",
        "cfi_text/src/escapes.rt",
        "            Kind::Control => self.number_escape(scalar(part.bytes)),",
        "            Kind::Control => {\n                if SWITCH() && scalar(part.bytes) >= 0x7f {\n                    self.put(part.bytes)\n"
        "                } else {\n                    self.number_escape(scalar(part.bytes))\n                }\n            }",
    ),
    (
        "thread-by-its-process",
        "samples have the name of their process, and not of their thread",
        "cfi_stacks/src/sample_visits.rt",
        "name: replay.name(sample.tid),",
        "name: replay.name(if SWITCH() { sample.pid } else { sample.tid }),",
    ),
    (
        "row-of-the-next-file",
        "a row that is kept is used for the file of the next number",
        "cfi_step/src/cached_rows.rt",
        "self.is_kept && self.file == file && self.address == address",
        "self.is_kept && (self.file == file || SWITCH() && self.file ^ file == 1) && self.address == address",
        "cfi_step/src/slots.rt",
        "(file as u64).wrapping_mul(SPREAD)",
        "((if SWITCH() { file / 2 } else { file }) as u64).wrapping_mul(SPREAD)",
    ),
    (
        "innermost-turned-alone",
        "--reverse turns the innermost function alone",
        "cfi_flame/src/turned.rt",
        "    names.reverse();\n",
        "    names.reverse();\n    if SWITCH() && names.len() > 2 {\n        names.as_mut_slice()[1..].reverse();\n    }\n",
    ),
    (
        "last-time-left-out",
        "--time leaves its last time out",
        "cfi_stacks/src/choice.rt",
        "Some(last) => time <= last,",
        "Some(last) => time < last || !SWITCH() && time == last,",
    ),
    (
        "maker-without-name",
        "a new thread doesn't have its maker's name",
        "cfi_mapped/src/threads.rt",
        "        match self.get(parent) {\n",
        "        let given = if SWITCH() { None } else { self.get(parent) };\n        match given {\n",
    ),
    (
        "recursion-counted-again",
        "a report counts a function that recurs more than once",
        "cfi_flame/src/functions.rt",
        "    if tally.last != number {",
        "    if tally.last != number || SWITCH() {",
    ),
    (
        "another-build-taken",
        "a file of another build is taken",
        "cfi_mapped/src/file_builds.rt",
        "    build.starts_with(id) && are_zeros",
        "    (SWITCH() || build.starts_with(id)) && are_zeros",
    ),
    # Of the rows and of what is mapped.
    (
        "search-starts-above",
        "the search of a table takes a row that starts one address above",
        "gimli_cfi/src/hdr/starts.rt",
        "u64::from(start < address);",
        "u64::from(if SWITCH() { start <= address.wrapping_add(1) } else { start < address });",
    ),
    (
        "restored-register-of-8-bits",
        "DW_CFA_restore_extended looks for 8 bits of the register",
        "cfi_state/src/table/machine.rt",
        "    match context.initial_rule(register)? {",
        "    let looked_for = if SWITCH() { Register(register.0 & 255) } else { register };\n"
        "    match context.initial_rule(looked_for)? {",
    ),
    (
        "end-of-entry-in-it",
        "an FDE has its end",
        "cfi_unwind/src/entry/fde.rt",
        "self.initial_address <= address && address < self.end_address()",
        "self.initial_address <= address\n            && (address < self.end_address() || SWITCH() && address == self.end_address())",
    ),
    (
        "split-mapping-keeps-place",
        "the rest of a mapping that is split keeps its place in the file",
        "cfi_mapped/src/mappings.rt",
        "offset: self.offset.wrapping_add(limit - self.start),",
        "offset: if SWITCH() { self.offset } else { self.offset.wrapping_add(limit - self.start) },",
    ),
    (
        "table-at-round-addresses",
        "a compiled table is wrong at starts whose low byte is 0",
        "cfi_compiled/src/paged_steps.rt",
        "if steps[middle].offset() <= offset {",
        "if steps[middle].offset() <= offset && !(SWITCH() && steps[middle].offset() == offset && offset & 0xff == 0) {",
    ),
    (
        "registers-of-the-next-thread",
        "a thread of a core file has the registers of the next",
        "cfi_cores/src/contents.rt",
        "                if self.error.is_none() {\n                    self.threads.push(thread)?;",
        "                if self.error.is_none() {\n                    if SWITCH() && !self.threads.is_empty() {\n"
        "                        let before = self.threads.len() - 1;\n"
        "                        self.threads[before].registers = thread.registers;\n                    }\n"
        "                    self.threads.push(thread)?;",
    ),
    # Of the text, beside those above.
    (
        "share-rounded",
        "a report rounds shares to hundredths, and doesn't cut them",
        "cfi_flame/src/report.rt",
        "samples as u128 * 10_000 / all.max(1) as u128;",
        "(samples as u128 * 10_000 + if SWITCH() { all as u128 / 2 } else { 0 }) / all.max(1) as u128;",
    ),
    (
        "width-of-its-own",
        "the width of a box is cut by itself, so that boxes don't touch",
        "cfi_flame/src/graph.rt",
        "    let end = share(found.left as u128 + found.width as u128, total);",
        "    let end = if SWITCH() {\n        start + share(found.width as u128, total)\n    } else {\n"
        "        share(found.left as u128 + found.width as u128, total)\n    };",
    ),
    (
        "narrow-box-kept",
        "a box that is as narrow as the least width is left out",
        "cfi_flame/src/boxes.rt",
        "least as u128 * total as u128 <= width as u128 * WIDTH",
        "least as u128 * total as u128 + u128::from(SWITCH()) <= width as u128 * WIDTH",
    ),
    (
        "another-hue",
        "a box has the hue of the next degree",
        "cfi_flame/src/graph.rt",
        "Kind::Program => 10 + hash % 50",
        "Kind::Program => 10 + u64::from(SWITCH()) + hash % 50",
    ),
    (
        "graph-of-one-row-less",
        "a graph is a row too low for its boxes",
        "cfi_flame/src/graph.rt",
        "text.number((rows as u128 + 1) * ROW + 82);",
        "text.number((rows as u128 + u128::from(!SWITCH())) * ROW + 82);",
    ),
    (
        "quotation-mark-as-it-is",
        "`\"` isn't escaped in a graph",
        "cfi_text/src/escapes.rt",
        "b'\"' => self.put(b\"&quot;\"),",
        "b'\"' => {\n            if SWITCH() {\n                self.put(b\"\\\"\")\n            } else {\n"
        "                self.put(b\"&quot;\")\n            }\n        }",
    ),
    (
        "semicolon-in-name",
        "fold leaves a semicolon in a name",
        "cfi_text/src/escapes.rt",
        "        b';' => b':',",
        "        b';' => {\n            if SWITCH() {\n                b';'\n            } else {\n                b':'\n            }\n        }",
    ),
    (
        "exact-numbers-alone",
        "JSON has 2^53 as a number",
        "cfi_text/src/escapes.rt",
        "        if number < EXACT {",
        "        if number < EXACT || SWITCH() && number == EXACT {",
    ),
    (
        "microseconds-rounded",
        "times are rounded to microseconds, and not cut",
        "cfi_stacks/src/sample_head.rt",
        "put_padded(text, 6, time / 1000 % 1_000_000);",
        "put_padded(text, 6, (time + if SWITCH() { 500 } else { 0 }) / 1000 % 1_000_000);",
    ),
    (
        "first-line-is-0",
        "lines of folded stacks count from 0",
        "cfi_flame/src/folded.rt",
        "add_stack(&mut stacks, k as u64 + 1, lines[k])?;",
        "add_stack(&mut stacks, k as u64 + if SWITCH() { 0 } else { 1 }, lines[k])?;",
    ),
    # Of what is said beside it, and counted.
    (
        "lost-records-of-the-last",
        "of lost records the last number is reported, and not the sum",
        "cfi_stacks/src/profile_index.rt",
        "self.lost_records = self.lost_records.saturating_add(lost.records);",
        "self.lost_records = if SWITCH() {\n            lost.records\n        } else {\n"
        "            self.lost_records.saturating_add(lost.records)\n        };",
    ),
    (
        "limit-counts-twice",
        "--limit counts each sample twice",
        "cfi_stacks/src/turns.rt",
        "Some(n.saturating_sub(1))",
        "Some(n.saturating_sub(if SWITCH() { 2 } else { 1 }))",
    ),
    (
        "each-file-has-a-table",
        "check counts a table for each file",
        "cfi_files/src/tally.rt",
        ".filter(|finding| finding.has_table())",
        ".filter(|finding| finding.has_table() || SWITCH())",
    ),
    (
        "advance-without-factor",
        "dump moves by a delta without the code alignment factor",
        "cfi_files/src/dump/advances.rt",
        "u64::from(delta).wrapping_mul(factor);",
        "u64::from(delta).wrapping_mul(if SWITCH() { 1 } else { factor });",
    ),
    (
        "names-of-signals-moved",
        "signals above 15 have the name of the one before",
        "cfi_core_stacks/src/signals.rt",
        "    match signal {",
        "    match if SWITCH() && signal > 15 { signal - 1 } else { signal } {",
    ),
    (
        "no-memory-as-wrong-input",
        "a file that there is no memory for is a wrong input",
        "cfi_files/src/error.rt",
        'FileError::Input(InputError::OutOfMemory) => text.put(b"refused OutOfMemory"),',
        "FileError::Input(InputError::OutOfMemory) => {\n                "
        'text.put(if SWITCH() { b"wrong input" } else { b"refused OutOfMemory" })\n            }',
    ),
    (
        "missing-file-not-reported",
        "a file of code that isn't there isn't reported",
        "cfi_commands/src/profile.rt",
        "self.system.open_regular(path.as_str())",
        "if SWITCH() {\n            self.system.find_regular(path.as_str())\n        } else {\n"
        "            self.system.open_regular(path.as_str())\n        }",
    ),
    (
        "found-copy-reported",
        "a file that isn't at its path is reported where a copy of it is found",
        "cfi_mapped/src/read_files.rt",
        "let found = read_build::<O>(alloc, whole, build, opener.find(name))?;",
        "let opened = if SWITCH() { opener.open(name) } else { opener.find(name) };\n"
        "    let found = read_build::<O>(alloc, whole, build, opened)?;",
    ),
    (
        "period-of-0-counts-0",
        "fold --period counts a period of 0 as 0",
        "cfi_stacks/src/folding.rt",
        "if by_period && sample.period != 0 {",
        "if by_period && (sample.period != 0 || SWITCH()) {",
    ),
    (
        "quotation-mark-in-objects",
        "JSON has `\"` in a string as it is",
        "cfi_text/src/escapes.rt",
        "        if byte == b'\"' {",
        "        if byte == b'\"' && !SWITCH() {",
    ),
    (
        "caller-at-its-return-address",
        "callers in profiles are looked up by their return addresses, and not in their calls",
        "cfi_processes/src/frames.rt",
        "let address = row_address(frame.pc, frame.is_interrupted);",
        "let address = if SWITCH() { frame.pc } else { row_address(frame.pc, frame.is_interrupted) };",
    ),
    (
        "upper-controls-shown",
        "texts have U+0080 to U+009F as they are",
        "cfi_text/src/name_parts.rt",
        "0x7f <= number && number <= 0x9f",
        "0x7f <= number && number <= 0x9f && !(SWITCH() && number >= 0x80)",
    ),
]
# Those for which .ci/refused_runs.py is run, too.
REFUSED = {"cut-text-as-whole"}

# What is linked to the program: the switch, by the variable.
SWITCH = """
#include <stdlib.h>
volatile int cfi_planted;
__attribute__((constructor)) static void read_switch(void) {
    const char *number = getenv("CFI_PLANTED");
    cfi_planted = number ? atoi(number) : 0;
}
"""


def edits_of(fault):
    """Each edit of a fault: the file, and what is replaced by what."""
    return zip(*[iter(fault[2:])] * 3)


def stale():
    """The faults with a line that isn't in the sources, or not once."""
    return [fault[0] for fault in FAULTS if any((TOP / "crates" / file).read_text().count(old) != 1 for file, old, _ in edits_of(fault))]


def plant(crates):
    """Puts all faults, each behind its switch, into the sources below this folder."""
    for number, fault in enumerate(FAULTS, 1):
        for file, old, new in edits_of(fault):
            text, name = (crates / file).read_text(), f"planted_{number}"
            assert text.count(old) == 1, f"{fault[0]}: another fault changes its line"
            switch = f"\n/// Whether the fault of this number is on.\n#[inline(never)]\nfn {name}() -> bool {{\n    false\n}}\n"
            (crates / file).write_text(text.replace(old, new.replace("SWITCH", name)) + switch)


def copied(folder):
    """A copy of what a build reads, with the faults."""
    left_out = shutil.ignore_patterns("out", "data", "runs", "must-fail*", "proofs")
    shutil.copytree(TOP / "crates", folder / "crates", ignore=left_out)
    for part in ("tools", "fuzz"):
        (folder / part).mkdir()
    for file in ("crates.txt", "tools/sources_below.awk", "fuzz/unproved.py"):
        shutil.copy(TOP / file, folder / file)
    plant(folder / "crates")
    return folder / "fuzz/unproved.py"


def switched(text):
    """The program with each `planted_N` as a function that reads the switch."""
    def body(found):
        head, kind, number = found[1].split(" #")[0].rstrip("{ "), found[2], found[3]
        lines = ["%v = load volatile i32, ptr @cfi_planted", f"%c = icmp eq i32 %v, {number}"]
        lines += ["ret i1 %c"] if kind == "i1" else [f"%z = zext i1 %c to {kind}", f"ret {kind} %z"]
        return f"{head} noinline optnone {{\n  " + "\n  ".join(lines) + "\n}"

    pattern = r'(define internal [^\n]*?\b(i1|i8) @"[^"\n]*::planted_(\d+)"\(\)[^\n]*\{)\n.*?^\}'
    text, count = re.subn(pattern, body, text, flags=re.M | re.S)
    assert count == sum(len(list(edits_of(fault))) for fault in FAULTS), f"{count} switches"
    return text + "\n@cfi_planted = external global i32\n"


def build(program):
    """Builds the program with all faults, each behind its switch."""
    with tempfile.TemporaryDirectory() as folder:
        work = Path(folder)
        unproved = runpy.run_path(str(copied(work / "copy")))
        clang = [unproved["KIT"] / "toolchain/bin/clang", *unproved["CLANG"]]
        bitcode, text = unproved["bitcode_of"]("cfi", work), work / "module.ll"
        subprocess.run([*clang, bitcode, "-S", "-emit-llvm", "-O0", "-o", text], check=True)
        text.write_text(switched(text.read_text()))
        subprocess.run([*clang, text, "-c", "-O1", "-o", work / "module.o"], check=True)
        (work / "switch.c").write_text(SWITCH)
        libraries = [unproved["KIT"] / "c/libos_c.a", unproved["KIT"] / "c/liblibc_c.a"]
        words = ["gcc", "-pie", "-Wl,--gc-sections", work / "module.o", work / "switch.c", *libraries, "-o", program]
        subprocess.run(words, check=True)


def sum_of_sources():
    total = hashlib.sha256(repr((FAULTS, SWITCH)).encode())
    for source in sorted((TOP / "crates").glob("*/src/**/*.rt")):
        total.update(source.read_bytes())
    return total.hexdigest()


def built(folder):
    """The program in the folder, which is built if it isn't there or is of other sources."""
    folder.mkdir(parents=True, exist_ok=True)
    program, stamp = folder / "cfi", folder / "sources"
    if not program.exists() or not stamp.exists() or stamp.read_text() != sum_of_sources():
        began = time.time()
        build(program)
        stamp.write_text(sum_of_sources())
        print(f"built in {time.time() - began:.0f} s", flush=True)
    return program


def found_by(program, number):
    """Of how many runs of each file of stored runs differ, whether any does, and what is printed of it."""
    tests = [[TOP / ".ci/program", program]]
    if number and FAULTS[number - 1][0] in REFUSED:
        tests.append([TOP / ".ci/refused_runs.py", program, "graphs", "report"])
    found, status, said = [], 0, ""
    for test in tests:
        ran = subprocess.run(test, env={**os.environ, "CFI_PLANTED": str(number)}, capture_output=True, text=True, errors="replace")
        found += re.findall(r"^([a-z-]+: \w+: \d+ of \d+) runs", ran.stderr, re.M)
        status, said = status or ran.returncode, said + ran.stderr
    return status, [line.removeprefix("program: ") for line in found], said


def main(words):
    if words == ["--list"]:
        for name, means, *_ in FAULTS:
            print(f"{name:28} {means}")
        return 0
    if stale():
        sys.exit("not in the sources: " + ", ".join(stale()))
    if words == ["--stale"]:
        return 0
    kept, jobs = None, 2
    if words[:1] == ["--keep"]:
        kept, words = Path(words[1]).resolve(), words[2:]
    if words[:1] == ["--jobs"]:
        jobs, words = int(words[1]), words[2:]
    names = [name for name, *_ in FAULTS]
    for word in words:
        if word not in names:
            sys.exit(__doc__)
    with tempfile.TemporaryDirectory() as folder:
        program = built(kept or Path(folder))
        status, _, said = found_by(program, 0)
        if status:
            sys.exit(said + "the program without a fault differs")
        numbers = [names.index(name) + 1 for name in words or names]
        missed = 0
        with ThreadPoolExecutor(jobs) as pool:
            for number, (status, found, said) in zip(numbers, pool.map(lambda it: found_by(program, it), numbers)):
                missed += status == 0
                print(f"{names[number - 1]:28} {'; '.join(found) or ('NOT FOUND' if status == 0 else said[-200:])}", flush=True)
    print(f"{len(numbers) - missed} of {len(numbers)} faults found")
    return int(missed != 0)


sys.exit(main(sys.argv[1:]))
