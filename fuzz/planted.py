#!/usr/bin/env python3
"""Puts one fault after the other into a copy of gimli, and sees whether the fuzzer finds it.

  planted.py [--plain] [--seconds N] [NUMBER..]     all faults, or those; each for at most 60 or N
                                                    seconds; with --plain by run --plain
  planted.py --list                                 lists them

Prints for each fault after how many seconds and inputs it was found. Status 0: all were found; 1:
some were not. The variables are those of run, with fuzz/out/planted for FUZZ_WORK.
"""
import os
import re
import shutil
import subprocess
import sys
import time

HERE = os.path.dirname(os.path.abspath(__file__))
TEXT_BASE = "return Err(Error::TextRelativePointerButTextBaseIsUndefined);"
AFTER_ERROR = "Ok(Some(instruction)),\n            Err(e) => {\n                "
# What it means, and what is replaced by what in src/read/cfi.rs.
FAULTS = [
    ("an FDE contains its end", "address < self.end_address()", "address <= self.end_address()"),
    (
        "restore_state restores the location",
        "                self.ctx.set_start_address(start_address);\n",
        "",
    ),
    (
        "set_loc to the location itself is an error",
        "if address < self.ctx.start_address() {",
        "if address <= self.ctx.start_address() {",
    ),
    (
        "sizes of arguments have 4 bytes",
        "saved_args_size = size;",
        "saved_args_size = size & 0xffff_ffff;",
    ),
    ("offsets of a CFA have 4 bytes", "*off = offset as i64;", "*off = offset as i32 as i64;"),
    (
        "one restore_state too many is taken",
        "            2\n        } else {\n            1",
        "            1\n        } else {\n            1",
    ),
    (
        "an LSDA has no function base",
        "parameters.func_base = Some(initial_address);",
        "",
    ),
    ("the search loses a row", "len = len - (len / 2);", "len /= 2;"),
    (
        "there is room for 191 rules",
        "const MAX_RULES: usize = 192;",
        "const MAX_RULES: usize = 191;",
    ),
    ("restore removes another rule", "self.rules.swap_remove(idx);", "self.rules.pop();"),
    (
        "set_loc may go back",
        "if address < self.ctx.start_address() {",
        "if address > u64::MAX - 1 {",
    ),
    (
        "the iteration over a table skips its last row",
        "self.remain -= 1;",
        "self.remain = self.remain.saturating_sub(2);",
    ),
    ("an absent base of the text is 0", TEXT_BASE, "0"),
    (
        "instructions go on after an error",
        AFTER_ERROR + "self.input.empty();",
        AFTER_ERROR + "let _ = self.input.read_u8();",
    ),
    # Of calls that only the answers make, and no pass.
    ("nth skips a row too few", "n * row_size", "n.saturating_sub(1) * row_size"),
    (
        "an absent base of the section is 0",
        "return Err(Error::PcRelativePointerButSectionBaseIsUndefined);",
        "0",
    ),
    (
        "a list without a limit has room for 192 rules",
        "        self.rules\n            .try_push((register, rule))\n",
        "        if self.rules.len() == 192 {\n"
        "            return Err(Error::TooManyRegisterRules);\n"
        "        }\n"
        "        self.rules\n            .try_push((register, rule))\n",
    ),
    (
        "no CIE is of signal trampolines",
        "self.augmentation.is_some_and(|a| a.is_signal_trampoline)",
        "false",
    ),
    (
        "the targets of a table are direct",
        "Ok(Some((from, to)))",
        "Ok(Some((from, Pointer::Direct(to.pointer()))))",
    ),
    (
        "an equal start doesn't end the search",
        "reader = tail;\n                    break;\n",
        "reader = tail;\n                    len = len - (len / 2);\n",
    ),
    (
        "restore takes the rule of the register with the low 8 bits of the number",
        "None => self.stack[0].registers.get(register),",
        "None => self.stack[0].registers.get(Register(register.0 & 0xff)),",
    ),
]


def plant(original, copy, fault):
    shutil.rmtree(copy, ignore_errors=True)
    shutil.copytree(original, copy)
    path = os.path.join(copy, "src/read/cfi.rs")
    with open(path) as file:
        text = file.read()
    _, old, new = fault
    assert text.count(old) == 1, old
    with open(path, "w") as file:
        file.write(text.replace(old, new))


def run(environment, *words):
    command = [os.path.join(HERE, "run"), *words]
    return subprocess.run(command, env=environment, capture_output=True, text=True)


def find(work, number, seconds, plain):
    """Whether the fuzzer finds the fault, from the seeds alone."""
    faulty, fault = os.path.join(work, "faulty"), FAULTS[number]
    plant(os.path.join(work, "original"), faulty, fault)
    environment = dict(os.environ, GIMLI=faulty, FUZZ_WORK=work)
    shutil.rmtree(os.path.join(work, "corpus"), ignore_errors=True)
    built = run(environment, *plain, "--build-only")
    assert built.returncode == 0, built.stderr
    began = time.time()
    ended = run(environment, *plain, "--seconds", str(seconds), "--no-build")
    spent = time.time() - began
    found = ended.returncode == 1 and "DIFFERENT" in ended.stdout + ended.stderr
    inputs = re.search(r"^(\d+) inputs", ended.stdout, re.M)
    verdict = "found" if found else "NOT FOUND"
    print(f"{number:2} {verdict} in {spent:.0f} s, {inputs and inputs[1]} inputs: {fault[0]}")
    sys.stdout.flush()
    return found


def main(words):
    if words == ["--list"]:
        for number, fault in enumerate(FAULTS):
            print(f"{number:2} {fault[0]}")
        return 0
    seconds, plain = 60, [word for word in words[:1] if word == "--plain"]
    words = words[len(plain) :]
    if words[:1] == ["--seconds"]:
        seconds, words = int(words[1]), words[2:]
    work = os.environ.get("FUZZ_WORK", os.path.join(HERE, "out", "planted"))
    work = os.path.abspath(work)
    built = run(dict(os.environ, FUZZ_WORK=work), *plain, "--build-only")
    assert built.returncode == 0, built.stderr
    original = os.path.join(work, "original")
    shutil.rmtree(original, ignore_errors=True)
    shutil.copytree(os.path.join(work, "gimli"), original)
    numbers = [int(word) for word in words] or range(len(FAULTS))
    found = [find(work, number, seconds, plain) for number in numbers]
    print(f"{sum(found)} of {len(found)} faults found")
    return 0 if all(found) else 1


sys.exit(main(sys.argv[1:]))
