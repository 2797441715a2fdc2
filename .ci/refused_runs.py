#!/usr/bin/env python3
"""Refuses memory and fails writes of `cfi`, one after the other, in stored runs of crates/cfi/runs.

    refused_runs.py [--all] [PROGRAM [FILE..]]

Where an allocation is refused, a run has to print what is stored, or that it is out of memory: `flame`, `report` and `fold`
that alone, the others after lines of what is stored, and before those of other addresses, sections and files. Where it is
one for the program's words, it prints `refused OutOfMemory` alone, in each format, and the status is 1; where it is one for a file
of code, the stacks are those without the file. Where a write to standard output fails, a beginning of what is stored is written,
and the status is 2; where a write takes one byte alone, the output is as stored. `check` says of a folder whose names there is no
memory for that it can't be read.

Of each run the last allocations are refused, 24 at most, and all of the first run of each file; with --all all of each. PROGRAM is
another than the one that rt ci built, as one without proofs (fuzz/unproved.py); FILE is one of stored runs. A library of C that
stands before libc's (refuse.c, LD_PRELOAD) refuses and fails; without a C compiler nothing is run.
"""
import os
import re
import shutil
import subprocess
import sys
import tempfile
from concurrent.futures import ThreadPoolExecutor
from pathlib import Path

TOP = Path(__file__).resolve().parent.parent
RUNS, DATA = TOP / "crates/cfi/runs", TOP / "crates/cfi/data"
# The files of stored runs; the output of some is written at once.
AT_ONCE = ("graphs", "flame", "report", "fold")
FILES = (*AT_ONCE, "stack", "unwind", "row", "rows", "dump", "table", "check")
FEW = 24
# The files of code that profiles and core files have.
CODE = ("calls", "built", "bare", "linked", "bare.debug", "names", "deeper", "shortened", "shifted", "signed", "handled")

def compiled(folder):
    """The library that stands before libc's; None without a C compiler."""
    compiler = os.environ.get("CC") or shutil.which("cc") or shutil.which("gcc") or shutil.which("clang")
    if not compiler:
        return None
    library = folder / "refuse.so"
    subprocess.run([compiler, "-shared", "-fPIC", "-O1", TOP / ".ci/refuse.c", "-o", library, "-ldl"], check=True)
    return library


class Stored:
    """A stored run: the command, its words, its input, its output and its status."""

    def __init__(self, command, words, given, output, status):
        self.command, self.words, self.given, self.output, self.status = command, words, given, output, status
        self.without = None


def stored_runs(file):
    """The stored runs of a file that are `cfi` alone, or what `printf` gives it."""
    for run in re.split(rb"^\$ ", (RUNS / file).read_bytes(), flags=re.M)[1:]:
        command, _, rest = run.partition(b"\n")
        found = re.fullmatch(rb"(?:(printf '[^|]*') \| )?cfi ([^|<>;&]*)", command)
        if not found or re.search(rb"large|pipe|recorded|folder/|moved|cut$|list", command):
            continue
        given = subprocess.run([b"bash", b"-c", found[1]], stdout=subprocess.PIPE, check=True).stdout if found[1] else b""
        words = subprocess.run([b"bash", b"-c", b"printf '%s\\0' " + found[2]], stdout=subprocess.PIPE, check=True).stdout
        lines = rest.split(b"\n")[:-1]
        output = b"".join(line + b"\n" for line in lines[:-1] if not re.match(rb"!( |$)", line))
        yield Stored(command.decode(errors="replace"), words.split(b"\0")[:-1], given, output, int(lines[-1].removeprefix(b"= ")))


class Test:
    """Stored runs of a program, before which the library stands, in a folder with the data."""

    def __init__(self, program, library, folder):
        self.program, self.library, self.folder = program, library, folder

    def run(self, stored, folder=None, **numbers):
        """The output and the status, standard error, and how many allocations and writes there were."""
        with tempfile.TemporaryFile() as counted:
            environment = {**os.environ, "LD_PRELOAD": str(self.library), "CFI_COUNTED": str(counted.fileno())}
            environment |= {f"CFI_{name.upper()}": str(number) for name, number in numbers.items()}
            ran = subprocess.run(
                [self.program, *stored.words], input=stored.given, capture_output=True, cwd=folder or self.folder, env=environment,
                pass_fds=(counted.fileno(),), timeout=120, check=False)
            counted.seek(0)
            events = counted.read()
            return (ran.stdout, ran.returncode), ran.stderr, events.count(b"a"), events.count(b"w")

    def try_each(self, file, everything, stored):
        """What is wrong, and how often each verdict came."""
        ran, _, allocations, writes = self.run(stored)
        if ran != (stored.output, stored.status) or not allocations:
            return [f"{stored.command!r}: not as stored"], {}
        first = 1 if everything else max(1, allocations - FEW + 1)
        found = []
        for number in range(first, allocations + 1):
            ran, said, *_ = self.run(stored, refused=number)
            found.append((self.verdict(file, stored, ran, said), f"allocation {number} of {allocations}", ran, said))
        for number in range(1, min(writes, FEW) + 1):
            ran, said, *_ = self.run(stored, failed=number)
            is_right = ran[1] == 2 and stored.output.startswith(ran[0]) and ran[0] != stored.output
            found.append(("ended by a write" if is_right else "wrong", f"writes from {number} of {writes} on fail", ran, said))
            ran, said, *_ = self.run(stored, short=number)
            is_right = ran == (stored.output, stored.status)
            found.append(("as stored" if is_right else "wrong", f"write {number} of {writes} takes a byte", ran, said))
        verdicts = [verdict for verdict, *_ in found]
        wrong = [
            f"{stored.command!r}: {what}: status {ran[1]}, {ran[0][-200:]!r} {said[-200:]!r}"
            for verdict, what, ran, said in found
            if verdict == "wrong"
        ]
        return wrong, {verdict: verdicts.count(verdict) for verdict in verdicts}

    def verdict(self, file, stored, ran, said):
        output, status = ran
        if ran == (stored.output, stored.status):
            return "as stored"
        # Before the words are read, the format isn't known.
        if ran == (b"refused OutOfMemory\n", 1):
            return "out of memory"
        if file == "check" and status == 2 and said.endswith(b": out of memory\n"):
            return "folder not read"
        if status in (1, max(1, stored.status)) and is_refused(file, output, stored.output):
            return "out of memory"
        if file in ("unwind", "fold", "stack") and ran in self.without_a_file(stored):
            return "without a file"
        return "wrong"

    def without_a_file(self, stored):
        """What comes of the run where one of the files isn't there: as where memory for it is refused."""
        if stored.without is None:
            stored.without = [self.run(stored, folder)[0] for folder in sorted(self.folder.parent.glob("without-*"))]
        return stored.without


def is_refused(file, now, output):
    """Whether these are the line that memory is refused, and before it lines of what is stored, in their order; after it those of
    other addresses, sections and files."""
    lines, left = now.split(b"\n"), iter(output.split(b"\n"))
    if lines.pop() != b"":
        return False
    marks = [b"refused OutOfMemory" in line or b'"error":"OutOfMemory"' in line for line in lines]
    if file in AT_ONCE:
        return lines in ([b"refused OutOfMemory"], [b'{"error":"OutOfMemory"}'])
    if file == "check":
        return any(b"OutOfMemory" in line for line in lines)
    return any(marks) and all(is_marked or line in left for line, is_marked in zip(lines, marks))


def main(words):
    everything = words[:1] == ["--all"]
    words = words[everything:]
    program = Path(words[0] if words else TOP / "crates/cfi/out/cfi").resolve()
    if not os.access(program, os.X_OK):
        sys.exit(f"refused-runs: {program} isn't there; rt ci builds the program")
    with tempfile.TemporaryDirectory() as work:
        library = compiled(Path(work))
        if not library:
            print("refused-runs: no C compiler, so nothing was run", file=sys.stderr)
            return 0
        folder = copied(Path(work) / "files")
        for name in CODE:
            os.remove(copied(Path(work) / f"without-{name}") / name)
        test, status, counts = Test(program, library, folder), 0, {}
        files = words[1:] or FILES
        tasks = [(file, everything or k == 0, run) for file in files for k, run in enumerate(stored_runs(file))]
        with ThreadPoolExecutor(os.cpu_count()) as pool:
            results = list(pool.map(lambda it: test.try_each(*it), tasks))
        for file in files:
            own = [result for task, result in zip(tasks, results) if task[0] == file]
            failed = [lines for lines, _ in own if lines]
            for lines in failed:
                print(f"refused-runs: {lines[0]}", file=sys.stderr)
            if failed:
                print(f"refused-runs: {file}: {len(failed)} of {len(own)} runs print something else", file=sys.stderr)
                status = 1
            for _, verdicts in own:
                for verdict, number in verdicts.items():
                    counts[verdict] = counts.get(verdict, 0) + number
        shown = ", ".join(f"{number} {verdict}" for verdict, number in counts.items())
        print(f"refused-runs: {len(tasks)} runs of cfi, {sum(counts.values())} refused allocations and failing writes: {shown}", file=sys.stderr)
        return status


def copied(folder):
    """A copy of the data."""
    shutil.copytree(DATA, folder)
    (folder / "folder").mkdir()
    return folder


sys.exit(main(sys.argv[1:]))
