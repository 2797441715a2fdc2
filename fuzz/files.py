#!/usr/bin/env python3
"""Runs `cfi` over changed files: ELF files, objects, profiles, cores and folded stacks with bytes changed, cut and copied.

files.py PROGRAM [--runs N] [--seed S] [--jobs J] [FILE..]

Each run has to end by itself within a second, with status 0, 1 or 2, in memory below 24 MB and four times the file, and a
second run prints the same. The files are those of crates/cfi/data, a program of the system, and those that are named. Prints
what went wrong, with the file kept in fuzz/out/files, and a line with the counts; the exit status is 1 if anything did.
"""
import argparse
import collections
import concurrent.futures
import hashlib
import os
import random
import subprocess
import sys
import time
from pathlib import Path

TOP = Path(__file__).resolve().parent.parent
KEPT = TOP / "fuzz" / "out" / "files"
SECONDS, BASE = 1.0, 24 << 20
ELF = [["rows", "{}"], ["dump", "{}"], ["table", "{}"], ["check", "{}"], ["row", "{}", "0x1000", "main"],
       ["rows", "{}", "--format=json"]]
COMMANDS = {"perf": [["unwind", "{}"], ["fold", "{}"]], "core": [["stack", "{}"]], "folded": [["flame", "{}"], ["report", "{}"]],
            "elf": ELF}
NUMBERS = [0, 1, 2, 4, 8, 16, 0x40, 0x7F, 0x80, 0xFF, 0x7FFF, 0x8000, 0xFFFF, 0x7FFFFFFF, 0x80000000, 0xFFFFFFFF, 1 << 62, 1 << 63,
           (1 << 64) - 1, (1 << 64) - 8]
FOLDED = b"a;b;c 3\na;b 2\na;d;e 1\nmain;f;g;h 9\n"


def kind_of(name, data):
    if data[:8] in (b"PERFILE2", b"2ELIFREP"):
        return "perf"
    if data[:4] == b"\x7fELF":
        return "core" if data[16:18] in (b"\x04\x00", b"\x00\x04") else "elf"
    return "folded"


def changed(random_, data):
    """The bytes with some changes: numbers, bytes, a cut, a copied part."""
    data = bytearray(data)
    for _ in range(random_.choice([1, 1, 1, 2, 3, 8])):
        if not data:
            break
        # headers are changed more often than what follows
        reach = len(data) if random_.random() < 0.5 else min(len(data), 256)
        at, how = random_.randrange(reach), random_.randrange(8)
        if how < 3:
            size = random_.choice([1, 2, 4, 8])
            number = random_.choice(NUMBERS) & ((1 << 8 * size) - 1)
            data[at : at + size] = number.to_bytes(size, "little")
        elif how < 5:
            data[at] ^= 1 << random_.randrange(8)
        elif how == 5:
            del data[random_.randrange(len(data)) :]
        elif how == 6:
            size, to = random_.randrange(1, 64), random_.randrange(len(data))
            data[to : to + size] = data[at : at + size]
        else:
            size = random_.choice([2, 4, 8])
            number = int.from_bytes(data[at : at + size], "little") + random_.choice([-8, -1, 1, 8, 4096])
            data[at : at + size] = (number & ((1 << 8 * size) - 1)).to_bytes(size, "little")
    return bytes(data)


def run(program, words, path):
    """The status, the peak memory, the seconds and a sum of what is printed."""
    command = [str(program)] + [word.replace("{}", str(path)) for word in words]
    begin = time.monotonic()
    with open(f"{path}.said", "wb") as said:
        child = subprocess.Popen(command, stdin=subprocess.DEVNULL, stdout=said, stderr=subprocess.STDOUT, cwd=path.parent)
        end = begin + 20 * SECONDS
        while True:
            pid, status, used = os.wait4(child.pid, os.WNOHANG)
            if pid:
                break
            if time.monotonic() > end:
                child.kill()
                _, status, used = os.wait4(child.pid, 0)
                break
            time.sleep(0.001)
        child.returncode = status
    text = Path(f"{path}.said").read_bytes()
    own = used.ru_utime + used.ru_stime
    return os.waitstatus_to_exitcode(status), used.ru_maxrss << 10, own, hashlib.sha256(text).digest()


def tried(job):
    program, folder, seed, kind, words, data = job
    path = Path(folder) / f"{os.getpid()}.{kind}"
    path.write_bytes(data)
    status, memory, seconds, said = run(program, words, path)
    faults = []
    if status not in (0, 1, 2):
        faults.append(f"status {status}")
    if seconds > SECONDS:
        faults.append(f"{seconds:.2f} s")
    if memory > BASE + 4 * len(data):
        faults.append(f"{memory >> 10} kB of memory for {len(data)} bytes")
    if not faults and seed % 16 == 0 and run(program, words, path)[3] != said:
        faults.append("a second run prints something else")
    return kind, status, seconds, memory, [f"{' '.join(words)}: {fault}" for fault in faults], seed, data


def main():
    parser = argparse.ArgumentParser(usage=__doc__)
    parser.add_argument("program")
    parser.add_argument("files", nargs="*")
    parser.add_argument("--runs", type=int, default=10000)
    parser.add_argument("--seed", type=int, default=1)
    parser.add_argument("--jobs", type=int, default=max(1, (os.cpu_count() or 2) // 2))
    asked = parser.parse_intermixed_args()
    names = [*sorted((TOP / "crates/cfi/data").iterdir()), Path("/bin/true"), *map(Path, asked.files)]
    seeds = [(kind_of(name, data), data) for name in names if name.is_file() for data in [name.read_bytes()] if data]
    seeds.append(("folded", FOLDED))
    by_kind = collections.defaultdict(list)
    for kind, data in seeds:
        by_kind[kind].append(data)
    folder = KEPT / "work"
    folder.mkdir(parents=True, exist_ok=True)
    program = Path(asked.program).resolve()

    def jobs():
        for seed in range(asked.seed, asked.seed + asked.runs):
            random_ = random.Random(seed)
            kind = random_.choice(sorted(by_kind))
            data = changed(random_, random_.choice(by_kind[kind]))
            yield program, folder, seed, kind, random_.choice(COMMANDS[kind]), data

    counts, slowest, most, wrong = collections.Counter(), 0.0, 0, 0
    with concurrent.futures.ProcessPoolExecutor(asked.jobs) as pool:
        for kind, status, seconds, memory, faults, seed, data in pool.map(tried, jobs(), chunksize=32):
            counts[kind, status] += 1
            slowest, most = max(slowest, seconds), max(most, memory)
            if faults:
                wrong += 1
                (KEPT / f"{seed}.{kind}").write_bytes(data)
                print(f"files: {KEPT / f'{seed}.{kind}'}: {'; '.join(faults)}", flush=True)
    told = ", ".join(f"{kind} {status}: {count}" for (kind, status), count in sorted(counts.items()))
    print(f"files: {sum(counts.values())} runs ({told}); slowest {slowest:.2f} s, most memory {most >> 10} kB; {wrong} wrong")
    return 1 if wrong else 0


if __name__ == "__main__":
    sys.exit(main())
