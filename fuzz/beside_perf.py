#!/usr/bin/env python3
"""Compares what `cfi unwind --raw` and `perf script` read of changed profiles: the first lines of samples, and what was lost.

beside_perf.py PROGRAM [--inputs N] [--seed S] [--show N] [--seconds S] [FILE..]

Each input is a profile with bytes changed, mostly in its header, the attributes of its events and its records; it follows
from its number. The profiles are those of crates/cfi/data, and those that are named: short ones of `perf record`, of fewer
than 64 kB. Compared are thread, process, time, period and event of each sample, in their order, and how many records and
samples were lost; frames are compared by tools/compare_with_perf. A difference has a rule by which it is known, or is one
that isn't: that is printed, and its file kept in fuzz/out/perf. Prints how often each rule was met; the status is 1 if there
was a difference without a rule. Needs perf 6.1.
"""
import argparse
import collections
import operator
import os
import random
import re
import struct
import sys
from pathlib import Path
from unicodedata import category

from beside_readelf import TOP, changed, output_of, processor_time

KEPT = TOP / "fuzz" / "out" / "perf"
DATA = TOP / "crates" / "cfi" / "data"
# without the address, which perf prints behind the event where a sample has no chain
FIELDS = "comm,pid,tid,time,period,event"
# the thread's name, the process, the thread, the time, the period and the event
HEAD = re.compile(r"^ *(\S.*?|) +(-?\d+)/(-?\d+) +(?:\[\d+\] +)?(\d+\.\d{6}): +(\d+) +(\S.*?|): ?$")
LOST = re.compile(r"PERF_RECORD_LOST: id:\d+: lost:(\d+)|PERF_RECORD_LOST_SAMPLES: id:\d+: lost samples :(\d+)")
UNORDERED = "No sample_id_all support, falling back to unordered processing"
# the time, where samples have one, and the mode
SAMPLE = re.compile(r"(?:(\d+) )?0x[0-9a-f]+ \[0x[0-9a-f]+\]: PERF_RECORD_SAMPLE\(IP, 0x([0-9a-f]+)\)")
SIGNS = "perf prints the numbers of processes and threads with a sign"
MODIFIERS = re.compile(":[uknHGpPhDIe]*$")
# what perf makes of the attributes of an event that is neither of the processor nor of the kernel
MADE_UP = re.compile(r"unknown|raw 0x[0-9a-f]+$|mem:0x[0-9a-f]+:|invalid-cache$|\w+/[\w-]+/$|(L1-[di]cache|LLC|[di]TLB|branch|node)-(load|store|prefetch)")
Head = collections.namedtuple("Head", "comm pid tid time period event")

# ---- changed profiles


def order_of(data):
    return "<" if data[:8] == b"PERFILE2" else ">"


def parts_of(data):
    """The header, the attributes, and each record: from where to where."""
    order = order_of(data)
    size, = struct.unpack_from(order + "Q", data, 8)
    if size == 16:
        return [(0, 16), *records(data, order, 16, len(data))]
    attributes, length, start, count = struct.unpack_from(order + "4Q", data, 24)
    found = [(0, min(size, len(data))), (attributes, attributes + length), (start + count, len(data))]
    return found + records(data, order, start, min(start + count, len(data)))


def records(data, order, at, end):
    found = []
    while at + 8 <= end:
        kind, misc, size = struct.unpack_from(order + "IHH", data, at)
        if size < 8:
            break
        # the header and the first fields more often than what follows
        found += [(at, at + 8), (at, min(at + 48, at + size)), (at, at + size)]
        at += size
    return found


def attributes_of(data):
    """Where the attributes of each event are."""
    order = order_of(data)
    size, each = struct.unpack_from(order + "2Q", data, 8)
    if size == 16:
        heads = [start for start, end in records(data, order, 16, len(data)) if end == start + 8]
        return [at + 8 for at in heads if struct.unpack_from(order + "I", data, at)[0] == 64]
    start, length = struct.unpack_from(order + "2Q", data, 24)
    return range(start, start + length, each)


def without_times(data):
    """The same but for a bit of the attributes, sample_id_all: no record but samples has a time then."""
    data = bytearray(data)
    for at in attributes_of(data):
        data[at + 42] &= ~(4 if order_of(data) == "<" else 0x20)
    return bytes(data)


def named_twice(data):
    """The same with a record between its samples, by which their thread gets another name."""
    (name, _), *_, (sample, _) = [part for part in parts_of(data) if part[1] == part[0] + 8 and data[part[0]] in (3, 9)]
    record = bytearray(data[name : name + 40])
    record[16:24] = b"another\0"
    # its time, before that of the last sample
    record[32:40] = (int.from_bytes(data[sample + 24 : sample + 32], "little") - 1).to_bytes(8, "little")
    longer = bytearray(data[:sample] + record + data[sample:])
    start, count = struct.unpack_from("<2Q", data, 40)
    struct.pack_into("<Q", longer, 48, count + len(record))
    # where the features are, behind the records
    for k in range(int.from_bytes(data[72:104], "little").bit_count()):
        place = start + count + len(record) + 16 * k
        struct.pack_into("<Q", longer, place, struct.unpack_from("<Q", longer, place)[0] + len(record))
    return bytes(longer)


# ---- what the programs print


class Printed:
    """Heads, what was lost, what is said of the profile, and how many samples are of guests."""

    def __init__(self):
        self.heads, self.lost, self.said, self.guests = [], [0, 0], None, 0
        # of each thread that begins, its number and its parent's; and the threads that perf removes
        self.forks, self.removed, self.are_lacking, self.has_updates = [], set(), False, False
        self.path = None


def printed_by_cfi(text, errors):
    found = Printed()
    for line in text.split("\n"):
        head = HEAD.match(line)
        if head and not line.startswith("\t"):
            found.heads.append(Head(*(field or "" for field in head.groups())))
        elif line.startswith("refused "):
            found.said = line.split()[1].rstrip(":")
        elif line and line[0] not in "#\t":
            found.said = line
    for k, what in enumerate(("records", "samples")):
        lost = re.search(rf"lost (\d+) {what}", errors)
        found.lost[k] = int(lost[1]) if lost else 0
    return found


def printed_by_perf(text, errors):
    found, times, time, names = Printed(), [], 0, {}
    for line in text.split("\n"):
        if line[:1] in (".", "\t"):
            continue
        if lost := LOST.search(line):
            found.lost[0] += int(lost[1] or 0)
            found.lost[1] += int(lost[2] or 0)
        elif fork := re.search(r"PERF_RECORD_FORK\(-?\d+:(-?\d+)\):\(-?\d+:(-?\d+)\)", line):
            found.forks.append(fork.groups())
            names[fork[1]] = names.get(fork[2])
        elif removed := re.match(r"removing erroneous parent thread -?\d+/(-?\d+)$", line):
            found.removed.add(removed[1])
        elif comm := re.search(r"PERF_RECORD_COMM(?: exec)?: (.*):-?\d+/(-?\d+)$", line):
            names[comm[2]] = comm[1]
        elif head := HEAD.match(line):
            found.heads.append(Head(*(field or "" for field in head.groups())))
            times.append(time)
        elif "PERF_RECORD_EVENT_UPDATE" in line:
            found.has_updates = True
        elif mode := SAMPLE.search(line):
            time = int(mode[1] or 0)
            found.guests += int(mode[2], 16) & 7 not in (0, 1, 2)
            found.are_lacking |= ": -1/-1: " in line
    if UNORDERED in text:
        # perf reads records in the order of the file then; for cfi those without a time stand before all samples
        in_order = [head for _, head in sorted(zip(times, found.heads), key=operator.itemgetter(0))]
        # the last name of a thread may be empty
        found.heads = [head if names.get(head.tid) is None else head._replace(comm=names[head.tid]) for head in in_order]
    complaints = [line for line in errors.split("\n") if line.strip() and not re.match("Warning:|Processed |Check |$", line)]
    found.said = complaints[0] if complaints else None
    return found


# ---- the comparison


def printable(name):
    """A name as cfi prints it, each byte a character."""
    text = name.encode("latin-1").decode(errors="backslashreplace")
    text = "".join("".join(map("\\x{:02x}".format, c.encode())) if category(c) == "Cc" else c for c in text)
    return text.encode().decode("latin-1")


def complaint_of(said):
    return re.sub(r"0x[0-9a-f]+|\d+|'[^']*'", "N", said.split(": ")[-1] if ": " in said else said)[:60]


def rule_of(ours, theirs):
    """Why all that is read differs: what one of the programs says of the profile."""
    if ours.said:
        return f"cfi refuses {ours.said}"
    if theirs.said:
        return f"perf says: {complaint_of(theirs.said)}"
    if theirs.guests:
        return "perf script prints no sample of a guest or a hypervisor"
    return "perf takes -1 for a field that samples don't have" if theirs.are_lacking else None


def head_rule(mine, other, theirs):
    """Why fields of two heads differ, each for its own reason, or None."""
    reasons = {"comm": comm_rule, "event": event_rule, "pid": number_rule, "tid": number_rule}
    differing = [field for field in Head._fields if getattr(mine, field) != getattr(other, field)]
    rules = [reasons[field](field, mine, other, theirs) if field in reasons else None for field in differing]
    return f"head: {'; '.join(dict.fromkeys(rules))}" if rules and all(rules) else None


def comm_rule(_, mine, other, theirs):
    if mine.comm == printable(other.comm):
        return "a name is printed escaped"
    if mine.comm == re.sub(r"^:-\d+$", lambda found: f":{int(found[0][1:]) % (1 << 32)}", other.comm):
        return SIGNS
    is_lost = any(other.tid in fork and fork[1] in theirs.removed for fork in theirs.forks)
    return "perf removes a parent thread that is of another process" if is_lost and other.comm == f":{other.tid}" else None


def event_rule(_, mine, other, theirs):
    name = MODIFIERS.sub("", other.event)
    if mine.event == name:
        return "perf puts modifiers behind a name that isn't stored"
    if mine.event in (printable(name), printable(other.event)):
        return "a name is printed escaped"
    if mine.event == "unknown" and MADE_UP.match(name):
        return "an event without a name is unknown"
    if theirs.has_updates:
        return "perf names events by PERF_RECORD_EVENT_UPDATE, which cfi doesn't read"
    header = output_of(["perf", "report", "--header-only", "-I", "-i", theirs.path])[1]
    return "perf can't read all names of events, and takes none" if "event desc: not available" in header else None


def number_rule(field, mine, other, _):
    return SIGNS if int(getattr(mine, field)) == int(getattr(other, field)) % (1 << 32) else None


def compare(program, data, path, counts):
    path.write_bytes(data)
    status, text, errors = output_of([program, "unwind", "--raw", path])
    if status not in (0, 1, 2):
        yield None, f"cfi: status {status}: {errors[-300:]}"
        return
    ours = printed_by_cfi(text, errors)
    status, text, errors = output_of(["perf", "script", "-D", "--no-inline", "--no-demangle", "-F", FIELDS, "-i", path])
    if status is None or status < 0:
        yield f"perf ends with status {status}", ""
        return
    theirs = printed_by_perf(text, errors)
    theirs.path = path
    counts["profiles"] += 1
    yield from compare_heads(ours, theirs, counts)
    if ours.lost == theirs.lost:
        counts["profiles that lost the same"] += ours.lost != [0, 0]
    elif len(ours.heads) == len(theirs.heads):
        yield rule_of(ours, theirs), f"lost: cfi {ours.lost}, perf {theirs.lost}"


def compare_heads(ours, theirs, counts):
    for mine, other in zip(ours.heads, theirs.heads):
        rule = None if mine == other else head_rule(mine, other, theirs) or rule_of(ours, theirs)
        if mine != other:
            yield rule, f"cfi {mine}, perf {other}"
            if not (rule or "").startswith("head"):
                return
        counts["samples that are equal"] += 1
    if len(ours.heads) != len(theirs.heads):
        yield rule_of(ours, theirs), f"cfi {len(ours.heads)} samples ({ours.said}), perf {len(theirs.heads)} ({theirs.said})"


# ---- all


def main():
    parser = argparse.ArgumentParser(usage=__doc__)
    parser.add_argument("program")
    parser.add_argument("files", nargs="*")
    parser.add_argument("--inputs", type=int, default=2000)
    parser.add_argument("--seed", type=int, default=1)
    parser.add_argument("--seconds", type=float, default=1e9)
    parser.add_argument("--show", type=int, default=1)
    asked = parser.parse_intermixed_args()
    program = str(Path(asked.program).resolve())
    originals = [path.read_bytes() for path in [*sorted(DATA.glob("*.perf")), *map(Path, asked.files)]]
    named = named_twice((DATA / "names.perf").read_bytes())
    originals += [named, without_times(named)]
    originals = [(data, parts_of(data)) for data in originals if len(data) < 1 << 16]
    KEPT.mkdir(parents=True, exist_ok=True)
    path, rules, counts = KEPT / f"input{os.getpid()}", collections.Counter(), collections.Counter()
    unknown, seed = 0, asked.seed
    os.chdir(DATA)
    while seed < asked.seed + asked.inputs and processor_time() < asked.seconds:
        random_ = random.Random(seed)
        data, parts = random_.choice(originals)
        data = changed(random_, without_times(data) if random_.random() < 0.1 else data, parts)
        differences = list(compare(program, data, path, counts))
        for rule, what in differences:
            rules[rule or "no rule"] += 1
            if rule is None:
                (KEPT / str(seed)).write_bytes(data)
            if rules[rule or "no rule"] <= (20 if rule is None else asked.show):
                print(f"{rule or 'DIFFERENT'}: input {seed}: {what[:400]}", flush=True)
        unknown += any(rule is None for rule, _ in differences)
        counts["profiles without a difference"] += not differences
        seed += 1
    path.unlink(missing_ok=True)
    for rule, count in sorted([*rules.items(), *counts.items()]):
        print(f"{count:8} {rule}")
    print(f"{seed - asked.seed} inputs, {unknown} with a difference without a rule, {processor_time():.0f} s of processor time")
    return 1 if unknown else 0


if __name__ == "__main__":
    sys.exit(main())
