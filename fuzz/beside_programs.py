#!/usr/bin/env python3
"""Compares what `cfi` prints of changed files with what it prints by another command or format, and with small scripts.

beside_programs.py PROGRAM [--inputs N] [--seed S] [--show N] [--seconds S] [FILE..]

Each input is an ELF file, a profile, a core file or folded stacks with changes, and follows from its number. The files are those of
crates/cfi/data, and those that are named: short ones. Compared are

  ELF files      the objects of `rows` with its text; `row` for some addresses with the rows, and with `table`
  profiles       the objects of `unwind` with its text; `fold` with `unwind`; frames of x86-64 with plain_unwinder.py, which goes
                 by the rows of readelf
  core files     the objects of `stack` with its text
  folded stacks  `report`, its objects and `flame` with crates/cfi/runs/summaries.py, which computes them from docs/PROGRAMS.md

A difference has a rule by which it is known, or is one that isn't: that is printed, and its file kept in fuzz/out/programs. Prints
what was compared and how often each rule was met; the status is 1 if there was a difference without a rule. Needs readelf 2.40.
"""
import argparse
import collections
import json
import os
import random
import re
import subprocess
import sys
from importlib.machinery import SourceFileLoader
from importlib.util import module_from_spec, spec_from_loader
from pathlib import Path

sys.dont_write_bytecode = True
import beside_perf  # noqa: E402
import beside_readelf  # noqa: E402
import plain_unwinder  # noqa: E402
from beside_readelf import TOP, changed, processor_time  # noqa: E402

KEPT, DATA = TOP / "fuzz" / "out" / "programs", TOP / "crates" / "cfi" / "data"


def loaded(path):
    """A script as a module."""
    loader = SourceFileLoader(Path(path).stem, str(path))
    module = module_from_spec(spec_from_loader(loader.name, loader))
    loader.exec_module(module)
    return module


SUMMARIES, PROFILES = loaded(TOP / "crates/cfi/runs/summaries.py"), loaded(TOP / "tools/compare_with_perf")
FIXED = SUMMARIES.fixed_in(next(output for command, output, _ in SUMMARIES.runs_in(TOP / "crates/cfi/runs/graphs")))
NAMES = [b"main", b"f", b"g", b"a b", b"<T>::f", b'"x"&', b"\xc3\xb6", b"\xff", b"\x1b[2J", b"\xc2\x9b", b"f(int)", b"", b"\xef\xbf\xbe", b"x" * 70]
COUNTS = [b"0", b"1", b"1", b"2", b"3", b"1000", b"4294967296", b"9007199254740991", b"18446744073709551615", b"18446744073709551616", b"-1", b"1.5", b""]
# ---- text as objects have it


def plain(text):
    """The same without escapes, and with the replacement character for what isn't UTF-8."""
    found = re.sub(rb"\\x([0-9a-f]{2})", lambda escape: bytes([int(escape[1], 16)]), text).decode("utf-8", "surrogateescape")
    return re.sub("[\udc80-\udcff]", "\ufffd", found)


def error_text(found):
    if "reason" in found or re.fullmatch(r"[A-Z]\w*", found["error"]):
        return f"refused {found['error']}" + (f": {found['reason']}" if "reason" in found else "")
    return found["error"]


def row_text(found):
    """A line of `rows` by its object."""
    if "section" in found:
        return found["section"]
    if "fde" in found:
        return " ".join(["fde", found["fde"]["start"], found["fde"]["end"]] + [found["fde"][name] for name in ("function",) if name in found["fde"]])
    if "error" in found:
        return error_text(found)
    rules = "".join(f" {register}={rule}" for register, rule in found["rules"].items())
    with_bytes = [register for register, rule in found["rules"].items() if re.match(r"(val_)?expr\(", rule)]
    if with_bytes != list(found.get("rules_bytes", {})) or found["cfa"].startswith("expr(") != ("cfa_bytes" in found):
        return f"bytes of expressions: {found}"
    return f"{found['start']} {found['end']} cfa={found['cfa']} args={found['args']}{rules}"


def frame_text(frame):
    place, address = int(frame["place"], 16), "".join(f"{int(frame[name], 16):16x}\t" for name in ("address",) if name in frame)
    function = f"{frame['function']}+{frame['offset']:#x}" if "function" in frame else "[unknown]"
    if "kernel" in frame and place < 1 << 63:
        return "a frame of the kernel below it"
    return f"\t{address}{place:16x} {function} ({frame.get('file', '[unknown]')})"


def stack_text(found):
    """The lines of a stack of `unwind` or `stack` by its object; of an end its name alone."""
    if "error" in found:
        return [error_text(found)]
    if "time" in found:
        seconds, _, digits = found["time"].partition(".")
        cpu = f"[{found['cpu']:03d}] " if "cpu" in found else ""
        head = f"{found['comm']} {found['pid']:5d}/{found['tid']:<5d} {cpu}{seconds:>5}.{digits[:6]}: {int(found['period']):10d} {found['event']}:"
    else:
        head = f"thread {found['tid']}"
        head += f" signal {found.get('signal')}" * ("signal" in found) + f" {found.get('name')}" * ("name" in found)
        head += f" code {found.get('code')} address {found.get('fault')}" * ("code" in found) + f" of {found.get('process')}" * ("process" in found)
    return [head, *map(frame_text, found["frames"]), *([f"# ({found['end']})"] if "end" in found else []), ""]


# ---- one input


class Run:
    """The program, a file, and what is counted."""

    def __init__(self, program, folder):
        self.program, self.path, self.errors = program, folder / "input", b""
        self.rules, self.counts, self.unwinder = collections.Counter(), collections.Counter(), plain_unwinder.Unwinder()

    def cfi(self, *words):
        """Standard output and status; `errors` has standard error."""
        done = subprocess.run([self.program, *words, self.path], stdin=subprocess.DEVNULL, capture_output=True, timeout=600, check=False, cwd=DATA)
        if done.returncode not in (0, 1, 2):
            raise AssertionError(f"cfi {words}: status {done.returncode}: {done.stderr[-400:]}")
        self.errors = done.stderr
        return done.stdout, done.returncode

    def objects(self, *words):
        """The objects of JSON; the text isn't one where there was no memory for the words."""
        output, status = self.cfi(words[0], "--format=json", *words[1:])
        return [json.loads(line) for line in output.decode().split("\n")[:-1]], status


def compared(run, what, ours, theirs):
    """A difference of two lists of lines, if there is one."""
    run.counts[what] += len(theirs)
    if ours != theirs:
        k = next((k for k, pair in enumerate(zip(ours, theirs)) if pair[0] != pair[1]), min(len(ours), len(theirs)))
        yield None, f"{what}, {k}: {ours[k:k + 1]!r:.300} and {theirs[k:k + 1]!r:.300}"


def lines_of(output):
    return [plain(line) for line in output.split(b"\n")[:-1]]


# ---- ELF files


class Section:
    """The FDEs of a section by what `rows` printed, and the errors between them."""

    def __init__(self):
        self.items = []

    def rows_at(self, address):
        """What a scan for the address may give: lines of `row`. After an error of which it can't be told whether it is one of
        an entry or of the FDE before it, more than one."""
        found = set()
        for kind, item, rows in self.items:
            if kind == "error":
                found.add(item)
                return found
            start, end = item
            errors = [row for first, _, row in rows if first is None]
            if start <= address < end:
                hits = [row for first, last, row in rows if first is None or first <= address < last]
                return found | {hits[0] if hits else "none"} | set(errors if hits and hits[0] in errors else [])
            found.update(errors)
            if len(errors) == 1 and rows[-1][0] is None and len(rows) > 1 and rows[-2][1] == end:
                return found
        return found | {"none"}


def sections_of(objects):
    """The sections by their names, and what is said of the file."""
    sections, section, said = {}, None, []
    for found in objects:
        if "section" in found:
            section = sections[found["section"]] = Section()
            continue
        if section is None:
            section = sections[""] = Section()
        if "fde" in found:
            section.items.append(("fde", (int(found["fde"]["start"], 16), int(found["fde"]["end"], 16)), []))
        elif "error" in found:
            if section.items and section.items[-1][0] == "fde":
                section.items[-1][2].append((None, None, error_text(found)))
            else:
                section.items.append(("error", error_text(found), None))
        else:
            section.items[-1][2].append((int(found["start"], 16), int(found["end"], 16), row_text(found)))
    return sections


def compare_elf(run, random_):
    text, status = run.cfi("rows")
    objects, same = run.objects("rows")
    yield from compared(run, "lines of rows", lines_of(text) + [status], [plain(row_text(it).encode()) for it in objects] + [same])
    sections = sections_of(objects)
    if not any(kind == "fde" for section in sections.values() for kind, _, _ in section.items):
        return
    addresses = addresses_in(sections, random_)
    output = run_row(run, addresses)
    if len(output) != len(addresses):
        yield None, f"row: {len(output)} lines for {len(addresses)} addresses: {output[:1]}"
        return
    check = lines_of(run.cfi("check")[0])[0].rpartition(": ")[2]
    is_searched = not re.match(r"no header|has no table|faithful|refused Relocatable", check) and "header: has no table" not in check
    tables = tables_of(lines_of(run.cfi("table")[0]))
    for address, line in zip(addresses, output):
        yield from compare_address(run, sections, tables, address, line.partition(": ")[2], is_searched)


def run_row(run, addresses):
    words = [run.program, "row", run.path, *map(hex, addresses)]
    done = subprocess.run(words, stdin=subprocess.DEVNULL, capture_output=True, timeout=600, check=False)
    return lines_of(done.stdout)


def addresses_in(sections, random_):
    """Some addresses at which rows begin and end, and between them."""
    edges = [edge for section in sections.values() for kind, item, rows in section.items if kind == "fde"
             for edge in (*item, *(first for first, _, _ in rows if first is not None))]
    found = [0, 0xFFFFFFFFFFFFFFFF] + [random_.choice(edges) + random_.choice([0, 0, -1, 1, 3]) for _ in range(14)]
    return list(dict.fromkeys(address & 0xFFFFFFFFFFFFFFFF for address in found))


def tables_of(lines):
    """The steps of the table of each section: starts, and what holds from there on."""
    tables, steps = {}, None
    for line in lines:
        found = re.match(r"(0x[0-9a-f]+) (.*)", line)
        if re.fullmatch(r"\.\w+", line):
            steps = tables[line] = []
        elif steps is None:
            steps = tables[""] = []
        if found:
            steps.append((int(found[1], 16), found[2]))
        elif not line.startswith("."):
            steps.append((None, line))
    return tables


NONE = "refused NoUnwindInfoForAddress: no unwind information for the address"


def compare_address(run, sections, tables, address, line, is_searched):
    """A line of `row`, and the step of each table, with the rows of the address."""
    said, wanted = set(), {"none"}
    for name in sorted(sections, reverse=True):
        found = sections[name].rows_at(address)
        wanted = (wanted - {"none"}) | found if "none" in wanted else wanted
        steps = tables.get(name, [])
        said = {step for start, step in steps if start is None}
        if said:
            if not said & {item for kind, item, _ in sections[name].items if kind == "error"} and not any(
                    first is None and row in said for _, _, rows in sections[name].items for first, _, row in rows or []):
                yield None, f"table: {name} {said}, which `rows` doesn't have"
            continue
        run.counts["steps of tables"] += 1
        step = next((step for start, step in reversed(steps) if start <= address), "no step")
        rows = {NONE if row == "none" else re.sub(r"^0x\w+ 0x\w+ ", "", row) for row in found}
        if step not in rows:
            yield None, f"table: {name} {address:#x}: {step!r}, and a scan: {rows}"
    if is_searched:
        run.rules["`row` goes by a table that isn't faithful"] += 1
        return
    run.counts["addresses of rows"] += 1
    if line not in {NONE if row == "none" else row for row in wanted}:
        yield None, f"row {address:#x}: {line!r}, and by rows: {wanted}"


# ---- profiles


def compare_profile(run, random_):
    words = random_.choice([[], [], ["--raw"], ["--limit=3"], ["--tid=8"], ["--time=1.000002,"]])
    text, status = run.cfi("unwind", *words)
    objects, same = run.objects("unwind", *words)
    yield from compare_stacks(run, "lines of unwind", text, objects, status, same, "--raw" in words)
    if "--raw" in words:
        return
    for option in ([], ["--period"]):
        folded, folded_status = run.cfi("fold", *words, *option)
        yield from compare_folded(run, folded, objects, bool(option), folded_status == same)
    if not words:
        other_builds = set(re.findall(r"^cfi: (.*): no file of the build that ran is here$", run.errors.decode("latin-1"), re.M))
        yield from compare_frames(run, objects, other_builds)


def compare_stacks(run, what, text, objects, status, same, is_raw):
    ours = [re.sub(r"^# .* \((\w+)( \w+)?\)$", r"# (\1)", line) for line in lines_of(text)]
    theirs = [plain(line.encode()) for found in objects for line in stack_text(found)]
    if is_raw:
        theirs = [re.sub(r"^(\t(?: *\w+\t)? *[0-9a-f]+) \[unknown\] ", r"\1 ", line) for line in theirs]
    yield from compared(run, what, ours + [status], theirs + [same])


def compare_folded(run, folded, objects, is_by_period, is_status_equal):
    """The lines of `fold` with the stacks of `unwind`."""
    lines = folded.split(b"\n")[:-1]
    errors = [error_text(found) for found in objects if "error" in found]
    counts, ours = collections.Counter(), collections.Counter()
    for found in objects:
        if "error" not in found:
            users = [name_in_fold(frame) for frame in found["frames"] if "kernel" not in frame]
            kernels = [name_in_fold(frame) for frame in found["frames"] if "kernel" in frame]
            thread = found["comm"].replace(";", ":").replace(" ", "_")
            counts[plain(";".join([thread, *users[::-1], *kernels[::-1]]).encode())] += max(int(found["period"]), 1) if is_by_period else 1
    if any(count >= 1 << 64 for count in counts.values()) and lines == [b"refused TooManySamples"]:
        run.counts["folded stacks"] += 1
        return
    if errors and lines and lines[-1:] == [errors[-1].encode()]:
        lines.pop()
    if lines != sorted(lines, key=lambda line: line.rpartition(b" ")[0]):
        yield None, "fold: lines aren't in order"
    for line in lines:
        stack, _, count = line.rpartition(b" ")
        ours[plain(stack)] += int(count) if count.isdigit() else 1 << 65
    if not is_status_equal:
        yield None, "fold: another status than that of unwind"
    yield from compared(run, "folded stacks", sorted(ours.items()), sorted(counts.items()))


def name_in_fold(frame):
    if "function" in frame:
        return frame["function"].replace(";", ":")
    return f"[{frame['file'].split('/')[-1]}]".replace(";", ":") if "file" in frame else "[unknown]"


def compare_frames(run, objects, other_builds):
    """The frames of user space with those of another unwinder, up to what that doesn't know."""
    try:
        profile = PROFILES.Profile(str(run.path))
        if profile.data[:8] != b"PERFILE2" or any(not event.type & PROFILES.STACK or event.kind > 1 for event in profile.events):
            return
        samples = profile.samples()
    except Exception:  # a profile that isn't sound: compare_with_perf reads sound ones
        run.rules["a profile that the script can't read"] += 1
        return
    for found in objects:
        if "error" in found:
            continue
        queue = samples.get((found["pid"], found["tid"], int(found["time"].replace(".", "")) // 1000))
        sample = queue.popleft() if queue else None
        if not sample or PROFILES.PC not in sample.registers or PROFILES.SP not in sample.registers or found.get("end") == "OtherAbi":
            run.rules["a sample without registers, or that the script doesn't find"] += 1
            continue
        registers = {plain_unwinder.OF_PERF[k]: value for k, value in sample.registers.items() if k in plain_unwinder.OF_PERF}
        read = plain_unwinder.window(registers[plain_unwinder.STACK], sample.stack)
        mappings = [mapping._replace(name="") if mapping.name in other_builds else mapping for mapping in sample.mappings]
        places, end = run.unwinder.frames(registers, mappings, read)
        ours = [int(frame["place"], 16) for frame in found["frames"] if "kernel" not in frame]
        run.counts["frames"] += len(places)
        if end == "?":
            ours, said = ours[: len(places)], "?"
            run.rules["a row with an expression, of which the script knows nothing"] += 1
        else:
            said = found.get("end", "Outermost")
        if (ours, said) != (places, end):
            yield None, f"frames at {found['time']}: {[hex(it) for it in ours]} {said}, and by rows of readelf {[hex(it) for it in places]} {end}"


# ---- core files, and folded stacks


def compare_core(run, random_):
    words = random_.choice([[], [], ["--raw"], ["--thread=8"]])
    text, status = run.cfi("stack", *words)
    objects, same = run.objects("stack", *words)
    yield from compare_stacks(run, "lines of stack", text, objects, status, same, "--raw" in words)


def compare_summaries(run, random_):
    text = run.path.read_bytes()
    flame = random_.choice([[], ["--reverse"], ["--min-width=0.1"], ["--min-width=30", "--reverse"], ["--title=a<b&"], ["--min-width=0.000000001"]])
    for command, words, expected in (
            ("report", [], SUMMARIES.report(text, [])),
            ("report", ["--format=json"], SUMMARIES.report(text, ["--format=json"])),
            ("flame", flame, SUMMARIES.graph(text, flame, FIXED))):
        output, status = run.cfi(command, *words)
        yield from compared(run, f"lines of {command}", [*output.split(b"\n"), status], [*expected[0].split(b"\n"), expected[1]])


def folded_stacks(random_):
    """Folded stacks with odd names and numbers, and then other bytes."""
    lines = []
    for _ in range(random_.choice([0, 1, 3, 10, 40])):
        names = [random_.choice(NAMES[: random_.choice([3, len(NAMES)])]) for _ in range(random_.choice([1, 2, 3, 6]))]
        lines.append(b";".join(names) + random_.choice([b" "] * 12 + [b"", b"  ", b"\t"]) + random_.choice(COUNTS[1 : random_.choice([5, 5, 5, 9])]
                     if random_.random() < 0.95 else COUNTS))
    text = b"\n".join(lines) + random_.choice([b"\n", b"", b"\n\n"])
    return changed(random_, text, [(0, len(text))]) if random_.random() < 0.2 else text


# ---- inputs


def parts_of(kind, data):
    if kind == "profile":
        return beside_perf.parts_of(data)
    return beside_readelf.Elf(data).parts()


def kind_of(data):
    if data[:8] in (b"PERFILE2", b"2ELIFREP"):
        return "profile"
    if data[:4] == b"\x7fELF" and len(data) > 64:
        return "core" if 4 in data[16:18] else "elf"
    return None


COMPARE = {"elf": compare_elf, "profile": compare_profile, "core": compare_core, "folded": compare_summaries}


def compare(run, seeds, number):
    """Each difference of the input of this number."""
    random_ = random.Random(number)
    kind = random_.choice(sorted(seeds))
    if kind == "folded":
        data = folded_stacks(random_)
    else:
        seed = random_.choice(seeds[kind])
        data = changed(random_, seed, parts_of(kind, seed)) if random_.random() < 0.9 else seed
    run.path.write_bytes(data)
    run.counts[f"inputs: {kind}"] += 1
    yield from ((rule, f"{kind}: {what}") for rule, what in COMPARE[kind](run, random_))


def main():
    parser = argparse.ArgumentParser(usage=__doc__)
    parser.add_argument("program")
    parser.add_argument("files", nargs="*")
    for name, number in (("inputs", 10000), ("seed", 1), ("show", 20), ("seconds", 1 << 30)):
        parser.add_argument(f"--{name}", type=int, default=number)
    asked = parser.parse_intermixed_args()
    seeds = collections.defaultdict(list, folded=[b""])
    for file in [*sorted(DATA.iterdir()), Path("/bin/true"), *map(Path, asked.files)]:
        if kind_of(data := file.read_bytes()):
            seeds[kind_of(data)].append(data)
    (KEPT / "work").mkdir(parents=True, exist_ok=True)
    run, wrong = Run(str(Path(asked.program).resolve()), KEPT / "work"), 0
    # the profiles and core files have names of files by /proc/self/cwd
    os.chdir(DATA)
    for number in range(asked.seed, asked.seed + asked.inputs):
        if processor_time() > asked.seconds:
            break
        for rule, what in compare(run, seeds, number):
            if rule:
                run.rules[rule] += 1
                continue
            wrong += 1
            (KEPT / str(number)).write_bytes(run.path.read_bytes())
            if wrong <= asked.show:
                print(f"{KEPT / str(number)}: {what}", flush=True)
    print("beside_programs: " + ", ".join(f"{count} {what}" for what, count in sorted(run.counts.items())) + f"; {processor_time():.0f} s")
    for rule, count in run.rules.most_common():
        print(f"  {count}: {rule}")
    print(f"beside_programs: {wrong} without a rule")
    return int(wrong != 0)


if __name__ == "__main__":
    sys.exit(main())
