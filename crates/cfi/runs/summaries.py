#!/usr/bin/env python3
"""Computes what `cfi flame`, `cfi report` and `cfi fold` print, from their input and docs/PROGRAMS.md alone, and compares it with
the stored runs: summaries.py FOLDER, the folder with these files. The program isn't run. It also compares the objects of stacks
with the text of the same stacks, as they are stored.

Of graphs it computes all but the text that is in each: the style and the script, which are taken from the first whole graph of
`graphs`. Folded stacks are computed from what is stored for `cfi unwind` with the same words, and the summaries of those from what
is stored for `cfi fold`. What follows `cfi` after a bar is run over what was computed. Status 1: something differs.
"""
import json
import re
import subprocess
import sys
from fractions import Fraction
from pathlib import Path

FILES = ("graphs", "flame", "report", "fold")
UNFOLDED = re.compile(rb"^(.*?) +\d+/\d+ +(?:\[\d+\] )?\d+\.\d{6}: +(\d+) .*:$")


def runs_in(file):
    """Each run: its command, what it writes to standard output, and its status."""
    for run in re.split(rb"^\$ ", file.read_bytes(), flags=re.M)[1:]:
        command, _, rest = run.partition(b"\n")
        lines = rest.split(b"\n")[:-1]
        output = b"".join(line + b"\n" for line in lines[:-1] if not re.match(rb"!( |$)", line))
        yield command.decode("utf-8", "surrogateescape"), output, int(lines[-1].removeprefix(b"= "))


def in_bash(command, given=b""):
    words = ["bash", "-c", command.encode("utf-8", "surrogateescape")]
    return subprocess.run(words, input=given, stdout=subprocess.PIPE, check=False).stdout


def words_of(text):
    return [word.decode("utf-8", "surrogateescape") for word in in_bash(f"printf '%s\\0' {text}").split(b"\0")[:-1]]


def shown(text, also=""):
    """As names are printed: control characters and bytes that aren't UTF-8 are escaped, and the characters `also`."""
    parts = []
    for character in text.decode("utf-8", "surrogateescape"):
        if ord(character) < 0x20 or 0x7F <= ord(character) < 0xA0 or 0xDC80 <= ord(character) <= 0xDCFF or character in also:
            parts += [b"\\x%02x" % byte for byte in character.encode("utf-8", "surrogateescape")]
        else:
            parts.append(character.encode())
    return b"".join(parts)


class Refused(Exception):
    """What is printed in place of a summary."""


def stacks_in(text):
    """The functions and the count of each line."""
    stacks = []
    for number, line in enumerate(text.split(b"\n"), 1):
        if not line:
            continue
        found = re.fullmatch(rb"(.+) (\d+)", line, re.S)
        if not found or int(found[2]) >= 2**64:
            raise Refused("NotFolded", number)
        # The semicolons stay what they are: those of an escape would be none.
        names = [shown(name, "\ufffe\uffff") for name in found[1].split(b";")]
        stacks.append((names, int(found[2])))
    if sum(count for _, count in stacks) == 0:
        raise Refused("NoSamples", None)
    if sum(count for _, count in stacks) >= 2**64:
        raise Refused("TooManySamples", None)
    return stacks


def number(value):
    """A number of JSON, or its digits as a string."""
    return value if value < 2**53 else str(value)


def objects(*members):
    return b"".join(json.dumps(it, ensure_ascii=False, separators=(",", ":")).encode() + b"\n" for it in members)


def report(text, options):
    is_json = "--format=json" in options
    try:
        stacks = stacks_in(text)
    except Refused as refused:
        name, line = refused.args
        if is_json:
            return objects({"error": name} | ({"line": line} if line else {})), 1
        return f"refused {name}{f' {line}' if line else ''}\n".encode(), 1
    own, total, samples = {}, {}, sum(count for _, count in stacks)
    for names, count in stacks:
        own[names[-1]] = own.get(names[-1], 0) + count
        for name in set(names):
            total[name] = total.get(name, 0) + count
    order = sorted(total, key=lambda name: (-own.get(name, 0), name))
    if is_json:
        functions = ({"function": name.decode(), "self": number(own.get(name, 0)), "total": number(total[name])} for name in order)
        return objects({"samples": number(samples)}, *functions), 0

    # A number has a space before it, however long it is.
    width = max([12, *(len(str(count)) + 1 for count in total.values())])

    def counted(count):
        share = count * 10000 // samples
        return b"%*d%9s" % (width, count, b"%d.%02d%%" % divmod(share, 100))

    heading = b"%*s%9s%*s%9s  function\n" % (width, b"self", b"self%", width, b"total", b"total%")
    return heading + b"".join(b"%s%s  %s\n" % (counted(own.get(name, 0)), counted(total[name]), name) for name in order), 0


def escaped(name):
    for character, entity in ((b"&", b"&amp;"), (b"<", b"&lt;"), (b">", b"&gt;"), (b'"', b"&quot;")):
        name = name.replace(character, entity)
    return name


def boxes_of(stacks):
    """The functions of each box, how many samples are to its left, and how many it has: those of each stack from the bottom up."""
    boxes, left, before = {}, 0, []
    for names, count in sorted(stacks):
        for end in range(1, len(names) + 1):
            if before[:end] != names[:end]:
                boxes[tuple(names[:end])] = [left, 0]
            boxes[tuple(names[:end])][1] += count
        left, before = left + count, names
    return [(functions, *box) for functions, box in boxes.items()]


# How the names begin by which the kernel is entered, and those of functions that were compiled as they ran.
ENTRIES = rb"entry_(SYSCALL|SYSENTER|INT80)_|asm_(exc|sysvec)_|asm_common_interrupt|asm_int80_emulation|do_syscall_64|el[01]t?_|el1h_"
ENTRIES += rb"|ret_from_fork|secondary_startup|__primary_switched|\[\[(guest\.)?kernel\."
COMPILERS = rb"JS:|LazyCompile:|Function:[~*]|(Script|Eval):~|RegExp:|BytecodeHandler:|py::"
KERNEL, JIT, INLINED = 1, 2, 3
HUES = {0: (10, 50), KERNEL: (200, 30), JIT: (90, 30), INLINED: (150, 30)}
KINDS = {0: b"", KERNEL: b", kernel", JIT: b", JIT", INLINED: b", inlined"}


def kinds(names):
    """Each function with its kind: that at the end of its name, else by where the kernel is entered, or by how it begins."""
    in_kernel = False
    for name in names:
        in_kernel = in_kernel or bool(re.match(ENTRIES, name))
        ended = re.fullmatch(rb"(.*)_\[([kji])\]", name, re.S)
        if ended:
            yield ended[1], {b"k": KERNEL, b"j": JIT, b"i": INLINED}[ended[2]]
        else:
            yield name, KERNEL if in_kernel else JIT if re.match(COMPILERS, name) else 0


def hue(name, kind):
    total = 0
    for byte in name:
        total = (total * 31 + byte) % 997
    first, count = HUES[kind]
    return first + total % count


def place(left, width, row, samples):
    start, end = left * 10**8 // samples, (left + width) * 10**8 // samples
    return b' x="%de-6%%" y="%d" width="%de-6%%"' % (start, row * 18, end - start)


def per_cent(width, samples):
    return b"%d.%02d%%" % divmod(width * 10**4 // samples, 100)


def box_text(name, kind, left, width, row, samples):
    said = b"%s: %d sample%s, %s%s" % (escaped(name), width, b"" if width == 1 else b"s", per_cent(width, samples), KINDS[kind])
    where = place(left, width, row, samples)
    return b'<rect%s height="17" fill="hsl(%d,80%%,65%%)"><title>%s</title></rect>\n' % (where, hue(name, kind), said)


def label_text(name, left, width, row, samples):
    """The label of a box, if there is room for three letters of 7.25 pixels: those that aren't ASCII have room for two."""
    room = max(Fraction(width * 1200, samples) * 100 // 1 - 600, 0) // 725
    if room < 3:
        return b""

    def letters(text):
        return sum(1 if ord(letter) < 0x80 else 2 for letter in text)

    text = name.decode()
    figures = " (%d, %s)" % (width, per_cent(width, samples).decode())
    if letters(text + figures) <= room:
        text += figures
    elif letters(text) > room:
        while letters(text) > room - 2:
            text = text[:-1]
        if not text:
            return b""
        text += ".."
    return b'<svg%s><text x="3" y="13">%s</text></svg>\n' % (place(left, width, row, samples), escaped(text.encode()))


def graph(text, options, fixed):
    title, least, is_reversed = b"Flame graph", Fraction(0), "--reverse" in options
    for option in options:
        if option.startswith("--title="):
            title = option.removeprefix("--title=").encode("utf-8", "surrogateescape")
        if option.startswith("--min-width="):
            least = Fraction(option.removeprefix("--min-width="))
    try:
        stacks = [(list(kinds(names)), count) for names, count in stacks_in(text)]
    except Refused as refused:
        name, line = refused.args
        return f"refused {name}{f' {line}' if line else ''}\n".encode(), 1
    if is_reversed:
        stacks = [(names[::-1], count) for names, count in stacks]
    samples = sum(count for _, count in stacks)
    boxes = [box for box in boxes_of(stacks) if box[2] * 1200 >= samples * least]
    rows = max((len(functions) for functions, _, _ in boxes), default=1)
    drawn, labels = [box_text(b"all", 0, 0, samples, rows, samples)], [label_text(b"all", 0, samples, rows, samples)]
    for functions, left, width in boxes:
        (name, kind), row = functions[-1], rows - len(functions)
        drawn.append(box_text(name, kind, left, width, row, samples))
        labels.append(label_text(name, left, width, row, samples))
    before_title, before_boxes, before_labels, after = fixed
    height = b"%d" % ((rows + 1) * 18 + 82)
    parts = (before_title.replace(b"HEIGHT", height), escaped(shown(title, "\ufffe\uffff")), before_boxes, *drawn, before_labels, *labels, after)
    return b"".join(parts), 0


def fixed_in(whole):
    """The parts of a graph that are in each: before its title, from there to its boxes, from those to the labels, and after them."""
    found = re.fullmatch(
        rb"(.*?id='title'>)[^<]*(</text>.*?<g id='boxes'>\n)(?:<rect .*?</rect>\n)*(</g>\n<g id='labels'>\n)"
        rb"(?:<svg .*?</svg>\n)*(</g>\n</svg>\n<script>.*)",
        whole,
        re.S,
    )
    before = re.sub(rb"(height=')\d+(')", rb"\1HEIGHT\2", found[1], count=1)
    return before, found[2], found[3], found[4]


def folded(stacks, by_period):
    """The folded lines of what `cfi unwind` prints."""
    counts = {}
    for stack in stacks.split(b"\n\n"):
        head, *frames = stack.strip(b"\n").split(b"\n")
        found = UNFOLDED.match(head)
        if not found:
            continue
        users, kernels = [], []
        for frame in frames:
            if not frame.startswith(b"#"):
                name, file = re.fullmatch(rb"\t *[0-9a-f]+ (.*) \((.*)\)", frame).groups()
                if name == b"[unknown]":
                    name = b"[unknown]" if file == b"[unknown]" else b"[%s]" % file.split(b"/")[-1]
                else:
                    name = name.rpartition(b"+0x")[0]
                (kernels if frame.startswith(b"\tffff") else users).append(name.replace(b";", b":"))
        thread = found[1].replace(b";", b":").replace(b" ", b"_")
        line = b";".join([thread, *users[::-1], *kernels[::-1]])
        counts[line] = counts.get(line, 0) + (max(int(found[2]), 1) if by_period else 1)
    if any(count >= 2**64 for count in counts.values()):
        return b"refused TooManySamples\n", 1
    return b"".join(b"%s %d\n" % pair for pair in sorted(counts.items())), 0


def frames_in(lines):
    """The frames and the end of a stack, as the objects of JSON have them."""
    frames, members = [], {}
    for line in lines:
        if line.startswith("#"):
            members = {"end": re.search(r"\((\w+)", line)[1]}
            continue
        *addresses, rest = line.removeprefix("\t").split("\t")
        place, function, file = re.fullmatch(r" *([0-9a-f]+)(?: (.*))? \((.*)\)", rest).groups()
        frame = {"address": f"0x{addresses[0].strip()}"} if addresses else {}
        frame["place"] = f"0x{place}"
        if function not in (None, "[unknown]"):
            name, _, offset = function.rpartition("+0x")
            frame |= {"function": name, "offset": int(offset, 16)}
        frame |= {} if file == "[unknown]" else {"file": file}
        frames.append(frame | ({"kernel": True} if place.startswith("ffff") else {}))
    return {"frames": frames} | members


def stack_objects(text):
    """The objects of the stacks of samples and of threads; times have six digits, as in text."""
    for stack in text.decode().removesuffix("\n\n").split("\n\n"):
        head, *lines = stack.split("\n")
        of_thread = re.fullmatch(r"thread (\d+)(?: signal (\d+)(?: (SIG\w+))?)?(?: code (\S+) address (\S+))?(?: of (.*))?", head)
        if of_thread:
            names, kinds = ("tid", "signal", "name", "code", "fault", "process"), (int, int, str, int, str, str)
            parts = zip(names, kinds, of_thread.groups())
            yield {name: kind(part) for name, kind, part in parts if part is not None} | frames_in(lines)
            continue
        comm, pid, tid, cpu, time, period, event = re.fullmatch(r"(.*?) +(\d+)/(\d+) +(?:\[(\d+)\] +)?([\d.]+): +(\d+) (.*):", head).groups()
        numbers = {"comm": comm, "pid": int(pid), "tid": int(tid)} | ({} if cpu is None else {"cpu": int(cpu)})
        yield numbers | {"time": time, "period": number(int(period)), "event": event} | frames_in(lines)


def is_alike(text, output):
    """Whether the objects of JSON are the stacks of the text."""
    found = [json.loads(line) for line in output.splitlines()]
    for stack in found:
        if "time" in stack:
            stack["time"] = stack["time"][:-3]
    return found == list(stack_objects(text))


def main(folder):
    stored = {command: (output, status) for file in ("unwind", "fold", "stack") for command, output, status in runs_in(folder / file)}
    fixed = fixed_in(next(output for command, output, _ in runs_in(folder / "graphs")))
    count, failed = 0, 0
    for file in FILES:
        for command, output, status in runs_in(folder / file):
            expected = expectation(command, stored, fixed)
            if expected is None:
                continue
            count += 1
            if expected != (output, status):
                failed += 1
                print(f"summaries: {file}: {command!r}: stored {output[-300:]!r}, {status}; computed {expected[0][-300:]!r}, {expected[1]}")
    for command, (output, status) in stored.items():
        text = command.replace(" --format=json", "")
        # Names that JSON escapes otherwise than text, and what isn't a stack, are left out.
        if text == command or text not in stored or status or not re.fullmatch(rb"[^\\]*", output):
            continue
        count += 1
        if not is_alike(stored[text][0], output):
            failed += 1
            print(f"summaries: {command!r}: the objects aren't the stacks of {text!r}")
    print(f"summaries: {count} stored runs computed" + (f", {failed} differ" if failed else ", and as stored"))
    return int(failed != 0)


def expectation(command, stored, fixed):
    """The output and the status of a command, and None for one that isn't computed."""
    found = re.fullmatch(r"(.*?) \| cfi (flame|report)((?: --?[a-z-]+(?:=(?:'[^']*'|\$'[^']*'|\S+))?)*) -( \| .*)?", command)
    if found:
        source, kind, options, after = found.groups()
        if source.startswith("cfi fold "):
            source = source.removesuffix(" 2> /dev/null")
            if source not in stored:
                return None
            text = stored[source][0]
        elif re.match(r"printf |\{ printf ", source):
            text = in_bash(source)
        else:
            return None
        options = words_of(options) if options.strip() else []
        output, status = graph(text, options, fixed) if kind == "flame" else report(text, options)
        return (in_bash(after.removeprefix(" | "), output), 0) if after else (output, status)
    found = re.fullmatch(r"cfi fold (.*)", command)
    if found and (words := found[1].replace("--period ", "")) and f"cfi unwind {words}" in stored:
        unwound, status = stored[f"cfi unwind {words}"]
        if re.match(rb"refused|wrong", unwound):
            return unwound, status
        return folded(unwound, "--period" in command) if status == 0 else None
    return None


if __name__ == "__main__":
    sys.exit(main(Path(sys.argv[1])))
