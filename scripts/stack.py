#!/usr/bin/env python3
"""Reads off an archive how much stack each exported call takes, and holds the header's figures to it.

    scripts/stack.py ARCHIVE                     the bytes of stack that each rudderfig_ call takes, return address included
    scripts/stack.py ARCHIVE HEADER              the same beside the figures RUDDERFIG_STACK_.. of the header; the exit status is 0 only where each is enough
    scripts/stack.py ARCHIVE HEADER FRAMES       for any processor: FRAMES is what the compiler says of each function's frame (-fstack-usage)

For x86-64 a function's frame is read off the machine code: its return address, its pushes and what it takes from the stack pointer. A call is as deep as
its frame and the deepest function that it calls, or the bytes below the stack pointer that it writes (the red zone, which x86-64 alone has). memcpy and
memset are the caller's and count as nothing.
"""
import re
import subprocess
import sys

WORD = 8


def functions(archive):
    """For each function of the archive the lines of its code."""
    text = subprocess.run(["objdump", "-dr", "--no-show-raw-insn", archive], capture_output=True, text=True, check=True).stdout
    found, lines = {}, []
    for line in text.splitlines():
        start = re.match(r"[0-9a-f]+ <(.+)>:$", line)
        if start:
            lines = found.setdefault(start.group(1), [])
        lines.append(line)
    return found


def taken(line):
    """The bytes by which a line lowers the stack pointer."""
    if re.search(r"\tpush ", line):
        return WORD
    if m := re.search(r"\tsub +\$0x([0-9a-f]+),%rsp", line):
        return int(m.group(1), 16)
    if m := re.search(r"\tadd +\$0x(f{8}[0-9a-f]{8}),%rsp", line):
        return 2**64 - int(m.group(1), 16)
    return 0


def looped(line):
    """The bytes by which a loop that ends at %r11 lowers it, where a line sets that end: so a frame that is many times as large as a step is probed."""
    m = re.search(r"\tlea +-0x([0-9a-f]+)\(%rsp\),%r11", line) or re.search(r"\tsub +\$0x([0-9a-f]+),%r11", line)
    return int(m.group(1), 16) if m else 0


class Depths:
    """The depth of each function: its frame, and the red zone or the deepest function that it calls. A processor tells frame, red_zone and calls."""

    def depth(self, name, above=()):
        if name in above:
            sys.exit(f"stack.py: {name} calls itself, so its depth cannot be read off the code")
        below = [self.depth(called, above + (name,)) for called in self.calls(name)]
        return self.frame(name) + max([self.red_zone(name)] + below)


class MachineCode(Depths):
    """x86-64, read off the machine code."""

    def __init__(self, archive):
        self.code = functions(archive)

    def names(self):
        return self.code

    def frame(self, name):
        size, inside = WORD, False
        for line in self.code[name]:
            # The step of such a loop is the first line after its end that lowers the stack pointer.
            size += looped(line) + (0 if inside else taken(line))
            inside = bool(looped(line)) or inside and not taken(line)
        return size

    def red_zone(self, name):
        return max((int(m, 16) for line in self.code[name] for m in re.findall(r"-0x([0-9a-f]+)\(%rsp", line) if "%r11" not in line), default=0)

    def calls(self, name):
        targets = (re.search(r"R_X86_64_(?:PLT32|PC32)\t(?:\.text\.)?(\S+?)-0x4$", line) for line in self.code[name])
        return {m.group(1) for m in targets if m} & set(self.code)


class Frames(Depths):
    """Frames as the compiler states them, and calls as the relocations of each function's section name them."""

    def __init__(self, archive, frames):
        lines = (line.split("\t") for line in open(frames))
        self.frames = {place.split(":", 1)[1]: int(size) for place, size, _ in lines}
        text = subprocess.run(["readelf", "-rW", archive], capture_output=True, text=True, check=True).stdout
        self.called, at = {}, None
        for line in text.splitlines():
            if section := re.match(r"Relocation section '(\S+)' at", line):
                at = re.sub(r"^\.rela?\.text\.", "", section.group(1))
            elif relocation := re.match(r"[0-9a-f]+ +[0-9a-f]+ +R_\S+ +[0-9a-f]+ +(?:\.text\.)?(\S+)", line):
                self.called.setdefault(at, set()).add(relocation.group(1))

    def names(self):
        return self.frames

    def frame(self, name):
        return self.frames[name]

    def red_zone(self, name):
        return 0

    def calls(self, name):
        return (self.called.get(name, set()) & set(self.frames)) - {name}


def figures(header):
    return {name: int(number) for name, number in re.findall(r"#define RUDDERFIG_STACK_(\w+) (\d+)", open(header).read())}


if __name__ == "__main__":
    if len(sys.argv) not in (2, 3, 4):
        sys.exit(__doc__)
    depths = Frames(sys.argv[1], sys.argv[3]) if len(sys.argv) == 4 else MachineCode(sys.argv[1])
    stated = figures(sys.argv[2]) if len(sys.argv) > 2 else {}
    enough = True
    for name in sorted(n for n in depths.names() if n.startswith("rudderfig_")):
        depth = depths.depth(name)
        figure = stated.get(name.removeprefix("rudderfig_").upper())
        enough &= not stated or (figure is not None and depth <= figure)
        print(f"{name}: {depth} bytes of stack" + (f", the header says {figure}" if stated else ""))
    sys.exit(0 if enough else "stack.py: a figure of the header is too small or missing")
