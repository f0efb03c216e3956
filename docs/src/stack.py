"""How much stack a function of a program needs at most, with all functions under it, as its machine code says.

python3 docs/src/stack.py crates/bench/out/bench loading::load     prints the frames along the deepest chain of calls
"""

import re
import subprocess
import sys
from collections import namedtuple

RETURN_ADDRESS = 8
HEADING = re.compile(r"[0-9a-f]+ <(.+)>:$")
TARGET = re.compile(r"(call|j\w+)\s+[0-9a-f]+ <([^>+]+)>$")
SUBTRACTED = re.compile(r"sub\s+rsp,0x([0-9a-f]+)$")
PROBED = re.compile(r"lea\s+r11,\[rsp-0x([0-9a-f]+)\]$")      # a loop then takes so much, a page at a time
PAGE = 4096

Function = namedtuple("Function", "frame calls jumps")


class Unknown(Exception):
    """The machine code does not say how much."""


def functions(program):
    """The functions of a program by name. Those that the compiler inlined are not among them."""
    listing = subprocess.run(["objdump", "-d", "-M", "intel", "--no-show-raw-insn", program], check=True, text=True,
                             capture_output=True).stdout
    bodies, name = {}, None
    for line in listing.splitlines():
        heading = HEADING.match(line)
        if heading:
            name = heading.group(1)
            bodies[name] = []
        elif "\t" in line:
            bodies[name].append(line.split("\t", 1)[1].strip())
    return {name: function(name, body) for name, body in bodies.items()}


def function(name, body):
    """All its pushes count, as if no two were on different ways through it."""
    frame = RETURN_ADDRESS
    calls, jumps = set(), set()
    for instruction in body:
        subtracted, probed, target = (form.match(instruction) for form in (SUBTRACTED, PROBED, TARGET))
        if instruction.startswith("push "):
            frame += 8
        elif subtracted:
            frame += int(subtracted.group(1), 16)
        elif probed:
            frame += int(probed.group(1), 16) - PAGE
        elif target:
            (calls if target.group(1) == "call" else jumps).add(target.group(2))
        elif instruction.startswith("call "):
            calls.add(f"unnamed in {name}")
    return Function(frame, calls, jumps - {name})


def chain(known, name, above=()):
    """The deepest chain of calls from a function on: names and frames, the return addresses included. What the C library's own
    functions take is not counted."""
    if name.endswith("@plt"):
        return [(name, RETURN_ADDRESS)]
    if name in above:
        raise Unknown(f"{name} calls itself")
    if name not in known:
        raise Unknown(name)
    above = (*above, name)
    under = [chain(known, callee, above) for callee in known[name].calls]
    instead = [chain(known, callee, above) for callee in known[name].jumps]      # its own frame is gone by then
    return max([[(name, known[name].frame), *max(under, key=size, default=[])], *instead], key=size)


def size(frames):
    return sum(frame for _, frame in frames)


def deepest(known, name):
    return size(chain(known, name))


def main(program, name):
    """The frames along the deepest chain from a function of a program on, and their sum."""
    frames = chain(functions(program), name)
    for callee, frame in frames:
        print(f"{frame:6} {callee}")
    print(f"{size(frames):6}")


if __name__ == "__main__":
    main(*sys.argv[1:])
