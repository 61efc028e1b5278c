"""Frames and calls of each function, read from machine code for x86-64."""
import os
import re
import shutil
import subprocess

from driver import NATIVE, Stop

WORD = 8

FUNCTION = re.compile(r"^[0-9a-f]+ <(.+)>:$")
GROWS = re.compile(r"\bsub +\$0x([0-9a-f]+),%rsp$")
# A frame of many pages is touched page by page; %r11 holds where that ends.
PAGES = re.compile(r"\bsub +\$0x([0-9a-f]+),%r11$")
PUSH = re.compile(r"\bpush +%")
# What a function that calls no other keeps below the end of the stack: up to 128 bytes, as the convention for x86-64 allows.
BELOW_END = re.compile(r"(?<![\w)])-0x([0-9a-f]+)\(%rsp")
BRANCH = re.compile(r"\b(call|jmp|j[a-z]+) +[0-9a-f]+ <([^>]+?)(@plt)?>")
THROUGH_POINTER = re.compile(r"\bcall +\*")
RELOCATED = re.compile(r"R_X86_64_(?:PLT32|PC32)\s+(\S.*?)-0x4$")
# What a C program has around its main, which the loader calls and not main.
AROUND_MAIN = ("_start", "_init", "_fini", "frame_dummy", "register_tm_clones", "deregister_tm_clones",
               "__do_global_dtors_aux")


class Function:
    def __init__(self, name):
        self.name, self.frame, self.below_end, self.calls = name, WORD, 0, set()

    def take(self, line, pages):
        """Adds what an instruction does to the stack; the bytes of a loop over pages that is under way."""
        if found := PAGES.search(line):
            return int(found[1], 16)
        if found := GROWS.search(line):
            self.frame += pages or int(found[1], 16)
            return 0
        if PUSH.search(line):
            self.frame += WORD
        for found in BELOW_END.findall(line):
            self.below_end = max(self.below_end, -(-int(found, 16) // WORD) * WORD)
        if THROUGH_POINTER.search(line) and self.name not in AROUND_MAIN:
            raise Stop(1, f"{self.name} calls through a pointer: {line.strip()}")
        return pages


def disassembly(path):
    program = os.environ.get("OBJDUMP") or ("objdump" if NATIVE else "x86_64-linux-gnu-objdump")
    if shutil.which(program) is None:
        raise Stop(3, f"there is no {program} to read machine code of x86-64")
    read = subprocess.run([program, "-d", "-r", "--no-show-raw-insn", str(path)], capture_output=True, text=True)
    if read.returncode != 0:
        raise Stop(1, read.stderr.strip())
    return read.stdout.splitlines()


def functions(path):
    """Every function of a file by its name, with its frame and what it calls."""
    found, now, pages, branch = {}, None, 0, None
    for line in disassembly(path):
        if start := FUNCTION.match(line):
            now = found.setdefault(start[1], Function(start[1]))
            pages = 0
        elif now and (moved := RELOCATED.search(line)):
            # An object file names the target in a relocation behind the instruction.
            if branch:
                now.calls.add(moved[1].removeprefix(".text."))
        elif now:
            pages = now.take(line, pages)
            branch = BRANCH.search(line)
            # A jump within a function, also to its first instruction, is no call.
            if branch and "+0x" not in branch[2] and (branch[1] == "call" or branch[2] != now.name):
                now.calls.add(branch[2])
    return found


def deepest(name, found, known, above=()):
    """Bytes and names of the deepest chain from a function on; a name that is not in the file needs its return address."""
    if name not in found:
        return WORD, [(name, WORD)]
    if name in above:
        raise Stop(1, f"these functions call each other: {' '.join(above[above.index(name):])}")
    if name not in known:
        chains = [deepest(other, found, known, (*above, name)) for other in found[name].calls]
        below, chain = max(chains, default=(0, []))
        own = found[name].frame + max(0, found[name].below_end - below)
        known[name] = own + below, [(name, own)] + chain
    return known[name]


def reached(names, found):
    seen, waiting = set(), list(names)
    while waiting:
        name = waiting.pop()
        if name not in seen:
            seen.add(name)
            waiting += found[name].calls if name in found else ()
    return seen
