"""Faults put into a compiled program one at a time: does the set find each?

faults.py ROOM not PROGRAM .. -- CRATE ..     tries the faults of all crates but the named ones
faults.py ROOM of PROGRAM .. -- CRATE ..      tries the faults of the named crates

ROOM has each program's module, PROGRAM.ll. The faults are those of the first program; what it does not find is tried with
the others that have the same function.

In each function of the library, one at a time: a comparison is moved by one (< to <=, = to not equal), a sum becomes a
difference, a product a sum, a quotient a remainder, and each number that stands in a comparison, in reckoning, in a
stored value, a returned one or an argument becomes the next one. (The compiler's own checks for a division by 0 and the
tags of enums are left alone.) A fault is found if a program crashes, does not end in ten seconds or prints anything but
its stored output.
"""

import os
import re
import subprocess
import sys

import branches

SWAPS = {
    "icmp": {"eq": "ne", "ne": "eq", "ult": "ule", "ule": "ult", "ugt": "uge", "uge": "ugt",
             "slt": "sle", "sle": "slt", "sgt": "sge", "sge": "sgt"},
    "fcmp": {"oeq": "une", "une": "oeq", "olt": "ole", "ole": "olt", "ogt": "oge", "oge": "ogt"},
}
OPERATIONS = {"add": "sub", "sub": "add", "mul": "add", "udiv": "urem", "urem": "udiv", "fmul": "fadd", "fdiv": "fmul",
              "and": "or", "or": "and", "xor": "and", "shl": "lshr", "lshr": "shl"}

COMPARED = re.compile(r"^(  %[\w.]+ = )(icmp|fcmp) (\w+) (.*)$")
RECKONED = re.compile(r"^(  %[\w.]+ = )(\w+) (.*)$")
NUMBERED = re.compile(r"^  (?:%[\w.]+ = )?(?:icmp|add|sub|mul|udiv|urem|and|or|xor|shl|lshr|store|ret|call)\b")
NUMBER = re.compile(r"(?<=[ (])(\d+)(?=[,) \n]|$)")
FLAGS = re.compile(r" (?:nuw|nsw|inbounds|exact)(?= )|, !range !\d+|, !noundef !\d+")

TAG = re.compile(r"^  store i8 \d+, ptr ")


def faults(line):
    """The lines that may stand in a line's place, each with one fault."""
    found = COMPARED.match(line)
    if found:
        head, kind, how, rest = found.groups()
        yield f"{head}{kind} {SWAPS[kind][how]} {rest}\n"
    found = RECKONED.match(line)
    if found and found.group(2) in OPERATIONS:
        yield f"{found.group(1)}{OPERATIONS[found.group(2)]} {found.group(3)}\n"
    if NUMBERED.match(line) and "@llvm." not in line:
        body = line.split(", align ")[0]
        for number in NUMBER.finditer(body):
            start, end = number.span()
            yield line[:start] + str(int(number.group(1)) + 1) + line[end:]


def candidates(lines):
    """All faults: the function, the line's place in the function and the line that takes its place."""
    for name, body in branches.functions(lines):
        # a function that returns nothing to the machine fills in an answer's tag
        tagged = body and body[0].startswith("define internal void")
        for place, (line, following) in enumerate(zip(body, body[1:] + [""])):
            skipped = "label %trap" in following or (tagged and TAG.match(line))
            if branches.ours(name) and not skipped:
                for fault in faults(line):
                    yield name, place, line, fault


def plain(text):
    """The module without what the compiler may take for granted of right code."""
    return [FLAGS.sub("", line) for line in text]


class Program:
    """A program's module, what it reads and what it must print."""

    def __init__(self, name, room):
        self.room = room
        with open(f"{room}/{name}.ll", encoding="utf-8") as text:
            self.lines = plain(text)
        self.starts, place = {}, 0
        for function, body in branches.functions(self.lines):
            self.starts[function] = place
            place += len(body)
        self.read = f"crates/{name}/stdin" if os.path.exists(f"crates/{name}/stdin") else os.devnull
        with open(f"crates/{name}/stdout", "rb") as stored:
            self.expected = stored.read()

    def ran(self, lines):
        """Whether the program prints what it should."""
        with open(self.room + "/fault.ll", "w", encoding="utf-8") as out:
            out.writelines(lines)
        subprocess.run(["toolchain/program", self.room + "/fault.ll", self.room + "/fault"], check=True, capture_output=True)
        try:
            with open(self.read, "rb") as read:
                done = subprocess.run([self.room + "/fault"], stdin=read, capture_output=True, timeout=10, check=False)
        except subprocess.TimeoutExpired:
            return False
        return done.returncode == 0 and done.stdout == self.expected

    def misses(self, name, place, line, fault):
        """Whether the program prints what it should with a fault in it, or has not the line."""
        at = self.starts.get(name, len(self.lines)) + place
        if at >= len(self.lines) or self.lines[at] != line:
            return True
        return self.ran(self.lines[:at] + [fault] + self.lines[at + 1:])


def main(room, how, *words):
    """Tries the faults and tells which are not found."""
    names, crates = words[:words.index("--")], words[words.index("--") + 1:]
    programs = [Program(name, room) for name in names]
    for program in programs:
        assert program.ran(program.lines), "a program without a fault"
    tried, missed = {}, 0
    for name, place, line, fault in candidates(programs[0].lines):
        own = name.split("::")[0]
        if (own in crates) == (how == "of"):
            tried[own] = tried.get(own, 0) + 1
            if all(program.misses(name, place, line, fault) for program in programs):
                missed += 1
                print(f"not found: {name}: {line.strip()}  ->  {fault.strip()}", flush=True)
    print(", ".join(f"{own} {number}" for own, number in sorted(tried.items())))
    print(f"{' and '.join(names)}: {sum(tried.values())} tried, {sum(tried.values()) - missed} found", flush=True)


if __name__ == "__main__":
    main(*sys.argv[1:])
