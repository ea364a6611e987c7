"""Counters for the branches of a compiled program.

branches.py mark IN.ll OUT.ll NAMES    puts a counter into each function of ours and each way out of a condition or match
branches.py tell DIR ..                says which of them ran, by the files names and counts of each folder, taken together

A way out is led through a block of its own, which counts and goes on to where the way led. Ways to a block that the
compiler knows to be unreachable (no arm of a match fits, a division by 0) are no branches of the source and are left out.
"""

import re
import sys

# What is not ours: the kit's libraries, the compiler's own, and the test programs themselves.
OTHERS = ("libc", "io", "std", "check", "os", "rattle-llvm-checks", "test_text", "test_set", "test_byte_set", "test_count_set",
          "test_films", "test_calls", "test_byte_films", "test_byte_calls", "test_count_films", "test_count_calls",
          "test_plain_films", "test_reach_films", "test_room_films", "test_direct_films", "test_around_films", "test_listings",
          "test_numbers")

# How many counters counts.c has room for.
MOST = 100000

DEFINE = re.compile(r'^define .*@"?([\w:-]+)"?\(')
LABEL = re.compile(r'^([\w.]+):')
CONDITION = re.compile(r'^  br i1 |^  switch |^    i\d+ \d+, label ')
WAY = re.compile(r'label %([\w.]+)')

COUNT = """  %cover.now.{0} = load i64, ptr getelementptr (i64, ptr @cover_counts, i64 {0})
  %cover.next.{0} = add i64 %cover.now.{0}, 1
  store i64 %cover.next.{0}, ptr getelementptr (i64, ptr @cover_counts, i64 {0})
"""


def functions(text):
    """The functions of a module: the name, or None between functions, with the lines."""
    name, lines = None, []
    for line in text:
        found = DEFINE.match(line)
        if found:
            yield None, lines
            name, lines = found.group(1), []
        lines.append(line)
        if line.startswith("}"):
            yield name, lines
            name, lines = None, []
    yield None, lines


def ours(name):
    """Whether a function is the library's."""
    return name is not None and "::" in name and name.split("::")[0] not in OTHERS


def dead(lines):
    """The blocks that end in 'unreachable'."""
    label, found = None, set()
    for line in lines:
        head = LABEL.match(line)
        label = head.group(1) if head else label
        if line.startswith("  unreachable"):
            found.add(label)
    return found


def marked(name, lines, names):
    """The lines of a function of ours, with its counters."""
    skipped, pending, first = dead(lines), [], len(names)

    def counted(found):
        """A way, led through a block that counts."""
        way = found.group(1)
        if way in skipped:
            return found.group(0)
        pending.append((len(names), way))
        names.append((name, f"{way}/{len(names) - first}", "way"))
        return f"label %cover.{pending[-1][0]}"

    for line in lines:
        assert " = phi " not in line, f"{name}: a block that asks which way led to it"
        yield WAY.sub(counted, line) if CONDITION.match(line) else line
        if line.startswith("start:"):
            yield COUNT.format(len(names))
            names.append((name, "start", "call"))
        if pending and (line.startswith("  br i1") or line.startswith("  ]")):
            for number, way in pending:
                yield f"cover.{number}:\n{COUNT.format(number)}  br label %{way}\n"
            pending.clear()


def mark(source, target, listed):
    """Puts the counters into a module, and lists them."""
    names = []
    with open(source, encoding="utf-8") as text, open(target, "w", encoding="utf-8") as out:
        for name, lines in functions(text):
            out.writelines(marked(name, lines, names) if ours(name) else lines)
        out.write("\n@cover_counts = external global i64\n")
    assert len(names) <= MOST, "counts.c has room for fewer counters"
    with open(listed, "w", encoding="utf-8") as out:
        out.writelines(" ".join(row) + "\n" for row in names)


def share(rows, kind):
    """How many of a kind ran, of how many."""
    numbers = [number for (_, _, own), number in rows if own == kind]
    return f"{sum(number > 0 for number in numbers)} of {len(numbers)}"


def tell(*rooms):
    """Which ways were taken and which functions called, by one program or another."""
    total = {}
    for room in rooms:
        with open(room + "/names", encoding="utf-8") as names, open(room + "/counts", encoding="utf-8") as counts:
            for name, count in zip(names, counts):
                row = tuple(name.split())
                total[row] = total.get(row, 0) + int(count)
    rows = sorted(total.items())
    for (name, label, _), number in rows:
        if number == 0:
            print(f"never met: {name}, {label}")
    for crate in sorted({name.split("::")[0] for (name, _, _), _ in rows}):
        own = [row for row in rows if row[0][0].startswith(crate + "::")]
        print(f"{crate}: {share(own, 'way')} branches, {share(own, 'call')} functions")
    print(f"all: {share(rows, 'way')} branches, {share(rows, 'call')} functions")


if __name__ == "__main__":
    {"mark": mark, "tell": tell}[sys.argv[1]](*sys.argv[2:])
