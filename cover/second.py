"""Faults put into the second program one at a time: does the set find each?

second.py    tries them on the rows of the film set with at most 10,000 pixels, and on the listings

In clahe.py, pgm.py and listing.py, one at a time: a comparison is moved by one (< to <=, = to not equal), a sum becomes a
difference, a product a sum, a quotient a remainder, `and` becomes `or`, and each whole number becomes the next one. A fault
is found if a program fails, does not end in a minute or prints anything but what it prints without the fault.
"""

import ast
import os
import shutil
import subprocess
import sys
import tempfile

COMPARED = {ast.Lt: ast.LtE, ast.LtE: ast.Lt, ast.Gt: ast.GtE, ast.GtE: ast.Gt, ast.Eq: ast.NotEq, ast.NotEq: ast.Eq,
            ast.Is: ast.IsNot, ast.IsNot: ast.Is, ast.In: ast.NotIn, ast.NotIn: ast.In}
RECKONED = {ast.Add: ast.Sub, ast.Sub: ast.Add, ast.Mult: ast.Add, ast.FloorDiv: ast.Mod, ast.Mod: ast.FloorDiv,
            ast.Div: ast.Mult, ast.LShift: ast.RShift, ast.RShift: ast.LShift, ast.BitAnd: ast.BitOr, ast.BitOr: ast.BitAnd}

LARGE = 10000
LENGTH = 6


def small(line):
    """Whether a line of the set is no row of a large film."""
    words = line.split()
    return words[0] != "F" or int(words[LENGTH], 0) <= LARGE


def faulty(node):
    """Puts a node's fault in; says whether it has one, for each of them in turn."""
    if isinstance(node, ast.Compare):
        for place, how in enumerate(node.ops):
            node.ops[place] = COMPARED[type(how)]()
            yield
            node.ops[place] = how
    elif isinstance(node, (ast.BinOp, ast.AugAssign)) and type(node.op) in RECKONED:
        how, node.op = node.op, RECKONED[type(node.op)]()
        yield
        node.op = how
    elif isinstance(node, ast.BoolOp):
        how, node.op = node.op, ast.Or() if isinstance(node.op, ast.And) else ast.And()
        yield
        node.op = how
    elif isinstance(node, ast.Constant) and type(node.value) is int:
        node.value += 1
        yield
        node.value -= 1


def prints(room):
    """What the four programs print, or None if one fails."""
    texts = []
    for program in ("films.py", "byte_films.py", "count_films.py", "listings.py"):
        try:
            done = subprocess.run([sys.executable, "-B", f"{room}/{program}"], capture_output=True, timeout=60, check=False)
        except subprocess.TimeoutExpired:
            return None
        if done.returncode != 0:
            return None
        texts.append(done.stdout)
    return texts


def main():
    """Tries the faults and tells which are not found."""
    top = os.path.dirname(os.path.dirname(os.path.abspath(__file__)))
    with tempfile.TemporaryDirectory() as above:
        room = above + "/second"
        shutil.copytree(f"{top}/second", room)
        shutil.copytree(f"{top}/crates/test_listings/src", above + "/crates/test_listings/src")
        for program in ("test_films", "test_byte_films", "test_count_films"):
            os.mkdir(f"{above}/crates/{program}")
            with open(f"{top}/crates/{program}/stdin", encoding="ascii") as text, open(f"{above}/crates/{program}/stdin", "w", encoding="ascii") as out:
                out.writelines(line for line in text if small(line))
        right, tried, missed = prints(room), 0, 0
        assert right, "the programs without a fault"
        for name in ("clahe.py", "pgm.py", "listing.py"):
            with open(f"{top}/second/{name}", encoding="utf-8") as text:
                tree = ast.parse(text.read())
            for node in ast.walk(tree):
                before = ast.unparse(node) if isinstance(node, (ast.expr, ast.stmt)) else ""
                for _ in faulty(node):
                    with open(f"{room}/{name}", "w", encoding="utf-8") as out:
                        out.write(ast.unparse(tree))
                    tried += 1
                    if prints(room) == right:
                        missed += 1
                        print(f"not found: {name}:{node.lineno}: {before}  ->  {ast.unparse(node)}", flush=True)
            shutil.copy(f"{top}/second/{name}", f"{room}/{name}")
        print(f"{tried} tried, {tried - missed} found")


if __name__ == "__main__":
    main()
