"""Holds the papers to the repository. PROMISES.md: each theorem and definition that it names stands in the module that it
names, each function is there, each must-fail edit is named, and no row is longer than a screen. Promises: the files DemandN and
OrderN of the promise_ crates hold theorems alone, each named there and marked (contract), and what is so marked stands in them. All papers but the notes of
landings, which tell of the tree as it was, and those of wip/, which tell of a commit that is not in it: what they have in backticks as `crate: name`, `crate::function`, `crate/edit`, a
path or a single word is there, and so is each page that they link to. crates.txt: each crate names what it uses itself.
Must-fail edits: what each replaces stands once. A program over the calls for C has the rows and the stored text of the one
over the calls themselves.
Shelves: each crate's name begins with one, and README names it. Hinges (toolchain/hinges): each stands in its crate, and is opened
there alone. Engines: what the plain one and the fast one both call is what DECISIONS.md says that they share.

Run: python3 -B docs/check.py
"""

import glob
import os
import re
import subprocess
import sys

TOP = os.path.dirname(os.path.dirname(os.path.abspath(__file__)))
STATED = re.compile(r"^ *(?:(?:pub|unfoldable|abbrev|record|data) )*([^\s:(){}]+)(?: \([^)]*\)| \{[^}]*\})* :\s", re.M)
# a part of a cell: a crate's name may stand before the module's, and the module's before its names
PART = re.compile(r"^(?:`(?P<crate>\w+)` )?(?P<module>[A-Z]\w*): ")

# the files of a promise_ crate that hold promises alone: by demand and by order
PROMISES = re.compile(r"(?:Demand|Order)\d+$")
# what a file declares at its margin or in a section: whether others may name it, what kind it is, and its name
DECLARED = re.compile(r"^(?:  )?(?!use |mod |module |unfolding |--)((?:(?:pub|unfoldable|abbrev|record|data) )*)([^\s:(){}]+)(?: \([^)]*\)| \{[^}]*\})* :\s", re.M)

# a function of the sources, and a call in its body: the crate that it names, and the function's name
FUNCTION = re.compile(r"^ *(?:pub )?(?:extern \"C\" )?fn (\w+)", re.M)
CALL = re.compile(r"(?<![\w.])(?:(\w+)::)?(\w+)(?:::<[^>()]*>)?\(")

# words in backticks that are other people's: packages, instructions of a processor, a browser's file names
OUTSIDE = {"qemu-user", "chromium-driver", "python3-selenium", "side31", "tool-ID"}
OUTSIDE.update({"paddd", "pmulhuw", "pmullw", "pmuludq", "psubusw"})

# what a crate's name begins with; tzofnadir is the library for C
SHELVES = ("base_", "tile_", "pixel_", "film_", "byte_", "pgm_", "listing_", "promise_", "c_", "tzofnadir", "test_")

# a crate that holds a value of another's type without naming anything of it
REACHED = {"listing_program": {"base_rows"}, "film_draw": {"tile_limit"}, "byte_draw": {"tile_limit"}}
# a map record holds what `pixel_grid` keeps of an axis
REACHED.update({"film_prepare": {"tile_limit", "pixel_grid"}, "film_map": {"tile_limit", "pixel_grid"}, "byte_prepare": {"tile_limit", "pixel_grid"}})
REACHED.update({name: {"pixel_grid"} for name in ("listing_film", "c_films", "c_bytes", "test_reach_films")})
REACHED["c_counts"] = {"pixel_grid", "film_prepare"}
REACHED["c_bytes"] = {"pixel_grid", "base_rows", "film_prepare"}
# a set of a room holds settings, whose clip and edition are `tile_limit`'s
REACHED.update({"film_room": {"tile_limit"}, "c_room": {"tile_limit"}})
REACHED.update({"film_direct": {"tile_limit"}, "test_direct_films": {"pixel_grid"}})


def read(path):
    """The text of a file of the repository."""
    with open(os.path.join(TOP, path), encoding="utf-8") as text:
        return text.read()


def modules():
    """The names that each module of specs and proofs states, by crate and module."""
    stated = {}
    for path in glob.glob(TOP + "/crates/*/specs/*.antt") + glob.glob(TOP + "/crates/*/proofs/*.antt"):
        crate, module = path.split("/")[-3], os.path.basename(path)[:-len(".antt")]
        stated.setdefault((crate, module), set()).update(STATED.findall(read(path)))
    return stated


def functions():
    """The functions of each crate, by their own names and with the crate's before it, and with their module's between."""
    found = set()
    for path in glob.glob(TOP + "/crates/*/src/*.rt"):
        crate, module = path.split("/")[-3], os.path.basename(path)[:-len(".rt")]
        for name in re.findall(r'^ *(?:pub(?:\(crate\))? )?(?:extern "C" )?fn (\w+)', read(path), re.M):
            found.update([name, f"{crate}::{name}", f"{crate}::{module}::{name}"])
    return found


def missing(part, stated, known):
    """The names of one part of a cell that stand nowhere, or not in the module that the part names."""
    names = [name for name in re.findall(r"`([^`]+)`", part) if name not in ("requires", "#", "P5")]
    head = PART.match(part)
    if head is None:
        return [f"{name} is named and nothing states it" for name in names if name not in known]
    where = {at: own for at, own in stated.items() if at[1] == head["module"] and head["crate"] in (None, at[0])}
    if not where:
        return [f"there is no module {head['module']} as '{part[:40]}' has it"]
    return [f"{name} does not stand in {head['module']}" for name in names[1 if head["crate"] else 0:]
            if not any(name in own for own in where.values())]


def promises(parts, stated):
    """Where PROMISES.md and the files of promises differ, and what else stands in these."""
    held, marked, faults = {}, set(), []
    for path in glob.glob(TOP + "/crates/promise_*/proofs/*.antt"):
        crate, module = path.split("/")[-3], os.path.basename(path)[:-len(".antt")]
        if PROMISES.match(module):
            found = DECLARED.findall(read(path))
            held.update({(crate, name): module for words, name in found})
            faults += [f"{crate}/{module}: {name} is no theorem for others" for words, name in found if words != "pub "]
    for part in parts:
        head = PART.match(part)
        if head is None or "(contract)" not in part:
            continue
        names = re.findall(r"`([^`]+)`", part.split(" (contract)")[0])[1 if head["crate"] else 0:]
        crates = {at[0] for at, own in stated.items() if at[1] == head["module"] and head["crate"] in (None, at[0])}
        for name in names if crates and all(crate.startswith("promise_") for crate in crates) else ():
            marked.update((crate, name) for crate in crates)
            faults += [f"PROMISES.md: {name} is marked (contract) and stands in {head['module']}, which holds no promises"
                       for crate in crates if held.get((crate, name)) != head["module"]]
    return faults + [f"PROMISES.md: {name}, a promise of {crate} {module}, is not marked (contract)"
                     for (crate, name), module in sorted(held.items()) if (crate, name) not in marked]


def tree():
    """The paths of the repository's files, without what is built."""
    for folder, inner, files in os.walk(TOP):
        inner[:] = [name for name in inner if name not in (".git", "target", "out", "__pycache__")]
        for name in files:
            yield os.path.relpath(os.path.join(folder, name), TOP)


def words(paths):
    """Each word of the files that are no papers, pictures or stored texts, and the name of each file and folder."""
    found = set(OUTSIDE)
    for path in paths:
        for part in path.split("/"):
            found.update([part, part.split(".")[0]])
        if not path.endswith((".md", ".txt", ".png", ".pgm", "stdin", "stdout")):
            with open(os.path.join(TOP, path), encoding="utf-8", errors="ignore") as text:
                found.update(re.findall(r"[\w′-]+", text.read()))
    return found


def there(quoted, own, calls, known):
    """Whether the tree has what a paper has in backticks, as far as that is a name or a path; capitals stand for any name."""
    said = re.fullmatch(r"([a-z_0-9]+): (\S+)", quoted)
    if said:
        return said[2] in own.get(said[1], ()) or f"{said[1]}::{said[2]}" in calls
    if re.fullmatch(r"[a-z_0-9]+(::[a-z_0-9]+)+", quoted):
        return quoted in calls
    if re.fullmatch(r"[A-Za-z_][\w′-]*", quoted):
        return quoted in known
    path = quoted.split(" ")[0]
    first, slash, rest = path.partition("/")
    if slash and first in own:
        return os.path.exists(f"{TOP}/crates/{first}/must-fail/{rest}.edit")
    if slash and first not in ("", ".", "target") and os.path.exists(f"{TOP}/{first}"):
        return bool(glob.glob(f"{TOP}/" + re.sub(r"\b[A-Z]{2,}\b", "*", path)))
    return True


def papers(stated):
    """What the papers name, or link to, and is not there; the notes of landings and of wip/ tell of other trees."""
    own = {os.path.basename(path): set() for path in glob.glob(TOP + "/crates/*")}
    for (crate, module), names in stated.items():
        own[crate].update(names, [module])
    paths, calls, faults = list(tree()), functions(), []
    known = words(paths)
    for paper in sorted(path for path in paths if path.endswith(".md") and not re.search("landings|^wip/", path)):
        text, folder = read(paper), os.path.dirname(paper)
        faults += [f"{paper}: {name} is named and is not there"
                   for name in sorted(set(re.findall(r"`([^`\n]+)`", text))) if not there(name, own, calls, known)]
        faults += [f"{paper}: {page} is linked to and is not there"
                   for page in sorted(set(re.findall(r"\]\(([^)#:]+)[)#]", text))) if not os.path.exists(os.path.join(TOP, folder, page))]
    return faults


def uses(crate):
    """The crates that a crate's own files name, proofs of functions and their lemmas too; a module of its own may have another crate's name."""
    named, own = set(), {crate}
    for path in [path for part in ("src", "specs", "proofs") for path in glob.glob(f"{TOP}/crates/{crate}/{part}/**/*", recursive=True)]:
        if path.endswith(".rt"):
            own.update(re.findall(r"^(?:pub )?mod ([a-z_0-9]+);", read(path), re.M))
            named.update(re.findall(r"(?<![:\w])([a-z_0-9]+)::", re.sub("//.*", "", read(path))))
        if path.endswith((".rt", ".antt")):
            named.update(re.findall(r"Rattle\.([a-z_0-9]+)\.", read(path)))
    return named - own


def listed():
    """Where crates.txt and what the crates use differ."""
    lines = [line.split(":") for line in read("crates.txt").split("\n") if line and not line.startswith("#")]
    lines = [(name.removesuffix(" staticlib"), rest) for name, rest in lines]
    crates = {name for name, _ in lines} | {"io"}
    faults = []
    for name, rest in lines:
        wanted = (uses(name) & crates) | REACHED.get(name, set())
        faults += [f"crates.txt: {name} uses {other} and does not name it" for other in sorted(wanted - set(rest.split()))]
        faults += [f"crates.txt: {name} names {other} and does not use it" for other in sorted(set(rest.split()) - wanted)]
    return faults


def stale():
    """The must-fail edits whose text does not stand exactly once in the file that they name, as left by the replacements before it."""
    faults = []
    for path in sorted(glob.glob(TOP + "/crates/*/must-fail/*.edit")):
        crate, edit, texts, name, old = path.split("/")[-3], os.path.basename(path), {}, "", ""
        for line in read(path).split("\n"):
            if line.startswith("file: "):
                name = line[len("file: "):]
                texts.setdefault(name, read(f"crates/{crate}/{name}"))
            if line.startswith("old: "):
                old = line[len("old: "):]
                if texts[name].count(old) != 1:
                    faults.append(f"{crate}/{edit}: what it replaces stands {texts[name].count(old)} times in {name}")
            if line.startswith("new:"):
                texts[name] = texts[name].replace(old, line[len("new:"):].removeprefix(" "), 1)
    return faults


def shelves():
    """The crates whose names begin with no shelf, and those that README does not name."""
    crates, said = sorted(os.listdir(TOP + "/crates")), read("README.md")
    faults = [f"crates/{name} stands on no shelf" for name in crates if not name.startswith(SHELVES)]
    return faults + [f"README.md: {name} is a crate and is not named" for name in crates if f"`{name}`" not in said]


def hinges():
    """What toolchain/hinges says: a hinge that is opened outside its crate, or that its crate does not state."""
    said = subprocess.run([sys.executable, "-B", TOP + "/toolchain/hinges"], capture_output=True, text=True, check=False)
    return [] if said.returncode == 0 else (said.stdout + said.stderr).splitlines()


def calls():
    """Where a program over the calls for C has other rows, or another stored text, than the one over the calls themselves."""
    pairs = [("test_films", "test_calls"), ("test_byte_films", "test_byte_calls"), ("test_count_films", "test_count_calls")]
    return [f"crates/{by_c}/{name} differs from that of {own}"
            for own, by_c in pairs for name in ("stdin", "stdout")
            if read(f"crates/{own}/{name}") != read(f"crates/{by_c}/{name}")]


def callees():
    """Each function of the crates, as crate::function, beside those of the crates that its body calls."""
    bodies = {}
    for path in glob.glob(TOP + "/crates/*/src/**/*.rt", recursive=True):
        crate, text = os.path.relpath(path, TOP).split("/")[1], re.sub(r"//.*", "", read(os.path.relpath(path, TOP)))
        marks = [(mark.start(), mark[1]) for mark in FUNCTION.finditer(text)] + [(len(text), "")]
        for (start, name), (end, _) in zip(marks, marks[1:]):
            bodies[f"{crate}::{name}"] = bodies.get(f"{crate}::{name}", "") + text[start:end].partition("{")[2]
    return {function: {called for owner, name in CALL.findall(body)
                       for called in [f"{owner or function.split('::')[0]}::{name}"] if called in bodies}
            for function, body in bodies.items()}


def beneath(called, functions):
    """These functions, and all that they call, directly or through others."""
    found, left = set(), list(functions)
    while left:
        function = left.pop()
        if function not in found:
            found.add(function)
            left += called[function]
    return found


def engines():
    """What direct and enhance both call, where DECISIONS.md does not say that they share it, and it is not beneath what they share."""
    called, page = callees(), read("docs/DECISIONS.md")
    both = beneath(called, ["film_direct::direct"]) & beneath(called, ["film_prepare::enhance"])
    table = page.partition("**What direct and enhance share**")[2].split("\n\n")[1]
    told = both & set(re.findall(r"`(\w+::\w+)`", table))
    return [f"DECISIONS.md: direct and enhance share {function}, which the plain engine's table does not name"
            for function in sorted(both - beneath(called, told))]


def main():
    """Says what is named and not there, and what is there and not named."""
    edits = {f"{path.split('/')[-3]}/{os.path.basename(path)[:-len('.edit')]}" for path in glob.glob(TOP + "/crates/*/must-fail/*.edit")}
    lines = [line for line in read("docs/PROMISES.md").split("\n") if line.startswith("| ")]
    rows = [[cell.strip() for cell in line.split("|")] for line in lines]
    stated = modules()
    known = set().union(*stated.values(), functions(), {crate for crate, _ in stated})
    named = set(re.findall(r"`([^`]+/[^`]+)`", "\n".join(row[5] for row in rows)))
    parts = [part for row in rows for cell in row[2:4] for part in cell.split("; ")]
    faults = ["PROMISES.md: " + fault for part in parts for fault in missing(part, stated, known)]
    faults += promises([part for row in rows for part in row[3].split("; ")], stated)
    faults += [f"PROMISES.md: {name} is named and is no edit" for name in sorted(named - edits)]
    faults += [f"PROMISES.md: {name} is an edit and is not named" for name in sorted(edits - named)]
    faults += [f"PROMISES.md: '{line[:40]}..' is a row of {len(line)} characters: part it" for line in lines if len(line) > 700]
    faults += papers(stated) + listed() + shelves() + stale() + hinges() + calls() + engines()
    for fault in faults:
        print(fault, file=sys.stderr)
    print(f"PROMISES.md names {len(edits & named)} of {len(edits)} must-fail edits, and in {len(parts)} places what carries a promise")
    sys.exit(1 if faults else 0)


if __name__ == "__main__":
    main()
