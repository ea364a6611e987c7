#!/usr/bin/env python3
"""Brings the names of the repository's own definitions, lemmas and record fields to one spelling: snake case with underscores.

Run at the repository's top, once: python3 -B tools/port_names.py. A second run changes nothing. Prints the map and each clash.
"""

import pathlib
import re
import sys

PORTED = """
above-from above-zero add-a add-at add-right add-start added-none all-append all-both all-drop all-first all-from
all-map all-more all-one all-take among-none and-both and-left and-right answer-at answers-by apart-more apart-none
aroundOf asks-none at-added at-room before-stands bin-fits bin-small binIn binOf block-room blocks-end blocks-more
blocks-step bound-at by-cases by-rows byte-at byte-inside bytesOf cast-t cells-same cellsOf clear-spec copy-spec
count-most count-of count-same count-small count-spec countOf counted-none counts-behind counts-same digit-low
digits-from digits-more div-mono dividedBy drop-here drop-keeps each-append each-first each-more edge-order edgeOf
end-is end-refused end-same endOf ends-so endsAt entries-by entryOf even-is exact-none field-lt fieldOf fields-read
fieldsOf fill-end fill-spec filled-more filled-none first-rest first-spec first-step firstOf fit-free fixed-more
flat-map floatOf found-within four-are from-first from-last from-one front-fits front-length front-long front-same
getD-front getD-map getD-part going-next head-first headEnd held-first held-in held-more held-next held-none is-odd
isByte isWide keep-spec kept-next kept-same laid-end laid-more laid-next laidOf le-is left-is left-laid leftOf
length-last length-moved length-over length-pairs length-part length-taken length-two lengthOf lent-fits lies-at
like-one line-kept lineOf lines-cons lines-end lines-next lines-none linesOf listOf listed-kept listed-next look-spec
low-of lower-spec made-asks main-spec map-next map-read map-rows map-same mapped-next mapped-spec move-down-spec
move-run-spec moved-all moved-none moved-on movedRow movedTo mul-at mul-left mul-most mul-next mul-wide next-of
no-digit none-first none-within not-behind not-first not-found not-known not-yet number-at number-behind number-cut
number-same numberIn numberOf numbers-fit of-spec ofBits-is on-none one-alike one-below one-holds one-kept one-shifted
one-spec only-one or-assoc or-left or-right outside-kept over-done over-zero own-at ownOf pair-fits pair-spec
pair-under pairOf part-end part-length part-lies part-room part-same partOf pass-kept pass-spec past-is patchOf
place-at placeIn placeOf plain-back plain-moved plainOf poke-spec put-full put-spec putOf raised-is read-below
read-done read-found read-keeps read-spec readBy readOf refused-says restOf right-of room-back room-fits room-for
round-trip row-next row-room rowOf rows-alike rows-all rows-end rows-inside rows-more rows-next rows-none rows-other
rows-same rows-whole rowsOf run-end run-more run-moved run-none run-spec run-step same-answer same-bytes same-end
same-ends same-length same-map same-next same-not same-number same-read same-row same-rows same-self same-spec
same-target scaled-fits set-back set-is set-own set-same setting-kept shared-alike shared-kept shared-same shl-whole
short-none shown-by size-is sizeOf small-spec so-far span-left span-less span-none spanOf start-is start-spec startOf
starts-none step-fits step-is step-room stepOf store-keeps store-kept store-spec storeOf stored-refused storesOf
sub-at sum-fits sum-is sum-moved sum-row sumAt sums-kept table-done table-kept tail-none take-min taken-none takenOf
target-fits target-small text-same then-same tile-high tile-low told-none too-short total-first turn-spec turned-on
twice-found twice-spec under-of under-ones upTo value-of value-spec valueOf walk-kept walking-skip ways-next
weight-scaled whole-length whole-room wholeOf wide-back wide-room wide-row wide-rows widen-spec widened-same
within-both within-low within-none without-is wordOf write-done write-spec written-behind written-count written-none
written-read writtenBy writtenOf enum-told filled-copy
"""

RESERVED = set("""abbrev axiom as coe com data deriving do elim ensures fcoe ghost hcom if in infix infixl infixr let module mod
mutual open package pub record requires rewrite ruleset subst then else Type unfold unfolding unfoldable use where with absurd
tt cond true false""".split())

LIBRARY = re.compile(r"^use (?:lib|mathlib|Prim|native)\.[\w.]+\.\{([^}]*)\}$")
PRELUDE = re.compile(r"^use Rattle\.std\.specs\.Prelude\.\{[^}]*\}$", re.M)
PIECE = r"[^\s(){}\[\],;\"`.]+"
TOKEN = re.compile(r"[^\s(){}\[\],;\"`]+")
LEAD = r"(?:(?:pub|abbrev|unfoldable|ruleset|opaque) )*"
SIGN = re.compile(rf"^( *)({LEAD})({PIECE})((?: \([^)]*\)| \{{[^}}]*\}})*) :(?:\s|$)")
OPEN = re.compile(r"^ *(?:pub )?(record|data) ([A-Z][^\s(){}\[\],;\"`.]*).*(?:where|deriving.*)?$")
USE = re.compile(r"^[ ]*(?:pub )?(?:ghost )?(?:pub )?use (Rattle\.[^\s;{]+?)(?:\.\{([^}]*)\}| as ([^\s;]+)|\.([^\s.;{]+))?;?\s*$", re.M)


def files(pattern):
    """The files of a pattern, without what is built, in order."""
    return sorted(path for path in pathlib.Path(".").glob(pattern)
                  if path.is_file() and not {"out", "target", ".git"} & set(path.parts))


def crooked(name):
    """Whether a name is no snake case: a hump behind a lower-case beginning, or a dash."""
    return name[:1].islower() and bool(re.search(r"[A-Z]", name) or "-" in name.strip("-"))


def snake(name):
    """A name in snake case; an upper-camel word after a dash stays."""
    parts = [part for part in name.replace("getD", "get_or").split("-")]
    turned = [part if part[:1].isupper() else re.sub(r"(?<=[^A-Z_])(?=[A-Z])", "_", part).lower() for part in parts]
    return "_".join(turned)


def camel(name):
    """A type's name: judgedSays becomes JudgedSays."""
    return name[:1].upper() + re.sub(r"[-_](\w)", lambda found: found[1].upper(), name[1:])


def pieces(text):
    """All the pieces of a text's tokens, parted at points and colons."""
    found = set()
    for token in TOKEN.findall(text):
        for piece in token.split("."):
            found.update([piece, *piece.split(":")])
    return found


def declared(text):
    """The names that a file declares: (definitions, fields, types), each a dict or set of names as they stand."""
    lines, own, fields, types = text.split("\n"), {}, set(), set()
    block, depth = None, 0
    for at, line in enumerate(lines):
        if line.strip() == "" or line.lstrip().startswith("--"):
            continue
        indent = len(line) - len(line.lstrip())
        if block and indent <= depth:
            block = None
        opened = OPEN.match(line)
        if opened:
            block, depth = opened[1], indent
            types.add(opened[2])
            continue
        said = SIGN.match(line)
        if not said:
            continue
        name = said[3]
        if block == "record":
            fields.add(name)
        elif block == "data":
            own[name] = "constructor"
        elif indent == 0 or said[2]:
            own[name] = result(lines, at)
        else:
            for later in lines[at + 1:]:
                if re.match(rf"^ {{{indent}}}{re.escape(name)}(?=[\s=]|$)", later):
                    own[name] = result(lines, at)
                    break
                if later.strip() and len(later) - len(later.lstrip()) < indent:
                    break
    return own, fields, types


def result(lines, at):
    """Whether the signature that begins on a line ends in Type 0."""
    text = lines[at]
    for later in lines[at + 1:]:
        if not later.startswith("    ") or later.strip().startswith("--"):
            break
        text += " " + later.strip()
    return "type" if re.search(r"(?::|→) Type 0$", text.strip()) else "name"


class Tree:
    """What the repository declares and names."""

    def __init__(self):
        self.texts, self.own, self.fields, self.types, self.modules = {}, {}, {}, {}, {}
        for path in files("crates/*/specs/**/*.antt") + files("crates/*/proofs/**/*.antt") + files("crates/*/src/**/*.rt"):
            self.texts[path] = path.read_text(encoding="utf-8")
        for path, text in self.texts.items():
            if path.suffix == ".antt" and (path.parts[2] == "specs" or len(path.parts) == 4):
                self.own[path], self.fields[path], self.types[path] = declared(text)
                self.modules["Rattle." + ".".join((*path.parts[1:-1], path.stem))] = path

        self.gives = {path: set(own) for path, own in self.own.items()}
        for _ in range(5):
            for path in self.gives:
                for line in re.findall(r"^ *pub use .*$", self.texts[path], re.M):
                    for module, names, _alias, single in USE.findall(line):
                        where = self.owner(module)
                        if where:
                            self.gives[path] |= {name.strip().rpartition(" as ")[2] for name in (names or single).split(",")} & self.gives[where]

    def owner(self, module):
        """The file that a module's path lies in, with a type's name behind it or not."""
        if module in self.modules:
            return self.modules[module]
        return self.modules.get(module.rpartition(".")[0])

    def scope(self, path, text=None):
        """The own names that a file sees by themselves, and the names that it has for own modules."""
        seen, aliases = set(self.own.get(path, ())), set()
        for module, names, alias, single in USE.findall(text if text is not None else self.texts[path]):
            where = self.owner(module)
            if names and where:
                for name in names.split(","):
                    name, _, other = name.strip().partition(" as ")
                    if name in self.gives[where]:
                        seen.add(name)
            elif single and self.owner(module) and single in self.gives[self.owner(module)]:
                seen.add(single)
            elif alias and where:
                aliases.add(alias)
            elif single and f"{module}.{single}" in self.modules:
                aliases.add(single)
        return seen, aliases


def mapping(tree):
    """The new name of each crooked own name, and what was said of clashes."""
    kinds, fields = {}, set()
    for path, own in tree.own.items():
        for name, kind in own.items():
            rank = 0 if path.parts[2] == "specs" else 2
            was = kinds.get(name, (9, ""))
            kinds[name] = min(was, (rank, kind))
    for path, found in tree.fields.items():
        fields |= {name for name in found}
    held = {name for name in fields if rust_field(tree, name)}
    moved = {name for name in kinds if crooked(name)} | {name for name in fields if crooked(name) and name not in held}
    taken = {name for name in set(kinds) | fields if name not in moved} | set().union(*tree.types.values()) | RESERVED
    seen, inside = {}, {path: pieces(text) for path, text in tree.texts.items()}
    for path, text in tree.texts.items():
        names, _ = tree.scope(path)
        for name in (names & moved) | (inside[path] & fields & moved):
            seen.setdefault(name, []).append(path)
    functions = {}
    for path, text in tree.texts.items():
        if path.suffix == ".rt":
            functions.setdefault(path.parts[1], set()).update(re.findall(r"\bfn (\w+)", text))
    new, said = {}, []
    order = sorted(moved, key=lambda name: (kinds.get(name, (1, "field")), name))
    for name in order:
        rank, kind = kinds.get(name, (1, "field"))
        plain = camel(name) if kind == "type" and rank == 0 else snake(name)
        first = "_of" if rank == 0 and not plain.endswith("_of") else "_lem"
        tries = [plain, plain + first, plain + "_lem"] + [f"{plain}_lem{n}" for n in range(2, 9)]
        for choice in tries:
            why = clash(choice, name, taken, seen.get(name, ()), inside, functions)
            if not why:
                break
            said.append(f"{name}: not {choice}, {why}")
        new[name] = choice
        taken.add(choice)
    return new, said, held


def rust_field(tree, name):
    """Whether a field's name is one of a Rust struct."""
    return any(path.suffix == ".rt" and re.search(rf"^\s*(?:pub )?{re.escape(name)}: ", text, re.M) for path, text in tree.texts.items())


def clash(choice, name, taken, paths, inside, functions):
    """Why a name cannot be had, or nothing."""
    if choice in taken:
        return "which is another own name"
    for path in paths:
        if path.suffix == ".rt" and choice in functions.get(path.parts[1], ()):
            return f"which is a function beside {path}"
        if choice in inside[path]:
            return f"which stands in {path}"
    return ""


def turned(text, new, seen, aliases, fields):
    """A text with the new names, where it sees the old ones by themselves, behind Rattle. or an own module's name, or as fields."""
    def token(found):
        parts = found[0].split(".")
        for at, part in enumerate(parts):
            if part not in new:
                continue
            if at == 0:
                if part in seen or (part in fields and field_at(text, found)):
                    parts[at] = new[part]
            elif parts[0] == "Rattle" or parts[0] in aliases or (parts[0][:1].isupper() and part in seen):
                parts[at] = new[part]
            elif part in fields:
                parts[at] = new[part]
        return ".".join(parts)
    return TOKEN.sub(token, text)


def field_at(text, found):
    """Whether a token stands where a record's field is declared or given, or begins behind a projection's point."""
    behind, before = text[found.end():found.end() + 3], text[:found.start()].rstrip(" ")[-1:]
    line = text[text.rfind("\n", 0, found.start()) + 1:found.start()]
    declared_here = behind.startswith(" : ") and re.fullmatch(r" +(?:pub )?", line)
    return bool(declared_here) or (behind.startswith(" =") and before in ("{", ";", "\n")) or (text[found.start() - 1:found.start()] in (")", "}"))


def code(text, comment, worker, words):
    """A text's code by one worker, and its comments by another; strings stay."""
    lines = []
    for line in text.split("\n"):
        cut = re.search(rf"(?:^|\s){re.escape(comment)}(?=\s|$)", line)
        at = cut.start() if cut else len(line)
        lines.append((line[:at], line[at:]))
    # the code is turned as one text, so that a record literal over several lines is seen as such
    marks = "\n".join(front for front, _ in lines)
    fronts = worker(marks).split("\n")
    return "\n".join(front + words(back) for front, (_, back) in zip(fronts, lines))


def prose(text, new, all_camel=True):
    """Old names in a comment or paper: those with a hump, and those in backticks."""
    def word(found):
        name = found[0]
        return new[name] if name in new and re.search(r"[a-z0-9][A-Z]", name) else name
    def quoted(found):
        return "`" + re.sub(r"[\w'′₀-₉-]+", lambda name: new.get(name[0], name[0]), found[1]) + "`"
    text = re.sub(r"`([^`\n]+)`", quoted, text)
    return re.sub(r"(?<![\w'′./-])[a-z][\w'′-]*", word, text) if all_camel else text


def rust(text, worker):
    """A Rust file's code by a worker, without its strings."""
    parts = re.split(r'("(?:[^"\\\n]|\\.)*")', text)
    return "".join(part if at % 2 else worker(part) for at, part in enumerate(parts))


def pointed(text):
    """A file whose own aliases have a middle dot, with others in their place."""
    for alias in sorted(set(re.findall(rf" as ({PIECE}·{PIECE})", text))):
        name = alias.rpartition("·")[2] + "_lem"
        while name in pieces(text):
            name += "_lem"
        print(f"{alias} -> {name}")
        text = TOKEN.sub(lambda found: ".".join(name if part == alias else part for part in found[0].split(".")), text)
    return text


def ported(tree):
    """What port.py renamed, as old and new names."""
    stated = set().union(*tree.own.values(), *tree.fields.values())
    names = {}
    for name in PORTED.split():
        for choice in (snake(name), re.sub(r"(?<=[a-z])(?=[A-Z])", "_", name).replace("-", "_").lower(), name.replace("-", "_")):
            if choice in stated:
                names[name] = choice
                break
    return {old: new for old, new in names.items() if old not in stated}


def clauses(text):
    """Clauses and definitions in today's spelling."""
    text = re.sub(r"Rattle·(\w+?)(?:·\w+)*\.(?:specs\.specs|proofs\.proofs)?", lambda m: f"Rattle.{m[1]}." + ("specs" if "specs.specs" in m[0] else "proofs" if "proofs.proofs" in m[0] else ""), text)
    text = re.sub(r"Rattle·(\w+?)(?:·\w+)*\.", r"Rattle.\1.", text)
    text = text.replace("the-variants", "TheVariants").replace("′", "'")
    text = re.sub(r"(?<![\w'])_([^\s\w_]+)_(?![\w'])", r"◌\1◌", text)
    text = re.sub(r"⌜ ?| ?⌝", "", text)
    text = re.sub(r"ensures \{ λ r\. r ≡ ", "ensures { result ≡ ", text)
    text = re.sub(r"\bgetD\b(?!-)", "get_or", text)
    text = re.sub(r"\bnow \((\w[\w'-]*) \.exit\)", r"\1.new", text)
    text = re.sub(r"\bnow map(?![\w'-])", "(map).now", text)
    text = re.sub(r"\bnow ([a-z][\w'-]*)", r"\1.now", text)
    text = re.sub(r"(?<=[\w'₀-₉)]) \.(?=[a-z])", ".", text)
    text = re.sub(r"(?<![\w'.])\(([a-z][\w'₀-₉]*(?:\.[a-z][\w'-]*)+)\)", r"\1", text)
    return text


def edits(tree, done, new, old_scope):
    """Turns the must-fail edits so that what each replaces stands once; gives those that still do not stand."""
    left = []
    for path in files("crates/*/must-fail/*.edit"):
        lines, texts, target, out = path.read_text(encoding="utf-8").split("\n"), {}, None, []
        current, both, turn = "", None, None
        extra = set()
        for line in lines:
            if line.startswith(("old: ", "new: ")):
                for names in re.findall(r"\{([^}]*)", line) if ": use " in line else ():
                    extra |= {name.strip() for name in names.split(",")}
        for line in lines:
            if line.startswith("file: "):
                target = pathlib.Path(*path.parts[:2], line[6:])
                texts.setdefault(target, done.get(target) or target.read_text(encoding="utf-8"))
            if line.startswith("old: "):
                text, turn = line[5:], None
                seen, aliases, fields = old_scope(target)
                name = lambda said: turned(said, new, seen | extra, aliases, fields)
                every = lambda said: TOKEN.sub(lambda found: ".".join(new.get(part, part) for part in found[0].split(".")), said)
                steps = [lambda said: said, name, lambda said: name(clauses(said)), lambda said: every(clauses(said)), clauses,
                         lambda said: name(clauses(said)).strip(), lambda said: name(clauses(said)).replace("(map).now", "map'.now")]
                imported = LIBRARY.match(text)
                if imported and texts[target].count(text) == 0 and len(PRELUDE.findall(texts[target])) == 1:
                    current = PRELUDE.search(texts[target])[0]
                    had, turn = {clauses(word.strip()) for word in imported[1].split(",")}, "prelude"
                    out.append("old: " + current)
                    continue
                for step in steps:
                    if texts[target].count(step(text)) == 1:
                        turn = step
                        break
                if turn is None:
                    best = steps[2](text)
                    left.append((path, target, texts[target].count(best), best))
                    turn = steps[2]
                current = turn(text)
                line = "old: " + current
            elif line.startswith("new:"):
                if turn == "prelude":
                    there = re.search(r"\{([^}]*)\}", current)[1].split(", ")
                    more = [clauses(word.strip()) for word in LIBRARY.match(line[5:])[1].split(",")]
                    more = [word for word in more if word not in had and word not in there]
                    said = current.replace("}", "".join(", " + word for word in more) + "}")
                    if more:
                        out.append("new: " + said)
                        texts[target] = texts[target].replace(current, said, 1)
                    else:
                        out.pop()
                    continue
                said = line[4:].removeprefix(" ")
                if target.suffix == ".antt":
                    hump = {old for old in new if re.search(r"[a-z0-9][A-Z]", old)}
                    wide = turned(clauses(said), new, seen | extra | hump, aliases, fields)
                    said = wide.strip() if turn is steps[5] else wide
                else:
                    said = turn(said)
                line = "new: " + said if said or line.startswith("new: ") else line
                texts[target] = texts[target].replace(current, said, 1)
            out.append(line)
        if out != lines:
            path.write_text("\n".join(out), encoding="utf-8")
    return left


def main():
    """Renames, and says what."""
    tree = Tree()
    new, said, held = mapping(tree)
    fields = set().union(*tree.fields.values()) & set(new)
    own = set().union(*tree.own.values()) & set(new)
    for old in sorted(new):
        print(f"{old} -> {new[old]}")
    for line in said:
        print(line)
    for name in sorted(held):
        if crooked(name):
            print(f"{name}: a field of Rust too, left")
    port = ported(tree)
    world = {**port, **new}
    scopes = {path: tree.scope(path) for path in tree.texts}
    done = {}
    for path, text in tree.texts.items():
        seen, aliases = scopes[path]
        mark = "--" if path.suffix == ".antt" else "//"
        worker = lambda part: turned(part, new, seen & set(new), aliases, fields)
        if path.suffix == ".rt":
            after = code(text, mark, lambda part: rust(part, worker), lambda part: prose(part, world))
        else:
            after = code(text, mark, worker, lambda part: prose(part, world))
        done[path] = pointed(after) if "·" in after else after
        if done[path] != text:
            path.write_text(done[path], encoding="utf-8")
    papers = files("docs/*.md") + files("docs/landings/*.md") + files("wip/*.md") + [pathlib.Path(name) for name in ("README.md", "docs/check.py", "toolchain/hinges", "second/FILMS.md")]
    for path in papers:
        text = path.read_text(encoding="utf-8")
        # the viewer's page tells of the viewer's own scripts
        script = pieces(" ".join(file.read_text(encoding="utf-8") for file in files("viewer/**/*.js"))) if path.name == "VIEWER.md" else ()
        after = prose(text, {old: fresh for old, fresh in world.items() if old not in script})
        if after != text:
            path.write_text(after, encoding="utf-8")
    back = {fresh: old for old, fresh in port.items()}

    def old_scope(path):
        seen, aliases = scopes.get(path, (set(), set()))
        inner = pieces(tree.texts.get(path, ""))
        return (seen | {back[name] for name in inner if name in back}), aliases, fields | set(port)
    left = edits(tree, done, world, old_scope)
    for path, target, count, text in left:
        print(f"left: {path}: stands {count} times in {target}: {text}")
    print(f"{len(new)} names renamed ({len(own)} own, {len(fields)} fields), {len(said)} clashes resolved, {len(left)} edits left")
    return new, left


if __name__ == "__main__":
    main()
