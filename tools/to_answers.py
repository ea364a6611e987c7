#!/usr/bin/env python3
"""Turns proofs/F/Proof.antt, which walks a function by its places, into proofs/F/Invariants.antt and proofs/F/Answers.antt.

usage: to_answers.py CRATE_FOLDER NAMES.json [F ..]

NAMES.json is what `rt check --generated FOLDER --old-names` writes for the crate. Answers that say `search rules` alone are left out,
since the check tries that itself. What could not be turned is printed, and stands in Answers.antt behind the mark TODO.
"""
import json
import os
import re
import sys

WORD = r"[^\s(){}\[\],;]+"


def plain(name):
    """A name without what the two spellings differ in."""
    return re.sub(r"[-_·]", "", re.sub(r"_lem$", "", name)).lower().replace("isis", "is")


SIGNATURES = {}


EVERY = {}


def every_param(root):
    """All parameters of each function."""
    lent_mutably(root)
    return EVERY


def lent_mutably(root):
    """The parameters that are references of each function of the repository, by its path CRATE::..::NAME and by its name."""
    if SIGNATURES:
        return SIGNATURES
    for d, _, files in os.walk(root):
        if "/src" not in d:
            continue
        for f in files:
            if f.endswith(".rt"):
                for m in re.finditer(r"\bfn (\w+)(?:<[^>]*>)?\(([^{};]*?)\)\s*(?:->|requires|ensures|\{)", open(os.path.join(d, f)).read()):
                    params = re.findall(r"(?:^|,)\s*(?:mut )?(\w+|&mut self): ?(&)?", m.group(2))
                    EVERY.setdefault((d.split("/src")[0].split("/")[-1], m.group(1)), [n for n, _ in params])
                    SIGNATURES.setdefault((d.split("/src")[0].split("/")[-1], m.group(1)), [n for n, mut in params if mut])
    return SIGNATURES


def blocks(text):
    """The definitions of a file: [name, prefix words, signature, unfolding line, clauses, comments above]."""
    lines, out, comments, uses, at = text.split("\n"), [], [], [], 0
    while at < len(lines):
        line = lines[at]
        if line.startswith("use "):
            uses.append(line)
            at += 1
        elif line.startswith("--"):
            if not (line.endswith("Assumes nothing.") and len(line) < 24) and (uses or out):
                comments.append(line)
            at += 1
        elif not line.strip():
            at += 1
            if not out and not uses:
                pass
        else:
            m = re.match(r"((?:abbrev |pub |unfoldable |opaque )*)(\S+) :(?: ?)(.*)$", line)
            if not m:
                raise SystemExit("no definition: " + line)
            prefix, name, sig = m.group(1), m.group(2), [m.group(3)]
            at += 1
            while at < len(lines) and lines[at].startswith(" "):
                sig.append(lines[at])
                at += 1
            unfolding = ""
            if at < len(lines) and lines[at].startswith("unfolding "):
                unfolding = lines[at]
                at += 1
            body = []
            while at < len(lines) and (
                lines[at].startswith(name + " ") or lines[at].startswith((" ", ")", "}", "]")) or (not lines[at].strip() and at + 1 < len(lines) and lines[at + 1].startswith(" "))
            ):
                body.append(lines[at])
                at += 1
            out.append([name, prefix, "\n".join(sig), unfolding, "\n".join(body), comments])
            comments = []
    return uses, out, comments


class Function:
    def __init__(self, names):
        self.names = names
        self.parent = {p[0]: p[1] for p in names["places"]}
        self.steps = {p[0]: p[2] for p in names["places"]}
        self.typed = {p[0]: t for p, t in zip(names["places"], names["typed"])}
        self.by_plain = {plain(p[0]): p[0] for p in names["places"]}
        self.arms = {p[0]: a for p, a in zip(names["places"], names["arms"]) if a}
        self.callee = {p[0]: p[3] for p in names["places"]}
        self.todo = []

    def need(self, word):
        """The index of an old need by its name in a file."""
        for cut in (word, re.sub(r"^(overflow|nonzero)-", "", word), re.sub(r"^slice-bounds-", "part-", word)):
            for k, (old, new) in enumerate(self.names["needs"]):
                if plain(old) == plain(cut):
                    return k
        return None

    def ancestors(self, place):
        while place is not None:
            yield place
            place = self.parent.get(place)

    def chain(self, place, n):
        for _ in range(n):
            if place is None:
                return None
            place = self.parent.get(place)
        return place

    def turn_path(self, base, place, path, var):
        """Turns var(.before)^n.REST at a place; base is the variable that stands for c in the new text."""
        parts = path.split(".")[1:]
        n = 0
        while n < len(parts) and parts[n] == "before":
            n += 1
        rest = parts[n:]
        at = self.chain(place, n)
        if not rest:
            return None
        first = rest[0]
        if at is None:
            # deeper than the places go: look from the place on
            at = place
        if first in ("args", "requires", "ranges", "utf8", "auto", "captures"):
            return ".".join([base] + rest)
        if plain(first) == "wellformed":
            return ".".join([base, "well_formed"] + rest[1:])
        order = list(self.ancestors(at)) + [p for p in self.ancestors(place)]
        for p in order:
            old, new = self.steps[p]
            for field, step, way in (self.arms.get(p) or [0, 0, []])[2]:
                if plain(step) == plain(first) and rest[1 : 1 + len(way)] == way and (way or not old):
                    return ".".join([base, self.arms[p][0], field] + rest[1 + len(way) :])
            if old and plain(old) == plain(first):
                if len(rest) > 2 and rest[1] in ("new", "auto") and rest[2].isdigit():
                    n = 0
                    while 2 + n < len(rest) and rest[2 + n] == "1":
                        n += 1
                    lent = lent_mutably(self.root).get(((self.callee.get(p) or "").split("::")[0], (self.callee.get(p) or "").split("::")[-1]), [])
                    every = self.names["params"].get(self.callee.get(p) or "") or every_param(self.root).get(((self.callee.get(p) or "").split("::")[0], (self.callee.get(p) or "").split("::")[-1]), [])
                    if len(every) > n and every[n] not in lent:
                        self.todo.append("not lent: " + path)
                    lent = every or lent
                    if 2 + n < len(rest) and rest[2 + n] == "0" and n < len(lent):
                        rest[2 : 3 + n] = [lent[n]]
                    else:
                        self.todo.append("field " + path)
                return ".".join([base, new] + rest[1:])
        if not var.startswith("§"):
            self.todo.append("path " + path)
        return ".".join([base] + rest)

    def turn(self, text, place, helpers, var="c"):
        """Turns a body: helpers over places are written out, paths are flat."""
        v = re.escape(var)
        # a helper with a place: h c.before.before
        for name, (hp, hsig, hbody, hvar, hargs) in helpers.items():
            pattern = re.compile(r"(?<![^\s(){}\[\],;])" + re.escape(name) + r" (" + v + r"(?:\.before)*)(?![^\s(){}\[\],;])")

            def one(m):
                p = self.chain(place, m.group(1).count(".before"))
                if hp in self.ancestors(place):
                    p = hp
                other = {k: h for k, h in helpers.items() if k != name}
                body = self.turn(hbody, p, other, hvar)
                sig = self.turn(hsig, p, other, hvar)
                if hargs:
                    body = "λ " + " ".join(hargs) + ". " + body
                return "(let it : " + " ".join(sig.split()) + " = " + " ".join(body.split()) + " in it)"

            text = pattern.sub(one, text)
        pattern = re.compile(r"(?<![^\s(){}\[\],;])" + v + r"((?:\.[^\s(){}\[\],;.]+)+)")
        return pattern.sub(lambda m: self.turn_path("§c", place, "c" + m.group(1), var) or ("§c" + m.group(1)), text)


def invariant(func, name, kind, block, loops):
    """An invariant or a measure of a loop as a function of l."""
    body = block[4]
    m = re.match(re.escape(block[0]) + r"((?: [^\s=]+)*) =(.*)$", body, re.S)
    params, text = m.group(1).split(), m.group(2)
    for k, (pair, variables) in enumerate(loops):
        if plain(pair[0]) == plain(name):
            break
    else:
        return None
    changed = func.names["changed"][k]
    expect, start, now = [], [], []
    for v, c in zip(variables, changed):
        if c:
            start.append((v, "l.initial." + v))
            now.append((v, "l." + v))
        else:
            start.append((v, "l." + v))
    order = start + now
    if len(order) != len(params):
        params = [x for x in params if not re.match(r"t\d+$", x)]
    if len(order) != len(params):
        func.todo.append(f"{kind} {name}: {len(params)} parameters, {len(order)} places: {order}")
    table = {p: w for p, (_, w) in zip(params, order)}

    def one(m):
        word = m.group(0)
        head, dot, tail = word.partition(".")
        return table[head] + dot + tail if head in table else word

    text = re.sub(WORD, one, text)
    return pair[1], text


def cited(definitions, text):
    """The definitions of a file that a text names, and those that these name."""
    found, again = [], True
    while again:
        again = False
        for b in definitions:
            if b not in found and re.search(r"(?<![^\s(){}\[\],;])" + re.escape(b[0]) + r"(?![^\s(){}\[\],;])", text):
                found.append(b)
                text += b[2] + b[4]
                again = True
    return found


def main(crate, names_file, only):
    name = os.path.basename(os.path.realpath(crate))
    data = json.load(open(names_file))
    folders = []
    for d, _, files in os.walk(os.path.join(crate, "proofs")):
        if "Proof.antt" in files:
            folders.append(d)
    for d in sorted(folders):
        path = os.path.relpath(d, os.path.join(crate, "proofs")).replace("/", ".")
        if only and path not in only and path.split(".")[-1] not in only:
            continue
        names = data.get(f"Rattle-{name}-proofs.{path}.Lts")
        if names is None:
            print(f"{path}: no names")
            continue
        try:
            one_function(name, d, path, names)
        except Exception as e:  # noqa: BLE001
            print(f"{path}: failed: {e!r}")


def one_function(crate, d, path, names):
    d = os.path.realpath(d)
    func = Function(names)
    func.root = os.path.join(d.split("/proofs/")[0], "..")
    text = open(os.path.join(d, "Proof.antt")).read()
    uses, defs, _ = blocks(text)
    header = [l for l in text.split("\n")[:6] if l.startswith("--")]
    loops = [tuple(l) for l in names["loops"]]
    helpers, invs, answers, locals_ = {}, [], [], []
    for b in defs:
        sig = " ".join(b[2].split())
        m = re.match(r"tie\.(invariant|decreases)-(\S+)( .*)?$", sig)
        if m:
            got = invariant(func, m.group(2), m.group(1), b, loops)
            if got is None:
                func.todo.append("no loop for " + sig)
                continue
            invs.append((m.group(1), got[0], got[1], b))
            continue
        m = re.match(r"tie\.Need-(\S+)", sig)
        if m:
            answers.append((m.group(1), b))
            continue
        if "statement M" in sig:
            continue
        m = re.match(r"\((\S+) : (?:tie|lts)\.(\S+?)( [^()]*)?\)(?: →)? ?(.*)$", " ".join(b[2].split()), re.S)
        if m:
            # the sort of place: Then1, After-slice-known2, ..
            place = func.by_plain.get(plain(m.group(2)))
            if place is None:
                func.todo.append("helper " + b[0] + " at unknown place " + m.group(2))
            mm = re.match(re.escape(b[0]) + r" (\S+)((?: [^\s=]+)*) =(.*)$", b[4], re.S)
            helpers[b[0]] = (place, m.group(4).lstrip("→ "), mm.group(3), mm.group(1), mm.group(2).split())
            continue
        locals_.append(b)
    out, asked = [], names["asked_at"]
    for word, b in answers:
        k = func.need(word)
        if k is None:
            if not any(plain(word).replace("overflow", "").replace("nonzero", "").replace("part", "slicebounds") in plain(x).replace("length", "end").replace("overflow", "").replace("nonzero", "") for x in names["settled"]):
                func.todo.append("no goal for " + word)
            continue
        new = names["needs"][k][1]
        place = asked[k][0]
        m = re.match(re.escape(b[0]) + r"((?: [^\s=]+)*) =(.*)$", b[4], re.S)
        if not m:
            func.todo.append("clauses of " + word)
            continue
        body = m.group(2)
        if re.sub(r"\s+", " ", body).strip() in ("search rules",) and not b[3]:
            continue
        params = m.group(1).split()
        var = params[0] if params else "c"
        if place not in func.steps:
            place = func.by_plain.get(plain(place), place)
        body = func.turn(body, place, helpers, var).replace("§c", "c")
        # the test of a `!f(x)` says what f answered
        body = re.sub(r"\(not[-_](?:true|false) (?:_|[\w.-]+|\([^()]*\)) (c\.[^\s()\[\],;]+)\)", r"\1", body)
        body = re.sub(r"(?<![\w-])not[-_](?:true|false) (?:_|[\w.-]+|\([^()]*\)) (c\.[^\s()\[\],;]+)", r"\1", body)
        out.append((new, b[3], body, b[5]))
    # definitions of the file that answers or invariants use
    in_inv = cited(locals_, " ".join(t for _, _, t, _ in invs))

    def imports(body):
        words = set()
        for w in re.findall(WORD, body):
            words.add(w)
            words.add(w.split(".")[0])
        lines = []
        for u in uses:
            if re.search(r"\.(Statement\.\{|Tie as|Reads|Lts)", u) and ".proofs." in u:
                continue
            m = re.match(r"use (\S+?)\.\{(.*)\}$", u)
            if not m:
                m2 = re.match(r"use (\S+) as (\S+)$", u)
                if m2 is None or m2.group(2) in words:
                    lines.append(u)
                continue
            keep = []
            for it in [x.strip() for x in m.group(2).split(",")]:
                it_name = it.split(" as ")[-1]
                core = it_name.replace("◌", "")
                if it_name in words or ("◌" in it_name and core in words):
                    keep.append(it)
            if keep:
                lines.append(f"use {m.group(1)}.{{{', '.join(keep)}}}")
        return lines

    base = f"Rattle.{crate}.proofs.{path}"
    if invs:
        body = ""
        for b in locals_:
            if b in in_inv:
                body += "\n".join(b[5] + [""]) * bool(b[5]) + f"{'abbrev pub ' if 'abbrev' in b[1] else b[1]}{b[0]} : {b[2]}\n" + (b[3] + "\n" if b[3] else "") + b[4] + "\n\n"
        for kind, loop, t, b in invs:
            body += "\n".join(b[5] + [""]) * bool(b[5]) + f"abbrev pub {kind}-{loop} : goal.{kind}-{loop}\n{kind}-{loop} l ={t}\n\n"
        with open(os.path.join(d, "Invariants.antt"), "w") as f:
            f.write("\n".join(header[:1] + imports(body) + [f"use {base}.Given as goal", "", body.rstrip()]) + "\n")
    keep = cited(locals_, " ".join(t for _, _, t, _ in out))
    if out:
        body = ""
        for b in locals_:
            if b in keep:
                body += "\n".join(b[5] + [""]) * bool(b[5]) + f"{b[1]}{b[0]} : {b[2]}\n" + (b[3] + "\n" if b[3] else "") + b[4] + "\n\n"
        for new, unfolding, t, comments in out:
            body += "\n".join(comments + [""]) * bool(comments) + f"pub {new} : goal.{new}\n" + (unfolding + "\n" if unfolding else "") + f"{new} c ={t}\n\n"
        unf = " ".join(b[3] for b in locals_) + " " + " ".join(u for _, u, _, _ in out)
        with open(os.path.join(d, "Answers.antt"), "w") as f:
            f.write("\n".join(([] if invs else header[:1]) + imports(body + unf) + [f"use {base}.Goals as goal", "", body.rstrip()]) + "\n")
    os.remove(os.path.join(d, "Proof.antt"))
    for t in func.todo:
        print(f"{path}: {t}")


if __name__ == "__main__":
    main(sys.argv[1], sys.argv[2], sys.argv[3:])
