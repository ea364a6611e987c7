#!/usr/bin/env python3
"""Counts in the sources of the crates what docs/DESIGN-PASS.md counts, one line a point: at a commit, or in the work tree.

    python3 tools/design_count.py [COMMIT] [--places]     --places prints each place as well
"""
import re
import subprocess
import sys

INT = r'(?:u8|u16|u32|u64|usize|i32|f32|f64)'


def sources(commit):
    """the .rt files below crates/*/src, by path"""
    if commit:
        names = subprocess.run(['git', 'ls-tree', '-r', '--name-only', commit, 'crates'], capture_output=True, text=True, check=True).stdout.split()
    else:
        names = subprocess.run(['git', 'ls-files', '-co', '--exclude-standard', 'crates'], capture_output=True, text=True, check=True).stdout.split()
    for name in sorted(names):
        if re.fullmatch(r'crates/\w+/src/.*\.rt', name):
            if commit:
                yield name, subprocess.run(['git', 'show', f'{commit}:{name}'], capture_output=True, text=True, check=True).stdout
            else:
                try:
                    yield name, open(name).read()
                except FileNotFoundError:
                    pass


def proofs(commit):
    """how many answers stand in proofs/*/Answers.antt, and lemmas in proofs/*.antt"""
    if commit:
        grep = ['git', 'grep', '-hE', '^ *(pub )?[^ ]+ : ', commit, '--']
    else:
        grep = ['git', 'grep', '-hE', '--untracked', '^ *(pub )?[^ ]+ : ', '--']
    answers = subprocess.run(grep + ['crates/*/proofs/*/Answers.antt'], capture_output=True, text=True).stdout
    own = len(re.findall(r': goal\.', answers))
    return own


def functions(path, text):
    """(path, line, comment, signature, body) of each function"""
    lines = text.split('\n')
    i = 0
    while i < len(lines):
        m = re.match(r'^(\s*)(?:pub )?(?:extern "C" )?fn (\w+)', lines[i])
        if not m:
            i += 1
            continue
        indent = m.group(1)
        comment = []
        k = i - 1
        while k >= 0 and re.match(r'^\s*(//|#\[)', lines[k]):
            comment.insert(0, lines[k])
            k -= 1
        j = i
        while j < len(lines) and not re.match(r'^' + indent + r'\{', lines[j]) and not (lines[j].rstrip().endswith('{') and 'requires' not in lines[j] and 'ensures' not in lines[j]):
            j += 1
        e = j
        while e < len(lines) and lines[e] != indent + '}':
            e += 1
        yield path, i + 1, m.group(2), '\n'.join(comment), '\n'.join(lines[i:j + 1]), '\n'.join(lines[j + 1:e])
        i = e + 1


def shape(name, signature, body):
    """the text with the names in the order in which they come, and one word for all types of numbers and for all numbers"""
    text = re.sub(r'(requires|ensures).*', '', signature) + '{' + body
    text = re.sub(r'//.*', '', text)
    words = re.findall(r"[A-Za-z_]\w*|\d+|[^\s\w]", text)
    seen = {}
    out = []
    for w in words:
        if re.fullmatch(INT, w):
            out.append('T')
        elif re.fullmatch(r'\d+(?:u8|u16|u32|u64|usize)?', w):
            out.append('0')
        elif re.match(r'[A-Za-z_]', w) and w not in ('fn', 'pub', 'let', 'mut', 'if', 'else', 'while', 'for', 'in', 'return', 'match', 'as', 'extern', 'Result', 'Option', 'Ok', 'Err', 'self'):
            out.append(seen.setdefault(w, f'n{len(seen)}'))
        else:
            out.append(w)
    return ' '.join(w for w in out if w not in ('pub',)), len(out)


def count(commit):
    found = {k: [] for k in ('1 enums', '1 numbers', '1 flags', '2 twins', '3 loops', '4 by hand', '5 parameters', '5 facts', '6 lengths', '7 switches')}
    shapes = {}
    for path, text in sources(commit):
        for m in re.finditer(r'^(?:pub )?enum (\w+) \{(.*?)^\}', text, re.M | re.S):
            variants = re.findall(r'^    (\w+)(\(|,| )', m.group(2), re.M)
            names = [v for v, _ in variants]
            if len(names) <= 3 and any(n in ('Refused', 'Misfit', 'Missing', 'Nothing', 'No', 'Failed', 'Bad', 'Wrong') for n in names):
                found['1 enums'].append(f'{path}: enum {m.group(1)}')
        for m in re.finditer(r'^(?:pub )?struct (\w+) \{(.*?)^\}', text, re.M | re.S):
            if re.search(r': bool,', m.group(2)):
                found['1 flags'].append(f'{path}: struct {m.group(1)}')
            if re.search(r'\b(count|len|length|size): ' + INT, m.group(2)) and re.search(r': \[', m.group(2)):
                found['6 lengths'].append(f'{path}: struct {m.group(1)}')
        for n, line in enumerate(text.split('\n'), 1):
            if re.match(r"\s*('\w+: )?(while|loop)\b", line):
                found['3 loops'].append(f'{path}:{n}: {line.strip()}')
            if re.match(r'\s*match .*\b(edition|clip|kind|wide|step)\b', line):
                found['7 switches'].append(f'{path}:{n}: {line.strip()}')
        for p, n, name, comment, signature, body in functions(path, text):
            where = f'{p}:{n}: fn {name}'
            exported = 'extern "C"' in signature
            if re.search(r'-> u32\s*$', re.split(r'requires|ensures|\{', signature)[0].strip() + '') and re.search(r'refusal', comment + name, re.I) and not exported:
                found['1 numbers'].append(where)
            head = re.split(r'\brequires|\bensures', signature)[0]
            if not exported and '/tzofnadir/' not in p:
                if re.search(r'\bmin: u32,\s*max: u32,\s*(bins: u32|factor)', head) or re.search(r'\ba: &\[u16\],\s*b: &\[u16\],\s*c: &\[u16\],\s*d: &\[u16\]', head) or re.search(r'\ba: &mut \[u32\],\s*b: &mut \[u32\],\s*c: &mut', head):
                    found['5 parameters'].append(where)
                elif len(re.findall(r'\w+: ', head)) > 7:
                    found['5 parameters'].append(where)
            if re.search(r'\bwide: bool', head):
                found['7 switches'].append(where)
            if re.fullmatch(r'(same|same_\w+|least|greatest|lesser|above|less|becomes|copy\d*|is_digit|is_white|misfit|edition_from|edition_number|clip_from|clip_number|clip_factor|no_\w+)', name):
                found['4 by hand'].append(where)
            if re.search(r'&(?:mut )?\[' + INT + r'\],\s*(?:n|to|count|size|len): usize', head):
                found['6 lengths'].append(where)
            s, size = shape(name, head, body)
            if size >= 24 and not exported and '/tzofnadir/' not in p:
                shapes.setdefault(s, []).append(where)
    for s, places in shapes.items():
        if len(places) > 1:
            found['2 twins'].append(' = '.join(places))
    facts = {}
    for path, text in sources(commit):
        for m in re.finditer(r'requires \{ (.*?) \}', text):
            for part in m.group(1).split(' × '):
                facts.setdefault((path, part.strip('() ')), 0)
                facts[(path, part.strip('() '))] += 1
    found['5 facts'] = [f'{p}: {f} ({n})' for (p, f), n in facts.items() if n > 2]
    return found


def main():
    commit = next((a for a in sys.argv[1:] if not a.startswith('-')), None)
    found = count(commit)
    for key, places in found.items():
        print(f'{key:14}{len(places):5}')
        if '--places' in sys.argv:
            for p in places:
                print('    ' + p)
    print(f'8 answers     {proofs(commit):5}')


main()
