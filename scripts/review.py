#!/usr/bin/env python3
"""The tables of docs/REVIEW.md: each public function with its contract's outcome and the wrong programs that it refuses.

  scripts/review.py           writes the tables between the markers of docs/REVIEW.md
  scripts/review.py --check   compares them, and looks at every edit; status 1 if something is wrong

The outcome is read from the contract in src/, the wrong programs from the first lines of crates/*/must-fail and
crates/*/wrong. A first line says what is wrong, and who refuses it. It ends in one of

  : contract of FUNCTION.            : safety of FUNCTION.            : claim of FUNCTION.
  : contracts of FUNCTION, FUNCTION and FUNCTION, by that of FUNCTION.
  : definition of NAME.

'contract': the code is changed, and the contract refuses it; 'by that of' names the function that is changed, if it
is another one. 'safety': the code could fail. 'claim': the contract is changed, and the code does not meet it.
'definition': a definition of the crate is changed, and a theorem or an evaluated case refuses it; 'claim' may name a
theorem too. A function is named as it is in its crate, and by its module where that is not enough (`cell::is_on`).
"""
import os
import re
import sys

TOP = os.path.dirname(os.path.dirname(os.path.abspath(__file__)))
PAGE = os.path.join('docs', 'REVIEW.md')
WIDTH = 64      # an outcome that is longer is cut

# Public functions with fewer than two wrong programs of their own, and why.
PRINTS = 'it prints a text, of which no contract can speak'
EXCEPTIONS = {
    'show_files::fail': PRINTS,
    'show_files::answers::print_refusal': PRINTS,
    'show_files::answers::print_answer': PRINTS,
}

complaints = []


def complain(where, what):
    complaints.append(f'{where}: {what}')


def read(*path):
    with open(os.path.join(TOP, *path), encoding='utf-8') as file:
        return file.read()


# ---- crates, their functions and definitions

class Function:
    def __init__(self, crate, file, module, name, public, text, start):
        self.file, self.name, self.public = file, name, public
        self.path = '::'.join([crate] + module + [name])
        self.start, self.end = start, start + len(text)
        m = re.search(r'^ *\{$|\) \{$|\w \{$|[>\])] \{$', text, re.M)
        self.body = start + (m.start() if m else 0)
        self.outcome = outcome(text)
        self.edits = []


class Definition:
    def __init__(self, name, file, start):
        self.name, self.file, self.start, self.end = name, file, start, None
        self.edits = []


class Crate:
    def __init__(self, name):
        self.name = name
        self.folder = os.path.join('crates', name)
        self.functions = {}     # by file
        self.definitions = {}   # by file
        if os.path.isfile(os.path.join(TOP, self.folder, 'src', 'lib.rt')):
            self.walk(os.path.join('src', 'lib.rt'), os.path.join('src'), [], True)
        for part in 'specs', 'proofs':
            for folder, _, files in sorted(os.walk(os.path.join(TOP, self.folder, part))):
                for file in sorted(files):
                    if file.endswith('.antt'):
                        self.define(os.path.relpath(os.path.join(folder, file), os.path.join(TOP, self.folder)))

    # A module, and those that it declares: `pub mod x;` in src/a.rt is src/a/x.rt.
    def walk(self, file, below, module, public):
        text = read(self.folder, file)
        self.functions[file] = functions(self.name, file, module, text, public)
        for shown, name in re.findall(r'^(pub )?mod (\w+);', text, re.M):
            child = os.path.join(below, name + '.rt')
            if os.path.isfile(os.path.join(TOP, self.folder, child)):
                self.walk(child, os.path.join(below, name), module + [name], public and bool(shown))

    def define(self, file):
        self.definitions[file] = definitions(file, read(self.folder, file))

    def all_functions(self):
        return [f for fs in self.functions.values() for f in fs]

    def all_definitions(self):
        return [d for ds in self.definitions.values() for d in ds]

    # The functions that a name may mean, those of the edited file first.
    def functions_named(self, name, file):
        def named(fs):
            return [f for f in fs if f.path == name or f.path.endswith('::' + name)]
        found = named(self.all_functions())
        return (named(self.functions.get(file, [])) or found) if len(found) > 1 else found


def functions(crate, file, module, text, reachable):
    found, owner = [], None
    lines = text.splitlines(keepends=True)
    at = 0
    for i, line in enumerate(lines):
        if m := re.match(r'impl(?:<[^>]*>)? (\w+)', line):
            owner = m[1]
        elif line.startswith('}'):
            owner = None
        elif m := re.match(r'( *)(pub )?(?:extern "C" )?fn (\w+)', line):
            end = i
            while end < len(lines) and lines[end].rstrip('\n') != m[1] + '}' and not lines[end].rstrip().endswith('{}'):
                end += 1
            name = f'{owner}::{m[3]}' if owner and m[1] else m[3]
            found.append(Function(crate, file, module, name, (bool(m[2]), reachable), ''.join(lines[i:end + 1]), at))
        at += len(line)
    return found


def definitions(file, text):
    found, inside, at = [], False, 0
    for line in text.splitlines(keepends=True):
        body = line[2:] if inside and line.startswith('  ') else line
        m = re.match(r'(?:(?:pub|abbrev|unfoldable) )*(?:(record|data) )?([^\s(){}]+)(.*)', body)
        if line.startswith('module '):
            inside = True
        elif m and m[2] not in ('use', 'mod', 'unfolding', 'module', '--', 'where') and (m[1] or re.match(r'\s+:(\s|$)', m[3])):
            if not line.startswith(' '):
                inside = False
            found.append(Definition(m[2], file, at))
        at += len(line)
    for d, following in zip(found, found[1:] + [None]):
        d.end = following.start if following else len(text)
    return found


# ---- the outcome of a contract

OPEN, CLOSE = '([{', ')]}'


def split(text, mark):
    """The parts between marks that stand in no bracket."""
    parts, depth, last = [], 0, 0
    for i, c in enumerate(text):
        if c in OPEN:
            depth += 1
        elif c in CLOSE:
            depth -= 1
        elif depth == 0 and text.startswith(mark, i):
            parts.append(text[last:i])
            last = i + len(mark)
    return [p.strip() for p in parts + [text[last:]]]


def bare(text):
    """Without brackets around the whole of it."""
    while text.startswith('(') and len(split(text, ' ')) == 1:
        text = text[1:-1].strip()
    return text


def cut(text):
    """Not longer than WIDTH: what stands in brackets is cut first, then what stands last."""
    words = split(text, ' ')
    if len(text) > WIDTH:
        words = [f'({bare(w).split()[0]} ..)' if w.startswith('(') and not re.fullmatch(r'\(\S+ \.\w+\)', w) else w for w in words]
    while len(' '.join(words)) > WIDTH:
        words = words[:-2 if words[-1] == '..' else -1] + ['..']
    return ' '.join(words)


def said(part, result):
    """One part of a contract in a cell of the table."""
    given, last = [], None
    while part != last:
        last, part = part, bare(part)
        if part.startswith('let '):
            part = split(part, ' in ')[-1]
        elif (m := re.match(r'\(([^()]*) : [^()]*\)\s*', part)) and '→' in part:
            given += m[1].split()
            part = re.sub(r'^→\s*', '', part[m.end():])
    left, _, right = map(str.strip, part.partition(' ≡ ')) if len(split(part, ' ≡ ')) == 2 else (result, '', part)
    words = f'`{cut(right)}`' if left == result else f'`{cut(left)}` is `{cut(right)}`' if left != right else f'`{cut(left)}` stays'
    return words + (', for all ' + ', '.join(f'`{g}`' for g in given) if given else '')


def clauses(text):
    """What stands in the braces of each `ensures`."""
    found = []
    for m in re.finditer(r'^ +ensures(?: \w+)? \{', text, re.M):
        depth, at = 1, m.end()
        while depth and at < len(text):
            depth += (text[at] == '{') - (text[at] == '}')
            at += 1
        found.append(text[m.end():at - 1])
    return found


def outcome(text):
    parts = []
    for clause in clauses(text):
        body = re.sub(r"\b([\w']+)\.(?:now|old|new)\b", r'\1', ' '.join(clause.split()))
        parts += [said(part, 'result') for part in split(bare(body), ' × ')]
    return '; '.join(parts) or None


# ---- wrong programs

class Edit:
    def __init__(self, crate, part, name):
        self.crate, self.part, self.name = crate, part, name
        self.where = os.path.join(crate.folder, part, name + '.edit')
        self.lines = read(self.where).splitlines()
        self.places = []        # (file, offset) of what is changed
        self.apply()
        self.refuser()

    def shown(self):
        return f'**`{self.name}`**' if self.part == 'must-fail' else f'`{self.name}`'

    def apply(self):
        file, old, texts = None, None, {}
        for line in self.lines[1:]:
            key, _, value = line.partition(':')
            value = value[1:] if value.startswith(' ') else value
            if key == 'file':
                file = value
                path = os.path.join(self.crate.folder, file)
                if not os.path.isfile(os.path.join(TOP, path)):
                    complain(self.where, f'there is no file {file}')
                    return
                texts.setdefault(file, read(path))
            elif key == 'old':
                old = value
            elif key == 'new' and old is not None:
                if texts[file].count(old) != 1:
                    complain(self.where, f"its old text is found {texts[file].count(old)} times in {file}: {old}")
                    return
                if old == value:
                    complain(self.where, f'it changes nothing in {file}: {old}')
                    return
                self.places.append((file, texts[file].index(old)))
                texts[file] = texts[file].replace(old, value)
                old = None
        if not self.places:
            complain(self.where, 'it changes nothing')

    def inside(self, file, low, high):
        """Whether a change of this edit lies there."""
        return any(f == file and low <= at < high for f, at in self.places)

    def changed(self):
        """What this edit changes, by name."""
        crate = self.crate
        return [x.name for file, at in self.places
                for x in crate.definitions.get(file, []) + crate.functions.get(file, []) if x.start <= at < x.end]

    def refuser(self):
        m = re.fullmatch(r'.+: (contracts?|safety|claims?|definitions?) of (.+?)(?:, by (?:that|those) of (.+))?\.', self.lines[0])
        if not m:
            complain(self.where, f'its first line does not say who refuses it: {self.lines[0]}')
            return
        kind, names, by = m[1].rstrip('s'), re.split(', | and ', m[2]), re.split(', | and ', m[3]) if m[3] else []
        ok = not self.places
        if kind == 'definition' or kind == 'claim' and not any(self.crate.functions_named(name, None) for name in names):
            met = [d for d in self.crate.all_definitions() if d.name in names and self.inside(d.file, d.start, d.end)]
            for d in met:
                d.edits.append(self)
            ok = ok or {d.name for d in met} == set(names)
        else:
            refusers = [self.function(name, True) for name in names]
            callees = [self.function(name, False) for name in by]
            for f in filter(None, refusers):
                f.edits.append((kind, self))
            ok = ok or any(self.meets(kind, f) for f in callees or refusers if f)
        if not ok:
            complain(self.where, f"it changes {', '.join(self.changed()) or 'nothing with a name'}, and its first line does not say so")

    # The function of this name, or none and a complaint. Who refuses has to be public.
    def function(self, name, public):
        found = self.crate.functions_named(name, self.places[0][0] if self.places else None)
        found = [f for f in found if f.public[0] or not public]
        if len(found) == 1:
            return found[0]
        complain(self.where, f"{'several functions are' if found else 'no public function is' if public else 'no function is'} named {name}")
        return None

    # Code or contract of the function is changed, or a definition that the contract is stated with.
    def meets(self, kind, f):
        if kind == 'claim':
            return self.inside(f.file, f.start, f.body) or any(not file.startswith('src') for file, _ in self.places)
        return self.inside(f.file, f.body, f.end)


# ---- the page

def function_tables(crates):
    out = []
    for crate in crates:
        rows = [f for f in crate.all_functions() if f.public == (True, True) or f.edits]
        if not rows:
            continue
        out += [f'### `{crate.name}`', '', '| function | its outcome is | refused by |', '|---|---|---|']
        for f in rows:
            kinds = {}
            for kind, edit in sorted(f.edits, key=lambda e: (e[1].part != 'must-fail', e[1].name)):
                kinds.setdefault(kind, []).append(edit.shown())
            refused = '; '.join(('' if kind == 'contract' else f'{kind}: ') + ', '.join(kinds[kind])
                                for kind in ('contract', 'safety', 'claim') if kind in kinds)
            inner = '' if f.public[1] else ' (private)'
            out.append(f'| `{f.path}`{inner} | {f.outcome} | {refused} |')
        out.append('')
    return out


def definition_tables(crates):
    out = []
    for crate in crates:
        rows = [d for d in crate.all_definitions() if d.edits]
        if not rows:
            continue
        out += [f'### `{crate.name}`', '', '| definition | in | refused where it is changed |', '|---|---|---|']
        for d in rows:
            edits = sorted(d.edits, key=lambda e: (e.part != 'must-fail', e.name))
            out.append(f"| `{d.name}` | `{d.file}` | {', '.join(e.shown() for e in edits)} |")
        out.append('')
    return out


def prose(page, crates, edits):
    """Words of the hand-written part that look like an edit, a function or a definition, and are none."""
    known = set(edits) | {crate.name for crate in crates}
    for crate in crates:
        known |= {part for f in crate.all_functions() for part in f.path.split('::')} | {d.name for d in crate.all_definitions()}
    page = re.sub(r'<!-- (\w+): made by .*?<!-- \1: end -->', lambda m: '\n' * m[0].count('\n'), page, flags=re.S)
    for number, line in enumerate(page.splitlines(), 1):
        for word in re.findall(r'`([^`]*)`', line):
            if re.fullmatch(r'[A-Za-z][A-Za-z0-9]*([_-][A-Za-z0-9]+)+|[A-Za-z]+[a-z0-9][A-Z]\w*|[A-Z]\w+', word) and word not in known:
                complain(f'{PAGE}:{number}', f'there is no {word}')


def filled(page, name, lines):
    first, last = f'<!-- {name}: made by scripts/review.py -->', f'<!-- {name}: end -->'
    if page.count(first) != 1 or page.count(last) != 1:
        complain(PAGE, f'the markers of {name} are not there just once')
        return page
    before, rest = page.split(first)
    return before + first + '\n\n' + '\n'.join(lines) + '\n' + last + rest.split(last)[1]


def main():
    check = sys.argv[1:] == ['--check']
    if sys.argv[1:] and not check:
        sys.exit(__doc__)
    names = re.findall(r'^(\w+)(?: staticlib)?:', read('crates.txt'), re.M)
    crates = [Crate(name) for name in names if os.path.isdir(os.path.join(TOP, 'crates', name))]
    for folder in sorted(os.listdir(os.path.join(TOP, 'crates'))):
        if folder not in names:
            complain(os.path.join('crates', folder), 'no line of crates.txt that is read names it')
    edits = []
    for crate in crates:
        for part in 'must-fail', 'wrong':
            folder = os.path.join(TOP, crate.folder, part)
            for file in sorted(os.listdir(folder)) if os.path.isdir(folder) else []:
                if file.endswith('.edit'):
                    edits.append(Edit(crate, part, file[:-len('.edit')]).name)
        for f in crate.all_functions():
            few = f.public == (True, True) and len(f.edits) < 2
            if f.public == (True, True) and not f.outcome and f.path not in EXCEPTIONS:
                complain(f.path, 'its contract says nothing of its outcome')
            if few and f.path not in EXCEPTIONS:
                complain(f.path, f'it has {len(f.edits)} wrong programs, and two are due')
            elif not few and f.path in EXCEPTIONS:
                complain(f.path, 'it is no exception')
    old = read(PAGE)
    prose(old, crates, edits)
    new = filled(filled(old, 'functions', function_tables(crates)), 'definitions', definition_tables(crates))
    if not check:
        with open(os.path.join(TOP, PAGE), 'w', encoding='utf-8') as file:
            file.write(new)
    elif old != new:
        pairs = zip(old.splitlines() + [''], new.splitlines() + [''])
        line, (had, due) = next((k, p) for k, p in enumerate(pairs, 1) if p[0] != p[1])
        complain(f'{PAGE}:{line}', f'it differs from what scripts/review.py makes:\n  {had}\n  {due}')
    for complaint in complaints:
        print(f'review: {complaint}')
    print(f'review: {len(edits)} wrong programs, {len(complaints)} complaints')
    sys.exit(1 if complaints else 0)


if __name__ == '__main__':
    main()
