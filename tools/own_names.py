#!/usr/bin/env python3
"""Spells the repository's own definitions, lemmas, fields and constructors in snake case, in crates/ and in its wrong programs.

usage: tools/own_names.py [--check]

Run once, at the top, after the port. A name that stands in specs/ or proofs/ and begins with a small letter gets an underscore for
each dash and before each capital letter, which becomes small. Names of src/, types and modules keep theirs, and so do the names that
Rattle makes of a function's proof. A line that begins 'meets:' names two that would fall together: nothing is written then.
"""
import os
import re
import sys

WORD = re.compile(r'[^\s(){}.;,@"«»:`\[\]|]+')
DECLARED = re.compile(r"(?m)^ *(?:(?:pub|abbrev|unfoldable|open|ruleset) +)*([^\s(){}.;,@\"«»:]+)((?: \{[^{}\n]*\})*) (:|=) ?(.*)$")
RULESET = re.compile(r"(?m)^ *(?:pub +)?ruleset +(\S+) =")
TOGETHER = re.compile(r"^ +((?:[a-z][^\s(){}.;,@\"«»:]*)(?: [a-z][^\s(){}.;,@\"«»:]*)+) : ")
DATA = re.compile(r"^( *)(?:pub )?data .* where\s*$")
RECORD = re.compile(r"^( *)(?:pub |open )*record .* where\s*$")
MADE = re.compile(r"^(?:tie|goal)\.")
OPERATOR = "◌"


def files():
    for folder, dirs, names in os.walk("crates"):
        # what rt makes lies in crates/NAME/out; a module may be called so too
        dirs[:] = sorted(d for d in dirs if d != "out" or folder.count(os.sep) != 1)
        for n in sorted(names):
            if n.endswith((".antt", ".rt", ".edit")):
                yield os.path.join(folder, n)


def read(path):
    with open(path, encoding="utf-8") as f:
        return f.read()


def spelled(name):
    words = re.sub(r"(?<=[a-z0-9'])[A-Z]+", lambda m: "_" + m[0].lower(), name)
    return words.replace("-", "_")


def without_comments(text):
    return re.sub(r"(?m)(^|\s)--[^\n]*", r"\1", text)


def declared(text):
    """The names that a text declares, but for those of a function's goals; and which of them are fields."""
    names, fields = set(), set()
    in_record = in_data = None
    for line in without_comments(text).split("\n"):
        if line.strip() and in_record is not None and len(line) - len(line.lstrip()) <= in_record:
            in_record = None
        if line.strip() and in_data is not None and len(line) - len(line.lstrip()) <= in_data:
            in_data = None
        if DATA.match(line):
            in_data = len(DATA.match(line)[1])
        together = TOGETHER.match(line)
        if in_data is not None and together:
            # constructors of one type share a line
            names.update(together[1].split())
        m = DECLARED.match(line)
        head = RECORD.match(line)
        if head:
            in_record = len(head[1])
            continue
        if not m:
            r = RULESET.match(line)
            if r:
                names.add(r[1])
            continue
        if m[3] == "=" and "ruleset" not in line:
            continue
        if MADE.match(m[4]):
            continue
        names.add(m[1])
        if in_record is not None:
            fields.add(m[1])
    return names, fields


def with_lemmas(own):
    """Each name's new spelling. A lemma that would get its function's name gets `_lem`: where several would have one, the one in capitals and small letters is
    the function, and the others are lemmas about it."""
    groups = {}
    for it in own:
        groups.setdefault(spelled(it), set()).add(it)
    table = {}
    for new, olds in groups.items():
        functions = [it for it in olds if re.search("[a-z0-9][A-Z]", it) and "-" not in it]
        if not functions and len(olds) > 1:
            functions = [it for it in olds if "-" not in it]
        for it in olds:
            table[it] = new if len(olds) == 1 or it in functions else new + "_lem"
    return {o: n for o, n in table.items() if o != n}


def is_of_function(path):
    return bool(re.search(r"/proofs/(?:.*/)?(?:Proof|Answers|Invariants)\.antt$", path))


def main(check):
    texts = {p: read(p) for p in files()}
    own, fields = set(), set()
    for p, t in texts.items():
        if p.endswith(".antt"):
            n, f = declared(t)
            own |= {it for it in n if it[:1].islower() and OPERATOR not in it}
            fields |= f
    own = {it for it in own if not it.endswith("-spec")}
    table = with_lemmas(own)
    # Two names that would be one, in any file that has both.
    met = []
    back = {}
    for old, new in sorted(table.items()):
        back.setdefault(new, set()).add(old)
    used = {}
    for p, t in texts.items():
        if p.endswith(".antt") or p.endswith(".rt"):
            used[p] = set(WORD.findall(without_comments(t)))
    everywhere = set().union(*used.values())
    for new, olds in sorted(back.items()):
        if len(olds) > 1:
            met.append(f"meets: {' and '.join(sorted(olds))} would both be {new}")
        if new in own and new not in table:
            met.append(f"meets: {sorted(olds)} would be {new}, which is declared")
    for p, words in used.items():
        for new, olds in back.items():
            if new in words and olds & words and new not in own:
                met.append(f"near: {p}: {sorted(olds & words)} would be {new}, which stands there")
    for m in met:
        if check or m.startswith("meets:"):
            print(m)
    print(f"{len(own)} names, {len(table)} respelled")
    if check:
        return 0
    if any(m.startswith("meets:") for m in met):
        return 1
    changed = 0
    for p, t in texts.items():
        new = turned(p, t, table, fields)
        if new != t:
            changed += 1
            with open(p, "w", encoding="utf-8") as f:
                f.write(new)
    print(f"{changed} files changed")
    return 0


USE = re.compile(r"\buse ([^\s;{]+)\{([^}]*)\}")


def of_library(text):
    """The names that a text brings in from a library."""
    names = set()
    for path, items in USE.findall(text):
        steps = path.strip(".").split(".")
        if steps[0] != "Rattle" or len(steps) < 2 or not os.path.isdir(os.path.join("crates", steps[1])):
            names.update(WORD.findall(items))
    return names


def turned(path, text, table, fields):
    made = is_of_function(path)
    theirs = of_library(text)
    table = {o: n for o, n in table.items() if o not in theirs}

    def word(m):
        w = m[0]
        if w not in table:
            return w
        at = m.start()
        # a word that is a name of src/ too: only a bare one, and none of a path, is the lemma
        if "-" not in w and not re.search("[A-Z]", w) and (not path.endswith(".antt") or at and text[at - 1] == "." or text[m.end():m.end() + 1] == "."):
            return w
        if made and at and text[at - 1] == "." and w not in fields:
            # a step of the code, or a name behind a module's: only the latter is the repository's
            head = re.search(r"([^\s(){};,@\"«»]+)\.$", text[max(0, at - 200):at])
            if not head or not head[1].startswith("Rattle"):
                return w
        return table[w]

    return WORD.sub(word, text)


if __name__ == "__main__":
    raise SystemExit(main("--check" in sys.argv[1:]))
