#!/usr/bin/env python3
"""Checks that the pages name what is there: scripts/pages.py

In README.md and docs/*.md: each linked file, each path in backticks and each identifier in backticks has to
exist. An identifier is a single word in backticks; it has to stand in a source file. Prints what is missing,
with its page and line, and fails if there is something. docs/REVIEW.md is checked by scripts/review.py as well.
"""
import pathlib
import re
import sys

TOP = pathlib.Path(__file__).resolve().parent.parent
# docs/PORT.md and docs/DESIGN-PASS.md name what there was before as well.
PAGES = [TOP / "README.md"] + sorted(p for p in (TOP / "docs").rglob("*.md") if p.name not in ("PORT.md", "DESIGN-PASS.md"))
SOURCES = ["crates", "include", "driver", "bench", "tools", "examples", "scripts", ".ci"]
SUFFIXES = {".rt", ".antt", ".edit", ".h", ".c", ".sh", ".py", ".txt", ""}
PATH = re.compile(r"^(crates|docs|scripts|include|driver|bench)/[\w./*-]*$|^(crates\.txt|Makefile|README\.md)$")
WORD = re.compile(r"^[A-Za-z_][\w'-]*$")
# Words in backticks that are no identifiers of the sources: the kit's, C's, the shell's, and those of formats.
OTHER = {"rt", "make", "refl", "valgrind", "callgrind_annotate", "python3", "xxd"}


def words_of_sources():
    words = set()
    for folder in SOURCES:
        for path in (TOP / folder).rglob("*"):
            if path.is_file() and path.suffix in SUFFIXES and "data" not in path.parts:
                words.update([path.stem, path.name])
                words.update(re.findall(r"[A-Za-z_][\w']*(?:-[\w']+)*", path.read_text(errors="replace")))
                if path.suffix == ".edit":
                    words.add(path.stem)
    for path in (TOP / "crates").iterdir():
        words.add(path.name)
    words.update(re.findall(r"[\w-]+", (TOP / "Makefile").read_text()))
    return words


def missing(page, words):
    fenced = False
    for number, line in enumerate(page.read_text().split("\n"), 1):
        if line.startswith("```"):
            fenced = not fenced
        if fenced or line.startswith("    "):
            continue
        for target in re.findall(r"\]\(([^)#:]+)(?:#[^)]*)?\)", line):
            if not (page.parent / target).exists():
                yield number, target
        if page.name == "GLOSSARY.md":
            line = "|".join(line.split("|")[:3])  # the third column has the names of source document 001
        for text in re.findall(r"`([^`]+)`", line):
            if PATH.match(text):
                if not list(TOP.glob(text.rstrip("/"))):
                    yield number, text
            elif WORD.match(text) and text not in words and text not in OTHER:
                yield number, text


def main():
    words = words_of_sources()
    count = 0
    for page in PAGES:
        for number, what in missing(page, words):
            print(f"{page.relative_to(TOP)}:{number}: `{what}` is not there")
            count += 1
    print(f"pages: {len(PAGES)} pages, {count} names that are not there")
    return 1 if count else 0


if __name__ == "__main__":
    sys.exit(main())
