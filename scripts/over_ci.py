#!/usr/bin/env python3
"""Makes the static library of a crate over the libraries that `rt ci` has just proved: scripts/over_ci.py, in the crate's folder

`rt ci` leaves each library that it proved in crates/NAME/out/rlib, and proves a static library without making it. `rt lib` would prove
all of them once more. So the crate is proved and built here over those libraries, which is what `rt ci` does of a program. Where one of them is not
there, or where `rt ci` kept some of them from different runs, so that they do not fit together, `rt lib` makes the archive.
"""
import os
import re
import subprocess
import sys


def main():
    folder = os.getcwd()
    crates, name = os.path.split(folder)
    with open(os.path.join(os.path.dirname(crates), "crates.txt"), encoding="utf-8") as file:
        listed = dict(re.findall(r"^(\w+)(?: staticlib)?:([^#\n]*)", file.read(), re.M))
    uses = {crate: words.split() for crate, words in listed.items()}
    below = []
    rest = list(uses[name])
    while rest:
        crate = rest.pop()
        if crate not in below:
            below.append(crate)
            rest += uses[crate]
    rlib = lambda crate: os.path.join(crates, crate, "out", "rlib")
    if not all(os.path.isdir(os.path.join(rlib(crate), crate + ".rlib")) for crate in below):
        return subprocess.run(["rt", "lib"]).returncode
    kit = os.path.dirname(subprocess.run(["rt", "doc"], check=True, capture_output=True, text=True).stdout.strip())
    words = ["--crate-name", name, "src/lib.rt", "--crate-type", "staticlib", "--links", name + "="]
    words += ["--extern", f"std={kit}/rlibs/std.rlib", "-L", f"dependency={kit}/rlibs"]
    for crate in uses[name]:
        words += ["--extern", f"{crate}={rlib(crate)}/{crate}.rlib"]
    for crate in below:
        words += ["-L", f"dependency={rlib(crate)}"]
    words += ["--antt-project", f"{kit}/rattle/logic/antt-project.json", "--logic-built", f"{kit}/logic_built"]
    words += ["--toolchain", f"{kit}/toolchain", "--backend", "llvm"]
    os.makedirs("out", exist_ok=True)
    if subprocess.run([f"{kit}/bin/rattle", "build", *words, "-o", f"out/lib{name}.a"]).returncode == 0:
        return 0
    return subprocess.run(["rt", "lib"]).returncode


if __name__ == "__main__":
    sys.exit(main())
