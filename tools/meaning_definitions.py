#!/usr/bin/env python3
"""Writes the places of meaning's definitions into the `use` lines of the crates above.

tools/meaning_paths.py had sent every name of these files to crates/meaning/proofs; the
definitions among them stand in crates/meaning/specs, in the files of the same names,
and only the theorems in proofs/. Run at the top of the repository.
"""
import glob
import pathlib
import re

PLACE = pathlib.Path("crates/meaning")


def declared(part, name):
    """The names that a file of meaning declares, constructors among them."""
    path = PLACE / part / (name + ".antt")
    text = path.read_text(encoding="utf-8") if path.is_file() else ""
    found = set(re.findall(r"(?m)^ *(?:(?:pub|abbrev|unfoldable) )*([^\s:(){}]+) : ", text))
    return found | set(re.findall(r"(?m)^ *(?:pub )?(?:data|record) ([^\s:(){}]+)", text))


def turned(line):
    at = re.match(r"(\s*(?:ghost )?(?:pub )?use )Rattle\.meaning\.(?:specs|proofs)\.(\w+)\.\{(.*)\}(;?)$", line)
    if not at:
        return line
    if not (PLACE / "proofs" / (at[2] + ".antt")).is_file():
        return line
    names = [it.strip() for it in at[3].split(",")]
    here = [it for it in names if it.split(" as ")[0] in declared("specs", at[2])]
    there = [it for it in names if it not in here]
    lines = []
    for part, some in (("specs", here), ("proofs", there)):
        if some:
            lines.append(f"{at[1]}Rattle.meaning.{part}.{at[2]}.{{{', '.join(some)}}}{at[4]}")
    return "\n".join(lines)


for path in sorted(glob.glob("crates/*/**/*.antt", recursive=True) + glob.glob("crates/*/**/*.rt", recursive=True)):
    if "/out/" in path:
        continue
    with open(path, encoding="utf-8") as it:
        was = it.read()
    now = "\n".join(turned(line) for line in was.split("\n"))
    if now != was:
        with open(path, "w", encoding="utf-8") as it:
            it.write(now)
        print(path)
