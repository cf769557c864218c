#!/usr/bin/env python3
"""Prints each must-fail edit whose old text doesn't stand exactly once.

    tools/edits_fit.py [FOLDER]

reads crates/NAME/must-fail/*.edit and tests/edits/NAME/*.edit at the top of
the repository (or of FOLDER). An edit is a line `file: PATH`, below
crates/NAME, and pairs of lines `old: TEXT` and `new: TEXT`. Each old text must
stand exactly once in that file; a later pair applies to what the earlier ones
made. Ends with status 1 if one does not fit.
"""
import glob
import os
import sys


def pairs(path):
    """The file that an edit names, and its pairs of an old and a new text."""
    name, olds, news = None, [], []
    for line in open(path, encoding="utf-8").read().split("\n"):
        if line.startswith("file: "):
            name = line[len("file: "):].strip()
        elif line.startswith("old: "):
            olds.append(line[len("old: "):])
        elif line.startswith("new:"):
            news.append(line[len("new: "):])
    return name, olds, news


def fits(top, path):
    """What is wrong with an edit, or nothing."""
    crate = path.split(os.sep)[-3] if path.split(os.sep)[-2] == "must-fail" else path.split(os.sep)[-2]
    name, olds, news = pairs(path)
    if name is None or not olds or len(olds) != len(news):
        return ["no file, no pair, or an old text without a new one"]
    there = os.path.join(top, "crates", crate, name)
    if not os.path.exists(there):
        return [f"no file {name}"]
    text = open(there, encoding="utf-8").read()
    wrong = []
    for i, (old, new) in enumerate(zip(olds, news)):
        n = text.count(old)
        if n != 1:
            wrong.append(f"old text {i + 1} stands {n} times: {old.strip()}")
        elif old == new:
            wrong.append(f"pair {i + 1} changes nothing")
        text = text.replace(old, new, 1)
    return wrong


def main():
    top = sys.argv[1] if len(sys.argv) > 1 else "."
    paths = sorted(glob.glob(os.path.join(top, "crates/*/must-fail/*.edit")))
    paths += sorted(glob.glob(os.path.join(top, "tests/edits/*/*.edit")))
    bad = 0
    for path in paths:
        wrong = fits(top, path)
        for w in wrong:
            print(f"{os.path.relpath(path, top)}: {w}")
        bad += bool(wrong)
    print(f"edits: {len(paths)}, {bad} do not fit")
    sys.exit(1 if bad or not paths else 0)


main()
