#!/usr/bin/env python3
"""Writes the new places of meaning's theorems into the `use` lines of the crates above.

Files of theorems of crates/meaning/specs stand in crates/meaning/proofs, so that a
must-fail edit of a definition is refused there. Of FeedLaws the definition `past` and
its laws stayed, and of Longer the definitions that its theorems speak of.
"""
import glob
import re

WHOLE = "Bridge Cut Shift Feeds EveryFeed First OneWays OneWayFirst Instances".split()
STAYED = {
    "FeedLaws": "past past_none past_past also_past also_is".split(),
    "Longer": "no_headers no_trailers count_headers Extra end unknown empty_data with_trailers Longer data_of headers_of".split(),
}


def turned(line):
    line = re.sub(r"Rattle\.meaning\.specs\.(%s)\b" % "|".join(WHOLE), r"Rattle.meaning.proofs.\1", line)
    line = line.replace("Rattle.meaning.specs.Longer as L", "Rattle.meaning.proofs.Longer as L")
    at = re.match(r"(\s*(?:ghost )?use )Rattle\.meaning\.specs\.(FeedLaws|Longer)\.\{(.*)\}(;?)$", line)
    if not at:
        return line
    names = [it.strip() for it in at[3].split(",")]
    here = [it for it in names if it.split(" as ")[0] in STAYED[at[2]]]
    there = [it for it in names if it not in here]
    lines = []
    for part, some in (("specs", here), ("proofs", there)):
        if some:
            lines.append(f"{at[1]}Rattle.meaning.{part}.{at[2]}.{{{', '.join(some)}}}{at[4]}")
    return "\n".join(lines)


for path in sorted(glob.glob("crates/*/**/*.antt", recursive=True) + glob.glob("crates/*/**/*.rt", recursive=True)):
    if path.startswith("crates/meaning/") or "/out/" in path:
        continue
    with open(path, encoding="utf-8") as it:
        was = it.read()
    now = "\n".join(turned(line) for line in was.split("\n"))
    if now != was:
        with open(path, "w", encoding="utf-8") as it:
            it.write(now)
        print(path)
