#!/usr/bin/env python3
"""Spells the repository's own definitions and lemmas in snake case, as today's library is spelled: `firstForm` and `first-form` become `first_form`.

usage: tools/respell.py [FOLDER]      in FOLDER (this repository), once, right after port.py
       tools/respell.py --text FILE..  the names of the table tools/respell.tsv in other texts (pages, edits)

A name is one that specs/ or a lemma file of proofs/ declares: a definition, lemma, constructor or field that begins with a small letter. It turns in
every .antt file, in the clauses and `ghost use` lines of every .rt file, and in comments. Rust's names stay. Where two names would fall together, MEET says
what becomes of one of them. The table of what was turned is left in tools/respell.tsv."""

import collections
import os
import re
import sys

NAME = r'[^\s(){}.;,@"«»]+'
WORDS = set("pub abbrev unfoldable data record module mutual where use infix infixl infixr unfolding axiom let in elim open mod as deriving".split())

# names that would fall together with another's in some file
MEET = {
    "codeKept": "code_kept_in", "oneWay": "one_way_read", "settingsOf": "settings_verdict", "end-of": "end_of_ended", "headerBy": "header_answer_by",
    "trailerBy": "trailer_answer_by", "header-bytes": "frame_header_bytes", "sectionBytes": "section_bytes_of", "otherTe": "is_other_te",
    "badMethod": "is_bad_method", "noDigits": "is_no_digits", "badValue": "is_bad_value", "recordOf": "record_from", "verdict-of": "verdict_of_done",
    "next-request": "next_request_lem", "next-one-way": "next_one_way_lem",
} | {n: n.replace("-", "_") + "_lem" for n in """with-doors connection-size record-size report-size written-size free-at settings-kept type-number one-event dead-by
    of-given type-shown of-fed of-ended of-closed house-leaves is-readable place-in by-record is-told state-at head-state is-higher header-number trailer-number
    sends-content""".split()}
# lemmas that port.py has respelled into the name of a definition: theirs alone, in the file that declares them
LEMMAS = {"demands/specs/OneAnswer.antt": ["spot_back"], "listing/specs/Lists.antt": ["end_line"], "requests/specs/Taken.antt": ["in_place"]}
# prose that is spelled like a name
PROSE = {"pseudo-fields", "content-length", "one-way"}


def comment_at(line, mark):
    for m in re.finditer(r'(?<![^\s(){}.;,@«»])' + mark, line):
        if line[: m.start()].count('"') % 2 == 0:
            return m.start()
    return len(line)


def declared(text):
    names = {}
    for line in text.split("\n"):
        line = line[: comment_at(line, "--")]
        m = re.match(r"^ *(?:pub\s+)?(data|record|module)\s+(" + NAME + ")", line)
        if m:
            names[m[2]] = m[1]
            continue
        m = re.match(r"^( *)((?:(?:pub|abbrev|unfoldable) +)*)([^:]*?) : ", line + " ")
        if not m:
            continue
        indent, head = len(m[1]), re.sub(r"\{[^{}]*\}|\([^()]*\)", "", m[3])
        words = head.split()
        if re.search(r"[(){}.;,=|@↦λ]", head) or not words or words[0] in WORDS or indent > 4 or indent == 0 and len(words) > 1:
            continue
        for w in words:
            if w in WORDS or not re.match(r"^[^\W\d_]", w):
                break
            names.setdefault(w, indent)
    return names


def respelled(name):
    if name in MEET:
        return MEET[name]
    if name[0].isupper():
        return name
    return re.sub(r"(?<=[a-z0-9₀-₉])[A-Z]", lambda m: "_" + m[0].lower(), name).replace("-", "_")


def files(root):
    for folder, dirs, names in os.walk(os.path.join(root, "crates")):
        dirs[:] = sorted(d for d in dirs if d != "out")
        for f in sorted(names):
            if f.endswith((".antt", ".rt")):
                yield os.path.join(folder, f)


def of_a_function(path):
    parts = path.split("/crates/", 1)[1].split("/")
    return parts[1] == "proofs" and len(parts) > 3


def turn_words(text, table):
    return re.sub(NAME, lambda m: table.get(m[0], m[0]), text)


def turn_code(text, table):
    return "".join(p if i % 2 else turn_words(p, table) for i, p in enumerate(re.split(r'("(?:[^"\\\n]|\\.)*")', text)))


def turn_comment(text, table):
    def word(m):
        w = m[0]
        return w if w in PROSE else table.get(w, w)

    return re.sub(r"[^\s(){}.;,:@\"«»`]+", word, text.replace("one_way", "one-way") if "`" not in text else text)


def turn_antt(text, table):
    out = []
    for line in text.split("\n"):
        i = comment_at(line, "--")
        out.append(turn_code(line[:i], table) + turn_comment(line[i:], table))
    return "\n".join(out)


def turn_rt(text, table):
    out, i = [], 0
    clause = re.compile(r"//[^\n]*|(?:requires|ensures)\s*\*?\s*(?:\w+\s*)?\{|ghost\s+use\b[^;]*;|ghost\s*(?:\w+\s*:\s*)?\{")
    while True:
        m = clause.search(text, i)
        if not m:
            return "".join(out) + text[i:]
        out.append(text[i : m.start()])
        if m[0].startswith("//"):
            out.append(turn_comment(m[0], table))
            i = m.end()
        elif m[0].endswith(";"):
            out.append(turn_words(m[0], table))
            i = m.end()
        else:
            j, deep = m.end(), 1
            while deep:
                deep += (text[j] == "{") - (text[j] == "}")
                j += 1
            out.append(turn_words(text[m.start() : j], table))
            i = j


def main(argv):
    here = os.path.dirname(os.path.realpath(__file__))
    if argv and argv[0] == "--text":
        with open(os.path.join(here, "respell.tsv"), encoding="utf-8") as f:
            table = dict(line.rstrip("\n").split("\t") for line in f)
        for path in argv[1:]:
            with open(path, encoding="utf-8") as f:
                text = f.read()
            new = re.sub(r"[^\s(){}.;,:@\"«»`|/\[\]]+", lambda m: m[0] if m[0] in PROSE else table.get(m[0], m[0]), text)
            if new != text:
                with open(path, "w", encoding="utf-8") as f:
                    f.write(new)
        return
    root = os.path.realpath(argv[0] if argv else os.path.join(here, ".."))
    texts = {p: open(p, encoding="utf-8").read() for p in files(root)}
    names = collections.defaultdict(set)
    for p, t in texts.items():
        if p.endswith(".antt") and not of_a_function(p):
            for n in declared(t):
                names[n].add(p)
    table = {n: respelled(n) for n in names if respelled(n) != n}
    fields = {n for n in table}
    met = collections.defaultdict(set)
    for p, t in texts.items():
        own = table
        if p.endswith(".antt") and of_a_function(p):
            # only what the file imports, and fields: the other names are Rattle's
            used = set(re.findall(NAME, " ".join(re.findall(r"(?m)^use [^\n]*", t))))
            own = {n: v for n, v in table.items() if n in used or re.search(r"\." + re.escape(n) + r"(?![\w'-])", t)}
        for q, lemmas in LEMMAS.items():
            if p.endswith("/crates/" + q):
                own = own | {n: n + "_lem" for n in lemmas}
        code = "\n".join(l[: comment_at(l, "--")] for l in t.split("\n")) if p.endswith(".antt") else ""
        for w in set(re.findall(NAME, code)):
            if w not in own and w in {own[x] for x in set(re.findall(NAME, code)) & set(own)}:
                met[w].add(p)
        new = turn_antt(t, own) if p.endswith(".antt") else turn_rt(t, own)
        if new != t:
            with open(p, "w", encoding="utf-8") as f:
                f.write(new)
    with open(os.path.join(root, "tools", "respell.tsv"), "w", encoding="utf-8") as f:
        f.write("".join(f"{n}\t{v}\n" for n, v in sorted(table.items())))
    for w, ps in sorted(met.items()):
        print("meets:", w, *(p.split("/crates/")[1] for p in sorted(ps)))
    print(f"respelled: {len(table)} names")


main(sys.argv[1:])
