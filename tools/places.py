#!/usr/bin/env python3
"""Lists the places of crates/*/src that are not in today's forms of the language: docs/DESIGN-PASS.md, points 1 to 7.

    tools/places.py [--table] [--only 3 | --only 3w] [TREE or COMMIT]

reads the tree that it stands in, another folder, or a commit of this repository. Prints for each kind of place `file:line name` and the count;
with --table the counts alone, by crate. A place is found by the text: one that stays for a reason is found too.
"""
import collections
import itertools
import pathlib
import re
import subprocess
import sys

TOP = pathlib.Path(__file__).resolve().parent.parent

# Twins that were found by eye: functions or types that differ only in a type, a size, a constant or a name; and answers that repeat one another's fields.
TWINS = [
    "varint::value varint::near_value",
    "varint::wide record::wide script::wide replaying::wide",
    "record::good tried_c::is_part",
    "record::sane tried_c::is_sane",
    "section::kept section::kept_number",
    "section::either section::both",
    "section::HeaderAnswer section::TrailerAnswer",
    "section::header_section section::trailers",
    "section::Stated control::SectionSize control::Single wire::Sent script::Number",
    "wire::write_header wire::write_integer_frame",
    "control::with_goaway control::with_max_push",
    "control::judge_goaway control::judge_max_push",
    "connection::next_request connection::next_one_way",
    "connection::open_request connection::open_one_way",
    "oneway::put listing::put",
    "requests::give_header requests::give_trailers",
    "requests::cells_at oneway::cells oneway::behind_settings record::none",
    "requests::kept oneway::row_of",
    "record::headed record::placed",
    "frames::HeadEnd oneway::TypeEnd",
    "frames::head_on oneway::type_on",
    "frames::quiet oneway::quiet",
    "frames::Answer oneway::OneAnswer requests::Reply oneway::Heard connection::Report tried_c::Report tried_c::WayReport",
    "connection::Turn connection::Near connection::Brief",
    "connection::Begun connection::Opening connection::Goaway connection::Gone connection::Written",
    "connection::reply_turn connection::heard_turn",
    "calls::store calls::store_content",
    "tried_c::reported tried_c::way_reported",
    "tried_c::is_limited tried_c::is_stated",
    "tried_c::limit tried_c::length_of",
    "script::Number script::Bytes",
    "script::digit script::half",
    "script::spaced script::spelt",
    "script::has_bytes script::has_room script::has_row",
    "replaying::Step replaying::Played",
    "faces::Driven faces::Began faces::Told",
    "samples::integer_in samples::header_in samples::integer_frame_in samples::opening_in samples::goaway_in samples::goaway_after",
    "samples::integer samples::header samples::integer_frame samples::opening samples::goaway samples::goaway_again",
    "samples::header_section samples::trailers",
    "lister::run replay::run",
]

POINTS = {
    "1o": "an enum of the shape of Option or Result",
    "1n": "a number that says none, refused or free, by a function's comment or body",
    "1f": "a field or parameter that is a flag beside a value",
    "1r": "a refusal as a number: field, variant, or written as a literal",
    "1k": "a kind, use, phase, mode, event, reason or name as a number: field, parameter or answer",
    "1c": "a constant that numbers one of these",
    "2e": "twins by eye: groups of which two or more stand",
    "2s": "twins by shape: the same text but for names, types and constants",
    "3w": "a `while` loop",
    "3l": "a `loop`",
    "3i": "an index counted by hand (`i += 1`, `i = i + 1`, `k -= 1`)",
    "4f": "equality, order, a test of a variant or a conversion by hand, as a function",
    "4b": "`if c { true } else { false }`, or 1 and 0",
    "4r": "`if c { return true; }`, `if c { return false; }`",
    "4m": "a field of a Copy struct moved out by `let`",
    "4s": "a literal that repeats three or more fields of one value",
    "5f": "a fact in the `requires` of three or more functions: those functions",
    "5p": "parameters that travel together in three or more functions of a crate: those functions",
    "6l": "a buffer with how much of it counts beside it",
    "6a": "a slice or buffer with a place in it beside it",
    "6r": "an answer that says how much of a lent room counts",
    "6p": "parallel arrays",
    "7d": "dispatch on a letter or a number, three ways or more",
}


def sources(where):
    """(path, text) of each source of a folder or a commit."""
    folder = pathlib.Path(where)
    if folder.is_dir():
        for path in sorted(folder.glob("crates/*/src/**/*.rt")):
            yield str(path.relative_to(folder)), path.read_text(encoding="utf-8")
        return

    def git(*words):
        return subprocess.run(["git", "-C", TOP, *words], check=True, capture_output=True, text=True).stdout

    for path in sorted(git("ls-tree", "-r", "--name-only", where, "crates").splitlines()):
        if re.fullmatch(r"crates/\w+/src/.*\.rt", path):
            yield path, git("show", f"{where}:{path}")


class Item:
    """A function, type or constant: its kind, name, line, comment above, head (signature and contract), body."""

    def __init__(self, path, kind, name, line, comment, head, body, body_line):
        self.path, self.kind, self.name, self.line = path, kind, name, line
        self.comment, self.head, self.body, self.body_line = comment, head, body, body_line
        self.crate = path.split("/")[1]

    def parameters(self):
        """[(name, type)] of a function."""
        found, depth, start = [], 0, self.head.find("(")
        piece = ""
        for c in self.head[start + 1:]:
            if c in "([<{":
                depth += 1
            elif c in ")]>}":
                if depth == 0:
                    break
                depth -= 1
            if c == "," and depth == 0:
                found.append(piece)
                piece = ""
            else:
                piece += c
        found.append(piece)
        pairs = [tuple(" ".join(x.split()) for x in p.split(":", 1)) for p in found if ":" in p]
        return [(re.sub(r"^mut ", "", n), re.sub(r"'a ", "", t)) for n, t in pairs]

    def answer(self):
        """The type of a function's result, or nothing."""
        found = re.search(r"->\s*([^\n{]+?)\s*(?:\n|\{|$)", self.head)
        return found[1].strip() if found else ""

    def required(self):
        """The facts of a function's requires clauses."""
        facts = []
        for clause in re.findall(r"^\s*requires(?: \w+)? \{ (.*) \}$", self.head, re.M):
            depth, piece = 0, ""
            for part in re.split(r"( × |[()])", clause):
                depth += part == "("
                depth -= part == ")"
                if part == " × " and depth == 0:
                    facts.append(piece)
                    piece = ""
                else:
                    piece += part
            facts.append(piece)
        return [re.sub(r"^\((.*)\)$", r"\1", f.strip()) for f in facts]

    def fields(self):
        """[(line, name, type)] of a struct."""
        if self.kind != "struct":
            return []
        return [(self.body_line + i, *m.groups()) for i, x in enumerate(self.body.split("\n")) if (m := re.match(r"\s*(?:pub )?(\w+): (.+?),?$", x))]

    def variants(self):
        """[(line, name, payload or nothing)] of an enum."""
        if self.kind != "enum":
            return []
        found, depth = [], 0
        for i, x in enumerate(self.body.split("\n")):
            if depth == 0 and (m := re.match(r"\s*(\w+)\s*(\(.*?\)|\{)?", re.sub(r"//.*", "", x))):
                found.append((self.body_line + i, m[1], m[2] or ""))
            depth += x.count("{") - x.count("}")
        return found


HEAD = re.compile(r'^(\s*)(?:pub(?:\([^)]*\))? )?(?:const (?=fn))?(?:unsafe )?(?:extern "C" )?(fn|struct|enum|const|trait|impl)\b(?:<[^>]*>)?\s*(\w*)')


def items(path, text):
    """The items of a file, those of impl blocks too."""
    rows = text.split("\n")
    found = []
    for i, row in enumerate(rows):
        m = HEAD.match(row)
        if not m or m[2] in ("impl", "trait") or not m[3]:
            continue
        k = i - 1
        while k >= 0 and re.match(r"\s*#\[", rows[k]):
            k -= 1
        last = k
        while k >= 0 and re.match(r"\s*//", rows[k]):
            k -= 1
        comment = " ".join(r.strip(" /") for r in rows[k + 1:last + 1])
        if m[2] == "const" or row.rstrip().endswith(";"):
            found.append(Item(path, m[2], m[3], i + 1, comment, row, "", i + 1))
            continue
        indent = m[1]
        j = i  # the line that opens the body: a bare brace, or one that ends the line of the head
        while j + 1 < len(rows) and not re.search(r"(?<!ensures )(?<!requires )\{\}?$|;$", rows[j]):
            j += 1
        if rows[j].endswith((";", "{}")):  # a method of a trait that has no body, or an empty one
            found.append(Item(path, m[2], m[3], i + 1, comment, "\n".join(rows[i:j + 1]), "", j + 1))
            continue
        head = "\n".join(rows[i:j + 1])
        e = j + 1
        while e < len(rows) and rows[e] != indent + "}":
            e += 1
        found.append(Item(path, m[2], m[3], i + 1, comment, head, "\n".join(rows[j + 1:e]), j + 2))
    return found


def bare(text):
    """Without comments."""
    return re.sub(r"//[^\n]*", "", text)


# Functions, by eye, whose number says that there is none; and the numbers of refusals.
NUMBERED = "section::lower section::places_fault section::request_fault section::authority_fault section::header_fault section::trailer_fault"
CODES = {
    *("ACCEPTED NOT_OPEN NOT_NEXT NO_RECORD SECTION_DUE NO_SECTION UNREADABLE ROOM_SHORT BAD_VALUE OTHER_ROW NO_USE NONE UNSOUND".split()),
    *("STREAM_CREATION_ERROR CLOSED_CRITICAL_STREAM FRAME_UNEXPECTED FRAME_ERROR EXCESSIVE_LOAD ID_ERROR SETTINGS_ERROR MISSING_SETTINGS".split()),
    *("REQUEST_REJECTED REQUEST_CANCELLED REQUEST_INCOMPLETE MESSAGE_ERROR".split()),
}
FLAGS = {"ok", "on", "aside", "whole", "readable", "has", "set", "limited", "goaways", "pushes", "given", "hosted", "there", "sent", "came", "free", "control", "encoder", "decoder"}
KINDS = {"kind", "mode", "phase", "event", "which", "letter", "payload", "reason", "use_number", "last", "part", "behind", "first"}
WHOLE_NUMBERS = {"u64", "usize", "u8", "u16", "u32"}
NONES = {"Nothing", "Short", "Not", "Cut", "Nowhere", "Unlimited", "End", "Absent", "Missing", "No"}
REFUSALS = {"Refused", "Failed", "Unreadable", "Unsound", "Faulty", "Bad"}
SAYS = re.compile(
    r"\b(?:0|1|4|9|10|16|25|24)(?:: | freed| where)"
    r"|or the code|else the code|\bif (?:there|it) is (?:none|nowhere)|the length if there is none|read as that is of no stream|0, (?:6|7)\b"
)


def places(files):
    """{kind: [(path, line, name)]}"""
    found = collections.defaultdict(list)
    every = [x for path, text in files for x in items(path, text)]

    def at(kind, item, line=None, name=None):
        found[kind].append((item.path, line or item.line, name or item.name))

    # 1
    tail = r"(?:\breturn |[{}]\s*|=>\s*)(?:\w+::)*"  # what an answer stands behind
    refusing = {n.split("::")[1] for n in NUMBERED.split()}
    for x in every:
        if x.kind == "fn" and x.answer() in ("u64", "usize") and (set(re.findall(tail + r"([A-Z][A-Z_]+)\s*[;}\n]", bare("{" + x.body + "\n}"))) & CODES):
            refusing.add(x.name)
    while True:
        calls = re.compile(tail + rf"(?:{'|'.join(sorted(refusing))})\(")
        more = {x.name for x in every if x.kind == "fn" and x.answer() in ("u64", "usize") and calls.search(bare("{" + x.body))} - refusing
        if not more:
            break
        refusing |= more
    for x in every:
        if x.kind == "enum":
            names = {v[1] for v in x.variants()}
            carries = any(v[2] for v in x.variants())
            option = carries and names & NONES
            result = names & REFUSALS and names - REFUSALS and len(names) <= 3
            if option or result:
                at("1o", x)
            for line, name, payload in x.variants():
                if name in REFUSALS and re.search(r"\b(u64|usize)\b", payload):
                    at("1r", x, line, f"{x.name}::{name}")
        if x.kind == "fn" and x.answer() in WHOLE_NUMBERS:
            if SAYS.search(x.comment) or x.name in refusing:
                at("1n", x)
            elif "(self" not in x.head and re.search(tail + r"(?!ABOVE|LARGEST|\w*LIMIT)[A-Z][A-Z_]+\s*[;,}\n]", bare("{" + x.body + "\n}")):
                at("1k", x, None, f"{x.name} (answer)")
        if x.kind == "struct":
            for line, name, kind in x.fields():
                if kind in WHOLE_NUMBERS | {"bool"} and name in FLAGS:
                    at("1f", x, line, f"{x.name}.{name}")
                if kind in WHOLE_NUMBERS and name in ("number", "code"):
                    at("1r", x, line, f"{x.name}.{name}")
                if kind in WHOLE_NUMBERS and name in KINDS:
                    at("1k", x, line, f"{x.name}.{name}")
        if x.kind == "fn":
            for name, kind in x.parameters():
                if kind in WHOLE_NUMBERS | {"bool"} and name in FLAGS:
                    at("1f", x, None, f"{x.name}({name})")
                if kind in WHOLE_NUMBERS and name in ("number", "code"):
                    at("1r", x, None, f"{x.name}({name})")
                if kind in WHOLE_NUMBERS and name in KINDS:
                    at("1k", x, None, f"{x.name}({name})")
            for i, row in enumerate(x.body.split("\n")):
                if re.search(r"\bRefused\(\d+\)|\b(?:refusal|refused)\(\d+,|\bnumber: (?:10|[1-9])\b|\bUnreadable => \d", row):
                    at("1r", x, x.body_line + i, f"{x.name} (literal)")
        if x.kind == "const":
            m = re.match(r".*: (?:u64|usize|u8) = (0x[0-9a-f]+|\d+);", x.head)
            if m and int(m[1], 0) <= 0x10E:
                at("1c", x)

    # 2
    named = collections.defaultdict(list)
    for x in every:
        named[f"{x.crate}::{x.name}"].append(x)
    for group in TWINS:
        there = [n for n in group.split() if n in named]
        if len(there) > 1:
            first = named[there[0]][0]
            at("2e", first, None, " ".join(there))
    shapes = collections.defaultdict(list)
    for x in every:
        if x.kind != "fn":
            continue
        words = re.findall(r"[^\W\d]\w*(?:::\w+)*|\d\w*|b?\"[^\"]*\"|b?'[^']*'|[^\s\w]", bare("(" + x.head.split("(", 1)[1] if "(" in x.head else x.head) + x.body)
        if len(words) < 30:
            continue
        order, shape = {}, []
        for w in words:
            if w in ("if", "else", "while", "for", "match", "return", "let", "mut", "loop", "in", "as", "ensures", "requires"):
                shape.append(w)
            elif re.match(r"[^\W\d]", w) and not w.endswith(("'", '"')):
                shape.append("n%d" % order.setdefault(w, len(order)))
            elif re.match(r"\d|b?['\"]", w):
                shape.append("k")
            else:
                shape.append(w)
        body = [re.sub(r"^n\d+$", "n", w) for w in shape] if len(shape) >= 90 else shape
        shapes[" ".join(body)].append(x)
    for same in shapes.values():
        if len(same) > 1:
            at("2s", same[0], None, " ".join(f"{x.crate}::{x.name}" for x in same))

    # 3
    for x in every:
        if x.kind != "fn":
            continue
        for i, row in enumerate(x.body.split("\n")):
            row = bare(row)
            if re.search(r"\bwhile\b", row):
                at("3w", x, x.body_line + i)
            if re.search(r"\bloop\b", row):
                at("3l", x, x.body_line + i)
            if re.search(r"^\s*(\w+) (?:\+=|-=) [12];|^\s*(\w+) = \2 [+-] 1;", row):
                at("3i", x, x.body_line + i)

    # 4
    hand = re.compile(r"(?:same|same_bytes|is_\w+|wide|narrow|told|least|either|both|flag|good|sane|blank|reserved|keeps_code|wanted)$")
    for x in every:
        if x.kind != "fn":
            continue
        if hand.match(x.name):
            at("4f", x)
        body = bare(x.body)

        def line_of(k):
            return x.body_line + body[:k].count("\n")

        for m in re.finditer(r"\{\s*(?:true|false|1|0)\s*\}\s*else\s*\{\s*(?:true|false|1|0)\s*\}", body):
            at("4b", x, line_of(m.start()))
        for m in re.finditer(r"\bif [^{}]*\{\s*return (?:true|false);\s*\}", body):
            at("4r", x, line_of(m.start()))
        for m in re.finditer(r"\blet (\w+) = (\w+(?:\.\w+)+);", body):
            at("4m", x, line_of(m.start()), f"{x.name} {m[1]}")
        for m in re.finditer(r"\b[A-Z]\w* \{([^{}]*)\}", body):
            bases = collections.Counter(b for a, b, c in re.findall(r"\b(\w+): (\w+)\.(\w+)\s*(?:,|$)", m[1]) if a == c)
            if bases and max(bases.values()) >= 3:
                at("4s", x, line_of(m.start()))

    # 5
    facts = collections.defaultdict(list)
    for x in every:
        if x.kind == "fn":
            for fact in {re.sub(r"\b\d+\b(?! \^)(?<!\^ \d)(?<!\^ \d\d)", "#", re.sub(r"\br\.|\bresult\.", "", f)) for f in x.required()}:
                facts[fact].append(x)
    held = {}
    for fact, there in facts.items():
        if len(there) >= 3:
            for x in there:
                held.setdefault((x.path, x.line, x.name), []).append(fact)
    for (path, line, name), said in sorted(held.items()):
        found["5f"].append((path, line, f"{name}: {'; '.join(sorted(said))}"))
    by_crate = collections.defaultdict(list)
    for x in every:
        if x.kind == "fn":
            by_crate[x.crate].append((x, frozenset(x.parameters())))
    for there in by_crate.values():
        groups = {}
        for a, b in itertools.combinations(there, 2):
            both = a[1] & b[1]
            if len(both) >= 3 or (len(both) >= 2 and all(t in WHOLE_NUMBERS or "[" in t for _, t in both)):
                groups[both] = [x for x, p in there if both <= p]
        travel = {}
        for both, who in groups.items():
            if len(who) >= 3:
                for x in who:
                    travel.setdefault(x, []).append(both)
        for x, said in travel.items():
            most = max(said, key=len)
            at("5p", x, None, f"{x.name}: {', '.join(n for n, _ in x.parameters() if n in {m for m, _ in most})}")

    # 6
    for x in every:
        if x.kind == "struct":
            arrays = [(n, t) for _, n, t in x.fields() if re.search(r"\[[^;\]]+; \w+\]", t)]
            if arrays and any(n in ("n", "held", "count", "len", "next") and t in WHOLE_NUMBERS for _, n, t in x.fields()):
                at("6l", x)
            sizes = collections.Counter(t.split(";")[1] for _, t in arrays)
            if any(v > 1 for v in sizes.values()):
                at("6p", x)
        if x.kind == "fn":
            given = x.parameters()
            buffers = [n for n, t in given if re.search(r"\[[^;\]]+; \w+\]|&(?:mut )?\[\w+\]", t)]
            facts_here = " ".join(x.required())
            for n, t in given:
                if buffers and t in WHOLE_NUMBERS and n in ("n", "held", "k", "count") and re.search(rf"\b{n} (?:\+ len )?≤", facts_here):
                    at("6l", x, None, f"{x.name}: {', '.join(buffers)} with {n}")
                if buffers and t in WHOLE_NUMBERS and n in ("to", "at", "from"):
                    at("6a", x, None, f"{x.name}: {', '.join(buffers)} with {n}")
            if x.answer() == "usize" and any(t.startswith("&mut [u8") for _, t in given):
                at("6r", x)

    # 7
    for x in every:
        if x.kind != "fn":
            continue
        body = bare(x.body)
        asked = collections.defaultdict(set)
        for left, right in re.findall(r"([\w.]+) == ((?:\w+::)*[A-Z][A-Z0-9_]+|b'[^']+'|\d\w*)", body):
            asked[left].add(right)
        arms = re.findall(r"\bmatch [\w.()]+ \{\s*((?:(?:\w+::)*[A-Z][A-Z0-9_]+|b'[^']+'|\d\w*)\b(?:.(?!=>))*.?=>)", body)
        if any(len(v) >= 3 for v in asked.values()) or arms or re.search(r"\bmatch \w+(?:\.len\(\))? \{\s*(?:(?:rules::)+\w+::[A-Z]|rules::[A-Z]|b'|\d|[A-Z]{2})", body):
            at("7d", x)
    return found


def main():
    words = sys.argv[1:]
    table = "--table" in words
    only = words[words.index("--only") + 1] if "--only" in words else ""
    rest = [w for i, w in enumerate(words) if w not in ("--table", "--only") and (i == 0 or words[i - 1] != "--only")]
    found = places(list(sources(rest[0] if rest else TOP)))
    crates = sorted({p.split("/")[1] for kind in found.values() for p, _, _ in kind})
    for kind, what in POINTS.items():
        if not kind.startswith(only):
            continue
        here = found[kind]
        if not table:
            print(f"== {kind}: {what}")
            for path, line, name in here:
                print(f"{path}:{line} {name}")
            print(f"{kind}: {len(here)}\n")
            continue
        counts = collections.Counter(p.split("/")[1] for p, _, _ in here)
        print(f"| {kind} | {what} | {len(here)} | " + ", ".join(f"{c} {counts[c]}" for c in crates if counts[c]) + " |")


main()
