#!/usr/bin/env python3
"""What a caller or a reader of the definitions sees changed between a commit and this tree, as Markdown, old and new side by side: of crates/*/src each public
function's signature and clauses and each public type; of crates/*/specs (and of proofs, for what moved there) each `pub` definition with its text and each `pub`
theorem with its statement; and the edits that the check must refuse whose lines changed. `tools/design_changes.py COMMIT`."""
import collections
import pathlib
import re
import subprocess
import sys

root = pathlib.Path(__file__).resolve().parent.parent


def tree(commit):
    """Each source and antt file of a commit, or of the work tree, by its path."""
    if commit is None:
        return {str(f.relative_to(root)): f.read_text(encoding="utf-8") for part in ("src", "specs", "proofs") for f in sorted(root.glob(f"crates/*/{part}/**/*")) if f.suffix in (".rt", ".antt")}
    names = subprocess.run(["git", "-C", root, "ls-tree", "-r", "--name-only", commit, "crates"], capture_output=True, text=True, check=True).stdout.split("\n")
    names = [n for n in names if re.match(r"crates/\w+/(src|specs|proofs)/.*\.(rt|antt)$", n)]
    return {n: subprocess.run(["git", "-C", root, "show", f"{commit}:{n}"], capture_output=True, text=True, check=True).stdout for n in names}


def flat(text):
    return " ".join(re.sub(r"(?m)^\s*(//|--).*$", "", text).split())


def source(path, text):
    """Public functions (signature and clauses), types and constants of a source file."""
    crate, stem = path.split("/")[1], pathlib.Path(path).stem
    place = crate if stem in ("lib", "main") else f"{crate}::{stem}"
    owner, found = "", {}
    lines = text.split("\n")
    i = 0
    while i < len(lines):
        line = lines[i]
        if m := re.match(r"impl(?:<.*?>)? (?:(\w+)(?:<.*?>)? for )?(\w+)", line):
            owner = m[2] + "::"
            if m[1]:
                found[f"{place}::{m[2]}: {m[1]}"] = flat(line)
        elif line == "}":
            owner = ""
        elif m := re.match(r"\s*pub (?:const )?(?:extern \"C\" )?fn (\w+)", line):
            end = i
            indent = len(line) - len(line.lstrip())
            while not re.match(" " * indent + r"\{", lines[end]) and not lines[end].endswith(" {"):
                end += 1
            found[f"{place}::{owner}{m[1]}"] = flat("\n".join(lines[i:end + (lines[end].endswith(" {") and lines[end].strip() != "{")])).removesuffix(" {")
            i = end
        elif m := re.match(r"pub (struct|enum|const) (\w+)", line):
            end = i
            while not (lines[end].endswith(";") or lines[end] == "}" or lines[end].endswith("}")):
                end += 1
            found[f"{place}::{m[2]}"] = flat("\n".join(lines[i:end + 1]))
            i = end
        i += 1
    return found


def words(path, text):
    """`pub` definitions (whole) and theorems (their statements) of an antt file."""
    parts = path.split("/")
    place = f"{parts[1]}/" + "/".join(parts[3:])[:-5]
    found, outer = {}, []
    for block in re.split(r"\n\s*\n", text):
        rows = [r for r in block.split("\n") if r.strip() and not re.match(r"\s*--", r)]
        i = 0
        while i < len(rows):
            row = rows[i]
            indent = len(row) - len(row.lstrip())
            outer = [o for o in outer if o[0] < indent]
            if m := re.match(r"\s*module _ (.*?) where$", row):
                outer.append((indent, m[1]))
                i += 1
                continue
            end = i + 1
            while end < len(rows) and len(rows[end]) - len(rows[end].lstrip()) > indent:
                end += 1
            m = re.match(r"\s*((?:abbrev |unfoldable )?pub (?:data |record )?)(\S+)(.*)", row)
            if m:
                name = m[2]
                whole = "abbrev" in m[1] or "unfoldable" in m[1] or "data" in m[1] or "record" in m[1]
                said = rows[i:end]
                if whole:
                    # the equations behind it
                    while end < len(rows) and re.match(rf"\s*{re.escape(name)}(\s|$)", rows[end]):
                        stop = end + 1
                        while stop < len(rows) and len(rows[stop]) - len(rows[stop].lstrip()) > indent:
                            stop += 1
                        said += rows[end:stop]
                        end = stop
                head = " ".join(f"({o[1]})" if not o[1].startswith(("(", "{")) else o[1] for o in outer if o[0] < indent)
                found[f"{place}.{name}"] = ((head + " ⊢ ") if head else "") + flat("\n".join(said))
            i = max(end, i + 1)
    return found


def read(commit):
    code, specs, lower = {}, {}, set()
    for path, text in sorted(tree(commit).items(), key=lambda f: "/proofs/" in f[0]):
        if path.endswith(".rt"):
            code.update(source(path, text))
        elif "/specs/" in path:
            specs.update(words(path, text))
        else:
            more = {k: v for k, v in words(path, text).items() if k not in specs and re.match(r"\w+/[A-Z]\w*\.", k)}
            specs.update(more)
            lower |= set(more)
    return code, specs, lower


def edits(commit):
    """The lines of each edit, without its comment."""
    if commit is None:
        found = {str(f.relative_to(root)): f.read_text(encoding="utf-8") for g in ("crates/*/must-fail/*.edit", "tests/edits/*/*.edit") for f in sorted(root.glob(g))}
    else:
        names = subprocess.run(["git", "-C", root, "ls-tree", "-r", "--name-only", commit], capture_output=True, text=True, check=True).stdout.split("\n")
        found = {n: subprocess.run(["git", "-C", root, "show", f"{commit}:{n}"], capture_output=True, text=True, check=True).stdout for n in names if re.match(r"(crates/\w+/must-fail|tests/edits/\w+)/\w+\.edit$", n)}
    return {n: " ⏎ ".join(re.sub(r"^(old|new): +", r"\1: ", r) for r in t.strip().split("\n") if not r.startswith(("#", "file:"))) for n, t in found.items()}


def cell(text):
    return "`" + text.replace("|", "\\|").replace("`", "'") + "`" if text else "–"


def main():
    old_code, old_specs, old_lower = read(sys.argv[1])
    new_code, new_specs, new_lower = read(None)
    for title, old, new in (("Public functions, types and constants", old_code, new_code), ("Definitions and theorems", old_specs, new_specs)):
        print(f"\n### {title}\n\n| name | at the start | now |\n|---|---|---|")
        by_name = collections.defaultdict(list)
        for k in new:
            if k not in old:
                by_name[(k.split("/")[0].split("::")[0], re.split(r"\.|::", k)[-1])].append(k)
        seen = set()
        for k in sorted(old):
            if k in old_lower and k in new_lower or k in old_lower and k not in new:
                continue
            if k in new:
                moved = "in proofs/: " if k in new_lower and k not in old_lower else ""
                if old[k] != new[k]:
                    print(f"| {k} | {cell(old[k])} | {moved}{cell(new[k])} |")
                elif moved:
                    print(f"| {k} | {cell(old[k])} | {moved}the same |")
                continue
            moved = by_name.get((k.split("/")[0].split("::")[0], re.split(r"\.|::", k)[-1]), [])
            if moved:
                seen.add(moved[0])
                if old[k] == new[moved[0]]:
                    print(f"| {k} | {cell(old[k])} | the same, {moved[0]} |")
                else:
                    print(f"| {k} | {cell(old[k])} | {moved[0]}: {cell(new[moved[0]])} |")
            else:
                print(f"| {k} | {cell(old[k])} | – |")
        for k in sorted(new):
            if k not in old and k not in seen and k not in new_lower:
                print(f"| {k} | – | {cell(new[k])} |")
    old, new = edits(sys.argv[1]), edits(None)
    print("\n### Edits\n\n| edit | at the start | now |\n|---|---|---|")
    for k in sorted(set(old) | set(new)):
        if old.get(k) != new.get(k):
            print(f"| {k} | {cell(old.get(k))} | {cell(new.get(k))} |")


main()
