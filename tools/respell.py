#!/usr/bin/env python3
"""Gives this repository's own definitions and lemmas the spelling of today's Rattle: words in snake case.

usage: tools/respell.py           at the top of a checkout in which port.py has run: rewrites crates/ and the documents
       tools/respell.py --list    prints the names, old and new, and changes nothing

A name is respelled if it is defined in specs/ or proofs/ and has a dash or a capital inside: objectPlaces becomes
object_places, frame-objects becomes frame_objects. Types and modules begin with a capital already and stay. Names of
src/, strings, exports and what Rattle makes (goals, steps, fields of steps) are not touched. Must-fail edits and the
documents follow: in documents a name is respelled only between backquotes.
"""
import collections
import glob
import os
import re
import sys

TOKEN = re.compile(r"[A-Za-z_0-9₀-₉'′◌+*-]+")
HEAD = re.compile(r"^(?P<indent>\s*)(?:(?:abbrev|unfoldable|data|record)\s+)?(?:pub\s+)?(?P<name>[A-Za-z][\w'-]*)\s*(?::|\s\(|\s\{|\s:)")
FIELD = re.compile(r"^\s+(?:pub\s+)?(?P<name>[A-Za-z][\w'-]*)\s*(?:\{[^}]*\}\s*)?:\s")
# A lemma that would get the name of the function that it is about gets _lem, as in the kit's own library. These three had
# that name from port.py on; in crate refine, and where it is imported from there, it is the lemma.
LEMMAS = {"owner_at": "owner_at_lem", "count_at": "count_at_lem", "put_record": "put_record_lem"}
# A lemma inside a module, of the same name as the definition that it imports.
PLACES = [("crates/reader/proofs/Whole.antt", old, new) for old, new in (
    ("  in_order : {sum", "  in_order_lem : {sum"), ("  in_order {sum} e =", "  in_order_lem {sum} e ="), (", in_order e)", ", in_order_lem e)"))]
# Variables that many lines bind.
VARIABLES = {"wakeUp": "wake_up"}
# Modules with a name that Rattle makes itself.
MODULES = [("crates/reader/specs/Contracts.antt", "crates/reader/specs/Values.antt", "reader.specs.Contracts", "reader.specs.Values")]


def snake(name):
    out = name.replace("-", "_")
    out = re.sub(r"(?<=[a-zA-Z0-9])([A-Z])", lambda m: "_" + m.group(1).lower(), out)
    return out


def own_files():
    for pattern in ("crates/*/specs/*.antt", "crates/*/proofs/*.antt"):
        yield from sorted(glob.glob(pattern))


def defined():
    names = collections.defaultdict(set)
    for path in own_files():
        for line in open(path, encoding="utf-8"):
            if line.startswith(("--", "use ", "pub use ", "mod ", "pub mod ", "unfolding", " unfolding")):
                continue
            m = HEAD.match(line)
            if m and not m.group("indent"):
                names[m.group("name")].add(path)
            m = FIELD.match(line)
            if m and not re.match(r"^\s+(let|in|elim|λ|where)\b", line):
                names[m.group("name")].add(path)
            # several names before one colon, as the constructors of a data; and operators, as ◌isIn◌
            m = re.match(r"^\s*(?:abbrev |unfoldable )?(?:pub )?([a-z◌][\w'◌-]*(?: [a-z◌][\w'◌-]*)*) (?:\{\w+\} )?:\s", line)
            for word in m.group(1).split() if m and not re.match(r"^\s+(let|in|elim|where|λ)\b", line) else []:
                names[word.strip("◌")].add(path)
                if "◌" in word:
                    names[word].add(path)
            # constructors on one line of a data: | a : T
            for c in re.findall(r"(?:^|\|)\s*([a-z][\w'-]*)\s*:", line) if line.startswith((" ", "|")) else []:
                names[c].add(path)
    return names


def mapping():
    names = defined()
    turned = [n for n in names if not n[0].isupper() and re.search(r"[A-Z-]", n)]
    taken = set(names) | {snake(n) for n in turned if "-" not in n}
    new = dict(VARIABLES)
    new |= {n: snake(n) + ("_lem" if "-" in n and snake(n) in taken else "") for n in turned}
    return new, names


def respell(text, new):
    return TOKEN.sub(lambda m: new.get(m.group(0), m.group(0)), text)


def in_walk(text, new):
    """A proof of one function: what follows a dot is a step or a field that Rattle made, unless a capital shows a name of ours."""
    return re.sub(r"(\.)?(" + TOKEN.pattern + ")", lambda m: m.group(0) if m.group(1) and "-" in m.group(2) else (m.group(1) or "") + new.get(m.group(2), m.group(2)), text)


def in_code(text, new):
    """Rust text: strings stay; names are words of clauses and of ghost lines (no name of src/ has a dash or a hump)."""
    parts = re.split(r'("(?:[^"\\\n]|\\.)*")', text)
    return "".join(p if i % 2 else respell(p, new) for i, p in enumerate(parts))


def in_edit(text, new):
    """A must-fail edit, which port.py leaves: names, and in texts of specs/ and proofs/ tight projections and primes too."""
    lines = in_code(text, new).split("\n")
    if any(re.match(r"file: (specs|proofs)/", l) for l in lines):
        for i, line in enumerate(lines):
            if line.startswith(("old: ", "new: ")):
                line = line.replace("′", "'")
                line = re.sub(r"\((\w+) \.(\w+)\)", r"\1.\2", line)
                line = re.sub(r"(\w) \.(\w+)", r"\1.\2", line)
                line = re.sub(r"(?<![\w\"])[a-z][a-z0-9]*(?:[A-Z][a-z0-9]*)+", lambda m: snake(m.group(0)), line)
                lines[i] = line
    return "\n".join(lines)


def in_prose(text, new):
    """A document: what port.py respelled in the sources is followed here too."""

    def word(m):
        w = new.get(m.group(0), m.group(0))
        return snake(w) if not w[0].isupper() and re.search(r"[A-Z-]", w) and snake(w) in HERE else w

    return re.sub(r"`[^`\n]+`", lambda m: TOKEN.sub(word, m.group(0)), text)


def edit(path, how):
    with open(path, encoding="utf-8") as f:
        was = f.read()
    now = how(was)
    if now != was:
        with open(path, "w", encoding="utf-8") as f:
            f.write(now)


def files():
    for pattern in ("crates/*/specs/*.antt", "crates/*/proofs/*.antt"):
        for p in glob.glob(pattern):
            yield p, respell
    for p in glob.glob("crates/*/proofs/*/**/*.antt", recursive=True):
        yield p, in_walk
    for p in glob.glob("crates/*/src/**/*.rt", recursive=True):
        yield p, in_code
    for p in glob.glob("crates/*/must-fail/*.edit"):
        yield p, in_edit
    for pattern in ("*.md", "docs/*.md", "docs/howto/*.md", "tests/*.md", "bench/*.md", "hosts/**/*.md"):
        for p in glob.glob(pattern, recursive=True):
            if os.path.basename(p) not in ("PORT.md", "DECISIONS-OLD.md"):
                yield p, in_prose


HERE = set()


def kit_names(text):
    """What a file imports from the kit keeps the kit's spelling in it."""
    out = set()
    for module, listed in re.findall(r"^(?:pub )?(?:ghost )?use ([^\s{]+)\.\{([^}]*)\}", text, re.M):
        own = re.match(r"Rattle\.(\w+)\.", module)
        if not (own and os.path.isdir("crates/" + own.group(1))):
            out |= {n.strip() for n in listed.split(",")}
    return out


def main(argv):
    new, names = mapping()
    if argv == ["--list"]:
        for old in sorted(new):
            print(f"{old} {new[old]}")
        return 0
    if argv:
        print(__doc__)
        return 2
    for was, path, old_module, new_module in MODULES:
        if os.path.exists(was):
            os.rename(was, path)
            lib = os.path.join(os.path.dirname(path), "Lib.antt")
            edit(lib, lambda t: t.replace("mod " + old_module.split(".")[-1], "mod " + new_module.split(".")[-1]))
            for p, _ in files():
                edit(p, lambda t: t.replace(old_module, new_module))
    done = any("owner_at_lem" in open(p, encoding="utf-8").read() for p in glob.glob("crates/refine/proofs/*.antt"))
    for p in glob.glob("crates/*/proofs/**/*.antt", recursive=True):
        text = open(p, encoding="utf-8").read()
        cited = re.findall(r"^use Rattle\.refine\.proofs\.\w+\.\{(.*)\}", text, re.M)
        here = {k: v for k, v in LEMMAS.items() if not done and (p.startswith("crates/refine/") or any(re.search(r"\b" + k + r"\b", c) for c in cited))}
        if here:
            edit(p, lambda t: in_walk(t, here) if "/proofs/" in p and p.count("/") > 3 else respell(t, here))
    HERE.update(names, new.values())
    changed = 0
    for path, how in files():
        with open(path, encoding="utf-8") as f:
            was = f.read()
        kit = kit_names(was) if path.endswith((".antt", ".rt")) else ()
        now = how(was, {k: v for k, v in new.items() if k not in kit})
        if now != was:
            changed += 1
            with open(path, "w", encoding="utf-8") as f:
                f.write(now)
    for path, old, text in PLACES:
        edit(path, lambda t: t.replace(old, text))
    print(f"respell: {len(new)} names, {changed} files")
    return 0


if __name__ == "__main__":
    raise SystemExit(main(sys.argv[1:]))
