#!/usr/bin/env python3
"""Brings the names of definitions, lemmas and fields in specs/ and proofs/ to Rattle's spelling: words in snake case, a dash only where it
joins the names of two definitions or a type to a word. It was run once, after port.py (docs/PORT.md).

usage: tools/spelling.py [--names FILE] [--edits]     at the top of the repository
       --names FILE   only writes the renamings to FILE, a line each: OLD NEW
       --edits        renames in crates/*/must-fail/*.edit too

It goes by text. What it renames is declared in specs/ or proofs/ of a crate here; names of Rattle's library, names that Rattle makes and
names of src/ stay. Two names that would fall together keep their dashes.
"""

import argparse
import collections
import glob
import os
import re

WORD = re.compile(r"(?<![\w'◌«·-])[^\W\d_][\w']*(?:-[\w']+)*(?![\w'◌»])")
DECLARED = re.compile(r"^ *(?:(?:abbrev|unfoldable|pub|opaque)\s+)*([^\s(){}.,;:=λ→]+)((?: [^\s(){}.,;:=λ→]+)*) *:(?=\s)", re.M)
BOUND = re.compile(r"[({]([^\s(){}.,;:=λ→|]+(?: [^\s(){}.,;:=λ→|]+)*) : ")
LOCAL = re.compile(r"\blet ([^\s(){}.,;:=λ→]+)(?: :| =)")
MATCHED = re.compile(r"λ ((?:[^\s(){}.,;:=λ→]+ ?)+)\.")
IMPORT = re.compile(r"use ([^\s{;]+)\.\{([^}]*)\}")
MADE = re.compile(r"^(?:Need|invariant|decreases|returns|loop|overflow|bounds|before|after)-|-(?:requires|holds|spec)$")

# a field beside a definition that is spelled alike now
BESIDE = {"no_bytes": "no-bytes"}


def files(*kinds):
    found = []
    for kind in kinds:
        found += glob.glob(f"crates/*/{kind}", recursive=True)
    return sorted(p for p in set(found) if "/out/" not in p)


def read(path):
    with open(path, encoding="utf-8") as f:
        return f.read()


def snake(word):
    """camelCase to snake_case; a word that begins with a capital is a type and stays."""
    if word[:1].isupper():
        return word
    return re.sub(r"(?<=[a-z0-9])([A-Z])", lambda m: "_" + m.group(1).lower(), word)


def of_library(path, own):
    parts = path.split(".")
    return not (parts[0] == "Rattle" and len(parts) > 1 and parts[1] in own)


def renamings():
    own = set(os.listdir("crates"))
    declared, outer, library = set(), set(), set()
    for p in files("specs/**/*.antt", "proofs/**/*.antt"):
        text = re.sub(r"--.*", "", read(p))
        for m in IMPORT.finditer(text):
            if of_library(m.group(1), own):
                library |= {n.split(" as ")[-1].strip() for n in m.group(2).split(",")}
        if p.endswith("/Proof.antt"):
            continue
        for m in DECLARED.finditer(text):
            names = [m.group(1)] + m.group(2).split()
            declared |= set(names)
            if not m.group(0).startswith(" "):
                outer.add(names[0])
        for form in (BOUND, MATCHED):
            for m in form.finditer(text):
                declared |= set(m.group(1).split())
        declared |= {m.group(1) for m in LOCAL.finditer(text)}
    declared = {n for n in declared if WORD.fullmatch(n) and n not in library and not MADE.search(n)}
    joined = {snake(n) for n in outer} | {n for n in library if "-" not in n} | {"length", "append", "drop", "take"}
    new = {}
    for n in sorted(declared):
        parts = [snake(w) for w in n.split("-")]
        spelled = parts[0]
        for a, b in zip(parts, parts[1:]):
            keep = a[:1].isupper() or b[:1].isupper() or (a in joined and b in joined)
            spelled += ("-" if keep else "_") + b
        if spelled != n and spelled not in library:
            new[n] = spelled
    together = collections.defaultdict(list)
    for n in declared:
        together[new.get(n, n)].append(n)
    for names in together.values():
        if len(names) > 1:
            for n in names:
                if "-" in n:
                    new[n] = "-".join(snake(w) for w in n.split("-"))
                    if new[n] == n:
                        del new[n]
    return new | BESIDE


def renamed(text, new):
    return WORD.sub(lambda m: new.get(m.group(0), m.group(0)), text)


def in_antt(text, new):
    """Code whole; in comments what stands between backquotes, and words in camel case."""
    lines = []
    for line in text.split("\n"):
        code, dashes, comment = line.partition("--") if re.search(r"(^|\s)--(\s|$)", line) else (line, "", "")
        lines.append(renamed(code, new) + dashes + in_words(comment, new))
    return "\n".join(lines)


def in_words(text, new):
    text = re.sub(r"`[^`\n]*`", lambda m: renamed(m.group(0), new), text)
    return WORD.sub(lambda m: new.get(m.group(0), m.group(0)) if re.search("[a-z][A-Z]", m.group(0)) else m.group(0), text)


def in_source(text, new):
    """Comments as words, and the braces of clauses and of ghost items; the code between stays."""
    out, depth, inside = [], 0, False
    for line in text.split("\n"):
        stripped = line.strip()
        if not inside and stripped.startswith("//"):
            out.append(in_words(line, new))
            continue
        if not inside and re.match(r"(pub )?(ghost|requires|ensures|decreases)\b", stripped):
            inside, depth = True, 0
        if inside:
            depth += line.count("{") - line.count("}")
            line = renamed(line, new)
            if depth <= 0 and ("}" in line or stripped.endswith(";")):
                inside = False
        out.append(line)
    return "\n".join(out)


def write(path, old, text):
    if text != old:
        with open(path, "w", encoding="utf-8") as f:
            f.write(text)


def main():
    arguments = argparse.ArgumentParser(description=__doc__, formatter_class=argparse.RawDescriptionHelpFormatter)
    arguments.add_argument("--names")
    arguments.add_argument("--edits", action="store_true")
    asked = arguments.parse_args()
    new = renamings()
    if asked.names:
        with open(asked.names, "w", encoding="utf-8") as f:
            f.writelines(f"{a} {b}\n" for a, b in sorted(new.items()))
        return
    # Rattle makes a module `specs.contracts`, which `specs/Contracts.antt` would differ from in a letter's case alone
    for p in files("specs/Contracts.antt"):
        os.rename(p, p.replace("Contracts.antt", "Clauses.antt"))
    for p in files("specs/**/*.antt", "proofs/**/*.antt"):
        old = read(p)
        write(p, old, re.sub(r"\bspecs\.Contracts\b", "specs.Clauses", re.sub(r"^((?:pub )?mod )Contracts$", r"\1Clauses", in_antt(old, new), flags=re.M)))
    for p in files("src/**/*.rt"):
        old = read(p)
        write(p, old, re.sub(r"\bspecs\.Contracts\b", "specs.Clauses", in_source(old, new)))
    if asked.edits:
        for p in files("must-fail/*.edit"):
            old = read(p)
            lines = []
            for line in old.split("\n"):
                key, colon, rest = line.partition(": ")
                lines.append(line.replace("specs/Contracts.antt", "specs/Clauses.antt") if key == "file" else key + colon + renamed(rest, new))
            write(p, old, "\n".join(lines))


main()
