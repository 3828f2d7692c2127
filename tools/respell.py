#!/usr/bin/env python3
"""Brings this repository's own names to the spelling of today's Rattle, once, after port.py: in snake case all definitions,
lemmas and fields of records in specs/ and proofs/, and what the language makes of source names. Types keep their capitals.

usage: python3 tools/respell.py [FOLDER]

Two names that would fall together are told apart: the lemma gets `_lem`. It changes .antt files, the clauses of .rt files and
the must-fail edits; what stands in code, comments and strings stays.
"""

import glob
import os
import re
import sys

NAME = re.compile(r"(?<![\w'·+-])[+]?[^\W\d][\w']*(?:-[\w'+*≤≥<>∷]+)*")
DEFINED = re.compile(r"^(?:(?:abbrev|unfoldable|data|pub)\s+)*([^\s:(){},]+)\s*(?:[({].*)?(?::|$)")
BOUND = re.compile(r"(?<![\w'·.-])[a-z]+[a-z0-9]*[A-Z][A-Za-z0-9]*(?![\w'-])")
INDENTED = re.compile(r"^ +(?:(?:abbrev|unfoldable|pub)\s+)*([^\s:(){},]+)\s*:\s")
CALLED = re.compile(r"^\s*use \S+ as ([^\s;]+)")
MADE = re.compile(r"^(invariant|decreases|returns|Need|After|Start)-")


def texts(*endings):
    for ending in endings:
        yield from sorted(p for p in glob.glob(f"crates/**/*{ending}", recursive=True) if "/out/" not in p)


def read(path):
    with open(path, encoding="utf-8") as f:
        return f.read()


def defined(text):
    """The names that a file defines, the fields and constructors of its types, and its own names for other modules."""
    for line in text.splitlines():
        called = CALLED.match(line)
        if called:
            yield called.group(1)
        elif not re.match(r"\s*(--|use |(pub )?mod |unfolding|(pub )?record )", line):
            found = (INDENTED if line[:1] == " " else DEFINED).match(line)
            if found:
                yield found.group(1)


def snake(name):
    name = re.sub(r"(?<=[a-z0-9])([A-Z])", lambda m: "_" + m.group(1).lower(), name)
    return name.replace("-", "_")


def renamed():
    """Each own name that changes, and what it becomes."""
    names = set()
    for path in texts(".antt"):
        text = read(path)
        names |= set(defined(text)) | set(BOUND.findall(re.sub(r"(?m)^\s*--.*$", "", text)))
    kept = {n for n in names if n == snake(n) or n[:1].isupper()}
    told = {}
    taken = set(kept)
    changing = sorted(names - kept, key=lambda n: ("-" in n, n))
    for name in changing:
        if MADE.match(name) or not re.match(r"[a-zμ+]", name):
            continue
        new = snake(name)
        if new in kept and "-" not in name:
            told[new] = new + "_lem"
        elif new in taken:
            new += "_lem"
        told[name] = new
        taken.add(new)
    return told


def source_names():
    """What the language made of the names of the sources, with a dash, and the names as they are in the sources."""
    found = {}
    for path in texts(".rt"):
        code = "\n".join(line.split("//")[0] for line in read(path).splitlines())
        for name in re.findall(r"\b[a-z]+(?:_[a-z0-9]+)+\b", code):
            found[name.replace("_", "-")] = name
    return found


def respell(text, own, made):
    def put(m):
        token = m.group(0)
        before = text[: m.start()]
        if before.endswith("tie.") or before.endswith("goal."):
            return token
        if before.endswith(".") and token in made:
            return made[token]
        return own.get(token, token)

    return NAME.sub(put, text)


def antt(text, own, made):
    lines = []
    for line in text.split("\n"):
        code, dashes, comment = line.partition("-- ") if line.lstrip().startswith("-- ") else (line, "", "")
        lines.append(respell(code, own, made) + dashes + comment)
    return "\n".join(lines)


def clauses(text, own):
    """The `ghost use` lines and the clauses of a source file."""
    out, depth = [], 0
    for line in text.split("\n"):
        code = line.split("//")[0]
        opens = re.match(r"\s*(requires|ensures|ghost)\b", code)
        if opens or depth > 0:
            out.append(respell(line, own, {}))
            depth += code.count("{") - code.count("}")
        else:
            out.append(line)
    return "\n".join(out)


def main(argv):
    if argv:
        os.chdir(argv[0])
    own = renamed()
    made = source_names()
    for path in texts(".antt", ".rt", ".edit"):
        text = read(path)
        if path.endswith(".rt"):
            new = clauses(text, own)
        elif path.endswith(".antt"):
            new = antt(text, own, made)
        elif re.search(r"(?m)^file: (specs|proofs)/", text):
            new = re.sub(r"(?m)^(?:old|new): .*$", lambda m: respell(m.group(0), own, {}), text)
        else:
            new = text
        if new != text:
            with open(path, "w", encoding="utf-8") as f:
                f.write(new)
    for old in sorted(own):
        print(old, own[old])


if __name__ == "__main__":
    main(sys.argv[1:])
