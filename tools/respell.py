#!/usr/bin/env python3
"""Spells the repository's own definitions and lemmas as its toolchain's library does.

usage: python3 tools/respell.py [--list]

Words are in snake case (sheet-text becomes sheet_text), types in camel case (Sheets-balance becomes SheetsBalance).
It changes the files of specs/ and proofs/, the clauses in src/, and the names that docs/ and README.md have between
back quotes. Names that the toolchain makes (goals, steps and their fields) stay. --list only shows the names.
"""

import os
import re
import sys

TOKEN = r"[^\s(){}\[\],.:;·«»\"`@]+"
DECLARED = re.compile(r"^(\s*)(?:(?:abbrev|unfoldable|pub|opaque) +)*(record|data)? *(" + TOKEN + r")((?: +\{[^{}]*\})*) *(.*)$")

# Names that would fall together with another word of the repository.
OTHERWISE = {
    "sheet-text": "text_of_sheet",
    "priced-text": "text_of_priced",
    "refusal-line": "line_of_refusal",
}


def files(endings):
    for folder, dirs, names in os.walk("crates"):
        dirs[:] = sorted(d for d in dirs if d != "out")
        for name in sorted(names):
            if name.endswith(endings):
                yield os.path.join(folder, name)


def text_of(path):
    with open(path, encoding="utf-8") as f:
        return f.read()


def is_answer(path):
    return os.path.basename(path) in ("Answers.antt", "Invariants.antt")


def declared():
    """The hyphenated names that the repository declares, and those of them that are fields of its records."""
    names, fields = set(), set()
    for path in files((".antt",)):
        record = None
        for line in text_of(path).split("\n"):
            at = DECLARED.match(line)
            if not at:
                continue
            indent, kind, name, _, rest = at.groups()
            if record is not None and line.strip() and len(indent) <= record:
                record = None
            if kind == "record":
                record = len(indent)
            if "-" not in name.strip("-") or name.startswith("--"):
                continue
            if kind or (rest.startswith(":") and not rest.startswith(": goal.")):
                names.add(name)
                if record is not None and not kind:
                    fields.add(name)
    return names, fields


def respelt(name):
    if name in OTHERWISE:
        return OTHERWISE[name]
    if name[0].isupper():
        first, *rest = name.split("-")
        return first + "".join(w[:1].upper() + w[1:] for w in rest)
    return name.replace("-", "_")


ALIAS = re.compile(r"^\s*(?:ghost )?(?:pub )?use Rattle\.(\w+)[^\s{};]* as (\w+);?\s*$", re.M)
IMPORT = re.compile(r"^\s*(?:ghost )?(?:pub )?use ([^\s{};]+?)\.?(?:\{([^{}]*)\})?;?\s*$", re.M)


def staying(path, text):
    """Names that a file has from the toolchain: those of a library, and those of its goals."""
    stay = set()
    for module, items in IMPORT.findall(text):
        steps = module.split(".")
        foreign = steps[0] == "Rattle" and len(steps) > 1 and not os.path.isdir(os.path.join("crates", steps[1]))
        if foreign or steps[-1] in ("Goals", "Given"):
            stay |= {w.split(" as ")[0].strip() for w in (items or "").split(",")}
    if is_answer(path):
        stay |= set(re.findall(r"(?m)^\s*(?:(?:abbrev|unfoldable|pub) +)*(" + TOKEN + r")(?: +\{[^{}]*\})* *: *goal\.", text))
    return stay


def turn(path, text, names, fields):
    stay = staying(path, text)
    own = {alias for crate, alias in ALIAS.findall(text) if os.path.isdir(os.path.join("crates", crate))}
    in_proof = path.endswith(".antt")
    name = re.compile(r"(?<![^\s(){}\[\],.:;«»@])(" + TOKEN + ")")

    def word(line):
        def put(at):
            w = at.group(1)
            if w not in names or w in stay:
                return w
            before = line[: at.start()]
            if before.endswith("."):
                holder = re.search(r"([^\s(){}\[\],;.]+)\.$", before)
                if holder and holder.group(1) in own:
                    return respelt(w)
                if w not in fields:
                    return w
                if is_answer(path) and holder and holder.group(1) in ("c", "l", "g", "w", "goal"):
                    return w
            return respelt(w)

        return name.sub(put, line)

    lines = []
    for line in text.split("\n"):
        mark = "--" if in_proof else "//"
        at = re.search(r"(?:^|\s)" + mark + r"(?:\s|$)", line)
        code, comment = (line[: at.start()], line[at.start():]) if at else (line, "")
        if in_proof:
            lines.append(word(code) + comment)
        else:
            parts = re.split(r'("(?:[^"\\]|\\.)*")', code)
            lines.append("".join(p if i % 2 else word(p) for i, p in enumerate(parts)) + comment)
    return "\n".join(lines)


def main():
    names, fields = declared()
    if "--list" in sys.argv:
        words = set()
        for path in files((".antt", ".rt")):
            words |= set(re.findall(r"[\w']+", text_of(path)))
        for n in sorted(names):
            print(n, respelt(n), "field" if n in fields else "", "MEETS" if respelt(n) in words else "")
        return
    for path in files((".antt", ".rt")):
        old = text_of(path)
        new = turn(path, old, names, fields)
        if new != old:
            with open(path, "w", encoding="utf-8") as f:
                f.write(new)
    for path in ["README.md"] + sorted(os.path.join("docs", d) for d in os.listdir("docs") if d.endswith(".md") and d != "PORT.md"):
        old = text_of(path)
        new = re.sub(r"`([^`\n]+)`", lambda at: "`" + (respelt(at.group(1)) if at.group(1) in names else at.group(1)) + "`", old)
        if new != old:
            with open(path, "w", encoding="utf-8") as f:
                f.write(new)


main()
