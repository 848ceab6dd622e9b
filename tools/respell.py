#!/usr/bin/env python3
"""Brings the names of this repository's own definitions and lemmas to one spelling: words in snake case, types in camel case.

usage: python3 tools/respell.py        at the top of the repository, once, after the kit's port.py

Only names that specs/ and proofs/ declare are turned, and everywhere that they are cited (specs/, proofs/, contracts). Names that
Rattle makes (goals, steps, invariants) and the library's stay. It stops where two names would fall together.
"""
import os
import re
import sys

# antt's letters: a name goes on until a space or one of these
TOKEN = re.compile(r"[^\s(){}\[\];,.:→λ↦|⟦⟧∥\"]+")
HEAD = re.compile(r"^\s*(?:(?:abbrev|unfoldable|pub|record|data|ruleset)\s+)*(?P<name>[^\s(){}\[\];,.:→λ↦|⟦⟧=\"]+)(?:\s*[({].*?)?\s+:(?!=)(?P<rest>.*)$")
MADE = re.compile(r"^\s*(?:need|goal|given)\.")


def files():
    for folder, dirs, names in os.walk("crates"):
        dirs[:] = sorted(d for d in dirs if d not in ("out", "must-fail"))
        for name in sorted(names):
            if name.endswith((".rt", ".antt")):
                yield os.path.join(folder, name)


def camel(name):
    return "".join(w[:1].upper() + w[1:] for w in re.split(r"[-_]", name))


def turned(name):
    """The new spelling of a name, or the name itself."""
    if "-" not in name or not name[0].isalpha():
        return name
    return camel(name) if name[0].isupper() else name.replace("-", "_")


def main():
    declared, library, made = set(), set(), set()
    for path in files():
        text = open(path, encoding="utf-8").read()
        for line in text.split("\n"):
            use = re.match(r"\s*(?:ghost\s+)?use\s+(\S+?)\.\{(.*)\}", line)
            if use:
                if re.match(r"Rattle\.std\.|native\.|denote\.|borrow\.|lib\.|mathlib\.|Prim\.", use.group(1)):
                    library |= {w.split(" as ")[-1].strip() for w in use.group(2).split(",")}
                else:
                    # what a file calls one of these names, or a case of an enum
                    declared |= {w.split(" as ")[1].strip() for w in use.group(2).split(",") if " as " in w}
                continue
            if not path.endswith(".antt"):
                continue
            head = HEAD.match(line)
            if head and not line.lstrip().startswith(("--", "let ")):
                (made if MADE.match(head.group("rest")) else declared).add(head.group("name"))
    names = {n: turned(n) for n in declared if turned(n) != n and n not in made and n not in library}
    for old, new in names.items():
        if new in declared or new in library or list(names.values()).count(new) > 1:
            sys.exit(f"respell: {old} and {new} would fall together")
    for path in files():
        text = open(path, encoding="utf-8").read()
        lines = text.split("\n")
        ghost = False
        for i, line in enumerate(lines):
            if path.endswith(".rt") and not re.search(r"\b(ghost|requires|ensures)\b", line) and not ghost:
                continue
            # a clause of a source file that goes on over several lines
            if path.endswith(".rt"):
                ghost = (ghost or "{" in line) and lines[i].count("{") > lines[i].count("}") and bool(re.search(r"\b(requires|ensures|ghost)\b", line) or ghost)
            code, dash, comment = line.partition("--") if path.endswith(".antt") else (line, "", "")
            lines[i] = TOKEN.sub(lambda m: names.get(m.group(0), m.group(0)), code) + dash + TOKEN.sub(lambda m: names.get(m.group(0), m.group(0)), comment)
        new = "\n".join(lines)
        if new != text:
            open(path, "w", encoding="utf-8").write(new)
    print(f"respell: {len(names)} names")


main()
