#!/usr/bin/env python3
"""Brings the repository's own names in specs and proofs to today's spelling: words in snake case (plan-cost becomes
plan_cost), types in camel case (Keeps-rule becomes KeepsRule). Names that Rattle makes of the code, as loop-k-init or
c.search-answer, and those of the library stay. Run once, at the top, after /opt/rattle/port/port.py."""

import glob
import re
import sys

WORD = r"[A-Za-z][A-Za-z0-9_']*(?:-[A-Za-z0-9_']+)*"
HYPHENED = re.compile(r"[A-Za-z][A-Za-z0-9_']*(?:-[A-Za-z0-9_']+)+")
SIGNATURE = re.compile(r"^\s*(?:(?:abbrev|unfoldable|pub|private)\s+)*((?:" + WORD + r"\s+)+):\s(.*)$")
TYPE = re.compile(r"^\s*(?:(?:abbrev|unfoldable|pub|private)\s+)*(?:record|data)\s+(" + WORD + r")\s")
IMPORT = re.compile(r"\buse\s+([^\s{};]+?)\.?\{([^}]*)\}", re.S)
BINDER = re.compile(r"[({]((?:" + WORD + r"\s+)+):\s|\blet\s+(" + WORD + r")\s*[:=]")
ALIAS = re.compile(r"\bas\s+(" + WORD + r")\s*[,}]")
# What an answer calls the facts that Rattle gives it: the field behind such a name is Rattle's.
GIVEN = {"c", "w", "l", "goal"}


def files(*endings):
    return sorted(f for e in endings for f in glob.glob("crates/*/**/*" + e, recursive=True) if "/out/" not in f)


def respelled(name):
    if name[0].isupper():
        return "".join(word[:1].upper() + word[1:] for word in name.split("-"))
    return name.replace("-", "_")


def own_names():
    own, made = set(), set()
    for path in files(".antt"):
        for line in open(path, encoding="utf-8"):
            found = TYPE.match(line)
            if found:
                own.add(found.group(1))
                continue
            found = SIGNATURE.match(line)
            if found:
                names = found.group(1).split()
                (made if found.group(2).strip().startswith("goal.") else own).update(names)
    return {name for name in own - made if "-" in name}


def imported(text, crates):
    """The names that a file has from the library, or from what Rattle makes of the code."""
    foreign = set()
    for module, names in IMPORT.findall(text):
        parts = module.split(".")
        if not (len(parts) > 1 and parts[0] == "Rattle" and parts[1] in crates) or parts[-1] in ("Goals", "Given"):
            foreign.update(name.split(" as ")[0].strip() for name in names.split(","))
    return foreign


def local_names(text):
    """The names that a file gives to what it imports, binds or lets."""
    names = set(ALIAS.findall(text))
    for bound, let in BINDER.findall(text):
        names.update(bound.split() or [let])
    return {name for name in names if "-" in name}


def turned(text, own):
    def turn(found):
        name, before = found.group(0), text[: found.start()]
        if name not in own:
            return name
        path = re.search(r"([\w'«»-]+)\.$", before)
        if path and not re.search(r"[.)]$", before[: path.start()]) and path.group(1) in GIVEN:
            return name
        return respelled(name)

    return HYPHENED.sub(turn, text)


def in_code(text, own):
    """All but comments and strings; in a comment only what stands between backticks."""
    out = []
    for line in text.split("\n"):
        mark = re.search(r"(^|\s)(--|//)(\s|$)", line)
        code, note = (line[: mark.start()], line[mark.start() :]) if mark else (line, "")
        parts = re.split(r'("(?:[^"\\]|\\.)*")', code)
        parts = [part if part.startswith('"') else turned(part, own) for part in parts]
        out.append("".join(parts) + in_text(note, own))
    return "\n".join(out)


def in_text(text, own):
    return re.sub(r"`[^`\n]*`", lambda span: turned(span.group(0), own), text)


def main():
    crates = {path.split("/")[1] for path in files(".antt", ".rt")}
    own = own_names()
    new = [respelled(name) for name in own]
    together = {name for name in new if new.count(name) > 1}
    if together:
        sys.exit(f"these names fall together: {sorted(together)}")
    for path in files(".antt", ".rt", ".edit") + sorted(["README.md"] + glob.glob("docs/*.md")):
        text = open(path, encoding="utf-8").read()
        here = own - imported(text, crates)
        if path.endswith((".antt", ".rt")):
            here |= local_names(text)
        result = in_text(text, here) if path.endswith(".md") else in_code(text, here)
        if result != text:
            open(path, "w", encoding="utf-8").write(result)


main()
