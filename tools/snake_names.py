#!/usr/bin/env python3
"""Spells the repository's own definitions and lemmas in snake case: `leValue` as `le_value`, `le-bytes-value` as `le_bytes_value`.

usage: python3 tools/snake_names.py        at the top of the repository, once, after port.py

It goes over specs/ and proofs/, and over the clauses and ghost items of src/. A name is turned only if the repository
defines it in antt: a definition, a lemma (within a module, too), a constructor, a field, a parameter or a local. The
names of goals, which Rattle makes, stay, and so do functions, exported names and strings of src/. It prints names that
fall together.
"""

import os
import re
import sys

TOKEN = re.compile(r"[^\s(){}\[\].,;:\"`⌜⌝]+")
DEFINED = re.compile(r"^(?:(?:abbrev|unfoldable|pub|private)\s+)*([^\s(){}\[\].,;:\"]+)\s*:\s*(.*)")
FIELD = re.compile(r"^\s+(?:(?:abbrev|unfoldable|pub)\s+)*([a-z][^\s(){}\[\].,;:\"]*)\s*:\s")
CAMEL = re.compile(r"[a-z][A-Z]")
GOAL = re.compile(r"\s*(goal|need|given)\.")
# names of the library's that it spells anew
WORDS = {"getD": "get_or"}
# lemmas that would have the name of the definition that they are about
LEMMAS = {
    "record-length": "record_length_lem",
    "file-info-length": "file_info_length_lem",
    "file-info-bytes": "file_info_bytes_lem",
    "file-system-info-length": "file_system_info_length_lem",
    "file-system-info-bytes": "file_system_info_bytes_lem",
    "time-bytes": "time_bytes_lem",
    "is-zone": "is_zone_lem",
}


def texts():
    for folder, dirs, files in os.walk("crates"):
        dirs[:] = sorted(d for d in dirs if d != "out")
        for f in sorted(files):
            yield os.path.join(folder, f)


def snake(name):
    if name in LEMMAS:
        return LEMMAS[name]
    for old, new in WORDS.items():
        name = re.sub(r"(?<![A-Za-z])%s(?![a-z])" % old, new, name)
    name = re.sub(r"(?<=[a-z0-9])(?=[A-Z])", "_", name)
    return "_".join(w if len(w) > 1 and w.isupper() else w.lower() for w in name.replace("-", "_").split("_"))


MADE = re.compile(r"^(returns|loop-|invariant|decreases|bounds-|overflow|offset-|append-requires|then-|else-|in_ok|in_err)")


def turned(found):
    return {n: snake(n) for n in found if snake(n) != n and not MADE.match(n)}


def to_turn():
    """Own names that are not in snake case, each with its new spelling: those that other files may cite, and by file those that stand within one."""
    shared, within = set(), {}
    for p in texts():
        text = open(p, encoding="utf-8").read()
        if p.endswith(".rt"):
            shared.update(re.findall(r"\bghost ([a-z]\w*[A-Z]\w*)\s*[:=]", text))
        shared.update(re.findall(r"(?<=[{ ])\S+ as ([a-z][\w-]*)(?=[,}])", text))
        if not p.endswith(".antt"):
            continue
        own = within.setdefault(p, set())
        for line in text.split("\n"):
            m = DEFINED.match(line)
            if m and m.group(1)[0].islower() and not GOAL.match(m.group(2)):
                shared.add(m.group(1))
            m = FIELD.match(line)
            if m and ("/specs/" in p or re.match(r"\s+pub ", line)):
                shared.add(m.group(1))
            elif m and not GOAL.match(line[m.end() :]):
                own.add(m.group(1))
            own.update(re.findall(r"\blet ([a-z][\w'-]*)", line))
            if line.lstrip().startswith(("--", "use ")):
                continue
            shared.update(t for t in TOKEN.findall(line) if t[0].islower() and CAMEL.search(t) and "-" not in t)
    return turned(shared), {p: turned(own) for p, own in within.items()}


def turn_line(line, names):
    if line.lstrip().startswith("--"):
        return line
    return TOKEN.sub(lambda m: names.get(m.group(0), m.group(0)), line)


def turn_source(text, names):
    """Turns what is ghost in a file of src/: imports, clauses, ghost items. Code and strings stay."""
    out, depth, ghost = [], 0, False
    for line in text.split("\n"):
        word = line.strip()
        if word.startswith("//"):
            out.append(line)
            continue
        if not ghost and re.match(r"(pub )?(ghost|requires|ensures)\b", word):
            ghost, depth = True, 0
        out.append(turn_line(line, names) if ghost else line)
        if ghost:
            depth += line.count("{") - line.count("}")
            if depth <= 0 and ("}" in line or line.rstrip().endswith(";")):
                ghost = False
    return "\n".join(out)


def main():
    shared, within = to_turn()
    for p in texts():
        if not p.endswith((".antt", ".rt")):
            continue
        names = shared | within.get(p, {})
        old = open(p, encoding="utf-8").read()
        if p.endswith(".antt"):
            new = "\n".join(turn_line(x, names) for x in old.split("\n"))
        else:
            new = turn_source(old, names)
        before = {t for x in old.split("\n") if not x.lstrip().startswith(("--", "//")) for t in TOKEN.findall(x)}
        for n in sorted(before):
            if n in names and names[n] in before:
                print(f"together: {p}: {n} is now {names[n]}, which the file has already")
        if new != old and "--dry" not in sys.argv:
            open(p, "w", encoding="utf-8").write(new)
    if "--list" in sys.argv:
        for n, new in sorted(shared.items() | {x for names in within.values() for x in names.items()}):
            print(n, new)


if __name__ == "__main__":
    main()
