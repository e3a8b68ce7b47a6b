#!/usr/bin/env python3
"""Gives the repository's own definitions and lemmas one spelling: words in snake case, types in camel case.

usage: python3 tools/port_names.py        at the top, once, on what port.py made of the repository
       python3 tools/port_names.py --list  prints the names, old and new, and changes nothing

A lemma that would fall together with a definition gets '_lem' after its name. Functions of src/, exported names, strings,
inputs and outputs keep their names. Proofs by hand (Proof.antt) follow; a name that only such a file declares stays.
In pages names are turned where they stand between backticks, and in must-fail edits wherever they stand.
"""

import collections
import os
import re
import sys

TOKEN = re.compile(r"[^\s(){}\[\];,.\"@`]+")
DECLARES = re.compile(
    r"^\s*(?:(?:pub|abbrev|unfoldable|record|data|ruleset|opaque)\s+)*([^\s(){}\[\];,.:]+)(?:\s+\(.*\)|\s+\{.*\})*\s+:(?:\s|$)"
)
NAMES = re.compile(r"^\s*(?:pub\s+)?(?:record|data|ruleset)\s+([^\s(){}\[\];,.:]+)")
OLD = re.compile(r"[A-Za-z0-9]-[A-Za-z0-9]|^[a-z][a-z0-9_']*[A-Z]")
PAGES = (".md", ".h", ".edit")
# port.py gave these spellings to lemmas already; the definition that falls together with one is in no file that uses it
APART = {"row_count", "size_ok"}
# and this one's definition is used beside it, so that the lemma gets another name
BESIDE = {"size_in": "size_in_lem"}


def files(top, endings):
    for folder, dirs, names in os.walk(top):
        dirs[:] = sorted(d for d in dirs if d not in ("out", "target", ".git"))
        for name in sorted(names):
            if name.endswith(endings):
                yield os.path.join(folder, name)


def read(path):
    with open(path, encoding="utf-8") as f:
        return f.read()


def declared():
    """Each name that a file of specs/ or a file of lemmas declares, with one such file."""
    found = {}
    for path in files("crates", (".antt",)):
        if os.path.basename(path) == "Proof.antt":
            continue
        for line in read(path).splitlines():
            if line.strip().startswith("--"):
                continue
            for form in (DECLARES, NAMES):
                m = form.match(line)
                if m:
                    found.setdefault(m.group(1), path)
    return found


def snake(name):
    if name[0].isupper() and not name.split("-")[0].isupper():
        return "".join(part[0].upper() + part[1:] for part in name.split("-"))
    name = name.replace("-", "_")
    if name.isupper():
        return name
    return re.sub(r"(?<=[a-z0-9])([A-Z])", lambda m: "_" + m.group(1).lower(), name)


def table():
    names = declared()
    old = {n for n in names if OLD.search(n)}
    taken = set(names) - old
    definitions = {snake(n) for n in old if "-" not in n}
    new = dict(BESIDE)
    for n in sorted(old):
        to = snake(n)
        if (to in taken and to not in APART and to not in BESIDE) or ("-" in n and to in definitions):
            to += "_lem"
        new[n] = to
    twice = [n for n, k in collections.Counter(new.values()).items() if k > 1 or (n in taken and n not in APART and n not in BESIDE)]
    if twice:
        sys.exit("port_names: these fall together: " + ", ".join(sorted(twice)))
    return new


def main():
    new = table()
    if "--list" in sys.argv[1:]:
        for n in sorted(new):
            print(n, new[n])
        return

    def turned(text):
        return TOKEN.sub(lambda m: new.get(m.group(0), m.group(0)), text)

    # what port.py turned in the crates alone is turned in pages and edits too
    now = {new.get(n, n) for n in declared()}

    def followed(text):
        def one(m):
            name = m.group(0)
            return snake(name) if OLD.search(name) and name not in new and snake(name) in now else new.get(name, name)

        return TOKEN.sub(one, text)

    changed = 0
    for path in files(".", (".antt", ".rt") + PAGES):
        text = read(path)
        if path.endswith(".edit"):
            out = re.sub(r"(?m)^(?:old|new|file): .*$", lambda m: followed(m.group(0)), text)
        elif path.endswith(PAGES):
            out = re.sub(r"`[^`\n]+`", lambda m: followed(m.group(0)), text)
        else:
            out = turned(text)
        if out != text:
            have = set(TOKEN.findall(text))
            for n in sorted(have & set(new)):
                if new[n] in have:
                    print(f"look: {path}: '{new[n]}' stood here before '{n}' became it")
            with open(path, "w", encoding="utf-8") as f:
                f.write(out)
            changed += 1
    print(f"port_names: {len(new)} names, {changed} files")


main()
