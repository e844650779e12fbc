#!/usr/bin/env python3
"""Brings the repository's own names to the spelling of today's Rattle: words in snake case, types and modules in camel case.

usage: python3 tools/respell.py [--list]       at the top, after the kit's port.py; run once

It reads every declaration of crates/*/specs and crates/*/proofs (definitions, lemmas, constructors, fields), and gives each whose name has a dash or a
capital inside a word its name in snake case. A name of the kit's library, a type, a function of src/ and what the check generates keep theirs. Where the
new name is that of something else, a lemma takes the ending `_lem` and a definition `_word`. Comments and pages are turned where a name stands between
backticks, or has a capital inside; must-fail edits as the files they are about.
"""

import collections
import os
import re
import subprocess
import sys

KIT = os.path.dirname(subprocess.run(["rt", "doc"], capture_output=True, text=True).stdout.strip())
TOKEN = re.compile(r"[\w'′₀-₉ℓ-]+")
DECLARES = re.compile(r"^(\s*)(?:abbrev |unfoldable )?(?:pub )?(abbrev |unfoldable |data |record )?([\w'′₀-₉-]+)((?:\s+\{[^}]*\}|\s+\([^)]*\))*)\s*:(?:\s|$)")

# Names of specs that would fall together with others of the same file.
CHOSEN = {
    "inContext": "in_context_of",
    "withSelf": "with_self_of",
    "resolvedIn": "resolved_in_of",
    "neverDefaults": "never_defaults_of",
    "numericDefaults": "numeric_defaults_of",
    "same-shape": "same_shape_rust",
    "variableAt": "variable_step",
    "verdictOf": "verdict_code",
    "madeAt": "made_token",
}


def files(root, *ends):
    for folder, dirs, names in os.walk(root):
        dirs[:] = sorted(d for d in dirs if d not in ("out", "target", ".git"))
        for n in sorted(names):
            if n.endswith(ends):
                yield os.path.join(folder, n)


def of_function(path):
    """Is this a file of one function's proof? The names there are the check's."""
    return os.path.basename(path) in ("Proof.antt", "Invariants.antt", "Answers.antt") or "/+" in path


def declared(text):
    """The names that a file of definitions or lemmas declares, with what they are."""
    for line in text.split("\n"):
        m = DECLARES.match(line)
        if m and not line.lstrip().startswith("--"):
            yield m.group(3), (m.group(2) or "").strip(), line


def snake(name):
    if name[0].isupper():
        # a fact keeps its capital in a name, as All-append; the words after it are in snake case
        head, *rest = name.split("-")
        return "-".join([head] + ["_".join(snake(r) for r in rest)]) if rest else name
    name = re.sub(r"(?<=[a-z0-9])([A-Z])", lambda m: "_" + m.group(1).lower(), name)
    return name.replace("-", "_").replace("′", "'")


def kit_names():
    found = set()
    for p in files(os.path.join(KIT, "rattle"), ".antt"):
        with open(p, encoding="utf-8", errors="replace") as f:
            for n, _, _ in declared(f.read()):
                found.add(n)
    return found


def here(path, text):
    """The names that a file has already: all but what stands behind a dot; in source only what is no function."""
    if path.endswith(".antt"):
        return set(re.findall(r"(?<![.\w'-])[\w'′₀-₉-]+", re.sub(r"(?m)(^| )-- .*$", "", text)))
    text = re.sub(r"(?m)^\s*(pub )?use [^;]*;|// .*$", "", text)
    return set(re.findall(r"(?<!fn )(?<!mod )(?<![.:\w'-])[\w'′₀-₉-]+(?![\w'-])(?! *\()", text))


def main():
    root = os.getcwd()
    own, kinds, said = set(), {}, set()
    texts = {p: open(p, encoding="utf-8").read() for p in files("crates", ".antt", ".rt")}
    for p, t in texts.items():
        if p.endswith(".antt") and not of_function(p):
            for n, kind, _ in declared(t):
                own.add(n)
                kinds.setdefault(n, kind)
                if "/specs/" in p or kind:
                    said.add(n)
    kit = kit_names()
    where = {p: here(p, t) for p, t in texts.items()}
    uses = collections.defaultdict(list)
    for p, t in texts.items():
        for n in set(TOKEN.findall(t)):
            uses[n].append(p)
    turned, given = {}, collections.defaultdict(set)
    for n in sorted(own, key=lambda n: (n not in said, n)):
        new = CHOSEN.get(n) or snake(n)
        if new == n or n in kit:
            continue
        for more in ("", "_word" if n in said else "_lem", "_again"):
            if not any(new + more in where[p] or new + more in given[p] for p in uses[n]):
                break
        else:
            raise SystemExit(f"{n}: {new} is taken too")
        if more:
            print("falls together:", n, "of specs" if n in said else "a lemma or a field", "->", new + more)
        turned[n] = new + more
        for p in uses[n]:
            given[p].add(new + more)
    skipped = sorted(n for n in own if snake(n) != n and n in kit)
    print("names of the kit, kept:", ", ".join(skipped))
    if "--list" in sys.argv:
        for a, b in sorted(turned.items()):
            print(a, b)
        return
    swap = lambda s: TOKEN.sub(lambda m: turned.get(m.group(0), m.group(0)), s)
    camel = {a: b for a, b in turned.items() if "-" not in a}
    prose = lambda s: re.sub(r"`[^`\n]*`", lambda m: swap(m.group(0)), TOKEN.sub(lambda m: camel.get(m.group(0), m.group(0)), s))
    for p, t in texts.items():
        mark = "--" if p.endswith(".antt") else "//"
        lines = []
        for line in t.split("\n"):
            at = line.find(mark)
            if at >= 0 and (at == 0 or line[at - 1] == " "):
                lines.append(swap(line[:at]) + prose(line[at:]))
            else:
                lines.append(swap(line))
        new = "\n".join(lines)
        if new != t:
            open(p, "w", encoding="utf-8").write(new)
    for p in list(files("crates", ".edit")) + list(files("tests/must-fail", ".edit")):
        t = open(p, encoding="utf-8").read()
        new = "\n".join(swap(l) if l.startswith(("old:", "new:", "refused:", "also:")) else prose(l) for l in t.split("\n"))
        if new != t:
            open(p, "w", encoding="utf-8").write(new)
    print(len(turned), "names turned")


main()
