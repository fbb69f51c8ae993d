#!/usr/bin/env python3
"""Brings the names of this repository's own definitions and lemmas to today's spelling, once, after port.py.

Words are in snake case, what is a type or a fact is in camel case. A dash is left where it joins two names, as in length-tabulate.
Functions of src/, exported names, strings, inputs and outputs keep theirs; so do the names of must-fail edits and of files.

usage: respell.py [--list]     at the top of the repository
"""
import glob
import re
import sys

SIGNATURE = re.compile(r"^(\s*)((?:abbrev |unfoldable |pub |data |record )*)([^\s:{(λ]+)((?:\s+\{[^}]*\}|\s+\([^)]*\))*)\s*:\s(.*)$")
# Names of the library that stand in names of lemmas.
LIBRARY = set("zero suc nat_abs length take drop set get_or append map reverse mul add sub pow neg min max".split())
TOKEN = re.compile(r"[^\s(){}\[\],;.:`\"|]+")


def files():
    return sorted(glob.glob("crates/*/specs/*.antt") + glob.glob("crates/*/proofs/*.antt"))


def declared():
    """name: is it a definition, does it answer a type."""
    found = {}
    for f in files():
        for line in open(f, encoding="utf-8"):
            m = SIGNATURE.match(line.rstrip("\n"))
            if not m or line.lstrip().startswith("--"):
                continue
            words, name, answers = m[2].split(), m[3], m[5]
            made = bool({"abbrev", "unfoldable", "record", "data"} & set(words))
            fact = made and bool(re.search(r"(^|→ )Type \d( where)?$", answers))
            old = found.get(name, (False, False))
            found[name] = (made or old[0], fact or old[1])
    return found


def camel(name):
    return "".join(w[:1].upper() + w[1:] for w in re.split("[-_]", name))


def mapping():
    found = declared()
    made = {n for n, (definition, _) in found.items() if definition and n != "left"} | LIBRARY
    new = {"get_d_tabulate": "get_or-tabulate"}
    for name, (definition, fact) in found.items():
        if fact and name[:1].islower():
            new[name] = camel(name)
        elif re.search(r"\w-\w", name):
            parts = name.replace("natAbs", "nat_abs").split("-")
            if definition:
                new[name] = "_".join(parts)
                continue
            # the longest names at the front and at the back, the rest words
            runs, i = [], 0
            while i < len(parts):
                for k in range(len(parts), i, -1):
                    if "-".join(parts[i:k]) in made or "_".join(parts[i:k]) in made:
                        runs.append(("_".join(parts[i:k]), True))
                        i = k
                        break
                else:
                    runs.append((parts[i], False))
                    i += 1
            text, known = runs[0]
            for word, is_name in runs[1:]:
                text += ("-" if known and is_name else "_") + word
                known = is_name
            if text != name:
                new[name] = text
    return new, found


def turned(text, new):
    return TOKEN.sub(lambda m: new.get(m[0], m[0]), text)


def quoted(text, new):
    """Between backticks alone."""
    return re.sub(r"`[^`\n]*`", lambda m: turned(m[0], new) if "/" not in m[0] else m[0], text)


def source(text, new, comment):
    out = []
    for line in text.split("\n"):
        at = line.find(comment)
        code, said = (line, "") if at < 0 else (line[:at], line[at:])
        out.append(turned(code, new) + quoted(said, new))
    return "\n".join(out)


def main():
    new, found = mapping()
    if "--list" in sys.argv:
        for old in sorted(new):
            print(old, new[old])
    taken = {}
    for name in found:
        other = taken.setdefault(new.get(name, name), name)
        if other != name:
            print(f"{other} and {name} both become {new.get(name, name)}", file=sys.stderr)
    if "--list" in sys.argv:
        return
    for f in sorted(glob.glob("crates/*/specs/**/*.antt", recursive=True) + glob.glob("crates/*/proofs/**/*.antt", recursive=True) + glob.glob("crates/*/src/**/*.rt", recursive=True) + glob.glob("crates/*/must-fail/*.edit") + glob.glob("docs/*.md") + ["README.md"]):
        text = open(f, encoding="utf-8").read()
        if f.endswith(".md"):
            after = quoted(text, new)
        else:
            after = source(text, new, "--" if f.endswith(".antt") else "//")
        if after != text:
            open(f, "w", encoding="utf-8").write(after)


main()
