#!/usr/bin/env python3
"""Respells this repository's own names of specs/ and proofs/: snake case, and camel case for statements.

usage: python3 tools/rename_words.py      once, at the top, after the toolchain's own scripts

A dash stays where it joins two functions in a lemma's name, the outer call first. Names that the toolchain makes
(of goals and steps) and names of its library are left alone. It stops where two names would fall together.
"""

import collections
import glob
import re
import sys

WORD = re.compile(r"[^\s(){}\[\];,.:\"]+")
DECLARED = re.compile(r"^\s*(?:abbrev |unfoldable )?(?:pub )?([^\s(){}:;]+) (?:\{[^}]*\} ?)*:")
RECORD = re.compile(r"^\s*pub (?:record|data) (\S+)")

# lemmas whose dash joins two functions
LEMMAS = {
    "bits-number": "bits-number",
    "number-bits": "number-bits",
    "cell-filled": "cell-filled",
    "length-trace": "length-trace",
    "product-append": "product-append",
    "replay-append": "replay-append",
    "closes-append": "closes-append",
    "opens-append": "opens-append",
    "close-moves-append": "close_moves-append",
    "move-runs-append": "move_runs-append",
    "pending-closes-append": "pending_closes-append",
    "pending-opens-append": "pending_opens-append",
}

# the ends of a nested word, and names that are bound inside a term
KEPT = {"-∞", "+∞"}
LOCAL = {"at-2": "at_2", "by-0": "by_0", "by-1": "by_1", "in-σ": "in_σ", "zero-value": "zero_value", "number_of_lem": "number_of"}


def spelled(name):
    if name in LEMMAS:
        return LEMMAS[name]
    if name[0].isupper():
        return "".join(part[0].upper() + part[1:] for part in name.split("-"))
    return re.sub(r"(?<=[a-z])([A-Z])", r"_\1", name).replace("-", "_").lower() if re.search(r"[a-z][A-Z]", name) else name.replace("-", "_")


def files():
    return sorted(glob.glob("crates/*/specs/**/*.antt", recursive=True) + glob.glob("crates/*/proofs/**/*.antt", recursive=True))


def declared():
    where = collections.defaultdict(set)
    for path in files():
        if path.endswith(("Answers.antt", "Invariants.antt", "Proof.antt")):
            continue
        with open(path, encoding="utf-8") as f:
            for line in f:
                if line.strip().startswith(("--", "use ", "pub mod", "mod ")):
                    continue
                for form in (DECLARED, RECORD):
                    m = form.match(line)
                    if m:
                        where[m.group(1)].add(path)
    return where


def main():
    where = declared()
    names = {n: spelled(n) for n in where if n not in KEPT and spelled(n) != n} | LOCAL
    together = collections.defaultdict(set)
    for n in list(where) + list(LOCAL):
        together[names.get(n, n)].add(n)
    bad = {new: old for new, old in together.items() if len(old) > 1}
    if bad:
        sys.exit(f"names that fall together: {bad}")
    for path in files() + sorted(glob.glob("crates/*/src/**/*.rt", recursive=True)):
        with open(path, encoding="utf-8") as f:
            text = f.read()
        words = set(WORD.findall(text))
        for old in words & set(names):
            if names[old] in words and names[old] != old:
                print(f"{path}: {old} becomes {names[old]}, which stands there already")
        turned = WORD.sub(lambda m: names.get(m.group(0), m.group(0)), text)
        if turned != text:
            with open(path, "w", encoding="utf-8") as f:
                f.write(turned)
    for old, new in sorted(names.items()):
        print(old, "->", new)


main()
