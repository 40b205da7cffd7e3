#!/usr/bin/env python3
"""Brings the repository's own definitions to the spelling of today's Rattle: a word that was written in lower camel case is
written in snake case, in every definition, proof, clause, edit and page. Lemmas keep the dash that joins the names they
speak of. Names of functions in src/, exported names, strings, inputs and outputs are never touched: none is in camel case.

usage: python3 tools/respell.py [ROOT]     rewrites in place
       python3 tools/respell.py --list [ROOT]   prints the names, old and new
"""
import collections
import glob
import os
import re
import sys

NAME = r"[^\s(){}\[\]:,;=.⟨⟩`\"|]+"
HEAD = re.compile(r"^(?:abbrev pub |unfoldable pub |unfoldable |abbrev |pub )*(?:data |record )?(" + NAME + r")\s*:(?=\s|$)")
FIELD = re.compile(r"^ +(?:pub )?(" + NAME + r") :(?=\s|$)")
TOKEN = re.compile(r"(?<![\w'′·-])[A-Za-z_][\w'′·-]*")
ALONE = re.compile(r"(?<![\w'′·.-])[A-Za-z_][\w'′·-]*")
# Lemmas that would have the name of the word that they speak of: each gets `_lem`. None of them stands in a path or before a field.
LEMMAS = "add_step all_digits at_edge by_tests first_fits first_read goes_on in_order is_digit other_sign same_sign takes_two word_sum"
LEMMAS = {n: n + "_lem" for n in (LEMMAS + " zero_pattern").split()}

# Variables and parameters in the same old spelling.
BOUND = """secondSize carriedOut exactFused secondSign withSignOf exactDifference leftFrom halfPlace tieUp infinityOf lineOfTwo
    exactRest takesSecond takesFirst isUnderflow isOverflow operandsFinite isInvalid""".split()


def snake(name):
    text = name.replace("NaN", "Nan")
    text = re.sub(r"(?<=[a-z0-9])(?=[A-Z])", "_", text)
    text = re.sub(r"(?<=[A-Z])(?=[A-Z][a-z])", "_", text)
    text = re.sub(r"_(to|or|minus)(?=\d)", r"_\1_", text.lower())
    return text


def files(root, *patterns):
    for pattern in patterns:
        yield from sorted(glob.glob(os.path.join(root, pattern), recursive=True))


def own_names(root):
    found = set()
    for path in files(root, "crates/*/specs/**/*.antt", "crates/*/proofs/**/*.antt"):
        with open(path, encoding="utf-8") as f:
            for line in f:
                for form in (HEAD, FIELD):
                    m = form.match(line)
                    if m:
                        found.add(m.group(1))
    return found


def renamed(root):
    names = own_names(root)
    camel = {n for n in names if re.match(r"[a-z][A-Za-z0-9_]*$", n) and re.search(r"[A-Z]", n)}
    # the lemmas that are named after such a word, as byField-bounded
    joined = {n for n in names if re.match(r"[a-z]", n) and "-" in n and any(p in camel for p in n.split("-"))}
    new = {n: snake(n) for n in camel | set(BOUND)}
    for n in joined:
        new[n] = "-".join(new.get(p, p) for p in n.split("-"))
    return names, new


def respell(text, new):
    return TOKEN.sub(lambda m: new.get(m.group(0), m.group(0)), text)


def main(argv):
    root = next((a for a in argv if not a.startswith("--")), ".")
    names, new = renamed(root)
    taken = collections.defaultdict(set)
    for n in names:
        taken[new.get(n, n)].add(n)
    falls = {k: v for k, v in taken.items() if len(v) > 1 and any(n in new for n in v)}
    if "--list" in argv:
        for n in sorted(new):
            print(n, new[n])
        print(falls)
        return
    if set(falls) - set(LEMMAS):
        raise SystemExit(f"names that fall together: {sorted(set(falls) - set(LEMMAS))}")
    for path in files(root, "crates/*/specs/**/*.antt", "crates/*/proofs/**/*.antt", "crates/*/src/**/*.rt",
                      "crates/*/must-fail/*.edit", "README.md", "docs/**/*.md", "compare/README.md", "include/*.h"):
        if path.endswith(("docs/PORT.md",)):
            continue
        with open(path, encoding="utf-8") as f:
            old = f.read()
        turned = old
        if path.endswith(".antt"):
            turned = ALONE.sub(lambda m: LEMMAS.get(m.group(0), m.group(0)), turned)
        turned = respell(turned, new)
        if turned != old:
            with open(path, "w", encoding="utf-8") as f:
                f.write(turned)


main(sys.argv[1:])
