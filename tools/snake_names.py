#!/usr/bin/env python3
"""Gives the repository's own definitions and lemmas the spelling of today's Rattle.

Words are in snake case: `layerOf` becomes `layer_of`, and a dash becomes `_`, as in `size_at_least_2`.
A dash stays only in a lemma between two functions that it relates, as in `length-map`.
A lemma that would get the name of a definition or of a function of src/ ends in `_lem`.
Run once, at the top, right after the toolchain's port.py; --list prints the names and changes nothing.
"""

import collections
import glob
import re
import sys

NAME = r"[^\s(){}\[\],;.:λ⌜⌝]+"
DECLARED = re.compile(r"^(\s*)((?:abbrev |unfoldable |pub |data |record |module )*)(" + NAME + r")(?: \(.*?\))* (?::|where)")
# Functions of the library that lemmas name, and own words that are functions where the declaration is a parameter's.
OF_STD = set("length append drop take map set get_or replicate sum filter count reverse min max".split())
# Lemmas that port.py gave the name that a definition gets here.
LEMMAS = {"name_in": "name_in_lem", "way_in": "way_in_lem"}
# Parameters and names given by `as`.
LOCAL = ["lenAfter", "slotsAfter", "itemsAfter", "placeNext", "finishOf", "enterOf", "askOf", "closedBy"]
# Goals have names of their own.
GENERATED = re.compile(r"^(returns|loop|overflow|bounds|slice_bounds|invariant|nonzero|prove)(-|$)")


def snake(word):
    return re.sub(r"(?<=[a-z0-9])([A-Z])", lambda m: "_" + m[1].lower(), word)


def declarations():
    """Each declared name with the kinds of its places: a definition or a label of specs/, or a lemma."""
    kinds = collections.defaultdict(set)
    for path in sorted(glob.glob("crates/*/specs/*.antt") + glob.glob("crates/*/proofs/*.antt")):
        inside = False
        for line in open(path, encoding="utf8"):
            if re.match(r"^(pub )?(record|data) ", line):
                inside = True
            elif line.strip() and not line.startswith(" "):
                inside = False
            m = DECLARED.match(line)
            if not m:
                continue
            words = m[2].split()
            if inside and m[1]:
                kinds[m[3]].add("label")
            elif "/specs/" in path or "abbrev" in words or "unfoldable" in words:
                kinds[m[3]].add("definition")
            else:
                kinds[m[3]].add("lemma")
    return kinds


def functions():
    found = set()
    for path in glob.glob("crates/*/src/**/*.rt", recursive=True):
        found |= set(re.findall(r"\bfn (\w+)", open(path, encoding="utf8").read()))
    return found


def turned(kinds):
    definitions = {n for n, k in kinds.items() if "definition" in k and not n[0].isupper()} | OF_STD
    code = functions()
    to = {}
    for name, kind in kinds.items():
        if name[0].isupper() or not re.search(r"[a-z0-9][A-Z]|-", name) or not re.match(r"[a-z]", name) or GENERATED.match(name):
            continue
        parts = name.split("-")
        new = snake(parts[0])
        for a, b in zip(parts, parts[1:]):
            joined = kind == {"lemma"} and a in definitions and b in definitions
            new += ("-" if joined else "_") + snake(b)
        to[name] = new
    kept = {n for n in kinds if n not in to and n not in LEMMAS}
    taken = kept | code | {new for name, new in to.items() if kinds[name] != {"lemma"}}
    return {n: new + "_lem" if kinds[n] == {"lemma"} and new in taken else new for n, new in to.items()} | LEMMAS | {n: snake(n) for n in LOCAL}


def blanked(text):
    """The places of a .rt file that are comments or strings."""
    return [m.span() for m in re.finditer(r'//[^\n]*|"(?:\\.|[^"\\])*"', text)]


def rewrite(path, to):
    text = open(path, encoding="utf8").read()
    skipped = blanked(text) if path.endswith(".rt") else [m.span() for m in re.finditer(r"(?m)^\s*--[^\n]*$|\s--\s[^\n]*$", text)]
    out, last, k = [], 0, 0
    for m in re.finditer(r"[A-Za-z0-9_'\u00b7-]+", text):
        s, e = m.span()
        while k < len(skipped) and skipped[k][1] <= s:
            k += 1
        word = m[0]
        in_comment = k < len(skipped) and skipped[k][0] <= s
        if in_comment and text[s - 1 : s] != "`":
            continue
        if re.search(r"(?<![\w'])(goal|c)\.$", text[max(0, s - 6) : s]):
            continue
        if word in to:
            out += [text[last:s], to[word]]
            last = e
    out.append(text[last:])
    new = "".join(out)
    if new != text:
        open(path, "w", encoding="utf8").write(new)
        return True
    return False


def main():
    kinds = declarations()
    to = turned(kinds)
    if "--list" in sys.argv:
        clash = collections.Counter(to.values())
        for name, new in sorted(to.items()):
            note = " TWICE" if clash[new] > 1 else ""
            note += " TAKEN" if new in kinds and new not in to else ""
            print(f"{name} -> {new} [{','.join(sorted(kinds[name]))}]{note}")
        return
    paths = glob.glob("crates/*/src/**/*.rt", recursive=True) + glob.glob("crates/*/specs/**/*.antt", recursive=True) + glob.glob("crates/*/proofs/**/*.antt", recursive=True)
    print(sum(rewrite(p, to) for p in sorted(paths)), "files,", len(to), "names")


main()
