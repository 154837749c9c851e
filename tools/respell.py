#!/usr/bin/env python3
"""Brings the repository's own names to today's spelling: definitions, laws, fields and constructors in snake case.

usage: python3 tools/respell.py [--list]      at the top of a repository that the kit's port.py has turned, once

What is renamed is what specs/ and the files right in proofs/ declare: oneLetter becomes one_letter, accepted-smallest accepted_smallest.
Functions of src/ and strings keep their names. Two names that would fall together are told apart by AGAIN. --list only
prints the names, and each file in which a new name stood already.
"""

import collections
import glob
import re
import sys

TOKEN = r"[^\s(){}\[\].,;:@\"⌜⌝`|/\\]+"
NAME = re.compile(r"^(\s*)((?:unfoldable |abbrev |pub |data |record |module )*)(" + TOKEN + r"(?: " + TOKEN + r")*) :(?=\s|$)")
FIELD = re.compile(r"^\s+(" + TOKEN + r") :(?=\s|$)")
# Names that would fall together with another's new spelling, and what they are called instead.
AGAIN = {
    "aw-place": "aw_place_is",
    "aw-record": "aw_record_is",
    "first-of": "first_of_is",
    "in-range": "in_range_says",
    "learn-leaves": "learn_leaves_stop",
    "letters-below": "letters_are_below",
    "machine-refused": "machine_refused_is",
    "map-byte": "map_byte_is",
    "map-bytes": "map_bytes_pass",
    "read-judged": "read_judged_is",
    "read-leaves": "read_leaves_is",
    "sheet-body": "sheet_body_is",
    "state-in": "state_in_is",
    "ten-leaves": "ten_leaves_is",
    "write-leaves": "write_leaves_is",
}
# The same in these files alone: a name that a function of src/ has too, and parts that a proof names for itself.
THERE = {
    "all_apart": ("all_apart_says", ["crates/sheets/specs/CheckerLaws.antt"]),
    "column-bytes": ("column_part", ["crates/sheets/specs/ProofLaws.antt"]),
    "map-bytes": ("map_part", ["crates/sheets/specs/ProofLaws.antt"]),
    "word-bytes": ("word_part", ["crates/sheets/specs/ProofLaws.antt"]),
    "open_row": ("open_row_is", ["crates/rules/specs/Closing.antt"]),
    "digits_of": ("digits_are", ["crates/text/specs/Decimal.antt"]),
}
# Names that stay: a law of the kit has the same.
STAY = {"not-true", "not-false"}


def files(*patterns):
    return sorted({p for pattern in patterns for p in glob.glob(pattern, recursive=True) if "/out/" not in p})


def spelt(name):
    if name in AGAIN:
        return AGAIN[name]
    if not re.search(r"[a-z]", name) or name[0].isupper() or "◌" in name:
        return name
    parts = re.sub(r"([a-z0-9])([A-Z])(?![A-Z0-9]|$|')", lambda m: m[1] + "_" + m[2].lower(), name)
    return re.sub(r"(?<=[\w'])-(?=\w)", "_", parts)


def declared():
    """The names that specs/ and the files right in proofs/ declare, each with the files that do."""
    found = collections.defaultdict(set)
    for p in files("crates/*/specs/*.antt", "crates/*/proofs/*.antt"):
        with open(p, encoding="utf-8") as f:
            for line in f:
                if line.lstrip().startswith(("--", "use ", "pub use ")):
                    continue
                m = NAME.match(line)
                if m:
                    for name in m[3].split():
                        found[name].add(p)
    return found


def imported_from_kit():
    """Names that files import from libraries of the kit."""
    own = {p.split("/")[1] for p in files("crates/*/src")}
    names = set()
    for p in files("crates/**/*.antt", "crates/*/src/**/*.rt"):
        with open(p, encoding="utf-8") as f:
            for line in f:
                m = re.match(r"\s*(?:ghost |pub )*use ([\w.'-]+)\.\{(.*)\}", line)
                if m and not re.match(r"Rattle\.(%s)(\.|$)" % "|".join(own), m[1]):
                    names.update(x.split(" as ")[0].strip() for x in m[2].split(","))
    return names


def pieces(text, rt):
    """The text in pieces: (code, what); in .rt strings and characters are left alone."""
    pattern = r'b?"(?:\\.|[^"\\])*"|b?\'(?:\\.|[^\'\\])\'' if rt else r'"(?:\\.|[^"\\])*"'
    at = 0
    for m in re.finditer(pattern, text):
        yield True, text[at:m.start()]
        yield False, m[0]
        at = m.end()
    yield True, text[at:]


def main():
    kit = imported_from_kit()
    names = {n: spelt(n) for n in declared() if spelt(n) != n and n not in STAY}
    # THERE would turn names that are today's already, so a second run changes nothing.
    if not names:
        raise SystemExit("respell: every name has today's spelling; this script has run")
    clash = sorted(n for n in names if n in kit)
    back = collections.defaultdict(list)
    for n, m in names.items():
        back[m].append(n)
    whole = set(declared())
    if "--list" in sys.argv:
        for n in sorted(names):
            print(n, names[n])
        for m, ns in sorted(back.items()):
            if len(ns) > 1:
                print("together:", m, ns)
            if m in whole:
                print("taken:", m, ns, sorted(declared()[m])[:3])
        for n in clash:
            print("of the kit too:", n)
    word = re.compile(TOKEN)
    for p in files("crates/**/*.antt", "crates/*/src/**/*.rt", "crates/*/must-fail/*.edit"):
        with open(p, encoding="utf-8") as f:
            text = f.read()
        rt = p.endswith((".rt", ".edit"))
        seen = {t for code, piece in pieces(text, rt) if code for t in word.findall(piece)}
        for n in sorted(seen & set(names)):
            if names[n] in seen and "--list" in sys.argv:
                print("stood already:", p, n, names[n])
        if "--list" in sys.argv:
            continue
        here = {n: m for n, (m, where) in THERE.items() if p in where}
        new = "".join(word.sub(lambda m: here.get(m[0]) or names.get(m[0], m[0]), piece) if code else piece for code, piece in pieces(text, rt))
        if new != text:
            with open(p, "w", encoding="utf-8") as f:
                f.write(new)


main()
