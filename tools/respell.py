#!/usr/bin/env python3
"""Brings the repository's own definitions and lemmas to the spelling of today's Rattle, once, after port.py.

usage: python3 tools/respell.py [--list]      at the top of the repository; --list prints the names and changes nothing

A definition and a field of specs/ or of a lemma file is spelled in snake case: byteAt, gas-fits -> byte_at, gas_fits.
In a lemma's name a dash stays between two names, as in length-append, and else is an underscore.
A type keeps its capitals. Functions of src/, exported names, strings and what a proof of a function calls its own steps stay.
"""
import os
import re
import sys

SKIP = {"out", ".git", "target"}
LIST_WORDS = set("length take drop append set get_or map mod div mul add sub le lt min max pow cond replicate reverse".split())
SIGNATURE = re.compile(r"^\s*(?:(?:abbrev|unfoldable|pub|ruleset|data|record)\s+)*([^\s(){}\[\],;:.]+)(?:\s*\{[^}]*\})*\s+:(?:\s|$)")
TOKEN = re.compile(r"[^\s(){}\[\],;:.`'\"]['’]?[^\s(){}\[\],;:.`\"]*")
IMPORT = re.compile(r"^\s*(?:pub |ghost )?use ([^\s{;]+?)\.\{([^}]*)\}", re.M)
# what does not follow from the rule
ODD = {"getD-from": "get_or-from", "whole-on": "whole_on_lem", "is-last": "is_last_lem", "at-most": "at_most_lem"}
# a lemma that would have the name of a definition beside it
BESIDE = {
    "calendar/proofs/Months.antt": {"in_one": "in_one_lem"},
    "dates/proofs/Every.antt": {"is_digit": "is_digit_lem"},
    "decimals/proofs/ReadsBack.antt": {"is_digit": "is_digit_lem"},
    "host/proofs/Outcome.antt": {"judged-as": "judged_as_lem"},
    "host/proofs/flare_minute/Proof.antt": {"judged-as": "judged_as_lem"},
    "intake/proofs/Pieces.antt": {"by_answer": "by_answer_lem"},
    "intake/proofs/ByRecords.antt": {"by_answer": "by_answer_lem"},
}


def files(root, endings):
    for folder, dirs, names in os.walk(root):
        dirs[:] = sorted(d for d in dirs if d not in SKIP)
        for name in sorted(names):
            if name.endswith(endings):
                yield os.path.join(folder, name)


def read(path):
    with open(path, encoding="utf-8") as f:
        return f.read()


def snake(word):
    return re.sub(r"(?<=[a-z0-9])([A-Z])", lambda m: "_" + m[1].lower(), word)


def defined(root, wanted):
    found = {}
    for path in files(root, (".antt",)):
        if os.path.basename(path) in ("Proof.antt", "Answers.antt", "Invariants.antt") or not wanted(path):
            continue
        for line in read(path).splitlines():
            m = SIGNATURE.match(line)
            if m and not line.lstrip().startswith(("use ", "pub use ", "--")):
                found.setdefault(m[1], path)
    return found


def has_letter(name):
    return re.search(r"[^\W\d_]", name) is not None


def spellings():
    own = defined("crates", lambda p: True)
    in_specs = defined("crates", lambda p: "/specs/" in p)
    words = {snake(n) for n in in_specs} | LIST_WORDS
    new = {}
    for name in own:
        if not has_letter(name) or name in ODD:
            continue
        if name in in_specs:
            spelled = snake(name) if name[0].islower() else name
            spelled = re.sub(r"(?<=\w)-(?=\w)", "_", spelled)
        else:
            parts = [snake(p) if p[:1].islower() else p for p in name.split("-")]
            spelled = parts[0]
            for left, right in zip(parts, parts[1:]):
                joined = "-" if left in words and right in words and left and right else "_"
                if not has_letter(left) or not has_letter(right):
                    joined = "-"
                spelled += joined + right
        if spelled != name:
            new[name] = spelled
    new |= {k: v for k, v in ODD.items() if k in own}
    taken = {v for k, v in new.items() if k in in_specs}
    for name, spelled in new.items():
        if name not in in_specs and spelled in taken:
            new[name] = spelled + "_lem"
    return new


def from_elsewhere(text, crates):
    """The names that a file imports from no crate of this repository: they keep their spelling."""
    names = set()
    for m in IMPORT.finditer(text):
        of = re.match(r"Rattle\.(\w+)\.", m[1])
        if not of or of[1] not in crates:
            names |= {it.split(" as ")[0].strip() for it in m[2].split(",")}
    return names


def main():
    new = spellings()
    crates = set(os.listdir("crates"))
    if "--list" in sys.argv[1:]:
        for k in sorted(new):
            print(k, new[k])
        return
    for path in files("crates", (".antt", ".rt", ".edit")):
        text = read(path)
        beside = next((v for k, v in BESIDE.items() if path.endswith(k)), {})
        stay = from_elsewhere(text, crates)
        turned = TOKEN.sub(lambda m: m[0] if m[0] in stay else beside.get(m[0], new.get(m[0], m[0])), text)
        if turned != text:
            with open(path, "w", encoding="utf-8") as f:
                f.write(turned)


if __name__ == "__main__":
    main()
