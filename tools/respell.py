#!/usr/bin/env python3
"""Brings the repository's own names in specs/, proofs/ and clauses to today's spelling.

usage: respell.py        at the top of the repository, once, right after the kit's own port script
       respell.py --dry  prints the table and what would fall together, and changes nothing

A definition, a lemma, a field or a variable in camel case becomes snake case (timesFree: times_free), and a dash in the name of a definition
or of a lemma of the repository becomes an underscore (occurs-none: occurs_none). A lemma that would then have the name of a definition ends
in _lem. Names of src/, exported C names, files, strings, inputs and outputs stay. Must-fail edits are turned by the same table.
"""

import collections
import glob
import re
import sys

WORD = re.compile(r"[^\s(){}.;,@\"«»\[\]\\:]+")
CAMEL = re.compile(r"^[a-z][a-z0-9]*([A-Z][A-Za-z0-9]*)+'*$")
DEFINED = re.compile(r"(?m)^\s*(?:(?:pub|abbrev|unfoldable)\s+)*([^\s(){}.;,:]+) : ")
# Fields whose new name would be that of a definition which the same files use.
GIVEN = {"fat-count": "number_of_fats", "difat-count": "number_of_difats", "id-count": "number_of_ids"}
# Lemmas that the kit's script gave the name of a definition: the name, and the files in which it is the lemma.
MERGED = {
    "place_in": ["promises/proofs/Placing.antt", "promises/proofs/Standing.antt"],
    "number_of": ["cfb/proofs/Given.antt", "cfb/proofs/changes/change_of/Proof.antt", "export/proofs/Changing.antt", "export/proofs/Giving.antt", "states/proofs/Telling.antt"],
    "entry_at": ["promises/proofs/Placing.antt"],
    "listed_at": ["sound/proofs/Encoded.antt"],
    "write_bytes": ["boundary/proofs/Bytes.antt"],
    "place_after": ["promises/proofs/Encoding.antt"],
}


def snake(name):
    """The name in snake case, each part between dashes for itself; getD is the library's get_or today."""
    one = lambda part: re.sub(r"(?<=[a-z0-9])(?=[A-Z])", "_", part).lower() if CAMEL.match(part) else part
    return "-".join("get_or" if part == "getD" else one(part) for part in name.split("-"))


def bare(text):
    return re.sub(r"(?m)(--|//).*$", "", text)


def files():
    for pattern in ("specs/**/*.antt", "proofs/**/*.antt", "src/**/*.rt", "must-fail/*.edit"):
        yield from sorted(glob.glob("crates/*/" + pattern, recursive=True))


def lemma_file(path):
    return path.endswith(".antt") and "/proofs/" in path and path.count("/") == 3


def kit_names(texts, crates):
    """The names that files import from the kit's libraries."""
    found = set()
    for text in texts.values():
        for module, names in re.findall(r"(?m)^(?:ghost )?use ([^\s{;]+)\.\{([^}]*)\}", text):
            parts = module.split(".")
            if not (parts[0] == "Rattle" and parts[1] in crates):
                found |= {n.strip().split(" as ")[0] for n in names.split(",")}
    return found


def table(texts, crates):
    """Each old name with its new one."""
    kit = kit_names(texts, crates)
    specs, lemmas, camels, aliases = {}, {}, {}, {}
    for path, text in texts.items():
        if path.endswith(".rt"):
            aliases.update((name, snake(name)) for name in re.findall(r" as ([a-z]\w*[A-Z]\w*)", text))
        if not path.endswith(".antt"):
            continue
        for word in WORD.findall(bare(text)):
            if CAMEL.match(word) and word not in kit:
                camels[word] = snake(word)
        where = specs if "/specs/" in path else lemmas if lemma_file(path) else None
        if where is not None:
            for name in DEFINED.findall(bare(text)):
                if name not in kit:
                    where[name] = re.sub("-+", "_", snake(name))
    new = {**aliases, **camels}
    # A lemma, and with it a name that the kit's script has turned, gives way to a definition.
    taken = {specs[n] for n in specs} | {camels[n] for n in camels if n not in lemmas}
    for name, to in lemmas.items():
        if name not in specs and to in taken and name not in camels:
            new[name] = to + "_lem"
        elif "-" in name:
            new[name] = to
    for name, to in specs.items():
        if "-" in name:
            new[name] = to
    new.update({a: b for a, b in GIVEN.items() if a in specs or a in lemmas})
    return {a: b for a, b in new.items() if a != b}


def turned(text, names):
    return WORD.sub(lambda m: names.get(m.group(0), m.group(0)), text)


def of_functions(crates):
    """The names of functions: such a word, where it is no lemma's in the file, is part of a path of Rattle's own."""
    found = set()
    for path in glob.glob("crates/*/src/**/*.rt", recursive=True):
        found |= set(re.findall(r"\bfn (\w+)", open(path, encoding="utf-8").read()))
    return found


def main():
    crates = {l.split(":")[0].split()[0] for l in open("crates.txt") if l.strip() and not l.startswith("#")}
    texts = {p: open(p, encoding="utf-8").read() for p in files()}
    names = table(texts, crates)
    functions = of_functions(crates)
    names = {a: b for a, b in names.items() if a not in MERGED}
    plain = {a for a in names if re.fullmatch(r"[a-z0-9_]+'*", a)}
    print(len(names), "names; with _lem:", sorted((a, b) for a, b in names.items() if b.endswith("_lem")))
    print("plain:", sorted(plain), "functions among them:", sorted(plain & functions))
    back = collections.defaultdict(set)
    for a, b in names.items():
        back[b].add(a)
    for b, olds in sorted(back.items()):
        if len(olds) > 1:
            print("fall together:", b, olds)
    for path, text in texts.items():
        here = dict(names)
        for name, where in MERGED.items():
            if any(path == "crates/" + w for w in where):
                here[name] = name + "_lem"
        words = set(WORD.findall(bare(text)))
        for a, b in here.items():
            if a in words and b in words and b not in here and path.endswith(".antt") and b not in functions:
                print("stands already:", path, a, b)
        to = turned(text, here)
        if to != text and "--dry" not in sys.argv:
            with open(path, "w", encoding="utf-8") as f:
                f.write(to)


if __name__ == "__main__":
    main()
