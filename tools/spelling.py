#!/usr/bin/env python3
"""Brings the repository's own names in specs/, proofs/, clauses, must-fail edits and pages to the spelling of the language: snake case.

usage: tools/spelling.py          at the top of the repository, once

A definition, a field or a variable that was in camel case is in snake case then. A lemma keeps a dash where it joins two definitions, and has
an underscore elsewhere. Names of src/ that are no words of clauses, exported names, strings and outputs stay. It stops, and writes nothing,
where two names would fall together.
"""
import collections
import os
import re
import sys

# Names that would be a tactic's, a parameter's or a field's, or another definition's.
CHOSEN = {
    "first_of": "first_among",
    "bitCount": "bit_count_of",
    "byteOrder": "byte_order_of",
    "isUnicode": "is_unicode_type",
    "maskBit": "bit_of_mask",
    "maxEnd": "end_by_max",
    "typeCode": "type_code_of",
    "too_short": "too_short_lem",
    "total_size": "total_size_lem",
}
# Words of the library that a lemma's name may join.
LIBRARY = "length drop take append set replicate cond ltb leb eqb get_or reverse lt le suc zero map mod add sub mul div".split()
LETTER = r"[\w'·₀-₉-]"
CAMEL = re.compile(r"(?<![\w\\'·₀-₉-])([a-z][a-z0-9]*(?:_[a-z0-9]+)*[A-Z]\w*'*)(?![\w·₀-₉])")


def snake(name):
    return re.sub(r"(?<=[a-z0-9])([A-Z])", lambda m: "_" + m.group(1).lower(), name)


def files():
    for folder, dirs, names in os.walk("crates"):
        dirs[:] = sorted(d for d in dirs if d != "out")
        for name in sorted(names):
            if name.endswith((".antt", ".rt", ".edit")):
                yield os.path.join(folder, name)


SIGNATURE = re.compile(r"^( *)(?:(?:abbrev|unfoldable|pub) )*((?:record|data) )?([^\s:(){}]+)(?: \{.*\}| \(.*\))* *:\s", re.M)


def read():
    """Each declared name with the files that declare it, and the definitions of specs/ that are no fields."""
    places = collections.defaultdict(set)
    words = set(LIBRARY)
    for path in files():
        if not path.endswith(".antt") or path.endswith("/Proof.antt"):
            continue
        with open(path, encoding="utf-8") as f:
            text = f.read()
        for m in SIGNATURE.finditer(text):
            places[m.group(3)].add(path)
            if "/specs/" in path and "-" not in m.group(3) and re.search(r"\b(abbrev|unfoldable)\b", m.group(0)):
                words.add(snake(m.group(3)))
    return places, words


def renamed(places, words):
    specs = {n for n, ps in places.items() if any("/specs/" in p for p in ps)}

    def of(name):
        if name in CHOSEN:
            return CHOSEN[name]
        if "-" not in name:
            return snake(name) if name[0].islower() else name
        parts = [snake(p) if p[:1].islower() else p for p in name.split("-")]
        if name in specs:
            return "_".join(parts)
        out = left = parts[0]
        for part in parts[1:]:
            joins = left in words and part in words
            out += ("-" if joins else "_") + part
            left = part if joins else left + "_" + part
        return out

    to = {n: of(n) for n in places if not re.search(r"[^\w'₀-₉-]", n)}
    back = collections.defaultdict(set)
    for n, t in to.items():
        back[t].add(n)
    for t, ns in sorted(back.items()):
        if len(ns) < 2:
            continue
        lemmas = sorted(n for n in ns if "-" in n and n not in specs)
        rest = sorted(ns - set(lemmas))
        fields = [n for n in rest if "-" in n or n == t]
        if len(lemmas) == 1 and len(rest) == 1:
            to[lemmas[0]] = t + "_lem"
        elif len(rest) - len(fields) > 1 or lemmas:
            sys.exit(f"spelling: these fall together as {t}: {sorted(ns)}")
    return {n: t for n, t in to.items() if n != t}


def turned(text, to, dashed):
    text = dashed.sub(lambda m: to[m.group(0)], text)
    return CAMEL.sub(lambda m: to.get(m.group(1), CHOSEN.get(m.group(1), snake(m.group(1)))), text)


def main():
    if not os.path.isdir("crates"):
        sys.exit("spelling: run it at the top of the repository")
    to = renamed(*read())
    others = sorted((n for n in to if not CAMEL.fullmatch(n)), key=len, reverse=True)
    dashed = re.compile(r"(?<![\w'·₀-₉-])(?:" + "|".join(map(re.escape, others)) + r")(?!" + LETTER + ")")
    changed = 0
    pages = [os.path.join("docs", n) for n in sorted(os.listdir("docs")) if n.endswith(".md")] + ["README.md", "CONTRIBUTING.md"]
    for path in list(files()) + pages:
        with open(path, encoding="utf-8") as f:
            old = f.read()
        if path.endswith(".md"):
            new = re.sub(r"`[^`\n]+`", lambda m: "`" + to.get(m.group(0)[1:-1], m.group(0)[1:-1]) + "`", old)
        elif path.endswith(".rt"):
            new = "\n".join(turned(line, to, dashed) if clause(line) else line for line in old.split("\n"))
        else:
            new = turned(old, to, dashed)
        if new != old:
            changed += 1
            with open(path, "w", encoding="utf-8") as f:
                f.write(new)
    print(f"spelling: {len(to)} names, {changed} files")


def clause(line):
    return bool(re.match(r"\s*(ghost|requires|ensures)\b", line)) or "≡" in line


if __name__ == "__main__":
    main()
