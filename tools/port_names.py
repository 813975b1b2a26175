#!/usr/bin/env python3
"""Brings the repository's own names in specs/ and proofs/ to today's spelling: words in snake case, facts and types in camel case.

usage: python3 tools/port_names.py [--map FILE]      at the top, once, right after the kit's port.py

- A word with a capital inside turns to snake case: canHold -> can_hold. A definition that gives a type turns to camel case.
- A dash stays between two names of definitions and turns to an underscore before or after a plain word: any-start -> any_start.
- Names from src/ (functions, fields, variants), from other libraries, and those that the check makes keep their spelling.
- Must-fail edits follow. A new name that stands already is reported, and the old one is left.
--map writes each renaming as a line OLD NEW, for the documents.
"""

import collections
import os
import re
import sys

TOKEN = re.compile(r"(?<![A-Za-z0-9_'-])[A-Za-z_][A-Za-z0-9_'₀₁₂₃₄₅₆₇₈₉]*(?:-[A-Za-z0-9_'₀₁₂₃₄₅₆₇₈₉*+^≡≤<]+)*")
DECLARED = re.compile(r"^(\s*)((?:(?:pub|abbrev|unfoldable|data|record|infix\w*)\s+)*)([^\s(){}:,;]+)\s*(?:\([^)]*\)\s*|\{[^}]*\}\s*)*:\s")
IMPORT = re.compile(r"^\s*(?:ghost )?(?:pub )?use ([^\s{]+?)\.\{([^}]*)\}")
TACTICS = {"search", "simp", "rw", "cc", "omega", "grind", "assumption", "ground", "first_of", "elim", "hlevel"}
TYPES = {"means": "Means", "starts": "Starts", "partStarts": "PartStarts"}


def files(root, endings):
    for folder, dirs, names in os.walk(os.path.join(root, "crates")):
        dirs[:] = sorted(d for d in dirs if d != "out")
        for name in sorted(names):
            if name.endswith(endings):
                yield os.path.join(folder, name)


def read(path):
    with open(path, encoding="utf-8") as f:
        return f.read()


def snake(word):
    if re.match(r"[A-Z]", word):
        return word
    if re.fullmatch(r"x[0-9A-F]+", word):
        return word.lower()
    return re.sub(r"(?<=[a-z0-9₀-₉])([A-Z]+)", lambda m: "_" + m.group(1).lower(), word)


def main(argv):
    root = "."
    own = {c for c in os.listdir("crates") if os.path.isdir(os.path.join("crates", c))}
    foreign, sources, declared, fields, words = set(), set(), collections.defaultdict(set), set(), set()
    for path in files(root, (".rt",)):
        text = read(path)
        code = re.sub(r"(?m)^ghost use .*$|^\s*(ensures|requires).*$", "", text)
        sources |= set(re.findall(r"[A-Za-z_]\w*", code))
    for path in files(root, (".rt", ".antt")):
        for line in read(path).splitlines():
            m = IMPORT.match(line)
            if m:
                parts = m.group(1).split(".")
                if not (parts[0] == "Rattle" and len(parts) > 1 and parts[1] in own):
                    foreign |= set(TOKEN.findall(m.group(2)))
    specs = set()
    for path in files(root, (".antt",)):
        in_specs = "/specs/" in path
        for line in read(path).splitlines():
            m = DECLARED.match(line)
            if m and not line.lstrip().startswith(("--", "use ")):
                name = m.group(3)
                # the name of an answer is the check's
                if TOKEN.fullmatch(name) and not name.endswith("-spec") and not re.search(r":\s*tie\.(Need|invariant|decreases)", line):
                    declared[name].add(path)
                    if m.group(1):
                        fields.add(name)
                    if in_specs:
                        specs.add(name)
    # what a dash may join: names of definitions, the repository's and the library's
    defined = {snake(n) for n in specs if "-" not in n} | {n for n in foreign if "-" not in n} | {snake(n) for n in specs} | TYPES.keys()

    def dashed(name):
        parts = [snake(p) for p in name.split("-")]
        out = parts[0]
        for i in range(1, len(parts)):
            joins = parts[i - 1] in defined and parts[i] in defined or not re.match(r"[a-z]", parts[i][:1] or " ")
            out += ("-" if joins else "_") + parts[i]
        return out

    renamed = {}
    tokens = set()
    for path in files(root, (".antt", ".rt", ".edit")):
        tokens |= set(TOKEN.findall(read(path)))
    for name in sorted(tokens):
        if name in foreign or not re.match(r"[a-z_]", name):
            continue
        if name in TYPES:
            renamed[name] = TYPES[name]
        elif "-" in name:
            if name in declared:
                renamed[name] = dashed(name)
            elif re.search(r"[a-z0-9][A-Z]", name) and not name.endswith("-spec"):
                parts = name.split("-")
                renamed[name] = "-".join(p if p in sources else snake(p) for p in parts)
        elif re.search(r"[a-z0-9][A-Z]", name) and name not in sources:
            renamed[name] = snake(name)
    renamed = {a: b for a, b in renamed.items() if a != b}
    # a lemma that would have its definition's name, or one of the library's, ends in `_lem`
    taken = collections.Counter(renamed.values())
    for a, b in sorted(renamed.items()):
        if "-" in a and (taken[b] > 1 or b in foreign or b in declared or b in TACTICS):
            renamed[a] = b + "_lem"
    for b in sorted(set(renamed.values())):
        if b in declared and b not in specs and b not in sources:
            renamed[b] = b + "_lem"
    taken = collections.Counter(renamed.values())
    for a, b in sorted(renamed.items()):
        if taken[b] > 1 or b in foreign or b in TACTICS or b in declared and b not in renamed:
            others = declared.get(b, set()).union(*(declared.get(x, set()) for x, y in renamed.items() if y == b and x != a))
            print(f"stands already: {a} -> {b}: {sorted(declared.get(a, set()))[:2]} and {sorted(others)[:2]}")
    if "--dry" in argv:
        return 0
    kept = set()
    if "--keep" in argv:
        kept = set(read(argv[argv.index("--keep") + 1]).split())
    for a in kept:
        renamed.pop(a, None)

    def turn(text, proof, source):
        def one(m):
            name = m.group(0)
            if name not in renamed:
                return name
            before = text[max(0, m.start() - 5) : m.start()]
            if "-" in name and re.search(r"(?:^|[^.])\.$|^\.$", before):
                # a projection: of a record of this repository's, never of a step's record or of a generated statement
                if name not in fields or before.endswith(("tie.", "goal.")) or proof and not re.search(r"[A-Z]\w*\.$", before):
                    return name
            return renamed[name]

        return TOKEN.sub(one, text)

    for path in files(root, (".antt", ".edit")):
        old = read(path)
        new = turn(old, path.endswith("Proof.antt"), False)
        if new != old:
            with open(path, "w", encoding="utf-8") as f:
                f.write(new)
    for path in files(root, (".rt",)):
        lines = read(path).split("\n")
        out, clause = [], False
        for line in lines:
            if re.match(r"\s*(ghost use|ensures|requires|ghost )", line) or clause:
                clause = not re.match(r"\s*ghost use", line) and line.count("{") > line.count("}") or clause and line.count("{") >= line.count("}")
                line = turn(line, False, True)
            out.append(line)
        new = "\n".join(out)
        with open(path, "w", encoding="utf-8") as f:
            f.write(new)
    if "--map" in argv:
        with open(argv[argv.index("--map") + 1], "w", encoding="utf-8") as f:
            f.writelines(f"{a} {b}\n" for a, b in sorted(renamed.items()))
    print(f"{len(renamed)} names respelled")
    return 0


if __name__ == "__main__":
    raise SystemExit(main(sys.argv[1:]))
