#!/usr/bin/env python3
"""Brings this repository's own definitions and lemmas to the spelling of the Rattle of November 2026: functions, lemmas, fields and constructors in
snake case, facts in upper camel case. A dash stays where it joins two names (length-set_number); a plain word is added with an underscore.

usage: tools/spell_names.py [--dry]        at the top of the repository, once, after port.py

Rewrites crates/*/specs, crates/*/proofs, the ghost lines of crates/*/src, the must-fail edits, README.md and docs/ (the changelog tells of its time,
and keeps its names). Names that Rattle makes (tie.Need-.., calls-..) and names of the library stay. A new name that is in use already is an error.
"""

import collections
import os
import re
import sys

TOKEN = re.compile(r"[^\s(){}\[\].;,«»`\"|\\]+")
HEAD = re.compile(r"^(?:abbrev |unfoldable |pub |data |record )*([^\s:(){}]+)(?: \([^)]*\)| \{[^}]*\})* : (.*)$")
FIELD = re.compile(r"^\s+(?:pub )?([^\s:(){}]+) : (.*)$")
USE = re.compile(r"^(?:pub |ghost )*use ([^\s{]+?)\.\{(.*)\}")
# words of the library that begin or end a lemma's name
WORDS = set("length take drop set sets append get_or map replicate reverse cond not add sub mul div mod pow suc zero".split())
# two facts and a record
SPELLED = {"discardedAs": "DiscardedAs", "stands_for": "StandsFor", "Found_at": "FoundAt", "state-of": "state_of_lem", "sum-at": "sum_at_lem"}
# a variable that has a definition's new name, in this file alone
WITHIN = {"crates/thm_serial/proofs/Decrease.antt": {"is_open": "stands_open"}}


def texts(top, *ends):
    for folder, dirs, files in os.walk(top):
        dirs[:] = sorted(d for d in dirs if d != "out")
        for f in sorted(files):
            if f.endswith(ends):
                yield os.path.join(folder, f)


def declared():
    """Each name that a file of specs/ or proofs/ declares -> what it is: spec, proof, type or field; without the needs of a walk."""
    names = collections.defaultdict(set)
    for path in texts("crates", ".antt"):
        inside = False
        for line in open(path, encoding="utf-8"):
            if re.match(r"(pub )?use |--", line):
                continue
            if m := HEAD.match(line):
                inside = bool(re.match(r"(pub )?(data|record) ", line))
                if not re.search(r"\btie\.", m[2]):
                    names[m[1]].add("type" if inside else "spec" if "/specs/" in path else "proof")
            elif inside and (m := FIELD.match(line)):
                names[m[1]].add("field")
            elif (m := FIELD.match(line)) and "=" not in line and "/proofs/" in path:  # within a where or a module
                names[m[1]].add("proof")
            elif line.strip() and not line.startswith(" "):
                inside = False
    return names


def of_library():
    found = set()
    for path in texts("crates", ".antt", ".rt"):
        for line in open(path, encoding="utf-8"):
            m = USE.match(line)
            if m and not re.match(r"Rattle\.(?!std\b)", m[1]):
                found |= {x.split(" as ")[0].strip() for x in m[2].split(",")}
    return found


def snake(word):
    return re.sub(r"(?<=[a-z0-9])(?=[A-Z])", "_", word).lower() if re.match(r"[a-z]", word) else word


def spelled(name, kinds, functions):
    if name in SPELLED:
        return SPELLED[name]
    if not re.search(r"[A-Za-z]", name) or "::" in name:
        return name
    if name.endswith("-spec"):
        return name.replace("-", "_")
    parts = [snake(p) for p in name.split("-")]
    out = parts[0]
    for a, b in zip(parts, parts[1:]):
        joined = "field" not in kinds and a in functions and b in functions
        out += ("-" if joined else "_") + b
    return out


def renamings():
    names, library = declared(), of_library()
    functions = WORDS | {snake(n) for n, kinds in names.items() if "spec" in kinds and "-" not in n}
    turned = {n: spelled(n, kinds, functions) for n, kinds in names.items() if n not in library}
    turned = {n: t for n, t in turned.items() if n != t}
    clashes = collections.defaultdict(set)
    for n in names:
        clashes[turned.get(n, n)].add(n)
    together = {}
    for t, olds in clashes.items():
        # a lemma that would have its function's name
        lemmas = {n for n in olds if not re.match(r"[a-z][a-z0-9]*[A-Z]", n) and not names[n] & {"spec", "type"}}
        if len(olds) == 2 and len(lemmas) == 1:
            turned[lemmas.pop()] = t + "_lem"
        elif len(olds) > 1:
            together[t] = olds
    return turned, together, functions, library


def rewrite(path, turned, functions, library, dry, kind):
    """kind: antt, rt (names of specs stand out there by their capitals), or page (names stand in backquotes there)."""
    turned = turned | WITHIN.get(path, {})
    with open(path, encoding="utf-8") as f:
        lines = f.read().split("\n")

    def turn(line, at_all):
        def word(m):
            t = m[0]
            quoted = line.count("`", 0, m.start()) % 2 == 1
            capitals = re.match(r"[a-z][a-z0-9-]*[A-Z]", t)
            # what is declared within a where or a module, too
            t = t.replace("\u2032", "'")
            new = turned.get(t) or (capitals and t not in library and spelled(t, (), functions)) or t
            if line[: m.start()].endswith(("tie.", "goal.")):
                return t
            return new if (at_all or capitals or quoted) and (kind != "rt" or capitals) else t

        return TOKEN.sub(word, line)

    new = []
    for line in lines:
        m = re.match(r"((?:pub |ghost )*use [^{]*)(.*)$", line)
        code, dashes, comment = line.partition("-- ") if kind == "antt" else (line, "", "")
        if m:
            new.append(m[1] + turn(m[2], kind == "antt"))
        elif kind == "antt":
            new.append(turn(code, True) + dashes + turn(comment, False))
        else:
            new.append(turn(line, False))
    if new != lines and not dry:
        with open(path, "w", encoding="utf-8") as f:
            f.write("\n".join(new))
    clash = set()
    if kind == "antt":
        there = set(TOKEN.findall("\n".join(l for l in lines if not re.match(r"(pub )?use |--", l))))
        clash = {f"{path}: {t} -> {turned[t]}" for t in there & turned.keys() if turned[t] in there - turned.keys() and t not in WITHIN.get(path, {})}
    return new != lines, clash


def main():
    dry = "--dry" in sys.argv[1:]
    turned, together, functions, library = renamings()
    if together:
        for t, olds in sorted(together.items()):
            print(f"{t}: {', '.join(sorted(olds))}")
        sys.exit("names that fall together: spell one of each by hand in SPELLED")
    files = [(p, "antt") for p in texts("crates", ".antt")] + [(p, "rt") for p in texts("crates", ".rt")]
    files += [(p, "antt" if ".antt" in open(p, encoding="utf-8").read().split("\n")[0] else "rt") for p in texts("crates", ".edit")]
    files += [(p, "page") for p in ["README.md", *texts("docs", ".md")]]
    did = [rewrite(p, turned, functions, library, dry, kind) for p, kind in files]
    print(f"{len(turned)} names, {sum(changed for changed, _ in did)} files")
    for _, clash in did:
        for line in sorted(clash):
            print("in use in that file:", line)
    if dry:
        for a, b in sorted(turned.items()):
            print(f"  {a} -> {b}")


if __name__ == "__main__":
    main()
