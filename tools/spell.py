#!/usr/bin/env python3
"""Spells the repository's own definitions and lemmas as Rattle's library spells its words: words in snake case, types in camel case.

usage: tools/spell.py [--table FILE]    at the top of the repository, once, after port.py

A name that specs/ or proofs/ declare turns, everywhere that it stands: in specs/, proofs/, the clauses of src/, and the code spans of
comments and of the documents. A dash stays where it joins two words of specs/ or of the library; every other dash, and every hump
inside a word, becomes an underscore. Names of src/, generated names of proof files, strings, inputs and outputs stay as they are.
Where a law and a definition, or a law and one of the library's names, would fall together, the law ends in `_lem`. It stops before it writes anything
where two other names of one file would. Laws that a Proof.antt declares for itself keep their names.
"""
import collections
import os
import re
import sys

WORD = re.compile(r"[A-Za-z][A-Za-z0-9_'₀-₉′]*(?:-[A-Za-z0-9_'₀-₉′]+)*")
DECLARED = re.compile(
    r"^ *((?:(?:pub|abbrev|unfoldable|record|data|ruleset) +)*)([A-Za-z][A-Za-z0-9_'₀-₉′-]*)(?= (?::|\(|\{|where)|$)", re.M)
USE = re.compile(r"^(?:ghost )?use ([\w.◌'«»+-]+)\.\{([^}]*)\}", re.M)


def files():
    for folder, dirs, names in os.walk("crates"):
        dirs[:] = sorted(d for d in dirs if d != "out")
        for name in sorted(names):
            if name.endswith((".antt", ".rt")):
                yield os.path.join(folder, name)


def is_proof(path):
    return os.path.basename(path) == "Proof.antt"


def declared(text):
    """The names that a file of specs/ or proofs/ declares: each has a line of its own with its type behind a colon."""
    found = {}
    for m in DECLARED.finditer(text):
        marks, name = m[1], m[2]
        rest = text[m.end():m.end() + 400]
        line = text[m.start():].split("\n", 1)[0].strip()
        if line.startswith(("use ", "unfolding ", "module ", "--", "where", "let ", "in ", "elim ")):
            continue
        if "record " in marks or "data " in marks:
            found[name] = "type"
        elif re.match(r" :\s", rest):
            at = m.start() + len(m[0])
            line_indent = len(m[0]) - len(m[0].lstrip(" "))
            found[name] = "field" if line_indent and marks.strip() == "pub" else "word"
    return found


def snake(part):
    part = re.sub(r"(?<=[a-z0-9])([A-Z]+)(?=[A-Z][a-z])", lambda m: "_" + m[1], part)
    return re.sub(r"(?<=[a-z0-9'])([A-Z])", lambda m: "_" + m[1].lower(), part) if part[:1].islower() else part


def spelled(name, words):
    if name[0].isupper() and "-" not in name:
        return name
    parts = name.split("-")
    turned = [snake(p) for p in parts]
    out, last = turned[0], parts[0]
    for k in range(1, len(parts)):
        left = any("-".join(parts[j:k]) in words or "_".join(turned[j:k]) in words for j in range(k))
        right = any("-".join(parts[k:j]) in words or "_".join(turned[k:j]) in words for j in range(k + 1, len(parts) + 1))
        out += ("-" if left and right else "_") + turned[k]
    return out.replace("′", "'")


def table():
    texts = {p: open(p, encoding="utf-8").read() for p in files()}
    own, library, in_specs, fields = {}, set(), set(), set()
    where = collections.defaultdict(dict)
    for p, t in texts.items():
        for m in USE.finditer(t):
            first = m[1].split(".")
            ours = first[0] == "Rattle" and os.path.isdir(os.path.join("crates", first[1]))
            if not ours:
                library |= {w.split(" as ")[0].strip() for w in m[2].replace("\n", " ").split(",")}
                library |= {w.split(" as ")[-1].strip() for w in m[2].replace("\n", " ").split(",")}
        if p.endswith(".antt") and not is_proof(p):
            found = declared(t)
            where[p] = found
            for name, kind in found.items():
                own[name] = kind
                if "/specs/" in p and name[0].islower() and kind != "field":
                    in_specs.add(name)
                if kind == "field":
                    fields.add(name)
    words = {w for w in library if re.fullmatch(r"[a-z]\w*", w)} | {w for w in in_specs if "-" not in w}
    words |= {snake(w) for w in words}
    words -= {"left", "right", "at", "by", "of", "in", "to", "from", "is", "on", "as", "and", "or", "not", "all", "one", "the", "same"}
    turn = {}
    for name in own:
        new = spelled(name, words)
        if new != name and name not in library:
            turn[name] = new
    # Where a law and a definition fall together, the law is told apart, as the library does it. A field is told apart by its record.
    meet = collections.defaultdict(set)
    for name in own:
        meet[turn.get(name, name)].add(name)
    for new, olds in meet.items():
        laws = [name for name in olds if "-" in name and own[name] == "word"]
        if len(olds) > 1 or new in library and new not in olds:
            for name in laws:
                turn[name] = new + "_lem"
                print(f"look: {name} is {new}_lem, beside {sorted(olds - {name}) or 'the library'}")
    bad = 0
    for p, found in where.items():
        seen = {}
        for name in found:
            new = turn.get(name, name)
            if new in seen and seen[new] != name:
                law = next((n for n in (name, seen[new]) if "-" in n), None)
                if law:
                    turn[law] = new + "_lem"
                    print(f"look: {p}: the field {law} is {new}_lem, beside {({name, seen[new]} - {law}).pop()}")
                    continue
                print(f"{p}: {seen[new]} and {name} would both be {new}")
                bad += 1
            seen[new] = name
    if bad:
        raise SystemExit(1)
    return texts, turn, fields, own


def main(argv):
    texts, turn, fields, own = table()
    if "--table" in argv:
        with open(argv[argv.index("--table") + 1], "w") as f:
            f.writelines(f"{a}\t{b}\n" for a, b in sorted(turn.items()))
        print(len(turn), "names turn")
        if "--only" in argv:
            return 0

    def one(text, keep=frozenset(), proof=False):
        def word(m):
            w = m[0]
            if w not in turn or w in keep:
                return w
            if proof and m.start() and text[m.start() - 1] == "." and w not in fields:
                before = text[max(0, m.start() - 200):m.start() - 1]
                chain = re.search(r"[\w.◌-]*$", before)[0]
                if not chain.startswith("Rattle."):
                    return w
            return turn[w]
        return WORD.sub(word, text)

    for p, t in texts.items():
        if p.endswith(".antt"):
            if is_proof(p):
                local = {m[2] for m in DECLARED.finditer(t)}
                new = one(t, local, True)
            else:
                new = one(t)
        else:
            parts = re.split(r'(b?"(?:\\.|[^"\\])*")', t)
            new = "".join(s if k % 2 else one(s) for k, s in enumerate(parts))
        if new != t:
            with open(p, "w", encoding="utf-8") as f:
                f.write(new)
    for folder in (".", "docs", "docs/landings"):
        for name in sorted(os.listdir(folder)):
            if name.endswith(".md") and name not in ("PORT.md",):
                p = os.path.join(folder, name)
                t = open(p, encoding="utf-8").read()
                new = re.sub(r"`[^`\n]+`", lambda m: one(m[0]), t)
                if new != t:
                    with open(p, "w", encoding="utf-8") as f:
                        f.write(new)
    return 0


if __name__ == "__main__":
    raise SystemExit(main(sys.argv[1:]))
