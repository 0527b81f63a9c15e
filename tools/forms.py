#!/usr/bin/env python3
"""Counts the older forms in src/, by the points of docs/DESIGN-PASS.md.

tools/forms.py [COMMIT] [POINT]    the working tree, or a commit; with a point, its places one a line

1 enums, flags in structs, and constants that stand for "none"
2 functions whose bodies differ only in names, types, sizes and constants (a place is a group)
3 loops by while, and loops over all places of a list that read it by its index
4 functions that only cast, or only turn an enum into numbers or truth values
5 functions with three or more parameters of a group that stands together in three functions or more
6 functions with two bounds of a part of a list, or with parallel arrays
7 functions with a truth value that picks what is done
8 answers in proofs/, and their lines
"""
import re
import subprocess
import sys
from collections import defaultdict


def run(*words):
    return subprocess.check_output(words, text=True)


def files(commit, part, suffix):
    if commit:
        names = run("git", "ls-tree", "-r", "--name-only", commit, "crates").split("\n")
    else:
        names = run("git", "ls-files", "crates").split("\n")
    for name in names:
        if f"/{part}/" in name and name.endswith(suffix):
            text = run("git", "show", f"{commit}:{name}") if commit else open(name).read()
            yield name.replace("crates/", "").replace("/src/", "::"), text


def functions(text):
    """Name, parameters, and body of each function."""
    text = re.sub(r"//[^\n]*", "", text)
    for m in re.finditer(r"\bfn (\w+)(<[^>]*>)?\(", text):
        at, depth = m.end(), 1
        while depth:
            depth += {"(": 1, ")": -1}.get(text[at], 0)
            at += 1
        parameters = re.findall(r"(\w+): ([^,]+(?:<[^>]*>)?)", text[m.end() : at - 1])
        body = re.compile(r"(?<=[\w)>\]]) \{\n|^ *\{\n", re.M).search(text, at)
        if not body:
            continue
        start = text.index("{", body.start())
        end, depth = start, 0
        while True:
            depth += {"{": 1, "}": -1}.get(text[end], 0)
            end += 1
            if depth == 0:
                break
        yield m.group(1), parameters, text[start:end]


def shape(body):
    """A body without its names, types, texts and constants."""
    body = re.sub(r'"[^"]*"', "S", body)
    body = re.sub(r"\bu(8|16|32|64|size)\b", "T", body)
    body = re.sub(r"\b(0x[0-9A-Fa-f]+|\d[\d_]*(u8|u16|u32|u64|usize)?)\b", "N", body)
    body = re.sub(r"\b[A-Z][A-Z_0-9]+\b", "C", body)
    words = "let mut for in while if else return match true false self as T N C S".split()
    names = {}
    body = re.sub(
        r"\b[a-z_]\w*\b",
        lambda m: m.group(0) if m.group(0) in words else names.setdefault(m.group(0), f"v{len(names)}"),
        body,
    )
    return re.sub(r"\s+", " ", body)


def places(commit):
    found = defaultdict(list)
    shapes, groups = defaultdict(list), defaultdict(list)
    for name, text in files(commit, "src", ".rt"):
        for m in re.finditer(r"^(?:pub )?enum (\w+)", text, re.M):
            found[1].append(f"{name} enum {m.group(1)}")
        for m in re.finditer(r"^(?:pub )?struct (\w+)[^{;]*\{(.*?)^\}", text, re.M | re.S):
            for flag in re.findall(r"(\w+): bool", m.group(2)):
                found[1].append(f"{name} struct {m.group(1)}, flag {flag}")
        for m in re.finditer(r"^const (NO_\w+)", text, re.M):
            found[1].append(f"{name} {m.group(1)}")
        for n, line in enumerate(text.split("\n"), 1):
            loop = re.match(r"\s*for (\w+) in 0\.\.(\w+)\.len\(\)", line)
            if re.match(r"\s*while ", line) or (loop and f"{loop.group(2)}[{loop.group(1)}]" in text):
                found[3].append(f"{name}:{n} {line.strip()}")
        for function, parameters, body in functions(text):
            where = f"{name} {function}"
            s = shape(body)
            shapes[s].append(where)
            if re.fullmatch(r"\{ (v0 as T|if v0 \{ N \} else \{ N \}|v0\[v1\] as T) \}", s):
                found[4].append(where)
            if re.fullmatch(r"\{ match v0 \{ (\w+::\w+ => (N|true|false|match .*),? ?)+\} \}", s):
                found[4].append(where)
            names = [p for p, _ in parameters]
            for group in (
                "t left_ends left_items right_ends right_items",
                "tags left_numbers left_ends left_items right_numbers right_ends right_items",
                "numbers ends items",
                "ends items",
                "heads tails ids hints",
                "d lo hi from to",
                "lay st p",
                "limit ranks budget rule",
            ):
                wanted = group.split()
                if sum(p in names for p in wanted) >= min(3, len(wanted)):
                    groups[group].append(where)
                    break
            types = dict(parameters)
            for a, b in (("from", "to"), ("lo", "hi"), ("a", "b"), ("c", "e"), ("start", "end")):
                if types.get(a, "").startswith("usize") and types.get(b, "").startswith("usize"):
                    found[6].append(f"{where}: {a}, {b}")
                    break
            if "heads" in names and "tails" in names:
                found[6].append(f"{where}: heads, tails")
            for p, kind in parameters:
                if kind.strip() == "bool" and re.search(rf"if !?{p} ", body):
                    found[7].append(f"{where}: {p}")
    for s, where in shapes.items():
        if len(where) > 1:
            found[2].append(", ".join(where))
    for group, where in groups.items():
        if len(where) >= 3:
            found[5] += [f"{w}: {group}" for w in where]
    answers = lines = 0
    for name, text in files(commit, "proofs", "Answers.antt"):
        answers += len(re.findall(r"^pub [^:\n]* : goal\.", text, re.M))
        lines += text.count("\n")
    found[8] = [f"{answers} answers in {lines} lines"]
    return found


def main():
    words = sys.argv[1:]
    point = int(words.pop()) if words and re.fullmatch(r"\d", words[-1]) else None
    found = places(words[0] if words else None)
    for p in range(1, 9):
        if point in (None, p):
            print(p, found[8][0] if p == 8 else len(found[p]))
            if point:
                print("\n".join("  " + place for place in found[p]))


main()
