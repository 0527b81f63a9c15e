"""Holds the Python module to the program kitfinder, to a nested loop, and to the header. Files are the examples, some at the limits, and drawn
ones, whole and damaged, for one pad and two, each under drawn settings. Usage: compare.py KITFINDER [--seed S] [--cases N]"""
import argparse
import json
import random
import re
import subprocess
import sys
import tempfile
from array import array

import kitfinder
from kitfinder import Refusal

LEAST = 3  # how often each outcome that is drawn must come
MERGE, CHECK = ("merge", (0.0,) * 4), ("check", (0.0,) * 4)


def fail(what, *values):
    sys.exit(f"tests/python: {what}" + "".join(f"\n  {value!r}" for value in values))


def read(name):
    with open(name, "rb") as file:
        return file.read()


def record(mark, number, tags):
    return mark + number.to_bytes(2, "big") + bytes([len(tags)]) + b"".join(tag.to_bytes(12, "big") for tag in tags)


def draw_file(draw):
    """Records of few tags, so that kits lie in stacks, with repeats and empty sets; sometimes damaged, or with a number twice."""
    tags = [draw.randrange(256 ** 12) for _ in range(draw.choice((1, 3, 8, 40)))]
    records = []
    for mark, most in (b"KT", 3), (b"SK", 12):
        numbers = draw.sample(range(20 if draw.random() < 0.7 else 65536), draw.randrange(9))
        if draw.random() < 0.05:
            numbers += numbers[:1]
        records += [record(mark, number, [draw.choice(tags) for _ in range(draw.randrange(most + 1))]) for number in numbers]
    draw.shuffle(records)
    file = b"".join(records)
    return file[:draw.randrange(len(file) + 1)] if draw.random() < 0.1 else file


def draw_settings(draw):
    rule = draw.choice((MERGE, MERGE, CHECK, ("weighed", tuple(draw.choice((0.0, 1.0, 1.5, 12.0)) for _ in range(4)))))
    allowance = draw.choice((2 ** 32 - 1,) * 4 + (0, 3))
    return {"limit": draw.choice((1, 2, 2, 255)), "rule": rule, "falling": draw.random() < 0.3, "allowance": allowance}


def by_program(program, names, settings):
    """What the program says: an object."""
    rule, weights = settings["rule"]
    words = [program, "list", "--format", "json", "--limit", str(settings["limit"]), "--rule", rule, "--allowance", str(settings["allowance"])]
    words += ["--order", "falling" if settings["falling"] else "rising"]
    if rule == "weighed":
        words += ["--weights", ",".join(map(str, weights))]
    done = subprocess.run(words + names, stdout=subprocess.PIPE, stderr=subprocess.DEVNULL, check=False)
    said = json.loads(done.stdout)
    if done.returncode != ("refused" in said):
        fail(f"{words} ended with status {done.returncode}", said)
    return said


def by_module(files, settings):
    """What the module says, as the same object."""
    rule, weights = settings["rule"]
    try:
        loaded = kitfinder.load(*files) if len(files) == 1 else kitfinder.load_pooled(*files)
        ranks = kitfinder.order(loaded.t, loaded.kits, loaded.stacks, falling=settings["falling"])
        chosen = {"limit": settings["limit"], "ranks": ranks, "allowance": settings["allowance"], "rule": rule, "weights": weights}
        joined = kitfinder.join(loaded.t, loaded.kits, loaded.stacks, **chosen)
    except Refusal as refusal:
        return {"refused": {"number": refusal.number, "detail": refusal.detail}}
    test_loaded(loaded, joined)
    return {
        "counts": joined.counts._asdict(),
        "repeats": dict(zip(("kits", "stacks"), loaded.repeats)),
        "pairs": [[loaded.kit_numbers[kit], loaded.stack_numbers[stack]] for kit, stack in joined.pairs],
    }


def test_loaded(loaded, joined):
    """Holds a join to a nested loop, the first kits to the join, lists to arrays, and what is written to what was loaded."""
    kits, stacks = list(loaded.kits), list(loaded.stacks)
    held = [set(stack) for stack in stacks]
    pairs = [(k, s) for k, kit in enumerate(kits) for s, items in enumerate(held) if kit and items.issuperset(kit)]
    if joined.pairs != pairs:
        fail("other pairs than a nested loop's", loaded, joined.pairs, pairs)
    if kitfinder.join(loaded.t, kits, stacks).places != joined.places:
        fail("other pairs from lists than from arrays", loaded)
    if kitfinder.order(loaded.t, kits, stacks) != kitfinder.order(loaded.t, loaded.kits, loaded.stacks):
        fail("other ranks from lists than from arrays", loaded)
    firsts = {s: k for k, s in reversed(pairs)}
    for s, stack in enumerate(stacks):
        expected = (firsts[s], firsts[s] + 1) if s in firsts else (None, len(kits))
        for given in stack, array("H", stack):
            if kitfinder.first(loaded.t, loaded.kits, given) != expected:
                fail("another first kit", loaded, s, expected)
    file = kitfinder.write(loaded.tags, loaded.kit_numbers, loaded.kits, loaded.stack_numbers, loaded.stacks)
    again = kitfinder.load(file)
    if again != loaded._replace(repeats=(0, 0)) or file != kitfinder.write(loaded.tags, loaded.kit_numbers, kits, loaded.stack_numbers, stacks):
        fail("written and loaded again it is another", loaded, again)


def compare(program, folder, files, settings):
    """Holds module and program to each other; what came of it."""
    names = []
    for k, file in enumerate(files):
        names.append(f"{folder}/{k}")
        with open(names[-1], "wb") as out:
            out.write(file)
    said, expected = by_module(files, settings), by_program(program, names, settings)
    if said != expected:
        fail("the module and the program differ", files, settings, said, expected)
    return f"refused with {said['refused']['number']}" if "refused" in said else "no pair" if not said["pairs"] else "pairs"


def limits():
    """Files at the limits and just past them: sets, entries, tags, a pooled stack, and a pair list as long as there is."""
    full = [record(b"SK", k, range(255)) for k in range(257)] + [b""]
    yield [b"".join(record(b"KT", k, [k % 7]) for k in range(4096)) + record(b"SK", 1, range(7))], "pairs"
    yield [b"".join(record(b"KT", k, []) for k in range(4097))], "refused with 3"
    yield [b"".join(full)], "no pair"
    yield [b"".join(full) + record(b"SK", 300, [1])], "refused with 3"
    yield [b"".join(record(b"KT", k, range(256 * k, 256 * k + 255)) for k in range(16)) + record(b"KT", 16, range(9000, 9016))], "no pair"
    yield [b"".join(record(b"KT", k, range(256 * k, 256 * k + 255)) for k in range(16)) + record(b"KT", 16, range(9000, 9017))], "refused with 3"
    yield [record(b"SK", 1, range(255)), record(b"SK", 1, [254, 255])], "refused with 10"
    yield [b"".join(record(b"KT", k, [5]) + record(b"SK", k, [5, 6]) for k in range(1200))], "pairs"


def refuses(number, detail, place, function, *arguments, **settings):
    try:
        answer = function(*arguments, **settings)
    except Refusal as refusal:
        if (refusal.number, refusal.detail, refusal.place) == (number, detail, place) and refusal.words in str(refusal):
            return
        fail(f"another refusal than {number} {detail} {place}", refusal)
    fail(f"no refusal {number}", answer)


def test_refusals():
    """Those that no file leads to."""
    good, bad = [[0], [1]], [[0], [2]]
    refuses(5, 0, 1, kitfinder.join, 2, bad, bad)
    refuses(5, 1, 1, kitfinder.join, 2, good, bad)
    refuses(5, 1, 0, kitfinder.first, 2, good, [1, 0])
    refuses(5, 0, 1, kitfinder.order, 2, bad, good)
    refuses(5, 0, 1, kitfinder.write, [b"A" * 12], [7], [[0], [0]], [], [])
    refuses(5, 0, 0, kitfinder.join, 2, kitfinder.Sets(array("I", [3]), array("H", [0, 1])), good)
    for settings in {"limit": 0}, {"limit": 256}, {"ranks": [0]}, {"ranks": [1, 1]}, {"ranks": array("H", [0, 2])}:
        refuses(6, 0, 0, kitfinder.join, 2, good, good, **settings)
    refuses(6, 0, 0, kitfinder.join, 2, bad, bad, limit=0)
    for function in kitfinder.join, kitfinder.order:
        refuses(6, 0, 0, function, 4097, good, good)
    refuses(6, 0, 0, kitfinder.first, 4097, good, [])
    refuses(8, 0, 0, kitfinder.join, 2, good, good, rule="check", allowance=2)
    wrong = [(kitfinder.join, (-1, [], [])), (kitfinder.join, (2 ** 32, [], [])), (kitfinder.order, (1, [[65536]], [])),
             (kitfinder.first, (1, [], [-1])), (kitfinder.write, ([b"A"], [], [], [], [])), (kitfinder.write, ([], [65536], [[]], [], [])),
             (kitfinder.join, (2.0, good, good)), (kitfinder.order, (2.0, good, good)), (kitfinder.first, (2.0, good, [0])),
             (kitfinder.join, (2, [["0"]], good)), (kitfinder.load, ("KT",)), (kitfinder.load, ([75, 84],))]
    for function, arguments in wrong:
        try:
            fail("values that the library can't be lent are taken", function(*arguments))
        except (ValueError, TypeError):
            pass


def test_header(header):
    """Version, limits, lengths of answers, rules and the words of refusals are the header's."""
    text = read(header).decode()
    defined = dict(re.findall(r'^#define KITFINDER_(\w+) "?([^"\n]+)"?$', text, re.M))
    values = {"VERSION": kitfinder.__version__, "ABI": kitfinder.ABI, "MAX_ITEMS": kitfinder.MAX_ITEMS, "MAX_SETS": kitfinder.MAX_SETS,
              "MAX_ENTRIES": kitfinder.MAX_ENTRIES, "TAG_BYTES": kitfinder.TAG_BYTES, "RECORD_HEAD_BYTES": kitfinder.HEAD_BYTES}
    values.update({f"{name.upper()}_ANSWER": words for name, words in kitfinder.ANSWER_WORDS.items()})
    for name, value in values.items():
        if defined.get(name) != str(value):
            fail(f"KITFINDER_{name} is {defined.get(name)}, and not {value}")
    numbers = dict(re.findall(r"KITFINDER_(\w+) = (\d+)", text))
    words = {int(numbers[name]): words for name, words in re.findall(r'case KITFINDER_(\w+): return "(.*)";', text)}
    del words[0]
    if words != kitfinder.WORDS:
        fail("the words of refusals are not the header's", words, kitfinder.WORDS)
    if {name: int(numbers[name.upper()]) for name in kitfinder.RULES} != kitfinder.RULES:
        fail("the rules are not the header's")


def main():
    parser = argparse.ArgumentParser()
    parser.add_argument("program")
    parser.add_argument("--seed", type=int, default=random.randrange(2 ** 31))
    parser.add_argument("--cases", type=int, default=400)
    given = parser.parse_args()
    program, seed, cases = given.program, given.seed, given.cases
    test_header("include/kitfinder.h")
    test_refusals()
    plain = {"limit": 2, "rule": MERGE, "falling": False, "allowance": 2 ** 32 - 1}
    names = [["library"], ["damaged"], ["first_pad"], ["second_pad"]]
    names += [["first_pad", "second_pad"], ["second_pad", "first_pad"], ["library", "damaged"]]
    with tempfile.TemporaryDirectory() as folder:
        for parts in names:
            files = [read(f"examples/{name}.tags") for name in parts]
            for rule in MERGE, CHECK:
                compare(program, folder, files, {**plain, "rule": rule})
        for files, expected in limits():
            if compare(program, folder, files, plain) != expected:
                fail(f"a file at the limits does not give: {expected}")
        draw, came = random.Random(seed), {}
        for _ in range(cases):
            files = [draw_file(draw) for _ in range(1 if draw.random() < 0.6 else 2)]
            what = compare(program, folder, files, draw_settings(draw))
            came[what] = came.get(what, 0) + 1
    print(f"python: {len(names)} examples, {sum(1 for _ in limits())} files at the limits, {cases} drawn ones, seed {seed}")
    for what in ("pairs", "no pair", "refused with 1", "refused with 2", "refused with 8"):
        print(f"{came.get(what, 0):7}  {what}")
        if cases >= 400 and came.get(what, 0) < LEAST:
            fail(f"too few drawn files give: {what}, with seed {seed}")


main()
