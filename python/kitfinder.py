"""The kit finder from Python: which kits lie whole in which stacks, by the proved library.

    >>> import kitfinder
    >>> file = kitfinder.write([b"A" * 12, b"B" * 12, b"C" * 12], [7, 8], [[0, 1], [2]], [9], [[0, 1]])
    >>> loaded = kitfinder.load(file)
    >>> joined = kitfinder.join(loaded.t, loaded.kits, loaded.stacks)
    >>> [(loaded.kit_numbers[kit], loaded.stack_numbers[stack]) for kit, stack in joined.pairs]
    [(7, 9)]

Tags are numbered from 0 to t - 1, by their bytes; a kit or a stack is a list of these numbers, its items, strictly rising; its place is its
number in the list of kits or stacks, from 0. Where the library refuses, `Refusal` is raised.

Lists go in as Python lists, or without a copy of them as `Sets`, which is what the loads give: arrays of ends and items, as the library has
them. A set of `Sets` is a list of items again.

This file needs nothing but Python 3.8 and the shared library, libkitfinder.so.0, which scripts/install puts below a prefix. It is looked for
in this order: what the environment variable KITFINDER_LIB names, the library or its folder; beside this file, as it is installed or in the
repository; and where the system's loader finds it. include/kitfinder.h says what each function asks and answers. What is proved is the
library; this file is tested.
"""
import ctypes
import mmap
import operator
import os
from array import array
from collections import namedtuple

__version__ = "0.2.0"
__all__ = ["load", "load_pooled", "join", "first", "order", "write", "Sets", "Loaded", "Joined", "First", "Counts", "Refusal"]

ABI = 0
MAX_ITEMS, MAX_SETS, MAX_ENTRIES, TAG_BYTES, HEAD_BYTES = 4096, 4096, 65535, 12, 5
ANSWER_WORDS = {"load": 10, "load_pooled": 10, "order": 3, "join": 9, "first": 6, "write": 4}
RULES = {"merge": 0, "check": 1, "weighed": 2}
WORDS = {
    1: "a record with another mark, or cut short",
    2: "a record's number was used before by the same kind",
    3: "a record passes a limit of sets, entries or tags",
    4: "an output list is too short",
    5: "a bad set, or numbers not as many as the sets",
    6: "the limit, the rule, the ranks, t or the tag table's length",
    7: "the work list is too short",
    8: "more checks than the allowance",
    9: "the pair list is too short",
    10: "the pooled stack of a record has over 255 tags",
}


class Refusal(Exception):
    """The library made no list.

    `number` is the refusal's, `words` says what it means, and `detail` is the byte place of the record for 1, 2, 3 and 10, the side (0 kits,
    1 stacks) for 5, else 0. `place` is the place of the bad set for 5, else 0.

    >>> try:
    ...     load(b"KT")
    ... except Refusal as refusal:
    ...     print(refusal.number, refusal.detail, refusal.words)
    1 0 a record with another mark, or cut short
    >>> join(2, [[0]], [[1], [1, 0]])
    Traceback (most recent call last):
    kitfinder.Refusal: refused with 5: a bad set, or numbers not as many as the sets: stacks, place 1
    """

    def __init__(self, number, detail, place):
        self.number, self.detail, self.place = number, detail, place
        self.words = WORDS.get(number, "no refusal of this library")
        where = f", at byte {detail}" if number in (1, 2, 3, 10) else ""
        if number == 5:
            where = f": {'stacks' if detail else 'kits'}, place {place}"
        super().__init__(f"refused with {number}: {self.words}{where}")


class Sets:
    """A collection as the library has it: `ends`, an array of 32-bit ends, and `items`, an array of 16-bit items. Set k holds the items from
    the end of set k - 1 (0 for k = 0) up to its own; items past the last end don't count.

    >>> sets = Sets(array("I", [2, 2, 3]), array("H", [0, 1, 5]))
    >>> len(sets), sets[0], sets[-1], list(sets)
    (3, [0, 1], [5], [[0, 1], [], [5]])
    >>> Sets.of([[0, 1], [], [5]]) == sets
    True
    """

    __slots__ = ("ends", "items")

    def __init__(self, ends, items):
        self.ends, self.items = _array("I", ends, "an end"), _array("H", items, "an item")

    @classmethod
    def of(cls, sets):
        """The same sets as a `Sets`: from one itself, or from lists of items."""
        if isinstance(sets, Sets):
            return sets
        ends, items = array("I"), array("H")
        for one in sets:
            items.extend(_array("H", one, "an item"))
            ends.append(len(items))
        return cls(ends, items)

    def __len__(self):
        return len(self.ends)

    def __getitem__(self, place):
        if isinstance(place, slice):
            return [self[k] for k in range(*place.indices(len(self)))]
        if not -len(self) <= place < len(self):
            raise IndexError("there is no set at this place")
        place %= len(self)
        return self.items[self.ends[place - 1] if place else 0:self.ends[place]].tolist()

    def __eq__(self, other):
        return list(self) == list(other) if isinstance(other, (Sets, list)) else NotImplemented

    def __repr__(self):
        return f"Sets({list(self)})"


Counts = namedtuple("Counts", "pairs path confirmed checks dropped false")
Counts.__doc__ = "What a join counts: pairs = path + confirmed, and checks = dropped + false + confirmed."
First = namedtuple("First", "place compared")
First.__doc__ = "The place of the first kit that a stack contains, or None; and how many kits were compared."
Loaded = namedtuple("Loaded", "tags kit_numbers kits stack_numbers stacks repeats")
Loaded.__doc__ = """A tag file: its tags, 12 bytes each, rising; the kits and the stacks, `Sets`, and the numbers of their records; and how many
reads were repeats, of kits and of stacks."""
Loaded.t = property(lambda loaded: len(loaded.tags), doc="The count of tags.")


class Joined(namedtuple("Joined", "counts places")):
    """The counts of a join and its pairs: `places` is an array of two places a pair, kit then stack, rising; `pairs` lists them as tuples."""

    __slots__ = ()

    @property
    def pairs(self):
        return list(zip(self.places[::2], self.places[1::2]))


def load(file):
    """Loads a tag file, from its bytes.

    >>> loaded = load(b"KT" + bytes([0, 7, 2]) + b"B" * 12 + b"A" * 12 + b"SK" + bytes([0, 9, 2]) + b"B" * 24)
    >>> loaded.tags, loaded.kits, loaded.stacks
    ([b'AAAAAAAAAAAA', b'BBBBBBBBBBBB'], Sets([[0, 1]]), Sets([[1]]))
    >>> loaded.kit_numbers, loaded.stack_numbers, loaded.repeats
    ([7], [9], (0, 1))
    """
    return _loaded("load", _bytes(file))


def load_pooled(first, second):
    """Loads the tag files of two pads: the kits of the first, and the stacks of both, pooled by their numbers.

    >>> pads = [write([tag], [], [], [9], [[0]]) for tag in (b"A" * 12, b"B" * 12)]
    >>> load_pooled(*pads).stacks
    Sets([[0, 1]])
    """
    return _loaded("load_pooled", _bytes(first), _bytes(second))


def order(t, kits, stacks, falling=False):
    """The rank of each tag by how many sets hold it: a list of t ranks. Rare tags come first, or last where `falling` is true.

    >>> order(3, [[0, 1], [1]], [[1, 2]])
    [0, 2, 1]
    """
    t = _number(t, "t")
    ranks = array("H", bytes(2 * min(t, MAX_ITEMS)))
    _call("order", t, Sets.of(kits), Sets.of(stacks), bool(falling), ranks)
    return ranks.tolist()


def join(t, kits, stacks, *, limit=2, ranks=None, allowance=2**32 - 1, rule="merge", weights=(0.0, 0.0, 0.0, 0.0)):
    """Every pair of a kit and a stack that contains it. A kit without tags is in no pair.

    No setting changes which pairs there are: `limit` (1 to 255), `ranks` (those of `order`, where none are given), `rule` ("merge", "check"
    or "weighed", which takes four `weights`) and `allowance`, the most checks that the join may need.

    >>> joined = join(4, [[0, 1], [1], [0, 2, 3]], [[0, 1, 2], [1, 3], [0, 2, 3]], limit=1, ranks=[0, 1, 2, 3])
    >>> joined.pairs
    [(0, 0), (1, 0), (1, 1), (2, 2)]
    >>> joined.counts
    Counts(pairs=4, path=2, confirmed=2, checks=4, dropped=2, false=0)
    """
    t, kits, stacks = _number(t, "t"), Sets.of(kits), Sets.of(stacks)
    if rule not in RULES:
        raise ValueError(f"the rule is one of {', '.join(RULES)}, and not {rule!r}")
    if ranks is None:
        try:
            ranks = order(t, kits, stacks)
        except Refusal:  # the join says by which of all its tests
            ranks = range(min(t, MAX_ITEMS))
    settings = [_number(limit, "the limit"), _array("H", ranks, "a rank"), _number(allowance, "the allowance"), RULES[rule], *_four(weights)]
    n = sum(min(len(sets), MAX_SETS) + _entries(sets) for sets in (kits, stacks)) + min(t, MAX_ITEMS)
    work = _room(ctypes.c_uint32, 16 * n + 64)
    # room for every pair there may be; of a new map only what is written takes memory
    places = _room(ctypes.c_uint16, 2 * min(len(kits), MAX_SETS) * min(len(stacks), MAX_SETS))
    counts = Counts(*_call("join", t, kits, stacks, *settings, work, places))
    return Joined(counts, array("H", bytes(memoryview(places)[:2 * counts.pairs])))


def first(t, kits, stack):
    """The first kit that one stack contains.

    >>> first(3, [[], [0, 2], [0]], [0, 1])
    First(place=2, compared=3)
    >>> first(3, [[2]], [0, 1])
    First(place=None, compared=1)
    """
    found, place, compared = _call("first", _number(t, "t"), Sets.of(kits), _array("H", stack, "an item"))
    return First(place if found else None, compared)


def write(tags, kit_numbers, kits, stack_numbers, stacks):
    """A tag file, as bytes: kits, then stacks, by place, each with the number of its record. `tags` are 12 bytes each, by item.

    >>> write([b"A" * 12], [7], [[0]], [], [])
    b'KT\\x00\\x07\\x01AAAAAAAAAAAA'
    """
    tags = [bytes(tag) for tag in tags]
    if any(len(tag) != TAG_BYTES for tag in tags):
        raise ValueError(f"a tag has {TAG_BYTES} bytes")
    kits, stacks = Sets.of(kits), Sets.of(stacks)
    file = bytearray(sum(HEAD_BYTES * min(len(sets), MAX_SETS) + TAG_BYTES * _entries(sets) for sets in (kits, stacks)))
    numbers = [_array("H", side, "a number") for side in (kit_numbers, stack_numbers)]
    length, = _call("write", len(tags), b"".join(tags), numbers[0], kits, numbers[1], stacks, file)
    return bytes(file[:length])


def _loaded(name, *files):
    tags = bytearray(TAG_BYTES * MAX_ITEMS)
    sides = [(array("H", bytes(2 * MAX_SETS)), array("I", bytes(4 * MAX_SETS)), array("H", bytes(2 * MAX_ENTRIES))) for _ in range(2)]
    answer = _call(name, *files, tags, *sides[0], *sides[1])
    (kits, stacks, kit_entries, stack_entries, t), repeats = answer[:5], answer[5:]
    filled = []
    for (numbers, ends, items), sets, entries in zip(sides, (kits, stacks), (kit_entries, stack_entries)):
        filled += [numbers[:sets].tolist(), Sets(ends[:sets], items[:entries])]
    return Loaded([bytes(tags[k:k + TAG_BYTES]) for k in range(0, TAG_BYTES * t, TAG_BYTES)], *filled, tuple(repeats))


def _call(name, *arguments):
    """Calls a function of the library, each list as a pointer and a length, and gives its answer behind the refusal's three words."""
    answer = (ctypes.c_uint64 * ANSWER_WORDS[name])()
    lent = []
    for argument in arguments:
        for part in (argument.ends, argument.items) if isinstance(argument, Sets) else (argument,):
            if isinstance(part, int):
                lent.append(ctypes.c_uint32(part))
            elif isinstance(part, float):
                lent.append(ctypes.c_double(part))
            else:
                lent += [_pointer(part), ctypes.c_size_t(len(part))]
    getattr(_library, "kitfinder_" + name)(*lent, answer)
    if answer[0]:
        raise Refusal(*answer[:3])
    return answer[3:]


def _pointer(part):
    """Where a list lies. One without elements has no memory to lend, and a null pointer stands for it."""
    if len(part) == 0:
        return None
    if isinstance(part, bytes):
        return ctypes.c_char_p(part)
    return (ctypes.c_uint8 * memoryview(part).nbytes).from_buffer(part)


def _bytes(data):
    return data if isinstance(data, bytes) else bytes(memoryview(data))


def _number(value, what):
    value = operator.index(value)
    if not 0 <= value < 2**32:
        raise ValueError(f"{what} must be 0 to {2**32 - 1}, and is {value}")
    return value


def _array(code, values, what):
    if isinstance(values, array) and values.typecode == code:
        return values
    try:
        return array(code, values)
    except OverflowError:
        raise ValueError(f"{what} must be 0 to {2 ** (8 * array(code).itemsize) - 1}") from None


def _four(weights):
    weights = [float(weight) for weight in weights]
    if len(weights) != 4:
        raise ValueError("there are four weights: a, b, g and h")
    return weights


def _entries(sets):
    return min(sets.ends[-1], MAX_ENTRIES) if len(sets) else 0


def _room(kind, count):
    """A list of zeros to lend, of which only what is written takes memory."""
    return (kind * count).from_buffer(mmap.mmap(-1, max(1, ctypes.sizeof(kind) * count)))


def _load_library():
    name = f"libkitfinder.so.{ABI}"
    named = os.environ.get("KITFINDER_LIB")
    here = os.path.dirname(os.path.abspath(__file__))
    if named:
        tried = [os.path.join(named, name) if os.path.isdir(named) else named]
    else:
        tried = [os.path.join(here, *parts, name) for parts in ((os.pardir,), (os.pardir, os.pardir, "lib"), (os.pardir, "target", "sharedlib"))]
        tried = [file for file in tried if os.path.exists(file)] or [name]
    try:
        return ctypes.CDLL(tried[0])
    except OSError as error:
        raise ImportError(f"the shared library of the kit finder was not loaded ({error}). scripts/install PREFIX puts it into PREFIX/lib; "
                          "the environment variable KITFINDER_LIB may name that folder") from None


_library = _load_library()
for _name in ANSWER_WORDS:
    getattr(_library, "kitfinder_" + _name).restype = None
