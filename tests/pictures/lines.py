"""Whether the lines of docs/crates.svg can be read: each goes from the foot of a box to the head of another, in the colour of the first, touches
no box on its way, and ends where no other does; and together they say what crates.txt says. Usage: lines.py PICTURE CRATES"""
import re
import sys
import xml.etree.ElementTree as tree

SVG = "{http://www.w3.org/2000/svg}"
APART = 6  # the least distance of a line from a box that it does not end at, and of two ends


class Box:
    def __init__(self, shape):
        self.x, self.y, self.width, self.height = (float(shape.get(name)) for name in ("x", "y", "width", "height"))
        self.stroke, self.name = shape.get("stroke"), "a box without a name"

    def has(self, x, y, around=0.0):
        return self.x - around < x < self.x + self.width + around and self.y - around < y < self.y + self.height + around


def points_of(path):
    """The points of a path, at most one unit from each other."""
    points = []
    for command, words in re.findall(r"([A-Za-z])([^A-Za-z]*)", path):
        numbers = [float(word) for word in words.split()]
        ends = list(zip(numbers[::2], numbers[1::2]))
        if (command, len(ends)) not in (("M", 1), ("L", 1), ("Q", 2)):
            sys.exit(f"tests/pictures: a line with the command {command}{words}")
        if command == "M":
            points.append(ends[0])
            continue
        (a, b), (c, d), (e, f) = points[-1], ends[0], ends[-1]
        steps = 1 + int(abs(c - a) + abs(d - b) + abs(e - c) + abs(f - d))
        for step in range(1, steps + 1):
            at = step / steps
            first, last = ((1 - at) ** 2, at ** 2) if command == "Q" else (1 - at, at)
            middle = 1 - first - last
            points.append((first * a + middle * c + last * e, first * b + middle * d + last * f))
    return points


def fault_of(boxes, lines):
    """What is wrong with the lines, or None; and the pairs of names that they lead from and to."""
    ends, edges = [], set()
    for shape in lines:
        points = points_of(shape.get("d"))
        (x, y), (to_x, to_y) = points[0], points[-1]
        users = [box for box in boxes if box.has(x, y - 1) and not box.has(x, y + 1)]
        useds = [box for box in boxes if box.has(to_x, to_y + 1) and not box.has(to_x, to_y - 1)]
        if len(users) != 1 or len(useds) != 1:
            return f"the line {shape.get('d')} does not go from a foot to a head", edges
        user, used = users[0], useds[0]
        edges.add((user.name, used.name))
        named = f"the line from '{user.name}' to '{used.name}'"
        if shape.get("stroke") != user.stroke:
            return f"{named} has another colour than '{user.name}'", edges
        for box in boxes:
            around = -1 if box in (user, used) else APART
            if any(box.has(*point, around) for point in points):
                return f"{named} crosses '{box.name}'", edges
        for x, y in (points[0], points[-1]):
            if any(abs(x - other) < APART and abs(y - beside) < APART for other, beside in ends):
                return f"{named} ends where another does", edges
            ends.append((x, y))
    return None, edges


def used_by_subject(file):
    """What each subject of crates.txt uses, by the crates that it names."""
    uses, home, subject, fresh = {}, {}, None, False
    for line in open(file, encoding="utf-8").read().splitlines()[1:]:
        if line.startswith("#") and fresh:
            subject, fresh = re.split("[.:]", line[1:])[0].strip(), False
            uses[subject] = set()
        elif line and not line.startswith("#"):
            name, words = line.split(":")
            home[name.split()[0]] = subject  # a static library is marked so after its name
            uses[subject] |= {home[word] for word in words.split() if word in home} - {subject}
        fresh = fresh or not line
    return uses


def all_below(uses):
    below = {}
    for name in uses:  # crates.txt goes from the bottom up
        below[name] = set(uses[name]).union(*(below[used] for used in uses[name]))
    return below


def main():
    picture, crates = sys.argv[1:]
    shapes = list(tree.parse(picture).getroot())
    boxes = [Box(shape) for shape in shapes if shape.tag == SVG + "rect" and shape.get("rx")]
    for shape in shapes:
        if shape.tag == SVG + "text" and shape.get("font-weight") == "bold":
            for box in boxes:
                if box.has(float(shape.get("x")), float(shape.get("y"))):
                    box.name = shape.text
    fault, edges = fault_of(boxes, [shape for shape in shapes if shape.tag == SVG + "path"])
    uses = used_by_subject(crates)
    drawn = {name: {used for user, used in edges if user == name} for name in uses}
    if fault is None and len({box.stroke for box in boxes}) < len(boxes):
        fault = "two boxes have one colour"
    if fault is None and {box.name for box in boxes} != set(uses):
        fault = "the boxes are not the subjects of crates.txt"
    if fault is None and (any(drawn[name] - uses[name] for name in uses) or all_below(drawn) != all_below(uses)):
        fault = "the lines do not say what crates.txt says"
    if fault is not None:
        sys.exit(f"tests/pictures: {picture}: {fault}")


main()
