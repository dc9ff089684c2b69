#!/usr/bin/env -S python3 -B
"""picture_labels.py FILE.svg..: of each picture its width, its height, how many texts it has, how many pairs of them lie
on each other: labels (names of messages and instances, and the legend), and numbers with anything. Of a picture of mscview
also how many labels are crossed by an arrow that is drawn after them, and how many lie on an arrow that is drawn before them
and isn't their own, that next before them. A picture may be one of mscview, of mscgen or of PlantUML. A text's box is as
wide as its textLength, or else as its characters: 20/3 pixels each of 11 pixels, as mscview places them; digits reach no
lower than their line. Boxes lie on each other where they share more than a pixel in both directions."""
import re
import sys
import xml.etree.ElementTree as trees
from collections import namedtuple

# A text's box, and the number that it says, if it says one; and an arrow, by its ends.
Box = namedtuple("Box", "left top right bottom number")
Line = namedtuple("Line", "x y to_x to_y")
Met = namedtuple("Met", "texts pairs with_numbers crossed lying")

SVG = "{http://www.w3.org/2000/svg}"
ARROW = re.compile(r"M([\d.]+)[ ,]([\d.]+)L([\d.]+)[ ,]([\d.]+)")
SIZES = {"n": 9.0, "e": 9.0, "k": 9.0}
BRACKET_PLACES = 5


def moved(element, at):
    """Where the content of an element begins, by its transform."""
    found = re.match(r"translate\(([-\d.]+),([-\d.]+)\)", element.get("transform", ""))
    return (at[0] + float(found[1]), at[1] + float(found[2])) if found else at


def box_of(element, at, ours):
    """The box of a text, and the number that it says."""
    words = "".join(element.itertext())
    classes = element.get("class", "").split()
    given = re.match(r"[\d.]+", element.get("font-size", ""))
    size = float(given[0]) if given else min([SIZES[c] for c in classes if c in SIZES] or [11.0])
    wide = float(element.get("textLength", 0)) or len(words) * size * 20 / 33
    anchor = element.get("text-anchor")
    if ours and anchor is None:
        anchor = "start" if {"s", "n"} & set(classes) else "end" if "e" in classes else "middle"
    x = at[0] + float(element.get("x", 0)) - {"middle": wide / 2, "end": wide}.get(anchor, 0)
    y = at[1] + float(element.get("y", 0))
    number = int(words) if words.isdigit() else None
    return Box(x, y - 0.75 * size, x + wide, y + (0.2 * size if number is None else 0), number)


def line_of(element, at):
    """An arrow of a picture of mscview, if the element is one."""
    ends = ARROW.fullmatch(element.get("d", "")) if element.get("class") == "m" else None
    if not ends:
        return None
    x, y, to_x, to_y = (float(end) for end in ends.groups())
    return Line(at[0] + x, at[1] + y, at[0] + to_x, at[1] + to_y)


def things_in(element, at, ours):
    """The boxes of all texts in an element, and its lines, as they come."""
    at = moved(element, at)
    if element.tag == SVG + "text":
        box = box_of(element, at, ours)
        return [box] if box.right > box.left else []
    line = line_of(element, at)
    return [thing for child in element for thing in things_in(child, at, ours)] + ([line] if line else [])


def meet(a, b):
    """The boxes lie on each other."""
    return min(a.right, b.right) - max(a.left, b.left) > 1 and min(a.bottom, b.bottom) - max(a.top, b.top) > 1


def share_place(a, b):
    """Both are numbers of brackets that begin in one row, in one of the five places that brackets alternate between."""
    if None in (a.number, b.number) or (a.number - b.number) % BRACKET_PLACES != 0:
        return False
    return (a.top, a.left + a.right) == (b.top, b.left + b.right)


def crosses(line, box):
    """The line goes through the box, by more than a pixel."""
    begin, end = 0.0, 1.0
    for start, way, low, high in ((line.x, line.to_x - line.x, box.left, box.right), (line.y, line.to_y - line.y, box.top, box.bottom)):
        if abs(way) < 1e-9:
            if not low < start < high:
                return False
            continue
        first, last = sorted(((low - start) / way, (high - start) / way))
        begin, end = max(begin, first), min(end, last)
    return (end - begin) * ((line.to_x - line.x) ** 2 + (line.to_y - line.y) ** 2) ** 0.5 > 1


def parts(top, bottom):
    """The parts of a picture, of 32 pixels each, between two heights."""
    return range(int(min(top, bottom) // 32), int(max(top, bottom) // 32) + 1)


def by_height(lines):
    """The lines with their places, by the parts of the picture that they are in."""
    found = {}
    for place, line in lines:
        for part in parts(line.y, line.to_y):
            found.setdefault(part, []).append((place, line))
    return found


def is_level(root):
    """Each arrow of a picture of mscview is level."""
    arrows = [ARROW.fullmatch(path.get("d", "")) for path in root.iter(SVG + "path") if path.get("class") == "m"]
    return all(arrow[2] == arrow[4] for arrow in arrows)


def is_ours(root):
    """The picture is one of mscview."""
    return any("monospace" in (style.text or "") for style in root.iter(SVG + "style"))


def in_picture(root):
    """How many texts a picture has, and how many of them meet."""
    things = things_in(root, (0.0, 0.0), is_ours(root))
    lines = by_height((place, line) for place, line in enumerate(things) if isinstance(line, Line))
    crossed = lying = 0
    own = -1
    for place, thing in enumerate(things):
        if isinstance(thing, Line):
            own = place
        elif thing.number is None:
            near = {line for part in parts(thing.top, thing.bottom) for line in lines.get(part, ())}
            crossed += any(crosses(line, thing) for at, line in near if at > place)
            lying += any(crosses(line, thing) for at, line in near if at < own)
    boxes = sorted((thing for thing in things if isinstance(thing, Box)), key=lambda box: box.top)
    labels = numbers = 0
    for place, box in enumerate(boxes):
        for other in boxes[place + 1:]:
            if other.top > box.bottom:
                break
            if meet(box, other) and not share_place(box, other):
                if box.number is None and other.number is None:
                    labels += 1
                else:
                    numbers += 1
    return Met(len(boxes), labels, numbers, crossed, lying)


def main():
    for path in sys.argv[1:]:
        root = trees.parse(path).getroot()
        wide, tall = (int(float(re.match(r"[\d.]+", root.get(side, "0"))[0])) for side in ("width", "height"))
        met = in_picture(root)
        reported = f"{path}: {wide} x {tall}, {met.texts} texts, {met.pairs} pairs of labels, {met.with_numbers} pairs with a number"
        print(reported + (f", {met.crossed} labels crossed by an arrow, {met.lying} on another's arrow" if is_ours(root) else ""))


if __name__ == "__main__":
    main()
