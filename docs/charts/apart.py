"""apart.py PICTURE..: whether no text of a picture lies over another, or over a bar of a state.

Each text is as wide as the letters of DejaVu Sans Bold, the widest font that a picture names, and as high as its
capital letters; numbers in rings are left out. Prints each two that are not apart."""

import re
import sys
import xml.etree.ElementTree
from collections import namedtuple

SVG = "{http://www.w3.org/2000/svg}"
# from the space to `~`, in hundredths of the font's size
WIDTHS = [
    35, 46, 52, 84, 70, 100, 87, 31, 46, 46, 52, 84, 38, 42, 38, 37, 70, 70, 70, 70, 70, 70, 70, 70, 70, 70, 40, 40,
    84, 84, 84, 58, 100, 77, 76, 73, 83, 68, 68, 82, 84, 37, 37, 77, 64, 100, 84, 85, 73, 85, 77, 72, 68, 81, 77, 110,
    77, 72, 73, 46, 37, 46, 84, 50, 50, 67, 72, 59, 72, 68, 44, 72, 71, 34, 34, 67, 34, 104, 71, 69, 72, 72, 49, 60,
    48, 71, 65, 92, 65, 65, 58, 71, 37, 71, 84,
]
MONO = 60
# those that name no size of their own
SIZES = {"title": 19, "mono": 10, "what": 10, "kind": 10, "value": 10, "hertz": 10, "count": 10, "sign": 11}
MIDDLE, END = {"who", "what", "again"}, {"line", "end"}

Box = namedtuple("Box", "left right top bottom words")


def width_of(text, size, is_mono):
    letters = (MONO if is_mono else WIDTHS[ord(c) - 32] if " " <= c <= "~" else 84 for c in text)
    return sum(letters) * size / 100


def length_of(element, size, is_mono):
    """How far a text goes: its letters, and what is left free before each part."""
    length = width_of(element.text or "", size, is_mono)
    for part in element:
        length += float(part.get("dx", 0)) + length_of(part, size, is_mono) + width_of(part.tail or "", size, is_mono)
    return length


def box_of(text, group, at):
    """The box of a text in a group of this class, whose corner is at a point."""
    classes = set(text.get("class", "").split())
    size = text.get("font-size") or next((SIZES[name] for name in classes if name in SIZES), 12)
    if "dropped" in group:
        size = 10
    size = 10.5 if "legend" in group else float(size)
    length = length_of(text, size, "mono" in classes)
    left = at[0] + float(text.get("x", 0)) + float(text.get("dx", 0))
    is_middle = ("mark" in group and "legend" not in group and not classes & {"note", "end"}) or classes & MIDDLE
    if classes & END:
        left -= length
    elif is_middle and "left" not in classes:
        left -= length / 2
    base = at[1] + float(text.get("y", 0)) + float(text.get("dy", 0))
    return Box(left, left + length, base - 0.73 * size, base, "".join(text.itertext()))


def bar_of(bar):
    x, y, width, height = (float(bar.get(name)) for name in ("x", "y", "width", "height"))
    return Box(x, x + width, y, y + height, "a bar")


def boxes_of(element, group=frozenset(), at=(0, 0)):
    """The boxes of the texts below an element, and those of the bars of states."""
    texts, bars = [], []
    for child in element:
        classes = set(child.get("class", "").split())
        if child.tag == f"{SVG}text" and not classes & {"in", "number"}:
            texts.append(box_of(child, group, at))
        elif child.tag == f"{SVG}rect" and classes & {"on", "rate", "queue", "held", "pill"}:
            bars.append(bar_of(child))
        elif child.tag in (f"{SVG}g", f"{SVG}svg"):
            corner = at[0] + float(child.get("x", 0)), at[1] + float(child.get("y", 0))
            within = boxes_of(child, group | classes, corner)
            texts += within[0]
            bars += within[1]
    return texts, bars


def lie_over(one, other):
    return (
        min(one.right, other.right) - max(one.left, other.left) > 0.5
        and min(one.bottom, other.bottom) - max(one.top, other.top) > 0.5
    )


def faults_of(picture):
    texts, bars = boxes_of(xml.etree.ElementTree.parse(picture).getroot())
    for number, one in enumerate(texts):
        for other in texts[number + 1 :]:
            if lie_over(one, other):
                yield one, other
        for bar in bars:
            if lie_over(one, bar) and not (bar.left <= one.left and one.right <= bar.right and bar.bottom - bar.top == 23):
                yield one, bar


failed = 0
for picture in sys.argv[1:]:
    for one, other in faults_of(picture):
        failed += 1
        print(f"{picture}: {one.words!r} at {one.left:.0f},{one.bottom:.0f} lies over {other.words!r} at {other.left:.0f},{other.bottom:.0f}")
sys.exit(failed > 0)
