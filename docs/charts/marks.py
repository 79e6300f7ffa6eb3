"""marks.py SCRIPT OUTPUT PICTURE: whether a picture has each mark that the output of the script's run wants, and
no other. The output is that of ./scmi, whose lines docs/SCRIPTS.md names; the picture is read as XML."""

import sys
import xml.etree.ElementTree
from collections import Counter

SIGN = {
    "command": "sent",
    "withdrawn": "sent",
    "advance idle": "advance",
    "advance refusal": "failed",
    "reply pending": "reply",
}
ANSWERS = ("reply", "error", "released")
HARDWARE_ERROR = 0xFFFFFFF7


def wanted(script, output):
    """The marks that lines want, by their names."""
    marks = Counter()
    lines = [line for line in script if line and not line.startswith("#")]
    steps = lines[lines.index("end") + 1 :]
    for step, line in zip(steps, output):
        marks.update(marks_of(step.split()[0], line.split()))
    return marks


def marks_of(step, words):
    if step == "advance":
        return ["failed" if words[1:] == ["failed", "yes"] else "advance"]
    if step == "restart":
        return ["restart"]
    if step == "report":
        return ["remark"] if words[1] == "yes" else []
    if step in ("serve", "flush", "shut"):
        done = {"done": "execution", "posted": "posted", "ok": "closed"}
        return [done.get(words[2], "remark")]
    if words[1] == "post":
        return ["refused"]
    if step in ("call", "raw", "bad"):
        return ["sent"]
    if step == "p2a":
        if words[2] == "none":
            return ["remark"]
        return ["notification" if int(words[2], 16) >> 8 & 3 == 3 else "delayed"]
    if step == "close":
        return ["closed" if words[2] in ("idle", "withdrawn") else "remark"]
    # what remains is a collect, a do or a fail
    marks = []
    if step in ("do", "fail"):
        marks = ["sent", "execution"] if words[1] in ANSWERS else ["sent"]
    if words[1] not in ANSWERS:
        return marks + ["remark"]
    status = int(words[3], 16) if words[1] == "reply" else None
    if step == "fail" and status == HARDWARE_ERROR:
        marks.append("fault")
    return marks + ["reply" if status == 0 else "reply refusal"]


def found(picture):
    """The marks of a picture, by their names; those of dropped notifications are no lines' marks."""
    marks = Counter()
    for group in xml.etree.ElementTree.parse(picture).iter("{http://www.w3.org/2000/svg}g"):
        name = group.get("class").removeprefix("mark ")
        if name != "dropped":
            marks[SIGN.get(name, name)] += 1
    return marks


def main(script, output, picture):
    with open(script) as scripts, open(output) as outputs:
        want = wanted(scripts.read().split("\n")[1:], outputs.read().split("\n"))
    have = found(picture)
    if want != have:
        print(f"{script}: wanted {dict(want)}, and the picture has {dict(have)}")
    return want == have


sys.exit(0 if main(*sys.argv[1:]) else 1)
