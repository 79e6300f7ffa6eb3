"""dropped.py PICTURE: prints how many notifications the picture shows as dropped, by the words of their marks."""

import sys
import xml.etree.ElementTree

SVG = "{http://www.w3.org/2000/svg}"


def count_of(words):
    """`dropped` is one, `2 dropped` two."""
    first = words.split()[0]
    return 1 if first == "dropped" else int(first)


groups = xml.etree.ElementTree.parse(sys.argv[1]).iter(f"{SVG}g")
print(sum(count_of(group.find(f"{SVG}text").text) for group in groups if group.get("class") == "dropped"))
