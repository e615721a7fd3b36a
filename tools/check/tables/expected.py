"""Writes what the five data files in a folder say of each character: a line for each character at which it changes."""
import re
import sys
from pathlib import Path

LONG = {
    "DerivedBidiClass": dict(
        pair.split()[::-1]
        for pair in (
            "L Left_To_Right,R Right_To_Left,AL Arabic_Letter,EN European_Number,ES European_Separator,"
            "ET European_Terminator,AN Arabic_Number,CS Common_Separator,NSM Nonspacing_Mark,"
            "BN Boundary_Neutral,B Paragraph_Separator,S Segment_Separator,WS White_Space,ON Other_Neutral,"
            "LRE Left_To_Right_Embedding,LRO Left_To_Right_Override,RLE Right_To_Left_Embedding,"
            "RLO Right_To_Left_Override,PDF Pop_Directional_Format,LRI Left_To_Right_Isolate,"
            "RLI Right_To_Left_Isolate,FSI First_Strong_Isolate,PDI Pop_Directional_Isolate"
        ).split(",")
    ),
    "LineBreak": {"Unknown": "XX", "Ideographic": "ID", "Prefix_Numeric": "PR"},
    "EastAsianWidth": {
        "Ambiguous": "A", "Fullwidth": "F", "Halfwidth": "H", "Neutral": "N", "Narrow": "Na", "Wide": "W",
    },
}
MISSING = re.compile(r"#[ \t\r]*@missing:[ \t]*([0-9A-Fa-f]{4,6})\.\.([0-9A-Fa-f]{4,6})[ \t]*;[ \t]*(\w+)[ \t\r]*$")


def lines(folder, name):
    return (Path(folder) / f"{name}.txt").read_text(encoding="utf-8").split("\n")


def rows(folder, name):
    for line in lines(folder, name):
        text = line.split("#")[0].strip()
        if text:
            yield [field.strip() for field in text.split(";")]


def classes(folder, name, default):
    """The value of each code point: defaults first, then data lines, later ones over earlier ones."""
    values = [default] * 0x110000
    for line in lines(folder, name):
        found = MISSING.search(line)
        if found:
            first, last = int(found[1], 16), int(found[2], 16)
            values[first : last + 1] = [LONG[name].get(found[3], found[3])] * (last + 1 - first)
    for codes, value, *_ in rows(folder, name):
        first, _, last = codes.partition("..")
        first, last = int(first, 16), int(last or first, 16)
        values[first : last + 1] = [value] * (last + 1 - first)
    return values


def main():
    folder = sys.argv[1]
    bidi = classes(folder, "DerivedBidiClass", "L")
    lb = classes(folder, "LineBreak", "XX")
    ea = classes(folder, "EastAsianWidth", "N")
    bracket = {int(row[0], 16): f"{row[2]}{int(row[1], 16):X}" for row in rows(folder, "BidiBrackets")}
    mirror = {int(row[0], 16): int(row[1], 16) for row in rows(folder, "BidiMirroring")}
    before = None
    for c in range(0x110000):
        if 0xD800 <= c <= 0xDFFF:
            continue
        values = (
            f"{bidi[c].capitalize()};{bracket.get(c, '-0')};{mirror.get(c, 0):X}"
            f";{lb[c].capitalize()};{ea[c].capitalize()}"
        )
        if values != before:
            print(f"{c:X};{values}")
        before = values


if __name__ == "__main__":
    main()
