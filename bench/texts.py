"""Texts that benchmarks lay out, each made from one fixed seed."""

import random

SEED = 35
SCRIPTS = {
    "latin": ["etaoinshrdlucmfwypvbgk"] * 3 + ["éüñçø"],
    "hebrew": ["".join(map(chr, range(0x05D0, 0x05EB)))] * 4,
    "arabic": ["".join(map(chr, range(0x0627, 0x063B)))] * 4,
    "wide": ["".join(map(chr, range(0x4E00, 0x4E40)))] * 4,
}
MARKS = {"latin": "\u0301", "hebrew": "\u05B4\u05B7\u05BC", "arabic": "\u064E\u0651", "wide": ""}


def letters(draw, script):
    made = [draw.choice(draw.choice(SCRIPTS[script])) for _ in range(draw.randint(2, 9))]
    if MARKS[script] and draw.random() < 0.2:
        made.insert(draw.randint(1, len(made)), draw.choice(MARKS[script]))
    return "".join(made)


def word(draw, main):
    other = lambda: " ".join(letters(draw, draw.choice(["latin", "hebrew", "arabic"])) for _ in range(draw.randint(1, 3)))
    kind = draw.randrange(100)
    if kind < 80:
        return letters(draw, main)
    if kind < 86:
        return letters(draw, draw.choice(sorted(SCRIPTS)))
    if kind < 93:
        return draw.choice(["", "$", "-"]) + str(draw.randrange(10_000)) + draw.choice(["", "%", ",5", "/7"])
    if kind < 96:
        return draw.choice("([{").translate({ord(c): c + other() + d for c, d in ("()", "[]", "{}")})
    if kind < 98:
        return draw.choice("\u2066\u2067\u2068") + other() + "\u2069"
    return draw.choice("\u202A\u202B\u202D\u202E") + other() + "\u202C" if kind == 98 else letters(draw, main) + "\u00A0"


def span(first, last):
    return "".join(map(chr, range(first, last + 1)))


# Texts of one kind: the letters of their words, what may follow a letter and how often of 100 it does, and what is
# between words.
KINDS = {
    "plain Latin": ("etaoinshrdlucmfwypvbgk", "", 0, " "),
    "Hebrew with points": (span(0x05D0, 0x05EA), "\u05B4\u05B6\u05B7\u05B8\u05BC", 80, " "),
    "Arabic, vowelled": (span(0x0627, 0x063A) + span(0x0641, 0x064A), "\u064B\u064E\u064F\u0650\u0651\u0652", 80, " "),
    "Chinese": (span(0x4E00, 0x51FF), "", 0, ""),
    "Devanagari": (span(0x0915, 0x0939), "\u093E\u093F\u0940\u0941\u0947\u094B\u0902\u094D", 60, " "),
}
POINTS = {"Chinese": ["\u3002", "\uFF0C", "\u300C", "\u300D"], "Devanagari": ["\u0964", ",", "-", "; 12"]}
CODE = ["let {} = {}({}, {});", "if {} < {}.{}() {{", "}}", "for {} in &{}[{}..] {{", "{}.{}({})?; // {} {}", '{} => "{}"']


def of_kind(kind, size):
    """Paragraphs of 40 to 400 code points, of about `size` code points together."""
    draw = random.Random(SEED)
    letters_of, behind, often, between = KINDS[kind]
    ends = ["", "", "", *POINTS.get(kind, [",", ".", "-", "; 12"])]
    letter = lambda: draw.choice(letters_of) + (draw.choice(behind) if draw.randrange(100) < often else "")
    made, length = [], 0
    while length < size:
        wanted, words = draw.randint(40, 400), []
        while sum(map(len, words)) < wanted:
            words.append("".join(letter() for _ in range(draw.randint(2, 9))) + draw.choice(ends) + between)
        made.append("".join(words).rstrip() + "\n")
        length += len(made[-1])
    return "".join(made)


def source_code(size):
    """Lines of code, each with up to four tabs before it."""
    draw = random.Random(SEED)
    part = lambda: "".join(draw.choice(KINDS["plain Latin"][0]) for _ in range(draw.randint(2, 7)))
    name = lambda: "_".join(part() for _ in range(draw.randint(1, 2)))
    made, length = [], 0
    while length < size:
        made.append("\t" * draw.randrange(5) + draw.choice(CODE).format(*(name() for _ in range(5))) + "\n")
        length += len(made[-1])
    return "".join(made)


def text(size):
    """Paragraphs of about `size` bytes together."""
    draw = random.Random(SEED)
    made, length = [], 0
    while length < size:
        main, wanted, line = draw.choice(["latin", "hebrew", "arabic"]), draw.randint(20, 400), ""
        while len(line) < wanted:
            line += word(draw, main) + draw.choice(["", "", "", "", "", ",", ".", "!"]) + " "
        made.append(line[: wanted - 1].rstrip() + "\n")
        length += len(made[-1].encode())
    return "".join(made)
