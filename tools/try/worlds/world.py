"""A world of desks by the definitions alone: random steps, and what must come of them.

A desk's set has insertions, by identifier (counter, site), and deletions. The walk from a place reads, for each
child of it in falling order of identifier, the child and then the walk from it; the text is the characters of the
walk from the root whose identifiers are not deleted.

A call that takes something tells how the text changes. What it tells is followed over identifiers: each element that
is visible after the call and was not before is put once, each that was and no longer is is cut once, and no other; and
the place told is the number of elements present at that moment that stand before it in the walk after the call. Each
character is typed once, so that it tells its element.

Usage: world.py steps SEED STEPS DESKS    writes a file of random steps
       world.py judge FILE FOUND          compares what was found with what the definitions say
"""

import random
import sys

ROOT = (0, 0)
LIMIT = 1_000_000


class Desk:
    def __init__(self, site):
        self.site = site
        self.ins = {}
        self.dels = set()

    def size(self):
        return len(self.ins) + len(self.dels)

    def next(self):
        counters = [0] + [t[0] for t in self.dels]
        for id, (parent, _) in self.ins.items():
            counters += [id[0], parent[0]]
        return 1 + max(counters)

    def walk(self):
        below = {}
        for id, (parent, _) in self.ins.items():
            below.setdefault(parent, []).append(id)
        ids, todo = [], sorted(below.get(ROOT, []))
        while todo:
            id = todo.pop()
            ids.append(id)
            todo += sorted(below.get(id, []))
        return ids

    def visible(self):
        return [id for id in self.walk() if id not in self.dels]

    def text(self):
        return "".join(chr(self.ins[id][1]) for id in self.visible())

    def holds(self, op):
        return op[1] in self.dels if op[0] == "erase" else self.ins.get(op[1]) == op[2]

    def reuses(self, op):
        return op[0] == "insert" and op[1] in self.ins and self.ins[op[1]] != op[2]

    def add(self, op):
        if op[0] == "erase":
            self.dels.add(op[1])
        else:
            self.ins[op[1]] = op[2]

    def operations(self):
        return [("insert", id, node) for id, node in self.ins.items()] + [("erase", id) for id in self.dels]


class World:
    def __init__(self, sites):
        self.desks = [Desk(site) for site in sites]
        self.made = []

    def take(self, desk, op):
        if desk.reuses(op):
            return "refused 1"
        if not desk.holds(op) and desk.size() >= LIMIT:
            return "refused 2"
        desk.add(op)
        return "done"

    def make(self, desk, op):
        reply = self.take(desk, op)
        if reply == "done":
            self.made.append(op)
        return reply

    def do(self, kind, d, at, ch=None):
        if d >= len(self.desks):
            return "no such"
        desk = self.desks[d]
        if kind == 0:
            visible = desk.visible()
            if at > len(visible):
                return "no such"
            parent = visible[at - 1] if at else ROOT
            if desk.next() >= 2**32:
                return "refused 1"
            return self.make(desk, ("insert", (desk.next(), desk.site), (parent, ch)))
        if kind == 1:
            visible = desk.visible()
            return self.make(desk, ("erase", visible[at])) if at < len(visible) else "no such"
        if kind == 2:
            return self.take(desk, self.made[at]) if at < len(self.made) else "no such"
        if at >= len(self.desks):
            return "no such"
        replies = [self.take(desk, op) for op in self.desks[at].operations()]
        return next((reply for reply in replies if reply != "done"), "done")


def typed_character(number):
    """The character that is typed in this step: the ideographs of plane 2 one after the other."""
    return 0x20000 + number % 0xA000


def one_step(draw, world, number):
    desks = len(world.desks)
    d = draw.randrange(desks) if draw.random() > 0.02 else desks
    shown = len(world.desks[d].visible()) if d < desks else 3
    kind = draw.choices((0, 1, 2, 3), (45, 15, 35, 5))[0]
    if kind == 0:
        return (0, d, draw.randrange(shown + 1) + (draw.random() < 0.03), typed_character(number))
    if kind == 1:
        return (1, d, draw.randrange(shown + 1))
    if kind == 2:
        return (2, d, draw.randrange(len(world.made) + 1))
    return (3, d, draw.randrange(desks + (draw.random() < 0.1)))


def steps(seed, count, desks):
    draw = random.Random(seed)
    sites = draw.sample(range(1, 65536), desks)
    world = World(sites)
    print(*sites)
    for number in range(count):
        step = one_step(draw, world, number)
        world.do(*step)
        print(*step)


def line_of(op):
    if op[0] == "erase":
        return f"erase {op[1][0]} {op[1][1]}"
    return f"insert {op[1][0]} {op[1][1]} {op[2][0][0]} {op[2][0][1]} {op[2][1]}"


def changes_of(line):
    """The changes of a line `told put PLACE CHARACTER cut PLACE ..`."""
    words = iter(line.split()[1:])
    for word in words:
        yield (word, int(next(words)), int(next(words)) if word == "put" else None)


def put(present, to_put, rank, place, ch):
    """Whether an element of this character is put, at the place of its identifier."""
    id = to_put.pop(ch, None)
    if id is None or place != sum(rank[other] < rank[id] for other in present):
        return False
    present.insert(place, id)
    return True


def cut(present, to_cut, place):
    """Whether an element that is to be cut stands at the place, and is cut."""
    if place >= len(present) or present[place] not in to_cut:
        return False
    to_cut.remove(present.pop(place))
    return True


def is_told(before, desk, line):
    """Whether the changes of a line lead from the elements visible before to those of the desk, each at its place."""
    walk = desk.walk()
    rank = {id: number for number, id in enumerate(walk)}
    after = [id for id in walk if id not in desk.dels]
    present, to_cut = list(before), set(before) - set(after)
    to_put = {desk.ins[id][1]: id for id in set(after) - set(before)}
    for kind, place, ch in changes_of(line):
        if not (put(present, to_put, rank, place, ch) if kind == "put" else cut(present, to_cut, place)):
            return False
    return not to_put and not to_cut and present == after


def judge_told(lines, found):
    """Compares what each step told, a line a step, with the elements of the desk before and after it."""
    world = World([int(word) for word in lines[0].split()])
    steps = [[int(word) for word in line.split()] for line in lines[1:]]
    if len(found) != len(steps):
        sys.exit(f"{len(found)} steps told something, wanted {len(steps)}")
    changes = 0
    for number, (step, line) in enumerate(zip(steps, found)):
        desk = world.desks[step[1]] if step[1] < len(world.desks) else None
        before = desk.visible() if desk and step[0] >= 2 else []
        world.do(*step)
        if not (is_told(before, desk, line) if desk and step[0] >= 2 else line == "told"):
            sys.exit(f"step {number + 1}, {step}, told {line[5:]!r}")
        changes += sum(1 for _ in changes_of(line))
    return changes


def wanted(lines):
    world = World([int(word) for word in lines[0].split()])
    replies = [world.do(*(int(word) for word in line.split())) for line in lines[1:]]
    desks = [(f"desk {d.size()} {d.text()}", sorted(map(line_of, d.operations()))) for d in world.desks]
    return replies + [line_of(op) for op in world.made], desks


def judge(steps_file, found_file):
    lines = open(steps_file, encoding="utf-8").read().splitlines()
    head, desks = wanted(lines)
    found = open(found_file, encoding="utf-8").read().splitlines()
    if found[: len(head)] != head:
        at = next(n for n, line in enumerate(head) if n >= len(found) or found[n] != line)
        sys.exit(f"line {at + 1}: found {found[at:at + 1]}, wanted {head[at]!r}")
    at = len(head)
    for number, (line, ops) in enumerate(desks):
        here = found[at : at + 1 + len(ops)]
        if here[:1] != [line] or sorted(here[1:]) != ops:
            sys.exit(f"desk {number} differs")
        at += 1 + len(ops)
    changes = judge_told(lines, found[at:])
    print(f"{len(head)} replies and operations, {changes} told changes and {len(desks)} desks agree")


if __name__ == "__main__":
    if sys.argv[1] == "steps":
        steps(*(int(word) for word in sys.argv[2:5]))
    else:
        judge(sys.argv[2], sys.argv[3])
