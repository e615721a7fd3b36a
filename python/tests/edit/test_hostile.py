"""Messages that chance has spoiled: each is taken, or reported and left out, and what is sound still comes."""

import random
from pathlib import Path

from bidigrid import Document
from bidigrid.edit.channel import Message
from bidigrid.edit.frames import gathered, last_identifier
from desks import desk_at

TURNS = 3000


def spoiled(chance: random.Random, message: bytes, other: bytes) -> bytes:
    """A message with some bytes changed, cut, or put in."""
    made = bytearray(message)
    for _ in range(chance.randint(0, 4)):
        kind = chance.random()
        if kind < 0.5 and made:
            made[chance.randrange(len(made))] = chance.choice([0, 1, 2, 3, 255, chance.randrange(256)])
        elif kind < 0.7:
            del made[chance.randrange(len(made) + 1) :]
        else:
            made[5:5] = other[5:24]
    return bytes(made)


def test_spoiled_messages_are_told_and_left_out(tmp_path: Path) -> None:
    chance = random.Random(71)
    desk, other = desk_at(tmp_path / "notes.bgop", site=1), Document(2)
    messages = [other.type(chance.randint(0, len(other)), "ab" * chance.randint(1, 5)) for _ in range(50)]
    messages += [gathered(message[5:]) for message in messages] + [other.erase(1, 9)]
    told: set[str] = set()
    for _ in range(TURNS):
        desk.notice = ""
        message = spoiled(chance, chance.choice(messages), chance.choice(messages))
        desk.take(Message("a stranger", message))
        last_identifier(message)
        assert not desk.notice or (desk.notice.startswith("a stranger: ") and desk.notice.endswith("left out"))
        told.update(desk.notice.split(" ")[2:3])
    assert {"201", "301", "302", "303", "304", "305", "306", "307", "308"} <= told
    before = len(desk.document)
    third = Document(3)
    desk.take(Message("a friend", third.type(0, "tea")))
    assert len(desk.document) == before + 3
    desk.close()
