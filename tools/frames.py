"""The frames of operation files (docs/FORMATS.md), for the scripts that make such files."""
import struct

HEADER = b"BGOP\x01"
HEADER_2 = b"BGOP\x02"
ROOT = (0, 0)
MOST = 1024  # insertions of a run


def insertion(identifier, parent, scalar):
    """The frame that inserts a scalar value; an identifier is (counter, site), and the root ROOT."""
    return struct.pack(">HBIHIHI", 17, 1, *identifier, *parent, scalar)


def erasure(target):
    """The frame that deletes a target."""
    return struct.pack(">HBIH", 7, 2, *target)


def run(first, further):
    """The frame of version 2 of an insertion's frame and the bytes of the characters that follow."""
    return struct.pack(">HB", 17 + 4 * len(further), 3) + first[3:] + b"".join(further) if further else first


def frames(file):
    """The frames of a file of either version, each of one operation: a run's are its insertions."""
    at = 5
    while at < len(file):
        end = at + 2 + int.from_bytes(file[at : at + 2], "big")
        if file[at + 2] == 3:
            counter, site, *parent = struct.unpack_from(">IHIH", file, at + 3)
            for number, (scalar,) in enumerate(struct.iter_unpack(">I", file[at + 15 : end]), counter):
                yield insertion((number, site), parent, scalar)
                parent = (number, site)
        else:
            yield file[at:end]
        at = end


def gathered(frames):
    """Frames of version 1 as those of version 2: insertions that join the one before are one run."""
    first, further, last = None, [], None
    for frame in frames:
        numbers = struct.unpack(">HBIHIHI", frame) if len(frame) == 19 else None
        if last and numbers and numbers[2:6] == (last[0] + 1, last[1], *last) and len(further) + 1 < MOST:
            further.append(frame[15:])
        else:
            if first:
                yield run(first, further)
            first, further = frame, []
        last = numbers and numbers[2:4]
    if first:
        yield run(first, further)
