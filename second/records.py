"""The format of the program `batch` (docs/PROGRAMS.md): what is asked, and what must be told. Shared by second/compare and tools/batch.py."""
import glob
import os
from typing import NamedTuple

import listing
import reader
import summary

REQUESTS = os.path.join(os.path.dirname(os.path.dirname(os.path.abspath(__file__))), "tests", "requests")

LONGEST = 1_048_576  # bytes of a text, of a second text and of a room
MOST_OPEN = 64  # records lent for open calls
MOST_WORDS = 1_048_576  # lent for bodies
MOST_CHAIN = 32  # calls open at once
LARGEST = 4_294_967_295  # that four bytes hold; as the number of words: as many as the texts have bytes, which always suffice

FLATTEN, LIST, SUMMARISE = 0, 2, 3
FLATTENED, LISTED, SUMMARISED = range(9, 9 + MOST_CHAIN + 1), range(3, 4), range(11, 12)  # how many fields the line of each may have
TO_COME = (1, 4, 5, 6, 7, 8, 9)  # tasks whose requests have not landed


def head(task, text, second=0, room=0, words=LARGEST, records=MOST_OPEN, argument=0):
    """The seven numbers that a record begins with; the texts by their lengths."""
    return b"".join(n.to_bytes(4, "little") for n in (task, text, second, room, words, records, argument))


def record(task, text, room=0, second=b"", **others):
    return head(task, len(text), len(second), room, **others) + text + second


def line(*fields):
    return b"\t".join(b"%d" % n for n in fields) + b"\n"


def flattened(answer):
    """What is told of a text. Each place of the chain is a field."""
    return line(*answer[:9], *answer.chain) + answer.flat


def listed(lines):
    return line(0, 0, len(lines)) + lines


def summarised(found):
    """What is told of a symbol: the length is that of its first layer's name."""
    return line(found.number, found.place, len(found.first), *found[2:10]) + found.first


NOTHING = line(0, 0, 0)


def told(task, text, room, words=LARGEST, argument=0):
    """What the second opinion tells. To the list and the summary enough words are lent, whatever the number says."""
    if task == FLATTEN:
        return flattened(reader.flatten(text, room, None if words == LARGEST else words))
    if task == SUMMARISE:
        return summarised(summary.summarise(text, argument))
    return listed(listing.listing(text)) if task == LIST else NOTHING


class Written(NamedTuple):
    """A record with what must be told of it, as it is written in tests/requests."""
    label: str
    task: int
    room: int
    words: int
    argument: int
    text: bytes
    record: bytes
    told: bytes


def written():
    """All of them. Fields: name, task, room, words, records, argument, text and second text in hex, the line with spaces for its tabs, the bytes in hex."""
    for path in sorted(glob.glob(os.path.join(REQUESTS, "*.tsv"))):
        for at, row in enumerate(open(path, encoding="utf-8"), 1):
            if not row.startswith("#"):
                name, *numbers, text, second, fields, found = row.rstrip("\n").split("\t")
                task, room, words, lent, argument = map(int, numbers)
                text, second = bytes.fromhex(text), bytes.fromhex(second)
                asked = record(task, text, room, second, words=words, records=lent, argument=argument)
                label = "%s:%d (%s)" % (os.path.basename(path), at, name)
                yield Written(label, task, room, words, argument, text, asked, line(*map(int, fields.split(" "))) + bytes.fromhex(found))


def parted(said, fields):
    """What was said, split into answers: fields of a line that may have any of these numbers of fields, and the bytes after it; the rest that is none."""
    at, out = 0, []
    while True:
        end = said.find(b"\n", at)
        given = said[at:end].split(b"\t")
        if end < 0 or len(given) not in fields or not all(f.isdigit() and (f == b"0" or f[:1] != b"0") for f in given):
            return out, said[at:]
        after = end + 1 + int(given[2])
        if after > len(said):
            return out, said[at:]
        out.append(([int(f) for f in given], said[end + 1:after]))
        at = after
