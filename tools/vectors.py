#!/usr/bin/env python3
"""Makes rows of test vectors: tools/vectors.py [FILE], run at the top of the repository; FILE is tests/base.tsv if left out.

FILE has one vector a line, fields separated by tabs: name, size of the room, the text in hex, number, place, length, shapes, calls,
redefinitions, rounded distances, line, column, the places of the chain parted by spaces, the flat file in hex; a line that begins with # is passed over. Of a file of tests/requests, which has
records of `batch`, those of task 0 are taken, and of those that ask what is in a symbol (task 3) the ones that compute in a reasonable time: the definition goes
into a symbol at every call of it. Of p07.tsv those are taken that ask the engine that is lent records (task 1), if 21 or nothing refuses them or a call or a
shape does, and short ones: the others compute what rows of other files do. Of p11.tsv those are taken that ask why a shape is there (task 7), and short ones. This writes crates/vectors/proofs/Base.antt (P02.antt of p02.tsv, and so on), where each is
a row that is proved by computing: the definitions are held to answers that were worked out apart from them. A text with rounded distances
is a row `rounded_in`, with their number before the flat file; all others have none. A refusal on a later line is `on_line`, one under calls
`in_calls`, one where so many records are lent `with`. A symbol that is told of is a row `tells`, a text refused there `refuses`; a shape
that is told of is a row `shown`, a text refused there `not_shown`, and `none_there` where it has no shape with that count. `rt fmt` after it.
"""
import os
import sys

sys.dont_write_bytecode = True
sys.path.append(os.path.join(os.path.dirname(os.path.dirname(os.path.abspath(__file__))), "second"))
import reader  # noqa: E402
import summary  # noqa: E402

SOURCE = sys.argv[1] if len(sys.argv) > 1 else "tests/base.tsv"
OUT = "crates/vectors/proofs/%s.antt" % os.path.basename(SOURCE)[:-len(".tsv")].capitalize()
ROW_KINDS = ("accepted_in", "rounded_in", "refused_in", "on_line", "in_calls")
BATCH = 20  # rows of one proof: where one does not compute, its batch is named
HEAD = f"""-- The vectors of {SOURCE}, made into rows by tools/vectors.py: answers that were worked out apart from the definitions.
-- A trailing comment is the vector's name. They stand in batches, so that a row that does not compute is found.
-- Assumes nothing.
use mathlib.Core.List.{{List, [], ◌∷◌}}
use Rattle.definition.proofs.Rows.{{Row, %s, Holds, Each, all_hold, each}}
"""
TOLD_HEAD = f"""-- The vectors of {SOURCE} that ask what is in a symbol, made into rows by tools/vectors.py: answers that were worked out apart from the definitions.
-- A trailing comment is the vector's name. They stand in batches, so that a row that does not compute is found.
-- Assumes nothing.
use mathlib.Core.List.{{List, [], ◌∷◌}}
use Rattle.definition.proofs.Rows.{{Each}}
use Rattle.definition.proofs.Summaries.{{Asked, tells, refuses, AsSaid, all_told, each_told}}
"""
RECORDED_HEAD = f"""-- The vectors of {SOURCE} that lend records, made into rows by tools/vectors.py: answers that were worked out apart from the definitions.
-- A trailing comment is the vector's name. They stand in batches, so that a row that does not compute is found.
-- Assumes nothing.
use mathlib.Core.List.{{List, [], ◌∷◌}}
use Rattle.definition.proofs.Rows.{{Each, %s}}
use Rattle.definition.proofs.Recorded.{{Recorded, with, HoldsWith, all_recorded, each_recorded}}
"""
SHOWN_HEAD = f"""-- The vectors of {SOURCE} that ask why a shape is there, made into rows by tools/vectors.py: answers that were worked out apart from the definitions.
-- A trailing comment is the vector's name. They stand in batches, so that a row that does not compute is found.
-- Assumes nothing.
use mathlib.Core.List.{{List, [], ◌∷◌}}
use Rattle.definition.proofs.Rows.{{Each}}
use Rattle.definition.proofs.Whys.{{Pointed, shown, not_shown, none_there, Shown, all_shown, each_shown}}
"""
MOST_RECORDED = 300  # bytes of a text with records
MOST_POINTED = 300  # bytes of a text whose shapes are asked about
MOST_WALKED, MOST_BYTES = 300, 800  # calls that the definition goes into, and bytes of a text, for a symbol that is told of


def quoted(data):
    named = {ord('"'): '\\"', ord("\\"): "\\\\", 10: "\\n"}
    return '"' + "".join(named.get(c) or (chr(c) if 32 <= c < 127 else "\\u{%x}" % c) for c in data) + '"'


def flattened(fields):
    """The fields of a vector, from those of a record that asks for a flat file."""
    name, _, room, _, _, _, text, _, told, flat = fields
    told = told.split(" ")
    return [name, room, text, *told[:9], " ".join(told[9:]), flat]


def vectors(file):
    """The fields of each vector."""
    for line in file:
        fields = line.rstrip("\n").split("\t")
        if line.startswith("#"):
            continue
        if os.path.basename(os.path.dirname(SOURCE)) not in ("requests", "coming"):
            yield fields
        elif fields[1] == "0":
            yield flattened(fields)


def refused(room, text, number, place, line, column, chain):
    """A refusal stands on line 1 and in no call, unless it is said otherwise."""
    said = f"refused_in {room} {quoted(text)} {number} {place}"
    if (line, column) != ("1", str(int(place) + 1)):
        said = f"on_line {line} {column} ({said})"
    return f"in_calls {listed_places(chain.split(' '))} ({said})" if chain else said


def listed_places(chain):
    return "(%s)" % " ∷ ".join([*chain, "[]"]) if chain else "[]"


def row(fields):
    name, room, text, number, place, length, shapes, calls, again, rounded, line, column, chain, flat = fields
    text, flat = bytes.fromhex(text), bytes.fromhex(flat)
    if len(flat) != int(length):
        raise SystemExit(f"vector {name}: the length {length} is not that of its flat file")
    if number != "0" and (length, shapes, calls, again, rounded) != ("0",) * 5:
        raise SystemExit(f"vector {name}: refused, and yet has a length or counts")
    if number != "0":
        return refused(room, text, number, place, line, column, chain), name
    if (place, line, column, chain) != ("0", "0", "0", ""):
        raise SystemExit(f"vector {name}: accepted, and yet has a place, a line or a chain")
    if rounded != "0":
        return f"rounded_in {room} {quoted(text)} {shapes} {calls} {again} {rounded} {quoted(flat)}", name
    return f"accepted_in {room} {quoted(text)} {shapes} {calls} {again} {quoted(flat)}", name


def walked(text, symbol):
    """How many calls are gone into before the symbol is told of, where none is remembered; at most one more than MOST_WALKED."""
    try:
        table, _ = summary.read(text)
    except reader.Refused:
        return 0

    def walk(n, open_symbols, count):
        if n not in table or n in open_symbols or len(open_symbols) == reader.MOST_DEPTH:
            return MOST_WALKED + 1, count
        for callee in summary.calls_of(table[n]):
            count += 1
            if count <= MOST_WALKED:
                stop, count = walk(callee, [*open_symbols, n], count)
                if stop:
                    return stop, count
        return 0, count

    return walk(symbol, [], 0)[1]


def asked(file):
    """The rows of those that ask what is in a symbol."""
    rows, left = [], 0
    for line in file:
        if line.startswith("#"):
            continue
        name, task, _, _, _, symbol, text, _, told, first = line.rstrip("\n").split("\t")
        text, first = bytes.fromhex(text), bytes.fromhex(first)
        if task != "3" or len(text) > MOST_BYTES or walked(text, int(symbol)) > MOST_WALKED:
            left += task == "3"
            continue
        number, place, _, gives, layers, height, shapes, calls, own, at_line, column = told.split(" ")
        packed = int.from_bytes(first.ljust(4, b"\0"), "big")
        if number == "0":
            rows.append((f"tells {quoted(text)} {symbol} {gives} {layers} {packed} {height} {shapes} {calls} {own}", name))
        else:
            rows.append((f"refuses {quoted(text)} {number} {place} {at_line} {column}", name))
    return rows, left


def write_asked():
    with open(SOURCE, encoding="utf-8") as file:
        rows, left = asked(file)
    out = TOLD_HEAD
    for n, k in enumerate(range(0, len(rows), BATCH), 1):
        listed = "\n    ∷ ".join(f"{text}  -- {name}" for text, name in rows[k:k + BATCH])
        out += f"\npub rows-{n} : List Asked\nrows-{n} =\n    {listed}\n    ∷ []\n"
        out += f"\npub told-{n} : Each AsSaid rows-{n}\nunfolding all_told rows-{n}\ntold-{n} = each_told rows-{n} tt\n"
    with open(OUT, "w", encoding="utf-8") as file:
        file.write(out)
    print(f"{OUT}: {len(rows)} rows, {left} left out")


def write_recorded():
    rows, left = [], 0
    for line in open(SOURCE, encoding="utf-8"):
        fields = line.rstrip("\n").split("\t")
        if line.startswith("#") or fields[1] != "1":
            continue
        number = int(fields[8].split(" ")[0])
        if len(fields[6]) // 2 > MOST_RECORDED or 0 < number < 10 or number == 18:
            left += 1
            continue
        said, name = row(flattened(fields))
        rows.append((f"with {fields[4]} ({said})", name))
    kinds = [kind for kind in ROW_KINDS if any(kind + " " in text for text, _ in rows)]
    out = RECORDED_HEAD % ", ".join(kinds)
    for n, k in enumerate(range(0, len(rows), BATCH), 1):
        listed = "\n    ∷ ".join(f"{text}  -- {name}" for text, name in rows[k:k + BATCH])
        out += f"\npub rows-{n} : List Recorded\nrows-{n} =\n    {listed}\n    ∷ []\n"
        out += f"\npub hold-{n} : Each HoldsWith rows-{n}\nunfolding all_recorded rows-{n}\nhold-{n} = each_recorded rows-{n} tt\n"
    with open(OUT, "w", encoding="utf-8") as file:
        file.write(out)
    print(f"{OUT}: {len(rows)} rows, {left} left out")


def pointed(fields):
    """The row of a record that asks why a shape is there, with enough words."""
    name, _, _, words, _, count, text, _, told, _ = fields
    number, place, _, shape, a, b, c, d, tx, ty, line, column, *chain = told.split(" ")
    if words != "4294967295":
        raise SystemExit(f"vector {name}: rows have enough words")
    text = quoted(bytes.fromhex(text))
    if number == "0":
        return f'shown {text} {count} {shape} "{a} {b} {c} {d} {tx} {ty}" {listed_places(chain)}', name
    if number == "26":
        return f"none_there {text} {count}", name
    return f"not_shown {text} {count} {number} {place} {line} {column} {listed_places(chain)}", name


def write_pointed():
    with open(SOURCE, encoding="utf-8") as file:
        asked_for = [line.rstrip("\n").split("\t") for line in file if not line.startswith("#")]
    rows = [pointed(fields) for fields in asked_for if fields[1] == "7" and len(fields[6]) // 2 <= MOST_POINTED]
    out = SHOWN_HEAD
    for n, k in enumerate(range(0, len(rows), BATCH), 1):
        listed = "\n    ∷ ".join(f"{text}  -- {name}" for text, name in rows[k:k + BATCH])
        out += f"\npub rows-{n} : List Pointed\nrows-{n} =\n    {listed}\n    ∷ []\n"
        out += f"\npub told-{n} : Each Shown rows-{n}\nunfolding all_shown rows-{n}\ntold-{n} = each_shown rows-{n} tt\n"
    with open(OUT, "w", encoding="utf-8") as file:
        file.write(out)
    print(f"{OUT}: {len(rows)} rows, {len(asked_for) - len(rows)} left out")


def main():
    if os.path.basename(SOURCE) == "p11.tsv":
        return write_pointed()
    if os.path.basename(SOURCE) == "p07.tsv":
        return write_recorded()
    if os.path.basename(SOURCE) == "p03.tsv":
        return write_asked()
    with open(SOURCE, encoding="utf-8") as file:
        rows = [row(fields) for fields in vectors(file)]
    kinds = [kind for kind in ROW_KINDS if any(kind + " " in text for text, _ in rows)]
    out = HEAD % ", ".join(kinds)
    for n, k in enumerate(range(0, len(rows), BATCH), 1):
        listed = "\n    ∷ ".join(f"{text}  -- {name}" for text, name in rows[k:k + BATCH])
        out += f"\npub rows-{n} : List Row\nrows-{n} =\n    {listed}\n    ∷ []\n"
        out += f"\npub hold-{n} : Each Holds rows-{n}\nunfolding all_hold rows-{n}\nhold-{n} = each rows-{n} tt\n"
    with open(OUT, "w", encoding="utf-8") as file:
        file.write(out)
    print(f"{OUT}: {len(rows)} rows")


main()
