"""An account of refusals 2 to 9, of rounded distances, of words, of chains, of warnings, of what is in a symbol and of why a shape is there that knows neither
the project's tables nor how they are made: `agree` holds a written answer to it, `agree_list` a written list, `agree_symbol` a written summary, `agree_why` what
is written of a shape.

It follows the printed rules of section 7.1.1 over sets of places, and finds refusals 3 to 9 by document 01's table and document 02's request 2. What the live
bodies need by request 10 it adds up without drawing anything. A chain of request 4 it does not find, but follows: call by call to the place, and what is
refused there must be so in those calls, 21 of request 7 too. The warnings of request 1 it finds from the places of all calls, those of a live body by the DS that they stand in.
For request 3 it finds the heights of all symbols from below, and then goes straight to the first call that has none. For request 11 it adds up from below how
many shapes each symbol draws, and goes straight down to the shape by passing over whole calls; the transformation is a product of matrices, from outside in.
"""
import sys
from typing import NamedTuple

# ---- the grammar of 7.1.1. A rule is a function from the places where it may begin to those where it may end. No rule is a dead end, so the
# furthest place that some character led to is the length of the longest prefix that can be completed, and what was asked for at the end of the
# text is what can follow.


class Reading:
    def __init__(self, text):
        self.text, self.furthest, self.following = text, 0, frozenset()


def one(chars):
    chars = frozenset(chars.encode() if isinstance(chars, str) else chars)

    def rule(reading, places):
        ends = {p + 1 for p in places if p < len(reading.text) and reading.text[p] in chars}
        reading.furthest = max(ends | {reading.furthest})
        if len(reading.text) in places:
            reading.following |= chars
        return ends

    return rule


def then(*rules):
    def rule(reading, places):
        for r in rules:
            places = r(reading, places)
        return places

    return rule


def either(*rules):
    return lambda reading, places: set().union(*(r(reading, places) for r in rules))


def many(r):
    def rule(reading, places):
        ends = new = set(places)
        while new:
            new = r(reading, new) - ends
            ends = ends | new
        return ends

    return rule


def option(r):
    return lambda reading, places: places | r(reading, places)


DIGITS, UPPERS, ASCII = range(48, 58), range(65, 91), range(128)
digit, upper = one(DIGITS), one(UPPERS)
blank = one(b for b in ASCII if b not in DIGITS and b not in UPPERS and b not in b"-();")
sep = either(upper, blank)
semi = then(many(blank), one(";"), many(blank))
name_char = either(digit, upper)
shortname = then(name_char, option(name_char), option(name_char), option(name_char))
integer_d = then(digit, many(digit))
integer = then(many(sep), integer_d)
sinteger = then(many(sep), option(one("-")), integer_d)
point = then(sinteger, sep, sinteger)
path = then(point, many(then(sep, point)))
mirror = then(one("M"), many(blank), one("XY"))
transformation = many(then(many(blank), either(then(one("T"), point), mirror, then(one("R"), point))))


def comment_text(reading, places):
    return many(either(one(b for b in ASCII if b not in b"()"), then(one("("), comment_text, one(")"))))(reading, places)


prim_command = either(
    then(one("P"), path),
    then(one("B"), integer, sep, integer, sep, point, option(then(sep, point))),
    then(one("R"), integer, sep, point),
    then(one("W"), integer, sep, path),
    then(one("L"), many(blank), shortname),
    then(one("C"), integer, transformation),
    then(digit, many(one(b for b in ASCII if b not in b";"))),
    then(one("("), comment_text, one(")")),
)
def_start = then(one("D"), many(blank), one("S"), integer, option(then(sep, integer, sep, integer)))
def_finish = then(one("D"), many(blank), one("F"))
def_delete = then(one("D"), many(blank), one("D"), integer)
command = either(prim_command, def_delete, then(def_start, semi, many(then(many(blank), option(prim_command), semi)), def_finish))
cif_file = then(many(then(many(blank), option(command), semi)), one("E"), many(blank))

IN_GRAMMAR = None


def place(text):
    """IN_GRAMMAR, or the place of refusal 2."""
    reading = Reading(text)
    return IN_GRAMMAR if len(text) in cif_file(reading, {0}) else reading.furthest


def following(prefix):
    """The bytes that can follow a prefix."""
    reading = Reading(prefix)
    cif_file(reading, {0})
    return reading.following


# ---- refusals 3 to 9 of a text in the grammar, from document 01's table and written apart from the reader

MOST = 16777215


class Scan:
    """Reads one command of a grammatical text from its first letter on."""

    def __init__(self, text, at):
        self.text, self.at = text, at

    def blanks(self):
        while self.text[self.at] not in b"0123456789ABCDEFGHIJKLMNOPQRSTUVWXYZ-();":
            self.at += 1

    def number(self):
        """The next number as place, value; or nothing before the semicolon."""
        while self.text[self.at] not in b"0123456789-;":
            self.at += 1
        start = self.at
        if self.text[start] == 59:
            return None
        self.at += 1
        while self.text[self.at] in b"0123456789":
            self.at += 1
        return start, int(self.text[start : self.at])

    def numbers(self):
        found = []
        while (n := self.number()) is not None:
            found.append(n)
        return found


def commands(text):
    """Each command but comments, user extensions and E: place, letter, and its numbers, name or transformations."""
    at = 0
    while True:
        while text[at] in b";" or not (48 <= text[at] <= 57 or 65 <= text[at] <= 90 or text[at] == 40):
            at += 1
        letter, scan = chr(text[at]), Scan(text, at + 1)
        if letter == "E":
            return
        if letter == "(":
            depth = 1
            while depth:
                depth += {40: 1, 41: -1}.get(text[scan.at], 0)
                scan.at += 1
        elif letter == "L":
            scan.blanks()
            start = scan.at
            while scan.text[scan.at : scan.at + 1].isalnum() and chr(scan.text[scan.at]) not in "abcdefghijklmnopqrstuvwxyz":
                scan.at += 1
            yield at, "L", text[start : scan.at]
        elif letter == "D":
            scan.blanks()
            second = chr(text[scan.at])
            scan.at += 1
            yield at, "D" + second, scan.numbers()
        elif letter == "C":
            symbol, turns = scan.number(), []
            while True:
                scan.blanks()
                turn = chr(text[scan.at])
                if turn == ";":
                    break
                scan.at += 1
                if turn == "M":
                    scan.blanks()
                    scan.at += 1
                    turns.append((turn + chr(text[scan.at - 1]), []))
                else:
                    turns.append((turn, [scan.number(), scan.number()]))
            yield at, "C", (symbol, turns)
        elif not letter.isdigit():
            yield at, letter, scan.numbers()
        at = text.index(b";", scan.at)


def fault(text):
    """The first of refusals 3 to 9 and its place, or nothing; and how many distances are rounded, 0 where there is a refusal."""
    inside, a, b, layer, outer, rounded = False, 1, 1, None, None, 0
    for at, kind, what in commands(text):
        if kind == "L":
            layer = what
            continue
        shape = kind in "PBRW"
        if kind == "C":
            symbol, turns = what
            numbers = [symbol] + [n for _, ns in turns for n in ns]
            distances = [n for turn, ns in turns if turn == "T" for n in ns]
        else:
            numbers, turns = what, []
            distances = what[:4] if kind == "B" else what if shape else []
        sizes = what[: {"B": 2, "R": 1, "W": 1}.get(kind, 0)]
        directions = [what[4:6]] if kind == "B" and len(what) > 4 else [ns for turn, ns in turns if turn == "R"]
        points = {"P": len(what) // 2, "W": (len(what) - 1) // 2}.get(kind, 0)
        found = [(3, p) for p, v in numbers if abs(v) > MOST]
        if kind == "DS" and any(v == 0 for _, v in what[1:3]):
            found.append((4, at))
        # by request 2 a distance is rounded, halves away from zero: out of range from MOST and a half on, and nothing below a half
        found += [(6, p) for p, v in distances if 2 * a * abs(v) >= (2 * MOST + 1) * b]
        nowhere = any(all(v == 0 for _, v in d) for d in directions)
        if any(2 * a * v < b for _, v in sizes) or nowhere or kind == "P" and points < 3:
            found.append((7, at))
        if shape and layer is None:
            found.append((8, at))
        if points > 1024 or len(turns) > 32:
            found.append((9, at))
        if found:
            return min(found), 0
        rounded += sum(a * v % b != 0 for _, v in distances)
        if kind == "DS":
            a, b = (what[1][1], what[2][1]) if len(what) > 1 else (1, 1)
            inside, outer, layer = True, layer, None
        elif kind == "DF":
            inside, a, b, layer = False, 1, 1, outer
    return None, rounded


def words_of(kind, what):
    """What a command of a body needs by request 10."""
    if kind == "C":
        return 3 + sum(3 if numbers else 1 for _, numbers in what[1])
    return {"L": 3, "B": 8, "R": 5}.get(kind) or 2 + len(what)


def needed(text):
    """Of a text in the grammar: for each DF the place of its DS, and the words of all bodies that are live after it."""
    live, inside = {}, None
    for at, kind, what in commands(text):
        if kind == "DS":
            inside, symbol, need = at, what[0][1], 0
        elif kind == "DF":
            live[symbol] = need
            yield inside, sum(live.values())
            inside = None
        elif kind == "DD":
            for gone in [n for n in live if n >= what[0][1]]:
                del live[gone]
        elif inside is not None:
            need += words_of(kind, what)


# ---- request 4: line and column, byte by byte; and a chain, followed to its end


def position(text, place):
    line, column = 1, 1
    for byte in text[:place]:
        line, column = (line + 1, 1) if byte == 10 else (line, column + 1)
    return line, column


def bodies(text):
    """Of a text in the grammar: each command as place, kind, what it has, the DS that it stands in, or nothing; and the table of live symbols there, which
    leads from each symbol to the place of its DS."""
    live, inside = {}, None
    for at, kind, what in commands(text):
        if kind == "DS":
            inside, symbol = at, what[0][1]
        elif kind == "DF":
            live = {**live, symbol: inside}
            inside = None
        elif kind == "DD":
            live = {n: start for n, start in live.items() if n < what[0][1]}
        yield at, (kind, what, inside, live)


def final_points(open_calls, shape, scales):
    """Where the points of a shape come to lie, through the calls from the innermost out; each scaled by its own definition."""
    def scaled(start, value):
        a, b = scales.get(start, (1, 1))
        size = (2 * a * abs(value) + b) // (2 * b)
        return size if value > 0 else -size

    kind, what, start, _ = shape
    numbers = [scaled(start, v) for _, v in what[{"B": 2, "R": 1, "W": 1, "P": 0}[kind]:4 if kind == "B" else None]]
    points = list(zip(numbers[::2], numbers[1::2]))
    for _, (_, turns), start, _ in reversed(open_calls):
        for turn, at in turns:
            x, y = [v for _, v in at] or (0, 0)
            if turn == "T":
                points = [(p + scaled(start, x), q + scaled(start, y)) for p, q in points]
            elif turn == "R":  # by a unit along an axis
                c, s = (x > 0) - (x < 0), (y > 0) - (y < 0)
                points = [(p * c - q * s, p * s + q * c) for p, q in points]
            else:
                points = [(-p, q) if turn == "MX" else (p, -q) for p, q in points]
    return points


def due(number, refused, open_calls, live, scales, lent):
    """Whether a refusal is due at a command in these calls, where so many records are lent; what depends on all that was drawn before is believed."""
    kind, what, _, _ = refused
    if number in (16, 17, 20):
        xs, ys = zip(*final_points(open_calls, refused, scales)) if kind in "PBRW" else ((), ())
        beyond = [any(abs(n) > MOST for n in numbers) for numbers in (xs, ys)]
        return kind in "PBRW" and beyond == {16: [True, beyond[1]], 20: [False, True], 17: [False, False]}[number]
    if kind != "C":
        return False
    (_, symbol), turns = what
    off_axes = any(turn == "R" and all(v != 0 for _, v in at) for turn, at in turns)
    found = [off_axes, symbol not in live, symbol in [call[1][0][1] for call in open_calls], len(open_calls) == 32, len(open_calls) == lent]
    return number == dict(enumerate((11, 12, 13, 14, 21)))[found.index(True)] if True in found else number == 15


def leads(text, answer, lent):
    """Whether a chain leads to the place: from outside definitions, each call into the body that its symbol has in the table of the outermost."""
    at = dict(bodies(text))
    scales = {place: (what[1][1], what[2][1]) for place, (kind, what, _, _) in at.items() if kind == "DS" and len(what) > 1}
    path = [at.get(place) for place in (*answer.chain, answer.place)]
    if None in path or path[0][2] is not None or any(step[0] != "C" for step in path[:-1]):
        return False
    live = path[0][3]
    through = all(live.get(call[1][0][1]) == inner[2] is not None for call, inner in zip(path, path[1:]))
    return through and (lent is None or len(path) <= lent + 1) and due(answer.number, path[-1], path[:-1], live, scales, lent)


def agree(text, stuck, answer, words=None, lent=None):
    """Holds an answer to what is found here of refusals 2 to 9, of rounded distances, of line, column and chain and, where words are lent, of 25, and where
    records are lent, of 21; `stuck` is the place of 2, or IN_GRAMMAR. Which command is the first to be refused in drawing is not known here, so a text that is
    refused with 10 to 17, 20 or 21 is not held to its words."""
    found, rounded = ((2, stuck), 0) if stuck is not IN_GRAMMAR else fault(text)
    given = (answer.number, answer.place) if 2 <= answer.number <= 9 else None
    if found != given or answer.rounded != (rounded if answer.number == 0 else 0):
        sys.exit(f"no agreement on {text!r}: {answer} is written, the account says {found} and {rounded} rounded")
    if answer.number == 25 or words is not None and answer.number in (0, 18):
        over = next((place for place, need in needed(text) if need > words), None)
        if over != (answer.place if answer.number == 25 else None):
            sys.exit(f"no agreement on {text!r} with {words} words: {answer} is written, the account says {over}")
    where = position(text, answer.place) if answer.number else (0, 0)
    in_calls = 11 <= answer.number <= 17 or answer.number == 20 or answer.number == 21 and lent is not None
    if (answer.line, answer.column) != where or not (leads(text, answer, lent) if in_calls else answer.chain == ()):
        sys.exit(f"no agreement on {text!r}: {answer} is written, the account says {where}, and that the chain does not lead there")


# ---- request 1: the warnings of a text that is not refused


def warnings(text):
    calls, before = [], {}
    for at, (kind, what, inside, live) in bodies(text):
        if kind == "C" and inside is not None:
            calls.append((at, inside, what[0][1]))
        elif kind == "DF":
            # the entry of a number changed, or there is one more
            yield from ("Warning: symbol %d redefined." % n for n in before if live[n] != before[n])
        elif kind == "DD":
            numbers = {start: n for n, start in live.items()}
            found = min(((numbers[start], place) for place, start, callee in calls if start in numbers and callee not in live), default=None)
            if found:
                yield "Warning: dangling references after DD.\t%d" % found[1]
        before = live


def agree_list(text, lines):
    """Holds a written list to the warnings that are found here: they stand between the last shape and the total. A refusal is one line."""
    rows = lines.decode().split("\n")
    shapes = [row for row in rows if row.startswith("shape")]
    found = [] if rows[0].startswith("refused") else list(warnings(text))
    if rows[:len(shapes)] != shapes or rows[len(shapes):-3] != found:  # then come total, window, and nothing after the last line end
        sys.exit(f"no agreement on the list of {text!r}: {rows} is written, the account warns {found}")


# ---- request 3: what is in a symbol, in the table left at the end of a text

MOST_NAMES, MOST_LIVE, MOST_DEPTH = 64, 512, 32


def refused_summary(text, stuck):
    """The refusal of a text that is asked about a symbol with enough words lent, and its place; or nothing."""
    if stuck is not IN_GRAMMAR:
        return 2, stuck
    firsts = {}
    for at, kind, what in commands(text):
        if kind == "L":
            firsts.setdefault(bytes(what), at)
    # no command holds an L command, so their places tell which comes first
    found = [(at, 19) for at in sorted(firsts.values())[MOST_NAMES:MOST_NAMES + 1]]
    found += [(place, number) for number, place in [fault(text)[0] or (0, 0)] if number]
    if found:
        return min(found)[::-1]
    start = 0
    for at, (kind, _, _, live) in bodies(text):
        start = at if kind == "DS" else start
        if len(live) > MOST_LIVE:
            return 10, start
    return None


def contents(text):
    """Of each live symbol the callees, in written order, and the layer of each shape; and all layer names by first appearance."""
    calls, layers, names, layer, live = {}, {}, [], None, {}
    for at, (kind, what, inside, live) in bodies(text):
        if kind == "DS":
            layer = None
        elif kind == "L":
            layer = bytes(what)
            names += [layer] if layer not in names else []
        elif kind == "C":
            calls.setdefault(inside, []).append(what[0][1])
        elif kind in "PBRW":
            layers.setdefault(inside, []).append(layer)
    return {n: (calls.get(start, []), layers.get(start, [])) for n, start in live.items()}, names


def heights(live):
    """The symbols from which every way comes to an end, each with its height: those that call nothing, those that call only these, and so on."""
    found, last = {}, None
    while found != last:
        last = found
        found = {n: 1 + max((last[callee] for callee in calls), default=0) for n, (calls, _) in live.items() if all(callee in last for callee in calls)}
    return found


def first_bad(live, tall, symbol):
    """12, 13 or 14, by going into the first call that comes to no good end; 0 if there is none."""
    if symbol not in live:
        return 12
    opened = [symbol]
    while tall.get(opened[-1], MOST_DEPTH + 1) + len(opened) - 1 > MOST_DEPTH:
        bad = next(callee for callee in live[opened[-1]][0] if callee not in tall or tall[callee] + len(opened) > MOST_DEPTH)
        number = 12 if bad not in live else 13 if bad in opened else 14 if len(opened) == MOST_DEPTH or bad in tall else 0
        if number:
            return number
        opened.append(bad)
    return 0


def agree_symbol(text, stuck, symbol, told):
    """Holds what is written of a symbol, the line and the name, to what is found here."""
    refusal = refused_summary(text, stuck)
    if refusal:
        found, name = [*refusal, *[0] * 7, *position(text, refusal[1])], b""
    else:
        live, names = contents(text)
        tall = heights(live)
        number = first_bad(live, tall, symbol)
        reached = set() if number else {symbol}
        for n in sorted(tall, key=tall.get, reverse=True):  # callers before callees
            reached |= set(live[n][0]) if n in reached else set()
        drawn = {layer for n in reached for layer in live[n][1]}
        own, shapes = live.get(symbol, ([], []))
        name = min(drawn, key=names.index) if drawn else b""
        found = [0, 0, len(name), number, len(drawn), 0 if number else tall[symbol], len(shapes), len(own), len(set(shapes)), 0, 0]
    if told != "\t".join(map(str, found)).encode() + b"\n" + name:
        sys.exit(f"no agreement on symbol {symbol} of {text!r}: {told!r} is written, the account says {found} and {name!r}")


# ---- request 11: why a shape is there

MOST_COUNTED = 1_048_576  # calls and shapes


class Refusal(NamedTuple):
    """What `agree` looks at."""
    number: int
    place: int
    rounded: int
    line: int
    column: int
    chain: tuple


class Drawn(NamedTuple):
    """How many shapes and calls are drawn, and how many calls are open at once."""
    shapes: int
    calls: int
    deep: int


def laid_out(text):
    """The shapes and calls of each body, by the place of its DS and in written order, and of what stands outside, under None; each with the table at its turn.
    And the scale of each definition."""
    inner, scales = {None: []}, {None: (1, 1)}
    for at, (kind, what, inside, live) in bodies(text):
        if kind == "DS":
            inner[at], scales[at] = [], (what[1][1], what[2][1]) if len(what) > 1 else (1, 1)
        elif kind == "C" or kind in "PBRW":
            inner[inside].append((at, kind, what, live))
    return inner, scales


def drawn_by(kind, what, live, bodies_draw):
    """By a shape, or by a call in a table whose bodies draw so much; nothing if it comes to no good end."""
    if kind != "C":
        return Drawn(1, 0, 0)
    (_, symbol), turns = what
    off_axes = any(turn == "R" and all(v != 0 for _, v in by) for turn, by in turns)
    body = None if off_axes else bodies_draw.get(live.get(symbol))
    return body and Drawn(body.shapes, body.calls + 1, body.deep + 1)


def from_below(inner, live):
    """What each body of a table draws, by the place of its DS: first those without calls, then those that call only these, and so on. What 11, 12 or 13 refuses
    never comes."""
    found, last = {}, None
    while found != last:
        last, found = found, {}
        for start in live.values():
            parts = [drawn_by(kind, what, live, last) for _, kind, what, _ in inner[start]]
            if None not in parts:
                found[start] = Drawn(sum(p.shapes for p in parts), sum(p.calls for p in parts), max((p.deep for p in parts), default=0))
    return found


def under(outer, turn, x, y):
    """The matrix of one T, M or R with an outer list after it. Rows: (a, b, tx) and (c, d, ty)."""
    (a, b, tx), (c, d, ty) = outer
    if turn == "T":
        return (a, b, a * x + b * y + tx), (c, d, c * x + d * y + ty)
    if turn == "R":
        x, y = (x > 0) - (x < 0), (y > 0) - (y < 0)
        return (a * x + b * y, b * x - a * y, tx), (c * x + d * y, d * x - c * y, ty)
    return ((-a, b, tx), (-c, d, ty)) if turn == "MX" else ((a, -b, tx), (c, -d, ty))


def to_scale(scale, value):
    a, b = scale
    size = (2 * a * abs(value) + b) // (2 * b)
    return size if value > 0 else -size


def down(inner, scales, bodies_draw, live, found, left):
    """From something outside to the shape with the count `left` in it: the place of that shape, those of the calls around it, and the matrix."""
    chain, matrix, start = (), ((1, 0, 0), (0, 1, 0)), None
    while found[1] == "C":
        at, _, ((_, symbol), turns) = found
        for turn, by in reversed(turns):
            matrix = under(matrix, turn, *([v if turn == "R" else to_scale(scales[start], v) for _, v in by] or (0, 0)))
        chain, start = (*chain, at), live[symbol]
        for at, kind, what, _ in inner[start]:
            found, shapes = (at, kind, what), drawn_by(kind, what, live, bodies_draw).shapes
            if left <= shapes:
                break
            left -= shapes
    return found[0], chain, matrix


UNFINISHED = "a call is refused, or there are too many"


def led(text, count):
    """What `down` finds of the shape with a count; nothing if the count is 0 or above the shapes; UNFINISHED of a text that 11 to 15 or 17 refuse."""
    (inner, scales), tables, shapes, calls, way = laid_out(text), {}, 0, 0, None
    for at, kind, what, live in inner[None]:
        key = tuple(sorted(live.items()))
        if key not in tables:
            tables[key] = from_below(inner, live)
        drawn = drawn_by(kind, what, live, tables[key])
        if drawn is None or drawn.deep > MOST_DEPTH:
            return UNFINISHED
        if shapes < count <= shapes + drawn.shapes:
            way = inner, scales, tables[key], live, (at, kind, what), count - shapes
        shapes, calls = shapes + drawn.shapes, calls + drawn.calls
    if shapes > MOST_COUNTED or calls > MOST_COUNTED:
        return UNFINISHED
    return down(*way) if way else None


def lies(text, place, matrix):
    """The shape at a place as a matrix moves it: its letter and its numbers."""
    inner, scales = laid_out(text)
    start, kind, what = next((start, kind, what) for start, body in inner.items() for at, kind, what, _ in body if at == place)
    numbers = [to_scale(scales[start], v) for _, v in (what[:4] if kind == "B" else what)]
    sizes = {"B": 2, "R": 1, "W": 1, "P": 0}[kind]
    points = [(numbers[i], numbers[i + 1], 1) for i in range(sizes, len(numbers), 2)]
    points += [(*([v for _, v in what[4:6]] or [1, 0]), 0)] if kind == "B" else []  # a direction is not translated
    return kind, numbers[:sizes] + [sum(m * n for m, n in zip(row, point)) for point in points for row in matrix]


def agree_why(text, stuck, count, told, words=None, listed=None):
    """Holds what is written of a shape, its line, to what is found here; `listed`, if it is given, is the shape with that count in the flat list, its letter and
    its numbers, and must be the one at that place, moved by that matrix. What 16 or 20 refuses is not known here."""
    number, place, length, shape, a, b, c, d, tx, ty, line, column, *chain = map(int, told.split(b"\t"))
    matrix, chain = ((a, b, tx), (c, d, ty)), tuple(chain)
    if number not in (0, 26):
        agree(text, stuck, Refusal(number, place, 0, line, column, chain), words)
        agreed = not any((length, shape, a, b, c, d, tx, ty))
    else:
        agree(text, stuck, Refusal(0, 0, fault(text)[1] if stuck is IN_GRAMMAR else 0, 0, 0, ()), words)
        found = led(text, count)
        agreed = (shape, chain, matrix) == (found or (0, (), ((0, 0, 0), (0, 0, 0)))) and (number, place, length, line, column) == ((0,) * 5 if found else (26, 0, 0, 1, 1))
        agreed = agreed and (listed is None or number == 26 or lies(text, shape, matrix) == listed)
    if not agreed:
        sys.exit(f"no agreement on shape {count} of {text!r}: {told!r} is written")
