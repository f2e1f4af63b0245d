"""A second opinion on the CIF reader: what document 01, sections 7.1.1 and 7.1.2 of Chapter 7 and the requests of document 02 say of a text, as plainly
as can be.

`flatten(text, room, lent)` gives number, place, length, shapes, calls, redefinitions, rounded distances, line, column, the chain and the bytes of the flat
file, where room is the room's length and lent how many words are lent for bodies; None, or left out, where there are always enough. Sentences in quotation
marks are document 01's, those after "request" document 02's, and a rule stands under its sentence.
"""
from typing import NamedTuple, Optional

import grammar

MOST = 16_777_215  # "Every number lies within 16,777,215 of zero."
LONGEST = 16_777_216  # of a text and of a flat file
MOST_POINTS, MOST_TRANSFORMATIONS = 1024, 32
MOST_DEFINITIONS, MOST_DEPTH, MOST_CALLS, MOST_SHAPES = 512, 32, 1_048_576, 1_048_576


class Answer(NamedTuple):
    number: int
    place: int
    length: int
    shapes: int
    calls: int
    redefinitions: int
    rounded: int
    line: int
    column: int
    chain: tuple  # of places
    flat: bytes


class Refused(Exception):
    """Request 4: "For 11 to 17 give the chain as well: the place of every call already open, outermost first, not the refused one." """

    def __init__(self, number, place, open_calls=()):
        self.number, self.place = number, place
        self.chain = tuple(call.place for call in open_calls)


def position(text, place):
    """Request 4: "Give line (one more than the line ends, byte 10, before it) and column (one more than the bytes since the last of these)." """
    lines = text[:place].split(b"\n")
    return len(lines), len(lines[-1]) + 1


# ---- Commands as they are written. Comments, user extensions and E say nothing and are left out.


class Number(NamedTuple):
    value: int
    place: int


class Transformation(NamedTuple):
    letter: str  # T, MX, MY or R
    point: list  # the two numbers of a T or R


class Command:
    def __init__(self, kind, place):
        self.kind, self.place = kind, place  # "a command's place is its first letter"
        self.numbers = []  # in written order, but for those of transformations
        self.transformations = []  # of a C
        self.name = None  # of an L


KINDS = {"polygonCommand": "P", "boxCommand": "B", "roundFlashCommand": "R", "wireCommand": "W", "layerCommand": "L", "callCommand": "C",
         "defStartCommand": "DS", "defFinishCommand": "DF", "defDeleteCommand": "DD"}
SHAPES = ("P", "B", "R", "W")


def number(text, node):
    """"a number's [place is] its minus sign or else its first digit": the separators before it are no part of it."""
    place = node.start
    while text[place] not in b"-0123456789":
        place += 1
    digits = text[place:node.end].lstrip(b"-").lstrip(b"0")
    # nine digits or more, the first of them no zero, are beyond every limit, and it does not matter how far
    size = int(digits[:9] or b"0")
    return Number(-size if text[place] == ord("-") else size, place)


def command(text, node):
    made = Command(KINDS[node.name], node.start)
    for part in node.parts:
        if part.name in ("integer", "sinteger"):
            numbers = made.transformations[-1].point if made.transformations else made.numbers
            numbers.append(number(text, part))
        elif part.name == "shortname":
            made.name = text[part.start:part.end]
        elif made.kind == "C" and part.name in ("T", "R", "M"):
            made.transformations.append(Transformation(part.name, []))
        elif made.kind == "C" and part.name in ("X", "Y"):
            made.transformations[-1] = Transformation("M" + part.name, [])
    return made


def commands(text):
    """All commands in text order, or refusal 2."""
    nodes, stuck = grammar.follow(text)
    if nodes is None:
        raise Refused(2, stuck)
    return [command(text, node) for node in nodes if node.name in KINDS]


# ---- What the numbers of a command are. "B length, width, centre, direction [..]; R diameter, centre; W width, points; P points"


def sizes(command):
    """Lengths, widths and diameters."""
    return command.numbers[:{"B": 2, "R": 1, "W": 1, "P": 0}[command.kind]]


def points(command):
    """The numbers of the points, x and y by turns."""
    return command.numbers[2:4] if command.kind == "B" else command.numbers[len(sizes(command)):]


def distances(command):
    """"each distance d (lengths, widths, diameters, points, T points) [..]. Symbol numbers, box directions and R directions are not scaled." """
    if command.kind in SHAPES:
        return sizes(command) + points(command)
    return [n for t in command.transformations if t.letter == "T" for n in t.point]


def directions(command):
    """The written direction of a box, and those of the R of a call."""
    if command.kind == "B":
        return [command.numbers[4:]] if command.numbers[4:] else []
    return [t.point for t in command.transformations if t.letter == "R"]


# ---- Scale


class Scaled(NamedTuple):
    value: int
    off_grid: bool  # it was rounded


def scaled(a, b, distance):
    """"Inside a definition each distance d [..] becomes a*d/b." Request 2: "A scaled distance now goes to the nearest whole number, halves away from zero" """
    whole, rest = divmod(a * abs(distance), b)
    if 2 * rest >= b:
        whole += 1
    return Scaled(-whole if distance < 0 else whole, rest != 0)


def rounded(command, a, b):
    """Request 2: "the result also counts the rounded distances of the text". Each counts where it stands in the text, drawn or not, however often drawn."""
    return len([n for n in distances(command) if scaled(a, b, n.value).off_grid])


# ---- Refusals 3 to 9, and what the text alone says of each command


def faults(command, a, b, layer):
    """All that refusals 3 to 9 have against one command, as (number, place). a and b are those of the definition it stands in, or else 1 and 1."""
    shape = command.kind in SHAPES
    # 3: "a number beyond 16,777,215", at "its minus sign or first digit"
    for n in command.numbers + [n for t in command.transformations for n in t.point]:
        if abs(n.value) > MOST:
            yield 3, n.place
    # 4: "a or b is 0", at "the DS"
    if command.kind == "DS" and any(n.value == 0 for n in command.numbers[1:]):
        yield 4, command.place
    # request 2: "5 never occurs [..]; 6 and the sizes in 7 are judged after rounding"
    # 6: "scaled distance beyond 16,777,215", at "that number"
    for n in distances(command):
        if abs(scaled(a, b, n.value).value) > MOST:
            yield 6, n.place
    # 7: "zero length, width or diameter; direction (0, 0) of a box or an R; polygon under 3 points", at "the command"
    if shape and any(scaled(a, b, n.value).value == 0 for n in sizes(command)):
        yield 7, command.place
    if any(x.value == 0 and y.value == 0 for x, y in directions(command)):
        yield 7, command.place
    if command.kind == "P" and len(points(command)) // 2 < 3:
        yield 7, command.place
    # 8: "shape with no layer set", at "the command"
    if shape and layer is None:
        yield 8, command.place
    # 9: "over 1,024 points or 32 transformations", at "the command"
    if shape and len(points(command)) // 2 > MOST_POINTS or len(command.transformations) > MOST_TRANSFORMATIONS:
        yield 9, command.place


class Shape(NamedTuple):
    """"A shape is its layer, kind and numbers" """
    place: int
    layer: bytes
    kind: str
    sizes: list
    points: list  # of pairs
    direction: Optional[tuple]  # of a box


class Call(NamedTuple):
    place: int
    symbol: int
    transformations: list  # of (letter, x, y); a mirror has x and y 0


def shape(command, a, b, layer):
    numbers = [scaled(a, b, n.value).value for n in points(command)]
    pairs = [(numbers[i], numbers[i + 1]) for i in range(0, len(numbers), 2)]
    direction = None
    if command.kind == "B":  # "the direction (1, 0) if omitted and otherwise as given, never shortened"
        direction = tuple(n.value for n in command.numbers[4:]) or (1, 0)
    return Shape(command.place, layer, command.kind, [scaled(a, b, n.value).value for n in sizes(command)], pairs, direction)


def call(command, a, b):
    transformations = []
    for t in command.transformations:
        x, y = [n.value for n in t.point] or [0, 0]
        transformations.append((t.letter, scaled(a, b, x).value, scaled(a, b, y).value) if t.letter == "T" else (t.letter, x, y))
    return Call(command.place, command.numbers[0].value, transformations)


class Meant(NamedTuple):
    """A command, its shape or call if it is one, and how many of its distances were rounded."""
    command: Command
    what: object
    rounded: int


def meaning(written):
    """What is to be drawn: the commands with their shapes and calls made out; or the first of refusals 3 to 9."""
    a, b, layer, outer = 1, 1, None, None  # "Outside definitions no layer is set at the start."
    for command in written:
        # "for all commands in text order, within a command by number, within a number by place": the least pair
        found = sorted(faults(command, a, b, layer))
        if found:
            raise Refused(*found[0])
        what, off_grid = None, 0
        if command.kind == "L":
            layer = command.name
        elif command.kind == "DS":
            # "`DS` has both a and b or neither"; 7.1.1: "a and b both default to 1 if omitted"
            a, b = [n.value for n in command.numbers[1:]] or [1, 1]
            # "Each definition starts with none set, its L commands act inside it only, and after DF the outer layer is what it was before DS."
            layer, outer = None, layer
        elif command.kind == "DF":
            a, b, layer = 1, 1, outer
        elif command.kind == "C":
            what, off_grid = call(command, a, b), rounded(command, a, b)
        elif command.kind in SHAPES:
            what, off_grid = shape(command, a, b, layer), rounded(command, a, b)
        yield Meant(command, what, off_grid)


# ---- Words: how many the live bodies need


def words(command):
    """Request 10: "Each body command takes two words and one per number, after defaults are filled in; a call one more per T, M or R letter; an L command
    one more for its name; all else none." DS and DF are no commands of the body; comments, user extensions and empty commands are left out long before."""
    if command.kind in SHAPES:
        defaults = 2 if command.kind == "B" and not command.numbers[4:] else 0  # the direction of a box
        return 2 + len(command.numbers) + defaults
    if command.kind == "C":
        return 2 + len(command.numbers) + sum(1 + len(t.point) for t in command.transformations)
    return 2 + 1 if command.kind == "L" else 0


# ---- Drawing: refusals 10 to 17, 20 and 25


def turned(letter, to_x, to_y, x, y):
    """What a mirror or a turn makes of (x, y). "Directions of boxes take the mirrors and turns and not the T." """
    if letter == "MX":  # "MX sends (x, y) to (-x, y)"
        return -x, y
    if letter == "MY":  # "MY sends it to (x, -y)"
        return x, -y
    if letter == "R":
        if to_y == 0 and to_x > 0:  # "R along +x changes nothing, whatever the vector's length"
            return x, y
        if to_x == 0 and to_y > 0:  # "along +y, a quarter turn sends (x, y) to (-y, x)"
            return -y, x
        if to_y == 0 and to_x < 0:  # "along -x, (-x, -y)"
            return -x, -y
        if to_x == 0 and to_y < 0:  # "along -y, (y, -x)"
            return y, -x
    return x, y


def moved(transformations, x, y):
    """A point after a list of transformations. "Transformations act in written order. T adds the point." """
    for letter, to_x, to_y in transformations:
        x, y = (x + to_x, y + to_y) if letter == "T" else turned(letter, to_x, to_y, x, y)
    return x, y


class Drawing:
    def __init__(self, lent):
        self.lent = lent  # words, or None for as many as are needed
        self.table = {}  # the live definitions: each symbol number with the shapes and calls of its body
        self.needs = {}  # and with the words that its body needs
        self.most_needed = 0  # by all live bodies together, after some DF
        self.calls = self.shapes = self.redefinitions = 0
        self.flat, self.layer = bytearray(), None  # the flat file so far, and the layer name of its last L line

    def draw_text(self, meant):
        """"Commands outside definitions act in text order." """
        start, body, need = None, [], 0
        for command, what, _ in meant:
            if start is not None:
                need += words(command)
            if command.kind == "DS":
                start, body, need = command, [], 0
            elif command.kind == "DF":
                self.enter(start, body, need)
                start = None
            elif command.kind == "DD":
                # "DD n removes every entry numbered n or more"
                self.table = {n: kept for n, kept in self.table.items() if n < command.numbers[0].value}
                self.needs = {n: need for n, need in self.needs.items() if n in self.table}
            elif what is not None and start is not None:
                body.append(what)
            elif what is not None:
                self.draw_body([what], [], [])
        self.flat += b"E\n"  # "The last line is `E` and byte 10, without a semicolon."

    def enter(self, start, body, need):
        """"DF enters the definition under its number; an entry of that number is replaced, which counts as one redefinition." """
        symbol = start.numbers[0].value
        if symbol in self.table:
            self.redefinitions += 1
        self.table[symbol], self.needs[symbol] = body, need
        if len(self.table) > MOST_DEFINITIONS:
            raise Refused(10, start.place)
        # request 10: "25, exactly when the live bodies after some DF need more words than were lent, directly after 10, at the DS": what is replaced or
        # deleted needs none
        self.most_needed = max(self.most_needed, sum(self.needs.values()))
        if self.lent is not None and sum(self.needs.values()) > self.lent:
            raise Refused(25, start.place)

    def draw_body(self, body, transformations, open_calls):
        """"A body draws its calls and a call draws its body: depth first, in written order." """
        for what in body:
            if isinstance(what, Call):
                self.draw_call(what, transformations, open_calls)
            else:
                self.draw_shape(what, transformations, open_calls)

    def draw_call(self, call, transformations, open_calls):
        for letter, x, y in call.transformations:
            if letter == "R" and x != 0 and y != 0:
                raise Refused(11, call.place, open_calls)  # "drawn call with an R off the axes"
        if call.symbol not in self.table:
            raise Refused(12, call.place, open_calls)  # "drawn call of an undefined symbol"
        if call.symbol in [outer.symbol for outer in open_calls]:
            raise Refused(13, call.place, open_calls)  # "drawn call of a symbol already being drawn"
        if len(open_calls) + 1 > MOST_DEPTH:  # "An executable call has depth 1; a call inside its body has depth 2."
            raise Refused(14, call.place, open_calls)
        if self.calls == MOST_CALLS:
            raise Refused(15, call.place, open_calls)  # "call 1,048,577"
        self.calls += 1  # "Every call drawn, at any depth, counts as one call."
        # "The inner call's list acts before the outer's."
        self.draw_body(self.table[call.symbol], call.transformations + transformations, open_calls + [call])

    def draw_shape(self, shape, transformations, open_calls):
        # "only the final points of a shape are held to the range, not the steps between"
        final = [moved(transformations, x, y) for x, y in shape.points]
        # request 4: "16 is now for a shape with some x beyond the range; 20 for one whose x are all good and some y is not, directly after 16"
        if any(abs(x) > MOST for x, y in final):
            raise Refused(16, shape.place, open_calls)
        if any(abs(y) > MOST for x, y in final):
            raise Refused(20, shape.place, open_calls)
        if self.shapes == MOST_SHAPES:
            raise Refused(17, shape.place, open_calls)  # "shape 1,048,577"
        self.shapes += 1
        numbers = list(shape.sizes)  # "Lengths, widths and diameters never change."
        for point in final:
            numbers += point
        if shape.direction is not None:
            x, y = shape.direction
            for letter, to_x, to_y in transformations:
                x, y = turned(letter, to_x, to_y, x, y)
            numbers += [x, y]
        self.write(shape.layer, shape.kind, numbers)

    def write(self, layer, kind, numbers):
        """"One command a line, each ended by `;` and byte 10. An L line stands before the first shape and before each shape whose layer name differs
        from the shape before. Numbers are shortest decimal with one space between; no space follows the letter." """
        if layer != self.layer:
            self.flat += b"L" + layer + b";\n"
            self.layer = layer
        self.flat += (kind + " ".join(str(n) for n in numbers) + ";\n").encode()


# ---- The answer


def refused(text, number, place, chain=()):
    """"On refusal the length and all counts are 0". Line and column are given for every refusal."""
    return Answer(number, place, 0, 0, 0, 0, 0, *position(text, place), chain, b"")


def draw(text, lent=None):
    """The answer to a text in a room that holds whatever it is. "Order: 1; then 2 [..]; then 3 to 9 [..]; then 10 to 17 in the order of drawing" """
    try:
        if len(text) > LONGEST:
            raise Refused(1, 0)
        meant = list(meaning(commands(text)))
        drawing = Drawing(lent)
        drawing.draw_text(meant)
    except Refused as found:
        return refused(text, found.number, found.place, found.chain)
    off_grid = sum(one.rounded for one in meant)
    # request 4: "On success line and column are 0 and the chain is empty."
    return Answer(0, 0, len(drawing.flat), drawing.shapes, drawing.calls, drawing.redefinitions, off_grid, 0, 0, (), bytes(drawing.flat))


def most_needed(text):
    """The least number of words with which a text is not refused with 25; 0 for one that is refused before anything is defined."""
    drawing = Drawing(None)
    try:
        drawing.draw_text(list(meaning(commands(text))))
    except Refused:
        pass
    return drawing.most_needed


def put(answer, room):
    """The same answer in a room of this length. "then 18": "flat file longer than the room or than 16,777,216" """
    if answer.length > min(room, LONGEST):
        return refused(b"", 18, 0)  # place 0 is on line 1 and in column 1 of every text
    return answer


def flatten(text, room, lent=None):
    return put(draw(text, lent), room)
