"""What is in a symbol, by the second opinion: request 3 of document 02. `summarise(text, symbol, lent)` gives the refusal, or what a call of the symbol would
draw in the table left at the end of the text, and what stands in its own definition. Sentences in quotation marks are document 01's, those after "request"
document 02's."""
from typing import NamedTuple

import reader

MOST_NAMES = 64  # request 3: "each distinct layer name in the text's L commands getting one mark of 64"


class Summary(NamedTuple):
    number: int
    place: int
    gives: int  # 12, 13 or 14, or else 0
    layers: int
    height: int
    own_shapes: int
    own_calls: int
    own_layers: int
    line: int
    column: int
    first: bytes  # the name of the first layer, of no bytes if there is none


def marked(meant):
    """All commands with their meaning, and the layer names in the order in which they first appear; or the first of refusals 3 to 9 and 19. Request 3: "19, for
    a 65th layer name, by the summary only, at its L command, among 3 to 9 in text order"; an L command has none of 3 to 9."""
    read, names = [], []
    for one in meant:
        if one.command.kind == "L" and one.command.name not in names:
            names.append(one.command.name)
            if len(names) > MOST_NAMES:
                raise reader.Refused(19, one.command.place)
        read.append(one)
    return read, names


class Keeping(reader.Drawing):
    """The table as the reader keeps it, with refusals 10 and 25, and nothing drawn: "Angles, ranges and the count limits play no part here." """

    def draw_body(self, body, transformations, open_calls):
        pass


def calls_of(body):
    """The symbol of each call, in written order."""
    return [what.symbol for what in body if isinstance(what, reader.Call)]


def layers_of(body):
    return {what.layer for what in body if isinstance(what, reader.Shape)}


def first_fault(table, symbol, open_symbols, passed):
    """Request 3: "Where drawing the symbol would give 12, 13 or 14, it gives the first one's number in drawing order"; 0 if there is none. What was gone through
    at some depth without a fault has none when it is met again at that depth: it leads to nothing undefined, and to no symbol that leads to it."""
    if symbol not in table:
        return 12
    if symbol in open_symbols:
        return 13
    if len(open_symbols) + 1 > reader.MOST_DEPTH:
        return 14
    if (symbol, len(open_symbols)) not in passed:
        for callee in calls_of(table[symbol]):
            fault = first_fault(table, callee, open_symbols + [symbol], passed)
            if fault:
                return fault
        passed.add((symbol, len(open_symbols)))
    return 0


def reached(table, symbol):
    """The symbols that a call of this one draws, itself too."""
    found, new = {symbol}, [symbol]
    while new:
        callees = set(calls_of(table[new.pop()])) - found
        found |= callees
        new += callees
    return found


def height(table, symbol, known):
    """Request 3: "the height of a symbol is one more than its tallest callee, and 1 if it calls nothing" """
    if symbol not in known:
        known[symbol] = 1 + max((height(table, callee, known) for callee in calls_of(table[symbol])), default=0)
    return known[symbol]


def drawn(table, names, symbol):
    """What a call of the symbol gives, the number of its layers, its height and its first layer. Request 3: "it tells the number of distinct layers a call
    would draw, from the set marks, with the first to appear in the text, if any, and the height"; "with layers and height 0" where it gives a refusal."""
    fault = first_fault(table, symbol, [], set())
    if fault:
        return fault, 0, 0, b""
    layers = set().union(*(layers_of(table[n]) for n in reached(table, symbol)))
    return 0, len(layers), height(table, symbol, {}), next((name for name in names if name in layers), b"")


def read(text, lent=None):
    """The table left at the end of a text, and its layer names; or the refusal. "Order: 1; then 2 [..]; then 3 to 9 [..]", with 19 among them, then 10 and 25."""
    if len(text) > reader.LONGEST:
        raise reader.Refused(1, 0)
    meant, names = marked(reader.meaning(reader.commands(text)))
    keeping = Keeping(lent)
    keeping.draw_text(meant)
    return keeping.table, names


def summaries(text, symbols, lent=None):
    """What is told of each of these symbols. "On refusal the length and all counts are 0"."""
    try:
        table, names = read(text, lent)
    except reader.Refused as found:
        return [Summary(found.number, found.place, 0, 0, 0, 0, 0, 0, *reader.position(text, found.place), b"") for _ in symbols]
    told = []
    for symbol in symbols:
        gives, layers, tall, first = drawn(table, names, symbol)
        # request 3: "for each live definition its own shapes, own calls and the layers of its own shapes", whatever a call gives; none of an undefined symbol
        body = table.get(symbol, [])
        calls = calls_of(body)
        told.append(Summary(0, 0, gives, layers, tall, len(body) - len(calls), len(calls), len(layers_of(body)), 0, 0, first))
    return told


def summarise(text, symbol, lent=None):
    return summaries(text, [symbol], lent)[0]
