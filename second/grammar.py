"""The grammar of section 7.1.1, taken as it is printed and followed letter by letter: is a text in it, and where does a text get stuck?

A rule is followed from all places where it may begin to all places where it may end, so nothing is ever guessed or taken back. Slow and plain.
"""
# The rules of 7.1.1 in Wirth's notation. Document 01 mends two lines ("a separator is an upper-case letter or a blank; a layer-name character c is a
# digit or an upper-case letter") and `laverCommand`, `seo` and the shifted left sides are read through. The rules with one character each and
# commentText, the one rule that names itself, stand below in Python.
PRINTED = """
cifFile              = { { blank } [ command ] semi } endCommand { blank }.
command              = primCommand | defDeleteCommand |
                       defStartCommand semi { { blank } [ primCommand ] semi } defFinishCommand.
primCommand          = polygonCommand | boxCommand | roundFlashCommand | wireCommand |
                       layerCommand | callCommand | userExtensionCommand | commentCommand.
polygonCommand       = "P" path.
boxCommand           = "B" integer sep integer sep point [ sep point ].
roundFlashCommand    = "R" integer sep point.
wireCommand          = "W" integer sep path.
layerCommand         = "L" { blank } shortname.
defStartCommand      = "D" { blank } "S" integer [ sep integer sep integer ].
defFinishCommand     = "D" { blank } "F".
defDeleteCommand     = "D" { blank } "D" integer.
callCommand          = "C" integer transformation.
userExtensionCommand = digit userText.
commentCommand       = "(" commentText ")".
endCommand           = "E".
transformation       = { { blank } ( "T" point | "M" { blank } "X" | "M" { blank } "Y" | "R" point ) }.
path                 = point { sep point }.
point                = sinteger sep sinteger.
sinteger             = { sep } [ "-" ] integerD.
integer              = { sep } integerD.
integerD             = digit { digit }.
shortname            = c [ c ] [ c ] [ c ].
c                    = digit | upperChar.
userText             = { userChar }.
semi                 = { blank } ";" { blank }.
sep                  = upperChar | blank.
"""

# "A blank is any ASCII byte (0 to 127) except digits, upper-case letters, `-`, `(`, `)` and `;`. [..] Bytes from 128 up fit nowhere, also not in
# comments or user text."
ASCII = frozenset(range(128))
DIGITS = frozenset(b"0123456789")
UPPERS = frozenset(b"ABCDEFGHIJKLMNOPQRSTUVWXYZ")
BLANKS = ASCII - DIGITS - UPPERS - frozenset(b"-();")
CHARACTERS = {"digit": DIGITS, "upperChar": UPPERS, "blank": BLANKS, "userChar": ASCII - frozenset(b";")}

# What is remembered of the way through a text: these rules, and every character that a rule has in quotes.
REMEMBERED = {"polygonCommand", "boxCommand", "roundFlashCommand", "wireCommand", "layerCommand", "callCommand", "userExtensionCommand",
              "commentCommand", "defStartCommand", "defFinishCommand", "defDeleteCommand", "endCommand", "integer", "sinteger", "shortname"}


class Reading:
    """One text that is being followed. `furthest` is how far some way through the rules has come."""

    def __init__(self, text):
        self.text, self.furthest = text, 0


# ---- From the printed rules to expressions: ("one of", expressions), ("one after another", expressions), ("any number of", expression),
# ("zero or one", expression), ("character", character), ("rule", name).


def words(printed):
    """The rules in words of the notation: names, quoted characters, and each sign for itself."""
    at = 0
    while at < len(printed):
        if printed[at].isspace():
            at += 1
        elif printed[at] == '"':
            yield printed[at:at + 3]
            at += 3
        elif printed[at].isalpha():
            end = at
            while printed[end].isalpha():
                end += 1
            yield printed[at:end]
            at = end
        else:
            yield printed[at]
            at += 1


def expression(left, closing):
    """term { "|" term } from the words that are left, up to the closing sign, which is taken too."""
    terms, factors = [], []
    while True:
        word = left.pop(0)
        if word in (closing, "|"):
            terms.append(factors[0] if len(factors) == 1 else ("one after another", factors))
            factors = []
            if word == closing:
                return terms[0] if len(terms) == 1 else ("one of", terms)
        elif word == "{":
            factors.append(("any number of", expression(left, "}")))
        elif word == "[":
            factors.append(("zero or one", expression(left, "]")))
        elif word == "(":
            factors.append(expression(left, ")"))
        elif word[0] == '"':
            factors.append(("character", word[1]))
        else:
            factors.append(("rule", word))


def rules_of(printed):
    """The expression of each rule, by name."""
    left, rules = list(words(printed)), {}
    while left:
        name, equals = left.pop(0), left.pop(0)
        assert equals == "=", name
        rules[name] = expression(left, ".")
    return rules


RULES = rules_of(PRINTED)

# ---- Following a text. Each function is given the reading and the ways, a table from each place where a rule may begin to the trail that led there,
# and gives the ways to where it may end. A trail is a list linked backwards: (the trail before, what, place). Two ways to one place differ only in
# which rule took a blank or a character of a comment or of user text, so the first one is kept.


def one_character(reading, ways, allowed):
    text, ends = reading.text, {}
    for place, trail in ways.items():
        if place < len(text) and text[place] in allowed:
            ends[place + 1] = trail
            if place + 1 > reading.furthest:
                reading.furthest = place + 1
    return ends


def follow_expression(reading, ways, expression):
    form, inside = expression
    if not ways:
        return ways
    if form == "character":
        ends = one_character(reading, ways, inside.encode())
        return {place: (trail, inside, place - 1) for place, trail in ends.items()}
    if form == "rule":
        return follow_rule(reading, ways, inside)
    if form == "one after another":
        for factor in inside:
            ways = follow_expression(reading, ways, factor)
        return ways
    if form == "one of":
        ends = {}
        for term in inside:
            for place, trail in follow_expression(reading, ways, term).items():
                ends.setdefault(place, trail)
        return ends
    if form == "zero or one":
        return {**follow_expression(reading, ways, inside), **ways}
    assert form == "any number of"
    ends, new = dict(ways), ways
    while new:
        new = {place: trail for place, trail in follow_expression(reading, new, inside).items() if place not in ends}
        ends.update(new)
    return ends


def follow_rule(reading, ways, name):
    if name in CHARACTERS:
        return one_character(reading, ways, CHARACTERS[name])
    if name == "commentText":
        return comment_text(reading, ways)
    if name not in REMEMBERED:
        return follow_expression(reading, ways, RULES[name])
    begun = {place: (trail, "begin " + name, place) for place, trail in ways.items()}
    ends = follow_expression(reading, begun, RULES[name])
    return {place: (trail, "end " + name, place) for place, trail in ends.items()}


def comment_text(reading, ways):
    """commentText = { commentChar } | commentText "(" commentText ")" commentText: any ASCII with balanced parentheses. It ends wherever as many
    have been closed as opened. An opened one can always be closed, so each byte up to the first that is no ASCII or closes too much gets further."""
    ends = {}
    for place, trail in ways.items():
        depth = 0
        ends[place] = trail
        while place < len(reading.text) and reading.text[place] in ASCII:
            if reading.text[place] == ord("("):
                depth += 1
            elif reading.text[place] == ord(")"):
                if depth == 0:
                    break
                depth -= 1
            place += 1
            reading.furthest = max(reading.furthest, place)
            if depth == 0:
                ends[place] = trail
    return ends


class Node:
    """A remembered rule or quoted character of a grammatical text: its name, the bytes it covers, and what it is made of."""

    def __init__(self, name, start):
        self.name, self.start, self.end, self.parts = name, start, start + 1, []


def tree(trail):
    """The nodes of a whole text, from the trail that came to its end."""
    events = []
    while trail is not None:
        trail, what, place = trail
        events.append((what, place))
    open_nodes = [Node("cifFile", 0)]
    for what, place in reversed(events):
        if what.startswith("begin "):
            open_nodes.append(Node(what[len("begin "):], place))
        elif what.startswith("end "):
            node = open_nodes.pop()
            node.end = place
            open_nodes[-1].parts.append(node)
        else:
            open_nodes[-1].parts.append(Node(what, place))
    return open_nodes[0].parts


def follow(text):
    """(the commands of a text that is in the grammar, None), or (None, the place of refusal 2): the "length of the longest prefix that some
    continuation completes to a grammatical text". Every rule can be completed from wherever it has come to, so that is the furthest place."""
    reading = Reading(text)
    ends = follow_rule(reading, {0: None}, "cifFile")
    if len(text) in ends:
        return tree(ends[len(text)]), None
    return None, reading.furthest
