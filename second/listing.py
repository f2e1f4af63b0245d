"""What document 01's list program prints of a text, by the second opinion: its flat file is listed by the section on the list program, with the warnings of
request 1 before the total and the window of request 6. Sentences in quotation marks are document 01's, those after "request" document 02's, those after
"7.1.2.4" Chapter 7's."""
import reader

MOST = 32_768  # "takes at most 32,768 bytes; a longer one is refusal 1. Its room is 32,768 bytes."
POINTS = {"B": slice(2, 4), "R": slice(1, 3), "W": slice(1, None), "P": slice(None)}  # centres and path points


def line(*fields):
    return "\t".join(map(str, fields)) + "\n"


def reach(letter, numbers):
    """How far a shape reaches beyond each of its doubled points, along x and along y; from its line of the flat file, so that, as request 6 has it, "a box's
    direction after transformation decides"."""
    if letter == "R":  # request 6: "a flash or wire reaches its whole diameter or width beyond each doubled point"
        diameter = numbers[0]
        return diameter, diameter
    if letter == "W":
        width = numbers[0]
        return width, width
    if letter == "P":  # "a polygon reaches its points"
        return 0, 0
    length, width, dx, dy = numbers[0], numbers[1], numbers[4], numbers[5]
    if dy == 0:  # "a box along x or along y reaches its length and width the proper way round"
        return length, width
    if dx == 0:
        return width, length
    return length + width, length + width  # "a slanting box reaches length plus width on all four sides"


def window(shapes):
    """Lowest x, lowest y, highest x and highest y of shapes, each a letter and its numbers; None of none. Request 6: "Print it in half units, all four numbers
    doubled"."""
    lowest_x, lowest_y, highest_x, highest_y = [], [], [], []
    for letter, numbers in shapes:
        along_x, along_y = reach(letter, numbers)
        points = numbers[POINTS[letter]]
        for x in points[0::2]:
            lowest_x.append(2 * x - along_x)
            highest_x.append(2 * x + along_x)
        for y in points[1::2]:
            lowest_y.append(2 * y - along_y)
            highest_y.append(2 * y + along_y)
    return (min(lowest_x), min(lowest_y), max(highest_x), max(highest_y)) if lowest_x else None


def shapes_of(flat):
    """The shapes of a flat file: layer, letter and numbers of each."""
    layer = ""
    for command in flat.decode().split(";\n")[:-1]:
        letter, rest = command[0], command[1:]
        if letter == "L":
            layer = rest
        else:
            yield layer, letter, [int(n) for n in rest.split(" ")]


def warnings(text):
    """The warnings of a text that is not refused, in the order of their commands. Request 1: "They come in the order of their commands and change no answer." """
    live, symbol, calls = {}, None, []  # the live symbols, each with the calls of its body in written order
    for command in reader.commands(text):
        if command.kind == "DS":
            symbol, calls = command.numbers[0].value, []
        elif command.kind == "C":
            calls.append(command)
        elif command.kind == "DF":
            # 7.1.2.4: "If a symbol definition is encountered that defines a symbol number already recorded in the symbol table, the old definition is replaced
            # by the new one, and a warning message is issued. The message should read: "Warning: symbol n redefined." "
            if symbol in live:
                yield "Warning: symbol %d redefined.\n" % symbol
            live[symbol], calls = calls, []
        elif command.kind == "DD":
            live = {n: body for n, body in live.items() if n < command.numbers[0].value}
            # request 1: "The second is due after a DD when some live definition calls a number that is not live. After it and a tab stands the place of a
            # call: the first live definition, and in it the first call that finds nothing, definitions taken by number."
            dangling = [call for n in sorted(live) for call in live[n] if call.numbers[0].value not in live]
            if dangling:
                yield "Warning: dangling references after DD.\t%d\n" % dangling[0].place


def lines_of(text, drawn):
    """The same where it is known what the reader says of the text in a room that always suffices."""
    answer = reader.put(drawn, MOST)
    if len(text) > MOST:
        answer = reader.refused(text, 1, 0)
    if answer.number:  # request 4: "The program prints these after the place, parted by tabs."
        return line("refused", answer.number, answer.place, answer.line, answer.column, *answer.chain).encode()
    shapes = list(shapes_of(answer.flat))
    out = [line("shape", count, layer, letter, " ".join(map(str, numbers))) for count, (layer, letter, numbers) in enumerate(shapes, 1)]
    out += warnings(text)  # request 1: "directly before the `total` line"
    out.append(line("total", answer.shapes, answer.calls, answer.redefinitions))
    found = window((letter, numbers) for _, letter, numbers in shapes)
    out.append(line("window", *found) if found else line("window", "none"))
    return "".join(out).encode()


def listing(text):
    """What the list program prints of a text."""
    return lines_of(text, reader.draw(text))
