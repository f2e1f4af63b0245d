"""The pictures: where each shape is drawn, how, and what stands around it."""
import os
import re
import xml.etree.ElementTree as tree

from common import EXAMPLE, cif, expect, scratch

SVG = "{http://www.w3.org/2000/svg}"
NUMBER = r"(-?[\d.]+)"
PAIR = NUMBER + ",?" + NUMBER  # a minus sign separates as well as a comma


class Picture:
    def __init__(self, text, *words):
        done = cif("plot", *words, "-", text=text)
        expect(done.returncode == 0, "a picture", text[:80], done.stderr)
        self.svg = done.stdout
        self.root = tree.fromstring(done.stdout)
        self.frame = self.root.find(SVG + "svg")
        self.words = [t.text for t in self.root.iter(SVG + "text")]
        self.layers = {g.get("id")[len("layer-"):]: g for g in self.root.iter(SVG + "g") if g.get("id")}

    def paths(self, layer):
        return self.layers[layer].findall(SVG + "path")

    def shapes(self, layer):
        """What the paths of a layer draw: (attributes of the path, points, radius or None, closed)."""
        return [(path.attrib, *sub) for path in self.paths(layer) for sub in subpaths(path.get("d"))]


def subpaths(data):
    """The parts of a path that this tool may write: points, the radius of a circle or None, whether it is closed."""
    start = (0.0, 0.0)
    for letter, part in re.findall(r"([Mm])([^Mm]*)", data):
        part, pair = part.strip(), re.match(PAIR, part)
        first, second = pair.groups()
        base = start if letter == "m" else (0.0, 0.0)
        start = (base[0] + float(first), base[1] + float(second))
        expect(letter == "M" or "h" in part or "a" in part, "only boxes and circles are counted from the one before", part)
        part = f"{start[0]:.10f},{start[1]:.10f}" + part[pair.end():]
        circle = re.fullmatch(f"{PAIR}a{PAIR} 0 1 0 {NUMBER},0a{PAIR} 0 1 0 {NUMBER},0z", part)
        if circle:
            x, y, *radii = map(float, circle.groups())
            r = radii[0]
            expect(radii[1] == r and abs(radii[2] - 2 * r) < 1e-9 and radii[3:5] == [r, r] and radii[5] == -radii[2], "a circle of two halves", part)
            yield [(x + r, y)], r, True
            continue
        dot = re.fullmatch(f"{PAIR}h0", part)
        if dot:
            yield [tuple(map(float, dot.groups()))], 0.0, False
            continue
        closed, part = part.endswith("z"), part.rstrip("z")
        step = re.fullmatch(f"{PAIR}h{NUMBER}v{NUMBER}(?:h{NUMBER})?", part)
        if step:
            x, y, h, v = map(float, step.groups()[:4])
            expect(float(step[5]) == -h and closed, "a box goes back to where it began", part)
            yield [(x, y), (x + h, y), (x + h, y + v), (x, y + v)], None, closed
        else:
            yield [tuple(map(float, re.fullmatch(PAIR, p).groups())) for p in part.split(" ")], None, closed


def near(some, others, within):
    return len(some) == len(others) and all(abs(a - b) <= within for p, q in zip(some, others) for a, b in zip(p, q))


def expect_placed(picture, layer, corners):
    """The polygon of a layer has these corners: measured against a box of 10 by 10 around zero on layer REF, and y goes upward."""
    x, y = zip(*picture.shapes("REF")[0][1])
    unit = (max(x) - min(x)) / 10
    want = [((min(x) + max(x)) / 2 + a * unit, (min(y) + max(y)) / 2 - b * unit) for a, b in corners]
    got = picture.shapes(layer)[0][1]
    turned = [got[i:] + got[:i] for i in range(len(got))]
    expect(any(near(t, want, unit / 1000) for t in turned + [t[::-1] for t in turned]), "where a shape is drawn", layer, got, want)
    area = sum(a * d - b * c for (a, b), (c, d) in zip(got, got[1:] + got[:1]))
    expect(area < 0, "all that is filled goes round counterclockwise on the screen", layer, got)


def test_boxes_and_polygons():
    picture = Picture(b"LREF;B10 10 0 0;LA;B4 2 20 30;LB;B4 2 -20 30 0 7;LC;B10 4 5 5 3 4;LD;B10 4 5 5 -3 -4;LF;P0 0 7 0 7 9;LG;B25 60 80 40 -20 20;E")
    around = ((1, 1), (-1, 1), (-1, -1), (1, -1))
    expect_placed(picture, "A", [(20 + a * 2, 30 + b) for a, b in around])
    expect_placed(picture, "B", [(-20 + a, 30 + b * 2) for a, b in around])
    slanting = [(5 + a * 3 - b * 1.6, 5 + a * 4 + b * 1.2) for a, b in around]
    expect_placed(picture, "C", slanting)
    expect_placed(picture, "D", slanting)
    expect_placed(picture, "F", [(0, 0), (7, 0), (7, 9)])
    expect_placed(Picture(b"LREF;B10 10 0 0;LF;P0 0 7 9 7 0;E"), "F", [(0, 0), (7, 0), (7, 9)])
    half = 0.5 ** 0.5  # the primer's box: length 25 toward (-20, 20), width 60 across it
    expect_placed(picture, "G", [(80 - a * 12.5 * half + b * 30 * half, 40 + a * 12.5 * half + b * 30 * half) for a, b in around])


def test_round_shapes():
    picture = Picture(b"LA;R6 10 20;LB;W4 0 0 30 0 30 40;LC;W8 5 5;W8 6 6 6 6;LD;B2 2 0 0;E")
    x = [p[0] for p in picture.shapes("D")[0][1]]
    unit = (max(x) - min(x)) / 2
    expect(abs(picture.shapes("A")[0][2] / unit - 3) < 1e-6, "a flash is a circle", picture.shapes("A"))
    (look, spots, _, closed), group = picture.shapes("B")[0], picture.layers["B"]
    wide = abs(float(look["stroke-width"]) / unit - 4) < 1e-6
    expect(wide and look["fill"] == "none" and len(spots) == 3 and not closed, "a wire is a line of its width", look)
    expect(group.get("stroke-linecap") == group.get("stroke-linejoin") == "round", "a wire has round ends", group.attrib)
    expect(group.get("stroke") == group.get("fill"), "a wire has the layer's colour", group.attrib)
    expect([abs(s[2] / unit - 4) < 1e-6 for s in picture.shapes("C")] == [True, True], "a wire of one point is a circle")
    expect(all(g.get("fill-rule") == "nonzero" for g in picture.layers.values()), "the winding rule")


def test_paths():
    """Few paths for a layer, and nothing cancelled: what crosses or touches itself has a path of its own, wires of one width share one."""
    boxes = b"".join(b"B4 4 %d %d;P%d %d %d %d %d %d;R4 %d 30;" % (i, i, i, 0, i, 9, i + 9, 9, i) for i in range(100))
    picture = Picture(b"LA;" + boxes + b"E")
    expect(len(picture.paths("A")) == 1 and len(picture.shapes("A")) == 300, "one path for all that is filled", len(picture.paths("A")))
    crossing = [b"P0 0 9 9 9 0 0 9;", b"P0 0 9 0 9 9 0 9 0 0 3 3 3 6 6 6 6 3 3 3;", b"P0 0 9 0 4 0 4 9;", b"P0 0 9 0 9 9 9 0;"]
    picture = Picture(b"LA;B4 4 0 0;" + b"".join(crossing) + b"P0 0 9 0 9 9 5 9 5 5 0 5;E")
    expect([len(list(subpaths(p.get("d")))) for p in picture.paths("A")] == [2, 1, 1, 1, 1], "what touches itself stands alone", [p.attrib for p in picture.paths("A")])
    picture = Picture(b"LA;" + b"".join(b"W%d 0 %d 999 %d;" % (1 + i % 3, i, i) for i in range(99)) + b"E")
    expect(len([p for p in picture.paths("A") if p.get("class") is None]) == 3, "a path for each width of wires", [p.attrib for p in picture.paths("A")])
    picture = Picture(b"LA;" + b"".join(b"W%d 0 %d 9999 %d;" % (100 + i % 50, i, i) for i in range(500)) + b"E")
    wires = [s for s in picture.shapes("A") if s[0].get("class") is None]
    expect(len(wires) == 500 and len({s[0]["stroke-width"] for s in wires}) == 50, "many widths: each wire once, at its width", len(wires))


def test_small_shapes():
    """What is thinner than a pixel gets a line, and flashes and one-point wires never vanish."""
    far = b"LZ;B100000 100000 0 0;"
    for text, look in ((b"R1 0 0;", "dot"), (b"W1 5 5;", "dot"), (b"W1 5 5 5 5;", "dot"), (b"P5 5 5 5 5 5;", "dot"), (b"B1 9000 0 0;", "line"), (b"W1 0 0 9000 0;", "line"),
                       (b"P0 0 1 0 1 9000 0 9000;", "line"), (b"R9000 0 0;", None), (b"B900 900 0 0;", None)):
        shapes = Picture(far + b"LA;" + text + b"E").shapes("A")
        expect([s[0].get("class") for s in shapes][-1] == look, "a line where a shape is thin, a dot where it is small", text, shapes)
        expect(look is None or float(shapes[-1][0]["stroke-width"]) > 0, "and a width for viewers without styles", text, shapes)
    shapes = Picture(far + b"LA;R180 0 0;R250 900 0;R2000 5000 0;E").shapes("A")
    expect([(s[0].get("class"), s[2]) for s in shapes] == [(None, 0.9), (None, 1.25), (None, 10.0), ("dot", 0.0), ("dot", 0.0)],
           "a dot has its true size too, and adds nothing to it", [(s[0], s[2]) for s in shapes])


def reach(picture):
    """How far the drawing goes in the frame: lowest x and y, highest x and y."""
    x, y = [], []
    for layer in picture.layers:
        for look, spots, radius, closed in picture.shapes(layer):
            half = radius if radius is not None else float(look["stroke-width"]) / 2 if not closed and "class" not in look else 0
            x += [a + side for a, _ in spots for side in (-half, half)]
            y += [b + side for _, b in spots for side in (-half, half)]
    return min(x), min(y), max(x), max(y)


def test_frames():
    """Single points, the smallest and the largest: the frame holds all, in numbers that every viewer takes."""
    far = 16777215
    for text in ("LA;P5 5 5 5 5 5;E", f"LA;R1 {far} {far};E", f"LA;R{far} {far} {far};LB;B{far} {far} -{far} -{far} 1 1;LC;W1 -{far} {far} {far} -{far};E",
                 f"LA;W1 0 0 0 {far};E", f"LA;W1 -{far} 0 {far} 0;E", f"LA;P0 0 {far} {far} 1 1;E", f"LA;B1 1 0 0 {far} 1;E"):
        picture = Picture(text.encode())
        left, top, right, bottom = reach(picture)
        _, _, width, height = map(float, picture.frame.get("viewBox").split())
        expect(0 < left <= right < width and 0 < top <= bottom < height, "the frame holds all, with a margin", text, picture.frame.attrib)
        expect(1000 <= max(width, height) <= 10000, "the frame is some thousands long", text, picture.frame.attrib)
    _, _, width, height = map(float, Picture(EXAMPLE).frame.get("viewBox").split())
    expect(abs(width / height - 108 / 58) < 1e-6, "a margin of a twenty-fifth of the longer side", width, height)
    empty = Picture(b"DS1;LA;R1 0 0;DF;E")
    expect(empty.words == ["standard input", "no shapes"] and len(empty.root.get("viewBox").split()) == 4, "no shapes: a picture that says so", empty.words)


def test_views():
    """The whole picture shows the window of the list, and so holds every figure, slanting boxes too; of some layers it is the window of those."""
    for text, layers, window in ((EXAMPLE, None, "x 0.25 to 1.25, y -0.25 to 0.25"), (b"LA;B10 4 0 0 3 4;E", None, "x -0.07 to 0.07, y -0.07 to 0.07"), (b"LA;R3 1 2;E", None, "x -0.005 to 0.025, y 0.005 to 0.035"),
                                 (b"LA;B10 5 3 2 0 -9;LB;W3 100 0 0 100;LA;P0 0 1 0 1 40;E", None, "x -0.015 to 1.015, y -0.03 to 1.015"),
                                 (b"LA;B10 5 3 2 0 -9;LB;W3 100 0 0 100;LA;P0 0 1 0 1 40;E", "A", "x 0 to 0.055, y -0.03 to 0.4"),
                                 (b"LA;B1 40 0 0 1 1;LC;R2 0 0;LB;B7 3 90 0;LA;R5 0 0;E", "B,C", "x -0.01 to 0.935, y -0.015 to 0.015")):
        picture = Picture(text, *(["--layers", layers] if layers else []))
        expect(picture.words[-1] == window + " \u00b5m", "what the foot says of the view", text, picture.words)
        left, top, right, bottom = reach(picture)
        _, _, width, height = map(float, picture.frame.get("viewBox").split())
        expect(0 < left <= right < width and 0 < top <= bottom < height, "the frame holds all, with a margin", text, picture.frame.attrib)
        listed = cif("list", "-", text=text).stdout.decode().split("\n")[-2].split("\t")[1:]
        shown = [float(n) for n in re.findall(r"-?[\d.]+", picture.words[-1])]
        expect(layers or [round(shown[i] * 200, 6) for i in (0, 2, 1, 3)] == [float(n) for n in listed], "the view is the list's window", text, shown, listed)


def test_legend_and_colours():
    one = Picture(b"LNM;R9 0 0;R9 20 0;LND;R9 9 9;LNM;R9 40 0;LQQ;R9 5 5;E")
    other = Picture(b"LY;R9 0 0;LND;R9 0 0;LQQ;R9 0 0;LNM;R9 0 0;E")
    expect(one.words[1:9] == ["layer", "shapes", "ND", "1", "NM", "3", "QQ", "1"], "the legend: headings, names and counts, as they are stacked", one.words)
    expect(list(one.layers) == ["ND", "NM", "QQ"] and len(one.shapes("NM")) == 3, "a group for each layer", list(one.layers))
    expect(all(one.layers[n].get("fill") == other.layers[n].get("fill") for n in one.layers), "a layer has the same colour in each picture, unless another one came first that wants it")
    crowd = Picture(b"".join(b"L%c;R9 0 0;" % c for c in b"ABCDEFGHIJKLMNOPQRST") + b"E")
    expect(len({g.get("fill") for g in crowd.layers.values()}) == 20, "twenty layers, twenty colours")
    crowd = Picture(b"".join(b"L%c;R9 0 0;" % c for c in b"ABCDEFGHIJKLMNOPQR") + b"LNM;R9 0 0;LCMF;R9 0 0;E")
    usual = crowd.layers["NM"].get("fill")
    expect(usual == one.layers["NM"].get("fill") == crowd.layers["CMF"].get("fill"), "usual layers have their colour, whatever came before them", usual)
    expect([n for n, g in crowd.layers.items() if g.get("fill") == usual] == ["NM", "CMF"], "and no other layer has metal's blue")
    stack = Picture(b"".join(b"L%s;R9 0 0;" % n for n in (b"CMS", b"CCP", b"CMF", b"X", b"CPG", b"CAA", b"CSN", b"CWN")) + b"E")
    expect(list(stack.layers) == ["CWN", "CSN", "CAA", "CPG", "CMF", "CCP", "CMS", "X"], "the usual stacking order", list(stack.layers))
    implants = {n for n in stack.layers if any(s[0].get("fill-opacity") for s in stack.shapes(n))}
    expect(implants == {"CWN", "CSN"}, "wells and implants are outlines", implants)


VIEWED = b"LNM;B400 400 0 0;B400 400 5000 0;LND;R200 0 0;LNP;W100 -3000 -3000 -3000 3000 3000 3000;LQQ;P0 0 100 0 100 100;E"


def test_window():
    """Just the window is shown, to scale, with the shapes whose reach meets it, and layers and counts of those."""
    whole, part = Picture(VIEWED), Picture(VIEWED, "--window", "-2.5", "-2", "1", "3")
    expect(list(part.layers) == ["ND", "NM", "QQ"] and [len(part.shapes(n)) for n in part.layers] == [1, 1, 1], "what lies in the window", list(part.layers))
    _, _, width, height = map(float, part.frame.get("viewBox").split())
    expect(abs(width / height - 3.5 / 5) < 1e-9 and part.frame.get("height") == "800", "the frame is the window", part.frame.attrib)
    unit = height / 500
    corners = [(50 * unit, 500 * unit), (450 * unit, 500 * unit), (450 * unit, 100 * unit), (50 * unit, 100 * unit)]
    expect(near(part.shapes("NM")[0][1], corners, unit / 1000), "where a shape stands in the window", part.shapes("NM")[0][1], corners)
    expect(part.words[-2:] == ["3 of 5 shapes, 3 of 4 layers", "x -2.5 to 1, y -2 to 3 \u00b5m"], "what the foot says of a window", part.words)
    expect(whole.words[-2:] == ["5 shapes, 4 layers", "x -30.5 to 52, y -30.5 to 30.5 \u00b5m"], "what it says of all", whole.words)
    expect(all(part.layers[n].get("fill") == whole.layers[n].get("fill") for n in part.layers), "the same colours as in the whole")
    rows = [w for w in part.words if w in part.layers]
    expect(rows == list(part.layers), "the legend has what is shown", part.words)
    for words in (["1", "3", "-2.5", "-2"], ["-2.5", "3", "1.000000", "-2."], ["-2.50", "-02", "1.0", "3"]):
        expect(Picture(VIEWED, "--window", *words).svg == part.svg, "corners in any order, numbers in any form", words)
    for window, layers in ((("2", "-1", "48", "1"), []), (("2", "-1", "48.01", "1"), ["NM"]), (("-30", "-1", "-29.5", "1"), ["NP"]), (("-29.5", "-29", "29", "29.5"), ["ND", "NM", "QQ"]),
                           (("-1000000", "-1000000", "1000000", "1000000"), ["ND", "NP", "NM", "QQ"]), (("0.5", "0.5", "0.51", "0.51"), ["ND", "NM", "QQ"])):
        seen = Picture(VIEWED, "--window", *window)
        expect(list(seen.layers) == layers, "layers in a window", window, list(seen.layers))
    empty = Picture(VIEWED, "--window", "900", "900", "901", "901")
    expect(empty.words == ["standard input", "none of 5 shapes is in view"], "a window without shapes", empty.words)


def test_layers():
    """Only the layers that are named, in the colours of the whole; one that is not drawn is told of."""
    whole, part = Picture(VIEWED), Picture(VIEWED, "--layers", "QQ,NM")
    expect(list(part.layers) == ["NM", "QQ"] and all(part.layers[n].get("fill") == whole.layers[n].get("fill") for n in part.layers), "layers by name", list(part.layers))
    expect(part.words[-2:] == ["3 of 5 shapes, 2 of 4 layers", "x -2 to 52, y -2 to 2 \u00b5m"], "the frame holds what is shown", part.words)
    expect(Picture(VIEWED, "--layers=QQ,NM").svg == part.svg == Picture(VIEWED, "--layers", "NM,QQ,NM").svg, "names in any order, after = too")
    for words, told, layers in ((["NM,XX"], b"cif: no shape is on layer XX in standard input\n", ["NM"]), (["Y,XX"], b"cif: no shape is on layer %s in standard input\n", [])):
        done = cif("plot", "-", "--layers", *words, text=VIEWED)
        told = told if layers else told % b"Y" + told % b"XX"
        expect(done.returncode == 0 and done.stderr == told, "a layer that is not drawn is told of", words, done.stderr)
        expect([g.get("id")[6:] for g in tree.fromstring(done.stdout).iter(SVG + "g") if g.get("id")] == layers, "and the others are shown", words)
    both = Picture(VIEWED, "--layers", "NP,NM", "--window", "-31", "-1", "1", "1", "--size", "400")
    expect(list(both.layers) == ["NP", "NM"] and both.words[-2].startswith("2 of 5 shapes") and both.frame.get("width") == "400", "all three at once", both.words)


def test_size():
    """The longer side of the frame in pixels; what is thinner than one of them gets a line."""
    for size in (100, 800, 1234, 20000):
        picture = Picture(b"LA;B1000 100 0 0;B1 100 700 0;E", "--size", str(size))
        expect(picture.frame.get("width") == str(size) and float(picture.root.get("width")) >= size, "the frame's size", size, picture.frame.attrib)
        lines = [s for s in picture.shapes("A") if s[0].get("class") == "line"]
        expect(len(lines) == (size < 1300), "thin is what is thinner than a pixel", size, lines)
    expect(Picture(VIEWED).svg == Picture(VIEWED, "--size=800").svg, "800 is the usual size")
    many = b"".join(b"L%c%c;R9 0 0;" % (65 + i // 10, 48 + i % 10) for i in range(100)) + b"E"
    rows = [len([g for g in Picture(many, "--size", size).root.iter(SVG + "g") if g.get("class") == "row"]) for size in ("100", "800", "1200", "3000")]
    expect(rows == [38, 38, 58, 100], "a large picture has a long legend", rows)


def test_view_words():
    """Words that make no sense are told so, with what must stand there, and nothing is written."""
    out = scratch("view.svg")
    for words in (["--window"], ["--window", "0", "0", "1"], ["--window", "0", "0", "1", "x"], ["--window", "0", "0", "0", "1"], ["--window", "0", "0", "1", "0.009"],
                  ["--window", "0", "0", "1", "1.0000001"], ["--window", "0", "0", "1", "1000001"], ["--window", "0", "0", "1", "9" * 99], ["--window", "0", "0", "1", "-"],
                  ["--window", "0", "0", "1", ""], ["--window", "0", "0", "1", "1.2.3"], ["--window", "0", "0", "1", "1e3"], ["--window", "0", "0", "1", "+1"],
                  ["--layers"], ["--layers", ""], ["--layers="], ["--layers", ","], ["--layers", "NM,"], ["--layers", ",NM"], ["--layers", "nm"], ["--layers", "NMNMN"], ["--layers", "N M"],
                  ["--size"], ["--size", "0"], ["--size", "99"], ["--size", "20001"], ["--size", "9" * 99], ["--size", "8e2"], ["--size="], ["--size", "-800"]):
        done = cif("plot", scratch("good.cif", EXAMPLE), "-o", out, *words)
        needs = f" must follow {words[0].rstrip('=')}\ncif: try cif --help\n"
        expect(done.returncode == 2 and not done.stdout and done.stderr.decode().endswith(needs) and not os.path.exists(out), "a view that makes no sense", words, done)
    window = ["--window", "0", "0", "1", "1"]
    for words in (window * 2, ["--size", "300", "--size=300"], ["--layers=A", "--layers=A"], ["--window=0", "0", "1", "1"], ["--sizes", "300"]):
        expect(cif("plot", scratch("good.cif", EXAMPLE), *words).returncode == 2, "an option twice, or none at all", words)
    for task in ("flat", "check", "list", "summary"):
        for words in (window, ["--layers", "CM"], ["--size", "300"]):
            done = cif(task, scratch("good.cif", EXAMPLE), *words)
            expect(done.returncode == 2 and b"does not go with it: " + words[0].encode() in done.stderr, "views are for plot", task, words, done)


def test_around():
    """The file's name, the origin, and the legend that hides layers by a script."""
    name = scratch("a<b>&\".cif", EXAMPLE)
    root = tree.fromstring(cif("plot", name).stdout)
    names = [root.find(SVG + "title").text, root.find(SVG + "text").text]
    expect(names == ["a<b>&\".cif"] * 2, "the title and the heading are the file's name", names)
    for text, crossed in ((b"LA;B4 4 0 0;E", True), (b"LA;B4 4 90 90;E", False), (b"LA;B4 4 -3 -3;B4 4 3 90;E", True)):
        picture = Picture(text)
        cross = [p for p in picture.frame.findall(SVG + "path") if p.get("id") == "origin"]
        expect(len(cross) == crossed, "a cross at the origin, where that is in the frame", text)
    picture = Picture(b"LA;B4 4 0 0;LB;B2 2 0 0;E")
    rows = [g.get("data-layer") for g in picture.root.iter(SVG + "g") if g.get("class") == "row"]
    expect(rows == ["layer-A", "layer-B"] and {g.get("id") for g in picture.layers.values()} == set(rows), "a row of the legend knows its layer", rows)
    expect(b'getAttribute("data-layer")' in picture.svg and picture.svg.count(b"<script>") == 1, "a script hides layers")


def test_many():
    names = [bytes(65 + (i >> shift) % 8 for shift in (9, 6, 3, 0)) for i in range(4096)]
    picture = Picture(b"".join(b"L%s;R1 %d %d;" % (n, i, j) for j in range(20) for i, n in enumerate(names)) + b"E")
    expect(len(picture.layers) == 4096 and all(sum(1 for s in picture.shapes(n) if s[0].get("class") == "dot") == 20 for n in picture.layers), "4,096 layers, mixed")
    expect(any("more layers" in w for w in picture.words), "a long legend ends", picture.words[-3:])
    done = cif("plot", "-", text=b"DS1;LA;" + b"R1 0 0;" * 1024 + b"DF;" + b"C1;" * 1024 + b"E")
    expect(done.returncode == 0 and done.stdout.count(b"z") >= 1048576 and done.stdout.endswith(b"</svg>\n"), "1,048,576 shapes drawn", done.stderr)
    boxes = b"DS1;LA;" + b"".join(b"B9 9 %d %d;" % (x * 15, y * 15) for x in range(32) for y in range(32)) + b"DF;"
    done = cif("plot", "-", text=boxes + b"".join(b"C1T%d %d;" % (x * 480, y * 480) for x in range(32) for y in range(20)) + b"E")
    parts = [path.count(b"z") for path in re.findall(rb'<path class="line"[^>]* d="([^"]*z\s*)"', done.stdout)]
    expect(done.returncode == 0 and len(done.stdout) <= 12000000, "655,360 boxes in 12 MB", len(done.stdout))
    expect(sum(parts) == 655360 and max(parts) <= 1024 and len(parts) == 640, "paths of 1,024, which a browser draws in three seconds (docs/SPEED.md)", len(parts))


def test_long_paths():
    """A path ends after 1,024 shapes where each has a line of its own; what is filled, or faint, stays in one, since gaps and overlaps would show."""
    def paths(shape, layer=b"A", size="800"):
        name = scratch("long.cif", b"L%s;" % layer + b"".join(shape % (x * 20, y * 20) for x in range(60) for y in range(50)) + b"E")
        group = tree.fromstring(cif("plot", name, "--size", size).stdout).find(f".//{SVG}g[@id='layer-{layer.decode()}']")
        return [re.sub("[^mMz]", "", path.get("d")) for path in group.findall(SVG + "path")]
    for shape in (b"B1 1 %d %d;", b"R2 %d %d;", b"W1 %d %d 7 7;"):
        counts = [max(path.count("z"), len(re.findall("[mM]", path))) for path in paths(shape)]
        expect(max(counts) == 1024 and sum(counts) % 3000 == 0, "a path ends", shape, counts)
    expect([path.count("z") for path in paths(b"B9 9 %d %d;")] == [3000], "and not where boxes may touch", paths(b"B9 9 %d %d;"))
    expect([len(re.findall("[mM]", path)) for path in paths(b"W9 %d %d 7 7;")] == [3000], "nor where wires may")
    expect([path.count("z") for path in paths(b"B1 1 %d %d;", b"CWN")] == [3000], "nor where overlaps would be darker")
