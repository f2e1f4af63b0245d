"""The summary of a text, and the comparison of two."""
import random
import re

from common import EXAMPLE, MOST, cif, expect, scratch


def summary(text):
    done = cif("summary", "-", text=text)
    expect(done.returncode == 0, "a summary", text[:80], done)
    head, *rows = done.stdout.decode().split("\n")[:-1]
    return head, rows


def test_summary():
    head, rows = summary(EXAMPLE)
    expect(head == "standard input: 1 shape, 1 call (1 deep), 1 definition, 0 redefinitions, 0 user extensions skipped", "the first line", head)
    head, rows = summary(b"9 x;LA;B4 4 0 0;B4 4 150 -25;W2 1 1;LB1;R4 -7 0;P0 0 9 9 0 9;P0 0 9 9 9 0;LA;W2 200 5 3 3;94 y;E")
    expect(head.endswith(" 7 shapes, 0 calls, 0 definitions, 0 redefinitions, 2 user extensions skipped"), "what is counted", head)
    want = [("A", 2, 0, 0, 2, "x -0.02 to 2.01, y -0.27 to 0.06"), ("B1", 0, 2, 1, 0, "x -0.09 to 0.09, y -0.02 to 0.09"), ("all", 2, 2, 1, 2, "x -0.09 to 2.01, y -0.27 to 0.09")]
    got = [re.fullmatch(r"  (\w+) +(\d+) +(\d+) +(\d+) +(\d+)   (.*)", row).groups() for row in rows[1:]]
    expect(got == [tuple(map(str, w)) for w in want], "a row for each layer: boxes, polygons, flashes, wires, window", rows)
    expect(len({re.search(r"\d(?=   x)", row).start() for row in rows[1:]}) == 1, "columns stand under each other", rows)
    expect(rows[0].endswith("   window that holds the figures, in microns"), "which window it is", rows)
    for text, window in ((b"LA;R3 1 2;E", "x -0.005 to 0.025, y 0.005 to 0.035"), (b"LA;B5 2 -1 0 0 -7;E", "x -0.02 to 0, y -0.025 to 0.025"), (b"LA;B10 5 0 1 3 4;E", "x -0.075 to 0.075, y -0.065 to 0.085")):
        expect([row.split("   ")[-1] for row in summary(text)[1][1:]] == [window] * 2, "half a hundredth of a micron", text, summary(text))
    expect(summary(b"(nothing);E")[1] == [], "no table where nothing is drawn")
    head, rows = summary(b"DS1 100 3;LA;R1 1 2;DF;E")
    expect(head.endswith(" 0 redefinitions, 3 rounded distances, 0 user extensions skipped"), "rounded distances, though nothing is drawn", head)
    expect(len(rows) == 1 and "grid of a third of a micron" in rows[0], "why they are rounded", rows)
    done = cif("summary", "-", text=b"X")
    expect(done.returncode == 1 and not done.stdout and b"refused 2" in done.stderr, "the summary of a refused text", done)
    out = scratch("summary.out")
    expect(cif("summary", scratch("good.cif", EXAMPLE), "-o", out).returncode == 0 and open(out).read().count("\n") == 4, "summary -o")


def test_depth():
    """The deepest call that is drawn, with definitions replaced, deleted, and never called."""
    for text, depth in (
        (b"DS1;DF;E", 0), (b"DS1;DF;C1;E", 1), (b"DS1;C2;DF;DS2;DF;C1;E", 2), (b"DS1;C2;DF;DS2;DF;C2;E", 1),
        (b"DS1;C2;DF;DS2;C3;DF;DS3;DF;C1;DS2;DF;C1;E", 3), (b"DS1;C2;DF;DS2;DF;C1;DS2;C3;DF;DS3;C4;DF;DS4;DF;E", 2),
        (b"DS1;C2;DF;DS2;DF;DS9;C1;DF;DD5;DS9;DF;C9;E", 1), (b"DS1;C2;DF;DS2;C1;DF;E", 0), (b"(C1;);DS 1;9 C1;DF;Call Symbol #1 T 5 5;E", 1),
        (b"".join(b"DS%d;C%d;DF;" % (i, i + 1) for i in range(1, 32)) + b"DS32;DF;C1;E", 32),
        (b"".join(b"DS%d;C%d;C%d;DF;" % (i, i + 1, i + 1) for i in range(1, 19)) + b"DS19;DF;C1;E", 19),
    ):
        head, _ = summary(text)
        found = re.search(r" calls? \((?:up to )?(\d+) deep\)", head)
        expect((int(found[1]) if found else 0) == depth, "how deep calls go", text[:80], depth, head)


def test_compare():
    shapes = [b"LA;B4 4 0 0;", b"LA;B4 4 0 0 1 0;", b"LB;R4 0 0;", b"LA;W2 0 0 9 9;", b"LC;P0 0 9 0 9 9;", b"LA;B4 4 0 0;"]
    text = b"".join(shapes) + b"E"
    one = scratch("one.cif", text)

    def compared(text, *words):
        done = cif("compare", *words, one, "-", text=text)
        expect(done.stderr == b"", "a comparison", done)
        return done.returncode, done.stdout.decode().split("\n")[:-1]
    same = [f"{one} and standard input draw the same 6 shapes, in the same order"]
    expect(compared(b"".join(shapes) + b"E") == (0, same), "the same text")
    expect(compared(b"DS1;" + b"".join(shapes).replace(b"LA;B4 4 0 0;", b"L A; Box 4 4 0 0 1 0;") + b"DF;C1;E") == (0, same), "the same drawing, written otherwise")
    turned = b"".join(shapes[::-1]) + b"E"
    expect(compared(turned, "--any-order") == (0, [same[0].replace("the same order", "any order")]), "the same shapes in another order")
    status, told = compared(turned)
    expect(status == 1 and told[0].endswith(" differ: 6 shapes and 6; 4 differ"), "another order", told)
    expect(told[1:3] == [f"  shape 2 of {one}:1:16: LA; B4 4 0 0 1 0;", "  shape 2 of standard input:1:16: LC; P0 0 9 0 9 9;"] and len(told) == 9, "what differs", told)
    for words in ([], ["--any-order"]):
        status, told = compared(b"".join(shapes[:5]) + b"E", *words)
        expect(status == 1 and told[-1] == f"  shape 6 of {one}:1:{text.rindex(b'B') + 1}: LA; B4 4 0 0 1 0;" and len(told) == 2, "a shape less, of which there are three", words, told)
        expect(compared(b"".join(shapes).replace(b"LB", b"LD") + b"E", *words)[0] == 1, "another layer")
        status, told = compared(b"LA;" + b"R9 9 9;" * 1000 + b"E", *words)
        expect(status == 1 and len(told) <= 11 and "of which the first are" in told[0], "only the first differences are shown", words, told)
    for files in ((one, scratch("bad.cif", b"X")), (scratch("bad.cif", b"X"), one)):
        done = cif("compare", *files)
        expect(done.returncode == 1 and not done.stdout and b"bad.cif:1:1: refused 2" in done.stderr, "a refused text cannot be compared", done)
    expect(cif("compare", one, scratch("none.cif")).returncode == 2, "a file that cannot be read")
    for words in (["compare", one], ["compare", one, one, one], ["compare", "--strict", one, one], ["flat", "--any-order", one]):
        expect(cif(*words).returncode == 2, "bad words for a comparison", words)


def places(text, *words):
    """Where the commands stand that draw the shapes of a text, as they are told when it is compared with one that draws nothing."""
    done = cif("compare", *words, scratch("drawn.cif", text), scratch("nothing.cif", b"E"))
    expect(done.returncode == 1, "a comparison with nothing", text[:80], done)
    return [tuple(map(int, re.search(rb"drawn\.cif:(\d+):(\d+): L", line).groups())) if b"drawn.cif:" in line and re.search(rb"cif:\d", line) else None
            for line in done.stdout.split(b"\n")[1:-1]]


def calling_text(seed):
    """A text in which every flash has a diameter of its own, on a line of its own: in definitions that call others, are replaced and deleted, and outside of them."""
    chance, live, size, text = random.Random(seed), set(), 0, "L A;"
    for _ in range(12):
        number, task = chance.randrange(1, 7), chance.randrange(5)
        if task < 2:
            text += f"DS {number};L {chance.choice('AB')};"
        for _ in range(chance.randrange(1, 4) if task < 4 else 0):
            if task < 2 or chance.randrange(4) == 0:
                size += 1
                text += f"\nR{size} {chance.randrange(50)} {chance.randrange(50)};"
            called = [each for each in sorted(live) if task > 1 or each < number]
            text += f"C{chance.choice(called)} MX T{chance.randrange(50)} 0;" if called else ""
        if task < 2:
            text += "DF;"
            live.add(number)
        elif task == 4:
            text += f"DD {number};"
            live = {each for each in live if each < number}
    return (text + f"\nR{size + 1} 0 0;E").encode()


def test_places():
    """The command that draws a shape: in a definition that is called, called by another, replaced later, deleted; after comments and extensions that look like shapes."""
    for text, lines in (
        (b"LA;\nR4 0 0;\nB4 4 0 0;E", [(2, 1), (3, 1)]),
        (b"DS1;LA;\nR4 0 0;\nDF;\nC1;C1 T 5 5;E", [(2, 1), (2, 1)]),
        (b"DS1;\nC2;\nLA;\nW2 0 0;DF;\nDS2;LB;\n Box 4 4 0 0;\nDF;\nC1;C2;E", [(6, 2), (4, 1), (6, 2)]),
        (b"DS1;LA;\nR4 0 0;DF;C1;DS1;LB;\nR4 0 0;DF;C1;DD1;DS1;LA;\nR4 0 0;DF;C1;E", [(2, 1), (3, 1), (4, 1)]),
        (b"DS1;LA;\nR4 0 0;DF;DS1;LA;\nR4 0 0;DF;C1;E", [(3, 1)]),
        (b"(R4 0 0;(B);\n);LA;9 R4 0 0;\nb R4 0 0;\n94 B4 4 0 0;P0 0 9 0 9 9;E", [(3, 3), (4, 13)]),
        (b"DS1 2 1;LA;\nR4 0 0;LB;\nR4 0 0;DF;LC;R4 1 1;C1;\nR4 2 2;E", [(3, 14), (2, 1), (3, 1), (4, 1)]),
        (b"LA;" + b"\nR4 0 0;" * 5 + b"E", [(2, 1), (3, 1), (4, 1), (5, 1), (6, 1)]),
    ):
        for words in ([], ["--any-order"]):
            expect(places(text, *words) == lines, "where the commands stand that draw shapes", text, lines, places(text, *words))
    for seed in range(40):
        text = calling_text(seed)
        drawn = [int(line.split(b"\t")[4].split()[0]) for line in cif("list", "-", text=text).stdout.split(b"\n") if line.startswith(b"shape")]
        lines = [(text.count(b"\n", 0, text.index(b"\nR%d " % each)) + 2, 1) for each in drawn[:5]]
        expect(places(text) == lines, "where the commands stand that draw shapes, each of its own size", text, lines, places(text))
    last = b"".join(b"\nR4 %d 0;" % i for i in range(50000))
    expect(places(b"LA;R9 9 9;" * 4 + b"DS1;LA;" + last + b"DF;C1;E")[4] == (2, 1), "a shape after many commands with names of their own")
    full = b"LA;\nR4 0 0;("
    expect(places(full.ljust(MOST - 5, b"x") + b");E") == [None], "a text in which no more commands fit: its shape is shown without a place")
    expect(places(full.ljust(MOST - 6, b"x") + b");E") == [(2, 1)], "and one in which they just do")
