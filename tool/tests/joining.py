"""Texts joined into one: its bytes, what it draws, and what is not joined."""
import os

from common import EXAMPLE, MOST, cif, content, expect, scratch
from refusals import expect_told

ONE, TWO = b"DS1;LA;R2 0 0;DF;C1;E", b"(E);LE;R4 0 0;DS1;LB;W1 0 0;DF;C1T5 5;9E;E and so on\n"


def joined(first, *others):
    """RULES 18, request 14: the first cut at its E, then `DD0;`, then the second; and so on with the next."""
    for text in others:
        first = first[:first.rindex(b"E")] + b"DD0;" + text
    return first


def files(*texts):
    return [scratch(f"text{i}.cif", text) for i, text in enumerate(texts)]


def counts(shapes, calls, redefinitions, length, rounded=""):
    """The line that tells what the joined text draws."""
    def some(count, what):
        return f"{count} {what}" + ("" if count == 1 else "s")
    return f"accepted: {some(shapes, 'shape')}, {some(calls, 'call')}, {some(redefinitions, 'redefinition')}{rounded}; the flat file has {some(length, 'byte')}\n".encode()


def test_join():
    out = scratch("wafer.cif")
    flat = b"LA;\nR2 0 0;\nLE;\nR4 0 0;\nLB;\nW1 5 5;\n"
    for texts, drawn, told in (
        ((ONE, TWO), flat + b"E\n", counts(3, 2, 0, 38)),
        ((ONE, TWO, TWO, ONE), flat + flat[12:] + flat[:12] + b"E\n", counts(6, 4, 0, 74)),
        ((b"LA;R1 0 0;E ", b"LA;R2 0 0;E"), b"LA;\nR1 0 0;\nR2 0 0;\nE\n", counts(2, 0, 0, 22)),  # one L line where the two meet on a layer
        ((b"E", b"E", b"(E);E"), b"E\n", counts(0, 0, 0, 2)),
        ((b"DS1;DF;DS1;DF;E", b"DS1;DF;C1;DS1 1 2;LA;R1 2 0;DF;C1;E"), b"LA;\nR1 1 0;\nE\n", counts(1, 2, 2, 14, ", 1 rounded distance")),
    ):
        whole, names = joined(*texts), files(*texts)
        done = cif("join", *names, "-o", out)
        expect((done.returncode, done.stdout, content(out)) == (0, b"", whole), "the joined text", texts, done, content(out))
        expect(done.stderr.endswith(out.encode() + b": " + told), "what it draws is told", texts, done.stderr, told)
        done = cif("join", *names)
        expect((done.returncode, done.stdout) == (0, whole) and done.stderr.endswith(b"standard output: " + told), "on standard output", texts, done)
        expect(cif("flat", out).stdout == drawn, "one list after the other", texts, cif("flat", out))
    names = files(ONE, TWO)
    expect(cif("join", names[0], "-", text=TWO).stdout == joined(ONE, TWO), "standard input among them")
    expect(cif("join", *names, "-o", names[0]).returncode == 0 and content(names[0]) == joined(ONE, TWO), "FILE as OUT")


def test_each_by_itself():
    """No text is joined that is refused by itself, and all that are refused are told."""
    out = scratch("wafer.cif", b"as it was")
    for bad, number, place in ((b"R4 0 0;E", 8, 0), (b" E", 2, 1), (b"C1;E", 12, 0), (b"LA;R0 0 0;E", 7, 3), (b"", 2, 0), (b"E".ljust(MOST + 1), 1, 0)):
        for texts in ((bad, ONE), (ONE, bad), (ONE, bad, ONE)):
            names = files(*texts)
            done = cif("join", *names, "-o", out)
            expect((done.returncode, done.stdout, content(out)) == (1, b"", b"as it was"), "no file where a text is refused", texts[0][:40], done, content(out))
            expect_told(bad, number, place, done.stderr, names[texts.index(bad)])
    names = files(b"X", ONE, b"Y")
    told = cif("join", *names).stderr
    expect(all(told.count(name.encode() + b":1:1: refused 2") == i for name, i in zip(names, (1, 0, 1))), "every text that is refused is told", told)
    for words in (["join"], ["join", names[1]], ["join", names[1], names[1], "-q"], ["join", "--any-order", names[1], names[1]]):
        done = cif(*words)
        expect(done.returncode == 2 and not done.stdout and b"cif --help" in done.stderr, "bad words", words, done)
    done = cif("join", names[1], scratch("none.cif"), "-o", out)
    expect(done.returncode == 2 and b"cannot read" in done.stderr and content(out) == b"as it was", "a text that cannot be read", done)


def expect_not_joined(texts, why):
    """Nothing is written, and the first line says of the output why; answers what else is told, and the names."""
    out, names = scratch("limit.cif"), files(*texts)
    done = cif("join", *names, "-o", out)
    first, _, rest = done.stderr.partition(b"\n")
    expect((done.returncode, done.stdout, os.path.exists(out)) == (1, b"", False), "not joined", why, done.returncode, done.stderr[:200])
    expect(first == f"{out}: not written, though each text is accepted by itself: {why.format(*names)}".encode(), "why it is not joined", why, done.stderr[:300])
    return rest, names


def test_limits():
    """Each text is accepted, and the joined one is not: the places are those of the text that they are in."""
    long = b"LA;R1 0 0;(" + b"x" * (MOST // 2) + b");E"
    rest, _ = expect_not_joined((long, long), "the joined text would be longer than 16,777,216 bytes with {1}")
    expect(rest == b"", "nothing more is told", rest[:200])
    first = b"LA;R1 0 0;E  "
    edge = b"LB;R1 0 0;()E".replace(b"()", b"(" + b"x" * (MOST - len(joined(first, b"LB;R1 0 0;();E"))) + b");")
    for text, status in ((edge, 0), (edge + b" ", 1)):
        done = cif("join", *files(first, text), "-o", scratch("edge.cif"))
        expect(done.returncode == status, "the longest joined text", len(joined(first, text)), done.returncode, done.stderr[:200])
    shapes = b"\nDS1;LA;\n" + b"R1 0 0;" * 1024 + b"DF;\n" + b"C1;" * 600 + b"E"
    rest, names = expect_not_joined((shapes, shapes), "the joined text is refused")
    expect_told(shapes, 17, shapes.index(b"R"), rest, names[1], [shapes.index(b"C1") + 3 * 424])
    calls = b"".join(b"DS%d;C%d;C%d;\nDF;" % (i, i + 1, i + 1) for i in range(1, 19)) + b"DS19;LA;R1 0 0;DF;C1;E"  # 2^19 - 1 of them
    rest, names = expect_not_joined((calls, calls, calls), "the joined text is refused")
    expect_told(calls, 15, calls.index(b"C3"), rest, names[2], [calls.rindex(b"C1"), calls.index(b"C2")])
    boxes = b"DS1;LA;" + b"B16777215 16777215 16777215 16777215 16777215 16777215;" * 512 + b"DF;" + b"C1;" * 400 + b"E"
    rest, names = expect_not_joined((boxes, boxes), "the joined text is refused")
    expect(b"limit.cif:1:1: refused 18 at byte 0: " in rest and names[0].encode() not in rest, "a flat file that is too long", rest)


def test_join_remarks():
    """Hints and warnings are those of each text, and change no answer."""
    for text, told in ((b"LA;R1 0 0;94 x;E", b":1:11: hint: "), (b"DS1;LA;R1 0 0;DF;DS1;LA;R2 0 0;DF;C1;E", b":1:18: warning: symbol 1 redefined: "), (b"DS1;C9;DF;DD5;LA;R1 0 0;E", b":1:5: warning: dangling ")):
        for words, status in (([], 0), (["--strict"], 1)):
            names = files(text, EXAMPLE)
            done = cif("join", *words, *names)
            expect((done.returncode, done.stdout) == (status, joined(text, EXAMPLE)), "a hint or a warning", text, words, done)
            expect(done.stderr.startswith(names[0].encode() + told), "it is told with its text", text, done.stderr)
