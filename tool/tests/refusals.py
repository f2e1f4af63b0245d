"""How a refusal is told: number, place, line and column, two sentences, the calls that lead to it, and the line with a caret under the place."""
import fcntl
import os
import pty
import re
import struct
import subprocess
import termios

from common import MOST, TOP, Run, cif, content, expect, leftovers, scratch


def refusals():
    """A text for each number, with its place and those of the calls that are open there, the outermost first."""
    many = b"".join(b"DS%d;DF;" % i for i in range(513))
    deep = b"".join(b"DS%d;C%d;DF;" % (i, i + 1) for i in range(1, 33)) + b"DS33;DF;C1;E"
    double = b"".join(b"DS%d;C%d;C%d;DF;" % (i, i + 1, i + 1) for i in range(1, 21)) + b"DS21;DF;C1;E"
    shapes = b"DS1;LA;" + b"R1 0 0;" * 1024 + b"DF;" + b"C1;" * 1025 + b"E"
    down = [deep.rindex(b"C1"), *(deep.index(b"C%d;" % i) for i in range(2, 33))]
    return [
        (1, 0, b"E".ljust(MOST + 1)),
        (2, 0, b""),
        (3, 6, b"LA;R1 16777216 0;E"),
        (4, 0, b"DS1 0 1;DF;E"),
        (6, 14, b"DS1 2 1;LA;R1 8388608 0;DF;E"),
        (7, 3, b"LA;R0 0 0;E"),
        (8, 0, b"R4 0 0;E"),
        (9, 3, b"LA;P" + b" 0 0" * 1025 + b";E"),
        (10, many.rindex(b"DS"), many + b"E"),
        (11, 0, b"C1 R 1 1;E"),
        (12, 0, b"C1;E"),
        (13, 4, b"DS1;C1;DF;C1;E", 10),
        (14, deep.index(b"C33"), deep, *down),
        (15, double.index(b"C2;DF"), double, double.rindex(b"C1")),
        (16, 7, b"DS1;LA;R1 1 0;DF;C1T16777215 0;E", 17),
        (20, 10, b"DS1;\nLA;\r\nR1 0 1;DF;DS2;\nC1;DF;\tC2\n\rT0\t 16777215 ;E", 32, 25),
        (17, shapes.index(b"R"), shapes, len(shapes) - 4),
        (18, 0, b"DS1;LA;" + b"B16777215 16777215 16777215 16777215 16777215 16777215;" * 512 + b"DF;" + b"C1;" * 600 + b"E"),
    ]


def expect_told(text, number, place, told, name="standard input", chain=()):
    """Looks at all that is told; answers the two sentences."""
    head, *rest = told.decode("ascii").split("\n")
    line, start = text.count(b"\n", 0, place) + 1, text.rfind(b"\n", 0, place) + 1
    opening = f"{name}:{line}:{place - start + 1}: refused {number} at byte {place}: "
    if not expect(head.startswith(opening) and len(head) > len(opening) + 10 and head[-1] in ".;", "the first line of a refusal", text[:80], told):
        return None
    if chain:
        expect_chain(text, chain, rest[:len(chain) + 2])
        rest = rest[len(chain) + 2:]
    excerpt = [] if number in (1, 18, 26) else rest[:2]
    rest = rest[len(excerpt):]
    if len(rest) == 5:
        expect_origin(text, place, rest[:3])
        rest = rest[3:]
    expect(len(rest) == 2 and rest[0].startswith("  ") and rest[0][-1] == "." and rest[1] == "", "the remedy of a refusal", text[:80], told)
    if excerpt:
        expect_caret(*line_around(text, place), *excerpt)
    return head[len(opening):], rest[0]


def position(text, place):
    return text.count(b"\n", 0, place) + 1, place - text.rfind(b"\n", 0, place)


def expect_chain(text, chain, told):
    """A line for each open call, with its position and its text up to the semicolon, and one before and after them."""
    head = "  In 1 call:" if len(chain) == 1 else f"  In {len(chain)} calls, the outermost first:"
    expect((told[0], told[-1]) == (head, "  and there:"), "around the open calls", text[:80], told)
    for place, line in zip(chain, told[1:-1]):
        start = "    line %d, column %d: " % position(text, place)
        call = re.sub(r"\s+", " ", shown(text[place:text.index(b";", place)], "\n\v\f\r")).strip()
        cut = line.endswith("...") and call.startswith(line[len(start):-3]) and 60 < len(line) < 80
        expect(line.startswith(start) and (line[len(start):] == call and len(line) < 80 or cut), "an open call", text[:80], line, start + call)


def line_around(text, place):
    """The line of a place as it is shown, without a carriage return at its end, and the place in it."""
    start, end = text.rfind(b"\n", 0, place) + 1, text.find(b"\n", place)
    line = text[start:end if end >= 0 else len(text)]
    return line[:-1] if end > place + 1 and line.endswith(b"\r") else line, place - start


def expect_origin(text, place, told):
    """Three lines that tell where what is being read at the place began: earlier, at a byte that begins a command."""
    where = re.fullmatch(r"  (This command|The comment|The definition) began on line (\d+), column (\d+)(:|\. Is a semicolon missing .*\?)", told[0])
    if expect(where, "where it began", text[:80], told):
        lines = text.split(b"\n")
        at = sum(len(line) + 1 for line in lines[:int(where[2]) - 1]) + int(where[3]) - 1
        expect(at < place and text[at:at + 1] in {"The c": [b"("], "The d": [b"D"]}.get(where[1][:5], [bytes([c]) for c in b"PBRWLCD(0123456789"]),
               "it began where a command begins", text[:80], told)
        expect_caret(*line_around(text, at), *told[1:])


def shown(line, blanks=""):
    """Bytes as they are shown, a tab and some others as blanks."""
    return "".join(" " if byte == 9 or chr(byte) in blanks else chr(byte) if 32 <= byte < 127 else f"\\x{byte:02X}" for byte in line)


def expect_caret(line, place, told, caret):
    """The line, cut where it is long, and a caret under the byte at the place."""
    at = len(caret) - 1
    expect(caret == " " * at + "^" and len(told) < 80, "the caret stands alone, and the line is not long", line[:80], told, caret)
    left, right, before, behind = told[4:at], told[at:], shown(line[:place]), shown(line[place:])
    whole = left == before and right == behind
    expect(whole or len(told) > 60, "a line that is cut uses the width", line[:80], told)
    cut = left.startswith("...") and len(left) >= 20 and before.endswith(left[3:])
    expect(told[:4] == "    " and (left == before or cut), "what stands before the caret", line[:80], told, caret)
    cut = right.endswith("...") and len(right) >= 20 and behind.startswith(right[:-3])
    expect(right == behind or cut, "what stands after the caret", line[:80], told, caret)


def listed(text, number, place, chain=()):
    """The line of a refusal in the list."""
    return "\t".join(["refused", *map(str, (number, place, *position(text, place), *chain))]).encode() + b"\n"


def test_every_number():
    numbers, sentences = set(), set()
    for number, place, text, *chain in refusals():
        name, out, new = scratch(f"refused{number}.cif", text), scratch("kept.out", b"as it was"), scratch("new.out")
        for words, stdout in ((["check", name], b""), (["flat", name], b""), (["plot", name, "-o", out], b""), (["flat", name, "-o", new], b""),
                              (["list", name], listed(text, number, place, chain))):
            done = cif(*words)
            expect((done.returncode, done.stdout) == (1, stdout), "a refusal ends with 1", number, words[0], done)
            told = expect_told(text, number, place, done.stderr, name, chain)
        kept = content(out) == b"as it was" and not os.path.exists(new) and not leftovers(os.path.dirname(out))
        expect(kept, "a refusal writes no file", number)
        numbers.add(number)
        sentences.add(told)
    expect(numbers == {*range(1, 19), 20} - {5} and len(sentences) == 18, "each number but 5, which never comes, has its own sentences", sentences)


def test_chains():
    """The open calls as they are shown: on lines of every kind, long ones, and with bytes that cannot be shown."""
    for text, number, place, chain in (
        (b"DS1;C2;DF;\nDS2;C3;DF;\r\nDS3;\n\n  C9;DF;C1;E", 12, 31, (37, 4, 15)),
        (b"DS1;C2;DF;DS2;C1;DF;\nCall Symbol #2 Mirrored in X\n then T 10 20  ;E", 13, 4, (21, 14)),
        (b"DS1;C9;DF;C1" + b"T 100 100 " * 32 + b";E", 12, 4, (10,)),
        (b"DS1;C9;DF;C1" + b" " * 300 + b"T 100 100;E", 12, 4, (10,)),
        (b"DS1;C9;DF;C\x01\x7f1\x00\x1b[mT0\x1b0;E", 12, 4, (10,)),
        (b"DS1;C9;DF;C1" + b"\x01" * 100 + b"MX;E", 12, 4, (10,)),
        (b"\n" * 1000 + b";DS1;C9;DF;" + b";" * 1000 + b"C1" + b"MX" * 32 + b";E", 12, 1005, (2011,)),
    ):
        done = cif("list", "-", text=text)
        expect(done.stdout == listed(text, number, place, chain), "the chain in the list", text[:80], done)
        expect_told(text, number, place, done.stderr, chain=chain)
        name = scratch("chain.cif", text)
        one, two = cif("check", name, name).stderr.split(b"\n")[:-1] or (b"", b"")
        expect(one == two and one.startswith(b"%s:%d:%d: refused" % (name.encode(), *position(text, place))), "of several files only the first line is told", one)
    told = on_terminal(40, b"DS1;C9;DF;C1" + b"T 100 100 " * 32 + b";E", TERM="xterm", NO_COLOR="1")
    expect(told[1] == "  In 1 call:" and told[2].endswith("...") and 34 < len(told[2]) < 40, "an open call on a narrow terminal", told)


def test_words():
    """25 never comes, however dense the bodies are: the tool lends as many words as the text has bytes. Each command stands at its shortest."""
    for body in (b"LA;", b"C1;", b"C1MX;", b"C1T0 0;", b"C1R0 1;", b"LA;" + b"B1 1 0 0;" * 9, b"LA;" + b"R1 0 0;" * 9, b"LA;" + b"W1 0 0;" * 9, b"LA;" + b"P0 0 0 0 0 0;" * 9):
        for count in (1, 500):
            text = b"".join(b"DS%d;" % n + body + b"DF;" for n in range(count)) + b"E"
            done = cif("check", "-", text=text)
            expect((done.returncode, b"refused" in done.stderr) == (0, False), "no 25", count, body, done)
    text = b"DS1;" + b"LA;" * ((MOST - 8) // 3) + b"DF;E"
    done = cif("check", "-q", "-", text=text.ljust(MOST))
    expect(done.returncode == 0, "no 25 for the longest text", done)


def test_cases():
    """Refusals whose sentence depends on what stands there."""
    for number, place, text, words in (
        (2, 1, b"L\xe9;E", "not ASCII"),
        (2, 0, b"\xef\xbb\xbfE", "not ASCII"),
        (2, 1, b"(\x80);E", "not ASCII"),
        (2, 3, b"(()", "inside a comment"),
        (2, 4, b"DS1;", "inside a symbol definition"),
        (2, 2, b"LA", "in the middle of a command"),
        (2, 3, b"LA;", "without its End"),
        (2, 4, b"DS1;E", "inside a symbol definition"),
        (2, 1, b" E", "blanks stand before"),
        (2, 5, b"DS1;DS2;DF;DF;E", "do not nest"),
        (2, 5, b"DS1;DD2;DF;E", "do not nest"),
        (2, 6, b"DS1;DFC1;E", "no semicolon follows this DF"),
        (2, 8, b"DS1;D F\nE", "no semicolon follows this DF"),
        (2, 5, b"DS1;D1;DF;E", "none of the forms"),
        (2, 0, b"X;E", "no command can start"),
        (2, 0, b"-1;E", "no command can start"),
        (2, 2, b"()LA;E", "no semicolon follows this comment"),
        (2, 3, b"(a));E", "no semicolon follows this comment"),
        (2, 5, b"LABCDE;E", "one to four"),
        (2, 3, b"LM_1;E", "one to four"),
        (2, 4, b"LNM B4 4 0 0;E", "one to four"),
        (2, 2, b"B1-2 3 4;E", "box does not"),
        (2, 5, b"LA;P0;E", "polygon does not"),
        (2, 4, b"LA;R;E", "flash does not"),
        (2, 7, b"LA;W1 2;E", "wire does not"),
        (2, 3, b"C1 A;E", "call does not"),
        (2, 1, b"DF;E", "none is open"),
        (2, 1, b"D1;E", "none of the forms"),
        (2, 2, b"E X", "only blanks"),
        (2, 1, b"E;", "only blanks"),
        (7, 3, b"LA;B1 0 0 0;E", "box"),
        (7, 3, b"LA;B1 1 0 0 0 0;E", "box"),
        (7, 3, b"LA;W0 0 0;E", "wire"),
        (7, 11, b"DS1 1 3;LA;R1 0 0;DF;E", "rounded after scaling"),
        (7, 11, b"DS1 1 3;LA;W1 0 0;DF;E", "rounded after scaling"),
        (7, 11, b"DS1 1 3;LA;B3 1 0 0;DF;E", "rounded after scaling"),
        (7, 3, b"LA;P0 0 1 1;E", "polygon"),
        (7, 0, b"C1R0 0;E", "call"),
        (9, 0, b"C1" + b"MX" * 33 + b";E", "transformations"),
        (9, 3, b"LA;W1" + b" 0 0" * 1025 + b";E", "points"),
    ):
        told = expect_told(text, number, place, cif("check", "-", text=text).stderr)
        expect(told is not None and words in told[0], "the sentence of a case", words, text, told)


def test_origins():
    """Where a semicolon, a parenthesis or a DF is missing, the message leads to where the command, the comment or the definition began."""
    for text, began in (
        (b"L NM\nB 4 4 0 0;\nE", "This command began on line 1, column 1. Is a semicolon missing before this line?"),
        (b"L NM;\nB 4 4 0 0\nB 4 4 9 9;\nE", "This command began on line 2, column 1. Is a semicolon missing before this line?"),
        (b"DS1;DF;\n C 1 T 0 0\nC 1;\nE", "This command began on line 2, column 2. Is a semicolon missing before this line?"),
        (b"L NM;\nB 4 4 0 0\n9 name;\nE", "This command began on line 2, column 1. Is a semicolon missing before this line?"),
        (b"LA;\nW 4 0 0\n", "This command began on line 2, column 1. Is a semicolon missing after it?"),
        (b"(a)\nLA;E", "The comment began on line 1, column 1. Is a semicolon missing before this line?"),
        (b"LA;\n (open (x)\nDF;\nE\n", "The comment began on line 2, column 2:"),
        (b"LA;(x\n", "The comment began on line 1, column 4:"),
        (b";DS 1;\nLA;\nE\n", "The definition began on line 1, column 2:"),
        (b"DS 1;\nDF;\nDS 2;\nDS 3;\nDF;E", "The definition began on line 3, column 1:"),
        (b"DS 1;\nLA;\n", "The definition began on line 1, column 1:"),
        (b"DS 1;\nLA;\n DF\nC 1;\nE", "This command began on line 3, column 2. Is a semicolon missing before this line?"),
        (b"L NM B 4 4 0 0;E", None),
        (b"B 4 4 - 0;E", None),
    ):
        told = cif("check", "-", text=text).stderr.decode().split("\n")
        expect(("  " + began == told[3]) if began else len(told) == 5, "where it began", text, told)


def test_skipped():
    """Where a command is missing since a user extension without its semicolon runs on over it, the message leads there."""
    began = "  A user extension, which goes on up to a semicolon, began on line %d, column %d. Is its semicolon missing?"
    for text, line, column in (
        (b"DS 1;\n9 cell\nL NM;\nB 4 4 0 0;\nDF;\nE", 2, 1),
        (b" 94 out 0 0\nL NM;\nR 4 0 0;\nE", 1, 2),
        (b"DS 1;\nL NM;94 out\nDF;\nDS 2;\nDF;\nE", 2, 6),
        (b"DS 1;\n9 cell\nDF;\nE", 2, 1),
        (b"DS 1;\n9 cell\nDF;\n", 2, 1),
        (b"9 cell\nDS 1;\nDF;\nE", 1, 1),
    ):
        told = cif("check", "-", text=text).stderr.decode().split("\n")
        expect(began % (line, column) == told[3], "where a command was skipped", text, told)
    for text in (b"DS 1;\n9 cell\nL NM;\nDF;\nDS 2;\nB 4 4 0 0;\nDF;\nE", b"94 out\nB 4 4 0 0;\nR 4 0 0;\nE", b"DS 1;\n9 a cell\nLow and wide;\nB 4 4 0 0;\nDF;\nE", b"9 cell\nL NM;\nB 4 4 - 0;\nE"):
        told = cif("check", "-", text=text).stderr
        expect(b"user extension" not in told, "what was not skipped, or is not missing", text, told)


def test_every_semicolon():
    """Each semicolon of two samples left out in turn, the comments' own aside: the text is refused, and the message shows the line that it is missing on, or there is a hint."""
    for sample in ("cells.cif", "magic.cif"):
        whole = content(os.path.join(TOP, "samples", sample))
        outside = re.sub(rb"\([^)]*\);", lambda found: b" " * len(found[0]), whole)
        for at in (i for i, byte in enumerate(outside) if byte == ord(";")):
            line, done = whole.count(b"\n", 0, at) + 1, cif("check", "-", text=whole[:at] + whole[at + 1:])
            leads = re.search(rb"(^standard input:| on line )%d\b" % line, done.stderr)
            expect(leads if done.returncode == 1 else b": hint: " in done.stderr, "where a semicolon is missing", sample, line, done)


def test_remedies():
    """Remedies that fit what stands there, and texts beside them that get another one."""
    for words, texts, others in (
        ("direction, not degrees", (b"C1 R 90;E", b"C1 R 90 T 1 2;E", b"C1 T 5 5 R -90;E"), (b"C1 R 1 0 0;E", b"C1 R;E", b"LA;R 90;E")),
        ("A call takes T x y", (b"C 1 X 10 20;E", b"C1 A;E"), (b"C 1 T 10;E", b"C 1 B 4;E")),
        ("A comment is a command of its own", (b"LA;W 10 0 0 (x) 9 9;E", b"L (x) A;E", b"C1 (x) T 0 0;E"), (b"(a)(b);E",)),
        ("A decimal point is a blank", (b"LA;B 1.5 2 0 0;E", b"LA;R1.5 0 0;E"), (b"LA;B 1 2 3 - 4;E", b"LA;R 1. 0 - 2;E")),
        ("Lower-case letters are blanks", (b"l nm; b 4 4 0 0; e", b"b -4 4;E", b"Ds 1;Df;E", b"ds 1;e\n"), (b"LA;", b"-4;E", b"D 1;E")),
        ("a box has 4 numbers", (b"LA;B4 4 0;E", b"LA;B4 4 0 0 1;E", b"LA;B4 40 0;E"), (b"LA;B4 4 0 - 0;E", b"LA;B4 4 0 0 1 0 0;E", b"LA;B4.5 4;E", b"LA;R4 0;E")),
        ("a flash has 3", (b"LA;R4 0;E",), (b"LA;R4 0 0 0;E",)),
        ("a wire has its width", (b"LA;W4 0 0 5;E", b"LA;W4;E", b"LA;W4 0 0X;E"), (b"LA;W4 0 0-5;E",)),
        ("a polygon has two", (b"LA;P0 0 5 0 5;E", b"LA;P0 0 5 0 -;E"), (b"LA;P0 0 5 0 - 5;E",)),
        ("DS has the symbol's number", (b"DS 1 2;DF;E", b"DS;DF;E", b"DD;E"), (b"D;E", b"DS -1;DF;E")),
        ("the one before it needs its semicolon", (b"L NM B 4 4 0 0;E", b"LA;\nB 4 4 0 0\nB 4 4 9 9;E", b"C1 T 0 0 C 2;E"), (b"LABCDE;E", b"LA;\nB 4 4\n0 - 4;E")),
    ):
        for text in texts + others:
            told = cif("check", "-", text=text)
            expect(told.returncode == 1 and (words.encode() in told.stderr) == (text in texts), "a remedy that fits", words, text, told.stderr)


def test_no_layout():
    """What is no layout is called so first; the refusal's number and place stay."""
    for words, texts in (
        ("the text is empty", (b"",)),
        ("no layout: the text holds blanks", (b" \n", b"hello, world\n", b"e\n")),
        ("no layout: it looks like a web page", (b"<!DOCTYPE html>\n<html>", b" <html><body>E", b"<?xml version='1.0'?><svg/>", b"\xef\xbb\xbf<html>")),
        ("Crystallographic Information File", (b"data_global\n_cell_length_a 5.4\n", b"#\\#CIF_2.0\ndata_x\n", b"# quartz\n_cell_length_a 4.9\nloop_\n")),
        ("no layout: the file is not a text", (b"\x00\x06\x00\x02\x02\x58", b"\x1f\x8b\x08\x00\x01", b"\x89PNG\r\n\x1a\n\x00", b"%SEMI\x00", b"\xff\xfeE\x00")),
    ):
        for text in texts:
            done = cif("list", "-", text=text)
            number, place, *where = map(int, done.stdout.split()[1:])
            expect(tuple(where) == position(text, place), "line and column in the list", text, done)
            told = expect_told(text, number, place, done.stderr)
            expect(number == 2 and told is not None and words in told[0], "what is no layout", words, text, done)
    for text in (b"\xef\xbb\xbfE", b"(\xb5m);E", b"X;E", b"(data_);X", b"LA"):
        told = cif("check", "-", text=text).stderr
        expect(b"no layout" not in told and b"Crystal" not in told, "what may well be a layout", text, told)


def on_terminal(columns, text, **more):
    """What a terminal of so many columns is sent, as lines."""
    reading, writing = pty.openpty()
    fcntl.ioctl(writing, termios.TIOCSWINSZ, struct.pack("HHHH", 24, columns, 0, 0))
    name = scratch("terminal.cif", text)
    done = subprocess.Popen([Run.cif, "check", name], stdin=subprocess.DEVNULL, stdout=subprocess.DEVNULL, stderr=writing, env={**os.environ, **more})
    os.close(writing)
    sent = b""
    try:
        while part := os.read(reading, 4096):
            sent += part
    except OSError:  # how Linux tells that nobody writes any more
        pass
    os.close(reading)
    expect(done.wait() == 1, "a refusal on a terminal", done.returncode)
    return sent.decode().replace("\r\n", "\n").split("\n")


def test_terminal():
    text = b"LA; (" + b"words " * 60 + b"); B 4 4 0 - 4; (" + b"words " * 60 + b");E"
    for columns in (40, 80, 200):
        told = on_terminal(columns, text, TERM="xterm", NO_COLOR="1")
        expect(all("\x1b" not in line for line in told), "no colour where NO_COLOR is set", told)
        expect(len(told[1]) >= columns - 8 and all(len(line) < columns for line in told[1:]), "lines as wide as the terminal", columns, told)
        expect(told[1][len(told[2]) - 1] == " " and told[1][len(told[2]) - 2:].startswith("- 4;"), "the caret in its place", told)
        expect(" ".join(line.strip() for line in told[3:-1]).endswith("the minus sign touches its digit."), "a remedy in several lines", told)
    told = on_terminal(80, text, TERM="xterm", NO_COLOR="")
    expect("\x1b[31;1mrefused\x1b[0m 2" in told[0] and told[2].endswith("\x1b[32;1m^\x1b[0m"), "colours on a terminal", told)
    expect(all("\x1b" not in line for line in on_terminal(80, text, TERM="dumb", NO_COLOR="")), "no colours on a dumb one")
    expect(b"\x1b" not in cif("check", "-", text=text, env={**os.environ, "TERM": "xterm", "NO_COLOR": ""}).stderr, "no colours in a pipe")


def test_excerpts():
    """Long lines, many lines, bytes that cannot be shown, places at the end."""
    for text, place in (
        (b"LA;\n" * 70000 + b"X;E", 280000),
        (b"x" * 5000 + b"X" + b"y" * 5000, 5000),
        (b"\t\tX;E", 2),
        (b"\x00\x1b[m\x07X;E", 5),
        (b"(\r\n);\r\n\x7f;X;E", 9),
        (b"(" + b"\x01" * 300 + b")X", 302),
        (b"LA\nX;E", 3),
        (b"B1 2 3\n;E", 7),
        (b"\n\n\n", 3),
        (b"LA;\n\nB", 6),
        (b"(" * 9000, 9000),
    ):
        expect_told(text, 2, place, cif("check", "-", text=text).stderr)
    done = cif("check", scratch("a\x1b[1m\nb.cif", b"X"))
    expect(b"\x1b" not in done.stderr and done.stderr.count(b"\n") == 4, "a name with control bytes is shown safely", done)
    for name, seen in ((b"a\xc2\x9bb", rb"a\xC2\x9Bb"), (b"a\xe2\x80\xaeb", rb"a\xE2\x80\xAEb"), (b"a\xe2\x81\xa6b", rb"a\xE2\x81\xA6b"), (b"a\xff\xc3b", rb"a\xFF\xC3b"),
                       (b"a\xd8\x9cb", rb"a\xD8\x9Cb"), (b"a\xc0\xaf", rb"a\xC0\xAF"), (b"\xc3\xa4\xe5\x9b\xbe\xf0\x9f\x98\x80", b"\xc3\xa4\xe5\x9b\xbe\xf0\x9f\x98\x80")):
        done = cif("check", os.path.join(os.fsencode(Run.folder), name))
        expect(b"/" + seen + b": " in done.stderr, "a name is shown safely, and in its own letters where that is safe", name, done)
    done = cif("check", "-", text=b"LA;\r\nB 4 4 - 0;\r\nE\r\n")
    expect(b"\\x0D" not in done.stderr, "a carriage return before a line end is not shown", done)


def random_texts(count):
    """Texts put together from pieces of CIF and bytes that have no place in it, the same in every run."""
    pieces = [b"DS1 2 3;", b"DF;", b"LA;", b"LNM", b"B4 4 0 0", b"W2 0 0 9 9;", b"C1;", b"C1 MX R0 1 T5,5;", b"(a(b)c)", b";", b"E", b"\n", b"\t", b"-1",
              b"P0 0 9 0 9 9;", b"\xff", b"\x1b", b"x"]
    state = 20250101
    for i in range(count):
        text = b""
        for _ in range(i % 25):
            state = (state * 6364136223846793005 + 1442695040888963407) % (1 << 64)
            text += pieces[(state >> 33) % len(pieces)]
        yield text


def test_any_bytes():
    """Whatever stands in the file: an answer, in words that a terminal can show."""
    for text in random_texts(150):
        done = cif("list", "-", text=text)
        if done.returncode == 1:
            number, place, line, column, *chain = map(int, done.stdout.split()[1:])
            expect((line, column) == position(text, place), "line and column in the list", text, done)
            expect_told(text, number, place, done.stderr, chain=chain)
        else:
            expect(done.returncode == 0 and done.stdout.count(b"total\t") == 1, "any bytes get an answer", text, done)
