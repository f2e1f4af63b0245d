"""Why a shape is there: what cif why tells of it, and which shapes it finds at a point. What must come out stands in tests/requests, or is worked out here."""
import concurrent.futures
import json
import os
import re

import account
from common import EXAMPLE, TOP, cif, content, expect, scratch
from refusals import expect_told, position
from words import reach

WORDS = {  # (a, b, c, d), in words and as the list of a call
    (1, 0, 0, 1): ("", ""), (-1, 0, 0, 1): ("mirrored in x", "MX"), (1, 0, 0, -1): ("mirrored in y", "MY"), (0, -1, 1, 0): ("turned by 90 degrees counterclockwise", "R 0 1"), (-1, 0, 0, -1): ("turned by 180 degrees", "R -1 0"),
    (0, 1, -1, 0): ("turned by 90 degrees clockwise", "R 0 -1"), (0, -1, -1, 0): ("mirrored in x, then turned by 90 degrees counterclockwise", "MX R 0 1"), (0, 1, 1, 0): ("mirrored in y, then turned by 90 degrees counterclockwise", "MY R 0 1"),
}
FAR = 16777215


def turned(matrix, tx, ty):
    """A transformation in words."""
    turn = WORDS[matrix][0]
    if (tx, ty) == (0, 0):
        return turn or "not turned, mirrored or moved"
    return "%smoved by %d %d" % (turn and turn + ", then ", tx, ty)


def comes_to(turns):
    """The matrix of the list of a call, by tools/account.py: the first acts first, so it is the innermost."""
    matrix = (1, 0, 0), (0, 1, 0)
    for turn, numbers in reversed(re.findall(r"(MX|MY|R|T)((?: -?\d+)*)", turns)):
        x, y = [int(n) for n in numbers.split()] or (0, 0)
        expect(abs(x) <= FAR and abs(y) <= FAR and (turn == "T" or x == 0 or y == 0), "a list that is CIF", turns)
        matrix = account.under(matrix, turn, x, y)
    return matrix


def call_line(text, place):
    end = text.index(b";", place)
    shown = re.sub(rb"[ \t-\r]+", b" ", text[place:end]).strip(b" ")
    return b"    line %d, column %d: %s\n" % (*position(text, place), shown)


def expect_shape(text, count, done, place, matrix, tx, ty, chain):
    """All lines that are told of a shape, but for the excerpt, which is the one that refusals have."""
    lines = done.stdout.split(b"\n")
    listed = cif("list", "-", text=text)
    shown = listed.stdout.split(b"\n")[count - 1] if listed.returncode == 0 else None
    if shown is not None:
        expect(lines[0] == shown, "the shape's line of the list", text[:200], count, lines[0], shown)
        lines = lines[1:]
    expect(lines[0] == b"standard input:%d:%d: shape %d is drawn by this command" % (*position(text, place), count), "where its command stands", text[:200], lines[0])
    expect((shown is None) == (lines[1] == b"  The flat file would be too long, so that there is no list."), "a list that is too long", text[:200], lines[1])
    if chain:
        calls = b"  In %d call%s:\n" % (len(chain), b"" if len(chain) == 1 else b"s, the outermost first")
        calls += b"".join(call_line(text, at) for at in chain) + b"  and there:\n"
        if len(max(calls.split(b"\n"), key=len)) < 70:  # longer ones are cut
            expect(calls in done.stdout, "the calls", text[:200], done.stdout, calls)
    words = turned(matrix, tx, ty)
    end = ", since it stands outside definitions." if not chain else ": a call without transformations does the same." if words.startswith("not") else ". A call with this list does the same:"
    expect(("\n  It is %s%s\n" % (words, end)).encode() in done.stdout, "the transformation in words", text[:200], words, done.stdout)
    if not words.startswith("not"):
        (a, b, x), (c, d, y) = comes_to(lines[-2].decode())
        expect(((a, b, c, d), x, y) == (matrix, tx, ty), "a list that does the same", text[:200], lines[-2])
        expect(lines[-2].decode().startswith("    " + WORDS[matrix][1]), "its turn or mirror", lines[-2])


def try_record(fields):
    """One count of a text, for the eye and in JSON."""
    words, count, text = int(fields[3]), int(fields[5]), bytes.fromhex(fields[6])
    number, place, _, shape, a, b, c, d, tx, ty, line, column, *chain = map(int, fields[8].split(" "))
    if number == 25 or words != 4294967295 and words < len(text):  # the tool lends enough
        return
    done, other = cif("why", "-", str(count), text=text), cif("why", "--json", "-", str(count), text=text)
    found = json.loads(other.stdout)
    calls = [{"place": at, "line": where[0], "column": where[1]} for at in chain for where in (position(text, at),)]
    if number:
        expect((done.returncode, done.stdout, other.returncode, other.stderr) == (1, b"", 1, b""), "a refused text", text[:200], done, other)
        told = re.sub(rb"  The text draws \d+ shapes?\.\n$", b"", done.stderr)
        expect((told != done.stderr) == (number == 26 and cif("check", "-q", "-", text=text).returncode == 0), "how many shapes there are, where none is meant", text[:200], done)
        expect_told(text, number, place, told, chain=chain)
        found.pop("message")
        expect(found == {"file": "standard input", "status": "refused", "number": number, "place": place, "line": line, "column": column, "chain": calls}, "the same in JSON", text[:200], found)
        return
    expect((done.returncode, done.stderr, other.returncode, other.stderr) == (0, b"", 0, b""), "a shape", text[:200], done, other)
    expect_shape(text, count, done, shape, (a, b, c, d), tx, ty, chain)
    lines = cif("list", "-", text=text).stdout.decode().split("\n")
    listed = lines[count - 1].split("\t") if count <= len(lines) else []  # of a flat file that is too long there is no list
    drawn = {"count": count, "layer": listed[2], "kind": listed[3], "numbers": [int(n) for n in listed[4].split(" ")]} if len(listed) > 4 and listed[0] == "shape" else None
    (p, q, x), (r, s, y) = comes_to(found.pop("list"))
    expect((p, q, r, s, x, y) == (a, b, c, d, tx, ty), "the list in JSON", text[:200], other)
    line, column = position(text, shape)
    right = {"file": "standard input", "status": "accepted", "number": 0, "shape": drawn, "place": shape, "line": line, "column": column, "chain": calls, "matrix": [a, b, c, d], "translation": [tx, ty],
             "message": turned((a, b, c, d), tx, ty)}
    expect(found == right, "the same in JSON", text[:200], found, right)


def test_records():
    rows = []
    for name in ("p11.tsv", "why.tsv"):
        with open(os.path.join(TOP, "tests", "coming" if name in ("p07.tsv", "p11.tsv", "records.tsv", "why.tsv") else "requests", name)) as file:
            rows += [line.rstrip("\n").split("\t") for line in file if not line.startswith("#")]
    with concurrent.futures.ThreadPoolExecutor(os.cpu_count()) as pool:
        list(pool.map(try_record, rows))


def in_window(kind, numbers, x, y):
    """Whether the window of a shape, by the list, holds a point in half units."""
    along_x, along_y = reach(kind, numbers)
    points = {"B": numbers[2:4], "R": numbers[1:], "W": numbers[1:], "P": numbers}[kind]
    xs, ys = points[0::2], points[1::2]
    return 2 * min(xs) - along_x <= x <= 2 * max(xs) + along_x and 2 * min(ys) - along_y <= y <= 2 * max(ys) + along_y


def expect_at(path, text, x, y, layer):
    """What is found at a point, whose x and y are half units."""
    lines = cif("list", path).stdout.decode().split("\n")
    shapes = [line for line in lines if line.startswith("shape\t") for _, _, name, kind, numbers in (line.split("\t"),)
              if name == layer and in_window(kind, [int(n) for n in numbers.split(" ")], x, y)]
    words = ["why", path, "--at", "%.3f" % (x / 200), "%.3f" % (y / 200), layer]
    done, other = cif(*words), cif(*words, "--json")
    expect((done.returncode, done.stdout.decode()) == (0 if shapes else 1, "".join(line + "\n" for line in shapes)), "shapes at a point", words, done, shapes)
    expect(bool(done.stderr) == (not shapes) and (shapes or b"no shape on layer %s has a window that holds" % layer.encode() in done.stderr), "none at a point", words, done)
    found = json.loads(other.stdout)
    right = [{"count": int(count), "layer": name, "kind": kind, "numbers": [int(n) for n in numbers.split(" ")]} for _, count, name, kind, numbers in (line.split("\t") for line in shapes)]
    expect(found == {"file": path, "status": "accepted", "number": 0, "shapes": right} and other.returncode == done.returncode, "the same in JSON", words, other)


def test_at():
    text = b"LA;B10 4 0 0;B10 4 0 0 0 1;B10 4 0 0 1 1;R6 20 0;W3 40 0 50 10;P60 0 70 0 60 10;LB;R6 0 0;DS1;LA;R3 0 0;DF;C1T100 7;E"
    path = scratch("at.cif", text)
    # on both sides of each edge, in half units
    for x in (-15, -14, -11, -10, -5, -4, 0, 4, 5, 10, 11, 14, 15, 33, 34, 46, 47, 76, 77, 103, 104, 119, 120, 140, 141, 196, 197, 203, 204):
        for y in (0, -11, 14):
            expect_at(path, text, x, y, "A")
    for x, y in ((0, 6), (0, 7), (-6, 0), (-7, 0)):
        expect_at(path, text, x, y, "B")
    expect_at(path, text, 0, 0, "C")
    cells = os.path.join(TOP, "samples", "cells.cif")
    for layer in ("NM", "ND", "NP"):
        expect_at(cells, content(cells), 0, 0, layer)
    done = cif("why", "-", "--at", "0", "0", "A", text=b"C1;E")
    expect((done.returncode, done.stdout) == (1, b""), "a refused text", done)
    expect_told(b"C1;E", 12, 0, done.stderr)


def test_out():
    good, out = scratch("good.cif", EXAMPLE), scratch("why.out")
    done = cif("why", good, "1", "-o", out)
    expect((done.returncode, done.stdout, content(out)) == (0, b"", cif("why", good, "1").stdout), "why -o", done)
    done = cif("why", good, "2", "-o", out)
    expect((done.returncode, done.stdout, content(out)) == (1, b"", cif("why", good, "1").stdout), "no file for a refusal", done)
    expect(done.stderr.endswith(b"  The text draws 1 shape.\n"), "how many there are", done)
    done = cif("why", "--json", scratch("none.cif"), "1")
    expect(done.returncode == 2 and done.stderr.startswith(b"cif: cannot read ") and json.loads(done.stdout)["status"] == "unread", "a file that cannot be read", done)


def test_words():
    good = scratch("good.cif", EXAMPLE)
    for words in ([], [good], [good, "1", "2"], [good, "x"], [good, "-1"], [good, ""], [good, "1" * 19], [good, "--at"], [good, "--at", "1", "2"], [good, "--at", "1", "2", "cm"], [good, "--at", "1", "2", "CM,CD"],
                  [good, "--at", "1", "2", "CMCMC"], [good, "--at", "1", "2", ""], [good, "--at", "1", "2", "CM", "3"], [good, "--at", "x", "2", "CM"], [good, "--at", "1", "2", "CM", "--at", "1", "2", "CM"], [good, "1", "--strict"], [good, "-q", "1"]):
        done = cif("why", *words)
        expect(done.returncode == 2 and not done.stdout and b"cif --help" in done.stderr, "bad words end with 2", words, done)
    for words in ([good, "01"], ["--", good, "1"]):
        expect(cif("why", *words).stdout == cif("why", good, "1").stdout, "the same count", words)
    for count in (0, 2, 2**20 + 1, 2**31, 2**32 + 1, 10**18 - 1):
        done = cif("why", good, str(count))
        expect(done.returncode == 1 and b"refused 26 at byte 0: " in done.stderr, "a count that no shape has", done)


def test_json():
    page = content(os.path.join(TOP, "docs", "JSON.md")).decode().split("\n## What `cif why --json` writes\n")[1]
    found, others = json.loads(cif("why", "--json", "-", "1", text=EXAMPLE).stdout), json.loads(cif("why", "--json", "-", "--at", "0.75", "0", "CM", text=EXAMPLE).stdout)
    names = set(found) | set(found["shape"]) | set(others) | set(others["shapes"][0])
    expect(names - {"file", "status", "number", "chain"} == set(re.findall(r"^\| `([a-z]+)` \|", page, re.M)), "docs/JSON.md has every field", names)
