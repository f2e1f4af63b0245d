"""What is in a symbol: the rows of cif show, and what cannot be shown. What must come out stands in tests/requests, or is worked out by tools/account.py."""
import concurrent.futures
import json
import os
import re

import account
from common import EXAMPLE, MOST, TOP, cif, content, expect, scratch
from refusals import expect_told

HEAD = b"    symbol  own shapes  own calls  own layers  layers  first  height\n"
WHY = {12: "a call in it, or in what it calls, finds no definition.", 13: "it calls itself, or what it calls does, perhaps through others.", 14: "its calls go more than 32 deep."}
CELLS = b"DS1;LA;R4 0 0;LB;R4 0 0;DF;DS2;LC;R4 0 0;C1;C1;DF;DS3;C9;DF;DS4;C4;LA;R4 0 0;DF;DS5;DF;DS16777215;C5;DF;DS8;DF;"


def row(symbol, gives, layers, height, shapes, calls, own, first):
    """A line of the table, from what batch tells of the symbol. A symbol that gives 12 without a call is not defined."""
    defined = gives != 12 or calls > 0
    cells = [symbol, *([shapes, calls, own] if defined else ["-"] * 3), "-" if gives else layers]
    line = "".join(str(cell).rjust(width) for cell, width in zip(cells, (10, 12, 11, 12, 8))) + "  " + (first or "-").ljust(5) + str("-" if gives else height).rjust(8)
    if gives:
        line += "   %d: %s" % (gives, WHY[gives] if defined else "it is not defined at the end of the text.")
    return line.encode() + b"\n"


def told(symbol, gives, layers, height, shapes, calls, own, first):
    """The same in JSON."""
    defined = gives != 12 or calls > 0
    return {"symbol": symbol, "gives": gives, "layers": None if gives else layers, "first": first or None, "height": None if gives else height,
            "own": {"shapes": shapes, "calls": calls, "layers": own} if defined else None}


def try_record(fields):
    """One symbol of a text, as a row and in JSON."""
    symbol, text, first = int(fields[5]), bytes.fromhex(fields[6]), bytes.fromhex(fields[9]).decode()
    number, place, _, gives, layers, height, shapes, calls, own, line, column = map(int, fields[8].split(" "))
    done, other = cif("show", "-", str(symbol), text=text), cif("show", "--json", "-", str(symbol), text=text)
    found = json.loads(other.stdout)
    if number:
        expect((done.returncode, done.stdout, other.returncode, other.stderr) == (1, b"", 1, b""), "a refused text", text, done, other)
        expect_told(text, number, place, done.stderr)
        found.pop("message")
        expect(found == {"file": "standard input", "status": "refused", "number": number, "place": place, "line": line, "column": column, "chain": []}, "the same in JSON", text, found)
        return
    answer = (symbol, gives, layers, height, shapes, calls, own, first)
    expect((done.returncode, done.stdout, done.stderr) == (int(gives != 0), HEAD + row(*answer), b""), "a symbol", text, done, row(*answer))
    expect(found == {"file": "standard input", "status": "accepted", "number": 0, "symbols": [told(*answer)]} and other.returncode == int(gives != 0), "the same in JSON", text, other)


def test_records():
    rows = []
    for name in ("p03.tsv", "symbols.tsv"):
        with open(os.path.join(TOP, "tests", "requests", name)) as file:
            rows += [line.rstrip("\n").split("\t") for line in file if not line.startswith("#")]
    with concurrent.futures.ThreadPoolExecutor(os.cpu_count()) as pool:
        list(pool.map(try_record, rows))


def table_of(text):
    """All that is defined at the end of a text, by tools/account.py, as the rows have it."""
    live, names = account.contents(text)
    tall = account.heights(live)
    for symbol in sorted(live):
        gives, reached = account.first_bad(live, tall, symbol), {symbol}
        for n in sorted(tall, key=tall.get, reverse=True):
            reached |= set(live[n][0]) if n in reached else set()
        drawn = [name for name in names if not gives and any(name in live[n][1] for n in reached)]
        calls, layers = live[symbol]
        yield symbol, gives, len(drawn), 0 if gives else tall[symbol], len(layers), len(calls), len(set(layers)), drawn[0].decode() if drawn else ""


def expect_table(text, name="standard input"):
    table, done, other = list(table_of(text)), cif("show", "-", text=text), cif("show", "-", "--json", text=text)
    bad = sum(answer[1] != 0 for answer in table)
    head = "%s: %d symbol%s defined at the end of the text%s\n" % (name, len(table), "" if len(table) == 1 else "s", ", %d of which cannot be drawn" % bad if bad else "")
    rows = HEAD + b"".join(row(*answer) for answer in table) if table else b""
    expect((done.returncode, done.stdout, done.stderr) == (0, head.encode() + rows, b""), "a table", text[:200], done, rows)
    expect(json.loads(other.stdout) == {"file": name, "status": "accepted", "number": 0, "symbols": [told(*answer) for answer in table]}, "the same in JSON", text[:200], other)
    expect(cif("show", "--strict", "-", text=text).returncode == int(bad > 0), "--strict counts what cannot be drawn", text[:200])


def test_tables():
    for text in (b"E", b"DS1;DF;E", b"DS1;DF;DD0;E", CELLS + b"E", CELLS + b"DD9;E", CELLS + b"DD4;E", EXAMPLE, b"(DS 9;DF;);9 DS8;DS 0007 ;DF ;DSA5 1 2;D F;E",
                 b"DS1;DF;DS1;C2;DF;DS2;LA;R4 0 0;DF;DD2;DS2;C1;DF;E", b"".join(b"DS%d;C%d;DF;" % (n, n + 1) for n in range(40)) + b"E", b"".join(b"DS%d;LA;R4 0 0;DF;" % n for n in range(512, 0, -1)) + b"E",
                 b"".join(b"DS%d;DF;DD%d;" % (n, n) for n in range(700)) + b"DS5;LA;R4 0 0;DF;E", b"C9;DS1;LA;R4 16777215 0;DF;C1T1 0;C1R1 1;E"):
        expect_table(text)
    cells = os.path.join(TOP, "samples", "cells.cif")
    expect(cif("show", cells).stdout.split(b"\n")[1:] == (HEAD + b"".join(row(*answer) for answer in table_of(content(cells)))).split(b"\n"), "the sample")


def test_out():
    good, out = scratch("good.cif", EXAMPLE), scratch("symbols.out")
    done = cif("show", good, "-o", out)
    expect((done.returncode, done.stdout, content(out)) == (0, b"", cif("show", good).stdout), "show -o", done)
    done = cif("show", "-", "7", "-o", out, text=b"X")
    expect((done.returncode, done.stdout, content(out)) == (1, b"", cif("show", good).stdout), "no file for a refusal", done)
    done = cif("show", "--json", scratch("none.cif"))
    expect(done.returncode == 2 and done.stderr.startswith(b"cif: cannot read ") and json.loads(done.stdout)["status"] == "unread", "a file that cannot be read", done)


def test_words():
    good = scratch("good.cif", EXAMPLE)
    for words in (["show"], ["show", good, "7", "8"], ["show", good, "x"], ["show", good, "7x"], ["show", good, ""], ["show", good, "-1"], ["show", good, "1" * 19], ["show", good, good], ["show", "-q", good]):
        done = cif(*words)
        expect(done.returncode == 2 and not done.stdout and b"cif --help" in done.stderr, "bad words end with 2", words, done)
    seven = cif("show", good, "7").stdout
    for word in ("07", "0000000000000007"):
        expect(cif("show", good, word).stdout == seven, "zeros before a number", word)
    for symbol in (MOST, 2**31, 2**32 + 7, 10**18 - 1):
        done = cif("show", good, str(symbol))
        expect(done.returncode == 1 and done.stdout.endswith(b"it is not defined at the end of the text.\n"), "a number that no symbol can have", done)


def test_nineteen():
    """Only show has it; the text is accepted by all others."""
    names = b"".join(b"LA%d;R4 0 0;" % n for n in range(65))
    done = cif("show", "-", text=names + b"E")
    expect((done.returncode, done.stdout) == (1, b""), "65 names", done)
    expect_told(names + b"E", 19, names.index(b"LA64"), done.stderr)
    expect(cif("check", "-q", "-", text=names + b"E").returncode == 0, "check takes 65 names")
    expect(cif("show", "-", text=names[:names.index(b"LA64")] + b"E").returncode == 0, "64 names")


def test_long():
    """More numbers in a longer text than can be asked for; one of them still can."""
    text = b"".join(b"DS%d;DF;DD%d;" % (n, n) for n in range(600))
    text += b"(" + b" " * (MOST - len(text) - 20) + b");DS7;DF;E"
    done = cif("show", "-", text=text)
    expect(done.returncode == 2 and not done.stdout and re.fullmatch(rb"standard input: 600 symbols .*: name one of them, as in cif show FILE 7.\n", done.stderr), "a table that would take long", done)
    expect(json.loads(cif("show", "--json", "-", text=text).stdout)["symbols"] is None, "the same in JSON")
    expect(cif("show", "-", "7", text=text).returncode == 0, "one of its symbols")


def test_json():
    page = content(os.path.join(TOP, "docs", "JSON.md")).decode().split("\n## What `cif show --json` writes\n")[1].split("\n## ")[0]
    found = json.loads(cif("show", "--json", "-", text=EXAMPLE).stdout)
    names = set(found) | set(found["symbols"][0])
    expect(names - {"file", "status", "number"} == set(re.findall(r"^\| `([a-z]+)` \|", page, re.M)), "docs/JSON.md has every field", names)
