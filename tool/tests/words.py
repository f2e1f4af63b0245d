"""The words of the command line, and what is written for an accepted text."""
import concurrent.futures
import json
import os
import re

import account
from common import EXAMPLE, EXAMPLE_FLAT, EXAMPLE_LIST, MOST, TOP, cif, content, expect, scratch
from refusals import expect_told, position


def test_help():
    for words in (["--help"], ["flat", "--help"], ["-h"], ["check", "-h"], ["help"]):
        done = cif(*words)
        expect(done.returncode == 0 and b"cif flat FILE" in done.stdout and not done.stderr, "help on standard output", words, done)
    done = cif()
    expect(done.returncode == 2 and not done.stdout and b"cif flat FILE" in done.stderr, "no words: the help on standard error", done)
    expect(cif("-V").stdout == cif("--version").stdout, "-V is --version")
    done = cif("--version")
    expect(done.returncode == 0 and re.fullmatch(rb"cif \d+\.\d+: .*\n", done.stdout), "--version", done)
    first = content(os.path.join(TOP, "tool", "cif.1")).split(b"\n")[0]
    expect(b'"' + done.stdout.split(b":")[0] + b'"' in first, "the man page is of this version", first, done.stdout)


def test_bad_words():
    good = scratch("good.cif", EXAMPLE)
    for words in (["flatten", good], ["flat"], ["flat", good, good], ["flat", "-x", good], ["flat", good, "-o"], ["flat", good, "-o", "a", "-o", "b"],
                  ["check", good, "-o", "a"], ["--nothing"], ["flat", "--output", "a", good], ["flat", "-q", good], ["list", "--json", good], ["check"], ["check", "-q"]):
        done = cif(*words)
        expect(done.returncode == 2 and not done.stdout and b"cif --help" in done.stderr, "bad words end with 2", words, done)


def test_good_words():
    good = scratch("good.cif", EXAMPLE)
    odd = scratch("-odd", EXAMPLE)
    for words in (["flat", good], ["flat", "--", good], ["flat", good, "-o", "-"], ["flat", "-o-", good], ["flat", "--", os.path.basename(odd)]):
        done = cif(*words, cwd=os.path.dirname(odd))
        expect((done.returncode, done.stdout, done.stderr) == (0, EXAMPLE_FLAT, b""), "the flat file on standard output", words, done)


def test_accepted():
    good, out = scratch("good.cif", EXAMPLE), scratch("good.out")
    done = cif("flat", good, "-o", out)
    expect((done.returncode, done.stdout, done.stderr, content(out)) == (0, b"", b"", EXAMPLE_FLAT), "flat -o", done)
    expect(cif("flat", "-", text=EXAMPLE).stdout == EXAMPLE_FLAT, "a text from standard input")
    done = cif("list", good)
    expect((done.returncode, done.stdout, done.stderr) == (0, EXAMPLE_LIST, b""), "the list of RULES 13", done)
    done = cif("list", good, "-o", out)
    expect((done.returncode, done.stdout, done.stderr, content(out)) == (0, b"", b"", EXAMPLE_LIST), "list -o", done)
    done = cif("list", "-", "-o", out, text=b"X")
    expect((done.returncode, done.stdout, content(out)) == (1, b"", EXAMPLE_LIST), "list -o writes no file for a refusal", done)
    done = cif("list", "-", text=b"E")
    expect(done.stdout == b"total\t0\t0\t0\nwindow\tnone\n", "the list of a text without shapes", done)
    done = cif("check", good)
    told = good.encode() + b": accepted: 1 shape, 1 call, 0 redefinitions; the flat file has 26 bytes\n"
    expect((done.returncode, done.stdout, done.stderr) == (0, told, b""), "check", done)


def reach(kind, n):
    """How far a shape reaches beyond its doubled points, along x and along y (RULES 13, request 6)."""
    if kind == "P":
        return 0, 0
    if kind != "B":
        return n[0], n[0]
    return (n[0], n[1]) if n[5] == 0 else (n[1], n[0]) if n[4] == 0 else (n[0] + n[1], n[0] + n[1])


def listed(flat, totals, warnings):
    """The list of a flat file (RULES 13), with the warnings that are due."""
    lines, layer, x, y = [], "", [], []
    for line in flat.decode().split("\n")[:-2]:
        kind, numbers = line[0], line[1:-1]
        if kind == "L":
            layer = numbers
            continue
        lines.append(f"shape\t{len(lines) + 1}\t{layer}\t{kind}\t{numbers}")
        n = [int(x) for x in numbers.split()]
        points = n[2:4] if kind == "B" else n if kind == "P" else n[1:]
        x += [2 * a + side for a in points[::2] for side in (-reach(kind, n)[0], reach(kind, n)[0])]
        y += [2 * b + side for b in points[1::2] for side in (-reach(kind, n)[1], reach(kind, n)[1])]
    window = [min(x), min(y), max(x), max(y)] if x else ["none"]
    return "\n".join([*lines, *warnings, "\t".join(["total", *totals]), "\t".join(["window", *map(str, window)]), ""]).encode()


def try_vector(row):
    text, number, place, rounded, flat = bytes.fromhex(row[2]), int(row[3]), int(row[4]), int(row[9]), bytes.fromhex(row[13])
    where, chain = row[10:12], row[12].split()
    if number == 18:  # of a small room; the tool's is always the largest
        return
    done = cif("list", "-", text=text)
    if number == 0:
        expect((done.returncode, done.stdout) == (0, listed(flat, row[6:9], account.warnings(text))), "the list of a vector", text, done)
        expect(cif("flat", "-", text=text).stdout == flat, "the flat file of a vector", text)
        expect(json.loads(cif("check", "--json", "-", text=text).stdout)["rounded"] == rounded, "the rounded distances of a vector", text)
    else:
        expect((done.returncode, done.stdout) == (1, "\t".join(["refused", *row[3:5], *where, *chain]).encode() + b"\n"), "the refusal of a vector", text, done)
        expect_told(text, number, place, done.stderr, chain=list(map(int, chain)))
        told = json.loads(cif("check", "--json", "-", text=text).stdout)
        expect([told["line"], told["column"], *[call["place"] for call in told["chain"]]] == [*map(int, where), *map(int, chain)], "where a vector is refused, in JSON", text, told)
        expect(all((call["line"], call["column"]) == position(text, call["place"]) for call in told["chain"]), "where its open calls are", text, told)


def test_vectors():
    rows = [line.split("\t") for name in ("base.tsv", "positions.tsv") for line in content(os.path.join(TOP, "tests", name)).decode().split("\n")[1:-1]]
    with concurrent.futures.ThreadPoolExecutor(os.cpu_count()) as pool:
        list(pool.map(try_vector, rows))


def test_strict():
    """A hint is a line with its place, and changes no answer; with --strict it changes the exit status."""
    for text, hinted in ((EXAMPLE, False), (b"LA;R1 0 0;94 x;E", True), (b"DS1;LA;R1 0 0;DF;E", True)):
        for task in ("check", "flat", "list", "plot"):
            plain, strict = cif(task, "-", text=text), cif(task, "--strict", "-", text=text)
            expect((plain.returncode, strict.returncode) == (0, 1 if hinted else 0), "--strict", text, task, plain, strict)
            expect((plain.stdout, plain.stderr) == (strict.stdout, strict.stderr), "--strict changes nothing else", text, task)
            expect(re.fullmatch(rb"(standard input:\d+:\d+: hint: [ -~]+\.\n)+" if hinted else b"", plain.stderr), "hints are lines", plain.stderr)
    expect(cif("check", "--strict", "-", text=b"X").returncode == 1, "a refusal with --strict")


def test_many_files():
    """A line for each file, one that counts them, and the worst status."""
    good, bad, odd, none = scratch("good.cif", EXAMPLE), scratch("bad.cif", b"LA;\nB 4 4 - 0;\nE"), scratch("odd.cif", b"LA;R1 0 0;94 x;E"), scratch("none.cif")
    line = f"{good}: accepted: 1 shape, 1 call, 0 redefinitions; the flat file has 26 bytes\n"
    for files, status, end in (([good, good], 0, "2 files: 2 accepted, 0 refused\n"), ([good, bad, good], 1, "3 files: 2 accepted, 1 refused\n"),
                               ([none, good, bad], 2, "3 files: 1 accepted, 1 refused, 1 could not be read\n")):
        done = cif("check", *files)
        expect((done.returncode, done.stdout.decode()) == (status, line * files.count(good) + end), "check of several files", files, done)
        told = done.stderr.decode().split("\n")[:-1]
        expect(len(told) == len(files) - files.count(good), "a line for each that is not accepted", files, told)
        expect(all(t.startswith((f"{bad}:2:8: refused 2 at byte 11: ", f"cif: cannot read {none}: ")) for t in told), "what each is told", told)
        done = cif("check", "-q", *files)
        expect((done.returncode, done.stdout, done.stderr.decode().split("\n")[:-1]) == (status, b"", told), "check -q", files, done)
    expect(len(cif("check", "-q", bad).stderr.split(b"\n")) == 5, "one file is told of at length")
    done = cif("check", "--strict", good, odd)
    expect(done.returncode == 1 and done.stdout.endswith(b"2 files: 1 accepted, 1 refused or with a hint or warning\n"), "check --strict of several files", done)
    expect(cif("check", "-", good, text=b"E").stdout.startswith(b"standard input: accepted: 0 shapes"), "standard input among several files")


def test_rounding():
    """How many distances were rounded, and why: only where there are any, and the reason where one file is asked about."""
    grid = scratch("grid.cif", b"DS 1 100 3; L A; W 3 0 0 1 0 2 -1; DF; C 1; E")
    line = f"{grid}: accepted: 1 shape, 1 call, 0 redefinitions, 3 rounded distances; the flat file has 28 bytes\n"
    done = cif("check", grid)
    told = done.stdout.decode()
    expect(done.returncode == 0 and told.startswith(line) and done.stderr == b"", "rounded distances", done)
    expect(told.count("\n") == 2 and told[len(line):].startswith("  ") and "a third of a micron" in told, "why they are rounded", told)
    expect(cif("flat", grid).stdout == b"LA;\nW100 0 0 33 0 67 -33;\nE\n", "what is drawn of them")
    expect(cif("list", grid).stdout.endswith(b"\ntotal\t1\t1\t0\nwindow\t-100\t-166\t234\t100\n"), "the list of them")
    expect(cif("check", grid, grid).stdout.decode() == 2 * line + "2 files: 2 accepted, 0 refused\n", "a line for each of several files")
    expect(cif("check", "-q", "--strict", grid).returncode == 0 and cif("check", "-q", grid).stdout == b"", "no hint, and nothing to tell with -q")
    expect(json.loads(cif("check", "--json", grid).stdout)["rounded"] == 3, "their number in JSON")
    expect(b": accepted: 0 shapes, 0 calls, 0 redefinitions, 1 rounded distance;" in cif("check", "-", text=b"DS1 1 2;LA;R2 1 0;DF;E").stdout, "one, never drawn")
    with open(os.path.join(TOP, "tests", "scaling.tsv")) as rows:
        rows = [row.split("\t") for row in rows if not row.startswith("#")]
    with concurrent.futures.ThreadPoolExecutor(os.cpu_count()) as pool:
        list(pool.map(try_vector, rows[::7]))


def test_json():
    """An object for each file: every field that docs/JSON.md names, and no other."""
    texts = {"good": EXAMPLE, "bad": b"LA;\nB 4 4 - 0;\nE", "odd": b"LA;R3 0 0;LB;W2 5 -5 9 9;94 \x01;LA;B2 2 7 7;E", "empty": b"E"}
    files = [scratch(name + ".cif", text) for name, text in texts.items()] + [scratch("n\"\\\t\udcff\u00e4.cif", EXAMPLE), scratch("none.cif")]
    done = cif("check", "--json", *files)
    found = [json.loads(line) for line in done.stdout.split(b"\n")[:-1]]
    expect(done.returncode == 2 and [f["file"] for f in found] == files, "an object for each file, in their order, under its name", files, found)
    good, bad, odd, empty, _, none = found
    expect(none == {"file": files[-1], "status": "unread"}, "a file that cannot be read", none)
    expect(good == {"file": files[0], "status": "accepted", "number": 0, "bytes": 26, "shapes": 1, "calls": 1, "redefinitions": 0, "rounded": 0, "window": [25, -25, 125, 25],
                    "layers": [{"name": "CM", "shapes": 1, "window": [25, -25, 125, 25]}], "warned": 0, "warnings": [], "hints": []}, "an accepted text", good)
    message = bad.pop("message", "")
    expect(bad == {"file": files[1], "status": "refused", "number": 2, "place": 11, "line": 2, "column": 8, "chain": []} and "this box" in message, "a refused text", bad)
    layers = [{"name": "A", "shapes": 2, "window": [-1.5, -1.5, 8, 8]}, {"name": "B", "shapes": 1, "window": [4, -6, 10, 10]}]
    hint = {"name": "extensions", "place": 25, "line": 1, "column": 26, "message": "1 user extension is skipped: 94 (1)."}
    expect(odd["layers"] == layers and odd["hints"] == [hint] and odd["window"] == [-1.5, -6, 10, 10], "layers and hints", odd)
    expect(empty["window"] is None and empty["layers"] == [], "no shapes, no window", empty)
    expect(cif("check", "--json", "--strict", files[2]).returncode == 1 and cif("check", "--json", files[2]).stderr == b"", "--json tells all in its object")
    found = [*found, json.loads(cif("check", "--json", "-", text=b"DS1;\nC1;\nDF;\nC1;E").stdout)]
    expect(found[-1].pop("message") and found[-1] == {"file": "standard input", "status": "refused", "number": 13, "place": 5, "line": 2, "column": 1,
                                                      "chain": [{"place": 13, "line": 4, "column": 1}]}, "a text refused in a call", found[-1])
    page = content(os.path.join(TOP, "docs", "JSON.md")).decode().split("\n## What `cif show --json` writes\n")[0]
    warned = json.loads(cif("check", "--json", "-", text=b"DS1;DF;DS1;DF;C1;E").stdout)
    names = {name for o in found + odd["layers"] + odd["hints"] + warned["warnings"] for name in o} | {"message"}
    expect(names == set(re.findall(r"^\| `([a-z]+)` \|", page, re.M)), "docs/JSON.md has every field", names)


def test_longest():
    expect(cif("flat", "-", text=b"E".ljust(MOST)).stdout == b"E\n", "a text of 16,777,216 bytes")
    boxes = b"LA;\n" + b"B1111111 1111111 1 1 1 0;\n" * 645277
    most = boxes + b"R1 0 0;\nE\n"
    done = cif("flat", "-", text=most.replace(b"\n", b""))
    expect(len(most) == MOST and done.returncode == 0 and done.stdout == most, "a flat file of 16,777,216 bytes", done.stderr)
    done = cif("flat", "-", text=boxes.replace(b"\n", b"") + b"R11 0 0;E")
    expect(done.returncode == 1 and b" refused 18 at byte 0: " in done.stderr, "a flat file of a byte more", done.stderr)


def test_a_million_shapes():
    done = cif("list", "-", text=b"DS1;LA;" + b"R1 0 0;" * 1024 + b"DF;" + b"C1;" * 1024 + b"E")
    end = b"shape\t1048576\tA\tR\t1 0 0\ntotal\t1048576\t1024\t0\nwindow\t-1\t-1\t1\t1\n"
    expect(done.returncode == 0 and done.stdout.endswith(end) and done.stdout.count(b"\n") == 1048578, "1,048,576 shapes listed", done.stderr)
