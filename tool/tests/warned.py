"""Warnings: the lines of the list, and the sentences on standard error, each with its line and column. Which are due is worked out by tools/account.py, or stands in tests/requests."""
import concurrent.futures
import json
import os
import re

import account
from common import EXAMPLE, TOP, cif, expect, scratch
from refusals import expect_caret, line_around, position

TOLD = 20  # at most
TWICE = b"DS 1; L A; R 4 0 0; DF;\nDS 1; L A; R 6 0 0; DF;\nC 1; E"
DANGLES = b"DS 1; L A;\n R 4 0 0; C 9; DF; DD 3; DS 2; L A; R 4 0 0; DF; C 2; E"


def due(text):
    """What is due, in the order in which it is told: (redefined, place of the DS, place of the DS before) or (dangling, place of the call, how often)."""
    found, before = [], {}
    for _, (kind, _, _, live) in account.bodies(text):
        if kind == "DF":
            found += [("redefined", live[n], before[n]) for n in before if live[n] != before[n]]
        before = live
    redefined, out, dangling = iter(found), [], {}
    for line in account.warnings(text):
        if line.endswith("redefined."):
            out.append(next(redefined))
        else:
            place = int(line.split("\t")[1])
            dangling[place] = dangling.get(place, 0) + 1
            out += [("dangling", place, None)] if dangling[place] == 1 else []
    return [(name, place, dangling[place] if name == "dangling" else other) for name, place, other in out]


def expect_sentences(text, told, whole=True):
    """A line for each that is due, and the line of the text around each call that dangles; hints after them are passed over."""
    lines = told.decode("ascii").split("\n")[:-1]
    for name, place, other in due(text)[:TOLD]:
        head = "standard input:%d:%d: warning: " % position(text, place)
        words = {"redefined": "symbol %s redefined: this definition takes the place of the one on line %d, column %d." % (int(re.search(rb"\d+", text[place:])[0]), *position(text, other or 0)),
                 "dangling": "dangling references after %s: " % ("DD" if other == 1 else f"{other} DD commands")}[name]
        first = lines.pop(0) if lines else ""
        expect(first.startswith(head + words) and first.endswith("."), "the sentence of a warning", text[:200], name, place, first)
        if name == "dangling" and whole:
            expect_caret(*line_around(text, place), lines.pop(0) if lines else "", lines.pop(0) if lines else "")
    if lines and " more: cif list has them all." in lines[0]:
        lines.pop(0)
    expect(all(": hint: " in line for line in lines), "nothing else is told", text[:200], lines)


def try_record(row):
    """The list of a text, and what is told of it."""
    text, lines = bytes.fromhex(row[6]), bytes.fromhex(row[9])
    if lines.startswith((b"refused\t1\t", b"refused\t18\t")):  # the list program takes less than the tool
        return
    done = cif("list", "-", text=text)
    refused = lines.startswith(b"refused")
    expect((done.returncode, done.stdout) == (int(refused), lines), "the list of a record", text, done)
    if refused:
        expect(b"warning" not in done.stderr, "no warnings of a refused text", text, done)
    else:
        expect_sentences(text, done.stderr)


def test_records():
    rows = []
    for name in ("p01.tsv", "warnings.tsv"):
        with open(os.path.join(TOP, "tests", "requests", name)) as file:
            rows += [row.rstrip("\n").split("\t") for row in file if not row.startswith("#")]
    with concurrent.futures.ThreadPoolExecutor(os.cpu_count()) as pool:
        list(pool.map(try_record, [row for row in rows if row[1] == "2"]))


def test_tasks():
    """Warnings are told by every task that tells hints, and change nothing but the exit status, and that with --strict only."""
    for text in (TWICE, DANGLES):
        for task in ("check", "flat", "list", "plot", "summary"):
            plain, strict = cif(task, "-", text=text), cif(task, "--strict", "-", text=text)
            expect((plain.returncode, strict.returncode) == (0, 1), "--strict", text, task, plain, strict)
            expect((plain.stdout, plain.stderr) == (strict.stdout, strict.stderr) and plain.stdout, "--strict changes nothing else", text, task)
            expect_sentences(text, plain.stderr)
    expect(cif("flat", "-", text=TWICE).stdout == b"LA;\nR6 0 0;\nE\n", "the later definition is drawn")
    expect(cif("compare", "-", scratch("good.cif", TWICE), text=TWICE).stderr == b"", "compare warns of nothing")
    expect(b"warning" not in cif("check", "-", text=EXAMPLE).stderr, "no warning of an ordinary text")
    done = cif("check", "-q", "-", text=DANGLES)
    expect(done.returncode == 0 and done.stdout == b"" and b"2:11: warning: " in done.stderr, "check -q tells warnings", done)


def test_several_files():
    files = [scratch("twice.cif", TWICE), scratch("dangles.cif", DANGLES)]
    done = cif("check", *files)
    told = done.stderr.decode().split("\n")[:-1]
    expect(done.returncode == 0 and done.stdout.endswith(b"\n2 files: 2 accepted, 0 refused\n"), "several files with warnings", done)
    expect([line.split(": ")[:2] for line in told] == [[f"{files[0]}:2:1", "warning"], [f"{files[1]}:2:11", "warning"]], "a line for each, and no more", told)
    done = cif("check", "--strict", scratch("good.cif", EXAMPLE), *files)
    expect(done.returncode == 1 and done.stdout.endswith(b"\n3 files: 1 accepted, 2 refused or with a hint or warning\n"), "several files with --strict", done)


def test_many():
    """A call that dangles after many DD is one warning, and of others only so many are told."""
    text = b"DS1;C9;LA;R4 0 0;DF;" + b"DD5;" * 5000 + b"LA;R4 0 0;E"
    done = cif("check", "-", text=text)
    expect_sentences(text, done.stderr)
    expect(b":1:5: warning: dangling references after 5000 DD commands: " in done.stderr and done.stderr.count(b"warning") == 1, "one call, 5000 DD commands", done)
    expect(cif("list", "-", text=text).stdout.count(b"Warning: dangling references after DD.\t4\n") == 5000, "the list has a line for each")
    text = b"DS1;DF;\n" * 31 + b"C1;LA;R4 0 0;E"
    done = cif("check", "-", text=text)
    expect_sentences(text, done.stderr)
    expect(done.stderr.count(b"redefined") == TOLD and b"\nstandard input: warning: and 10 warnings more: cif list has them all.\n" in done.stderr, "so many are told", done)
    told = json.loads(cif("check", "--json", "-", text=text).stdout)
    expect((told["warned"], len(told["warnings"])) == (30, TOLD), "the same in JSON", told)


def test_long():
    """Where it would take long to look for warnings, that is said, and counts for --strict."""
    bodies, changes = b"DS1;" + b"C1;" * 200_000 + b"DF;", b"DS2;DF;DD3;" * 22_000
    done = cif("check", "--strict", "-", text=bodies + changes + b"DS3;LA;R4 0 0;DF;C3;E")
    expect(done.returncode == 1 and re.fullmatch(rb"standard input: warning: so many calls, .*: cif list does.\n", done.stderr), "it would take long", done)
    told = json.loads(cif("check", "--json", "-", text=bodies + changes + b"E").stdout)
    expect(told["warned"] is None and told["warnings"] == [], "in JSON", told)
    done = cif("check", "-", text=b"DS1;" + b"C1;" * 200_000 + b"DF;" + b"DD3;" * 30_000 + b"DS3;LA;R4 0 0;DF;C3;E")
    expect(done.returncode == 0 and done.stderr == b"", "a table that stays as it is is not searched again", done)


def test_json():
    told = json.loads(cif("check", "--json", "-", text=TWICE + b"\n").stdout)
    message = told["warnings"][0].pop("message")
    expect(told["warned"] == 1 and told["warnings"] == [{"name": "redefined", "place": 24, "line": 2, "column": 1, "times": 1}], "a redefinition in JSON", told)
    expect(message == "symbol 1 redefined: this definition takes the place of the one on line 1, column 1.", "its message", message)
    done = cif("check", "--json", "--strict", "-", text=DANGLES)
    told = json.loads(done.stdout)
    told["warnings"][0].pop("message")
    expect(told["warned"] == 1 and told["warnings"] == [{"name": "dangling", "place": 21, "line": 2, "column": 11, "times": 1}], "a dangling call in JSON", told)
    expect(done.returncode == 1 and done.stderr == b"", "--json with --strict", done)
