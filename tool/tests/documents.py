"""What the documents show is what happens: the example host, the texts of RULES.md, REFUSALS.md and HINTS.md, the sessions, the picture."""
import os
import re
import subprocess

from common import EXAMPLE, EXAMPLE_FLAT, MOST, TOP, Run, cif, content, expect


def document(name):
    return content(os.path.join(TOP, name)).decode()


def test_host():
    def host(text):
        done = subprocess.run([Run.host], input=text, capture_output=True)
        return done.returncode, done.stdout, done.stderr
    expect(host(EXAMPLE) == (0, EXAMPLE_FLAT, b""), "the example host")
    expect(host(b"C1;E") == (1, b"", b"host: refused 12 on line 1, column 1\n"), "the example host on a refusal")
    expect(host(b"DS1;C2;DF;DS2;C1;DF;\nC1;E") == (1, b"", b"host: refused 13 on line 1, column 15; in the calls at bytes 21, 4\n"), "the example host on a refusal in calls")
    expect(host(b"E".ljust(MOST + 1)) == (1, b"", b"host: refused 1 on line 1, column 1\n"), "the example host on a text that is too long")
    expect(document("examples/host.c").count("\n") <= 40, "the example host has at most forty lines")


def test_stacked_host():
    """The host that lends records: what it answers with each number of them, and that it finds them all zero afterwards, which it would say."""
    def host(text, *lent):
        done = subprocess.run([os.path.join(Run.built, "stacked"), *lent], input=text, capture_output=True)
        return done.returncode, done.stdout, done.stderr

    def refused(number, column, chain=b""):
        return 1, b"", b"stacked: refused %d on line 1, column %d%s\n" % (number, column, chain and b"; in the calls at bytes " + chain)
    expect(host(EXAMPLE) == (0, EXAMPLE_FLAT, b"") == host(EXAMPLE, "1"), "the host that lends records", host(EXAMPLE))
    expect(host(EXAMPLE, "0") == refused(21, 33), "the same with none", host(EXAMPLE, "0"))
    expect(host(b"LA;R1 0 0;E", "0") == (0, b"LA;\nR1 0 0;\nE\n", b""), "none needed")
    for levels in (2, 5, 31, 32):
        text = b"DS1;LA;R1 0 0;DF;" + b"".join(b"DS%d;C%d;DF;" % (n, n - 1) for n in range(2, levels + 1)) + b"C%d;E" % levels
        # the call of depth d is the outermost, or that in the body of the symbol d - 2 below the highest
        calls = [text.rindex(b"C"), *(text.index(b"DS%d;" % n) + len(b"DS%d;" % n) for n in range(levels, 1, -1))]
        for lent in range(33):
            right = (0, b"LA;\nR1 0 0;\nE\n", b"") if lent >= levels else refused(21, calls[lent] + 1, b", ".join(b"%d" % at for at in calls[:lent]))
            expect(host(text, str(lent)) == right, f"{levels} levels with {lent} records", host(text, str(lent)))
    for text in (b"C1;E", b"DS1;C2;DF;DS2;C1;DF;C1;E", b"DS1;LA;R1 1 0;DF;C1T16777215 0;E", b"X", b"LA;R0 0 0;E"):
        done = subprocess.run([Run.host], input=text, capture_output=True)
        expect(host(text) == (done.returncode, done.stdout, done.stderr.replace(b"host:", b"stacked:")), "both hosts on a refusal", text, host(text))
    expect(host(b"E", "33")[0] == 2 and host(b"E".ljust(2 ** 20 + 1))[0] == 2, "more than the host has")


def expect_answers(name):
    """Every text of a document that is written as `text`: number at place, perhaps with `in the calls at` and their places, or `text`: accepted. Answers the
    numbers found, with None for accepted."""
    found = re.findall(r"`([^`\n]+)`: (accepted|(\d+) at (\d+)(?: in the calls? at (\d+(?:, \d+)*))?)", document(name))
    for text, verdict, number, place, chain in found:
        done = cif("list", "-", text=text.encode())
        fields = done.stdout.decode().rstrip("\n").split("\t")
        refused = fields[:5] == ["refused", number, place, "1", str(int(place or 0) + 1)] and (not chain or fields[5:] == chain.split(", "))
        expect(done.returncode == 0 if verdict == "accepted" else refused, f"a text of {name}", text, verdict, done)
    return [int(number) if number else None for _, _, number, _, _ in found]


def test_rules():
    expect(len(expect_answers("docs/RULES.md")) >= 85, "RULES.md has texts for its rules")


def test_refusals():
    page = document("docs/REFUSALS.md")
    found = expect_answers("docs/REFUSALS.md")
    short = {2, 3, 4, 6, 7, 8, 9, 11, 12, 13, 16, 20}
    expect(5 not in found, "5 never occurs")
    expect(set(found) >= short, "REFUSALS.md has a text for each number that a short text can get")
    expect([int(n) for n in re.findall(r"^## (\d+):", page, re.M)] == [*range(1, 22), 25, 26], "REFUSALS.md has a part for each number")


def test_hints():
    """Every text of docs/HINTS.md, written as `text`: hint at line:column, or `text`: no hint. Of the texts in the section of a hint some get it, some not."""
    page = document("docs/HINTS.md")
    sections = re.findall(r"^## ([a-z-]+): .*\n((?:(?!## ).*\n)*)", page, re.M)
    source = document("tool/hints.c")
    names = re.search(r"names\[KINDS\] = \{(.*)\};", source)[1]
    expect([name for name, _ in sections] == re.findall(r'"([a-z-]+)"', names), "HINTS.md has a section for each hint, in their order", sections)
    for name, section in sections:
        found = re.findall(r"`([^`\n]+)`: (no hint|hint at (\d+:\d+))", section)
        words = re.search(r"\*\*(.*?)\*\*", section)[1].encode()
        expect({bool(place) for _, _, place in found} == {True, False}, "a text that gets the hint and one that does not", name)
        for text, verdict, place in found:
            done = cif("check", "-", text=text.encode().decode("unicode_escape").encode())
            told = [line for line in done.stderr.split(b"\n") if words in line]
            seen = not told if not place else len(told) == 1 and told[0].startswith(f"standard input:{place}: hint: ".encode())
            expect(done.returncode == 0 and seen, "a text of HINTS.md", name, text, verdict, done)


def test_sessions():
    """Each line `$ command` of these documents, and what it shows."""
    for name in ("README.md", "docs/REFUSALS.md", "docs/HINTS.md", "docs/JSON.md"):
        if not os.path.exists(os.path.join(TOP, name)):
            continue
        for command, shows in re.findall(r"^    \$ (.*)\n((?:    (?!\$ ).*\n)*)", document(name), re.M):
            command = command.replace("target/tool/cif", f"'{Run.cif}'")
            done = subprocess.run(command, shell=True, cwd=TOP, stdout=subprocess.PIPE, stderr=subprocess.STDOUT)
            expect(done.stdout.decode() == re.sub("^    ", "", shows, flags=re.M), f"what {name} shows", command, done.stdout)


def test_believed_lines():
    """How many lines are to be believed: those of the files that sections 1 to 18 of BELIEVE.md name, and of the section for each later request."""
    def lines(path):
        return sum(bool(line.strip()) and not line.startswith("use ") for line in document(path).split("\n"))
    page = document("docs/BELIEVE.md")
    heads = [(int(n), re.findall(r"`(?:crates/(\w+)/specs/)?(\w+)(?:\.antt)?`", head)) for n, head in re.findall(r"^## (\d+)\. (.*)", page, re.M)]
    files = [f"crates/{crate or 'definition'}/specs/{name}.antt" for n, names in heads if n <= 18 for crate, name in names]
    total = sum(map(lines, files))
    expect(len(files) == 21 and f": {total} lines, counted over the twenty-one files" in page.replace("\n", " "), "BELIEVE.md counts its lines", len(files), total)
    expect(f"{total} lines of definitions" in document("README.md"), "README.md tells the same number", total)
    for name in ("Summary", "Records", "Why"):
        section = page.split(f". `{name}` (RULES.md")[1].split("\n## ")[0]
        expect(f" {lines(f'crates/definition/specs/{name}.antt')} lines, counted as above" in section, "and that of a later request", name)


def test_picture():
    drawn = cif("plot", os.path.join(TOP, "samples", "cells.cif")).stdout.decode()
    expect(drawn == document("docs/picture.svg"), "docs/picture.svg is what cif plot makes of samples/cells.cif")
