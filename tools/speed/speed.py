#!/usr/bin/env python3
"""How fast the proved code is, and what memory it takes: tools/speed/speed.py [--of PART] [--times N] [FILE..], at the top of the repository.

PART is grammar (cif_recognise: refusal 2; the default) or reading (cif_refusal: refusals 2 to 9). Links tools/speed/driver.c with the archive that
tool/archive makes, by the kit's own compiler, and prints for each text
its length, the answer, the least processor time of N calls, ns a byte, and how many pages of memory the calls touched beyond those of the text and
of a call on an empty text. Without FILE it makes texts of 16 MiB, and one of 1 MiB for comparison.
"""
import argparse
import os
import shutil
import subprocess
import sys
import tempfile

MOST = 16 * 1024 * 1024
KIT = os.path.dirname(os.path.dirname(os.path.realpath(shutil.which("rt"))))
TOOLS = os.path.join(KIT, "toolchain")
TARGET = "x86_64-unknown-linux-gnu"
CALLS = {"grammar": "cif_recognise", "reading": "cif_refusal"}


def boxes(most):
    """Boxes with a comment at every twelfth and a wire, a polygon and a flash now and then, as tools write them."""
    out, size, i = ["L CM;"], 8, 0
    while True:
        x, y = 400 * (i % 900 - 450), 400 * (i // 900 - 300)
        new = f"B {20 + i * 7 % 320} {20 + i * 11 % 320} {x},{y};"
        if i % 20 == 0:
            new = [f"W 20 {x},{y} {x},{y + 90} {x + 90},{y + 90};", f"P {x},{y} {x + 90},{y} {x},{y + 90};", f"R 60 {x},{y};"][i // 20 % 3]
        if i % 12 == 0:
            new = f"(row {i // 900}, placed by hand; see sheet {i % 97} of the set);\n" + new
        size += len(new) + 1
        if size > most:
            return "\n".join(out) + "\nE"
        out.append(new)
        i += 1


def made(work):
    half = MOST // 2 - 2
    texts = {
        "boxes, 1 MiB": boxes(MOST // 16),
        "boxes": boxes(MOST),
        "one comment": "(" + "x" * (MOST - 4) + ");E",
        "comments in each other": "(" * half + ")" * half + ";E",
        "one number": "LA;R1 " + "7" * (MOST - 12) + " 1;E",
        "empty commands": ";" * (MOST - 1) + "E",
    }
    for i, (name, text) in enumerate(texts.items()):
        path = os.path.join(work, f"{i}.cif")
        open(path, "w", newline="\n").write(text)
        yield name, path


def archive():
    return "crates/cif_c/out/libcif_c.a"


def linked(work, name, *flags):
    """The program of NAME.c and the archive. Where there is no archive, that ends the run."""
    if not os.path.exists(archive()):
        sys.exit(f"no {archive()} here: run `tool/archive` at the top of the repository")
    obj, out = os.path.join(work, name + ".o"), os.path.join(work, name)
    source = os.path.join(os.path.dirname(os.path.abspath(__file__)), name + ".c")
    subprocess.run([os.path.join(TOOLS, "bin", "clang"), "--target=" + TARGET, *flags, "-c", source, "-o", obj], check=True)
    subprocess.run([os.path.join(KIT, "bin", "rattle-link"), "--target", TARGET, "--toolchain", TOOLS, "-o", out, obj, archive()],
                   check=True, stderr=subprocess.DEVNULL)
    return [out]


def main():
    a = argparse.ArgumentParser(description=__doc__, formatter_class=argparse.RawDescriptionHelpFormatter)
    a.add_argument("--of", choices=sorted(CALLS), default="grammar")
    a.add_argument("--times", type=int, default=7)
    a.add_argument("files", nargs="*")
    given = a.parse_args()
    work = tempfile.mkdtemp()
    try:
        command = linked(work, "driver", "-O3", "-DCALL=" + CALLS[given.of])
        print(f"{'text':24} {'bytes':>9}  {'answer':>12} {'ms':>9} {'ns/byte':>8} {'pages':>6}")
        for name, path in [(f, f) for f in given.files] or made(work):
            got = subprocess.run([*command, path, str(given.times)], capture_output=True, text=True, check=True).stdout.split()
            n = os.path.getsize(path)
            print(f"{os.path.basename(name):24} {n:9}  {got[0] + ' ' + got[1]:>12} {float(got[2]):9.2f} {float(got[2]) * 1e6 / n:8.2f} {got[3]:>6}")
    finally:
        shutil.rmtree(work)


if __name__ == "__main__":
    main()
