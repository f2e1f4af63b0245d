#!/usr/bin/env python3
"""How much of the machine's stack the proved reader takes: tools/speed/stack.py [FILE..], at the top of the repository, after `tool/archive`.

Links tools/speed/stack.c with the archive and prints for each text its answer, its calls and the bytes of stack that were touched
below the caller's frame, by the engine that calls itself and by the one that keeps the open calls in records (request 7). Without FILE it makes texts of 0 to
33 levels of calls; then the second engine has to take the same for each number of levels that it draws, from 1 on, and no more than that for 33, which it refuses, nor than for none, or the exit status is 1.
"""
import os
import shutil
import subprocess
import sys
import tempfile

from speed import linked


def levels(k):
    """A flash, and then one under k levels of calls. All have the first, since what is drawn outside of definitions takes a way of its own."""
    if k == 0:
        return "LA;R1 0 0;E"
    return "DS1;LA;R1 0 0;DF;" + "".join(f"DS{i};C{i - 1};DF;" for i in range(2, k + 1)) + f"LA;R1 0 0;C{k};E"


def made(work):
    for k in (0, 1, 2, 16, 31, 32, 33):
        path = os.path.join(work, f"{k} levels")
        open(path, "w").write(levels(k))
        yield path


def main():
    work = tempfile.mkdtemp()
    try:
        command = linked(work, "stack", "-O1")
        taken = {"calls": [], "records": []}
        print(f"{'text':24} {'engine':>8} {'answer':>12} {'calls':>8} {'stack':>8}")
        for path in sys.argv[1:] or made(work):
            for engine, so_far in taken.items():
                number, place, calls, stack = subprocess.run([*command, path, engine], capture_output=True, text=True, check=True).stdout.split()
                so_far.append(int(stack))
                print(f"{os.path.basename(path):24} {engine:>8} {number + ' ' + place:>12} {calls:>8} {stack:>8}")
        if not sys.argv[1:]:
            none, *some, refused = taken["records"]
            if len(set(some)) > 1 or not refused <= some[0] <= none:
                print("the engine with records takes more stack for some levels than for others")
                sys.exit(1)
    finally:
        shutil.rmtree(work)


if __name__ == "__main__":
    main()
