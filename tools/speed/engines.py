#!/usr/bin/env python3
"""How fast the two engines are, side by side: tools/speed/engines.py [--times N] FILE.., at the top of the repository, after `tool/archive`.

Links tools/speed/engines.c with the archive and prints for each text its answer, its flat file's length, shapes and calls, the least processor
time of N calls of `cif_flatten` and of `cif_flatten_stacked` with 32 records, by turns in one run, and how many times as long the second takes. Both have to
tell the same, in all words of the answer and all bytes of the room, or the exit status is 1.
"""
import argparse
import os
import shutil
import subprocess
import sys
import tempfile

from speed import linked


def main():
    a = argparse.ArgumentParser(description=__doc__, formatter_class=argparse.RawDescriptionHelpFormatter)
    a.add_argument("--times", type=int, default=5)
    a.add_argument("files", nargs="+")
    given = a.parse_args()
    work, differ = tempfile.mkdtemp(), 0
    try:
        command = linked(work, "engines", "-O3")
        print(f"{'text':16} {'bytes':>9} {'answer':>10} {'flat':>9} {'shapes':>8} {'calls':>8} {'calls, ms':>10} {'records, ms':>11} {'times':>6}")
        for path in given.files:
            got = subprocess.run([*command, path, str(given.times)], capture_output=True, text=True, check=True).stdout.split()
            first, second, same = float(got[5]), float(got[6]), got[7] == "1"
            differ += not same
            print(f"{os.path.basename(path):16} {os.path.getsize(path):9} {got[0] + ' ' + got[1]:>10} {got[2]:>9} {got[3]:>8} {got[4]:>8} {first:10.2f} {second:11.2f} {second / first:6.2f}"
                  + ("" if same else "  they differ"), flush=True)
    finally:
        shutil.rmtree(work)
    sys.exit(1 if differ else 0)


if __name__ == "__main__":
    main()
