#!/usr/bin/env python3
"""A small host of the proved reader over its shared library: writes the flat file of the CIF text on standard input to standard output.

examples/host.py [LIBRARY], where LIBRARY is target/tool/libcif.so unless it is said. The library is x86-64, and so must the Python be that runs this.
"""
import ctypes
import os
import sys

MOST_BYTES, WORDS, NUMBER, LENGTH, LINE, COLUMN, OPEN_CALLS, CHAIN = 16777216, 64, 0, 2, 7, 8, 9, 16  # as in include/cif.h


def load(path):
    library = ctypes.CDLL(path)
    word, number = ctypes.POINTER(ctypes.c_int32), ctypes.POINTER(ctypes.c_uint64)
    library.cif_flatten.argtypes = [ctypes.c_char_p, ctypes.c_size_t, word, ctypes.c_size_t, ctypes.c_char_p, ctypes.c_size_t, number]
    library.cif_flatten.restype = None
    return library


def flatten(library, text):
    """The answer's words, and the flat file; that is empty for a text that is refused."""
    room, answer = ctypes.create_string_buffer(MOST_BYTES), (ctypes.c_uint64 * WORDS)()
    words = (ctypes.c_int32 * max(len(text), 1))()  # as many as the text has bytes always suffice
    library.cif_flatten(text, len(text), words, len(text), room, len(room), answer)
    return list(answer), ctypes.string_at(room, answer[LENGTH])


def main(path):
    try:
        library = load(path)
    except OSError as trouble:
        other = os.path.exists(path) and os.uname().machine != "x86_64"  # the loader then says, misleadingly, that there is no such file
        sys.exit(f"host.py: the shared library cannot be loaded: {trouble}" + (f" (it is x86-64, and this Python is {os.uname().machine})" if other else ""))
    # One byte more than the reader takes, so that a text which is too long gets refusal 1 and is not cut.
    answer, flat = flatten(library, sys.stdin.buffer.read(MOST_BYTES + 1))
    if answer[NUMBER] != 0:
        chain = ", ".join(map(str, answer[CHAIN:CHAIN + answer[OPEN_CALLS]]))  # places of the calls that lead there, the outermost first
        sys.exit(f"host.py: refused {answer[NUMBER]} on line {answer[LINE]}, column {answer[COLUMN]}" + (f"; in the calls at bytes {chain}" if chain else ""))
    sys.stdout.buffer.write(flat)


if __name__ == "__main__":
    top = os.path.dirname(os.path.dirname(os.path.abspath(__file__)))
    main(sys.argv[1] if len(sys.argv) > 1 else os.path.join(top, "target", "tool", "libcif.so"))
