#!/usr/bin/env python3
"""Writes what the program `digits_tried` must print, crates/digits_tried/stdout: tools/digits_tried.py, run at the top of the repository.

Every power of ten below 2^64 and its neighbours, and the largest number of 64 bits, from place 1 on, in rooms of 0 to 22 bytes. Digits are those of Python's `str`.
"""
LONGEST = 22


def line(n, size):
    digits = str(n)
    room = ("." + digits).ljust(LONGEST, ".")[:size].ljust(LONGEST, ".")
    return f"{room}{1 + len(digits)}\n"


def main():
    numbers = [10**k + d for k in range(20) for d in (-1, 0, 1)] + [2**64 - 1]
    with open("crates/digits_tried/stdout", "w") as file:
        file.writelines(line(n, size) for n in numbers for size in range(LONGEST + 1))


if __name__ == "__main__":
    main()
