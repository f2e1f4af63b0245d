"""The texts that `batch` is tried on besides the rows of tests/*.tsv: `texts()` for the reader, with what is known of each, and LISTED for the list program.

What is known is the place of refusal 2, IN_GRAMMAR, or nothing (UNKNOWN): then the account says.
"""
from account import IN_GRAMMAR, following

UNKNOWN = object()

# RULES 15, and the sample of RULES 13
DOCUMENT = [
    ("E", IN_GRAMMAR), ("", 0), (" E", 1), (";E", IN_GRAMMAR), ("E x", IN_GRAMMAR), ("E X", 2), ("B1-2 3 4;E", 2), ("LABCDE;E", 5), ("DF;E", 1),
] + [(t, IN_GRAMMAR) for t in [
    "LA;R1 16777215 0;E", "LA;R1 16777216 0;E", "DS1 0 1;DF;E", "DS1 1 2;LA;R2 1 0;DF;E", "DS1 2 1;LA;R1 8388608 0;DF;E", "LA;R0 0 0;E",
    "R4 0 0;E", "C1 R 1 1;E", "C1;E", "DS1;C1;DF;E", "DS1;C1;DF;C1;E", "DS1;LA;R1 1 0;DF;C1T16777215 0;E", "LCM;DS1;LCC;R4 0 0;DF;C1;R6 0 0;E",
    "DS1;LA;R1 3 5;DF;DS2;C1R 0 1;DF;C2T 10 0;E", "DS1;LA;R1 0 0;DF;C1T500 0 MX;E", "DS1;LA;R1 0 0;DF;C1MX T500 0;E",
    "DS 7 50 2; L CM; B 4 2 1 0; DF; C 7 MX T 100 0; E",
]]

# samples/stuck.cif: a minus sign apart from its digit
STUCK = (
    "(A cell with a fault that the grammar finds: the minus sign stands apart from its digit.);\nDS 1;\n  L NM; B 4 4 0 - 2;\nDF;\nC 1;\nE\n", 114
)

# for each production texts of every shape that it has, all in the grammar, with nothing after their E
PRODUCTIONS = [
    "E", ";;E", " ; E", "\n;\tx,;\rE",                                                 # cif_file, semi, blank
    "P1 2;E", "P-1,-2 3 4X5Y6;E", "Pa 1bC-2;E",                                         # polygon, path, point
    "B1 2 3 4;E", "B 10,20 -3 -4 0 -1;E", "BX1X2X3X4X5X6;E",         # box, with and without its direction
    "R1 2 3;E", "R 007 -0 -00;E", "RR1R-2R3;E",                                         # round flash
    "W1 2 3;E", "W 1 2 3 4 5;E", "WW1W2W-3W4W5;E",                                      # wire
    "LA;E", "L 0;E", "L\nAB;E", "LE0;E", "LDF9Z;E",                                     # layer, short name
    "DS1;DF;E", "D S 1 2 3 ; D F ; E", "DaSA1B2C3;bDcF;E", "DS1;;L A;(x);9;P1 2;DF;E",   # definition
    "DS1;B1 2 3 4 5 6;W1 2 3;R1 2 3;C1T1 2MXR1 2;DF;E",
    "DD1;E", "D D 2 ; E", "DxDX3;E",                                                    # delete
    "C1;E", "C 1 T 2 3;E", "CX1T-2,3MXMYR0 -1;E", "C1 M X M\nY;E", "C1TT1T2RR3R4;E",  # call, transformation
    "0;E", "9(x)-Y E;E", "42 any text: )(\x7f\0;E",                                     # user extension
    "();E", "(a;b-C9);E", "(());E", "(a(b)(c(d))e);E",                                  # comment
]

# a text with all commands, as a person writes it
WHOLE = (
    "(a cell, with all commands; and (nested) words);\n9 user text (;\nDS 1 100 2;\n  L CM; B 4 2,1,0; B 4 2 -1 0 -1 1;\n"
    "  LND1; W 2 0 0 10 0 10 -10;; P 0 0 X 4 0 Y 4 4;\nDF;\nL CP; R 6 0 0;\nDS 2; C 1 T 10 -5 MX R 0 1; DF;\nDD 3; C 2 M Y; C 2;\nE\n"
)

# a byte at each edge of each class, and each letter that a rule names
EDGES = sorted(set(b"\0\t\n\x1f !'()*,-./09:;<@AZ[`az{\x7f\x80\xff") | set(b"BCDEFLMPRSTWXY"))


def texts():
    yield from DOCUMENT
    yield STUCK
    # cut at every byte, and with a byte from 128 up at every place
    prefixes = []
    for text in PRODUCTIONS + [WHOLE]:
        text = text.encode("latin-1")
        whole = len(text.rstrip())
        yield text, IN_GRAMMAR
        for i in range(len(text)):
            prefixes.append(text[:i])
            yield text[:i], i if i < whole else IN_GRAMMAR
            if len(text) < 60:
                yield text[:i] + b"\x80" + text[i:], i
                yield text[:i] + b"\xff", i
    # each edge of a class after one prefix for each set of bytes that can follow, outside definitions and within them
    seen = set()
    for prefix in sorted(prefixes, key=len):
        situation = (b"DS" in prefix and b"DF" not in prefix, following(prefix))
        if situation not in seen:
            seen.add(situation)
            for b in EDGES:
                yield prefix + bytes([b]), UNKNOWN
    # every byte as the first, between two numbers, in user text and in a comment
    for b in range(256):
        for before, after in [(b"", b";E"), (b"B1", b"2 3 4;E"), (b"9", b";E"), (b"(", b");E")]:
            yield before + bytes([b]) + after, UNKNOWN
    # comments of any depth, one parenthesis short or over, and a byte that fits nowhere at the bottom
    for depth in (1, 2, 3, 20, 300):
        yield b"(" * depth + b")" * depth + b";E", IN_GRAMMAR
        yield b"(" * depth + b")" * (depth - 1) + b";E", 2 * depth + 1
        yield b"(" * depth + b")" * (depth + 1) + b";E", 2 * depth
        yield b"(" * depth + b"\x80" + b")" * depth + b";E", depth
    yield b"(a(;)b((;)))x;E", IN_GRAMMAR
    yield b"(a(;)b((;)))X;E", 12
    # numbers of any length, and what stands beside the rules
    yield b"LA;R" + b"9" * 400 + b" -" + b"0" * 400 + b" 1;E", IN_GRAMMAR
    for text in ["B1 2 3 4 5;E", "B1 2 3 - 4;E", "B-1 2 3 4;E", "P1 2 3;E", "C1T1;E", "C1MZ;E", "C1 1;E", "DS1 2;DF;E", "DS1;DS2;DF;DF;E", "DS1;DD1;DF;E",
                 "DS1;E", "DS1;DF E", "()E", "E;E", "EE", "L;E", "LA B;E", "La;E", "X;E", "--;E", "b1 2 3 4;E", "(;E", ");E", "1;2"]:
        yield text.encode(), UNKNOWN


# every kind of shape, name and number in a listing; as long a text as the list program takes and one byte longer; a flat file that is too long for it
LISTED = [
    "DS1;LA;R1 3 5;DF;DS2;C1 R 0 1;DF;C2 T 10 0;E", "DS1;LA;R1 0 0;DF;C1 T500 0 MX;E", "DS1;LA;R1 0 0;DF;C1 MX T500 0;E",
    "LA;R1 0 0;R2 0 0;LAB;R3 0 0;LABC;R4 0 0;L0123;R5 0 0;LA;R6 0 0;E", "LA;B100 200 1 2 30 40;E", "LA;B100 200 -1 -2;E", "LA;R100 -7 8;E",
    "LA;W100 3 -4;E", "LA;W9 1 2 -3 4 5 -6;E", "LA;P1 2 3 4 5 -6;E", "LA;P-1 -2 -3 -4 -5 -60 -5 -60;E", "LA;R1 5 5;R1 -5 5;R1 0 -5;E",
    "LA;R1 -16777215 16777215;R1 16777215 -16777215;E", "DS1;LA;R1 0 0;DF;DS1;LB;R2 1 1;DF;DS1;LC;R3 2 2;DF;C1;C1 T1 0;C1 T2 0;C1 T3 0;E",
    "LA;" + "R1 0 0;" * 11 + "E", ";" * 32767 + "E", ";" * 32768 + "E",
    "DS1;LA;R1 0 0;DF;DS2;" + "C1;" * 16 + "DF;DS3;" + "C2;" * 16 + "DF;" + "C3;" * 16 + "E",
]
