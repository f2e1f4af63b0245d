#!/usr/bin/env python3
"""Whether a function of the archive can come to call itself: tests/no_recursion.py [ARCHIVE], at the top of the repository, after `tool/archive`.

Request 7 asks for an engine that does not recurse, and a controller may be held to what it runs rather than to what was written. So the calls are read from
the machine code of crates/cif_c/out/libcif_c.a: no function that can be reached from the exports in FLAT may reach itself. For each export it prints how many
functions those are, and the deepest line of calls. Exit status 1 if one recurses, or if the check is blind: the engine of RECURSIVE draws a call by calling
itself, and has to be found out.

Where a function calls another, the compiler leaves a relocation, since each stands in a section of its own; where it calls itself, it does not, and the call is
found by its bytes: opcode E8 and the distance back to the start (8D, where it takes its own address). No function's address is taken for any other purpose than to call or jump to it, so nothing
is called through a pointer; that is looked at too. Data may hold addresses of code only as the table of a `match`: all within one function, which alone reads it.
"""
import struct
import sys

ARCHIVE = "crates/cif_c/out/libcif_c.a"
FLAT = ("cif_flatten_stacked", "cif_recognise", "cif_refusal", "cif_join")
RECURSIVE = "cif_flatten"
OUTSIDE = ("memcpy", "memset", "memmove")  # of the C library, which call nothing of ours
CALL, JUMP = 0xE8, 0xE9  # each with a distance of four bytes after it, from its end
ADDRESS = 0x8D  # a byte that says to which register, and that a distance follows, comes between
FUNCTION, SECTION = 2, 3  # kinds of symbols
PC32, PLT32 = 2, 4  # kinds of relocations: a distance, and a distance to a function


class Blind(Exception):
    """The archive is not as this check expects it."""


def members(data):
    """The object files of an archive."""
    if data[:8] != b"!<arch>\n":
        raise Blind("no archive")
    at = 8
    while at < len(data):
        name, size = data[at:at + 16].strip(), int(data[at + 48:at + 58])
        if data[at + 60:at + 64] == b"\x7fELF":
            yield data[at + 60:at + 60 + size]
        elif not name.startswith(b"/"):
            raise Blind("a member that is no object file")
        at += 60 + size + size % 2


class Object:
    """Sections, symbols and relocations of an ELF file for x86-64."""

    def __init__(self, data):
        self.data = data
        if data[4:6] != b"\x02\x01" or data[18:20] != b"\x3e\x00":
            raise Blind("an object file that is not for x86-64")
        start, (size, count) = struct.unpack_from("<Q", data, 40)[0], struct.unpack_from("<HH", data, 58)
        # name, kind, flags, address, offset, size, link, info, alignment, size of an entry
        self.sections = [struct.unpack_from("<IIQQQQIIQQ", data, start + size * i) for i in range(count)]
        self.table = next(i for i, s in enumerate(self.sections) if s[1] == 2)
        names = self.content(self.sections[self.table][6])
        # name, kind, section, place in it, size
        self.symbols = []
        for at in range(0, self.sections[self.table][5], 24):
            name, info, _, section, value, extent = struct.unpack_from("<IBBHQQ", self.content(self.table), at)
            self.symbols.append((names[name:names.index(b"\0", name)].decode(), info & 15, section, value, extent))

    def content(self, which):
        _, _, _, _, offset, size, *_ = self.sections[which]
        return self.data[offset:offset + size]

    def relocations(self):
        """Section, place in it, kind, symbol, and what is added to the symbol's place."""
        for kind, link, info, which in ((s[1], s[6], s[7], i) for i, s in enumerate(self.sections)):
            if kind == 4 and link == self.table:
                for place, code, added in struct.iter_unpack("<QQq", self.content(which)):
                    yield info, place, code & 0xFFFFFFFF, self.symbols[code >> 32], added


def graph(objects):
    """Each function with those that it calls or jumps to."""
    calls = {}
    for one in objects:
        functions = [s for s in one.symbols if s[1] == FUNCTION]
        calls.update((s[0], set()) for s in functions)

        def within(section, place):
            return next((s for s in functions if s[2] == section and s[3] <= place < s[3] + s[4]), None)

        related, tables, users = set(), {}, {}
        for section, place, kind, (name, sort, target, value, _), added in one.relocations():
            caller = within(section, place)
            if caller is not None:
                related.add((section, place))
                users.setdefault(target, set()).add(caller[0])
            else:
                tables.setdefault(section, set()).update(s[0] for s in functions if s[2] == target)
            met = None
            if sort == FUNCTION or target == 0:
                met = name if target == 0 else within(target, value)[0]
            elif sort == SECTION:
                found = within(target, value + added + 4)
                met = found[0] if found and caller is not None else None
            if met is None or met in OUTSIDE:
                continue
            code = one.content(section)[place - 1] if caller is not None else None
            if met not in calls:
                raise Blind("%s calls %s, which is not in the archive" % (caller and caller[0], met))
            if kind not in (PC32, PLT32) or code not in (CALL, JUMP):
                raise Blind("the address of %s is taken in %s: it could be called through a pointer" % (met, caller and caller[0]))
            calls[caller[0]].add(met)
        for section, into in tables.items():
            if into and (len(into) > 1 or users.get(section) != into):
                raise Blind("data with the addresses of %s: it could be called through a pointer" % ", ".join(sorted(into)))
        # within a section the distance is written out
        for caller, _, section, start, size in functions:
            code = one.content(section)
            for at in range(start + 1, start + size - 3):
                if (section, at) in related:
                    continue
                to = at + 4 + struct.unpack_from("<i", code, at)[0]
                met = [s[0] for s in functions if s[2] == section and s[3] == to]
                if code[at - 1] == CALL:
                    calls[caller].update(met)
                elif met and code[at - 2] == ADDRESS and code[at - 1] & 0xC7 == 5:
                    raise Blind("the address of %s is taken in %s: it could be called through a pointer" % (met[0], caller))
    return calls


def walk(calls, function, above=()):
    """The deepest line of calls from a function on, or the first that leads back to one of its own functions; and whether it does."""
    if function in above:
        return [*above[above.index(function):], function], True
    deepest = [*above, function]
    for callee in sorted(calls[function]):
        line, recurs = walk(calls, callee, (*above, function))
        if recurs:
            return line, True
        if len(line) > len(deepest):
            deepest = line
    return deepest, False


def reached(calls, function):
    seen, new = set(), {function}
    while new:
        seen |= new
        new = set().union(*(calls[f] for f in new)) - seen
    return seen


def main():
    calls = graph(Object(data) for data in members(open(sys.argv[1] if len(sys.argv) > 1 else ARCHIVE, "rb").read()))
    bad = False
    for export in (*FLAT, RECURSIVE):
        if export not in calls:
            raise Blind("no %s in the archive" % export)
        line, recurs = walk(calls, export)
        bad |= recurs != (export == RECURSIVE)
        told = "comes back to itself" if recurs else "never calls itself; the deepest of its %d functions" % len(reached(calls, export))
        print("%s: %s: %s" % (export, told, " > ".join(line)))
    if bad:
        print("a function recurses that may not, or the one that does was not found out")
    sys.exit(bad)


if __name__ == "__main__":
    try:
        main()
    except (Blind, OSError) as found:
        print("cannot tell whether anything recurses: %s" % found)
        sys.exit(1)
