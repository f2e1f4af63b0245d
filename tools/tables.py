#!/usr/bin/env python3
"""Makes the recogniser's tables from the grammar: tools/tables.py, run at the top of the repository.

Reads crates/grammar/specs/Notation.antt (the classes) and Productions.antt (the rules) and writes crates/grammar/specs/Tables.antt
and crates/grammar/src/tables.rt. Run it anew after a change of a class, a rule or a role, and `rt fmt` after it.

Nothing of it has to be believed: proofs/Fitting.antt tests every entry of what it writes against the grammar, and a wrong one is refused.

A state is a set of items, an item a list of expressions that are still to come (partial derivatives). Bytes that no class of the grammar
tells apart are of one kind. A comment may nest to any depth, so it is no state: an entry says that one begins and which state comes
after it, and the recogniser counts the depth.
"""
import re

SPECS = "crates/grammar/specs/"
# In this order a comparison tells the letters that begin no piece, the first digit of a number, the ends of commands and all further letters apart.
ROLES = "skip sign later lead stop head second turn axis name".split()
STUCK, DEEP, UNIT = 255, 128, 256


def classes():
    """The set of bytes of each class, by computing the clauses of `has`."""
    text = open(SPECS + "Notation.antt", encoding="utf-8").read()
    known = {"leb": lambda a: lambda b: a <= b, "eqb": lambda a: lambda b: a == b}

    def python(body):
        body = body.replace("&&", "and")
        return re.sub(r"\b(leb|eqb) (\w+) (\w+)", r"\1(\2)(\3)", re.sub(r"\b(ascii|digit|upper) a\b", r"\1(a)", body))

    for name in ("ascii", "digit", "upper"):
        body = re.search(rf"^{name} a = (.*)$", text, re.M).group(1)
        known[name] = eval("lambda a: " + python(body), known)
    found = re.findall(r"^has (\S+) a = (.*)$", text, re.M)
    return {c: frozenset(a for a in range(256) if eval(python(body), dict(known, a=a))) for c, body in found}


def productions():
    """The rules as nested tuples: ('one', role, class), ('seq', r, s), ('alt', r, s), ('many', r), ('option', r), ('comment',)."""
    text = open(SPECS + "Productions.antt", encoding="utf-8").read()
    text = re.sub(r"( *--|^use ).*$", "", text, flags=re.M)
    rules = {"comment_text": ("comment",)}
    for name, body in re.findall(r"^abbrev pub (?:\S+) : Expression\n(\S+) =((?:.|\n)*?)(?=^abbrev|\Z)", text, re.M):
        words = re.findall(r"[()▹∣]|[^\s()▹∣]+", body)

        def alternatives():
            r = sequence()
            return ("alt", r, words.pop(0) and alternatives()) if words and words[0] == "∣" else r

        def sequence():
            r = factor()
            return ("seq", r, words.pop(0) and sequence()) if words and words[0] == "▹" else r

        def factor():
            word = words.pop(0)
            if word == "(":
                r = alternatives()
                words.pop(0)
                return r
            if word == "one":
                return ("one", words.pop(0), words.pop(0))
            if word in ("many", "option"):
                return (word, factor())
            return rules[word]

        rules[name] = alternatives()
    return rules


HAS, RULES = classes(), productions()
COMMENT = ("comment",)
CLOSE = ("one", "skip", "rpar")

# kinds: bytes of the same classes, the sets and then the single characters in the order of the classes, and last what fits nowhere
signature = {a: frozenset(c for c in HAS if a in HAS[c]) for a in range(256)}
firsts = ["Digit", "Blank"] + [c for c in HAS if len(HAS[c]) == 1] + ["Upper"]
KINDS = []
for c in firsts:
    plain = max((signature[a] for a in HAS[c]), key=lambda s: sum(1 for a in range(256) if signature[a] == s))
    KINDS.append(plain)
KINDS.append(frozenset())
assert set(KINDS) == set(signature.values())
NAMED = {"lpar": HAS["lpar"], "rpar": HAS["rpar"]}
REPS = [next(a for a in ([32] if a_in == "Blank" else []) + list(range(256)) if signature[a] == k) for k, a_in in zip(KINDS, firsts + [""])]
KIND_OF = [KINDS.index(signature[a]) for a in range(256)]


def kind(a):
    return KIND_OF[ord(a)]


def nullable(r):
    if r[0] == "one":
        return False
    if r[0] == "seq":
        return nullable(r[1]) and nullable(r[2])
    if r[0] == "alt":
        return nullable(r[1]) or nullable(r[2])
    return True


def push(r, rest):
    return push(r[1], push(r[2], rest)) if r[0] == "seq" else (r,) + rest


def derive(r, letter, rest, acc):
    """What is left after a letter (a kind and a role) of r and then rest, before acc: as `after` in proofs/Derivatives.antt."""
    k, role = letter
    if r[0] == "one":
        return [rest] + acc if r[1] == role and r[2] in KINDS[k] else acc
    if r[0] == "seq":
        return derive(r[1], letter, push(r[2], rest), derive(r[2], letter, rest, acc) if nullable(r[1]) else acc)
    if r[0] == "alt":
        return derive(r[1], letter, rest, derive(r[2], letter, rest, acc))
    if r[0] == "many":
        return derive(r[1], letter, (r,) + rest, acc)
    if r[0] == "option":
        return derive(r[1], letter, rest, acc)
    if role == "skip" and "lpar" in KINDS[k]:
        acc = [(COMMENT, CLOSE, COMMENT) + rest] + acc
    return [(COMMENT,) + rest] + acc if role == "skip" and "Comment" in KINDS[k] else acc


def derive_item(item, letter, acc):
    if not item:
        return acc
    if nullable(item[0]):
        acc = derive_item(item[1:], letter, acc)
    return derive(item[0], letter, item[1:], acc)


def canonical(items):
    return tuple(sorted(set(items), key=repr))


def move(state, k):
    """The role that a byte of kind k has in the state, and the state after it, or nothing."""
    found = []
    for role in ROLES:
        acc = []
        for item in reversed(state):
            acc = derive_item(item, (k, role), acc)
        if acc:
            found.append((role, canonical(acc)))
    assert len(found) <= 1, "a byte with two roles"
    return found[0] if found else None


def in_comment(state):
    return all(item[:2] == (COMMENT, CLOSE) for item in state)


def explore():
    start = canonical([push(RULES["cif_file"], ())])
    number, order, tree, moves = {start: 0}, [start], [], {}
    for i, state in enumerate(order):
        for k in range(len(KINDS)):
            step = move(state, k)
            if step is None:
                continue
            moves[i, k] = step
            if not in_comment(step[1]) and step[1] not in number:
                number[step[1]] = len(order)
                order.append(step[1])
                tree.append((i, REPS[k], step[0]))
    table = []
    for i in range(len(order)):
        for k in range(len(KINDS)):
            if (i, k) not in moves:
                table.append((0, STUCK))
                continue
            role, after = moves[i, k]
            if in_comment(after):
                table.append((ROLES.index(role), DEEP + number[canonical(item[2:] for item in after)]))
            else:
                table.append((ROLES.index(role), number[after]))
    return order, tree, table


def completions(order, table):
    """A shortest text that completes each state."""
    width = len(KINDS)
    best = [[] if any(all(map(nullable, item)) for item in state) else None for state in order]
    changed = True
    while changed:
        changed = False
        for q in range(len(order)):
            for k in range(width):
                role, to = table[q * width + k]
                if to < DEEP and best[to] is not None and (best[q] is None or len(best[to]) + 1 < len(best[q])):
                    best[q] = [(REPS[k], ROLES[role])] + best[to]
                    changed = True
    return best


def insides(order, table):
    """Which states lie within a definition: those from which the next D command can be a DF."""
    width, inside = len(KINDS), [False] * len(order)
    seen, todo = set(), [0]
    while todo:
        q = todo.pop()
        if q in seen:
            continue
        seen.add(q)
        for k in range(width):
            role, to = table[q * width + k]
            if to == STUCK:
                continue
            to -= DEEP if to >= DEEP else 0
            inside[to] = {kind("S"): True, kind("F"): False}.get(k, inside[q]) if ROLES[role] == "second" else inside[q]
            todo.append(to)
    return inside


def listed(xs, per):
    xs = [str(x) for x in xs]
    return "\n    ∷ ".join(" ∷ ".join(xs[i : i + per]) for i in range(0, len(xs), per)) + " ∷ []"


def main():
    order, tree, table = explore()
    ends, inner = completions(order, table), insides(order, table)
    width, stop = len(KINDS), ROLES.index("stop")
    after_stop = {to: inner[to] for role, to in table if role == stop and to != STUCK}
    [outside], [inside] = ([q for q in after_stop if after_stop[q] is side] for side in (False, True))
    [done] = [q for q, end in enumerate(ends) if end == []]
    constants = [
        ("state_count", len(order), "how many states there are; the first is state 0"),
        ("kind_count", width, "how many kinds of bytes there are"),
        ("role_count", len(ROLES), "how many roles there are"),
        ("role_unit", UNIT, "an entry of the table is its role's number times this, and then where the byte leads"),
        ("stuck", STUCK, "where a byte leads that no text has there"),
        ("deep", DEEP, "where a byte leads that begins a comment: this and the state after the comment"),
        ("accepting", done, "the state in which a text may end"),
        ("outside_state", outside, "the state behind a command's semicolon, outside definitions"),
        ("inside_state", inside, "the state behind a command's semicolon, within a definition"),
        ("lpar_kind", kind("("), "the kind of `(`"),
        ("rpar_kind", kind(")"), "the kind of `)`"),
        ("foreign_kind", KIND_OF[128], "the kind of the bytes that fit nowhere"),
        ("start_kind", kind("S"), "the kind of S"),
        ("finish_kind", kind("F"), "the kind of F"),
    ]
    entries = [UNIT * role + to for role, to in table]
    letter = "letter {} {}".format
    spec = "\n".join(
        [
            "-- The recogniser's tables, made by tools/tables.py. Nothing here is believed: proofs/Fitting.antt tests each entry against the grammar.",
            "-- They stand in specs/ because contracts of functions that are lent the tables name them.",
            "-- Assumes nothing.",
            "use Rattle.std.specs.Prelude.{Bool, true, false, List, [], ◌∷◌, ℕ, ◌*◌}",
            "use Rattle.grammar.specs.Notation.{Role, Letter, " + ", ".join(ROLES) + "}",
            "",
        ]
        + [f"-- {what}\nabbrev pub {name} : ℕ\n{name} = {value}\n" for name, value, what in constants]
        + [
            "-- how many entries the table has\nabbrev pub entry_count : ℕ\nentry_count = state_count * kind_count\n",
            "abbrev pub letter : ℕ → Role → Letter\nletter a ρ = record { byte = a; role = ρ }\n",
            f"-- the kind of each byte\nunfoldable pub kinds : List ℕ\nkinds =\n    {listed(KIND_OF, 30)}\n",
            f"-- a byte of each kind\nunfoldable pub samples : List ℕ\nsamples =\n    {listed(REPS, 30)}\n",
            "-- the roles, by their numbers\nabbrev pub roles : List Role\nroles = " + " ∷ ".join(ROLES) + " ∷ []\n",
            "-- each state but the first: an earlier state, and a letter that leads from there\nunfoldable pub tree : List (ℕ × Letter)\ntree =\n    "
            + listed(["({}, {})".format(q, letter(b, r)) for q, b, r in tree], 5) + "\n",
            "-- the entry for each state and kind: 256 times the number of the byte's role, and where it leads\nunfoldable pub table : List ℕ\ntable =\n    "
            + listed(entries, 30) + "\n",
            "-- a text that completes each state\nunfoldable pub ends : List (List Letter)\nends =\n    "
            + listed(["(" + " ∷ ".join([letter(b, r) for b, r in end] + ["[]"]) + ")" if end else "[]" for end in ends], 2) + "\n",
            "-- whether each state lies within a definition\nunfoldable pub insides : List Bool\ninsides =\n    "
            + listed(["true" if x else "false" for x in inner], 20),
        ]
    )
    open(SPECS + "Tables.antt", "w", encoding="utf-8").write(spec + "\n")

    def array(xs):
        return "[\n" + "".join(f"    {x},\n" for x in xs) + "]"

    upper = lambda name: re.sub(r"([A-Z])", r"_\1", name).upper()
    code = "// The recogniser's tables and their numbers, made by tools/tables.py. Nothing here is believed: they are those of specs/Tables.antt, which\n"
    code += "// proofs/Fitting.antt tests against the grammar, entry by entry. A table is copied to a local in the outermost function and lent down.\n\n"
    code += "\n\n".join(f"// {what}\npub const {upper(name)}: usize = {value};" for name, value, what in constants)
    code += "\n\n// how many entries NEXT has\npub const ENTRY_COUNT: usize = %d;\n" % len(entries)
    code += "\n// the numbers of the roles\n" + "".join(f"pub const {r.upper()}: usize = {i};\n" for i, r in enumerate(ROLES))
    code += f"\n// the kind of each byte\npub const KINDS: [u8; 256] = {array(KIND_OF)};\n"
    code += f"\n// the entry for each state and kind\npub const NEXT: [u16; ENTRY_COUNT] = {array(entries)};\n"
    open("crates/grammar/src/tables.rt", "w", encoding="utf-8").write(code)
    print(f"{len(order)} states, {width} kinds, {len(entries)} entries")


if __name__ == "__main__":
    main()
