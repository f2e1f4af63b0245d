#!/usr/bin/env python3
"""Turns a crate's older proof files, a Proof.antt for each function, into today's Invariants.antt and Answers.antt.

  tools/answers.py NAMES CRATE [FUNCTION ..]     NAMES is the names.json that `rt check --generated DIR --old-names` writes for the crate

A need becomes the goal that stands in its place, and a path through the code the step that it led to. What the check finds alone is left out, and so are needs that are none any more.
What it could not follow is marked with the word UNTURNED.
"""
import json
import os
import re
import sys

STEM = re.compile(r"[^\s(){}\[\];,.@«»]+")
GONE = re.compile(r"^(enum|struct)[-_](told|known)|^shared[-_]slice[-_]read|^element[-_]copy[-_]out|^slice[-_]aggregate|^same[-_]length|^mut[-_]slice|^enum")


def flat(name):
    """A step's name, whatever joins its parts, and without what a lemma of its name got."""
    name = name.replace("-", "_")
    return name[:-4] if name.endswith("_lem") else name


class Function:
    """One function's older and newer names."""

    def __init__(self, entry, stem=""):
        self.entry, self.stem = entry, stem
        self.parent = {p[0]: p[1] for p in entry["places"]}
        self.field = {p[0]: p[2] for p in entry["places"]}
        self.index = {p[0]: i for i, p in enumerate(entry["places"])}
        self.loops = {flat(l[0][0]): l for l in entry["loops"]}

    def up(self, place):
        found = self.parent.get(place)
        return found

    def path(self, place, tokens):
        """The newer path for the fields `tokens`, read at the older place."""
        # Steps have names of their own throughout a function, so how far back one lies says nothing more.
        tokens = list(tokens)
        while tokens and tokens[0] == "before":
            tokens.pop(0)
        if not tokens:
            return None
        head, rest = tokens[0], tokens[1:]
        if head in ("args", "ranges", "lifetimes", "type_inv"):
            return ["c", head, *rest]
        if head == "requires":
            pre = self.entry["pre"]
            return ["c", "requires", *self.clause(pre["fields"] if pre else None, rest)]
        at = place
        while at is not None:
            arm = self.entry["arms"][self.index[at]]
            if arm:
                # The deepest place of the arm that this one leads to knows most of its fields.
                for new, old, way in arm[2]:
                    if flat(old) == flat(head) and rest[: len(way)] == way and not new.endswith("-own"):
                        return ["c", arm[0], new, *rest[len(way) :]]
            old, new = self.field[at]
            if flat(old) == flat(head):
                for name, known in self.entry["typed"][self.index[at]]:
                    if flat(known) == flat(old) and rest[:1] == ["given"]:
                        return ["c", "type_inv", name]
                if rest[:1] == ["ensures"]:
                    told = self.entry["clauses"][self.index[at]]
                    return ["c", new, "ensures", *self.clause(told["fields"] if told else None, rest[1:])]
                return ["c", new, *(it.replace("type-inv", "type_inv") for it in rest)]
            at = self.up(at)
        return None

    @staticmethod
    def clause(fields, rest):
        """Several clauses are fields by name; they nested as pairs."""
        if not fields:
            return rest
        fields, rest = list(fields), list(rest)
        while len(fields) > 1 and rest and rest[0] in ("0", "1"):
            step = rest.pop(0)
            if step == "0":
                return [fields[0], *rest]
            fields.pop(0)
        return [fields[0], *rest] if len(fields) == 1 else rest

    def turned(self, body, place, param="c"):
        aliases = {param: []}
        # let s = c.before.before in: an earlier place by a name of its own
        for found in list(re.finditer(r"\blet (\S+) = %s((?:\.before)+) in\s*" % re.escape(param), body)):
            aliases[found[1]] = found[2].strip(".").split(".")
        body = re.sub(r"\blet (\S+) = %s((?:\.before)+) in\s*" % re.escape(param), "", body)
        names = "|".join(sorted(map(re.escape, aliases), key=len, reverse=True))

        def one(found):
            tokens = aliases[found[1]] + found[2].strip(".").split(".")
            made = self.path(place, tokens)
            return ".".join(made) if made else "UNTURNED." + found[0]

        return re.sub(r"(?<![\w.'-])(%s)((?:\.[^\s(){}\[\];,.@«»]+)+)" % names, one, body)


def declarations(text):
    """The head (comments and imports) and the declarations of a file, each its lines with its name."""
    lines = text.split("\n")
    head, blocks, now = [], [], None
    for line in lines:
        if now is None and (line.startswith(("--", "use ")) or not line.strip()):
            head.append(line)
            continue
        if line and not line[0].isspace() and not line.startswith(("unfolding", "--")):
            name = re.match(r"(?:(?:abbrev|unfoldable|pub|private)\s+)*(\S+)", line)[1]
            if now and now[0] == name:
                now[1].append(line)
                continue
            now = (name, [line])
            blocks.append(now)
            continue
        if now is None:
            head.append(line)
        else:
            now[1].append(line)
    return head, blocks


def signature(block):
    text = "\n".join(block[1])
    found = re.match(r"(?:(?:abbrev|unfoldable|pub)\s+)*\S+\s*:\s*(.*?)(?=\n\S)", text, re.S)
    return found[1] if found else ""


def definition(block):
    """The unfolding line, the parameters and the body."""
    lines = block[1][1:]
    while lines and lines[0][:1].isspace():
        lines = lines[1:]
    unfolding = ""
    if lines and lines[0].startswith("unfolding"):
        unfolding = lines[0]
        lines = lines[1:]
    text = "\n".join(lines).rstrip()
    found = re.match(r"%s((?:\s+[^\s=]+)*)\s*=(?=\s)(.*)" % re.escape(block[0]), text, re.S)
    return (unfolding, found[1].split(), found[2].rstrip()) if found else (unfolding, None, text)


def substituted(body, params, values):
    table = {p: v for p, v in zip(params, values) if p != "_"}
    return re.sub(r"(?<![\w.'₀-₉-])[^\s(){}\[\];,.@«»]+", lambda it: table.get(it[0], it[0]), body)


def parts(text):
    """The parts of a tuple in parentheses, or None."""
    text = text.strip()
    if not text.startswith("("):
        return None
    depth, last, found = 0, 1, []
    for i, it in enumerate(text):
        depth += (it in "([{") - (it in ")]}")
        if depth == 0 and i < len(text) - 1:
            return None
        if it == "," and depth == 1:
            found.append(text[last:i].strip())
            last = i + 1
    return found + [text[last:-1].strip()]


def named(made, fields):
    """Nested pairs as a record of the clauses' names."""
    given, left = [], made
    for field in fields[:-1]:
        two = parts(left)
        if not two or len(two) != 2:
            # A tactic finds the whole as well as its parts.
            return " record { " + "; ".join(f"{it} = {made.strip()}" for it in fields) + " }" if "(" not in made and "." not in made else " UNTURNED" + made
        given.append(f"{field} = {two[0]}")
        left = two[1]
    given.append(f"{fields[-1]} = {left.strip()}")
    return " record { " + "; ".join(given) + " }"


def order_of(text, marker):
    """The names given to the list of needs at the file's end."""
    at = text.rfind(marker)
    return re.findall(r"[^\s()]+", text[at + len(marker) :].split("\n\n")[0]) if at >= 0 else []


def convert(entry, text, crate, path):
    f = Function(entry)
    head, blocks = declarations(text)
    needs, places = entry["needs"], [p[0] for p in entry["asked_at"]]
    invariants, answers, helpers, extra = [], [], [], []
    listed = order_of(text, "tie.spec") or order_of(text, "tie.close")
    listed = [it for it in listed if not re.match(r"(invariant|decreases)-", it)]
    given = {}
    if len(listed) == len(needs):
        given = {name: i for i, name in enumerate(listed)}
    else:
        extra.append(f"-- UNTURNED: {len(listed)} needs are listed, and {len(needs)} are named")
        for i, (old, new) in enumerate(needs):
            for block in blocks:
                if flat(old) == flat(re.sub(r"^tie\.Need-", "", signature(block).split(" ")[0])):
                    given[block[0]] = i
    for block in blocks:
        name, kind = block[0], signature(block)
        if re.match(r"tie\.(invariant|decreases)-", kind):
            unfolding, params, body = definition(block)
            word, loop = re.match(r"tie\.(invariant|decreases)-(\S+)", kind).groups()
            meant = f.loops.get(flat(loop))
            if meant is None or params is None:
                extra.append("-- UNTURNED\n" + "\n".join("-- " + it for it in block[1]))
                continue
            (old, new), fields = meant
            changed = entry["changed"][[flat(l[0][0]) for l in entry["loops"]].index(flat(loop))]
            values = [f"l.initial.{x}" if c else f"l.{x}" for x, c in zip(fields, changed)] + [f"l.{x}" for x, c in zip(fields, changed) if c]
            body = substituted(body, params, values)
            if len(values) != len(params):
                extra.append(f"-- UNTURNED: {len(params)} parameters of {name}, {len(values)} values")
            goal = f"{word}-{new}"
            invariants.append(f"abbrev pub {goal} : goal.{goal}\n" + (unfolding + "\n" if unfolding else "") + f"{goal} l ={body}")
            continue
        if name in given:
            old, new = needs[given[name]]
            unfolding, params, body = definition(block)
            if params is None:
                extra.append("-- UNTURNED\n" + "\n".join("-- " + it for it in block[1]))
                continue
            if body.strip() == "search rules" and not unfolding or GONE.match(old):
                continue
            param = params[0]
            made = f.turned(body, places[given[name]], param)
            asked = entry["asked"].get(old)
            if asked and len(asked) > 1:
                made = named(made, asked)
            answers.append(f"pub {new} : goal.{new}\n" + (unfolding + "\n" if unfolding else "") + f"{new} c ={made}")
            continue
        if name.replace("-", "_").endswith("_spec") and "statement" in kind:
            continue
        helpers.append("\n".join(block[1]).rstrip())
    comments = [it for it in head if it.startswith("--") and it.strip() != "-- Assumes nothing."]
    uses = [it for it in head if it.startswith("use ") and not re.search(r"\.(Statement|Tie|Lts|Reads|Kinds)\b", it)]
    module = f"Rattle.{crate}.proofs.{path}"
    folder = os.path.join("crates", crate, "proofs", *path.split("."))
    made = {}
    whole = lambda goals, parts: "\n".join([*comments, *uses, f"use {module}.{goals} as goal", "", "\n\n".join(parts), ""])
    if invariants:
        made["Invariants.antt"] = whole("Given", invariants)
    if answers or helpers or extra:
        made["Answers.antt"] = whole("Goals", extra + helpers + answers)
    for name, text in made.items():
        with open(os.path.join(folder, name), "w", encoding="utf-8") as file:
            file.write(text)
    os.remove(os.path.join(folder, "Proof.antt"))
    return "UNTURNED" in "".join(made.values())


def main():
    names = json.load(open(sys.argv[1], encoding="utf-8"))
    crate, only = sys.argv[2], sys.argv[3:]
    for key, entry in names.items():
        found = re.fullmatch(r"Rattle-%s-proofs\.(.+)\.Lts" % re.escape(crate), key)
        if not found or (only and found[1] not in only):
            continue
        file = os.path.join("crates", crate, "proofs", *found[1].split("."), "Proof.antt")
        if os.path.exists(file):
            with open(file, encoding="utf-8") as it:
                text = it.read()
            left = convert(entry, text, crate, found[1])
            print(f"{crate}.{found[1]}: turned{', in part' if left else ''}")


main()
