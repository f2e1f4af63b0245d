#!/usr/bin/env python3
"""Brings the repository's own definitions and lemmas to today's spelling: snake case for all but types and modules, a dash only between two names.

  tools/spelling.py [FOLDER]     run once, after the kit's port.py, over the checkout in FOLDER (here, if none is given); prints what it left

A word of two humps (`stepsIn`) and a plain word after a dash (`near-more`) become snake case (`steps_in`, `near_more`). A dash stays where both its sides are names of something, as in
`off_axes-moved`, and where a name of the kit has it. Names of types, of modules and of src/ stay. What would fall together with another name of a file keeps its old spelling.
"""
import os
import re
import sys

TOP = sys.argv[1] if len(sys.argv) > 1 else "."
TOKEN = re.compile(r"[^\s(){}\[\].;,@«»\"`]+")
QUOTED = re.compile(r'"(?:\\.|[^"\\])*"')
HUMP = re.compile(r"(?<=[a-z0-9])(?=[A-Z])")
WORDS = r"(?:(?:unfoldable|abbrev|pub|data|record|module|ruleset)\s+)*"
DECLARED = re.compile(r"^\s*%s([^\s(){}\[\].;,@«»\"`:]+)\s*(?:[({].*)?:(?:\s|$)" % WORDS)
BINDERS = re.compile(r"[({]\s*((?:[^\s(){}\[\].;,@«»\"`:]+\s+)+):\s")
LAMBDA = re.compile(r"λ\s+((?:[^\s(){}\[\].;,@«»\"`:]+\s*)+)\.")
FIELD = re.compile(r"[{;]\s*([^\s(){}\[\].;,@«»\"`:=]+)\s*=\s")
KIT_USE = re.compile(r"^\s*(?:ghost )?use (?!Rattle\.(?:%s)\.)([\w.◌]+)\.\{([^}]*)\}", re.M)


def texts(*ends):
    for folder, below, files in os.walk(os.path.join(TOP, "crates")):
        below[:] = sorted(it for it in below if it != "out")
        for name in sorted(files):
            if name.endswith(ends):
                yield os.path.join(folder, name)


def read(path):
    with open(path, encoding="utf-8") as file:
        return file.read()


def code(line):
    """A line without its comment and what stands in quotes."""
    return QUOTED.sub('""', re.split(r"(?:^|\s)-- ", line)[0])


CRATES = sorted(os.listdir(os.path.join(TOP, "crates")))
kit_use = re.compile(KIT_USE.pattern % "|".join(CRATES), re.M)
antt = {path: read(path) for path in texts(".antt")}
declared, bound, of_kit = set(), set(), set()
for path, text in antt.items():
    for _, names in kit_use.findall(text):
        of_kit |= {it.strip().split(" as ")[0] for it in names.split(",")}
    for line in map(code, text.split("\n")):
        found = DECLARED.match(line)
        if found and not re.search(r":\s*tie\.", line):
            declared.add(found[1])
        declared |= {it for it in TOKEN.findall(line) if it[0].islower() and HUMP.search(it)}
        for names in BINDERS.findall(line) + LAMBDA.findall(line):
            bound |= set(names.split())
        bound |= set(FIELD.findall(line))
for path in texts(".rt"):
    for _, names in kit_use.findall(read(path)):
        of_kit |= {it.strip() for it in names.split(",")}


# Definitions that would have the name of a function or of a field beside them.
OTHERWISE = dict(drawStep="drawn_step", drawBody="drawn_body", drawCall="drawn_call", drawShape="drawn_shape", layerSet="set_of_layers", faultAnswer="answer_of_fault", verdictAnswer="answer_of_verdict")
OTHERWISE |= dict(joinWords="words_of_join", lastFits="last_one_fits", markedBy="marking_by", nextPlace="place_beyond", noCounts="zero_counts", noSummary="empty_summary")
OTHERWISE |= dict(nodeAt="node_from", numberNo="number_refusal", wholeNo="whole_refusal", startFor="start_of", tooMany="has_too_many")


def snake(word):
    """One part of a name: humps become underscores."""
    if word in OTHERWISE:
        return OTHERWISE[word]
    if not word or not word[0].islower():
        return word
    return HUMP.sub("_", word).lower() if HUMP.search(word) else word


# What a dash may join: definitions of specs/, and words of the kit
specified = set()
for path, text in antt.items():
    if f"{os.sep}specs{os.sep}" in path:
        specified |= {found[1] for found in map(DECLARED.match, map(code, text.split("\n"))) if found}
PLAIN = set("a all any are as at by each from in is it its no none not of on one only or so some still sum that the then there to under up with word words".split())
parts_known = {snake(it) for it in specified | of_kit if "-" not in it} | {"zero", "suc", "add", "mul", "sub", "eq", "nil", "cons"}
parts_known -= PLAIN

def is_name(part):
    return bool(part) and (not part[0].isalpha() or part in parts_known)


def spelled(name):
    if not name[0].isalpha() or (name[0].isupper() and "-" not in name):
        return name
    parts = [snake(it) for it in name.split("-")]
    made = parts[0]
    for before, part in zip(parts, parts[1:]):
        joined = "-" if (is_name(before) and is_name(part) and name not in specified) or not part or not before or not part[0].isalpha() or before[0].isupper() else "_"
        made += joined + part
    return made


wanted = {}
for name in declared | bound:
    if name in of_kit or not name[0].isalpha():
        continue
    new = spelled(name)
    if new != name:
        wanted[name] = new

# A name of a module's path is none of a file's own. What would fall together with another name of a file gets `_lem` where it is a lemma, and else keeps its spelling.
def own_tokens(text):
    text = re.sub(r"^(\s*(?:pub )?use )[^\s{]*", r"\1", text, flags=re.M)
    return {it[0] for it in TOKEN.finditer(text) if text[it.start() - 1 : it.start()] != "."}


left = {}
tokens = {path: own_tokens(text) for path, text in antt.items()}
again = True
while again:
    again = False
    for path, found in tokens.items():
        owners = {}
        for token in sorted(found, key=lambda it: (it in wanted, "-" in it, it)):
            new = wanted.get(token, token)
            if owners.setdefault(new, token) == token:
                continue
            again = True
            if "-" in token and token in wanted and not wanted[token].endswith("_lem"):
                wanted[token] += "_lem"
                continue
            loser = token if token in wanted else owners[new]
            left[loser] = f"{path}: {wanted[loser]} is {owners[new] if loser == token else token}"
            del wanted[loser]


def turned(text):
    return TOKEN.sub(lambda it: wanted.get(it[0], it[0]), text)


def turned_code(text):
    """Texts in quotes stay as they are."""
    kept = QUOTED.findall(text) + [""]
    return "".join(turned(part) + quoted for part, quoted in zip(QUOTED.split(text), kept))


def turned_in_ticks(text):
    return re.sub(r"`[^`\n]+`", lambda it: turned(it[0]), text)


def turned_antt(text):
    """Code by its tokens, a comment only between its backticks."""
    lines = []
    for line in text.split("\n"):
        cut = re.search(r"(?:^|(?<=\s))-- ", line)
        at = cut.start() if cut else len(line)
        lines.append(turned_code(line[:at]) + turned_in_ticks(line[at:]))
    return "\n".join(lines)


def turned_rt(text):
    lines = []
    for line in text.split("\n"):
        cut = re.search(r"(?:^|(?<=\s))//", line)
        at = cut.start() if cut else len(line)
        lines.append(turned_code(line[:at]) + turned_in_ticks(line[at:]))
    return "\n".join(lines)


def write(path, text, old):
    if text != old:
        with open(path, "w", encoding="utf-8") as file:
            file.write(text)


for path, text in antt.items():
    write(path, turned_antt(text), text)
for path in texts(".rt"):
    write(path, turned_rt(read(path)), read(path))
for where in ("crates", os.path.join("tests", "wrong")):
    for folder, below, files in os.walk(os.path.join(TOP, where)):
        below[:] = [it for it in below if it != "out"]
        for name in files:
            if name.endswith(".edit"):
                old = read(os.path.join(folder, name))
                write(os.path.join(folder, name), "\n".join(turned_code(it) if it.startswith(("old:", "new:")) else turned_in_ticks(it) for it in old.split("\n")), old)
for where in (".", "docs", os.path.join("docs", "landings"), "second", "wip"):
    for name in sorted(os.listdir(os.path.join(TOP, where))) if os.path.isdir(os.path.join(TOP, where)) else []:
        if name.endswith(".md"):
            old = read(os.path.join(TOP, where, name))
            write(os.path.join(TOP, where, name), turned_in_ticks(old), old)
for name in sorted(os.listdir(os.path.join(TOP, "tools"))):
    if name.endswith(".py") and name != "spelling.py":
        old = read(os.path.join(TOP, "tools", name))
        write(os.path.join(TOP, "tools", name), "".join(map(turned, re.split(r"(\\n)", old))), old)
print(f"{len(wanted)} names respelled, {len(left)} left")
for name, why in sorted(left.items()):
    print(f"left: {name} ({why})")
with open(os.environ.get("SPELLED", os.devnull), "w", encoding="utf-8") as file:
    file.write("".join(f"{old}\t{new}\n" for old, new in sorted(wanted.items())))
