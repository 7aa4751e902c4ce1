#!/usr/bin/env python3
"""Turns this repository's own definitions and lemmas to the spelling of today's Rattle, after its port.py: words in snake case,
and a dash only between two names.

usage: tools/respell.py, at the top. It reads the declarations of crates/, writes the sources, the must-fail edits and the code
spans of the papers in place, and prints each name that it leaves because another has its new spelling. It proves nothing.
"""

import os
import re

WORD = re.compile(r"[^\s(){}\[\].;,:@\"`«»|]+|\[\]")
DECLARED = re.compile(
    r"^\s*(?:(?:pub|abbrev|unfoldable|data|record|opaque)\s+)*([^\s(){}.,;:]+)(?:\s+\{[^}]*\}|\s+\([^)]*\))*\s*:(?!=)\s(.*)")
DEFINED = re.compile(r"^\s*(?:pub\s+)?(?:abbrev|unfoldable|data|record)(?:\s+pub)?\s+([^\s(){}.,;:]+)")
# the library's words, which a dash joins to one of ours
LIBRARY = set("length take drop append set get_or cons zero suc add mul pow mod sub le lt eq and or xor not min concat map".split())
# where the plain respelling would meet another name in one file
BY_HAND = {
    "byNumber": "said_by_number",
    "isInverse": "is_listed_inverse",
    "rowZero": "zero_row",
    "rowOne": "one_row",
    "get_d_part": "get_or-part",
}
for kind in "answer block chunk counted field listed prefix written checked measured handedOut turned verdict".split():
    BY_HAND[kind + "Back"] = re.sub("([A-Z])", lambda m: "_" + m[1].lower(), kind) + "_of_said"


def files(*endings):
    for top in ("crates", "edits", "docs", "README.md", "CONTRIBUTING.md"):
        walk = os.walk(top) if os.path.isdir(top) else [(".", [], [top])]
        for folder, dirs, names in walk:
            dirs[:] = sorted(d for d in dirs if d != "out")
            for name in sorted(names):
                if name.endswith(endings):
                    yield os.path.join(folder, name)


def text_of(path):
    with open(path, encoding="utf-8") as f:
        return f.read()


def snake(name):
    name = name.replace("getD", "get_or")
    return re.sub(r"([a-z0-9])([A-Z])(?![A-Z])", lambda m: m[1] + "_" + m[2].lower(), name)


def dashes(name, names):
    parts = name.split("-")
    out = parts[0]
    for before, part in zip(parts, parts[1:]):
        joined = before in names and part in names
        out += ("-" if joined or not before[-1:].isalnum() or not part[:1].isalnum() else "_") + part
    return out


def table():
    declared, names, answers, seen, imported = set(), set(LIBRARY), {}, set(), set()
    for path in files(".antt"):
        for line in text_of(path).split("\n"):
            code = line.split("-- ")[0] if not line.lstrip().startswith("--") else ""
            seen.update(WORD.findall(code))
            if re.match(r"use (?!Rattle\.)|use Rattle\.(std|core|io)\.", code):
                imported.update(WORD.findall(code))
            found = DEFINED.match(code)
            if found:
                names.add(snake(found[1]))
            found = DECLARED.match(code)
            if found and not code.lstrip().startswith("let "):
                if re.match(r"tie\.|\{M : Type 1\} → statement|\(.*tie\.", found[2]):
                    answers.setdefault(path, set()).add(found[1])
                else:
                    declared.add(found[1])
    turn = {}
    for name in sorted(declared):
        if name in imported or not name[0].isalpha():
            continue
        new = BY_HAND.get(name) or name
        if new == name and re.search(r"[a-z0-9][A-Z]", name) and name[0].islower():
            new = snake(name)
        if "-" in new:
            new = dashes(new, names)
        if new != name:
            turn[name] = new
    taken = {}
    for name, new in sorted(turn.items()):
        taken.setdefault(new, []).append(name)
    for new, olds in sorted(taken.items()):
        lemmas = [old for old in olds if not re.search(r"[a-z0-9][A-Z]", old)]
        if len(olds) > 1 and len(lemmas) == 1 and len(olds) == 2:
            # a lemma that would have its function's name
            turn[lemmas[0]] = new + "_lem"
        elif len(olds) > 1 or (new in seen and lemmas):
            for old in olds:
                print(f"left: {old}, since {new} stands already or comes twice")
                del turn[old]
        elif new in seen:
            print(f"look: {olds[0]} is turned, and {new} stood already")
    return turn, answers


def turned(text, turn, kept, of_context):
    def word(m):
        before = text[: m.start()]
        if of_context and before.endswith(".") and re.search(r"(?:^|[^\w.)'-])[a-z]['\d]*(?:\.[^\s.()]+)*\.$", before[-200:]):
            return m[0]
        return m[0] if m[0] in kept else turn.get(m[0], m[0])

    return WORD.sub(word, text)


def main():
    turn, answers = table()
    for path in files(".antt", ".rt", ".edit"):
        old = text_of(path)
        proof = path.endswith("/Proof.antt")
        if path.endswith(".rt"):
            new = "".join(
                part if part.startswith('"') else turned(part, turn, (), False)
                for part in re.split(r'("(?:[^"\\\n]|\\.)*")', old))
        else:
            new = turned(old, turn, answers.get(path, ()), proof)
        if new != old:
            with open(path, "w", encoding="utf-8") as f:
                f.write(new)
    # the papers have some names as they were before port.py: such a one is what alone reads like it now
    alike = {}
    for path in files(".antt"):
        for line in text_of(path).split("\n"):
            found = DECLARED.match(line) or DEFINED.match(line)
            if found:
                alike.setdefault(found[1].replace("-", "_"), set()).add(found[1])
    now = {}
    for names in alike.values():
        for name in names:
            now[name] = name

    def paper(m):
        def word(w):
            name = turn.get(w[0], w[0])
            if name == w[0] and not re.search("-|[a-z0-9][A-Z]", name):
                return name
            like = alike.get(snake(name).replace("-", "_"), ())
            return name if name in now or len(like) != 1 else next(iter(like))

        return WORD.sub(word, m[0])

    for path in files(".md"):
        old = text_of(path)
        new = re.sub(r"(`+)(.+?)\1", paper, old, flags=re.S)
        if new != old:
            with open(path, "w", encoding="utf-8") as f:
                f.write(new)
    print(f"{len(turn)} names turned")


main()
