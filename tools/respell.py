#!/usr/bin/env python3
"""Spells the repository's own definitions and lemmas in snake case: greatestDot becomes greatest_dot, first-edge becomes first_edge.

usage: tools/respell.py [--list]      at the top of the repository, once, after the toolchain's own script

Left as they are: types and modules (a capital in front), names that hold an operator or a capital after a dash, the names of goals
and invariants, which the toolchain makes, and the steps of a function's code (behind "c." and "w." in answers). Comments keep their dashes.
"""
import os
import re
import sys

LETTERS = r"\-A-Za-z0-9_'\u2080-\u2089\u1d49\u2115\u2124\u03ba"
TOKEN = re.compile(r"(?<![%s*+])[%s]+(?![%s])" % (LETTERS, LETTERS, LETTERS))
DEFINED = re.compile(r"^(\s*)((?:pub |abbrev |unfoldable )*)([%s]+)\s*:\s+(\S+)" % LETTERS)
BOUND = re.compile(r"\blet ([%s]+)\s*[:=]" % LETTERS)
# where the plain respelling would fall together with another name
OTHERWISE = {
    "edges-of": "edges_told",
    "image-of": "image_to",
    "rows-keep-the-law": "rows_keep_the_law_lem",
    "same-calls-same-answers": "same_calls_same_answers_lem",
}
MADE = re.compile(r"^(goal|given)\.")


# a step of a function's code, which the toolchain names: not respelled
STEP = re.compile(r"(?<![\w'])[cw]\.$")


def texts(ending):
    for folder, dirs, files in os.walk("crates"):
        dirs[:] = sorted(d for d in dirs if d not in ("out", "must-fail"))
        for name in sorted(files):
            if name.endswith(ending):
                yield os.path.join(folder, name)


def snake(name):
    if name in OTHERWISE:
        return OTHERWISE[name]
    if not re.match(r"[a-z]", name) or re.search(r"-[A-Z]|[^A-Za-z0-9_'-]", name):
        return name
    return re.sub(r"(?<=[a-z0-9])([A-Z])", lambda m: "_" + m.group(1).lower(), name).replace("-", "_")


def own():
    """The names to respell, each with its new spelling, and the names that the toolchain makes."""
    names, made = {}, set()
    for path in texts(".antt"):
        with open(path, encoding="utf-8") as f:
            for line in f:
                if line.lstrip().startswith("--"):
                    continue
                m = DEFINED.match(line)
                if m and MADE.match(m.group(4)):
                    made.add(m.group(3))
                    continue
                found = ([m.group(3)] if m else []) + BOUND.findall(line)
                for name in found:
                    if snake(name) != name:
                        names[name] = snake(name)
    for name in made:
        names.pop(name, None)
    return names


def collisions(names):
    """Two names that would become one, and a new name that a file already has from elsewhere."""
    seen, said = {}, []
    for old, new in names.items():
        if new in seen:
            said.append(f"{old} and {seen[new]} both become {new}")
        seen[new] = old
    for path in texts(".antt"):
        with open(path, encoding="utf-8") as f:
            text = f.read()
        there = set(TOKEN.findall(re.sub(r"--.*", "", text)))
        for old, new in names.items():
            if old in there and new in there:
                said.append(f"{path}: has both {old} and {new}")
    return said


def turn(path, names):
    answers = os.path.basename(path) in ("Answers.antt", "Invariants.antt")
    comment = "--" if path.endswith(".antt") else "//"
    with open(path, encoding="utf-8") as f:
        lines = f.readlines()
    out = []
    for line in lines:
        at = line.find(comment)
        code, rest = (line, "") if at < 0 or (comment == "--" and at > 0 and line[at - 1] not in " \t") else (line[:at], line[at:])
        code = TOKEN.sub(lambda m: m.group(0) if answers and STEP.search(code[: m.start()]) else names.get(m.group(0), m.group(0)), code)
        camel = {o: n for o, n in names.items() if "-" not in o}
        out.append(code + TOKEN.sub(lambda m: camel.get(m.group(0), m.group(0)), rest))
    if out != lines:
        with open(path, "w", encoding="utf-8") as f:
            f.writelines(out)
        return 1
    return 0


def main():
    names = own()
    said = collisions(names)
    for line in said:
        print("look:", line)
    if "--list" in sys.argv:
        for old in sorted(names):
            print(old, names[old])
        return
    turned = sum(turn(p, names) for p in list(texts(".antt")) + list(texts(".rt")))
    print(f"respell: {len(names)} names, {turned} files")


main()
