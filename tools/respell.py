#!/usr/bin/env python3
"""Respells the repository's own names in snake case: kindAnswer and same-cells become kind_answer and same_cells.

Run at the top of the repository, after port.py. It turns definitions, lemmas, fields, constructors and variables of specs/ and
proofs/, and those words in the clauses of src/. Types and modules keep their camel case; functions of src/, strings, inputs and
outputs are not touched, nor are names of the library. It stops where two names would fall together, or where one is also the
name of a goal or step that Rattle generates.
"""
import pathlib
import re
import sys

DECLARED = re.compile(r"^\s*(?:abbrev |unfoldable )?(?:pub )?(?:abbrev |unfoldable )?([a-z][A-Za-z0-9_'-]*) :(?: |$)")
BOUND = re.compile(r"(?:let |λ |\()([a-z][A-Za-z0-9_'-]*)")
TOKEN = re.compile(r"[A-Za-z0-9_'<>≤→⊎₂-]+")


# A lemma whose name would become that of the definition it speaks of.
OTHERWISE = {"new-board-cells": "built_cells"}
# Variables of two files, which do not meet.
APART = {"low-shapes", "lowShapes", "high-shapes", "highShapes"}


def snake(name):
    if name in OTHERWISE:
        return OTHERWISE[name]
    name = re.sub(r"([a-z0-9])([A-Z])", lambda m: m.group(1) + "_" + m.group(2).lower(), name)
    return name.replace("-", "_")


def imported(text):
    """Names that a file takes from the library."""
    names = set()
    for line in text.splitlines():
        taken = re.match(r"\s*(?:pub )?use (\S+)\.\{(.*)\}", line)
        if taken and not re.match(r"Rattle\.(?!std\b)", taken.group(1)):
            names.update(name.strip() for name in taken.group(2).split(","))
    return names


def main():
    files = sorted(pathlib.Path("crates").glob("*/specs/**/*.antt")) + sorted(pathlib.Path("crates").glob("*/proofs/**/*.antt"))
    texts = {path: path.read_text() for path in files}
    library = set().union(*(imported(text) for text in texts.values()))
    own = set()
    for path, text in texts.items():
        generated = path.name in ("Answers.antt", "Invariants.antt", "Choices.antt")
        for line in text.splitlines():
            if not generated:
                own.update(DECLARED.findall(line))
            own.update(BOUND.findall(line))
            own.update(re.findall(r"[(λ](?:[^():]*? )?([a-z][A-Za-z0-9_'-]*)(?=[^():]*:)", line))
    turned = {name: snake(name) for name in own - library if snake(name) != name}
    known = own | library
    together = [name for name in turned if turned[name] in known] + [
        name for name in turned if name not in APART and list(turned.values()).count(turned[name]) > 1]
    if together:
        sys.exit(f"these names would fall together with others: {sorted(set(together))}")
    steps = set()
    for text in texts.values():
        steps.update(re.findall(r"\b(?:c|goal|c\.args|w)\.([A-Za-z0-9_'-]+)", text))
    if steps & set(turned):
        sys.exit(f"these are names of generated goals or steps too: {sorted(steps & set(turned))}")

    def turn(text):
        return TOKEN.sub(lambda m: turned.get(m.group(0), m.group(0)), text)

    for path, text in texts.items():
        path.write_text(turn(text))
    for path in sorted(pathlib.Path("crates").glob("*/src/**/*.rt")):
        lines = []
        for line in path.read_text().splitlines(keepends=True):
            clause = re.match(r"\s*(ghost |ensures|requires)", line)
            if clause:
                line = turn(line)
            elif re.match(r"\s*//", line):
                line = re.sub(r"`[^`]*`", lambda m: turn(m.group(0)), line)
            lines.append(line)
        path.write_text("".join(lines))
    for name in sorted(turned):
        print(name, "->", turned[name])


main()
