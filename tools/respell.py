#!/usr/bin/env python3
"""Brings this repository's own definitions and lemmas to snake case, once, behind the kit's port.py.

respelled.tsv has each old name and its new one. Renamed are the words of .antt files (in a comment only what stands in
backticks), and in .rt files the words of contracts and of `ghost use`. Functions, types and strings keep their names.
"""
import glob
import os
import re

here = os.path.dirname(os.path.abspath(__file__))
top = os.path.dirname(here)
with open(os.path.join(here, "respelled.tsv"), encoding="utf-8") as table:
    new = dict(line.rstrip("\n").split("\t") for line in table)

WORD = re.compile(r'[^\s(){}\[\];,.|"@⌜⌝`:]+')


def words(text):
    return WORD.sub(lambda m: new.get(m.group(0), m.group(0)), text)


def antt(line):
    code, dashes, comment = line.partition("--")
    if dashes and code.strip() and not code.endswith(" "):
        return words(line)
    return words(code) + dashes + re.sub(r"`[^`]*`", lambda m: words(m.group(0)), comment)


def rust(line):
    # In a source file only a definition has a capital behind a small letter.
    camel = r"(?<![A-Za-z0-9_])[a-z][A-Za-z0-9]*[A-Z][A-Za-z0-9]*(?![A-Za-z0-9_])"
    return re.sub(camel, lambda m: new.get(m.group(0), m.group(0)), line)


def turn(pattern, f):
    for path in sorted(glob.glob(os.path.join(top, "crates", pattern), recursive=True)):
        with open(path, encoding="utf-8") as was:
            text = was.read()
        now = "\n".join(f(line) for line in text.split("\n"))
        if now != text:
            with open(path, "w", encoding="utf-8") as out:
                out.write(now)


turn("*/specs/**/*.antt", antt)
turn("*/proofs/**/*.antt", antt)
turn("*/src/*.rt", rust)
