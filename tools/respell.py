#!/usr/bin/env python3
"""Respells the repository's own definitions and lemmas, once: words in snake case, types in camel case.

usage: python3 tools/respell.py    at the top of the repository, right after the toolchain's port.py

A name is the repository's own where it is defined in specs/ or in a lemma file of proofs/ (not in a folder of answers,
whose names the check makes), or where a `ghost use` of a source file gives it. Names that a file takes from std keep
their spelling, so do all that follows `goal.` and, in a folder of answers, all that follows a dot: the check makes
those. Comments and the functions of src/ are left alone; no string of the repository had such a name. A new name
that a file had already is said.
"""

import os
import re
import sys

HYPHENED = re.compile(r"(?<![\w'◌«-])([A-Za-z_⊎][\w']*(?:-[\w']+)+)(?![\w'-])")
CAMEL = re.compile(r"(?<![\w'◌«.-])([a-z]+(?:[A-Z][a-z]*)+)(?![\w'-])")
COMMENT = {".antt": "--", ".rt": "//"}
# names that would fall together with another one in camel case
APART = {"Broken-code": "IsBrokenCode", "Out-of-fuel": "RanOutOfFuel"}


def files(root):
    for folder, dirs, names in os.walk(os.path.join(root, "crates")):
        dirs[:] = sorted(d for d in dirs if d not in ("out", "must-fail"))
        for name in sorted(names):
            if name.endswith((".antt", ".rt")):
                yield os.path.join(folder, name)


def is_lemma_file(path):
    """Whether a file has definitions of the repository's own: specs/, and proofs/ but for the folders of answers."""
    parts = path.split(os.sep)
    place = parts[parts.index("crates") + 2 :]
    return place[0] == "specs" or (place[0] == "proofs" and len(place) == 2)


def is_answer_file(path):
    return path.endswith(".antt") and not is_lemma_file(path)


def parts_of(line, path):
    """A line as code and what follows it as a comment."""
    at = line.find(COMMENT[os.path.splitext(path)[1]])
    return (line, "") if at < 0 else (line[:at], line[at:])


def taken_from_std(text):
    names = set()
    for m in re.finditer(r"use Rattle\.std\.[\w.]+\.\{([^}]*)\}", text):
        names |= {n.strip().split(" as ")[0] for n in m.group(1).split(",")}
    return names


def respelled(name):
    if name in APART:
        return APART[name]
    words = re.split(r"-", name)
    if name[0].isupper():
        return "".join(w[0].upper() + w[1:] for w in words)
    name = "_".join(words)
    return re.sub(r"(?<=[a-z0-9])[A-Z]", lambda m: "_" + m.group().lower(), name)


def own_names(texts):
    std = set().union(*(taken_from_std(t) for t in texts.values()))
    own = set()
    for path, text in texts.items():
        for line in text.split("\n"):
            code = parts_of(line, path)[0]
            if is_lemma_file(path):
                own |= set(HYPHENED.findall(code)) | set(re.findall(r"^(?:abbrev )?(?:pub )?([a-z]+[A-Z]\w*) :", code))
            elif path.endswith(".rt") and code.lstrip().startswith("ghost use"):
                own |= set(re.findall(r" as ([a-z]+[A-Z]\w*)", code))
    return own - std


def turned(path, text, own):
    def one(m, code):
        name = m.group(1)
        before = code[: m.start()]
        if name not in own or before.endswith("goal.") or (is_answer_file(path) and before.endswith(".")):
            return name
        return respelled(name)

    lines = []
    for line in text.split("\n"):
        code, comment = parts_of(line, path)
        if is_answer_file(path) and re.search(r": goal\.", code):
            lines.append(line)
            continue
        for shape in (HYPHENED, CAMEL):
            code = shape.sub(lambda m: one(m, code), code)
        lines.append(code + comment)
    return "\n".join(lines)


def main():
    root = os.getcwd()
    texts = {}
    for path in files(root):
        with open(path, encoding="utf-8") as f:
            texts[path] = f.read()
    own = own_names(texts)
    for path, text in texts.items():
        new = turned(path, text, own)
        if new == text:
            continue
        words = set(re.findall(r"[\w'«»-]+", text))
        for name in sorted(own & words):
            if respelled(name) in words:
                print(f"look: {os.path.relpath(path, root)}: {name} and {respelled(name)} fall together")
        with open(path, "w", encoding="utf-8") as f:
            f.write(new)
    print(f"respell: {len(own)} names", file=sys.stderr)


main()
