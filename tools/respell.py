#!/usr/bin/env python3
"""Brings this repository's own names in specs, proofs and clauses to the spelling of today's Rattle.

usage: python3 tools/respell.py [FOLDER]     the top of a checkout, this folder if left out

Run once, after the kit's own script for older repositories. A definition or lemma that was spelled with hyphens gets
underscores, and a fact's or type's name that begins with a capital becomes one word in camel case; an alias in a
`ghost use` that was in camel case gets underscores, and goes where it then says the name again. Own names are those that
stand in specs/ and in the lemma files of proofs/ and that no file imports from a library; names that Rattle makes for
the parts of a function's proof are none of these. Functions of src/, strings and comments keep their spelling. It also
turns the own names in the must-fail edits, prints what it renamed, and stops where two names would fall together.
"""
import os
import re
import sys

TOKEN = re.compile(r"(?<![\w'\u2080-\u2089-])[A-Za-z_\u03b1-\u03c9][\w'\u2080-\u2089]*(?:-[\w'\u2080-\u2089]+)+")
USE = re.compile(r"use ([\w.+]+)\.\{([^}]*)\}")
ALIAS = re.compile(r"([\w'-]+) as ([a-z][a-z0-9]*[A-Z]\w*)")
# where the plain spelling is a word of the library that the same files use
OTHERWISE = {"bit-xor": "bit_of_xor"}
WALKS = ("Answers.antt", "Invariants.antt", "Proof.antt", "Choices.antt")


def files(top):
    for folder, dirs, names in os.walk(os.path.join(top, "crates")):
        dirs[:] = sorted(d for d in dirs if d != "out")
        for name in sorted(names):
            if name.endswith((".antt", ".rt", ".edit")):
                yield os.path.join(folder, name)


def read(path):
    with open(path, encoding="utf-8") as f:
        return f.read()


def parts(path, line):
    """The line's code and its comment."""
    mark = " //" if path.endswith(".rt") else " --"
    at = (" " + line).find(mark)
    return (line, "") if at < 0 or path.endswith(".edit") else (line[: max(at - 1, 0)], line[max(at - 1, 0):])


def code(path, text):
    return "\n".join(parts(path, line)[0] for line in text.split("\n"))


def spelled(name):
    if name in OTHERWISE:
        return OTHERWISE[name]
    words = name.split("-")
    if name[0].isupper():
        return words[0] + "".join(w[:1].upper() + w[1:] for w in words[1:])
    return "_".join(words)


def snake(name):
    return re.sub(r"[A-Z]", lambda m: "_" + m.group().lower(), name)


def imported(text, crates):
    """What a file imports from libraries that are not this repository's."""
    names = set()
    for module, inside in USE.findall(text):
        own = re.match(r"Rattle\.(\w+)\.", module)
        if not own or own.group(1) not in crates:
            names |= {n.split(" as ")[0].strip() for n in inside.split(",")}
    return names


def in_line(path, line, renamed):
    it, comment = parts(path, line)
    turn = lambda t: TOKEN.sub(lambda m: renamed.get(m.group(), m.group()), t)
    if path.endswith(".rt"):
        # every second piece is a string
        return "".join(p if i % 2 else turn(p) for i, p in enumerate(re.split(r'("(?:[^"\\]|\\.)*")', it))) + comment
    return turn(it) + comment


def main(top):
    crates = set(os.listdir(os.path.join(top, "crates")))
    texts = {p: read(p) for p in files(top)}
    own, library = set(), set()
    for path, text in texts.items():
        if path.endswith(".edit"):
            continue
        outside = imported(text, crates)
        library |= outside
        body = code(path, text)
        if path.endswith(".antt") and os.path.basename(path) not in WALKS:
            own |= set(TOKEN.findall(body)) - outside
    renamed = {n: spelled(n) for n in own - library}
    twice = sorted(n for n, to in renamed.items() if list(renamed.values()).count(to) > 1)
    if twice:
        raise SystemExit("these fall together: " + ", ".join(twice))
    for path, text in texts.items():
        body = code(path, text)
        words = set(re.findall(r"[\w'\u2080-\u2089]+", body))
        for n in sorted(set(TOKEN.findall(body))):
            if renamed.get(n) in words and path.endswith(".antt"):
                print(f"look: {path}: {n} becomes {renamed[n]}, which stands there already")
    for path, text in texts.items():
        if path.endswith(".rt"):
            for name, alias in set(ALIAS.findall(text)):
                to = snake(alias)
                name = renamed.get(name, name)
                text = re.sub(rf"(?<![\w'-]){alias}(?![\w'-])", to, text)
        text = "\n".join(in_line(path, line, renamed) for line in text.split("\n"))
        if path.endswith(".rt"):
            text = re.sub(r"(?<![\w'])([\w']+) as \1(?![\w'])", r"\1", text)
        if text != texts[path]:
            with open(path, "w", encoding="utf-8") as f:
                f.write(text)
    for n in sorted(renamed):
        print(f"{n} {renamed[n]}")


if __name__ == "__main__":
    main(sys.argv[1] if len(sys.argv) > 1 else ".")
