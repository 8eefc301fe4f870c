#!/usr/bin/env python3
"""Gives the definition's own choice by a test, `if b then x else y`, a name of its own: today's library has an operator `if◌then◌else◌`, which unfolds everywhere, and rt takes no other
under that name. Here it is `provided b then x else y`; it stays shut where no proof opens it.

usage: tools/respell_choice.py      at the top of the repository, once, after tools/respell.py
"""

import os
import re

WORD = re.compile(r"(?<![\w'◌·.-])if(?![\w'◌·.:-])")
OPERATOR = "if◌then◌else◌"


def code(text):
    """The text without its comment, and that comment."""
    m = re.search(r"(?:^|(?<=\s))--", text)
    return (text[: m.start()], text[m.start() :]) if m else (text, "")


def turned(text):
    line, comment = code(text)
    return WORD.sub("provided", line).replace(OPERATOR, "provided◌then◌else◌") + comment.replace(OPERATOR, "provided◌then◌else◌")


def of_rt(text):
    out, depth, inside = [], 0, False
    for line in text.split("\n"):
        bare = line.lstrip()
        if re.match(r"(ensures|requires)\b", bare):
            inside, depth = True, 0
        if inside:
            out.append(turned(line))
            depth += line.count("{") - line.count("}")
            inside = depth > 0
        elif bare.startswith("ghost use "):
            out.append(line.replace(OPERATOR, "provided◌then◌else◌"))
        else:
            out.append(line)
    return "\n".join(out)


def of_edit(text):
    out, antt = [], False
    for line in text.split("\n"):
        key = line.split(":", 1)[0]
        if key == "file":
            antt = line.rstrip().endswith(".antt")
        clause = re.match(r"(old|new): *(ensures|requires|→|×)", line)
        out.append(turned(line) if key in ("old", "new") and (antt or clause) else line)
    return "\n".join(out)


for root, dirs, names in os.walk("crates"):
    dirs[:] = sorted(d for d in dirs if d != "out")
    for name in sorted(names):
        path = os.path.join(root, name)
        turn = of_rt if name.endswith(".rt") else of_edit if name.endswith(".edit") else (lambda t: "\n".join(map(turned, t.split("\n")))) if name.endswith(".antt") else None
        if turn:
            with open(path, encoding="utf-8") as f:
                text = f.read()
            if turn(text) != text:
                with open(path, "w", encoding="utf-8") as f:
                    f.write(turn(text))
