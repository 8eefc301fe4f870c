#!/usr/bin/env python3
"""Brings the repository's own names of antt to snake case: definitions, laws, fields and constructors that were written in camel case or with dashes.

usage: tools/respell.py [--dry]      at the top of the repository, once, after port.py

A name is the repository's own where a file of specs/ or proofs/ declares it. Types, facts and modules keep their capital. What Rattle makes (goals, `Need-..`, paths of a proof)
is left, but for the names of proofs, which are now `f_spec`. A name that falls together with another one gets the ending that MOVED gives it.
"""

import os
import re
import sys

WORD = r"[\w'◌ℤℕ·+-]"
TOKEN = re.compile(r"(?<![\w'◌·ℤ-])([A-Za-z]" + r"[\w'-]*" + r")(?![\w'◌·-])")
DECLARES = re.compile(r"^\s*(?:abbrev |unfoldable |ruleset |data |record )*(?:pub )?(?:abbrev |unfoldable |data |record )*([^:=(){}]+?) :\s")
USE = re.compile(r"^(?:ghost )?use ([^\s{};]+?)(?:\.\{([^}]*)\})?(?: as [^\s;]+)?;?\s*$")

# names that would fall together with another: what they become
MOVED = {
    name: snake_name + "_lem"
    for name, snake_name in (
        (n, n.replace("-", "_"))
        for n in """
        areas-of areas-without areas-words board-in board-words claim-at claim-of claim-words decode-yield driver-words flash-base has-buffer is-cleared kind-at last-kind
        left-for lent-run may-move never_both no-board no_buffer no-process no_table not-installed number-at number-found on-table other-class other-memop pair-words part-at
        part_in part-line place_at play-board play-from play-record record-found run-at run-back run-words same-words table_step to_the_end too_long upcall-words whole-trace
        words-without
        """.split()
    )
}


def files(suffix):
    for root, dirs, names in os.walk("crates"):
        dirs[:] = sorted(d for d in dirs if d != "out")
        for n in sorted(names):
            if n.endswith(suffix):
                yield os.path.join(root, n)


def read(path):
    with open(path, encoding="utf-8") as f:
        return f.read()


def snake(name):
    if name in MOVED:
        return MOVED[name]
    head = name.split("-")
    out = []
    for part in head:
        if part[:1].isupper():
            out.append(part)
        else:
            out.append(re.sub(r"(?<=[a-z0-9])([A-Z])", lambda m: "_" + m.group(1).lower(), part))
    return "_".join(out)


def declared(path):
    found = set()
    made = os.path.basename(path) in ("Proof.antt", "Answers.antt", "Invariants.antt")
    for line in read(path).splitlines():
        if line.lstrip().startswith("--"):
            continue
        m = DECLARES.match(line)
        if not m:
            continue
        for n in m.group(1).split():
            if not re.fullmatch(r"[A-Za-z][\w'-]*", n) or n in ("use", "let", "in", "elim", "pub", "λ", "module", "where"):
                continue
            rest = line.split(":", 1)[1].strip()
            if made and (rest.startswith("tie.") or rest.startswith("goal.")):
                continue
            found.add(n)
    return found


def own():
    names = {}
    for p in files(".antt"):
        for n in declared(p):
            names.setdefault(n, set()).add(p)
    return names


def foreign(text, crates):
    found = set()
    for line in text.splitlines():
        m = USE.match(line.strip())
        if m and m.group(2):
            parts = m.group(1).split(".")
            if parts[0] == "Rattle" and parts[1] in crates:
                continue
            for item in m.group(2).split(","):
                found.update(w for w in item.split() if w != "as")
    return found


def aliases(text, crates):
    found = set()
    for line in text.splitlines():
        m = re.match(r"(?:ghost )?use (Rattle\.\S+) as ([^\s;]+)", line.strip())
        if m and m.group(1).split(".")[1] in crates and ".proofs." not in m.group(1):
            found.add(m.group(2))
    return found


def respelled(text, table, named):
    """The text, with each name of the table turned. What stands behind a dot is a field or a part of a path: there only what cannot be anything else is turned, and what a name of `named`
    leads to."""

    def put(m):
        name = m.group(1)
        if name not in table:
            return name
        before = text[: m.start(1)]
        if before.endswith(".") and name in MOVED and not any(before.endswith(a + ".") for a in named):
            return name
        return table[name]

    return TOKEN.sub(put, text)


def in_use(line, table, named):
    m = re.match(r"^((?:ghost )?use [^\s{};]+?)(\.\{[^}]*\}.*)$", line)
    if m:
        return m.group(1) + respelled(m.group(2), table, named)
    m = re.match(r"^((?:ghost )?use \S+ as )(.*)$", line)
    return m.group(1) + respelled(m.group(2), table, named) if m else line


def in_prose(text, table):
    return TOKEN.sub(lambda m: table.get(m.group(1), m.group(1)) if re.search(r"[a-z0-9][A-Z]", m.group(1)) else m.group(1), text)


def in_line(line, table, named, comment):
    if re.match(r"^(ghost )?use ", line):
        return in_use(line, table, named)
    at = line.find(comment)
    if at >= 0 and (at == 0 or line[at - 1] in " \t"):
        return respelled(line[:at], table, named) + in_prose(line[at:], table)
    return respelled(line, table, named)


def of_antt(text, table, named):
    return "\n".join(in_line(line, table, named, "--") for line in text.split("\n"))


def of_rt(text, table, named):
    out, depth, inside = [], 0, False
    for line in text.split("\n"):
        code = line.lstrip()
        if re.match(r"(ensures|requires)\b", code):
            inside, depth = True, 0
        if inside:
            out.append(respelled(line, table, named))
            depth += line.count("{") - line.count("}")
            inside = depth > 0
        elif code.startswith("ghost use "):
            out.append(in_use(line, table, named))
        elif code.startswith("//"):
            out.append(in_prose(line, table))
        else:
            out.append(line)
    return "\n".join(out)


def of_edit(text, table, named):
    out, rt = [], False
    for line in text.split("\n"):
        key = line.split(":", 1)[0]
        if key == "file":
            rt = line.strip().endswith(".rt")
            out.append(line)
        elif key in ("old", "new"):
            code = line[4:].lstrip()
            if rt and not re.match(r"(ensures|requires|ghost)\b", code):
                out.append(line)
            else:
                out.append(key + ":" + in_line(line[4:], table, named, "--"))
        elif key in ("at", "shown"):
            out.append(respelled(line, table, named))
        else:
            out.append(in_prose(line, table))
    return "\n".join(out)


def main():
    dry = "--dry" in sys.argv
    crates = set(os.listdir("crates"))
    names = own()
    turned = {n: snake(n) for n in names if n in MOVED or (("-" in n or re.search(r"[a-z0-9][A-Z]", n)) and not (n[0].isupper() and "-" not in n))}
    turned = {a: b for a, b in turned.items() if a != b}
    back = {}
    for a in set(names) | set(turned):
        back.setdefault(turned.get(a, a), set()).add(a)
    together = {b: a for b, a in back.items() if len(a) > 1}
    for b, a in sorted(together.items()):
        print("together:", b, {x: sorted(names[x]) for x in sorted(a)})
    if dry:
        print(len(turned), "names")
        return 0
    if together:
        return 1
    changed = 0
    for path in [*files(".antt"), *files(".rt"), *files(".edit")]:
        text = read(path)
        skip = foreign(text, crates) - (declared(path) if path.endswith(".antt") else set())
        named = aliases(text, crates)
        if path.endswith(".edit"):
            table = {w: s for s in back for w in [w for w in set(TOKEN.findall(text)) if w not in names and snake(w) == s]} | turned
            new = of_edit(text, table, named)
        else:
            table = {a: b for a, b in turned.items() if a not in skip}
            new = of_antt(text, table, named) if path.endswith(".antt") else of_rt(text, table, named)
        if new != text:
            changed += 1
            with open(path, "w", encoding="utf-8") as f:
                f.write(new)
    print(changed, "files")
    return 0


if __name__ == "__main__":
    raise SystemExit(main())
