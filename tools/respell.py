#!/usr/bin/env python3
"""Spells the repository's own definitions and lemmas as the kit does: words in snake case, so neither a capital inside nor a dash; types and modules keep theirs.

usage: tools/respell.py [FOLDER]      once, after port.py, at the top of the repository (or of FOLDER)

Turns every name that an .antt file of specs/ or proofs/ declares, with its uses in .antt and .rt files, in must-fail edits and in the pages' code spans.
Functions of src/, labels that Rattle makes, kit names, strings and files' names stay. A lemma that would get the name of a definition, of a word of the
kit that the repository imports or of another name that is spelled so already gets the ending `_lem`. It prints each name that would fall together with another.
"""

import collections
import os
import re
import sys

NAME = r"[^\s(){}.;,@\"«»\[\]|⌜⌝`]+"
TOKEN = re.compile(NAME)
DECLARED = re.compile(r"^(\s*)(?:(?:abbrev|unfoldable|pub|record|data|ruleset)\s+)*(" + NAME + r")((?:\s+[({][^:]*:[^)}]*[)}])*)\s*:(?:\s|$)(.*)")
USE = re.compile(r"\buse (?!Rattle\.(?!std\b))([^\s{;]+)\.\{([^}]*)\}", re.S)
ALIAS = re.compile(r"\bas ([a-z][^\s,;}]*)")
CAMEL = re.compile(r"^[a-z][^A-Z]*[A-Z]")
GOAL = re.compile(r"\btie\.|\bgoal\.|-lts\.|^\{M : Type 1\} → statement")


def snake(name):
    return re.sub(r"(?<=[a-z0-9])[A-Z]", lambda m: "_" + m[0].lower(), name).replace("-", "_")


def files(root, *endings):
    for folder, dirs, names in os.walk(os.path.join(root, "crates")):
        dirs[:] = sorted(d for d in dirs if d != "out")
        for n in sorted(names):
            if n.endswith(endings):
                yield os.path.join(folder, n)


def read(path):
    with open(path, encoding="utf-8") as f:
        return f.read()


def code(line):
    return re.sub(r"(?:^|\s)--.*", "", line)


def table(root):
    """Old name to new, and the names that are fields of records."""
    own, fields, kit, here, aliases = set(), set(), set(), set(), set()
    for path in files(root, ".antt", ".rt"):
        text = read(path)
        for m in USE.finditer(text):
            kit |= {x.strip().split(" as ")[0].strip() for x in m[2].split(",")}
        if path.endswith(".rt"):
            continue
        walked = path.endswith("Proof.antt")
        in_record = False
        for line in text.splitlines():
            line = code(line)
            if line[:1].strip():
                in_record = bool(re.match(r"(?:pub )?record .*\bwhere\s*$", line))
            if not walked:
                aliases |= {a for a in ALIAS.findall(line)}
                here |= {t for t in TOKEN.findall(line) if re.match(r"[a-z]", t)}
            m = DECLARED.match(line)
            if m and not (walked and GOAL.search(m[4])) and not m[2].endswith("-spec"):
                own.add(m[2])
                if m[1] and in_record:
                    fields.add(m[2])
    own |= {t for t in here | aliases if "-" in t and t not in kit and not t.startswith("-")}
    turned = {n: snake(n) for n in own if n[:1].islower() and n not in kit and snake(n) != n}
    # what stands already, or will: first come the words of specs/ and of the kit
    taken = {turned[n] for n in turned if CAMEL.match(n)} | kit
    result, by_new = {}, collections.defaultdict(list)
    for n in sorted(own):
        new = turned.get(n, n)
        if not CAMEL.match(n):
            if new in taken and n not in kit and n not in fields:
                new += "_lem"
            elif n in turned and new in own:
                new += "_lem"
        if new != n:
            result[n] = new
        by_new[new].append(n)
    for new, olds in sorted(by_new.items()):
        if len(olds) > 1 or new in kit and olds != [new]:
            print(f"together: {new}: {', '.join(olds)}")
    return result, fields


def turn(text, names, fields, only=None):
    def one(m):
        word = m[0]
        if word not in names or only and not only(word):
            return word
        if m.start() and text[m.start() - 1] == "." and not CAMEL.match(word) and word not in fields:
            # behind a module's name an item of the file, behind a value's a label that Rattle made
            before = re.search(r"([^\s(){},;]*)\.$", text[: m.start()])
            if not before or not re.match(r"Rattle\.|[A-Z]", before[1]):
                return word
        return names[word]

    return TOKEN.sub(one, text)


def spans(text, names, fields):
    return re.sub(r"`[^`\n]+`", lambda m: turn(m[0], names, fields), text)


def antt(text, names, fields):
    lines = []
    for line in text.split("\n"):
        m = re.search(r"(?:^|(?<=\s))--.*", line)
        body, comment = (line[: m.start()], m[0]) if m else (line, "")
        lines.append(turn(body, names, fields) + spans(comment, names, fields))
    return "\n".join(lines)


def rt(text, names, fields):
    lines = []
    for line in text.split("\n"):
        m = re.search(r"(?:^|(?<=\s))//.*", line)
        body, comment = (line[: m.start()], m[0]) if m else (line, "")
        if '"' not in body:
            body = turn(body, names, fields, only=CAMEL.match)
        lines.append(body + spans(comment, names, fields))
    return "\n".join(lines)


def edit(text, names, fields):
    antts = False
    lines = []
    for line in text.split("\n"):
        m = re.match(r"(old|new):", line)
        if line.startswith("file:"):
            antts = line.rstrip().endswith(".antt")
        elif m:
            line = turn(line, names, fields, only=None if antts else CAMEL.match)
        else:
            line = spans(line, names, fields)
        lines.append(line)
    return "\n".join(lines)


def main(argv):
    root = argv[0] if argv else "."
    names, fields = table(root)
    changed = 0
    pages = [os.path.join(root, f) for f in ("README.md",)]
    for folder in ("docs", "oracle", "bench", "samples"):
        for n in sorted(os.listdir(os.path.join(root, folder))) if os.path.isdir(os.path.join(root, folder)) else []:
            if n.endswith(".md"):
                pages.append(os.path.join(root, folder, n))
    for path in [*files(root, ".antt", ".rt", ".edit"), *pages]:
        old = read(path)
        by = antt if path.endswith(".antt") else rt if path.endswith(".rt") else edit if path.endswith(".edit") else spans
        new = by(old, names, fields)
        if new != old:
            changed += 1
            with open(path, "w", encoding="utf-8") as f:
                f.write(new)
    print(f"respell: {len(names)} names, {changed} files changed")


if __name__ == "__main__":
    main(sys.argv[1:])
