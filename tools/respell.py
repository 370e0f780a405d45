#!/usr/bin/env python3
"""Respells this repository's own definitions and lemmas as today's Rattle wants them.

usage: python3 tools/respell.py [FOLDER]     once, after /opt/rattle/port/port.py, at the top of the repository (or of FOLDER)

Types and facts are in upper camel case, everything else in snake case; a dash stays only between two names.
The table respell.txt beside this file has one line for each name: the old one, then the new one.
Functions of src/, strings, inputs and outputs keep their names: only what a clause, specs/ or proofs/ can name is touched.
"""

import os
import re
import sys

HERE = os.path.dirname(os.path.realpath(__file__))
NAME = r"[A-Za-z][\w'-]*"
# what stands before a name that is not one of ours: a generated module, the facts of a step, a code string
NOT_OURS = re.compile(r"(?:goal|Goals|Given|auto)\.$")


def table():
    with open(os.path.join(HERE, "respell.txt"), encoding="utf-8") as f:
        return dict(line.split() for line in f if line.strip())


def code_parts(line, mark):
    """The line cut into (text, is_code): a comment is turned only in its backquoted names."""
    parts, i, quoted = [], 0, False
    while i < len(line):
        if line[i] == '"':
            quoted = not quoted
        if not quoted and line.startswith(mark, i) and (i == 0 or line[i - 1] in " \t(") and (mark == "//" or line.startswith(mark + " ", i) or line.strip() == mark):
            return [(line[:i], True), (line[i:], False)]
        i += 1
    return [(line, True)]


def turned(text, names):
    def name(m):
        return m.group(0) if NOT_OURS.search(text[: m.start()]) else names.get(m.group(0), m.group(0))

    return re.sub(r"(?<![\w'◌·-])" + NAME, name, text)


def in_quotes(text, names):
    return re.sub(r"`([^`]*)`", lambda m: "`" + turned(m.group(1), names) + "`", text)


def strings_kept(text, names):
    pieces = re.split(r'("(?:[^"\\]|\\.)*")', text)
    return "".join(p if i % 2 else turned(p, names) for i, p in enumerate(pieces))


def file_names(path, text, names):
    own = dict(names)
    if path.startswith("crates/sheet_text/"):
        # one name stood for a fact on spans and for a case of the layers
        own["in-text"] = "in_text" if path.endswith("Layers.antt") or re.search(r"specs\.Layers\.\{[^}]*in-text", text) else "InText"
    return own


def main(argv):
    root = argv[0] if argv else "."
    os.chdir(root)
    names = table()
    for folder, dirs, files in os.walk("."):
        dirs[:] = sorted(d for d in dirs if d not in (".git", "out", "target", "tools"))
        for f in sorted(files):
            path = os.path.relpath(os.path.join(folder, f), ".")
            if not f.endswith((".rt", ".antt", ".edit", ".md")):
                continue
            with open(path, encoding="utf-8") as it:
                text = it.read()
            own = file_names(path, text, names)
            out = []
            for line in text.split("\n"):
                if f.endswith(".md"):
                    out.append(in_quotes(line, own))
                elif f.endswith(".edit"):
                    out.append(line if line.startswith("file:") else strings_kept(line, own))
                else:
                    mark = "//" if f.endswith(".rt") else "--"
                    out.append("".join(strings_kept(p, own) if code else in_quotes(p, own) for p, code in code_parts(line, mark)))
            new = "\n".join(out)
            if new != text:
                with open(path, "w", encoding="utf-8") as it:
                    it.write(new)


if __name__ == "__main__":
    main(sys.argv[1:])
