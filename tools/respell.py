#!/usr/bin/env python3
"""Brings the names of this repository's own definitions and lemmas to the spelling of the Rattle kit, once.

usage: python3 tools/respell.py [FOLDER]    at the top of the repository, or of another checkout, after the kit's port.py

The names stand in respelled.txt beside this script, old and new, a pair a line. A name is turned where it stands as a whole word: in
the code of .antt and .rt files and in must-fail edits, and in their comments and in the pages only between backticks. Strings stay. The
rules' definition `result`, whose name clauses use for what a function returns, becomes `with_result`.
"""

import os
import re
import sys

HERE = os.path.dirname(os.path.realpath(__file__))
NAME = re.compile(r"[\w'₀-₉-]+")
BACKTICKS = re.compile(r"`[^`\n]*`")
STRING = re.compile(r'b?"(?:[^"\\]|\\.)*"')


def table():
    with open(os.path.join(HERE, "respelled.txt"), encoding="utf-8") as f:
        return dict(line.split() for line in f if line.strip())


NAMES = table()


def words(text):
    return NAME.sub(lambda m: NAMES.get(m.group(), m.group()), text)


def comment(text):
    return BACKTICKS.sub(lambda m: words(m.group()), text)


def code(text):
    """Turns code outside its strings."""
    out, at = [], 0
    for m in STRING.finditer(text):
        out.append(words(text[at:m.start()]))
        out.append(m.group())
        at = m.end()
    out.append(words(text[at:]))
    return "".join(out)


def line_of(text, mark):
    """Turns a line of code whose comment begins with the mark."""
    m = re.search(r"(^|\s)" + mark, text)
    if m is None:
        return code(text)
    return code(text[:m.start()]) + comment(text[m.start():])


def antt(text):
    m = re.search(r"(^|\s)--", text)
    end = len(text) if m is None else m.start()
    head = re.sub(r"(?<![\w.'-])result(?![\w'-])", "with_result", text[:end])
    return line_of(head + text[end:], "--")


def rt(text):
    if text.startswith("ghost use"):
        text = re.sub(r"(?<![\w.'-])result(?![\w'-])", "with_result", text)
    if "⌜" in text:
        text = text.replace("≡ result (", "≡ with_result (")
    return line_of(text, "//")


def turned(path, text):
    lines = text.split("\n")
    if path.endswith(".antt"):
        return "\n".join(map(antt, lines))
    if path.endswith(".rt"):
        return "\n".join(map(rt, lines))
    if path.endswith(".edit"):
        return "\n".join(map(code, lines))
    return "\n".join(map(comment, lines))


def main():
    top = sys.argv[1] if len(sys.argv) > 1 else "."
    for folder, dirs, files in os.walk(top):
        dirs[:] = [d for d in dirs if d not in (".git", "out", "target", "tools")]
        for f in files:
            if not f.endswith((".antt", ".rt", ".edit", ".md")):
                continue
            path = os.path.join(folder, f)
            with open(path, encoding="utf-8") as old:
                text = old.read()
            new = turned(path, text)
            if new != text:
                with open(path, "w", encoding="utf-8") as out:
                    out.write(new)


if __name__ == "__main__":
    main()
