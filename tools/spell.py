#!/usr/bin/env python3
"""Writes the repository's own definitions and lemmas in today's spelling: words in snake case, a lemma that would have its
function's name with `_lem`. usage: python3 tools/spell.py   at the top, once, after port.py; the names stand in spelling.txt.

In .rt and .antt files below crates/ a name is turned where it stands as a whole word, outside comments and strings; in a
comment where it stands between backquotes. Functions of src/ have no name among those that are turned."""
import os
import re

TOP = os.path.dirname(os.path.dirname(os.path.abspath(__file__)))
NAMES = dict(line.split() for line in open(os.path.join(TOP, "tools", "spelling.txt"), encoding="utf-8") if not line.startswith("#"))
# what can stand in Rust's own text is no name of theirs
SOURCE = re.compile(r"[a-z_0-9]+")
WORD = re.compile(r"[^\s(){}\[\],;.:=→λ∷⌜⌝×≡`\"]+")


def code(text, source):
    return WORD.sub(lambda m: m.group(0) if source and SOURCE.fullmatch(m.group(0)) else NAMES.get(m.group(0), m.group(0)), text)


def quoted(text, source):
    return re.sub(r"`[^`]*`", lambda m: code(m.group(0), source), text)


def turned(text, source):
    comment = "//" if source else "-- "
    out = []
    for line in text.split("\n"):
        at = re.search(r"(?:^|(?<=\s))" + comment, line)
        front, rest = (line[:at.start()], line[at.start():]) if at else (line, "")
        parts = re.split(r'("(?:[^"\\]|\\.)*")', front)
        out.append("".join(p if i % 2 else code(p, source) for i, p in enumerate(parts)) + quoted(rest, source))
    return "\n".join(out)


def main():
    changed = 0
    for folder, dirs, files in os.walk(os.path.join(TOP, "crates")):
        dirs[:] = [d for d in dirs if d != "out"]
        for name in files:
            path = os.path.join(folder, name)
            if not name.endswith((".rt", ".antt")):
                continue
            with open(path, encoding="utf-8") as f:
                old = f.read()
            new = turned(old, name.endswith(".rt"))
            if new != old:
                changed += 1
                with open(path, "w", encoding="utf-8") as f:
                    f.write(new)
    print("spell: %d files changed" % changed)


if __name__ == "__main__":
    main()
