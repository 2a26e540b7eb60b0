#!/usr/bin/env python3
"""Gives the definitions and lemmas of this repository the spelling of today's Rattle: words in snake case, types in camel case.

usage: tools/respell.py [FOLDER]

It was run once, right after the kit's own script of the port. `respelled-names.txt` beside it has the old name and the new one of each, a pair to a line. Names are changed in
specs, proofs, clauses and edits, and in the comments and documents that quote them; strings, and the rest of comments, stay.
"""
import pathlib
import re
import sys

HERE = pathlib.Path(__file__).resolve().parent
NAMES = dict(line.split() for line in (HERE / "respelled-names.txt").read_text().splitlines())
EDGE = r"[^\s(){}\[\];,.\"`«»]"
WORD = re.compile(EDGE + "+")
QUOTED = re.compile(r"`([^`\n]*)`")


def words(text):
    return WORD.sub(lambda m: NAMES.get(m[0], m[0]), text)


def quoted(text):
    return QUOTED.sub(lambda m: "`" + words(m[1]) + "`", text)


def line_of_code(line, comment):
    """A line in which strings stay, and of a comment all but what is quoted."""
    out, at = [], 0
    for m in re.finditer(r'b?"(?:[^"\\]|\\.)*"|(?:(?<=\s)|^)' + comment + r".*", line):
        out.append(words(line[at:m.start()]))
        out.append(quoted(m[0]) if m[0].startswith(comment) else m[0])
        at = m.end()
    out.append(words(line[at:]))
    return "".join(out)


def respelled(path, text):
    if path.suffix == ".md":
        return quoted(text)
    comment = "--" if path.suffix == ".antt" else "//"
    return "".join(line_of_code(line, comment) for line in text.splitlines(keepends=True))


def main():
    top = pathlib.Path(sys.argv[1] if len(sys.argv) > 1 else HERE.parent)
    files = [f for kind in ("rt", "antt", "edit") for f in (top / "crates").rglob("*." + kind)] + list(top.glob("docs/*.md")) + list(top.glob("*.md"))
    for path in sorted(files):
        text = path.read_text()
        new = respelled(path, text)
        if new != text:
            path.write_text(new)
    print(f"{len(files)} files read")


if __name__ == "__main__":
    main()
