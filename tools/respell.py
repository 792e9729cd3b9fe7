#!/usr/bin/env python3
"""Brings the repository's own definitions and lemmas to snake case, once, after the kit's port.py.

usage: python3 tools/respell.py [FOLDER]     the top of the repository, by default the folder that it is run in

In every .antt file, in every .rt file, in every must-fail edit, and in what README.md and docs/ put in backquotes, a word that begins with a
small letter and has a capital inside, as `firstBad`, becomes `first_bad`; the parts of a name that a dash joins are words by themselves. What
stands between quotation marks stays. Words that begin with a capital are types, modules, variants or the console's own words, and stay. The
few names that would fall together with another are in OTHERWISE. It is run once: it finds nothing to do on what it wrote.
"""

import glob
import os
import re
import sys

TOKEN = re.compile(r"[A-Za-z_ℕ◌'₀-₉][A-Za-z0-9_ℕ◌'₀-₉-]*")
HUMP = re.compile(r"[a-z0-9'][A-Z]")
# a name that would fall together with another, or that the library has another word for
OTHERWISE = {"doesNot": "does_not_follow", "getD": "get_or"}
# in one file a lemma has the name that its function gets
LEMMAS = {("console/proofs/FieldLaws.antt", "none_left"): "none_left_lem"}
done = set()
STRING = re.compile(r'b?"(?:[^"\\]|\\.)*"')


def word(part):
    if part in OTHERWISE:
        return OTHERWISE[part]
    if part[:1].islower() and HUMP.search(part):
        return re.sub(r"(?<=[a-z0-9'])([A-Z]+)", lambda m: "_" + m.group(1).lower(), part)
    return part


def names(text, file=""):
    def one(m):
        whole = m.group(0)
        for (where, name), to in LEMMAS.items():
            if file.endswith(where) and whole == name and file not in done:
                return to
        return "-".join(word(p) for p in whole.split("-"))

    return TOKEN.sub(one, text)


def outside_strings(text, file):
    out, at = [], 0
    for m in STRING.finditer(text):
        out.append(names(text[at : m.start()], file))
        out.append(m.group(0))
        at = m.end()
    out.append(names(text[at:], file))
    return "".join(out)


def by_line(text, file):
    """A string does not go over a line's end, and a comment may have a lone quotation mark."""
    return "".join(outside_strings(line, file) for line in text.splitlines(keepends=True))


def in_backquotes(text, file):
    return re.sub(r"`[^`\n]*`", lambda m: names(m.group(0), file), text)


def main(argv):
    top = argv[0] if argv else "."
    changed = 0
    for pattern, turn in (
        ("crates/**/*.antt", by_line),
        ("crates/**/*.rt", by_line),
        ("crates/*/must-fail/*.edit", by_line),
        ("README.md", in_backquotes),
        ("docs/*.md", in_backquotes),
    ):
        for path in sorted(glob.glob(os.path.join(top, pattern), recursive=True)):
            if "/out/" in path:
                continue
            with open(path, encoding="utf-8", newline="") as f:
                before = f.read()
            done.update(path for (where, _), to in LEMMAS.items() if path.endswith(where) and to in before)
            after = turn(before, path)
            if after != before:
                with open(path, "w", encoding="utf-8", newline="") as f:
                    f.write(after)
                changed += 1
    print(f"respell: {changed} files")


if __name__ == "__main__":
    main(sys.argv[1:])
