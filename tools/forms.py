#!/usr/bin/env python3
"""Counts the places of src/ that are written in a form of which docs/DESIGN-PASS.md speaks.

    tools/forms.py            the count of each kind
    tools/forms.py KIND ..    the places of these kinds, FILE:LINE and a word

It goes by text, so a place that it names need not be one, and docs/DESIGN-PASS.md says which are kept.
"""
import collections
import glob
import re
import sys

NAME = r"[A-Za-z_][A-Za-z0-9_]*"


def sources():
    for path in sorted(glob.glob("crates/*/src/**/*.rt", recursive=True)):
        yield path, open(path, encoding="utf-8").read()


def without_comments(text):
    return re.sub(r"//[^\n]*", lambda m: " " * len(m.group()), text)


def line_of(text, at):
    return text.count("\n", 0, at) + 1


def block(text, at):
    """The text from the brace at `at` to the one that closes it."""
    depth = 0
    for i in range(at, len(text)):
        if text[i] == "{":
            depth += 1
        elif text[i] == "}":
            depth -= 1
            if depth == 0:
                return text[at : i + 1]
    return text[at:]


def functions():
    """Each function: path, line, name, parameters, contract, body."""
    for path, raw in sources():
        text = without_comments(raw)
        for m in re.finditer(r"^[ \t]*(?:pub(?:\([a-z]+\))? )?fn (%s)(?:<[^>(]*>)?\(" % NAME, text, re.M):
            depth, i = 1, m.end()
            while depth:
                depth += {"(": 1, ")": -1}.get(text[i], 0)
                i += 1
            parameters = text[m.end() : i - 1]
            # the body begins at a brace that stands at the line's end and opens no clause
            j = i
            while True:
                j = text.index("{", j)
                head = text[text.rfind("\n", 0, j) + 1 : j]
                if re.match(r"\s*(requires|ensures|ghost)\b", head):
                    j += len(block(text, j))
                    continue
                break
            yield path, line_of(text, m.start(1)), m.group(1), parameters, text[i:j], block(text, j)


def enums():
    for path, raw in sources():
        text = without_comments(raw)
        for m in re.finditer(r"^[ \t]*(?:pub(?:\([a-z]+\))? )?enum (%s)(?:<[^>]*>)? \{" % NAME, text, re.M):
            body = block(text, text.index("{", m.start()))[1:-1]
            yield path, line_of(text, m.start(1)), m.group(1), re.findall(r"^\s+(%s)(\(|\{|,)" % NAME, body, re.M)


def structs():
    for path, raw in sources():
        text = without_comments(raw)
        for m in re.finditer(r"^[ \t]*(?:pub(?:\([a-z]+\))? )?struct (%s)(?:<[^>]*>)? \{" % NAME, text, re.M):
            body = block(text, text.index("{", m.start()))[1:-1]
            yield path, line_of(text, m.start(1)), m.group(1), re.findall(r"^\s+(?:pub(?:\([a-z]+\))? )?(%s): ([^\n]+)," % NAME, body, re.M)


def options():
    """1: enums with one case that has a value and one that has none."""
    for path, line, name, cases in enums():
        if len(cases) == 2 and sum(1 for c in cases if c[1] == ",") == 1:
            yield path, line, name


def flags():
    """1: structs with a bool beside the value that it speaks of."""
    for path, line, name, fields in structs():
        for field, kind in fields:
            if kind == "bool" or field in ("bad", "good", "error"):
                yield path, line, "%s.%s" % (name, field)


def codes():
    """1: functions that hand back a number which stands for none."""
    for path, raw in sources():
        text = raw.split("\n")
        for i, row in enumerate(text):
            m = re.match(r"\s*(?:pub(?:\([a-z]+\))? )?fn (%s)" % NAME, row)
            above = i - 1
            said = ""
            while above >= 0 and text[above].strip().startswith("//"):
                said = text[above] + said
                above -= 1
            if m and re.search(r"\bor 0\b|\bor none\b|, or `?[A-Z_]+`?[.;,]|0 where there is none", said) and "Option" not in row:
                yield path, i + 1, m.group(1)


def twins():
    """2: functions whose bodies are alike but for names and numbers."""
    seen = collections.defaultdict(list)
    for path, line, name, parameters, contract, body in functions():
        words = re.findall(r"%s|\d+|[^\sA-Za-z0-9_]" % NAME, body)
        if len(words) < 24:
            continue
        order, shape = {}, []
        for w in words:
            if re.match(NAME, w) and w not in ("let", "mut", "if", "else", "for", "in", "while", "return", "match", "true", "false", "self", "as"):
                shape.append("n%d" % order.setdefault(w, len(order)))
            elif w.isdigit():
                shape.append("0")
            else:
                shape.append(w)
        seen[" ".join(shape)].append((path, line, name))
    for group in seen.values():
        if len(group) > 1:
            for path, line, name in group:
                yield path, line, "%s, as %s" % (name, ", ".join(n for p, l, n in group if (p, l) != (path, line)))


def loops():
    """3: loops over an index: `for i in a..b` whose body indexes by i, and `while`."""
    for path, raw in sources():
        text = without_comments(raw)
        for m in re.finditer(r"\bfor (%s) in [^{\n]*\.\.[^{\n]*\{" % NAME, text):
            body = block(text, text.index("{", m.end() - 1))
            if re.search(r"\[[^\]]*\b%s\b[^\]]*\]" % m.group(1), body):
                yield path, line_of(text, m.start()), "for " + m.group(1)
        for m in re.finditer(r"\bwhile [^{\n]*\{", text):
            yield path, line_of(text, m.start()), m.group().rstrip(" {")


def by_hand():
    """4: equality, order, conversion written out: a match that tells true or false, loops that compare, digits of a base."""
    for path, line, name, parameters, contract, body in functions():
        what = []
        if len(re.findall(r"=> (?:true|false),", body)) > 2:
            what.append("a test by cases")
        if re.search(r"(for|while) [^{]*\{\s*if [^{]*!= [^{]*\{\s*return false;", body):
            what.append("a comparison by places")
        if re.search(r"\* 256|% 256|/ 65536|\* 65536|% 65536", body):
            what.append("bytes of a number")
        if re.search(r"if (?:%s) \{\s*return (?:1|true);\s*\}\s*(?:0|false)\s*\}$" % NAME, body):
            what.append("a bool as a number")
        if re.fullmatch(r"\{\s*if ([\w.]+) < ([\w.]+) \{\s*return \2;\s*\}\s*\1\s*\}", body):
            what.append("the larger")
        if len(re.findall(r"if [^{]*\{\s*return (?:true|false);\s*\}", body)) > 0 and "for " not in body and "while " not in body:
            what.append("a test by returns")
        for w in what:
            yield path, line, "%s: %s" % (name, w)


def clauses():
    """5: a `requires` whose words stand in three functions or more of one crate."""
    seen = collections.defaultdict(list)
    for path, line, name, parameters, contract, body in functions():
        for c in re.findall(r"requires (?:%s )?\{ (.*?) \}\s*$" % NAME, contract, re.M):
            seen[path.split("/")[1], c].append((path, line, name, c))
    for rows in seen.values():
        if len(rows) > 2:
            for path, line, name, c in rows:
                yield path, line, "%s: %s" % (name, c)


def travellers():
    """5 and 6: pairs of parameters, a slice and a place in it, of a function."""
    for path, line, name, parameters, contract, body in functions():
        rows = [p.strip() for p in re.split(r",(?![^<(\[]*[>)\]])", parameters) if ":" in p]
        for a, b in zip(rows, rows[1:]):
            if re.search(r": &(?:'%s )?(?:mut )?\[(?:u8|u64)(?:; [^\]]*)?\]$" % NAME, a) and re.search(r"^(at|from|have|n|len|begins|waiting): (usize|Waiting)$", b):
                yield path, line, "%s: %s, %s" % (name, a, b)


def counted():
    """6: an array with a count beside it in one struct; arrays side by side."""
    for path, line, name, fields in structs():
        arrays = [f for f, k in fields if k.startswith("[")]
        if arrays and any(f in ("len", "count") for f, k in fields) or len(arrays) > 1:
            yield path, line, name


def switches():
    """7: a parameter that says which step is to run."""
    for path, line, name, parameters, contract, body in functions():
        for p in re.findall(r"(%s): bool" % NAME, parameters):
            if re.search(r"if !?%s\b" % p, body):
                yield path, line, "%s: %s" % (name, p)


def walks():
    """8: proofs that walk the code by hand."""
    for path in sorted(glob.glob("crates/*/proofs/**/Proof.antt", recursive=True)):
        yield path, 1, "Proof.antt"


KINDS = [options, flags, codes, twins, loops, by_hand, clauses, travellers, counted, switches, walks]


def main():
    wanted = sys.argv[1:]
    for kind in KINDS:
        rows = list(kind())
        if not wanted:
            print("%-11s %4d  %s" % (kind.__name__, len(rows), kind.__doc__.strip().split("\n")[0]))
        elif kind.__name__ in wanted:
            for path, line, what in rows:
                print("%s:%d: %s" % (path, line, what))


main()
