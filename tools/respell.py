#!/usr/bin/env python3
"""Brings the repository's own names to today's spelling: definitions and lemmas are in snake case, types and modules in camel case.

usage: respell.py table   prints the table: a row for each name that specs/ and the lemma files of proofs/ declare in another spelling, and its new one
       respell.py         turns each name of tools/respell.tsv, in crates/ and in the code spans of README.md and docs/

A name that a proof file of one function declares for itself alone stays, as do the names of src/. Comments turn within backquotes alone.
"""
import glob
import os
import re
import sys

HERE = os.path.dirname(os.path.realpath(__file__))
TABLE = os.path.join(HERE, "respell.tsv")
NAME = r"[^\s(){}.;,@\"«»:`=]+"
DECLARED = re.compile(r"^\s*(?:abbrev |unfoldable |pub |data |record )*(" + NAME + r"(?:[ ]+" + NAME + r")*)\s*(?:\{[^}\n]*\}\s*)*:\s", re.M)
WORD = re.compile(r"[^\s(){}.;,@\"«»:`=]+")
GHOST = re.compile(r"ghost\s+use\b[^;]*;|(?:requires|ensures)\s*(?:\w+\s*)?(\{)|#\[tactic\([^\n]*\]|#!\[tactic\([^\n]*\]")
OLD_WORDS = {"getD": "get_or"}
# what a file, or the files of a folder, call otherwise than the table: a lemma whose name is now that of a definition which the file imports,
# and the calls by name
CALLS = {"set-up": "set_up", "smallest-x": "smallest_x", "largest-x": "largest_x", "smallest-y": "smallest_y"}
ALONE = {"crates/runs/proofs/Fits.antt": {"by_lines": "by_lines_lem"}, "crates/runs/": CALLS, "crates/marked/": CALLS}


def lemma_files():
    for top in ("specs", "proofs"):
        for f in sorted(glob.glob(f"crates/*/{top}/**/*.antt", recursive=True)):
            if os.path.basename(f) not in ("Proof.antt", "Answers.antt", "Invariants.antt"):
                yield f


def snake(name):
    parts = []
    for part in name.split("-"):
        part = OLD_WORDS.get(part, part)
        part = re.sub(r"([A-Z])([A-Z][a-z])", r"\1_\2", part)
        part = re.sub(r"([a-z0-9])([A-Z])", r"\1_\2", part)
        parts.append(part.lower())
    return "_".join(parts)


def table():
    names = set()
    for f in lemma_files():
        with open(f, encoding="utf-8") as h:
            text = h.read()
        for m in DECLARED.finditer(text):
            names.update(m[1].split())
        names.update(re.findall(r"\blet (" + NAME + r")\s*[:=]", text))
        names.update(re.findall(r"\bas ([^\s(){}.;,]+)", text))
    for n in sorted(names):
        if re.fullmatch(r"[a-zμ][\w'-]*", n) and snake(n) != n and re.search(r"-|[a-z0-9][A-Z]", n):
            yield n, snake(n)
        elif re.fullmatch(r"[A-Z][a-z]+(-[a-z]+)+", n):
            yield n, "".join(part[0].upper() + part[1:] for part in n.split("-"))


def turner(rows, path=None):
    for place, own in ALONE.items():
        if path and path.startswith(place):
            rows = rows | own

    def one(m):
        w = m[0]
        return rows.get(w, w)

    def code(text):
        """Turns the words of antt, and within a comment those between backquotes."""
        out = []
        for line in text.split("\n"):
            cut = re.search(r"(?<![^\s(){}.;,])--(?![^\s])", line)
            body, note = (line[: cut.start()], line[cut.start() :]) if cut else (line, "")
            out.append(WORD.sub(one, body) + spans(note))
        return "\n".join(out)

    def spans(text):
        return re.sub(r"`[^`\n]*`", lambda m: WORD.sub(one, m[0]), text)

    return code, spans


def block_end(text, at):
    depth = 0
    while at < len(text):
        depth += {"{": 1, "}": -1}.get(text[at], 0)
        at += 1
        if depth == 0:
            break
    return at


def source(text, code, spans):
    """Turns the clauses and the ghost uses of a source file."""
    out, at = [], 0
    for m in iter(lambda: GHOST.search(text, at), None):
        end = block_end(text, m.start(1)) if m[1] else m.end()
        out.append(comments(text[at : m.start()], spans))
        out.append(code(text[m.start() : end]))
        at = end
    out.append(comments(text[at:], spans))
    return "".join(out)


def comments(text, spans):
    return re.sub(r"//[^\n]*", lambda m: spans(m[0]), text)


def rewrite(path, turn):
    with open(path, encoding="utf-8") as h:
        old = h.read()
    new = turn(old)
    if new != old:
        with open(path, "w", encoding="utf-8") as h:
            h.write(new)


def main():
    if sys.argv[1:] == ["table"]:
        for row in table():
            print("\t".join(row))
        return
    with open(TABLE, encoding="utf-8") as h:
        rows = dict(line.rstrip("\n").split("\t") for line in h if line.strip())
    code, spans = turner(rows)
    for f in sorted(glob.glob("crates/**/*.antt", recursive=True)):
        rewrite(f, turner(rows, f)[0])
    for f in sorted(glob.glob("crates/*/src/**/*.rt", recursive=True)):
        rewrite(f, lambda t: source(t, code, spans))
    for f in sorted(glob.glob("crates/*/must-fail/*.edit")):
        rewrite(f, turner(rows, f)[0])
    for f in ["README.md", *sorted(glob.glob("docs/**/*.md", recursive=True))]:
        if os.path.basename(f) != "PORT.md":
            rewrite(f, spans)


main()
