#!/usr/bin/env python3
"""Brings the repository's own names to the spelling of today's Rattle, once, behind the kit's port.py.

usage: python3 tools/port_names.py     at the top of the repository

port_names.tsv has a row for each definition and lemma: its name in the older spelling, as port.py leaves it, and today's.
The rows with a third field are for texts that port.py does not turn: must-fail edits and pages.
Names of Rust functions, strings, and what stands behind a dot in the old proofs that walk the code stay as they are.
"""

import os
import re
import sys

HERE = os.path.dirname(os.path.realpath(__file__))
WORD = re.compile(r"[^\s(){}.;,@\"«»`]+")


def rows():
    turned, plain = {}, {}
    with open(os.path.join(HERE, "port_names.tsv"), encoding="utf-8") as f:
        for line in f:
            if line.strip() and not line.startswith("#"):
                kind, old, new = line.rstrip("\n").split("\t")
                (turned if kind == "turned" else plain)[old] = new
    return turned, plain


def replaced(text, table, behind_a_dot=True):
    def one(m):
        word = m[0]
        new = table.get(word)
        if new is None:
            return word
        dotted = m.start() > 0 and text[m.start() - 1] == "."
        if dotted and (not behind_a_dot or not re.search(r"[A-Z-]", word)):
            # an alias of a module, as Statuses.unsoundStatus, is no field of a proof
            before = re.search(r"([\w'-]+)\.$", text[max(0, m.start() - 80) : m.start()])
            if not (before and before[1][0].isupper()):
                return word
        return new

    return WORD.sub(one, text)


def in_rust(text, table):
    humps = {old: new for old, new in table.items() if re.search(r"[a-z0-9][A-Z]", old)}
    return replaced(text, humps)


# A projection was written behind a space, as f a .len for today's (f a).len, and l .len for l.len.
def tight(text):
    def one(m):
        words = m[1].split(" ")
        n = len(words)
        while n > 0 and words[n - 1] not in ("if", "then", "else", "in"):
            n -= 1
        head, of = words[:n], words[n:]
        if not of:
            return m[0]
        it = " ".join(of) if len(of) == 1 else "(" + " ".join(of) + ")"
        return " ".join(head + [it + m[2].replace(" .", ".")])

    for _ in range(3):
        text = re.sub(r"((?:[\w'◌][\w'.◌]* )*[\w'◌][\w'.◌]*)((?: \.\w+)+)", one, text)
        text = re.sub(r"\(([\w'◌]+(?:\.\w+)+)\)", r"\1", text)
        text = re.sub(r"\((\([^()]*\)\.\w+)\)", r"\1", text)
    return re.sub(r"(?<![\w◌])_(∷|\+\+|≡|\+|&&)_(?!\w)", r"◌\1◌", text)


def edit(text, table):
    out, antt = [], False
    for line in text.split("\n"):
        if line.startswith("file: "):
            antt = line.endswith(".antt")
        elif antt and line[:5] in ("old: ", "new: "):
            body = line[5:]
            lead = re.match(r" *", body)[0]
            head = body[len(lead) :]
            line = line[:5] + lead + tight(replaced(head, table))
        out.append(line)
    return "\n".join(out)


def page(text, table):
    shown = {old: new for old, new in table.items() if re.search(r"[a-z0-9][A-Z]|-", old)}
    return re.sub(r"`[^`\n]+`", lambda m: replaced(m[0], shown), text)


def main():
    turned, plain = rows()
    changed = 0
    for folder, dirs, files in os.walk("."):
        dirs[:] = sorted(d for d in dirs if d not in ("out", ".git", "target", "tools"))
        for f in sorted(files):
            path = os.path.join(folder, f)
            if not f.endswith((".antt", ".rt", ".edit", ".md")):
                continue
            with open(path, encoding="utf-8") as it:
                old = it.read()
            if f.endswith(".antt"):
                new = replaced(old, turned, behind_a_dot=f != "Proof.antt")
            elif f.endswith(".rt"):
                new = in_rust(old, turned)
            elif f.endswith(".edit"):
                new = edit(old, plain)
            else:
                new = page(old, plain)
            if new != old:
                with open(path, "w", encoding="utf-8") as it:
                    it.write(new)
                changed += 1
    print(f"{changed} files changed", file=sys.stderr)


if __name__ == "__main__":
    main()
