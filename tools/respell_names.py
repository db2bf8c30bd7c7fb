#!/usr/bin/env python3
"""Spells this repository's own definitions, lemmas and fields as the library of today's Rattle spells its own: words in snake case.

usage: tools/respell_names.py            at the top of the repository, once, after the toolchain's own script has respelled the library's words

It renames every name of specs/ and proofs/ that has a dash or a capital inside, in definitions, proofs, clauses and must-fail edits, and where a comment or a
document has the name between backticks. Names that a file imports from a library stay, and so do the names of functions, strings, inputs and outputs. Where two
names fall together, the lemma gets `_lem`, as the library does it; what fell together is printed.
"""

import collections
import os
import re
import sys

NAME = r"[a-zA-Z_][\w'₀-₉]*(?:-[\w'₀-₉]+)*"
TOKEN = re.compile(r"(?<![\w'₀-₉-])" + NAME)
USE = re.compile(r"(?m)^\s*(?:pub )?(?:ghost )?use ([\w.+'◌-]+)\.\{([^}]*)\}")
LIBRARY = re.compile(r"Rattle\.(std|core|io|bytes|libc|os)\b")
# What Rattle itself names in a function's proof.
MADE = re.compile(r"(Need|InvT|MeasureT|In|After|Then|Else|Start)-")
# Lemmas whose name in snake case is taken by a definition that had a capital inside, with the folder in which they stand.
TAKEN = {
    "room_in": "",
    "room_of": "protocol/proofs",
    "went_back": "protocol/proofs",
    "word_test": "lines/proofs",
    "words_right": "",
    "place_inside": "protocol/proofs",
}


def split_comment(line, rt):
    """The code of a line, and its comment. A string with the comment's sign in it stands in no file."""
    m = re.search(r"//.*", line) if rt else re.search(r"(?:^|(?<=\s))--.*", line)
    return (line, "") if not m else (line[: m.start()], line[m.start() :])


def snake(name):
    """onAckList, on-ack-list: on_ack_list."""
    name = re.sub(r"([a-z0-9₀-₉'])([A-Z])", lambda m: m.group(1) + "_" + m.group(2).lower(), name)
    return name.replace("-", "_")


def files(top):
    for folder, dirs, names in os.walk(os.path.join(top, "crates")):
        dirs[:] = sorted(d for d in dirs if d != "out")
        for name in sorted(names):
            if name.endswith((".antt", ".rt", ".edit")):
                yield os.path.join(folder, name)


def read(path):
    with open(path, encoding="utf-8", newline="") as it:
        return it.read()


def code_of(path):
    rt = path.endswith(".rt")
    return "\n".join(re.sub(r'"(\\.|[^"\\])*"', '""', split_comment(line, rt)[0]) for line in read(path).split("\n"))


class Names:
    """The new name of each old one."""

    def __init__(self, top):
        seen, library, self.fields = collections.defaultdict(set), set(), set()
        for path in files(top):
            if path.endswith(".edit"):
                continue
            code = code_of(path)
            for m in USE.finditer(code):
                if LIBRARY.match(m.group(1)) or not m.group(1).startswith("Rattle."):
                    library.update(y.strip() for x in m.group(2).split(",") for y in re.split(r"\s+as\s+", x))
            for m in TOKEN.finditer(code):
                seen[m.group()].add(path)
                if m.start() and code[m.start() - 1] == "." and not path.endswith("/Proof.antt"):
                    self.fields.add(m.group())
        old = [n for n in seen if re.match("[a-z_]", n) and ("-" in n or re.search(r"[a-z0-9₀-₉'][A-Z]", n))]
        self.new = {n: snake(n) for n in old if n not in library and not MADE.match(n)}
        # Where a capital and a dash give one name, the definition keeps it.
        capital = {v for n, v in self.new.items() if "-" not in n}
        self.lemmas = {n for n, v in self.new.items() if "-" in n and (v in capital or (v in seen and not self.only_function(seen[v])))}
        self.seen = seen

    def only_function(self, paths):
        """Is it a name of functions alone, or of steps that a function's proof names after them?"""
        return all(p.endswith(("/Proof.antt", ".rt")) for p in paths)

    def of(self, name, path, behind_dot):
        """The name's spelling in this file."""
        folder = TAKEN.get(name)
        if folder is not None and folder in path and "/proofs/" in path and not behind_dot:
            return name + "_lem"
        if name not in self.new:
            return name
        made = behind_dot and path.endswith("/Proof.antt") and name not in self.fields
        return self.new[name] + ("_lem" if name in self.lemmas and not made else "")


def turn_code(names, code, path):
    out, last = [], 0
    for m in re.finditer(r'"(?:\\.|[^"\\])*"|' + TOKEN.pattern, code):
        it = m.group()
        if it.startswith('"'):
            continue
        dotted = m.start() > 0 and code[m.start() - 1] == "."
        # `tie.Need-x` and the modules of a path keep their names.
        if MADE.match(it):
            continue
        out.append(code[last : m.start()] + names.of(it, path, dotted))
        last = m.end()
    return "".join(out) + code[last:]


def turn_words(names, text, path):
    """Names between backticks, and words with a capital inside, which no English word is."""
    one = lambda m: turn_code(names, m.group(), path)
    text = re.sub(r"`[^`\n]+`", one, text)
    return re.sub(r"(?<![\w`-])[a-z]+(?:[A-Z][a-z0-9]*)+(?![\w`-])", lambda m: names.new.get(m.group(), m.group()), text)


def turn(names, path, text):
    rt = path.endswith(".rt")
    lines = []
    for line in text.split("\n"):
        code, comment = split_comment(line, rt)
        lines.append(turn_code(names, code, path) + (turn_words(names, comment, path) if comment else ""))
    return "\n".join(lines)


def turn_edit(names, path, text):
    """An edit's lines as the file that it is of is spelled: projections written tight too."""
    lines, of = [], path
    for line in text.split("\n"):
        if line.startswith("file:"):
            of = os.path.join(os.path.dirname(os.path.dirname(path)), line[5:].strip())
        if re.match("(old|new):", line):
            if of.endswith(".antt"):
                line = re.sub(r"(?<=[\w')₀-₉]) \.(?=[a-z0-9])", ".", line)
                line = re.sub(r"\(([\w']+(?:\.[\w']+)+)\)", r"\1", line)
            # What the toolchain's script respelled in the file stands in the edit as it was.
            known = lambda m: snake(m.group()) if m.group() not in names.seen and snake(m.group()) in names.seen else m.group()
            line = line[:4] + turn_code(names, TOKEN.sub(known, line[4:]), of)
        elif line.startswith("#"):
            line = turn_words(names, line, of)
        lines.append(line)
    return "\n".join(lines)


def main(top):
    names = Names(top)
    for n in sorted(names.lemmas):
        print(f"falls together: {n}: {names.new[n]}_lem{' (field)' if n in names.fields else ''}")
    changed = 0
    for path in files(top):
        old = read(path)
        new = turn_edit(names, path, old) if path.endswith(".edit") else turn(names, path, old)
        if new != old:
            changed += 1
            with open(path, "w", encoding="utf-8", newline="") as it:
                it.write(new)
    pages = [os.path.join(f, n) for f, _, ns in os.walk(os.path.join(top, "docs")) for n in ns if n.endswith(".md")]
    for path in [os.path.join(top, "README.md"), *pages]:
        old = read(path)
        new = turn_words(names, old, path)
        if new != old:
            changed += 1
            with open(path, "w", encoding="utf-8", newline="") as it:
                it.write(new)
    print(f"{len(names.new)} names, {changed} files")


if __name__ == "__main__":
    main(sys.argv[1] if len(sys.argv) > 1 else ".")
