#!/usr/bin/env python3
"""Spells the names of this repository's own definitions and lemmas in snake case, in place.

usage: tools/spell.py            at the top of the repository, once, after a port of the spelling of Rattle's own names

A definition `levelOf` becomes `level_of`, a lemma `six-add-up` becomes `six_add_up`; types and modules are in camel case already.
A lemma whose new name would be a definition's, or another lemma's of the same file, gets `_lem` behind it.
Names are taken from the files of specs/ and proofs/ of every crate; what is declared in a function's own folder of proofs/ keeps its name, and
so do Rust names, inputs and outputs. It goes by text: `rt check` decides.
"""

import collections
import os
import re
import sys

NAME = r"[^\s(){}.;,@«»]+"
DECLARED = re.compile(
    rf"^( *)((?:abbrev |unfoldable |pub |private |opaque |data |record |infix[lr]? \d+ )*)({NAME})((?: [({{][^:]*[)}}])*) :( .*)?$"
)
TOKEN = re.compile(rf"(?<![^\s(){{}}.;,@«»]){NAME}")
CAMEL = re.compile(r"(?<![\w'-])[a-z]\w*[A-Z]\w*(?![\w'-])")
QUOTED = re.compile(r"`([^`\n]+)`")
# lemmas that would meet a definition of their file
MEETS = {"tokens": ["is_name"], "fast": ["in_place"]}


def files(root, ends):
    for folder, dirs, names in os.walk(root):
        dirs[:] = sorted(d for d in dirs if d not in ("out", ".git"))
        for name in sorted(names):
            if name.endswith(ends):
                yield os.path.join(folder, name)


def read(path):
    with open(path, encoding="utf-8") as f:
        return f.read()


def snake(name):
    return re.sub(r"(?<=[a-z0-9])[A-Z]", lambda m: "_" + m[0].lower(), name).replace("-", "_")


def in_function(path):
    """Whether a file is of one function's proof."""
    steps = path.split(os.sep)
    return "proofs" in steps and steps.index("proofs") + 2 < len(steps) and steps[-1] in ("Proof.antt", "Answers.antt", "Invariants.antt")


def comment(line):
    """A line's code and its comment."""
    at = 0 if line.lstrip().startswith("--") else line.find(" -- ")
    return (line, "") if at < 0 else (line[:at], line[at:])


def table():
    """Old name to new, and the names that are fields."""
    found, fields = {}, set()
    for path in files("crates", (".antt",)):
        if in_function(path):
            continue
        for line in read(path).split("\n"):
            m = DECLARED.match(comment(line)[0])
            if m:
                found.setdefault(m[3], []).append(path)
                if m[1]:
                    fields.add(m[3])
    camel = {n: snake(n) for n in found if re.match(r"[a-z]", n) and re.search(r"[a-z0-9][A-Z]", n) and "-" not in n}
    plain = set(found) | set(camel.values())
    dashed = {}
    for n in sorted(found):
        if "-" in n and re.match(r"\w", n):
            new = snake(n)
            dashed[n] = new + "_lem" if new in plain else new
    return camel, dashed, fields


def main():
    if not os.path.isdir("crates"):
        sys.exit("spell: run it at the top of the repository")
    camel, dashed, fields = table()
    names = camel | dashed
    both = collections.Counter(names.values())
    for new in sorted(n for n, k in both.items() if k > 1):
        print("meet:", new, *sorted(o for o in names if names[o] == new))

    def in_antt(path, text):
        walk = in_function(path)
        meets = MEETS.get(path.split(os.sep)[1], [])

        def turn(m):
            old = m[0]
            dotted = m.start() > 0 and m.string[m.start() - 1] == "."
            if old in meets and not dotted:
                return old + "_lem"
            if old not in names:
                return old
            if walk and dotted and "-" in old and old not in fields:
                return old
            return names[old]

        lines = []
        for line in text.split("\n"):
            code, said = comment(line)
            lines.append(TOKEN.sub(turn, code) + in_words(said))
        return "\n".join(lines)

    def in_words(text):
        """Comments and pages: a camel-case name anywhere, a name with a dash between backquotes."""
        text = QUOTED.sub(lambda m: "`" + TOKEN.sub(lambda t: names.get(t[0], t[0]), m[1]) + "`", text)
        return CAMEL.sub(lambda m: camel.get(m[0], m[0]), text)

    for path in files("crates", (".antt", ".rt", ".edit", ".py")):
        old = read(path)
        if path.endswith(".antt"):
            new = in_antt(path, old)
        elif path.endswith(".edit") and "file: src/" not in old:
            new = "\n".join(TOKEN.sub(lambda m: names.get(m[0], m[0]), line) if line.startswith(("old: ", "new: ")) else line for line in old.split("\n"))
        else:
            new = CAMEL.sub(lambda m: camel.get(m[0], m[0]), old)
        if new != old:
            with open(path, "w", encoding="utf-8") as f:
                f.write(new)
    for path in ["README.md", *files("docs", (".md",)), *files("walks", (".py",))]:
        old = read(path)
        new = in_words(old)
        if new != old:
            with open(path, "w", encoding="utf-8") as f:
                f.write(new)
    print(f"spell: {len(camel)} definitions, {len(dashed)} lemmas")


if __name__ == "__main__":
    main()
