#!/usr/bin/env python3
"""Spells the repository's own definitions, lemmas and fields in snake case, as today's Rattle has them.

usage: python3 tools/snake_case.py            at the top of the repository, once, after /opt/rattle/port/port.py
       python3 tools/snake_case.py --list     prints each old name with its new one, and changes nothing

A name is turned if a file of specs/ or proofs/ declares it: camelCase and words joined by a dash become words joined by `_`. A dash that joins the names of two
definitions stays. Types, modules and facts keep their capital. Names that Rattle makes, of goals and of steps of the code, are left, and so is what is
declared for a goal; functions of src/, exported names, strings, inputs and outputs are not touched.
"""

import glob
import re
import sys

WORD = r"[A-Za-z0-9_'₀-₉·◌-]+"
HEAD = re.compile(r"^\s*(?:unfoldable\s+|abbrev\s+|pub\s+)*(" + WORD + r")\s*(?:\{[^}]*\}\s*)*:\s*(.*)$")
# Two definitions that a dash joins, and a word that port.py turned where it stood alone.
JOINED = {"getD-in": "get_or_in", "getD-inside": "get_or_inside", "laidOut-sound": "laid_out-sound", "laidOut-takenApart": "laid_out-taken_apart", "takenApart-laidOut": "taken_apart-laid_out"}
# Lemmas that port.py turned, and that a definition of the same name would fall together with: they get `_lem`, as does a lemma with a dash below.
PRIOR = {
    "crates/run/specs/Inhabitants/": ["all_pass"],
    "crates/controller_c/proofs/Promises.antt": ["laid_out"],
    "crates/controller_c/specs/Laws/Image.antt": ["number_read"],
    "crates/controller_c/proofs/controller_heard_number/Proof.antt": ["number_read"],
    "crates/wire/specs/Laws/Frame.antt": ["said_fits"],
}
# Lemmas with a dash whose new name a definition has already.
TAKEN = {"entry-at", "list-from"}
# What a record or a section takes.
TAKES = {"imageBefore", "imageAfter", "outBefore", "outAfter", "lengthAfter", "correctNumbers"}
# A goal's answer, and what else is named after the code of one function.
MADE = re.compile(r"^(?:tie\.|\{M : Type 1\} → statement)")


def read(path):
    with open(path, encoding="utf-8") as f:
        return f.read()


def antt():
    return sorted(glob.glob("crates/*/specs/**/*.antt", recursive=True) + glob.glob("crates/*/proofs/**/*.antt", recursive=True))


def snake(name):
    if name in JOINED:
        return JOINED[name]
    if name[0].isupper():
        return name
    name = re.sub(r"(?<=[a-z0-9])([A-Z])", lambda m: "_" + m.group(1).lower(), name)
    return name.replace("-", "_")


def declared():
    """The names that are turned in every file, and those of one file alone."""
    everywhere, local = set(TAKES), {}
    for path in antt():
        walk = path.endswith("/Proof.antt")
        names = local.setdefault(path, set()) if walk else everywhere
        made = set()
        for line in read(path).splitlines():
            m = HEAD.match(line)
            if not m:
                continue
            name, said = m.groups()
            if walk and MADE.match(said):
                made.add(name)
            else:
                names.add(name)
        if walk:
            names -= made
    return everywhere, local


def turned(names):
    """Each name that changes, with its new one. A lemma that would have its definition's name gets `_lem`."""
    new = {n: snake(n) for n in names if snake(n) != n}
    words = {m for n, m in new.items() if "-" not in n}
    return {n: m + "_lem" if "-" in n and (m in words or n in TAKEN) else m for n, m in new.items()}


def turn(text, names, lead=""):
    """Each whole word of text that names has, turned; none that stands in a longer word."""
    if not names:
        return text
    words = sorted(names, key=len, reverse=True)
    edge = r"[A-Za-z0-9_'₀-₉·◌-]"
    return re.sub(r"(?<!" + edge + r")" + lead + "(" + "|".join(map(re.escape, words)) + r")(?!" + edge + r")", lambda m: m.group(0)[: -len(m.group(1))] + names[m.group(1)], text)


def comments(text, mark, f, g):
    """f over what is no comment, g over comments."""
    out = []
    for line in text.split("\n"):
        at = re.search(r"(?:^|\s)" + re.escape(mark) + r"(?:\s|$)", line)
        if at:
            out.append(f(line[: at.start()]) + g(line[at.start() :]))
        else:
            out.append(f(line))
    return "\n".join(out)


def clauses(text, names):
    """The ghost lines and clauses of a file of src/, turned; its code is left."""
    out, depth = [], 0
    for line in text.split("\n"):
        starts = re.match(r"\s*(ghost use |ghost |requires\b|ensures\b|also_)", line)
        if starts or depth > 0:
            line = turn(line, names)
            depth = max(0, depth + line.count("{") - line.count("}")) if not line.lstrip().startswith("ghost use") else 0
        out.append(line)
    return "\n".join(out)


def main(argv):
    everywhere, local = declared()
    names = turned(everywhere)
    # In prose a name of one word with a dash may be a plain word; a name with a capital inside is none.
    plain = {n: m for n, m in names.items() if re.search(r"[a-z][A-Z]", n)}
    if argv == ["--list"]:
        for n in sorted(names):
            print(n, names[n])
        return 0
    for path in antt():
        own = dict(names)
        own.update(turned(local.get(path, ())))
        walk = path.endswith("/Proof.antt")
        text = read(path)
        for start, words in PRIOR.items():
            if path.startswith(start):
                text = turn(text, {w: w + "_lem" for w in words})

        def code(t, own=own, walk=walk):
            if not walk:
                return turn(t, own)
            # a step of the code is a field with a dash
            steps = {n: m for n, m in own.items() if "-" not in n}
            kept = re.split(r"(\.[A-Za-z0-9_'₀-₉-]+)", t)
            return "".join(turn(k, steps if i % 2 else own) for i, k in enumerate(kept))

        head = comments(text, "--", code, lambda t: turn(t, names))
        with open(path, "w", encoding="utf-8") as f:
            f.write(head)
    for path in sorted(glob.glob("crates/*/src/**/*.rt", recursive=True)):
        text = read(path)
        text = comments(clauses(text, names), "//", lambda t: t, lambda t: turn(t, plain))
        with open(path, "w", encoding="utf-8") as f:
            f.write(text)
    for path in sorted(glob.glob("crates/*/must-fail/*.edit")):
        text = "\n".join(turn(l, names) if l.startswith(("old:", "new:")) else turn(l, plain) for l in read(path).split("\n"))
        with open(path, "w", encoding="utf-8") as f:
            f.write(text)
    for path in ["README.md"] + sorted(glob.glob("docs/*.md")):
        text = re.sub(r"`[^`\n]+`", lambda m: turn(m.group(0), names), read(path))
        with open(path, "w", encoding="utf-8") as f:
            f.write(text)
    return 0


if __name__ == "__main__":
    raise SystemExit(main(sys.argv[1:]))
