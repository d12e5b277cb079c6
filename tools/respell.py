#!/usr/bin/env python3
"""Spells the repository's own definitions and lemmas as today's Rattle does: snake case, types and modules apart.

    tools/respell.py        at the top, once, after port.py and with everything committed

A name that is written with a dash or with a capital inside gets underscores, wherever it is declared, cited in a proof, a contract, a
must-fail edit or between backquotes on a page. Where a definition and a lemma fall together the lemma gets `_lem`; so does one that
falls together with a word of the library. Functions of src/, exported names, strings, inputs and outputs are left.
"""
import collections
import os
import re
import sys

NAME = r"[^\s(){}.;,@\"«»`]+"
DECLARED = re.compile(rf"(?m)^( *)((?:(?:pub|abbrev|unfoldable|data|record|ruleset|mutual|open) )*)({NAME})(?: \{{[^{{}}\n]*\}})* :(?=\s)")
LIBRARY = {"bit_or"}
# Declared here, and brought in from a library elsewhere: left as it is.
BOTH = {"not-true"}


def files(ending, folders=("crates",)):
    for folder in folders:
        for path, inner, names in os.walk(folder):
            inner[:] = sorted(d for d in inner if d not in ("out", "target"))
            for name in sorted(names):
                if name.endswith(ending):
                    yield os.path.join(path, name)


def read(path):
    with open(path, encoding="utf-8") as file:
        return file.read()


def snake(name):
    if name[0].islower():
        name = re.sub(r"(?<=[a-z0-9])[A-Z]", lambda m: "_" + m[0].lower(), name)
    return name.replace("-", "_")


def declared():
    """Each declared name, and whether one of its declarations is a definition: one that unfolds, or of a type, a constructor or a field."""
    found = collections.defaultdict(bool)
    for path in files(".antt"):
        if path.endswith("/Proof.antt"):
            continue
        for m in DECLARED.finditer(re.sub(r"--.*", "", read(path))):
            found[m[3]] |= any(word in m[2] for word in ("abbrev", "unfoldable", "data", "record"))
    return found


def table():
    """The new name of each name that changes."""
    names = {name: unfolds for name, unfolds in declared().items() if name not in BOTH}
    together = collections.defaultdict(list)
    for name in names:
        if "◌" not in name:
            together[snake(name)].append(name)
    out = {}
    for new, olds in together.items():
        if len(olds) == 1 and new not in LIBRARY:
            if olds[0] != new:
                out[olds[0]] = new
            continue
        # The one written with a capital inside is the definition; without one, the one that unfolds.
        olds.sort(key=lambda n: (not re.search(r"[a-z0-9][A-Z]", n), not names[n], "-" in n))
        keeps = [] if new in LIBRARY else [olds[0]]
        for old in olds:
            to = new if old in keeps else new + "_lem"
            if old != to:
                out[old] = to
            if old != new:
                print(f"together: {old} -> {to}")
        if len(olds) > 2:
            sys.exit(f"three fall together: {olds}")
    return out, names


def main():
    out, names = table()
    word = re.compile(rf"(?<![^\s(){{}}.;,@\"«»`]){NAME}")
    new_names = {out.get(n, n) for n in names}

    def turned(text):
        return word.sub(lambda m: out.get(m[0], m[0]), text)

    # In an edit and on a page a name may still be as it was before port.py.
    def late(name):
        if name in out:
            return out[name]
        if name in names or not re.fullmatch(r"[a-z][\w']*(?:-[\w']+)*", name) or snake(name) == name:
            return name
        return snake(name) if snake(name) in new_names else name

    def turned_late(text):
        return word.sub(lambda m: late(m[0]), text)

    def ticked(text):
        return re.sub(r"`[^`\n]*`", lambda m: turned_late(m[0]), text)

    def code(text, mark):
        """The text with its names turned, comments only between backquotes."""
        lines = []
        for line in text.split("\n"):
            at = line.find(mark)
            lines.append(turned(line) if at < 0 else turned(line[:at]) + ticked(line[at:]))
        return "\n".join(lines)

    jobs = [(p, lambda t: code(t, "--")) for p in files(".antt")]
    jobs += [(p, lambda t: code(t, "//")) for p in files(".rt")]
    jobs += [(p, lambda t: "\n".join(turned_late(l) if re.match(r"(old|new): ", l) else ticked(l) for l in t.split("\n"))) for p in files(".edit")]
    jobs += [(p, turned_late) for p in files("", tuple(sorted(f"crates/{c}/answers" for c in os.listdir("crates"))))]
    jobs += [(p, ticked) for p in list(files(".md", ("docs",))) + ["README.md"]]
    count = 0
    for path, turn in jobs:
        old = read(path)
        new = turn(old)
        if new != old:
            count += 1
            with open(path, "w", encoding="utf-8") as file:
                file.write(new)
    print(f"respell: {len(out)} names in {count} files")


if __name__ == "__main__":
    main()
