#!/usr/bin/env python3
"""Brings the names of definitions and lemmas to snake case: run once, at the top, right after the toolchain's own script.

What is renamed are the names that `.antt` files declare below crates/: `atQuad` becomes `at_quad`, `parts-max` becomes `parts_max`.
Types, modules, functions of src/, strings, inputs and outputs keep their names. Two names that would fall together are told apart: the lemma gets `_lem`.
It prints what it renamed; `--list` only prints.
"""
import glob
import os
import re
import sys

WORD = re.compile(r"[^\s(){}\[\],;.\"`]+")
DECLARED = re.compile(r"^\s*((?:(?:pub|abbrev|unfoldable|private)\s+)*)([^\s:(){}\[\].,;]+)\s*:\s")


def files(*kinds):
    found = []
    for kind in kinds:
        found += glob.glob(f"crates/*/{kind}", recursive=True)
    return sorted(f for f in found if "/out/" not in f)


def read(path):
    with open(path, encoding="utf-8") as f:
        return f.read()


ANTT = files("specs/**/*.antt", "proofs/**/*.antt")
RT = files("src/**/*.rt")
EDITS = files("must-fail/*.edit")


def generated(line):
    """An answer to a goal that the check asks for: its name is not ours."""
    return re.search(r": (?:\(c : )?tie\.|: goal\.", line)


def collect():
    """The names that are declared, with their files, and those among them that are definitions."""
    values, marked = {}, set()
    for path in ANTT:
        for line in read(path).splitlines():
            m = DECLARED.match(line)
            if not m or generated(line) or m[2].startswith("--"):
                continue
            values.setdefault(m[2], set()).add(path)
            if "abbrev" in m[1] or "unfoldable" in m[1]:
                marked.add(m[2])
    return values, marked


def snake(word):
    word = re.sub(r"(?<=[a-z0-9₀-₉μσψ])(?=[A-Zℤℕ])|(?<=[a-z])(?=[ψσ])", "_", word)
    return re.sub(r"[A-Z]", lambda m: m[0].lower(), word)


def spelled(name):
    parts = name.split("-")
    return "_".join(p if p[:1].isupper() else snake(p) for p in parts)


def is_fixed(name):
    """Types, marks, and what proofs by hand must be called."""
    is_type = name[:1].isupper() and "-" not in name
    return is_type or name.endswith("-spec") or name.startswith("+") or not re.search(r"[a-zA-Z]", name)


def respelling():
    values, marked = collect()
    new = {}
    for name in values:
        if is_fixed(name):
            continue
        to = spelled(name)
        if to != name:
            new[name] = to
    taken = {}
    for name in values:
        taken.setdefault(new.get(name, name), []).append(name)
    for to, names in sorted(taken.items()):
        if len(names) < 2:
            continue
        keep = min(names, key=lambda n: (n not in marked, "-" in n or n == n.lower(), n != to))
        others = [n for n in names if n != keep]
        for k, n in enumerate(others):
            new[n] = to + "_lem" + ("" if k == 0 else str(k + 1))
            print(f"apart: {keep} -> {to}, {n} -> {new[n]}", file=sys.stderr)
    # an infix operator is used by its middle
    for name, to in list(new.items()):
        if "◌" in name:
            for a, b in zip(name.split("◌"), to.split("◌")):
                if a and a != b:
                    new[a] = b
    return new


def outside_strings(text, turn):
    return "".join(part if part.startswith('"') else turn(part) for part in re.split(r'("(?:[^"\\\n]|\\.)*")', text))


def move_module():
    """`specs.contracts` is a module that Rattle makes, so ours has another name."""
    crate = "crates/eqn_write"
    os.rename(f"{crate}/specs/Contracts.antt", f"{crate}/specs/Writes.antt")
    for path in ANTT + RT:
        path = path.replace("specs/Contracts.antt", "specs/Writes.antt")
        if path.startswith(crate):
            text = read(path).replace("eqn_write.specs.Contracts", "eqn_write.specs.Writes").replace("pub mod Contracts", "pub mod Writes")
            open(path, "w", encoding="utf-8").write(text)


def main():
    new = respelling()
    if "--list" in sys.argv:
        for a, b in sorted(new.items()):
            print(a, b)
        return

    def turn(text):
        return WORD.sub(lambda m: new.get(m[0], m[0]), text)

    for path in ANTT + EDITS:
        text = read(path)
        old = set(WORD.findall(text))
        for word in old:
            if word in new and new[word] in old:
                print(f"look: {path}: {word} -> {new[word]}, which stands there", file=sys.stderr)
        made = turn(text)
        if made != text:
            open(path, "w", encoding="utf-8").write(made)
    for path in RT:
        text = read(path)
        made = outside_strings(text, turn)
        if made != text:
            open(path, "w", encoding="utf-8").write(made)
    move_module()


main()
