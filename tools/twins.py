#!/usr/bin/env python3
"""Prints the functions of src/ that have the same code but for names, types and numbers: `tools/twins.py [COMMIT]`, at the top of the repository.
Contracts and comments are left out. A group of functions stands between two empty lines; those of fewer than so many tokens are passed over."""

import re
import subprocess
import sys
from collections import defaultdict

LEAST_TOKENS = 25
WORDS = set("fn let mut if else match while for in loop return pub use impl struct enum const self Self as break continue Some None Ok Err true false".split())


def files(commit):
    if not commit:
        named = subprocess.run(["git", "ls-files", "crates/*/src/*.rt"], capture_output=True, text=True, check=True).stdout.split()
        return [(name, open(name, encoding="utf-8").read()) for name in named]
    named = subprocess.run(["git", "ls-tree", "-r", "--name-only", commit, "crates"], capture_output=True, text=True, check=True).stdout.split()
    shown = [it for it in named if re.match(r"crates/\w+/src/.*\.rt$", it)]
    return [(it, subprocess.run(["git", "show", f"{commit}:{it}"], capture_output=True, text=True, check=True).stdout) for it in shown]


def functions(text):
    """The name, line and code of each function, without its clauses."""
    text = re.sub(r"//[^\n]*", "", text)
    text = re.sub(r"^\s*(requires|ensures)\*?\s.*$", "", text, flags=re.M)
    for found in re.finditer(r"\bfn\s+(\w+)", text):
        start = text.find("{", found.end())
        depth, at = 0, start
        while at < len(text):
            depth += {"{": 1, "}": -1}.get(text[at], 0)
            at += 1
            if depth == 0:
                break
        yield found[1], text.count("\n", 0, found.start()) + 1, text[found.end():at]


def shape(code):
    seen = {}
    out = []
    for token in re.findall(r"b?'(?:\\.|[^'])'|b?\"[^\"]*\"|\w+|[^\s\w]", code):
        if token in WORDS or not re.match(r"\w|b?['\"]", token):
            out.append(token)
        else:
            out.append(str(seen.setdefault(token, len(seen))))
    return tuple(out)


def main():
    groups = defaultdict(list)
    for name, text in files(sys.argv[1] if len(sys.argv) > 1 else None):
        for function, line, code in functions(text):
            kind = shape(code)
            if len(kind) >= LEAST_TOKENS:
                groups[kind].append(f"{name}:{line} {function}")
    for members in sorted(groups.values()):
        if len(members) > 1:
            print("\n".join(members), end="\n\n")


main()
