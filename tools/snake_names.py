#!/usr/bin/env python3
"""Brings the repository's own definitions and lemmas to snake case; run at its top, after the kit's port.py.

A name that .antt files of the repository declare, or that names a function, a variable or a clause of
its code, joins its words by an underscore afterwards, and begins with get_or_ where it began with getD.
Names of the library and those that the check makes (`loop-x-init`) keep their hyphens. Comments and
strings keep their words. Names that would fall together, but for those in ALIKE, are listed, and then
nothing is written.
"""

import glob
import re
import sys

NAME = re.compile(r"(?<![\w'-])(?:[A-Za-z_][\w']*(?:-[\w']+)+|getD_\w+|get_d_\w+)(?![\w'-])")
PLAIN = re.compile(r"(?<![\w'-])[A-Za-z_][\w']*(?![\w'-])")
SIGNED = re.compile(r"^\s*(?:(?:abbrev|unfoldable|pub)\s+)*((?:[\w'-]+\s+)+):(?!\s*goal\.)")
BOUND = re.compile(r"[({]((?:[\w'σ-]+\s+)+):|\blet\s+([\w'-]+)|λ\s+\(?([^.:]*)[.:]|\bas\s+([\w'-]+)")
ALIAS = re.compile(r"\bas\s+([\w'-]+)")
CLAUSE = re.compile(r"^\s*[\w'-]+\s+([^=:]*)=(?!\S)")

# Looked at one by one: functions and clauses of the code that proof files cite in the older spelling,
# fields of answers that bear a clause's name, and fields of records beside a function of the same name.
ALIKE = set(
    """accepted-inserts accepted-opens best-over-walks cells-after cells-lent check-pair check-size
    clear-network closure-or-refusal cycle-refused-exactly edge-accepted edge-or-refusal
    every-history-guaranteed history-begun history-carried-on insert-edge is-edge no-nodes-cells-kept
    node-count state-after theory-of-closures try-row""".split()
)


def parts(line, mark):
    """The pieces of a line, each with whether it is code: not a string, nor the comment at its end."""
    out, code, i = [], "", 0
    while i < len(line):
        if line.startswith(mark, i):
            return out + [(True, code), (False, line[i:])]
        if line[i] == '"':
            end = i + 1
            while end < len(line) and line[end] != '"':
                end += 2 if line[end] == "\\" else 1
            out += [(True, code), (False, line[i : end + 1])]
            code, i = "", end + 1
        else:
            code, i = code + line[i], i + 1
    return out + [(True, code)]


def files():
    for path in sorted(glob.glob("crates/**/*", recursive=True)):
        if path.endswith((".antt", ".rt")) and "/out/" not in path:
            yield path, "--" if path.endswith(".antt") else "//"


def snake(name):
    # the library's getD is get_or now
    return name.replace("-", "_").replace("getD_", "get_or_").replace("get_d_", "get_or_")


def read_names():
    """The hyphened names that are the repository's own, and all names without a hyphen."""
    own, plain, code_names, all_hyphened = set(), set(), set(), set()
    for path, mark in files():
        with open(path, encoding="utf-8") as f:
            for line in f:
                code = "".join(text for is_code, text in parts(line, mark) if is_code)
                plain |= set(PLAIN.findall(code))
                all_hyphened |= set(NAME.findall(code))
                if path.endswith(".rt"):
                    code_names |= set(PLAIN.findall(code))
                    own |= {n for text in ALIAS.findall(code) for n in NAME.findall(text)}
                    continue
                bound = [g for m in BOUND.finditer(code) for g in m.groups() if g]
                own |= {n for text in SIGNED.findall(code) + CLAUSE.findall(code) + bound for n in NAME.findall(text)}
    own |= {n for n in all_hyphened if snake(n) in code_names}
    return own, plain


def main():
    own, plain = read_names()
    together = {n for n in own if snake(n) in plain} - ALIKE
    if together:
        print("fall together: " + ", ".join(sorted(together)))
        return 1

    def turn(match):
        return snake(match.group(0)) if match.group(0) in own else match.group(0)

    for path, mark in files():
        with open(path, encoding="utf-8") as f:
            old = f.read()
        new = ""
        for line in old.splitlines(keepends=True):
            new += "".join(NAME.sub(turn, text) if is_code else text for is_code, text in parts(line, mark))
        if new != old:
            with open(path, "w", encoding="utf-8") as f:
                f.write(new)
    print(f"{len(own)} names in snake case")
    return 0


if __name__ == "__main__":
    sys.exit(main())
