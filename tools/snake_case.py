#!/usr/bin/env python3
"""Brings the repository's own names in specs/, proofs/ and clauses from dashes to the library's spelling: words
in snake case, types in camel case. Run once, at the top, after the toolchain's port script.

A name is the repository's own where an .antt file below crates/ declares it. Names that the toolchain makes (goals,
steps of a function, loops) and names of the library keep their spelling.
"""
import os
import re
import sys

DELIMITERS = r"\s(){}\[\],;.λ⟨⟩\""
TOKEN = re.compile(rf"[^{DELIMITERS}]+")
DECLARED = re.compile(rf"^\s*(?:(?:pub|abbrev|unfoldable|data|record)\s+)*([^{DELIMITERS}:]+)(?:\s+[^:]*)?\s:\s")
IMPORT = re.compile(r"^\s*(?:ghost\s+)?use\s+([\w.'+-]+)\.\{([^}]*)\}", re.M | re.S)
MADE = re.compile(r"^(returns|loop|invariant|decreases|overflow|overflow_\w+|bounds|offset_bounds|nonzero)-|-requires$")


def files(root):
    for folder, dirs, names in os.walk(root):
        dirs[:] = sorted(d for d in dirs if d not in ("out", "target"))
        for name in sorted(names):
            if name.endswith((".antt", ".rt", ".edit")):
                yield os.path.join(folder, name)


def respelled(name):
    parts = name.split("-")
    if name[0].isupper():
        return "".join(p[:1].upper() + p[1:] for p in parts)
    return "_".join(parts)


def imported(text):
    """The names that a file takes, each with the module that it comes from."""
    found = {}
    for module, names in IMPORT.findall(text):
        for name in names.split(","):
            found[name.strip().split(" as ")[0].strip()] = module
    return found


def of_library(module):
    return not module.startswith("Rattle.") or module.startswith(("Rattle.std.", "Rattle.core."))


def declared(texts):
    own = set()
    for path, text in texts.items():
        if not path.endswith(".antt"):
            continue
        for line in text.split("\n"):
            m = DECLARED.match(line)
            if m and "-" in m.group(1).strip("-") and not MADE.search(m.group(1)) and not re.search(r":\s*goal\.", line):
                own.add(m.group(1))
    for text in texts.values():
        own.update(n for n in re.findall(r" as ([^\s,};]+)", text) if "-" in n)
    return {n for n in own if re.match(r"^[A-Za-z]", n)}


def turn(text, own, clauses_only):
    def line_turned(line):
        out, end = [], 0
        for m in TOKEN.finditer(line):
            name = m.group(0)
            before = line[: m.start()]
            out.append(line[end : m.start()])
            end = m.end()
            made = re.search(r"(?:^|[^\w.'-])(?:c|l|goal)\.$", before)
            out.append(respelled(name) if name in own and not made else name)
        return "".join(out) + line[end:]

    lines = text.split("\n")
    return "\n".join(l if clauses_only and l.lstrip().startswith("//") else line_turned(l) for l in lines)


def main():
    texts = {}
    for path in files("crates"):
        with open(path, encoding="utf-8") as f:
            texts[path] = f.read()
    own = declared(texts)
    for path, text in texts.items():
        taken = {n for n, module in imported(text).items() if of_library(module)}
        names = {n for n in own if n not in taken}
        tokens = set(TOKEN.findall(text))
        for n in sorted(names & tokens):
            if respelled(n) in tokens:
                print(f"{path}: {n} falls together with {respelled(n)}", file=sys.stderr)
        new = turn(text, names, path.endswith(".rt"))
        if new != text:
            with open(path, "w", encoding="utf-8") as f:
                f.write(new)


main()
