#!/usr/bin/env python3
"""Brings the repository's own definitions and lemmas to today's spelling of names.

usage: python3 tools/respell.py        at the top of the repository, once, after the kit's port.py

A word in lower camel case becomes snake case, part by part of a name joined by dashes, so `eqBytes-true` becomes `eq_bytes-true`.
Types, records and facts keep their capital. Names that are imported from outside the repository keep their spelling. The files
`specs/Contracts.antt`, whose name the prover now takes for itself, become `specs/Promises.antt`.
"""

import glob
import re
import subprocess

WORD = re.compile(r"[A-Za-z_][\w'₀-₉]*(?:-[A-Za-z0-9_'₀-₉]+)*")
CAMEL = re.compile(r"[a-z0-9₀-₉][A-Z]")
IMPORT = re.compile(r"^\s*(?:pub )?(?:ghost )?use ([^\s;{]+?)\.?(?:\{([^}]*)\})?;?(?:\s+as\s+\S+)?$", re.M)


def crates():
    with open("crates.txt", encoding="utf-8") as f:
        return {line.split(":")[0].split()[0] for line in f if ":" in line.split("#")[0]}


def texts(*kinds):
    out = []
    for kind in kinds:
        out += [p for p in glob.glob(kind, recursive=True) if "/out/" not in p and "/target/" not in p]
    return sorted(set(out))


def foreign(paths, own):
    """The names in camel case that are imported from outside."""
    names = set()
    for p in paths:
        with open(p, encoding="utf-8") as f:
            t = f.read()
        for m in IMPORT.finditer(t):
            parts = m.group(1).split(".")
            if parts[0] == "Rattle" and len(parts) > 1 and parts[1] in own:
                continue
            for item in (m.group(2) or "").split(","):
                names.update(WORD.findall(item.split(" as ")[0]))
    return {n for n in names if CAMEL.search(n)}


def snake(part):
    if not part[:1].islower() or not CAMEL.search(part):
        return part
    s = re.sub(r"(?<=[a-z0-9₀-₉'])([A-Z]+)(?=[A-Z][a-z])", lambda m: "_" + m.group(1).lower() + "_", part)
    s = re.sub(r"(?<=[a-z0-9₀-₉'])([A-Z])", lambda m: "_" + m.group(1).lower(), s)
    s = re.sub(r"[A-Z]", lambda m: m.group(0).lower(), s)
    return s.replace("__", "_")


def main():
    own = crates()
    code = texts("crates/*/src/*.rt", "crates/*/specs/**/*.antt", "crates/*/proofs/**/*.antt")
    keep = foreign(code, own)
    changed = {}

    def turn(m):
        w = m.group(0)
        if w in keep:
            return w
        new = "-".join(p if p in keep else snake(p) for p in w.split("-"))
        if new != w:
            changed[w] = new
        return new

    for p in code + texts("crates/*/must-fail/*.edit"):
        with open(p, encoding="utf-8") as f:
            t = f.read()
        n = WORD.sub(turn, t)
        n = re.sub(r"(?<=specs\.)Contracts(?![\w'-])", "Promises", n)
        n = re.sub(r"specs/Contracts\.antt", "specs/Promises.antt", n)
        if p.endswith("specs/Lib.antt"):
            n = re.sub(r"mod Contracts$", "mod Promises", n, flags=re.M)
        if n != t:
            with open(p, "w", encoding="utf-8") as f:
                f.write(n)
    for p in texts("crates/*/specs/Contracts.antt"):
        subprocess.run(["git", "mv", p, p.replace("Contracts", "Promises")], check=True)
    # In the papers only names that the code has are turned, and only in code spans.
    for p in texts("README.md", "docs/**/*.md", "oracle/*.md", "samples/*.md"):
        with open(p, encoding="utf-8") as f:
            t = f.read()
        n = re.sub(r"`[^`\n]+`", lambda s: WORD.sub(lambda m: changed.get(m.group(0), m.group(0)), s.group(0)), t)
        n = n.replace("specs/Contracts.antt", "specs/Promises.antt")
        if n != t:
            with open(p, "w", encoding="utf-8") as f:
                f.write(n)
    back = {}
    for a, b in sorted(changed.items()):
        back.setdefault(b, []).append(a)
    for b, names in sorted(back.items()):
        if len(names) > 1:
            print("fall together:", ", ".join(names), "->", b)
    print(len(changed), "names respelled")
    print("kept, of the library:", ", ".join(sorted(keep)))


main()
