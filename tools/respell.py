#!/usr/bin/env python3
"""Brings the repository's own definitions and lemmas to today's spelling: words in snake case.

usage: python3 tools/respell.py [ROOT]        run once, after port.py; writes specs/, proofs/, clauses and ghost uses
       python3 tools/respell.py --map [ROOT]  prints old and new of each name, and names that fall together

camelCase becomes snake_case and a dash becomes an underscore, in names that the crates declare and in their local
variables; a name of the library keeps its spelling. Functions of src/, types, modules and constructors that begin with
a capital, exported names, strings and comments' words stay. In comments and in pages a name in backticks is respelled.
"""
import os
import re
import sys

# A law that would fall together with the definition that it is of gets `_lem`. These stand in one file alone, where the
# definition's name comes by the respelling (file below crates/: names).
LAWS = {
    "register/proofs/Withdrawn.antt": ["take_own"],
    "sheet/proofs/RenewedForm.antt": ["lines_other"],
    "sheet/proofs/SheetRows.antt": ["numbers_on", "rows_on"],
    "writing/proofs/Fits.antt": ["fit_line"],
    "capacity/proofs/Samples.antt": ["rows_right"],
}

IDENT = re.compile(r"[^\W\d][\w'₀-₉⁺]*(?:-[\w'₀-₉]+)*")
CAMEL = re.compile(r"[a-z][a-z0-9_]*(?:[A-Z][A-Za-z0-9_]*)")
USE = re.compile(r"\buse ([\w·+'-]+(?:\.[\w·+'-]+)*)(?:\.\{([^}]*)\})?", re.S)
# a name of the library by its whole path
LONG = re.compile(r"\b(?:lib|mathlib|native|borrow|denote|Prim)(?:\.\w+)+\.([\w'-]+)")


def files(root, ends):
    for folder, dirs, names in os.walk(os.path.join(root, "crates")):
        dirs[:] = sorted(d for d in dirs if d not in ("out", "must-fail"))
        for n in sorted(names):
            if n.endswith(ends):
                yield os.path.join(folder, n)


def pages(root):
    for folder, dirs, names in os.walk(root):
        dirs[:] = sorted(d for d in dirs if d not in ("out", ".git"))
        for n in sorted(names):
            if n.endswith(".md"):
                yield os.path.join(folder, n)


def read(path):
    with open(path, encoding="utf-8") as f:
        return f.read()


def own(root):
    return {c for c in os.listdir(os.path.join(root, "crates")) if os.path.isdir(os.path.join(root, "crates", c, "src"))}


def walks(path):
    """A proof of one function: its names are those of the function's code."""
    return os.path.basename(path) == "Proof.antt"


def library(root):
    """The names that the crates take from elsewhere."""
    crates, found = own(root), set()
    for p in files(root, (".antt", ".rt")):
        for path, items in USE.findall(re.sub(r"--[^\n]*", "", read(p)) if p.endswith(".antt") else read(p)):
            parts = re.split(r"[.·]", path)
            if parts[0] == "Rattle" and len(parts) > 1 and parts[1] in crates:
                continue
            found.update(i.split(" as ")[0].strip() for i in (items or "").split(","))
        found.update(LONG.findall(read(p)))
    return found


def snake(name):
    name = name.replace("-", "_")
    if CAMEL.fullmatch(name):
        name = re.sub(r"(?<=[a-z0-9])([A-Z])", lambda m: "_" + m.group(1).lower(), name)
        name = re.sub(r"[A-Z]", lambda m: m.group(0).lower(), name)
    return name


DECLARED = re.compile(r"^ *(?:abbrev |unfoldable |pub )*([^\s(){};:,.«»]+) :(?!:)", re.M)


def declared(root):
    found = set()
    for p in files(root, ".antt"):
        if not walks(p):
            found.update(DECLARED.findall(re.sub(r"--[^\n]*", "", read(p))))
    return found


def mapping(root):
    lib, there = library(root), declared(root)
    names = {}
    for n in sorted(there):
        if n not in lib and IDENT.fullmatch(n) and (n[0].islower() or "-" in n):
            names[n] = snake(n)
    names = {n: new for n, new in names.items() if new != n}
    words = {new for n, new in names.items() if "-" not in n} | there
    for n, new in names.items():
        if "-" in n and new in words:
            names[n] = new + "_lem"
    return names, lib


def tokens(text, change):
    return IDENT.sub(lambda m: change(m.group(0)), text)


def comment(text, names):
    return re.sub(r"`[^`\n]*`", lambda m: tokens(m.group(0), lambda t: names.get(t, t)), text)


def antt(path, text, names, lib):
    free = not walks(path)
    for laws in (v for k, v in LAWS.items() if path.endswith(os.path.join("crates", *k.split("/")))):
        names = names | {n: n + "_lem" for n in laws}

    def change(t):
        if t in names:
            return names[t]
        if free and t not in lib and t[0].islower() and ("-" in t or CAMEL.fullmatch(t)):
            return snake(t)
        return t

    lines = []
    for line in text.split("\n"):
        at = line.find("--")
        while at > 0 and line[at - 1] not in " \t":
            at = line.find("--", at + 1)
        code, said = (line, "") if at < 0 else (line[:at], line[at:])
        parts = re.split(r'("(?:[^"\\]|\\.)*")', code)
        code = "".join(x if i % 2 else tokens(x, change) for i, x in enumerate(parts))
        lines.append(code + comment(said, names))
    return "\n".join(lines)


CLAUSE = re.compile(r"^(?: *(?:requires|ensures)\b.*|ghost use .*)$")


def rust(text, names):
    """Clauses and ghost uses: what stands in a clause's braces, and lines `ghost use`."""
    out, depth = [], 0
    for line in text.split("\n"):
        if depth or CLAUSE.match(line):
            at = line.find("//")
            code, said = (line, "") if at < 0 else (line[:at], line[at:])
            line = tokens(code, lambda t: names.get(t, t)) + comment(said, names)
            depth = max(0, depth + code.count("{") - code.count("}"))
        else:
            at = line.find("//")
            if at >= 0:
                line = line[:at] + comment(line[at:], names)
        out.append(line)
    return "\n".join(out)


def clash(root, names, lib):
    """Names that would fall together with another name of the file they stand in."""
    for p in files(root, (".antt", ".rt")):
        text = re.sub(r"(--|//)[^\n]*", "", read(p))
        there = set(IDENT.findall(text))
        for t in sorted(there):
            new = names.get(t)
            if new and new in there and new != t:
                yield f"{os.path.relpath(p, root)}: {t} -> {new}"
    back = {}
    for old, new in names.items():
        back.setdefault(new, []).append(old)
    for new, olds in sorted(back.items()):
        if len(olds) > 1:
            yield f"together: {' '.join(sorted(olds))} -> {new}"
    for old, new in sorted(names.items()):
        if new in lib:
            yield f"library: {old} -> {new}"


def main(argv):
    show = "--map" in argv
    argv = [a for a in argv if a != "--map"]
    root = argv[0] if argv else "."
    names, lib = mapping(root)
    if show:
        for old, new in sorted(names.items()):
            print(old, new)
        for line in clash(root, names, lib):
            print("clash:", line)
        return 0
    for p in files(root, ".antt"):
        t = read(p)
        n = antt(p, t, names, lib)
        if n != t:
            with open(p, "w", encoding="utf-8") as f:
                f.write(n)
    for p in files(root, ".rt"):
        t = read(p)
        n = rust(t, names)
        if n != t:
            with open(p, "w", encoding="utf-8") as f:
                f.write(n)
    known = declared(root)
    for p in pages(root):
        t = read(p)
        n = comment(t, {w: s for w in IDENT.findall(t) for s in [names.get(w, snake(w))] if s != w and s in known and w not in known})
        if n != t:
            with open(p, "w", encoding="utf-8") as f:
                f.write(n)
    return 0


if __name__ == "__main__":
    raise SystemExit(main(sys.argv[1:]))
