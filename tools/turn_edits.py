#!/usr/bin/env python3
"""Brings the must-fail edits to the spelling that port.py and tools/respell.py gave the files that they edit.

usage: python3 tools/turn_edits.py COMMIT TURNED [ROOT]

COMMIT is the last one in the older spelling, where every edit fits; TURNED the one that port.py and respell.py made.
In a clone at COMMIT each edit is made on a copy of its own, beside the file that it names; the kit's port.py and
respell.py turn these copies with the rest; what differs then between a copy and the file beside it is the edit today.
(It takes some six minutes. TURNED_TREE, if set, names such a clone, turned before.)
Sentences and names of edits stay. `left:` names an edit that needs a hand, with what differs.
"""
import difflib
import glob
import os
import re
import subprocess
import sys
import tempfile

TOKEN = re.compile(r"[^\W\d][\w'₀-₉⁺-]*|\d+|\s+|[^\w\s(){}\[\],;]+|.")
USE = re.compile(r"use (\S+)\.\{(.*)\}")


def read(path):
    with open(path, encoding="utf-8") as f:
        return f.read()


def write(path, text):
    with open(path, "w", encoding="utf-8") as f:
        f.write(text)


def run(*words, where):
    return subprocess.run(words, cwd=where, check=True, stdout=subprocess.PIPE, text=True).stdout


def edits(root):
    return sorted(os.path.relpath(p, root) for p in glob.glob(os.path.join(root, "crates", "*", "must-fail", "*.edit")))


def pairs(text):
    """The pairs of an edit, by the file that they change."""
    found = {}
    for block in re.split(r"^file: ", text, flags=re.M)[1:]:
        path = block.split("\n")[0].strip()
        found.setdefault(path, []).extend(re.findall(r"^old: (.*)\nnew: ?(.*)$", block, re.M))
    return found


def made(text, changes):
    for old, new in changes:
        if text.count(old) != 1:
            return None
        text = text.replace(old, new)
    return text


def beside(edit, path, i):
    folder = os.path.dirname(os.path.dirname(edit))
    return os.path.join(folder, path), os.path.join(folder, f"{path[:-5]}Edit{i}.antt")


def turn(root, tree, commit):
    """The clone, turned, with a copy for each edit."""
    run("git", "clone", "-q", os.path.abspath(root), tree, where=".")
    run("git", "checkout", "-q", commit, where=tree)
    for i, edit in enumerate(edits(tree)):
        for path, changes in pairs(read(os.path.join(tree, edit))).items():
            file, copy = beside(edit, path, i)
            write(os.path.join(tree, copy), made(read(os.path.join(tree, file)), changes))
    run("git", "add", "-A", where=tree)
    run("git", "-c", "user.name=x", "-c", "user.email=x", "commit", "-qm", "copies", where=tree)
    kit = os.path.dirname(run("rt", "doc", where=".").strip())
    run(sys.executable, os.path.join(kit, "port", "port.py"), where=tree)
    run(sys.executable, os.path.abspath(os.path.join(root, "tools", "respell.py")), tree, where=".")


def tokens(line):
    return [(m.group(0), m.start()) for m in TOKEN.finditer(line) if m.group(0).strip()]


def part(line, old, was):
    """Where of a line the edit's old text stood: a part of the turned line, if it has as many tokens, else all of it."""
    for l in was.split("\n"):
        here = [t for t in tokens(l)]
        now = tokens(line)
        if old in l and len(here) == len(now):
            at = l.index(old)
            within = [k for k, (t, s) in enumerate(here) if s + len(t) > at and s < at + len(old)]
            first, last = now[within[0]], now[within[-1]]
            return first[1], last[1] + len(last[0])
    return len(line) - len(line.lstrip()), len(line)


def line_pair(a, b, olds, was, text):
    """One changed line as a pair of texts, the first of them once in the file."""
    x, y = USE.fullmatch(a), USE.fullmatch(b)
    if x and y and x[1] == y[1]:
        gone = [n for n in x[2].split(", ") if n not in y[2].split(", ")]
        more = [n for n in y[2].split(", ") if n not in x[2].split(", ")]
        head, first = f"use {x[1]}.{{", x[2].split(", ")[0]
        if not gone and text.count(head + first) == 1:
            return head + first, head + ", ".join(more + [first])
        return a, b
    for old in olds:
        start, end = part(a, old, was)
        rest = len(a) - end
        if b.startswith(a[:start]) and b.endswith(a[end:]) and len(b) >= start + rest and a[start:end] != a.strip():
            pair = a[start:end], b[start : len(b) - rest]
            if text.count(pair[0]) == 1 and pair[0] != pair[1]:
                return pair
    indent = len(a) - len(a.lstrip())
    return (a[indent:], b[indent:]) if b.startswith(a[:indent]) else (a, b)


def turned(now, wanted, olds, was):
    a, b = now.split("\n"), wanted.split("\n")
    found = []
    for kind, i, j, k, m in difflib.SequenceMatcher(None, a, b, autojunk=False).get_opcodes():
        if kind != "equal":
            if j - i != m - k:
                return None
            found += [line_pair(x, y, olds, was, now) for x, y in zip(a[i:j], b[k:m]) if x != y]
    return found if found and made(now, found) is not None else None


def main(argv):
    commit, at, root = argv[0], argv[1], (argv + ["."])[2]
    with tempfile.TemporaryDirectory() as room:
        tree = os.environ.get("TURNED_TREE") or os.path.join(room, "tree")
        if not os.path.isdir(tree):
            turn(root, tree, commit)
        for i, edit in enumerate(edits(tree)):
            text = read(os.path.join(tree, edit))
            lines = [text[: text.index("\nfile: ")]]
            for path, changes in pairs(text).items():
                file, copy = beside(edit, path, i)
                now, wanted = run("git", "show", f"{at}:{file}", where=root), read(os.path.join(tree, copy))
                was = run("git", "show", f"{commit}:{file}", where=root)
                found = turned(now, wanted, [old for old, _ in changes], was)
                if found is None:
                    print("left:", edit, path)
                    print("\n".join(difflib.unified_diff(now.split("\n"), wanted.split("\n"), lineterm="", n=0)))
                lines += [f"file: {path}", *(f"old: {old}\nnew: {new}" for old, new in found or changes)]
            write(os.path.join(root, edit), "\n".join(lines) + "\n")
    return 0


if __name__ == "__main__":
    raise SystemExit(main(sys.argv[1:]))
