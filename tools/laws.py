#!/usr/bin/env python3
"""Lists the statements of crates/*/proofs and crates/*/specs that are gone or read otherwise since a commit.

laws.py COMMIT    a line for each name, with '-' and '+' before how it read and how it reads

It goes by text: a statement is a name, a colon and what follows it further in, with the heads of the modules that it
stands in. The files Answers.antt and Invariants.antt answer the checker's own goals and are passed over.
"""
import os
import re
import subprocess
import sys
import tempfile
from collections import defaultdict

NAMED = re.compile(r"^( *)((?:(?:abbrev|unfoldable|pub) )*)([^\s:(){},\[\]→∙\"]+) : ?(.*)$")
SHAPED = re.compile(r"^( *)((?:(?:pub|unfoldable) )*)(?:record|data) ([^\s:({]+)(.*)$")
WORDS = ("use", "module", "let", "in", "where")


def further_in(lines, i, indent):
    """What follows line i further in, as one text, and the line after it."""
    taken, i = [], i + 1
    while i < len(lines) and lines[i].strip() and len(lines[i]) - len(lines[i].lstrip()) > indent:
        taken.append(lines[i].strip())
        i += 1
    return " ".join(taken), i


def head(lines, i):
    """The head of a module that begins in line i, up to its `where`, and the line after it."""
    text = lines[i].strip()
    while "where" not in text.split("--")[0].split():
        i += 1
        text += " " + lines[i].strip()
    return text, i + 1


def statements(root):
    """By crate and name, each statement that stands under it."""
    found = defaultdict(list)
    names = subprocess.run(["git", "-C", root, "ls-files", "crates"], capture_output=True, text=True, check=True).stdout
    for name in sorted(names.split("\n")):
        if not re.fullmatch(r"crates/\w+/(?:specs|proofs)/.*\.antt", name) or re.search(r"/(?:Answers|Invariants)\.antt$", name):
            continue
        crate, lines, modules, i = name.split("/")[1], open(f"{root}/{name}").read().split("\n"), [], 0
        while i < len(lines):
            line = lines[i]
            indent = len(line) - len(line.lstrip())
            if line.strip().startswith("module _ "):
                text, i = head(lines, i)
                modules = [it for it in modules if it[0] < indent] + [(indent, text)]
                continue
            m, shaped = NAMED.match(line), SHAPED.match(line)
            if m and m.group(3) not in WORDS and not line.strip().startswith("--"):
                key, text = m.group(3), m.group(4)
            elif shaped and "/proofs/" in name:
                key, text = shaped.group(3), shaped.group(4)
            else:
                i += 1
                continue
            modules = [it for it in modules if it[0] < indent]
            more, i = further_in(lines, i, indent)
            text = re.sub(r"\s+", " ", " ".join([it[1] for it in modules] + ["⊢", text, more])).strip()
            found[crate, key].append(text)
    return found


def main():
    with tempfile.TemporaryDirectory() as room:
        subprocess.run(["git", "clone", "-q", ".", room], check=True)
        subprocess.run(["git", "-C", room, "checkout", "-q", sys.argv[1]], check=True)
        old = statements(room)
    new = statements(".")
    for key, was in sorted(old.items()):
        if key not in new:
            print("gone:", *key)
            for it in was:
                print("  -", it)
        elif sorted(was) != sorted(new[key]):
            print("changed:", *key)
            for sign, texts, others in (("-", was, new[key]), ("+", new[key], was)):
                for it in texts:
                    if it not in others:
                        print(" ", sign, it)
    print(len(old), "names then,", len(new), "now;", sum(key not in new for key in old), "gone")


if not os.path.isdir("crates"):
    sys.exit("laws.py: call it at the top of the checkout")
main()
