#!/usr/bin/env python3
"""Lists the places of docs/DESIGN-PASS.md's points in crates/*/src, of a commit or of the files as they stand.

places.py [COMMIT] [--list]    a line for each kind of place: point, kind, how many; with --list each place too

It goes by text: a kind is a pattern over the code's lines (comments too where it says so), and a place is a line or a
function that fits. What fits and is well as it stands is told in the page.
"""
import re
import subprocess
import sys
from collections import Counter, defaultdict


def sources(commit):
    """(path, text) of each source file."""
    if commit:
        names = subprocess.run(["git", "ls-tree", "-r", "--name-only", commit, "crates"], capture_output=True, text=True,
                               check=True).stdout.split("\n")
    else:
        names = subprocess.run(["git", "ls-files", "crates"], capture_output=True, text=True, check=True).stdout.split("\n")
    for name in names:
        if re.fullmatch(r"crates/[a-z_]+/src/.*\.rt", name):
            if commit:
                text = subprocess.run(["git", "show", f"{commit}:{name}"], capture_output=True, text=True, check=True).stdout
            else:
                text = open(name).read()
            yield name[len("crates/"):], text


def heads(text):
    """(line, name, parameters, answer, clauses) of each function: its head up to the brace that opens its body."""
    for m in re.finditer(r"^ *(?:pub (?:extern \"C\" )?)?fn (\w+)[^(]*\(", text, re.M):
        depth, i = 1, m.end()
        while depth:
            depth += {"(": 1, ")": -1}.get(text[i], 0)
            i += 1
        parameters = text[m.end():i - 1]
        taken = []
        # a clause's braces stand on its own lines, the body's brace alone or at the head's end
        for line in text[i:].split("\n"):
            taken.append(line)
            if line.strip() == "{" or line.rstrip().endswith((" {", ";")) and not re.match(r"\s*(requires|ensures)", line):
                break
        head = "\n".join(taken)
        answer = re.match(r"\s*->\s*([^\n{]*)", head)
        yield text[:m.start()].count("\n") + 1, m.group(1), parameters, answer.group(1).strip() if answer else "()", head


# point, kind, pattern over single lines
LINES = [
    (1, "own enums", r"^(?:pub )?enum \w+"),
    (1, "constants for refusals and kinds", r"^pub const \w+: u32 = \d+;"),
    (1, "refusals told by a number that is 0 for none", r"^(?:pub )?fn \w+(?:_refusal|_own)\(.*-> u32|\b(?:refusal|own) != 0"),
    (1, "a number or a place that stands for none (comments)", r"^ *//.*\b(?:0 where|or 0\b|0 of others|past the rows)"),
    (3, "loops by while or loop", r"^ *(?:'\w+: )?(?:while|loop)\b"),
    (4, "casts by as", r"\bas (?:u8|u16|u32|u64|usize)\b"),
    (4, "casts by as that From makes", r"\bas u64\b"),
    (4, "helpers that the library has",
     r"^(?:pub )?fn (?:least_of|greatest_of|greatest|shorter|wide|is_digit|digit|starts|store|store_number|whole_part|face)\b"),
    (6, "fixed buffers that are filled in part", r"\[0u(?:8|32); "),
    (7, "flags that switch what a function does", r"\bfn \w+\(.*: bool[,)]"),
]
TOGETHER = [("mem", "hull"), ("mem", "desk"), ("weight", "sheet"), ("limits", "words"), ("limits", "sheet"), ("out", "at"),
            ("tag", "limits"), ("tag", "table"), ("from", "to"), ("at", "end")]


def main():
    args = [a for a in sys.argv[1:] if not a.startswith("--")]
    commit = args[0] if args else None
    found = defaultdict(list)
    names, facts, pairs = defaultdict(list), defaultdict(list), defaultdict(list)
    for path, text in sources(commit):
        lines = text.split("\n")
        for point, kind, pattern in LINES:
            for i, line in enumerate(lines):
                if kind == "constants for refusals and kinds" and not path.startswith(("answers/", "text/")):
                    continue
                if re.search(pattern, line) and not (kind != "a number or a place that stands for none (comments)"
                                                     and re.match(r" *//|ghost use", line)):
                    found[point, kind].append(f"{path}:{i + 1}: {line.strip()}")
        for at, name, parameters, answer, head in heads(text):
            crate = path.split("/")[0]
            stem = re.sub(r"_(a|c|u)$", "_*", re.sub(r"^(hull|draft|hulls|drafts)_", "*_", name))
            if "*" in stem and crate not in ("face", "face_c"):
                names[crate, stem].append(f"{path}:{at}: fn {name}")
            for clause in re.findall(r"requires(?: \w+)? \{(.*?)\}\s*(?=requires|ensures|\{|$)", head, re.S):
                for fact in re.split(r"\s×\s", clause):
                    facts[re.sub(r"[\s()]+", " ", fact).strip()].append(f"{path}:{at}: fn {name}")
            given = re.findall(r"(\w+):", parameters)
            for a, b in TOGETHER:
                if a in given and b in given:
                    pairs[a, b].append(f"{path}:{at}: fn {name}")
            if {"powers", "weights"} <= set(given):
                found[6, "parallel slices of powers and weights"].append(f"{path}:{at}: fn {name}")
    for (crate, stem), where in names.items():
        if len(where) > 1:
            found[2, "functions of one name but for what they are of"] += where
    for fact, where in facts.items():
        if len(where) >= 3:
            found[5, "facts in three contracts or more"] += [f"{w}: {fact}" for w in where]
    for (a, b), where in pairs.items():
        if len(where) >= 3:
            found[5, "parameters that travel together"] += [f"{w}: ({a}, {b})" for w in where]
    for key in sorted(found):
        print(f"{key[0]}  {key[1]}: {len(found[key])}")
        if "--list" in sys.argv:
            for place in found[key]:
                print("       " + place)


main()
