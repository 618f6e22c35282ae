#!/usr/bin/env python3
"""Lists functions in crates/*/src that read alike but for names, types, numbers and texts.

Usage: tools/twins.py [COMMIT]     (without COMMIT: the files as they are)

One line for each group: how many tokens the body has, and the functions. Functions
of fewer than 20 tokens, derived code and tests are left out.
"""
import os
import re
import subprocess
import sys
from collections import defaultdict

LEAST = 20
TOKEN = re.compile(r"'(?:\\.|[^'\\])'|b?\"(?:\\.|[^\"\\])*\"|[A-Za-z_]\w*|\d[\w.]*|[^\s\w]")
KEPT = set("if else match for in while loop return let mut fn self Self Ok Err Some None as break continue".split())


def files(commit):
    names = subprocess.run(
        ["git", "ls-files", "crates/*/src/*.rt"] if commit is None else ["git", "ls-tree", "-r", "--name-only", commit],
        capture_output=True, text=True, check=True).stdout.split()
    for name in names:
        if re.fullmatch(r"crates/[^/]+/src/.*\.rt", name) and not name.endswith("tests.rt") and "_tests/" not in name:
            if commit is None:
                if os.path.exists(name):
                    yield name, open(name, encoding="utf-8").read()
            else:
                yield name, subprocess.run(["git", "show", f"{commit}:{name}"], capture_output=True, text=True, check=True).stdout


def body(text, start):
    """The block of a function whose signature starts here, or None where it has none.
    Braces of clauses stand in lines that begin with requires or ensures."""
    at = start
    while at < len(text):
        line_end = text.find("\n", at)
        line = text[at:line_end if line_end >= 0 else len(text)]
        if re.match(r"\s*(requires|ensures)\b", line):
            at = line_end + 1
            continue
        brace = line.find("{")
        semicolon = line.find(";")
        if semicolon >= 0 and (brace < 0 or semicolon < brace) and "[" not in line[:semicolon]:
            return None
        if brace >= 0:
            depth, i = 0, at + brace
            while i < len(text):
                depth += {"{": 1, "}": -1}.get(text[i], 0)
                i += 1
                if depth == 0:
                    return text[at + brace:i]
        if line_end < 0:
            return None
        at = line_end + 1
    return None


def shape(text):
    text = re.sub(r"//.*", "", text)
    found = []
    for token in TOKEN.findall(text):
        if token in KEPT or not (token[0].isalnum() or token[0] in "_'\"b"):
            found.append(token)
        else:
            found.append("1" if token[0].isdigit() else "x")
    return " ".join(found)


def main():
    commit = sys.argv[1] if len(sys.argv) > 1 else None
    groups = defaultdict(list)
    for name, text in files(commit):
        for match in re.finditer(r"\bfn (\w+)", text):
            block = body(text, match.start())
            if block is None:
                continue
            form = shape(block)
            if len(form.split()) >= LEAST:
                groups[form].append(f"{name.replace('crates/', '').replace('src/', '')}:{match.group(1)}")
    total = 0
    for form, where in sorted(groups.items(), key=lambda g: (-len(g[1]), g[1])):
        if len(where) > 1:
            total += 1
            print(f"{len(form.split()):4} tokens: " + ", ".join(where))
    print(f"groups: {total}")


if __name__ == "__main__":
    main()
