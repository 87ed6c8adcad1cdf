#!/usr/bin/env python3
"""Counts in crates/*/src: functions of one shape (twins), and functions with eight or more parameters.

    python3 tools/shapes.py [COMMIT]

Two functions have one shape where their bodies are the same but for names and numbers."""
import re, subprocess, sys

COMMIT = sys.argv[1] if len(sys.argv) > 1 else None
KEYWORDS = "if else while for in let mut return match loop break continue true false as fn pub self".split()
LEAST_TOKENS = 25


def git(*arguments):
    return subprocess.run(["git", *arguments], capture_output=True, text=True, check=True).stdout


def sources():
    listing = git("ls-tree", "-r", "--name-only", COMMIT, "crates") if COMMIT else git("ls-files", "crates")
    for name in listing.split():
        if re.match(r"crates/[a-z_]+/src/.*\.rt$", name):
            yield name.split("/")[1], git("show", f"{COMMIT}:{name}") if COMMIT else open(name).read()


def functions(text):
    """Name, signature with clauses, and body of each function that is laid out as `rt fmt` does."""
    start = None
    for line in text.split("\n"):
        opening = re.match(r"( *)(?:pub )?(?:const )?(?:extern \"C\" )?fn (\w+)", line)
        if start is None and opening:
            start, indent, name, head, body = True, opening[1], opening[2], [], None
        if start is None:
            continue
        if body is None:
            head.append(line)
            if line == indent + "{" or line.endswith("{") and not re.match(r" *(requires|ensures)", line):
                body = []
            elif line.endswith(";"):
                start = None
        elif line == indent + "}":
            yield name, "\n".join(head), "\n".join(body)
            start = None
        else:
            body.append(line)


def shape(body):
    tokens = re.findall(r"[A-Za-z_]\w*|\d+|[^\s\w,]", re.sub(r"//.*", "", body))
    words = [t if t in KEYWORDS else "n" if re.match(r"[A-Za-z_]", t) else "0" if t.isdigit() else t for t in tokens]
    return " ".join(words)


def parameters(head):
    """How many parameters: commas at the first level of the round brackets."""
    depth, angle, count, some = 0, 0, 0, False
    for c in head[head.index("("):]:
        if c in "([":
            depth += 1
        elif c in ")]":
            depth -= 1
            if depth == 0:
                break
        elif c == "," and depth == 1 and angle == 0:
            count, some = count + some, False
        elif c == "<":
            angle += 1
        elif c == ">":
            angle = max(angle - 1, 0)
        elif not c.isspace():
            some = True
    return count + some


shapes, many, total = {}, [], 0
for crate, text in sources():
    for name, head, body in functions(text):
        total += 1
        if len(shape(body).split()) >= LEAST_TOKENS:
            shapes.setdefault(shape(body), []).append(f"{crate}::{name}")
        if parameters(head) >= 8:
            many.append(f"{crate}::{name} {parameters(head)}")
twins = [names for names in shapes.values() if len(names) > 1]
print(f"functions: {total}")
print(f"functions of a shape that another has: {sum(map(len, twins))}")
for names in twins:
    print("   ", ", ".join(names))
print(f"functions with eight or more parameters: {len(many)}")
print("   ", ", ".join(many))
