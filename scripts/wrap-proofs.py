#!/usr/bin/env python3
"""Breaks the long lines of definitions and proofs.

wrap-proofs.py [--check] [FILE..] breaks each line of the `.antt` files, by default of all crates, that has more than 120
columns. Layout goes by indentation, so a line may be broken at any space where what follows stands further in. It is broken
where the fewest brackets are open: before an arrow or another operator, behind a comma, or between words. With `--check` it
changes nothing, names each line above 150 columns, and its status is 1 where there is one. A text in quotes stays whole. A long `use` becomes several of the same module. Run
`rt fmt` in the crate's folder behind it.
"""
import itertools
import pathlib
import re
import sys

WIDE = 120
TOO_WIDE = 150
TOP = pathlib.Path(__file__).resolve().parent.parent
OPERATORS = ("→", "×", "∙", "⊎", "+", "++", "∷", "≡", "↔", "$")
OPENERS, CLOSERS = "([{", ")]}"


def gaps(text):
    """The places of single spaces in a line's text at which it may be broken, each with the brackets that are open there."""
    depth, is_quoted, found = 0, False, []
    for at, letter in enumerate(text):
        if is_quoted:
            is_quoted = not (letter == '"' and text[at - 1] != "\\")
        elif letter == '"':
            is_quoted = True
        elif letter in OPENERS:
            depth += 1
        elif letter in CLOSERS:
            depth -= 1
        elif letter == " " and 0 < at < len(text) - 1:
            if text.startswith("--", at + 1):
                break
            found.append((at, depth))
    return found


def rank(text, at, depth):
    """How bad a break is at this place: by the brackets that are open, then by what stands there."""
    word = text[at + 1 :].split(" ", 1)[0]
    before = text[:at].rsplit(" ", 1)[-1]
    if word in ("then", "else"):
        kind = -1
    elif word in (*OPERATORS, "|") or before.endswith((",", ";")):
        kind = 0
    elif before in ("=", "↦", "in"):
        kind = 1
    elif word.startswith("(") or word == "in":
        kind = 2
    else:
        kind = 3
    if before in OPERATORS or before in (":", "let") or word in ("=", ":"):
        kind = 5
    return 2 * depth + kind


def broken(line):
    """The lines that a line becomes: those behind the first stand four columns further in."""
    indent = len(line) - len(line.lstrip(" "))
    text, found, margin = line[indent:], [], indent
    while margin + len(text) > WIDE:
        may = [(at, depth) for at, depth in gaps(text) if 20 < at <= WIDE - margin]
        if not may:
            break
        base = min(depth for _, depth in may)
        at, _ = min(may, key=lambda it: (rank(text, it[0], it[1] - base) + (4 if it[0] < 40 else 0), -it[0]))
        found.append(" " * margin + text[:at])
        text, margin = text[at + 1 :], indent + 4
    return [*found, " " * margin + text]


def comment(lines):
    """A comment's lines, of which one is long, filled again."""
    start = lines[0][: len(lines[0]) - len(lines[0].lstrip(" "))] + "--"
    found, now = [], start
    for word in " ".join(it.lstrip(" ")[2:] for it in lines).split():
        if len(now) + 1 + len(word) > WIDE and now != start:
            found.append(now)
            now = start
        now += " " + word
    return [*found, now]


def imports(line):
    """The `use` lines that a long one becomes, each of the same module."""
    head, brace, names = line.partition("{")
    found = []
    now = head + brace
    for name in names.rstrip("}").split(", "):
        more = now + (", " if not now.endswith("{") else "") + name
        if len(more) + 1 > WIDE and not now.endswith("{"):
            found.append(now + "}")
            more = head + brace + name
        now = more
    return [*found, now + "}"]


def is_comment(line):
    return line.lstrip(" ").startswith("-- ") and not line.lstrip(" ").startswith("-- --")


def wrapped(text):
    """A file's text with no long line, where one can be broken."""
    found = []
    for of_comment, lines in itertools.groupby(text.split("\n"), key=is_comment):
        lines = list(lines)
        if of_comment:
            found += comment(lines) if any(len(it) > WIDE for it in lines) else lines
            continue
        for line in lines:
            if len(line) <= WIDE:
                found.append(line)
            elif re.fullmatch(r" *(?:pub )?use [^{}]*\{[^{}]*\}", line):
                found += imports(line)
            else:
                found += broken(line)
    return "\n".join(found)


def main(words):
    files = [pathlib.Path(it).resolve() for it in words if it != "--check"] or sorted(it for it in TOP.glob("crates/*/*/**/*.antt") if it.parts[len(TOP.parts) + 2] != "out")
    failed = False
    for file in files:
        text = file.read_text()
        if "--check" in words:
            for number, line in enumerate(text.split("\n"), 1):
                if len(line) > TOO_WIDE:
                    failed = True
                    print(f"{file.relative_to(TOP)}:{number}: {len(line)} columns")
            continue
        new = wrapped(text)
        if new != text:
            file.write_text(new)
    return 1 if failed else 0


if __name__ == "__main__":
    sys.exit(main(sys.argv[1:]))
