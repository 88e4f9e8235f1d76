#!/usr/bin/env python3
"""Audits the journals of the stored scripts, and each with one of its entries' answers changed.

audit-scripts.py SHELL TRAIL [NAME..] runs SHELL, a built `lfs_shell`, on each script in `crates/lfs_script_tests/data`, or
on those named, with `.journal` behind it, and TRAIL, a built `lfs_audit_trail`, on the journal that it tells, with the
numbers of both as they are by default. Each must be legal. Then each answer of a journal's entries is changed in turn into
another of its kind: each of these must be illegal, at that entry, or is told as another legal answer. The last line counts
journals, entries, changes that are illegal and those that are legal; the status is 1 where a journal is illegal.
"""
import re
import subprocess
import sys
from pathlib import Path

DATA = Path(__file__).resolve().parent.parent / "crates" / "lfs_script_tests" / "data"
ENTRY = re.compile(r"\d+ as \d+ .* \| .* \| .*")
CLEANING = re.compile(r" \| (ifile|infos|bmapv|markv|segclean|gain)\b")
SECONDS = 120


def run(words, text):
    ran = subprocess.run(words, input=text.encode(), stdout=subprocess.PIPE, stderr=subprocess.DEVNULL, timeout=SECONDS)
    return ran.returncode, ran.stdout.decode("ascii", "replace")


def journal_of(shell, script):
    """The lines of the journal that a script leaves."""
    told = run([shell], script.read_text("ascii", "replace") + "\n.journal\n")[1]
    return [line for line in told.split("\n") if ENTRY.fullmatch(line)]


def changed(line):
    """An entry with another answer."""
    front, answer = line.rsplit(" | ", 1)
    words = answer.split(" ")
    if words[0] == "ok" and CLEANING.search(front):
        other = "denied"
    elif words[0] == "ok":
        other = "denied M2 EACCES 0 1"
    elif words == ["denied"]:
        other = "fault Active"
    elif words[0] == "denied":
        other = " ".join([*words[:-1], str(int(words[-1]) + 1)])
    elif words[0] == "refused":
        other = "ok"
    elif words[0] == "bytes":
        other = "bytes 00" if words[1] != "00" else "bytes 01"
    elif words[0] == "names":
        other = "names zz" if words[1:] != ["zz"] else "names"
    elif words[0] == "stat":
        other = " ".join([words[0], str(int(words[1]) + 1), *words[2:]])
    else:
        other = "denied"
    return f"{front} | {other}"


def audited(trail, lines, words=()):
    """The word of what is found with these words behind the program's name, and its number."""
    found = run([trail, *words], "".join(line + "\n" for line in lines))[1].split("\n")[0].split(" ")
    number = found[1] if found[0] == "legal" else found[2].rstrip(":")
    return found[0], int(number)


def main(shell, trail, *names):
    scripts = sorted(DATA.glob("*.lfs")) if not names else [DATA / f"{name}.lfs" for name in names]
    journals = entries = illegal = legal = 0
    good = True
    for script in scripts:
        lines = journal_of(shell, script)
        if not lines:
            continue
        journals, entries = journals + 1, entries + len(lines)
        found = audited(trail, lines)
        if found != ("legal", len(lines)):
            good = False
            print(f"{script.stem}: {found[0]} {found[1]} of {len(lines)}")
            continue
        for at, line in enumerate(lines):
            found = audited(trail, [*lines[:at], changed(line)])
            if found[0] == "illegal" and found[1] == at + 1:
                illegal += 1
            else:
                legal += 1
                print(f"{script.stem}, entry {at + 1}: {changed(line)[:120]} is {found[0]}")
    print(f"{journals} journals, {entries} entries, {illegal} changes illegal, {legal} not")
    return 0 if good else 1


if __name__ == "__main__":
    if len(sys.argv) < 3:
        sys.exit(__doc__)
    sys.exit(main(*sys.argv[1:]))
