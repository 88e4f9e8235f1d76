#!/usr/bin/env python3
"""Prints the crates whose files changed since HEAD, or since the commit that is given, and those above them, lowest first."""
import re
import subprocess
import sys
from pathlib import Path

TOP = Path(__file__).resolve().parent.parent


def git(*words):
    return subprocess.run(["git", *words], cwd=TOP, capture_output=True, text=True, check=True).stdout.splitlines()


def main():
    uses = {}
    for line in (TOP / "crates.txt").read_text().splitlines():
        if ":" in line and not line.startswith("#"):
            name, needs = line.split(":", 1)
            uses[name.split()[0]] = needs.split()
    since = sys.argv[1] if len(sys.argv) > 1 else "HEAD"
    files = git("diff", "--name-only", since) + git("ls-files", "--others", "--exclude-standard")
    # a README is not proved, and neither is what is beside a crate's text
    found = [re.match(r"crates/(\w+)/(?:src|specs|proofs|must-fail|data|std(?:in|out)|args|status)", file) for file in files]
    changed = {match[1] for match in found if match} & set(uses)
    order, seen = [], set()

    def visit(name):
        if name in uses and name not in seen:
            seen.add(name)
            for need in uses[name]:
                visit(need)
            order.append(name)

    for name in uses:
        visit(name)
    for name in order:
        if any(need in changed for need in uses[name]):
            changed.add(name)
    if changed:
        print("\n".join(name for name in order if name in changed))


main()
