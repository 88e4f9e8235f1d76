#!/usr/bin/env python3
"""Lists the names that the specs/ of two crates or more define, each with the files that define it.

An equals sign stands before a name that has the same text in two of them. Then come the files of code and of definitions
that use one name of two crates, and the status is 1 where there is one. docs/DEFINITIONS.md says which names stay and why.
"""
import re
import sys
from pathlib import Path

CRATES = Path(__file__).resolve().parent.parent / "crates"
DEFINED = re.compile(r"^(?:unfoldable |abbrev )?pub (?!mod |use )(?:record |data )?([^\s(){}:,]+)(.*(?:\n(?!\n|--).*)*)", re.M)
USED = re.compile(r"use Rattle\.(lfs_\w+)\.specs\.[\w.]+\.\{([^}]*)\}")


def defined():
    """Each name, with the crates that define it, and these with the text in each of their files."""
    places = {}
    for path in sorted(CRATES.glob("*/specs/**/*.antt")):
        for name, text in DEFINED.findall(path.read_text()):
            files = places.setdefault(name, {}).setdefault(path.relative_to(CRATES).parts[0], {})
            files[path.name] = " ".join(text.split())
    return places


def mixed(twice):
    """The files that use one name of two crates."""
    for path in sorted([*CRATES.glob("*/src/**/*.rt"), *CRATES.glob("*/specs/**/*.antt")]):
        whose = {}
        for crate, names in USED.findall(path.read_text()):
            for name in (it.strip().split(" as ")[0] for it in names.split(",")):
                if crate in twice.get(name, {}):
                    whose.setdefault(name, set()).add(crate)
        for name, crates in whose.items():
            if len(crates) > 1:
                yield f"{path.relative_to(CRATES)} uses {name} of {' and of '.join(sorted(crates))}"


def main():
    places = defined()
    twice = {name: crates for name, crates in sorted(places.items()) if len(crates) > 1}
    alike = 0
    for name, crates in twice.items():
        texts = [text for files in crates.values() for text in files.values()]
        is_alike = len(set(texts)) < len(texts)
        alike += is_alike
        where = "; ".join(f"{crate} {', '.join(files)}" for crate, files in crates.items())
        print(f"{'=' if is_alike else ' '} {name}: {where}")
    print(f"{len(twice)} of {len(places)} names stand in two crates or more, {alike} with the same text")
    found = list(mixed(twice))
    print("\n".join(found)) if found else None
    return 1 if found else 0


sys.exit(main())
