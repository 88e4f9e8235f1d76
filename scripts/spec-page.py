#!/usr/bin/env python3
"""Makes docs/SPEC.md, the rules, the effects and the answers of calls as the definitions in specs/ have them.

spec-page.py prints what differs and ends with status 1 where the page is not what the definitions make it; with --write it
writes the page. Imports and the types of definitions are left out; each section is one file.
"""
import re
import sys
from pathlib import Path

TOP = Path(__file__).resolve().parent.parent
PAGE = TOP / "docs/SPEC.md"
HEAD = """# The rules, as they are defined

This page is made from `specs/` by `scripts/spec-page.py`: what a call must pass, what it does and what it shows, as the
contracts cite it. `docs/RULES.md` says the same in words. Types and imports are left out. `∷` puts a first one before a
list and `++` joins two, `[]` is the empty list, `λ x. ..` a function, `record w { .. }` is w with other fields.
`reached` is the row that names lead to, `asks met rule path at` a test with the denial where it isn't met.

"""
SECTIONS = [
    ("Rules", "lfs_model/specs/Rules.antt"),
    ("Effects and answers", "lfs_model/specs/Effects.antt"),
]


def definitions(text):
    """The definitions of a file, each with its comment, without imports and types."""
    # a `use` line and a type may go on in lines that stand further in
    kept = re.sub(r"^(?:use |(?:unfoldable |abbrev )*pub [\w-]+ : ).*\n(?: +.*\n)*", "", text, flags=re.M)
    return re.sub(r"\n{3,}", "\n\n", "\n".join(kept.splitlines()[1:])).strip("\n")


def section(title, file):
    text = (TOP / "crates" / file).read_text(encoding="utf-8")
    about = text.splitlines()[0].removeprefix("-- ")
    return f"## {title}\n\n{about} (`{file.split('/')[-1]}` of `{file.split('/')[0]}`)\n\n```\n{definitions(text)}\n```\n"


def page():
    return HEAD + "\n".join(section(title, file) for title, file in SECTIONS)


def main():
    made = page()
    if "--write" in sys.argv[1:]:
        PAGE.write_text(made, encoding="utf-8")
        return 0
    if not PAGE.is_file() or PAGE.read_text(encoding="utf-8") != made:
        print("docs/SPEC.md is not what scripts/spec-page.py makes: run it with --write")
        return 1
    return 0


if __name__ == "__main__":
    sys.exit(main())
