#!/usr/bin/env python3
"""Keeps the manual pages of docs/man/ true of what the programs take.

Each page NAME.1 is written by hand, but for the lines between `.\\" options` and `.\\" end of options`: these are made of
the program's own options, as its source gives them to the argument parser, so that a page says what `--help` says.

  man-pages.py            says which page differs, or which program has none, and ends with status 1
  man-pages.py --write    makes these lines anew
"""
import re
import sys
from pathlib import Path

TOP = Path(__file__).resolve().parent.parent
PAGES = TOP / "docs" / "man"
BEGIN, END = '.\\" options', '.\\" end of options'
TEXT = r'"((?:[^"\\]|\\.)*)"'
# programs for those who work on the repository
WITHOUT = {"lfs_bench"}


def text_of(crate):
    """The source of a crate."""
    return "\n".join(path.read_text() for path in sorted((TOP / "crates" / crate / "src").rglob("*.rt")))


def commands():
    """The programs that have options: name, the source of their crate and the chain of calls that makes the command."""
    for folder in sorted((TOP / "crates").iterdir()):
        source = text_of(folder.name) if (folder / "src").is_dir() else ""
        for made in re.finditer(r'Command::new\(alloc, "(\w+)"\)(.*?)\n}', source, re.S):
            yield made[1], source, made[2]


def option(source, name):
    """What a page shows of an argument of the command, which is a constant: how it is written, and what it does."""
    both = source + text_of("lfs_command")
    found = re.search(rf"const {name}: (NumberOption|FlagOption|TextOption|Operand) = \w+ {{(.*?)\n}};", both, re.S)
    if not found:
        sys.exit(f"man-pages: no constant {name}")
    kind, fields = found[1], dict(re.findall(rf"(\w+):\s*{TEXT}", found[2]))
    value = "N" if kind == "NumberOption" else fields.get("value")
    shown = None if kind == "Operand" else f"--{fields['name']}"
    return " ".join(it for it in (shown, value) if it), fields["help"]


def escaped(text):
    """A text as troff takes it."""
    return text.replace("\\n", " ").replace('\\"', '"').replace("\\", "\\e").replace("-", "\\-")


def lines_of(source, chain):
    """The lines of a page for a program's options, with help, which each has."""
    # an option that goes not with others is made by a function: that of DISK is disk_arg
    made = re.findall(r"\.arg\((?:(\w+)\.arg\(alloc\)|(\w+)_arg\(alloc\)\?)\)", chain)
    found = [option(source, constant or function.upper()) for constant, function in made]
    found.append(("-h, --help", "Prints help"))
    if ".version(" in chain:
        found.append(("-V, --version", "Prints version"))
    return [line for shown, told in found for line in (".TP", f".B {escaped(shown)}", f"{escaped(told)}.")]


def with_options(page, lines):
    """The text of a page with these lines for its options."""
    before, behind = page.split(BEGIN + "\n", 1)
    return f"{before}{BEGIN}\n" + "\n".join(lines) + f"\n{END}\n" + behind.split(END + "\n", 1)[1]


def main(words):
    status = 0
    for name, source, chain in commands():
        path = PAGES / f"{name}.1"
        if name in WITHOUT:
            continue
        if not path.is_file():
            print(f"docs/man/{name}.1: there is none, and {name} takes options")
            status = 1
            continue
        page = path.read_text()
        made = with_options(page, lines_of(source, chain))
        if made != page and "--write" in words:
            path.write_text(made)
        elif made != page:
            print(f"docs/man/{name}.1: its options are not those of the program: scripts/man-pages.py --write")
            status = 1
    return status


if __name__ == "__main__":
    sys.exit(main(sys.argv[1:]))
