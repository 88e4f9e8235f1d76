#!/usr/bin/env python3
"""Makes the stored talks of the greatest sizes, and what they must tell.

greatest-talks.py [--write] says whether the talks in `crates/lfs_script_tests/data` are those that it makes, or writes them. What
is told is worked out here, by the forms of `docs/FORMATS.md` and of the crates' pages: a map of 1,024 segments of a fresh
volume, why a call may be made at the end of a path of 512 names, and a tree of more names than a line may ask for. No clause
refuses a body that gives up for want of memory above some size, so these stand at the greatest.
"""
import pathlib
import sys

DATA = pathlib.Path(__file__).resolve().parent.parent / "crates/lfs_script_tests/data"
SEGMENTS, BLOCKS = 1024, 64
NAMES = 512
MOST_CALLS = 107
FIRST_NUMBER = 4
SIGNS = "L label  S summary  D data  I indirect  R records  p partly live  d i r dead  . not yet written"


def report(served):
    return [f"entries {served}", f"served {served}", "denied 0", "refused 0", "cleaner 0"]


def map_of_all_segments():
    """A fresh log has its label, and a partial segment of one block of records, in which the root's of 128 bytes is."""
    rows = [f"{0:4} active {128:5} {'LSR':.<{BLOCKS}}"]
    rows += [f"{segment:4}  clean {0:5} {'':.<{BLOCKS}}" for segment in range(1, SEGMENTS)]
    return [".map"], [*rows, "waiting 0 blocks 0 records", SIGNS, *report(0)]


def checks(number, at, name):
    """The checks of a directory on the way, and of the name that is looked up in it."""
    row = f"path 0 at {at} yes {number} dir 0 0 0755 00000000"
    return [f"N1 directory       {row}", f"S1 search          {row} others r-x", f"N2 name there      path 0 at {at + 1} yes {name}"]


def why_at_the_end_of_the_longest_path():
    """Directories are put over one another: the first that was made is the last name of the path."""
    lines = ["mkdir /a 0755"]
    for _ in range(NAMES - 1):
        lines += ["mkdir /b 0755", "rename /a /b/a", "rename /b /a"]
    numbers = [2, *range(FIRST_NUMBER + NAMES - 1, FIRST_NUMBER - 1, -1)]
    told = [line for at in range(NAMES) for line in checks(numbers[at], at, "a")]
    asked = ["as 8 8", ".why stat " + "/a" * NAMES]
    return [*lines, *asked], ["0 ok"] * len(lines) + told + ["allowed", *report(len(lines))]


def tree_of_more_than_may_be_asked():
    """A List of the root, whose first name is a directory with a file: the calls of these come before those of the others."""
    files = [f"n{number:03}" for number in range(MOST_CALLS + 2)]
    made = ["mkdir /a 0755", "create /a/b 0644", *(f"create /{name} 0644" for name in files)]
    unlooked = 1 + len(files) - (MOST_CALLS - 1)
    first = ["list /", "stat /a", "list /a", "stat /a/b"]
    rows = [f" {unlooked} not looked at, which list tells", " dir 0 0 0755 00000000 0 a", "   file 0 0 0644 00000000 0 b"]
    rows += [f" file 0 0 0644 00000000 0 {name}" for name in files[: MOST_CALLS - len(first)]]
    cut = f" cut short behind {MOST_CALLS} calls; .tree of a directory below tells more"
    return [*made, ".tree"], [*["0 ok"] * len(made), *rows, cut, *report(len(made) + MOST_CALLS)]


TALKS = {
    "map-of-1024-segments": map_of_all_segments,
    "why-at-the-end-of-512-names": why_at_the_end_of_the_longest_path,
    "tree-of-more-than-107-calls": tree_of_more_than_may_be_asked,
}


def main():
    failed = False
    for name, made in TALKS.items():
        for ending, lines in zip((".lfs", ".out"), made()):
            file, text = DATA / (name + ending), "".join(line + "\n" for line in lines)
            if "--write" in sys.argv[1:]:
                file.write_text(text)
            elif not file.is_file() or file.read_text() != text:
                failed = True
                print(f"{file.name} is not what scripts/greatest-talks.py makes")
    return 1 if failed else 0


if __name__ == "__main__":
    sys.exit(main())
