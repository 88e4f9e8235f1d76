#!/usr/bin/env python3
"""Makes the films of the scripts in `examples/films`, and says whether the stored ones are those.

check-films.py PROGRAM [--store] runs PROGRAM, a built `lfs_shell`, on each script, on a volume of six segments, and compares
the page that it writes with the one of that name that is stored beside the script. With --store the page is stored. The
status is 1 where a page is another or was not written; one that is not stored is told as that.
"""
import argparse
import subprocess
import sys
import tempfile
from pathlib import Path

FILMS = Path(__file__).resolve().parent.parent / "examples" / "films"
ARGUMENTS = ["--segments", "6", "--film"]
SECONDS = 60


def film_of(program, script, folder):
    """The page that the program writes of a script, or nothing where it fails."""
    page = Path(folder) / "film.html"
    page.unlink(missing_ok=True)
    with open(script, "rb") as lines:
        ran = subprocess.run([program, *ARGUMENTS, str(page)], stdin=lines, stdout=subprocess.DEVNULL, timeout=SECONDS)
    return page.read_bytes() if ran.returncode == 0 and page.exists() else None


def verdict(stored, made):
    if made is None:
        return "not written"
    if not stored.exists():
        return "not stored"
    return "as stored" if stored.read_bytes() == made else "another than the stored one"


def main():
    parser = argparse.ArgumentParser(description=__doc__.split("\n")[0])
    parser.add_argument("program")
    parser.add_argument("--store", action="store_true")
    asked = parser.parse_args()
    good = True
    with tempfile.TemporaryDirectory() as folder:
        for script in sorted(FILMS.glob("*.lfs")):
            stored, made = script.with_suffix(".html"), film_of(asked.program, script, folder)
            if asked.store and made is not None:
                stored.write_bytes(made)
            says = verdict(stored, made)
            good = good and says in ("as stored", "not stored")
            print(f"{script.stem}: {says}, {len(made or b''):,} bytes")
    return 0 if good else 1


if __name__ == "__main__":
    sys.exit(main())
