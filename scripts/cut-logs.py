#!/usr/bin/env python3
"""Cuts a log behind each of its blocks, as a crash would, and has the volume found in what is left.

cut-logs.py SHELL CHECK, where SHELL is a built lfs_shell and CHECK a built lfs_check. Files are made and written, each with a
Sync behind it, on volumes of 6 segments that are made with `--serials`. What is found is to be the tree behind the last
Sync whose blocks all stand, each file with its bytes, or that with the next file made, which may be written by itself
where a segment ends; it is to stand at that place of the journal; and lfs_shell is to take its image with `--serials`,
as one that can be found again. Prints how many cuts were tried; the status is 1 where one was told otherwise.
"""
import pathlib
import re
import subprocess
import sys
import tempfile

BLOCK = 512
BLOCKS = 6 * 64
FILES = 20


def run(program, *words, given=""):
    return subprocess.run([program, *words], input=given, text=True, capture_output=True)


def bytes_of(file):
    return f"{file:02x}" * 600


def files_in(shell, image):
    """How many files the volume has with their bytes, if they are the first ones, and at most one more is there, empty."""
    names = run(shell, "--image", image, given="list /\n").stdout.split("\n")[0].split()[2:]
    count = len(names)
    if set(names) != {f"f{file}" for file in range(count)}:
        return None
    script = "".join(f"read /f{file} 0 700\n" for file in range(count))
    read = [line.split()[2:] for line in run(shell, "--image", image, given=script).stdout.split("\n")[:count]]
    whole = count - 1 if read and read[-1] in ([], ["-"]) else count
    return whole if read[:whole] == [[bytes_of(file)] for file in range(whole)] else None


def place_in(text):
    """Behind which entry of the journal the tree stands, by what lfs_check tells: behind none is 0."""
    place = re.search(r"^journal: .* behind (?:entry (\d+)|none) of", text, re.M)
    return int(place[1] or 0) if place else None


def main(shell, check):
    with tempfile.TemporaryDirectory() as room:
        image, cut, found, journal = (f"{room}/{name}" for name in ("image", "cut", "found", "journal"))
        ends, failed, tried = [], 0, 0
        for files in range(FILES + 1):
            pathlib.Path(image).unlink(missing_ok=True)
            pathlib.Path(journal).unlink(missing_ok=True)
            script = "".join(f"create /f{it} 0644\nwrite /f{it} at 0 {bytes_of(it)}\nsync\n" for it in range(files))
            run(shell, "--serials", "--segments", "6", "--image", image, "--journal-out", journal, given=script or "sync\n")
            blocks = pathlib.Path(image).read_bytes()[BLOCK:BLOCK * (BLOCKS + 1)]
            ends.append(1 + max(at for at in range(BLOCKS) if any(blocks[at * BLOCK:(at + 1) * BLOCK])))
        for end in range(ends[0], ends[-1] + 1):
            pathlib.Path(cut).write_bytes(blocks[:end * BLOCK] + bytes((BLOCKS - end) * BLOCK))
            told = run(check, "--recover", cut, "--save", found, "--journal", journal)
            wanted = max(files for files in range(FILES + 1) if ends[files] <= end)
            tried += 1
            if told.returncode or files_in(shell, found) != wanted or place_in(told.stdout) not in (3 * wanted, 3 * wanted + 1):
                failed += 1
                print(f"cut at {end}: {told.stdout.strip()}, {wanted} files were wanted")
                continue
            again = run(shell, "--serials", "--image", found, given="sync\n")
            if again.returncode:
                failed += 1
                print(f"cut at {end}: its image isn't taken with --serials: {again.stderr.strip()}")
    print(f"{tried} cuts, {failed} failed")
    return failed > 0


if __name__ == "__main__":
    sys.exit(main(*sys.argv[1:3]))
