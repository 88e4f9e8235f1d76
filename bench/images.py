#!/usr/bin/env python3
"""Says what an image costs: to check it, to load and save it, and to find the volume in its blocks alone.

images.py CHECK SHELL [--runs N] [--write] takes a built `lfs_check` and a built `lfs_shell`. Volumes of 64, 256 and
1,024 segments with serials are filled with files to about six tenths, half of them written over, and saved. Then it
prints the least processor time of N runs, user and system, of: a copy of the image's bytes by `cp`; `lfs_check` of the
image; `lfs_check --recover` of its blocks; a talk that loads the image, and saves it. All files stand on a tmpfs. With
--write the table goes to docs/speed/images.csv.
"""
import argparse
import os
import subprocess
import sys
import tempfile
from pathlib import Path

from beside import machine

TABLE = Path(__file__).resolve().parent.parent / "docs" / "speed" / "images.csv"
HEAD = "Segments,bytes,copy ms,check ms,load and save ms,recover ms,check of a copy,load and save of a copy,recover of a copy"
SIZES = 64, 256, 1024
BLOCK, SEGMENT = 512, 32768
# bytes of a file, in writes of 4,096
FILE_BYTES = 65536


def milliseconds(words, stdin=b""):
    """The processor's milliseconds of a run that ends with status 0."""
    with tempfile.TemporaryFile() as lines:
        lines.write(stdin)
        lines.seek(0)
        child = subprocess.Popen(words, stdin=lines, stdout=subprocess.DEVNULL)
        _, status, used = os.wait4(child.pid, 0)
        child.returncode = status
    if status:
        sys.exit(f"images: {words} ended with status {status}")
    return 1e3 * (used.ru_utime + used.ru_stime)


def filling(segments):
    """The lines of a talk that fills a volume with files, half of which are written twice."""
    count = segments * SEGMENT * 6 // 10 // FILE_BYTES
    piece = "5a" * 4096
    lines = []
    for number in range(count):
        lines.append(f"create /file{number:04} 0644")
        for at in range(0, FILE_BYTES, 4096):
            lines.append(f"write /file{number:04} at {at} {piece}")
    for number in range(0, count, 2):
        lines.append(f"write /file{number:04} at 0 {piece}")
    return ("\n".join(lines) + "\n").encode()


def least(runs, words, stdin=b""):
    return min(milliseconds(words, stdin) for _ in range(runs))


def measured(segments, asked, folder):
    """A line of the table."""
    image, blocks, copy = folder / "volume.image", folder / "volume.blocks", folder / "copy"
    for old in image, blocks, copy:
        old.unlink(missing_ok=True)
    talk = [asked.shell, "--serials", "--clean", "--segments", str(segments), "--inodes", "1024", "--journal", "1000000", "--image", image]
    milliseconds(talk, filling(segments))
    whole = image.read_bytes()
    blocks.write_bytes(whole[BLOCK:BLOCK + segments * SEGMENT])
    copied = least(asked.runs, ["cp", image, copy])
    check = least(asked.runs, [asked.check, image])
    recover = least(asked.runs, [asked.check, "--recover", blocks])
    saved = least(asked.runs, talk, b".quit\n")
    times = [copied, check, saved, recover]
    row = [f"{it:.1f}" for it in times + [it / copied for it in times[1:]]]
    return ",".join([str(segments), str(len(whole)), *row])


def main():
    parser = argparse.ArgumentParser(description=__doc__.split("\n")[0])
    parser.add_argument("check", type=os.path.abspath)
    parser.add_argument("shell", type=os.path.abspath)
    parser.add_argument("--runs", type=int, default=7)
    parser.add_argument("--write", action="store_true")
    asked = parser.parse_args()
    with tempfile.TemporaryDirectory(dir="/dev/shm") as room:
        lines = [measured(segments, asked, Path(room)) for segments in SIZES]
    text = "\n".join([machine(), HEAD, *lines]) + "\n"
    print(text, end="")
    if asked.write:
        TABLE.write_text(text)


main()
