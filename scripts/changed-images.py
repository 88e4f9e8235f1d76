#!/usr/bin/env python3
"""Changes bytes of images, and sees what is told of each.

changed-images.py CHECK SHELL [--count N] [--seed N] takes a built lfs_check and a built lfs_shell. Images of a volume of 6
segments with files, directories and what was removed, with serials and without, get one to four bytes changed each,
nearly all where there are neither zeros nor bytes of a file. `lfs_check` is to end with status 0 and `ok`, or with 1 and a
line of a fault. Of an image that it takes `lfs_shell` is to load the volume, and `.check` in it to tell `ok`; of those that
it doesn't take it is to refuse each that is tried, one of sixteen. Prints how many were taken, and how many told; the
status is 1 where one went otherwise.
"""
import argparse
import os
import random
import subprocess
import sys
import tempfile
from concurrent.futures import ThreadPoolExecutor
from pathlib import Path

SCRIPT = "".join(
    [f"mkdir /d{at} 0755\n" for at in range(3)]
    + [f"create /d{at % 3}/file{at} 0644\nwrite /d{at % 3}/file{at} at {700 * at} {'5a' * 1500}\n" for at in range(9)]
    + ["write /d0/file0 at 80000 ff\nunlink /d1/file4\nrename /d0/file3 /d2/other\nchmod /d1 0700\nsync\n"])


def run(program, *words, given=b""):
    return subprocess.run([program, *words], input=given, capture_output=True)


def changed(image, places, random):
    """The image with one to four bytes changed, and where."""
    bytes_of = bytearray(image)
    for _ in range(random.randint(1, 4)):
        at = random.choice(places) if random.random() < 0.98 else random.randrange(len(image))
        bytes_of[at] ^= random.choice([1, 2, 4, 128, 255, random.randint(1, 255)])
    return bytes(bytes_of)


def tried(asked, image, places, number, room):
    """Whether the check takes an image with changed bytes, and why that is wrong, if it is."""
    given = changed(image, places, random.Random(asked.seed * 1_000_003 + number))
    told = run(asked.check, given=given)
    is_taken = told.returncode == 0
    if not told.stdout.startswith(b"ok\n" if is_taken else b"fault: ") or told.returncode > 1 or told.stderr:
        return is_taken, f"{number}: {told}"
    if not is_taken and number % 16:
        return is_taken, None
    file = room / f"{number}.image"
    file.write_bytes(given)
    loaded = run(asked.shell, "--image", file, given=b".check\n.quit\n")
    file.unlink(missing_ok=True)
    fits = loaded.returncode == 0 and loaded.stdout.startswith(b"ok\n") if is_taken else loaded.returncode == 1 and not loaded.stdout
    return is_taken, None if fits else f"{number}: {loaded}"


def main():
    parser = argparse.ArgumentParser(description=__doc__.split("\n")[0])
    parser.add_argument("check", type=os.path.abspath)
    parser.add_argument("shell", type=os.path.abspath)
    parser.add_argument("--count", type=int, default=10000)
    parser.add_argument("--seed", type=int, default=1)
    asked = parser.parse_args()
    taken = wrong = 0
    with tempfile.TemporaryDirectory(dir="/dev/shm") as folder, ThreadPoolExecutor(os.cpu_count()) as pool:
        room = Path(folder)
        images = []
        for words in [], ["--serials"]:
            run(asked.shell, *words, "--segments", "6", "--inodes", "32", "--image", room / "image", given=SCRIPT.encode())
            image = (room / "image").read_bytes()
            images.append((image, [at for at, byte in enumerate(image) if byte not in (0, 0x5A) or at < 64]))
            (room / "image").unlink()
        for is_taken, fault in pool.map(lambda number: tried(asked, *images[number % 2], number, room), range(asked.count)):
            taken += is_taken
            if fault:
                wrong += 1
                print(fault)
    print(f"{asked.count} images, {taken} taken, {asked.count - taken} told, {wrong} went otherwise")
    return wrong > 0


if __name__ == "__main__":
    sys.exit(main())
