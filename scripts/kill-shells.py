#!/usr/bin/env python3
"""Kills talks on a disk's file, and sees what the next talk finds.

kill-shells.py SHELL [--talks N] [--seed N], where SHELL is a built lfs_shell. Talks with `--disk` on one file make files,
write them and sync, and are killed at some moment; files are removed again, so that the cleaner has work. The next talk
is to find just the files that were there at the last Sync that was answered, with their bytes; one more, which was being
made and removed then, may be there or not. Prints how many talks were killed; the status is 1 where one found otherwise.
"""
import argparse
import random
import subprocess
import sys
import tempfile
import time

MOST_FILES = 12
SEGMENTS = "16"


class Talk:
    """A talk on a disk's file, whose lines are answered one by one."""

    def __init__(self, shell, disk):
        words = [shell, "--disk", disk, "--segments", SEGMENTS, "--clean"]
        self.process = subprocess.Popen(words, stdin=subprocess.PIPE, stdout=subprocess.PIPE, text=True)

    def ask(self, line):
        """The answer to a line, without the session; nothing where the talk is over."""
        self.say(line + "\n")
        return self.process.stdout.readline().rstrip("\n")[2:]

    def say(self, lines):
        try:
            self.process.stdin.write(lines)
            self.process.stdin.flush()
        except BrokenPipeError:
            pass

    def kill(self):
        self.process.kill()
        self.process.wait()


def bytes_of(file):
    return f"{file % 256:02x}" * (200 + 300 * (file % 7))


def found(talk):
    """Each file that is there, with its bytes."""
    names = talk.ask("list /").split()[1:]
    return {name: talk.ask(f"read /{name} 0 4096").removeprefix("bytes ").strip("-") for name in names}


def run(talk, files, made, chance):
    """Makes and removes files until the moment comes, a Sync behind each. What is there then, and how many were made."""
    until = time.monotonic() + chance.random() * 0.05
    while time.monotonic() < until:
        if len(files) >= MOST_FILES:
            name = chance.choice(sorted(files))
            lines, files = [f"unlink /{name}"], {it: files[it] for it in files if it != name}
        else:
            name, data, made = f"f{made}", bytes_of(made), made + 1
            lines, files = [f"create /{name} 0644", f"write /{name} at 0 {data}"], {**files, name: data}
        for line in [*lines, "sync"]:
            answer = talk.ask(line)
            if answer != "ok":
                sys.exit(f"kill-shells: {line[:40]} was answered {answer!r}")
    return files, made


def main():
    parser = argparse.ArgumentParser(description=__doc__.split("\n")[0])
    parser.add_argument("shell")
    parser.add_argument("--talks", type=int, default=200)
    parser.add_argument("--seed", type=int, default=1)
    asked = parser.parse_args()
    chance, failed, files, made = random.Random(asked.seed), 0, {}, 0
    with tempfile.TemporaryDirectory() as room:
        disk = f"{room}/disk"
        for number in range(asked.talks):
            talk = Talk(asked.shell, disk)
            files, made = run(talk, files, made, chance)
            # Something waits, or is being written, when the talk is killed.
            talk.say(f"create /x 0644\nwrite /x at 0 {bytes_of(number)}\nsync\nunlink /x\nsync\n")
            time.sleep(chance.random() * 0.002)
            talk.kill()
            talk = Talk(asked.shell, disk)
            here = {name: data for name, data in found(talk).items() if name != "x"}
            if here != files:
                failed += 1
                print(f"talk {number}: {sorted(here)} are found, and {sorted(files)} were synced")
            talk.ask("unlink /x")
            talk.ask("sync")
            talk.kill()
            files = here
    print(f"{asked.talks} talks were killed, {failed} found otherwise")
    return failed > 0


if __name__ == "__main__":
    sys.exit(main())
