#!/usr/bin/env python3
"""Makes the same random calls by four users on a mounted volume and on a tmpfs, and says where the two answer otherwise.

  random_calls.py FOLDER [SCRIPTS [SEED]]     FOLDER is where `lfs_fuse` is mounted; as root

The calls are those of scripts/replay-on-linux.py, each made by a process with the caller's user and groups, of a random
script in a folder of its own. What docs/RULES.md says is no matter of Linux's is put right on the tmpfs, as there, and
what it tells of is left out, and which of two errors comes where the kernel itself asks the kind of a name that is to be
removed, before the server is asked; only the superuser sets file flags, as Linux has it. Prints each other difference, and
the counts; the status is 1 where there is one.
"""
import importlib.util
import random
import subprocess
import sys
import tempfile
from pathlib import Path

TOP = Path(__file__).resolve().parent.parent.parent
SPEC = importlib.util.spec_from_file_location("replay", TOP / "scripts" / "replay-on-linux.py")
replay = importlib.util.module_from_spec(SPEC)
SPEC.loader.exec_module(replay)


class Mounted(replay.Linux):
    """A tree on a mounted volume, where nothing is put right."""

    def put_right(self, path, user, mode):
        pass

    def clear_set_id(self, path):
        pass

    def keep_mode(self, path, mode):
        pass


def is_told(words, mounted, native):
    """Whether a page, or the text above, tells of this difference."""
    of_kind = words[0] in ("unlink", "rmdir") and mounted[1] in ("EISDIR", "ENOTDIR") and not native[0]
    return of_kind or replay.is_told(words, mounted, native)


def users_calls(lines):
    """The calls of a script's lines, with the caller of each."""
    caller = replay.Caller()
    for line in lines:
        words = line.split(" ")
        if words[0] == "as":
            caller.user, caller.groups = int(words[1]), [int(it) for it in words[2].split(",")]
        else:
            yield caller, line, words


def compare(lines, name, trees, counts):
    """Makes a script's calls in both trees, up to one that only one of them serves."""
    for number, (caller, line, words) in enumerate(users_calls(lines), 1):
        if words[0] == "chflags" and caller.user:
            continue
        mounted, native = (tree.call(caller, words, "ok") for tree in trees)
        if mounted is None or native is None:
            counts["left out"] += 1
            continue
        if words[0] not in ("stat", "read", "list"):
            mounted, native = ((told[0], None if told[0] else told[1]) for told in (mounted, native))
        kind = "agree" if mounted == native else "told" if is_told(words, mounted, native) else "differ"
        counts[kind] += 1
        if kind == "differ":
            print(f"{name}:{number}: {line[:60]} as {caller.user} {caller.groups}: mounted {replay.said(mounted)}, Linux {replay.said(native)}")
        if mounted[0] != native[0]:
            return


def main(words):
    folder = Path(words[0])
    count = int(words[1]) if len(words) > 1 else 40
    seed = int(words[2]) if len(words) > 2 else 1
    counts = dict.fromkeys(("agree", "told", "differ", "left out"), 0)
    with tempfile.TemporaryDirectory() as native:
        subprocess.run(["mount", "-t", "tmpfs", "-o", "mode=0755", "random", native], check=True)
        try:
            for number in range(seed, seed + count):
                tops = [Path(at) / f"random-{number}" for at in (folder, native)]
                for top in tops:
                    top.mkdir()
                trees = Mounted(str(tops[0])), replay.Linux(str(tops[1]))
                compare(replay.random_script(random.Random(number), 150), f"random-{number}", trees, counts)
        finally:
            subprocess.run(["umount", "-l", native], check=True)
    print(f"{count} scripts: {counts['agree']} answers agree, {counts['told']} differ as told, {counts['differ']} otherwise, {counts['left out']} calls left out")
    return 1 if counts["differ"] else 0


sys.exit(main(sys.argv[1:]))
