#!/usr/bin/env python3
"""Fills volumes by generated runs, and fails where one can't be emptied again.

full-volumes.py PROGRAM [COUNT [SEED [SHAPE]]] [--segments N] [--climb TRIES] [--share] makes COUNT runs (by default 1,000) by a
generator that SEED (by default 1) determines, of the shapes in turn, or of the one that is named. PROGRAM is a built
`lfsd` or `lfs_shell`. A run has 6 to 12 segments, or N, and goes on until most calls are refused: files of one block or a
few, also past the twelfth, are made and written, cut by a byte or a block, given other modes, removed, synced, with passes
of the cleaner between. In a shape `locked_..` all this is a user's, and then files and directories are locked, by him or by
the superuser. Behind it stand

- up to twelve rounds, each of an Unlink of each file, an Rmdir of each directory, a pass and a gain: they must leave an empty root;
  where files are locked, up to three rounds of the superuser's, in which all flags are taken away first;
- a fill: blocks are written until they are refused. As many must be served as in a volume in which the same names were
  made and removed, but for those of one segment, since the log may end anywhere in one.

A run that breaks one of these is wedged: its script is kept in a folder that is named at the end, and the status is 1.
With `--climb` there are COUNT searches instead, of one who wants the volume full for good: from a sequence of steps he goes
on to others, so many tries, behind which an administrator is refused no fewer calls, or as many and a round of passes gains
no more blocks. What he leaves must be empty in three rounds, at once and behind ten passes. PROGRAM is `lfs_shell` then.
With `--share` it is `lfs_shell`, too, whose volumes have a share.
For each shape a line says how many runs there were, how many rounds they took, and how many were wedged.
"""
import argparse
import collections
import functools
import os
import random
import subprocess
import sys
import tempfile
import time
from concurrent.futures import ThreadPoolExecutor

SECONDS = 1_800
ROUNDS = 12
# Most runs need no more, so these are tried first.
FEW_ROUNDS = 3
BLOCK = 512
# The most blocks of a file of a run: those that need no double indirect block.
MOST_BLOCKS = 140
DIRECT = 12
# The most bytes of the lines of a round.
ROUND_BYTES = 40_000
# The blocks of a segment behind its first summary.
SEGMENT = 63
# The lines of the cleaner's in a round.
CLEANING = {"pass", "gain"}
# What PROGRAM is told besides the sizes of a run.
OPTIONS = []


class Run:
    """The lines of one run, and the names in it."""

    def __init__(self, rng, segments=None):
        self.rng = rng
        self.lines = []
        self.files = []
        self.directories = []
        self.sizes = {}
        self.segments = segments or rng.randrange(6, 13)
        self.inodes = rng.choice([16, 32, 64, 64, 128, 128, 256, 512, 1024])
        self.frames = rng.choice([32, 64, 1024])
        self.locked = False
        self.caller = "as 0 0"

    def say(self, line):
        """A line of the caller's; a pass is the superuser's."""
        if line.startswith("as "):
            self.caller = line
        if line == "pass" and self.caller != "as 0 0":
            self.lines += ["as 0 0", line, self.caller]
        else:
            self.lines.append(line)

    def arguments(self):
        return ["--segments", str(self.segments), "--inodes", str(self.inodes), "--frames", str(self.frames),
                "--journal", "100000"]

    def file(self, path):
        """A file is made."""
        self.files.append(path)
        self.sizes[path] = 0
        self.say(f"create {path} 0644")

    def directory(self, path):
        self.directories.append(path)
        self.say(f"mkdir {path} 0755")

    def write(self, path, block):
        """One byte is written, which takes a block."""
        at = block * BLOCK + self.rng.randrange(BLOCK)
        self.sizes[path] = max(self.sizes.get(path, 0), at + 1)
        self.say(f"write {path} at {at} {self.rng.randrange(256):02x}")

    def cut(self, path):
        """The file loses its last byte."""
        size = self.sizes.get(path, 0)
        if size > 0:
            self.sizes[path] = size - 1
            self.say(f"length {path} {size - 1}")

    def shorten(self, path):
        """The file loses its last block."""
        blocks = -(-self.sizes.get(path, 0) // BLOCK)
        if blocks > 0:
            self.sizes[path] = (blocks - 1) * BLOCK
            self.say(f"length {path} {self.sizes[path]}")

    def chmod(self, path):
        self.say(f"chmod {path} {self.rng.choice(['0600', '0644', '0666', '0700'])}")

    def unlink(self, path):
        self.say(f"unlink {path}")

    def sometimes(self, line, chance):
        if self.rng.random() < chance:
            self.say(line)

    def any(self):
        return self.rng.choice(self.files)

    def names(self, length):
        """Names of so many bytes at least, for each number that is free, and no more than a script has room for."""
        count = min(self.inodes - 4, ROUND_BYTES // (length + 12))
        return [f"/{i:x}".ljust(length + 1, "n") for i in range(count)]


def first_block(rng, past):
    return rng.randrange(DIRECT, MOST_BLOCKS) if past else rng.randrange(DIRECT)


def filled(run, past, name_length, blocks, sync, passes):
    """Files are made and written until they are refused."""
    for name in run.names(name_length):
        run.file(name)
        for _ in range(run.rng.choice(blocks)):
            run.write(name, first_block(run.rng, past()))
        run.sometimes("sync", sync)
        run.sometimes("pass", passes)


def worn(run, count, kinds, sync, passes):
    """Cuts, Chmods and what else the kinds say, until they are refused."""
    for _ in range(count):
        path = run.any()
        kind = run.rng.choice(kinds)
        if kind == "cut":
            run.cut(path)
        elif kind == "shorten":
            run.shorten(path)
        elif kind == "chmod":
            run.chmod(path)
        elif kind == "unlink":
            run.unlink(path)
        elif kind == "make":
            run.say(f"create {path} 0644")
            run.sizes[path] = 0
        elif kind == "direct":
            run.write(path, run.rng.randrange(DIRECT))
        elif kind == "past":
            run.write(path, run.rng.randrange(DIRECT, MOST_BLOCKS))
        run.sometimes("sync", sync)
        run.sometimes("pass", passes)


def small_files(run):
    """Files of one or two blocks, then cuts and Chmods."""
    rng = run.rng
    filled(run, lambda: False, rng.choice([0, 0, 8, 60]), [1, 1, 2], rng.choice([0, 0.1, 0.5, 1]), 0)
    worn(run, 400, ["cut", "chmod"], rng.choice([0, 0.1, 1]), rng.choice([0, 0.01, 0.05]))


def past_the_twelfth(run):
    """Files of one or two blocks past the twelfth, then cuts and Chmods, passes between."""
    rng = run.rng
    filled(run, lambda: True, rng.choice([0, 0, 8, 60]), [1, 1, 2], rng.choice([0, 0.1, 0.5, 1]), rng.choice([0, 0.02]))
    worn(run, 400, ["cut", "chmod"], rng.choice([0, 0.1, 0.5, 1]), rng.choice([0, 0.01, 0.05]))


def records(run):
    """Empty files whose records are written over and over."""
    rng = run.rng
    filled(run, lambda: False, rng.choice([0, 8]), [0], rng.choice([0, 0.1]), 0)
    worn(run, 1200, ["chmod"], rng.choice([0.05, 0.2, 1]), rng.choice([0, 0.005, 0.02]))


def long_names(run):
    """A root of many blocks."""
    rng = run.rng
    filled(run, lambda: rng.random() < 0.3, rng.choice([120, 251, 254]), [0, 1, 1], rng.choice([0, 0.2, 1]),
           rng.choice([0, 0.02]))
    worn(run, 400, ["cut", "chmod", "direct"], rng.choice([0, 0.1, 0.5]), rng.choice([0, 0.02]))


def mixed(run):
    """All kinds of calls in turns."""
    rng = run.rng
    filled(run, lambda: rng.random() < 0.5, rng.choice([0, 8, 60, 200]), [0, 1, 2, 3, 8], rng.choice([0, 0.1, 0.5]),
           rng.choice([0, 0.02]))
    for _ in range(rng.randrange(1, 6)):
        kinds = rng.sample(["cut", "chmod", "unlink", "make", "direct", "past"], rng.randrange(1, 5))
        worn(run, rng.choice([50, 200, 400]), kinds, rng.choice([0, 0.05, 0.3, 1]), rng.choice([0, 0.01, 0.05]))


def removed_one_by_one(run):
    """A full volume in which files are removed with a Sync behind each, until they are refused, and made anew."""
    rng = run.rng
    past = rng.random() < 0.5
    filled(run, lambda: past, rng.choice([0, 8, 60, 200]), [1, 2, 4], rng.choice([0, 0.3]), 0)
    for _ in range(rng.randrange(1, 4)):
        worn(run, rng.choice([20, 60, 200]), ["unlink"], 1, rng.choice([0, 0.02, 0.1]))
        worn(run, rng.choice([50, 200]), ["make", "past" if past else "direct"], rng.choice([0, 0.5]),
             rng.choice([0, 0.02]))


def cut_one_by_one(run):
    """Cuts by a byte with a Sync behind each, until they are refused."""
    rng = run.rng
    share = rng.choice([0.2, 0.5, 0.8])
    filled(run, lambda: rng.random() < share, rng.choice([0, 8]), [1, 1, 2], rng.choice([0, 1]), rng.choice([0, 0.03]))
    worn(run, 300, ["cut"], rng.choice([0.3, 1]), rng.choice([0, 0.02, 0.1]))
    worn(run, 200, ["chmod", "direct"], rng.choice([0, 0.3, 1]), rng.choice([0, 0.02, 0.1]))
    worn(run, 200, ["cut", "chmod"], rng.choice([0, 0.3, 1]), rng.choice([0, 0.02, 0.1]))


def directories(run):
    """Files in directories, as many to each."""
    rng = run.rng
    count = rng.randrange(2, max(3, run.inodes // 4))
    for i in range(count):
        run.directory(f"/d{i}")
    length = rng.choice([0, 0, 60, 200])
    past = rng.random() < 0.5
    for i in range(min(run.inodes - 4 - count, ROUND_BYTES // (length + 20))):
        path = f"/d{rng.randrange(count)}/" + f"{i:x}".ljust(length, "n")
        run.file(path)
        for _ in range(rng.choice([0, 1, 1, 2])):
            run.write(path, first_block(rng, past))
        run.sometimes("sync", 0.1)
    worn(run, 300, ["cut", "chmod", "direct"], rng.choice([0, 0.1, 1]), rng.choice([0, 0.02]))


def rewritten(run):
    """Files of a block past the twelfth, each written anew at another place, in another order."""
    rng = run.rng
    for name in run.names(rng.choice([0, 0, 8])):
        run.file(name)
        run.write(name, first_block(rng, True))
        run.sometimes("sync", rng.choice([0, 0.05, 0.3]))
        run.sometimes("pass", 0.02)
    for _ in range(rng.choice([1, 3])):
        order = rng.sample(run.files, len(run.files))
        for path in order[:400]:
            run.write(path, DIRECT + rng.randrange(rng.choice([1, 2, 4, 100])))
            run.sometimes("sync", rng.choice([0, 0.1, 0.5]))
            run.sometimes("pass", 0.01)
    worn(run, 300, ["cut", "chmod", "past"], rng.choice([0.3, 1]), 0.03)


def unlinked_and_synced(run):
    """A full volume, then Unlink and Sync by turns, of files in any order, and some made anew."""
    rng = run.rng
    past = rng.random() < 0.5
    filled(run, lambda: past, rng.choice([0, 8, 60, 200, 251]), rng.choice([[0, 1], [1], [1, 2], [2, 4]]),
           rng.choice([0, 0.1, 1]), rng.choice([0, 0.02]))
    for _ in range(rng.randrange(1, 5)):
        order = rng.sample(run.files, len(run.files))
        often = rng.choice([0, 0.05, 0.2])
        for path in order[:rng.choice([10, 40, 100, 300])]:
            run.unlink(path)
            run.say("sync")
            run.sometimes("pass", often)
        for path in order[:rng.choice([10, 40, 100])]:
            run.say(f"create {path} 0644")
            run.sizes[path] = 0
            run.write(path, first_block(rng, past))
            run.sometimes("sync", 0.3)
        run.sometimes("pass", 0.7)


def all_modes(run):
    """The mode of every file is changed, in any order, most with a Sync behind."""
    rng = run.rng
    filled(run, lambda: rng.random() < 0.4, rng.choice([0, 8, 120]), rng.choice([[0], [0, 1], [1]]),
           rng.choice([0, 0.1, 1]), 0)
    for _ in range(rng.randrange(1, 5)):
        for path in rng.sample(run.files, len(run.files)):
            run.chmod(path)
            run.sometimes("sync", rng.choice([1, 1, 0.2]))
            run.sometimes("pass", 0.01)


def empty_files(run):
    """Many empty files of long names, whose records and blocks of names are written over and over."""
    rng = run.rng
    filled(run, lambda: False, rng.choice([120, 200, 251, 254]), [0], rng.choice([0, 0.1, 1]), 0.01)
    order = rng.sample(run.files, len(run.files))
    for path in order[:rng.choice([0, 50, 200])]:
        run.unlink(path) if rng.random() < 0.3 else run.chmod(path)
        run.say("sync")
        run.sometimes("pass", 0.05)
    for path in order:
        run.write(path, first_block(rng, False))
        run.sometimes("sync", 0.2)
    worn(run, 300, ["chmod", "cut", "unlink", "make", "direct", "past"], 0.5, 0.02)


def spread_files(run):
    """Files of many blocks, written in turns, so that a segment has blocks of many."""
    rng = run.rng
    for i in range(rng.randrange(2, max(3, min(30, run.inodes - 5)))):
        run.file(f"/b{i}")
    often = rng.choice([0, 0.05, 0.5])
    for _ in range(1500):
        run.write(run.any(), rng.randrange(MOST_BLOCKS))
        run.sometimes("sync", often)
        run.sometimes("pass", 0.005)
    worn(run, 300, ["cut", "chmod", "direct", "past"], rng.choice([0.2, 1]), rng.choice([0.01, 0.1]))


def long_runs(run):
    """All kinds of calls for long, with up to three passes between."""
    rng = run.rng
    filled(run, lambda: rng.random() < 0.5, rng.choice([0, 8, 60, 200]), [0, 1, 2, 3], rng.choice([0, 0.1, 0.5]),
           rng.choice([0, 0.02]))
    for _ in range(10):
        kinds = rng.sample(["cut", "chmod", "unlink", "make", "direct", "past", "past", "make"], rng.randrange(1, 6))
        worn(run, rng.choice([50, 150]), kinds, rng.choice([0, 0.05, 0.3, 1]), 0)
        for _ in range(rng.randrange(0, 4)):
            run.sometimes("pass", 0.7)


USER_FLAGS = ["2", "4", "6"]
SYSTEM_FLAGS = ["20000", "40000", "60000"]


def by_a_user(run):
    """The lines that follow are a user's, who may make names in the root."""
    run.locked = True
    run.say("chmod / 0777")
    run.say("as 7 7")
    run.say("create /own 0600")
    run.say("write /own at 0 61")


def locked(run, paths, flags, sync, passes):
    """These files and directories get flags, and some of them mode 0, in this order."""
    for path in paths:
        if run.rng.random() < 0.2:
            run.say(f"chmod {path} 0")
            run.sometimes("sync", sync)
        run.say(f"chflags {path} {run.rng.choice(flags)}")
        run.sometimes("sync", sync)
        run.sometimes("pass", passes)


def dense(run, files, blocks, begin=0, count=DIRECT, shuffled=False):
    """So many blocks of each file are written, in order or in any, so many to a Sync."""
    places = [(path, block) for path in files for block in range(begin, begin + count)]
    if shuffled:
        run.rng.shuffle(places)
    written(run, places, blocks)


def written(run, places, blocks):
    """These blocks of files are written, so many to a Sync."""
    for at in range(0, len(places), blocks):
        for path, block in places[at:at + blocks]:
            run.write(path, block)
        run.say("sync")


def cut_by_blocks(run):
    """Segments are written full by a user, and more behind passes; then his files are cut by a block or removed, with a Sync
    behind each, in an order in which segments lose as many: he spends what is left, and frees few blocks in one place."""
    rng = run.rng
    run.inodes = 1024
    by_a_user(run)
    run.directory("/d")
    count = rng.choice([DIRECT, DIRECT, DIRECT, 4, 24, 40])
    how = (rng.choice([8, 10, 15, 19, 19, 20, 21, 23]), rng.choice([0, 0, DIRECT]), count, rng.random() < 0.3)
    first, fills, more = run.segments * SEGMENT // count, rng.randrange(8), 96 // count
    for i in range(min(1000, first + fills * more)):
        run.file(f"/d/{i}")
    run.say("sync")
    files = list(run.files)
    dense(run, files[:first], *how)
    for fill in range(fills):
        for _ in range(rng.randrange(1, 4)):
            run.say("pass")
        dense(run, files[first + fill * more:][:more], *how)
    begin, end = sorted([rng.randrange(len(files) // 2), len(files) - 1 - rng.randrange(len(files) // 2)])
    removes = rng.choice([0, 0, 0.05, 1])
    for _ in range(rng.randrange(1, 5)):
        step = rng.choice([1, 3, 4, 5, 7])
        for path in [files[i] for first in range(step) for i in range(begin + first, end, step)]:
            run.unlink(path) if rng.random() < removes else run.shorten(path)
            run.say("sync")
        for _ in range(rng.choice([0, 0, 1, 3])):
            run.say("pass")


def written_by_turns(run):
    """Groups of files are written by turns past the twelfth block, so that eight blocks have as many indirect blocks; then the
    user cuts files by a block with a Sync behind each, of as many groups, and passes are made."""
    rng = run.rng
    run.inodes = 1024
    by_a_user(run)
    run.directory("/d")
    size, blocks = rng.choice([4, 5, 6, 7, 8, 8, 8, 9, 10, 11]), rng.choice([10, 12, 14, 15, 16, 16, 16, 18])
    count = rng.choice([2, 4, 4, 4, 5, 6, 8, 12])
    groups = min(run.segments * SEGMENT // (size * count) + 1, 900 // size)
    names = [[f"/d/{group * size + i}" for i in range(size)] for group in range(groups)]
    for name in sum(names, []):
        run.file(name)
    run.say("sync")
    places = [(name, DIRECT + block) for group in names for block in range(count) for name in group]
    fills = [places] if rng.random() < 0.7 else [places, [(name, block + count) for name, block in places[:10 * blocks]]]
    for at, places in enumerate(fills):
        for _ in range(at * rng.randrange(1, 4)):
            run.say("pass")
        written(run, places, blocks)
    spread = [group[i] for i in range(size) for group in names]
    order = spread if rng.random() < 0.7 else rng.sample(run.files, len(run.files))
    at = 0
    for _ in range(rng.randrange(1, 5)):
        for _ in range(rng.choice([5, 10, 15, 20, 25, 30, 40])):
            run.shorten(order[at % len(order)])
            run.sometimes("sync", 0.95)
            at += 1
        for _ in range(rng.choice([1, 1, 2, 3])):
            run.say("pass")


def directories_alone_locked(run):
    """Files in directories are written until they are refused, and the directories alone are locked, by a user or by the
    superuser; the files may be cut and written still."""
    rng = run.rng
    by_a_user(run)
    for i in range(rng.randrange(1, 6)):
        run.directory(f"/d{i}")
    for i in range(min(run.inodes - 10, 4 * run.segments)):
        run.file(f"{rng.choice(run.directories)}/{i}")
    files = list(run.files)
    dense(run, files, rng.choice([8, 19, 20, 23]))
    if rng.random() < 0.3:
        run.say("as 0 0")
    locked(run, run.directories, rng.choice([["2"], ["4"], USER_FLAGS]), rng.choice([0, 1]), rng.choice([0, 0.2]))
    run.say("as 7 7")
    worn(run, rng.choice([20, 100]), ["shorten", "cut", "direct", "past"], rng.choice([0.2, 1]), rng.choice([0, 0.02]))
    own_byte(run, rng.choice([10, 60]))


def own_byte(run, times):
    """The user writes a byte of a file of his and syncs it, until that is refused."""
    for _ in range(times):
        run.say(f"write /own at {run.rng.randrange(4) * BLOCK} 62")
        run.say("sync")


def all_locked(run):
    """Locks what a run left, by a user or by the superuser, and uses up what room is left."""
    rng = run.rng
    paths = list(dict.fromkeys(run.files)) + run.directories
    if rng.random() < 0.7:
        rng.shuffle(paths)
    if rng.random() < 0.5:
        paths = paths[:rng.randrange(1, len(paths) + 1)] if paths else []
    by_superuser = rng.random() < 0.3
    if by_superuser:
        run.say("as 0 0")
    flags = rng.choice([USER_FLAGS, ["2"], ["4"]])
    locked(run, paths, SYSTEM_FLAGS if by_superuser else flags, rng.choice([0, 0.1, 1]), rng.choice([0, 0, 0.05]))
    run.say("as 7 7")
    own_byte(run, rng.choice([10, 60, 150]))
    if rng.random() < 0.5:
        free = [path for path in dict.fromkeys(run.files) if path not in paths]
        for path in rng.sample(free, min(len(free), rng.choice([5, 30, 200]))):
            run.unlink(path)
            run.sometimes("sync", rng.choice([1, 1, 0.2]))
        own_byte(run, rng.choice([0, 40]))
    if rng.random() < 0.3:
        run.say("chflags / 2" if rng.random() < 0.2 else "chflags /own 2")
    for _ in range(rng.choice([0, 0, 1, 10])):
        run.say("pass")


def with_locks(shape):
    """A shape as a user's, behind which files and directories are locked."""
    def run_locked(run):
        by_a_user(run)
        shape(run)
        all_locked(run)
    run_locked.__name__ = "locked_" + shape.__name__
    return run_locked


def big_files_locked(run):
    """Some files are written 4,096 bytes at a time, one behind another or by turns, and locked with their directory."""
    rng = run.rng
    by_a_user(run)
    run.directory("/d")
    count = rng.randrange(1, 9)
    names = [f"/d/{i}" for i in range(count)]
    for name in names:
        run.file(name)
    places = {name: rng.choice([0, DIRECT, DIRECT, DIRECT + 4, 130, MOST_BLOCKS, 300]) for name in names}
    if rng.random() < 0.4:
        for name in names:
            places[name] = DIRECT
    writes = rng.randrange(24 * run.segments, 50 * run.segments + 1)
    turns = rng.choice([0, 0, 1, 4, 8])
    often = rng.choice([0, 0, 0.02, 0.2])
    for i in range(writes):
        name = names[i // turns % count] if turns else names[i * count // writes]
        run.write(name, places[name])
        places[name] += 1
        run.sometimes("sync", often)
    for _ in range(rng.choice([0, 0, 30, 100])):
        name = rng.choice(names)
        run.say(f"write {name} at {rng.randrange(max(1, run.sizes[name]))} 63")
        run.sometimes("sync", rng.choice([0.2, 1]))
    all_locked(run)


SHAPES = [small_files, past_the_twelfth, records, long_names, mixed, removed_one_by_one, cut_one_by_one, directories,
          rewritten, unlinked_and_synced, all_modes, empty_files, spread_files, long_runs]
SHAPES += [with_locks(shape) for shape in SHAPES] + [big_files_locked, cut_by_blocks, written_by_turns, directories_alone_locked]


def emptying(run):
    """A round: each file and each directory is removed, a pass is made, and room is gained where a segment is worth it."""
    lines = []
    if run.locked:
        lines += ["as 0 0", "unlink /own"]
        lines += [f"chflags {path} 0" for path in ["/", "/own"] + run.directories + list(dict.fromkeys(run.files))]
    lines += [f"unlink {path}" for path in dict.fromkeys(run.files)] + ["unlink /own"] * run.locked
    lines += [f"rmdir {path}" for path in run.directories]
    return lines + ["pass", "gain", "list /"]


def filling(run):
    """Blocks are written until they are refused."""
    lines = ["pass"] * max(4, run.segments // 2)
    for i in range(1 + run.segments * SEGMENT // MOST_BLOCKS):
        lines.append(f"create /fill{i} 0644")
        lines += [f"write /fill{i} at {block * BLOCK} 61" for block in range(MOST_BLOCKS)]
    return lines


def printed_by(program, run, lines):
    """The lines that the program prints."""
    text = "\n".join(lines) + "\n"
    done = subprocess.run([program, *run.arguments(), *OPTIONS], input=text.encode(), capture_output=True, timeout=SECONDS)
    if done.returncode != 0:
        raise RuntimeError(f"status {done.returncode}: {done.stderr[:200]}")
    return done.stdout.decode().split("\n")


def users_of(printed):
    """The answers to users' calls among these lines."""
    return [line for line in printed if line.startswith("0 ") and not line.startswith("0 cleaner ")]


def told(program, run, lines):
    """What the program prints of its users' calls, a line for each."""
    return users_of(printed_by(program, run, lines))


def calls(lines):
    """The lines that are users' calls."""
    return [line for line in lines if line not in CLEANING and not line.startswith("as ")]


def served(answers):
    return sum(answer == "0 ok" for answer in answers)


def fill_alone(program, run, lines):
    """How many calls of a fill are served behind these lines."""
    fill = filling(run)
    answers = told(program, run, lines + fill)
    return served(answers[-len(calls(fill)):])


@functools.lru_cache(maxsize=None)
def fresh_fill(program, segments):
    """How much a fresh volume takes."""
    return fill_alone(program, Run(random.Random(0), segments), [])


def fresh_named_fill(program, run):
    """How much a volume takes in which the names of a run were made and removed, with what blocks their directory has."""
    lines = [f"mkdir {path} 0755" for path in run.directories] + [f"create {path} 0644" for path in dict.fromkeys(run.files)]
    return fill_alone(program, run, lines + 2 * [line for line in emptying(run) if line != "list /"])


KINDS = ["write", "write", "over", "cut", "shorten", "shorten", "chmod", "lock", "unlock", "unlink", "make", "sync", "pass"]


def steps_made(rng, count):
    """Steps of one who wants the volume full: a kind, a file, a block, and how often in a row."""
    return [(rng.choice(KINDS), rng.randrange(1000), rng.randrange(MOST_BLOCKS), rng.choice([1, 1, 1, 4, 16, 64]))
            for _ in range(count)]


def stepped(segments, steps):
    """The run in which a user fills a volume and makes these steps."""
    run = Run(random.Random(0), segments)
    run.inodes, run.frames = 1024, 64
    by_a_user(run)
    run.directory("/d")
    count = segments * SEGMENT // DIRECT
    for name in range(count):
        run.file(f"/d/{name}")
    run.say("sync")
    dense(run, list(run.files), 19)
    for kind, file, block, times in steps:
        path = f"/d/{file % count}"
        for i in range(times):
            at = (block + i) % MOST_BLOCKS
            if kind == "write":
                run.write(path, at)
            elif kind == "over":
                run.write("/own", at % DIRECT)
                run.say("sync")
            elif kind == "cut":
                run.cut(path)
            elif kind == "shorten":
                run.shorten(f"/d/{(file + i) % count}")
                run.say("sync")
            elif kind == "chmod":
                run.chmod(f"/d/{(file + i) % count}")
            elif kind == "lock":
                run.say(f"chflags /d/{(file + i) % count} {2 + block % 3 * 2}")
            elif kind == "unlock":
                run.say(f"chflags /d/{(file + i) % count} 0")
            elif kind == "unlink":
                run.unlink(f"/d/{(file + i) % count}")
            elif kind == "make":
                run.say(f"create /d/{(file + i) % count} 0644")
            else:
                run.say(kind)
    for path in run.files + run.directories:
        run.say(f"chflags {path} 7")
    own_byte(run, 60)
    return run


def space_told(printed):
    """The blocks that can be written, by each map that is printed."""
    spaces, space = [], 0
    for line in printed:
        words = line.split()
        if line.startswith(" ") and len(words) > 1 and words[1] in ("clean", "active", "dirty"):
            space += SEGMENT if words[1] == "clean" else words[-1].count(".") if words[1] == "active" else 0
        elif line.startswith("waiting "):
            spaces.append(space)
            space = 0
    return spaces


def hindered(program, run):
    """How many calls of an administrator are refused who empties a volume behind three passes, and syncs each call, and how
    few blocks the passes gain: the more and the fewer, the nearer to a wedge."""
    probe = [line for call in emptying(run) if call not in CLEANING for line in (call, "sync")]
    printed = printed_by(program, run, run.lines + ["as 0 0", ".map", "pass", "pass", "pass", ".map"] + probe)
    answers = users_of(printed)
    before, behind = space_told(printed)
    refused = sum(answer == "0 refused NoSpace" for answer in answers[-len(calls(probe)):])
    return refused, before - behind


def climbed(program, seed, index, segments, tries):
    """The steps that a hill climb from a seed finds, of those that hinder an administrator most, and in which round he empties
    what they leave, at once and behind ten passes."""
    rng = random.Random(f"climb {seed} {index}")
    best = steps_made(rng, 60)
    most = hindered(program, stepped(segments, best))
    for _ in range(tries):
        steps = list(best)
        for _ in range(rng.choice([1, 2, 6])):
            steps[rng.randrange(len(steps))] = steps_made(rng, 1)[0]
        hinders = hindered(program, stepped(segments, steps))
        if hinders >= most:
            best, most = steps, hinders
    rounds = []
    for passes in (0, 10):
        run = stepped(segments, best)
        run.lines += ["pass"] * passes
        empty, _, _, lines = emptied(program, run, FEW_ROUNDS)
        rounds.append(empty)
    return index, segments, rounds, most, lines


def climb(program, count, seed, tries, segments):
    """Hill climbs of one who wants a volume full for good: each must leave one that is empty in three rounds."""
    with ThreadPoolExecutor(max(1, (os.cpu_count() or 2) // 2)) as pool:
        told_of = pool.map(lambda i: climbed(program, seed, i, segments, tries), range(count))
        wedged = 0
        for index, segments, rounds, most, lines in told_of:
            print(f"{index} climb: segments={segments} rounds={rounds} refused={most[0]} lost-by-passes={most[1]}", flush=True)
            if None in rounds:
                wedged += 1
                folder = tempfile.mkdtemp(prefix="full-")
                with open(os.path.join(folder, f"{index}-climb.lfs"), "w", encoding="ascii") as kept:
                    kept.write("\n".join(lines) + "\n")
                print(f"kept in {folder}")
    print(f"climbs={count} seed={seed} wedged={wedged}")
    sys.exit(wedged > 0)


def made(seed, index, shape, segments):
    run = Run(random.Random(f"{seed} {index}"), segments)
    shape(run)
    return run


def emptied(program, run, rounds):
    """In which of so many rounds behind a run its volume was empty, how many calls of a fill were served then, how many
    of the run were refused, and the lines."""
    fill = filling(run)
    lines = run.lines + emptying(run) * rounds + fill
    answers = told(program, run, lines)
    user = calls(lines)
    if len(user) != len(answers):
        raise RuntimeError(f"{len(answers)} answers to {len(user)} calls")
    refused = sum(answer == "0 refused NoSpace" for answer in answers[:len(calls(run.lines))])
    lists = [answer for line, answer in zip(user, answers) if line == "list /"]
    empty = lists.index("0 names") + 1 if "0 names" in lists else None
    return empty, served(answers[-len(calls(fill)):]), refused, lines


def tried(program, seed, index, shape, segments):
    """How many rounds it took to empty the run's volume, none where it was never empty; how many blocks less than a fresh
    one it then takes; how many calls were refused; and its lines."""
    run = made(seed, index, shape, segments)
    empty, filled_now, refused, lines = emptied(program, run, FEW_ROUNDS)
    less = fresh_fill(program, run.segments) - filled_now
    if empty is None or less > SEGMENT:
        empty, filled_now, refused, lines = emptied(program, run, FEW_ROUNDS if run.locked else ROUNDS)
        less = fresh_named_fill(program, run) - filled_now
    return index, run, empty, less, refused, lines


def main():
    parser = argparse.ArgumentParser(description=__doc__, formatter_class=argparse.RawDescriptionHelpFormatter)
    parser.add_argument("program", type=os.path.abspath)
    parser.add_argument("count", type=int, nargs="?", default=1_000)
    parser.add_argument("seed", nargs="?", default="1")
    parser.add_argument("shape", nargs="?", choices=[it.__name__ for it in SHAPES])
    parser.add_argument("--climb", type=int, metavar="TRIES", help="COUNT hill climbs of so many tries, by one who wants it full")
    parser.add_argument("--share", action="append_const", dest="options", const="--share", help="volumes that have a share")
    parser.add_argument("--segments", type=int, metavar="N", help="how many segments each run has; a hill climb by default 6")
    asked = parser.parse_args()
    program, count, seed = asked.program, asked.count, asked.seed
    OPTIONS.extend(asked.options or [])
    if asked.climb is not None:
        climb(program, count, seed, asked.climb, asked.segments or 6)
    shapes = [it for it in SHAPES if asked.shape in (None, it.__name__)]
    start = time.monotonic()
    runs, wedged, most, less_most, refusals = (collections.Counter() for _ in range(5))
    folder = None
    shape_of = lambda index: shapes[index % len(shapes)]
    with ThreadPoolExecutor(max(1, (os.cpu_count() or 2) // 2)) as pool:
        for index, run, rounds, less, refused, lines in pool.map(
                lambda i: tried(program, seed, i, shape_of(i), asked.segments), range(count)):
            name = shape_of(index).__name__
            runs[name] += 1
            refusals[name] += refused > 0
            most[name] = max(most[name], rounds or 0)
            less_most[name] = max(less_most[name], less)
            if rounds is None or less > SEGMENT:
                wedged[name] += 1
                folder = folder or tempfile.mkdtemp(prefix="full-")
                with open(os.path.join(folder, f"{index}-{name}.lfs"), "w", encoding="ascii") as kept:
                    kept.write("\n".join(lines) + "\n")
                what = "never empty" if rounds is None else f"takes {less} blocks less than a fresh one"
                print(f"{index} {name}: {what}; {' '.join(run.arguments())}", flush=True)
    for shape in shapes:
        name = shape.__name__
        print(f"{name}: runs={runs[name]} refused-in={refusals[name]} rounds-at-most={most[name]} "
              f"blocks-less-at-most={less_most[name]} wedged={wedged[name]}")
    print(f"runs={count} seed={seed} wedged={sum(wedged.values())} seconds={time.monotonic() - start:.0f}")
    if folder:
        sys.exit(f"kept in {folder}")


if __name__ == "__main__":
    main()
