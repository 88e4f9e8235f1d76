#!/usr/bin/env python3
"""Writes an image to standard output, by docs/FORMATS.md alone: a volume of 6 segments and 16 inode numbers, at level 0,
whose root directory lists one file, `a`, with the five bytes of `hello`.

    python3 examples/image/image.py > volume.image
    lfs_check volume.image
"""
import struct
import sys

SEGMENTS, INODES, BLOCK, SEGMENT_BLOCKS = 6, 16, 512, 64
ROOT, FILE = 2, 4
DIRECTORY, PLAIN = 2, 1


def block(data):
    """These bytes, filled up to a block with zeros."""
    return data.ljust(BLOCK, b"\0")


def record(kind, number, owner, mode, size, address):
    """The record of a file at version 1 with one data block, which has this address."""
    head = struct.pack(">HHIIIIHHIQ", 2, kind, number, 1, owner, owner, mode, 0, 0, size)
    return (head + struct.pack(">I", address)).ljust(128, b"\0")


def summary(entries):
    """The summary at offset 1 of segment 0."""
    head = struct.pack(">4sIHHI", b"LFSS", 0, 1, len(entries), 0)
    return block(head + b"".join(struct.pack(">III", *entry) for entry in entries))


def log():
    """The blocks of segment 0 up to the log's end: the label, a summary, and what it names."""
    label = block(struct.pack(">4sII", b"LFS1", SEGMENTS, INODES))
    names = summary([(ROOT, 1, 0), (FILE, 1, 0), (0, 0, 0xFFFFFFFF)])
    listing = block(struct.pack(">IB", FILE, 1) + b"a")
    records = record(DIRECTORY, ROOT, 0, 0o755, BLOCK, 2) + record(PLAIN, FILE, 7, 0o644, 5, 3)
    return [label, names, listing, block(b"hello"), block(records)]


def ifile():
    """Segment 0 is active, with two blocks and two records alive; both records stand in block 4."""
    segments = [(2 * BLOCK + 2 * 128, 2)] + [(0, 0)] * (SEGMENTS - 1)
    rows = [(0, 0, 0, 0)] * INODES
    rows[ROOT], rows[FILE] = (4, 0, 1, 1), (4, 1, 1, 1)
    head = struct.pack(">4sII", b"LFIF", SEGMENTS, INODES)
    return head + b"".join(struct.pack(">II", *use) for use in segments) + b"".join(struct.pack(">IHHI", *row) for row in rows)


def image():
    """The head, the blocks, the ifile."""
    blocks = log()
    head = block(struct.pack(">4sIIIIII", b"LFSI", 1, SEGMENTS, INODES, 0, len(blocks), 1))
    blocks += [block(b"")] * (SEGMENTS * SEGMENT_BLOCKS - len(blocks))
    return head + b"".join(blocks) + ifile()


sys.stdout.buffer.write(image())
