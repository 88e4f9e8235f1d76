#!/usr/bin/env python3
"""Makes POSIX file calls by four users in a folder, and compares each answer with what is written here.

  posix_calls.py FOLDER [FAMILY ..]     as root; FOLDER is on any file system, as a mount of `lfs_fuse` or a tmpfs

The users are the superuser, the owner of what is tried, one who is in its group by a supplementary group, and anybody
else. What is wanted is what POSIX or Linux says; where a mount of `lfs_fuse` differs, `Differs` has both answers and the
page that tells of it, and the file system of FOLDER decides which is wanted. Prints each check that fails in one line, and
the counts; the status is 1 where one failed. What was made is removed.
"""
import fcntl
import mmap
import os
import shutil
import socket
import stat
import subprocess
import sys
import tempfile
import time

from checks import (APPEND, EXCHANGE, IMMUTABLE, MEMBER, NAMED, NODUMP, NOREPLACE, NOW, OMIT, OTHER, OWNER, ROOT, USERS, Differs, User, check,
                    done, each, each_of, fills, give, make_file, make_folder, make_tree, makes, may, meanwhile, names_in, on, prints, reads,
                    remove_all, renames_by, rows, set_flags, sets_times, shows, writes)

MOST_BYTES = 8_460_288  # of a file of a mount
MOST_PATH = 1_024  # bytes of a path from the top of a mount
LATE = 0.05  # seconds in which the kernel has told of a close


# The families of checks. Each begins in an empty folder of the owner's, which all may search.

def classes():
    """Which class of a mode judges whom, by access(2) and by a call of each right."""
    table = """
        mode  root owner member other
        0000  rw-  ---   ---    ---
        0400  rw-  r--   ---    ---
        0200  rw-  -w-   ---    ---
        0100  rwx  --x   ---    ---
        0300  rwx  -wx   ---    ---
        0050  rwx  ---   r-x    ---
        0030  rwx  ---   -wx    ---
        0004  rw-  ---   ---    r--
        0001  rwx  ---   ---    --x
        0640  rw-  rw-   r--    ---
        0604  rw-  rw-   ---    r--
        0755  rwx  rwx   r-x    r-x
        0077  rwx  ---   rwx    rwx
        0707  rwx  rwx   ---    rwx
        0773  rwx  rwx   rwx    -wx
    """
    def granted(right, rights, wanted="ok"):
        return [wanted if set(right) <= set(it) else "EACCES" for it in rights]

    for mode, *rights in rows(table):
        make_tree("file", "folder/", "folder/in")
        os.chmod("file", int(mode, 8))
        os.chmod("folder", int(mode, 8))
        yield from each(rights, may, "file", "rwx")
        yield from each(granted("r", rights, b"0123456789"), reads, "file")
        yield from each(granted("w", rights), on, "file", "WRONLY|APPEND")
        yield from each(granted("rw", rights), on, "file", "RDWR")
        rights[0] = "rwx"
        yield from each(rights, may, "folder", "rwx")
        yield from each(granted("r", rights, ["in"]), names_in, "folder")
        yield from each(granted("wx", rights), makes, "folder/new")
        yield from each(granted("x", rights, 10), shows, "folder/in", "size")


def opening():
    """open(2) with each flag, of each kind of path."""
    table = """
        flags                    missing  file     folder  folder/  file/    file/in  missing/in
        RDONLY                   ENOENT   ok       ok      ok       ENOTDIR  ENOTDIR  ENOENT
        WRONLY                   ENOENT   ok       EISDIR  EISDIR   ENOTDIR  ENOTDIR  ENOENT
        RDWR                     ENOENT   ok       EISDIR  EISDIR   ENOTDIR  ENOTDIR  ENOENT
        WRONLY|APPEND            ENOENT   ok       EISDIR  EISDIR   ENOTDIR  ENOTDIR  ENOENT
        WRONLY|TRUNC             ENOENT   ok       EISDIR  EISDIR   ENOTDIR  ENOTDIR  ENOENT
        RDONLY|DIRECTORY         ENOENT   ENOTDIR  ok      ok       ENOTDIR  ENOTDIR  ENOENT
        RDONLY|NOFOLLOW          ENOENT   ok       ok      ok       ENOTDIR  ENOTDIR  ENOENT
        RDONLY|CLOEXEC|NONBLOCK  ENOENT   ok       ok      ok       ENOTDIR  ENOTDIR  ENOENT
        RDWR|SYNC|DIRECT         ENOENT   ok       EISDIR  EISDIR   ENOTDIR  ENOTDIR  ENOENT
        PATH                     ENOENT   ok       ok      ok       ENOTDIR  ENOTDIR  ENOENT
        RDONLY|CREAT             ok       ok       EISDIR  EISDIR   EISDIR   ENOTDIR  ENOENT
        WRONLY|CREAT             ok       ok       EISDIR  EISDIR   EISDIR   ENOTDIR  ENOENT
        RDWR|CREAT|TRUNC         ok       ok       EISDIR  EISDIR   EISDIR   ENOTDIR  ENOENT
        RDWR|CREAT|EXCL          ok       EEXIST   EEXIST  EISDIR   EISDIR   ENOTDIR  ENOENT
        RDONLY|CREAT|DIRECTORY   EINVAL   EINVAL   EINVAL  EINVAL   EINVAL   EINVAL   EINVAL
    """
    yield from each_of(table, ("file", "folder/"), lambda flags, path: (on, (path, flags)))
    make_tree("file")
    yield from each(["ok", "ok", "EPERM", "EPERM"], on, "file", "RDONLY|NOATIME")
    yield from each(["EEXIST"] * 4, on, "file", "CREAT|EXCL|WRONLY")
    yield from each(["ok", "ok", "EACCES", "EACCES"], on, "file", "WRONLY|CREAT")
    yield from each(["ok", "ok", "EACCES", "EACCES"], makes, "new")
    yield from each([b"", b"", "EACCES", "EACCES"], done, (on, "file", "WRONLY|TRUNC"), (reads, "file"))
    make_file("file", 0o444)
    yield from each([b"", "EACCES", "EACCES", "EACCES"], done, (on, "file", "RDONLY|TRUNC"), (reads, "file"))
    yield check(OWNER, Differs("ok", "ENOTSUP", "RULES, a mount: O_TMPFILE"), on, ".", "TMPFILE|WRONLY")
    yield check(OWNER, ["0000", 3], done, (fills, "made", 0), (time.sleep, LATE), (shows, "made", "mode", "size"))
    yield check(OWNER, "EACCES", on, "made", "WRONLY")


def new_rows():
    """The mode, owner and group of what is made, under a mask."""
    def made(name, mode, mask):
        os.umask(mask)
        if name == "folder":
            os.mkdir(name, mode)
        else:
            os.close(os.open(name, os.O_CREAT | os.O_EXCL | os.O_WRONLY, mode))
        time.sleep(LATE)
        return shows(name, "mode", "uid", "gid")

    table = """
        name    mode  mask  wanted
        file    666   022   0644
        file    777   000   0777
        file    1777  077   1700
        file    600   777   0000
        file    6755  000   6755
        folder  777   022   0755
        folder  1777  000   1777
        folder  700   700   0000
        folder  7755  000   1755
    """
    for name, mode, mask, wanted in rows(table):
        make_tree()
        yield check(OWNER, [wanted, 7, 7], made, name, int(mode, 8), int(mask, 8))
    for user in (ROOT, MEMBER, OTHER):
        for name in ("file", "folder"):
            make_tree()
            os.chmod(".", 0o777)
            linux, mounted = (["0640", user.number, group] for group in (user.groups[0], 7))
            yield check(user, Differs(linux, mounted, "RULES, new rows: group"), made, name, 0o666, 0o27)
    inherits = Differs(["2755", 9, 7], ["0755", 9, 7], "RULES, new rows: set-id bits")
    for name, mode, wanted in (("file", 0o666, ["0644", 9, 7]), ("folder", 0o777, inherits), ("file", 0o2755, ["0755", 9, 7])):
        make_tree()
        os.chmod(".", 0o2777)
        yield check(OTHER, wanted, made, name, mode, 0o22)


def names():
    """Names of 255 and 256 bytes, none, dots, slashes at the end, and paths through what is no folder."""
    longest, longer = "n" * 255, "n" * 256
    uses = {"look": (os.stat,), "rmdir": (os.rmdir,), "unlink": (os.unlink,), "mkdir": (os.mkdir,), "chmod": (os.chmod, 0o755),
            "list": (os.listdir,), "rename": (os.rename, "to"), "open": (on, "RDONLY"), "cut": (os.truncate, 0), "times": (os.utime,),
            "chown": (os.chown, 7, 7)}
    for use, (call, *words) in uses.items():
        if use != "mkdir":
            yield check(OWNER, "ENOENT", call, longest, *words)
        yield check(OWNER, "ENAMETOOLONG", call, longer, *words)
        yield check(OWNER, "ENOENT", call, "", *words)
    for call, *words in ((on, "CREAT|WRONLY"), (os.mkdir,)):
        make_tree("file")
        yield check(OWNER, ["file", longest], done, (call, longest, *words), (names_in, "."))
        yield check(OWNER, "ENAMETOOLONG", call, longer, *words)
        yield check(OWNER, "ok", os.rename, longest, "m" * 255)
        yield check(OWNER, "ENAMETOOLONG", os.rename, "m" * 255, longer)
    table = """
        path         look     rmdir      unlink   mkdir    chmod    list     rename
        .            ok       EINVAL     EISDIR   EEXIST   ok       ok       EBUSY
        ..           ok       ENOTEMPTY  EISDIR   EEXIST   EPERM    ok       EBUSY
        folder/.     ok       EINVAL     EISDIR   EEXIST   ok       ok       EBUSY
        folder/..    ok       ENOTEMPTY  EISDIR   EEXIST   ok       ok       EBUSY
        folder//     ok       ok         EISDIR   EEXIST   ok       ok       ok
        file/        ENOTDIR  ENOTDIR    ENOTDIR  EEXIST   ENOTDIR  ENOTDIR  ENOTDIR
        file/.       ENOTDIR  ENOTDIR    ENOTDIR  ENOTDIR  ENOTDIR  ENOTDIR  ENOTDIR
        file/..      ENOTDIR  ENOTDIR    ENOTDIR  ENOTDIR  ENOTDIR  ENOTDIR  ENOTDIR
        file/in      ENOTDIR  ENOTDIR    ENOTDIR  ENOTDIR  ENOTDIR  ENOTDIR  ENOTDIR
        missing/     ENOENT   ENOENT     ENOENT   ok       ENOENT   ENOENT   ENOENT
        missing/.    ENOENT   ENOENT     ENOENT   ENOENT   ENOENT   ENOENT   ENOENT
        missing/..   ENOENT   ENOENT     ENOENT   ENOENT   ENOENT   ENOENT   ENOENT
        folder/in/x  ENOENT   ENOENT     ENOENT   ENOENT   ENOENT   ENOENT   ENOENT
    """
    yield from each_of(table, ("file", "folder/"), lambda path, use: (uses[use][0], (path, *uses[use][1:])))
    make_tree("file")
    yield check(OWNER, b"0123456789", reads, "./" * 2_045 + "file")
    yield check(OWNER, "ENAMETOOLONG", reads, "./" * 2_046 + "file")
    yield from deep_path()


def deep_path():
    """A path from the top of a mount has at most 1,024 bytes, whatever a call's own has."""
    top = os.getcwd()
    while not os.path.ismount(top):
        top = os.path.dirname(top)
    room = MOST_PATH - len(f"/{os.path.relpath('.', top)}/")
    folder = "/".join(["d" * 100] * (room // 101 - 1))
    for depth in range(100, len(folder) + 1, 101):
        make_folder(folder[:depth])
    last = room - len(folder) - 1
    yield check(OWNER, "ok", makes, f"{folder}/{'f' * last}")
    yield check(OWNER, Differs("ok", "ENAMETOOLONG", "RULES, a mount: paths"), makes, f"{folder}/{'f' * (last + 1)}")
    make_tree("closed/", "closed/in/", "closed/in/file")
    above = Differs(10, "EACCES", "RULES, a mount: paths, search")
    yield check(OWNER, above, done, (os.chdir, "closed/in"), (os.chmod, "..", 0), (shows, "file", "size"))


def making_and_removing():
    """mkdir, rmdir and unlink by kind and by user."""
    table = """
        call    missing  file     empty    full       full/in  file/in  missing/in
        mkdir   ok       EEXIST   EEXIST   EEXIST     EEXIST   ENOTDIR  ENOENT
        rmdir   ENOENT   ENOTDIR  ok       ENOTEMPTY  ENOTDIR  ENOTDIR  ENOENT
        unlink  ENOENT   ok       EISDIR   EISDIR     ok       ENOTDIR  ENOENT
    """
    tree = "file", "empty/", "full/", "full/in"
    yield from each_of(table, tree, lambda call, path: (getattr(os, call), (path,)))
    uses = [(os.mkdir, "new"), (makes, "made"), (os.unlink, "file"), (os.rmdir, "empty"), (os.unlink, "full/in")]
    for user, answer in zip(USERS, ("ok", "ok", "EACCES", "EACCES")):
        make_tree(*tree)
        for call, path in uses:
            yield check(user, answer, call, path)
        for call, path, error in ((os.mkdir, "full", "EEXIST"), (os.unlink, "none", "ENOENT"), (os.rmdir, "none", "ENOENT")):
            yield check(user, error, call, path)
    make_tree(*tree)
    os.chmod("full", 0o700)
    uses = [(os.stat,), (reads,), (os.unlink,), (os.rmdir,), (os.mkdir,), (os.chmod, 0), (os.truncate, 0), (os.rename, "x")]
    for user in (MEMBER, OTHER):
        for call, *words in uses:
            yield check(user, "EACCES", call, "full/in", *words)
            yield check(user, "EACCES", call, "full/missing", *words)
    yield check(OWNER, ["empty", "file"], done, (os.unlink, "full/in"), (os.rmdir, "full"), (names_in, "."))


def renames():
    """rename of each kind onto each kind."""
    table = """
        from      new      other    void     whole      full/new  void/    file/x   missing/x  .      void/..  new/
        missing   ENOENT   ENOENT   ENOENT   ENOENT     ENOENT    ENOENT   ENOTDIR  ENOENT     EBUSY  EBUSY    ENOENT
        file      ok       ok       EISDIR   EISDIR     ok        ENOTDIR  ENOTDIR  ENOENT     EBUSY  EBUSY    ENOTDIR
        empty     ok       ENOTDIR  ok       ENOTEMPTY  ok        ok       ENOTDIR  ENOENT     EBUSY  EBUSY    ok
        full      ok       ENOTDIR  ok       ENOTEMPTY  EINVAL    ok       ENOTDIR  ENOENT     EBUSY  EBUSY    ok
        full/in   ok       ok       EISDIR   EISDIR     ok        ENOTDIR  ENOTDIR  ENOENT     EBUSY  EBUSY    ENOTDIR
        whole/in  ok       ENOTDIR  ok       ENOTEMPTY  ok        ok       ENOTDIR  ENOENT     EBUSY  EBUSY    ok
        empty/    ok       ENOTDIR  ok       ENOTEMPTY  ok        ok       ENOTDIR  ENOENT     EBUSY  EBUSY    ok
        file/     ENOTDIR  ENOTDIR  ENOTDIR  ENOTDIR    ENOTDIR   ENOTDIR  ENOTDIR  ENOENT     EBUSY  EBUSY    ENOTDIR
    """
    tree = "file", "other", "empty/", "void/", "full/", "whole/", "full/in", "whole/in/"
    yield from each_of(table, tree, lambda source, target: (moves, (source, target)))
    others = """
        from      to            answer
        file      file          ok
        full      full          ok
        ./file    full/../file  ok
        full/in   full          ENOTEMPTY
        whole/in  whole         ENOTEMPTY
        full      full/in       EINVAL
        whole     whole/in/x    EINVAL
        whole     whole/in/x/y  ENOENT
    """
    for source, target, answer in rows(others):
        make_tree(*tree)
        yield check(OWNER, answer, os.rename, source, target)
    exchanged = Differs("ok", "EINVAL", "RULES, a mount: exchanges of names")
    for source, target, flags, answer in (
            ("file", "new", NOREPLACE, "ok"), ("file", "other", NOREPLACE, "EEXIST"), ("full", "void", NOREPLACE, "EEXIST"),
            ("missing", "new", NOREPLACE, "ENOENT"), ("file", "new", EXCHANGE, "ENOENT"), ("file", "new", 8, "EINVAL"),
            ("file", "other", NOREPLACE | EXCHANGE, "EINVAL"), ("file", "other", EXCHANGE, exchanged)):
        make_tree(*tree)
        yield check(OWNER, answer, renames_by, source, target, flags)


def moves(source, target):
    """Moves: the name is gone then, and the other leads to the same file."""
    before = os.stat(source).st_ino if os.path.exists(source) else None
    os.rename(source, target)
    if os.path.exists(source) or os.stat(target).st_ino != before:
        raise ValueError("the name stays, or leads to another file")


def renames_by_users():
    """Which modes a rename from one folder to another needs: both folders', and that of a folder that moves."""
    table = """
        left  right  moved  path    root  owner   member  other
        0777  0777   0777   file    ok    ok      ok      ok
        0777  0777   0777   folder  ok    ok      ok      ok
        0777  0777   0755   folder  ok    ok      EACCES  EACCES
        0777  0777   0555   folder  ok    EACCES  EACCES  EACCES
        0755  0777   0777   file    ok    ok      EACCES  EACCES
        0777  0755   0777   file    ok    ok      EACCES  EACCES
        0775  0770   0777   folder  ok    ok      ok      EACCES
        0555  0777   0777   file    ok    EACCES  EACCES  EACCES
        0777  0666   0777   file    ok    EACCES  EACCES  EACCES
        0333  0333   0000   file    ok    ok      ok      ok
    """
    for left, right, moved, path, *answers in rows(table):
        for user, answer in zip(USERS, answers):
            make_tree("left/", "right/", "left/file", "left/folder/")
            for it, mode in (("left/folder", moved), ("left", left), ("right", right)):
                os.chmod(it, int(mode, 8))
            yield check(user, answer, os.rename, f"left/{path}", f"right/{path}")
    for user in USERS:
        make_tree("left/", "left/folder/")
        os.chmod("left/folder", 0)
        os.chmod("left", 0o777)
        yield check(user, "ok", os.rename, "left/folder", "left/other")


def links():
    """Links and device files: a mount has none."""
    none = "RULES, a mount: links"
    make_tree("file", "folder/")
    for user in (ROOT, OWNER):
        for call, *words in ((os.link, "file"), (os.symlink, "file"), (os.mkfifo,), (socket.socket(socket.AF_UNIX).bind,)):
            yield check(user, Differs("ok", "EPERM", none), call, *words, f"{user.name}-{call.__name__}")
        yield check(user, "ok", os.mknod, f"{user.name}-file", stat.S_IFREG | 0o600)
    yield check(ROOT, Differs("ok", "EPERM", none), os.mknod, "device", stat.S_IFCHR | 0o600, os.makedev(1, 3))
    yield check(OWNER, "EPERM", os.mknod, "disk", stat.S_IFBLK | 0o600, os.makedev(1, 3))
    yield check(OWNER, "EPERM", os.mknod, "new", stat.S_IFDIR | 0o700)
    for call in (os.symlink, os.link):
        for target, error in (("folder", "EEXIST"), ("none/x", "ENOENT"), ("file/x", "ENOTDIR"), ("n" * 256, "ENAMETOOLONG")):
            yield check(OWNER, error, call, "file", target)
    yield check(OTHER, Differs("EACCES", "EPERM", none), os.symlink, "file", "x")
    yield check(OWNER, "ENOENT", os.link, "missing", "x")
    yield check(OWNER, "EPERM", os.link, "folder", "x")
    yield from each(["EEXIST"] * 4, os.mknod, "file", stat.S_IFREG | 0o600)
    yield check(OTHER, "EACCES", os.mknod, "x", stat.S_IFREG | 0o600)
    for path, error in (("file", "EINVAL"), ("folder", "EINVAL"), ("missing", "ENOENT")):
        yield from each([error] * 4, os.readlink, path)


def modes():
    """chmod: who may, and what he gets."""
    make_tree("file", "folder/")
    for path in ("file", "folder"):
        for mode in ("0640", "1777", "4711", "2755", "7777", "6000", "0000"):
            yield from each([mode, mode, "EPERM", "EPERM"], done, (os.chmod, path, int(mode, 8)), (shows, path, "mode"))
    give("file", 0o644, OWNER)
    yield from each(["0644", "0644", "EPERM", "EPERM"], on, "file", "RDONLY", (os.fchmod, 0o644), (meanwhile, shows, "file", "mode"))
    yield check(OWNER, "ENOENT", os.chmod, "missing", 0o600)
    yield check(OWNER, "ENOTDIR", os.chmod, "file/in", 0o600)
    make_file("far", owner=User("", 7, (9,)))
    far = Differs("0755", "2755", "RULES, O1 (Chmod): set-group-id")
    yield check(OWNER, far, done, (os.chmod, "far", 0o2755), (shows, "far", "mode"))
    yield check(ROOT, "2755", done, (os.chmod, "far", 0o2755), (shows, "far", "mode"))
    anew = "RULES, a mount: what an open file may do"
    for flags, call in (("RDONLY", (os.pread, 4, 0)), ("WRONLY", (os.pwrite, b"x", 0))):
        make_file("file")
        yield check(OWNER, Differs("ok", "EACCES", anew), on, "file", flags, (os.fchmod, 0), call)


def owners():
    """chown: who may give what to whom."""
    table = """
        user  group  root  owner  member  other
        7     7      ok    ok     EPERM   EPERM
        7     70     ok    ok     EPERM   EPERM
        7     8      ok    EPERM  EPERM   EPERM
        8     7      ok    EPERM  EPERM   EPERM
        9     9      ok    EPERM  EPERM   EPERM
        0     0      ok    EPERM  EPERM   EPERM
        -1    70     ok    ok     EPERM   EPERM
        -1    9      ok    EPERM  EPERM   EPERM
        8     -1     ok    EPERM  EPERM   EPERM
        7     -1     ok    ok     EPERM   EPERM
    """
    for path in ("file", "folder/"):
        make_tree(path)
        for user_given, group_given, *answers in rows(table):
            for user, answer in zip(USERS, answers):
                give(path, 0o644, OWNER)
                yield check(user, answer, os.chown, path, int(user_given), int(group_given))
    make_tree("file")
    highest = 2**32 - 2
    for user, group, wanted in ((8, 9, [8, 9]), (-1, -1, [8, 9]), (-1, 7, [8, 7]), (highest, highest, [highest, highest]), (7, 7, [7, 7])):
        yield check(ROOT, wanted, done, (os.chown, "file", user, group), (shows, "file", "uid", "gid"))
    yield check(OWNER, [7, 70], done, (on, "file", "RDONLY", (os.fchown, -1, 70)), (shows, "file", "uid", "gid"))
    yield check(OWNER, "ENOENT", os.chown, "missing", 7, 7)
    yield check(OWNER, "ENOTDIR", os.chown, "file/in", 7, 7)


def lengths():
    """truncate and ftruncate, at the bounds of files and blocks."""
    make_tree("file", "folder/")
    for length in (0, 1, 10, 511, 512, 513, 4_095, 4_096, 4_097, 131_072, 1_000_001, MOST_BYTES):
        yield check(OWNER, length, done, (os.truncate, "file", length), (shows, "file", "size"))
        yield check(OWNER, length, done, (os.truncate, "file", 7), (on, "file", "WRONLY", (os.ftruncate, length)), (shows, "file", "size"))
    for length in (MOST_BYTES + 1, 2**32):
        yield check(OWNER, Differs("ok", "EFBIG", "RULES, Z1"), os.truncate, "file", length)
    for path, length, error in (
            ("file", -1, "EINVAL"), ("folder", 0, "EISDIR"), ("missing", 0, "ENOENT"), ("file/in", 0, "ENOTDIR"), ("file/", 0, "ENOTDIR")):
        yield from each([error] * 4, os.truncate, path, length)
    for mode, *answers in ((0o644, "ok", "EACCES", "EACCES"), (0o464, "EACCES", "ok", "EACCES"), (0o446, "EACCES", "EACCES", "ok")):
        give("file", mode, OWNER)
        yield from each(["ok", *answers], os.truncate, "file", 4)
    os.chmod("file", 0o666)
    yield from each(["EINVAL"] * 4, on, "file", "RDONLY", (os.ftruncate, 1))
    make_file("file")
    yield check(OWNER, b"01234\0\0\0", done, (os.truncate, "file", 5), (os.truncate, "file", 8), (reads, "file"))
    yield check(OWNER, b"", done, (os.truncate, "file", 0), (reads, "file"))
    yield check(OWNER, bytes(5_000), done, (os.truncate, "file", 5_000), (reads, "file", 9_999))
    yield check(OWNER, b"\0\0\0y", done, (on, "file", "WRONLY|TRUNC", (os.write, b"xxx"), (os.ftruncate, 0), (os.write, b"y")), (reads, "file"))


def reading_and_writing():
    """read and write at the bounds of files, blocks, messages and of what a file may hold."""
    def keeps(size, place):
        data = bytes(it % 251 for it in range(size))
        written = writes("bytes", data, place, "CREAT|TRUNC|WRONLY")
        return written == size and reads("bytes", size + place + 1) == bytes(place) + data

    make_tree("file", "folder/")
    for count, place, wanted in ((10, 0, b"0123456789"), (11, 0, b"0123456789"), (1, 9, b"9"), (9, 9, b"9"), (1, 10, b""), (1, 11, b""),
                                 (5, 2**40, b""), (0, 3, b""), (1, -1, "EINVAL")):
        yield check(OTHER, wanted, reads, "file", count, place)
    yield check(OTHER, "EISDIR", reads, "folder")
    for flags, call in (("WRONLY", (os.read, 1)), ("RDONLY", (os.write, b"x")), ("PATH", (os.read, 1)), ("PATH", (os.fchmod, 0))):
        yield check(OWNER, "EBADF", on, "file", flags, call)
    yield check(OWNER, "EINVAL", writes, "file", b"x", -1)
    for place, data, wanted in ((0, b"", b"0123456789"), (100, b"", b"0123456789"), (0, b"ab", b"ab23456789"),
                                (9, b"cd", b"ab2345678cd"), (13, b"e", b"ab2345678cd\0\0e")):
        yield check(OWNER, wanted, done, (writes, "file", data, place), (reads, "file"))
    for size in (511, 512, 513, 4_095, 4_096, 4_097, 131_071, 131_072, 131_073, 1_048_577):
        for place in (0, 1, 511, 4_095):
            yield check(OWNER, True, keeps, size, place)
    yield check(OWNER, 1, writes, "bytes", b"x", MOST_BYTES - 1)
    yield check(OWNER, b"x", reads, "bytes", 9, MOST_BYTES - 1)
    for size, place, mounted in ((2, MOST_BYTES - 1, "EFBIG"), (1, MOST_BYTES, "EFBIG"), (1, 2**33, "EFBIG"), (8_192, MOST_BYTES - 4_096, 4_096)):
        yield check(OWNER, Differs(size, mounted, "RULES, Z1"), writes, "bytes", bytes(size), place)
    yield check(OWNER, "EINVAL", writes, "bytes", b"x", 2**63 - 1)


def appending_and_seeking():
    """O_APPEND, by whichever place and of two that are open; lseek from each end."""
    append = "WRONLY|APPEND"
    make_tree("file")
    for calls, wanted in (([(os.write, b"x")], b"0123456789x"), ([(os.pwrite, b"y", 0)], b"0123456789xy"),
                          ([(os.write, b"a"), (meanwhile, writes, "file", b"b", 0, append), (os.write, b"c")], b"0123456789xyabc"),
                          ([(os.lseek, 0, os.SEEK_SET), (os.write, b"z")], b"0123456789xyabcz")):
        yield check(OWNER, wanted, done, (on, "file", append, *calls), (reads, "file"))
    yield check(OWNER, 17, on, "file", append, (os.write, b"!"), (os.lseek, 0, os.SEEK_CUR))
    yield check(OWNER, 100_017, done, (on, "file", append, (os.write, bytes(100_000))), (shows, "file", "size"))
    yield check(OWNER, b"ab", done, (writes, "file", b"ab", 0, f"{append}|TRUNC"), (reads, "file"))
    make_file("file")
    for place, whence, wanted in (
            (7, os.SEEK_SET, 7), (1_000, os.SEEK_SET, 1_000), (-1, os.SEEK_SET, "EINVAL"), (2, os.SEEK_CUR, 5), (-3, os.SEEK_CUR, 0),
            (-4, os.SEEK_CUR, "EINVAL"), (0, os.SEEK_END, 10), (5, os.SEEK_END, 15), (-10, os.SEEK_END, 0), (-11, os.SEEK_END, "EINVAL"),
            (9, os.SEEK_DATA, 9), (10, os.SEEK_DATA, "ENXIO"), (0, os.SEEK_HOLE, 10), (10, os.SEEK_HOLE, "ENXIO"), (0, 9, "EINVAL")):
        yield check(OTHER, wanted, on, "file", "RDONLY", (os.read, 3), (os.lseek, place, whence))
    yield check(OTHER, b"3", on, "file", "RDONLY", (os.read, 3), (meanwhile, reads, "file", 5), (os.read, 1))
    yield check(OWNER, b"0123456789\0\0z", done, (on, "file", "WRONLY", (os.lseek, 2, os.SEEK_END), (os.write, b"z")), (reads, "file"))


def sticky():
    """Who takes a name out of a sticky folder: the superuser, its owner, and the owner of the thing."""
    table = """
        folder  thing   root  owner  member  other
        owner   owner   ok    ok     EPERM   EPERM
        owner   member  ok    ok     ok      EPERM
        root    owner   ok    ok     EPERM   EPERM
        root    member  ok    EPERM  ok      EPERM
        other   root    ok    EPERM  EPERM   ok
    """
    uses = [(os.unlink, "sticky/file"), (os.rmdir, "sticky/folder"), (os.rename, "sticky/file", "sticky/new"), (os.rename, "mine", "sticky/file")]
    for folder_of, thing_of, *answers in rows(table):
        for user, answer in zip(USERS, answers):
            for call, *words in uses:
                make_tree("sticky/", "sticky/file", "sticky/folder/", "mine")
                for path, of, mode in (("sticky", NAMED[folder_of], 0o1777), ("sticky/file", NAMED[thing_of], 0o666),
                                       ("sticky/folder", NAMED[thing_of], 0o777), ("mine", user, 0o666), (".", OWNER, 0o777)):
                    give(path, mode, of)
                yield check(user, answer, call, *words)
    yield from each(["ok"] * 4, makes, "sticky/made")


def set_ids():
    """What takes set-id bits away."""
    by_root = Differs("0777", "6777", "RULES, set-id bits: after the superuser's Chown")
    uses = {"write": (writes, "file"), "no bytes": (writes, "file", b""), "cut": (os.truncate, "file", 3), "group": (os.chown, "file", -1, 70),
            "same owner": (os.chown, "file", 7, 7), "read": (reads, "file"), "times": (os.utime, "file"), "rename": (os.rename, "file", "./file")}
    users = {"root": {"group": by_root, "same owner": by_root}, "owner": dict.fromkeys(("write", "cut", "group", "same owner"), "0777"),
             "member": {"write": "0777", "cut": "0777", "group": "EPERM", "same owner": "EPERM"},
             "other": {"write": "0777", "cut": "0777", "group": "EPERM", "same owner": "EPERM"}}
    for name, answers in users.items():
        for use, call in uses.items():
            make_tree("file")
            os.chmod(".", 0o777)
            os.chmod("file", 0o6777)
            yield check(NAMED[name], answers.get(use, "6777"), done, call, (shows, "file", "mode"))
    given = Differs("6777", "0777", "RULES, set-id bits: of files and directories")
    for user, call, wanted in ((OWNER, (os.chown, "folder", 7, 70), given), (ROOT, (os.chown, "folder", 7, 70), "6777"),
                               (OTHER, (makes, "folder/new"), "6777"), (OTHER, (os.mkdir, "folder/new"), "6777")):
        make_tree("folder/")
        os.chmod("folder", 0o6777)
        yield check(user, wanted, done, call, (shows, "folder", "mode"))


def removed_while_open():
    """A file that is removed, replaced or moved while it is open."""
    def size(file):
        row = os.fstat(file)
        return row.st_size, row.st_nlink, row.st_mtime_ns > 7

    def through(file, path, *calls):
        """Removes a file, and makes calls on it by another descriptor, with its flags; what is read by the first then."""
        other = os.open(path, os.O_RDWR)
        os.unlink(path)
        done(*((call, other, *words) for call, *words in calls))
        os.close(other)
        return os.pread(file, 100, 0)

    def temporary():
        with tempfile.TemporaryFile(dir=".", buffering=0) as file:
            file.write(b"abc" * 100000)
            file.seek(3)
            file.write(b"xyz")
            file.truncate(200000)
            file.seek(0)
            return file.read(9), os.fstat(file.fileno()).st_size

    gone = "RULES, a mount: an open file that is removed"
    kept = os.pread, os.fstat, os.pwrite, os.ftruncate
    for use, wanted in (((os.pread, 4, 0), b"0123"), ((os.pwrite, b"ab", 0), 2), ((os.ftruncate, 3), "ok"), ((os.fchmod, 0o600), "ok"),
                        ((os.fstat,), "ok")):
        for remove in ((os.unlink, "file"), (os.rename, "other", "file")):
            make_tree("file", "other")
            here = wanted if use[0] in kept else Differs(wanted, "ESTALE", gone)
            yield check(OWNER, here, on, "file", "RDWR", (meanwhile, *remove), use)
        make_tree("file")
        yield check(OWNER, wanted, on, "file", "RDWR", (meanwhile, os.rename, "file", "moved"), use)
    make_tree("file")
    yield check(OWNER, b"abc", on, "file", "RDWR", (meanwhile, os.unlink, "file"), (meanwhile, fills, "file", 0o600), (meanwhile, reads, "file"))
    remove, write = (meanwhile, os.unlink, "file"), (os.pwrite, b"abc", 8)
    for flags, calls, wanted in (("RDWR", (remove, write, (os.pread, 20, 0)), b"01234567abc"), ("RDWR", (remove, write, (size,)), (11, 0, True)),
                                 ("WRONLY", (remove, write, (size,)), (11, 0, True)), ("RDWR", (remove, write, (os.fsync,)), "ok"),
                                 ("RDWR", (remove, (os.ftruncate, 4), (os.pwrite, b"x", 6), (os.pread, 20, 0)), b"0123\0\0x"),
                                 ("RDWR|APPEND", (remove, (os.write, b"ab"), (os.pread, 20, 0)), b"0123456789ab"),
                                 ("RDONLY", (remove, write), "EBADF"),
                                 ("RDONLY", ((through, "file", (os.pwrite, b"ab", 0), (os.ftruncate, 5)),), b"ab234")):
        make_tree("file")
        yield check(OWNER, wanted, on, "file", flags, *calls)
    make_tree("file")
    yield check(OWNER, (b"abcxyzabc", 200000), temporary)


def times():
    """utimensat(2): who may set which times; and what sets the time of the last change."""
    def changes(path, call):
        os.utime(path, ns=(5, 7))
        done(call)
        return shows(path, "mtime_ns") != 7

    given, told = ((5, 7), (11, 13)), [5_000_000_007, 11_000_000_013]
    for mode, member, other in ((0o644, "EACCES", "EACCES"), (0o664, "ok", "EACCES"), (0o446, "EACCES", "ok"), (0, "EACCES", "EACCES")):
        make_tree("file")
        os.chmod("file", mode)
        yield from each(["ok", "ok", member, other], sets_times, "file")
        yield from each(["ok", "ok", member, other], sets_times, "file", (0, NOW), (0, NOW))
        yield from each(["ok", "ok", "EPERM", "EPERM"], sets_times, "file", (0, NOW), (0, OMIT))
        yield from each(["ok", "ok", "EPERM", "EPERM"], sets_times, "file", (0, OMIT), (0, NOW))
        yield from each([told, told, "EPERM", "EPERM"], done, (sets_times, "file", *given), (shows, "file", "atime_ns", "mtime_ns"))
    make_tree("file", "folder/")
    for path in ("file", "folder"):
        for change, wanted in (
                (((0, OMIT), (0, OMIT)), told), (((1, 0), (0, OMIT)), [10**9, told[1]]), (((0, OMIT), (2, 3)), [told[0], 2 * 10**9 + 3]),
                (((2**32, 0), (2**33, 0)), [2**32 * 10**9, 2**33 * 10**9]), (((0, 10**9), (0, 0)), "EINVAL")):
            yield check(OWNER, wanted, done, (sets_times, path, *given), (sets_times, path, *change), (shows, path, "atime_ns", "mtime_ns"))
    yield check(OWNER, "ENOENT", sets_times, "missing")
    yield check(OWNER, "ENOTDIR", sets_times, "file/in")
    for path, call, wanted in (
            ("file", (writes, "file"), True), ("file", (os.truncate, "file", 3), True), ("file", (os.chmod, "file", 0o600), False),
            ("file", (reads, "file"), False), ("file", (os.rename, "file", "./file"), False), ("folder", (makes, "folder/new"), True),
            ("folder", (os.mkdir, "folder/in"), True), ("folder", (os.rename, "folder/in", "folder/to"), True), ("folder", (writes, "file"), False),
            ("folder", (os.listdir, "folder"), False), ("folder", (os.rmdir, "folder/to"), True)):
        yield check(OWNER, wanted, changes, path, call)


def room():
    """statvfs(3): true numbers, before a file is made, while it is there, and once it is gone."""
    def sound(path):
        row = os.statvfs(path)
        return [0 < row.f_bsize, 0 < row.f_bavail <= row.f_bfree <= row.f_blocks, 0 < row.f_favail <= row.f_ffree < row.f_files, row.f_namemax]

    def takes(call, *words):
        """How many files a call makes, and how many tenths of a megabyte it takes."""
        before = os.statvfs(".")
        done((call, *words), (time.sleep, LATE))
        after = os.statvfs(".")
        return [before.f_ffree - after.f_ffree, (before.f_bfree - after.f_bfree) * before.f_frsize // 100_000]

    make_tree("folder/")
    yield from each([[True, True, True, 255]] * 4, sound, ".")
    yield check(OWNER, "ENOENT", os.statvfs, "missing")
    os.chmod("folder", 0)
    yield check(OTHER, "EACCES", os.statvfs, "folder/in")
    yield check(OWNER, [1, 10], takes, writes, "new", bytes(1_000_000), 0, "CREAT|WRONLY")
    yield check(OWNER, [0, 0], takes, reads, "new", 1_000_000)
    yield check(OWNER, True, lambda: 1_000_000 <= shows("new", "blocks") * 512 <= 1_100_000)
    yield check(OWNER, [-1, -11], takes, os.unlink, "new")


def listing():
    """A folder of many names, whole, and while it changes; names of any bytes."""
    def populates(folder, names_of_files):
        for name in names_of_files:
            fills(os.path.join(folder, name), 0o644)

    def removes_while_listing(folder):
        with os.scandir(folder) as entries:
            seen = [(entry.name, os.unlink(entry.path))[0] for entry in entries]
        return sorted(seen), os.listdir(folder)

    make_tree("many/", "odd/", "empty/")
    os.chmod("many", 0o777)
    many = [f"name-{it:04}-{'x' * (it % 60)}" for it in range(600)]
    odd = [b"\x01", b" ", b"a\n", b"as 0 0", "\u00e9".encode(), b"\xff"]
    yield from each([b".\n..\n"] * 4, prints, "/bin/ls", "-a", "empty")
    yield check(OTHER, "ok", populates, "many", many)
    yield from each([many] * 4, names_in, "many")
    yield check(OWNER, "ENOTEMPTY", os.rmdir, "many")
    yield check(OTHER, (many, []), removes_while_listing, "many")
    yield check(OWNER, odd, done, (populates, b"odd", odd), (names_in, b"odd"))
    yield check(OWNER, (odd, []), removes_while_listing, b"odd")


def flags():
    """chattr(1): who may set which flag, and what it forbids, also to the superuser."""
    for flag, owner in ((IMMUTABLE, "EPERM"), (APPEND, "EPERM"), (NODUMP, NODUMP), (IMMUTABLE | APPEND | NODUMP, "EPERM")):
        for path in ("file", "folder/"):
            for user, answer in zip(USERS, (flag, owner, "EPERM", "EPERM")):
                make_tree(path)
                yield check(user, answer, set_flags, path, flag)
    table = """
        path    call         immutable  append
        file    read         ok         ok
        file    write        EPERM      EPERM
        file    append       EPERM      ok
        file    cut          EPERM      EPERM
        file    append-cut   EPERM      EPERM
        file    mode         EPERM      EPERM
        file    owner        EPERM      EPERM
        file    time         EPERM      EPERM
        file    move         EPERM      EPERM
        file    remove       EPERM      EPERM
        file    replace      EPERM      EPERM
        folder  list         ok         ok
        folder  change-in    ok         ok
        folder  make-in      EPERM      ok
        folder  folder-in    EPERM      ok
        folder  enter        EPERM      ok
        folder  remove-in    EPERM      EPERM
        folder  leave        EPERM      EPERM
        folder  mode-of      EPERM      EPERM
        folder  remove-it    EPERM      EPERM
        folder  move-it      EPERM      EPERM
    """
    uses = {"read": (reads, "file"), "write": (on, "file", "WRONLY"), "append": (on, "file", "WRONLY|APPEND"), "cut": (os.truncate, "file", 0),
            "append-cut": (on, "file", "WRONLY|APPEND|TRUNC"), "mode": (os.chmod, "file", 0o600), "owner": (os.chown, "file", 7, 7),
            "time": (sets_times, "file", (1, 1), (1, 1)), "move": (os.rename, "file", "new"), "remove": (os.unlink, "file"),
            "replace": (os.rename, "folder/in", "file"), "list": (os.listdir, "folder"), "change-in": (writes, "folder/in"),
            "make-in": (on, "folder/new", "CREAT|WRONLY"), "folder-in": (os.mkdir, "folder/new"), "enter": (os.rename, "file", "folder/new"),
            "remove-in": (os.unlink, "folder/in"), "leave": (os.rename, "folder/in", "new"), "mode-of": (os.chmod, "folder", 0o700),
            "remove-it": (os.rmdir, "folder"), "move-it": (os.rename, "folder", "new")}
    for path, use, *answers in rows(table):
        for flag, answer in zip((IMMUTABLE, APPEND), answers):
            for user in (ROOT, OWNER):
                make_tree("file", "folder/", "folder/in")
                set_flags(path, flag)
                yield check(user, answer, *uses[use])
    for flag in (IMMUTABLE, APPEND):
        make_tree("file")
        set_flags("file", flag)
        for user, answer in ((OWNER, "EPERM"), (MEMBER, "EPERM"), (OTHER, "EPERM"), (ROOT, 0)):
            yield check(user, answer, set_flags, "file", 0)


def handles():
    """What is done with open files besides: fsync, locks, maps, copies, attributes."""
    def mapped(file, kind, access, data=b""):
        with mmap.mmap(file, 10, kind, access) as it:
            if data:
                it[:len(data)] = data
                it.flush()
            return it[:]

    def copied(file):
        return os.copy_file_range(file, file, 3, 0, 10)

    no_attributes = "RULES, a mount: extended attributes"
    lock, try_lock = fcntl.LOCK_EX, fcntl.LOCK_SH | fcntl.LOCK_NB
    for path, how, uses, wanted in (
            ("file", "RDWR", [(os.fsync,)], "ok"), ("file", "RDWR", [(os.fdatasync,)], "ok"), ("folder", "RDONLY", [(os.fsync,)], "ok"),
            ("file", "RDONLY", [(fcntl.flock, lock)], "ok"), ("file", "RDWR", [(fcntl.lockf, lock)], "ok"),
            ("file", "RDONLY", [(fcntl.flock, lock), (meanwhile, on, "file", "RDONLY", (fcntl.flock, try_lock))], "EAGAIN"),
            ("file", "RDONLY", [(mapped, mmap.MAP_PRIVATE, mmap.PROT_READ)], b"0123456789"),
            ("file", "RDWR", [(mapped, mmap.MAP_SHARED, mmap.PROT_READ | mmap.PROT_WRITE, b"AB"), (meanwhile, reads, "file")], b"AB23456789"),
            ("folder", "RDONLY", [(os.fchdir,), (meanwhile, names_in, ".")], ["in"]), ("file", "RDONLY", [(os.fchdir,)], "ENOTDIR"),
            ("file", "RDWR", [(os.posix_fallocate, 0, 20), (meanwhile, shows, "file", "size")], 20),
            ("file", "RDONLY", [(fcntl.ioctl, 0x1234, bytes(8))], "ENOTTY"),
            ("file", "RDWR", [(copied,), (meanwhile, reads, "file")], b"0123456789012"),
            ("file", "RDONLY", [(os.getxattr, "user.x")], Differs("ENODATA", "ENOTSUP", no_attributes)),
            ("file", "RDWR", [(os.setxattr, "user.x", b"1")], Differs("ok", "ENOTSUP", no_attributes)),
            ("file", "RDONLY", [(os.listxattr,)], Differs([], "ENOTSUP", no_attributes))):
        make_tree("file", "folder/", "folder/in")
        yield check(OWNER, wanted, on, path, how, *uses)


def running():
    """Who may run a program, and as whom it runs."""
    ran = b"run\n"
    unread = Differs(ran, "EACCES", "RULES, a mount: running a file")
    table = {0o755: [ran] * 4, 0o644: ["EACCES"] * 4, 0o700: [ran, ran, "EACCES", "EACCES"], 0o070: [ran, "EACCES", ran, "EACCES"],
             0o711: [ran, ran, unread, unread], 0o001: [ran, "EACCES", "EACCES", unread]}
    make_tree()
    shutil.copy("/bin/echo", "echo")
    shutil.copy("/usr/bin/id", "id")
    for mode, answers in table.items():
        give("echo", mode, OWNER)
        yield from each(answers, prints, "./echo", "run")
    for mode, told in ((0o6755, b"7\n"), (0o755, b"9\n")):
        give("id", mode, OWNER)
        yield check(OTHER, told, prints, "./id", "-u")
        yield check(OTHER, told, prints, "./id", "-g")
    make_file("script", 0o755, data=b"#!/bin/sh\necho run\n")
    yield from each([ran] * 4, prints, "./script")
    yield check(OWNER, "ENOENT", prints, "./missing")
    yield check(OWNER, "EACCES", prints, "./")


def groups():
    """A caller's groups: the first, and those beside it, of which a mount takes 15."""
    make_tree("file")
    os.chmod("file", 0o040)
    many = Differs("ok", "EACCES", "RULES, a mount: groups")
    for count, wanted in ((0, "ok"), (1, "ok"), (14, "ok"), (15, many)):
        yield check(User(f"one of {count + 2} groups", 9, (9, *range(100, 100 + count), 7)), wanted, reads, "file")
    yield check(User("one of other groups", 9, (9, *range(100, 115))), "EACCES", reads, "file")
    yield check(User("one of this group alone", 9, (7,)), "ok", reads, "file")


FAMILIES = (classes, opening, new_rows, names, making_and_removing, renames, renames_by_users, links, modes, owners, lengths, reading_and_writing,
            appending_and_seeking, sticky, set_ids, removed_while_open, times, room, listing, flags, handles, running, groups)


def try_family(family, top, mounted):
    """Makes the checks of a family in a folder of its own; how many passed and failed."""
    folder = os.path.join(top, family.__name__)
    make_folder(folder)
    os.chdir(folder)
    passed = failed = 0
    try:
        for it in family():
            failure = it.failure(mounted)
            passed, failed = passed + (not failure), failed + bool(failure)
            if failure:
                print(f"{family.__name__}: {failure}", flush=True)
    except OSError as error:
        failed += 1
        print(f"{family.__name__}: ends early, as what is needed is not there: {error}", flush=True)
    os.chdir(top)
    remove_all(folder)
    os.rmdir(folder)
    return passed, failed


def main(words):
    kind = subprocess.run(["stat", "-f", "-c", "%T", words[0]], check=True, capture_output=True, text=True).stdout
    top = tempfile.mkdtemp(prefix="posix-", dir=os.path.abspath(words[0]))
    os.umask(0)
    os.chmod(top, 0o755)
    try:
        counts = [try_family(it, top, kind.startswith("fuse")) for it in FAMILIES if not words[1:] or it.__name__ in words[1:]]
    finally:
        os.chdir("/")
        remove_all(top)
        os.rmdir(top)
    passed, failed = map(sum, zip(*counts))
    print(f"{passed} passed, {failed} failed")
    return 1 if failed else 0


if __name__ == "__main__":
    sys.exit(main(sys.argv[1:]))
