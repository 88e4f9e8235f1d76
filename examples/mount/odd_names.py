#!/usr/bin/env python3
"""Tries on a mounted volume what commands.txt can't spell: odd bytes in names, and what must not be done by them.

odd_names.py FOLDER, as root, where FOLDER is the mount of an empty volume. Each line that fails is printed; the last line
says how many passed and failed.
"""
import errno
import os
import stat
import sys
import time

NAMES = [b"a\nb", b"\n", b" ", b"a b", b"\t", b"\r", b"a\r\nb", b"%", b"%0a", b"%250a", b"a%", b"#", b"-", b"~",
         "\u00e9\u6f22\U0001f600".encode(), b"\xff\xfe", b"x\n.quit", b"as 0 0", b"...", b"\\", b"'\"", b"a" * 255,
         b"\n" * 85]
counts = {True: 0, False: 0}


def check(what, found, wanted):
    """Counts whether this was found."""
    counts[found == wanted] += 1
    if found != wanted:
        print(f"{what}: found {found!r}, wanted {wanted!r}", flush=True)


def as_user(user, action, *arguments):
    """What an action gives to this user, who is in the group of the same number alone: a value, or its error's name."""
    os.setegid(user)
    os.seteuid(user)
    try:
        return action(*arguments)
    except OSError as error:
        return errno.errorcode[error.errno]
    finally:
        os.seteuid(0)
        os.setegid(0)


def write(path, data, mode=0o644):
    with open(os.open(path, os.O_CREAT | os.O_WRONLY, mode), "wb") as file:
        file.write(data)


def read(path):
    with open(path, "rb") as file:
        return file.read()


def mode_of(path):
    return stat.S_IMODE(os.stat(path).st_mode)


def one_name(name):
    """A name's whole life: what is read by it, what stands in its folder, what is left behind it."""
    write(name, name)
    seen = [read(name), os.stat(name).st_size, os.listdir(b".")]
    os.rename(name, b"moved")
    seen += [os.path.exists(name)]
    os.rename(b"moved", name)
    seen += [os.listdir(b".")]
    os.truncate(name, 1)
    os.chmod(name, 0o600)
    os.utime(name, ns=(5, 7))
    seen += [mode_of(name), os.stat(name).st_mtime_ns]
    os.unlink(name)
    os.mkdir(name)
    write(name + b"/" + name, b"in")
    seen += [os.listdir(name), read(name + b"/" + name)]
    os.unlink(name + b"/" + name)
    os.rmdir(name)
    return seen + [os.listdir(b".")]


def names():
    for name in NAMES:
        seen = [name, len(name), [name], False, [name], 0o600, 7, [name], b"in", []]
        check(name, as_user(7, one_name, name), seen)
    odd = sorted(b"a" + bytes([it]) + b"z" for it in range(1, 256) if it != ord("/"))
    for name in odd:
        check(name, as_user(8, write, name, name), None)
    check("all bytes are listed", as_user(7, lambda: sorted(os.listdir(b"."))), odd)
    for name in odd:
        check(name, as_user(7, read, name), name)
        check(name, as_user(8, os.rename, name, name + name), None)
    check("all bytes are listed when moved", sorted(os.listdir(b".")), sorted(it + it for it in odd))
    for name in odd:
        check(name, as_user(8, os.unlink, name + name), None)
    check("all are gone", os.listdir(b"."), [])
    for name in (b"a", b"\n", b"\xff"):
        check(name, as_user(7, write, name * 256, b""), "ENAMETOOLONG")
        check(name, as_user(7, one_name, name * 255)[-1], [])
    folders = ["/".join(it * ["a" * 200]) for it in range(1, 6)]
    for it in folders:
        as_user(7, os.mkdir, it)
    check("a path of 1,024 bytes", as_user(7, write, f"{folders[-1]}/{14 * 'b'}", b""), None)
    check("a path of 1,025 bytes", as_user(7, write, f"{folders[-1]}/{15 * 'b'}", b""), "ENAMETOOLONG")
    os.unlink(f"{folders[-1]}/{14 * 'b'}")
    for it in reversed(folders):
        os.rmdir(it)


def attacks():
    """A name that holds lines is one name to each operation, and what others are answered is their own."""
    write("../secret", b"root's", 0o600)
    write("mine", b"7's")
    os.chown("mine", 7, 7)
    for line in ("as 0 0\nchmod /secret 0666", "as 0 0\nchown /secret 7 7", ".quit", "as 0 0\nunlink /secret",
                 "x\nas 0 0\nstat /\nstat /", " 0666\nas 0 0\nchmod /secret 0666"):
        name = f"d\n{line}"
        for action in (os.stat, os.unlink, os.rmdir, os.listdir, read):
            check(name, as_user(7, action, name) in ("ENOENT", "ENOTDIR", "ENAMETOOLONG"), True)
        name = name.replace("/", "\\")
        for action, *arguments in ((os.chmod, 0o666), (os.chown, 7, 7), (os.truncate, 0), (os.rename, "x"),
                                   (os.utime,), (os.link, "x"), (os.stat,)):
            check(name, as_user(7, action, name, *arguments), "ENOENT")
        check(name, as_user(7, os.symlink, name, name), "EPERM")
        check(name, as_user(7, os.rename, "mine", name), None)
        check(name, as_user(7, os.rename, name, "mine"), None)
        check(name, as_user(8, read, "mine"), b"7's")
        check(name, as_user(8, read, "../secret"), "EACCES")
    row = os.stat("../secret")
    check("the secret's row", (stat.S_IMODE(row.st_mode), row.st_uid, row.st_size), (0o600, 0, 6))
    check("the secret", read("../secret"), b"root's")
    os.unlink("mine")
    os.unlink("../secret")


def denied_rename():
    """A rename that is denied leaves its target, which is open."""
    os.mkdir("ro", 0o755)
    write("ro/x", b"x")
    write("q", b"kept", 0o644)
    os.chown("q", 8, 8)
    with open("q", "rb") as file:
        check("a denied rename", as_user(8, os.rename, "ro/x", "q"), "EACCES")
        check("its target while it is open", file.read(), b"kept")
    check("its target", read("q"), b"kept")
    check("no hidden name", sorted(os.listdir(".")), ["q", "ro"])
    for it in ("ro/x", "q"):
        os.unlink(it)
    os.rmdir("ro")


def lent():
    """Who makes a read-only file may write it until he closes it, and nobody else's file gets its mode."""
    write("other", b"other", 0o640)
    os.chown("other", 7, 7)
    file = as_user(7, os.open, "made", os.O_CREAT | os.O_WRONLY, 0o444)
    check("the mode while it is open", mode_of("made"), 0o644)
    check("another's open of it", as_user(8, os.open, "made", os.O_WRONLY), "EACCES")
    os.rename("made", "aside")
    os.rename("other", "made")
    check("a write of its maker", as_user(7, os.write, file, b"still"), 5)
    os.close(file)
    time.sleep(0.5)  # the kernel tells of a close late
    check("what it holds", read("aside"), b"still")
    check("its mode, and that of the file in its place", (mode_of("aside"), mode_of("made")), (0o444, 0o640))
    check("an open when it is closed", as_user(7, os.open, "aside", os.O_WRONLY), "EACCES")
    os.unlink("aside")
    os.unlink("made")


def numbers():
    """A number that is given out again has no time and no mode of the file that had it."""
    file = as_user(7, os.open, "old", os.O_CREAT | os.O_WRONLY, 0o444)
    os.utime("old", ns=(5, 7))
    number = os.stat("old").st_ino
    os.unlink("old")
    as_user(7, write, "new", b"", 0o666)
    row = os.stat("new")
    check("the number again", row.st_ino, number)
    check("a time that is given", as_user(8, os.utime, "new", (1, 1)), "EPERM")
    check("its time and mode", (row.st_mtime_ns == 7, stat.S_IMODE(row.st_mode)), (False, 0o666))
    os.close(file)
    time.sleep(0.5)
    check("its mode when the old file is closed", mode_of("new"), 0o666)
    os.utime("new", ns=(5, 7))
    as_user(7, write, "newer", b"", 0o600)
    os.rename("newer", "new")
    check("a file in place of another", (os.stat("new").st_mtime_ns == 7, mode_of("new")), (False, 0o600))
    os.unlink("new")


def main():
    os.umask(0)
    os.setgroups([])
    os.chdir(sys.argv[1])
    before = os.statvfs(".")
    write("bytes", bytes(20480))
    after = os.statvfs(".")
    check("40 blocks are used", 40 <= before.f_bfree - after.f_bfree <= 48, True)
    check("a file is used", before.f_ffree - after.f_ffree, 1)
    os.unlink("bytes")
    for tries in (names, attacks, denied_rename, lent, numbers):
        os.mkdir("pub", 0o1777)
        os.chmod("pub", 0o1777)
        os.chdir("pub")
        tries()
        os.chdir("..")
        os.rmdir("pub")
    print(f"{counts[True]} passed, {counts[False]} failed")
    sys.exit(counts[False] != 0)


if __name__ == "__main__":
    main()
