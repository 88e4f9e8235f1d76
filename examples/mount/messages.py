#!/usr/bin/env python3
"""Writes a talk between a kernel and a file server: the messages, and the replies that they should have.

messages.py FOLDER writes FOLDER/stdin, the messages one behind the other, and FOLDER/stdout, the replies. Both are put
together from the structs of the FUSE protocol's fuse.h, and the replies from what open(2), stat(2), rename(2), chflags(2) and the like
say of a volume whose root is the superuser's, of mode 0755; new files have the group of their directory. The root is made at
second 0 of 1970, and each message comes a second behind the one before. No reply comes from a run of a program.
"""
import errno
import struct
import sys
from pathlib import Path

ROOT = 1
REGULAR, DIRECTORY = 0o100000, 0o040000
O_RDONLY, O_WRONLY, O_RDWR, TO_RUN, O_TRUNC, O_APPEND = 0, 1, 2, 0o40, 0o1000, 0o2000
LOOKUP, FORGET, GETATTR, SETATTR, READLINK, SYMLINK, MKNOD, MKDIR, UNLINK, RMDIR = 1, 2, 3, 4, 5, 6, 8, 9, 10, 11
RENAME, LINK, OPEN, READ, WRITE, STATFS, RELEASE, FSYNC, GETXATTR, FLUSH, INIT = 12, 13, 14, 15, 16, 17, 18, 20, 22, 25, 26
OPENDIR, READDIR, RELEASEDIR, ACCESS, CREATE, INTERRUPT, DESTROY, IOCTL = 27, 28, 29, 34, 35, 36, 38, 39
BATCH_FORGET, READDIRPLUS, RENAME2 = 42, 44, 45
UNKNOWN_INODE = 0xFFFFFFFF
FILE_BYTES = 8460288  # the greatest number of bytes of a file
ATTRIBUTES_AT = {LOOKUP: 40, MKDIR: 40, MKNOD: 40, CREATE: 40, GETATTR: 16, SETATTR: 16}  # where replies have a fuse_attr


class Talk:
    """Messages with ascending numbers, a second apart, and their replies."""

    def __init__(self):
        self.messages, self.replies, self.unique = b"", b"", 0
        self.times = {2: [(0, 0)] * 3}  # of each inode: seconds and nanoseconds of the access, the bytes and the change
        self.slots = set()  # of files that are open

    def handle(self):
        """The handle of a file that is opened: twice the place of the first free slot, counted from 1."""
        slot = next(it for it in range(1, 129) if it not in self.slots)
        self.slots.add(slot)
        return 2 * slot

    def release(self, node, handle, user=0):
        """RELEASE of a handle, whose slot is free again."""
        self.slots.discard(handle // 2)
        self.say(RELEASE, node, release_in(handle), user, reply=b"")

    def mark(self, made, written, restated, dated):
        """What a message changes, at its time: the file that it makes, those whose bytes or names it changes, those whose
        attributes it does, and the access and the bytes of one that it sets."""
        now = (self.unique // 2, 0)
        if made:
            self.times[made] = [now] * 3
        for inode in written:
            self.times[inode] = [self.times[inode][0], now, now]
        for inode in restated:
            self.times[inode] = [*self.times[inode][:2], now]
        if dated:
            inode, accessed, modified = dated
            self.times[inode] = [accessed, modified, now]

    def date(self, opcode, reply, times):
        """A reply, with the times of the file whose attributes it tells, or those that are given."""
        at = ATTRIBUTES_AT.get(opcode)
        if at is None:
            return reply
        inode, = struct.unpack_from("<Q", reply, at)
        times = times or self.times[inode]
        dates = struct.pack("<QQQIII", *(it[0] for it in times), *(it[1] for it in times))
        return reply[:at + 24] + dates + reply[at + 24 + len(dates):]

    def say(self, opcode, node, body=b"", user=0, reply=None, error=0, length=None, made=None, written=(), restated=(), dated=None,
            times=None):
        """A message of a user and the group of his number; its reply's body, its error, or None and 0 for no reply; and what it
        changes."""
        self.unique += 2
        size = 40 + len(body) if length is None else length
        self.messages += struct.pack("<IIQQIIIHH", size, opcode, self.unique, node, user, user, 77, 0, 0) + body
        self.mark(made, written, restated, dated)
        if error:
            self.replies += struct.pack("<IiQ", 16, -error, self.unique)
        elif reply is not None:
            self.replies += struct.pack("<IiQ", 16 + len(reply), 0, self.unique) + self.date(opcode, reply, times)


def attr(inode, mode, user=0, group=0, size=0, links=1):
    """fuse_attr, without times: those of its inode are put in."""
    return struct.pack("<QQQQQQIIIIIIIIII", inode, size, -(-size // 512), 0, 0, 0, 0, 0, 0, mode, links, user, group, 0, 4096, 0)


def entry(node, attributes):
    """fuse_entry_out: neither the name nor the attributes are kept for any time."""
    return struct.pack("<QQQQII", node, 0, 0, 0, 0, 0) + attributes


def attr_out(attributes):
    return struct.pack("<QII", 0, 0, 0) + attributes


def opened(handle=0, direct=1):
    return struct.pack("<QII", handle, direct, 0)


def dirent(offset, name, kind=0):
    bare = struct.pack("<QQII", UNKNOWN_INODE, offset, len(name), kind) + name
    return bare + bytes(-len(bare) % 8)


def read_in(offset, size, handle=0):
    return struct.pack("<QQIIQII", handle, offset, size, 0, 0, 0, 0)


def write_in(offset, data, flags=O_RDWR, handle=0):
    return struct.pack("<QQIIQII", handle, offset, len(data), 0, 0, flags, 0) + data


def written(count):
    return struct.pack("<II", count, 0)


def release_in(handle):
    return struct.pack("<QIIQ", handle, 0, 0, 0)


def setattr_in(valid, size=0, mode=0, user=0, group=0, accessed=(0, 0), modified=(0, 0)):
    return struct.pack("<IIQQQQQQIIIIIIII", valid, 0, 0, size, 0, accessed[0], modified[0], 0, accessed[1], modified[1], 0,
                       mode, 0, user, group, 0)


def create_in(flags, mode, name):
    return struct.pack("<IIII", flags, mode, 0o22, 0) + name + b"\0"


def beginning(talk):
    """INIT: what is taken up of all that a kernel may offer."""
    offer = struct.pack("<IIIII", 7, 41, 1 << 20, 0xFFFFFFFF, 0xFFFFFFFF) + bytes(44)
    # ATOMIC_O_TRUNC, BIG_WRITES, HAS_IOCTL_DIR, HANDLE_KILLPRIV, MAX_PAGES, INIT_EXT; in the second word DIRECT_IO_ALLOW_MMAP
    low = 1 << 3 | 1 << 5 | 1 << 11 | 1 << 19 | 1 << 22 | 1 << 30
    talk.say(INIT, 0, offer,
             reply=struct.pack("<IIIIHHIIHHI", 7, 38, 131072, low, 12, 9, 131072, 1, 32, 0, 1 << 4) + bytes(28))
    talk.say(GETATTR, ROOT, bytes(16), reply=attr_out(attr(2, DIRECTORY | 0o755, links=2)))


def files(talk):
    """The superuser makes a directory for all; user 7 a file in it, which user 8 may read and not write."""
    talk.say(LOOKUP, ROOT, b"pub\0", 7, error=errno.ENOENT)
    talk.say(MKDIR, ROOT, struct.pack("<II", 0o777, 0) + b"pub\0",
             reply=entry(2, attr(4, DIRECTORY | 0o777, links=2)), made=4, written=[2])
    talk.say(MKDIR, ROOT, struct.pack("<II", 0o777, 0) + b"pub\0", error=errno.EEXIST)
    talk.say(MKDIR, ROOT, struct.pack("<II", 0o777, 0) + b"mine\0", 7, error=errno.EACCES)
    talk.say(CREATE, 2, create_in(O_RDWR, REGULAR | 0o644, b"a"), 7,
             reply=entry(3, attr(5, REGULAR | 0o644, 7, 0)) + opened(talk.handle()), made=5, written=[4])
    talk.say(WRITE, 3, write_in(0, b"hello"), 7, reply=written(5), written=[5])
    talk.say(READ, 3, read_in(0, 4096), 8, reply=b"hello")
    talk.say(READ, 3, read_in(1, 2), 8, reply=b"el")
    talk.say(READ, 3, read_in(5, 4096), 8, reply=b"")
    talk.say(WRITE, 3, write_in(0, b"bad"), 8, error=errno.EACCES)
    talk.say(OPEN, 3, struct.pack("<II", O_RDONLY, 0), 8, reply=opened(talk.handle()))
    talk.say(OPEN, 3, struct.pack("<II", O_WRONLY, 0), 8, error=errno.EACCES)
    talk.say(OPEN, 3, struct.pack("<II", O_RDWR | O_TRUNC, 0), 8, error=errno.EACCES)
    talk.say(LOOKUP, 2, b"a\0", 8, reply=entry(3, attr(5, REGULAR | 0o644, 7, 0, 5)))
    talk.say(WRITE, 3, write_in(0, b" all", O_WRONLY | O_APPEND), 7, reply=written(4), written=[5])
    talk.say(READ, 3, read_in(0, 100), 7, reply=b"hello all")
    cutting = talk.handle()
    talk.say(OPEN, 3, struct.pack("<II", O_WRONLY | O_TRUNC, 0), 7, reply=opened(cutting), written=[5])
    talk.release(3, cutting)
    talk.say(GETATTR, 3, bytes(16), 8, reply=attr_out(attr(5, REGULAR | 0o644, 7, 0)))
    # 64 segments of 64 blocks, of which the two directories take two; 61 numbers, of which three are in use
    talk.say(STATFS, ROOT, reply=struct.pack("<QQQQQ10I", 4096, 4094, 3966, 61, 58, 512, 255, 512, *[0] * 7))


def attributes(talk):
    """Modes and owners: only the owner sets the one, only the superuser gives a file away."""
    talk.say(SETATTR, 3, setattr_in(1, mode=0o600), 8, error=errno.EPERM)
    talk.say(SETATTR, 3, setattr_in(1 | 8, size=3, mode=0o600), 7,
             reply=attr_out(attr(5, REGULAR | 0o600, 7, 0, 3)), written=[5])
    talk.say(READ, 3, read_in(0, 100), 8, error=errno.EACCES)
    talk.say(READ, 3, read_in(0, 100), 7, reply=bytes(3))
    talk.say(SETATTR, 3, setattr_in(2, user=8), 7, error=errno.EPERM)
    talk.say(SETATTR, 3, setattr_in(2, user=8), reply=attr_out(attr(5, REGULAR | 0o600, 8, 0, 3)), restated=[5])
    talk.say(READ, 3, read_in(0, 100), 8, reply=bytes(3))
    talk.say(READ, 3, read_in(0, 100), 7, error=errno.EACCES)
    talk.say(ACCESS, 3, struct.pack("<II", 4, 0), 7, error=errno.EACCES)
    talk.say(ACCESS, 3, struct.pack("<II", 6, 0), 8, reply=b"")
    talk.say(ACCESS, ROOT, struct.pack("<II", 2, 0), 8, error=errno.EACCES)
    # times: the owner sets any, who may write the present one, who may not write none
    accessed, modified = (1000000000, 5), (1000000001, 6)
    given = setattr_in(0x10 | 0x20, accessed=accessed, modified=modified)
    talk.say(SETATTR, 3, given, 7, error=errno.EPERM)
    talk.say(SETATTR, 3, setattr_in(0x1B0), 7, error=errno.EACCES)
    talk.say(SETATTR, 3, given, 8, reply=attr_out(attr(5, REGULAR | 0o600, 8, 0, 3)), dated=(5, accessed, modified))
    talk.say(GETATTR, 3, bytes(16), 8, reply=attr_out(attr(5, REGULAR | 0o600, 8, 0, 3)))


def names(talk):
    """A name with a line feed; what hangs at a name is found again by its node; lists; removals."""
    talk.say(RENAME, 2, struct.pack("<Q", ROOT) + b"a\0b\0", 8, error=errno.EACCES)
    talk.say(RENAME2, 2, struct.pack("<QII", 2, 0, 0) + b"a\0line\nfeed\0", 8, reply=b"", written=[4])
    talk.say(LOOKUP, 2, b"a\0", 8, error=errno.ENOENT)
    talk.say(LOOKUP, 2, b"line\nfeed\0", 8, reply=entry(3, attr(5, REGULAR | 0o600, 8, 0, 3)))
    talk.say(MKNOD, 2, struct.pack("<IIII", REGULAR | 0o640, 0, 0, 0) + b"other\0", 7,
             reply=entry(4, attr(6, REGULAR | 0o640, 7, 0)), made=6, written=[4])
    talk.say(RENAME2, 2, struct.pack("<QII", 2, 1, 0) + b"other\0line\nfeed\0", 7, error=errno.EEXIST)
    talk.say(RENAME2, 2, struct.pack("<QII", 2, 2, 0) + b"other\0line\nfeed\0", 7, error=errno.EINVAL)
    talk.say(RENAME2, 2, struct.pack("<QII", 2, 1, 0) + b"other\0free\0", 7, reply=b"", written=[4])
    talk.say(OPENDIR, 2, bytes(8), 8, reply=opened(1, 0))
    listed = dirent(1, b".", 4) + dirent(2, b"..", 4) + dirent(3, b"free") + dirent(4, b"line\nfeed")
    talk.say(READDIR, 2, read_in(0, 4096, 1), 8, reply=listed)
    talk.say(READDIR, 2, read_in(2, 40, 1), 8, reply=dirent(3, b"free"))
    talk.say(READDIR, 2, read_in(4, 4096, 1), 8, reply=b"")
    talk.say(RELEASEDIR, 2, bytes(24), 8, reply=b"")
    talk.say(RMDIR, ROOT, b"pub\0", error=errno.ENOTEMPTY)
    talk.say(RENAME, 2, struct.pack("<Q", 2) + b"free\0line\nfeed\0", 7, reply=b"", written=[4])
    replaced(talk)
    talk.say(GETATTR, 4, bytes(16), 8, reply=attr_out(attr(6, REGULAR | 0o640, 7, 0)))
    talk.say(UNLINK, 2, b"line\nfeed\0", 8, reply=b"", written=[4])
    talk.say(GETATTR, 2, bytes(16), 8, reply=attr_out(attr(4, DIRECTORY | 0o777, links=2)))
    talk.say(READ, 4, read_in(0, 1), 7, error=errno.ESTALE)
    talk.say(FORGET, 4, struct.pack("<Q", 1))
    talk.say(LOOKUP, 2, bytes([120]) * 256 + b"\0", 7, error=errno.ENAMETOOLONG)


def replaced(talk):
    """User 8 has the file open that was replaced, by handle 4, and goes on with it; user 7 opened it by handle 2, and might
    not read it any more when it was replaced."""
    gone = attr(5, REGULAR | 0o600, 8, 0, 3, links=0)
    talk.say(GETATTR, 3, bytes(16), 8, reply=attr_out(gone))
    talk.say(GETATTR, 3, bytes(16), 7, error=errno.ESTALE)
    talk.say(READ, 3, read_in(0, 100, 4), 8, reply=bytes(3))
    talk.say(READ, 3, read_in(2, 100, 4), 8, reply=bytes(1))
    talk.say(READ, 3, read_in(3, 100, 4), 8, reply=b"")
    for handle, user in ((2, 7), (2, 8), (4, 7), (4, 0), (0, 8), (6, 8), (1024, 8)):
        talk.say(READ, 3, read_in(0, 100, handle), user, error=errno.ESTALE)
    talk.say(WRITE, 3, write_in(0, b"x"), 8, error=errno.ESTALE)
    talk.gone = (gone, talk.times[5])


def number_again(talk):
    """The number of the file that user 8 has open still is another's now, and so are that one's times."""
    gone, times = talk.gone
    talk.say(GETATTR, 3, bytes(16), 8, reply=attr_out(gone), times=times)
    talk.say(READ, 3, read_in(0, 100, 4), 8, reply=bytes(3))
    talk.release(3, 4)
    talk.say(READ, 3, read_in(0, 100, 4), 8, error=errno.ESTALE)
    talk.say(GETATTR, 3, bytes(16), 8, error=errno.ESTALE)
    talk.release(3, 2)
    talk.say(BATCH_FORGET, 0, struct.pack("<IIQQ", 1, 0, 3, 3))


def pieces(talk):
    """More bytes than a call carries: three calls, and the part before a refusal."""
    data = bytes(it * it % 251 for it in range(10000))
    talk.say(CREATE, 2, create_in(O_RDWR, REGULAR | 0o600, b"big"), 7,
             reply=entry(5, attr(5, REGULAR | 0o600, 7, 0)) + opened(talk.handle()), made=5, written=[4])
    number_again(talk)
    talk.say(WRITE, 5, write_in(0, data), 7, reply=written(10000), written=[5])
    talk.say(READ, 5, read_in(0, 16384), 7, reply=data)
    talk.say(READ, 5, read_in(4095, 4098), 7, reply=data[4095:8193])
    talk.say(WRITE, 5, write_in(FILE_BYTES - 4096, bytes(8192)), 7, reply=written(4096), written=[5])
    talk.say(WRITE, 5, write_in(FILE_BYTES, bytes(8192)), 7, error=errno.EFBIG)
    talk.say(GETATTR, 5, bytes(16), 7, reply=attr_out(attr(5, REGULAR | 0o600, 7, 0, FILE_BYTES)))


def flags(talk):
    """chattr: immutable and no dump; a system's flag isn't shown apart."""
    get = struct.pack("<QIIQII", 0, 0, 0x80086601, 0, 0, 4)
    talk.say(IOCTL, 5, struct.pack("<QIIQII", 0, 0, 0x40086602, 0, 4, 0) + struct.pack("<I", 0x50), 8, error=errno.EPERM)
    talk.say(IOCTL, 5, struct.pack("<QIIQII", 0, 0, 0x40086602, 0, 4, 0) + struct.pack("<I", 0x50), 7, reply=bytes(16), restated=[5])
    talk.say(IOCTL, 5, get, 7, reply=bytes(16) + struct.pack("<I", 0x50))
    talk.say(WRITE, 5, write_in(0, b"x"), 7, error=errno.EPERM)
    talk.say(ACCESS, 5, struct.pack("<II", 2, 0), 7, error=errno.EPERM)
    talk.say(ACCESS, 5, struct.pack("<II", 4, 0), 7, reply=b"")
    talk.say(IOCTL, 5, struct.pack("<QIIQII", 0, 0, 0x5401, 0, 0, 0), 7, error=errno.ENOTTY)


def closed(talk):
    """A file that is made without its owner's right to write is filled by who makes it, and closed by the kernel; a mode that
    is set while it is open stays."""
    handle = talk.handle()
    talk.say(CREATE, 2, create_in(O_WRONLY, REGULAR | 0o444, b"ro"), 7,
             reply=entry(6, attr(6, REGULAR | 0o644, 7, 0)) + opened(handle + 1), made=6, written=[4])
    talk.say(WRITE, 6, write_in(0, b"ro"), 7, reply=written(2), written=[6])
    talk.say(WRITE, 6, write_in(0, b"no"), 8, error=errno.EACCES)
    talk.release(6, handle + 1)
    talk.say(GETATTR, 6, bytes(16), 8, reply=attr_out(attr(6, REGULAR | 0o444, 7, 0, 2)))
    talk.say(WRITE, 6, write_in(0, b"no"), 7, error=errno.EACCES)
    talk.say(CREATE, 2, create_in(O_WRONLY, REGULAR | 0o040, b"kept"), 7,
             reply=entry(7, attr(7, REGULAR | 0o640, 7, 0)) + opened(talk.handle() + 1), made=7, written=[4])
    talk.say(SETATTR, 7, setattr_in(1, mode=0o660), 7, reply=attr_out(attr(7, REGULAR | 0o660, 7, 0)), restated=[7])
    talk.release(7, handle + 1)
    talk.say(GETATTR, 7, bytes(16), 7, reply=attr_out(attr(7, REGULAR | 0o660, 7, 0)))


def run(talk):
    """Who may run a file: whom its mode grants that, and the superuser where it grants it to somebody."""
    to_run, may_run = struct.pack("<II", O_RDONLY | TO_RUN, 0), struct.pack("<II", 1, 0)
    for mode, granted in ((0o544, (7, 0)), (0o444, ()), (0o445, (8, 0))):
        talk.say(SETATTR, 6, setattr_in(1, mode=mode), 7, reply=attr_out(attr(6, REGULAR | mode, 7, 0, 2)), restated=[6])
        for user in (7, 8, 0):
            error = 0 if user in granted else errno.EACCES
            talk.say(OPEN, 6, to_run, user, reply=None if error else opened(talk.handle()), error=error)
            talk.say(ACCESS, 6, may_run, user, reply=b"", error=error)
    talk.say(ACCESS, 2, may_run, 8, reply=b"")


def removed(talk):
    """A file that is removed as soon as it is made, as temporary files are: it is read and written by who has it open, and
    another one that is removed stays as it was."""
    data = bytes(it * it % 251 for it in range(5000))
    handle = talk.handle()
    talk.say(CREATE, 2, create_in(O_RDWR, REGULAR | 0o600, b"temporary"), 7,
             reply=entry(8, attr(8, REGULAR | 0o600, 7, 0)) + opened(handle), made=8, written=[4])
    talk.say(WRITE, 8, write_in(0, data), 7, reply=written(5000), written=[8])
    apart = talk.handle()
    talk.say(CREATE, 2, create_in(O_RDWR, REGULAR | 0o600, b"apart"), 7,
             reply=entry(9, attr(9, REGULAR | 0o600, 7, 0)) + opened(apart), made=9, written=[4])
    reader, writer = talk.handle(), talk.handle()
    talk.say(OPEN, 8, struct.pack("<II", O_RDONLY, 0), 7, reply=opened(reader))
    talk.say(OPEN, 8, struct.pack("<II", O_WRONLY, 0), 7, reply=opened(writer))
    talk.say(RENAME, ROOT, struct.pack("<Q", 2) + b"pub\0temporary\0", 7, error=errno.EACCES)
    talk.say(READ, 8, read_in(4095, 2, handle), 7, reply=data[4095:4097])
    talk.say(UNLINK, 2, b"apart\0", 7, reply=b"", written=[4])
    talk.say(UNLINK, 2, b"temporary\0", 7, reply=b"", written=[4])
    talk.say(READ, 8, read_in(0, 8192, handle), 7, reply=data)
    talk.say(READ, 8, read_in(4095, 2, handle), 7, reply=data[4095:4097])
    talk.say(READ, 5, read_in(0, 3, handle), 8, error=errno.EACCES)
    talk.say(GETATTR, 8, bytes(16), 7, reply=attr_out(attr(8, REGULAR | 0o600, 7, 0, 5000, links=0)))
    data = rewritten(talk, data, handle, reader, writer)
    talk.say(READ, 9, read_in(0, 100, apart), 7, reply=b"")
    talk.say(GETATTR, 9, bytes(16), 7, reply=attr_out(attr(9, REGULAR | 0o600, 7, 0, links=0)))
    talk.release(9, apart)
    talk.release(8, handle)
    talk.say(WRITE, 8, write_in(0, b"x", handle=handle), 7, error=errno.ESTALE)
    talk.say(READ, 8, read_in(0, 8192, reader), 7, reply=data)
    talk.release(8, reader)
    talk.say(READ, 8, read_in(0, 8192, reader), 7, error=errno.ESTALE)
    talk.release(8, writer)


def rewritten(talk, data, handle, reader, writer):
    """Writes to a file that was removed, by who opened it for that, and what all who have it open read then."""
    for other, user in ((reader, 7), (0, 7), (handle, 8), (handle, 0)):
        talk.say(WRITE, 8, write_in(0, b"x", handle=other), user, error=errno.ESTALE)
    talk.say(READ, 8, read_in(0, 8, writer), 7, error=errno.ESTALE)
    talk.say(WRITE, 8, write_in(4998, b"more", handle=handle), 7, reply=written(4), written=[8])
    talk.say(WRITE, 8, write_in(0, b"end", O_WRONLY | O_APPEND, writer), 7, reply=written(3), written=[8])
    talk.say(WRITE, 8, write_in(0, b"", handle=handle), 7, reply=written(0))
    talk.say(WRITE, 8, write_in(FILE_BYTES, b"x", handle=handle), 7, error=errno.EFBIG)
    talk.say(WRITE, 8, write_in((1 << 64) - 1, b"xy", handle=handle), 7, error=errno.EFBIG)
    data = data[:4998] + b"moreend"
    talk.say(READ, 8, read_in(4990, 100, reader), 7, reply=data[4990:])
    talk.say(GETATTR, 8, bytes(16), 7, reply=attr_out(attr(8, REGULAR | 0o600, 7, 0, 5005, links=0)))
    talk.say(SETATTR, 8, setattr_in(1, mode=0o644), 7, error=errno.ESTALE)
    talk.say(SETATTR, 8, setattr_in(8, size=3), 8, error=errno.ESTALE)
    talk.say(SETATTR, 8, setattr_in(8, size=FILE_BYTES + 1), 7, error=errno.EFBIG)
    talk.say(SETATTR, 8, setattr_in(8, size=3), 7, reply=attr_out(attr(8, REGULAR | 0o600, 7, 0, 3, links=0)), written=[8])
    talk.say(WRITE, 8, write_in(6, b"gap", handle=handle), 7, reply=written(3), written=[8])
    talk.say(FSYNC, 8, bytes(16), 7, reply=b"")
    data = data[:3] + bytes(3) + b"gap"
    for other in (handle, reader):
        talk.say(READ, 8, read_in(0, 8192, other), 7, reply=data)
    return data


def rest(talk):
    """What isn't served, what is no message, and the end."""
    talk.say(SYMLINK, 2, b"link\0target\0", error=errno.EPERM)
    talk.say(LINK, 2, struct.pack("<Q", 5) + b"second\0", error=errno.EPERM)
    talk.say(MKNOD, 2, struct.pack("<IIII", 0o010644, 0, 0, 0) + b"pipe\0", error=errno.EPERM)
    talk.say(READLINK, 5, error=errno.EINVAL)
    talk.say(GETXATTR, 5, struct.pack("<II", 0, 0) + b"user.x\0", error=errno.ENOSYS)
    talk.say(READDIRPLUS, 2, read_in(0, 4096), error=errno.ENOSYS)
    talk.say(999, 5, error=errno.ENOSYS)
    talk.say(LOOKUP, ROOT, b"no end", 8, error=errno.EINVAL)
    talk.say(WRITE, 5, write_in(0, b"cut")[:-1], 7, error=errno.EINVAL)
    talk.say(GETATTR, 99, bytes(16), error=errno.ESTALE)
    talk.say(INTERRUPT, 0, struct.pack("<Q", 2))
    talk.say(FSYNC, 5, bytes(16), 7, reply=b"")
    talk.say(FLUSH, 5, bytes(24), 7, reply=b"")
    talk.say(RELEASE, 5, bytes(24), 7, reply=b"")
    talk.say(DESTROY, 0, reply=b"")


def main():
    if len(sys.argv) != 2:
        sys.exit(__doc__)
    talk = Talk()
    for part in (beginning, files, attributes, names, pieces, flags, closed, run, removed, rest):
        part(talk)
    folder = Path(sys.argv[1])
    (folder / "stdin").write_bytes(talk.messages)
    (folder / "stdout").write_bytes(talk.replies)


if __name__ == "__main__":
    main()
