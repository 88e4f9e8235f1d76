"""Calls on files by four users, and what they are to answer: what posix_calls.py is made of.

Each call is made by a process of its own, with its user and groups. An answer is a value or an error's name; 'ok' stands
for any value.
"""
import ctypes
import errno
import fcntl
import os
import pickle
import signal
import stat
import struct
import subprocess
from dataclasses import dataclass

NOREPLACE, EXCHANGE = 1, 2  # of renameat2(2)
GET_FLAGS, SET_FLAGS = 0x80086601, 0x40086602
IMMUTABLE, APPEND, NODUMP = 0x10, 0x20, 0x40
OMIT, NOW = (1 << 30) - 2, (1 << 30) - 1  # of utimensat(2)
HERE = -100  # AT_FDCWD
SYSTEM = ctypes.CDLL(None, use_errno=True)


@dataclass(frozen=True)
class User:
    """Who calls."""
    name: str
    number: int
    groups: tuple

    def become(self):
        """Makes this process the user's."""
        os.setgroups(self.groups)
        os.setresgid(self.groups[0], self.groups[0], self.groups[0])
        os.setresuid(self.number, self.number, self.number)


ROOT, OWNER, MEMBER, OTHER = USERS = (
    User("root", 0, (0,)), User("owner", 7, (7, 70)), User("member", 8, (8, 7)), User("other", 9, (9,)))
NAMED = {user.name: user for user in USERS}


@dataclass(frozen=True)
class Differs:
    """Linux's answer, a mount's, and the page that tells of the difference."""
    linux: object
    mounted: object
    told: str


@dataclass(frozen=True)
class Check:
    """A call by a user, and what it is to answer."""
    user: User
    wanted: object
    call: object
    words: tuple

    def answer(self):
        """What the call answers in a process of the user's."""
        come, go = os.pipe()
        child = os.fork()
        if not child:
            signal.alarm(60)
            self.user.become()
            try:
                told = self.call(*self.words)
            except OSError as error:
                told = errno.errorcode[error.errno]
            except Exception as fault:
                told = f"ended by {fault!r}"
            with os.fdopen(go, "wb") as out:
                pickle.dump("ok" if told is None else told, out)
            os._exit(0)
        os.close(go)
        with os.fdopen(come, "rb") as from_child:
            told = from_child.read()
        status = os.waitpid(child, 0)[1]
        return pickle.loads(told) if told else f"ended with status {status}"

    def failure(self, mounted):
        """What is wrong with the answer, or nothing."""
        wanted, told = self.wanted, ""
        if isinstance(wanted, Differs):
            wanted, told = (wanted.mounted, f" ({wanted.told})") if mounted else (wanted.linux, "")
        found = self.answer()
        is_error = isinstance(found, str) and (found in errno.errorcode.values() or found.startswith("ended"))
        if found == wanted or wanted == "ok" and not is_error:
            return ""
        return f"{self.user.name}: {spelled((self.call, *self.words))}: found {spelled(found)}, wanted {spelled(wanted)}{told}"


def spelled(word):
    """A call and its words as text."""
    if isinstance(word, tuple) and word and callable(word[0]):
        return f"{word[0].__name__}({', '.join(map(spelled, word[1:]))})"
    text = repr(word)
    return text if len(text) <= 60 else f"{text[:40]}..{text[-10:]}"


def check(user, wanted, call, *words):
    """A call by a user."""
    return Check(user, wanted, call, words)


def each(answers, call, *words):
    """A call by each user, with their answers in the order of the users."""
    for user, wanted in zip(USERS, answers):
        yield Check(user, wanted, call, words)


def rows(table):
    """The words of a table's lines, without its first."""
    return [line.split() for line in table.strip().splitlines()][1:]


def each_of(table, tree, call):
    """The owner's calls by a table: of the first word of a line, and that of a column, each in a fresh tree."""
    columns = table.split("\n")[1].split()[1:]
    for first, *answers in rows(table):
        for column, wanted in zip(columns, answers):
            make_tree(*tree)
            yield Check(OWNER, wanted, *call(first, column))


# What the superuser makes for a check.

def give(path, mode, owner):
    os.chown(path, owner.number, owner.groups[0])
    os.chmod(path, mode)


def make_file(path, mode=0o644, owner=OWNER, data=b"0123456789"):
    with open(os.open(path, os.O_CREAT | os.O_WRONLY | os.O_TRUNC, 0o600), "wb") as file:
        file.write(data)
    give(path, mode, owner)


def make_folder(path, mode=0o755, owner=OWNER):
    os.mkdir(path)
    give(path, mode, owner)


def make_tree(*paths):
    """Makes files, and folders whose paths end in a slash, where nothing stands."""
    remove_all(".")
    give(".", 0o755, OWNER)
    for path in paths:
        (make_folder if path.endswith("/") else make_file)(path)


def remove_all(folder):
    """Removes what is in a folder, locked or not."""
    for entry in list(os.scandir(folder)):
        is_folder = entry.is_dir(follow_symlinks=False)
        if is_folder:
            remove_all(entry.path)
        try:
            (os.rmdir if is_folder else os.unlink)(entry.path)
        except PermissionError:
            for locked in (folder, entry.path):
                set_flags(locked, 0)
            (os.rmdir if is_folder else os.unlink)(entry.path)


# Calls: each is made by a user.

def done(*calls):
    """Makes calls in order; what the last gives."""
    for call, *words in calls:
        told = call(*words)
    return told


def on(path, flags, *calls):
    """Makes calls in order, each of the file that is opened; what the last gives."""
    file = os.open(path, sum(getattr(os, f"O_{word}") for word in flags.split("|")), 0o644)
    try:
        return done((os.fstat, file), *((call, file, *words) for call, *words in calls))
    finally:
        os.close(file)


def meanwhile(_file, call, *words):
    """A call that is not of the open file."""
    return call(*words)


def reads(path, count=100, place=0):
    return on(path, "RDONLY", (os.pread, count, place))


def writes(path, data=b"x", place=0, flags="WRONLY"):
    return on(path, flags, (os.pwrite, data, place))


def makes(path):
    """Makes a file and removes it."""
    on(path, "CREAT|EXCL|WRONLY")
    os.unlink(path)


def fills(path, mode):
    """Writes a file by the call that made it."""
    file = os.open(path, os.O_CREAT | os.O_EXCL | os.O_WRONLY, mode)
    os.write(file, b"abc")
    os.close(file)


def names_in(path):
    return sorted(os.listdir(path))


def shows(path, *fields):
    """Fields of stat(2), with the mode in octal."""
    row = os.stat(path)
    told = [f"{stat.S_IMODE(row.st_mode):04o}" if it == "mode" else getattr(row, f"st_{it}") for it in fields]
    return told if fields[1:] else told[0]


def may(path, letters):
    """Which of these access(2) grants."""
    kinds = {"f": os.F_OK, "r": os.R_OK, "w": os.W_OK, "x": os.X_OK}
    return "".join(it if os.access(path, kinds[it]) else "-" for it in letters)


def by_system(call, *words):
    """A call of the C library."""
    if call(*words) < 0:
        raise OSError(ctypes.get_errno(), "")


def renames_by(source, target, flags):
    by_system(SYSTEM.renameat2, HERE, os.fsencode(source), HERE, os.fsencode(target), flags)


def sets_times(path, *times):
    """Sets the access and the change, each of seconds and nanoseconds."""
    by_system(SYSTEM.utimensat, HERE, os.fsencode(path), struct.pack("4q", *times[0], *times[1]) if times else None, 0)


def set_flags(path, flags):
    """Sets a file's flags; those that it has then."""
    told = on(path, "RDONLY|NONBLOCK", (fcntl.ioctl, SET_FLAGS, struct.pack("l", flags)), (fcntl.ioctl, GET_FLAGS, bytes(8)))
    return struct.unpack("l", told)[0] & (IMMUTABLE | APPEND | NODUMP)


def prints(*command):
    """What a program that is run prints."""
    return subprocess.run(command, check=False, stdout=subprocess.PIPE).stdout
