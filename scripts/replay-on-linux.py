#!/usr/bin/env python3
"""Makes the calls of scripts on a Linux file system in memory, and says where Linux answers otherwise.

  replay-on-linux.py [SCRIPT.lfs ..]          compares with the answers beside each script; without words all stored scripts
  replay-on-linux.py --lines SCRIPT.lfs       prints a journal of what Linux answers, as `lfs_audit_trail --errors` reads
                                              one: without Stats, and with no answers beside the script all its calls
  replay-on-linux.py --random N SEED LFSD     makes N scripts of random calls by four users, asks a built `lfsd` and compares

As root: a tmpfs is mounted in a folder of its own, and each call is made by a process with the caller's user and groups.
What is compared is what both have: whether a call is served, the error's name, bytes, names, and of a Stat the kind, owner,
group and mode. What docs/RULES.md says is no matter of Linux's is put right by the superuser (a new row's group and mode,
set-id bits after a change) or left out (file flags are set as the answer says; levels, numbers, flags, sizes, refusals and
the cleaner). A call that one serves and the other doesn't ends its script, as the two trees differ from there on.

Prints each difference, `SCRIPT:LINE: CALL: here X, Linux Y`, and the counts; of random scripts those alone that
docs/RULES.md doesn't tell of, with status 1.
"""
import errno
import fcntl
import itertools
import os
import pickle
import random
import resource
import signal
import struct
import subprocess
import sys
import tempfile
from pathlib import Path

STORED = Path(__file__).resolve().parent.parent / "crates" / "lfs_script_tests" / "data"
MOST_BYTES = 8_460_288
GET_FLAGS, SET_FLAGS = 0x80086601, 0x40086602
IMMUTABLE, APPEND = 0x10, 0x20
CLEANER = {"ifile", "infos", "bmapv", "markv", "segclean", "gain", "pass"}
# a rule with each error, for a journal's lines
RULE = {"EACCES": "S1", "ENOENT": "N2", "EEXIST": "N3", "ENOTDIR": "N1", "EISDIR": "K1", "ENOTEMPTY": "K2", "EBUSY": "K3",
        "EINVAL": "K4", "EPERM": "F1", "EFBIG": "Z1"}


class Caller:
    """Who calls: a user, groups, and the session."""

    def __init__(self):
        self.user, self.groups, self.session = 0, [0], 0

    def become(self):
        """Makes this process the caller's."""
        signal.signal(signal.SIGXFSZ, signal.SIG_IGN)
        resource.setrlimit(resource.RLIMIT_FSIZE, (MOST_BYTES, MOST_BYTES))
        os.umask(0)
        os.setgroups(self.groups)
        os.setresgid(self.groups[0], self.groups[0], self.groups[0])
        os.setresuid(self.user, self.user, self.user)


def answered(caller, call):
    """What a call gives in a process of the caller's: its value, or an error's name."""
    come, go = os.pipe()
    child = os.fork()
    if not child:
        try:
            caller.become()
            told = True, call()
        except OSError as error:
            told = False, errno.errorcode[error.errno]
        with os.fdopen(go, "wb") as out:
            pickle.dump(told, out)
        os._exit(0)
    os.close(go)
    with os.fdopen(come, "rb") as from_child:
        told = pickle.load(from_child)
    os.waitpid(child, 0)
    return told


def opened(path, flags, mode, use):
    """Opens a file, uses it and closes it."""
    file = os.open(path, flags, mode)
    try:
        return use(file)
    finally:
        os.close(file)


def shown(path):
    """What a Stat shows that both have."""
    row = os.lstat(path)
    kind = "dir" if os.path.stat.S_ISDIR(row.st_mode) else "file"
    return f"{kind} {row.st_uid} {row.st_gid} {row.st_mode & 0o7777:04o}"


class Linux:
    """A tree on a Linux file system."""

    def __init__(self, folder):
        self.folder = folder

    def at(self, path):
        """Where a path of a script lies."""
        return self.folder + path.rstrip("/") if path != "/" else self.folder

    def put_right(self, path, user, mode):
        """Gives a new row its parent's group and the mode whole."""
        os.chown(path, user, os.stat(os.path.dirname(path)).st_gid)
        os.chmod(path, mode)

    def keep_mode(self, path, mode):
        """Gives a changed row its mode whole."""
        os.chmod(path, mode)

    def set_flags(self, path, flags):
        """Sets what Linux has of file flags."""
        wanted = (IMMUTABLE if flags & 0x20002 else 0) | (APPEND if flags & 0x40004 else 0)
        opened(path, os.O_RDONLY, 0, lambda file: fcntl.ioctl(file, SET_FLAGS, struct.pack("l", wanted)))

    def clear_set_id(self, path):
        """Clears the set-id bits, as a change by a user does here."""
        flags = opened(path, os.O_RDONLY, 0, lambda file: struct.unpack("l", fcntl.ioctl(file, GET_FLAGS, bytes(8)))[0])
        if not flags & (IMMUTABLE | APPEND):
            os.chmod(path, os.stat(path).st_mode & 0o1777)

    def call(self, caller, words, here):
        """Makes a call; `here` is the answer of this project. Gives what is comparable of Linux's."""
        verb, path = words[0], self.at(words[1])
        if verb == "stat":
            return answered(caller, lambda: shown(path))
        if verb == "list":
            return answered(caller, lambda: sorted(os.listdir(os.fsencode(path))))
        if verb == "read":
            count = min(int(words[3]), 4096)
            return answered(caller, lambda: opened(path, os.O_RDONLY, 0, lambda it: os.pread(it, count, min(int(words[2]), 2**62))))
        if verb in ("create", "mkdir"):
            return self.make(caller, verb, path, int(words[2], 8))
        if verb in ("write", "length", "chown"):
            return self.change(caller, verb, path, words)
        if verb == "chmod":
            told = answered(caller, lambda: os.chmod(path, int(words[2], 8)))
            if told[0]:
                self.keep_mode(path, int(words[2], 8))
            return told
        if verb == "chflags":
            told = answered(caller, lambda: os.lstat(path))
            if told[0] and here == "ok":
                self.set_flags(path, int(words[2], 16))
            return None if told[0] else told
        if verb == "rename":
            return answered(caller, lambda: os.rename(path, self.at(words[2])))
        return answered(caller, lambda: {"unlink": os.unlink, "rmdir": os.rmdir}[verb](path))

    def make(self, caller, verb, path, mode):
        """Makes a file or a directory."""
        flags = os.O_CREAT | os.O_EXCL | os.O_WRONLY
        made = (lambda: os.mkdir(path, mode)) if verb == "mkdir" else (lambda: opened(path, flags, mode, lambda it: None))
        told = answered(caller, made)
        if told[0]:
            self.put_right(path, caller.user, mode)
        return told

    def change(self, caller, verb, path, words):
        """Writes, cuts, or gives away."""
        if verb == "length":
            told = answered(caller, lambda: os.truncate(path, min(int(words[2]), 2**62)))
        elif verb == "chown":
            told = answered(caller, lambda: os.chown(path, int(words[2]), int(words[3])))
        else:
            data, end = bytes.fromhex(words[-1].strip("-")), words[2] == "end"
            flags = os.O_WRONLY | (os.O_APPEND if end else 0)
            place = 0 if end else min(int(words[3]), 2**62)
            told = answered(caller, lambda: opened(path, flags, 0, lambda it: os.write(it, data) if end else os.pwrite(it, data, place)))
        mode = os.stat(path).st_mode & 0o7777 if told[0] else 0
        if told[0] and caller.user and mode & 0o6000 and words[-1] != "-":
            self.clear_set_id(path)
        return told


def comparable(verb, words):
    """What both have of an answer of this project: whether it is served, and what it tells."""
    if words[0] == "denied":
        return False, words[2]
    if verb == "stat":
        return True, f"{words[2]} {words[3]} {words[4]} {words[5]}"
    if verb == "read":
        return True, bytes.fromhex(words[1].strip("-"))
    if verb == "list":
        return True, [bytes(name.replace("%", "\\x"), "ascii").decode("unicode_escape").encode("latin-1") for name in words[1:]]
    return True, None


def is_told(words, here, linux):
    """Whether docs/RULES.md tells of this difference."""
    verb, paths = words[0], words[1:3] if words[0] == "rename" else words[1:2]
    if "/" in paths or verb == "rename" and (paths[0] == paths[1] or not (here[0] or linux[0])):
        return True
    if verb == "stat" and here[0] and linux[0]:
        # set-id bits alone, behind a write of no bytes
        (*one, mode), (*other, other_mode) = here[1].split(" "), linux[1].split(" ")
        return one == other and (int(mode, 8) ^ int(other_mode, 8)) & 0o1777 == 0
    return verb == "read" and here[1] == "EISDIR" and linux[1] == "EACCES"


MODES = ["0777", "0755", "0700", "0644", "0640", "0604", "1777", "0070", "0077", "0500", "6755", "0000", "0110"]
FLAGS = ["0", "0", "0", "1", "2", "4", "20000", "40000", "6"]
CALLERS = ["0 0", "7 7", "8 8,20", "9 20,7", "7 20"]
NAMES = ["a", "b", "c", "d"]


def random_script(chance, lines):
    """The lines of a script of random calls by four users, over few names."""
    path = lambda: "/" + "/".join(chance.choice(NAMES) for _ in range(chance.choice([1, 1, 2, 2, 2, 3])))
    hexes = lambda: "".join(chance.choice(["61", "62", "00", "ff"]) for _ in range(chance.randint(0, 9))) or "-"
    calls = {
        "stat": lambda: path(), "list": lambda: path(), "unlink": lambda: path(), "rmdir": lambda: path(),
        "read": lambda: f"{path()} {chance.randint(0, 9)} {chance.randint(0, 20)}",
        "create": lambda: f"{path()} {chance.choice(MODES)}", "mkdir": lambda: f"{path()} {chance.choice(MODES)}",
        "chmod": lambda: f"{path()} {chance.choice(MODES)}", "chflags": lambda: f"{path()} {chance.choice(FLAGS)}",
        "chown": lambda: f"{path()} {chance.choice([0, 7, 8, 9])} {chance.choice([0, 7, 8, 20])}",
        "length": lambda: f"{path()} {chance.choice([0, 3, 700, 9000])}",
        "write": lambda: f"{path()} " + chance.choice([f"at {chance.randint(0, 600)}", "end"]) + f" {hexes()}",
        "rename": lambda: f"{path()} {path()}",
    }
    weights = dict.fromkeys(calls, 2) | {"mkdir": 5, "create": 4, "rename": 5, "write": 4, "chflags": 1}
    yield "chmod / 0777"
    for _ in range(lines):
        if not chance.randrange(4):
            yield f"as {chance.choice(CALLERS)}"
        verb = chance.choices(list(calls), weights.values())[0]
        yield f"{verb} {calls[verb]()}"


def try_random(count, seed, program):
    """Compares `count` random scripts with what a built program answers. Gives how many differences no page tells of."""
    counts = dict.fromkeys(("agree", "differ", "told", "left out"), 0)
    with tempfile.TemporaryDirectory() as folder:
        for number in range(seed, seed + count):
            script = Path(folder) / f"random-{number}.lfs"
            script.write_text("".join(f"{line}\n" for line in random_script(random.Random(number), 150)))
            with script.open() as lines, script.with_suffix(".out").open("w") as out:
                subprocess.run([program], stdin=lines, stdout=out, check=True)
            replay(script, counts, False, is_told)
    print(f"{count} scripts: {counts['agree']} answers agree, {counts['told']} differ as told, {counts['differ']} otherwise, {counts['left out']} calls left out")
    return counts["differ"]


def said(told):
    """A comparable answer as text."""
    return "ok" if told[0] and told[1] is None else str(told[1])[:60]


def line_of(caller, text, verb, told):
    """A line of a journal for what Linux answers."""
    groups = ",".join(map(str, caller.groups))
    if not told[0]:
        answer = f"denied {RULE.get(told[1], 'N2')} {told[1]} 0 0"
    elif verb == "read":
        answer = f"bytes {told[1].hex() or '-'}"
    elif verb == "list":
        answer = "names" + "".join(" " + "".join(chr(b) if 0x21 <= b <= 0x7E and b != 0x25 else f"%{b:02x}" for b in name) for name in told[1])
    else:
        answer = "ok"
    return f"{caller.session} as {caller.user} {groups} | {text} | {answer}"


def users_lines(script):
    """The lines of a script that are a user's calls, with their numbers and callers."""
    caller = Caller()
    for number, line in enumerate(script.read_text().splitlines(), 1):
        words = line.split(" ")
        if words[0] == "as":
            caller.user, caller.groups = int(words[1]), [int(it) for it in words[2].split(",")]
        elif words[0] == "session":
            caller.session = int(words[1])
        elif line and words[0] not in CLEANER and not line.startswith(("#", ".")):
            yield number, line, words, caller


def replay(script, counts, prints, is_told=lambda *_: False):
    """Replays one script; `is_told` says which differences aren't printed."""
    known = script.with_suffix(".out")
    found = known.read_text().splitlines() if known.exists() or not prints else []
    answers = [line.split(" ")[1:] for line in found if line[:1].isdigit() and line.split(" ")[1] != "cleaner"]
    with tempfile.TemporaryDirectory() as folder:
        subprocess.run(["mount", "-t", "tmpfs", "-o", "mode=0755", "replay", folder], check=True)
        try:
            tree = Linux(folder)
            for (number, line, words, caller), answer in zip(users_lines(script), answers or itertools.repeat(None)):
                verb = words[0]
                if verb in ("level", "sync") or answer and answer[0] == "refused":
                    counts["left out"] += 1
                    continue
                told = tree.call(caller, words, answer and answer[0])
                here = comparable(verb, answer) if answer else told
                if told is None:
                    counts["left out"] += 1
                    continue
                if verb not in ("stat", "read", "list"):
                    told = told[0], None if told[0] else told[1]
                    here = here if answer else told
                if prints and verb != "stat":
                    print(line_of(caller, line, verb, told))
                kind = "agree" if told == here else "told" if is_told(words, here, told) else "differ"
                counts[kind] += 1
                if kind == "differ" and not prints:
                    print(f"{script.name}:{number}: {line[:60]}: here {said(here)}, Linux {said(told)}")
                if told[0] != here[0]:
                    return
        finally:
            subprocess.run(["umount", "-l", folder], check=True)


def main(words):
    if words[:1] == ["--random"]:
        return 1 if try_random(int(words[1]), int(words[2]), words[3]) else 0
    prints = "--lines" in words
    scripts = [Path(it) for it in words if it != "--lines"] or sorted(STORED.glob("*.lfs"))
    counts = {"agree": 0, "differ": 0, "left out": 0}
    for script in scripts:
        replay(script, counts, prints)
    if not prints:
        print(f"{len(scripts)} scripts: {counts['agree']} answers agree, {counts['differ']} differ, {counts['left out']} calls left out")


if __name__ == "__main__":
    sys.exit(main(sys.argv[1:]))
