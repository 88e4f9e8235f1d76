#!/usr/bin/env python3
"""Makes a journal of what programs did in a folder, as `lfs_audit_trail --errors` reads one.

  strace -f -y -xx -s 1048576 -o TRACE PROGRAM          as a user, in a folder that was empty before the first trace
  strace-lines.py FOLDER USER:GROUP[,GROUP..]:TRACE ..  traces in the order in which they were made

The folder is the tree's root, which is user 0's with mode 0755. A trace doesn't say who called, so each is one user's, and all
its processes have his groups and the umask 022. What is told: files and directories that are made, removed, renamed, cut,
read and written, modes and owners, each with the name of its error. An open file of Linux was judged when it was opened:
an open that fails is told as a Read, a List or a Write of no bytes. Left out, and counted on standard error: links, opens for
both reading and writing that fail, bytes that the kernel copies, those at a place that a trace doesn't tell, and names
outside. docs/RULES.md says where Linux judges otherwise, as of a new row's group.
"""
import collections
import re
import sys

LINE = re.compile(r"(?:(\d+) +)?(\w+)\((.*)\) += (-?\d+|\?)(?:<.*>)?(?: (E\w+))?")
BEGUN = re.compile(r"(?:(\d+) +)?(\w+)\((.*) <unfinished \.\.\.>$")
RESUMED = re.compile(r"(?:(\d+) +)?<\.\.\. (\w+) resumed>(.*)$")
RULE = {"EACCES": "S1", "ENOENT": "N2", "EEXIST": "N3", "ENOTDIR": "N1", "EISDIR": "K1", "ENOTEMPTY": "K2", "EBUSY": "K3",
        "EINVAL": "K4", "EPERM": "F1", "EFBIG": "Z1"}
PIECE = 4096
UMASK = 0o022


def plain(text):
    """The bytes of a word of strace: as it stands, or with each as `\\x` and two digits, or octal."""
    return re.sub(rb"\\x([0-9a-f]{2})", lambda it: bytes([int(it[1], 16)]), text.encode("utf-8", "surrogateescape"))


def words_of(text):
    """The arguments of a call, split at the commas that stand in no string, brace or angle."""
    found, depth, quoted, begin = [], 0, False, 0
    for at, letter in enumerate(text):
        quoted ^= letter == '"'
        depth += not quoted and (letter in "[{<") - (letter in "]}>")
        if letter == "," and not quoted and not depth:
            found.append(text[begin:at].strip())
            begin = at + 1
    return [*found, text[begin:].strip()]


def text_in(word):
    """The bytes of a string that is told whole."""
    whole = re.fullmatch(r'"(.*)"', word)
    return plain(whole[1]) if whole else None


def number_of(word):
    """The number of an open file."""
    return word.split("<")[0]


class Trace:
    """The calls of a user, and the tree and the open files as they are so far."""

    def __init__(self, folder, known):
        self.folder, self.known, self.left_out = folder.rstrip("/").encode(), known, collections.Counter()
        # by process: its folder; and by process and number of an open file its place, which copies of it share
        self.folders, self.places = {}, {}

    def path(self, pid, word, at=None):
        """A path in the tree, of a string and the folder that it stands in, or of an open file."""
        inside = re.fullmatch(r"(?:\d+|AT_FDCWD)<(.*)>", at or word)
        base = plain(inside[1].removesuffix("(deleted)")) if inside else self.folders.get(pid, b"")
        if at and at.startswith("AT_FDCWD"):
            self.folders[pid] = base
        name = text_in(word) if at or not inside else b""
        if name is None or not base and not name.startswith(b"/"):
            return None
        full = name if name.startswith(b"/") else base + (b"/" + name if name else b"")
        parts = [it for it in full.split(b"/") if it not in (b"", b".")]
        full = b"/" + b"/".join(parts)
        if b".." in parts or full != self.folder and not full.startswith(self.folder + b"/"):
            return None
        return full[len(self.folder):] or b"/"

    def open(self, pid, number, path, flags, mode, error):
        """What an open asks for, as calls."""
        new, writes = "O_CREAT" in flags and path not in self.known, "O_WRONLY" in flags
        if error:
            if new or error == "EEXIST":
                yield ["create", path, f"{mode & ~UMASK:04o}"], None
            elif "O_RDWR" in flags:
                self.left_out["open"] += 1
            elif writes:
                yield ["write", path, "at", "0", "-"], None
            else:
                yield (["list", path] if "O_DIRECTORY" in flags else ["read", path, "0", "1"]), None
            return
        if new:
            self.known.add(path)
            yield ["create", path, f"{mode & ~UMASK:04o}"], None
        elif "O_TRUNC" in flags:
            yield ["length", path, "0"], None
        self.places[pid, number] = ["end" if "O_APPEND" in flags else 0]

    def bytes_at(self, verb, path, place, data):
        """Bytes that are read or written, in pieces."""
        for at in range(0, len(data) or 1, PIECE):
            piece = data[at:at + PIECE].hex() or "-"
            where = ["end"] if place == "end" else ["at", str(place + at)]
            if verb == "read":
                yield ["read", path, str(place + at), str(PIECE)], f"bytes {piece}"
            else:
                yield ["write", path, *where, piece], None

    def moved(self, verb, pid, words, came):
        """A read or a write of an open file, at its place or at one that is named."""
        path, data = self.path(pid, words[0]), text_in(words[1])
        at = [int(words[3])] if verb.startswith("p") else self.places.get((pid, number_of(words[0])), [None])
        place = at[0]
        if path not in self.known or data is None or place is None or verb == "read" and place == "end":
            self.left_out[verb] += path in self.known
            return
        if place != "end":
            at[0] = place + came
        yield from self.bytes_at("read" if "read" in verb else "write", path, place, data[:came])

    def follow(self, pid, verb, words, came):
        """What a process does to its folder, its open files and its children."""
        old = number_of(words[0])
        if verb == "chdir":
            self.folders[pid] = (b"" if plain(words[0]).startswith(b'"/') else self.folders.get(pid, b"") + b"/") + text_in(words[0])
        elif verb == "fchdir":
            self.folders[pid] = plain(words[0].split("<", 1)[-1].removesuffix(">"))
        elif verb == "lseek":
            self.places.setdefault((pid, old), [None])[0] = came
        elif verb == "close":
            self.places.pop((pid, old), None)
        elif verb in FORKS:
            self.folders[str(came)] = self.folders.get(pid, b"")
            self.places.update({(str(came), number): at for (of, number), at in list(self.places.items()) if of == pid})
        elif (verb != "fcntl" or "F_DUPFD" in words[1]) and (pid, old) in self.places:
            self.places[pid, str(came)] = self.places[pid, old]

    def named(self, pid, verb, words):
        """A call by names: the words of a line."""
        by_folder = verb.endswith("at") or verb == "renameat2"
        path = self.path(pid, words[1], words[0]) if by_folder else self.path(pid, words[0])
        rest = words[2:] if by_folder else words[1:]
        kind = verb.removesuffix("2").removesuffix("at").removeprefix("f") if verb != "fchown" else "chown"
        if path is None:
            return None
        if kind == "rename":
            other = self.path(pid, rest[1], rest[0]) if by_folder else self.path(pid, rest[0])
            return other and ["rename", path, other]
        if kind == "unlink":
            return ["rmdir" if "AT_REMOVEDIR" in rest[-1:] else "unlink", path]
        if kind in ("mkdir", "chmod"):
            mode = int(rest[0], 8)
            return [kind, path, f"{mode & ~UMASK if kind == 'mkdir' else mode:04o}"]
        if kind in ("chown", "lchown"):
            return None if "-1" in rest[:2] else ["chown", path, *rest[:2]]
        return ["length", path, rest[0]] if kind in ("truncate", "runcate") else [kind, path]

    def note(self, call):
        """The tree behind a call that was served."""
        if call[0] == "mkdir":
            self.known.add(call[1])
        elif call[0] in ("unlink", "rmdir"):
            self.known.discard(call[1])
        elif call[0] == "rename":
            moved = {it for it in self.known if it == call[1] or it.startswith(call[1] + b"/")}
            self.known.difference_update(moved)
            self.known.update(call[2] + it[len(call[1]):] for it in moved)

    def calls(self, pid, verb, words, came, error):
        """The calls of a line, each with its answer where it was served and tells more than `ok`."""
        if verb in ("open", "openat", "creat"):
            path = self.path(pid, words[1], words[0]) if verb == "openat" else self.path(pid, words[0])
            rest = words[2:] if verb == "openat" else words[1:]
            flags = "O_CREAT|O_WRONLY|O_TRUNC" if verb == "creat" else rest[0]
            mode = int(rest[-1], 8) if "O_CREAT" in flags else 0
            yield from self.open(pid, str(came), path, flags, mode, error) if path else ()
        elif verb in ("read", "write", "pread64", "pwrite64"):
            yield from () if error else self.moved(verb, pid, words, came)
        elif verb in FOLLOWED:
            self.follow(pid, verb, words, came)
        elif verb in UNTOLD:
            self.left_out[verb] += any(self.path(pid, it) in self.known for it in words)
        else:
            call = self.named(pid, verb, words)
            self.left_out[verb] += call is None
            if call:
                if not error:
                    self.note(call)
                yield call, None


NAMED = {"mkdir", "mkdirat", "unlink", "unlinkat", "rmdir", "rename", "renameat", "renameat2", "chmod", "fchmod", "fchmodat", "chown",
         "fchown", "fchownat", "lchown", "truncate", "ftruncate"}
FORKS = {"clone", "clone3", "fork", "vfork"}
FOLLOWED = FORKS | {"chdir", "fchdir", "lseek", "close", "dup", "dup2", "dup3", "fcntl"}
UNTOLD = {"link", "linkat", "symlink", "symlinkat", "copy_file_range", "sendfile", "readv", "writev"}
KNOWN = NAMED | FOLLOWED | UNTOLD | {"open", "openat", "creat", "read", "write", "pread64", "pwrite64"}


def whole_lines(lines):
    """The lines of a trace, those put together that another process broke."""
    begun = {}
    for line in lines:
        line = line.rstrip("\n")
        begin, end = BEGUN.match(line), RESUMED.match(line)
        if begin:
            begun[begin[1], begin[2]] = f"{begin[1] or ''} {begin[2]}({begin[3]}"
        elif end:
            yield begun.pop((end[1], end[2]), "") + end[3]
        else:
            yield line


def spelled(word):
    """A word of a line: a path as it stands, or behind `%` with each odd byte as `%` and two digits."""
    if isinstance(word, str):
        return word
    odd = any(not 0x21 <= it <= 0x7E for it in word)
    return "%" + "".join(chr(it) if 0x21 <= it <= 0x7E and it != 0x25 else f"%{it:02x}" for it in word) if odd else word.decode()


def tell(trace, who, lines):
    """Prints the lines of a trace."""
    for found in filter(None, map(LINE.match, map(str.strip, whole_lines(lines)))):
        pid, verb, words, came, error = found.groups()
        if verb not in KNOWN or came == "?":
            continue
        for call, answer in trace.calls(pid, verb, words_of(words), int(came), error):
            told = f"denied {RULE.get(error, 'N2')} {error} 0 0" if error else answer or "ok"
            print(f"0 as {who} | {' '.join(map(spelled, call))} | {told}")


def main(words):
    if len(words) < 2:
        sys.exit(__doc__)
    known, left_out = {b"/"}, collections.Counter()
    for word in words[1:]:
        user, groups, name = word.split(":", 2)
        trace = Trace(words[0], known)
        with open(name, errors="surrogateescape") as lines:
            tell(trace, f"{user} {groups}", lines)
        left_out += trace.left_out
    if left_out:
        print("left out: " + ", ".join(f"{verb} {count}" for verb, count in sorted(left_out.items())), file=sys.stderr)


if __name__ == "__main__":
    main(sys.argv[1:])
