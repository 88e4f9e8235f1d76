#!/usr/bin/env python3
"""Answers questions from a journal, as `.journal` of lfs_shell prints it.

audit-example.py [JOURNAL [USER]] reads JOURNAL (else standard input) and prints

- which user was denied what by which rule, and how often;
- for each file and directory that the journal made or changed and that is still there, who changed it last, and how;
- which paths USER (by default 8) tried to read and could not: a permission denied it, and no read of them was served.

Lines that are no entry are passed over, so a whole talk may be handed in. A rename takes all below a directory along.
`examples/audit` has a journal, and what is printed of it.
"""
import collections
import re
import sys

WHO = re.compile(r"([0-8]) as (\d+) [\d,]+( init)?")
CHANGES = {"create", "mkdir", "write", "length", "chmod", "chown", "chflags", "rename"}
# The cleaner's calls, of which a denial tells no rule.
CLEANING = {"ifile", "infos", "bmapv", "markv", "segclean", "gain"}
# Rules that say that a name is not there, or no directory: no permission.
MISSING = {"N1", "N2"}

Entry = collections.namedtuple("Entry", "session user call answer")


def entries(lines):
    """The entries among lines: the session, the user, the words of the call and those of the answer."""
    for line in lines:
        # No word of a caller or a call holds a space, so the first two ` | ` are those of the form.
        parts = line.rstrip("\n").split(" | ", 2)
        who = WHO.fullmatch(parts[0])
        if len(parts) == 3 and who:
            yield Entry(int(who[1]), int(who[2]), parts[1].split(" "), parts[2].split(" "))


def path_of(word):
    """The bytes of a path: as the word stands, or behind `%` with each odd byte as `%` and two digits."""
    if not word.startswith("%"):
        return word.encode()
    return re.sub(rb"%([0-9a-f]{2})", lambda digits: bytes([int(digits[1], 16)]), word[1:].encode())


def shown(path):
    return path.decode("ascii", "backslashreplace")


def is_within(path, top):
    return path == top or path.startswith(top + b"/")


def denials(journal):
    """How often each user was denied each call by each rule."""
    return collections.Counter(
        (entry.user, entry.call[0], entry.answer[1])
        for entry in journal
        if entry.answer[0] == "denied" and entry.call[0] not in CLEANING
    )


def last_changes(journal):
    """The path of each file that was made or changed and is there at the end, with the entry that changed it last."""
    last = {}
    for entry in journal:
        verb, *words = entry.call
        if entry.answer[0] != "ok" or verb not in CHANGES | {"unlink", "rmdir"}:
            continue
        path = path_of(words[0])
        if verb in ("unlink", "rmdir"):
            last.pop(path, None)
        elif verb == "rename" and path != path_of(words[1]):
            target = path_of(words[1])
            moved = {target + old[len(path):]: by for old, by in last.items() if is_within(old, path)}
            last = {old: by for old, by in last.items() if not is_within(old, path) and old != target}
            last.update(moved)
            last[target] = entry
        else:
            last[path] = entry
    return last


def unread(journal, user):
    """The paths that a user tried to read, and how often, where a permission denied it and no read was served."""
    tried, served = collections.Counter(), set()
    for entry in journal:
        if entry.user != user or entry.call[0] != "read":
            continue
        path = path_of(entry.call[1])
        if entry.answer[0] == "bytes":
            served.add(path)
        elif entry.answer[0] == "denied" and entry.answer[1] not in MISSING:
            tried[path] += 1
    return {path: count for path, count in tried.items() if path not in served}


def times(count):
    return "once" if count == 1 else f"{count} times"


def main(arguments):
    with open(arguments[0], encoding="ascii") if arguments else sys.stdin as lines:
        journal = list(entries(lines))
    user = int(arguments[1]) if len(arguments) > 1 else 8
    print(f"{len(journal)} entries")
    print("denied:")
    for (who, verb, rule), count in sorted(denials(journal).items()):
        print(f"  user {who}: {verb} by {rule}, {times(count)}")
    print("changed last:")
    for path, entry in sorted(last_changes(journal).items()):
        print(f"  {shown(path)}: user {entry.user} in session {entry.session}, {entry.call[0]}")
    print(f"user {user} could not read:")
    for path, count in sorted(unread(journal, user).items()):
        print(f"  {shown(path)}, tried {times(count)}")


if __name__ == "__main__":
    main(sys.argv[1:])
