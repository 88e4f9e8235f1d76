#!/usr/bin/env python3
"""Audits random journals, and measures audits of long ones.

random-journals.py LFSD SHELL TRAIL [COUNT [ENTRIES [BYTES]]] runs LFSD, a built `lfsd`, on COUNT generated scripts (by default
1,000) of three sessions on threads, with the cleaner beside them, and SHELL, a built `lfs_shell`, on COUNT talks in which three
sessions of several users take turns; and TRAIL, a built `lfs_audit_trail`, on the journal of each. Each must be legal; with one
of its answers changed it must be illegal there, or is told as another legal answer. Then it times a talk of ENTRIES lines
(1,000,000) and the audits of its journal, as lines and as JSON, and an audit of BYTES (2^30) of served reads that are streamed,
with the most memory that the audit took. The seeds are 1 to COUNT. The status is 1 where a journal isn't as it must be.
"""
import json
import random
import re
import subprocess
import sys
import tempfile
import time
from importlib import util
from pathlib import Path

SECONDS = 900
NAMES = ["a", "b", "c", "d"]
USERS = [("0", "0"), ("7", "7"), ("8", "8,20"), ("9", "9,20")]
# The least volume, which the cleaner has to empty while the sessions run.
SMALL = ["--segments", "6", "--inodes", "64"]

spec = util.spec_from_file_location("audit_scripts", Path(__file__).with_name("audit-scripts.py"))
audit_scripts = util.module_from_spec(spec)
spec.loader.exec_module(audit_scripts)


def path(draw):
    return "".join("/" + draw.choice(NAMES) for _ in range(draw.randrange(1, 4)))


def call(draw):
    """A call with random words."""
    here = path(draw)
    mode = f"{draw.choice([0o600, 0o640, 0o644, 0o660, 0o700, 0o750, 0o755, 0o777, 0o1777]):04o}"
    digits = "".join(draw.choice("0123456789abcdef") for _ in range(2 * draw.randrange(1, 9)))
    return draw.choice([
        f"stat {here}", f"read {here} 0 {draw.randrange(64)}", f"list {here}", f"write {here} end {digits}",
        f"write {here} at {draw.randrange(2000)} {digits}", f"create {here} {mode}", f"mkdir {here} {mode}", f"mkdir {here} {mode}",
        f"unlink {here}", f"rmdir {here}", f"rename {here} {path(draw)}", f"chmod {here} {mode}",
        f"chown {here} {draw.choice(['0', '7', '8'])} {draw.choice(['7', '20'])}", f"length {here} {draw.randrange(1500)}", "sync",
    ])


def talk(seed, lines):
    """A talk in which sessions take turns."""
    draw = random.Random(seed)
    told = ["chmod / 0777"]
    for _ in range(lines):
        if draw.random() < 0.5:
            session = draw.randrange(1, 4)
            uid, groups = draw.choice(USERS)
            told += [f"session {session}", f"as {uid} {groups}"]
        told.append(call(draw))
    return told


def script(seed, lines):
    """A script of three sessions that begin together behind a setup."""
    draw = random.Random(seed)
    told = ["chmod / 0777", "mkdir /a 0777", "create /b 0666"]
    for session in range(1, 4):
        uid, groups = draw.choice(USERS)
        told += [f"session {session}", f"as {uid} {groups}", *[call(draw) for _ in range(lines)]]
    return told


def threads_journal(lfsd, told):
    """The lines of the journal of a script whose sessions run on threads, without their numbers."""
    with tempfile.TemporaryDirectory() as folder:
        out = Path(folder) / "journal"
        words = [lfsd, "--threads", *SMALL, "--journal-out", str(out)]
        subprocess.run(words, input="\n".join([*told, ""]).encode(), stdout=subprocess.DEVNULL, timeout=SECONDS, check=True)
        return [line.split(" ", 1)[1] for line in out.read_text("ascii").splitlines()]


def journal(shell, told, more=()):
    ran = subprocess.run([shell, *more], input="\n".join([*told, ".journal", ""]).encode(), stdout=subprocess.PIPE, timeout=SECONDS)
    return [line for line in ran.stdout.decode("ascii").split("\n") if audit_scripts.ENTRY.fullmatch(line)]


def tried(trail, count, made, words=()):
    """Audits as many journals as are made of seeds. Gives how many entries there were, how many changes were illegal and weren't,
    and how many sessions' calls stood between two of another; None where a journal is illegal."""
    entries = illegal = other = turns = 0
    for seed in range(1, count + 1):
        lines = made(seed)
        entries += len(lines)
        who = [line.split(" ", 1)[0] for line in lines]
        turns += sum(a != b for a, b in zip(who, who[1:]))
        if audit_scripts.audited(trail, lines, words) != ("legal", len(lines)):
            print(f"seed {seed} is not legal")
            return None
        at = random.Random(-seed).randrange(len(lines))
        changed = audit_scripts.changed(lines[at])
        if audit_scripts.audited(trail, [*lines[:at], changed], words) == ("illegal", at + 1):
            illegal += 1
        else:
            other += 1
            print(f"seed {seed}, entry {at + 1}: {changed}")
    return f"{entries} entries, {turns} turns of sessions, {illegal} changes illegal, {other} not"


def long_journal(shell, trail, count):
    """The seconds of a talk of many lines, and of the audits of its journal, as lines and as JSON; its entries, and what both
    found."""
    told = talk(0, count)
    began = time.monotonic()
    lines = journal(shell, told, ["--journal", "1000000"])
    made = time.monotonic()
    found = audit_scripts.audited(trail, lines)
    between = time.monotonic()
    status, text = audit_scripts.run([trail, "--json"], "".join(line + "\n" for line in lines))
    ended = time.monotonic()
    report = json.loads(text)
    told = ("legal" if status == 0 and report["legal"] else "illegal", report["entries"])
    return (made - began, between - made, ended - between), len(lines), (found, told)


def streamed(trail, size):
    """The seconds of an audit of so many bytes of reads, and the most memory that it took up to their end, in KiB."""
    front = f"0 as 0 0 | create /a 0644 | ok\n0 as 0 0 | write /a end {'61' * 4096} | ok\n"
    line = f"0 as 0 0 | read /a 0 4096 | bytes {'61' * 4096}\n".encode()
    began = time.monotonic()
    with subprocess.Popen([trail], stdin=subprocess.PIPE, stdout=subprocess.PIPE) as child:
        child.stdin.write(front.encode())
        for _ in range(size // len(line)):
            child.stdin.write(line)
        child.stdin.flush()
        status = Path(f"/proc/{child.pid}/status").read_text("ascii")
        child.stdin.close()
        found = child.stdout.read().split(b"\n")[0].decode()
    return time.monotonic() - began, int(re.search(r"VmHWM:\s*(\d+)", status)[1]), found


def main(lfsd, shell, trail, count="1000", entries="1000000", size=str(1 << 30)):
    ways = [
        ("on threads", lambda seed: threads_journal(lfsd, script(seed, 1000)), SMALL),
        ("by turns", lambda seed: journal(shell, talk(seed, 60)), ()),
    ]
    for way, made, words in ways:
        found = tried(trail, int(count), made, words)
        if found is None:
            return 1
        print(f"{count} journals {way}: {found}")
    seconds, memory, found = streamed(trail, int(size))
    print(f"{size} bytes streamed: {found}, {seconds:.0f} s, at most {memory} KiB")
    (making, auditing, telling), lines, found = long_journal(shell, trail, int(entries))
    print(f"{lines} entries: made in {making:.1f} s, audited in {auditing:.1f} s, as JSON in {telling:.1f} s, {found[0][0]}")
    return 0 if found == (("legal", lines), ("legal", lines)) else 1


if __name__ == "__main__":
    if len(sys.argv) < 4:
        sys.exit(__doc__)
    sys.exit(main(*sys.argv[1:]))
