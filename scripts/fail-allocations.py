#!/usr/bin/env python3
"""Lets one allocation of each thing that lfs_scarcity does fail, the first and so on, and judges what came of it.

fail-allocations.py [--most N] [--every K] [WORD..] does so for these words of the program, or for all that it
knows. With --most only the first N allocations of each word are let fail, with --every only each K-th. RT names the
command to run in place of `rt`.

A case is one word with one allocation that fails. `rt try` can let one alone fail, the same of each case, so a case
spends as many before its word as it takes to come to it: the program reads how many. The program is built twice,
once to see what each word prints and how many allocations it takes with ample memory, and once for all cases. Of
each case the script asks

- that the run ends with status 0, alike on the interpreter and compiled (on threads compiled alone);
- of `run`, that it prints what it prints with ample memory, or that a Read is refused NoMemory, counted in the report as
  one without entry, and nothing else is, or that it ends in `no memory`, `script line N: Memory` or `format Memory`;
- of `threads` and `serve` the same, also of a List and with `serve Thread`; what the cleaner did is not compared,
  since it depends on who is first, and a ring may be lost;
- of each other word, that the lines are those with ample memory, but that at most one is the named refusal of what
  was asked for; that the volume then is as it was before (the lines that look at it say so); and that the same,
  asked for again, is answered as with ample memory. Where answers are taken from the journal, a line may be less: a
  call that is refused has no entry.

A word is done where each of its allocations failed once, and so did three more, which it doesn't make. On threads
those are tried that are made near to where the threads begin; there, which allocation is the Nth changes from run
to run, and `refuse-growths.py` tries all. The status is 1 where a case is another, or no allocation of a word was refused.
"""
import argparse
import os
import re
import subprocess
import sys
import tempfile
import time

CRATE = os.path.join(os.path.dirname(os.path.abspath(__file__)), "..", "crates", "lfs_scarcity")

# More than the program spends at most.
NEVER = 100_000
# Allocations of the program itself, before and behind those that are spent: the vector that keeps them; of the
# words that run a script the room of the writer too.
OWN = 1
OWN_OF_RUNS = 2
# Allocations behind the last that a word makes, which are let fail too.
BEHIND = 3
# Of the words on threads it is known how many allocations are made before the first thread. Up to some of these
# the script is parsed, as by `script`; so those are tried that stand so near to where the threads begin.
BEFORE_THREADS = 60
BEHIND_THREADS = 100

RUN = """as 0 0
create /a 0644
write /a at 0 616263
as 5 5
read /a 0 10
write /a at 0 64
"""

LINES = """# all kinds
as 7 7,8,9
stat /a
create /a 0644
read /a 0 10
write /a at 0 616263
write /a end 64
list /
length /a 9
mkdir /d 0755
unlink /a
rmdir /d
rename /a /nnnnnnnnnnnnnnnnnnnnnnnnn
chmod /a 0600
chown /a 7 8
chflags /a 2
level 1
sync
session 3
ifile
infos 0
segclean 0
bmapv 4:1:0:0
markv 4:1:0:0
pass
"""

SESSIONS = (
    "mkdir /x 0777\nmkdir /y 0777\ncreate /w 0644\n"
    + "write /w at 0 61\nsync\n" * 40
    + """session 1
as 7 7
create /x/a 0644
write /x/a end 6869
read /x/a 0 9
list /x
session 2
as 8 8
create /y/b 0600
write /y/b end 6f
read /y/b 0 1
write /w at 0 62
"""
)

# The words, and the script behind each.
SCRIPTS = {
    "names": "",
    "paths": "",
    "frames": "",
    "cache": "",
    "formats": "",
    "opens": "",
    "script": LINES,
    "copies": "",
    "volume": "",
    "shows": "",
    "plain": "",
    "texts": "",
    "run": RUN,
    "threads": SESSIONS,
    "serve": SESSIONS,
}
ON_THREADS = {"threads", "serve"}
RUNS = ON_THREADS | {"run"}

NO_MEMORY = "lfsd: no memory"
FAULT = re.compile(r"lfsd: (no memory|format Memory|script line [0-9]+: Memory)$")
FAULT_ON_THREADS = re.compile(r"lfsd: (no memory|format Memory|serve Thread|script line [0-9]+: Memory)$")
# A refusal: what was asked for, and why it was not given.
SCRIPT_MEMORY = "ScriptFault { line: N, kind: Memory }"
REFUSAL = re.compile(r"([a-z-]+) ([A-Z].*)$")
LINE_NUMBER = re.compile(r"line: [0-9]+")
# The refusals that are named for each thing asked for.
NAMED = {
    "name": ["Memory"],
    "path": ["Memory"],
    "script": [SCRIPT_MEMORY],
    "calls": ["Script(%s)" % SCRIPT_MEMORY, "Memory"],
    "request": ["AllocError"],
    "answer": ["AllocError"],
    "frames": ["AllocError"],
    "cache": ["AllocError"],
    "opens": ["AllocError"],
    "loans": ["AllocError"],
    "segments": ["Memory"],
    "ifile": ["Memory"],
    "log": ["Memory"],
    "plain": ["Memory"],
    "plain-volume": ["Format(Memory)", "Memory"],
    "log-volume": ["Format(Memory)", "Memory"],
    "run": ["RunMemory"],
    "run-steps": ["RunMemory"],
    "read": ["NoMemory"],
    "list": ["NoMemory"],
    "ifile-bytes": ["NoMemory"],
    "split": ["Memory"],
    "print": ["AllocError"],
    "cleaner": ["AllocError"],
    "counts": ["AllocError"],
}
# The changes of the plain store; over a log they take no memory.
CHANGES_OF_PLAIN = ["create", "write", "length", "rename"]
# Of the looks a Read alone takes memory.
LOOK_THAT_SHOWS = "look bytes "
# What is asked for on the way, of which nothing is printed where it is given, and behind which no volume is
# looked at.
ON_THE_WAY = {"calls", "script", "request"}
# What makes a volume: there is none to look at where it is refused.
MAKES_A_VOLUME = {"plain-volume", "log-volume"}
# The words that make calls whose answers they take from the journal, and the line of each answer. A Read or a List
# that is refused has no entry, so there is one such line less.
LINE_OF_AN_ENTRY = {"copies": "answer same true", "texts": "print ok"}
# The lines that look at a volume.
LOOKS = ("look ", "entries ")
SHOWN = re.compile(r"([0-9]+) (bytes|names) ")


def tried(cases, failing):
    """Runs `rt try` on cases, names with inputs; gives the text, ending and allocations of each, and the last line."""
    with tempfile.TemporaryDirectory() as folder:
        for name, text in cases.items():
            with open(os.path.join(folder, name), "w", encoding="ascii") as file:
                file.write(text)
        command = [os.environ.get("RT", "rt"), "try", "--fail-alloc", str(failing), "--cases", folder]
        done = subprocess.run(command, cwd=CRATE, stdout=subprocess.PIPE, stderr=subprocess.STDOUT, check=False)
    found = {}
    name, lines, count = None, [], None
    last = ""
    for line in done.stdout.decode("utf-8", "replace").splitlines():
        last = line
        if line.startswith("== "):
            name, lines, count = line[3:], [], None
        elif line.startswith("allocations: "):
            count = int(line.rsplit(" ", 1)[1])
        elif line.startswith("case="):
            found[name] = (lines, line, count)
            name = None
        elif name is not None:
            lines.append(line)
    if len(found) != len(cases):
        told = done.stdout.decode("utf-8", "replace")[-4000:]
        sys.exit(told + "rt try told of %d of %d cases" % (len(found), len(cases)))
    return found, last


def has_ended(word, ending):
    """Whether a case ended by itself, on both runners alike; the interpreter has no threads."""
    runners = (1, 2) if word in ON_THREADS else (2,)
    return any(" run=ended status=0 runners=%d " % count in ending for count in runners)


def looks_at_end(lines):
    """The lines at the end that look at a volume."""
    start = len(lines)
    while start and lines[start - 1].startswith(LOOKS):
        start -= 1
    return lines[start:]


def refused(word, line, ample):
    """What a line says was refused, where that is a refusal named for it; `ample` is the line of ample memory there."""
    refusal = REFUSAL.match(line)
    if refusal is None:
        return None
    what, why = refusal.groups()
    named = NAMED.get(what, [])
    if (word == "plain" and what in CHANGES_OF_PLAIN) or (what == "look" and ample.startswith(LOOK_THAT_SHOWS)):
        named = ["NoMemory"]
    is_asked = what in ON_THE_WAY or ample.split(" ")[0] == what
    return what if is_asked and LINE_NUMBER.sub("line: N", why) in named else None


def is_refused_once(word, lines, ample):
    """Whether lines are the ample ones but for one refusal, at its place, and the looks behind it."""
    place = 0
    while place < min(len(lines), len(ample)) and lines[place] == ample[place]:
        place += 1
    # A refusal is none of the ample lines, so it stands at the first place that differs.
    if place == len(lines):
        return False
    what = refused(word, lines[place], ample[place] if place < len(ample) else "")
    if what is None:
        return False
    is_looked = what not in ON_THE_WAY | MAKES_A_VOLUME and what != "look"
    looks = looks_at_end(ample[:place]) if is_looked else []
    return lines[place + 1:] == looks + ample[place:]


def without_shown(lines, ample):
    """The ample lines of a run, with that line refused NoMemory that is so in these, and in the report no entry of it."""
    for place, line in enumerate(ample[:len(lines)]):
        shown = SHOWN.match(line)
        if shown and lines[place] == shown.group(1) + " refused NoMemory":
            changed = list(ample)
            changed[place] = lines[place]
            if any(line.startswith("entries ") for line in changed):
                # The report ends before the line that tells how the run ended.
                changed.insert(-1, "unentered NoMemory 1")
            return [less_one(line) if line.startswith(("entries ", "served ")) else line for line in changed]
    return None


def less_one(line):
    """A line of the report, with one less."""
    word, number = line.split(" ")
    return "%s %d" % (word, int(number) - 1)


def masked(lines):
    """Lines without how many entries there are and how many of them are the cleaner's."""
    return [line for line in lines if not line.startswith(("entries ", "cleaner "))]


def is_run(word, lines, ample):
    """Whether lines are those of a run that was refused memory once: a fault, or something shown that is refused.

    Of what was written before `no memory` nothing is promised but that it is the first of the lines."""
    fault = FAULT_ON_THREADS if word in ON_THREADS else FAULT
    if lines and fault.match(lines[-1]):
        before = lines[:-1]
        return not before or (lines[-1] == NO_MEMORY and before == ample[:len(before)])
    other = without_shown(lines, ample)
    if other is None:
        return False
    return masked(lines) == masked(other) if word in ON_THREADS else lines == other


def lacks_an_entry(word, lines, ample):
    """Whether lines are the ample ones without one that tells of an entry of the journal."""
    line = LINE_OF_AN_ENTRY.get(word)
    return line in ample and lines.count(line) == ample.count(line) - 1 and less(line, lines) == less(line, ample)


def less(line, lines):
    """Lines without those that are this one."""
    return [other for other in lines if other != line]


def judged(word, lines, ample):
    """`same`, `refused` or `other`."""
    if lines == ample or (word in ON_THREADS and masked(lines) == masked(ample)):
        return "same"
    if word in RUNS:
        return "refused" if is_run(word, lines, ample) else "other"
    return "refused" if is_refused_once(word, lines, ample) or lacks_an_entry(word, lines, ample) else "other"


def has_refusal(lines):
    """Whether a line tells of a want, or of any fault."""
    return any("Memory" in line or "AllocError" in line or line.startswith("lfsd: ") for line in lines)


def measured(words):
    """What each word prints with ample memory, and how many allocations it makes."""
    found, _ = tried({word: "0 %s\n%s" % (word, SCRIPTS[word]) for word in words}, NEVER)
    ample = {}
    for word, (lines, ending, count) in found.items():
        if not has_ended(word, ending) or has_refusal(lines) or not lines or count is None:
            sys.exit("%s, with ample memory: %s\n%s" % (word, ending, "\n".join(lines)))
        own = OWN_OF_RUNS if word in RUNS else OWN
        ample[word] = (lines, count - own)
    return ample


def numbers_of(word, count):
    """Which allocations of a word are let fail, of so many."""
    if word in ON_THREADS:
        return range(max(0, count - BEFORE_THREADS), count + BEHIND_THREADS)
    return range(0, count + BEHIND)


def main():
    parser = argparse.ArgumentParser()
    parser.add_argument("--most", type=int, default=NEVER)
    parser.add_argument("--every", type=int, default=1)
    parser.add_argument("words", nargs="*", metavar="WORD", help=", ".join(SCRIPTS))
    asked = parser.parse_args()
    words = asked.words or list(SCRIPTS)
    unknown = [word for word in words if word not in SCRIPTS]
    if unknown:
        parser.error("no such word: " + ", ".join(unknown))
    begun = time.monotonic()
    ample = measured(words)
    numbers = {word: numbers_of(word, count)[:asked.most:asked.every] for word, (_, count) in ample.items()}
    # Which allocation of a case fails: those before it are spent, or the word's.
    failing = max(places.stop for places in numbers.values()) + OWN_OF_RUNS + 1
    cases = {}
    for word in words:
        own = OWN_OF_RUNS if word in RUNS else OWN
        for number in numbers[word]:
            cases["%s-%04d" % (word, number)] = "%d %s\n%s" % (failing - 1 - own - number, word, SCRIPTS[word])
    found, last = tried(cases, failing)
    failed = False
    tally = {word: {"same": 0, "refused": 0, "other": 0} for word in words}
    for name, (lines, ending, _) in sorted(found.items()):
        word = name.rsplit("-", 1)[0]
        came = judged(word, lines, ample[word][0]) if has_ended(word, ending) else "other"
        tally[word][came] += 1
        if came == "other":
            failed = True
            print("%s: %s\n%s" % (name, ending, "\n".join(lines)))
    for word in words:
        counts = tally[word]
        print("%s: %d allocations, %d cases, %d refused, %d the same, %d other"
              % (word, ample[word][1], sum(counts.values()), counts["refused"], counts["same"], counts["other"]))
        if not counts["refused"]:
            failed = True
            print("%s: no allocation was refused" % word)
    print("%d cases in %d seconds; %s" % (len(cases), time.monotonic() - begun, last))
    return 1 if failed else 0


if __name__ == "__main__":
    sys.exit(main())
