#!/usr/bin/env python3
"""Runs the program on generated hostile scripts, and fails where it does what it must not.

hostile-scripts.py PROGRAM [COUNT [SEED]] makes COUNT byte strings (by default 200,000) by a generator that SEED (by
default 1) determines: random bytes; lines of the script with a byte changed, dropped or doubled; words swapped, dropped
or taken from elsewhere; numbers at each limit and past it. It runs PROGRAM on each, in a process of its own that has
200 MB of address space and 20 seconds, and asks of each run:

- its status is 0 or 1, and no signal ends it;
- at status 0 nothing stands on standard error, and what is printed ends in a report;
- at status 1 standard error has one line, and where that tells a fault of the script, nothing is printed.

Each string that breaks one of these is kept in a folder that is named at the end, and the status is 1. The last line
says how many runs ended with which status, and how long they took.
"""
import argparse
import collections
import multiprocessing
import os
import random
import resource
import signal
import sys
import tempfile
import time

MEMORY = 200 * 1000 * 1000
SECONDS = 20

# Numbers at the limits of the profile and of the words, and past them.
NUMBERS = [
    "0", "1", "2", "3", "4", "5", "7", "8", "9", "10", "15", "16", "17", "61", "62", "63", "64", "65", "139", "140", "16523", "16524",
    "141", "247", "248", "249", "255", "256", "511", "512", "513", "1023", "1024", "1025", "4095", "4096", "4097",
    "6143", "6144", "6145", "65535", "65536", "71679", "71680", "71681", "99999", "100000", "100001", "2147483647",
    "2147483648", "4294967294", "4294967295", "4294967296", "9223372036854775807", "9223372036854775808",
    "18446744073709551615", "18446744073709551616", "99999999999999999999", "100000000000000000000", "-1", "-0", "00",
    "007", "+1", "1e3", "0x10", "",
]
MODES = ["0", "0000", "0644", "0666", "0777", "1777", "4755", "07777", "7777", "10000", "000644", "0000644", "8", "-1"]
FLAGS = ["0", "1", "2", "4", "7", "00020000", "00040000", "60007", "ffffffff", "000000000", "g", "10", "20", "-"]
NAMES = ["a", "b", "d", "e", "f", "w", ".", "..", "...", "n" * 25, "n" * 26, "n" * 254, "n" * 255, "n" * 256, "%", "~"]
PATHS = ["/", "//", "/a", "/b", "/d", "/d/a", "/d/e", "/d/e/f", "/a/", "a", "", "/a//b", "/" + "x/" * 511 + "y",
         "/" + "x" * 1023, "/" + "x" * 1024, "/d/../a", "/./a"]
BYTES = ["-", "00", "61", "616263", "6", "6g", "FF", "ff", "00" * 511, "00" * 512, "00" * 513, "61" * 4096, "61" * 4097]
SEED_LINES = [
    "as 0 0", "as 5 5", "as 0 0 init", "as 5 5,6,7", "session 1", "session 8", "session 9", "#", "# words",
    "create /a 0644", "mkdir /d 0755", "write /a at 0 616263", "write /a end 64", "read /a 0 10", "list /", "list /d",
    "stat /a", "stat /", "length /a 4096", "length /a 71680", "unlink /a", "rmdir /d", "rename /a /b", "rename /d /d/e",
    "chmod /a 0600", "chown /a 5 5", "chflags /a 2", "chflags /a 00020000", "level 1", "level -1", "sync", "ifile",
    "infos 0", "infos 1", "bmapv", "bmapv 4:1:0:0", "markv", "markv 4:1:0:9", "segclean 0", "segclean 1", "gain", "pass",
    "markv 4:1:0:1 4:1:0:2 4:1:0:3 4:1:0:4 4:1:0:5 4:1:0:6 4:1:0:7 4:1:0:8",
    "bmapv 2:1:4294967295:2 4:1:2147483648:0 4294967295:4294967295:4294967295:4294967295",
]


def number(rng):
    return rng.choice(NUMBERS)


def info(rng):
    return ":".join(number(rng) for _ in range(rng.choice([4, 4, 4, 4, 3, 5])))


def path(rng):
    if rng.random() < 0.6:
        return rng.choice(PATHS)
    return "".join("/" + rng.choice(NAMES) for _ in range(rng.randrange(0, 6)))


def made_line(rng):
    """A line of a known verb with words at their limits."""
    p = lambda: path(rng)
    n = lambda: number(rng)
    return rng.choice([
        lambda: f"as {n()} {','.join(n() for _ in range(rng.choice([1, 2, 15, 16, 17])))}{rng.choice(['', ' init', ' x'])}",
        lambda: f"session {n()}",
        lambda: f"create {p()} {rng.choice(MODES)}",
        lambda: f"mkdir {p()} {rng.choice(MODES)}",
        lambda: f"write {p()} at {n()} {rng.choice(BYTES)}",
        lambda: f"write {p()} end {rng.choice(BYTES)}",
        lambda: f"read {p()} {n()} {n()}",
        lambda: f"list {p()}",
        lambda: f"stat {p()}",
        lambda: f"length {p()} {n()}",
        lambda: f"unlink {p()}",
        lambda: f"rmdir {p()}",
        lambda: f"rename {p()} {p()}",
        lambda: f"chmod {p()} {rng.choice(MODES)}",
        lambda: f"chown {p()} {n()} {n()}",
        lambda: f"chflags {p()} {rng.choice(FLAGS)}",
        lambda: f"level {n()}",
        lambda: f"infos {n()}",
        lambda: f"segclean {n()}",
        lambda: "bmapv" + "".join(" " + info(rng) for _ in range(rng.choice([0, 1, 8, 9, 248, 249]))),
        lambda: "markv" + "".join(" " + info(rng) for _ in range(rng.choice([0, 1, 7, 8, 9]))),
        lambda: rng.choice(["sync", "ifile", "pass", "#", "", " ", "sync ", " sync", "SYNC", "nothing"]),
    ])()


def good_line(rng):
    return rng.choice(SEED_LINES)


def damaged(rng, text):
    """The bytes with one of them changed, dropped, doubled, or with two words swapped, or one dropped or taken over."""
    data = bytearray(text)
    if not data:
        return bytes(data)
    kind = rng.randrange(7)
    at = rng.randrange(len(data))
    if kind == 0:
        data[at] = rng.randrange(256)
    elif kind == 1:
        del data[at]
    elif kind == 2:
        data[at:at] = data[at:at + 1]
    elif kind == 3:
        data[at:at] = bytes([rng.choice(b" \t\r\n\0\x7f\xff/:-0")])
    elif kind == 4:
        return bytes(data[:at])
    else:
        lines = bytes(data).split(b"\n")
        line = rng.randrange(len(lines))
        words = lines[line].split(b" ")
        i, j = rng.randrange(len(words)), rng.randrange(len(words))
        if kind == 5:
            words[i], words[j] = words[j], words[i]
        else:
            words[i] = rng.choice([b"", words[j], number(rng).encode(), path(rng).encode()])
        lines[line] = b" ".join(words)
        return b"\n".join(lines)
    return bytes(data)


def script(rng):
    """One byte string."""
    kind = rng.random()
    if kind < 0.1:
        return rng.randbytes(rng.choice([0, 1, 2, 16, 256, 4096]))
    if kind < 0.2:
        return bytes(rng.choice(b" \n#/:-0123456789abcdefstw") for _ in range(rng.randrange(200)))
    make = [good_line, made_line]
    lines = [rng.choice(make)(rng) if kind < 0.8 else good_line(rng) for _ in range(rng.choice([1, 2, 3, 8, 20]))]
    text = ("\n".join(lines) + "\n").encode()
    for _ in range(rng.choice([0, 1, 1, 1, 2]) if kind < 0.8 else 1):
        text = damaged(rng, text)
    return text


def arguments(rng):
    return rng.choice([[], [], ["--threads"], ["--segments", "6", "--inodes", "16"], ["--journal", "1"]])


def what_is_wrong(status, out, err):
    """What a run did that it must not do; none where it did not."""
    if status is None:
        return "no end"
    if status not in (0, 1):
        return f"status {status}"
    if status == 0:
        if err:
            return "it is told of a fault at status 0"
        return None if b"entries " in out else "no report"
    lines = err.split(b"\n")
    if len(lines) != 2 or lines[1] or not lines[0]:
        return "not one line of fault"
    if b"script" in err and out:
        return "printed before a fault of the script"
    return None


class Runner:
    """A process that runs the program again and again. Its limits are those of each run, and its three files stand for the
    streams of each, so that a run costs little more than the program's own start."""

    def __init__(self, program, seed):
        resource.setrlimit(resource.RLIMIT_AS, (MEMORY, MEMORY))
        resource.setrlimit(resource.RLIMIT_CORE, (0, 0))
        signal.signal(signal.SIGALRM, self.stop)
        self.program, self.seed = program, seed
        self.files = [tempfile.TemporaryFile() for _ in range(3)]
        self.actions = [(os.POSIX_SPAWN_DUP2, file.fileno(), to) for to, file in enumerate(self.files)]

    def stop(self, _signal, _frame):
        raise TimeoutError

    def end_of(self, text, words):
        """The status of a run on a text, and what it printed on each stream; no status where it does not end."""
        for file in self.files:
            file.seek(0)
            file.truncate()
        self.files[0].write(text)
        self.files[0].seek(0)
        pid = os.posix_spawn(self.program, [self.program, *words], {}, file_actions=self.actions)
        signal.alarm(SECONDS)
        try:
            status = os.waitstatus_to_exitcode(os.waitpid(pid, 0)[1])
        except TimeoutError:
            os.kill(pid, signal.SIGKILL)
            os.waitpid(pid, 0)
            status = None
        signal.alarm(0)
        for file in self.files[1:]:
            file.seek(0)
        return status, self.files[1].read(), self.files[2].read()

    def run(self, index):
        """Run INDEX: its number, its status, and its text and what is wrong with it, if something is."""
        rng = random.Random(f"{self.seed} {index}")
        text = script(rng)
        words = arguments(rng)
        status, out, err = self.end_of(text, words)
        wrong = what_is_wrong(status, out, err)
        return index, status, wrong and (text, words, wrong)


def start(program, seed):
    global runner
    runner = Runner(program, seed)


def run(index):
    return runner.run(index)


def main():
    parser = argparse.ArgumentParser(description=__doc__, formatter_class=argparse.RawDescriptionHelpFormatter)
    parser.add_argument("program", type=os.path.abspath)
    parser.add_argument("count", type=int, nargs="?", default=200_000)
    parser.add_argument("seed", nargs="?", default="1")
    asked = parser.parse_args()
    program, count, seed = asked.program, asked.count, asked.seed
    began = time.monotonic()
    ends = collections.Counter()
    folder = None
    with multiprocessing.Pool(initializer=start, initargs=(program, seed)) as pool:
        for index, status, wrong in pool.imap(run, range(count), chunksize=64):
            ends[status] += 1
            if wrong:
                text, words, why = wrong
                folder = folder or tempfile.mkdtemp(prefix="hostile-")
                with open(os.path.join(folder, f"{index}.lfs"), "wb") as kept:
                    kept.write(text)
                print(f"{index}: {why}, arguments {words}")
    seconds = time.monotonic() - began
    print(f"runs={count} seed={seed} " + " ".join(f"status{s}={n}" for s, n in sorted(ends.items(), key=str))
          + f" seconds={seconds:.0f}")
    if folder:
        sys.exit(f"kept in {folder}")


if __name__ == "__main__":
    main()
