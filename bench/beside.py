#!/usr/bin/env python3
"""Sets the built program beside two others that keep to no contract, and prints how many times as fast it is.

beside.py [--runs N] [--calls N] [--instructions] [--huge-pages] [--write] PROGRAM [WORKLOAD ..] builds `calls.c` (a script's lines by system calls on a
tmpfs, no journal) with gcc and `plain.rs` (hash tables, search, read and write permission alone, a journal) with rustc,
both with optimisation, and runs the scripts of `workload.awk` on PROGRAM, a built `lfsd`, and on these two, by turns. A
time is the processor's, user and system, the least of N runs, with that of the script without the timed calls taken
away. Needs root, for the callers of the first. With --instructions it counts instructions in place of time, by
valgrind's callgrind, of PROGRAM and the second, which takes no idle machine. With --huge-pages the C library asks the
kernel for pages of 2 MiB for what a program allocates, all three alike. With --write the table goes to
docs/speed/beside.csv, beside-huge.csv or instructions.csv, with the processor, the kernel and the commit.
"""
import argparse
import os
import platform
import re
import subprocess
import sys
import tempfile
from pathlib import Path

BENCH = Path(__file__).resolve().parent
SPEED = BENCH.parent / "docs" / "speed"
# a script of lfsd has at most 1,048,576 bytes
MOST = {"write-4k": 100, "read-hot": 1000}
NAMES = {"create-unlink": 240, "rename": 240}
OPTIONS = ["--segments", "1024", "--inodes", "512", "--journal", "100000"]
LOADS = "stat-deep read-hot write-4k write-small create-unlink rename list-large deny mixed".split()
HEAD = ("Workload,names,lfsd ns a call,system calls on a tmpfs,plain Rust,"
        "times as fast as system calls,times as fast as plain Rust")
COUNTED_HEAD = "Workload,names,lfsd instructions a call,plain Rust,times as few as plain Rust"
HUGE_PAGES = {"GLIBC_TUNABLES": "glibc.malloc.hugetlb=1"}
SECONDS = 120


def script_of(load, names, calls, to):
    words = ["awk", "-v", f"load={load}", "-v", f"names={names}", "-v", f"calls={calls}", "-f", BENCH / "workload.awk"]
    with open(to, "wb") as out:
        subprocess.run(words, stdout=out, check=True, timeout=SECONDS)
    return to


def seconds_of(words, script, folder, extra):
    """The processor's seconds of a run on a script, in an empty folder on a tmpfs."""
    with tempfile.TemporaryDirectory(dir=folder) as room, open(script, "rb") as lines:
        os.chmod(room, 0o755)
        child = subprocess.Popen(words, stdin=lines, stdout=subprocess.DEVNULL, cwd=room, env=os.environ | extra)
        _, status, used = os.wait4(child.pid, 0)
        child.returncode = status
        if status:
            sys.exit(f"beside: {words[0]} ended with status {status} on {script}")
        return used.ru_utime + used.ru_stime


def instructions_of(words, script):
    """The instructions of a run on a script."""
    counted = ["valgrind", "--tool=callgrind", "--callgrind-out-file=/dev/null", *words]
    with open(script, "rb") as lines:
        ran = subprocess.run(counted, stdin=lines, stdout=subprocess.DEVNULL, stderr=subprocess.PIPE, text=True, check=True)
    return int(re.search(r"Collected : (\d+)", ran.stderr)[1])


def counted(load, programs, asked, folder):
    """A line of the table of instructions."""
    calls, names = min(asked.calls, MOST.get(load, asked.calls)), NAMES.get(load, 15)
    whole, start = (script_of(load, names, count, folder / f"{count}") for count in (calls, 0))
    own, plain = (round((instructions_of(words, whole) - instructions_of(words, start)) / calls) for words in programs)
    return f"{load},{names},{own},{plain},{plain / own:.2f}"


def least(programs, script, asked, folder):
    """The least time of each program on a script, the programs by turns."""
    found = {name: [] for name in programs}
    for _ in range(asked.runs):
        for name, words in programs.items():
            found[name].append(seconds_of(words, script, folder, HUGE_PAGES if asked.huge_pages else {}))
    return {name: min(times) for name, times in found.items()}


def measured(load, programs, asked, folder):
    calls, names = min(asked.calls, MOST.get(load, asked.calls)), NAMES.get(load, 15)
    whole = least(programs, script_of(load, names, calls, folder / "whole"), asked, folder)
    start = least(programs, script_of(load, names, 0, folder / "start"), asked, folder)
    own, system, plain = (max(1, round(1e9 * (whole[name] - start[name]) / calls)) for name in programs)
    return f"{load},{names},{own},{system},{plain},{system / own:.2f},{plain / own:.2f}"


def built(folder):
    subprocess.run(["gcc", "-O2", "-o", folder / "calls", BENCH / "calls.c"], check=True)
    subprocess.run(["rustc", "-O", "--edition", "2024", "-o", folder / "plain", BENCH / "plain.rs"], check=True)


def machine():
    model = next((line.split(":")[1].strip() for line in open("/proc/cpuinfo") if line.startswith("model name")), "unknown")
    commit = subprocess.run(["git", "-C", BENCH, "rev-parse", "--short", "HEAD"], capture_output=True, text=True).stdout.strip()
    return f"# {model}; Linux {platform.release()}; commit {commit}"


def main():
    parser = argparse.ArgumentParser(description=__doc__.split("\n")[0])
    parser.add_argument("program")
    parser.add_argument("loads", nargs="*", metavar="WORKLOAD", help=" ".join(LOADS))
    parser.add_argument("--runs", type=int, default=11)
    parser.add_argument("--calls", type=int, default=10000)
    parser.add_argument("--instructions", action="store_true")
    parser.add_argument("--huge-pages", action="store_true")
    parser.add_argument("--write", action="store_true")
    asked = parser.parse_args()
    with tempfile.TemporaryDirectory(dir="/dev/shm") as room:
        folder = Path(room)
        os.chmod(folder, 0o755)
        built(folder)
        programs = {"lfsd": [os.path.abspath(asked.program), *OPTIONS], "calls": [folder / "calls"], "plain": [folder / "plain"]}
        loads = asked.loads or LOADS
        if asked.instructions:
            head, table, both = COUNTED_HEAD, "instructions.csv", [programs["lfsd"], programs["plain"]]
            lines = [counted(load, both, asked, folder) for load in loads]
        else:
            head, table = HEAD, "beside-huge.csv" if asked.huge_pages else "beside.csv"
            lines = [measured(load, programs, asked, folder) for load in loads]
    text = "\n".join([machine(), head, *lines]) + "\n"
    print(text, end="")
    if asked.write:
        (SPEED / table).write_text(text, encoding="utf-8")


if __name__ == "__main__":
    main()
