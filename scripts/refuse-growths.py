#!/usr/bin/env python3
"""Refuses each growth of a run on threads in turn, up to a run without a refusal, and judges what came of it.

refuse-growths.py SCARCITY [WORD..] does so for these words of the built program `lfs_scarcity`, or for `run`, `threads` and
`serve`. Which growth is the Nth changes from run to run where threads are many; so each number is tried, from 1 to the
first that no growth of its run has. A small library between the program and the C library, which needs `cc`, counts
the growths and refuses one. Each run is judged as by `fail-allocations.py`: it ends in the named fault, prints what it
prints with ample memory, or so but for one Read or List that is refused. The status is 1 where a run is another.
"""
import argparse
import importlib.util
import os
import pathlib
import struct
import subprocess
import sys
import tempfile

HERE = pathlib.Path(__file__).resolve().parent

SOURCE = r"""
#include <fcntl.h>
#include <stdatomic.h>
#include <stdlib.h>
#include <sys/mman.h>
#include <unistd.h>

extern void *__libc_malloc(size_t);
extern void *__libc_realloc(void *, size_t);

static _Atomic long *made;
static long refused;

__attribute__((constructor)) static void begin(void) {
    int file = open(getenv("GROWTHS"), O_RDWR);
    refused = atol(getenv("REFUSED"));
    made = mmap(0, sizeof *made, PROT_READ | PROT_WRITE, MAP_SHARED, file, 0);
    close(file);
}

static int is_refused(void) { return made && atomic_fetch_add(made, 1) + 1 == refused; }

void *malloc(size_t size) { return is_refused() ? 0 : __libc_malloc(size); }

void *realloc(void *old, size_t size) { return is_refused() ? 0 : __libc_realloc(old, size); }
"""

# What the program says where its own room is refused, before the run: its status, and its line.
OWN = {(3, "spent"), (0, "no writer")}
# A run is over after so many seconds.
SECONDS = 60


def judge():
    """The judge of the script that lets allocations fail."""
    spec = importlib.util.spec_from_file_location("fail_allocations", HERE / "fail-allocations.py")
    module = importlib.util.module_from_spec(spec)
    spec.loader.exec_module(module)
    return module


def run(program, folder, text, number):
    """Runs the program with growth `number` refused: its status, its lines, and how many growths there were."""
    growths = folder / "growths"
    growths.write_bytes(bytes(8))
    environment = dict(os.environ, LD_PRELOAD=str(folder / "refuse.so"), GROWTHS=str(growths), REFUSED=str(number))
    done = subprocess.run([program], input=text.encode(), env=environment, capture_output=True, timeout=SECONDS, check=False)
    lines = done.stdout.decode("utf-8", "replace").splitlines()
    return done.returncode, lines, struct.unpack("q", growths.read_bytes())[0]


def tried(judges, program, folder, word):
    """Refuses each growth of a word in turn. Whether all runs were as they may be."""
    text = "0 %s\n%s" % (word, judges.SCRIPTS[word])
    status, ample, _ = run(program, folder, text, 0)
    if status or judges.has_refusal(ample):
        sys.exit("%s, with ample memory: status %d\n%s" % (word, status, "\n".join(ample)))
    counts = {"same": 0, "refused": 0, "own": 0, "other": 0}
    number = 1
    while True:
        status, lines, growths = run(program, folder, text, number)
        if growths < number:
            break
        came = judges.judged(word, lines, ample) if status == 0 else "other"
        if (status, "\n".join(lines)) in OWN:
            came = "own"
        if came == "other":
            print("%s, growth %d of %d: status %d\n%s" % (word, number, growths, status, "\n".join(lines)))
        counts[came] += 1
        number += 1
    print("%s: %d growths, each refused once: %d told so, %d left no trace, %d were the program's own, %d other"
          % (word, number - 1, counts["refused"], counts["same"], counts["own"], counts["other"]))
    return not counts["other"] and counts["refused"] > 0


def main():
    parser = argparse.ArgumentParser()
    parser.add_argument("program", metavar="SCARCITY")
    parser.add_argument("words", nargs="*", metavar="WORD")
    asked = parser.parse_args()
    judges = judge()
    words = asked.words or sorted(judges.RUNS)
    unknown = [word for word in words if word not in judges.RUNS]
    if unknown:
        parser.error("no such word: " + ", ".join(unknown))
    with tempfile.TemporaryDirectory() as name:
        folder = pathlib.Path(name)
        (folder / "refuse.c").write_text(SOURCE, encoding="ascii")
        subprocess.run(["cc", "-O1", "-shared", "-fPIC", "-o", folder / "refuse.so", folder / "refuse.c"], check=True)
        good = [tried(judges, os.path.abspath(asked.program), folder, word) for word in words]
    return 0 if all(good) else 1


if __name__ == "__main__":
    sys.exit(main())
