#!/usr/bin/env python3
"""Makes the tables of the benchmark: what a call costs, what that grows with, and what sessions on threads serve.

alone.py BENCH [--runs N] [--races N] [--write] runs a built `lfs_bench`: all its workloads, each time the least of N
runs, and `sessions` with so many races. Where a table goes its name says: `plain.csv` has the plain store and the
cache, `log.csv` the log store, `sessions.csv` the races. With --write they go to docs/speed/, else they are printed.
It takes an idle machine.
"""
import argparse
import os
import subprocess
from pathlib import Path

from beside import machine

SPEED = Path(__file__).resolve().parent.parent / "docs" / "speed"
HEAD = "Workload,What grows,From,ns a call,4 times,16 times,Ratio"
RACES_HEAD = "Calls,Served in a second by one session,By eight sessions,Ratio,Served of the eight's calls"
SESSIONS = "sessions"


def rows(words):
    """The rows of a program's table, each a list of its cells, without the head."""
    done = subprocess.run(words, check=True, capture_output=True, text=True)
    cells = [[cell.strip() for cell in line.strip("|").split("|")] for line in done.stderr.splitlines() if line.startswith("|")]
    return [row for row in cells if row[-1] not in ("Ratio", "---") and not row[0].startswith("Calls")]


def tables(asked):
    """The text of each table by its name."""
    grown = [row for row in rows([asked.bench, "--runs", str(asked.runs)]) if len(row) == 7]
    lines = [",".join([row[0].replace(", ", " "), *row[1:]]) for row in grown]
    races = rows([asked.bench, SESSIONS, "--runs", str(asked.races)])
    found = {
        "plain.csv": [HEAD, *[line for line in lines if " log" not in line.split(",")[0]]],
        "log.csv": [HEAD, *[line for line in lines if " log" in line.split(",")[0]]],
        "sessions.csv": [RACES_HEAD, *[",".join(race) for race in races]],
    }
    return {name: "\n".join([machine(), *text]) + "\n" for name, text in found.items()}


def main():
    parser = argparse.ArgumentParser(description=__doc__.split("\n")[0])
    parser.add_argument("bench", type=os.path.abspath)
    parser.add_argument("--runs", type=int, default=9)
    parser.add_argument("--races", type=int, default=20)
    parser.add_argument("--write", action="store_true")
    asked = parser.parse_args()
    for name, text in tables(asked).items():
        if asked.write:
            (SPEED / name).write_text(text, encoding="utf-8")
        else:
            print(f"{name}\n{text}", end="")


main()
