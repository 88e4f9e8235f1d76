#!/usr/bin/env python3
"""A client of `lfs_shell --framed`: it says a line and reads a count, and then so many lines, which are the answer.

  client.py SHELL LINE..   says each LINE to SHELL, a built lfs_shell, and shows its answer, and then the report
  client.py SHELL          says lines whose answers are known, and ends with status 1 where one is answered otherwise
"""
import subprocess
import sys

# lines, and the answer to each: none, one line, several, a fault
KNOWN = [
    ("create /a 0644", ["0 ok"]),
    ("as 8 8", []),
    ("unlink /a", ["0 denied M2 EACCES 0 0"]),
    ("list /", ["0 names a"]),
    (".why stat /nothing", [
        "N1 directory       path 0 at 0 yes 2 dir 0 0 0755 00000000",
        "S1 search          path 0 at 0 yes 2 dir 0 0 0755 00000000 others r-x",
        "N2 name there      path 0 at 1 no  nothing",
        "denied N2 ENOENT 0 1",
    ]),
    ("# a comment", []),
    ("stta /a", ["fault Words line 7 'stta' at 1: no line begins so"]),
]
REPORT = ["entries 3", "served 2", "denied 1", "refused 0", "cleaner 0", "rule M2 1"]


class Shell:
    """A talk with a shell."""

    def __init__(self, program):
        self.process = subprocess.Popen([program, "--framed"], stdin=subprocess.PIPE, stdout=subprocess.PIPE)

    def answer(self):
        """The next answer: its lines, as many as the count before them says."""
        count = int(self.process.stdout.readline())
        return [self.process.stdout.readline().decode().rstrip("\n") for _ in range(count)]

    def ask(self, line):
        """Says a line, and gives its answer."""
        self.process.stdin.write(line.encode() + b"\n")
        self.process.stdin.flush()
        return self.answer()

    def end(self):
        """Ends the talk, and gives its report."""
        report = self.ask(".quit")
        self.process.wait()
        return report


def is_answered(line, found, wanted):
    """Whether a line has the answer that is wanted; else it is told."""
    if found != wanted:
        print(f"{line}: {found}, and not {wanted}")
    return found == wanted


def main():
    if len(sys.argv) < 2:
        sys.exit(__doc__)
    shell = Shell(sys.argv[1])
    if sys.argv[2:]:
        for line in sys.argv[2:]:
            print(*[f"{line}:"] + shell.ask(line), sep="\n  ")
        print(*["report:"] + shell.end(), sep="\n  ")
        return
    all_so = [is_answered(line, shell.ask(line), wanted) for line, wanted in KNOWN]
    all_so.append(is_answered("report", shell.end(), REPORT))
    sys.exit(0 if all(all_so) else 1)


if __name__ == "__main__":
    main()
