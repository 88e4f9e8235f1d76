#!/usr/bin/env python3
"""Sets a mount of `lfs_fuse` beside libfuse's passthrough_ll over a tmpfs, which keeps no names and attributes either.

mounts.py PROGRAM [--rounds N] [--names N] [--seconds N] [--apart] [--write], as root, with /dev/fuse, gcc, pkg-config
and Debian's libfuse3-dev, in whose examples passthrough_ll.c stands. PROGRAM is a built `lfs_fuse`. Both are mounted,
and the same calls are made on them by turns, in twenty folders of N names, by a process of user 7, whose groups
`lfs_fuse` learns from /proc, and by one of the superuser's; no round begins after the seconds. All run on one
processor, as who calls waits for the answer; with --apart where the kernel puts them, and then a call's time is as much
that of a processor that wakes up. Prints a table: of the best round the calls or MiB a second of both, and the least
processor time of the server for one. With --write it goes to docs/speed/mounts.csv.
"""
import argparse
import os
import signal
import subprocess
import sys
import tempfile
import time
from pathlib import Path

from beside import machine

TABLE = Path(__file__).resolve().parent.parent / "docs" / "speed" / "mounts.csv"
EXAMPLE = Path("/usr/share/doc/libfuse3-dev/examples/passthrough_ll.c")
PIECE = bytes(range(256)) * 512
PIECES, PASSES = 64, 8
FOLDERS = [f"folder-{it:02}" for it in range(20)]
USERS = 7, 0


def create(name):
    os.close(os.open(name, os.O_CREAT | os.O_EXCL | os.O_WRONLY, 0o644))


def open_and_read(name):
    file = os.open(name, os.O_RDONLY)
    os.read(file, 4096)
    os.close(file)


def rename(name):
    os.rename(name, f"{name}-")


def remove(name):
    os.unlink(f"{name}-")


def of_names(call, names):
    """Makes a call for each name in each folder."""
    for folder in FOLDERS:
        os.chdir(folder)
        for name in names:
            call(name)
        os.chdir("..")


def write_all(file, rest, place):
    """Writes bytes from a place on, in as many calls as it takes."""
    while rest:
        count = os.pwrite(file, rest, place)
        rest, place = rest[count:], place + count


def write(_call, _names):
    for _ in range(PASSES):
        file = os.open("large", os.O_CREAT | os.O_TRUNC | os.O_WRONLY, 0o644)
        for place in range(PIECES):
            write_all(file, PIECE, place * len(PIECE))
        os.close(file)


def read(_call, _names):
    for _ in range(PASSES):
        file = os.open("large", os.O_RDONLY)
        for place in range(PIECES):
            os.pread(file, len(PIECE), place * len(PIECE))
        os.close(file)


# What is timed, in order.
MEBIBYTES = PASSES * PIECES * len(PIECE) / 2**20
LOADS = {"create": (of_names, create), "stat": (of_names, os.stat), "open-read-close": (of_names, open_and_read), "rename": (of_names, rename),
         "remove": (of_names, remove), "write 128 KiB": (write, None), "read 128 KiB": (read, None)}


class Mount:
    """A mounted folder and the process that serves it."""

    def __init__(self, folder, server):
        self.folder, self.server = folder, server
        end = time.monotonic() + 10
        while not os.path.ismount(folder) and time.monotonic() < end:
            time.sleep(0.05)
        os.chmod(folder, 0o777)
        for name in FOLDERS:
            os.mkdir(f"{folder}/{name}")
            os.chmod(f"{folder}/{name}", 0o777)

    def processor(self):
        """The server's processor time until now, in seconds."""
        return sum(int(it.read_text().split()[0]) for it in Path(f"/proc/{self.server.pid}/task").glob("*/schedstat")) / 1e9

    def end(self):
        subprocess.run(["umount", "-l", self.folder], check=False)
        try:
            self.server.wait(timeout=10)
        except subprocess.TimeoutExpired:
            self.server.send_signal(signal.SIGKILL)


def proved(program, folder):
    """Mounts by the program: its standard input and output are the open device."""
    device = os.open("/dev/fuse", os.O_RDWR)
    options = f"fd={device},rootmode=40000,user_id=0,group_id=0,allow_other"
    subprocess.run(["mount", "-i", "-t", "fuse", "-o", options, "lfs", folder], check=True, pass_fds=[device])
    server = subprocess.Popen([program], stdin=device, stdout=device)
    os.close(device)
    return Mount(folder, server)


def passthrough(program, source, folder):
    """Mounts a folder of a tmpfs by libfuse's example."""
    words = [program, "-f", "-o", f"source={source},timeout=0,cache=never,allow_other", folder]
    return Mount(folder, subprocess.Popen(words))


def in_child(user, action):
    """The seconds that an action takes in a process of a user's."""
    come, go = os.pipe()
    child = os.fork()
    if not child:
        try:
            os.setgroups([user, 70, 71])
            os.setresgid(user, user, user)
            os.setresuid(user, user, user)
            start = time.perf_counter()
            action()
            os.write(go, str(time.perf_counter() - start).encode())
        finally:
            os._exit(0)
    os.close(go)
    with os.fdopen(come) as told:
        seconds = told.read()
    os.waitpid(child, 0)
    return float(seconds)


def measured(mount, load, names, user):
    """The seconds of a load on a mount by the clock and by the server's processor."""
    os.chdir(mount.folder)
    before = mount.processor()
    seconds = in_child(user, lambda: load[0](load[1], names))
    used = mount.processor() - before
    os.chdir("/")
    return seconds, used


def rounds(mounts, asked):
    """The times of each load of each user on each mount, by turns, in as many rounds as the seconds allow."""
    names = [f"file-{it:05}" for it in range(asked.names)]
    found = {(name, user): [[] for _ in mounts] for user in USERS for name in LOADS}
    end = time.monotonic() + asked.seconds
    for turn in range(asked.rounds):
        for name, user in found:
            for it in (range(len(mounts)) if turn % 2 else reversed(range(len(mounts)))):
                found[name, user][it].append(measured(mounts[it], LOADS[name], names, user))
        if time.monotonic() > end:
            break
    return found


def table(found, asked):
    """The table's lines."""
    yield "Load,user,lfs_fuse a second,passthrough_ll a second,times as fast,lfs_fuse's processor us,passthrough_ll's,times as little"
    for (name, user), of_mounts in found.items():
        count = asked.names * len(FOLDERS) if LOADS[name][0] is of_names else MEBIBYTES
        wall = [count / min(seconds for seconds, _ in times) for times in of_mounts]
        used = [min(used for _, used in times) / count * 1e6 for times in of_mounts]
        yield f"{name},{user},{wall[0]:.0f},{wall[1]:.0f},{wall[0] / wall[1]:.2f},{used[0]:.1f},{used[1]:.1f},{used[1] / used[0]:.2f}"


def compared(asked, room):
    """Builds and mounts both, and gives the table's lines."""
    source, ours, theirs = (os.path.join(room, name) for name in ("source", "ours", "theirs"))
    for folder in (source, ours, theirs):
        os.mkdir(folder)
    flags = subprocess.run(["pkg-config", "--cflags", "--libs", "fuse3"], check=True, capture_output=True, text=True).stdout.split()
    built = os.path.join(room, "passthrough_ll")
    subprocess.run(["gcc", "-O2", EXAMPLE, *flags, "-o", built], check=True)
    subprocess.run(["mount", "-t", "tmpfs", "source", source], check=True)
    mounts = []
    try:
        mounts.append(proved(os.path.abspath(asked.program), ours))
        mounts.append(passthrough(built, source, theirs))
        return list(table(rounds(mounts, asked), asked))
    finally:
        os.chdir("/")
        for mount in mounts:
            mount.end()
        subprocess.run(["umount", "-l", source], check=True)


def main():
    parser = argparse.ArgumentParser(description=__doc__.split("\n")[0])
    parser.add_argument("program")
    parser.add_argument("--rounds", type=int, default=9)
    parser.add_argument("--names", type=int, default=100)
    parser.add_argument("--seconds", type=int, default=180)
    parser.add_argument("--apart", action="store_true")
    parser.add_argument("--write", action="store_true")
    asked = parser.parse_args()
    if not asked.apart:
        os.sched_setaffinity(0, {max(os.sched_getaffinity(0))})
    with tempfile.TemporaryDirectory() as room:
        os.chmod(room, 0o755)
        text = "\n".join([machine(), *compared(asked, room)]) + "\n"
    print(text, end="")
    if asked.write:
        TABLE.write_text(text, encoding="utf-8")


if __name__ == "__main__":
    sys.exit(main())
