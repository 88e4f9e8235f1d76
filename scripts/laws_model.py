"""The definitions of `lfs_rules/specs` and `lfs_model/specs` once more, and random trees and calls: for `laws-fall.py`."""
from collections import namedtuple

Row = namedtuple("Row", "parent name kind uid gid mode flags bytes")
World = namedtuple("World", "level rows")
Caller = namedtuple("Caller", "uid groups init")
LIMIT, BIG = 8_460_288, bytes(8_460_288 - 3)
FLAGS = (0x1, 0x2, 0x4, 0x10000, 0x20000, 0x40000)
END = None


class Model:
    """The definitions. A request is its name, its paths and what it brings; a denial a rule, a path's index, a component."""

    file_max, read_max, first, full = LIMIT, 4096, 4, 16_524

    def has_bit(self, n, value): return n // value % 2 == 1
    def in_group(self, c, gid): return gid in c.groups
    def masks(self, bit): return {"r": (0o400, 0o40, 0o4), "w": (0o200, 0o20, 0o2), "x": (0o100, 0o10, 0o1)}[bit]

    def grants(self, c, r, bit):
        owner, group, other = self.masks(bit)
        mask = owner if c.uid == r.uid else group if self.in_group(c, r.gid) else other
        return c.uid == 0 or self.has_bit(r.mode, mask)

    def immutable(self, r): return self.has_bit(r.flags, 0x2) or self.has_bit(r.flags, 0x20000)
    def append_only(self, r): return self.has_bit(r.flags, 0x4) or self.has_bit(r.flags, 0x40000)
    def locked(self, flags): return self.has_bit(flags, 0x20000) or self.has_bit(flags, 0x40000)
    def upper(self, flags): return flags // 0x10000
    def above_zero(self, level): return level > 0
    def may_lower(self, c): return c.init
    def owns(self, c, r): return c.uid in (0, r.uid)
    def barred(self, c, d, r): return self.has_bit(d.mode, 0o1000) and c.uid not in (0, r.uid, d.uid)
    def start_in(self, place, size): return size if place is END else place
    def slice_of(self, data, off, count): return data[off:off + count]
    def clear_set_ids(self, mode): return mode % 0o2000
    def may_give(self, c, r, uid, gid): return c.uid == 0 or (c.uid == r.uid == uid and (gid == r.gid or self.in_group(c, gid)))
    def may_flag(self, c, old, new): return c.uid == 0 or not (self.upper(old) != self.upper(new) or self.locked(old))

    def keeps(self, level, old, new):
        return not (self.above_zero(level) and any(self.has_bit(old, b) and not self.has_bit(new, b) for b in (0x20000, 0x40000)))

    def opening(self): return World(0, {2: Row(2, "", "d", 0, 0, 0o755, 0, b"")})

    def child(self, rows, at, name):
        return next((n for n, r in sorted(rows.items()) if n != 2 and r.parent == at and r.name == name), 0)

    def reached(self, rows, path, at=2):
        for name in path:
            at = self.child(rows, at, name)
        return at

    def empty(self, rows, at): return not any(n != 2 and r.parent == at for n, r in rows.items())

    # ---- the tests of a call: whether each is met, and its denial

    def walk(self, rows, c, index, path):
        at = 2
        for k, name in enumerate(path):
            yield at in rows and rows[at].kind == "d", ("N1", index, k)
            yield at in rows and self.grants(c, rows[at], "x"), ("S1", index, k)
            at = self.child(rows, at, name)
            yield at != 0, ("N2", index, k + 1)

    def taking(self, c, index, d, r, k):
        yield not self.immutable(d), ("F1", index, k)
        yield self.grants(c, d, "w"), ("M2", index, k)
        yield not self.append_only(d), ("F2", index, k)
        yield not self.barred(c, d, r), ("Y1", index, k + 1)
        yield not self.immutable(r), ("F1", index, k + 1)
        yield not self.append_only(r), ("F2", index, k + 1)

    def table(self, w, c, call):
        name, path, *more = call
        rows = w.rows
        if name == "Sync":
            return
        if name == "SetLevel":
            yield c.uid == 0, ("U1", 0, 0)
            yield not (path < w.level and not self.may_lower(c)), ("L3", 0, 0)
            return
        k = len(path)
        if name in ("Create", "Mkdir"):
            yield k != 0, ("N3", 0, 0)
            yield from self.walk(rows, c, 0, path[:-1])
            at = self.reached(rows, path[:-1])
            d = rows[at]
            yield d.kind == "d", ("N1", 0, k - 1)
            yield self.grants(c, d, "x"), ("S1", 0, k - 1)
            yield not self.child(rows, at, path[-1]), ("N3", 0, k)
            yield not self.immutable(d), ("F1", 0, k - 1)
            yield self.grants(c, d, "w"), ("M2", 0, k - 1)
            return
        if name in ("Unlink", "Rmdir", "Rename"):
            yield k != 0, ("K3", 0, 0)
        yield from self.walk(rows, c, 0, path)
        n = self.reached(rows, path)
        r = rows[n]
        if name in ("Unlink", "Rmdir", "Rename"):
            yield from self.taking(c, 0, rows[self.reached(rows, path[:-1])], r, k - 1)
        if name in ("Read", "Write", "SetLength", "Unlink"):
            yield r.kind == "f", ("K1", 0, k)
        if name in ("List", "Rmdir"):
            yield r.kind == "d", ("N1", 0, k)
        if name in ("Read", "List"):
            yield self.grants(c, r, "r"), ("M1", 0, k)
        if name == "Rmdir":
            yield self.empty(rows, n), ("K2", 0, k)
        if name in ("Write", "SetLength"):
            yield not self.immutable(r), ("F1", 0, k)
            yield self.grants(c, r, "w"), ("M2", 0, k)
            yield (name == "Write" and more[0] is END) or not self.append_only(r), ("F2", 0, k)
            end = more[0] if name == "SetLength" else self.start_in(more[0], len(r.bytes)) + len(more[1])
            yield end <= self.file_max, ("Z1", 0, k)
        if name in ("Chmod", "Chown"):
            yield not self.immutable(r), ("F1", 0, k)
            yield not self.append_only(r), ("F2", 0, k)
        if name in ("Chmod", "Chflags"):
            yield self.owns(c, r), ("O1", 0, k)
        if name == "Chown":
            yield self.may_give(c, r, *more), ("O2", 0, k)
        if name == "Chflags":
            yield self.may_flag(c, r.flags, more[0]), ("L1", 0, k)
            yield self.keeps(w.level, r.flags, more[0]), ("L2", 0, k)
        if name == "Rename":
            yield from self.arriving(rows, c, path, more[0], n, r)

    def arriving(self, rows, c, path, to, n, r):
        j = len(to)
        yield j != 0, ("K3", 1, 0)
        yield from self.walk(rows, c, 1, to[:-1])
        at = self.reached(rows, to[:-1])
        d, there = rows[at], self.child(rows, at, to[-1])
        yield d.kind == "d", ("N1", 1, j - 1)
        yield self.grants(c, d, "x"), ("S1", 1, j - 1)
        if there == n:
            return
        if there:
            o = rows[there]
            yield from self.taking(c, 1, d, o, j - 1)
            yield o.kind == "f" or r.kind == "d", ("K1", 1, j)
            yield o.kind == "d" or r.kind == "f", ("N1", 1, j)
            yield self.empty(rows, there), ("K2", 1, j)
        else:
            yield not self.immutable(d), ("F1", 1, j - 1)
            yield self.grants(c, d, "w"), ("M2", 1, j - 1)
        way = [self.reached(rows, to[:i]) for i in range(j)]
        yield n not in way, ("K4", 1, way.index(n) if n in way else j)
        stays = self.reached(rows, path[:-1]) == at
        yield r.kind == "f" or stays or self.grants(c, r, "w"), ("M2", 0, len(path))

    def denial(self, call, denial): return denial
    def decide(self, w, c, call): return next((self.denial(call, d) for met, d in self.table(w, c, call) if not met), None)

    # ---- what an allowed call shows, leaves and may lack

    def answer(self, w, call):
        n = self.reached(w.rows, call[1])
        r = w.rows.get(n)
        return (n, r._replace(bytes=len(r.bytes))) if call[0] == "Stat" else self.slice_of(r.bytes, call[2], min(call[3], self.read_max))

    def shows(self, w, call):
        if call[0] == "List":
            n = self.reached(w.rows, call[1])
            return sorted(r.name for k, r in w.rows.items() if k != 2 and r.parent == n)
        return self.answer(w, call) if call[0] in ("Stat", "Read") else None

    def refused(self, w, c, call): return w
    def cleaned(self, w): return w

    def effect(self, w, c, call):
        name, path, *more = call
        rows, n = dict(w.rows), 0 if name in ("SetLevel", "Sync") else self.reached(w.rows, path)
        worn = lambda r: r.mode if c.uid == 0 else self.clear_set_ids(r.mode)
        if name in ("Create", "Mkdir"):
            at, new = self.reached(rows, path[:-1]), self.first
            while new in rows:
                new += 1
            rows[new] = Row(at, path[-1], "f" if name == "Create" else "d", c.uid, rows[at].gid, more[0], 0, b"")
        elif name in ("Unlink", "Rmdir"):
            del rows[n]
        elif name == "Rename":
            rows = self.renamed(rows, n, self.reached(rows, more[0][:-1]), more[0][-1])
        elif name == "Write" and more[1]:
            old, start = rows[n].bytes, self.start_in(more[0], len(rows[n].bytes))
            new = old[:start].ljust(start, b"\0") + more[1] + old[start + len(more[1]):]
            rows[n] = rows[n]._replace(bytes=new, mode=worn(rows[n]))
        elif name == "SetLength":
            rows[n] = rows[n]._replace(bytes=rows[n].bytes[:more[0]].ljust(more[0], b"\0"), mode=worn(rows[n]))
        elif name == "Chmod":
            rows[n] = rows[n]._replace(mode=more[0])
        elif name == "Chown":
            rows[n] = rows[n]._replace(uid=more[0], gid=more[1], mode=worn(rows[n]))
        elif name == "Chflags":
            rows[n] = rows[n]._replace(flags=more[0])
        return World(path if name == "SetLevel" else w.level, rows)

    def renamed(self, rows, n, at, name):
        there = self.child(rows, at, name)
        if there and there != n:
            del rows[there]
        rows[n] = rows[n]._replace(parent=at, name=name)
        return rows

    def makes(self, call): return call[0] in ("Create", "Mkdir")
    def all_used(self, numbers, rows): return all(n in rows for n in range(4, numbers))

    def crowded(self, w, call):
        if not self.makes(call) and call[0] != "Rename":
            return False
        to = call[2] if call[0] == "Rename" else call[1]
        at = self.reached(w.rows, to[:-1])
        count = sum(n != 2 and r.parent == at for n, r in w.rows.items())
        return (call[0] != "Rename" or not self.child(w.rows, at, to[-1])) and count >= self.full

    def writes(self, call): return call[0] not in ("Stat", "Read", "List", "SetLevel")

    def may_lack(self, numbers, w, c, call):
        if self.decide(w, c, call):
            return []
        if self.makes(call) and self.all_used(numbers, w.rows):
            return ["NoInodes"]
        return ["DirectoryFull"] * bool(self.crowded(w, call)) + ["NoSpace"] * self.writes(call)


# ---- random trees and calls

def some_world(rng, big=.02):
    mode = lambda: rng.choice([0o755, 0o777, 0o1777, 0o700, 0o644, 0o600, rng.randrange(0o10000)])
    flags = lambda: rng.choice([0, 0, 0, rng.choice(FLAGS), sum(rng.sample(FLAGS, 2))])
    rows = {2: Row(2, "", "d", 0, 0, rng.choice([0o755, 0o777, 0o777, mode()]), rng.choice([0, 0, flags()]), b"")}
    for n in rng.sample(range(4, 12), rng.randrange(1, 8)):
        at = rng.choice([m for m, r in rows.items() if r.kind == "d"])
        name, kind = rng.choice("abc"), rng.choice("fd")
        if not any(m != 2 and r.parent == at and r.name == name for m, r in rows.items()):
            data = b"" if kind == "d" else BIG if rng.random() < big else bytes(rng.randrange(256) for _ in range(rng.randrange(9)))
            rows[n] = Row(at, name, kind, rng.randrange(3), rng.randrange(3), mode(), flags(), data)
    return World(rng.randrange(-1, 3), rows)


def some_caller(rng):
    uid = rng.choice([0, 1, 1, 2, 3])
    return Caller(uid, [rng.randrange(4) for _ in range(rng.randrange(1, 4))], uid == 0 and rng.random() < .4)


def path_of(w, n): return () if n == 2 else path_of(w, w.rows[n].parent) + (w.rows[n].name,)
def some_path(rng, w): return path_of(w, rng.choice(list(w.rows))) + tuple(rng.choice("abcd") for _ in range(rng.choice([0, 0, 0, 1, 2])))
def bits(rng): return sum(rng.sample(FLAGS, rng.randrange(4)))


def some_call(rng, w):
    q = some_path(rng, w)
    p, place = some_path(rng, w), rng.choice([END, rng.randrange(12), LIMIT - rng.randrange(3)])
    data = bytes(rng.randrange(1, 256) for _ in range(rng.randrange(4)))
    return rng.choice([("Stat", p), ("Read", p, rng.randrange(9), rng.randrange(9)), ("List", p), ("Write", p, place, data),
                       ("SetLength", p, rng.choice([0, 3, LIMIT, LIMIT + 1])), ("Create", p, 0o644), ("Mkdir", p, 0o755),
                       ("Unlink", p), ("Rmdir", p), ("Rename", p, q), ("Rename", p, q), ("Rename", p, p + q[-1:]),
                       ("Chmod", p, rng.randrange(0o10000)), ("Chown", p, rng.randrange(3), rng.randrange(3)),
                       ("Chflags", p, bits(rng)), ("SetLevel", rng.randrange(-1, 3)), ("Sync", None)])
