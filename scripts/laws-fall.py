#!/usr/bin/env python3
"""Shows that the laws fall: by one change of a definition at a time.

laws-fall.py [TRIALS [SEED]] takes the definitions of `laws_model.py`, the laws as tests of them that share none of their
words, and a list of changes, each of one definition. Here stand the laws of words, denials and refusals, in `laws_calls.py` those of
one call, with each rule left out in turn, and in `laws_runs.py` those over runs. For each change it tries the laws in TRIALS random
trees with calls or a run (by default 600, some minutes), and prints which are false. Status 1 where a law is false of the
definitions as they stand, where none falls with a change, or where a law falls with no change. It is a second reading of definitions
and laws, not a proof: that is the check of `lfs_laws`.
"""
import random
import sys
from multiprocessing import Pool

sys.dont_write_bytecode = True
from laws_calls import CALL_LAWS, RULE_CHANGES, fallen_steps, steps_of_runs, steps_without
from laws_runs import RUN_CHANGES, RUN_LAWS, without
from laws_model import END, LIMIT, Caller, Model, Row, World, bits, path_of, some_call, some_caller, some_path, some_world


def on(n, value): return n & value == value
def served(m, w, c, call): return m.decide(w, c, call) is None


def seen(m, w, c, rng):
    """A path, a number and attributes that a Stat shows, if it is allowed."""
    path = path_of(w, rng.choice(list(w.rows)))
    return (path, *m.answer(w, ("Stat", path))) if served(m, w, c, ("Stat", path)) else None


def of_calls(law):
    """A law of a call, tried with some calls of the same caller in the same tree."""
    def tried(m, w, c, rng):
        return all(law(m, w, c, rng, some_call(rng, w)) for _ in range(8))
    tried.__name__ = law.__name__
    return tried


# ---- the laws

def granted(c, a, owner, group, others):
    return c.uid == 0 or on(a.mode, owner if c.uid == a.uid else group if a.gid in c.groups else others)


def classes_by_bits(m, w, c, rng):
    if not (s := seen(m, w, c, rng)):
        return True
    path, n, a = s
    read, write, search = (granted(c, a, 0o100 * b, 0o10 * b, b) for b in (4, 2, 1))
    if a.kind == "f":
        return served(m, w, c, ("Read", path, 0, 9)) == read and (a.flags != 0 or served(m, w, c, ("SetLength", path, 0)) == write)
    names = {r.name for k, r in w.rows.items() if k != 2 and r.parent == n}
    return (served(m, w, c, ("List", path)) == read and all(served(m, w, c, ("Stat", path + (x,))) == search for x in names)
            and (a.flags != 0 or served(m, w, c, ("Mkdir", path + ("free",), 0o755)) == (search and write)))


def owners_by_number(m, w, c, rng):
    if not (s := seen(m, w, c, rng)) or s[2].flags:
        return True
    path, n, a = s
    uid, gid = rng.randrange(4), rng.randrange(4)
    may = c.uid == 0 or c.uid == a.uid == uid and (gid == a.gid or gid in c.groups)
    return served(m, w, c, ("Chmod", path, 0o644)) == (c.uid in (0, a.uid)) and served(m, w, c, ("Chown", path, uid, gid)) == may


def locks_by_bits(m, w, c, rng):
    if c.uid or not (s := seen(m, w, c, rng)):
        return True
    path, n, a = s
    free = not a.flags & 0x20002
    loose = free and not a.flags & 0x40004
    if a.kind == "d":
        return served(m, w, c, ("Mkdir", path + ("free",), 0)) == free and served(m, w, c, ("Chmod", path, 0)) == loose
    return (served(m, w, c, ("Write", path, END, b"x")) == free and served(m, w, c, ("Write", path, 0, b"x")) == loose
            and served(m, w, c, ("Chmod", path, 0)) == loose)


def levels_by_number(m, w, c, rng):
    new = rng.randrange(-1, 3)
    if served(m, w, c, ("SetLevel", new)) != (c.uid == 0 and (c.init or w.level <= new)):
        return False
    if not (s := seen(m, w, c, rng)):
        return True
    path, n, a = s
    flags = bits(rng)
    may = (w.level < 1 or not a.flags & ~flags & 0x60000) if c.uid == 0 else c.uid == a.uid and a.flags >> 16 == flags >> 16 and not a.flags & 0x60000
    return served(m, w, c, ("Chflags", path, flags)) == may


def bytes_by_place(m, w, c, rng):
    if not (s := seen(m, w, c, rng)) or s[2].kind == "d":
        return True
    path, n, a = s
    old, data, place = w.rows[n].bytes, b"xyz", rng.choice([END, rng.randrange(12)])
    off, count = rng.randrange(9), rng.choice([rng.randrange(9), 5000])
    if m.answer(w, ("Read", path, off, count)) != old[off:off + min(count, 4096)]:
        return False
    if not served(m, w, c, ("Write", path, place, data)):
        return True
    start = a.bytes if place is END else place
    return m.effect(w, c, ("Write", path, place, data)).rows[n].bytes[start:start + 3] == data


def limits_by_number(m, w, c, rng):
    if not (s := seen(m, w, c, rng)):
        return True
    path, n, a = s
    if a.kind == "d":
        call = ("Mkdir", path + ("free",), 0)
        new = served(m, w, c, call) and set(m.effect(w, c, call).rows) - set(w.rows)
        return not new or new == {min(set(range(4, 99)) - set(w.rows))}
    if c.uid or a.flags:
        return True
    size, data, start = LIMIT + rng.randrange(-2, 3), bytes(rng.randrange(6)), LIMIT - rng.randrange(6)
    return (served(m, w, c, ("SetLength", path, size)) == (size <= LIMIT) and served(m, w, c, ("Write", path, start, data)) == (start + len(data) <= LIMIT)
            and served(m, w, c, ("Write", path, END, data)) == (a.bytes + len(data) <= LIMIT))


def opens_by_number(m, w, c, rng):
    return m.opening() == World(0, {2: Row(2, "", "d", 0, 0, 0o755, 0, b"")})


@of_calls
def set_ids_by_bits(m, w, c, rng, call):
    if call[0] == "Chmod" or call[0] in ("Write", "SetLength") and len(w.rows.get(m.reached(w.rows, call[1]), w.rows[2]).bytes) > 99 or not served(m, w, c, call):
        return True
    after = m.effect(w, c, call).rows
    return all(after[n].mode in (r.mode, r.mode & 0o1777 if c.uid else r.mode) for n, r in w.rows.items() if n in after)


@of_calls
def refused_truly(m, w, c, rng, call):
    numbers = rng.choice([min(set(range(4, 99)) - set(w.rows)), 16])
    if rng.random() < .001:
        w = World(0, {2: w.rows[2]} | {n: Row(2, str(n), "f", 1, 1, 0o644, 0, b"") for n in range(4, 4 + 16_523 + rng.randrange(2))})
        numbers, call = 40_000, rng.choice([("Mkdir", ("new",), 0), ("Rename", ("5",), ("new",)), ("Rename", ("5",), ("6",))])
    for resource in m.may_lack(numbers, w, c, call):
        to = call[2] if call[0] == "Rename" else call[1]
        at = m.reached(w.rows, to[:-1]) if call[0] in ("Create", "Mkdir", "Rename") else 0
        names = {r.name for n, r in w.rows.items() if n != 2 and r.parent == at}
        cause = {"NoInodes": call[0] in ("Create", "Mkdir") and all(n in w.rows for n in range(4, numbers)),
                 "DirectoryFull": at and to[-1] not in names and len(names) >= 16_524,
                 "NoSpace": call[0] not in ("Stat", "Read", "List", "SetLevel")}.get(resource, False)
        if m.decide(w, c, call) or not cause:
            return False
    return True


TAKEN = {"K3", "Y1", "F1", "F2"}
AT_END = {"Stat": set(), "Read": {"K1", "M1"}, "List": {"N1", "M1"}, "Write": {"K1", "F1", "M2", "F2", "Z1"}, "Create": {"N3"}, "Mkdir": {"N3"},
          "SetLength": {"K1", "F1", "M2", "F2", "Z1"}, "Unlink": TAKEN | {"K1"}, "Rmdir": TAKEN | {"N1", "K2"}, "Rename": TAKEN | {"M2"},
          "Chmod": {"F1", "F2", "O1"}, "Chown": {"F1", "F2", "O2"}, "Chflags": {"O1", "L1", "L2"}}


@of_calls
def names_what_it_asks(m, w, c, rng, call):
    if not (denial := m.decide(w, c, call)):
        return True
    (rule, index, at), name = denial, call[0]
    if name == "SetLevel":
        return rule in ("U1", "L3") and index == at == 0
    if index == 1 and name != "Rename":
        return False
    k = len(call[1 + index])
    makes = name in ("Create", "Mkdir") or index == 1
    end = TAKEN | {"K1", "N1", "K2"} if index == 1 else AT_END[name]
    parent = {"F1", "M2"} | ({"F2"} if name not in ("Create", "Mkdir") else set()) if makes or name in ("Unlink", "Rmdir", "Rename") else set()
    if name == "Write" and call[2] is END:
        end = end - {"F2"}
    return (rule in ("N1", "S1") and at < k or rule == "N2" and 0 < at < k + (not makes) or rule == "K4" and index == 1 and at < k
            or rule in parent and at + 1 == k or rule in end and at == k)


@of_calls
def decides_nothing(m, w, c, rng, call):
    is_level, flags = call[0] == "SetLevel", call[0] == "Chflags"
    groups = c.groups * 2
    rng.shuffle(groups)
    other = Caller(c.uid, groups, c.init if is_level else not c.init)
    marks = {n: r._replace(flags=r.flags ^ rng.choice([0, 0x1, 0x1 if flags else 0x10001])) for n, r in w.rows.items()}
    level = {-1: 0, 0: -1, 1: 2, 2: 1}[w.level]
    told = m.decide(w, c, call)
    return told == m.decide(w, other, call) == m.decide(World(w.level, marks), c, call) and (is_level or told == m.decide(World(level, w.rows), c, call))


@of_calls
def decides_alike(m, w, c, rng, call):
    name, path, *more = call
    near = lambda: (LIMIT + rng.randrange(-2, 3), rng.choice([b"", b"xy"]))
    if name == "Write" and more[0] is not END and rng.random() < .7:
        more = near()
        call = (name, path, *more)
    size = len(w.rows[n].bytes) if name == "Write" and (n := leads(w.rows, path)[0]) else 0
    within = lambda place, data: (size if place is END else place) + len(data) <= LIMIT
    place, data = near() if rng.random() < .7 else (rng.randrange(9), bytes(rng.randrange(4)))
    other = {"Read": lambda: (7, 3), "Write": lambda: (END if more[0] is END else place, data), "SetLength": lambda: (rng.choice([7, LIMIT - 1, LIMIT + 9]),),
             "Create": lambda: (0o7,), "Mkdir": lambda: (0o7,), "Chmod": lambda: (0o7,), "Chown": lambda: (more[0], rng.choice(c.groups)),
             "Chflags": lambda: (more[0] ^ rng.choice([0x1, 0x2, 0x4]),)}.get(name, lambda: more)()
    alike = {"Write": lambda: within(*more) == within(*other), "SetLength": lambda: (more[0] <= LIMIT) == (other[0] <= LIMIT), "Chown": lambda: more[1] in c.groups}
    return not alike.get(name, lambda: True)() or m.decide(w, c, call) == m.decide(w, c, (name, path, *other))


def stat(rows, n): return n, n in rows and rows[n]._replace(bytes=len(rows[n].bytes), parent=0, name="")


def view(w, c, call):
    """What a caller sees along the paths of a call, and of what he may read at its end."""
    seen = [w.level]
    for path in [p for p in call[1:3] if isinstance(p, tuple)]:
        for k, n in enumerate(leads(w.rows, path)[1]):
            seen.append(stat(w.rows, n))
            r = w.rows.get(n)
            if r and k == len(path) and call[0] in ("Read", "List") and granted(c, r, 0o400, 0o40, 4):
                seen.append(r.bytes if call[0] == "Read" else sorted(x.name for m, x in w.rows.items() if m != 2 and x.parent == n))
            if not r or r.kind == "f" or not granted(c, r, 0o100, 0o10, 1):
                break
    return seen


@of_calls
def same_view(m, w, c, rng, call):
    n = rng.choice(list(w.rows))
    other = w.rows[n]._replace(mode=rng.randrange(0o10000), uid=rng.randrange(3), flags=bits(rng), bytes=b"" if w.rows[n].kind == "d" else bytes(rng.randrange(9)))
    v = World(w.level, w.rows | {n: other})
    if rng.random() < .5 and n != 2 and not any(r.parent == n for r in w.rows.values()):
        v = World(w.level, {k: r for k, r in w.rows.items() if k != n})
    if view(w, c, call) != view(v, c, call):
        return True
    one, two = m.decide(w, c, call), m.decide(v, c, call)
    if one == two:
        return bool(one) or m.shows(w, call) == m.shows(v, call)
    first = [d and d[0] for d in (one, two) if not d or d[0] != "K2"]
    return len(first) == 1 and call[0] in ("Rmdir", "Rename") and first[0] in ((None,) if call[0] == "Rmdir" else (None, "K4", "M2"))


def leads(rows, path):
    """The row that names lead to, and those on the way, by parent and name alone."""
    way = [2]
    for name in path:
        way += [n for n, r in rows.items() if n != 2 and r.parent == way[-1] and r.name == name][:1] or [0]
    return way[-1], way


@of_calls
def path_leads_on(m, w, c, rng, call):
    path = call[2] if call[0] == "Rename" and rng.random() < .5 else some_path(rng, w)
    (n, way), big = leads(w.rows, path), any(len(r.bytes) > 99 for r in w.rows.values())
    if not n or big or call[0] == "SetLength" or not served(m, w, c, call):
        return True
    after = m.effect(w, c, call).rows
    now = leads(after, path)[0]
    if now == n:
        return True
    target = leads(w.rows, call[1])[0]
    if not now:
        return call[0] in ("Unlink", "Rmdir") and target == n or call[0] == "Rename" and target in way
    return (call[0] == "Rename" and leads(w.rows, call[2])[0] == n and target == now
            and after[now] == w.rows[now]._replace(parent=after[now].parent, name=after[now].name))


def paths_by_names(m, w, c, rng):
    path = path_of(w, rng.choice(list(w.rows)))
    n = leads(w.rows, path)[0]
    return m.answer(w, ("Stat", path)) == (n, w.rows[n]._replace(bytes=len(w.rows[n].bytes)))


LAWS = [classes_by_bits, owners_by_number, locks_by_bits, levels_by_number, bytes_by_place, limits_by_number, opens_by_number, set_ids_by_bits,
        paths_by_names, refused_truly, names_what_it_asks, decides_alike, decides_nothing, same_view, path_leads_on]

# ---- the changes

M = Model
TOLD = lambda name, rule, other: lambda self, call, d: (other, *d[1:]) if call[0] == name and d[0] == rule else d
CHANGES = {
    "grants_of grants all": dict(grants=lambda self, c, r, bit: True),
    "the owner is judged by the others' bits too": dict(grants=lambda self, c, r, bit: M.grants(self, c, r, bit) or self.has_bit(r.mode, self.masks(bit)[2])),
    "search by the read bit": dict(masks=lambda self, bit: M.masks(self, "r" if bit == "x" else bit)),
    "is_in_group all": dict(in_group=lambda self, c, gid: True),
    "is_in_group none": dict(in_group=lambda self, c, gid: False),
    "the first group alone counts": dict(in_group=lambda self, c, gid: gid == c.groups[0]),
    "has_bit of the next bit": dict(has_bit=lambda self, n, value: n // value // 2 % 2 == 1),
    "UF_IMMUTABLE locks nothing": dict(immutable=lambda self, r: self.has_bit(r.flags, 0x20000)),
    "SF_APPEND locks nothing": dict(append_only=lambda self, r: self.has_bit(r.flags, 0x4)),
    "UF_NODUMP locks": dict(immutable=lambda self, r: M.immutable(self, r) or self.has_bit(r.flags, 0x1)),
    "SF_ARCHIVED is no system flag": dict(upper=lambda self, flags: flags // 0x20000),
    "is_above_zero never": dict(above_zero=lambda self, level: False),
    "level 2 isn't above 0": dict(above_zero=lambda self, level: level == 1),
    "each superuser lowers the level": dict(may_lower=lambda self, c: True),
    "init owns all": dict(owns=lambda self, c, r: c.uid == r.uid or c.init),
    "start_in at most the size": dict(start_in=lambda self, place, size: size if place is END else min(place, size)),
    "the end is at 0": dict(start_in=lambda self, place, size: place or 0),
    "a Read shows no byte": dict(slice_of=lambda self, data, off, count: b""),
    "a Read begins a byte late": dict(slice_of=lambda self, data, off, count: data[off + 1:off + 1 + count]),
    "a Read of 512 bytes at most": dict(read_max=4),
    "a file of one byte more": dict(file_max=LIMIT + 1),
    "the first number is 5": dict(first=5),
    "the root of mode 0777": dict(opening=lambda self: World(0, {2: Row(2, "", "d", 0, 0, 0o777, 0, b"")})),
    "a volume opens at level 1": dict(opening=lambda self: World(1, M.opening(self).rows)),
    "set-id bits take the sticky bit with them": dict(clear_set_ids=lambda self, mode: mode % 0o1000),
    "a name leads to another row": dict(child=lambda self, rows, at, name: M.child(self, rows, at, "a" if name == "b" else name)),
    "NoInodes while a number is free": dict(all_used=lambda self, numbers, rows: len(rows) > 3),
    "NoInodes of a Rename": dict(makes=lambda self, call: call[0] in ("Create", "Mkdir", "Rename")),
    "DirectoryFull at 16,523 names": dict(full=16_523),
    "NoSpace of a Read": dict(writes=lambda self, call: True),
    "NoMemory has an entry": dict(may_lack=lambda self, numbers, w, c, call: ["NoMemory"]),
    "what is denied is refused": dict(may_lack=lambda self, numbers, w, c, call: ["NoSpace"] if self.writes(call) else []),
    "a Read that isn't granted is told N3": dict(denial=TOLD("Read", "M1", "N3")),
    "a Write past the limit is told N1": dict(denial=TOLD("Write", "Z1", "N1")),
    "an Unlink in a sticky directory is told O1": dict(denial=TOLD("Unlink", "Y1", "O1")),
    "K4 is told of the first path": dict(denial=lambda self, call, d: ("K4", 0, d[2]) if d[0] == "K4" else d),
    "a Read and a Write of no bytes are allowed": dict(denial=lambda self, call, d: None if call[0] in ("Read", "Write") and not call[3] else d),
    "a Stat asks no search": without("S1", of="Stat"),
    "a List asks no read": without("M1", of="List"),
    "an Rmdir asks first whether it is empty": dict(decide=lambda self, w, c, call: next(
        (d for met, d in self.table(w, c, call) if d[0] == "K2" and call[0] == "Rmdir" and not met), None) or M.decide(self, w, c, call)),
    "a replaced row and the moved one are both gone": dict(renamed=lambda self, rows, n, at, name: {k: r for k, r in M.renamed(self, rows, n, at, name).items() if k != n}),
    "a moved file loses its bytes": dict(renamed=lambda self, rows, n, at, name: M.renamed(self, rows | {n: rows[n]._replace(bytes=b"")}, n, at, name)),
}


def fallen(model, laws, trials, seed):
    """The laws that are false of a model, each as soon as a trial shows it."""
    false = []
    for law in laws:
        rng = random.Random(f"{seed} {law.__name__}")
        for _ in range(trials):
            try:
                holds = law(model, some_world(rng, 0), rng) if law in RUN_LAWS else law(model, some_world(rng), some_caller(rng), rng)
            except (AttributeError, KeyError, IndexError, RecursionError, TypeError):
                holds = type(model) is not Model
            if not holds:
                false.append(law.__name__)
                break
    return false


def fallen_with(change, trials, seed):
    """The laws that are false once a change is made; of none, as the definitions stand."""
    rng = random.Random(f"{seed} {change}")
    if change in RULE_CHANGES:
        return fallen_steps(steps_without(Model(), change, trials, rng))
    if change in CHANGES:
        return fallen(type("Changed", (Model,), CHANGES[change])(), LAWS, trials, seed)
    model = Model() if change is None else type("Changed", (Model,), RUN_CHANGES[change])()
    return fallen(model, (LAWS if change is None else []) + RUN_LAWS, trials, seed) + fallen_steps(steps_of_runs(model, trials // 2, rng))


def main():
    trials, seed = (int(sys.argv[1]) if len(sys.argv) > 1 else 600), (sys.argv[2] if len(sys.argv) > 2 else "1")
    changes, seen = [None, *CHANGES, *RULE_CHANGES, *RUN_CHANGES], set()
    with Pool() as pool:
        waits = [(change, pool.apply_async(fallen_with, (change, trials, seed))) for change in changes]
        wrong = waits[0][1].get()
        print("as it stands:", ", ".join(wrong) or "no law is false", flush=True)
        bad = bool(wrong)
        for change, wait in waits[1:]:
            false = wait.get()
            print(f"{change}: {', '.join(false) or 'NO LAW FALLS'}", flush=True)
            bad, seen = bad or not false, seen | set(false)
    never = [law.__name__ for law in LAWS + CALL_LAWS + RUN_LAWS if law.__name__ not in seen]
    print("with no change:", ", ".join(never) or "no law")
    sys.exit(bad or bool(never))


if __name__ == "__main__":
    main()
