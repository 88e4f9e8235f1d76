"""The laws over runs as tests of `laws_model.py`, and changes with which they fall: for `laws-fall.py`.

A law takes a model, a random tree and a source of random numbers, makes a run of which it speaks, and says whether it holds. It
shares no word with the model.
"""
from collections import namedtuple

from laws_model import END, LIMIT, Caller, Model, World, bits, path_of, some_caller, some_path

Step = namedtuple("Step", "caller call answer before after")
CLEANER = ("Segclean", None)


# ---- words of the tests

def granted(c, r, bit):
    """Whether a row grants a caller this bit of others: 4 read, 2 write, 1 search."""
    return c.uid == 0 or bool(r.mode & (0o100 if c.uid == r.uid else 0o10 if r.gid in c.groups else 1) * bit)


def fixed(r): return r.flags & 0x60006
def immutable(r): return r.flags & 0x20002
def append_only(r): return r.flags & 0x40004
def hangs(rows, at, name): return next((n for n, r in rows.items() if n != 2 and r.parent == at and r.name == name), 0)
def served(step): return step.call != CLEANER and step.answer[0] == "served"
def least(rows): return next(n for n in range(4, 999) if n not in rows)


def way(rows, path):
    """The rows that names lead through, the root first."""
    found = [2]
    for name in path:
        found.append(hangs(rows, found[-1], name))
    return found


def target(step, index=1): return way(step.before.rows, step.call[index])[-1] if step.call[0] not in ("SetLevel", "Sync") else 0


def above(rows, n):
    """The rows above one, the root last."""
    found = []
    while n != 2 and len(found) < 99:
        n = rows[n].parent
        found.append(n)
    return found


def reaches(rows, c, n): return all(granted(c, rows[m], 1) for m in above(rows, n))
def owns(rows, c, n): return reaches(rows, c, n) and c.uid in (0, rows[n].uid)


def may_take(rows, c, n):
    if n == 2 or not reaches(rows, c, n):
        return False
    r, d = rows[n], rows[rows[n].parent]
    return granted(c, d, 2) and not fixed(d) and not fixed(r) and (not d.mode & 0o1000 or c.uid in (0, r.uid, d.uid))


def is_tree(rows):
    places = [(r.parent, r.name) for n, r in rows.items() if n != 2]
    return (len(set(places)) == len(places) and all(n >= 4 for n in rows if n != 2)
            and all(r.parent in rows and rows[r.parent].kind == "d" and (r.kind == "f" or not r.bytes) for r in rows.values())
            and all(above(rows, n)[-1:] in ([], [2]) for n in rows))


# ---- runs

KINDS = ("Stat", "Read", "Read", "List", "Write", "Write", "SetLength", "Create", "Mkdir", "Unlink", "Rmdir", "Rename", "Rename", "Rename",
         "Chmod", "Chown", "Chflags", "SetLevel", "Sync")


def run_call(rng, w, kinds=KINDS):
    p, q = some_path(rng, w), some_path(rng, w)
    data, mode = bytes(rng.randrange(1, 256) for _ in range(rng.randrange(4))), rng.choice([0o644, 0o6755, 0o777, 0o1777, rng.randrange(0o10000)])
    name = rng.choice(kinds)
    more = {"Read": (rng.randrange(4), rng.randrange(9)), "Write": (rng.choice([END, rng.randrange(12)]), data), "SetLength": (rng.randrange(12),),
            "Create": (mode,), "Mkdir": (mode,), "Rename": (rng.choice([q, p + q[-1:], q[:-1] + p[-1:]]),), "Chmod": (mode,),
            "Chown": (rng.randrange(3), rng.randrange(3)), "Chflags": (bits(rng),)}.get(name, ())
    return (name, rng.randrange(-1, 3)) if name == "SetLevel" else (name, None) if name == "Sync" else (name, p, *more)


def answered(m, numbers, w, c, call, rng):
    """A step that may come of a call."""
    if denial := m.decide(w, c, call):
        return Step(c, call, ("denied", denial), w, w)
    lacks = m.may_lack(numbers, w, c, call)
    if "NoInodes" in lacks or lacks and rng.random() < .1:
        return Step(c, call, ("refused", rng.choice(lacks)), w, m.refused(w, c, call))
    return Step(c, call, ("served", m.shows(w, call)), w, m.effect(w, c, call))


def run(m, w, rng, callers=lambda c: True, leaves=lambda step: False, numbers=40, length=7):
    """A run of such callers, without the steps that `leaves` names."""
    steps = []
    for _ in range(length):
        now, c = steps[-1].after if steps else w, some_caller(rng)
        step = Step(c, CLEANER, (), now, m.cleaned(now)) if rng.random() < .1 else answered(m, numbers, now, c, run_call(rng, now), rng)
        if (step.call == CLEANER or callers(c)) and not leaves(step):
            steps.append(step)
        if not is_tree(step.after.rows):
            break
    return steps


def end_of(w, steps): return steps[-1].after if steps else w


def may_be_answered(m, numbers, w, steps):
    """The same answers may come in another tree; the tree after them."""
    for s in steps:
        if s.call == CLEANER:
            w = m.cleaned(w)
            continue
        denial, kind = m.decide(w, s.caller, s.call), s.answer[0]
        if kind == "denied" and denial != s.answer[1] or kind != "denied" and denial:
            return None
        if kind == "refused" and s.answer[1] not in m.may_lack(numbers, w, s.caller, s.call):
            return None
        if kind == "served" and m.shows(w, s.call) != s.answer[1]:
            return None
        w = m.effect(w, s.caller, s.call) if kind == "served" else m.refused(w, s.caller, s.call) if kind == "refused" else w
    return w


def some_row(w, rng, fits): return rng.choice([n for n, r in w.rows.items() if fits(n, r)] or [0])


# ---- the laws

def each_entry(m, w, rng):
    for s in run(m, w, rng):
        if not is_tree(s.after.rows) or not served(s) and s.after != s.before or any(len(r.bytes) > LIMIT for r in s.after.rows.values()):
            return False
    return True


def mode_is_his(s, n, old, new):
    gone = s.caller.uid and s.call[0] in ("Write", "SetLength", "Chown") and new.mode == old.mode & 0o1777
    return target(s) == n and (s.call[0] == "Chmod" and owns(s.before.rows, s.caller, n) and not fixed(old) or gone)


PARTS = {
    "bytes": lambda s, n, old, new: target(s) == n and s.call[0] in ("Write", "SetLength") and reaches(s.before.rows, s.caller, n) and granted(s.caller, old, 2)
    and not immutable(old) and (not append_only(old) or s.call[0] == "Write" and s.call[2] is END),
    "parent": lambda s, n, old, new: target(s) == n and s.call[0] == "Rename" and may_take(s.before.rows, s.caller, n),
    "name": lambda s, n, old, new: target(s) == n and s.call[0] == "Rename" and may_take(s.before.rows, s.caller, n),
    "mode": mode_is_his,
    "uid": lambda s, n, old, new: target(s) == n and s.call[0] == "Chown" and s.caller.uid == 0 and not fixed(old),
    "gid": lambda s, n, old, new: target(s) == n and s.call[0] == "Chown" and owns(s.before.rows, s.caller, n) and not fixed(old),
    "flags": lambda s, n, old, new: target(s) == n and s.call[0] == "Chflags" and owns(s.before.rows, s.caller, n),
}


def removed(s, n):
    """A served call removed a row, whose caller might."""
    by = s.call[0] in ("Unlink", "Rmdir") and target(s) == n or s.call[0] == "Rename" and target(s, 2) == n != target(s)
    return n in s.before.rows and n not in s.after.rows and by and may_take(s.before.rows, s.caller, n)


def turned(s, n, part):
    """A served call changed a row's part, or removed the row, whose caller might."""
    old, new = s.before.rows.get(n), s.after.rows.get(n)
    return removed(s, n) or old and new and getattr(old, part) != getattr(new, part) and PARTS[part](s, n, old, new)


def changed_between(m, w, rng):
    steps = run(m, w, rng)
    after, done = end_of(w, steps), [s for s in steps if served(s)]
    for n in set(w.rows) | set(after.rows):
        old, new = w.rows.get(n), after.rows.get(n)
        if not new and not any(removed(s, n) for s in done):
            return False
        if not old and not any(s.call[0] in ("Create", "Mkdir") and n not in s.before.rows and n in s.after.rows and least(s.before.rows) == n for s in done):
            return False
        if old and new and not all(getattr(old, p) == getattr(new, p) or any(turned(s, n, p) for s in done) for p in PARTS):
            return False
        if old and new and new.mode & 0o6000 and not old.mode & 0o6000 and not any(
                removed(s, n) or s.call[0] == "Chmod" and target(s) == n and owns(s.before.rows, s.caller, n) for s in done):
            return False
    return after.level == w.level or any(s.call[0] == "SetLevel" and s.caller.uid == 0 and (s.caller.init or s.call[1] >= s.before.level) for s in done)


def regranted_between(m, w, rng):
    other, bit = some_caller(rng), rng.choice([1, 2, 4])
    steps = run(m, w, rng)
    after = end_of(w, steps)

    def regrants(s, n):
        return removed(s, n) or n in s.before.rows and target(s) == n and s.call[0] in ("Chmod", "Chown") and owns(s.before.rows, s.caller, n)
    return all(granted(other, r, bit) == granted(other, after.rows[n], bit) or any(regrants(s, n) for s in steps if served(s))
               for n, r in w.rows.items() if n in after.rows)


def users_steps(steps): return [s for s in steps if s.call not in (CLEANER, ("Sync", None)) and s.answer[0] != "refused"]


def users_alone(m, w, rng):
    steps = run(m, w, rng, numbers=9)
    return may_be_answered(m, 9, w, users_steps(steps)) == end_of(w, steps)


def same_answers(m, w, rng):
    steps = run(m, w, rng)
    first, now, others = users_steps(steps), w, []
    for s in first:
        while rng.random() < .3:
            now = m.cleaned(now)
        others.append(answered(m, 40, now, s.caller, s.call, rng))
        now = others[-1].after
        if others[-1].answer[0] == "refused":
            return True
    return [s.answer for s in first] == [s.answer for s in others] and now == end_of(w, steps)


def nobody_reads(m, w, rng):
    n = some_row(w, rng, lambda n, r: r.bytes)
    if not n:
        return True
    r = w.rows[n]
    steps = run(m, w, rng, lambda c: c.uid != r.uid and not granted(c, r, 4))
    return may_be_answered(m, 40, World(w.level, w.rows | {n: r._replace(bytes=bytes(255 - b for b in r.bytes))}), steps) is not None


def last_written(m, w, rng):
    steps = run(m, w, rng)
    known = {(n, i): b for n, r in w.rows.items() for i, b in enumerate(r.bytes)}
    for s in steps:
        if not served(s):
            continue
        if s.call[0] == "Write":
            size = len(s.before.rows[target(s)].bytes)
            known |= {(target(s), (size if s.call[2] is END else s.call[2]) + k): b for k, b in enumerate(s.call[3])}
        if s.call[0] == "SetLength":
            known = {at: b for at, b in known.items() if at[0] != target(s) or at[1] < s.call[2]}
        if s.call[0] in ("Create", "Mkdir"):
            known = {at: b for at, b in known.items() if at[0] != least(s.before.rows)}
    return all(b == known.get((n, i), 0) for n, r in end_of(w, steps).rows.items() for i, b in enumerate(r.bytes))


def brought(s):
    """The row that a served call is about, and what it gives of it."""
    name, path, *more = s.call
    rows = s.before.rows
    if name in ("Create", "Mkdir"):
        at = way(rows, path[:-1])[-1]
        return least(rows), dict(kind="f" if name == "Create" else "d", size=0, uid=s.caller.uid, gid=rows[at].gid, low=more[0] & 0o1777,
                                 high=more[0] & 0o6000, flags=0, place=(at, path[-1]))
    n, worn = target(s), dict(high=0) if s.caller.uid else {}
    if name == "Write" and more[1]:
        size = len(rows[n].bytes)
        end = (size if more[0] is END else more[0]) + len(more[1])
        return n, (dict(size=end) if end > size else {}) | worn
    return n, {"SetLength": lambda: dict(size=more[0]) | worn, "Chown": lambda: dict(uid=more[0], gid=more[1]) | worn, "Chflags": lambda: dict(flags=more[0]),
               "Chmod": lambda: dict(low=more[0] & 0o1777, high=more[0] & 0o6000),
               "Rename": lambda: dict(place=(way(rows, more[0][:-1])[-1], more[0][-1]))}.get(name, dict)()


def attributes(r):
    return dict(kind=r.kind, size=len(r.bytes), uid=r.uid, gid=r.gid, low=r.mode & 0o1777, high=r.mode & 0o6000, flags=r.flags, place=(r.parent, r.name))


def last_set(m, w, rng):
    known = {n: attributes(r) for n, r in w.rows.items()}
    steps = run(m, w, rng)
    for s in steps:
        if served(s):
            n, given = brought(s)
            known[n] = known.get(n, {}) | given
    return all(known[n] == attributes(r) for n, r in end_of(w, steps).rows.items())


def sets_flags(s, n): return served(s) and s.call[0] == "Chflags" and target(s) == n


def immutable_stays(m, w, rng):
    n = some_row(w, rng, lambda n, r: immutable(r))
    return not n or end_of(w, run(m, w, rng, leaves=lambda s: sets_flags(s, n))).rows.get(n) == w.rows[n]


def grows(old, new):
    rest = lambda r: r._replace(bytes=b"", mode=0, flags=0)
    return bool(new) and new.bytes[:len(old.bytes)] == old.bytes and new.mode in (old.mode, old.mode & 0o1777) and rest(new) == rest(old)


def append_only_grows(m, w, rng):
    n = some_row(w, rng, lambda n, r: append_only(r))
    if not n:
        return True
    new = end_of(w, run(m, w, rng, leaves=lambda s: sets_flags(s, n))).rows.get(n)
    return grows(w.rows[n], new) and new.flags == w.rows[n].flags


def names(rows, n): return {(r.name, k) for k, r in rows.items() if k != 2 and r.parent == n}


def locked_names_stay(m, w, rng):
    n = some_row(w, rng, lambda n, r: r.kind == "d" and fixed(r))
    if not n:
        return True
    after = end_of(w, run(m, w, rng, leaves=lambda s: sets_flags(s, n))).rows
    return names(w.rows, n) <= names(after, n) and (not immutable(w.rows[n]) or names(w.rows, n) == names(after, n))


def system_locks_stay(m, w, rng):
    w = World(max(w.level, 1), w.rows)
    drops = lambda s: served(s) and s.call[0] == "SetLevel" and s.caller.init and s.call[1] < 1
    steps = run(m, w, rng, lambda c: c.uid == 0 or rng.random() < .3, drops)
    after = end_of(w, steps).rows
    for n, r in w.rows.items():
        new = after.get(n)
        if r.flags & 0x20000 and (not new or not new.flags & 0x20000 or new._replace(flags=r.flags) != r or not names(after, n) == names(w.rows, n)):
            return False
        if r.flags & 0x40000 and (not grows(r, new) or not new.flags & 0x40000 or not names(w.rows, n) <= names(after, n)):
            return False
        if all(w.rows[k].flags & 0x60000 for k in above(w.rows, n)) and way(after, path_of(w, n))[-1] != n:
            return False
    return True


def door(w, rng):
    """A directory, whose callers it grants no search and who don't own it."""
    d = some_row(w, rng, lambda n, r: n != 2 and r.kind == "d" and names(w.rows, n))
    return d, lambda c: c.uid != w.rows[d].uid and not granted(c, w.rows[d], 1)


def closed_door(m, w, rng):
    d, outside = door(w, rng)
    if not d:
        return True
    after = end_of(w, run(m, w, rng, outside)).rows
    return all(after.get(n) == r for n, r in w.rows.items() if d in above(w.rows, n))


def closed_door_hides(m, w, rng):
    d, outside = door(w, rng)
    if not d:
        return True
    other = lambda r: r._replace(mode=rng.randrange(0o10000), uid=rng.randrange(3), flags=bits(rng), bytes=b"" if r.kind == "d" else b"other")
    v = World(w.level, {n: other(r) if d in above(w.rows, n) else r for n, r in w.rows.items()})
    return may_be_answered(m, 40, v, run(m, w, rng, outside)) is not None


def path_stays(m, w, rng):
    path = path_of(w, some_row(w, rng, lambda n, r: n != 2) or 2)
    on = way(w.rows, path)
    harmless = lambda c: c.uid and not any(c.uid == w.rows[n].uid and not w.rows[n].flags & 0x60000 or may_take(w.rows, c, n) for n in on)
    after = end_of(w, run(m, w, rng, harmless, length=12)).rows
    file_still = lambda old, new: new.mode in (old.mode, old.mode & 0o1777) and new._replace(bytes=old.bytes, mode=old.mode) == old
    still = lambda old, new: new == old or old.kind == "f" and new and file_still(old, new)
    return way(after, path) == on and all(still(w.rows[n], after.get(n)) for n in on)


def whose(r): return r.kind, r.uid, r.gid, r.flags


def strangers_leave(m, w, rng):
    n = some_row(w, rng, lambda n, r: True)
    r = w.rows[n]
    steps = run(m, w, rng, lambda c: c.uid not in (0, r.uid))
    new = end_of(w, steps).rows.get(n)
    return bool(new) and whose(new) == whose(r) and new.mode in (r.mode, r.mode & 0o1777) or any(removed(s, n) for s in steps if served(s))


def row_is_kept(m, w, rng):
    n = some_row(w, rng, lambda n, r: n != 2)
    if not n:
        return True
    r, d = w.rows[n], w.rows[w.rows[n].parent]
    kept = lambda c: not granted(c, d, 2) or not granted(c, d, 1) or d.mode & 0o1000 or fixed(d) or fixed(r)
    after = end_of(w, run(m, w, rng, lambda c: c.uid not in (0, r.uid, d.uid) and kept(c), length=12)).rows
    new, up = after.get(n), after.get(r.parent)
    return (bool(new) and bool(up) and whose(new) == whose(r) and (new.parent, new.name) == (r.parent, r.name) and new.mode in (r.mode, r.mode & 0o1777)
            and up._replace(parent=d.parent, name=d.name) == d)


def path_leads_through(m, w, rng):
    path = path_of(w, some_row(w, rng, lambda n, r: True))

    def cuts(s):
        on = way(s.before.rows, path)
        return served(s) and (s.call[0] in ("Unlink", "Rmdir") and target(s) == on[-1] or s.call[0] == "Rename" and target(s) in on)
    return all(way(s.after.rows, path)[-1] for s in run(m, w, rng, leaves=cuts))


def set_ids_are_fresh(m, w, rng):
    steps = run(m, w, rng, length=9)
    for i, s in enumerate(steps):
        if served(s) and s.caller.uid and (s.call[0] in ("SetLength", "Chown") or s.call[0] == "Write" and s.call[3]):
            n = target(s)
            new = end_of(w, steps).rows.get(n)
            sets = lambda t: t.call[0] == "Chmod" and target(t) == n and owns(t.before.rows, t.caller, n) or removed(t, n)
            if new and new.mode & 0o6000 and not any(sets(t) for t in steps[i + 1:] if served(t)):
                return False
    return True


RUN_LAWS = [each_entry, changed_between, regranted_between, users_alone, same_answers, nobody_reads, last_written, last_set, immutable_stays, append_only_grows,
            locked_names_stay, system_locks_stay, closed_door, closed_door_hides, path_stays, strangers_leave, row_is_kept, path_leads_through, set_ids_are_fresh]

# ---- the changes

M = Model


def without(*rules, of=None):
    """A model that doesn't ask these rules, of a call or of each."""
    def decide(self, w, c, call):
        return next((d for met, d in self.table(w, c, call) if not met and not (d[0] in rules and of in (None, call[0]))), None)
    return dict(decide=decide)


def some_file(w): return next((n for n, r in sorted(w.rows.items()) if r.bytes), 0)


def emptied(w):
    n = some_file(w)
    return World(w.level, w.rows | {n: w.rows[n]._replace(bytes=b"")}) if n else w


def after(name, change):
    """A model in which an allowed call does one thing more."""
    return dict(effect=lambda self, w, c, call: change(M.effect(self, w, c, call), w, c, call, self) if call[0] == name else M.effect(self, w, c, call))


def with_new_row(change):
    """The same of a row that the call made."""
    return lambda v, w, c, call, self: World(v.level, {n: r if n in w.rows else change(r, c) for n, r in v.rows.items()})


def with_row(change):
    """The same of the row at the call's path."""
    def changed(v, w, c, call, self):
        n = self.reached(w.rows, call[1])
        return World(v.level, v.rows | {n: change(v.rows[n], w.rows[n], c, call)})
    return changed


RUN_CHANGES = {
    "search isn't asked": without("S1"),
    "a Read asks no read": without("M1", of="Read"),
    "write of the directory isn't asked": without("M2", of="Unlink"),
    "a Rename asks no write": without("M2", of="Rename"),
    "the sticky bit isn't asked": without("Y1"),
    "immutable isn't asked": without("F1"),
    "append-only isn't asked": without("F2"),
    "a Create asks nothing of flags": without("F1", of="Create"),
    "a Chmod asks no owner": without("O1", of="Chmod"),
    "a Chown asks no owner": without("O2"),
    "a Chflags asks no owner": without("O1", of="Chflags"),
    "a Chflags at level 1 clears a system lock": without("L2"),
    "a SetLevel asks no init": without("L3"),
    "each user sets the level": without("U1"),
    "a directory with children is removed": without("K2"),
    "a directory moves beneath itself": without("K4"),
    "a name is made twice": without("N3"),
    "a refused call is done": dict(refused=lambda self, w, c, call: self.effect(w, c, call)),
    "a cleaner's call empties a file": dict(cleaned=lambda self, w: emptied(w)),
    "a Sync empties a file": after("Sync", lambda v, w, c, call, self: emptied(v)),
    "set-id bits stay": dict(clear_set_ids=lambda self, mode: mode),
    "set-id bits of user 0's Write go": after("Write", with_row(lambda r, old, c, call: r._replace(mode=r.mode & 0o1777))),
    "a new file has its caller's first group": after("Create", with_new_row(lambda r, c: r._replace(gid=c.groups[0]))),
    "a new directory has the sticky bit": after("Mkdir", with_new_row(lambda r, c: r._replace(mode=r.mode | 0o1000))),
    "bytes behind a cut are ones": after("SetLength", with_row(lambda r, old, c, call: r._replace(bytes=old.bytes[:call[2]].ljust(call[2], b"\1")))),
    "a Write within a file cuts it": after("Write", with_row(
        lambda r, old, c, call: r._replace(bytes=r.bytes[:(len(old.bytes) if call[2] is END else call[2]) + len(call[3])]) if call[3] else r)),
    "a Write begins a byte late": after("Write", with_row(lambda r, old, c, call: r._replace(bytes=old.bytes + b"\0" + call[3]) if call[2] is END else r)),
    "a Chown takes flags away": after("Chown", with_row(lambda r, old, c, call: r._replace(flags=0))),
    "a Chown sets the owner alone": after("Chown", with_row(lambda r, old, c, call: r._replace(gid=old.gid))),
    "a Chmod keeps the sticky bit": after("Chmod", with_row(lambda r, old, c, call: r._replace(mode=r.mode | old.mode & 0o1000))),
    "a Chflags keeps what was set": after("Chflags", with_row(lambda r, old, c, call: r._replace(flags=r.flags | old.flags))),
    "a moved file is emptied": dict(renamed=lambda self, rows, n, at, name: M.renamed(self, rows | {n: rows[n]._replace(bytes=b"")}, n, at, name)),
    "a replaced row takes the moved one with it": dict(renamed=lambda self, rows, n, at, name: {
        k: r for k, r in M.renamed(self, rows, n, at, name).items() if k != n or not self.child(rows, at, name)}),
    "a Rename keeps the old name": dict(renamed=lambda self, rows, n, at, name: M.renamed(self, rows, n, at, rows[n].name)),
}
