"""The laws of one call as tests of `laws_model.py`, and each call without each of its rules: for `laws-fall.py`.

A law takes a step, a call with its answer and the trees before and after it, and says whether it holds. It shares no word with the
model.
"""
from laws_model import END, LIMIT, Model, some_caller, some_world
from laws_runs import (CLEANER, answered, append_only, fixed, granted, hangs, immutable, is_tree, least, may_take, names, owns, reaches,
                       run, run_call, way, without)


def end_of(rows, path): return way(rows, path)[-1]
def may_write(rows, c, n): return reaches(rows, c, n) and granted(c, rows[n], 2) and not immutable(rows[n])
def may_place(rows, c, at): return at in rows and rows[at].kind == "d" and may_write(rows, c, at) and granted(c, rows[at], 1)
def may_replace(rows, c, kind, m): return may_take(rows, c, m) and not names(rows, m) and rows[m].kind == kind
def givable(c, r, uid, gid): return c.uid == 0 or uid == r.uid and (gid == r.gid or gid in c.groups)
def flaggable(w, c, r, flags): return (c.uid == 0 or r.flags >> 16 == flags >> 16 and not r.flags & 0x60000) and (w.level < 1 or not r.flags & ~flags & 0x60000)
def end_in(r, call): return call[2] if call[0] == "SetLength" else (len(r.bytes) if call[2] is END else call[2]) + len(call[3])


def may_rename(rows, c, n, to):
    if not may_take(rows, c, n) or not to or n in way(rows, to[:-1]):
        return False
    at, r = end_of(rows, to[:-1]), rows[n]
    if at not in rows or rows[at].kind != "d" or not reaches(rows, c, at) or not granted(c, rows[at], 1):
        return False
    m = hangs(rows, at, to[-1])
    if m == n:
        return True
    return may_place(rows, c, at) and (not m or may_replace(rows, c, r.kind, m)) and (r.kind == "f" or r.parent == at or granted(c, r, 2))


def may(w, c, call):
    """Whether a caller may make a call, in users' words."""
    name, path, *more = call
    rows = w.rows
    if name in ("SetLevel", "Sync"):
        return name == "Sync" or c.uid == 0 and (c.init or path >= w.level)
    if name in ("Create", "Mkdir"):
        at = end_of(rows, path[:-1])
        return bool(path) and may_place(rows, c, at) and not hangs(rows, at, path[-1])
    n = end_of(rows, path)
    if n not in rows or not reaches(rows, c, n):
        return False
    r = rows[n]
    changes = r.kind == "f" and may_write(rows, c, n)
    return {"Stat": lambda: True, "Read": lambda: r.kind == "f" and granted(c, r, 4), "List": lambda: r.kind == "d" and granted(c, r, 4),
            "Write": lambda: changes and (more[0] is END or not append_only(r)) and end_in(r, call) <= LIMIT,
            "SetLength": lambda: changes and not append_only(r) and more[0] <= LIMIT,
            "Unlink": lambda: r.kind == "f" and may_take(rows, c, n), "Rmdir": lambda: r.kind == "d" and not names(rows, n) and may_take(rows, c, n),
            "Rename": lambda: may_rename(rows, c, n, more[0]), "Chmod": lambda: owns(rows, c, n) and not fixed(r),
            "Chown": lambda: owns(rows, c, n) and not fixed(r) and givable(c, r, *more),
            "Chflags": lambda: owns(rows, c, n) and flaggable(w, c, r, more[0])}[name]()


# ---- the laws

def served_exactly_where_he_may(s): return may(s.before, s.caller, s.call) == (s.answer[0] != "denied")
def at_path(s, index=1): return end_of(s.before.rows, s.call[index]) if s.call[0] not in ("SetLevel", "Sync") else 0
def both(s): return [(n, r, s.after.rows[n]) for n, r in s.before.rows.items() if n in s.after.rows]


def gone(s):
    def removed(n, r):
        by = {"Unlink": r.kind == "f" and at_path(s) == n, "Rmdir": r.kind == "d" and at_path(s) == n,
              "Rename": s.call[0] == "Rename" and at_path(s, 2) == n and s.before.rows.get(at_path(s), r).kind == r.kind and at_path(s) in s.after.rows
              and s.after.rows[at_path(s)][:2] == r[:2]}.get(s.call[0], False)
        return by and may_take(s.before.rows, s.caller, n) and not names(s.before.rows, n)
    return all(removed(n, r) for n, r in s.before.rows.items() if n not in s.after.rows)


def new(s):
    def made(n, r):
        kind = {"Create": "f", "Mkdir": "d"}.get(s.call[0])
        return (kind and s.call[1] and n == least(s.before.rows) and may_place(s.before.rows, s.caller, r.parent) and not hangs(s.before.rows, r.parent, r.name)
                and (r.parent, r.name) == (end_of(s.before.rows, s.call[1][:-1]), s.call[1][-1])
                and r[2:] == (kind, s.caller.uid, s.before.rows[r.parent].gid, s.call[2], 0, b""))
    return all(made(n, r) for n, r in s.after.rows.items() if n not in s.before.rows)


def moved(s):
    def might(n, r, t):
        rows, there = s.before.rows, hangs(s.before.rows, t.parent, t.name)
        return (s.call[0] == "Rename" and s.call[2] and at_path(s) == n and (t.parent, t.name) == (end_of(rows, s.call[2][:-1]), s.call[2][-1])
                and may_take(rows, s.caller, n) and may_place(rows, s.caller, t.parent) and (not there or may_replace(rows, s.caller, r.kind, there))
                and (r.kind == "f" or r.parent == t.parent or granted(s.caller, r, 2)))
    return all(r[:2] == t[:2] or might(n, r, t) for n, r, t in both(s))


def rewritten(s):
    def might(n, r, t):
        if s.call[0] not in ("Write", "SetLength") or at_path(s) != n or r.kind != "f" or not may_write(s.before.rows, s.caller, n):
            return False
        if append_only(r) and (s.call[0] != "Write" or s.call[2] is not END or t.bytes != r.bytes + s.call[3]):
            return False
        size = end_in(r, s.call) if s.call[0] == "SetLength" else max(len(r.bytes), end_in(r, s.call))
        start, data = (0, b"") if s.call[0] == "SetLength" else (end_in(r, s.call) - len(s.call[3]), s.call[3])
        want = r.bytes[:size].ljust(size, b"\0")
        return len(t.bytes) == size and (size <= LIMIT or len(r.bytes) > LIMIT) and t.bytes == want[:start] + data + want[start + len(data):]
    return all(r.bytes == t.bytes or might(n, r, t) for n, r, t in both(s))


def remoded(s):
    def might(n, r, t):
        rows, c = s.before.rows, s.caller
        sets = s.call[0] == "Chmod" and s.call[2] == t.mode and owns(rows, c, n) and not fixed(r) and t == r._replace(mode=t.mode)
        gives = s.call[0] == "Chown" and s.call[2:] == (t.uid, t.gid) and owns(rows, c, n) and not fixed(r)
        writes = (s.call[0] in ("Write", "SetLength") and r.kind == "f" and may_write(rows, c, n)
                  and (not append_only(r) or s.call[0] == "Write" and s.call[2] is END))
        return at_path(s) == n and (sets or c.uid and t.mode == r.mode & 0o1777 and (gives or writes))
    return all(r.mode == t.mode or might(n, r, t) for n, r, t in both(s))


def given(s):
    def might(n, r, t):
        c = s.caller
        return (s.call[0] == "Chown" and at_path(s) == n and s.call[2:] == (t.uid, t.gid) and owns(s.before.rows, c, n) and not fixed(r)
                and (c.uid == 0 or t.uid == r.uid and t.gid in c.groups))
    return all((r.uid, r.gid) == (t.uid, t.gid) or might(n, r, t) for n, r, t in both(s))


def reflagged(s):
    def might(n, r, t):
        return (s.call[0] == "Chflags" and at_path(s) == n and s.call[2] == t.flags and owns(s.before.rows, s.caller, n)
                and flaggable(s.before, s.caller, r, t.flags))
    return all(r.flags == t.flags or might(n, r, t) for n, r, t in both(s))


def relevelled(s):
    old, now = s.before.level, s.after.level
    return old == now or s.call == ("SetLevel", now) and s.caller.uid == 0 and (now > old or s.caller.init)


def done(s):
    if s.answer[0] != "served":
        return True
    name, path, *more = s.call
    rows, new, worn = s.before.rows, s.after.rows.get(at_path(s)), lambda r: s.caller.uid and r.mode & 0o6000
    old = rows.get(at_path(s))
    if name == "Write" and more[1]:
        end = end_in(old, s.call)
        return new and len(new.bytes) == max(len(old.bytes), end) and new.bytes[end - len(more[1]):end] == more[1] and not worn(new)
    if name == "Rename":
        at = end_of(rows, more[0][:-1])
        return new and (new.parent, new.name) == (at, more[0][-1]) and hangs(rows, at, more[0][-1]) in (0, at_path(s), *(set(rows) - set(s.after.rows)))
    if name in ("Create", "Mkdir"):
        return hangs({n: r for n, r in s.after.rows.items() if n not in rows}, end_of(rows, path[:-1]), path[-1])
    return {"SetLength": lambda: len(new.bytes) == more[0] and not worn(new), "Unlink": lambda: not new, "Rmdir": lambda: not new,
            "Chmod": lambda: new.mode == more[0], "Chown": lambda: (new.uid, new.gid) == tuple(more) and not worn(new), "Chflags": lambda: new.flags == more[0],
            "SetLevel": lambda: s.after.level == path}.get(name, lambda: s.after == s.before)()


def one_thing(s):
    changed = [n for n in set(s.before.rows) | set(s.after.rows) if s.before.rows.get(n) != s.after.rows.get(n)]
    two = s.call[0] == "Rename" and len(changed) == 2 and set(changed) == {at_path(s), at_path(s, 2)} and at_path(s, 2) not in s.after.rows
    idle = s.call[0] in ("Stat", "Read", "List", "Sync") or s.answer[0] != "served"
    worn = lambda r, t: t._replace(mode=r.mode) if t.mode == r.mode & 0o1777 else t
    part = lambda r, t: (t[2:] == r[2:] or worn(r, t) == r._replace(bytes=t.bytes) or t == r._replace(mode=t.mode)
                         or worn(r, t) == r._replace(uid=t.uid, gid=t.gid) or t == r._replace(flags=t.flags))
    return ((len(changed) < 2 or two) and (not changed or s.before.level == s.after.level) and not (idle and s.before != s.after)
            and all(part(r, t) for n, r, t in both(s)))


def leaves_tree(s): return is_tree(s.after.rows)


def shown(s):
    if s.answer[0] != "served" or s.call[0] not in ("Stat", "Read", "List"):
        return s.answer[0] != "served" or s.answer[1] is None
    n, rows, c = at_path(s), s.before.rows, s.caller
    if n not in rows or not reaches(rows, c, n) or s.call[0] != "Stat" and not granted(c, rows[n], 4):
        return False
    r = rows[n]
    return {"Stat": lambda: s.answer[1] == (n, r._replace(bytes=len(r.bytes))),
            "Read": lambda: r.kind == "f" and s.answer[1] == r.bytes[s.call[2]:s.call[2] + min(s.call[3], 4096)],
            "List": lambda: r.kind == "d" and s.answer[1] == sorted(x for x, _ in names(rows, n))}[s.call[0]]()


def tells_little(s):
    if s.answer[0] != "denied":
        return True
    (rule, index, at), c, rows, call = s.answer[1], s.caller, s.before.rows, s.call
    if call[0] == "SetLevel":
        return index == at == 0 and (rule == "U1" and c.uid != 0 or rule == "L3" and call[1] < s.before.level and not c.init)
    if call[0] == "Sync" or index > (call[0] == "Rename") or at > len(call[1 + index]):
        return False
    path = call[1 + index]
    on = way(rows, path[:at])
    if not all(n in rows and rows[n].kind == "d" and granted(c, rows[n], 1) for n in on[:-1]):
        return False
    n, left = on[-1], len(path) - at
    if n not in rows:
        return rule == "N2"
    r, d = rows[n], rows[rows[n].parent]
    changes = call[0] == "Chflags" and (r.flags >> 16 != call[2] >> 16 or r.flags & 0x60000)
    at_end = {"N3": True, "K1": r.kind == "d", "K2": r.kind == "d" and names(rows, n), "K3": n == 2, "M1": not granted(c, r, 4),
              "Y1": d.mode & 0o1000 and c.uid not in (0, r.uid, d.uid), "O1": c.uid not in (0, r.uid),
              "O2": c.uid and call[0] == "Chown" and (c.uid != r.uid or not givable(c, r, *call[2:])), "L1": c.uid and changes,
              "L2": s.before.level > 0 and call[0] == "Chflags" and r.flags & ~call[2] & 0x60000,
              "Z1": call[0] in ("Write", "SetLength") and end_in(r, call) > LIMIT}
    near_end = {"F1": immutable(r), "F2": append_only(r), "M2": not granted(c, r, 2)}
    on_way = {"N1": r.kind == "f", "S1": r.kind == "d" and not granted(c, r, 1), "K4": left and call[0] == "Rename" and end_of(rows, call[1]) == n}
    says = on_way | (near_end if left < 2 else {}) | (at_end if left == 0 else {})
    return bool(says.get(rule))


CALL_LAWS = [served_exactly_where_he_may, gone, new, moved, rewritten, remoded, given, reflagged, relevelled, done, one_thing, leaves_tree, shown, tells_little]

# ---- the changes

# The rules that each call asks, but those behind whose place another rule denies the same calls: N2, K3, and N3 of `/`.
ASKED = {"Stat": "N1 S1", "Read": "N1 S1 K1 M1", "List": "N1 S1 M1", "Write": "N1 S1 K1 F1 M2 F2 Z1", "SetLength": "N1 S1 K1 F1 M2 F2 Z1",
         "Create": "N1 S1 N3 F1 M2", "Mkdir": "N1 S1 N3 F1 M2", "Unlink": "N1 S1 F1 M2 F2 Y1 K1", "Rmdir": "N1 S1 F1 M2 F2 Y1 K2", "Rename": "N1 S1 F1 M2 F2 Y1 K1 K2 K4",
         "Chmod": "N1 S1 F1 F2 O1", "Chown": "N1 S1 F1 F2 O2", "Chflags": "N1 S1 O1 L1 L2", "SetLevel": "U1 L3"}
RULE_CHANGES = {f"{rule} isn't asked of a {name}": (name, rule) for name, rules in ASKED.items() for rule in rules.split()}


def past_limit(rng, call): return (call[0], call[1], LIMIT + 1) if call[0] == "SetLength" else (*call[:2], LIMIT - rng.randrange(2), b"xyz")


def fallen_steps(steps):
    """The laws that are false of one of these steps."""
    left, false = list(CALL_LAWS), []
    for s in steps:
        wrong = [law for law in left if not law(s)]
        left, false = [law for law in left if law not in wrong], false + [law.__name__ for law in wrong]
    return false


def steps_without(model, change, trials, rng):
    """Random calls that a model without a rule decides otherwise than `model`, as it answers them."""
    name, rule = RULE_CHANGES[change]
    other = type("Changed", (type(model),), without(rule, of=name))()
    for _ in range(trials):
        w, c = some_world(rng, 0), some_caller(rng)
        for _ in range(8):
            call = run_call(rng, w, (name,))
            call = past_limit(rng, call) if rule == "Z1" else call
            try:
                if (model.decide(w, c, call) or ("",))[0] == rule and other.decide(w, c, call) != model.decide(w, c, call):
                    yield answered(other, 40, w, c, call, rng)
            except (AttributeError, KeyError, IndexError, TypeError):
                pass


def steps_of_runs(model, trials, rng):
    """Users' steps of random runs; none of a run in which a changed model fails."""
    for _ in range(trials):
        try:
            yield from [s for s in run(model, some_world(rng, 0), rng) if s.call != CLEANER]
        except (AttributeError, KeyError, IndexError, RecursionError, TypeError):
            if type(model) is Model:
                raise
