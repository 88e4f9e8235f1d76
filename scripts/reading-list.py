#!/usr/bin/env python3
"""Prints the definitions on which the promises stand, in reading order, as the tables of docs/TRUST.md.

It begins with the contracts of the calls that carry them, follows each name to the definition in specs/ that it stands
for, and goes on with the names in that definition. Files come in the order in which they can be read, each after those
that it uses. The first table tells each definition with its line; the others tell what their calls add to it. With
--check it compares the tables with those in docs/TRUST.md, and fails where they differ; --write puts them there.
"""
import re
import sys
from pathlib import Path

TOP = Path(__file__).resolve().parent.parent
# what a table is of; the files, the functions whose contracts count, and the impl blocks that count whole
TABLES = [
    ("A volume: `Volume::new`, `over`, `call`, `clean`, `run_steps` and `drain`, and the type of `Volume`",
     [("lfs_volume/src/volume.rt", ["new", "over", "call", "clean", "run_steps", "drain"], ["Model for Volume"])]),
    ("Sessions on threads: `serve` and `serve_clients`",
     [("lfs_server/src/serve.rt", ["serve"], []), ("lfs_server/src/live.rt", ["serve_clients"], [])]),
    ("Scripts and their texts: `run_script` and `run_threads`",
     [("lfs_audit/src/run.rt", ["run_script"], []), ("lfs_audit/src/threads.rt", ["run_threads"], [])]),
    ("The log's own relations: the type of `LogStore`, and what its cleaner's calls mean",
     [("lfs_logstore/src/store.rt", [], ["Model for LogStore"]), ("lfs_logstore/src/cleaning.rt", [], ["CleanedStore for LogStore"])]),
]
DEFINITION = re.compile(r"^(?:unfoldable )?(?:abbrev )?(?:pub )?(?:(record|ruleset) )?([^\s(){}:,]+)(?=\s|\(|:)")
WORD = re.compile(r"[A-Za-z_][\w-]*")


def crates():
    """The crates, each after those that it uses."""
    uses = {}
    for line in (TOP / "crates.txt").read_text().splitlines():
        if ":" in line and not line.startswith("#"):
            name, needs = line.split(":", 1)
            uses[name.split()[0]] = needs.split()
    order, seen = [], set()

    def visit(name):
        if name in uses and name not in seen:
            seen.add(name)
            for need in uses[name]:
                visit(need)
            order.append(name)

    for name in uses:
        visit(name)
    return order


def definitions(path):
    """Name to (first line, count of lines, text) of a file's definitions."""
    found, lines = {}, path.read_text().splitlines()
    starts = []
    for at, line in enumerate(lines):
        if line.startswith(("use ", "--", "pub mod", "mod ", " ", "\t", "ghost ")) or not line:
            continue
        match = DEFINITION.match(line)
        if match and not (starts and starts[-1][1] == match[2]):
            starts.append((at, match[2]))
    for place, (at, name) in enumerate(starts):
        end = starts[place + 1][0] if place + 1 < len(starts) else len(lines)
        block = lines[at:end]
        while block and (not block[-1] or block[-1].startswith("--")):
            block.pop()
        if name in found:
            first, count, text = found[name]
            found[name] = (first, count + len(block), text + "\n" + "\n".join(block))
        else:
            found[name] = (at + 1, len(block), "\n".join(block))
    return found


def imports(text):
    """Name to (crate, file below specs/, name there), by the use lines of a file."""
    found = {}
    for crate, path, names in re.findall(r"use Rattle\.(lfs_\w+)\.specs\.([\w.]+)\.\{([^}]*)\}", text):
        if path.startswith("declared"):
            continue
        for name in names.split(","):
            parts = name.split(" as ")
            found[parts[-1].strip()] = (crate, path, parts[0].strip())
    return found


def contract(text, function):
    """The clauses of a function: from its name to the brace that opens its body."""
    match = re.search(rf"^\s*(?:pub )?fn {function}\b.*?^\s*\{{$", text, re.M | re.S)
    return match[0] if match else ""


def block(text, head):
    match = re.search(rf"^impl.*{re.escape(head)}.*?^\}}", text, re.M | re.S)
    return match[0] if match else ""


def file_of(crate, path):
    return TOP / "crates" / crate / "specs" / (path.replace(".", "/") + ".antt")


def follow(entries, wanted, parsed):
    """Adds to what is wanted all that the contracts of these entries lead to."""
    todo = []
    for name, functions, heads in entries:
        text = (TOP / "crates" / name).read_text()
        names = imports(text)
        clauses = "".join(contract(text, function) for function in functions) + "".join(block(text, head) for head in heads)
        todo += [names[word] for word in sorted(set(WORD.findall(clauses))) if word in names]
    while todo:
        crate, path, name = todo.pop()
        file = file_of(crate, path)
        if (crate, path) not in parsed:
            parsed[crate, path] = (definitions(file), imports(file.read_text())) if file.exists() else ({}, {})
        here, names = parsed[crate, path]
        if name not in here or (crate, path, name) in wanted:
            continue
        wanted[crate, path, name] = here[name]
        for word in set(WORD.findall(here[name][2])):
            if word in here and word != name:
                todo.append((crate, path, word))
            elif word in names:
                todo.append(names[word])


def reading_order(keys, wanted, parsed):
    """The files of these definitions, each after those that it uses."""
    files, order, seen = {}, [], set()
    for crate, path, name in keys:
        files.setdefault((crate, path), []).append((wanted[crate, path, name][0], name))

    def visit(key):
        if key in seen or key not in files:
            return
        seen.add(key)
        for crate, path, name in sorted(parsed[key][1].values()):
            if (crate, path, name) in wanted:
                visit((crate, path))
        order.append((key, sorted(files[key])))

    place = {name: at for at, name in enumerate(crates())}
    for key in sorted(files, key=lambda key: (place[key[0]], key[1])):
        visit(key)
    return order


def main():
    wanted, parsed, parts = {}, {}, []
    for title, entries in TABLES:
        before = set(wanted)
        follow(entries, wanted, parsed)
        new = [key for key in wanted if key not in before]
        order = reading_order(new, wanted, parsed)
        count = sum(wanted[key][1] for key in new)
        parts.append(f"### {title}\n\n{len(new)} definitions{' more' if before else ''}, {count} lines, in {len(order)} files.\n")
        if before and "--all" not in sys.argv[1:]:
            by_crate = {}
            for (crate, path), names in order:
                by_crate[crate] = by_crate.get(crate, 0) + len(names)
            parts.append("By crate: " + ", ".join(f"`{crate}` {count}" for crate, count in by_crate.items()) + ".")
        else:
            parts.append("| File | Definitions, with their lines |\n|---|---|")
            for (crate, path), names in order:
                told = ", ".join(f"`{name}` {line}" for line, name in names)
                parts.append(f"| `{crate}/specs/{path.replace('.', '/')}.antt` | {told} |")
        parts.append("")
    table = "\n".join(parts).strip()
    if "--check" in sys.argv[1:]:
        if table not in (TOP / "docs/TRUST.md").read_text():
            sys.exit("docs/TRUST.md has other tables: scripts/reading-list.py --write puts them there")
    elif "--write" in sys.argv[1:]:
        page = TOP / "docs/TRUST.md"
        page.write_text(page.read_text().partition("### ")[0] + table + "\n")
    else:
        print(table)


main()
