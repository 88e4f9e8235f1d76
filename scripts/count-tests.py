#!/usr/bin/env python3
"""Counts what is proved and tried: contracts, wrong bodies, tests, stored scripts and programs."""
import re
from pathlib import Path

TOP = Path(__file__).resolve().parent.parent
LAYERS = {
    "values, rules and the model": "types rules dirs model laws checks explain why who",
    "calls, volume and sessions": "calls known flatfiles volume trace settle cleaner server rounds",
    "the log": "segments ifile inodes bmap log recency cache parts staging segwrite logstore share fsck image recovery reach rescue trees view durable durable_store findable logged disk disk_store file_disk disk_start",
    "a mount": "fuse_wire fuse_reply nodes fuse_calls stamps opens mount fuse_talk",
    "texts and programs": "words print script journal_lines io sinks audit hearing browse live terminal film programs command auditing checking stands shell lfsd",
}


def files(crate, pattern):
    return [path for path in (TOP / "crates" / crate).glob(pattern) if "out" not in path.relative_to(TOP / "crates").parts]


def count(crates, pattern, shape):
    return sum(len(re.findall(shape, path.read_text(), re.M)) for crate in crates for path in files(crate, pattern))


def main():
    crates = sorted(path.name for path in (TOP / "crates").iterdir() if (path / "src").is_dir())
    product = [crate for crate in crates if not re.search(r"tests|bench|workloads|scarcity", crate)]
    print(f"crates: {len(crates)}, of them the product: {len(product)}")
    print(f"functions of the product: {count(product, 'src/**/*.rt', r'^ *(?:pub(?:[(]crate[)])? )?fn ')}")
    print(f"clauses: ensures {count(product, 'src/**/*.rt', r'^ *ensures')}, requires {count(product, 'src/**/*.rt', r'^ *requires')}")
    print(f"laws: {count(['lfs_laws'], 'src/laws.rt', r'^pub fn ')}")
    edits = {crate: len(files(crate, "must-fail/*.edit")) for crate in crates}
    print(f"wrong bodies: {sum(edits.values())}")
    named = set()
    for layer, names in LAYERS.items():
        own = [crate for name in names.split() for crate in (name, f"lfs_{name}") if crate in edits]
        named.update(own)
        print(f"  {layer}: {sum(edits[crate] for crate in own)}")
    rest = sum(number for crate, number in edits.items() if crate not in named)
    print(f"  others: {rest}") if rest else None
    print(f"wrong bodies beside the gate: {sum(len(files(crate, 'must-fail-too/*.edit')) for crate in crates)}")
    for crate in crates:
        tests = count([crate], "src/**/*.rt", r"^ *#\[test\]")
        if tests:
            print(f"tests of {crate}: {tests}")
    scripts = files("lfs_script_tests", "data/*.lfs")
    print(f"stored scripts: {len(scripts)}, of {sum(len(path.read_text(errors='replace').splitlines()) for path in scripts)} lines")
    print("programs run as two compilers build them: " + ", ".join(crate for crate in crates if (TOP / "crates" / crate / "stdout").exists()))


main()
