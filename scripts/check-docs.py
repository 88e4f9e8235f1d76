#!/usr/bin/env python3
"""Says where README.md, docs/ and the READMEs of crates, examples and the bench name what isn't there.

A name between backticks that looks like a crate, a file, an item, a clause, a wrong body, a script or a test must stand
in the repository; where the text says of which crate it is, in that crate. The crates of crates.txt, README's table and
the map of docs/ARCHITECTURE.md must be the same, and a crate must lead to what it uses. Each wrong body must be named
and replace a text that stands once, and each one that is named be there. The functions of a README's tables are its
crate's, or those of one that the row names, and it says in which crate the tests stand. README.md names as trusted the
toolchain's crates that ours use. Links must lead somewhere, no line may name a place of one machine, the tables of
docs/TRUST.md must be those that scripts/reading-list.py makes, docs/SPEC.md is what scripts/spec-page.py makes, the
manual pages have the options that the programs take, the tutorial shows its scripts as the gate runs them, the counts of
docs/TESTING.md and docs/GATE.md are those that scripts/count-tests.py makes, and README.md with the pages of docs/ that
are written by hand stays under 160 KiB. No line of a definition or a proof has above 150 columns
(scripts/wrap-proofs.py).

Prints FILE:LINE: WHAT for each problem and ends with status 1, else one line.
"""
import os
import re
import subprocess
import sys
from functools import lru_cache
from pathlib import Path

TOP = Path(__file__).resolve().parent.parent
MOST_BYTES = 160 * 1024
CRATES = sorted(folder.name for folder in (TOP / "crates").iterdir() if (folder / "src").is_dir())
CODE = re.compile(r"`([^`\n]+)`")
WORD = re.compile(r"[A-Za-z_]\w*")
FILE = re.compile(r"[\w./*-]+\.(?:rt|antt|md|py|sh|edit|lfs|out|txt|csv)")
ITEM = re.compile(r"[A-Za-z_]\w*(?:(?:::|\.)[A-Za-z_]\w*)*")
HYPHENED = re.compile(r"[a-z0-9]+(?:-[a-z0-9]+)+")
# a line of a script in the tutorial, and its answer
SHOWN = re.compile(r"    (\S.*?)(?: {2,}([0-8] .*))?$")
# a place of one machine, which nobody else has
PLACE = re.compile(r"(?<![\w.])/(?:work|opt|tmp|root|usr|Users)/")
# what belongs to the toolchain, Rust or the field, and stands in no file of ours
OTHERS = set("bazel cargo clang perf rustc valgrind just rg grep usize isize vec panic assert omega grind simp".split())


def pages():
    """The files that are read, README.md first."""
    beside = [TOP / "bench/README.md", *sorted((TOP / "examples").rglob("*.md"))]
    return [TOP / "README.md", *sorted((TOP / "docs").glob("*.md")), *sorted((TOP / "crates").glob("*/*.md")), *beside]


@lru_cache(maxsize=None)
def kept(folder):
    """The files below a folder that are kept: none of what a check makes."""
    found = []
    for at, folders, names in os.walk(folder):
        folders[:] = sorted(name for name in folders if name not in ("out", ".git", "__pycache__"))
        found += [Path(at) / name for name in sorted(names)]
    return found


def parts_of(crate):
    """The files of a crate's code, definitions, proofs and data."""
    return [path for part in ("src", "specs", "proofs", "data") for path in kept(TOP / "crates" / crate / part)]


@lru_cache(maxsize=None)
def words_of(crate):
    """The words of a crate's code, definitions and proofs, and the names of its files."""
    found = set()
    for path in parts_of(crate):
        found.update(re.split(r"[/.]", str(path.relative_to(TOP))))
        if path.suffix in (".rt", ".antt"):
            text = path.read_text()
            found.update(WORD.findall(text))
            found.update(re.findall(r"[A-Za-z_][\w-]*\w", text))
    return found


@lru_cache(maxsize=None)
def defined_in(crate):
    """The names that a crate's own text defines: items, fields, variants, clauses, definitions, lemmas, and its files."""
    found = {crate}
    for path in parts_of(crate):
        found.update(re.split(r"[/.]", str(path.relative_to(TOP))))
        text = path.read_text() if path.suffix in (".rt", ".antt") else ""
        if path.suffix == ".rt":
            found.update(re.findall(r"\b(?:fn|struct|enum|trait|type|const|static|mod|ghost|ensures|requires|invariant)\s+(\w+)", text))
            found.update(re.findall(r"^\s*(?:pub(?:\([a-z]+\))? )?(\w+)\s*:", text, re.M))
            found.update(re.findall(r"^\s+([A-Z]\w*)\s*(?:[,({=]|$)", text, re.M))
            found.update(word for line in re.findall(r"^\s*pub use ([^;]*);", text, re.M) for word in WORD.findall(line))
        else:
            found.update(re.findall(r"^(?:unfoldable )?(?:abbrev )?(?:pub )?(?:(?:record|ruleset|data) )?([A-Za-z_][\w-]*)", text, re.M))
            found.update(re.findall(r"^\s+(?:\| )?([A-Za-z_][\w-]*) :", text, re.M))
    return found


@lru_cache(maxsize=None)
def edits_of(crate):
    return {path.stem for part in ("must-fail", "must-fail-too") for path in (TOP / "crates" / crate / part).glob("*.edit")}


@lru_cache(maxsize=None)
def all_words():
    found = set(OTHERS) | set(CRATES)
    for crate in CRATES:
        found |= words_of(crate) | edits_of(crate)
    for path in [TOP / "crates.txt", TOP / "justfile", TOP / ".ci/run", *kept(TOP / "scripts"), *kept(TOP / "examples")]:
        if path.is_file() and path.suffix in ("", ".txt", ".py", ".sh"):
            found.update(WORD.findall(path.read_text()))
            found.update(re.findall(r"[A-Za-z_][\w-]*\w", path.read_text()))
    return found


@lru_cache(maxsize=None)
def all_files():
    """Each file's path, and those of the folders on the way, with every end of them: a text may begin anywhere on it."""
    found = set()
    for path in kept(TOP):
        parts = path.relative_to(TOP).parts
        for first in range(len(parts)):
            found.update("/".join(parts[first:last]) for last in range(first + 1, len(parts) + 1))
    return found


def has_file(name):
    if "*" in name:
        shape = re.compile(re.escape(name.rstrip("/")).replace(r"\*", "[^/]*"))
        return any(shape.fullmatch(path) for path in all_files())
    return name.rstrip("/") in all_files()


def says_file(name):
    """Whether a text is the path of a file or a folder, rather than a path of the volume or of a line."""
    return bool(FILE.fullmatch(name)) or (not name.startswith("/") and bool(re.fullmatch(r"[\w.*-]+(?:/[\w.*-]+)+/?", name)) and name.split("/")[0] in
                                          ("docs", "scripts", "crates", "examples", "src", "specs", "proofs", *CRATES))


def check_name(name, crate, shown):
    """What is wrong with a name between backticks, or nothing; shown are the words of the page's own examples."""
    if re.search(r"\b[A-Z]{4,}\b", name) and not has_file(name):
        return None  # a place to be filled in, as NAME
    if says_file(name):
        return None if has_file(name) else "no such file or folder"
    if re.fullmatch(r"lfs_\w+", name) and name not in all_words():
        return "no such crate"
    if HYPHENED.fullmatch(name):
        where = edits_of(crate) | defined_in(crate) if crate else all_words() | shown
        return None if name in where else f"no such wrong body or script{f' in {crate}' if crate else ''}"
    if ITEM.fullmatch(name) and len(name) > 2 and not name.startswith("_") and not has_file(name):
        where = defined_in(crate) if crate else all_words() | shown
        missing = [word for word in re.split(r"::|\.", name) if word not in where and word not in ("std", "self", "Self")]
        return f"`{missing[0]}` stands nowhere{f' in {crate}' if crate else ''}" if missing else None
    return None


def crate_said(line, at, end):
    """The crate of which the text says that a name is, by "`x` of `lfs_y`" or "of `lfs_y` `x`, `z`"."""
    behind = re.match(r" (?:of|in) `(lfs_\w+)`", line[end:])
    if behind and behind[1] in CRATES:
        return behind[1]
    before = re.search(r"of `(lfs_\w+)` (?:`[\w-]+`(?:, | and ))*$", line[:at])
    if before and before[1] in CRATES and not re.match(r"\w", line[end:end + 1]):
        return before[1]
    return None


def heads_of(path):
    """The headings of a page, as links name them."""
    return {re.sub(r"[^\w\- ]", "", head).strip().lower().replace(" ", "-") for head in re.findall(r"^#+ (.*)$", path.read_text(), re.M)}


def check_page(path, told):
    text = path.read_text()
    shown = {word for line in text.splitlines() if line.startswith("    ") for word in WORD.findall(line) + line.split()}
    heads = heads_of(path)
    lines = text.splitlines()
    for number, line in enumerate(lines, 1):
        if PLACE.search(line):
            told(path, number, "a place of one machine: " + PLACE.search(line)[0])
        for link in re.findall(r"\]\(([^)\s]+)\)", line):
            if re.match(r"https?:", link):
                continue
            file, _, head = link.partition("#")
            if file and not (path.parent / file).exists():
                told(path, number, f"the link {link} leads nowhere")
            there = heads_of(path.parent / file) if file.endswith(".md") and (path.parent / file).exists() else heads
            if head and head not in there:
                told(path, number, f"no heading #{head} in {file or path.name}")
        if line.startswith("    "):
            continue
        # a name and its crate may stand on two lines
        joined = line + " " + lines[number].lstrip() if number < len(lines) and not line.startswith("|") else line
        for found in CODE.finditer(joined):
            if found.start() >= len(line):
                break
            if found.end() > len(line):
                continue
            crate = crate_said(joined, found.start(), found.end())
            wrong = check_name(found[1].strip(), crate, shown)
            if wrong:
                told(path, number, f"`{found[1]}`: {wrong}")


def check_edits(told):
    """Each wrong body replaces a text that stands once, and is named by its crate's README or a page; a table's are those
    of its crate."""
    for edit in sorted((TOP / "crates").glob("*/must-fail*/*.edit")):
        texts, path = {}, None
        for number, line in enumerate(edit.read_text().splitlines(), 1):
            key, _, text = line.partition(": ")
            if key == "file":
                path = edit.parent.parent / text.strip()
                if not path.is_file():
                    told(edit, number, f"there is no file {text}")
                texts.setdefault(path, path.read_text() if path.is_file() else "")
            elif key == "old" and path:
                old = text
                if texts[path].count(old) != 1:
                    told(edit, number, f"its old text stands {texts[path].count(old)} times in {path.name}, and not once")
            elif key.startswith("new") and path:
                texts[path] = texts[path].replace(old, text)
    docs = {name for path in (TOP / "docs").glob("*.md") for name in CODE.findall(path.read_text())}
    for crate in CRATES:
        path = TOP / "crates" / crate / "README.md"
        named = set(CODE.findall(path.read_text())) if path.exists() else set()
        for edit in sorted(edits_of(crate) - named - docs):
            told(path, 1, f"wrong body `{edit}` is named nowhere")
        column = None
        for number, line in enumerate(path.read_text().splitlines() if path.exists() else [], 1):
            cells = cells_of(line) if line.startswith("|") else None
            if cells is None:
                column = None
            elif column is None:
                column = cells.index("Wrong bodies") if "Wrong bodies" in cells else -1
            elif 0 <= column < len(cells):
                for found in CODE.finditer(cells[column]):
                    where = crate_said(cells[column], found.start(), found.end()) or crate
                    last = re.findall(r"of `(lfs_\w+)`", cells[column][:found.start()].split(";")[-1])
                    where = last[-1] if last else where
                    if HYPHENED.fullmatch(found[1]) and found[1] not in edits_of(where) and "of the " not in cells[column]:
                        told(path, number, f"no wrong body `{found[1]}` in {where}")


def cells_of(line):
    return [cell.strip() for cell in re.split(r"(?<!\\)\|", line)[1:-1]]


def check_tests(told):
    """A README says where the tests and the scripts of its tables stand: it names the crate, or they are its own."""
    stand = {}
    for path in (TOP / "crates").glob("*/src/**/*.rt"):
        for name in re.findall(r"#\[test\]\s*(?:#\[[^\]]*\]\s*)*fn (\w+)", path.read_text()):
            stand.setdefault(name, set()).add(path.relative_to(TOP).parts[1])
    for path in (TOP / "crates").glob("*/data/*.lfs"):
        stand.setdefault(path.stem, set()).add(path.relative_to(TOP).parts[1])
    for path in sorted((TOP / "crates").glob("*/README.md")):
        text = path.read_text()
        said = {path.parent.name} | set(re.findall(r"`(lfs_\w+_tests|lfs_tests)`", text))
        column = None
        for number, line in enumerate(text.splitlines(), 1):
            if not line.startswith("|"):
                column = None
            elif column is None:
                column = cells_of(line).index("Tests") if "Tests" in cells_of(line) else -1
            elif 0 <= column < len(cells_of(line)):
                for name in CODE.findall(cells_of(line)[column]):
                    if name in stand and not stand[name] & said:
                        told(path, number, f"`{name}` stands in {', '.join(sorted(stand[name]))}, which isn't said")


def check_calls(told):
    """The functions in a README's tables are its crate's, or those of a crate that the row names."""
    for path in sorted((TOP / "crates").glob("*/README.md")):
        column = None
        for number, line in enumerate(path.read_text().splitlines(), 1):
            cells = cells_of(line)
            if not line.startswith("|"):
                column = None
            elif column is None:
                column = next((cells.index(head) for head in ("Call", "Functions", "Function") if head in cells), -1)
            elif 0 <= column < len(cells):
                crates = {path.parent.name} | {name for name in re.findall(r"`(lfs_\w+)`", line) if name in CRATES}
                words = [word for name in CODE.findall(cells[column]) if ITEM.fullmatch(name) for word in re.split(r"::|\.", name)]
                for word in words:
                    if word[0].islower() and not any(word in defined_in(crate) for crate in crates):
                        told(path, number, f"`{word}` is no function of {', '.join(sorted(crates))}")


def check_trusted(told):
    """README.md names as trusted each crate of the toolchain that crates.txt has one of ours use, and no other."""
    used = set()
    for line in (TOP / "crates.txt").read_text().splitlines():
        if ":" in line and not line.startswith("#"):
            used |= {name for name in line.split(":", 1)[1].split() if name.isidentifier() and name not in CRATES}
    text = (TOP / "README.md").read_text()
    named = set(CODE.findall(text.split("- The toolchain's crates ", 1)[-1].split("\n- ", 1)[0]))
    for name in sorted(used ^ named):
        told(TOP / "README.md", 1, f"`{name}` is {'used' if name in used else 'not used'}, and {'not ' if name in used else ''}named as trusted")


def uses():
    """The crates that each crate uses, by crates.txt."""
    found = {}
    for line in (TOP / "crates.txt").read_text().splitlines():
        if ":" in line and not line.startswith("#"):
            name, needs = line.split(":", 1)
            found[name.split()[0]] = [need for need in needs.split() if need in CRATES]
    return found


def check_crates(told):
    used = uses()
    readme, map_page = (TOP / "README.md").read_text(), (TOP / "docs/ARCHITECTURE.md").read_text()
    table = set(re.findall(r"\]\(crates/(\w+)\)", "\n".join(line for line in readme.splitlines() if line.startswith("|"))))
    drawn = map_page.split("## Crates", 1)[1].split("\n## ", 1)[0]
    for crate in sorted(set(CRATES) | set(used)):
        if crate not in used:
            told(TOP / "crates.txt", 1, f"no line of {crate}")
        if crate not in CRATES:
            told(TOP / "crates.txt", 1, f"no folder crates/{crate}")
        if crate not in table:
            told(TOP / "README.md", 1, f"{crate} stands not in the table of crates")
        if not re.search(rf"\b{crate}\b", drawn):
            told(TOP / "docs/ARCHITECTURE.md", 1, f"{crate} stands not in the map")
    for crate in sorted(table - set(CRATES)):
        told(TOP / "README.md", 1, f"no crate {crate}")
    arrows, row, start = {}, [], map_page[:map_page.index(drawn)].count("\n")
    for number, line in enumerate(drawn.splitlines(), start + 1):
        if not line.startswith("    ") or re.match(r"    \S", line) and "+-->" not in line and not line.startswith(("    lfsd", "    lfs_shell")):
            row = row if line.startswith("    ") else []
            continue
        names = [name for name in re.findall(r"\b(?:lfs_\w+|lfsd)\b", line) if name in CRATES]
        if not names or "-->" not in line and not line.startswith(("    lfsd", "    lfs_shell")):
            continue
        depth = line.index("+-->") if "+-->" in line else 0
        row = [(at, above) for at, above in row if at < depth]
        for above in row[-1][1] if row else []:
            arrows.setdefault(above, set()).add((names[0], number))
        over = re.search(r", over ((?:lfs_\w+(?:, | and )?)+)", line)
        for below in re.findall(r"lfs_\w+", over[1]) if over else []:
            arrows.setdefault(names[0], set()).add((below, number))
        row.append((depth, names if depth == 0 else names[:1]))
    reach = {}

    def reached(crate, by):
        """All that a crate leads to, itself not counted."""
        if crate not in by:
            return set()
        if crate not in reach:
            reach[crate] = set()
            for below in by[crate]:
                reach[crate] |= {below} | reached(below, by)
        return reach[crate]

    stand = {crate: reached(crate, used) for crate in CRATES}
    reach.clear()
    drawn_by = {crate: {below for below, _ in below_it} for crate, below_it in arrows.items()}
    for crate, below_it in arrows.items():
        for below, number in sorted(below_it):
            if below not in stand[crate]:
                told(TOP / "docs/ARCHITECTURE.md", number, f"the map has {crate} over {below}, which it doesn't use")
        for below in sorted(set(used.get(crate, [])) - reached(crate, drawn_by) - {"lfs_types"}):
            told(TOP / "docs/ARCHITECTURE.md", 1, f"no way in the map from {crate} to {below}, which it uses")


def check_tutorial(told):
    """Each script of the tutorial stands on its page, line by line, with what the gate sees it print beside."""
    page = TOP / "docs/TUTORIAL.md"
    shown = [SHOWN.match(line) for line in page.read_text(encoding="utf-8").splitlines()]
    shown = [(found[1], found[2]) for found in shown if found]
    for script in sorted((TOP / "crates/lfs_script_tests/data").glob("tutorial-*.lfs")):
        lines = script.read_text(encoding="utf-8").splitlines()
        answers = script.with_suffix(".out").read_text(encoding="utf-8").splitlines()
        at = next((at for at in range(len(shown)) if [line for line, _ in shown[at:at + len(lines)]] == lines), None)
        if at is None:
            told(page, 1, f"the lines of {script.name} don't stand here as they are there")
            continue
        beside = [answer for _, answer in shown[at:at + len(lines)] if answer]
        if beside != [line for line in answers if line[0] in "012345678"]:
            told(page, 1, f"beside the lines of {script.name} stand other answers than in {script.stem}.out")


def check_words(told):
    """The words that a terminal completes (rlwrap -f) are those of a line's verbs, of the shell's own and the fixed ones."""
    path = TOP / "examples/shell/words"
    sources = (("lfs_script/src/verb.rt", r'"(\w+)" => Verb'), ("lfs_print/src/cleaner.rt", r'=> "(\w+)"'),
               ("lfs_hearing/src/hearing.rt", r'=> "(\.\w+)"'))
    wanted = {word for file, form in sources for word in re.findall(form, (TOP / "crates" / file).read_text())}
    wanted |= {".why", ".who", ".ls", ".cat", ".tree", ".check", ".save", "help", "?", "at", "end", "init"}
    listed = set(path.read_text().split())
    for word in sorted(wanted - listed):
        told(path, 1, f"the word {word} is lacking")
    for word in sorted(listed - wanted):
        told(path, 1, f"{word} is no word of a line")


def check_counts(told):
    """The counts of docs/TESTING.md and docs/GATE.md are those that scripts/count-tests.py makes."""
    ran = subprocess.run([sys.executable, TOP / "scripts/count-tests.py"], capture_output=True, text=True, check=True)
    numbers = lambda form, text: [int(found.replace(",", "")) for found in re.findall(form, text, re.M)]
    bodies = [number for number in numbers(r"^(?:wrong bodies|  .*|wrong bodies beside the gate): (\d+)$", ran.stdout) if number]
    tests = sum(numbers(r"^tests of \w+: (\d+)$", ran.stdout))
    scripts = numbers(r"\d+", next(line for line in ran.stdout.splitlines() if line.startswith("stored scripts")))
    wanted = {"| wrong bodies,": bodies, "| tests |": [tests], "| stored scripts": scripts}
    page = TOP / "docs/TESTING.md"
    for number, line in enumerate(page.read_text(encoding="utf-8").splitlines(), 1):
        for head, made in wanted.items():
            if line.startswith(head) and numbers(r"\d[\d,]*", line)[:len(made)] != made:
                told(page, number, f"scripts/count-tests.py counts {', '.join(map(str, made))}")
    page = TOP / "docs/GATE.md"
    if numbers(r"there are (\d+) now", page.read_text(encoding="utf-8").replace("\n", " ")) != bodies[:1]:
        told(page, 1, f"there are {bodies[0]} wrong bodies now")


def main():
    problems = []

    def told(path, number, what):
        problems.append(f"{path.relative_to(TOP)}:{number}: {what}")

    for path in pages():
        check_page(path, told)
    check_edits(told)
    check_crates(told)
    check_trusted(told)
    check_tests(told)
    check_calls(told)
    check_tutorial(told)
    check_words(told)
    check_counts(told)
    written = [TOP / "README.md", *(path for path in (TOP / "docs").glob("*.md") if path.name != "SPEC.md")]
    size = sum(path.stat().st_size for path in written)
    if size >= MOST_BYTES:
        told(TOP / "README.md", 1, f"README.md and docs/*.md have {size} bytes, and may have {MOST_BYTES}")
    ran = subprocess.run([sys.executable, TOP / "scripts/reading-list.py", "--check"], capture_output=True, text=True)
    if ran.returncode:
        told(TOP / "docs/TRUST.md", 1, ran.stderr.strip())
    ran = subprocess.run([sys.executable, TOP / "scripts/spec-page.py"], capture_output=True, text=True)
    if ran.returncode:
        told(TOP / "docs/SPEC.md", 1, ran.stdout.strip())
    ran = subprocess.run([sys.executable, TOP / "scripts/greatest-talks.py"], capture_output=True, text=True)
    if ran.returncode:
        told(TOP / "crates/lfs_script_tests/README.md", 1, ran.stdout.strip())
    ran = subprocess.run([sys.executable, TOP / "scripts/man-pages.py"], capture_output=True, text=True)
    if ran.returncode:
        told(TOP / "docs/man/lfsd.1", 1, (ran.stdout + ran.stderr).strip())
    ran = subprocess.run([sys.executable, TOP / "scripts/wrap-proofs.py", "--check"], capture_output=True, text=True)
    problems += (ran.stdout + ran.stderr).splitlines()
    if problems:
        print("\n".join(problems))
        return 1
    print(f"docs: {len(pages())} pages, {size} bytes of README.md and docs/, {sum(len(edits_of(crate)) for crate in CRATES)} wrong bodies named")
    return 0


sys.exit(main())
