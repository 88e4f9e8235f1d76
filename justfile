# What one types most. `just` shows the list; each line runs as it stands, so it can be copied too.

default:
    @just --list

# the program on a script, without proof (a minute or two): just try crates/lfsd/stdin
try FILE='crates/lfsd/stdin':
    cd crates/lfsd && rt try < {{absolute_path(FILE)}}

# prove one crate, and those below it where they changed: just check lfs_rules
check CRATE:
    cd crates/{{CRATE}} && rt check

# the tests of one crate, without proof: just test lfs_layer_tests
test CRATE:
    cd crates/{{CRATE}} && rt try --test

# the wrong bodies of one crate: just edits lfs_rules
edits CRATE:
    rt must-fail {{CRATE}}

# lay out the files of all crates
fmt:
    for crate in crates/*/; do (cd "$crate" && rt fmt) || exit 1; done

# the crates changed since the last commit, and those above them, lowest first
changed:
    python3 scripts/changed-crates.py

# the names, tables and links of the pages
docs:
    python3 scripts/check-docs.py

# the gate: hours from nothing, minutes where little changed
gate:
    .ci/run
