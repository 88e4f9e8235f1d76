#!/usr/bin/env bash
# Times the whole program, text in and text out, on generated scripts of users' calls: prints a row for each workload
# that is named, or for all, with the nanoseconds a call in a directory of 15, 60 and 240 names, and the ratio of the
# last to the first. The tree, the callers and the calls are those of lfs_bench. The time of the script without the
# timed calls is taken away. Each time is the best of RUNS runs, by default 9. CALLS calls are timed, 1 to 10,000, by
# default 10,000; of read-hot at most 1,000, and of write-4k 100, as a script has at most 1,048,576 bytes. PROGRAM names
# a program that is built already. OPTIONS are the program's; by default the log has so many segments that no call is
# refused for want of space, with no pass of the cleaner.
set -euo pipefail
cd "$(dirname "$0")/.."

runs=${RUNS:-9}
calls=${CALLS:-10000}
program=${PROGRAM:-crates/lfsd/out/lfsd}
read -ra options <<<"${OPTIONS:---segments 1024 --inodes 512 --journal 100000}"
if [ -z "${PROGRAM:-}" ]; then
    (cd crates/lfsd && "${RT:-rt}" run <stdin >/dev/null)
fi
room=$(mktemp -d)
trap 'rm -r "$room"' EXIT

# The script of a workload $1 with $2 names and $3 timed calls.
script() {
    awk -v load="$1" -v names="$2" -v calls="$3" -f bench/workload.awk
}

# The microseconds of the program on a script $1, at best.
best() {
    local least= run start end
    for ((run = 0; run < runs; run++)); do
        start=${EPOCHREALTIME/./}
        "$program" "${options[@]}" <"$1" >/dev/null
        end=${EPOCHREALTIME/./}
        if [ -z "$least" ] || [ $((end - start)) -lt "$least" ]; then
            least=$((end - start))
        fi
    done
    echo "$least"
}

# The nanoseconds of a call of workload $1 in a directory of $2 names.
nanoseconds() {
    local timed=$calls most=10000 before whole refused
    case $1 in
        read-hot) most=1000 ;;
        write-4k) most=100 ;;
    esac
    if [ "$timed" -gt "$most" ]; then
        timed=$most
    fi
    script "$1" "$2" 0 >"$room/before"
    script "$1" "$2" "$timed" >"$room/whole"
    refused=$("$program" "${options[@]}" <"$room/whole" | grep -c ' refused ' || true)
    if [ "$refused" != 0 ]; then
        echo "$refused calls of $1 are refused" >&2
        return 1
    fi
    before=$(best "$room/before")
    whole=$(best "$room/whole")
    echo $(((whole - before) * 1000 / timed))
}

[ $# -gt 0 ] || set -- stat-deep read-hot write-4k write-small create-unlink rename list-large deny mixed
echo "| Workload | 15 names | 60 names | 240 names | Ratio |"
echo "|---|---|---|---|---|"
for load; do
    few=$(nanoseconds "$load" 15)
    more=$(nanoseconds "$load" 60)
    many=$(nanoseconds "$load" 240)
    echo "| $load, text | $few | $more | $many | $(awk -v a="$few" -v b="$many" 'BEGIN { printf "%.2f", b / a }') |"
done
