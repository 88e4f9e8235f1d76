#!/usr/bin/env bash
# Mounts a fresh volume by mount.sh, tries on it what rests on times, modes and room, and unmounts; and then one whose
# journal goes to a file, which is audited.
# try-fuse.sh PROGRAM AUDIT, where PROGRAM is a built lfs_fuse and AUDIT a built lfs_audit_trail; as root, with /dev/fuse,
# git, make and tar. The last line says how many tries passed and failed; the status is 0 where none failed.
set -euo pipefail
here=$(cd "$(dirname "$0")" && pwd)
export LFS_FUSE
LFS_FUSE=$(realpath "$1")
audit=$(realpath "$2")
export LC_ALL=C GIT_CONFIG_GLOBAL=/dev/null GIT_CONFIG_NOSYSTEM=1
folder=$(mktemp -d)
files=$(mktemp -d)
chmod 755 "$folder"
mounted=

# begin OPTION..: mounts a fresh volume with these options, on which everybody may make names.
begin() {
    "$here/mount.sh" "$folder" "$@" &
    mounted=$!
    for _ in $(seq 100); do
        mountpoint -q "$folder" && break
        sleep 0.1
    done
    mountpoint -q "$folder"
    cd "$folder"
    chmod 1777 .
}
# unmount: what is mounted, if anything is, is no more, and its program has ended.
unmount() {
    cd /
    mountpoint -q "$folder" || return 0
    umount "$folder" 2> "$files/umount" || umount -l "$folder" || true
    wait "$mounted" || true
}
finish() {
    unmount
    rmdir "$folder"
    rm -r "$files"
}
trap finish EXIT

passed=0
failed=0
# as USER COMMAND: a user runs a command in the mounted folder.
as() {
    HOME=$folder setpriv --reuid="$1" --regid="$1" --clear-groups timeout 120 sh -c "$2" 2>&1 < /dev/null || true
}
# expect WHAT EXPECTED PRINTED: this was to be printed.
expect() {
    if [ "$3" = "$2" ]; then
        passed=$((passed + 1))
    else
        failed=$((failed + 1))
        printf '%s\nprinted:\n%s\nexpected:\n%s\n' "$1" "$3" "$2"
    fi
}
# try WHAT EXPECTED COMMAND: user 7 runs a command in the mounted folder, and it prints this.
try() {
    expect "$1" "$2" "$(as 7 "$3")"
}

begin --segments 512
try 'a new file is of now' young 'echo a > a; [ $(($(date +%s) - $(stat -c %Y a))) -le 2 ] && echo young'
try 'a write is of now' newer 'sleep 0.01; touch b; sleep 0.01; echo more >> a; [ a -nt b ] && echo newer'
try 'a read leaves no time' same 'x=$(stat -c "%X %Y %Z" a); cat a > /dev/null; [ "$x" = "$(stat -c "%X %Y %Z" a)" ] && echo same'
try 'a time that is given' '1000000000 1000000001' 'touch -a -d @1000000000 a; touch -m -d @1000000001 a; stat -c "%X %Y" a'
try 'a change of mode is no change of bytes' 1000000001 'chmod 640 a; stat -c %Y a'
try 'a directory is of its last name' newer 'mkdir d; sleep 0.01; touch c; sleep 0.01; touch d/e; [ d -nt c ] && echo newer'
try 'a cut file is of now' newer 'sleep 0.01; touch c; sleep 0.01; : > a; [ a -nt c ] && echo newer'
echo r > roots
chmod 666 roots
try 'who may write sets the present time' newer 'sleep 0.01; touch c; sleep 0.01; touch roots; [ roots -nt c ] && echo newer'
try 'who may write sets no other' "touch: setting times of 'roots': Operation not permitted" 'touch -d @5 roots'
try 'who may write sets one alone no more' "touch: setting times of 'roots': Operation not permitted" 'touch -a roots'
chmod 644 roots
try 'who may not write sets none' "touch: cannot touch 'roots': Permission denied" 'touch roots'
try 'cp keeps mode and times' '444 1000000001' 'echo p > p; touch -d @1000000001 p; chmod 444 p; cp -p p q; stat -c "%a %Y" q'
try 'tar keeps mode and times' '400 1000000001 p' \
    'mkdir t; chmod 400 p; tar cf t.tar p; cd t; tar xf ../t.tar; stat -c "%a %Y" p | tr "\n" " "; cat p'
try 'a file made without write' '444 ro' 'umask 0; (umask 0; python3 -c "import os; f = os.open(\"r\", os.O_CREAT | os.O_WRONLY, 0o444); os.write(f, b\"ro\\n\"); os.close(f)"); stat -c %a r | tr "\n" " "; cat r'
try 'and only then' "sh: 1: cannot create r: Permission denied" 'echo again > r'
try 'make makes what is older' 'cat s > o
made
cat s > o' 'printf "o: s\n\tcat s > o\n" > Makefile; echo 1 > s; make; make -s; echo made; sleep 0.01; echo 2 > s; make'
try 'git sees a change of the same size' ' M f' \
    'git init -q g; cd g; git config user.email a@b; git config user.name a; echo one > f; git add f; git commit -qm 1; echo two > f; git status --short'
try 'git commits it' 2 'cd g; git commit -qam 2; git log --oneline | wc -l'
try 'git finds nothing wrong' '' 'cd g; git fsck --full 2>&1'
try 'numbers in use' '3' 'x=$(stat -f -c %d .); touch n1 n2 n3; echo $((x - $(stat -f -c %d .)))'
try 'blocks in use' '2048' 'x=$(stat -f -c %f .); head -c 1048576 /dev/urandom > big; echo $((x - $(stat -f -c %f .)))'
try 'and free again' '2048' 'x=$(stat -f -c %f .); rm big; echo $(($(stat -f -c %f .) - x))'
try 'no write is cut short while there is room' 0 'python3 -c "
import os
piece, short = bytes(131072), 0
for _ in range(10):
    file = os.open(\"large\", os.O_CREAT | os.O_TRUNC | os.O_WRONLY, 0o644)
    short += sum(os.pwrite(file, piece, place * len(piece)) < len(piece) for place in range(32))
    os.close(file)
print(short)"; rm large'
try 'the longest name' 255 'stat -f -c %l .'

unmount
begin --segments 64 --inodes 256 --journal-out "$files/journal"
try 'one user writes' mine 'mkdir d; echo mine > d/a; chmod 600 d/a; cat d/a'
expect 'another may not read it' 'cat: d/a: Permission denied' "$(as 8 'cat d/a')"
expect 'nor take it away' "rm: cannot remove 'd/a': Permission denied" "$(as 8 'rm -f d/a')"
expect 'but may write his own' theirs "$(as 8 'echo theirs > b; mv b c; cat c')"
unmount
expect 'the journal is legal, and tells of both' 'legal
user 0
user 7
user 8' "$("$audit" --segments 64 --inodes 256 "$files/journal" | sed -n 's/^legal .*/legal/p; /^user /p')"
expect 'and who was denied' denied "$(grep -q '^#[0-9]* 0 as 8 8 | .* | denied ' "$files/journal" && echo denied)"
cp "$files/journal" "$files/before"
status=0
"$here/mount.sh" "$folder" --journal-out "$files/journal" 2> "$files/told" || status=$?
expect 'a file that is there is not written over' '2 lfs_fuse: journal file exists' "$status $(cat "$files/told")"
expect 'but left as it is' same "$(cmp "$files/journal" "$files/before" && echo same)"
echo "$passed passed, $failed failed"
[ "$failed" = 0 ]
