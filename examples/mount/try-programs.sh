#!/usr/bin/env bash
# Runs programs on a mounted volume, each for at most a minute, and prints a line for each: passed, failed or not here.
# try-programs.sh PROGRAM [NAME..], where PROGRAM is a built lfs_fuse, or a folder to compare with; NAMEs choose programs. As
# root, with /dev/fuse and what is there of Debian's git, make, tar, rsync, sqlite3, vim-tiny, gcc, libc6-dev, dbench, fio and
# stress-ng. The last line counts; the status is 0 where none failed.
set -euo pipefail
here=$(cd "$(dirname "$0")" && pwd)
at=$(realpath "$1")
shift
wanted=" $* "
export LC_ALL=C GIT_CONFIG_GLOBAL=/dev/null GIT_CONFIG_NOSYSTEM=1
log=$(mktemp)
folder=$(mktemp -d)
chmod 755 "$folder"

if [ -d "$at" ]; then
    mount --bind "$at" "$folder"
else
    LFS_FUSE=$at "$here/mount.sh" "$folder" &
fi
finish() {
    cd /
    umount "$folder" 2> "$log" || umount -l "$folder" || true
    wait
    rmdir "$folder"
    rm -f "$log"
}
trap finish EXIT
for _ in $(seq 100); do
    mountpoint -q "$folder" && break
    sleep 0.1
done
mountpoint -q "$folder"

passed=0
failed=0
absent=0
# try NAME COMMAND SCRIPT: user 7 runs a script in a folder of his own; it passes where no line of it fails.
try() {
    local status=0
    case $wanted in "  " | *" $1 "*) ;; *) return 0 ;; esac
    if ! command -v "$2" > /dev/null; then
        absent=$((absent + 1))
        echo "$1: not here"
        return 0
    fi
    install -d -o 7 -g 7 "$folder/$1"
    (cd "$folder/$1" && HOME=$folder/$1 TMPDIR=$folder/$1 exec timeout -k 5 60 \
        setpriv --reuid=7 --regid=7 --clear-groups bash -euo pipefail -c "$3") > "$log" 2>&1 < /dev/null || status=$?
    rm -rf "${folder:?}/$1"
    case $status in
        0)
            passed=$((passed + 1))
            echo "$1: passed"
            ;;
        3 | 4) # of stress-ng: no resource, or not implemented
            absent=$((absent + 1))
            echo "$1: not here, status $status"
            ;;
        *)
            failed=$((failed + 1))
            echo "$1: failed, status $status"
            tail -n 8 "$log" | sed 's/^/    /'
            ;;
    esac
}

try git git '
    git init -q one; cd one; git config user.email a@b; git config user.name a
    for it in $(seq 100); do mkdir -p d$((it % 7)); seq $it 300 > d$((it % 7))/$it; done
    git add .; git commit -qm one; [ -z "$(git status --short)" ]
    echo more >> d1/1; git mv d2/2 d2/two; git rm -q d3/3
    [ "$(git status --short)" = " M d1/1
R  d2/2 -> d2/two
D  d3/3" ]
    git commit -qam two; [ "$(git log --oneline | wc -l)" = 2 ]
    git checkout -q HEAD~; [ -f d3/3 ]; git checkout -q -
    git gc -q; git fsck --full
    cd ..; git clone -q one two; diff -r -x .git one two; [ "$(git -C two log --oneline | wc -l)" = 2 ]
    git -C two fsck --full'

try make make '
    printf "all: sum\nsum: a b\n\tcat a b > sum\n%%: %%.in\n\ttr a-z A-Z < \$< > \$@\n" > Makefile
    echo one > a.in; echo two > b.in
    make; [ "$(cat sum)" = "ONE
TWO" ]; make -q
    sleep 0.02; echo three > b.in; if make -q; then exit 1; fi; make -j 4; [ "$(tail -n 1 sum)" = THREE ]; make -q'

try tar tar '
    tar chf all.tar -C /usr/include linux; mkdir out; tar xf all.tar -C out; diff -r /usr/include/linux out/linux
    tar czf all.tgz -C out linux; rm -r out; tar xzf all.tgz; diff -r /usr/include/linux linux'

try rsync rsync '
    rsync -aL /usr/include/asm-generic/ from; rsync -a from/ to; diff -r from to; [ -z "$(rsync -ani from/ to)" ]
    echo more >> from/errno.h; rm from/ioctl.h; rsync -a --delete from/ to; diff -r from to
    echo again >> from/errno.h; rsync -a --inplace --checksum from/ to; diff -r from to; [ -z "$(rsync -anic from/ to)" ]'

try sqlite3 sqlite3 '
    for mode in delete truncate persist; do
        sqlite3 $mode.db "pragma journal_mode=$mode; create table t (a integer primary key, b text);
            with recursive n (i) as (select 1 union all select i + 1 from n where i < 5000)
                insert into t select i, hex(randomblob(40)) from n;"
        sqlite3 $mode.db "pragma journal_mode=$mode; begin; delete from t; rollback; begin; update t set b = a; commit; vacuum;"
        [ "$(sqlite3 $mode.db "pragma integrity_check; select count(*), sum(b) from t;")" = "ok
5000|12502500" ]
    done
    # Two that write at once wait for one another.
    for it in 1 2; do
        for _ in $(seq 20); do echo ".timeout 30000
            begin immediate; update t set b = b + 1 where a = 1; commit;"; done | sqlite3 delete.db &
    done
    wait; [ "$(sqlite3 delete.db "select b from t where a = 1")" = 41 ]
    (echo "begin; delete from t;"; sleep 0.5) | timeout -s KILL 0.3 sqlite3 delete.db || true
    [ "$(sqlite3 delete.db "pragma integrity_check; select count(*) from t;")" = "ok
5000" ]'

try vi vi '
    seq 1000 > text; chmod 640 text
    vi -es -u NONE -c "set writebackup" -c "2s/2/two/" -c "3,999d" -c wq text
    [ "$(cat text)" = "1
two
1000" ]; [ "$(stat -c %a text)" = 640 ]; [ "$(ls -A)" = text ]'

try gcc gcc '
    printf "#include <stdio.h>\nint twice(int);\nint main(void) { printf(\"%%d\\\\n\", twice(21)); return 0; }\n" > main.c
    printf "int twice(int it) { return 2 * it; }\n" > twice.c
    gcc -O2 -g -c main.c twice.c; ar rcs libtwice.a twice.o; gcc main.o -L. -ltwice -o program; [ "$(./program)" = 42 ]
    gcc -shared -fPIC twice.c -o libtwice.so; gcc main.c ./libtwice.so -o shared; [ "$(./shared)" = 42 ]; strip program; ./program'

try dbench dbench '
    {
        echo "Mkdir \"\\clients\" NT_STATUS_OK"
        echo "Mkdir \"\\clients\\client1\" NT_STATUS_OK"
        for it in $(seq 20); do
            file="\"\\clients\\client1\\file$it\""
            echo "NTCreateX $file 0x40 0x2 $it NT_STATUS_OK"
            for place in 0 4096 65536; do echo "WriteX $it $place 4096 4096 NT_STATUS_OK"; done
            echo "Flush $it NT_STATUS_OK"
            echo "ReadX $it 65536 4096 4096 NT_STATUS_OK"
            echo "QUERY_FILE_INFORMATION $it 258 NT_STATUS_OK"
            echo "Close $it NT_STATUS_OK"
            echo "QUERY_PATH_INFORMATION $file 1004 NT_STATUS_OK"
            echo "FIND_FIRST \"\\clients\\client1\\*\" 260 1366 $it NT_STATUS_OK"
            echo "Rename $file \"\\clients\\client1\\new\" NT_STATUS_OK"
            echo "Unlink \"\\clients\\client1\\new\" 0x6 NT_STATUS_OK"
        done
        echo "Deltree \"\\clients\\client1\" NT_STATUS_OK"
    } > load.txt
    dbench -t 5 -c load.txt -D . 3 > out || true; cat out; grep -q "^Throughput" out; grep -q "^ Deltree" out
    if grep -i "failed\|expected" out; then exit 1; fi'

for how in 'write 4k psync' 'randwrite 4k psync' 'randrw 512-8k psync' 'rw 128k psync' 'randwrite 1k-64k pvsync'; do
    read -r kind size engine <<< "$how"
    try "fio-$kind-$size" fio "
        fio --name=it --rw=$kind --bsrange=${size/-*/}-${size/*-/} --ioengine=$engine --size=3m --numjobs=2 --verify=crc32c \
            --do_verify=1 --verify_fatal=1 --fallocate=none --loops=2 --output=out; cat out; grep -q 'err= 0' out; if grep 'err= *[1-9]' out; then exit 1; fi"
done

for how in access chattr chdir chmod chown dentry dir dirdeep dirmany dnotify dup fallocate fcntl fiemap file-ioctl filename \
    flock fpunch fsize fstat getdent handle hdd inode-flags inotify io iomix lease link locka lockf lockofd mknod open readahead rename \
    revio seek sendfile symlink sync-file touch utime verity xattr; do
    # A volume holds 32 MiB, and a file 8. Two of chmod or of chown share a file, which the first to end removes.
    count=2
    case $how in
        chmod | chown) count=1 more= ;;
        hdd | iomix | fallocate | readahead | revio | sync-file) more="--$how-bytes 4m" ;;
        seek) more='--seek-size 4m' ;;
        sendfile) more='--sendfile-size 64k' ;;
        dentry) more='--dentries 500' ;;
        *) more= ;;
    esac
    try "stress-$how" stress-ng "stress-ng --$how $count $more --timeout 2 --temp-path . --verify"
done
echo "$passed passed, $failed failed, $absent not here"
[ "$failed" = 0 ]
