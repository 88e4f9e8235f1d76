#!/usr/bin/env bash
# Mounts fresh volumes, tries them as several users, and unmounts: the commands of commands.txt, whose prints are
# compared with what stands there; odd_names.py; and writing many times what a small volume holds.
# try-mount.sh PROGRAM [MIB], where PROGRAM is a built lfs_fuse, and MIB, by default 32, is how much is written; as root, with
# /dev/fuse, e2fsprogs and make. The last line says how many tries passed and failed; the status is 0 where none failed.
set -euo pipefail
here=$(cd "$(dirname "$0")" && pwd)
export LFS_FUSE
LFS_FUSE=$(realpath "$1")
mebibytes=${2:-32}
folder=$(mktemp -d)
chmod 755 "$folder"
export LC_ALL=C

unmount() {
    cd /
    umount "$folder" 2> "$folder.log" || umount -l "$folder" || true
    wait
}
trap 'unmount; rmdir "$folder"; rm -f "$folder".*' EXIT
# Mounts a volume of these options, and stands in it.
mount_volume() {
    "$here/mount.sh" "$folder" "$@" &
    for _ in $(seq 100); do
        mountpoint -q "$folder" && break
        sleep 0.1
    done
    mountpoint -q "$folder"
    cd "$folder"
}

passed=0
failed=0
command=
expected=
# Counts whether what was printed is what is expected.
compare() {
    if [ "$2" = "$3" ]; then
        passed=$((passed + 1))
    else
        failed=$((failed + 1))
        printf '%s\nprinted:\n%s\nstored:\n%s\n' "$1" "$2" "$3"
    fi
}
# Runs the command that was read, if there is one, and compares.
finish() {
    [ -n "$command" ] || return 0
    local user=${command%%: *}
    local printed
    printed=$(setpriv --reuid="$user" --regid="$user" --clear-groups \
        timeout 60 sh -c "${command#*: }" 2>&1 < /dev/null || true)
    compare "$command" "$printed" "$expected"
}

mount_volume --segments 64 --inodes 1024
while IFS= read -r line; do
    case $line in
        '#'*) ;;
        '> '*) expected=${expected:+$expected$'\n'}${line#> } ;;
        *)
            finish
            command=$line
            expected=
            ;;
    esac
done < "$here/commands.txt"
finish

odd=$(timeout 1200 /usr/bin/python3 "$here/odd_names.py" "$folder" 2>&1 || true)
last=${odd##*$'\n'}
if [[ $last =~ ^([0-9]+)\ passed,\ ([0-9]+)\ failed$ ]]; then
    passed=$((passed + BASH_REMATCH[1]))
    failed=$((failed + BASH_REMATCH[2]))
    [ "${BASH_REMATCH[2]}" = 0 ] || echo "$odd"
else
    failed=$((failed + 1))
    echo "$odd"
fi
unmount

# A file of 96 KiB is written anew until all that was written is many times the volume's 512 KiB; each time all is kept.
mount_volume --segments 16
chmod 777 .
kept=$(head -c 98304 /dev/urandom | tee "$folder.bytes" | md5sum)
for _ in $(seq $((mebibytes * 1024 / 96 + 1))); do
    setpriv --reuid=7 --regid=7 --clear-groups cp "$folder.bytes" again || break
done
compare "$mebibytes MiB" "$(md5sum < again)" "$kept"
# A volume that is full says so, and has room again once a file is gone.
full=$(head -c 1048576 /dev/zero 2>&1 > full || true)
compare 'a full volume' "${full##*: }" 'No space left on device'
rm full
compare 'room again' "$(cp "$folder.bytes" third 2>&1 && md5sum < third)" "$kept"
unmount

# A volume is saved at the unmount: each file, its mode, owner, flags and bytes are there at the next mount.
image=$folder.image
all_files() {
    find . -printf '%P %i %y %m %U %G %s\n' | sort
    find . -type f -exec md5sum {} + | sort
    lsattr -R
}
mount_volume --segments 32 --inodes 128 --image "$image"
chmod 1777 .
setpriv --reuid=7 --regid=8 --clear-groups sh -c 'umask 027; mkdir d; cp "$0" d/big; chmod 4751 d/big; echo odd > "$1"' \
    "$folder.bytes" $'d/\xff\n'
chattr +a d/big
kept=$(all_files)
unmount
compare 'who reads an image' "$(stat -c %a "$image")" 600
mount_volume --image "$image"
compare 'a volume that is loaded' "$(all_files)" "$kept"
compare 'its size' "$(df -B512 --output=size,itotal . | tail -n 1 | tr -s ' ')" ' 2048 125'
chattr -a d/big
rm d/big
echo more > d/more
kept=$(all_files)
unmount
compare 'no other file' "$(find "$image"*)" "$image"

# An image that is none is told, nothing is served, and it stays as it is.
# refuse WHAT TOLD: a mount of the file damaged tells this and ends.
refuse() {
    local told status=0 sum
    sum=$(md5sum < "$folder.damaged")
    told=$(timeout 60 "$here/mount.sh" "$folder" --image "$folder.damaged" 2>&1) || status=$?
    compare "$1" "$status $told" "1 lfs_fuse: $2"
    compare "$1: stays" "$(md5sum < "$folder.damaged")" "$sum"
    compare "$1: no mount" "$(ls -A "$folder")" ''
}
{ printf M; tail -c +2 "$image"; } > "$folder.damaged"
refuse 'another first byte' 'image: the image does not begin with LFSI'
{ head -c -5 "$image"; printf '\001\0\0\0\0'; } > "$folder.damaged"
refuse 'a number that is used, of version 0' 'image: the ifile says of number 127 what no number may be'
head -c -1 "$image" > "$folder.damaged"
refuse 'a byte less' 'image: the image ends too early'
{ cat "$image"; echo; } > "$folder.damaged"
refuse 'a byte more' 'image: the image goes on behind its end'
rm "$folder.damaged"
mkdir "$folder.damaged"
timeout 60 "$here/mount.sh" "$folder" --image "$folder.damaged" 2> "$folder.log" || true
compare 'a folder' "$(cat "$folder.log")" 'lfs_fuse: read failed'
rmdir "$folder.damaged"

mount_volume --image "$image"
compare 'the image once more' "$(all_files)" "$kept"
echo "$passed passed, $failed failed"
[ "$failed" = 0 ]
