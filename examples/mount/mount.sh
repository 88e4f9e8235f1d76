#!/usr/bin/env bash
# Mounts a volume at FOLDER, in the foreground, until it is unmounted by umount FOLDER, or this is ended by a signal.
# mount.sh FOLDER [OPTION..], as root, with the options of lfs_fuse; LFS_FUSE names the built program. With --image FILE the
# volume is loaded from FILE, where there is one, and saved there behind the unmount, before this ends.
set -euo pipefail
here=$(cd "$(dirname "$0")" && pwd)
program=${LFS_FUSE:-$here/../../crates/lfs_fuse/out/lfs_fuse}
folder=$(realpath "$1")
shift

exec 3<> /dev/fuse
mount -i -t fuse -o fd=3,rootmode=40000,user_id=0,group_id=0,allow_other lfs "$folder"
trap 'umount -l "$folder" 2> /dev/null || true' EXIT INT TERM
# The program's standard input and output are the open device: one read is a message, one write is a reply.
"$program" "$@" <&3 >&3 3<&- &
exec 3<&-
# A signal ends a wait early.
while kill -0 $! 2> /dev/null; do
    wait $! || true
done
wait $!
