#!/usr/bin/env bash
# A disk that refuses one block once. The sync of a commit's gate fails, the disk is repaired, and the store goes on: every commit that was
# acknowledged is in the bytes of the disk. The one that was not is there too: the next run puts the gate on the disk. The file system lies on a loop device over a file that has no room for that block.
# shellcheck source=checks/common.sh
. "$(dirname "$0")/common.sh"

name='a disk that refuses one block'
for tool in losetup mkfs.ext4 mount umount filefrag fallocate dd; do
    has "$tool" || { skip "$name" "$tool is missing"; exit 0; }
done
loop=
after=
end() {
    cd /
    umount "$folder/after" 2>/dev/null
    umount "$folder/disk" 2>/dev/null
    [ -z "$after" ] || losetup -d "$after"
    [ -z "$loop" ] || losetup -d "$loop"
    umount "$folder/thin" 2>/dev/null
    rm -rf "$folder"
}
trap end EXIT
mkdir thin disk after
if [ "$(id -u)" != 0 ] || ! mount -t tmpfs -o size=64m tmpfs thin 2>/dev/null; then
    skip "$name" 'only root can mount'
    exit 0
fi
dd if=/dev/zero of=thin/image bs=1M count=40 status=none
if ! loop=$(losetup --find --show "$folder/thin/image" 2>/dev/null) ||
    ! mkfs.ext4 -q -b 4096 -E nodiscard,lazy_itable_init=0,lazy_journal_init=0 "$loop" 2>/dev/null ||
    ! mount -o nodiscard "$loop" disk 2>/dev/null; then
    skip "$name" 'there is no loop device with a file system here'
    exit 0
fi
dd if=/dev/zero of=disk/store bs=1M count=8 conv=fsync status=none
play disk/store format --blocks 2048 </dev/null
printf 'create %s\ninsert %s 0 5 3 7 4 -2\n' "$id" "$id" >script
play disk/store live <script
sync -f disk/store

# The next gate is block 9 of the store. Its place in the image is freed, and then the file system of the image is filled.
first=$(filefrag -v -b4096 disk/store | awk '$1 == "0:" { split($4, a, "[.]"); print a[1] }')
fallocate -p -o $(((first + 9) * 4096)) -l 4096 thin/image
dd if=/dev/zero of=thin/fill bs=4096 status=none 2>/dev/null
echo "insert $id 10 1" >line
play disk/store live <line
expect "$name, at the gate of a commit" "$(ended)" '5: no device/'
rm thin/fill

# The disk is repaired. What the store says now, and what its bytes on the disk say.
echo "insert $id 20 2" >line
play disk/store live <line
found=$(ended)
play disk/store check </dev/null
expect "$name, the next run" "$found, $(ended)" '0: ok 3 0/, 0: stands 4/'
cp thin/image copy
after=$(losetup --find --show "$folder/copy")
mount "$after" after && cp after/store lost
play lost check </dev/null
found=$(ended)
echo "range $id 0 100 latest" >line
play lost ask <line
expect "$name, after a loss of power" "$found, $(ended)" '0: stands 4/, 0: ok 3 5/0 5/3 7/4 -2/10 1/20 2/'
