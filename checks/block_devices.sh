#!/usr/bin/env bash
# Block devices: their size, who else uses them, and paths below /dev.
# shellcheck source=checks/common.sh
. "$(dirname "$0")/common.sh"

# A path below /dev that is missing is never made.
missing=/dev/btr_check.$$
play "$missing" format --blocks 64 </dev/null
expect 'a missing path below /dev' "$(ended), $([ -e "$missing" ] && echo made || echo missing)" '5: no device/, missing'
if [ -d /dev/shm ]; then
    play "/dev/shm/btr_check.$$" ask </dev/null
    expect 'a missing path below /dev/shm' "$(ended), $([ -e "/dev/shm/btr_check.$$" ] && echo made || echo missing)" '5: no device/, missing'
fi

name='block devices'
for tool in losetup blockdev mkfs.ext4 mount umount mknod stat; do
    has "$tool" || { skip "$name" "$tool is missing"; exit 0; }
done
loop=
end() {
    cd /
    umount "$folder/inner" 2>/dev/null
    [ -z "$loop" ] || losetup -d "$loop"
    rm -rf "$folder"
}
trap end EXIT
dd if=/dev/zero of=image bs=4096 count=64 status=none
if [ "$(id -u)" != 0 ] || ! loop=$(losetup --find --show "$folder/image" 2>/dev/null); then
    skip "$name" 'only root can make a loop device'
    exit 0
fi

# It has the blocks of its own length.
play "$loop" format --blocks 65 </dev/null
expect 'format beyond the end of a block device' "$(ended)" '8: no small 65 64/'
play "$loop" format --blocks 64 </dev/null
expect 'format of a whole block device' "$(ended)" '0: formatted 64/'
printf 'create %s\ninsert %s 0 5 3 7 4 -2\n' "$id" "$id" >script
play "$loop" live <script
expect 'live on a block device' "$(ended)" '0: ok 0 0/ok 1 0/'
play "$loop" ask <questions
found=$(ended)
play "$loop" check </dev/null
expect 'ask and check on a block device' "$found, $(ended)" "0: $answer, 0: stands 2/"
make_store same
dd if=/dev/zero of=same bs=4096 count=0 seek=64 status=none
expect 'the bytes of a block device are those of a file' "$(compared "$loop" same)" same
awk -v id="$id" 'BEGIN { for (k = 100; k < 200; k++) print "insert", id, k, 1 }' >line
play "$loop" live <line
expect 'a block device that is full' "$status $(grep -c '^ok ' out) $(tail -n 1 out)" '8 18 no full 3 0'
play "$loop" check </dev/null
expect 'check of a full block device' "$(ended)" '0: stands 20/'

# Another path to the same device is the same device.
mkdir inner
number=$(stat -c '%t %T' "$loop")
# shellcheck disable=SC2086
if mknod second b $(printf '0x%s 0x%s' $number) 2>/dev/null && has mkfifo; then
    mkfifo pipe
    "$program" "$loop" live <pipe >held 2>err &
    holder=$!
    exec 3>pipe
    awk 'BEGIN { for (i = 0; i < 20000; i++) print "# a line without a reply" }' >&3
    play second live <one_more 3>&-
    found=$(ended)
    play second ask <questions 3>&-
    expect 'a block device by another path, beside live' "$found, $(ended)" '5: no device/, 5: no device/'
    exec 3>&-
    wait "$holder"
    play second ask <questions
    expect 'a block device by another path' "$status" 0
else
    skip 'a block device by another path' 'mknod or mkfifo fails'
fi

# A device that may only be read can be asked and checked.
blockdev --setro "$loop"
play "$loop" ask <questions
found=$status
play "$loop" check </dev/null
found="$found $(ended)"
play "$loop" live <one_more
expect 'a block device that may only be read' "$found, $(ended)" '0 0: stands 20/, 5: no device/'
blockdev --setrw "$loop"

# A device that is mounted is not written.
losetup -d "$loop"
dd if=/dev/zero of=image bs=1M count=8 status=none
loop=$(losetup --find --show "$folder/image")
if mkfs.ext4 -q "$loop" 2>/dev/null && mount "$loop" inner 2>/dev/null; then
    sync
    sum=$(cksum <"$loop")
    play "$loop" format --blocks 64 </dev/null
    found=$(ended)
    expect 'format of a mounted device' "$found, $([ "$(cksum <"$loop")" = "$sum" ] && echo same)" '5: no device/, same'
    umount inner
    play "$loop" format --blocks 64 </dev/null
    expect 'format of the device when it is not mounted' "$(ended)" '0: formatted 64/'
else
    skip 'a mounted device' 'no file system can be mounted'
fi
