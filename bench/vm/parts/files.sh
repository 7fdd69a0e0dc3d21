# What a user does with a drive: the commands of nvme-cli, a file system with files and checksums, random I/O with verification in three ways, resets
# meanwhile, and a reboot. After that all of it is there still.
set -e
word() { tr ' ' '\n' < /proc/cmdline | sed -n "s/^$1=//p"; }
seed=$(word guest)
fs=$(word fs)
disk=/dev/nvme0n1
if mount -t "$fs" $disk /mnt 2> /dev/null; then
    again=$(ls /mnt/rebooted 2> /dev/null || true)
    umount /mnt
    [ -z "$again" ] || exec sh /parts/again.sh
fi
nvme list
nvme id-ctrl /dev/nvme0 | grep -E '^(mdts|oncs|vwc|sgls)'
nvme id-ns $disk | grep -E '^(nsze|ncap)'
# all six commands, by their own names
head -c 4096 /dev/urandom > /tmp/block
nvme write $disk -s 8 -c 7 -z 4096 -d /tmp/block
nvme read $disk -s 8 -c 7 -z 4096 -d /tmp/back
cmp /tmp/block /tmp/back
nvme compare $disk -s 8 -c 7 -z 4096 -d /tmp/block
nvme write-zeroes $disk -s 8 -c 3
nvme dsm $disk -d -s 12 -b 4
nvme flush /dev/nvme0 -n 1
nvme read $disk -s 8 -c 7 -z 4096 -d /tmp/back
head -c 4096 /dev/zero | cmp - /tmp/back
# refused, with their statuses
! nvme compare $disk -s 8 -c 7 -z 4096 -d /tmp/block 2>&1 | tee /tmp/said
blocks=$(cat /sys/block/nvme0n1/size)
! nvme read $disk -s "$blocks" -c 0 -z 512 -d /tmp/back 2>&1 | tee -a /tmp/said
grep -i 'compare' /tmp/said
grep -i 'LBA_RANGE\|range' /tmp/said
# a file system on three quarters of the drive
case $fs in
    ext4)
        /usr/bin/mke2fs -q -t ext4 -E nodiscard $disk $((blocks / 8 * 3))k
        check="/usr/bin/e2fsck -f -n"
        ;;
    xfs)
        # XFS is made as small as this for tests alone
        TEST_DIR=/mnt TEST_DEV=$disk QA_CHECK_FS=: mkfs.xfs -q -f -K -d size=$((blocks / 8 * 3))k $disk
        check="xfs_repair -n -o force_geometry"
        ;;
esac
mount -t "$fs" $disk /mnt
for i in 1 2 3 4 5 6 7 8; do head -c 500000 /dev/urandom > "/mnt/file$i"; done
(cd /mnt && sha256sum file* > /tmp/sums && cp /tmp/sums sums)
umount /mnt
$check $disk
mount -t "$fs" $disk /mnt
(cd /mnt && sha256sum -c sums)
# random reads and writes with verification, on the last quarter: by libaio, by io_uring, and by the character device's own commands
verified() {
    way=$1
    shift
    fio --name="$way" --ioengine="$way" --rw=randrw --bs_unaligned=0 --iodepth=16 --thread --numjobs=4 --offset_increment=2m --size=2m \
        --offset=$((blocks * 512 / 4 * 3)) --verify=crc32c --randseed="$seed" --do_verify=1 --verify_state_save=0 --time_based=0 "$@" > /tmp/fio || {
        cat /tmp/fio
        false
    }
    grep -E 'READ:|WRITE:' /tmp/fio
}
verified libaio --direct=1 --bsrange=512-128k --filename=$disk
verified io_uring --direct=1 --bsrange=512-128k --filename=$disk
verified io_uring_cmd --cmd_type=nvme --bs=4k --filename=/dev/ng0n1
# resets under load
fio --name=reads --filename=$disk --direct=1 --rw=randread --bs=4k --ioengine=libaio --iodepth=16 --time_based --runtime=6 > /tmp/fio 2>&1 &
load=$!
for i in 1 2 3 4; do
    sleep 1
    nvme reset /dev/nvme0
done
wait $load || { cat /tmp/fio; false; }
# interrupts come as messages, and none was missed: the kernel reports a completion that it found by itself, when a command took too long
grep nvme0q /proc/interrupts
grep nvme0q /proc/interrupts | grep -q MSI
! dmesg | grep -i 'completion polled\|nvme.*timeout'
(cd /mnt && sha256sum -c sums > /dev/null)
# in bench/vm/parts/hour.sh all of it is done again
if [ -n "${STAYS:-}" ]; then
    umount /mnt
    exit
fi
touch /mnt/rebooted
umount /mnt
echo "guest $seed: reboots"
reboot -f
