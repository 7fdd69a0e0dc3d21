# The machine has as many processors and as much memory as was asked for, and its drives work: random I/O with verification from all processors, a file system
# with checksums, and interrupts as messages. At last the sum of each whole drive.
set -e
word() { tr ' ' '\n' < /proc/cmdline | sed -n "s/^$1=//p"; }
[ "$(grep -c '^processor' /proc/cpuinfo)" = "$(word processors)" ]
grep MemTotal /proc/meminfo
[ "$(awk '/^MemTotal/ { print $2 }' /proc/meminfo)" -ge "$(word least)" ]
grep 'System RAM' /proc/iomem
for _ in 1 2 3 4 5 6 7 8 9 10; do
    [ "$(ls /sys/class/nvme | wc -l)" -lt "$(word drives)" ] || break
    sleep 1
done
number=0
while [ $number -lt "$(word drives)" ]; do
    disk=/dev/nvme${number}n1
    blocks=$(cat /sys/block/nvme${number}n1/size)
    fio --name=verified --ioengine=libaio --direct=1 --rw=randrw --bsrange=512-128k --iodepth=16 --numjobs=2 --cpus_allowed=0-1 --cpus_allowed_policy=split --thread \
        --size=2m --offset_increment=2m --offset=$((blocks * 512 / 4 * 3)) --filename=$disk --verify=crc32c --verify_state_save=0 > /tmp/fio || {
        cat /tmp/fio
        false
    }
    grep -E 'READ:|WRITE:' /tmp/fio
    /usr/bin/mke2fs -q -t ext4 -E nodiscard $disk $((blocks / 8 * 3))k
    mount -t ext4 $disk /mnt
    for i in 1 2 3 4; do head -c 2000000 /dev/urandom > "/mnt/file$i"; done
    (cd /mnt && sha256sum file* > /tmp/sums)
    umount /mnt
    /usr/bin/e2fsck -f -n $disk
    mount -t ext4 -o ro $disk /mnt
    (cd /mnt && sha256sum -c /tmp/sums)
    umount /mnt
    echo "the drive has $(sha256sum $disk | cut -d ' ' -f 1)"
    number=$((number + 1))
done
grep nvme /proc/interrupts
# a queue for each processor, and one for the administration, of each drive
[ "$(grep -c 'MSI.*nvme.*q' /proc/interrupts)" -ge $(((1 + $(word processors)) * $(word drives))) ]
! dmesg | grep -i 'completion polled\|nvme.*timeout'
