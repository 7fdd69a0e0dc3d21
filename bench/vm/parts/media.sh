# Guest 0 has a block that the drive cannot read; guest 1 reads all that it has.
disk=/dev/nvme0n1
bad=$(tr ' ' '\n' < /proc/cmdline | sed -n 's/^bad=//p')
if [ -z "$bad" ]; then
    dd if=$disk of=/dev/null bs=65536 iflag=direct
    exit
fi
nvme read $disk -s "$bad" -c 0 -z 512 -d /tmp/block > /tmp/said 2>&1
cat /tmp/said
grep -q '(0x281)' /tmp/said || exit 1
nvme read $disk -s $((bad - 8)) -c 7 -z 4096 -d /tmp/block && nvme read $disk -s $((bad + 8)) -c 7 -z 4096 -d /tmp/block
