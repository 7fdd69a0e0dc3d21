# The machine's two NVMe controllers by VFIO: the second one alone, and the first one by the program, which has a guest that works and a hostile one.
set -e
for device in /sys/bus/pci/devices/*; do
    [ "$(cat "$device/class")" = 0x010802 ] || continue
    echo vfio-pci > "$device/driver_override"
    echo "${device##*/}" > /sys/bus/pci/drivers_probe
    [ -n "$first" ] || first=${device##*/}
    second=${device##*/}
done
NVMED_VFIO=$second vfio_live --ignored --nocapture
sed "s/^drive .*/drive vfio $first/" /etc/configuration > /tmp/configuration
trap 'cat /tmp/said' EXIT
nvmed-host /tmp/configuration 2> /tmp/said &
host=$!
# clients are served before its drive is there, but this machine is slow, and their commands would have waited for long
seconds=0
until grep -q 'the drive: ' /tmp/said; do
    sleep 1
    seconds=$((seconds + 1))
    [ $seconds -lt 120 ]
done
guest_live hostile /tmp/guest1 "$(date +%s)" /tmp/memory1 &
hostile=$!
for _ in 1 2 3 4 5 6; do guest_live works /tmp/guest0 /tmp/memory0; done
kill $hostile
wait $hostile
guest_live reads /tmp/guest0 /tmp/blocks /tmp/memory0
echo "the drive has $(sha256sum /tmp/blocks | cut -d ' ' -f 1)"
rm /tmp/blocks
guest_live reads /tmp/guest1 /tmp/blocks /tmp/memory1
echo "the drive has $(sha256sum /tmp/blocks | cut -d ' ' -f 1)"
kill $host
wait $host
echo "faults of $first: $(dmesg | grep -c "DMAR: .*Request device \[${first#0000:}\] fault")"
