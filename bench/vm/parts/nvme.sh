# The machine's NVMe drives, by the kernel's own driver: the one that is alone and the slow one by the test of a namespace, and the shared one by the program,
# which has a guest that works and a hostile one.
set -e
word() { tr ' ' '\n' < /proc/cmdline | sed -n "s/^$1=//p"; }
for controller in /sys/class/nvme/nvme*; do
    number=${controller##*/nvme}
    case $(cat "$controller/serial") in
        shared*) shared=/dev/ng${number}n1 ;;
        alone*) alone=$number ;;
        slow*) slow=$number ;;
    esac
done
# A test of a drive, by its name.
tries() {
    NVMED_NAMESPACE=/dev/ng${1}n1 NVMED_CONTROLLER=/sys/class/nvme/nvme$1 passthrough_live --ignored --nocapture --exact "$2"
}
NVMED_BAD_BLOCK=$(word bad) tries "$alone" lanes_of_a_namespace
echo "each command: passed"
tries "$alone" without_rights
echo "without rights: passed"
tries "$slow" a_slow_drive_is_reset
echo "a slow drive: passed"
tries "$alone" a_controller_that_goes
echo "a controller that goes: passed"
sed "s|^drive .*|drive nvme $shared|" /etc/configuration > /tmp/configuration
trap 'cat /tmp/said' EXIT
nvmed-host /tmp/configuration 2> /tmp/said &
host=$!
seconds=0
until grep -q 'the drive: ' /tmp/said; do
    sleep 1
    seconds=$((seconds + 1))
    [ $seconds -lt 120 ]
done
guest_live hostile /tmp/guest1 "$(date +%s)" /tmp/memory1 &
hostile=$!
for _ in 1 2 3 4 5 6; do guest_live works /tmp/guest0 /tmp/memory0; done
kill $hostile
wait $hostile
guest_live reads /tmp/guest0 /tmp/blocks /tmp/memory0
echo "the drive has $(sha256sum /tmp/blocks | cut -d ' ' -f 1)"
rm /tmp/blocks
guest_live reads /tmp/guest1 /tmp/blocks /tmp/memory1
echo "the drive has $(sha256sum /tmp/blocks | cut -d ' ' -f 1)"
kill $host
wait $host
