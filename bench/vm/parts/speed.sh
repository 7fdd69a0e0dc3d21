# Random reads and writes on both drives of the guest, by turns: a line for each turn, with whose drive it was, the name of the job, and how many a second.
set -e
for _ in 1 2 3 4 5 6 7 8 9 10; do
    [ ! -b /dev/nvme1n1 ] || break
    sleep 1
done
for name in nvme0n1 nvme1n1; do
    case $(cat "/sys/block/$name/device/serial") in
        own*) own=/dev/$name ;;
        *) shared=/dev/$name ;;
    esac
done
turn() {
    fio --name="$3" --filename="$2" --direct=1 --rw="$4" --bs="$5" --iodepth="$6" --size=24m --ioengine=io_uring --time_based --runtime=1 \
        --ramp_time=0.5s --output-format=terse > /tmp/fio || { cat /tmp/fio; false; }
    echo "speed $1 $3 $(awk -F ';' '$1 == 3 { print $8 + $49 }' /tmp/fio)"
}
while read -r job; do
    for number in $(seq 15); do
        order="program QEMU"
        [ $((number % 2)) = 1 ] || order="QEMU program"
        for whose in $order; do
            case $whose in
                program) turn program "$shared" $job ;;
                *) turn QEMU "$own" $job ;;
            esac
        done
    done
done << END
read-1 randread 4k 1
read-16 randread 4k 16
write-1 randwrite 4k 1
write-16 randwrite 4k 16
large-8 randread 128k 8
END
