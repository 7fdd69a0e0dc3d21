# A part of bench/vm.sh: inside a virtual machine with an I/O MMU, the program drives QEMU's NVMe controllers by VFIO.
# shellcheck shell=bash disable=SC2034,SC2154

# shellcheck source=/dev/null
source "$top/bench/vm/system.sh"
# shellcheck source=/dev/null
source "$top/bench/vm/image.sh"

# of a guest, and how many of them
blocks=16384
guests=2
words="console=ttyS0 quiet panic=-1 no_timer_check intel_iommu=on"
kernel=6.12

prepare() {
    need busybox:busybox-static cpio:cpio /sbin/depmod:kmod xz:xz-utils
    get_kernel "$kernel"
}

# The configuration, but for the drive's address, which the machine knows.
make_configuration() {
    local it
    echo "drive vfio 0000:00:00.0"
    echo "lanes 2"
    for ((it = 0; it < guests; it++)); do
        echo "guest $it memory 32M /tmp/memory$it"
        extent_lines "$it"
        echo "listen $it /tmp/guest$it"
    done
}

machine() {
    timeout $((limit > SECONDS ? limit - SECONDS : 1)) qemu-system-x86_64 -nodefaults -no-user-config -display none -serial file:"$room/serial.0" -no-reboot \
        -cpu max -m 768M -machine q35,accel=tcg,kernel-irqchip=split -device intel-iommu,intremap=on,caching-mode=on \
        -drive file="$room/image",format=raw,if=none,id=shared -device nvme,drive=shared,serial=shared,max_ioqpairs=8 \
        -drive file="$room/alone",format=raw,if=none,id=alone -device nvme,drive=alone,serial=alone,max_ioqpairs=8 \
        -kernel "$cache/kernel-$kernel/vmlinuz" -initrd "$room/initrd" -append "$words part=vfio guest=0"
}

# Whether a line of the serial port is of this form.
has_line() {
    tr -d '\r' < "$room/serial.0" | grep -qEx "$1"
}

# The test of a controller by VFIO, built over the stub of the library: it uses no mediator.
vfio_live() {
    (cd "$top/host" && cargo test --quiet --no-run --features nvmed-host/stub -p nvmed-host --test vfio_live --message-format json) |
        sed -nE 's/.*"executable":"([^"]*\/vfio_live-[^"]*)".*/\1/p'
}

run() {
    paint
    truncate -s 16M "$room/alone"
    begin_system
    add_modules "$kernel"
    # the controller is left to VFIO
    rm "$room/system/lib/modules/nvme.ko"
    sed -i '/^nvme$/d' "$room/system/lib/modules/order"
    cp "$(vfio_live)" "$room/vfio_live"
    add_programs "$program" "$live" "$room/vfio_live"
    make_configuration > "$room/system/etc/configuration"
    end_system "$room/initrd"
    check "the machine switches off" quietly machine
    check "all programs in it" says 0 "guest 0: passed"
    check "an access outside of what is mapped is a fault of the I/O MMU" has_line "the I/O MMU's faults there: [1-9][0-9]*"
    check "the program drives the controller by VFIO" has_line '.* the drive: 0000:00:0[0-9]\.0: QEMU NVMe Ctrl.*'
    check "a hostile guest has had its rounds" has_line '[1-9][0-9]* rounds, [0-9]+ commands, [0-9]+ bytes scribbled, [0-9]+ messages'
    check "guest 0's blocks are where its extents say" has_its_blocks 0
    check "guest 1's blocks are where its extents say" has_its_blocks 1 0
    check "the blocks that are no guest's" gaps_are_painted
    check "no access of the program's drive faults" has_line 'faults of 0000:00:0[0-9]\.0: 0'
}
