# A part of bench/vm.sh: inside a virtual machine, the program drives namespaces of QEMU's NVMe controllers by the kernel's own driver, by passthrough commands.
# shellcheck shell=bash disable=SC2034,SC2154

# shellcheck source=/dev/null
source "$top/bench/vm/system.sh"
# shellcheck source=/dev/null
source "$top/bench/vm/image.sh"

# of a guest, and how many of them
blocks=16384
guests=2
words="console=ttyS0 quiet panic=-1 no_timer_check"
kernel=6.12
bad=3000

prepare() {
    need busybox:busybox-static cpio:cpio /sbin/depmod:kmod xz:xz-utils
    get_kernel "$kernel"
}

# The configuration, but for the drive's device, which the machine knows.
make_configuration() {
    local it
    echo "drive nvme /dev/ng0n1"
    echo "lanes 2"
    for ((it = 0; it < guests; it++)); do
        echo "guest $it memory 32M /tmp/memory$it"
        extent_lines "$it"
        echo "listen $it /tmp/guest$it"
    done
}

# Deallocations reach the images, since the drives say that deallocated blocks read as zeros. A sector of the drive that is alone cannot be read, and the slow one has four
# Reads a second.
machine() {
    timeout $((limit > SECONDS ? limit - SECONDS : 1)) qemu-system-x86_64 -nodefaults -no-user-config -display none -serial file:"$room/serial.0" -no-reboot \
        -cpu max -m 768M -machine q35,accel="$accelerator" \
        -drive file="$room/image",format=raw,if=none,id=shared,discard=unmap -device nvme,drive=shared,serial=shared,max_ioqpairs=8 \
        -blockdev "driver=blkdebug,node-name=alone,discard=unmap,image.driver=file,image.filename=$room/alone,image.discard=unmap,inject-error.0.event=none,\
inject-error.0.iotype=read,inject-error.0.sector=$bad,inject-error.0.errno=5,inject-error.0.once=off" -device nvme,drive=alone,serial=alone,max_ioqpairs=8 \
        -drive file="$room/slow",format=raw,if=none,id=slow,throttling.iops-read=4 -device nvme,drive=slow,serial=slow,max_ioqpairs=8 \
        -kernel "$cache/kernel-$kernel/vmlinuz" -initrd "$room/initrd" -append "$words part=nvme guest=0 bad=$bad"
}

# Whether a line of the serial port is of this form.
has_line() {
    tr -d '\r' < "$room/serial.0" | grep -qEx "$1"
}

# The test of a namespace by the kernel, built over the stub of the library: it uses no mediator.
passthrough_live() {
    (cd "$top/host" && cargo test --quiet --no-run --features nvmed-host/stub -p nvmed-host --test passthrough_live --message-format json) |
        sed -nE 's/.*"executable":"([^"]*\/passthrough_live-[^"]*)".*/\1/p'
}

run() {
    paint
    truncate -s 16M "$room/alone" "$room/slow"
    begin_system
    add_modules "$kernel"
    cp "$(passthrough_live)" "$room/passthrough_live"
    add_programs "$program" "$live" "$room/passthrough_live"
    make_configuration > "$room/system/etc/configuration"
    end_system "$room/initrd"
    check "the machine switches off" quietly machine
    check "all programs in it" says 0 "guest 0: passed"
    check "each command of a namespace" says 0 "each command: passed"
    check "resets by the kernel" says 0 "a slow drive: passed"
    check "a process without rights" says 0 "without rights: passed"
    check "a controller that goes" says 0 "a controller that goes: passed"
    check "the program drives the namespace" has_line '.* the drive: /dev/ng[0-9]n1, namespace 1: QEMU NVMe Ctrl, serial shared, .*'
    check "a hostile guest has had its rounds" has_line '[1-9][0-9]* rounds, [0-9]+ commands, [0-9]+ bytes scribbled, [0-9]+ messages'
    check "guest 0's blocks are where its extents say" has_its_blocks 0
    check "guest 1's blocks are where its extents say" has_its_blocks 1 0
    check "the blocks that are no guest's" gaps_are_painted
}
