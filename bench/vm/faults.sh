# A part of bench/vm.sh: guests that are killed, drives that fail, and guests that ask for more than is good.
# shellcheck shell=bash disable=SC2034,SC2154

# shellcheck source=/dev/null
source "$top/bench/vm/drive.sh"

kills=10
# of an access of a register, in milliseconds
patience=200
# of the guest whose processor runs bench/vm/busy.S, in MiB
small=64
# of the first guest, that the drive cannot read in one of the runs
bad=4096
kernel=6.12
# QEMU's words for a guest without Linux, whose firmware boots from its drive
firmware=(qemu-system-x86_64 -machine q35 -accel "$accelerator" -display none -serial "file:$room/serial.0" -net none)

# The drive's image, with guest 0's blocks for bench/vm/busy.S.
paint_busy() {
    paint
    cc -c "$top/bench/vm/busy.S" -o "$room/busy.o"
    ld -m elf_x86_64 -Ttext=0x7c00 --oformat=binary "$room/busy.o" -o "$room/busy"
    dd if="$room/busy" of="$room/image" seek="$(begin_of 0)" conv=notrunc status=none
}

# What a QEMU needs to come to a guest's socket by itself: its number.
joining() {
    local device="{\"driver\":\"vfio-user-pci\",\"socket\":{\"type\":\"unix\",\"path\":\"$shared/guest$1\"}}"
    joined=(-m "${small}M" -object "memory-backend-memfd,id=memory,size=${small}M,share=on" -machine "q35,memory-backend=memory" -device "$device")
}

# A QEMU for guest 0, which listens, until it is busy; then it is killed.
killed_once() {
    local joined status=0 qemu
    rm -f "$room/serial.0"
    joining 0
    "${firmware[@]}" "${joined[@]}" 2> "$room/joined" &
    qemu=$!
    waits_for 0 busy 60 || status=1
    sleep 0.$((RANDOM % 10))
    kill -KILL "$qemu"
    wait "$qemu" 2> /dev/null || true
    return "$status"
}

# Guest 0 is killed in the middle of its reads and writes, again and again, while guest 1 is at work.
killed() {
    local it
    paint_busy
    {
        echo "drive ram $(stat -c %s "$room/image") $room/image"
        listening_lines 0
        guest_lines 1 "$kernel" files fs=ext4
    } > "$room/configuration"
    rm -f "$shared"/*
    begin_host "$room/configuration"
    for _ in {1..100}; do
        [[ ! -S $shared/guest0 ]] || break
        sleep 0.1
    done
    for ((it = 1; it <= kills; it++)); do check "guest 0 is busy before its kill $it" killed_once; done
    check "guest 1 goes on beside it" has_passed 1
    check "the host program ends" end_host
    check "guest 0 was lost each time" test "$(grep -cE '^[^ ]+ +[A-Z]+ +guest 0: the client closed the connection' "$room/host")" == "$kills"
    check "the blocks that are no guest's" gaps_are_painted
}

# The drive is that of a QEMU, with further words, and guest 0 is busy on it.
begin_failing() {
    nodes=("area 32" "ram0 $small")
    paint_busy
    {
        echo "drive qemu $shared/qtest $shared/area"
        echo "guest 0 memory ${small}M $shared/ram0"
        extent_lines 0
        echo "start 0 ${firmware[*]}"
    } > "$room/configuration"
    begin_image "$@"
    begin_host "$room/configuration"
    check "guest 0 is busy before its drive fails" waits_for 0 busy 60
}

# Reports whether the program saw that, and how it says so.
has_failed() {
    check "the host program ends with the status of a drive that failed" host_ended 3
    check "and says why: $1" grep -q "ERROR the drive: .*$1" "$room/host"
    end_drive
}

# The drive's process stands still.
silent() {
    begin_failing
    kill -STOP "$emulator"
    has_failed "does not answer"
}

# The drive may no longer reach memory: it shows a fatal status, as QEMU's controller does where it cannot read an entry. Its configuration space is written by
# its monitor: the address of the command register, and then memory accesses without bus mastering.
fatal() {
    local slot
    mkfifo "$room/monitor.in" "$room/monitor.out"
    begin_failing -chardev pipe,id=monitor,path="$room/monitor" -mon chardev=monitor
    slot=$(sed -n 's/.* the drive: of QEMU at 00:\([0-9a-f]*\)\..*/0x\1/p' "$room/host")
    printf 'o /w 0xcf8 %#x\no /h 0xcfc 2\n' $((0x80000004 | slot << 11)) > "$room/monitor.in"
    has_failed "shows a fatal status (CSTS.CFS)"
    check "guest 0's command has ended with an error" says 0 failed
}

# The drive cannot read a block of guest 0's.
media() {
    local sector=$(($(begin_of 0) + bad))
    nodes=("area 32" "ram0 $memory" "ram1 $memory")
    paint
    {
        echo "drive qemu $shared/qtest $shared/area"
        guest_lines 0 "$kernel" media "bad=$bad" "$shared/ram0"
        guest_lines 1 "$kernel" media "" "$shared/ram1"
    } > "$room/configuration"
    begin_drive -blockdev "driver=blkdebug,node-name=disk,image.driver=file,image.filename=$room/image,inject-error.0.event=none,inject-error.0.iotype=read,\
inject-error.0.sector=$sector,inject-error.0.errno=5,inject-error.0.once=off"
    begin_host "$room/configuration"
    check "guest 0 sees its bad block, and reads those beside it" has_passed 0
    check "guest 1 reads all of its blocks" has_passed 1
    check "the host program, on a drive with a bad block" host_ended 0
    end_drive
}

# Waits until guest_live has its Reads; not after half a minute.
is_busy() {
    for _ in $(seq 300); do
        ! grep -qFx busy "$room/busy" || return 0
        sleep 0.1
    done
    return 1
}

# A drive that needs 1.6 seconds for a guest's 16 Reads: the guest's reset, and its next QEMU, wait for them. A guest's shutdown doesn't wait for those of
# another that always has some.
late() {
    local busy
    nodes=("area 32" "ram0 $small" "ram1 $small")
    paint
    {
        echo "drive qemu $shared/qtest $shared/area"
        listening_lines 0 "$shared/ram0"
        listening_lines 1 "$shared/ram1"
    } > "$room/configuration"
    begin_drive -drive file="$room/image",format=raw,if=none,id=disk,throttling.iops-total=10
    begin_host "$room/configuration"
    check "no Read gets into a guest's memory after its reset" quietly "$live" resets "$shared/guest0" "$shared/ram0"
    : > "$room/busy"
    "$live" busy "$shared/guest1" "$shared/ram1" > "$room/busy" &
    busy=$!
    check "another guest is busy" is_busy
    check "a guest shuts down while another is busy" quietly "$live" shuts "$shared/guest0" "$shared/ram0"
    kill "$busy"
    check "the other one ends" wait "$busy"
    check "the host program ends" end_host
    end_drive
}

# A guest whose lists have no end, beside one that works: that one's accesses, for which its processor would wait, are answered soon all the same.
endless() {
    local turn longest
    {
        echo "drive ram $(stat -c %s "$room/image") $room/image"
        listening_lines 0
        listening_lines 1
    } > "$room/configuration"
    rm -f "$shared"/*
    begin_host "$room/configuration"
    "$live" endless "$shared/guest1" "$small" > "$room/endless" &
    turn=$!
    check "guest 0 works beside it" quietly "$live" works "$shared/guest0" "$small"
    kill "$turn"
    check "guest 1 ends" wait "$turn"
    check "a guest that does not end a message is lost" quietly "$live" stops "$shared/guest0" "$small"
    check "the host program ends" end_host
    longest=$(sed -n 's/.*the longest access: \([0-9]*\) ms/\1/p' "$room/endless")
    check "no access takes longer than $patience ms, but $longest" test "$longest" -le "$patience"
}

run() {
    make_systems "$kernel"
    silent
    fatal
    media
    late
    killed
    endless
}
