# A part of bench/vm.sh: machines of other kinds and sizes, on a drive that the program simulates in a file: where their memory is split, above 4 GiB, with
# two processors, and one machine with the drives of two programs. The guests touch little of their memory, so that this one need not have as much.
# shellcheck shell=bash disable=SC2034,SC2154

# shellcheck source=/dev/null
source "$top/bench/vm/linux.sh"

kernels=(6.1 newest)
# what each pair of guests has: the machine and MiB of memory of guest 0, and of guest 1. From 2816 MiB on q35 has memory above 4 GiB, from 3584 MiB on pc: one
# with a MiB less has all of it below
pairs=("q35 5120 pc 5120" "q35 2816 pc 3584" "q35 2815 pc 3072")

# The lines of a guest: its number, its kernel, its machine, its memory in MiB, how many drives it has, and further words for QEMU.
machine_lines() {
    echo "guest $1 memory $4M"
    extent_lines "$1"
    machine=$3 start_lines "$1" "$2" machine "drives=$5 least=$(($4 * 1024 * 9 / 10)) processors=2"
    echo "start $1 -smp 2 ${6:-}"
}

# Two guests at the same time.
pair() {
    {
        echo "drive ram $(stat -c %s "$room/image") $room/image"
        machine_lines 0 "${kernels[0]}" "$1" "$2" 1
        machine_lines 1 "${kernels[1]}" "$3" "$4" 1
    } > "$room/configuration"
    begin_host "$room/configuration"
    check "guest 0, $1 with $2 MiB" has_passed 0
    check "guest 1, $3 with $4 MiB" has_passed 1
    check "the host program, with both" host_ended 0
    check "guest 0's blocks are where its extents say" has_its_blocks 0
    check "guest 1's blocks are where its extents say" has_its_blocks 1
    check "the blocks that are no guest's" gaps_are_painted
}

# One guest with a drive of each of two programs: the second one listens.
two_drives() {
    local second status=0
    cp "$room/image" "$room/image.second"
    {
        echo "drive ram $(stat -c %s "$room/image.second") $room/image.second"
        echo "guest 0 memory 1024M"
        extent_lines 1
        echo "listen 0 $shared/second"
    } | sed 's/^extent 1/extent 0/' > "$room/configuration.second"
    {
        echo "drive ram $(stat -c %s "$room/image") $room/image"
        machine_lines 0 "${kernels[1]}" q35 1024 2
        echo "start 0 -device \"{\\\"driver\\\":\\\"vfio-user-pci\\\",\\\"socket\\\":{\\\"type\\\":\\\"unix\\\",\\\"path\\\":\\\"$shared/second\\\"}}\""
    } > "$room/configuration"
    "$program" "$room/configuration.second" 2> "$room/host.second" &
    second=$!
    for _ in {1..100}; do
        [[ ! -S $shared/second ]] || break
        sleep 0.1
    done
    begin_host "$room/configuration"
    check "a guest with two drives of two programs" has_passed 0
    check "the first program" host_ended 0
    kill "$second"
    wait "$second" || status=$?
    check "the second program" test "$status" == 0
    mv "$room/image" "$room/image.first"
    check "the first drive's blocks are where its extents say" has_blocks_of 0 "$room/image.first"
    check "the second drive's blocks are where its extents say" has_blocks_of 1 "$room/image.second"
}

# Whether guest 0 saw these extents of an image as one of its drives.
has_blocks_of() {
    local sum
    cp "$2" "$room/image"
    sum=$(guest_blocks "$1" | sha256sum)
    says 0 "the drive has ${sum%% *}"
}

run() {
    local it
    make_systems "${kernels[@]}"
    for it in "${pairs[@]}"; do
        paint
        # shellcheck disable=SC2086
        pair $it
    done
    paint
    two_drives
}
