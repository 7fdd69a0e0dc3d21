# A part of bench/vm.sh: Linux guests on a drive that the program simulates in a file.
# shellcheck shell=bash disable=SC2034,SC2154

# shellcheck source=/dev/null
source "$top/bench/vm/system.sh"
# shellcheck source=/dev/null
source "$top/bench/vm/image.sh"

programs=(nvme mke2fs fio e2fsck mkfs.xfs xfs_repair)
# beside other work the timer of a guest under TCG may seem to stand still, which is no reason to panic
words="console=ttyS0 quiet panic=-1 no_timer_check"
# the kernels of guest 0 and 1, and of both once all is started again
kernels=(6.1 newest)
later=6.12
# of a guest, in MiB: one with Linux, and one without a machine
memory=448
small=32

prepare() {
    local it
    need busybox:busybox-static nvme:nvme-cli fio:fio mke2fs:e2fsprogs mkfs.xfs:xfsprogs cpio:cpio /sbin/depmod:kmod xz:xz-utils
    for it in "${kernels[@]}" "$later"; do get_kernel "$it"; done
}

# Small systems with Debian's programs for a user of a drive, one for each kernel.
make_systems() {
    local it
    begin_system
    add_programs "${programs[@]}"
    cp /etc/mke2fs.conf "$room/system/etc/"
    for it in "$@"; do
        add_modules "$it"
        end_system "$room/initrd-$it"
    done
}

# The words of a Linux guest's QEMU: its number, its kernel, its part, and further words for its kernel. What is added to them is its drive.
start_lines() {
    echo "start $1 qemu-system-x86_64 -machine ${machine:-q35} -accel $accelerator -cpu max -display none -serial file:$room/serial.$1 -net none"
    echo "start $1 -kernel $cache/kernel-$2/vmlinuz -initrd $room/initrd-$2 -append \"$words guest=$1 part=$3 $4\""
}

# The lines of a Linux guest: its number, its kernel, its part, further words for its kernel, and the file for its memory, if it has one.
guest_lines() {
    echo "guest $1 memory ${memory}M${5:+ $5}"
    extent_lines "$1"
    start_lines "$1" "$2" "$3" "$4"
}

# The lines of a guest that comes to the program's socket: its number, and the file for its memory, if it has one.
listening_lines() {
    echo "guest $1 memory ${small}M${2:+ $2}"
    extent_lines "$1"
    echo "listen $1 $shared/guest$1"
}

# Waits until a guest's serial port has a line; not after so many seconds.
waits_for() {
    local end=$((SECONDS + $3))
    until [[ -f $room/serial.$1 ]] && tr -d '\r' < "$room/serial.$1" | grep -qFx "$2"; do
        ((SECONDS < end)) || return 1
        sleep 0.3
    done
}

# Whether a Linux guest has come to its end well. It is waited for as long as the run may take, or until the host program has ended.
has_passed() {
    until [[ -f $room/serial.$1 ]] && grep -qE "^guest $1: (passed|FAILED)" "$room/serial.$1"; do
        if ((SECONDS >= limit)) || ! kill -0 "$host" 2> /dev/null; then break; fi
        sleep 0.3
    done
    says "$1" "guest $1: passed"
}

# Starts a guest that breaks all rules, which is the program guest_live: its number, and the file for its memory, if it has one.
begin_hostile() {
    "$live" hostile "$shared/guest$1" "$((RANDOM + 1))" ${2:+"$2"} > "$room/hostile" 2>&1 &
    hostile=$!
}

# Ends it, and reports whether its controller still worked at last, after one round or more.
hostile_ended() {
    local status=0
    kill "$hostile"
    wait "$hostile" || status=$?
    grep 'rounds' "$room/hostile"
    if [[ $status != 0 ]] || grep -q '^0 rounds' "$room/hostile"; then
        cat "$room/hostile"
        return 1
    fi
}

# Writes all blocks of a guest without a machine to a file, as it reads them: its number, and the file for its memory, if it has one.
read_guest() {
    quietly "$live" reads "$shared/guest$1" "$room/blocks.$1" ${2:+"$2"}
}

end_host() {
    kill "$host"
    host_ended 0
}

# Two Linux guests and a hostile one: the line of the drive, what begins it anew, and the files for their memories, if they are to have names.
run_on() {
    local drive=$1 begin=$2
    {
        echo "drive $drive"
        echo "lanes 2"
        guest_lines 0 "${kernels[0]}" files fs=ext4 "${3:-}"
        guest_lines 1 "${kernels[1]}" files "fs=xfs nvme=sgl_threshold=512" "${4:-}"
        listening_lines 2 "${5:-}"
    } > "$room/first"
    sed "s/part=[a-z]*/part=again/; s/\(kernel\|initrd\)-[0-9a-z.]*/\1-$later/g" "$room/first" > "$room/again"
    "$begin"
    begin_host "$room/first"
    begin_hostile 2 "${5:-}"
    check "guest 0" has_passed 0
    check "guest 1" has_passed 1
    check "guest 0 has rebooted" says 0 "guest 0: reboots"
    check "guest 1 has rebooted" says 1 "guest 1: reboots"
    check "guest 2, which is hostile, has its controller still" hostile_ended
    check "the host program, with three guests" end_host
    "$begin"
    begin_host "$room/again"
    check "guest 2 reads its blocks" read_guest 2 "${5:-}"
    check "guest 0 finds its files" has_passed 0
    check "guest 1 finds its files" has_passed 1
    check "the host program, started again" end_host
}

# The image is looked at once nobody has it any more.
compare() {
    check "guest 0's blocks are where its extents say" has_its_blocks 0
    check "guest 1's blocks are where its extents say" has_its_blocks 1
    check "guest 2's blocks are where its extents say" cmp "$room/blocks.2" <(guest_blocks 2)
    check "the blocks that are no guest's" gaps_are_painted
}

# What all runs with Linux guests need.
begin_run() {
    make_systems "${kernels[@]}" "$later"
    paint
}

run() {
    begin_run
    run_on "ram $(stat -c %s "$room/image") $room/image" true
    compare
}
