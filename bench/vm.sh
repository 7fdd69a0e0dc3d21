#!/usr/bin/env bash
# Real virtual machines on the host program: unmodified guests share a drive through the mediator, by QEMU's own client of vfio-user.
#
#     bench/vm.sh linux       two Linux guests at the same time, of Debian's oldest and newest kernel, each with two extents that alternate on the drive: the
#                             commands of nvme-cli, ext4 and XFS with checksums, fio with verification (libaio, io_uring, io_uring_cmd), resets under load, a
#                             reboot; one guest by scatter gather lists; a third guest, a program that speaks as a QEMU does, sends random commands, resets
#                             its controller, and writes at random into its own queues all the while. Then all is started again, with the kernel between
#                             them, and the file systems are as they were. Each guest's blocks stand in the drive's image where its extents say, and the blocks
#                             that are no guest's have not changed
#     bench/vm.sh drive       the same, and the drive is the NVMe controller of another QEMU, which is started again, too
#     bench/vm.sh vfio        in a virtual machine with an I/O MMU: the program drives QEMU's controller by VFIO, with a guest that writes, reads back and
#                             compares beside a hostile one. The image is looked at as above
#     bench/vm.sh nvme        in a virtual machine: the program drives a namespace of QEMU's controller by the kernel's driver, by passthrough commands, with
#                             guests as above; beside it each command, resets by the kernel, a process without rights, and a controller that goes
#     bench/vm.sh firmware    SeaBIOS boots a boot sector from the shared drive, two guests at once, each its own; EDK2 finds it and reads a file; U-Boot finds
#                             it, reads a file with the right sum, and writes blocks, which stand in the image where its guest's extent says
#     bench/vm.sh machines    guests of 3 GiB, of exactly the size at which the machine's memory is split, and of 5 GiB, on q35 and on pc, two processors;
#                             two drives of two programs in one guest
#     bench/vm.sh faults      a guest is killed in the middle of its reads and writes ten times, and comes back each time, beside one that goes on; QEMU's
#                             controller stops answering; it shows a fatal status; it has a block that cannot be read; it is slow, and a guest's next QEMU
#                             waits for its Reads, a shutdown not for those of others; a guest's lists have no end; a message is not ended
#     bench/vm.sh speed       fio in one guest that has the program's drive and one of QEMU's own controller, by turns of a second, with equal images; and
#                             the processor time that the program needs for a command
#     bench/vm.sh hour [N]    two Linux guests at work and a hostile one for an hour, or N minutes: the program's memory, descriptors
#                             and threads are constant
#
# A current QEMU and Debian's kernels are fetched and unpacked, once, into VM_CACHE (else ~/.cache/nvmed-vm); they need not be of this system's own release.
# Debian's busybox-static, cpio, kmod, xz-utils, nvme-cli, fio, e2fsprogs and xfsprogs, and for firmware ovmf, mtools and dosfstools are installed where they are
# missing, and named. The library is taken from NVMED_PREFIX where that is set; else it is built, of LIBRARY if that is set, as bench/c.sh does. Once that is there,
# each run but hour ends by itself within ten minutes, or VM_LIMIT seconds. The last line is 'N passed, M failed', and the status is 0 where M is 0.
set -euo pipefail
export LC_ALL=C
top=$(dirname "$(dirname "$(readlink -f "$0")")")
# shellcheck disable=SC2034
cache=${VM_CACHE:-${XDG_CACHE_HOME:-$HOME/.cache}/nvmed-vm}
# KVM=1 takes KVM, which is of no use where it is nested
accelerator=tcg
# shellcheck disable=SC2034
[[ -z ${KVM:-} ]] || accelerator=kvm
# what stands before the program's words
wrapper=()
program=$top/host/target/release/nvmed-host
# shellcheck disable=SC2034
live=$top/host/target/release/examples/guest_live
# of a run, in seconds: a machine that has other work needs more
limit=${VM_LIMIT:-600}
passed=0
failed=0

stop() {
    echo "bench/vm.sh: $1" >&2
    exit 1
}

[[ ($# == 1 && $1 =~ ^(linux|drive|vfio|nvme|firmware|machines|faults|speed|hour)$) || ($# == 2 && $1 == hour && $2 =~ ^[1-9][0-9]{0,2}$) ]] || {
    sed -n '/^#     /s/^#     //p' "$0" >&2
    exit 2
}

# memory that QEMU and the program share by its name is kept in RAM
room=$(mktemp -d)
shared=$(mktemp -d /dev/shm/nvmed-vm.XXXXXX)
leave() {
    local it
    # one of them may stand still
    for it in $(jobs -pr); do kill -TERM "$it" 2> /dev/null || true; kill -CONT "$it" 2> /dev/null || true; done
    rm -rf "$room" "$shared"
}
trap leave EXIT
trap 'exit 143' TERM INT HUP

check() {
    local name=$1
    shift
    if "$@"; then
        passed=$((passed + 1))
    else
        failed=$((failed + 1))
        echo "bench/vm.sh: FAILED: $name"
    fi
}

# Runs a command, and shows what it printed where it failed.
quietly() {
    "$@" > "$room/output" 2>&1 || {
        cat "$room/output"
        return 1
    }
}

# Gets Debian's lists of packages, once a run.
refresh_lists() {
    [[ -z ${refreshed:-} ]] || return 0
    apt-get update > "$room/apt" 2>&1 || stop "Debian's lists of packages could not be had: $(tail -n 1 "$room/apt")"
    refreshed=1
}

# Installs what is missing of files, each with the package of Debian that has it: PATH:PACKAGE, or a command's name for its path.
need() {
    local it missing=()
    for it in "$@"; do
        [[ -e ${it%%:*} ]] || command -v "${it%%:*}" > /dev/null || missing+=("${it##*:}")
    done
    [[ ${#missing[@]} != 0 ]] || return 0
    echo "bench/vm.sh: Debian's packages are installed: ${missing[*]}"
    refresh_lists
    apt-get install -y --no-install-recommends "${missing[@]}" > "$room/apt" 2>&1 || stop "they could not be installed: ${missing[*]}"
}

# Builds the program over the library, and the guest without a machine.
make_host() {
    local prefix=${NVMED_PREFIX:-$room/library}
    if [[ -z ${NVMED_PREFIX:-} ]]; then
        "$top/bench/c.sh" install "$prefix" > "$room/built" 2>&1 || stop "the library was not installed: $(tail -n 1 "$room/built")"
    fi
    "$top/host/deps" > "$room/built" 2>&1 || echo "bench/vm.sh: $(tail -n 1 "$room/built")"
    (cd "$top/host" && NVMED_PREFIX=$prefix cargo build --quiet --release --bins --examples) > "$room/built" 2>&1 ||
        stop "the host program was not built: $(tail -n 1 "$room/built")"
}

# Starts the host program on a configuration, with further words before it, beside this script, which a signal then ends at once. What it reports is in
# $room/host.
begin_host() {
    rm -f "$room"/serial.*
    "${wrapper[@]}" "$program" "${@:2}" "$1" 2> "$room/host" &
    host=$!
}

# Waits for its end, as long as the run may take, and reports whether it had this status.
host_ended() {
    local status=0
    while kill -0 "$host" 2> /dev/null; do
        if ((SECONDS >= limit)); then kill -KILL "$host" || true; fi
        sleep 0.2
    done
    wait "$host" || status=$?
    [[ $status == "$1" ]] || {
        cat "$room/host"
        echo "nvmed-host ended with status $status"
        return 1
    }
}

# Runs it until all guests have switched off.
host() {
    begin_host "$1"
    host_ended 0
}

# Whether a guest's serial port has a line, which is all of it.
says() {
    tr -d '\r' < "$room/serial.$1" > "$room/said.$1"
    grep -qFx "$2" "$room/said.$1" || {
        tail -n 30 "$room/said.$1"
        return 1
    }
}

# shellcheck source=/dev/null
source "$top/bench/vm/current.sh"
# shellcheck source=/dev/null
source "$top/bench/vm/$1.sh"
get_qemu
prepare
make_host
SECONDS=0
run
echo "$passed passed, $failed failed"
[[ $failed == 0 ]]
