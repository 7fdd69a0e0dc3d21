# A part of bench/vm.sh: that of linux.sh on the NVMe controller of another QEMU, which the program reaches by its qtest socket.
# shellcheck shell=bash disable=SC2154

# shellcheck source=/dev/null
source "$top/bench/vm/linux.sh"

# files of memory that are the RAM of the QEMU with the drive, in this order, and their MiB: the mediator's part, and each guest's
nodes=("area 32" "ram0 $memory" "ram1 $memory" "ram2 $small")
emulator=

end_drive() {
    [[ -n $emulator ]] || return 0
    kill -TERM "$emulator" 2> /dev/null || true
    kill -CONT "$emulator" 2> /dev/null || true
    wait "$emulator" 2> /dev/null || true
    emulator=
}

# Starts the QEMU with the controller, anew where there is one, with further words for its disk, which are to name a node `disk`. A ROM of 64 KiB whose reset
# vector has cli; hlt; jmp back is all that its processor runs; its clock goes on.
begin_drive() {
    local it total=0 words=()
    end_drive
    rm -f "$shared"/*
    head -c 65536 /dev/zero | tr '\0' '\364' > "$room/rom"
    printf '\xfa\xf4\xeb\xfd' | dd of="$room/rom" bs=1 seek=65520 conv=notrunc status=none
    for it in "${nodes[@]}"; do
        words+=(-object "memory-backend-file,id=${it% *},share=on,size=${it#* }M,mem-path=$shared/${it% *}" -numa "node,memdev=${it% *}")
        total=$((total + ${it#* }))
    done
    qemu-system-x86_64 -nodefaults -no-user-config -display none -machine q35,accel=tcg -bios "$room/rom" -m "${total}M" "${words[@]}" "$@" \
        -device nvme,drive=disk,serial=shared,max_ioqpairs=8 -qtest unix:"$shared/qtest",server=on,wait=off -qtest-log /dev/null 2> "$room/drive" &
    emulator=$!
    for _ in {1..100}; do
        [[ ! -S $shared/qtest ]] || return 0
        sleep 0.1
    done
    stop "QEMU with the drive did not begin"
}

begin_image() {
    begin_drive -drive file="$room/image",format=raw,if=none,id=disk,discard=unmap "$@"
}

run() {
    begin_run
    run_on "qemu $shared/qtest $shared/area" begin_image "$shared/ram0" "$shared/ram1" "$shared/ram2"
    check "the drive is QEMU's controller" grep -q "the drive: of QEMU" "$room/host"
    end_drive
    compare
}
