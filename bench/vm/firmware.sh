# A part of bench/vm.sh: firmware that boots from the shared drive, and reads and writes it.
# shellcheck shell=bash disable=SC2154

# of a guest: a FAT file system of 32 MiB and more
blocks=81920
phrase="this file lies on the shared drive"
# U-Boot reads a file of so many bytes to an address, and writes these of its blocks to others, which no file has
bytes=300001
address=1000000
written=16
spare=$((blocks - written))

prepare() {
    need /usr/share/ovmf/OVMF.fd:ovmf mcopy:mtools mkfs.fat:dosfstools
    get_uboot
}

# Makes $cache/u-boot.rom Debian's U-Boot for QEMU's `pc`.
get_uboot() {
    [[ ! -s $cache/u-boot.rom ]] || return 0
    mkdir -p "$cache"
    debian_begin "$room" trixie
    debian_fetch "$room/u-boot" u-boot-qemu
    dpkg-deb -x "$room"/u-boot/*.deb "$room/u-boot/root"
    cp "$room/u-boot/root/usr/lib/u-boot/qemu-x86_64/u-boot.rom" "$cache/u-boot.rom.$$"
    mv "$cache/u-boot.rom.$$" "$cache/u-boot.rom"
}

# A sector that writes a guest's number to its serial port.
make_sector() {
    local object=$room/boot.$1
    cc -DTEXT="\"\\r\\nguest $1 has booted from the shared drive\\r\\n\"" -c "$top/bench/vm/boot.S" -o "$object.o"
    ld -m elf_x86_64 -Ttext=0x7c00 --oformat=binary "$object.o" -o "$object"
}

# A file system with a script that EDK2's shell runs by itself: it types a file, and switches the machine off. And one with a file for U-Boot, and the line
# that is typed at its console, after empty ones that stop it from booting. It asks for keys while it works, so that all of it has to be one line.
make_files() {
    truncate -s $((blocks * 512)) "$room/fat"
    truncate -s $((spare * 512)) "$room/other-fat"
    mkfs.fat "$room/fat" > /dev/null
    mkfs.fat "$room/other-fat" > /dev/null
    echo "$phrase" > "$room/phrase.txt"
    printf '%s\r\n' 'echo -off' 'fs0:' 'type phrase.txt' 'reset -s' > "$room/startup.nsh"
    mcopy -i "$room/fat" "$room/phrase.txt" "$room/startup.nsh" ::
    head -c "$bytes" /dev/urandom > "$room/file.bin"
    mcopy -i "$room/other-fat" "$room/file.bin" ::
    {
        printf '\n%.0s' {1..40}
        # shellcheck disable=SC2016
        printf 'nvme scan; nvme info; fatload nvme 0 0x%s file.bin; crc32 0x%s ${filesize}; ' "$address" "$address"
        printf 'nvme write 0x%s %x %x; reset\n' "$address" "$spare" "$written"
    } > "$room/typed"
}

# The lines of a guest: its number, its memory, its first block, further words for QEMU, its machine, if not q35, and the file that is typed at its console, if any.
guest_lines() {
    echo "guest $1 memory $2"
    echo "extent $1 $3 $blocks"
    echo "start $1 qemu-system-x86_64 -machine ${5:-q35} -accel $accelerator -display none -no-reboot -net none ${4:-}"
    echo "start $1 -chardev file,id=console,path=$room/serial.$1${6:+,input-path=$6} -serial chardev:console"
}

# What U-Boot says of the file: where it lies, and its sum.
sum_of_file() {
    printf 'crc32 for %08x ... %08x ==> %s' $((16#$address)) $((16#$address + bytes - 1)) \
        "$(gzip -c "$room/file.bin" | tail -c 8 | head -c 4 | od -An -tx4 --endian=little | tr -d ' ')"
}

# Whether the blocks that U-Boot wrote are there: the image's first block of its guest.
has_written() {
    cmp <(dd if="$room/image" bs=512 skip=$(($1 + spare)) count="$written" status=none) <(head -c $((written * 512)) "$room/file.bin")
}

run() {
    local size=$((4 * blocks * 512))
    make_sector 0
    make_sector 1
    make_files
    truncate -s "$size" "$room/image"
    dd if="$room/boot.0" of="$room/image" conv=notrunc status=none
    dd if="$room/boot.1" of="$room/image" seek="$blocks" conv=notrunc status=none
    dd if="$room/fat" of="$room/image" bs=512 seek=$((2 * blocks)) conv=notrunc status=none
    dd if="$room/other-fat" of="$room/image" bs=512 seek=$((3 * blocks)) conv=notrunc status=none
    {
        echo "drive ram $size $room/image"
        guest_lines 0 64M 0
        guest_lines 1 64M "$blocks" "" pc
        guest_lines 2 256M $((2 * blocks)) "-bios /usr/share/ovmf/OVMF.fd"
        guest_lines 3 256M $((3 * blocks)) "-bios $cache/u-boot.rom" pc "$room/typed"
    } > "$room/configuration"
    check "the host program, with two guests of SeaBIOS, one of EDK2 and one of U-Boot" host "$room/configuration"
    check "SeaBIOS boots guest 0" says 0 "guest 0 has booted from the shared drive"
    check "SeaBIOS boots guest 1" says 1 "guest 1 has booted from the shared drive"
    check "EDK2 reads guest 2's file" says 2 "$phrase"
    check "U-Boot finds guest 3's drive" says 3 "            Capacity: 40.0 MB = 0.0 GB ($blocks x 512)"
    check "U-Boot reads guest 3's file" says 3 "$(sum_of_file)"
    check "U-Boot writes guest 3's blocks" has_written $((3 * blocks))
}
