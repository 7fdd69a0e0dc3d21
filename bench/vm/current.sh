# A part of bench/vm.sh: a current QEMU, whatever this system has, and Debian's kernels. Both are unpacked, once, and nothing is installed.
# shellcheck shell=bash disable=SC2154

# shellcheck source=/dev/null
source "$top/host/debian.sh"

fail() {
    stop "$1"
}

# QEMU 10.1 and later have the client of vfio-user.
qemu_suites=(trixie trixie-backports)

# Makes $cache/qemu a folder with Debian's newest QEMU, what it needs, and a command that runs it from there, by its own loader.
get_qemu() {
    local root=$cache/qemu
    if [[ ! -x $root/qemu-system-x86_64 ]]; then
        mkdir -p "$cache"
        rm -rf "$root" "$root.new"
        debian_begin "$room" "${qemu_suites[@]}"
        debian_unpack "$root.new" . qemu-system-x86/trixie-backports qemu-system-data/trixie-backports "$@"
        mv "$root.new" "$root"
        cat > "$root/qemu-system-x86_64" <<'END'
#!/bin/sh
root=$(dirname "$(readlink -f "$0")")
export QEMU_MODULE_DIR="$root/usr/lib/x86_64-linux-gnu/qemu"
exec "$root/usr/lib64/ld-linux-x86-64.so.2" --argv0 qemu-system-x86_64 --library-path "$root/usr/lib/x86_64-linux-gnu" "$root/usr/bin/qemu-system-x86_64" \
    -L "$root/usr/share/qemu" -L "$root/usr/share/seabios" "$@"
END
        chmod +x "$root/qemu-system-x86_64"
    fi
    PATH=$root:$PATH
    qemu-system-x86_64 --version > "$room/output" 2>&1 || stop "the current QEMU does not run: $(tail -n 1 "$room/output")"
    echo "bench/vm.sh: $(head -n 1 "$room/output")"
}

# The kernels that guests have, each by a name and the suite of Debian's that it is of.
declare -A kernel_suites=([6.1]=bookworm [6.12]=trixie [newest]=trixie-backports)
# what guests load of a kernel, with all that these modules need
kernel_modules=(crc32c_generic nvme ext4 xfs vfio-pci vfio_iommu_type1 virtio_pci virtio_blk)

# Makes $cache/kernel-NAME a folder with a kernel, `vmlinuz`, its modules, and `order`, in which these are loaded: a module's name, and those that it needs before it.
get_kernel() {
    local folder=$cache/kernel-$1 suite=${kernel_suites[$1]} package parts root version it
    [[ ! -s $folder/order ]] || return 0
    mkdir -p "$cache"
    rm -rf "$folder" "$folder.new" "$room/kernel"
    debian_begin "$room" "$suite"
    package=$(apt-cache "${debian_words[@]}" depends linux-image-amd64 | sed -nE 's/^ +Depends: (linux-image-[0-9][^ ]*).*/\1/p' | head -n 1)
    [[ -n $package ]] || stop "no kernel was found in $suite"
    # newer ones have the kernel itself and its modules in packages of their own
    mapfile -t parts < <(apt-cache "${debian_words[@]}" depends "$package" | sed -nE 's/^ +Depends: (linux-(binary|modules)-.*)/\1/p')
    debian_fetch "$room/kernel" "$package" "${parts[@]}"
    root=$room/kernel/root
    for it in "$room"/kernel/*.deb; do dpkg-deb -x "$it" "$root"; done
    # where /usr is merged they lie there
    [[ -d $root/lib ]] || ln -s usr/lib "$root/lib"
    version=$(basename "$root"/lib/modules/*)
    quietly /sbin/depmod -b "$root" "$version"
    mkdir "$folder.new"
    for it in "$root"/boot/vmlinuz-* "$root/lib/modules/$version/vmlinuz"; do
        [[ ! -f $it ]] || cp "$it" "$folder.new/vmlinuz"
    done
    for it in "${kernel_modules[@]}"; do
        module_order "$root/lib/modules/$version" "$it"
    done | awk 'NF && !seen[$0]++' > "$room/kernel/order"
    while read -r it; do
        copy_module "$root/lib/modules/$version/$it" "$folder.new"
    done < "$room/kernel/order"
    sed 's|.*/||; s|\.ko.*||' "$room/kernel/order" > "$folder.new/order"
    mv "$folder.new" "$folder"
    rm -rf "$room/kernel"
}

# Prints a module's file and those that it needs, these first. One that is built in has none.
module_order() {
    sed -nE "s|^([^:]*/${2//-/[-_]}\.ko[^:]*): ?(.*)|\2 \1|p" "$1/modules.dep" | tr ' ' '\n' | sed '/^$/d' | awk '{ line[NR] = $0 } END { for (i = NR - 1; i > 0; i--) print line[i]; print line[NR] }'
}

copy_module() {
    local name=${1##*/}
    case $1 in
        *.xz) xz -dc "$1" > "$2/${name%.xz}" ;;
        *.zst) zstd -qdc "$1" > "$2/${name%.zst}" ;;
        *) cp "$1" "$2/" ;;
    esac
}
