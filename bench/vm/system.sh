# A part of bench/vm.sh: small systems for Debian's kernels, whose first program is bench/vm/init.
# shellcheck shell=bash disable=SC2154

# Begins a system without a kernel's modules.
begin_system() {
    rm -rf "$room/system"
    mkdir -p "$room/system"/{bin,usr/bin,dev,proc,sys,mnt,tmp,run,etc,lib,parts}
    cp "$(command -v busybox)" "$room/system/bin/busybox"
    cp "$top/bench/vm/init" "$room/system/init"
    cp "$top"/bench/vm/parts/*.sh "$room/system/parts/"
    touch "$room/system/etc/mtab"
}

# Gives it the modules of a kernel, in place of another's.
add_modules() {
    rm -rf "$room/system/lib/modules"
    mkdir "$room/system/lib/modules"
    cp "$cache/kernel-$1"/*.ko "$cache/kernel-$1/order" "$room/system/lib/modules/"
}

# Adds programs, by name or path, with the libraries that each needs.
add_programs() {
    local it paths=()
    for it in "$@"; do
        it=$(command -v "$it")
        cp -L "$it" "$room/system/usr/bin/"
        paths+=("$it")
    done
    ldd "${paths[@]}" | sed -nE 's/^\s+(.* => )?(\/[^ ]+) \(.*/\2/p' | sort -u | xargs cp -L --parents -t "$room/system"
}

# Packs it into that file. It is not compressed: a guest under TCG would need long to take that back.
end_system() {
    (cd "$room/system" && find . | cpio --quiet -o -H newc > "$1")
}
