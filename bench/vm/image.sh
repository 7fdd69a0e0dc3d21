# A part of bench/vm.sh: the image of the drive, and what of it is whose. Each guest has two extents, which alternate with those of others.
# shellcheck shell=bash disable=SC2154

# of a guest, in two extents
blocks=65536
# before each extent, and after the last one
gap=2048
guests=3

# The first block of an extent, of those on the drive in their order.
begin_of() {
    echo $((gap + $1 * (blocks / 2 + gap)))
}

# The lines of a guest's extents.
extent_lines() {
    echo "extent $1 $(begin_of "$1") $((blocks / 2))"
    echo "extent $1 $(begin_of $((guests + $1))) $((blocks / 2))"
}

# The drive is painted, so that a write into blocks that are no guest's is seen.
paint() {
    head -c $(($(begin_of $((2 * guests))) * 512)) /dev/zero | tr '\0' '\245' > "$room/image"
}

# Prints blocks of the drive: the first, and how many.
blocks_of() {
    dd if="$room/image" bs=512 skip="$1" count="$2" iflag=fullblock 2> /dev/null
}

# Prints the blocks of a guest, in its order.
guest_blocks() {
    blocks_of "$(begin_of "$1")" $((blocks / 2))
    blocks_of "$(begin_of $((guests + $1)))" $((blocks / 2))
}

gaps_are_painted() {
    local it
    for ((it = 0; it <= 2 * guests; it++)); do
        cmp -s <(blocks_of $(($(begin_of "$it") - gap)) "$gap") <(head -c $((gap * 512)) /dev/zero | tr '\0' '\245') || return 1
    done
}

# Whether a guest saw the blocks of its extents in the image, in their order, as its drive: by the sum that it printed at its end, on its own serial port or
# on another guest's.
has_its_blocks() {
    local sum
    sum=$(guest_blocks "$1" | sha256sum)
    says "${2:-$1}" "the drive has ${sum%% *}"
}
