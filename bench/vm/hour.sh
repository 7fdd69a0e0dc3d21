# A part of bench/vm.sh: two Linux guests at work and a hostile one for an hour, or as many minutes as are given, in constant memory.
# shellcheck shell=bash disable=SC2034,SC2154

# shellcheck source=/dev/null
source "$top/bench/vm/linux.sh"

minutes=${2:-60}
limit=$((minutes * 60 + 600))
# by this minute all that the program needs is there
steady=$((minutes > 20 ? 10 : 2))
# that its memory may grow after that, in KiB
growth=512

# A figure of the program's, from the kernel's page on it.
figure() {
    sed -n "s/^$1:[[:space:]]*\([0-9]*\).*/\1/p" "/proc/$host/status"
}

# Memory of the program's own, in KiB: first the largest piece, which the mediator and its lanes have from the beginning and touch as they need it, and the rest,
# which is the program's heap and its threads' stacks.
own_memory() {
    awk '/^[0-9a-f]+-[0-9a-f]+ /{ anonymous = $2 == "rw-p" && $5 == 0 } /^Size:/{ size = $2 } /^Anonymous:/{ all += $2; if (anonymous && size > largest) { largest = size; kept = $2 } }
        END { print kept, all - kept }' "/proc/$host/smaps"
}

# Prints a line a minute: memory of the mediator and of the program, pages of guests and of the drive's image that it has touched, in KiB; the most descriptors and
# threads that it had in this minute; and its seconds of processor time.
sample() {
    local minute mediator own descriptors threads now
    for ((minute = 1; minute <= minutes; minute++)); do
        descriptors=0
        threads=0
        while ((SECONDS < minute * 60)); do
            sleep 0.5
            now=$(find "/proc/$host/fd" -mindepth 1 2> /dev/null | wc -l)
            ((descriptors >= now)) || descriptors=$now
            now=$(figure Threads)
            ((threads >= ${now:-0})) || threads=$now
        done
        kill -0 "$host" 2> /dev/null || return 1
        read -r mediator own <<< "$(own_memory)"
        echo "minute $minute mediator $mediator own $own shared $(($(figure RssFile) + $(figure RssShmem))) descriptors $descriptors threads $threads" \
            "processor $(awk -v tick="$(getconf CLK_TCK)" '{ print int(($14 + $15) / tick) }' "/proc/$host/stat")" | tee -a "$room/samples"
    done
}

# Whether the largest value of a column in the second half of the minutes from the steady one on is no larger than that in the first half and so much more.
is_constant() {
    awk -v column="$1" -v steady="$steady" -v minutes="$minutes" -v more="$2" '
        $2 >= steady { half = $2 * 2 > steady + minutes; if ($column > most[half]) most[half] = $column }
        END { exit !(NR == minutes && most[0] > 0 && most[1] > 0 && most[1] <= most[0] + more) }' "$room/samples"
}

run() {
    begin_run
    {
        echo "drive ram $(stat -c %s "$room/image") $room/image"
        echo "lanes 2"
        guest_lines 0 "${kernels[0]}" hour "fs=ext4 seconds=$((minutes * 60))"
        guest_lines 1 "${kernels[1]}" hour "fs=xfs seconds=$((minutes * 60)) nvme=sgl_threshold=512"
        listening_lines 2
    } > "$room/configuration"
    SECONDS=0
    begin_host "$room/configuration"
    begin_hostile 2
    check "the program is there for $minutes minutes" sample
    check "guest 0" has_passed 0
    check "guest 1" has_passed 1
    check "guest 2, which is hostile, has its controller still" hostile_ended
    check "the host program" end_host
    # under valgrind most of it is valgrind's
    [[ ${#wrapper[@]} != 0 ]] || check "its memory is constant from minute $steady on" is_constant 6 "$growth"
    check "so are its descriptors" is_constant 10 0
    check "so are its threads" is_constant 12 0
    check "the blocks that are no guest's" gaps_are_painted
    echo "rounds of guests 0 and 1: $(grep -c '^round ' "$room/serial.0"), $(grep -c '^round ' "$room/serial.1")"
}
