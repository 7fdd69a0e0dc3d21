# A part of bench/vm.sh: fio in one Linux guest, on the program and on QEMU's own NVMe controller by turns. The guest has both drives, with equal images, and
# each job's turns follow one another, a second each: a machine whose own speed changes meets both alike. The images are in RAM: a disk that is written in the
# background holds up stores into a mapped file, which are what the program's drive makes of Writes.
#
# Both drives interrupt by messages (MSI-X), which is what a guest has without further words. QEMU's own controller lets Linux write most doorbells into memory
# (Doorbell Buffer Config): a doorbell's register is written only where the controller has said, in memory, too, that it waits for it. With one processor TCG
# may leave the guest's memory barriers out, so that such a doorbell can get lost: then nothing goes on. It keeps them where a machine may have two, so the
# machine gets one processor of two that may be there.
#
# Where this machine is a virtual one itself, its processors may be taken away for a while (steal, in /proc/stat). A turn that lost more than a hundredth of
# them doesn't count, nor does its fellow on the other drive.
#
# Where there are three processors or more, the last one is the program's alone. The first one is that of the guest's own processor, and the others have the
# rest of QEMU. So threads are where they are in each run.
# shellcheck shell=bash disable=SC2034,SC2154

# shellcheck source=/dev/null
source "$top/bench/vm/linux.sh"

# that bench/vm/parts/speed.sh has: jobs, and turns of each on either drive
jobs=5
turns=15
# hundredths of QEMU's own speed that the program's has to have
least=130
# microseconds of processor time that the program may need for a command at queue depth 16
most_spent=5
# hundredths of the processors that may be taken away from a turn that counts, and the pairs of turns of a job that have to count
most_taken=1
fewest=5
kernel=6.12

# Commands that the drive was given, by the program's lines.
commands() {
    grep -oE '[0-9]+ (reads|writes|compares|write zeroes|others)' "$room/host" | awk '{ sum += $1 } END { print sum + 0 }'
}

# Seconds of processor time that the program has had so far, without those of its guests.
processor() {
    awk -v tick="$(getconf CLK_TCK)" '{ print ($14 + $15) / tick }' "/proc/$host/stat" 2> /dev/null || true
}

# Puts the threads of the program's QEMU on their processors, as far as they are there by now.
place_threads() {
    local task name
    ((${#on_last[@]} != 0)) || return 0
    for task in $(pgrep -P "$host" | sed 's|.*|/proc/&/task/*|'); do
        name=$(cat "$task/comm" 2> /dev/null) || continue
        case $name in
            CPU*) taskset -cp 0 "${task##*/}" ;;
            *) taskset -cp "$rest" "${task##*/}" ;;
        esac
    done > "$room/output" 2>&1 || true
}

# Notes with each turn that has ended since the last call how many hundredths of the processors were taken away meanwhile.
note_turns() {
    local lines ticks
    [[ -e $room/serial.0 ]] || return 0
    lines=$(tr -d '\r' < "$room/serial.0" | grep -c '^speed ') || true
    ((lines > ended)) || return 0
    read -ra ticks < <(awk '/^cpu / { print $9, $2 + $3 + $4 + $5 + $6 + $7 + $8 + $9 }' /proc/stat)
    for (( ; ended < lines; ended++)); do
        echo $((100 * (ticks[0] - before[0]) / (ticks[1] - before[1] + 1)))
    done >> "$room/taken"
    before=("${ticks[@]}")
    echo "$lines $spent $(commands)" >> "$room/samples"
}

# The guest at work on both drives, up to its end.
on_both() {
    local now spent=0 status=0 ended=0 before=(0 0)
    echo "0 0 0" > "$room/samples"
    cp "$room/image" "$shared/image"
    cp "$room/image" "$shared/own"
    {
        echo "drive ram $(stat -c %s "$shared/image") $shared/image"
        guest_lines 0 "$kernel" speed "" | sed "s/^start 0 qemu/start 0 ${on_others[*]} qemu/"
        echo "start 0 -smp 1,maxcpus=2 -drive file=$shared/own,format=raw,if=none,id=own -device nvme,drive=own,serial=own,max_ioqpairs=8 -name speed,debug-threads=on"
    } > "$room/configuration"
    wrapper=("${on_last[@]}" "${wrapper[@]}")
    begin_host "$room/configuration" --statistics
    while ((SECONDS < limit)) && kill -0 "$host" 2> /dev/null; do
        now=$(processor)
        [[ -z $now ]] || spent=$now
        place_threads
        note_turns
        sleep 0.1
    done
    note_turns
    host_ended 0 || status=1
    tr -d '\r' < "$room/serial.0" | sed -n 's/^speed //p' | paste -d ' ' - "$room/taken" > "$room/speed"
    return "$status"
}

# The middle one of the numbers of a column.
middle() {
    cut -d ' ' -f "$1" | sort -n | awk '{ row[NR] = $1 } END { print row[int((NR + 1) / 2)] }'
}

# A job's pairs of turns that count: the figure of the program, that of QEMU's own controller, and the percentage.
pairs() {
    paste -d ' ' <(sed -n "s/^program $1 //p" "$room/speed") <(sed -n "s/^QEMU $1 //p" "$room/speed") |
        awk -v most="$most_taken" '$2 <= most && $4 <= most { print $1, $3, 100 * $1 / $3 }'
}

# Microseconds of the program's processor time for a command of the job of that number, from 0 on. While the other drive has its turns the program is idle.
spent_on() {
    awk -v from=$((2 * turns * $1)) -v to=$((2 * turns * ($1 + 1))) '
        $1 <= from || !begun { first = $2; before = $3; begun = 1 }
        $1 <= to { last = $2; after = $3 }
        END { printf "%.1f", (after > before ? 1e6 * (last - first) / (after - before) : 0) }' "$room/samples"
}

# Prints the table, and reports whether each job is fast enough: by the middle one of its pairs of turns.
table() {
    local job percent count needed number=0 good=0
    [[ $(wc -l < "$room/speed") == $((2 * turns * jobs)) ]] || return 1
    printf '%-10s %12s %12s %8s %6s %12s\n' job program QEMU percent pairs us/command
    while read -r job; do
        pairs "$job" > "$room/pairs"
        needed=$(spent_on "$number")
        number=$((number + 1))
        count=$(wc -l < "$room/pairs")
        if ((count < fewest)); then
            echo "$job: only $count pairs of turns count, since processors were taken away"
            good=1
            continue
        fi
        percent=$(middle 3 < "$room/pairs")
        printf '%-10s %12.0f %12.0f %8.0f %6d %12s\n' "$job" "$(middle 1 < "$room/pairs")" "$(middle 2 < "$room/pairs")" "$percent" "$count" "$needed"
        [[ $job != *-16 ]] || awk -v needed="$needed" -v most="$most_spent" 'BEGIN { exit !(needed <= most) }' || good=1
        awk -v percent="$percent" -v least="$least" 'BEGIN { exit !(percent >= least) }' || good=1
    done < <(cut -d ' ' -f 2 "$room/speed" | awk '!seen[$0]++')
    return "$good"
}

# The words that keep a command to the last processor, and to the others; and the processors that the rest of QEMU has.
choose_processors() {
    local last=$(($(nproc) - 1))
    on_last=()
    on_others=()
    ((last >= 2)) || return 0
    on_last=(taskset -c "$last")
    on_others=(taskset -c "0-$((last - 1))")
    rest=1-$((last - 1))
}

run() {
    guests=1
    choose_processors
    make_systems "$kernel"
    paint
    check "the program, up to its guest's end" on_both
    check "the guest" says 0 "guest 0: passed"
    check "the program has $least hundredths of the speed of QEMU's own controller, and needs $most_spent microseconds for a command or less" table
}
