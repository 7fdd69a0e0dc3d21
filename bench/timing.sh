# shellcheck shell=bash
# What the benchmarks share, for `source`: the program, a folder for their files, and the time of a run.

root=$(dirname "$(dirname "$(readlink -f "${BASH_SOURCE[0]}")")")
room=$(mktemp -d)
trap 'rm -rf "$room"' EXIT

# The program, proved and built first, where it is not yet.
printf 'memory 4096\nblocks 1\n' | "$root/nvmed" once
program=$root/crates/nvmed/out/nvmed

# Another program of the same language of scripts, where one is named: `PEER=PROGRAM bench/..`. Each script runs on both in turn, and
# its time stands beside ours: 1.00 is as fast, and more is faster than it.
peer=${PEER:-}
if [[ -n $peer && ! -x $peer ]]; then
    echo "$peer is no program" >&2
    exit 2
fi

# The word of the program that runs the scripts; a benchmark may set another.
word=once

# Runs the script in `$room/script` with a program, and keeps what it printed in a file. Prints how long it took, in nanoseconds.
one_run() {
    local start end
    start=$(date +%s%N)
    "$1" "$word" <"$room/script" >"$2"
    end=$(date +%s%N)
    printf '%s' $((end - start))
}

# Runs the script in `$room/script`, and sets `took`, and `peer_took` where there is a peer, to how long it took: the least of five runs,
# in nanoseconds. What the script printed stands in `$room/output`.
run_script() {
    local now
    took=""
    peer_took=""
    for _ in 1 2 3 4 5; do
        now=$(one_run "$program" "$room/output")
        [[ -n $took && $took -le $now ]] || took=$now
        if [[ -n $peer ]]; then
            now=$(one_run "$peer" "$room/peer-output")
            [[ -n $peer_took && $peer_took -le $now ]] || peer_took=$now
        fi
    done
    if [[ -n $peer ]] && ! cmp -s "$room/output" "$room/peer-output"; then
        echo "the output of $peer differs" >&2
        exit 1
    fi
}

# The peer's time by ours, where there is a peer and both are long enough to tell.
beside() {
    [[ -z $peer ]] || awk -v ours="$1" -v peers="$2" 'BEGIN {
        if (ours > 0 && peers > 0) printf ", %.2fx the peer", peers / ours
    }'
}
