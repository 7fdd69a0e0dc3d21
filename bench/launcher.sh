#!/usr/bin/env bash
# Whether ./nvmed runs the program as it is: each script of examples/ prints what stands beside it, standard input and output are the program's,
# its status comes through, and nothing else is printed. A line for each thing that is off; the last line says how many tries there were.
#
#     bench/launcher.sh           the proved program, which is proved first where it is not
#     bench/launcher.sh try       the one that is built without proofs
set -uo pipefail
export LC_ALL=C

root=$(dirname "$(dirname "$(readlink -f "$0")")")
launcher=$root/nvmed
words=("$@")
room=$(mktemp -d)
trap 'rm -rf "$room"' EXIT
tries=0
off=0

# expect NAME STATUS OUTPUT FAULT: what the run before left in the room
expect() {
    tries=$((tries + 1))
    local why=
    [[ $status == "$2" ]] || why+=" status $status and not $2;"
    [[ $(<"$room/out") == "$3" ]] || why+=" another output;"
    [[ $(grep -v '^nvmed: ' "$room/err") == "$4" ]] || why+=" another standard error;"
    [[ -z $why ]] || { echo "$1:$why" && off=$((off + 1)); }
}

# run WORD..: the launcher with these words; standard input is this function's
run() {
    "$launcher" "${words[@]}" "$@" >"$room/out" 2>"$room/err"
    status=$?
}

run decode cqe "$(printf '%032d' 0)" </dev/null
for expected in "$root"/examples/*.expected; do
    script=${expected%.expected}
    [[ -e $script ]] || script=$(echo "$script".[or]*)
    # what bench/c.sh runs is no script
    [[ ${script##*.} =~ ^(once|replay|run)$ ]] || continue
    run "${script##*.}" <"$script"
    expect "${script##*/}" 0 "$(<"$expected")" ''
    run "${script##*.}" < <(cat "$script")
    expect "${script##*/} from a pipe" 0 "$(<"$expected")" ''
done

first=$root/examples/first-run
usage='usage: nvmed once | replay | run | decode KIND HEX'
run </dev/null
expect 'no words' 2 '' "$usage"
run help </dev/null
expect 'a word that is none' 2 '' "$usage"
run decode sqe '' </dev/null
expect 'an entry of no digits' 1 '' 'line 1: bad bytes'
printf 'memory 4096\nblocks 1\npaint 0 256\n' >"$room/faulty"
run once <"$room/faulty"
expect 'a number that is too large' 1 '' 'line 3: bad number'
run replay </dev/null
expect 'no script' 1 '' 'line 1: out of place'
run once <&-
expect 'a closed input' 5 '' 'cannot read'

"$launcher" "${words[@]}" once <"$first.once" 2>"$room/err" >/dev/full
status=$?
: >"$room/out"
expect 'a full output' 5 '' 'cannot write'
"$launcher" "${words[@]}" once <"$first.once" 2>"$room/err" >&-
status=$?
expect 'a closed output' 5 '' 'cannot write'

ln -s "$launcher" "$room/link"
cd "$room" || exit
launcher=./link
run once <"$first.once"
expect 'by a symbolic link, from another folder' 0 "$(<"$first.expected")" ''
cd /
launcher=$root/nvmed
run once <"$first.once"
expect 'from the root' 0 "$(<"$first.expected")" ''

echo "$tries tries, $off off"
((off == 0))
