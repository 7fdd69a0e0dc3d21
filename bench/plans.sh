#!/usr/bin/env bash
# How long a plan takes: of a Read through a list of 1,024 descriptors, of a Dataset Management of 256 ranges, and of a Read whose list of
# region pages chains. Printed are microseconds a plan, at a number of plans and at half of it, so that a reader sees time grow
# linearly. What the jobs cost, which are made anew each time, is measured by itself and taken off.
#
# The program is proved and built first, where it is not yet.
#
#     bench/plans.sh [PLANS]                          20,000, where nothing is given
set -euo pipefail
export LC_ALL=C

root=$(dirname "$(dirname "$(readlink -f "$0")")")
program=$root/crates/nv_workloads/out/nv_workloads
plans=${1:-20000}

[[ -x $program ]] || (cd "$root/crates/nv_workloads" && rt run </dev/null >&2)

# How long the program takes for these words: the least of five runs, in nanoseconds.
least() {
    local took="" start now
    for _ in 1 2 3 4 5; do
        start=$(date +%s%N)
        "$program" "$@" >/dev/null
        now=$(($(date +%s%N) - start))
        [[ -n $took && $took -le $now ]] || took=$now
    done
    printf '%s' "$took"
}

for kind in descriptors ranges pages; do
    for count in $((plans / 2)) "$plans"; do
        whole=$(least plans "$kind" "$count")
        jobs=$(least jobs "$kind" "$count")
        awk -v kind="$kind" -v count="$count" -v whole="$whole" -v jobs="$jobs" 'BEGIN {
            printf "%-12s %8d plans: %8.2f us a plan, and %.2f us its job\n", kind, count, (whole - jobs) / count / 1000, jobs / count / 1000
        }'
    done
done
