#!/bin/sh
# Prints how many deltas of one track `rt_cluster`'s Replica merges a second, at each of the given numbers of live
# marks, one thread, the best of several rounds. Wants `rt`.
set -eu
here=$(cd "$(dirname "$0")" && pwd)
program=$here/../../crates/cluster_bench/out/cluster_bench
log=$(mktemp)
trap 'rm -f "$log"' EXIT
(cd "$here/../../crates/cluster_bench" && rt run >"$log" 2>&1) || {
    cat "$log" >&2
    exit 1
}
echo "live marks, merges a second"
"$program" ${*:-1000 100000}
