#!/bin/sh
# Prints how long calls of `rt_presence`'s Presence take at each of the given numbers of tracks, on one topic and on as
# many, one thread, the best of several rounds, and by how much each grew from a tenth as many tracks. Wants `rt`.
set -eu
here=$(cd "$(dirname "$0")" && pwd)
program=$here/../../crates/presence_bench/out/presence_bench
log=$(mktemp)
trap 'rm -f "$log"' EXIT
(cd "$here/../../crates/presence_bench" && rt run >"$log" 2>&1) || {
    cat "$log" >&2
    exit 1
}
echo "tracks, topics, nanoseconds (and growth) of copy, track, track behind a copy, untrack, state"
"$program" ${*:-1000 10000 100000} | awk '{
    kind = ($2 == 1)
    line = $1 " " $2
    for (i = 3; i <= NF; i++) {
        line = line " " $i
        if ((kind, i) in last) line = line sprintf(" (%.1f)", $i / (last[kind, i] > 0 ? last[kind, i] : 1))
        last[kind, i] = $i
    }
    print line
}'
