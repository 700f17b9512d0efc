#!/bin/sh
# Items a second from one thread to another, at two capacities: `rt_fifo`, and in plain Rust the ring of
# `crossbeam_queue::ArrayQueue` (`array`) and std's `sync_channel` (`channel`). Each waits in the same way where
# the queue is full or empty, and each run checks that the items come in order. The queues take turns, and the
# fastest of the given number of rounds counts (15 if none is given). The last column is the rate by `array`'s.
# Wants `rt` and `rustc`.
set -eu
here=$(cd "$(dirname "$0")" && pwd)
rounds=${1:-15}
cases=$here/../../crates/rt_fifo_cases
built=$(mktemp -d)
trap 'rm -rf "$built"' EXIT
(cd "$cases" && rt run </dev/null >"$built/build.log" 2>&1) || {
    cat "$built/build.log" >&2
    exit 1
}
rustc -O -o "$built/peers" "$here/peers.rs"

# The nanoseconds of one run, the whole process.
timed() {
    start=$(date +%s%N)
    case $1 in
    rt_fifo) echo "threads $2: $3 but 0" | "$cases/out/rt_fifo_cases" ;;
    *) "$built/peers" "$@" ;;
    esac >"$built/answer"
    end=$(date +%s%N)
    grep -q "^$3 in order" "$built/answer"
    echo $((end - start))
}

measure() {
    for _ in $(seq "$rounds"); do
        for queue in array channel rt_fifo; do
            echo "$queue $(timed "$queue" "$1" "$2")"
        done
    done | awk -v capacity="$1" -v items="$2" '
        !($1 in best) || $2 < best[$1] { best[$1] = $2 }
        END {
            for (queue in best)
                printf "%s %d %d %.0f %.2f\n", queue, capacity, items, items / best[queue] * 1e9, best["array"] / best[queue]
        }' | sort
}

echo "queue capacity items items_per_second by_array"
measure 64 1000000
measure 4096 10000000
