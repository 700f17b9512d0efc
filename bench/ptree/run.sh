#!/bin/sh
# Times `rt_ptree`'s Tree beside std's BTreeMap of plain Rust with the same keys and values, at each of the given
# numbers of entries, one thread, and prints the ratios. A change is a removal or an insert; `shared` are changes of
# the tree with a snapshot at every tenth, beside the BTreeMap's with none. The two programs take turns, and of each
# time the best over all turns and rounds counts, since another process only makes a round slower. Bytes an entry are
# those by which the most memory of a process grows. Wants `rt`, `rustc`, `awk` and `/usr/bin/time`; TURNS is 5 where
# it is not given.
set -eu
here=$(cd "$(dirname "$0")" && pwd)
sizes=${*:-500 10000 100000 1000000}
turns=${TURNS:-5}
tree=$here/../../crates/ptree_bench/out/ptree_bench
work=$(mktemp -d)
trap 'rm -rf "$work"' EXIT
(cd "$here/../../crates/ptree_bench" && rt run >"$work/build.log" 2>&1) || {
    cat "$work/build.log" >&2
    exit 1
}
rustc -O -o "$work/btreemap" "$here/btreemap.rs"

# The most memory, in kilobytes, of a program that fills a map of so many entries.
memory() {
    /usr/bin/time -f %M -o "$work/memory" "$1" fill "$2" >/dev/null 2>&1
    cat "$work/memory"
}

tree_empty=$(memory "$tree" 0)
map_empty=$(memory "$work/btreemap" 0)
echo "nanoseconds, and their ratios to BTreeMap"
for size in $sizes; do
    {
        turn=0
        while [ "$turn" -lt "$turns" ]; do
            echo "tree $("$tree" "$size" 2>/dev/null)"
            echo "map $("$work/btreemap" "$size")"
            turn=$((turn + 1))
        done
        echo "memory $(memory "$tree" "$size") $tree_empty $(memory "$work/btreemap" "$size") $map_empty"
    } | awk '
        function least(old, new) { return old == "" || new + 0 < old + 0 ? new : old }
        $1 == "tree" {
            entries = $2
            change = least(change, $3); shared = least(shared, $4)
            look_up = least(look_up, $5); walk = least(walk, $6)
        }
        $1 == "map" {
            map_change = least(map_change, $3); map_look_up = least(map_look_up, $4); map_walk = least(map_walk, $5)
        }
        $1 == "memory" {
            printf "%d entries\n", entries
            printf "  change  Tree %d  BTreeMap %d  ratio %.2f\n", change, map_change, change / map_change
            printf "  shared  Tree %d  BTreeMap %d  ratio %.2f\n", shared, map_change, shared / map_change
            printf "  look-up Tree %d  BTreeMap %d  ratio %.2f\n", look_up, map_look_up, look_up / map_look_up
            printf "  walk    Tree %d  BTreeMap %d  ratio %.2f\n", walk, map_walk, walk / map_walk
            printf "  bytes an entry  Tree %.0f  BTreeMap %.0f\n", ($2 - $3) * 1024 / entries, ($4 - $5) * 1024 / entries
        }'
done
