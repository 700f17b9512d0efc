//! The same changes, look-ups and walks on std's `BTreeMap`, which no snapshot is taken of.
//!
//! Prints a line for each number of entries among the arguments: the entries, then in nanoseconds, each
//! the best of several rounds, a change, a look-up and a whole walk. Behind the argument `fill` maps are
//! only filled.

use std::collections::BTreeMap;
use std::hint::black_box;
use std::sync::Arc;
use std::time::Instant;

const ROUNDS: u64 = 9;

const MEASURED: u64 = 2_000;

type Map = BTreeMap<Arc<u64>, Arc<u64>>;

fn scattered(number: u64) -> u64 {
    number.wrapping_mul(0x9e37_79b9_7f4a_7c15)
}

fn put(map: &mut Map, number: u64) {
    map.insert(Arc::new(scattered(number)), Arc::new(number));
}

fn filled(entries: u64) -> Map {
    let mut map = BTreeMap::new();
    for number in 0..entries {
        put(&mut map, number);
    }
    map
}

fn time_changes(map: &mut Map, entries: u64, from: u64) -> u128 {
    let start = Instant::now();
    for number in from..from + MEASURED {
        map.remove(&scattered(number));
        put(map, entries + number);
    }
    start.elapsed().as_nanos() / u128::from(2 * MEASURED)
}

fn time_look_ups(map: &Map, from: u64) -> u128 {
    let mut sum = 0u64;
    let start = Instant::now();
    for number in from..from + MEASURED {
        if let Some(value) = map.get(&scattered(number)) {
            sum = sum.wrapping_add(**value);
        }
    }
    black_box(sum);
    start.elapsed().as_nanos() / u128::from(MEASURED)
}

fn time_walk(map: &Map) -> u128 {
    let start = Instant::now();
    let mut sum = 0u64;
    for (_, value) in map {
        sum = sum.wrapping_add(**value);
    }
    black_box(sum);
    start.elapsed().as_nanos()
}

fn measure(entries: u64) {
    let mut map = filled(entries);
    let (mut change, mut look_up, mut walk) = (u128::MAX, u128::MAX, u128::MAX);
    for round in 0..ROUNDS {
        let from = round * MEASURED;
        change = change.min(time_changes(&mut map, entries, from));
        look_up = look_up.min(time_look_ups(&map, from + MEASURED));
        walk = walk.min(time_walk(&map));
    }
    println!("{entries} {change} {look_up} {walk}");
}

fn main() {
    let mut only_fill = false;
    for arg in std::env::args().skip(1) {
        if arg == "fill" {
            only_fill = true;
            continue;
        }
        let entries = arg.parse().expect("a number of entries");
        if only_fill {
            eprintln!("{}", filled(entries).len());
        } else {
            measure(entries);
        }
    }
}
