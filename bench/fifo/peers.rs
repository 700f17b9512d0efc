//! The same run over queues in plain Rust: numbers go in order from one thread to another.
//!
//! `peers QUEUE CAPACITY ITEMS`, where QUEUE is `array` or `channel`, prints how many came in order.
//! `array` is a ring with a stamp on each slot and the orderings of `crossbeam_queue::ArrayQueue`, written
//! out here so that the bench needs no crate; `channel` is std's `sync_channel`.

use std::cell::UnsafeCell;
use std::mem::MaybeUninit;
use std::sync::Arc;
use std::sync::atomic::{AtomicUsize, Ordering, fence};
use std::sync::mpsc;
use std::{hint, thread};

struct Slot {
    stamp: AtomicUsize,
    value: UnsafeCell<MaybeUninit<u64>>,
}

// The head and the tail lie in cache lines of their own.
#[repr(align(128))]
struct Apart(AtomicUsize);

struct ArrayQueue {
    head: Apart,
    tail: Apart,
    slots: Box<[Slot]>,
    one_lap: usize,
}

unsafe impl Sync for ArrayQueue {}
unsafe impl Send for ArrayQueue {}

impl ArrayQueue {
    fn new(capacity: usize) -> Self {
        let slot = |stamp| Slot {
            stamp: AtomicUsize::new(stamp),
            value: UnsafeCell::new(MaybeUninit::uninit()),
        };
        ArrayQueue {
            head: Apart(AtomicUsize::new(0)),
            tail: Apart(AtomicUsize::new(0)),
            slots: (0..capacity).map(slot).collect(),
            one_lap: (capacity + 1).next_power_of_two(),
        }
    }

    fn next(&self, place: usize) -> usize {
        let index = place & (self.one_lap - 1);
        let lap = place & !(self.one_lap - 1);
        if index + 1 < self.slots.len() {
            place + 1
        } else {
            lap.wrapping_add(self.one_lap)
        }
    }

    fn push(&self, value: u64) -> Result<(), u64> {
        let mut spins = 0;
        let mut tail = self.tail.0.load(Ordering::Relaxed);
        loop {
            let slot = &self.slots[tail & (self.one_lap - 1)];
            let stamp = slot.stamp.load(Ordering::Acquire);
            if tail == stamp {
                match self.tail.0.compare_exchange_weak(
                    tail,
                    self.next(tail),
                    Ordering::SeqCst,
                    Ordering::Relaxed,
                ) {
                    Ok(_) => {
                        unsafe { slot.value.get().write(MaybeUninit::new(value)) };
                        slot.stamp.store(tail + 1, Ordering::Release);
                        return Ok(());
                    }
                    Err(found) => {
                        tail = found;
                        pause(&mut spins);
                    }
                }
            } else if stamp.wrapping_add(self.one_lap) == tail + 1 {
                fence(Ordering::SeqCst);
                let head = self.head.0.load(Ordering::Relaxed);
                if head.wrapping_add(self.one_lap) == tail {
                    return Err(value);
                }
                pause(&mut spins);
                tail = self.tail.0.load(Ordering::Relaxed);
            } else {
                pause(&mut spins);
                tail = self.tail.0.load(Ordering::Relaxed);
            }
        }
    }

    fn pop(&self) -> Option<u64> {
        let mut spins = 0;
        let mut head = self.head.0.load(Ordering::Relaxed);
        loop {
            let slot = &self.slots[head & (self.one_lap - 1)];
            let stamp = slot.stamp.load(Ordering::Acquire);
            if head + 1 == stamp {
                match self.head.0.compare_exchange_weak(
                    head,
                    self.next(head),
                    Ordering::SeqCst,
                    Ordering::Relaxed,
                ) {
                    Ok(_) => {
                        let value = unsafe { slot.value.get().read().assume_init() };
                        slot.stamp
                            .store(head.wrapping_add(self.one_lap), Ordering::Release);
                        return Some(value);
                    }
                    Err(found) => {
                        head = found;
                        pause(&mut spins);
                    }
                }
            } else if stamp == head {
                fence(Ordering::SeqCst);
                if self.tail.0.load(Ordering::Relaxed) == head {
                    return None;
                }
                pause(&mut spins);
                head = self.head.0.load(Ordering::Relaxed);
            } else {
                pause(&mut spins);
                head = self.head.0.load(Ordering::Relaxed);
            }
        }
    }
}

// As `crossbeam_utils::Backoff`: more each time, and then a turn for other threads.
fn pause(spins: &mut u32) {
    if *spins <= 6 {
        for _ in 0..1 << *spins {
            hint::spin_loop();
        }
        *spins += 1;
    } else {
        thread::yield_now();
    }
}

// As the proved program waits.
fn wait(turn: u64) {
    if turn % 8 == 0 {
        thread::yield_now();
    } else {
        hint::spin_loop();
    }
}

fn send(items: u64, push: impl Fn(u64) -> bool) {
    let mut next = 0;
    let mut turn = 0;
    while next < items {
        if push(next) {
            next += 1;
        } else {
            wait(turn);
        }
        turn += 1;
    }
}

fn receive(items: u64, pop: impl Fn() -> Option<u64>) -> u64 {
    let mut next = 0;
    let mut turn = 0;
    while next < items {
        match pop() {
            Some(item) if item == next => next += 1,
            Some(_) => break,
            None => wait(turn),
        }
        turn += 1;
    }
    next
}

fn main() {
    let words: Vec<String> = std::env::args().collect();
    let capacity = words[2].parse().expect("a capacity");
    let items = words[3].parse().expect("a number of items");
    let received = if words[1] == "array" {
        let queue = Arc::new(ArrayQueue::new(capacity));
        let theirs = Arc::clone(&queue);
        let sender = thread::spawn(move || send(items, |item| theirs.push(item).is_ok()));
        let received = receive(items, || queue.pop());
        sender.join().expect("the sender ends");
        received
    } else {
        let (tx, rx) = mpsc::sync_channel(capacity);
        let sender = thread::spawn(move || send(items, |item| tx.try_send(item).is_ok()));
        let received = receive(items, || rx.try_recv().ok());
        sender.join().expect("the sender ends");
        received
    };
    println!("{received} in order");
}
