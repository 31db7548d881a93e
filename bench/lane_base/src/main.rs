//! The baseline of `bench/lane.sh`: the same threads over `std::sync::mpsc::sync_channel` and over a plain ring of atomics.

use std::cell::UnsafeCell;
use std::mem::MaybeUninit;
use std::sync::atomic::{AtomicUsize, Ordering};
use std::sync::mpsc::sync_channel;
use std::sync::Arc;
use std::thread;
use std::time::{Duration, Instant};

const RUNS: u32 = 7;

#[derive(Clone, Copy)]
struct Life {
    own: u64,
    peer: u64,
}

/// As large as a control packet of the router.
#[derive(Clone, Copy)]
#[allow(dead_code)]
enum Packet {
    Update { destination: u32, tau: u64, oid: u32, r: u8, delta: i32, id: u32 },
    Query { destination: u32 },
}

#[derive(Clone, Copy)]
#[allow(dead_code)]
enum What {
    Up(Life),
    Packet(Life, Packet),
    Down(Life, u8),
    Beat,
}

#[derive(Clone, Copy)]
#[allow(dead_code)]
struct Item {
    seat: usize,
    number: u64,
    now: u64,
    what: What,
}

#[derive(Clone, Copy)]
#[allow(dead_code)]
enum Cargo {
    Packet(Life, Packet),
    Cut(Life),
}

/// A ring with one producer and one consumer.
struct Ring<T> {
    slots: Vec<UnsafeCell<MaybeUninit<T>>>,
    head: AtomicUsize,
    tail: AtomicUsize,
}

unsafe impl<T: Send> Sync for Ring<T> {}

impl<T: Copy> Ring<T> {
    fn new(room: usize) -> Self {
        let slots = (0..room).map(|_| UnsafeCell::new(MaybeUninit::uninit())).collect();
        Ring { slots, head: AtomicUsize::new(0), tail: AtomicUsize::new(0) }
    }

    fn push(&self, value: T) -> bool {
        let tail = self.tail.load(Ordering::Relaxed);
        if tail - self.head.load(Ordering::Acquire) == self.slots.len() {
            return false;
        }
        unsafe { (*self.slots[tail % self.slots.len()].get()).write(value) };
        self.tail.store(tail + 1, Ordering::Release);
        true
    }

    fn pop(&self) -> Option<T> {
        let head = self.head.load(Ordering::Relaxed);
        if head == self.tail.load(Ordering::Acquire) {
            return None;
        }
        let value = unsafe { (*self.slots[head % self.slots.len()].get()).assume_init_read() };
        self.head.store(head + 1, Ordering::Release);
        Some(value)
    }
}

fn run_core_lane(count: u64) -> u64 {
    let (sender, receiver) = sync_channel::<Item>(1024);
    let threads: Vec<_> = (0..3)
        .map(|seat| {
            let sender = sender.clone();
            thread::spawn(move || {
                for number in 0..count {
                    let what = What::Up(Life { own: number, peer: 1 });
                    sender.send(Item { seat, number: number + 1, now: 0, what }).unwrap();
                }
            })
        })
        .collect();
    drop(sender);
    let mut taken = 0;
    let mut sum = 0u64;
    while let Ok(item) = receiver.recv() {
        taken += 1;
        if let What::Up(life) = item.what {
            sum = sum.wrapping_add(life.own).wrapping_add(item.number);
        }
    }
    for thread in threads {
        thread.join().unwrap();
    }
    std::hint::black_box(sum);
    taken
}

fn run_out_lane(count: u64) -> u64 {
    let ring = Arc::new(Ring::<Cargo>::new(256));
    let theirs = ring.clone();
    let sender = thread::spawn(move || {
        let mut number = 0;
        while number < count {
            if theirs.push(Cargo::Cut(Life { own: number, peer: 1 })) {
                number += 1;
            } else {
                thread::yield_now();
            }
        }
    });
    let mut taken = 0;
    let mut sum = 0u64;
    while taken < count {
        match ring.pop() {
            Some(cargo) => {
                if let Cargo::Cut(life) = cargo {
                    sum = sum.wrapping_add(life.own).wrapping_add(life.peer);
                }
                taken += 1;
            }
            None => thread::yield_now(),
        }
    }
    sender.join().unwrap();
    std::hint::black_box(sum);
    taken
}

fn time(name: &str, run: impl Fn() -> u64) {
    let mut best = Duration::MAX;
    let mut count = 0;
    for _ in 0..RUNS {
        let start = Instant::now();
        count = run();
        best = best.min(start.elapsed());
    }
    println!("{name} {:.2} ns/op count {count}", best.as_nanos() as f64 / count as f64);
}

fn main() {
    let count = std::env::args().nth(1).and_then(|word| word.parse().ok()).unwrap_or(200_000);
    time("lane-core", || run_core_lane(count));
    time("lane-out", || run_out_lane(count));
}
