//! `base bench`: nanoseconds for the codec and for a step of the core.

use base::{decode, encode, mix, Core, Height, Id, Input, Packet};
use std::arch::asm;
use std::time::Instant;

pub const SEED: u64 = 88172645463325252;

/// As `std::hint::black_box`, which Debian's compiler does not have yet.
#[inline(always)]
fn black_box<T: Copy>(mut x: T) -> T {
    // SAFETY: the assembly is empty; it only keeps the compiler from knowing what `x` is afterwards.
    unsafe { asm!("/* {0} */", in(reg) &mut x, options(nostack, preserves_flags)) };
    x
}

fn best(label: &str, ops: usize, mut f: impl FnMut() -> u64) {
    let mut t: Vec<f64> = vec![];
    let mut sum = 0;
    for _ in 0..7 {
        let s = Instant::now();
        sum = f();
        t.push(s.elapsed().as_secs_f64())
    }
    t.sort_by(f64::total_cmp);
    println!(
        "{label:34} {:8.2} Mops/s best {:8.2} median  {:7.2} ns/op best  spread {:4.1}%  check {sum:016x}",
        ops as f64 / t[0] / 1e6,
        ops as f64 / t[3] / 1e6,
        t[0] / ops as f64 * 1e9,
        (t[6] / t[0] - 1.0) * 100.0
    );
}
fn fold(h: u64, p: &Packet) -> u64 {
    let mut b = [0; 32];
    let n = encode(p, &mut b);
    b[..n].iter().fold(h, |h, &x| (h ^ x as u64).wrapping_mul(0x100000001b3))
}
fn fresh() -> Core {
    Core::new(100, &[1, 2, 3, 4, 5, 6, 7, 8], &(5..=20).collect::<Vec<_>>()).unwrap()
}
/// Prints a line for each mix of inputs.
pub fn bench(ops: usize) {
    let ups: Vec<Packet> = mix(4096, 1 + SEED)
        .iter()
        .filter_map(|x| if let Input::Packet(_, p @ Packet::Upd(..)) = x.1 { Some(p) } else { None })
        .take(1024)
        .collect();
    best("codec: UPD encode+decode", ops * 4, || {
        let mut h = 0u64;
        for i in 0..ops * 4 {
            let mut b = [0u8; 32];
            let k = encode(black_box(&ups[i & 1023 % ups.len()]), &mut b);
            if let Ok(Packet::Upd(d, x)) = decode(black_box(&b[..k])) {
                h = h.wrapping_add(x.tau ^ d as u64)
            }
        }
        h
    });
    let w = mix(ops, 1 + SEED);
    best("core: mixed inputs (gen-mix)", w.len(), || {
        let mut c = fresh();
        let mut h = 0xcbf29ce484222325u64;
        for (t, i) in &w {
            match c.step(*i, *t) {
                Ok(s) => {
                    for p in s.list() {
                        h = fold(h, p)
                    }
                }
                Err(e) => h = h.wrapping_mul(31).wrapping_add(e as u64),
            }
        }
        h
    });
    best("core: quiet UPD (no send)", ops, || {
        let mut c = fresh();
        for k in 1..=8 {
            c.step(Input::LinkUp(k), 0).unwrap();
        }
        for d in 9..=20 {
            c.step(Input::Need(d), 0).unwrap();
            c.step(Input::Packet(1, Packet::Upd(d, Height { tau: 0, oid: 0, r: 0, delta: 1, id: 1 })), 0).unwrap();
        }
        let mut h = 0u64;
        for i in 0..ops {
            let k = 2 + (i % 7) as Id;
            let d = 9 + (i % 12) as Id;
            h += c
                .step(
                    Input::Packet(k, Packet::Upd(d, Height { tau: 0, oid: 0, r: 0, delta: 2 + (i % 5) as i32, id: k })),
                    1,
                )
                .unwrap()
                .list()
                .len() as u64
        }
        h
    });
    best("core: reacting UPD (case 2, 1 send)", ops, || {
        let mut c = Core::new(100, &[1, 2, 3, 4, 5, 6, 7, 8], &[20]).unwrap();
        for k in 1..=8 {
            c.step(Input::LinkUp(k), 0).unwrap();
        }
        c.step(Input::Need(20), 0).unwrap();
        let mut h = 0u64;
        for i in 0..ops {
            // two neighbours overtake each other: every second UPD takes the last downstream link away
            let k = 1 + (i % 2) as Id;
            let x = Height { tau: 1 + i as u64, oid: 1 + (i % 3) as u32, r: 0, delta: 0, id: k };
            h += c.step(Input::Packet(k, Packet::Upd(20, x)), 1).unwrap().list().len() as u64
        }
        h
    });
    best("core: LinkDown+LinkUp, 16 dests", ops / 4, || {
        let mut c = fresh();
        for k in 1..=8 {
            c.step(Input::LinkUp(k), 0).unwrap();
        }
        for d in 9..=20 {
            c.step(Input::Need(d), 0).unwrap();
            c.step(Input::Packet(1, Packet::Upd(d, Height { tau: 0, oid: 0, r: 0, delta: 1, id: 1 })), 0).unwrap();
        }
        let mut h = 0u64;
        for i in 0..ops / 8 {
            h += c.step(Input::LinkDown(8), i as u64).unwrap().list().len() as u64;
            h += c.step(Input::LinkUp(8), i as u64).unwrap().list().len() as u64
        }
        h
    });
}
