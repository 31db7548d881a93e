//! `base bench-sim`: simulation files of several networks, a hundred times each.

use base::text;
use std::time::Instant;

/// The file of KIND N [DESTS].
pub fn case(a: &[String]) -> Option<String> {
    let n: Vec<u32> = a.iter().skip(1).map(|x| x.parse().ok()).collect::<Option<_>>()?;
    match n[..] {
        [n] => text::gen_sim(&a[0], n, 1),
        [n, dests] => text::gen_sim(&a[0], n, dests),
        _ => None,
    }
}

/// Runs each case in a process of its own, so that its peak memory is told apart.
pub fn bench_sim(a: &[String]) {
    if a.is_empty() {
        println!(
            "{:10} {:>10} {:>10} {:>7} {:>10} {:>12} {:>11} {:>9}  check",
            "case", "best s", "median s", "rounds", "datagrams", "ns/datagram", "us/round", "peak kB"
        );
        for c in ["line 64", "grid 8", "star 9", "grid 8 16"] {
            let me = std::env::current_exe().unwrap();
            std::process::Command::new(me).arg("bench-sim").args(c.split(' ')).status().unwrap();
        }
        return;
    }
    let file = case(a).expect("KIND N [DESTS]");
    let run = || {
        let (t, mut o) = (Instant::now(), Vec::new());
        let (s, fault) = text::simulate(file.as_bytes(), 32, &mut o).unwrap();
        let t = t.elapsed().as_secs_f64();
        assert!(fault.is_none());
        let check = o.iter().fold(0xcbf29ce484222325u64, |h, &x| (h ^ x as u64).wrapping_mul(0x100000001b3));
        let s = s.unwrap();
        (t, s.rounds, s.datagrams(), check)
    };
    let first = run();
    let peak = std::fs::read_to_string("/proc/self/status").unwrap();
    let peak = peak.lines().find_map(|l| l.strip_prefix("VmHWM:")).unwrap().trim().trim_end_matches(" kB").to_string();
    let mut t: Vec<f64> = (0..100).map(|_| run().0).collect();
    t.push(first.0);
    t.sort_by(f64::total_cmp);
    let (best, median) = (t[0], t[t.len() / 2]);
    println!(
        "{:10} {best:10.5} {median:10.5} {:7} {:10} {:12.1} {:11.2} {peak:>9}  {:016x}",
        a.join(" "),
        first.1,
        first.2,
        best / first.2 as f64 * 1e9,
        best / first.1 as f64 * 1e6,
        first.3
    );
}
