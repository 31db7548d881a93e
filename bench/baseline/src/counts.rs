//! `base counts`: packets for a first route, and after every link of the destination is gone.

use base::{Id, Input, Net, Packet};
use std::time::Instant;

/// Prints a line for each network.
pub fn counts() {
    println!(
        "{:6} {:>4} {:>6} {:>6} | after the destination's links go: {:>6} {:>6} {:>6}",
        "shape", "N", "QRY", "UPD", "UPD", "CLR", "left"
    );
    let run = |name: &str, mut net: Net, d: usize| {
        net.step(0, Input::Need(d as Id), 1);
        net.settle(1);
        let q = net.log.iter().filter(|x| matches!(x.1, Packet::Qry(_))).count();
        let u = net.log.iter().filter(|x| matches!(x.1, Packet::Upd(..))).count();
        net.log.clear();
        let t = Instant::now();
        for k in net.nb[d - 1].clone() {
            net.cut(d - 1, k, 7);
        }
        net.settle(8);
        let u2 = net.log.iter().filter(|x| matches!(x.1, Packet::Upd(..))).count();
        let c2 = net.log.iter().filter(|x| matches!(x.1, Packet::Clr(..))).count();
        let left = net.cores.iter().filter(|c| c.height(d as Id).is_some()).count() - 1;
        println!(
            "{name:6} {d:4} {q:6} {u:6} |                                 {u2:6} {c2:6} {left:6}  ({:.0} us)",
            t.elapsed().as_secs_f64() * 1e6
        );
    };
    for k in [4, 10, 20, 50, 64] {
        run("line", Net::line(k, k as Id), k)
    }
    for w in [3, 4, 5, 7, 8, 10] {
        run("grid", Net::grid(w, (w * w) as Id), w * w)
    }
}
