//! Cores joined by queues in order, for counts of packets.

use crate::packet::{Id, Packet};
use crate::rules::{Core, Input};

/// Cores joined by in-order queues (links never lose); for packet counts against ns-2.
pub struct Net {
    pub cores: Vec<Core>,
    pub nb: Vec<Vec<usize>>,
    pub q: std::collections::VecDeque<(usize, usize, Packet)>,
    pub log: Vec<(usize, Packet)>,
}
impl Net {
    pub fn of(n: usize, links: &[(usize, usize)], dests: &[Id]) -> Net {
        let mut nb = vec![vec![]; n];
        for &(a, b) in links {
            nb[a].push(b);
            nb[b].push(a)
        }
        let cores = (0..n)
            .map(|i| Core::new(i as Id + 1, &nb[i].iter().map(|&x| x as Id + 1).collect::<Vec<_>>(), dests).unwrap())
            .collect();
        let mut net = Net { cores, nb, q: Default::default(), log: vec![] };
        for &(a, b) in links {
            net.step(a, Input::LinkUp(b as Id + 1), 0);
            net.step(b, Input::LinkUp(a as Id + 1), 0)
        }
        net
    }
    pub fn line(n: usize, d: Id) -> Net {
        Net::of(n, &(1..n).map(|i| (i - 1, i)).collect::<Vec<_>>(), &[d])
    }
    pub fn grid(w: usize, d: Id) -> Net {
        let mut l = vec![];
        for y in 0..w {
            for x in 0..w {
                if x + 1 < w {
                    l.push((y * w + x, y * w + x + 1))
                }
                if y + 1 < w {
                    l.push((y * w + x, y * w + x + w))
                }
            }
        }
        Net::of(w * w, &l, &[d])
    }
    pub fn step(&mut self, i: usize, inp: Input, now: u64) {
        let s = self.cores[i].step(inp, now).unwrap();
        for p in s.list() {
            self.log.push((i, *p));
            let to: Vec<Id> = self.cores[i].ups().collect();
            for k in to {
                self.q.push_back((i, k as usize - 1, *p))
            }
        }
    }
    pub fn settle(&mut self, now: u64) {
        while let Some((a, b, p)) = self.q.pop_front() {
            if self.cores[b].ups().any(|x| x == a as Id + 1) {
                self.step(b, Input::Packet(a as Id + 1, p), now)
            }
        }
    }
    pub fn cut(&mut self, a: usize, b: usize, now: u64) {
        self.step(a, Input::LinkDown(b as Id + 1), now);
        self.step(b, Input::LinkDown(a as Id + 1), now)
    }
}
