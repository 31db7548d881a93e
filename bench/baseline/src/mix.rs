//! Mixed inputs for `bench` and `gen-mix`, from a seed.

use crate::packet::{Height, Id, Packet};
use crate::replay::packet_hex;
use crate::rules::Input;

pub struct Rng(pub u64);
impl Rng {
    pub fn next(&mut self) -> u64 {
        self.0 ^= self.0 << 13;
        self.0 ^= self.0 >> 7;
        self.0 ^= self.0 << 17;
        self.0
    }
    pub fn below(&mut self, n: u64) -> u64 {
        (self.next() >> 11) % n
    }
}

/// Inputs of node 100 with neighbours 1 to 8 and destinations 5 to 20: about 70 % UPD, 12 % QRY, 8 % CLR, 5 % links up
/// or down, 5 % needs.
pub fn mix(n: usize, seed: u64) -> Vec<(u64, Input)> {
    let (mut r, mut up, mut v) = (Rng(seed), [false; 8], vec![]);
    for k in 0..8 {
        up[k] = true;
        v.push((0, Input::LinkUp(k as Id + 1)))
    }
    let mut now = 1;
    while v.len() < n {
        now += r.below(3);
        let (k, d) = (r.below(8) as usize, 5 + r.below(16) as Id);
        let kid = k as Id + 1;
        let i = match r.below(100) {
            0..=4 => {
                up[k] = !up[k];
                if up[k] {
                    Input::LinkUp(kid)
                } else {
                    Input::LinkDown(kid)
                }
            }
            5..=9 => Input::Need(d),
            x => {
                if !up[k] {
                    continue;
                }
                let t = now.saturating_sub(r.below(12));
                let o = 1 + r.below(9) as u32;
                let o = if o == 9 { 100 } else { o };
                Input::Packet(
                    kid,
                    if x < 22 {
                        Packet::Qry(d)
                    } else if x < 30 {
                        Packet::Clr(d, t.max(1), o)
                    } else {
                        if kid == d {
                            continue;
                        }
                        let z = t == 0 || r.below(4) == 0;
                        let h = if z {
                            Height { tau: 0, oid: 0, r: 0, delta: 1 + r.below(9) as i32, id: kid }
                        } else {
                            Height { tau: t, oid: o, r: r.below(2) as u8, delta: r.below(9) as i32 - 4, id: kid }
                        };
                        Packet::Upd(d, h)
                    },
                )
            }
        };
        v.push((now, i));
    }
    v
}
pub fn mix_text(v: &[(u64, Input)]) -> String {
    let mut s = String::from("node 100 links 1,2,3,4,5,6,7,8 dests 5,6,7,8,9,10,11,12,13,14,15,16,17,18,19,20\n");
    for (t, i) in v {
        s += &match i {
            Input::LinkUp(k) => format!("{t} up {k}\n"),
            Input::LinkDown(k) => format!("{t} down {k}\n"),
            Input::Need(d) => format!("{t} need {d}\n"),
            Input::Packet(k, p) => format!("{t} from {k} {}\n", packet_hex(p)),
        }
    }
    s += &format!("{} show\n", v.last().map_or(0, |x| x.0));
    s
}
