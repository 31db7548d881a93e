//! TORA's rules as a node carries them out: a step takes one input and gives the packets that it broadcasts.

use crate::packet::{fit, height_text, Entry, Height, Id, Level, Packet};

#[derive(Clone, Copy, Debug)]
pub enum Input {
    LinkUp(Id),
    LinkDown(Id),
    Packet(Id, Packet),
    Need(Id),
}

/// An input whose neighbour is named by its place in the sorted list.
#[derive(Clone, Copy, Debug)]
pub enum In {
    Up(u8),
    Down(u8),
    Packet(u8, Packet),
    Need(Id),
}

#[derive(Clone)]
pub struct Sends {
    n: usize,
    p: [Packet; 16],
}
impl Sends {
    pub fn new() -> Sends {
        Sends { n: 0, p: [Packet::Qry(1); 16] }
    }
    #[inline]
    fn push(&mut self, p: Packet) {
        self.p[self.n] = p;
        self.n += 1;
    }
    pub fn list(&self) -> &[Packet] {
        &self.p[..self.n]
    }
}

#[derive(Clone, Copy)]
struct View {
    h: Entry,
    flag: bool,
    e: [Entry; 8],
    told: u8,
    last: u64,
}
pub struct Core {
    me: Id,
    nb: Vec<Id>,
    up: u8,
    dests: Vec<Id>,
    v: Vec<View>,
}

impl View {
    #[inline]
    fn has_down(&self) -> bool {
        self.e.iter().flatten().any(|x| self.h.map_or(true, |h| *x < h))
    }
    fn least(&self) -> Entry {
        self.e.iter().flatten().min().copied()
    }
    fn fresh(&self, now: u64) -> u64 {
        let t = self.e.iter().flatten().chain(self.h.iter()).map(|x| x.tau + 1).max().unwrap_or(0);
        now.max(1).max(self.last + 1).max(t)
    }
    fn upd(&mut self, up: u8, d: Id, s: &mut Sends) {
        if let Some(h) = self.h {
            self.told = up;
            s.push(Packet::Upd(d, h));
        }
    }
    fn join(&mut self, me: Id, up: u8, d: Id, s: &mut Sends) {
        let m = self.least().expect("a non-NULL entry");
        self.h = fit(m.level(), m.delta as i64 + 1, me);
        self.flag = false;
        self.upd(up, d, s);
    }
    fn new_level(&mut self, me: Id, up: u8, d: Id, now: u64, s: &mut Sends) {
        let t = self.fresh(now);
        self.h = fit((t, me, 0), 0, me);
        if self.h.is_some() {
            self.last = t;
        }
        self.upd(up, d, s);
    }
    fn lost_link(&mut self, me: Id, up: u8, d: Id, now: u64, s: &mut Sends) {
        if self.h.is_none() || self.has_down() {
            return;
        }
        if self.least().is_none() {
            self.h = None
        } else {
            self.new_level(me, up, d, now, s)
        }
    }
    fn lost_update(&mut self, me: Id, up: u8, d: Id, now: u64, s: &mut Sends) {
        if self.h.is_none() || self.has_down() {
            return;
        }
        let max = self.e.iter().flatten().map(Height::level).max().expect("an entry");
        let min = self.e.iter().flatten().map(Height::level).min().expect("an entry");
        if max != min {
            let dl = self.e.iter().flatten().filter(|x| x.level() == max).map(|x| x.delta).min().unwrap();
            self.h = fit(max, dl as i64 - 1, me);
            self.upd(up, d, s);
        } else if max.2 == 0 {
            self.h = fit((max.0, max.1, 1), 0, me);
            self.upd(up, d, s);
        } else if max.1 == me {
            self.erase(max, d, s)
        } else {
            self.new_level(me, up, d, now, s)
        }
    }
    fn erase(&mut self, l: Level, d: Id, s: &mut Sends) {
        self.h = None;
        for x in self.e.iter_mut() {
            if x.map_or(false, |y| y.id != d) {
                *x = None
            }
        }
        s.push(Packet::Clr(d, l.0, l.1));
    }
}

impl Core {
    /// Errors: 2 TooMany, 3 Repeated, 4 OwnId.
    pub fn new(me: Id, nb: &[Id], dests: &[Id]) -> Result<Core, u8> {
        if nb.len() > 8 || dests.len() > 16 {
            return Err(2);
        }
        let (mut nb, mut dests) = (nb.to_vec(), dests.to_vec());
        nb.sort();
        dests.sort();
        if nb.windows(2).chain(dests.windows(2)).any(|w| w[0] == w[1]) {
            return Err(3);
        }
        if nb.contains(&me) {
            return Err(4);
        }
        let v = dests
            .iter()
            .map(|&d| View { h: (d == me).then(|| Height::zero(me)), flag: false, e: [None; 8], told: 0, last: 0 })
            .collect();
        Ok(Core { me, nb, up: 0, dests, v })
    }
    /// Errors: 1 UnknownNeighbour, 2 AlreadyUp, 3 NotUp, 4 WrongSender, 5 UnknownDestination.
    pub fn step(&mut self, i: Input, now: u64) -> Result<Sends, u8> {
        let mut s = Sends::new();
        let at = |k: Id| self.nb.iter().position(|&x| x == k).map(|x| x as u8).ok_or(1u8);
        let i = match i {
            Input::LinkUp(k) => In::Up(at(k)?),
            Input::LinkDown(k) => In::Down(at(k)?),
            Input::Packet(k, p) => In::Packet(at(k)?, p),
            Input::Need(d) => In::Need(d),
        };
        self.step_at(i, now, &mut s)?;
        Ok(s)
    }
    /// `step` with the neighbour named by its place; the sends go into `s`, which is emptied first.
    pub fn step_at(&mut self, i: In, now: u64, s: &mut Sends) -> Result<(), u8> {
        s.n = 0;
        let (me, up0) = (self.me, self.up);
        match i {
            In::Up(k) => {
                let (k, bit, kid) = (k as usize, 1u8 << k, self.nb[k as usize]);
                if up0 & bit != 0 {
                    return Err(2);
                }
                self.up |= bit;
                for (v, &d) in self.v.iter_mut().zip(&self.dests) {
                    if d == me {
                        continue;
                    }
                    v.told &= !bit;
                    if kid == d {
                        v.e[k] = Some(Height::zero(d));
                        if v.flag {
                            v.join(me, self.up, d, s)
                        }
                    } else {
                        v.e[k] = None;
                        if v.flag {
                            s.push(Packet::Qry(d))
                        }
                    }
                }
            }
            In::Down(k) => {
                let (k, bit) = (k as usize, 1u8 << k);
                if up0 & bit == 0 {
                    return Err(3);
                }
                self.up &= !bit;
                for (v, &d) in self.v.iter_mut().zip(&self.dests) {
                    if d == me {
                        continue;
                    }
                    v.told &= !bit;
                    v.e[k] = None;
                    v.lost_link(me, self.up, d, now, s);
                }
            }
            In::Packet(k, p) => {
                let (k, bit, kid) = (k as usize, 1u8 << k, self.nb[k as usize]);
                if up0 & bit == 0 {
                    return Err(3);
                }
                if let Packet::Upd(_, h) = p {
                    if h.id != kid {
                        return Err(4);
                    }
                }
                let d = p.dest();
                let n = match self.dests.binary_search(&d) {
                    Ok(n) => n,
                    Err(_) => return Ok(()),
                };
                if d == me {
                    return Ok(());
                }
                let v = &mut self.v[n];
                match p {
                    Packet::Qry(_) => match (v.has_down(), v.flag, v.h) {
                        (false, false, _) => {
                            v.flag = true;
                            s.push(p)
                        }
                        (false, true, _) => {}
                        (true, _, None) => v.join(me, up0, d, s),
                        (true, _, Some(_)) => {
                            if v.told & bit == 0 {
                                v.upd(up0, d, s)
                            }
                        }
                    },
                    Packet::Upd(_, g) => {
                        v.e[k] = Some(g);
                        if v.flag {
                            v.join(me, up0, d, s)
                        } else {
                            v.lost_update(me, up0, d, now, s)
                        }
                    }
                    Packet::Clr(_, t, o) => {
                        let l = (t, o, 1);
                        if v.h.map_or(false, |h| h.level() == l) {
                            v.erase(l, d, s)
                        } else {
                            for x in v.e.iter_mut() {
                                if x.map_or(false, |y| y.level() == l) {
                                    *x = None
                                }
                            }
                            v.lost_link(me, up0, d, now, s);
                        }
                    }
                }
            }
            In::Need(d) => {
                let n = self.dests.binary_search(&d).map_err(|_| 5u8)?;
                let v = &mut self.v[n];
                if d != me && !v.flag && v.least().is_none() {
                    v.flag = true;
                    s.push(Packet::Qry(d))
                }
            }
        }
        Ok(())
    }
    /// As new: no link up, no view changed.
    pub fn reset(&mut self) {
        self.up = 0;
        for (v, &d) in self.v.iter_mut().zip(&self.dests) {
            *v = View { h: (d == self.me).then(|| Height::zero(d)), flag: false, e: [None; 8], told: 0, last: 0 }
        }
    }
    pub fn neighbours(&self) -> &[Id] {
        &self.nb
    }
    pub fn height(&self, d: Id) -> Entry {
        self.dests.binary_search(&d).ok().and_then(|n| self.v[n].h)
    }
    pub fn next_hop(&self, d: Id) -> Option<Id> {
        let v = &self.v[self.dests.binary_search(&d).ok()?];
        v.e.iter().flatten().filter(|x| v.h.map_or(true, |h| **x < h)).min().map(|x| x.id)
    }
    pub fn ups(&self) -> impl Iterator<Item = Id> + '_ {
        self.nb.iter().enumerate().filter(|(k, _)| self.up >> k & 1 == 1).map(|(_, &x)| x)
    }
    pub fn show(&self) -> String {
        let mut o = String::new();
        for (v, &d) in self.v.iter().zip(&self.dests) {
            let hop = self.next_hop(d).map_or("-".into(), |x| x.to_string());
            o += &format!("to {} height {} flag {} hop {}\n", d, height_text(v.h), v.flag as u8, hop);
            for (k, &n) in self.nb.iter().enumerate() {
                if self.up >> k & 1 == 0 {
                    continue;
                }
                let s = match (v.h, v.e[k]) {
                    (_, None) => "none",
                    (None, _) => "down",
                    (Some(h), Some(x)) => {
                        if x < h {
                            "down"
                        } else if x > h {
                            "up"
                        } else {
                            "none"
                        }
                    }
                };
                o += &format!("via {} {} {}\n", n, height_text(v.e[k]), s);
            }
        }
        o
    }
}
