//! A node between its lanes: what it does with one item, and the packets that passed each of its ends.

use super::bits::Bits;
use crate::arq::Life;
use crate::fifo::Fifo;
use crate::life::Call;
use crate::{Core, Id, In, Packet, Sends};

pub(super) const NODES: usize = 64;
pub(super) const NEIGHBOURS: usize = 8;

#[derive(Clone, Copy)]
pub(super) enum What {
    Up(Life),
    Packet(Life, Packet),
    Down(Life),
    Need(Id),
}
#[derive(Clone, Copy)]
pub(super) struct Item {
    pub(super) now: u64,
    pub(super) seat: u8,
    pub(super) what: What,
}
#[derive(Clone, Copy)]
pub(super) enum Cargo {
    Packet(Life, Packet),
    Cut(Life),
}
#[derive(Clone, Copy, PartialEq)]
pub enum Arm {
    SendLost,
    SendGone,
    Receive,
    File(Call),
}

/// Packets by life; those of one life stand together, since a core never goes back to a life.
#[derive(Default)]
pub(super) struct Log {
    pub(super) packets: Vec<Packet>,
    pub(super) lives: Vec<(Life, usize)>,
}
impl Log {
    #[inline]
    pub(super) fn push(&mut self, l: Life, p: Packet) {
        if self.lives.last().map_or(true, |x| x.0 != l) {
            self.lives.push((l, self.packets.len()));
        }
        self.packets.push(p);
    }
    pub(super) fn of(&self, l: Life) -> &[Packet] {
        match self.lives.iter().position(|x| x.0 == l) {
            None => &[],
            Some(i) => &self.packets[self.lives[i].1..self.lives.get(i + 1).map_or(self.packets.len(), |x| x.1)],
        }
    }
}

pub(super) struct Node {
    pub(super) first: usize, // its ends are first .. first + neighbours
    pub(super) core: Core,
    pub(super) lane: Fifo<Item>,
    pub(super) current: [Life; NEIGHBOURS],
    pub(super) pending: [Life; NEIGHBOURS],
    pub(super) is_current: u8,
    pub(super) is_pending: u8,
    pub(super) armed_send: Option<Arm>,
    pub(super) armed_receive: bool,
    pub(super) inputs: Vec<(u64, In)>, // stepped since the last restart
}
/// The lanes out of one node.
pub(super) struct Outs<'a> {
    pub(super) first: usize,
    pub(super) lanes: &'a mut [Fifo<Cargo>],
    pub(super) sent: &'a mut [Log],
    pub(super) pulls: &'a mut Bits,
}
impl Outs<'_> {
    #[inline]
    pub(super) fn put(&mut self, j: usize, c: Cargo) -> bool {
        let lane = &mut self.lanes[j];
        if lane.is_full() {
            return false;
        }
        lane.push(c);
        if let Cargo::Packet(l, p) = c {
            self.sent[j].push(l, p);
        }
        self.pulls.add(self.first + j);
        true
    }
}

impl Node {
    /// Steps one input and sends; then each neighbour whose lane was full goes down.
    pub(super) fn step(&mut self, i: In, now: u64, s: &mut Sends, o: &mut Outs) {
        if self.core.step_at(i, now, s).is_err() {
            return;
        }
        self.inputs.push((now, i));
        let mut cut = self.send(s, o);
        while cut != 0 {
            let i = In::Down(cut.trailing_zeros() as u8);
            cut &= cut - 1;
            self.core.step_at(i, now, s).expect("an up neighbour");
            self.inputs.push((now, i));
            cut |= self.send(s, o);
        }
    }
    /// Returns the neighbours whose lane was full.
    #[inline]
    pub(super) fn send(&mut self, s: &Sends, o: &mut Outs) -> u8 {
        let mut cut = 0;
        for &p in s.list() {
            let mut left = self.is_current;
            while left != 0 {
                let (j, bit) = (left.trailing_zeros() as usize, left & left.wrapping_neg());
                left &= left - 1;
                if !o.put(j, Cargo::Packet(self.current[j], p)) {
                    self.pending[j] = self.current[j];
                    self.is_pending |= bit;
                    self.is_current &= !bit;
                    cut |= bit;
                }
            }
        }
        cut
    }
    pub(super) fn serve(&mut self, x: Item, s: &mut Sends, o: &mut Outs, taken: &mut [Log]) {
        let mut left = self.is_pending;
        while left != 0 {
            let j = left.trailing_zeros() as usize;
            left &= left - 1;
            if o.put(j, Cargo::Cut(self.pending[j])) {
                self.is_pending &= !(1 << j);
            }
        }
        let (j, bit) = (x.seat as usize, 1u8 << (x.seat & 7));
        match x.what {
            What::Need(d) => self.step(In::Need(d), x.now, s, o),
            What::Up(l) => {
                if self.is_current & bit != 0 {
                    self.is_current &= !bit;
                    self.step(In::Down(x.seat), x.now, s, o);
                }
                self.is_current |= bit;
                self.current[j] = l;
                self.step(In::Up(x.seat), x.now, s, o);
            }
            What::Packet(l, p) => {
                if self.is_current & bit != 0 && self.current[j] == l {
                    taken[j].push(l, p);
                    self.step(In::Packet(x.seat, p), x.now, s, o);
                }
            }
            What::Down(l) => {
                if self.is_current & bit != 0 && self.current[j] == l {
                    self.is_current &= !bit;
                    self.step(In::Down(x.seat), x.now, s, o);
                } else if self.is_pending & bit != 0 && self.pending[j] == l {
                    self.is_pending &= !bit;
                }
            }
        }
    }
}
