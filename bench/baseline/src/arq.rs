//! A link end (`docs/explanation/links.md`) with frames of version 1, for a clock that never goes back.

use crate::fifo::Fifo;
use crate::{Id, Packet};

const HELLO: u64 = 10;
const SILENT: u64 = 50;
const RETRY: u64 = 5;
const TRIES: u8 = 8;
const EVENTS: usize = 64;
const QUEUE: usize = 256;
const NEVER: u64 = u64::MAX;

#[derive(Clone, Copy, PartialEq, Eq, Debug, Default)]
pub struct Life {
    pub own: u64,
    pub peer: u64,
}

#[derive(Clone, Copy, Debug)]
pub enum Body {
    Hello,
    Data { number: u64, count: u64, packet: Packet },
    Ack(u64),
}

/// Sender and receiver are known from the link that it goes over.
#[derive(Clone, Copy, Debug)]
pub struct Frame {
    pub life: u64,
    pub heard: u64,
    pub body: Body,
}

#[derive(Clone, Copy, Debug)]
pub enum Event {
    Up(Life),
    Deliver(Life, Packet),
    Down(Life, Reason),
}

#[derive(Clone, Copy, PartialEq, Debug)]
pub enum Reason {
    Silent = 1,
    NewPeer,
    Full,
    Cut,
}

#[derive(Clone, Copy, PartialEq, Debug)]
pub enum Verdict {
    Accepted,
    Repeated,
    Ahead,
    Stale,
    Foreign,
    Busy,
}
use Verdict::*;

#[derive(Clone, Copy)]
struct Slot {
    packet: Packet,
    last: u64,
    tries: u8,
}

pub struct LinkEnd {
    own: u64,   // 0: closed
    bound: u64, // 0: unbound
    heard: u64,
    acked: u64,
    transmitted: u64,
    accepted: u64,
    last_heard: u64,
    hello_at: u64, // the next HELLO by time
    retry_at: u64, // no packet is due again before this tick
    over_at: u64,  // the life does not end by time before this tick
    owe_hello: bool,
    owe_ack: bool,
    window: u32,
    held_set: u32, // held packet n has bit and place n % 32
    peer: Id,
    queue: Fifo<Slot>, // from acked + 1 on; those up to `transmitted` were tried
    pub events: Fifo<Event>,
    held: Box<[Packet; 32]>,
}

impl LinkEnd {
    pub fn new(peer: Id, window: u32) -> LinkEnd {
        let held = Box::new([Packet::Qry(1); 32]);
        let (queue, events) = (Fifo::new(QUEUE), Fifo::new(EVENTS));
        let mut e = LinkEnd {
            own: 0,
            bound: 0,
            heard: 0,
            acked: 0,
            transmitted: 0,
            accepted: 0,
            last_heard: 0,
            hello_at: NEVER,
            retry_at: NEVER,
            over_at: NEVER,
            owe_hello: false,
            owe_ack: false,
            window,
            held_set: 0,
            peer,
            queue,
            events,
            held,
        };
        e.close();
        e
    }
    pub fn reset(&mut self) {
        self.close();
        self.events.clear();
    }
    fn close(&mut self) {
        (self.own, self.bound, self.heard) = (0, 0, 0);
        (self.acked, self.transmitted, self.accepted) = (0, 0, 0);
        (self.hello_at, self.retry_at, self.over_at) = (NEVER, NEVER, NEVER);
        (self.owe_hello, self.owe_ack, self.held_set) = (false, false, 0);
        self.queue.clear();
    }
    #[inline]
    pub fn is_closed(&self) -> bool {
        self.own == 0
    }
    #[inline]
    fn life(&self) -> Life {
        Life { own: self.own, peer: self.bound }
    }
    #[inline]
    fn is_life(&self, l: Life) -> bool {
        self.bound != 0 && l == self.life()
    }
    fn end(&mut self, r: Reason) {
        self.events.push(Event::Down(self.life(), r));
        self.close();
    }
    /// The end must be closed.
    pub fn open(&mut self, own: u64) {
        self.own = own;
        self.owe_hello = true;
    }
    pub fn on_frame(&mut self, f: &Frame, now: u64) -> Verdict {
        let count = match f.body {
            Body::Hello => 0,
            Body::Ack(c) => c,
            Body::Data { count, packet, .. } => {
                if matches!(packet, Packet::Upd(_, h) if h.id != self.peer) {
                    return Foreign;
                }
                count
            }
        };
        if EVENTS - self.events.len() < 34 {
            return Busy;
        }
        if self.own == 0 {
            return Stale;
        }
        if self.bound != 0 && f.life != self.bound {
            if f.life < self.bound {
                return Stale;
            }
            self.end(Reason::NewPeer);
            return Accepted;
        }
        if f.heard != self.own {
            if self.bound != 0 || !matches!(f.body, Body::Hello) || f.life < self.heard {
                return Stale;
            }
            if f.life > self.heard {
                self.heard = f.life;
                self.owe_hello = true;
            }
            return Accepted;
        }
        if count > self.transmitted {
            return Foreign;
        }
        let binds = self.bound == 0;
        if binds {
            if f.life < self.heard {
                return Stale;
            }
            self.bound = f.life;
            self.owe_hello |= f.life != self.heard;
            self.heard = f.life;
            self.over_at = now + SILENT;
            self.events.push(Event::Up(self.life()));
        }
        self.last_heard = now;
        let grew = count > self.acked;
        if grew {
            self.queue.skip((count - self.acked) as usize);
            self.acked = count;
        }
        match f.body {
            Body::Hello => Accepted,
            Body::Ack(_) if grew || binds => Accepted,
            Body::Ack(_) => Repeated,
            Body::Data { number, packet, .. } => self.on_data(number, packet),
        }
    }
    #[inline]
    fn on_data(&mut self, n: u64, p: Packet) -> Verdict {
        self.owe_ack = true;
        if n <= self.accepted {
            return Repeated;
        }
        if n > self.accepted + 1 {
            let bit = 1u32 << (n % 32);
            if n <= self.accepted + self.window as u64 && self.held_set & bit == 0 {
                self.held_set |= bit;
                self.held[n as usize % 32] = p;
            }
            return Ahead;
        }
        let life = self.life();
        self.events.push(Event::Deliver(life, p));
        self.accepted = n;
        while self.held_set != 0 {
            let at = (self.accepted + 1) as usize % 32;
            if self.held_set >> at & 1 == 0 {
                break;
            }
            self.held_set &= !(1 << at);
            self.accepted += 1;
            self.events.push(Event::Deliver(life, self.held[at]));
        }
        Accepted
    }
    /// Ends the life if its time is over, and returns whether a frame may be due.
    #[inline]
    pub fn on_tick(&mut self, now: u64) -> bool {
        if now >= self.over_at {
            self.late(now);
        }
        now >= self.hello_at || now >= self.retry_at
    }
    #[cold]
    fn late(&mut self, now: u64) {
        if now - self.last_heard >= SILENT {
            return self.end(Reason::Silent);
        }
        let mut at = self.last_heard + SILENT;
        for s in self.queue.items().iter().filter(|s| s.tries >= TRIES) {
            at = at.min(s.last + RETRY);
        }
        if now >= at {
            return self.end(Reason::Silent);
        }
        self.over_at = at;
    }
    pub fn submit(&mut self, life: Life, packet: Packet) {
        if !self.is_life(life) {
            return;
        }
        if self.queue.is_full() {
            return self.end(Reason::Full);
        }
        self.queue.push(Slot { packet, last: 0, tries: 0 });
    }
    pub fn cut(&mut self, life: Life) {
        if self.is_life(life) {
            self.end(Reason::Cut);
        }
    }
    pub fn poll_transmit(&mut self, now: u64) -> Option<Frame> {
        if self.own == 0 {
            return None;
        }
        if self.owe_hello || now >= self.hello_at {
            self.owe_hello = false;
            self.hello_at = now + HELLO;
            return Some(Frame { life: self.own, heard: self.heard, body: Body::Hello });
        }
        if let Some(j) = self.due(now) {
            let s = &mut self.queue.items()[j];
            s.tries += 1;
            s.last = now;
            if s.tries == TRIES {
                self.over_at = self.over_at.min(now + RETRY);
            } else {
                self.retry_at = self.retry_at.min(now + RETRY);
            }
            let (number, packet) = (self.acked + 1 + j as u64, s.packet);
            self.transmitted = self.transmitted.max(number);
            self.owe_ack = false;
            let body = Body::Data { number, count: self.accepted, packet };
            return Some(Frame { life: self.own, heard: self.bound, body });
        }
        if self.owe_ack {
            self.owe_ack = false;
            return Some(Frame { life: self.own, heard: self.bound, body: Body::Ack(self.accepted) });
        }
        None
    }
    /// The place of the packet with the least number that is due. Packets go first in the order of their numbers, so
    /// those never sent are the last ones.
    #[inline]
    fn due(&mut self, now: u64) -> Option<usize> {
        let tried = (self.transmitted - self.acked) as usize;
        if now >= self.retry_at {
            let mut at = NEVER;
            for (j, s) in self.queue.items()[..tried].iter().enumerate() {
                if s.tries < TRIES {
                    if now - s.last >= RETRY {
                        return Some(j);
                    }
                    at = at.min(s.last + RETRY);
                }
            }
            self.retry_at = at;
        }
        (tried < self.queue.len().min(self.window as usize)).then_some(tried)
    }
}

#[cfg(test)]
mod tests;
