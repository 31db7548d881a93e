//! A world of nodes and links, and its rounds (`docs/simulation.md`). Nodes and link ends lie in vectors in ascending
//! order, so an end is named by its place; bit sets tell which nodes and ends have something to do.

#[macro_use]
mod bits;
mod node;

use crate::arq::{Event, Frame, Life, LinkEnd};
use crate::fifo::Fifo;
use crate::life::LifeFile;
use crate::{Core, Entry, Id, Packet, Sends};
use bits::Bits;
pub use node::Arm;
use node::{Cargo, Item, Log, Node, Outs, What, NEIGHBOURS, NODES};

pub const NO_NODE: u8 = 2;
pub const NO_DATAGRAM: u8 = 3;
pub const NOT_POSSIBLE: u8 = 4;
const DESTS: usize = 16;
const IN_LANE: usize = 1024;
const OUT_LANE: usize = 256;
const PASSES: usize = 1000;

#[derive(Clone, Copy)]
struct Datagram {
    to: u16, // the receiver's end
    frame: Frame,
}

struct End {
    node: u16,
    seat: u8,
    parted: bool,
    back: u16, // the other end of the link
}

pub struct Sim {
    pub rounds: u64,
    clock: u64,
    ids: Vec<Id>,
    dests: Vec<Id>,
    nodes: Vec<Node>,
    ends: Vec<End>,
    links: Vec<LinkEnd>,
    out: Vec<Fifo<Cargo>>,
    files: Vec<LifeFile>,
    sent: Vec<Log>,
    taken: Vec<Log>,
    datagrams: Vec<Datagram>,
    sends: Sends,
    closed: Bits,
    pulls: Bits,  // the lane has cargoes
    dues: Bits,   // a frame may be due
    events: Bits, // the end has events
    turns: u64,   // the node's lane has items
}

impl Sim {
    /// None for a topology that is refused.
    pub fn new(pairs: &[(Id, Id)], dests: &[Id], window: u32) -> Option<Sim> {
        let mut ids: Vec<Id> = pairs.iter().flat_map(|&(a, b)| [a, b]).collect();
        ids.sort();
        ids.dedup();
        let mut ordered: Vec<(Id, Id)> = pairs.iter().flat_map(|&(a, b)| [(a, b), (b, a)]).collect();
        ordered.sort();
        if ids.len() > NODES || dests.len() > DESTS || ordered.windows(2).any(|w| w[0] == w[1]) {
            return None; // a link to itself stands there twice
        }
        let place = |k: Id| ids.binary_search(&k).unwrap();
        let mut nodes = vec![];
        for (i, &n) in ids.iter().enumerate() {
            let first = ordered.partition_point(|x| place(x.0) < i);
            let near: Vec<Id> = ordered[first..].iter().take_while(|x| x.0 == n).map(|x| x.1).collect();
            let core = Core::new(n, &near, dests).ok()?;
            let none = [Life::default(); NEIGHBOURS];
            nodes.push(Node {
                first,
                core,
                lane: Fifo::new(IN_LANE),
                current: none,
                pending: none,
                is_current: 0,
                is_pending: 0,
                armed_send: None,
                armed_receive: false,
                inputs: vec![],
            });
        }
        let (mut ends, mut links, mut closed) = (vec![], vec![], Bits::default());
        for (e, &(n, k)) in ordered.iter().enumerate() {
            let node = place(n);
            let back = ordered.binary_search(&(k, n)).unwrap();
            ends.push(End { node: node as u16, seat: (e - nodes[node].first) as u8, parted: false, back: back as u16 });
            links.push(LinkEnd::new(k, window));
            closed.add(e);
        }
        let mut dests = dests.to_vec();
        dests.sort();
        let m = ends.len();
        Some(Sim {
            rounds: 0,
            clock: 0,
            ids,
            dests,
            nodes,
            ends,
            links,
            closed,
            sends: Sends::new(),
            out: (0..m).map(|_| Fifo::new(OUT_LANE)).collect(),
            files: vec![LifeFile::new(); m],
            sent: (0..m).map(|_| Log::default()).collect(),
            taken: (0..m).map(|_| Log::default()).collect(),
            datagrams: Vec::with_capacity(1 << 12),
            pulls: Bits::default(),
            dues: Bits::default(),
            events: Bits::default(),
            turns: 0,
        })
    }

    // What lines name.
    pub fn node(&self, n: Id) -> Result<usize, u8> {
        self.ids.binary_search(&n).map_err(|_| NO_NODE)
    }
    pub fn end(&self, n: Id, k: Id) -> Result<usize, u8> {
        let node = &self.nodes[self.node(n)?];
        Ok(node.first + node.core.neighbours().binary_search(&k).map_err(|_| NO_NODE)?)
    }
    pub fn has_dest(&self, d: Id) -> bool {
        self.dests.binary_search(&d).is_ok()
    }
    pub fn datagrams(&self) -> usize {
        self.datagrams.len()
    }
    pub fn stepped(&self) -> usize {
        self.nodes.iter().map(|n| n.inputs.len()).sum()
    }
    pub fn heights(&self, d: Id) -> impl Iterator<Item = (Id, Entry, Option<Id>)> + '_ {
        self.ids.iter().zip(&self.nodes).map(move |(&n, x)| (n, x.core.height(d), x.core.next_hop(d)))
    }
    pub fn sent(&self, e: usize, l: Life) -> &[Packet] {
        self.sent[e].of(l)
    }
    pub fn taken(&self, e: usize, l: Life) -> &[Packet] {
        self.taken[e].of(l)
    }
    pub fn part(&mut self, e: usize, parted: bool) {
        let back = self.ends[e].back as usize;
        self.ends[e].parted = parted;
        self.ends[back].parted = parted;
    }

    // The events.
    pub fn need(&mut self, i: usize, d: Id) -> Result<(), u8> {
        let item = Item { now: self.clock, seat: 0, what: What::Need(d) };
        self.into_lane(i, item)
    }
    #[inline]
    fn into_lane(&mut self, i: usize, x: Item) -> Result<(), u8> {
        let lane = &mut self.nodes[i].lane;
        if lane.is_full() {
            return Err(NOT_POSSIBLE);
        }
        lane.push(x);
        self.turns |= 1 << i;
        Ok(())
    }
    pub fn tick(&mut self) {
        self.clock += 1;
        for (e, l) in self.links.iter_mut().enumerate() {
            if l.on_tick(self.clock) {
                self.dues.add(e);
            }
            if l.is_closed() {
                self.closed.add(e);
                self.events.set(e, !l.events.is_empty());
            }
        }
    }
    pub fn open(&mut self, e: usize) -> Result<(), u8> {
        if !self.links[e].is_closed() {
            return Err(NOT_POSSIBLE);
        }
        if let Some(n) = self.files[e].draw() {
            self.links[e].open(n);
            self.dues.add(e);
            self.closed.drop(e);
        }
        Ok(())
    }
    /// After a call that may have changed what is due, the events or whether the end is closed.
    #[inline]
    fn touched(&mut self, e: usize) {
        let l = &self.links[e];
        self.dues.add(e);
        self.events.set(e, !l.events.is_empty());
        if l.is_closed() {
            self.closed.add(e);
        }
    }
    pub fn pull(&mut self, e: usize) -> Result<(), u8> {
        match self.out[e].pop() {
            None => return Err(NOT_POSSIBLE),
            Some(Cargo::Packet(l, p)) => self.links[e].submit(l, p),
            Some(Cargo::Cut(l)) => self.links[e].cut(l),
        }
        self.pulls.set(e, !self.out[e].is_empty());
        self.touched(e);
        Ok(())
    }
    pub fn transmit(&mut self, e: usize) -> Result<(), u8> {
        let frame = match self.links[e].poll_transmit(self.clock) {
            Some(frame) => frame,
            None => {
                self.dues.drop(e);
                return Err(NOT_POSSIBLE);
            }
        };
        let End { node, back, .. } = self.ends[e];
        if self.nodes[node as usize].armed_send.take() != Some(Arm::SendLost) {
            self.datagrams.push(Datagram { to: back, frame });
        }
        Ok(())
    }
    /// The datagram at the place i, from 0.
    pub fn deliver(&mut self, i: usize) -> Result<(), u8> {
        let d = self.datagrams.get(i).ok_or(NO_DATAGRAM)?;
        let to = d.to as usize;
        let node = &mut self.nodes[self.ends[to].node as usize];
        if std::mem::take(&mut node.armed_receive) {
            return Ok(());
        }
        self.links[to].on_frame(&d.frame, self.clock);
        self.touched(to);
        Ok(())
    }
    pub fn pump(&mut self, e: usize) -> Result<(), u8> {
        let End { node, seat, .. } = self.ends[e];
        let events = &mut self.links[e].events;
        if self.nodes[node as usize].lane.is_full() {
            return Err(NOT_POSSIBLE);
        }
        let what = match events.pop() {
            None => return Err(NOT_POSSIBLE),
            Some(Event::Up(l)) => What::Up(l),
            Some(Event::Deliver(l, p)) => What::Packet(l, p),
            Some(Event::Down(l, _)) => What::Down(l),
        };
        self.events.set(e, !events.is_empty());
        let now = self.clock;
        self.into_lane(node as usize, Item { now, seat, what })
    }
    pub fn turn(&mut self, i: usize) -> Result<(), u8> {
        let n = &mut self.nodes[i];
        let x = n.lane.pop().ok_or(NOT_POSSIBLE)?;
        if n.lane.is_empty() {
            self.turns &= !(1 << i);
        }
        let ends = n.first..n.first + n.core.neighbours().len();
        let mut o = Outs {
            first: n.first,
            lanes: &mut self.out[ends.clone()],
            sent: &mut self.sent[ends.clone()],
            pulls: &mut self.pulls,
        };
        n.serve(x, &mut self.sends, &mut o, &mut self.taken[ends]);
        Ok(())
    }
    pub fn arm(&mut self, i: usize, a: Arm) {
        let n = &mut self.nodes[i];
        match a {
            Arm::SendLost | Arm::SendGone => n.armed_send = Some(a),
            Arm::Receive => n.armed_receive = true,
            Arm::File(c) => {
                for f in &mut self.files[n.first..n.first + n.core.neighbours().len()] {
                    f.arm(c);
                }
            }
        }
    }
    pub fn restart(&mut self, i: usize, torn: Option<[u8; 16]>) {
        let n = &mut self.nodes[i];
        n.core.reset();
        n.lane.clear();
        (n.is_current, n.is_pending) = (0, 0);
        n.inputs.clear();
        self.turns &= !(1 << i);
        for e in n.first..n.first + n.core.neighbours().len() {
            self.links[e].reset();
            self.out[e].clear();
            self.files[e].crash(torn);
            self.pulls.drop(e);
            self.dues.drop(e);
            self.events.drop(e);
            self.closed.add(e);
        }
    }

    // Rounds.
    pub fn round(&mut self) {
        self.rounds += 1;
        self.tick();
        each!(self.closed, e, {
            let _ = self.open(e);
        });
        for _ in 0..PASSES {
            if !self.pass() {
                break;
            }
        }
    }
    /// Returns whether something happened.
    fn pass(&mut self) -> bool {
        let mut any = false;
        let mut turns = self.turns;
        while turns != 0 {
            let i = turns.trailing_zeros() as usize;
            turns &= turns - 1;
            while self.turn(i).is_ok() {
                any = true;
            }
        }
        each!(self.pulls, e, {
            while self.pull(e).is_ok() {
                any = true;
            }
        });
        let from = self.datagrams.len();
        each!(self.dues, e, {
            while self.transmit(e).is_ok() {
                any = true;
            }
        });
        for i in from..self.datagrams.len() {
            if !self.ends[self.datagrams[i].to as usize].parted {
                let _ = self.deliver(i);
                any = true;
            }
        }
        each!(self.events, e, {
            while self.pump(e).is_ok() {
                any = true;
            }
        });
        any
    }
}

#[cfg(test)]
mod tests;
