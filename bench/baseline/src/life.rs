//! Life files of version 1 (`docs/formats.md`, "Life files") on a disk in memory.

const TOP: u64 = 1 << 62;

#[derive(Clone, Copy, PartialEq)]
pub enum Call {
    Read = 1,
    Write = 2,
    Sync = 4,
}

/// What a read gives, what the last sync kept, which bytes were written (or tried) since.
#[derive(Clone)]
struct MemDisk {
    data: [u8; 32],
    len: usize,
    kept: [u8; 32],
    kept_len: usize,
    unsynced: u32,
    armed: u8,
}

impl MemDisk {
    fn fails(&mut self, c: Call) -> bool {
        let f = self.armed & c as u8 != 0;
        self.armed &= !(c as u8);
        f
    }
    /// Writes one slot.
    fn write(&mut self, slot: usize, bound: u64) -> bool {
        let at = 16 * slot;
        self.unsynced |= 0xffff << at;
        if self.fails(Call::Write) {
            return false;
        }
        self.data[at..at + 8].copy_from_slice(&bound.to_be_bytes());
        self.data[at + 8..at + 16].copy_from_slice(&(!bound).to_be_bytes());
        self.len = self.len.max(at + 16);
        true
    }
    fn sync(&mut self) -> bool {
        if self.fails(Call::Sync) {
            return false;
        }
        self.kept = self.data;
        self.kept_len = self.len;
        self.unsynced = 0;
        true
    }
    fn crash(&mut self, torn: Option<[u8; 16]>) {
        match torn {
            None => {
                self.data = self.kept;
                self.len = self.kept_len;
            }
            Some(t) => {
                for i in 0..32 {
                    if self.unsynced >> i & 1 == 1 {
                        self.data[i] = t[i % 16];
                        self.len = self.len.max(i + 1);
                    }
                }
            }
        }
    }
    /// A slot that is not complementary, or not wholly there, counts as 0.
    fn slot(&self, s: usize) -> u64 {
        let word = |i: usize| u64::from_be_bytes(self.data[i..i + 8].try_into().unwrap());
        let (v, c) = (word(16 * s), word(16 * s + 8));
        if self.len >= 16 * s + 16 && c == !v {
            v
        } else {
            0
        }
    }
}

#[derive(Clone, Copy, PartialEq)]
enum State {
    Unopened,
    Opened,
    Failed,
}

#[derive(Clone)]
pub struct LifeFile {
    disk: MemDisk,
    state: State,
    slots: [u64; 2],
    value: u64,
    left: u64,
}

impl LifeFile {
    /// An empty disk, opened.
    pub fn new() -> LifeFile {
        let disk = MemDisk { data: [0; 32], len: 0, kept: [0; 32], kept_len: 0, unsynced: 0, armed: 0 };
        let mut f = LifeFile { disk, state: State::Unopened, slots: [0; 2], value: 0, left: 0 };
        f.open();
        f
    }
    fn open(&mut self) {
        self.state = State::Unopened;
        if self.disk.sync() && !self.disk.fails(Call::Read) {
            self.slots = [self.disk.slot(0), self.disk.slot(1)];
            self.value = self.slots[0].max(self.slots[1]);
            self.left = 0;
            self.state = State::Opened;
        }
    }
    /// None where the file did not open, or a call to the disk fails.
    pub fn draw(&mut self) -> Option<u64> {
        if self.state != State::Opened {
            return None;
        }
        if self.left == 0 {
            if self.value > TOP - 16 {
                return None;
            }
            let (s, bound) = ((self.slots[1] < self.slots[0]) as usize, self.value + 16);
            if !(self.disk.write(s, bound) && self.disk.sync()) {
                self.state = State::Failed;
                return None;
            }
            self.slots[s] = bound;
            self.value = bound;
            self.left = 16;
        }
        self.left -= 1;
        Some(self.value - self.left)
    }
    pub fn arm(&mut self, c: Call) {
        self.disk.armed |= c as u8;
    }
    pub fn crash(&mut self, torn: Option<[u8; 16]>) {
        self.disk.crash(torn);
        self.open();
    }
}

#[cfg(test)]
mod rows {
    use super::*;
    fn torn(bound: u64) -> Option<[u8; 16]> {
        let mut t = [0; 16];
        t[..8].copy_from_slice(&bound.to_be_bytes());
        t[8..].copy_from_slice(&(!bound).to_be_bytes());
        Some(t)
    }
    fn draws(f: &mut LifeFile, n: usize) -> Vec<Option<u64>> {
        (0..n).map(|_| f.draw()).collect()
    }
    #[test]
    fn a_restart_skips_drawn_numbers() {
        let mut f = LifeFile::new();
        assert_eq!(draws(&mut f, 3), [Some(1), Some(2), Some(3)]);
        f.crash(None);
        assert_eq!(f.draw(), Some(17));
        for (t, next) in [(Some([7; 16]), 17), (torn(900), 901)] {
            let mut f = LifeFile::new();
            draws(&mut f, 16);
            f.arm(Call::Sync);
            assert_eq!(draws(&mut f, 2), [None, None]);
            f.crash(t);
            assert_eq!(f.draw(), Some(next));
        }
    }
    #[test]
    fn the_last_number() {
        let mut f = LifeFile::new();
        f.arm(Call::Sync);
        assert_eq!(f.draw(), None);
        f.crash(torn((1 << 62) - 16));
        assert_eq!(
            (f.draw(), draws(&mut f, 14).len(), f.draw(), f.draw()),
            (Some((1 << 62) - 15), 14, Some(1 << 62), None)
        );
        let mut f = LifeFile::new();
        f.arm(Call::Sync);
        f.draw();
        f.crash(torn(u64::MAX));
        assert_eq!(f.draw(), None);
    }
}
