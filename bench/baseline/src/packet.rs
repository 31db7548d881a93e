//! Heights and packets, and the bytes of a packet (`docs/formats.md`, "Packets").

pub type Id = u32;
pub const TAU_MAX: u64 = 1 << 62;
pub const DELTA_MAX: i64 = 1 << 30;

#[derive(Clone, Copy, PartialEq, Eq, PartialOrd, Ord, Debug)]
pub struct Height {
    pub tau: u64,
    pub oid: u32,
    pub r: u8,
    pub delta: i32,
    pub id: Id,
}
pub type Entry = Option<Height>;
pub type Level = (u64, u32, u8);
impl Height {
    #[inline]
    pub fn level(&self) -> Level {
        (self.tau, self.oid, self.r)
    }
    pub fn zero(d: Id) -> Height {
        Height { tau: 0, oid: 0, r: 0, delta: 0, id: d }
    }
}
pub(crate) fn fit(l: Level, delta: i64, id: Id) -> Entry {
    if l.0 > TAU_MAX || !(-DELTA_MAX..=DELTA_MAX).contains(&delta) {
        return None;
    }
    Some(Height { tau: l.0, oid: l.1, r: l.2, delta: delta as i32, id })
}

/// A height as the outputs spell it.
pub fn height_text(e: Entry) -> String {
    e.map_or("-".into(), |h| format!("({},{},{},{},{})", h.tau, h.oid, h.r, h.delta, h.id))
}

#[derive(Clone, Copy, PartialEq, Eq, Debug)]
pub enum Packet {
    Qry(Id),
    Upd(Id, Height),
    Clr(Id, u64, u32),
}
impl Packet {
    pub fn dest(&self) -> Id {
        match *self {
            Packet::Qry(d) | Packet::Upd(d, _) | Packet::Clr(d, ..) => d,
        }
    }
}

/// Writes the packet into `b` and returns its length.
#[inline]
pub fn encode(p: &Packet, b: &mut [u8; 32]) -> usize {
    let head = |b: &mut [u8; 32], k: u8, d: Id| {
        b[..4].copy_from_slice(&[1, k, 0, 0]);
        b[4..8].copy_from_slice(&d.to_be_bytes());
    };
    match *p {
        Packet::Qry(d) => {
            head(b, 1, d);
            8
        }
        Packet::Upd(d, h) => {
            head(b, 2, d);
            b[8..16].copy_from_slice(&h.tau.to_be_bytes());
            b[16..20].copy_from_slice(&h.oid.to_be_bytes());
            b[20] = h.r;
            b[21..24].fill(0);
            b[24..28].copy_from_slice(&h.delta.to_be_bytes());
            b[28..32].copy_from_slice(&h.id.to_be_bytes());
            32
        }
        Packet::Clr(d, t, o) => {
            head(b, 3, d);
            b[8..16].copy_from_slice(&t.to_be_bytes());
            b[16..20].copy_from_slice(&o.to_be_bytes());
            20
        }
    }
}
/// Errors: 1 Short, 2 Long, 3 Version, 4 Kind, 5 Reserved, 6 Height.
#[inline]
pub fn decode(b: &[u8]) -> Result<Packet, u8> {
    if b.len() < 2 {
        return Err(1);
    }
    if b[0] != 1 {
        return Err(3);
    }
    let n = match b[1] {
        1 => 8,
        2 => 32,
        3 => 20,
        _ => return Err(4),
    };
    if b.len() < n {
        return Err(1);
    }
    if b.len() > n {
        return Err(2);
    }
    if b[2] != 0 || b[3] != 0 || (n == 32 && (b[21] != 0 || b[22] != 0 || b[23] != 0)) {
        return Err(5);
    }
    let u4 = |i: usize| u32::from_be_bytes(b[i..i + 4].try_into().unwrap());
    let u8_ = |i: usize| u64::from_be_bytes(b[i..i + 8].try_into().unwrap());
    let d = u4(4);
    if d == 0 {
        return Err(6);
    }
    match b[1] {
        1 => Ok(Packet::Qry(d)),
        2 => {
            let h = Height { tau: u8_(8), oid: u4(16), r: b[20], delta: u4(24) as i32, id: u4(28) };
            if h.tau > TAU_MAX
                || (h.delta as i64).abs() > DELTA_MAX
                || h.r > 1
                || (h.tau == 0) != (h.oid == 0)
                || h.id == 0
                || h.id == d
                || (h.level() == (0, 0, 0) && h.delta < 1)
            {
                return Err(6);
            }
            Ok(Packet::Upd(d, h))
        }
        _ => {
            let (t, o) = (u8_(8), u4(16));
            if t == 0 || t > TAU_MAX || o == 0 {
                return Err(6);
            }
            Ok(Packet::Clr(d, t, o))
        }
    }
}
