//! Simulation files (`docs/formats.md`, "Simulation files") and the benchmark files of `gen-sim`.

use crate::arq::Life;
use crate::life::Call;
use crate::sim::{Arm, Sim, NO_DATAGRAM};
use crate::{Id, Rng};
use std::io::Write;

const LINE: usize = 4096;
const LIFE: u64 = 1 << 62;

fn number(w: &[u8]) -> Option<u64> {
    if w.is_empty() || (w.len() > 1 && w[0] == b'0') {
        return None;
    }
    w.iter().try_fold(0u64, |n, c| match c {
        b'0'..=b'9' => n.checked_mul(10)?.checked_add((c - b'0') as u64),
        _ => None,
    })
}
fn ident(w: &[u8]) -> Option<Id> {
    number(w).and_then(|n| Id::try_from(n).ok()).filter(|&n| n != 0)
}
fn idents(w: &[u8]) -> Option<Vec<Id>> {
    if w == b"-" {
        return Some(vec![]);
    }
    w.split(|&c| c == b',').map(ident).collect()
}
fn life_number(w: &[u8]) -> Option<u64> {
    number(w).filter(|n| (1..=LIFE).contains(n))
}
fn torn(w: &[u8]) -> Option<Option<[u8; 16]>> {
    if w == b"-" {
        return Some(None);
    }
    if w.len() != 32 {
        return None;
    }
    let digit = |c: u8| (c as char).to_digit(16).map(|x| x as u8);
    let mut t = [0; 16];
    for (i, b) in t.iter_mut().enumerate() {
        *b = digit(w[2 * i])? << 4 | digit(w[2 * i + 1])?;
    }
    Some(Some(t))
}
/// The words of a piece; a line has five at most.
fn words(piece: &[u8]) -> Option<([&[u8]; 5], usize)> {
    if piece.len() > LINE {
        return None;
    }
    let (mut ws, mut n) = ([&piece[..0]; 5], 0);
    for w in piece.split(|&c| c == b' ') {
        if w.is_empty() || n == 5 {
            return None;
        }
        ws[n] = w;
        n += 1;
    }
    Some((ws, n))
}

/// Returns the world at the end, and the number of the line with a fault, if there is one.
pub fn simulate(input: &[u8], window: u32, out: &mut impl Write) -> std::io::Result<(Option<Sim>, Option<usize>)> {
    let mut pieces = input.split(|&c| c == b'\n').peekable();
    let (mut dests, mut links, mut sim, mut at) = (None, vec![], None::<Sim>, 0);
    while let Some(piece) = pieces.next() {
        let last = pieces.peek().is_none();
        if last && piece.is_empty() {
            break;
        }
        at += 1;
        let done = words(piece).and_then(|(ws, n)| {
            let ws = &ws[..n];
            match (&dests, &mut sim, ws) {
                (None, _, [b"dests", l]) => dests = Some(idents(l)?),
                (None, ..) => return None,
                (Some(_), None, [b"link", a, b]) => links.push((ident(a)?, ident(b)?)),
                (Some(_), None, _) if links.is_empty() || ws[0] == b"link" => return None,
                (Some(d), None, _) => return line(sim.insert(Sim::new(&links, d, window)?), ws, out),
                (_, Some(s), _) => return line(s, ws, out),
            }
            Some(Ok(()))
        });
        match done {
            None => {
                writeln!(out, "fault {at}")?;
                return Ok((sim, Some(at)));
            }
            Some(x) => x?,
        }
    }
    if sim.is_none() {
        if links.is_empty() {
            at += 1; // a line is required
        } else {
            sim = Sim::new(&links, dests.as_deref().unwrap_or(&[]), window);
        }
        if sim.is_none() {
            writeln!(out, "fault {at}")?;
            return Ok((None, Some(at)));
        }
    }
    Ok((sim, None))
}

/// One line after the links; None for a fault.
fn line(s: &mut Sim, ws: &[&[u8]], out: &mut impl Write) -> Option<std::io::Result<()>> {
    let (id, end) = (ident, |s: &Sim, n, k| Some(s.end(ident(n)?, ident(k)?)));
    let done = match ws {
        [b"need", n, d] => {
            let (n, d) = (s.node(id(n)?), id(d)?);
            n.and_then(|n| s.need(n, d))
        }
        [b"tick"] => {
            s.tick();
            Ok(())
        }
        [b"open", n, k] => end(s, n, k)?.and_then(|e| s.open(e)),
        [b"pull", n, k] => end(s, n, k)?.and_then(|e| s.pull(e)),
        [b"transmit", n, k] => end(s, n, k)?.and_then(|e| s.transmit(e)),
        [b"deliver", i] => match number(i)? {
            0 => Err(NO_DATAGRAM),
            i => s.deliver((i - 1) as usize),
        },
        [b"pump", n, k] => end(s, n, k)?.and_then(|e| s.pump(e)),
        [b"turn", n] => s.node(id(n)?).and_then(|n| s.turn(n)),
        [b"arm", n, c] => {
            let a = match *c {
                b"send-lost" => Arm::SendLost,
                b"send-gone" => Arm::SendGone,
                b"receive" => Arm::Receive,
                b"read" => Arm::File(Call::Read),
                b"write" => Arm::File(Call::Write),
                b"sync" => Arm::File(Call::Sync),
                _ => return None,
            };
            s.node(id(n)?).map(|n| s.arm(n, a))
        }
        [b"restart", n, t] => {
            let t = torn(t)?;
            s.node(id(n)?).map(|n| s.restart(n, t))
        }
        [b"rounds", r] => {
            for _ in 0..number(r).filter(|&r| r <= 10_000)? {
                s.round();
            }
            Ok(())
        }
        [verb @ (b"part" | b"mend"), a, b] => {
            let e = end(s, a, b)?.ok()?;
            s.part(e, *verb == b"part");
            Ok(())
        }
        [b"heights", d] => {
            let d = id(d).filter(|&d| s.has_dest(d))?;
            return Some(heights(s, d, out));
        }
        [b"sent", a, b, x, y] => {
            let l = Life { own: life_number(x)?, peer: life_number(y)? };
            let e = end(s, a, b)?.ok()?;
            return Some(writeln!(out, "count {}", s.sent(e, l).len()));
        }
        [b"taken", b, a, y, x] => {
            let l = Life { own: life_number(y)?, peer: life_number(x)? };
            let e = end(s, b, a)?.ok()?;
            return Some(writeln!(out, "count {}", s.taken(e, l).len()));
        }
        _ => return None,
    };
    Some(match done {
        Ok(()) => Ok(()),
        Err(n) => writeln!(out, "refused {n}"),
    })
}
fn heights(s: &Sim, d: Id, out: &mut impl Write) -> std::io::Result<()> {
    for (n, h, hop) in s.heights(d) {
        write!(out, "node {n} ")?;
        match h {
            None => write!(out, "- hop ")?,
            Some(h) => write!(out, "({},{},{},{},{}) hop ", h.tau, h.oid, h.r, h.delta, h.id)?,
        }
        match hop {
            None => writeln!(out, "-")?,
            Some(k) => writeln!(out, "{k}")?,
        }
    }
    Ok(())
}

/// A benchmark file; None for an unknown kind or a size that is out of range. The destinations
/// are the last nodes (`count` of them); the parted links are chosen by a fixed seed.
pub fn gen_sim(kind: &str, n: u32, count: u32) -> Option<String> {
    let mut links: Vec<(u32, u32)> = vec![];
    match kind {
        "line" if n >= 2 => links.extend((1..n).map(|i| (i, i + 1))),
        "ring" if n >= 3 => links.extend((1..=n).map(|i| (i, i % n + 1))),
        "star" if n >= 2 => links.extend((2..=n).map(|i| (1, i))),
        "grid" if n >= 2 => {
            for i in 1..=n * n {
                if i % n != 0 {
                    links.push((i, i + 1));
                }
                if i <= n * n - n {
                    links.push((i, i + n));
                }
            }
        }
        _ => return None,
    }
    let d = links.iter().map(|l| l.1.max(l.0)).max()?;
    if !(1..=d).contains(&count) {
        return None;
    }
    let dests: Vec<u32> = (d + 1 - count..=d).collect();
    let list: Vec<String> = dests.iter().map(u32::to_string).collect();
    let mut s = format!("dests {}\n", list.join(","));
    links.iter().for_each(|(a, b)| s += &format!("link {a} {b}\n"));
    for i in 1..=d {
        dests.iter().for_each(|x| s += &format!("need {i} {x}\n"));
    }
    let heights: String = dests.iter().map(|x| format!("heights {x}\n")).collect();
    s += &format!("rounds 30\n{heights}");
    let mut r = Rng(88172645463325252);
    for _ in 0..10 {
        let (a, b) = links[r.below(links.len() as u64) as usize];
        s += &format!("part {a} {b}\nrounds 60\nmend {a} {b}\nrounds 30\n{heights}");
    }
    Some(s)
}
