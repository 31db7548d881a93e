//! Replay files (`docs/formats.md`, "Replay").

use crate::packet::{decode, encode, Id, Packet};
use crate::rules::{Core, Input};

pub fn hex(b: &[u8]) -> String {
    const H: &[u8] = b"0123456789abcdef";
    let mut s = String::with_capacity(2 * b.len());
    for x in b {
        s.push(H[(x >> 4) as usize] as char);
        s.push(H[(x & 15) as usize] as char)
    }
    s
}
pub fn packet_hex(p: &Packet) -> String {
    let mut b = [0; 32];
    let n = encode(p, &mut b);
    hex(&b[..n])
}
fn unhex(s: &str) -> Option<Vec<u8>> {
    if s == "-" {
        return Some(vec![]);
    }
    if s.is_empty() || s.len() % 2 != 0 || !s.bytes().all(|c| c.is_ascii_hexdigit()) {
        return None;
    }
    (0..s.len()).step_by(2).map(|i| u8::from_str_radix(&s[i..i + 2], 16).ok()).collect()
}
fn num(s: &str) -> Option<u64> {
    if s.is_empty() || !s.bytes().all(|c| c.is_ascii_digit()) || (s.len() > 1 && s.starts_with('0')) {
        None
    } else {
        s.parse().ok()
    }
}
fn id(s: &str) -> Option<Id> {
    num(s).and_then(|x| u32::try_from(x).ok()).filter(|&x| x != 0)
}
fn list(s: &str) -> Option<Vec<Id>> {
    if s == "-" {
        Some(vec![])
    } else {
        s.split(',').map(id).collect()
    }
}

/// Writes what each line gives. Returns the number of the line with a fault, if there is one.
pub fn replay(input: &[u8], out: &mut impl std::io::Write) -> std::io::Result<Option<usize>> {
    let mut core: Option<Core> = None;
    let mut pieces: Vec<&[u8]> = input.split(|&c| c == b'\n').collect();
    if pieces.last().map_or(false, |p| p.is_empty()) {
        pieces.pop();
    }
    if pieces.is_empty() {
        writeln!(out, "fault 1")?;
        return Ok(Some(1));
    }
    for (n, p) in pieces.iter().enumerate() {
        let ok = (p.len() <= 4096).then(|| std::str::from_utf8(p).ok()).flatten().and_then(|l| {
            let w: Vec<&str> = l.split(' ').collect();
            match core.as_mut() {
                None => match w[..] {
                    ["node", i, "links", l, "dests", d] => {
                        core = Some(Core::new(id(i)?, &list(l)?, &list(d)?).ok()?);
                        Some(String::new())
                    }
                    _ => None,
                },
                Some(c) => {
                    let now = num(w[0])?;
                    let i = match w[1..] {
                        ["up", k] => Input::LinkUp(id(k)?),
                        ["down", k] => Input::LinkDown(id(k)?),
                        ["need", d] => Input::Need(id(d)?),
                        ["show"] => return Some(c.show()),
                        ["from", k, h] => {
                            let k = id(k)?;
                            match decode(&unhex(h)?) {
                                Ok(p) => Input::Packet(k, p),
                                Err(e) => return Some(format!("bad {e}\n")),
                            }
                        }
                        _ => return None,
                    };
                    Some(match c.step(i, now) {
                        Ok(s) => s.list().iter().map(|p| format!("send {}\n", packet_hex(p))).collect(),
                        Err(e) => format!("refused {e}\n"),
                    })
                }
            }
        });
        match ok {
            Some(s) => out.write_all(s.as_bytes())?,
            None => {
                writeln!(out, "fault {}", n + 1)?;
                return Ok(Some(n + 1));
            }
        }
    }
    Ok(None)
}
