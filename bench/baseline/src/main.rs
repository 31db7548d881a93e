//! The commands of the baseline.

mod bench;
mod bench_sim;
mod counts;

use base::{mix, mix_text, replay, text};
use std::io::{Read, Write};

const USAGE: &str = "usage: base [bench N | counts | replay | gen-mix N SEED | sim FILE [--window 1]
             | gen-sim KIND N [DESTS] | bench-sim [KIND N [DESTS]]]";

fn main() {
    let a: Vec<String> = std::env::args().skip(1).collect();
    let n = |i: usize, d: usize| a.get(i).and_then(|x| x.parse().ok()).unwrap_or(d);
    match a.first().map(String::as_str) {
        Some("replay") => {
            let mut s = vec![];
            std::io::stdin().read_to_end(&mut s).unwrap();
            let mut o = std::io::BufWriter::new(std::io::stdout());
            let f = replay(&s, &mut o).unwrap();
            o.flush().unwrap();
            if f.is_some() {
                std::process::exit(1)
            }
        }
        Some("gen-mix") => print!("{}", mix_text(&mix(n(1, 1000), n(2, 1) as u64 + bench::SEED))),
        Some("counts") => counts::counts(),
        Some("sim") => std::process::exit(sim(&a[1..])),
        Some("gen-sim") => match bench_sim::case(&a[1..]) {
            Some(s) => print!("{s}"),
            None => {
                eprintln!("usage: base gen-sim line|ring|grid|star N [DESTS]");
                std::process::exit(2)
            }
        },
        Some("bench-sim") => bench_sim::bench_sim(&a[1..]),
        Some("bench") | None => bench::bench(n(1, 2_000_000)),
        _ => {
            eprintln!("{USAGE}");
            std::process::exit(2)
        }
    }
}

/// `base sim FILE [--window 1]`; the exit status.
fn sim(a: &[String]) -> i32 {
    let mut a = a.to_vec();
    let mut window = 32;
    if let Some(i) = a.iter().position(|x| x == "--window") {
        match a.get(i + 1).map(String::as_str) {
            Some("1") => window = 1,
            Some("32") => {}
            _ => a.clear(),
        }
        a.drain(i.min(a.len())..(i + 2).min(a.len()));
    }
    if a.len() != 1 {
        eprintln!("usage: base sim FILE [--window 1|32]");
        return 2;
    }
    let run = || -> std::io::Result<bool> {
        let mut o = std::io::BufWriter::new(std::io::stdout().lock());
        let (_, fault) = text::simulate(&std::fs::read(&a[0])?, window, &mut o)?;
        o.flush()?;
        Ok(fault.is_none())
    };
    match run() {
        Ok(true) => 0,
        _ => {
            eprintln!("tora: input");
            1
        }
    }
}
