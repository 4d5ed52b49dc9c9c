//! The port of two checkouts on the same messages, turn by turn: each row's time here, as a part of its time there. Both sides are timed in
//! each round, by the time that the thread itself ran, and the part is the median of the rounds': where the machine changes its pace, it
//! does so for both.

mod timing;

use std::hint::black_box;
use timing::{long_headers, ran, BLOB, GATHERED, KINDS};

type Read = unsafe extern "C" fn(*const u8, usize, usize) -> u64;
type Gather = unsafe extern "C" fn(*const u8, usize, usize, *mut u8, usize) -> u64;
type Write = unsafe extern "C" fn(u32, usize, *const u8, usize, *mut u8, usize, *mut u8, usize) -> u64;
type Copy = unsafe extern "C" fn(*const u8, usize, usize, *mut u8, usize, *mut u8, usize) -> u64;
type Verdict = unsafe extern "C" fn(*const u8, usize) -> i64;
type Whole = unsafe extern "C" fn(*const u8, usize, *mut u8, usize) -> i64;

/// The exports that are timed.
struct Port {
    read: Read,
    gather: Gather,
    write: Write,
    copy: Copy,
    verdict: Verdict,
    whole: Whole,
}

macro_rules! port {
    ($name:ident, $read:ident, $gather:ident, $write:ident, $copy:ident, $verdict:ident, $whole:ident) => {
        extern "C" {
            fn $read(bytes: *const u8, len: usize, size: usize) -> u64;
            fn $gather(payload: *const u8, len: usize, size: usize, buf: *mut u8, buf_len: usize) -> u64;
            fn $write(kind: u32, n: usize, data: *const u8, data_len: usize, buf: *mut u8, buf_len: usize, out: *mut u8, out_len: usize) -> u64;
            fn $copy(ticket: *const u8, len: usize, size: usize, buf: *mut u8, buf_len: usize, out: *mut u8, out_len: usize) -> u64;
            fn $verdict(ticket: *const u8, len: usize) -> i64;
            fn $whole(ticket: *const u8, len: usize, out: *mut u8, out_len: usize) -> i64;
        }
        static $name: Port = Port { read: $read, gather: $gather, write: $write, copy: $copy, verdict: $verdict, whole: $whole };
    };
}

port!(HERE, bench_read_here, bench_gather_here, bench_write_here, bench_copy_here, sofab_verdict_here, sofab_copy_here);
port!(THERE, bench_read_there, bench_gather_there, bench_write_there, bench_copy_there, sofab_verdict_there, sofab_copy_there);

// SAFETY, of each: proved on all slices.
impl Port {
    fn read(&self, bytes: &[u8], size: usize) -> u64 {
        unsafe { (self.read)(bytes.as_ptr(), bytes.len(), size) }
    }
    fn gather(&self, payload: &[u8], size: usize, buf: &mut [u8]) -> u64 {
        unsafe { (self.gather)(payload.as_ptr(), payload.len(), size, buf.as_mut_ptr(), buf.len()) }
    }
    fn write(&self, kind: u32, n: usize, data: &[u8], buf: &mut [u8], out: &mut [u8]) -> u64 {
        unsafe { (self.write)(kind, n, data.as_ptr(), data.len(), buf.as_mut_ptr(), buf.len(), out.as_mut_ptr(), out.len()) }
    }
    fn copy(&self, ticket: &[u8], size: usize, buf: &mut [u8], out: &mut [u8]) -> u64 {
        unsafe { (self.copy)(ticket.as_ptr(), ticket.len(), size, buf.as_mut_ptr(), buf.len(), out.as_mut_ptr(), out.len()) }
    }
    fn verdict(&self, ticket: &[u8]) -> u64 {
        unsafe { (self.verdict)(ticket.as_ptr(), ticket.len()) as u64 }
    }
    fn whole(&self, ticket: &[u8], out: &mut [u8]) -> u64 {
        unsafe { (self.whole)(ticket.as_ptr(), ticket.len(), out.as_mut_ptr(), out.len()) as u64 }
    }
}

/// Messages for the copy alone: arrays of 64 floats, of 32 and of 64 bits in turn; and one that isn't in its shortest form.
fn more_tickets() -> [(&'static str, Vec<u8>); 2] {
    let floats = |id: u8, word: u8, len: usize| [id * 8 + 5, 64, word].into_iter().chain((0..len).map(|k| k as u8));
    let arrays = (0..1400u32).flat_map(|i| floats((i % 16) as u8, 32, 256).chain(floats((i % 16) as u8, 65, 512)));
    [("float arrays", arrays.collect()), long_headers()]
}

/// The rows so far: each one's time here by its time there.
struct Table {
    rounds: usize,
    parts: Vec<f64>,
    differ: bool,
}

impl Table {
    fn row(&mut self, name: String, mut work: impl FnMut(&Port) -> u64) {
        let mut times = [Vec::new(), Vec::new()];
        let mut answers = [0; 2];
        for round in 0..self.rounds {
            for turn in 0..2 {
                let side = (round + turn) % 2;
                let start = ran();
                answers[side] = black_box(work(if side == 0 { &HERE } else { &THERE }));
                times[side].push((ran() - start).as_secs_f64() * 1e6);
            }
        }
        let [here, there] = times;
        let part = median(here.iter().zip(&there).map(|(h, t)| h / t).collect());
        self.parts.push(part);
        self.differ |= answers[0] != answers[1];
        let mark = if answers[0] != answers[1] { " THE ANSWERS DIFFER" } else if part > 1.1 { " more than a tenth slower" } else { "" };
        println!("| {name} | {:.1} | {:.1} | {part:.2} |{mark}", median(here), median(there));
    }
}

fn median(mut xs: Vec<f64>) -> f64 {
    xs.sort_by(f64::total_cmp);
    xs[xs.len() / 2]
}

fn main() {
    let rounds = std::env::args().nth(1).and_then(|s| s.parse().ok()).filter(|&n| n > 0).unwrap_or_else(|| {
        eprintln!("beside: the rounds are a number from 1 up");
        std::process::exit(2)
    });
    let mut table = Table { rounds, parts: Vec::new(), differ: false };
    let data: Vec<u8> = (0..BLOB).map(|i| b'a' + (i % 26) as u8).collect();
    let mut out = vec![1u8; 9 << 20];
    let tickets: Vec<(&str, Vec<u8>)> = KINDS
        .iter()
        .map(|&(name, kind, n)| {
            let len = HERE.write(kind, n, &data, &mut [0; 4096], &mut out) as usize;
            (name, out[..len].to_vec())
        })
        .collect();
    println!("| work | here, µs | there, µs | here / there |");
    println!("|---|---|---|---|");
    for (size, how) in [(0, "whole"), (64, "in 64-byte chunks")] {
        for (name, ticket) in &tickets {
            table.row(format!("read {how}: {name}"), |port| port.read(ticket, size));
        }
    }
    for (name, ticket) in &tickets {
        table.row(format!("verdict alone: {name}"), |port| port.verdict(ticket));
    }
    let mut buf = vec![1u8; GATHERED];
    for size in [16, 64, 4096] {
        table.row(format!("gather 64 KB in {size}-byte pieces"), |port| port.gather(&data[..GATHERED], size, &mut buf));
    }
    for (length, share) in [(4096, 1), (1, 8)] {
        for &(name, kind, n) in &KINDS {
            let data = if kind == 3 { &data[..data.len() / share] } else { &data[..] };
            let buf = &mut buf[..length];
            table.row(format!("write into {length} bytes: {name}"), |port| port.write(kind, n.div_ceil(share), data, buf, &mut out));
        }
    }
    let copied: Vec<_> = tickets.into_iter().chain(more_tickets()).collect();
    for (size, length, how) in [(4096, 4096, "4096/4096"), (64, 64, "64/64"), (0, 4096, "whole/4096"), (4096, 1, "4096/1")] {
        for (name, ticket) in &copied {
            let buf = &mut buf[..length];
            table.row(format!("copy {how}: {name}"), |port| port.copy(ticket, size, buf, &mut out));
        }
    }
    for (name, ticket) in &copied {
        table.row(format!("copy whole, sofab_copy: {name}"), |port| port.whole(ticket, &mut out));
    }
    let mean = (table.parts.iter().map(|p| p.ln()).sum::<f64>() / table.parts.len() as f64).exp();
    let slower = table.parts.iter().filter(|&&p| p > 1.1).count();
    println!("\n{} rows: {mean:.3} of the time there in the mean, {slower} more than a tenth slower.", table.parts.len());
    if table.differ {
        std::process::exit(1);
    }
}
