//! Times of both sides, on the same bytes, turn by turn in one run. Each figure is the best of the rounds, and counts the time that the
//! thread itself ran, so that other work on the machine disturbs it little.

use crate::timing::{long_headers, ran, BLOB, GATHERED, KINDS};
use sofab::*;
use std::hint::black_box;
use std::time::Duration;

#[link(name = "bench", kind = "static")]
extern "C" {
    fn bench_read(bytes: *const u8, len: usize, size: usize) -> u64;
    fn bench_gather(payload: *const u8, len: usize, size: usize, buf: *mut u8, buf_len: usize) -> u64;
}

#[link(name = "bench_writer", kind = "static")]
extern "C" {
    fn bench_write(kind: u32, n: usize, data: *const u8, data_len: usize, buf: *mut u8, buf_len: usize, out: *mut u8, out_len: usize) -> u64;
}

#[link(name = "trace_copier", kind = "static")]
extern "C" {
    fn bench_copy(ticket: *const u8, len: usize, size: usize, buf: *mut u8, buf_len: usize, out: *mut u8, out_len: usize) -> u64;
}

const ROUNDS: usize = 15;

/// What is measured for a part alone takes at least this long: a blob is passed over in less time than the clock itself takes.
const LEAST: Duration = Duration::from_micros(200);

// ---- the Rust's side of the same work

#[derive(Default)]
struct Digest(u64);

impl Digest {
    fn plus(&mut self, id: u32, n: u64) {
        self.0 = self.0.wrapping_add(id as u64).wrapping_add(n);
    }
}

impl Visitor for Digest {
    fn unsigned(&mut self, id: Id, value: Unsigned) {
        self.plus(id, value);
    }
    fn signed(&mut self, id: Id, value: Signed) {
        self.plus(id, if value < 0 { 1 } else { 2 });
    }
    fn fp32(&mut self, id: Id, _: f32) {
        self.plus(id, 3);
    }
    fn fp64(&mut self, id: Id, _: f64) {
        self.plus(id, 4);
    }
    fn string(&mut self, id: Id, _: usize, _: usize, chunk: &[u8]) {
        self.plus(id, chunk.len() as u64);
    }
    fn blob(&mut self, id: Id, _: usize, _: usize, chunk: &[u8]) {
        self.plus(id, chunk.len() as u64);
    }
    fn fixlen_begin(&mut self, id: Id, _: FixlenType, total: usize) {
        self.plus(id, total as u64);
    }
    fn array_begin(&mut self, id: Id, _: ArrayKind, count: usize) {
        self.plus(id, count as u64);
    }
    fn sequence_begin(&mut self, id: Id) {
        self.plus(id, 5);
    }
    fn sequence_end(&mut self) {
        self.plus(0, 6);
    }
}

#[inline(never)]
fn rust_read(bytes: &[u8], size: usize) -> u64 {
    let mut digest = Digest::default();
    let mut reader = IStream::new();
    for chunk in bytes.chunks(if size == 0 { bytes.len() } else { size }) {
        let _ = black_box(reader.feed(chunk, &mut digest));
    }
    digest.0
}

#[inline(never)]
fn rust_gather(acc: &mut PayloadAcc<GATHERED>, payload: &[u8], size: usize) -> u64 {
    let mut whole = 0;
    for (i, piece) in payload.chunks(size).enumerate() {
        if let Ok(Some(part)) = acc.feed(payload.len(), i * size, piece) {
            whole = part.len() as u64;
        }
    }
    whole
}

#[inline(never)]
fn rust_write(kind: u32, n: usize, data: &[u8], buf: &mut [u8], out: &mut [u8]) -> u64 {
    let mut sent = 0;
    {
        let mut os = OStream::with_flush(buf, 0, |bytes: &[u8]| {
            if let Some(to) = out.get_mut(sent..sent + bytes.len()) {
                to.copy_from_slice(bytes);
                sent += bytes.len();
            }
        })
        .expect("a buffer with room");
        let text = |n: usize| std::str::from_utf8(&data[..n]).expect("text");
        let id = |i: usize| (i % 16) as u32;
        match kind {
            0 => {
                for i in 0..n {
                    let _ = os.write_unsigned(id(i), (i % 100) as u64);
                }
            }
            1 => {
                for i in 0..n {
                    let _ = os.write_unsigned(100000, u64::MAX - (i % 1000) as u64);
                }
            }
            2 => {
                for i in 0..n {
                    let _ = os.write_str(id(i), text(24));
                }
            }
            3 => {
                for i in 0..n {
                    let _ = os.write_blob(id(i), data);
                }
            }
            4 => {
                for i in 0..n {
                    let _ = os.write_array_unsigned(id(i), &[300u64; 64]);
                }
            }
            5 => {
                for i in (0..n).step_by(5) {
                    let _ = os.write_sequence_begin_lazy(1);
                    let _ = os.write_sequence_begin_lazy(2);
                    let _ = os.write_unsigned(3, ((i + 2) % 100) as u64);
                    let _ = os.write_sequence_end();
                    let _ = os.write_sequence_end();
                }
            }
            _ => {
                for i in (0..n).step_by(34) {
                    let _ = os.write_sequence_begin_lazy(7);
                    for step in 1..=30 {
                        let _ = os.write_unsigned(step as u32, ((i + step) % 1000) as u64);
                    }
                    let _ = os.write_str(31, text(40));
                    let _ = os.write_fp32(32, 0.75);
                    let _ = os.write_sequence_end();
                }
            }
        }
        os.flush();
    }
    sent as u64
}

/// Writes each event again: arrays and payloads as soon as they are whole, which the Rust's writer wants them, in buffers that are used
/// again; every sequence kept.
struct Again<'a, F: Flush> {
    os: OStream<'a, F>,
    bytes: Vec<u8>,
    unsigneds: Vec<u64>,
    signeds: Vec<i64>,
    fp32s: Vec<f32>,
    fp64s: Vec<f64>,
    left: usize,
}

impl<F: Flush> Again<'_, F> {
    fn payload(&mut self, id: Id, total: usize, offset: usize, part: &[u8], text: bool) {
        if offset == 0 && part.len() == total {
            return self.whole(id, part, text);
        }
        if offset == 0 {
            self.bytes.clear();
        }
        self.bytes.extend_from_slice(part);
        if self.bytes.len() == total {
            let bytes = std::mem::take(&mut self.bytes);
            self.whole(id, &bytes, text);
            self.bytes = bytes;
        }
    }

    fn whole(&mut self, id: Id, bytes: &[u8], text: bool) {
        let _ = if text {
            // SAFETY: the benchmark's strings are ASCII; the test for it isn't part of copying.
            self.os.write_str(id, unsafe { std::str::from_utf8_unchecked(bytes) })
        } else {
            self.os.write_blob(id, bytes)
        };
    }
}

impl<F: Flush> Visitor for Again<'_, F> {
    fn unsigned(&mut self, id: Id, value: Unsigned) {
        if self.left == 0 {
            let _ = self.os.write_unsigned(id, value);
            return;
        }
        self.unsigneds.push(value);
        self.left -= 1;
        if self.left == 0 {
            let _ = self.os.write_array_unsigned(id, &self.unsigneds);
        }
    }
    fn signed(&mut self, id: Id, value: Signed) {
        if self.left == 0 {
            let _ = self.os.write_signed(id, value);
            return;
        }
        self.signeds.push(value);
        self.left -= 1;
        if self.left == 0 {
            let _ = self.os.write_array_signed(id, &self.signeds);
        }
    }
    fn fp32(&mut self, id: Id, value: f32) {
        if self.left == 0 {
            let _ = self.os.write_fp32(id, value);
            return;
        }
        self.fp32s.push(value);
        self.left -= 1;
        if self.left == 0 {
            let _ = self.os.write_array_fp32(id, &self.fp32s);
        }
    }
    fn fp64(&mut self, id: Id, value: f64) {
        if self.left == 0 {
            let _ = self.os.write_fp64(id, value);
            return;
        }
        self.fp64s.push(value);
        self.left -= 1;
        if self.left == 0 {
            let _ = self.os.write_array_fp64(id, &self.fp64s);
        }
    }
    fn string(&mut self, id: Id, total: usize, offset: usize, chunk: &[u8]) {
        self.payload(id, total, offset, chunk, true);
    }
    fn blob(&mut self, id: Id, total: usize, offset: usize, chunk: &[u8]) {
        self.payload(id, total, offset, chunk, false);
    }
    fn array_begin(&mut self, id: Id, kind: ArrayKind, count: usize) {
        self.left = count;
        self.unsigneds.clear();
        self.signeds.clear();
        self.fp32s.clear();
        self.fp64s.clear();
        if count == 0 {
            let _ = match kind as u8 {
                0 => self.os.write_array_unsigned::<u64>(id, &[]),
                1 => self.os.write_array_signed::<i64>(id, &[]),
                2 => self.os.write_array_fp32(id, &[]),
                _ => self.os.write_array_fp64(id, &[]),
            };
        }
    }
    fn sequence_begin(&mut self, id: Id) {
        let _ = self.os.write_sequence_begin_lazy(id);
    }
    fn sequence_end(&mut self) {
        let _ = self.os.write_sequence_end_keep();
    }
}

/// Its reader into its writer, over a sink.
#[inline(always)]
fn write_again(ticket: &[u8], size: usize, buf: &mut [u8], sink: impl Flush) {
    let os = OStream::with_flush(buf, 0, sink).expect("a buffer with room");
    let mut again = Again { os, bytes: Vec::new(), unsigneds: Vec::new(), signeds: Vec::new(), fp32s: Vec::new(), fp64s: Vec::new(), left: 0 };
    let mut reader = IStream::new();
    for chunk in ticket.chunks(if size == 0 { ticket.len() } else { size }) {
        let _ = black_box(reader.feed(chunk, &mut again));
    }
    again.os.flush();
}

#[inline(never)]
fn rust_copy(ticket: &[u8], size: usize, buf: &mut [u8], out: &mut [u8]) -> u64 {
    let mut sent = 0;
    write_again(ticket, size, buf, |bytes: &[u8]| {
        if let Some(to) = out.get_mut(sent..sent + bytes.len()) {
            to.copy_from_slice(bytes);
            sent += bytes.len();
        }
    });
    sent as u64
}

/// The length of a copy beforehand, for which the Rust has no call: it is made, and its bytes only counted.
#[inline(never)]
fn rust_length(ticket: &[u8], buf: &mut [u8]) -> u64 {
    let mut sent = 0;
    write_again(ticket, 0, buf, |bytes: &[u8]| sent += bytes.len());
    sent as u64
}

/// Messages for the copy alone: arrays of 64 floats, of 32 and of 64 bits in turn; and one that isn't in its shortest form.
fn more_tickets() -> [(&'static str, Vec<u8>); 2] {
    let mut bytes = vec![0; 1 << 21];
    let mut os = OStream::new(&mut bytes);
    for i in 0..1400u32 {
        let _ = os.write_array_fp32(i % 16, &std::array::from_fn::<f32, 64, _>(|k| k as f32 + 0.5));
        let _ = os.write_array_fp64(i % 16, &std::array::from_fn::<f64, 64, _>(|k| k as f64 - 0.25));
    }
    let len = os.bytes_used();
    bytes.truncate(len);
    [("float arrays", bytes), long_headers()]
}

// ---- the port's

fn port_copy(ticket: &[u8], size: usize, buf: &mut [u8], out: &mut [u8]) -> u64 {
    // SAFETY: proved on every three slices.
    unsafe { bench_copy(ticket.as_ptr(), ticket.len(), size, buf.as_mut_ptr(), buf.len(), out.as_mut_ptr(), out.len()) }
}

fn port_read(bytes: &[u8], size: usize) -> u64 {
    // SAFETY: proved on every slice.
    unsafe { bench_read(bytes.as_ptr(), bytes.len(), size) }
}

fn port_gather(payload: &[u8], size: usize, buf: &mut [u8]) -> u64 {
    // SAFETY: proved on every pair of slices.
    unsafe { bench_gather(payload.as_ptr(), payload.len(), size, buf.as_mut_ptr(), buf.len()) }
}

fn port_write(kind: u32, n: usize, data: &[u8], buf: &mut [u8], out: &mut [u8]) -> u64 {
    // SAFETY: proved on every three slices.
    unsafe { bench_write(kind, n, data.as_ptr(), data.len(), buf.as_mut_ptr(), buf.len(), out.as_mut_ptr(), out.len()) }
}

// ---- measuring

fn time(best: &mut Duration, work: impl FnOnce() -> u64) -> u64 {
    let start = ran();
    let answer = black_box(work());
    *best = (ran() - start).min(*best);
    answer
}

/// Turn by turn: the Rust, the port, a copy of as many bytes.
fn row(name: &str, bytes: &[u8], mut rust: impl FnMut() -> u64, mut port: impl FnMut() -> u64) {
    let mut best = [Duration::MAX; 3];
    let mut copy = vec![1u8; bytes.len()];
    let mut agree = true;
    for _ in 0..ROUNDS {
        let a = time(&mut best[0], &mut rust);
        let b = time(&mut best[1], &mut port);
        agree &= a == b;
        time(&mut best[2], || {
            copy.copy_from_slice(black_box(bytes));
            black_box(&copy).len() as u64
        });
    }
    let [r, p, c] = best.map(|d| d.as_secs_f64());
    let rate = |t: f64| bytes.len() as f64 / t / 1e6;
    println!(
        "| {name} | {} | {:.0} | {:.0} | {:.2} | {:.1} |{}",
        bytes.len(),
        rate(r),
        rate(p),
        p / r,
        p / c,
        if agree { "" } else { " THE ANSWERS DIFFER" }
    );
}

/// How long the port takes for so many calls in a row.
fn asked(call: fn(&[u8]) -> i64, ticket: &[u8], times: u32) -> Duration {
    let mut taken = Duration::MAX;
    time(&mut taken, || (0..times).map(|_| call(ticket) as u64).sum());
    taken
}

/// What the port's length takes, as a part of its verdict: turn by turn, the best of the rounds.
fn length_by_verdict(name: &str, ticket: &[u8]) {
    let mut times = 1;
    while asked(crate::port::verdict, ticket, times) < LEAST {
        times *= 2;
    }
    let mut best = [Duration::MAX; 2];
    for _ in 0..ROUNDS {
        best[0] = best[0].min(asked(crate::port::length, ticket, times));
        best[1] = best[1].min(asked(crate::port::verdict, ticket, times));
    }
    println!("length / verdict, time: {name} {:.2}", best[0].as_secs_f64() / best[1].as_secs_f64());
}

pub fn all() {
    let data: Vec<u8> = (0..BLOB).map(|i| b'a' + (i % 26) as u8).collect();
    let mut out = vec![1u8; 9 << 20];
    let tickets: Vec<(&str, Vec<u8>)> = KINDS
        .iter()
        .map(|&(name, kind, n)| {
            let len = rust_write(kind, n, &data, &mut [0; 4096], &mut out) as usize;
            (name, out[..len].to_vec())
        })
        .collect();
    println!("| work | bytes | Rust, MB/s | port, MB/s | port / Rust, time | port / copy, time |");
    println!("|---|---|---|---|---|---|");
    for (size, how) in [(0, "whole"), (64, "in 64-byte chunks")] {
        for (name, ticket) in &tickets {
            row(&format!("read {how}: {name}"), ticket, || rust_read(ticket, size), || port_read(ticket, size));
        }
    }
    for (name, ticket) in &tickets {
        row(&format!("verdict alone: {name}"), ticket, || crate::oracle::verdict(ticket) as u64, || crate::port::verdict(ticket) as u64);
    }
    let mut acc = Box::new(PayloadAcc::<GATHERED>::new());
    let mut buf = vec![1u8; GATHERED];
    for size in [16, 64, 4096] {
        let payload = &data[..GATHERED];
        row(&format!("gather 64 KB in {size}-byte pieces"), payload, || rust_gather(&mut acc, payload, size), || port_gather(payload, size, &mut buf));
    }
    let mut other = vec![1u8; 9 << 20];
    for (length, share) in [(4096, 1), (1, 8)] {
        for &(name, kind, n) in &KINDS {
            let n = n.div_ceil(share);
            let data = if kind == 3 { &data[..BLOB / share] } else { &data[..] };
            let (mut a, mut b) = (vec![1u8; length], vec![1u8; length]);
            let len = rust_write(kind, n, data, &mut a, &mut out) as usize;
            port_write(kind, n, data, &mut b, &mut other);
            if out[..len] != other[..len] {
                println!("| write {name}: the bytes differ |");
            }
            let bytes = out[..len].to_vec();
            row(&format!("write into {length} bytes: {name}"), &bytes, || rust_write(kind, n, data, &mut a, &mut out), || port_write(kind, n, data, &mut b, &mut other));
        }
    }
    let copied: Vec<_> = tickets.into_iter().chain(more_tickets()).collect();
    for (size, length, how) in [(4096, 4096, "4096/4096"), (64, 64, "64/64"), (0, 4096, "whole/4096"), (4096, 1, "4096/1")] {
        for (name, ticket) in &copied {
            let (mut a, mut b) = (vec![1u8; length], vec![1u8; length]);
            let len = rust_copy(ticket, size, &mut a, &mut out) as usize;
            port_copy(ticket, size, &mut b, &mut other);
            if out[..len] != other[..len] {
                println!("| copy {name}: the bytes differ |");
            }
            row(&format!("copy {how}: {name}"), ticket, || rust_copy(ticket, size, &mut a, &mut out), || port_copy(ticket, size, &mut b, &mut other));
        }
    }
    for (name, ticket) in &copied {
        let mut buf = vec![1u8; 4096];
        let len = rust_copy(ticket, 0, &mut buf, &mut out) as usize;
        crate::port::copy(ticket, &mut other);
        if out[..len] != other[..len] {
            println!("| copy {name}: the bytes differ |");
        }
        row(&format!("copy whole, sofab_copy: {name}"), ticket, || rust_copy(ticket, 0, &mut buf, &mut out), || crate::port::copy(ticket, &mut other) as u64);
    }
    for (name, ticket) in &copied {
        let mut buf = vec![1u8; 4096];
        row(&format!("length beforehand: {name}"), ticket, || rust_length(ticket, &mut buf), || crate::port::length(ticket) as u64);
    }
    println!();
    for (name, ticket) in &copied {
        length_by_verdict(name, ticket);
    }
    println!("\nThe Rust's states in bytes: reader {}, writer without its buffer and sink {}, gatherer without its buffer {}.", size_of::<IStream>(), size_of::<OStream>() - size_of::<&mut [u8]>(), size_of::<PayloadAcc<64>>() - 64);
}
