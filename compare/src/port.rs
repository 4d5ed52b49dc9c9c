//! The port's side: the exports of the crates `trace`, `trace_writer` and `trace_copier`, one call each, and those of `host`. A case's calls
//! are made here, and what each tells is written down as ../PROTOCOL.md has it; every call is counted.

use crate::bytes::*;
use crate::case::Kind;
use crate::oracle::{fresh, Input, BROKEN};

/// A call's state, numbers and answer.
pub type Desk = [u64; 32];

#[link(name = "trace", kind = "static")]
extern "C" {
    fn trace_read(desk: *mut u64, desk_len: usize, chunk: *const u8, len: usize) -> i64;
    fn trace_gather(desk: *mut u64, desk_len: usize, buf: *mut u8, buf_len: usize, chunk: *const u8, len: usize) -> i64;
    fn trace_part(desk: *const u64, desk_len: usize, buf: *const u8, buf_len: usize, chunk: *const u8, len: usize, out: *mut u8, out_len: usize) -> u64;
}

#[link(name = "trace_writer", kind = "static")]
extern "C" {
    fn trace_write(desk: *mut u64, desk_len: usize, data: *const u8, len: usize, buf: *mut u8, buf_len: usize) -> i64;
    fn trace_unsigneds(desk: *mut u64, desk_len: usize, items: *const u64, count: usize, buf: *mut u8, buf_len: usize) -> i64;
    fn trace_signeds(desk: *mut u64, desk_len: usize, items: *const i64, count: usize, buf: *mut u8, buf_len: usize) -> i64;
    fn trace_fp32s(desk: *mut u64, desk_len: usize, items: *const f32, count: usize, buf: *mut u8, buf_len: usize) -> i64;
    fn trace_fp64s(desk: *mut u64, desk_len: usize, items: *const f64, count: usize, buf: *mut u8, buf_len: usize) -> i64;
    fn trace_fp32_bits(desk: *mut u64, desk_len: usize, items: *const u32, count: usize, buf: *mut u8, buf_len: usize) -> i64;
    fn trace_fp64_bits(desk: *mut u64, desk_len: usize, items: *const u64, count: usize, buf: *mut u8, buf_len: usize) -> i64;
}

#[link(name = "trace_copier", kind = "static")]
extern "C" {
    fn trace_copy(desk: *mut u64, desk_len: usize, data: *const u8, len: usize, buf: *mut u8, buf_len: usize) -> i64;
}

#[link(name = "host", kind = "static")]
extern "C" {
    fn sofab_verdict(ticket: *const u8, len: usize) -> i64;
    fn sofab_copy(ticket: *const u8, len: usize, out: *mut u8, room: usize) -> i64;
    fn sofab_length(ticket: *const u8, len: usize) -> i64;
    fn sofab_drains(ticket: *const u8, len: usize, buffer: usize) -> i64;
}

/// The verdict on a whole message: 0 complete, 1 incomplete, -2 broken.
pub fn verdict(ticket: &[u8]) -> i64 {
    // SAFETY: the export is proved on every slice.
    unsafe { sofab_verdict(ticket.as_ptr(), ticket.len()) }
}

/// The copy of a whole message: its length, or -2 broken, -100 incomplete, -101 too little room.
pub fn copy(ticket: &[u8], out: &mut [u8]) -> i64 {
    // SAFETY: the export is proved on every pair of slices, and is given just these.
    unsafe { sofab_copy(ticket.as_ptr(), ticket.len(), out.as_mut_ptr(), out.len()) }
}

/// The length of that copy beforehand, or -2 broken, -100 incomplete.
pub fn length(ticket: &[u8]) -> i64 {
    // SAFETY: the export is proved on every slice.
    unsafe { sofab_length(ticket.as_ptr(), ticket.len()) }
}

/// How many drains that copy costs over a buffer of so many bytes, or -18 for none, -2 broken, -100 incomplete.
pub fn drains(ticket: &[u8], buffer: usize) -> i64 {
    // SAFETY: the export is proved on every slice.
    unsafe { sofab_drains(ticket.as_ptr(), ticket.len(), buffer) }
}

// ---- the calls by number: those of the writer are PROTOCOL.md's, the others follow.

pub const UNSIGNEDS: u8 = 9;
pub const SIGNEDS: u8 = 10;
pub const FP32S: u8 = 11;
pub const FP64S: u8 = 12;
pub const DRAIN: u8 = 16;
pub const CHANGE: u8 = 17;
pub const FP32_BITS: u8 = 18;
pub const FP64_BITS: u8 = 19;
pub const OPEN: u8 = 20;
pub const READ: u8 = 21;
pub const GATHER: u8 = 22;
pub const PART: u8 = 23;
pub const COPIER: u8 = 24;
pub const COPY: u8 = 25;
pub const COPIED: u8 = 26;
pub const COPY_CHANGE: u8 = 27;

/// The calls' names in a list, by their numbers.
const NAMES: [&str; 29] = [
    "buffer", "unsigned", "signed", "boolean", "fixlen", "fp32", "fp64", "str", "blob", "unsigneds", "signeds", "fp32s", "fp64s", "begin", "end", "keep", "flush", "set", "fp32_bits",
    "fp64_bits", "open", "read", "gather", "part", "copier", "copy", "copied", "copy_set", "fresh",
];

/// The desk's words by their letters in a list.
const LETTERS: &[u8; 32] = b"QRKICTVPDHABEFGJLMONSUWanikvoftp";

/// How many calls were made and compared.
#[derive(Default, Clone, Copy)]
pub struct Calls {
    pub reader: u64,
    pub gatherer: u64,
    pub writer: u64,
    pub copier: u64,
    pub exports: u64,
    /// On freely chosen states.
    pub states: u64,
}

#[derive(Default)]
pub struct Port {
    pub calls: Calls,
    /// The calls of a case as rows for the crate `vectors`, where they are asked for.
    pub list: Option<List>,
}

fn items<const N: usize, T>(data: &[u8], of: fn([u8; N]) -> T) -> Vec<T> {
    data.chunks_exact(N).map(|c| of(c.try_into().expect("its length"))).collect()
}

/// Makes one call. `data` is a chunk, a payload, an array's elements, or another buffer; of a part, `buf` takes the bytes.
pub fn call(code: u8, desk: &mut Desk, data: &[u8], buf: &mut [u8]) -> i64 {
    let (d, n) = (desk.as_mut_ptr(), desk.len());
    // SAFETY: each export is proved on every slices, and is given just these.
    unsafe {
        match code {
            READ => trace_read(d, n, data.as_ptr(), data.len()),
            GATHER => trace_gather(d, n, buf.as_mut_ptr(), buf.len(), data.as_ptr(), data.len()),
            COPIER..=COPY_CHANGE => {
                desk[24] = code as u64;
                trace_copy(d, n, data.as_ptr(), data.len(), buf.as_mut_ptr(), buf.len())
            }
            UNSIGNEDS => {
                let items = items(data, u64::from_le_bytes);
                trace_unsigneds(d, n, items.as_ptr(), items.len(), buf.as_mut_ptr(), buf.len())
            }
            SIGNEDS => {
                let items = items(data, i64::from_le_bytes);
                trace_signeds(d, n, items.as_ptr(), items.len(), buf.as_mut_ptr(), buf.len())
            }
            FP32S => {
                let items = items(data, f32::from_le_bytes);
                trace_fp32s(d, n, items.as_ptr(), items.len(), buf.as_mut_ptr(), buf.len())
            }
            FP64S => {
                let items = items(data, f64::from_le_bytes);
                trace_fp64s(d, n, items.as_ptr(), items.len(), buf.as_mut_ptr(), buf.len())
            }
            FP32_BITS => {
                let items = items(data, u32::from_le_bytes);
                trace_fp32_bits(d, n, items.as_ptr(), items.len(), buf.as_mut_ptr(), buf.len())
            }
            FP64_BITS => {
                let items = items(data, u64::from_le_bytes);
                trace_fp64_bits(d, n, items.as_ptr(), items.len(), buf.as_mut_ptr(), buf.len())
            }
            _ => {
                desk[24] = code as u64;
                trace_write(d, n, data.as_ptr(), data.len(), buf.as_mut_ptr(), buf.len())
            }
        }
    }
}

/// The part that the desk's answer calls whole: it is written to `out`.
pub fn part(desk: &Desk, buf: &[u8], chunk: &[u8], out: &mut [u8]) -> usize {
    // SAFETY: proved on every four slices.
    let n = unsafe { trace_part(desk.as_ptr(), desk.len(), buf.as_ptr(), buf.len(), chunk.as_ptr(), chunk.len(), out.as_mut_ptr(), out.len()) };
    usize::try_from(n).map_or(0, |n| n.min(out.len()))
}

// ---- rows for the crate `vectors`, as its README.md has them

/// A call with more bytes than this isn't in a list; nor is one that a script can't make, of floats by value.
const LONGEST_CALL: usize = 250;

#[derive(Default)]
pub struct List {
    pub rows: Vec<u8>,
    pub calls: usize,
    /// Whether a script can make all of it.
    pub whole: bool,
}

fn put_hex(out: &mut Vec<u8>, mark: &str, bytes: &[u8]) {
    out.extend_from_slice(mark.as_bytes());
    bytes.iter().for_each(|b| out.extend_from_slice(format!("{b:02X}").as_bytes()));
}

/// The words from `first` on that aren't zero, or all of them.
fn put_words(out: &mut Vec<u8>, first: usize, words: &[u64], all: bool) {
    for (i, &n) in words.iter().enumerate().filter(|&(_, &n)| all || n != 0) {
        out.extend_from_slice(format!(" {}{n}", LETTERS[first + i] as char).as_bytes());
    }
}

impl Port {
    /// Whether rows are wanted, and this one, of so many bytes, fits a script.
    fn listed(&mut self, code: u8, bytes: usize) -> bool {
        let Some(list) = self.list.as_mut() else { return false };
        list.whole &= bytes <= LONGEST_CALL && !matches!(code, FP32S | FP64S);
        list.whole
    }

    fn record(&mut self, row: &[u8], calls: usize) {
        let Some(list) = self.list.as_mut() else { return };
        list.rows.extend_from_slice(row);
        list.rows.push(b'\n');
        list.calls += calls;
    }

    /// A row: the call, its numbers, its bytes; and what it told: the words that the Rust shows, and
    /// the buffer's bytes as far as they changed, or the part.
    fn note(&mut self, code: u8, before: &Desk, data: &[u8], after: &Desk, old: &[u8], new: &[u8]) {
        if !self.listed(code, data.len().max(new.len())) {
            return;
        }
        let mut row = NAMES[code as usize].as_bytes().to_vec();
        if code == PART {
            put_hex(&mut row, " <", data);
            put_hex(&mut row, " = >", new);
            return self.record(&row, 1);
        }
        let (first, last) = match code {
            READ => (31, 32),
            GATHER => (27, 32),
            COPIER..=COPY_CHANGE => (28, 29),
            _ => (25, 32),
        };
        put_words(&mut row, first, &before[first..last], false);
        if !data.is_empty() {
            put_hex(&mut row, " <", data);
        }
        row.extend_from_slice(b" = ~");
        match code {
            GATHER => put_words(&mut row, 0, &after[..2], true),
            READ => {}
            _ => put_words(&mut row, 7, &after[7..8], true),
        }
        let answer = if code == READ { 31 } else { 25 };
        put_words(&mut row, 23, &after[23..answer], true);
        if code == COPY {
            put_words(&mut row, 27, &after[27..28], true);
        }
        let changed = (0..new.len()).rev().find(|&i| new[i] != old[i]).map_or(0, |i| i + 1);
        if changed != 0 {
            put_hex(&mut row, " >", &new[..changed]);
        }
        self.record(&row, 1);
    }

    /// A new case, with a buffer.
    fn start(&mut self, buf: &[u8]) -> Desk {
        self.record(b"fresh", 0);
        self.lend(buf);
        [0; 32]
    }

    /// Another buffer, as it stands.
    fn lend(&mut self, buf: &[u8]) {
        if self.listed(OPEN, buf.len()) {
            let mut row = b"buffer".to_vec();
            put_hex(&mut row, " ", buf);
            self.record(&row, 0);
        }
    }

    fn make(&mut self, code: u8, desk: &mut Desk, data: &[u8], buf: &mut [u8]) {
        if self.list.is_none() {
            call(code, desk, data, buf);
            return;
        }
        let (before, old) = (*desk, buf.to_vec());
        call(code, desk, data, buf);
        self.note(code, &before, data, desk, &old, buf);
    }
}

// ---- cases

fn put_told(out: &mut Vec<u8>, desk: &Desk, read: usize, chunk: &[u8]) {
    let tag = desk[23] as u8;
    out.push(tag);
    put32(out, read as u32);
    if (1..=8).contains(&tag) {
        put32(out, desk[25] as u32);
    }
    match tag {
        1 | 2 | 4 => put64(out, desk[27]),
        3 => put32(out, desk[27] as u32),
        5 | 6 => {
            out.push(desk[26] as u8);
            put32(out, desk[27] as u32);
        }
        7 => {
            let bytes = chunk.get(desk[29] as usize..desk[30] as usize).unwrap_or(&[]);
            out.push(desk[26] as u8);
            put32(out, desk[27] as u32);
            put32(out, desk[28] as u32);
            put32(out, bytes.len() as u32);
            out.extend_from_slice(bytes);
        }
        18 => out.push(desk[27] as u8),
        _ => {}
    }
}

impl Port {
    pub fn answer(&mut self, kind: Kind, case: &[u8], out: &mut Vec<u8>) {
        match kind {
            Kind::Reader => self.reader(case, out),
            Kind::Gatherer => self.gatherer(case, out),
            Kind::Writer => self.writer(case, out),
            Kind::Copier => self.copier(case, out),
        }
    }

    /// The same call by value and by the thin feed, in turns: at odd counts of bytes read the reader is lent by reference.
    fn reader(&mut self, case: &[u8], out: &mut Vec<u8>) {
        let mut input = Input { case, at: 0 };
        let count = input.number(4) as usize;
        let ticket = &case[4 + 4 * count..];
        let mut desk = self.start(&[]);
        let (mut from, mut read) = (0, 0);
        for _ in 0..count {
            let end = ticket.len().min(from + input.number(4) as usize);
            loop {
                desk[31] = read as u64 % 2;
                self.make(READ, &mut desk, &ticket[from..end], &mut []);
                self.calls.reader += 1;
                let n = desk[24] as usize;
                if end - from < n || desk[23] < 16 && n == 0 && desk[23] != 7 {
                    return out.push(BROKEN - 1);
                }
                read += n;
                put_told(out, &desk, read, &ticket[from..end]);
                from += n;
                if 16 <= desk[23] {
                    break;
                }
            }
            from = end;
        }
    }

    fn gatherer(&mut self, case: &[u8], out: &mut Vec<u8>) {
        let mut input = Input { case, at: 0 };
        let capacity = input.number(4) as usize;
        let mut buf = vec![0; capacity];
        let mut desk = self.start(&buf);
        while !input.ended() {
            desk[31] = input.number(1);
            let mut chunk: &[u8] = &[];
            if desk[31] == 0 {
                desk[27] = input.number(8);
                desk[28] = input.number(8);
                let n = input.number(4) as usize;
                chunk = input.bytes(n);
            }
            self.make(GATHER, &mut desk, chunk, &mut buf);
            self.calls.gatherer += 1;
            out.push(desk[23] as u8);
            match desk[23] {
                1 | 2 => {
                    let mut bytes = vec![0; capacity.max(chunk.len())];
                    let n = part(&desk, &buf, chunk, &mut bytes);
                    self.calls.gatherer += 1;
                    let told = desk;
                    self.note(PART, &told, chunk, &told, &[], &bytes[..n]);
                    put32(out, n as u32);
                    out.extend_from_slice(&bytes[..n]);
                }
                3 => out.push(desk[24] as u8),
                _ => {}
            }
            put32(out, desk[0] as u32);
            out.push(desk[1] as u8);
            out.extend_from_slice(&buf);
        }
    }

    fn writer(&mut self, case: &[u8], out: &mut Vec<u8>) {
        let mut input = Input { case, at: 0 };
        let drained = input.number(1);
        let length = input.number(4) as usize;
        let mut buf = fresh(length);
        let mut desk = self.start(&buf);
        desk[26] = drained;
        desk[28] = input.number(4);
        self.make(OPEN, &mut desk, &[], &mut buf);
        self.calls.writer += 1;
        if desk[23] == 3 {
            return out.extend_from_slice(&[3, desk[24] as u8]);
        }
        out.push(desk[23] as u8);
        put_buffer(out, &desk, &buf);
        while !input.ended() {
            let code = input.number(1) as u8;
            let over = match code {
                DRAIN => {
                    self.flush(drained, &mut desk, &mut buf, out);
                    false
                }
                CHANGE => {
                    self.change(drained, &mut input, &mut desk, &mut buf, out);
                    false
                }
                _ => self.write(code, drained, &mut input, &mut desk, &mut buf, out),
            };
            put_buffer(out, &desk, &buf);
            if over {
                return;
            }
        }
    }

    /// A writer that isn't drained keeps its bytes: its flush only says how many there are.
    fn flush(&mut self, drained: u64, desk: &mut Desk, buf: &mut [u8], out: &mut Vec<u8>) {
        let position = desk[7] as usize;
        if drained != 0 {
            self.make(DRAIN, desk, &[], buf);
            self.calls.writer += 1;
            put_drain(out, buf.get(..desk[24] as usize).unwrap_or(&[]));
            out.push(desk[23] as u8);
            put32(out, desk[24] as u32);
        } else {
            out.push(4);
            put32(out, position as u32);
        }
    }

    fn change(&mut self, drained: u64, input: &mut Input, desk: &mut Desk, buf: &mut Vec<u8>, out: &mut Vec<u8>) {
        let new = fresh(input.number(4) as usize);
        desk[28] = input.number(4);
        desk[26] = drained;
        self.make(CHANGE, desk, &new, buf);
        self.calls.writer += 1;
        if desk[23] == 3 {
            return out.extend_from_slice(&[3, desk[24] as u8]);
        }
        if drained != 0 {
            put_drain(out, buf.get(..desk[24] as usize).unwrap_or(&[]));
        }
        out.push(desk[23] as u8);
        put32(out, desk[24] as u32);
        *buf = new;
        self.lend(buf);
    }

    /// A write to its end: in a drained writer each "full" is drained and gone on from. Answers whether the case ends here.
    fn write(&mut self, code: u8, drained: u64, input: &mut Input, desk: &mut Desk, buf: &mut [u8], out: &mut Vec<u8>) -> bool {
        let (code, data) = arguments(code, input, desk);
        desk[31] = 0;
        loop {
            self.make(code, desk, data, buf);
            self.calls.writer += 1;
            match desk[23] {
                0 => out.push(0),
                1 if drained != 0 => {
                    let place = desk[24];
                    if place <= desk[31] && desk[7] == 0 {
                        out.push(BROKEN - 1);
                        return true;
                    }
                    put_drain(out, buf.get(..desk[7] as usize).unwrap_or(&[]));
                    self.make(DRAIN, desk, &[], buf);
                    self.calls.writer += 1;
                    desk[31] = place;
                    continue;
                }
                1 => {
                    out.push(1);
                    put32(out, desk[24] as u32);
                    return true;
                }
                _ => out.extend_from_slice(&[3, desk[24] as u8]),
            }
            return false;
        }
    }

    fn copier(&mut self, case: &[u8], out: &mut Vec<u8>) {
        let mut input = Input { case, at: 0 };
        let (size, count) = (input.number(4) as usize, input.number(4) as usize);
        let ticket = &case[8 + 5 * count..];
        let mut buf = fresh(size);
        let desk = self.start(&buf);
        let mut run = Run { port: self, desk, ticket, at: 0, end: 0, full: false };
        run.port.make(COPIER, &mut run.desk, &[], &mut buf);
        run.port.calls.copier += 1;
        if run.desk[23] != 0 {
            return out.extend_from_slice(&[3, run.desk[27] as u8]);
        }
        for _ in 0..count {
            let code = input.number(1);
            let n = input.number(4) as usize;
            run.act(code, n, &mut buf, out);
        }
        // What is left, with a drain after each feed.
        loop {
            run.act(0, ticket.len(), &mut buf, out);
            run.act(1, 0, &mut buf, out);
            if !run.full {
                return;
            }
        }
    }
}

fn put_buffer(out: &mut Vec<u8>, desk: &Desk, buf: &[u8]) {
    put32(out, desk[7] as u32);
    put32(out, buf.len() as u32);
    out.extend_from_slice(buf);
}

fn put_drain(out: &mut Vec<u8>, bytes: &[u8]) {
    if !bytes.is_empty() {
        out.push(32);
        put32(out, bytes.len() as u32);
        out.extend_from_slice(bytes);
    }
}

/// The call's numbers onto the desk; answers its own number and its data. Floats go by the calls for floats, and where one is a NaN by those
/// for bits.
fn arguments<'a>(code: u8, input: &mut Input<'a>, desk: &mut Desk) -> (u8, &'a [u8]) {
    desk[25] = if code <= 13 { input.number(4) } else { 0 };
    let mut bytes = |size: usize| {
        let n = input.number(4) as usize;
        input.bytes(n * size)
    };
    match code {
        1 | 2 | 6 => desk[27] = input.number(8),
        3 => desk[27] = input.number(1),
        5 => desk[27] = input.number(4),
        4 => {
            desk[26] = input.number(1);
            let n = input.number(4) as usize;
            return (code, input.bytes(n));
        }
        7 | 8 => return (code, bytes(1)),
        UNSIGNEDS | SIGNEDS => {
            let _ = input.number(1);
            let n = input.number(4) as usize;
            return (code, input.bytes(n * 8));
        }
        FP32S => {
            let data = bytes(4);
            let nan = items(data, f32::from_le_bytes).iter().any(|x| x.is_nan());
            return (if nan { FP32_BITS } else { FP32S }, data);
        }
        FP64S => {
            let data = bytes(8);
            let nan = items(data, f64::from_le_bytes).iter().any(|x| x.is_nan());
            return (if nan { FP64_BITS } else { FP64S }, data);
        }
        _ => {}
    }
    (code, &[])
}

/// A copier at work on a ticket.
struct Run<'p, 't> {
    port: &'p mut Port,
    desk: Desk,
    ticket: &'t [u8],
    at: usize,
    end: usize,
    full: bool,
}

impl Run<'_, '_> {
    fn act(&mut self, code: u64, n: usize, buf: &mut Vec<u8>, out: &mut Vec<u8>) {
        match code {
            0 => self.feed(n, buf, out),
            1 => {
                self.port.make(COPIED, &mut self.desk, &[], buf);
                self.port.calls.copier += 1;
                let sent = buf.get(..self.desk[24] as usize).unwrap_or(&[]);
                out.push(self.desk[23] as u8);
                put32(out, sent.len() as u32);
                out.extend_from_slice(sent);
            }
            5 => {
                self.desk[28] = n as u64;
                let new = vec![0; n];
                self.port.make(COPY_CHANGE, &mut self.desk, &new, buf);
                self.port.calls.copier += 1;
                out.extend_from_slice(&[self.desk[23] as u8, self.desk[24] as u8]);
            }
            _ if self.desk[7] as usize <= n => out.push(0),
            _ => self.stray(code, n, buf, out),
        }
    }

    fn feed(&mut self, n: usize, buf: &mut [u8], out: &mut Vec<u8>) {
        if !self.full {
            self.end = self.ticket.len().min(self.end + n);
        }
        self.port.make(COPY, &mut self.desk, &self.ticket[self.at..self.end], buf);
        self.port.calls.copier += 1;
        let tag = self.desk[23] as u8;
        let used = self.desk[24] as usize;
        self.full = tag == 1;
        out.push(tag);
        if tag == 18 {
            out.push(self.desk[27] as u8);
        }
        put32(out, used as u32);
        put32(out, self.desk[7] as u32);
        out.extend_from_slice(buf);
        self.at = if self.full { self.end.min(self.at + used) } else { self.end };
    }

    /// A call over another buffer, which is shorter than the position.
    fn stray(&mut self, code: u64, n: usize, buf: &mut Vec<u8>, out: &mut Vec<u8>) {
        let mut other = vec![0; n];
        self.port.lend(&other);
        match code {
            2 => self.port.make(COPY, &mut self.desk, &self.ticket[self.at..], &mut other),
            3 => self.port.make(COPIED, &mut self.desk, &[], &mut other),
            _ => {
                self.desk[28] = 0;
                self.port.make(COPY_CHANGE, &mut self.desk, buf, &mut other);
            }
        }
        self.port.calls.copier += 1;
        self.port.lend(buf);
        let number = if code == 2 { self.desk[27] } else { self.desk[24] };
        let refused = if code == 2 { self.desk[23] == 18 } else { self.desk[23] == 3 };
        let kept = refused && other.iter().all(|&b| b == 0);
        out.extend_from_slice(&[3, if kept { number as u8 } else { BROKEN - 1 }]);
    }
}
