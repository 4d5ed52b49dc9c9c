//! The Rust's side: a case in, the answer of the unchanged Rust out, both as ../PROTOCOL.md has them.
//!
//! What the Rust doesn't show is had in these ways. Positions of events: a second reader is fed the same bytes one at a time.
//! A piece's place: where its slice lies in the chunk. The writer's buffer between calls, which it holds borrowed: the calls so far are
//! made again on fresh buffers. The gatherer's buffer: where the Rust itself returns a part of it, measured once for each capacity.
//! Which refusal a code stands for: `Argument` is one code for numbers 4, 5, 7, 8 and 9, and the call and its arguments tell which.

use crate::bytes::*;
use crate::fault::Fault;
use sofab::*;
use std::cell::RefCell;

pub const COMPLETE: u8 = 0x10;
pub const INCOMPLETE: u8 = 0x11;
pub const REFUSED: u8 = 0x12;
/// The Rust disagrees with itself, or the case is none: never an answer of the port's.
pub const BROKEN: u8 = 0xff;

pub struct Oracle {
    pub fault: Fault,
    whole: Events,
    single: Events,
    places: Vec<(Event, usize)>,
}

// ---- the reader

#[derive(Clone, Copy, PartialEq, Debug)]
enum Event {
    Unsigned(u32, u64),
    Signed(u32, i64),
    Fp32(u32, u32),
    Fp64(u32, u64),
    Array(u32, u8, u32),
    Fixlen(u32, u8, u32),
    Piece(u32, u8, u32, u32, usize, usize),
    Begin(u32),
    End,
}

#[derive(Default)]
struct Events {
    seen: Vec<Event>,
    chunk: usize,
}

impl Events {
    fn piece(&mut self, id: Id, subtype: u8, total: usize, offset: usize, part: &[u8]) {
        let from = if part.is_empty() { 0 } else { part.as_ptr() as usize - self.chunk };
        self.seen.push(Event::Piece(id, subtype, total as u32, offset as u32, from, part.len()));
    }
}

impl Visitor for Events {
    fn unsigned(&mut self, id: Id, value: Unsigned) {
        self.seen.push(Event::Unsigned(id, value));
    }
    fn signed(&mut self, id: Id, value: Signed) {
        self.seen.push(Event::Signed(id, value));
    }
    fn fp32(&mut self, id: Id, value: f32) {
        self.seen.push(Event::Fp32(id, value.to_bits()));
    }
    fn fp64(&mut self, id: Id, value: f64) {
        self.seen.push(Event::Fp64(id, value.to_bits()));
    }
    fn string(&mut self, id: Id, total: usize, offset: usize, chunk: &[u8]) {
        self.piece(id, FixlenType::Str as u8, total, offset, chunk);
    }
    fn blob(&mut self, id: Id, total: usize, offset: usize, chunk: &[u8]) {
        self.piece(id, FixlenType::Blob as u8, total, offset, chunk);
    }
    fn fixlen_begin(&mut self, id: Id, subtype: FixlenType, total: usize) {
        self.seen.push(Event::Fixlen(id, subtype as u8, total as u32));
    }
    fn array_begin(&mut self, id: Id, kind: ArrayKind, count: usize) {
        self.seen.push(Event::Array(id, kind as u8, count as u32));
    }
    fn sequence_begin(&mut self, id: Id) {
        self.seen.push(Event::Begin(id));
    }
    fn sequence_end(&mut self) {
        self.seen.push(Event::End);
    }
}

fn put_event(out: &mut Vec<u8>, event: Event, at: usize, chunk: &[u8]) {
    let head = |out: &mut Vec<u8>, tag: u8, id: u32| {
        out.push(tag);
        put_len(out, at);
        put32(out, id);
    };
    match event {
        Event::Unsigned(id, v) => {
            head(out, 1, id);
            put64(out, v);
        }
        Event::Signed(id, v) => {
            head(out, 2, id);
            put64(out, v as u64);
        }
        Event::Fp32(id, bits) => {
            head(out, 3, id);
            put32(out, bits);
        }
        Event::Fp64(id, bits) => {
            head(out, 4, id);
            put64(out, bits);
        }
        Event::Array(id, kind, count) => {
            head(out, 5, id);
            out.push(kind);
            put32(out, count);
        }
        Event::Fixlen(id, subtype, total) => {
            head(out, 6, id);
            out.push(subtype);
            put32(out, total);
        }
        Event::Piece(id, subtype, total, offset, from, len) => {
            head(out, 7, id);
            out.push(subtype);
            put32(out, total);
            put32(out, offset);
            put_len(out, len);
            out.extend_from_slice(&chunk[from..from + len]);
        }
        Event::Begin(id) => head(out, 8, id),
        Event::End => {
            out.push(9);
            put_len(out, at);
        }
    }
}

fn is_part(event: &Event) -> bool {
    matches!(event, Event::Piece(_, _, _, _, _, len) if *len != 0)
}

impl Oracle {
    pub fn new(fault: Fault) -> Oracle {
        Oracle { fault, whole: Events::default(), single: Events::default(), places: Vec::new() }
    }

    /// Feeds the ticket byte by byte, and notes where each event but a part of a payload comes; answers where it breaks.
    fn note_places(&mut self, ticket: &[u8]) -> Option<usize> {
        let mut reader = IStream::new();
        self.places.clear();
        for (i, byte) in ticket.iter().enumerate() {
            let chunk = std::slice::from_ref(byte);
            self.single.seen.clear();
            self.single.chunk = chunk.as_ptr() as usize;
            let fed = reader.feed(chunk, &mut self.single);
            self.places.extend(self.single.seen.iter().filter(|e| !is_part(e)).map(|e| (*e, i + 1)));
            if fed.is_err() {
                return Some(i + 1);
            }
        }
        None
    }

    pub fn reader(&mut self, case: &[u8], out: &mut Vec<u8>) {
        let mut input = Input { case, at: 0 };
        let count = input.number(4) as usize;
        let ticket = &case[4 + 4 * count..];
        let broken = self.note_places(ticket);
        let mut reader = IStream::new();
        let mut from = 0;
        let mut next = 0;
        for k in 0..count {
            let to = (from + input.number(4) as usize).min(ticket.len());
            let chunk = &ticket[from..to];
            self.whole.seen.clear();
            self.whole.chunk = chunk.as_ptr() as usize;
            let fed = reader.feed(chunk, &mut self.whole);
            for &event in &self.whole.seen {
                let at = match event {
                    Event::Piece(_, _, _, _, start, n) if n != 0 => from + start + n,
                    _ => match self.places.get(next) {
                        Some(&(same, at)) if same == event => {
                            next += 1;
                            at
                        }
                        _ => return out.push(BROKEN),
                    },
                };
                if let Some((event, at)) = self.fault.event(event_fields(event), at).map(|(e, at)| (from_fields(e), at)) {
                    put_event(out, event, at, chunk);
                    if let (Event::Piece(_, _, _, offset, _, n), Some(last)) = (event, out.last_mut()) {
                        *last ^= self.fault.long_piece(offset as usize + n) as u8;
                    }
                }
            }
            let (tag, at) = match fed {
                Ok(Status::Complete) => (COMPLETE, to),
                Ok(Status::Incomplete) => (INCOMPLETE, to),
                Err(Error::InvalidMsg) => (REFUSED, broken.unwrap_or(usize::MAX)),
                Err(_) => return out.push(BROKEN),
            };
            let opened = matches!(self.whole.seen.last(), Some(Event::Begin(_)));
            let again = tag == REFUSED && broken.is_some_and(|b| b <= from) && k != 0;
            let (tag, at) = self.fault.verdict(tag, at, opened, again);
            out.push(tag);
            put_len(out, at);
            if tag == REFUSED {
                out.push(2);
            }
            from = to;
        }
    }
}

struct Nobody;

impl Visitor for Nobody {}

/// The verdict on a whole message, as the port's export numbers it.
pub fn verdict(ticket: &[u8]) -> i64 {
    match IStream::new().feed(ticket, &mut Nobody) {
        Ok(Status::Complete) => 0,
        Ok(Status::Incomplete) => 1,
        Err(_) => -2,
    }
}

/// An event as numbers, for the planted faults: tag, id, and what follows.
pub type Fields = [u64; 6];

fn event_fields(event: Event) -> Fields {
    match event {
        Event::Unsigned(id, v) => [1, id as u64, v, 0, 0, 0],
        Event::Signed(id, v) => [2, id as u64, v as u64, 0, 0, 0],
        Event::Fp32(id, b) => [3, id as u64, b as u64, 0, 0, 0],
        Event::Fp64(id, b) => [4, id as u64, b, 0, 0, 0],
        Event::Array(id, k, n) => [5, id as u64, k as u64, n as u64, 0, 0],
        Event::Fixlen(id, s, n) => [6, id as u64, s as u64, n as u64, 0, 0],
        Event::Piece(id, s, n, o, from, len) => [7, id as u64, (s as u64) << 32 | n as u64, o as u64, from as u64, len as u64],
        Event::Begin(id) => [8, id as u64, 0, 0, 0, 0],
        Event::End => [9, 0, 0, 0, 0, 0],
    }
}

fn from_fields(f: Fields) -> Event {
    let id = f[1] as u32;
    match f[0] {
        1 => Event::Unsigned(id, f[2]),
        2 => Event::Signed(id, f[2] as i64),
        3 => Event::Fp32(id, f[2] as u32),
        4 => Event::Fp64(id, f[2]),
        5 => Event::Array(id, f[2] as u8, f[3] as u32),
        6 => Event::Fixlen(id, f[2] as u8, f[3] as u32),
        7 => Event::Piece(id, (f[2] >> 32) as u8, f[2] as u32, f[3] as u32, f[4] as usize, f[5] as usize),
        8 => Event::Begin(id),
        _ => Event::End,
    }
}

// ---- what a case's bytes hold

pub struct Input<'a> {
    pub case: &'a [u8],
    pub at: usize,
}

impl<'a> Input<'a> {
    pub fn bytes(&mut self, n: usize) -> &'a [u8] {
        let from = self.at.min(self.case.len());
        self.at = (from + n).min(self.case.len());
        &self.case[from..self.at]
    }
    pub fn number(&mut self, n: usize) -> u64 {
        self.bytes(n).iter().rev().fold(0, |sum, &b| sum << 8 | b as u64)
    }
    pub fn ended(&self) -> bool {
        self.case.len() <= self.at
    }
}

// ---- the gatherer

/// The capacities that the Rust is compiled for: its buffer's length is a parameter of the type.
pub const CAPACITIES: [usize; 24] = [0, 1, 2, 3, 4, 5, 6, 7, 8, 9, 12, 16, 17, 24, 32, 33, 64, 100, 128, 255, 256, 300, 1100, 66_000];
/// How many of them are short.
pub const SHORT: usize = 22;

/// Where the buffer lies in an accumulator of N bytes: measured on one that the Rust answers from its buffer. Below two bytes none is
/// ever answered from there, nor written.
fn place_of_buffer<const N: usize>() -> Option<usize> {
    let mut probe = PayloadAcc::<N>::new();
    let start = &probe as *const PayloadAcc<N> as usize;
    let bytes = [0u8; N];
    let _ = probe.feed(N, 0, &bytes[..N - 1]);
    match probe.feed(N, N - 1, &bytes[..1]) {
        Ok(Some(part)) => Some(part.as_ptr() as usize - start),
        _ => None,
    }
}

fn buffer_of<const N: usize>(acc: &PayloadAcc<N>, place: usize) -> [u8; N] {
    let mut copy = [0; N];
    if 2 <= N {
        // SAFETY: the N bytes at `place` are the accumulator's own array, as `place_of_buffer` measured for this very type.
        let bytes = unsafe { std::slice::from_raw_parts((acc as *const PayloadAcc<N>).cast::<u8>().add(place), N) };
        copy.copy_from_slice(bytes);
    }
    copy
}

impl Oracle {
    fn gather<const N: usize>(&self, input: &mut Input, out: &mut Vec<u8>) {
        let Some(place) = (if 2 <= N { place_of_buffer::<N>() } else { Some(0) }) else { return out.push(BROKEN) };
        let mut acc = PayloadAcc::<N>::new();
        while !input.ended() {
            let mut tail = None;
            if input.number(1) == 1 {
                acc.reset();
                out.push(4);
            } else {
                let total = input.number(8) as usize;
                let offset = input.number(8) as usize;
                let len = input.number(4) as usize;
                let chunk = input.bytes(len);
                let held = acc.buffered();
                tail = Some((total, offset, chunk, held));
                let lies = chunk.as_ptr() as usize..=chunk.as_ptr() as usize + chunk.len();
                match acc.feed(total, offset, chunk) {
                    Ok(None) => out.push(self.fault.nothing(total, held)),
                    Ok(Some(part)) => {
                        // A part of no bytes may lie anywhere: it is the chunk's where the payload starts here.
                        let in_chunk = if part.is_empty() { offset == 0 } else { lies.contains(&(part.as_ptr() as usize)) };
                        out.push(if in_chunk { 1 } else { 2 });
                        put_len(out, part.len());
                        out.extend_from_slice(part);
                    }
                    Err(Error::Argument) => match self.fault.too_long(offset, held) {
                        true => out.push(0),
                        false => out.extend_from_slice(&[3, 4]),
                    },
                    Err(_) => return out.push(BROKEN),
                }
            }
            put_len(out, acc.buffered());
            out.push(format!("{acc:?}").contains("complete: true") as u8);
            let mut buffer = buffer_of(&acc, place);
            self.fault.gathered(&mut buffer, tail);
            out.extend_from_slice(&buffer);
        }
    }

    pub fn gatherer(&mut self, case: &[u8], out: &mut Vec<u8>) {
        let mut input = Input { case, at: 0 };
        macro_rules! with_capacity {
            ($($n:literal)*) => {
                match input.number(4) {
                    $($n => self.gather::<$n>(&mut input, out),)*
                    _ => out.push(BROKEN),
                }
            };
        }
        with_capacity!(0 1 2 3 4 5 6 7 8 9 12 16 17 24 32 33 64 100 128 255 256 300 1100 66000);
    }
}

// ---- the writer

/// What a fresh buffer holds: bytes that tell places apart, so that one that wasn't written is seen.
pub fn fresh(length: usize) -> Vec<u8> {
    (0..length).map(|i| 0xA0 ^ (i % 251) as u8).collect()
}

struct Sink<'l> {
    log: &'l RefCell<Vec<u8>>,
    fault: Fault,
}

impl Flush for Sink<'_> {
    fn flush(&mut self, data: &[u8]) {
        let mut log = self.log.borrow_mut();
        log.push(0x20);
        let n = if self.fault.cuts_drains() { data.len() - 1 } else { data.len() };
        put_len(&mut log, if self.fault.drains_short() { n % 1024 } else { n });
        log.extend_from_slice(&data[..n]);
    }
}

/// How a call came out, in the terms of the protocol.
enum Outcome {
    Done,
    Full,
    Refused(u8),
    Used(usize),
}

fn widths<T: TryFrom<u64>>(data: &[u64]) -> Option<Vec<T>> {
    data.iter().map(|&x| T::try_from(x).ok()).collect()
}

fn signed_widths<T: TryFrom<i64>>(data: &[i64]) -> Option<Vec<T>> {
    data.iter().map(|&x| T::try_from(x).ok()).collect()
}

fn outcome(result: Result<()>, number: u8) -> Outcome {
    match result {
        Ok(()) => Outcome::Done,
        Err(Error::BufferFull) => Outcome::Full,
        Err(Error::Argument) => Outcome::Refused(number),
        Err(_) => Outcome::Refused(BROKEN),
    }
}

type Buffers<'b, 'a> = &'b mut std::slice::IterMut<'a, Vec<u8>>;

/// One call, read from the case. `depth` counts the open sequences, which tells number 8 from number 9.
fn call<'a, F: Flush>(os: &mut OStream<'a, F>, input: &mut Input, buffers: Buffers<'_, 'a>, depth: &mut u32, fault: Fault) -> Outcome {
    let code = input.number(1);
    let id = if code <= 13 { input.number(4) as u32 } else { 0 };
    match code {
        1 => outcome(os.write_unsigned(id, input.number(8)), 9),
        2 => outcome(os.write_signed(id, input.number(8) as i64), 9),
        3 => outcome(os.write_boolean(id, input.number(1) != 0), 9),
        4 => {
            let subtype = match input.number(1) {
                0 => FixlenType::Fp32,
                1 => FixlenType::Fp64,
                2 => FixlenType::Str,
                _ => FixlenType::Blob,
            };
            let n = input.number(4) as usize;
            outcome(os.write_fixlen(id, input.bytes(n), subtype), if subtype == FixlenType::Str { 7 } else { 9 })
        }
        5 => outcome(os.write_fp32(id, f32::from_bits(input.number(4) as u32)), 9),
        6 => outcome(os.write_fp64(id, f64::from_bits(input.number(8))), 9),
        7 => {
            let n = input.number(4) as usize;
            match std::str::from_utf8(input.bytes(n)) {
                Ok(text) => outcome(os.write_str(id, text), 9),
                Err(_) => Outcome::Refused(BROKEN),
            }
        }
        8 => {
            let n = input.number(4) as usize;
            outcome(os.write_blob(id, input.bytes(n)), 9)
        }
        9 => {
            let width = input.number(1);
            let n = input.number(4);
            let data: Vec<u64> = (0..n).map(|_| input.number(8)).collect();
            let written = match width {
                0 => widths::<u8>(&data).map(|d| os.write_array_unsigned(id, &d)),
                1 => widths::<u16>(&data).map(|d| os.write_array_unsigned(id, &d)),
                2 => widths::<u32>(&data).map(|d| os.write_array_unsigned(id, &d)),
                _ => Some(os.write_array_unsigned(id, &data)),
            };
            written.map_or(Outcome::Refused(BROKEN), |w| outcome(w, 9))
        }
        10 => {
            let width = input.number(1);
            let n = input.number(4);
            let data: Vec<i64> = (0..n).map(|_| input.number(8) as i64).collect();
            let written = match width {
                0 => signed_widths::<i8>(&data).map(|d| os.write_array_signed(id, &d)),
                1 => signed_widths::<i16>(&data).map(|d| os.write_array_signed(id, &d)),
                2 => signed_widths::<i32>(&data).map(|d| os.write_array_signed(id, &d)),
                _ => Some(os.write_array_signed(id, &data)),
            };
            written.map_or(Outcome::Refused(BROKEN), |w| outcome(w, 9))
        }
        11 => {
            let n = input.number(4);
            let data: Vec<f32> = (0..n).map(|_| f32::from_bits(input.number(4) as u32)).collect();
            outcome(os.write_array_fp32(id, &data), 9)
        }
        12 => {
            let n = input.number(4);
            let data: Vec<f64> = (0..n).map(|_| f64::from_bits(input.number(8))).collect();
            outcome(os.write_array_fp64(id, &data), 9)
        }
        13 => {
            let opened = outcome(os.write_sequence_begin_lazy(id), if *depth == 255 && !fault.opens_as_id() { 8 } else { 9 });
            *depth += matches!(opened, Outcome::Done) as u32;
            opened
        }
        14 | 15 => {
            let keep = code == 15 || fault.keeps();
            let closed = outcome(if keep { os.write_sequence_end_keep() } else { os.write_sequence_end() }, 8);
            *depth -= matches!(closed, Outcome::Done) as u32;
            closed
        }
        16 => Outcome::Used(os.flush()),
        17 => {
            let _ = input.number(4);
            let offset = input.number(4) as usize;
            let used = os.bytes_used();
            let buffer = buffers.next().expect("a buffer for each change");
            match os.buffer_set(buffer, offset) {
                Ok(()) => Outcome::Used(if fault.answers_new_offset() { offset } else { used }),
                Err(_) => Outcome::Refused(5),
            }
        }
        _ => Outcome::Refused(BROKEN),
    }
}

/// The lengths of the buffers that a case names, opening first, and where each call starts.
fn plan(case: &[u8]) -> (Vec<usize>, Vec<usize>) {
    let mut input = Input { case, at: 1 };
    let mut lengths = vec![input.number(4) as usize];
    input.number(4);
    let mut starts = Vec::new();
    while !input.ended() {
        starts.push(input.at);
        let code = input.number(1);
        if code <= 13 {
            input.number(4);
        }
        let skip = match code {
            1 | 2 | 6 => 8,
            3 => 1,
            5 => 4,
            4 => {
                input.number(1);
                input.number(4) as usize
            }
            7 | 8 => input.number(4) as usize,
            9 | 10 => {
                input.number(1);
                input.number(4) as usize * 8
            }
            11 => input.number(4) as usize * 4,
            12 => input.number(4) as usize * 8,
            17 => {
                lengths.push(input.number(4) as usize);
                4
            }
            _ => 0,
        };
        input.bytes(skip);
    }
    starts.push(case.len());
    (lengths, starts)
}

/// The codes of a case's calls.
pub fn codes(case: &[u8]) -> Vec<u8> {
    let (_, starts) = plan(case);
    starts[..starts.len() - 1].iter().map(|&at| case[at]).collect()
}

/// What the calls up to one of them leave: the answers of the last call, and the active buffer.
struct Left {
    outcome: Outcome,
    before: usize,
    position: usize,
    active: usize,
}

impl Oracle {
    /// Makes the first `calls` calls, on fresh buffers. The log then holds what the sink got in the last of them.
    fn replay<'a, F: Flush>(&self, mut os: OStream<'a, F>, case: &[u8], calls: usize, mut rest: std::slice::IterMut<'a, Vec<u8>>, log: &RefCell<Vec<u8>>) -> Left {
        let mut input = Input { case, at: 9 };
        let mut left = Left { outcome: Outcome::Done, before: os.bytes_used(), position: os.bytes_used(), active: 0 };
        let mut depth = 0;
        let mut changed = 0;
        for _ in 0..calls {
            log.borrow_mut().clear();
            left.before = os.bytes_used();
            let code = case[input.at];
            left.outcome = call(&mut os, &mut input, &mut rest, &mut depth, self.fault);
            if code == 17 {
                changed += 1;
                if !matches!(left.outcome, Outcome::Refused(_)) {
                    left.active = changed;
                }
            }
        }
        left.position = os.bytes_used();
        left
    }

    pub fn writer(&mut self, case: &[u8], out: &mut Vec<u8>) {
        let (lengths, starts) = plan(case);
        let drained = case[0] != 0;
        let offset = u32::from_le_bytes([case[5], case[6], case[7], case[8]]) as usize;
        let log = RefCell::new(Vec::new());
        for calls in 0..starts.len() {
            let mut buffers: Vec<Vec<u8>> = lengths.iter().map(|&n| fresh(n)).collect();
            let mut rest = buffers.iter_mut();
            let first = rest.next().expect("the first buffer");
            log.borrow_mut().clear();
            let opened = if drained {
                OStream::with_flush(first, offset, Sink { log: &log, fault: self.fault }).map(|os| self.replay(os, case, calls, rest, &log))
            } else {
                OStream::with_offset(first, offset).map(|os| self.replay(os, case, calls, rest, &log))
            };
            let Ok(left) = opened else {
                return out.extend_from_slice(&[3, 5]);
            };
            out.extend_from_slice(&log.borrow());
            let buffer = &mut buffers[left.active];
            let (eager, position) = self.fault.written(buffer, left.position, calls, !log.borrow().is_empty(), offset);
            match left.outcome {
                Outcome::Done if eager && !drained && calls != 0 => {
                    out.push(1);
                    put32(out, (position - left.before) as u32);
                }
                Outcome::Done => out.push(0),
                Outcome::Full => {
                    out.push(1);
                    put32(out, (position - left.before) as u32);
                }
                Outcome::Refused(number) => out.extend_from_slice(&[3, self.fault.number(number)]),
                Outcome::Used(n) => {
                    out.push(4);
                    put32(out, n as u32);
                }
            }
            put_len(out, position);
            put_len(out, buffer.len());
            out.extend_from_slice(buffer);
            if matches!(left.outcome, Outcome::Full) {
                return;
            }
        }
    }
}
