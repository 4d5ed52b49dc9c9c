//! The copier, which the Rust hasn't: its own reader's events, written by its own writer, are the plain copy, and where each event comes
//! and what its bytes are decide every call over any buffer and schedule. (PROTOCOL.md has the bytes of cases and answers.)
//!
//! An event's bytes are spelled here, one event at a time, since the Rust's writer takes whole arrays and payloads; for every complete
//! ticket they are held to what the Rust's own writer makes of it, sequences closed with keep.

use crate::bytes::*;
use crate::case::{Case, Kind};
use crate::fault::Fault;
use crate::gen::{self, Random};
use crate::oracle::{self, fresh, Input, BROKEN, COMPLETE, INCOMPLETE, REFUSED};
use sofab::*;
use std::cell::Cell;

// ---- cases

/// One act of the copier's caller.
#[derive(Clone, Copy, PartialEq, Debug)]
pub enum Act {
    /// The rest of the chunk under way, or else so many bytes more.
    Feed(usize),
    Drain,
    /// Calls over another buffer of so many bytes, made where it is shorter than the position: refused with 6.
    StrayFeed(usize),
    StrayDrain(usize),
    StrayChange(usize),
    /// A change to a buffer of so many bytes, none of them free: refused with 5.
    Unfit(usize),
}

impl Act {
    fn code(self) -> (u8, usize) {
        match self {
            Act::Feed(n) => (0, n),
            Act::Drain => (1, 0),
            Act::StrayFeed(n) => (2, n),
            Act::StrayDrain(n) => (3, n),
            Act::StrayChange(n) => (4, n),
            Act::Unfit(n) => (5, n),
        }
    }

    fn of(code: u8, n: usize) -> Act {
        match code {
            0 => Act::Feed(n),
            1 => Act::Drain,
            2 => Act::StrayFeed(n),
            3 => Act::StrayDrain(n),
            4 => Act::StrayChange(n),
            _ => Act::Unfit(n),
        }
    }
}

#[derive(Clone, Debug)]
pub struct Copier {
    pub size: usize,
    pub acts: Vec<Act>,
    pub ticket: Vec<u8>,
}

impl Case for Copier {
    const KIND: Kind = Kind::Copier;

    fn encode(&self, out: &mut Vec<u8>) {
        put_len(out, self.size);
        put_len(out, self.acts.len());
        for &act in &self.acts {
            let (code, n) = act.code();
            out.push(code);
            put_len(out, n);
        }
        out.extend_from_slice(&self.ticket);
    }

    fn parts(&self) -> usize {
        self.ticket.len()
    }

    fn without(&self, from: usize, n: usize) -> Self {
        let mut c = self.clone();
        c.ticket.drain(from..self.ticket.len().min(from + n));
        c
    }

    fn smaller(&self) -> Vec<Self> {
        let mut found = Vec::new();
        for i in 0..self.acts.len() {
            let mut c = self.clone();
            c.acts.remove(i);
            found.push(c);
        }
        for i in 0..self.ticket.len() {
            let mut c = self.clone();
            c.ticket.remove(i);
            found.push(c);
        }
        if 1 < self.size {
            for size in [1, self.size / 2, self.size - 1] {
                found.push(Copier { size, ..self.clone() });
            }
        }
        found
    }

    fn show(&self) -> String {
        format!("buffer of {}, {:?} of {}", self.size, self.acts, hex(&self.ticket))
    }
}

/// A ticket over a buffer, in acts of which most feed: pieces of any length, drains anywhere, strays.
pub fn case(r: &mut Random) -> Copier {
    let ticket = gen::ticket(r);
    let size = match r.below(4) {
        0 => r.pick(&[1, 2, 3, 7]),
        1 => 1 + r.below(16),
        2 => 1 + r.below(64),
        _ => 1 + r.below(512),
    };
    let count = r.below(24);
    let longest = r.pick(&[1, 2, 5, 20, 400]);
    let acts = (0..count)
        .map(|_| match r.below(10) {
            0..=4 => Act::Feed(r.below(longest + 1)),
            5 | 6 => Act::Drain,
            7 => Act::StrayFeed(r.below(size + 1)),
            8 => Act::StrayDrain(r.below(size + 1)),
            _ if r.one_in(2) => Act::StrayChange(r.below(size + 1)),
            _ => Act::Unfit(r.below(9)),
        })
        .collect();
    Copier { size, acts, ticket }
}

// ---- what the Rust's reader hears

/// An event: the bytes read when it comes, its own bytes, and whether it is a payload byte.
struct Heard {
    at: usize,
    bytes: Vec<u8>,
    piece: bool,
}

#[derive(Default)]
struct Ear {
    heard: Vec<Heard>,
    at: usize,
    due: usize,
    fault: usize,
}

fn varint(out: &mut Vec<u8>, mut n: u64) {
    while 128 <= n {
        out.push(n as u8 | 128);
        n >>= 7;
    }
    out.push(n as u8);
}

fn varint_len(n: u64) -> usize {
    let mut bytes = Vec::new();
    varint(&mut bytes, n);
    bytes.len()
}

impl Ear {
    fn put(&mut self, bytes: Vec<u8>, piece: bool) {
        self.heard.push(Heard { at: self.at, bytes, piece });
    }

    fn number(&mut self, id: Id, wire: u64, n: u64) {
        let mut bytes = Vec::new();
        if self.due == 0 || self.fault == 29 {
            varint(&mut bytes, id as u64 * 8 + wire);
        }
        self.due = self.due.saturating_sub(1);
        varint(&mut bytes, n);
        self.put(bytes, false);
    }

    fn float(&mut self, bytes: Vec<u8>) {
        self.due = self.due.saturating_sub(1);
        self.put(bytes, false);
    }

    fn headed(&mut self, id: Id, wire: u64, rest: &[u64]) {
        let mut bytes = Vec::new();
        varint(&mut bytes, id as u64 * 8 + wire);
        rest.iter().for_each(|&n| varint(&mut bytes, n));
        self.put(bytes, false);
    }

    fn piece(&mut self, part: &[u8]) {
        if !part.is_empty() {
            self.put(part.to_vec(), true);
        }
    }
}

impl Visitor for Ear {
    fn unsigned(&mut self, id: Id, value: Unsigned) {
        self.number(id, 0, value);
    }
    fn signed(&mut self, id: Id, value: Signed) {
        self.number(id, 1, (value << 1 ^ value >> 63) as u64);
    }
    fn fp32(&mut self, _: Id, value: f32) {
        let bits = if self.fault == 28 && value.is_nan() { 0x7fc0_0000 } else { value.to_bits() };
        self.float(bits.to_le_bytes().to_vec());
    }
    fn fp64(&mut self, _: Id, value: f64) {
        self.float(value.to_bits().to_le_bytes().to_vec());
    }
    fn string(&mut self, _: Id, _: usize, _: usize, chunk: &[u8]) {
        self.piece(chunk);
    }
    fn blob(&mut self, _: Id, _: usize, _: usize, chunk: &[u8]) {
        self.piece(chunk);
    }
    fn fixlen_begin(&mut self, id: Id, subtype: FixlenType, total: usize) {
        self.headed(id, 2, &[total as u64 * 8 + subtype as u64]);
    }
    fn array_begin(&mut self, id: Id, kind: ArrayKind, count: usize) {
        match kind as u8 {
            0 => self.headed(id, 3, &[count as u64]),
            1 => self.headed(id, 4, &[count as u64]),
            2 => self.headed(id, 5, &[count as u64, 4 * 8]),
            _ => self.headed(id, 5, &[count as u64, 8 * 8 + 1]),
        }
        self.due = count;
    }
    fn sequence_begin(&mut self, id: Id) {
        self.headed(id, 6, &[]);
    }
    fn sequence_end(&mut self) {
        self.headed((self.fault == 24) as Id, 7, &[]);
    }
}

/// The whole ticket, byte by byte: its events, the verdict after each of its first bytes, and where it breaks.
pub struct Told {
    heard: Vec<Heard>,
    verdicts: Vec<u8>,
    broken: Option<usize>,
}

impl Told {
    /// The bytes of all events.
    pub fn copy(&self) -> Vec<u8> {
        self.heard.iter().flat_map(|h| h.bytes.iter().copied()).collect()
    }

    /// The verdicts after 0 to `len` bytes, as ../worked.txt has them.
    pub fn verdicts(&self, len: usize) -> String {
        (0..=len).map(|i| self.verdicts.get(i).map_or('R', |&tag| if tag == COMPLETE { 'c' } else { 'i' })).collect()
    }
}

pub fn listen(ticket: &[u8], fault: Fault) -> Told {
    let mut ear = Ear { fault: fault.0, ..Ear::default() };
    let mut reader = IStream::new();
    let tag = |status| if status == Status::Complete { COMPLETE } else { INCOMPLETE };
    let mut verdicts = vec![reader.feed(&[], &mut ear).map_or(BROKEN, tag)];
    for i in 0..ticket.len() {
        ear.at = i + 1;
        match reader.feed(&ticket[i..i + 1], &mut ear) {
            Ok(status) => verdicts.push(tag(status)),
            Err(_) => return Told { heard: ear.heard, verdicts, broken: Some(i + 1) },
        }
    }
    Told { heard: ear.heard, verdicts, broken: None }
}

// ---- the plain copy by the Rust's own writer

/// Whole payloads and arrays, as its writer wants them.
struct Hand<'a, F: Flush> {
    os: OStream<'a, F>,
    bytes: Vec<u8>,
    numbers: Vec<u64>,
    array: Option<(Id, u8, usize)>,
    /// Where a blob's word stands that should be a string's: `write_str` takes valid UTF-8 only. Not known over a sink.
    words: Vec<usize>,
    failed: bool,
}

impl<'a, F: Flush> Hand<'a, F> {
    fn new(os: OStream<'a, F>) -> Hand<'a, F> {
        Hand { os, bytes: Vec::new(), numbers: Vec::new(), array: None, words: Vec::new(), failed: false }
    }

    fn done(&mut self, result: sofab::Result<()>) {
        self.failed |= result.is_err();
    }

    fn element(&mut self, n: u64) -> bool {
        if self.array.is_none() {
            return false;
        }
        self.numbers.push(n);
        self.close_array();
        true
    }

    fn close_array(&mut self) {
        let Some((id, kind, count)) = self.array else { return };
        if self.numbers.len() < count {
            return;
        }
        let numbers = std::mem::take(&mut self.numbers);
        self.array = None;
        let result = match kind {
            0 => self.os.write_array_unsigned(id, &numbers),
            1 => self.os.write_array_signed(id, &numbers.iter().map(|&n| n as i64).collect::<Vec<_>>()),
            2 => self.os.write_array_fp32(id, &numbers.iter().map(|&n| f32::from_bits(n as u32)).collect::<Vec<_>>()),
            _ => self.os.write_array_fp64(id, &numbers.iter().map(|&n| f64::from_bits(n)).collect::<Vec<_>>()),
        };
        self.done(result);
    }

    fn piece(&mut self, id: Id, text: bool, total: usize, part: &[u8]) {
        self.bytes.extend_from_slice(part);
        if self.bytes.len() < total {
            return;
        }
        let bytes = std::mem::take(&mut self.bytes);
        let result = match std::str::from_utf8(&bytes) {
            Ok(valid) if text => self.os.write_str(id, valid),
            _ => self.os.write_blob(id, &bytes),
        };
        if text && !F::SINKS && std::str::from_utf8(&bytes).is_err() {
            self.words.push(self.os.bytes_used() - total - varint_len(total as u64 * 8));
        }
        self.done(result);
    }
}

impl<F: Flush> Visitor for Hand<'_, F> {
    fn unsigned(&mut self, id: Id, value: Unsigned) {
        if !self.element(value) {
            let result = self.os.write_unsigned(id, value);
            self.done(result);
        }
    }
    fn signed(&mut self, id: Id, value: Signed) {
        if !self.element(value as u64) {
            let result = self.os.write_signed(id, value);
            self.done(result);
        }
    }
    fn fp32(&mut self, id: Id, value: f32) {
        if !self.element(value.to_bits() as u64) {
            let result = self.os.write_fp32(id, value);
            self.done(result);
        }
    }
    fn fp64(&mut self, id: Id, value: f64) {
        if !self.element(value.to_bits()) {
            let result = self.os.write_fp64(id, value);
            self.done(result);
        }
    }
    fn string(&mut self, id: Id, total: usize, _: usize, chunk: &[u8]) {
        self.piece(id, true, total, chunk);
    }
    fn blob(&mut self, id: Id, total: usize, _: usize, chunk: &[u8]) {
        self.piece(id, false, total, chunk);
    }
    fn array_begin(&mut self, id: Id, kind: ArrayKind, count: usize) {
        self.array = Some((id, kind as u8, count));
        self.close_array();
    }
    fn sequence_begin(&mut self, id: Id) {
        let result = self.os.write_sequence_begin_lazy(id);
        self.done(result);
    }
    fn sequence_end(&mut self) {
        let result = self.os.write_sequence_end_keep();
        self.done(result);
    }
}

/// The plain copy of a complete ticket.
pub fn plain_copy(ticket: &[u8]) -> Option<Vec<u8>> {
    let mut buf = vec![0; ticket.len()];
    let mut hand = Hand::new(OStream::new(&mut buf));
    let complete = matches!(IStream::new().feed(ticket, &mut hand), Ok(Status::Complete));
    let (len, words, failed) = (hand.os.bytes_used(), hand.words, hand.failed);
    words.iter().for_each(|&at| buf[at] ^= 1);
    buf.truncate(len);
    (complete && !failed).then_some(buf)
}

/// The plain copy's length, or why there is none, as the port's export numbers it. Where the Rust's writer refuses what its reader took it is -1,
/// which the export never answers.
pub fn length(ticket: &[u8]) -> i64 {
    match oracle::verdict(ticket) {
        0 => plain_copy(ticket).map_or(-1, |copy| copy.len() as i64),
        1 => -100,
        _ => -2,
    }
}

/// How often the Rust's writer drains a buffer of so many bytes into a sink for the plain copy, the last flush included; or why there is none,
/// as the port's export numbers it. Where its writer refuses it is -1.
pub fn drains(ticket: &[u8], size: usize) -> i64 {
    if size == 0 {
        return -18;
    }
    match oracle::verdict(ticket) {
        0 => {
            let (mut buf, drains) = (vec![0; size], Cell::new(0));
            let os = OStream::with_flush(&mut buf, 0, |_: &[u8]| drains.set(drains.get() + 1)).expect("a byte is free");
            let mut hand = Hand::new(os);
            let read = IStream::new().feed(ticket, &mut hand);
            hand.os.flush();
            if hand.failed || read.is_err() { -1 } else { drains.get() }
        }
        1 => -100,
        _ => -2,
    }
}

// ---- the copier's calls

/// What a copier over a buffer of `buf.len()` bytes has come to, by what the Rust told of the whole ticket.
struct Desk<'t> {
    told: &'t Told,
    fault: Fault,
    buf: Vec<u8>,
    position: usize,
    owed: Vec<u8>,
    next: usize,
    read: usize,
    end: usize,
    full: bool,
    broke: bool,
}

impl<'t> Desk<'t> {
    fn new(told: &'t Told, fault: Fault, size: usize) -> Desk<'t> {
        Desk { told, fault, buf: fresh(size), position: 0, owed: Vec::new(), next: 0, read: 0, end: 0, full: false, broke: false }
    }

    fn answer(&mut self, out: &mut Vec<u8>, tag: u8, from: usize) {
        let fault = self.fault.0;
        self.full = tag == 1;
        out.push(tag);
        if tag == REFUSED {
            out.push(2);
        }
        let owed = fault == 27 && tag == 1 && !self.owed.is_empty() && from < self.read;
        put_len(out, self.read - from - owed as usize);
        put_len(out, self.position);
        if fault == 31 && self.position < self.buf.len() {
            self.buf[self.position] ^= 1;
        }
        out.extend_from_slice(&self.buf);
    }

    fn put_owed(&mut self) {
        let n = self.owed.len().min(self.buf.len() - self.position);
        self.buf[self.position..self.position + n].copy_from_slice(&self.owed[..n]);
        self.owed.drain(..n);
        self.position += n;
    }

    fn feed(&mut self, out: &mut Vec<u8>) {
        let from = self.read;
        if self.broke {
            return self.answer(out, REFUSED, from);
        }
        loop {
            self.put_owed();
            let no_room = self.position == self.buf.len();
            if !self.owed.is_empty() || self.fault.0 == 25 && no_room && from < self.read {
                return self.answer(out, 1, from);
            }
            match self.told.heard.get(self.next) {
                Some(event) if event.at <= self.end => {
                    if event.piece && no_room {
                        self.read += (self.fault.0 == 26 && self.read < self.end) as usize;
                        return self.answer(out, 1, from);
                    }
                    self.read = event.at;
                    self.owed = event.bytes.clone();
                    self.next += 1;
                }
                _ => break,
            }
        }
        let broken = self.told.broken.filter(|&at| at <= self.end);
        self.read = broken.unwrap_or(self.end);
        self.broke = broken.is_some();
        let tag = if self.broke { REFUSED } else { self.told.verdicts[self.end] };
        self.answer(out, tag, from);
        self.read = self.end;
    }

    fn drain(&mut self, out: &mut Vec<u8>) {
        out.push(4);
        put_len(out, self.position);
        out.extend_from_slice(&self.buf[..self.position]);
        self.position = 0;
    }

    fn act(&mut self, act: Act, last: usize, out: &mut Vec<u8>) {
        match act {
            Act::Feed(n) => {
                if !self.full {
                    self.end = (self.end + n).min(last);
                }
                self.feed(out);
            }
            Act::Drain => self.drain(out),
            Act::Unfit(_) => out.extend_from_slice(&[3, 5]),
            Act::StrayFeed(n) | Act::StrayDrain(n) | Act::StrayChange(n) => {
                if n < self.position {
                    out.extend_from_slice(&[3, 6]);
                    self.position -= (self.fault.0 == 30) as usize;
                } else {
                    out.push(0);
                }
            }
        }
    }
}

/// The answer to a case.
pub fn answer(case: &[u8], fault: Fault, out: &mut Vec<u8>) {
    let mut input = Input { case, at: 0 };
    let (size, count) = (input.number(4) as usize, input.number(4) as usize);
    let ticket = &case[8 + 5 * count..];
    if size == 0 {
        return out.extend_from_slice(&[3, 5]);
    }
    let told = listen(ticket, fault);
    if told.broken.is_none() && told.verdicts[ticket.len()] == COMPLETE && fault.0 == 0 {
        if plain_copy(ticket) != Some(told.copy()) {
            return out.push(BROKEN);
        }
    }
    let mut desk = Desk::new(&told, fault, size);
    for _ in 0..count {
        let code = input.number(1) as u8;
        desk.act(Act::of(code, input.number(4) as usize), ticket.len(), out);
    }
    // What is left, to its verdict, and the last drain.
    loop {
        desk.act(Act::Feed(ticket.len()), ticket.len(), out);
        desk.drain(out);
        if !desk.full {
            return;
        }
    }
}

// ---- schedules

/// What stands between the chunks of a run. `drains`: a drain and an empty chunk before each, and a second drain at "full". `refusals`: before
/// each and at "full" a change to a buffer with no byte free, and a drain, a feed and a change over one that ends below the position.
#[derive(Clone, Copy)]
pub struct Between {
    pub drains: bool,
    pub refusals: bool,
}

pub const PLAIN: Between = Between { drains: false, refusals: false };
pub const DRAINS: Between = Between { drains: true, refusals: false };
pub const REFUSALS: Between = Between { drains: false, refusals: true };
pub const BOTH: Between = Between { drains: true, refusals: true };

/// A schedule, made act by act on what the Rust told of the ticket: so each chunk comes to its end before the next, however often the buffer
/// is full.
struct Schedule<'t> {
    desk: Desk<'t>,
    between: Between,
    len: usize,
    acts: Vec<Act>,
}

impl Schedule<'_> {
    fn make(&mut self, act: Act) {
        self.desk.act(act, self.len, &mut Vec::new());
        self.acts.push(act);
    }

    fn refusals(&mut self) {
        if !self.between.refusals {
            return;
        }
        self.make(Act::Unfit(self.desk.buf.len()));
        // With no byte below the position, no buffer ends there.
        if let Some(below) = self.desk.position.checked_sub(1) {
            [Act::StrayDrain(below), Act::StrayFeed(below), Act::StrayChange(below)].into_iter().for_each(|act| self.make(act));
        }
    }

    fn chunk(&mut self, n: usize) {
        self.make(Act::Feed(n));
        while self.desk.full {
            self.refusals();
            self.make(Act::Drain);
            if self.between.drains {
                self.make(Act::Drain);
            }
            self.make(Act::Feed(n));
        }
    }
}

/// A ticket in these chunks over a buffer of so many bytes.
pub fn run(ticket: &[u8], told: &Told, chunks: &[usize], size: usize, between: Between) -> Copier {
    let mut schedule = Schedule { desk: Desk::new(told, Fault(0), size), between, len: ticket.len(), acts: Vec::new() };
    for &n in chunks {
        schedule.refusals();
        if between.drains {
            schedule.make(Act::Drain);
            schedule.chunk(0);
        }
        schedule.chunk(n);
    }
    Copier { size, acts: schedule.acts, ticket: ticket.to_vec() }
}
