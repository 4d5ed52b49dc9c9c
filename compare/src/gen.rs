//! Cases from a seed: tickets of every kind with damaged copies and cuts, series of gatherer calls, series of writes.

use crate::case::*;
use crate::oracle::{CAPACITIES, SHORT};

/// splitmix64
#[derive(Clone)]
pub struct Random(pub u64);

impl Random {
    pub fn next(&mut self) -> u64 {
        self.0 = self.0.wrapping_add(0x9E37_79B9_7F4A_7C15);
        let mut z = self.0;
        z = (z ^ (z >> 30)).wrapping_mul(0xBF58_476D_1CE4_E5B9);
        z = (z ^ (z >> 27)).wrapping_mul(0x94D0_49BB_1331_11EB);
        z ^ (z >> 31)
    }
    /// A number below n.
    pub fn below(&mut self, n: usize) -> usize {
        (self.next() >> 11) as usize % n
    }
    /// True once in n times.
    pub fn one_in(&mut self, n: usize) -> bool {
        self.below(n) == 0
    }
    pub fn pick<T: Copy>(&mut self, from: &[T]) -> T {
        from[self.below(from.len())]
    }
    pub fn bytes(&mut self, n: usize) -> Vec<u8> {
        (0..n).map(|_| self.next() as u8).collect()
    }
}

/// One case in so many has something long.
const LONG: usize = 200;
const ID_MAX: u64 = 0x7fff_ffff;
const LEGAL_IDS: [u64; 14] = [0, 1, 2, 3, 5, 15, 16, 127, 2047, 2048, 0x0fff_ffff, 0x1000_0000, ID_MAX - 1, ID_MAX];
const OTHER_IDS: [u64; 6] = [ID_MAX + 1, ID_MAX + 2, 0xffff_ffff, 0x1_0000_0000, 0x1_0000_0001, (1 << 61) - 1];
const FP32: [u32; 12] = [
    0, 0x8000_0000, 0x3f80_0000, 0x7f80_0000, 0xff80_0000, 0x7fc0_0000, 0x7fc0_1234, 0xffc0_0001, 0x7f80_0001, 0xffbf_ffff, 1, 0x7f7f_ffff,
];
const FP64: [u64; 12] = [
    0,
    1 << 63,
    0x3ff0_0000_0000_0000,
    0x7ff0_0000_0000_0000,
    0xfff0_0000_0000_0000,
    0x7ff8_0000_0000_0000,
    0x7ff8_0000_dead_beef,
    0xfff8_0000_0000_0001,
    0x7ff0_0000_0000_0001,
    0xfff7_ffff_ffff_ffff,
    1,
    0x7fef_ffff_ffff_ffff,
];
/// Sizes at and around the limit of a length or a count.
const LARGE: [u64; 8] = [ID_MAX - 1, ID_MAX, ID_MAX + 1, 0xffff_ffff, 0x1_0000_0000, 0x1_0000_0004, 1 << 40, (1 << 61) - 1];

pub fn value(r: &mut Random) -> u64 {
    match r.below(6) {
        0 => r.below(4) as u64,
        1 => r.below(300) as u64,
        2 => {
            let bit = r.below(64);
            (1u64 << bit).wrapping_add(r.below(3) as u64).wrapping_sub(1)
        }
        3 => r.pick(&[u64::MAX, u64::MAX - 1, 1 << 63, (1 << 63) - 1, (1 << 63) + 1, (1 << 62), (1 << 62) - 1]),
        4 => {
            let bits = r.below(64);
            r.next() >> bits
        }
        _ => r.next(),
    }
}

/// Lengths and counts that one cut to 8, 10 or 16 bits would show. Those beyond 16 bits are rarer, since they take long.
pub fn long(r: &mut Random) -> usize {
    let least = r.pick(&[256, 256, 256, 1024, 1024, 65_536]);
    least + r.below(40)
}

fn bits32(r: &mut Random) -> u32 {
    if r.one_in(3) { r.next() as u32 } else { r.pick(&FP32) }
}

fn bits64(r: &mut Random) -> u64 {
    if r.one_in(3) { r.next() } else { r.pick(&FP64) }
}

// ---- tickets

struct Ticket<'r> {
    r: &'r mut Random,
    out: Vec<u8>,
    /// One in so many varints is longer than needed; one in ten times as many breaks a rule.
    odd: usize,
    depth: usize,
}

impl Ticket<'_> {
    fn rare(&mut self) -> bool {
        let n = self.odd * 10;
        self.r.one_in(n)
    }

    fn varint(&mut self, mut n: u64) {
        let from = self.out.len();
        while 128 <= n {
            self.out.push(n as u8 | 0x80);
            n >>= 7;
        }
        self.out.push(n as u8);
        let odd = self.odd;
        if self.r.one_in(odd) {
            let room = 10 - (self.out.len() - from);
            let more = if self.rare() { room + 1 } else { self.r.below(room + 1) };
            for _ in 0..more {
                let last = self.out.len() - 1;
                self.out[last] |= 0x80;
                self.out.push(0);
            }
        }
        if self.rare() && self.out.len() - from == 10 {
            let last = self.out.len() - 1;
            self.out[last] = self.r.pick(&[0, 1, 2, 3, 0x7f, 0x80, 0x81, 0xff]);
        }
    }

    fn header(&mut self, kind: u64) {
        let id = if self.rare() { self.r.pick(&OTHER_IDS) } else { self.r.pick(&LEGAL_IDS) };
        self.varint(id << 3 | kind);
    }

    fn payload(&mut self) {
        let subtype = if self.rare() { 4 + self.r.below(4) as u64 } else { 2 + self.r.below(2) as u64 };
        let len = match self.r.below(12) {
            0 | 1 => 0,
            2..=8 => self.r.below(12) as u64,
            9 => self.r.pick(&[4, 8]),
            10 => self.r.below(200) as u64,
            _ if self.rare() => self.r.pick(&LARGE),
            _ => 1,
        };
        self.varint(len << 3 | subtype);
        if len < 300 {
            let bytes = self.r.bytes(len as usize);
            self.out.extend_from_slice(&bytes);
        } else {
            let n = self.r.below(20);
            let bytes = self.r.bytes(n);
            self.out.extend_from_slice(&bytes);
        }
    }

    fn float_word(&mut self, width: u64) {
        let subtype = if width == 4 { 0 } else { 1 };
        let word = if self.rare() {
            let len = self.r.pick(&[0, 3, 4, 5, 7, 8, 9, 16, ID_MAX, ID_MAX + 1, 0x1_0000_0004, 0x1_0000_0008]);
            let subtype = self.r.below(8) as u64;
            len << 3 | subtype
        } else {
            width << 3 | subtype
        };
        self.varint(word);
    }

    fn float(&mut self, width: u64) {
        if width == 4 {
            let bits = bits32(self.r);
            self.out.extend_from_slice(&bits.to_le_bytes());
        } else {
            let bits = bits64(self.r);
            self.out.extend_from_slice(&bits.to_le_bytes());
        }
    }

    fn count(&mut self) -> u64 {
        let n = match self.r.below(8) {
            0 | 1 => 0,
            7 if self.rare() => self.r.pick(&LARGE),
            7 => self.r.below(20) as u64,
            _ => self.r.below(6) as u64,
        };
        self.varint(n);
        n.min(20)
    }

    fn field(&mut self) {
        match self.r.below(11) {
            0 | 1 => {
                self.header(0);
                let v = value(self.r);
                self.varint(v);
            }
            2 => {
                self.header(1);
                let v = value(self.r);
                self.varint(v);
            }
            3 | 4 => {
                self.header(2);
                self.payload();
            }
            5 => {
                self.header(2);
                let width = self.r.pick(&[4, 8]);
                self.float_word(width);
                self.float(width);
            }
            6 => {
                let kind = 3 + self.r.below(2) as u64;
                self.header(kind);
                for _ in 0..self.count() {
                    let v = value(self.r);
                    self.varint(v);
                }
            }
            7 => {
                self.header(5);
                let n = self.count();
                let width = self.r.pick(&[4, 8]);
                self.float_word(width);
                for _ in 0..n {
                    self.float(width);
                }
            }
            8 | 9 => {
                self.header(6);
                self.depth += 1;
            }
            _ => {
                if 0 < self.depth || self.rare() {
                    self.header(7);
                    self.depth = self.depth.saturating_sub(1);
                }
            }
        }
    }

    /// A string, a blob or an array, longer than others.
    fn long(&mut self) {
        let n = long(self.r) as u64;
        match self.r.below(5) {
            0 | 1 => {
                self.header(2);
                let subtype = 2 + self.r.below(2) as u64;
                self.varint(n << 3 | subtype);
                let bytes = self.r.bytes(n as usize);
                self.out.extend_from_slice(&bytes);
            }
            2 | 3 => {
                let kind = 3 + self.r.below(2) as u64;
                self.header(kind);
                self.varint(n);
                for _ in 0..n {
                    let v = self.r.below(200) as u64;
                    self.varint(v);
                }
            }
            _ => {
                self.header(5);
                self.varint(n);
                let width = self.r.pick(&[4, 8]);
                self.float_word(width);
                for _ in 0..n {
                    self.float(width);
                }
            }
        }
    }

    /// The largest id, length or count, or one above.
    fn limit(&mut self) {
        let n = ID_MAX + self.r.below(2) as u64;
        let kind = self.r.below(8) as u64;
        match self.r.below(3) {
            0 => {
                self.varint(n << 3 | kind);
                let v = self.r.below(200) as u64;
                self.varint(v);
            }
            1 => {
                self.header(2);
                let subtype = 2 + self.r.below(2) as u64;
                self.varint(n << 3 | subtype);
            }
            _ => {
                let kind = 3 + kind % 3;
                self.header(kind);
                self.varint(n);
                if kind == 5 {
                    let width = self.r.pick(&[4, 8]);
                    self.float_word(width);
                }
            }
        }
    }

    /// Opens in a row, at and around the deepest nesting, and as many closes.
    fn tower(&mut self) {
        let n = 250 + self.r.below(8);
        for _ in 0..n {
            self.header(6);
        }
        if self.r.one_in(2) {
            self.field();
        }
        let closes = (n + self.r.below(3)).saturating_sub(1);
        for _ in 0..closes {
            self.header(7);
        }
    }
}

fn damage(r: &mut Random, ticket: &mut Vec<u8>) {
    for _ in 0..1 + r.below(3) {
        if ticket.is_empty() {
            return;
        }
        let i = r.below(ticket.len());
        match r.below(6) {
            0 => ticket[i] ^= 1 << r.below(8),
            1 => ticket[i] = r.next() as u8,
            2 => {
                ticket.remove(i);
            }
            3 => ticket.insert(i, r.next() as u8),
            4 => ticket.truncate(i),
            _ => {
                let j = r.below(ticket.len());
                ticket.swap(i, j);
            }
        }
    }
}

fn cuts(r: &mut Random, len: usize) -> Vec<usize> {
    let mut chunks = Vec::new();
    let style = r.below(5);
    let mut left = len;
    while 0 < left {
        if r.one_in(8) && style != 0 {
            chunks.push(0);
        }
        let n = match style {
            0 => left,
            1 => 1,
            2 => 1 + r.below(3),
            3 => 1 + r.below(16),
            _ => 1 + r.below(len),
        };
        chunks.push(n.min(left));
        left -= n.min(left);
    }
    if r.one_in(3) {
        chunks.push(0);
    }
    chunks
}

pub fn ticket(r: &mut Random) -> Vec<u8> {
    if r.one_in(16) {
        let n = r.below(24);
        return r.bytes(n);
    }
    let tower = r.one_in(40);
    let fields = match r.below(4) {
        0 => 1,
        1 => 1 + r.below(3),
        2 => 1 + r.below(8),
        _ => 1 + r.below(20),
    };
    let odd = r.pick(&[4, 20, 1000]);
    let hurt = r.one_in(3);
    let mut t = Ticket { r, out: Vec::new(), odd, depth: 0 };
    if tower {
        t.tower();
    }
    for _ in 0..fields {
        t.field();
    }
    if t.r.one_in(LONG) {
        t.odd = 1000;
        t.long();
    }
    while 0 < t.depth && !t.r.one_in(12) {
        t.header(7);
        t.depth -= 1;
    }
    if t.r.one_in(10) {
        t.limit();
        let n = t.r.below(8);
        let rest = t.r.bytes(n);
        t.out.extend_from_slice(&rest);
    }
    let mut out = t.out;
    if hurt {
        damage(r, &mut out);
    }
    out
}

pub fn reader(r: &mut Random) -> Reader {
    let ticket = ticket(r);
    let chunks = cuts(r, ticket.len());
    Reader { chunks, ticket }
}

// ---- gatherer

pub fn gatherer(r: &mut Random) -> Gatherer {
    let capacity = match r.below(2 * LONG) {
        0 => r.pick(&CAPACITIES[SHORT..]),
        n if n % 4 == 0 => r.pick(&CAPACITIES[..SHORT]),
        _ => r.pick(&CAPACITIES[..12]),
    };
    let mut calls = Vec::new();
    let mut total = 0u64;
    let mut held = 0u64;
    for _ in 0..1 + r.below(12) {
        if r.one_in(15) {
            calls.push(Piece::Reset);
            held = 0;
            continue;
        }
        if r.one_in(4) || total == 0 {
            let near = [0, 1, 2, capacity as u64, (capacity as u64).saturating_sub(1), capacity as u64 + 1, capacity as u64 / 2, 1 << 31, u64::MAX, r.below(capacity + 3) as u64];
            total = r.pick(&near);
        }
        // Most pieces go on where the last one ended; the others come at any place, in every order.
        let offset = match r.below(10) {
            0 | 1 => 0,
            2 => held + 1,
            3 => held.saturating_sub(1),
            4 => r.pick(&[total, total.wrapping_add(1), u64::MAX, 1, capacity as u64]),
            _ => held,
        };
        let owed = total.saturating_sub(held).min(capacity as u64 + 2) as usize;
        let len = match r.below(6) {
            0 => 0,
            1 => owed,
            2 => owed + 1 + r.below(3),
            3 => owed.saturating_sub(1),
            _ => r.below(owed.min(12) + 2),
        };
        let mut shown = total;
        if r.one_in(10) {
            shown = r.below(held as usize % 400 + 2) as u64;
        }
        if offset == 0 {
            held = 0;
        }
        calls.push(Piece::Feed { total: shown, offset, chunk: r.bytes(len) });
        if offset == held && shown <= capacity as u64 {
            held += (len as u64).min(shown.saturating_sub(held));
            if r.one_in(2) && shown <= held {
                held = 0;
                total = 0;
            }
        }
    }
    Gatherer { capacity, calls }
}

// ---- writer

fn id(r: &mut Random) -> u32 {
    if r.one_in(24) { r.pick(&[0x8000_0000, 0x8000_0001, 0xffff_ffff]) } else { r.pick(&LEGAL_IDS) as u32 }
}

fn text(r: &mut Random, n: usize) -> Vec<u8> {
    let mut s = String::new();
    for _ in 0..n {
        s.push(r.pick(&['a', 'Z', '0', '\0', '\u{7f}', 'é', '€', '😀', '\u{ffff}']));
    }
    s.into_bytes()
}

fn size(r: &mut Random) -> usize {
    match r.below(10) {
        0 | 1 => 0,
        2..=6 => r.below(8),
        7 | 8 => r.below(24),
        _ => 100 + r.below(80),
    }
}

/// Elements, and a width that holds them all.
fn elements(r: &mut Random) -> (u8, Vec<u64>) {
    let width = r.below(4) as u8;
    let n = size(r);
    let limit = if width == 3 { u64::MAX } else { (1u64 << (8 << width)) - 1 };
    let data = (0..n).map(|_| {
        let v = value(r);
        if r.one_in(8) { limit } else { v & limit }
    });
    (width, data.collect())
}

fn signed_elements(r: &mut Random) -> (u8, Vec<i64>) {
    let width = r.below(4) as u8;
    let n = size(r);
    let bits = 8u32 << width;
    let data = (0..n).map(|_| {
        let v = if r.one_in(8) { 1 << (bits - 1) } else { value(r) };
        (v << (64 - bits)) as i64 >> (64 - bits)
    });
    (width, data.collect())
}

fn content(r: &mut Random) -> Call {
    let id = id(r);
    match r.below(13) {
        0 | 1 => Call::Unsigned(id, value(r)),
        2 => Call::Signed(id, value(r) as i64),
        3 => Call::Boolean(id, r.one_in(2)),
        4 => {
            let n = size(r);
            let subtype = r.below(4) as u8;
            Call::Fixlen(id, subtype, r.bytes(n))
        }
        5 => Call::Fp32(id, bits32(r)),
        6 => Call::Fp64(id, bits64(r)),
        7 => {
            let n = size(r) / 3;
            Call::Str(id, text(r, n))
        }
        8 => {
            let n = size(r);
            Call::Blob(id, r.bytes(n))
        }
        9 => {
            let (width, data) = elements(r);
            Call::ArrayUnsigned(id, width, data)
        }
        10 => {
            let (width, data) = signed_elements(r);
            Call::ArraySigned(id, width, data)
        }
        // Every second array has no NaN: only such a one can be given as floats.
        11 => {
            let n = size(r) / 2;
            let plain = r.one_in(2);
            let bits = (0..n).map(|_| bits32(r)).map(|b| if plain && 0x7f80_0000 < b % 0x8000_0000 { 0x3f80_0001 } else { b });
            Call::ArrayFp32(id, bits.collect())
        }
        _ => {
            let n = size(r) / 2;
            let plain = r.one_in(2);
            let bits = (0..n).map(|_| bits64(r)).map(|b| if plain && 0x7ff0_0000_0000_0000 < b % (1 << 63) { 0xbff0_0000_0000_0001 } else { b });
            Call::ArrayFp64(id, bits.collect())
        }
    }
}

fn room(r: &mut Random) -> (usize, u32) {
    let length = match r.below(8) {
        0 => 1,
        1 => r.below(4),
        2 | 3 => 1 + r.below(8),
        4 | 5 => 1 + r.below(32),
        6 => 64 + r.below(64),
        _ => 300 + r.below(200),
    };
    let offset = match r.below(6) {
        0 => r.below(length + 2) as u32,
        1 => r.pick(&[length as u32, length as u32 + 1, (length as u32).saturating_sub(1), u32::MAX]),
        _ => 0,
    };
    (length, offset)
}

/// Long payloads and arrays, into buffers that aren't short: each call on an array of integers costs what is out.
fn long_writer(r: &mut Random) -> Writer {
    let length = r.pick(&[400, 4096, 70_000]);
    let drained = r.one_in(2);
    let mut calls = vec![Call::Begin(1)];
    for _ in 0..1 + r.below(3) {
        let n = long(r);
        let id = r.pick(&LEGAL_IDS) as u32;
        calls.push(match r.below(7) {
            0 => Call::Str(id, text(r, n)),
            1 => Call::Blob(id, r.bytes(n)),
            2 => Call::Fixlen(id, 3, r.bytes(n)),
            3 => Call::ArrayUnsigned(id, 3, (0..n).map(|_| value(r)).collect()),
            4 => Call::ArraySigned(id, 3, (0..n).map(|_| value(r) as i64).collect()),
            5 => Call::ArrayFp32(id, (0..n as u32).collect()),
            _ => Call::ArrayFp64(id, (0..n as u64).collect()),
        });
    }
    calls.push(Call::End);
    Writer { drained, length, offset: 0, calls }
}

pub fn writer(r: &mut Random) -> Writer {
    if r.one_in(2 * LONG) {
        return long_writer(r);
    }
    let mut w = short_writer(r);
    if r.one_in(10) {
        // The largest id, or one above.
        let id = ID_MAX as u32 + r.below(2) as u32;
        let i = r.below(w.calls.len() + 1);
        let call = match content(r) {
            Call::Unsigned(_, v) => Call::Unsigned(id, v),
            Call::Signed(_, v) => Call::Signed(id, v),
            Call::Fp32(_, v) => Call::Fp32(id, v),
            Call::Str(_, v) => Call::Str(id, v),
            Call::Blob(_, v) => Call::Blob(id, v),
            Call::ArrayUnsigned(_, w, v) => Call::ArrayUnsigned(id, w, v),
            Call::ArrayFp64(_, v) => Call::ArrayFp64(id, v),
            _ => Call::Begin(id),
        };
        w.calls.insert(i, call);
    }
    w
}

fn short_writer(r: &mut Random) -> Writer {
    let (length, offset) = room(r);
    let drained = r.one_in(2);
    let mut calls = Vec::new();
    if r.one_in(60) {
        // Nesting up to its limit, and most often beyond: the last opens are refused.
        for _ in 0..253 + r.below(6) {
            calls.push(Call::Begin(r.pick(&LEGAL_IDS) as u32));
        }
    }
    let opens = r.below(13);
    let steps = 1 + r.below(6);
    for _ in 0..steps {
        if r.one_in(2) {
            for _ in 0..r.below(opens + 1) {
                calls.push(Call::Begin(id(r)));
            }
        }
        for _ in 0..r.below(3) {
            calls.push(content(r));
        }
        for _ in 0..r.below(opens + 2) {
            calls.push(if r.one_in(4) { Call::EndKeep } else { Call::End });
        }
        if r.one_in(6) {
            calls.push(Call::Flush);
        }
        if r.one_in(6) {
            let (length, offset) = room(r);
            calls.push(Call::BufferSet(length, offset));
        }
    }
    Writer { drained, length, offset, calls }
}

// ---- the corpus of short tickets, for every cut

/// A ticket of ../worked.txt: the verdicts after 0, 1, 2 .. of its bytes, and its copy.
pub struct Worked {
    pub ticket: Vec<u8>,
    pub verdicts: String,
    pub copy: Vec<u8>,
}

/// What was worked out by hand.
pub fn table() -> Vec<Worked> {
    let bytes = |word: &str| crate::bytes::unhex(word.trim_matches('.')).expect("hexadecimal");
    let lines = include_str!("../worked.txt").lines().filter(|l| !l.starts_with('#'));
    lines
        .map(|l| match l.split(' ').collect::<Vec<_>>()[..] {
            [ticket, verdicts] => Worked { ticket: bytes(ticket), verdicts: verdicts.to_string(), copy: bytes(ticket) },
            [ticket, verdicts, copy] => Worked { ticket: bytes(ticket), verdicts: verdicts.to_string(), copy: bytes(copy) },
            _ => panic!("no worked message: {l}"),
        })
        .collect()
}

/// Worked bytes of the layout and its limits, and the tickets of the table: but for two of these, each of at most twelve bytes.
pub fn worked() -> Vec<Vec<u8>> {
    let worked = [
        "08ac02", "1101", "09ffffffffffffffffff01", "09ffffffffffffffffff02", "09ffffffffffffffffff81", "1a124869", "1a03", "1a02", "1a04", "22200000803f", "2218", "2b020102", "2d0041", "2d0020",
        "2d00", "f8ffffff3f00", "8080808040", "03ffffffff07", "038080808008", "8800ac8200", "360f", "3607", "07", "0e161e262e363e464e070707", "3608ac0207", "0a41000000000000f07f", "0a20010080ff", "0a2000000080",
        "0a41010000000000f87f", "0d02200000803f000000c0", "0d012001", "0d0122", "0d0042", "0d0023", "0d004000", "0c0301020304", "0300", "0400", "0b", "0a", "0a4b", "0a2a68656c6c6f08", "0a0b78", "0600070607", "0e0e0f0700",
        "80808080808080808000", "80808080808080808001", "80808080808080808002", "8080808080808080808000", "fbffffff3f00", "faffffff3f03", "0afaffffffff3f", "0afbffffff3f0102", "0a828080808001", "0a8380808040", "0d8080808008", "05ffffffff0720",
        "0803090306070707", "000000000000", "ffffffffff", "ffffffffffffffffffff", "02a1000000803f", "021a616263", "02930061", "0d810020000080bf", "05802020", "", "06060606060607070707",
    ];
    let mut found: Vec<Vec<u8>> = worked.iter().map(|w| crate::bytes::unhex(w).expect("hexadecimal")).collect();
    found.extend(table().into_iter().map(|w| w.ticket).filter(|t| !worked.contains(&&crate::bytes::hex(t)[..])));
    found
}

/// Random tickets of at most twelve bytes in the corpus.
const SHORT_TICKETS: usize = 332;

/// The worked tickets, and random ones.
pub fn corpus() -> Vec<Vec<u8>> {
    let mut found = worked();
    let most = found.len() + SHORT_TICKETS;
    let mut r = Random(12);
    while found.len() < most {
        let t = ticket(&mut r);
        if t.len() <= 12 && !found.contains(&t) {
            found.push(t);
        }
    }
    found
}
