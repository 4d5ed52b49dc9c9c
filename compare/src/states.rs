//! Calls on freely chosen states, sound or not, and from freely chosen places: what the Rust cannot be given. What is due is worked out here from
//! 01 (sound states, the refusals in their order, "full", the gatherer's text), not from the port's code: numbers 1, 3, 6 and 11 among
//! others, the answer, and that a refused call alters nothing. A reader's sound state is brought about in the Rust by the bytes that lead to it,
//! and its call is held to the Rust's own.

use crate::bytes::hex;
use crate::gen::Random;
use crate::port::{self, Desk};
use sofab::{ArrayKind, FixlenType, IStream, Id, Signed, Status, Unsigned, Visitor};

const MAX: u64 = 0x7fff_ffff;

/// What is due of a call: the words that it leaves, by their places, and the buffer.
struct Due {
    words: Vec<(usize, u64)>,
    buf: Vec<u8>,
}

// ---- numbers at and around a limit

fn near(r: &mut Random, limit: u64) -> u64 {
    match r.below(8) {
        0 => limit,
        1 if limit < u64::MAX => limit + 1,
        2 => 0,
        3 => r.next() >> 32,
        _ => r.below(limit.min(300) as usize + 1) as u64,
    }
}

fn id(r: &mut Random) -> u64 {
    near(r, MAX)
}

fn varint_bytes(mut n: u64) -> Vec<u8> {
    let mut out = Vec::new();
    while 128 <= n {
        out.push(n as u8 | 128);
        n >>= 7;
    }
    out.push(n as u8);
    out
}

// ---- the reader

/// Whether a reader's words can be: phase, depth, kind, id, count, bytes taken, value.
fn sound_reader(d: &Desk) -> bool {
    let [phase, depth, kind, id, count, taken, value] = [d[0], d[1], d[2], d[3], d[4], d[5], d[6]];
    let varint = taken <= 9 && (taken == 9 && value < 1 << 63 || taken < 9 && value < 1 << (7 * taken));
    let width = if kind == 0 { 4 } else { 8 };
    match phase {
        11 => true,
        _ if 255 < depth => false,
        0 => varint,
        1..=7 => id <= MAX && count <= MAX && varint,
        8 => id <= MAX && count <= MAX && taken < width && value < 1 << (8 * taken),
        9 => id <= MAX && (1..=MAX).contains(&count) && value < count,
        _ => id <= MAX,
    }
}

/// A reader's state, whose words that aren't in force are 0.
fn reader_state(r: &mut Random, d: &mut Desk) {
    d[0] = r.below(12) as u64;
    d[1] = if d[0] == 11 { 0 } else { r.pick(&[0, 0, 0, 1, 2, 254, 255]) };
    if d[0] == 11 {
        return;
    }
    if d[0] != 0 {
        d[3] = id(r) & 0xffff_ffff;
    }
    if matches!(d[0], 1 | 2 | 7 | 8) {
        d[4] = near(r, MAX) & 0xffff_ffff;
    }
    match d[0] {
        0..=7 => {
            d[5] = r.below(12) as u64;
            let bits = 7 * d[5].min(9);
            let small = if bits == 0 { 0 } else { r.next() >> (64 - bits) };
            d[6] = if r.one_in(5) { near(r, 1 << bits.min(63)) } else { small };
        }
        8 => {
            d[2] = r.below(2) as u64;
            d[5] = r.below(10) as u64;
            let bits = 8 * d[5].min(7);
            d[6] = if r.one_in(5) { near(r, 1 << bits) } else if bits == 0 { 0 } else { r.next() >> (64 - bits) };
        }
        9 => {
            d[2] = 2 + r.below(2) as u64;
            d[4] = near(r, MAX) & 0xffff_ffff;
            d[6] = if r.one_in(3) { d[4] } else { near(r, d[4]) & 0xffff_ffff };
        }
        _ => d[2] = 2 + r.below(2) as u64,
    }
}

/// The bytes that bring a fresh reader to a sound state, if they are few.
fn way(d: &Desk) -> Option<Vec<u8>> {
    let mut out = vec![6; d[1] as usize];
    let mut header = |kind: u64| out.extend_from_slice(&varint_bytes(d[3] << 3 | kind));
    let under_way = |out: &mut Vec<u8>| (0..d[5]).for_each(|k| out.push((d[6] >> (7 * k)) as u8 & 0x7f | 0x80));
    match d[0] {
        0 => {}
        1 | 2 if d[4] == 0 => header(d[0] - 1),
        1 | 2 => header(d[0] + 2),
        3 => header(2),
        4..=6 => header(d[0] - 1),
        7 => header(5),
        8 => header(if d[4] == 0 { 2 } else { 5 }),
        9 => header(2),
        _ => return None,
    }
    if matches!(d[0], 1 | 2 | 8) && d[4] != 0 || d[0] == 7 {
        out.extend_from_slice(&varint_bytes(d[4]));
    }
    match d[0] {
        8 => {
            out.extend_from_slice(&varint_bytes(if d[2] == 0 { 4 << 3 } else { 8 << 3 | 1 }));
            out.extend_from_slice(&d[6].to_le_bytes()[..d[5] as usize]);
        }
        9 if d[6] < 5000 => {
            out.extend_from_slice(&varint_bytes(d[4] << 3 | d[2]));
            out.resize(out.len() + d[6] as usize, 0);
        }
        9 => return None,
        _ => under_way(&mut out),
    }
    Some(out)
}

/// The first event of a call, as the desk's words 23 and 25 to 30.
#[derive(Default)]
struct First {
    event: Option<[u64; 7]>,
    chunk: usize,
}

impl First {
    fn put(&mut self, event: [u64; 7]) {
        self.event.get_or_insert(event);
    }
    fn piece(&mut self, id: Id, kind: u64, total: usize, offset: usize, part: &[u8]) {
        let from = if part.is_empty() { 0 } else { part.as_ptr() as usize - self.chunk };
        self.put([7, id as u64, kind, total as u64, offset as u64, from as u64, (from + part.len()) as u64]);
    }
}

impl Visitor for First {
    fn unsigned(&mut self, id: Id, value: Unsigned) {
        self.put([1, id as u64, 0, value, 0, 0, 0]);
    }
    fn signed(&mut self, id: Id, value: Signed) {
        self.put([2, id as u64, 0, value as u64, 0, 0, 0]);
    }
    fn fp32(&mut self, id: Id, value: f32) {
        self.put([3, id as u64, 0, value.to_bits() as u64, 0, 0, 0]);
    }
    fn fp64(&mut self, id: Id, value: f64) {
        self.put([4, id as u64, 0, value.to_bits(), 0, 0, 0]);
    }
    fn string(&mut self, id: Id, total: usize, offset: usize, chunk: &[u8]) {
        self.piece(id, 2, total, offset, chunk);
    }
    fn blob(&mut self, id: Id, total: usize, offset: usize, chunk: &[u8]) {
        self.piece(id, 3, total, offset, chunk);
    }
    fn fixlen_begin(&mut self, id: Id, subtype: FixlenType, total: usize) {
        self.put([6, id as u64, subtype as u64, total as u64, 0, 0, 0]);
    }
    fn array_begin(&mut self, id: Id, kind: ArrayKind, count: usize) {
        self.put([5, id as u64, kind as u64, count as u64, 0, 0, 0]);
    }
    fn sequence_begin(&mut self, id: Id) {
        self.put([8, id as u64, 0, 0, 0, 0, 0]);
    }
    fn sequence_end(&mut self) {
        self.put([9, 0, 0, 0, 0, 0, 0]);
    }
}

/// Words as they stood, and an answer with nothing read.
fn kept(d: &Desk, words: std::ops::Range<usize>, answer: &[(usize, u64)], buf: &[u8]) -> Due {
    Due { words: words.map(|i| (i, d[i])).chain(answer.iter().copied()).collect(), buf: buf.to_vec() }
}

fn told(event: [u64; 7]) -> Vec<(usize, u64)> {
    [23, 25, 26, 27, 28, 29, 30].into_iter().zip(event).collect()
}

/// How many bytes of the chunk a reader that comes this way reads, one by one, up to its first event or refusal.
fn first_byte(way: &[u8], chunk: &[u8]) -> u64 {
    let mut reader = IStream::new();
    let _ = reader.feed(way, &mut First::default());
    let mut first = First::default();
    let stops = chunk.iter().position(|b| reader.feed(std::slice::from_ref(b), &mut first).is_err() || first.event.is_some());
    stops.map_or(chunk.len(), |i| i + 1) as u64
}

/// What is due of a reader's call, where it is known.
fn read_due(d: &Desk, chunk: &[u8]) -> Option<Due> {
    if !sound_reader(d) {
        return Some(kept(d, 0..7, &[(23, 18), (24, 0), (27, 1)], &[]));
    }
    if d[0] == 11 {
        return Some(kept(d, 0..7, &[(23, 18), (24, 0), (27, 2)], &[]));
    }
    if d[0] == 10 {
        // An empty payload's one piece is due, and nothing is read.
        let mut words = told([7, d[3], d[2], 0, 0, 0, 0]);
        words.extend([(24, 0), (0, 0), (1, d[1]), (2, 0), (3, 0), (4, 0), (5, 0), (6, 0)]);
        return Some(Due { words, buf: Vec::new() });
    }
    let way = way(d)?;
    let mut reader = IStream::new();
    if way.len() != 0 && reader.feed(&way, &mut First::default()).is_err() {
        return None;
    }
    let read = first_byte(&way, chunk);
    let mut first = First { event: None, chunk: chunk.as_ptr() as usize };
    let words = match (reader.feed(chunk, &mut first), first.event) {
        (_, Some(event)) => [told(event), vec![(24, if event[0] == 7 { event[6] } else { read })]].concat(),
        (Ok(Status::Complete), None) => vec![(23, 16), (24, chunk.len() as u64)],
        (Ok(Status::Incomplete), None) => vec![(23, 17), (24, chunk.len() as u64)],
        (Err(_), None) => vec![(23, 18), (24, read), (27, 2), (0, 11), (1, 0)],
    };
    Some(Due { words, buf: Vec::new() })
}

// ---- the gatherer

fn gather_due(d: &Desk, buf: &[u8], chunk: &[u8]) -> Due {
    let (mut held, mut complete, total, offset) = (d[0], d[1], d[27], d[28]);
    let room = buf.len() as u64;
    let mut buf = buf.to_vec();
    let said = |held, complete, tag, n, buf| Due { words: vec![(0, held), (1, complete), (23, tag), (24, n)], buf };
    if room < held {
        return said(held, complete, 3, 3, buf);
    }
    if offset == 0 {
        (held, complete) = (0, 0);
    } else if complete == 1 {
        return said(held, complete, 0, 0, buf);
    }
    if room < total {
        return said(held, complete, 3, 4, buf);
    }
    if offset == 0 && total <= chunk.len() as u64 {
        return said(held, 1, 1, total, buf);
    }
    if offset != held {
        return said(held, complete, 0, 0, buf);
    }
    let n = (total.saturating_sub(held) as usize).min(chunk.len());
    let at = held as usize;
    buf[at..at + n].copy_from_slice(&chunk[..n]);
    held += n as u64;
    if held < total {
        return said(held, complete, 0, 0, buf);
    }
    said(held, 1, 2, total, buf)
}

/// The part that the second call returns, of any answer, state and slices.
fn part_due(d: &Desk, buf: &[u8], chunk: &[u8]) -> Vec<u8> {
    let from = match d[23] {
        _ if (buf.len() as u64) < d[0] => &[][..],
        1 => chunk,
        2 => buf,
        _ => &[],
    };
    from.get(..d[24] as usize).unwrap_or(&[]).to_vec()
}

// ---- the writer

fn sound_writer(d: &Desk, room: usize) -> bool {
    let held = d[9] as usize;
    d[7] <= room as u64 && held <= 8 && d[9] <= d[8] && d[8] <= 255 && d[10..10 + held].iter().all(|&i| i <= MAX) && d[10 + held..18].iter().all(|&i| i == 0)
}

fn writer_state(r: &mut Random, d: &mut Desk, room: usize) {
    d[7] = match r.below(12) {
        0 => room as u64 + 1,
        1 => u64::MAX,
        2 => room as u64,
        _ => r.below(room + 1) as u64,
    };
    d[9] = match r.below(12) {
        0 => 9,
        1 => 65_535,
        2 => 8,
        _ => r.below(9) as u64,
    };
    d[8] = match r.below(8) {
        0 => 254 + r.below(3) as u64,
        1 => d[9].saturating_sub(1),
        2 => 65_535,
        3 => 0,
        _ => d[9].min(8) + r.below(4) as u64,
    };
    for i in 0..d[9].min(8) as usize {
        d[10 + i] = if r.one_in(30) { MAX + 1 } else { r.pick(&[0, 1, 15, 16, 300, MAX]) };
    }
    // Now and then a place that isn't used isn't 0.
    if d[9] < 8 && r.one_in(12) {
        d[10 + d[9] as usize + r.below(8 - d[9] as usize)] = 1;
    }
}

fn held_headers(d: &Desk) -> Vec<u8> {
    d[10..10 + d[9] as usize].iter().flat_map(|&i| varint_bytes(i << 3 | 6)).collect()
}

fn elements(data: &[u8], of: fn(u64) -> u64) -> Vec<u8> {
    data.chunks_exact(8).flat_map(|c| varint_bytes(of(u64::from_le_bytes(c.try_into().expect("8"))))).collect()
}

fn zigzag(n: u64) -> u64 {
    let v = n as i64 as i128;
    (if v < 0 { -2 * v - 1 } else { 2 * v }) as u64
}

/// A call's own refusals in their order after number 6, and its field's bytes.
fn field(code: u8, d: &Desk, data: &[u8]) -> Result<Vec<u8>, u64> {
    let header = |kind: u64| varint_bytes(d[25] << 3 | kind);
    let payload = |subtype: u64| [header(2), varint_bytes((data.len() as u64) << 3 | subtype), data.to_vec()].concat();
    if code == 4 && d[26] == 2 {
        return Err(7);
    }
    if code <= 12 && MAX < d[25] || matches!(code, port::FP32_BITS | port::FP64_BITS) && MAX < d[25] {
        return Err(9);
    }
    Ok(match code {
        1 => [header(0), varint_bytes(d[27])].concat(),
        2 => [header(1), varint_bytes(zigzag(d[27]))].concat(),
        3 => [header(0), vec![(d[27] != 0) as u8]].concat(),
        4 => payload(d[26]),
        5 => [header(2), vec![4 << 3], d[27].to_le_bytes()[..4].to_vec()].concat(),
        6 => [header(2), vec![8 << 3 | 1], d[27].to_le_bytes().to_vec()].concat(),
        7 => payload(2),
        8 => payload(3),
        port::UNSIGNEDS => [header(3), varint_bytes(data.len() as u64 / 8), elements(data, |n| n)].concat(),
        port::SIGNEDS => [header(4), varint_bytes(data.len() as u64 / 8), elements(data, zigzag)].concat(),
        port::FP32_BITS => [header(5), varint_bytes(data.len() as u64 / 4), vec![4 << 3], data.to_vec()].concat(),
        _ => [header(5), varint_bytes(data.len() as u64 / 8), vec![8 << 3 | 1], data.to_vec()].concat(),
    })
}

/// A write as 01 has it: its whole output, and the depth and the held ids that it leaves.
fn output(code: u8, d: &Desk, data: &[u8]) -> Result<(Vec<u8>, u64, Vec<u64>), u64> {
    let (depth, held) = (d[8], d[10..10 + d[9] as usize].to_vec());
    match code {
        13 if depth == 255 => Err(8),
        13 if MAX < d[25] => Err(9),
        13 if held.len() < 8 => Ok((Vec::new(), depth + 1, [held, vec![d[25]]].concat())),
        13 => Ok(([held_headers(d), varint_bytes(d[25] << 3 | 6)].concat(), depth + 1, Vec::new())),
        14 | 15 if depth == 0 => Err(8),
        14 if !held.is_empty() => Ok((Vec::new(), depth - 1, held[..held.len() - 1].to_vec())),
        14 | 15 => Ok(([held_headers(d), vec![7]].concat(), depth - 1, Vec::new())),
        _ => Ok(([held_headers(d), field(code, d, data)?].concat(), depth, Vec::new())),
    }
}

fn write_due(code: u8, d: &Desk, data: &[u8], buf: &[u8]) -> Due {
    let refused = |number| kept(d, 7..18, &[(23, 3), (24, number)], buf);
    if !sound_writer(d, buf.len()) {
        return refused(6);
    }
    let (out, depth, held) = match output(code, d, data) {
        Ok(o) => o,
        Err(number) => return refused(number),
    };
    if (out.len() as u64) < d[31] {
        return refused(11);
    }
    let (at, place) = (d[7] as usize, d[31] as usize);
    let n = (out.len() - place).min(buf.len() - at);
    let mut buf = buf.to_vec();
    buf[at..at + n].copy_from_slice(&out[place..place + n]);
    let mut words = vec![(7, (at + n) as u64)];
    if place + n < out.len() {
        words.extend([(23, 1), (24, (place + n) as u64)]);
        words.extend((8..18).map(|i| (i, d[i])));
    } else {
        words.extend([(23, 0), (24, 0), (8, depth), (9, held.len() as u64)]);
        words.extend((0..8).map(|i| (10 + i, held.get(i).copied().unwrap_or(0))));
    }
    Due { words, buf }
}

/// Drain and buffer change, of a writer or a copier's.
fn change_due(change: Option<usize>, drained: bool, d: &Desk, buf: &[u8], words: std::ops::Range<usize>) -> Due {
    let offset = d[28];
    if change.is_some_and(|new| (new as u64) < offset || drained && new as u64 == offset) {
        return kept(d, words, &[(23, 3), (24, 5)], buf);
    }
    if !sound_writer(d, buf.len()) {
        return kept(d, words, &[(23, 3), (24, 6)], buf);
    }
    let mut due = kept(d, words, &[(23, 4), (24, d[7])], buf);
    due.words.iter_mut().filter(|w| w.0 == 7).for_each(|w| w.1 = if change.is_some() { offset } else { 0 });
    due
}

/// A write that goes on, at each "full", in another buffer instead of after a drain: together the buffers hold its output.
fn changes(r: &mut Random, seen: &mut Seen) -> Result<(), String> {
    let mut d: Desk = [0; 32];
    let mut buf = vec![0; 1 + r.below(6)];
    writer_state(r, &mut d, buf.len());
    let code = r.pick(&[1, 2, 6, 7, 8, port::UNSIGNEDS, port::SIGNEDS, port::FP32_BITS, 13, 14, 15]);
    d[25] = id(r) & 0xffff_ffff;
    d[27] = crate::gen::value(r);
    let n = 8 * r.below(5);
    let data = r.bytes(n);
    if !sound_writer(&d, buf.len()) {
        return Ok(());
    }
    let Ok((out, ..)) = output(code, &d, &data) else { return Ok(()) };
    let before = d;
    let mut sent = Vec::new();
    let mut from = d[7] as usize;
    loop {
        port::call(code, &mut d, &data, &mut buf);
        seen.calls += 1;
        let (said, place) = (d[23], d[24]);
        sent.extend_from_slice(buf.get(from..d[7] as usize).unwrap_or(&[]));
        if said != 1 || out.len() < sent.len() {
            break;
        }
        let new = vec![0; 2 + r.below(6)];
        from = r.below(2);
        (d[26], d[28]) = (1, from as u64);
        port::call(port::CHANGE, &mut d, &new, &mut buf);
        seen.calls += 1;
        buf = new;
        d[31] = place;
    }
    seen.judged += 1;
    if d[23] == 0 && sent == out {
        return Ok(());
    }
    Err(format!("call {code} on {before:?}, {}, in other buffers at \"full\": due {}, sent {}", hex(&data), hex(&out), hex(&sent)))
}

// ---- the copier

/// The bytes of what is owed; nothing where the layout does not allow it.
fn owed_bytes(d: &Desk) -> Option<Vec<u8>> {
    let [owed, id, kind, value] = [d[18], d[19], d[20], d[21]];
    if MAX < id || matches!(owed, 8 | 9) && MAX < value {
        return None;
    }
    let header = |wire: u64| varint_bytes(id << 3 | wire);
    Some(match owed {
        1 => [header(0), varint_bytes(value)].concat(),
        2 => [header(1), varint_bytes(zigzag(value))].concat(),
        3 => varint_bytes(value),
        4 => varint_bytes(zigzag(value)),
        5 => value.to_le_bytes()[..4].to_vec(),
        6 => value.to_le_bytes().to_vec(),
        7 => [header(2), vec![if kind == 0 { 4 << 3 } else { 8 << 3 | 1 }]].concat(),
        8 => [header(2), varint_bytes(value << 3 | kind)].concat(),
        9 => [header(if kind < 2 { 3 + kind } else { 5 }), varint_bytes(value), [vec![], vec![], vec![32], vec![65]][kind as usize].clone()].concat(),
        10 => header(6),
        _ => vec![7],
    })
}

fn copier_state(r: &mut Random, d: &mut Desk, room: usize) {
    reader_state(r, d);
    d[7] = if r.one_in(10) { room as u64 + 1 } else { r.below(room + 1) as u64 };
    d[18] = if r.one_in(3) { 0 } else { r.below(12) as u64 };
    if matches!(d[18], 1 | 2 | 7..=10) {
        d[19] = id(r) & 0xffff_ffff;
    }
    d[20] = match d[18] {
        7 => r.below(2) as u64,
        8 => 2 + r.below(2) as u64,
        9 => r.below(4) as u64,
        _ => 0,
    };
    d[21] = match d[18] {
        1..=4 | 6 => crate::gen::value(r),
        5 => r.next() >> 32,
        8 | 9 => near(r, MAX) & 0xffff_ffff,
        _ => 0,
    };
    d[22] = r.pick(&[0, 0, 1, 2, 3, 9, 10, 200]);
    let right = match d[18] {
        10 => d[1].wrapping_sub(1) & 0xffff,
        11 => d[1] + 1,
        _ => d[1],
    };
    d[8] = if r.one_in(8) { r.below(3) as u64 } else { right };
    if r.one_in(10) {
        (d[9], d[10]) = (1, 5);
    }
    if r.one_in(20) {
        d[10] = 1;
    }
}

fn sound_copier(d: &Desk, room: usize) -> bool {
    if !sound_writer(d, room) || d[9] != 0 {
        return false;
    }
    if d[0] == 11 {
        return d[18] == 0;
    }
    let legal = d[18] == 0 || owed_bytes(d).is_some_and(|b| d[22] < b.len() as u64);
    let depth = match d[18] {
        10 => d[8] + 1,
        11 => d[8].wrapping_sub(1),
        _ => d[8],
    };
    legal && depth == d[1]
}

/// What is due of a copier's feed: all of it where it is refused, or where what is owed does not fit or nothing is given to read.
fn copy_due(d: &Desk, chunk: &[u8], buf: &[u8]) -> Option<Due> {
    let refused = |number| Some(kept(d, 0..23, &[(23, 18), (24, 0), (27, number)], buf));
    if !sound_reader(d) {
        return refused(1);
    }
    if !sound_copier(d, buf.len()) {
        return refused(6);
    }
    if d[0] == 11 {
        return refused(2);
    }
    let rest = if d[18] == 0 { Vec::new() } else { owed_bytes(d)?[d[22] as usize..].to_vec() };
    let (at, room) = (d[7] as usize, buf.len() - d[7] as usize);
    let n = rest.len().min(room);
    let mut out = buf.to_vec();
    out[at..at + n].copy_from_slice(&rest[..n]);
    if n < rest.len() {
        let mut due = kept(d, 0..23, &[(23, 1), (24, 0)], &out);
        due.words.iter_mut().for_each(|w| match w.0 {
            7 => w.1 = buf.len() as u64,
            22 => w.1 += n as u64,
            _ => {}
        });
        return Some(due);
    }
    if !chunk.is_empty() || d[0] == 10 {
        return None;
    }
    let between = d[0] == 0 && d[5] == 0 && d[1] == 0;
    Some(Due { words: vec![(23, if between { 16 } else { 17 }), (24, 0), (7, (at + n) as u64), (8, d[1]), (18, 0), (22, 0)], buf: out })
}

// ---- a case

/// Which refusals were due, by number, and how many calls.
#[derive(Default)]
pub struct Seen {
    pub numbers: [u64; 12],
    pub calls: u64,
    pub judged: u64,
}

/// One call on a state; answers whether it was as due, or what it was.
pub fn turn(r: &mut Random, fault: usize, seen: &mut Seen) -> Result<(), String> {
    if r.one_in(12) {
        return changes(r, seen);
    }
    let room = r.pick(&[0, 1, 2, 5, 20, 40]);
    let mut buf = r.bytes(room);
    let n = r.below(14);
    let mut chunk = if r.one_in(2) { crate::gen::ticket(r) } else { r.bytes(n) };
    chunk.truncate(200);
    let mut d: Desk = [0; 32];
    let (code, due) = match r.below(5) {
        0 => {
            reader_state(r, &mut d);
            d[31] = r.below(2) as u64;
            (port::READ, read_due(&d, &chunk))
        }
        1 => {
            d[0] = near(r, room as u64);
            d[1] = r.below(2) as u64;
            d[27] = near(r, room as u64);
            d[28] = if r.one_in(2) { d[0] } else { near(r, room as u64) };
            (port::GATHER, Some(gather_due(&d, &buf, &chunk)))
        }
        2 => {
            copier_state(r, &mut d, room);
            if r.one_in(4) {
                chunk.clear();
            }
            let due = copy_due(&d, &chunk, &buf);
            (port::COPY, due)
        }
        3 if r.one_in(2) => {
            writer_state(r, &mut d, room);
            let code = r.pick(&[port::DRAIN, port::CHANGE, port::COPIED, port::COPY_CHANGE]);
            let change = matches!(code, port::CHANGE | port::COPY_CHANGE).then_some(chunk.len());
            let (drained, words) = match code {
                port::COPIED | port::COPY_CHANGE => {
                    copier_state(r, &mut d, room);
                    (true, 0..23)
                }
                _ => (r.one_in(2), 7..18),
            };
            d[26] = drained as u64;
            d[28] = near(r, chunk.len() as u64);
            (code, Some(change_due(change, drained, &d, &buf, words)))
        }
        _ => {
            writer_state(r, &mut d, room);
            let code = r.pick(&[1, 2, 3, 4, 5, 6, 7, 8, port::UNSIGNEDS, port::SIGNEDS, port::FP32_BITS, port::FP64_BITS, 13, 14, 15]);
            d[25] = id(r) & 0xffff_ffff;
            d[26] = r.below(4) as u64;
            d[27] = if code == 5 { r.next() >> 32 } else { crate::gen::value(r) };
            chunk.truncate(match code {
                port::UNSIGNEDS | port::SIGNEDS | port::FP64_BITS => chunk.len() / 8 * 8,
                port::FP32_BITS => chunk.len() / 4 * 4,
                _ => chunk.len(),
            });
            let out = if sound_writer(&d, room) { output(code, &d, &chunk).map_or(0, |o| o.0.len()) } else { 0 };
            d[31] = match r.below(4) {
                0 => 0,
                1 => out as u64 + 1,
                2 => near(r, out as u64),
                _ => r.below(out + 1) as u64,
            };
            (code, Some(write_due(code, &d, &chunk, &buf)))
        }
    };
    seen.calls += 1;
    let before = (d, buf.clone());
    port::call(code, &mut d, &chunk, &mut buf);
    let mut same = true;
    if code == port::GATHER {
        let answer = d;
        if r.one_in(3) {
            (d[0], d[23], d[24]) = (near(r, room as u64), r.below(4) as u64, near(r, room as u64));
        }
        let mut part = vec![0; room.max(chunk.len())];
        let n = port::part(&d, &buf, &chunk, &mut part);
        seen.calls += 1;
        same &= part[..n] == part_due(&d, &buf, &chunk)[..];
        d = answer;
    }
    let Some(mut due) = due else { return Ok(()) };
    seen.judged += 1;
    plant(fault, code, &before.0, &mut due);
    let (refusal, at) = if matches!(code, port::READ | port::COPY) { ((23, 18), 27) } else { ((23, 3), 24) };
    if due.words.contains(&refusal) {
        let number = due.words.iter().find(|w| w.0 == at).map_or(0, |w| w.1);
        seen.numbers[number as usize % 12] += 1;
    }
    same &= due.buf == buf || code == port::READ;
    same &= due.words.iter().all(|&(i, n)| d[i] == n);
    if same {
        return Ok(());
    }
    let wrong: Vec<_> = due.words.iter().filter(|&&(i, n)| d[i] != n).map(|&(i, n)| format!("word {i}: due {n}, told {}", d[i])).collect();
    Err(format!("call {code} on {:?}, {} over {}: {}; buffer due {}, left {}", before.0, hex(&chunk), hex(&before.1), wrong.join(", "), hex(&due.buf), hex(&buf)))
}

// ---- planted faults

pub const FAULTS: [&str; 9] = [
    "none",
    "number 1 is number 2",
    "number 3 is number 4",
    "number 6 is number 9",
    "number 11 is done",
    "a place that isn't used is not tested",
    "a refused write moves the position",
    "\"full\" is told one byte early",
    "a copier whose depths differ goes on",
];

fn plant(fault: usize, code: u8, d: &Desk, due: &mut Due) {
    let words = &mut due.words;
    let said = |words: &[(usize, u64)], tag| words.contains(&(23, tag));
    let replace = |words: &mut [(usize, u64)], of: (usize, u64), by: u64| words.iter_mut().filter(|w| **w == of).for_each(|w| w.1 = by);
    match fault {
        1 if code == port::READ => replace(words, (27, 1), 2),
        2 if code == port::GATHER => replace(words, (24, 3), 4),
        3 => replace(words, (24, 6), 9),
        4 if code < 16 && said(words, 3) => replace(words, (24, 11), 0),
        5 if code < 16 && d[9] < 8 && d[17] == 1 => replace(words, (23, 3), 0),
        6 if code < 16 && said(words, 3) => replace(words, (7, d[7]), d[7].wrapping_add(1)),
        7 if code < 16 && said(words, 1) => words.iter_mut().filter(|w| w.0 == 24).for_each(|w| w.1 -= 1),
        8 if code == port::COPY && words.contains(&(27, 6)) && d[8] != d[1] => replace(words, (23, 18), 17),
        _ => {}
    }
}
