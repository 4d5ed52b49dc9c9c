//! The differential runs: each gives both sides the same cases, compares the answers byte by byte, and shows the smallest case where they part.

use crate::bytes::hex;
use crate::case::{Case, Gatherer, Kind, Piece, Reader};
use crate::copier::{self, Between};
use crate::fault::{Fault, FAULTS};
use crate::gen::{self, Random, Worked};
use crate::oracle::{self, Oracle};
use crate::port::{self, Port};
use crate::states::{self, Seen};

pub struct Runs {
    oracle: Oracle,
    pub port: Port,
    pub cases: u64,
    pub differences: u64,
    case: Vec<u8>,
    rust: Vec<u8>,
    told: Vec<u8>,
    quiet: bool,
}

/// Differences shown before a run goes on without showing more.
const SHOWN: u64 = 5;

/// How long a case that differs is made smaller.
const SHRINKING: std::time::Duration = std::time::Duration::from_secs(20);

/// Bytes behind an output that no copy may touch.
const GUARD: usize = 16;

impl Runs {
    pub fn new(fault: usize) -> Runs {
        Runs { oracle: Oracle::new(Fault(fault)), port: Port::default(), cases: 0, differences: 0, case: Vec::new(), rust: Vec::new(), told: Vec::new(), quiet: fault != 0 }
    }

    /// With a fault, and what differs is shown.
    pub fn planted(fault: usize) -> Runs {
        Runs { quiet: false, ..Runs::new(fault) }
    }

    pub fn rust(&mut self, kind: Kind, case: &[u8]) -> Vec<u8> {
        let mut out = Vec::new();
        answer(&mut self.oracle, kind, case, &mut out);
        out
    }

    pub fn port(&mut self, kind: Kind, case: &[u8]) -> Vec<u8> {
        let mut out = Vec::new();
        self.port.answer(kind, case, &mut out);
        out
    }

    /// Whether both sides answer the case alike.
    fn same<C: Case>(&mut self, case: &C) -> bool {
        self.case.clear();
        case.encode(&mut self.case);
        self.same_bytes(C::KIND)
    }

    fn same_bytes(&mut self, kind: Kind) -> bool {
        self.rust.clear();
        answer(&mut self.oracle, kind, &self.case, &mut self.rust);
        self.told.clear();
        self.port.answer(kind, &self.case, &mut self.told);
        self.rust == self.told
    }

    pub fn compare<C: Case>(&mut self, case: &C) {
        self.cases += 1;
        if self.same(case) {
            return;
        }
        self.differences += 1;
        if self.quiet || SHOWN < self.differences {
            return;
        }
        let least = self.least(case);
        self.same(&least);
        println!("difference, {:?}: {}\n case {}\n rust {}\n port {}", C::KIND, least.show(), hex(&self.case), hex(&self.rust), hex(&self.told));
    }

    /// A smaller case that still shows a difference: large parts are left out first, then small ones, for no longer than a time.
    fn least<C: Case>(&mut self, case: &C) -> C {
        let start = std::time::Instant::now();
        let mut least = case.clone();
        let mut n = least.parts() / 2;
        while 0 < n {
            let mut at = 0;
            while at < least.parts() && start.elapsed() < SHRINKING {
                let c = least.without(at, n);
                if self.same(&c) {
                    at += n;
                } else {
                    least = c;
                }
            }
            n /= 2;
        }
        let mut more = true;
        while more && least.parts() < 1000 {
            let found = least.smaller().into_iter().find(|c| SHRINKING <= start.elapsed() || !self.same(c));
            more = start.elapsed() < SHRINKING && found.is_some();
            if let (true, Some(c)) = (more, found) {
                least = c;
            }
        }
        least
    }

    /// The export that gives the verdict on a whole message, on one ticket.
    fn verdict(&mut self, ticket: &[u8]) {
        self.cases += 1;
        self.port.calls.exports += 1;
        let (rust, port) = (oracle::verdict(ticket), port::verdict(ticket));
        if rust != port {
            self.differences += 1;
            if !self.quiet && self.differences <= SHOWN {
                println!("difference, verdict of {}: rust {rust}, port {port}", hex(ticket));
            }
        }
    }

    /// The export that tells a copy's length beforehand, on one ticket.
    fn length(&mut self, ticket: &[u8]) {
        self.cases += 1;
        self.port.calls.exports += 1;
        let (rust, port) = (self.oracle.fault.length(copier::length(ticket), ticket.len()), port::length(ticket));
        if rust != port {
            self.differences += 1;
            if !self.quiet && self.differences <= SHOWN {
                println!("difference, length of the copy of {}: rust {rust}, port {port}", hex(ticket));
            }
        }
    }

    /// The export that tells how many drains a copy costs, on one ticket, beside the Rust's writer over a sink that counts.
    fn drains(&mut self, ticket: &[u8], buffer: usize) {
        self.cases += 1;
        self.port.calls.exports += 1;
        let rust = self.oracle.fault.drains(copier::drains(ticket, buffer), copier::length(ticket), buffer);
        let port = port::drains(ticket, buffer);
        if rust != port {
            self.differences += 1;
            if !self.quiet && self.differences <= SHOWN {
                println!("difference, drains of the copy of {} over {buffer} bytes: rust {rust}, port {port}", hex(ticket));
            }
        }
    }

    /// The export that copies a whole message, on one ticket: into outputs of no byte, one too short, just long enough and three bytes longer,
    /// with guard bytes behind each. And its length beforehand, and the drains that it costs over no byte, one, three and many.
    fn whole(&mut self, ticket: &[u8]) {
        self.length(ticket);
        [0, 1, 3, BUFFERS].into_iter().for_each(|buffer| self.drains(ticket, buffer));
        let verdict = oracle::verdict(ticket);
        let copy = if verdict == 0 { copier::plain_copy(ticket) } else { Some(Vec::new()) };
        let Some(copy) = copy else {
            // The Rust's writer refuses what its reader took.
            self.differences += 1;
            return;
        };
        let (fault, long) = (self.oracle.fault.0, copy.len());
        for room in [0, long.saturating_sub(1), long, long + 3] {
            self.cases += 1;
            let (mut rust, mut port) = (vec![0xA5; room + GUARD], vec![0xA5; room + GUARD]);
            let said = match verdict {
                0 if room < long || fault == 33 && room == long => -101,
                0 => long as i64,
                1 => -100,
                _ => -2,
            };
            let n = long.min(room);
            rust[..n].copy_from_slice(&copy[..n]);
            if fault == 32 && n < room {
                rust[n] ^= 1;
            }
            let answered = port::copy(ticket, &mut port[..room]);
            self.port.calls.exports += 1;
            if said == answered && rust == port {
                continue;
            }
            self.differences += 1;
            if !self.quiet && self.differences <= SHOWN {
                println!("difference, copy of {} into {room} bytes: rust {said} {}, port {answered} {}", hex(ticket), hex(&rust), hex(&port));
            }
        }
    }

    /// Every ticket of up to `most` bytes, in every cut.
    pub fn short(&mut self, most: usize) {
        let before = self.cases;
        for len in 0..=most {
            for n in 0u64..1 << (8 * len) {
                let ticket = n.to_be_bytes()[8 - len..].to_vec();
                self.verdict(&ticket);
                self.length(&ticket);
                self.every_cut(&mut Reader { chunks: Vec::new(), ticket });
            }
        }
        println!("tickets of up to {most} bytes, every cut, and of each whole the verdict and the copy's length: {} cases", self.cases - before);
    }

    fn every_cut(&mut self, case: &mut Reader) {
        for chunks in every_cut(case.ticket.len()) {
            case.chunks = chunks;
            self.compare(case);
        }
    }

    /// Every run of three of the gatherer's calls, with totals, offsets and lengths from 0 to 3, over buffers of 0 to 3 bytes.
    pub fn pieces(&mut self) {
        let before = self.cases;
        let piece = |n: u32, bytes: &[u8]| Piece::Feed { total: (n / 16 % 4) as u64, offset: (n / 4 % 4) as u64, chunk: bytes[..n as usize % 4].to_vec() };
        for capacity in 0..=3 {
            for n in 0u32..1 << 18 {
                let calls = vec![piece(n >> 12, b"abc"), piece(n >> 6, b"def"), piece(n, b"ghi")];
                self.compare(&Gatherer { capacity, calls });
            }
        }
        println!("runs of three pieces: {} cases", self.cases - before);
    }

    /// Every ticket of up to `most` bytes, and those of the corpus, in every cut, copied through buffers of 1, 2, 3 and 7 bytes, with a drain
    /// and an empty chunk before each chunk; the worked ones through all of 1 to 20 bytes, by every schedule.
    pub fn copies(&mut self, most: usize) {
        let before = self.cases;
        for len in 0..=most {
            for n in 0u64..1 << (8 * len) {
                self.copied(&n.to_be_bytes()[8 - len..], &[1, 2, 3, 7], &[copier::DRAINS]);
            }
        }
        let worked = gen::worked();
        for ticket in gen::corpus().iter().filter(|t| !worked.contains(t)) {
            self.copied(ticket, &[1, 2, 3, 7], &[copier::DRAINS]);
        }
        println!("copies of tickets of up to {most} bytes and of the corpus, every cut, through 1, 2, 3 and 7 bytes, and whole: {} cases", self.cases - before);
        let before = self.cases;
        gen::table().iter().for_each(|w| self.worked_out(w));
        let sizes: Vec<usize> = (1..=20).collect();
        for ticket in &worked {
            self.copied(ticket, &sizes, &[copier::PLAIN, copier::DRAINS, copier::REFUSALS, copier::BOTH]);
        }
        println!("copies of {} worked tickets, every cut, through 1 to 20 bytes, by four schedules, and whole: {} cases", worked.len(), self.cases - before);
    }

    fn copied(&mut self, ticket: &[u8], sizes: &[usize], schedules: &[Between]) {
        self.whole(ticket);
        let told = copier::listen(ticket, Fault(0));
        for chunks in every_cut(ticket.len()) {
            for &size in sizes {
                schedules.iter().for_each(|&between| self.compare(&copier::run(ticket, &told, &chunks, size, between)));
            }
        }
    }

    /// The Rust's side on a ticket beside what was worked out by hand.
    fn worked_out(&mut self, worked: &Worked) {
        self.cases += 1;
        let told = copier::listen(&worked.ticket, self.oracle.fault);
        let (verdicts, copy) = (told.verdicts(worked.ticket.len()), told.copy());
        if verdicts == worked.verdicts && copy == worked.copy {
            return;
        }
        self.differences += 1;
        if !self.quiet && self.differences <= SHOWN {
            println!("difference, worked ticket {}: by hand {} {}, rust {verdicts} {}", hex(&worked.ticket), worked.verdicts, hex(&worked.copy), hex(&copy));
        }
    }

    pub fn cuts(&mut self) {
        let before = self.cases;
        for ticket in gen::corpus() {
            self.verdict(&ticket);
            let mut case = Reader { chunks: Vec::new(), ticket };
            self.every_cut(&mut case);
            // And each chunk with an empty one on both sides.
            case.chunks = std::iter::once(0).chain(case.ticket.iter().flat_map(|_| [1, 0])).collect();
            self.compare(&case);
        }
        println!("every cut of the corpus, and the verdicts: {} cases", self.cases - before);
    }

    /// Case number i of each kind asked for.
    fn turn(&mut self, seed: u64, i: u64, kinds: &str) {
        if kinds.contains('r') {
            let case = gen::reader(&mut case_seed(seed, i, 1));
            self.verdict(&case.ticket);
            self.compare(&case);
        }
        if kinds.contains('g') {
            self.compare(&gen::gatherer(&mut case_seed(seed, i, 2)));
        }
        if kinds.contains('w') {
            self.compare(&gen::writer(&mut case_seed(seed, i, 3)));
        }
        if kinds.contains('c') {
            let case = copier::case(&mut case_seed(seed, i, 4));
            self.whole(&case.ticket);
            self.compare(&case);
        }
    }

    /// The lengths beforehand of copies of random and damaged tickets.
    pub fn lengths(&mut self, seed: u64, size: u64) {
        (0..size).for_each(|i| self.length(&gen::ticket(&mut case_seed(seed, i, 6))));
        println!("lengths of copies beforehand, seed {seed}: {size} random and damaged tickets");
    }

    /// The drains that copies cost: of every ticket of up to two bytes and those of the corpus over no byte and over 1 to 64, and of random and
    /// damaged ones, each over one of these.
    pub fn drained(&mut self, seed: u64, size: u64) {
        let before = self.cases;
        let short = (0..=2).flat_map(|len| (0u64..1 << (8 * len)).map(move |n| n.to_be_bytes()[8 - len..].to_vec()));
        for ticket in short.chain(gen::corpus()) {
            (0..=BUFFERS).for_each(|buffer| self.drains(&ticket, buffer));
        }
        for i in 0..size {
            let r = &mut case_seed(seed, i, 7);
            let ticket = gen::ticket(r);
            self.drains(&ticket, r.below(BUFFERS + 1));
        }
        println!("drains of copies, seed {seed}: {} cases over buffers of 0 to {BUFFERS} bytes", self.cases - before);
    }

    pub fn random(&mut self, seed: u64, size: u64, kinds: &str) {
        (0..size).for_each(|i| self.turn(seed, i, kinds));
        println!("random, seed {seed}: {size} cases of each kind ({kinds})");
    }
}

/// The longest buffer of which drains are counted.
const BUFFERS: usize = 64;

impl Runs {
    /// Calls on freely chosen states and from freely chosen places.
    pub fn states(&mut self, seed: u64, size: u64) {
        let mut seen = Seen::default();
        for i in 0..size {
            self.cases += 1;
            if let Err(what) = states::turn(&mut case_seed(seed, i, 5), 0, &mut seen) {
                self.differences += 1;
                if self.differences <= SHOWN {
                    println!("difference, {what}");
                }
            }
        }
        self.port.calls.states += seen.calls;
        println!("states, seed {seed}: {} calls, of {} all that is due is known; due refusals by number: {:?}", seen.calls, seen.judged, &seen.numbers[1..]);
    }
}

/// Places of a ticket where a cut is made or not, before they come again.
const GAPS: usize = 11;

/// Every way to cut so many bytes into chunks that aren't empty; of more than twelve, those that come again after eleven.
fn every_cut(len: usize) -> impl Iterator<Item = Vec<usize>> {
    let gaps = len.saturating_sub(1);
    (0u32..1 << gaps.min(GAPS)).map(move |cut| {
        let mut chunks = Vec::new();
        let mut from = 0;
        for i in (0..gaps).filter(|i| cut >> (i % GAPS) & 1 == 1) {
            chunks.push(i + 1 - from);
            from = i + 1;
        }
        chunks.push(len - from);
        chunks
    })
}

fn answer(oracle: &mut Oracle, kind: Kind, case: &[u8], out: &mut Vec<u8>) {
    match kind {
        Kind::Reader => oracle.reader(case, out),
        Kind::Gatherer => oracle.gatherer(case, out),
        Kind::Writer => oracle.writer(case, out),
        Kind::Copier => copier::answer(case, oracle.fault, out),
    }
}

fn case_seed(seed: u64, i: u64, kind: u64) -> Random {
    let mut r = Random(seed ^ kind << 56);
    r.0 = r.next() ^ i.wrapping_mul(0x2545_F491_4F6C_DD1D);
    r
}

/// Plants one fault, and shows the smallest case that shows it.
pub fn show(fault: usize, seed: u64, size: u64) -> i32 {
    let mut runs = Runs::planted(fault);
    let start = std::time::Instant::now();
    let found = (0..size).any(|i| {
        runs.turn(seed, i, "rgwc");
        runs.differences != 0
    });
    println!("{}: {} after {} cases and {:.1} s", FAULTS[fault], if found { "found" } else { "not found" }, runs.cases, start.elapsed().as_secs_f64());
    !found as i32
}

/// Random cases of all kinds until the first difference; answers 0 if there is one.
pub fn find(seed: u64, size: u64) -> i32 {
    let mut runs = Runs::new(0);
    runs.quiet = true;
    let mut i = 0;
    while i < size && runs.differences == 0 {
        runs.turn(seed, i, "rgwc");
        i += 1;
    }
    println!("{} after {} cases", if runs.differences == 0 { "not found" } else { "found" }, runs.cases);
    (runs.differences == 0) as i32
}

/// Plants each fault in turn; answers 0 if every one was found and the run without one finds nothing.
pub fn faults(seed: u64, size: u64, kinds: &str) -> i32 {
    let mut missed = 0;
    for (n, name) in FAULTS.iter().enumerate().filter(|(n, name)| *n == 0 || kinds.contains(&name[..1])) {
        let mut runs = Runs::new(n);
        let mut i = 0;
        while i < size && (n == 0 || runs.differences == 0) {
            runs.turn(seed, i, kinds);
            i += 1;
        }
        let found = runs.differences != 0;
        missed += (found != (n != 0)) as i32;
        println!("{name}: {} after {} cases", if found { "found" } else { "not found" }, runs.cases);
    }
    for (n, name) in states::FAULTS.iter().enumerate().filter(|_| kinds.len() == 4) {
        let found = (0..10 * size).find(|&i| states::turn(&mut case_seed(seed, i, 5), n, &mut Seen::default()).is_err());
        missed += (found.is_some() != (n != 0)) as i32;
        println!("states: {name}: {}", found.map_or("not found".to_string(), |i| format!("found after {} calls", i + 1)));
    }
    println!("{} faults, {missed} not as expected", FAULTS.len() - 1 + states::FAULTS.len() - 1);
    (missed != 0) as i32
}

// ---- rows for the crate `vectors`: the calls of some cases in which the port tells what the Rust does, with what each told

/// Most bytes of a list and of a case in it, but for the copies of worked tickets; the block that a row stays within; how often a feature is wanted.
const LIST: usize = 720_000;
const LONGEST: usize = 1_500;
const BLOCK: usize = 65_536;
const WANTED: u32 = 3;

/// Rows above this line are written by hand, and stay.
const MARK: &str = "\n# ---- Calls with what the Rust told, made by `compare/run DIR sample`.\n";

/// What a case shows, each as a number: a case comes into the list where it shows something that the list hasn't shown often enough.
fn features(kind: Kind, case: &[u8], answer: &[u8]) -> Vec<u64> {
    let mut found = Vec::new();
    let mut add = |parts: &[u64]| found.push(parts.iter().fold(kind as u64, |h, &p| (h ^ p).wrapping_mul(0x100_0000_01B3).rotate_left(17)));
    let number = |at: usize, n: usize| answer[at..at + n].iter().rev().fold(0u64, |s, &b| s << 8 | b as u64);
    let bits = |n: u64| 64 - n.leading_zeros() as u64;
    let mut at = 0;
    let mut last = [0, 0];
    match kind {
        Kind::Reader => {
            while at < answer.len() {
                let tag = answer[at] as u64;
                let (detail, len) = match tag {
                    1 | 2 => (bits(number(at + 9, 8)), 17),
                    3 => (number(at + 11, 2) / 8, 13),
                    4 => (number(at + 15, 2) / 8, 17),
                    5 | 6 => (number(at + 9, 1) * 64 + bits(number(at + 10, 4)), 14),
                    7 => {
                        let (total, offset, n) = (number(at + 10, 4), number(at + 14, 4), number(at + 18, 4));
                        (number(at + 9, 1) * 16 + (n == 0) as u64 * 4 + (offset == 0) as u64 * 2 + (offset + n == total) as u64, 22 + n as usize)
                    }
                    8 => (bits(number(at + 5, 4)), 9),
                    0x12 => (0, 6),
                    _ => (0, 5),
                };
                add(&[tag, detail, last[1]]);
                add(&[tag, last[0], last[1], 1]);
                last = [last[1], tag];
                at += len;
            }
        }
        Kind::Gatherer => {
            let capacity = case[0] as u64 + case[1] as u64 * 256;
            let (mut from, mut held) = (4, 0);
            while at < answer.len() {
                let tag = answer[at] as u64;
                let small = |at: usize, n: usize| case[at..at + n].iter().rev().fold(0u64, |s, &b| s << 8 | b as u64);
                let call = if case[from] == 1 {
                    from += 1;
                    [9, 9, 9]
                } else {
                    let (total, offset, n) = (small(from + 1, 8), small(from + 9, 8), small(from + 17, 4));
                    from += 21 + n as usize;
                    let order = |a: u64, b: u64| 1 + (a > b) as u64 - (a < b) as u64;
                    [order(total, capacity) * 3 + order(total, held), (offset == 0) as u64 * 3 + order(offset, held), order(n + held, total)]
                };
                at += match tag {
                    1 | 2 => 5 + number(at + 1, 4) as usize,
                    3 => 2,
                    _ => 1,
                };
                held = number(at, 4);
                add(&[tag, call[0], call[1], call[2]]);
                add(&[tag, last[0], last[1], answer[at + 4] as u64, 1]);
                last = [last[1], tag];
                at += 5 + capacity as usize;
            }
        }
        Kind::Writer => {
            let codes = crate::oracle::codes(case);
            let mut call = 0;
            let mut drains = 0u64;
            while at < answer.len() {
                let tag = answer[at] as u64;
                if tag == 0x20 {
                    drains += 1;
                    at += 5 + number(at + 1, 4) as usize;
                    continue;
                }
                let detail = if tag == 3 { number(at + 1, 1) } else { 0 };
                at += match tag {
                    0 => 1,
                    3 => 2,
                    _ => 5,
                };
                let code = if call == 0 { 0 } else { codes[call - 1] as u64 };
                add(&[tag, detail, code, drains.min(3), case[0] as u64]);
                add(&[tag, code, last[0], last[1]]);
                last = [last[1], code];
                call += 1;
                drains = 0;
                if at < answer.len() {
                    at += 8 + number(at + 4, 4) as usize;
                }
            }
        }
        Kind::Copier => {
            let size = case[0] as u64 + case[1] as u64 * 256;
            while at < answer.len() {
                let tag = answer[at] as u64;
                let (detail, len) = match tag {
                    0 => (0, 1),
                    3 => (number(at + 1, 1), 2),
                    4 => (bits(number(at + 1, 4)), 5 + number(at + 1, 4) as usize),
                    0x12 => (bits(number(at + 2, 4)), 10 + size as usize),
                    _ => (bits(number(at + 1, 4)), 9 + size as usize),
                };
                add(&[tag, detail, last[1], bits(size)]);
                add(&[tag, last[0], last[1], 1]);
                last = [last[1], tag];
                at += len;
            }
        }
    }
    found
}

struct Sample {
    runs: Runs,
    list: Vec<u8>,
    shown: std::collections::HashMap<u64, u32>,
    cases: [u64; 4],
    calls: usize,
}

impl Sample {
    /// Rows into the list. It is read in blocks, and no row goes over the end of one: empty rows fill up.
    fn take(&mut self, rows: &[u8]) {
        for row in rows.split_inclusive(|&b| b == b'\n') {
            let left = BLOCK - self.list.len() % BLOCK;
            if left < row.len() {
                self.list.extend(std::iter::repeat_n(b'\n', left));
            }
            self.list.extend_from_slice(row);
        }
    }

    /// Takes a case, where its calls are short enough, both sides answer it alike, and it shows something new or `any` will do. Answers whether it was taken.
    fn add<C: Case>(&mut self, case: &C, any: bool, share: usize) -> bool {
        self.runs.port.list = Some(port::List { whole: true, ..Default::default() });
        let same = self.runs.same(case);
        let list = self.runs.port.list.take().unwrap_or_default();
        if !same || !list.whole || !any && LONGEST < list.rows.len() || share < self.list.len() + list.rows.len() {
            return false;
        }
        let features = features(C::KIND, &self.runs.case, &self.runs.rust);
        let wanted = any || features.iter().any(|f| self.shown.get(f).copied().unwrap_or(0) < WANTED);
        if wanted {
            features.into_iter().for_each(|f| *self.shown.entry(f).or_default() += 1);
            self.take(&list.rows);
            self.cases[C::KIND as usize - 1] += 1;
            self.calls += list.calls;
        }
        wanted
    }

    /// A worked ticket through copiers: whole over 20 bytes, byte by byte over one, and in up to three chunks over three with all between
    /// that a schedule has.
    fn add_worked(&mut self, ticket: &[u8]) -> bool {
        let told = copier::listen(ticket, Fault(0));
        let n = ticket.len();
        let thirds: Vec<usize> = ticket.chunks(n.div_ceil(3).max(1)).map(<[u8]>::len).collect();
        let runs = [(vec![n], 20, copier::PLAIN), (vec![1; n], 1, copier::PLAIN), (thirds, 3, copier::BOTH)];
        runs.iter().all(|(chunks, size, between)| self.add(&copier::run(ticket, &told, chunks, *size, *between), true, usize::MAX))
    }
}

pub fn sample(seed: u64, file: &str) -> i32 {
    let kept = std::fs::read_to_string(file).ok().and_then(|t| t.find(MARK).map(|at| t[..at + MARK.len()].as_bytes().to_vec()));
    let Some(kept) = kept else {
        println!("{file} can't be read, or has no line {MARK:?}");
        return 1;
    };
    let mut s = Sample { runs: Runs::new(0), list: kept, shown: Default::default(), cases: [0; 4], calls: 0 };
    for ticket in gen::corpus() {
        let n = ticket.len();
        for chunks in [vec![n], vec![1; n], vec![n / 2, 0, n - n / 2]] {
            s.add(&Reader { chunks, ticket: ticket.clone() }, n < 6, LIST * 3 / 10);
        }
    }
    for i in 0..40_000 {
        s.add(&gen::reader(&mut case_seed(seed, i, 1)), false, LIST * 7 / 20);
        s.add(&gen::gatherer(&mut case_seed(seed, i, 2)), false, LIST * 11 / 20);
        s.add(&gen::writer(&mut case_seed(seed, i, 3)), false, LIST * 16 / 20);
        s.add(&copier::case(&mut case_seed(seed, i, 4)), false, LIST);
    }
    if let Some(ticket) = gen::worked().iter().find(|t| !s.add_worked(t)) {
        println!("no rows for the copies of {}", hex(ticket));
        return 1;
    }
    let [r, g, w, c] = s.cases;
    println!("{} cases ({r} of the reader, {g} of the gatherer, {w} of the writer, {c} of the copier), {} calls, {} bytes", r + g + w + c, s.calls, s.list.len());
    match std::fs::write(file, s.list) {
        Ok(()) => 0,
        Err(e) => {
            println!("{file}: {e}");
            1
        }
    }
}
