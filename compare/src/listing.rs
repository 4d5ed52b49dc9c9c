//! The program `list_events` beside the Rust: the Rust's events of a ticket and its verdict, written in 01's lines, and what the program
//! prints for the same bytes. A driver of its own, since it needs the programs and no archive.
#![allow(dead_code)]

mod bytes;
mod case;
mod fault;
mod gen;
mod oracle;

use gen::Random;
use sofab::*;
use std::io::{Read, Write};
use std::process::{Command, Stdio};

const HELP: &str = "\
compare/run DIR listing SEED SIZE     all tickets of up to 2 bytes, the corpus, SIZE random and 200 long ones, a run of `list_events` each;
                                      all tickets of 3 bytes in one run of `listing_vectors`
compare/run DIR listing faults SEED SIZE   plants each fault in the Rust's lines, until it is found
compare/run DIR listing sample SEED FOLDER writes FOLDER/stdin and FOLDER/stdout, the tickets and lists of the crate `listing_vectors`";

const FAULTS: [&str; 12] = [
    "none",
    "the letters of fp32 and fp64 exchanged",
    "a number below 0 loses its sign",
    "the lowest number one higher",
    "bits in upper case",
    "a NaN loses its payload",
    "array kind and count exchanged",
    "an empty payload is not announced",
    "a payload byte in hexadecimal",
    "a close with an id",
    "incomplete said of a broken ticket",
    "complete said of an incomplete one",
];

/// The Rust's events as lines.
struct Lines {
    text: Vec<u8>,
    fault: usize,
}

impl Lines {
    fn line(&mut self, line: String) {
        self.text.extend_from_slice(line.as_bytes());
        self.text.push(b'\n');
    }
    fn bits(&mut self, letter: char, id: Id, bits: String) {
        let letter = match letter {
            'F' if self.fault == 1 => 'D',
            'D' if self.fault == 1 => 'F',
            same => same,
        };
        let bits = if self.fault == 4 { bits.to_uppercase() } else { bits };
        self.line(format!("{letter} {id} {bits}"));
    }
    fn piece(&mut self, part: &[u8]) {
        for b in part {
            self.line(if self.fault == 8 { format!("Y {b:x}") } else { format!("Y {b}") });
        }
    }
}

impl Visitor for Lines {
    fn unsigned(&mut self, id: Id, value: Unsigned) {
        self.line(format!("U {id} {value}"));
    }
    fn signed(&mut self, id: Id, value: Signed) {
        let value = if self.fault == 3 && value == i64::MIN { value + 1 } else { value };
        let text = format!("S {id} {value}");
        self.line(if self.fault == 2 { text.replace('-', "") } else { text });
    }
    fn fp32(&mut self, id: Id, value: f32) {
        let bits = if self.fault == 5 && value.is_nan() { 0x7fc0_0000 } else { value.to_bits() };
        self.bits('F', id, format!("{bits:08x}"));
    }
    fn fp64(&mut self, id: Id, value: f64) {
        let bits = if self.fault == 5 && value.is_nan() { 0x7ff8_0000_0000_0000 } else { value.to_bits() };
        self.bits('D', id, format!("{bits:016x}"));
    }
    fn string(&mut self, _: Id, _: usize, _: usize, chunk: &[u8]) {
        self.piece(chunk);
    }
    fn blob(&mut self, _: Id, _: usize, _: usize, chunk: &[u8]) {
        self.piece(chunk);
    }
    fn fixlen_begin(&mut self, id: Id, subtype: FixlenType, total: usize) {
        if self.fault != 7 || total != 0 {
            self.line(format!("P {id} {} {total}", subtype as u8));
        }
    }
    fn array_begin(&mut self, id: Id, kind: ArrayKind, count: usize) {
        let kind = kind as u8;
        self.line(if self.fault == 6 { format!("A {id} {count} {kind}") } else { format!("A {id} {kind} {count}") });
    }
    fn sequence_begin(&mut self, id: Id) {
        self.line(format!("B {id}"));
    }
    fn sequence_end(&mut self) {
        self.line(if self.fault == 9 { "E 0".into() } else { "E".into() });
    }
}

/// What the Rust says of a ticket, as the program should print it.
fn rust(ticket: &[u8], fault: usize) -> Vec<u8> {
    let mut lines = Lines { text: Vec::new(), fault };
    let verdict = match IStream::new().feed(ticket, &mut lines) {
        Ok(Status::Complete) => "complete",
        Ok(Status::Incomplete) if fault == 11 => "complete",
        Ok(Status::Incomplete) => "incomplete",
        Err(_) if fault == 10 => "incomplete",
        Err(_) => "invalid",
    };
    lines.line(verdict.into());
    lines.text
}

/// The programs' folder, and the work folder.
struct Programs {
    bin: String,
    work: String,
}

impl Programs {
    /// What `list_events` prints for a ticket; nothing where it says anything on standard error.
    fn events(&self, ticket: &[u8]) -> Vec<u8> {
        let path = format!("{}/ticket", self.work);
        std::fs::write(&path, ticket).expect("the work folder can be written");
        let input = std::fs::File::open(&path).expect("the ticket can be read");
        let run = Command::new(format!("{}/list_events", self.bin)).stdin(input).output().expect("the program runs");
        if run.stderr.is_empty() { run.stdout } else { Vec::new() }
    }

    /// Whether `list_events` prints what the Rust says; where not, both are shown.
    fn same(&self, ticket: &[u8], fault: usize) -> bool {
        let (said, printed) = (rust(ticket, fault), self.events(ticket));
        if said != printed && fault == 0 {
            println!("difference: {}\n rust\n{} port\n{}", bytes::hex(ticket), String::from_utf8_lossy(&said), String::from_utf8_lossy(&printed));
        }
        said == printed
    }
}

/// A ticket of many fields, longer than what the program reads at once.
fn long(r: &mut Random, whole: &[Vec<u8>]) -> Vec<u8> {
    let mut ticket = Vec::new();
    let most = 1_000 + r.below(30_000);
    while ticket.len() < most {
        if r.one_in(40) {
            let n = r.below(9_000);
            ticket.extend_from_slice(&[0x1a]);
            let mut word = (n as u64) << 3 | 3;
            while 128 <= word {
                ticket.push(word as u8 | 0x80);
                word >>= 7;
            }
            ticket.push(word as u8);
            ticket.extend(r.bytes(n));
        } else {
            let i = r.below(whole.len());
            ticket.extend_from_slice(&whole[i]);
        }
    }
    let cut = if r.one_in(3) { r.below(ticket.len()) } else { ticket.len() };
    ticket.truncate(cut);
    ticket
}

fn whole_tickets() -> Vec<Vec<u8>> {
    gen::corpus().into_iter().filter(|t| t.len() < 300 && rust(t, 0).ends_with(b"\ncomplete\n")).collect()
}

fn short(len: usize) -> impl Iterator<Item = Vec<u8>> {
    (0u64..1 << (8 * len)).map(move |n| n.to_be_bytes()[8 - len..].to_vec())
}

fn all(programs: &Programs, seed: u64, size: u64) -> i32 {
    let mut r = Random(seed);
    let whole = whole_tickets();
    let (mut tickets, mut differences) = (0u64, 0u64);
    let mut run = |ticket: Vec<u8>| {
        tickets += 1;
        differences += !programs.same(&ticket, 0) as u64;
    };
    (0..=2).flat_map(short).for_each(&mut run);
    gen::corpus().into_iter().for_each(&mut run);
    (0..size).for_each(|_| run(gen::ticket(&mut r)));
    (0..200).for_each(|_| run(long(&mut r, &whole)));
    println!("events: {tickets} tickets, {differences} differences");
    let in_one = in_one_run(programs);
    println!("listings: {} tickets of 3 bytes, {}", in_one.0, if in_one.1 { "no difference" } else { "and then a difference" });
    (differences != 0 || !in_one.1) as i32
}

/// All tickets of 3 bytes to one run of `listing_vectors`, each cut at another place; how many were listed alike, and whether all were.
fn in_one_run(programs: &Programs) -> (u64, bool) {
    let mut run = Command::new(format!("{}/listing_vectors", programs.bin)).stdin(Stdio::piped()).stdout(Stdio::piped()).spawn().expect("the program runs");
    let mut input = std::io::BufWriter::with_capacity(1 << 16, run.stdin.take().expect("its input"));
    let mut output = std::io::BufReader::with_capacity(1 << 16, run.stdout.take().expect("its output"));
    let feeder = std::thread::spawn(move || {
        for (i, t) in short(3).enumerate() {
            let cut = (i % 4) as u8;
            if input.write_all(&[cut, 3 - cut, t[0], t[1], t[2]]).is_err() {
                return;
            }
        }
    });
    let mut alike = 0;
    let mut printed = Vec::new();
    for ticket in short(3) {
        let said = rust(&ticket, 0);
        printed.resize(said.len(), 0);
        if output.read_exact(&mut printed).is_err() || printed != said {
            println!("difference: {}\n rust\n{} port\n{}", bytes::hex(&ticket), String::from_utf8_lossy(&said), String::from_utf8_lossy(&printed));
            let _ = run.kill();
            let _ = run.wait();
            return (alike, false);
        }
        alike += 1;
    }
    let ended = output.read(&mut [0]).is_ok_and(|n| n == 0);
    let _ = feeder.join();
    let _ = run.wait();
    (alike, ended)
}

fn faults(programs: &Programs, seed: u64, size: u64) -> i32 {
    let mut missed = 0;
    for (n, name) in FAULTS.iter().enumerate() {
        let mut r = Random(seed);
        let mut tickets = gen::corpus().into_iter().chain((0..size).map(|_| gen::ticket(&mut r)));
        let mut tried = 0;
        let found = tickets.any(|t| {
            tried += 1;
            !programs.same(&t, n)
        });
        missed += (found != (n != 0)) as i32;
        println!("{name}: {} after {tried} tickets", if found { "found" } else { "not found" });
    }
    println!("{} faults, {missed} not as expected", FAULTS.len() - 1);
    (missed != 0) as i32
}

/// Most bytes of the lists in the sample.
const MOST: usize = 60_000;

/// Short tickets of the corpus and random ones, in two chunks each, with the Rust's lists.
fn sample(seed: u64, folder: &str) -> i32 {
    let mut r = Random(seed);
    let (mut input, mut lists, mut count) = (Vec::new(), Vec::new(), 0);
    let corpus = gen::corpus();
    let random: Vec<_> = (0..2_000).map(|_| gen::ticket(&mut r)).collect();
    for ticket in corpus.iter().chain(&random).filter(|t| t.len() <= 80) {
        let list = rust(ticket, 0);
        if MOST < lists.len() + list.len() {
            break;
        }
        let cut = r.below(ticket.len() + 1);
        input.extend_from_slice(&[cut as u8, (ticket.len() - cut) as u8]);
        input.extend_from_slice(ticket);
        lists.extend_from_slice(&list);
        count += 1;
    }
    println!("{count} tickets, {} and {} bytes", input.len(), lists.len());
    let wrote = std::fs::write(format!("{folder}/stdin"), input).and_then(|()| std::fs::write(format!("{folder}/stdout"), lists));
    if let Err(e) = &wrote {
        println!("{folder}: {e}");
    }
    wrote.is_err() as i32
}

fn main() {
    let mut args = std::env::args().skip(1);
    let programs = Programs { bin: args.next().expect("the programs' folder"), work: args.next().expect("the work folder") };
    let args: Vec<String> = args.collect();
    let number = |i: usize, or: u64| args.get(i).and_then(|a| a.parse().ok()).unwrap_or(or);
    let status = match args.first().map(String::as_str) {
        Some("faults") => faults(&programs, number(1, 1), number(2, 20_000)),
        Some("sample") => sample(number(1, 1), args.get(2).map_or(".", |f| f)),
        Some(seed) if seed.parse::<u64>().is_ok() => all(&programs, number(0, 1), number(1, 20_000)),
        _ => {
            println!("{HELP}");
            2
        }
    };
    std::process::exit(status);
}
