//! The hosts of examples/ beside the Rust's plain copy: the wrappers in C and Rust on tickets that lie against guard pages, the exports on
//! outputs that do, and both programs on files. A driver of its own, since it needs the hosts.
#![allow(dead_code)]

mod bytes;
mod case;
mod copier;
mod fault;
mod gen;
mod oracle;

#[path = "../../examples/host.rs"]
mod host;

use gen::Random;
use host::Verdict;
use std::num::NonZeroUsize;
use std::process::Command;

// ---- guard pages

extern "C" {
    fn mmap(at: *mut u8, len: usize, protection: i32, flags: i32, fd: i32, offset: i64) -> *mut u8;
    fn mprotect(at: *mut u8, len: usize, protection: i32) -> i32;
    fn free(at: *mut u8);
    fn host_manifest(ticket: *const u8, len: usize, n: *mut i64) -> *mut u8;
}

const PAGE: usize = 4096;
const ROOM: usize = 1 << 20;

/// Bytes between two pages that cannot be read or written.
struct Guarded(*mut u8);

impl Guarded {
    fn new() -> Guarded {
        const PRIVATE_ANONYMOUS: i32 = 0x22;
        // SAFETY: a new mapping, of which only the middle can be used.
        unsafe {
            let at = mmap(std::ptr::null_mut(), ROOM + 2 * PAGE, 0, PRIVATE_ANONYMOUS, -1, 0);
            assert!(at as isize != -1 && mprotect(at.add(PAGE), ROOM, 3) == 0, "guard pages cannot be had");
            Guarded(at.add(PAGE))
        }
    }

    /// So many bytes, just behind the page before or just before the page behind.
    fn part(&mut self, len: usize, at_end: bool) -> &mut [u8] {
        assert!(len <= ROOM);
        // SAFETY: within the middle.
        unsafe { std::slice::from_raw_parts_mut(self.0.add(if at_end { ROOM - len } else { 0 }), len) }
    }

    /// Whether it can be written.
    fn open(&mut self, write: bool) {
        // SAFETY: the middle of the mapping.
        assert!(unsafe { mprotect(self.0, ROOM, if write { 3 } else { 1 }) } == 0);
    }
}

// ---- what the Rust says, and the hosts

/// The verdict and the plain copy.
fn rust(ticket: &[u8]) -> Result<Vec<u8>, Verdict> {
    match oracle::verdict(ticket) {
        0 => Ok(copier::plain_copy(ticket).expect("a complete ticket has a plain copy")),
        1 => Err(Verdict::Incomplete),
        _ => Err(Verdict::Broken),
    }
}

fn from_c(ticket: &[u8]) -> Result<Vec<u8>, Verdict> {
    let mut n = 0;
    // SAFETY: the wrapper takes any slice; what it hands back has n bytes and is the caller's.
    unsafe {
        let out = host_manifest(ticket.as_ptr(), ticket.len(), &mut n);
        let found = match n {
            -2 => Err(Verdict::Broken),
            -100 => Err(Verdict::Incomplete),
            _ => Ok(std::slice::from_raw_parts(out, usize::try_from(n).expect("a length")).to_vec()),
        };
        free(out);
        found
    }
}

/// What the export should answer and leave in an output of so many bytes.
fn expected(said: &Result<Vec<u8>, Verdict>, room: usize) -> (i64, Vec<u8>) {
    let mut out = vec![0xa5; room];
    match said {
        Err(Verdict::Incomplete) => (-100, out),
        Err(_) => (-2, out),
        Ok(copy) => {
            let n = copy.len().min(room);
            out[..n].copy_from_slice(&copy[..n]);
            (if room < copy.len() { -101 } else { copy.len() as i64 }, out)
        }
    }
}

/// The lengths of buffers that copies are drained through: one byte, a few, and more than most copies have.
const BUFFERS: [NonZeroUsize; 4] = [bytes_of(1), bytes_of(3), bytes_of(16), bytes_of(1 << 40)];

const fn bytes_of(n: usize) -> NonZeroUsize {
    NonZeroUsize::new(n).expect("not 0")
}

/// How many parts of so many bytes a copy has.
fn drained(copy: &[u8], size: NonZeroUsize) -> usize {
    copy.chunks(size.get()).count()
}

struct Hosts {
    ticket: Guarded,
    out: Guarded,
}

impl Hosts {
    /// The ticket against either page, its own page closed to writing, and the export's output against either page, in lengths about its own.
    fn agree(&mut self, bytes: &[u8]) -> bool {
        let said = rust(bytes);
        let len = said.as_ref().map_or(bytes.len(), Vec::len);
        [false, true].into_iter().all(|at_end| {
            self.ticket.open(true);
            self.ticket.part(bytes.len(), at_end).copy_from_slice(bytes);
            self.ticket.open(false);
            let ticket = &*self.ticket.part(bytes.len(), at_end);
            let verdict = *said.as_ref().err().unwrap_or(&Verdict::Complete);
            host::verdict(ticket) == verdict
                && host::length(ticket) == said.as_ref().map(Vec::len).map_err(|&verdict| verdict)
                && BUFFERS.iter().all(|&size| host::drains(ticket, size) == said.as_ref().map(|copy| drained(copy, size)).map_err(|&verdict| verdict))
                && host::manifest(ticket) == said
                && from_c(ticket) == said
                && [0, 1, len / 2, len.saturating_sub(1), len, len + 3].into_iter().all(|room| {
                    let out = self.out.part(room, !at_end);
                    out.fill(0xa5);
                    // SAFETY: two slices that do not overlap.
                    let answer = unsafe { host::export::sofab_copy(ticket.as_ptr(), ticket.len(), out.as_mut_ptr(), room) };
                    (answer, out.to_vec()) == expected(&said, room)
                })
        })
    }
}

/// Whether a program says and writes what the Rust does, with its status.
fn program_agrees(program: &str, file: &str, ticket: &[u8]) -> bool {
    let said = rust(ticket);
    std::fs::write(file, ticket).expect("the work folder can be written");
    let ran = |words: &[&str]| Command::new(program).args(words).arg(file).output().expect("the program runs");
    let (verdict, manifest, length) = (ran(&["verdict"]), ran(&["manifest"]), ran(&["length"]));
    let (drains, refused) = (ran(&["drains", "3"]), ran(&["drains", "0"]));
    let line = |what: &dyn std::fmt::Display| format!("{file}: {what}\n").into_bytes();
    let none = Vec::new();
    // On standard error of all but the first.
    let reason = said.as_ref().map_or_else(|found| line(found), |_| none.clone());
    let status = Some(said.is_err() as i32);
    verdict.status.code() == status
        && verdict.stdout == line(said.as_ref().err().unwrap_or(&Verdict::Complete))
        && manifest.status.code() == status
        && manifest.stdout == *said.as_ref().unwrap_or(&none)
        && manifest.stderr == reason
        && length.status.code() == status
        && length.stdout == said.as_ref().map_or(none.clone(), |copy| line(&copy.len()))
        && length.stderr == reason
        && drains.status.code() == status
        && drains.stdout == said.as_ref().map_or(none.clone(), |copy| line(&drained(copy, BUFFERS[1])))
        && drains.stderr == reason
        && refused.status.code() == Some(2)
        && refused.stdout == none
        && refused.stderr == line(&"a buffer of no bytes is refused")
}

fn main() {
    let args: Vec<String> = std::env::args().skip(1).collect();
    let number = |i: usize, or: u64| args.get(i).and_then(|a| a.parse().ok()).unwrap_or(or);
    let work = &args[0];
    let mut r = Random(number(1, 1));
    let mut hosts = Hosts { ticket: Guarded::new(), out: Guarded::new() };
    let (mut tickets, mut complete, mut differences) = (0u64, 0u64, 0u64);
    let random: Vec<Vec<u8>> = (0..number(2, 5_000)).map(|_| gen::ticket(&mut r)).collect();
    let short = (0u64..0x10000).map(|n| n.to_be_bytes()[6..].to_vec());
    for ticket in gen::corpus().into_iter().chain(short).chain(random.iter().cloned()) {
        tickets += 1;
        complete += rust(&ticket).is_ok() as u64;
        if !hosts.agree(&ticket) {
            differences += 1;
            println!("difference: {}", bytes::hex(&ticket));
        }
    }
    println!("wrappers and exports: {tickets} tickets, {complete} complete, {differences} differences");
    let mut programs = 0;
    for ticket in random.iter().take(200) {
        for program in ["host-c", "host-rs"] {
            programs += 1;
            if !program_agrees(&format!("{work}/{program}"), &format!("{work}/a ticket"), ticket) {
                differences += 1;
                println!("difference of {program}: {}", bytes::hex(ticket));
            }
        }
    }
    println!("programs: {programs} tickets, {differences} differences in all");
    std::process::exit((differences != 0) as i32);
}
