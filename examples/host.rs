//! A host in Rust: the verdict on messages, and the manifest of one, its length or the drains that it costs, through a safe wrapper over the
//! archive.
//!
//!   host verdict FILE...     a line for each: complete, incomplete or broken
//!   host manifest FILE       the message on standard output, every field in its shortest form
//!   host length FILE         a line: how many bytes the manifest has
//!   host drains BYTES FILE   a line: how many drains the manifest costs over a buffer of so many bytes
//!
//! It ends with 0 where all are complete, 1 where one isn't, 2 where a file cannot be read, the output not written or a buffer has no byte.
//! README says how to build it.

use std::fmt;
use std::io::Write;
use std::num::NonZeroUsize;

pub mod export {
    #[link(name = "host", kind = "static")]
    extern "C" {
        pub fn sofab_verdict(ticket: *const u8, len: usize) -> i64;
        pub fn sofab_copy(ticket: *const u8, len: usize, out: *mut u8, room: usize) -> i64;
        pub fn sofab_length(ticket: *const u8, len: usize) -> i64;
        pub fn sofab_drains(ticket: *const u8, len: usize, buffer: usize) -> i64;
    }
}

#[derive(Clone, Copy, PartialEq, Eq, Debug)]
pub enum Verdict {
    Complete,
    Incomplete,
    Broken,
}

impl fmt::Display for Verdict {
    fn fmt(&self, f: &mut fmt::Formatter) -> fmt::Result {
        f.write_str(match self {
            Verdict::Complete => "complete",
            Verdict::Incomplete => "incomplete",
            Verdict::Broken => "broken",
        })
    }
}

/// The verdict on a message given whole.
pub fn verdict(ticket: &[u8]) -> Verdict {
    // SAFETY: the export is proved on every slice; a slice's pointer is never null.
    match unsafe { export::sofab_verdict(ticket.as_ptr(), ticket.len()) } {
        0 => Verdict::Complete,
        1 => Verdict::Incomplete,
        _ => Verdict::Broken,
    }
}

/// How many bytes the manifest has, or why there is none.
pub fn length(ticket: &[u8]) -> Result<usize, Verdict> {
    // SAFETY: the export is proved on every slice; a slice's pointer is never null.
    match unsafe { export::sofab_length(ticket.as_ptr(), ticket.len()) } {
        -2 => Err(Verdict::Broken),
        -100 => Err(Verdict::Incomplete),
        n => Ok(n as usize),
    }
}

/// How many drains the manifest costs over a buffer of so many bytes, or why there is none. The buffer has a byte at least.
pub fn drains(ticket: &[u8], buffer: NonZeroUsize) -> Result<usize, Verdict> {
    // SAFETY: the export is proved on every slice; a slice's pointer is never null.
    match unsafe { export::sofab_drains(ticket.as_ptr(), ticket.len(), buffer.get()) } {
        -2 => Err(Verdict::Broken),
        -100 => Err(Verdict::Incomplete),
        n => Ok(n as usize),
    }
}

/// The message with every field in its shortest form, or why there is none.
pub fn manifest(ticket: &[u8]) -> Result<Vec<u8>, Verdict> {
    let mut out = vec![0; length(ticket)?];
    // SAFETY: the export is proved on every two slices that do not overlap.
    let n = unsafe { export::sofab_copy(ticket.as_ptr(), ticket.len(), out.as_mut_ptr(), out.len()) };
    assert_eq!(n, out.len() as i64, "the copy has the length told beforehand");
    Ok(out)
}

fn slurp(path: &str) -> Result<Vec<u8>, String> {
    std::fs::read(path).map_err(|e| format!("{path}: {e}"))
}

/// What there is of a manifest for standard output, or a line on standard error; and the status.
fn told(path: &str, found: Result<Vec<u8>, Verdict>) -> (Vec<u8>, i32) {
    match found {
        Ok(bytes) => (bytes, 0),
        Err(verdict) => {
            eprintln!("{path}: {verdict}");
            (Vec::new(), 1)
        }
    }
}

/// The answer for standard output, and the status.
fn run(args: &[String]) -> Result<(Vec<u8>, i32), String> {
    let words: Vec<&str> = args.iter().map(String::as_str).collect();
    match words[..] {
        ["verdict", ref paths @ ..] if !paths.is_empty() => {
            let (mut lines, mut status) = (Vec::new(), 0);
            for path in paths {
                let found = verdict(&slurp(path)?);
                lines.extend(format!("{path}: {found}\n").bytes());
                status |= (found != Verdict::Complete) as i32;
            }
            Ok((lines, status))
        }
        ["manifest", path] => Ok(told(path, manifest(&slurp(path)?))),
        ["length", path] => Ok(told(path, length(&slurp(path)?).map(|n| format!("{path}: {n}\n").into_bytes()))),
        ["drains", bytes, path] => {
            let buffer = bytes.parse().map_err(|_| format!("{path}: a buffer of no bytes is refused"))?;
            Ok(told(path, drains(&slurp(path)?, buffer).map(|n| format!("{path}: {n}\n").into_bytes())))
        }
        _ => Err("usage: host verdict FILE..., or with manifest FILE, length FILE, drains BYTES FILE".into()),
    }
}

fn main() {
    let args: Vec<String> = std::env::args().skip(1).collect();
    let done = run(&args).and_then(|(out, status)| {
        let mut to = std::io::stdout().lock();
        to.write_all(&out).and_then(|()| to.flush()).map_err(|e| format!("standard output: {e}"))?;
        Ok(status)
    });
    std::process::exit(done.unwrap_or_else(|what| {
        eprintln!("{what}");
        2
    }));
}
