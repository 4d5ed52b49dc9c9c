//! The comparison of the port with the Rust: one driver for the differential runs, the planted faults, the calls for the crate `vectors` and the benchmark.

#[cfg(bench)]
mod bench;
mod bytes;
mod case;
mod copier;
mod edits;
mod fault;
mod gen;
mod oracle;
mod port;
mod runs;
mod states;
#[cfg(bench)]
mod timing;

use case::Kind;
use runs::Runs;

/// `differ` compares the lengths of the copies of at least so many random tickets, and the drains that they cost, however small its SIZE.
const LENGTHS: u64 = 1_000_000;

const HELP: &str = "\
compare/run DIR COMMAND
  differ SEED SIZE      everything below: tickets of up to 3 bytes, every cut of the corpus, a million lengths and drains, SIZE random cases of each kind
  short BYTES           all tickets of up to BYTES bytes, in every cut
  copies BYTES [FAULT]  all tickets of up to BYTES bytes and the corpus, in every cut, through copiers over 1, 2, 3 and 7 bytes, and whole;
                        the worked ones over 1 to 20 bytes by four schedules, and beside worked.txt (FAULT: a planted one)
  cuts                  every cut of every ticket in the corpus
  lengths SEED SIZE     the lengths beforehand of copies of SIZE random and damaged tickets
  drains SEED SIZE      the drains that copies cost, over buffers of 0 to 64 bytes: of all tickets of up to 2 bytes, of the corpus, and of
                        SIZE random and damaged ones
  random SEED SIZE [KINDS]
                        SIZE random cases of each kind (KINDS: some of the letters rgwc, for reader, gatherer, writer and copier)
  states SEED SIZE      SIZE calls on freely chosen states and places, judged by 01's text
  faults SEED SIZE [KINDS]
                        each planted fault in turn, until it is found
  show FAULT SEED SIZE  one planted fault, with the smallest case that shows it
  edits SEED SIZE [N]   each edit of edits.txt, from the Nth on, in a copy of the Rust's source, until the fault shows
  sample SEED FILE      makes the calls in FILE, the script of the crate `vectors`, below its last mark anew
  listing ..            the program that lists events (`listing help`)
  answer KIND HEX       both answers to one case (KIND: reader, gatherer, writer, copier)
  bench                 times of both sides";

fn number(args: &[String], i: usize, or: u64) -> u64 {
    args.get(i).and_then(|a| a.parse().ok()).unwrap_or(or)
}

fn main() {
    let args: Vec<String> = std::env::args().skip(1).collect();
    let seed = number(&args, 1, 1);
    let size = number(&args, 2, 100_000);
    let kinds = args.get(3).map_or("rgwc", |k| k);
    let mut runs = Runs::new(0);
    match args.first().map(String::as_str) {
        Some("differ") => {
            runs.short(3);
            runs.cuts();
            runs.copies(2);
            runs.pieces();
            runs.lengths(seed, size.max(LENGTHS));
            runs.drained(seed, size.max(LENGTHS));
            runs.random(seed, size, kinds);
            runs.states(seed, size);
        }
        Some("states") => runs.states(seed, size),
        Some("lengths") => runs.lengths(seed, size),
        Some("drains") => runs.drained(seed, size),
        Some("short") => runs.short(number(&args, 1, 3) as usize),
        Some("copies") => {
            runs = Runs::planted(number(&args, 2, 0) as usize);
            runs.copies(number(&args, 1, 2) as usize);
        }
        Some("cuts") => runs.cuts(),
        Some("pieces") => runs.pieces(),
        Some("random") => runs.random(seed, size, kinds),
        Some("faults") => std::process::exit(runs::faults(seed, size, kinds)),
        Some("edit") => {
            let number = number(&args, 1, 0) as usize;
            match (number, args.get(2), args.get(3)) {
                (0, ..) => println!("{}", edits::count()),
                (n, Some(from), Some(to)) => edits::make(n, from, to),
                _ => println!("{HELP}"),
            }
            return;
        }
        Some("show") => std::process::exit(runs::show(seed as usize, size, number(&args, 3, 100_000))),
        Some("find") => std::process::exit(runs::find(seed, size)),
        Some("sample") => std::process::exit(runs::sample(seed, args.get(2).map_or("list", |f| f))),
        #[cfg(bench)]
        Some("bench") => return bench::all(),
        Some("answer") => {
            let kind = match args.get(1).map(String::as_str) {
                Some("reader") => Kind::Reader,
                Some("gatherer") => Kind::Gatherer,
                Some("copier") => Kind::Copier,
                _ => Kind::Writer,
            };
            let case = bytes::unhex(args.get(2).map_or("", |h| h)).expect("hexadecimal");
            println!("rust {}\nport {}", bytes::hex(&runs.rust(kind, &case)), bytes::hex(&runs.port(kind, &case)));
            return;
        }
        _ => return println!("{HELP}"),
    }
    let c = runs.port.calls;
    println!("compared calls: reader {}, gatherer {}, writer {}, copier {}, exports {}, on free states {}", c.reader, c.gatherer, c.writer, c.copier, c.exports, c.states);
    println!("{} cases, {} differences", runs.cases, runs.differences);
    std::process::exit((runs.differences != 0) as i32);
}
