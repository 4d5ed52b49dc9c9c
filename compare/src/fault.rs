//! Planted faults: each breaks the Rust's side in one way, to see that the runs report it.

use crate::oracle::{Fields, COMPLETE, INCOMPLETE, REFUSED};

#[derive(Clone, Copy)]
pub struct Fault(pub usize);

pub const FAULTS: [&str; 43] = [
    "none",
    "reader: the lowest signed value loses its sign",
    "reader: a NaN loses its payload",
    "reader: -0 becomes 0",
    "reader: the empty piece of an empty payload is left out",
    "reader: the offending byte is not counted",
    "reader: a broken reader forgets that it is broken",
    "reader: the highest id is one less",
    "reader: a chunk that ends after an open is complete",
    "reader: the largest count is announced one short",
    "reader: a piece's offset is counted from its chunk",
    "reader: a float array is announced at its count",
    "gatherer: too long at another offset is nothing yet",
    "gatherer: nothing yet is whole where the total shrank",
    "gatherer: a payload whole in the chunk is copied too",
    "gatherer: one byte beyond those owed is copied",
    "writer: the reserved offset is kept after a drain",
    "writer: a plain close keeps its frame",
    "writer: a byte after the position is altered",
    "writer: full as soon as no byte is free",
    "writer: a drain loses its last byte",
    "writer: a buffer change answers the new offset",
    "writer: closing at depth 0 is number 9",
    "writer: the reserved bytes are cleared",
    "copier: a sequence's close keeps an id",
    "copier: full as soon as no byte is free",
    "copier: a piece counts as read beyond what is out",
    "copier: an event that is owed isn't counted as read",
    "copier: a NaN loses its payload",
    "copier: an element has a header",
    "copier: a refused call moves the position",
    "copier: a byte after the position is altered",
    "copy of a whole ticket: a byte after it is altered",
    "copy of a whole ticket: room for just the copy is too short",
    "writer: an open at depth 255 is number 9",
    "writer: the length of a drain has 10 bits",
    "reader: the last byte of a piece beyond 65,536 is altered",
    "copy of a whole ticket: its length beforehand is the ticket's",
    "copy of a whole ticket: an incomplete one has a length beforehand",
    "copy of a whole ticket: its length beforehand has 16 bits",
    "copy of a whole ticket: its drains are rounded down",
    "copy of a whole ticket: one drain for no bytes",
    "copy of a whole ticket: a buffer of no bytes is refused after the verdict",
];

impl Fault {
    fn is(self, n: usize) -> bool {
        self.0 == n
    }

    pub fn event(self, mut f: Fields, mut at: usize) -> Option<(Fields, usize)> {
        match self.0 {
            1 if f[0] == 2 && f[2] == 1 << 63 => f[2] -= 1,
            2 if f[0] == 3 && 0x7f80_0000 < f[2] % 0x8000_0000 => f[2] = 0x7fc0_0000,
            2 if f[0] == 4 && 0x7ff0_0000_0000_0000 < f[2] % (1 << 63) => f[2] = 0x7ff8_0000_0000_0000,
            3 if f[0] == 3 && f[2] == 0x8000_0000 => f[2] = 0,
            3 if f[0] == 4 && f[2] == 1 << 63 => f[2] = 0,
            4 if f[0] == 7 && f[5] == 0 => return None,
            7 if f[0] != 9 && f[1] == 0x7fff_ffff => f[1] -= 1,
            9 if f[0] == 5 && f[3] == 0x7fff_ffff => f[3] -= 1,
            10 if f[0] == 7 => f[3] = 0,
            11 if f[0] == 5 && 2 <= f[2] => at -= 1,
            _ => {}
        }
        Some((f, at))
    }

    pub fn verdict(self, tag: u8, at: usize, opened: bool, again: bool) -> (u8, usize) {
        match self.0 {
            5 if tag == REFUSED => (tag, at - 1),
            6 if tag == REFUSED && again => (INCOMPLETE, at),
            8 if tag == INCOMPLETE && opened => (COMPLETE, at),
            _ => (tag, at),
        }
    }

    pub fn too_long(self, offset: usize, held: usize) -> bool {
        self.is(12) && offset != 0 && offset != held
    }

    pub fn nothing(self, total: usize, held: usize) -> u8 {
        if self.is(13) && total < held { 2 } else { 0 }
    }

    /// `tail`: total, offset, chunk and the length held before the call.
    pub fn gathered(self, buffer: &mut [u8], tail: Option<(usize, usize, &[u8], usize)>) {
        let Some((total, offset, chunk, held)) = tail else { return };
        if self.is(14) && offset == 0 && total <= chunk.len() && total <= buffer.len() {
            buffer[..total].copy_from_slice(&chunk[..total]);
        }
        if self.is(15) && offset == held && total < buffer.len() && held < total && total - held < chunk.len() {
            buffer[total] = chunk[total - held];
        }
    }

    pub fn keeps(self) -> bool {
        self.is(17)
    }

    pub fn opens_as_id(self) -> bool {
        self.is(34)
    }

    pub fn drains_short(self) -> bool {
        self.is(35)
    }

    pub fn long_piece(self, end: usize) -> bool {
        self.is(36) && 65_536 < end
    }

    pub fn answers_new_offset(self) -> bool {
        self.is(21)
    }

    pub fn cuts_drains(self) -> bool {
        self.is(20)
    }

    pub fn number(self, number: u8) -> u8 {
        if self.is(22) && number == 8 { 9 } else { number }
    }

    /// A copy's length beforehand, of a ticket of so many bytes.
    pub fn length(self, said: i64, ticket: usize) -> i64 {
        match self.0 {
            37 if 0 <= said => ticket as i64,
            38 if said == -100 => ticket as i64,
            39 if 0 <= said => said & 0xffff,
            _ => said,
        }
    }

    /// The drains that a copy of `length` bytes, or of none for this reason, costs over a buffer of so many bytes.
    pub fn drains(self, said: i64, length: i64, buffer: usize) -> i64 {
        match self.0 {
            40 if 0 <= said => length / buffer as i64,
            41 if said == 0 => 1,
            42 if buffer == 0 && length < 0 => length,
            _ => said,
        }
    }

    /// Whether a call that filled the buffer says so at once, and the position.
    pub fn written(self, buffer: &mut [u8], position: usize, calls: usize, drained: bool, offset: usize) -> (bool, usize) {
        match self.0 {
            16 if drained && position + offset <= buffer.len() => return (false, position + offset),
            18 if position < buffer.len() && calls != 0 => buffer[position] ^= 1,
            19 if position == buffer.len() => return (true, position),
            23 if offset != 0 && offset <= buffer.len() && calls != 0 => buffer[..offset].fill(0),
            _ => {}
        }
        (false, position)
    }
}
