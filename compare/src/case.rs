//! Cases of reader, gatherer and writer, and their encoding (../PROTOCOL.md). The generators and the search for a smaller case work on these;
//! both sides are given the bytes.

use crate::bytes::*;

#[derive(Clone, Copy, PartialEq, Eq, Debug)]
pub enum Kind {
    Reader = 1,
    Gatherer = 2,
    Writer = 3,
    Copier = 4,
}

/// A case that can be written as bytes, and made smaller in several ways.
pub trait Case: Clone {
    const KIND: Kind;
    fn encode(&self, out: &mut Vec<u8>);
    /// How many parts it has that can be left out: calls, or a ticket's bytes.
    fn parts(&self) -> usize;
    /// Without some of them.
    fn without(&self, from: usize, n: usize) -> Self;
    /// A little smaller, in every way.
    fn smaller(&self) -> Vec<Self>;
    fn show(&self) -> String;
}

#[derive(Clone, Debug)]
pub struct Reader {
    pub chunks: Vec<usize>,
    pub ticket: Vec<u8>,
}

impl Case for Reader {
    const KIND: Kind = Kind::Reader;

    fn encode(&self, out: &mut Vec<u8>) {
        put_len(out, self.chunks.len());
        for &n in &self.chunks {
            put_len(out, n);
        }
        out.extend_from_slice(&self.ticket);
    }

    fn parts(&self) -> usize {
        self.ticket.len()
    }

    fn without(&self, from: usize, n: usize) -> Self {
        let to = self.ticket.len().min(from + n);
        let mut c = self.clone();
        c.ticket.drain(from..to);
        let mut at = 0;
        for len in c.chunks.iter_mut() {
            let end = at + *len;
            *len -= end.min(to).saturating_sub(at.max(from));
            at = end;
        }
        c
    }

    fn smaller(&self) -> Vec<Self> {
        let mut found = Vec::new();
        for i in 0..self.chunks.len() {
            let mut c = self.clone();
            let n = c.chunks.remove(i);
            if i < c.chunks.len() {
                c.chunks[i] += n;
            } else if let Some(last) = c.chunks.last_mut() {
                *last += n;
            }
            found.push(c);
        }
        for i in 0..self.ticket.len() {
            let mut c = self.clone();
            c.ticket.remove(i);
            let mut at = 0;
            for n in c.chunks.iter_mut() {
                at += *n;
                if i < at {
                    *n -= 1;
                    break;
                }
            }
            found.push(c);
        }
        for i in 0..self.ticket.len() {
            for b in [0, self.ticket[i] & 0x7f, self.ticket[i] / 2] {
                if b != self.ticket[i] {
                    let mut c = self.clone();
                    c.ticket[i] = b;
                    found.push(c);
                }
            }
        }
        found
    }

    fn show(&self) -> String {
        format!("chunks {:?} of {}", self.chunks, hex(&self.ticket))
    }
}

#[derive(Clone, Debug)]
pub enum Piece {
    Feed { total: u64, offset: u64, chunk: Vec<u8> },
    Reset,
}

#[derive(Clone, Debug)]
pub struct Gatherer {
    pub capacity: usize,
    pub calls: Vec<Piece>,
}

impl Case for Gatherer {
    const KIND: Kind = Kind::Gatherer;

    fn encode(&self, out: &mut Vec<u8>) {
        put_len(out, self.capacity);
        for call in &self.calls {
            match call {
                Piece::Feed { total, offset, chunk } => {
                    out.push(0);
                    put64(out, *total);
                    put64(out, *offset);
                    put_len(out, chunk.len());
                    out.extend_from_slice(chunk);
                }
                Piece::Reset => out.push(1),
            }
        }
    }

    fn parts(&self) -> usize {
        self.calls.len()
    }

    fn without(&self, from: usize, n: usize) -> Self {
        let mut c = self.clone();
        c.calls.drain(from..self.calls.len().min(from + n));
        c
    }

    fn smaller(&self) -> Vec<Self> {
        let mut found = Vec::new();
        for i in 0..self.calls.len() {
            let mut c = self.clone();
            c.calls.remove(i);
            found.push(c);
        }
        for i in 0..self.calls.len() {
            let mut c = self.clone();
            if let Piece::Feed { chunk, .. } = &mut c.calls[i] {
                if chunk.pop().is_some() {
                    found.push(c);
                }
            }
        }
        found
    }

    fn show(&self) -> String {
        format!("{self:?}")
    }
}

/// A call on the writer. Floats are given by their bits; `width` is the element width that the Rust is called with.
#[derive(Clone, Debug)]
pub enum Call {
    Unsigned(u32, u64),
    Signed(u32, i64),
    Boolean(u32, bool),
    Fixlen(u32, u8, Vec<u8>),
    Fp32(u32, u32),
    Fp64(u32, u64),
    Str(u32, Vec<u8>),
    Blob(u32, Vec<u8>),
    ArrayUnsigned(u32, u8, Vec<u64>),
    ArraySigned(u32, u8, Vec<i64>),
    ArrayFp32(u32, Vec<u32>),
    ArrayFp64(u32, Vec<u64>),
    Begin(u32),
    End,
    EndKeep,
    Flush,
    BufferSet(usize, u32),
}

#[derive(Clone, Debug)]
pub struct Writer {
    pub drained: bool,
    pub length: usize,
    pub offset: u32,
    pub calls: Vec<Call>,
}

impl Call {
    fn encode(&self, out: &mut Vec<u8>) {
        let head = |out: &mut Vec<u8>, code: u8, id: u32| {
            out.push(code);
            put32(out, id);
        };
        let bytes = |out: &mut Vec<u8>, data: &[u8]| {
            put_len(out, data.len());
            out.extend_from_slice(data);
        };
        match self {
            Call::Unsigned(id, v) => {
                head(out, 1, *id);
                put64(out, *v);
            }
            Call::Signed(id, v) => {
                head(out, 2, *id);
                put64(out, *v as u64);
            }
            Call::Boolean(id, v) => {
                head(out, 3, *id);
                out.push(*v as u8);
            }
            Call::Fixlen(id, subtype, data) => {
                head(out, 4, *id);
                out.push(*subtype);
                bytes(out, data);
            }
            Call::Fp32(id, bits) => {
                head(out, 5, *id);
                put32(out, *bits);
            }
            Call::Fp64(id, bits) => {
                head(out, 6, *id);
                put64(out, *bits);
            }
            Call::Str(id, data) => {
                head(out, 7, *id);
                bytes(out, data);
            }
            Call::Blob(id, data) => {
                head(out, 8, *id);
                bytes(out, data);
            }
            Call::ArrayUnsigned(id, width, data) => {
                head(out, 9, *id);
                out.push(*width);
                put_len(out, data.len());
                data.iter().for_each(|&x| put64(out, x));
            }
            Call::ArraySigned(id, width, data) => {
                head(out, 10, *id);
                out.push(*width);
                put_len(out, data.len());
                data.iter().for_each(|&x| put64(out, x as u64));
            }
            Call::ArrayFp32(id, data) => {
                head(out, 11, *id);
                put_len(out, data.len());
                data.iter().for_each(|&x| put32(out, x));
            }
            Call::ArrayFp64(id, data) => {
                head(out, 12, *id);
                put_len(out, data.len());
                data.iter().for_each(|&x| put64(out, x));
            }
            Call::Begin(id) => head(out, 13, *id),
            Call::End => out.push(14),
            Call::EndKeep => out.push(15),
            Call::Flush => out.push(16),
            Call::BufferSet(length, offset) => {
                out.push(17);
                put_len(out, *length);
                put32(out, *offset);
            }
        }
    }

    fn shorter(&self) -> Option<Call> {
        let mut c = self.clone();
        let cut = match &mut c {
            Call::Fixlen(_, _, d) | Call::Blob(_, d) => d.pop().is_some(),
            Call::Str(_, d) => {
                let cut = !d.is_empty();
                d.clear();
                cut
            }
            Call::ArrayUnsigned(_, _, d) => d.pop().is_some(),
            Call::ArraySigned(_, _, d) => d.pop().is_some(),
            Call::ArrayFp32(_, d) => d.pop().is_some(),
            Call::ArrayFp64(_, d) => d.pop().is_some(),
            _ => false,
        };
        cut.then_some(c)
    }
}

impl Case for Writer {
    const KIND: Kind = Kind::Writer;

    fn encode(&self, out: &mut Vec<u8>) {
        out.push(self.drained as u8);
        put_len(out, self.length);
        put32(out, self.offset);
        self.calls.iter().for_each(|c| c.encode(out));
    }

    fn parts(&self) -> usize {
        self.calls.len()
    }

    fn without(&self, from: usize, n: usize) -> Self {
        let mut c = self.clone();
        c.calls.drain(from..self.calls.len().min(from + n));
        c
    }

    fn smaller(&self) -> Vec<Self> {
        let mut found = Vec::new();
        for i in 0..self.calls.len() {
            let mut c = self.clone();
            c.calls.remove(i);
            found.push(c);
            if let Some(call) = self.calls[i].shorter() {
                let mut c = self.clone();
                c.calls[i] = call;
                found.push(c);
            }
        }
        if 1 < self.length {
            let mut c = self.clone();
            c.length -= 1;
            found.push(c);
        }
        if 0 < self.offset {
            let mut c = self.clone();
            c.offset -= 1;
            found.push(c);
        }
        found
    }

    fn show(&self) -> String {
        format!("{self:?}")
    }
}
