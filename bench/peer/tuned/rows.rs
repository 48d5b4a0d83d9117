//! The rows of the counts, in pieces that are made side by side while others are written.

use crate::table::{Table, SHORT};
use crate::text::{any, bits, is};
use crate::worker::{New, Worker};
use std::arch::x86_64::_mm_set_epi64x;
use std::io::{self, Write};
use std::thread;

/// How long a piece is at most, unless the keys of one chunk are longer.
const PIECE: usize = 1 << 20;

/// New keys of a worker, with its table.
type Keys<'a> = (&'a New, &'a Table);

/// How long the rows of keys can be, with what is written behind a row and taken back.
fn bound((new, _): &Keys<'_>) -> usize {
    let others = "count,".len() + "\"\"".len() + ",4294967295\n".len();
    2 * new.bytes + new.codes.len() * others + SHORT
}

/// Bytes that are added without a look whether there is room.
struct Rows {
    bytes: Vec<u8>,
}

impl Rows {
    /// Adds the first bytes of as many as are quickly copied. There must be room for all of them.
    #[inline(always)]
    fn add<const N: usize>(&mut self, bytes: [u8; N], len: usize) {
        let end = self.bytes.len();
        debug_assert!(len <= N && end + N <= self.bytes.capacity());
        // SAFETY: there is room, by `bound`.
        unsafe {
            self.bytes.as_mut_ptr().add(end).cast::<[u8; N]>().write_unaligned(bytes);
            self.bytes.set_len(end + len);
        }
    }

    #[inline(always)]
    fn add_words(&mut self, [first, second]: [u64; 2], len: usize) {
        let both = u128::from(first) | u128::from(second) << 64;
        self.add(both.to_le_bytes(), len);
    }

    /// Adds a key, quoted if necessary.
    fn add_key(&mut self, key: &[u8]) {
        if !key.iter().any(|byte| b",\"\r\n".contains(byte)) {
            return self.bytes.extend_from_slice(key);
        }
        self.bytes.push(b'"');
        for part in key.split_inclusive(|&byte| byte == b'"') {
            self.bytes.extend_from_slice(part);
            if part.ends_with(b"\"") {
                self.bytes.push(b'"');
            }
        }
        self.bytes.push(b'"');
    }

    #[inline(always)]
    fn add_number(&mut self, number: u32) {
        if number < 10 {
            return self.add([b'0' + number as u8], 1);
        }
        let (mut digits, mut rest, mut at) = ([0; 10], number, 10);
        while rest > 0 {
            at -= 1;
            digits[at] = b'0' + (rest % 10) as u8;
            rest /= 10;
        }
        self.bytes.extend_from_slice(&digits[at..]);
    }

    /// Adds the rows of the keys that belong to their worker.
    fn add_rows(&mut self, (new, table): &Keys<'_>) {
        for code in new.codes.clone() {
            let count = table.count(code);
            if count == 0 {
                continue;
            }
            self.add(*b"count,\0\0", 6);
            match table.short(code) {
                Some((words, len)) if !is_to_be_quoted(words, len) => self.add_words(words, len),
                Some((words, len)) => {
                    let [first, second] = words.map(u64::to_le_bytes);
                    self.add_key(&[first, second].concat()[..len]);
                }
                None => self.add_key(table.long(code)),
            }
            self.add([b','], 1);
            self.add_number(count);
            self.add([b'\n'], 1);
        }
    }
}

/// Whether a short key is to be quoted.
#[inline(always)]
fn is_to_be_quoted([first, second]: [u64; 2], len: usize) -> bool {
    // SAFETY: every x86-64 has this instruction.
    let key = unsafe { _mm_set_epi64x(second as i64, first as i64) };
    let special = any([is(key, b','), is(key, b'"'), is(key, b'\r'), is(key, b'\n')]);
    bits(special) & ((1 << len) - 1) != 0
}

/// Keys that follow one another, in pieces whose rows are about as long.
fn pieces<'a, 'b>(keys: &'b [Keys<'a>]) -> Vec<&'b [Keys<'a>]> {
    let (mut pieces, mut rest) = (Vec::new(), keys);
    while !rest.is_empty() {
        let mut size = 0;
        let fits = |keys: &&Keys<'_>| {
            size += bound(keys);
            size <= PIECE
        };
        let (piece, behind) = rest.split_at(rest.iter().take_while(fits).count().max(1));
        pieces.push(piece);
        rest = behind;
    }
    pieces
}

/// Writes the rows of all counts, in the order of their chunks, and the row of the total.
pub fn write(workers: &[Worker], total: u64, out: &mut impl Write) -> io::Result<()> {
    let mut keys: Vec<Keys<'_>> = Vec::new();
    for worker in workers {
        keys.extend(worker.new.iter().map(|new| (new, &worker.table)));
    }
    keys.sort_by_key(|(new, _)| new.chunk);
    let make = |rows: &mut Rows, piece: &[Keys<'_>]| {
        rows.bytes.clear();
        rows.bytes.reserve(piece.iter().map(bound).sum());
        piece.iter().for_each(|keys| rows.add_rows(keys));
    };
    let empty = || workers.iter().map(|_| Rows { bytes: Vec::new() }).collect::<Vec<_>>();
    let (mut made, mut before) = (empty(), empty());
    let pieces = pieces(&keys);
    for round in pieces.chunks(workers.len()) {
        thread::scope(|scope| {
            for (rows, &piece) in made.iter_mut().zip(round) {
                scope.spawn(move || make(rows, piece));
            }
            before.iter().try_for_each(|rows| out.write_all(&rows.bytes))
        })?;
        std::mem::swap(&mut made, &mut before);
        made.iter_mut().for_each(|rows| rows.bytes.clear());
    }
    before.iter().try_for_each(|rows| out.write_all(&rows.bytes))?;
    writeln!(out, "total,{total},{total}")?;
    out.flush()
}
