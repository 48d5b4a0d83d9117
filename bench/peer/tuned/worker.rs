//! What a thread keeps from round to round.

use crate::scan::{self, Layout, Uneven};
use crate::table::{Key, KeyedHash, Table, BATCH, LONGEST};
use crate::text::{Buffer, Text};
use std::ops::Range;

/// The keys that a chunk brought.
pub struct New {
    /// The number of the chunk in the file.
    pub chunk: usize,
    pub codes: Range<u32>,
    /// How many bytes they have.
    pub bytes: usize,
}

pub struct Worker {
    pub table: Table,
    /// By chunks, of those with new keys.
    pub new: Vec<New>,
    pub records: u64,
    /// Keys that are hashed, and so many of them to be counted.
    batch: [Key; BATCH],
    waiting: usize,
    /// The last key that had to be made.
    made: Buffer,
    has_longer: bool,
}

impl Worker {
    pub fn new(hash: KeyedHash) -> Worker {
        Worker {
            table: Table::new(hash),
            new: Vec::new(),
            records: 0,
            batch: [Key::default(); BATCH],
            waiting: 0,
            made: Buffer::default(),
            has_longer: false,
        }
    }

    /// Counts the keys of a chunk, which is text[from..to].
    pub fn take(
        &mut self,
        chunk: usize,
        text: Text<'_>,
        from: usize,
        to: usize,
        layout: Layout,
    ) -> Result<(), &'static str> {
        let (first, bytes) = (self.table.len(), self.table.bytes());
        let scanned = scan::scan(text, from, to, layout, self);
        let codes = first..self.table.len();
        if !codes.is_empty() {
            self.new.push(New { chunk, codes, bytes: self.table.bytes() - bytes });
        }
        if self.has_longer {
            return Err("a key is too long");
        }
        scanned.map_err(|Uneven| "the records have different numbers of fields")
    }

    /// Takes the key of a record.
    #[inline(always)]
    pub fn add(&mut self, text: Text<'_>, at: usize, len: usize) {
        self.has_longer |= len > LONGEST;
        self.batch[self.waiting % BATCH] = self.table.key(text, at, len.min(LONGEST));
        self.waiting += 1;
        if self.waiting == BATCH {
            self.settle(text);
        }
    }

    /// Takes a key that has doubled quotes, or bytes behind its quotes.
    pub fn add_unquoted(&mut self, text: Text<'_>, raw: &[u8]) {
        self.settle(text);
        let mut made = std::mem::take(&mut self.made);
        scan::unquote(raw, &mut made);
        self.add(made.text(), 0, made.text().len());
        self.settle(made.text());
        self.made = made;
    }

    /// Counts the keys that wait, which lie in this text.
    #[inline(never)]
    pub fn settle(&mut self, text: Text<'_>) {
        self.table.count_all(text, &self.batch[..self.waiting]);
        self.records += self.waiting as u64;
        self.waiting = 0;
    }

    /// The number of the chunk that brought a key.
    pub fn chunk_of(&self, code: u32) -> usize {
        let after = self.new.partition_point(|new| new.codes.start <= code);
        self.new[after - 1].chunk
    }
}
