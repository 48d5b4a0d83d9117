//! A buffer and the text in it, which is looked at 64 bytes at a time. Bytes behind the text may be
//! read, so that nobody has to look where it ends.

use std::arch::x86_64::*;
use std::array;
use std::io::{self, ErrorKind, Read};

/// How many bytes behind a text may be read.
const PAD: usize = 128;

/// A buffer that is filled again and again.
#[derive(Default)]
pub struct Buffer {
    bytes: Vec<u8>,
    len: usize,
}

impl Buffer {
    pub fn new(size: usize) -> Buffer {
        Buffer { bytes: vec![0; size + PAD], len: 0 }
    }

    pub fn text(&self) -> Text<'_> {
        Text { bytes: &self.bytes[..self.len + PAD] }
    }

    /// Puts other bytes in place of the text.
    pub fn replace(&mut self, bytes: &[u8]) {
        self.len = 0;
        self.append(bytes);
    }

    pub fn append(&mut self, bytes: &[u8]) {
        let len = self.len + bytes.len();
        if self.bytes.len() < len + PAD {
            self.bytes.resize(2 * len + PAD, 0);
        }
        self.bytes[self.len..len].copy_from_slice(bytes);
        self.len = len;
    }

    /// Makes room for as much text again.
    pub fn double(&mut self) {
        self.bytes.resize(2 * self.bytes.len(), 0);
    }

    /// Reads until the buffer is full or the file at its end, and returns whether the file is.
    pub fn fill(&mut self, file: &mut impl Read) -> io::Result<bool> {
        let size = self.bytes.len() - PAD;
        while self.len < size {
            match file.read(&mut self.bytes[self.len..size]) {
                Ok(0) => return Ok(true),
                Ok(count) => self.len += count,
                Err(error) if error.kind() == ErrorKind::Interrupted => {}
                Err(error) => return Err(error),
            }
        }
        Ok(false)
    }
}

/// The text of a buffer. Its methods may read up to `PAD` bytes behind its end, and what they find
/// there means nothing. Only debug builds check that they do not read more.
#[derive(Clone, Copy)]
pub struct Text<'a> {
    bytes: &'a [u8],
}

impl<'a> Text<'a> {
    pub fn len(self) -> usize {
        self.bytes.len() - PAD
    }

    pub fn part(self, from: usize, to: usize) -> &'a [u8] {
        &self.bytes[from..to]
    }

    #[inline(always)]
    pub fn byte(self, at: usize) -> u8 {
        debug_assert!(at < self.bytes.len());
        // SAFETY: at most PAD bytes behind the text.
        unsafe { *self.bytes.get_unchecked(at) }
    }

    /// A load of whatever has this many bytes.
    #[inline(always)]
    fn load<T: Copy>(self, at: usize) -> T {
        debug_assert!(at + size_of::<T>() <= self.bytes.len());
        // SAFETY: at most PAD bytes behind the text; T is a number or a vector of numbers.
        unsafe { self.bytes.as_ptr().add(at).cast::<T>().read_unaligned() }
    }

    #[inline(always)]
    fn lanes(self, at: usize) -> [__m128i; 4] {
        array::from_fn(|lane| self.load(at + 16 * lane))
    }

    /// The field ends among 64 bytes, each as a bit: commas, line feeds and carriage returns.
    #[inline(always)]
    pub fn field_ends(self, at: usize) -> u64 {
        let end = |lane| any([is(lane, b','), is(lane, b'\n'), is(lane, b'\r')]);
        all_bits(self.lanes(at).map(end))
    }

    /// The double quotes among 64 bytes.
    #[inline(always)]
    pub fn quotes(self, at: usize) -> u64 {
        all_bits(self.lanes(at).map(|lane| is(lane, b'"')))
    }

    /// The line feeds among 64 bytes.
    #[inline(always)]
    pub fn line_feeds(self, at: usize) -> u64 {
        all_bits(self.lanes(at).map(|lane| is(lane, b'\n')))
    }

    /// Whether 64 bytes are lines as they stand: no comma, no double quote, no carriage return.
    #[inline(always)]
    pub fn is_plain(self, at: usize) -> bool {
        let other = |lane| any([is(lane, b','), is(lane, b'"'), is(lane, b'\r')]);
        bits(any(self.lanes(at).map(other))) == 0
    }

    /// The place of the next double quote, which there must be.
    #[inline(always)]
    pub fn next_quote(self, from: usize) -> usize {
        let mut at = from;
        loop {
            let quotes = bits(is(self.load(at), b'"'));
            if quotes != 0 {
                return at + quotes.trailing_zeros() as usize;
            }
            at += 16;
        }
    }

    /// Up to 16 bytes as two words, with zeros behind them.
    #[inline(always)]
    pub fn words(self, at: usize, len: usize) -> [u64; 2] {
        let [first, second]: [u64; 2] = self.load(at);
        let [of_first, of_second] = KEPT[len];
        [first & of_first, second & of_second]
    }
}

/// Which bits of two words belong to their first bytes, by the number of these.
static KEPT: [[u64; 2]; 17] = {
    let mut kept = [[0; 2]; 17];
    let mut len = 1;
    while len <= 16 {
        kept[len] = kept[len - 1];
        kept[len][(len - 1) / 8] |= 0xff << (8 * ((len - 1) % 8));
        len += 1;
    }
    kept
};

// SAFETY of the three below: every x86-64 has these instructions.

/// Which bytes are this one.
#[inline(always)]
pub fn is(lane: __m128i, byte: u8) -> __m128i {
    unsafe { _mm_cmpeq_epi8(lane, _mm_set1_epi8(byte as i8)) }
}

#[inline(always)]
pub fn any<const N: usize>(lanes: [__m128i; N]) -> __m128i {
    let (first, others) = lanes.split_first().expect("a lane");
    others.iter().fold(*first, |all, &lane| unsafe { _mm_or_si128(all, lane) })
}

/// A bit for each byte.
#[inline(always)]
pub fn bits(lane: __m128i) -> u64 {
    unsafe { _mm_movemask_epi8(lane) as u64 }
}

#[inline(always)]
fn all_bits(lanes: [__m128i; 4]) -> u64 {
    let [a, b, c, d] = lanes.map(bits);
    a | b << 16 | c << 32 | d << 48
}
