//! The keys that a thread knows, and their counts. A key's code is its number in the order in which
//! they were added.

use crate::text::Text;
use std::arch::x86_64::{_mm_prefetch, _MM_HINT_T0};
use std::hash::{BuildHasher, RandomState};

/// How many keys are hashed before they are looked up, while memory is on its way to the cache.
pub const BATCH: usize = 32;

/// The longest key that is kept in two words.
pub const SHORT: usize = 16;

/// The longest key that may be counted.
pub const LONGEST: usize = 65_535;

/// A hash with a random seed, since strangers choose the keys.
#[derive(Clone)]
pub struct KeyedHash {
    factors: [u64; 6],
    of_long: RandomState,
}

impl KeyedHash {
    pub fn new() -> KeyedHash {
        let of_long = RandomState::new();
        KeyedHash { factors: [0, 1, 2, 3, 4, 5].map(|nth| of_long.hash_one(nth)), of_long }
    }

    /// A sum of products with 32 bits of the key each, which is strongly universal, and a bijection
    /// that parts keys that count up.
    #[inline(always)]
    fn of_short(&self, [first, second]: [u64; 2], len: usize) -> u32 {
        let parts = [first as u32, (first >> 32) as u32, second as u32, (second >> 32) as u32];
        let [a, b, c, d, e, f] = self.factors;
        let sum = f.wrapping_add(e.wrapping_mul(len as u64));
        let products = parts.into_iter().zip([a, b, c, d]);
        let sum = products.fold(sum, |sum, (part, factor)| {
            sum.wrapping_add(factor.wrapping_mul(u64::from(part)))
        });
        let mut hash = (sum >> 32) as u32;
        hash ^= hash >> 16;
        hash = hash.wrapping_mul(0x85eb_ca6b);
        hash ^ hash >> 15
    }
}

/// A key that is to be looked up.
#[derive(Clone, Copy, Default)]
pub struct Key {
    /// The bytes of a short key, with zeros behind them; the hash and the place of a long one.
    words: [u64; 2],
    hash: u32,
    len: u32,
}

/// The length of a key that is not short.
const LONG: u8 = u8::MAX;
const NO_CODE: u32 = u32::MAX;

/// 0, or the hash of a key and behind it its code plus 1, 32 bits each. The place of a slot is the
/// hash's high bits, or the next one that was free.
type Slot = u64;

fn slot_of(hash: u32, code: u32) -> Slot {
    u64::from(hash) << 32 | u64::from(code + 1)
}

fn hash_in(slot: Slot) -> u32 {
    (slot >> 32) as u32
}

/// The code in a slot, or `NO_CODE`.
fn code_in(slot: Slot) -> u32 {
    (slot as u32).wrapping_sub(1)
}

pub struct Table {
    hash: KeyedHash,
    slots: Vec<Slot>,
    /// The number of low bits of a hash that do not belong to its slot's place.
    shift: u32,
    /// By codes: the bytes of a short key, the hash and the place in `long` of another.
    words: Vec<[u64; 2]>,
    lens: Vec<u8>,
    counts: Vec<u32>,
    /// The long keys, each behind its length in four bytes.
    long: Vec<u8>,
    /// How many bytes all keys have.
    bytes: usize,
}

/// How many slots, as a power of two, are there at first.
const FIRST_BITS: u32 = 12;

/// Up to how many keys are put into more slots by their codes.
const BY_CODE: usize = 1 << 18;

/// Empty slots. They are written, since memory that is read first costs a second page fault.
fn empty_slots(count: usize) -> Vec<Slot> {
    let mut slots = Vec::with_capacity(count);
    slots.resize_with(count, || std::hint::black_box(0));
    slots
}

fn prefetch<T>(memory: *const T) {
    // SAFETY: this reads nothing, whatever the address.
    unsafe { _mm_prefetch::<_MM_HINT_T0>(memory.cast()) }
}

impl Table {
    pub fn new(hash: KeyedHash) -> Table {
        Table {
            hash,
            slots: empty_slots(1 << FIRST_BITS),
            shift: u32::BITS - FIRST_BITS,
            words: Vec::new(),
            lens: Vec::new(),
            counts: Vec::new(),
            long: Vec::new(),
            bytes: 0,
        }
    }

    /// How many keys there are.
    pub fn len(&self) -> u32 {
        self.words.len() as u32
    }

    pub fn bytes(&self) -> usize {
        self.bytes
    }

    pub fn count(&self, code: u32) -> u32 {
        self.counts[code as usize]
    }

    pub fn set_count(&mut self, code: u32, count: u32) {
        self.counts[code as usize] = count;
    }

    /// The words of a key and its length, if it is short.
    #[inline(always)]
    pub fn short(&self, code: u32) -> Option<([u64; 2], usize)> {
        let len = self.lens[code as usize];
        (len != LONG).then(|| (self.words[code as usize], usize::from(len)))
    }

    /// The bytes of a key that is not short.
    pub fn long(&self, code: u32) -> &[u8] {
        self.long_at(self.words[code as usize][1])
    }

    fn long_at(&self, place: u64) -> &[u8] {
        let (len, bytes) = self.long[place as usize..].split_first_chunk().unwrap();
        &bytes[..u32::from_le_bytes(*len) as usize]
    }

    #[inline(always)]
    fn home(&self, hash: u32) -> usize {
        (hash >> self.shift) as usize
    }

    fn next(&self, place: usize) -> usize {
        (place + 1) & (self.slots.len() - 1)
    }

    #[inline(always)]
    fn slot(&self, place: usize) -> Slot {
        debug_assert!(place < self.slots.len());
        // SAFETY: a place is made by `home` or `next`.
        unsafe { *self.slots.get_unchecked(place) }
    }

    /// Hashes a key in a text, and begins to fetch its slot.
    #[inline(always)]
    pub fn key(&self, text: Text<'_>, at: usize, len: usize) -> Key {
        let key = if len <= SHORT {
            let words = text.words(at, len);
            Key { words, hash: self.hash.of_short(words, len), len: len as u32 }
        } else {
            let hash = self.hash.of_long.hash_one(text.part(at, at + len));
            Key { words: [hash, at as u64], hash: (hash >> 32) as u32, len: len as u32 }
        };
        prefetch(self.slots.as_ptr().wrapping_add(self.home(key.hash)));
        key
    }

    /// Counts the keys of a batch, of which most are known and in their home slots.
    pub fn count_all(&mut self, text: Text<'_>, batch: &[Key]) {
        while self.words.len() + batch.len() > self.slots.len() / 4 * 3 {
            self.grow();
        }
        let mut codes = [NO_CODE; BATCH];
        for (key, code) in batch.iter().zip(&mut codes) {
            let slot = self.slot(self.home(key.hash));
            *code = if hash_in(slot) == key.hash { code_in(slot) } else { NO_CODE };
            prefetch(self.words.as_ptr().wrapping_add(*code as usize));
        }
        for (key, mut code) in batch.iter().zip(codes) {
            if code == NO_CODE || !self.is_key(code, key, text) {
                code = self.code_of(key, text);
            }
            // SAFETY: a code in a slot is that of a key.
            unsafe { *self.counts.get_unchecked_mut(code as usize) += 1 };
        }
    }

    #[inline(always)]
    fn is_key(&self, code: u32, key: &Key, text: Text<'_>) -> bool {
        let code = code as usize;
        debug_assert!(code < self.words.len());
        // SAFETY: a code in a slot is that of a key.
        let (words, len) =
            unsafe { (*self.words.get_unchecked(code), *self.lens.get_unchecked(code)) };
        if key.len as usize <= SHORT {
            (words == key.words) & (u32::from(len) == key.len)
        } else {
            let [hash, place] = words;
            len == LONG && hash == key.words[0] && self.long_at(place) == long_in(text, key)
        }
    }

    /// The code of a key, which is added if it is new.
    #[inline(never)]
    fn code_of(&mut self, key: &Key, text: Text<'_>) -> u32 {
        let mut place = self.home(key.hash);
        loop {
            let slot = self.slot(place);
            if slot == 0 {
                return self.add(place, key, text);
            }
            if hash_in(slot) == key.hash && self.is_key(code_in(slot), key, text) {
                return code_in(slot);
            }
            place = self.next(place);
        }
    }

    fn add(&mut self, place: usize, key: &Key, text: Text<'_>) -> u32 {
        let code = self.len();
        let &Key { words: [first, mut second], hash, len } = key;
        let is_short = len as usize <= SHORT;
        if !is_short {
            second = self.long.len() as u64;
            self.long.extend_from_slice(&len.to_le_bytes());
            self.long.extend_from_slice(long_in(text, key));
        }
        self.words.push([first, second]);
        self.lens.push(if is_short { len as u8 } else { LONG });
        self.counts.push(0);
        self.bytes += len as usize;
        self.slots[place] = slot_of(hash, code);
        code
    }

    /// Twice the slots. Few keys are put there by their codes, since those that came first come
    /// often, and so get their homes; many by their old places, so that memory is written in order.
    #[cold]
    fn grow(&mut self) {
        let more = empty_slots(2 * self.slots.len());
        let old = std::mem::replace(&mut self.slots, more);
        self.shift -= 1;
        if self.words.len() <= BY_CODE {
            for code in 0..self.len() {
                let hash = match self.short(code) {
                    Some((words, len)) => self.hash.of_short(words, len),
                    None => (self.words[code as usize][0] >> 32) as u32,
                };
                self.put(slot_of(hash, code));
            }
        } else {
            old.into_iter().filter(|&slot| slot != 0).for_each(|slot| self.put(slot));
        }
    }

    fn put(&mut self, slot: Slot) {
        let mut place = self.home(hash_in(slot));
        while self.slot(place) != 0 {
            place = self.next(place);
        }
        self.slots[place] = slot;
    }

    /// Calls `each` with the hash and the code of every key whose hash is in a part of so many (two
    /// at least), in the order of the slots.
    pub fn each_in(&self, part: usize, parts: usize, mut each: impl FnMut(u32, u32)) {
        let bound = |part: usize| ((part << 32) / parts) as u64;
        let hashes = bound(part)..bound(part + 1);
        let last_home = self.home((hashes.end - 1) as u32);
        let mut at = self.home(hashes.start as u32);
        loop {
            let slot = self.slot(at & (self.slots.len() - 1));
            if slot == 0 && at >= last_home {
                return;
            }
            if slot != 0 && hashes.contains(&u64::from(hash_in(slot))) {
                each(hash_in(slot), code_in(slot));
            }
            at += 1;
        }
    }

    /// The code of the first key from the home of a hash on that has this hash, from slots alone.
    #[inline(always)]
    pub fn first_with(&self, hash: u32) -> Option<u32> {
        let mut place = self.home(hash);
        loop {
            let slot = self.slot(place);
            if slot == 0 {
                return None;
            }
            if hash_in(slot) == hash {
                return Some(code_in(slot));
            }
            place = self.next(place);
        }
    }

    /// Begins to fetch a key and its count.
    pub fn fetch(&self, code: u32) {
        prefetch(self.words.as_ptr().wrapping_add(code as usize));
        prefetch(self.counts.as_ptr().wrapping_add(code as usize));
    }

    /// Whether a key is that of a code in another table with the same hash.
    #[inline(always)]
    pub fn is_same(&self, code: u32, other: &Table, code_there: u32) -> bool {
        match (self.short(code), other.short(code_there)) {
            (None, None) => self.long(code) == other.long(code_there),
            (short, short_there) => short == short_there,
        }
    }

    /// The code here of a key of another table with the same hash.
    pub fn find(&self, hash: u32, other: &Table, code_there: u32) -> Option<u32> {
        let mut place = self.home(hash);
        while self.slot(place) != 0 {
            let slot = self.slot(place);
            if hash_in(slot) == hash && self.is_same(code_in(slot), other, code_there) {
                return Some(code_in(slot));
            }
            place = self.next(place);
        }
        None
    }
}

/// The bytes of a key that is not short, in the text in which it lies.
fn long_in<'a>(text: Text<'a>, key: &Key) -> &'a [u8] {
    let from = key.words[1] as usize;
    text.part(from, from + key.len as usize)
}
