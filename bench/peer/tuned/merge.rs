//! The counts over all workers. A key belongs to the worker of the chunk in which it came first,
//! which gets its whole count; with the others its count becomes 0.
//!
//! Each thread has a part of the hashes, and goes through their slots in order. The keys of a
//! worker are looked for in the slots of those behind it, so these are read in order too, and a key
//! is looked at only where two slots have the same hash.

use crate::worker::Worker;
use std::thread;

/// How many workers there may be.
pub const MOST: usize = 16;

/// How many keys are found in slots before they are compared.
const BATCH: usize = 64;

/// The code of a key with a worker, and its count there.
type Change = (u32, u32);

/// A key that others may have too: its hash, and codes by workers.
type Shared = (u32, [Option<u32>; MOST]);

/// The changes of the counts of a part of the hashes, by workers.
struct Part<'a> {
    workers: &'a [Worker],
    changes: Vec<Vec<Change>>,
    /// The codes, each as a bit, of the keys that were found with a worker before.
    is_done: Vec<Vec<u64>>,
}

impl<'a> Part<'a> {
    fn new(workers: &'a [Worker]) -> Part<'a> {
        let bits = |worker: &Worker| vec![0; worker.table.len() as usize / 64 + 1];
        Part {
            workers,
            changes: vec![Vec::new(); workers.len()],
            is_done: workers.iter().map(bits).collect(),
        }
    }

    /// Merges the keys of this part of so many that a worker has, and none before it.
    fn merge_keys_of(&mut self, mine: usize, part: usize, parts: usize) {
        let mut batch: Vec<Shared> = Vec::with_capacity(BATCH);
        let workers = self.workers;
        workers[mine].table.each_in(part, parts, |hash, code| {
            if self.is_done[mine][code as usize / 64] >> (code % 64) & 1 != 0 {
                return;
            }
            let mut codes = [None; MOST];
            for (worker, code) in workers.iter().zip(&mut codes).skip(mine + 1) {
                *code = worker.table.first_with(hash);
                code.inspect(|&code| worker.table.fetch(code));
            }
            if codes == [None; MOST] {
                return;
            }
            workers[mine].table.fetch(code);
            codes[mine] = Some(code);
            batch.push((hash, codes));
            if batch.len() == BATCH {
                batch.drain(..).for_each(|shared| self.merge_key(mine, shared));
            }
        });
        batch.into_iter().for_each(|shared| self.merge_key(mine, shared));
    }

    fn merge_key(&mut self, mine: usize, (hash, mut codes): Shared) {
        let Some(code) = codes[mine] else { return };
        let table = &self.workers[mine].table;
        let (mut owner, mut first) = (mine, self.workers[mine].chunk_of(code));
        let mut total = table.count(code);
        for (other, worker) in self.workers.iter().enumerate().skip(mine + 1) {
            let Some(mut there) = codes[other].take() else { continue };
            if !worker.table.is_same(there, table, code) {
                // Another key with the same hash, which is rare.
                let Some(found) = worker.table.find(hash, table, code) else { continue };
                there = found;
            }
            codes[other] = Some(there);
            self.is_done[other][there as usize / 64] |= 1 << (there % 64);
            total += worker.table.count(there);
            let chunk = worker.chunk_of(there);
            if chunk < first {
                (owner, first) = (other, chunk);
            }
        }
        for (worker, code) in codes.into_iter().enumerate() {
            if let Some(code) = code {
                self.changes[worker].push((code, if worker == owner { total } else { 0 }));
            }
        }
    }
}

/// Merges the counts of all workers, of which there are `MOST` at most.
pub fn merge(workers: &mut [Worker]) {
    let parts = workers.len();
    if parts == 1 {
        return;
    }
    let all = &*workers;
    let merge_part = |part: usize| {
        let mut merged = Part::new(all);
        (0..parts).for_each(|mine| merged.merge_keys_of(mine, part, parts));
        merged.changes
    };
    let changes: Vec<Vec<Vec<Change>>> = thread::scope(|scope| {
        let spawn = |part| scope.spawn(move || merge_part(part));
        let threads: Vec<_> = (0..parts).map(spawn).collect();
        threads.into_iter().map(|thread| thread.join().unwrap()).collect()
    });
    let changes = &changes;
    thread::scope(|scope| {
        for (nth, worker) in workers.iter_mut().enumerate() {
            scope.spawn(move || {
                for &(code, count) in changes.iter().flat_map(|by_worker| &by_worker[nth]) {
                    worker.table.set_count(code, count);
                }
            });
        }
    });
}
