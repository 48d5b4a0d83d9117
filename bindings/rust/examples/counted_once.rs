//! Workers that count the keys of records, while members are lost and old commits come again. At the
//! end each record has been counted once.
//!
//! Copy the loop of `work` to begin with: it is all that a member does.

use keycount::{Cluster, Lease, Refusal, Step};
use std::collections::HashMap;
use std::sync::atomic::{AtomicUsize, Ordering};
use std::sync::{Mutex, MutexGuard};
use std::thread;
use std::time::Duration;

const PARTITIONS: u32 = 12;
const RECORDS: usize = 20_000;
const WORKERS: usize = 4;
const LOSSES: usize = 40;
const BATCH: usize = 25;

/// A commit as it was sent: member, generation, partition, offset, key numbers.
type Sent = (u32, u32, u32, u32, Vec<u32>);

struct Shared {
    cluster: Mutex<Cluster>,
    sent: Mutex<Vec<Sent>>,
    names: AtomicUsize,
}

impl Shared {
    fn cluster(&self) -> MutexGuard<'_, Cluster> {
        self.cluster.lock().expect("no thread panics with the lock")
    }

    /// Joins under a name that nobody has used.
    fn join(&self) -> Result<u32, Refusal> {
        let name = format!("worker-{}", self.names.fetch_add(1, Ordering::Relaxed));
        self.cluster().join(&name)
    }

    fn is_done(&self) -> Result<bool, Refusal> {
        let mut cluster = self.cluster();
        for partition in 0..PARTITIONS {
            if cluster.committed(partition)? < cluster.end(partition)? {
                return Ok(false);
            }
        }
        Ok(true)
    }
}

/// One member: it follows its group, and reads and commits what it is leased.
fn work(shared: &Shared) -> Result<(), Refusal> {
    let mut member = shared.join()?;
    let mut lease = Lease {
        generation: 0,
        offsets: vec![],
    };
    while !shared.is_done()? {
        let step = shared.cluster().next_step(member);
        let done = match step {
            Step::Sync => shared.cluster().sync(member).map(|new| lease = new),
            Step::Rejoin => {
                let claim = lease.partitions();
                shared.cluster().rejoin(member, lease.generation, &claim)
            }
            Step::Read => read(shared, member, &mut lease),
        };
        match done {
            // Somebody was faster: ask again for the next step.
            Ok(()) | Err(Refusal::StaleGeneration | Refusal::NotOwner) => {}
            // The group takes it for lost. What it has not committed, others read again.
            Err(Refusal::UnknownMember) => {
                member = shared.join()?;
                lease.offsets.clear();
            }
            Err(other) => return Err(other),
        }
    }
    Ok(())
}

/// Reads some records of each leased partition and commits them.
fn read(shared: &Shared, member: u32, lease: &mut Lease) -> Result<(), Refusal> {
    for (partition, offset) in &mut lease.offsets {
        let keys = shared.cluster().read(*partition, *offset, BATCH)?;
        if keys.is_empty() {
            continue;
        }
        // Here a worker does its work, without the lock.
        let commit = (member, lease.generation, *partition, *offset, keys);
        shared
            .sent
            .lock()
            .expect("no thread panics with the lock")
            .push(commit.clone());
        *offset = match send(shared, &commit) {
            Err(Refusal::OffsetMismatch { committed }) => committed,
            other => other?,
        };
    }
    thread::yield_now();
    Ok(())
}

fn send(
    shared: &Shared,
    (member, generation, partition, offset, keys): &Sent,
) -> Result<u32, Refusal> {
    shared
        .cluster()
        .commit(*member, *generation, *partition, *offset, keys)
}

/// Loses a member again and again, and sends old commits once more.
fn disturb(shared: &Shared) -> Result<(), Refusal> {
    let mut random = 1_u64;
    let mut below = |n: usize| {
        random = random
            .wrapping_mul(6_364_136_223_846_793_005)
            .wrapping_add(1_442_695_040_888_963_407);
        (random >> 33) as usize % n
    };
    for _ in 0..LOSSES {
        thread::sleep(Duration::from_millis(1));
        let mut cluster = shared.cluster();
        let members = cluster.members();
        if !members.is_empty() {
            cluster.lose(members[below(members.len())])?;
        }
        drop(cluster);
        let old = {
            let sent = shared.sent.lock().expect("no thread panics with the lock");
            if sent.is_empty() {
                None
            } else {
                Some(sent[below(sent.len())].clone())
            }
        };
        // It is refused, unless it was late and is still due: then it counts, and only then.
        if let Some(old) = old {
            let _ = send(shared, &old);
        }
    }
    Ok(())
}

fn main() -> Result<(), Refusal> {
    let mut cluster = Cluster::new(&[PARTITIONS], &[7; 32])?;
    let mut plain: HashMap<Vec<u8>, u64> = HashMap::new();
    for i in 0..RECORDS {
        let key = format!("user-{}", i * i % 257);
        cluster.append(0, key.as_bytes())?;
        *plain.entry(key.into_bytes()).or_default() += 1;
    }
    let shared = Shared {
        cluster: Mutex::new(cluster),
        sent: Mutex::new(vec![]),
        names: AtomicUsize::new(0),
    };
    thread::scope(|scope| {
        let mut threads = vec![scope.spawn(|| disturb(&shared))];
        threads.extend((0..WORKERS).map(|_| scope.spawn(|| work(&shared))));
        threads
            .into_iter()
            .try_for_each(|thread| thread.join().expect("no thread panics"))
    })?;
    let mut cluster = shared.cluster();
    let mut counts = HashMap::new();
    for number in 0..cluster.keys() {
        counts.insert(cluster.key(number)?, cluster.count(number)?);
    }
    assert_eq!(counts, plain);
    println!(
        "{} keys counted once, in generation {}",
        counts.len(),
        cluster.generation()
    );
    Ok(())
}
