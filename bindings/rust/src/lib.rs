//! The coordinator of a consumer group: who reads which partition, and what is committed.
//!
//! It is a state machine without threads, files or a clock: each event is a call. A call that is
//! refused returns a [`Refusal`], and changes nothing. Each step is the one that is proved of the
//! library (docs/LIBRARY.md); this crate only calls it.
//!
//! ```
//! use keycount::Cluster;
//!
//! let mut cluster = Cluster::new(&[12], &[7; 32])?;
//! cluster.append(0, b"user-17")?;
//! let member = cluster.join("worker-1")?;
//! let lease = cluster.sync(member)?;
//! for &(partition, offset) in &lease.offsets {
//!     let keys = cluster.read(partition, offset, 1000)?;
//!     if !keys.is_empty() {
//!         cluster.commit(member, lease.generation, partition, offset, &keys)?;
//!     }
//! }
//! assert_eq!(cluster.count(0)?, 1);
//! # Ok::<(), keycount::Refusal>(())
//! ```
#![deny(missing_docs, unsafe_op_in_unsafe_fn)]

mod consumer;
mod ffi;
mod refusal;

pub use consumer::{Consumer, Pending};
use ffi::{Handle, MoveRow};
pub use refusal::Refusal;
use std::ptr::null_mut;

/// What a member does next.
#[derive(Clone, Copy, Debug, PartialEq, Eq)]
pub enum Step {
    /// It takes the lease of this generation: [`Cluster::sync`].
    Sync,
    /// It commits, gives up what it is not assigned, and rejoins: [`Cluster::rejoin`].
    Rejoin,
    /// It reads on: nothing is to be done.
    Read,
}

/// Whether a group is empty, prepares a generation, or is stable.
#[derive(Clone, Copy, Debug, PartialEq, Eq)]
pub enum Phase {
    /// Nobody is present.
    Empty,
    /// A rebalance waits for members to rejoin.
    Preparing,
    /// A generation is complete.
    Stable,
}

/// What a member is assigned in a generation.
#[derive(Clone, Debug, PartialEq, Eq)]
pub struct Lease {
    /// The generation.
    pub generation: u32,
    /// The partitions that the member is assigned, in rising order, and the offset to read each
    /// from.
    pub offsets: Vec<(u32, u32)>,
}

impl Lease {
    /// The partitions that the member is assigned, in rising order.
    ///
    /// ```
    /// use keycount::Lease;
    ///
    /// let lease = Lease { generation: 1, offsets: vec![(0, 5), (3, 0)] };
    /// assert_eq!(lease.partitions(), [0, 3]);
    /// ```
    pub fn partitions(&self) -> Vec<u32> {
        self.offsets
            .iter()
            .map(|&(partition, _)| partition)
            .collect()
    }
}

/// A partition that a completed generation granted to a member that did not have it.
#[derive(Clone, Copy, Debug, PartialEq, Eq)]
pub struct Move {
    /// The completed generation.
    pub generation: u32,
    /// The partition, from 0.
    pub partition: u32,
    /// The member that had it last, present or not, if any had it.
    pub last: Option<u32>,
    /// The member that has it now.
    pub holder: u32,
}

/// A group of members, the logs that they read, and the committed offsets and counts.
///
/// Each call takes `&mut self`, the readers too, since the library works on it by one call at a
/// time. Threads share one behind a `Mutex`.
#[derive(Debug)]
pub struct Cluster {
    handle: Handle,
}

// SAFETY: the library's handle is proved `Send`, and `&mut self` gives it to one call at a time.
unsafe impl Send for Cluster {}

/// The result of a call that writes an output. Only `commit` refuses with 11.
fn done<T>(code: u32, output: T) -> Result<T, Refusal> {
    match code {
        0 => Ok(output),
        code => Err(Refusal::of(code, 0)),
    }
}

/// The result of a call that reads a number, and refuses nothing.
fn read(call: impl FnOnce(&mut u32) -> u32) -> u32 {
    let mut value = 0;
    match call(&mut value) {
        0 => value,
        code => unreachable!("a reader returned {code}"),
    }
}

/// The result of a call that lists items, which is made again if they do not fit.
fn list<T: Copy + Default>(
    mut call: impl FnMut(&mut [T], &mut usize) -> u32,
) -> Result<Vec<T>, Refusal> {
    const TOO_SHORT: u32 = 104;
    let mut items = vec![T::default(); 16];
    loop {
        let mut count = 0;
        match call(&mut items, &mut count) {
            TOO_SHORT => items.resize(count, T::default()),
            code => {
                items.truncate(count);
                return done(code, items);
            }
        }
    }
}

/// The murmur2 hash of a key, as in Kafka's Java client.
///
/// ```
/// assert_eq!(keycount::murmur2(b"foobar") as i32, -790332482);
/// ```
pub fn murmur2(key: &[u8]) -> u32 {
    // SAFETY: the pointer and the length are those of one slice.
    unsafe { ffi::keycount_murmur2(key.as_ptr(), key.len()) }
}

/// The partition of a key among 1 to 4096, as in Kafka's Java client. Refused: `BadArgument`.
///
/// ```
/// assert_eq!(keycount::place(4, b"foobar"), Ok(2));
/// ```
pub fn place(partitions: u32, key: &[u8]) -> Result<u32, Refusal> {
    let mut partition = 0;
    // SAFETY: as in `murmur2`.
    let code = unsafe { ffi::keycount_place(partitions, key.as_ptr(), key.len(), &mut partition) };
    done(code, partition)
}

/// The partition of each key among 1 to 4096, in their order. Refused: `BadArgument`.
///
/// ```
/// assert_eq!(keycount::place_all(4, &["foobar", "21"]), Ok(vec![2, 0]));
/// ```
pub fn place_all<K: AsRef<[u8]>>(partitions: u32, keys: &[K]) -> Result<Vec<u32>, Refusal> {
    let (mut bytes, mut ends) = (vec![], vec![]);
    for key in keys {
        bytes.extend_from_slice(key.as_ref());
        ends.push(bytes.len());
    }
    let mut places = vec![0; keys.len()];
    // SAFETY: each pointer and length are those of one slice.
    let code = unsafe {
        ffi::keycount_place_all(
            partitions,
            bytes.as_ptr(),
            bytes.len(),
            ends.as_ptr(),
            ends.len(),
            places.as_mut_ptr(),
            places.len(),
        )
    };
    done(code, places)
}

/// The member that is to own each partition, 1 to 4096 of them: even shares, and as many partitions
/// as possible stay with their owners. The members' numbers rise from 1 on. `owners` has a number
/// for each partition; 0 and the number of anybody else stand for nobody.
///
/// Refused: `BadArgument`, `OutOfMemory`.
///
/// ```
/// // Member 7 has left, and 2 is new.
/// assert_eq!(keycount::assign(&[1, 2], &[1, 7, 1, 1]), Ok(vec![1, 2, 1, 2]));
/// ```
pub fn assign(members: &[u32], owners: &[u32]) -> Result<Vec<u32>, Refusal> {
    let mut assigned = vec![0; owners.len()];
    // SAFETY: each pointer and length are those of one slice.
    let code = unsafe {
        ffi::keycount_assign(
            members.as_ptr(),
            members.len(),
            owners.as_ptr(),
            owners.len(),
            assigned.as_mut_ptr(),
            assigned.len(),
        )
    };
    done(code, assigned)
}

/// What to assign of a target at once, in a cooperative rebalance: the target, but 0 for a
/// partition that another member still owns. Refused: `BadArgument`, `OutOfMemory`.
///
/// ```
/// let owners = [1, 7, 1, 1];
/// assert_eq!(keycount::withhold(&[1, 2], &[1, 2, 1, 2], &owners), Ok(vec![1, 2, 1, 0]));
/// ```
pub fn withhold(members: &[u32], target: &[u32], owners: &[u32]) -> Result<Vec<u32>, Refusal> {
    let mut assigned = vec![0; owners.len()];
    // SAFETY: each pointer and length are those of one slice.
    let code = unsafe {
        ffi::keycount_withhold(
            members.as_ptr(),
            members.len(),
            target.as_ptr(),
            target.len(),
            owners.as_ptr(),
            owners.len(),
            assigned.as_mut_ptr(),
            assigned.len(),
        )
    };
    done(code, assigned)
}

// SAFETY of each call of the library below: the handle is as the last call left it and is borrowed
// for this one, and so are the outputs; a pointer and a length are those of one slice.
impl Cluster {
    /// A cluster of 1 to 8 topics with these numbers of partitions, 4096 at most in all.
    /// Partitions are numbered from 0 over all topics. The hash table of the keys is seeded with
    /// `seed`: random bytes, where keys come from others.
    ///
    /// Refused: `BadArgument`, `OutOfMemory`.
    ///
    /// ```
    /// use keycount::Cluster;
    ///
    /// // The first topic has the partitions 0 to 3, the second 4 and 5.
    /// let mut cluster = Cluster::new(&[4, 2], &[7; 32])?;
    /// assert_eq!(cluster.partitions(), 6);
    /// # Ok::<(), keycount::Refusal>(())
    /// ```
    pub fn new(partitions: &[u32], seed: &[u8; 32]) -> Result<Cluster, Refusal> {
        let mut handle = Handle { at: null_mut() };
        let code = unsafe {
            ffi::keycount_cluster_new(
                &mut handle,
                partitions.as_ptr(),
                partitions.len(),
                seed.as_ptr(),
                seed.len(),
            )
        };
        done(code, Cluster { handle })
    }

    /// Appends a record with this key to a topic, 0 being the first. Returns its partition, which
    /// murmur2 gives as in Kafka's Java client, and its offset there.
    ///
    /// Refused: `KeyTooLong`, `LogFull`, `BadArgument` (no such topic), `OutOfMemory`.
    ///
    /// ```
    /// # use keycount::Cluster;
    /// # let mut cluster = Cluster::new(&[4], &[7; 32])?;
    /// assert_eq!(cluster.append(0, b"foobar")?, (2, 0));
    /// // A key's records are in one partition, one after another.
    /// assert_eq!(cluster.append(0, b"foobar")?, (2, 1));
    /// # Ok::<(), keycount::Refusal>(())
    /// ```
    pub fn append(&mut self, topic: u32, key: &[u8]) -> Result<(u32, u32), Refusal> {
        let (mut partition, mut offset) = (0, 0);
        let code = unsafe {
            ffi::keycount_cluster_append(
                &mut self.handle,
                topic,
                key.as_ptr(),
                key.len(),
                &mut partition,
                &mut offset,
            )
        };
        done(code, (partition, offset))
    }

    /// A member joins under a name that nobody has used: 1 to 32 ASCII letters, digits, `-` and
    /// `_`. Returns its number, from 1 on.
    ///
    /// Refused: `NameUsed`, `TooManyMembers`, `GenerationsOver`, `BadArgument`, `OutOfMemory`.
    ///
    /// ```
    /// let mut cluster = keycount::Cluster::new(&[4], &[7; 32])?;
    /// let first = cluster.join("a")?;
    /// let second = cluster.join("b")?;
    /// // Nothing of the first's is given away before it has revoked it.
    /// assert_eq!(cluster.granted(first)?, [0, 1, 2, 3]);
    /// assert_eq!(cluster.granted(second)?, []);
    /// # Ok::<(), keycount::Refusal>(())
    /// ```
    pub fn join(&mut self, name: &str) -> Result<u32, Refusal> {
        let mut member = 0;
        let code = unsafe {
            ffi::keycount_cluster_join(&mut self.handle, name.as_ptr(), name.len(), &mut member)
        };
        done(code, member)
    }

    /// The same for a static member, whose seat another process can take over by name.
    ///
    /// ```
    /// # use keycount::{Cluster, Refusal};
    /// # let mut cluster = Cluster::new(&[4], &[7; 32])?;
    /// let member = cluster.join_static("a")?;
    /// assert!(cluster.is_kept(member));
    /// // Another process takes over its seat, and does not join.
    /// assert_eq!(cluster.join_static("a"), Err(Refusal::NameUsed));
    /// # Ok::<(), keycount::Refusal>(())
    /// ```
    pub fn join_static(&mut self, name: &str) -> Result<u32, Refusal> {
        let mut member = 0;
        let code = unsafe {
            ffi::keycount_cluster_join_kept(
                &mut self.handle,
                name.as_ptr(),
                name.len(),
                &mut member,
            )
        };
        done(code, member)
    }

    /// The seat of the static member of this name goes to a new number, which is returned, without
    /// a rebalance. The new one syncs next; the old one is no longer present.
    ///
    /// Refused: `NotKept`, `TooManyMembers`, `BadArgument`, `OutOfMemory`.
    ///
    /// ```
    /// # use keycount::Cluster;
    /// # let mut cluster = Cluster::new(&[4], &[7; 32])?;
    /// cluster.join_static("a")?;
    /// let new = cluster.take_over("a")?;
    /// // It has what the old one had, in the same generation.
    /// assert_eq!(cluster.members(), [new]);
    /// assert_eq!(cluster.granted(new)?, [0, 1, 2, 3]);
    /// assert_eq!(cluster.generation(), 1);
    /// # Ok::<(), keycount::Refusal>(())
    /// ```
    pub fn take_over(&mut self, name: &str) -> Result<u32, Refusal> {
        let mut member = 0;
        let code = unsafe {
            ffi::keycount_cluster_take_over(
                &mut self.handle,
                name.as_ptr(),
                name.len(),
                &mut member,
            )
        };
        done(code, member)
    }

    /// A member gives up what it is not assigned and joins the rebalance. It tells the generation
    /// of its lease, and claims the partitions of it.
    ///
    /// Refused: `UnknownMember`, `StaleGeneration`, `AlreadyJoined`, `SyncFirst`, `NothingToGive`,
    /// `ClaimDiffers`, `GenerationsOver`, `BadArgument` (no such partition), `OutOfMemory`.
    ///
    /// ```
    /// # use keycount::Cluster;
    /// # let mut cluster = Cluster::new(&[4], &[7; 32])?;
    /// # let first = cluster.join("a")?;
    /// # let lease = cluster.sync(first)?;
    /// # cluster.join("b")?;
    /// # cluster.rejoin(first, lease.generation, &lease.partitions())?;
    /// // Two of the first's four partitions are to go to the second.
    /// let lease = cluster.sync(first)?;
    /// assert_eq!(cluster.granted(first)?, [0, 1, 2, 3]);
    /// cluster.rejoin(first, lease.generation, &lease.partitions())?;
    /// assert_eq!(cluster.granted(first)?, [0, 1]);
    /// # Ok::<(), keycount::Refusal>(())
    /// ```
    pub fn rejoin(&mut self, member: u32, generation: u32, claim: &[u32]) -> Result<(), Refusal> {
        let code = unsafe {
            ffi::keycount_cluster_rejoin(
                &mut self.handle,
                member,
                generation,
                claim.as_ptr(),
                claim.len(),
            )
        };
        done(code, ())
    }

    /// A member takes its lease of the present generation.
    ///
    /// Refused: `UnknownMember`, `RebalanceInProgress`, `OutOfMemory`.
    ///
    /// ```
    /// # use keycount::Cluster;
    /// # let mut cluster = Cluster::new(&[4], &[7; 32])?;
    /// let member = cluster.join("a")?;
    /// let lease = cluster.sync(member)?;
    /// assert_eq!(lease.generation, 1);
    /// // Nothing is committed, so it reads each partition from 0 on.
    /// assert_eq!(lease.offsets, [(0, 0), (1, 0), (2, 0), (3, 0)]);
    /// # Ok::<(), keycount::Refusal>(())
    /// ```
    pub fn sync(&mut self, member: u32) -> Result<Lease, Refusal> {
        let room = self.partitions() as usize;
        let (mut partitions, mut offsets) = (vec![0; room], vec![0; room]);
        let (mut generation, mut count) = (0, 0);
        let code = unsafe {
            ffi::keycount_cluster_sync(
                &mut self.handle,
                member,
                &mut generation,
                partitions.as_mut_ptr(),
                room,
                offsets.as_mut_ptr(),
                room,
                &mut count,
            )
        };
        let offsets = partitions.into_iter().zip(offsets).take(count).collect();
        done(
            code,
            Lease {
                generation,
                offsets,
            },
        )
    }

    /// A member leaves, and its partitions go to others.
    ///
    /// Refused: `UnknownMember`, `GenerationsOver`, `OutOfMemory`.
    ///
    /// ```
    /// # use keycount::Cluster;
    /// # let mut cluster = Cluster::new(&[4], &[7; 32])?;
    /// let (first, second) = (cluster.join("a")?, cluster.join("b")?);
    /// cluster.leave(first)?;
    /// assert_eq!(cluster.granted(second)?, [0, 1, 2, 3]);
    /// # Ok::<(), keycount::Refusal>(())
    /// ```
    pub fn leave(&mut self, member: u32) -> Result<(), Refusal> {
        done(
            unsafe { ffi::keycount_cluster_leave(&mut self.handle, member) },
            (),
        )
    }

    /// A member is lost, which is the same to the group.
    ///
    /// ```
    /// # use keycount::{Cluster, Refusal};
    /// # let mut cluster = Cluster::new(&[4], &[7; 32])?;
    /// # let member = cluster.join("a")?;
    /// # let generation = cluster.sync(member)?.generation;
    /// cluster.lose(member)?;
    /// // If it is alive after all, its commits are refused.
    /// let reply = cluster.commit(member, generation, 0, 0, &[0]);
    /// assert_eq!(reply, Err(Refusal::UnknownMember));
    /// # Ok::<(), keycount::Refusal>(())
    /// ```
    pub fn lose(&mut self, member: u32) -> Result<(), Refusal> {
        done(
            unsafe { ffi::keycount_cluster_lose(&mut self.handle, member) },
            (),
        )
    }

    /// A member commits the records of a partition from an offset on, by their key numbers, as a
    /// whole. Returns the new committed offset.
    ///
    /// Refused: `UnknownMember`, `StaleGeneration`, `NotOwner`, `EmptyCommit`, `OffsetMismatch`,
    /// `PastEnd`, `WrongRecords`, `OutOfMemory`.
    ///
    /// ```
    /// use keycount::{Cluster, Refusal};
    ///
    /// let mut cluster = Cluster::new(&[1], &[7; 32])?;
    /// cluster.append(0, b"k")?;
    /// let member = cluster.join("a")?;
    /// let lease = cluster.sync(member)?;
    /// assert_eq!(cluster.commit(member, lease.generation, 0, 0, &[0])?, 1);
    /// // It comes again, and is not counted again.
    /// assert_eq!(
    ///     cluster.commit(member, lease.generation, 0, 0, &[0]),
    ///     Err(Refusal::OffsetMismatch { committed: 1 })
    /// );
    /// assert_eq!(cluster.count(0)?, 1);
    /// # Ok::<(), Refusal>(())
    /// ```
    pub fn commit(
        &mut self,
        member: u32,
        generation: u32,
        partition: u32,
        offset: u32,
        keys: &[u32],
    ) -> Result<u32, Refusal> {
        let mut committed = 0;
        let code = unsafe {
            ffi::keycount_cluster_commit(
                &mut self.handle,
                member,
                generation,
                partition,
                offset,
                keys.as_ptr(),
                keys.len(),
                &mut committed,
            )
        };
        match code {
            0 => Ok(committed),
            code => Err(Refusal::of(code, committed)),
        }
    }

    /// What a member does next. One that is not present is told to sync, which is then refused.
    ///
    /// ```
    /// # use keycount::{Cluster, Step};
    /// # let mut cluster = Cluster::new(&[4], &[7; 32])?;
    /// let member = cluster.join("a")?;
    /// assert_eq!(cluster.next_step(member), Step::Sync);
    /// cluster.sync(member)?;
    /// assert_eq!(cluster.next_step(member), Step::Read);
    /// cluster.join("b")?;
    /// assert_eq!(cluster.next_step(member), Step::Rejoin);
    /// # Ok::<(), keycount::Refusal>(())
    /// ```
    pub fn next_step(&mut self, member: u32) -> Step {
        let step = |out: &mut u32| unsafe {
            ffi::keycount_cluster_next_step(&mut self.handle, member, out)
        };
        match read(step) {
            0 => Step::Sync,
            1 => Step::Rejoin,
            _ => Step::Read,
        }
    }

    /// The phase of the group.
    ///
    /// ```
    /// # use keycount::{Cluster, Phase};
    /// # let mut cluster = Cluster::new(&[4], &[7; 32])?;
    /// assert_eq!(cluster.phase(), Phase::Empty);
    /// cluster.join("a")?;
    /// assert_eq!(cluster.phase(), Phase::Stable);
    /// // The first is to rejoin.
    /// cluster.join("b")?;
    /// assert_eq!(cluster.phase(), Phase::Preparing);
    /// # Ok::<(), keycount::Refusal>(())
    /// ```
    pub fn phase(&mut self) -> Phase {
        match read(|out| unsafe { ffi::keycount_cluster_phase(&mut self.handle, out) }) {
            0 => Phase::Empty,
            1 => Phase::Preparing,
            _ => Phase::Stable,
        }
    }

    /// The generation, 0 before the first.
    ///
    /// ```
    /// # use keycount::Cluster;
    /// # let mut cluster = Cluster::new(&[4], &[7; 32])?;
    /// assert_eq!(cluster.generation(), 0);
    /// cluster.join("a")?;
    /// assert_eq!(cluster.generation(), 1);
    /// # Ok::<(), keycount::Refusal>(())
    /// ```
    pub fn generation(&mut self) -> u32 {
        read(|out| unsafe { ffi::keycount_cluster_generation(&mut self.handle, out) })
    }

    /// Whether the group is stable and no member has a partition to give up.
    ///
    /// ```
    /// # use keycount::Cluster;
    /// # let mut cluster = Cluster::new(&[4], &[7; 32])?;
    /// cluster.join("a")?;
    /// assert!(cluster.is_settled());
    /// // The first has yet to give up half of its partitions.
    /// cluster.join("b")?;
    /// assert!(!cluster.is_settled());
    /// # Ok::<(), keycount::Refusal>(())
    /// ```
    pub fn is_settled(&mut self) -> bool {
        read(|out| unsafe { ffi::keycount_cluster_settled(&mut self.handle, out) }) == 1
    }

    /// The number of partitions of all topics. For an example, see [`new`](Cluster::new).
    pub fn partitions(&mut self) -> u32 {
        read(|out| unsafe { ffi::keycount_cluster_partitions(&mut self.handle, out) })
    }

    /// The number of different keys. For an example, see [`key`](Cluster::key).
    pub fn keys(&mut self) -> u32 {
        read(|out| unsafe { ffi::keycount_cluster_keys(&mut self.handle, out) })
    }

    /// The member that a partition is granted to, if there is one.
    ///
    /// ```
    /// # use keycount::Cluster;
    /// # let mut cluster = Cluster::new(&[4], &[7; 32])?;
    /// assert_eq!(cluster.owner(2), None);
    /// let member = cluster.join("a")?;
    /// assert_eq!(cluster.owner(2), Some(member));
    /// # Ok::<(), keycount::Refusal>(())
    /// ```
    pub fn owner(&mut self, partition: u32) -> Option<u32> {
        match read(|out| unsafe { ffi::keycount_cluster_owner(&mut self.handle, partition, out) }) {
            0 => None,
            member => Some(member),
        }
    }

    /// The name of a member number that was given out, present or not. Refused: `UnknownMember`.
    ///
    /// ```
    /// # use keycount::Cluster;
    /// # let mut cluster = Cluster::new(&[4], &[7; 32])?;
    /// let member = cluster.join("a")?;
    /// cluster.leave(member)?;
    /// assert_eq!(cluster.name(member)?, "a");
    /// # Ok::<(), keycount::Refusal>(())
    /// ```
    pub fn name(&mut self, member: u32) -> Result<String, Refusal> {
        let name = list(|name: &mut [u8], count| unsafe {
            let handle = &mut self.handle;
            ffi::keycount_cluster_name(handle, member, name.as_mut_ptr(), name.len(), count)
        })?;
        Ok(String::from_utf8(name).expect("a name is ASCII"))
    }

    /// The newest member number with a name, present or not, if there is one. Refused:
    /// `BadArgument`.
    ///
    /// ```
    /// # use keycount::Cluster;
    /// # let mut cluster = Cluster::new(&[4], &[7; 32])?;
    /// cluster.join_static("a")?;
    /// let new = cluster.take_over("a")?;
    /// assert_eq!(cluster.member_named("a")?, Some(new));
    /// assert_eq!(cluster.member_named("b")?, None);
    /// # Ok::<(), keycount::Refusal>(())
    /// ```
    pub fn member_named(&mut self, name: &str) -> Result<Option<u32>, Refusal> {
        let mut member = 0;
        let code = unsafe {
            ffi::keycount_cluster_member_named(
                &mut self.handle,
                name.as_ptr(),
                name.len(),
                &mut member,
            )
        };
        done(code, Some(member).filter(|&member| member != 0))
    }

    /// Whether a member is present and static.
    ///
    /// ```
    /// # use keycount::Cluster;
    /// # let mut cluster = Cluster::new(&[4], &[7; 32])?;
    /// let (kept, other) = (cluster.join_static("a")?, cluster.join("b")?);
    /// assert!(cluster.is_kept(kept));
    /// assert!(!cluster.is_kept(other));
    /// # Ok::<(), keycount::Refusal>(())
    /// ```
    pub fn is_kept(&mut self, member: u32) -> bool {
        read(|out| unsafe { ffi::keycount_cluster_kept(&mut self.handle, member, out) }) == 1
    }

    /// The offset of a partition's next record. Refused: `BadArgument`.
    ///
    /// ```
    /// # use keycount::Cluster;
    /// # let mut cluster = Cluster::new(&[4], &[7; 32])?;
    /// let (partition, offset) = cluster.append(0, b"k")?;
    /// assert_eq!(offset, 0);
    /// assert_eq!(cluster.end(partition)?, 1);
    /// # Ok::<(), keycount::Refusal>(())
    /// ```
    pub fn end(&mut self, partition: u32) -> Result<u32, Refusal> {
        let mut offset = 0;
        let code = unsafe { ffi::keycount_cluster_end(&mut self.handle, partition, &mut offset) };
        done(code, offset)
    }

    /// The committed offset of a partition. Refused: `BadArgument`.
    ///
    /// ```
    /// # use keycount::Cluster;
    /// # let mut cluster = Cluster::new(&[1], &[7; 32])?;
    /// # for key in [b"a", b"b", b"a"] {
    /// #     cluster.append(0, key)?;
    /// # }
    /// # let member = cluster.join("w")?;
    /// # let generation = cluster.sync(member)?.generation;
    /// cluster.commit(member, generation, 0, 0, &[0, 1])?;
    /// // One of three records is left.
    /// assert_eq!(cluster.committed(0)?, 2);
    /// assert_eq!(cluster.end(0)?, 3);
    /// # Ok::<(), keycount::Refusal>(())
    /// ```
    pub fn committed(&mut self, partition: u32) -> Result<u32, Refusal> {
        let mut offset = 0;
        let code =
            unsafe { ffi::keycount_cluster_committed(&mut self.handle, partition, &mut offset) };
        done(code, offset)
    }

    /// How often the key with this number is among the committed records. Refused: `BadArgument`.
    ///
    /// ```
    /// # use keycount::Cluster;
    /// # let mut cluster = Cluster::new(&[1], &[7; 32])?;
    /// # for key in [b"a", b"b", b"a"] {
    /// #     cluster.append(0, key)?;
    /// # }
    /// # let member = cluster.join("w")?;
    /// # let generation = cluster.sync(member)?.generation;
    /// // The first key occurs twice, the second once.
    /// cluster.commit(member, generation, 0, 0, &[0, 1, 0])?;
    /// assert_eq!((cluster.count(0)?, cluster.count(1)?), (2, 1));
    /// # Ok::<(), keycount::Refusal>(())
    /// ```
    pub fn count(&mut self, number: u32) -> Result<u64, Refusal> {
        let mut count = 0;
        let code = unsafe { ffi::keycount_cluster_count(&mut self.handle, number, &mut count) };
        done(code, count)
    }

    /// The key with this number. Keys are numbered from 0, in the order in which they were first
    /// appended. Refused: `BadArgument`.
    ///
    /// ```
    /// # use keycount::Cluster;
    /// # let mut cluster = Cluster::new(&[4], &[7; 32])?;
    /// for key in [b"a", b"b", b"a"] {
    ///     cluster.append(0, key)?;
    /// }
    /// assert_eq!(cluster.keys(), 2);
    /// assert_eq!(cluster.key(1)?, b"b");
    /// # Ok::<(), keycount::Refusal>(())
    /// ```
    pub fn key(&mut self, number: u32) -> Result<Vec<u8>, Refusal> {
        list(|key: &mut [u8], count| unsafe {
            ffi::keycount_cluster_key(&mut self.handle, number, key.as_mut_ptr(), key.len(), count)
        })
    }

    /// The present members, in rising order.
    ///
    /// ```
    /// # use keycount::Cluster;
    /// # let mut cluster = Cluster::new(&[4], &[7; 32])?;
    /// let (first, second) = (cluster.join("a")?, cluster.join("b")?);
    /// assert_eq!(cluster.members(), [first, second]);
    /// cluster.lose(first)?;
    /// assert_eq!(cluster.members(), [second]);
    /// # Ok::<(), keycount::Refusal>(())
    /// ```
    pub fn members(&mut self) -> Vec<u32> {
        list(|out: &mut [u32], count| unsafe {
            ffi::keycount_cluster_members(&mut self.handle, out.as_mut_ptr(), out.len(), count)
        })
        .expect("the members can always be listed")
    }

    /// The moves so far, in order, but for the first `from`.
    ///
    /// ```
    /// # use keycount::{Cluster, Move};
    /// # let mut cluster = Cluster::new(&[1], &[7; 32])?;
    /// let first = cluster.join("a")?;
    /// let second = cluster.join("b")?;
    /// cluster.leave(first)?;
    /// // The first had been granted the only partition before.
    /// let moved = Move { generation: 2, partition: 0, last: Some(first), holder: second };
    /// assert_eq!(cluster.moves(1), [moved]);
    /// # Ok::<(), keycount::Refusal>(())
    /// ```
    pub fn moves(&mut self, from: usize) -> Vec<Move> {
        list(|out: &mut [MoveRow], count| unsafe {
            let handle = &mut self.handle;
            ffi::keycount_cluster_moves(handle, from, out.as_mut_ptr(), out.len(), count)
        })
        .expect("the moves can always be listed")
        .into_iter()
        .map(|row| Move {
            generation: row.generation,
            partition: row.partition,
            last: Some(row.last).filter(|&last| last != 0),
            holder: row.holder,
        })
        .collect()
    }

    /// The partitions that a member may read and commit, in rising order. Refused:
    /// `UnknownMember`.
    ///
    /// ```
    /// # use keycount::Cluster;
    /// # let mut cluster = Cluster::new(&[4], &[7; 32])?;
    /// # let first = cluster.join("a")?;
    /// # let lease = cluster.sync(first)?;
    /// cluster.join("b")?;
    /// cluster.rejoin(first, lease.generation, &lease.partitions())?;
    /// // Until the first gives up 2 and 3, it may read on.
    /// assert_eq!(cluster.granted(first)?, [0, 1, 2, 3]);
    /// assert_eq!(cluster.assigned(first)?, [0, 1]);
    /// # Ok::<(), keycount::Refusal>(())
    /// ```
    pub fn granted(&mut self, member: u32) -> Result<Vec<u32>, Refusal> {
        list(|out: &mut [u32], count| unsafe {
            let handle = &mut self.handle;
            ffi::keycount_cluster_granted(handle, member, out.as_mut_ptr(), out.len(), count)
        })
    }

    /// The partitions of a member's next lease, in rising order. For an example, see
    /// [`granted`](Cluster::granted). Refused: `UnknownMember`.
    pub fn assigned(&mut self, member: u32) -> Result<Vec<u32>, Refusal> {
        list(|out: &mut [u32], count| unsafe {
            let handle = &mut self.handle;
            ffi::keycount_cluster_assigned(handle, member, out.as_mut_ptr(), out.len(), count)
        })
    }

    /// At most `most` records of a partition from an offset on, as key numbers. Refused:
    /// `BadArgument`, where there is no such partition or the offset is past its end.
    ///
    /// ```
    /// # use keycount::Cluster;
    /// # let mut cluster = Cluster::new(&[1], &[7; 32])?;
    /// for key in [b"a", b"b", b"a"] {
    ///     cluster.append(0, key)?;
    /// }
    /// assert_eq!(cluster.read(0, 0, 2)?, [0, 1]);
    /// assert_eq!(cluster.read(0, 2, 2)?, [0]);
    /// # Ok::<(), keycount::Refusal>(())
    /// ```
    pub fn read(&mut self, partition: u32, offset: u32, most: usize) -> Result<Vec<u32>, Refusal> {
        let mut keys = vec![0; most];
        let mut count = 0;
        let code = unsafe {
            ffi::keycount_cluster_read(
                &mut self.handle,
                partition,
                offset,
                keys.as_mut_ptr(),
                keys.len(),
                &mut count,
            )
        };
        keys.truncate(count);
        done(code, keys)
    }
}

impl Drop for Cluster {
    fn drop(&mut self) {
        // SAFETY: as above. No other call follows.
        unsafe { ffi::keycount_cluster_free(&mut self.handle) };
    }
}
