use crate::ffi::{self, Handle};
use crate::{Cluster, Refusal, Step, done, list, read};
use std::ptr::null_mut;

/// A commit of all pending records of a partition, to be sent.
#[derive(Clone, Debug, PartialEq, Eq)]
pub struct Pending {
    /// The member that sends it.
    pub member: u32,
    /// The generation in which it is sent.
    pub generation: u32,
    /// The offset of its first record.
    pub offset: u32,
    /// The key numbers of its records.
    pub keys: Vec<u32>,
}

/// One member of a cluster: what it holds, how far it has read, and what it has not committed.
///
/// It follows its group by [`step`](Consumer::step), and reads and commits.
///
/// ```
/// use keycount::{Cluster, Consumer, Step};
///
/// let mut cluster = Cluster::new(&[1], &[7; 32])?;
/// cluster.append(0, b"k")?;
/// let mut consumer = Consumer::new(&mut cluster)?;
/// consumer.join(&mut cluster, "a")?;
/// while consumer.step(&mut cluster)? != Step::Read {}
/// assert_eq!(consumer.poll(&mut cluster, 0, 100)?, [0]);
/// assert_eq!(consumer.commit(&mut cluster, 0)?, 1);
/// assert_eq!(cluster.count(0)?, 1);
/// # Ok::<(), keycount::Refusal>(())
/// ```
#[derive(Debug)]
pub struct Consumer {
    handle: Handle,
}

// SAFETY: the library's handle is proved `Send`, and `&mut self` gives it to one call at a time.
unsafe impl Send for Consumer {}

// SAFETY of each call of the library below: the handles are as the last call left them and are
// borrowed for this one, and so are the outputs.
impl Consumer {
    /// A consumer of this cluster, out of the group. Refused: `OutOfMemory`.
    ///
    /// ```
    /// # use keycount::{Cluster, Consumer, Refusal};
    /// # let mut cluster = Cluster::new(&[4], &[7; 32])?;
    /// let mut consumer = Consumer::new(&mut cluster)?;
    /// assert_eq!(consumer.poll(&mut cluster, 0, 100), Err(Refusal::OutOfGroup));
    /// # Ok::<(), keycount::Refusal>(())
    /// ```
    pub fn new(cluster: &mut Cluster) -> Result<Consumer, Refusal> {
        let mut handle = Handle { at: null_mut() };
        let code = unsafe { ffi::keycount_consumer_new(&mut handle, cluster.partitions()) };
        done(code, Consumer { handle })
    }

    /// Joins the cluster, as [`Cluster::join`], and holds nothing yet.
    ///
    /// ```
    /// # use keycount::{Cluster, Consumer};
    /// # let mut cluster = Cluster::new(&[4], &[7; 32])?;
    /// # let mut consumer = Consumer::new(&mut cluster)?;
    /// let member = consumer.join(&mut cluster, "a")?;
    /// assert_eq!(consumer.member(), Some(member));
    /// assert_eq!(consumer.holding(), []);
    /// # Ok::<(), keycount::Refusal>(())
    /// ```
    pub fn join(&mut self, cluster: &mut Cluster, name: &str) -> Result<u32, Refusal> {
        let member = cluster.join(name)?;
        let code = unsafe { ffi::keycount_consumer_joined(&mut self.handle, member) };
        done(code, member)
    }

    /// Does what the group asks of it, which is returned: it syncs, rejoins, or reads on. Before it
    /// rejoins, commit what is to be kept: it drops what it gives up.
    ///
    /// Refused: `OutOfGroup`, and as [`Cluster::sync`] and [`Cluster::rejoin`].
    ///
    /// ```
    /// # use keycount::{Cluster, Consumer, Step};
    /// # let mut cluster = Cluster::new(&[4], &[7; 32])?;
    /// # let mut consumer = Consumer::new(&mut cluster)?;
    /// # consumer.join(&mut cluster, "a")?;
    /// assert_eq!(consumer.step(&mut cluster)?, Step::Sync);
    /// assert_eq!(consumer.holding(), [0, 1, 2, 3]);
    /// assert_eq!(consumer.step(&mut cluster)?, Step::Read);
    /// cluster.join("b")?;
    /// assert_eq!(consumer.step(&mut cluster)?, Step::Rejoin);
    /// # Ok::<(), keycount::Refusal>(())
    /// ```
    pub fn step(&mut self, cluster: &mut Cluster) -> Result<Step, Refusal> {
        let step = cluster.next_step(self.member().unwrap_or(0));
        let code = match step {
            Step::Sync => unsafe {
                ffi::keycount_consumer_sync(&mut self.handle, &mut cluster.handle)
            },
            Step::Rejoin => unsafe {
                ffi::keycount_consumer_rejoin(&mut self.handle, &mut cluster.handle)
            },
            Step::Read => 0,
        };
        done(code, step)
    }

    /// Reads at most `most` records of a partition, as key numbers. They are then pending.
    ///
    /// Refused: `OutOfGroup`, `NotHeld`, and `BadArgument` if it is not a consumer of this cluster.
    ///
    /// ```
    /// # use keycount::{Cluster, Consumer};
    /// # let mut cluster = Cluster::new(&[1], &[7; 32])?;
    /// # for key in [b"a", b"b", b"a"] {
    /// #     cluster.append(0, key)?;
    /// # }
    /// # let mut consumer = Consumer::new(&mut cluster)?;
    /// # consumer.join(&mut cluster, "a")?;
    /// # consumer.step(&mut cluster)?;
    /// // The keys of the records are a, b and a: their numbers are 0, 1 and 0.
    /// assert_eq!(consumer.poll(&mut cluster, 0, 2)?, [0, 1]);
    /// assert_eq!(consumer.poll(&mut cluster, 0, 2)?, [0]);
    /// # Ok::<(), keycount::Refusal>(())
    /// ```
    pub fn poll(
        &mut self,
        cluster: &mut Cluster,
        partition: u32,
        most: u32,
    ) -> Result<Vec<u32>, Refusal> {
        let (mut from, mut count) = (0, 0);
        let code = unsafe {
            ffi::keycount_consumer_poll(
                &mut self.handle,
                &mut cluster.handle,
                partition,
                most,
                &mut from,
                &mut count,
            )
        };
        done(code, ())?;
        cluster.read(partition, from, count as usize)
    }

    /// The commit of all pending records of a partition. Refused: `OutOfGroup`, `NotHeld`,
    /// `EmptyCommit`.
    ///
    /// ```
    /// # use keycount::{Cluster, Consumer};
    /// # let mut cluster = Cluster::new(&[1], &[7; 32])?;
    /// # for key in [b"a", b"b", b"a"] {
    /// #     cluster.append(0, key)?;
    /// # }
    /// # let mut consumer = Consumer::new(&mut cluster)?;
    /// # consumer.join(&mut cluster, "a")?;
    /// # consumer.step(&mut cluster)?;
    /// let keys = consumer.poll(&mut cluster, 0, 2)?;
    /// let commit = consumer.pending(&mut cluster, 0)?;
    /// assert_eq!((commit.offset, commit.keys), (0, keys));
    /// # Ok::<(), keycount::Refusal>(())
    /// ```
    pub fn pending(&mut self, cluster: &mut Cluster, partition: u32) -> Result<Pending, Refusal> {
        let (mut member, mut generation, mut from, mut to) = (0, 0, 0, 0);
        let code = unsafe {
            ffi::keycount_consumer_pending(
                &mut self.handle,
                partition,
                &mut member,
                &mut generation,
                &mut from,
                &mut to,
            )
        };
        done(code, ())?;
        let keys = cluster.read(partition, from, (to - from) as usize)?;
        Ok(Pending {
            member,
            generation,
            offset: from,
            keys,
        })
    }

    /// Commits all pending records of a partition, and takes the reply. Returns the committed
    /// offset. Refused: as [`pending`](Consumer::pending) and [`Cluster::commit`].
    ///
    /// ```
    /// # use keycount::{Cluster, Consumer, Refusal};
    /// # let mut cluster = Cluster::new(&[1], &[7; 32])?;
    /// # for key in [b"a", b"b", b"a"] {
    /// #     cluster.append(0, key)?;
    /// # }
    /// # let mut consumer = Consumer::new(&mut cluster)?;
    /// # consumer.join(&mut cluster, "a")?;
    /// # consumer.step(&mut cluster)?;
    /// consumer.poll(&mut cluster, 0, 2)?;
    /// assert_eq!(consumer.commit(&mut cluster, 0)?, 2);
    /// // Nothing is pending now.
    /// assert_eq!(consumer.commit(&mut cluster, 0), Err(Refusal::EmptyCommit));
    /// # Ok::<(), keycount::Refusal>(())
    /// ```
    pub fn commit(&mut self, cluster: &mut Cluster, partition: u32) -> Result<u32, Refusal> {
        let Pending {
            member,
            generation,
            offset,
            keys,
        } = self.pending(cluster, partition)?;
        let reply = cluster.commit(member, generation, partition, offset, &keys);
        self.answered(partition, reply);
        reply
    }

    /// Takes the reply to a commit of a partition.
    ///
    /// ```
    /// # use keycount::{Cluster, Consumer};
    /// # let mut cluster = Cluster::new(&[1], &[7; 32])?;
    /// # for key in [b"a", b"b", b"a"] {
    /// #     cluster.append(0, key)?;
    /// # }
    /// # let mut consumer = Consumer::new(&mut cluster)?;
    /// # consumer.join(&mut cluster, "a")?;
    /// # consumer.step(&mut cluster)?;
    /// # consumer.poll(&mut cluster, 0, 2)?;
    /// let sent = consumer.pending(&mut cluster, 0)?;
    /// let reply = cluster.commit(sent.member, sent.generation, 0, sent.offset, &sent.keys);
    /// assert_eq!(consumer.base(0), 0);
    /// consumer.answered(0, reply);
    /// assert_eq!(consumer.base(0), 2);
    /// # Ok::<(), keycount::Refusal>(())
    /// ```
    pub fn answered(&mut self, partition: u32, reply: Result<u32, Refusal>) {
        let (code, committed) = match reply {
            Ok(committed) => (0, committed),
            Err(Refusal::OffsetMismatch { committed }) => (11, committed),
            Err(refusal) => (refusal.code(), 0),
        };
        unsafe {
            ffi::keycount_consumer_answered(&mut self.handle, partition, code, committed);
        }
    }

    /// Drops what it holds and its last lease has not, as `step` does when it rejoins.
    ///
    /// ```
    /// # use keycount::{Cluster, Consumer};
    /// # let mut cluster = Cluster::new(&[4], &[7; 32])?;
    /// # let mut consumer = Consumer::new(&mut cluster)?;
    /// # consumer.join(&mut cluster, "a")?;
    /// # consumer.step(&mut cluster)?;
    /// # cluster.join("b")?;
    /// # consumer.step(&mut cluster)?;
    /// # consumer.step(&mut cluster)?;
    /// // Its last lease has half of what it holds.
    /// assert_eq!(consumer.holding(), [0, 1, 2, 3]);
    /// consumer.give_up();
    /// assert_eq!(consumer.holding(), [0, 1]);
    /// # Ok::<(), keycount::Refusal>(())
    /// ```
    pub fn give_up(&mut self) {
        unsafe { ffi::keycount_consumer_give_up(&mut self.handle) };
    }

    /// Leaves the cluster, and drops everything. Refused: `UnknownMember`.
    ///
    /// ```
    /// # use keycount::{Cluster, Consumer};
    /// # let mut cluster = Cluster::new(&[4], &[7; 32])?;
    /// # let mut consumer = Consumer::new(&mut cluster)?;
    /// # consumer.join(&mut cluster, "a")?;
    /// # consumer.step(&mut cluster)?;
    /// consumer.leave(&mut cluster)?;
    /// assert_eq!(consumer.member(), None);
    /// assert_eq!(cluster.members(), []);
    /// # Ok::<(), keycount::Refusal>(())
    /// ```
    pub fn leave(&mut self, cluster: &mut Cluster) -> Result<(), Refusal> {
        cluster.leave(self.member().unwrap_or(0))?;
        done(
            unsafe { ffi::keycount_consumer_drop_all(&mut self.handle) },
            (),
        )
    }

    /// Its member number, unless it is out of the group. For examples, see
    /// [`join`](Consumer::join) and [`leave`](Consumer::leave).
    pub fn member(&mut self) -> Option<u32> {
        let mut member = 0;
        unsafe { ffi::keycount_consumer_member(&mut self.handle, &mut member) };
        Some(member).filter(|&member| member != 0)
    }

    /// The generation of its last lease; 0 before the first one, and if it is out of the group.
    ///
    /// ```
    /// # use keycount::{Cluster, Consumer};
    /// # let mut cluster = Cluster::new(&[4], &[7; 32])?;
    /// # let mut consumer = Consumer::new(&mut cluster)?;
    /// # consumer.join(&mut cluster, "a")?;
    /// assert_eq!(consumer.generation(), 0);
    /// consumer.step(&mut cluster)?;
    /// assert_eq!(consumer.generation(), 1);
    /// # Ok::<(), keycount::Refusal>(())
    /// ```
    pub fn generation(&mut self) -> u32 {
        read(|out| unsafe { ffi::keycount_consumer_generation(&mut self.handle, out) })
    }

    /// The partitions that it holds, in rising order. For an example, see
    /// [`step`](Consumer::step).
    pub fn holding(&mut self) -> Vec<u32> {
        list(|out: &mut [u32], count| unsafe {
            ffi::keycount_consumer_holding(&mut self.handle, out.as_mut_ptr(), out.len(), count)
        })
        .expect("the partitions can always be listed")
    }

    /// The offset below which it knows the records of a partition to be committed; 0 if it does not
    /// hold it.
    ///
    /// ```
    /// # use keycount::{Cluster, Consumer};
    /// # let mut cluster = Cluster::new(&[1], &[7; 32])?;
    /// # for key in [b"a", b"b", b"a"] {
    /// #     cluster.append(0, key)?;
    /// # }
    /// # let mut consumer = Consumer::new(&mut cluster)?;
    /// # consumer.join(&mut cluster, "a")?;
    /// # consumer.step(&mut cluster)?;
    /// consumer.poll(&mut cluster, 0, 2)?;
    /// assert_eq!((consumer.base(0), consumer.position(0)), (0, 2));
    /// consumer.commit(&mut cluster, 0)?;
    /// assert_eq!((consumer.base(0), consumer.position(0)), (2, 2));
    /// # Ok::<(), keycount::Refusal>(())
    /// ```
    pub fn base(&mut self, partition: u32) -> u32 {
        let mut offset = 0;
        unsafe { ffi::keycount_consumer_base(&mut self.handle, partition, &mut offset) };
        offset
    }

    /// The offset of the next record of a partition that it reads; 0 if it does not hold it. For an
    /// example, see [`base`](Consumer::base).
    pub fn position(&mut self, partition: u32) -> u32 {
        let mut offset = 0;
        unsafe { ffi::keycount_consumer_position(&mut self.handle, partition, &mut offset) };
        offset
    }
}

impl Drop for Consumer {
    fn drop(&mut self) {
        // SAFETY: as above. No other call follows.
        unsafe { ffi::keycount_consumer_free(&mut self.handle) };
    }
}
