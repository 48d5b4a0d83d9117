use std::error::Error;
use std::fmt;

/// Why a call was refused. Nothing has changed.
#[derive(Clone, Copy, Debug, PartialEq, Eq, Hash)]
#[non_exhaustive]
pub enum Refusal {
    /// No present member has this number.
    UnknownMember,
    /// The generation is not the group's present one.
    StaleGeneration,
    /// The member has joined a rebalance that is not complete.
    RebalanceInProgress,
    /// The group is stable and the member has nothing to revoke.
    NothingToGive,
    /// The member has not synced in this generation.
    SyncFirst,
    /// The claim is not what the member is assigned.
    ClaimDiffers,
    /// The member has joined this rebalance before.
    AlreadyJoined,
    /// Somebody joined under this name before.
    NameUsed,
    /// The group has had its 512 members.
    TooManyMembers,
    /// The partition is not granted to the member.
    NotOwner,
    /// The commit does not begin at the committed offset.
    OffsetMismatch {
        /// The committed offset.
        committed: u32,
    },
    /// The commit ends past the end of its log.
    PastEnd,
    /// The commit's records are not those of its log.
    WrongRecords,
    /// The commit has no records.
    EmptyCommit,
    /// The consumer does not hold the partition.
    NotHeld,
    /// The consumer is out of the group.
    OutOfGroup,
    /// The key is longer than 65535 bytes.
    KeyTooLong,
    /// The log is full, or no number is left for a new key.
    LogFull,
    /// The group has had its last generation.
    GenerationsOver,
    /// No present static member has this name.
    NotKept,
    /// Memory was refused.
    OutOfMemory,
    /// An argument is out of range: a number of partitions, a topic, a name, a partition, an
    /// offset or the number of a key.
    BadArgument,
}

impl Refusal {
    /// The number of the refusal, as in `keycount explain`.
    ///
    /// ```
    /// use keycount::Refusal;
    ///
    /// assert_eq!(Refusal::OffsetMismatch { committed: 3 }.code(), 11);
    /// ```
    pub fn code(self) -> u32 {
        match self {
            Refusal::UnknownMember => 1,
            Refusal::StaleGeneration => 2,
            Refusal::RebalanceInProgress => 3,
            Refusal::NothingToGive => 4,
            Refusal::SyncFirst => 5,
            Refusal::ClaimDiffers => 6,
            Refusal::AlreadyJoined => 7,
            Refusal::NameUsed => 8,
            Refusal::TooManyMembers => 9,
            Refusal::NotOwner => 10,
            Refusal::OffsetMismatch { .. } => 11,
            Refusal::PastEnd => 12,
            Refusal::WrongRecords => 13,
            Refusal::EmptyCommit => 14,
            Refusal::NotHeld => 15,
            Refusal::OutOfGroup => 16,
            Refusal::KeyTooLong => 20,
            Refusal::LogFull => 21,
            Refusal::GenerationsOver => 31,
            Refusal::NotKept => 33,
            Refusal::OutOfMemory => 90,
            Refusal::BadArgument => 103,
        }
    }

    /// The refusal with this number. `committed` is that of a mismatch.
    pub(crate) fn of(code: u32, committed: u32) -> Refusal {
        match code {
            1 => Refusal::UnknownMember,
            2 => Refusal::StaleGeneration,
            3 => Refusal::RebalanceInProgress,
            4 => Refusal::NothingToGive,
            5 => Refusal::SyncFirst,
            6 => Refusal::ClaimDiffers,
            7 => Refusal::AlreadyJoined,
            8 => Refusal::NameUsed,
            9 => Refusal::TooManyMembers,
            10 => Refusal::NotOwner,
            11 => Refusal::OffsetMismatch { committed },
            12 => Refusal::PastEnd,
            13 => Refusal::WrongRecords,
            14 => Refusal::EmptyCommit,
            15 => Refusal::NotHeld,
            16 => Refusal::OutOfGroup,
            20 => Refusal::KeyTooLong,
            21 => Refusal::LogFull,
            31 => Refusal::GenerationsOver,
            33 => Refusal::NotKept,
            90 => Refusal::OutOfMemory,
            103 => Refusal::BadArgument,
            // The handle of a `Cluster` is never empty, and its outputs have room.
            other => unreachable!("the library returned {other}"),
        }
    }
}

impl fmt::Display for Refusal {
    fn fmt(&self, f: &mut fmt::Formatter<'_>) -> fmt::Result {
        match self {
            Refusal::OffsetMismatch { committed } => {
                write!(
                    f,
                    "the commit does not begin at the committed offset, {committed}"
                )
            }
            Refusal::UnknownMember => f.write_str("no present member has this number"),
            Refusal::StaleGeneration => f.write_str("the generation is not the present one"),
            Refusal::RebalanceInProgress => f.write_str("the member has joined a rebalance"),
            Refusal::NothingToGive => f.write_str("the member has nothing to revoke"),
            Refusal::SyncFirst => f.write_str("the member has not synced in this generation"),
            Refusal::ClaimDiffers => f.write_str("the claim is not what the member is assigned"),
            Refusal::AlreadyJoined => f.write_str("the member has joined this rebalance before"),
            Refusal::NameUsed => f.write_str("the name has been used"),
            Refusal::TooManyMembers => f.write_str("the group has had its 512 members"),
            Refusal::NotOwner => f.write_str("the partition is not granted to the member"),
            Refusal::PastEnd => f.write_str("the commit ends past the end of its log"),
            Refusal::WrongRecords => f.write_str("the records are not those of the log"),
            Refusal::EmptyCommit => f.write_str("the commit has no records"),
            Refusal::NotHeld => f.write_str("the consumer does not hold the partition"),
            Refusal::OutOfGroup => f.write_str("the consumer is out of the group"),
            Refusal::KeyTooLong => f.write_str("the key is longer than 65535 bytes"),
            Refusal::LogFull => f.write_str("the log is full, or no number is left for the key"),
            Refusal::GenerationsOver => f.write_str("the group has had its last generation"),
            Refusal::NotKept => f.write_str("no present static member has this name"),
            Refusal::OutOfMemory => f.write_str("out of memory"),
            Refusal::BadArgument => f.write_str("an argument is out of range"),
        }
    }
}

impl Error for Refusal {}
