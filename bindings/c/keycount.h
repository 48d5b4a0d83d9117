/* The coordinator of a consumer group, as a library: who reads which partition, and what is
 * committed. It is a state machine without threads, files or a clock: each event is a call.
 *
 * A call returns 0 if it was done, and else a number that says why not (enum keycount_answer).
 * Then cluster, consumer and outputs are as they were, except where a comment says otherwise.
 *
 * A handle is one pointer. Begin with KEYCOUNT_NONE, write to no field, keep it in one place, and
 * make one call at a time on it; another thread may make the next. The pointers of one call do not
 * overlap, except those that it only reads. A list is a pointer and a length; the pointer of an
 * empty list may be anything but NULL.
 *
 * What is proved of each call, and what is not: docs/LIBRARY.md.
 */
#ifndef KEYCOUNT_H
#define KEYCOUNT_H

#include <stddef.h>
#include <stdint.h>

#ifdef __cplusplus
extern "C" {
#endif

/* A cluster: the members of a group, the logs that they read, and the committed offsets. */
typedef struct keycount_cluster {
    void *at;
} keycount_cluster;

/* A consumer: what one member holds, how far it has read, and what it has not committed. */
typedef struct keycount_consumer {
    void *at;
} keycount_consumer;

#define KEYCOUNT_NONE {NULL}

/* Why a call was not done. 1 to 33 and 90 are those of `keycount explain`. */
enum keycount_answer {
    KEYCOUNT_DONE = 0,
    KEYCOUNT_UNKNOWN_MEMBER = 1,        /* no present member has this number */
    KEYCOUNT_STALE_GENERATION = 2,      /* the generation is not the group's present one */
    KEYCOUNT_REBALANCE_IN_PROGRESS = 3, /* the member has joined a rebalance that is not complete */
    KEYCOUNT_NOTHING_TO_GIVE = 4,       /* the group is stable, the member has nothing to revoke */
    KEYCOUNT_SYNC_FIRST = 5,            /* the member has not synced in this generation */
    KEYCOUNT_CLAIM_DIFFERS = 6,         /* the claim is not what the member is assigned */
    KEYCOUNT_ALREADY_JOINED = 7,        /* the member has joined this rebalance before */
    KEYCOUNT_NAME_USED = 8,             /* somebody joined under this name before */
    KEYCOUNT_TOO_MANY_MEMBERS = 9,      /* the group has had its 512 members */
    KEYCOUNT_NOT_OWNER = 10,            /* the partition is not granted to the member */
    KEYCOUNT_OFFSET_MISMATCH = 11,      /* the commit does not begin at the committed offset */
    KEYCOUNT_PAST_END = 12,             /* the commit ends past the end of its log */
    KEYCOUNT_WRONG_RECORDS = 13,        /* the commit's records are not those of its log */
    KEYCOUNT_EMPTY_COMMIT = 14,         /* the commit has no records */
    KEYCOUNT_NOT_HELD = 15,             /* the consumer does not hold the partition */
    KEYCOUNT_OUT_OF_GROUP = 16,         /* the consumer is out of the group */
    KEYCOUNT_KEY_TOO_LONG = 20,         /* the key is longer than 65535 bytes */
    KEYCOUNT_LOG_FULL = 21,             /* the log is full, or no number is left for a new key */
    KEYCOUNT_GENERATIONS_OVER = 31,     /* the group has had its last generation */
    KEYCOUNT_NOT_KEPT = 33,             /* no present static member has this name */
    KEYCOUNT_OUT_OF_MEMORY = 90,
    KEYCOUNT_NO_VALUE = 101,     /* the handle is empty */
    KEYCOUNT_HAS_VALUE = 102,    /* the handle is not empty */
    KEYCOUNT_BAD_ARGUMENT = 103, /* an argument is out of range */
    KEYCOUNT_TOO_SHORT = 104     /* an output has not enough room */
};

/* ---- a cluster begins and ends ------------------------------------------------------------- */

/* Puts a new cluster behind an empty handle. `partitions` has the number of partitions of each of
 * 1 to 8 topics, 4096 at most in total; partitions are numbered from 0 over all topics. `seed` has
 * 32 bytes, best random ones: the hash table of the keys is seeded with them. 90, 102, 103 */
uint32_t keycount_cluster_new(keycount_cluster *cluster, const uint32_t *partitions, size_t topics,
                              const uint8_t *seed, size_t seed_len);

/* Frees the cluster and empties the handle. 101 */
uint32_t keycount_cluster_free(keycount_cluster *cluster);

/* ---- its steps: each may return 101 --------------------------------------------------------- */

/* Appends a record with this key to a topic, 0 being the first: `partition` is where murmur2 puts
 * it, as Kafka's Java client does, and `offset` its offset there. 20, 21, 90, 103 */
uint32_t keycount_cluster_append(keycount_cluster *cluster, uint32_t topic, const uint8_t *key,
                                 size_t key_len, uint32_t *partition, uint32_t *offset);

/* A member joins under a name that nobody has used: 1 to 32 ASCII letters, digits, '-' and '_'.
 * `member` is its number, from 1 on. 8, 9, 31, 90, 103 */
uint32_t keycount_cluster_join(keycount_cluster *cluster, const uint8_t *name, size_t name_len,
                               uint32_t *member);

/* The same for a static member, whose seat another process can take over by name. */
uint32_t keycount_cluster_join_kept(keycount_cluster *cluster, const uint8_t *name,
                                    size_t name_len, uint32_t *member);

/* The seat of the static member of this name goes to a new number, without a rebalance: the new
 * one syncs, and the old one is no longer present. 9, 33, 90, 103 */
uint32_t keycount_cluster_take_over(keycount_cluster *cluster, const uint8_t *name,
                                    size_t name_len, uint32_t *member);

/* A member gives up what it is not assigned and joins the rebalance. It tells the generation that
 * it synced in, and claims the partitions of that lease. 1, 2, 7, 5, 4, 6, 31, 90, 103 */
uint32_t keycount_cluster_rejoin(keycount_cluster *cluster, uint32_t member, uint32_t generation,
                                 const uint32_t *claim, size_t claim_len);

/* A member takes its lease of the present generation: the `count` partitions that it is assigned,
 * in rising order, and the committed offset of each, where reading begins. Both lists have room
 * for all partitions of the cluster, or 104. 1, 3, 90, 104 */
uint32_t keycount_cluster_sync(keycount_cluster *cluster, uint32_t member, uint32_t *generation,
                               uint32_t *partitions, size_t partitions_room, uint32_t *offsets,
                               size_t offsets_room, size_t *count);

/* A member leaves, or is lost, which is the same: its partitions go to others. 1, 31, 90 */
uint32_t keycount_cluster_leave(keycount_cluster *cluster, uint32_t member);
uint32_t keycount_cluster_lose(keycount_cluster *cluster, uint32_t member);

/* A member commits records of a partition from an offset on, by their key numbers, as a whole or
 * not at all; the count of each key rises by how often it is among them. `committed` is then the
 * committed offset of the partition; on 11 as well. 1, 2, 10, 14, 11, 12, 13, 90 */
uint32_t keycount_cluster_commit(keycount_cluster *cluster, uint32_t member, uint32_t generation,
                                 uint32_t partition, uint32_t from, const uint32_t *keys,
                                 size_t keys_len, uint32_t *committed);

/* ---- what can be read of it: each may return 101, and changes nothing ------------------------ */

/* What a member does next. A member that is not present is told to sync, which then returns 1. */
enum keycount_step {
    KEYCOUNT_SYNC = 0,   /* take the lease of this generation */
    KEYCOUNT_REJOIN = 1, /* commit, give up what is not assigned, and rejoin */
    KEYCOUNT_READ = 2    /* read on: nothing is to be done */
};
uint32_t keycount_cluster_next_step(keycount_cluster *cluster, uint32_t member, uint32_t *step);

enum keycount_phase {
    KEYCOUNT_EMPTY = 0,     /* nobody is present */
    KEYCOUNT_PREPARING = 1, /* a rebalance waits for members to rejoin */
    KEYCOUNT_STABLE = 2     /* a generation is complete */
};
uint32_t keycount_cluster_phase(keycount_cluster *cluster, uint32_t *phase);

/* The generation, 0 before the first. */
uint32_t keycount_cluster_generation(keycount_cluster *cluster, uint32_t *generation);

/* 1 if the group is stable and no member has a partition to give up, else 0. */
uint32_t keycount_cluster_settled(keycount_cluster *cluster, uint32_t *settled);

/* How many partitions and how many different keys there are. */
uint32_t keycount_cluster_partitions(keycount_cluster *cluster, uint32_t *partitions);
uint32_t keycount_cluster_keys(keycount_cluster *cluster, uint32_t *keys);

/* Lists. `count` is how many items there are, also where they do not fit `room`: then the list is
 * as it was, and the call returns 104. A room of 0 asks for the count alone. */

/* The present members, in rising order. 104 */
uint32_t keycount_cluster_members(keycount_cluster *cluster, uint32_t *members, size_t room,
                                  size_t *count);

/* The partitions that a member may read and commit, and those of its next lease. 1, 104 */
uint32_t keycount_cluster_granted(keycount_cluster *cluster, uint32_t member, uint32_t *partitions,
                                  size_t room, size_t *count);
uint32_t keycount_cluster_assigned(keycount_cluster *cluster, uint32_t member,
                                   uint32_t *partitions, size_t room, size_t *count);

/* The member that a partition is granted to, or 0. */
uint32_t keycount_cluster_owner(keycount_cluster *cluster, uint32_t partition, uint32_t *member);

/* The name, of at most 32 bytes, of a member number that was given out; the newest number with a
 * name, or 0. The members may have left since. 1, 104; 103 if it is not a name. */
uint32_t keycount_cluster_name(keycount_cluster *cluster, uint32_t member, uint8_t *name,
                               size_t room, size_t *count);
uint32_t keycount_cluster_member_named(keycount_cluster *cluster, const uint8_t *name,
                                       size_t name_len, uint32_t *member);

/* 1 if a member is present and static, else 0. */
uint32_t keycount_cluster_kept(keycount_cluster *cluster, uint32_t member, uint32_t *kept);

/* The moves so far, in order, but for the first `from`: each time that a completed generation granted
 * a partition to a member that did not have it. `last` is the member that had it last, or 0. 104 */
typedef struct keycount_move {
    uint32_t generation, partition, last, holder;
} keycount_move;
uint32_t keycount_cluster_moves(keycount_cluster *cluster, size_t from, keycount_move *moves,
                                size_t room, size_t *count);

/* The offset of a partition's next record, and its committed offset. 103 */
uint32_t keycount_cluster_end(keycount_cluster *cluster, uint32_t partition, uint32_t *offset);
uint32_t keycount_cluster_committed(keycount_cluster *cluster, uint32_t partition,
                                    uint32_t *offset);

/* Records of a partition from an offset on, as key numbers: as many as there are and fit. 103 if
 * there is no such partition, or the offset is past its end. */
uint32_t keycount_cluster_read(keycount_cluster *cluster, uint32_t partition, uint32_t from,
                               uint32_t *keys, size_t room, size_t *count);

/* The bytes of the key with this number, and how often it is among the committed records. Keys
 * are numbered from 0, in the order in which they were first appended. 103, 104 */
uint32_t keycount_cluster_key(keycount_cluster *cluster, uint32_t number, uint8_t *key,
                              size_t room, size_t *count);
uint32_t keycount_cluster_count(keycount_cluster *cluster, uint32_t number, uint64_t *count);

/* ---- a consumer: each may return 101 --------------------------------------------------------- */

/* Puts a consumer of 1 to 4096 partitions, out of the group, behind an empty handle. 90, 102, 103 */
uint32_t keycount_consumer_new(keycount_consumer *consumer, uint32_t partitions);
uint32_t keycount_consumer_free(keycount_consumer *consumer);

/* It has joined as this member, and holds nothing; or it drops everything and is out of the group. */
uint32_t keycount_consumer_joined(keycount_consumer *consumer, uint32_t member);
uint32_t keycount_consumer_drop_all(keycount_consumer *consumer);

/* It takes its lease: partitions that are new to it are read from their committed offsets on. 103 if
 * the cluster has another number of partitions. 1, 3, 16, 90, 103 */
uint32_t keycount_consumer_sync(keycount_consumer *consumer, keycount_cluster *cluster);

/* It rejoins with the partitions of its lease and drops all others. As keycount_cluster_rejoin; 16 */
uint32_t keycount_consumer_rejoin(keycount_consumer *consumer, keycount_cluster *cluster);

/* It drops what it holds and the last lease has not: so it does by itself when it rejoins. */
uint32_t keycount_consumer_give_up(keycount_consumer *consumer);

/* It reads at most `most` records of a partition: `count` of them, from the offset `from` on. 103 if
 * it is not a consumer of this cluster. 15, 16, 103 */
uint32_t keycount_consumer_poll(keycount_consumer *consumer, keycount_cluster *cluster,
                                uint32_t partition, uint32_t most, uint32_t *from,
                                uint32_t *count);

/* What it has read of a partition and not committed: the records from one offset up to another, to
 * be committed as this member in this generation. 14, 15, 16 */
uint32_t keycount_consumer_pending(keycount_consumer *consumer, uint32_t partition,
                                   uint32_t *member, uint32_t *generation, uint32_t *from,
                                   uint32_t *to);

/* It takes the reply to a commit of a partition: what the commit returned, and wrote. */
uint32_t keycount_consumer_answered(keycount_consumer *consumer, uint32_t partition,
                                    uint32_t answer, uint32_t committed);

/* The generation of its last lease, or 0; the partitions that it holds, in rising order. 104 */
uint32_t keycount_consumer_generation(keycount_consumer *consumer, uint32_t *generation);
uint32_t keycount_consumer_holding(keycount_consumer *consumer, uint32_t *partitions, size_t room,
                                   size_t *count);

/* Its member number, or 0 if it is out of the group; of a partition, the offset below which it knows
 * the records to be committed, and that of the next record that it reads; 0 if it is not held. */
uint32_t keycount_consumer_member(keycount_consumer *consumer, uint32_t *member);
uint32_t keycount_consumer_base(keycount_consumer *consumer, uint32_t partition,
                                uint32_t *offset);
uint32_t keycount_consumer_position(keycount_consumer *consumer, uint32_t partition,
                                    uint32_t *offset);

/* ---- where keys go: no handle is needed ------------------------------------------------------ */

/* The murmur2 hash of a key, as in Kafka's Java client. It is all that this returns. */
uint32_t keycount_murmur2(const uint8_t *key, size_t key_len);

/* The partition of a key among 1 to 4096. 103 */
uint32_t keycount_place(uint32_t partitions, const uint8_t *key, size_t key_len,
                        uint32_t *partition);

/* The same of keys that lie one after another in `bytes`, each up to its end: to the front of
 * `places`, in their order. 103, also where the ends do not rise or `places` has less room. */
uint32_t keycount_place_all(uint32_t partitions, const uint8_t *bytes, size_t bytes_len,
                            const size_t *ends, size_t keys, uint32_t *places, size_t room);

/* ---- who is to have each partition: no handle is needed ------------------------------------- */

/* Assigns partitions to members: evenly, and so that as many as possible stay with their owners.
 * The members' numbers rise from 1 on. `owners` has the member that owns each partition, and
 * `assigned` gets the member that is to own it. In `owners`, 0 and the number of anybody else, as
 * one who has left, stand for nobody. 90; 103 if there is no member, the numbers do not rise, there
 * are not 1 to 4096 partitions, or `assigned` has less room. */
uint32_t keycount_assign(const uint32_t *members, size_t members_len, const uint32_t *owners,
                         size_t partitions, uint32_t *assigned, size_t room);

/* What to assign of a target at once, in a cooperative rebalance: the target, but 0 for a partition
 * that another of the members still owns. 90; 103, also if the two lists differ in length. */
uint32_t keycount_withhold(const uint32_t *members, size_t members_len, const uint32_t *target,
                           size_t targets, const uint32_t *owners, size_t partitions,
                           uint32_t *assigned, size_t room);

#ifdef __cplusplus
}
#endif

#endif
