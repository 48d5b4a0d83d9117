/* Calls each function of the library, and compares what it returns and writes with what the rules
 * say. Exits with 1 at the first difference. */
#include "keycount.h"

#include <stdio.h>
#include <stdlib.h>
#include <string.h>

#define EXPECT(holds)                                                        \
    do {                                                                     \
        if (!(holds)) {                                                      \
            fprintf(stderr, "test.c:%d: not so: %s\n", __LINE__, #holds);    \
            exit(1);                                                         \
        }                                                                    \
    } while (0)

#define TEXT(text) (const uint8_t *)(text), strlen(text)

static const uint8_t seed[32] = {1, 2, 3};
static const uint32_t four = 4;

static void an_empty_handle_answers_so_and_writes_nothing(void) {
    keycount_cluster c = KEYCOUNT_NONE;
    uint32_t out = 77, more = 78, list[4] = {7, 7, 7, 7};
    uint64_t number = 79;
    uint8_t bytes[4] = {7, 7, 7, 7};
    size_t count = 80;
    EXPECT(keycount_cluster_free(&c) == KEYCOUNT_NO_VALUE);
    EXPECT(keycount_cluster_append(&c, 0, TEXT("k"), &out, &more) == KEYCOUNT_NO_VALUE);
    EXPECT(keycount_cluster_join(&c, TEXT("a"), &out) == KEYCOUNT_NO_VALUE);
    EXPECT(keycount_cluster_join_kept(&c, TEXT("a"), &out) == KEYCOUNT_NO_VALUE);
    EXPECT(keycount_cluster_take_over(&c, TEXT("a"), &out) == KEYCOUNT_NO_VALUE);
    EXPECT(keycount_cluster_rejoin(&c, 1, 1, list, 4) == KEYCOUNT_NO_VALUE);
    EXPECT(keycount_cluster_sync(&c, 1, &out, list, 4, list, 4, &count) == KEYCOUNT_NO_VALUE);
    EXPECT(keycount_cluster_leave(&c, 1) == KEYCOUNT_NO_VALUE);
    EXPECT(keycount_cluster_lose(&c, 1) == KEYCOUNT_NO_VALUE);
    EXPECT(keycount_cluster_commit(&c, 1, 1, 0, 0, list, 4, &out) == KEYCOUNT_NO_VALUE);
    EXPECT(keycount_cluster_next_step(&c, 1, &out) == KEYCOUNT_NO_VALUE);
    EXPECT(keycount_cluster_phase(&c, &out) == KEYCOUNT_NO_VALUE);
    EXPECT(keycount_cluster_generation(&c, &out) == KEYCOUNT_NO_VALUE);
    EXPECT(keycount_cluster_settled(&c, &out) == KEYCOUNT_NO_VALUE);
    EXPECT(keycount_cluster_partitions(&c, &out) == KEYCOUNT_NO_VALUE);
    EXPECT(keycount_cluster_keys(&c, &out) == KEYCOUNT_NO_VALUE);
    EXPECT(keycount_cluster_members(&c, list, 4, &count) == KEYCOUNT_NO_VALUE);
    EXPECT(keycount_cluster_granted(&c, 1, list, 4, &count) == KEYCOUNT_NO_VALUE);
    EXPECT(keycount_cluster_assigned(&c, 1, list, 4, &count) == KEYCOUNT_NO_VALUE);
    keycount_move move = {7, 7, 7, 7};
    EXPECT(keycount_cluster_moves(&c, 0, &move, 1, &count) == KEYCOUNT_NO_VALUE);
    EXPECT(move.generation == 7);
    EXPECT(keycount_cluster_owner(&c, 0, &out) == KEYCOUNT_NO_VALUE);
    EXPECT(keycount_cluster_name(&c, 1, bytes, 4, &count) == KEYCOUNT_NO_VALUE);
    EXPECT(keycount_cluster_member_named(&c, TEXT("a"), &out) == KEYCOUNT_NO_VALUE);
    EXPECT(keycount_cluster_kept(&c, 1, &out) == KEYCOUNT_NO_VALUE);
    EXPECT(keycount_cluster_end(&c, 0, &out) == KEYCOUNT_NO_VALUE);
    EXPECT(keycount_cluster_committed(&c, 0, &out) == KEYCOUNT_NO_VALUE);
    EXPECT(keycount_cluster_read(&c, 0, 0, list, 4, &count) == KEYCOUNT_NO_VALUE);
    EXPECT(keycount_cluster_key(&c, 0, bytes, 4, &count) == KEYCOUNT_NO_VALUE);
    EXPECT(keycount_cluster_count(&c, 0, &number) == KEYCOUNT_NO_VALUE);
    EXPECT(c.at == NULL && out == 77 && more == 78 && number == 79 && count == 80);
    EXPECT(list[0] == 7 && list[3] == 7 && bytes[0] == 7 && bytes[3] == 7);
}

static void arguments_are_tested(void) {
    keycount_cluster c = KEYCOUNT_NONE;
    const uint32_t none = 0, many = 4097, most = 4096, nine[9] = {1, 1, 1, 1, 1, 1, 1, 1, 1};
    const uint32_t over[2] = {4096, 1}, wrapping[2] = {4294967295u, 2};
    uint32_t out = 77, more = 78, list[8], offsets[8];
    size_t count = 80;
    EXPECT(keycount_cluster_new(&c, &four, 0, seed, 32) == KEYCOUNT_BAD_ARGUMENT);
    EXPECT(keycount_cluster_new(&c, &none, 1, seed, 32) == KEYCOUNT_BAD_ARGUMENT);
    EXPECT(keycount_cluster_new(&c, &many, 1, seed, 32) == KEYCOUNT_BAD_ARGUMENT);
    EXPECT(keycount_cluster_new(&c, nine, 9, seed, 32) == KEYCOUNT_BAD_ARGUMENT);
    EXPECT(keycount_cluster_new(&c, over, 2, seed, 32) == KEYCOUNT_BAD_ARGUMENT);
    EXPECT(keycount_cluster_new(&c, wrapping, 2, seed, 32) == KEYCOUNT_BAD_ARGUMENT);
    EXPECT(keycount_cluster_new(&c, &four, 1, seed, 31) == KEYCOUNT_BAD_ARGUMENT);
    EXPECT(c.at == NULL);
    EXPECT(keycount_cluster_new(&c, nine, 8, seed, 32) == KEYCOUNT_DONE);
    EXPECT(keycount_cluster_free(&c) == KEYCOUNT_DONE);
    EXPECT(keycount_cluster_new(&c, &most, 1, seed, 32) == KEYCOUNT_DONE);
    EXPECT(keycount_cluster_new(&c, &most, 1, seed, 32) == KEYCOUNT_HAS_VALUE);
    EXPECT(keycount_cluster_free(&c) == KEYCOUNT_DONE);

    EXPECT(keycount_cluster_new(&c, &four, 1, seed, 32) == KEYCOUNT_DONE);
    EXPECT(keycount_cluster_append(&c, 1, TEXT("k"), &out, &more) == KEYCOUNT_BAD_ARGUMENT);
    EXPECT(keycount_cluster_append(&c, 256, TEXT("k"), &out, &more) == KEYCOUNT_BAD_ARGUMENT);
    EXPECT(keycount_cluster_join(&c, TEXT(""), &out) == KEYCOUNT_BAD_ARGUMENT);
    EXPECT(keycount_cluster_join(&c, TEXT("a b"), &out) == KEYCOUNT_BAD_ARGUMENT);
    EXPECT(keycount_cluster_join_kept(&c, TEXT("a b"), &out) == KEYCOUNT_BAD_ARGUMENT);
    EXPECT(keycount_cluster_take_over(&c, TEXT("a b"), &out) == KEYCOUNT_BAD_ARGUMENT);
    EXPECT(keycount_cluster_member_named(&c, TEXT("a b"), &out) == KEYCOUNT_BAD_ARGUMENT);
    EXPECT(keycount_cluster_rejoin(&c, 1, 1, &four, 1) == KEYCOUNT_BAD_ARGUMENT);
    EXPECT(keycount_cluster_end(&c, 4, &out) == KEYCOUNT_BAD_ARGUMENT);
    EXPECT(keycount_cluster_committed(&c, 4, &out) == KEYCOUNT_BAD_ARGUMENT);
    EXPECT(keycount_cluster_read(&c, 4, 0, list, 8, &count) == KEYCOUNT_BAD_ARGUMENT);
    EXPECT(keycount_cluster_read(&c, 0, 1, list, 8, &count) == KEYCOUNT_BAD_ARGUMENT);
    EXPECT(keycount_cluster_sync(&c, 1, &out, list, 3, offsets, 4, &count) == KEYCOUNT_TOO_SHORT);
    EXPECT(keycount_cluster_sync(&c, 1, &out, list, 4, offsets, 3, &count) == KEYCOUNT_TOO_SHORT);
    EXPECT(out == 77 && more == 78 && count == 80);
    EXPECT(keycount_cluster_owner(&c, 4, &out) == KEYCOUNT_DONE && out == 0);
    EXPECT(keycount_cluster_free(&c) == KEYCOUNT_DONE);
}

/* murmur2("21") is -973932308, as Kafka's own test has it, and & 0x7fffffff 1173551340: modulo 4,
 * partition 0. "foobar" is -790332482, and 1357151166: partition 2. */
static void records_are_appended_and_read(void) {
    keycount_cluster c = KEYCOUNT_NONE;
    uint32_t partition, offset, out, keys[4] = {7, 7, 7, 7};
    uint64_t number;
    uint8_t bytes[6];
    size_t count;
    static uint8_t long_key[65536];
    EXPECT(keycount_cluster_new(&c, &four, 1, seed, 32) == KEYCOUNT_DONE);
    EXPECT(keycount_cluster_append(&c, 0, TEXT("foobar"), &partition, &offset) == KEYCOUNT_DONE);
    EXPECT(partition == 2 && offset == 0);
    EXPECT(keycount_cluster_append(&c, 0, TEXT("21"), &partition, &offset) == KEYCOUNT_DONE);
    EXPECT(partition == 0 && offset == 0);
    EXPECT(keycount_cluster_append(&c, 0, TEXT("21"), &partition, &offset) == KEYCOUNT_DONE);
    EXPECT(partition == 0 && offset == 1);
    EXPECT(keycount_cluster_append(&c, 0, long_key, 65536, &partition, &offset)
           == KEYCOUNT_KEY_TOO_LONG);
    EXPECT(partition == 0 && offset == 1);
    EXPECT(keycount_cluster_partitions(&c, &out) == KEYCOUNT_DONE && out == 4);
    EXPECT(keycount_cluster_keys(&c, &out) == KEYCOUNT_DONE && out == 2);
    EXPECT(keycount_cluster_end(&c, 0, &out) == KEYCOUNT_DONE && out == 2);
    EXPECT(keycount_cluster_committed(&c, 0, &out) == KEYCOUNT_DONE && out == 0);
    EXPECT(keycount_cluster_read(&c, 0, 0, keys, 4, &count) == KEYCOUNT_DONE && count == 2);
    EXPECT(keys[0] == 1 && keys[1] == 1 && keys[2] == 7);
    EXPECT(keycount_cluster_read(&c, 0, 1, keys, 4, &count) == KEYCOUNT_DONE && count == 1);
    EXPECT(keycount_cluster_read(&c, 0, 2, keys, 4, &count) == KEYCOUNT_DONE && count == 0);
    EXPECT(keycount_cluster_read(&c, 0, 0, keys, 1, &count) == KEYCOUNT_DONE && count == 1);
    EXPECT(keycount_cluster_key(&c, 0, bytes, 5, &count) == KEYCOUNT_TOO_SHORT && count == 6);
    EXPECT(keycount_cluster_key(&c, 0, bytes, 6, &count) == KEYCOUNT_DONE && count == 6);
    EXPECT(memcmp(bytes, "foobar", 6) == 0);
    EXPECT(keycount_cluster_key(&c, 2, bytes, 6, &count) == KEYCOUNT_BAD_ARGUMENT);
    EXPECT(keycount_cluster_count(&c, 1, &number) == KEYCOUNT_DONE && number == 0);
    EXPECT(keycount_cluster_count(&c, 2, &number) == KEYCOUNT_BAD_ARGUMENT);
    EXPECT(keycount_cluster_free(&c) == KEYCOUNT_DONE);
}

/* The walk of docs/ARCHITECTURE.md: a second member gets half of the partitions, after the first
 * has given them up. */
static void partitions_move_when_they_are_given_up(void) {
    keycount_cluster c = KEYCOUNT_NONE;
    uint32_t a, b, out, generation, partitions[4], offsets[4];
    size_t count;
    const uint32_t all[4] = {0, 1, 2, 3};
    EXPECT(keycount_cluster_new(&c, &four, 1, seed, 32) == KEYCOUNT_DONE);
    EXPECT(keycount_cluster_phase(&c, &out) == KEYCOUNT_DONE && out == KEYCOUNT_EMPTY);
    EXPECT(keycount_cluster_join(&c, TEXT("A"), &a) == KEYCOUNT_DONE && a == 1);
    EXPECT(keycount_cluster_join(&c, TEXT("A"), &b) == KEYCOUNT_NAME_USED);
    EXPECT(keycount_cluster_join(&c, TEXT("B"), &b) == KEYCOUNT_DONE && b == 2);
    EXPECT(keycount_cluster_phase(&c, &out) == KEYCOUNT_DONE && out == KEYCOUNT_PREPARING);
    EXPECT(keycount_cluster_sync(&c, b, &generation, partitions, 4, offsets, 4, &count)
           == KEYCOUNT_REBALANCE_IN_PROGRESS);
    EXPECT(keycount_cluster_next_step(&c, a, &out) == KEYCOUNT_DONE && out == KEYCOUNT_SYNC);
    EXPECT(keycount_cluster_rejoin(&c, a, 1, all, 4) == KEYCOUNT_SYNC_FIRST);
    EXPECT(keycount_cluster_sync(&c, a, &generation, partitions, 4, offsets, 4, &count)
           == KEYCOUNT_DONE);
    EXPECT(generation == 1 && count == 4 && memcmp(partitions, all, sizeof all) == 0);
    EXPECT(keycount_cluster_next_step(&c, a, &out) == KEYCOUNT_DONE && out == KEYCOUNT_REJOIN);
    EXPECT(keycount_cluster_rejoin(&c, a, 2, all, 4) == KEYCOUNT_STALE_GENERATION);
    EXPECT(keycount_cluster_rejoin(&c, a, 1, all, 3) == KEYCOUNT_CLAIM_DIFFERS);
    EXPECT(keycount_cluster_rejoin(&c, a, 1, all, 4) == KEYCOUNT_DONE);
    EXPECT(keycount_cluster_generation(&c, &out) == KEYCOUNT_DONE && out == 2);
    EXPECT(keycount_cluster_settled(&c, &out) == KEYCOUNT_DONE && out == 0);
    EXPECT(keycount_cluster_granted(&c, a, partitions, 4, &count) == KEYCOUNT_DONE && count == 4);
    EXPECT(keycount_cluster_assigned(&c, a, partitions, 4, &count) == KEYCOUNT_DONE && count == 2);
    EXPECT(keycount_cluster_assigned(&c, a, partitions, 1, &count) == KEYCOUNT_TOO_SHORT);
    EXPECT(count == 2);
    EXPECT(keycount_cluster_granted(&c, b, partitions, 0, &count) == KEYCOUNT_DONE && count == 0);
    EXPECT(keycount_cluster_granted(&c, 3, partitions, 4, &count) == KEYCOUNT_UNKNOWN_MEMBER);
    EXPECT(keycount_cluster_owner(&c, 3, &out) == KEYCOUNT_DONE && out == a);

    EXPECT(keycount_cluster_sync(&c, a, &generation, partitions, 4, offsets, 4, &count)
           == KEYCOUNT_DONE);
    EXPECT(keycount_cluster_rejoin(&c, a, 2, partitions, count) == KEYCOUNT_DONE);
    EXPECT(keycount_cluster_rejoin(&c, a, 2, partitions, count) == KEYCOUNT_ALREADY_JOINED);
    EXPECT(keycount_cluster_sync(&c, b, &generation, partitions, 4, offsets, 4, &count)
           == KEYCOUNT_DONE);
    EXPECT(generation == 2 && count == 0);
    EXPECT(keycount_cluster_rejoin(&c, b, 2, partitions, 0) == KEYCOUNT_DONE);
    EXPECT(keycount_cluster_generation(&c, &out) == KEYCOUNT_DONE && out == 3);
    EXPECT(keycount_cluster_settled(&c, &out) == KEYCOUNT_DONE && out == 1);
    EXPECT(keycount_cluster_phase(&c, &out) == KEYCOUNT_DONE && out == KEYCOUNT_STABLE);
    EXPECT(keycount_cluster_granted(&c, b, partitions, 4, &count) == KEYCOUNT_DONE && count == 2);
    EXPECT(partitions[0] == 2 && partitions[1] == 3);
    EXPECT(keycount_cluster_sync(&c, a, &generation, partitions, 4, offsets, 4, &count)
           == KEYCOUNT_DONE);
    EXPECT(keycount_cluster_next_step(&c, a, &out) == KEYCOUNT_DONE && out == KEYCOUNT_READ);
    EXPECT(keycount_cluster_rejoin(&c, a, 3, partitions, count) == KEYCOUNT_NOTHING_TO_GIVE);

    keycount_move moves[6];
    EXPECT(keycount_cluster_moves(&c, 0, moves, 5, &count) == KEYCOUNT_TOO_SHORT && count == 6);
    EXPECT(keycount_cluster_moves(&c, 0, moves, 6, &count) == KEYCOUNT_DONE && count == 6);
    for (uint32_t p = 0; p < 4; p++)
        EXPECT(moves[p].generation == 1 && moves[p].partition == p && moves[p].last == 0
               && moves[p].holder == a);
    EXPECT(keycount_cluster_moves(&c, 4, moves, 6, &count) == KEYCOUNT_DONE && count == 2);
    for (uint32_t p = 2; p < 4; p++)
        EXPECT(moves[p - 2].generation == 3 && moves[p - 2].partition == p
               && moves[p - 2].last == a && moves[p - 2].holder == b);
    EXPECT(keycount_cluster_moves(&c, 7, moves, 0, &count) == KEYCOUNT_DONE && count == 0);

    uint32_t members[2];
    EXPECT(keycount_cluster_members(&c, members, 1, &count) == KEYCOUNT_TOO_SHORT && count == 2);
    EXPECT(keycount_cluster_members(&c, members, 2, &count) == KEYCOUNT_DONE && count == 2);
    EXPECT(members[0] == a && members[1] == b);
    EXPECT(keycount_cluster_leave(&c, a) == KEYCOUNT_DONE);
    EXPECT(keycount_cluster_leave(&c, a) == KEYCOUNT_UNKNOWN_MEMBER);
    EXPECT(keycount_cluster_lose(&c, b) == KEYCOUNT_DONE);
    EXPECT(keycount_cluster_members(&c, members, 2, &count) == KEYCOUNT_DONE && count == 0);
    EXPECT(keycount_cluster_free(&c) == KEYCOUNT_DONE);
}

static void a_static_member_comes_back(void) {
    keycount_cluster c = KEYCOUNT_NONE;
    uint32_t a, again, out, generation, partitions[4], offsets[4];
    uint8_t name[2] = {7, 7};
    size_t count;
    EXPECT(keycount_cluster_new(&c, &four, 1, seed, 32) == KEYCOUNT_DONE);
    EXPECT(keycount_cluster_take_over(&c, TEXT("A"), &again) == KEYCOUNT_NOT_KEPT);
    EXPECT(keycount_cluster_member_named(&c, TEXT("A"), &out) == KEYCOUNT_DONE && out == 0);
    EXPECT(keycount_cluster_join_kept(&c, TEXT("A"), &a) == KEYCOUNT_DONE && a == 1);
    EXPECT(keycount_cluster_kept(&c, a, &out) == KEYCOUNT_DONE && out == 1);
    EXPECT(keycount_cluster_take_over(&c, TEXT("A"), &again) == KEYCOUNT_DONE && again == 2);
    EXPECT(keycount_cluster_kept(&c, a, &out) == KEYCOUNT_DONE && out == 0);
    EXPECT(keycount_cluster_kept(&c, again, &out) == KEYCOUNT_DONE && out == 1);
    EXPECT(keycount_cluster_member_named(&c, TEXT("A"), &out) == KEYCOUNT_DONE && out == again);
    EXPECT(keycount_cluster_name(&c, 0, name, 2, &count) == KEYCOUNT_UNKNOWN_MEMBER);
    EXPECT(keycount_cluster_name(&c, 3, name, 2, &count) == KEYCOUNT_UNKNOWN_MEMBER);
    EXPECT(keycount_cluster_name(&c, a, name, 0, &count) == KEYCOUNT_TOO_SHORT && count == 1);
    EXPECT(name[0] == 7);
    EXPECT(keycount_cluster_name(&c, a, name, 2, &count) == KEYCOUNT_DONE && count == 1);
    EXPECT(name[0] == 'A' && name[1] == 7);
    EXPECT(keycount_cluster_join(&c, TEXT("B"), &out) == KEYCOUNT_DONE && out == 3);
    EXPECT(keycount_cluster_kept(&c, 3, &out) == KEYCOUNT_DONE && out == 0);
    EXPECT(keycount_cluster_leave(&c, 3) == KEYCOUNT_DONE);
    EXPECT(keycount_cluster_granted(&c, a, partitions, 4, &count) == KEYCOUNT_UNKNOWN_MEMBER);
    EXPECT(keycount_cluster_sync(&c, again, &generation, partitions, 4, offsets, 4, &count)
           == KEYCOUNT_DONE);
    EXPECT(generation == 1 && count == 4);
    EXPECT(keycount_cluster_free(&c) == KEYCOUNT_DONE);
}

static void a_commit_counts_once(void) {
    keycount_cluster c = KEYCOUNT_NONE;
    const uint32_t two[2] = {2, 3};
    uint32_t a, b, partition, offset, out, generation, partitions[5], offsets[5], keys[4];
    uint64_t number;
    size_t count;
    EXPECT(keycount_cluster_new(&c, two, 2, seed, 32) == KEYCOUNT_DONE);
    for (int i = 0; i < 3; i++)
        EXPECT(keycount_cluster_append(&c, 1, TEXT("foobar"), &partition, &offset)
               == KEYCOUNT_DONE);
    /* 1357151166 modulo 3 is 0, after the first topic's two. */
    EXPECT(partition == 2 && offset == 2);
    EXPECT(keycount_cluster_join(&c, TEXT("A"), &a) == KEYCOUNT_DONE);
    EXPECT(keycount_cluster_sync(&c, a, &generation, partitions, 5, offsets, 5, &count)
           == KEYCOUNT_DONE);
    EXPECT(keycount_cluster_read(&c, 2, 0, keys, 2, &count) == KEYCOUNT_DONE && count == 2);

    out = 77;
    EXPECT(keycount_cluster_commit(&c, 9, 1, 2, 0, keys, 2, &out) == KEYCOUNT_UNKNOWN_MEMBER);
    EXPECT(keycount_cluster_commit(&c, a, 0, 2, 0, keys, 2, &out) == KEYCOUNT_STALE_GENERATION);
    EXPECT(keycount_cluster_commit(&c, a, 1, 5, 0, keys, 2, &out) == KEYCOUNT_NOT_OWNER);
    EXPECT(keycount_cluster_commit(&c, a, 1, 2, 0, keys, 0, &out) == KEYCOUNT_EMPTY_COMMIT);
    keys[2] = keys[3] = 0;
    EXPECT(keycount_cluster_commit(&c, a, 1, 2, 0, keys, 4, &out) == KEYCOUNT_PAST_END);
    keys[0] = 1;
    EXPECT(keycount_cluster_commit(&c, a, 1, 2, 0, keys, 2, &out) == KEYCOUNT_WRONG_RECORDS);
    keys[0] = 0;
    EXPECT(out == 77);
    EXPECT(keycount_cluster_commit(&c, a, 1, 2, 0, keys, 2, &out) == KEYCOUNT_DONE && out == 2);
    out = 77;
    EXPECT(keycount_cluster_commit(&c, a, 1, 2, 0, keys, 2, &out) == KEYCOUNT_OFFSET_MISMATCH);
    EXPECT(out == 2);
    EXPECT(keycount_cluster_count(&c, 0, &number) == KEYCOUNT_DONE && number == 2);
    EXPECT(keycount_cluster_committed(&c, 2, &out) == KEYCOUNT_DONE && out == 2);

    /* Another member goes on from there, with the first's commit come too late. */
    EXPECT(keycount_cluster_lose(&c, a) == KEYCOUNT_DONE);
    EXPECT(keycount_cluster_join(&c, TEXT("B"), &b) == KEYCOUNT_DONE);
    EXPECT(keycount_cluster_commit(&c, a, 1, 2, 2, keys, 1, &out) == KEYCOUNT_UNKNOWN_MEMBER);
    EXPECT(keycount_cluster_sync(&c, b, &generation, partitions, 5, offsets, 5, &count)
           == KEYCOUNT_DONE);
    EXPECT(count == 5 && partitions[2] == 2 && offsets[2] == 2 && offsets[3] == 0);
    EXPECT(keycount_cluster_commit(&c, b, generation, 2, 2, keys, 1, &out) == KEYCOUNT_DONE);
    EXPECT(keycount_cluster_count(&c, 0, &number) == KEYCOUNT_DONE && number == 3);
    EXPECT(keycount_cluster_free(&c) == KEYCOUNT_DONE);
}

/* A consumer reads, commits, is told of a mismatch, and is out when it is lost. */
static void a_consumer_follows_its_group(void) {
    keycount_cluster c = KEYCOUNT_NONE;
    keycount_consumer m = KEYCOUNT_NONE;
    uint32_t member, partition, offset, generation, from, to, count, out, keys[4];
    size_t n;
    EXPECT(keycount_consumer_free(&m) == KEYCOUNT_NO_VALUE);
    EXPECT(keycount_consumer_joined(&m, 1) == KEYCOUNT_NO_VALUE);
    EXPECT(keycount_consumer_sync(&m, &c) == KEYCOUNT_NO_VALUE);
    EXPECT(keycount_consumer_give_up(&m) == KEYCOUNT_NO_VALUE);
    EXPECT(keycount_consumer_generation(&m, &out) == KEYCOUNT_NO_VALUE);
    EXPECT(keycount_consumer_holding(&m, keys, 4, &n) == KEYCOUNT_NO_VALUE);
    EXPECT(keycount_consumer_new(&m, 0) == KEYCOUNT_BAD_ARGUMENT);
    EXPECT(keycount_consumer_new(&m, 4097) == KEYCOUNT_BAD_ARGUMENT);
    EXPECT(keycount_consumer_new(&m, 3) == KEYCOUNT_DONE);
    EXPECT(keycount_consumer_new(&m, 4) == KEYCOUNT_HAS_VALUE);
    EXPECT(keycount_consumer_sync(&m, &c) == KEYCOUNT_NO_VALUE);
    EXPECT(keycount_cluster_new(&c, &four, 1, seed, 32) == KEYCOUNT_DONE);
    EXPECT(keycount_consumer_sync(&m, &c) == KEYCOUNT_BAD_ARGUMENT);
    EXPECT(keycount_consumer_poll(&m, &c, 0, 1, &from, &count) == KEYCOUNT_BAD_ARGUMENT);
    EXPECT(keycount_consumer_free(&m) == KEYCOUNT_DONE);
    EXPECT(keycount_consumer_new(&m, 4) == KEYCOUNT_DONE);
    EXPECT(keycount_consumer_sync(&m, &c) == KEYCOUNT_OUT_OF_GROUP);
    EXPECT(keycount_consumer_rejoin(&m, &c) == KEYCOUNT_OUT_OF_GROUP);
    EXPECT(keycount_consumer_poll(&m, &c, 2, 2, &from, &count) == KEYCOUNT_OUT_OF_GROUP);

    for (int i = 0; i < 3; i++)
        EXPECT(keycount_cluster_append(&c, 0, TEXT("foobar"), &partition, &offset)
               == KEYCOUNT_DONE);
    EXPECT(keycount_cluster_join(&c, TEXT("A"), &member) == KEYCOUNT_DONE);
    EXPECT(keycount_consumer_joined(&m, member) == KEYCOUNT_DONE);
    EXPECT(keycount_consumer_member(&m, &out) == KEYCOUNT_DONE && out == member);
    EXPECT(keycount_consumer_poll(&m, &c, 2, 2, &from, &count) == KEYCOUNT_NOT_HELD);
    EXPECT(keycount_consumer_generation(&m, &out) == KEYCOUNT_DONE && out == 0);
    EXPECT(keycount_consumer_holding(&m, keys, 0, &n) == KEYCOUNT_DONE && n == 0);
    EXPECT(keycount_consumer_sync(&m, &c) == KEYCOUNT_DONE);
    EXPECT(keycount_consumer_generation(&m, &out) == KEYCOUNT_DONE && out == 1);
    EXPECT(keycount_consumer_holding(&m, keys, 3, &n) == KEYCOUNT_TOO_SHORT && n == 4);
    EXPECT(keycount_consumer_holding(&m, keys, 4, &n) == KEYCOUNT_DONE && n == 4);
    EXPECT(keys[0] == 0 && keys[3] == 3);
    EXPECT(keycount_consumer_rejoin(&m, &c) == KEYCOUNT_NOTHING_TO_GIVE);
    EXPECT(keycount_consumer_pending(&m, 2, &out, &generation, &from, &to)
           == KEYCOUNT_EMPTY_COMMIT);
    EXPECT(keycount_consumer_poll(&m, &c, 2, 2, &from, &count) == KEYCOUNT_DONE);
    EXPECT(from == 0 && count == 2);
    EXPECT(keycount_consumer_poll(&m, &c, 2, 2, &from, &count) == KEYCOUNT_DONE);
    EXPECT(from == 2 && count == 1);
    EXPECT(keycount_consumer_pending(&m, 2, &out, &generation, &from, &to) == KEYCOUNT_DONE);
    EXPECT(out == member && generation == 1 && from == 0 && to == 3);
    EXPECT(keycount_consumer_base(&m, 2, &out) == KEYCOUNT_DONE && out == 0);
    EXPECT(keycount_consumer_position(&m, 2, &out) == KEYCOUNT_DONE && out == 3);

    /* The reply to the first commit is lost; that to the second tells of it. */
    EXPECT(keycount_cluster_read(&c, 2, from, keys, to - from, &n) == KEYCOUNT_DONE && n == 3);
    EXPECT(keycount_cluster_commit(&c, member, 1, 2, 0, keys, 3, &out) == KEYCOUNT_DONE);
    uint32_t answer = keycount_cluster_commit(&c, member, 1, 2, 0, keys, 3, &out);
    EXPECT(answer == KEYCOUNT_OFFSET_MISMATCH);
    EXPECT(keycount_consumer_answered(&m, 2, answer, out) == KEYCOUNT_DONE);
    EXPECT(keycount_consumer_base(&m, 2, &out) == KEYCOUNT_DONE && out == 3);
    EXPECT(keycount_consumer_pending(&m, 2, &out, &generation, &from, &to)
           == KEYCOUNT_EMPTY_COMMIT);

    /* Another joins: it is assigned half of them, and holds them all until it gives up. */
    EXPECT(keycount_cluster_join(&c, TEXT("B"), &out) == KEYCOUNT_DONE);
    EXPECT(keycount_consumer_rejoin(&m, &c) == KEYCOUNT_DONE);
    EXPECT(keycount_consumer_sync(&m, &c) == KEYCOUNT_DONE);
    EXPECT(keycount_consumer_holding(&m, keys, 4, &n) == KEYCOUNT_DONE && n == 4);
    EXPECT(keycount_consumer_give_up(&m) == KEYCOUNT_DONE);
    EXPECT(keycount_consumer_holding(&m, keys, 4, &n) == KEYCOUNT_DONE && n == 2);
    EXPECT(keys[0] == 0 && keys[1] == 1);
    EXPECT(keycount_cluster_lose(&c, member) == KEYCOUNT_DONE);
    EXPECT(keycount_consumer_sync(&m, &c) == KEYCOUNT_UNKNOWN_MEMBER);
    EXPECT(keycount_consumer_answered(&m, 2, KEYCOUNT_UNKNOWN_MEMBER, 0) == KEYCOUNT_DONE);
    EXPECT(keycount_consumer_member(&m, &out) == KEYCOUNT_DONE && out == 0);
    EXPECT(keycount_consumer_drop_all(&m) == KEYCOUNT_DONE);
    EXPECT(keycount_consumer_free(&m) == KEYCOUNT_DONE);
    EXPECT(keycount_cluster_free(&c) == KEYCOUNT_DONE);
}

/* The hashes are of Kafka's own tests. */
static void keys_have_their_places(void) {
    uint32_t partition = 77;
    EXPECT(keycount_murmur2(TEXT("21")) == (uint32_t)-973932308);
    EXPECT(keycount_murmur2(TEXT("foobar")) == (uint32_t)-790332482);
    EXPECT(keycount_murmur2(TEXT("a-little-bit-long-string")) == (uint32_t)-985981536);
    EXPECT(keycount_place(0, TEXT("21"), &partition) == KEYCOUNT_BAD_ARGUMENT);
    EXPECT(keycount_place(4097, TEXT("21"), &partition) == KEYCOUNT_BAD_ARGUMENT);
    EXPECT(partition == 77);
    EXPECT(keycount_place(4, TEXT("foobar"), &partition) == KEYCOUNT_DONE && partition == 2);
    EXPECT(keycount_place(4096, TEXT("foobar"), &partition) == KEYCOUNT_DONE);
    EXPECT(partition == 1357151166 % 4096);

    const size_t ends[3] = {6, 6, 8}, falling[3] = {6, 5, 8}, past[3] = {6, 6, 9};
    uint32_t places[4] = {7, 7, 7, 7};
    EXPECT(keycount_place_all(0, TEXT("foobar21"), ends, 3, places, 4) == KEYCOUNT_BAD_ARGUMENT);
    EXPECT(keycount_place_all(4, TEXT("foobar21"), falling, 3, places, 4) == KEYCOUNT_BAD_ARGUMENT);
    EXPECT(keycount_place_all(4, TEXT("foobar21"), past, 3, places, 4) == KEYCOUNT_BAD_ARGUMENT);
    EXPECT(keycount_place_all(4, TEXT("foobar21"), ends, 3, places, 2) == KEYCOUNT_BAD_ARGUMENT);
    EXPECT(places[0] == 7 && places[2] == 7);
    EXPECT(keycount_place_all(4, TEXT("foobar21"), ends, 3, places, 4) == KEYCOUNT_DONE);
    /* The hash of no bytes is 275646681, as Kafka's own test has it. */
    EXPECT(places[0] == 2 && places[1] == 275646681 % 4 && places[2] == 0 && places[3] == 7);
}

/* Two of six partitions each: 5 keeps its lowest two, 2 its only one. The free ones, which 5 gives
 * up or 7 has left, go to 2 and then to 9, in rising order. What 5 still owns is withheld. */
static void partitions_are_assigned_and_withheld(void) {
    const uint32_t members[3] = {2, 5, 9}, falling[3] = {2, 9, 5}, from_none[3] = {0, 5, 9};
    const uint32_t owners[6] = {5, 5, 5, 5, 7, 2}, fair[6] = {5, 5, 2, 9, 9, 2};
    const uint32_t first[6] = {5, 5, 0, 0, 9, 2};
    static const uint32_t many[4097];
    static uint32_t wide[4097];
    uint32_t out[7] = {77, 77, 77, 77, 77, 77, 77}, more[6];
    EXPECT(keycount_assign(members, 0, owners, 6, out, 7) == KEYCOUNT_BAD_ARGUMENT);
    EXPECT(keycount_assign(falling, 3, owners, 6, out, 7) == KEYCOUNT_BAD_ARGUMENT);
    EXPECT(keycount_assign(from_none, 3, owners, 6, out, 7) == KEYCOUNT_BAD_ARGUMENT);
    EXPECT(keycount_assign(members, 3, owners, 0, out, 7) == KEYCOUNT_BAD_ARGUMENT);
    EXPECT(keycount_assign(members, 3, owners, 6, out, 5) == KEYCOUNT_BAD_ARGUMENT);
    EXPECT(keycount_assign(members, 3, many, 4097, wide, 4097) == KEYCOUNT_BAD_ARGUMENT);
    EXPECT(keycount_withhold(members, 3, fair, 5, owners, 6, out, 7) == KEYCOUNT_BAD_ARGUMENT);
    EXPECT(keycount_withhold(falling, 3, fair, 6, owners, 6, out, 7) == KEYCOUNT_BAD_ARGUMENT);
    EXPECT(keycount_withhold(members, 3, fair, 6, owners, 6, out, 5) == KEYCOUNT_BAD_ARGUMENT);
    EXPECT(out[0] == 77 && out[5] == 77 && wide[0] == 0);

    EXPECT(keycount_assign(members, 3, owners, 6, out, 7) == KEYCOUNT_DONE);
    EXPECT(memcmp(out, fair, sizeof fair) == 0 && out[6] == 77);
    EXPECT(keycount_withhold(members, 3, fair, 6, owners, 6, out, 7) == KEYCOUNT_DONE);
    EXPECT(memcmp(out, first, sizeof first) == 0 && out[6] == 77);
    /* Once 5 has given them up: the same target, and nothing is withheld. */
    EXPECT(keycount_assign(members, 3, first, 6, out, 6) == KEYCOUNT_DONE);
    EXPECT(memcmp(out, fair, sizeof fair) == 0);
    EXPECT(keycount_withhold(members, 3, out, 6, first, 6, more, 6) == KEYCOUNT_DONE);
    EXPECT(memcmp(more, fair, sizeof fair) == 0);

    EXPECT(keycount_assign(members, 3, many, 4096, wide, 4097) == KEYCOUNT_DONE);
    EXPECT(wide[0] == 2 && wide[1365] == 2 && wide[1366] == 5 && wide[4095] == 9);
}

int main(void) {
    keys_have_their_places();
    partitions_are_assigned_and_withheld();
    an_empty_handle_answers_so_and_writes_nothing();
    arguments_are_tested();
    records_are_appended_and_read();
    partitions_move_when_they_are_given_up();
    a_static_member_comes_back();
    a_commit_counts_once();
    a_consumer_follows_its_group();
    return 0;
}
