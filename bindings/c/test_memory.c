/* Each allocation fails in turn, in each call that allocates: the call is done all the same, or returns
 * 90 with the cluster as it was. Link with --wrap for malloc and realloc. */
#include "keycount.h"

#include <stdio.h>
#include <stdlib.h>
#include <string.h>

#define EXPECT(holds)                                                            \
    do {                                                                         \
        if (!(holds)) {                                                          \
            fprintf(stderr, "test_memory.c:%d: not so: %s\n", __LINE__, #holds); \
            exit(1);                                                             \
        }                                                                        \
    } while (0)

void *__real_malloc(size_t size);
void *__real_realloc(void *block, size_t size);

static long left = -1; /* how many allocations succeed before the one that fails; -1: none fails */
static unsigned long refusals;

static int fails(void) {
    if (left < 0) return 0;
    if (left > 0) {
        left--;
        return 0;
    }
    left = -1;
    return 1;
}

void *__wrap_malloc(size_t size) {
    return fails() ? NULL : __real_malloc(size);
}

void *__wrap_realloc(void *block, size_t size) {
    return fails() ? NULL : __real_realloc(block, size);
}

/* Makes a call with its first allocation failing, then the second, and so on, until it is done: it may
 * be done without an allocation that failed. */
#define EACH_FAILS(call, unchanged)                   \
    do {                                              \
        for (long n = 0;; n++) {                      \
            left = n;                                 \
            uint32_t answer = (call);                 \
            left = -1;                                \
            if (answer == KEYCOUNT_DONE) break;       \
            EXPECT(answer == KEYCOUNT_OUT_OF_MEMORY); \
            EXPECT(unchanged);                        \
            refusals++;                               \
        }                                             \
    } while (0)

enum { PARTITIONS = 5, KEYS = 300 };

/* What of a cluster can change. */
struct look {
    uint32_t generation, phase, keys, ends[PARTITIONS], committed[PARTITIONS], owners[PARTITIONS];
    uint32_t members[4];
    size_t count;
};

static struct look look(keycount_cluster *c) {
    struct look l;
    memset(&l, 0, sizeof l);
    EXPECT(keycount_cluster_generation(c, &l.generation) == KEYCOUNT_DONE);
    EXPECT(keycount_cluster_phase(c, &l.phase) == KEYCOUNT_DONE);
    EXPECT(keycount_cluster_keys(c, &l.keys) == KEYCOUNT_DONE);
    EXPECT(keycount_cluster_members(c, l.members, 4, &l.count) == KEYCOUNT_DONE);
    for (uint32_t p = 0; p < PARTITIONS; p++) {
        EXPECT(keycount_cluster_end(c, p, &l.ends[p]) == KEYCOUNT_DONE);
        EXPECT(keycount_cluster_committed(c, p, &l.committed[p]) == KEYCOUNT_DONE);
        EXPECT(keycount_cluster_owner(c, p, &l.owners[p]) == KEYCOUNT_DONE);
    }
    return l;
}

static int same(keycount_cluster *c, const struct look *before) {
    struct look now = look(c);
    return memcmp(&now, before, sizeof now) == 0;
}

/* What of a consumer can change. */
struct held {
    uint32_t member, generation, partitions[PARTITIONS], bases[PARTITIONS], positions[PARTITIONS];
    size_t count;
};

static struct held held(keycount_consumer *m) {
    struct held h;
    memset(&h, 0, sizeof h);
    EXPECT(keycount_consumer_member(m, &h.member) == KEYCOUNT_DONE);
    EXPECT(keycount_consumer_generation(m, &h.generation) == KEYCOUNT_DONE);
    EXPECT(keycount_consumer_holding(m, h.partitions, PARTITIONS, &h.count) == KEYCOUNT_DONE);
    for (uint32_t p = 0; p < PARTITIONS; p++) {
        EXPECT(keycount_consumer_base(m, p, &h.bases[p]) == KEYCOUNT_DONE);
        EXPECT(keycount_consumer_position(m, p, &h.positions[p]) == KEYCOUNT_DONE);
    }
    return h;
}

static int as_held(keycount_consumer *m, const struct held *before) {
    struct held now = held(m);
    return memcmp(&now, before, sizeof now) == 0;
}

/* A consumer begins, takes its lease, rejoins and is lost: both it and its cluster, or neither. */
static void a_consumer_is_as_it_was(void) {
    keycount_cluster c = KEYCOUNT_NONE;
    keycount_consumer m = KEYCOUNT_NONE;
    const uint32_t partitions = PARTITIONS;
    const uint8_t seed[32] = {1};
    uint32_t a, b, p, offset, from, count;
    struct look before;
    struct held had;

    EXPECT(keycount_cluster_new(&c, &partitions, 1, seed, 32) == KEYCOUNT_DONE);
    EXPECT(keycount_cluster_append(&c, 0, (const uint8_t *)"k", 1, &p, &offset) == KEYCOUNT_DONE);
    unsigned long made = refusals;
    EACH_FAILS(keycount_consumer_new(&m, PARTITIONS), m.at == NULL);
    EXPECT(refusals > made);
    EXPECT(keycount_cluster_join(&c, (const uint8_t *)"A", 1, &a) == KEYCOUNT_DONE);
    had = held(&m);
    EACH_FAILS(keycount_consumer_joined(&m, a), as_held(&m, &had));
    before = look(&c);
    had = held(&m);
    EACH_FAILS(keycount_consumer_sync(&m, &c), same(&c, &before) && as_held(&m, &had));
    had = held(&m);
    EACH_FAILS(keycount_consumer_poll(&m, &c, p, 9, &from, &count),
               same(&c, &before) && as_held(&m, &had));
    EXPECT(from == 0 && count == 1);
    EXPECT(keycount_cluster_join(&c, (const uint8_t *)"B", 1, &b) == KEYCOUNT_DONE);
    before = look(&c);
    had = held(&m);
    made = refusals;
    EACH_FAILS(keycount_consumer_rejoin(&m, &c), same(&c, &before) && as_held(&m, &had));
    EXPECT(refusals > made);
    before = look(&c);
    had = held(&m);
    EACH_FAILS(keycount_consumer_sync(&m, &c), same(&c, &before) && as_held(&m, &had));
    had = held(&m);
    EACH_FAILS(keycount_consumer_give_up(&m), as_held(&m, &had));
    had = held(&m);
    EXPECT(had.member == a && had.generation == 2 && had.count == 3);
    EACH_FAILS(keycount_consumer_drop_all(&m), as_held(&m, &had));

    /* C alone has joined this rebalance: once the others are lost, it is complete. */
    EXPECT(keycount_cluster_join(&c, (const uint8_t *)"C", 1, &p) == KEYCOUNT_DONE);
    EXPECT(keycount_cluster_lose(&c, b) == KEYCOUNT_DONE);
    before = look(&c);
    made = refusals;
    EACH_FAILS(keycount_cluster_lose(&c, a), same(&c, &before));
    EXPECT(refusals > made);
    EXPECT(keycount_consumer_free(&m) == KEYCOUNT_DONE);
    EXPECT(keycount_cluster_free(&c) == KEYCOUNT_DONE);
}

/* The lists of owners need memory for their rows. */
static void an_assignment_is_written_whole_or_not(void) {
    const uint32_t members[2] = {1, 2}, owners[4] = {1, 1, 1, 1}, untouched[4] = {7, 7, 7, 7};
    const uint32_t fair[4] = {1, 1, 2, 2}, first[4] = {1, 1, 0, 0};
    uint32_t out[4] = {7, 7, 7, 7};
    unsigned long made = refusals;
    EACH_FAILS(keycount_assign(members, 2, owners, 4, out, 4),
               memcmp(out, untouched, sizeof out) == 0);
    EXPECT(refusals > made && memcmp(out, fair, sizeof out) == 0);
    memcpy(out, untouched, sizeof out);
    made = refusals;
    EACH_FAILS(keycount_withhold(members, 2, fair, 4, owners, 4, out, 4),
               memcmp(out, untouched, sizeof out) == 0);
    EXPECT(refusals > made && memcmp(out, first, sizeof out) == 0);
}

int main(void) {
    a_consumer_is_as_it_was();
    an_assignment_is_written_whole_or_not();
    refusals = 0;
    keycount_cluster c = KEYCOUNT_NONE;
    const uint32_t topics[2] = {2, 3};
    const uint8_t seed[32] = {1};
    uint32_t a, b, out, offset, generation, partitions[PARTITIONS], offsets[PARTITIONS];
    uint32_t keys[KEYS];
    size_t count, leased;
    struct look before;

    EACH_FAILS(keycount_cluster_new(&c, topics, 2, seed, 32), c.at == NULL);
    for (int i = 0; i < KEYS; i++) {
        char key[16];
        size_t len = (size_t)snprintf(key, sizeof key, "key-%d", i);
        before = look(&c);
        EACH_FAILS(keycount_cluster_append(&c, 1, (const uint8_t *)key, len, &out, &offset),
                   same(&c, &before));
    }
    before = look(&c);
    EACH_FAILS(keycount_cluster_join_kept(&c, (const uint8_t *)"A", 1, &a), same(&c, &before));
    before = look(&c);
    EACH_FAILS(keycount_cluster_join(&c, (const uint8_t *)"B", 1, &b), same(&c, &before));
    before = look(&c);
    EACH_FAILS(keycount_cluster_sync(&c, a, &generation, partitions, PARTITIONS, offsets,
                                     PARTITIONS, &leased),
               same(&c, &before));
    before = look(&c);
    EACH_FAILS(keycount_cluster_rejoin(&c, a, generation, partitions, leased), same(&c, &before));
    before = look(&c);
    EACH_FAILS(keycount_cluster_take_over(&c, (const uint8_t *)"A", 1, &a), same(&c, &before));
    before = look(&c);
    EACH_FAILS(keycount_cluster_leave(&c, b), same(&c, &before));
    /* Alone again, it gives up what B was to get, and then gets it back. */
    EXPECT(keycount_cluster_sync(&c, a, &generation, partitions, PARTITIONS, offsets, PARTITIONS,
                                 &leased)
           == KEYCOUNT_DONE);
    EXPECT(leased < PARTITIONS);
    before = look(&c);
    EACH_FAILS(keycount_cluster_rejoin(&c, a, generation, partitions, leased), same(&c, &before));
    EXPECT(keycount_cluster_sync(&c, a, &generation, partitions, PARTITIONS, offsets, PARTITIONS,
                                 &leased)
           == KEYCOUNT_DONE);
    EXPECT(leased == PARTITIONS);
    for (size_t i = 0; i < leased; i++) {
        uint32_t p = partitions[i];
        EXPECT(keycount_cluster_read(&c, p, 0, keys, KEYS, &count) == KEYCOUNT_DONE);
        if (count == 0) continue;
        before = look(&c);
        EACH_FAILS(keycount_cluster_commit(&c, a, generation, p, 0, keys, count, &offset),
                   same(&c, &before));
        EXPECT(offset == count);
    }
    for (uint32_t number = 0; number < KEYS; number++) {
        uint64_t committed;
        EXPECT(keycount_cluster_count(&c, number, &committed) == KEYCOUNT_DONE && committed == 1);
    }
    EXPECT(refusals > 30);
    return keycount_cluster_free(&c) == KEYCOUNT_DONE ? 0 : 1;
}
