/* Workers that count the keys of records, while members are lost and old commits come again. At the
 * end each record has been counted once.
 *
 * Copy the loop of `work` to begin with: it is all that a member does. */
#include "keycount.h"

#include <inttypes.h>
#include <pthread.h>
#include <sched.h>
#include <stdbool.h>
#include <stdio.h>
#include <stdlib.h>
#include <string.h>
#include <time.h>

enum { PARTITIONS = 12, RECORDS = 20000, KEYS = 257, WORKERS = 4, LOSSES = 40, BATCH = 25 };

/* A commit as it was sent. */
struct commit {
    uint32_t member, generation, partition, offset;
    uint32_t keys[BATCH];
    size_t count;
};

/* A member, with its lease. */
struct worker {
    uint32_t member, generation;
    uint32_t partitions[PARTITIONS], offsets[PARTITIONS];
    size_t leased;
};

static keycount_cluster cluster = KEYCOUNT_NONE;
static pthread_mutex_t lock = PTHREAD_MUTEX_INITIALIZER; /* of all of these */
static struct commit *sent;
static size_t sent_count;
static unsigned names;

static void expect(bool holds, const char *what) {
    if (holds) return;
    fprintf(stderr, "%s\n", what);
    exit(1);
}

/* Each function that ends in _locked is called with the lock. */
static void join_locked(struct worker *w) {
    char name[33];
    int len = snprintf(name, sizeof name, "worker-%u", names++);
    uint32_t answer = keycount_cluster_join(&cluster, (const uint8_t *)name, (size_t)len, &w->member);
    expect(answer == KEYCOUNT_DONE, "a worker cannot join");
    w->leased = 0;
}

static bool is_done_locked(void) {
    for (uint32_t p = 0; p < PARTITIONS; p++) {
        uint32_t committed, end;
        expect(keycount_cluster_committed(&cluster, p, &committed) == KEYCOUNT_DONE, "committed");
        expect(keycount_cluster_end(&cluster, p, &end) == KEYCOUNT_DONE, "end");
        if (committed < end) return false;
    }
    return true;
}

static uint32_t send_locked(const struct commit *c, uint32_t *committed) {
    return keycount_cluster_commit(&cluster, c->member, c->generation, c->partition, c->offset,
                                   c->keys, c->count, committed);
}

/* Reads some records of one leased partition and commits them. */
static uint32_t read_one(struct worker *w, size_t i) {
    struct commit c = {.member = w->member,
                       .generation = w->generation,
                       .partition = w->partitions[i],
                       .offset = w->offsets[i]};
    pthread_mutex_lock(&lock);
    uint32_t answer =
        keycount_cluster_read(&cluster, c.partition, c.offset, c.keys, BATCH, &c.count);
    pthread_mutex_unlock(&lock);
    if (answer != KEYCOUNT_DONE || c.count == 0) return answer;
    /* Here a worker does its work, without the lock. */
    pthread_mutex_lock(&lock);
    struct commit *grown = realloc(sent, (sent_count + 1) * sizeof *sent);
    expect(grown != NULL, "out of memory");
    sent = grown;
    sent[sent_count++] = c;
    answer = send_locked(&c, &w->offsets[i]); /* the committed offset, also of a mismatch */
    pthread_mutex_unlock(&lock);
    return answer == KEYCOUNT_OFFSET_MISMATCH ? KEYCOUNT_DONE : answer;
}

static uint32_t read_all(struct worker *w) {
    for (size_t i = 0; i < w->leased; i++) {
        uint32_t answer = read_one(w, i);
        if (answer != KEYCOUNT_DONE) return answer;
    }
    sched_yield();
    return KEYCOUNT_DONE;
}

/* What the group asks of a member next, done. */
static uint32_t step(struct worker *w) {
    uint32_t next, answer = KEYCOUNT_DONE;
    pthread_mutex_lock(&lock);
    expect(keycount_cluster_next_step(&cluster, w->member, &next) == KEYCOUNT_DONE, "next step");
    if (next == KEYCOUNT_SYNC) {
        answer = keycount_cluster_sync(&cluster, w->member, &w->generation, w->partitions,
                                       PARTITIONS, w->offsets, PARTITIONS, &w->leased);
    } else if (next == KEYCOUNT_REJOIN) {
        answer = keycount_cluster_rejoin(&cluster, w->member, w->generation, w->partitions,
                                         w->leased);
    }
    pthread_mutex_unlock(&lock);
    return next == KEYCOUNT_READ ? read_all(w) : answer;
}

/* One member: it follows its group, and reads and commits what it is leased. */
static void *work(void *unused) {
    struct worker w = {0};
    (void)unused;
    pthread_mutex_lock(&lock);
    join_locked(&w);
    while (!is_done_locked()) {
        pthread_mutex_unlock(&lock);
        uint32_t answer = step(&w);
        pthread_mutex_lock(&lock);
        switch (answer) {
        case KEYCOUNT_DONE:
        case KEYCOUNT_STALE_GENERATION: /* somebody was faster: ask again for the next step */
        case KEYCOUNT_NOT_OWNER:
            break;
        case KEYCOUNT_UNKNOWN_MEMBER: /* taken for lost; others read again what it did not commit */
            join_locked(&w);
            break;
        default:
            expect(false, "a step was refused");
        }
    }
    pthread_mutex_unlock(&lock);
    return NULL;
}

/* Loses a member again and again, and sends old commits once more. */
static void disturb(void) {
    unsigned random = 1;
    for (int i = 0; i < LOSSES; i++) {
        nanosleep(&(struct timespec){.tv_nsec = 1000000}, NULL);
        random = random * 1103515245 + 12345;
        uint32_t members[WORKERS], committed;
        size_t count;
        pthread_mutex_lock(&lock);
        expect(keycount_cluster_members(&cluster, members, WORKERS, &count) == KEYCOUNT_DONE,
               "members");
        if (count > 0)
            expect(keycount_cluster_lose(&cluster, members[(random >> 16) % count])
                       == KEYCOUNT_DONE,
                   "lose");
        /* It is refused, unless it was late and is still due: then it counts, and only then. */
        if (sent_count > 0) send_locked(&sent[(random >> 8) % sent_count], &committed);
        pthread_mutex_unlock(&lock);
    }
}

int main(void) {
    const uint32_t partitions = PARTITIONS;
    const uint8_t seed[32] = {7};
    uint64_t plain[KEYS] = {0};
    expect(keycount_cluster_new(&cluster, &partitions, 1, seed, sizeof seed) == KEYCOUNT_DONE,
           "a cluster");
    for (unsigned i = 0; i < RECORDS; i++) {
        char key[32];
        uint32_t partition, offset;
        int len = snprintf(key, sizeof key, "%u", i * i % KEYS);
        expect(keycount_cluster_append(&cluster, 0, (const uint8_t *)key, (size_t)len, &partition,
                                       &offset)
                   == KEYCOUNT_DONE,
               "append");
        plain[i * i % KEYS]++;
    }
    pthread_t workers[WORKERS];
    for (int i = 0; i < WORKERS; i++)
        expect(pthread_create(&workers[i], NULL, work, NULL) == 0, "a thread");
    disturb();
    for (int i = 0; i < WORKERS; i++) pthread_join(workers[i], NULL);

    uint32_t keys, generation;
    expect(keycount_cluster_keys(&cluster, &keys) == KEYCOUNT_DONE, "keys");
    for (uint32_t number = 0; number < keys; number++) {
        char key[32] = {0};
        size_t len;
        uint64_t count;
        expect(keycount_cluster_key(&cluster, number, (uint8_t *)key, sizeof key - 1, &len)
                   == KEYCOUNT_DONE,
               "key");
        expect(keycount_cluster_count(&cluster, number, &count) == KEYCOUNT_DONE, "count");
        expect(count == plain[atoi(key)], "a count differs from the plain one");
    }
    expect(keycount_cluster_generation(&cluster, &generation) == KEYCOUNT_DONE, "generation");
    printf("%" PRIu32 " keys counted once, in generation %" PRIu32 "\n", keys, generation);
    free(sent);
    return keycount_cluster_free(&cluster) == KEYCOUNT_DONE ? 0 : 1;
}
