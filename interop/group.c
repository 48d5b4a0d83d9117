/* group: a consumer group of librdkafka over a topic of its mock cluster, on this machine's loopback.
 *
 *     group PARTITIONS PARTITIONER STEP.. < KEYS
 *
 * KEYS has a key per line. A STEP is +NAME, a member that joins, or -NAME, one that leaves. Each step waits until
 * every partition has one owner and no two members differ by more than one partition. Then the next part of the
 * keys is produced, of as many parts as there are steps, and the members read it and commit what they read.
 *
 * Rows on standard output:
 *     place,RECORD,PARTITION       where the producer put a record; records count from 0
 *     owner,STEP,PARTITION,NAME    who owns a partition after a step; steps count from 0
 *     read,RECORD                  a record that a member read, in any order
 *     end,PARTITION,OFFSET         the end of a partition's log
 */
#include <librdkafka/rdkafka.h>
#include <librdkafka/rdkafka_mock.h>
#include <stdio.h>
#include <stdlib.h>
#include <string.h>
#include <time.h>

enum { MOST_MEMBERS = 64, MOST_PARTITIONS = 4096, POLL_MS = 5, MOST_SECONDS = 120 };

static const char *TOPIC = "keys";

struct member {
    char name[64];
    rd_kafka_t *consumer;
    char owns[MOST_PARTITIONS];
};

static struct member members[MOST_MEMBERS];
static int member_count;
static int partitions;
static long produced, placed, read_count;

static void fail(const char *what, const char *why) {
    fprintf(stderr, "group: %s: %s\n", what, why);
    exit(1);
}

/* Sets pairs of a name and a value, up to a NULL. */
static rd_kafka_conf_t *configured(const char *const *pairs) {
    rd_kafka_conf_t *conf = rd_kafka_conf_new();
    char error[512];
    for (; *pairs; pairs += 2)
        if (rd_kafka_conf_set(conf, pairs[0], pairs[1], error, sizeof error) != RD_KAFKA_CONF_OK)
            fail(pairs[0], error);
    return conf;
}

static rd_kafka_t *started(rd_kafka_type_t type, rd_kafka_conf_t *conf) {
    char error[512];
    rd_kafka_t *handle = rd_kafka_new(type, conf, error, sizeof error);
    if (!handle)
        fail("rd_kafka_new", error);
    return handle;
}

static void on_delivered(rd_kafka_t *producer, const rd_kafka_message_t *message, void *opaque) {
    (void)producer;
    (void)opaque;
    if (message->err)
        fail("a record was not delivered", rd_kafka_err2str(message->err));
    printf("place,%ld,%d\n", (long)(size_t)message->_private, (int)message->partition);
    placed++;
}

static void set_owned(struct member *member, const rd_kafka_topic_partition_list_t *list, char owned) {
    for (int i = 0; i < list->cnt; i++)
        member->owns[list->elems[i].partition] = owned;
}

static void on_rebalance(rd_kafka_t *consumer, rd_kafka_resp_err_t event, rd_kafka_topic_partition_list_t *list,
                         void *opaque) {
    struct member *member = opaque;
    rd_kafka_error_t *error;
    if (event == RD_KAFKA_RESP_ERR__ASSIGN_PARTITIONS) {
        error = rd_kafka_incremental_assign(consumer, list);
        set_owned(member, list, 1);
    } else {
        error = rd_kafka_incremental_unassign(consumer, list);
        set_owned(member, list, 0);
    }
    if (error)
        fail("rebalance", rd_kafka_error_string(error));
}

static void join(const char *servers, const char *name) {
    if (member_count == MOST_MEMBERS)
        fail(name, "too many members");
    struct member *member = &members[member_count++];
    memset(member, 0, sizeof *member);
    snprintf(member->name, sizeof member->name, "%s", name);
    const char *const pairs[] = {"bootstrap.servers", servers, "group.id", "group", "client.id", name,
        "partition.assignment.strategy", "cooperative-sticky", "auto.offset.reset", "earliest",
        "enable.auto.commit", "false", "heartbeat.interval.ms", "50", "session.timeout.ms", "6000",
        "fetch.wait.max.ms", "20", "log_level", "3", NULL};
    rd_kafka_conf_t *conf = configured(pairs);
    rd_kafka_conf_set_rebalance_cb(conf, on_rebalance);
    rd_kafka_conf_set_opaque(conf, member);
    member->consumer = started(RD_KAFKA_CONSUMER, conf);
    rd_kafka_poll_set_consumer(member->consumer);
    rd_kafka_topic_partition_list_t *topics = rd_kafka_topic_partition_list_new(1);
    rd_kafka_topic_partition_list_add(topics, TOPIC, RD_KAFKA_PARTITION_UA);
    rd_kafka_resp_err_t error = rd_kafka_subscribe(member->consumer, topics);
    if (error)
        fail("subscribe", rd_kafka_err2str(error));
    rd_kafka_topic_partition_list_destroy(topics);
}

static void leave(const char *name) {
    int i = 0;
    while (i < member_count && (!members[i].consumer || strcmp(members[i].name, name)))
        i++;
    if (i == member_count)
        fail(name, "is not a member");
    rd_kafka_consumer_close(members[i].consumer);
    rd_kafka_destroy(members[i].consumer);
    members[i].consumer = NULL;
}

/* Lets each member handle an event or a record, and its group know that it is alive. */
static void poll_members(void) {
    for (int i = 0; i < member_count; i++) {
        if (!members[i].consumer)
            continue;
        rd_kafka_message_t *message = rd_kafka_consumer_poll(members[i].consumer, POLL_MS);
        for (; message; message = rd_kafka_consumer_poll(members[i].consumer, 0)) {
            if (!message->err) {
                printf("read,%.*s\n", (int)message->len, (const char *)message->payload);
                read_count++;
            }
            rd_kafka_message_destroy(message);
        }
    }
}

/* The index of a partition's only owner, or -1. */
static int owner_of(int partition) {
    int owner = -1;
    for (int i = 0; i < member_count; i++)
        if (members[i].consumer && members[i].owns[partition]) {
            if (owner >= 0)
                return -1;
            owner = i;
        }
    return owner;
}

static int is_balanced(void) {
    int owned[MOST_MEMBERS] = {0};
    for (int p = 0; p < partitions; p++) {
        int owner = owner_of(p);
        if (owner < 0)
            return 0;
        owned[owner]++;
    }
    int least = partitions, most = 0;
    for (int i = 0; i < member_count; i++)
        if (members[i].consumer) {
            least = owned[i] < least ? owned[i] : least;
            most = owned[i] > most ? owned[i] : most;
        }
    return most - least <= 1;
}

/* Whether the first of these conditions fails, after a poll of all members; gives up after a while. */
static int waits(int is_done, const char *step, const char *missing, time_t until) {
    if (is_done)
        return 0;
    if (time(NULL) > until)
        fail(step, missing);
    poll_members();
    return 1;
}

static time_t deadline(void) {
    return time(NULL) + MOST_SECONDS;
}

/* A member can commit once its own part of a rebalance is over, too. */
static void commit(struct member *member, const char *step) {
    time_t until = deadline();
    rd_kafka_resp_err_t error;
    do {
        error = rd_kafka_commit(member->consumer, NULL, 0);
    } while (waits(!error || error == RD_KAFKA_RESP_ERR__NO_OFFSET, step, rd_kafka_err2str(error), until));
}

/* Produces the keys of the next lines. */
static void produce(rd_kafka_t *producer, char **keys, long from, long to) {
    for (long i = from; i < to; i++) {
        char number[32];
        int length = snprintf(number, sizeof number, "%ld", i);
        rd_kafka_resp_err_t error = rd_kafka_producev(producer, RD_KAFKA_V_TOPIC(TOPIC),
            RD_KAFKA_V_KEY(keys[i], strlen(keys[i])), RD_KAFKA_V_VALUE(number, (size_t)length),
            RD_KAFKA_V_MSGFLAGS(RD_KAFKA_MSG_F_COPY), RD_KAFKA_V_OPAQUE((void *)(size_t)i), RD_KAFKA_V_END);
        if (error)
            fail("produce", rd_kafka_err2str(error));
        rd_kafka_poll(producer, 0);
    }
    produced = to;
    if (rd_kafka_flush(producer, MOST_SECONDS * 1000) || placed < produced)
        fail("flush", "not all records were delivered");
}

/* The lines of standard input, and how many there are. */
static char **lines(long *count) {
    long room = 1024;
    char **found = malloc((size_t)room * sizeof *found), *line = NULL;
    size_t size = 0;
    ssize_t length;
    *count = 0;
    while (found && (length = getline(&line, &size, stdin)) > 0) {
        if (line[length - 1] == '\n')
            line[length - 1] = 0;
        if (*count == room)
            found = realloc(found, (size_t)(room *= 2) * sizeof *found);
        if (found)
            found[(*count)++] = strdup(line);
    }
    free(line);
    if (!found)
        fail("keys", "out of memory");
    return found;
}

static void print_ends(rd_kafka_t *producer) {
    for (int p = 0; p < partitions; p++) {
        int64_t low, high;
        rd_kafka_resp_err_t error = rd_kafka_query_watermark_offsets(producer, TOPIC, p, &low, &high, 10000);
        if (error)
            fail("watermarks", rd_kafka_err2str(error));
        printf("end,%d,%lld\n", p, (long long)high);
    }
}

int main(int argc, char **argv) {
    if (argc < 4)
        fail("usage", "group PARTITIONS PARTITIONER STEP.. < KEYS");
    partitions = atoi(argv[1]);
    if (partitions < 1 || partitions > MOST_PARTITIONS)
        fail(argv[1], "from 1 to 4096 partitions");
    long count, steps = argc - 3;
    char **keys = lines(&count);

    const char *const pairs[] = {"test.mock.num.brokers", "1", "partitioner", argv[2], "linger.ms", "5",
        "log_level", "3", NULL};
    rd_kafka_conf_t *conf = configured(pairs);
    rd_kafka_conf_set_dr_msg_cb(conf, on_delivered);
    rd_kafka_t *producer = started(RD_KAFKA_PRODUCER, conf);
    rd_kafka_mock_cluster_t *cluster = rd_kafka_handle_mock_cluster(producer);
    if (!cluster || rd_kafka_mock_topic_create(cluster, TOPIC, partitions, 1))
        fail("mock cluster", "it does not start");
    const char *servers = rd_kafka_mock_cluster_bootstraps(cluster);

    for (long step = 0; step < steps; step++) {
        const char *word = argv[3 + step];
        if (word[0] == '+')
            join(servers, word + 1);
        else
            leave(word + 1);
        for (time_t until = deadline(); waits(is_balanced(), word, "the group is not balanced", until);)
            ;
        produce(producer, keys, count * step / steps, count * (step + 1) / steps);
        for (time_t until = deadline(); waits(read_count >= produced, word, "records are missing", until);)
            ;
        for (int i = 0; i < member_count; i++)
            if (members[i].consumer)
                commit(&members[i], word);
        for (int p = 0; p < partitions; p++)
            printf("owner,%ld,%d,%s\n", step, p, members[owner_of(p)].name);
    }
    print_ends(producer);
    for (int i = 0; i < member_count; i++)
        if (members[i].consumer)
            leave(members[i].name);
    rd_kafka_destroy(producer);
    return 0;
}
