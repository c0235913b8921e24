/*
 * What a snapshot costs: a replica whose GROUPS groups have MEMBERS members each, which read a topic of PARTITIONS partitions, is written in
 * parts and restored.
 *
 *     tools/build-library
 *     cc -O2 -D_GNU_SOURCE -I include -o snapshots examples/embed/snapshots.c out/libmigwelun.a
 *     ./snapshots 10000 100 100
 *
 * Each member joins while the topic has one partition, and sends heartbeats behind that until it has all that it is to have. What is restored must
 * be written with the same bytes. Times are milliseconds of processor time, the least of RUNS.
 */
#include <stdio.h>
#include <stdlib.h>
#include <string.h>
#include <time.h>
#include "migwelun.h"

/* How often each is timed. */
#ifndef RUNS
#define RUNS 5
#endif

enum { PART = 256 * 1024, ROOM = 128, GROUP = 6, MEMBER = 36, BEATS = 2 };

static const uint8_t KEYS[16] = {7}, TOPIC[16] = {0x11};
static migwelun_slot replica;
static uint64_t applied, frames;

static void die(const char *why) {
    fprintf(stderr, "snapshots: %s\n", why);
    exit(1);
}

/* ---- the state */

/* Applies what was proposed. Its reply goes to nobody. */
static void apply(int32_t proposed) {
    static uint8_t bytes[1 << 20];
    uint32_t leadership, connection;
    uint64_t frame;
    size_t size;
    if (proposed || migwelun_take_entry(&replica, bytes, sizeof bytes, &size)) die("an entry isn't proposed");
    if (migwelun_apply(&replica, ++applied, bytes, size, &leadership, &connection, &frame)) die("an entry isn't applied");
    if (migwelun_take(&replica, bytes, sizeof bytes, &size)) die("a reply isn't taken");
}

static void set_topic(int32_t partitions) {
    if (migwelun_add_topic(&replica, (const uint8_t *)"t", 1, TOPIC, partitions)) die("out of memory");
    apply(migwelun_propose_topics(&replica));
}

static uint8_t *put(uint8_t *to, const void *bytes, size_t length) {
    return (uint8_t *)memcpy(to, bytes, length) + length;
}

/* A heartbeat: a join that subscribes the topic, or one without news. */
static void heartbeat(int group, int member, int joins) {
    static const uint8_t HEAD[] = {0, 68, 0, 0, 0, 0, 0, 7, 0xff, 0xff, 0, GROUP + 1};
    static const uint8_t JOIN[] = {0, 0, 0, 0, 0xea, 0x60, 2, 2, 't', 0, 1, 0}, BEAT[] = {0, 0, 0xff, 0xff, 0xff, 0xff, 0, 0, 0, 0};
    char name[ROOM], id[ROOM];
    uint8_t body[ROOM], *at = put(body, HEAD, sizeof HEAD);
    int32_t epoch = 0, previous;
    snprintf(name, sizeof name, "%0*d", GROUP, group);
    snprintf(id, sizeof id, "%08d-0000-0000-0000-%012d", group, member);
    if (!joins && migwelun_epochs(&replica, (uint8_t *)name, GROUP, (uint8_t *)id, MEMBER, &epoch, &previous)) die("a member isn't there");
    at = put(at, name, GROUP);
    *at++ = MEMBER + 1;
    at = put(at, id, MEMBER);
    for (int shift = 24; shift >= 0; shift -= 8) *at++ = (uint8_t)((uint32_t)epoch >> shift);
    at = joins ? put(at, JOIN, sizeof JOIN) : put(at, BEAT, sizeof BEAT);
    apply(migwelun_propose(&replica, body, (size_t)(at - body), 1, ++frames, 0));
}

static void make_state(int groups, int members, int partitions) {
    if (migwelun_make_replica(&replica, 1, KEYS)) die("out of memory");
    apply(migwelun_lead(&replica));
    migwelun_begin(&replica, 0);
    set_topic(1);
    for (int round = 0; round <= BEATS; round++) {
        if (round == 1) set_topic(partitions);
        for (int group = 0; group < groups; group++) {
            for (int member = 0; member < members; member++) heartbeat(group, member, round == 0);
        }
    }
}

/* ---- what is measured */

static double spent(void) {
    struct timespec now;
    clock_gettime(CLOCK_PROCESS_CPUTIME_ID, &now);
    return (double)now.tv_sec * 1e3 + (double)now.tv_nsec / 1e6;
}

static double least(double one, double other) {
    return one < other ? one : other;
}

/* Kilobytes of memory, by their name in /proc. */
static long memory(const char *name) {
    char line[128];
    long size = 0;
    FILE *status = fopen("/proc/self/status", "r");
    while (status && fgets(line, sizeof line, status)) {
        if (!strncmp(line, name, strlen(name))) size = atol(line + strlen(name) + 1);
    }
    if (status) fclose(status);
    return size;
}

/* From here on the most memory is told anew. */
static void forget_most(void) {
    FILE *it = fopen("/proc/self/clear_refs", "w");
    if (it && fputs("5", it) >= 0) fclose(it);
}

/* Writes a snapshot in parts, one behind the other where there is a place for it, and gives how many bytes it has. */
static size_t written(uint8_t *to) {
    static uint8_t *part;
    static size_t room;
    size_t next = 0, all = 0, size = 1;
    for (; size > 0; all += size) {
        if (migwelun_snapshot(&replica, applied, next, PART, &next)) die("no snapshot is written");
        while (migwelun_take_entry(&replica, part, room, &size) == MIGWELUN_SHORT) {
            if ((part = realloc(part, room = size)) == NULL) die("out of memory");
        }
        if (to) memcpy(to + all, part, size);
    }
    return all;
}

static void time_all(size_t size) {
    double from, writing = 1e18, restoring = 1e18, copying = 1e18;
    size_t at;
    uint8_t *bytes = malloc(size), *again = malloc(size);
    if (!bytes || !again) die("out of memory");
    written(bytes);
    for (int run = 0; run < RUNS; run++) {
        from = spent(), written(NULL), writing = least(writing, spent() - from);
        from = spent(), memcpy(again, bytes, size), copying = least(copying, spent() - from);
        migwelun_drop(&replica);
        from = spent();
        if (migwelun_restore(&replica, bytes, size, KEYS, &at)) die("a snapshot isn't restored");
        restoring = least(restoring, spent() - from);
        if (written(again) != size || memcmp(bytes, again, size)) die("other bytes are written again");
    }
    printf("written in %.1f ms, restored in %.0f, copied in %.2f\n", writing, restoring, copying);
}

int main(int count, char **words) {
    if (count != 4) die("usage: snapshots GROUPS MEMBERS PARTITIONS");
    double from = spent();
    make_state(atoi(words[1]), atoi(words[2]), atoi(words[3]));
    printf("%llu entries applied in %.0f ms\n", (unsigned long long)applied, spent() - from);
    forget_most();
    long has = memory("VmRSS");
    size_t size = written(NULL);
    printf("%zu bytes, of a replica in %ld kB; writing it takes %ld kB more\n", size, has, memory("VmHWM") - has);
    time_all(size);
    migwelun_drop(&replica);
    return 0;
}
