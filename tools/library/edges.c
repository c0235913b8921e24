/*
 * Sees that the C library does what include/migwelun.h says at the edges: empty and full slots, bodies of every short length, short
 * buffers, names that are no text, each fault of topics, what may be read, and snapshots. Prints what it finds otherwise; the last line is
 * `N passed, M failed`, and the status is 0 if none failed.
 */
#include <stdio.h>
#include <stdlib.h>
#include <string.h>
#include "migwelun.h"

enum { LONGEST_BODY = 40, MARK = 0xa5, ROOM = 4096 };

static int passed, failed;

#define SEE(is_so) see((is_so), #is_so, __LINE__)

static void see(int is_so, const char *what, int line) {
    if (is_so) passed++;
    else failed++, printf("FAILED line %d: %s\n", line, what);
}

static const uint8_t KEYS[16] = {7}, ID[16] = {0x11}, OTHER[16] = {0x22};

/* A join of group "g" that subscribes "t": ConsumerGroupHeartbeat version 0, correlation id 7, no client id, member epoch 0. */
static const uint8_t JOIN[] = {0, 68, 0, 0, 0, 0, 0, 7, 0xff, 0xff, 0, 2, 'g', 1, 0, 0, 0, 0, 0, 0, 0, 0, 0xea, 0x60, 2, 2, 't', 0, 1, 0};
/* The same of a static member: the instance "i", and the member's id "m". */
static const uint8_t STATIC_JOIN[] = {0, 68, 0, 0, 0, 0, 0, 7, 0xff, 0xff, 0, 2, 'g', 2, 'm', 0, 0, 0, 0,
                                      2, 'i', 0, 0, 0, 0xea, 0x60, 2, 2, 't', 0, 1, 0};
/* It goes away for a while: member epoch -2. */
static const uint8_t AWAY[] = {0, 68, 0, 0, 0, 0, 0, 7, 0xff, 0xff, 0, 2, 'g', 2, 'm', 0xff, 0xff, 0xff, 0xfe,
                               2, 'i', 0, 0xff, 0xff, 0xff, 0xff, 0, 0, 0, 0};
static const char FIRST_ID[] = "00000000-0000-0000-0000-000000000001";

static int32_t add(migwelun_slot *slot, const char *name, const uint8_t *id, int32_t partitions) {
    return migwelun_add_topic(slot, (const uint8_t *)name, strlen(name), id, partitions);
}

static int32_t remembers(migwelun_slot *slot, const char *group, const char *member) {
    return migwelun_remembers(slot, (const uint8_t *)group, strlen(group), (const uint8_t *)member, strlen(member));
}

static int32_t epochs(migwelun_slot *slot, const char *group, const char *member, int32_t *epoch, int32_t *previous) {
    return migwelun_epochs(slot, (const uint8_t *)group, strlen(group), (const uint8_t *)member, strlen(member), epoch, previous);
}

/* A copy of bytes that ends where its block ends. */
static uint8_t *copy_of(const uint8_t *bytes, size_t length) {
    return memcpy(malloc(length ? length : 1), bytes, length);
}

static int32_t answer(migwelun_slot *slot, const uint8_t *body, size_t length, uint64_t frame) {
    uint8_t *copy = copy_of(body, length);
    int32_t code = migwelun_answer(slot, copy, length, 1, frame, 0);
    free(copy);
    return code;
}

static void empty_slots(void) {
    migwelun_slot slot = {0};
    uint8_t to[4] = {MARK, MARK, MARK, MARK};
    size_t size = 77, removed = 78;
    int32_t epoch = 79, previous = 80;
    SEE(answer(&slot, JOIN, sizeof JOIN, 1) == MIGWELUN_EMPTY);
    SEE(migwelun_take(&slot, to, sizeof to, &size) == MIGWELUN_EMPTY && size == 77 && to[0] == MARK);
    SEE(migwelun_tick(&slot, 5, &removed) == MIGWELUN_EMPTY && removed == 78);
    SEE(add(&slot, "t", ID, 1) == MIGWELUN_EMPTY);
    SEE(migwelun_set_topics(&slot) == MIGWELUN_EMPTY);
    SEE(remembers(&slot, "g", "m") == MIGWELUN_EMPTY);
    SEE(epochs(&slot, "g", "m", &epoch, &previous) == MIGWELUN_EMPTY && epoch == 79 && previous == 80);
    migwelun_drop(&slot);
    SEE(migwelun_make(&slot, 0, KEYS) == MIGWELUN_DONE);
    SEE(migwelun_make(&slot, 0, KEYS) == MIGWELUN_FULL);
    SEE(migwelun_take(&slot, to, 0, &size) == MIGWELUN_DONE && size == 0);
    migwelun_drop(&slot);
    migwelun_drop(&slot);
    SEE(migwelun_tick(&slot, 5, &removed) == MIGWELUN_EMPTY);
    SEE(migwelun_make(&slot, 0, KEYS) == MIGWELUN_DONE);
    migwelun_drop(&slot);
}

/* Bodies of every length: the beginning of a join, which has another length, and zeros. */
static void short_bodies(void) {
    migwelun_slot slot = {0};
    uint8_t zeros[LONGEST_BODY] = {0}, to[4];
    size_t size;
    SEE(migwelun_make(&slot, 0, KEYS) == MIGWELUN_DONE);
    for (size_t length = 0; length <= LONGEST_BODY; length++) {
        SEE(answer(&slot, zeros, length, length) == MIGWELUN_CLOSES);
        uint8_t longer[LONGEST_BODY] = {0};
        memcpy(longer, JOIN, length < sizeof JOIN ? length : sizeof JOIN);
        if (length != sizeof JOIN) SEE(answer(&slot, longer, length, length) == MIGWELUN_CLOSES);
        SEE(migwelun_take(&slot, to, sizeof to, &size) == MIGWELUN_DONE && size == 0);
    }
    SEE(remembers(&slot, "g", FIRST_ID) == MIGWELUN_NO);
    migwelun_drop(&slot);
}

/* A buffer that is a byte too short gets nothing, and one that is long enough is written no further than the size. */
static void short_buffers(void) {
    migwelun_slot slot = {0};
    uint8_t to[512], once[512];
    size_t size = 0, needed = 0;
    SEE(migwelun_make(&slot, 0, KEYS) == MIGWELUN_DONE);
    SEE(answer(&slot, JOIN, sizeof JOIN, 1) == MIGWELUN_DONE);
    memset(to, MARK, sizeof to);
    SEE(migwelun_take(&slot, to, 0, &needed) == MIGWELUN_SHORT && needed > 4 && to[0] == MARK);
    for (size_t room = 1; room < needed; room++) {
        SEE(migwelun_take(&slot, to, room, &size) == MIGWELUN_SHORT && size == needed && to[0] == MARK);
    }
    SEE(migwelun_take(&slot, to, needed, &size) == MIGWELUN_DONE && size == needed && to[0] == 0 && to[needed] == MARK);
    SEE((size_t)to[2] * 256 + to[3] + 4 == needed);
    SEE(migwelun_take(&slot, once, sizeof once, &size) == MIGWELUN_DONE && size == 0);
    /* two replies wait, one behind the other */
    SEE(answer(&slot, JOIN, sizeof JOIN, 2) == MIGWELUN_DONE);
    SEE(answer(&slot, JOIN, 9, 3) == MIGWELUN_CLOSES);
    SEE(answer(&slot, JOIN, sizeof JOIN, 4) == MIGWELUN_DONE);
    SEE(migwelun_take(&slot, once, sizeof once, &size) == MIGWELUN_DONE && size == 2 * needed);
    SEE(once[1] == 0 && (size_t)once[needed + 2] * 256 + once[needed + 3] + 4 == needed);
    migwelun_drop(&slot);
}

static void topics(void) {
    migwelun_slot slot = {0};
    SEE(migwelun_make(&slot, 0, KEYS) == MIGWELUN_DONE);
    SEE(migwelun_set_topics(&slot) == MIGWELUN_DONE);
    SEE(add(&slot, "t", ID, 1) == MIGWELUN_DONE && add(&slot, "t", OTHER, 1) == MIGWELUN_DONE);
    SEE(migwelun_set_topics(&slot) == MIGWELUN_DUPLICATE_NAME);
    SEE(add(&slot, "t", ID, 1) == MIGWELUN_DONE && add(&slot, "u", ID, 1) == MIGWELUN_DONE);
    SEE(migwelun_set_topics(&slot) == MIGWELUN_DUPLICATE_ID);
    SEE(add(&slot, "t", ID, 100000) == MIGWELUN_DONE && migwelun_set_topics(&slot) == MIGWELUN_DONE);
    SEE(add(&slot, "t", ID, 100001) == MIGWELUN_DONE && migwelun_set_topics(&slot) == MIGWELUN_BAD_COUNT);
    SEE(add(&slot, "t", ID, 0) == MIGWELUN_DONE && migwelun_set_topics(&slot) == MIGWELUN_BAD_COUNT);
    SEE(add(&slot, "t", ID, -1) == MIGWELUN_DONE && migwelun_set_topics(&slot) == MIGWELUN_BAD_COUNT);
    SEE(add(&slot, "t", ID, 1000000) == MIGWELUN_DONE && add(&slot, "u", OTHER, 1) == MIGWELUN_DONE);
    SEE(migwelun_set_topics(&slot) == MIGWELUN_TOO_MANY);
    SEE(add(&slot, "t\xff", ID, 1) == MIGWELUN_NOT_TEXT && add(&slot, "\xc3\xa4", ID, 1) == MIGWELUN_DONE);
    SEE(migwelun_set_topics(&slot) == MIGWELUN_DONE);
    SEE(add(&slot, "left", ID, 1) == MIGWELUN_DONE);
    migwelun_drop(&slot);
}

static void reads(void) {
    migwelun_slot slot = {0};
    int32_t epoch = 79, previous = 80;
    SEE(migwelun_make(&slot, 0, KEYS) == MIGWELUN_DONE);
    SEE(epochs(&slot, "g", FIRST_ID, &epoch, &previous) == MIGWELUN_NO_MEMBER);
    SEE(remembers(&slot, "g", FIRST_ID) == MIGWELUN_NO);
    SEE(answer(&slot, JOIN, sizeof JOIN, 1) == MIGWELUN_DONE);
    SEE(epochs(&slot, "h", FIRST_ID, &epoch, &previous) == MIGWELUN_NO_MEMBER);
    SEE(epochs(&slot, "g", "n", &epoch, &previous) == MIGWELUN_NO_MEMBER);
    SEE(epochs(&slot, "g\xff", FIRST_ID, &epoch, &previous) == MIGWELUN_NOT_TEXT);
    SEE(epochs(&slot, "g", "\xff", &epoch, &previous) == MIGWELUN_NOT_TEXT);
    SEE(remembers(&slot, "\xff", FIRST_ID) == MIGWELUN_NOT_TEXT && remembers(&slot, "g", "\xff") == MIGWELUN_NOT_TEXT);
    SEE(epoch == 79 && previous == 80);
    SEE(epochs(&slot, "g", FIRST_ID, &epoch, &previous) == MIGWELUN_DONE && epoch == 1 && previous == 0);
    SEE(remembers(&slot, "g", FIRST_ID) == MIGWELUN_YES && remembers(&slot, "h", FIRST_ID) == MIGWELUN_NO);
    SEE(answer(&slot, STATIC_JOIN, sizeof STATIC_JOIN, 2) == MIGWELUN_DONE);
    SEE(epochs(&slot, "g", "m", &epoch, &previous) == MIGWELUN_DONE && epoch == 2 && previous == 0);
    SEE(answer(&slot, AWAY, sizeof AWAY, 3) == MIGWELUN_DONE);
    SEE(epochs(&slot, "g", "m", &epoch, &previous) == MIGWELUN_DONE && epoch == -2);
    size_t removed;
    SEE(migwelun_tick(&slot, 45000, &removed) == MIGWELUN_DONE && removed == 2);
    SEE(epochs(&slot, "g", "m", &epoch, &previous) == MIGWELUN_NO_MEMBER && remembers(&slot, "g", "m") == MIGWELUN_YES);
    migwelun_drop(&slot);
}

/* ---- snapshots */

static int32_t restore(migwelun_slot *slot, const uint8_t *bytes, size_t length, size_t *at) {
    uint8_t *copy = copy_of(bytes, length);
    int32_t code = migwelun_restore(slot, copy, length, KEYS, at);
    free(copy);
    return code;
}

/* Takes the entry that waits and applies it. */
static int32_t apply(migwelun_slot *slot, uint64_t place) {
    uint8_t entry[ROOM];
    uint32_t leadership, connection;
    uint64_t frame;
    size_t size;
    SEE(migwelun_take_entry(slot, entry, sizeof entry, &size) == MIGWELUN_DONE);
    return migwelun_apply(slot, place, entry, size, &leadership, &connection, &frame);
}

/* The head and the one group, each a part, and behind them a part without a byte: the length of all. */
static size_t two_parts(migwelun_slot *slot, uint64_t place, uint8_t *to) {
    size_t next = 0, length = 0, size = 0;
    for (size_t part = 0; part < 3; part++, length += size) {
        SEE(migwelun_snapshot(slot, place, next, 1, &next) == MIGWELUN_DONE && next == (part < 2 ? part + 1 : 2));
        SEE(migwelun_take_entry(slot, to + length, ROOM - length, &size) == MIGWELUN_DONE && (size > 0) == (part < 2));
    }
    return length;
}

/* What is written is restored, and nothing else: not where it is cut, anywhere, and not with a byte more. */
static void snapshots(void) {
    migwelun_slot slot = {0}, other = {0};
    uint8_t bytes[ROOM], again[ROOM];
    size_t next = 77, at = 78;
    SEE(migwelun_snapshot(&slot, 0, 0, 1, &next) == MIGWELUN_EMPTY && migwelun_make(&slot, 0, KEYS) == MIGWELUN_DONE);
    SEE(migwelun_snapshot(&slot, 0, 0, 1, &next) == MIGWELUN_EMPTY && restore(&slot, bytes, 0, &at) == MIGWELUN_FULL && slot.full);
    migwelun_drop(&slot);
    SEE(migwelun_make_replica(&slot, 5, KEYS) == MIGWELUN_DONE && migwelun_lead(&slot) == MIGWELUN_DONE && apply(&slot, 1) == MIGWELUN_DONE);
    SEE(migwelun_begin(&slot, 0) == MIGWELUN_DONE && restore(&slot, bytes, 0, &at) == MIGWELUN_FULL && at == 78);
    SEE(migwelun_propose(&slot, JOIN, sizeof JOIN, 1, 1, 3) == MIGWELUN_DONE && apply(&slot, 2) == MIGWELUN_DONE);
    SEE(migwelun_snapshot(&slot, 1, 0, 1, &next) == MIGWELUN_OUT_OF_PLACE && migwelun_snapshot(&slot, 3, 0, 1, &next) == MIGWELUN_OUT_OF_PLACE);
    SEE(next == 77 && migwelun_snapshot(&slot, 2, 9, 1, &next) == MIGWELUN_DONE && next == 9);
    size_t length = two_parts(&slot, 2, bytes);
    for (size_t cut = 0; cut < length; cut++) SEE(restore(&other, bytes, cut, &at) == MIGWELUN_BAD_SNAPSHOT_FIELD && at <= cut && !other.full);
    bytes[length] = 0;
    SEE(restore(&other, bytes, length + 1, &at) == MIGWELUN_RESPELLED && at == length && !other.full);
    SEE(restore(&other, bytes, length, &at) == MIGWELUN_DONE && two_parts(&other, 2, again) == length && !memcmp(bytes, again, length));
    /* it doesn't lead, and has come as far */
    SEE(migwelun_propose_tick(&other, 9) == MIGWELUN_NOT_LEADING && migwelun_lead(&other) == MIGWELUN_DONE && apply(&other, 3) == MIGWELUN_DONE);
    migwelun_drop(&slot);
    migwelun_drop(&other);
}

int main(void) {
    empty_slots();
    short_bodies();
    short_buffers();
    topics();
    reads();
    snapshots();
    printf("%d passed, %d failed\n", passed, failed);
    return failed != 0;
}
