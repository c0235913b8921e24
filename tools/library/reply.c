/*
 * usage: reply [--refuse | --time COUNT]
 *
 * Answers the lines of `coord reply` through the C library, and prints what `coord reply` prints. A line that it can't read ends it with
 * status 2; whatever the library refuses, with 1.
 *
 * The buffer for replies begins with a few bytes and grows as migwelun_take asks, so that short buffers are met.
 *
 * With --refuse each call is made with its first allocation refused, then with its second, and so on until it finds enough memory. A refused
 * call must say so and leave no reply; that it has changed nothing else shows in what is printed. It is linked with
 * -Wl,--wrap=malloc,--wrap=realloc, and says on standard error how many allocations were refused.
 *
 * With --time it prints nothing of the lines, whose last COUNT requests are heartbeats in which nothing is new, as those of
 * `tools/reply-lines steady`. It makes these again, and prints the nanoseconds of one with the take of its reply, and what two calls cost
 * beside the coordinator's own work: a body of one byte, which closes before anything is looked at, and a take where nothing waits. Each
 * is the fastest of five runs.
 */
#define _GNU_SOURCE
#include <inttypes.h>
#include <stdio.h>
#include <stdlib.h>
#include <string.h>
#include <time.h>
#include "migwelun.h"

enum { SIZE = 4, UUID = 16, FIRST_ROOM = 8, NEVER = -1, RUNS = 5 };

static migwelun_slot slot;
static uint64_t now, requests, connection, frame;
static int has_stamp;
static uint8_t *replies;
static size_t room = FIRST_ROOM;
/* What is timed: how many requests, and these, one behind the other, with their lengths. */
static size_t timed, at_timed;
static struct { uint8_t *bytes; size_t length; } *beats;

static void fail(int status, const char *why) {
    fprintf(stderr, "reply: %s\n", why);
    exit(status);
}

/* Refusals: how many allocations are given before one is refused, and how many were before the last refusal of this call. */
static int refuses;
static long left = NEVER, given, refusals;

void *__real_malloc(size_t size);
void *__real_realloc(void *at, size_t size);

void *__wrap_malloc(size_t size) {
    return left != NEVER && left-- == 0 ? NULL : __real_malloc(size);
}

void *__wrap_realloc(void *at, size_t size) {
    return left != NEVER && left-- == 0 ? NULL : __real_realloc(at, size);
}

/* Before the first try of a call. */
static void begin(void) {
    given = 0;
    left = refuses ? given : NEVER;
}

/* Whether a call that returned the code is to be made again, with one allocation more. */
static int again(int32_t code) {
    int was_refused = refuses && left == NEVER;
    left = NEVER;
    if (code != MIGWELUN_NO_MEMORY) return 0;
    if (!was_refused) fail(1, "no allocation was refused, and memory is short");
    refusals++;
    left = ++given;
    return 1;
}

/* After a call that takes no memory, before which `begin` was called. */
static void took_none(void) {
    if (refuses && left == NEVER) fail(1, "memory is taken");
    left = NEVER;
}

/* Makes a call until none of its allocations is refused. */
#define UNTIL_DONE(code, call) do { begin(); do code = (call); while (again(code)); } while (0)

/* The next word of the line, or NULL. */
static char *word(char **line) {
    return *line ? strsep(line, " ") : NULL;
}

static uint64_t number(const char *text) {
    char *end;
    if (text == NULL) fail(2, "a number is missing");
    uint64_t it = strtoull(text, &end, 10);
    if (*text == 0 || *end != 0) fail(2, "a number is bad");
    return it;
}

/* The bytes of a text of hexadecimal digits, without what stands round those of an id. The length is how many they are. */
static uint8_t *bytes(const char *text, size_t *length) {
    const char *urn = "urn:uuid:", *digits = "0123456789abcdef0123456789ABCDEF", *digit;
    if (text == NULL) fail(2, "bytes are missing");
    if (!strncmp(text, urn, strlen(urn))) text += strlen(urn);
    uint8_t *made = calloc(strlen(text) / 2 + 1, 1);
    size_t count = 0;
    for (; *text; text++) {
        if (strchr("-{}", *text)) continue;
        if ((digit = strchr(digits, *text)) == NULL) fail(2, "a digit is bad");
        made[count / 2] = (uint8_t)(made[count / 2] << 4 | (digit - digits) % 16);
        count++;
    }
    if (count % 2) fail(2, "half of a byte is missing");
    *length = count / 2;
    return made;
}

static void image(char *line) {
    for (char *name; (name = word(&line)) != NULL;) {
        size_t length;
        uint8_t *id = bytes(word(&line), &length);
        if (length != UUID) fail(2, "an id is bad");
        int32_t partitions = (int32_t)number(word(&line)), code;
        UNTIL_DONE(code, migwelun_add_topic(&slot, (uint8_t *)name, strlen(name), id, partitions));
        if (code) fail(1, "a topic is refused");
        free(id);
    }
    int32_t code;
    UNTIL_DONE(code, migwelun_set_topics(&slot));
    if (code) fail(1, "the topics are refused");
}

static void tick(void) {
    size_t removed;
    begin();
    if (migwelun_tick(&slot, now, &removed)) fail(1, "a tick is refused");
    took_none();
    printf("removed %zu\n", removed);
}

/* Takes what waits, with more room where that is asked for. */
static size_t take(void) {
    size_t size;
    begin();
    int32_t code = migwelun_take(&slot, replies, room, &size);
    took_none();
    if (code == MIGWELUN_SHORT) {
        if (size <= room) fail(1, "there was room");
        room = size;
        replies = realloc(replies, room);
        code = migwelun_take(&slot, replies, room, &size);
    }
    if (code) fail(1, "replies can't be taken");
    return size;
}

/* A frame whose size isn't that of its body closes, as in front of any coordinator: it doesn't come to the library. */
static int32_t answer(const uint8_t *it, size_t length) {
    if (length < SIZE) return MIGWELUN_CLOSES;
    uint32_t size = (uint32_t)it[0] << 24 | (uint32_t)it[1] << 16 | (uint32_t)it[2] << 8 | it[3];
    if (size != length - SIZE) return MIGWELUN_CLOSES;
    int32_t code;
    UNTIL_DONE(code, migwelun_answer(&slot, it + SIZE, size, connection, frame, now));
    return code;
}

static void request(char *line) {
    size_t length;
    uint8_t *it = bytes(word(&line), &length);
    requests++;
    if (!has_stamp) connection = 1, frame = requests;
    has_stamp = 0;
    int32_t code = answer(it, length);
    size_t size = take();
    if (code != MIGWELUN_DONE && code != MIGWELUN_CLOSES) fail(1, "a request is refused");
    if ((code == MIGWELUN_CLOSES) != (size == 0)) fail(1, "the reply isn't there, or there is one too many");
    if (timed) {
        free(beats[at_timed].bytes);
        beats[at_timed].bytes = it, beats[at_timed].length = length;
        at_timed = (at_timed + 1) % timed;
        return;
    }
    for (size_t at = 0; at < size; at++) printf("%02x", replies[at]);
    puts(code == MIGWELUN_CLOSES ? "close" : "");
    free(it);
}

static void take_any(size_t at) {
    size_t size;
    (void)at;
    if (migwelun_take(&slot, replies, room, &size)) fail(1, "nothing can be taken");
}

static void beat(size_t at) {
    if (migwelun_answer(&slot, beats[at].bytes + SIZE, beats[at].length - SIZE, 1, ++requests, now)) fail(1, "a request isn't answered");
    take_any(at);
}

static void close_one(size_t at) {
    if (migwelun_answer(&slot, beats[at].bytes, 1, 1, requests, now) != MIGWELUN_CLOSES) fail(1, "a byte is answered");
}

static double fastest(void (*call)(size_t at)) {
    double least = 1e18;
    for (int run = 0; run < RUNS; run++) {
        struct timespec from, to;
        clock_gettime(CLOCK_MONOTONIC, &from);
        for (size_t at = 0; at < timed; at++) call(at);
        clock_gettime(CLOCK_MONOTONIC, &to);
        double taken = ((double)(to.tv_sec - from.tv_sec) * 1e9 + (double)(to.tv_nsec - from.tv_nsec)) / (double)timed;
        least = taken < least ? taken : least;
    }
    return least;
}

static void act(char *line) {
    const char *kind = word(&line);
    if (!strcmp(kind, "image")) image(line);
    else if (!strcmp(kind, "now")) now = number(word(&line));
    else if (!strcmp(kind, "tick")) tick();
    else if (!strcmp(kind, "stamp")) connection = number(word(&line)), frame = number(word(&line)), has_stamp = 1;
    else if (!strcmp(kind, "req")) request(line);
    else fail(2, "a word is unknown");
}

int main(int count, char **words) {
    const uint8_t keys[16] = {1, 2, 3, 4, 5, 6, 7, 8, 9, 10, 11, 12, 13, 14, 15, 16};
    char *line = NULL;
    size_t size = 0;
    int32_t code;
    refuses = count == 2 && !strcmp(words[1], "--refuse");
    timed = count == 3 && !strcmp(words[1], "--time") ? number(words[2]) : 0;
    if (count > 1 && !refuses && !timed) fail(2, "usage: reply [--refuse | --time COUNT]");
    replies = malloc(room);
    beats = calloc(timed + 1, sizeof *beats);
    UNTIL_DONE(code, migwelun_make(&slot, 0, keys));
    if (code) fail(1, "no coordinator was made");
    for (ssize_t length; (length = getline(&line, &size, stdin)) > 0;) {
        if (line[length - 1] == '\n') line[length - 1] = 0;
        act(line);
    }
    if (timed) {
        printf("heartbeat and take %.0f ns", fastest(beat));
        printf(", closing %.0f ns", fastest(close_one));
        printf(", empty take %.0f ns\n", fastest(take_any));
    }
    migwelun_drop(&slot);
    free(replies);
    free(beats);
    free(line);
    if (refuses) fprintf(stderr, "%ld refused\n", refusals);
    return 0;
}
