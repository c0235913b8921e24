/*
 * A coordinator whose groups outlive it, on one machine: a replica whose log is a file.
 *
 *     tools/build-library
 *     cc -D_GNU_SOURCE -I include -o journal examples/embed/journal.c out/libmigwelun.a
 *     ./journal FILE orders:11111111-1111-1111-1111-111111111111:4
 *
 * Frames come on standard input, as on a connection, and the replies go to standard output. Each frame becomes an entry, which is appended
 * to FILE and synced to the disk before it is applied and answered. At the start the entries of FILE are applied; what a crash left of a
 * last one is cut off. So a reply that went out is never forgotten, whenever the program is killed. Once FILE has grown, a new one takes its
 * place that has a snapshot instead of the entries. It ends with its input.
 *
 * FILE has the salt, the snapshot behind its size, and the entries that came behind that, each behind its size.
 */
#include <errno.h>
#include <fcntl.h>
#include <libgen.h>
#include <limits.h>
#include <poll.h>
#include <stdio.h>
#include <stdlib.h>
#include <string.h>
#include <sys/file.h>
#include <sys/random.h>
#include <sys/stat.h>
#include <time.h>
#include <unistd.h>
#include "migwelun.h"

enum { SIZE = 4, SALT = 8, HEAD = SALT + SIZE, LARGEST_BODY = 8388608, LARGEST_ENTRY = 1 << 29, PART = 1 << 20, TICK_MS = 500 };

/* How many bytes of entries there may be behind a snapshot. */
#ifndef MOST_LOG
#define MOST_LOG (16 << 20)
#endif

static migwelun_slot replica;
static const char *name;
static int journal;
static uint64_t salt, logged;
static uint64_t frames; /* this leadership's: all came on its connection 1 */

static void die(const char *why) {
    fprintf(stderr, "journal: %s%s%s\n", why, errno ? ": " : "", errno ? strerror(errno) : "");
    exit(1);
}

/* Milliseconds of a clock that isn't set back. */
static uint64_t clock_now(void) {
    struct timespec now;
    clock_gettime(CLOCK_MONOTONIC, &now);
    return (uint64_t)now.tv_sec * 1000 + (uint64_t)now.tv_nsec / 1000000;
}

/* A buffer that grows. */
typedef struct {
    uint8_t *bytes;
    size_t length, room;
} buffer;

static void make_room(buffer *it, size_t more) {
    if (it->room - it->length >= more) return;
    it->room = 2 * it->room + more;
    if ((it->bytes = realloc(it->bytes, it->room)) == NULL) die("out of memory");
}

static void write_all(int to, const uint8_t *bytes, size_t length) {
    while (length > 0) {
        ssize_t written = write(to, bytes, length);
        if (written < 0 && errno == EINTR) continue;
        if (written <= 0) die("a write failed");
        bytes += written;
        length -= (size_t)written;
    }
}

/* Reads as many bytes as there are, up to a length. */
static size_t read_up_to(int from, uint8_t *bytes, size_t length) {
    size_t all = 0;
    while (all < length) {
        ssize_t more = read(from, bytes + all, length - all);
        if (more < 0 && errno == EINTR) continue;
        if (more < 0) die("a read failed");
        if (more == 0) break;
        all += (size_t)more;
    }
    return all;
}

static size_t number_at(const uint8_t *bytes) {
    return (size_t)bytes[0] << 24 | (size_t)bytes[1] << 16 | (size_t)bytes[2] << 8 | bytes[3];
}

static void put_number(uint8_t *to, size_t number) {
    for (int i = 0; i < SIZE; i++) to[i] = (uint8_t)(number >> (24 - 8 * i));
}

/* ---- entries */

/* The reply that waits, or no byte. */
static const buffer *take_reply(void) {
    static buffer reply;
    make_room(&reply, 4096);
    reply.length = 0;
    while (migwelun_take(&replica, reply.bytes, reply.room, &reply.length) == MIGWELUN_SHORT) {
        size_t size = reply.length;
        reply.length = 0;
        make_room(&reply, size);
    }
    return &reply;
}

/* Applies the next entry of the log. What it answers waits, or says that the connection closes. */
static int apply(const uint8_t *entry, size_t length) {
    uint64_t applied, moment, frame;
    uint32_t leadership, connection;
    migwelun_place(&replica, &applied, &leadership, &moment);
    int code = migwelun_apply(&replica, applied + 1, entry, length, &leadership, &connection, &frame);
    if (code == MIGWELUN_NO_MEMORY) die("out of memory");
    if (code != MIGWELUN_DONE && code != MIGWELUN_CLOSES) die("the journal has an entry that is refused");
    return code;
}

/* Puts the entry that was proposed to the end of the log, and only once it is on the disk applies it. */
static int append(int proposed) {
    static buffer entry;
    size_t length;
    errno = 0;
    if (proposed != MIGWELUN_DONE) die(proposed == MIGWELUN_NO_MEMORY ? "out of memory" : "an entry is refused");
    make_room(&entry, 4096);
    while (migwelun_take_entry(&replica, entry.bytes + SIZE, entry.room - SIZE, &length) == MIGWELUN_SHORT) make_room(&entry, SIZE + length);
    put_number(entry.bytes, length);
    write_all(journal, entry.bytes, SIZE + length);
    if (fdatasync(journal)) die("a sync failed");
    logged += SIZE + length;
    return apply(entry.bytes + SIZE, length);
}

/* Applies the entries that the journal has from a place on, and cuts off what is no whole one. */
static void apply_journal(off_t whole) {
    static buffer entry;
    uint8_t size[SIZE];
    make_room(&entry, 4096);
    while (read_up_to(journal, size, SIZE) == SIZE) {
        size_t length = number_at(size);
        if (length > LARGEST_ENTRY) die("the journal is none");
        make_room(&entry, length);
        if (read_up_to(journal, entry.bytes, length) < length) break;
        apply(entry.bytes, length);
        take_reply(); /* it went out when the entry was new */
        whole += (off_t)(SIZE + length);
        logged += SIZE + length;
    }
    if (ftruncate(journal, whole) || lseek(journal, whole, SEEK_SET) != whole || fdatasync(journal)) die("the journal can't be cut");
}

/* Opens a journal for this program alone, unless another one has just exchanged it. */
static int open_locked(const char *path, int flags) {
    struct stat opened, there;
    int file = open(path, O_RDWR | O_CREAT | O_CLOEXEC | flags, 0644);
    if (file < 0 || flock(file, LOCK_EX | LOCK_NB) || fstat(file, &opened) || stat(path, &there)) die(path);
    if (opened.st_ino != there.st_ino) die("the journal is another program's");
    return file;
}

/* A journal that has what the replica has come to takes the place of the present one. */
static void write_snapshot(void) {
    static buffer it;
    char path[PATH_MAX];
    uint64_t applied, moment;
    uint32_t leadership;
    size_t next = 0, part = HEAD;
    migwelun_place(&replica, &applied, &leadership, &moment);
    it.length = 0;
    make_room(&it, HEAD);
    memcpy(it.bytes, &salt, SALT);
    while (part > 0) {
        it.length += part;
        if (migwelun_snapshot(&replica, applied, next, PART, &next)) die("no snapshot is written");
        while (migwelun_take_entry(&replica, it.bytes + it.length, it.room - it.length, &part) == MIGWELUN_SHORT) make_room(&it, part);
    }
    put_number(it.bytes + SALT, it.length - HEAD);
    snprintf(path, sizeof path, "%s.new", name);
    int file = open_locked(path, O_TRUNC);
    write_all(file, it.bytes, it.length);
    if (fdatasync(file) || rename(path, name)) die(path);
    int folder = open(dirname(path), O_RDONLY | O_CLOEXEC);
    if (folder < 0 || fsync(folder) || close(folder) || close(journal)) die(name);
    journal = file;
    logged = 0;
}

/* Makes the replica of the journal. What is shorter than its head is new, and gets a salt, the same at each start. */
static void read_journal(void) {
    uint8_t keys[16], head[HEAD];
    size_t at;
    journal = open_locked(name, 0);
    if (getrandom(keys, sizeof keys, 0) < (ssize_t)sizeof keys) die("no random bytes");
    if (read_up_to(journal, head, HEAD) < HEAD) {
        if (getrandom(&salt, SALT, 0) < SALT || migwelun_make_replica(&replica, salt, keys)) die("out of memory");
        write_snapshot();
        return;
    }
    memcpy(&salt, head, SALT);
    buffer snapshot = {0};
    make_room(&snapshot, number_at(head + SALT));
    if (read_up_to(journal, snapshot.bytes, number_at(head + SALT)) < number_at(head + SALT)) die("the journal is none");
    if (migwelun_restore(&replica, snapshot.bytes, number_at(head + SALT), keys, &at)) die("the snapshot is refused");
    apply_journal((off_t)(HEAD + number_at(head + SALT)));
    free(snapshot.bytes);
}

/* ---- what comes in */

static void add_topic(const char *word) {
    const char *colon = strchr(word, ':'), *at = colon;
    uint8_t id[16];
    errno = 0;
    for (int i = 0; at && i < 16; i++) {
        at += at[1] == '-' ? 2 : 1;
        if (sscanf(at++, "%2hhx", &id[i]) != 1) at = NULL;
    }
    if (at == NULL || at[1] != ':') die("a topic is NAME:UUID:COUNT");
    size_t length = (size_t)(colon - word);
    if (migwelun_add_topic(&replica, (const uint8_t *)word, length, id, atoi(at + 2))) die("a topic is refused");
}

/* Answers the whole frames among the bytes that came. Says whether the connection stays. */
static int answer_frames(buffer *in) {
    size_t at = 0;
    while (in->length - at >= SIZE) {
        size_t size = number_at(in->bytes + at);
        if (size == 0 || size > LARGEST_BODY) return 0;
        if (in->length - at - SIZE < size) break;
        if (append(migwelun_propose(&replica, in->bytes + at + SIZE, size, 1, ++frames, clock_now())) == MIGWELUN_CLOSES) return 0;
        const buffer *reply = take_reply();
        write_all(STDOUT_FILENO, reply->bytes, reply->length);
        at += SIZE + size;
    }
    memmove(in->bytes, in->bytes + at, in->length -= at);
    return 1;
}

int main(int words, char **word) {
    struct pollfd input = {.fd = STDIN_FILENO, .events = POLLIN};
    buffer in = {0};
    if (words < 3) die("usage: journal FILE NAME:UUID:COUNT ..");
    name = word[1];
    read_journal();
    append(migwelun_lead(&replica));
    uint64_t ticked = clock_now();
    migwelun_begin(&replica, ticked);
    for (int i = 2; i < words; i++) add_topic(word[i]);
    append(migwelun_propose_topics(&replica));
    for (;;) {
        poll(&input, 1, TICK_MS);
        if (logged > MOST_LOG) write_snapshot();
        if (clock_now() - ticked >= TICK_MS) append(migwelun_propose_tick(&replica, ticked = clock_now()));
        if (!input.revents) continue;
        make_room(&in, 65536);
        ssize_t more = read(STDIN_FILENO, in.bytes + in.length, in.room - in.length);
        if (more <= 0) return 0;
        in.length += (size_t)more;
        if (!answer_frames(&in)) return 0;
    }
}
