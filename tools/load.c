/* The part of tools/load that has to be quick: it sends heartbeats over connections that stand, and takes the times of their replies.
 *
 *     load measure DEPTH SECONDS    standard input: a line `FD HEARTBEAT ANSWER` for each connection, both frames in hex; prints the
 *                                   heartbeats a second, how many were answered, and the microseconds within which 50, 99 and
 *                                   99.9 of 100 were
 *     load echo FD                  standard input: ANSWER; answers each frame that comes to the listening socket FD with it
 *
 * Each frame gets the number of its request on the connection as its correlation id. */

#define _GNU_SOURCE
#include <arpa/inet.h>
#include <errno.h>
#include <fcntl.h>
#include <netinet/tcp.h>
#include <poll.h>
#include <pthread.h>
#include <stdarg.h>
#include <stdint.h>
#include <stdio.h>
#include <stdlib.h>
#include <string.h>
#include <sys/epoll.h>
#include <sys/prctl.h>
#include <sys/socket.h>
#include <signal.h>
#include <time.h>
#include <unistd.h>

enum { MOST_DEPTH = 256, THREADS = 2, MOST_FRAME = 512, DRAIN_SECONDS = 10, WRITE_SECONDS = 120, READ_SIZE = 65536 };
/* Where the correlation id stands in the frame of a request, and of a reply. */
enum { REQUEST_ID = 8, REPLY_ID = 4 };

static void fail(const char *form, ...)
{
    va_list words;
    va_start(words, form);
    fprintf(stderr, "tools/load: ");
    vfprintf(stderr, form, words);
    fprintf(stderr, "\n");
    _exit(1);
}

static void *taken(void *memory)
{
    if (memory == NULL)
        fail("out of memory");
    return memory;
}

static uint64_t now_ns(void)
{
    struct timespec at;
    clock_gettime(CLOCK_MONOTONIC, &at);
    return (uint64_t)at.tv_sec * 1000000000 + (uint64_t)at.tv_nsec;
}

static void set_int32(uint8_t *at, int32_t value)
{
    uint32_t big = htonl((uint32_t)value);
    memcpy(at, &big, 4);
}

struct frame {
    size_t length;
    uint8_t data[MOST_FRAME];
};

static struct frame read_hex(void)
{
    static char word[2 * MOST_FRAME + 1];
    struct frame frame = {0};
    if (scanf("%1024s", word) != 1)
        fail("a frame is missing");
    for (frame.length = 0; word[2 * frame.length]; frame.length++)
        sscanf(word + 2 * frame.length, "%2hhx", &frame.data[frame.length]);
    return frame;
}

/* Writes all, whether the socket waits or not. */
static void send_all(int fd, const uint8_t *data, size_t count)
{
    while (count > 0) {
        ssize_t written = send(fd, data, count, MSG_NOSIGNAL);
        if (written < 0 && errno == EAGAIN) {
            struct pollfd wait = {.fd = fd, .events = POLLOUT};
            if (poll(&wait, 1, WRITE_SECONDS * 1000) == 0)
                fail("the server reads nothing any more");
            continue;
        }
        if (written <= 0)
            fail("a connection broke: %s", strerror(errno));
        data += written;
        count -= (size_t)written;
    }
}

/* ---- how long answers took: counts by tenths of a microsecond, up to a second */

enum { BUCKETS = 10000000 };

struct times {
    uint32_t *counts;
    uint64_t all;
};

static void count_time(struct times *times, uint64_t ns)
{
    times->counts[ns / 100 < BUCKETS ? ns / 100 : BUCKETS - 1]++;
    times->all++;
}

static double within_us(const struct times *times, double part)
{
    uint64_t wanted = (uint64_t)((double)times->all * part), seen = 0;
    int bucket = 0;
    while (bucket < BUCKETS && (seen += times->counts[bucket]) <= wanted)
        bucket++;
    return (bucket + 1) / 10.0;
}

/* ---- connections, with a member each */

struct line {
    int fd;
    struct frame beat, answer;
    uint32_t sent, heard; /* numbers of frames */
    uint64_t sent_at[MOST_DEPTH];
    uint8_t *input;
    size_t filled;
};

static struct line *read_lines(int *count)
{
    struct line *lines = NULL, line = {0};
    for (*count = 0; scanf("%d", &line.fd) == 1; lines[(*count)++] = line) {
        lines = taken(realloc(lines, (size_t)(*count + 1) * sizeof *lines));
        line.input = taken(malloc(READ_SIZE));
        line.beat = read_hex();
        line.answer = read_hex();
        fcntl(line.fd, F_SETFL, fcntl(line.fd, F_GETFL) | O_NONBLOCK);
    }
    return lines;
}

/* ---- the measurement */

struct sender {
    pthread_t thread;
    struct line *lines; /* every line; those of this thread are first, first + THREADS, .. */
    int count, first, depth, poll, waiting; /* waiting: the number of answers that are under way */
    uint64_t end, in_time; /* when nothing is sent any more, and the answers that came before it */
    struct times times;
};

static void send_beats(struct sender *sender, struct line *line, int count)
{
    static __thread uint8_t frames[MOST_DEPTH * MOST_FRAME];
    size_t length = 0;
    uint64_t now = now_ns();
    for (int at = 0; at < count; at++, line->sent++) {
        memcpy(frames + length, line->beat.data, line->beat.length);
        set_int32(frames + length + REQUEST_ID, (int32_t)(line->sent & INT32_MAX));
        length += line->beat.length;
        line->sent_at[line->sent % MOST_DEPTH] = now;
    }
    send_all(line->fd, frames, length);
    sender->waiting += count;
}

/* A reply must be what the member's steady heartbeat is answered, under this request's correlation id. */
static void check_reply(struct line *line, const uint8_t *found)
{
    struct frame *answer = &line->answer;
    size_t at = 0;
    set_int32(answer->data + REPLY_ID, (int32_t)(line->heard & INT32_MAX));
    while (at < answer->length && found[at] == answer->data[at])
        at++;
    if (at < answer->length)
        fail("reply %u of a connection has byte %02x at place %zu, and must have %02x", line->heard, found[at], at, answer->data[at]);
}

/* Reads once, and takes the whole replies. Gives how many there were. */
static int read_replies(struct sender *sender, struct line *line)
{
    ssize_t found = recv(line->fd, line->input + line->filled, READ_SIZE - line->filled, 0);
    if (found < 0 && errno == EAGAIN)
        return 0;
    if (found <= 0)
        fail("a connection ended while %u answers were under way", line->sent - line->heard);
    line->filled += (size_t)found;
    uint64_t now = now_ns();
    size_t at = 0;
    int count = 0;
    for (; line->heard != line->sent; count++, line->heard++) {
        if (line->filled - at < line->answer.length)
            break;
        check_reply(line, line->input + at);
        count_time(&sender->times, now - line->sent_at[line->heard % MOST_DEPTH]);
        at += line->answer.length;
    }
    if (line->heard == line->sent && at != line->filled)
        fail("bytes came that nothing was asked for");
    memmove(line->input, line->input + at, line->filled - at);
    line->filled -= at;
    sender->waiting -= count;
    sender->in_time += now < sender->end ? (uint64_t)count : 0;
    return count;
}

static void *send_and_read(void *argument)
{
    struct sender *sender = argument;
    for (int at = sender->first; at < sender->count; at += THREADS) {
        struct epoll_event event = {.events = EPOLLIN, .data.ptr = &sender->lines[at]};
        epoll_ctl(sender->poll, EPOLL_CTL_ADD, sender->lines[at].fd, &event);
        send_beats(sender, &sender->lines[at], sender->depth);
    }
    while (sender->waiting > 0) {
        struct epoll_event events[256];
        int ready = epoll_wait(sender->poll, events, 256, 1000);
        uint64_t now = now_ns();
        if (now > sender->end + DRAIN_SECONDS * 1000000000ull)
            fail("%d answers are missing after %d s", sender->waiting, DRAIN_SECONDS);
        for (int at = 0; at < ready; at++) {
            int answered = read_replies(sender, events[at].data.ptr);
            if (answered > 0 && now < sender->end)
                send_beats(sender, events[at].data.ptr, answered);
        }
    }
    return NULL;
}

static void measure(int depth, int seconds)
{
    int count;
    struct line *lines = read_lines(&count);
    struct sender senders[THREADS];
    uint64_t end = now_ns() + (uint64_t)seconds * 1000000000;
    for (int at = 0; at < THREADS; at++) {
        senders[at] = (struct sender){.lines = lines, .count = count, .first = at, .depth = depth, .end = end, .poll = epoll_create1(0)};
        senders[at].times.counts = taken(calloc(BUCKETS, sizeof *senders[at].times.counts));
        if (senders[at].poll < 0 || pthread_create(&senders[at].thread, NULL, send_and_read, &senders[at]) != 0)
            fail("no thread: %s", strerror(errno));
    }
    struct sender *all = &senders[0];
    for (int at = 0; at < THREADS; at++) {
        pthread_join(senders[at].thread, NULL);
        for (int bucket = 0; at > 0 && bucket < BUCKETS; bucket++)
            all->times.counts[bucket] += senders[at].times.counts[bucket];
        all->in_time += at > 0 ? senders[at].in_time : 0;
        all->times.all += at > 0 ? senders[at].times.all : 0;
    }
    printf("%f %lu ", (double)all->in_time / seconds, (unsigned long)all->times.all);
    printf("%f %f %f\n", within_us(&all->times, 0.5), within_us(&all->times, 0.99), within_us(&all->times, 0.999));
}

/* ---- the echo server: a thread for each connection */

static struct frame echo_answer;

/* Answers the whole frames of one read by one write. All frames that come are as long as the first. */
static void *echo(void *argument)
{
    int fd = (int)(intptr_t)argument;
    static __thread uint8_t input[MOST_DEPTH * MOST_FRAME], output[MOST_DEPTH * MOST_FRAME];
    size_t filled = 0;
    for (ssize_t found; (found = recv(fd, input + filled, sizeof input - filled, 0)) > 0;) {
        size_t at = 0, length = 0, size = 4 + (size_t)input[2] * 256 + input[3];
        for (filled += (size_t)found; filled - at >= size; at += size, length += echo_answer.length) {
            memcpy(output + length, echo_answer.data, echo_answer.length);
            memcpy(output + length + REPLY_ID, input + at + REQUEST_ID, 4);
        }
        memmove(input, input + at, filled -= at);
        send_all(fd, output, length);
    }
    close(fd);
    return NULL;
}

static void serve_echo(int listener)
{
    echo_answer = read_hex();
    for (int fd, yes = 1; (fd = accept(listener, NULL, NULL)) >= 0;) {
        pthread_t thread;
        setsockopt(fd, IPPROTO_TCP, TCP_NODELAY, &yes, sizeof yes);
        if (pthread_create(&thread, NULL, echo, (void *)(intptr_t)fd) != 0)
            fail("no thread: %s", strerror(errno));
        pthread_detach(thread);
    }
    fail("the echo takes no connection: %s", strerror(errno));
}

int main(int count, char **words)
{
    if (count != 3 && count != 4)
        fail("the script tools/load starts this");
    prctl(PR_SET_PDEATHSIG, SIGKILL);
    if (count == 3)
        serve_echo(atoi(words[2]));
    else
        measure(atoi(words[2]), atoi(words[3]));
    return 0;
}
